package broker_test

import (
	"context"
	"errors"
	"fmt"
	"io"
	"net/http"
	"net/http/httptest"
	"strings"
	"sync"
	"testing"
	"time"

	"pippinterm/broker"
	"pippinterm/internal/diff"
	"pippinterm/osb"
)

// A clockStore has a clock that the test sets ahead. It calls hooks that aren't nil.
type clockStore struct {
	broker.Store
	turn        sync.Mutex
	ahead       time.Duration
	isWild      bool // whether it has a time for what has no tombstone, too
	beforeStep  func(broker.Key)
	once        func(broker.Key) // before the next change
	afterStep   func() error     // an error of which ends the transaction
	afterCommit func() error
}

func (c *clockStore) at(snapshot broker.Snapshot) broker.Snapshot {
	c.turn.Lock()
	defer c.turn.Unlock()
	if snapshot.EndedAgo > 0 || c.isWild {
		snapshot.EndedAgo += c.ahead
	}
	return snapshot
}

func (c *clockStore) set(ahead time.Duration) {
	c.turn.Lock()
	defer c.turn.Unlock()
	c.ahead = ahead
}

func (c *clockStore) Read(ctx context.Context, key broker.Key) (broker.Snapshot, error) {
	snapshot, err := c.Store.Read(ctx, key)
	return c.at(snapshot), err
}

func (c *clockStore) Change(ctx context.Context, key broker.Key, step broker.Step) error {
	if hook := c.once; hook != nil {
		c.once = nil
		hook(key)
	}
	if c.beforeStep != nil {
		c.beforeStep(key)
	}
	err := c.Store.Change(ctx, key, func(snapshot broker.Snapshot) (*broker.Entry, error) {
		next, err := step(c.at(snapshot))
		if err == nil && c.afterStep != nil {
			err = c.afterStep()
		}
		return next, err
	})
	if err == nil && c.afterCommit != nil {
		err = c.afterCommit()
	}
	return err
}

// returnRecorder keeps the returns that it gets.
type returnRecorder struct {
	*recorder
	returns []broker.Return
}

func (r *returnRecorder) OnReturn(it broker.Return) {
	r.turn.Lock()
	defer r.turn.Unlock()
	r.returns = append(r.returns, it)
}

// Lives are those of a broker whose ids return after an hour, if nothing else is said.
type lives struct {
	*bench
	clock *clockStore
	seen  *returnRecorder
}

var anHour = broker.ServiceOptions{IDsReturnAfter: time.Hour}

func newLives(t *testing.T, backend broker.Backend, options broker.ServiceOptions) *lives {
	t.Helper()
	b := newBench(t, backend, newMemoryLocks())
	l := &lives{bench: b, clock: &clockStore{Store: b.store}, seen: &returnRecorder{recorder: b.observed}}
	b.Service = l.service(t, backend, newMemoryLocks(), options)
	return l
}

// service is one more broker over the same store.
func (l *lives) service(
	t *testing.T, backend broker.Backend, locks broker.Locks, options broker.ServiceOptions,
) *broker.Service {
	t.Helper()
	return broker.NewService(catalogueFor(t, catalogue), l.clock, backend, locks, options, l.seen)
}

// expect sends a request, and checks the status of its answer.
func (l *lives) expect(t *testing.T, status int, method, target, body string) *answer {
	t.Helper()
	given := message{method: method, target: target, body: []byte(body)}.serve(handlerFor(t, l.Service))
	if given.status != status {
		t.Errorf("%s %s: got %d %s, want %d", method, target, given.status, given.body, status)
	}
	return given
}

// ends creates and deletes the instance i.
func (l *lives) ends(t *testing.T) {
	t.Helper()
	l.expect(t, 201, "PUT", instances+"i", bodyOf(now, ""))
	l.expect(t, 200, "DELETE", instances+"i"+names(now), "")
}

// Without the option no id returns, however old its tombstone is.
func TestNoIDReturnsByDefault(t *testing.T) {
	l := newLives(t, newShelf(calm), broker.ServiceOptions{})
	l.ends(t)
	l.clock.set(1e6 * time.Hour)
	given := l.expect(t, 409, "PUT", instances+"i", bodyOf(now, ""))
	if !strings.Contains(string(given.body), "An id is never used again") || len(l.seen.returns) > 0 {
		t.Errorf("got %s, and %v returned, want a rejection and none", given.body, l.seen.returns)
	}
	if entry := l.entry(t, keyOf("i")); !entry.Holding.HasTombstone() || entry.Life != 0 {
		t.Errorf("got %+v, want a tombstone of life 0", entry)
	}
}

// An id returns once its tombstone is old enough, as often as it ends. Each return is reported once.
func TestAnIDReturns(t *testing.T) {
	one, shelf := instances+"i", newShelf(calm)
	l := newLives(t, shelf, anHour)
	l.ends(t)
	for life := int64(1); life <= 3; life++ {
		l.clock.set(time.Hour - time.Minute)
		given := l.expect(t, 409, "PUT", one, bodyOf(now, ""))
		if !strings.Contains(string(given.body), "used again 3600 seconds after its end") {
			t.Errorf("got %s, want when the id can be used again", given.body)
		}
		l.clock.set(time.Hour)
		l.expect(t, 201, "PUT", one, bodyOf(now, `,"parameters":{"life":`+string(rune('0'+life))+`}`))
		l.expect(t, 200, "PUT", one, bodyOf(now, `,"parameters":{"life":`+string(rune('0'+life))+`}`))
		if entry := l.entry(t, keyOf("i")); entry.Life != life || shelf.there(keyOf("i")) != broker.Whole {
			t.Errorf("life %d: got %+v, want the instance in it", life, entry)
		}
		if got := l.seen.returns; len(got) != int(life) || got[life-1].Key != keyOf("i") || got[life-1].RequestID == "" ||
			got[life-1].EndedAgo < time.Hour || got[life-1].EndedAgo > time.Hour+time.Minute {
			t.Errorf("the returns: got %+v, want that of this life, an hour after its end", got)
		}
		l.expect(t, 200, "DELETE", one+names(now), "")
		if entry := l.entry(t, keyOf("i")); entry.Life != life || !entry.Holding.HasTombstone() {
			t.Errorf("after life %d: got %+v, want a tombstone", life, entry)
		}
	}
}

// Only a creation that begins something lets an id return. All else leaves the tombstone.
func TestWhatLetsNoIDReturn(t *testing.T) {
	one := instances + "i"
	l := newLives(t, newShelf(calm), anHour)
	l.ends(t)
	l.clock.set(time.Hour)
	l.expect(t, 410, "GET", one+"/last_operation", "")
	l.expect(t, 410, "DELETE", one+names(now), "")
	l.expect(t, 400, "PUT", one, bodyOf("ff", ""))
	l.expect(t, 422, "PUT", one, bodyOf(later, ""))
	if entry := l.entry(t, keyOf("i")); !entry.Holding.HasTombstone() || entry.Life != 0 || len(l.seen.returns) > 0 {
		t.Errorf("got %+v, and %v returned, want a tombstone and none", entry, l.seen.returns)
	}
	l.expect(t, 202, "PUT", one+query, bodyOf(later, ""))
	if row, isHeld := l.holding(t, keyOf("i")).Row(); !isHeld || row.Phase != osb.PhaseMaking {
		t.Errorf("got %v held, want a row in making", row)
	}
}

// A deletion that is pending, goes on or has failed hasn't ended, whatever the clock says.
func TestADeletionThatHasNotEnded(t *testing.T) {
	one, key, backend := instances+"i", keyOf("i"), &blind{shelf: newShelf(calm)}
	l := newLives(t, backend, anHour)
	l.clock.set(1e6 * time.Hour)
	l.clock.isWild = true
	l.expect(t, 201, "PUT", one, bodyOf(now, ""))
	backend.because("the backend is away")
	l.expect(t, 500, "DELETE", one+names(now), "")
	l.expect(t, 503, "PUT", one, bodyOf(now, ""))
	if !l.isPending(t, key) || l.entry(t, key).Life != 0 {
		t.Errorf("got %+v, want pending work in life 0", l.entry(t, key))
	}
	two := instances + "j"
	backend.because("")
	l.expect(t, 202, "PUT", two+query, bodyOf(later, ""))
	check(t, l.TakeUp(context.Background(), keyOf("j")))
	l.expect(t, 202, "DELETE", two+names(later)+"&accepts_incomplete=true", "")
	l.expect(t, 422, "PUT", two+query, bodyOf(later, ""))
	if row, _ := l.holding(t, keyOf("j")).Row(); row.Phase != osb.PhaseDeleting || len(l.seen.returns) > 0 {
		t.Errorf("got %v held, and %v returned, want a row in deleting and none", row, l.seen.returns)
	}
}

var errKilled = errors.New("the broker is killed")

// The tombstone goes and the new life begins in one transaction, or neither.
func TestABrokerIsKilledWhileAnIDReturns(t *testing.T) {
	key := keyOf("i")
	killed := func() error { return errKilled }
	for _, test := range []struct {
		name      string
		kill      func(*clockStore)
		isWritten bool
	}{
		{"before the commit", func(c *clockStore) { c.afterStep = killed }, false},
		{"after the commit", func(c *clockStore) { c.afterCommit = killed }, true},
	} {
		t.Run(test.name, func(t *testing.T) {
			shelf := newShelf(calm)
			l := newLives(t, shelf, anHour)
			l.ends(t)
			l.clock.set(time.Hour)
			test.kill(l.clock)
			l.expect(t, 500, "PUT", instances+"i", bodyOf(now, ""))
			l.clock.afterStep, l.clock.afterCommit = nil, nil
			entry := l.entry(t, key)
			if l.isPending(t, key) != test.isWritten || entry.Holding.HasTombstone() == test.isWritten ||
				(entry.Life == 1) != test.isWritten || shelf.there(key) != broker.None || len(l.seen.returns) > 0 {
				t.Errorf("got %+v, and %v returned, want life 1 exactly if it is written, and no return", entry, l.seen.returns)
			}
			if !test.isWritten {
				return
			}
			l.Service = l.service(t, shelf, newMemoryLocks(), anHour) // the next one
			check(t, l.TakeUp(context.Background(), key))
			l.expect(t, 200, "PUT", instances+"i", bodyOf(now, ""))
		})
	}
}

// Of two brokers that find the same tombstone one lets the id return. Its request alone has its resource created.
func TestTwoBrokersFindOneTombstone(t *testing.T) {
	shelf, locks := newShelf(calm), newMemoryLocks()
	l := newLives(t, shelf, anHour)
	l.ends(t)
	l.clock.set(time.Hour)
	created := 0
	shelf.worked = func(_ broker.Key, there broker.There, _ string) {
		if there == broker.Whole {
			created++ // under the lock of the key
		}
	}
	var gate, all sync.WaitGroup
	gate.Add(2)
	var once [2]sync.Once
	statuses := make([]int, 2)
	for n := range statuses {
		n := n
		mine := *l
		mine.clock = &clockStore{Store: l.store, ahead: time.Hour, beforeStep: func(broker.Key) {
			once[n].Do(func() { gate.Done(); gate.Wait() })
		}}
		handler := handlerFor(t, mine.service(t, shelf, locks, anHour))
		all.Add(1)
		go func() {
			defer all.Done()
			body := bodyOf(now, `,"parameters":{"of":`+string(rune('0'+n))+`}`)
			statuses[n] = message{method: "PUT", target: instances + "i", body: []byte(body)}.serve(handler).status
		}()
	}
	all.Wait()
	isOne := statuses[0] == 201 && statuses[1] == 409 || statuses[0] == 409 && statuses[1] == 201
	if entry := l.entry(t, keyOf("i")); !isOne || created != 1 || entry.Life != 1 || len(l.seen.returns) != 1 {
		t.Errorf("got the answers %v, %d creations, the returns %v and %+v, want one creation in life 1", statuses, created,
			l.seen.returns, entry)
	}
}

// The id of a binding returns too, while its instance lives on.
func TestABindingReturns(t *testing.T) {
	one := instances + "i"
	bound, key := one+"/service_bindings/b", osb.BindingKey(keyOf("i").Instance, keyOf("b").Instance)
	l := newLives(t, newShelf(calm), anHour)
	l.expect(t, 201, "PUT", one, bodyOf(now, ""))
	first := l.expect(t, 201, "PUT", bound, bodyOf(now, ""))
	l.expect(t, 200, "DELETE", bound+names(now), "")
	l.clock.set(time.Hour - time.Minute)
	l.expect(t, 409, "PUT", bound, bodyOf(now, ""))
	l.clock.set(time.Hour)
	second := l.expect(t, 201, "PUT", bound, bodyOf(now, ""))
	if string(first.body) == string(second.body) {
		t.Errorf("got %s twice, want another object in the second life", second.body)
	}
	l.expect(t, 200, "GET", bound, "")
	if got := l.seen.returns; len(got) != 1 || got[0].Key != key {
		t.Errorf("the returns: got %v, want one", got)
	}
	diff.Equal(t, l.entry(t, keyOf("i")).Life, 0, "the life of the instance")
}

// boundTwice is the instance i in its second life, whose binding b was deleted in the first one. No tombstone is old
// enough to be passed over.
func boundTwice(t *testing.T) (l *lives, bound string) {
	t.Helper()
	one := instances + "i"
	bound = one + "/service_bindings/b"
	l = newLives(t, newShelf(calm), anHour)
	l.expect(t, 201, "PUT", one, bodyOf(now, ""))
	l.expect(t, 201, "PUT", bound, bodyOf(now, ""))
	l.expect(t, 200, "DELETE", bound+names(now), "")
	l.expect(t, 200, "DELETE", one+names(now), "")
	l.clock.set(time.Hour)
	l.expect(t, 201, "PUT", one, bodyOf(now, ""))
	l.clock.set(0)
	return l, bound
}

// The tombstones of the bindings of the old life are not in the way of the new one, and aren't taken for its own.
func TestBindingsOfTheOldLife(t *testing.T) {
	key := osb.BindingKey(keyOf("i").Instance, keyOf("b").Instance)
	l, bound := boundTwice(t)
	l.expect(t, 201, "PUT", bound, bodyOf(now, ""))
	if entry := l.entry(t, key); !entry.Holding.IsHeld() || entry.Life != 1 {
		t.Errorf("got %+v, want an instance that is held in life 1", entry)
	}
	l.expect(t, 422, "DELETE", instances+"i"+names(now), "")
	l.expect(t, 200, "DELETE", bound+names(now), "")
	l.expect(t, 409, "PUT", bound, bodyOf(now, ""))

	l, bound = boundTwice(t)
	l.expect(t, 404, "GET", bound, "")
	l.expect(t, 410, "GET", bound+"/last_operation", "")
	l.expect(t, 410, "DELETE", bound+names(now), "")
	l.expect(t, 409, "PUT", bound, bodyOf(now, "")) // by the tombstone that the Unbind has left in this life
	if entry := l.entry(t, key); !entry.Holding.HasTombstone() || entry.Life != 1 {
		t.Errorf("got %+v, want a tombstone of life 1", entry)
	}
}

// A binding that a broker without lives has written is held all the same.
func TestABindingOfAnEarlierVersion(t *testing.T) {
	key := osb.BindingKey(keyOf("i").Instance, keyOf("b").Instance)
	l, bound := boundTwice(t)
	l.expect(t, 201, "PUT", bound, bodyOf(now, ""))
	err := l.store.Change(context.Background(), key, func(snapshot broker.Snapshot) (*broker.Entry, error) {
		snapshot.Life = 0
		return &snapshot.Entry, nil
	})
	check(t, err)
	l.expect(t, 200, "GET", bound, "")
	l.expect(t, 422, "DELETE", instances+"i"+names(now), "")
	l.expect(t, 200, "DELETE", bound+names(now), "")
	l.expect(t, 409, "PUT", bound, bodyOf(now, ""))
}

// A worker of the old life whose lock was lost ends nothing of the new life.
func TestALateWorkerOfTheOldLife(t *testing.T) {
	ctx, key := context.Background(), keyOf("i")
	backend := &overtakenBackend{shelf: newShelf(calm)}
	l := newLives(t, backend, anHour)
	old := l.service(t, backend, losableLocks{newMemoryLocks()}, anHour)
	backend.overtake = func(broker.Key) {
		backend.overtake = nil
		other := l.service(t, backend, losableLocks{newMemoryLocks()}, anHour)
		diff.NoError(t, other.TakeUp(ctx, key), "")
		if given, err := other.Handle(ctx, deprovision(now)); err != nil || given.Status != 200 {
			t.Errorf("got %+v and the error %v, want 200", given, err)
		}
		l.clock.set(time.Hour)
		hangs := l.service(t, away{backend.shelf}, losableLocks{newMemoryLocks()}, anHour)
		_, err := hangs.Handle(ctx, provision(now))
		diff.ErrorIs(t, err, broker.ErrNobodyKnows, "a creation while the backend is away")
	}
	if given, err := old.Handle(ctx, provision(now)); !errors.Is(err, broker.ErrLostWork) {
		t.Errorf("got %+v, %v, want %v", given, err, broker.ErrLostWork)
	}
	if entry := l.entry(t, key); !l.isPending(t, key) || entry.Life != 1 {
		t.Errorf("got %+v, want pending work in life 1", entry)
	}
}

// A request that a broker has kept for too long changes nothing: it may be one of the old life. If no id returns, it
// doesn't matter how long that was.
func TestALateRequestOfTheOldLife(t *testing.T) {
	ctx := context.Background()
	for _, options := range []broker.ServiceOptions{anHour, {}} {
		t.Run(fmt.Sprintf("ids return %t", options.IDsReturnAfter > 0), func(t *testing.T) {
			l := newLives(t, newShelf(calm), options)
			if given, err := l.Handle(ctx, provision(now)); err != nil || given.Status != http.StatusCreated {
				t.Fatalf("got %+v, %v, want 201", given, err)
			}
			late := deprovision(now)
			late.Arrived = time.Now().Add(-2 * time.Minute)
			given, err := l.Handle(ctx, late)
			isPutOff := errors.Is(err, broker.ErrAway)
			if isPutOff != (options.IDsReturnAfter > 0) || isPutOff == (given.Status == http.StatusOK) {
				t.Errorf("got %+v and the error %v, want it put off if ids return, and else 200", given, err)
			}
			if l.holding(t, keyOf("i")).IsHeld() != isPutOff {
				t.Errorf("got %+v, want the instance held if the deletion is put off", l.entry(t, keyOf("i")))
			}
		})
	}
	l := newLives(t, newShelf(calm), anHour)
	l.SetStay(-1) // the handler knows when its request has arrived
	l.expect(t, 503, "PUT", instances+"i", bodyOf(now, ""))
	l.expect(t, 503, "GET", instances+"i/last_operation", "")
}

// If a broker is stopped right before the transaction of a request, and its id has returned when the broker goes on, the
// request is late too.
func TestARequestStoppedBeforeItsTransaction(t *testing.T) {
	one, key := instances+"i", keyOf("i")
	for name, late := range map[string]broker.Visit{"creation": provision(now), "deletion": deprovision(now)} {
		t.Run(name, func(t *testing.T) {
			l := newLives(t, newShelf(calm), anHour)
			l.expect(t, 201, "PUT", one, bodyOf(now, ""))
			stopped := l.service(t, newShelf(calm), losableLocks{newMemoryLocks()}, anHour)
			l.clock.once = func(broker.Key) {
				l.expect(t, 200, "DELETE", one+names(now), "")
				l.clock.set(time.Hour)
				l.expect(t, 201, "PUT", one, bodyOf(now, ""))
				stopped.SetStay(-1)
			}
			late.Arrived, late.Names.Instance = time.Now(), "i"
			given, err := stopped.Handle(context.Background(), late)
			diff.ErrorIs(t, err, broker.ErrAway, "got %+v", given)
			if entry := l.entry(t, key); !entry.Holding.IsHeld() || entry.Life != 1 {
				t.Errorf("got %+v, want an instance that is held in life 1", entry)
			}
		})
	}
}

// An arrivalJournal keeps when the latest request has arrived.
type arrivalJournal struct {
	scribe
	arrived time.Time
}

func (a *arrivalJournal) OnArrival(ctx context.Context, _ *http.Request, _ string, visit broker.Visit) context.Context {
	a.arrived = visit.Arrived
	return ctx
}

// A timedBody notes when it is read first.
type timedBody struct {
	io.Reader
	read time.Time
}

func (b *timedBody) Read(into []byte) (int, error) {
	if b.read.IsZero() {
		b.read = time.Now()
	}
	return b.Reader.Read(into)
}

// A request has arrived before its body, which may take long.
func TestArrivalBeforeTheBody(t *testing.T) {
	l, journal := newLives(t, newShelf(calm), anHour), &arrivalJournal{}
	handler := handlerFor(t, l.Service)
	handler.Journal = journal
	body := &timedBody{Reader: strings.NewReader(bodyOf(now, ""))}
	request := httptest.NewRequest("PUT", instances+"i", body)
	request.SetBasicAuth("u", "p")
	request.Header.Set(osb.VersionHeader, osb.VersionSent)
	given := httptest.NewRecorder()
	handler.ServeHTTP(given, request)
	if given.Code != http.StatusCreated || journal.arrived.IsZero() || journal.arrived.After(body.read) {
		t.Errorf("got %d to a request that has arrived at %v, want 201, and before %v", given.Code, journal.arrived, body.read)
	}
}

// A broker that gives up waiting for the first Poll does so only in the life that has waited for long.
func TestALateEndOfWaiting(t *testing.T) {
	ctx, one, key := context.Background(), instances+"i", keyOf("i")
	options := broker.ServiceOptions{IDsReturnAfter: time.Hour, FirstPoll: true, WaitForPoll: time.Minute}
	l := newLives(t, newShelf(calm), options)
	l.expect(t, 202, "PUT", one+query, bodyOf(later, ""))
	l.since(t, key, time.Hour)
	l.clock.once = func(broker.Key) {
		l.expect(t, 200, "DELETE", one+names(later)+"&accepts_incomplete=true", "")
		l.clock.set(time.Hour)
		l.expect(t, 202, "PUT", one+query, bodyOf(later, ""))
	}
	check(t, l.TakeUp(ctx, key))
	if row, _ := l.holding(t, key).Row(); row.Phase != osb.PhaseWaiting || l.entry(t, key).Life != 1 {
		t.Errorf("got %+v held, want a row in waiting of life 1", l.entry(t, key))
	}
}

// A pausedStore has something happen after a read. In each transaction, a request is late that has arrived before the
// latest read, and no other one.
type pausedStore struct {
	broker.Store
	meanwhile func()
	setStay   func(time.Duration)
	began     time.Time
}

func (p *pausedStore) Read(ctx context.Context, key broker.Key) (broker.Snapshot, error) {
	p.began = time.Now()
	snapshot, err := p.Store.Read(ctx, key)
	p.meanwhile()
	return snapshot, err
}

func (p *pausedStore) Change(ctx context.Context, key broker.Key, step broker.Step) error {
	return p.Store.Change(ctx, key, func(snapshot broker.Snapshot) (*broker.Entry, error) {
		p.setStay(time.Since(p.began))
		return step(snapshot)
	})
}

// An Unbind of the broker's own, of a binding whose creation has failed, isn't begun late either. Its time begins before
// the binding is read.
func TestALateUnbindOfAFailedBinding(t *testing.T) {
	ctx, one, mood := context.Background(), instances+"i", 9
	bound := one + "/service_bindings/b"
	l := newLives(t, newShelf(func() int { return mood }), anHour)
	l.expect(t, 202, "PUT", one+query, bodyOf(later, ""))
	key := osb.BindingKey(keyOf("i").Instance, keyOf("b").Instance)
	check(t, l.TakeUp(ctx, keyOf("i")))
	mood = 0
	l.expect(t, 202, "PUT", bound+query, bodyOf(later, ""))
	check(t, l.TakeUp(ctx, key))
	isPutOff := func(t *testing.T, service *broker.Service) {
		t.Helper()
		if begun, err := service.UnbindFailed(ctx, key.Instance); !errors.Is(err, broker.ErrAway) || len(begun) > 0 {
			t.Errorf("got %v begun, %v, want none and %v", begun, err, broker.ErrAway)
		}
		if row, _ := l.holding(t, key).Row(); row.Phase != osb.PhaseFailed {
			t.Errorf("got %+v held, want a failed row", l.entry(t, key))
		}
	}
	t.Run("paused after the read", func(t *testing.T) {
		paused := &pausedStore{Store: l.clock, meanwhile: func() {
			l.expect(t, 202, "PUT", instances+"j"+query, bodyOf(later, "")) // others go on
			l.expect(t, 200, "GET", instances+"j/last_operation", "")
		}}
		service := broker.NewService(
			catalogueFor(t, catalogue), paused, newShelf(calm), newMemoryLocks(), anHour, l.seen)
		paused.setStay = service.SetStay
		isPutOff(t, service)
	})
	t.Run("late", func(t *testing.T) {
		l.SetStay(-1)
		isPutOff(t, l.Service)
	})
}

// The catalogue of a broker whose ids return doesn't say that none ever does.
func TestCatalogueOfIDsThatReturn(t *testing.T) {
	for _, test := range []struct {
		options broker.ServiceOptions
		says    string
	}{{broker.ServiceOptions{}, `"x-osb-tombstones":true`}, {anHour, `"x-osb-tombstones":false`}} {
		t.Run(test.says, func(t *testing.T) {
			l := newLives(t, newShelf(calm), test.options)
			given := l.expect(t, 200, "GET", "/v2/catalog", "")
			if !strings.Contains(string(given.body), test.says) || strings.Count(string(given.body), "x-osb-tombstones") != 1 ||
				!strings.Contains(string(given.body), "00000000-0000-0000-0000-0000000000c4") {
				t.Errorf("got %s, want the catalogue with %s once", given.body, test.says)
			}
		})
	}
}

// A Fetch that a broker has kept for too long isn't answered with credentials: they may be of another life.
func TestALateFetchOfTheOldLife(t *testing.T) {
	bound := instances + "i/service_bindings/b"
	for _, options := range []broker.ServiceOptions{anHour, {}} {
		t.Run(fmt.Sprintf("ids return %t", options.IDsReturnAfter > 0), func(t *testing.T) {
			l, status := newLives(t, newShelf(calm), options), http.StatusOK
			if options.IDsReturnAfter > 0 {
				status = http.StatusServiceUnavailable
			}
			l.expect(t, 201, "PUT", instances+"i", bodyOf(now, ""))
			l.expect(t, 201, "PUT", bound, bodyOf(now, ""))
			l.expect(t, 200, "GET", bound, "")
			l.SetStay(-1)
			l.expect(t, status, "GET", bound, "")
		})
	}
}

// A deletion that finds a tombstone makes it young, if ids return: the platform may have sent it after a creation that
// is still under way. Without the option, and after any other request, the tombstone keeps its age.
func TestADeletionRenewsATombstone(t *testing.T) {
	const pause, inexact = 100 * time.Millisecond, 10 * time.Millisecond
	one := instances + "i"
	bound, binding := one+"/service_bindings/b", osb.BindingKey(keyOf("i").Instance, keyOf("b").Instance)
	for _, options := range []broker.ServiceOptions{anHour, {}} {
		t.Run(fmt.Sprintf("ids return %t", options.IDsReturnAfter > 0), func(t *testing.T) {
			l := newLives(t, newShelf(calm), options)
			l.expect(t, 201, "PUT", one, bodyOf(now, ""))
			l.expect(t, 201, "PUT", bound, bodyOf(now, ""))
			for _, test := range []struct {
				target string
				key    broker.Key
			}{{bound, binding}, {one, keyOf("i")}} {
				l.expect(t, 200, "DELETE", test.target+names(now), "")
				time.Sleep(pause)
				l.expect(t, 410, "GET", test.target+"/last_operation", "")
				l.expect(t, 409, "PUT", test.target, bodyOf(now, ""))
				if age := l.age(t, test.key); age < pause {
					t.Errorf("%v: got the age %v after a Poll and a creation, want at least %v", test.key, age, pause)
				}
				again := time.Now()
				l.expect(t, 410, "DELETE", test.target+names(now), "")
				age := l.age(t, test.key)
				if isYoung := age <= time.Since(again)+inexact; isYoung != (options.IDsReturnAfter > 0) {
					t.Errorf("%v: got the age %v after a deletion, want a new one exactly if ids return", test.key, age)
				}
			}
		})
	}
}

// age is how old a tombstone is.
func (l *lives) age(t *testing.T, key broker.Key) time.Duration {
	t.Helper()
	snapshot, err := l.store.Read(context.Background(), key)
	if err != nil || !snapshot.Holding.HasTombstone() {
		t.Fatalf("%v: got %+v, %v, want a tombstone", key, snapshot.Entry, err)
	}
	return snapshot.EndedAgo
}

// A notingBackend keeps the requests by which instances were created.
type notingBackend struct {
	*shelf
	created []broker.Request
}

func (n *notingBackend) Create(ctx context.Context, request broker.Request) error {
	n.created = append(n.created, request)
	return n.shelf.Create(ctx, request)
}

// A worker of the old life that lost its lock before it took the key over creates nothing by the request of the old life.
func TestALateOperationOfTheOldLife(t *testing.T) {
	ctx, one, key := context.Background(), instances+"i", keyOf("i")
	backend := &notingBackend{shelf: newShelf(calm)}
	l := newLives(t, backend, anHour)
	old := l.service(t, backend, losableLocks{newMemoryLocks()}, anHour)
	l.Service = l.service(t, backend, losableLocks{newMemoryLocks()}, anHour)
	takeUp := func() {
		diff.NoError(t, l.TakeUp(ctx, key), "")
	}
	l.expect(t, 202, "PUT", one+query, bodyOf(later, `,"parameters":{"life":0}`))
	l.clock.once = func(broker.Key) {
		takeUp()
		l.expect(t, 202, "DELETE", one+names(later)+"&accepts_incomplete=true", "")
		takeUp()
		l.clock.set(time.Hour)
		l.expect(t, 202, "PUT", one+query, bodyOf(later, `,"parameters":{"life":1}`))
	}
	check(t, old.TakeUp(ctx, key))
	takeUp()
	l.expect(t, 200, "GET", one+"/last_operation", "")
	for life, request := range backend.created {
		if !strings.Contains(string(request.Body), `{"life":`+string(rune('0'+life))+`}`) {
			t.Errorf("life %d: got the body %s, want its number", life, request.Body)
		}
	}
	if row, _ := l.holding(t, key).Row(); len(backend.created) != 2 || row.Phase != osb.PhaseReady {
		t.Errorf("got %d creations and %+v, want 2 and a row that is ready", len(backend.created), l.entry(t, key))
	}
}

// A worker that lost its lock before it took the key over does nothing if the operation has ended.
func TestAnOperationThatHasEnded(t *testing.T) {
	ctx, one, key := context.Background(), instances+"i", keyOf("i")
	backend := &notingBackend{shelf: newShelf(calm)}
	l := newLives(t, backend, anHour)
	l.Service = l.service(t, backend, losableLocks{newMemoryLocks()}, anHour)
	l.expect(t, 202, "PUT", one+query, bodyOf(later, ""))
	other := l.service(t, backend, losableLocks{newMemoryLocks()}, anHour)
	l.clock.once = func(broker.Key) {
		diff.NoError(t, other.TakeUp(ctx, key), "")
	}
	check(t, l.TakeUp(ctx, key))
	row, _ := l.holding(t, key).Row()
	if row.Phase != osb.PhaseReady || backend.there(key) != broker.Whole || len(backend.created) != 1 {
		t.Errorf("got it %v, %d creations and %+v, want it whole, 1 and a row that is ready", backend.there(key),
			len(backend.created), row)
	}
}
