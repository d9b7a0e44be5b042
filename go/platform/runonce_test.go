package platform

import (
	"context"
	"errors"
	"strings"
	"sync"
	"sync/atomic"
	"testing"
	"time"

	"pippinterm/internal/diff"
)

func TestRunOnce(t *testing.T) {
	p := newPlant(t, Options{})
	check(t, p.engine.RunOnce(background)) // it has the catalogue
	key := p.create(NewInstance{})
	check(t, p.engine.RunOnce(background))
	diff.Equal(t, diff.Value(p.store.Read(background, key))(t).State, Ready, "")
	p.engine.Exchange = 50 * time.Millisecond
	p.set(func() {
		p.line.catalogue = func(Broker) (string, int, error) { return "", 0, errors.New("it is down") }
	})
	if err := p.engine.RunOnce(background); !errors.Is(err, ErrUnreached) || !strings.Contains(err.Error(), "shelf") {
		t.Errorf("got %v, want %v of shelf", err, ErrUnreached)
	}
	p.store.setAway(ErrAway)
	diff.ErrorIs(t, p.engine.RunOnce(background), ErrAway, "")
}

// A balky store fails at one kind of call: at each Claim, or at each NextDue after a Claim.
type balky struct {
	*memory
	call    string
	claimed atomic.Bool
}

func (b *balky) Claim(ctx context.Context, brokers []string, most int, step Step) ([]ClaimedRow, error) {
	b.claimed.Store(true)
	if b.call == "Claim" {
		return nil, errStore
	}
	return b.memory.Claim(ctx, brokers, most, step)
}

func (b *balky) NextDue(ctx context.Context, brokers []string) (due, now time.Time, err error) {
	if b.call == "NextDue" && b.claimed.Load() {
		return due, now, errStore
	}
	return b.memory.NextDue(ctx, brokers)
}

// A store that fails while the orders are done ends a RunOnce with its error.
func TestRunOnceOverAStoreThatFails(t *testing.T) {
	for _, call := range []string{"Claim", "NextDue"} {
		p := newPlant(t, Options{})
		store := &balky{memory: p.store, call: call}
		engine := NewEngine(store, p.line, seal{}, p.engine.Options, p.line)
		diff.ErrorIs(t, engine.RunOnce(background), errStore, "%s", call)
	}
}

// Rows whose steps always fail keep no other order waiting, though they are due the longest, and though there are more
// of them than are claimed at once. Neither does RunOnce end before it has claimed the other.
func TestPoisonedRows(t *testing.T) {
	const poisoned = 20
	for _, runsOnce := range []bool{false, true} {
		p := newPlant(t, Options{AtOnce: 4})
		check(t, p.engine.RunOnce(background)) // it has the catalogue
		bad := map[Key]bool{}
		for n := 0; n < poisoned; n++ {
			bad[p.create(NewInstance{})] = true
		}
		p.store.mu.Lock()
		for key := range bad {
			e := p.store.rows[key]
			e.Due = e.Due.Add(-time.Hour)
			p.store.rows[key] = e
		}
		p.store.unreadable = bad
		p.store.mu.Unlock()
		key := p.create(NewInstance{})
		if runsOnce {
			check(t, p.engine.RunOnce(background))
		} else {
			p.engine.Look = time.Hour // what is due is found without it
			p.start(background)
		}
		p.untilState(key, Ready)
		for broker := range bad {
			diff.Equal(t, diff.Value(p.store.Read(background, broker))(t).State, Ordered, "%v", broker)
		}
	}
}

// A broker that refuses the password in a RunOnce wasn't reached.
func TestRunOnceRefused(t *testing.T) {
	p := newPlant(t, Options{})
	check(t, p.engine.RunOnce(background))
	key := p.create(NewInstance{})
	p.line.exchange = func(_ context.Context, out Outgoing) Incoming {
		p.set(func() {
			p.line.catalogue = func(Broker) (string, int, error) { return "", 401, errors.New("wrong password") }
		})
		return (&reply{401, []byte(`{}`)}).incoming(out)
	}
	diff.ErrorIs(t, p.engine.RunOnce(background), ErrUnreached, "")
	p.untilState(key, Cleaning)
}

// A broker that refuses the password isn't waited for: the orders of others are done, and the error says why.
func TestRunOnceRefusedAtFirst(t *testing.T) {
	for _, status := range []int{401, 403, 412} {
		p := newPlant(t, Options{}) // an exchange lasts a minute
		p.addBroker("drawer")
		p.line.catalogue = func(broker Broker) (string, int, error) {
			if broker.Name == "drawer" {
				return "", status, errors.New("no")
			}
			return sold, 200, nil
		}
		begun := time.Now()
		if err := p.engine.RunOnce(background); !errors.Is(err, ErrUnreached) || !strings.Contains(err.Error(), "drawer: no") {
			t.Errorf("%d: got %v, want ErrUnreached with the error of the broker drawer", status, err)
		}
		key := p.create(NewInstance{})
		diff.ErrorIs(t, p.engine.RunOnce(background), ErrUnreached, "%d", status)
		diff.AtMost(t, time.Since(begun), 30*time.Second, "%d", status)
		diff.Equal(t, diff.Value(p.store.Read(background, key))(t).State, Ready,
			"%d: the order of the other broker", status)
	}
}

// A broker that hasn't answered its catalogue in time wasn't reached, and the error names it.
func TestRunOnceOfASilentBroker(t *testing.T) {
	p := newPlant(t, Options{})
	p.engine.Exchange = 20 * time.Millisecond
	p.line.catalogue = func(Broker) (string, int, error) {
		time.Sleep(10 * p.engine.Exchange)
		return "", 0, errors.New("it is silent")
	}
	if err := p.engine.RunOnce(background); !errors.Is(err, ErrUnreached) || !strings.Contains(err.Error(), "shelf") {
		t.Errorf("got %v, want %v of shelf", err, ErrUnreached)
	}
}

// A broker that isn't there yet is waited for.
func TestRunOnceWaits(t *testing.T) {
	p := newPlant(t, Options{})
	var asked atomic.Int32
	p.line.catalogue = func(Broker) (string, int, error) {
		if n := asked.Add(1); n < 3 {
			return "", []int{0, 503, 404}[n], errors.New("it starts")
		}
		return sold, 200, nil
	}
	if err := p.engine.RunOnce(background); err != nil || asked.Load() != 3 {
		t.Errorf("got %d requests and %v, want 3 and no error", asked.Load(), err)
	}
}

// What is in flight at the stop is answered and written before RunOnceUntil returns, and nothing else is begun.
func TestRunOnceStops(t *testing.T) {
	p := newPlant(t, Options{AtOnce: 1})
	check(t, p.engine.RunOnce(background))
	arrived, answer := make(chan struct{}, 10), make(chan struct{})
	usual := p.line.exchange
	p.line.exchange = func(ctx context.Context, out Outgoing) Incoming {
		arrived <- struct{}{}
		<-answer
		return usual(ctx, out)
	}
	keys := []Key{p.create(NewInstance{}), p.create(NewInstance{})}
	stop, ended := make(chan struct{}), make(chan error, 1)
	go func() { ended <- p.engine.RunOnceUntil(background, stop) }()
	<-arrived
	close(stop)
	select {
	case err := <-ended:
		t.Fatalf("while a request is in flight: got %v, want it to wait", err)
	case <-time.After(20 * time.Millisecond):
	}
	close(answer)
	check(t, <-ended)
	states := map[State]int{}
	for _, key := range keys {
		e := diff.Value(p.store.Read(background, key))(t)
		states[e.State]++
	}
	if states[Ready] != 1 || states[Ordered] != 1 || len(arrived) > 0 {
		t.Errorf("got %v, and %d further requests, want one ready, one ordered and none", states, len(arrived))
	}
}

// A row that another transaction has locked for a moment is waited for.
func TestRunOnceBesideATransaction(t *testing.T) {
	p := newPlant(t, Options{})
	check(t, p.engine.RunOnce(background)) // it has the catalogue
	key := p.create(NewInstance{})
	isLocked, passedOver, changed := make(chan struct{}), make(chan struct{}), make(chan error, 1)
	var once sync.Once
	p.store.between = func(point string, _ Key) {
		if point == "claim-commit" {
			once.Do(func() { close(passedOver) })
		}
	}
	go func() {
		changed <- p.store.Change(background, key, func(time.Time, Snapshot) (*Change, error) {
			close(isLocked)
			select {
			case <-passedOver:
				return nil, nil
			case <-time.After(patience):
				return nil, errors.New("nothing is claimed")
			}
		})
	}()
	<-isLocked
	check(t, p.engine.RunOnce(background))
	check(t, <-changed)
	diff.Equal(t, diff.Value(p.store.Read(background, key))(t).State, Ready, "")
}

// A shy store passes over all rows in so many claims.
type shy struct {
	*memory
	claims int
	isBusy bool // whether each time another row is due, since a worker takes the others
}

func (s *shy) Claim(ctx context.Context, brokers []string, most int, step Step) ([]ClaimedRow, error) {
	if s.claims > 0 {
		s.claims--
		return nil, nil
	}
	return s.memory.Claim(ctx, brokers, most, step)
}

func (s *shy) NextDue(ctx context.Context, brokers []string) (due, now time.Time, err error) {
	due, now, err = s.memory.NextDue(ctx, brokers)
	if s.isBusy {
		due = now
	}
	return due, now, err
}

// What was passed over is claimed again, for as long as an exchange may last. What is due later is left to a later run.
func TestRunOnceOverAShyStore(t *testing.T) {
	for _, test := range []struct {
		name   string
		shy    shy
		want   error
		state  State
		atMost time.Duration
	}{
		{"once", shy{claims: 1}, nil, Ready, 8 * time.Second},
		{"always", shy{claims: 1 << 30}, ErrLocked, Ordered, patience},
		{"beside a busy worker", shy{claims: 1 << 30, isBusy: true}, nil, Ordered, patience},
	} {
		t.Run(test.name, func(t *testing.T) {
			p := newPlant(t, Options{Exchange: time.Second})
			check(t, p.engine.RunOnce(background)) // it has the catalogue
			key := p.create(NewInstance{})
			store := test.shy
			store.memory = p.store
			p.engine.store = &store
			begun := time.Now()
			if err := p.engine.RunOnce(background); !errors.Is(err, test.want) || (err == nil) != (test.want == nil) {
				t.Errorf("got %v, want %v", err, test.want)
			}
			diff.AtMost(t, time.Since(begun), test.atMost, "took")
			diff.Equal(t, diff.Value(p.store.Read(background, key))(t).State, test.state, "")
		})
	}
}

// A locking store passes over all rows after each row that is claimed, until it is asked when the next one is due.
type locking struct {
	*memory
	isFree bool
	looks  int
	rest   time.Duration // before the answer to the second such question
}

func (l *locking) Claim(ctx context.Context, brokers []string, most int, step Step) ([]ClaimedRow, error) {
	if !l.isFree {
		return nil, nil
	}
	l.isFree = false
	return l.memory.Claim(ctx, brokers, most, step)
}

func (l *locking) NextDue(ctx context.Context, brokers []string) (due, now time.Time, err error) {
	if len(brokers) > 0 {
		if l.looks++; l.looks == 2 {
			time.Sleep(l.rest)
		}
		l.isFree = true
	}
	return l.memory.NextDue(ctx, brokers)
}

// A row that others have locked is waited for as long as an exchange may last, however long ago another row was.
func TestRunOnceBesideLocksOneAfterTheOther(t *testing.T) {
	p := newPlant(t, Options{Exchange: time.Second, AtOnce: 1})
	check(t, p.engine.RunOnce(background)) // it has the catalogue
	keys := []Key{p.create(NewInstance{}), p.create(NewInstance{})}
	p.engine.store = &locking{memory: p.store, rest: 1100 * time.Millisecond}
	check(t, p.engine.RunOnce(background))
	for _, key := range keys {
		diff.Equal(t, diff.Value(p.store.Read(background, key))(t).State, Ready, "%v", key)
	}
}

// The end of the context ends the wait for a row that others have locked.
func TestRunOnceIsCancelled(t *testing.T) {
	p := newPlant(t, Options{})
	check(t, p.engine.RunOnce(background)) // it has the catalogue
	p.create(NewInstance{})
	p.engine.store = &shy{memory: p.store, claims: 1 << 30}
	ctx, cancel := context.WithCancel(background)
	defer cancel()
	time.AfterFunc(50*time.Millisecond, cancel)
	begun := time.Now()
	diff.ErrorIs(t, p.engine.RunOnce(ctx), context.Canceled, "")
	if took := time.Since(begun); took > 30*time.Second { // an exchange lasts a minute
		t.Errorf("got an end after %v, want one within 30 s", took)
	}
}
