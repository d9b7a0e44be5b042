package broker_test

import (
	"context"
	"errors"
	"fmt"
	"net/http"
	"net/http/httptest"
	"path/filepath"
	"strings"
	"testing"
	"time"

	"pippinterm/broker"
	"pippinterm/broker/sqlite"
	"pippinterm/internal/diff"
	"pippinterm/osb"
)

// open is a bench over the store in a folder, as a broker that starts has it.
func open(t *testing.T, folder string, backend broker.Backend) *bench {
	t.Helper()
	it := &bench{observed: &recorder{}}
	it.store = diff.Value(sqlite.Open(context.Background(), filepath.Join(folder, "store"), it.observed))(t)
	it.Service = broker.NewService(
		catalogueFor(t, catalogue), it.store, backend, newMemoryLocks(), broker.ServiceOptions{}, it.observed)
	return it
}

// close ends the broker.
func (b *bench) close(t *testing.T) {
	t.Helper()
	check(t, b.store.Close())
}

func (b *bench) entry(t *testing.T, key broker.Key) broker.Entry {
	t.Helper()
	snapshot := diff.Value(b.store.Read(context.Background(), key))(t)
	return snapshot.Entry
}

// An away backend can't be reached: no work ends, as if the broker were killed at it.
type away struct{ *shelf }

var errAway = errors.New("the backend is away")

func (away) Look(context.Context, broker.Request) (broker.There, error) { return none, errAway }

func (away) LookBinding(context.Context, broker.Request) (broker.There, error) { return none, errAway }

// A step of a life is a message, and whether something is held once its work has ended.
type step struct {
	message
	isHeld bool
}

// aLife is the life of an instance and its binding. Each message names another user.
func aLife(plan string) []step {
	one, also := instances+"i", "&accepts_incomplete=true"
	bound, further := one+"/service_bindings/b", `,"context":{"platform":"test"},"parameters":{"size":1.50,"a":"<&>"}`
	body := []byte(bodyOf(plan, further))
	return []step{
		{message{"PUT", one + query, body, signedBy("alice", "r-1")}, true},
		{message{"PUT", bound + query, body, signedBy("bob", "r-2")}, true},
		{message{"DELETE", bound + names(plan) + also, nil, signedBy("carol", "r-3")}, false},
		{message{"DELETE", one + names(plan) + also, nil, signedBy("dave", "r-4")}, false},
	}
}

// The broker is killed before the backend is called, and started again. The backend is given the request as it was
// sent, and for a deletion who sent that. This goes for pending work, and for an operation that goes on after its
// answer. Once nothing is held any more, the request is forgotten.
func TestStoredRequestsOutliveTheBroker(t *testing.T) {
	for plan, status := range map[string]int{now: 500, later: 202} {
		t.Run(plan, func(t *testing.T) {
			folder, shelf, expected := t.TempDir(), newShelf(calm), newExpected()
			for _, step := range aLife(plan) {
				expected.begins(step.message)
				b := open(t, folder, away{shelf})
				if given := step.serve(handlerFor(t, b.Service)); given.status != status {
					t.Fatalf("%s %s: got %d %s, want %d", step.method, step.target, given.status, given.body, status)
				}
				b.close(t)
				b = open(t, folder, shelf)
				b.takesUp(t, shelf, expected, step)
				b.close(t)
			}
			if len(shelf.things) > 0 {
				t.Errorf("left: got %v, want none", shelf.things)
			}
		})
	}
}

// takesUp takes up the work of a message, and checks what the backend is given and what is stored then.
func (b *bench) takesUp(t *testing.T, shelf *shelf, expected *sentRequests, it step) {
	t.Helper()
	sent, _ := it.request()
	key, calls := sent.Key, 0
	shelf.asked = func(got broker.Request) {
		calls++
		diff.NoError(t, expected.check(got, it.method == "DELETE"), "")
		parameters, about := string(got.Member("parameters")), string(got.Member("context"))
		if got.Key != key || parameters != `{"size":1.50,"a":"<&>"}` || about != `{"platform":"test"}` {
			t.Errorf("the backend got the parameters %s and the context %s for %v, want those of the request", parameters, about,
				got.Key)
		}
	}
	check(t, b.TakeUp(context.Background(), key))
	entry := b.entry(t, key)
	if calls < 2 || entry.IsUnfinished() || entry.Holding.IsHeld() != it.isHeld {
		t.Errorf("after %d calls of the backend for %s %s: got %v, want it ended", calls, it.method, it.target, entry.Holding)
	}
	if (entry.Request != nil) != it.isHeld || it.isHeld && !strings.Contains(string(entry.Request), `"<&>"`) {
		t.Errorf("after %s %s: got the stored request %s, want one exactly if it is held", it.method, it.target,
			entry.Request)
	}
	wanted := ""
	if key.IsBinding && it.isHeld {
		wanted = shelf.credentials(key)
	}
	diff.Equal(t, credentialsOf(entry.Binding), wanted, "the stored credentials")
}

// The request of a creation that was rejected is forgotten at once. That of an operation that has failed is kept until
// its deletion, which needs it.
func TestFailedRequestsAreForgotten(t *testing.T) {
	shelf, expected := newShelf(calm), newExpected()
	b := newBench(t, refusingBackend{shelf, &broker.Rejection{Status: 400, Description: "no"}}, newMemoryLocks())
	handler, life := handlerFor(t, b.Service), aLife(later)
	rejected := aLife(now)[0].message
	rejected.target = instances + "j"
	if given := rejected.serve(handler); given.status != 400 {
		t.Fatalf("got %d %s, want 400", given.status, given.body)
	}
	if entry := b.entry(t, keyOf("j")); entry.Holding.IsHeld() || entry.Request != nil {
		t.Errorf("got %v held, with the request %s, want neither", entry.Holding, entry.Request)
	}
	for _, step := range []step{{life[0].message, true}, life[3]} {
		expected.begins(step.message)
		if given := step.serve(handler); given.status != 202 {
			t.Fatalf("got %d %s, want 202", given.status, given.body)
		}
		b.takesUp(t, shelf, expected, step)
	}
}

// If what is stored of the request for an instance can't be read, a request for its binding fails, and what is held of
// the binding stays.
func TestBindingOfAnUnreadableInstance(t *testing.T) {
	ctx, one, both := context.Background(), keyOf("i"), osb.BindingKey(keyOf("i").Instance, keyOf("b").Instance)
	b := newBench(t, newShelf(calm), newMemoryLocks())
	bound := func(it broker.Visit) broker.Visit {
		it.Key, it.Asked.ID = both, both.Binding
		return it
	}
	for _, visit := range []broker.Visit{provision(now), bound(provision(now))} {
		if given, err := b.Handle(ctx, visit); err != nil || given.Status != 201 {
			t.Fatalf("got %+v, %v, want 201", given, err)
		}
	}
	err := b.store.Change(ctx, one, func(snapshot broker.Snapshot) (*broker.Entry, error) {
		snapshot.Request = []byte("{")
		return &snapshot.Entry, nil
	})
	check(t, err)
	want := b.entry(t, both)
	for _, visit := range []broker.Visit{provision(now), provision(later), deprovision(now), deprovision(later)} {
		given, err := b.Handle(ctx, bound(visit))
		if err == nil {
			t.Errorf("%+v: got %+v, want an error", visit.Asked, given)
		}
		diff.Check(t, b.entry(t, both), want, "%+v: what is held", visit.Asked)
	}
}

// losableLocks can be lost while their worker goes on.
type losableLocks struct{ *memoryLocks }

func (losableLocks) CanBeLost() bool { return true }

// An overtakenBackend does its work. Then, once, a second worker takes the key over.
type overtakenBackend struct {
	*shelf
	overtake func(broker.Key)
}

func (o *overtakenBackend) lose(key broker.Key) {
	if o.overtake != nil {
		o.overtake(key)
	}
}

func (o *overtakenBackend) Create(ctx context.Context, request broker.Request) error {
	defer o.lose(request.Key)
	return o.shelf.Create(ctx, request)
}

func (o *overtakenBackend) Delete(ctx context.Context, request broker.Request) error {
	defer o.lose(request.Key)
	return o.shelf.Delete(ctx, request)
}

// newOvertaken is a broker whose workers lose their locks until the test has them keep those.
func newOvertaken(t *testing.T) (*bench, *overtakenBackend) {
	t.Helper()
	backend := &overtakenBackend{shelf: newShelf(calm)}
	b := newBench(t, backend, losableLocks{newMemoryLocks()})
	backend.overtake = func(key broker.Key) {
		diff.NoError(t, b.store.Change(context.Background(), key, func(snapshot broker.Snapshot) (*broker.Entry, error) {
			snapshot.Worker = id("ff")
			return &snapshot.Entry, nil
		}), "the second worker")
	}
	return b, backend
}

func (b *bench) holding(t *testing.T, key broker.Key) osb.Holding {
	t.Helper()
	snapshot := diff.Value(b.store.Read(context.Background(), key))(t)
	return snapshot.Holding
}

func provision(plan string) broker.Visit {
	return visitOf(osb.Asked{Kind: osb.KindProvision, AcceptsIncomplete: true}, plan)
}

func deprovision(plan string) broker.Visit {
	return visitOf(osb.Asked{Kind: osb.KindDeprovision, AcceptsIncomplete: true}, plan)
}

func visitOf(request osb.Asked, plan string) broker.Visit {
	key := keyOf("i")
	request.ID, request.Service, request.Plan = key.Instance, id("a0"), id(plan)
	request.HasService, request.HasPlan = true, true
	return broker.Visit{Key: key, Asked: request}
}

// A worker that lost its lock between the work and its end writes nothing. The one that has the lock ends the work.
func TestLostLockOfPendingWork(t *testing.T) {
	ctx, key := context.Background(), keyOf("i")
	for _, test := range []struct {
		name   string
		before []broker.Visit
		asked  broker.Visit
		want   string // the phase afterwards, or empty if nothing is held
	}{
		{"create", nil, provision(now), "ready"},
		{"delete", []broker.Visit{provision(now)}, deprovision(now), ""},
	} {
		t.Run(test.name, func(t *testing.T) {
			b, backend := newOvertaken(t)
			overtake := backend.overtake
			backend.overtake = nil
			for _, before := range test.before {
				diff.Value(b.Handle(ctx, before))(t)
			}
			backend.overtake = overtake
			if given, err := b.Handle(ctx, test.asked); !errors.Is(err, broker.ErrLostWork) {
				t.Fatalf("got %+v, %v, want %v", given, err, broker.ErrLostWork)
			}
			if !b.isPending(t, key) {
				t.Error("got the work ended, want it pending")
			}
			backend.overtake = nil
			b.ends(t, key, test.want)
		})
	}
}

// The same of an operation that goes on after its answer.
func TestLostLockOfAnOperation(t *testing.T) {
	ctx, key := context.Background(), keyOf("i")
	b, backend := newOvertaken(t)
	overtake := backend.overtake
	for _, test := range []struct {
		asked broker.Visit
		runs  osb.Phase
		want  string
	}{
		{provision(later), osb.PhaseMaking, "ready"},
		{deprovision(later), osb.PhaseDeleting, ""},
	} {
		backend.overtake = overtake
		if given, err := b.Handle(ctx, test.asked); err != nil || given.Status != 202 {
			t.Fatalf("got %+v, %v, want 202", given, err)
		}
		before := b.holding(t, key)
		if err := b.TakeUp(ctx, key); !errors.Is(err, broker.ErrLostWork) {
			t.Fatalf("the lock was lost: got %v, want %v", err, broker.ErrLostWork)
		}
		row, _ := before.Row()
		if after := b.holding(t, key); after != before || row.Phase != test.runs {
			t.Errorf("got %v held after %v, want no change", after, before)
		}
		backend.overtake = nil
		b.ends(t, key, test.want)
	}
}

// ends has the next worker end the work, and checks the phase afterwards.
func (b *bench) ends(t *testing.T, key broker.Key, want string) {
	t.Helper()
	check(t, b.TakeUp(context.Background(), key))
	phase := ""
	if row, isHeld := b.holding(t, key).Row(); isHeld {
		phase = row.Phase.String()
	}
	if b.isPending(t, key) || phase != want {
		t.Errorf("held: got %v, want %q", b.holding(t, key), want)
	}
}

// A breakingStore fails once so many changes are written.
type breakingStore struct {
	broker.Store
	left int
	err  error
}

func (l *breakingStore) Read(ctx context.Context, key broker.Key) (broker.Snapshot, error) {
	if l.left < 0 {
		return broker.Snapshot{}, l.err
	}
	return l.Store.Read(ctx, key)
}

func (l *breakingStore) Change(ctx context.Context, key broker.Key, step broker.Step) error {
	if l.left--; l.left < 0 {
		return l.err
	}
	return l.Store.Change(ctx, key, step)
}

// A take-up whose store fails once the start of an operation is written returns the error, and the operation stays.
func TestTakeUpWhoseStoreFails(t *testing.T) {
	ctx, key := context.Background(), keyOf("i")
	b := newBench(t, newShelf(calm), newMemoryLocks())
	breaksAfter := func(changes int) *broker.Service {
		return broker.NewService(catalogueFor(t, catalogue), &breakingStore{b.store, changes, errScripted}, newShelf(calm),
			newMemoryLocks(), broker.ServiceOptions{}, b.observed)
	}
	given, err := breaksAfter(1).Handle(ctx, provision(later))
	if !errors.Is(err, errScripted) || !b.isPending(t, key) {
		t.Fatalf("got %+v, %v, want %v and pending work", given, err, errScripted)
	}
	diff.ErrorIs(t, breaksAfter(2).TakeUp(ctx, key), errScripted, "the take-up")
	row, _ := b.holding(t, key).Row()
	diff.Equal(t, row.Phase, osb.PhaseMaking, "the phase")
}

// While the store is away, requests are answered with 503, and with 500 if it fails otherwise, also after the work was
// done. Neither answer says why.
func TestStoreThatIsAway(t *testing.T) {
	const secret = "dial tcp 192.0.2.1:5432"
	for _, test := range []struct {
		name         string
		changes      int // before the store fails
		err          error
		method, path string
		status       int
	}{
		{"a Provision", 0, broker.ErrAway, "PUT", instances + "i", 503},
		{"a Provision whose work is done", 1, broker.ErrAway, "PUT", instances + "i", 503},
		{"a Deprovision", 0, broker.ErrAway, "DELETE", instances + "i" + names(now), 503},
		{"a Poll", -1, broker.ErrAway, "GET", instances + "i/last_operation", 503},
		{"a Fetch", -1, broker.ErrAway, "GET", instances + "i/service_bindings/b", 503},
		{"another error", 0, errScripted, "PUT", instances + "i", 500},
		{"another error once the work is done", 1, errScripted, "PUT", instances + "i", 500},
	} {
		t.Run(test.name, func(t *testing.T) {
			seen := &recorder{}
			store, err := sqlite.Open(context.Background(), filepath.Join(t.TempDir(), "store"), seen)
			check(t, err)
			t.Cleanup(func() { _ = store.Close() })
			backend := newShelf(calm)
			service := broker.NewService(catalogueFor(t, catalogue),
				&breakingStore{store, test.changes, fmt.Errorf("%w: %s", test.err, secret)}, backend, newMemoryLocks(), broker.ServiceOptions{}, seen)
			request := httptest.NewRequest(test.method, test.path, strings.NewReader(bodyOf(now, "")))
			request.SetBasicAuth("u", "p")
			request.Header.Set(osb.VersionHeader, osb.VersionSent)
			handler := handlerFor(t, service)
			handler.Observer = seen
			given := httptest.NewRecorder()
			handler.ServeHTTP(given, request)
			body := given.Body.String()
			if given.Code != test.status || strings.Contains(body, secret) || strings.Contains(body, "store") {
				t.Errorf("got %d %s, want %d without the reason", given.Code, body, test.status)
			}
			isAway := test.status == http.StatusServiceUnavailable
			if strings.Contains(body, "Send it again later.") != isAway || !strings.Contains(body, "description") {
				t.Errorf("got the body %s, want a description that says to send it again exactly if the store is away", body)
			}
			if isDone := backend.there(keyOf("i")) == broker.Whole; isDone != (test.changes == 1) {
				t.Errorf("it exists: got %v, want %v", isDone, test.changes == 1)
			}
			if len(seen.failures) != 1 || !strings.Contains(seen.failures[0].Err.Error(), secret) {
				t.Errorf("the failures: got %v, want one with its reason", seen.failures)
			}
		})
	}
}

// since has the work of a key begin so long ago.
func (b *bench) since(t *testing.T, key broker.Key, ago time.Duration) {
	t.Helper()
	err := b.store.Change(context.Background(), key, func(snapshot broker.Snapshot) (*broker.Entry, error) {
		snapshot.Since = time.Now().Add(-ago)
		return &snapshot.Entry, nil
	})
	check(t, err)
}

// Nobody does work under a key for which it wasn't recorded.
func TestWorkOfAnotherKey(t *testing.T) {
	ctx, backend := context.Background(), &blind{shelf: newShelf(calm)}
	b := newBench(t, backend, newMemoryLocks())
	entry := b.entry(t, b.leave(t, backend, "i"))
	check(t, b.store.Change(ctx, keyOf("j"), func(broker.Snapshot) (*broker.Entry, error) { return &entry, nil }))
	if err := b.TakeUp(ctx, keyOf("j")); !errors.Is(err, osb.ErrMisfit) || len(backend.things) > 0 {
		t.Errorf("got %v and %v, want %v and nothing", err, backend.things, osb.ErrMisfit)
	}
	poll := visitOf(osb.Asked{Kind: osb.KindPoll}, now)
	poll.Key, poll.Asked.ID = keyOf("j"), keyOf("j").Instance
	given, err := b.Handle(ctx, poll)
	diff.ErrorIs(t, err, osb.ErrMisfit, "the Poll: got %+v", given)
}

// A lock that somebody else has is reported once the work began long ago, and only while there is work.
func TestTakeUpReportsALockThatStaysTaken(t *testing.T) {
	ctx, backend, locks := context.Background(), &blind{shelf: newShelf(calm)}, newMemoryLocks()
	b := newBench(t, backend, locks)
	key := b.leave(t, backend, "i")
	lock := diff.Value(locks.Lock(ctx, key))(t)
	for _, test := range []struct {
		ago  time.Duration
		want error
	}{{time.Minute, nil}, {31 * time.Minute, broker.ErrStillTaken}} {
		t.Run(test.ago.String(), func(t *testing.T) {
			b.since(t, key, test.ago)
			diff.ErrorIs(t, b.TakeUp(ctx, key), test.want, "after %v", test.ago)
		})
	}
	lock.Unlock()
	if err := b.TakeUp(ctx, key); err != nil || b.isPending(t, key) {
		t.Fatalf("got %v, want it taken up", err)
	}
	b.since(t, key, time.Hour)
	lock = diff.Value(locks.Lock(ctx, key))(t)
	defer lock.Unlock()
	diff.NoError(t, b.TakeUp(ctx, key), "nothing is unfinished")
}

// A key that waits for its first Poll for long isn't reported: nobody else has its lock.
func TestTakeUpOfALongWaitForAPoll(t *testing.T) {
	ctx, key := context.Background(), keyOf("i")
	l := newLives(t, newShelf(calm), firstPoll)
	l.expect(t, 202, "PUT", instances+"i"+query, bodyOf(later, ""))
	l.since(t, key, time.Hour)
	diff.NoError(t, l.TakeUp(ctx, key), "the take-up")
	row, _ := l.holding(t, key).Row()
	diff.Equal(t, row.Phase, osb.PhaseWaiting, "the phase")
}

// Pending work that a dead worker has left is reported once it has ended, and once.
func TestTakeUpReportsTheEndOfPendingWork(t *testing.T) {
	backend := &blind{shelf: newShelf(calm)}
	b := newBench(t, backend, newMemoryLocks())
	key := b.leave(t, backend, "i")
	for round := 0; round < 2; round++ {
		check(t, b.TakeUp(context.Background(), key))
	}
	if got := b.observed.finished; len(got) != 1 || got[0] != (operationEnd{key, true}) {
		t.Errorf("the reports: got %v, want one end that succeeds", got)
	}
}

// If it fails, it is reported as one that has ended badly.
func TestTakeUpReportsPendingWorkThatFails(t *testing.T) {
	mood := 9
	backend := &blind{shelf: newShelf(func() int { return mood })}
	b := newBench(t, backend, newMemoryLocks())
	key := b.leave(t, backend, "i")
	mood = 0
	check(t, b.TakeUp(context.Background(), key))
	if got := b.observed.finished; len(got) != 1 || got[0] != (operationEnd{key, false}) {
		t.Errorf("got %v, want that the work of %v has ended badly", got, key)
	}
}

// A failure of the backend is reported, also if what was asked for is the case in the end.
func TestFailuresThatEndWellAreReported(t *testing.T) {
	one := instances + "i"
	l := newLoneBroker(t)
	*l.backend = scriptedBackend{made: whole, failure: errScripted}
	l.expect(t, 201, "PUT", one, bodyOf(now, ""))
	*l.backend = scriptedBackend{there: whole, failure: errScripted}
	l.expect(t, 200, "DELETE", one+names(now), "")
	var events []string
	for _, failure := range l.observed.failures {
		if !errors.Is(failure.Err, errScripted) || failure.Key != keyOf("i") {
			t.Errorf("the report: got %+v, want %v of i", failure, errScripted)
		}
		events = append(events, failure.Event)
	}
	if len(events) != 2 || events[0] != "backend_failed_to_create" || events[1] != "backend_failed_to_delete" {
		t.Errorf("the reports: got %v, want those of the creation and of the deletion", events)
	}
}

// A racingStore has something happen once, after the first change was committed.
type racingStore struct {
	broker.Store
	then func(broker.Key)
}

func (r *racingStore) Change(ctx context.Context, key broker.Key, step broker.Step) error {
	err := r.Store.Change(ctx, key, step)
	if then := r.then; then != nil {
		r.then = nil
		then(key)
	}
	return err
}

// A worker that lost its lock once its work was pending ends nothing and answers nothing if another worker has taken the
// work over, also if other work is pending by then.
func TestWorkThatWasTakenOver(t *testing.T) {
	ctx := context.Background()
	for _, test := range []struct {
		name string
		then []broker.Visit
	}{
		{"and ended", nil},
		{"and ended, and a deletion is pending", []broker.Visit{deprovision(now)}},
	} {
		t.Run(test.name, func(t *testing.T) {
			b := newBench(t, newShelf(calm), losableLocks{newMemoryLocks()})
			blind := broker.NewService(catalogueFor(t, catalogue), b.store,
				&scriptedBackend{failure: errScripted, blindness: errScripted}, losableLocks{newMemoryLocks()},
				broker.ServiceOptions{}, b.observed)
			store := &racingStore{Store: b.store, then: func(key broker.Key) {
				diff.NoError(t, b.TakeUp(ctx, key), "the other worker")
				for _, visit := range test.then {
					given, err := blind.Handle(ctx, visit)
					diff.ErrorIs(t, err, broker.ErrNobodyKnows, "the deletion: got %+v", given)
				}
			}}
			late := broker.NewService(catalogueFor(t, catalogue), store, newShelf(calm), losableLocks{newMemoryLocks()},
				broker.ServiceOptions{}, b.observed)
			given, err := late.Handle(ctx, provision(now))
			diff.ErrorIs(t, err, broker.ErrLostWork, "got %+v", given)
			row, _ := b.holding(t, keyOf("i")).Row()
			if isPending := b.isPending(t, keyOf("i")); row.Phase != osb.PhaseReady || isPending != (test.then != nil) {
				t.Errorf("got %+v and pending %v, want what the others have left", row, isPending)
			}
		})
	}
}

// An operation that runs has the time since when it does: it is reported, and what takes too long is found by it.
func TestSinceOfAnOperation(t *testing.T) {
	l := newLoneBroker(t)
	l.expect(t, 202, "PUT", instances+"i"+query, bodyOf(later, ""))
	snapshot, err := l.store.Read(context.Background(), keyOf("i"))
	if row, _ := snapshot.Holding.Row(); err != nil || row.Phase != osb.PhaseMaking {
		t.Fatalf("got %+v, %v, want an operation that runs", row, err)
	}
	if since := time.Since(snapshot.Since); since < -time.Minute || since > time.Minute {
		t.Errorf("got an operation that began %v ago, want one that has just begun", since)
	}
}

// takenLocks are held by somebody who never gives them back. Each wait ends at once, as if its time were over.
type takenLocks struct {
	waits []time.Duration // how long each wait was allowed to take, or 0 for ever
}

func (*takenLocks) TryLock(context.Context, broker.Key) (broker.Lock, error) { return nil, nil }

func (*takenLocks) CanBeLost() bool { return false }

func (l *takenLocks) Lock(ctx context.Context, _ broker.Key) (broker.Lock, error) {
	wait := time.Duration(0)
	if deadline, has := ctx.Deadline(); has {
		wait = time.Until(deadline)
	}
	l.waits = append(l.waits, wait)
	return nil, context.DeadlineExceeded
}

// A request waits for a lock for 10 seconds at most. Then nothing is written, and nothing is done.
func TestARequestWaitsTenSecondsForALock(t *testing.T) {
	shelf, locks := newShelf(calm), &takenLocks{}
	b := newBench(t, shelf, locks)
	create := provision(now)
	if _, err := b.Handle(context.Background(), create); !errors.Is(err, context.DeadlineExceeded) {
		t.Errorf("got the error %v, want DeadlineExceeded", err)
	}
	if len(locks.waits) != 1 || locks.waits[0] <= 0 || locks.waits[0] > 10*time.Second {
		t.Errorf("got a wait of %v, want at most 10 s", locks.waits)
	}
	if there := shelf.there(create.Key); there != broker.None {
		t.Errorf("got %v there, want nothing", there)
	}
	diff.Check(t, b.entry(t, create.Key), broker.Entry{}, "what is held")
}

// lateLocks are taken at first. A wait gets the lock at the moment at which its time is over.
type lateLocks struct{ *memoryLocks }

func (lateLocks) TryLock(context.Context, broker.Key) (broker.Lock, error) { return nil, nil }

func (l lateLocks) Lock(ctx context.Context, key broker.Key) (broker.Lock, error) {
	<-ctx.Done()
	return l.memoryLocks.Lock(context.Background(), key)
}

// A lock that a request gets as its wait ends is given back once the work is done.
func TestALockThatComesAsTheWaitEnds(t *testing.T) {
	locks := newMemoryLocks()
	b, create := newBench(t, newShelf(calm), lateLocks{locks}), provision(now)
	b.SetWait(0)
	given, err := b.Handle(context.Background(), create)
	if err != nil || given.Status != 201 || len(locks.taken) > 0 {
		t.Errorf("got %+v, the error %v and %d locks that stay taken, want 201 and none", given, err, len(locks.taken))
	}
}

// Locks that are left are taken at first, and free for whoever waits.
type leftLocks struct{ *memoryLocks }

func (leftLocks) TryLock(context.Context, broker.Key) (broker.Lock, error) { return nil, nil }

// A request whose lock somebody else has does its work once it has the lock.
func TestARequestThatWaitsForItsLock(t *testing.T) {
	b := newBench(t, newShelf(calm), leftLocks{newMemoryLocks()})
	create := provision(now)
	given, err := b.Handle(context.Background(), create)
	if err != nil || given.Status != 201 || b.isPending(t, create.Key) {
		t.Errorf("got %+v and the error %v, want 201 and nothing pending", given, err)
	}
}

var check = diff.Must
