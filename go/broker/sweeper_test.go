package broker_test

import (
	"context"
	"errors"
	"fmt"
	"net/http"
	"net/http/httptest"
	"path/filepath"
	"strconv"
	"strings"
	"sync"
	"testing"
	"time"

	"pippinterm/broker"
	"pippinterm/broker/sqlite"
	"pippinterm/internal/diff"
	"pippinterm/osb"
)

// A bench is a service over a store of its own, which nobody sweeps.
type bench struct {
	*broker.Service
	store    *sqlite.Store
	observed *recorder
}

func newBench(t *testing.T, backend broker.Backend, locks broker.Locks) *bench {
	t.Helper()
	it := &bench{observed: &recorder{}}
	it.store = diff.Value(sqlite.Open(context.Background(), filepath.Join(t.TempDir(), "store"), it.observed))(t)
	t.Cleanup(func() { _ = it.store.Close() })
	it.Service = broker.NewService(catalogueFor(t, catalogue), it.store, backend, locks, broker.ServiceOptions{}, it.observed)
	return it
}

func (b *bench) isPending(t *testing.T, key broker.Key) bool {
	t.Helper()
	snapshot := diff.Value(b.store.Read(context.Background(), key))(t)
	_, isPending := snapshot.Holding.Work()
	return isPending
}

// runSweeper runs a sweeper with one worker. end ends it, and waits for that: meanwhile nobody who looks has to wait,
// and each sweep finds nothing. Either channel may be nil.
func runSweeper(t *testing.T, sweeper *broker.Sweeper, looked <-chan broker.Key, found chan<- []broker.Key) (end func()) {
	stop, cancel := context.WithCancel(context.Background())
	swept := make(chan struct{})
	go func() {
		defer close(swept)
		sweeper.Run(context.Background(), stop, 1, time.Millisecond)
	}()
	end = func() {
		cancel()
		for {
			select {
			case <-swept:
				return
			case <-looked:
			case found <- nil:
			}
		}
	}
	t.Cleanup(end)
	return end
}

// soon is the next value of a channel.
func soon[T any](t *testing.T, from <-chan T) (got T) {
	t.Helper()
	select {
	case got = <-from:
	case <-time.After(time.Minute):
		t.Fatal("got nothing in a minute, want it sooner")
	}
	return got
}

// A blind backend fails to look as long as there is a reason. It gets each Look.
type blind struct {
	*shelf
	turn   sync.Mutex
	reason string
	hidden broker.Key      // no Look at it succeeds
	looked chan broker.Key // each Look waits until somebody takes its key, if there is a channel
}

func (b *blind) because(reason string) {
	b.turn.Lock()
	defer b.turn.Unlock()
	b.reason = reason
}

func (b *blind) hide(key broker.Key) {
	b.turn.Lock()
	defer b.turn.Unlock()
	b.hidden = key
}

func (b *blind) Look(ctx context.Context, request broker.Request) (broker.There, error) {
	if b.looked != nil {
		b.looked <- request.Key
	}
	b.turn.Lock()
	defer b.turn.Unlock()
	if b.reason != "" {
		return broker.None, errors.New(b.reason)
	}
	if request.Key == b.hidden {
		return broker.None, errors.New("the backend is away")
	}
	return b.shelf.Look(ctx, request)
}

// leave leaves the creation of an instance pending. Meanwhile the backend works on other keys.
func (b *bench) leave(t *testing.T, backend *blind, name string) broker.Key {
	t.Helper()
	key := keyOf(name)
	backend.hide(key)
	defer backend.hide(broker.Key{})
	creation := message{method: "PUT", target: instances + name, body: []byte(bodyOf(now, ""))}
	given := creation.serve(handlerFor(t, b.Service))
	if given.status != 500 || !b.isPending(t, key) {
		t.Fatalf("the creation of %s: got %d %s, want it pending with 500", name, given.status, given.body)
	}
	return key
}

// A key whose lock somebody else has is passed over: the only worker goes on with another, and tries it again later.
func TestSweeperPassesOverALockedKey(t *testing.T) {
	backend, locks := &blind{shelf: newShelf(calm)}, newMemoryLocks()
	b := newBench(t, backend, locks)
	locked, free := b.leave(t, backend, "i"), b.leave(t, backend, "j")
	lock := diff.Value(locks.Lock(context.Background(), locked))(t)
	var once sync.Once
	unlock := func() { once.Do(lock.Unlock) }
	defer unlock()
	backend.looked = make(chan broker.Key)
	sweeper := broker.NewSweeper(b.Service, b.observed)
	sweeper.Touch(locked)
	sweeper.Touch(free)
	end := runSweeper(t, sweeper, backend.looked, nil)
	for round := 0; round < 2; round++ { // before the creation, and after it
		if got := soon(t, backend.looked); got != free {
			t.Errorf("got %v gone on with, whose lock is another's, want the free one", got)
		}
	}
	unlock()
	for round := 0; round < 2; round++ {
		if got := soon(t, backend.looked); got != locked {
			t.Errorf("got %v gone on with, which has ended, want the locked one", got)
		}
	}
	end()
	if b.isPending(t, locked) || b.isPending(t, free) || len(b.observed.failures) > 0 {
		t.Errorf("got something pending, or the failures %v, want neither", b.observed.failures)
	}
}

func calm() int { return 9 }

// A sweptStore has as unfinished what the test gives, one list for each sweep.
type sweptStore struct {
	*sqlite.Store
	found chan []broker.Key
}

func (s sweptStore) UnfinishedKeys(context.Context) ([]broker.Key, error) { return <-s.found, nil }

// triedLocks are never free. The test gets their keys.
type triedLocks chan broker.Key

func (t triedLocks) CanBeLost() bool { return false }

func (t triedLocks) Lock(context.Context, broker.Key) (broker.Lock, error) {
	return nil, errors.New("it isn't free")
}

func (t triedLocks) TryLock(_ context.Context, key broker.Key) (broker.Lock, error) {
	t <- key
	return nil, nil
}

// At first all that is unfinished is taken up, and later what was so a sweep ago: newer work has a worker.
func TestSweeperTakesUpWhatIsOld(t *testing.T) {
	backend, locks, found := &blind{shelf: newShelf(calm)}, make(triedLocks, 20), make(chan []broker.Key)
	b := newBench(t, backend, newMemoryLocks())
	one, other, third := b.leave(t, backend, "1"), b.leave(t, backend, "2"), b.leave(t, backend, "3")
	service := broker.NewService(catalogueFor(t, catalogue), sweptStore{b.store, found}, backend, locks,
		broker.ServiceOptions{}, b.observed)
	end := runSweeper(t, broker.NewSweeper(service, b.observed), nil, found)
	for _, test := range []struct{ found, taken []broker.Key }{
		{[]broker.Key{one}, []broker.Key{one}},        // the first sweep takes up everything
		{[]broker.Key{other, one}, []broker.Key{one}}, // the other is new
		{[]broker.Key{third, other, one}, []broker.Key{other, one}},
		{[]broker.Key{other}, []broker.Key{other}},
		{[]broker.Key{third, one, other}, []broker.Key{other}}, // two have ended meanwhile, and are new again
	} {
		found <- test.found
		for _, key := range test.taken {
			if got := soon(t, locks); got != key {
				t.Fatalf("of %v: got %v taken up, want %v", test.found, got, key)
			}
		}
	}
	end()
	if len(locks) > 0 {
		t.Errorf("got %v taken up too, want no other", <-locks)
	}
}

// What fails stays pending, and is reported once for each reason. It is done once the reason is gone.
func TestSweeperTellsOnce(t *testing.T) {
	backend := &blind{shelf: newShelf(calm)}
	b := newBench(t, backend, newMemoryLocks())
	key := b.leave(t, backend, "i")
	backend.because("one reason")
	backend.looked = make(chan broker.Key)
	sweeper := broker.NewSweeper(b.Service, b.observed)
	end := runSweeper(t, sweeper, backend.looked, nil)
	tryOften := func() {
		for n := 0; n < 5; n++ { // each begins once the last has failed
			soon(t, backend.looked)
		}
	}
	tryOften()
	backend.because("another reason")
	tryOften()
	if !b.isPending(t, key) {
		t.Error("got it ended, want it pending")
	}
	backend.because("")
	for b.isPending(t, key) {
		select {
		case <-backend.looked:
		case <-time.After(time.Millisecond):
		}
	}
	end()
	told := b.observed.failures
	if len(told) != 2 || !strings.Contains(told[0].Err.Error(), "one reason") ||
		!strings.Contains(told[1].Err.Error(), "another reason") {
		t.Fatalf("the reports: got %v, want both reasons", told)
	}
	for _, failure := range told {
		if failure.Event != "not_ended" || failure.Key != key || !failure.IsNamed || !errors.Is(failure.Err, broker.ErrNobodyKnows) {
			t.Errorf("the report: got %+v, want not_ended of the key", failure)
		}
	}
}

// Run returns once what it has begun has ended. It begins nothing afterwards.
func TestSweeperEnds(t *testing.T) {
	locks := make(triedLocks)
	b := newBench(t, newShelf(calm), locks)
	sweeper := broker.NewSweeper(b.Service, b.observed)
	stop, cancel := context.WithCancel(context.Background())
	swept := make(chan struct{})
	sweeper.Touch(keyOf("i"))
	go func() {
		defer close(swept)
		sweeper.Run(context.Background(), stop, 1, time.Hour)
	}()
	cancel()
	select {
	case <-swept: // it ended before it began
	case <-locks:
		soon(t, swept)
	}
	sweeper.Touch(keyOf("j"))
	select {
	case key := <-locks:
		t.Errorf("after the end: got %v begun, want none", key)
	case <-time.After(20 * time.Millisecond):
	}
}

// Run waits for what it has begun.
func TestSweeperWaits(t *testing.T) {
	backend := &blind{shelf: newShelf(calm)}
	b := newBench(t, backend, newMemoryLocks())
	key := b.leave(t, backend, "i")
	backend.looked = make(chan broker.Key)
	stop, cancel := context.WithCancel(context.Background())
	swept := make(chan struct{})
	go func() {
		defer close(swept)
		broker.NewSweeper(b.Service, b.observed).Run(context.Background(), stop, 1, time.Hour)
	}()
	soon(t, backend.looked)
	cancel()
	select {
	case <-swept:
		t.Error("got an end of the sweeper, want it to wait")
	case <-time.After(20 * time.Millisecond):
	}
	soon(t, backend.looked)
	soon(t, swept)
	if b.isPending(t, key) {
		t.Error("got it pending, want the end of what was begun")
	}
}

// A stuckBackend hangs in the Look of the keys that are named, until it is let go. Then their Look fails.
type stuckBackend struct {
	*blind
	turn         sync.Mutex
	hangs        map[broker.Key]bool
	running      int             // Looks that hang
	most         int             // at once
	begun, ended chan broker.Key // of Looks that hang
	letGo        chan struct{}   // closed, or one receive for each Look
}

func newStuck(keys ...broker.Key) *stuckBackend {
	s := &stuckBackend{
		blind: &blind{shelf: newShelf(calm)}, hangs: map[broker.Key]bool{},
		begun: make(chan broker.Key, 1000), ended: make(chan broker.Key, 1000), letGo: make(chan struct{}),
	}
	for _, key := range keys {
		s.hangs[key] = true
	}
	return s
}

func (s *stuckBackend) Look(ctx context.Context, request broker.Request) (broker.There, error) {
	s.turn.Lock()
	isHung := s.hangs[request.Key]
	if isHung {
		s.running++
		if s.running > s.most {
			s.most = s.running
		}
	}
	s.turn.Unlock()
	if !isHung {
		return s.blind.Look(ctx, request)
	}
	s.begun <- request.Key
	<-s.letGo
	s.turn.Lock()
	s.running--
	s.turn.Unlock()
	s.ended <- request.Key
	return broker.None, errors.New("it hung")
}

func (s *stuckBackend) mostAtOnce() int {
	s.turn.Lock()
	defer s.turn.Unlock()
	return s.most
}

// leaveAll leaves creations pending, and returns their keys.
func (b *bench) leaveAll(t *testing.T, backend *stuckBackend, what string, number int) (keys []broker.Key) {
	t.Helper()
	for at := 0; at < number; at++ {
		keys = append(keys, b.leave(t, backend.blind, fmt.Sprintf("%s%d", what, at)))
	}
	return keys
}

// sweepingWith runs a sweeper with workers. end lets all that hangs go, and waits for the end.
func sweepingWith(
	t *testing.T, sweeper *broker.Sweeper, backend *stuckBackend, workers int, every time.Duration,
) (end func()) {
	stop, cancel := context.WithCancel(context.Background())
	swept := make(chan struct{})
	go func() {
		defer close(swept)
		sweeper.Run(context.Background(), stop, workers, every)
	}()
	var once sync.Once
	end = func() {
		once.Do(func() {
			cancel()
			close(backend.letGo)
			<-swept
		})
	}
	t.Cleanup(end)
	return end
}

// failAll lets calls go that hang, until each of the keys has failed.
func (s *stuckBackend) failAll(t *testing.T, keys []broker.Key) {
	t.Helper()
	for failed, late := map[broker.Key]bool{}, time.After(time.Minute); len(failed) < len(keys); {
		select {
		case s.letGo <- struct{}{}:
		case key := <-s.ended:
			failed[key] = true
		case <-late:
			t.Fatalf("got only %d keys that have failed, want all", len(failed))
		}
	}
}

// becomes waits until work isn't pending any more.
func (b *bench) becomes(t *testing.T, key broker.Key) {
	t.Helper()
	for end := time.Now().Add(time.Minute); b.isPending(t, key); time.Sleep(time.Millisecond) {
		if time.Now().After(end) {
			t.Fatalf("%v: got it pending after the time for it, want its end", key)
		}
	}
}

// As many calls hang as there are workers, of keys that nobody knew to hang. The work of another key is done meanwhile.
func TestHungCallsDontHoldUpOthers(t *testing.T) {
	for _, workers := range []int{1, 2, 4} {
		t.Run(fmt.Sprint(workers), func(t *testing.T) {
			backend := newStuck()
			b := newBench(t, backend, newMemoryLocks())
			hung, good := b.leaveAll(t, backend, "bad", workers), b.leaveAll(t, backend, "good", 3)
			for _, key := range hung {
				backend.hangs[key] = true
			}
			sweeper := broker.NewSweeper(b.Service, b.observed)
			for _, key := range append(hung, good...) {
				sweeper.Touch(key)
			}
			end := sweepingWith(t, sweeper, backend, workers, time.Hour)
			for _, key := range good {
				b.becomes(t, key)
			}
			if len(backend.ended) > 0 {
				t.Error("got an end of a call that hangs, want none")
			}
			end()
		})
	}
}

// However many calls hang, no more are under way at once than are written down.
func TestMostRuns(t *testing.T) {
	for workers, most := range map[int]int{1: 3, 2: 4, 3: 6, 4: 8} {
		t.Run(fmt.Sprintf("%d workers", workers), func(t *testing.T) {
			backend := newStuck()
			b := newBench(t, backend, newMemoryLocks())
			sweeper := broker.NewSweeper(b.Service, b.observed)
			for _, key := range b.leaveAll(t, backend, "bad", most+3) {
				backend.hangs[key] = true
				sweeper.Touch(key)
			}
			end := sweepingWith(t, sweeper, backend, workers, time.Hour)
			for n := 0; n < most; n++ {
				soon(t, backend.begun)
			}
			time.Sleep(20 * time.Millisecond) // for one too many
			if got := backend.mostAtOnce(); got != most || broker.MostRuns(workers) != most {
				t.Errorf("got %d calls that hang at once, want %d", got, most)
			}
			end()
		})
	}
}

// Keys whose last call failed take at most half of the workers, however many there are. The work of others goes on.
func TestFailedKeysTakeHalf(t *testing.T) {
	for workers, most := range map[int]int{1: 1, 2: 1, 4: 2, 5: 2} {
		t.Run(fmt.Sprintf("%d workers", workers), func(t *testing.T) {
			backend := newStuck()
			b := newBench(t, backend, newMemoryLocks())
			failing := b.leaveAll(t, backend, "bad", 6)
			good := b.leaveAll(t, backend, "good", 20)
			for _, key := range failing {
				backend.hangs[key] = true
			}
			sweeper := broker.NewSweeper(b.Service, b.observed)
			for _, key := range failing {
				sweeper.Touch(key)
			}
			end := sweepingWith(t, sweeper, backend, workers, 10*time.Millisecond)
			backend.failAll(t, failing)
			backend.turn.Lock()
			backend.most = backend.running
			backend.turn.Unlock()
			for end := time.Now().Add(time.Minute); backend.mostAtOnce() < most; time.Sleep(time.Millisecond) {
				if time.Now().After(end) {
					t.Fatalf("got %d calls of keys that failed at once, want %d", backend.mostAtOnce(), most)
				}
			}
			for _, key := range good {
				sweeper.Touch(key)
				b.becomes(t, key)
			}
			diff.Equal(t, backend.mostAtOnce(), most, "calls of keys that failed at once")
			end()
		})
	}
}

// What is unfinished when a sweeper starts leaves half of the workers to the work of requests that arrive later,
// however many of its calls hang. A few that hang hold up nothing.
func TestUnfinishedAtTheStart(t *testing.T) {
	for _, test := range []struct{ workers, hanging, most int }{
		{1, 20, 1}, {2, 20, 3}, {4, 20, 6}, {2, 2, 2}, {4, 5, 5},
	} {
		t.Run(fmt.Sprint(test.workers, " workers, ", test.hanging, " hanging"), func(t *testing.T) {
			backend := newStuck()
			b := newBench(t, backend, newMemoryLocks())
			for _, key := range b.leaveAll(t, backend, "bad", test.hanging) {
				backend.hangs[key] = true
			}
			old := b.leaveAll(t, backend, "old", 5)
			sweeper := broker.NewSweeper(b.Service, b.observed)
			end := sweepingWith(t, sweeper, backend, test.workers, time.Hour)
			for n := 0; n < test.most; n++ {
				soon(t, backend.begun)
			}
			for _, key := range b.leaveAll(t, backend, "good", 10) {
				sweeper.Touch(key)
				b.becomes(t, key)
			}
			if test.hanging <= test.most {
				for _, key := range old {
					b.becomes(t, key)
				}
			}
			diff.Equal(t, backend.mostAtOnce(), test.most,
				"with %d workers: calls of what was unfinished at once", test.workers)
			end()
		})
	}
}

// silentLocks are locks whose server is silent while there is a channel, until it is closed.
type silentLocks struct {
	*memoryLocks
	turn   sync.Mutex
	silent chan struct{}
	tries  int
}

func (l *silentLocks) TryLock(ctx context.Context, key broker.Key) (broker.Lock, error) {
	l.turn.Lock()
	silent := l.silent
	l.tries++
	l.turn.Unlock()
	if silent != nil {
		<-silent
		return nil, broker.Away(errScripted)
	}
	return l.memoryLocks.TryLock(ctx, key)
}

func (l *silentLocks) is(silent chan struct{}) {
	l.turn.Lock()
	defer l.turn.Unlock()
	l.silent, l.tries = silent, 0
}

func (l *silentLocks) count() int {
	l.turn.Lock()
	defer l.turn.Unlock()
	return l.tries
}

// While the locks are silent, a Poll is answered, and so is whatever needs no work. All else is answered with 503, and
// at once from then on. Once the locks answer again, everything is as before. The handler has 4 threads.
func TestLocksThatAreSilent(t *testing.T) {
	store := diff.Value(sqlite.Open(context.Background(), filepath.Join(t.TempDir(), "store"), broker.Silent{}))(t)
	t.Cleanup(func() { _ = store.Close() })
	locks := &silentLocks{memoryLocks: newMemoryLocks()}
	options := broker.ServiceOptions{LocksAtOnce: 2} // of the 3 threads that may do work
	service := broker.NewService(catalogueFor(t, catalogue), store, newShelf(calm), locks, options, broker.Silent{})
	handler := handlerFor(t, service)
	ask := func(method, target, body string) int {
		request := httptest.NewRequest(method, instances+target, strings.NewReader(body))
		request.SetBasicAuth("u", "p")
		request.Header.Set(osb.VersionHeader, osb.VersionSent)
		given := httptest.NewRecorder()
		handler.ServeHTTP(given, request)
		return given.Code
	}
	want := func(status int, within time.Duration, method, target, body string) {
		t.Helper()
		begun := time.Now()
		got := ask(method, target, body)
		if took := time.Since(begun); got != status || took > within {
			t.Errorf("%s %s: got %d after %v, want %d within %v", method, target, got, took, status, within)
		}
	}
	const soon = time.Minute
	want(201, soon, "PUT", "there", bodyOf(now, ""))
	silent := make(chan struct{})
	var once sync.Once
	answer := func() { once.Do(func() { close(silent) }) }
	defer answer()
	locks.is(silent)
	var waiting sync.WaitGroup
	answers := make(chan int, 8)
	for n := 0; n < cap(answers); n++ {
		waiting.Add(1)
		go func(id string) {
			defer waiting.Done()
			answers <- ask("PUT", id, bodyOf(now, ""))
		}("new-" + strconv.Itoa(n))
	}
	for count := 0; count < 2; count = locks.count() {
		time.Sleep(time.Millisecond)
	}
	want(200, soon, "GET", "there/last_operation", "") // it needs no lock
	for n := 0; n < 6; n++ {                           // for these there was no slot
		select {
		case status := <-answers:
			diff.Equal(t, status, http.StatusServiceUnavailable, "a Provision")
		case <-time.After(soon):
			t.Fatal("requests without a slot: got them to wait, want 503 soon")
		}
	}
	begun := time.Now()
	want(200, soon, "PUT", "there", bodyOf(now, ""))
	want(410, soon, "DELETE", "never"+names(now), "")
	want(503, soon, "PUT", "new", bodyOf(now, ""))
	want(503, soon, "DELETE", "there"+names(now), "")
	if took := time.Since(begun); took >= 8*time.Second { // each would wait two seconds for a slot
		t.Errorf("got four answers after %v, want them at once", took)
	}
	diff.Equal(t, locks.count(), 2, "the silent locks: tried at once")
	locks.is(nil)
	answer()
	waiting.Wait()
	want(201, soon, "PUT", "new", bodyOf(now, ""))
	want(200, soon, "DELETE", "there"+names(now), "")
}
