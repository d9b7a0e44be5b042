package storetest

import (
	"errors"
	"fmt"
	"strings"
	"sync"
	"testing"
	"time"

	"pippinterm/internal/diff"
	"pippinterm/osb"
	"pippinterm/platform"
)

// claim claims rows, and leases them until the time. It returns the keys that were stepped, in their order.
func claim(t *testing.T, store platform.Store, of []string, most int, until time.Time) []platform.Key {
	t.Helper()
	stepped := []platform.Key{}
	claimed, err := store.Claim(background, of, most, func(_ time.Time, snapshot platform.Snapshot) (*platform.Change, error) {
		stepped = append(stepped, snapshot.Key)
		return &platform.Change{Entry: withLease(snapshot.Entry, "a worker", until)}, nil
	})
	diff.Must(t, err)
	keys := []platform.Key{}
	for _, row := range claimed {
		keys = append(keys, row.Key)
		diff.NoError(t, row.Err, "the claim of %v", row.Key)
	}
	diff.Check(t, keys, stepped, "the claimed rows, and those that were stepped")
	return keys
}

func wantClaimed(t *testing.T, what string, got []platform.Key, want ...platform.Key) {
	t.Helper()
	diff.Check(t, got, append([]platform.Key{}, want...), "%s", what)
}

// The longest due come first, instances and bindings alike. What is due later or rests isn't claimed.
func testClaimOrder(t *testing.T, open opener) {
	first, second := openStore(t, open), openStore(t, open)
	insert(t, first,
		due(order(instance(1)), past(50)), due(order(instance(2)), past(10)), due(order(binding(3, 1)), past(30)),
		due(order(instance(4)), past(20)), due(order(binding(5, 1)), past(40)), due(order(binding(1, 2)), past(5)),
		due(order(instance(6)), future(1)), due(order(binding(7, 1)), future(0)),
		due(order(instance(8)), time.Time{}), due(order(binding(9, 1)), time.Time{}))
	wantClaimed(t, "the first", claim(t, first, brokers, 2, future(0)), binding(1, 2), instance(2))
	wantClaimed(t, "none", claim(t, first, brokers, 0, future(0)))
	wantClaimed(t, "the second", claim(t, second, brokers, 2, future(0)), instance(4), binding(3, 1))
	wantClaimed(t, "the others", claim(t, first, brokers, 100, future(0)), binding(5, 1), instance(1))
	wantClaimed(t, "after all", claim(t, second, brokers, 100, future(0)))
}

func testClaimBrokers(t *testing.T, open opener) {
	store := openStore(t, open)
	for n, name := range []string{"one", "two", "three", "one"} {
		entry, of := due(order(instance(n)), past(n)), due(order(binding(n, n)), past(10+n))
		entry.Broker, of.Broker = name, name
		insert(t, store, entry, of)
	}
	wantClaimed(t, "of no broker", claim(t, store, nil, 10, future(0)))
	wantClaimed(t, "of an unknown broker", claim(t, store, []string{"four", "on", ""}, 10, future(0)))
	wantClaimed(t, "of two", claim(t, store, []string{"three", "two"}, 3, future(0)),
		instance(1), instance(2), binding(1, 1))
	wantClaimed(t, "of all", claim(t, store, []string{"one", "two", "three"}, 10, future(0)),
		instance(0), instance(3), binding(0, 0), binding(2, 2), binding(3, 3))
}

// A row that is leased is passed over until the lease is over, by its own worker too. A lease ends with a Change.
func testLeases(t *testing.T, open opener) {
	first, second := openStore(t, open), openStore(t, open)
	insert(t, first,
		withLease(order(instance(1)), "a worker", future(1)), withLease(order(instance(2)), "a worker", past(1)),
		withLease(order(binding(1, 1)), "another", future(1)),
		withLease(due(order(binding(2, 1)), past(1)), "another", past(1)))
	leases := []platform.Lease{}
	_, err := first.Claim(background, brokers, 10, func(now time.Time, snapshot platform.Snapshot) (*platform.Change, error) {
		leases = append(leases, snapshot.Lease)
		return &platform.Change{Entry: withLease(snapshot.Entry, "the next", now.Add(time.Hour))}, nil
	})
	check(t, err)
	for n, worker := range []string{"a worker", "another"} {
		if len(leases) != 2 || leases[n].Worker != worker || !leases[n].Until.Equal(past(1)) {
			t.Errorf("the leases that were over: got %+v, want both", leases)
		}
	}
	wantClaimed(t, "while all are leased", claim(t, second, brokers, 10, future(0)))
	change(t, second, instance(2), func(it *platform.Change) { it.Entry.Lease = platform.Lease{} })
	wantClaimed(t, "after the end of a lease", claim(t, first, brokers, 10, future(0)), instance(2))
}

// A row whose step fails stays as it was, but is due later. Those beside it are written.
func testFailingClaim(t *testing.T, open opener) {
	store := openStore(t, open)
	const kinds = 7
	entries := []platform.Entry{}
	for n := 0; n < kinds; n++ {
		entries = append(entries, due(order(instance(n)), past(n)))
	}
	for n := 0; n < kinds; n++ {
		entries = append(entries, due(order(binding(n, n)), past(kinds+n)))
	}
	insert(t, store, entries...)
	used := order(instance(0))
	step := func(_ time.Time, snapshot platform.Snapshot) (*platform.Change, error) {
		all := platform.Change{Entry: in(t, snapshot.Key, platform.Wanted), RemoveBindings: !snapshot.Key.IsBinding}
		switch snapshot.Key.ID() {
		case id(1):
			return &all, errWrong
		case id(2):
			panic("a bug")
		case id(3):
			return nil, nil
		case id(4):
			all.Next = &used
		case id(6):
			all.Entry.Record = osb.Record{} // has no text
		}
		return &all, nil
	}
	begun := now(t, store)
	claimed := diff.Value(store.Claim(background, brokers, 100, step))(t)
	diff.Len(t, claimed, len(entries), "Claim")
	for n, row := range claimed {
		key := entries[n].Key
		isRight := []bool{
			row.Err == nil, errors.Is(row.Err, errWrong), row.Err != nil && strings.Contains(row.Err.Error(), "a bug"),
			row.Err == nil, errors.Is(row.Err, platform.ErrUsed), row.Err == nil, errors.Is(row.Err, osb.ErrBadRecord),
		}
		if row.Key != key || !isRight[n%kinds] {
			t.Errorf("got %v claimed with %v, want each row with its own outcome", row.Key, row.Err)
		}
	}
	wantAfterFailing(t, store, entries, begun)
}

// now is the time of a store.
func now(t *testing.T, store platform.Store) time.Time {
	t.Helper()
	_, at, err := store.NextDue(background, nil)
	check(t, err)
	return at
}

// wantAfterFailing compares the rows of testFailingClaim.
func wantAfterFailing(t *testing.T, store platform.Store, before []platform.Entry, begun time.Time) {
	t.Helper()
	first, last := begun.Add(platform.FailedRest), now(t, store).Add(platform.FailedRest)
	for _, entry := range before {
		want, isWritten, stays := entry, entry.Key.ID() == id(0) || entry.Key.ID() == id(5), 0
		if isWritten {
			want, stays = in(t, entry.Key, platform.Wanted), 1
		}
		got := read(t, store, entry.Key)
		if hasFailed := !isWritten && entry.Key.ID() != id(3); hasFailed {
			if got.Due.Before(first.Truncate(time.Millisecond)) || got.Due.After(last.Add(time.Millisecond)) {
				t.Errorf("%v: got it due at %v, want it between %v and %v", entry.Key, got.Due, first, last)
			}
			want.Due = got.Due
		}
		wantEntry(t, entry.Key.String(), got, want)
		diff.Equal(t, len(diff.Value(store.Life(background, entry.Key))(t)), stays, "the life of %v", entry.Key)
	}
}

// Rows whose steps always fail keep no other row waiting, though they are due the longest, and though there are more of
// them than are claimed at once.
func testPoisoned(t *testing.T, open opener) {
	store := openStore(t, open)
	const poisoned, most = 20, 4
	healthy := due(order(binding(1000, 0)), past(poisoned))
	for n := 0; n < poisoned; n += 2 {
		insert(t, store, due(order(instance(n)), past(n)), due(order(binding(n, n)), past(n+1)))
	}
	insert(t, store, healthy)
	for n := 0; n <= poisoned/most; n++ {
		isStepped := false
		claimed, err := store.Claim(background, brokers, most,
			func(_ time.Time, snapshot platform.Snapshot) (*platform.Change, error) {
				if snapshot.Key == healthy.Key {
					isStepped = true
					return &platform.Change{Entry: withLease(snapshot.Entry, "a worker", future(0))}, nil
				}
				return nil, errWrong
			})
		check(t, err)
		if isStepped {
			return
		}
		diff.Equal(t, len(claimed), most, "claimed")
	}
	t.Error("the row whose step doesn't fail: got no claim, want one")
}

// A step reads what steps before it in the same claim have written, so that none of it is lost.
func testClaimSees(t *testing.T, open opener) {
	store := openStore(t, open)
	insert(t, store, due(order(instance(1)), past(1)), due(in(t, binding(1, 1), platform.Ready), past(2)))
	of := due(in(t, instance(2), platform.Ready), past(4))
	of.Removal = platform.Removed
	insert(t, store, of, due(in(t, binding(1, 2), platform.Cleaning), past(3)))
	steps := []platform.Key{}
	_, err := store.Claim(background, brokers, 10, func(_ time.Time, snapshot platform.Snapshot) (*platform.Change, error) {
		steps = append(steps, snapshot.Key)
		change := platform.Change{Entry: withLease(snapshot.Entry, "a worker", future(0))}
		switch snapshot.Key {
		case instance(1):
			change.RemoveBindings, change.Entry.Because = true, "seen"
		case binding(1, 1):
			diff.Equal(t, snapshot.Removal, platform.Removed, "the binding: removal")
			diff.Equal(t, snapshot.Instance.Because, "seen", "the binding: because")
		case binding(1, 2):
			change.Entry = in(t, snapshot.Key, platform.Gone)
			change.WakeInstance = true
		case instance(2):
			if isAllGone, err := snapshot.AllGone(); err != nil || !isAllGone {
				t.Errorf("AllGone: got %t, %v, want true", isAllGone, err)
			}
		}
		return &change, nil
	})
	check(t, err)
	wantClaimed(t, "in order", steps, instance(1), binding(1, 1), binding(1, 2), instance(2))
	if got := read(t, store, binding(1, 1)); got.Removal != platform.Removed || got.Lease.Worker != "a worker" {
		t.Errorf("the binding: got %+v, want it removed and leased", got)
	}
}

// Of many that claim at once, each row goes to one.
func testClaimsAtOnce(t *testing.T, open opener) {
	stores := []platform.Store{openStore(t, open), openStore(t, open)}
	const rows = 40
	for n := 0; n < rows; n++ {
		insert(t, stores[0], order(instance(n)), order(binding(n, n)))
	}
	var all sync.WaitGroup
	var turn sync.Mutex
	taken := map[platform.Key]int{}
	take := func(claimed []platform.ClaimedRow) {
		turn.Lock()
		defer turn.Unlock()
		for _, row := range claimed {
			taken[row.Key]++
		}
	}
	for n := 0; n < 8; n++ {
		all.Add(1)
		go func(store platform.Store, worker string) {
			defer all.Done()
			for most := 1; most <= 2*rows; most++ {
				claimed, err := store.Claim(background, brokers, most, leaseFor(worker))
				diff.NoError(t, err, "Claim")
				take(claimed)
				if len(claimed) == 0 { // others have locked what is left
					return
				}
			}
		}(stores[n%2], fmt.Sprint("worker ", n))
	}
	all.Wait()
	// Two claims that have each locked a row of the other return nothing. So some rows may be left.
	claimed := diff.Value(stores[0].Claim(background, brokers, 2*rows, leaseFor("the last")))(t)
	take(claimed)
	diff.Equal(t, len(taken), 2*rows, "rows claimed")
	for key, count := range taken {
		diff.Equal(t, count, 1, "%v: claims", key)
	}
	wantClaimed(t, "after all", claim(t, stores[0], brokers, 10, future(0)))
}

func leaseFor(worker string) platform.Step {
	return func(_ time.Time, snapshot platform.Snapshot) (*platform.Change, error) {
		return &platform.Change{Entry: withLease(snapshot.Entry, worker, future(0))}, nil
	}
}

// While a transaction has locked rows, a claim passes over them, or waits until it can: it never takes what the other
// one is about to lease, or to put off.
func testClaimPassesOver(t *testing.T, open opener) {
	first, second := openStore(t, open), openStore(t, open)
	insert(t, first, due(order(instance(1)), past(1)), due(order(instance(2)), past(2)))
	gate, done, late := NewGate(), make(chan error, 1), make(chan error, 1)
	defer gate.Open()
	go func() {
		done <- first.Change(background, instance(1), func(_ time.Time, snapshot platform.Snapshot) (*platform.Change, error) {
			gate.Pass()
			return &platform.Change{Entry: due(snapshot.Entry, future(0))}, nil
		})
	}()
	gate.Await(t, done)
	var claimed []platform.ClaimedRow
	go func() {
		found, err := second.Claim(background, brokers, 10, leaseFor("a worker"))
		claimed = found
		late <- err
	}()
	select {
	case err := <-late:
		late <- err
	case <-time.After(soon):
	}
	gate.Open()
	diff.NoError(t, <-done, "Change")
	if err := <-late; err != nil || len(claimed) != 1 || claimed[0] != (platform.ClaimedRow{Key: instance(2)}) {
		t.Errorf("beside a transaction: got %v claimed, %v, want the second only", claimed, err)
	}
	if got := read(t, first, instance(1)); !got.Due.Equal(future(0)) || got.Lease != (platform.Lease{}) {
		t.Errorf("the row of the transaction: got %+v, want it due later without a lease", got)
	}
}

// A Gate keeps steps waiting, so that a test can see what others do meanwhile.
//
// Defer Open behind what waits for the steps, such as closing their store. A test that fails at the gate then ends, and
// doesn't wait for its own step.
type Gate struct {
	steps chan struct{}
	open  chan struct{}
	once  sync.Once
}

// NewGate returns a gate that is closed.
func NewGate() *Gate { return &Gate{steps: make(chan struct{}, 100), open: make(chan struct{})} }

// Pass waits until the gate is open. Steps call it.
func (g *Gate) Pass() {
	select {
	case g.steps <- struct{}{}:
	default: // so many steps are awaited by no test
	}
	<-g.open
}

// Await waits for one more step at the gate. It fails the test if a call ends before it has a step. done has the errors
// of the calls.
func (g *Gate) Await(t testing.TB, done <-chan error) {
	t.Helper()
	select {
	case <-g.steps:
	case err := <-done:
		t.Fatalf("a call: got %v before its step, want it to wait", err)
	case <-time.After(deadline):
		t.Fatal("got no step in time, want one")
	}
}

// Steps returns how many steps have begun that weren't awaited.
func (g *Gate) Steps() int { return len(g.steps) }

// Open lets all steps pass, now and later.
func (g *Gate) Open() { g.once.Do(func() { close(g.open) }) }
