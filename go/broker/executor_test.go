package broker_test

import (
	"context"
	"errors"
	"net/http"
	"net/http/httptest"
	"strings"
	"testing"
	"time"

	"pippinterm/broker"
	"pippinterm/internal/diff"
	"pippinterm/osb"
)

// A doubtfulStore loses what became of some changes, by their number: whether each of them was written.
type doubtfulStore struct {
	broker.Store
	changes    int
	wasWritten map[int]bool
}

func (d *doubtfulStore) Change(ctx context.Context, key broker.Key, step broker.Step) error {
	d.changes++
	wasWritten, isDoubtful := d.wasWritten[d.changes]
	err := d.Store.Change(ctx, key, func(snapshot broker.Snapshot) (*broker.Entry, error) {
		next, err := step(snapshot)
		if err == nil && isDoubtful && !wasWritten {
			return nil, nil
		}
		return next, err
	})
	if err == nil && isDoubtful {
		return broker.Away(errors.New("the connection broke during the commit"))
	}
	return err
}

// countsWhole counts what is created.
func countsWhole(made *int) func(broker.Key, broker.There, string) {
	return func(_ broker.Key, there broker.There, _ string) {
		if there == broker.Whole {
			*made++
		}
	}
}

// If nobody knows whether something was committed, the row says so, and the request is answered by the row. If that fails
// again and again, it is answered with 503: also if only what is written again fails.
func TestDoubtfulCommits(t *testing.T) {
	for _, test := range []struct {
		name         string
		wasWritten   map[int]bool
		method       string
		status, made int
	}{
		{"work begins, written", map[int]bool{1: true}, "PUT", 201, 1},
		{"work begins, lost", map[int]bool{1: false}, "PUT", 201, 1},
		{"work ends, written", map[int]bool{2: true}, "PUT", 201, 1},
		{"work ends, lost", map[int]bool{2: false}, "PUT", 201, 1},
		{"all of it, written", map[int]bool{1: true, 2: false, 4: true}, "PUT", 201, 1},
		{"all of it, lost", map[int]bool{1: false, 2: true, 4: false}, "PUT", 201, 1},
		{"an answer, written", map[int]bool{1: true}, "DELETE", 410, 0},
		{"an answer, lost", map[int]bool{1: false}, "DELETE", 410, 0},
		{"again and again", map[int]bool{1: true, 2: true, 3: true, 4: true}, "PUT", 503, 0},
		{"an answer, again and again", map[int]bool{1: false, 2: false, 3: false, 4: true}, "DELETE", 503, 0},
	} {
		t.Run(test.name, func(t *testing.T) {
			backend, made := newShelf(calm), 0
			backend.worked = countsWhole(&made)
			b := newBench(t, backend, newMemoryLocks())
			store := &doubtfulStore{b.store, 0, test.wasWritten}
			service := broker.NewService(catalogueFor(t, catalogue), store, backend, newMemoryLocks(), broker.ServiceOptions{}, b.observed)
			request := httptest.NewRequest(test.method, instances+"i"+names(now), strings.NewReader(bodyOf(now, "")))
			request.SetBasicAuth("u", "p")
			request.Header.Set(osb.VersionHeader, osb.VersionSent)
			given := httptest.NewRecorder()
			handlerFor(t, service).ServeHTTP(given, request)
			diff.Equal(t, given.Code, test.status, "the status")
			diff.Equal(t, made, test.made, "how many were created")
			if row, _ := b.holding(t, keyOf("i")).Row(); test.status == http.StatusCreated && row.Phase != osb.PhaseReady {
				t.Errorf("got the phase %v, want ready", row.Phase)
			}
		})
	}
}

// A take-up has nobody to answer to: if nobody knows what was committed, it is over, and is repeated later.
func TestDoubtfulTakeUp(t *testing.T) {
	ctx, made := context.Background(), 0
	backend := &blind{shelf: newShelf(calm)}
	backend.worked = countsWhole(&made)
	b := newBench(t, backend, newMemoryLocks())
	key := b.leave(t, backend, "i")
	store := &doubtfulStore{b.store, 0, map[int]bool{1: true, 3: false}}
	service := broker.NewService(catalogueFor(t, catalogue), store, backend, newMemoryLocks(), broker.ServiceOptions{}, b.observed)
	for n, want := range []error{broker.ErrAway, broker.ErrAway, nil} {
		if err := service.TakeUp(ctx, key); !errors.Is(err, want) {
			t.Errorf("take-up %d: got the error %v, want %v", n, err, want)
		}
	}
	diff.Equal(t, b.isPending(t, key), false, "the work is pending")
	diff.Equal(t, made, 1, "how many were created")
	diff.Check(t, b.observed.finished, []operationEnd{{key, true}}, "the ends that are reported")
}

// A repeatingStore calls each step twice, as a store does whose first transaction was undone.
type repeatingStore struct{ broker.Store }

func (r repeatingStore) Change(ctx context.Context, key broker.Key, step broker.Step) error {
	return r.Store.Change(ctx, key, func(snapshot broker.Snapshot) (*broker.Entry, error) {
		_, _ = step(snapshot)
		return step(snapshot)
	})
}

// What a transaction brings about is reported once, also if its step is called twice.
func TestReportsOfStepsThatAreCalledTwice(t *testing.T) {
	l, one := newLives(t, newShelf(calm), anHour), instances+"i"
	l.clock.Store = repeatingStore{l.clock.Store}
	l.ends(t)
	l.clock.set(time.Hour)
	l.expect(t, 202, "PUT", one+query, bodyOf(later, ""))
	diff.Equal(t, len(l.seen.returns), 1, "the returns")
	check(t, l.TakeUp(context.Background(), keyOf("i")))
	diff.Check(t, l.observed.finished, []operationEnd{{keyOf("i"), true}}, "the ends that are reported")
}

// A warningStore writes each change, and doesn't know whether it is on disk. A transaction that writes nothing has no
// commit that could fail.
type warningStore struct{ broker.Store }

func (w warningStore) Change(ctx context.Context, key broker.Key, step broker.Step) error {
	writes := false
	err := w.Store.Change(ctx, key, func(snapshot broker.Snapshot) (*broker.Entry, error) {
		next, err := step(snapshot)
		writes = next != nil
		return next, err
	})
	if err == nil && writes {
		err = broker.Away(errors.New("the standby hasn't confirmed the commit"))
	}
	return err
}

// Nothing is done or answered that rests on a commit which was only read again.
func TestDoubtsAreConfirmed(t *testing.T) {
	backend, made := newShelf(calm), 0
	backend.worked = countsWhole(&made)
	b := newBench(t, backend, newMemoryLocks())
	service := broker.NewService(
		catalogueFor(t, catalogue), warningStore{b.store}, backend, newMemoryLocks(), broker.ServiceOptions{}, b.observed)
	_, err := service.Handle(context.Background(), provision(now))
	diff.ErrorIs(t, err, broker.ErrAway, "the Provision")
	diff.Equal(t, made, 0, "how many were created")
}

// The return of an id is reported once, also if nobody knows at first whether its creation has begun.
func TestReturnAfterADoubt(t *testing.T) {
	for name, isWritten := range map[string]bool{"written": true, "lost": false} {
		t.Run(name, func(t *testing.T) {
			l := newLives(t, newShelf(calm), anHour)
			l.expect(t, 201, "PUT", instances+"i", bodyOf(now, ""))
			l.expect(t, 200, "DELETE", instances+"i"+names(now), "")
			l.clock.set(2 * time.Hour)
			l.clock.Store = &doubtfulStore{l.clock.Store, 0, map[int]bool{1: isWritten}}
			l.expect(t, 201, "PUT", instances+"i", bodyOf(now, ""))
			diff.Equal(t, len(l.seen.returns), 1, "the returns")
		})
	}
}

// A Bind whose lock is taken waits for it, and is carried out then.
func TestABindWaitsForItsLock(t *testing.T) {
	rows, shelf := rowStore{rows: map[broker.Key]broker.Entry{}}, newShelf(calm)
	serviceWith := func(locks broker.Locks) *broker.Service {
		return broker.NewService(catalogueFor(t, catalogue), rows, shelf, locks, broker.ServiceOptions{}, broker.Silent{})
	}
	create := message{method: "PUT", target: instances + "i", body: []byte(bodyOf(now, ""))}
	diff.Equal(t, create.serve(handlerFor(t, serviceWith(newMemoryLocks()))).status, 201, "the Provision")
	late := serviceWith(lateLocks{newMemoryLocks()})
	late.SetWait(0)
	bind := message{method: "PUT", target: instances + "i/service_bindings/b", body: []byte(bodyOf(now, ""))}
	diff.Equal(t, bind.serve(handlerFor(t, late)).status, 201, "the Bind")
}
