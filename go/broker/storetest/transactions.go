package storetest

import (
	"context"
	"errors"
	"strconv"
	"sync"
	"testing"
	"time"

	"pippinterm/broker"
	"pippinterm/internal/diff"
	"pippinterm/internal/waits"
)

// Steps that fail, panic or whose context is cancelled write nothing, and the changes beside them are written.
func testFailingSteps(t *testing.T, open func(*testing.T) broker.NamedStore) {
	stores := []broker.Store{openStore(t, open), openStore(t, open)}
	const count = 20
	var all sync.WaitGroup
	for n := 0; n < count; n++ {
		for _, key := range []broker.Key{instance(n), binding(n, 1000)} {
			all.Add(1)
			go func(n int, key broker.Key) {
				defer all.Done()
				failing[n%len(failing)](t, stores[n/len(failing)%2], key)
			}(n, key)
		}
	}
	all.Wait()
	for n := 0; n < count; n++ {
		want := broker.Entry{}
		if n%len(failing) == 0 {
			want = ready(t)
		}
		for _, key := range []broker.Key{instance(n), binding(n, 1000)} {
			wantEntry(t, "after "+strconv.Itoa(n%len(failing)), read(t, stores[0], key).Entry, want)
		}
	}
}

func ready(t *testing.T) broker.Entry { return broker.Entry{Holding: in(t, "ready")} }

var errWrong = errors.New("wrong")

// failing are changes that run beside each other. The first is written.
var failing = []func(*testing.T, broker.Store, broker.Key){
	func(t *testing.T, store broker.Store, key broker.Key) {
		entry := ready(t)
		err := changeError(context.Background(), store, key,
			func(broker.Snapshot) (*broker.Entry, error) { return &entry, nil })
		diff.NoError(t, err, "a step beside others that fail")
	},
	func(t *testing.T, store broker.Store, key broker.Key) {
		entry := ready(t)
		err := changeError(context.Background(), store, key,
			func(broker.Snapshot) (*broker.Entry, error) { return &entry, errWrong })
		diff.ErrorIs(t, err, errWrong, "a step that fails")
	},
	func(t *testing.T, store broker.Store, key broker.Key) {
		err := changeError(context.Background(), store, key,
			func(broker.Snapshot) (*broker.Entry, error) { panic("a bug") })
		diff.ErrorContains(t, err, "a bug", "a step that panics")
	},
	func(t *testing.T, store broker.Store, key broker.Key) {
		entry := ready(t)
		gone, cancel := context.WithCancel(context.Background())
		cancel()
		err := changeError(gone, store, key,
			func(broker.Snapshot) (*broker.Entry, error) { return &entry, nil })
		diff.ErrorIs(t, err, context.Canceled, "a context that is cancelled")
	},
}

// Eight goroutines, over two stores, count in the description of one row.
func testCounter(t *testing.T, open func(*testing.T) broker.NamedStore) {
	stores := []broker.Store{openStore(t, open), openStore(t, open)}
	const goroutines, each = 8, 20
	for _, key := range []broker.Key{instance(1), binding(2, 1), binding(4, 3)} {
		var all sync.WaitGroup
		for n := 0; n < goroutines; n++ {
			all.Add(1)
			go func(store broker.Store) {
				defer all.Done()
				for i := 0; i < each; i++ {
					diff.NoError(t, store.Change(context.Background(), key, countOne), "%v", key)
				}
			}(stores[n%2])
		}
		all.Wait()
		diff.Equal(t, read(t, stores[0], key).Description, strconv.Itoa(goroutines*each), "%v", key)
	}
}

func countOne(snapshot broker.Snapshot) (*broker.Entry, error) {
	count := 0
	if snapshot.Description != "" {
		var err error
		if count, err = strconv.Atoi(snapshot.Description); err != nil {
			return nil, err
		}
	}
	entry := snapshot.Entry
	entry.Description = strconv.Itoa(count + 1)
	return &entry, nil
}

// Each row is locked, and with that of a binding that of its instance, also if there is no such row yet. The second
// Change reads what the first has written.
func testExclusion(t *testing.T, open func(*testing.T) broker.NamedStore) {
	first, second := openStore(t, open), openStore(t, open)
	for at, test := range []struct {
		name          string
		hasRow        bool
		first, second broker.Key
	}{
		{"an instance and itself", true, instance(1), instance(1)},
		{"an instance without a row and itself", false, instance(2), instance(2)},
		{"a binding and itself", true, binding(3, 3), binding(3, 3)},
		{"a binding without a row and itself", false, binding(4, 4), binding(4, 4)},
		{"an instance, then its binding", true, instance(5), binding(5, 5)},
		{"an instance without a row, then its binding", false, instance(6), binding(6, 6)},
		{"a binding, then its instance", true, binding(7, 7), instance(7)},
		{"a binding, then its instance without a row", false, binding(8, 8), instance(8)},
	} {
		t.Run(test.name, func(t *testing.T) {
			if test.hasRow {
				write(t, first, instance(at+1), broker.Entry{Holding: in(t, "ready")})
			}
			written := broker.Entry{Holding: in(t, "failed"), Description: "by the first", Worker: id(1)}
			change := func(store broker.Store, key broker.Key, step broker.Step) func(func()) error {
				return func(inside func()) error {
					return store.Change(context.Background(), key, func(snapshot broker.Snapshot) (*broker.Entry, error) {
						inside()
						return step(snapshot)
					})
				}
			}
			exclude(t,
				change(first, test.first, func(broker.Snapshot) (*broker.Entry, error) { return &written, nil }),
				change(second, test.second, func(snapshot broker.Snapshot) (*broker.Entry, error) {
					return nil, seesFirst(test.first, test.second, snapshot, written)
				}))
		})
	}
}

// exclude checks that the second of two calls comes in only once the first one is out. Each of them calls its function
// when it is inside.
func exclude(t *testing.T, first, second func(inside func()) error) {
	t.Helper()
	entered, release, overlapped := make(chan struct{}), make(chan struct{}), make(chan struct{})
	one := waits.Begin(func() error { return first(func() { close(entered); <-release }) })
	<-entered
	other := waits.Begin(func() error { return second(func() { close(overlapped) }) })
	select {
	case <-overlapped:
		t.Error("got both at once, want one after the other")
	case <-time.After(soon):
	}
	close(release)
	diff.NoError(t, <-one, "the first")
	diff.NoError(t, <-other, "the second")
}

// seesFirst fails unless the second Change sees what the first has written.
func seesFirst(one, other broker.Key, snapshot broker.Snapshot, written broker.Entry) error {
	sees := snapshot.Holding == written.Holding && snapshot.Description == written.Description &&
		snapshot.Worker == written.Worker
	var err error
	switch {
	case !one.IsBinding && other.IsBinding:
		sees = snapshot.Instance.Holding == written.Holding
	case one.IsBinding && !other.IsBinding:
		sees, err = snapshot.AnyBinding()
	}
	if err == nil && !sees {
		err = errors.New("it doesn't see what the first has written")
	}
	return err
}

// Close waits for a Change that has begun, and no other begins afterwards.
func testClose(t *testing.T, open func(*testing.T) broker.NamedStore) {
	store, other := open(t), openStore(t, open)
	exclude(t, func(inside func()) error {
		return store.Change(context.Background(), instance(1), func(broker.Snapshot) (*broker.Entry, error) {
			inside()
			return &broker.Entry{Holding: in(t, "ready")}, nil
		})
	}, func(closed func()) error {
		defer closed()
		return store.Close()
	})
	wantEntry(t, "after Close", read(t, other, instance(1)).Entry, broker.Entry{Holding: in(t, "ready")})
	wantClosed(t, store)
}

// wantClosed checks that each call of a closed store returns an error, and waits for nothing.
func wantClosed(t *testing.T, store broker.NamedStore) {
	t.Helper()
	ctx := context.Background()
	for name, call := range map[string]func() error{
		"Read":         func() error { _, err := store.Read(ctx, instance(2)); return err },
		"HeldBindings": func() error { _, err := store.HeldBindings(ctx, id(2)); return err },
		"Unfinished":   func() error { _, err := store.UnfinishedKeys(ctx); return err },
		"Stats":        func() error { _, err := store.Stats(ctx); return err },
		"Ready":        func() error { return store.Ready(ctx) },
		"Name":         func() error { _, err := store.Name(ctx); return err },
		"Tie":          func() error { return store.Tie(ctx, func(bool) error { return nil }) },
		"Change":       func() error { return store.Change(ctx, instance(2), nil) },
	} {
		ended := waits.Begin(func() error { return call() })
		select {
		case err := <-ended:
			diff.Error(t, err, "%s after Close", name)
		case <-time.After(time.Minute):
			t.Errorf("%s after Close: got no end in a minute, want one", name)
		}
	}
}
