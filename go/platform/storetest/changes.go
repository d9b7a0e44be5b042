package storetest

import (
	"context"
	"encoding/json"
	"errors"
	"sync"
	"testing"
	"time"

	"pippinterm/internal/diff"
	"pippinterm/osb"
	"pippinterm/platform"
)

func testNoChange(t *testing.T, open opener) {
	store := openStore(t, open)
	before := []platform.Entry{full(t, instance(1)), full(t, binding(2, 1))}
	insert(t, store, before...)
	for _, entry := range before {
		calls := 0
		err := store.Change(background, entry.Key, func(time.Time, platform.Snapshot) (*platform.Change, error) {
			calls++
			return nil, nil
		})
		if err != nil || calls == 0 {
			t.Errorf("%v: got %v after %d calls, want no error after one", entry.Key, err, calls)
		}
		wantEntry(t, entry.Key.String(), read(t, store, entry.Key), entry)
	}
}

// A step that fails or panics writes nothing: neither the row, nor what is beside it. So does one whose context ends.
func testFailingChange(t *testing.T, open opener) {
	store := openStore(t, open)
	before := []platform.Entry{order(instance(1)), order(binding(2, 1)), order(binding(3, 1))}
	insert(t, store, before...)
	for _, key := range []platform.Key{instance(1), binding(2, 1)} {
		all := all(t, key)
		err := changeError(store, key, func(time.Time, platform.Snapshot) (*platform.Change, error) { return &all, errWrong })
		diff.ErrorIs(t, err, errWrong, "a step that fails")
		err = changeError(store, key, func(time.Time, platform.Snapshot) (*platform.Change, error) { panic("a bug") })
		diff.ErrorContains(t, err, "a bug", "a step that panics")
		all.Entry.Record = osb.Record{} // has no text
		err = changeError(store, key, func(time.Time, platform.Snapshot) (*platform.Change, error) { return &all, nil })
		diff.ErrorIs(t, err, osb.ErrBadRecord, "a row that can't be written")
		wantUntouched(t, store, before...)
	}
}

// all is a change of all that can be changed.
func all(t *testing.T, key platform.Key) platform.Change {
	t.Helper()
	next := order(instance(100))
	entry := in(t, key, platform.Ready)
	entry.Removal = platform.Removed
	return platform.Change{Entry: entry, Next: &next, RemoveBindings: !key.IsBinding, WakeInstance: key.IsBinding}
}

// wantUntouched fails if a row or a life has changed, or if there are more rows than these.
func wantUntouched(t *testing.T, store platform.Store, want ...platform.Entry) {
	t.Helper()
	for _, entry := range want {
		wantEntry(t, entry.Key.String(), read(t, store, entry.Key), entry)
		diff.Equal(t, len(diff.Value(store.Life(background, entry.Key))(t)), 0, "the life of %v", entry.Key)
	}
	diff.Equal(t, len(diff.Value(store.List(background, platform.Filter{}))(t)), len(want), "rows")
}

// A further order is written in the transaction, and if its key is used nothing is.
func testNext(t *testing.T, open opener) {
	first, second := openStore(t, open), openStore(t, open)
	insert(t, first, order(instance(1)), order(binding(2, 1)), order(binding(3, 1)))
	for n, key := range []platform.Key{instance(1), binding(2, 1)} {
		for _, of := range []platform.Key{instance(n + 10), binding(n+20, 1)} {
			next := full(t, of)
			change(t, first, key, func(it *platform.Change) { it.Entry.Unchanged, it.Next = 7, &next })
			wantRead(t, second, next)
			diff.Equal(t, read(t, second, key).Unchanged, 7, "%v", key)
		}
	}
	before := []platform.Entry{
		read(t, first, instance(1)), read(t, first, binding(2, 1)), read(t, first, binding(3, 1)),
		full(t, instance(10)), full(t, instance(11)), full(t, binding(20, 1)), full(t, binding(21, 1)),
	}
	for _, key := range []platform.Key{instance(1), binding(2, 1)} {
		for _, used := range []platform.Key{instance(10), instance(1), binding(20, 1), binding(3, 1)} {
			all := all(t, key)
			next := order(used)
			all.Next = &next
			err := changeError(first, key, func(time.Time, platform.Snapshot) (*platform.Change, error) { return &all, nil })
			diff.ErrorIs(t, err, platform.ErrUsed, "%v, whose next is %v", key, used)
			wantUntouched(t, second, before...)
		}
	}
}

// Fifty goroutines, over two stores, count in one row.
func testCounter(t *testing.T, open opener) {
	stores := []platform.Store{openStore(t, open), openStore(t, open)}
	insert(t, stores[0], order(instance(1)), order(binding(2, 1)))
	const goroutines, each = 50, 2
	for _, key := range []platform.Key{instance(1), binding(2, 1)} {
		var all sync.WaitGroup
		for n := 0; n < goroutines; n++ {
			all.Add(1)
			go func(store platform.Store, key platform.Key) {
				defer all.Done()
				for i := 0; i < each; i++ {
					diff.NoError(t, changeError(store, key, countOne), "%v", key)
				}
			}(stores[n%2], key)
		}
		all.Wait()
		diff.Equal(t, read(t, stores[0], key).Unchanged, goroutines*each, "%v", key)
	}
}

func countOne(_ time.Time, snapshot platform.Snapshot) (*platform.Change, error) {
	snapshot.Entry.Unchanged++
	return &platform.Change{Entry: snapshot.Entry}, nil
}

// Each row is locked, and with that of a binding that of its instance. The second transaction reads what the first has
// written.
func testExclusion(t *testing.T, open opener) {
	first, second := openStore(t, open), openStore(t, open)
	for n, test := range []struct {
		name          string
		first, second platform.Key
		isInserted    bool // whether the second is inserted
	}{
		{"an instance and itself", instance(1), instance(1), false},
		{"a binding and itself", binding(2, 2), binding(2, 2), false},
		{"an instance, then its binding", instance(3), binding(3, 3), false},
		{"a binding, then its instance", binding(4, 4), instance(4), false},
		{"an instance, then a new binding", instance(5), binding(5, 5), true},
	} {
		t.Run(test.name, func(t *testing.T) {
			insert(t, first, order(instance(n+1)))
			if key := binding(n+1, n+1); !test.isInserted {
				insert(t, first, order(key))
			}
			exclude(t, first, second, test.first, test.second, test.isInserted)
		})
	}
}

func exclude(t *testing.T, first, second platform.Store, one, other platform.Key, isInserted bool) {
	gate, done, late := NewGate(), make(chan error, 1), make(chan error, 1)
	defer gate.Open()
	go func() {
		done <- first.Change(background, one, Edit(func(e *platform.Entry, _ time.Time) {
			gate.Pass()
			e.Because = "by the first"
		}))
	}()
	gate.Await(t, done)
	overlapped := make(chan struct{})
	var once sync.Once
	seen := func(snapshot platform.Snapshot) error {
		once.Do(func() { close(overlapped) })
		return seesFirst(one, other, snapshot)
	}
	go func() {
		if isInserted {
			late <- second.Insert(background, order(other), seen)
			return
		}
		late <- second.Change(background, other, func(_ time.Time, snapshot platform.Snapshot) (*platform.Change, error) {
			return nil, seen(snapshot)
		})
	}()
	select {
	case <-overlapped:
		t.Error("got both at once, want one after the other")
	case <-time.After(soon):
	}
	gate.Open()
	diff.NoError(t, <-done, "the first")
	diff.NoError(t, <-late, "the second")
}

// seesFirst fails unless the second transaction sees what the first has written.
func seesFirst(one, other platform.Key, snapshot platform.Snapshot) error {
	sees := snapshot.Because == "by the first"
	switch {
	case !one.IsBinding && other.IsBinding:
		sees = snapshot.Instance.Because == "by the first"
	case one.IsBinding && !other.IsBinding:
		sees = true // a row of an instance shows nothing of its bindings
	}
	if !sees {
		return errors.New("it doesn't see what the first has written")
	}
	return nil
}

// A step of a binding sees the row of its instance.
func testInstanceOfBinding(t *testing.T, open opener) {
	first, second := openStore(t, open), openStore(t, open)
	insert(t, first, order(instance(1)), order(instance(2)), order(binding(2, 1)))
	for _, state := range []platform.State{platform.Ready, platform.Cleaning, platform.Gone} {
		of := in(t, instance(1), state)
		of.Because = "in " + string(state)
		change(t, first, instance(1), func(it *platform.Change) { it.Entry = of })
		err := changeError(second, binding(2, 1), func(_ time.Time, snapshot platform.Snapshot) (*platform.Change, error) {
			if snapshot.Instance == nil {
				return nil, errors.New("there is no instance")
			}
			wantEntry(t, "the instance", *snapshot.Instance, of)
			snapshot.Instance.Because = "a step can't change this"
			return &platform.Change{Entry: snapshot.Entry}, nil
		})
		diff.NoError(t, err, "")
		wantEntry(t, "the instance", read(t, first, instance(1)), of)
	}
	wantEntry(t, "another instance", read(t, first, instance(2)), order(instance(2)))
}

// No binding may exist if each that was sent is recorded gone, or is abandoned.
func testAllGone(t *testing.T, open opener) {
	store := openStore(t, open)
	insert(t, store, order(instance(1)), order(instance(2)))
	wantAllGone(t, store, true, "without bindings")
	insert(t, store, in(t, binding(1, 2), platform.Ready))
	wantAllGone(t, store, true, "with a binding of another instance")
	insert(t, store, in(t, binding(1, 1), platform.Ordered), in(t, binding(2, 1), platform.Withdrawn))
	wantAllGone(t, store, true, "with bindings that weren't sent")
	insert(t, store, in(t, binding(3, 1), platform.Gone))
	wantAllGone(t, store, true, "with a binding that is gone")
	for n, state := range []platform.State{
		platform.Wanted, platform.Polling, platform.Ready, platform.Cleaning, platform.CleaningPolling,
		platform.Unsettled,
	} {
		key := binding(n+10, 1)
		insert(t, store, in(t, key, state))
		wantAllGone(t, store, false, "with one that is "+string(state))
		change(t, store, key, func(it *platform.Change) { it.Entry = in(t, key, platform.Gone) })
		wantAllGone(t, store, true, "once it is gone")
	}
	abandoned := in(t, binding(3, 1), platform.Gone)
	abandoned.State = platform.Abandoned
	change(t, store, binding(3, 1), func(it *platform.Change) { it.Entry = abandoned })
	wantAllGone(t, store, true, "with one that is abandoned, and recorded gone")
	insert(t, store, in(t, binding(30, 1), platform.Abandoned))
	wantAllGone(t, store, true, "with one that is abandoned, and may exist")
	insert(t, store, in(t, binding(31, 1), platform.Ready))
	wantAllGone(t, store, false, "with one that is ready beside it")
	change(t, store, binding(31, 1), func(it *platform.Change) { it.Entry.State = platform.Abandoned })
	wantAllGone(t, store, true, "once that is abandoned")
}

// Each instance of one Claim gets its own bindings.
func testAllGoneOfAClaim(t *testing.T, open opener) {
	store := openStore(t, open)
	got, want := map[platform.Key]bool{}, map[platform.Key]bool{}
	for n := 1; n <= 6; n++ {
		want[instance(n)] = n%3 == 0
		insert(t, store, due(in(t, instance(n), platform.Ready), past(n)))
		if n%3 != 0 {
			insert(t, store, in(t, binding(n, n), platform.Ready)) // it isn't due
		}
	}
	_, err := store.Claim(background, brokers, 10, func(_ time.Time, snapshot platform.Snapshot) (_ *platform.Change, err error) {
		got[snapshot.Key], err = snapshot.AllGone()
		return nil, err
	})
	check(t, err)
	diff.Check(t, got, want, "whether all are gone")
}

func wantAllGone(t *testing.T, store platform.Store, want bool, what string) {
	t.Helper()
	err := store.Change(background, instance(1), func(_ time.Time, snapshot platform.Snapshot) (*platform.Change, error) {
		diff.Equal(t, diff.Value(snapshot.AllGone())(t), want, "%s", what)
		return nil, nil
	})
	diff.NoError(t, err, "%s", what)
}

// The removal of an instance's bindings is written to those that may be, and they are due at once.
func testRemoveBindings(t *testing.T, open opener) {
	first, second := openStore(t, open), openStore(t, open)
	insert(t, first, in(t, instance(1), platform.Ready), in(t, instance(2), platform.Ready))
	states := []platform.State{
		platform.Ordered, platform.Wanted, platform.Polling, platform.Ready, platform.Cleaning,
		platform.CleaningPolling, platform.Unsettled, platform.Gone, platform.Withdrawn, platform.Abandoned,
	}
	for n, state := range states {
		insert(t, first, in(t, binding(n, 1), state), due(in(t, binding(n, 2), state), future(1)))
	}
	change(t, first, instance(1), func(it *platform.Change) { it.RemoveBindings = true })
	for n, state := range states {
		isLeft := state == platform.Gone || state == platform.Withdrawn || state == platform.Abandoned
		got, want := read(t, second, binding(n, 1)), in(t, binding(n, 1), state)
		if !isLeft {
			wantDueNow(t, string(state), got)
			want.Due, want.Removal = got.Due, platform.Removed
		}
		wantEntry(t, string(state), got, want)
		other := due(in(t, binding(n, 2), state), future(1))
		wantEntry(t, "of another, "+string(state), read(t, second, other.Key), other)
	}
	change(t, first, instance(2), func(it *platform.Change) { it.RemoveBindings = true })
	wantDueNow(t, "of the other", read(t, second, binding(3, 2)))
}

// wantDueNow fails unless a row can be claimed.
func wantDueNow(t *testing.T, what string, entry platform.Entry) {
	t.Helper()
	if entry.Due.IsZero() || entry.Due.After(time.Now().Add(deadline)) {
		t.Errorf("%s: got it due at %v, want it due now", what, entry.Due)
	}
}

// An instance is woken by its bindings if its removal is asked for.
func testWakeInstance(t *testing.T, open opener) {
	first, second := openStore(t, open), openStore(t, open)
	for n, removal := range []platform.Removal{platform.NotRemoved, platform.Removed, platform.RemovedWhole} {
		for at, isDue := range []time.Time{{}, future(1)} {
			of := due(in(t, instance(2*n+at), platform.Ready), isDue)
			of.Removal = removal
			key := binding(1, 2*n+at)
			insert(t, first, of, in(t, key, platform.Cleaning))
			change(t, first, key, func(it *platform.Change) { it.Entry.Unchanged = 1 })
			wantEntry(t, "without a call", read(t, second, of.Key), of)
			change(t, first, key, func(it *platform.Change) { it.WakeInstance = true })
			got := read(t, second, of.Key)
			if removal != platform.NotRemoved {
				wantDueNow(t, of.Key.String(), got)
				of.Due = got.Due
			}
			wantEntry(t, of.Key.String(), got, of)
		}
	}
}

// A stay is written when its state ends, and with nothing else.
func testLife(t *testing.T, open opener) {
	first, second := openStore(t, open), openStore(t, open)
	insert(t, first, order(instance(1)))
	for _, key := range []platform.Key{instance(2), binding(2, 1)} {
		entry, want := order(key), []platform.Stay{}
		insert(t, first, entry)
		for n, state := range []platform.State{
			platform.Wanted, platform.Wanted, platform.Polling, platform.Cleaning, platform.Polling, platform.Gone,
		} {
			if state != entry.State {
				want = append(want, platform.Stay{State: entry.State, Since: milliseconds(entry.Since)})
			}
			entry = in(t, key, state)
			entry.Since = past(n)
			change(t, first, key, func(it *platform.Change) { it.Entry = entry })
			got, err := second.Life(background, key)
			for n := range got {
				got[n].Since = milliseconds(got[n].Since)
			}
			check(t, err)
			diff.Check(t, got, want, "the life of %v", key)
		}
	}
	diff.Equal(t, len(diff.Value(second.Life(background, instance(1)))(t)), 0, "the life of another row")
}

// A step gets the time of the store, which goes on. What it writes is read to the millisecond.
func testTime(t *testing.T, open opener) {
	stores := []platform.Store{openStore(t, open), openStore(t, open)}
	insert(t, stores[0], order(instance(1)))
	var last time.Time
	for n := 0; n < 6; n++ {
		var now time.Time
		check(t, changeError(stores[n%2], instance(1), Edit(func(e *platform.Entry, at time.Time) {
			now = at
			e.Since, e.Due = at, at.Add(time.Millisecond)
		})))
		if now.Before(last) || now.Before(time.Now().Add(-deadline)) || now.After(time.Now().Add(deadline)) {
			t.Errorf("got the time %v after %v, want a later one, about now", now, last)
		}
		got := read(t, stores[n%2], instance(1))
		diff.Equal(t, milliseconds(got.Since), milliseconds(now), "")
		diff.Equal(t, got.Due.Sub(got.Since), time.Millisecond, "")
		last = now
	}
}

// A further order of a binding and the removal of the instance exclude each other: the removal finds the further order,
// or the step that would order it finds the removal.
func testNextBesideRemoval(t *testing.T, open opener) {
	for name, isRemovedFirst := range map[string]bool{"the order first": false, "the removal first": true} {
		isRemovedFirst := isRemovedFirst
		t.Run(name, func(t *testing.T) {
			one, other := openStore(t, open), openStore(t, open)
			insert(t, one, in(t, instance(1), platform.Ready), in(t, binding(2, 1), platform.Cleaning))
			ordering := func(pass func()) error { return changeError(one, binding(2, 1), orderingNext(t, pass)) }
			removing := func(pass func()) error { return changeError(other, instance(1), removingWhole(pass)) }
			if isRemovedFirst {
				oneAfterAnother(t, removing, ordering)
			} else {
				oneAfterAnother(t, ordering, removing)
			}
			next, err := one.Read(background, binding(3, 1))
			switch {
			case isRemovedFirst:
				diff.ErrorIs(t, err, platform.ErrUnknown, "the further binding in %s", next.State)
				return
			case err != nil || next.State != platform.Ordered || next.Removal != platform.Removed:
				t.Errorf("the further binding: got %s, removal %d (%v), want it ordered and removed", next.State, next.Removal, err)
			}
			wantDueNow(t, "the further binding", next)
		})
	}
}

// oneAfterAnother makes two calls, each of which calls pass in its step. The second step begins once the first call has
// ended.
func oneAfterAnother(t *testing.T, first, second func(pass func()) error) {
	t.Helper()
	gate, done, late, overlapped := NewGate(), make(chan error, 1), make(chan error, 1), make(chan struct{})
	defer gate.Open()
	var once sync.Once
	go func() { done <- first(gate.Pass) }()
	gate.Await(t, done)
	go func() { late <- second(func() { once.Do(func() { close(overlapped) }) }) }()
	select {
	case <-overlapped:
		t.Error("got both at once, want one after the other")
	case <-time.After(soon):
	}
	gate.Open()
	check(t, <-done)
	check(t, <-late)
}

// orderingNext is a step of the binding 2 that orders the binding 3 if its instance is ready and isn't removed.
func orderingNext(t *testing.T, pass func()) platform.Step {
	return func(_ time.Time, snapshot platform.Snapshot) (*platform.Change, error) {
		pass()
		change := &platform.Change{Entry: in(t, snapshot.Key, platform.Gone), WakeInstance: true}
		if of := snapshot.Instance; of.State == platform.Ready && of.Removal == platform.NotRemoved {
			next := due(order(binding(3, 1)), future(1))
			change.Next = &next
		}
		return change, nil
	}
}

// removingWhole is a step of an instance that removes it and its bindings.
func removingWhole(pass func()) platform.Step {
	return func(_ time.Time, snapshot platform.Snapshot) (*platform.Change, error) {
		pass()
		snapshot.Entry.Removal = platform.RemovedWhole
		return &platform.Change{Entry: snapshot.Entry, RemoveBindings: true}, nil
	}
}

// Two workers create bindings at a broker that is busy once for each instance. Each instance has one binding that is
// ready, under a second id, unless the instance is removed before the first one is gone: then it has none.
func testBindAgain(t *testing.T, open opener) {
	const instances = 6
	stores := []platform.Store{openStore(t, open), openStore(t, open)}
	d := &dock{
		t: t, orders: platform.NewOrders(stores[0], plainVault{}), exists: map[platform.Key]bool{},
		binds: map[osb.ID]int{},
	}
	d.addBroker(stores[0])
	for n := 0; n < instances; n++ {
		d.exists[instance(n)] = true
		first := order(binding(1, n))
		first.First = first.Key.Binding
		insert(t, stores[0], in(t, instance(n), platform.Ready), first)
	}
	var all []*working
	for n, store := range stores {
		engine := platform.NewEngine(store, d, plainVault{}, platform.Options{
			Worker: []string{"one", "two"}[n], Look: 10 * time.Millisecond, AtOnce: 3,
		}, d)
		w := &working{t: t, stop: make(chan struct{}), ended: make(chan error, 1)}
		go func() { w.ended <- engine.Run(background, w.stop) }()
		all = append(all, w)
	}
	for _, entry := range all {
		entry.untilRest(stores[0])
	}
	for _, entry := range all {
		entry.end()
	}
	for n := 0; n < instances; n++ {
		d.check(stores[1], n)
	}
}

// A dock is a broker with tombstones that answers the first Bind of each instance with 422 ConcurrencyError. Meanwhile
// the instances with even numbers are removed. It is the client and the observer of its workers.
type dock struct {
	t      *testing.T
	orders *platform.Orders

	mu     sync.Mutex
	exists map[platform.Key]bool
	binds  map[osb.ID]int // of each instance
}

func (d *dock) addBroker(store platform.Store) {
	pace, hold := time.Millisecond, time.Duration(0)
	check(d.t, store.AddBroker(background, platform.Broker{
		Name: "one", URL: "https://broker.example", User: "u", PasswordFile: "/nowhere",
		Settings: platform.Settings{FirstPace: &pace, LongestPace: &pace, Hold: &hold},
	}))
}

// isRemoved reports whether an instance is removed while its first binding is being deleted.
func isRemoved(instance osb.ID) bool { return instance[len(instance)-1]%2 == 0 }

// Exchange is a request at the broker.
func (d *dock) Exchange(_ context.Context, out platform.Outgoing) (in platform.Incoming) {
	key := out.Entry.Key
	if of := key.Instance; key.IsBinding && out.Request.Kind == osb.KindDeprovision && isRemoved(of) {
		if _, err := d.orders.Remove(background, osb.InstanceKey(of), true); err != nil {
			d.t.Errorf("the removal of %v: got %v, want no error", of, err)
		}
	}
	d.mu.Lock()
	defer d.mu.Unlock()
	in.Answer = osb.Answer{Status: 201, Body: osb.BodyEmpty}
	switch {
	case out.Request.Kind == osb.KindDeprovision && d.exists[key]:
		delete(d.exists, key)
		in.Answer.Status = 200
	case out.Request.Kind == osb.KindDeprovision:
		in.Answer.Status = 410
	case d.binds[key.Instance] == 0:
		d.binds[key.Instance] = 1
		in.Answer = osb.Answer{Status: 422, Body: osb.BodyConcurrencyError}
	default:
		d.binds[key.Instance]++
		d.exists[key] = true
		in.Binding = json.RawMessage(`{"credentials": "` + key.Binding.String() + `"}`)
	}
	in.Status = int(in.Answer.Status)
	return in
}

// check checks the bindings of an instance at the end.
func (d *dock) check(store platform.Store, n int) {
	d.t.Helper()
	of, isBinding := id(n), true
	rows, err := store.List(background, platform.Filter{Instance: &of, Bindings: &isBinding})
	check(d.t, err)
	states := map[int]platform.State{}
	for _, row := range rows {
		states[row.Try] = row.State
		diff.Equal(d.t, d.exists[row.Key], row.State == platform.Ready, "the binding %v in %s", row.Key, row.State)
		if row.State == platform.Ready {
			object, err := d.orders.Credentials(background, row.Key)
			if err != nil || string(object) != `{"credentials": "`+row.Key.Binding.String()+`"}` {
				d.t.Errorf("the credentials of %v: got %s (%v), want its own", row.Key, object, err)
			}
		}
	}
	state := read(d.t, store, instance(n)).State
	if isRemoved(of) {
		if len(rows) != 1 || states[1] != platform.Gone || state != platform.Gone || d.binds[of] != 1 {
			d.t.Errorf("the instance %d, which was removed: got %s, the bindings %v and %d Binds, want all gone after 1", n,
				state, states, d.binds[of])
		}
		return
	}
	if len(rows) != 2 || states[1] != platform.Gone || states[2] != platform.Ready || state != platform.Ready ||
		d.binds[of] != 2 {
		d.t.Errorf("the instance %d: got %s, the bindings %v and %d Binds, want the second one ready after 2", n, state,
			states, d.binds[of])
	}
}

// Catalogue is that of the broker.
func (*dock) Catalogue(context.Context, platform.Broker) (json.RawMessage, int, error) {
	return json.RawMessage(`{"services": [{"id": "` + service.String() + `", "name": "s", "description": "d",
		"bindable": true, "plans": [{"id": "` + plan.String() + `", "name": "p", "description": "d"}]}]}`), 200, nil
}

// Clock is the time.
func (*dock) Clock() time.Time { return time.Now() }

// OnFailure fails the test. OnRequest, OnAnswer, OnChange, OnOrphan and OnCatalogue do nothing.
func (d *dock) OnFailure(it platform.Failure)                       { d.t.Errorf("got the failure %+v, want none", it) }
func (*dock) OnRequest(platform.Exchange)                           {}
func (*dock) OnAnswer(platform.Exchange)                            {}
func (*dock) OnChange(platform.Key, platform.State, platform.State) {}
func (*dock) OnOrphan(platform.Key, int, bool)                      {}
func (*dock) OnCatalogue(string)                                    {}

// A plainVault hides nothing.
type plainVault struct{}

// Seal returns the text itself.
func (plainVault) Seal(plain []byte, _ string) ([]byte, error) { return plain, nil }

// Open returns the text itself.
func (plainVault) Open(sealed []byte, _ string) ([]byte, error) { return sealed, nil }

// Fingerprint is that of no key.
func (plainVault) Fingerprint() string { return "plain" }
