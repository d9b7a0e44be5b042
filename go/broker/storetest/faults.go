package storetest

import (
	"context"
	"errors"
	"fmt"
	"reflect"
	"sort"
	"testing"

	"pippinterm/broker"
	"pippinterm/internal/diff"
	"pippinterm/internal/storefaults"
	"pippinterm/osb"
)

// Faulty opens stores over the database of a test, as the function open of Run does.
type Faulty struct {
	// Open opens a store whose statements a Countdown has fail.
	Open func(*testing.T) (broker.NamedStore, *storefaults.Countdown)
	// Beside opens a store over the same database whose statements don't fail.
	Beside func(*testing.T) broker.NamedStore
	// Spoil makes the row of a key one that can't be read.
	Spoil func(t *testing.T, key broker.Key)
	// Faults are those that the database has.
	Faults []storefaults.Fault
}

// RunFaults has each statement of each call fail once. The call returns the error, and what is left is what was there
// before, or what the call was to write if the answer to its COMMIT was lost. A step never sees anything but what is
// written. Afterwards the call succeeds, and nothing is locked.
func RunFaults(t *testing.T, by Faulty) {
	t.Run("a row that can't be read", by.unreadable)
	shared := by.open(t)
	for n, fault := range by.Faults {
		for at, call := range faultyCalls {
			f, it := *shared, call
			f.fault, f.first = fault, (n*len(faultyCalls)+at)*2*mostStatements
			t.Run(fault.String()+", "+it.name, func(t *testing.T) {
				if !it.readsAll {
					f.each(t, it)
					return
				}
				own := by.open(t)
				own.fault = f.fault
				own.each(t, it)
				own.close(t)
			})
		}
	}
	shared.close(t)
}

// open opens the stores of a test.
func (by Faulty) open(t *testing.T) *faulty {
	t.Helper()
	f := &faulty{Faulty: by, beside: openStore(t, by.Beside)}
	begin(t, f.beside)
	f.store, f.countdown = by.Open(t)
	return f
}

// faulty is a store of which one call fails, beside another one of the same database.
type faulty struct {
	Faulty
	store      broker.NamedStore
	countdown  *storefaults.Countdown
	beside     broker.NamedStore
	fault      storefaults.Fault
	first      int // the number of the first key of the call
	key        broker.Key
	before     broker.Snapshot // what is written of the key before the call
	tombstones int             // of a call whose keys are oneOfTwo
	wrong      error           // what the call has returned, or shown to its step, though it isn't written
}

// A faultyCall is a call whose statements fail, of a key that depends on which one does.
type faultyCall struct {
	name string
	key  func(n int) broker.Key
	call func(f *faulty, t *testing.T) error
	// after is what is written of the key once the call has returned nil, or nil if that is what was there before.
	after func(t *testing.T) broker.Entry
	// readsAll is for a call that reads the rows of all keys. It has a database of its own, and only two keys.
	readsAll bool
	// isFirst has each call be the first of its store, as one that keeps what it has read.
	isFirst bool
}

// mostStatements are more than any call has.
const mostStatements = 200

func ofOne(n int) broker.Key { return binding(n, n) }

// oneOfTwo is for calls that read all rows.
func oneOfTwo(n int) broker.Key { return instance(n % 2) }

var faultyCalls = []faultyCall{
	{"Read of an instance", instance, (*faulty).read, nil, false, false},
	{"Read of a binding", ofOne, (*faulty).read, nil, false, false},
	{"Change of an instance", instance, (*faulty).change, ready, false, false},
	{"Change of a binding", ofOne, (*faulty).change, ready, false, false},
	{"HeldBindings", instance, (*faulty).heldBindings, nil, false, false},
	{"Unfinished", oneOfTwo, (*faulty).unfinishedKeys, nil, true, false},
	{"Stats", oneOfTwo, (*faulty).stats, nil, true, true},
	{"Ready", instance, (*faulty).ready, nil, false, false},
	{"Name and Begin", instance, (*faulty).name, nil, false, false},
	{"ID", instance, (*faulty).id, nil, false, false},
	{"Tie", instance, (*faulty).tie, nil, false, false},
}

// each has one statement of a call fail after the other, until the call has none that could: of keys with and without a
// row.
func (f *faulty) each(t *testing.T, it faultyCall) {
	for n, isLast := 1, false; !isLast; n++ {
		if n == mostStatements {
			t.Fatalf("got %d statements, want fewer", n)
		}
		isLast = true
		for _, hasRow := range []bool{false, true} {
			f.key = it.key(f.first + 2*n)
			if hasRow {
				f.key = it.key(f.first + 2*n + 1)
			}
			f.prepare(t, hasRow)
			if it.isFirst {
				f.close(t)
				f.store, f.countdown = f.Open(t)
			}
			if f.fails(t, it, n) {
				isLast = false
			} else if n == 1 && f.fault == storefaults.Refused {
				t.Fatal("got no statement of the call, want one")
			}
		}
	}
}

func (f *faulty) close(t *testing.T) {
	t.Helper()
	diff.NoError(t, f.store.Close(), "Close")
}

// prepare writes what is there before the call: the instance, a binding of it that is held, one that isn't, and the row
// of the key itself.
func (f *faulty) prepare(t *testing.T, hasRow bool) {
	t.Helper()
	of := f.key.Instance
	if f.key.IsBinding || hasRow {
		write(t, f.beside, osb.InstanceKey(of), broker.Entry{Holding: in(t, "deleting"), Life: 2})
	}
	if hasRow {
		f.tombstones = 1
		write(t, f.beside, osb.BindingKey(of, id(1<<20)), broker.Entry{Holding: in(t, "failed")})
		write(t, f.beside, osb.BindingKey(of, id(1<<21)), broker.Entry{Holding: tombstone(t)})
		write(t, f.beside, f.key, entries(t, f.key)[0])
	}
	f.before = read(t, f.beside, f.key)
}

// fails has the n-th statement of a call fail, looks at what it has left, and returns whether it has so many.
func (f *faulty) fails(t *testing.T, it faultyCall, n int) bool {
	t.Helper()
	f.wrong = nil
	f.countdown.Fail(n, f.fault)
	err := it.call(f, t)
	failed := f.countdown.FailedStatement()
	f.countdown.Fail(0, f.fault)
	diff.NoError(t, f.wrong, "%q has failed", failed)
	after := f.before.Entry
	if it.after != nil {
		after = it.after(t)
	}
	f.judge(t, failed, err, read(t, f.beside, f.key).Entry, after)
	write(t, f.beside, f.key, f.before.Entry) // nothing is locked
	if err := it.call(f, t); err != nil || f.wrong != nil {
		t.Errorf("after %q has failed: got %v, %v, want a call that succeeds", failed, err, f.wrong)
	}
	return failed != ""
}

// judge compares what is left, got, with what the call was to write.
func (f *faulty) judge(t *testing.T, failed string, err error, got, after broker.Entry) {
	t.Helper()
	what := fmt.Sprintf("%q has failed with %v", failed, err)
	isLost := storefaults.IsCommit(failed) && (f.fault == storefaults.Lost || f.fault == storefaults.Broken)
	switch {
	case failed == "" && err != nil:
		t.Errorf("no statement has failed: got %v, want nil", err)
	case failed != "" && err == nil && f.fault == storefaults.Refused && !storefaults.IsBegin(failed):
		t.Errorf("%q has failed: got nil, want the error", failed)
	case err == nil: // also if the statement was tried again over another connection
		wantEntry(t, what, got, after)
	case !isLost || !sameEntry(got, after):
		wantEntry(t, what, got, f.before.Entry)
	}
}

// want notes what is wrong.
func (f *faulty) want(what string, got, want any) {
	if !reflect.DeepEqual(got, want) {
		f.wrong = fmt.Errorf("%s: %s", what, diff.Of(got, want))
	}
}

// wantHeld notes it if anything else was read than what is written, and returns the error of AnyBinding.
func (f *faulty) wantHeld(snapshot broker.Snapshot) error {
	if !sameEntry(snapshot.Entry, f.before.Entry) || !sameEntry(snapshot.Instance, f.before.Instance) {
		f.wrong = fmt.Errorf("read: got %+v of %+v, want %+v of %+v",
			snapshot.Entry, snapshot.Instance, f.before.Entry, f.before.Instance)
	}
	if f.key.IsBinding {
		return nil
	}
	any, err := snapshot.AnyBinding()
	if err != nil {
		return err
	}
	f.want("AnyBinding", any, !sameEntry(f.before.Entry, broker.Entry{}))
	return nil
}

func (f *faulty) read(*testing.T) error {
	snapshot, err := f.store.Read(context.Background(), f.key)
	if err != nil {
		return err
	}
	return f.wantHeld(snapshot)
}

func (f *faulty) change(t *testing.T) error {
	next := ready(t)
	return f.store.Change(context.Background(), f.key, func(snapshot broker.Snapshot) (*broker.Entry, error) {
		return &next, f.wantHeld(snapshot)
	})
}

func (f *faulty) ready(*testing.T) error { return f.store.Ready(context.Background()) }

func (f *faulty) heldBindings(*testing.T) error {
	got, err := f.store.HeldBindings(context.Background(), f.key.Instance)
	if err != nil {
		return err
	}
	var want []osb.ID
	if !sameEntry(f.before.Entry, broker.Entry{}) {
		want = []osb.ID{id(1 << 20)}
	}
	f.want("HeldBindings", got, want)
	return nil
}

// texts are the texts of keys, in order.
func texts(keys []broker.Key) (found []string) {
	for _, key := range keys {
		found = append(found, key.String())
	}
	sort.Strings(found)
	return found
}

func (f *faulty) unfinishedKeys(t *testing.T) error {
	got, err := f.store.UnfinishedKeys(context.Background())
	if err != nil {
		return err
	}
	want := diff.Value(f.beside.UnfinishedKeys(context.Background()))(t)
	f.want("Unfinished", texts(got), texts(want))
	return nil
}

func (f *faulty) stats(t *testing.T) error {
	got, err := f.store.Stats(context.Background())
	if err != nil {
		return err
	}
	want := diff.Value(f.beside.Stats(context.Background()))(t)
	want.Tombstones = f.tombstones // a store may count them now and then
	f.want("Stats", got, want)
	return nil
}

func (f *faulty) name(*testing.T) error {
	for _, call := range []func() (string, error){
		func() (string, error) { return f.store.Name(context.Background()) },
		func() (string, error) { return f.store.Begin(context.Background(), "two") },
	} {
		name, err := call()
		if err != nil {
			return err
		}
		f.want("the name", name, "one")
	}
	return nil
}

func (f *faulty) id(t *testing.T) error {
	got, err := f.store.ID(context.Background())
	if err != nil {
		return err
	}
	want := diff.Value(f.beside.ID(context.Background()))(t)
	f.want("the id", got, want)
	return nil
}

// errTied ends a Tie that is only to look.
var errTied = errors.New("it was to look")

func (f *faulty) tie(t *testing.T) error {
	want, err := tie(f.beside, errTied)
	if !errors.Is(err, errTied) {
		t.Fatalf("got the error %v, want %v", err, errTied)
	}
	return f.store.Tie(context.Background(), func(isUsed bool) error {
		f.want("isUsed", isUsed, want)
		return nil
	})
}

// unreadable has a row that can't be read, of an instance or of a binding. It is neither taken for one that was never
// there, nor written.
func (by Faulty) unreadable(t *testing.T) {
	store := openStore(t, by.Beside)
	for _, test := range []struct{ spoiled, key broker.Key }{
		{instance(1), instance(1)}, {instance(1), binding(1, 1)}, {instance(2), binding(2, 2)},
		{binding(3, 3), binding(3, 3)},
	} {
		if test.key == test.spoiled || !test.key.IsBinding || test.spoiled == instance(2) {
			write(t, store, osb.InstanceKey(test.key.Instance), ready(t))
		}
		if test.key != binding(1, 1) { // it has no row
			write(t, store, test.key, ready(t))
		}
		by.Spoil(t, test.spoiled)
		diff.Error(t, diff.Err(store.Read(context.Background(), test.key)), "Read of %v beside %v", test.key,
			test.spoiled)
		err := store.Change(context.Background(), test.key, func(snapshot broker.Snapshot) (*broker.Entry, error) {
			t.Errorf("the step of %v beside %v: got a call with %+v, want none", test.key, test.spoiled, snapshot)
			return nil, nil
		})
		diff.Error(t, err, "Change of %v beside %v", test.key, test.spoiled)
	}
}
