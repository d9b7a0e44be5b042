package storetest

import (
	"fmt"
	"sort"
	"strings"
	"testing"
	"time"

	"pippinterm/internal/diff"
	"pippinterm/internal/storefaults"
	"pippinterm/platform"
)

// Faulty opens stores over the database of a test, as the function open of Test does.
type Faulty struct {
	// Open opens a store whose statements a Countdown has fail.
	Open func(*testing.T) (platform.Store, *storefaults.Countdown)
	// Beside opens a store over the same database whose statements don't fail.
	Beside func(*testing.T) platform.Store
	// Empty deletes all rows.
	Empty func(*testing.T)
	// Spoil makes the row of a broker one that can't be read.
	Spoil func(t *testing.T, broker string)
	// Faults are those that the database has.
	Faults []storefaults.Fault
	// Without are the names of the calls without a statement.
	Without []string
}

// TestFaults has each statement of each call fail once. The call returns the error, and what is left is what was there
// before, or what the call was to write if the answer to its COMMIT was lost. A step never sees anything but what is
// written. Afterwards the call succeeds, and nothing is locked.
func TestFaults(t *testing.T, by Faulty) {
	t.Run("a broker that can't be read", by.unreadable)
	beside := openStore(t, by.Beside)
	store, countdown := by.Open(t)
	for _, fault := range by.Faults {
		for _, call := range faultyCalls {
			f := &faulty{
				empty: func() { by.Empty(t) }, without: by.Without,
				store: store, countdown: countdown, beside: beside, fault: fault, of: call,
			}
			t.Run(fault.String()+", "+call.name, func(t *testing.T) {
				f.t = t
				f.each()
			})
		}
	}
	diff.NoError(t, store.Close(), "Close")
}

// faulty is a store of which one call fails, beside another one of the same database.
type faulty struct {
	t         *testing.T
	empty     func()
	without   []string
	store     platform.Store
	countdown *storefaults.Countdown
	beside    platform.Store
	fault     storefaults.Fault
	of        faultyCall
}

// A faultyCall is a call whose statements fail.
type faultyCall struct {
	name string
	// call makes the call. It passes to see what it returns, and what its step is called with.
	call func(store platform.Store, see func(any)) error
	// eachRow is for a call that puts off a row of which a statement fails, and goes on with the others: when a row is
	// due doesn't count.
	eachRow bool
	// isNew is for a call at a store that nobody has used yet: there are no rows before it.
	isNew bool
}

// An effect is the result of a call: its error, what it has passed to see, and the rows that are left.
type effect struct {
	err  error
	seen []string
	left []string
}

// each has one statement of the call fail after the other, until the call has none that could.
func (f *faulty) each() {
	const most = 200 // no call has so many statements
	f.prepare()
	before := effect{left: f.rows()}
	want := f.call(f.beside)
	if want.err != nil {
		f.t.Fatalf("without a fault: got %v, want nil", want.err)
	}
	for n := 1; n < most; n++ {
		f.prepare()
		f.countdown.Fail(n, f.fault)
		got := f.call(f.store)
		failed := f.countdown.FailedStatement()
		f.countdown.Fail(0, f.fault)
		if has := failed != ""; n == 1 && f.fault == storefaults.Refused && has == isAmong(f.of.name, f.without) {
			f.t.Errorf("the call has a statement: got %t, want %t", has, !has)
		}
		f.judge(failed, got, before, want)
		f.again(failed, want)
		if failed == "" {
			return
		}
	}
	f.t.Errorf("got %d statements, want fewer", most)
}

// again has the call succeed, over rows as they were before.
func (f *faulty) again(failed string, want effect) {
	f.t.Helper()
	f.prepare()
	got := f.call(f.store)
	if got.err != nil || fmt.Sprint(got.seen) != fmt.Sprint(want.seen) || fmt.Sprint(got.left) != fmt.Sprint(want.left) {
		f.t.Errorf("after %q has failed: got %v, want a call that succeeds", failed, got)
	}
}

// call makes the call.
func (f *faulty) call(store platform.Store) (came effect) {
	came.err = f.of.call(store, func(it any) { came.seen = append(came.seen, f.text(it)) })
	came.left = f.rows()
	return came
}

// judge compares the result of a call with what was there before, and with what is wanted of it.
func (f *faulty) judge(failed string, got, before, want effect) {
	f.t.Helper()
	for _, text := range got.seen {
		if !isAmong(text, want.seen) {
			f.t.Errorf("%q has failed: got %s, want one of %s", failed, text, strings.Join(want.seen, "\n"))
		}
	}
	isLost := storefaults.IsCommit(failed) && (f.fault == storefaults.Lost || f.fault == storefaults.Broken)
	left := fmt.Sprint(got.left)
	switch {
	case failed == "" && got.err != nil:
		f.t.Errorf("no statement has failed: got %v, want nil", got.err)
	case failed != "" && got.err == nil && f.fault == storefaults.Refused && !storefaults.IsBegin(failed):
		f.t.Errorf("%q has failed: got nil, want the error", failed)
	case got.err != nil && f.fault == storefaults.Refused && !isFault(got.err):
		f.t.Errorf("%q has failed: got the error %q, want that of the statement", failed, got.err)
	case got.err == nil && left != fmt.Sprint(want.left):
		f.t.Errorf("%q has failed, and nil: got\n%s\nwant\n%s", failed, left, want.left)
	case got.err != nil && f.of.eachRow:
		f.eachRow(failed, got, before, want)
	case got.err != nil && left != fmt.Sprint(before.left) && !(isLost && left == fmt.Sprint(want.left)):
		f.t.Errorf("%q has failed with %v: got\n%s\nwant\n%s", failed, got.err, left, before.left)
	}
}

// isFault reports whether an error is that of a statement that was made to fail, and not of what was concluded from it.
func isFault(err error) bool {
	return strings.Contains(err.Error(), storefaults.ErrFault.Error())
}

// eachRow compares each row that is left.
func (f *faulty) eachRow(failed string, got, before, want effect) {
	f.t.Helper()
	for _, text := range got.left {
		if !isAmong(text, before.left) && !isAmong(text, want.left) {
			f.t.Errorf("%q has failed with %v: got\n%s\nwant one of\n%s\n%s", failed, got.err, text, before.left, want.left)
		}
	}
}

func isAmong(text string, all []string) bool {
	for _, line := range all {
		if line == text {
			return true
		}
	}
	return false
}

// prepare writes the rows that are there before a call.
func (f *faulty) prepare() {
	f.t.Helper()
	f.empty()
	if f.of.isNew {
		return
	}
	for _, name := range []string{"one", "another-1", "unused"} {
		check(f.t, f.beside.AddBroker(background, brokerOf(name)))
	}
	_, err := f.beside.Fingerprint(background, "the first")
	check(f.t, err)
	removed := in(f.t, instance(3), platform.Ready)
	removed.Removal = platform.Removed
	insert(f.t, f.beside,
		due(in(f.t, instance(1), platform.Polling), past(1)), due(in(f.t, binding(1, 1), platform.Ready), time.Time{}),
		due(in(f.t, binding(2, 1), platform.Polling), past(2)), removed, due(in(f.t, binding(1, 3), platform.Gone), past(4)),
		withLease(in(f.t, instance(4), platform.Wanted), "a worker", future(1)), full(f.t, binding(3, 4)))
	change(f.t, f.beside, instance(3), func(it *platform.Change) { it.Entry.State = platform.Cleaning }) // it has a life
	change(f.t, f.beside, instance(3), func(it *platform.Change) { it.Entry.State = platform.Ready })
}

// rows are all rows of the database.
func (f *faulty) rows() (texts []string) {
	f.t.Helper()
	entries, err := f.beside.List(background, platform.Filter{})
	check(f.t, err)
	for _, entry := range entries {
		life := diff.Value(f.beside.Life(background, entry.Key))(f.t)
		texts = append(texts, f.text(entry)+describe(life))
	}
	all := diff.Value(f.beside.Brokers(background))(f.t)
	for _, broker := range all {
		texts = append(texts, textOf(f.t, broker))
	}
	sort.Strings(texts)
	if f.of.isNew { // to read a fingerprint would write one
		return texts
	}
	fingerprint := diff.Value(f.beside.Fingerprint(background, "of another one"))(f.t)
	return append(texts, fingerprint)
}

// text describes a value, without when a row is due if that doesn't count.
func (f *faulty) text(it any) string {
	if entry, isEntry := it.(*platform.Entry); isEntry && entry != nil {
		it = *entry
	}
	if entry, isEntry := it.(platform.Entry); isEntry && f.of.eachRow {
		it = due(entry, time.Time{})
	}
	return describe(it)
}

// describe is a text. The times of a test that runs count as one, and others to the millisecond.
func describe(it any) string {
	switch it := it.(type) {
	case platform.Entry:
		return fmt.Sprintf("%+v", timeless(it))
	case []platform.Entry:
		texts := []string{}
		for _, entry := range it {
			texts = append(texts, describe(entry))
		}
		return fmt.Sprint(texts)
	case []platform.Stay:
		texts := []string{}
		for _, stay := range it {
			texts = append(texts, fmt.Sprint(stay.State, timelessly(stay.Since)))
		}
		return fmt.Sprint(texts)
	case time.Time:
		return timelessly(it).String()
	}
	return fmt.Sprintf("%+v", it)
}

func timeless(entry platform.Entry) platform.Entry {
	for _, at := range []*time.Time{
		&entry.Since, &entry.SentUntil, &entry.PolledSince, &entry.Due, &entry.DueSince, &entry.Lease.Until,
		&entry.Last.At, &entry.Failure.At,
	} {
		*at = timelessly(*at)
	}
	if entry.Operation != nil {
		entry.Because, entry.Operation = entry.Because+" operation "+*entry.Operation, nil
	}
	return entry
}

func timelessly(at time.Time) time.Time {
	if at = milliseconds(at); at.After(time.Now().Add(-time.Hour)) && at.Before(time.Now().Add(time.Hour)) {
		return past(1e6)
	}
	return at
}

// A broker that can't be read is neither listed nor changed.
func (by Faulty) unreadable(t *testing.T) {
	store := openStore(t, by.Beside)
	addBroker(t, store, "one")
	by.Spoil(t, "one")
	diff.Error(t, diff.Err(store.Brokers(background)), "Brokers")
	err := store.ChangeBroker(background, "one", func(it platform.Broker) (*platform.Broker, error) {
		t.Errorf("the change: got a call with %+v, want none", it)
		return nil, nil
	})
	diff.Error(t, err, "ChangeBroker")
}

// faultyCalls are the calls of a store.
var faultyCalls = []faultyCall{
	{"Insert of an instance", inserts(instance(9)), false, false},
	{"Insert of a binding", inserts(binding(9, 1)), false, false},
	{"Change of an instance", changesOf(instance(1)), false, false},
	{"Change of a binding", changesOf(binding(1, 3)), false, false},
	{"Claim", claims, true, false},
	{"Free", func(store platform.Store, _ func(any)) error { return store.Free(background, "a worker") }, false, false},
	{"Only", isWorker, false, false},
	{"HasWorkers", func(store platform.Store, see func(any)) error { return saw(see)(store.HasWorkers(background)) }, false, false},
	{"Read of an instance", reads(instance(1)), false, false},
	{"Read of a binding", reads(binding(3, 4)), false, false},
	{"List", lists(platform.Filter{}), false, false},
	{"List of the ready bindings of an instance", lists(ofBindings(platform.Ready)), false, false},
	{"List by key", lists(platform.Filter{Order: platform.ByKey, States: []platform.State{platform.Polling}}), false, false},
	{"List backwards", lists(platform.Filter{Latest: true, Most: 2}), false, false},
	{"Positions", func(store platform.Store, see func(any)) error {
		return saw(see)(store.Positions(background, platform.Filter{}))
	}, false, false},
	{"Moment and Positions as of it", func(store platform.Store, see func(any)) error {
		moment, err := store.Moment(background)
		if err != nil {
			return err
		}
		return saw(see)(store.Positions(background, platform.Filter{AsOf: moment}))
	}, false, false},
	{"ReadAll", func(store platform.Store, see func(any)) error {
		return saw(see)(store.ReadAll(background, []platform.Key{instance(1), binding(3, 4), instance(3)}))
	}, false, false},
	{"Life", lives, false, false},
	{"Counts", counts, false, false},
	{"InFlight", func(store platform.Store, see func(any)) error { return saw(see)(store.InFlight(background, 9)) }, false, false},
	{"NextDue and OldestDue", dues, false, false},
	{"Brokers", func(store platform.Store, see func(any)) error { return saw(see)(store.Brokers(background)) }, false, false},
	{"AddBroker", func(store platform.Store, _ func(any)) error {
		return store.AddBroker(background, brokerOf("new"))
	}, false, false},
	{"ChangeBroker", changesBroker, false, false},
	{"DropBroker", func(store platform.Store, _ func(any)) error { return store.DropBroker(background, "unused") }, false, false},
	{"Fingerprint and ReplaceFingerprint", replacesFingerprint, false, false},
	{"Fingerprint of a new store", func(store platform.Store, see func(any)) error {
		return saw(see)(store.Fingerprint(background, "the first"))
	}, false, true},
	{"Ready", func(store platform.Store, _ func(any)) error { return store.Ready(background) }, false, false},
}

// saw passes to see what a call has returned, unless it has failed.
func saw(see func(any)) func(any, error) error {
	return func(it any, err error) error {
		if err == nil {
			see(it)
		}
		return err
	}
}

func inserts(key platform.Key) func(platform.Store, func(any)) error {
	return func(store platform.Store, see func(any)) error {
		return store.Insert(background, order(key), func(snapshot platform.Snapshot) error {
			see(snapshot.Instance)
			return nil
		})
	}
}

// seesSnapshot passes to see what a step is called with.
func seesSnapshot(snapshot platform.Snapshot, see func(any)) error {
	see(snapshot.Entry)
	see(snapshot.Instance)
	if snapshot.AllGone == nil {
		return nil
	}
	return saw(see)(snapshot.AllGone())
}

// changesOf changes all that can be changed.
func changesOf(key platform.Key) func(platform.Store, func(any)) error {
	return func(store platform.Store, see func(any)) error {
		return store.Change(background, key, func(_ time.Time, snapshot platform.Snapshot) (*platform.Change, error) {
			next := order(instance(100))
			entry := snapshot.Entry
			entry.State, entry.Removal = platform.Unsettled, platform.Removed
			return &platform.Change{
				Entry: entry, Next: &next, RemoveBindings: !key.IsBinding, WakeInstance: key.IsBinding,
			}, seesSnapshot(snapshot, see)
		})
	}
}

// claims leases what is due. Its error is also that of a row.
func claims(store platform.Store, see func(any)) error {
	claimed, err := store.Claim(background, brokers, 10, func(_ time.Time, snapshot platform.Snapshot) (*platform.Change, error) {
		return &platform.Change{Entry: withLease(snapshot.Entry, "another worker", future(2))}, seesSnapshot(snapshot, see)
	})
	for _, row := range claimed {
		if err == nil {
			err = row.Err
		}
	}
	return err
}

func isWorker(store platform.Store, see func(any)) error {
	end, _, err := store.Only(background, "another worker")
	if err == nil {
		see(end != nil)
	}
	if end != nil {
		end()
	}
	return err
}

func reads(key platform.Key) func(platform.Store, func(any)) error {
	return func(store platform.Store, see func(any)) error { return saw(see)(store.Read(background, key)) }
}

func ofBindings(state platform.State) platform.Filter {
	isBinding, of := true, id(1)
	return platform.Filter{States: []platform.State{state}, Bindings: &isBinding, Instance: &of}
}

func lists(filter platform.Filter) func(platform.Store, func(any)) error {
	return func(store platform.Store, see func(any)) error { return saw(see)(store.List(background, filter)) }
}

func lives(store platform.Store, see func(any)) error {
	return saw(see)(store.Life(background, instance(3)))
}

// counts passes the counts to see, in an order of its own. PostgreSQL returns them in another order once autovacuum has
// analyzed the tables.
func counts(store platform.Store, see func(any)) error {
	found, err := store.Counts(background)
	sort.Slice(found, func(a, b int) bool { return fmt.Sprint(found[a]) < fmt.Sprint(found[b]) })
	return saw(see)(found, err)
}

func dues(store platform.Store, see func(any)) error {
	for _, call := range []func() (time.Time, time.Time, error){
		func() (time.Time, time.Time, error) { return store.NextDue(background, brokers) },
		func() (time.Time, time.Time, error) { return store.OldestDue(background) },
	} {
		due, now, err := call()
		if err != nil {
			return err
		}
		see(due)
		see(now)
	}
	return nil
}

func changesBroker(store platform.Store, see func(any)) error {
	return store.ChangeBroker(background, "one", func(it platform.Broker) (*platform.Broker, error) {
		see(it)
		it.URL = "https://elsewhere"
		return &it, nil
	})
}

func replacesFingerprint(store platform.Store, see func(any)) error {
	written, err := store.Fingerprint(background, "of another one")
	if err != nil {
		return err
	}
	see(written)
	return store.ReplaceFingerprint(background, written, "the second")
}
