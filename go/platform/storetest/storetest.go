// Package storetest has the tests that every platform.Store must pass.
package storetest

import (
	"context"
	"crypto/sha256"
	"encoding/hex"
	"encoding/json"
	"errors"
	"fmt"
	"runtime/debug"
	"testing"
	"time"
	"unicode/utf8"

	"pippinterm/internal/diff"
	"pippinterm/osb"
	"pippinterm/platform"
)

// Test runs the tests. The function open opens one more store over the database of t. The same t has the same database
// in each call, and at first it is empty: NameOf(t) can name it. The tests close what they open.
func Test(t *testing.T, open func(t *testing.T) platform.Store) {
	for _, test := range []struct {
		name string
		run  func(*testing.T, opener)
	}{
		{"an empty store", testEmpty},
		{"what was written is read by another store", testWritten},
		{"texts of any kind", testTexts},
		{"an id is used once", testUsed},
		{"an order that is rejected", testCheck},
		{"a key is inserted once at a time", testInsertedOnce},
		{"a change of nothing", testNoChange},
		{"a change that fails", testFailingChange},
		{"a further order", testNext},
		{"a further binding and the removal of its instance", testNextBesideRemoval},
		{"a binding that is tried again", testBindAgain},
		{"no change is lost", testCounter},
		{"changes that exclude each other", testExclusion},
		{"a binding and its instance", testInstanceOfBinding},
		{"whether all bindings are gone", testAllGone},
		{"bindings of the instances of a claim", testAllGoneOfAClaim},
		{"removing bindings", testRemoveBindings},
		{"waking an instance", testWakeInstance},
		{"lives", testLife},
		{"the time", testTime},
		{"claiming in order", testClaimOrder},
		{"claiming for brokers", testClaimBrokers},
		{"leases", testLeases},
		{"steps that fail in a claim", testFailingClaim},
		{"rows whose steps always fail", testPoisoned},
		{"a claim sees what it has written", testClaimSees},
		{"claims at once", testClaimsAtOnce},
		{"a claim passes over locked rows", testClaimPassesOver},
		{"lists", testList},
		{"lists in pages", testPages},
		{"lists while rows come to other states", testListsWhileRowsMove},
		{"lists as of a moment", testListsAsOfAMoment},
		{"a text that is no moment", testNoMoment},
		{"rows of some keys", testReadAll},
		{"counts", testCounts},
		{"rows in flight", testInFlight},
		{"the next row that is due", testNextDue},
		{"since when the oldest row is due", testOldestDue},
		{"freeing a worker's rows", testFree},
		{"the only worker of a name", testOnly},
		{"brokers", testBrokers},
		{"a broker with orders", testBrokerWithOrders},
		{"an order of an unknown broker", testUnknownBroker},
		{"an order while its broker is dropped", testInsertBesideDrop},
		{"orders and drops at once", testInsertsAndDrops},
		{"a change of a broker that fails", testFailingBroker},
		{"no change of a broker is lost", testBrokerCounter},
		{"the fingerprint", testFingerprint},
		{"another fingerprint", testReplaceFingerprint},
		{"whether there are workers", testHasWorkers},
		{"cancelled calls", testCancelled},
		{"ready", testReady},
		{"closing", testClose},
	} {
		test := test
		t.Run(test.name, func(t *testing.T) { test.run(t, open) })
	}
}

// NameOf returns a name for the database of a test: a letter and 16 hexadecimal digits.
func NameOf(t testing.TB) string {
	sum := sha256.Sum256([]byte(t.Name()))
	return "t" + hex.EncodeToString(sum[:8])
}

// An opener opens one more store over the database of a test.
type opener = func(*testing.T) platform.Store

// openStore is a store that is closed at the end of the test.
func openStore(t *testing.T, open opener) platform.Store {
	t.Helper()
	store := open(t)
	t.Cleanup(func() {
		diff.NoError(t, store.Close(), "Close")
	})
	return store
}

var background = context.Background()

// soon is how long a test waits for something that must not happen.
const soon = 150 * time.Millisecond

// deadline is how long a test waits for something that must happen.
const deadline = time.Minute

var (
	service  = osb.MustParseID("00000000-0000-0000-0000-0000000000a0")
	plan     = osb.MustParseID("00000000-0000-0000-0000-0000000000b2")
	errWrong = errors.New("wrong")
)

// brokers are those of all rows of a test, unless it says otherwise.
var brokers = []string{"one"}

func id(n int) osb.ID { return osb.MustParseID(fmt.Sprintf("00000000-0000-4000-8000-%012x", n)) }

func instance(n int) platform.Key { return osb.InstanceKey(id(n)) }

func binding(n, of int) platform.Key { return osb.BindingKey(id(of), id(n)) }

// past is a time that was so many seconds after another one, long ago. future is a later one.
func past(seconds int) time.Time {
	return time.Date(2020, 2, 3, 4, 5, 6, 789e6, time.UTC).Add(time.Duration(seconds) * time.Second)
}

func future(seconds int) time.Time { return past(seconds).AddDate(200, 0, 0) }

// order is the row of an order that is due.
func order(key platform.Key) platform.Entry {
	entry := platform.Entry{
		Order: platform.Order{
			Key: key, Broker: "one", Service: service, Plan: plan, IsOwnID: true,
			Names: platform.Names{Instance: key.Instance.String(), Service: service.String(), Plan: plan.String()},
			Space: "a space", Organization: "an organization", Body: json.RawMessage(`{}`),
			Try: 1, Tries: 3, First: key.ID(),
		},
		State: platform.Ordered, Since: past(0), Due: past(0),
	}
	if key.IsBinding {
		entry.Names.Binding = key.Binding.String()
	}
	return entry
}

// full is a row in which nothing is left out.
func full(t *testing.T, key platform.Key) platform.Entry {
	operation := "task/17 \"é\" 😀"
	reason := platform.Reason{
		At: past(7), Kind: "provision", Status: 507, Error: "QuotaExceeded", Description: "no 'more' \"disk\"\n",
		Lost: "lost",
	}
	entry := in(t, key, platform.Polling)
	fill(&entry, platform.OrderColumns)
	fill(&entry, platform.StateColumns)
	entry.Broker = "another-1"
	entry.Names = platform.Names{Instance: "ein Ding'", Service: "é\" \\", Plan: "\U0010FFFF %s ?"}
	entry.IsOwnID, entry.Try, entry.Tries, entry.First = false, 2, 5, id(77)
	entry.Organization, entry.Space, entry.Identity = "organization '", "space ☃", "cloudfoundry eyJ1c2VyIjogIjEifQ=="
	entry.Body = json.RawMessage(`{ "parameters": {"x":[1, 2.0,"\u0000"],"a":null} , "context":{}}`)
	entry.Operation, entry.Since, entry.SentUntil, entry.PolledSince = &operation, past(1), past(2), past(3)
	entry.Removal, entry.HasLast, entry.Due, entry.Unchanged = platform.RemovedWhole, true, past(4), 6
	entry.DueSince = past(3)
	entry.Lease, entry.Number = platform.Lease{Worker: "worker.1", Until: past(5)}, id(78)
	entry.Last, entry.Failure = reason, platform.Reason{At: past(8), Kind: "poll"}
	entry.Passing, entry.After = true, 90*time.Second
	entry.Dashboard, entry.Because = "https://example.com/?a=b&c='", "nobody needs it"
	entry.Metadata = json.RawMessage(`{"labels":{"a": "b"} }`)
	if key.IsBinding {
		entry.Names.Binding, entry.Credentials = "eine Bindung", []byte{0, 255, 1, '\'', 0}
	}
	return entry
}

// fill gives each member a value that has none.
func fill(entry *platform.Entry, columns platform.Columns[platform.Entry]) {
	for n, column := range columns.Of(entry.Key.IsBinding) {
		switch member := column.Member(entry).(type) {
		case *string:
			if *member == "" {
				*member = "the 'é' of " + column.Name
			}
		case *int:
			*member += n + 1
		case *bool:
			*member = true
		case *time.Time:
			*member = past(n)
		case *time.Duration:
			*member = time.Duration(n+1) * time.Second
		case *[]byte:
			*member = []byte{byte(n), 0}
		}
	}
}

// in is a row in a state, which rests.
func in(t *testing.T, key platform.Key, state platform.State) platform.Entry {
	t.Helper()
	entry := order(key)
	entry.State, entry.Due = state, time.Time{}
	if state != platform.Ordered && state != platform.Withdrawn {
		entry.Record, entry.IsSent = record(t, key, state), true
	}
	return entry
}

// record is one in a state. That of a row that is abandoned is cleaning.
func record(t *testing.T, key platform.Key, state platform.State) osb.Record {
	t.Helper()
	wanted, sent := osb.Create(key.Instance, service, plan, true)
	if key.IsBinding {
		ready := diff.Value(wanted.Answer(sent.Attempt, osb.Answer{Status: 201, Body: osb.BodyEmpty}))(t)
		var err error
		wanted, _, err = ready.CreateBinding(key.Binding, true)
		check(t, err)
	}
	if state == platform.Wanted {
		return wanted
	}
	statuses := map[platform.State]uint16{
		platform.Polling: 202, platform.Ready: 201, platform.Gone: 400, platform.Unsettled: 409,
	}
	if status, ok := statuses[state]; ok {
		return answer(t, key, wanted, status)
	}
	cleaning := diff.Value(wanted.Timeout(1))(t)
	if state != platform.CleaningPolling {
		return cleaning
	}
	cleaning, _, err := cleaning.Send(key.ID())
	check(t, err)
	return answer(t, key, cleaning, 202)
}

// answer is a record after an answer with this status and an empty object.
func answer(t *testing.T, key platform.Key, record osb.Record, status uint16) osb.Record {
	t.Helper()
	answer := osb.Answer{Status: status, Body: osb.BodyEmpty}
	take := record.Answer
	if key.IsBinding {
		take = func(attempt uint64, answer osb.Answer) (osb.Record, error) {
			return record.AnswerBinding(attempt, answer, true)
		}
	}
	return diff.Value(take(record.Attempt(), answer))(t)
}

var check = diff.Must

// brokerOf is a broker of a name.
func brokerOf(name string) platform.Broker { return platform.Broker{Name: name, URL: "http://" + name} }

// addBroker adds a broker, unless it is there.
func addBroker(t *testing.T, store platform.Store, name string) {
	t.Helper()
	if err := store.AddBroker(background, brokerOf(name)); err != nil && !errors.Is(err, platform.ErrUsed) {
		t.Fatalf("AddBroker of %s: got %v, want no error", name, err)
	}
}

// insert writes rows, and their brokers if they aren't there.
func insert(t *testing.T, store platform.Store, entries ...platform.Entry) {
	t.Helper()
	known := map[string]bool{}
	for _, entry := range entries {
		if !known[entry.Broker] {
			addBroker(t, store, entry.Broker)
			known[entry.Broker] = true
		}
		check(t, store.Insert(background, entry, accept))
	}
}

func accept(platform.Snapshot) error { return nil }

// due is a row with another due time.
func due(entry platform.Entry, at time.Time) platform.Entry {
	entry.Due = at
	return entry
}

// withLease is a row with a lease.
func withLease(entry platform.Entry, worker string, until time.Time) platform.Entry {
	entry.Lease = platform.Lease{Worker: worker, Until: until}
	return entry
}

func read(t *testing.T, store platform.Store, key platform.Key) platform.Entry {
	t.Helper()
	entry, err := store.Read(background, key)
	if err != nil {
		t.Fatalf("Read of %v: got %v, want no error", key, err)
	}
	return entry
}

// wantEntry compares what is read with what was written. Times count to the millisecond.
func wantEntry(t *testing.T, what string, got, want platform.Entry) {
	t.Helper()
	diff.Check(t, toMilliseconds(got), toMilliseconds(want), "%s", what)
}

func toMilliseconds(entry platform.Entry) platform.Entry {
	for _, at := range []*time.Time{
		&entry.Since, &entry.SentUntil, &entry.PolledSince, &entry.Due, &entry.DueSince, &entry.Lease.Until,
		&entry.Last.At, &entry.Failure.At,
	} {
		*at = milliseconds(*at)
	}
	return entry
}

func milliseconds(at time.Time) time.Time {
	if at.IsZero() {
		return time.Time{}
	}
	return time.UnixMilli(at.UnixMilli()).UTC()
}

// wantKeys compares the keys of rows, in their order.
func wantKeys(t *testing.T, what string, got []platform.Entry, want ...platform.Key) {
	t.Helper()
	keys := []platform.Key{}
	for _, entry := range got {
		keys = append(keys, entry.Key)
	}
	diff.Check(t, keys, append([]platform.Key{}, want...), "%s", what)
}

// change changes a row, whose step must succeed.
func change(t *testing.T, store platform.Store, key platform.Key, with func(*platform.Change)) {
	t.Helper()
	err := store.Change(background, key, func(_ time.Time, snapshot platform.Snapshot) (*platform.Change, error) {
		change := platform.Change{Entry: snapshot.Entry}
		with(&change)
		return &change, nil
	})
	if err != nil {
		t.Fatalf("Change of %v: got %v, want no error", key, err)
	}
}

// changeError is the error of a Change. A panic of the step counts as one, if Change lets it through.
func changeError(store platform.Store, key platform.Key, step platform.Step) (err error) {
	defer func() {
		if what := recover(); what != nil {
			err = fmt.Errorf("panic: %v\n%s", what, debug.Stack())
		}
	}()
	return store.Change(background, key, step)
}

func testEmpty(t *testing.T, open opener) {
	store := openStore(t, open)
	for _, key := range []platform.Key{instance(1), binding(2, 1)} {
		diff.ErrorIs(t, diff.Err(store.Read(background, key)), platform.ErrUnknown, "Read of %v", key)
		err := store.Change(background, key, func(time.Time, platform.Snapshot) (*platform.Change, error) {
			t.Errorf("%v: got a step, want none", key)
			return nil, nil
		})
		diff.ErrorIs(t, err, platform.ErrUnknown, "Change of %v", key)
		diff.Equal(t, len(diff.Value(store.Life(background, key))(t)), 0, "the life of %v", key)
	}
	diff.Equal(t, len(diff.Value(store.List(background, platform.Filter{}))(t)), 0, "List")
	diff.Equal(t, len(diff.Value(store.Counts(background))(t)), 0, "Counts")
	diff.Equal(t, len(diff.Value(store.InFlight(background, 10))(t)), 0, "InFlight")
	diff.Equal(t, len(diff.Value(store.Brokers(background))(t)), 0, "Brokers")
	claimed, err := store.Claim(background, brokers, 10, func(time.Time, platform.Snapshot) (*platform.Change, error) {
		t.Error("an empty store: got a step, want none")
		return nil, nil
	})
	diff.NoError(t, err, "Claim")
	diff.Empty(t, claimed, "Claim: claimed")
}

// What Insert and Change have written, Read, List and a step of another store read.
func testWritten(t *testing.T, open opener) {
	first, second := openStore(t, open), openStore(t, open)
	insert(t, first, order(instance(1)))
	for _, key := range []platform.Key{instance(3), binding(1, 1), binding(3, 1)} {
		insert(t, first, full(t, key))
		wantRead(t, second, full(t, key))
	}
	for _, key := range []platform.Key{instance(2), binding(2, 1), binding(1, 3)} {
		insert(t, first, order(key))
		wantRead(t, second, order(key))
		with := full(t, key)
		with.Order = order(key).Order
		gone, wanted := in(t, key, platform.Gone), in(t, key, platform.Wanted)
		for _, want := range []platform.Entry{with, gone, wanted, order(key)} {
			want := want
			change(t, first, key, func(it *platform.Change) { it.Entry = want })
			wantRead(t, second, want)
		}
	}
	wantRead(t, second, order(instance(1)))
}

// wantRead reads a row in each way that there is.
func wantRead(t *testing.T, store platform.Store, want platform.Entry) {
	t.Helper()
	wantEntry(t, "Read of "+want.Key.String(), read(t, store, want.Key), want)
	err := store.Change(background, want.Key, func(_ time.Time, snapshot platform.Snapshot) (*platform.Change, error) {
		wantEntry(t, "in a step of "+want.Key.String(), snapshot.Entry, want)
		if (snapshot.Instance != nil) != want.Key.IsBinding || (snapshot.AllGone != nil) == want.Key.IsBinding {
			t.Errorf("the snapshot of %v: got %+v, want what its kind needs", want.Key, snapshot)
		}
		return nil, nil
	})
	diff.NoError(t, err, "Change of %v", want.Key)
	rows, err := store.List(background, platform.Filter{States: []platform.State{want.State}})
	diff.NoError(t, err, "List")
	for _, row := range rows {
		if row.Key == want.Key {
			wantEntry(t, "in a list, "+want.Key.String(), row, want)
			return
		}
	}
	t.Errorf("List: got no %v, want it", want.Key)
}

// A text that the database can't have must not keep a row from being written. All else of the row is written exactly.
func testTexts(t *testing.T, open opener) {
	store := openStore(t, open)
	insert(t, store, order(instance(1)), order(binding(2, 1)))
	for _, key := range []platform.Key{instance(1), binding(2, 1)} {
		for _, test := range []struct {
			text    string
			isExact bool
		}{
			{"'; DROP TABLE osb_instances; -- \" \\ \r\n\t \x01 é 😀 \U0010FFFF \u2028 ", true},
			{"with \x00 in it", false},
			{"not UTF-8: \xff\xc3 \xed\xa0\x80", false},
		} {
			t.Run(fmt.Sprintf("%v %q", key, test.text), func(t *testing.T) {
				want := full(t, key)
				want.Order = order(key).Order
				setTexts(&want, test.text)
				change(t, store, key, func(change *platform.Change) { change.Entry = want })
				got := read(t, store, key)
				if test.isExact {
					wantEntry(t, test.text, got, want)
					return
				}
				for _, text := range textsOf(&got) {
					if *text != test.text && !utf8.ValidString(*text) {
						t.Errorf("%q: got %q, want it in UTF-8", test.text, *text)
					}
				}
				setTexts(&got, test.text)
				wantEntry(t, test.text, got, want)
			})
		}
	}
}

// textsOf are the texts in a row that others choose.
func textsOf(entry *platform.Entry) []*string {
	return []*string{
		&entry.Last.Error, &entry.Last.Description, &entry.Last.Lost, &entry.Failure.Description,
		entry.Operation, &entry.Dashboard, &entry.Because,
	}
}

func setTexts(entry *platform.Entry, text string) {
	operation := ""
	entry.Operation = &operation
	for _, secret := range textsOf(entry) {
		*secret = text
	}
}

func testUsed(t *testing.T, open opener) {
	first, second := openStore(t, open), openStore(t, open)
	before := []platform.Entry{full(t, instance(1)), in(t, binding(2, 1), platform.Gone)}
	insert(t, first, before...)
	for _, entry := range before {
		again := order(entry.Key)
		again.Broker = "another"
		addBroker(t, first, again.Broker)
		for _, store := range []platform.Store{first, second} {
			diff.ErrorIs(t, store.Insert(background, again, accept), platform.ErrUsed, "Insert of %v", entry.Key)
			wantRead(t, store, entry)
		}
	}
	insert(t, second, order(instance(2)), order(binding(1, 1)), order(binding(2, 2))) // other keys with these numbers
	diff.ErrorIs(t, first.Insert(background, order(binding(2, 3)), accept), platform.ErrUnknown,
		"a binding of an unknown instance")
	diff.ErrorIs(t, diff.Err(first.Read(background, binding(2, 3))), platform.ErrUnknown, "Read of the binding")
}

func testCheck(t *testing.T, open opener) {
	store := openStore(t, open)
	of := full(t, instance(1))
	insert(t, store, of)
	addBroker(t, store, "one")
	for _, key := range []platform.Key{instance(2), binding(3, 1)} {
		key := key
		isSeen := false
		check := func(with error) func(platform.Snapshot) error {
			return func(snapshot platform.Snapshot) error {
				isSeen = true
				if key.IsBinding && snapshot.Instance == nil {
					t.Error("got no instance, want that of the binding")
				} else if key.IsBinding {
					wantEntry(t, "the instance", *snapshot.Instance, of)
				}
				return with
			}
		}
		if err := store.Insert(background, order(key), check(errWrong)); key.IsBinding && !errors.Is(err, errWrong) {
			t.Errorf("Insert of %v: got %v, want %v", key, err, errWrong)
		} else if err == nil {
			continue // check needs no call for an instance
		}
		diff.ErrorIs(t, diff.Err(store.Read(background, key)), platform.ErrUnknown, "Read of %v", key)
		if err := store.Insert(background, order(key), check(nil)); err != nil || !isSeen {
			t.Errorf("Insert of %v: got %v and a check %t, want no error and one", key, err, isSeen)
		}
		wantEntry(t, key.String(), read(t, store, key), order(key))
	}
	wantEntry(t, "the instance", read(t, store, instance(1)), of)
}

// Of many that insert a key at once, one does.
func testInsertedOnce(t *testing.T, open opener) {
	stores := []platform.Store{openStore(t, open), openStore(t, open)}
	insert(t, stores[0], order(instance(1)))
	for _, key := range []platform.Key{instance(2), binding(2, 1)} {
		const goroutines = 10
		errs := make(chan error, goroutines)
		for n := 0; n < goroutines; n++ {
			go func(store platform.Store, entry platform.Entry) {
				errs <- store.Insert(background, entry, accept)
			}(stores[n%2], order(key))
		}
		inserted := 0
		for n := 0; n < goroutines; n++ {
			if err := <-errs; err == nil {
				inserted++
			} else if !errors.Is(err, platform.ErrUsed) {
				t.Errorf("Insert of %v: got %v, want %v", key, err, platform.ErrUsed)
			}
		}
		diff.Equal(t, inserted, 1, "%v: insertions", key)
	}
}

// A call whose context is cancelled fails, and writes nothing.
func testCancelled(t *testing.T, open opener) {
	store := openStore(t, open)
	before := order(instance(1))
	insert(t, store, before, order(instance(3)))
	ctx, cancel := context.WithCancel(background)
	cancel()
	step := Edit(func(e *platform.Entry, _ time.Time) {
		e.Unchanged++
	})
	calls := map[string]func() error{
		"Insert":    func() error { return store.Insert(ctx, order(instance(2)), accept) },
		"Change":    func() error { return store.Change(ctx, instance(1), step) },
		"Claim":     func() error { return diff.Err(store.Claim(ctx, brokers, 10, step)) },
		"AddBroker": func() error { return store.AddBroker(ctx, platform.Broker{Name: "two", URL: "http://two"}) },
		"ChangeBroker": func() error {
			return store.ChangeBroker(ctx, "one", func(broker platform.Broker) (*platform.Broker, error) {
				broker.URL = "http://other"
				return &broker, nil
			})
		},
	}
	for name, call := range calls {
		t.Run(name, func(t *testing.T) {
			diff.ErrorIs(t, call(), context.Canceled, "%s", name)
		})
	}
	wantEntry(t, "the row", read(t, store, instance(1)), before)
	diff.ErrorIs(t, diff.Err(store.Read(background, instance(2))), platform.ErrUnknown, "Read of what wasn't inserted")
	wantBrokers(t, store, brokerOf("one"))
	insert(t, store, order(instance(2))) // the store goes on
}

func testReady(t *testing.T, open opener) {
	store := openStore(t, open)
	for n := 0; n < 2; n++ {
		diff.NoError(t, store.Ready(background), "Ready")
	}
	diff.Equal(t, len(diff.Value(store.List(background, platform.Filter{}))(t)), 0, "List")
}

// Close waits for a Change that has begun, and no other begins afterwards.
func testClose(t *testing.T, open opener) {
	store, other := open(t), openStore(t, open)
	insert(t, store, order(instance(1)), order(instance(2)))
	gate, closed, changed := NewGate(), make(chan error, 1), make(chan error, 1)
	defer gate.Open()
	written := in(t, instance(1), platform.Ready)
	go func() {
		changed <- store.Change(background, instance(1), func(time.Time, platform.Snapshot) (*platform.Change, error) {
			gate.Pass()
			return &platform.Change{Entry: written}, nil
		})
	}()
	gate.Await(t, changed)
	go func() { closed <- store.Close() }()
	select {
	case err := <-closed:
		t.Error("got an end of Close before that of the Change, want it to wait")
		closed <- err
	case <-time.After(soon):
	}
	gate.Open()
	diff.NoError(t, <-changed, "the Change")
	diff.NoError(t, <-closed, "Close")
	wantEntry(t, "after Close", read(t, other, instance(1)), written)
	err := store.Change(background, instance(2), func(time.Time, platform.Snapshot) (*platform.Change, error) {
		return &platform.Change{Entry: written}, nil
	})
	diff.Error(t, err, "a Change after Close")
	diff.Error(t, diff.Err(store.Read(background, instance(1))), "a Read after Close")
}

func testFingerprint(t *testing.T, open opener) {
	first, second := openStore(t, open), openStore(t, open)
	for _, test := range []struct {
		store       platform.Store
		given, want string
	}{
		{first, "a print", "a print"}, {second, "another", "a print"},
		{first, "another", "a print"}, {second, "a print", "a print"},
	} {
		diff.Equal(t, diff.Value(test.store.Fingerprint(background, test.given))(t), test.want, "%q", test.given)
	}
}

// A fingerprint is replaced by whoever knows the one that is written. Before the first one there is none to replace.
func testReplaceFingerprint(t *testing.T, open opener) {
	first, second := openStore(t, open), openStore(t, open)
	for _, before := range []string{"a print", ""} {
		diff.ErrorIs(t, first.ReplaceFingerprint(background, before, "another"), platform.ErrUnknown,
			"%q before there was any", before)
	}
	diff.Equal(t, diff.Value(first.Fingerprint(background, "a print"))(t), "a print", "the fingerprint")
	check(t, second.ReplaceFingerprint(background, "a print", "another"))
	diff.ErrorIs(t, first.ReplaceFingerprint(background, "a print", "a third"), platform.ErrUnknown,
		"a fingerprint that isn't written")
	diff.Equal(t, diff.Value(first.Fingerprint(background, "a print"))(t), "another", "the fingerprint")
}

// Whether there are workers is known to every process.
func testHasWorkers(t *testing.T, open opener) {
	first, second := openStore(t, open), openStore(t, open)
	want := func(want bool, when string) {
		t.Helper()
		for _, store := range []platform.Store{first, second} {
			got, err := store.HasWorkers(background)
			// Other tests may have workers in the same database meanwhile.
			for late := time.Now().Add(deadline); !want && got && err == nil && time.Now().Before(late); {
				time.Sleep(soon)
				got, err = store.HasWorkers(background)
			}
			diff.NoError(t, err, "%s", when)
			diff.Equal(t, got, want, "%s", when)
		}
	}
	want(false, "without a worker")
	var ends []func()
	for _, text := range []string{NameOf(t) + "one", NameOf(t) + "two"} {
		end, _ := Right(t, first, text)
		ends = append(ends, end)
		want(true, "with "+text)
	}
	ends[0]()
	want(true, "with the second worker")
	ends[1]()
	want(false, "after the last worker")
}
