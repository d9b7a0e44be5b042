// Package storetest has the tests that every broker.NamedStore must pass.
package storetest

import (
	"context"
	"crypto/sha256"
	"encoding/hex"
	"encoding/json"
	"errors"
	"fmt"
	"reflect"
	"runtime/debug"
	"sort"
	"strings"
	"sync"
	"testing"
	"time"
	"unicode/utf8"

	"pippinterm/broker"
	"pippinterm/internal/diff"
	"pippinterm/osb"
)

// soon is how long a test waits for something that must not happen.
const soon = 150 * time.Millisecond

// Run runs the tests. The function open opens one more store over the database of t. The same t has the same database
// in each call, and at first it is empty: NameOf(t) can name it. The tests close what they open.
func Run(t *testing.T, open func(t *testing.T) broker.NamedStore) {
	for _, test := range []struct {
		name string
		run  func(*testing.T, func(*testing.T) broker.NamedStore)
	}{
		{"of a key that nothing is kept of", testNothing},
		{"what was written is read by another store", testWritten},
		{"texts of any kind", testTexts},
		{"a step that writes nothing", testNoEntry},
		{"a step that fails", testFailingSteps},
		{"a binding and its instance", testInstanceOfBinding},
		{"held bindings", testHeldBindings},
		{"unfinished keys", testUnfinished},
		{"the age of a tombstone", testAge},
		{"one of two changes finds a tombstone", testReturn},
		{"no change is lost", testCounter},
		{"changes that exclude each other", testExclusion},
		{"counts", testStats},
		{"the name", testName},
		{"the id", testID},
		{"a tie", testTie},
		{"a store that was untied", testUntiedBefore},
		{"rows make a store used", testUsedByRows},
		{"one tie at a time", testTiesExclude},
		{"ready", testReady},
		{"closing", testClose},
	} {
		t.Run(test.name, func(t *testing.T) { test.run(t, open) })
	}
}

// NameOf returns a name for the database of a test: a letter and 16 hexadecimal digits.
func NameOf(t *testing.T) string {
	sum := sha256.Sum256([]byte(t.Name()))
	return "t" + hex.EncodeToString(sum[:8])
}

// openStore returns a store that is closed at the end of the test.
func openStore(t *testing.T, open func(*testing.T) broker.NamedStore) broker.NamedStore {
	t.Helper()
	store := open(t)
	t.Cleanup(func() {
		diff.NoError(t, store.Close(), "Close")
	})
	return store
}

var (
	service = osb.MustParseID("00000000-0000-0000-0000-0000000000a0")
	plan    = osb.MustParseID("00000000-0000-0000-0000-0000000000b2")
)

func id(n int) osb.ID { return osb.MustParseID(fmt.Sprintf("00000000-0000-4000-8000-%012x", n)) }

func instance(n int) broker.Key { return osb.InstanceKey(id(n)) }

func binding(n, of int) broker.Key { return osb.BindingKey(id(of), id(n)) }

// in is a holding whose row is in a phase.
func in(t *testing.T, phase string) osb.Holding {
	t.Helper()
	return holding(t, fmt.Sprintf(`{"phase":%q,"plan":%q,"service":%q}`, phase, plan, service), "null", false)
}

// pendingHolding is the holding of a key with a pending creation.
func pendingHolding(t *testing.T, key broker.Key) osb.Holding {
	t.Helper()
	work := fmt.Sprintf(`{"accepts_incomplete":true,"id":%q,"kind":"provision","plan":%q,"service":%q}`,
		key.ID(), plan, service)
	return holding(t, "null", work, false)
}

func tombstone(t *testing.T) osb.Holding {
	t.Helper()
	return holding(t, "null", "null", true)
}

func holding(t *testing.T, row, work string, hasTombstone bool) (read osb.Holding) {
	t.Helper()
	text := fmt.Sprintf(`{"attributes":"%064d","row":%s,"tombstone":%t,"version":2,"work":%s}`, 0, row, hasTombstone, work)
	if err := json.Unmarshal([]byte(text), &read); err != nil {
		t.Fatalf("%s: got the error %v, want none", text, err)
	}
	return read
}

// write writes an entry without looking at what is held.
func write(t *testing.T, store broker.Store, key broker.Key, entry broker.Entry) {
	t.Helper()
	err := store.Change(context.Background(), key, func(broker.Snapshot) (*broker.Entry, error) { return &entry, nil })
	if err != nil {
		t.Fatalf("Change of %v: got %v, want no error", key, err)
	}
}

func read(t *testing.T, store broker.Store, key broker.Key) broker.Snapshot {
	t.Helper()
	snapshot, err := store.Read(context.Background(), key)
	if err != nil {
		t.Fatalf("Read of %v: got %v, want no error", key, err)
	}
	return snapshot
}

// wantEntry compares what two stores have of a key.
func wantEntry(t *testing.T, what string, got, want broker.Entry) {
	t.Helper()
	if !sameEntry(got, want) {
		t.Errorf("%s: %s", what, diff.Of(got, want))
	}
}

func sameEntry(got, want broker.Entry) bool {
	return got.Holding == want.Holding && string(got.Request) == string(want.Request) &&
		(got.Request == nil) == (want.Request == nil) && string(got.Binding) == string(want.Binding) &&
		(got.Binding == nil) == (want.Binding == nil) && got.Description == want.Description &&
		got.Since.Equal(want.Since) && got.Life == want.Life && textOfChange(got) == textOfChange(want)
}

func textOfChange(entry broker.Entry) string {
	text, err := entry.Change.Text()
	if err != nil {
		return err.Error()
	}
	return string(text)
}

// changeError is the error of a Change. A panic of the step counts as one, if Change lets it through.
func changeError(ctx context.Context, store broker.Store, key broker.Key, step broker.Step) (err error) {
	defer func() {
		if what := recover(); what != nil {
			err = fmt.Errorf("panic: %v\n%s", what, debug.Stack())
		}
	}()
	return store.Change(ctx, key, step)
}

func testName(t *testing.T, open func(*testing.T) broker.NamedStore) {
	first, second := openStore(t, open), openStore(t, open)
	ctx := context.Background()
	wantName := func(what string, want string, name string, err error) {
		t.Helper()
		diff.NoError(t, err, "%s", what)
		diff.Equal(t, name, want, "%s", what)
	}
	name, err := first.Name(ctx)
	wantName("before the first use", "", name, err)
	name, err = first.Begin(ctx, "one")
	wantName("the first Begin", "one", name, err)
	name, err = second.Begin(ctx, "two")
	wantName("the second Begin", "one", name, err)
	name, err = second.Name(ctx)
	wantName("Name", "one", name, err)
	name, err = second.Begin(ctx, broker.UntiedBefore+"two")
	wantName("a Begin of a late backend", "one", name, err)
}

// The id is made up once, by whichever store of a database is first, and no two databases have the same.
func testID(t *testing.T, open func(*testing.T) broker.NamedStore) {
	ids := make(chan string, 8)
	for n := 0; n < cap(ids); n++ {
		store := openStore(t, open)
		go func() {
			id, err := store.ID(context.Background())
			diff.NoError(t, err, "")
			ids <- id
		}()
	}
	first := <-ids
	if _, err := osb.ParseID(first); err != nil || strings.Trim(first, "0-") == "" {
		t.Errorf("the id: got %q, want a random GUID", first)
	}
	for n := 1; n < cap(ids); n++ {
		diff.Equal(t, <-ids, first, "another store of the database")
	}
	diff.NoError(t, diff.Err(openStore(t, open).Begin(context.Background(), "a name")), "Begin")
	diff.Equal(t, diff.Value(openStore(t, open).ID(context.Background()))(t), first, "the id later")
}

// A store that is untied gets another name once, and then its rows don't count.
func testUntiedBefore(t *testing.T, open func(*testing.T) broker.NamedStore) {
	store, ctx := openStore(t, open), context.Background()
	for _, test := range []struct{ given, want string }{
		{broker.Untied, broker.Untied},
		{"one", broker.Untied},
		{broker.UntiedBefore + "two", broker.UntiedBefore + "two"},
		{broker.UntiedBefore + "three", broker.UntiedBefore + "two"},
		{broker.Untied, broker.UntiedBefore + "two"},
	} {
		diff.Equal(t, diff.Value(store.Begin(ctx, test.given))(t), test.want, "Begin(%q)", test.given)
	}
	for _, key := range []broker.Key{instance(1), binding(1, 1)} {
		write(t, store, key, broker.Entry{Holding: tombstone(t)})
	}
	for _, wanted := range []bool{false, true} {
		diff.Equal(t, diff.Value(tie(store, nil))(t), wanted, "")
	}
}

// tie ties a store, and returns whether it was used.
func tie(store broker.NamedStore, with error) (isUsed bool, err error) {
	err = store.Tie(context.Background(), func(is bool) error {
		isUsed = is
		return with
	})
	return isUsed, err
}

func testTie(t *testing.T, open func(*testing.T) broker.NamedStore) {
	first, second := openStore(t, open), openStore(t, open)
	begin(t, first)
	wrong := errors.New("wrong")
	for _, test := range []struct {
		what   string
		store  broker.NamedStore
		with   error
		isUsed bool
	}{
		{"a new store", first, wrong, false},
		{"a store whose tie has failed", second, wrong, false},
		{"that once more", first, nil, false},
		{"a store that is tied", second, wrong, true},
		{"that once more", first, nil, true},
	} {
		isUsed, err := tie(test.store, test.with)
		diff.Equal(t, isUsed, test.isUsed, "%s: used", test.what)
		diff.ErrorIs(t, err, test.with, "%s", test.what)
	}
}

func testUsedByRows(t *testing.T, open func(*testing.T) broker.NamedStore) {
	for _, key := range []broker.Key{instance(1), binding(1, 1)} {
		t.Run(key.String(), func(t *testing.T) {
			store := openStore(t, open)
			begin(t, store)
			wrong := errors.New("wrong")
			isUsed, err := tie(store, wrong)
			diff.Equal(t, isUsed, false, "used, without rows")
			diff.ErrorIs(t, err, wrong, "without rows")
			write(t, store, key, broker.Entry{Holding: tombstone(t)})
			isUsed, err = tie(store, wrong)
			diff.Equal(t, isUsed, true, "used, with a row")
			diff.ErrorIs(t, err, wrong, "with a row")
		})
	}
}

func begin(t *testing.T, store broker.NamedStore) {
	t.Helper()
	diff.Must(t, diff.Err(store.Begin(context.Background(), "one")))
}

// The second of two who tie waits for the first, and sees that the store is tied.
func testTiesExclude(t *testing.T, open func(*testing.T) broker.NamedStore) {
	first, second := openStore(t, open), openStore(t, open)
	begin(t, first)
	exclude(t, func(inside func()) error {
		return first.Tie(context.Background(), func(bool) error {
			inside()
			return nil
		})
	}, func(inside func()) error {
		return second.Tie(context.Background(), func(isUsed bool) error {
			inside()
			diff.Equal(t, isUsed, true, "the second finds the store tied")
			return nil
		})
	})
}

func testReady(t *testing.T, open func(*testing.T) broker.NamedStore) {
	store := openStore(t, open)
	begin(t, store)
	diff.NoError(t, store.Ready(context.Background()), "a store that works")
	diff.Equal(t, diff.Value(store.Name(context.Background()))(t), "one", "the name")
	diff.Equal(t, diff.Value(tie(store, nil))(t), false, "used")
}

func testStats(t *testing.T, open func(*testing.T) broker.NamedStore) {
	store := openStore(t, open)
	wantStats(t, open, "an empty store", broker.Stats{})
	at := func(hour int) time.Time { return time.Date(2020, 1, 1, hour, 0, 0, 5e6, time.UTC) }
	for _, test := range []struct {
		key   broker.Key
		entry broker.Entry
	}{
		{instance(1), broker.Entry{Holding: pendingHolding(t, instance(1)), Since: at(9)}},
		{binding(1, 1), broker.Entry{Holding: pendingHolding(t, binding(1, 1)), Since: at(8)}},
		{instance(2), broker.Entry{Holding: in(t, "making"), Since: at(7)}},
		{binding(2, 1), broker.Entry{Holding: in(t, "deleting"), Since: at(6)}},
		{binding(3, 1), broker.Entry{Holding: in(t, "making")}}, // as of a version that wrote no time
		{instance(3), broker.Entry{Holding: in(t, "waiting"), Since: at(10)}},
		{instance(4), broker.Entry{Holding: in(t, "ready"), Since: at(1)}}, // finished: its time doesn't count
		{instance(5), broker.Entry{Holding: in(t, "failed")}},
		{instance(6), broker.Entry{Holding: tombstone(t)}},
		{instance(7), broker.Entry{Holding: tombstone(t)}},
		{binding(6, 1), broker.Entry{Holding: tombstone(t)}},
		{instance(8), broker.Entry{Holding: in(t, "ready"), Change: changeIn(t, osb.UpdatePhasePending), Since: at(5)}},
		{instance(9), broker.Entry{Holding: in(t, "ready"), Change: changeIn(t, osb.UpdatePhaseUpdating)}},
		{instance(10), broker.Entry{Holding: in(t, "ready"), Change: changeIn(t, osb.UpdatePhaseFailed)}},
	} {
		write(t, store, test.key, test.entry)
	}
	wantStats(t, open, "with some", broker.Stats{Pending: 3, Operating: 4, Waiting: 1, Tombstones: 3, Oldest: at(5)})
}

// wantStats asks a new store, since a store may keep a count for a while.
func wantStats(t *testing.T, open func(*testing.T) broker.NamedStore, what string, want broker.Stats) {
	t.Helper()
	store := open(t)
	defer store.Close()
	got, err := store.Stats(context.Background())
	isSame := got.Oldest.Equal(want.Oldest)
	got.Oldest = want.Oldest
	if err != nil || !isSame || got != want {
		t.Errorf("%s: got %+v, %v, want %+v", what, got, err, want)
	}
}

func testNothing(t *testing.T, open func(*testing.T) broker.NamedStore) {
	store := openStore(t, open)
	for _, key := range []broker.Key{instance(1), binding(2, 1)} {
		wantEntry(t, key.String(), read(t, store, key).Entry, broker.Entry{})
		err := store.Change(context.Background(), key, func(snapshot broker.Snapshot) (*broker.Entry, error) {
			wantEntry(t, "in the step of "+key.String(), snapshot.Entry, broker.Entry{})
			wantEntry(t, "the instance of "+key.String(), snapshot.Instance, broker.Entry{})
			return nil, nil
		})
		diff.NoError(t, err, "%v", key)
	}
	diff.Empty(t, diff.Value(store.UnfinishedKeys(context.Background()))(t), "unfinished")
	diff.Empty(t, diff.Value(store.HeldBindings(context.Background(), id(1)))(t), "held bindings")
}

// entries are an entry with all that there is, and one that has less.
func entries(t *testing.T, key broker.Key) []broker.Entry {
	full := broker.Entry{
		Holding:     pendingHolding(t, key),
		Request:     json.RawMessage(`{"instance_id": "a", "body":{"x":[1, 2.0,"\u0000"]}}`),
		Description: "the disk is full",
		Since:       time.Date(2026, 2, 3, 4, 5, 6, 789e6, time.FixedZone("somewhere", 3600)),
		Life:        3,
		Worker:      id(9),
	}
	less := broker.Entry{Holding: in(t, "ready")}
	if key.IsBinding {
		full.Binding = json.RawMessage(`{"credentials" : {"password":"\"\\ é"}}`)
		return []broker.Entry{full, less, {Holding: tombstone(t), Life: 1 << 40}}
	}
	updating, failed := less, less
	updating.Change, failed.Change = changeIn(t, osb.UpdatePhaseUpdating), changeIn(t, osb.UpdatePhaseFailed)
	return []broker.Entry{full, less, updating, failed, less, {Holding: tombstone(t), Life: 1 << 40}}
}

// changeIn is what is kept of the updates of an instance whose latest update has come so far.
func changeIn(t *testing.T, phase osb.UpdatePhase) *broker.Change {
	t.Helper()
	update := osb.Update{Service: service, Change: osb.Change{Plan: id(7), HasPlan: true}, Number: 3, AcceptsIncomplete: true}
	held := osb.NewUpdateHolding(osb.Settings{Plan: plan})
	held, _, err := held.Begin(in(t, "ready"), osb.AllowedAsync, update)
	if err == nil && phase != osb.UpdatePhasePending {
		held, _, err = held.End(osb.ModeAsync, osb.UpdateOutcomeDone)
	}
	if err == nil && phase == osb.UpdatePhaseFailed {
		held, err = held.Finish(false)
	}
	if err != nil || held.Phase() != phase {
		t.Fatalf("got %v and %v, want %v", held, err, phase)
	}
	it := &broker.Change{
		Holding: held, Settings: broker.Settings{PlanID: "p", Parameters: json.RawMessage(`{"a":"<&>\u0000"}`), Version: "1"},
	}
	if _, hasGoal := held.Goal(); hasGoal {
		it.To, it.Origin = &broker.Settings{PlanID: "q"}, broker.Origin{RequestID: "r"}
	}
	return it
}

func testWritten(t *testing.T, open func(*testing.T) broker.NamedStore) {
	first, second := openStore(t, open), openStore(t, open)
	for _, key := range []broker.Key{instance(1), binding(1, 1), binding(2, 1), binding(1, 3)} {
		for _, entry := range entries(t, key) {
			write(t, first, key, entry)
			wantEntry(t, "read", read(t, second, key).Entry, entry)
			err := second.Change(context.Background(), key, func(snapshot broker.Snapshot) (*broker.Entry, error) {
				wantEntry(t, "in a step", snapshot.Entry, entry)
				return nil, nil
			})
			diff.NoError(t, err, "")
		}
	}
	wantEntry(t, "another instance", read(t, second, instance(2)).Entry, broker.Entry{})
	wantEntry(t, "another binding", read(t, second, binding(3, 1)).Entry, broker.Entry{})
}

// A text that the database can't have must not keep work from ending.
func testTexts(t *testing.T, open func(*testing.T) broker.NamedStore) {
	store := openStore(t, open)
	for _, test := range []struct {
		name, text string
		isExact    bool
	}{
		{"quotes and control characters", "'; DROP TABLE x; -- \" \\ \r\n\t \x01 é 😀 \U0010FFFF", true},
		{"zero byte", "with \x00 in it", false},
		{"not UTF-8", "not UTF-8: \xff\xc3", false},
	} {
		t.Run(test.name, func(t *testing.T) {
			write(t, store, binding(1, 1), broker.Entry{
				Holding: in(t, "failed"), Description: test.text, Binding: json.RawMessage(`"` + "\xff" + `"`),
			})
			snapshot := read(t, store, binding(1, 1))
			diff.Equal(t, snapshot.Holding, in(t, "failed"), "the holding")
			if test.isExact && snapshot.Description != test.text {
				t.Errorf("got %q, want %q", snapshot.Description, test.text)
			}
			if !test.isExact && snapshot.Description != test.text && !utf8.ValidString(snapshot.Description) {
				t.Errorf("got %q, want %q, or a text in UTF-8", snapshot.Description, test.text)
			}
		})
	}
}

func testNoEntry(t *testing.T, open func(*testing.T) broker.NamedStore) {
	store := openStore(t, open)
	for _, key := range []broker.Key{instance(1), binding(2, 1)} {
		before := entries(t, key)[0]
		write(t, store, key, before)
		calls := 0
		err := store.Change(context.Background(), key, func(broker.Snapshot) (*broker.Entry, error) {
			calls++
			return nil, nil
		})
		if err != nil || calls == 0 {
			t.Errorf("%v: got %v after %d calls, want no error after one", key, err, calls)
		}
		wantEntry(t, key.String(), read(t, store, key).Entry, before)
	}
}

// The Change of a binding sees what is held of its instance, whether the binding has a row or not.
func testInstanceOfBinding(t *testing.T, open func(*testing.T) broker.NamedStore) {
	first, second := openStore(t, open), openStore(t, open)
	for _, phase := range []string{"ready", "deleting"} {
		of := broker.Entry{Holding: in(t, phase), Request: json.RawMessage(`{"instance_id":"` + phase + `"}`), Life: 2}
		if phase == "ready" {
			of.Change = changeIn(t, osb.UpdatePhasePending)
		}
		write(t, first, instance(1), of)
		for _, key := range []broker.Key{binding(1, 1), binding(2, 1)} {
			wantEntry(t, "the instance, by Read of "+key.String(), read(t, second, key).Instance, of)
			err := second.Change(context.Background(), key, func(snapshot broker.Snapshot) (*broker.Entry, error) {
				wantEntry(t, "the instance, by Change of "+key.String(), snapshot.Instance, of)
				return &broker.Entry{Holding: in(t, "ready")}, nil
			})
			diff.NoError(t, err, "")
		}
	}
	instance := read(t, first, instance(1)).Entry
	wantEntry(t, "the instance", instance, broker.Entry{Holding: in(t, "deleting"), Request: instance.Request, Life: 2})
}

func testHeldBindings(t *testing.T, open func(*testing.T) broker.NamedStore) {
	store := openStore(t, open)
	write(t, store, instance(1), broker.Entry{Holding: in(t, "ready")})
	wantHeld(t, store)
	write(t, store, binding(1, 1), broker.Entry{Holding: tombstone(t)})
	write(t, store, binding(2, 2), broker.Entry{Holding: in(t, "ready")}) // another instance's
	write(t, store, binding(5, 1), broker.Entry{Description: "a row that holds nothing"})
	wantHeld(t, store)
	write(t, store, binding(3, 1), broker.Entry{Holding: pendingHolding(t, binding(3, 1))})
	write(t, store, binding(4, 1), broker.Entry{Holding: in(t, "failed")})
	wantHeld(t, store, id(3), id(4))
	write(t, store, binding(3, 1), broker.Entry{Holding: tombstone(t)})
	wantHeld(t, store, id(4))
	write(t, store, binding(4, 1), broker.Entry{Holding: tombstone(t)})
	wantHeld(t, store)
}

// wantHeld looks at the bindings of instance 1, in each of the three ways.
func wantHeld(t *testing.T, store broker.Store, want ...osb.ID) {
	t.Helper()
	got, err := store.HeldBindings(context.Background(), id(1))
	sort.Slice(got, func(i, j int) bool { return got[i].String() < got[j].String() })
	if err != nil || len(got)+len(want) > 0 && !reflect.DeepEqual(got, want) {
		t.Errorf("held: %v, %s", err, diff.Of(got, want))
	}
	diff.Equal(t, diff.Value(read(t, store, instance(1)).AnyBinding())(t), len(want) > 0, "AnyBinding of Read")
	err = store.Change(context.Background(), instance(1), func(snapshot broker.Snapshot) (*broker.Entry, error) {
		any, err := snapshot.AnyBinding()
		diff.Equal(t, any, len(want) > 0, "AnyBinding in a step")
		return nil, err
	})
	diff.NoError(t, err, "")
}

func testUnfinished(t *testing.T, open func(*testing.T) broker.NamedStore) {
	store := openStore(t, open)
	want := map[broker.Key]bool{}
	for n, phase := range []string{"waiting", "making", "ready", "failed", "deleting", "delete-failed"} {
		isUnfinished := phase == "waiting" || phase == "making" || phase == "deleting"
		for _, key := range []broker.Key{instance(n), binding(n, 100), binding(100, n)} {
			write(t, store, key, broker.Entry{Holding: in(t, phase)})
			if isUnfinished {
				want[key] = true
			}
		}
	}
	for _, key := range []broker.Key{instance(20), binding(20, 20)} {
		write(t, store, key, broker.Entry{Holding: pendingHolding(t, key)})
		want[key] = true
	}
	for _, key := range []broker.Key{instance(21), binding(21, 20)} {
		write(t, store, key, broker.Entry{Holding: in(t, "deleting")})
		write(t, store, key, broker.Entry{Holding: tombstone(t)})
	}
	keys := diff.Value(store.UnfinishedKeys(context.Background()))(t)
	got := map[broker.Key]bool{}
	for _, key := range keys {
		diff.Equal(t, got[key], false, "%v twice", key)
		got[key] = true
	}
	diff.Check(t, got, want, "the unfinished keys")
}

// A tombstone has the age since it was written, for each store of the database. Nothing else has one.
func testAge(t *testing.T, open func(*testing.T) broker.NamedStore) {
	first, second := openStore(t, open), openStore(t, open)
	for _, key := range []broker.Key{instance(1), binding(1, 1), binding(2, 5)} {
		wantNoAge(t, second, key)
		write(t, first, key, broker.Entry{Holding: in(t, "deleting")})
		wantNoAge(t, second, key)
		for _, store := range []broker.Store{first, second} { // the second time it is written anew
			began := time.Now()
			write(t, store, key, broker.Entry{Holding: tombstone(t)})
			written := time.Now()
			for _, reader := range []broker.Store{second, first} {
				time.Sleep(soon)
				wantAge(t, reader, key, began, written)
			}
		}
		write(t, second, key, broker.Entry{Holding: pendingHolding(t, key), Life: 1})
		time.Sleep(soon / 10)
		wantNoAge(t, first, key)
	}
}

// ages are the age of a tombstone by Read, and in a step.
func ages(t *testing.T, store broker.Store, key broker.Key) []time.Duration {
	t.Helper()
	found := []time.Duration{read(t, store, key).EndedAgo}
	err := store.Change(context.Background(), key, func(snapshot broker.Snapshot) (*broker.Entry, error) {
		found = append(found[:1], snapshot.EndedAgo)
		return nil, nil
	})
	diff.NoError(t, err, "")
	return found
}

func wantNoAge(t *testing.T, store broker.Store, key broker.Key) {
	t.Helper()
	for _, age := range ages(t, store, key) {
		diff.Equal(t, age, 0, "%v", key)
	}
}

// wantAge checks the age of a tombstone whose writing has begun and ended at these times.
func wantAge(t *testing.T, store broker.Store, key broker.Key, began, written time.Time) {
	t.Helper()
	const inexact = 10 * time.Millisecond // two clocks of one machine, one of them in milliseconds
	least := time.Since(written) - inexact
	for _, age := range ages(t, store, key) {
		if most := time.Since(began) + inexact; age < least || age > most {
			t.Errorf("%v: got the age %v, want %v to %v", key, age, least, most)
		}
	}
}

// Of two changes that find one tombstone at the same time, one puts a new life in its place. The other one sees that.
func testReturn(t *testing.T, open func(*testing.T) broker.NamedStore) {
	stores := []broker.Store{openStore(t, open), openStore(t, open)}
	for n := 1; n <= 10; n++ {
		for _, key := range []broker.Key{instance(n), binding(n, 100)} {
			write(t, stores[0], key, broker.Entry{Holding: tombstone(t)})
			time.Sleep(2 * time.Millisecond) // so that it has an age
			diff.Equal(t, returns(t, stores, key), 1, "%v: returns", key)
			want := broker.Entry{Holding: pendingHolding(t, key), Life: 1}
			wantEntry(t, key.String(), read(t, stores[0], key).Entry, want)
		}
	}
}

// returns has the stores put a new life in the place of a tombstone, all at the same time, and returns how many have.
func returns(t *testing.T, stores []broker.Store, key broker.Key) (count int) {
	t.Helper()
	begun := pendingHolding(t, key)
	found := make([]bool, len(stores))
	var gate, all sync.WaitGroup
	gate.Add(len(stores))
	all.Add(len(stores))
	for at, store := range stores {
		go func(at int, store broker.Store) {
			defer all.Done()
			gate.Done()
			gate.Wait()
			err := store.Change(context.Background(), key, func(snapshot broker.Snapshot) (*broker.Entry, error) {
				if found[at] = snapshot.Holding.HasTombstone() && snapshot.EndedAgo > 0; !found[at] {
					return nil, nil
				}
				return &broker.Entry{Holding: begun, Life: snapshot.Life + 1}, nil
			})
			diff.NoError(t, err, "")
		}(at, store)
	}
	all.Wait()
	for _, has := range found {
		if has {
			count++
		}
	}
	return count
}
