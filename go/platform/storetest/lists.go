package storetest

import (
	"context"
	"fmt"
	"sort"
	"strings"
	"testing"
	"time"

	"pippinterm/internal/diff"
	"pippinterm/osb"
	"pippinterm/platform"
)

// insertRows are rows of all kinds.
func insertRows(t *testing.T, store platform.Store) (rows []platform.Entry) {
	t.Helper()
	states := []platform.State{
		platform.Abandoned, platform.Cleaning, platform.CleaningPolling, platform.Gone, platform.Ordered,
		platform.Polling, platform.Ready, platform.Unsettled, platform.Wanted, platform.Withdrawn,
	}
	for n := 0; n < 20; n++ {
		for _, key := range []platform.Key{instance(0x10000*n + n), binding(0x20000*n+n, 0x10000*n+n)} {
			entry := in(t, key, states[n*7%10])
			entry.Since = past(n % 3)
			entry.Broker = []string{"one", "two"}[n%2]
			if n >= 15 {
				entry.First, entry.Try = id(3), n
			}
			insert(t, store, entry)
			rows = append(rows, entry)
		}
	}
	return rows
}

// before is an order of rows. A Key is as its text, byte by byte.
func before(order platform.Ordering, one, other platform.Entry) bool {
	switch {
	case one.State != other.State && order == platform.ByState:
		return one.State < other.State
	case !one.Since.Equal(other.Since) && order != platform.ByKey:
		return one.Since.Before(other.Since)
	}
	return one.Key.String() < other.Key.String()
}

func testList(t *testing.T, open opener) {
	store := openStore(t, open)
	rows := insertRows(t, openStore(t, open))
	yes, no, of, none, third := true, false, instance(0x20002).Instance, instance(0x777).Instance, id(3)
	last, bound := instance(0x10000*19+19).Instance, binding(0x40002, 0x20002).Binding
	for _, test := range []struct {
		name   string
		filter platform.Filter
		has    func(platform.Entry) bool
	}{
		{"all", platform.Filter{}, func(platform.Entry) bool { return true }},
		{
			"a state", platform.Filter{States: []platform.State{platform.Ready}},
			func(e platform.Entry) bool { return e.State == platform.Ready },
		},
		{
			"two states", platform.Filter{States: []platform.State{platform.Wanted, platform.Gone, platform.Wanted}},
			func(e platform.Entry) bool { return e.State == platform.Wanted || e.State == platform.Gone },
		},
		{"no state", platform.Filter{States: []platform.State{"no such state'"}}, func(platform.Entry) bool { return false }},
		{"a broker", platform.Filter{Broker: "two"}, func(e platform.Entry) bool { return e.Broker == "two" }},
		{"no broker", platform.Filter{Broker: "tw"}, func(platform.Entry) bool { return false }},
		{"bindings", platform.Filter{Bindings: &yes}, func(e platform.Entry) bool { return e.Key.IsBinding }},
		{"instances", platform.Filter{Bindings: &no}, func(e platform.Entry) bool { return !e.Key.IsBinding }},
		{
			"the bindings of an instance", platform.Filter{Instance: &of},
			func(e platform.Entry) bool { return e.Key.IsBinding && e.Key.Instance == of },
		},
		{"the bindings of no instance", platform.Filter{Instance: &none}, func(platform.Entry) bool { return false }},
		{"instances of an instance", platform.Filter{Instance: &of, Bindings: &no}, func(platform.Entry) bool { return false }},
		{"tries", platform.Filter{First: &third}, func(e platform.Entry) bool { return e.First == third }},
		{"the first try itself", platform.Filter{First: &of}, func(e platform.Entry) bool { return e.First == of }},
		{"tries of a binding", platform.Filter{First: &bound}, func(e platform.Entry) bool { return e.First == bound }},
		{
			"tries at an instance", platform.Filter{First: &third, Instance: &last},
			func(e platform.Entry) bool { return e.First == third && e.Key.IsBinding && e.Key.Instance == last },
		},
		{
			"tries at a broker in two states", platform.Filter{
				First: &third, Broker: "one", Bindings: &no, States: []platform.State{platform.Ordered, platform.Ready},
			},
			func(e platform.Entry) bool {
				return e.First == third && e.Broker == "one" && !e.Key.IsBinding &&
					(e.State == platform.Ordered || e.State == platform.Ready)
			},
		},
	} {
		t.Run(test.name, func(t *testing.T) {
			wantList(t, store, rows, test.filter, test.has)
		})
	}
	for _, prefix := range []string{
		"0", "00000000-0000-4000-8000-0000000", "00000000-0000-4000-8000-00000002",
		"00000000-0000-4000-8000-000000020002", "00000000-0000-4000-8000-000000020002x", "f", "%", "'", "0000000_", "*",
	} {
		wantList(t, store, rows, platform.Filter{Prefix: prefix}, func(e platform.Entry) bool {
			text := e.Key.ID().String()
			return len(text) >= len(prefix) && text[:len(prefix)] == prefix
		})
	}
}

func wantList(
	t *testing.T, store platform.Store, rows []platform.Entry, filter platform.Filter, has func(platform.Entry) bool,
) {
	t.Helper()
	for _, order := range []platform.Ordering{platform.ByState, platform.ByTime, platform.ByKey} {
		sort.Slice(rows, func(i, j int) bool { return before(order, rows[i], rows[j]) })
		want := []platform.Key{}
		for _, row := range rows {
			if has(row) {
				want = append(want, row.Key)
			}
		}
		filter.Order, filter.Latest = order, false
		wantListed(t, store, filter, want)
		filter.Latest = true
		wantListed(t, store, filter, backwards(want))
	}
}

// wantListed fails unless a filter chooses these rows, in this order, all at once and in pages.
func wantListed(t *testing.T, store platform.Store, filter platform.Filter, want []platform.Key) {
	t.Helper()
	got, err := store.List(background, filter)
	diff.NoError(t, err, "%+v", filter)
	wantKeys(t, fmt.Sprintf("%+v", filter), got, want...)
	inPages(t, store, filter, want)
	positions := diff.Value(store.Positions(background, filter))(t)
	diff.Len(t, positions, len(got), "%+v", filter)
	for at, entry := range got {
		want := platform.Position{State: entry.State, Since: entry.Since, Key: entry.Key}
		diff.Equal(t, positions[at], want, "%+v: the position", filter)
	}
}

func backwards(keys []platform.Key) (found []platform.Key) {
	for at := range keys {
		found = append(found, keys[len(keys)-1-at])
	}
	return found
}

// inPages reads a list in pages of three, each behind the last row of the one before.
func inPages(t *testing.T, store platform.Store, filter platform.Filter, want []platform.Key) {
	t.Helper()
	filter.Most = 3
	all := []platform.Entry{}
	for len(all) <= len(want) {
		page := diff.Value(store.List(background, filter))(t)
		diff.AtMost(t, len(page), filter.Most, "%+v", filter)
		all = append(all, page...)
		if len(page) < filter.Most {
			break
		}
		last := page[len(page)-1]
		filter.After = &platform.Position{State: last.State, Since: last.Since, Key: last.Key}
	}
	wantKeys(t, fmt.Sprintf("in pages, %+v", filter), all, want...)
}

// A position needs no row, and a step writes times that a position finds again.
func testPages(t *testing.T, open opener) {
	store := openStore(t, open)
	for n := 0; n < 7; n++ {
		insert(t, store, order(instance(n)))
	}
	for n := 0; n < 7; n++ {
		check(t, store.Change(background, instance(n), Edit(func(e *platform.Entry, now time.Time) {
			e.Since = now
		})))
	}
	all := diff.Value(store.List(background, platform.Filter{}))(t)
	diff.Len(t, all, 7, "List")
	keys := []platform.Key{}
	for _, entry := range all {
		keys = append(keys, entry.Key)
	}
	inPages(t, store, platform.Filter{}, keys)
	for position, want := range map[platform.Position]int{
		{State: "", Since: past(0), Key: instance(0)}:                0,
		{State: platform.Gone, Since: future(0), Key: instance(9)}:   0,
		{State: platform.Ready, Since: past(0), Key: instance(0)}:    7,
		{State: platform.Ordered, Since: past(0), Key: instance(9)}:  0,
		{State: platform.Ordered, Since: future(0)}:                  7,
		{State: platform.Ordered, Since: all[2].Since, Key: keys[2]}: 3,
	} {
		t.Run(fmt.Sprint(position.State, " ", position.Since.UTC(), " ", position.Key), func(t *testing.T) {
			position := position
			rows := diff.Value(store.List(background, platform.Filter{After: &position}))(t)
			wantKeys(t, fmt.Sprintf("after %+v", position), rows, keys[want:]...)
			before := want // the row at a position isn't behind it in either order
			if want > 0 && keys[want-1] == position.Key {
				before--
			}
			rows = diff.Value(store.List(background, platform.Filter{After: &position, Latest: true}))(t)
			wantKeys(t, fmt.Sprintf("before %+v", position), rows, backwards(keys[:before])...)
		})
	}
}

// A moving is a store in which a row changes to another state after each call that lists rows.
type moving struct {
	platform.Store
	move func()
}

func (m moving) List(ctx context.Context, filter platform.Filter) ([]platform.Entry, error) {
	defer m.move()
	return m.Store.List(ctx, filter)
}

func (m moving) Positions(ctx context.Context, filter platform.Filter) ([]platform.Position, error) {
	defer m.move()
	return m.Store.Positions(ctx, filter)
}

func (m moving) ReadAll(ctx context.Context, keys []platform.Key) ([]platform.Entry, error) {
	defer m.move()
	return m.Store.ReadAll(ctx, keys)
}

// Rows change to other states while all are listed, and each that fits the filter all the while is listed once: in a
// walk in each order, and in pages by key.
func testListsWhileRowsMove(t *testing.T, open opener) {
	other := openStore(t, open)
	const count = 40
	states := []platform.State{platform.Ready, platform.Cleaning, platform.Gone, platform.Unsettled, platform.Ready}
	for n := 0; n < count; n++ {
		insert(t, other, in(t, instance(n), states[n%2]))
	}
	moves, moved := 0, map[platform.Key]bool{}
	store := moving{openStore(t, open), func() {
		for n := 0; n < 7; n++ { // here and there in the list, to a position before or behind
			key := instance(moves * 11 % count)
			change(t, other, key, func(it *platform.Change) {
				it.Entry.State, it.Entry.Since = states[moves%5], past(-moves)
			})
			moves++
			moved[key] = true
		}
	}}
	for _, filter := range []platform.Filter{
		{}, {Latest: true}, {Order: platform.ByTime}, {Order: platform.ByKey},
		{States: []platform.State{platform.Ready}}, {States: states, Order: platform.ByKey, Latest: true},
	} {
		moved = map[platform.Key]bool{}
		before := diff.Value(other.List(background, platform.Filter{States: filter.States}))(t)
		seen := map[platform.Key]int{}
		check(t, platform.Walk(background, store, filter, 3, func(rows []platform.Entry) error {
			for _, row := range rows {
				seen[row.Key]++
			}
			return nil
		}))
		wantOnce(t, fmt.Sprintf("a walk, %+v", filter), seen, before, moved, len(filter.States) != 1)
		moved = map[platform.Key]bool{}
		before = diff.Value(other.List(background, platform.Filter{States: filter.States}))(t)
		filter.Order, filter.Most, seen = platform.ByKey, 3, map[platform.Key]int{}
		for rows := make([]platform.Entry, 3); len(rows) == 3; {
			rows = diff.Value(store.List(background, filter))(t)
			for _, row := range rows {
				seen[row.Key]++
				filter.After = &platform.Position{Key: row.Key}
			}
		}
		wantOnce(t, fmt.Sprintf("pages, %+v", filter), seen, before, moved, len(filter.States) != 1)
	}
}

// wantOnce fails unless each row that fits the filter all the while was seen once: those that were there before, and
// those that have moved if isAny is true. No row may be seen twice.
func wantOnce(
	t *testing.T, what string, seen map[platform.Key]int, before []platform.Entry, moved map[platform.Key]bool,
	isAny bool,
) {
	t.Helper()
	diff.AtLeast(t, len(moved), 1, "%s: what has moved", what)
	for _, entry := range before {
		if count := seen[entry.Key]; count > 1 || count == 0 && (isAny || !moved[entry.Key]) {
			t.Errorf("%s: %v: got it %d times, want 1", what, entry.Key, count)
		}
	}
}

// A mover changes the states of rows, again and again.
type mover struct {
	*testing.T
	store platform.Store
	keys  []platform.Key
	moves int
}

// step changes a row to another state, at a time that isn't always later than the one before.
func (m *mover) step(now time.Time, snapshot platform.Snapshot) (*platform.Change, error) {
	states := []platform.State{platform.Ready, platform.Gone, platform.Cleaning, platform.Ready, platform.Polling}
	entry := snapshot.Entry
	for entry.State == snapshot.State {
		entry.State = states[m.moves%len(states)]
		m.moves++
	}
	entry.Since = []time.Time{now, now.Truncate(time.Minute), now.Add(-time.Minute)}[m.moves%3]
	return &platform.Change{Entry: entry}, nil
}

// begin begins the transaction of a step, and returns what ends it.
func (m *mover) begin() (end func()) {
	begun, goOn, done := make(chan bool, 1), make(chan bool), make(chan error)
	key := m.keys[m.moves*7%len(m.keys)]
	go func() {
		done <- m.store.Change(background, key, func(now time.Time, snapshot platform.Snapshot) (*platform.Change, error) {
			begun <- true
			<-goOn
			return m.step(now, snapshot)
		})
	}()
	<-begun
	return func() {
		close(goOn)
		check(m.T, <-done)
	}
}

// A list is read in pages as of a moment, and then back. Meanwhile, rows change their states, and new ones are ordered.
// Each row of the moment is listed once, where it stood then, also if the transaction that changes it began before.
func testListsAsOfAMoment(t *testing.T, open opener) {
	m := &mover{T: t, store: openStore(t, open)}
	for _, row := range insertRows(t, m.store) {
		m.keys = append(m.keys, row.Key)
	}
	yes, no, of, third := true, false, instance(0x20002).Instance, id(3)
	for _, filter := range []platform.Filter{
		{}, {States: []platform.State{platform.Ready}},
		{States: []platform.State{platform.Gone, platform.Ready, platform.Ordered}, Broker: "two"}, {Bindings: &yes},
		{Bindings: &no, States: []platform.State{platform.Cleaning, platform.Polling}}, {Instance: &of}, {First: &third},
		{Prefix: "00000000-0000-4000-8000-0000000"},
	} {
		for _, filter.Order = range []platform.Ordering{platform.ByState, platform.ByTime, platform.ByKey} {
			filter := filter
			filter.Latest = m.moves%2 == 1
			end := m.begin()
			want := diff.Value(m.store.Positions(background, filter))(t)
			filter.AsOf, filter.Most = diff.Value(m.store.Moment(background))(t), 4
			m.wantPages(filter, want, end)
			filter.Latest = !filter.Latest
			for one, other := 0, len(want)-1; one < other; one, other = one+1, other-1 {
				want[one], want[other] = want[other], want[one]
			}
			m.wantPages(filter, want, m.begin())
		}
	}
}

// wantPages fails unless the pages of a list have these positions, besides new rows. After the first one, a transaction is
// ended and a row is inserted, and after each one, rows change.
func (m *mover) wantPages(filter platform.Filter, want []platform.Position, end func()) {
	m.Helper()
	isOld, isNew, got, what := map[platform.Key]bool{}, map[platform.Key]bool{}, want[:0:0], fmt.Sprintf("%+v", filter)
	for _, at := range want {
		isOld[at.Key] = true
	}
	for isLast := false; !isLast; {
		page := diff.Value(m.store.Positions(background, filter))(m.T)
		if filter.After == nil {
			end()
			insert(m.T, m.store, order(instance(0x900000+m.moves)))
		}
		for n := 0; n < 3; n++ {
			check(m.T, m.store.Change(background, m.keys[m.moves*7%len(m.keys)], m.step))
		}
		for n, at := range page {
			if isOld[at.Key] {
				got = append(got, at)
			} else if isNew[at.Key] {
				m.Errorf("%s: the new row %v: got it twice, want it once at most", what, at.Key)
			}
			isNew[at.Key], filter.After = true, &page[n]
		}
		isLast = len(page) < filter.Most
	}
	diff.Check(m.T, got, want, "%s", what)
}

// A text that is no moment of the store is an error.
func testNoMoment(t *testing.T, open opener) {
	store := openStore(t, open)
	moment := diff.Value(store.Moment(background))(t)
	for _, text := range []platform.Moment{"x", "-", "1-x", moment + "x", moment + "-", "99999999999999999999", "1; SELECT 1"} {
		asOf := platform.Filter{AsOf: text}
		diff.ErrorIs(t, diff.Err(store.Positions(background, asOf)), platform.ErrNoMoment, "%q, Positions", text)
		diff.ErrorIs(t, diff.Err(store.List(background, asOf)), platform.ErrNoMoment, "%q, List", text)
	}
}

// Rows are read by their keys, in the order of these, without bodies and credentials. A key without a row is left out.
func testReadAll(t *testing.T, open opener) {
	store := openStore(t, open)
	insert(t, store, full(t, instance(1)), full(t, binding(2, 1)), in(t, instance(3), platform.Gone))
	rows := diff.Value(store.ReadAll(background, []platform.Key{
		instance(3), binding(2, 1), instance(2), binding(1, 1), instance(1), binding(2, 3),
	}))(t)
	wantKeys(t, "all", rows, instance(3), binding(2, 1), instance(1))
	for _, row := range rows {
		want := read(t, store, row.Key)
		want.Body, want.Credentials = nil, nil
		wantEntry(t, row.Key.String(), row, want)
	}
	rows = diff.Value(store.ReadAll(background, nil))(t)
	wantKeys(t, "none", rows)
}

func testCounts(t *testing.T, open opener) {
	first, second := openStore(t, open), openStore(t, open)
	rows := insertRows(t, first)
	wantCounts(t, second, rows)
	moved := 0
	for n := range rows {
		if rows[n].State == platform.Ready {
			rows[n].State, rows[n].Since = platform.Gone, past(n-100)
			change(t, first, rows[n].Key, func(it *platform.Change) { it.Entry = rows[n] })
			moved++
		}
	}
	diff.AtLeast(t, moved, 1, "rows that are ready")
	wantCounts(t, second, rows)
}

func wantCounts(t *testing.T, store platform.Store, rows []platform.Entry) {
	t.Helper()
	type kind struct {
		broker    string
		isBinding bool
		state     platform.State
	}
	want := map[kind]platform.Count{}
	for _, row := range rows {
		key := kind{row.Broker, row.Key.IsBinding, row.State}
		count := want[key]
		if count.Count == 0 || row.Since.Before(count.Oldest) {
			count.Oldest = row.Since
		}
		count.Count++
		want[key] = count
	}
	counts := diff.Value(store.Counts(background))(t)
	for _, count := range counts {
		key := kind{count.Broker, count.IsBinding, count.State}
		if count.Count != want[key].Count || count.Count > 0 && milliseconds(count.Oldest) != milliseconds(want[key].Oldest) {
			t.Errorf("got the count %+v, want %+v", count, want[key])
		}
		delete(want, key)
	}
	diff.Equal(t, len(want), 0, "the counts")
}

func testInFlight(t *testing.T, open opener) {
	store := openStore(t, open)
	insert(t, store,
		order(instance(1)), withLease(order(instance(2)), "one", future(3)),
		withLease(order(binding(1, 1)), "two", future(1)), order(binding(2, 1)),
		withLease(order(instance(3)), "two", past(2)), withLease(order(binding(3, 1)), "one", future(2)),
		withLease(in(t, instance(4), platform.Polling), "one", future(4)))
	want := []platform.Key{instance(3), binding(1, 1), binding(3, 1), instance(2), instance(4)}
	for _, most := range []int{0, 1, 3, 5, 100} {
		rows := diff.Value(store.InFlight(background, most))(t)
		if most > 0 { // what 0 stands for isn't said
			expected := want
			if most < len(want) {
				expected = want[:most]
			}
			wantKeys(t, fmt.Sprint("in flight, at most ", most), rows, expected...)
		}
	}
	rows := diff.Value(store.InFlight(background, 1))(t)
	wantEntry(t, "the first", rows[0], withLease(order(instance(3)), "two", past(2)))
}

// wantTimes compares the time at which something is due, and sees that the time of the store is about now.
func wantTimes(t *testing.T, what string, got, want, now time.Time, err error) {
	t.Helper()
	diff.NoError(t, err, "%s", what)
	diff.Equal(t, milliseconds(got), milliseconds(want), "%s", what)
	if now.Before(time.Now().Add(-deadline)) || now.After(time.Now().Add(deadline)) {
		t.Errorf("%s: got the time %v, want about now", what, now)
	}
}

// A row counts once nobody has leased it. A lease that is over is nobody's.
func testNextDue(t *testing.T, open opener) {
	store := openStore(t, open)
	wantDue := func(what string, of []string, want time.Time) {
		t.Helper()
		got, now, err := store.NextDue(background, of)
		wantTimes(t, what, got, want, now, err)
	}
	wantDue("an empty store", brokers, time.Time{})
	insert(t, store, due(order(instance(1)), time.Time{}), due(order(binding(1, 1)), future(9)))
	wantDue("a binding", brokers, future(9))
	insert(t, store, due(order(instance(2)), future(8)))
	wantDue("an instance", brokers, future(8))
	insert(t, store, withLease(due(order(instance(3)), past(1)), "a worker", future(1)))
	insert(t, store, withLease(due(order(binding(3, 3)), past(1)), "a worker", future(1)))
	wantDue("beside leased rows", brokers, future(8))
	insert(t, store, withLease(due(order(binding(4, 3)), future(7)), "a worker", past(1)))
	wantDue("beside a lease that is over", brokers, future(7))
	another := due(order(instance(5)), past(2))
	another.Broker = "two"
	insert(t, store, another)
	wantDue("of one broker", brokers, future(7))
	wantDue("of another", []string{"two", "three"}, past(2))
	wantDue("of both", []string{"one", "two"}, past(2))
	wantDue("of none", nil, time.Time{})
}

// The oldest row counts by its Due, or by its DueSince. What is leased counts by its DueSince, or once its lease is
// over.
func testOldestDue(t *testing.T, open opener) {
	store := openStore(t, open)
	wantDue := func(what string, want time.Time) {
		t.Helper()
		got, now, err := store.OldestDue(background)
		wantTimes(t, what, got, want, now, err)
	}
	since := func(entry platform.Entry, at time.Time) platform.Entry {
		entry.DueSince = at
		return entry
	}
	wantDue("an empty store", time.Time{})
	insert(t, store, since(due(order(instance(1)), time.Time{}), past(0)), due(order(binding(1, 1)), future(9)))
	wantDue("beside a row that rests", future(9))
	another := due(order(instance(2)), future(8))
	another.Broker = "two"
	insert(t, store, another)
	wantDue("of another broker", future(8))
	insert(t, store, withLease(due(order(instance(3)), past(1)), "a worker", future(7)))
	wantDue("of a leased row", future(7))
	insert(t, store, withLease(due(order(binding(3, 3)), past(9)), "a worker", past(2)))
	wantDue("of a row whose lease is over", past(9))
	insert(t, store, since(withLease(due(order(instance(4)), future(3)), "a worker", future(3)), past(8)))
	wantDue("of an instance that was put off", past(8))
	insert(t, store, since(due(order(binding(4, 3)), future(3)), past(7)))
	wantDue("of a binding that was put off", past(7))
	tricky := order(instance(5))
	tricky.Due, tricky.Last.Description = past(20), `"due_since":1`
	insert(t, store, tricky)
	wantDue("beside a text of a broker", past(7))
	tricky.Key, tricky.Due, tricky.DueSince = instance(6), past(20), past(6)
	insert(t, store, tricky)
	wantDue("with a text of a broker", past(6))
}

// All leases of a worker end, and its rows are due at once.
func testFree(t *testing.T, open opener) {
	store, other := openStore(t, open), openStore(t, open)
	until := future(1)
	mine := []platform.Entry{
		withLease(order(instance(1)), "me", until), withLease(due(order(instance(2)), future(1)), "me", until),
		withLease(in(t, binding(1, 1), platform.Polling), "me", past(1)),
	}
	others := []platform.Entry{
		withLease(order(instance(3)), "m", until), withLease(order(binding(3, 3)), "me too", until),
		order(instance(4)), in(t, instance(5), platform.Ready),
	}
	insert(t, store, append(append([]platform.Entry{}, mine...), others...)...)
	check(t, store.Free(background, "me"))
	for _, want := range mine {
		got := read(t, other, want.Key)
		wantDueNow(t, want.Key.String(), got)
		want.Lease, want.Due = platform.Lease{}, got.Due
		wantEntry(t, want.Key.String(), got, want)
	}
	for _, entry := range others {
		wantEntry(t, entry.Key.String(), read(t, other, entry.Key), entry)
	}
	check(t, store.Free(background, "nobody"))
	diff.Equal(t, len(claim(t, other, brokers, 10, until)), 4, "claimed")
}

// Right returns the right to be a worker, which a store must give, and what is closed once that right is lost.
func Right(t testing.TB, store platform.Store, worker string) (end func(), lost <-chan struct{}) {
	t.Helper()
	end, lost, err := store.Only(background, worker)
	if err != nil || end == nil || lost == nil {
		t.Fatalf("the right to be %s: got %t, %t, %v, want it", worker, end != nil, lost != nil, err)
	}
	return end, lost
}

// NoRight tests that a store says that another has the right to be a worker.
func NoRight(t testing.TB, store platform.Store, worker string) {
	t.Helper()
	if end, _, err := store.Only(background, worker); err != nil || end != nil {
		t.Errorf("the right to be %s: got %t, %v, want none", worker, end != nil, err)
	}
}

// One at a time is the worker of a name, among all stores of the database.
func testOnly(t *testing.T, open opener) {
	first, second := openStore(t, open), openStore(t, open)
	end, lost := Right(t, first, "me")
	NoRight(t, second, "me")
	NoRight(t, first, "me")
	other, _ := Right(t, second, "me-2_.x")
	other()
	select {
	case <-lost:
		t.Error("got the right lost, want it kept")
	default:
	}
	end()
	again, _ := Right(t, second, "me")
	again()
}

// TestUnreadable tests that rows that can't be read hide no other ones. The function spoil makes the record of a row
// one that can't be read. The store is empty at first, and the caller closes it.
func TestUnreadable(t *testing.T, store platform.Store, spoil func(t *testing.T, key platform.Key)) {
	rows := []platform.Entry{
		due(in(t, instance(1), platform.Polling), past(1)), due(in(t, instance(2), platform.Polling), past(2)),
		due(in(t, binding(1, 1), platform.Polling), past(3)), due(in(t, binding(2, 2), platform.Polling), past(4)),
		due(in(t, binding(3, 1), platform.Polling), past(5)),
		withLease(in(t, instance(3), platform.Wanted), "a worker", future(1)), in(t, instance(4), platform.Wanted),
	}
	spoiled := map[platform.Key]bool{instance(2): true, binding(1, 1): true, instance(3): true}
	for n := range rows {
		rows[n].Since = past(n)
		insert(t, store, rows[n])
	}
	for key := range spoiled {
		spoil(t, key)
	}
	wantShown(t, store, rows, spoiled)
	wantNotStepped(t, store, rows[:5], spoiled)
	for key := range spoiled {
		err := store.Change(background, key, func(time.Time, platform.Snapshot) (*platform.Change, error) {
			t.Errorf("%v: got a step, want none", key)
			return nil, nil
		})
		diff.Error(t, err, "%v", key)
	}
	err := store.Insert(background, order(binding(9, 2)), func(platform.Snapshot) error {
		t.Error("an order of a binding: got a check against an instance that can't be read, want none")
		return nil
	})
	diff.Error(t, err, "a binding of an instance that can't be read")
}

// wantShown checks that all rows are read and listed, those that can't be read with the reason.
func wantShown(t *testing.T, store platform.Store, rows []platform.Entry, spoiled map[platform.Key]bool) {
	t.Helper()
	keys := []platform.Key{}
	for _, row := range rows {
		keys = append(keys, row.Key)
	}
	all := diff.Value(store.List(background, platform.Filter{}))(t)
	wantKeys(t, "beside rows that can't be read", all, keys...)
	inPages(t, store, platform.Filter{}, keys)
	flying := diff.Value(store.InFlight(background, 10))(t)
	wantKeys(t, "in flight", flying, instance(3))
	for n, want := range rows {
		for _, got := range []platform.Entry{all[n], read(t, store, want.Key)} {
			diff.Equal(t, got.Unreadable != "", spoiled[want.Key], "%v", want.Key)
			if spoiled[want.Key] { // all else is as it was written
				want.Record, want.IsSent, want.Unreadable = got.Record, false, got.Unreadable
			}
			wantEntry(t, want.Key.String(), got, want)
		}
	}
}

// wantNotStepped claims rows that are due. Those that can't be read, and the bindings of such an instance, have an
// error and are due later, and nothing of them is written.
func wantNotStepped(t *testing.T, store platform.Store, rows []platform.Entry, spoiled map[platform.Key]bool) {
	t.Helper()
	stepped := map[platform.Key]bool{}
	claimed, err := store.Claim(background, brokers, 10,
		Edit(func(e *platform.Entry, _ time.Time) {
			stepped[e.Key] = true
			e.Due = time.Time{}
		}))
	if err != nil || len(claimed) != len(rows) {
		t.Fatalf("got %v claimed, %v, want all rows", claimed, err)
	}
	for _, row := range claimed {
		isSpoiled := spoiled[row.Key] || row.Key.IsBinding && spoiled[osb.InstanceKey(row.Key.Instance)]
		if (row.Err != nil) != isSpoiled || stepped[row.Key] == isSpoiled {
			t.Errorf("%v: got a step %t, %v, want one unless it is spoilt", row.Key, stepped[row.Key], row.Err)
		}
		if row.Err != nil && !strings.Contains(row.Err.Error(), row.Key.Instance.String()) {
			t.Errorf("%v: got %v, want an error that names it", row.Key, row.Err)
		}
		got := read(t, store, row.Key)
		diff.Equal(t, got.Unreadable != "", spoiled[row.Key], "%v", row.Key)
		diff.Equal(t, got.State, platform.Polling, "%v: state", row.Key)
		if isSpoiled && got.Due.Before(time.Now()) {
			t.Errorf("%v: got it due at %v, want it later", row.Key, got.Due)
		}
	}
}
