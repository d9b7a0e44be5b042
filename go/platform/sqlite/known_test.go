package sqlite

import (
	"context"
	"errors"
	"path/filepath"
	"reflect"
	"testing"
	"time"

	"pippinterm/internal/diff"
	"pippinterm/internal/sqlitefile"
	"pippinterm/internal/storefaults"
	"pippinterm/internal/waits"
	"pippinterm/osb"
	"pippinterm/platform"
	"pippinterm/platform/storetest"
)

// fullEntry is an entry of which each member has a value that its column changes, if there is one.
func fullEntry(t *testing.T, key platform.Key) platform.Entry {
	t.Helper()
	operation, at := "op", time.Now().Add(123456*time.Nanosecond)
	e := order(0)
	e.Key, e.First = key, key.ID()
	e.Names = platform.Names{Instance: key.Instance.String(), Service: service.String(), Plan: plan.String()}
	e.Record, _ = osb.Create(key.ID(), service, plan, true)
	e.IsSent, e.State, e.Since, e.Operation, e.SentUntil, e.PolledSince = true, platform.Wanted, at, &operation, at, at
	e.Removal, e.HasLast, e.Due, e.DueSince, e.Unchanged = platform.Removed, true, at, at, 7
	e.Lease, e.Number = platform.Lease{Worker: "w", Until: at}, osb.MustParseID("00000000-0000-0000-0000-000000000077")
	e.Last = platform.Reason{At: at, Kind: "poll", Status: 200, Error: "E<", Description: "d\u2028", Lost: "l"}
	e.Failure = platform.Reason{At: at, Kind: "provision", Lost: "it's late"}
	e.Passing, e.After, e.Dashboard, e.Because = true, 1234567*time.Nanosecond, "https://d", "b\x00"
	e.Metadata = []byte(`{"labels": {}}`)
	return e
}

// An entry that was written is known exactly as it is read.
func TestKnownRowsAreThoseThatAreRead(t *testing.T) {
	s := withBroker(t, open(t, filepath.Join(t.TempDir(), "store")))
	full := fullEntry(t, keyOf(0))
	unsent, unleased, unsaid := full, full, full
	unsent.IsSent = false
	unleased.Lease.Worker = ""
	unsaid.Last, unsaid.DueSince, unsaid.Lease = platform.Reason{}, time.Time{}, platform.Lease{}
	empty := order(0)
	empty.Due = full.Due
	for n, test := range []struct {
		name  string
		entry platform.Entry
	}{{"full", full}, {"not sent", unsent}, {"no lease", unleased}, {"nothing said", unsaid}, {"an order", empty}} {
		n, test := n, test
		t.Run(test.name, func(t *testing.T) {
			key, ordered := keyOf(n), order(n)
			check(t, s.Insert(background, ordered, nil))
			test.entry.Order = ordered.Order
			write(t, s, key, test.entry)
			var known, read platform.Entry
			check(t, s.write(background, func(c *connection) (err error) {
				if it := c.known.Of(key); it != nil {
					known = *it
				}
				read, err = readBy(c.of(key).read, entryOf, key)
				return err
			}))
			if !reflect.DeepEqual(known, read) {
				t.Errorf("got the row %+v, want %+v", known, read)
			}
		})
	}
}

// write writes an entry.
func write(t *testing.T, s *Store, key platform.Key, entry platform.Entry) {
	t.Helper()
	check(t, s.Change(background, key, func(time.Time, platform.Snapshot) (*platform.Change, error) {
		return &platform.Change{Entry: entry}, nil
	}))
}

// A row that JSON doesn't have as it is, one that is long, and one that rests are read again.
func TestRowsThatAreNotKnown(t *testing.T) {
	s := withBroker(t, open(t, filepath.Join(t.TempDir(), "store")))
	for n, change := range []func(*platform.Entry){
		func(e *platform.Entry) { e.Last.Description = "\xff" },
		func(e *platform.Entry) { e.Failure.Lost = "\xff" },
		func(e *platform.Entry) { e.Metadata = make([]byte, longestKnown) },
		func(e *platform.Entry) { e.Due = time.Time{} },
	} {
		check(t, s.Insert(background, order(n), nil))
		entry := fullEntry(t, keyOf(n))
		write(t, s, keyOf(n), entry)
		diff.Equal(t, knows(t, s, keyOf(n)), true, "row %d, before", n)
		change(&entry)
		write(t, s, keyOf(n), entry)
		diff.Equal(t, knows(t, s, keyOf(n)), false, "row %d", n)
	}
}

func knows(t *testing.T, s *Store, key platform.Key) (isKnown bool) {
	t.Helper()
	check(t, s.write(background, func(c *connection) error {
		isKnown = c.known.Of(key) != nil
		return nil
	}))
	return isKnown
}

var errWrong = errors.New("wrong")

// What another connection has written is read, and so is what a transaction has undone, or has changed beside its row.
func TestKnownRowsAreForgotten(t *testing.T) {
	path := filepath.Join(t.TempDir(), "store")
	s := withBroker(t, open(t, path))
	binding := osb.BindingKey(keyOf(0).Instance, osb.ID{1})
	bound := order(0)
	bound.Key, bound.First, bound.Names.Binding = binding, binding.ID(), binding.Binding.String()
	check(t, s.Insert(background, order(0), nil))
	check(t, s.Insert(background, bound, nil))
	entries := map[platform.Key]platform.Entry{keyOf(0): fullEntry(t, keyOf(0)), binding: fullEntry(t, binding)}
	for key, entry := range entries {
		entry.Due, entry.Lease.Until = at(1e12), at(1e12) // so that it is claimed
		entries[key] = entry
	}
	change := func(c *connection) error {
		before := entries[keyOf(0)]
		changed := before
		changed.Because = "lost"
		return c.write(now(), &before, &platform.Change{Entry: changed})
	}
	for name, test := range map[string]struct {
		key  platform.Key
		call func()
	}{
		"another connection": {keyOf(0), func() { executeIn(t, path, "UPDATE osb_instances SET because = 'x'") }},
		"Free":               {keyOf(0), func() { check(t, s.Free(background, "w")) }},
		"a job that fails": {keyOf(0), func() {
			err := s.write(background, func(c *connection) error { return either(change(c), errWrong) })
			diff.ErrorIs(t, err, errWrong, "")
		}},
		"SQLite has rolled back": {keyOf(0), func() {
			err := s.write(background, func(c *connection) error { return either(change(c), c.Exec("ROLLBACK")) })
			diff.ErrorIs(t, err, sqlitefile.ErrBroken, "")
		}},
		"its step fails": {keyOf(0), func() {
			fail := func(time.Time, platform.Snapshot) (*platform.Change, error) { return nil, errWrong }
			claimed := diff.Value(s.Claim(background, []string{"one"}, 2, fail))(t)
			diff.Len(t, claimed, 2, "claimed")
		}},
		"its bindings are removed": {binding, func() {
			check(t, s.Change(background, keyOf(0), func(time.Time, platform.Snapshot) (*platform.Change, error) {
				return &platform.Change{Entry: entries[keyOf(0)], RemoveBindings: true}, nil
			}))
		}},
		"it is woken": {keyOf(0), func() {
			check(t, s.Change(background, binding, func(time.Time, platform.Snapshot) (*platform.Change, error) {
				return &platform.Change{Entry: entries[binding], WakeInstance: true}, nil
			}))
		}},
	} {
		t.Run(name, func(t *testing.T) {
			for key, entry := range entries {
				write(t, s, key, entry)
			}
			diff.Equal(t, knows(t, s, test.key), true, "before")
			test.call()
			diff.Equal(t, knows(t, s, test.key), false, "after")
		})
	}
}

func either(one, other error) error {
	if one != nil {
		return one
	}
	return other
}

// insertBound inserts an instance and a binding of it, which are due one after another.
func insertBound(t *testing.T, s *Store) (instance, binding platform.Key) {
	t.Helper()
	instance, binding = keyOf(1), osb.BindingKey(keyOf(1).Instance, osb.ID{1})
	bound := order(2)
	bound.Key, bound.First, bound.Names.Binding = binding, binding.ID(), binding.Binding.String()
	check(t, s.Insert(background, order(1), nil))
	check(t, s.Insert(background, bound, nil))
	return instance, binding
}

// A step sees what an earlier step of the same claim has changed, though its row was read before that.
func TestStepsOfOneClaim(t *testing.T) {
	for _, test := range []struct {
		name           string
		instance       platform.Entry // what it is changed to
		removeBindings bool
		binding        func(snapshot platform.Snapshot) bool // whether the snapshot of the binding is right
	}{
		{"the instance", platform.Entry{State: platform.Wanted, Since: at(1e12), Due: at(1e12), Because: "a step"}, false,
			func(it platform.Snapshot) bool { return it.Instance.Because == "a step" }},
		{"an instance that isn't known", platform.Entry{State: platform.Wanted, Since: at(1e12), Because: "a step"}, false,
			func(it platform.Snapshot) bool { return it.Instance.Because == "a step" }},
		{"the binding", platform.Entry{State: platform.Wanted, Since: at(1e12), Due: at(1e12)}, true,
			func(it platform.Snapshot) bool { return it.Entry.Removal == platform.Removed }},
	} {
		t.Run(test.name, func(t *testing.T) {
			s := withBroker(t, open(t, filepath.Join(t.TempDir(), "store")))
			instance, binding := insertBound(t, s)
			var seen []platform.Key
			step := func(_ time.Time, snapshot platform.Snapshot) (*platform.Change, error) {
				seen = append(seen, snapshot.Entry.Key)
				if !snapshot.Entry.Key.IsBinding {
					return &platform.Change{Entry: test.instance, RemoveBindings: test.removeBindings}, nil
				}
				diff.Equal(t, test.binding(snapshot), true, "the snapshot %+v is of the changed row", snapshot)
				return nil, nil
			}
			claimed := diff.Value(s.Claim(background, []string{"one"}, 2, step))(t)
			diff.Check(t, claimed, []platform.ClaimedRow{{Key: instance}, {Key: binding}}, "claimed")
			diff.Check(t, seen, []platform.Key{instance, binding}, "stepped")
		})
	}
}

// A queued context has its channel closed once a job of the context waits among others: Write looks at the end of the
// context before that and after it.
type queued struct {
	context.Context
	calls int
	is    chan struct{}
}

func (q *queued) Done() <-chan struct{} {
	if q.calls++; q.calls == 2 {
		close(q.is)
	}
	return nil
}

// A claim that is done again, because another job of its transaction has failed after it had written, returns each row
// once.
func TestClaimThatIsDoneAgain(t *testing.T) {
	s := withBroker(t, open(t, filepath.Join(t.TempDir(), "store")))
	instance, binding := insertBound(t, s)
	begun, gate := make(chan struct{}), make(chan struct{})
	holding := waits.Begin(func() error {
		return s.write(background, func(*connection) error {
			close(begun)
			<-gate
			return nil
		})
	})
	<-begun
	steps, claimed := 0, []platform.ClaimedRow(nil)
	step := storetest.Edit(func(*platform.Entry, time.Time) { steps++ })
	first := &queued{Context: background, is: make(chan struct{})}
	second := &queued{Context: background, is: make(chan struct{})}
	claiming := waits.Begin(func() (err error) {
		claimed, err = s.Claim(first, []string{"one"}, 2, step)
		return err
	})
	waits.For(t, first.is, "the claim waits")
	failing := waits.Begin(func() error {
		return s.write(second, func(c *connection) error {
			_, err := c.ready.Run(int64(1))
			return either(err, errWrong)
		})
	})
	waits.For(t, second.is, "the job that fails waits")
	close(gate)
	diff.NoError(t, <-holding, "the job before them")
	diff.ErrorIs(t, <-failing, errWrong, "the job that fails")
	diff.NoError(t, <-claiming, "the claim")
	diff.Equal(t, steps, 4, "steps of two rows, done twice")
	diff.Check(t, claimed, []platform.ClaimedRow{{Key: instance}, {Key: binding}}, "claimed")
}

// A row that was read for a claim is read again once a step has woken it, and in the next transaction.
func TestReadAheadIsForgotten(t *testing.T) {
	s := withBroker(t, open(t, filepath.Join(t.TempDir(), "store")))
	instance, binding := insertBound(t, s)
	check(t, s.write(background, func(c *connection) error {
		c.known.ahead[instance], c.known.ahead[keyOf(2)] = &platform.Entry{}, &platform.Entry{}
		before, err := c.entry(binding)
		err = either(err, c.write(now(), before, &platform.Change{Entry: *before, WakeInstance: true}))
		diff.Equal(t, c.known.of(instance) == nil, true, "the instance is read again")
		return err
	}))
	check(t, s.write(background, func(c *connection) error {
		diff.Equal(t, len(c.known.ahead), 0, "rows of an earlier transaction")
		return nil
	}))
}

// Rows that aren't known are read by one query for a claim, also long ones. One that can't be read fails alone.
func TestReadAhead(t *testing.T) {
	s, m := openMetered(t)
	withBroker(t, s)
	const rows = 20
	for n := 0; n < rows; n++ {
		entry := order(n)
		entry.Body = make([]byte, longestKnown)
		check(t, s.Insert(background, entry, nil))
	}
	statements := m.statements(t)
	steps := 0
	step := func(time.Time, platform.Snapshot) (*platform.Change, error) { steps++; return nil, nil }
	diff.Value(s.Claim(background, []string{"one"}, rows, step))(t)
	diff.Equal(t, steps, rows, "steps")
	diff.Equal(t, m.statements(t)-statements, 2, "statements")
}

// Each row of the query of a claim fails once: its claim has the error, and the others are claimed. If it fails behind the
// last row, that one fails.
func TestReadAheadThatFails(t *testing.T) {
	by := &storefaults.Driver{}
	s := withBroker(t, diff.Value(openAt(background, filepath.Join(t.TempDir(), "store"), by, migrate))(t))
	defer s.Close()
	const rows = 3
	for n := 0; n < rows; n++ {
		check(t, s.Insert(background, order(n), nil))
	}
	for failing, want := range []int{0, 0, 1, 2, 2} {
		var stepped []platform.Key
		check(t, s.write(background, func(c *connection) error {
			var claimed []platform.ClaimedRow
			due, err := c.keysDue([]string{"one"}, seconds(now()), seconds(now()), rows)
			for _, it := range due {
				claimed = append(claimed, platform.ClaimedRow{Key: it.key})
			}
			by.Fail(failing+1, storefaults.Refused)
			c.readAhead(due, claimed)
			by.Fail(0, storefaults.Refused)
			for n, row := range claimed {
				diff.Equal(t, errors.Is(row.Err, storefaults.ErrFault), n == want, "statement %d, row %d: failed", failing, n)
				if c.known.of(row.Key) != nil {
					stepped = append(stepped, row.Key)
				}
			}
			return err
		}))
		diff.AtLeast(t, len(stepped), rows-1, "rows that are read")
	}
}

// If SQLite rolls back because a row can't be read for a claim, no other row is stepped, and nothing is written.
func TestReadingThatRollsBack(t *testing.T) {
	s := withBroker(t, open(t, filepath.Join(t.TempDir(), "store")))
	instance, _ := insertBound(t, s)
	diff.Value(s.Fingerprint(background, "x"))(t)
	check(t, s.write(background, func(c *connection) (err error) {
		c.bindings.readAhead, err = c.Prepare(background, "INSERT OR ROLLBACK INTO osb_store VALUES (1, ?)")
		return err
	}))
	_, err := s.Claim(background, []string{"one"}, 2, storetest.Edit(func(e *platform.Entry, _ time.Time) {
		t.Errorf("got a step of %v, want none", e.Key)
		e.Because = "it was stepped"
	}))
	diff.ErrorIs(t, err, sqlitefile.ErrBroken, "")
	diff.ErrorContains(t, err, "UNIQUE", "")
	diff.Equal(t, diff.Value(s.Read(background, instance))(t).Because, "", "")
}

// A row that is kept stands before one that was read ahead.
func TestKnownRowIsTheOneWrittenLast(t *testing.T) {
	s := withBroker(t, open(t, filepath.Join(t.TempDir(), "store")))
	check(t, s.write(background, func(c *connection) error {
		entry := fullEntry(t, keyOf(0))
		c.known.ahead[entry.Key] = &platform.Entry{}
		c.known.keep(&entry)
		diff.Equal(t, c.known.of(entry.Key) == &entry, true, "the row that was written last")
		diff.Equal(t, len(c.known.ahead), 0, "rows as they were read before")
		return nil
	}))
}

// A table has few statements that set columns. Once it has all, the next set of columns is written with all others.
func TestFewStatementsSetColumns(t *testing.T) {
	s := withBroker(t, open(t, filepath.Join(t.TempDir(), "store")))
	before := fullEntry(t, keyOf(0))
	check(t, s.write(background, func(c *connection) error {
		table := newTable(instancesTable, instanceKey, false)
		for n := 0; n < 2*mostUpdates; n++ {
			after := before
			for at, flip := range []func(){
				func() { after.State = platform.Gone }, func() { after.Since = time.Time{} }, func() { after.Operation = nil },
				func() { after.Due = time.Time{} }, func() { after.Unchanged = 0 }, func() { after.HasLast = false },
				func() { after.Because = "" },
			} {
				if n>>at&1 == 1 {
					flip()
				}
			}
			update, err := table.update(c.Conn, &before, &after)
			if err != nil || update.statement == nil {
				return err
			}
			if n > mostUpdates {
				diff.Len(t, update.columns, len(table.state), "set %d", n)
			}
		}
		diff.Len(t, table.state, len(stateColumns.Of(false)), "")
		diff.Equal(t, len(table.updates), mostUpdates+1, "statements")
		return nil
	}))
}

// If no statement can be prepared, nothing is written.
func TestAStatementThatCannotBePrepared(t *testing.T) {
	s := withBroker(t, open(t, filepath.Join(t.TempDir(), "store")))
	check(t, s.Insert(background, order(0), nil))
	entry := fullEntry(t, keyOf(0))
	err := s.write(background, func(c *connection) error {
		name := c.instances.name
		defer func() { c.instances.name = name }()
		c.instances.name = "osb_none"
		before := order(0)
		return c.write(now(), &before, &platform.Change{Entry: entry})
	})
	diff.ErrorContains(t, err, "osb_none", "")
	diff.Equal(t, diff.Value(s.Read(background, keyOf(0)))(t).State, platform.Ordered, "")
}
