package sqlite

import (
	"bytes"
	"context"
	"database/sql/driver"
	"encoding/json"
	"errors"
	"fmt"
	"os"
	"path/filepath"
	"strings"
	"sync"
	"syscall"
	"testing"
	"time"

	"github.com/mattn/go-sqlite3"

	"pippinterm/internal/diff"
	"pippinterm/internal/sqlitefile"
	"pippinterm/internal/storefaults"
	"pippinterm/osb"
	"pippinterm/platform"
	"pippinterm/platform/storetest"
)

var (
	background = context.Background()
	service    = osb.MustParseID("00000000-0000-0000-0000-0000000000a0")
	plan       = osb.MustParseID("00000000-0000-0000-0000-0000000000b1")
)

func keyOf(n int) platform.Key {
	return osb.InstanceKey(osb.MustParseID(fmt.Sprintf("00000000-0000-4000-8000-%012x", n)))
}

func open(t testing.TB, path string) *Store {
	t.Helper()
	s := diff.Value(Open(background, path))(t)
	t.Cleanup(func() {
		diff.NoError(t, s.Close(), "")
	})
	return s
}

// executeIn executes statements in a file, with the driver alone.
func executeIn(t *testing.T, path string, statements ...string) {
	t.Helper()
	made := diff.Value((&sqlite3.SQLiteDriver{}).Open("file:" + path))(t)
	defer made.Close()
	for _, statement := range statements {
		diff.Value(made.(*sqlite3.SQLiteConn).Exec(statement, nil))(t)
	}
}

// query is the first column of a query's rows.
func query(t *testing.T, path, query string) (found []string) {
	t.Helper()
	made := diff.Value((&sqlite3.SQLiteDriver{}).Open("file:" + path + "?mode=ro"))(t)
	defer made.Close()
	rows := diff.Value(made.(*sqlite3.SQLiteConn).Query(query, nil))(t)
	defer rows.Close()
	row := make([]driver.Value, len(rows.Columns()))
	for rows.Next(row) == nil {
		found = append(found, fmt.Sprint(row[0]))
	}
	return found
}

// old is the path of a store that version 0.2 has written: testdata has a dump of it, with a row in each state.
func old(t *testing.T) string {
	t.Helper()
	dump := diff.Value(os.ReadFile("testdata/store-0.2.sql"))(t)
	path := filepath.Join(t.TempDir(), "instances.sqlite")
	executeIn(t, path, "PRAGMA journal_mode = WAL", string(dump))
	return path
}

// old03 is the path of a store that version 0.3 has written, with two instances and a binding. It has a broker of each
// name in ofCounts.
func old03(t *testing.T) string {
	t.Helper()
	dump := diff.Value(os.ReadFile("../vault/testdata/store-0.3.sql"))(t)
	path := filepath.Join(t.TempDir(), "instances.sqlite")
	values := ", since, removal, tries, service, plan, further, organization, space, is_own, identity, try, most_tries, " +
		"has_last, is_passing, after_ms"
	rest := fmt.Sprintf(", 1.5, 0, 0, '%s', '%s', '{}', 'o', 's', 0, '', 1, 1, 0, 0, 0", service, plan)
	executeIn(t, path, "PRAGMA journal_mode = WAL", string(dump),
		fmt.Sprintf("INSERT INTO osb_instances (id, broker, state%s) VALUES ('%s', 'shop', 'ordered'%s), "+
			"('%s', 'shop', 'ordered'%s)", values, keyOf(1), rest, keyOf(2), rest),
		fmt.Sprintf("INSERT INTO osb_bindings (instance, id, may_exist, broker, state%s) "+
			"VALUES ('%s', '%s', 0, 'other', 'ordered'%s)", values, keyOf(1), keyOf(3), rest),
		"UPDATE osb_instances SET state = 'withdrawn' WHERE id = '"+keyOf(2).String()+"'")
	return path
}

// counted are the rows of osb_counts, and are compared with the rows that there are.
func counted(t *testing.T, path string) (found []string) {
	t.Helper()
	const kind = "broker || ' ' || is_binding || ' ' || state || ' '"
	found = query(t, path, "SELECT "+kind+" || count FROM osb_counts WHERE count <> 0 ORDER BY 1")
	diff.Check(t, found, query(t, path, "SELECT "+kind+" || count(*) FROM (SELECT broker, 0 AS is_binding, state "+
		"FROM osb_instances UNION ALL SELECT broker, 1, state FROM osb_bindings) GROUP BY broker, is_binding, state "+
		"ORDER BY 1"), "the counts")
	return found
}

// at is a time of the dump, in milliseconds.
func at(ms int64) time.Time { return time.UnixMilli(ms).UTC() }

// oldRows are what becomes of the rows of the dump.
func oldRows() []platform.Entry {
	operations := []string{"task 'five'", "deleting"}
	rows := []platform.Entry{
		{State: platform.Ordered, Since: at(1790000001235), Due: at(1790001003704), Unchanged: 3},
		{State: platform.Ordered, Since: at(1790000004938), Due: at(1790000008642), Removal: platform.Removed,
			Lease: platform.Lease{Worker: "worker-1", Until: at(1790000131111)}},
		{State: platform.Withdrawn, Since: at(1790000013580)},
		{State: platform.Wanted, Since: at(1790000018519), SentUntil: at(1790000078519), Due: at(1790000016049),
			Lease: platform.Lease{Worker: "worker-1", Until: at(1790000137284)}},
		{State: platform.Polling, Since: at(1790000023457), SentUntil: at(1790000082222),
			PolledSince: at(1790000023457), Operation: &operations[0], Due: at(1790000027191), Unchanged: 1,
			Lease: platform.Lease{Worker: "worker-1", Until: at(1790000153333)}},
		{State: platform.Ready, Since: at(1790000029630), SentUntil: at(1790000088395)},
		{State: platform.Ready, Since: at(1790000035802), SentUntil: at(1790000094568), Due: at(1790000038272),
			Removal: platform.Removed, Lease: platform.Lease{Worker: "worker-1", Until: at(1790000160741)}},
		{State: platform.Cleaning, Since: at(1790000043210), SentUntil: at(1790000101975), Due: at(1790000344444),
			Unchanged: 2},
		{State: platform.CleaningPolling, Since: at(1790000051852), SentUntil: at(1790000108148),
			PolledSince: at(1790000051852), Operation: &operations[1], Due: at(1790000058321),
			Lease: platform.Lease{Worker: "worker-1", Until: at(1790000182963)}},
		{State: platform.Gone, Since: at(1790000059259), SentUntil: at(1790000118025)},
		{State: platform.Gone, Since: at(1790000067901), SentUntil: at(1790000124198), Due: at(1790000369136),
			HasLast: true},
		{State: platform.Unsettled, Since: at(1790000074074), SentUntil: at(1790000132840)},
	}
	for n := range rows {
		key := keyOf(n + 1)
		rows[n].IsSent = rows[n].State != platform.Ordered && rows[n].State != platform.Withdrawn
		rows[n].Order = platform.Order{
			Key: key, Broker: "default", Service: service, Plan: plan,
			Names:        platform.Names{Instance: key.String(), Service: service.String(), Plan: plan.String()},
			Organization: "osb-platform", Space: "osb-platform", Body: json.RawMessage("{}"),
			Try: 1, Tries: 1, First: key.Instance,
		}
	}
	rows[0].Body = json.RawMessage(`{"parameters": {"name": "é 'x'"}}`)
	return rows
}

// OpenExisting creates no file and no tables, extends a file of version 0.2, and opens one that is current.
func TestOpenExisting(t *testing.T) {
	missing, empty, bare := filepath.Join(t.TempDir(), "missing"), filepath.Join(t.TempDir(), "empty"),
		filepath.Join(t.TempDir(), "bare")
	check(t, os.WriteFile(empty, nil, 0o600))
	executeIn(t, bare, "PRAGMA journal_mode = WAL", "CREATE TABLE one (one)", "DROP TABLE one")
	for _, path := range []string{missing, empty, bare} {
		diff.ErrorIs(t, diff.Err(OpenExisting(background, path)), platform.ErrNoStore, "%s", path)
	}
	diff.ErrorIs(t, diff.Err(os.Stat(missing)), os.ErrNotExist, "the missing file")
	diff.Equal(t, diff.Value(os.Stat(empty))(t).Size(), 0, "the empty file")
	diff.Equal(t, len(query(t, bare, "SELECT name FROM sqlite_master")), 0, "the file without tables")
	path := old(t)
	for _, tables := range []string{"those of version 0.2", "those of this version"} {
		store, err := OpenExisting(background, path)
		check(t, err)
		diff.Equal(t, len(diff.Value(store.Brokers(background))(t)), 1, "%s", tables)
		diff.NoError(t, store.Close(), "")
	}
}

// A file of version 0.2 is extended, and each of its rows is read.
func TestMigration(t *testing.T) {
	s := open(t, old(t))
	inFlight := map[int]osb.Kind{4: osb.KindProvision, 9: osb.KindPoll}
	for n, want := range oldRows() {
		got := diff.Value(s.Read(background, want.Key))(t)
		kind, isInFlight := inFlight[n+1]
		if !isInFlight {
			kind = osb.KindNone
		}
		if got.IsSent && (platform.StateOf(got.Record) != want.State || got.Record.InFlight() != kind) {
			t.Errorf("%v: got the record %v, want its state and its request", want.Key, got.Record)
		}
		got.Record = osb.Record{}
		diff.Check(t, got, want, "%v", want.Key)
	}
	brokers := diff.Value(s.Brokers(background))(t)
	diff.Len(t, brokers, 1, "")
	if it := brokers[0]; it.Name != "default" || it.URL != "https://broker.example/v0.2" || it.User != "platform" ||
		it.Password != nil || it.PasswordFile != "" || it.Catalogue != nil {
		t.Errorf("the broker: got %+v, want the one of version 0.2", it)
	}
	life, err := s.Life(background, keyOf(9))
	want := []platform.Stay{
		{State: platform.Ordered, Since: at(1790000045679)}, {State: platform.Wanted, Since: at(1790000048148)},
		{State: platform.Cleaning, Since: at(1790000049383)},
	}
	diff.NoError(t, err, "")
	diff.Equal(t, fmt.Sprint(life), fmt.Sprint(want), "")
}

// The rows of version 0.3 are counted by the statements that wrote them, and from now on before each commit. Version 0.3
// rejects the number of the file.
func TestMigrationOf03(t *testing.T) {
	path := old03(t)
	want := []string{"other 1 ordered 1", "shop 0 ordered 1", "shop 0 withdrawn 1"}
	diff.Check(t, counted(t, path), want, "before")
	s := open(t, path)
	diff.Check(t, query(t, path, "SELECT user_version FROM pragma_user_version"), []string{"4"}, "the number of the file")
	diff.Equal(t, len(query(t, path, "SELECT name FROM sqlite_master WHERE type = 'trigger'")), 0, "triggers")
	diff.Check(t, counted(t, path), want, "after")
	withdraw := storetest.Edit(func(e *platform.Entry, _ time.Time) { e.State = platform.Withdrawn })
	check(t, s.Change(background, keyOf(1), withdraw))
	check(t, s.Change(background, osb.BindingKey(keyOf(1).Instance, keyOf(3).Instance), withdraw))
	check(t, withBroker(t, s).Insert(background, order(4), nil))
	diff.Check(t, counted(t, path), []string{"one 0 ordered 1", "other 1 withdrawn 1", "shop 0 withdrawn 2"}, "counts")
}

// What is undone isn't counted, and what one transaction changes twice is counted once.
func TestCounts(t *testing.T) {
	path := filepath.Join(t.TempDir(), "store")
	s := withBroker(t, open(t, path))
	check(t, s.Insert(background, order(1), nil))
	diff.ErrorIs(t, s.Insert(background, order(1), nil), platform.ErrUsed, "")
	insert := func(n int, after error) func(*connection) error {
		return func(c *connection) error { return either(c.insert(order(n)), after) }
	}
	diff.ErrorIs(t, s.write(background, insert(2, errWrong)), errWrong, "a job that fails")
	diff.Check(t, counted(t, path), []string{"one 0 ordered 1"}, "")
	check(t, s.write(background, func(c *connection) error {
		before := order(1)
		wanted := before
		wanted.State = platform.Wanted
		ready := wanted
		ready.State = platform.Ready
		next := order(3)
		return either(c.write(now(), &before, &platform.Change{Entry: wanted, Next: &next}),
			c.write(now(), &wanted, &platform.Change{Entry: ready}))
	}))
	diff.Check(t, counted(t, path), []string{"one 0 ordered 1", "one 0 ready 1"}, "")
	diff.Equal(t, len(query(t, path, "SELECT 1 FROM osb_counts WHERE state = 'wanted'")), 0, "rows that count nothing")
}

// Rows of 0.2 are gone on with, found again in a list, and counted.
func TestMigratedRowsAreUsed(t *testing.T) {
	path := old(t)
	s := open(t, path)
	var position *platform.Position
	for n := 0; n < 12; n++ {
		rows := diff.Value(s.List(background, platform.Filter{After: position, Most: 1}))(t)
		diff.Len(t, rows, 1, "row %d", n)
		position = &platform.Position{State: rows[0].State, Since: rows[0].Since, Key: rows[0].Key}
	}
	diff.Equal(t, len(diff.Value(s.List(background, platform.Filter{After: position, Most: 1}))(t)), 0,
		"behind the last")
	executeIn(t, path, "UPDATE osb_instances SET due = due - 1e9, leased_until = leased_until - 1e9")
	steps := 0
	_, err := s.Claim(background, []string{"default"}, 100,
		storetest.Edit(func(e *platform.Entry, _ time.Time) {
			steps++
			e.Lease, e.Due = platform.Lease{}, time.Time{}
		}))
	diff.NoError(t, err, "")
	diff.Equal(t, steps, 8, "steps")
	counts := diff.Value(s.Counts(background))(t)
	diff.Len(t, counts, 9, "")
	for _, count := range counts {
		isTwice := count.State == platform.Ordered || count.State == platform.Ready || count.State == platform.Gone
		if (count.Count == 2) != isTwice || count.Broker != "default" || count.IsBinding {
			t.Errorf("got the count %+v, want 2 of the one that is there twice", count)
		}
	}
	diff.ErrorIs(t, s.DropBroker(background, "default"), platform.ErrUsed, "")
}

// Version 0.2 compares this URL with its own, and refuses to run.
func TestOldVersionIsKeptOut(t *testing.T) {
	isNew := filepath.Join(t.TempDir(), "new")
	for _, path := range []string{old(t), isNew} {
		open(t, path)
		kept := query(t, path, "SELECT url FROM osb_broker_asked")
		diff.Len(t, kept, 1, "%s: the URLs", path)
		diff.Contains(t, kept[0], "later version", "%s", path)
	}
}

// closeAndRead opens and closes a file, and returns its bytes.
func closeAndRead(t *testing.T, path string) []byte {
	t.Helper()
	s, err := Open(background, path)
	if err == nil {
		err = s.Close()
	}
	check(t, err)
	diff.ErrorIs(t, diff.Err(os.Stat(path+"-wal")), os.ErrNotExist, "a log after Close")
	return diff.Value(os.ReadFile(path))(t)
}

// A file whose tables are current isn't written when it is opened.
func TestOpeningWritesNothing(t *testing.T) {
	for _, path := range []string{old(t), old03(t), filepath.Join(t.TempDir(), "new")} {
		first := closeAndRead(t, path)
		for n := 0; n < 2; n++ {
			diff.Equal(t, bytes.Equal(first, closeAndRead(t, path)), true, "%s is the same after opening", path)
		}
	}
}

// The columns that a file of an earlier version lacks are added when it is opened, with zero values, and are used.
// Here they are some of today's.
func TestMissingColumns(t *testing.T) {
	path := filepath.Join(t.TempDir(), "store")
	first := diff.Value(Open(background, path))(t)
	entry := order(1)
	entry.Dashboard, entry.Because = "https://one.example", "nobody wants it"
	entry.Tries, entry.Passing, entry.After = 3, true, time.Minute
	accept := func(platform.Snapshot) error { return nil }
	check(t, withBroker(t, first).Insert(background, entry, accept))
	check(t, first.Close())
	for _, table := range []string{"osb_instances", "osb_bindings"} {
		for _, column := range []string{"because", "space", "most_tries", "is_passing", "after_ms"} {
			executeIn(t, path, "ALTER TABLE "+table+" DROP COLUMN "+column)
		}
	}
	executeIn(t, path, "ALTER TABLE osb_bindings DROP COLUMN credentials")
	closeAndRead(t, path)
	before := closeAndRead(t, path)
	diff.Equal(t, bytes.Equal(before, closeAndRead(t, path)), true, "the file is the same after opening")
	again := open(t, path)
	got := diff.Value(again.Read(background, entry.Key))(t)
	rest := entry
	rest.Because, rest.Space, rest.Tries, rest.Passing, rest.After = "", "", 0, false, 0
	diff.Check(t, got, rest, "a row without the columns")
	entry.Key = osb.BindingKey(entry.Key.Instance, keyOf(2).Instance)
	entry.Names.Binding, entry.First, entry.Credentials = "binding", entry.Key.Binding, []byte{0, 1}
	check(t, again.Insert(background, entry, accept))
	got = diff.Value(again.Read(background, entry.Key))(t)
	diff.Check(t, got, entry, "a further row")
}

// A column that is added has the type that it has in the tables of version 0.3.
func TestTypesOfColumns(t *testing.T) {
	path := filepath.Join(t.TempDir(), "store")
	open(t, path)
	for _, column := range rowColumns {
		found := query(t, path, "SELECT lower(type) FROM pragma_table_info('osb_bindings') WHERE name = '"+column.Name+"'")
		diff.Check(t, found, []string{typeOf(column)}, "%s", column.Name)
	}
}

// Many that open a file of 0.2 or 0.3 at once extend it once.
func TestMigrationsAtOnce(t *testing.T) {
	for path, rows := range map[string]int{old(t): 12, old03(t): 3} {
		path, rows := path, rows
		var all sync.WaitGroup
		for n := 0; n < 6; n++ {
			all.Add(1)
			go func() {
				defer all.Done()
				s, err := Open(background, path)
				if err != nil {
					t.Errorf("got the error %v, want none", err)
					return
				}
				diff.Equal(t, len(diff.Value(s.List(background, platform.Filter{}))(t)), rows, "rows")
				diff.NoError(t, s.Close(), "")
			}()
		}
		all.Wait()
	}
}

// A migration that fails leaves the file as it was, also if it has done most by then.
func TestMigrationFails(t *testing.T) {
	path := old(t)
	executeIn(t, path, "UPDATE osb_instances SET due = 1e300 WHERE id LIKE '%1'", // in the way of nothing
		"CREATE TABLE osb_readiness (x)")
	schema := "SELECT group_concat(sql) FROM (SELECT sql FROM sqlite_master ORDER BY name)"
	before, rows := query(t, path, schema), query(t, path, "SELECT since FROM osb_instances")
	diff.ErrorContains(t, diff.Err(Open(background, path)), path, "")
	diff.Equal(t, fmt.Sprint(query(t, path, schema)), fmt.Sprint(before), "the tables")
	diff.Equal(t, fmt.Sprint(query(t, path, "SELECT since FROM osb_instances")), fmt.Sprint(rows), "the rows")
}

// A store of a later version, a file of another program and what is no database are rejected, and stay as they are.
func TestForeignFiles(t *testing.T) {
	folder := t.TempDir()
	later, foreign, numbered, text := filepath.Join(folder, "later"), filepath.Join(folder, "foreign"),
		filepath.Join(folder, "numbered"), filepath.Join(folder, "text")
	namesake := filepath.Join(folder, "namesake")
	executeIn(t, namesake, "PRAGMA journal_mode = WAL", "CREATE TABLE osb_instances (id TEXT PRIMARY KEY, plan TEXT)")
	closeAndRead(t, later)
	executeIn(t, later, "PRAGMA user_version = 5")
	executeIn(t, foreign, "PRAGMA journal_mode = WAL", "CREATE TABLE holdings (id TEXT PRIMARY KEY)")
	executeIn(t, numbered, "PRAGMA journal_mode = WAL", "CREATE TABLE x (y)", "PRAGMA user_version = 5")
	check(t, os.WriteFile(text, bytes.Repeat([]byte("a text\n"), 1000), 0o600))
	for path, want := range map[string]error{
		namesake: errForeign,
		later:    errLater, foreign: errForeign, numbered: errForeign, text: nil, folder: nil,
	} {
		t.Run(filepath.Base(path), func(t *testing.T) {
			before, _ := os.ReadFile(path)
			_, err := Open(background, path)
			if err == nil || !strings.Contains(err.Error(), path) || want != nil && !errors.Is(err, want) {
				t.Errorf("%s: got %v, want an error with the path, of the kind %v", path, err, want)
			}
			after, _ := os.ReadFile(path)
			diff.Equal(t, bytes.Equal(before, after), true, "%s is unchanged", path)
		})
	}
}

func TestFileIsForItsOwner(t *testing.T) {
	path := filepath.Join(t.TempDir(), "store")
	open(t, path)
	for _, name := range []string{path, path + "-wal"} {
		diff.Equal(t, diff.Value(os.Stat(name))(t).Mode().Perm(), 0o600, "%s", name)
	}
}

// withBroker is a store with the broker of the orders.
func withBroker(t testing.TB, s *Store) *Store {
	t.Helper()
	check(t, s.AddBroker(background, platform.Broker{Name: "one", URL: "http://one"}))
	return s
}

// order is the row of an order that is due.
func order(n int) platform.Entry {
	key := keyOf(n)
	return platform.Entry{
		Order: platform.Order{
			Key: key, Broker: "one", Service: service, Plan: plan,
			Organization: "o", Space: "s", Body: json.RawMessage(`{}`),
			Names: platform.Names{Instance: key.String(), Service: service.String(), Plan: plan.String()},
			Try:   1, Tries: 1, First: key.Instance,
		},
		State: platform.Ordered, Since: at(1e12), Due: at(1e12 + int64(n)),
	}
}

// A time is written in whole milliseconds. It isn't before the time that was meant, nor is the time of the store.
func TestTimes(t *testing.T) {
	s := withBroker(t, open(t, filepath.Join(t.TempDir(), "store")))
	entry := order(1)
	want := []time.Time{at(1e12), at(1e12 + 1), at(1e12 + 1), at(1e12 + 1)}
	for n, meant := range []time.Time{
		at(1e12), at(1e12).Add(1), at(1e12).Add(time.Millisecond - 1), at(1e12).Add(time.Millisecond),
	} {
		entry.Key, entry.SentUntil = keyOf(n), meant
		check(t, s.Insert(background, entry, nil))
		if got, err := s.Read(background, entry.Key); err != nil || !got.SentUntil.Equal(want[n]) {
			t.Errorf("%v: got %v, %v, want %v", meant, got.SentUntil, err, want[n])
		}
	}
	for n := 0; n < 5; n++ {
		before := time.Now()
		_, now, err := s.NextDue(background, []string{"one"})
		if err != nil || now.Before(before) || now.Nanosecond()%1e6 != 0 {
			t.Errorf("got %v after %v (%v), want a later time in milliseconds", now, before, err)
		}
	}
}

// The lock of a worker is that of version 0.2, so a worker of either excludes one of the other. No name leads
// elsewhere.
func TestOnlyIsTheLockOfOldVersions(t *testing.T) {
	path := filepath.Join(t.TempDir(), "store")
	s := open(t, path)
	file := diff.Value(os.Create(path + ".worker-1.lock"))(t)
	defer file.Close()
	check(t, syscall.Flock(int(file.Fd()), syscall.LOCK_EX))
	storetest.NoRight(t, s, "worker-1")
	for _, name := range []string{"", "../x", "a\x00"} {
		if end, _, err := s.Only(background, name); end != nil || err == nil {
			t.Errorf("%q: got a lock: %t, and the error %v, want only an error", name, end != nil, err)
		}
	}
}

// While a worker of version 0.2 runs, its file isn't extended: it would send what isn't its broker's. Neither is one of
// version 0.3, whose worker would count no rows.
func TestOldWorkerRuns(t *testing.T) {
	for _, path := range []string{old(t), old03(t)} {
		lock, err := lock(path+".worker-1.lock", os.O_CREATE) // that of 0.2
		check(t, err)
		before := diff.Value(os.ReadFile(path))(t)
		diff.ErrorContains(t, diff.Err(Open(background, path)), "worker-1 ", "")
		diff.Equal(t, bytes.Equal(before, diff.Value(os.ReadFile(path))(t)), true, "the file is unchanged")
		unlock(lock)
		end, _ := storetest.Right(t, open(t, path), "worker-1")
		defer end()
		open(t, path) // beside workers of this version
	}
}

// What is asked for often is read from the beginning of an index: it takes as long with many rows as with few.
func TestQueriesUseIndexes(t *testing.T) {
	s := open(t, filepath.Join(t.TempDir(), "store"))
	first := keyOf(1).Instance
	filters := []platform.Filter{
		{}, {Most: 5}, {Broker: "one", Most: 5}, {Instance: &first}, {First: &first}, {Prefix: "0001"},
		{Prefix: "1", Broker: "x"},
		{Most: 5, After: &platform.Position{State: platform.Ready, Since: at(1), Key: keyOf(1)}},
		{Most: 5, Broker: "one", After: &platform.Position{State: platform.Ready, Since: at(1), Key: keyOf(1)}},
	}
	for _, filter := range filters {
		filter.Latest = true
		filters = append(filters, filter)
		filter.AsOf = "-1" // before all
		filters = append(filters, filter)
	}
	for _, filter := range filters {
		diff.Value(s.List(background, filter))(t)
	}
	check(t, s.read(background, func(c *connection) error {
		for query := range c.lists {
			isFew := strings.Contains(query, "+state") || strings.Contains(query, "GROUP BY")
			wantIndexed(t, c, query, strings.Count(query, "?"), isFew)
		}
		for _, count := range []int{1, 3} {
			wantIndexed(t, c, dueText(count), count+3, true)
		}
		wantIndexed(t, c, aheadText(instancesTable, false), 1, false)
		wantIndexed(t, c, aheadText(bindingsTable, true), 1, false)
		others, reading := c.ofOthers(), c.ofReading()
		for statement, values := range map[**sqlitefile.Statement]int{
			&c.freeInstances: 2, &c.freeBindings: 2, &c.removeBindings: 2, &c.wakeInstance: 2, &c.anyBinding: 1,
			&c.stay: 3, &c.life: 1, &c.inFlight: 1, &c.counts: 0,
		} {
			wantIndexed(t, c, others[statement]+reading[statement], values, false)
		}
		return wantOfDue(t, c, reading[&c.oldestDue])
	}))
}

// wantOfDue fails if a query reads rows that rest: the two indexes have none.
func wantOfDue(t *testing.T, c *connection, query string) error {
	t.Helper()
	scans := 0
	err := c.Each("EXPLAIN QUERY PLAN "+query, nil, func(row []driver.Value) error {
		step := fmt.Sprint(row[3])
		if !strings.Contains(step, "SCAN osb_") {
			return nil
		}
		if scans++; !strings.HasSuffix(step, "_to_do") {
			t.Errorf("got %s, want an index of what is to do, in\n%s", step, query)
		}
		return nil
	})
	diff.Equal(t, scans, 2, "scans of\n%s", query)
	return err
}

// wantIndexed fails if a query reads a table or an index from end to end, or sorts what it has read, unless that is
// few. To sort the right part of the order is to sort the rows of one since and one id. Few rows are leased.
func wantIndexed(t *testing.T, c *connection, query string, values int, isFew bool) {
	t.Helper()
	err := c.Each("EXPLAIN QUERY PLAN "+query, make([]driver.Value, values), func(row []driver.Value) error {
		step := fmt.Sprint(row[3])
		isScan := strings.Contains(step, "SCAN osb_") && !strings.Contains(step, "USING INDEX osb_leased_")
		if isScan || !isFew && strings.Contains(step, "TEMP B-TREE FOR ORDER BY") {
			t.Errorf("got %s, want an index and no sort, in\n%s", step, query)
		}
		return nil
	})
	diff.NoError(t, err, "")
}

// A symbolic link in place of a worker's lock isn't followed.
func TestOnlyFollowsNoLink(t *testing.T) {
	folder := t.TempDir()
	path := filepath.Join(folder, "store")
	s := open(t, path)
	check(t, os.Symlink(filepath.Join(folder, "other"), path+".me.lock"))
	if end, _, err := s.Only(background, "me"); end != nil || !errors.Is(err, syscall.ELOOP) {
		t.Errorf("Only: got %v, want %v", err, syscall.ELOOP)
	}
	diff.ErrorIs(t, diff.Err(os.Lstat(filepath.Join(folder, "other"))), os.ErrNotExist, "the link")
}

// That nobody can see whether workers run isn't taken for none: HasWorkers fails, and nothing is migrated.
func TestWorkersThatCannotBeSeen(t *testing.T) {
	folder := filepath.Join(t.TempDir(), "folder")
	check(t, os.Mkdir(folder, 0o700))
	path := filepath.Join(folder, "store")
	s := open(t, path)
	check(t, os.Symlink("other", path+".me"+lockEnd))
	if has, err := s.HasWorkers(background); has || !errors.Is(err, syscall.ELOOP) {
		t.Errorf("a lock that is a link: got %t, %v, want %v", has, err, syscall.ELOOP)
	}
	check(t, os.Rename(folder, folder+"-elsewhere"))
	if has, err := s.HasWorkers(background); has || !errors.Is(err, os.ErrNotExist) {
		t.Errorf("a folder that is gone: got %t, %v, want %v", has, err, os.ErrNotExist)
	}
	check(t, os.Rename(folder+"-elsewhere", folder))
	before := old(t)
	check(t, os.Symlink("other", before+".me"+lockEnd))
	diff.ErrorIs(t, diff.Err(Open(background, before)), syscall.ELOOP, "the file of an older version")
}

// What every store must do if one of its statements fails.
func TestFaults(t *testing.T) {
	folder := diff.Value(os.MkdirTemp("", "osb-sqlite"))(t)
	t.Cleanup(func() { _ = os.RemoveAll(folder) })
	path := func(t *testing.T) string { return filepath.Join(folder, storetest.NameOf(t)) }
	storetest.TestFaults(t, storetest.Faulty{
		Open: func(t *testing.T) (platform.Store, *storefaults.Countdown) {
			by := &storefaults.Driver{}
			store := diff.Value(openAt(background, path(t), by, migrate))(t)
			t.Cleanup(func() { counted(t, path(t)) })
			return store, &by.Countdown
		},
		Beside: func(t *testing.T) platform.Store {
			return diff.Value(Open(background, path(t)))(t)
		},
		Empty: func(t *testing.T) {
			executeIn(t, path(t), "DELETE FROM osb_instances; DELETE FROM osb_bindings; DELETE FROM osb_lives; "+
				"DELETE FROM osb_brokers; DELETE FROM osb_counts; UPDATE osb_store SET fingerprint = NULL")
		},
		Spoil: func(t *testing.T, broker string) {
			executeIn(t, path(t), "UPDATE osb_brokers SET settings = 'x' WHERE name = '"+broker+"'")
		},
		Faults:  []storefaults.Fault{storefaults.Refused, storefaults.Lost},
		Without: []string{"Only", "HasWorkers"}, // they lock files
	})
}

// Each statement of Open and OpenExisting fails once, over a new file and over those of versions 0.2 and 0.3: the error
// is returned, and the file can be opened later.
func TestOpeningThatFails(t *testing.T) {
	for _, path := range []string{filepath.Join(t.TempDir(), "store"), old(t), old03(t)} {
		for _, bring := range []func(context.Context, *sqlitefile.Conn, string) error{migrate, migrateExisting} {
			for n, failed := 1, "none yet"; failed != ""; n++ {
				by := &storefaults.Driver{}
				by.Fail(n, storefaults.Refused)
				store, err := openAt(background, path, by, bring)
				failed = by.FailedStatement()
				if failed != "" && !errors.Is(err, storefaults.ErrFault) || failed == "" && err != nil {
					t.Errorf("%q has failed: got %v, want an error exactly then", failed, err)
				}
				if err == nil {
					_ = store.Close()
				}
			}
		}
		open(t, path)
	}
}

var check = diff.Must
