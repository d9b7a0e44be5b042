package sqlite

import (
	"context"
	"database/sql/driver"
	"errors"
	"fmt"
	"os"
	"path/filepath"
	"strings"
	"sync"
	"sync/atomic"
	"testing"
	"time"

	"github.com/mattn/go-sqlite3"

	"pippinterm/broker"
	"pippinterm/broker/storetest"
	"pippinterm/internal/diff"
	"pippinterm/internal/storefaults"
	"pippinterm/internal/waits"
	"pippinterm/osb"
)

var (
	service = osb.MustParseID("00000000-0000-0000-0000-0000000000a0")
	plan    = osb.MustParseID("00000000-0000-0000-0000-0000000000b1")
)

func keyOf(n int) broker.Key {
	return osb.InstanceKey(osb.MustParseID(fmt.Sprintf("00000000-0000-4000-8000-%012x", n)))
}

func open(t *testing.T, path string, observer broker.Observer) *Store {
	t.Helper()
	s := diff.Value(Open(context.Background(), path, observer))(t)
	t.Cleanup(func() {
		diff.NoError(t, s.Close(), "")
	})
	return s
}

// provision is the Step of a Provision that begins.
func provision(key broker.Key) broker.Step {
	return func(snapshot broker.Snapshot) (*broker.Entry, error) {
		request := osb.Request{Kind: osb.KindProvision, ID: key.Instance, Service: service, Plan: plan}
		next, _, err := snapshot.Holding.Begin(osb.ModeSync, request, osb.Rules{})
		return &broker.Entry{Holding: next}, err
	}
}

// commitRecorder notes how many changes each commit has written.
type commitRecorder struct {
	broker.Silent
	commits []int
}

func (o *commitRecorder) OnCommit(changes int) { o.commits = append(o.commits, changes) }

// A countedContext counts how often somebody is about to wait for it. A change that is to be written waits twice: for a
// slot in the queue, and for the commit.
type countedContext struct {
	context.Context
	waits *atomic.Int64
}

func (c countedContext) Done() <-chan struct{} {
	c.waits.Add(1)
	return c.Context.Done()
}

// Of changes that are written together, one that fails, panics or is cancelled harms no other. One commit writes all.
func TestOneFails(t *testing.T) {
	seen := &commitRecorder{}
	s := open(t, filepath.Join(t.TempDir(), "store"), seen)
	blocked, release := make(chan struct{}), make(chan struct{})
	var all sync.WaitGroup
	all.Add(1)
	go func() { // while this one holds the writer, the others gather
		defer all.Done()
		_ = s.Change(context.Background(), keyOf(0), func(broker.Snapshot) (*broker.Entry, error) {
			close(blocked)
			<-release
			return nil, nil
		})
	}()
	<-blocked
	wrong, given := errors.New("wrong"), make([]error, 41)
	going, cancel := context.WithCancel(context.Background())
	defer cancel()
	steps := []struct {
		ctx  context.Context
		step func(broker.Key) broker.Step
	}{
		{context.Background(), func(broker.Key) broker.Step {
			return func(broker.Snapshot) (*broker.Entry, error) { return &broker.Entry{}, wrong }
		}},
		{context.Background(), func(broker.Key) broker.Step {
			return func(broker.Snapshot) (*broker.Entry, error) { panic("a bug") }
		}},
		{going, provision},
		{context.Background(), provision},
	}
	var waiting atomic.Int64
	for n := 1; n <= 40; n++ {
		all.Add(1)
		go func(n int) {
			defer all.Done()
			it := steps[n%4]
			given[n] = s.Change(countedContext{it.ctx, &waiting}, keyOf(n), it.step(keyOf(n)))
		}(n)
	}
	waits.Until(t, "all changes wait for one commit", func() bool { return waiting.Load() == 2*40 })
	cancel()
	close(release)
	all.Wait()
	for n := 1; n <= 40; n++ {
		isRight := []bool{
			given[n] == wrong,
			given[n] != nil && strings.Contains(given[n].Error(), "a bug"),
			given[n] == context.Canceled,
			given[n] == nil,
		}[n%4]
		snapshot := diff.Value(s.Read(context.Background(), keyOf(n)))(t)
		if _, isWritten := snapshot.Holding.Work(); !isRight || isWritten != (n%4 == 3) {
			t.Errorf("change %d: got the error %v and %v, want each fourth written", n, given[n], snapshot.Holding)
		}
	}
	// nobody waits for a change that was cancelled, so it needn't be a part of the commit
	if len(seen.commits) != 2 || seen.commits[0] != 1 || seen.commits[1] < 30 || seen.commits[1] > 40 {
		t.Errorf("the commits: got %v changes written, want 1 and 30 to 40", seen.commits)
	}
}

// If the transaction itself fails, nothing is reported as written, and the next one is written.
func TestTransactionFails(t *testing.T) {
	s := open(t, filepath.Join(t.TempDir(), "store"), broker.Silent{})
	var writer *connection
	err := s.file.Write(context.Background(), func(c *connection) error {
		writer = c
		return nil
	})
	check(t, err)
	broken := s.Change(context.Background(), keyOf(1), func(snapshot broker.Snapshot) (*broker.Entry, error) {
		diff.NoError(t, writer.exec("ROLLBACK"), "") // as SQLite does of itself if the disk is full
		return provision(keyOf(1))(snapshot)
	})
	diff.Error(t, broken, "a commit that failed")
	diff.NoError(t, s.Change(context.Background(), keyOf(2), provision(keyOf(2))), "")
	diff.Equal(t, diff.Value(s.Read(context.Background(), keyOf(1)))(t).Holding.IsHeld(), false, "held")
}

// A change isn't reported before its commit: another connection reads it then.
func TestTellsAfterCommit(t *testing.T) {
	path := filepath.Join(t.TempDir(), "store")
	s, other := open(t, path, broker.Silent{}), open(t, path, broker.Silent{})
	for n := 0; n < 50; n++ {
		check(t, s.Change(context.Background(), keyOf(n), provision(keyOf(n))))
		diff.Equal(t, diff.Value(other.Read(context.Background(), keyOf(n)))(t).Holding.IsHeld(), true, "%d", n)
	}
}

// A file of version 0.2 is read and extended.
func TestMigration(t *testing.T) {
	path := filepath.Join(t.TempDir(), "store")
	made := diff.Value((&sqlite3.SQLiteDriver{}).Open("file:" + path))(t)
	old := made.(*sqlite3.SQLiteConn)
	for _, statement := range []string{
		"CREATE TABLE holdings (id TEXT PRIMARY KEY, holding TEXT NOT NULL, unfinished INTEGER NOT NULL) WITHOUT ROWID",
		"CREATE INDEX unfinished_holdings ON holdings (id) WHERE unfinished",
		"CREATE TABLE workers (id TEXT PRIMARY KEY, worker INTEGER NOT NULL) WITHOUT ROWID",
		"CREATE TABLE store (one INTEGER PRIMARY KEY CHECK (one = 1), name TEXT NOT NULL, " +
			"is_tied INTEGER NOT NULL DEFAULT 0)",
		"INSERT INTO store VALUES (1, 'a store', 1)",
	} {
		diff.Value(old.Exec(statement, nil))(t)
	}
	texts := []string{
		`{"marked":false,"row":{"phase":"ready","plan":"` + plan.String() + `","service":"` + service.String() +
			`"},"version":1,"work":null}`,
		`{"marked":true,"row":null,"version":1,"work":null}`,
	}
	for n, text := range texts {
		values := []driver.Value{keyOf(n).String(), text, false}
		diff.Value(old.Exec("INSERT INTO holdings VALUES (?, ?, ?)", values))(t)
	}
	check(t, old.Close())
	s := open(t, path, broker.Silent{})
	first, err := s.Read(context.Background(), keyOf(0))
	row, isHeld := first.Holding.Row()
	if err != nil || !isHeld || row != (osb.BrokerRow{Service: service, Plan: plan, Phase: osb.PhaseReady}) {
		t.Errorf("got %v and the error %v, want the row that is ready", first, err)
	}
	diff.Equal(t, diff.Value(s.Read(context.Background(), keyOf(1)))(t).Holding.HasTombstone(), true, "a tombstone")
	diff.Equal(t, diff.Value(s.Name(context.Background()))(t), "a store", "")
	diff.Equal(t, diff.Value(s.Stats(context.Background()))(t), (broker.Stats{Tombstones: 1}), "")
}

// A file that isn't a database, or one of another program, is an error that names it.
func TestNoStore(t *testing.T) {
	folder := t.TempDir()
	foreign := filepath.Join(folder, "foreign")
	made := diff.Value((&sqlite3.SQLiteDriver{}).Open("file:" + foreign))(t)
	diff.Value(made.(*sqlite3.SQLiteConn).Exec("CREATE TABLE bindings (x)", nil))(t)
	check(t, made.Close())
	for _, path := range []string{folder, foreign} {
		diff.ErrorContains(t, diff.Err(Open(context.Background(), path, broker.Silent{})), path, "")
	}
}

// A row that can't be read is listed with the others that are unfinished, and keeps none of them from being counted.
func TestUnreadableRow(t *testing.T) {
	s := open(t, filepath.Join(t.TempDir(), "store"), broker.Silent{})
	ctx := context.Background()
	for n := 1; n <= 2; n++ {
		check(t, s.Change(ctx, keyOf(n), provision(keyOf(n))))
	}
	err := s.file.Write(ctx, func(c *connection) error {
		return c.exec("UPDATE holdings SET holding = '{}' WHERE id = ?", keyOf(1).String())
	})
	check(t, err)
	diff.Equal(t, len(diff.Value(s.UnfinishedKeys(ctx))(t)), 2, "")
	diff.Equal(t, diff.Value(s.Stats(ctx))(t).Pending, 1, "")
}

// The number of tombstones that was counted less than a minute ago counts, and then they are counted again.
func TestTombstonesAreCountedAgain(t *testing.T) {
	s := open(t, filepath.Join(t.TempDir(), "store"), broker.Silent{})
	for ago, want := range map[time.Duration]int{30 * time.Second: 7, time.Minute: 0} {
		t.Run(ago.String(), func(t *testing.T) {
			s.tombstones.value, s.tombstones.at = 7, time.Now().Add(-ago)
			diff.Equal(t, diff.Value(s.Stats(context.Background()))(t).Tombstones, want, "")
		})
	}
}

// Nobody knows whether a row that can't be read has a tombstone, so the tombstones aren't counted.
func TestTombstonesOfAnUnreadableRow(t *testing.T) {
	for _, table := range []string{"holdings", "bindings"} {
		t.Run(table, func(t *testing.T) {
			s := open(t, filepath.Join(t.TempDir(), "store"), broker.Silent{})
			key := keyOf(1)
			if table == "bindings" {
				key = osb.BindingKey(key.Instance, key.Instance)
			}
			check(t, s.Change(context.Background(), key, provision(key)))
			alter(t, s, "UPDATE "+table+" SET holding = '{}', unfinished = 0")
			diff.Error(t, diff.Err(s.Stats(context.Background())), "%s", table)
		})
	}
}

// A list has no gap where an id can't be read.
func TestListsWithAnUnreadableID(t *testing.T) {
	s := open(t, filepath.Join(t.TempDir(), "store"), broker.Silent{})
	key := osb.BindingKey(keyOf(1).Instance, keyOf(2).Instance)
	check(t, s.Change(context.Background(), key, provision(key)))
	alter(t, s, "UPDATE bindings SET binding = 'x', held = 1, unfinished = 1")
	diff.Error(t, diff.Err(s.HeldBindings(context.Background(), key.Instance)), "HeldBindings")
	diff.Error(t, diff.Err(s.UnfinishedKeys(context.Background())), "Unfinished")
}

// alter executes a statement in the file of a store, as another program does.
func alter(t *testing.T, s *Store, statement string) {
	t.Helper()
	file := diff.Value((&sqlite3.SQLiteDriver{}).Open("file:" + s.file.Path()))(t).(*sqlite3.SQLiteConn)
	_, err := file.Exec(statement, nil)
	diff.NoError(t, err, "%s", statement)
	check(t, file.Close())
}

// Of a row that can't be read nothing is known: a Change ends with the error, without its step, and the row stays.
func TestChangeOfAnUnreadableRow(t *testing.T) {
	for _, holding := range []string{"'{}'", "x'00'"} {
		t.Run(holding, func(t *testing.T) { // the latter is no text
			s := open(t, filepath.Join(t.TempDir(), "store"), broker.Silent{})
			check(t, s.Change(context.Background(), keyOf(1), provision(keyOf(1))))
			alter(t, s, "UPDATE holdings SET holding = "+holding+", description = 'unreadable'")
			isCalled := false
			err := s.Change(context.Background(), keyOf(1), func(snapshot broker.Snapshot) (*broker.Entry, error) {
				isCalled = true
				return provision(keyOf(1))(snapshot)
			})
			diff.Error(t, err, "%s", holding)
			diff.Equal(t, isCalled, false, "%s: the step was called", holding)
			var description string
			if err := s.file.Read(context.Background(), func(c *connection) (err error) {
				description, err = c.text("SELECT description FROM holdings")
				return err
			}); err != nil || description != "unreadable" {
				t.Errorf("%s: got the description %q, %v, want \"unreadable\"", holding, description, err)
			}
		})
	}
}

// A Change whose row can't be written fails, also if the transaction of which it is a part goes on.
func TestChangeThatIsNotWritten(t *testing.T) {
	s := open(t, filepath.Join(t.TempDir(), "store"), broker.Silent{})
	alter(t, s, "CREATE TRIGGER no BEFORE INSERT ON holdings BEGIN SELECT RAISE(ABORT, 'no'); END")
	diff.ErrorContains(t, s.Change(context.Background(), keyOf(1), provision(keyOf(1))), "no", "")
}

// The file of a broker of version 0.3, which a lock that can be lost had given numbers of workers: they are forgotten.
func TestWorkersOf03(t *testing.T) {
	key := osb.BindingKey(keyOf(1).Instance, keyOf(2).Instance)
	path := makeFile(t, append(append([]string{}, withBindings...), append(rowsWithout(marked),
		"CREATE TABLE workers (id TEXT PRIMARY KEY, worker INTEGER NOT NULL) WITHOUT ROWID",
		"INSERT INTO workers VALUES ('"+keyOf(1).String()+"', 7), ('"+key.String()+"', 8)")...))
	for n := 0; n < 2; n++ { // the second time nothing is left to do
		s := diff.Value(Open(context.Background(), path, broker.Silent{}))(t)
		for _, key := range []broker.Key{keyOf(1), key} {
			entry := diff.Value(s.Read(context.Background(), key))(t).Entry
			diff.Equal(t, entry.Worker, map[bool]osb.ID{true: keyOf(9).Instance}[n > 0], "%v", key)
			diff.Equal(t, entry.Change != nil, n > 0 && !key.IsBinding, "%v was updated", key)
			check(t, s.Change(context.Background(), key, func(snapshot broker.Snapshot) (*broker.Entry, error) {
				snapshot.Worker = keyOf(9).Instance
				snapshot.Change = &broker.Change{Settings: broker.Settings{PlanID: "p"}}
				return &snapshot.Entry, nil
			}))
		}
		check(t, s.Close())
	}
	old := diff.Value((&sqlite3.SQLiteDriver{}).Open("file:" + path))(t).(*sqlite3.SQLiteConn)
	_, err := old.Exec("CREATE TABLE IF NOT EXISTS workers (id TEXT PRIMARY KEY, worker INTEGER NOT NULL)", nil)
	diff.NoError(t, err, "what version 0.3 makes first")
	diff.Error(t, diff.Err(old.Prepare("SELECT worker FROM workers WHERE id = ?")), "what version 0.3 reads next")
	check(t, old.Close())
}

// What is kept of updates has to be readable, or nobody changes the row.
func TestChangeOfARowWithWrongUpdates(t *testing.T) {
	s := open(t, filepath.Join(t.TempDir(), "store"), broker.Silent{})
	check(t, s.Change(context.Background(), keyOf(1), provision(keyOf(1))))
	alter(t, s, `UPDATE holdings SET change = '{"holding":{}}'`)
	err := s.Change(context.Background(), keyOf(1), func(snapshot broker.Snapshot) (*broker.Entry, error) {
		t.Errorf("the step: got a call with %+v, want none", snapshot)
		return nil, nil
	})
	diff.ErrorContains(t, err, keyOf(1).String(), "")
}

// A row whose worker has no number is changed by nobody.
func TestChangeOfARowWithAWrongWorker(t *testing.T) {
	for _, number := range []string{"'0123456789abcdef'", "x'00'", "0"} {
		t.Run(number, func(t *testing.T) {
			s := open(t, filepath.Join(t.TempDir(), "store"), broker.Silent{})
			check(t, s.Change(context.Background(), keyOf(1), provision(keyOf(1))))
			alter(t, s, "UPDATE holdings SET worker = "+number)
			err := s.Change(context.Background(), keyOf(1), func(snapshot broker.Snapshot) (*broker.Entry, error) {
				t.Errorf("the step: got a call with %+v, want none", snapshot)
				return nil, nil
			})
			diff.ErrorContains(t, err, keyOf(1).String(), "")
		})
	}
}

// Ready writes, so that a full disk shows.
func TestReadyWrites(t *testing.T) {
	s := open(t, filepath.Join(t.TempDir(), "store"), broker.Silent{})
	asked := func() (text string) {
		t.Helper()
		check(t, s.Ready(context.Background()))
		err := s.file.Read(context.Background(), func(c *connection) (err error) {
			text, err = c.text("SELECT asked FROM readiness")
			return err
		})
		check(t, err)
		return text
	}
	if first, second := asked(), asked(); first == "" || first == second {
		t.Errorf("got %q and then %q, want two ids", first, second)
	}
}

func BenchmarkRead(b *testing.B) {
	s := diff.Value(Open(context.Background(), filepath.Join(b.TempDir(), "store"), broker.Silent{}))(b)
	check(b, s.Change(context.Background(), keyOf(1), provision(keyOf(1))))
	b.ReportAllocs()
	for n := 0; n < b.N; n++ {
		diff.Value(s.Read(context.Background(), keyOf(1)))(b)
	}
}

// The tables before tombstones had a time, in 0.2.0 and in an early 0.3.0.
var (
	of02 = []string{
		"CREATE TABLE holdings (id TEXT PRIMARY KEY, holding TEXT NOT NULL, unfinished INTEGER NOT NULL) WITHOUT ROWID",
	}
	withBindings = []string{
		of02[0],
		"ALTER TABLE holdings ADD COLUMN request TEXT", "ALTER TABLE holdings ADD COLUMN description TEXT",
		"ALTER TABLE holdings ADD COLUMN since INTEGER",
		"CREATE TABLE bindings (instance TEXT NOT NULL, binding TEXT NOT NULL, holding TEXT NOT NULL, " +
			"held INTEGER NOT NULL, unfinished INTEGER NOT NULL, request TEXT, object TEXT, description TEXT, " +
			"since INTEGER, PRIMARY KEY (instance, binding)) WITHOUT ROWID",
	}
)

// rowsWithout inserts rows that have no time: an instance that is ready, one that is being deleted, and a tombstone.
func rowsWithout(tombstone string) (statements []string) {
	for n, test := range []struct {
		holding      string
		isUnfinished bool
	}{
		{`{"phase":"ready","plan":"` + plan.String() + `","service":"` + service.String() + `"}`, false},
		{`{"phase":"deleting","plan":"` + plan.String() + `","service":"` + service.String() + `"}`, true},
		{"", false},
	} {
		text := fmt.Sprintf(`{"marked":false,"row":%s,"version":1,"work":null}`, test.holding)
		if test.holding == "" {
			text = tombstone
		}
		statements = append(statements, fmt.Sprintf("INSERT INTO holdings (id, holding, unfinished) VALUES ('%v', '%s', %t)",
			keyOf(n), text, test.isUnfinished))
	}
	return statements
}

// makeFile makes a file with these statements.
func makeFile(t *testing.T, statements []string) string {
	t.Helper()
	path := filepath.Join(t.TempDir(), "store")
	file := diff.Value((&sqlite3.SQLiteDriver{}).Open("file:" + path))(t)
	for _, statement := range statements {
		if _, err := file.(*sqlite3.SQLiteConn).Exec(statement, nil); err != nil {
			t.Fatalf("%s: got the error %v, want none", statement, err)
		}
	}
	check(t, file.Close())
	return path
}

const (
	marked    = `{"marked":true,"row":null,"version":1,"work":null}`
	endedText = `{"attributes":"0000000000000000000000000000000000000000000000000000000000000000","row":null,` +
		`"tombstone":true,"version":2,"work":null}`
)

// A tombstone without a time gets that of the migration, once. Rows without a tombstone get none.
func TestMigrationOfTombstones(t *testing.T) {
	binding := osb.BindingKey(keyOf(0).Instance, osb.ID{1})
	text := diff.Value(bindingTombstone(t).BindingText())(t)
	rowOfBinding := fmt.Sprintf("INSERT INTO bindings (instance, binding, holding, held, unfinished) "+
		"VALUES ('%v', '%v', '%s', false, false)", binding.Instance, binding.Binding, text)
	for _, test := range []struct {
		name         string
		tables, rows []string
		ended        []broker.Key
	}{
		{"0.2", of02, rowsWithout(marked), []broker.Key{keyOf(2)}},
		{"bindings", withBindings, append(rowsWithout(endedText), rowOfBinding), []broker.Key{keyOf(2), binding}},
	} {
		t.Run(test.name, func(t *testing.T) {
			path, before := makeFile(t, append(append([]string{}, test.tables...), test.rows...)), time.Now()
			open(t, path, broker.Silent{})
			time.Sleep(50 * time.Millisecond)
			s := open(t, path, broker.Silent{}) // which changes no time
			for _, key := range test.ended {
				snapshot, err := s.Read(context.Background(), key)
				if err != nil || !snapshot.Holding.HasTombstone() || snapshot.EndedAgo < 40*time.Millisecond ||
					snapshot.EndedAgo > time.Since(before)+10*time.Millisecond || snapshot.Life != 0 {
					t.Errorf("%v: got %+v and the error %v, want a tombstone of now in life 0", key, snapshot, err)
				}
			}
			for n := 0; n < 2; n++ {
				snapshot, err := s.Read(context.Background(), keyOf(n))
				if err != nil || !snapshot.Holding.IsHeld() || snapshot.EndedAgo != 0 || snapshot.Life != 0 {
					t.Errorf("%d: got %+v and the error %v, want an instance that is held, in life 0", n, snapshot, err)
				}
			}
		})
	}
}

// bindingTombstone is the holding of a binding that has ended.
func bindingTombstone(t *testing.T) osb.Holding {
	t.Helper()
	var holding osb.Holding
	check(t, holding.UnmarshalJSON([]byte(endedText)))
	return holding
}

// What every store must do if one of its statements fails.
func TestFaults(t *testing.T) {
	folder := diff.Value(os.MkdirTemp("", "osb-sqlite"))(t)
	t.Cleanup(func() { _ = os.RemoveAll(folder) })
	beside := func(t *testing.T) *Store {
		return open(t, filepath.Join(folder, storetest.NameOf(t)), broker.Silent{})
	}
	storetest.RunFaults(t, storetest.Faulty{
		Open: func(t *testing.T) (broker.NamedStore, *storefaults.Countdown) {
			by := &storefaults.Driver{}
			store, err := openBy(context.Background(), filepath.Join(folder, storetest.NameOf(t)), broker.Silent{}, by)
			check(t, err)
			return store, &by.Countdown
		},
		Beside: func(t *testing.T) broker.NamedStore { return beside(t) },
		Spoil: func(t *testing.T, key broker.Key) {
			table, where := "holdings", "id = '"+key.Instance.String()+"'"
			if key.IsBinding {
				table, where = "bindings", "binding = '"+key.Binding.String()+"'"
			}
			alter(t, beside(t), "UPDATE "+table+" SET holding = '{}' WHERE "+where)
		},
		Faults: []storefaults.Fault{storefaults.Refused, storefaults.Lost},
	})
}

// Each statement of Open fails once, over a new file and over one of version 0.2: the error is returned, and the file
// can be opened later.
func TestOpeningThatFails(t *testing.T) {
	for _, path := range []string{filepath.Join(t.TempDir(), "store"), makeFile(t, append(of02, rowsWithout(marked)...))} {
		for n, failed := 1, "none yet"; failed != ""; n++ {
			by := &storefaults.Driver{}
			by.Fail(n, storefaults.Refused)
			store, err := openBy(context.Background(), path, broker.Silent{}, by)
			failed = by.FailedStatement()
			if failed != "" && !errors.Is(err, storefaults.ErrFault) || failed == "" && err != nil {
				t.Errorf("%q has failed: got %v, want an error exactly then", failed, err)
			}
			if err == nil {
				_ = store.Close()
			}
		}
		open(t, path, broker.Silent{})
	}
}

var check = diff.Must

// A row whose text of updates is damaged doesn't keep the others from being counted, nor do parameters with any character.
func TestStatsOfOddUpdates(t *testing.T) {
	s := open(t, filepath.Join(t.TempDir(), "store"), broker.Silent{})
	for n := 1; n < 4; n++ {
		check(t, s.Change(context.Background(), keyOf(n), provision(keyOf(n))))
	}
	const pending = `{"holding":{"number":0,"phase":"pending"},"to":{"plan_id":"p","parameters":{"a":"\u0000"}}}`
	alter(t, s, `UPDATE holdings SET change = '{' WHERE id = (SELECT min(id) FROM holdings)`)
	alter(t, s, `UPDATE holdings SET change = '`+pending+`', holding = json_remove(holding, '$.work')
		WHERE id = (SELECT max(id) FROM holdings)`)
	diff.Equal(t, diff.Value(s.UnfinishedStats(context.Background()))(t).Pending, 3, "pending")
	diff.Equal(t, diff.Value(s.Stats(context.Background()))(t).Pending, 3, "pending, of all that is counted")
}
