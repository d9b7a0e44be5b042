package sqlite

import (
	"context"
	"database/sql/driver"
	"encoding/json"
	"fmt"
	"path/filepath"
	"strings"
	"sync"
	"sync/atomic"
	"testing"
	"time"

	"github.com/mattn/go-sqlite3"

	"pippinterm/internal/diff"
	"pippinterm/internal/sqlitefile"
	"pippinterm/osb"
	"pippinterm/platform"
	"pippinterm/platform/storetest"
)

// The rows of more brokers than one query has are put into one order, and only as many are due as are asked for.
func TestLongestDue(t *testing.T) {
	due := func(seconds ...int) (found []dueKey) {
		for _, at := range seconds {
			found = append(found, dueKey{at: time.Unix(int64(at), 0)})
		}
		return found
	}
	for _, test := range []struct {
		most        int
		found, want []dueKey
	}{
		{3, due(1, 4, 2, 3), due(1, 2, 3)}, {4, due(4, 3, 2, 1), due(1, 2, 3, 4)}, {5, due(2, 1), due(1, 2)}, {1, due(), due()},
	} {
		t.Run(fmt.Sprint(test.most, " of ", len(test.found)), func(t *testing.T) {
			diff.Equal(t, fmt.Sprint(longestDue(test.found, test.most)), fmt.Sprint(test.want), "at most %d", test.most)
		})
	}
}

// While another process writes, what only reads goes on, and so does the opening of a file. So no command that reads
// waits for a worker, and none keeps a worker waiting.
func TestReadingLocksNothing(t *testing.T) {
	path := filepath.Join(t.TempDir(), "store")
	check(t, withBroker(t, open(t, path)).Insert(background, order(1), nil))
	made := diff.Value((&sqlite3.SQLiteDriver{}).Open("file:" + path))(t)
	defer made.Close()
	writer := made.(*sqlite3.SQLiteConn)
	for _, text := range []string{"BEGIN IMMEDIATE", "UPDATE osb_instances SET tries = 7"} {
		diff.Value(writer.Exec(text, nil))(t)
	}
	begun := time.Now()
	second := open(t, path)
	calls := storetest.Reads(second, keyOf(1))
	calls["HasWorkers"] = func(ctx context.Context) error { return diff.Err(second.HasWorkers(ctx)) }
	calls["Fingerprint"] = func(ctx context.Context) error { return diff.Err(second.Fingerprint(ctx, "")) }
	for name, call := range calls {
		diff.NoError(t, call(background), "%s", name)
	}
	if took := time.Since(begun); took > 15*time.Second { // a lock that another has is waited for 30 seconds
		t.Errorf("got an end after %v, want one within 15 s", took)
	}
	diff.Equal(t, diff.Value(second.Read(background, keyOf(1)))(t).Unchanged, 0, "what isn't committed")
	diff.NoError(t, diff.Err(writer.Exec("COMMIT", nil)), "the writer")
}

// A row that can't be read hides no other one. One without a time or an id has no position in a list.
func TestUnreadableRows(t *testing.T) {
	path := filepath.Join(t.TempDir(), "store")
	s := withBroker(t, open(t, path))
	spoil := func(t *testing.T, key platform.Key, column string) {
		table, where := "osb_instances", "id = '"+key.Instance.String()+"'"
		if key.IsBinding {
			table = "osb_bindings"
			where = "instance = '" + key.Instance.String() + "' AND id = '" + key.Binding.String() + "'"
		}
		executeIn(t, path, "UPDATE "+table+" SET "+column+" = 'x' WHERE "+where)
	}
	storetest.TestUnreadable(t, s, func(t *testing.T, key platform.Key) { spoil(t, key, "record") })
	check(t, s.Insert(background, order(1000), nil))
	spoil(t, keyOf(1000), "since")
	diff.Error(t, diff.Err(s.List(background, platform.Filter{})), "")
	executeIn(t, path, "UPDATE osb_instances SET since = 1 WHERE since = 'x'")
	diff.NoError(t, diff.Err(s.List(background, platform.Filter{})), "")
	spoil(t, keyOf(1000), "id")
	diff.Error(t, diff.Err(s.List(background, platform.Filter{})), "")
}

// If the time of a stay can't be read, its row has no position as of a moment at which the stay went on.
func TestUnreadableStay(t *testing.T) {
	path := filepath.Join(t.TempDir(), "store")
	s := withBroker(t, open(t, path))
	check(t, s.Insert(background, order(1), nil))
	moment := diff.Value(s.Moment(background))(t)
	check(t, s.Change(background, keyOf(1), storetest.Edit(func(e *platform.Entry, now time.Time) {
		e.State, e.Since = platform.Withdrawn, now
	})))
	executeIn(t, path, "UPDATE osb_lives SET since = 'x'")
	diff.Error(t, diff.Err(s.Positions(background, platform.Filter{AsOf: moment})), "")
	diff.NoError(t, diff.Err(s.Positions(background, platform.Filter{})), "as of now")
}

// No step decides by a row of which a column can't be read.
func TestUnreadableColumns(t *testing.T) {
	path := filepath.Join(t.TempDir(), "store")
	s := withBroker(t, open(t, path))
	for n, column := range []string{
		"service", "plan", "first", // ids
		"is_own", "try", "most_tries", "removal", "has_last", "tries", "is_passing", "after_ms",
		"since", "sent_until", "polled_since", "due", "leased_until",
		"record", "last", "failure", // JSON
	} {
		check(t, s.Insert(background, order(n), nil))
		executeIn(t, path, fmt.Sprintf("UPDATE osb_instances SET %s = 'x' WHERE id = '%s'", column, keyOf(n).Instance))
		isCalled := false
		err := s.Change(background, keyOf(n), func(time.Time, platform.Snapshot) (*platform.Change, error) {
			isCalled = true
			return nil, nil
		})
		if err == nil || isCalled {
			t.Errorf("%s: got %v, the step called: %t; want an error, and no call", column, err, isCalled)
		}
	}
}

// A broker whose row can't be read isn't changed: its URL and its password would be lost.
func TestUnreadableBroker(t *testing.T) {
	path := filepath.Join(t.TempDir(), "store")
	s := withBroker(t, open(t, path))
	executeIn(t, path, "UPDATE osb_brokers SET settings = 'x'")
	isCalled := false
	err := s.ChangeBroker(background, "one", func(it platform.Broker) (*platform.Broker, error) {
		isCalled = true
		return &platform.Broker{Name: it.Name}, nil
	})
	if err == nil || isCalled {
		t.Errorf("got %v, the change called: %t; want an error, and no call", err, isCalled)
	}
	if found := query(t, path, "SELECT url FROM osb_brokers"); len(found) != 1 || found[0] != "http://one" {
		t.Errorf("got the URL %v, want http://one", found)
	}
}

// No call changes the tables, which would have every other process read the schema again.
func TestNoCallChangesTables(t *testing.T) {
	path := filepath.Join(t.TempDir(), "store")
	s := withBroker(t, open(t, path))
	const schema = "PRAGMA schema_version"
	before := query(t, path, schema)
	gone := func(_ time.Time, snapshot platform.Snapshot) (*platform.Change, error) {
		snapshot.Entry.State = platform.Withdrawn
		return &platform.Change{Entry: snapshot.Entry, RemoveBindings: true}, nil
	}
	check(t, s.Insert(background, order(1), nil))
	for name, call := range storetest.AllCalls(s, keyOf(1), order(2), gone) {
		diff.NoError(t, call(background), "%s", name)
		if after := query(t, path, schema); len(after) != 1 || after[0] != before[0] {
			t.Fatalf("%s: got the schema %v, want %v", name, after, before)
		}
	}
}

// A meter counts what the connections of a store execute. SQLite counts how often each prepared statement has run.
type meter struct {
	conns        []*sqlitefile.Conn
	transactions atomic.Int64
}

// openMetered opens a store with a meter.
func openMetered(t *testing.T) (*Store, *meter) {
	t.Helper()
	m := &meter{}
	with := options(nil, migrate)
	with.Prepare = func(ctx context.Context, conn *sqlitefile.Conn) (*connection, error) {
		m.conns = append(m.conns, conn)
		return prepare(ctx, conn)
	}
	with.Committed = func(int) { m.transactions.Add(1) }
	file := diff.Value(sqlitefile.Open(background, filepath.Join(t.TempDir(), "store"), with))(t)
	s := &Store{file: file}
	t.Cleanup(func() {
		diff.NoError(t, s.Close(), "")
	})
	return s, m
}

// statements are how many statements have run that read or write rows, without BEGIN, COMMIT and the like.
// Nobody uses the store meanwhile.
func (m *meter) statements(t *testing.T) (count int64) {
	t.Helper()
	for _, conn := range m.conns {
		err := conn.Each("SELECT sql, run FROM sqlite_stmt", nil, func(row []driver.Value) error {
			text, run := row[0].(string), row[1].(int64)
			for _, verb := range []string{"SELECT ", "INSERT ", "UPDATE ", "DELETE "} {
				if strings.HasPrefix(text, verb) && !strings.HasSuffix(text, "sqlite_stmt") {
					count += run
				}
			}
			return nil
		})
		if err != nil {
			t.Fatalf("got %v, want a SQLite that was built with SQLITE_ENABLE_STMTVTAB", err)
		}
	}
	return count
}

// What a step of an engine takes if none shares its claim with another: what many steps take more than few. Each step
// changes the state twice. If no other change is in the same transaction, two counts are written each time. So 6
// statements are 10 with those of counts.
func TestAStepOfAnEngine(t *testing.T) {
	s, m := openMetered(t)
	withBroker(t, s)
	options := platform.Options{Worker: "one", AtOnce: 1}
	seller := storetest.Seller{Service: service, Plan: plan}
	const few, many = 10, 30
	took, next := map[int][2]int64{}, 0
	for _, rows := range []int{few, many} {
		for n := 0; n < rows; n++ {
			check(t, s.Insert(background, order(next), nil))
			next++
		}
		statements, transactions := m.statements(t), m.transactions.Load()
		check(t, platform.NewEngine(s, seller, nil, options, storetest.Quiet{T: t}).RunOnce(background))
		took[rows] = [2]int64{m.statements(t) - statements, m.transactions.Load() - transactions}
	}
	for n := 0; n < next; n++ {
		diff.Equal(t, diff.Value(s.Read(background, keyOf(n)))(t).State, platform.Ready, "%v", keyOf(n))
	}
	for rows, duration := range took {
		// No two claims are in one transaction, because each follows the answer to the one before. The end of a step
		// may be in that of the next claim, so only the last end is one more.
		diff.AtLeast(t, duration[1], int64(rows)+1, "")
	}
	const steps = many - few
	statements, transactions := took[many][0]-took[few][0], took[many][1]-took[few][1]
	diff.AtLeast(t, statements, 4*steps, "%d steps: statements", steps)
	diff.AtMost(t, statements, 10*steps, "%d steps: statements", steps)
	diff.AtMost(t, transactions, 3*steps, "%d steps", steps)
	t.Logf("%d steps take %d statements in %d transactions", steps, statements, transactions)
}

const (
	workers = 16
	batch   = 4  // as many rows are claimed at once
	large   = 32 // of new ones
)

// fill is a store with so many rows: of ten, eight are ready or gone, one is polled and due later, and one is due.
func fill(b *testing.B, rows int) *Store {
	b.Helper()
	s := withBroker(b, open(b, filepath.Join(b.TempDir(), "store")))
	var all sync.WaitGroup
	var next atomic.Int64
	for n := 0; n < 64; n++ {
		all.Add(1)
		go func() {
			defer all.Done()
			for row := int(next.Add(1)); row <= rows; row = int(next.Add(1)) {
				diff.NoError(b, s.Insert(background, benchRow(row), nil), "")
			}
		}()
	}
	all.Wait()
	return s
}

// benchRow is the row of a number.
func benchRow(n int) platform.Entry {
	record, sent := osb.Create(keyOf(n).Instance, service, plan, true)
	statuses := []uint16{201, 201, 400, 201, 202, 400, 201, 202, 400, 201}
	record, err := record.Answer(sent.Attempt, osb.Answer{Status: statuses[n%10], Body: osb.BodyEmpty})
	if err != nil {
		panic(err)
	}
	entry := order(n)
	entry.Record, entry.IsSent, entry.State = record, true, platform.StateOf(record)
	entry.Since, entry.Due = at(1.6e12+int64(n)), time.Time{}
	entry.Body = json.RawMessage(`{"context":{"platform":"osb-platform"},"parameters":{"size":3}}`)
	entry.Last = platform.Reason{
		At: at(1.6e12), Kind: "provision", Status: int(statuses[n%10]), Description: "as it was asked for",
	}
	if entry.State == platform.Polling {
		entry.PolledSince = time.Now()
	}
	switch n % 10 {
	case 4:
		entry.Due = at(1.6e12 + int64(n))
	case 7:
		entry.Due = at(4e12)
	}
	return entry
}

// BenchmarkSteps has an engine step rows, with 16 connections to a broker that answers at once.
//
//	scripts/go test -run xxx -bench Steps -benchtime 20000x ./platform/sqlite
func BenchmarkSteps(b *testing.B) {
	for _, rows := range []int{1000, 100000} {
		s := fill(b, rows)
		b.Run(fmt.Sprint(rows, " rows"), func(b *testing.B) { storetest.BenchmarkSteps(b, s) })
	}
}

// The transactions of a step alone: a Claim, which records a Poll, and a Change, which takes its answer.
func BenchmarkTransactions(b *testing.B) {
	for _, rows := range []int{1000, 100000} {
		s := fill(b, rows)
		b.Run(fmt.Sprint(rows, " rows"), func(b *testing.B) {
			var left, all = int64(b.N), sync.WaitGroup{}
			b.ResetTimer()
			begun := time.Now()
			for n := 0; n < workers; n++ {
				all.Add(1)
				go func() {
					defer all.Done()
					for atomic.LoadInt64(&left) > 0 {
						done, err := runSteps(s, batch, send, takeStep)
						if err != nil {
							b.Error(err)
							return
						}
						atomic.AddInt64(&left, -int64(done))
					}
				}()
			}
			all.Wait()
			b.ReportMetric(float64(int64(b.N)-left)/time.Since(begun).Seconds(), "steps/s")
		})
	}
}

// send records a request.
func send(now time.Time, snapshot platform.Snapshot) (*platform.Change, error) {
	entry := snapshot.Entry
	next, _, err := entry.Record.Send(entry.Key.Instance)
	entry.Record, entry.Lease = next, platform.Lease{Worker: "worker", Until: now.Add(time.Minute)}
	return &platform.Change{Entry: entry}, err
}

// runSteps claims at most so many rows by one step, and takes an answer for each by another one.
func runSteps(s *Store, most int, claim, take platform.Step) (steps int, err error) {
	claimed, err := s.Claim(background, []string{"one"}, most, claim)
	if err != nil {
		return 0, err
	}
	var all sync.WaitGroup
	errs := make([]error, len(claimed))
	for n, row := range claimed {
		if row.Err != nil {
			return 0, row.Err
		}
		all.Add(1)
		go func(n int, key platform.Key) {
			defer all.Done()
			errs[n] = s.Change(background, key, take)
		}(n, row.Key)
	}
	all.Wait()
	for _, failure := range errs {
		if failure != nil {
			err = failure
		}
	}
	return len(claimed), err
}

// takeStep takes an answer that says that the operation goes on. The row is due again at once.
func takeStep(now time.Time, snapshot platform.Snapshot) (*platform.Change, error) {
	entry := snapshot.Entry
	next, err := entry.Record.Answer(entry.Record.Attempt(), osb.Answer{Status: 200, Body: osb.BodyInProgress})
	entry.Record, entry.Lease, entry.Due = next, platform.Lease{}, now
	entry.Last = platform.Reason{At: now, Kind: "poll", Status: 200, Description: "it goes on"}
	return &platform.Change{Entry: entry}, err
}

// The transactions of instances that are created by one request: a Claim, which records the request, and a Change, which
// takes the answer. No row is known.
//
//	scripts/go test -run xxx -bench Creations -benchtime 20000x -benchmem ./platform/sqlite
func BenchmarkCreations(b *testing.B) {
	s := withBroker(b, open(b, filepath.Join(b.TempDir(), "store")))
	var all sync.WaitGroup
	for n := 0; n < b.N; n++ {
		all.Add(1)
		go func(n int) {
			defer all.Done()
			diff.NoError(b, s.Insert(background, order(n), nil), "")
		}(n)
		if n%1000 == 0 {
			all.Wait()
		}
	}
	all.Wait()
	b.ResetTimer()
	for done, steps := 0, 1; done < b.N && steps > 0; done += steps {
		var err error
		steps, err = runSteps(s, large, create, created)
		check(b, err)
	}
}

// create records the request of a creation.
func create(now time.Time, snapshot platform.Snapshot) (*platform.Change, error) {
	entry := snapshot.Entry
	entry.Record, _ = osb.Create(entry.Key.Instance, entry.Service, entry.Plan, true)
	entry.IsSent, entry.State, entry.Since = true, platform.Wanted, now
	entry.Lease, entry.SentUntil = platform.Lease{Worker: "worker", Until: now.Add(time.Minute)}, now.Add(time.Minute)
	return &platform.Change{Entry: entry}, nil
}

// created takes the answer that the instance is ready.
func created(now time.Time, snapshot platform.Snapshot) (*platform.Change, error) {
	entry := snapshot.Entry
	next, err := entry.Record.Answer(entry.Record.Attempt(), osb.Answer{Status: 201, Body: osb.BodyEmpty})
	entry.Record, entry.State, entry.Since = next, platform.Ready, now
	entry.Lease, entry.Due = platform.Lease{}, time.Time{}
	entry.Last = platform.Reason{At: now, Kind: "provision", Status: 201}
	return &platform.Change{Entry: entry}, err
}

// What is read beside the steps takes as long with many rows as with few.
func BenchmarkReading(b *testing.B) {
	for _, rows := range []int{1000, 100000} {
		s := fill(b, rows)
		for name, call := range map[string]func() error{
			"NextDue": func() error { _, _, err := s.NextDue(background, []string{"one"}); return err },
			"Counts":  func() error { return diff.Err(s.Counts(background)) },
			"List of 50": func() error {
				_, err := s.List(background, platform.Filter{Most: 50, States: []platform.State{platform.Ready}})
				return err
			},
			"InFlight": func() error { return diff.Err(s.InFlight(background, 50)) },
		} {
			b.Run(fmt.Sprint(name, " ", rows, " rows"), func(b *testing.B) {
				for n := 0; n < b.N; n++ {
					check(b, call())
				}
			})
		}
	}
}

// The statement of the guide that shortens histories deletes nothing that a list which is being read needs, and leaves the
// number of the last stay.
func TestShortenedHistories(t *testing.T) {
	path := filepath.Join(t.TempDir(), "store")
	s := open(t, path)
	check(t, s.AddBroker(background, platform.Broker{Name: "one", URL: "http://one"}))
	month := time.Now().AddDate(0, -1, 0).Truncate(time.Second).UTC()
	change := func(n int, state platform.State, since time.Time) {
		check(t, s.Change(background, keyOf(n), storetest.Edit(func(e *platform.Entry, _ time.Time) {
			e.State, e.Since = state, since
		})))
	}
	for n := 0; n < 4; n++ {
		ordered := platform.Entry{State: platform.Ordered, Since: month.Add(-time.Hour)}
		ordered.Order = platform.Order{Key: keyOf(n), Broker: "one", First: keyOf(n).ID(), Body: json.RawMessage("{}")}
		check(t, s.Insert(background, ordered, func(platform.Snapshot) error { return nil }))
		change(n, platform.Wanted, month)
		change(n, platform.Ready, month.Add(time.Duration(n)*time.Minute))
	}
	filter := platform.Filter{Order: platform.ByTime, AsOf: diff.Value(s.Moment(background))(t)}
	want := diff.Value(s.Positions(background, filter))(t)
	change(1, platform.Cleaning, time.Now())
	change(1, platform.Gone, time.Now())
	executeIn(t, path, fmt.Sprintf("DELETE FROM osb_lives AS l WHERE EXISTS (SELECT 1 FROM osb_lives AS n "+
		"WHERE n.id = l.id AND n.number > l.number AND n.since < %d)", time.Now().AddDate(0, 0, -1).Unix()))
	diff.Check(t, query(t, path, "SELECT count(*) FROM osb_lives"), []string{"5"}, "the rows that are left")
	change(2, platform.Gone, time.Now())
	diff.Check(t, diff.Value(s.Positions(background, filter))(t), want, "as of the moment")
}
