package postgres_test

import (
	"context"
	"errors"
	"fmt"
	"strings"
	"sync"
	"testing"
	"time"

	"pippinterm/internal/diff"
	"pippinterm/internal/pg"
	"pippinterm/internal/pg/pgtest"
	"pippinterm/osb"
	"pippinterm/platform"
	"pippinterm/platform/postgres"
	"pippinterm/platform/storetest"
)

// The tables of version 0.2.
var of02 = []string{
	`CREATE TABLE osb_instances (id text PRIMARY KEY, service text NOT NULL, plan text NOT NULL,
		further text NOT NULL, record text, operation text, state text NOT NULL, since double precision NOT NULL,
		sent_until double precision, polled_since double precision, removal integer NOT NULL, due double precision,
		tries integer NOT NULL, worker text, leased_until double precision)`,
	`CREATE INDEX osb_due_instances ON osb_instances (due) WHERE due IS NOT NULL`,
	`CREATE TABLE osb_lives (id text NOT NULL, number integer NOT NULL, state text NOT NULL,
		since double precision NOT NULL, PRIMARY KEY (id, number))`,
	`CREATE TABLE osb_broker_asked (one integer PRIMARY KEY CHECK (one = 1), url text NOT NULL)`,
	`CREATE INDEX osb_instances_by_state ON osb_instances (state, since, id)`,
	`CREATE INDEX osb_leased_instances ON osb_instances (leased_until) WHERE worker IS NOT NULL`,
	`INSERT INTO osb_broker_asked VALUES (1, '` + theBroker + `')`,
}

const (
	theBroker  = "https://broker.example"
	theService = "00000000-0000-0000-0000-0000000000a0"
	thePlan    = "00000000-0000-0000-0000-0000000000b1"
	began      = 1700000000.25 // the time of all rows of version 0.2
)

func id(n int) osb.ID { return osb.MustParseID(fmt.Sprintf("00000000-0000-4000-8000-%012x", n)) }

func instance(n int) platform.Key { return osb.InstanceKey(id(n)) }

func binding(n, of int) platform.Key { return osb.BindingKey(id(of), id(n)) }

// A row02 is a row of version 0.2, and what is read of it.
type row02 struct {
	state      platform.State
	out        string // in flight
	isOrder    bool   // nothing was sent
	due        bool
	removal    int
	worker     string
	isToRest   bool // though it was due
	hasLast    bool
	isPolled   bool
	unchanged  int
	operation  string
	parameters string
}

// rows02 has each state, with all that belongs to it.
var rows02 = []row02{
	{state: platform.Ordered, isOrder: true, due: true, parameters: `{"parameters": {"x": [1, "é"]}}`},
	{state: platform.Ordered, isOrder: true, due: true, removal: 1},
	{state: platform.Withdrawn, isOrder: true},
	{state: platform.Withdrawn, isOrder: true, due: true, isToRest: true},
	{state: platform.Wanted, out: "provision", due: true, worker: "one"},
	{state: platform.Polling, due: true, isPolled: true, unchanged: 3, operation: "task 7"},
	{state: platform.Polling, out: "poll", due: true, isPolled: true, worker: "two"},
	{state: platform.Ready},
	{state: platform.Ready, due: true, removal: 1},
	{state: platform.Cleaning, due: true, unchanged: 12},
	{state: platform.CleaningPolling, due: true, isPolled: true},
	{state: platform.Gone},
	{state: platform.Gone, due: true, hasLast: true},
	{state: platform.Unsettled},
}

// attempt is the number of the last request.
func (r row02) attempt(n int) int {
	if r.state == platform.Wanted {
		return 1
	}
	return n + 1
}

func insert02(n int, it row02) string {
	record, polled, due, worker, operation := "NULL", "NULL", "NULL", "NULL, NULL", "NULL"
	if !it.isOrder {
		out := "null"
		if it.out != "" {
			out = `"` + it.out + `"`
		}
		record = fmt.Sprintf(`'{"attempt":%d,"out":%s,"plan":"%s","service":"%s","state":"%s","version":1}'`,
			it.attempt(n), out, thePlan, theService, it.state)
	}
	if it.isPolled {
		polled = fmt.Sprint(began + 2)
	}
	if it.due {
		due = fmt.Sprint(began + 3)
	}
	if it.worker != "" {
		worker = fmt.Sprintf("'%s', %f", it.worker, began+4)
	}
	if it.operation != "" {
		operation = "'" + it.operation + "'"
	}
	return fmt.Sprintf("INSERT INTO osb_instances VALUES "+
		"('%v', '%s', '%s', '%s', %s, %s, '%s', %f, %f, %s, %d, %s, %d, %s)",
		id(n), theService, thePlan, orText(it.parameters, "{}"), record, operation, it.state, began, began+1, polled,
		it.removal, due, it.unchanged, worker)
}

func orText(text, otherwise string) string {
	if text == "" {
		return otherwise
	}
	return text
}

func at(more int) time.Time {
	return time.UnixMilli(1700000000250).UTC().Add(time.Duration(more) * time.Second)
}

// want02 fails unless an entry is what the row of version 0.2 has.
func want02(t *testing.T, got platform.Entry, n int, it row02) {
	t.Helper()
	order := platform.Order{
		Key: instance(n), Broker: "default", Service: osb.MustParseID(theService), Plan: osb.MustParseID(thePlan),
		Names:        platform.Names{Instance: id(n).String(), Service: theService, Plan: thePlan},
		Organization: "osb-platform", Space: "osb-platform", Try: 1, Tries: 1, First: id(n),
	}
	body := string(got.Body)
	got.Order.Body = nil
	diff.Check(t, got.Order, order, "row %d: the order", n)
	diff.Equal(t, body, orText(it.parameters, "{}"), "row %d", n)
	polled, due, lease := time.Time{}, time.Time{}, platform.Lease{}
	if it.isPolled {
		polled = at(2)
	}
	if it.due && !it.isToRest {
		due = at(3)
	}
	if it.worker != "" {
		lease = platform.Lease{Worker: it.worker, Until: at(4)}
	}
	want := []any{it.state, at(0), at(1), polled, platform.Removal(it.removal), it.hasLast, due, it.unchanged, lease,
		!it.isOrder, it.operation}
	operation := ""
	if got.Operation != nil {
		operation = *got.Operation
	}
	have := []any{got.State, got.Since, got.SentUntil, got.PolledSince, got.Removal, got.HasLast, got.Due,
		got.Unchanged, got.Lease, got.IsSent, operation}
	diff.Equal(t, fmt.Sprint(have...), fmt.Sprint(want...), "row %d", n)
	if got.IsSent && (platform.StateOf(got.Record) != it.state || got.Record.Attempt() != uint64(it.attempt(n))) {
		t.Errorf("row %d: got the record %v, want its state and attempt", n, got.Record)
	}
}

// The rows of version 0.2, in every state, are read as they were, and gone on with.
func TestTablesOf02(t *testing.T) {
	url := pgtest.Schema(t, pgtest.URL(t), "osb_platform_of_02")
	db := pgtest.DB(t, url)
	pgtest.Exec(t, db, of02...)
	for n, old := range rows02 {
		pgtest.Exec(t, db, insert02(n, old))
	}
	const lives = "INSERT INTO osb_lives VALUES ('%v', 1, 'wanted', 7.5), ('%[1]v', 2, 'polling', 8)"
	pgtest.Exec(t, db, fmt.Sprintf(lives, id(7)))
	for n := 0; n < 2; n++ { // the second time nothing is left to do
		store := open(t, url)
		for n, old := range rows02 {
			entry := diff.Value(store.Read(background, instance(n)))(t)
			want02(t, entry, n, old)
		}
		life, err := store.Life(background, instance(7))
		if err != nil || len(life) != 2 || life[1].State != platform.Polling || life[0].Since.UnixMilli() != 7500 {
			t.Errorf("the life: got %v, %v, want both states with their times", life, err)
		}
		brokers, err := store.Brokers(background)
		if err != nil || len(brokers) != 1 || brokers[0].Name != "default" || brokers[0].User != "platform" ||
			brokers[0].URL != theBroker {
			t.Errorf("the brokers: got %+v, %v, want the one of version 0.2", brokers, err)
		}
		diff.NoError(t, store.Close(), "")
	}
	goOn02(t, open(t, url))
	rejected02(t, url)
}

// goOn02 steps the rows of version 0.2 that are due.
func goOn02(t *testing.T, store *postgres.Store) {
	t.Helper()
	defer store.Close()
	claimed, err := store.Claim(background, []string{"default"}, 100,
		storetest.Edit(func(e *platform.Entry, now time.Time) {
			e.State = platform.Abandoned
			e.Lease = platform.Lease{Worker: "me", Until: now.Add(time.Hour)}
		}))
	check(t, err)
	due := map[platform.Key]bool{}
	for n, old := range rows02 {
		due[instance(n)] = old.due && !old.isToRest
	}
	for _, row := range claimed {
		if row.Err != nil || !due[row.Key] {
			t.Errorf("got %v claimed (%v), want one that is due", row.Key, row.Err)
		}
		delete(due, row.Key)
		diff.Equal(t, len(diff.Value(store.Life(background, row.Key))(t)), 1, "the life of %v", row.Key)
	}
	for key, isDue := range due {
		diff.Equal(t, isDue, false, "%v isn't claimed", key)
	}
}

// rejected02 fails unless the tables reject what version 0.2 does when it starts, and when it orders.
func rejected02(t *testing.T, url string) {
	t.Helper()
	db := pgtest.DB(t, url)
	var asked string
	pgtest.Exec(t, db, "INSERT INTO osb_broker_asked VALUES (1, '"+theBroker+"') ON CONFLICT DO NOTHING")
	if err := db.QueryRow("SELECT url FROM osb_broker_asked").Scan(&asked); err != nil || asked == theBroker {
		t.Errorf("the broker that version 0.2 reads: got %q, %v, want another", asked, err)
	}
	const order = "INSERT INTO osb_instances (id, service, plan, further, state, since, removal, due, tries) " +
		"VALUES ('x', 'x', 'x', '{}', 'ordered', 1, 0, 1, 0)"
	diff.Equal(t, pg.IsCode(diff.Err(db.Exec(order)), "23502"), true, "an order of version 0.2 fails by a column")
}

// A store that was never asked by 0.2 has no broker.
func TestTablesOf02WithoutABroker(t *testing.T) {
	url := pgtest.Schema(t, pgtest.URL(t), "osb_platform_of_02_new")
	pgtest.Exec(t, pgtest.DB(t, url), of02[:len(of02)-1]...)
	store := open(t, url)
	defer store.Close()
	diff.Equal(t, len(diff.Value(store.Brokers(background))(t)), 0, "the brokers")
}

// The tables aren't extended while a worker of version 0.2 may run over them.
func TestAWorkerOf02(t *testing.T) {
	url := pgtest.Schema(t, pgtest.URL(t), "osb_platform_worker_02")
	db := pgtest.DB(t, url)
	pgtest.Exec(t, db, of02...)
	conn := diff.Value(db.Conn(background))(t)
	defer conn.Close()
	const name = "SELECT pg_advisory_lock(1869832816, 12345)" // as version 0.2 has it: osbp, and a digest
	diff.Value(conn.ExecContext(background, name))(t)
	_, err := postgres.Open(background, url, 1)
	diff.ErrorContains(t, err, "Stop all of its workers", "beside a worker")
	_, isLasting := pg.Remedy(err)
	diff.Equal(t, isLasting, true, "the error lasts")
	diff.Value(conn.ExecContext(background, "SELECT pg_advisory_unlock_all()"))(t)
	diff.NoError(t, open(t, url).Close(), "")
}

// Platforms that start at once create or extend the tables once.
func TestManyOpen(t *testing.T) {
	for _, test := range []struct {
		schema string
		tables []string
	}{{"osb_platform_many_new", nil}, {"osb_platform_many_02", of02}} {
		t.Run(test.schema, func(t *testing.T) {
			url := pgtest.Schema(t, pgtest.URL(t), test.schema)
			pgtest.Exec(t, pgtest.DB(t, url), test.tables...)
			var all sync.WaitGroup
			for n := 0; n < 6; n++ {
				all.Add(1)
				go func() {
					defer all.Done()
					store, err := postgres.Open(background, url, 1)
					if err != nil {
						t.Errorf("got %v, want no error", err)
						return
					}
					diff.NoError(t, store.Close(), "")
				}()
			}
			all.Wait()
		})
	}
}

// OpenExisting creates no tables, extends those of version 0.2, and opens those that are current.
func TestOpenExisting(t *testing.T) {
	url := pgtest.Schema(t, pgtest.URL(t), "osb_platform_existing")
	db := pgtest.DB(t, url)
	_, err := postgres.OpenExisting(background, url, 1)
	if _, isLasting := pg.Remedy(err); !errors.Is(err, platform.ErrNoStore) || !isLasting {
		t.Errorf("without tables: got %v, want a lasting %v", err, platform.ErrNoStore)
	}
	var relations int
	query := "SELECT count(*) FROM pg_class WHERE relnamespace = 'osb_platform_existing'::regnamespace"
	if err := db.QueryRow(query).Scan(&relations); err != nil || relations != 0 {
		t.Errorf("got %d relations (%v), want none", relations, err)
	}
	pgtest.Exec(t, db, of02...)
	for _, tables := range []string{"those of version 0.2", "those of this version"} {
		store, err := postgres.OpenExisting(background, url, 1)
		check(t, err)
		diff.Equal(t, len(diff.Value(store.Brokers(background))(t)), 1, "%s", tables)
		diff.NoError(t, store.Close(), "")
	}
}

// The columns that the tables of an earlier version lack are added when a store is opened, with zero values, and are
// used. Here they are some of today's.
func TestMissingColumns(t *testing.T) {
	url := pgtest.Schema(t, pgtest.URL(t), "osb_platform_columns")
	db := pgtest.DB(t, url)
	pgtest.Exec(t, db, of02...)
	pgtest.Exec(t, db, insert02(0, rows02[7]))
	entry := platform.Entry{
		Order: platform.Order{
			Key: instance(1), Broker: "default", Organization: "o", Space: "s",
			Body: []byte("{}"), Names: platform.Names{Instance: id(1).String()}, Try: 1, Tries: 1, First: id(1),
		},
		Dashboard: "https://one.example", Because: "nobody wants it", Unchanged: 2, Passing: true, After: time.Minute,
		State: platform.Ordered, Since: at(0), PolledSince: at(1),
	}
	for n, lost := range []string{"", "because", "space", "tries", "passing", "after", "polled_since", "credentials"} {
		if lost != "" {
			pgtest.Exec(t, db, "ALTER TABLE osb_instances DROP COLUMN IF EXISTS "+lost, "ALTER TABLE osb_bound DROP COLUMN "+lost)
		}
		store := open(t, url)
		got := diff.Value(store.Read(background, instance(0)))(t)
		diff.Equal(t, got.State, platform.Ready, "without %q: state", lost)
		diff.Equal(t, got.Because, "", "without %q: because", lost)
		bound := entry
		entry.Key, bound.Key = instance(n+1), osb.BindingKey(id(n+1), id(n+1))
		bound.Names.Binding, bound.Credentials = "binding", []byte{0, 1}
		for _, want := range []platform.Entry{entry, bound} {
			check(t, store.Insert(background, want, func(platform.Snapshot) error { return nil }))
			got = diff.Value(store.Read(background, want.Key))(t)
			diff.Check(t, got, want, "without %q", lost)
		}
		diff.NoError(t, store.Close(), "")
	}
}

// A role that may not change tables serves tables that need no change, and the error says what to do about others. So
// no command has a statement that locks a table: each needs the owner.
func TestARoleThatMayNotAlter(t *testing.T) {
	url := pgtest.Schema(t, pgtest.URL(t), "osb_platform_rights")
	db := pgtest.DB(t, url)
	pgtest.Exec(t, db, of02...)
	pgtest.Exec(t, db, insert02(7, rows02[7]), "DROP ROLE IF EXISTS osb_platform_writer",
		"CREATE ROLE osb_platform_writer LOGIN PASSWORD 'x'",
		"GRANT USAGE ON SCHEMA osb_platform_rights TO osb_platform_writer",
		"ALTER DEFAULT PRIVILEGES IN SCHEMA osb_platform_rights "+
			"GRANT SELECT, INSERT, UPDATE, DELETE ON TABLES TO osb_platform_writer",
		"GRANT SELECT, INSERT, UPDATE, DELETE ON ALL TABLES IN SCHEMA osb_platform_rights TO osb_platform_writer")
	t.Cleanup(func() { pgtest.Exec(t, db, "DROP OWNED BY osb_platform_writer", "DROP ROLE osb_platform_writer") })
	as := pgtest.As(t, url, "osb_platform_writer", "x")
	if _, err := postgres.Open(background, as, 1); err == nil || !strings.Contains(err.Error(), "as their owner") {
		t.Errorf("before the tables were extended: got %v, want an error with \"as their owner\"", err)
	}
	owner := open(t, url)
	addBroker(t, owner)
	_ = owner.Close()
	store := diff.Value(postgres.Open(background, as, 2))(t)
	defer store.Close()
	for name, call := range calls(store, instance(7), binding(1, 7)) {
		diff.NoError(t, call(background), "%s", name)
	}
}

// While others have locked whole tables against all that locks a row, what only reads goes on. So no command starts
// that waits for a worker, and none keeps a worker waiting.
func TestReadingLocksNothing(t *testing.T) {
	url := pgtest.Schema(t, pgtest.URL(t), "osb_platform_reading")
	store := open(t, url)
	defer store.Close()
	insert(t, store, instance(1), binding(1, 1))
	tx := diff.Value(pgtest.DB(t, url).Begin())(t)
	defer func() { _ = tx.Rollback() }()
	const lock = "LOCK TABLE osb_instances, osb_bound, osb_lives, osb_brokers, osb_broker_asked, osb_platform " +
		"IN EXCLUSIVE MODE"
	diff.Value(tx.Exec(lock))(t)
	run(t, tx, "SELECT pg_advisory_xact_lock($1)", 0x6F73625F696E7374) // of those that create the tables
	ctx, cancel := context.WithTimeout(background, 10*time.Second)
	defer cancel()
	second, err := postgres.Open(ctx, url, 1)
	diff.Must(t, err)
	defer second.Close()
	for name, call := range storetest.Reads(second, instance(1)) {
		done := make(chan error, 1)
		go func() { done <- call(background) }()
		select {
		case err := <-done:
			diff.NoError(t, err, "%s", name)
		case <-ctx.Done():
			t.Fatalf("%s: got no end in time, want one", name)
		}
	}
}

func TestAnotherEncoding(t *testing.T) {
	url := pgtest.URL(t)
	db := pgtest.DB(t, url)
	pgtest.Exec(t, db, "DROP DATABASE IF EXISTS osb_platform_latin1",
		"CREATE DATABASE osb_platform_latin1 ENCODING 'LATIN1' LOCALE 'C' TEMPLATE template0")
	t.Cleanup(func() { pgtest.Exec(t, db, "DROP DATABASE osb_platform_latin1 WITH (FORCE)") })
	_, err := postgres.Open(background, pgtest.In(t, url, "osb_platform_latin1"), 1)
	if err == nil || !strings.Contains(err.Error(), "LATIN1") {
		t.Errorf("Open: got %v, want an error with \"LATIN1\"", err)
	}
}

// A prefix chooses its rows also if the database compares digits by the value of the whole number.
func TestPrefixInAnOddOrder(t *testing.T) {
	url := pgtest.URL(t)
	db := pgtest.DB(t, url)
	pgtest.Exec(t, db, "DROP DATABASE IF EXISTS osb_platform_numeric")
	if _, err := db.Exec("CREATE DATABASE osb_platform_numeric LOCALE_PROVIDER icu ICU_LOCALE 'en-US-u-kn-true' " +
		"LOCALE 'C' ENCODING 'UTF8' TEMPLATE template0"); err != nil {
		t.Skipf("the server has no such order, as before PostgreSQL 15: %v", err)
	}
	t.Cleanup(func() { pgtest.Exec(t, db, "DROP DATABASE osb_platform_numeric WITH (FORCE)") })
	store := open(t, pgtest.In(t, url, "osb_platform_numeric"))
	defer store.Close()
	insert(t, store, instance(0x2002), instance(0x20bb), instance(0x2f00), instance(0x3000))
	rows := diff.Value(store.List(background, platform.Filter{Prefix: id(0x2000).String()[:33]}))(t)
	diff.Equal(t, len(rows), 3, "rows")
}

// A broker and a platform use one database.
func TestBesideABroker(t *testing.T) {
	url := pgtest.Schema(t, pgtest.URL(t), "osb_platform_beside")
	check(t, openBroker(url))
	store := open(t, url)
	defer store.Close()
	insert(t, store, instance(1), binding(1, 1))
	check(t, openBroker(url))
}
