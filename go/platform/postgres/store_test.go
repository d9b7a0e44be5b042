package postgres_test

import (
	"context"
	"database/sql"
	"fmt"
	"net/url"
	"os"
	"sync"
	"testing"
	"time"

	"pippinterm/broker"
	brokerpostgres "pippinterm/broker/postgres"
	"pippinterm/internal/diff"
	"pippinterm/internal/pg"
	"pippinterm/internal/pg/pgtest"
	"pippinterm/internal/storefaults"
	"pippinterm/platform"
	"pippinterm/platform/postgres"
	"pippinterm/platform/storetest"
)

var background = context.Background()

// schemas gives each test a schema of its own.
type schemas struct {
	turn sync.Mutex
	urls map[string]string
}

func (s *schemas) url(t *testing.T) string {
	s.turn.Lock()
	defer s.turn.Unlock()
	name := "osb_platform_" + storetest.NameOf(t)
	if s.urls[name] == "" {
		s.urls[name] = pgtest.Schema(t, pgtest.URL(t), name)
	}
	return s.urls[name]
}

func TestStore(t *testing.T) {
	pgtest.URL(t)
	all := &schemas{urls: map[string]string{}}
	storetest.Test(t, func(t *testing.T) platform.Store { return open(t, all.url(t)) })
}

// A worker that is paused between two statements, while another one goes on over the same database.
func TestPausedWorker(t *testing.T) {
	pgtest.URL(t)
	all := &schemas{urls: map[string]string{}}
	storetest.TestPausedWorker(t, func(t *testing.T) platform.Store { return open(t, all.url(t)) })
}

func open(t testing.TB, url string) *postgres.Store {
	t.Helper()
	return diff.Value(postgres.Open(background, url, 4))(t)
}

// openBroker opens and closes a broker's store.
func openBroker(url string) error {
	store, err := brokerpostgres.Open(background, url, 1, broker.Silent{})
	if err != nil {
		return err
	}
	return store.Close()
}

// deadline is how long a test waits for something that must happen.
const deadline = time.Minute

// count is a step that counts its calls, in the row too.
func count(calls *int) platform.Step {
	return storetest.Edit(func(e *platform.Entry, _ time.Time) {
		*calls++
		e.Unchanged++
	})
}

// countStays is how often a row was counted.
func countStays(t *testing.T, store platform.Store, key platform.Key) int {
	t.Helper()
	entry := diff.Value(store.Read(background, key))(t)
	return entry.Unchanged
}

// await waits until a query over a database gives true.
func await(t *testing.T, db *sql.DB, what, query string, parameters ...any) {
	t.Helper()
	for until := time.Now().Add(deadline); ; time.Sleep(5 * time.Millisecond) {
		var is bool
		check(t, db.QueryRow(query, parameters...).Scan(&is))
		if is {
			return
		}
		if time.Now().After(until) {
			t.Fatalf("got no end of the wait until %s, want it", what)
		}
	}
}

// isWaiting selects whether a session of an application waits for a lock.
const isWaiting = "SELECT EXISTS (SELECT FROM pg_stat_activity " +
	"WHERE application_name = $1 AND wait_event_type = 'Lock')"

// terminate ends the sessions of an application.
func terminate(t *testing.T, application string) {
	t.Helper()
	db := pgtest.DB(t, pgtest.URL(t))
	diff.Value(db.Exec("SELECT pg_terminate_backend(pid, 5000) FROM pg_stat_activity WHERE application_name = $1",
		application))(t)
}

// schemaNamed is a URL of a schema of its own, whose sessions have its name.
func schemaNamed(t *testing.T, name string) string {
	t.Helper()
	return pgtest.With(t, pgtest.Schema(t, pgtest.URL(t), name), "application_name", name)
}

// begin begins a transaction, which is rolled back at the end of the test.
func begin(t *testing.T, url string) *sql.Tx {
	t.Helper()
	tx := diff.Value(pgtest.DB(t, pgtest.With(t, url, "application_name", "of the test")).Begin())(t)
	t.Cleanup(func() { _ = tx.Rollback() })
	return tx
}

func run(t *testing.T, tx *sql.Tx, statement string, parameters ...any) {
	t.Helper()
	diff.Value(tx.Exec(statement, parameters...))(t)
}

// inDatabase runs the tests in a database of their own, on the server that the environment names. Some of them look for
// workers in the whole of their database, and the tests of other packages run workers meanwhile.
func inDatabase(m *testing.M) int {
	address := os.Getenv(pgtest.Variable)
	if address == "" {
		return m.Run()
	}
	status, err := within(address, m.Run)
	if err != nil {
		fmt.Fprintln(os.Stderr, "the database of the tests:", err)
		return 1
	}
	return status
}

// within calls run with a new database in the environment, and drops it.
func within(address string, run func() int) (status int, err error) {
	const name = "osb_platform_tests"
	parsed, err := url.Parse(address)
	if err != nil {
		return 0, err
	}
	parsed.Path = "/" + name
	db, err := pg.Open(address, pg.Options{Most: 1, Lock: deadline, Statement: deadline, Idle: time.Minute})
	if err != nil {
		return 0, err
	}
	defer db.Close()
	const drop = "DROP DATABASE IF EXISTS " + name + " WITH (FORCE)"
	if err := execute(db, drop, "CREATE DATABASE "+name+" ENCODING 'UTF8' TEMPLATE template0"); err != nil {
		return 0, err
	}
	if err := os.Setenv(pgtest.Variable, parsed.String()); err != nil {
		return 0, err
	}
	status = run()
	return status, execute(db, drop)
}

func execute(db *sql.DB, statements ...string) error {
	for _, statement := range statements {
		if _, err := db.Exec(statement); err != nil {
			return fmt.Errorf("%s: %w", statement, err)
		}
	}
	return nil
}

// What every store must do if one of its statements fails.
func TestFaults(t *testing.T) {
	pgtest.URL(t)
	all := &schemas{urls: map[string]string{}}
	connected := map[string]*sql.DB{}
	executed := func(t *testing.T, statement string) {
		url := all.url(t)
		if connected[url] == nil {
			connected[url] = pgtest.DB(t, url)
		}
		pgtest.Exec(t, connected[url], statement)
	}
	storetest.TestFaults(t, storetest.Faulty{
		Open: func(t *testing.T) (platform.Store, *storefaults.Countdown) {
			proxy, url := storefaults.NewProxy(t, all.url(t))
			return open(t, url), &proxy.Countdown
		},
		Beside: func(t *testing.T) platform.Store { return open(t, all.url(t)) },
		Empty: func(t *testing.T) {
			executed(t, "TRUNCATE osb_instances, osb_bound, osb_lives, osb_brokers; UPDATE osb_platform SET fingerprint = NULL")
		},
		Spoil: func(t *testing.T, broker string) {
			executed(t, "UPDATE osb_brokers SET settings = 'x' WHERE name = '"+broker+"'")
		},
		Faults: []storefaults.Fault{storefaults.Refused, storefaults.Cut, storefaults.Lost, storefaults.Broken},
	})
}

// Each statement of Open fails once, over an empty schema: the error is returned, and the store can be opened later.
func TestOpeningThatFails(t *testing.T) {
	proxy, url := storefaults.NewProxy(t, pgtest.Schema(t, pgtest.URL(t), "osb_platform_opening"))
	for n, failed := 1, "none yet"; failed != ""; n++ {
		proxy.Fail(n, storefaults.Refused)
		store, err := postgres.Open(background, url, 2)
		failed = proxy.FailedStatement()
		proxy.Fail(0, storefaults.Refused)
		if (failed != "") != (err != nil) && !storefaults.IsBegin(failed) {
			t.Errorf("%q has failed: got %v, want an error exactly then", failed, err)
		}
		if err == nil {
			_ = store.Close()
		}
	}
}

// How many round trips the calls of a step take, once the store has a session with its statements. A step is a claim,
// together with others, and a change.
func TestRoundTrips(t *testing.T) {
	proxy, url := storefaults.NewProxy(t, schemaNamed(t, "osb_platform_trips"))
	store := open(t, url)
	defer store.Close()
	for n := 0; n < 20; n++ {
		insert(t, store, instance(n), binding(n, n))
	}
	nothing := func(time.Time, platform.Snapshot) (*platform.Change, error) { return nil, nil }
	for _, key := range []platform.Key{instance(1), binding(1, 1)} {
		check(t, store.Change(background, key, nothing))
	}
	diff.Value(store.Claim(background, []string{"one"}, 1, count(new(int))))(t)
	lease := func(state platform.State) platform.Step {
		return storetest.Edit(func(e *platform.Entry, now time.Time) {
			e.State, e.Lease = state, platform.Lease{Worker: "me", Until: now.Add(time.Hour)}
		})
	}
	gone := func(_ time.Time, snapshot platform.Snapshot) (*platform.Change, error) {
		if is, err := snapshot.AllGone(); err != nil || !is {
			t.Errorf("AllGone: got %t, %v, want true", is, err)
		}
		snapshot.Entry.Unchanged++
		return &platform.Change{Entry: snapshot.Entry}, nil
	}
	for _, test := range []struct {
		name string
		want int
		call func() error
	}{
		{"a claim of 30 rows", 4, func() error {
			claimed, err := store.Claim(background, []string{"one", "two"}, 30, lease(platform.Wanted))
			diff.Equal(t, len(claimed), 30, "claimed")
			return err
		}},
		{"a change of an instance", 4, func() error {
			return store.Change(background, instance(1), lease(platform.Ready))
		}},
		{"a change of a binding", 4, func() error {
			return store.Change(background, binding(1, 1), lease(platform.Ready))
		}},
		{"a change that looks for bindings", 5, func() error { return store.Change(background, instance(1), gone) }},
		{"a claim of nothing", 3, func() error {
			_, err := store.Claim(background, []string{"two"}, 30, lease(platform.Wanted))
			return err
		}},
		{"a new binding", 5, func() error { return store.Insert(background, order(binding(99, 1)), accept) }},
		{"a new instance", 4, func() error { return store.Insert(background, order(instance(99)), accept) }},
		{"reading", 1, func() error { return diff.Err(store.Read(background, instance(1))) }},
		{"when the next is due", 1, func() error {
			_, _, err := store.NextDue(background, []string{"one"})
			return err
		}},
	} {
		t.Run(test.name, func(t *testing.T) {
			proxy.Tally()
			diff.NoError(t, test.call(), "%s", test.name)
			diff.Equal(t, proxy.Tally().Trips, test.want, "%s: round trips", test.name)
		})
	}
}

var check = diff.Must
