package postgres

import (
	"context"
	"database/sql"
	"errors"
	"math/rand"
	"runtime"
	"strings"
	"testing"
	"time"

	"pippinterm/internal/diff"
	"pippinterm/internal/pg/pgtest"
	"pippinterm/platform"
)

// A statement that brings the tables up to date may run for longer than others, but not for ever. Whoever waits until
// another platform has done so changes nothing.
func TestExtensionOfTheTables(t *testing.T) {
	url := pgtest.Schema(t, pgtest.URL(t), "osb_platform_extension")
	store := &Store{url: url, db: pgtest.DB(t, url)}
	check(t, store.migrate(context.Background(), func(ctx context.Context, tx *sql.Tx) (bool, error) {
		var limit string
		if err := tx.QueryRowContext(ctx, "SHOW statement_timeout").Scan(&limit); err != nil || limit != "15min" {
			t.Errorf("the longest statement: got %s, %v, want 15min", limit, err)
		}
		for _, want := range []bool{true, false} {
			diff.Equal(t, diff.Value(extend(ctx, tx))(t), want, "")
		}
		return true, nil
	}))
}

// A column that is added has the type that it has in the tables of version 0.3.
func TestTypesOfColumns(t *testing.T) {
	url := pgtest.Schema(t, pgtest.URL(t), "osb_platform_types")
	store := diff.Value(Open(context.Background(), url, 1))(t)
	defer store.Close()
	db := pgtest.DB(t, url)
	for _, column := range rowColumns {
		var found string
		err := db.QueryRow("SELECT format_type(atttypid, atttypmod) FROM pg_attribute "+
			"WHERE attrelid = 'osb_bound'::regclass AND attname = $1", column.Name).Scan(&found)
		diff.NoError(t, err, "%s", column.Name)
		diff.Equal(t, found, typeOf(column), "%s: found", column.Name)
	}
}

// The session of a worker's right lives as long as it answers.
func TestARightLives(t *testing.T) {
	store := diff.Value(Open(context.Background(), pgtest.Schema(t, pgtest.URL(t), "osb_platform_right_lives"), 1))(t)
	defer store.Close()
	it := diff.Value(store.right(context.Background(), "osb_platform_right_lives"))(t)
	for range [2]int{} {
		diff.Equal(t, it.lives(), true, "the session lives")
	}
	it.close()
	diff.Equal(t, it.lives(), false, "the session lives once it is closed")
}

// A time is read as it was written, to the microsecond, and a position in a list finds its row again.
func TestTimes(t *testing.T) {
	random := rand.New(rand.NewSource(1))
	for n := 0; n < 10000; n++ {
		at := time.UnixMicro(random.Int63n(4e15)).UTC() // until 2096
		text := written(at.Add(time.Duration(random.Intn(1000))))
		var read time.Time
		if _, err := readInto(&read, valuesOf(text)); err != nil || !read.Equal(at) {
			t.Fatalf("%[1]v, written as %[2]s: got %[3]v, %[4]v, want %[1]v", at, text, read, err)
		}
		diff.Equal(t, string(written(read)), string(text), "%s", text)
	}
	for text, want := range map[string]time.Time{
		"null": {}, "0": time.Unix(0, 0), "1.5": time.UnixMilli(1500), "-0.25": time.UnixMilli(-250),
		"1700000000.1234567": time.UnixMicro(1700000000123457), // version 0.2 has written fractions of microseconds
	} {
		t.Run(text, func(t *testing.T) {
			var read time.Time
			if _, err := readInto(&read, valuesOf([]byte(text))); err != nil || !read.Equal(want) {
				t.Errorf("got %v, %v, want %v", read, err, want)
			}
		})
	}
}

// What has to be looked at stays due if it was, and is due now otherwise.
func TestSoonest(t *testing.T) {
	now := time.Unix(100, 0)
	for _, test := range []struct{ due, want time.Time }{
		{time.Time{}, now}, {now.Add(time.Hour), now}, {now, now}, {now.Add(-time.Hour), now.Add(-time.Hour)},
	} {
		t.Run(test.due.UTC().String(), func(t *testing.T) {
			diff.Check(t, soonest(test.due, now), test.want, "due at %v", test.due)
		})
	}
}

func TestPadded(t *testing.T) {
	for prefix, want := range map[string]string{
		"":           "ffffffff-ffff-ffff-ffff-ffffffffffff",
		"12345678-9": "12345678-9fff-ffff-ffff-ffffffffffff",
		"1\x00":      "1\uFFFDffff-ffff-ffff-ffff-ffffffffffff", // no id begins so
		"longer than any of the ids that there are": "longer than any of the ids that there are",
	} {
		t.Run(prefix, func(t *testing.T) {
			diff.Equal(t, pad(prefix, "f"), want, "")
		})
	}
}

// Once a call has returned because its context has ended, no function is called that its caller has passed.
func TestACallThatIsLeft(t *testing.T) {
	ctx, cancel := context.WithCancel(context.Background())
	release, left := make(chan struct{}), make(chan error, 1)
	isCalled := false
	store := &Store{}
	err := store.run(ctx, func(this *call) error {
		cancel()
		<-release
		err := this.do(func() error {
			isCalled = true
			return nil
		})
		left <- err
		return err
	})
	diff.ErrorIs(t, err, platform.ErrAway, "the call")
	diff.ErrorIs(t, err, context.Canceled, "the call")
	close(release)
	if err := <-left; !errors.Is(err, errOver) || isCalled {
		t.Errorf("after the call: got %v and a call %t, want %v and none", err, isCalled, errOver)
	}
	store.running.Wait() // Close doesn't wait for what was left
}

// A call whose context ends returns what its work returns soon after.
func TestACallThatEndsItself(t *testing.T) {
	ctx, cancel := context.WithCancel(context.Background())
	wrong := errors.New("wrong")
	value, err := within(ctx, &Store{}, func(this *call) (int, error) {
		cancel()
		time.Sleep(10 * time.Millisecond)
		return 7, this.do(func() error { return wrong })
	})
	diff.Equal(t, value, 7, "value")
	diff.ErrorIs(t, err, wrong, "")
}

// A function that panics, or that ends its goroutine, is an error.
func TestAFunctionThatDoesNotReturn(t *testing.T) {
	ctx, cancel := context.WithCancel(context.Background())
	defer cancel()
	for name, passed := range map[string]func() error{
		"panics": func() error { panic("a bug") }, "ends": func() error { runtime.Goexit(); return nil },
	} {
		t.Run(name, func(t *testing.T) {
			diff.Error(t, (&Store{}).run(ctx, func(this *call) error { return this.do(passed) }), "one that %s", name)
		})
	}
}

// Rows of which few are due, and few are leased. All have the same order.
const manyRows = `
INSERT INTO osb_brokers (name, url, username, password_file, settings) VALUES ('one', 'http://one', '', '', '{}');
INSERT INTO osb_instances (id, service, plan, further, names, state, since, removal, tries, due, broker, worker,
        leased_until, record)
    SELECT '00000000-0000-4000-8000-' || lpad(to_hex(n), 12, '0'), 's', 'p', '{}', '{}', 'ready', n, 0, 0,
        CASE WHEN n % 1000 = 0 THEN n END, 'one', CASE WHEN n % 2000 = 0 THEN 'me' END, n, '{}'
    FROM generate_series(1, 20000) AS n;
INSERT INTO osb_bound (id, binding, service, plan, further, names, state, since, removal, tries, due, broker,
        organization, space, own_id, try_number, most_tries, first, has_last, passing, after, worker, leased_until, record)
    SELECT id, id, service, plan, further, names, state, since, removal, tries, due, broker,
        organization, space, own_id, try_number, most_tries, id, has_last, passing, after, worker, leased_until, record
    FROM osb_instances;
INSERT INTO osb_lives SELECT id, 1, state, since FROM osb_instances;
`

// What is asked for often is read from an index, whether the server plans for the parameters or for any: it takes as
// long with many rows as with few.
func TestQueriesUseIndexes(t *testing.T) {
	url := pgtest.Schema(t, pgtest.URL(t), "osb_platform_plans")
	store := diff.Value(Open(context.Background(), url, 1))(t)
	defer store.Close()
	db := pgtest.DB(t, url)
	pgtest.Exec(t, db, manyRows, "ANALYZE osb_instances, osb_bound, osb_lives")
	conn := diff.Value(db.Conn(context.Background()))(t)
	defer conn.Close()
	const key = "00000000-0000-4000-8000-000000000007"
	const text = `[{"id": "` + key + `"}]`
	byKey, _, err := listing(platform.Filter{Order: platform.ByKey, Most: 10})
	check(t, err)
	ready := []platform.State{platform.Ready}
	asOf, _, err := listing(platform.Filter{AsOf: "20580-7-1", Order: platform.ByTime, States: ready, Most: 10})
	check(t, err)
	queries := map[string]struct{ query, values string }{
		"lockDue":        {lockDue, "'{one}', 16, 96"},
		"nextDue":        {nextDue, "'{one}'"},
		"oldestDue":      {oldestDue, ""},
		"lockInstance":   {lockInstance, quote(key)},
		"lockBinding":    {lockBinding, quote(key, key)},
		"writeRows":      {writeRows, quote(text, text, text, "{"+key+"}", "{"+key+"}")},
		"boundOf":        {boundOf, quote("{"+key+"}", "{}")},
		"removeBindings": {removeBindings, quote("{"+key+"}") + ", 1"},
		"wakeInstances":  {wakeInstances, quote("{"+key+"}") + ", 1"},
		"inFlight":       {inFlight, "10"},
		"readAll":        {readAll, quote("{"+key+"}", "{"+key+"}")},
		"byKey":          {byKey, ""},
		"asOf":           {asOf, quote("ready", "ready", "ready", "ready")},
		"leasedBy":       {leasedBy, quote("me")},
	}
	for name, row := range queries {
		t.Run(name, func(t *testing.T) {
			for _, mode := range []string{"force_custom_plan", "force_generic_plan"} {
				wantIndexed(t, conn, row.query, row.values, mode)
			}
		})
	}
}

// A claim reads the rows that are due in the order of an index, also if the server has no statistics of them.
func TestAClaimWithoutStatistics(t *testing.T) {
	url := pgtest.Schema(t, pgtest.URL(t), "osb_platform_burst")
	store := diff.Value(Open(context.Background(), url, 1))(t)
	defer store.Close()
	pgtest.Exec(t, pgtest.DB(t, url), "ALTER TABLE osb_instances SET (autovacuum_enabled = false)", manyRows,
		"UPDATE osb_instances SET due = 1, worker = NULL")
	conn := diff.Value(store.db.Conn(context.Background()))(t)
	defer conn.Close()
	plan := planOf(t, conn, lockDue, "('{one}', 16, 96)", "force_custom_plan")
	diff.Lacks(t, plan, "Bitmap", "the plan")
	diff.Contains(t, plan, "Index Scan using osb_due_instances_of", "the plan")
}

func quote(texts ...string) string { return "'" + strings.Join(texts, "', '") + "'" }

// wantIndexed fails if a plan reads a table from end to end.
func wantIndexed(t *testing.T, conn *sql.Conn, query, values, mode string) {
	t.Helper()
	if values != "" {
		values = "(" + values + ")"
	}
	diff.Lacks(t, planOf(t, conn, query, values, mode), "Seq Scan on osb_", "%s, of %s", mode, query)
}

// planOf is the plan of a query, as the server explains it.
func planOf(t *testing.T, conn *sql.Conn, query, values, mode string) string {
	t.Helper()
	ctx := context.Background()
	for _, statement := range []string{"SET plan_cache_mode = " + mode, "PREPARE planned AS " + query} {
		diff.Value(conn.ExecContext(ctx, statement))(t)
	}
	rows, err := conn.QueryContext(ctx, "EXPLAIN EXECUTE planned "+values)
	plan := []string{}
	err = each(rows, err, func(rows *sql.Rows) error {
		var step string
		err := rows.Scan(&step)
		plan = append(plan, step)
		return err
	})
	if err == nil {
		_, err = conn.ExecContext(ctx, "DEALLOCATE planned")
	}
	check(t, err)
	return strings.Join(plan, "\n")
}

var check = diff.Must
