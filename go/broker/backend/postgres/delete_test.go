package postgres_test

import (
	"context"
	"database/sql"
	"encoding/json"
	"fmt"
	"os"
	"strings"
	"sync"
	"syscall"
	"testing"
	"time"

	"pippinterm/broker"
	"pippinterm/broker/backend/postgres"
	"pippinterm/internal/diff"
	"pippinterm/internal/pg/pgtest"
	"pippinterm/internal/storefaults"
	"pippinterm/osb"
)

// Nothing that a customer leaves open or changes keeps its database from being deleted, or created anew.
func TestWhatACustomerHolds(t *testing.T) {
	r, d := newDatabases(t)
	for _, test := range []struct {
		name       string
		statements []string
	}{
		{"the lock of the database", []string{"BEGIN", "COMMENT ON DATABASE $name IS 'x'"}},
		{"the row of the database", []string{"BEGIN", "ALTER DATABASE $name CONNECTION LIMIT 1"}},
		{"the row of the role", []string{"BEGIN", "ALTER ROLE $name PASSWORD 'x'"}},
		{"a table", []string{"CREATE TABLE t (x integer)", "BEGIN", "LOCK TABLE t"}},
		{"a database that is a template", []string{"ALTER DATABASE $name IS_TEMPLATE true"}},
		{"settings of the database", []string{"ALTER DATABASE $name SET default_transaction_read_only = on"}},
		{"a large object", []string{"SELECT lo_create(0)"}},
	} {
		t.Run(test.name, func(t *testing.T) {
			deleted, anew := createInstance(t, d), createInstance(t, d)
			for _, of := range []lockedKey{deleted, anew} {
				hold(t, r.customer(of.request.Key), statementsOf(test.statements, of.request.Key)...)
			}
			wantQuick(t, "Delete", func() error { return d.Delete(deleted.ctx, deleted.request) })
			wantThere(t, d, deleted, broker.None)
			wantQuick(t, "Create", func() error { return d.Create(anew.ctx, anew.request) })
			wantThere(t, d, anew, broker.Whole)
		})
	}
}

// statementsOf are statements about the database of a key.
func statementsOf(statements []string, key broker.Key) (of []string) {
	for _, statement := range statements {
		of = append(of, strings.ReplaceAll(statement, "$name", postgres.NameOf(key)))
	}
	return of
}

// wantQuick fails if a call has to wait for a lock, as it does for 2 s each.
func wantQuick(t *testing.T, what string, call func() error) {
	t.Helper()
	begin := time.Now()
	diff.NoError(t, call(), "%s", what)
	if took := time.Since(begin); took > 8*time.Second {
		t.Errorf("%s: got %v, want at most %v", what, took, 8*time.Second)
	}
}

// A prepared transaction keeps the database, but not its customer, and holds up no worker.
func TestAPreparedTransaction(t *testing.T) {
	r := newRig(t)
	if r.exists("pg_settings WHERE name = 'max_prepared_transactions' AND setting = '0'") {
		t.Skip("max_prepared_transactions is 0 on this server")
	}
	d := r.open()
	it := createInstance(t, d)
	name := postgres.NameOf(it.request.Key)
	hold(t, r.customer(it.request.Key), "BEGIN", "CREATE TABLE t ()", "PREPARE TRANSACTION '"+name+"'")
	begin := time.Now()
	err := d.Delete(it.ctx, it.request)
	took := time.Since(begin)
	if err == nil || !strings.Contains(err.Error(), "ROLLBACK PREPARED") || took > 8*time.Second {
		t.Errorf("Delete: got %v after %v, want one of prepared transactions within 8 s", err, took)
	}
	wantThere(t, d, it, broker.Part)
	diff.Error(t, r.customer(it.request.Key).Ping(), "a login of the customer")
	diff.Equal(t, r.exists("pg_roles WHERE rolname = $1 AND rolcanlogin", name), false,
		"a role that can log in to other databases")
	pgtest.Exec(t, r.admin, "ALTER DATABASE "+name+" ALLOW_CONNECTIONS true")
	operator := pgtest.DB(t, pgtest.In(t, pgtest.URL(t), name))
	pgtest.Exec(t, operator, "ROLLBACK PREPARED '"+name+"'")
	_ = operator.Close() // the broker can't end a superuser's session
	diff.NoError(t, d.Delete(it.ctx, it.request), "Delete once it has ended")
	r.wantNothing(it.request.Key)
}

// What another customer grants to the role, in its own database, keeps nothing either: done, or in an open transaction.
// Its session goes on if it is in no transaction.
func TestWhatAnotherCustomerHolds(t *testing.T) {
	r, d := newDatabases(t)
	for _, test := range []struct {
		name       string
		statements []string
	}{
		{"granted", []string{"GRANT SELECT ON t TO $name", "GRANT CONNECT ON DATABASE $other TO $name"}},
		{"granted by default", []string{"ALTER DEFAULT PRIVILEGES GRANT SELECT ON TABLES TO $name"}},
		{"in a policy", []string{"CREATE POLICY p ON t TO $name"}},
		{"in a transaction", []string{"BEGIN", "GRANT SELECT ON t TO $name"}},
		{"and its settings are in the way", []string{"GRANT SELECT ON t TO $name",
			"ALTER DATABASE $other SET role = '$other'", "ALTER DATABASE $other SET default_transaction_read_only = on"}},
		{"and its settings have the broker wait", []string{"GRANT SELECT ON t TO $name",
			"ALTER DATABASE $other SET default_transaction_isolation = serializable",
			"ALTER DATABASE $other SET default_transaction_read_only = on",
			"ALTER DATABASE $other SET default_transaction_deferrable = on",
			"BEGIN ISOLATION LEVEL SERIALIZABLE", "INSERT INTO t VALUES (1)"}},
		{"and takes the right to connect away", []string{"GRANT SELECT ON t TO $name",
			"REVOKE ALL ON DATABASE $other FROM $other"}},
		{"and lets nobody in", []string{"GRANT SELECT ON t TO $name", "ALTER DATABASE $other CONNECTION LIMIT 0"}},
		{"and changes it in a transaction", []string{"GRANT SELECT ON t TO $name", "BEGIN",
			"ALTER TABLE t ADD COLUMN y integer"}},
		{"and keeps it so", []string{"GRANT SELECT ON t TO $name", "ALTER DATABASE $other CONNECTION LIMIT 0", "BEGIN",
			"ALTER DATABASE $other CONNECTION LIMIT 0"}},
	} {
		t.Run(test.name, func(t *testing.T) {
			of, other := createInstance(t, d), createInstance(t, d)
			statements := statementsOf(append([]string{"CREATE TABLE t (x integer)"}, test.statements...), of.request.Key)
			for n := range statements {
				statements[n] = strings.ReplaceAll(statements[n], "$other", postgres.NameOf(other.request.Key))
			}
			session := hold(t, r.customer(other.request.Key), statements...)
			wantQuick(t, "Delete", func() error { return d.Delete(of.ctx, of.request) })
			r.wantNothing(of.request.Key)
			wantThere(t, d, other, broker.Whole)
			if strings.Contains(strings.Join(statements, ";"), ";BEGIN") {
				return
			}
			diff.NoError(t, session.PingContext(of.ctx), "the session of the other customer")
		})
	}
}

// A customer that shuts its database again and again keeps nothing of another one. Its sessions are in a second
// database of its own, so that it gets in again once they have ended.
func TestACustomerThatShutsItsDatabase(t *testing.T) {
	r, d := newDatabases(t)
	of, shut, second := createInstance(t, d), createInstance(t, d), createInstance(t, d)
	name, inside := postgres.NameOf(shut.request.Key), postgres.NameOf(second.request.Key)
	pgtest.Exec(t, r.customer(shut.request.Key), "CREATE TABLE t (x integer)",
		"GRANT SELECT ON t TO "+postgres.NameOf(of.request.Key))
	pgtest.Exec(t, r.customer(second.request.Key), "GRANT CONNECT ON DATABASE "+inside+" TO "+name)
	ctx, cancel := context.WithCancel(context.Background())
	var all sync.WaitGroup
	defer all.Wait()
	defer cancel()
	begun := make(chan struct{}, 1)
	for _, statement := range statementsOf([]string{
		"ALTER DATABASE $name CONNECTION LIMIT 0", "ALTER DATABASE $name CONNECTION LIMIT 9",
		"ALTER DATABASE $name ALLOW_CONNECTIONS false", "REVOKE ALL ON DATABASE $name FROM $name",
		"ALTER DATABASE $name SET local_preload_libraries = 'garbage'",
	}, shut.request.Key) {
		db := r.login(name, postgres.PasswordOf(secret, shut.request.Key), inside)
		statement := statement
		all.Add(1)
		go func() {
			defer all.Done()
			for ctx.Err() == nil {
				if _, err := db.ExecContext(ctx, statement); err == nil && len(begun) == 0 {
					begun <- struct{}{}
				}
			}
		}()
	}
	<-begun
	r.wantDeletion(d, of)
}

// Policies for a role on more tables than one transaction can lock keep nothing either.
func TestPoliciesOnManyTables(t *testing.T) {
	if testing.Short() {
		t.Skip("it takes many seconds")
	}
	r, d := newDatabases(t)
	of, other, third := createInstance(t, d), createInstance(t, d), createInstance(t, d)
	name, thirds := postgres.NameOf(of.request.Key), postgres.NameOf(third.request.Key)
	count := createMany(t, r, r.customer(other.request.Key), "CREATE TABLE s.t%d ()",
		"CREATE POLICY one ON s.t%d TO "+name, "CREATE POLICY two ON s.t%d TO "+name+", "+thirds)
	r.wantDeletion(d, of)
	in := &rig{t: t, admin: pgtest.DB(t, pgtest.In(t, pgtest.URL(t), postgres.NameOf(other.request.Key)))}
	got := in.column("SELECT DISTINCT concat_ws(' ', policyname, roles, count(*)) FROM pg_policies GROUP BY policyname, roles")
	diff.Check(t, got, []string{"two {" + thirds + "} " + count}, "the policies")
}

// What a binding owns in the database of another customer goes, although it has become a part of an extension.
func TestPartsOfAnExtension(t *testing.T) {
	r, d := newDatabases(t)
	of, other := createInstance(t, d), createInstance(t, d)
	bind, binding := bound(t, d, of.request.Key)
	others := postgres.NameOf(other.request.Key)
	pgtest.Exec(t, r.customer(other.request.Key),
		"GRANT ALL ON DATABASE "+others+" TO "+postgres.NameOf(of.request.Key))
	hold(t, r.login(binding.Username, binding.Password, others), "CREATE SCHEMA s", "CREATE EXTENSION hstore SCHEMA s",
		"SET ROLE NONE", `CREATE TABLE s."a table" ()`, `ALTER EXTENSION hstore ADD TABLE s."a table"`,
		"CREATE FUNCTION s.f(integer[]) RETURNS integer LANGUAGE sql AS 'SELECT 1'",
		"ALTER EXTENSION hstore ADD FUNCTION s.f(integer[])")
	diff.NoError(t, d.DeleteBinding(bind.ctx, bind.request), "DeleteBinding")
	r.wantDeletion(d, of)
}

const manyLargeObjects = `SELECT lo_create(0) FROM generate_series(1,
	3 * current_setting('max_locks_per_transaction')::integer * current_setting('max_connections')::integer)`

// Neither do more large objects than one transaction can lock: those of a binding become the instance's. Those that a
// role owns in the database of another customer go, with other objects beside them.
func TestManyLargeObjects(t *testing.T) {
	r, d := newDatabases(t)
	of, other := createInstance(t, d), createInstance(t, d)
	name, others := postgres.NameOf(of.request.Key), postgres.NameOf(other.request.Key)
	pgtest.Exec(t, r.customer(other.request.Key), "GRANT ALL ON DATABASE "+others+" TO "+name)
	owner := r.login(name, postgres.PasswordOf(secret, of.request.Key), others)
	pgtest.Exec(t, owner, "CREATE SCHEMA s", `CREATE TYPE s."a type" AS ENUM ('x')`, "CREATE DOMAIN s.d AS s.\"a type\"",
		"CREATE TYPE s.c AS (x s.d)", `CREATE FUNCTION s.f(s.c, s."a type"[]) RETURNS integer LANGUAGE sql AS 'SELECT 1'`,
		"CREATE AGGREGATE s.a (integer) (SFUNC = int4pl, STYPE = integer)", "CREATE PROCEDURE s.p() LANGUAGE sql AS ''",
		manyLargeObjects)
	bind, binding := bound(t, d, other.request.Key)
	hold(t, r.login(binding.Username, binding.Password, binding.Database), "SET ROLE NONE", manyLargeObjects)
	diff.NoError(t, d.DeleteBinding(bind.ctx, bind.request), "DeleteBinding")
	r.wantDeletion(d, of)
	wantThere(t, d, other, broker.Whole)
}

// Roles of which the broker's role isn't a member any more keep nothing. On PostgreSQL 14 a role that has logged in can
// bring that about.
func TestRolesThatAreLeft(t *testing.T) {
	r, d := newDatabases(t)
	of, other := createInstance(t, d), createInstance(t, d)
	bind, one := bound(t, d, other.request.Key)
	unbound, two := bound(t, d, other.request.Key)
	name := postgres.NameOf(other.request.Key)
	pgtest.Exec(t, r.customer(other.request.Key), "CREATE TABLE t (x integer)",
		"GRANT SELECT ON t TO "+postgres.NameOf(of.request.Key))
	for _, binding := range []credentials{one, two} {
		hold(t, r.login(binding.Username, binding.Password, binding.Database), "SET ROLE NONE",
			"CREATE TABLE "+binding.Username+" (x integer)")
	}
	leave := "REVOKE " + name + ", " + one.Username + ", " + two.Username + " FROM " + r.role
	for _, test := range []struct {
		name string
		call func(context.Context, broker.Request) error
		of   lockedKey
	}{{"Delete of another", d.Delete, of}, {"DeleteBinding", d.DeleteBinding, bind}, {"Delete", d.Delete, other}} {
		pgtest.Exec(t, r.admin, leave)
		diff.NoError(t, test.call(test.of.ctx, test.of.request), "%s", test.name)
		r.wantNothing(test.of.request.Key)
		leave = "REVOKE " + name + ", " + two.Username + " FROM " + r.role
	}
	wantThere(t, d, unbound, broker.None)
}

// Settings of a database that are so long that no session is opened there in time are reset.
func TestLongSettings(t *testing.T) {
	r, d := newDatabases(t)
	it := createInstance(t, d)
	name := postgres.NameOf(it.request.Key)
	pgtest.Exec(t, r.customer(it.request.Key), "ALTER DATABASE "+name+" SET application_name = 'short'")
	wantReset(t, d, it, false)
	pgtest.Exec(t, r.customer(it.request.Key),
		"ALTER DATABASE "+name+" SET search_path = '"+strings.Repeat("garbage, ", 1<<18)+"x'")
	wantReset(t, d, it, true)
	diff.Equal(t, r.settingsOf(name), "", "")
}

func wantReset(t *testing.T, d *postgres.Databases, it lockedKey, want bool) {
	t.Helper()
	diff.Equal(t, diff.Value(d.ForgetLongSettings(it.ctx, it.request))(t), want, "the settings were reset")
}

// What the role owns in another customer's database goes, and what that customer has made to depend on it. The rest of
// the other database stays.
func TestWhatDependsOnIt(t *testing.T) {
	r, d := newDatabases(t)
	of, other := createInstance(t, d), createInstance(t, d)
	name, others := postgres.NameOf(of.request.Key), postgres.NameOf(other.request.Key)
	pgtest.Exec(t, r.customer(other.request.Key), "GRANT ALL ON DATABASE "+others+" TO "+name, "CREATE TABLE kept ()")
	pgtest.Exec(t, r.login(name, postgres.PasswordOf(secret, of.request.Key), others), "CREATE SCHEMA theirs",
		"CREATE TABLE theirs.t (x integer)", "GRANT ALL ON SCHEMA theirs TO PUBLIC", "GRANT ALL ON theirs.t TO PUBLIC")
	pgtest.Exec(t, r.customer(other.request.Key), "CREATE VIEW v AS SELECT * FROM theirs.t")
	wantQuick(t, "Delete", func() error { return d.Delete(of.ctx, of.request) })
	r.wantNothing(of.request.Key)
	pgtest.Exec(t, r.customer(other.request.Key), "SELECT FROM kept")
}

// What a binding's role owns in another customer's database goes too. It becomes nobody's, and not the other
// customer's.
func TestWhatABindingOwnsElsewhere(t *testing.T) {
	r, d := newDatabases(t)
	of, other := createInstance(t, d), createInstance(t, d)
	bind, one := bound(t, d, of.request.Key)
	others := postgres.NameOf(other.request.Key)
	pgtest.Exec(t, r.customer(other.request.Key), "GRANT ALL ON DATABASE "+others+" TO "+one.Username, "CREATE TABLE kept ()")
	hold(t, r.login(one.Username, one.Password, others), "SET ROLE NONE", "CREATE SCHEMA theirs",
		"CREATE TABLE theirs.t (x integer)", "GRANT ALL ON SCHEMA theirs TO PUBLIC", "GRANT ALL ON theirs.t TO PUBLIC")
	pgtest.Exec(t, r.customer(other.request.Key), "CREATE VIEW v AS SELECT * FROM theirs.t")
	wantQuick(t, "DeleteBinding", func() error { return d.DeleteBinding(bind.ctx, bind.request) })
	r.wantNothing(bind.request.Key)
	wantThere(t, d, of, broker.Whole)
	in := &rig{t: t, admin: r.customer(other.request.Key)}
	left := in.column("SELECT relname FROM pg_class WHERE relname IN ('kept', 't', 'v') UNION ALL " +
		"SELECT nspname FROM pg_namespace WHERE nspname = 'theirs'")
	diff.Check(t, left, []string{"kept"}, "left in the other database")
}

// A session that the server can't end, such as one in a long call of libxml, is waited for a short time, and keeps no
// binding.
func TestASessionThatDoesNotEnd(t *testing.T) {
	r, d := newDatabases(t)
	of := createInstance(t, d)
	bind, one := bound(t, d, of.request.Key)
	session := hold(t, r.login(one.Username, one.Password, postgres.NameOf(of.request.Key)))
	stopSession(t, session, one.Username)
	ctx, cancel := context.WithTimeout(bind.ctx, time.Minute)
	defer cancel()
	begin := time.Now()
	diff.NoError(t, d.DeleteBinding(ctx, bind.request), "DeleteBinding after %v", time.Since(begin))
	r.wantNothing(bind.request.Key)
	wantThere(t, d, of, broker.Whole)
}

// stopSession stops the server's process of a session of a user until the end of the test.
func stopSession(t *testing.T, session *sql.Conn, user string) {
	t.Helper()
	var process int
	check(t, session.QueryRowContext(context.Background(), "SELECT pg_backend_pid()").Scan(&process))
	title, err := os.ReadFile(fmt.Sprintf("/proc/%d/cmdline", process))
	if err != nil || !strings.Contains(string(title), user) {
		t.Skipf("process %d isn't the session: the server runs on another host: %v", process, err)
	}
	check(t, syscall.Kill(process, syscall.SIGSTOP))
	t.Cleanup(func() { check(t, syscall.Kill(process, syscall.SIGCONT)) })
}

// A database that another customer has closed altogether is opened again.
func TestADatabaseThatAcceptsNobody(t *testing.T) {
	r, d := newDatabases(t)
	of, other := createInstance(t, d), createInstance(t, d)
	pgtest.Exec(t, r.customer(other.request.Key), "GRANT CONNECT ON DATABASE "+postgres.NameOf(other.request.Key)+
		" TO "+postgres.NameOf(of.request.Key), "CREATE TABLE t (x integer)",
		"GRANT SELECT ON t TO "+postgres.NameOf(of.request.Key))
	pgtest.Exec(t, r.admin, "ALTER DATABASE "+postgres.NameOf(other.request.Key)+" ALLOW_CONNECTIONS false")
	wantQuick(t, "Delete", func() error { return d.Delete(of.ctx, of.request) })
	r.wantNothing(of.request.Key)
	wantThere(t, d, other, broker.Whole)
}

// A customer that connects again and again, and holds up what it can, keeps nothing.
func TestACustomerThatComesAgain(t *testing.T) {
	r, d := newDatabases(t)
	it := createInstance(t, d)
	ctx, cancel := context.WithCancel(context.Background())
	var all sync.WaitGroup
	defer all.Wait()
	defer cancel()
	entered := make(chan struct{}, 100)
	for _, statement := range statementsOf([]string{
		"COMMENT ON DATABASE $name IS 'x'", "ALTER ROLE $name PASSWORD 'x'", "ALTER DATABASE $name CONNECTION LIMIT 9",
	}, it.request.Key) {
		for n := 0; n < 3; n++ {
			db := r.customer(it.request.Key)
			all.Add(1)
			go func(statement string) {
				defer all.Done()
				for ctx.Err() == nil {
					holdOnce(ctx, db, statement, entered)
				}
			}(statement)
		}
	}
	<-entered
	diff.NoError(t, d.Delete(it.ctx, it.request), "Delete")
	wantThere(t, d, it, broker.None)
}

// holdOnce keeps a transaction open for a while, or until its session is ended.
func holdOnce(ctx context.Context, db *sql.DB, statement string, entered chan<- struct{}) {
	conn, err := db.Conn(ctx)
	if err != nil {
		return
	}
	defer conn.Close()
	if _, err := conn.ExecContext(ctx, "BEGIN; "+statement); err != nil {
		return
	}
	select {
	case entered <- struct{}{}:
	default:
	}
	_, _ = conn.ExecContext(ctx, "SELECT pg_sleep(1)")
	_, _ = conn.ExecContext(ctx, "ROLLBACK")
}

// What the role has made in the brokers' database, should it have got there, goes too.
func TestInTheBrokersDatabase(t *testing.T) {
	r, d := newDatabases(t)
	it := createInstance(t, d)
	name := postgres.NameOf(it.request.Key)
	pgtest.Exec(t, r.admin, "GRANT CONNECT ON DATABASE "+r.role+" TO "+name)
	pgtest.Exec(t, r.login(name, postgres.PasswordOf(secret, it.request.Key), r.role), "SELECT lo_create(0)")
	r.wantDeletion(d, it)
}

// Bindings that nobody has unbound go with the instance.
func TestBindingsGoToo(t *testing.T) {
	r, d := newDatabases(t)
	it := createInstance(t, d)
	_, one := bound(t, d, it.request.Key)
	hold(t, r.login(one.Username, one.Password, one.Database), "SET ROLE NONE", "CREATE TABLE t (x integer)", "BEGIN",
		"LOCK TABLE t")
	r.wantDeletion(d, it)
}

// A faultyCall is a call of which each statement fails once. It is called again and again until it succeeds.
type faultyCall struct {
	name string
	call func() error
	look lookCall
	want broker.There // once it has returned nil
	undo func() error // if it succeeds although a statement has failed
}

// Each statement of each call fails once, under a lock of its own: a session that fails may end, and its lock with it.
// The call returns the error, unless nothing depends on the statement, and goes on where it has ended if it is called
// again.
func TestStatementsThatFail(t *testing.T) {
	r := newRig(t)
	proxy, url := storefaults.NewProxy(t, r.url)
	r.url = url
	d := r.open()
	instance := newInstance(t)
	i, b := request(instance), request(osb.BindingKey(instance.Instance, randomID(t)))
	under := func(of broker.Request, call func(context.Context) error) func() error {
		return func() error {
			taken, err := d.Locks().Lock(context.Background(), of.Key) // a session that has ended may have it for a moment
			if err != nil {
				return err
			}
			defer taken.Unlock()
			return call(taken.Context(context.Background()))
		}
	}
	create := under(i, func(ctx context.Context) error { return d.Create(ctx, i) })
	remove := under(i, func(ctx context.Context) error { return d.Delete(ctx, i) })
	bind := under(b, func(ctx context.Context) error { _, err := d.CreateBinding(ctx, b); return err })
	unbind := under(b, func(ctx context.Context) error { return d.DeleteBinding(ctx, b) })
	seen := func(of broker.Request, look func(context.Context, broker.Request) (broker.There, error)) lookCall {
		return func() (there broker.There, err error) {
			err = under(of, func(ctx context.Context) (err error) { there, err = look(ctx, of); return err })()
			return there, err
		}
	}
	look, lookBinding := seen(i, d.Look), seen(b, d.LookBinding)
	credentials := under(b, func(ctx context.Context) error { _, err := d.Credentials(ctx, b); return err })
	before := broker.Settings{PlanID: i.PlanID}
	there := broker.Update{Request: i, From: before, To: broker.Settings{
		PlanID: i.PlanID, Parameters: json.RawMessage(`{"connection_limit":4}`)}}
	back := broker.Update{Request: i, From: there.To, To: before}
	update := func(it broker.Update) func() error {
		return under(i, func(ctx context.Context) error { return d.Update(ctx, it) })
	}
	lookUpdate := seen(i, func(ctx context.Context, _ broker.Request) (broker.There, error) { return d.LookUpdate(ctx, there) })
	for _, call := range []faultyCall{
		{"Create", create, look, broker.Whole, remove},
		{"Look", look.call, look, broker.Whole, doNothing},
		{"CreateBinding", bind, lookBinding, broker.Whole, unbind},
		{"LookBinding", lookBinding.call, lookBinding, broker.Whole, doNothing},
		{"Credentials", credentials, lookBinding, broker.Whole, doNothing},
		{"Update", update(there), lookUpdate, broker.Whole, update(back)},
		{"LookUpdate", lookUpdate.call, lookUpdate, broker.Whole, doNothing},
		{"Own", func() error { _, err := d.Own(context.Background(), store); return err }, look, broker.Whole, doNothing},
		{"DeleteBinding", unbind, lookBinding, broker.None, bind},
		{"Delete", remove, look, broker.None, create},
	} {
		call.fails(t, &proxy.Countdown)
	}
}

// lookCall returns what exists.
type lookCall func() (broker.There, error)

func (l lookCall) call() error { _, err := l(); return err }

func doNothing() error { return nil }

// isDispensable reports whether nothing depends on a statement: a lock ends with its session too, and whoever is in the
// way is ended by the next try.
func isDispensable(statement string) bool {
	return strings.Contains(statement, "pg_advisory_unlock") || strings.Contains(statement, "pg_blocking_pids")
}

func (c faultyCall) fails(t *testing.T, countdown *storefaults.Countdown) {
	t.Helper()
	for n, failed := 1, "none yet"; failed != ""; n++ {
		if _, err := c.look(); err != nil { // it leaves an idle session: to open one takes a statement, too
			t.Fatalf("%s: got the error %v, want none", c.name, err)
		}
		countdown.Fail(n, storefaults.Refused)
		err := c.call()
		failed = countdown.FailedStatement()
		countdown.Fail(0, storefaults.Refused)
		if failed == "" && (err != nil || n == 1) {
			t.Fatalf("%s: got %v after %d statements that fail, want nil", c.name, err, n-1)
		}
		if err != nil && strings.Contains(err.Error(), "panic") {
			t.Errorf("%s, and %q has failed: got %v, want no panic", c.name, failed, err)
		}
		if err != nil {
			continue
		}
		diff.Equal(t, diff.Value(c.look())(t), c.want, "%s, and %q has failed", c.name, failed)
		if failed != "" {
			diff.Equal(t, isDispensable(failed), true, "%s, and %q has failed without an error: it is dispensable", c.name, failed)
			diff.NoError(t, c.undo(), "%s: the opposite", c.name)
		}
	}
}

// Sync commits: its third statement is a COMMIT. If that fails, it returns the error.
func TestSyncCommits(t *testing.T) {
	r := newRig(t)
	proxy, url := storefaults.NewProxy(t, r.url)
	r.url = url
	d := r.open()
	instance := createInstance(t, d)
	proxy.Countdown.Fail(3, storefaults.Refused)
	diff.Error(t, d.Sync(instance.ctx, instance.request), "")
	diff.HasPrefix(t, proxy.Countdown.FailedStatement(), "COMMIT", "the statement that failed")
}

// Each statement of Open, and of Rekey, fails once: the error is returned. Later they succeed. It is the same over a
// database of version 0.2, which has a role of which Rekey has to see whose it is.
func TestOpeningAndRekeyThatFail(t *testing.T) {
	for _, isOld := range []bool{false, true} {
		t.Run(fmt.Sprint("of version 0.2: ", isOld), func(t *testing.T) {
			r := newRig(t)
			if isOld {
				r.of02(store)
				r.create02(newInstance(t), "of the customer")
			}
			proxy, url := storefaults.NewProxy(t, r.url)
			r.url = url
			other := append([]byte("another"), secret...)
			open := faultyCall{name: "Open", want: broker.None, undo: doNothing, call: func() error {
				d, err := postgres.Open(context.Background(), r.url, postgres.Options{Key: secret, Sessions: 4})
				if err == nil {
					_ = d.Close()
				}
				return err
			}}
			open.look = func() (broker.There, error) { return broker.None, nil }
			open.fails(t, &proxy.Countdown)
			d := r.open()
			i := lock(t, d, newInstance(t))
			check(t, d.Create(i.ctx, i.request))
			rekey := open
			rekey.name = "Rekey"
			rekey.call = func() error { _, err := postgres.Rekey(context.Background(), r.url, secret, other); return err }
			rekey.undo = func() error { _, err := postgres.Rekey(context.Background(), r.url, other, secret); return err }
			rekey.fails(t, &proxy.Countdown)
		})
	}
}

// Each statement of Warnings fails once: the error is returned.
func TestWarningsThatFail(t *testing.T) {
	r := newRig(t)
	template := withTemplate(r.template())
	proxy, url := storefaults.NewProxy(t, r.url)
	r.url = url
	d := r.open(template)
	faultyCall{
		name: "Warnings", want: broker.None, undo: doNothing,
		look: func() (broker.There, error) { return broker.None, nil },
		call: func() error { _, err := d.Warnings(context.Background()); return err },
	}.fails(t, &proxy.Countdown)
}

// Nothing that was granted to a role keeps the role, whoever has granted it: the owner, or another customer with the
// right to grant it further. Neither if both have no right in the schema any more.
func TestWhatSomebodyElseHasGranted(t *testing.T) {
	r, d := newDatabases(t)
	of, owner, grantor := createInstance(t, d), createInstance(t, d), createInstance(t, d)
	name, owners, grantors := postgres.NameOf(of.request.Key), postgres.NameOf(owner.request.Key), postgres.NameOf(grantor.request.Key)
	grants := []string{"SELECT ON s.\"a table\" TO", "UPDATE (y) ON s.t TO", "USAGE ON SEQUENCE s.q TO",
		"EXECUTE ON FUNCTION s.f(s.d[]) TO", "EXECUTE ON PROCEDURE s.p() TO", "USAGE ON TYPE s.d TO", "USAGE ON SCHEMA s TO",
		"SELECT ON LARGE OBJECT 7 TO", "DELETE, TRIGGER ON s.t TO", "CONNECT ON DATABASE " + owners + " TO"}
	first := []string{"CREATE SCHEMA s", `CREATE TABLE s."a table" ()`, "CREATE TABLE s.t (x integer, y integer)",
		"CREATE SEQUENCE s.q", "CREATE DOMAIN s.d AS integer", "SELECT lo_create(7)",
		"CREATE FUNCTION s.f(s.d[]) RETURNS integer LANGUAGE sql AS 'SELECT 1'", "CREATE PROCEDURE s.p() LANGUAGE sql AS ''",
		"GRANT CREATE ON SCHEMA public TO " + name, "GRANT SELECT (x) ON s.t TO " + name, "GRANT SELECT ON s.t TO " + name,
		"CREATE POLICY p ON s.t TO " + name}
	second := []string{}
	for _, grant := range grants {
		first = append(first, "GRANT "+grant+" "+grantors+" WITH GRANT OPTION")
		second = append(second, "GRANT "+grant+" "+name)
	}
	pgtest.Exec(t, r.customer(owner.request.Key), first...)
	pgtest.Exec(t, r.login(grantors, postgres.PasswordOf(secret, grantor.request.Key), owners), second...)
	pgtest.Exec(t, r.customer(owner.request.Key), "REVOKE USAGE ON SCHEMA s FROM "+owners)
	r.wantDeletion(d, of)
	wantThere(t, d, owner, broker.Whole)
	for _, grant := range grants { // the grantor's own rights stay
		pgtest.Exec(t, r.login(grantors, postgres.PasswordOf(secret, grantor.request.Key), owners),
			"SET client_min_messages = error", "GRANT "+grant+" "+r.role)
	}
}

// Grants on many columns of one table go in a time that is proportional to their number. DROP OWNED writes all columns
// for each of them again.
func TestGrantsOnManyColumns(t *testing.T) {
	const count = 150
	r, d := newDatabases(t)
	of, other, third := createInstance(t, d), createInstance(t, d), createInstance(t, d)
	columns := make([]string, count)
	for n := range columns {
		columns[n] = "c" + strings.Repeat("x", n%50) + string(rune('a'+n/50))
	}
	others := r.customer(other.request.Key)
	pgtest.Exec(t, others, "CREATE TABLE t ("+strings.Join(columns, " integer, ")+" integer)",
		"GRANT SELECT ("+strings.Join(columns, ", ")+") ON t TO "+postgres.NameOf(of.request.Key)+", "+
			postgres.NameOf(third.request.Key))
	size := func() (bytes int64) {
		t.Helper()
		check(t, others.QueryRow("SELECT pg_table_size('pg_attribute')").Scan(&bytes))
		return bytes
	}
	before := size()
	r.wantDeletion(d, of)
	if grown := size() - before; grown > 1<<20 {
		t.Errorf("got a catalogue of columns that grew by %d bytes, want at most 1 MiB", grown)
	}
	var left int
	const grants = "SELECT sum(cardinality(attacl)) FROM pg_attribute WHERE attrelid = 't'::regclass"
	check(t, others.QueryRow(grants).Scan(&left))
	diff.Equal(t, left, count, "grants to the third customer")
}

// A binding that is deleted leaves what it owns to the instance, although the instance's role has taken from itself the
// rights that this needs.
func TestTheHeirLacksRights(t *testing.T) {
	r, d := newDatabases(t)
	of := createInstance(t, d)
	bind, binding := bound(t, d, of.request.Key)
	const function = "() RETURNS integer LANGUAGE sql AS 'SELECT 1'"
	statements := []string{"CREATE SCHEMA s", "GRANT ALL ON SCHEMA s TO " + binding.Username, "SET ROLE NONE",
		"CREATE FUNCTION s.f" + function, "CREATE FUNCTION g" + function, "CREATE SCHEMA z", "ALTER FUNCTION g() SET SCHEMA z",
		"REVOKE ALL ON SCHEMA z FROM " + binding.Username, "RESET ROLE", "REVOKE ALL ON SCHEMA s FROM $name",
		"REVOKE ALL ON DATABASE $name FROM $name", "GRANT CONNECT ON DATABASE $name TO $name"}
	hold(t, r.login(binding.Username, binding.Password, binding.Database), statementsOf(statements, of.request.Key)...)
	diff.NoError(t, d.DeleteBinding(bind.ctx, bind.request), "DeleteBinding")
	r.wantNothing(bind.request.Key)
	pgtest.Exec(t, r.customer(of.request.Key), "GRANT USAGE ON SCHEMA s, z TO CURRENT_USER", "SELECT s.f() + z.g()")
}

// A customer keeps a role of another one neither by coming again and again, nor by a lock that it holds from elsewhere.
func TestWhoHoldsALockFromElsewhere(t *testing.T) {
	r, d := newDatabases(t)
	of, other, elsewhere := createInstance(t, d), createInstance(t, d), createInstance(t, d)
	name, others := postgres.NameOf(of.request.Key), postgres.NameOf(other.request.Key)
	pgtest.Exec(t, r.customer(other.request.Key), "GRANT CONNECT ON DATABASE "+others+" TO "+name,
		"GRANT CONNECT ON DATABASE "+others+" TO "+postgres.NameOf(elsewhere.request.Key)+" WITH GRANT OPTION")
	hold(t, r.customer(elsewhere.request.Key), "BEGIN", "GRANT CONNECT ON DATABASE "+others+" TO "+r.role)
	r.wantDeletion(d, of)
}
