package postgres_test

import (
	"context"
	"crypto/rand"
	"database/sql"
	"encoding/hex"
	"encoding/json"
	"fmt"
	"strconv"
	"strings"
	"testing"

	"pippinterm/broker"
	"pippinterm/broker/backend/postgres"
	"pippinterm/internal/diff"
	"pippinterm/internal/pg"
	"pippinterm/internal/pg/pgtest"
	"pippinterm/osb"
)

var (
	_ broker.BindingBackend     = (*postgres.Databases)(nil)
	_ broker.LockBackend        = (*postgres.Databases)(nil)
	_ broker.TiedBackend        = (*postgres.Databases)(nil)
	_ broker.SyncBackend        = (*postgres.Databases)(nil)
	_ broker.CredentialsBackend = (*postgres.Databases)(nil)
)

// Each call can be repeated.
func TestCreateAndDelete(t *testing.T) {
	r, d := newDatabases(t)
	it := lock(t, d, newInstance(t))
	wantThere(t, d, it, broker.None)
	diff.NoError(t, d.Delete(it.ctx, it.request), "Delete of nothing")
	for n := 0; n < 2; n++ {
		check(t, d.Create(it.ctx, it.request))
		wantThere(t, d, it, broker.Whole)
		pgtest.Exec(t, r.customer(it.request.Key), "CREATE TABLE t (x integer)", "CREATE SCHEMA s", "CREATE EXTENSION hstore")
		diff.NoError(t, d.Sync(it.ctx, it.request), "Sync")
	}
	for n := 0; n < 2; n++ {
		check(t, d.Delete(it.ctx, it.request))
		wantThere(t, d, it, broker.None)
		r.wantNothing(it.request.Key)
	}
}

// What is left of a creation or a deletion is a part at each step, and both calls finish it.
func TestParts(t *testing.T) {
	r, d := newDatabases(t)
	for _, test := range []struct {
		name string
		undo func(t *testing.T, name string)
	}{
		{"only the role", func(t *testing.T, name string) {
			pgtest.Exec(t, r.admin, "DROP DATABASE "+name, "ALTER ROLE "+name+" NOLOGIN")
		}},
		{"a database that is closed", func(t *testing.T, name string) {
			pgtest.Exec(t, r.admin, "ALTER DATABASE "+name+" ALLOW_CONNECTIONS false")
		}},
		{"a role that can't log in", func(t *testing.T, name string) {
			pgtest.Exec(t, r.admin, "ALTER ROLE "+name+" NOLOGIN")
		}},
		{"a DROP DATABASE that was broken off", func(t *testing.T, name string) {
			pgtest.Exec(t, r.admin, "UPDATE pg_database SET datconnlimit = -2 WHERE datname = '"+name+"'")
		}},
	} {
		t.Run(test.name, func(t *testing.T) {
			deleted, completed := createInstance(t, d), createInstance(t, d)
			for _, of := range []lockedKey{deleted, completed} {
				test.undo(t, postgres.NameOf(of.request.Key))
				wantThere(t, d, of, broker.Part)
			}
			diff.NoError(t, d.Delete(deleted.ctx, deleted.request), "Delete")
			wantThere(t, d, deleted, broker.None)
			diff.NoError(t, d.Create(completed.ctx, completed.request), "Create")
			wantThere(t, d, completed, broker.Whole)
			pgtest.Exec(t, r.customer(completed.request.Key), "CREATE TABLE t (x integer)")
		})
	}
}

// A customer gets into its own database, and into no other.
func TestWhoGetsIn(t *testing.T) {
	r, d := newDatabases(t)
	one, other := createInstance(t, d).request.Key, createInstance(t, d).request.Key
	pgtest.Exec(t, r.customer(one), "SELECT 1")
	for database, password := range map[string]string{
		postgres.NameOf(other): postgres.PasswordOf(secret, one),
		r.role:                 postgres.PasswordOf(secret, one),
		postgres.NameOf(one):   postgres.PasswordOf(secret, other),
	} {
		diff.Error(t, r.login(postgres.NameOf(one), password, database).Ping(), "%s, %s", postgres.NameOf(one),
			database)
	}
}

// Neither one role nor one database takes all connections, and no role can lift its own limit.
func TestLimits(t *testing.T) {
	r := newRig(t)
	d := r.open(func(o *postgres.Options) { o.ConnectionsPerInstance = 3 })
	key := createInstance(t, d).request.Key
	db := r.customer(key)
	for n := 0; n < 3; n++ {
		hold(t, db)
	}
	diff.Error(t, r.customer(key).Ping(), "a fourth connection")
	hold(t, r.login(r.role, "of the broker", r.role), "SELECT 1")
	limit := r.column("SELECT datconnlimit::text FROM pg_database WHERE datname = $1", postgres.NameOf(key))
	diff.Check(t, limit, []string{"3"}, "the limit of the database")
}

func TestNoRoleLiftsItsLimit(t *testing.T) {
	r, d := newDatabases(t)
	key := createInstance(t, d).request.Key
	diff.Error(t, diff.Err(r.customer(key).Exec("ALTER ROLE CURRENT_USER CONNECTION LIMIT -1")),
		"the role lifts its limit")
	limit := r.column("SELECT rolconnlimit::text FROM pg_roles WHERE rolname = $1", postgres.NameOf(key))
	diff.Check(t, limit, []string{"20"}, "the limit of the role")
}

// The limits of what a session may do are settings of its role. That of temporary files is set if the broker may set
// it.
func TestSettingsOfRoles(t *testing.T) {
	r, d := newDatabases(t)
	it := createInstance(t, d).request.Key
	_, binding := bound(t, d, it)
	r.wantSettings(postgres.NameOf(it), "idle_in_transaction_session_timeout=600000ms")
	r.wantSettings(binding.Username, "idle_in_transaction_session_timeout=600000ms,role="+postgres.NameOf(it))
	wantTempFileLimit(t, r.customer(it), "-1")
	pgtest.Exec(t, r.admin, "GRANT SET ON PARAMETER temp_file_limit TO "+r.role)
	d = r.open(func(o *postgres.Options) { o.TempFileLimit, o.IdleInTransaction = 5<<20, -1 })
	it = createInstance(t, d).request.Key
	_, binding = bound(t, d, it)
	r.wantSettings(postgres.NameOf(it), "temp_file_limit=5120kB")
	r.wantSettings(binding.Username, "temp_file_limit=5120kB,role="+postgres.NameOf(it))
	wantTempFileLimit(t, r.customer(it), "5MB")
	wantTempFileLimit(t, r.login(binding.Username, binding.Password, binding.Database), "5MB")
}

func (r *rig) wantSettings(role, want string) {
	r.t.Helper()
	got := r.column("SELECT array_to_string(rolconfig, ',') FROM pg_roles WHERE rolname = $1", role)
	if len(got) != 1 || got[0] != want {
		r.t.Errorf("%s: got the settings %v, want %s", role, got, want)
	}
}

func wantTempFileLimit(t *testing.T, db *sql.DB, want string) {
	t.Helper()
	pgtest.WantSetting(t, db, "temp_file_limit", want)
}

func TestCredentials(t *testing.T) {
	r := newRig(t)
	d := r.open(func(o *postgres.Options) { o.Host, o.Port = "db.example.org", 6432 })
	it := createInstance(t, d)
	bind, got := bound(t, d, it.request.Key)
	name := postgres.NameOf(it.request.Key)
	want := credentials{
		URI: "postgresql://" + postgres.NameOf(bind.request.Key) + ":" + postgres.PasswordOf(secret, bind.request.Key) +
			"@db.example.org:6432/" + name,
		Host: "db.example.org", Port: 6432, Database: name, Username: postgres.NameOf(bind.request.Key),
		Password: postgres.PasswordOf(secret, bind.request.Key),
	}
	diff.Check(t, got, want, "the credentials")
	diff.Equal(t, read(t, diff.Value(d.Credentials(bind.ctx, bind.request))(t)), want, "Credentials")
	_, other := bound(t, d, it.request.Key)
	if other.Username == got.Username || other.Password == got.Password {
		t.Errorf("two bindings: got one user or password %s, want two", other.Username)
	}
}

// By default customers reach the server where the broker does.
func TestTheURIOpens(t *testing.T) {
	r, d := newDatabases(t)
	_, got := bound(t, d, createInstance(t, d).request.Key)
	host, port, err := pg.HostAndPort(r.url)
	if err != nil || got.Host != host || strconv.Itoa(got.Port) != port {
		t.Errorf("got %s and %d, %v, want %s and %s", got.Host, got.Port, err, host, port)
	}
	pgtest.Exec(t, pgtest.DB(t, got.URI), "CREATE TABLE t (x integer)")
}

// Each call can be repeated.
func TestBindAndUnbind(t *testing.T) {
	r, d := newDatabases(t)
	it := createInstance(t, d)
	bind := lock(t, d, osb.BindingKey(it.request.Key.Instance, randomID(t)))
	wantThere(t, d, bind, broker.None)
	diff.NoError(t, d.DeleteBinding(bind.ctx, bind.request), "DeleteBinding of nothing")
	for n := 0; n < 2; n++ {
		check(t, diff.Err(d.CreateBinding(bind.ctx, bind.request)))
		wantThere(t, d, bind, broker.Whole)
	}
	pgtest.Exec(t, r.admin, "ALTER ROLE "+postgres.NameOf(bind.request.Key)+" NOLOGIN")
	wantThere(t, d, bind, broker.Part)
	check(t, diff.Err(d.CreateBinding(bind.ctx, bind.request)))
	wantThere(t, d, bind, broker.Whole)
	for n := 0; n < 2; n++ {
		check(t, d.DeleteBinding(bind.ctx, bind.request))
		wantThere(t, d, bind, broker.None)
	}
	wantThere(t, d, it, broker.Whole)
	diff.Equal(t, r.exists("pg_roles WHERE rolname = $1", postgres.NameOf(bind.request.Key)), false,
		"a role that is left")
}

func TestABindingWithoutADatabase(t *testing.T) {
	r, d := newDatabases(t)
	bind := lock(t, d, osb.BindingKey(randomID(t), randomID(t)))
	wantThere(t, d, bind, broker.None)
	diff.Error(t, diff.Err(d.CreateBinding(bind.ctx, bind.request)), "CreateBinding")
	diff.NoError(t, d.DeleteBinding(bind.ctx, bind.request), "DeleteBinding")
	r.wantNothing(osb.InstanceKey(bind.request.Key.Instance))
}

// Who was bound is out at once, others go on, and what was created stays and is the instance's.
func TestWhoWasBoundIsOut(t *testing.T) {
	r, d := newDatabases(t)
	it := createInstance(t, d)
	bind, one := bound(t, d, it.request.Key)
	_, two := bound(t, d, it.request.Key)
	first := hold(t, r.login(one.Username, one.Password, one.Database),
		"CREATE TABLE t (x integer)", "INSERT INTO t VALUES (1)", "BEGIN", "LOCK TABLE t")
	second := hold(t, r.login(two.Username, two.Password, two.Database))
	check(t, d.DeleteBinding(bind.ctx, bind.request))
	diff.Error(t, diff.Err(first.ExecContext(context.Background(), "SELECT 1")), "a statement of the session")
	diff.Error(t, r.login(one.Username, one.Password, one.Database).Ping(), "a login")
	var owner string
	err := second.QueryRowContext(context.Background(),
		"INSERT INTO t VALUES (2) RETURNING (SELECT tableowner FROM pg_tables WHERE tablename = 't')").Scan(&owner)
	diff.NoError(t, err, "the other binding")
	diff.Equal(t, owner, postgres.NameOf(it.request.Key), "the other binding")
}

// Who was bound acts as the instance's role, and can give it a password. After the Unbind that password is worth
// nothing, and neither are sessions that were opened with it. The broker's own password opens again.
func TestWhoWasBoundDoesNotComeBack(t *testing.T) {
	r, d := newDatabases(t)
	it := createInstance(t, d)
	name := postgres.NameOf(it.request.Key)
	bind, one := bound(t, d, it.request.Key)
	_, two := bound(t, d, it.request.Key)
	other := hold(t, r.login(two.Username, two.Password, two.Database), "BEGIN", "CREATE TABLE t (x integer)")
	hold(t, r.login(one.Username, one.Password, one.Database), "ALTER ROLE CURRENT_USER PASSWORD 'of the application'")
	inside := hold(t, r.login(name, "of the application", name), "SELECT 1")
	wantQuick(t, "DeleteBinding", func() error { return d.DeleteBinding(bind.ctx, bind.request) })
	diff.Error(t, diff.Err(inside.ExecContext(context.Background(), "SELECT 1")), "a statement of the session")
	diff.Error(t, r.login(name, "of the application", name).Ping(), "the application's password")
	diff.NoError(t, r.customer(it.request.Key).Ping(), "the broker's password")
	diff.NoError(t, diff.Err(other.ExecContext(context.Background(), "COMMIT")), "the other binding")
}

// Another customer who was let into the database keeps nobody from being unbound.
func TestAStrangerInTheDatabase(t *testing.T) {
	r, d := newDatabases(t)
	it, stranger := createInstance(t, d), createInstance(t, d)
	bind, one := bound(t, d, it.request.Key)
	_, two := bound(t, d, it.request.Key)
	name, strangers := postgres.NameOf(it.request.Key), postgres.NameOf(stranger.request.Key)
	pgtest.Exec(t, r.customer(it.request.Key), "GRANT CONNECT ON DATABASE "+name+" TO "+strangers)
	pgtest.Exec(t, r.login(one.Username, one.Password, one.Database), "SET ROLE NONE; CREATE TABLE t (x integer)",
		"SET ROLE NONE; GRANT ALL ON t TO PUBLIC")
	other := hold(t, r.login(two.Username, two.Password, two.Database), "BEGIN", "CREATE TABLE u (x integer)")
	hold(t, r.login(strangers, postgres.PasswordOf(secret, stranger.request.Key), name), "BEGIN",
		"INSERT INTO t VALUES (1)")
	wantQuick(t, "DeleteBinding", func() error { return d.DeleteBinding(bind.ctx, bind.request) })
	wantThere(t, d, bind, broker.None)
	diff.NoError(t, diff.Err(other.ExecContext(context.Background(), "COMMIT")), "the other binding")
}

// A role that owns more than one transaction can lock is dropped all the same: that of a binding, whose instance gets
// it, and that of an instance, which owns it in the database of another customer.
func TestARoleThatOwnsALot(t *testing.T) {
	if testing.Short() {
		t.Skip("it takes many seconds")
	}
	r, d := newDatabases(t)
	it, other := createInstance(t, d), createInstance(t, d)
	bind, one := bound(t, d, it.request.Key)
	name, others := postgres.NameOf(it.request.Key), postgres.NameOf(other.request.Key)
	count := createMany(t, r, r.login(one.Username, one.Password, one.Database), manyViews)
	diff.NoError(t, d.DeleteBinding(bind.ctx, bind.request), "DeleteBinding")
	in := &rig{t: t, admin: pgtest.DB(t, pgtest.In(t, pgtest.URL(t), name))}
	got := in.column("SELECT count(*)::text FROM pg_views WHERE schemaname = 's' AND viewowner = $1", name)
	diff.Check(t, got, []string{count}, "the views of the instance")
	_ = in.admin.Close() // the broker can't end a superuser's session
	pgtest.Exec(t, r.customer(other.request.Key), "GRANT ALL ON DATABASE "+others+" TO "+name)
	createMany(t, r, r.login(name, postgres.PasswordOf(secret, it.request.Key), others), manyViews,
		"CREATE FUNCTION s.f%d() RETURNS integer LANGUAGE sql AS ''SELECT 1''", "CREATE COLLATION s.c%d FROM \"C\"")
	r.wantDeletion(d, it)
	wantThere(t, d, other, broker.Whole)
}

const manyViews = "CREATE VIEW s.v%d AS SELECT 1"

// createMany runs statements for more objects than one transaction can lock, as the role that has logged in, and
// returns how many. %d is the number of the object.
func createMany(t *testing.T, r *rig, db *sql.DB, statements ...string) string {
	t.Helper()
	most, err := strconv.Atoi(r.column("SELECT (current_setting('max_locks_per_transaction')::integer * " +
		"current_setting('max_connections')::integer)::text")[0])
	check(t, err)
	conn := hold(t, db, "SET ROLE NONE", "CREATE SCHEMA s")
	loop := ""
	for _, statement := range statements {
		loop += "EXECUTE format('" + strings.ReplaceAll(statement, "%d", "%1$s") + "', n); "
	}
	count := 0
	for ; count < 3*most; count += 100 { // the server has some spare room
		_, err := conn.ExecContext(context.Background(),
			fmt.Sprintf("DO $$ BEGIN FOR n IN %d..%d LOOP %sEND LOOP; END $$", count, count+99, loop))
		check(t, err)
	}
	return strconv.Itoa(count)
}

// Bindings of one instance are unbound side by side.
func TestUnbindSideBySide(t *testing.T) {
	r := newRig(t)
	const count = 24
	d := r.open(func(o *postgres.Options) { o.Sessions = count + 1 })
	it := createInstance(t, d)
	binds := make([]lockedKey, count)
	for n := range binds {
		binds[n], _ = bound(t, d, it.request.Key)
	}
	given := make(chan error, count)
	for _, bind := range binds {
		bind := bind
		go func() { given <- d.DeleteBinding(bind.ctx, bind.request) }()
	}
	for range binds {
		diff.NoError(t, <-given, "DeleteBinding")
	}
}

// A binding that holds up the instance's role keeps no other one from being unbound.
func TestABindingThatHoldsTheInstancesRole(t *testing.T) {
	r, d := newDatabases(t)
	it := createInstance(t, d)
	bind, _ := bound(t, d, it.request.Key)
	_, two := bound(t, d, it.request.Key)
	hold(t, r.login(two.Username, two.Password, two.Database), "BEGIN", "ALTER ROLE CURRENT_USER PASSWORD 'x'")
	wantQuick(t, "DeleteBinding", func() error { return d.DeleteBinding(bind.ctx, bind.request) })
	wantThere(t, d, bind, broker.None)
	diff.NoError(t, r.customer(it.request.Key).Ping(), "the broker's password")
}

// What a binding owns by its own role, and what was granted to that, keeps nobody from unbinding.
func TestWhatABindingOwns(t *testing.T) {
	r, d := newDatabases(t)
	for _, test := range []struct {
		name             string
		before, of, then []string // by the instance's role, by the binding, and by the instance's role again
		isKept           bool     // whether there is a table t in the end, which is the instance's
	}{
		{"a table", nil, []string{"SET ROLE NONE", "CREATE TABLE t (x integer)"}, nil, true},
		{"a large object", nil, []string{"SET ROLE NONE", "SELECT lo_create(0)"}, nil, false},
		{"a right", []string{"CREATE TABLE t (x integer)", "GRANT SELECT ON t TO $role"}, nil, nil, true},
		{"default rights", []string{"ALTER DEFAULT PRIVILEGES GRANT SELECT ON TABLES TO $role"}, nil, nil, false},
		{"a right in an open transaction", []string{"CREATE TABLE t (x integer)"}, nil,
			[]string{"BEGIN", "GRANT SELECT ON t TO $role"}, true},
		{"settings that are in the way", nil, []string{"SET ROLE NONE", "CREATE TABLE t (x integer)"}, []string{
			"ALTER DATABASE $name SET default_transaction_read_only = on", "ALTER DATABASE $name SET role = '$name'"},
			true},
	} {
		t.Run(test.name, func(t *testing.T) {
			instance := createInstance(t, d)
			bind, one := bound(t, d, instance.request.Key)
			of := func(statements []string) []string {
				text := strings.ReplaceAll(strings.Join(statements, "\n"), "$role", one.Username)
				text = strings.ReplaceAll(text, "$name", one.Database)
				return strings.FieldsFunc(text, func(c rune) bool { return c == '\n' })
			}
			hold(t, r.customer(instance.request.Key), of(test.before)...)
			hold(t, r.login(one.Username, one.Password, one.Database), of(test.of)...)
			hold(t, r.customer(instance.request.Key), of(test.then)...)
			wantQuick(t, "DeleteBinding", func() error { return d.DeleteBinding(bind.ctx, bind.request) })
			wantThere(t, d, bind, broker.None)
			owners := ownersOf(t, r, one.Database)
			if test.isKept && (len(owners) != 1 || owners[0] != one.Database) {
				t.Errorf("the table: got the owners %v, want %s", owners, one.Database)
			}
		})
	}
}

// ownersOf are the owners of the tables t of a database.
func ownersOf(t *testing.T, r *rig, database string) []string {
	t.Helper()
	in := &rig{t: t, admin: pgtest.DB(t, pgtest.In(t, pgtest.URL(t), database))}
	return in.column("SELECT tableowner FROM pg_tables WHERE tablename = 't'")
}

// A binding of another store isn't deleted, nor is a role of that name that nobody knows.
func TestABindingThatIsNotOurs(t *testing.T) {
	r, d := newDatabases(t)
	it := createInstance(t, d)
	bind, one := bound(t, d, it.request.Key)
	for _, comment := range []string{"NULL", "'osb store of somebody else'"} {
		t.Run(comment, func(t *testing.T) {
			pgtest.Exec(t, r.admin, "COMMENT ON ROLE "+one.Username+" IS "+comment)
			diff.Error(t, diff.Err(d.LookBinding(bind.ctx, bind.request)), "LookBinding with the comment %s", comment)
			diff.Error(t, d.DeleteBinding(bind.ctx, bind.request), "DeleteBinding with the comment %s", comment)
			diff.Error(t, diff.Err(d.CreateBinding(bind.ctx, bind.request)), "CreateBinding with the comment %s",
				comment)
		})
	}
	pgtest.Exec(t, r.login(one.Username, one.Password, one.Database), "SELECT 1")
}

const store = "00000000-0000-4000-8000-00000000aaaa"

var secret = []byte(strings.Repeat("k", postgres.ShortestKey))

// A rig is a role of a broker that is no superuser, and a database of its own, as docs/broker-guide.md has them.
type rig struct {
	t     *testing.T
	admin *sql.DB // a superuser
	url   string  // of the broker
	role  string
}

// newRig creates both. At the end of the test they are dropped, with all that the role has sold.
func newRig(t *testing.T) *rig {
	t.Helper()
	address := pgtest.URL(t)
	r := &rig{t: t, admin: pgtest.DB(t, address), role: "broker_" + randomText(t)}
	pgtest.Exec(t, r.admin,
		"CREATE ROLE "+r.role+" LOGIN CREATEDB CREATEROLE PASSWORD 'of the broker'",
		"CREATE DATABASE "+r.role+" OWNER "+r.role+" TEMPLATE template0",
		"REVOKE ALL ON DATABASE "+r.role+" FROM PUBLIC")
	t.Cleanup(r.drop)
	r.url = pgtest.As(t, pgtest.In(t, address, r.role), r.role, "of the broker")
	return r
}

// sibling is a rig with the same role, and another database.
func (r *rig) sibling() *rig {
	r.t.Helper()
	name := "broker_" + randomText(r.t)
	pgtest.Exec(r.t, r.admin, "CREATE DATABASE "+name+" OWNER "+r.role+" TEMPLATE template0",
		"REVOKE ALL ON DATABASE "+name+" FROM PUBLIC")
	r.t.Cleanup(func() { pgtest.Exec(r.t, r.admin, "DROP DATABASE "+name+" WITH (FORCE)") })
	return &rig{t: r.t, admin: r.admin, role: r.role, url: pgtest.In(r.t, r.url, name)}
}

func (r *rig) drop() {
	sold := r.column("SELECT rolname FROM pg_auth_members JOIN pg_roles ON pg_roles.oid = roleid "+
		"WHERE member = (SELECT oid FROM pg_roles WHERE rolname = $1)", r.role)
	for _, name := range sold {
		if r.exists("pg_database WHERE datname = $1 AND datistemplate", name) {
			pgtest.Exec(r.t, r.admin, "ALTER DATABASE "+name+" IS_TEMPLATE false")
		}
		pgtest.Exec(r.t, r.admin, "DROP DATABASE IF EXISTS "+name+" WITH (FORCE)")
	}
	pgtest.Exec(r.t, r.admin, "DROP DATABASE "+r.role+" WITH (FORCE)")
	for _, name := range append(sold, r.role) {
		pgtest.Exec(r.t, r.admin, "DROP OWNED BY "+name, "DROP ROLE "+name)
	}
}

// column is the only column of a query.
func (r *rig) column(query string, arguments ...any) (found []string) {
	r.t.Helper()
	rows := diff.Value(r.admin.Query(query, arguments...))(r.t)
	defer rows.Close()
	for rows.Next() {
		var it string
		check(r.t, rows.Scan(&it))
		found = append(found, it)
	}
	check(r.t, rows.Err())
	return found
}

func (r *rig) exists(from string, arguments ...any) (is bool) {
	r.t.Helper()
	check(r.t, r.admin.QueryRow("SELECT EXISTS (SELECT FROM "+from+")", arguments...).Scan(&is))
	return is
}

// newDatabases returns a new rig, and the backend over it.
func newDatabases(t *testing.T) (*rig, *postgres.Databases) {
	t.Helper()
	r := newRig(t)
	return r, r.open()
}

// open opens the backend, which belongs to the store of the tests.
func (r *rig) open(change ...func(*postgres.Options)) *postgres.Databases {
	r.t.Helper()
	d := r.openUntied(change...)
	diff.Equal(r.t, diff.Value(d.Own(context.Background(), store))(r.t), store, "Own")
	return d
}

func (r *rig) openUntied(change ...func(*postgres.Options)) *postgres.Databases {
	r.t.Helper()
	options := postgres.Options{Key: secret, Sessions: 4}
	for _, set := range change {
		set(&options)
	}
	d := diff.Value(postgres.Open(context.Background(), r.url, options))(r.t)
	r.t.Cleanup(func() { _ = d.Close() })
	return d
}

// A lockedKey has the context of its lock, and a request for it.
type lockedKey struct {
	ctx     context.Context
	request broker.Request
}

// lock takes the lock of a key until the end of the test.
func lock(t *testing.T, d *postgres.Databases, key broker.Key) lockedKey {
	t.Helper()
	taken, err := d.Locks().TryLock(context.Background(), key)
	if err != nil || taken == nil {
		t.Fatalf("the lock of %v: got %v, %v, want one", key, taken, err)
	}
	t.Cleanup(taken.Unlock)
	return lockedKey{taken.Context(context.Background()), request(key)}
}

// request is one of this version: it has a body.
func request(key broker.Key) broker.Request {
	return broker.Request{Key: key, Body: json.RawMessage(`{}`)}
}

func newInstance(t *testing.T) broker.Key { return osb.InstanceKey(randomID(t)) }

func randomID(t *testing.T) (id osb.ID) {
	t.Helper()
	diff.Value(rand.Read(id[:]))(t)
	return id
}

func randomText(t *testing.T) string {
	id := randomID(t)
	return hex.EncodeToString(id[:8])
}

// createInstance returns an instance that exists, under its lock.
func createInstance(t *testing.T, d *postgres.Databases) lockedKey {
	t.Helper()
	it := lock(t, d, newInstance(t))
	check(t, d.Create(it.ctx, it.request))
	return it
}

// bound is a binding that exists, of an instance, under its lock, and its credentials.
func bound(t *testing.T, d *postgres.Databases, of broker.Key) (lockedKey, credentials) {
	t.Helper()
	it := lock(t, d, osb.BindingKey(of.Instance, randomID(t)))
	text := diff.Value(d.CreateBinding(it.ctx, it.request))(t)
	return it, read(t, text)
}

type credentials struct {
	URI, Host, Database, Username, Password string
	Port                                    int
}

func read(t *testing.T, text json.RawMessage) (it credentials) {
	t.Helper()
	check(t, json.Unmarshal(text, &it))
	return it
}

// customer is who has bought an instance, in its database.
func (r *rig) customer(key broker.Key) *sql.DB {
	r.t.Helper()
	return r.login(postgres.NameOf(key), postgres.PasswordOf(secret, key), postgres.NameOf(key))
}

func (r *rig) login(user, password, database string) *sql.DB {
	r.t.Helper()
	return pgtest.DB(r.t, pgtest.As(r.t, pgtest.In(r.t, r.url, database), user, password))
}

// hold runs statements in a session and leaves it as it is, until the end of the test.
func hold(t *testing.T, db *sql.DB, statements ...string) *sql.Conn {
	t.Helper()
	conn, err := db.Conn(context.Background())
	check(t, err)
	t.Cleanup(func() { _ = conn.Close() })
	for _, statement := range statements {
		diff.NoError(t, diff.Err(conn.ExecContext(context.Background(), statement)), "%s", statement)
	}
	return conn
}

func wantThere(t *testing.T, d *postgres.Databases, it lockedKey, want broker.There) {
	t.Helper()
	look := d.Look
	if it.request.Key.IsBinding {
		look = d.LookBinding
	}
	diff.Equal(t, diff.Value(look(it.ctx, it.request))(t), want, "%v", it.request.Key)
}

// wantDeletion deletes an instance, and sees that nothing of it is left.
func (r *rig) wantDeletion(d *postgres.Databases, of lockedKey) {
	r.t.Helper()
	diff.NoError(r.t, d.Delete(of.ctx, of.request), "Delete")
	r.wantNothing(of.request.Key)
}

// wantNothing sees that neither a role nor a database of the key is left.
func (r *rig) wantNothing(key broker.Key) {
	r.t.Helper()
	diff.Empty(r.t, r.column("SELECT rolname FROM pg_roles WHERE starts_with(rolname, $1) "+
		"UNION ALL SELECT datname FROM pg_database WHERE starts_with(datname, $1)", postgres.NameOf(key)), "left")
}
