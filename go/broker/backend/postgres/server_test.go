package postgres_test

import (
	"context"
	"database/sql"
	"fmt"
	"net/url"
	"strings"
	"testing"

	"pippinterm/broker"
	"pippinterm/broker/backend/postgres"
	"pippinterm/internal/diff"
	"pippinterm/internal/pg"
	"pippinterm/internal/pg/pgtest"
)

// wantWarning sees whether a warning has a text.
func wantWarning(t *testing.T, d *postgres.Databases, has string, isWanted bool) {
	t.Helper()
	found := diff.Value(d.Warnings(context.Background()))(t)
	diff.Equal(t, strings.Contains(strings.Join(found, "\n"), has), isWanted, "%q is among the warnings, %q", has,
		found)
}

// What is wrong on the server that runs. Finding M5 is of PostgreSQL 15 and older.
func TestWarnings(t *testing.T) {
	r, d := newDatabases(t)
	version := r.column("SELECT current_setting('server_version_num')")[0]
	wantWarning(t, d, "operating system account", version < "160000")
	sibling := diff.Value(url.Parse(r.sibling().url))(t)
	other := strings.TrimPrefix(sibling.Path, "/")
	for _, test := range []struct{ name, has string }{{r.role, "the brokers' locks"}, {other, other}} {
		wantWarning(t, d, test.has, false)
		pgtest.Exec(t, r.admin, "GRANT CONNECT ON DATABASE "+test.name+" TO PUBLIC")
		wantWarning(t, d, test.has, true)
	}
	wantWarning(t, d, "SET ON PARAMETER temp_file_limit", true)
	pgtest.Exec(t, r.admin, "GRANT SET ON PARAMETER temp_file_limit TO "+r.role)
	wantWarning(t, d, "SET ON PARAMETER temp_file_limit", false)
	wantWarning(t, d, "is a superuser", false)
	prepared := r.column("SELECT current_setting('max_prepared_transactions')")[0]
	wantWarning(t, d, "max_prepared_transactions", prepared != "0")
	fsync := r.column("SELECT current_setting('fsync')")[0]
	wantWarning(t, d, "fsync", fsync == "off")
	pgtest.Exec(t, r.admin, "ALTER ROLE "+r.role+" SUPERUSER")
	wantWarning(t, d, "is a superuser", true)
}

func TestARoleThatMayNotCreate(t *testing.T) {
	for _, lacks := range []string{"NOCREATEDB", "NOCREATEROLE"} {
		t.Run(lacks, func(t *testing.T) {
			r := newRig(t)
			pgtest.Exec(t, r.admin, "ALTER ROLE "+r.role+" "+lacks)
			diff.ErrorContains(t, diff.Err(r.openWith(secret)), "CREATEDB CREATEROLE", "%s", lacks)
		})
	}
}

func TestASynchronousCommitThatIsOff(t *testing.T) {
	r := newRig(t)
	pgtest.Exec(t, r.admin, "ALTER ROLE "+r.role+" SET synchronous_commit = off")
	diff.ErrorContains(t, diff.Err(r.openWith(secret)), pg.ErrNotDurable.Error(), "Open")
}

// template creates a template that the broker may look into. In its copies no customer can take advisory locks.
func (r *rig) template() (name string) {
	r.t.Helper()
	name = "template_" + randomText(r.t)
	pgtest.Exec(r.t, r.admin, "CREATE DATABASE "+name+" TEMPLATE template0 IS_TEMPLATE true",
		"REVOKE ALL ON DATABASE "+name+" FROM PUBLIC", "GRANT CONNECT ON DATABASE "+name+" TO "+r.role)
	r.t.Cleanup(func() {
		pgtest.Exec(r.t, r.admin, "ALTER DATABASE "+name+" IS_TEMPLATE false", "DROP DATABASE "+name+" WITH (FORCE)")
	})
	r.in(name, `DO $$ DECLARE it text; BEGIN
		FOR it IN SELECT oid::regprocedure FROM pg_proc WHERE proname LIKE 'pg%advisory%lock%' AND proname NOT LIKE '%unlock%'
		LOOP EXECUTE 'REVOKE EXECUTE ON FUNCTION ' || it || ' FROM PUBLIC'; END LOOP; END $$`)
	return name
}

// in runs statements in a database, as a superuser.
func (r *rig) in(database string, statements ...string) {
	r.t.Helper()
	db := pgtest.DB(r.t, pgtest.In(r.t, pgtest.URL(r.t), database))
	pgtest.Exec(r.t, db, statements...)
	check(r.t, pg.Close(db)) // otherwise nobody can copy the database
}

func withTemplate(name string) func(*postgres.Options) {
	return func(o *postgres.Options) { o.Template = name }
}

// In a copy of the template, no customer takes an advisory lock, neither the owner nor an application, whatever it
// creates. The broker's own locks are in another database.
func TestNoCustomerTakesAdvisoryLocks(t *testing.T) {
	r := newRig(t)
	d := r.open(withTemplate(r.template()))
	it := createInstance(t, d)
	_, binding := bound(t, d, it.request.Key)
	owner := r.customer(it.request.Key)
	pgtest.Exec(t, owner, "CREATE FUNCTION own() RETURNS void SECURITY DEFINER LANGUAGE sql AS 'SELECT pg_advisory_lock(1)'",
		"SELECT pg_advisory_unlock_all()")
	calls := r.column("SELECT format('SELECT %s(%s)', proname, CASE pronargs WHEN 1 THEN '1' ELSE '1, 2' END) FROM pg_proc " +
		"WHERE proname LIKE 'pg%advisory%lock%' AND proname NOT LIKE '%unlock%'")
	if len(calls) < 16 {
		t.Errorf("got %d functions, want 16 or more", len(calls))
	}
	calls = append(calls, "SELECT own()", "GRANT EXECUTE ON FUNCTION pg_advisory_lock(bigint) TO CURRENT_USER",
		"ALTER FUNCTION pg_advisory_lock(bigint) OWNER TO CURRENT_USER",
		"CREATE FUNCTION anew(bigint) RETURNS void LANGUAGE internal AS 'pg_advisory_lock_int8'",
		"CREATE OPERATOR ### (PROCEDURE = pg_advisory_lock, LEFTARG = integer, RIGHTARG = integer)")
	for _, call := range calls {
		err := diff.Err(owner.Exec(call))
		diff.Equal(t, pg.IsCode(err, pg.InsufficientPrivilege), true, "the owner lacks rights: %s: %v", call, err)
	}
	application := r.login(binding.Username, binding.Password, binding.Database)
	err := diff.Err(application.Exec("SELECT pg_advisory_lock(1)"))
	diff.Equal(t, pg.IsCode(err, pg.InsufficientPrivilege), true, "the application lacks rights: %v", err)
}

// The template is looked at when the broker starts.
func TestWarningsOfTheTemplate(t *testing.T) {
	r := newRig(t)
	name := r.template()
	d := r.open(withTemplate(name))
	const takes, enters, cannot = "take advisory locks (", "Every role may connect to the template", "can't connect to the"
	want := func(takesIt, entersIt, cannotIt bool) {
		t.Helper()
		wantWarning(t, d, takes, takesIt)
		wantWarning(t, d, enters, entersIt)
		wantWarning(t, d, cannot, cannotIt)
	}
	want(false, false, false)
	r.in(name, "GRANT EXECUTE ON FUNCTION pg_try_advisory_xact_lock_shared(integer, integer) TO PUBLIC")
	want(true, false, false)
	pgtest.Exec(t, r.admin, "GRANT CONNECT ON DATABASE "+name+" TO PUBLIC")
	want(true, true, false)
	pgtest.Exec(t, r.admin, "ALTER DATABASE "+name+" ALLOW_CONNECTIONS false")
	want(false, false, true)
	createInstance(t, d)
	pgtest.Exec(t, r.admin, "ALTER DATABASE "+name+" ALLOW_CONNECTIONS true", "REVOKE ALL ON DATABASE "+name+" FROM PUBLIC",
		"REVOKE ALL ON DATABASE "+name+" FROM "+r.role)
	want(false, false, true)
	d = r.open(withTemplate("template0"))
	wantWarning(t, d, "copied from template0", true)
}

// A template that can't be copied is an error that lasts.
func TestTemplatesThatCantBeCopied(t *testing.T) {
	r := newRig(t)
	name := r.template()
	pgtest.Exec(t, r.admin, "ALTER DATABASE "+name+" IS_TEMPLATE false")
	for template, has := range map[string]string{"no_such_template": "no_such_template", name: "IS_TEMPLATE true"} {
		t.Run(template, func(t *testing.T) {
			options := postgres.Options{Key: secret, Sessions: 1, Template: template}
			_, err := postgres.Open(context.Background(), r.url, options)
			diff.ErrorContains(t, err, has, "")
			_, isLasting := pg.Remedy(err)
			diff.Equal(t, isLasting, true, "the error lasts: %v", err)
		})
	}
}

// A template that is gone later fails a creation by its name, and whoever is sold nothing gets no role that logs in.
func TestATemplateThatIsGone(t *testing.T) {
	r := newRig(t)
	name := r.template()
	d := r.open(withTemplate(name))
	pgtest.Exec(t, r.admin, "ALTER DATABASE "+name+" RENAME TO "+name+"_gone")
	it := lock(t, d, newInstance(t))
	err := d.Create(it.ctx, it.request)
	diff.Equal(t, pg.IsCode(err, pg.InvalidCatalogName), true, "%v", err)
	diff.ErrorContains(t, err, name, "")
	diff.Equal(t, r.exists("pg_roles WHERE rolname = $1 AND rolcanlogin", postgres.NameOf(it.request.Key)), false,
		"a role that logs in")
	pgtest.Exec(t, r.admin, "ALTER DATABASE "+name+"_gone RENAME TO "+name)
	diff.NoError(t, d.Create(it.ctx, it.request), "with the template again")
}

// An assignment is a parameter of the server with a hostile value. In the value, $name is the role that sets it.
type assignment struct{ name, value string }

// hostile returns values of all parameters that the server lets every user set: both of a boolean, all of an
// enumeration, the least number, the next one and the greatest, and texts that mean nothing. The n-th round has the
// n-th value of each parameter.
func (r *rig) hostile() (rounds [][]assignment) {
	r.t.Helper()
	names := r.column("SELECT name FROM pg_settings WHERE context = 'user' ORDER BY name")
	if len(names) < 100 {
		r.t.Fatalf("the server: got %d parameters: %v, want at least 100", len(names), names)
	}
	add := func(name string, values ...string) {
		for n, value := range values {
			if n == len(rounds) {
				rounds = append(rounds, nil)
			}
			rounds[n] = append(rounds[n], assignment{name, value})
		}
	}
	for _, name := range names {
		add(name, r.column("SELECT unnest(CASE vartype WHEN 'bool' THEN ARRAY['on', 'off'] WHEN 'enum' THEN enumvals "+
			"WHEN 'string' THEN ARRAY['garbage', ''] ELSE ARRAY[(min_val::numeric + 1)::text, max_val, min_val] END) "+
			"FROM pg_settings WHERE name = $1", name)...)
	}
	// These aren't in the view.
	add("role", "$name", "none")
	add("session_authorization", "$name")
	add("seed", "0.5")
	return rounds
}

// A hostileTrial sees whether all goes well although a customer has set parameters.
type hostileTrial func(t *testing.T, set []assignment) error

// wantHarmless reports the parameters with which a trial fails: those of a group are halved until one is left. Of a
// group whose halves are harmless, all are reported.
func (it hostileTrial) wantHarmless(t *testing.T, set []assignment) {
	t.Helper()
	var failed error
	t.Run(fmt.Sprintf("%d from %s on", len(set), set[0].name), func(t *testing.T) { failed = it(t, set) })
	switch {
	case failed == nil:
		return
	case len(set) == 1:
		t.Errorf("with %s = '%s': got %v, want no error", set[0].name, set[0].value, failed)
		return
	}
	half := len(set) / 2
	areHarmless := true
	for _, part := range [][]assignment{set[:half], set[half:]} {
		areHarmless = t.Run("of them", func(t *testing.T) { it.wantHarmless(t, part) }) && areHarmless
	}
	diff.Equal(t, areHarmless, false, "with all of %v, nothing fails (%v)", set, failed)
}

// setAll has a role set parameters at its database, at itself, and at itself in the database. It returns how many of
// these the server has accepted.
func setAll(t *testing.T, as *sql.Conn, role, database string, set []assignment) (accepted int) {
	t.Helper()
	for _, assignment := range set {
		value := "'" + strings.ReplaceAll(assignment.value, "$name", role) + "'"
		for _, of := range []string{"DATABASE " + database, "ROLE " + role, "ROLE " + role + " IN DATABASE " + database} {
			if _, err := as.ExecContext(context.Background(), "ALTER "+of+" SET "+assignment.name+" = "+value); err == nil {
				accepted++
			}
		}
	}
	return accepted
}

// settingsOf are the parameters that are set for a database.
func (r *rig) settingsOf(database string) string {
	r.t.Helper()
	return strings.Join(r.column("SELECT unnest(setconfig) FROM pg_db_role_setting "+
		"WHERE setrole = 0 AND setdatabase = (SELECT oid FROM pg_database WHERE datname = $1) ORDER BY 1", database), "\n")
}

// wantAsOwn sees that a session in the database of a customer has the parameters that the broker's own session has.
func wantAsOwn(t *testing.T, d *postgres.Databases, of lockedKey, database string) {
	t.Helper()
	own, entered, err := d.Parameters(of.ctx, of.request, database)
	diff.NoError(t, err, "the parameters")
	for name, want := range own {
		diff.Equal(t, entered[name], want, "%s in the customer's database", name)
	}
}

// Whatever parameters a customer sets for its database and its roles, it keeps nothing from being deleted, neither its
// own nor what belongs to another customer, to whom it has granted something. Its settings stay.
func TestParametersThatACustomerSets(t *testing.T) {
	if testing.Short() {
		t.Skip("it takes many seconds")
	}
	r := newRig(t)
	d := r.open(func(o *postgres.Options) { o.Sessions = 8 })
	accepted := 0
	trial := hostileTrial(func(t *testing.T, set []assignment) error {
		attacker, victim := createInstance(t, d), createInstance(t, d)
		attackers, one := bound(t, d, attacker.request.Key)
		victims, two := bound(t, d, victim.request.Key)
		name := postgres.NameOf(attacker.request.Key)
		binding := hold(t, r.login(one.Username, one.Password, one.Database), "SET ROLE NONE", "CREATE TABLE u (x integer)")
		owner := hold(t, r.customer(attacker.request.Key), "CREATE TABLE t (x integer)",
			"GRANT SELECT ON t TO "+two.Username+", "+postgres.NameOf(victim.request.Key))
		accepted += setAll(t, binding, one.Username, name, set)
		accepted += setAll(t, owner, name, name, set)
		before := r.settingsOf(name)
		wantAsOwn(t, d, victim, name)
		for _, test := range []struct {
			name string
			call func(context.Context, broker.Request) error
			of   lockedKey
		}{
			{"DeleteBinding of the victim", d.DeleteBinding, victims}, {"Delete of the victim", d.Delete, victim},
			{"DeleteBinding of the attacker", d.DeleteBinding, attackers},
		} {
			if err := test.call(test.of.ctx, test.of.request); err != nil {
				return fmt.Errorf("%s: %w", test.name, err)
			}
			r.wantNothing(test.of.request.Key)
		}
		if after := r.settingsOf(name); after != before {
			return fmt.Errorf("the customer's settings were\n%s\nand are\n%s", before, after)
		}
		return d.Delete(attacker.ctx, attacker.request)
	})
	for _, round := range r.hostile() {
		trial.wantHarmless(t, round)
	}
	if accepted < 1500 {
		t.Errorf("got only %d settings accepted, want at least 1500", accepted)
	}
}

// Whatever parameters a customer of version 0.2 sets, Rekey logs in as its role, and knows it as this store's.
func TestParametersBesideRekey(t *testing.T) {
	if testing.Short() {
		t.Skip("it takes many seconds")
	}
	short := []byte("hunter2")
	trial := hostileTrial(func(t *testing.T, set []assignment) error {
		r := newRig(t)
		r.of02(store)
		key := newInstance(t)
		name := postgres.NameOf(key)
		r.create02(key, postgres.PasswordOf(short, key))
		owner := hold(t, r.login(name, postgres.PasswordOf(short, key), name), "SELECT 1")
		setAll(t, owner, name, name, set)
		if left, err := postgres.Rekey(context.Background(), r.url, short, secret); err != nil || len(left) > 0 {
			return fmt.Errorf("left: %v, %v", left, err)
		}
		return nil
	})
	for _, round := range newRig(t).hostile()[:2] { // the others are further values of enumerations
		trial.wantHarmless(t, round)
	}
}
