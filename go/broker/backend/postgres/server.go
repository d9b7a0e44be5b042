package postgres

import (
	"context"
	"database/sql"
	"errors"
	"fmt"

	"pippinterm/internal/pg"
)

// A server is what the backend has to know of the server, and of its own role there.
type server struct {
	version           int // as server_version_num has it
	prepared          int // max_prepared_transactions
	locks             int // max_locks_per_transaction
	role              string
	database          string
	isSuperuser       bool
	isOpen            bool   // whether everybody may connect to the brokers' database
	open              string // other databases that weren't sold, and that everybody may connect to
	limitsTempFiles   bool   // whether the role may set temp_file_limit
	hasFsync          bool
	mayCreateDatabase bool
	mayCreateRole     bool
}

const selectServer = `
SELECT current_setting('server_version_num')::int, current_setting('max_prepared_transactions')::int,
    current_setting('max_locks_per_transaction')::int, rolname, current_database(), rolsuper,
    has_database_privilege('public', current_database(), 'CONNECT'), current_setting('fsync')::boolean,
    rolcreatedb OR rolsuper, rolcreaterole OR rolsuper,
    (SELECT coalesce(string_agg(quote_ident(datname), ', ' ORDER BY datname), '') FROM pg_database
        WHERE datallowconn AND has_database_privilege('public', oid, 'CONNECT') AND datname <> current_database()
            AND datname !~ '^osb_[0-9a-f]{32}$')
FROM pg_roles WHERE rolname = current_user
`

// readServer looks at the server.
//
// Errors: that the server is too old, or that the role may not create databases or roles; the server's.
func readServer(ctx context.Context, db *sql.DB) (s server, err error) {
	err = db.QueryRowContext(ctx, selectServer).Scan(&s.version, &s.prepared, &s.locks, &s.role, &s.database,
		&s.isSuperuser, &s.isOpen, &s.hasFsync, &s.mayCreateDatabase, &s.mayCreateRole, &s.open)
	if err != nil {
		return s, err
	}
	if s.version < oldest {
		return s, pg.AsLasting(
			fmt.Errorf("PostgreSQL %d is too old: version %d or later is needed", s.version/10000, oldest/10000))
	}
	if !s.mayCreateDatabase || !s.mayCreateRole {
		return s, pg.AsLasting(fmt.Errorf("the role %s may not create databases and roles. Run as a superuser: "+
			"ALTER ROLE %s CREATEDB CREATEROLE", s.role, quote(s.role)))
	}
	s.limitsTempFiles = s.isSuperuser
	if !s.isSuperuser && s.version >= 150000 {
		err = db.QueryRowContext(ctx, "SELECT has_parameter_privilege('temp_file_limit', 'SET')").Scan(&s.limitsTempFiles)
	}
	return s, err
}

// Warnings returns what an operator should change on the server, a sentence each. The server is asked anew.
func (d *Databases) Warnings(ctx context.Context) ([]string, error) {
	now, err := readServer(ctx, d.db)
	if err != nil {
		return nil, err
	}
	found, err := d.templateWarnings(ctx)
	return append(now.warnings(d.options), found...), err
}

// fewestLocks is the least max_locks_per_transaction that isn't warned of. With it, a transaction has to change over
// 100,000 tables to take all locks of a server with 100 connections.
const fewestLocks = 1024

func (s server) warnings(options Options) (found []string) {
	add := func(is bool, format string, arguments ...any) {
		if is {
			found = append(found, fmt.Sprintf(format, arguments...))
		}
	}
	add(s.prepared > 0, "max_prepared_transactions is %d: a customer's prepared transaction keeps its database from "+
		"being deleted. Set it to 0.", s.prepared)
	add(s.locks < fewestLocks, "max_locks_per_transaction is %d: a customer can take all locks of the server in one "+
		"transaction. Set it to %d or more.", s.locks, fewestLocks)
	add(s.isOpen, "Every role may connect to the database %s, where it can take the brokers' locks. Run: "+
		"REVOKE ALL ON DATABASE %s FROM PUBLIC", s.database, quote(s.database))
	add(s.open != "", "Every role may connect to %s, and customers can take advisory locks there. Run: REVOKE CONNECT ON "+
		"DATABASE %s FROM PUBLIC", s.open, s.open)
	add(s.isSuperuser, "The role %s is a superuser. CREATEDB and CREATEROLE are enough.", s.role)
	add(!s.isSuperuser && s.version < 160000, "On PostgreSQL 15 and older, a role with CREATEROLE such as %s can run "+
		"programs as the server's operating system account. Use PostgreSQL 16 or later, and a server for nothing else.",
		s.role)
	add(!s.limitsTempFiles && options.TempFileLimit > 0, "The role %s may not limit the temporary files of customers. "+
		"On PostgreSQL 15 or later run as a superuser: GRANT SET ON PARAMETER temp_file_limit TO %s", s.role, quote(s.role))
	add(!s.hasFsync, "fsync is off: nothing on the server outlives a power cut. Set it to on.")
	return found
}

// bareTemplate is PostgreSQL's own template without any change. Nobody can connect to it.
const bareTemplate = "template0"

const selectTemplate = `
SELECT datistemplate OR pg_has_role(datdba, 'USAGE'), datallowconn AND has_database_privilege('public', oid, 'CONNECT')
FROM pg_database WHERE datname = $1
`

// A template is the database that those that are sold are copied from.
type template struct {
	name     string
	mayCopy  bool // whether the broker's role may copy it
	isPublic bool // whether everybody may connect to it
}

// readTemplate looks at the database with a name, or with the name of DefaultTemplate if that is empty.
//
// Errors: that there is no such database, or that the broker's role may not copy it; the server's.
func readTemplate(ctx context.Context, db *sql.DB, name string) (t template, err error) {
	t.name = name
	if name == "" {
		t.name = DefaultTemplate
	}
	err = db.QueryRowContext(ctx, selectTemplate, t.name).Scan(&t.mayCopy, &t.isPublic)
	switch {
	case errors.Is(err, sql.ErrNoRows) && name == "":
		return template{name: bareTemplate, mayCopy: true}, nil
	case errors.Is(err, sql.ErrNoRows):
		return t, pg.AsLasting(fmt.Errorf("there is no database %s to copy. Create it, or name another template", name))
	case err == nil && !t.mayCopy:
		return t, pg.AsLasting(fmt.Errorf("the database %s can't be copied. Run as a superuser: ALTER DATABASE %s "+
			"IS_TEMPLATE true", t.name, quote(t.name)))
	}
	return t, err
}

// The functions that take advisory locks, of those that everybody may execute. Functions that release them aren't among
// them: some clients call pg_advisory_unlock_all whenever they give a connection back.
const selectLockFunctions = `
SELECT count(*) FROM pg_proc WHERE pronamespace = 'pg_catalog'::regnamespace
    AND proname ~ '^pg_(try_)?advisory_(xact_)?lock(_shared)?$' AND has_function_privilege('public', oid, 'EXECUTE')
`

// templateWarnings are what an operator should change about the template, so that no customer takes all locks of the
// server.
func (d *Databases) templateWarnings(ctx context.Context) (found []string, err error) {
	const remedy = "One customer can stop the server by them. Prepare a template as docs/broker-guide.md says"
	t, err := readTemplate(ctx, d.db, d.options.Template)
	switch {
	case err != nil:
		return nil, err
	case t.name == bareTemplate:
		return []string{"Databases are copied from template0, so customers can take advisory locks. " + remedy}, nil
	case t.isPublic:
		found = append(found, fmt.Sprintf("Every role may connect to the template %s, and while a session is there, no "+
			"database is created. Run: REVOKE ALL ON DATABASE %s FROM PUBLIC", t.name, quote(t.name)))
	}
	count, err := d.countLockFunctions(ctx, t.name)
	switch {
	case isShut(err):
		return append(found, fmt.Sprintf("The role %s can't connect to the template %s, to see whether customers can take "+
			"advisory locks. Run as a superuser: ALTER DATABASE %s ALLOW_CONNECTIONS true; GRANT CONNECT ON DATABASE %s TO %s",
			d.server.role, t.name, quote(t.name), quote(t.name), quote(d.server.role))), nil
	case err == nil && count > 0:
		found = append(found, fmt.Sprintf("In copies of the template %s, customers can take advisory locks (%d functions). %s",
			t.name, count, remedy))
	}
	return found, err
}

func (d *Databases) countLockFunctions(ctx context.Context, database string) (count int, err error) {
	own, err := ownParameters(ctx, d.db)
	if err != nil {
		return 0, err
	}
	db, err := d.sessionIn(ctx, database, own)
	if err != nil {
		return 0, err
	}
	defer func() { _ = pg.Close(db) }()
	return count, db.QueryRowContext(ctx, selectLockFunctions).Scan(&count)
}
