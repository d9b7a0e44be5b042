package postgres

import (
	"context"
	"database/sql"
	"encoding/json"
	"errors"
	"fmt"
	"time"

	"github.com/lib/pq"

	"pippinterm/broker"
	"pippinterm/internal/crash"
	"pippinterm/internal/pg"
)

const (
	tries   = 5               // how often a step is tried if a customer is in the way
	endWait = 5 * time.Second // how long to wait for the end of a session
)

// Delete deletes the database and the roles of an instance. It ends the sessions that are in the way, and deletes what
// the roles own in other databases of the server too.
//
// If max_prepared_transactions isn't 0 (Warnings), a prepared transaction of the customer makes the deletion fail until
// an operator has ended it. The customer can't log in any more then.
//
// Errors: ErrForeign; those of the server.
func (d *Databases) Delete(ctx context.Context, request broker.Request) error {
	conn, f, err := instance(ctx, request)
	if err != nil {
		return err
	}
	return d.remove(ctx, conn, request.Key, f)
}

// remove deletes what was found of an instance. The role goes last: its label shows that the rest is this store's.
func (d *Databases) remove(ctx context.Context, conn *sql.Conn, key broker.Key, f resource) error {
	if !f.hasRole {
		return nil // then there is no database either (check)
	}
	if _, err := conn.ExecContext(ctx, "DELETE FROM osb_settings WHERE instance = $1", key.Instance); err != nil {
		return err
	}
	bindings, err := bindingRoles(ctx, conn, f.name)
	if err != nil {
		return err
	}
	roles := append(bindings, f.name)
	if err := rejoin(ctx, conn, roles...); err != nil {
		return err
	}
	err = persist(func() error { return d.dropDatabase(ctx, conn, f, roles) })
	if err != nil {
		return err
	}
	crash.At("work-half")
	for _, role := range roles {
		if err := persist(func() error { return d.dropRole(ctx, conn, role, "") }); err != nil {
			return err
		}
	}
	return nil
}

// bindingRoles are the roles of the bindings of an instance. There are none if the instance is deleted, unless somebody
// has created them by hand.
func bindingRoles(ctx context.Context, from querying, name string) (roles []string, err error) {
	return column(ctx, from, "SELECT rolname FROM pg_roles WHERE starts_with(rolname, $1)", name+"_")
}

// querying is a session or a transaction.
type querying interface {
	QueryContext(ctx context.Context, query string, arguments ...any) (*sql.Rows, error)
}

// column returns the only column of a query.
func column(ctx context.Context, from querying, query string, arguments ...any) (found []string, err error) {
	rows, err := from.QueryContext(ctx, query, arguments...)
	if err != nil {
		return nil, err
	}
	defer rows.Close()
	for rows.Next() {
		var it string
		if err := rows.Scan(&it); err != nil {
			return nil, err
		}
		found = append(found, it)
	}
	return found, rows.Err()
}

// persist calls again while somebody is in the way: a customer may hold a lock, or change its own role or database at
// the same time.
func persist(call func() error) error {
	var err error
	for n := 0; n < tries; n++ {
		if err = call(); !isInTheWay(err) {
			return err
		}
	}
	return fmt.Errorf("it was tried %d times, and others were in the way: %w", tries, err)
}

func isInTheWay(err error) bool {
	return pg.IsCode(err, pg.LockNotAvailable, pg.ObjectInUse, pg.DeadlockDetected,
		pg.InternalError, pg.DependentObjects, pg.UndefinedObject) // the last if an Unbind drops a role that was found
}

// dropDatabase closes the database and its roles, ends the sessions that are in the way, and drops the database.
//
// DROP DATABASE takes the lock of the database before it looks at the sessions. So a customer's transaction that has
// the lock, for example by COMMENT ON DATABASE, would block it. A customer's transaction can block ALTER ROLE and ALTER
// DATABASE too. So they run right after the first call of endSessions, before the customer can connect again.
//
// FORCE isn't used: with it DROP DATABASE fails if autovacuum works in the database and the broker's role isn't a
// superuser. Without it the server ends autovacuum, and waits for sessions that are ending.
func (d *Databases) dropDatabase(ctx context.Context, conn *sql.Conn, f resource, roles []string) error {
	if err := endSessions(ctx, conn, f.name, roles, 0); err != nil {
		return err
	}
	if err := exec(ctx, conn, closeStatements(f, roles)); err != nil {
		return err
	}
	if err := endSessions(ctx, conn, f.name, roles, endWait); err != nil {
		return err
	}
	if err := checkPrepared(ctx, conn, f.name); err != nil {
		return err
	}
	return exec(ctx, conn, "DROP DATABASE IF EXISTS "+quote(f.name))
}

// checkPrepared fails if a prepared transaction keeps the database from being dropped.
func checkPrepared(ctx context.Context, conn *sql.Conn, name string) error {
	var count int
	err := conn.QueryRowContext(ctx, "SELECT count(*) FROM pg_prepared_xacts WHERE database = $1", name).Scan(&count)
	if err == nil && count > 0 {
		err = fmt.Errorf("the database %s has %d prepared transactions. Run as a superuser: ALTER DATABASE %s "+
			"ALLOW_CONNECTIONS true, and in that database ROLLBACK PREPARED for each one of pg_prepared_xacts",
			name, count, quote(name))
	}
	return err
}

// closeStatements are the statements, in one transaction, after which nobody can connect any more.
func closeStatements(f resource, roles []string) (statements string) {
	for _, role := range roles {
		statements += "ALTER ROLE " + quote(role) + " NOLOGIN;"
	}
	if !f.hasDatabase || f.isBroken {
		return statements
	}
	if f.isTemplate { // a customer may make its database one, and a template isn't dropped
		statements += "ALTER DATABASE " + quote(f.name) + " IS_TEMPLATE false;"
	}
	return statements + "ALTER DATABASE " + quote(f.name) + " ALLOW_CONNECTIONS false"
}

// The sessions in a database, those of some roles, and those that hold a lock on the database or on a role. The broker
// can end the sessions of the roles that it has created, since it is a member of them.
const selectEnd = `
SELECT pg_terminate_backend(pid, $3) FROM pg_stat_activity
WHERE pid <> pg_backend_pid() AND backend_type = 'client backend' AND pg_has_role(usesysid, 'USAGE')
    AND (datname = $1 OR usename = ANY ($2) OR pid IN (
        SELECT pid FROM pg_locks WHERE locktype = 'object' AND database = 0 AND (
            classid = 'pg_database'::regclass AND objid = (SELECT oid FROM pg_database WHERE datname = $1)
            OR classid = 'pg_authid'::regclass AND objid IN (SELECT oid FROM pg_roles WHERE rolname = ANY ($2)))))
`

// endSessions ends the sessions that are in the way of dropping a database and roles. It waits for each at most this
// long. If the name of the database is empty, it only looks at the roles.
func endSessions(ctx context.Context, conn *sql.Conn, database string, roles []string, wait time.Duration) error {
	_, err := conn.ExecContext(ctx, selectEnd, database, pq.Array(roles), wait.Milliseconds())
	return err
}

// dropRole drops a role that can't log in any more, with what it owns and what was granted to it, in all databases.
// What a binding's role owns in the database of its instance (heir) becomes the instance's. The heir is empty for the
// role of an instance, whose database is gone.
func (d *Databases) dropRole(ctx context.Context, conn *sql.Conn, role, heir string) error {
	if err := endSessions(ctx, conn, "", []string{role}, endWait); err != nil {
		return err
	}
	databases, err := databasesWith(ctx, conn, role)
	if err != nil {
		return err
	}
	for _, database := range databases {
		inherit := heir != "" && database == heir
		if err := d.enterAndDisown(ctx, conn, database, role, inherit); err != nil {
			return fmt.Errorf("what the role %s owns in the database %s: %w", role, database, err)
		}
	}
	return pg.Transaction(ctx, conn, func(tx *sql.Tx) (bool, error) {
		return true, execAll(ctx, tx, "DROP OWNED BY "+quote(role), "DROP ROLE "+quote(role))
	})
}

// The store's own roles that the broker's role isn't a member of.
const selectLeft = `
SELECT rolname FROM pg_roles WHERE rolname = ANY ($1) AND NOT pg_has_role(oid, 'USAGE')
    AND shobj_description(oid, 'pg_authid') = (SELECT $2::text || store FROM osb_owner)
`

// rejoin makes the broker's role a member of roles again, as it became when it created them. On PostgreSQL 14 a role
// that has logged in can undo that.
func rejoin(ctx context.Context, conn *sql.Conn, roles ...string) error {
	left, err := column(ctx, conn, selectLeft, pq.Array(roles), labelOf(""))
	if err != nil {
		return err
	}
	for _, role := range left {
		if err := exec(ctx, conn, "GRANT "+quote(role)+" TO CURRENT_USER"); err != nil {
			return err
		}
	}
	return nil
}

// A role can't be dropped while it owns something or has a right in any database, or at a database. That may be the
// database of another customer, who can grant something to every role.
const selectDatabasesWith = `
SELECT DISTINCT d.datname FROM pg_shdepend AS s JOIN pg_database AS d ON d.oid = s.dbid
    OR s.classid = 'pg_database'::regclass AND d.oid = s.objid AND pg_has_role(d.datdba, 'USAGE')
WHERE s.refclassid = 'pg_authid'::regclass AND s.refobjid = (SELECT oid FROM pg_roles WHERE rolname = $1)
    AND d.datname <> current_database()
`

func databasesWith(ctx context.Context, conn *sql.Conn, role string) (names []string, err error) {
	return column(ctx, conn, selectDatabasesWith, role)
}

// enterAndDisown is disown, also if another customer is in the way: it holds locks, or it lets nobody into its own
// database. In the database of the instance itself (inherit), other bindings may work.
func (d *Databases) enterAndDisown(ctx context.Context, conn *sql.Conn, database, role string, inherit bool) error {
	if err := rejoin(ctx, conn, database); err != nil {
		return err
	}
	for n := 0; ; n++ {
		db, failed := d.enter(ctx, conn, database)
		if failed == nil {
			failed = disownFirst(ctx, conn, db, database, role, inherit)
			_ = pg.Close(db)
		}
		if failed == nil || n == tries {
			return failed
		}
		hasChanged, err := false, error(nil)
		switch {
		case isNotEntered(failed):
			hasChanged, err = forgetLongSettings(ctx, conn, database)
		case isInTheWay(failed):
			hasChanged, err = endAround(ctx, conn, database, inherit)
		}
		if err != nil || !hasChanged {
			return failed
		}
	}
}

// disownFirst is disown in the next session of db, before those who hold a lock that this session waits for: another
// session, conn, ends them. In the database of the instance itself (inherit), its own sessions aren't ended.
func disownFirst(ctx context.Context, conn *sql.Conn, db *sql.DB, database, role string, inherit bool) error {
	inside, err := db.Conn(ctx)
	if err != nil {
		return err
	}
	defer inside.Close()
	var pid int
	if err := inside.QueryRowContext(ctx, "SELECT pg_backend_pid()").Scan(&pid); err != nil {
		return err
	}
	spared := ""
	if inherit {
		spared = database
	}
	return endingBlockers(ctx, conn, pid, spared, func() error { return disown(ctx, inside, database, role, inherit) })
}

// disown takes away what a role owns, and its rights, in the database of a session. In the database of another
// customer, what that customer has made to depend on it goes too: otherwise the role could never be dropped. One
// transaction takes all away, unless that needs too many locks, or an extension needs what the role owns. Rights and
// policies go before.
func disown(ctx context.Context, conn *sql.Conn, database, role string, inherit bool) error {
	for _, query := range []string{selectGrants, selectPolicies} {
		if err := byParts(ctx, conn, query, role, aFew); err != nil {
			return fmt.Errorf("what was granted to it: %w", err)
		}
	}
	statements, heir := []string{"DROP OWNED BY " + quote(role) + " CASCADE"}, ""
	if inherit {
		heir = database
		statements = []string{"REASSIGN OWNED BY " + quote(role) + " TO " + quote(heir), "DROP OWNED BY " + quote(role)}
		if err := grantRights(ctx, conn, role, heir); err != nil {
			return err
		}
	}
	atOnce := func(tx *sql.Tx) (bool, error) { return true, execAll(ctx, tx, statements...) }
	err := pg.Transaction(ctx, conn, atOnce)
	if !pg.IsCode(err, outOfMemory, pg.DependentObjects) {
		return err
	}
	if err := disownByParts(ctx, conn, role, heir); err != nil {
		return err
	}
	return pg.Transaction(ctx, conn, atOnce)
}

// outOfMemory is the code of the error that a transaction needs more locks than the server has room for
// (out_of_memory).
const outOfMemory = "53200"

// Members of an extension come first: they aren't dropped without it. Schemas come before relations: an heir needs a
// right in the schema of a relation. A sequence of a column goes with its table.
const (
	selectMembers = `
SELECT string_agg(format('ALTER EXTENSION %I DROP %s %s', extname, i.type, i.identity), ';')
FROM (SELECT s.classid, s.objid, e.extname FROM pg_shdepend AS s
    JOIN pg_depend AS d ON d.classid = s.classid AND d.objid = s.objid AND d.deptype = 'e'
    JOIN pg_extension AS e ON e.oid = d.refobjid
    WHERE $2 = '' AND s.deptype = 'o' AND s.refclassid = 'pg_authid'::regclass AND s.refobjid = $1::text::regrole
        AND s.dbid = (SELECT oid FROM pg_database WHERE datname = current_database()) LIMIT 500) AS m,
    pg_identify_object(m.classid, m.objid, 0) AS i`
	selectSchemas = `
SELECT string_agg(format('ALTER SCHEMA %I OWNER TO %I', nspname, $2::text), ';')
FROM (SELECT nspname FROM pg_namespace WHERE nspowner = $1::text::regrole AND $2 <> '' LIMIT 500) AS s`
	selectRelations = `
SELECT string_agg(CASE WHEN $2 <> '' THEN format('ALTER TABLE %s OWNER TO %I', oid::regclass, $2::text)
    ELSE format('DROP %s IF EXISTS %s CASCADE', CASE relkind WHEN 'v' THEN 'VIEW' WHEN 'm' THEN 'MATERIALIZED VIEW'
        WHEN 'f' THEN 'FOREIGN TABLE' WHEN 'S' THEN 'SEQUENCE' ELSE 'TABLE' END, oid::regclass) END, ';')
FROM (SELECT oid, relkind FROM pg_class AS c WHERE relowner = $1::text::regrole AND (
    relkind IN ('v', 'm', 'f', 'r', 'p') OR relkind = 'S' AND NOT EXISTS (SELECT FROM pg_depend
        WHERE classid = 'pg_class'::regclass AND objid = c.oid AND deptype IN ('a', 'i')))
    ORDER BY relkind DESC LIMIT 500) AS r`
	selectObjects = `
SELECT string_agg(CASE classid WHEN 'pg_largeobject'::regclass THEN format('SELECT lo_unlink(%s)', objid)
    ELSE format('DROP %s IF EXISTS %s CASCADE', replace(i.type, ' object', ''), i.identity) END, ';')
FROM (SELECT classid, objid FROM pg_shdepend WHERE $2 = '' AND deptype = 'o'
    AND refclassid = 'pg_authid'::regclass AND refobjid = $1::text::regrole
    AND classid IN ('pg_largeobject'::regclass, 'pg_proc'::regclass, 'pg_type'::regclass, 'pg_operator'::regclass,
        'pg_collation'::regclass, 'pg_conversion'::regclass, 'pg_ts_dict'::regclass, 'pg_ts_config'::regclass,
        'pg_statistic_ext'::regclass, 'pg_namespace'::regclass)
    AND dbid = (SELECT oid FROM pg_database WHERE datname = current_database())
    ORDER BY classid = 'pg_namespace'::regclass LIMIT 500) AS o, pg_identify_object(o.classid, o.objid, 0) AS i`
)

// disownByParts takes away what a role may have a lot of, a few at a time: what it owns, the schemas last, and its part
// in extensions. Relations become the heir's. All else is the heir's by REASSIGN OWNED, which needs no lock for it.
// Without an heir all of it is dropped.
func disownByParts(ctx context.Context, conn *sql.Conn, role, heir string) error {
	for _, query := range []string{selectMembers, selectSchemas, selectRelations, selectObjects} {
		if err := byParts(ctx, conn, query, role, heir); err != nil {
			return err
		}
	}
	return nil
}

// aFew is how many objects are changed in one transaction, so that it needs few locks and can be ended in time.
const aFew = 500

const countDependent = `
SELECT count(*) FROM pg_shdepend WHERE refclassid = 'pg_authid'::regclass AND refobjid = $1::text::regrole`

// byParts takes away what a role has of one kind, a few objects in each transaction. The query has the statements for
// that, and is given the role and a further argument. What was taken away stays so if byParts fails.
//
// Errors: errComesAgain if others give the role more of it meanwhile; the server's.
func byParts(ctx context.Context, conn *sql.Conn, query, role string, argument any) error {
	var count int
	if err := conn.QueryRowContext(ctx, countDependent, quote(role)).Scan(&count); err != nil {
		return err
	}
	for most := tries + count*rightsOfOne/aFew; most > 0; most-- {
		var statements sql.NullString
		if err := conn.QueryRowContext(ctx, query, quote(role), argument).Scan(&statements); err != nil || !statements.Valid {
			return err
		}
		err := pg.Transaction(ctx, conn, func(tx *sql.Tx) (bool, error) { return true, execAll(ctx, tx, statements.String) })
		if err != nil {
			return err
		}
	}
	return errComesAgain
}

// rightsOfOne is how many rights somebody has at one object at most.
const rightsOfOne = 8

var errComesAgain = errors.New("others gave the role more while it was taken away")

// Statements that revoke a few of the rights that were granted to a role, in the database of the session and at
// databases, each as the role that has granted it. That role needs a right in the schema to name what is in it.
//
// DROP OWNED isn't enough: it leaves what somebody else than the owner has granted. And it can't be ended meanwhile:
// one table of 1,500 columns takes it more than 10 minutes, and a GiB of memory. Many policies of a table take it long
// too.
const selectGrants = `
SELECT string_agg(concat('GRANT USAGE ON SCHEMA ' || lacks || ' TO ' || grantor || ';', 'SET LOCAL ROLE ', grantor,
    '; REVOKE ', privilege, ' FROM ', role, ' CASCADE; RESET ROLE'), ';')
FROM (SELECT refobjid::regrole AS role, grantor::regrole,
        concat(privilege_type, part, ' ON ', kind, ' ', CASE kind WHEN 'LARGE OBJECT' THEN objid::text ELSE identity END)
            AS privilege,
        CASE WHEN NOT has_schema_privilege(grantor, schema::regnamespace, 'USAGE') THEN schema END AS lacks
    FROM (SELECT classid, objid, refobjid,
            (SELECT format(' (%I)', attname) FROM pg_attribute
                WHERE attrelid = objid AND attnum = objsubid AND objsubid <> 0) AS part,
            CASE classid
                WHEN 'pg_class'::regclass THEN
                    (SELECT CASE relkind WHEN 'S' THEN 'SEQUENCE' ELSE 'TABLE' END FROM pg_class WHERE oid = objid)
                WHEN 'pg_proc'::regclass THEN 'ROUTINE'
                WHEN 'pg_type'::regclass THEN 'TYPE'
                WHEN 'pg_namespace'::regclass THEN 'SCHEMA'
                WHEN 'pg_language'::regclass THEN 'LANGUAGE'
                WHEN 'pg_largeobject'::regclass THEN 'LARGE OBJECT'
                WHEN 'pg_database'::regclass THEN 'DATABASE'
                WHEN 'pg_foreign_server'::regclass THEN 'FOREIGN SERVER'
                WHEN 'pg_foreign_data_wrapper'::regclass THEN 'FOREIGN DATA WRAPPER' END AS kind,
            CASE classid
                WHEN 'pg_class'::regclass THEN CASE objsubid
                    WHEN 0 THEN (SELECT relacl FROM pg_class WHERE oid = objid)
                    ELSE (SELECT attacl FROM pg_attribute WHERE attrelid = objid AND attnum = objsubid) END
                WHEN 'pg_proc'::regclass THEN (SELECT proacl FROM pg_proc WHERE oid = objid)
                WHEN 'pg_type'::regclass THEN (SELECT typacl FROM pg_type WHERE oid = objid)
                WHEN 'pg_namespace'::regclass THEN (SELECT nspacl FROM pg_namespace WHERE oid = objid)
                WHEN 'pg_language'::regclass THEN (SELECT lanacl FROM pg_language WHERE oid = objid)
                WHEN 'pg_largeobject'::regclass THEN (SELECT lomacl FROM pg_largeobject_metadata WHERE oid = objid)
                WHEN 'pg_database'::regclass THEN (SELECT datacl FROM pg_database WHERE oid = objid)
                WHEN 'pg_foreign_server'::regclass THEN (SELECT srvacl FROM pg_foreign_server WHERE oid = objid)
                WHEN 'pg_foreign_data_wrapper'::regclass THEN (SELECT fdwacl FROM pg_foreign_data_wrapper WHERE oid = objid)
            END AS acl
        FROM pg_shdepend
        WHERE refclassid = 'pg_authid'::regclass AND refobjid = $1::text::regrole AND deptype = 'a'
            AND dbid IN (0, (SELECT oid FROM pg_database WHERE datname = current_database()))) AS s,
        aclexplode(acl), pg_identify_object(classid, objid, 0)
    WHERE kind IS NOT NULL AND grantee = refobjid AND pg_has_role(grantor, 'MEMBER') LIMIT $2) AS few`

// Statements that take a role out of a few policies in the database of the session.
const selectPolicies = `
SELECT string_agg(concat(enter, CASE WHEN others IS NULL THEN format('DROP POLICY IF EXISTS %I ON %s', polname, relation)
    ELSE format('ALTER POLICY %I ON %s TO %s', polname, relation, others) END), ';')
FROM (SELECT polname, polrelid::regclass AS relation,
        CASE WHEN NOT has_schema_privilege(relnamespace, 'USAGE')
            THEN format('GRANT USAGE ON SCHEMA %s TO CURRENT_USER;', relnamespace::regnamespace) END AS enter,
        (SELECT string_agg(quote_ident(rolname), ', ') FROM pg_roles
            WHERE oid = ANY (polroles) AND oid <> $1::text::regrole) AS others
    FROM pg_policy JOIN pg_class AS c ON c.oid = polrelid WHERE $1::text::regrole = ANY (polroles) LIMIT $2) AS p`

// The statements that an heir lacks rights for, to own what a role owns in the database of the session.
const selectRights = `
SELECT string_agg(format('GRANT CREATE ON %s TO %I', object, $2::text), ';')
FROM (SELECT 'DATABASE ' || quote_ident(current_database()) AS object
    WHERE NOT has_database_privilege($2, current_database(), 'CREATE')
    UNION SELECT 'SCHEMA ' || schema FROM pg_shdepend, pg_identify_object(classid, objid, 0)
    WHERE refclassid = 'pg_authid'::regclass AND refobjid = $1::text::regrole AND deptype = 'o'
        AND dbid = (SELECT oid FROM pg_database WHERE datname = current_database())
        AND NOT has_schema_privilege($2, schema::regnamespace, 'CREATE')) AS p`

// grantRights lets an heir own what a role owns in the database of the session. REASSIGN OWNED needs these rights, and
// the heir may have taken them from itself.
func grantRights(ctx context.Context, conn *sql.Conn, role, heir string) error {
	var statements sql.NullString
	err := conn.QueryRowContext(ctx, selectRights, quote(role), heir).Scan(&statements)
	if err != nil || !statements.Valid {
		return err
	}
	return exec(ctx, conn, statements.String)
}

// The parameters that every user may set. Those of a transaction end with it, and lib/pq sets the last two itself.
const selectParameters = `
SELECT json_object_agg(name, setting), session_user, current_setting('role') FROM pg_settings
WHERE context = 'user' AND name NOT LIKE '%.%' AND name NOT IN ('transaction_isolation', 'transaction_read_only',
    'transaction_deferrable', 'client_encoding', 'DateStyle')
`

// ownParameters are the parameters of a session of the broker. Given to a new session, they win over what an owner has
// set for its database, and over what a role has set for itself, also if that changes meanwhile. So in a database that
// was sold the new session is as the broker's other sessions, and neither a library nor a function of the customer runs
// in it.
func ownParameters(ctx context.Context, from queryer) (own map[string]string, err error) {
	var parameters []byte
	var user, role string
	if err := from.QueryRowContext(ctx, selectParameters).Scan(&parameters, &user, &role); err != nil {
		return nil, err
	}
	if err := json.Unmarshal(parameters, &own); err != nil {
		return nil, err
	}
	own["search_path"], own["session_authorization"], own["role"] = "pg_catalog", user, role
	return own, nil
}

// A notEntered is the error of a session that couldn't be opened.
type notEntered struct{ error }

func (n notEntered) Unwrap() error { return n.error }

func isNotEntered(err error) bool { return errors.As(err, &notEntered{}) }

// enter opens a session in a database that was sold, also if its owner has shut it. conn is a session of the broker.
//
// Errors: notEntered; those of the server.
func (d *Databases) enter(ctx context.Context, conn *sql.Conn, database string) (*sql.DB, error) {
	own, err := ownParameters(ctx, conn)
	if err != nil {
		return nil, err
	}
	db, err := d.sessionIn(ctx, database, own)
	for n := 0; n < tries && (isShut(err) || isInTheWay(err)); n++ {
		if n > 0 {
			if _, err := endAround(ctx, conn, database, false); err != nil {
				return nil, err
			}
		}
		db, err = d.reopen(ctx, conn, database, own)
	}
	return db, err
}

func (d *Databases) sessionIn(ctx context.Context, database string, parameters map[string]string) (*sql.DB, error) {
	db, err := pg.Open(d.url, pg.Options{
		Most: 1, Lock: lockWait, Statement: statement, Idle: idle, Database: database, Settings: parameters,
	})
	if err != nil {
		return nil, err
	}
	if err := db.PingContext(ctx); err != nil {
		_ = db.Close()
		return nil, notEntered{err}
	}
	return db, nil
}

// isShut reports whether a database has let nobody in: it has too many connections, doesn't accept any, or lacks the
// right to connect. The server names the routine that judges all of these.
func isShut(err error) bool {
	var failed *pq.Error
	return errors.As(err, &failed) && failed.Routine == "CheckMyDatabase"
}

// reopen opens a session in a database that its owner has shut: the owner sets the limit of its database, closes it,
// and takes the right to connect from its own role, by which the broker's role has that right.
//
// The owner can shut it again at once. So the row of the database is changed once more, right after it was opened, in a
// transaction that lasts until the session is open: no other session can change the row meanwhile.
func (d *Databases) reopen(
	ctx context.Context, conn *sql.Conn, database string, own map[string]string,
) (db *sql.DB, err error) {
	name := quote(database)
	open := "ALTER DATABASE " + name + " ALLOW_CONNECTIONS true CONNECTION LIMIT -1;"
	err = pg.Transaction(ctx, conn, func(tx *sql.Tx) (bool, error) {
		if err := execAll(ctx, tx, open+"GRANT CONNECT ON DATABASE "+name+" TO CURRENT_USER; COMMIT; BEGIN;"+open); err != nil {
			return false, err
		}
		db, err = d.sessionIn(ctx, database, own)
		return false, err
	})
	if err != nil && db != nil {
		_ = pg.Close(db)
		return nil, err
	}
	return db, err
}

// longSettings is how many bytes of settings, compressed, a database may have that a session can't be opened in.
const longSettings = 8 << 10

const selectHasLongSettings = `
SELECT EXISTS (SELECT FROM pg_db_role_setting AS s JOIN pg_database AS d ON d.oid = s.setdatabase
    WHERE d.datname = $1 AND s.setrole = 0 AND pg_column_size(s.setconfig) > $2)
`

// forgetLongSettings resets the parameters of a database if they are so long that the server needs many seconds to read
// them for a new session. It returns whether they were.
func forgetLongSettings(ctx context.Context, conn *sql.Conn, database string) (were bool, err error) {
	err = conn.QueryRowContext(ctx, selectHasLongSettings, database, longSettings).Scan(&were)
	if err != nil || !were {
		return false, err
	}
	return true, exec(ctx, conn, "ALTER DATABASE "+quote(database)+" RESET ALL")
}

// The sessions in a database, and those of its roles in any database. With $2, only the sessions of other roles.
const selectEndAround = `
SELECT count(pg_terminate_backend(pid)) FROM pg_stat_activity
WHERE backend_type = 'client backend' AND pg_has_role(usesysid, 'USAGE') AND usename <> current_user
    AND CASE WHEN usename = $1::text OR starts_with(usename, $1::text || '_') THEN NOT $2 ELSE datname = $1::text END
`

// endAround ends sessions that may be in the way, and returns whether there were any.
func endAround(ctx context.Context, conn *sql.Conn, database string, onlyStrangers bool) (hasEnded bool, err error) {
	var count int
	err = conn.QueryRowContext(ctx, selectEndAround, database, onlyStrangers).Scan(&count)
	return count > 0, err
}

// The sessions that a session waits for. Those of an instance, and of its bindings, are spared.
const selectEndBlockers = `
SELECT count(pg_terminate_backend(pid)) FROM pg_stat_activity
WHERE pid = ANY (pg_blocking_pids($1)) AND backend_type = 'client backend' AND pg_has_role(usesysid, 'USAGE')
    AND usename <> current_user AND usename <> $2::text AND NOT ($2::text <> '' AND starts_with(usename, $2::text || '_'))
`

// endingEvery is how often endingBlockers looks. It is less than deadlock_timeout, which is 1 s by default.
const endingEvery = 200 * time.Millisecond

// endingBlockers calls what works in another session of the server, and ends the sessions that this one waits for,
// until the call returns. A later session waits behind it: so nobody keeps it waiting by connecting again and again.
func endingBlockers(ctx context.Context, conn *sql.Conn, pid int, spared string, call func() error) error {
	returned, ended := make(chan struct{}), make(chan struct{})
	go func() {
		defer close(ended)
		for {
			select {
			case <-returned:
				return
			case <-time.After(endingEvery):
			}
			if _, err := conn.ExecContext(ctx, selectEndBlockers, pid, spared); err != nil {
				return
			}
		}
	}()
	defer func() {
		close(returned)
		<-ended
	}()
	return call()
}
