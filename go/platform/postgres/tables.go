package postgres

import (
	"context"
	"database/sql"
	"errors"
	"fmt"
	"strings"
	"time"

	"pippinterm/internal/pg"
	"pippinterm/platform"
)

// The tables of version 0.2, but for an index that is replaced.
const tablesOf02 = `
CREATE TABLE IF NOT EXISTS osb_instances (id text PRIMARY KEY, service text NOT NULL, plan text NOT NULL,
    further text NOT NULL, record text, operation text, state text NOT NULL, since double precision NOT NULL,
    sent_until double precision, polled_since double precision, removal integer NOT NULL, due double precision,
    tries integer NOT NULL, worker text, leased_until double precision);
CREATE TABLE IF NOT EXISTS osb_lives (id text NOT NULL, number integer NOT NULL, state text NOT NULL,
    since double precision NOT NULL, PRIMARY KEY (id, number));
CREATE TABLE IF NOT EXISTS osb_broker_asked (one integer PRIMARY KEY CHECK (one = 1), url text NOT NULL);
CREATE INDEX IF NOT EXISTS osb_instances_by_state ON osb_instances (state, since, id);
CREATE INDEX IF NOT EXISTS osb_leased_instances ON osb_instances (leased_until) WHERE worker IS NOT NULL;
`

// What version 0.2 doesn't have. Bindings are in osb_bound: a broker has a table osb_bindings, and may use the same
// database. Their osb_lives have the id of the instance, a slash and their own as the id.
//
// The rows of version 0.2 are of one broker, which gets the name default. Their ids are their own names, nobody knows
// whether the platform has made them up, and they are tried once. Of a row that is gone only the last deletion was due,
// and no step of one that is withdrawn counts. The user of the broker, the organization and the space are those that
// version 0.2 sends if no others are given.
//
// The last statements stop version 0.2, which would send the orders of all brokers to its own: it rejects a store whose
// broker has another URL, and can't insert a row without names.
const tablesSince02 = `
ALTER TABLE osb_instances ADD COLUMN IF NOT EXISTS broker text NOT NULL DEFAULT 'default',
    ADD COLUMN IF NOT EXISTS names text NOT NULL DEFAULT '',
    ADD COLUMN IF NOT EXISTS organization text NOT NULL DEFAULT 'osb-platform',
    ADD COLUMN IF NOT EXISTS space text NOT NULL DEFAULT 'osb-platform', ADD COLUMN IF NOT EXISTS identity text,
    ADD COLUMN IF NOT EXISTS own_id boolean NOT NULL DEFAULT false,
    ADD COLUMN IF NOT EXISTS try_number integer NOT NULL DEFAULT 1,
    ADD COLUMN IF NOT EXISTS most_tries integer NOT NULL DEFAULT 1,
    ADD COLUMN IF NOT EXISTS first text NOT NULL DEFAULT '',
    ADD COLUMN IF NOT EXISTS has_last boolean NOT NULL DEFAULT false, ADD COLUMN IF NOT EXISTS last text,
    ADD COLUMN IF NOT EXISTS failure text, ADD COLUMN IF NOT EXISTS passing boolean NOT NULL DEFAULT false,
    ADD COLUMN IF NOT EXISTS after double precision NOT NULL DEFAULT 0, ADD COLUMN IF NOT EXISTS dashboard text,
    ADD COLUMN IF NOT EXISTS metadata text, ADD COLUMN IF NOT EXISTS because text;
UPDATE osb_instances SET names = json_build_object('instance', id, 'service', service, 'plan', plan)::text, first = id,
    has_last = state = 'gone' AND due IS NOT NULL, due = CASE WHEN state <> 'withdrawn' THEN due END;
DROP INDEX IF EXISTS osb_due_instances;
CREATE INDEX osb_due_instances_of ON osb_instances (broker, due) WHERE due IS NOT NULL;
CREATE INDEX osb_tried_instances ON osb_instances (first) WHERE first <> id;
CREATE TABLE osb_bound (id text NOT NULL, binding text NOT NULL, broker text NOT NULL, names text NOT NULL,
    service text NOT NULL, plan text NOT NULL, further text NOT NULL, organization text NOT NULL, space text NOT NULL,
    identity text, own_id boolean NOT NULL, try_number integer NOT NULL, most_tries integer NOT NULL,
    first text NOT NULL, record text, operation text, state text NOT NULL, since double precision NOT NULL,
    sent_until double precision, polled_since double precision, removal integer NOT NULL, has_last boolean NOT NULL,
    due double precision, tries integer NOT NULL, worker text, leased_until double precision, last text, failure text,
    passing boolean NOT NULL, after double precision NOT NULL, dashboard text, metadata text, credentials bytea,
    because text, PRIMARY KEY (id, binding));
CREATE INDEX osb_due_bound_of ON osb_bound (broker, due) WHERE due IS NOT NULL;
CREATE INDEX osb_bound_by_state ON osb_bound (state, since, id, binding);
CREATE INDEX osb_leased_bound ON osb_bound (leased_until) WHERE worker IS NOT NULL;
CREATE INDEX osb_tried_bound ON osb_bound (first) WHERE first <> binding;
CREATE TABLE osb_brokers (name text PRIMARY KEY, url text NOT NULL, username text NOT NULL, password bytea,
    password_file text NOT NULL, settings text NOT NULL, catalogue text, catalogue_at double precision, reason text);
CREATE TABLE osb_platform (one integer PRIMARY KEY CHECK (one = 1), fingerprint text);
INSERT INTO osb_platform VALUES (1, NULL);
INSERT INTO osb_brokers (name, url, username, password_file, settings)
    SELECT 'default', url, 'platform', '', '{}' FROM osb_broker_asked;
ALTER TABLE osb_instances ALTER COLUMN names DROP DEFAULT;
INSERT INTO osb_broker_asked VALUES (1, 'of a later version of osb-platform, which this one must not run beside')
    ON CONFLICT (one) DO UPDATE SET url = excluded.url;
`

// isSince02 selects whether the tables have what version 0.2 lacked: that is added in one transaction.
const isSince02 = "SELECT to_regclass('osb_platform') IS NOT NULL"

// isCurrent selects whether nothing is missing.
var isCurrent = isSince02 + " AND NOT EXISTS (" + missingColumns() + ")"

// missingColumns is a query of the statements that add the columns that the tables lack.
func missingColumns() string {
	wanted := []string{}
	for _, table := range []string{"osb_instances", "osb_bound"} {
		for _, column := range rowColumns.Of(table == "osb_bound") {
			wanted = append(wanted, fmt.Sprintf("('%s', '%s', '%s')", table, column.Name, typeOf(column)))
		}
	}
	return "SELECT 'ALTER TABLE ' || owner || ' ADD COLUMN ' || name || ' ' || type " +
		"FROM (VALUES " + strings.Join(wanted, ", ") + ") AS wanted (owner, name, type) WHERE NOT EXISTS " +
		"(SELECT FROM pg_attribute WHERE attrelid = to_regclass(owner) AND attname = name AND NOT attisdropped)"
}

// typeOf is the type of a column that is added.
func typeOf(column entryColumn) string {
	switch column.Member(&platform.Entry{}).(type) {
	case *int:
		return "integer"
	case *bool:
		return "boolean"
	case *time.Time, *time.Duration:
		return "double precision"
	case *[]byte:
		return "bytea"
	}
	return "text"
}

// hasWorkers selects whether a worker of version 0.2 may run over the tables: it holds a lock of its name (store.go).
// No later worker runs before the tables are extended.
const hasWorkers = `
SELECT to_regclass('osb_instances') IS NOT NULL AND EXISTS (SELECT FROM pg_locks JOIN pg_database ON oid = database
    WHERE locktype = 'advisory' AND classid = $1 AND objsubid = 2 AND granted AND datname = current_database())
`

// tablesLock is the number of an advisory lock for platforms that create the tables at the same time: IF NOT EXISTS is
// no lock. Version 0.2 takes the same lock.
const tablesLock = 0x6F73625F696E7374

// longestMigration is how long a statement may run that extends the tables.
const longestMigration = 15 * time.Minute

var errWorkers = errors.New("a worker of version 0.2 runs over these tables. Stop all of its workers first")

// hasTables selects whether there are tables of a platform, of any version.
const hasTables = "SELECT to_regclass('osb_instances') IS NOT NULL"

// An extension brings the tables up to date in a transaction, and returns whether it has changed any.
type extension func(ctx context.Context, tx *sql.Tx) (bool, error)

// migrate brings the tables up to date, unless nothing is missing. In that case a role without the right to do so can
// serve, and no table is locked.
func (s *Store) migrate(ctx context.Context, bring extension) error {
	var isDone bool
	if err := s.db.QueryRowContext(ctx, isCurrent).Scan(&isDone); err != nil || isDone {
		return err
	}
	db, err := pg.Open(s.url, options(1, longestMigration))
	if err != nil {
		return err
	}
	defer db.Close()
	conn, err := db.Conn(ctx)
	if err != nil {
		return err
	}
	defer conn.Close()
	err = pg.Transaction(ctx, conn, func(tx *sql.Tx) (bool, error) { return bring(ctx, tx) })
	if err != nil && !errors.Is(err, errWorkers) && !errors.Is(err, platform.ErrNoStore) {
		err = fmt.Errorf("the tables can't be created or extended. Start a platform once as their owner: %w", err)
	}
	return err
}

// extendExisting extends the tables that there are. If there are none, the error is platform.ErrNoStore.
func extendExisting(ctx context.Context, tx *sql.Tx) (bool, error) {
	var isThere bool
	if err := tx.QueryRowContext(ctx, hasTables).Scan(&isThere); err != nil {
		return false, err
	}
	if !isThere {
		return false, pg.AsLasting(platform.ErrNoStore)
	}
	return extend(ctx, tx)
}

// extend creates or extends the tables, and returns whether it has.
func extend(ctx context.Context, tx *sql.Tx) (bool, error) {
	if _, err := tx.ExecContext(ctx, "SELECT pg_advisory_xact_lock($1)", int64(tablesLock)); err != nil {
		return false, err
	}
	var isDone, hasAny bool
	if err := tx.QueryRowContext(ctx, isCurrent).Scan(&isDone); err != nil || isDone {
		return false, err
	}
	if err := tx.QueryRowContext(ctx, isSince02).Scan(&isDone); err != nil {
		return false, err
	}
	if !isDone {
		if err := tx.QueryRowContext(ctx, hasWorkers, workerLock).Scan(&hasAny); err != nil {
			return false, err
		}
		if hasAny {
			return false, pg.AsLasting(errWorkers)
		}
		if _, err := tx.ExecContext(ctx, tablesOf02+tablesSince02); err != nil {
			return false, err
		}
	}
	return true, addColumns(ctx, tx)
}

// addColumns adds the columns that the tables lack.
func addColumns(ctx context.Context, tx *sql.Tx) error {
	statements := []string{}
	rows, err := tx.QueryContext(ctx, missingColumns())
	err = each(rows, err, func(rows *sql.Rows) error {
		var statement string
		err := rows.Scan(&statement)
		statements = append(statements, statement)
		return err
	})
	if err != nil {
		return err
	}
	_, err = tx.ExecContext(ctx, strings.Join(statements, "; "))
	return err
}
