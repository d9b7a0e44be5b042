// Package postgres keeps what a broker holds in a database of PostgreSQL, for any number of brokers on any number of
// machines. It reads and extends the tables of versions 0.2 and 0.3.
//
// A change is a transaction of READ COMMITTED with explicit row locks. A row that is missing is inserted, so that it
// can be locked, and is rolled back with the transaction unless something is written.
package postgres

import (
	"context"
	"database/sql"
	"database/sql/driver"
	"errors"
	"fmt"
	"io"
	"sync"
	"sync/atomic"
	"time"

	"pippinterm/broker"
	"pippinterm/broker/texts"
	"pippinterm/internal/pg"
)

const (
	longest   = 30 * time.Second // so long a statement waits or runs
	idle      = time.Minute      // so long a transaction does nothing before the server ends it
	conflicts = 5                // so often a transaction is tried again that another one has undone
)

var errClosed = errors.New("the store is closed")

// A Store is a broker.NamedStore.
type Store struct {
	db          *sql.DB
	observer    broker.Observer
	most        int
	preparation preparation
	id          atomic.Value // what ID has returned: a string
	texts       texts.Memory // of the holdings

	turn     sync.Mutex
	isClosed bool
	running  sync.WaitGroup
}

// These errors are returned wrapped: compare them by errors.Is.
var (
	// ErrBadAddress reports that a URL of a server can't be used.
	ErrBadAddress = pg.ErrBadAddress
	// ErrNotDurable reports that a commit might not outlive a power cut: synchronous_commit is off.
	ErrNotDurable = pg.ErrNotDurable
	// ErrUnknownCommit reports that nobody knows whether a transaction was committed.
	ErrUnknownCommit = pg.ErrUnknownCommit
)

// Open opens the store in the database of a URL, with at most so many connections, at least 1. It creates the tables,
// or extends those of versions 0.2 and 0.3, which can't serve them any more then. For tables that need no change, a role
// that may read, insert and update rows is enough. If the server undoes a transaction because of another one, it is tried
// again, and the observer gets the Failure transaction_retried.
//
// The server has to keep what it has committed: synchronous_commit must not be off for the role of the URL (on, local,
// remote_write and remote_apply all write to the server's disk first), and fsync has to be on, which isn't checked.
// With a standby that may take over, set synchronous_standby_names too, and synchronous_commit to on or remote_apply.
//
// The encoding of the database has to be UTF8 or SQL_ASCII.
//
// A step of Change must not call the store: with all connections taken, both would wait for each other.
//
// Errors: ErrBadAddress, ErrNotDurable, and those of the connection and of the server.
func Open(ctx context.Context, url string, most int, observer broker.Observer) (*Store, error) {
	if most < 1 {
		return nil, fmt.Errorf("the store needs at least 1 connection, and not %d", most)
	}
	store := &Store{observer: observer, most: most}
	db, err := pg.Open(url, pg.Options{
		Most: most, Lock: longest, Statement: longest, Idle: idle, Check: store.check,
	})
	if err != nil {
		return nil, fmt.Errorf("the store: %w", err)
	}
	store.db = db
	if err := store.prepare(ctx); err != nil {
		_ = db.Close()
		return nil, fmt.Errorf("the store: %w", err)
	}
	return store, nil
}

// prepare checks the database, and brings its tables up to date.
func (s *Store) prepare(ctx context.Context) error {
	var encoding string
	if err := s.db.QueryRowContext(ctx, "SHOW server_encoding").Scan(&encoding); err != nil {
		return err
	}
	if encoding != "UTF8" && encoding != "SQL_ASCII" {
		return pg.AsLasting(fmt.Errorf("the encoding of the database is %s. Create one with: CREATE DATABASE .. "+
			"ENCODING 'UTF8' TEMPLATE template0", encoding))
	}
	return s.migrate(ctx)
}

// Close closes the store, once all calls that have begun have ended. Later calls fail. If the server doesn't answer,
// Close returns 2 seconds later, and the idle sessions end by themselves.
func (s *Store) Close() error {
	s.turn.Lock()
	s.isClosed = true
	s.turn.Unlock()
	s.running.Wait()
	return pg.Close(s.db)
}

// enter begins a call that Close waits for, unless the store is closed. The caller calls s.running.Done at the end.
func (s *Store) enter() error {
	s.turn.Lock()
	defer s.turn.Unlock()
	if s.isClosed {
		return errClosed
	}
	s.running.Add(1)
	return nil
}

// query calls with the connections, for statements that are transactions of their own.
func (s *Store) query(call func(*sql.DB) error) error {
	if err := s.enter(); err != nil {
		return err
	}
	defer s.running.Done()
	return away(call(s.db))
}

// away is the error, as broker.ErrAway too if the server can't be used now.
func away(err error) error {
	if pg.IsAway(err) {
		return broker.Away(err)
	}
	return err
}

// transaction is pg.Transaction on a connection of the store. It is tried again if it couldn't begin, since the
// server may have closed each connection that was idle, and if another transaction has undone it.
func (s *Store) transaction(ctx context.Context, key *broker.Key, do func(*sql.Tx) (bool, error)) error {
	if err := s.enter(); err != nil {
		return err
	}
	defer s.running.Done()
	until := time.Now().Add(pg.Answer) // so that a silent server isn't waited for on one idle session after the other
	for unbegun, undone := 0, 0; ; {
		err := s.attempt(ctx, do)
		switch {
		case errors.Is(err, pg.ErrNotBegun) && unbegun < s.most && time.Now().Before(until):
			unbegun++
		case pg.IsConflict(err) && undone < conflicts:
			undone++
			s.tellRetry(key, err)
		default:
			return away(err)
		}
		if ctx.Err() != nil {
			return ctx.Err()
		}
	}
}

func (s *Store) attempt(ctx context.Context, do func(*sql.Tx) (bool, error)) error {
	conn, err := s.conn(ctx)
	if err != nil {
		return err
	}
	defer conn.Close()
	return pg.Transaction(ctx, conn, do)
}

// conn waits for a connection, and no longer than for a server that answers.
func (s *Store) conn(ctx context.Context) (*sql.Conn, error) {
	within, cancel := pg.Within(ctx, pg.Answer)
	defer cancel()
	conn, err := s.db.Conn(within)
	return conn, pg.AsNoAnswer(ctx, err)
}

func (s *Store) tellRetry(key *broker.Key, err error) {
	failure := broker.Failure{Event: "transaction_retried", Err: err}
	if key != nil {
		failure.Key, failure.IsNamed = *key, true
	}
	s.observer.OnFailure(failure)
}

// The statements of reads and changes, which the server parses and plans once for each session.
const (
	findInstance = "SELECT holding, request, NULL, description, since, life, worker, change, " + endedAgo +
		" FROM osb_holdings WHERE id = $1"
	findBinding = "SELECT holding, request, object, description, since, life, worker, NULL, " + endedAgo +
		" FROM osb_bindings WHERE instance = $1 AND binding = $2"
	// How many seconds ago the tombstone was written. A statement that waits for a row takes the time at which it began
	// to wait.
	endedAgo            = "extract(epoch FROM statement_timestamp() - ended)"
	forUpdate, forShare = " FOR UPDATE", " FOR SHARE"

	insertInstance = "INSERT INTO osb_holdings (id, holding, unfinished) VALUES ($1, $2, false) ON CONFLICT DO NOTHING"
	insertBinding  = "INSERT INTO osb_bindings (instance, binding, holding, held, unfinished) " +
		"VALUES ($1, $2, $3, false, false) ON CONFLICT DO NOTHING"
	writeInstance = "UPDATE osb_holdings SET holding = $1, unfinished = $2, request = $3, description = $4, " +
		"since = $5, life = $6, " + ended + ", worker = $8, change = $10 WHERE id = $9"
	writeBinding = "UPDATE osb_bindings SET holding = $1, unfinished = $2, request = $3, description = $4, since = $5, " +
		"life = $6, " + ended + ", worker = $8, held = $10, object = $11 WHERE instance = $9 AND binding = $12"
	ended = "ended = CASE WHEN $7::boolean THEN clock_timestamp() END"

	anyBinding = "SELECT EXISTS (SELECT FROM osb_bindings WHERE instance = $1 AND held)"
	// One statement reads a binding and its instance, so both are of the same moment.
	readBinding = `
SELECT b.holding, b.request, b.object, b.description, b.since, b.life, b.worker, NULL,
    extract(epoch FROM statement_timestamp() - b.ended),
    i.holding, i.request, NULL, i.description, i.since, i.life, i.worker, i.change, NULL
FROM (SELECT $1::uuid AS instance, $2::uuid AS binding) AS k
LEFT JOIN osb_bindings AS b ON b.instance = k.instance AND b.binding = k.binding
LEFT JOIN osb_holdings AS i ON i.id = k.instance
`
)

var prepared = []string{
	findInstance, findInstance + forUpdate, findInstance + forShare, findBinding + forUpdate,
	insertInstance, insertBinding, writeInstance, writeBinding,
	anyBinding, readBinding,
}

// A statementSet has the prepared statement of each text.
type statementSet map[string]*sql.Stmt

// A preparation prepares the statements once. The zero preparation has prepared nothing.
type preparation struct {
	turn sync.Mutex
	all  statementSet
}

// statements are all statements. They are prepared with connections of their own, so this isn't called in a
// transaction.
func (s *Store) statements(ctx context.Context) (statementSet, error) {
	p := &s.preparation
	p.turn.Lock()
	defer p.turn.Unlock()
	if p.all != nil {
		return p.all, nil
	}
	all := make(statementSet, len(prepared))
	for _, text := range prepared {
		it, err := s.db.PrepareContext(ctx, text)
		if err != nil {
			for _, other := range all {
				_ = other.Close()
			}
			return nil, err
		}
		all[text] = it
	}
	p.all = all
	return all, nil
}

// preparedFor is statements, for a server that may be silent.
func (s *Store) preparedFor(ctx context.Context) (statementSet, error) {
	within, cancel := pg.Within(ctx, pg.Answer)
	defer cancel()
	all, err := s.statements(within)
	return all, pg.AsNoAnswer(ctx, err)
}

// findStatement is the text that finds the row of a key.
func findStatement(key broker.Key) string {
	if key.IsBinding {
		return findBinding
	}
	return findInstance
}

// keyParameters are the parameters that name a key.
func keyParameters(key broker.Key) []any {
	if key.IsBinding {
		return []any{key.Instance, key.Binding}
	}
	return []any{key.Instance}
}

// of is one of two texts, by the kind of a key.
func of(key broker.Key, instance, binding string) string {
	if key.IsBinding {
		return binding
	}
	return instance
}

// The tables. Version 0.2 had osb_holdings with its first three columns, osb_workers and osb_store. The column ended
// has the time at which the tombstone was written. A tombstone of an earlier version gets the time of now. That reads
// all rows, so no statement may be too long for it. The column change has what is kept of the updates of the instance,
// and is NULL until the first.
//
// Version 0.3 had the numbers of workers in tables of their own. Views have their names now: a broker of 0.3 would neither
// know the numbers in the rows nor write its own there. One that runs fails at the views before it works, and one that
// starts doesn't serve.
const tables = `
SET LOCAL statement_timeout = 0;
CREATE TABLE IF NOT EXISTS osb_holdings (id uuid PRIMARY KEY, holding text NOT NULL, unfinished boolean NOT NULL);
CREATE INDEX IF NOT EXISTS osb_unfinished_holdings ON osb_holdings (id) WHERE unfinished;
CREATE TABLE IF NOT EXISTS osb_store (one boolean PRIMARY KEY DEFAULT true CHECK (one), name text NOT NULL,
    is_tied boolean NOT NULL DEFAULT false);
ALTER TABLE osb_holdings ADD COLUMN IF NOT EXISTS request text,
    ADD COLUMN IF NOT EXISTS description text NOT NULL DEFAULT '', ADD COLUMN IF NOT EXISTS since timestamptz;
CREATE TABLE IF NOT EXISTS osb_bindings (instance uuid NOT NULL, binding uuid NOT NULL, holding text NOT NULL,
    held boolean NOT NULL, unfinished boolean NOT NULL, request text, object text,
    description text NOT NULL DEFAULT '', since timestamptz, PRIMARY KEY (instance, binding));
CREATE INDEX IF NOT EXISTS osb_held_bindings ON osb_bindings (instance) WHERE held;
CREATE INDEX IF NOT EXISTS osb_unfinished_bindings ON osb_bindings (instance, binding) WHERE unfinished;
ALTER TABLE osb_holdings ADD COLUMN IF NOT EXISTS life bigint NOT NULL DEFAULT 0,
    ADD COLUMN IF NOT EXISTS ended timestamptz, ADD COLUMN IF NOT EXISTS worker uuid,
    ADD COLUMN IF NOT EXISTS change text;
ALTER TABLE osb_bindings ADD COLUMN IF NOT EXISTS life bigint NOT NULL DEFAULT 0,
    ADD COLUMN IF NOT EXISTS ended timestamptz, ADD COLUMN IF NOT EXISTS worker uuid;
DO $$
DECLARE earlier text;
BEGIN
    FOREACH earlier IN ARRAY ARRAY['osb_workers', 'osb_binding_workers'] LOOP
        IF to_regclass(format('%I.%I', current_schema(), earlier)) IS NOT NULL THEN
            CONTINUE WHEN EXISTS (SELECT FROM pg_views WHERE schemaname = current_schema() AND viewname = earlier);
            EXECUTE format('DROP TABLE %I.%I', current_schema(), earlier);
        END IF;
        EXECUTE format('CREATE VIEW %I.%I AS SELECT ''the numbers of workers are in the rows'' AS moved',
            current_schema(), earlier);
    END LOOP;
END $$;
UPDATE osb_holdings SET ended = clock_timestamp() WHERE ended IS NULL AND NOT unfinished
    AND (holding LIKE '%"tombstone":true%' OR holding LIKE '%"marked":true%');
UPDATE osb_bindings SET ended = clock_timestamp() WHERE ended IS NULL AND NOT held
    AND holding LIKE '%"tombstone":true%';
CREATE TABLE IF NOT EXISTS osb_identity (one boolean PRIMARY KEY DEFAULT true CHECK (one), id text NOT NULL);
`

// isCurrent asks whether nothing is missing: all that is missing is added in one transaction, and the column change is the
// last that came.
const isCurrent = "SELECT EXISTS (SELECT FROM pg_attribute WHERE attrelid = to_regclass('osb_holdings') " +
	"AND attname = 'change')"

// tablesLock is the number of an advisory lock for brokers that create the tables at the same time: IF NOT EXISTS is no
// lock. Version 0.2 takes the same lock.
const tablesLock = 0x6F73625F686F6C64

// migrate creates or extends the tables, unless nothing is missing. In that case a role without the right to do so can
// serve.
func (s *Store) migrate(ctx context.Context) error {
	var isDone bool
	if err := s.db.QueryRowContext(ctx, isCurrent).Scan(&isDone); err != nil || isDone {
		return err
	}
	err := s.transaction(ctx, nil, func(tx *sql.Tx) (bool, error) {
		if _, err := tx.ExecContext(ctx, "SELECT pg_advisory_xact_lock($1)", int64(tablesLock)); err != nil {
			return false, err
		}
		_, err := tx.ExecContext(ctx, tables)
		return true, err
	})
	if err != nil {
		return fmt.Errorf("the tables can't be created or extended. Start a broker once as their owner: %w", err)
	}
	return nil
}

// tieLock is the number of the advisory lock of Tie. Version 0.2 takes the same lock.
const tieLock = 0x6F73625F74696564

// Name returns the name of the store, or "" before the first use.
func (s *Store) Name(ctx context.Context) (name string, err error) {
	err = s.query(func(db *sql.DB) error {
		err := db.QueryRowContext(ctx, "SELECT name FROM osb_store").Scan(&name)
		if errors.Is(err, sql.ErrNoRows) {
			return nil
		}
		return err
	})
	return name, err
}

// Begin gives the store a name for good, unless it has one, and returns the name that it has. A name that begins with
// broker.UntiedBefore replaces broker.Untied.
func (s *Store) Begin(ctx context.Context, name string) (string, error) {
	err := s.transaction(ctx, nil, func(tx *sql.Tx) (bool, error) {
		_, err := tx.ExecContext(ctx, "INSERT INTO osb_store AS mine (name) VALUES ($1) "+
			"ON CONFLICT (one) DO UPDATE SET name = excluded.name WHERE mine.name = '"+broker.Untied+"' "+
			"AND excluded.name LIKE '"+broker.UntiedBefore+"%'", name)
		return true, err
	})
	if err != nil {
		return "", err
	}
	return s.Name(ctx)
}

// readID returns the id of the store.
const readID = "SELECT id FROM osb_identity"

// ID returns the id of the store, which the first call makes up. From then on no connection is used to the database of
// another store: the broker names its store by this id in each answer.
func (s *Store) ID(ctx context.Context) (id string, err error) {
	made, err := broker.NewStoreID()
	if err != nil {
		return "", err
	}
	err = s.transaction(ctx, nil, func(tx *sql.Tx) (bool, error) {
		const insert = "INSERT INTO osb_identity (id) VALUES ($1) ON CONFLICT (one) DO NOTHING"
		if _, err := tx.ExecContext(ctx, insert, made); err != nil {
			return false, err
		}
		return true, tx.QueryRowContext(ctx, readID).Scan(&id)
	})
	if err == nil {
		s.id.Store(id)
	}
	return id, err
}

var errOtherStore = errors.New("the URL leads to another store than the one that this broker has started over. If that is " +
	"right, start the broker again, or else correct the address of the server")

// check rejects a connection to another store than that of ID.
func (s *Store) check(ctx context.Context, conn driver.QueryerContext) error {
	known, _ := s.id.Load().(string)
	if known == "" {
		return nil
	}
	var column [1]driver.Value
	rows, err := conn.QueryContext(ctx, readID, nil)
	if err == nil {
		defer rows.Close()
		err = rows.Next(column[:])
	}
	if errors.Is(err, io.EOF) || err == nil && fmt.Sprintf("%s", column[0]) != known {
		return errOtherStore
	}
	return err
}

// If a binding has a row, its instance has one too (Change).
const isUsed = "SELECT is_tied OR name NOT LIKE '" + broker.UntiedBefore + "%' AND EXISTS (SELECT FROM osb_holdings) " +
	"FROM osb_store"

// Tie calls tie in a transaction that holds a lock, so that one caller at a time is in it. The function tie must not
// call the store, and has to return within a minute. It may be called more than once.
func (s *Store) Tie(ctx context.Context, tie func(isUsed bool) error) error {
	return s.transaction(ctx, nil, func(tx *sql.Tx) (bool, error) {
		if _, err := tx.ExecContext(ctx, "SELECT pg_advisory_xact_lock($1)", int64(tieLock)); err != nil {
			return false, err
		}
		var is bool
		err := tx.QueryRowContext(ctx, isUsed).Scan(&is)
		if errors.Is(err, sql.ErrNoRows) {
			return false, errors.New("the store has no name yet")
		}
		if err != nil {
			return false, err
		}
		if err := tie(is); err != nil {
			return false, err
		}
		_, err = tx.ExecContext(ctx, "UPDATE osb_store SET is_tied = true WHERE NOT is_tied")
		return true, err
	})
}
