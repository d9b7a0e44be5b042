// Package postgres keeps the rows of a platform in a database of PostgreSQL, for any number of workers on any number of
// machines. It reads and extends the tables of version 0.2.
//
// A transaction is one of READ COMMITTED with explicit row locks. Two rules keep its transactions from waiting for each
// other in a circle, and from deciding by what is old:
//
//   - Each transaction that changes the row of an instance locks it FOR UPDATE first.
//   - Each transaction over a binding first locks the row of its instance FOR KEY SHARE, and then the row of the
//     binding FOR UPDATE. So no step of an instance runs beside one of its bindings, or beside the insertion of one,
//     and many bindings of an instance are stepped at once. FOR KEY SHARE lets another binding wake the instance
//     (Change), which FOR SHARE doesn't: two of them would wait for each other. A Claim, which waits for no row, locks
//     the instance FOR NO KEY UPDATE. A further order of a binding is inserted under the same locks as the step of the
//     binding before it, which has read the row of the instance.
//
// The exceptions change nothing that a step decides by: waking an instance, and Free.
//
// A transaction has four round trips: BEGIN; a statement that locks the rows and reads them, and then the time; a
// statement that writes all of them; COMMIT. Changes of instances that wait are done by one transaction, which passes
// over rows that others have locked. So a step has its share of the four of a Claim, and of the four of its Change.
package postgres

import (
	"context"
	"database/sql"
	"errors"
	"fmt"
	"hash/crc32"
	"runtime/debug"
	"sync"
	"time"

	"pippinterm/internal/pg"
	"pippinterm/platform"
)

const (
	longest   = 15 * time.Second // so long a statement waits or runs
	idle      = 10 * time.Second // so long a transaction does nothing before the server ends it, and frees its rows
	grace     = 2 * time.Second  // so long a call goes on after its context has ended
	conflicts = 5                // so often a transaction is tried again that another one has undone
)

var errClosed = errors.New("the store is closed")

// settings are those of the sessions. The texts of rows depend on bytea_output. With bitmap scans, a claim would read and
// sort all rows that are due, and not the first ones of an index, as long as the server expects that few are due: its
// statistics may be old, or there are none.
var settings = map[string]string{"bytea_output": "hex", "enable_bitmapscan": "off"}

// A Store is a platform.Store.
type Store struct {
	url  string
	db   *sql.DB
	most int

	preparing sync.Mutex
	prepared  map[string]*sql.Stmt
	changes   together

	turn     sync.Mutex
	isClosed bool
	running  sync.WaitGroup
}

// These errors are returned wrapped: compare them by errors.Is.
var (
	// ErrBadAddress reports that a URL of a server can't be used.
	ErrBadAddress = pg.ErrBadAddress
	// ErrNotDurable reports that a commit might not outlive a power cut: synchronous_commit is off.
	ErrNotDurable = pg.ErrNotDurable
	// ErrUnknownCommit reports that nobody knows whether a transaction was committed.
	ErrUnknownCommit = pg.ErrUnknownCommit
)

// Open opens the store in the database of a URL, with at most so many connections, at least 1; each right of Only has
// one more. It creates the tables, or extends those of version 0.2, whose workers have to be stopped before. Version
// 0.2 can't serve the tables any more then. For tables that need no change, a role that may read, insert, update and
// delete rows is enough, and no statement is run that locks a table.
//
// The server has to keep what it has committed: synchronous_commit must not be off for the role of the URL (on, local,
// remote_write and remote_apply all write to the server's disk first), and fsync has to be on, which isn't checked.
// With a standby that may take over, set synchronous_standby_names too, and synchronous_commit to on or remote_apply.
//
// The encoding of the database has to be UTF8 or SQL_ASCII.
//
// A step must not call the store: with all connections taken, both would wait for each other.
//
// If the server doesn't answer, a call returns within 2 seconds after its context has ended. Without that each
// statement is waited for 45 seconds at most.
//
// Errors: ErrBadAddress, ErrNotDurable, and those of the connection and of the server. The calls of a
// Store return platform.ErrAway if the server can't be reached for now, and also if the answer to a COMMIT was lost
// (ErrUnknownCommit): after any other error nothing is written.
func Open(ctx context.Context, url string, most int) (*Store, error) {
	return open(ctx, url, most, extend)
}

// OpenExisting is Open of a database that has the tables, of this version or of version 0.2. Otherwise it creates
// nothing, and the error is platform.ErrNoStore.
func OpenExisting(ctx context.Context, url string, most int) (*Store, error) {
	return open(ctx, url, most, extendExisting)
}

// open opens the store. bring brings its tables up to date.
func open(ctx context.Context, url string, most int, bring extension) (*Store, error) {
	if most < 1 {
		return nil, fmt.Errorf("the store needs at least 1 connection, and not %d", most)
	}
	db, err := pg.Open(url, options(most, longest))
	if err != nil {
		return nil, fmt.Errorf("the store: %w", err)
	}
	store := &Store{url: url, db: db, most: most, prepared: map[string]*sql.Stmt{}}
	store.changes.isEnough = make(chan struct{}, 1)
	if err := store.prepare(ctx, bring); err != nil {
		_ = db.Close()
		return nil, fmt.Errorf("the store: %w", asAway(err))
	}
	return store, nil
}

func options(most int, statement time.Duration) pg.Options {
	return pg.Options{Most: most, Lock: longest, Statement: statement, Idle: idle, Settings: settings}
}

// prepare checks the database, and brings its tables up to date.
func (s *Store) prepare(ctx context.Context, bring extension) error {
	var encoding string
	if err := s.db.QueryRowContext(ctx, "SHOW server_encoding").Scan(&encoding); err != nil {
		return err
	}
	if encoding != "UTF8" && encoding != "SQL_ASCII" {
		return pg.AsLasting(fmt.Errorf("the encoding of the database is %s. Create one with: CREATE DATABASE .. "+
			"ENCODING 'UTF8' TEMPLATE template0", encoding))
	}
	return s.migrate(ctx, bring)
}

// statement is a statement that is prepared, once for the store and then once in each session: the server plans it for
// each session, and not for each step. To prepare it takes the locks of tables that the statement takes, so it is done
// when it is needed, and not by Open.
func (s *Store) statement(ctx context.Context, text string) (*sql.Stmt, error) {
	s.preparing.Lock()
	defer s.preparing.Unlock()
	if it := s.prepared[text]; it != nil {
		return it, nil
	}
	it, err := s.db.PrepareContext(ctx, text)
	if err == nil {
		s.prepared[text] = it
	}
	return it, err
}

// Close closes the store, once all calls that have begun have ended. Later calls fail. The rights of Only are left as
// they are. If the server doesn't answer, Close returns 2 seconds later, and the idle sessions end by themselves.
func (s *Store) Close() error {
	s.turn.Lock()
	s.isClosed = true
	s.turn.Unlock()
	s.running.Wait()
	return pg.Close(s.db)
}

// enter begins a call that Close waits for, unless the store is closed. The caller calls s.running.Done at the end.
func (s *Store) enter() error {
	s.turn.Lock()
	defer s.turn.Unlock()
	if s.isClosed {
		return errClosed
	}
	s.running.Add(1)
	return nil
}

// transaction is pg.Transaction on a connection of the store. It is tried again if it couldn't begin, since the
// server may have closed each connection that was idle, and if another transaction has undone it.
func (s *Store) transaction(ctx context.Context, passed func(*sql.Tx) (bool, error)) error {
	for unbegun, undone := 0, 0; ; {
		err := s.attempt(ctx, passed)
		switch {
		case errors.Is(err, pg.ErrNotBegun) && unbegun < s.most:
			unbegun++
		case pg.IsConflict(err) && undone < conflicts:
			undone++
		default:
			return err
		}
	}
}

func (s *Store) attempt(ctx context.Context, passed func(*sql.Tx) (bool, error)) error {
	conn, err := s.db.Conn(ctx)
	if err != nil {
		return err
	}
	defer conn.Close()
	return pg.Transaction(ctx, conn, passed)
}

// A call is one call of a Store. The functions that its caller has passed are called by do alone, so that none of them
// runs once the call has returned.
type call struct {
	turn   sync.Mutex
	isOver bool
}

var errOver = errors.New("the call has ended")

// do calls a function that the caller has passed. A panic of it is an error.
func (c *call) do(passed func() error) (err error) {
	c.turn.Lock()
	defer c.turn.Unlock()
	if c.isOver {
		return errOver
	}
	defer func() {
		if what := recover(); what != nil {
			err = fmt.Errorf("panic: %v\n%s", what, debug.Stack())
		}
	}()
	return passed()
}

func (c *call) end() {
	c.turn.Lock()
	defer c.turn.Unlock()
	c.isOver = true
}

// within calls a function as a call of the store, and returns what the function returns. lib/pq doesn't return before
// the server has answered, or its time is over, even if the context ends. So once the context has ended, within waits
// for the function no longer than grace. The connection that the function uses is closed when it returns.
func within[T any](ctx context.Context, s *Store, passed func(*call) (T, error)) (value T, err error) {
	if err := s.enter(); err != nil {
		return value, err
	}
	defer s.running.Done()
	return entered(ctx, passed)
}

// entered is within of a call that Close waits for already.
func entered[T any](ctx context.Context, passed func(*call) (T, error)) (T, error) {
	this := &call{}
	value, isLeft, err := runWithin(ctx, func() (T, error) { return passed(this) })
	if isLeft {
		this.end()
	}
	return value, errorOf(ctx, err)
}

// errorOf is the error of a call for its caller.
func errorOf(ctx context.Context, err error) error {
	if ctx.Err() != nil && pg.IsCode(err, pg.QueryCanceled) {
		err = ctx.Err()
	}
	return asAway(err)
}

// A result is what a function returns that within has called.
type result[T any] struct {
	value T
	err   error
}

// runWithin returns what a function returns. If isLeft is true, the function still runs, and the context has ended.
func runWithin[T any](ctx context.Context, passed func() (T, error)) (value T, isLeft bool, err error) {
	if ctx.Done() == nil {
		value, err = passed()
		return value, false, err
	}
	made := &result[T]{err: errors.New("a function that was passed has ended its goroutine")}
	ended := make(chan struct{})
	go func() {
		defer close(ended)
		made.value, made.err = passed()
	}()
	if !endsBefore(ctx, ended) && !endsSoon(ended) {
		return value, true, away{ctx.Err()}
	}
	return made.value, false, made.err
}

// endsBefore waits until something has ended, or the context has, and returns false then.
func endsBefore(ctx context.Context, ended <-chan struct{}) bool {
	select {
	case <-ended:
		return true
	case <-ctx.Done():
		return false
	}
}

// endsSoon waits until something has ended, but no longer than grace, and returns whether it has.
func endsSoon(ended <-chan struct{}) bool {
	timer := time.NewTimer(grace)
	defer timer.Stop()
	select {
	case <-ended:
		return true
	case <-timer.C:
		return false
	}
}

// run is within for a function that returns only an error.
func (s *Store) run(ctx context.Context, passed func(*call) error) error {
	_, err := within(ctx, s, func(this *call) (struct{}, error) { return struct{}{}, passed(this) })
	return err
}

// away is an error that is platform.ErrAway too.
type away struct{ error }

func (a away) Error() string { return platform.ErrAway.Error() + ": " + a.error.Error() }

func (a away) Unwrap() error { return a.error }

func (a away) Is(other error) bool { return other == platform.ErrAway }

// asAway makes an error platform.ErrAway if the server can't be used for now, or nobody knows whether it has committed.
func asAway(err error) error {
	if !pg.IsAway(err) {
		return err
	}
	return away{err}
}

// workerLock is the first half of the key of a worker's advisory lock. The second half is a digest of its name. Version
// 0.2 takes the same locks.
const workerLock = 0x6F736270

const (
	looks    = 2 * time.Second  // so often it is looked whether the session of a worker lives
	patience = 10 * time.Second // so long a session may take to answer that
	goodbye  = 2 * time.Second  // so long the end of a right is waited for
)

// Only takes an advisory lock on a session of its own, as platform.Store says. The lock ends with the session, so the
// URL must not be that of a pooler that gives a session to many clients in turn. lost is closed if the session has
// ended, or hasn't answered for 10 seconds.
func (s *Store) Only(ctx context.Context, worker string) (end func(), lost <-chan struct{}, err error) {
	it, err := within(ctx, s, func(*call) (*right, error) { return s.right(ctx, worker) })
	if err != nil || it == nil {
		return nil, nil, err
	}
	it.watching.Add(1)
	go it.watch()
	return it.end, it.lost, nil
}

// A right is that of a worker to its name.
type right struct {
	db       *sql.DB
	conn     *sql.Conn
	lost     chan struct{}
	over     chan struct{}
	once     sync.Once
	watching sync.WaitGroup
}

// right takes the lock of a name, or returns nil if another session has it.
func (s *Store) right(ctx context.Context, worker string) (*right, error) {
	db, err := pg.Open(s.url, options(1, patience))
	if err != nil {
		return nil, err
	}
	it := &right{db: db, lost: make(chan struct{}), over: make(chan struct{})}
	isOurs := false
	if it.conn, err = db.Conn(ctx); err == nil {
		name := int32(int64(crc32.ChecksumIEEE([]byte(worker))) - 1<<31)
		err = it.conn.QueryRowContext(ctx, "SELECT pg_try_advisory_lock($1, $2)", workerLock, name).Scan(&isOurs)
	}
	if err != nil || !isOurs {
		it.close()
		return nil, err
	}
	return it, nil
}

func (r *right) close() {
	if r.conn != nil {
		pg.Discard(r.conn)
	}
	_ = r.db.Close()
}

// watch closes lost if the session ends before the right does.
func (r *right) watch() {
	defer r.watching.Done()
	ticker := time.NewTicker(looks)
	defer ticker.Stop()
	for {
		select {
		case <-r.over:
			return
		case <-ticker.C:
		}
		if !r.lives() {
			close(r.lost)
			return
		}
	}
}

// lives reports whether the session has answered.
func (r *right) lives() bool {
	ctx, cancel := context.WithTimeout(context.Background(), patience)
	defer cancel()
	_, isLeft, err := runWithin(ctx, func() (sql.Result, error) { return r.conn.ExecContext(ctx, "SELECT 1") })
	return err == nil && !isLeft
}

// end ends the right. It returns once the server has freed the name, or after a moment if the server doesn't answer.
func (r *right) end() {
	r.once.Do(func() {
		close(r.over)
		ended := make(chan struct{})
		go func() {
			defer close(ended)
			r.watching.Wait()
			_, _ = r.conn.ExecContext(context.Background(), "SELECT pg_advisory_unlock_all()")
			r.close()
		}()
		select {
		case <-ended:
		case <-time.After(goodbye):
		}
	})
}

// HasWorkers looks for locks of workers, as platform.Store says.
func (s *Store) HasWorkers(ctx context.Context) (bool, error) {
	return within(ctx, s, func(*call) (has bool, err error) {
		err = s.db.QueryRowContext(ctx, hasWorkers, workerLock).Scan(&has)
		return has, err
	})
}

const leasedBy = `
SELECT id, NULL FROM osb_instances WHERE worker = $1 UNION ALL SELECT id, binding FROM osb_bound WHERE worker = $1
`

const (
	freeInstance = "UPDATE osb_instances" + freed
	freeBinding  = "UPDATE osb_bound" + freed + " AND binding = $3"
	freed        = " SET worker = NULL, leased_until = NULL, due = least(due, " + clock +
		") WHERE worker = $1 AND id = $2"
)

// Free ends the leases of a worker, as platform.Store says. Each row is a transaction of its own: with more rows locked
// it could wait for a step that waits for it. If it fails, it may have ended some.
func (s *Store) Free(ctx context.Context, worker string) error {
	return s.run(ctx, func(*call) error {
		type key struct {
			id      string
			binding sql.NullString
		}
		keys := []key{}
		rows, err := s.db.QueryContext(ctx, leasedBy, worker)
		err = each(rows, err, func(rows *sql.Rows) error {
			var it key
			err := rows.Scan(&it.id, &it.binding)
			keys = append(keys, it)
			return err
		})
		for n := 0; n < len(keys) && err == nil; n++ {
			query, parameters := freeInstance, []any{worker, keys[n].id}
			if keys[n].binding.Valid {
				query, parameters = freeBinding, append(parameters, keys[n].binding.String)
			}
			err = s.transaction(ctx, func(tx *sql.Tx) (bool, error) {
				_, err := tx.ExecContext(ctx, query, parameters...)
				return true, err
			})
		}
		return err
	})
}
