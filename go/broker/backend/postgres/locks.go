package postgres

import (
	"context"
	"database/sql"
	"errors"

	"pippinterm/broker"
	"pippinterm/internal/pg"
)

// locks are advisory locks of the server, each held by a session of its own.
type locks struct {
	db   *sql.DB
	most int
}

// Locks returns the locks of the keys. A lock is an advisory lock of the session that runs the statements of its key.
// It can be lost while the work goes on, if the server ends the session. No more than Options.Sessions are held at
// once: a further call waits for a free session.
//
// A pooler that gives a session to several clients in turn, as PgBouncer does by transaction, breaks them.
func (d *Databases) Locks() broker.Locks { return locks{d.db, d.options.Sessions} }

// CanBeLost returns true.
func (l locks) CanBeLost() bool { return true }

// Lock waits for the lock, until the context is done. It fails sooner if the server doesn't answer: a server that lives
// answers once lockWait is over.
func (l locks) Lock(ctx context.Context, key broker.Key) (broker.Lock, error) {
	for {
		lock, err := l.take(ctx, key, "SELECT true FROM pg_advisory_lock($1)")
		if !pg.IsCode(err, pg.LockNotAvailable) {
			return lock, err
		}
	}
}

// TryLock returns nil if somebody else has the lock.
func (l locks) TryLock(ctx context.Context, key broker.Key) (broker.Lock, error) {
	return l.take(ctx, key, "SELECT pg_try_advisory_lock($1)")
}

// take takes the lock with a statement that returns whether it has. If the server has ended a session that was idle,
// another one is taken. All of this together takes pg.Answer at most. If the server can't be used now, the error
// is broker.ErrAway too.
func (l locks) take(ctx context.Context, key broker.Key, statement string) (broker.Lock, error) {
	within, cancel := pg.Within(ctx, pg.Answer)
	defer cancel()
	for tries := 0; ; tries++ {
		lock, wasIdle, err := l.attempt(within, key, statement)
		if within.Err() == nil && wasIdle && pg.IsLost(err) && tries < l.most {
			continue
		}
		if err = pg.AsNoAnswer(ctx, err); pg.IsAway(err) {
			err = broker.Away(err)
		}
		return lock, err
	}
}

// attempt takes the lock on one session. If that fails, wasIdle is true if there was a session.
func (l locks) attempt(
	ctx context.Context, key broker.Key, statement string,
) (taken broker.Lock, wasIdle bool, err error) {
	conn, err := l.db.Conn(ctx)
	if err != nil {
		return nil, false, err
	}
	var isTaken bool
	err = conn.QueryRowContext(ctx, statement, numberOf(key)).Scan(&isTaken)
	switch {
	case err == nil && isTaken:
		return &lock{conn: conn, key: key}, true, nil
	case err == nil || pg.IsCode(err, pg.LockNotAvailable):
		_ = conn.Close() // it goes back to the others
	default:
		pg.Discard(conn) // it may have the lock
	}
	return nil, true, err
}

// A lock is a session that holds the lock of a key.
type lock struct {
	conn *sql.Conn
	key  broker.Key
}

type lockKey struct{}

// Context returns a context with the session.
func (l *lock) Context(ctx context.Context) context.Context {
	return context.WithValue(ctx, lockKey{}, l)
}

// Unlock releases the lock. If that fails, the session is closed, and the lock ends with it.
func (l *lock) Unlock() {
	ctx, cancel := pg.Within(context.Background(), pg.Answer)
	defer cancel()
	var wasHeld bool
	err := l.conn.QueryRowContext(ctx, "SELECT pg_advisory_unlock($1)", numberOf(l.key)).Scan(&wasHeld)
	if err != nil || !wasHeld {
		pg.Discard(l.conn)
		return
	}
	_ = l.conn.Close() // it goes back to the others
}

var errNoLock = errors.New("the call has no context of the key's lock")

// sessionOf is the session that holds the lock of a key.
func sessionOf(ctx context.Context, key broker.Key) (*sql.Conn, error) {
	taken, ok := ctx.Value(lockKey{}).(*lock)
	if !ok || taken.key != key {
		return nil, errNoLock
	}
	return taken.conn, nil
}
