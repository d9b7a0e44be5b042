package pg

import (
	"context"
	"database/sql/driver"
	"errors"
	"fmt"
	"net"
	"os"
	"strings"
	"sync/atomic"
	"syscall"
	"time"
)

// A dialer opens connections on which the server is waited for no longer than the limit.
type dialer struct {
	net.Dialer
	limit time.Duration
}

// Dial opens a connection.
func (d dialer) Dial(network, address string) (net.Conn, error) {
	return d.DialContext(context.Background(), network, address)
}

// DialTimeout opens a connection within a time.
func (d dialer) DialTimeout(network, address string, timeout time.Duration) (net.Conn, error) {
	ctx, cancel := context.WithTimeout(context.Background(), timeout)
	defer cancel()
	return d.DialContext(ctx, network, address)
}

// DialContext opens a connection.
func (d dialer) DialContext(ctx context.Context, network, address string) (net.Conn, error) {
	conn, err := d.Dialer.DialContext(ctx, network, address)
	if err != nil {
		return nil, err
	}
	made := &limitedConn{Conn: conn, limit: d.limit}
	if until, ok := ctx.Value(untilKey{}).(time.Time); ok {
		made.last = until
	}
	if dialed, ok := ctx.Value(dialedKey{}).(**limitedConn); ok {
		*dialed = made
	}
	return made, nil
}

// dialedKey is the key of where DialContext writes the connection to.
type dialedKey struct{}

// Of a connection over which packets get lost, or whose server has lost its power:
const (
	keepAlive   = 10 * time.Second // so often an idle connection is probed
	userTimeout = 30 * time.Second // so long what was sent may stay unconfirmed before the connection has failed
)

// newDialer returns a dialer whose connections fail once the server's machine doesn't answer any more.
func newDialer(limit time.Duration) dialer {
	return dialer{limit: limit, Dialer: net.Dialer{KeepAlive: keepAlive, Control: control}}
}

// control sets TCP_USER_TIMEOUT of a socket of TCP.
func control(network, _ string, raw syscall.RawConn) (err error) {
	if !strings.HasPrefix(network, "tcp") {
		return nil
	}
	const tcpUserTimeout = 18 // of Linux, which package syscall doesn't have
	failed := raw.Control(func(descriptor uintptr) {
		err = os.NewSyscallError("setsockopt", syscall.SetsockoptInt(
			int(descriptor), syscall.IPPROTO_TCP, tcpUserTimeout, int(userTimeout.Milliseconds())))
	})
	return either(failed, err)
}

// A limitedConn waits for each answer at most this long. So no wait for a silent server or network lasts
// forever, not even that for a COMMIT, which is never cancelled. An idle connection has no limit.
type limitedConn struct {
	net.Conn
	limit     time.Duration
	last      time.Time // of the first deadline, or zero: lib/pq sets one for connecting, which a context can't shorten
	isBounded int32     // 1 while somebody else has set a deadline
}

// until reads until the time of a context of Within, and with the limit again once the function that it returns is
// called.
func (l *limitedConn) until(ctx context.Context) (end func()) {
	until, ok := ctx.Value(untilKey{}).(time.Time)
	if !ok {
		return func() {}
	}
	_ = l.SetDeadline(until.Add(late)) // if the connection is closed, the call fails by itself
	return func() { _ = l.SetDeadline(time.Time{}) }
}

// SetDeadline sets a deadline in place of the limit, or with the zero time the limit again.
func (l *limitedConn) SetDeadline(until time.Time) error {
	if !l.last.IsZero() && until.After(l.last) {
		until = l.last
	}
	l.last = time.Time{}
	var isBounded int32
	if !until.IsZero() {
		isBounded = 1
	}
	atomic.StoreInt32(&l.isBounded, isBounded)
	return l.Conn.SetDeadline(until)
}

// Read reads within the limit.
func (l *limitedConn) Read(buffer []byte) (int, error) {
	if atomic.LoadInt32(&l.isBounded) == 0 {
		if err := l.Conn.SetReadDeadline(time.Now().Add(l.limit)); err != nil {
			return 0, err
		}
	}
	return l.Conn.Read(buffer)
}

// Answer is how long the server is waited for where it has nothing to wait for itself: it opens a connection, begins a
// transaction, or reads a row. (The limit is this project's choice.)
const Answer = 10 * time.Second

// late is how long a connection is read beyond its time, so that a server that lives can confirm the cancellation.
const late = time.Second

type untilKey struct{}

// Within returns a context that ends after a time, as context.WithTimeout does. A connection of Open to a server that
// is silent doesn't outlast it either: lib/pq alone goes on reading after the end of the context.
func Within(ctx context.Context, limit time.Duration) (context.Context, context.CancelFunc) {
	ctx, cancel := context.WithTimeout(ctx, limit)
	until, _ := ctx.Deadline()
	return context.WithValue(ctx, untilKey{}, until), cancel
}

// endlessUntil returns a context that never ends, for a statement on which the server is waited for until a time.
func endlessUntil(until time.Time) context.Context {
	return context.WithValue(context.Background(), untilKey{}, until)
}

// ErrNoAnswer reports that the time of Within was over.
var ErrNoAnswer = errors.New("the server hasn't answered in time")

// AsNoAnswer returns err, as ErrNoAnswer too if the time of Within was over, and not that of the caller's context.
func AsNoAnswer(ctx context.Context, err error) error {
	var network net.Error
	isOver := errors.Is(err, context.DeadlineExceeded) || errors.As(err, &network) && network.Timeout()
	if ctx.Err() != nil || !isOver || errors.Is(err, ErrNoAnswer) {
		return err
	}
	return fmt.Errorf("%w: %v", ErrNoAnswer, err)
}

// pqConn is what a connection of lib/pq can do.
type pqConn interface {
	driver.Conn
	driver.ConnBeginTx
	driver.ConnPrepareContext
	driver.QueryerContext
	driver.ExecerContext
	driver.Pinger
}

// A connection is one of lib/pq that satisfies Within.
type connection struct {
	pqConn
	network *limitedConn
}

// BeginTx begins a transaction. The context's time is that of the BEGIN alone.
func (c *connection) BeginTx(ctx context.Context, options driver.TxOptions) (driver.Tx, error) {
	defer c.network.until(ctx)()
	return c.pqConn.BeginTx(ctx, options)
}

// PrepareContext prepares a statement.
func (c *connection) PrepareContext(ctx context.Context, query string) (driver.Stmt, error) {
	defer c.network.until(ctx)()
	made, err := c.pqConn.PrepareContext(ctx, query)
	if known, ok := made.(pqStatement); ok && err == nil {
		return &statement{known, c.network}, nil
	}
	return made, err
}

// QueryContext runs a query.
func (c *connection) QueryContext(ctx context.Context, query string, values []driver.NamedValue) (driver.Rows, error) {
	defer c.network.until(ctx)()
	return keep(c.pqConn.QueryContext(ctx, query, values))
}

// ExecContext runs a statement.
func (c *connection) ExecContext(ctx context.Context, query string, values []driver.NamedValue) (driver.Result, error) {
	defer c.network.until(ctx)()
	return c.pqConn.ExecContext(ctx, query, values)
}

// pqStatement is what a prepared statement of lib/pq can do.
type pqStatement interface {
	driver.Stmt
	driver.StmtQueryContext
	driver.StmtExecContext
}

// A statement is a prepared statement of lib/pq that satisfies Within. A cancellation of lib/pq would have to open
// another connection first, and the statement would wait for that: the time of Within ends the statement without it.
type statement struct {
	pqStatement
	network *limitedConn
}

// QueryContext runs a query.
func (s *statement) QueryContext(ctx context.Context, values []driver.NamedValue) (driver.Rows, error) {
	defer s.network.until(ctx)()
	return keep(s.pqStatement.QueryContext(bare(ctx), values))
}

// ExecContext runs a statement.
func (s *statement) ExecContext(ctx context.Context, values []driver.NamedValue) (driver.Result, error) {
	defer s.network.until(ctx)()
	return s.pqStatement.ExecContext(bare(ctx), values)
}

// bare is a context that isn't cancelled, if it is one of Within.
func bare(ctx context.Context) context.Context {
	if until, ok := ctx.Value(untilKey{}).(time.Time); ok {
		return endlessUntil(until)
	}
	return ctx
}
