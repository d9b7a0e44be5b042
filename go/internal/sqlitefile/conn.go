package sqlitefile

import (
	"context"
	"database/sql/driver"
	"errors"
	"fmt"
	"io"
	"net/url"
	"runtime/debug"
	"syscall"
	"time"

	"github.com/mattn/go-sqlite3"
)

// wait is how long a transaction waits for those of other processes.
const wait = 30 * time.Second

// ErrBusy reports that another process has kept the file for too long. Nothing was written.
var ErrBusy = errors.New("another process has the file")

// ErrBroken reports that SQLite has rolled back, or can't: a write would be committed alone, or half. Nothing of the
// transaction was written.
var ErrBroken = errors.New("the transaction was broken off")

// MayPass reports whether an error may be over later, without a change by an operator: another process has kept the
// file, or the disk is full.
func MayPass(err error) bool {
	var failed sqlite3.Error
	if errors.As(err, &failed) && (failed.Code == sqlite3.ErrFull || isFull(failed.SystemErrno)) {
		return true
	}
	return errors.Is(err, ErrBusy) || isFull(err)
}

func isFull(err error) bool { return errors.Is(err, syscall.ENOSPC) || errors.Is(err, syscall.EDQUOT) }

// A Conn is a connection. One goroutine at a time uses it.
type Conn struct {
	sqlite     sqliteConn
	begin, end *Statement
	prepared   []*Statement
	writes     int // how many statements were executed that return no rows, and haven't failed
}

// A sqliteConn is what is used of a *sqlite3.SQLiteConn.
type sqliteConn interface {
	driver.Conn
	Exec(statements string, values []driver.Value) (driver.Result, error)
	Query(query string, values []driver.Value) (driver.Rows, error)
	AutoCommit() bool
}

// A sqliteStmt is what is used of a *sqlite3.SQLiteStmt.
type sqliteStmt interface {
	Exec(values []driver.Value) (driver.Result, error)
	Query(values []driver.Value) (driver.Rows, error)
	Close() error
}

// connect opens a connection whose commits are on disk when they return.
func connect(ctx context.Context, by driver.Driver, path string) (*Conn, error) {
	var made driver.Conn
	name := (&url.URL{Scheme: "file", Opaque: escapePath(path)}).String() + "?_mutex=no&_busy_timeout=0"
	err := Patiently(ctx, func() (err error) { // the driver begins with a statement of its own
		made, err = by.Open(name)
		return err
	})
	if err != nil {
		return nil, err
	}
	c := &Conn{sqlite: made.(sqliteConn)}
	if err := c.set(ctx); err != nil {
		_ = c.close()
		return nil, err
	}
	return c, nil
}

// Look opens a file that exists for reading only, calls with the connection, and closes it. What a killed process has
// left stays as it is for the next one that opens the file.
func Look(ctx context.Context, path string, call func(*Conn) error) error {
	name := (&url.URL{Scheme: "file", Opaque: escapePath(path)}).String() + "?mode=ro&_mutex=no&_busy_timeout=0"
	return Patiently(ctx, func() error {
		made, err := (&sqlite3.SQLiteDriver{}).Open(name)
		if err != nil {
			return err
		}
		conn := &Conn{sqlite: made.(sqliteConn)}
		defer conn.close()
		return call(conn)
	})
}

// escapePath is a path as it stands in a URI of SQLite.
func escapePath(path string) string { return (&url.URL{Path: path}).EscapedPath() }

func (c *Conn) set(ctx context.Context) error {
	for _, statement := range []string{
		"PRAGMA journal_mode = WAL", "PRAGMA synchronous = FULL",
		"PRAGMA temp_store = MEMORY", // what a statement of many rows needs to undo would be written to a file
	} {
		if err := Patiently(ctx, func() error { return c.Exec(statement) }); err != nil {
			return err
		}
	}
	for to, text := range map[**Statement]string{
		&c.begin: "BEGIN IMMEDIATE", &c.end: "COMMIT",
	} {
		var err error
		if *to, err = c.Prepare(ctx, text); err != nil {
			return err
		}
	}
	return nil
}

// close closes the statements and the connection. With an open statement SQLite would keep the files open, and would
// leave in the log what was written last.
func (c *Conn) close() error {
	for _, statement := range c.prepared {
		_ = statement.driver.Close()
	}
	return c.sqlite.Close()
}

// Prepare prepares a statement, which lives as long as the connection.
func (c *Conn) Prepare(ctx context.Context, text string) (*Statement, error) {
	var made driver.Stmt
	err := Patiently(ctx, func() (err error) {
		made, err = c.sqlite.Prepare(text)
		return err
	})
	if err != nil {
		return nil, fmt.Errorf("%s: %w", text, err)
	}
	statement := &Statement{conn: c, driver: made.(sqliteStmt)}
	c.prepared = append(c.prepared, statement)
	return statement, nil
}

// Exec executes statements that return no rows.
func (c *Conn) Exec(statements string, values ...driver.Value) error {
	c.writes++ // the first of them may be executed, and another one fail
	_, err := c.sqlite.Exec(statements, values)
	return err
}

// Each calls with each row of a query. The row is another one in each call.
func (c *Conn) Each(query string, values []driver.Value, call func(row []driver.Value) error) error {
	rows, err := c.sqlite.Query(query, values)
	if err != nil {
		return err
	}
	return each(rows, len(rows.Columns()), call)
}

// InTransaction reports whether a transaction has begun and hasn't ended. SQLite ends some by itself, for example if
// the disk is full.
func (c *Conn) InTransaction() bool { return !c.sqlite.AutoCommit() }

// Transaction commits what do writes, and nothing if do fails or panics. Nobody else writes meanwhile. It is for a
// connection that isn't in a transaction: that of Migrate, or a reader's.
//
// Errors: those of do, of SQLite and of ctx.
func (c *Conn) Transaction(ctx context.Context, do func() error) (err error) {
	if err := Patiently(ctx, c.begin.run); err != nil {
		return err
	}
	defer func() {
		if err != nil && c.InTransaction() {
			_ = c.Exec("ROLLBACK")
		}
	}()
	if err := Safely(do); err != nil {
		return err
	}
	if !c.InTransaction() {
		return ErrBroken
	}
	return c.end.run()
}

// Snapshot calls do, whose queries all read the same state of the file. It is for a reader's connection.
func (c *Conn) Snapshot(do func() error) error {
	if err := c.Exec("BEGIN"); err != nil {
		return err
	}
	defer func() { _ = c.Exec("ROLLBACK") }() // nothing was written
	return do()
}

// brokenOff is ErrBroken, with what has failed before, if anything has.
func brokenOff(failed error) error {
	switch {
	case failed == nil:
		return ErrBroken
	case errors.Is(failed, ErrBroken):
		return failed
	}
	return fmt.Errorf("%w: %v", ErrBroken, failed)
}

// Safely calls, and returns a panic as an error.
func Safely(do func() error) (err error) {
	defer func() {
		if what := recover(); what != nil {
			err = fmt.Errorf("panic: %v\n%s", what, debug.Stack())
		}
	}()
	return do()
}

// A Statement is prepared for one connection.
type Statement struct {
	conn    *Conn
	driver  sqliteStmt
	columns int // of its rows, once it was executed
}

func (s *Statement) run() error {
	_, err := s.Run()
	return err
}

// Run executes a statement, and returns how many rows it has inserted, updated or deleted.
func (s *Statement) Run(values ...driver.Value) (rows int64, err error) {
	// with a context that can be cancelled, the driver would start a goroutine for each step
	done, err := s.driver.Exec(values)
	if err != nil {
		return 0, err // SQLite has undone the statement
	}
	s.conn.writes++
	return done.RowsAffected()
}

// Each calls with each row of a query. The row is another one in each call.
func (s *Statement) Each(values []driver.Value, call func(row []driver.Value) error) error {
	rows, err := s.query(values)
	if err != nil {
		return err
	}
	return each(rows, s.columns, call)
}

// errOne ends a query after its first row.
var errOne = errors.New("one row was read")

// One returns the first row of a query, or nil if there is none.
func (s *Statement) One(values ...driver.Value) (row []driver.Value, err error) {
	err = s.Each(values, func(first []driver.Value) error {
		row = first
		return errOne
	})
	if err == errOne {
		err = nil
	}
	return row, err
}

func (s *Statement) query(values []driver.Value) (driver.Rows, error) {
	// with a context that can be cancelled, the driver would start a goroutine for each step
	rows, err := s.driver.Query(values)
	if err == nil && s.columns == 0 {
		s.columns = len(rows.Columns()) // the driver asks for the name of each, with each query
	}
	return rows, err
}

func each(rows driver.Rows, columns int, call func(row []driver.Value) error) error {
	defer rows.Close()
	for {
		row := make([]driver.Value, columns)
		switch err := rows.Next(row); err {
		case nil:
		case io.EOF:
			return nil
		default:
			return err
		}
		if err := call(row); err != nil {
			return err
		}
	}
}

// Patiently calls until no other process is in its way.
//
// Errors: those of call; that of ctx; ErrBusy after half a minute.
func Patiently(ctx context.Context, call func() error) error {
	for until := time.Now().Add(wait); ; {
		err := call()
		if err == nil || !isInTheWay(err) {
			return err
		}
		if time.Now().After(until) {
			return fmt.Errorf("%w: %v", ErrBusy, err)
		}
		select {
		case <-time.After(again):
		case <-ctx.Done():
			return ctx.Err()
		}
	}
}

// isInTheWay reports whether a call has failed because of another process.
func isInTheWay(err error) bool {
	var failed sqlite3.Error
	return errors.As(err, &failed) && (failed.Code == sqlite3.ErrBusy || failed.Code == sqlite3.ErrLocked)
}
