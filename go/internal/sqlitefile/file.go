// Package sqlitefile has a file of SQLite that many goroutines use at once, and any number of processes of one machine.
//
// A read waits for nobody. All jobs that wait to be written are written by one goroutine in one transaction: one commit
// puts them on disk, and no caller gets its result before it has returned. A job that fails is left out of the
// transaction.
//
// The driver is used without database/sql: statements are prepared once for each connection, and a read is one query.
package sqlitefile

import (
	"context"
	"database/sql/driver"
	"errors"
	"fmt"
	"os"
	"path/filepath"
	"runtime"
	"sync"
	"sync/atomic"
	"time"

	"github.com/mattn/go-sqlite3"
)

// Options say how a file is used. C is what its user has for each connection, such as prepared statements.
type Options[C any] struct {
	Readers  int // as many read at once, at least 1
	Together int // as many jobs are written in one transaction at most, at least 1
	// Cache is how many KiB of pages the connection that writes keeps in memory at most. If it is 0, SQLite's default
	// of 2,000 counts.
	Cache int

	// Driver opens the connections. Nil is SQLite's own. Another one wraps its connections and statements, and has the
	// methods of theirs.
	Driver driver.Driver

	// Migrate brings the tables up to date, on the first connection. The path is that of File.Path. It may be nil.
	Migrate func(ctx context.Context, conn *Conn, path string) error
	// Prepare returns what is used with a connection. It is called once for each, after Migrate.
	Prepare func(ctx context.Context, conn *Conn) (C, error)
	// Begun is called in each transaction before its jobs. If it fails, so does the transaction. It may be nil.
	Begun func(C) error
	// BeforeCommit is called in each transaction that is to be committed, after its jobs, and may write. If it fails or
	// panics, the transaction is rolled back, and each of its callers gets the error. It may be nil.
	BeforeCommit func(C) error
	// Undone is called once a transaction was rolled back, or may be rolled back. It may be nil.
	Undone func(C)
	// Committed gets how many jobs each transaction had, before their callers get their results. It may be nil.
	Committed func(jobs int)
}

// A File is open. Any number of goroutines use it.
type File[C any] struct {
	path    string
	options Options[C]
	readers chan side[C]
	writer  side[C]
	queue   chan *job[C]
	once    sync.Once
	open    context.Context // ends with Close
	shut    context.CancelFunc
	ended   chan struct{} // closed once nothing is written any more
	failed  error         // of Close
}

// A side is a connection, and what is used with it.
type side[C any] struct {
	conn *Conn
	with C
}

// A job is written with others, or fails alone.
type job[C any] struct {
	ctx   context.Context
	do    func(C) error
	state atomic.Int32
	err   error
	done  chan struct{}
}

const (
	waiting int32 = iota
	begun
	givenUp
)

// begin reports whether the job is to be done: its caller may have gone. A job that has begun may begin again.
func (j *job[C]) begin() bool {
	return j.state.CompareAndSwap(waiting, begun) || j.state.Load() == begun
}

// giveUp reports whether the job won't be done: it hasn't begun.
func (j *job[C]) giveUp() bool { return j.state.CompareAndSwap(waiting, givenUp) }

// ErrClosed reports that the file is closed. Nothing was written.
var ErrClosed = errors.New("the file is closed")

// ErrUnknownCommit reports that a commit has failed, and that nobody knows whether its jobs are written.
var ErrUnknownCommit = errors.New("nobody knows whether the transaction was committed")

// unknownCommit is the error of a commit.
type unknownCommit struct{ error }

func (u unknownCommit) Unwrap() error { return u.error }

func (unknownCommit) Is(target error) bool { return target == ErrUnknownCommit }

// Open opens a file, and creates it with mode 0600 if there is none. What a killed process had written, and not synced,
// is on disk before anything is read: it would be taken for committed. Nothing is written to a file that needs no
// migration.
//
// Errors name the file: those of SQLite, of Migrate and of Prepare. Nothing is open then.
func Open[C any](ctx context.Context, path string, options Options[C]) (*File[C], error) {
	if options.Driver == nil {
		options.Driver = &sqlite3.SQLiteDriver{}
	}
	f := &File[C]{
		options: options,
		readers: make(chan side[C], options.Readers),
		queue:   make(chan *job[C], options.Together),
		ended:   make(chan struct{}),
	}
	var err error
	if f.path, err = createFile(path); err == nil {
		err = f.connect(ctx, f.path)
	}
	if err != nil {
		return nil, fmt.Errorf("sqlite: %s: %w", path, err)
	}
	f.open, f.shut = context.WithCancel(context.Background())
	go f.write()
	return f, nil
}

// Path returns the absolute path of the file, without symbolic links.
func (f *File[C]) Path() string { return f.path }

func (f *File[C]) connect(ctx context.Context, path string) (err error) {
	if f.writer, err = f.side(ctx, path, f.options.Migrate); err != nil {
		return err
	}
	if f.options.Cache > 0 {
		err = f.writer.conn.Exec(fmt.Sprintf("PRAGMA cache_size = -%d", f.options.Cache))
	}
	if err == nil {
		err = syncLog(path + "-wal")
	}
	if err == nil {
		err = f.openReaders(ctx, path)
	}
	if err != nil {
		_ = f.writer.conn.close()
	}
	return err
}

func (f *File[C]) openReaders(ctx context.Context, path string) error {
	for n := 0; n < f.options.Readers; n++ {
		reader, err := f.side(ctx, path, nil)
		if err != nil {
			_ = f.closeReaders(n)
			return err
		}
		f.readers <- reader
	}
	return nil
}

// side opens a connection.
func (f *File[C]) side(
	ctx context.Context, path string, first func(context.Context, *Conn, string) error,
) (side[C], error) {
	conn, err := connect(ctx, f.options.Driver, path)
	if err != nil {
		return side[C]{}, err
	}
	if first != nil {
		err = first(ctx, conn, path)
	}
	var with C
	if err == nil {
		with, err = f.options.Prepare(ctx, conn)
	}
	if err != nil {
		_ = conn.close()
		return side[C]{}, err
	}
	return side[C]{conn: conn, with: with}, nil
}

func (f *File[C]) closeReaders(count int) (err error) {
	for n := 0; n < count; n++ {
		if failed := (<-f.readers).conn.close(); err == nil {
			err = failed
		}
	}
	return err
}

// createFile creates a file for its owner alone, if there is none, and returns its path without symbolic links, as
// SQLite uses it. A file that exists must not be opened here: closing it would end SQLite's locks of this process.
func createFile(path string) (string, error) {
	file, err := os.OpenFile(path, os.O_RDWR|os.O_CREATE|os.O_EXCL, 0o600)
	if err == nil {
		err = file.Close()
	}
	if err != nil && !errors.Is(err, os.ErrExist) {
		return "", err
	}
	absolute, err := filepath.Abs(path)
	if err != nil {
		return "", err
	}
	return filepath.EvalSymlinks(absolute)
}

// syncLog writes to disk what a killed process wrote to the log. No other file of the database may be opened so.
func syncLog(log string) error {
	file, err := os.Open(log)
	if errors.Is(err, os.ErrNotExist) {
		return nil
	}
	if err != nil {
		return err
	}
	defer file.Close()
	return file.Sync()
}

// Close closes the file, once all jobs and reads that have begun have ended. Later calls fail with ErrClosed. To call
// Close again does nothing.
func (f *File[C]) Close() error {
	f.once.Do(func() {
		f.shut()
		<-f.ended
		f.failed = f.writer.conn.close()
		if err := f.closeReaders(f.options.Readers); f.failed == nil {
			f.failed = err
		}
	})
	return f.failed
}

// Read calls with one of the readers, to read what is committed. If another process is in the way, it calls again.
//
// Errors: those of call; that of ctx, if all readers are in use until it is done; ErrBusy; ErrClosed.
func (f *File[C]) Read(ctx context.Context, call func(C) error) error {
	select {
	case <-f.open.Done():
		return ErrClosed
	default:
	}
	if err := ctx.Err(); err != nil {
		return err
	}
	select {
	case reader := <-f.readers:
		defer func() { f.readers <- reader }()
		return Patiently(ctx, func() error { return call(reader.with) })
	case <-ctx.Done():
		return ctx.Err()
	case <-f.open.Done():
		return ErrClosed
	}
}

// Write has a job done in a transaction, together with others that wait, and returns once it is on disk. A job that
// fails or panics is undone, and the others are written. A job may be done more than once; the last time counts. It must
// not call Write.
//
// Errors: those of do, Begun and BeforeCommit; that of ctx, if it is done before the job has begun; ErrBusy; ErrClosed;
// ErrUnknownCommit (by errors.Is), which is SQLite's error of the commit. After any other error nothing is written.
func (f *File[C]) Write(ctx context.Context, do func(C) error) error {
	it := &job[C]{ctx: ctx, do: do, done: make(chan struct{})}
	select {
	case <-f.open.Done():
		return ErrClosed
	default:
	}
	select {
	case f.queue <- it:
	case <-ctx.Done():
		return ctx.Err()
	case <-f.open.Done():
		return ErrClosed
	}
	select {
	case <-it.done:
		return it.err
	case <-ctx.Done():
		if it.giveUp() {
			return ctx.Err()
		}
	case <-f.ended:
		if it.giveUp() {
			return ErrClosed
		}
	}
	<-it.done // it has begun: the caller gets its result
	return it.err
}

// write writes what is asked for, until the file is closed.
func (f *File[C]) write() {
	defer close(f.ended)
	batch := make([]*job[C], 0, f.options.Together)
	for {
		select {
		case it := <-f.queue:
			batch = append(batch[:0], it)
		case <-f.open.Done():
			return
		}
		f.commit(f.gather(batch))
	}
}

// gather adds all jobs that wait to a batch, as far as there is room. Before, it lets the goroutines run that can:
// those that are about to ask for a job are in the batch then. If none can run, that takes no time.
func (f *File[C]) gather(batch []*job[C]) []*job[C] {
	runtime.Gosched()
	for len(batch) < f.options.Together {
		select {
		case it := <-f.queue:
			batch = append(batch, it)
		default:
			return batch
		}
	}
	return batch
}

// commit writes jobs in one transaction, and passes the result to their callers. If the transaction itself fails, none
// is written.
//
// A savepoint for each job would cost as much as the job. So if a job fails after it has written, the transaction is
// rolled back, and the other jobs are done again without it.
func (f *File[C]) commit(batch []*job[C]) {
	jobs, failed, err := f.transaction(batch)
	for failed != nil {
		jobs, failed, err = f.transaction(jobs)
	}
	if f.options.Committed != nil && err == nil {
		f.options.Committed(len(jobs))
	}
	for _, job := range jobs {
		if err != nil {
			job.err = fmt.Errorf("sqlite: %w", err)
		}
		close(job.done)
	}
}

// transaction has jobs done in one transaction, and returns those whose callers wait. If one of them fails after it has
// written, nothing is committed: failed is that job, whose caller gets its error, and the others are left to be done.
func (f *File[C]) transaction(batch []*job[C]) (jobs []*job[C], failed *job[C], err error) {
	conn := f.writer.conn
	err = Patiently(f.open, conn.begin.run)
	if errors.Is(err, context.Canceled) {
		err = ErrClosed
	}
	if err == nil && f.options.Begun != nil {
		err = f.options.Begun(f.writer.with)
	}
	jobs = batch[:0]
	for _, job := range batch {
		if !job.begin() {
			continue // nobody waits for it
		}
		isHalf := false
		if job.err = job.ctx.Err(); job.err == nil && err == nil && failed == nil {
			job.err, isHalf = f.try(job)
		}
		switch {
		case isHalf:
			failed = job
			continue
		case errors.Is(job.err, ErrBroken):
			err = job.err
		}
		jobs = append(jobs, job)
	}
	err = f.end(err, failed == nil)
	if failed != nil {
		close(failed.done)
	}
	return jobs, failed, err
}

// end commits the transaction unless it is to be rolled back, or there is an error.
func (f *File[C]) end(err error, isToCommit bool) error {
	conn := f.writer.conn
	if err == nil && isToCommit && f.options.BeforeCommit != nil {
		err = Safely(func() error { return f.options.BeforeCommit(f.writer.with) })
	}
	if err == nil && isToCommit {
		if err = conn.end.run(); err == nil {
			return nil
		}
		err = unknownCommit{err}
	}
	if conn.InTransaction() {
		_ = conn.Exec("ROLLBACK")
	}
	if f.options.Undone != nil {
		f.options.Undone(f.writer.with)
	}
	return err
}

// try has a job done. isHalf reports that the job has failed after it had written.
func (f *File[C]) try(it *job[C]) (err error, isHalf bool) {
	conn := f.writer.conn
	before := conn.writes
	err = Safely(func() error { return it.do(f.writer.with) })
	if !conn.InTransaction() {
		return brokenOff(err), false
	}
	return err, err != nil && conn.writes != before
}

const again = 500 * time.Microsecond // SQLite's own waiting sleeps longer and longer, up to 100 ms
