package sqlitefile

import (
	"bytes"
	"context"
	"database/sql/driver"
	"errors"
	"fmt"
	"io/fs"
	"os"
	"path/filepath"
	"strings"
	"sync"
	"sync/atomic"
	"syscall"
	"testing"
	"time"

	"github.com/mattn/go-sqlite3"

	"pippinterm/internal/diff"
	"pippinterm/internal/storefaults"
	"pippinterm/internal/waits"
)

var background = context.Background()

// soon is how long a test waits for something that must not happen.
const soon = 150 * time.Millisecond

// notes are what a test has for each connection: a table of texts.
type notes struct {
	*Conn
	put, get *Statement
}

func options() Options[*notes] {
	return Options[*notes]{
		Readers: 2, Together: 64,
		Migrate: func(ctx context.Context, conn *Conn, _ string) error {
			return conn.Transaction(ctx, func() error {
				return conn.Exec("CREATE TABLE IF NOT EXISTS notes (text UNIQUE)")
			})
		},
		Prepare: func(ctx context.Context, conn *Conn) (*notes, error) {
			put, err := conn.Prepare(ctx, "INSERT INTO notes VALUES (?)")
			if err != nil {
				return nil, err
			}
			get, err := conn.Prepare(ctx, "SELECT text FROM notes ORDER BY text")
			return &notes{conn, put, get}, err
		},
	}
}

func open(t *testing.T, path string, options Options[*notes]) *File[*notes] {
	t.Helper()
	file := diff.Value(Open(background, path, options))(t)
	t.Cleanup(func() {
		diff.NoError(t, file.Close(), "")
	})
	return file
}

// note writes texts in one job.
func note(texts ...string) func(*notes) error {
	return func(n *notes) error {
		for _, text := range texts {
			if rows, err := n.put.Run(text); err != nil || rows != 1 {
				return fmt.Errorf("%d rows: %w", rows, err)
			}
		}
		return nil
	}
}

func wantNotes(t *testing.T, file *File[*notes], want ...string) {
	t.Helper()
	got := []string{}
	err := file.Read(background, func(n *notes) error {
		got = got[:0]
		return n.get.Each(nil, func(row []driver.Value) error {
			got = append(got, row[0].(string))
			return nil
		})
	})
	diff.NoError(t, err, "%q, %q", got, want)
	diff.Equal(t, strings.Join(got, ","), strings.Join(want, ","), "")
}

// holdWriter adds a job that keeps the writer until release is closed.
func holdWriter(t *testing.T, file *File[*notes]) (release chan struct{}, all *sync.WaitGroup) {
	t.Helper()
	entered, release, all := make(chan struct{}), make(chan struct{}), &sync.WaitGroup{}
	all.Add(1)
	go func() {
		defer all.Done()
		err := file.Write(background, func(*notes) error {
			close(entered)
			<-release
			return nil
		})
		diff.NoError(t, err, "")
	}()
	<-entered
	return release, all
}

var errWrong = errors.New("wrong")

// Of jobs that are written in one transaction, one that fails, panics or breaks a constraint after it has written is
// undone whole. The others are written.
func TestOneJobFails(t *testing.T) {
	var commits, jobs atomic.Int64
	with := options()
	with.Committed = func(count int) {
		commits.Add(1)
		jobs.Add(int64(count))
	}
	file := open(t, filepath.Join(t.TempDir(), "file"), with)
	writeTogether(t, file, map[string]func(*notes) error{
		"wrong": func(n *notes) error { return first(note("a1", "a2")(n), errWrong) },
		"a bug": func(n *notes) error {
			if err := note("b1")(n); err != nil {
				return err
			}
			panic("a bug")
		},
		"UNIQUE": note("c1", "c2", "c1"),
		"":       note("d1", "d2"),
	})
	wantNotes(t, file, "d1", "d2")
	diff.Equal(t, commits.Load(), 2, "transactions")
	diff.Equal(t, jobs.Load(), 2, "jobs that are written")
}

// writeTogether writes jobs in one transaction. Each is named by a part of its error, and "" must succeed.
func writeTogether(t *testing.T, file *File[*notes], jobs map[string]func(*notes) error) {
	t.Helper()
	release, all := holdWriter(t, file)
	for want, job := range jobs {
		want, job := want, job
		all.Add(1)
		go func() {
			defer all.Done()
			err := file.Write(background, job)
			if (err == nil) != (want == "") || err != nil && !strings.Contains(err.Error(), want) {
				t.Errorf("want the error %q, got %v", want, err)
			}
		}()
	}
	waits.Until(t, "the jobs gather", func() bool { return len(file.queue) == len(jobs) })
	close(release)
	all.Wait()
}

func first(errs ...error) error {
	for _, err := range errs {
		if err != nil {
			return err
		}
	}
	return nil
}

// If the transaction itself is broken off, as SQLite does if the disk is full, no job of it is reported as written. The
// next one is written.
func TestTransactionFails(t *testing.T) {
	file := open(t, filepath.Join(t.TempDir(), "file"), options())
	breakOff(t, file, "ROLLBACK")
	wantNotes(t, file)
	diff.NoError(t, file.Write(background, note("next")), "the next write")
	wantNotes(t, file, "next")
}

// A call whose transaction was rolled back returns ErrBroken, and not that the commit is unknown, also if it has no error
// of its own. Nothing is written, and neither is what it would write after that, without a transaction. Undone is
// called for a transaction of Write.
func TestRolledBack(t *testing.T) {
	ends := func(n *notes) error { return first(note("lost")(n), n.Exec("ROLLBACK")) }
	knows := func(n *notes) error { return first(ends(n), ErrBroken) }
	transaction := func(n *notes) error { return n.Transaction(background, func() error { return ends(n) }) }
	for _, test := range []struct {
		name   string
		undone int64
		call   func(*File[*notes]) error
	}{
		{"Write", 1, func(file *File[*notes]) error { return file.Write(background, ends) }},
		{"Write that returns it", 1, func(file *File[*notes]) error { return file.Write(background, knows) }},
		{"Transaction", 0, func(file *File[*notes]) error { return file.Read(background, transaction) }},
	} {
		t.Run(test.name, func(t *testing.T) {
			var undone atomic.Int64
			with := options()
			with.Undone = func(*notes) { undone.Add(1) }
			file := open(t, filepath.Join(t.TempDir(), "file"), with)
			if err := test.call(file); !errors.Is(err, ErrBroken) || errors.Is(err, ErrUnknownCommit) {
				t.Errorf("got %v, want %v alone", err, ErrBroken)
			}
			diff.Equal(t, undone.Load(), test.undone, "transactions that are undone")
			wantNotes(t, file)
			diff.NoError(t, file.Write(background, note("next")), "the next write")
			wantNotes(t, file, "next")
		})
	}
}

// A Transaction that fails or panics leaves no transaction open, so that it keeps no lock, and writes nothing.
func TestTransactionThatFails(t *testing.T) {
	file := open(t, filepath.Join(t.TempDir(), "file"), options())
	for name, fails := range map[string]func(){"error": func() {}, "panic": func() { panic("a bug") }} {
		t.Run(name, func(t *testing.T) {
			err := file.Read(background, func(n *notes) error {
				err := n.Transaction(background, func() error {
					err := note("lost")(n)
					fails()
					return first(err, errWrong)
				})
				diff.Equal(t, n.InTransaction(), false, "an open transaction")
				return err
			})
			diff.Error(t, err, "")
		})
	}
	wantNotes(t, file)
	diff.NoError(t, file.Write(background, note("next")), "the next write")
}

// Jobs that fail, panic or break a constraint before they have written anything undo nothing: each job is done once.
func TestJobsThatFailUnwritten(t *testing.T) {
	var begun, undone, done atomic.Int64
	with := options()
	with.Begun = func(*notes) error { begun.Add(1); return nil }
	with.Undone = func(*notes) { undone.Add(1) }
	file := open(t, filepath.Join(t.TempDir(), "file"), with)
	check(t, file.Write(background, note("a")))
	writeTogether(t, file, map[string]func(*notes) error{
		"wrong":  func(*notes) error { return errWrong },
		"a bug":  func(*notes) error { panic("a bug") },
		"UNIQUE": note("a"),
		"":       func(n *notes) error { done.Add(1); return note("b")(n) },
	})
	wantNotes(t, file, "a", "b")
	diff.Equal(t, done.Load(), 1, "the job that is written")
	diff.Equal(t, begun.Load(), 3, "transactions")
	diff.Equal(t, undone.Load(), 0, "transactions that are undone")
}

// A job that has failed after it has written is undone with its whole transaction, and the others are done again. Begun
// is called for both transactions.
func TestJobsThatAreDoneAgain(t *testing.T) {
	var begun, undone, done atomic.Int64
	with := options()
	with.Begun = func(*notes) error { begun.Add(1); return nil }
	with.Undone = func(*notes) { undone.Add(1) }
	file := open(t, filepath.Join(t.TempDir(), "file"), with)
	writeTogether(t, file, map[string]func(*notes) error{
		"wrong": func(n *notes) error { return first(note("a")(n), errWrong) },
		"":      func(n *notes) error { done.Add(1); return note("b")(n) },
	})
	wantNotes(t, file, "b")
	diff.AtMost(t, done.Load(), 2, "the job that is written") // 1 if it comes last
	diff.Equal(t, begun.Load(), 3, "transactions")
	diff.Equal(t, undone.Load(), 1, "transactions that are undone")
}

// If Begun fails, nothing is done, and the next transaction is written.
func TestBegunFails(t *testing.T) {
	fails, with := true, options()
	with.Begun = func(*notes) error {
		if fails {
			return errWrong
		}
		return nil
	}
	file := open(t, filepath.Join(t.TempDir(), "file"), with)
	if err := file.Write(background, note("lost")); !errors.Is(err, errWrong) {
		t.Errorf("got %v, want %v", err, errWrong)
	}
	fails = false
	diff.NoError(t, file.Write(background, note("next")), "the next write")
	wantNotes(t, file, "next")
}

// BeforeCommit writes in the transaction of the jobs, once for all of them, and not in one that is undone. If it fails or
// panics, neither its writes nor those of the jobs are left, and the next transaction is written.
func TestBeforeCommit(t *testing.T) {
	calls, undone, fails, with := 0, 0, error(nil), options()
	with.BeforeCommit = func(n *notes) error {
		calls++
		if err := note(fmt.Sprint("call ", calls))(n); err != nil || fails == nil {
			return err
		}
		if fails == errWrong {
			return fails
		}
		panic(fails)
	}
	with.Undone = func(*notes) { undone++ }
	file := open(t, filepath.Join(t.TempDir(), "file"), with)
	for _, fails = range []error{errWrong, errors.New("a bug")} {
		err := file.Write(background, note("lost"))
		diff.ErrorContains(t, err, fails.Error(), "")
		diff.Equal(t, errors.Is(err, ErrUnknownCommit), false, "%v: the commit is unknown", err)
		wantNotes(t, file)
	}
	diff.Equal(t, undone, 2, "transactions that are undone")
	fails = nil
	err := file.Write(background, func(n *notes) error { return first(note("lost")(n), errWrong) })
	diff.ErrorIs(t, err, errWrong, "")
	writeTogether(t, file, map[string]func(*notes) error{"": note("a"), "wrong": func(*notes) error { return errWrong }})
	// that without the job that has failed, that of the job that holds the writer, and that of the two others
	wantNotes(t, file, "a", "call 3", "call 4", "call 5")
}

// breakOff writes three jobs in a transaction, of which the second one breaks it off by a statement.
func breakOff(t *testing.T, file *File[*notes], by string) {
	t.Helper()
	release, all := holdWriter(t, file)
	errs := make([]error, 3)
	for n, job := range []func(*notes) error{
		note("before"), func(n *notes) error { return first(note("breaking")(n), n.Exec(by), errWrong) }, note("after"),
	} {
		n, job := n, job
		all.Add(1)
		go func() {
			defer all.Done()
			errs[n] = file.Write(background, job)
		}()
		waits.Until(t, "the job is waiting", func() bool { return len(file.queue) == n+1 })
	}
	close(release)
	all.Wait()
	for n, err := range errs {
		diff.Error(t, err, "job %d", n)
	}
}

// A job that is reported is read by another connection of the file.
func TestReportsAfterCommit(t *testing.T) {
	path := filepath.Join(t.TempDir(), "file")
	file, other := open(t, path, options()), open(t, path, options())
	want := []string{}
	for n := 0; n < 20; n++ {
		want = append(want, fmt.Sprintf("%02d", n))
		check(t, file.Write(background, note(want[n])))
		wantNotes(t, other, want...)
	}
}

// An ended context has ended, and whoever waits for its end isn't woken yet.
type ended struct{ context.Context }

func (ended) Err() error { return context.Canceled }

func (ended) Done() <-chan struct{} { return nil }

// A caller who goes before its job has begun gets its context's error at once, and the job isn't done. The job may wait
// among others, or for room among them, or be the next one.
func TestCancelled(t *testing.T) {
	one := options()
	one.Together = 1
	file := open(t, filepath.Join(t.TempDir(), "file"), one)
	gone, cancel := context.WithCancel(background)
	cancel()
	diff.ErrorIs(t, file.Write(gone, note("gone")), context.Canceled, "Write")
	diff.ErrorIs(t, file.Read(gone, func(*notes) error { return errWrong }), context.Canceled, "Read")
	diff.ErrorIs(t, file.Write(ended{background}, note("ended")), context.Canceled, "Write of a job that is the next one")
	release, all := holdWriter(t, file)
	for n := 0; n < 2; n++ {
		going, cancel := context.WithCancel(background)
		failed := waits.Begin(func() error { return file.Write(going, note("going")) })
		waits.Until(t, "a job is waiting", func() bool { return len(file.queue) == 1 })
		time.AfterFunc(soon, cancel)
		diff.ErrorIs(t, waits.For(t, failed, "Write of a job that hasn't begun"), context.Canceled, "Write")
	}
	close(release)
	all.Wait()
	diff.NoError(t, file.Write(background, note("stayed")), "")
	wantNotes(t, file, "stayed")
}

// A caller whose context ends while its job is done gets the result, and not the error of the context.
func TestCancelledWhileItIsDone(t *testing.T) {
	file := open(t, filepath.Join(t.TempDir(), "file"), options())
	for _, text := range []string{"a", "b", "c", "d"} {
		ctx, cancel := context.WithCancel(background)
		err := file.Write(ctx, func(n *notes) error {
			cancel()
			return note(text)(n)
		})
		diff.NoError(t, err, text)
	}
	wantNotes(t, file, "a", "b", "c", "d")
}

// Close ends a job that has begun, and no other. It doesn't wait for another process.
func TestClose(t *testing.T) {
	path, one := filepath.Join(t.TempDir(), "file"), options()
	one.Together = 1
	file, other := open(t, path, one), open(t, path, options())
	release, all := holdWriter(t, other) // as another process
	const late = 20                      // a job that has begun, one that waits, and others that wait for room
	failed := make(chan error, late)
	for n := 0; n < late; n++ {
		go func() { failed <- file.Write(background, note("late")) }()
	}
	waits.Until(t, "a job is waiting", func() bool { return len(file.queue) == 1 })
	select {
	case err := <-failed:
		t.Errorf("beside another: got %v, want it to wait", err)
		failed <- err
	case <-time.After(soon):
	}
	closed := waits.Begin(func() error { return file.Close() })
	diff.NoError(t, waits.For(t, closed, "Close beside another process"), "")
	for n := 0; n < late; n++ {
		diff.ErrorIs(t, waits.For(t, failed, "Write at a closed file"), ErrClosed, "Write")
	}
	close(release)
	all.Wait()
	for name, err := range map[string]error{
		"Write": file.Write(background, note("after")),
		"Read":  file.Read(background, func(*notes) error { return nil }),
	} {
		t.Run(name, func(t *testing.T) {
			diff.ErrorIs(t, err, ErrClosed, "%s after Close", name)
		})
	}
	diff.NoError(t, file.Close(), "Close again")
	wantNotes(t, other)
}

// A slow context has Write look at the end of its job late: its second Done waits until late is closed.
type slow struct {
	context.Context
	calls atomic.Int64
	late  chan struct{}
}

func (s *slow) Done() <-chan struct{} {
	if s.calls.Add(1) == 2 {
		<-s.late
	}
	return nil
}

// A job that is written is reported as written, although the file is closed before its caller looks. Go draws which of
// the two a caller sees first, so there are many callers.
func TestCloseAfterWriting(t *testing.T) {
	file, late := open(t, filepath.Join(t.TempDir(), "file"), options()), make(chan struct{})
	const many = 40
	var written atomic.Int64
	failed := make(chan error, many)
	for n := 0; n < many; n++ {
		n := n
		go func() {
			failed <- file.Write(&slow{Context: background, late: late}, func(to *notes) error {
				written.Add(1)
				return note(fmt.Sprint(n))(to)
			})
		}()
	}
	waits.Until(t, "all jobs are written", func() bool { return written.Load() == many })
	diff.NoError(t, file.Close(), "")
	close(late)
	for n := 0; n < many; n++ {
		diff.NoError(t, <-failed, "")
	}
}

// Close closes the files, and leaves nothing in the log: one file has everything.
func TestCloseLeavesOneFile(t *testing.T) {
	folder := t.TempDir()
	file := diff.Value(Open(background, filepath.Join(folder, "file"), options()))(t)
	diff.NoError(t, file.Write(background, note("x")), "")
	wantNotes(t, file, "x")
	diff.NoError(t, file.Close(), "")
	left, err := os.ReadDir(folder)
	if err != nil || len(left) != 1 || left[0].Name() != "file" {
		t.Errorf("got the files %v and the error %v, want file alone", left, err)
	}
}

// A path is a path, whatever its characters mean in a URI.
func TestPaths(t *testing.T) {
	for _, name := range []string{"a?mode=memory", "b#c", "d%41", "é 😀 '&=+;", "file:x"} {
		t.Run(fmt.Sprintf("%q", name), func(t *testing.T) {
			folder := t.TempDir()
			file := open(t, filepath.Join(folder, name), options())
			diff.NoError(t, file.Write(background, note("x")), "%q", name)
			info := diff.Value(os.Stat(filepath.Join(folder, name)))(t)
			diff.Equal(t, info.Size() > 0, true, "%q has content", name)
			diff.Equal(t, info.Mode().Perm(), 0o600, "%q: the mode", name)
		})
	}
}

// A file is the same by each of its names. The log that is synced when it is opened lies beside its own name.
func TestSymbolicLink(t *testing.T) {
	folder, other := t.TempDir(), t.TempDir()
	file, link := filepath.Join(folder, "file"), filepath.Join(other, "link")
	first := open(t, file, options())
	check(t, os.Symlink(file, link))
	second := open(t, link, options())
	diff.Equal(t, first.Path(), second.Path(), "the paths")
	diff.NoError(t, second.Write(background, note("x")), "")
	wantNotes(t, first, "x")
}

// A file that can't be opened is an error that names it, and leaves nothing open.
func TestOpenFails(t *testing.T) {
	folder := t.TempDir()
	rejecting, unprepared := options(), options()
	rejecting.Migrate = func(context.Context, *Conn, string) error { return errWrong }
	unprepared.Prepare = func(ctx context.Context, conn *Conn) (*notes, error) {
		_, err := conn.Prepare(ctx, "SELECT no_such_column FROM notes")
		return nil, err
	}
	for path, with := range map[string]Options[*notes]{
		folder: options(), filepath.Join(folder, "none", "file"): options(),
		filepath.Join(folder, "rejecting"): rejecting, filepath.Join(folder, "unprepared"): unprepared,
	} {
		t.Run(path, func(t *testing.T) {
			diff.ErrorContains(t, diff.Err(Open(background, path, with)), path, "")
		})
	}
}

// A call is repeated while another process is in its way, until its context ends.
func TestPatiently(t *testing.T) {
	calls := 0
	busy := func(until int) func() error {
		return func() error {
			if calls++; calls < until {
				return fmt.Errorf("it is %w", sqlite3.Error{Code: sqlite3.ErrBusy})
			}
			return errWrong
		}
	}
	diff.Check(t, Patiently(background, busy(5)), errWrong, "Patiently")
	diff.Equal(t, calls, 5, "calls")
	ending, cancel := context.WithTimeout(background, 10*time.Millisecond)
	defer cancel()
	calls = 0
	if err := Patiently(ending, busy(1e9)); !errors.Is(err, context.DeadlineExceeded) || calls < 2 {
		t.Errorf("got %v after %d calls, want %v after at least 2", err, calls, context.DeadlineExceeded)
	}
}

// A call that another process is in the way of for half a minute fails with ErrBusy.
func TestPatientlyForLong(t *testing.T) {
	if testing.Short() {
		t.Skip("it takes half a minute")
	}
	t.Parallel() // it only waits
	ending, cancel := context.WithTimeout(background, 3*wait)
	defer cancel()
	begun := time.Now()
	err := Patiently(ending, func() error { return sqlite3.Error{Code: sqlite3.ErrBusy} })
	if took := time.Since(begun); !errors.Is(err, ErrBusy) || took < wait {
		t.Errorf("got %v after %v, want %v after %v", err, took, ErrBusy, wait)
	}
}

// One returns the first row, however many there are, and nil if there is none.
func TestOne(t *testing.T) {
	file := open(t, filepath.Join(t.TempDir(), "file"), options())
	wantOne := func(want []driver.Value) {
		t.Helper()
		err := file.Read(background, func(n *notes) error {
			row, err := n.get.One()
			diff.NoError(t, err, "%v, %v", row, want)
			diff.Equal(t, fmt.Sprint(row), fmt.Sprint(want), "")
			return nil
		})
		check(t, err)
	}
	wantOne(nil)
	check(t, file.Write(background, note("b", "a", "c")))
	wantOne([]driver.Value{"a"})
}

// Queries of a snapshot read the same state, whatever is written meanwhile.
func TestSnapshot(t *testing.T) {
	file := open(t, filepath.Join(t.TempDir(), "file"), options())
	check(t, file.Write(background, note("a")))
	err := file.Read(background, func(n *notes) error {
		return n.Snapshot(func() error {
			for turn := 0; turn < 2; turn++ {
				row, err := n.get.One()
				if err != nil || len(row) != 1 || row[0] != "a" {
					t.Errorf("turn %d: got %v, %v, want a", turn, row, err)
				}
				diff.NoError(t, file.Write(background, note(fmt.Sprint("0 in turn ", turn))), "")
			}
			return nil
		})
	})
	diff.NoError(t, err, "")
	wantNotes(t, file, "0 in turn 0", "0 in turn 1", "a")
}

// The error of a commit is ErrUnknownCommit, for all jobs of the transaction, and SQLite's. That of a job isn't.
func TestUnknownCommit(t *testing.T) {
	with := options()
	migrate := with.Migrate
	with.Migrate = func(ctx context.Context, conn *Conn, path string) error {
		err := migrate(ctx, conn, path)
		for _, text := range []string{
			"PRAGMA foreign_keys = ON",
			"CREATE TABLE of (note TEXT REFERENCES notes (text) DEFERRABLE INITIALLY DEFERRED)",
		} {
			if err == nil {
				err = conn.Exec(text)
			}
		}
		return err
	}
	file := open(t, filepath.Join(t.TempDir(), "file"), with)
	errOwn := errors.New("its own")
	diff.Check(t, file.Write(background, func(*notes) error { return errOwn }), errOwn, "a job")
	err := file.Write(background, func(n *notes) error { return n.Exec("INSERT INTO of VALUES ('missing')") })
	var failed sqlite3.Error
	if !errors.Is(err, ErrUnknownCommit) || !errors.As(err, &failed) || failed.Code != sqlite3.ErrConstraint {
		t.Errorf("of a commit: got %v, want %v of a constraint", err, ErrUnknownCommit)
	}
	diff.NoError(t, file.Write(background, func(n *notes) error { return n.Exec("INSERT INTO notes VALUES ('next')") }),
		"the next job")
}

// A commit is on the disk when it returns, on each connection that writes or reads: SQLite's level FULL, which has the
// number 2.
func TestCommitsAreSynced(t *testing.T) {
	file := open(t, filepath.Join(t.TempDir(), "file"), options())
	look := func(n *notes) error {
		return n.Each("PRAGMA synchronous", nil, func(row []driver.Value) error {
			diff.Check(t, row[0], int64(2), "synchronous")
			return nil
		})
	}
	diff.NoError(t, file.Write(background, look), "")
	diff.NoError(t, file.Read(background, look), "")
}

// Open fails if the log can't be synced: what a killed process has written there would be read, and lost in a power cut.
func TestOpenSyncsTheLog(t *testing.T) {
	path, of := filepath.Join(t.TempDir(), "file"), options()
	usual := of.Prepare
	of.Prepare = func(ctx context.Context, conn *Conn) (*notes, error) {
		log := path + "-wal"
		check(t, os.Rename(log, log+"-in-use"))
		check(t, os.Symlink(os.DevNull, log)) // it can't be synced
		return usual(ctx, conn)
	}
	_, err := Open(background, path, of)
	diff.ErrorIs(t, err, syscall.EINVAL, "")
}

// openWith opens a new file, and executes statements before it is used.
func openWith(t *testing.T, path, statements string) error {
	t.Helper()
	file, err := Open(context.Background(), path, Options[struct{}]{
		Readers: 1, Together: 1,
		Migrate: func(_ context.Context, conn *Conn, _ string) error { return conn.Exec(statements) },
		Prepare: func(context.Context, *Conn) (struct{}, error) { return struct{}{}, nil },
	})
	if err == nil {
		_ = file.Close()
	}
	return err
}

// These errors are SQLite's own: a file that can't grow is full, and a text isn't a database.
func TestWhatMayPass(t *testing.T) {
	folder := t.TempDir()
	full := openWith(t, filepath.Join(folder, "full"), "PRAGMA max_page_count = 1; CREATE TABLE one (a)")
	if full == nil || !MayPass(full) {
		t.Errorf("of a file that can't grow: got %v, want an error that may pass", full)
	}
	text := filepath.Join(folder, "text")
	check(t, os.WriteFile(text, bytes.Repeat([]byte("a text\n"), 1000), 0o600))
	if err := openWith(t, text, "CREATE TABLE one (a)"); err == nil || MayPass(err) {
		t.Errorf("of a text: got %v, want an error that lasts", err)
	}
}

func TestErrorsThatMayPass(t *testing.T) {
	for _, test := range []struct {
		err  error
		want bool
	}{
		{ErrBusy, true},
		{&fs.PathError{Op: "open", Path: "f", Err: syscall.ENOSPC}, true},
		{&fs.PathError{Op: "open", Path: "f", Err: syscall.EDQUOT}, true},
		{sqlite3.Error{Code: sqlite3.ErrIoErr, SystemErrno: syscall.ENOSPC}, true},
		{sqlite3.Error{Code: sqlite3.ErrIoErr, SystemErrno: syscall.EIO}, false},
		{sqlite3.Error{Code: sqlite3.ErrNotADB}, false},
		{fs.ErrPermission, false},
		{errors.New("another"), false},
		{nil, false},
	} {
		t.Run(fmt.Sprint(test.err), func(t *testing.T) {
			err := test.err
			if err != nil {
				err = fmt.Errorf("sqlite: %w", err)
			}
			diff.Equal(t, MayPass(err), test.want, "MayPass of %v", err)
		})
	}
}

// faultyCalls are calls of which each statement fails once. Those that write write the text a.
var faultyCalls = []struct {
	name   string
	writes bool
	call   func(file *File[*notes]) error
}{
	{"Write", true, func(file *File[*notes]) error { return file.Write(background, note("a")) }},
	{"Transaction", true, func(file *File[*notes]) error {
		return file.Read(background, func(n *notes) error {
			return n.Transaction(background, func() error { return note("a")(n) })
		})
	}},
	{"Read", false, func(file *File[*notes]) error {
		return file.Read(background, func(n *notes) error { return n.get.Each(nil, ignore) })
	}},
	{"Each of a Conn", false, func(file *File[*notes]) error {
		return file.Read(background, func(n *notes) error { return n.Each("SELECT text FROM notes", nil, ignore) })
	}},
	{"Snapshot", false, func(file *File[*notes]) error {
		return file.Read(background, func(n *notes) error {
			return n.Snapshot(func() error { return n.get.Each(nil, ignore) })
		})
	}},
}

func ignore([]driver.Value) error { return nil }

// Each statement of a call fails once. The call returns the error, writes nothing, and succeeds the next time.
func TestStatementsThatFail(t *testing.T) {
	for _, call := range faultyCalls {
		t.Run(call.name, func(t *testing.T) {
			by, with := &storefaults.Driver{}, options()
			with.Driver = by
			file := open(t, filepath.Join(t.TempDir(), "file"), with)
			for n := 1; ; n++ {
				by.Fail(n, storefaults.Refused)
				err := call.call(file)
				failed := by.FailedStatement()
				if failed == "" {
					if err != nil || n == 1 {
						t.Errorf("got %d statements, and %v, want nil", n-1, err)
					}
					break
				}
				by.Fail(0, storefaults.Refused)
				if !errors.Is(err, storefaults.ErrFault) && !errors.Is(err, ErrBroken) {
					t.Errorf("%s, %q has failed: got %v, want %v", call.name, failed, err, storefaults.ErrFault)
				}
				wantNotes(t, file)
			}
			by.Fail(0, storefaults.Refused)
			if call.writes {
				wantNotes(t, file, "a")
			}
		})
	}
}

// If a job fails, and what would undo it fails too, nothing of the transaction is written.
func TestJobsThatAreNotUndone(t *testing.T) {
	by, with := &storefaults.Driver{}, options()
	with.Driver = by
	file := open(t, filepath.Join(t.TempDir(), "file"), with)
	for n, failed := 1, "none yet"; failed != ""; n++ {
		by.Fail(n, storefaults.Refused)
		err := file.Write(background, func(n *notes) error { return first(note("a")(n), errWrong) })
		failed = by.FailedStatement()
		by.Fail(0, storefaults.Refused)
		diff.Error(t, err, "%q has failed", failed)
		wantNotes(t, file)
	}
}

// Each statement of Open fails once: the error is returned, and the file can be opened later.
func TestOpeningThatFails(t *testing.T) {
	path := filepath.Join(t.TempDir(), "file")
	for n := 1; ; n++ {
		by, with := &storefaults.Driver{}, options()
		with.Driver, with.Cache = by, 100
		by.Fail(n, storefaults.Refused)
		file, err := Open(background, path, with)
		failed := by.FailedStatement()
		by.Fail(0, storefaults.Refused)
		if failed != "" && !errors.Is(err, storefaults.ErrFault) || failed == "" && err != nil {
			t.Errorf("%q has failed: got %v, want an error exactly then", failed, err)
		}
		if err == nil {
			wantNotes(t, file)
			diff.NoError(t, file.Close(), "")
		}
		if failed == "" {
			return
		}
	}
}

// Look reads a file that exists, and changes nothing.
func TestLook(t *testing.T) {
	path := filepath.Join(t.TempDir(), "file")
	diff.Error(t, Look(background, path, func(*Conn) error { return nil }), "a file that doesn't exist")
	file := open(t, path, options())
	check(t, file.Write(background, note("a")))
	count := 0
	err := Look(background, path, func(conn *Conn) error {
		diff.Error(t, conn.Exec("DELETE FROM notes"), "a DELETE")
		return conn.Each("SELECT text FROM notes", nil, func([]driver.Value) error { count++; return nil })
	})
	diff.NoError(t, err, "")
	diff.Equal(t, count, 1, "")
}

var check = diff.Must
