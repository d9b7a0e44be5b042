package filelock

import (
	"bufio"
	"context"
	"errors"
	"fmt"
	"io"
	"os"
	"os/exec"
	"path/filepath"
	"strings"
	"sync/atomic"
	"syscall"
	"testing"
	"time"

	"pippinterm/internal/diff"
	"pippinterm/internal/waits"
)

// These keys have the form of those of a broker: an instance, another one, and a binding of the first one.
const (
	one   = "00000000-0000-0000-0000-000000000001"
	two   = "00000000-0000-0000-0000-000000000002"
	bound = one + "/" + one
)

func newLocks(t *testing.T, path string) *Locks {
	t.Helper()
	return diff.Value(New(path))(t)
}

// isFree reports whether the lock of a key is free.
func isFree(t *testing.T, locks *Locks, key string) bool {
	t.Helper()
	lock := diff.Value(locks.TryLock(key))(t)
	if lock == nil {
		return false
	}
	lock.Unlock()
	return true
}

// mustLock returns the lock of a key. It fails if it has to wait for more than a minute.
func mustLock(t *testing.T, locks *Locks, key string) *Lock {
	t.Helper()
	ctx, cancel := context.WithTimeout(context.Background(), time.Minute)
	defer cancel()
	return diff.Value(locks.Lock(ctx, key))(t)
}

func TestGoroutinesExcludeEachOther(t *testing.T) {
	path := filepath.Join(t.TempDir(), "locks")
	first, second := newLocks(t, path), newLocks(t, path)
	var inside, entered int32
	waits.Together(8, func(n int) {
		for k := 0; k < 10; k++ {
			lock, err := []*Locks{first, second}[n%2].Lock(context.Background(), one)
			if err != nil {
				t.Errorf("got the error %v, want the lock", err)
				return
			}
			diff.Equal(t, atomic.AddInt32(&inside, 1), 1, "")
			atomic.AddInt32(&entered, 1)
			atomic.AddInt32(&inside, -1)
			lock.Unlock()
		}
	})
	diff.Equal(t, entered, 80, "locks taken")
}

func TestKeysHaveLocksOfTheirOwn(t *testing.T) {
	locks := newLocks(t, filepath.Join(t.TempDir(), "locks"))
	lock := mustLock(t, locks, one)
	diff.Equal(t, isFree(t, locks, one), false, "the lock that was taken")
	diff.Equal(t, isFree(t, locks, two), true, "the lock of another instance")
	diff.Equal(t, isFree(t, locks, bound), true, "the lock of a binding")
	lock.Unlock()
	diff.Equal(t, isFree(t, locks, one), true, "the lock that was unlocked")
}

// One lock after the other uses the same open file, and never two at once, even after a second Unlock.
func TestOpenFileIsUsedAgain(t *testing.T) {
	locks := newLocks(t, filepath.Join(t.TempDir(), "locks"))
	lock := mustLock(t, locks, one)
	lock.Unlock()
	lock.Unlock()
	before := openFiles(t)
	lock = mustLock(t, locks, one)
	defer lock.Unlock()
	diff.Equal(t, openFiles(t), before, "files open")
	diff.Equal(t, isFree(t, locks, one), false, "a lock that was taken")
}

// Of the open files of locks that have ended, mostSpare are kept, and the others are closed: no Unlock waits.
func TestMostOpenFilesAreKept(t *testing.T) {
	locks := newLocks(t, filepath.Join(t.TempDir(), "locks"))
	before, taken := openFiles(t), []*Lock{}
	for n := 0; n < mostSpare+2; n++ {
		taken = append(taken, mustLock(t, locks, fmt.Sprint("key ", n)))
	}
	unlocked := make(chan struct{})
	go func() {
		defer close(unlocked)
		for _, lock := range taken {
			lock.Unlock()
		}
	}()
	waits.For(t, unlocked, "each Unlock")
	diff.Equal(t, openFiles(t)-before, mostSpare, "")
}

// A turns context calls with the number of each look at its end, which Lock takes before each of its tries.
type turns struct {
	context.Context
	count int
	call  func(turn int)
}

func (t *turns) Err() error {
	t.count++
	t.call(t.count)
	return t.Context.Err()
}

// Whoever has waited for a lock for some time gets it soon after it is free: the pauses don't grow without an end.
func TestLockIsTakenSoonAfterALongWait(t *testing.T) {
	locks := newLocks(t, filepath.Join(t.TempDir(), "locks"))
	taken := mustLock(t, locks, one)
	ctx, cancel := context.WithTimeout(context.Background(), 10*time.Second)
	defer cancel()
	lock, err := locks.Lock(&turns{Context: ctx, call: func(turn int) {
		if turn == 9 { // the pauses before are 1, 2, 4, 8 and 16 ms, and then the longest one
			taken.Unlock()
		}
	}}, one)
	check(t, err)
	lock.Unlock()
}

func TestLockWaitsUntilItsContextIsDone(t *testing.T) {
	locks := newLocks(t, filepath.Join(t.TempDir(), "locks"))
	lock := mustLock(t, locks, one)
	defer lock.Unlock()
	before := openFiles(t)
	ctx, cancel := context.WithTimeout(context.Background(), 30*time.Millisecond)
	defer cancel()
	diff.ErrorIs(t, diff.Err(locks.Lock(ctx, one)), context.DeadlineExceeded, "Lock")
	diff.Equal(t, diff.Value(locks.TryLock(one))(t) == nil, true, "TryLock")
	diff.Equal(t, openFiles(t), before, "files open")
}

// Whoever waits for a lock rests after each try: for 1, 2, 4, 8 and 16 ms, and then for as long as the longest pause.
func TestLockRestsBetweenItsTries(t *testing.T) {
	locks := newLocks(t, filepath.Join(t.TempDir(), "locks"))
	lock := mustLock(t, locks, one)
	defer lock.Unlock()
	begun := time.Now()
	ctx, cancel := context.WithTimeout(context.Background(), 100*time.Millisecond)
	defer cancel()
	waiting := &turns{Context: ctx, call: func(int) {}}
	diff.ErrorIs(t, diff.Err(locks.Lock(waiting, one)), context.DeadlineExceeded, "")
	if most := 8 + int(time.Since(begun)/longestPause); waiting.count < 2 || waiting.count > most {
		t.Errorf("got %d tries, want from 2 to %d", waiting.count, most)
	}
}

// However long somebody has waited for a lock, the pauses stay short.
func TestPausesForALockStayShort(t *testing.T) {
	locks := newLocks(t, filepath.Join(t.TempDir(), "locks"))
	lock := mustLock(t, locks, one)
	defer lock.Unlock()
	ctx, cancel := context.WithTimeout(context.Background(), 10*time.Second)
	defer cancel()
	shortest, last := time.Hour, time.Now()
	_, err := locks.Lock(&turns{Context: ctx, call: func(turn int) {
		if gap := time.Since(last); turn > 8 && gap < shortest { // 128 ms if they went on to double
			shortest = gap
		}
		if last = time.Now(); turn == 12 {
			cancel()
		}
	}}, one)
	if shortest >= 5*longestPause || !errors.Is(err, context.Canceled) {
		t.Errorf("got pauses from %v on, and %v, want shorter ones", shortest, err)
	}
}

// openFiles returns how many files are open, without those that were deleted: the locks of an earlier test leave some
// open until they are collected as garbage.
func openFiles(t *testing.T) (count int) {
	t.Helper()
	found := diff.Value(os.ReadDir("/proc/self/fd"))(t)
	for _, entry := range found {
		path, err := os.Readlink("/proc/self/fd/" + entry.Name())
		if err == nil && !strings.HasSuffix(path, " (deleted)") {
			count++
		}
	}
	return count
}

func TestLentFile(t *testing.T) {
	path := filepath.Join(t.TempDir(), "locks")
	lock := mustLock(t, newLocks(t, path), one)
	defer lock.Unlock()
	diff.Equal(t, diff.Value(Lend(context.Background(), time.Second))(t) == nil, true, "Lend without a lock")
	lent := lend(t, lock)
	defer lent.Close()
	diff.Equal(t, lent.Name(), path, "the file")
	flags, _, errno := syscall.Syscall(syscall.SYS_FCNTL, lent.Fd(), syscall.F_GETFD, 0)
	if errno != 0 || flags&syscall.FD_CLOEXEC == 0 {
		t.Errorf("the file: got the flags %d and %v, want it closed on exec", flags, errno)
	}
}

func TestFilesThatNewRejects(t *testing.T) {
	folder := t.TempDir()
	target, link, fifo := filepath.Join(folder, "target"), filepath.Join(folder, "link"), filepath.Join(folder, "fifo")
	check(t, os.Symlink(target, link))
	check(t, syscall.Mkfifo(fifo, 0o600))
	for name, path := range map[string]string{
		"a symbolic link": link, "a fifo": fifo, "a folder": folder, "no folder": filepath.Join(folder, "none", "locks"),
	} {
		t.Run(name, func(t *testing.T) {
			diff.Error(t, diff.Err(New(path)), "New with %s", name)
		})
	}
	diff.ErrorIs(t, diff.Err(os.Lstat(target)), os.ErrNotExist, "where the link leads")
}

func TestNewCreatesAPrivateFile(t *testing.T) {
	path := filepath.Join(t.TempDir(), "locks")
	newLocks(t, path)
	found := diff.Value(os.Stat(path))(t)
	diff.Equal(t, found.Mode(), 0o600, "the mode")
	diff.Equal(t, found.Size(), 0, "the size")
}

func TestFileThatWasReplaced(t *testing.T) {
	path := filepath.Join(t.TempDir(), "locks")
	locks := newLocks(t, path)
	lock := mustLock(t, locks, one) // keeps the number of the old file from being used again
	defer lock.Unlock()
	mustLock(t, locks, two).Unlock() // leaves an open file, which the next lock would use
	check(t, os.Remove(path))
	if lock, err := locks.TryLock(one); lock != nil || !errors.Is(err, os.ErrNotExist) {
		t.Errorf("TryLock after the file was deleted: got %v, %v, want %v", lock, err, os.ErrNotExist)
	}
	newLocks(t, path)
	if lock, err := locks.TryLock(one); lock != nil || err == nil {
		t.Errorf("TryLock after the file was replaced: got %v, %v, want an error", lock, err)
	}
	if lock, err := locks.Lock(context.Background(), one); lock != nil || err == nil {
		t.Errorf("Lock after the file was replaced: got %v, %v, want an error", lock, err)
	}
	if lent, err := Lend(lock.Context(context.Background()), time.Second); lent != nil || err == nil {
		t.Errorf("Lend after the file was replaced: got %v, %v, want an error", lent, err)
	}
}

func BenchmarkLock(b *testing.B) {
	locks := diff.Value(New(filepath.Join(b.TempDir(), "locks")))(b)
	for n := 0; n < b.N; n++ {
		lock, err := locks.TryLock(one)
		if err != nil || lock == nil {
			b.Fatalf("got the lock %v, %v, want one", lock, err)
		}
		lock.Unlock()
	}
}

// roleVariable makes the test binary another process of a test: it takes the lock of the key one in the file
// pathVariable.
const roleVariable, pathVariable = "FILELOCK_TEST_ROLE", "FILELOCK_TEST_PATH"

func TestMain(m *testing.M) {
	switch role := os.Getenv(roleVariable); role {
	case "":
		os.Exit(m.Run())
	default:
		if err := play(role); err != nil {
			fmt.Fprintln(os.Stderr, err)
			os.Exit(1)
		}
	}
}

// play takes the lock, writes a line, and then keeps the lock until standard input ends: itself (holder), or by a child
// that inherits the lock and the standard input (parent).
func play(role string) error {
	locks, err := New(os.Getenv(pathVariable))
	if err != nil {
		return err
	}
	lock, err := locks.Lock(context.Background(), one)
	if err != nil {
		return err
	}
	if role == "parent" {
		lent, err := Lend(lock.Context(context.Background()), time.Second)
		if err != nil {
			return err
		}
		child := exec.Command("cat")
		child.Stdin = os.Stdin
		child.ExtraFiles = []*os.File{lent}
		if err := child.Start(); err != nil {
			return err
		}
	}
	fmt.Println("locked")
	_, err = io.Copy(io.Discard, os.Stdin)
	return err
}

// A process is the test binary in a role.
type process struct {
	cmd   *exec.Cmd
	input io.Closer
}

// start starts the test binary in a role, and returns once it has the lock.
func start(t *testing.T, role, path string) process {
	t.Helper()
	cmd := exec.Command(os.Args[0])
	cmd.Env = append(os.Environ(), roleVariable+"="+role, pathVariable+"="+path)
	cmd.Stderr = os.Stderr
	// A pipe whose other end the child inherits: the child of a killed process reads from it too.
	read, write, err := os.Pipe()
	check(t, err)
	cmd.Stdin = read
	output := diff.Value(cmd.StdoutPipe())(t)
	check(t, cmd.Start())
	_ = read.Close()
	t.Cleanup(func() { _ = write.Close(); _ = cmd.Process.Kill(); _ = cmd.Wait() })
	if line, err := bufio.NewReader(output).ReadString('\n'); line != "locked\n" {
		t.Fatalf("the process %s: got %q, %v, want \"locked\"", role, line, err)
	}
	return process{cmd: cmd, input: write}
}

func TestProcessesExcludeEachOther(t *testing.T) {
	path := filepath.Join(t.TempDir(), "locks")
	locks := newLocks(t, path)
	other := start(t, "holder", path)
	diff.Equal(t, isFree(t, locks, one), false, "the lock of another process")
	diff.Equal(t, isFree(t, locks, two), true, "the lock of another key")
	_ = other.input.Close() // the other process exits
	mustLock(t, locks, one).Unlock()
}

func TestLockEndsWithItsProcess(t *testing.T) {
	path := filepath.Join(t.TempDir(), "locks")
	locks := newLocks(t, path)
	other := start(t, "holder", path)
	kill(t, other.cmd)
	diff.Equal(t, isFree(t, locks, one), true, "the lock of a process that was killed")
}

func TestChildKeepsTheLockOfAKilledProcess(t *testing.T) {
	path := filepath.Join(t.TempDir(), "locks")
	locks := newLocks(t, path)
	parent := start(t, "parent", path)
	kill(t, parent.cmd)
	diff.Equal(t, isFree(t, locks, one), false, "the lock that a child has")
	_ = parent.input.Close() // the child exits
	mustLock(t, locks, one).Unlock()
}

// kill kills a process, and returns once it has ended.
func kill(t *testing.T, cmd *exec.Cmd) {
	t.Helper()
	check(t, cmd.Process.Signal(syscall.SIGKILL))
	_ = cmd.Wait()
}

func TestChildKeepsTheLockAfterUnlock(t *testing.T) {
	locks := newLocks(t, filepath.Join(t.TempDir(), "locks"))
	lock := mustLock(t, locks, one)
	child, end := catWith(t, lock)
	lock.Unlock()
	diff.Equal(t, isFree(t, locks, one), false, "the lock that a child has")
	_ = end.Close()
	_ = child.Wait()
	diff.Equal(t, isFree(t, locks, one), true, "the lock after the child has ended")
}

func TestOtherChildrenDoNotInherit(t *testing.T) {
	locks := newLocks(t, filepath.Join(t.TempDir(), "locks"))
	lock := mustLock(t, locks, one)
	child, end := catWith(t, nil)
	lock.Unlock()
	diff.Equal(t, isFree(t, locks, one), true, "a lock that wasn't lent to the child")
	_ = end.Close()
	_ = child.Wait()
}

// A lock is free once Unlock has returned, even while other goroutines start processes: between fork and exec, those
// have all files open.
func TestUnlockWhileProcessesStart(t *testing.T) {
	locks := newLocks(t, filepath.Join(t.TempDir(), "locks"))
	done := make(chan error)
	go func() {
		defer close(done)
		for n := 0; n < 100; n++ {
			if err := exec.Command("true").Run(); err != nil {
				done <- err
				return
			}
		}
	}()
	for {
		select {
		case err := <-done:
			diff.NoError(t, err, "")
			return
		default:
			if !isFree(t, locks, one) {
				t.Error("a lock that was unlocked: got it taken, want it free")
				<-done
				return
			}
		}
	}
}

// catWith starts a process that inherits a lock, if there is one. It runs until its input is closed.
func catWith(t *testing.T, lock *Lock) (*exec.Cmd, io.Closer) {
	t.Helper()
	child := exec.Command("cat")
	if lock != nil {
		lent := lend(t, lock)
		defer lent.Close()
		child.ExtraFiles = []*os.File{lent}
	}
	input := diff.Value(child.StdinPipe())(t)
	check(t, child.Start())
	return child, input
}

// lend lends a lock. It fails if that isn't possible within ten seconds.
func lend(t *testing.T, lock *Lock) *os.File {
	t.Helper()
	return diff.Value(Lend(lock.Context(context.Background()), 10*time.Second))(t)
}

// While a child has the lock, it isn't lent to another one, and nobody else gets it. Afterwards it is lent again.
func TestLendToOneChildAtATime(t *testing.T) {
	locks := newLocks(t, filepath.Join(t.TempDir(), "locks"))
	lock := mustLock(t, locks, one)
	defer lock.Unlock()
	child, end := catWith(t, lock)
	lent, err := Lend(lock.Context(context.Background()), 20*time.Millisecond)
	if lent != nil || !errors.Is(err, ErrLent) {
		t.Errorf("Lend while a child has the lock: got %v, %v, want %v", lent, err, ErrLent)
	}
	stopped, stop := context.WithCancel(context.Background())
	stop()
	if lent, err := Lend(lock.Context(stopped), time.Minute); lent != nil || !errors.Is(err, context.Canceled) {
		t.Errorf("Lend with a context that is done: got %v, %v, want %v", lent, err, context.Canceled)
	}
	diff.Equal(t, isFree(t, locks, one), false, "the lock after Lend has failed")
	_ = end.Close()
	_ = child.Wait()
	_ = lend(t, lock).Close()
}

// Lend waits for the end of the child that the lock was lent to.
func TestLendWaits(t *testing.T) {
	lock := mustLock(t, newLocks(t, filepath.Join(t.TempDir(), "locks")), one)
	defer lock.Unlock()
	child, end := catWith(t, lock)
	go func() {
		time.Sleep(20 * time.Millisecond)
		_ = end.Close()
	}()
	_ = lend(t, lock).Close()
	diff.NoError(t, child.Wait(), "")
}

// Nobody else gets a lock while its holder lends it and takes it back, again and again.
func TestLockStaysWhileItIsLent(t *testing.T) {
	path := filepath.Join(t.TempDir(), "locks")
	lock := mustLock(t, newLocks(t, path), one)
	others := newLocks(t, path)
	done := make(chan struct{})
	tried := make(chan int)
	go func() {
		count := 0
		defer func() { tried <- count }()
		for {
			select {
			case <-done:
				return
			default:
			}
			taken, err := others.TryLock(one)
			if taken != nil || err != nil {
				t.Errorf("TryLock after %d tries: got %v, %v, want none", count, taken, err)
				return
			}
			count++
		}
	}()
	for n := 0; n < 2000; n++ {
		_ = lend(t, lock).Close()
	}
	close(done)
	t.Logf("the other goroutine tried %d times", <-tried)
	lock.Unlock()
	mustLock(t, others, one).Unlock()
}

var check = diff.Must
