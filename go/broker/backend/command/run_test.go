package command

import (
	"context"
	"encoding/json"
	"errors"
	"fmt"
	"io"
	"net/http"
	"os"
	"path/filepath"
	"strconv"
	"strings"
	"syscall"
	"testing"
	"time"

	"pippinterm/broker"
	"pippinterm/internal/diff"
	"pippinterm/internal/filelock"
	"pippinterm/internal/waits"
)

func TestMostOutput(t *testing.T) {
	backend := newBackend(t, Options{}, `head -c $BYTES /dev/zero | tr '\0' ' '; eval "$THEN"`)
	for _, c := range []struct {
		bytes, then string
		isTooLong   bool
	}{{"1048576", "", false}, {"1048577", "", true}, {"1048577", "exec yes", true}} {
		t.Run(c.bytes+" bytes "+c.then, func(t *testing.T) {
			backend.environment = append(backend.environment, "BYTES="+c.bytes, "THEN="+c.then)
			if err := backend.Create(ctx, instance); errors.Is(err, errTooLong) != c.isTooLong || (err != nil) != c.isTooLong {
				t.Errorf("after %s bytes %s: Create got %v, want %v only if it is too long", c.bytes, c.then, err, errTooLong)
			}
		})
	}
}

// The text is written before the disk is waited for: a pipe takes a text, and has no disk.
func TestWriteSynced(t *testing.T) {
	read, write, err := os.Pipe()
	diff.NoError(t, err, "")
	defer read.Close()
	diff.ErrorIs(t, writeSynced(write, "name\n"), syscall.EINVAL, "a disk that can't be waited for")
	diff.NoError(t, write.Close(), "")
	text, err := io.ReadAll(read)
	diff.NoError(t, err, "")
	diff.Equal(t, string(text), "name\n", "the text")
	diff.ErrorIs(t, writeSynced(write, "name\n"), os.ErrClosed, "a closed file")
}

func TestEndOfStandardError(t *testing.T) {
	backend := newBackend(t, Options{}, `head -c 1000000 /dev/zero | tr '\0' a >&2; printf end >&2; exit 1`)
	err := backend.Create(ctx, instance)
	if err == nil || !strings.HasSuffix(err.Error(), strings.Repeat("a", keptErrors-3)+"end") {
		t.Fatalf("Create: got %.100v, want the end of its errors", err)
	}
	diff.Lacks(t, err.Error(), strings.Repeat("a", keptErrors), "the end of its errors")
}

// What a run may take, and what the supervisor of a run adds: it kills the run a few seconds after the broker would have.
func TestLimitsOfTheSupervisor(t *testing.T) {
	for limit, want := range map[time.Duration]string{0: "305.000", 90 * time.Second: "95.000"} {
		t.Run(want, func(t *testing.T) {
			backend := newBackend(t, Options{Limit: limit}, "")
			diff.Equal(t, backend.command("create", nil, nil).Args[2], want, "")
		})
	}
}

// A program may leave the input unread, though it is larger than what a pipe takes.
func TestInputThatIsNotRead(t *testing.T) {
	request := instance
	request.Body = json.RawMessage(`{"parameters": {"x": "` + strings.Repeat("x", 1<<20) + `"}}`)
	diff.NoError(t, newBackend(t, Options{}, `exec <&-`).Create(ctx, request), "Create")
	diff.NoError(t, newBackend(t, Options{}, `[ $(cat | wc -c) -gt 1048576 ]`).Create(ctx, request),
		"a program that reads it")
}

// A process that runs on, such as a server that is sold, may have the input open.
func TestInputThatStaysOpen(t *testing.T) {
	request := instance
	request.Body = json.RawMessage(`{"parameters": {"x": "` + strings.Repeat("x", 1<<20) + `"}}`)
	const text = `exec 4<&0; sleep 600 <&4 >/dev/null 2>&1 3>&- & echo $! >pid`
	backend := newBackend(t, Options{Limit: 20 * time.Second}, text)
	diff.NoError(t, backend.Create(ctx, request), "Create")
	check(t, syscall.Kill(pidOf(t, backend), syscall.SIGKILL)) // it still runs
}

// A run isn't over before the program has exited and its outputs are closed.
func TestEndOfARun(t *testing.T) {
	const work = `echo >"$OSB_STATE/started"; read line <"$OSB_STATE/go"; : >"$OSB_STATE/done"`
	for name, text := range map[string]string{
		"a program that has closed its outputs": "exec >&- 2>&-; " + work,
		"a child that has the outputs open":     "{ " + work + "; } &",
	} {
		t.Run(name, func(t *testing.T) {
			backend := newBackend(t, Options{}, text)
			started, goOn := fifo(t, backend.state+"/started"), fifo(t, backend.state+"/go")
			ended := waits.Begin(func() error { return backend.Create(ctx, instance) })
			read(t, started)
			select {
			case err := <-ended:
				t.Errorf("Create returned while the work was going on: got %v, want it to wait", err)
			case <-time.After(50 * time.Millisecond):
			}
			diff.Value(goOn.WriteString("go\n"))(t)
			diff.NoError(t, <-ended, "Create")
			diff.NoError(t, diff.Err(os.Stat(backend.state+"/done")), "Create before the work was done")
		})
	}
}

// fifo creates a fifo and opens it. Neither reading nor writing it waits for another process to open it.
func fifo(t *testing.T, path string) *os.File {
	t.Helper()
	check(t, syscall.Mkfifo(path, 0o600))
	file := diff.Value(os.OpenFile(path, os.O_RDWR, 0))(t)
	t.Cleanup(func() { _ = file.Close() })
	return file
}

// forked is a text in sh that starts a process, which lets the lock go only when it is killed.
const forked = `sleep 1000 >/dev/null 2>&1 </dev/null & `

// After the limit, the program and the processes that it has started are killed.
func TestLimit(t *testing.T) {
	for name, text := range map[string]string{
		"a child": forked + "wait", "outputs that are closed": "exec >&- 2>&-; exec sleep 1000",
	} {
		t.Run(name, func(t *testing.T) {
			backend := newBackend(t, Options{Limit: time.Minute}, text)
			backend.limit = 200 * time.Millisecond
			lock := mustLock(t, backend.Locks())
			err := backend.Create(lock.Context(ctx), instance)
			lock.Unlock()
			diff.ErrorContains(t, err, "it ran longer than 200ms", "Create")
			mustLock(t, backend.Locks()).Unlock() // the sleep has ended
		})
	}
}

// mustLock returns the lock of the instance. It fails if it has to wait for more than a minute.
func mustLock(t *testing.T, locks broker.Locks) broker.Lock {
	t.Helper()
	limited, cancel := context.WithTimeout(ctx, time.Minute)
	defer cancel()
	return diff.Value(locks.Lock(limited, instance.Key))(t)
}

// If the broker stops, the program is killed.
func TestCancel(t *testing.T) {
	backend := newBackend(t, Options{}, `echo >"$OSB_STATE/started"; `+forked+"wait")
	started := fifo(t, backend.state+"/started")
	lock := mustLock(t, backend.Locks())
	diff.ErrorIs(t, canceledCreate(t, backend, lock, started), context.Canceled, "Create")
	lock.Unlock()
	mustLock(t, backend.Locks()).Unlock()
}

// read reads a byte. It fails if there is none within ten seconds.
func read(t *testing.T, file *os.File) {
	t.Helper()
	check(t, file.SetReadDeadline(time.Now().Add(10*time.Second)))
	diff.Value(file.Read(make([]byte, 1)))(t)
}

// A process that has left the group isn't killed. As long as it has the lock or an output open, no other call begins,
// and nobody gets the lock.
func TestProcessThatLeftTheGroup(t *testing.T) {
	const work = `setsid sh -c 'echo >"$OSB_STATE/started"; read line <"$OSB_STATE/go"' `
	for name, c := range map[string]struct{ text, says string }{
		"with the lock": {work + ">/dev/null 2>&1 & wait", "context canceled"},
		"with outputs":  {work + "3>&- & wait", "context canceled; a process that left the process group still runs"},
	} {
		t.Run(name, func(t *testing.T) {
			backend := newBackend(t, Options{Limit: 20 * time.Second}, c.text)
			backend.grace = 50 * time.Millisecond
			started, goOn := fifo(t, backend.state+"/started"), fifo(t, backend.state+"/go")
			lock := mustLock(t, backend.Locks())
			err := canceledCreate(t, backend, lock, started)
			diff.ErrorIs(t, err, context.Canceled, "Create")
			diff.HasSuffix(t, fmt.Sprint(err), c.says, "Create")
			there, err := backend.Look(lock.Context(ctx), instance)
			diff.Equal(t, there, broker.None, "Look while the process runs")
			diff.ErrorIs(t, err, filelock.ErrLent, "Look while the process runs")
			lock.Unlock()
			diff.Equal(t, diff.Value(backend.Locks().TryLock(ctx, instance.Key))(t) == nil, true,
				"the lock of a process that still runs")
			diff.Value(io.WriteString(goOn, "go\n"))(t)
			mustLock(t, backend.Locks()).Unlock()
		})
	}
}

// canceledCreate calls Create with a context that is done once the program has started, and returns the error.
func canceledCreate(t *testing.T, backend bindingsWithCredentials, lock broker.Lock, started *os.File) error {
	t.Helper()
	stopping, stop := context.WithCancel(lock.Context(ctx))
	defer stop()
	ended := waits.Begin(func() error { return backend.Create(stopping, instance) })
	read(t, started)
	stop()
	return <-ended
}

// A server that is sold and has the lock open keeps the next call from beginning, though the program has succeeded.
func TestServerThatHasTheLock(t *testing.T) {
	backend := newBackend(t, Options{}, `case $1 in
		create) sleep 600 >/dev/null 2>&1 & echo $! >pid ;;
		look) echo '{"exists": "whole"}' ;;
	esac`)
	backend.grace = 20 * time.Millisecond
	lock := mustLock(t, backend.Locks())
	defer lock.Unlock()
	check(t, backend.Create(lock.Context(ctx), instance))
	there, err := backend.Look(lock.Context(ctx), instance)
	diff.Equal(t, there, broker.None, "Look while the server runs")
	diff.ErrorIs(t, err, filelock.ErrLent, "Look while the server runs")
	check(t, syscall.Kill(pidOf(t, backend), syscall.SIGKILL))
	backend.grace = 10 * time.Second
	diff.Equal(t, diff.Value(backend.Look(lock.Context(ctx), instance))(t), broker.Whole,
		"Look after the server has ended")
}

// pidOf returns the number that the program has written to its file pid.
func pidOf(t *testing.T, backend bindingsWithCredentials) int {
	t.Helper()
	text := diff.Value(os.ReadFile(filepath.Join(backend.state, "pid")))(t)
	return diff.Value(strconv.Atoi(strings.TrimSpace(string(text))))(t)
}

// Once its context is done, no call begins.
func TestCallThatDoesNotBegin(t *testing.T) {
	backend := newBackend(t, Options{}, "")
	stopped, stop := context.WithCancel(ctx)
	stop()
	err := backend.Create(stopped, instance)
	diff.ErrorIs(t, err, context.Canceled, "Create")
	diff.Lacks(t, fmt.Sprint(err), "killed", "Create")
}

// A run without a lock has no descriptor 3.
func TestDescriptors(t *testing.T) {
	backend := newBackend(t, Options{}, `[ -e /proc/$$/fd/3 ] && echo '{"exists": "whole"}' || echo '{"exists": "none"}'`)
	lock := mustLock(t, backend.Locks())
	defer lock.Unlock()
	diff.Equal(t, diff.Value(backend.Look(ctx, instance))(t), broker.None, "Look without a lock")
	diff.Equal(t, diff.Value(backend.Look(lock.Context(ctx), instance))(t), broker.Whole, "Look with a lock")
}

// Runs leave neither open files nor children behind, also if they don't begin.
func TestRunsLeaveNothing(t *testing.T) {
	backend := newBackend(t, Options{}, "exit 1")
	lock := mustLock(t, backend.Locks())
	defer lock.Unlock()
	before := openFiles(t)
	for n := 0; n < 5; n++ {
		_ = backend.Create(lock.Context(ctx), instance)
	}
	backend.path += "-that-does-not-exist"
	err := backend.Create(lock.Context(ctx), instance)
	diff.ErrorContains(t, err, "exit status 127: ", "a program that was deleted")
	backend.timeout += "-that-does-not-exist"
	diff.ErrorIs(t, backend.Create(lock.Context(ctx), instance), os.ErrNotExist, "without the command timeout")
	lent := diff.Value(filelock.Lend(lock.Context(ctx), time.Minute))(t)
	backend.grace = 10 * time.Millisecond
	diff.ErrorIs(t, backend.Create(lock.Context(ctx), instance), filelock.ErrLent, "with a lock that is lent")
	check(t, lent.Close())
	diff.Equal(t, openFiles(t), before, "files open")
	diff.ErrorIs(t, diff.Err(syscall.Wait4(-1, nil, syscall.WNOHANG, nil)), syscall.ECHILD, "the children")
}

// openFiles returns how many files are open, without those that were deleted: the locks of an earlier test leave some
// open until they are collected as garbage.
func openFiles(t *testing.T) (count int) {
	t.Helper()
	found := diff.Value(os.ReadDir("/proc/self/fd"))(t)
	for _, entry := range found {
		path, err := os.Readlink("/proc/self/fd/" + entry.Name())
		if err == nil && !strings.HasSuffix(path, " (deleted)") {
			count++
		}
	}
	return count
}

// What a run that failed has left in the background is killed, whatever made it fail.
func TestFailureEndsTheGroup(t *testing.T) {
	for name, end := range map[string]string{
		"a status": "exit 1", "no JSON": "echo done", "too much output": `head -c 1048577 /dev/zero | tr '\0' ' '`,
	} {
		t.Run(name, func(t *testing.T) {
			backend := newBackend(t, Options{}, "sleep 600 >/dev/null 2>&1 3>&- & echo $! >pid; "+end)
			diff.Error(t, backend.Create(ctx, instance), "create")
			waitForEnd(t, pidOf(t, backend))
		})
	}
}

// What a look has left that reports no existence is killed too.
func TestBadResultEndsTheGroup(t *testing.T) {
	backend := newBackend(t, Options{}, `sleep 600 >/dev/null 2>&1 3>&- & echo $! >pid; echo '{"exists": "no"}'`)
	diff.Error(t, diff.Err(backend.Look(ctx, instance)), "look")
	waitForEnd(t, pidOf(t, backend))
}

// waitForEnd returns once a process has ended. It fails if that takes longer than a minute.
func waitForEnd(t *testing.T, pid int) {
	t.Helper()
	for end := time.Now().Add(time.Minute); ; time.Sleep(time.Millisecond) {
		stat, err := os.ReadFile("/proc/" + strconv.Itoa(pid) + "/stat")
		if err != nil || strings.Contains(string(stat), ") Z ") {
			return
		}
		if time.Now().After(end) {
			t.Fatal("got the process running after the time for it, want its end")
		}
	}
}

// hasty has a limit of its own for creations. Looks keep the long one.
type hasty struct {
	bindingsWithCredentials
	limit time.Duration
}

func (h hasty) Create(ctx context.Context, request broker.Request) error {
	limited := *h.program
	limited.limit = h.limit
	return instances{program: &limited}.Create(ctx, request)
}

// failures keeps what a broker reports.
type failures struct {
	broker.Silent
	all []broker.Failure
}

func (f *failures) OnFailure(failure broker.Failure) { f.all = append(f.all, failure) }

// A creation that runs longer than its limit is killed. If nothing is left that could go on, the work ends: look finds
// nothing, and that is reported.
func TestWorkOverTheLimitEnds(t *testing.T) {
	backend := newBackend(t, Options{}, `case $1 in
		look) [ -e resource ] && echo '{"exists": "whole"}' || echo '{"exists": "none"}' ;;
		create) `+forked+`wait; : >resource ;;
		*) exit 5 ;;
	esac`)
	reported := &failures{}
	b := benchOf(t, hasty{backend, 200 * time.Millisecond}, reported)
	diff.Equal(t, diff.Value(b.Handle(ctx, provision(t)))(t).Status, http.StatusInternalServerError, "the Provision")
	snapshot := diff.Value(b.store.Read(ctx, instance.Key))(t)
	if row, isHeld := snapshot.Holding.Row(); isHeld || isPending(snapshot) {
		t.Errorf("in the end: got %v in the store, want none", row)
	}
	diff.ErrorIs(t, diff.Err(os.Stat(backend.state+"/resource")), os.ErrNotExist, "the run after its limit")
	if len(reported.all) != 1 || !strings.HasSuffix(reported.all[0].Err.Error(), "it ran longer than 200ms") {
		t.Errorf("the reports: got %v, want one of the limit", reported.all)
	}
}

// If a process that has left the group still has the lock after the limit, nobody knows what it will do. The work stays
// pending until that process has ended.
func TestWorkOverTheLimitStaysPending(t *testing.T) {
	for limit := 500 * time.Millisecond; !isPendingAfter(t, limit); limit *= 2 {
		if limit > time.Minute {
			t.Fatal("got no process out of the group within a minute, want one")
		}
	}
}

// isPendingAfter returns false if the run was killed before its process had left the group.
func isPendingAfter(t *testing.T, limit time.Duration) bool {
	t.Helper()
	backend := newBackend(t, Options{}, `case $1 in
		look) [ -e resource ] && echo '{"exists": "whole"}' || echo '{"exists": "none"}' ;;
		create)
			setsid sh -c 'echo >left; read line <go; : >resource' >/dev/null 2>&1 &
			exec sleep 1000 ;;
		*) exit 5 ;;
	esac`)
	backend.grace = 200 * time.Millisecond
	left, goOn := fifo(t, backend.state+"/left"), fifo(t, backend.state+"/go")
	b := benchOf(t, hasty{backend, limit}, broker.Silent{})
	response, err := b.Handle(ctx, provision(t))
	check(t, left.SetReadDeadline(time.Now().Add(time.Millisecond)))
	if _, late := left.Read(make([]byte, 1)); errors.Is(late, os.ErrDeadlineExceeded) {
		return false
	}
	if !errors.Is(err, broker.ErrNobodyKnows) || !strings.Contains(err.Error(), filelock.ErrLent.Error()) ||
		!strings.Contains(err.Error(), "it ran longer than") {
		t.Errorf("the Provision: got %v, %v, want %v", response, err, filelock.ErrLent)
	}
	b.isEndedAfter(t, goOn)
	return true
}
