// Package child starts processes that end with this one, and waits for the end and the output of processes.
package child

import (
	"os"
	"os/exec"
	"runtime"
	"syscall"
	"time"
	"unsafe"
)

// Start starts a process, and waits for its end in a goroutine. A terminal's signals don't reach the process. If this
// process ends before, the process gets the signal. ended has the result of Wait, and is closed then.
func Start(process *exec.Cmd, atDeath syscall.Signal) (ended <-chan error, err error) {
	if process.SysProcAttr == nil {
		process.SysProcAttr = &syscall.SysProcAttr{}
	}
	process.SysProcAttr.Setpgid, process.SysProcAttr.Pdeathsig = true, atDeath
	started, end := make(chan error, 1), make(chan error, 1)
	go func() {
		// Linux sends the signal once the thread has ended that has started the process, so that thread waits for the
		// process, too.
		runtime.LockOSThread()
		defer runtime.UnlockOSThread()
		defer close(end)
		err := process.Start()
		started <- err
		if err == nil {
			end <- process.Wait()
		}
	}()
	return end, <-started
}

// AwaitExit returns how a child has exited, once it has. It leaves the child to be reaped: until then no other process
// gets its id, which may also be that of its group.
func AwaitExit(pid int) (syscall.WaitStatus, error) {
	const thisProcess, exited = 1, 1 // P_PID and CLD_EXITED of Linux, which package syscall doesn't have
	var info struct {                // the beginning of siginfo_t, which has 128 bytes
		signal, errno, code, _ int32
		pid, uid, status       int32
		_                      [100]byte
	}
	err := syscall.EINTR
	for err == syscall.EINTR {
		_, _, err = syscall.Syscall6(syscall.SYS_WAITID, thisProcess, uintptr(pid), uintptr(unsafe.Pointer(&info)),
			syscall.WEXITED|syscall.WNOWAIT, 0, 0)
	}
	switch {
	case err != 0:
		return 0, os.NewSyscallError("waitid", err)
	case info.code == exited:
		return syscall.WaitStatus(info.status << 8), nil
	}
	return syscall.WaitStatus(info.status), nil // the number of a signal
}

// IsClosed reports whether a channel is closed within some time.
func IsClosed(done <-chan struct{}, within time.Duration) bool {
	select {
	case <-done:
		return true
	default:
	}
	timer := time.NewTimer(within)
	defer timer.Stop()
	select {
	case <-done:
		return true
	case <-timer.C:
		return false
	}
}

// A Tail is the end of what is written to it.
type Tail struct {
	Most  int // how many bytes it has at most
	Text  []byte
	IsCut bool // the text begins within a line
}

// Write keeps the last bytes.
func (t *Tail) Write(text []byte) (int, error) {
	t.Text = append(t.Text, text...)
	if over := len(t.Text) - t.Most; over > 0 {
		t.IsCut = t.Text[over-1] != '\n'
		t.Text = append(t.Text[:0], t.Text[over:]...)
	}
	return len(text), nil
}
