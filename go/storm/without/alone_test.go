//go:build storm

package without

import (
	"fmt"
	"io"
	"os"
	"os/exec"
	"path/filepath"
	"strings"
	"syscall"
	"testing"
	"time"

	"pippinterm/internal/diff"
)

func openAlone(t *testing.T, path string) *os.File {
	t.Helper()
	file := diff.Value(os.OpenFile(path, os.O_RDWR|os.O_CREATE, 0o600))(t)
	t.Cleanup(func() { file.Close() })
	return file
}

// ended returns the number of a process that has ended.
func ended(t *testing.T) string {
	t.Helper()
	process := exec.Command("true")
	diff.NoError(t, process.Run(), "true")
	return fmt.Sprintln(process.Process.Pid)
}

// A worker is alone unless another has the lock that lives, or began meanwhile.
func TestEnter(t *testing.T) {
	gone, living := ended(t), fmt.Sprintln(os.Getpid())
	for _, test := range []struct {
		name, before, after string // what the file says that another has locked, and what it says once it is free
		want                bool
	}{
		{"a process that was killed", gone, gone, true},
		{"one that lives", living, living, false},
		{"one that has not said who it is", "", "", false},
		{"one that had not yet written itself over one that was killed, and is done", gone, "", false},
		{"the same, and it works", gone, living, false},
	} {
		t.Run(test.name, func(t *testing.T) {
			path := filepath.Join(t.TempDir(), "key")
			other := openAlone(t, path)
			check(t, lock(other, syscall.LOCK_EX))
			check(t, os.WriteFile(path, []byte(test.before), 0o600))
			file, got := openAlone(t, path), make(chan bool)
			go func() {
				isAlone, err := enter(file)
				diff.NoError(t, err, "enter")
				got <- isAlone
			}()
			if test.before != gone {
				diff.Equal(t, <-got, test.want, "whether it is alone")
				return
			}
			waitUntilAwaited(t, other)
			check(t, os.WriteFile(path, []byte(test.after), 0o600))
			check(t, other.Close())
			diff.Equal(t, <-got, test.want, "whether it is alone")
		})
	}
}

// waitUntilAwaited returns once somebody waits for the lock of a file.
func waitUntilAwaited(t *testing.T, file *os.File) {
	t.Helper()
	inode := fmt.Sprintf(":%d ", diff.Value(file.Stat())(t).Sys().(*syscall.Stat_t).Ino)
	for {
		for _, line := range strings.Split(string(diff.Value(os.ReadFile("/proc/locks"))(t)), "\n") {
			if strings.Contains(line, "->") && strings.Contains(line, inode) {
				return
			}
		}
		time.Sleep(time.Millisecond)
	}
}

// Who has entered stands in the file until he leaves.
func TestEnterAndLeave(t *testing.T) {
	path := filepath.Join(t.TempDir(), "key")
	file := openAlone(t, path)
	for _, before := range []string{"", ended(t) + "and more"} {
		check(t, os.WriteFile(path, []byte(before), 0o600))
		diff.Equal(t, diff.Value(enter(file))(t), true, "whether it is alone")
		diff.Equal(t, string(diff.Value(os.ReadFile(path))(t)), fmt.Sprintln(os.Getpid()), "the file of who works")
		diff.Equal(t, diff.Value(enter(openAlone(t, path)))(t), false, "whether another is alone")
		check(t, leave(file))
		diff.Equal(t, string(diff.Value(os.ReadFile(path))(t)), "", "the file of nobody")
		_ = diff.Value(file.Seek(0, io.SeekStart))(t)
	}
}

// A process is ending once its files are closed, while its parent doesn't know yet.
func TestIsEnding(t *testing.T) {
	process := exec.Command("sh", "-c", "read line; true")
	in := diff.Value(process.StdinPipe())(t)
	out := diff.Value(process.StdoutPipe())(t)
	check(t, process.Start())
	number := fmt.Sprint(process.Process.Pid)
	diff.Equal(t, diff.Value(isEnding(number))(t), false, "one that runs")
	check(t, in.Close())
	_ = diff.Value(io.ReadAll(out))(t)
	diff.Equal(t, diff.Value(isEnding(number))(t), true, "one whose files are closed")
	check(t, process.Wait())
	diff.Equal(t, diff.Value(isEnding(number))(t), true, "one that has ended")
	diff.Equal(t, diff.Value(isEnding(""))(t), false, "no number")
	diff.Error(t, diff.Err(isEnding("net")), "what is no process")
	diff.Error(t, diff.Err(flagsIn("1 (a) b) R 1 2 3 4 5")), "a text without flags")
	diff.Equal(t, diff.Value(flagsIn("1 (a) b) R 1 2 3 -4 5 4194308 6"))(t), 4194308, "the flags")
}
