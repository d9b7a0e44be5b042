package folders

import (
	"context"
	"errors"
	"io/fs"
	"os"
	"runtime"
	"sync"
	"syscall"
)

// exists reports whether a path exists. It doesn't follow a symbolic link. If nobody can tell, it fails.
func exists(path string) (bool, error) {
	var found syscall.Stat_t
	err := syscall.Lstat(path, &found)
	if err == syscall.ENOENT {
		return false, nil
	}
	if err != nil {
		return false, &os.PathError{Op: "lstat", Path: path, Err: err}
	}
	return true, nil
}

// removeFile removes a file, unless it doesn't exist.
func removeFile(path string) error {
	if err := os.Remove(path); !errors.Is(err, fs.ErrNotExist) {
		return err
	}
	return nil
}

// renameFolder renames a folder to a name that doesn't exist. os.Rename would look once more whether it does.
func renameFolder(from, to string) error {
	err := syscall.Rename(from, to)
	for err == syscall.EINTR {
		err = syscall.Rename(from, to)
	}
	if err != nil {
		return &os.LinkError{Op: "rename", Old: from, New: to, Err: err}
	}
	return nil
}

// writeFile writes a file with mode 0600, and returns once its content is on disk. If it fails, the file may exist with
// a part of its content.
func writeFile(path string, text []byte) error {
	return with(path, syscall.O_WRONLY|syscall.O_CREAT|syscall.O_TRUNC|syscall.O_NOFOLLOW, func(file int) (string, error) {
		n, err := syscall.Write(file, text)
		if err == nil && n < len(text) {
			err = syscall.ENOSPC
		}
		if err != nil {
			return "write", err
		}
		return "fsync", syscall.Fsync(file)
	})
}

// syncFolder returns once a folder is on disk, with the names in it.
func syncFolder(folder string) error {
	return with(folder, syscall.O_RDONLY|syscall.O_DIRECTORY, func(file int) (string, error) {
		return "fsync", syscall.Fsync(file)
	})
}

// with opens a file, calls, and closes the file. It doesn't use os.OpenFile, which would register the file with the
// poller of the runtime. The call returns the name of what it did last.
func with(path string, flags int, call func(file int) (string, error)) error {
	file, err := syscall.Open(path, flags|syscall.O_CLOEXEC, 0o600)
	if err != nil {
		return &os.PathError{Op: "open", Path: path, Err: err}
	}
	operation, err := call(file)
	if wrong := syscall.Close(file); err == nil && wrong != nil {
		operation, err = "close", wrong
	}
	if err != nil {
		return &os.PathError{Op: operation, Path: path, Err: err}
	}
	return nil
}

// together shares a call among all who ask for it before it begins: one fsync of a folder for many changes in it. One
// of those who wait makes the call, for all of them.
type together struct {
	call    func() error
	running chan struct{} // holds a value while somebody makes the call

	turn sync.Mutex
	next *round // the call that begins next, if anybody waits for it
}

// A round is one call.
type round struct {
	err  error // to be read once done is closed
	done chan struct{}
}

func (t *together) init(call func() error) { t.call, t.running = call, make(chan struct{}, 1) }

// do returns once a call that began after do was called has ended. It returns the error of that call.
//
// Errors: those of the call, and that of ctx if ctx is done before.
func (t *together) do(ctx context.Context) error {
	mine := t.join()
	select {
	case <-mine.done:
		return mine.err
	case <-ctx.Done():
		return ctx.Err()
	case t.running <- struct{}{}:
	}
	defer func() { <-t.running }()
	select {
	case <-mine.done:
	default: // nobody else can begin it now, so it is the next one
		runtime.Gosched() // lets those join who are about to. If no goroutine can run, that takes no time
		t.begin()
		mine.err = t.call()
		close(mine.done)
	}
	return mine.err
}

// join returns the call that begins next.
func (t *together) join() *round {
	t.turn.Lock()
	defer t.turn.Unlock()
	if t.next == nil {
		t.next = &round{done: make(chan struct{})}
	}
	return t.next
}

// begin makes whoever joins from now on wait for another call.
func (t *together) begin() {
	t.turn.Lock()
	defer t.turn.Unlock()
	t.next = nil
}
