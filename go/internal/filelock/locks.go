//go:build linux

// Package filelock has locks for the processes of one machine, all in one file.
//
// A lock is two bytes of the file, locked for one open of the file (F_OFD_SETLK of Linux). So two goroutines of one
// process exclude each other, as two processes do, and a lock ends with its process.
//
// Lend opens the file once more, and moves the second byte to that open file, for a child process to inherit. The
// second byte is locked until every process that has inherited the file has exited or closed it, even if the process
// that took the lock is killed. Whoever takes a lock needs both bytes. So nobody takes a lock that somebody else has,
// or that a child of an earlier holder has. The holder keeps the first byte, so it can lend the second one to one child
// after another, and knows by the second byte whether the last child has ended.
//
// The locks are for local file systems. On a network file system, another machine may not see them.
package filelock

import (
	"context"
	"crypto/sha256"
	"encoding/binary"
	"errors"
	"fmt"
	"os"
	"syscall"
	"time"
)

// setLock is F_OFD_SETLK of Linux (fcntl.h), which package syscall doesn't have.
const setLock = 37

// Whoever waits tries again after shortestPause at first, and after longestPause at most.
const (
	shortestPause = time.Millisecond
	longestPause  = 20 * time.Millisecond
)

// ErrLent reports that a process still has an open file that Lend has returned before.
var ErrLent = errors.New("a process still has the lock that it inherited")

// mostSpare is how many open files without a lock are kept at most.
const mostSpare = 64

// Locks are locks of keys in one file. Any number of goroutines and processes use the file at once. A lock ends only by
// Unlock, or with its process.
type Locks struct {
	path  string
	file  syscall.Stat_t // of the file that New opened
	spare chan *os.File  // open files without a lock, which this process opened before
}

// New returns the locks in the file path. It creates the file with mode 0600 if it doesn't exist. The file stays empty.
//
// While the locks are used, nobody may delete or replace the file: whoever opened the new file wouldn't see the locks
// in the old one. Lock and TryLock fail if that happened.
//
// Errors: those of opening the file, for example because its folder doesn't exist; and if path isn't a regular file. A
// symbolic link is rejected.
func New(path string) (*Locks, error) {
	file, found, err := open(path, syscall.O_CREAT)
	if err != nil {
		return nil, err
	}
	_ = file.Close()
	if found.Mode&syscall.S_IFMT != syscall.S_IFREG {
		return nil, fmt.Errorf("filelock: %s isn't a regular file", path)
	}
	return &Locks{path: path, file: found, spare: make(chan *os.File, mostSpare)}, nil
}

// TryLock returns the lock of a key, or nil if somebody else has it. It doesn't wait.
//
// Errors: those of opening and locking the file, and if the file was deleted or replaced since New. Nothing is locked
// then.
func (l *Locks) TryLock(key string) (*Lock, error) {
	file, err := l.take()
	if err != nil {
		return nil, err
	}
	bytes := bytesOf(key)
	isLocked, err := try(file, bytes)
	if err != nil || !isLocked {
		_ = file.Close()
		return nil, err
	}
	return &Lock{locks: l, file: file, bytes: bytes}, nil
}

// Lock waits for the lock of a key until ctx is done. It tries again after 1 ms, and then after longer pauses of at
// most 20 ms. So the order of those who wait isn't the order in which they get the lock.
//
// Errors: that of ctx; those of TryLock. Nothing is locked then.
func (l *Locks) Lock(ctx context.Context, key string) (*Lock, error) {
	file, err := l.take()
	if err != nil {
		return nil, err
	}
	bytes := bytesOf(key)
	if err := wait(ctx, file, bytes); err != nil {
		_ = file.Close()
		return nil, err
	}
	return &Lock{locks: l, file: file, bytes: bytes}, nil
}

// wait returns once the bytes are locked.
func wait(ctx context.Context, file *os.File, bytes span) error {
	for pause := shortestPause; ; pause *= 2 {
		if err := ctx.Err(); err != nil {
			return fmt.Errorf("filelock: waiting for a lock: %w", err)
		}
		if isLocked, err := try(file, bytes); err != nil || isLocked {
			return err
		}
		if pause > longestPause {
			pause = longestPause
		}
		sleep(ctx, pause)
	}
}

// sleep returns after a pause, or once ctx is done.
func sleep(ctx context.Context, pause time.Duration) {
	timer := time.NewTimer(pause)
	defer timer.Stop()
	select {
	case <-timer.C:
	case <-ctx.Done():
	}
}

// take returns an open file that no other goroutine uses, and that has no lock. That is what makes its locks exclude
// those of the other goroutines.
func (l *Locks) take() (*os.File, error) {
	select {
	case file := <-l.spare:
		if err := l.check(); err != nil {
			_ = file.Close()
			return nil, err
		}
		return file, nil
	default:
		return l.open()
	}
}

// give keeps an open file without a lock for the next take.
func (l *Locks) give(file *os.File) {
	select {
	case l.spare <- file:
	default:
		_ = file.Close()
	}
}

// check fails if the file was deleted or replaced since New.
func (l *Locks) check() error {
	var found syscall.Stat_t
	if err := syscall.Lstat(l.path, &found); err != nil {
		return fmt.Errorf("filelock: %w", &os.PathError{Op: "lstat", Path: l.path, Err: err})
	}
	return l.isSame(found)
}

// isSame fails unless a file is the one that New opened.
func (l *Locks) isSame(found syscall.Stat_t) error {
	if found.Dev != l.file.Dev || found.Ino != l.file.Ino {
		return fmt.Errorf("filelock: %s was replaced. Stop every process that uses it, and start them again", l.path)
	}
	return nil
}

// open opens the file anew.
func (l *Locks) open() (*os.File, error) {
	file, found, err := open(l.path, 0)
	if err != nil {
		return nil, err
	}
	if err := l.isSame(found); err != nil {
		_ = file.Close()
		return nil, err
	}
	return file, nil
}

// open opens a file without os.Open, which would register the file with the poller of the runtime.
func open(path string, flags int) (file *os.File, found syscall.Stat_t, err error) {
	const always = syscall.O_RDWR | syscall.O_NOFOLLOW | syscall.O_CLOEXEC
	descriptor, err := syscall.Open(path, always|flags, 0o600)
	for err == syscall.EINTR {
		descriptor, err = syscall.Open(path, always|flags, 0o600)
	}
	if err != nil {
		return nil, found, fmt.Errorf("filelock: %w", &os.PathError{Op: "open", Path: path, Err: err})
	}
	if err := syscall.Fstat(descriptor, &found); err != nil {
		_ = syscall.Close(descriptor)
		return nil, found, fmt.Errorf("filelock: %w", &os.PathError{Op: "fstat", Path: path, Err: err})
	}
	return os.NewFile(uintptr(descriptor), path), found, nil
}

// A span is bytes of the file: the first one, and how many.
type span struct{ start, length int64 }

// bytesOf returns the two bytes of a key, from 0 to 2^62-1. Two keys with the same bytes wait for each other.
func bytesOf(key string) span {
	hash := sha256.Sum256([]byte(key))
	return span{start: int64(binary.BigEndian.Uint64(hash[:8])>>2) &^ 1, length: 2}
}

// second returns the byte that is lent.
func (s span) second() span { return span{start: s.start + 1, length: 1} }

// try locks bytes of the file, all of them or none, and returns whether it did. It returns false if somebody else has
// locked one of them.
func try(file *os.File, bytes span) (bool, error) {
	err := set(file, bytes, syscall.F_WRLCK)
	switch {
	case err == nil:
		return true, nil
	case errors.Is(err, syscall.EAGAIN), errors.Is(err, syscall.EACCES):
		return false, nil
	}
	return false, err
}

// set locks or unlocks bytes of the file.
func set(file *os.File, bytes span, kind int16) error {
	flock := syscall.Flock_t{Type: kind, Start: bytes.start, Len: bytes.length}
	if err := syscall.FcntlFlock(file.Fd(), setLock, &flock); err != nil {
		return fmt.Errorf("filelock: %w", &os.PathError{Op: "fcntl", Path: file.Name(), Err: err})
	}
	return nil
}

// A Lock is an open file, which no process inherits, with the first byte locked. The second one is locked for the same
// open file, or for the one that Lend has returned last.
type Lock struct {
	locks *Locks
	file  *os.File
	bytes span
}

type lockKey struct{}

// Context returns a context from which Lend lends the lock.
func (l *Lock) Context(ctx context.Context) context.Context {
	return context.WithValue(ctx, lockKey{}, l)
}

// Unlock unlocks the bytes, and keeps the open file for the next lock. A second byte that is lent stays locked. A file
// that can't be unlocked is closed, which isn't enough by itself: between fork and exec any process that is being
// started has the file open for a moment.
func (l *Lock) Unlock() {
	file := l.file
	if file == nil {
		return // a file that was given twice would be two locks
	}
	l.file = nil
	if err := set(file, l.bytes, syscall.F_UNLCK); err != nil {
		_ = file.Close()
		return
	}
	l.locks.give(file)
}

// Lend returns an open file for a child process to inherit (exec.Cmd.ExtraFiles), or nil if ctx isn't from the Context
// of a lock of this package. As long as any process has the file open, nobody else gets the lock, even after Unlock,
// and even if this process is killed. The caller closes the file, at the earliest once the child has started.
//
// A lock lends one file at a time. If any process still has the file that was lent before, Lend waits for its end, and
// nobody else gets the lock meanwhile. Don't call Lend from two goroutines at once, or after Unlock.
//
// Errors: ErrLent, if a process still has that file after the time within; that of ctx, if it is done; those of
// TryLock. Nothing is lent then, and the lock stays.
func Lend(ctx context.Context, within time.Duration) (*os.File, error) {
	l, ok := ctx.Value(lockKey{}).(*Lock)
	if !ok {
		return nil, nil
	}
	file, err := l.locks.open()
	if err != nil {
		return nil, err
	}
	if err := l.moveTo(ctx, file, within); err != nil {
		_ = file.Close()
		return nil, err
	}
	return file, nil
}

// moveTo moves the second byte from the lock's own file, or the file that was lent before, to another one. Nobody else
// can get it in between, because whoever else tries needs the first byte too.
func (l *Lock) moveTo(ctx context.Context, file *os.File, within time.Duration) error {
	second := l.bytes.second()
	if err := set(l.file, second, syscall.F_UNLCK); err != nil {
		return err
	}
	limited, cancel := context.WithTimeout(ctx, within)
	defer cancel()
	err := wait(limited, file, second)
	if errors.Is(err, context.DeadlineExceeded) && ctx.Err() == nil {
		return fmt.Errorf("filelock: %w (its file is %s)", ErrLent, l.locks.path)
	}
	return err
}
