//go:build linux

package broker

import (
	"context"

	"pippinterm/internal/filelock"
)

// fileLocks are Locks in a file.
type fileLocks struct{ in *filelock.Locks }

// NewFileLocks returns locks for the processes of one machine, all in the file path, which is on a local file system. It
// creates the file with mode 0600 if it doesn't exist. The file stays empty. A lock ends only by Unlock, or with its
// process.
//
// While the locks are used, nobody may delete or replace the file: whoever opened the new file wouldn't see the locks
// in the old one. Lock and TryLock fail if that happened.
//
// Errors: those of opening the file, for example because its folder doesn't exist; and if path isn't a regular file. A
// symbolic link is rejected.
func NewFileLocks(path string) (Locks, error) {
	in, err := filelock.New(path)
	if err != nil {
		return nil, err
	}
	return fileLocks{in}, nil
}

// CanBeLost returns false.
func (l fileLocks) CanBeLost() bool { return false }

// TryLock returns the lock of a key, or nil if somebody else has it. It doesn't wait.
func (l fileLocks) TryLock(_ context.Context, key Key) (Lock, error) {
	lock, err := l.in.TryLock(key.String())
	if lock == nil {
		return nil, err // a Lock that has a nil pointer isn't nil
	}
	return lock, nil
}

// Lock waits for the lock of a key until ctx is done.
func (l fileLocks) Lock(ctx context.Context, key Key) (Lock, error) {
	lock, err := l.in.Lock(ctx, key.String())
	if err != nil {
		return nil, err
	}
	return lock, nil
}
