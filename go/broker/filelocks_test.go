//go:build linux

package broker_test

import (
	"context"
	"errors"
	"path/filepath"
	"testing"

	"pippinterm/broker"
	"pippinterm/internal/diff"
	"pippinterm/osb"
)

// Each key has a lock of its own, in all Locks of one file.
func TestFileLocks(t *testing.T) {
	ctx, path := context.Background(), filepath.Join(t.TempDir(), "locks")
	first := diff.Value(broker.NewFileLocks(path))(t)
	second := diff.Value(broker.NewFileLocks(path))(t)
	if first.CanBeLost() {
		t.Error("a lock in a file: got one that can be lost, want one that can't be")
	}
	instance := osb.InstanceKey(osb.ID{15: 1})
	taken := diff.Value(first.Lock(ctx, instance))(t)
	if lock, err := second.TryLock(ctx, instance); lock != nil || err != nil {
		t.Errorf("got the lock %v and %v of a key whose lock is held, want neither", lock, err)
	}
	done, cancel := context.WithCancel(ctx)
	cancel()
	if lock, err := second.Lock(done, instance); lock != nil || !errors.Is(err, context.Canceled) {
		t.Errorf("got the lock %v and %v, want %v", lock, err, context.Canceled)
	}
	binding, err := second.TryLock(ctx, osb.BindingKey(instance.Instance, instance.Instance))
	if binding == nil || err != nil {
		t.Fatalf("another key: got the lock %v and %v, want one and no error", binding, err)
	}
	binding.Unlock()
	taken.Unlock()
	if lock, err := second.TryLock(ctx, instance); lock == nil || err != nil {
		t.Errorf("a key whose lock was unlocked: got the lock %v and %v, want one and no error", lock, err)
	}
}

// Locks whose file can't be opened are none.
func TestFileLocksWithoutAFolder(t *testing.T) {
	if locks, err := broker.NewFileLocks(filepath.Join(t.TempDir(), "none", "locks")); locks != nil || err == nil {
		t.Errorf("got %v and %v, want an error", locks, err)
	}
}
