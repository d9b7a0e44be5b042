package sqlite_test

import (
	"context"
	"os"
	"path/filepath"
	"testing"

	"pippinterm/internal/diff"
	"pippinterm/platform"
	"pippinterm/platform/sqlite"
	"pippinterm/platform/storetest"
)

// What every store must do.
func TestStore(t *testing.T) {
	folder := diff.Value(os.MkdirTemp("", "osb-sqlite"))(t)
	t.Cleanup(func() { _ = os.RemoveAll(folder) })
	storetest.Test(t, func(t *testing.T) platform.Store {
		return diff.Value(sqlite.Open(context.Background(), filepath.Join(folder, storetest.NameOf(t))))(t)
	})
}

// A worker that is paused between two statements, while another one goes on over the same file.
func TestPausedWorker(t *testing.T) {
	folder := t.TempDir()
	storetest.TestPausedWorker(t, func(t *testing.T) platform.Store {
		return diff.Value(sqlite.Open(context.Background(), filepath.Join(folder, storetest.NameOf(t))))(t)
	})
}
