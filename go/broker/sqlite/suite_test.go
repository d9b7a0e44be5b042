package sqlite_test

import (
	"context"
	"os"
	"path/filepath"
	"testing"

	"pippinterm/broker"
	"pippinterm/broker/sqlite"
	"pippinterm/broker/storetest"
	"pippinterm/internal/diff"
)

// What every store must do.
func TestStore(t *testing.T) {
	folder := diff.Value(os.MkdirTemp("", "osb-sqlite"))(t)
	t.Cleanup(func() { _ = os.RemoveAll(folder) })
	storetest.Run(t, func(t *testing.T) broker.NamedStore {
		store, err := sqlite.Open(context.Background(), filepath.Join(folder, storetest.NameOf(t)), broker.Silent{})
		check(t, err)
		return store
	})
}

// Close closes the files, and leaves nothing in SQLite's log: one file has everything. To call Close again does
// nothing.
func TestClose(t *testing.T) {
	ctx, folder := context.Background(), t.TempDir()
	store := diff.Value(sqlite.Open(ctx, filepath.Join(folder, "store"), broker.Silent{}))(t)
	check(t, store.Ready(ctx))
	for n := 0; n < 2; n++ {
		check(t, store.Close())
	}
	left := diff.Value(os.ReadDir(folder))(t)
	if len(left) != 1 || left[0].Name() != "store" {
		t.Errorf("got %v left, want only store", left)
	}
}

var check = diff.Must
