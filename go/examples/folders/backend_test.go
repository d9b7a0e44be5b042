package main

import (
	"context"
	"os"
	"path/filepath"
	"runtime"
	"syscall"
	"testing"

	"pippinterm/broker"
	"pippinterm/osb"
)

var ofInstance = broker.Request{Key: osb.InstanceKey(osb.ID{15: 1})}

// What Look returns is what exists, and Create and Delete begin with whatever exists.
func TestParts(t *testing.T) {
	ctx := context.Background()
	for _, test := range []struct {
		name        string
		whole, part bool
		there       broker.There
	}{
		{"nothing", false, false, broker.None},
		{"a whole folder", true, false, broker.Whole},
		{"a part", false, true, broker.Part},
	} {
		t.Run(test.name, func(t *testing.T) {
			for what, call := range map[broker.There]func(backend) error{
				broker.Whole: func(b backend) error { return b.Create(ctx, ofInstance) },
				broker.None:  func(b backend) error { return b.Delete(ctx, ofInstance) },
			} {
				t.Run(what.String(), func(t *testing.T) {
					b := backend(t.TempDir())
					path := b.path(ofInstance.Key)
					makeFull(t, path, test.whole)
					makeFull(t, path+".part", test.part)
					if there, err := b.Look(ctx, ofInstance); there != test.there || err != nil {
						t.Errorf("got %v and the error %v, want what exists", there, err)
					}
					for again := 0; again < 2; again++ { // the second call does nothing
						if err := call(b); err != nil {
							t.Errorf("got the error %v, want none", err)
						}
						if there, err := b.Look(ctx, ofInstance); there != what || err != nil {
							t.Errorf("got %v, %v, want %v", there, err, what)
						}
					}
				})
			}
		})
	}
}

// makeFull makes a folder with something in it.
func makeFull(t *testing.T, path string, exists bool) {
	t.Helper()
	if !exists {
		return
	}
	check(t, os.MkdirAll(filepath.Join(path, "data"), 0o700))
}

// If nobody can look, nobody knows what exists.
func TestUnknown(t *testing.T) {
	file := filepath.Join(t.TempDir(), "file")
	check(t, os.WriteFile(file, nil, 0o600))
	if there, err := backend(file).Look(context.Background(), ofInstance); err == nil {
		t.Errorf("Look: got %v, want an error", there)
	}
}

// A deletion that can't be finished leaves a part, and no whole folder.
func TestUnfinishedDeletion(t *testing.T) {
	b, ctx := backend(t.TempDir()), context.Background()
	defer withoutRights(t, string(b))()
	path := b.path(ofInstance.Key)
	makeFull(t, path, true)
	check(t, os.Chmod(path, 0o500))
	failed := b.Delete(ctx, ofInstance)
	there, err := b.Look(ctx, ofInstance)
	if failed == nil || there != broker.Part || err != nil {
		t.Errorf("got the failure %v, %v and the error %v, want a part", failed, there, err)
	}
	check(t, os.Chmod(path+".part", 0o700))
	check(t, b.Delete(ctx, ofInstance))
}

// withoutRights gives a folder to a user who isn't root, and has the calling goroutine use files as that user until the
// function that it returns is called. Root could delete everything.
func withoutRights(t *testing.T, folder string) (restore func()) {
	t.Helper()
	if os.Geteuid() != 0 {
		return func() {}
	}
	const nobody = 65534
	check(t, os.Chmod(filepath.Dir(folder), 0o711)) // the folder of all folders of the test
	check(t, os.Chown(folder, nobody, nobody))
	runtime.LockOSThread() // the right belongs to the thread
	check(t, syscall.Setfsuid(nobody))
	return func() {
		_ = syscall.Setfsuid(0)
		runtime.UnlockOSThread()
	}
}

// check ends the test at an error.
func check(t testing.TB, err error) {
	t.Helper()
	if err != nil {
		t.Fatalf("got the error %v, want none", err)
	}
}
