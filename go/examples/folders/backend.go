package main

import (
	"context"
	"crypto/rand"
	"encoding/json"
	"errors"
	"fmt"
	"io/fs"
	"os"
	"path/filepath"
	"strings"
	"syscall"

	"pippinterm/broker"
)

// A backend is the path of the folder in which everything that is sold has a name: the folder of an instance, and the
// file of a binding. Under NAME.part is what a creation or a deletion has left that was broken off.
type backend string

func (b backend) path(key broker.Key) string {
	return filepath.Join(string(b), strings.ReplaceAll(key.String(), "/", "."))
}

// Look goes by the names alone, because the content of a folder is its user's.
func (b backend) Look(_ context.Context, r broker.Request) (broker.There, error) {
	for _, test := range []struct {
		end   string
		there broker.There
	}{{"", broker.Whole}, {".part", broker.Part}} {
		if _, err := os.Lstat(b.path(r.Key) + test.end); !errors.Is(err, fs.ErrNotExist) {
			return test.there, err // with an error nobody knows what exists
		}
	}
	return broker.None, nil
}

// Create creates an empty folder. It may exist already, because of a call before a crash.
func (b backend) Create(_ context.Context, r broker.Request) error {
	return onDisk(os.MkdirAll(b.path(r.Key), 0o700))
}

// Delete takes the name away first. So a deletion that is broken off leaves a part.
func (b backend) Delete(_ context.Context, r broker.Request) error {
	path := b.path(r.Key)
	if err := os.Rename(path, path+".part"); err != nil && !errors.Is(err, fs.ErrNotExist) {
		return err
	}
	syscall.Sync() // otherwise a power cut could bring back the name without the content
	return onDisk(os.RemoveAll(path + ".part"))
}

// LookBinding returns what exists of the file of a binding.
func (b backend) LookBinding(ctx context.Context, r broker.Request) (broker.There, error) {
	return b.Look(ctx, r)
}

// CreateBinding creates the file, and returns what is in it.
func (b backend) CreateBinding(_ context.Context, r broker.Request) (json.RawMessage, error) {
	token, path := make([]byte, 16), b.path(r.Key)
	if _, err := rand.Read(token); err != nil {
		return nil, err
	}
	credentials := json.RawMessage(fmt.Sprintf(`{"token":"%x"}`, token))
	if err := onDisk(os.WriteFile(path+".part", credentials, 0o600)); err != nil {
		return nil, err
	}
	return credentials, onDisk(os.Rename(path+".part", path))
}

// DeleteBinding deletes the file.
func (b backend) DeleteBinding(ctx context.Context, r broker.Request) error { return b.Delete(ctx, r) }

// onDisk returns once what a call has done would outlive a power cut. A call that failed isn't waited for.
func onDisk(err error) error {
	if err == nil {
		syscall.Sync() // writes all files of the machine. An fsync of the right ones is faster
	}
	return err
}
