//go:build storm

package without

import (
	"context"
	"encoding/json"
	"errors"
	"fmt"
	"math/rand"
	"os"
	"path/filepath"
	"strings"
	"sync"
	"time"

	"pippinterm/broker"
	"pippinterm/broker/backend/folders"
)

// How work goes in a storm.
const (
	failing  = 0.04 // the share of pauses after which the work fails
	long     = 0.15 // the share of pauses that are long
	shortest = 500 * time.Millisecond
	longest  = 3500 * time.Millisecond // of a long pause
	usual    = 50 * time.Millisecond   // at most, of any other
)

// slowFolders are folders where each creation, update and deletion pauses before and after it is done, and sometimes fails
// then. It writes down the key of two that work at it at once, in the file together of the state folder.
type slowFolders struct {
	*folders.Folders
	state string
	pause func(context.Context) error
}

// backendCalls are the calls of slowFolders but that of its credentials.
type backendCalls interface {
	broker.BindingBackend
	broker.UpdateBackend
	broker.LockBackend
	broker.SyncBackend
	broker.TiedBackend
}

// forgetfulFolders don't know the credentials of a binding that exists, so interrupted work creates that binding again.
type forgetfulFolders struct{ backendCalls }

// SlowFolders returns folders that are slow and fail, and by chance don't know credentials. The state folder is that of
// all brokers of a storm: two that work at one key are seen in it.
//
// Errors: those of creating a folder in the state folder.
func SlowFolders(of *folders.Folders, state string) (broker.Backend, error) {
	if err := os.MkdirAll(filepath.Join(state, "alone"), 0o700); err != nil {
		return nil, fmt.Errorf("storm: %w", err)
	}
	chance := newChance(time.Now().UnixNano()) // another one each time that a broker starts
	made := &slowFolders{Folders: of, state: state, pause: chance.pause}
	if chance.next() < 0.5 {
		return made, nil
	}
	return forgetfulFolders{made}, nil
}

// Create creates as the folders do.
func (s *slowFolders) Create(ctx context.Context, request broker.Request) error {
	return s.work(ctx, request.Key, func() error { return s.Folders.Create(ctx, request) })
}

// Delete deletes as the folders do.
func (s *slowFolders) Delete(ctx context.Context, request broker.Request) error {
	return s.work(ctx, request.Key, func() error { return s.Folders.Delete(ctx, request) })
}

// Update updates as the folders do.
func (s *slowFolders) Update(ctx context.Context, update broker.Update) error {
	return s.work(ctx, update.Key, func() error { return s.Folders.Update(ctx, update) })
}

// CreateBinding creates a binding as the folders do.
func (s *slowFolders) CreateBinding(ctx context.Context, request broker.Request) (made json.RawMessage, err error) {
	err = s.work(ctx, request.Key, func() error {
		made, err = s.Folders.CreateBinding(ctx, request)
		return err
	})
	return made, err
}

// DeleteBinding deletes a binding as the folders do.
func (s *slowFolders) DeleteBinding(ctx context.Context, request broker.Request) error {
	return s.work(ctx, request.Key, func() error { return s.Folders.DeleteBinding(ctx, request) })
}

// work pauses before and after a call, and sees whether somebody else works at the key meanwhile.
func (s *slowFolders) work(ctx context.Context, key broker.Key, call func() error) error {
	name := strings.ReplaceAll(key.String(), "/", "-")
	file, err := os.OpenFile(filepath.Join(s.state, "alone", name), os.O_RDWR|os.O_CREATE, 0o600)
	if err != nil {
		return err
	}
	defer file.Close() // which ends the lock in any case
	isAlone, err := enter(file)
	if err != nil {
		return err
	}
	if isAlone {
		defer func() { _ = leave(file) }()
	} else if err := s.writeDown(key); err != nil {
		return err
	}
	if err := s.pause(ctx); err != nil {
		return err
	}
	if err := call(); err != nil {
		return err
	}
	return s.pause(ctx)
}

// writeDown adds the key to those at which two have worked at once.
func (s *slowFolders) writeDown(key broker.Key) error {
	file, err := os.OpenFile(filepath.Join(s.state, "together"), os.O_APPEND|os.O_CREATE|os.O_WRONLY, 0o600)
	if err != nil {
		return err
	}
	defer file.Close()
	_, err = fmt.Fprintln(file, key)
	return err
}

// chance is a source of random numbers for any number of goroutines.
type chance struct {
	turn   sync.Mutex
	source *rand.Rand
}

func newChance(seed int64) *chance { return &chance{source: rand.New(rand.NewSource(seed))} }

func (c *chance) next() float64 {
	c.turn.Lock()
	defer c.turn.Unlock()
	return c.source.Float64()
}

var errFails = errors.New("the storm's: the backend fails")

// pause takes a while, and fails now and then.
func (c *chance) pause(ctx context.Context) error {
	lasts := time.Duration(c.next() * float64(usual))
	if c.next() < long {
		lasts = shortest + time.Duration(c.next()*float64(longest-shortest))
	}
	timer := time.NewTimer(lasts)
	defer timer.Stop()
	select {
	case <-ctx.Done():
		return ctx.Err()
	case <-timer.C:
	}
	if c.next() < failing {
		return errFails
	}
	return nil
}
