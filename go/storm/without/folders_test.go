//go:build storm

package without

import (
	"context"
	"os"
	"path/filepath"
	"testing"

	"pippinterm/broker"
	"pippinterm/broker/backend/folders"
	"pippinterm/internal/diff"
)

func newSlowFolders(t *testing.T) (*slowFolders, string) {
	t.Helper()
	state := t.TempDir()
	of := diff.Value(folders.New(filepath.Join(state, "instances")))(t)
	diff.Value(SlowFolders(of, state))(t)
	return &slowFolders{Folders: of, state: state, pause: func(context.Context) error { return nil }}, state
}

func request(key broker.Key) broker.Request {
	return broker.Request{Key: key, InstanceID: one.String(), ServiceID: service.String(), PlanID: now.String()}
}

func failingAt(n int) func(context.Context) error {
	return func(context.Context) error {
		if n--; n == 0 {
			return errFails
		}
		return nil
	}
}

// Each call fails before it was done, or after it.
func TestFailures(t *testing.T) {
	ctx := context.Background()
	s, _ := newSlowFolders(t)
	createBinding := func(ctx context.Context, request broker.Request) error {
		_, err := s.CreateBinding(ctx, request)
		return err
	}
	for _, test := range []struct {
		name          string
		key           broker.Key
		call          func(context.Context, broker.Request) error
		look          func(context.Context, broker.Request) (broker.There, error)
		before, after broker.There
	}{
		{"create", instance, s.Create, s.Look, broker.None, broker.Whole},
		{"create a binding", binding, createBinding, s.LookBinding, broker.None, broker.Whole},
		{"delete a binding", binding, s.DeleteBinding, s.LookBinding, broker.Whole, broker.None},
		{"delete", instance, s.Delete, s.Look, broker.Whole, broker.None},
	} {
		t.Run(test.name, func(t *testing.T) {
			for pause, want := range []broker.There{test.before, test.after} {
				s.pause = failingAt(pause + 1)
				diff.ErrorIs(t, test.call(ctx, request(test.key)), errFails, "%s: pause %d fails", test.name, pause+1)
				there := diff.Value(test.look(ctx, request(test.key)))(t)
				diff.Equal(t, there, want, "%s: pause %d fails", test.name, pause+1)
			}
		})
	}
}

// An update fails before it was done, or after it.
func TestFailingUpdates(t *testing.T) {
	ctx := context.Background()
	s, _ := newSlowFolders(t)
	check(t, s.Create(ctx, request(instance)))
	update := broker.Update{
		Request: request(instance), From: broker.Settings{PlanID: now.String()}, To: broker.Settings{PlanID: "other"},
	}
	for pause, want := range []broker.There{broker.None, broker.Whole} {
		s.pause = failingAt(pause + 1)
		diff.ErrorIs(t, s.Update(ctx, update), errFails, "pause %d fails", pause+1)
		diff.Equal(t, diff.Value(s.LookUpdate(ctx, update))(t), want, "pause %d fails", pause+1)
	}
}

// Two that work at a key at once are written down, and two at different keys aren't.
func TestTogether(t *testing.T) {
	ctx := context.Background()
	s, state := newSlowFolders(t)
	check(t, s.Create(ctx, request(instance)))
	within := func(other broker.Key) {
		s.pause = func(context.Context) error {
			s.pause = func(context.Context) error { return nil }
			if other.IsBinding {
				return s.DeleteBinding(ctx, request(other))
			}
			return s.Create(ctx, request(other))
		}
	}
	within(binding)
	check(t, s.Create(ctx, request(instance)))
	diff.ErrorIs(t, diff.Err(os.Stat(filepath.Join(state, "together"))), os.ErrNotExist, "two keys that count as one")
	within(instance)
	check(t, s.Create(ctx, request(instance)))
	within(binding)
	check(t, s.DeleteBinding(ctx, request(binding)))
	text := diff.Value(os.ReadFile(filepath.Join(state, "together")))(t)
	diff.Equal(t, string(text), instance.String()+"\n"+binding.String()+"\n", "written down")
}

// A backend that forgets has every interface of the folders but the one of credentials.
func TestForgetful(t *testing.T) {
	s, _ := newSlowFolders(t)
	var made broker.Backend = forgetfulFolders{s}
	_, hasCredentials := made.(broker.CredentialsBackend)
	_, hasOwner := made.(broker.TiedBackend)
	_, hasLocks := made.(broker.LockBackend)
	_, hasUpdates := made.(broker.UpdateBackend)
	diff.Equal(t, [4]bool{hasCredentials, hasOwner, hasLocks, hasUpdates}, [4]bool{false, true, true, true},
		"credentials, owner, locks, updates")
}

func TestPauseEndsWithItsContext(t *testing.T) {
	ctx, cancel := context.WithCancel(context.Background())
	cancel()
	diff.ErrorIs(t, newChance(1).pause(ctx), context.Canceled, "a pause whose context is over")
}
