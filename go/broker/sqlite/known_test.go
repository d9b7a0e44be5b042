package sqlite

import (
	"context"
	"errors"
	"path/filepath"
	"testing"
	"time"

	"pippinterm/broker"
	"pippinterm/internal/diff"
	"pippinterm/osb"
)

// pending is an entry with work that is pending, each of whose members has a value that its column changes, if there is
// one.
func pending(t *testing.T, key broker.Key) broker.Entry {
	t.Helper()
	entry := diff.Value(provision(key)(broker.Snapshot{}))(t)
	entry.Request, entry.Description = []byte(`{"plan_id": "é"}`), "it's\x00late"
	entry.Since, entry.Life = time.Now().Add(123456*time.Nanosecond), 7
	entry.Worker = osb.MustParseID("00000000-0000-0000-0000-000000000077")
	if key.IsBinding {
		entry.Binding = []byte(`{"credentials": {}}`)
	}
	return *entry
}

func write(t *testing.T, s *Store, key broker.Key, entry broker.Entry) {
	t.Helper()
	check(t, s.Change(context.Background(), key, func(broker.Snapshot) (*broker.Entry, error) { return &entry, nil }))
}

// seen is what a step sees of a key, and whether its entry was known.
func seen(t *testing.T, s *Store, key broker.Key) (snapshot broker.Snapshot, isKnown bool) {
	t.Helper()
	check(t, s.file.Write(context.Background(), func(c *connection) (err error) {
		isKnown = c.known.Of(key) != nil
		snapshot, err = c.snapshot(key)
		return err
	}))
	snapshot.AnyBinding = nil
	return snapshot, isKnown
}

// A step sees an entry that is known exactly as it is read, and so does one of its binding.
func TestKnownEntriesAreThoseThatAreRead(t *testing.T) {
	s := open(t, filepath.Join(t.TempDir(), "store"), broker.Silent{})
	instance := keyOf(1)
	binding := osb.BindingKey(instance.Instance, keyOf(2).Instance)
	for _, key := range []broker.Key{instance, binding} {
		bare := pending(t, key)
		bare.Request, bare.Binding, bare.Description, bare.Since, bare.Worker = nil, nil, "", time.Time{}, osb.ID{}
		for _, entry := range []broker.Entry{pending(t, key), bare} {
			write(t, s, key, entry)
			got, isKnown := seen(t, s, key)
			want := diff.Value(s.Read(context.Background(), key))(t)
			want.AnyBinding = nil
			diff.Equal(t, isKnown, true, "%v is known", key)
			diff.Check(t, got, want, "%v", key)
		}
	}
}

// An entry is read again once another connection has written, once it was undone, and if it rests or is long.
func TestKnownEntriesAreForgotten(t *testing.T) {
	s := open(t, filepath.Join(t.TempDir(), "store"), broker.Silent{})
	key := keyOf(1)
	entry := pending(t, key)
	errWrong := errors.New("wrong")
	for name, call := range map[string]func(){
		"another connection": func() { alter(t, s, "UPDATE holdings SET description = 'x'") },
		"a job that fails": func() {
			diff.ErrorIs(t, s.file.Write(context.Background(), func(c *connection) error {
				changed := entry
				changed.Life = 8
				check(t, c.put(key, changed))
				return errWrong
			}), errWrong, "")
		},
		"it rests": func() {
			ended, _, err := entry.Holding.End(osb.ModeSync, osb.OutcomeDone)
			diff.NoError(t, err, "End")
			write(t, s, key, broker.Entry{Holding: ended})
		},
		"it is long": func() {
			long := entry
			long.Request = make([]byte, longestKnown)
			write(t, s, key, long)
		},
	} {
		t.Run(name, func(t *testing.T) {
			write(t, s, key, entry)
			_, before := seen(t, s, key)
			call()
			_, after := seen(t, s, key)
			diff.Equal(t, [2]bool{before, after}, [2]bool{true, false}, "known before and after")
		})
	}
}
