package sealed_test

import (
	"bytes"
	"context"
	"encoding/json"
	"errors"
	"os"
	"path/filepath"
	"strings"
	"testing"

	"pippinterm/broker"
	"pippinterm/broker/sealed"
	"pippinterm/broker/sqlite"
	"pippinterm/broker/storetest"
	"pippinterm/internal/diff"
	"pippinterm/internal/vault"
	"pippinterm/osb"
)

var (
	background = context.Background()
	one        = []byte("the first key, of forty bytes, and more.")
	other      = []byte("another key, which has forty bytes, too.")
	instance   = osb.InstanceKey(osb.MustParseID("00000000-0000-0000-0000-000000000001"))
	binding    = osb.BindingKey(instance.Instance, osb.MustParseID("00000000-0000-0000-0000-0000000000b1"))
)

const body = `{"instance_id":"i","body":{"parameters":{"password":"hunter2 <&>"}}}`

func keysOf(t *testing.T, keys ...[]byte) *vault.Vault {
	t.Helper()
	return diff.Value(vault.New(vault.OfBroker, keys...))(t)
}

// entryWith is an entry whose request and settings have a secret.
func entryWith(secret string) broker.Entry {
	parameters := json.RawMessage(`{"password":"` + secret + `"}`)
	goal := broker.Settings{PlanID: "q", Parameters: parameters, Version: "2"}
	return broker.Entry{
		Request: json.RawMessage(strings.Replace(body, "hunter2", secret, 1)),
		Change: &broker.Change{
			Holding:  osb.NewUpdateHolding(osb.Settings{Plan: instance.Instance}),
			Settings: broker.Settings{PlanID: "p", Parameters: parameters}, To: &goal, IsAsynchronous: true,
			Origin: broker.Origin{RequestID: "r"},
		},
	}
}

func openFile(t *testing.T) *sqlite.Store {
	t.Helper()
	store := diff.Value(sqlite.Open(background, filepath.Join(t.TempDir(), "store"), broker.Silent{}))(t)
	t.Cleanup(func() { _ = store.Close() })
	return store
}

// write writes an entry, or the one that was read if it is nil.
func write(t *testing.T, store broker.Store, key broker.Key, entry *broker.Entry) {
	t.Helper()
	diff.Must(t, store.Change(background, key, func(snapshot broker.Snapshot) (*broker.Entry, error) {
		if entry == nil {
			return &snapshot.Entry, nil
		}
		return entry, nil
	}))
}

func read(t *testing.T, store broker.Store, key broker.Key) broker.Entry {
	t.Helper()
	return diff.Value(store.Read(background, key))(t).Entry
}

// texts are the request and the change of a row, as they are stored.
func texts(t *testing.T, below broker.Store, key broker.Key) (request, change string) {
	t.Helper()
	entry := read(t, below, key)
	return string(entry.Request), string(diff.Value(entry.Change.Text())(t))
}

// The keys of files, each a line.
func TestReadKeys(t *testing.T) {
	file := filepath.Join(t.TempDir(), "key")
	diff.Must(t, os.WriteFile(file, append(one, '\n'), 0o600))
	keys, warnings, err := sealed.ReadKeys(file)
	diff.Must(t, err)
	diff.Equal(t, len(warnings), 0, "warnings")
	diff.Equal(t, keys.Keys()[0].ID(), keysOf(t, one).Keys()[0].ID(), "the id of the key")
	_, _, err = sealed.ReadKeys()
	diff.Error(t, err, "no file")
}

// A wholeStore is a NamedStore that seals.
type wholeStore struct {
	*sqlite.Store
	sealing *sealed.Store
}

func (s wholeStore) Read(ctx context.Context, key broker.Key) (broker.Snapshot, error) {
	return s.sealing.Read(ctx, key)
}

func (s wholeStore) Change(ctx context.Context, key broker.Key, step broker.Step) error {
	return s.sealing.Change(ctx, key, step)
}

// A store that seals is one as any other.
func TestStore(t *testing.T) {
	folder := t.TempDir()
	storetest.Run(t, func(t *testing.T) broker.NamedStore {
		below := diff.Value(sqlite.Open(background, filepath.Join(folder, storetest.NameOf(t)), broker.Silent{}))(t)
		return wholeStore{below, sealed.New(below, keysOf(t, one))}
	})
}

// What is written shows no parameters, and is read as it was written, also by way of a binding.
func TestSealed(t *testing.T) {
	below := openFile(t)
	store, entry := sealed.New(below, keysOf(t, one)), entryWith("hunter2 <&>")
	write(t, store, instance, &entry)
	bound := broker.Entry{Request: json.RawMessage(body), Binding: json.RawMessage(`{"credentials":"hunter2"}`)}
	write(t, store, binding, &bound)
	for _, key := range []broker.Key{instance, binding} {
		request, change := texts(t, below, key)
		for _, text := range []string{request, change, string(read(t, below, key).Binding)} {
			if strings.Contains(text, "hunter2") || strings.Contains(text, "plan_id\":\"q") {
				t.Errorf("%v: got %s, want nothing of it readable", key, text)
			}
		}
	}
	diff.Check(t, read(t, store, instance), entry, "the instance")
	snapshot := diff.Value(store.Read(background, binding))(t)
	diff.Check(t, snapshot.Entry, bound, "the binding")
	diff.Check(t, snapshot.Instance, entry, "the instance of the binding")
	diff.Must(t, store.Change(background, binding, func(snapshot broker.Snapshot) (*broker.Entry, error) {
		diff.Check(t, snapshot.Instance, entry, "the instance of the binding, in a transaction")
		return nil, nil
	}))
	plain := entry
	plain.Request, plain.Change = nil, nil
	write(t, store, instance, &plain)
	diff.Check(t, read(t, store, instance), plain, "an entry with nothing to seal")
}

// Without keys everything is written in clear, and with keys what was written in clear is read, and sealed once it is
// written again.
func TestInClear(t *testing.T) {
	below, entry := openFile(t), entryWith("hunter2")
	write(t, sealed.New(below, nil), instance, &entry)
	request, change := texts(t, below, instance)
	diff.Contains(t, request, "hunter2", "the request")
	diff.Contains(t, change, "hunter2", "the settings")
	store := sealed.New(below, keysOf(t, one))
	diff.Check(t, read(t, store, instance), entry, "what was written in clear")
	write(t, store, instance, nil)
	if request, change := texts(t, below, instance); strings.Contains(request+change, "hunter2") {
		t.Errorf("got %s and %s, want them sealed", request, change)
	}
	diff.Check(t, read(t, store, instance), entry, "what is sealed now")
}

// What doesn't change isn't sealed again, unless another key has sealed it: the first key seals, and all of them open.
func TestKeyThatIsReplaced(t *testing.T) {
	below, entry := openFile(t), entryWith("hunter2")
	before, both, after := keysOf(t, one), keysOf(t, other, one), keysOf(t, other)
	write(t, sealed.New(below, before), instance, &entry)
	first, settings := texts(t, below, instance)
	write(t, sealed.New(below, before), instance, nil)
	if request, change := texts(t, below, instance); request != first || change != settings {
		t.Errorf("got %s and %s, want what was there: nothing has changed", request, change)
	}
	changed := entryWith("hunter3")
	write(t, sealed.New(below, before), instance, &changed)
	if request, change := texts(t, below, instance); request == first || change == settings {
		t.Errorf("got %s and %s, want others: both have changed", request, change)
	}
	diff.Check(t, read(t, sealed.New(below, both), instance), changed, "by both keys")
	_, err := sealed.New(below, after).Read(background, instance)
	diff.ErrorIs(t, err, sealed.ErrSealed, "by the new key alone")
	write(t, sealed.New(below, both), instance, nil)
	diff.Check(t, read(t, sealed.New(below, after), instance), changed, "by the new key, once it was written again")
}

type rows map[broker.Key]broker.Entry

// A rowStore is a store in memory, for rows that no other store writes.
type rowStore struct {
	broker.Store // nothing else is called
	rows         rows
}

func (s rowStore) Read(_ context.Context, key broker.Key) (broker.Snapshot, error) {
	snapshot := broker.Snapshot{Entry: s.rows[key]}
	if key.IsBinding {
		snapshot.Instance = s.rows[osb.InstanceKey(key.Instance)]
	}
	return snapshot, nil
}

func (s rowStore) Change(ctx context.Context, key broker.Key, step broker.Step) error {
	snapshot, _ := s.Read(ctx, key)
	next, err := step(snapshot)
	if err == nil && next != nil {
		s.rows[key] = *next
	}
	return err
}

// A row that can't be opened is neither read nor written, and the error says why. Without the key it says which one.
func TestUnopened(t *testing.T) {
	by := keysOf(t, one)
	sealedText := func(text, context string) []byte { return diff.Value(by.Seal([]byte(text), context))(t) }
	requestOf := func(sealed []byte) json.RawMessage {
		return diff.Value(json.Marshal(struct {
			Sealed []byte `json:"sealed"`
		}{sealed}))(t)
	}
	here, there := instance.String()+" request", binding.String()+" request"
	ofSettings := instance.String() + " settings"
	missing := "encrypted with the key " + by.Keys()[0].ID() + ", which isn't given. Start the broker with --key-file"
	withRequest := func(sealed []byte) broker.Entry { return broker.Entry{Request: requestOf(sealed)} }
	withChange := func(sealed []byte) broker.Entry {
		return broker.Entry{Change: &broker.Change{Holding: osb.UpdateHolding{}, Sealed: sealed}}
	}
	for name, test := range map[string]struct {
		keys  *vault.Vault
		entry broker.Entry
		says  string
	}{
		"no key":         {nil, withRequest(sealedText(body, here)), missing},
		"another key":    {keysOf(t, other), withRequest(sealedText(body, here)), missing},
		"another row":    {by, withRequest(sealedText(body, there)), "belongs elsewhere"},
		"another column": {by, withRequest(sealedText(body, ofSettings)), "belongs elsewhere"},
		"torn":           {by, withRequest(sealedText(body, here)[:20]), "a form that this version"},
		"no base64":      {by, broker.Entry{Request: json.RawMessage(`{"sealed":"?"}`)}, "illegal base64"},
		"credentials of another column": {
			by, broker.Entry{Binding: requestOf(sealedText("{}", here))}, "belongs elsewhere",
		},
		"settings without a key":      {nil, withChange(sealedText("{}", ofSettings)), missing},
		"settings of another column":  {by, withChange(sealedText("{}", here)), "belongs elsewhere"},
		"settings that are none":      {by, withChange(sealedText("[]", ofSettings)), "cannot unmarshal"},
		"settings that are malformed": {by, withChange([]byte("x")), "a form that this version"},
	} {
		t.Run(name, func(t *testing.T) {
			below := rowStore{rows: rows{instance: test.entry}}
			store := sealed.New(below, test.keys)
			snapshot, err := store.Read(background, instance)
			diff.ErrorIs(t, err, sealed.ErrSealed, "Read")
			diff.ErrorContains(t, err, test.says, "Read")
			diff.Check(t, snapshot.Entry, broker.Entry{}, "what is read")
			for _, key := range []broker.Key{instance, binding} { // that of a binding reads its instance
				err := store.Change(background, key, func(broker.Snapshot) (*broker.Entry, error) {
					t.Error("got a step, want none of what can't be opened")
					return &broker.Entry{}, nil
				})
				diff.ErrorIs(t, err, sealed.ErrSealed, "Change")
			}
			diff.Check(t, below.rows[instance], test.entry, "what is stored then")
		})
	}
}

// A step that fails, and one that writes nothing, leave what is stored.
func TestSteps(t *testing.T) {
	below, entry, failed := openFile(t), entryWith("hunter2"), errors.New("no")
	store := sealed.New(below, keysOf(t, one))
	write(t, store, instance, &entry)
	before, _ := texts(t, below, instance)
	for _, err := range []error{nil, failed} {
		got := store.Change(background, instance, func(broker.Snapshot) (*broker.Entry, error) { return nil, err })
		if !errors.Is(got, err) {
			t.Errorf("got %v, want %v", got, err)
		}
	}
	after, _ := texts(t, below, instance)
	diff.Equal(t, after, before, "what is stored")
}

// Parameters that aren't JSON can't be stored.
func TestOddParameters(t *testing.T) {
	below, entry := openFile(t), entryWith("hunter2")
	entry.Change.Settings.Parameters = json.RawMessage("{")
	err := sealed.New(below, keysOf(t, one)).Change(background, instance,
		func(broker.Snapshot) (*broker.Entry, error) { return &entry, nil })
	diff.Error(t, err, "parameters that aren't JSON")
	if stored := read(t, below, instance); !bytes.Equal(stored.Request, nil) || stored.Change != nil {
		t.Errorf("got %+v, want nothing stored", stored)
	}
}
