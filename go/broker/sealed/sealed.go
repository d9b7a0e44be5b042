// Package sealed encrypts the parameters of instances and bindings, and the credentials of bindings, in the store of a
// broker.
//
// What is sealed is the text of a broker.Request, with the body of the creation, the settings of a broker.Change, and
// the object of a binding. Each is sealed for its row and its column, so nobody can move it. What stays in clear is
// what decides, such as the holdings, with the digests of parameters and the numbers of ids.
package sealed

import (
	"bytes"
	"context"
	"encoding/json"
	"errors"
	"fmt"

	"pippinterm/broker"
	"pippinterm/internal/vault"
)

// ReadKeys returns the keys that stand in files. The first one seals, and all of them open: while a key is replaced,
// give the new one first and the old one after it. A file has its key on one line of UTF-8 without control characters,
// at least 32 bytes long. The last line feed is dropped.
//
// The warnings are for the log: there is one for each file whose mode is beyond 0600.
//
// Errors: no file is named; a name is empty; a file can't be read, has no such line, or a shorter one. No error
// contains a part of a key.
func ReadKeys(files ...string) (keys *vault.Vault, warnings []string, err error) {
	return vault.FromFiles(vault.OfBroker, files...)
}

// ErrSealed reports that something of a row can't be decrypted. Then nothing of the row is read or written.
var ErrSealed = errors.New("what is encrypted in the store can't be decrypted")

// A Store is a broker.Store over another one.
type Store struct {
	broker.Store
	keys  *vault.Vault
	first string // the id of the key that seals
}

// New returns a store that seals with keys what it writes, and opens what it reads. What was written in clear is read
// as it is. Without keys, which is nil, everything is written in clear.
func New(of broker.Store, keys *vault.Vault) *Store {
	s := &Store{Store: of, keys: keys}
	if keys != nil {
		s.first = keys.Keys()[0].ID()
	}
	return s
}

// Read returns what is committed and on disk.
//
// Errors: those of the store below; ErrSealed.
func (s *Store) Read(ctx context.Context, key broker.Key) (broker.Snapshot, error) {
	snapshot, err := s.Store.Read(ctx, key)
	if err == nil {
		err = s.open(key, &snapshot)
	}
	if err != nil {
		return broker.Snapshot{}, err
	}
	return snapshot, nil
}

// Change is one transaction over the row of a key.
//
// Errors: those of the store below; ErrSealed; the system gives no random bytes. After the last two nothing is written.
func (s *Store) Change(ctx context.Context, key broker.Key, step broker.Step) error {
	return s.Store.Change(ctx, key, func(snapshot broker.Snapshot) (*broker.Entry, error) {
		stored := snapshot.Entry
		if err := s.open(key, &snapshot); err != nil {
			return nil, err
		}
		opened := snapshot.Entry
		next, err := step(snapshot)
		if err != nil || next == nil {
			return nil, err
		}
		return s.sealed(key, *next, stored, opened)
	})
}

// open opens what is sealed of a row, and of the row of a binding's instance.
func (s *Store) open(key broker.Key, snapshot *broker.Snapshot) error {
	if err := s.openEntry(key, &snapshot.Entry); err != nil || !key.IsBinding {
		return err
	}
	return s.openEntry(broker.Key{Instance: key.Instance}, &snapshot.Instance)
}

func (s *Store) openEntry(key broker.Key, entry *broker.Entry) error {
	if err := s.openText(&entry.Request, key, request); err != nil {
		return err
	}
	if err := s.openText(&entry.Binding, key, object); err != nil {
		return err
	}
	if entry.Change == nil || entry.Change.Sealed == nil {
		return nil
	}
	opened := *entry.Change // which is also the store's own
	opened.Sealed = nil
	text, err := s.opened(entry.Change.Sealed, key, settings)
	if err == nil {
		err = json.Unmarshal(text, &texts{&opened.Settings, &opened.To})
	}
	if err != nil {
		return unreadable(key, settings, err)
	}
	entry.Change = &opened
	return nil
}

// openText opens the text of a column, if it is sealed.
func (s *Store) openText(text *json.RawMessage, key broker.Key, column string) error {
	if !bytes.HasPrefix(*text, beginning) {
		return nil
	}
	var stored sealedText
	err := json.Unmarshal(*text, &stored)
	if err == nil {
		*text, err = s.opened(stored.Sealed, key, column)
	}
	return unreadable(key, column, err)
}

// unreadable is the error of a column that can't be opened, or nil.
func unreadable(key broker.Key, column string, err error) error {
	if err == nil {
		return nil
	}
	return fmt.Errorf("%w: the %s of %v: %v", ErrSealed, column, key, err)
}

// The columns, as they are named in the contexts of what is sealed.
const (
	request  = "request"
	object   = "object"
	settings = "settings"
)

// A sealedText is what a row has in the place of the text of a Request, or of the object of a binding. These begin
// otherwise: with instance_id, and with credentials.
type sealedText struct {
	Sealed []byte `json:"sealed"`
}

var beginning = []byte(`{"sealed":`)

// texts are the settings of a Change, as they are sealed.
type texts struct {
	Settings *broker.Settings  `json:"settings"`
	To       **broker.Settings `json:"to,omitempty"`
}

func contextOf(key broker.Key, column string) string { return key.String() + " " + column }

// opened is the text of a sealed form. The error says which key is missing.
func (s *Store) opened(sealed []byte, key broker.Key, column string) ([]byte, error) {
	id, err := vault.SealedBy(sealed)
	if err != nil {
		return nil, err
	}
	if s.keys == nil {
		return nil, missing(id)
	}
	text, err := s.keys.Open(sealed, contextOf(key, column))
	if errors.Is(err, vault.ErrOtherKey) {
		return nil, missing(id)
	}
	return text, err
}

func missing(id string) error {
	return fmt.Errorf("it is encrypted with the key %s, which isn't given. Start the broker with --key-file FILE of that "+
		"key, too", id)
}

// sealed is an entry as it is stored. What hasn't changed since it was read stays as it is stored, unless another key
// than the first one has sealed it.
func (s *Store) sealed(key broker.Key, next, stored, opened broker.Entry) (*broker.Entry, error) {
	if s.keys == nil {
		return &next, nil
	}
	var err error
	next.Request, err = s.sealedText(next.Request, stored.Request, opened.Request, contextOf(key, request))
	if err != nil {
		return nil, err
	}
	next.Binding, err = s.sealedText(next.Binding, stored.Binding, opened.Binding, contextOf(key, object))
	if err != nil {
		return nil, err
	}
	next.Change, err = s.sealedChange(key, next.Change, stored.Change, opened.Change)
	return &next, err
}

// sealedText is a text as it is stored.
func (s *Store) sealedText(next, stored, opened json.RawMessage, context string) (json.RawMessage, error) {
	if next == nil {
		return nil, nil
	}
	var before sealedText
	if bytes.HasPrefix(stored, beginning) && bytes.Equal(next, opened) {
		_ = json.Unmarshal(stored, &before) // as it was opened
	}
	sealed, err := s.again(before.Sealed, next, context)
	if err != nil {
		return nil, err
	}
	return json.Marshal(sealedText{sealed})
}

// sealedChange is a change as it is stored.
func (s *Store) sealedChange(key broker.Key, next, stored, opened *broker.Change) (*broker.Change, error) {
	if next == nil {
		return nil, nil
	}
	text, err := textOf(next)
	if err != nil {
		return nil, err
	}
	var before []byte
	if stored != nil && stored.Sealed != nil {
		if was, err := textOf(opened); err == nil && bytes.Equal(text, was) {
			before = stored.Sealed
		}
	}
	sealed := *next
	sealed.Settings, sealed.To = broker.Settings{}, nil
	sealed.Sealed, err = s.again(before, text, contextOf(key, settings))
	return &sealed, err
}

// textOf is the text of the settings of a change, with parameters as they were sent: json.Marshal would escape each <.
func textOf(change *broker.Change) ([]byte, error) {
	text := bytes.Buffer{}
	encoder := json.NewEncoder(&text)
	encoder.SetEscapeHTML(false)
	err := encoder.Encode(texts{&change.Settings, &change.To})
	return text.Bytes(), err
}

// again is the sealed form of a text: the one before, if there is one and the first key has sealed it.
func (s *Store) again(before, text []byte, context string) ([]byte, error) {
	if id, err := vault.SealedBy(before); err == nil && id == s.first {
		return before, nil
	}
	return s.keys.Seal(text, context)
}
