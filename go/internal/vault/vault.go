// Package vault seals secrets by AES-256 in Galois/Counter Mode, with a key from a file. osb-platform seals credentials
// and passwords with it, and osb-broker parameters.
//
// What is sealed is
//
//	1 byte    the version of this layout: 1
//	8 bytes   the id of the key
//	12 bytes  a random nonce
//	the rest  the ciphertext, and 16 bytes that authenticate it
//
// The first 9 bytes and the context are the additional data, so nothing of it can be changed, and nothing be moved to
// another row. Of the key in the file three are derived by HKDF-SHA256 (RFC 5869), for the Use of the vault: the one
// that seals, the id, and the fingerprint. So neither the id nor the fingerprint shows anything of the one that seals.
// The layout and the names in the derivation are this project's choice.
package vault

import (
	"crypto/aes"
	"crypto/cipher"
	"crypto/hmac"
	"crypto/rand"
	"crypto/sha256"
	"encoding/hex"
	"errors"
	"fmt"
	"io"

	"pippinterm/internal/secrets"
)

// A Use is what a vault is for. It separates what is derived of a key from what another use derives of the same key, as
// the salt of HKDF (RFC 5869, section 3.1). So a vault opens only what was sealed for its use.
type Use string

// The uses.
const (
	OfPlatform Use = "osb-platform vault 1" // the credentials and the passwords in the store of osb-platform
	OfBroker   Use = "osb-broker vault 1"   // the parameters in the store of osb-broker
)

const (
	version   = 1
	idSize    = 8
	headSize  = 1 + idSize
	nonceSize = 12 // as GCM has it
	tagSize   = 16 // as GCM has it
	leastSize = headSize + nonceSize + tagSize
)

// ShortestKey is the least length of a key, in bytes.
const ShortestKey = 32

var (
	// ErrShortKey reports a key of less than ShortestKey bytes.
	ErrShortKey = fmt.Errorf("the key is shorter than %d bytes", ShortestKey)
	// ErrMalformed reports that a text was never sealed by a Vault: it is too short, or has another version.
	ErrMalformed = errors.New("it isn't encrypted in a form that this version knows")
	// ErrOtherKey reports that a text was sealed with a key that the Vault doesn't have.
	ErrOtherKey = errors.New("it was encrypted with a key that isn't given")
	// ErrChanged reports that a text has been changed since it was encrypted, or was sealed under another context.
	ErrChanged = errors.New("it has been changed since it was encrypted, or belongs elsewhere")
)

// A Vault seals and opens secrets. Any number of goroutines use it.
type Vault struct {
	keys   []Key // the first one seals
	random io.Reader
}

// A Key is one of a Vault. What it shows says nothing of the key that seals.
type Key struct {
	Fingerprint string // 32 hexadecimal digits
	Former      string // the fingerprint that version 0.3 of osb-platform writes, likewise

	id   [idSize]byte
	aead cipher.AEAD
}

// ID is the id of the key that stands in what it seals: 16 hexadecimal digits.
func (k Key) ID() string { return hex.EncodeToString(k.id[:]) }

// New makes a vault for a use. The first key seals, and all of them open: while a key is replaced, give the new one
// first and the old one after it. A key should be random: its fingerprint lets everybody who reads it try guesses.
//
// Errors: there is no key; ErrShortKey. No error contains a part of a key.
func New(use Use, keys ...[]byte) (*Vault, error) {
	if len(keys) == 0 {
		return nil, errors.New("a vault needs a key")
	}
	v := &Vault{random: rand.Reader}
	for at, secret := range keys {
		made, err := newKey(use, secret)
		if err != nil {
			return nil, fmt.Errorf("key %d of %d: %w", at+1, len(keys), err)
		}
		v.keys = append(v.keys, made)
	}
	return v, nil
}

func newKey(use Use, secret []byte) (Key, error) {
	if len(secret) < ShortestKey {
		return Key{}, ErrShortKey
	}
	extracted := extract(use, secret)
	block, err := aes.NewCipher(expand(extracted, "seal"))
	if err != nil {
		return Key{}, err
	}
	aead, err := cipher.NewGCM(block)
	if err != nil {
		return Key{}, err
	}
	named := func(purpose string) string { return hex.EncodeToString(expand(extracted, purpose)[:16]) }
	made := Key{aead: aead, Fingerprint: named("fingerprint 2"), Former: named("fingerprint")}
	copy(made.id[:], expand(extracted, "id"))
	return made, nil
}

// Seal returns the sealed form of a secret. Two calls never return the same. What was sealed under a context can only
// be opened under it. One key may seal 2^32 secrets (NIST SP 800-38D, section 8.3).
//
// Errors: the system gives no random bytes.
func (v *Vault) Seal(plain []byte, context string) ([]byte, error) {
	return v.SealBy(v.keys[0], plain, context)
}

// SealBy is Seal with one of the Keys.
//
// Errors: as Seal.
func (v *Vault) SealBy(by Key, plain []byte, context string) ([]byte, error) {
	sealed := make([]byte, headSize+nonceSize, leastSize+len(plain))
	sealed[0] = version
	copy(sealed[1:], by.id[:])
	nonce := sealed[headSize:]
	if _, err := io.ReadFull(v.random, nonce); err != nil {
		return nil, fmt.Errorf("random bytes: %w", err)
	}
	return by.aead.Seal(sealed, nonce, plain, additional(sealed[:headSize], context)), nil
}

// Open returns the secret of its sealed form.
//
// Errors: ErrMalformed, ErrOtherKey, ErrChanged.
func (v *Vault) Open(sealed []byte, context string) ([]byte, error) {
	plain, _, err := v.OpenBy(sealed, context)
	return plain, err
}

// OpenBy is Open, and returns the key that has opened the sealed form.
//
// Errors: as Open.
func (v *Vault) OpenBy(sealed []byte, context string) (plain []byte, by Key, err error) {
	if len(sealed) < leastSize || sealed[0] != version {
		return nil, Key{}, ErrMalformed
	}
	nonce, rest := sealed[headSize:headSize+nonceSize], sealed[headSize+nonceSize:]
	failed := ErrOtherKey
	for _, key := range v.keys {
		if string(key.id[:]) != string(sealed[1:headSize]) {
			continue
		}
		if plain, err := key.aead.Open(nil, nonce, rest, additional(sealed[:headSize], context)); err == nil {
			return plain, key, nil
		}
		failed = ErrChanged
	}
	return nil, Key{}, failed
}

// Rekey returns the secret of a sealed form sealed anew with the first key, or the form as it is and false if the first
// key has sealed it. Once every sealed form has been replaced, the old keys aren't needed any more.
//
// Errors: those of Open and Seal.
func (v *Vault) Rekey(sealed []byte, context string) (again []byte, isChanged bool, err error) {
	plain, err := v.Open(sealed, context)
	if err != nil {
		return nil, false, err
	}
	if string(v.keys[0].id[:]) == string(sealed[1:headSize]) {
		return sealed, false, nil
	}
	again, err = v.Seal(plain, context)
	return again, err == nil, err
}

// Keys are those of the vault, the one that seals first.
func (v *Vault) Keys() []Key { return append([]Key(nil), v.keys...) }

// SealedBy is the Key.ID of the key with which a form was sealed.
//
// Errors: ErrMalformed.
func SealedBy(sealed []byte) (string, error) {
	if len(sealed) < leastSize || sealed[0] != version {
		return "", ErrMalformed
	}
	return hex.EncodeToString(sealed[1:headSize]), nil
}

// Fingerprint is that of the first key.
func (v *Vault) Fingerprint() string { return v.keys[0].Fingerprint }

// Knows reports whether one of the keys has this fingerprint. While a key is replaced, a store still has that of the
// old one.
func (v *Vault) Knows(fingerprint string) bool {
	for _, key := range v.keys {
		if key.Fingerprint == fingerprint {
			return true
		}
	}
	return false
}

// additional is the additional data: the head, whose length is fixed, and the context.
func additional(head []byte, context string) []byte {
	return append(append(make([]byte, 0, len(head)+len(context)), head...), context...)
}

// extract is HKDF-Extract with SHA-256 (RFC 5869, section 2.2).
func extract(use Use, secret []byte) []byte { return mac([]byte(use), secret) }

// expand is the first block of HKDF-Expand with SHA-256 (RFC 5869, section 2.3): 32 bytes for a purpose.
func expand(extracted []byte, purpose string) []byte {
	return mac(extracted, append([]byte(purpose), 1))
}

func mac(key, text []byte) []byte {
	made := hmac.New(sha256.New, key)
	made.Write(text) // never fails
	return made.Sum(nil)
}

// FromFiles makes a vault for a use with the keys that stand in files, the one that seals first. A file has its key on
// one line of UTF-8 without control characters, at least ShortestKey bytes long, such as one that `openssl rand -hex
// 32` writes. The last line feed is dropped.
//
// The warnings are for the log: there is one for each file whose mode is beyond 0600.
//
// Errors: a name is empty; those of secrets.Secret for a file; those of New.
func FromFiles(use Use, files ...string) (v *Vault, warnings []string, err error) {
	var keys [][]byte
	for _, file := range files {
		if file == "" {
			return nil, nil, errors.New("the file of a key has no name")
		}
		secret, warning, err := secrets.Secret("", file)
		if err != nil {
			return nil, nil, err
		}
		if warning != "" {
			warnings = append(warnings, warning)
		}
		keys = append(keys, []byte(secret))
	}
	if v, err = New(use, keys...); err != nil {
		return nil, nil, err
	}
	return v, warnings, nil
}
