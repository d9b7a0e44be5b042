// Package vault seals the credentials and the passwords in the store of a platform, and replaces the key with which
// they are sealed.
package vault

import (
	"pippinterm/internal/vault"
	"pippinterm/platform"
)

// ShortestKey is the least length of a key, in bytes.
const ShortestKey = vault.ShortestKey

// The errors of a Vault.
var (
	ErrShortKey  = vault.ErrShortKey  // a key has less than ShortestKey bytes
	ErrMalformed = vault.ErrMalformed // a text was never sealed by a Vault
	ErrOtherKey  = vault.ErrOtherKey  // a text was sealed with a key that the Vault doesn't have
	ErrChanged   = vault.ErrChanged   // a text was changed since it was sealed, or sealed under another context
)

// A Vault seals and opens secrets. Any number of goroutines use it. It is a platform.Vault. Its Fingerprint isn't the
// one of version 0.3: by it a store says that its passwords are sealed under platform.PasswordContext (Renew).
type Vault struct{ *vault.Vault }

var _ platform.Vault = (*Vault)(nil)

// New makes a vault. The first key seals, and all of them open: while a key is replaced, give the new one first and the
// old one after it. A key should be random: its fingerprint lets everybody who reads it try guesses.
//
// Errors: there is no key; ErrShortKey. No error contains a part of a key.
func New(keys ...[]byte) (*Vault, error) {
	made, err := vault.New(vault.OfPlatform, keys...)
	if err != nil {
		return nil, err
	}
	return &Vault{made}, nil
}

// FromFiles makes a vault with the keys that stand in files, the one that seals first. A file has its key on one line
// of UTF-8 without control characters, at least ShortestKey bytes long, such as one that `openssl rand -hex 32` writes.
// The last line feed is dropped.
//
// The warnings are for the log: there is one for each file whose mode is beyond 0600.
//
// Errors: a name is empty; a file can't be read, or its text is no such line; those of New.
func FromFiles(files ...string) (v *Vault, warnings []string, err error) {
	made, warnings, err := vault.FromFiles(vault.OfPlatform, files...)
	if err != nil {
		return nil, nil, err
	}
	return &Vault{made}, warnings, nil
}
