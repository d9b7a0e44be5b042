package client

import (
	"errors"
	"fmt"
	"os"
	"sync"
	"time"

	"pippinterm/internal/secrets"
	"pippinterm/platform"
)

// Passwords are those of brokers: sealed in the store, or in files that are read again when they change. Any number of
// goroutines use them.
//
// A file with a key is never read: whoever writes its name into the store would have the key sent to a URL.
type Passwords struct {
	vault platform.Vault
	warn  func(warning string)
	keys  []string

	mutex sync.Mutex
	files map[string]*passwordFile
}

// settled is for how long a file mustn't have changed before it is read for the last time: a file may be changed twice
// within what its time of change can distinguish.
const settled = 2 * time.Second

// A passwordFile is a file as it was when it was read last.
type passwordFile struct {
	about     os.FileInfo
	isSettled bool
	password  string // or empty if none was ever read
	warned    string
}

// NewPasswords makes them. The vault may be nil; no sealed password can be opened then. warn is called, one call at a
// time, with what is for the log: a file whose mode is beyond 0600, and one that can't be read any more. It may be nil.
// keys are files with keys, which aren't read.
func NewPasswords(vault platform.Vault, warn func(warning string), keys ...string) *Passwords {
	if warn == nil {
		warn = func(string) {}
	}
	return &Passwords{vault: vault, warn: warn, keys: keys, files: make(map[string]*passwordFile)}
}

// Of returns the password of a broker, in clear. A sealed one is opened under platform.PasswordContext. A file has it
// on one line, as secrets.Secret reads it. If a file can't be read, but could be before, the password that was in it
// then counts, so that no order is lost while a file is replaced.
//
// Errors: the broker has no password, or a sealed one and there is no vault; those of the vault and of secrets.Secret.
func (p *Passwords) Of(broker platform.Broker) (string, error) {
	switch {
	case broker.Password == nil && broker.PasswordFile == "":
		return "", errors.New("it has none: give it one, or a file with it")
	case broker.Password == nil:
		return p.ofFile(broker.PasswordFile)
	case p.vault == nil:
		return "", errors.New("it is sealed, and no key is given that opens it")
	}
	plain, err := p.vault.Open(broker.Password, platform.PasswordContext(broker))
	if err != nil {
		return "", fmt.Errorf("the one in the store isn't encrypted for this URL and this user: %w. Check both, and set "+
			"the password again: osb-platform broker set %s --store-password", err, broker.Name)
	}
	return string(plain), nil
}

func (p *Passwords) ofFile(name string) (string, error) {
	p.mutex.Lock()
	defer p.mutex.Unlock()
	known := p.files[name]
	if known == nil {
		known = &passwordFile{}
		p.files[name] = known
	}
	about, err := os.Stat(name)
	if err == nil && p.isKey(about) {
		return "", fmt.Errorf("%s has the key of the store, which isn't sent. Name another file: osb-platform broker set "+
			"NAME --password-file FILE", name)
	}
	if err == nil && known.isSettled && isSame(known.about, about) {
		return known.password, nil
	}
	read, warning, readErr := secrets.Secret("", name)
	switch {
	case readErr == nil:
		known.password, known.about = read, about
		known.isSettled = err == nil && time.Since(about.ModTime()) > settled
	case known.password == "":
		return "", readErr
	default:
		known.isSettled = false
		warning = "the password that was read before is used: " + readErr.Error()
	}
	if warning != known.warned {
		known.warned = warning
		if warning != "" {
			p.warn(warning)
		}
	}
	return known.password, nil
}

// isKey reports whether a file has a key.
func (p *Passwords) isKey(about os.FileInfo) bool {
	for _, fingerprint := range p.keys {
		if key, err := os.Stat(fingerprint); err == nil && os.SameFile(key, about) {
			return true
		}
	}
	return false
}

func isSame(one, other os.FileInfo) bool {
	return os.SameFile(one, other) && one.Size() == other.Size() && one.ModTime().Equal(other.ModTime())
}
