package vault

import (
	"bytes"
	"encoding/hex"
	"errors"
	"os"
	"path/filepath"
	"strings"
	"testing"

	"pippinterm/internal/diff"
)

var (
	one   = []byte("the first key, of forty bytes, and more.")
	other = []byte("another key, which has forty bytes, too.")
)

const here, there = "an instance/a binding", "an instance/another"

func newVault(t *testing.T, keys ...[]byte) *Vault {
	t.Helper()
	return diff.Value(New(OfPlatform, keys...))(t)
}

func sealedBy(t *testing.T, v *Vault, plain string) []byte {
	t.Helper()
	return diff.Value(v.Seal([]byte(plain), here))(t)
}

// What is sealed opens, under its context, and shows nothing.
func TestSealed(t *testing.T) {
	v := newVault(t, one)
	for _, plain := range []string{"", "x", `{"credentials":{"password":"hunter2"}}`, strings.Repeat("long", 1<<18)} {
		sealed := sealedBy(t, v, plain)
		opened := diff.Value(v.Open(sealed, here))(t)
		diff.Equal(t, string(opened), plain, "%.20q", plain)
		if len(sealed) != leastSize+len(plain) || len(plain) > 9 && bytes.Contains(sealed, []byte(plain[:9])) {
			t.Errorf("%.20q: got %d bytes, want them encrypted", plain, len(sealed))
		}
	}
}

// Two seals of the same differ in their nonces and in all that follows.
func TestSealedTwice(t *testing.T) {
	v, seen := newVault(t, one), map[string]bool{}
	for range [1000]int{} {
		sealed := sealedBy(t, v, "the same")
		seen[string(sealed[headSize:headSize+nonceSize])] = true
		seen[string(sealed[headSize+nonceSize:])] = true
	}
	diff.Equal(t, len(seen), 2000, "that differ")
}

// What doesn't open.
func TestNotOpened(t *testing.T) {
	v := newVault(t, one)
	sealed := sealedBy(t, v, "a secret")
	for what, row := range map[string]struct {
		by      *Vault
		sealed  []byte
		context string
		failed  error
	}{
		"another context":    {v, sealed, there, ErrChanged},
		"no context":         {v, sealed, "", ErrChanged},
		"a longer context":   {v, sealed, here + "x", ErrChanged},
		"another key":        {newVault(t, other), sealed, here, ErrOtherKey},
		"nothing":            {v, nil, here, ErrMalformed},
		"an empty text":      {v, []byte{}, here, ErrMalformed},
		"a clear text":       {v, []byte("a password that was never sealed, in clear"), here, ErrMalformed},
		"one byte more":      {v, append(append([]byte(nil), sealed...), 0), here, ErrChanged},
		"twice":              {v, append(append([]byte(nil), sealed...), sealed...), here, ErrChanged},
		"the secret of none": {v, make([]byte, 99), here, ErrMalformed},
	} {
		t.Run(what, func(t *testing.T) {
			if plain, err := row.by.Open(row.sealed, row.context); !errors.Is(err, row.failed) || plain != nil {
				t.Errorf("got %q, %v, want %v", plain, err, row.failed)
			}
		})
	}
}

// Each bit counts.
func TestFlippedBits(t *testing.T) {
	v := newVault(t, one)
	sealed := sealedBy(t, v, "a secret")
	for at := 0; at < 8*len(sealed); at++ {
		flipped := append([]byte(nil), sealed...)
		flipped[at/8] ^= 1 << (at % 8)
		if plain, err := v.Open(flipped, here); err == nil || plain != nil {
			t.Errorf("bit %d: got %q, want an error", at, plain)
		}
	}
}

// Each byte counts.
func TestTruncated(t *testing.T) {
	v := newVault(t, one)
	sealed := sealedBy(t, v, "a secret")
	for length := range sealed {
		if plain, err := v.Open(sealed[:length], here); err == nil || plain != nil {
			t.Errorf("%d bytes: got %q, want an error", length, plain)
		}
		if plain, err := v.Open(sealed[len(sealed)-length:], here); err == nil || plain != nil {
			t.Errorf("the last %d bytes: got %q, want an error", length, plain)
		}
	}
}

// What was sealed isn't changed by being opened, and neither is what is sealed.
func TestUnchanged(t *testing.T) {
	v, plain := newVault(t, one), []byte("a secret")
	sealed := diff.Value(v.Seal(plain, here))(t)
	before := append([]byte(nil), sealed...)
	for range [2]int{} {
		diff.Equal(t, string(diff.Value(v.Open(sealed, here))(t)), "a secret", "")
	}
	if !bytes.Equal(before, sealed) || string(plain) != "a secret" {
		t.Errorf("got %[2]x, want %[1]x", before, sealed)
	}
}

// Keys that are too short, or none.
func TestKeys(t *testing.T) {
	for _, keys := range [][][]byte{{one[:31]}, {{}}, {nil}, {one, one[:31]}} {
		diff.ErrorIs(t, diff.Err(New(OfPlatform, keys...)), ErrShortKey, "%d keys", len(keys))
	}
	diff.Error(t, diff.Err(New(OfPlatform)), "a vault without a key")
	newVault(t, one[:32])
}

// While a key is replaced, the new one seals, and both open.
func TestRotated(t *testing.T) {
	before, during, after := newVault(t, one), newVault(t, other, one), newVault(t, other)
	old := sealedBy(t, before, "a secret")
	diff.Equal(t, string(diff.Value(during.Open(old, here))(t)), "a secret", "")
	diff.Equal(t, string(diff.Value(after.Open(sealedBy(t, during, "a secret"), here))(t)), "a secret", "")
	again, isChanged, err := during.Rekey(old, here)
	if err != nil || !isChanged {
		t.Fatalf("got a change: %t, and the error %v, want a change", isChanged, err)
	}
	diff.Equal(t, string(diff.Value(after.Open(again, here))(t)), "a secret", "")
	same, isChanged, err := during.Rekey(again, here)
	if err != nil || isChanged || !bytes.Equal(same, again) {
		t.Errorf("got %x, changed: %v, %v, want no change", same, isChanged, err)
	}
	if _, _, err := during.Rekey(old, there); !errors.Is(err, ErrChanged) {
		t.Errorf("got the error %v, want %v", err, ErrChanged)
	}
	if _, _, err := after.Rekey(old, here); !errors.Is(err, ErrOtherKey) {
		t.Errorf("got the error %v, want %v", err, ErrOtherKey)
	}
}

// The fingerprint is that of the first key, and all of them are known.
func TestFingerprint(t *testing.T) {
	first, second, both := newVault(t, one), newVault(t, other), newVault(t, one, other)
	if first.Fingerprint() != both.Fingerprint() || first.Fingerprint() == second.Fingerprint() {
		t.Errorf("got %s, %s and %s, want the last like the first, and another in between",
			first.Fingerprint(), second.Fingerprint(), both.Fingerprint())
	}
	if !both.Knows(first.Fingerprint()) || !both.Knows(second.Fingerprint()) || first.Knows(second.Fingerprint()) ||
		first.Knows("") {
		t.Error("got other fingerprints that are known, want those of the keys")
	}
	sealed := sealedBy(t, first, "a secret")
	id, extracted := hex.EncodeToString(sealed[1:headSize]), extract(OfPlatform, one)
	seals := hex.EncodeToString(expand(extracted, "seal"))
	if strings.Contains(seals, id) || strings.Contains(seals, first.Fingerprint()) ||
		strings.Contains(first.Fingerprint(), id) {
		t.Error("got the fingerprint or the id in the key that encrypts, want neither")
	}
}

// What another implementation of the layout has sealed: by the package cryptography of Python, with the nonce 00 01 ..
// 0b.
const (
	written = "01db1753f010df6214" + "000102030405060708090a0b" +
		"0707072fa6ae55668de3278a785fed49891b05e5385527e7"
)

// The layout and the derivation stay, so that what was sealed before can be opened.
func TestStaysReadable(t *testing.T) {
	sealed := diff.Value(hex.DecodeString(written))(t)
	v := newVault(t, one)
	diff.Equal(t, string(diff.Value(v.Open(sealed, here))(t)), "a secret", "")
	diff.Equal(t, v.Fingerprint(), "d5eeb89b0b7b533d08b1d78365894caf", "the fingerprint")
}

// What is sealed for one use isn't opened for another, and says with which key it was sealed.
func TestUses(t *testing.T) {
	ofBroker := diff.Value(New(OfBroker, one))(t)
	sealed := diff.Value(ofBroker.Seal([]byte("a secret"), here))(t)
	diff.ErrorIs(t, diff.Err(newVault(t, one).Open(sealed, here)), ErrOtherKey, "the same key for another use")
	diff.Equal(t, diff.Value(SealedBy(sealed))(t), ofBroker.Keys()[0].ID(), "the id of the key")
	written := diff.Value(hex.DecodeString(written))(t)
	diff.Equal(t, diff.Value(SealedBy(written))(t), "db1753f010df6214", "the id of the key of another implementation")
	diff.ErrorIs(t, diff.Err(SealedBy(sealed[:leastSize-1])), ErrMalformed, "too short")
	diff.ErrorIs(t, diff.Err(SealedBy(append([]byte{2}, sealed[1:]...))), ErrMalformed, "another version")
	v := newVault(t, other, one)
	v.Keys()[0] = Key{}
	diff.Equal(t, v.Keys()[0].ID(), newVault(t, other).Keys()[0].ID(), "the first key")
	old := sealedBy(t, newVault(t, one), "a secret")
	plain, by, err := v.OpenBy(old, here)
	diff.Must(t, err)
	diff.Equal(t, string(plain), "a secret", "the secret")
	diff.Equal(t, by.ID(), v.Keys()[1].ID(), "the key that has opened it")
	diff.Equal(t, diff.Value(SealedBy(diff.Value(v.SealBy(by, plain, there))(t)))(t), by.ID(), "sealed by the same key")
}

// HKDF-SHA256 has the values of RFC 5869, appendix A.1, whose first 32 bytes are its first block.
func TestDerivation(t *testing.T) {
	secret := bytes.Repeat([]byte{0x0b}, 22)
	salt, _ := hex.DecodeString("000102030405060708090a0b0c")
	info, _ := hex.DecodeString("f0f1f2f3f4f5f6f7f8f9")
	const wanted = "3cb25f25faacd57a90434f64d0362f2a2d2d0a90cf1a5a4c5db02d56ecc4c5bf"
	diff.Equal(t, hex.EncodeToString(expand(mac(salt, secret), string(info))), wanted, "")
}

// No random bytes: nothing is sealed.
func TestNoRandomBytes(t *testing.T) {
	v := newVault(t, one)
	v.random = strings.NewReader("short")
	if sealed, err := v.Seal([]byte("a secret"), here); err == nil || sealed != nil {
		t.Errorf("got %x, %v, want only an error", sealed, err)
	}
}

// Keys of files: each a line.
func TestFromFiles(t *testing.T) {
	write := func(text string, mode os.FileMode) string {
		name := filepath.Join(t.TempDir(), "key")
		diff.Must(t, os.WriteFile(name, []byte(text), 0o600))
		diff.Must(t, os.Chmod(name, mode))
		return name
	}
	long := string(one) + "\n"
	v, warnings, err := FromFiles(OfPlatform, write(string(other)+"\n", 0o600), write(long, 0o644))
	if err != nil || len(warnings) != 1 {
		t.Fatalf("got the warnings %q and the error %v, want one warning", warnings, err)
	}
	sealed := sealedBy(t, newVault(t, one), "a secret")
	diff.Equal(t, string(diff.Value(v.Open(sealed, here))(t)), "a secret", "")
	diff.Equal(t, v.Fingerprint(), newVault(t, other).Fingerprint(), "the fingerprint")
	for what, files := range map[string][]string{
		"none": {}, "no name": {""}, "no file": {"nowhere"}, "short": {write("short", 0o600)},
		"empty":     {write("", 0o600)},
		"two lines": {write(long+long, 0o600)}, "no text": {write("\x00\xff"+long, 0o600)},
		"the second": {write(long, 0o600), write("short", 0o600)},
	} {
		t.Run(what, func(t *testing.T) {
			if _, _, err := FromFiles(OfPlatform, files...); err == nil || strings.Contains(err.Error(), string(one)) {
				t.Errorf("got %v, want an error without the key", err)
			}
		})
	}
}
