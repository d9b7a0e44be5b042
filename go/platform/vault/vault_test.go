package vault

import (
	"os"
	"path/filepath"
	"testing"

	"pippinterm/internal/diff"
)

// A vault of a platform is made of keys, or of files with them, of which each has to be long enough.
func TestVault(t *testing.T) {
	file := func(text string) string {
		name := filepath.Join(t.TempDir(), "key")
		check(t, os.WriteFile(name, []byte(text), 0o644))
		check(t, os.Chmod(name, 0o644))
		return name
	}
	made, warnings, err := FromFiles(file(string(one) + "\n"))
	diff.Must(t, err)
	diff.Equal(t, made.Fingerprint(), now, "the fingerprint")
	diff.Equal(t, len(warnings), 1, "warnings of a file that others can read")
	if made, _, err := FromFiles(file("short")); err == nil || made != nil {
		t.Errorf("got %v and %v, want only an error", made, err)
	}
	if made, err := New(one[:ShortestKey-1]); err == nil || made != nil {
		t.Errorf("got %v and %v, want only an error", made, err)
	}
}
