package ciphers

import (
	"crypto/tls"
	"strings"
	"testing"

	"pippinterm/internal/diff"
)

// Each suite has forward secrecy and authenticated encryption, by its name, and none is one that Go calls insecure.
func TestSuites(t *testing.T) {
	known := map[uint16]string{}
	for _, suite := range tls.CipherSuites() {
		known[suite.ID] = suite.Name
	}
	diff.Equal(t, len(Suites()), 6, "suites")
	for _, suite := range Suites() {
		name := known[suite]
		if !strings.HasPrefix(name, "TLS_ECDHE_") || strings.Contains(name, "CBC") ||
			!strings.Contains(name, "GCM") && !strings.Contains(name, "POLY1305") {
			t.Errorf("suite %x: got %q, want one with forward secrecy and AEAD", suite, name)
		}
	}
}
