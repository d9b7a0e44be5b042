// Package ciphers has the cipher suites of TLS 1.2 that the programs take.
package ciphers

import "crypto/tls"

// Suites returns the suites of TLS 1.2 with forward secrecy and authenticated encryption. Go's own list also has some
// with CBC, and some in which the key of the certificate decrypts the session. The suites of TLS 1.3 can't be chosen, and
// are all of this kind.
func Suites() []uint16 {
	return []uint16{
		tls.TLS_ECDHE_ECDSA_WITH_AES_128_GCM_SHA256, tls.TLS_ECDHE_RSA_WITH_AES_128_GCM_SHA256,
		tls.TLS_ECDHE_ECDSA_WITH_AES_256_GCM_SHA384, tls.TLS_ECDHE_RSA_WITH_AES_256_GCM_SHA384,
		tls.TLS_ECDHE_ECDSA_WITH_CHACHA20_POLY1305_SHA256, tls.TLS_ECDHE_RSA_WITH_CHACHA20_POLY1305_SHA256,
	}
}
