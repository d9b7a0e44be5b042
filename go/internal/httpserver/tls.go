package httpserver

import (
	"crypto/tls"
	"crypto/x509"
	"errors"
	"fmt"
	"io"
	"net"
	"os"
	"sync/atomic"

	"pippinterm/internal/ciphers"
)

// CertificateFiles are the names of files in PEM.
type CertificateFiles struct {
	Certificate string // the certificate of the server, followed by those of intermediate authorities
	Key         string // the private key of that certificate
	ClientCA    string // the authorities of client certificates; if it is empty, clients need no certificate
}

// Certificates are what a Listener needs for TLS. They can be read again while the Listener is in use. Any number of
// goroutines may use them.
type Certificates struct {
	files   CertificateFiles
	current atomic.Pointer[tls.Config]
}

// LoadCertificates reads the files.
//
// Errors: Certificate or Key is empty, a file can't be read or has other contents, or the key doesn't belong to the
// certificate. No error contains a part of the key.
func LoadCertificates(files CertificateFiles) (*Certificates, error) {
	c := &Certificates{files: files}
	if err := c.Reload(); err != nil {
		return nil, err
	}
	return c, nil
}

// Reload reads the files again. New connections use what it has read. If it fails, they use what was read before.
//
// Errors: those of LoadCertificates.
func (c *Certificates) Reload() error {
	read, err := c.files.read()
	if err != nil {
		return err
	}
	c.current.Store(read)
	return nil
}

// config returns a configuration that uses the certificates at the time of the handshake.
func (c *Certificates) config() *tls.Config {
	return &tls.Config{GetConfigForClient: func(*tls.ClientHelloInfo) (*tls.Config, error) {
		return c.current.Load(), nil
	}}
}

func (f CertificateFiles) read() (*tls.Config, error) {
	if f.Certificate == "" || f.Key == "" {
		return nil, errors.New("TLS needs both a certificate and a key")
	}
	pair, err := tls.LoadX509KeyPair(f.Certificate, f.Key)
	if err != nil {
		return nil, fmt.Errorf("the certificate %s with the key %s: %w", f.Certificate, f.Key, err)
	}
	config := &tls.Config{
		MinVersion:   tls.VersionTLS12,
		CipherSuites: ciphers.Suites(),
		Certificates: []tls.Certificate{pair},
		NextProtos:   []string{"http/1.1"},
	}
	if f.ClientCA != "" {
		if config.ClientCAs, err = authorities(f.ClientCA); err != nil {
			return nil, err
		}
		config.ClientAuth = tls.RequireAndVerifyClientCert
	}
	return config, nil
}

func authorities(file string) (*x509.CertPool, error) {
	text, err := os.ReadFile(file)
	if err != nil {
		return nil, err
	}
	pool := x509.NewCertPool()
	if !pool.AppendCertsFromPEM(text) {
		return nil, fmt.Errorf("%s has no certificate in PEM", file)
	}
	return pool, nil
}

// shakeHands does the handshake of TLS before the first Read. (net/http does it only for a *tls.Conn.) If the handshake
// fails, shakeHands returns an error for which net/http closes the connection without an answer.
func (c *conn) shakeHands() error {
	if c.secure == nil || c.isShaken {
		return nil
	}
	c.isShaken = true
	err := c.SetWriteDeadline(c.opened.Add(c.listener.options.Silent))
	if err == nil {
		err = c.secure.Handshake()
	}
	if err == nil {
		return nil
	}
	var record tls.RecordHeaderError
	if errors.As(err, &record) && record.Conn != nil && isHTTP(record.RecordHeader) {
		err = errors.New("the client sent HTTP")
		_, _ = io.WriteString(record.Conn, plainAnswer) // fails if the client has gone
	}
	if !isNoise(err) {
		c.listener.options.Observer.OnFailure("tls_handshake_failed", fmt.Errorf("client %s: %w", c.host(), err))
	}
	return io.EOF
}

const plainAnswer = "HTTP/1.0 400 Bad Request\r\nContent-Type: text/plain; charset=utf-8\r\nConnection: close\r\n\r\n" +
	"This port expects HTTPS.\n"

// isHTTP reports whether these first bytes of a connection are those of a request line. A record of TLS doesn't begin
// with a letter.
func isHTTP(first [5]byte) bool {
	for _, b := range first {
		if (b < 'A' || b > 'Z') && b != ' ' && b != '/' {
			return false
		}
	}
	return true
}

// isNoise reports whether a handshake failed as it does if a probe opens a connection and sends nothing.
func isNoise(err error) bool {
	var network *net.OpError
	return err == io.EOF || isTimeout(err) || errors.As(err, &network) && network.Op != "remote error"
}
