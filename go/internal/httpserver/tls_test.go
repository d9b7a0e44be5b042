package httpserver

import (
	"crypto/ecdsa"
	"crypto/elliptic"
	"crypto/rand"
	"crypto/tls"
	"crypto/x509"
	"crypto/x509/pkix"
	"encoding/pem"
	"fmt"
	"math/big"
	"net"
	"net/http"
	"os"
	"path/filepath"
	"strings"
	"testing"
	"time"

	"pippinterm/internal/diff"
	"pippinterm/internal/waits"
)

// startTLS serves echo with these files.
func startTLS(t *testing.T, files CertificateFiles, options Options, server Server) (*Listener, *Certificates) {
	t.Helper()
	certificates := diff.Value(LoadCertificates(files))(t)
	options.Certificates = certificates
	return start(t, options, server, func(w http.ResponseWriter, r *http.Request) {
		if r.TLS == nil {
			t.Error("the request: got no state of TLS, want one")
		} else if len(r.TLS.PeerCertificates) > 0 {
			w.Header().Set("Client", r.TLS.PeerCertificates[0].Subject.CommonName)
		}
		echo(w, r)
	}), certificates
}

// dialTLS returns a client after the handshake, and what the server showed.
func dialTLS(t *testing.T, listener *Listener, config *tls.Config) (client, tls.ConnectionState) {
	t.Helper()
	secure := tls.Client(dial(t, listener).Conn, config)
	check(t, secure.Handshake())
	return clientOf(t, secure), secure.ConnectionState()
}

func TestTLS(t *testing.T) {
	authority := newAuthority(t)
	listener, _ := startTLS(t, authority.issue("server"), Options{}, Server{})
	diff.HasPrefix(t, listener.URL(), "https://127.0.0.1:", "the URL")
	for _, version := range []uint16{tls.VersionTLS12, tls.VersionTLS13} {
		t.Run(fmt.Sprintf("%#x", version), func(t *testing.T) {
			config := authority.client(CertificateFiles{})
			config.MinVersion, config.MaxVersion = version, version
			client, state := dialTLS(t, listener, config)
			diff.Equal(t, state.Version, version, "")
			if left := time.Until(state.PeerCertificates[0].NotAfter); left < 50*time.Second || left > time.Minute {
				t.Errorf("the certificate: got %v left, want about a minute", left)
			}
			client.send(whole)
			client.until("GET /a ;")
			client.send("PUT /b HTTP/1.1\r\nHost: x\r\nContent-Length: 3\r\n\r\nabc")
			client.until("PUT /b abc;")
		})
	}
}

func TestTLSIsBoundedAsHTTPIs(t *testing.T) {
	authority := newAuthority(t)
	observer := &recorder{}
	options := Options{Silent: short, Observer: observer}
	listener, _ := startTLS(t, authority.issue("server"), options, Server{Request: 2 * short})
	for _, test := range []struct{ sent, want string }{
		{"GET /a HT", rejection408},
		{"", ""},
		{"\r\n", ""},
		{"PUT / HTTP/1.1\r\nHost: x\r\nContent-Length: 1\r\nTransfer-Encoding: chunked\r\n\r\n", "HTTP/1.1 400 "},
		{"GET\r\n\r\n", "HTTP/1.1 400 "},
	} {
		t.Run(fmt.Sprintf("%q", test.sent), func(t *testing.T) {
			client, _ := dialTLS(t, listener, authority.client(CertificateFiles{}))
			client.send(test.sent)
			if got := client.rest(); !strings.HasPrefix(got, test.want) || test.want == "" && got != "" {
				t.Errorf("%q: got %q, want %q", test.sent, got, test.want)
			}
		})
	}
	diff.Check(t, observer.waitForStatuses(t, 3), []int{408, 400, 400}, "the observer")
}

func TestClientsThatCantShakeHands(t *testing.T) {
	authority := newAuthority(t)
	old := authority.client(CertificateFiles{})
	old.MinVersion, old.MaxVersion = tls.VersionTLS10, tls.VersionTLS11
	distrustful := newAuthority(t).client(CertificateFiles{})
	weak := authority.client(CertificateFiles{})
	weak.MaxVersion = tls.VersionTLS12
	weak.CipherSuites = []uint16{ // which Go's server takes by default
		tls.TLS_ECDHE_ECDSA_WITH_AES_128_CBC_SHA, tls.TLS_ECDHE_RSA_WITH_AES_128_CBC_SHA, tls.TLS_RSA_WITH_AES_128_GCM_SHA256,
	}
	for name, test := range map[string]struct {
		config *tls.Config
		event  string
	}{
		"TLS 1.1":                        {old, "unsupported versions"},
		"CBC, and no forward secrecy":    {weak, "no cipher suite"},
		"a client that doesn't trust us": {distrustful, "bad certificate"},
	} {
		t.Run(name, func(t *testing.T) {
			observer := &recorder{}
			listener, _ := startTLS(t, authority.issue("server"), Options{Observer: observer}, Server{})
			diff.Error(t, tls.Client(dial(t, listener).Conn, test.config).Handshake(), "the handshake")
			waits.Until(t, "an event", func() bool { return len(observer.events()) > 0 })
			if got := observer.events()[0]; !strings.HasPrefix(got, "tls_handshake_failed: client 127.0.0.1: ") ||
				!strings.Contains(got, test.event) {
				t.Errorf("the observer: got %q, want a handshake that failed with %q", got, test.event)
			}
		})
	}
}

func TestHTTPAtAPortOfTLS(t *testing.T) {
	observer := &recorder{}
	listener, _ := startTLS(t, newAuthority(t).issue("server"), Options{Observer: observer}, Server{})
	client := dial(t, listener)
	client.send(whole)
	diff.Equal(t, client.rest(), plainAnswer, "")
	waits.Until(t, "an event", func() bool { return len(observer.events()) > 0 })
	if got := observer.events(); len(got) != 1 || !strings.HasSuffix(got[0], "the client sent HTTP") {
		t.Errorf("the observer: got %q, want one of a client that sent HTTP", got)
	}
}

// What is neither TLS nor HTTP isn't answered.
func TestAnotherProtocolAtAPortOfTLS(t *testing.T) {
	observer := &recorder{}
	listener, _ := startTLS(t, newAuthority(t).issue("server"), Options{Observer: observer}, Server{})
	for n, sent := range []string{"SSH-2.0-OpenSSH_9.2\r\n", "get /a HTTP/1.1\r\n\r\n", "\x00\x00\x00\x08\x04\xd2\x16\x2f"} {
		client := dial(t, listener)
		client.send(sent)
		diff.Equal(t, client.rest(), "", "%q", sent)
		waits.Until(t, "an event", func() bool { return len(observer.events()) > n })
		diff.HasSuffix(t, observer.events()[n], "does not look like a TLS handshake", "%q", sent)
	}
}

func TestAProbeOfThePortIsNoFailure(t *testing.T) {
	observer := &recorder{}
	listener, _ := startTLS(t, newAuthority(t).issue("server"), Options{Silent: short, Observer: observer}, Server{})
	dial(t, listener).Close()
	diff.Equal(t, dial(t, listener).rest(), "", "a silent client")
	waits.Until(t, "both are closed", func() bool { return listener.Connections() == 1 })
	diff.Empty(t, observer.events(), "the observer")
}

func TestClientCertificates(t *testing.T) {
	authority := newAuthority(t)
	files := authority.issue("server")
	files.ClientCA = authority.path("authority.pem")
	listener, _ := startTLS(t, files, Options{}, Server{})
	client, _ := dialTLS(t, listener, authority.client(authority.issue("cloudfoundry")))
	client.send(whole)
	diff.Contains(t, client.until("GET /a ;"), "\r\nClient: cloudfoundry\r\n", "the answer")
	others := map[string]CertificateFiles{"none": {}, "of another authority": newAuthority(t).issue("other")}
	for name, own := range others {
		t.Run(name, func(t *testing.T) {
			config := authority.client(own)
			config.MaxVersion = tls.VersionTLS12 // in which the client hears of it during the handshake
			diff.Error(t, tls.Client(dial(t, listener).Conn, config).Handshake(), "the handshake")
		})
	}
}

func TestReload(t *testing.T) {
	authority := newAuthority(t)
	files := authority.issue("server")
	listener, certificates := startTLS(t, files, Options{}, Server{})
	shown := func() string {
		_, state := dialTLS(t, listener, authority.client(CertificateFiles{}))
		return state.PeerCertificates[0].SerialNumber.String() + state.PeerCertificates[0].NotBefore.String() +
			fmt.Sprintf("%x", state.PeerCertificates[0].Signature)
	}
	first := shown()
	authority.issue("server") // in the same files
	diff.Equal(t, shown(), first, "")
	check(t, certificates.Reload())
	second := shown()
	diff.Equal(t, second == first, false, "the certificate that was read is the same")
	check(t, os.WriteFile(files.Key, []byte("no key"), 0o600))
	diff.ErrorContains(t, certificates.Reload(), files.Key, "a key that is none")
	diff.Equal(t, shown(), second, "")
}

func TestCertificatesThatCantBeUsed(t *testing.T) {
	authority := newAuthority(t)
	files, other := authority.issue("server"), authority.issue("other")
	none := authority.path("none")
	for name, test := range map[string]struct {
		files CertificateFiles
		has   string
	}{
		"nothing":                    {CertificateFiles{}, "both a certificate and a key"},
		"no key":                     {CertificateFiles{Certificate: files.Certificate}, "both a certificate and a key"},
		"no certificate":             {CertificateFiles{Key: files.Key, ClientCA: files.Certificate}, "both a certificate and a key"},
		"a file that is missing":     {CertificateFiles{Certificate: none, Key: files.Key}, none + ": no such file"},
		"the key of another":         {CertificateFiles{Certificate: files.Certificate, Key: other.Key}, other.Key},
		"a certificate that is none": {CertificateFiles{Certificate: files.Key, Key: files.Key}, files.Key},
		"no authority": {
			CertificateFiles{Certificate: files.Certificate, Key: files.Key, ClientCA: none}, none + ": no such file"},
		"an authority that is none": {
			CertificateFiles{Certificate: files.Certificate, Key: files.Key, ClientCA: files.Key}, files.Key + " has no certificate"},
	} {
		t.Run(name, func(t *testing.T) {
			diff.ErrorContains(t, diff.Err(LoadCertificates(test.files)), test.has, "")
		})
	}
}

// An authority signs certificates in a folder of the test.
type authority struct {
	t           *testing.T
	folder      string
	certificate *x509.Certificate
	key         *ecdsa.PrivateKey
}

func newAuthority(t *testing.T) *authority {
	t.Helper()
	a := &authority{t: t, folder: t.TempDir()}
	template := &x509.Certificate{
		SerialNumber: big.NewInt(1), Subject: pkix.Name{CommonName: "authority"}, NotAfter: time.Now().Add(time.Hour),
		IsCA: true, BasicConstraintsValid: true, KeyUsage: x509.KeyUsageCertSign,
	}
	a.key = a.newKey()
	a.certificate = a.sign("authority.pem", template, template, a.key)
	return a
}

func (a *authority) newKey() *ecdsa.PrivateKey {
	a.t.Helper()
	return diff.Value(ecdsa.GenerateKey(elliptic.P256(), rand.Reader))(a.t)
}

func (a *authority) sign(file string, template, parent *x509.Certificate, of *ecdsa.PrivateKey) *x509.Certificate {
	a.t.Helper()
	der := diff.Value(x509.CreateCertificate(rand.Reader, template, parent, &of.PublicKey, a.key))(a.t)
	a.write(file, "CERTIFICATE", der)
	return diff.Value(x509.ParseCertificate(der))(a.t)
}

func (a *authority) write(file, kind string, der []byte) {
	a.t.Helper()
	text := pem.EncodeToMemory(&pem.Block{Type: kind, Bytes: der})
	check(a.t, os.WriteFile(a.path(file), text, 0o600))
}

func (a *authority) path(file string) string { return filepath.Join(a.folder, file) }

// issue writes a certificate for 127.0.0.1 with this name and its key, and returns their files.
func (a *authority) issue(name string) CertificateFiles {
	a.t.Helper()
	key := a.newKey()
	a.sign(name+".pem", &x509.Certificate{
		SerialNumber: big.NewInt(2), Subject: pkix.Name{CommonName: name}, NotAfter: time.Now().Add(time.Minute),
		IPAddresses: []net.IP{net.IPv4(127, 0, 0, 1)},
		ExtKeyUsage: []x509.ExtKeyUsage{x509.ExtKeyUsageServerAuth, x509.ExtKeyUsageClientAuth},
	}, a.certificate, key)
	der := diff.Value(x509.MarshalECPrivateKey(key))(a.t)
	a.write(name+".key", "EC PRIVATE KEY", der)
	return CertificateFiles{Certificate: a.path(name + ".pem"), Key: a.path(name + ".key")}
}

// client returns what a client needs that trusts this authority, and shows the certificate of these files if there are.
func (a *authority) client(files CertificateFiles) *tls.Config {
	a.t.Helper()
	roots := x509.NewCertPool()
	roots.AddCert(a.certificate)
	config := &tls.Config{RootCAs: roots, ServerName: "127.0.0.1"}
	if files.Certificate == "" {
		return config
	}
	pair := diff.Value(tls.LoadX509KeyPair(files.Certificate, files.Key))(a.t)
	config.Certificates = []tls.Certificate{pair}
	return config
}
