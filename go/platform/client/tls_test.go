package client

import (
	"bytes"
	"context"
	"crypto/ecdsa"
	"crypto/elliptic"
	"crypto/rand"
	"crypto/tls"
	"crypto/x509"
	"crypto/x509/pkix"
	"encoding/pem"
	"errors"
	"io"
	"log"
	"math/big"
	"net"
	"net/http"
	"net/http/httptest"
	"net/url"
	"os"
	"os/exec"
	"path/filepath"
	"strings"
	"sync/atomic"
	"testing"
	"time"

	"pippinterm/internal/diff"
	"pippinterm/osb"
	"pippinterm/platform"
)

// An authority signs certificates of tests.
type authority struct {
	folder string
	made   *x509.Certificate
	key    *ecdsa.PrivateKey
}

func newAuthority(t *testing.T) *authority {
	t.Helper()
	a := &authority{folder: t.TempDir()}
	a.made, a.key = a.sign(t, "authority", func(c *x509.Certificate) {
		c.IsCA, c.BasicConstraintsValid, c.KeyUsage = true, true, x509.KeyUsageCertSign
	})
	return a
}

// sign writes NAME.crt and NAME.key. Without an authority yet, the certificate signs itself.
func (a *authority) sign(
	t *testing.T, name string, change func(*x509.Certificate),
) (*x509.Certificate, *ecdsa.PrivateKey) {
	t.Helper()
	key := diff.Value(ecdsa.GenerateKey(elliptic.P256(), rand.Reader))(t)
	wanted := &x509.Certificate{
		SerialNumber: big.NewInt(time.Now().UnixNano()), Subject: pkix.Name{CommonName: name},
		NotBefore: time.Now().Add(-time.Hour), NotAfter: time.Now().Add(time.Hour),
		ExtKeyUsage: []x509.ExtKeyUsage{x509.ExtKeyUsageServerAuth, x509.ExtKeyUsageClientAuth},
	}
	change(wanted)
	parent, signer := a.made, a.key
	if parent == nil {
		parent, signer = wanted, key
	}
	text := diff.Value(x509.CreateCertificate(rand.Reader, wanted, parent, &key.PublicKey, signer))(t)
	made := diff.Value(x509.ParseCertificate(text))(t)
	private := diff.Value(x509.MarshalPKCS8PrivateKey(key))(t)
	writeFile(t, a.file(name+".crt"), string(pem.EncodeToMemory(&pem.Block{Type: "CERTIFICATE", Bytes: text})))
	writeFile(t, a.file(name+".key"), string(pem.EncodeToMemory(&pem.Block{Type: "PRIVATE KEY", Bytes: private})))
	return made, key
}

func (a *authority) file(name string) string { return filepath.Join(a.folder, name) }

func writeFile(t *testing.T, name, text string) {
	t.Helper()
	check(t, os.WriteFile(name, []byte(text), 0o600))
}

func here(c *x509.Certificate) { c.IPAddresses = []net.IP{net.IPv4(127, 0, 0, 1)} }

// secure serves over TLS, with a certificate of the authority, and returns identities. It would rather speak HTTP/2.
func (a *authority) secure(t *testing.T, name string, change func(*tls.Config)) *httptest.Server {
	t.Helper()
	pair := diff.Value(tls.LoadX509KeyPair(a.file(name+".crt"), a.file(name+".key")))(t)
	server := httptest.NewUnstartedServer(http.HandlerFunc(func(w http.ResponseWriter, r *http.Request) {
		w.Header().Set(osb.RequestIdentityHeader, r.Header.Get(osb.RequestIdentityHeader))
		_, _ = io.WriteString(w, `{"description":"`+r.Proto+`"}`)
	}))
	server.EnableHTTP2 = true
	server.TLS = &tls.Config{Certificates: []tls.Certificate{pair}}
	change(server.TLS)
	server.Config.ErrorLog = log.New(io.Discard, "", 0)
	server.StartTLS()
	t.Cleanup(server.Close)
	return server
}

// A broker is trusted by the authorities that are named, under its own name.
func TestTrusted(t *testing.T) {
	ours, others := newAuthority(t), newAuthority(t)
	ours.sign(t, "broker", here)
	ours.sign(t, "elsewhere", func(c *x509.Certificate) { c.DNSNames = []string{"elsewhere.example"} })
	ours.sign(t, "old", func(c *x509.Certificate) { here(c); c.NotAfter = time.Now().Add(-time.Minute) })
	for what, row := range map[string]struct {
		name  string
		trust string
		isIn  bool
	}{
		"our authority":          {"broker", ours.file("authority.crt"), true},
		"another authority":      {"broker", others.file("authority.crt"), false},
		"the system's":           {"broker", "", false},
		"another name":           {"elsewhere", ours.file("authority.crt"), false},
		"a certificate that was": {"old", ours.file("authority.crt"), false},
	} {
		t.Run(what, func(t *testing.T) {
			server := ours.secure(t, row.name, func(*tls.Config) {})
			c := newClient(t, Options{TLS: Files{Authorities: row.trust}})
			in := exchange(t, c, server.URL, osb.KindDeprovision)
			if (in.Lost == nil) != row.isIn || !row.isIn && !errors.Is(in.Lost, ErrNotSent) {
				t.Errorf("got the error %v, want none: %t, otherwise ErrNotSent", in.Lost, row.isIn)
			}
			if row.isIn && *in.Details.Description != "HTTP/1.1" {
				t.Errorf("got %s, want HTTP/1.1", *in.Details.Description)
			}
		})
	}
}

// With TLS 1.2, a broker needs a suite with forward secrecy and authenticated encryption.
func TestSuitesOfABroker(t *testing.T) {
	ours := newAuthority(t)
	ours.sign(t, "broker", here)
	for suite, isIn := range map[uint16]bool{
		tls.TLS_ECDHE_ECDSA_WITH_AES_128_GCM_SHA256: true, tls.TLS_ECDHE_ECDSA_WITH_AES_128_CBC_SHA: false,
	} {
		t.Run(tls.CipherSuiteName(suite), func(t *testing.T) {
			server := ours.secure(t, "broker", func(config *tls.Config) {
				config.MaxVersion, config.CipherSuites = tls.VersionTLS12, []uint16{suite}
			})
			c := newClient(t, Options{TLS: Files{Authorities: ours.file("authority.crt")}})
			in := exchange(t, c, server.URL, osb.KindDeprovision)
			if (in.Lost == nil) != isIn || !isIn && !errors.Is(in.Lost, ErrNotSent) {
				t.Errorf("got the error %v, want none: %t, otherwise ErrNotSent", in.Lost, isIn)
			}
		})
	}
}

// A broker that asks for a certificate gets the platform's, also one that was replaced meanwhile.
func TestOwnCertificate(t *testing.T) {
	ours := newAuthority(t)
	ours.sign(t, "broker", here)
	ours.sign(t, "platform", func(*x509.Certificate) {})
	var shown atomic.Pointer[big.Int]
	server := ours.secure(t, "broker", func(config *tls.Config) {
		config.ClientAuth, config.ClientCAs = tls.RequireAndVerifyClientCert, x509.NewCertPool()
		config.ClientCAs.AddCert(ours.made)
		config.VerifyConnection = func(state tls.ConnectionState) error {
			shown.Store(state.PeerCertificates[0].SerialNumber)
			return nil
		}
	})
	trusting := Files{Authorities: ours.file("authority.crt")}
	diff.Error(t, exchange(t, newClient(t, Options{TLS: trusting}), server.URL, osb.KindDeprovision).Lost,
		"a platform without a certificate")
	trusting.Certificate, trusting.Key = ours.file("platform.crt"), ours.file("platform.key")
	c := newClient(t, Options{TLS: trusting})
	diff.NoError(t, exchange(t, c, server.URL, osb.KindDeprovision).Lost, "")
	before := shown.Load()
	writeFile(t, trusting.Certificate, "half a file")
	diff.Error(t, c.Reload(), "half a file")
	diff.NoError(t, exchange(t, c, server.URL, osb.KindDeprovision).Lost, "")
	next, _ := ours.sign(t, "platform", func(*x509.Certificate) {})
	diff.NoError(t, c.Reload(), "")
	c.Close() // the connections that were kept have shown the old one
	diff.NoError(t, exchange(t, c, server.URL, osb.KindDeprovision).Lost, "")
	if after := shown.Load(); before.Cmp(after) == 0 || after.Cmp(next.SerialNumber) != 0 {
		t.Errorf("the certificate: got %v and then %v, want the next one", before, after)
	}
}

// Over TLS, too, connections are kept.
func TestKeptOverTLS(t *testing.T) {
	ours := newAuthority(t)
	ours.sign(t, "broker", here)
	var connections int32
	server := ours.secure(t, "broker", func(config *tls.Config) {
		config.VerifyConnection = func(tls.ConnectionState) error {
			atomic.AddInt32(&connections, 1)
			return nil
		}
	})
	c := newClient(t, Options{TLS: Files{Authorities: ours.file("authority.crt")}})
	c.idle = patience
	for range [6]int{} {
		diff.Must(t, exchange(t, c, server.URL, osb.KindDeprovision).Lost)
	}
	diff.Equal(t, connections, 2, "connections")
}

// An answer that is cut isn't read as another one, also if TLS ends without its own end. Go's TLS takes that for an
// end.
func TestCutOverTLS(t *testing.T) {
	ours := newAuthority(t)
	ours.sign(t, "broker", here)
	pair := diff.Value(tls.LoadX509KeyPair(ours.file("broker.crt"), ours.file("broker.key")))(t)
	malformed := osb.Answer{Status: 201, Body: osb.BodyMalformed}
	for what, row := range map[string]struct {
		answer string
		lost   error
		taken  osb.Answer
	}{
		"shorter than it says": {"HTTP/1.1 201 Created\r\nContent-Length: 3\r\n\r\n{}", ErrCut, osb.Answer{}},
		"without a length":     {"HTTP/1.1 201 Created\r\n\r\n{", nil, malformed},
	} {
		t.Run(what, func(t *testing.T) {
			row, listener := row, listen(t)
			go func() {
				plain, err := listener.Accept()
				if err != nil {
					return
				}
				conn := tls.Server(plain, &tls.Config{Certificates: []tls.Certificate{pair}})
				_, _ = conn.Read(make([]byte, 9999))
				_, _ = io.WriteString(conn, row.answer)
				plain.Close()
			}()
			c := newClient(t, Options{TLS: Files{Authorities: ours.file("authority.crt")}})
			in := exchange(t, c, "https://"+listener.Addr().String(), osb.KindProvision)
			if !errors.Is(in.Lost, row.lost) || in.Answer != row.taken || in.Status != 201 {
				t.Errorf("got %+v, want the status 201, %+v and the error %v", in, row.taken, row.lost)
			}
		})
	}
}

// A tunnelling proxy notes what it is asked for.
func tunnelling(t *testing.T, asked chan<- string) *httptest.Server {
	t.Helper()
	proxy := httptest.NewServer(http.HandlerFunc(func(w http.ResponseWriter, r *http.Request) {
		asked <- r.Method + " " + r.Host + " " + r.Header.Get("Proxy-Authorization") + r.Header.Get("Authorization")
		if r.Method != http.MethodConnect || r.Host == "127.0.0.1:1" {
			http.Error(w, secret, http.StatusForbidden)
			return
		}
		far, err := net.Dial("tcp", r.Host)
		if err != nil {
			http.Error(w, "", http.StatusBadGateway)
			return
		}
		defer far.Close()
		w.WriteHeader(http.StatusOK)
		near, from, err := w.(http.Hijacker).Hijack()
		if err != nil {
			return
		}
		defer near.Close()
		go func() { _, _ = io.Copy(far, from); far.Close() }()
		_, _ = io.Copy(near, far)
	}))
	t.Cleanup(proxy.Close)
	return proxy
}

// A proxy is asked for a tunnel to a broker with https, and never for anything else.
func TestProxy(t *testing.T) {
	ours := newAuthority(t)
	ours.sign(t, "broker", here)
	server := ours.secure(t, "broker", func(*tls.Config) {})
	plain := serve(t, returning("200 OK", "{}"))
	asked := make(chan string, 9)
	proxy := tunnelling(t, asked)
	at := diff.Value(url.Parse(proxy.URL))(t)
	at.User = url.UserPassword("us", "them")
	c := newClient(t, Options{
		TLS:   Files{Authorities: ours.file("authority.crt")},
		Proxy: func(*http.Request) (*url.URL, error) { return at, nil },
	})
	for range [2]int{} {
		diff.NoError(t, exchange(t, c, server.URL, osb.KindDeprovision).Lost, "")
		diff.Equal(t, next(t, asked), "CONNECT "+server.Listener.Addr().String()+" Basic dXM6dGhlbQ==",
			"a CONNECT to the server with the login at the proxy")
	}
	if in := exchange(t, c, "https://127.0.0.1:1", osb.KindDeprovision); !errors.Is(in.Lost, ErrNotSent) ||
		!strings.Contains(in.Lost.Error(), "403") || strings.Contains(in.Lost.Error(), secret) {
		t.Errorf("got %v, want 403 without the password", in.Lost)
	}
	next(t, asked)
	if in := exchange(t, c, plain.url, osb.KindDeprovision); in.Lost != nil || len(asked) > 0 {
		t.Errorf("got %v and %d requests to the proxy, want none", in.Lost, len(asked))
	}
	nobody := &url.URL{Scheme: at.Scheme, Host: at.Host}
	other := newClient(t, Options{
		TLS:   Files{Authorities: ours.file("authority.crt")},
		Proxy: func(*http.Request) (*url.URL, error) { return nobody, nil },
	})
	diff.NoError(t, exchange(t, other, server.URL, osb.KindDeprovision).Lost, "")
	diff.Equal(t, next(t, asked), "CONNECT "+server.Listener.Addr().String()+" ", "without a login")
	closing := diff.Value(url.Parse(serve(t, always("")).url))(t)
	tunnelless := newClient(t, Options{Proxy: func(*http.Request) (*url.URL, error) { return closing, nil }})
	diff.ErrorIs(t, exchange(t, tunnelless, "https://127.0.0.1:1", osb.KindDeprovision).Lost, ErrNotSent,
		"a proxy that closes the connection")
	closing.Host = ":80"
	if in := exchange(t, tunnelless, "https://127.0.0.1:1", osb.KindDeprovision); !errors.Is(in.Lost, ErrNotSent) ||
		!strings.Contains(in.Lost.Error(), "must be named by") {
		t.Errorf("a proxy without a host: got %v, want %v and how to name it", in.Lost, ErrNotSent)
	}
	at.Scheme = "socks5"
	diff.ErrorIs(t, exchange(t, c, "https://127.0.0.1:1", osb.KindDeprovision).Lost, ErrNotSent, "")
}

// proxied is set in a process that TestNoProxy starts.
const proxied = "OSB_TEST_PROXIED"

// A proxy of the environment isn't used. net/http reads the environment once, so the client is one of another process.
func TestNoProxy(t *testing.T) {
	if os.Getenv(proxied) != "" {
		c := newClient(t, Options{AllowHTTP: true})
		for _, url := range []string{"http://0.0.0.0:1", "https://0.0.0.0:1"} { // for these net/http would use a proxy
			diff.Error(t, exchange(t, c, url, osb.KindProvision).Lost, "")
		}
		return
	}
	asked := make(chan string, 9)
	proxy := tunnelling(t, asked)
	child := exec.Command(os.Args[0], "-test.run", "^TestNoProxy$", "-test.v")
	child.Env = append(os.Environ(), proxied+"=1", "NO_PROXY=", "no_proxy=")
	for _, name := range []string{"HTTP_PROXY", "http_proxy", "HTTPS_PROXY", "https_proxy", "ALL_PROXY"} {
		child.Env = append(child.Env, name+"="+proxy.URL)
	}
	if output, err := child.CombinedOutput(); err != nil || !bytes.Contains(output, []byte("--- PASS")) {
		t.Errorf("got %v, want a test that passes: %s", err, output)
	}
	diff.Empty(t, asked, "the proxy")
}

// A broker with http that isn't on this machine gets no password unless that is allowed.
func TestInClear(t *testing.T) {
	c := newClient(t, Options{})
	c.dial = func(context.Context, string, string) (net.Conn, error) {
		t.Error("got a connection, want none")
		return nil, io.EOF
	}
	diff.ErrorIs(t, exchange(t, c, "http://broker.example", osb.KindProvision).Lost, ErrNotSent, "")
	far := platform.Broker{Name: "x", URL: "http://broker.example"}
	_, _, err := c.Catalogue(context.Background(), far)
	diff.Error(t, err, "the catalogue")
}
