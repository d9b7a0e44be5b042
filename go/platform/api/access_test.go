package api

import (
	"crypto/sha256"
	"encoding/hex"
	"fmt"
	"os"
	"path/filepath"
	"strings"
	"testing"
	"time"

	"pippinterm/internal/diff"
	"pippinterm/platform"
)

func fileWith(t *testing.T, text string, mode os.FileMode) string {
	t.Helper()
	name := filepath.Join(t.TempDir(), "tokens")
	check(t, os.WriteFile(name, []byte(text), 0o600))
	check(t, os.Chmod(name, mode))
	return name
}

func digestOf(text string) string {
	digest := sha256.Sum256([]byte(text))
	return hex.EncodeToString(digest[:])
}

func TestReadTokens(t *testing.T) {
	text := "# portals\n\nportal read,write " + digestOf(all) +
		"\nvault credentials " + strings.ToUpper(digestOf(opening)) + "\n"
	tokens, warning, err := ReadTokens(fileWith(t, text, 0o600))
	if err != nil || warning != "" || len(tokens) != 2 {
		t.Fatalf("got the tokens %v, the warning %q and the error %v, want two tokens and neither",
			tokens, warning, err)
	}
	diff.Equal(t, tokens[0], tokenOfText("portal", all, Read|Write), "")
	diff.Equal(t, tokens[1], tokenOfText("vault", opening, Credentials), "")
	if _, warning, _ := ReadTokens(fileWith(t, text, 0o640)); !strings.Contains(warning, "chmod 600") {
		t.Errorf("the warning: got %q, want \"chmod 600\" in it", warning)
	}
}

func TestBadTokens(t *testing.T) {
	digest := digestOf(all)
	for n, text := range []string{
		"", "# none\n", "portal read\n", "portal read " + digest[1:] + "\n", "portal read " + digest + " x\n",
		"portal read  " + digest, "portal all " + digest, "portal  " + digest, "portal read, " + digest,
		"por:tal read " + digest, "portal read x" + digest[1:], "portal read " + digest + "\r\n",
		"a read " + digest + "\nb write " + digest, strings.Repeat("#\n", longestTokens),
	} {
		t.Run(fmt.Sprint("line ", n), func(t *testing.T) {
			tokens, _, err := ReadTokens(fileWith(t, text, 0o600))
			if err == nil {
				t.Errorf("%.80q: got %v, want an error", text, tokens)
			} else if strings.Contains(err.Error(), digest[1:]) {
				t.Errorf("%.80q: got the error %v, want no digest in it", text, err)
			}
		})
	}
	if _, _, err := ReadTokens(filepath.Join(t.TempDir(), "none")); !os.IsNotExist(err) {
		t.Errorf("no file: got %v, want that there is none", err)
	}
}

func TestHosts(t *testing.T) {
	hosts := diff.Value(ParseHosts([]string{
		"Broker.example", "*.shop.example", "port.example:8443", "10.1.0.0/16", "192.0.2.7", "[2001:db8::1]:443",
		"2001:db8:1::/48", "10.2.0.0/16:8080",
	}))(t)
	for url, want := range map[string]bool{
		"https://broker.example": true, "https://BROKER.example./x": true, "http://broker.example:22/": true,
		"https://other.broker.example": false, "https://broker.example.evil": false,
		"https://a.shop.example": true, "https://a.b.shop.example:1": true, "https://shop.example": false,
		"https://.shop.example": false, "https://ashop.example": false,
		"https://port.example:8443": true, "https://port.example": false,
		"http://10.1.2.3": true, "http://10.1.2.3:22": true, "http://10.3.0.1": false, "http://192.0.2.7": true,
		"http://192.0.2.8": false, "http://10.2.0.1:8080": true, "http://10.2.0.1": false,
		"http://[::ffff:10.1.2.3]": true, "https://[2001:db8::1]": true, "https://[2001:db8::1]:444": false,
		"https://[2001:db8:1::5]:1": true, "https://[2001:db8:2::5]": false, "https://[fe80::1%25eth0]": false,
		"http://167837955": false, "http://0x0a010203": false, "http://10.1.515": false, "http://127.0.0.1": false,
		"https://user@broker.example": true, "https://broker.example@evil.example": false, "https://": false, "": false,
		"https://evil.example#broker.example": false, "https://evil.example\\broker.example": false,
	} {
		t.Run(url, func(t *testing.T) {
			diff.Equal(t, hosts.Allows(url), want, "")
		})
	}
	if all, err := ParseHosts(nil); err != nil || !all.Allows("http://127.0.0.1:22") {
		t.Errorf("without rules: got %v, want all to be allowed", err)
	}
	for _, text := range []string{
		"", "*", "*.", ".", ".x", "*x.example", "a b", "http://x", "x:", "x:port", "10.0.0.0/33", "x/8", "a,b", "x:123456",
	} {
		t.Run(text, func(t *testing.T) {
			diff.Error(t, diff.Err(ParseHosts([]string{"ok.example", text})), "the host %q", text)
		})
	}
}

// A token that may write adds no broker at another host, moves none there, and doesn't learn what listens there.
func TestBrokerHosts(t *testing.T) {
	r := newRig(t)
	hosts := diff.Value(ParseHosts([]string{"*.example"}))(r.T)
	r.handler.(*handler).BrokerHosts = hosts
	const inside = `{"url": "https://127.0.0.1:22", "user": "me", "password": "p"}`
	const outside = `{"url": "https://new.example", "user": "me", "password": "p"}`
	got := r.call("PUT", "/v1/brokers/scan", inside).want(400, "invalid")
	diff.Contains(r, got.at("detail"), "--broker-hosts", "the detail, %s", got.text)
	r.call("GET", "/v1/brokers/scan", "").want(404, "not_found")
	r.call("PUT", "/v1/brokers/new", outside).want(201, "")
	r.call("PUT", "/v1/brokers/new", inside).want(400, "invalid")
	diff.Equal(r, r.brokerNamed("new").URL, "https://new.example", "the URL")
	const was = "https://10.0.0.1" // an operator has given it
	check(r.T, r.store.ChangeBroker(background, "new", func(b platform.Broker) (*platform.Broker, error) {
		b.URL = was
		const refused = "dial tcp 10.0.0.1:22: connection refused"
		b.Reason = platform.Reason{At: time.Unix(1_770_000_000, 0), Kind: "catalogue", Lost: refused}
		return &b, nil
	}))
	r.call("PUT", "/v1/brokers/new", `{"url": "`+was+`", "user": "me", "password": "p"}`).want(200, "")
	for _, path := range []string{"/v1/brokers", "/v1/brokers/new"} {
		got := r.call("GET", path, "").want(200, "")
		diff.Lacks(r, got.text, "dial", "%s: the reason", path)
		diff.Lacks(r, got.text, "refused", "%s: the reason", path)
		diff.Contains(r, got.text, "osb-platform broker list", "%s: the reason", path)
	}
}
