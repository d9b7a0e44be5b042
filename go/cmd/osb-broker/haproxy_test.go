package main

import (
	"context"
	"encoding/json"
	"fmt"
	"io"
	"net"
	"net/http"
	"os"
	"os/exec"
	"path/filepath"
	"regexp"
	"strings"
	"testing"
	"time"

	"pippinterm/internal/diff"
	"pippinterm/internal/waits"
)

// An haproxy is HAProxy with the configuration of deploy/haproxy before one broker. It speaks HTTP on both sides.
type haproxy struct {
	t   *testing.T
	url string
}

// behind starts HAProxy. change changes the configuration.
func behind(t *testing.T, s *servedBroker, change func(string) string) haproxy {
	t.Helper()
	program, err := exec.LookPath("haproxy")
	if err != nil {
		program, err = exec.LookPath("/usr/sbin/haproxy")
	}
	if err != nil {
		t.Skip("haproxy isn't installed (Debian: apt-get install haproxy)")
	}
	text := diff.Value(os.ReadFile("../../../deploy/haproxy/haproxy.cfg"))(t)
	address := freeAddress(t)
	config := replaceAll(t, string(text), map[string]string{
		`bind :443 ssl .*`: "bind " + address, ` ssl verify .*`: "",
		`(?m)^    server (two|three) .*$`: "", `192\.0\.2\.1:8443`: strings.TrimPrefix(s.url, "http://"),
	})
	file := filepath.Join(t.TempDir(), "haproxy.cfg")
	check(t, os.WriteFile(file, []byte(change(config)), 0o600))
	command := exec.Command(program, "-db", "-f", file)
	command.Stderr = os.Stderr
	check(t, command.Start())
	t.Cleanup(func() {
		_ = command.Process.Kill()
		_ = command.Wait()
	})
	h := haproxy{t, "http://" + address}
	waits.Until(t, "haproxy has a broker", func() bool { return h.status("127.0.0.1", password, nil) == 200 })
	return h
}

// replaceAll returns a configuration in which each of these patterns is replaced. Each of them has to be in it.
func replaceAll(t *testing.T, config string, all map[string]string) string {
	t.Helper()
	for pattern, with := range all {
		before := config
		if config = regexp.MustCompile(pattern).ReplaceAllString(config, with); config == before {
			t.Fatalf("the configuration: got no %s in it, want one: %s", pattern, before)
		}
	}
	return config
}

// status asks for the catalogue from an address of this machine, and returns the status, or 0 without an answer.
func (h haproxy) status(from, login string, header http.Header) int {
	h.t.Helper()
	request := diff.Value(http.NewRequest("GET", h.url+"/v2/catalog", nil))(h.t)
	for name, values := range header {
		request.Header[name] = values
	}
	request.SetBasicAuth("platform", strings.TrimPrefix(login, "OSB_BROKER_PASSWORD="))
	request.Header.Set("X-Broker-API-Version", "2.17")
	dialer := net.Dialer{LocalAddr: &net.TCPAddr{IP: net.ParseIP(from)}}
	client := http.Client{Timeout: time.Minute, Transport: &http.Transport{
		DisableKeepAlives: true,
		DialContext: func(ctx context.Context, network, address string) (net.Conn, error) {
			return dialer.DialContext(ctx, network, address)
		},
	}}
	given, err := client.Do(request)
	if err != nil {
		return 0
	}
	_ = given.Body.Close()
	return given.StatusCode
}

// failedLogins waits for the addresses of so many failed logins in the log.
func (s *servedBroker) failedLogins(count int) (addresses []string) {
	s.t.Helper()
	for len(addresses) < count {
		if event := s.Event("request"); event["status"] == float64(401) {
			addresses = append(addresses, event["address"].(string))
		}
	}
	return addresses
}

// Behind HAProxy with the configuration of the guide, the broker knows its clients by their own addresses, whatever
// they say of themselves: so who guesses passwords delays nobody else. The same with X-Forwarded-For.
func TestBehindHAProxy(t *testing.T) {
	for name, change := range map[string]func(string) string{
		"the PROXY protocol": func(config string) string { return config },
		"version 1":          func(config string) string { return strings.ReplaceAll(config, "send-proxy-v2", "send-proxy") },
		"X-Forwarded-For": func(config string) string {
			return strings.ReplaceAll(config, "send-proxy-v2", "") + "\n    option forwardfor\n"
		},
	} {
		t.Run(name, func(t *testing.T) {
			s := start(t, []string{password}, "--state", t.TempDir(), "--trusted-proxy", "127.0.0.1")
			h := behind(t, s, change)
			forged := http.Header{"X-Forwarded-For": {"192.0.2.9"}}
			var want []string
			for _, from := range []string{"127.0.0.2", "127.0.0.3"} {
				diff.Equal(t, h.status(from, "wrong", forged), 401, "")
				want = append(want, from)
			}
			diff.Check(t, s.failedLogins(2), want, "")
			diff.Equal(t, h.status("127.0.0.2", password, forged), 200, "")
			s.stop()
		})
	}
}

// From a proxy that isn't trusted, a PROXY header is a bad request, and X-Forwarded-For says nothing.
func TestBehindAProxyThatIsNotTrusted(t *testing.T) {
	s := start(t, []string{password}, "--state", t.TempDir(), "--trusted-proxy", "192.0.2.0/24")
	h := behind(t, s, func(config string) string { return strings.ReplaceAll(config, "send-proxy-v2", "") })
	diff.Equal(t, h.status("127.0.0.2", "wrong", http.Header{"X-Forwarded-For": {"127.0.0.2"}}), 401, "")
	diff.Equal(t, s.failedLogins(1)[0], "127.0.0.1", "")
	connection := dial(t, strings.TrimPrefix(s.url, "http://"))
	const sent = "PROXY TCP4 127.0.0.2 127.0.0.1 1 2\r\nGET /v2/catalog HTTP/1.1\r\n\r\n"
	check(t, diff.Err(io.WriteString(connection, sent)))
	answer := make([]byte, 12)
	if _, err := connection.Read(answer); err != nil || string(answer) != "HTTP/1.1 400" {
		t.Errorf("got %q, %v, want 400", answer, err)
	}
	s.stop()
}

// HAProxy itself, with the configuration of the guide, counts the connections of all addresses of an IPv6 network with
// 64 bits together, as the broker does.
func TestHAProxyCountsNetworks(t *testing.T) {
	s := start(t, []string{password}, "--state", t.TempDir(), "--trusted-proxy", "127.0.0.1")
	named := freeAddress(t) // where PROXY headers name the clients of HAProxy
	behind(t, s, func(config string) string {
		return replaceAll(t, config, map[string]string{
			`bind .*`: "$0\n    bind " + named + " accept-proxy", `tcp-request connection`: "tcp-request session",
		})
	})
	var all []net.Conn
	for count := 0; count <= 101; count++ {
		client := fmt.Sprintf("2001:db8::%x", count)
		if count == 101 {
			client = "2001:db8:0:1::" // of another network
		}
		all = append(all, dial(t, named))
		_, _ = io.WriteString(all[count], "PROXY TCP6 "+client+" ::1 1 2\r\nGET /healthz HTTP/1.1\r\nHost: a\r\n\r\n") // or closed
	}
	answered := 0
	for _, conn := range all[:101] {
		count, _ := conn.Read(make([]byte, 1))
		answered += count
	}
	other, _ := all[101].Read(make([]byte, 1))
	diff.Equal(t, answered, 100, "")
	diff.Equal(t, other, 1, "")
	s.stop()
}

// A head that arrives slowly is cut by HAProxy, however often a byte of it arrives.
func TestHAProxyCutsSlowHeads(t *testing.T) {
	s := start(t, []string{password}, "--state", t.TempDir(), "--trusted-proxy", "127.0.0.1")
	h := behind(t, s, func(config string) string {
		return replaceAll(t, config, map[string]string{`timeout http-request .*`: "timeout http-request 300ms"})
	})
	connection := dial(t, strings.TrimPrefix(h.url, "http://"))
	_, err := io.WriteString(connection, "GET / HTTP/1.1\r\n")
	for late := time.Now().Add(20 * time.Second); err == nil && time.Now().Before(late); time.Sleep(50 * time.Millisecond) {
		_, err = io.WriteString(connection, "A: b\r\n")
	}
	diff.Error(t, err, "HAProxy")
	s.stop()
}

func dial(t *testing.T, address string) net.Conn {
	t.Helper()
	connection, err := net.Dial("tcp", address)
	if err == nil {
		err = connection.SetDeadline(time.Now().Add(time.Minute))
	}
	check(t, err)
	t.Cleanup(func() { _ = connection.Close() }) // it may be closed already
	return connection
}

// One address that keeps connections takes a quarter, and others are answered.
func TestConnectionsOfOneAddress(t *testing.T) {
	const connections = 8
	s := start(t, []string{password}, "--state", t.TempDir(), "--connections", "8")
	address := strings.TrimPrefix(s.url, "http://")
	open := 0
	for count := 0; count < connections; count++ {
		connection := dial(t, address)
		_, _ = connection.Write([]byte("GET /healthz HTTP/1.1\r\nHost: a\r\n\r\n")) // it may be closed already
		if got, _ := connection.Read(make([]byte, 1)); got == 1 {
			open++
		}
	}
	diff.Equal(t, open, connections/4, "connections of one address")
	if got := (haproxy{t, s.url}).status("127.0.0.2", password, nil); got != 200 {
		t.Errorf("another address got %d, want 200", got)
	}
	event, _ := json.Marshal(s.Event("address_at_limit"))
	diff.Contains(t, string(event), "127.0.0.1/32 has 2 connections", "the log")
	s.stop()
}
