package httpserver

import (
	"crypto/tls"
	"encoding/binary"
	"errors"
	"fmt"
	"io"
	"net"
	"net/http"
	"net/netip"
	"os"
	"strings"
	"testing"
	"time"

	"pippinterm/internal/diff"
	"pippinterm/internal/waits"
)

// A script is a connection whose Reads give these texts, and then an error.
type script struct {
	net.Conn
	reads []string
	err   error
	wrote string
}

func (s *script) Read(p []byte) (int, error) {
	if len(s.reads) == 0 {
		return 0, s.err
	}
	count := copy(p, s.reads[0])
	s.reads = s.reads[1:]
	return count, nil
}

func (s *script) Write(p []byte) (int, error) {
	s.wrote += string(p)
	return len(p), nil
}

func (s *script) SetReadDeadline(time.Time) error  { return nil }
func (s *script) SetWriteDeadline(time.Time) error { return nil }
func (s *script) RemoteAddr() net.Addr             { return &net.TCPAddr{IP: net.IPv4(192, 0, 2, 1), Port: 1} }

// TestWhatIsReadAheadIsntAnsweredWith408 does what net/http does at two requests that arrive together with a part of a
// third: it reads ahead in another goroutine until each of the two is answered.
func TestWhatIsReadAheadIsntAnsweredWith408(t *testing.T) {
	for _, end := range []error{io.EOF, os.ErrDeadlineExceeded} {
		t.Run(end.Error(), func(t *testing.T) {
			raw := &script{reads: []string{whole + whole + "GET /b HT"}, err: end}
			accepted := newConn(listen(t, Options{}), raw)
			read := func(when, want string) {
				t.Helper()
				if _, err := accepted.Read(make([]byte, 1)); !errors.Is(err, end) || raw.wrote != want {
					t.Errorf("%s: Read got %v, and %q written, want %v and %q", when, err, raw.wrote, end, want)
				}
			}
			wait := func() {
				check(t, accepted.SetReadDeadline(time.Now().Add(time.Minute)))
			}
			wait()
			check(t, diff.Err(accepted.Read(make([]byte, 1000))))
			for _, request := range []string{"first", "second"} {
				read("before the handler gets the "+request, "")
				accepted.begin()
				read("while the handler answers the "+request, "")
				accepted.end()
				read("before the answer to the "+request+" is written", "")
				check(t, accepted.SetReadDeadline(time.Unix(1, 0))) // as net/http does to end reading ahead
				read("when reading ahead is ended", "")
				if request == "first" {
					wait()
				}
			}
			wait()
			read("when the third is waited for", rejection408)
			read("when net/http reads again", rejection408)
			own := rejectionWith(400)
			if count, err := accepted.Write(own); count != len(own) || err != nil || raw.wrote != rejection408 {
				t.Errorf("Write of the answer of net/http: got %d, %v, and %q written, want all of it and %q", count, err, raw.wrote,
					rejection408)
			}
		})
	}
}

func TestReadOfNothing(t *testing.T) {
	accepted := newConn(listen(t, Options{}), &script{err: io.EOF})
	diff.Equal(t, diff.Value(accepted.Read(nil))(t), 0, "")
}

const short = 300 * time.Millisecond // a limit that a test runs into, and that a busy machine doesn't exceed

const rejection408 = "HTTP/1.1 408 Request Timeout\r\nContent-Type: text/plain; charset=utf-8\r\n" +
	"Connection: close\r\n\r\n408 Request Timeout"

const whole = "GET /a HTTP/1.1\r\nHost: x\r\n\r\n"

// cuts are heads that end too early. net/http answers some of them with 400, and others not at all.
var cuts = []string{
	"G", "GET", "GET /a HTTP/1.", "GET /a HTTP/1.1", "GET /a HTTP/1.1\r\n", "GET /a HTTP/1.1\r\nHo",
	"GET /a HTTP/1.1\r\nHost: x", "GET /a HTTP/1.1\r\nHost: x\r\n", "\r\nGET /a",
}

func TestAHeadThatTakesTooLongIsAnsweredWith408(t *testing.T) {
	observer := &recorder{}
	listener := start(t, Options{Observer: observer}, Server{Request: short}, echo)
	for _, cut := range cuts {
		t.Run(fmt.Sprintf("%q", cut), func(t *testing.T) {
			client := dial(t, listener)
			client.send(cut)
			diff.Equal(t, client.rest(), rejection408, "%q", cut)
		})
	}
	statuses := observer.waitForStatuses(t, len(cuts))
	for _, status := range statuses {
		diff.Equal(t, status, 408, "the observer")
	}
	diff.Equal(t, len(statuses), len(cuts), "the observer: requests")
}

func TestAHeadThatTheClientCutsIsAnsweredWith408(t *testing.T) {
	listener := start(t, Options{}, Server{}, echo)
	for _, cut := range cuts {
		t.Run(fmt.Sprintf("%q", cut), func(t *testing.T) {
			client := dial(t, listener)
			client.send(cut)
			client.closeWrite()
			diff.Equal(t, client.rest(), rejection408, "%q", cut)
		})
	}
}

// TestAHeadOfWhichAByteComesNowAndThen has 50 bytes in a time in which 5 may arrive.
func TestAHeadOfWhichAByteComesNowAndThen(t *testing.T) {
	listener := start(t, Options{}, Server{Request: short}, echo)
	client := dial(t, listener)
	go func() {
		for range make([]struct{}, 50) {
			if _, err := client.Write([]byte("x")); err != nil {
				return
			}
			time.Sleep(short / 5)
		}
	}()
	diff.Equal(t, client.until("\r\n"), "HTTP/1.1 408 Request Timeout\r\n", "")
}

func TestABodyThatTakesTooLongCantBeRead(t *testing.T) {
	listener := start(t, Options{}, Server{Request: short}, echo)
	for _, request := range []string{
		"PUT / HTTP/1.1\r\nHost: x\r\nContent-Length: 9\r\n\r\nabc",
		"PUT / HTTP/1.1\r\nHost: x\r\nTransfer-Encoding: chunked\r\n\r\n3\r\nab",
	} {
		t.Run(fmt.Sprintf("%q", request), func(t *testing.T) {
			client := dial(t, listener)
			client.send(request)
			diff.Check(t, statusesIn(client.rest()), []string{"408"}, "%q", request)
		})
	}
}

func TestEachRequestHasAllItsTime(t *testing.T) {
	const request = 2 * time.Second // a busy machine wakes up late, by less than a quarter of it
	for name, before := range map[string]string{"a request": whole, "an empty line": "\r\n", "nothing": ""} {
		before := before
		t.Run(name, func(t *testing.T) {
			t.Parallel()
			listener := start(t, Options{}, Server{Request: request}, echo)
			client := dial(t, listener)
			client.send(before)
			time.Sleep(request * 3 / 4) // nothing can be waited for
			client.send(whole[:8])
			time.Sleep(request / 2)
			client.send(whole[8:])
			want := len(before)/len(whole) + 1
			for count := 0; count < want; count++ {
				client.until("GET /a ;")
			}
		})
	}
}

func TestASilentConnectionIsClosed(t *testing.T) {
	observer := &recorder{}
	listener := start(t, Options{Silent: short, Observer: observer}, Server{}, echo)
	for _, sent := range []string{"", "\r\n", "\n\n\n"} {
		t.Run(fmt.Sprintf("%q", sent), func(t *testing.T) {
			client := dial(t, listener)
			client.send(sent)
			diff.Equal(t, client.rest(), "", "after %q", sent)
		})
	}
	diff.Empty(t, observer.waitForStatuses(t, 0), "the observer")
}

func TestAConnectionThatHasSentARequestMayBeSilent(t *testing.T) {
	listener := start(t, Options{Silent: short}, Server{}, echo)
	client := dial(t, listener)
	for count := 0; count < 2; count++ {
		client.send(whole)
		client.until("GET /a ;")
		time.Sleep(2 * short) // nothing can be waited for
	}
	client.send(whole[:8]) // a part of a head isn't silence either
	time.Sleep(2 * short)
	client.send(whole[8:])
	client.until("GET /a ;")
}

func TestAnIdleConnectionIsClosed(t *testing.T) {
	listener := start(t, Options{}, Server{Idle: short}, echo)
	client := dial(t, listener)
	client.send(whole)
	diff.HasSuffix(t, client.rest(), "GET /a ;", "before it is closed")
}

// TestACutHeadBehindAnotherRequest has net/http read ahead while the first request is answered.
func TestACutHeadBehindAnotherRequest(t *testing.T) {
	for name, pipelined := range map[string]string{"one": whole, "three": whole + whole + whole} {
		t.Run(name, func(t *testing.T) {
			listener := start(t, Options{}, Server{}, echo)
			for number := 0; number < 50; number++ {
				client := dial(t, listener)
				client.send(pipelined + "GET /b HT")
				client.closeWrite()
				got := client.rest()
				diff.Equal(t, strings.Count(got, "GET /a ;"), len(pipelined)/len(whole), "requests answered (%q)", got)
				diff.HasSuffix(t, got, "GET /a ;"+rejection408, "the answer of /a and a 408")
			}
		})
	}
}

// from connects to a listener from an address of this machine.
func from(t *testing.T, address string, listener *Listener) client {
	t.Helper()
	dialer := net.Dialer{Timeout: limit, LocalAddr: &net.TCPAddr{IP: net.ParseIP(address)}}
	connection := diff.Value(dialer.Dial("tcp", listener.Addr().String()))(t)
	return clientOf(t, connection)
}

// isClosed reports whether a connection is closed without an answer.
func (c client) isClosed() bool {
	_, err := c.Read(make([]byte, 1))
	return err != nil && !isTimeout(err)
}

// Each address may have a quarter of the connections. A further one is closed at once, those of others are served, and
// the operator learns of it once.
func TestConnectionsOfAnAddress(t *testing.T) {
	observer := &recorder{}
	listener := start(t, Options{Connections: 8, Observer: observer}, Server{}, echo)
	ask := func(c client) client {
		c.send(whole)
		c.until("GET /a ;")
		return c
	}
	isRejected := func() bool {
		further := from(t, "127.0.0.1", listener)
		_, _ = io.WriteString(further, whole) // it may be closed already
		return further.isClosed()
	}
	first, _ := ask(from(t, "127.0.0.1", listener)), ask(from(t, "127.0.0.1", listener))
	for count := 0; count < 3; count++ {
		diff.Equal(t, isRejected(), true, "the third connection of an address is closed")
	}
	ask(from(t, "127.0.0.2", listener))
	want := []string{"address_at_limit: 127.0.0.1/32 has 2 connections, and gets no further one"}
	diff.Check(t, observer.events(), want, "the events")
	first.Close()
	waits.Until(t, "one more is served", func() bool { return !isRejected() })
}

func TestAddressesAreForgotten(t *testing.T) {
	all, one := newAddresses(2), netip.MustParsePrefix("192.0.2.1/32")
	for count, want := range []struct{ isTaken, isNews bool }{
		{true, false}, {true, false}, {false, true}, {false, false},
	} {
		if isTaken, isNews := all.take(one); isTaken != want.isTaken || isNews != want.isNews {
			t.Errorf("%d: got %v, %v, want %v", count, isTaken, isNews, want)
		}
	}
	all.give(one)
	all.give(one)
	diff.Equal(t, len(all.of), 0, "%v", all.of)
}

// whoAsks answers with the client of a request.
func whoAsks(w http.ResponseWriter, r *http.Request) {
	_, _ = io.WriteString(w, "of "+r.RemoteAddr+"!")
}

func trustedNetworks(t *testing.T, networks ...string) (trusted []netip.Prefix) {
	t.Helper()
	for _, network := range networks {
		trusted = append(trusted, netip.MustParsePrefix(network))
	}
	return trusted
}

// version2 is a PROXY header of version 2, with this command and family, for these bytes.
func version2(command, family byte, rest string) string {
	head := "\r\n\r\n\x00\r\nQUIT\n" + string([]byte{command, family, 0, 0})
	length := []byte(head)
	binary.BigEndian.PutUint16(length[14:], uint16(len(rest)))
	return string(length) + rest
}

const (
	ports   = "\x1f\x90\x00\x50"
	client4 = "\xc6\x33\x64\x07" // 198.51.100.7
	client6 = "\x20\x01\x0d\xb8\x00\x00\x00\x00\x00\x00\x00\x00\x00\x00\x00\x07"
)

// A trusted proxy names its client, and nobody else does.
func TestWhoseRequestItIs(t *testing.T) {
	const (
		line = "PROXY TCP4 198.51.100.7 192.0.2.1 8080 80\r\n"
		tlv  = "\x04\x00\x03abc"
		own  = "127.0.0.1:"
	)
	for name, test := range map[string]struct {
		trusted, proxy, forwarded, want string
	}{
		"version 1":               {"127.0.0.1/32", line, "", "198.51.100.7:8080"},
		"version 1 of IPv6":       {"127.0.0.1/32", "PROXY TCP6 2001:db8::7 ::1 8080 80\r\n", "", "[2001:db8::7]:8080"},
		"version 1 of both":       {"127.0.0.1/32", "PROXY TCP6 ::ffff:198.51.100.7 ::ffff:192.0.2.1 1 2\r\n", "", "198.51.100.7:1"},
		"version 1 from 6 to 4":   {"127.0.0.1/32", "PROXY TCP6 2001:db8::7 ::ffff:192.0.2.1 1 2\r\n", "", "[2001:db8::7]:1"},
		"version 2":               {"127.0.0.0/8", version2(0x21, 0x11, client4+client4+ports), "", "198.51.100.7:8080"},
		"version 2 of IPv6":       {"127.0.0.1/32", version2(0x21, 0x21, client6+client6+ports), "", "[2001:db8::7]:8080"},
		"more than the addresses": {"127.0.0.1/32", version2(0x21, 0x11, client4+client4+ports+tlv), "", "198.51.100.7:8080"},
		"the proxy itself":        {"127.0.0.1/32", version2(0x20, 0x00, ""), "198.51.100.9", own},
		"unknown":                 {"127.0.0.1/32", "PROXY UNKNOWN\r\n", "198.51.100.9", own},
		"no header":               {"127.0.0.1/32", "", "198.51.100.9", "198.51.100.9:0"},
		"the right-most":          {"127.0.0.1/32", "", "1.1.1.1, 198.51.100.9", "198.51.100.9:0"},
		"with a port":             {"127.0.0.1/32", "", "1.1.1.1,198.51.100.9:77", "198.51.100.9:0"},
		"of IPv6":                 {"127.0.0.1/32", "", "2001:db8::9", "[2001:db8::9]:0"},
		"of IPv6 with a port":     {"127.0.0.1/32", "", "[2001:db8::9]:1", "[2001:db8::9]:0"},
		"mapped":                  {"127.0.0.1/32", "", "::ffff:198.51.100.9", "198.51.100.9:0"},
		"two lines":               {"127.0.0.1/32", "", "1.1.1.1\r\nX-Forwarded-For: 198.51.100.9", "198.51.100.9:0"},
		"two proxies":             {"127.0.0.1/32 10.0.0.0/8", "", "1.1.1.1, 198.51.100.9, 10.1.2.3", "198.51.100.9:0"},
		"only proxies":            {"127.0.0.1/32 10.0.0.0/8", "", "10.1.2.3", own},
		"no address":              {"127.0.0.1/32", "", "198.51.100.9, unknown", own},
		"an empty one":            {"127.0.0.1/32", "", "198.51.100.9, ", own},
		"neither":                 {"127.0.0.1/32", "", "", own},
		"both":                    {"127.0.0.1/32", line, "1.1.1.1", "198.51.100.7:8080"},
		"a proxy before it":       {"127.0.0.1/32 198.51.100.7/32", line, "1.1.1.1, 2.2.2.2", "2.2.2.2:0"},
		"an untrusted header":     {"192.0.2.0/24", "", "198.51.100.9", own},
	} {
		t.Run(name, func(t *testing.T) {
			trusted := trustedNetworks(t, strings.Fields(test.trusted)...)
			client := dial(t, start(t, Options{TrustedProxies: trusted}, Server{}, whoAsks))
			head := "GET / HTTP/1.1\r\nHost: x\r\n"
			if test.forwarded != "" {
				head += "X-Forwarded-For: " + test.forwarded + "\r\n"
			}
			client.send(test.proxy + head + "\r\n")
			got := client.until("!")
			if !strings.Contains(got, "of "+test.want) || test.want != own && !strings.HasSuffix(got, test.want+"!") {
				t.Errorf("got %q, want %q", got, test.want)
			}
		})
	}
}

// A PROXY header that can't be read, or that is from elsewhere, is a bad request. No handler gets it.
func TestBadPROXYHeaders(t *testing.T) {
	good := "PROXY TCP4 198.51.100.7 192.0.2.1 8080 80\r\n"
	for name, test := range map[string]struct{ trusted, sent string }{
		"version 1 from elsewhere": {"192.0.2.0/24", good + whole},
		"version 2 from elsewhere": {"192.0.2.0/24", version2(0x21, 0x11, client4+client4+ports) + whole},
		"two headers":              {"127.0.0.1/32", good + good + whole},
		"no address":               {"127.0.0.1/32", "PROXY TCP4 198.51.100.700 192.0.2.1 8080 80\r\n" + whole},
		"no other address":         {"127.0.0.1/32", "PROXY TCP4 198.51.100.7 z 8080 80\r\n" + whole},
		"another family":           {"127.0.0.1/32", "PROXY UDP4 198.51.100.7 192.0.2.1 8080 80\r\n" + whole},
		"no family":                {"127.0.0.1/32", "PROXY\r\n" + whole},
		"no port":                  {"127.0.0.1/32", "PROXY TCP4 198.51.100.7 192.0.2.1 8080\r\n" + whole},
		"no address of IPv6":       {"127.0.0.1/32", "PROXY TCP6 z z 8080 80\r\n" + whole},
		"a long line":              {"127.0.0.1/32", "PROXY " + strings.Repeat("a", 200) + "\r\n" + whole},
		"a datagram":               {"127.0.0.1/32", version2(0x21, 0x12, client4+client4+ports) + whole},
		"a file":                   {"127.0.0.1/32", version2(0x21, 0x31, strings.Repeat("a", 216)) + whole},
		"too short":                {"127.0.0.1/32", version2(0x21, 0x11, client4) + whole},
	} {
		t.Run(name, func(t *testing.T) {
			observer := &recorder{}
			listener := start(t, Options{TrustedProxies: trustedNetworks(t, test.trusted), Observer: observer}, Server{}, echo)
			client := dial(t, listener)
			client.send(test.sent)
			diff.Check(t, statusesIn(client.rest()), []string{"400"}, "")
			if got := observer.waitForRejections(t, 1); len(got) != 1 || got[0].Status != 400 {
				t.Errorf("the observer got %v, want 400", got)
			}
		})
	}
}

// The clients that a proxy names by PROXY headers have connections of their own, and the proxy has any number.
func TestConnectionsThroughAProxy(t *testing.T) {
	listener := start(t, Options{
		Connections: 12, PerAddress: 2, TrustedProxies: trustedNetworks(t, "127.0.0.1/32"),
	}, Server{}, whoAsks)
	open := func(address string) client {
		c := dial(t, listener)
		c.send("PROXY TCP4 " + address + " 192.0.2.1 8080 80\r\n" + whole)
		return c
	}
	for _, address := range []string{"198.51.100.1", "198.51.100.1", "198.51.100.2", "198.51.100.2"} {
		open(address).until(address + ":8080!")
	}
	diff.Equal(t, open("198.51.100.1").isClosed(), true, "the third connection of a client is closed")
	open("198.51.100.3").until("198.51.100.3:8080!")
	for count := 0; count < 3; count++ { // the proxy's own
		c := dial(t, listener)
		c.send(whole)
		c.until("!")
	}
}

// The requests of a client that X-Forwarded-For names are limited, on whichever connections of the proxy they arrive.
// Those of others are served, and no connection is closed.
func TestRequestsThroughAProxy(t *testing.T) {
	pause, observer := newPause(), &recorder{}
	listener := start(t, Options{
		Connections: 12, PerAddress: 2, TrustedProxies: trustedNetworks(t, "127.0.0.1/32"), Observer: observer,
	}, Server{}, pause.ServeHTTP)
	send := func(c client, address string) {
		c.send(whole[:len(whole)-2] + "X-Forwarded-For: " + address + "\r\n\r\n")
	}
	first, second, third := dial(t, listener), dial(t, listener), dial(t, listener)
	send(first, "198.51.100.1")
	send(second, "198.51.100.1")
	<-pause.begun
	<-pause.begun
	send(third, "198.51.100.1")
	got := third.until("was done.\n")
	if !strings.HasPrefix(got, "HTTP/1.1 503 ") || !strings.Contains(got, "\r\nRetry-After: 5\r\n") ||
		strings.Contains(got, "json") {
		t.Errorf("got %q, want 503", got)
	}
	send(third, "198.51.100.2")
	<-pause.begun
	for count := 0; count < 3; count++ {
		pause.pass <- struct{}{}
	}
	for _, client := range []client{first, second, third} {
		client.until("GET /a ;")
	}
	waits.Until(t, "all requests have ended", func() bool { return len(listener.addresses.counts()) == 0 })
	if it := observer.rejections[0]; it.Status != 503 || it.Address != "198.51.100.1" {
		t.Errorf("the observer: got %+v, want 503 of 198.51.100.1", it)
	}
}

// A further request of a client that X-Forwarded-For names keeps no connection of the proxy until its body has arrived.
func TestARefusedBodyIsNotWaitedFor(t *testing.T) {
	listener := start(t, Options{
		Connections: 12, PerAddress: 1, TrustedProxies: trustedNetworks(t, "127.0.0.1/32"),
	}, Server{}, echo)
	slow := func() client {
		c := dial(t, listener)
		c.send("PUT /a HTTP/1.1\r\nHost: x\r\nX-Forwarded-For: 198.51.100.1\r\nContent-Length: 4\r\n\r\nabc")
		return c
	}
	first := slow()
	waits.Until(t, "the first is served", func() bool { return len(listener.addresses.counts()) == 1 })
	began := time.Now()
	diff.HasPrefix(t, slow().rest(), "HTTP/1.1 503 ", "")
	if took := time.Since(began); took >= drainTime {
		t.Errorf("got the connection closed after %v, want less than %v", took, drainTime)
	}
	first.send("d")
	first.until("PUT /a abcd;")
}

// counts returns what each address has.
func (a *addresses) counts() map[string]int {
	a.mutex.Lock()
	defer a.mutex.Unlock()
	counts := map[string]int{}
	for address, client := range a.of {
		counts[address.String()] = client.count
	}
	return counts
}

// With TLS the PROXY header precedes the handshake.
func TestPROXYHeaderBeforeTLS(t *testing.T) {
	authority := newAuthority(t)
	certificates := diff.Value(LoadCertificates(authority.issue("server")))(t)
	listener := start(t, Options{
		Certificates: certificates, TrustedProxies: trustedNetworks(t, "127.0.0.1/32"),
	}, Server{}, whoAsks)
	plain := dial(t, listener)
	plain.send("PROXY TCP4 198.51.100.7 192.0.2.1 8080 80\r\n")
	secure := clientOf(t, tls.Client(plain.Conn, authority.client(CertificateFiles{})))
	secure.send(whole)
	secure.until("198.51.100.7:8080!")
}

// A connection that is refused or closed leaves nothing that is counted, also if a proxy sends half a header.
func TestNothingStaysCounted(t *testing.T) {
	listener := start(t, Options{
		Silent: 50 * time.Millisecond, TrustedProxies: trustedNetworks(t, "127.0.0.1/32"),
	}, Server{}, echo)
	for count := 0; count < 10; count++ {
		c := dial(t, listener)
		c.send([]string{"PRO", "\r\n\r\n", "PROXY TCP4 198.51.100.7 192.0.2.1 8080 80\r\n", ""}[count%4])
		diff.Equal(t, c.isClosed(), true, "%d", count)
		other := from(t, fmt.Sprintf("127.0.0.%d", count+2), listener)
		other.Close()
	}
	waits.Until(t, "nothing is counted", func() bool {
		return len(listener.addresses.counts()) == 0 && listener.Connections() == 1
	})
}
