package client

import (
	"context"
	"errors"
	"fmt"
	"io"
	"net"
	"net/http"
	"strings"
	"sync"
	"sync/atomic"
	"testing"
	"time"

	"pippinterm/internal/diff"
	"pippinterm/osb"
	"pippinterm/platform"
)

// A fakeClock stands until it is set on.
type fakeClock struct{ passed int64 }

func (f *fakeClock) now() time.Time {
	return time.Unix(1000, 0).Add(time.Duration(atomic.LoadInt64(&f.passed)))
}

func (f *fakeClock) pass(by time.Duration) { atomic.AddInt64(&f.passed, int64(by)) }

// A listenerResult server takes whatever it gets, and never answers.
type listenerResult struct {
	url  string
	came chan []byte // all that arrived on each connection, once that has ended
}

func swallow(t *testing.T) *listenerResult {
	t.Helper()
	listener := listen(t)
	s := &listenerResult{url: listener.Addr().String(), came: make(chan []byte, 9)}
	go func() {
		for {
			conn, err := listener.Accept()
			if err != nil {
				return
			}
			all, _ := io.ReadAll(conn)
			conn.Close()
			s.came <- all
		}
	}()
	return s
}

// wait returns what arrived on the next connection that ends.
func (s *listenerResult) wait(t *testing.T) []byte {
	t.Helper()
	return next(t, s.came)
}

// A process that is paused between connecting and writing, until its time is over, sends not one byte: neither of the
// request, nor of TLS.
func TestPausedBeforeWriting(t *testing.T) {
	for _, scheme := range []string{"http://", "https://"} {
		server, clock := swallow(t), &fakeClock{}
		c := newClient(t, Options{})
		c.now = clock.now
		dial := c.dial
		c.dial = func(ctx context.Context, network, address string) (net.Conn, error) {
			conn, err := dial(ctx, network, address)
			clock.pass(patience) // exactly until its time is over
			return conn, err
		}
		in := exchange(t, c, scheme+server.url, osb.KindProvision)
		diff.ErrorIs(t, in.Lost, ErrNotSent, "%s", scheme)
		diff.ErrorIs(t, in.Lost, ErrTimeOver, "%s", scheme)
		diff.Empty(t, server.wait(t), "%s", scheme)
	}
}

// A process that is paused on the way sends no further byte, so no whole request arrives.
func TestPausedInWriting(t *testing.T) {
	server, clock := swallow(t), &fakeClock{}
	c := newClient(t, Options{})
	reads := 0
	c.now = func() time.Time { // the clock is read at the start and once it is connected, and then before each piece
		if reads++; reads == 5 {
			clock.pass(patience)
		}
		return clock.now()
	}
	out := outgoingOf(c, "http://"+server.url, osb.KindProvision, ofInstance)
	out.Entry.Body = []byte(`{"parameters":{"long":"` + strings.Repeat("x", 9<<14) + `"}}`)
	in := c.Exchange(context.Background(), out)
	if !errors.Is(in.Lost, ErrTimeOver) || errors.Is(in.Lost, ErrNotSent) {
		t.Errorf("got %v, want %v of a request that was sent", in.Lost, ErrTimeOver)
	}
	if came := server.wait(t); len(came) == 0 || len(came) > 3<<14 {
		t.Errorf("got %d bytes, want some, and at most 48 KiB", len(came))
	}
}

// An answer that arrives when the time is over isn't taken, whatever the timers say: they stand still while the machine
// is suspended.
func TestSuspendedBeforeTheAnswer(t *testing.T) {
	clock := &fakeClock{}
	server := serve(t, func(n int, r *http.Request, conn net.Conn) bool {
		clock.pass(patience)
		return returning("201 Created", "{}")(n, r, conn)
	})
	c := newClient(t, Options{})
	c.now = clock.now
	in := exchange(t, c, server.url, osb.KindProvision)
	if !errors.Is(in.Lost, ErrTimeOver) || errors.Is(in.Lost, ErrNotSent) || in.Answer != (osb.Answer{}) {
		t.Errorf("got %+v, want no answer, and ErrTimeOver without ErrNotSent", in)
	}
}

// An answer waits until it may be parsed, and no longer than its time. The answers of another broker leave that free.
func TestAnswersThatAreParsedAtOnce(t *testing.T) {
	server := serve(t, returning("201 Created", "{}"))
	c := newClient(t, Options{LongestAnswer: 100})
	taken := 0
	for c.parsed.Take("postgres", 1, 0) {
		taken++
	}
	out := outgoingOf(c, server.url, osb.KindProvision, ofInstance)
	out.Until = c.Clock().Add(patience / 100)
	diff.ErrorIs(t, c.Exchange(context.Background(), out).Lost, ErrTimeOver, "while others are parsed")
	out = outgoingOf(c, server.url, osb.KindProvision, ofInstance)
	out.Broker.Name = "another"
	diff.NoError(t, c.Exchange(context.Background(), out).Lost, "another broker")
	c.parsed.Give("postgres", taken)
	diff.NoError(t, exchange(t, c, server.url, osb.KindProvision).Lost, "afterwards")
}

// The whole exchange has one limit on its time, however its parts are shared out.
func TestSlow(t *testing.T) {
	drip := func(text string) answering {
		return func(_ int, _ *http.Request, conn net.Conn) bool {
			for at := range text {
				if _, err := io.WriteString(conn, text[at:at+1]); err != nil {
					return false
				}
				time.Sleep(20 * time.Millisecond)
			}
			return false
		}
	}
	for what, answer := range map[string]answering{
		"nothing": func(_ int, _ *http.Request, conn net.Conn) bool {
			_, _ = io.Copy(io.Discard, conn)
			return false
		},
		"a slow head": drip("HTTP/1.1 201 Created\r\nX: " + strings.Repeat("x", 999)),
		"a slow body": drip(text("201 Created", strings.Repeat(" ", 999), "")),
	} {
		t.Run(what, func(t *testing.T) {
			server := serve(t, answer)
			c := newClient(t, Options{})
			out := outgoingOf(c, server.url, osb.KindProvision, ofInstance)
			out.Until = c.Clock().Add(300 * time.Millisecond)
			in := c.Exchange(context.Background(), out)
			if !errors.Is(in.Lost, ErrTimeOver) || c.Clock().Before(out.Until) || in.Duration > patience/2 {
				t.Errorf("got %v after %v, want %v at its time", in.Lost, in.Duration, ErrTimeOver)
			}
		})
	}
}

// A server that takes no connection, and one that accepts it and says nothing in TLS.
func TestUnreached(t *testing.T) {
	closed := listen(t)
	closed.Close()
	silent := swallow(t)
	c := newClient(t, Options{})
	for _, url := range []string{"http://" + closed.Addr().String(), "https://" + silent.url} {
		out := outgoingOf(c, url, osb.KindProvision, ofInstance)
		out.Until = c.Clock().Add(300 * time.Millisecond)
		in := c.Exchange(context.Background(), out)
		if !errors.Is(in.Lost, ErrNotSent) || !errors.Is(in.Lost, platform.ErrUnreachable) || in.Duration > patience/2 {
			t.Errorf("%s: got %v after %v, want %v at once", url, in.Lost, in.Duration, ErrNotSent)
		}
	}
}

// A cancelled exchange ends, and its answer is lost.
func TestCancelled(t *testing.T) {
	ctx, cancel := context.WithCancel(context.Background())
	server := serve(t, func(_ int, _ *http.Request, conn net.Conn) bool {
		cancel()
		_, _ = io.Copy(io.Discard, conn)
		return false
	})
	c := newClient(t, Options{})
	in := c.Exchange(ctx, outgoingOf(c, server.url, osb.KindProvision, ofInstance))
	if !errors.Is(in.Lost, context.Canceled) || errors.Is(in.Lost, ErrNotSent) || in.Duration > patience/2 {
		t.Errorf("got %+v, want context.Canceled without ErrNotSent, within half the patience", in)
	}
	in = c.Exchange(ctx, outgoingOf(c, server.url, osb.KindProvision, ofInstance))
	diff.ErrorIs(t, in.Lost, context.Canceled, "")
	diff.ErrorIs(t, in.Lost, ErrNotSent, "")
}

// patient is a client whose connections wait for longer than a test takes.
func patient(t *testing.T) *Client {
	t.Helper()
	c := newClient(t, Options{})
	c.idle = patience
	return c
}

// hasQuiet reports whether a connection waits, and nothing has arrived on it.
func hasQuiet(c *Client) bool {
	c.mutex.Lock()
	defer c.mutex.Unlock()
	for _, b := range c.brokers {
		b.mutex.Lock()
		defer b.mutex.Unlock()
		for _, conn := range b.idle {
			if conn.isQuiet() {
				return true
			}
		}
	}
	return false
}

// The same on a connection that was kept.
func TestPausedOnAKeptConnection(t *testing.T) {
	server, clock, reads := serve(t, returning("200 OK", "{}")), &fakeClock{}, -100
	c := patient(t)
	c.now = func() time.Time {
		if reads++; reads == 4 { // Until is made, it is looked at, a connection is taken, and now it is written to
			clock.pass(patience)
		}
		return clock.now()
	}
	for range [2]int{} {
		diff.Must(t, exchange(t, c, server.url, osb.KindDeprovision).Lost)
	}
	if !hasQuiet(c) {
		t.Fatal("got no connection that is kept, want one")
	}
	reads = 0
	in := exchange(t, c, server.url, osb.KindProvision)
	diff.ErrorIs(t, in.Lost, ErrNotSent, "")
	diff.ErrorIs(t, in.Lost, ErrTimeOver, "")
	server.wantArrivals(t, 2, 2)
}

// Nothing is sent for one that is cancelled before it begins, on a connection that was kept either.
func TestCancelledBefore(t *testing.T) {
	server, c := serve(t, returning("200 OK", "{}")), patient(t)
	for range [2]int{} {
		diff.Must(t, exchange(t, c, server.url, osb.KindDeprovision).Lost)
	}
	ctx, cancel := context.WithCancel(context.Background())
	cancel()
	for range [20]int{} {
		in := c.Exchange(ctx, outgoingOf(c, server.url, osb.KindProvision, ofInstance))
		if !errors.Is(in.Lost, context.Canceled) || !errors.Is(in.Lost, ErrNotSent) ||
			errors.Is(in.Lost, platform.ErrUnreachable) {
			t.Errorf("got %+v, want context.Canceled and ErrNotSent, without ErrUnreachable", in)
		}
	}
	requests, _ := server.arrivals()
	diff.Equal(t, len(requests), 2, "requests")
}

var kinds = []osb.Kind{osb.KindProvision, osb.KindPoll, osb.KindDeprovision}

// A request is written once, on a new connection as on one that was kept, however that ends.
func TestNoSecondTry(t *testing.T) {
	for _, kind := range kinds {
		for what, end := range map[string]func(conn *net.TCPConn){
			"closed":       func(*net.TCPConn) {},
			"reset":        func(conn *net.TCPConn) { _ = conn.SetLinger(0) },
			"a cut answer": func(conn *net.TCPConn) { _, _ = io.WriteString(conn, "HTTP/1.1 201 Cre") },
			"no time": func(conn *net.TCPConn) {
				_, _ = io.WriteString(conn, text("408 Request Timeout", "", ""))
			},
		} {
			t.Run(fmt.Sprint(kind, ", ", what), func(t *testing.T) {
				end := end
				server := serve(t, func(n int, r *http.Request, conn net.Conn) bool {
					if n <= 2 { // the first one isn't kept: nobody knows yet whether the broker returns identities
						return returning("200 OK", "{}")(n, r, conn)
					}
					end(conn.(*net.TCPConn))
					return false
				})
				c := patient(t)
				for range [2]int{} {
					diff.Must(t, exchange(t, c, server.url, osb.KindDeprovision).Lost)
				}
				in := exchange(t, c, server.url, kind)
				if in.Lost == nil || errors.Is(in.Lost, ErrNotSent) {
					t.Errorf("%v, %s: got %+v, want an error without ErrNotSent", kind, what, in)
				}
				server.wantArrivals(t, 3, 2)
			})
		}
	}
}

// A connection is kept while the broker returns the identity of each request, and only then.
func TestKept(t *testing.T) {
	for what, row := range map[string]struct {
		answer      func(n int, id string) string
		connections int
	}{
		"returned":       {func(_ int, id string) string { return text("200 OK", "{}", id) }, 2},
		"never returned": {func(int, string) string { return text("200 OK", "{}", "") }, 6},
		"the broker closes": {
			func(_ int, id string) string { return text("200 OK", "{}", id, "Connection: close") }, 6,
		},
		"HTTP/1.0": {
			func(_ int, id string) string {
				return strings.Replace(text("200 OK", "{}", id), "HTTP/1.1", "HTTP/1.0", 1)
			}, 6,
		},
	} {
		t.Run(what, func(t *testing.T) {
			row := row
			server := serve(t, func(n int, r *http.Request, conn net.Conn) bool {
				_, err := io.WriteString(conn, row.answer(n, r.Header.Get(osb.RequestIdentityHeader)))
				return err == nil
			})
			c := patient(t)
			for range [6]int{} {
				diff.NoError(t, exchange(t, c, server.url, osb.KindDeprovision).Lost, "")
			}
			server.wantArrivals(t, 6, row.connections)
		})
	}
}

// On a connection that was kept, an answer without the identity of its request isn't taken: it may be of an earlier
// one.
func TestKeptWithoutIdentity(t *testing.T) {
	server := serve(t, func(n int, r *http.Request, conn net.Conn) bool {
		if n != 3 {
			return returning("200 OK", "{}")(n, r, conn)
		}
		_, err := io.WriteString(conn, text("410 Gone", "{}", "", "Retry-After: 7"))
		return err == nil
	})
	c := patient(t)
	for n := 1; n <= 5; n++ {
		in := exchange(t, c, server.url, osb.KindDeprovision)
		if n != 3 && in.Lost != nil || n == 3 && !errors.Is(in.Lost, ErrOtherRequest) {
			t.Errorf("request %d: got %+v, want %v for the third only", n, in, ErrOtherRequest)
		}
		if n == 3 && (in.Answer != (osb.Answer{}) || in.Status != 410 || in.RetryAfter != 7*time.Second) {
			t.Errorf("request %d: got %+v, want 410 and no answer", n, in)
		}
	}
	server.wantArrivals(t, 5, 4)
}

// What follows an answer is never taken for the answer to the next request, whether it arrives at once or later.
func TestAnsweredTwice(t *testing.T) {
	for what, isLate := range map[string]bool{"at once": false, "before the next request": true} {
		t.Run(what, func(t *testing.T) {
			isLate, goOn, came := isLate, make(chan bool, 9), make(chan bool, 9)
			server := serve(t, func(n int, r *http.Request, conn net.Conn) bool {
				id := r.Header.Get(osb.RequestIdentityHeader)
				answer, second := text("200 OK", "{}", id), text("410 Gone", "{}", id)
				if n != 2 {
					_, err := io.WriteString(conn, answer)
					return err == nil
				}
				if isLate {
					_, _ = io.WriteString(conn, answer)
					<-goOn
					_, _ = io.WriteString(conn, second)
				} else {
					_, _ = io.WriteString(conn, answer+second)
				}
				came <- true
				return true
			})
			c := patient(t)
			for n := 1; n <= 4; n++ {
				in := exchange(t, c, server.url, osb.KindDeprovision)
				diff.NoError(t, in.Lost, "request %d", n)
				diff.Equal(t, in.Status, 200, "request %d", n)
				if n == 2 {
					goOn <- true
					next(t, came)
					until(t, what, func() bool { return !hasQuiet(c) })
				}
			}
			_, connections := server.arrivals()
			diff.Equal(t, connections, 3, "connections")
		})
	}
}

// A second answer that arrives while the next request is in flight is lost, and its status counts for nothing.
func TestAnsweredTwiceLate(t *testing.T) {
	var first string
	server := serve(t, func(n int, r *http.Request, conn net.Conn) bool {
		if n == 2 {
			first = r.Header.Get(osb.RequestIdentityHeader)
		}
		if n != 3 {
			return returning("200 OK", "{}")(n, r, conn)
		}
		_, _ = io.WriteString(conn, text("410 Gone", "{}", first)) // of the request before
		return returning("200 OK", "{}")(n, r, conn)
	})
	c := patient(t)
	for n := 1; n <= 4; n++ {
		in := exchange(t, c, server.url, osb.KindDeprovision)
		if n == 3 && (!errors.Is(in.Lost, ErrOtherRequest) || in.Status != 0) || n != 3 && in.Lost != nil {
			t.Errorf("request %d: got %+v, want %v for the third only", n, in, ErrOtherRequest)
		}
	}
}

// A connection that the broker has closed while it waited isn't used.
func TestClosedWhileIdle(t *testing.T) {
	closed := make(chan bool, 9)
	server := serve(t, func(n int, r *http.Request, conn net.Conn) bool {
		returning("200 OK", "{}")(n, r, conn)
		conn.Close()
		closed <- true
		return false
	})
	c := patient(t)
	for n := 1; n <= 5; n++ {
		diff.NoError(t, exchange(t, c, server.url, osb.KindProvision).Lost, "request %d", n)
		next(t, closed)
		until(t, "the end of the connection", func() bool { return !hasQuiet(c) })
	}
}

// A connection that waits is closed after a while, and at Close.
func TestIdle(t *testing.T) {
	for what, end := range map[string]func(*Client){"after a while": func(*Client) {}, "closed": (*Client).Close} {
		t.Run(what, func(t *testing.T) {
			var open int32
			listener := listen(t)
			go func() {
				_ = http.Serve(countingConn{listener, &open}, http.HandlerFunc(func(w http.ResponseWriter, r *http.Request) {
					w.Header().Set(osb.RequestIdentityHeader, r.Header.Get(osb.RequestIdentityHeader))
					_, _ = io.WriteString(w, "{}")
				}))
			}()
			c := newClient(t, Options{})
			for range [3]int{} { // the connection of the second is kept, and the third uses it
				diff.Must(t, exchange(t, c, "http://"+listener.Addr().String(), osb.KindDeprovision).Lost)
			}
			end(c)
			until(t, what, func() bool { return atomic.LoadInt32(&open) == 0 })
			diff.NoError(t, exchange(t, c, "http://"+listener.Addr().String(), osb.KindDeprovision).Lost, "")
			end(c)
			until(t, what, func() bool { return atomic.LoadInt32(&open) == 0 })
		})
	}
}

// A connection that can't be looked at isn't used again.
func TestNoDescriptor(t *testing.T) {
	near, far := net.Pipe()
	defer far.Close()
	bottom := &timedConn{Conn: near, now: time.Now}
	conn := newConnection(bottom, bottom)
	defer conn.close()
	diff.Equal(t, conn.isQuiet(), false, "")
}

// countingConn counts the connections that are open.
type countingConn struct {
	net.Listener
	open *int32
}

func (c countingConn) Accept() (net.Conn, error) {
	conn, err := c.Listener.Accept()
	if err == nil {
		atomic.AddInt32(c.open, 1)
		conn = &countedConn{Conn: conn, open: c.open}
	}
	return conn, err
}

type countedConn struct {
	net.Conn
	once sync.Once
	open *int32
}

func (c *countedConn) Close() error {
	c.once.Do(func() { atomic.AddInt32(c.open, -1) })
	return c.Conn.Close()
}

// There are as many connections to a broker as the option says, and a request that finds none in time isn't sent.
func TestConnections(t *testing.T) {
	arrived, goOn := make(chan bool, 9), make(chan bool)
	server := serve(t, func(n int, r *http.Request, conn net.Conn) bool {
		arrived <- true
		<-goOn
		return returning("200 OK", "{}")(n, r, conn)
	})
	c := newClient(t, Options{Connections: 2})
	var group sync.WaitGroup
	for range [2]int{} {
		group.Add(1)
		go func() {
			defer group.Done()
			diff.NoError(t, exchange(t, c, server.url, osb.KindDeprovision).Lost, "")
		}()
	}
	next(t, arrived)
	next(t, arrived)
	out := outgoingOf(c, server.url, osb.KindDeprovision, ofInstance)
	out.Until = c.Clock().Add(100 * time.Millisecond)
	diff.ErrorIs(t, c.Exchange(context.Background(), out).Lost, ErrNotSent, "")
	other := outgoingOf(c, server.url, osb.KindDeprovision, ofInstance)
	other.Broker.Name = "another"
	group.Add(1)
	go func() {
		defer group.Done()
		diff.NoError(t, c.Exchange(context.Background(), other).Lost, "")
	}()
	next(t, arrived)
	close(goOn)
	group.Wait()
	server.wantArrivals(t, 3, 3)
}

// Many goroutines use a client, and each gets the answer to its own request.
func TestTogether(t *testing.T) {
	server := serve(t, func(n int, r *http.Request, conn net.Conn) bool {
		id := r.Header.Get(osb.RequestIdentityHeader)
		_, err := io.WriteString(conn, text("200 OK", `{"description":"`+id+`"}`, id))
		return err == nil
	})
	c := newClient(t, Options{Connections: 4})
	var group sync.WaitGroup
	for range [8]int{} {
		group.Add(1)
		go func() {
			defer group.Done()
			for range [50]int{} {
				out := outgoingOf(c, server.url, osb.KindDeprovision, ofInstance)
				in := c.Exchange(context.Background(), out)
				if in.Lost != nil || in.Details.Description == nil || *in.Details.Description != out.RequestID {
					t.Errorf("got %+v, want an answer to %s", in, out.RequestID)
				}
			}
		}()
	}
	group.Wait()
	requests, _ := server.arrivals()
	diff.Equal(t, len(requests), 400, "requests")
}

// The clock goes on, and is that of the machine.
func TestClock(t *testing.T) {
	c := newClient(t, Options{})
	before, start := c.Clock(), time.Now()
	time.Sleep(10 * time.Millisecond)
	passed, whole := c.Clock().Sub(before), time.Since(start)
	if passed < 10*time.Millisecond || passed > whole {
		t.Errorf("got %v in %v, want at least 10 ms", passed, whole)
	}
	other := sinceStart()
	first := other()
	diff.Equal(t, other().Before(first), false, "the clock goes back")
}

// What a client can't be made of.
func TestNew(t *testing.T) {
	password := func(platform.Broker) (string, error) { return "", nil }
	for what, options := range map[string]Options{
		"no password":           {},
		"a length below 0":      {Password: password, LongestAnswer: -1},
		"connections below 0":   {Password: password, Connections: -1},
		"a time below 0":        {Password: password, CatalogueTime: -1},
		"no such file":          {Password: password, TLS: Files{Authorities: "nowhere"}},
		"a certificate alone":   {Password: password, TLS: Files{Certificate: "somewhere"}},
		"a key alone":           {Password: password, TLS: Files{Key: "somewhere"}},
		"a certificate nowhere": {Password: password, TLS: Files{Certificate: "nowhere", Key: "nowhere"}},
	} {
		t.Run(what, func(t *testing.T) {
			diff.Error(t, diff.Err(New(options)), "")
		})
	}
}

// A connection on which nothing can be written fails at once, and isn't tried until the time is over.
func TestWriteThatFails(t *testing.T) {
	near, far := net.Pipe()
	near.Close()
	far.Close()
	conn := &timedConn{Conn: near, now: time.Now, until: time.Now().Add(5 * time.Second)}
	count, err := conn.Write([]byte("x"))
	diff.ErrorIs(t, err, io.ErrClosedPipe, "")
	diff.Equal(t, count, 0, "bytes written")
}

// A slowConn takes a second for each write, by its clock.
type slowConn struct {
	net.Conn
	now time.Time
}

func (s *slowConn) Write(text []byte) (int, error) {
	s.now = s.now.Add(time.Second)
	return len(text), nil
}

// The rest of a long request isn't written once its time is over: the broker must not get it whole.
func TestALongRequestWhoseTimeIsOver(t *testing.T) {
	slow := &slowConn{now: time.Unix(0, 0)}
	conn := &timedConn{Conn: slow, now: func() time.Time { return slow.now }, until: time.Unix(2, 0)}
	written, err := conn.Write(make([]byte, 5*piece))
	diff.ErrorIs(t, err, ErrTimeOver, "")
	diff.Equal(t, written, 2*piece, "bytes written")
}

// Where the URLs lead that a broker can have. What platform.CheckURL rejects leads nowhere.
func TestAddressOf(t *testing.T) {
	for url, row := range map[string]struct {
		allowHTTP      bool
		dialed, prefix string
	}{
		"https://broker.example":             {false, "broker.example:443", ""},
		"https://broker.example/":            {false, "broker.example:443", ""},
		"https://broker.example:8443/a/b/":   {false, "broker.example:8443", "/a/b"},
		"HTTPS://broker.example/a%20b":       {false, "broker.example:443", "/a%20b"},
		"https://[2001:db8::1]/v2":           {false, "[2001:db8::1]:443", "/v2"},
		"http://localhost:8080":              {false, "localhost:8080", ""},
		"http://LocalHost":                   {false, "LocalHost:80", ""},
		"http://127.0.0.1:8080/postgres":     {false, "127.0.0.1:8080", "/postgres"},
		"http://127.1.2.3":                   {false, "127.1.2.3:80", ""},
		"http://[::1]:8080":                  {false, "[::1]:8080", ""},
		"http://broker.example":              {true, "broker.example:80", ""},
		"https://broker.example/a.b/..c/...": {false, "broker.example:443", "/a.b/..c/..."},
	} {
		t.Run(url, func(t *testing.T) {
			got := diff.Value(addressOf(url, row.allowHTTP))(t)
			diff.Equal(t, got.dialed, row.dialed, "dialed")
			diff.Equal(t, got.prefix, row.prefix, "prefix")
		})
	}
	for _, url := range []string{"", "broker.example", "http://broker.example", "https://broker.example/../a"} {
		if got, err := addressOf(url, false); err == nil || got != (address{}) {
			t.Errorf("%q: got %+v, %v, want an error and no address", url, got, err)
		}
	}
}
