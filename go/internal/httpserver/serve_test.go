package httpserver

import (
	"context"
	"errors"
	"fmt"
	"io"
	"net"
	"net/http"
	"os"
	"os/exec"
	"strconv"
	"strings"
	"sync"
	"sync/atomic"
	"testing"
	"time"

	"pippinterm/internal/diff"
	"pippinterm/internal/waits"
)

// A pause is a handler that answers once it may.
type pause struct {
	begun chan struct{} // has a value for each request that began
	pass  chan struct{} // lets each go on
}

func newPause() pause { return pause{make(chan struct{}, 100), make(chan struct{}, 100)} }

func (p pause) ServeHTTP(w http.ResponseWriter, r *http.Request) {
	p.begun <- struct{}{}
	<-p.pass
	echo(w, r)
}

func TestConnectionsBeyondTheLimitWait(t *testing.T) {
	listener := start(t, Options{Connections: 2, PerAddress: 2}, Server{}, echo)
	var clients []client
	for number := 0; number < 2; number++ {
		clients = append(clients, dial(t, listener))
		clients[number].send(whole)
		clients[number].until("GET /a ;")
	}
	third := dial(t, listener) // the kernel takes it
	third.send(whole)
	check(t, third.SetReadDeadline(time.Now().Add(short)))
	if count, err := third.Read(make([]byte, 1)); count != 0 || !isTimeout(err) {
		t.Fatalf("the third: got %d, %v, want a timeout", count, err)
	}
	diff.Equal(t, listener.Connections(), 2, "connections open")
	check(t, third.SetReadDeadline(time.Now().Add(limit)))
	clients[0].Close()
	third.until("GET /a ;")
}

func TestAClosedConnectionFreesItsPlaceOnce(t *testing.T) {
	listener := start(t, Options{Connections: 3, PerAddress: 3}, Server{}, echo)
	for number := 0; number < 20; number++ {
		client := dial(t, listener)
		client.send(whole)
		client.until("GET /a ;")
		client.Close()
	}
	waits.Until(t, "only Accept has a slot", func() bool { return listener.Connections() == 1 })
}

func TestTwoListenersShareAnAddress(t *testing.T) {
	first := listen(t, Options{Share: true})
	second := diff.Value(Listen(context.Background(), first.Addr().String(), Options{Share: true}))(t)
	second.Close()
	if third, err := Listen(context.Background(), first.Addr().String(), Options{}); err == nil {
		third.Close()
		t.Error("a listener that doesn't share: got no error, want one")
	}
	alone := listen(t, Options{})
	if third, err := Listen(context.Background(), alone.Addr().String(), Options{Share: true}); err == nil {
		third.Close()
		t.Error("a second listener at an address that isn't shared: got no error, want one")
	}
}

func TestURL(t *testing.T) {
	listener, err := Listen(context.Background(), "[::1]:0", Options{})
	if err != nil {
		t.Skip("this machine has no IPv6: ", err)
	}
	defer listener.Close()
	diff.Equal(t, listener.URL(), fmt.Sprintf("http://[::1]:%d", listener.Addr().(*net.TCPAddr).Port), "")
}

func TestAClientThatReadsNothingIsCut(t *testing.T) {
	wrote := make(chan error, 1)
	listener := start(t, Options{Write: short}, Server{}, func(w http.ResponseWriter, _ *http.Request) {
		_, err := w.Write(make([]byte, 64<<20)) // more than the buffers of the kernel take
		wrote <- err
	})
	client := dial(t, listener)
	client.send(whole)
	diff.ErrorIs(t, waits.For(t, wrote, "the handler's write"), os.ErrDeadlineExceeded, "the handler's write")
}

func TestASlowHandlerIsntCut(t *testing.T) {
	slow := func(w http.ResponseWriter, r *http.Request) {
		time.Sleep(3 * short) // longer than all limits of the client
		echo(w, r)
	}
	listener := start(t, Options{Write: short, Silent: short}, Server{Request: short, Idle: short}, slow)
	client := dial(t, listener)
	client.send(whole)
	client.until("GET /a ;")
}

func TestStopAnswersWhatRuns(t *testing.T) {
	handler, isStopping := newPause(), make(chan struct{})
	listener := listen(t, Options{})
	server := Server{Sites: []Site{{listener, handler}}, Stopping: func() { close(isStopping) }}
	ctx, cancel := context.WithCancel(context.Background())
	served := waits.Begin(func() error { return server.Serve(ctx) })

	silent, idle, running := dial(t, listener), dial(t, listener), dial(t, listener)
	handler.pass <- struct{}{}
	idle.send(whole)
	idle.until("GET /a ;")
	<-handler.begun
	running.send(whole)
	<-handler.begun
	waits.Until(t, "all three are accepted", func() bool { return listener.Connections() == 4 })
	cancel()
	<-isStopping
	check(t, silent.SetReadDeadline(time.Now().Add(3*time.Second))) // net/http closes it after 5
	diff.Equal(t, silent.rest()+idle.rest(), "", "the silent and the idle one")
	diff.Equal(t, takes(listener.Addr().String()), false, "a new connection")
	select {
	case err := <-served:
		t.Fatalf("Serve while a request runs: got %v, want it to wait", err)
	case <-time.After(3 * short):
	}
	handler.pass <- struct{}{}
	if got := running.rest(); !strings.HasSuffix(got, "GET /a ;") || !strings.Contains(got, "Connection: close") {
		t.Errorf("the running one: got %q, want its answer and a close", got)
	}
	diff.NoError(t, <-served, "Serve")
}

const half = 30 * time.Second

// A Server without times of its own has limits all the same.
func TestDefaultTimes(t *testing.T) {
	for _, test := range []struct {
		name                string
		server              Server
		request, idle, stop time.Duration
	}{
		{"none", Server{}, half, half, half},
		{"a request", Server{Request: time.Minute}, time.Minute, time.Minute, half},
		{"all", Server{Request: 1, Idle: 2, Stop: 3}, 1, 2, 3},
	} {
		t.Run(test.name, func(t *testing.T) {
			got := test.server.withDefaults()
			want := []time.Duration{test.request, test.idle, test.stop}
			diff.Check(t, []time.Duration{got.Request, got.Idle, got.Stop}, want, "the times")
		})
	}
}

// So has a Listener.
func TestDefaultsOfAListener(t *testing.T) {
	want := Options{Connections: 800, PerAddress: 200, Silent: 5 * time.Second, Write: half, Observer: noObserver{}}
	diff.Check(t, Options{}.withDefaults(), want, "the defaults")
	want = Options{Connections: 10, PerAddress: 4, Silent: 1, Write: 2, Observer: noObserver{}}
	diff.Check(t, want.withDefaults(), want, "what has no need of defaults")
}

func TestStopHasALimit(t *testing.T) {
	handler := newPause()
	listener := listen(t, Options{})
	stop := serve(t, Server{Sites: []Site{{listener, handler}}, Stop: short})
	client := dial(t, listener)
	client.send(whole)
	<-handler.begun
	diff.ErrorIs(t, stop(), ErrCut, "Serve")
	if got, err := io.ReadAll(client); len(got) > 0 || isTimeout(err) {
		t.Errorf("the client: got %q, %v, want a connection that is closed", got, err)
	}
	close(handler.pass)
}

func TestTheLastSiteStopsLast(t *testing.T) {
	handler := newPause()
	main, health := listen(t, Options{Connections: 1}), listen(t, Options{})
	ctx, cancel := context.WithCancel(context.Background())
	served := make(chan error, 1)
	server := Server{Sites: []Site{{main, handler}, {health, http.HandlerFunc(echo)}}}
	go func() { served <- server.Serve(ctx) }()

	running := dial(t, main)
	running.send(whole)
	<-handler.begun
	ask := func(when string) {
		client := dial(t, health)
		client.send("GET /healthz HTTP/1.1\r\nHost: x\r\nConnection: close\r\n\r\n")
		diff.HasSuffix(t, client.rest(), "GET /healthz ;", "%s", when)
	}
	ask("while the first has all its connections,")
	cancel()
	waits.Until(t, "the first takes no more connections", func() bool { return !takes(main.Addr().String()) })
	ask("while the first stops,")
	handler.pass <- struct{}{}
	diff.NoError(t, <-served, "Serve")
}

// A stoppable is a handler that answers 503 once its program stops. Before that, it answers as its pause.
type stoppable struct {
	pause
	isStopping atomic.Bool
}

func (s *stoppable) ServeHTTP(w http.ResponseWriter, r *http.Request) {
	if s.isStopping.Load() {
		w.WriteHeader(http.StatusServiceUnavailable)
		return
	}
	s.pause.ServeHTTP(w, r)
}

// startStopping serves a stoppable, sends it a request, and has it stop. The function work is Server.Work.
func startStopping(t *testing.T, options Options, stop time.Duration, work func(context.Context)) (
	listener *Listener, handler *stoppable, running, idle client, served chan error,
) {
	t.Helper()
	handler, listener = &stoppable{pause: newPause()}, listen(t, options)
	isStopping := make(chan struct{})
	server := Server{Sites: []Site{{listener, handler}}, Stop: stop, Work: work, Stopping: func() {
		handler.isStopping.Store(true)
		close(isStopping)
	}}
	ctx, cancel := context.WithCancel(context.Background())
	t.Cleanup(cancel)
	served = make(chan error, 1)
	go func() { served <- server.Serve(ctx) }()
	idle, running = dial(t, listener), dial(t, listener)
	handler.pass <- struct{}{}
	idle.send(whole)
	idle.until("GET /a ;")
	<-handler.begun
	running.send(whole)
	<-handler.begun
	cancel()
	<-isStopping
	return listener, handler, running, idle, served
}

// statusAt is the status of the answer to a request on a new connection, which is the last one on it.
func statusAt(t *testing.T, listener *Listener) []string {
	t.Helper()
	client := dial(t, listener)
	client.send(whole)
	return statusesIn(client.rest())
}

// With Work, new requests get the handler's 503 while a request runs, and then while other work does. After that,
// nothing listens any more.
func TestWhileWorkRunsRequestsAreAnswered(t *testing.T) {
	begun, goOn := make(chan struct{}), make(chan struct{})
	listener, handler, running, idle, served := startStopping(t, Options{}, 0, func(context.Context) {
		close(begun)
		<-goOn
	})
	diff.Equal(t, idle.rest(), "", "the idle connection")
	for count := 0; count < 3; count++ {
		diff.Check(t, statusAt(t, listener), []string{"503"}, "another request while one runs")
	}
	select {
	case <-begun:
		t.Error("while a request runs: got a call of Work, want none")
	default:
	}
	handler.pass <- struct{}{}
	diff.Check(t, statusesIn(running.rest()), []string{"200"}, "the running request")
	<-begun
	diff.Check(t, statusAt(t, listener), []string{"503"}, "a request while the work runs")
	close(goOn)
	diff.NoError(t, <-served, "Serve")
	diff.Equal(t, takes(listener.Addr().String()), false, "a connection afterwards")
}

// A shared address is left to the other processes at once.
func TestASharedListenerIsClosedAtOnce(t *testing.T) {
	listener, handler, running, _, served := startStopping(t, Options{Share: true}, 0, func(context.Context) {})
	waits.Until(t, "no more connections are taken", func() bool { return !takes(listener.Addr().String()) })
	handler.pass <- struct{}{}
	diff.Check(t, statusesIn(running.rest()), []string{"200"}, "the running request")
	diff.NoError(t, <-served, "Serve")
}

// Neither a request nor other work keeps the Server for longer than Stop.
func TestWorkHasALimit(t *testing.T) {
	_, handler, _, _, served := startStopping(t, Options{}, short, func(within context.Context) { <-within.Done() })
	diff.ErrorIs(t, <-served, ErrCut, "Serve with a request that runs")
	close(handler.pass)
	untilDone := func(within context.Context) { <-within.Done() }
	_, handler, running, _, served := startStopping(t, Options{}, 20*short, untilDone)
	time.Sleep(3 * short)
	handler.pass <- struct{}{}
	diff.HasSuffix(t, running.rest(), "GET /a ;", "the running one")
	diff.NoError(t, <-served, "Serve with other work that runs")
}

func TestASiteThatFailsStopsTheOthers(t *testing.T) {
	failing, other := listen(t, Options{}), listen(t, Options{})
	isStopping := false
	server := Server{
		Sites:    []Site{{failing, http.HandlerFunc(echo)}, {other, http.HandlerFunc(echo)}},
		Stopping: func() { isStopping = true },
	}
	failing.Close()
	if err := server.Serve(context.Background()); !errors.Is(err, net.ErrClosed) || !isStopping {
		t.Errorf("Serve: got %v and stopping %v, want %v and true", err, isStopping, net.ErrClosed)
	}
	diff.Equal(t, takes(other.Addr().String()), false, "a connection to the other")
}

func TestStopBeforeTheBegin(t *testing.T) {
	listener := listen(t, Options{})
	ctx, cancel := context.WithCancel(context.Background())
	cancel()
	diff.NoError(t, (Server{Sites: []Site{{listener, http.HandlerFunc(echo)}}}).Serve(ctx), "Serve")
}

// limited is set in a process that TestTheLimitOfFilesIsRaised starts.
const limited = "OSB_TEST_LIMITED"

// TestTheLimitOfFilesIsRaised starts itself with a soft limit of 64 files, and a hard limit that the machine gives.
func TestTheLimitOfFilesIsRaised(t *testing.T) {
	if os.Getenv(limited) != "" {
		check(t, CheckFiles(65))
		diff.ErrorContains(t, CheckFiles(1<<62), "LimitNOFILE", "no limit")
		return
	}
	const script = `ulimit -S -n 64 && exec "$0" -test.run '^TestTheLimitOfFilesIsRaised$' -test.v`
	child := exec.Command("sh", "-c", script, os.Args[0])
	child.Env = append(os.Environ(), limited+"=1")
	output, err := child.CombinedOutput()
	diff.NoError(t, err, "%s", output)
	diff.Contains(t, string(output), "--- PASS", "")
}

// rejectUnread answers without a look at the body, as a handler does that rejects who asks.
func rejectUnread(w http.ResponseWriter, r *http.Request) {
	if r.URL.Path == "/last" {
		w.Header().Set("Connection", "close")
	}
	http.Error(w, "wrong password", http.StatusUnauthorized)
}

// A client that sends all of a body, slowly, before it reads sees the answer of a handler that reads nothing. net/http
// alone closes the connection half a second after such an answer.
func TestTheAnswerToAnUnreadBodyArrives(t *testing.T) {
	const length, first = 1 << 20, 1000
	body := strings.Repeat("a", length)
	chunked := fmt.Sprintf("%x\r\n%s\r\n0\r\n\r\n", length, body)
	for name, test := range map[string]struct {
		head, body string
		next       []string // the statuses of two requests
	}{
		"a length":    {"PUT /a HTTP/1.1\r\nHost: x\r\nContent-Length: 1048576\r\n\r\n", body, []string{"401"}},
		"a last one":  {"PUT /last HTTP/1.1\r\nHost: x\r\nContent-Length: 1048576\r\n\r\n", body, []string{"401"}},
		"chunks":      {"PUT /a HTTP/1.1\r\nHost: x\r\nTransfer-Encoding: chunked\r\n\r\n", chunked, []string{"401"}},
		"of HTTP/1.0": {"PUT /a HTTP/1.0\r\nContent-Length: 1048576\r\n\r\n", body, []string{"401"}},
		"no body":     {"PUT /a HTTP/1.1\r\nHost: x\r\n\r\n", "", []string{"401", "401"}},
	} {
		test := test
		t.Run(name, func(t *testing.T) {
			t.Parallel()
			client := dial(t, start(t, Options{}, Server{}, rejectUnread))
			client.send(test.head)
			if len(test.body) > 0 {
				client.send(test.body[:first])
				time.Sleep(800 * time.Millisecond) // nothing can be waited for
				client.send(test.body[first:])
			}
			if len(test.next) > 1 {
				client.send(strings.Replace(whole, "\r\n\r\n", "\r\nConnection: close\r\n\r\n", 1))
			}
			diff.Check(t, statusesIn(client.rest()), test.next, "the answers")
		})
	}
}

// A body that never arrives keeps nobody waiting for the answer, and the connection is closed soon after it. The time
// of the request, 30 seconds, isn't waited for.
func TestABodyThatNeverComesIsntWaitedFor(t *testing.T) {
	for name, head := range map[string]string{
		"a length":    "Content-Length: 100\r\n\r\n",
		"a part":      "Content-Length: 100\r\n\r\n{",
		"chunks":      "Transfer-Encoding: chunked\r\n\r\n",
		"a last one":  "Connection: close\r\nContent-Length: 100\r\n\r\n",
		"beyond 256K": "Content-Length: 1000000\r\n\r\n",
	} {
		head := head
		t.Run(name, func(t *testing.T) {
			t.Parallel()
			client := dial(t, start(t, Options{}, Server{}, func(w http.ResponseWriter, _ *http.Request) {
				w.Header().Set("Content-Length", "2")
				w.WriteHeader(http.StatusUnauthorized)
				_, _ = io.WriteString(w, "{}")
			}))
			client.send("PUT /a HTTP/1.1\r\nHost: x\r\n" + head)
			began := time.Now()
			client.until("{}")
			if took := time.Since(began); took > drainTime/2 {
				t.Errorf("got an answer after %v, want one within %v", took, drainTime/2)
			}
			diff.Equal(t, client.rest(), "", "after the answer") // rest fails after 10 seconds
		})
	}
}

// What the handler has read whole doesn't end the connection.
func TestABodyThatWasReadKeepsTheConnection(t *testing.T) {
	client := dial(t, start(t, Options{}, Server{}, echo))
	for count := 0; count < 2; count++ {
		client.send("PUT /a HTTP/1.1\r\nHost: x\r\nContent-Length: 3\r\n\r\nabc")
		diff.Lacks(t, client.until("PUT /a abc;"), "Connection: close", "")
	}
}

// A client that waits until it may send the body gets the answer at once.
func TestABodyThatIsntSentIsntWaitedFor(t *testing.T) {
	client := dial(t, start(t, Options{}, Server{}, rejectUnread))
	client.send("PUT /a HTTP/1.1\r\nHost: x\r\nExpect: 100-continue\r\nContent-Length: 9\r\n\r\n")
	diff.Equal(t, client.until("\r\n"), "HTTP/1.1 401 Unauthorized\r\n", "")
}

// A body without an end doesn't keep the server reading for ever.
func TestABodyIsDrainedUpToALimit(t *testing.T) {
	client := dial(t, start(t, Options{}, Server{}, rejectUnread))
	client.send(fmt.Sprintf("PUT /a HTTP/1.1\r\nHost: x\r\nContent-Length: %d\r\n\r\n", int64(1)<<40))
	over := make(chan struct{})
	go func() {
		defer close(over)
		_, _ = io.Copy(client, endless{}) // until the server closes the connection
	}()
	diff.Equal(t, client.until("\r\n"), "HTTP/1.1 401 Unauthorized\r\n", "")
	<-over
}

type endless struct{}

func (endless) Read(p []byte) (int, error) { return len(p), nil }

// A host that is an IPv4 address is listened at over IPv4 alone, also if it stands for all addresses.
func TestIPv4HasNoIPv6(t *testing.T) {
	listener := diff.Value(Listen(context.Background(), "0.0.0.0:0", Options{}))(t)
	defer listener.Close()
	at := listener.Addr().(*net.TCPAddr)
	diff.Equal(t, at.IP.String(), "0.0.0.0", "")
	port := strconv.Itoa(at.Port)
	diff.Equal(t, takes("127.0.0.1:"+port), true, "a connection at 127.0.0.1")
	diff.Equal(t, takes("[::1]:"+port), false, "a connection at ::1")
}

// What is logged of a target has no user and no password.
func TestLoggedTarget(t *testing.T) {
	for target, want := range map[string]string{
		"/v2/catalog":              "/v2/catalog",
		"/v2/a@b//c@d?e=f@g":       "/v2/a@b//c@d?e=f@g",
		"http://u:p@host/v2?a=b@c": "http://host/v2?a=b@c",
		"http://u:p@q@host:80":     "http://host:80",
		"http://host/v2/a@b":       "http://host/v2/a@b",
		"http:u:p@host//x":         "host//x",
		"//u:p@host/x":             "//host/x",
		"u:p@host:443":             "host:443",
		"http://u:" + strings.Repeat("a", 2000) + "@h/": "http://h/",
		"/" + strings.Repeat("a", 2000):                 "/" + strings.Repeat("a", 999),
		"*":                                             "*",
		"":                                              "",
	} {
		t.Run(fmt.Sprintf("%.50q", target), func(t *testing.T) {
			diff.Equal(t, LoggedTarget(target), want, "%.50q", target)
		})
	}
}

const limit = 10 * time.Second // of what has to happen soon

// A recorder is an Observer that has what it got.
type recorder struct {
	mutex      sync.Mutex
	rejections []RejectedRequest
	failures   []string
}

func (r *recorder) OnRejection(rejection RejectedRequest) {
	r.mutex.Lock()
	defer r.mutex.Unlock()
	r.rejections = append(r.rejections, rejection)
}

func (r *recorder) OnFailure(event string, err error) {
	r.mutex.Lock()
	defer r.mutex.Unlock()
	r.failures = append(r.failures, event+": "+err.Error())
}

// waitForRejections returns the rejections, once there are so many: an answer is sent before the observer gets it.
func (r *recorder) waitForRejections(t *testing.T, count int) []RejectedRequest {
	t.Helper()
	waits.Until(t, "what the observer is told", func() bool {
		r.mutex.Lock()
		defer r.mutex.Unlock()
		return len(r.rejections) >= count
	})
	r.mutex.Lock()
	defer r.mutex.Unlock()
	return append([]RejectedRequest(nil), r.rejections...)
}

// waitForStatuses returns the statuses of the rejections, which have to be of the address 127.0.0.1, once there are so
// many.
func (r *recorder) waitForStatuses(t *testing.T, count int) []int {
	t.Helper()
	var statuses []int
	for _, rejection := range r.waitForRejections(t, count) {
		diff.Equal(t, rejection.Address, "127.0.0.1", "")
		statuses = append(statuses, rejection.Status)
	}
	return statuses
}

func (r *recorder) events() []string {
	r.mutex.Lock()
	defer r.mutex.Unlock()
	return append([]string(nil), r.failures...)
}

func listen(t *testing.T, options Options) *Listener {
	t.Helper()
	listener := diff.Value(Listen(context.Background(), "127.0.0.1:0", options))(t)
	t.Cleanup(func() { _ = listener.Close() }) // it may be closed already
	return listener
}

// serve serves until the test ends or the function that it returns is called, which returns what Serve returned.
func serve(t *testing.T, server Server) (stop func() error) {
	t.Helper()
	ctx, cancel := context.WithCancel(context.Background())
	served := waits.Begin(func() error { return server.Serve(ctx) })
	var once sync.Once
	var err error
	stop = func() error {
		once.Do(func() {
			cancel()
			err = <-served
		})
		return err
	}
	t.Cleanup(func() { _ = stop() }) // tests that ask for the error call it before
	return stop
}

// start serves a handler with these options, and returns the listener.
func start(t *testing.T, options Options, server Server, handler http.HandlerFunc) *Listener {
	t.Helper()
	listener := listen(t, options)
	server.Sites = []Site{{Listener: listener, Handler: handler}}
	serve(t, server)
	return listener
}

// echo answers with the method, the target and the body, or with 408 if the body can't be read.
func echo(w http.ResponseWriter, r *http.Request) {
	body, err := io.ReadAll(r.Body)
	if err != nil {
		w.Header().Set("Connection", "close")
		w.WriteHeader(http.StatusRequestTimeout)
		return
	}
	_, _ = io.WriteString(w, r.Method+" "+r.RequestURI+" "+string(body)+";")
}

// A client is a connection that fails the test if it takes too long.
type client struct {
	net.Conn
	t *testing.T
}

func dial(t *testing.T, listener *Listener) client {
	t.Helper()
	connection := diff.Value(net.DialTimeout("tcp", listener.Addr().String(), limit))(t)
	return clientOf(t, connection)
}

// takes reports whether a connection to an address is taken.
func takes(address string) bool {
	connection, err := net.DialTimeout("tcp", address, limit)
	if err == nil {
		connection.Close()
	}
	return err == nil
}

func clientOf(t *testing.T, connection net.Conn) client {
	t.Helper()
	t.Cleanup(func() { _ = connection.Close() }) // it may be closed already
	check(t, connection.SetDeadline(time.Now().Add(limit)))
	return client{connection, t}
}

func (c client) send(text string) {
	c.t.Helper()
	diff.Value(io.WriteString(c, text))(c.t)
}

// closeWrite reports to the server that nothing follows.
func (c client) closeWrite() {
	c.t.Helper()
	check(c.t, c.Conn.(interface{ CloseWrite() error }).CloseWrite())
}

// rest returns what arrives until the server closes the connection.
func (c client) rest() string {
	c.t.Helper()
	got, err := io.ReadAll(c)
	if err != nil {
		c.t.Fatalf("after %q: got %v, want no error", got, err)
	}
	return string(got)
}

// until returns what arrives up to the end of this text.
func (c client) until(text string) string {
	c.t.Helper()
	var got []byte
	for one := make([]byte, 1); !strings.HasSuffix(string(got), text); {
		if _, err := c.Read(one); err != nil {
			c.t.Fatalf("after %q: got %v, want no error", got, err)
		}
		got = append(got, one[0])
	}
	return string(got)
}

// statusesIn returns the statuses of the answers in a text.
func statusesIn(text string) []string {
	var statuses []string
	for _, part := range strings.Split(text, "HTTP/1.")[1:] {
		statuses = append(statuses, strings.Fields(part)[1])
	}
	return statuses
}

var check = diff.Must
