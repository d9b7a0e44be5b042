package httpserver

import (
	"context"
	"errors"
	"fmt"
	"io"
	"log"
	"net"
	"net/http"
	"strings"
	"time"
)

// maxHeader is how many bytes the head of a request may have. net/http allows 4096 more, and then answers with 431.
const maxHeader = 32 << 10

// ErrCut reports that a Server has closed connections whose requests weren't answered in time.
var ErrCut = errors.New("requests weren't answered in time")

// A Server answers the requests on the connections of its sites. (The limits are this project's choice.)
type Server struct {
	// Sites are served side by side, and stopped in this order. Put a site for requests about the health of the program
	// last.
	Sites []Site
	// Request is how long a request may take to arrive whole, however often a byte of it arrives. It is 30 seconds by
	// default. If the head takes longer, the answer is 408. If the body does, reading it in the handler fails.
	Request time.Duration
	// Idle is how long a connection may be idle between two requests. It is as long as Request by default.
	Idle time.Duration
	// Stop is how long the running requests may go on once the Server stops. It is 30 seconds by default.
	Stop time.Duration
	// Stopping is called when the Server begins to stop, before it closes a Listener. It may be nil.
	Stopping func()
	// Work waits for work that goes on without a request. If Work isn't nil, the sites take connections until the
	// requests that run have been answered and Work has returned, at most for Stop. So after Stopping the handlers can
	// answer that the program is being stopped. A Listener with Options.Share is closed at once all the same, because
	// the kernel would give it connections that another process can serve. The context of Work is done after Stop.
	Work func(context.Context)
}

// A Site is a Listener and a handler of the requests on its connections.
//
// A Site itself answers a request with 400, and closes the connection, if the head of the request has both
// Content-Length and Transfer-Encoding, Transfer-Encoding in another version than HTTP/1.1, two lines Content-Length,
// or a continued line (RFC 9112, sections 5.2, 6.1 and 6.3). The connection of any other request with Transfer-Encoding
// is closed after the answer, and so is that of a request of which the handler hasn't read all of the body: such an
// answer doesn't wait for the body. The handler gets OPTIONS * as OPTIONS /, and r.TLS as net/http gives it.
type Site struct {
	Listener *Listener
	Handler  http.Handler
}

// Serve serves until ctx is done, or until a site fails. Then it stops: it closes the Listeners and all idle
// connections, and waits until the running requests are answered. With Work, it closes the Listeners last. The contexts
// of the requests aren't done with ctx.
//
// Errors: that of the site that failed, which wraps that of its Listener; ErrCut if the running requests take longer
// than Stop. After ErrCut their connections are closed, but their handlers may still run.
func (s Server) Serve(ctx context.Context) error {
	s = s.withDefaults()
	servers := make([]*http.Server, len(s.Sites))
	ended, requests := make(chan error, len(s.Sites)), newTally()
	for number, site := range s.Sites {
		server, listener := s.serverOf(site, requests), site.Listener
		servers[number] = server
		go func() { ended <- server.Serve(listener) }()
	}
	running := len(servers)
	var failed error
	select {
	case <-ctx.Done():
	case failed = <-ended:
		running--
	}
	if s.Stopping != nil {
		s.Stopping()
	}
	within, cancel := context.WithTimeout(context.Background(), s.Stop)
	defer cancel()
	s.linger(within, servers, requests)
	cut := shutdown(within, servers)
	for ; running > 0; running-- {
		if err := <-ended; failed == nil && !isClosed(err) {
			failed = err
		}
	}
	if failed != nil {
		return fmt.Errorf("can't serve: %w", failed)
	}
	return cut
}

// isClosed reports whether an error of a server is that it was stopped: as a whole, or only its Listener.
func isClosed(err error) bool {
	return errors.Is(err, http.ErrServerClosed) || errors.Is(err, net.ErrClosed)
}

// linger waits for the running requests and for Work, and has each connection closed after its next answer.
func (s Server) linger(within context.Context, servers []*http.Server, requests *tally) {
	if s.Work == nil {
		return
	}
	for number, server := range servers {
		server.SetKeepAlivesEnabled(false) // closes the idle connections
		if listener := s.Sites[number].Listener; listener.options.Share {
			_ = listener.Close() // it may have failed before
		}
	}
	requests.close()
	select {
	case <-requests.ended:
	case <-within.Done():
	}
	s.Work(within)
}

// shutdown stops the servers one after the other, until ctx is done.
func shutdown(ctx context.Context, servers []*http.Server) (cut error) {
	for _, server := range servers {
		if !errors.Is(server.Shutdown(ctx), context.DeadlineExceeded) {
			continue // with an error if its Listener was closed before
		}
		cut = ErrCut
		_ = server.Close() // the same error
	}
	return cut
}

func (s Server) withDefaults() Server {
	if s.Request == 0 {
		s.Request = 30 * time.Second
	}
	if s.Idle == 0 {
		s.Idle = s.Request
	}
	if s.Stop == 0 {
		s.Stop = 30 * time.Second
	}
	return s
}

func (s Server) serverOf(site Site, requests *tally) *http.Server {
	observer := site.Listener.options.Observer
	return &http.Server{
		Handler:        front{next: site.Handler, observer: observer, running: requests},
		ReadTimeout:    s.Request,
		IdleTimeout:    s.Idle,
		MaxHeaderBytes: maxHeader,
		ErrorLog:       log.New(errorLog{observer}, "", 0),
		ConnContext: func(ctx context.Context, accepted net.Conn) context.Context {
			return context.WithValue(ctx, connKey{}, accepted)
		},
	}
}

// connKey is the key of the conn among the values of the context of a request.
type connKey struct{}

// A front is the handler that net/http gets. It rejects requests with a bad head, and refuses those of a client that
// has too many through a trusted proxy.
type front struct {
	next     http.Handler
	observer Observer
	running  *tally // of the Server
}

func (f front) ServeHTTP(w http.ResponseWriter, r *http.Request) {
	c, isOurs := r.Context().Value(connKey{}).(*conn)
	if !isOurs {
		panic("the connection isn't one of a Listener") // Serve uses no others
	}
	isBad := c.begin()
	defer c.end()
	if f.running.begin() {
		defer f.running.end()
	}
	client := c.nameClient(r)
	if isBad {
		f.reject(w, r)
		return
	}
	rest := drainTime
	if client.IsValid() {
		if address := neighboursOf(client); c.listener.take(address) {
			defer c.listener.addresses.give(address)
		} else {
			f.next, rest = http.HandlerFunc(f.refuse), refusedTime
		}
	}
	if len(r.TransferEncoding) > 0 {
		w.Header().Set("Connection", "close") // the heads after it aren't followed
	}
	r.TLS = c.state() // as net/http does for a *tls.Conn
	if r.ContentLength == 0 {
		f.next.ServeHTTP(w, r)
		return
	}
	f.serveWithBody(w, r, c, rest)
}

// reject answers a request with a bad head.
func (f front) reject(w http.ResponseWriter, r *http.Request) {
	w.Header().Set("Connection", "close")
	f.answer(w, r, http.StatusBadRequest, "The head of the request can be read in more than one way.")
}

// refuse answers a request of a client that has as many requests as it may have at once. Nothing of it was done.
func (f front) refuse(w http.ResponseWriter, r *http.Request) {
	w.Header().Set("Retry-After", "5")
	f.answer(w, r, http.StatusServiceUnavailable, "Too many requests of this address at once. Nothing was done.")
}

// answer answers a request that the handler doesn't get. The answer isn't JSON, so a platform doesn't take it for a
// decision of the broker about an instance.
func (f front) answer(w http.ResponseWriter, r *http.Request, status int, text string) {
	began := time.Now()
	http.Error(w, text, status)
	f.observer.OnRejection(RejectedRequest{
		Method:   first(r.Method, longestMethod),
		Target:   LoggedTarget(r.RequestURI),
		Status:   status,
		Reason:   text,
		Duration: time.Since(began),
		Address:  hostOf(r.RemoteAddr),
	})
}

// An errorLog reports what net/http logs.
type errorLog struct{ observer Observer }

// semicolon begins a line about a query with a semicolon. Any client can cause it, and no operator has to know.
const semicolon = "http: URL query contains semicolon"

func (e errorLog) Write(line []byte) (int, error) {
	if text := strings.TrimSpace(string(line)); !strings.HasPrefix(text, semicolon) {
		e.observer.OnFailure("http_server", errors.New(text))
	}
	return len(line), nil
}

const (
	// drained is how many bytes of a body are read that the handler left: more than most bodies have.
	drained = 2 << 20
	// drainTime is how long the rest of a body may take to arrive after the answer.
	drainTime = 5 * time.Second
	// refusedTime is the same for a request that is refused because its client has too many. Meanwhile the connection
	// counts as nobody's, so a client that sends many such bodies slowly would take all connections of the proxy.
	refusedTime = 250 * time.Millisecond
)

// serveWithBody answers a request that has a body. If the handler leaves a part of the body, the answer is sent at
// once, and the connection is closed after it. Before that, some of the body is read for as long as rest: otherwise the
// connection would be closed while the client still sends, and a client that sends all of the body before it reads
// would never see the answer.
func (f front) serveWithBody(w http.ResponseWriter, r *http.Request, c *conn, rest time.Duration) {
	body := &trackedBody{ReadCloser: r.Body}
	r.Body = body
	f.next.ServeHTTP(&answer{ResponseWriter: w, body: body}, r)
	r.Body = body.ReadCloser                           // net/http looks at its own
	if body.hasEnded || r.Header.Get("Expect") != "" { // a client that expects 100-continue sends nothing
		return
	}
	if flusher, canFlush := w.(http.Flusher); canFlush {
		flusher.Flush()
	}
	c.limitReads(time.Now().Add(rest))
	_, _ = io.CopyN(io.Discard, r.Body, drained) // the answer is the same if the body ends, or is cut
}

// A trackedBody knows whether all of it was read.
type trackedBody struct {
	io.ReadCloser
	hasEnded bool
}

func (f *trackedBody) Read(p []byte) (int, error) {
	count, err := f.ReadCloser.Read(p)
	f.hasEnded = f.hasEnded || err == io.EOF
	return count, err
}

// An answer has its connection closed if it begins before all of the body was read. Otherwise net/http would wait for
// the body before it sends anything of the answer.
type answer struct {
	http.ResponseWriter
	body     *trackedBody
	hasBegun bool
}

func (a *answer) WriteHeader(status int) {
	a.begin()
	a.ResponseWriter.WriteHeader(status)
}

func (a *answer) Write(p []byte) (int, error) {
	a.begin()
	return a.ResponseWriter.Write(p)
}

// Flush sends what was written.
func (a *answer) Flush() {
	a.begin()
	if flusher, canFlush := a.ResponseWriter.(http.Flusher); canFlush {
		flusher.Flush()
	}
}

func (a *answer) begin() {
	if !a.hasBegun && !a.body.hasEnded {
		a.Header().Set("Connection", "close")
	}
	a.hasBegun = true
}

const (
	longestMethod = 20
	longestTarget = 1000
)

// An Observer gets what happens on the connections of a Listener before a handler gets a request, for a log and for
// metrics. Its methods return at once, and are called by any number of goroutines.
type Observer interface {
	// OnRejection is called for each request that is answered before the handler gets it, after its answer was written.
	OnRejection(RejectedRequest)
	// OnFailure is called if something went wrong that an operator has to know. The event is tls_handshake_failed,
	// address_at_limit once an address has all connections that it may have, or http_server for what net/http logs.
	OnFailure(event string, err error)
}

// A RejectedRequest is a request that was answered before the handler got it. If no whole head of the request has
// arrived, its method and its target are empty.
type RejectedRequest struct {
	Method   string // at most 20 bytes
	Target   string // LoggedTarget of what arrived
	Status   int
	Reason   string // the text of the answer, or empty if net/http has answered
	Duration time.Duration
	Address  string // the host of the client
}

// noObserver is an Observer that does nothing.
type noObserver struct{}

func (noObserver) OnRejection(RejectedRequest) {}
func (noObserver) OnFailure(string, error)     {}

// LoggedTarget returns what may be logged of the target of a request: at most 1000 bytes, without the user and the
// password that the host of a whole URL can have.
func LoggedTarget(target string) string {
	target = withoutUser(target)
	if scheme, rest, isURL := strings.Cut(target, "//"); isURL && !strings.ContainsAny(scheme, "/?#") {
		target = scheme + "//" + withoutUser(rest)
	}
	return first(target, longestTarget)
}

// withoutUser removes USER:PASSWORD@ from a text that begins with a host.
func withoutUser(text string) string {
	end := strings.IndexAny(text, "/?#")
	if end < 0 {
		end = len(text)
	}
	return text[strings.LastIndexByte(text[:end], '@')+1:]
}

func first(text string, most int) string {
	if len(text) > most {
		return text[:most]
	}
	return text
}
