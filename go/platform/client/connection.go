package client

import (
	"bufio"
	"context"
	"crypto/tls"
	"crypto/x509"
	"errors"
	"fmt"
	"net"
	"net/http"
	"net/url"
	"os"
	"strings"
	"sync"
	"sync/atomic"
	"syscall"
	"time"

	"pippinterm/internal/ciphers"
	"pippinterm/platform"
)

const (
	// piece is how many bytes are written at a time, at most. Between two pieces the clock is read.
	piece = 16 << 10
	// around is how many bytes an answer may have besides its body: its head, and what separates the pieces of the
	// body.
	around = 1 << 20
	// interim is how many answers of the class 1xx may precede the answer.
	interim = 5
)

// timedConn is the connection at the bottom, to which everything is written and from which everything is read. Once its
// time is over, nothing is written to it, and nothing that arrives counts.
type timedConn struct {
	net.Conn
	now   func() time.Time
	until time.Time
}

func (t *timedConn) Write(text []byte) (written int, err error) {
	for written < len(text) {
		next := text[written:]
		if len(next) > piece {
			next = next[:piece]
		}
		if !t.now().Before(t.until) {
			return written, ErrTimeOver
		}
		count, err := t.Conn.Write(next)
		written += count
		if err != nil {
			return written, err
		}
	}
	return written, nil
}

func (t *timedConn) Read(into []byte) (int, error) {
	count, err := t.Conn.Read(into)
	if !t.now().Before(t.until) {
		return 0, ErrTimeOver
	}
	return count, err
}

// meter is the connection at the top, of which a request and its answer are read and written. It has no more bytes to
// read than an exchange may have, and knows whether a byte of its request was written.
type meter struct {
	net.Conn
	left      int
	isWritten bool
	failed    error // of a Write, as package net/http hides it
}

func (m *meter) Write(text []byte) (int, error) {
	count, err := m.Conn.Write(text)
	m.isWritten = m.isWritten || count > 0
	if err != nil {
		m.failed = err
	}
	return count, err
}

func (m *meter) Read(into []byte) (int, error) {
	if m.left == 0 {
		return 0, ErrTooLong
	}
	if len(into) > m.left {
		into = into[:m.left]
	}
	count, err := m.Conn.Read(into)
	m.left -= count
	return count, err
}

// A connection leads to a broker. One goroutine uses it at a time.
type connection struct {
	bottom *timedConn
	top    *meter
	reader *bufio.Reader
	writer *bufio.Writer
	raw    syscall.RawConn // that of the connection at the bottom, or nil
	isKept bool            // whether it has carried a request before

	// heeded is closed once what waits on the connection has to end, or nil. endHeed ends the goroutine that waits for
	// that.
	heeded  <-chan struct{}
	endHeed func()

	idleSince time.Time
	expiry    *time.Timer // runs while it waits for a request; nil before it has waited for one
}

// newConnection is a connection to a broker, over one at the bottom that TLS may have been added to.
func newConnection(bottom *timedConn, top net.Conn) *connection {
	metered := &meter{Conn: top}
	made := &connection{
		bottom: bottom, top: metered, reader: bufio.NewReader(metered), writer: bufio.NewWriterSize(metered, piece),
		endHeed: func() {},
	}
	if system, ok := bottom.Conn.(syscall.Conn); ok {
		made.raw, _ = system.SyscallConn() // nil with an error
	}
	return made
}

// begin begins an exchange, which may last until a time, and read so many bytes.
func (c *connection) begin(until time.Time, most int) {
	c.bottom.until, c.top.left, c.top.isWritten, c.top.failed = until, most, false, nil
}

// past is a deadline that ends all that waits on a connection.
var past = time.Unix(1, 0)

// heed has all that waits on the connection end after a time, and once the context is done. A goroutine waits for the
// context until another one is heeded, or the connection is closed: usually all exchanges have the same context.
//
// Errors: that of the context; those of the connection.
func (c *connection) heed(ctx context.Context, left time.Duration) error {
	if done := ctx.Done(); done != c.heeded {
		c.endHeed()
		c.heeded, c.endHeed = done, endOnce(c.bottom.Conn, done)
	}
	if err := c.bottom.Conn.SetDeadline(time.Now().Add(left)); err != nil {
		return err
	}
	return ctx.Err() // if it was done before, the deadline may be that of the goroutine no more
}

// endOnce has a goroutine end all that waits on a connection once a channel is closed, until end is called.
func endOnce(conn net.Conn, done <-chan struct{}) (end func()) {
	if done == nil {
		return func() {}
	}
	stop, ended := make(chan struct{}), make(chan struct{})
	go func() {
		defer close(ended)
		select {
		case <-done:
			_ = conn.SetDeadline(past) // it fails only if the connection is closed
		case <-stop:
		}
	}()
	return func() {
		close(stop)
		<-ended
	}
}

// watch calls use, and ends all that it waits for on the connection once the context is done.
func watch(ctx context.Context, conn net.Conn, use func() error) error {
	defer endOnce(conn, ctx.Done())()
	return use()
}

// exchange writes a request, and reads its answer whole. The body has no more bytes than most.
//
// Errors: those of the connection; ErrTimeOver, ErrTooLong, ErrCut, ErrGarbled.
func (c *connection) exchange(request *http.Request, most int) (got wholeAnswer, err error) {
	if err := c.write(request); err != nil {
		return wholeAnswer{}, err
	}
	response, err := c.answer(request)
	if err != nil {
		return wholeAnswer{}, err
	}
	// the body isn't closed: that would read the rest of it, and it holds nothing
	got = wholeAnswer{status: response.StatusCode, header: response.Header}
	if got.status < http.StatusOK { // after a 101 the body would be the connection, which doesn't end
		return got, nil
	}
	if got.body, err = readAtMost(response.Body, most); err != nil {
		return got, readError(err)
	}
	got.isLast = request.Close || response.Close || !response.ProtoAtLeast(1, 1) || c.reader.Buffered() > 0
	return got, nil
}

func (c *connection) write(request *http.Request) error {
	err := request.Write(c.writer)
	if err == nil {
		err = c.writer.Flush()
	}
	if c.top.failed != nil {
		return c.top.failed
	}
	return err
}

// answer reads the head of the answer. Answers before it, such as 100, are passed over, but 101 isn't.
func (c *connection) answer(request *http.Request) (*http.Response, error) {
	for passed := 0; ; passed++ {
		response, err := http.ReadResponse(c.reader, request)
		if err != nil {
			return nil, readError(err)
		}
		status := response.StatusCode
		if status < http.StatusContinue || status >= http.StatusOK || status == http.StatusSwitchingProtocols {
			return response, nil
		}
		if passed == interim {
			return nil, ErrGarbled
		}
	}
}

// isQuiet reports whether nothing has arrived since the last answer, not even the end of the connection.
func (c *connection) isQuiet() bool {
	if c.raw == nil {
		return false
	}
	isQuiet := false
	err := c.raw.Control(func(descriptor uintptr) { // whatever deadline the last exchange had
		var one [1]byte
		_, _, err := syscall.Recvfrom(int(descriptor), one[:], syscall.MSG_PEEK|syscall.MSG_DONTWAIT)
		isQuiet = err == syscall.EAGAIN
	})
	return err == nil && isQuiet
}

func (c *connection) close() {
	c.endHeed()
	c.heeded, c.endHeed = nil, func() {}
	_ = c.top.Close() // what it has read is whole, or lost already
}

// connect opens a connection to a broker. What is written on the way is written before the time is over.
func (c *Client) connect(ctx context.Context, b *broker, until time.Time) (*connection, error) {
	proxy, err := c.proxy(b)
	if err != nil {
		return nil, err
	}
	dialed := b.dialed
	if proxy != nil {
		dialed = proxy.Host
	}
	raw, err := c.dial(ctx, "tcp", dialed)
	if err != nil {
		return nil, err
	}
	bottom := &timedConn{Conn: raw, now: c.now, until: until}
	top, err := c.wrap(ctx, bottom, b, proxy)
	if err != nil {
		raw.Close()
		return nil, err
	}
	return newConnection(bottom, top), nil
}

// wrap adds the tunnel and TLS, as far as they are wanted.
func (c *Client) wrap(ctx context.Context, bottom *timedConn, b *broker, proxy *url.URL) (top net.Conn, err error) {
	top = bottom
	if proxy != nil {
		if proxy.Scheme == "https" {
			if top, err = c.secure(ctx, top, proxy.Hostname()); err != nil {
				return nil, err
			}
		}
		if err := watch(ctx, bottom.Conn, func() error { return tunnel(top, b.dialed, proxy.User) }); err != nil {
			return nil, fmt.Errorf("the tunnel through the proxy: %w", err)
		}
	}
	if b.isTLS {
		return c.secure(ctx, top, b.host)
	}
	return top, nil
}

func (c *Client) secure(ctx context.Context, conn net.Conn, host string) (net.Conn, error) {
	secured := tls.Client(conn, c.trust.of(host))
	if err := secured.HandshakeContext(ctx); err != nil {
		return nil, fmt.Errorf("TLS with %s: %w", host, err)
	}
	return secured, nil
}

// proxy returns the host and port of the proxy for a broker, or nil for none.
func (c *Client) proxy(b *broker) (*url.URL, error) {
	if c.options.Proxy == nil || !b.isTLS {
		return nil, nil
	}
	target, err := url.Parse(b.origin)
	if err != nil {
		return nil, err
	}
	proxy, err := c.options.Proxy(&http.Request{URL: target})
	if err != nil || proxy == nil {
		return nil, err
	}
	port := map[string]string{"http": "80", "https": "443"}[proxy.Scheme]
	if port == "" || proxy.Hostname() == "" {
		return nil, errors.New("the proxy must be named by http:// or https:// and a host")
	}
	if given := proxy.Port(); given != "" {
		port = given
	}
	return &url.URL{Scheme: proxy.Scheme, User: proxy.User, Host: net.JoinHostPort(proxy.Hostname(), port)}, nil
}

// tunnel asks a proxy for a connection to an address.
func tunnel(conn net.Conn, to string, user *url.Userinfo) error {
	request := &http.Request{Method: http.MethodConnect, URL: &url.URL{Opaque: to}, Host: to, Header: http.Header{}}
	if user != nil {
		password, _ := user.Password()
		request.SetBasicAuth(user.Username(), password)
		request.Header["Proxy-Authorization"] = request.Header["Authorization"]
		request.Header.Del("Authorization")
	}
	if err := request.Write(conn); err != nil {
		return err
	}
	reader := bufio.NewReader(&meter{Conn: conn, left: around})
	response, err := http.ReadResponse(reader, request)
	if err != nil {
		return readError(err)
	}
	if response.StatusCode != http.StatusOK || reader.Buffered() > 0 {
		return fmt.Errorf("the proxy answers %d", response.StatusCode)
	}
	return nil
}

// A brokerKey names a broker. If the URL of a broker changes, it is another broker.
type brokerKey struct{ name, url string }

// A broker is what is known of one while the program runs: its address, and its connections.
type broker struct {
	address
	// returns says that the latest answer carried the identity of its request. Only then is a connection kept.
	returns atomic.Bool
	used    chan struct{} // has an element for each connection that carries a request
	longest time.Duration // for which a connection waits for a request

	mutex    sync.Mutex
	idle     []*connection // those that wait, the latest last
	isClosed bool
}

func newBroker(at address, connections int, longest time.Duration) *broker {
	return &broker{address: at, used: make(chan struct{}, connections), longest: longest}
}

// tryEnter is enter that doesn't wait. It reports whether a connection is free.
func (b *broker) tryEnter() bool {
	select {
	case b.used <- struct{}{}:
		return true
	default:
		return false
	}
}

// enter waits for a connection that is free.
//
// Errors: that of the context.
func (b *broker) enter(ctx context.Context) error {
	if ctx.Err() != nil {
		return ctx.Err()
	}
	select {
	case b.used <- struct{}{}:
		return nil
	case <-ctx.Done():
		return ctx.Err()
	}
}

func (b *broker) leave() { <-b.used }

// take returns a connection that waits for a request, and can still be used, or nil.
func (b *broker) take(now time.Time) *connection {
	for {
		last := b.latest()
		if last == nil {
			return nil
		}
		// the timer may not have fired yet: while the machine is suspended, it stands still
		if last.expiry.Stop() && now.Sub(last.idleSince) < b.longest && last.isQuiet() {
			return last
		}
		last.close()
	}
}

func (b *broker) latest() *connection {
	b.mutex.Lock()
	defer b.mutex.Unlock()
	count := len(b.idle)
	if count == 0 {
		return nil
	}
	last := b.idle[count-1]
	b.idle = b.idle[:count-1]
	return last
}

// keep has a connection wait for the next request, or closes it.
func (b *broker) keep(it *connection, now time.Time) {
	b.mutex.Lock()
	defer b.mutex.Unlock()
	if b.isClosed {
		it.close()
		return
	}
	it.isKept, it.idleSince = true, now
	if it.expiry == nil {
		it.expiry = time.AfterFunc(b.longest, func() { b.expire(it) })
	} else { // it was stopped before it fired, or the connection would be closed
		it.expiry.Reset(b.longest)
	}
	b.idle = append(b.idle, it)
}

// expire closes a connection that has waited for too long, unless it was taken meanwhile.
func (b *broker) expire(it *connection) {
	b.mutex.Lock()
	isIdle := false
	for at, other := range b.idle {
		if other == it {
			b.idle = append(b.idle[:at], b.idle[at+1:]...)
			isIdle = true
			break
		}
	}
	b.mutex.Unlock()
	if isIdle {
		it.close()
	}
}

// close closes the connections that wait for a request. No other one is kept from then on.
func (b *broker) close() {
	b.mutex.Lock()
	defer b.mutex.Unlock()
	b.isClosed = true
	for _, conn := range b.idle {
		conn.expiry.Stop()
		conn.close()
	}
	b.idle = nil
}

// An address is where a broker is, by its URL.
type address struct {
	isTLS  bool
	origin string // the scheme, the host and the port, as in the URL
	host   string // the host alone
	dialed string // host:port
	prefix string // what the path of the URL is, without a slash at its end
}

// addressOf is the address of a URL.
//
// Errors: those of platform.CheckURL.
func addressOf(text string, allowHTTP bool) (address, error) {
	if err := platform.CheckURL(text, allowHTTP); err != nil {
		return address{}, err
	}
	read, err := url.Parse(text)
	if err != nil {
		return address{}, err
	}
	made := address{isTLS: read.Scheme == "https", origin: read.Scheme + "://" + read.Host, host: read.Hostname()}
	port := read.Port()
	switch {
	case port == "" && made.isTLS:
		port = "443"
	case port == "":
		port = "80"
	}
	made.dialed, made.prefix = net.JoinHostPort(made.host, port), strings.TrimSuffix(read.EscapedPath(), "/")
	return made, nil
}

// Files are the names of files in PEM.
type Files struct {
	Authorities string // the authorities of brokers' certificates, in place of the system's; or empty for the system's
	Certificate string // the platform's own certificate, followed by those of intermediate authorities; or empty
	Key         string // the private key of that certificate
}

// trust is the configuration of TLS. It can be read again while it is used.
type trust struct{ current atomic.Pointer[tls.Config] }

func (t *trust) load(files Files) error {
	config := &tls.Config{
		MinVersion:         tls.VersionTLS12,
		CipherSuites:       ciphers.Suites(),
		NextProtos:         []string{"http/1.1"}, // a server may answer HTTP/2 otherwise
		ClientSessionCache: tls.NewLRUClientSessionCache(0),
	}
	if files.Authorities != "" {
		text, err := os.ReadFile(files.Authorities)
		if err != nil {
			return fmt.Errorf("the authorities of brokers' certificates: %w", err)
		}
		config.RootCAs = x509.NewCertPool()
		if !config.RootCAs.AppendCertsFromPEM(text) {
			return fmt.Errorf("%s has no certificate in PEM", files.Authorities)
		}
	}
	if (files.Certificate == "") != (files.Key == "") {
		return errors.New("the platform's certificate and its key are named together, or neither is")
	}
	if files.Certificate != "" {
		pair, err := tls.LoadX509KeyPair(files.Certificate, files.Key)
		if err != nil {
			return fmt.Errorf("the certificate %s with the key %s: %w", files.Certificate, files.Key, err)
		}
		config.Certificates = []tls.Certificate{pair}
	}
	t.current.Store(config)
	return nil
}

// of returns the configuration for a server.
func (t *trust) of(host string) *tls.Config {
	config := t.current.Load().Clone()
	config.ServerName = host
	return config
}
