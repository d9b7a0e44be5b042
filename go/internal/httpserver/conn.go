package httpserver

import (
	"bufio"
	"crypto/tls"
	"errors"
	"io"
	"net"
	"net/http"
	"net/netip"
	"strings"
	"sync"
	"sync/atomic"
	"time"

	"github.com/pires/go-proxyproto"
)

// A conn is a connection for net/http. It closes itself if nothing of a request arrives. It follows the heads of
// requests. If a head doesn't arrive whole, a conn answers with 408, because net/http answers with 400 or not at all.
//
// One goroutine at a time may read, and one may write. Any goroutine may close the conn and set its deadlines. The
// goroutine in which net/http serves the conn calls begin, end and state.
type conn struct {
	net.Conn // gives plain text
	listener *Listener
	secure   *tls.Conn  // nil without TLS
	proxied  *proxyConn // nil unless it is from a trusted proxy
	opened   time.Time
	closing  sync.Once

	// used by the goroutine that reads
	heads    heads
	isShaken bool // the handshake of TLS was tried

	// used by the goroutine that serves
	begun    uint64 // how many requests the handler got
	tlsState *tls.ConnectionState

	ended      atomic.Uint64 // how many requests the handler has answered
	isServing  atomic.Bool   // true from begin until net/http waits for the next request
	isRejected atomic.Bool   // 408 was sent, and nothing may follow

	client atomic.Pointer[net.TCPAddr] // whom a PROXY header has named, or nil

	mutex     sync.Mutex
	isSilent  bool
	isClosed  bool
	isCounted bool         // as a connection of address
	address   netip.Prefix // of the client
	deadline  time.Time    // the read deadline that net/http has set
}

func newConn(listener *Listener, raw net.Conn) *conn {
	c := &conn{listener: listener, opened: time.Now(), isSilent: true}
	if listener.trusts(ipOf(raw.RemoteAddr())) {
		c.proxied = &proxyConn{Conn: raw, named: c.takeClient}
		raw = c.proxied
	}
	c.Conn, c.secure = listener.plain(raw)
	return c
}

// takeClient takes the client that a PROXY header names. The connection counts as one of that client from then on,
// unless it is a trusted proxy too.
//
// Errors: io.EOF, for which net/http closes the connection without an answer, if the client has all connections that it
// may have.
func (c *conn) takeClient(client *net.TCPAddr) error {
	c.client.Store(client)
	if c.listener.trusts(ipOf(client)) || c.count() {
		return nil
	}
	return io.EOF
}

// count counts the connection as one of its client, and returns whether the client may have it.
func (c *conn) count() bool {
	address := neighboursOf(ipOf(c.RemoteAddr()))
	c.mutex.Lock()
	defer c.mutex.Unlock()
	if c.isClosed || !c.listener.take(address) {
		return false
	}
	c.isCounted, c.address = true, address
	return true
}

// RemoteAddr returns the address of the client. net/http asks for it too early to know what a PROXY header names.
func (c *conn) RemoteAddr() net.Addr {
	if client := c.client.Load(); client != nil {
		return client
	}
	return c.Conn.RemoteAddr()
}

// begin notes that the handler gets the next request, and returns whether the head of that request is bad.
func (c *conn) begin() (isBad bool) {
	c.isServing.Store(true)
	c.begun++
	bad := c.heads.bad.Load()
	return bad != 0 && c.begun >= bad
}

// end notes that the handler has answered the request. A part of the answer may still be in a buffer of net/http.
func (c *conn) end() { c.ended.Add(1) }

// state returns the state of TLS, or nil without TLS.
func (c *conn) state() *tls.ConnectionState {
	if c.tlsState == nil && c.secure != nil {
		state := c.secure.ConnectionState()
		c.tlsState = &state
	}
	return c.tlsState
}

// Read reads from the client. It may read more than it returns, since it leaves out empty lines between requests.
func (c *conn) Read(p []byte) (int, error) {
	if err := c.shakeHands(); err != nil {
		return 0, err
	}
	for len(p) > 0 {
		count, err := c.Conn.Read(p)
		count = c.heads.read(p[:count])
		if c.heads.hasBegun() {
			c.endSilence()
		}
		if err != nil && c.isCut(err) {
			c.reject()
		}
		if count > 0 || err != nil {
			return count, err
		}
	}
	return 0, nil
}

// isCut reports whether an error of reading cuts the head that net/http waits for: the time for the request is over, or
// the client has closed its side of the connection. While a request is served, net/http doesn't wait for a head. It
// reads ahead in another goroutine then, and ends that by a deadline in the past.
func (c *conn) isCut(err error) bool {
	isWaiting := c.ended.Load() == c.heads.ended && !c.isServing.Load()
	return isWaiting && c.heads.isInside() && (err == io.EOF || isTimeout(err))
}

func isTimeout(err error) bool {
	var network net.Error
	return errors.As(err, &network) && network.Timeout()
}

// endSilence gives the first request all the time of a request: the time of the silence before it doesn't count.
func (c *conn) endSilence() {
	c.mutex.Lock()
	defer c.mutex.Unlock()
	if !c.isSilent {
		return
	}
	c.isSilent = false
	c.listener.remove(c)
	if !c.deadline.IsZero() {
		c.deadline = c.deadline.Add(time.Since(c.opened))
	}
	_ = c.Conn.SetReadDeadline(c.deadline) // fails only if it is closed, and then the next Read fails too
}

// SetReadDeadline sets the deadline, or an earlier one while the connection is silent.
func (c *conn) SetReadDeadline(deadline time.Time) error {
	c.mutex.Lock()
	defer c.mutex.Unlock()
	c.deadline = deadline
	if deadline.After(c.opened) { // not zero, and not in the past
		c.isServing.Store(false)
	}
	if latest := c.opened.Add(c.listener.options.Silent); c.isSilent && (deadline.IsZero() || deadline.After(latest)) {
		deadline = latest
	}
	return c.Conn.SetReadDeadline(deadline)
}

// limitReads has reading end at this time, or at the deadline that net/http has set if that is earlier.
func (c *conn) limitReads(latest time.Time) {
	c.mutex.Lock()
	defer c.mutex.Unlock()
	if c.deadline.IsZero() || c.deadline.After(latest) {
		_ = c.Conn.SetReadDeadline(latest) // fails only if it is closed, and then the next Read fails too
	}
}

// SetDeadline sets the deadlines of reading and writing.
func (c *conn) SetDeadline(deadline time.Time) error {
	if err := c.SetReadDeadline(deadline); err != nil {
		return err
	}
	return c.SetWriteDeadline(deadline)
}

// Write writes a part of an answer. The client may take as long as Options.Write to accept it.
func (c *conn) Write(p []byte) (int, error) {
	if c.isRejected.Load() {
		return len(p), nil
	}
	status := rejectionOf(p)
	if status == 0 {
		return c.write(p)
	}
	answer := p
	if status == http.StatusNotImplemented { // for a Transfer-Encoding other than chunked, which is the client's fault
		status, answer = http.StatusBadRequest, rejectionWith(http.StatusBadRequest)
	}
	if _, err := c.write(answer); err != nil {
		return 0, err
	}
	c.report(status)
	return len(p), nil
}

func (c *conn) write(p []byte) (int, error) {
	if err := c.Conn.SetWriteDeadline(time.Now().Add(c.listener.options.Write)); err != nil {
		return 0, err
	}
	return c.Conn.Write(p)
}

// reject answers the request whose head is cut. net/http may read again, and fail again, before it closes the
// connection.
func (c *conn) reject() {
	if c.isRejected.Swap(true) {
		return
	}
	// both fail if the client has gone, and then nobody waits for the answer
	_, _ = c.write(rejectionWith(http.StatusRequestTimeout))
	_ = c.CloseWrite()
	c.report(http.StatusRequestTimeout)
}

// report reports a request that the handler doesn't get.
func (c *conn) report(status int) {
	c.listener.options.Observer.OnRejection(RejectedRequest{Status: status, Address: c.host()})
}

// host returns the address of the client without its port.
func (c *conn) host() string { return hostOf(c.RemoteAddr().String()) }

func hostOf(address string) string {
	host, _, err := net.SplitHostPort(address)
	if err != nil {
		return address
	}
	return host
}

// CloseWrite closes the sending side. net/http uses it to let the client read an answer before the connection is
// closed.
func (c *conn) CloseWrite() error {
	closer, canClose := c.Conn.(interface{ CloseWrite() error })
	if !canClose {
		return nil
	}
	return closer.CloseWrite()
}

// Close closes the connection, and allows a further one.
func (c *conn) Close() error {
	err := c.Conn.Close()
	c.closing.Do(func() {
		c.listener.remove(c)
		c.uncount()
		c.listener.free()
	})
	return err
}

// uncount takes back what count has counted.
func (c *conn) uncount() {
	c.mutex.Lock()
	defer c.mutex.Unlock()
	c.isClosed = true
	if c.isCounted {
		c.listener.addresses.give(c.address)
	}
}

// A proxyConn is from a trusted proxy. It may begin with a header of the PROXY protocol, of version 1 or 2, which isn't
// given to the reader. One goroutine at a time may read.
type proxyConn struct {
	net.Conn
	named    func(client *net.TCPAddr) error // is called with the client that the header names
	hasBegun bool
	isOwn    bool          // whether the header says that the proxy itself asks, and no client
	start    *bufio.Reader // has what was read with the header, or is nil once all of it was taken
	err      error         // of the header, after which nothing is read
}

// Read reads what follows the header. Errors: the header can't be read or names no client of TCP, that of named, and
// those of the connection.
func (p *proxyConn) Read(to []byte) (int, error) {
	if !p.hasBegun {
		p.hasBegun = true
		p.err = p.begin()
	}
	switch {
	case p.err != nil:
		return 0, p.err
	case p.start == nil:
		return p.Conn.Read(to)
	}
	count, err := p.start.Read(to)
	if p.start.Buffered() == 0 {
		p.start = nil
	}
	return count, err
}

// begin reads the header, if there is one. It reads no more than its reader's buffer has room for.
func (p *proxyConn) begin() error {
	p.start = bufio.NewReader(p.Conn)
	read := readVersion2
	if isVersion1(p.start) {
		read = readVersion1
	}
	client, err := read(p.start)
	switch {
	case errors.Is(err, proxyproto.ErrNoProxyProtocol): // also at the end of what arrives
		return nil
	case err != nil:
		return err
	}
	if p.isOwn = client == nil; p.isOwn {
		return nil
	}
	return p.named(client)
}

var errNoClient = errors.New("the PROXY header names no client of TCP")

// readVersion2 returns the client that a header names, or nil if the proxy itself asks.
func readVersion2(start *bufio.Reader) (*net.TCPAddr, error) {
	header, err := proxyproto.Read(start)
	if err != nil || header.Command == proxyproto.LOCAL {
		return nil, err
	}
	client, _, isTCP := header.TCPAddrs()
	if !isTCP || !ipOf(client).IsValid() {
		return nil, errNoClient
	}
	return client, nil
}

const (
	version1Start   = "PROXY "
	longestVersion1 = 107 // bytes, with the end of the line
)

func isVersion1(start *bufio.Reader) bool {
	if first, err := start.Peek(1); err != nil || first[0] != version1Start[0] {
		return false
	}
	first, err := start.Peek(len(version1Start))
	return err == nil && string(first) == version1Start
}

// readVersion1 is readVersion2 for a header of version 1. Debian's version of the library rejects addresses such as
// ::ffff:192.0.2.1. HAProxy sends them if it listens on IPv4 and IPv6 at once.
func readVersion1(start *bufio.Reader) (*net.TCPAddr, error) {
	line, err := start.ReadSlice('\n')
	if err != nil || len(line) > longestVersion1 {
		return nil, errNoClient
	}
	fields := strings.Split(strings.TrimSuffix(string(line), "\r\n"), " ")
	if fields[1] == "UNKNOWN" {
		return nil, nil
	}
	if len(fields) != 6 || fields[1] != "TCP4" && fields[1] != "TCP6" {
		return nil, errNoClient
	}
	client, err := netip.ParseAddrPort(net.JoinHostPort(fields[2], fields[4]))
	if _, failed := netip.ParseAddrPort(net.JoinHostPort(fields[3], fields[5])); err != nil || failed != nil {
		return nil, errNoClient
	}
	return net.TCPAddrFromAddrPort(client), nil
}

// CloseWrite closes the sending side.
func (p *proxyConn) CloseWrite() error {
	closer, canClose := p.Conn.(interface{ CloseWrite() error })
	if !canClose {
		return nil
	}
	return closer.CloseWrite()
}

// nameClient sets r.RemoteAddr to the address of the client, HOST:PORT with port 0 if nobody knows the port. Of a
// connection from a trusted proxy it is the client that the PROXY header names. If there is no such header, or it names
// a trusted proxy too, it is the right-most address of X-Forwarded-For that isn't a trusted proxy's. Then nameClient
// returns it, since the connection isn't counted as one of this client. Otherwise it returns the zero Addr.
func (c *conn) nameClient(r *http.Request) (forwarded netip.Addr) {
	if c.proxied == nil {
		return forwarded
	}
	peer := c.RemoteAddr()
	if c.listener.trusts(ipOf(peer)) && !c.proxied.isOwn {
		forwarded = c.listener.forwardedFor(r.Header["X-Forwarded-For"])
	}
	if r.RemoteAddr = peer.String(); forwarded.IsValid() {
		r.RemoteAddr = netip.AddrPortFrom(forwarded, 0).String()
	}
	return forwarded
}

// forwardedFor returns the right-most address that isn't a trusted proxy's. What stands left of it, or of a text that
// is no address, may be made up by the client. If there is none, it returns the zero Addr.
func (l *Listener) forwardedFor(values []string) netip.Addr {
	all := strings.Split(strings.Join(values, ","), ",")
	for at := len(all) - 1; at >= 0; at-- {
		client, err := forwardedAddress(strings.Trim(all[at], " \t"))
		if err != nil || !l.trusts(client) {
			return client
		}
	}
	return netip.Addr{}
}

// forwardedAddress reads an address of X-Forwarded-For, with a port or without. Errors: it is none.
func forwardedAddress(text string) (netip.Addr, error) {
	if whole, err := netip.ParseAddrPort(text); err == nil {
		return whole.Addr().Unmap(), nil
	}
	text = strings.TrimSuffix(strings.TrimPrefix(text, "["), "]")
	client, err := netip.ParseAddr(text)
	return client.Unmap(), err
}
