// Package httpserver serves HTTP/1.1 by net/http. It bounds the time and the connections of clients, and corrects some
// answers of net/http: a broker may reject a request with a 4xx only if the request alone is the reason. Listen accepts
// connections, and a Server answers the requests on them.
//
// Each connection is an open file. At the start of a program, Go raises the soft limit of open files to the hard limit
// (package os, since Go 1.19). CheckFiles checks whether that suffices.
package httpserver

import (
	"context"
	"crypto/tls"
	"errors"
	"fmt"
	"net"
	"net/netip"
	"sync"
	"syscall"
	"time"

	"pippinterm/internal/httpserver/limiter"
)

// Options are the limits and the parts of a Listener. The zero Options are usable. (The limits are this project's
// choice.)
type Options struct {
	// Connections is how many connections may be open. It is 800 by default. Further connections wait in the queue of
	// the kernel until one is closed; none is refused.
	Connections int
	// PerAddress is how many connections each address may have open: one of IPv4, or all of a /64 of IPv6. It is a
	// quarter of Connections by default, and at least 1. Further ones are closed without an answer.
	PerAddress int
	// TrustedProxies are the networks of proxies that name their clients, by the PROXY protocol (version 1 or 2) or by
	// X-Forwarded-For. PerAddress then counts the connections of the client that a PROXY header names, and the requests
	// of each client that X-Forwarded-For names. A further request is answered with 503. A handler gets the client as
	// r.RemoteAddr, with port 0 from X-Forwarded-For. From any other address a PROXY header is a bad request, and
	// X-Forwarded-For says nothing.
	TrustedProxies []netip.Prefix
	// Silent is how long a new connection may send nothing of a request. It is 5 seconds by default, and includes the
	// handshake of TLS. Then the connection is closed without an answer.
	Silent time.Duration
	// Write is how long a client may take to accept one write of an answer. It is 30 seconds by default.
	Write time.Duration
	// Share lets other processes of the same user listen at the same address (SO_REUSEPORT of Linux). The kernel gives
	// each connection to one of them, even if that one has no connection left.
	Share bool
	// Certificates makes the Listener serve HTTPS, with TLS 1.2 or later, instead of HTTP.
	Certificates *Certificates
	// Observer may be nil.
	Observer Observer
}

func (o Options) withDefaults() Options {
	if o.Connections == 0 {
		o.Connections = 800
	}
	if o.PerAddress == 0 {
		o.PerAddress = (o.Connections + 3) / 4
	}
	if o.Silent == 0 {
		o.Silent = 5 * time.Second
	}
	if o.Write == 0 {
		o.Write = 30 * time.Second
	}
	if o.Observer == nil {
		o.Observer = noObserver{}
	}
	return o
}

// A Listener accepts connections for a Server. Any number of goroutines may use it.
type Listener struct {
	net.Listener
	options   Options
	addresses *addresses
	slots     chan struct{} // has a value for each open connection
	closed    chan struct{} // is closed by Close

	mutex    sync.Mutex
	isClosed bool
	silent   map[*conn]struct{} // the connections on which nothing of a request has arrived
}

// reusePort is SO_REUSEPORT of Linux, which package syscall doesn't have on each machine.
const reusePort = 0xf

// Listen listens at an address HOST:PORT. If the host is an IPv4 address, it listens to IPv4 only, also at 0.0.0.0. At
// [::] it listens to IPv4 too, unless the system separates them. If ctx is done, the look-up of the host ends.
//
// Errors: those of net.ListenConfig.Listen, such as an address that is in use.
func Listen(ctx context.Context, address string, options Options) (*Listener, error) {
	options = options.withDefaults()
	var config net.ListenConfig
	if options.Share {
		config.Control = share
	}
	listener, err := config.Listen(ctx, networkOf(address), address)
	switch {
	case errors.Is(err, syscall.EADDRINUSE) && options.Share:
		return nil, fmt.Errorf("can't listen: %w. A program has this address alone: stop it, or choose another address", err)
	case errors.Is(err, syscall.EADDRINUSE):
		return nil, fmt.Errorf("can't listen: %w. Stop the program that has this address, or choose another one", err)
	case err != nil:
		return nil, fmt.Errorf("can't listen: %w", err)
	}
	return newListener(listener, options), nil
}

// NewListener returns a Listener that accepts the connections of another one, such as one of net.Listen.
// Options.Share means nothing here.
func NewListener(listener net.Listener, options Options) *Listener {
	return newListener(listener, options.withDefaults())
}

func newListener(listener net.Listener, options Options) *Listener {
	return &Listener{
		Listener:  listener,
		options:   options,
		addresses: newAddresses(options.PerAddress),
		slots:     make(chan struct{}, options.Connections),
		closed:    make(chan struct{}),
		silent:    make(map[*conn]struct{}),
	}
}

// networkOf returns the network of an address HOST:PORT, as package net names it. With "tcp", 0.0.0.0 would be [::].
func networkOf(address string) string {
	host, _, err := net.SplitHostPort(address)
	if err != nil {
		return "tcp"
	}
	if parsed, err := netip.ParseAddr(host); err == nil && parsed.Is4() {
		return "tcp4"
	}
	return "tcp"
}

func share(_, _ string, raw syscall.RawConn) error {
	var failed error
	err := raw.Control(func(fd uintptr) {
		failed = syscall.SetsockoptInt(int(fd), syscall.SOL_SOCKET, reusePort, 1)
	})
	if err != nil {
		return err
	}
	return failed
}

// URL returns the URL of the address of the Listener, without a path.
func (l *Listener) URL() string {
	scheme := "http"
	if l.options.Certificates != nil {
		scheme = "https"
	}
	return scheme + "://" + l.Addr().String()
}

// Connections returns how many connections are open. While Accept waits for one, that counts too.
func (l *Listener) Connections() int { return len(l.slots) }

// Accept waits until a further connection is allowed, and then for that connection. It closes those of addresses that
// have all connections that they may have.
//
// Errors: net.ErrClosed after Close, and those of accept(2), such as EMFILE.
func (l *Listener) Accept() (net.Conn, error) {
	select {
	case l.slots <- struct{}{}:
	case <-l.closed:
		return nil, net.ErrClosed
	}
	accepted, err := l.accept()
	if err != nil {
		l.free()
		return nil, err
	}
	if !l.add(accepted) {
		_ = accepted.Close() // nothing was sent on it
		return nil, net.ErrClosed
	}
	return accepted, nil
}

func (l *Listener) accept() (*conn, error) {
	for {
		raw, err := l.Listener.Accept()
		if err != nil {
			return nil, err
		}
		accepted := newConn(l, raw)
		if accepted.proxied != nil || accepted.count() {
			return accepted, nil
		}
		_ = raw.Close() // nothing was sent on it
	}
}

// Close stops listening, and closes the connections on which nothing of a request has arrived.
//
// Errors: net.ErrClosed if the Listener is closed already.
func (l *Listener) Close() error {
	l.mutex.Lock()
	defer l.mutex.Unlock()
	if l.isClosed {
		return net.ErrClosed
	}
	l.isClosed = true
	close(l.closed)
	for silent := range l.silent {
		_ = silent.Conn.Close() // then net/http closes the conn
	}
	return l.Listener.Close()
}

func (l *Listener) free() { <-l.slots }

// add notes that a connection is silent. It returns false if the Listener is closed.
func (l *Listener) add(silent *conn) bool {
	l.mutex.Lock()
	defer l.mutex.Unlock()
	if !l.isClosed {
		l.silent[silent] = struct{}{}
	}
	return !l.isClosed
}

// remove notes that a connection isn't silent any more.
func (l *Listener) remove(silent *conn) {
	l.mutex.Lock()
	defer l.mutex.Unlock()
	delete(l.silent, silent)
}

// plain returns the connection that gives plain text, and the same connection if that is one of TLS.
func (l *Listener) plain(raw net.Conn) (net.Conn, *tls.Conn) {
	if l.options.Certificates == nil {
		return raw, nil
	}
	secure := tls.Server(raw, l.options.Certificates.config())
	return secure, secure
}

// Addresses count what each address has at once: connections, and requests that a trusted proxy forwards for it. Those
// that share a limit of failed logins (limiter.Neighbours) count as one. Any number of goroutines may use them.
type addresses struct {
	most int // of each

	mutex sync.Mutex
	of    map[netip.Prefix]usage
}

// A usage is what an address has.
type usage struct {
	count      int
	isReported bool // whether it was reported that the address has all that it may have
}

func newAddresses(most int) *addresses {
	return &addresses{most: most, of: make(map[netip.Prefix]usage)}
}

// take counts one more of an address, unless it has all that it may have. isNews is true if that has to be reported: it
// wasn't since the address had at most half.
func (a *addresses) take(address netip.Prefix) (isTaken, isNews bool) {
	a.mutex.Lock()
	defer a.mutex.Unlock()
	it := a.of[address]
	if isTaken = it.count < a.most; isTaken {
		it.count++
	} else {
		isNews = !it.isReported
		it.isReported = true
	}
	a.of[address] = it
	return isTaken, isNews
}

// give takes back what take has counted.
func (a *addresses) give(address netip.Prefix) {
	a.mutex.Lock()
	defer a.mutex.Unlock()
	it := a.of[address]
	if it.count--; it.count == 0 {
		delete(a.of, address)
		return
	}
	it.isReported = it.isReported && it.count > a.most/2
	a.of[address] = it
}

// take counts a connection or a request of an address, and returns whether the address may have it. If so, give it
// back.
func (l *Listener) take(address netip.Prefix) bool {
	isTaken, isNews := l.addresses.take(address)
	if isNews {
		l.options.Observer.OnFailure("address_at_limit",
			fmt.Errorf("%s has %d connections, and gets no further one", address, l.addresses.most))
	}
	return isTaken
}

// trusts reports whether an address is that of a trusted proxy.
func (l *Listener) trusts(address netip.Addr) bool {
	for _, proxy := range l.options.TrustedProxies {
		if proxy.Contains(address) {
			return true
		}
	}
	return false
}

// ipOf returns the IP address of an address of TCP. That of another network is the zero Addr, which nobody trusts.
func ipOf(address net.Addr) netip.Addr {
	tcp, isTCP := address.(*net.TCPAddr)
	if !isTCP {
		return netip.Addr{}
	}
	found, _ := netip.AddrFromSlice(tcp.IP) // the zero Addr if it is none
	return found.Unmap()
}

// neighboursOf returns what an IP address is counted as.
func neighboursOf(address netip.Addr) netip.Prefix { return limiter.Neighbours(address.String()) }

// A tally counts the requests that run. Once it is closed, it counts no further ones.
type tally struct {
	mutex    sync.Mutex
	count    int
	isClosed bool
	ended    chan struct{} // is closed once the tally is closed and nothing that it counts runs
}

func newTally() *tally { return &tally{ended: make(chan struct{})} }

// begin counts a request, and returns whether the tally still counts. If it does, call end.
func (t *tally) begin() bool {
	t.mutex.Lock()
	defer t.mutex.Unlock()
	if !t.isClosed {
		t.count++
	}
	return !t.isClosed
}

func (t *tally) end() {
	t.mutex.Lock()
	defer t.mutex.Unlock()
	t.count--
	t.check()
}

// close ends the counting. Call it once.
func (t *tally) close() {
	t.mutex.Lock()
	defer t.mutex.Unlock()
	t.isClosed = true
	t.check()
}

func (t *tally) check() {
	if t.isClosed && t.count == 0 {
		close(t.ended)
	}
}

// CheckFiles returns an error if the process can't have this many files open. Each connection is an open file.
func CheckFiles(needed uint64) error {
	var limit syscall.Rlimit
	if err := syscall.Getrlimit(syscall.RLIMIT_NOFILE, &limit); err != nil {
		return fmt.Errorf("the limit of open files: %w", err)
	}
	if limit.Cur < needed {
		return fmt.Errorf("at most %d files can be open, and %d are needed. Raise LimitNOFILE in the unit file, "+
			"or ulimit -n", limit.Cur, needed)
	}
	return nil
}
