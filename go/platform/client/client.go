// Package client sends the requests of a platform to brokers over HTTP/1.1. Package osb decides what is sent, and what
// is taken of an answer. Package net/http writes requests and reads answers.
//
// The connections are this package's own, and not those of http.Transport, for three reasons:
//
//   - A request is written once. http.Transport writes a GET again if the connection on which it was written breaks.
//   - The clock is read before every write to a connection, of no more than 16 KiB each. So a process that is paused
//     between connecting and writing sends nothing once the time of its exchange is over. A clock is read that goes on
//     while the machine is suspended.
//   - An answer is taken only for its own request. If a broker or a gateway answers twice, http.Transport may take the
//     second answer for that to the next request of the connection, and prints what nobody asked for to a log.
//
// A connection carries one request. It is kept for the next one only while the broker returns the header
// X-Broker-API-Request-Identity of each request in its answer. On a connection that was kept, an answer without that
// header isn't taken, and an answer with another value is taken on none. So what arrives late, or twice, is never taken
// for the answer to another request.
package client

import (
	"bytes"
	"context"
	"errors"
	"fmt"
	"io"
	"math"
	"net"
	"net/http"
	"net/url"
	"os"
	"sync"
	"time"
	"unicode/utf8"

	"pippinterm/internal/budget"
	"pippinterm/internal/journalfile"
	"pippinterm/osb"
	"pippinterm/platform"
)

// Options are what a Client is made of.
type Options struct {
	// Password returns the password of a broker, in clear. It is called for each request to a broker that has a user,
	// and must not wait long. Passwords.Of is one.
	Password func(broker platform.Broker) (string, error)

	TLS Files // how brokers are trusted, and what the platform shows them

	// LongestAnswer is the greatest length of an answer's body, in bytes. 0 stands for 1 MiB. An answer that is longer
	// is lost. It doesn't count for catalogues, of which LongestCatalogue does. While an answer is parsed, each of its
	// bytes takes up to 85 bytes, so answers of twice this length are parsed at once. Others wait until their Until.
	LongestAnswer int
	// Connections is how many connections to a broker there are at a time. 0 stands for 16. A request waits for one
	// that is free, and that counts towards its time: so have no more requests in flight.
	Connections int
	// CatalogueTime is how long Catalogue waits. 0 stands for 30 s.
	CatalogueTime time.Duration
	// UserAgent is the header User-Agent. It is osb-platform if it is empty.
	UserAgent string
	// AllowHTTP allows http:// for brokers that aren't on this machine. Everybody on the way can then read passwords
	// and credentials, and answer in the broker's place.
	AllowHTTP bool
	// Proxy returns the proxy for a request, or nil for none, as http.ProxyFromEnvironment does. If Proxy is nil, no
	// proxy is used, whatever the environment says. A proxy is asked for a tunnel (CONNECT), and only to brokers with
	// https://: it reads nothing, and can't answer in the broker's place.
	Proxy func(*http.Request) (*url.URL, error)
}

// LongestCatalogue is the greatest length of a catalogue, in bytes (this project's choice).
const LongestCatalogue = 8 << 20

const (
	standardLongest       = 1 << 20
	standardConnections   = 16
	standardCatalogueTime = 30 * time.Second
	standardUserAgent     = "osb-platform"

	// standardIdle is for how long a connection waits for its next request. Servers close connections that wait for
	// longer, the quickest in wide use after 2 s, and a request on its way to one that is being closed is lost.
	standardIdle = time.Second
)

// A Client sends requests to brokers. It is a platform.Client. Any number of goroutines use it.
type Client struct {
	options Options
	trust   trust
	now     func() time.Time
	dial    func(ctx context.Context, network, address string) (net.Conn, error)
	idle    time.Duration
	parsed  *budget.Budget // bytes of answers that are parsed, of each broker as much as the others leave free

	mutex    sync.Mutex
	brokers  map[brokerKey]*broker
	isClosed bool
}

var _ platform.Client = (*Client)(nil)

// New makes a client. Close it when it isn't used any more.
//
// Errors: Password is nil; a number is below 0; those of Reload.
func New(options Options) (*Client, error) {
	switch {
	case options.Password == nil:
		return nil, errors.New("a client needs a function that returns passwords")
	case options.LongestAnswer < 0 || options.Connections < 0 || options.CatalogueTime < 0:
		return nil, errors.New("the longest answer, the connections or the time of a client is below 0")
	}
	if options.LongestAnswer == 0 {
		options.LongestAnswer = standardLongest
	}
	if options.Connections == 0 {
		options.Connections = standardConnections
	}
	if options.CatalogueTime == 0 {
		options.CatalogueTime = standardCatalogueTime
	}
	if options.UserAgent == "" {
		options.UserAgent = standardUserAgent
	}
	c := &Client{
		options: options,
		now:     clock(),
		dial:    (&net.Dialer{}).DialContext,
		idle:    standardIdle,
		brokers: make(map[brokerKey]*broker),
		parsed:  budget.New(2 * options.LongestAnswer),
	}
	if err := c.Reload(); err != nil {
		return nil, err
	}
	return c, nil
}

// Reload reads the files of Options.TLS again. New connections use what it has read. If it fails, they use what was
// read before.
//
// Errors: a file can't be read, or has something else; the key doesn't belong to the certificate; only one of both is
// named. No error contains a part of the key.
func (c *Client) Reload() error { return c.trust.load(c.options.TLS) }

// Clock is the time on a clock that is never set. It counts from the start of the machine. On Linux it goes on while
// the machine is suspended (CLOCK_BOOTTIME).
func (c *Client) Clock() time.Time { return c.now() }

// Close closes the connections that wait for a request. Requests that are in flight go on, and none of their
// connections is kept.
func (c *Client) Close() {
	c.mutex.Lock()
	defer c.mutex.Unlock()
	c.isClosed = true
	for _, broker := range c.brokers {
		broker.close()
	}
}

// broker returns what is known of a broker, with its URL checked.
func (c *Client) broker(of platform.Broker) (*broker, error) {
	at := brokerKey{name: of.Name, url: of.URL}
	c.mutex.Lock()
	defer c.mutex.Unlock()
	if known, ok := c.brokers[at]; ok {
		return known, nil
	}
	address, err := addressOf(of.URL, c.options.AllowHTTP)
	if err != nil {
		return nil, err
	}
	made := newBroker(address, c.options.Connections, c.idle)
	made.isClosed = c.isClosed
	c.brokers[at] = made
	return made, nil
}

// A sending is a request as HTTP has it, and what its exchange may take.
type sending struct {
	method, target string
	body           []byte
	id             string // the value of X-Broker-API-Request-Identity
	identity       string // the value of X-Broker-API-Originating-Identity, or empty
	journalTime    string // the value of X-Osb-Journal-Time, or empty
	until          time.Time
	longest        int  // of the answer's body
	isAlone        bool // whether it has a connection of its own in any case
	isOfAny        bool // whether its answer may be that of another store, which is judged later
}

// A wholeAnswer is an answer that arrived whole. Of one that didn't, the status may be known.
type wholeAnswer struct {
	status int
	header http.Header
	body   []byte
	isLast bool // whether its connection can't be used any more
}

// Exchange sends one request and waits for the whole answer, or until its Until. It never sends a request twice, and
// follows no redirect.
//
// Of an instance, Binding is nil. Of a Bind, Binding is the object of a 200 or a 201, if its body has one. Of a Fetch,
// Answer is the zero Answer, and Binding is the object. Status and RetryAfter are set for every answer whose head
// arrived, also if it isn't taken, and Details for every one that arrived whole on its own connection.
// Details.Operation and Details.Metadata may then be set of an answer that isn't taken: Operation and Metadata never
// are.
//
// Lost is ErrNotSent (by errors.Is) if not one byte of the request has left. It never has a password, a credential or
// any other part of an answer.
func (c *Client) Exchange(ctx context.Context, out platform.Outgoing) platform.Incoming {
	begun := time.Now()
	in := c.exchange(ctx, &out)
	in.Duration = time.Since(begun)
	return in
}

func (c *Client) exchange(ctx context.Context, out *platform.Outgoing) platform.Incoming {
	to, err := c.broker(out.Broker)
	if err != nil {
		return platform.Incoming{Lost: notSent{err}}
	}
	sent, err := write(to.prefix, out)
	if err != nil {
		return platform.Incoming{Lost: notSent{err}}
	}
	sent.until, sent.longest = out.Until, c.options.LongestAnswer
	got, err := c.ask(ctx, to, out.Broker, sent)
	if err != nil {
		return platform.Incoming{
			Status: got.status, RetryAfter: retryAfter(got.header), Lost: err, JournalTime: got.header.Get(journalfile.Header),
		}
	}
	return c.parse(out, got)
}

// parse reads an answer as package osb does, once it may be parsed. An answer for which that is too late is lost.
func (c *Client) parse(out *platform.Outgoing, got wholeAnswer) platform.Incoming {
	size := len(got.body)
	if !c.parsed.Take(out.Broker.Name, size, out.Until.Sub(c.now())) {
		return platform.Incoming{
			Status: got.status, RetryAfter: retryAfter(got.header), Lost: ErrTimeOver,
			JournalTime: got.header.Get(journalfile.Header),
		}
	}
	defer c.parsed.Give(out.Broker.Name, size)
	if size >= largeAnswer {
		defer osb.ReturnMemory()
	}
	return read(out, got)
}

// largeAnswer is the length of an answer from which on it pays to return the memory that its parsing took.
const largeAnswer = 32 << 10

// write writes a request as package osb has it.
func write(prefix string, out *platform.Outgoing) (sent sending, err error) {
	kind := out.Request.Kind
	if out.IsFetch {
		kind = osb.KindPoll // the method is the same, and neither has a body
	}
	sent = sending{id: out.RequestID, identity: out.Entry.Identity, journalTime: out.JournalTime}
	if sent.method, err = osb.WriteMethod(kind); err != nil {
		return sending{}, err
	}
	if sent.target, err = target(prefix, out); err != nil {
		return sending{}, err
	}
	sent.body, err = body(kind, &out.Entry)
	return sent, err
}

func target(prefix string, out *platform.Outgoing) (string, error) {
	request, entry := out.Request, &out.Entry
	var operation *string
	if request.Kind == osb.KindPoll {
		operation = entry.Operation
	}
	switch instance := entry.Key.Instance; {
	case out.IsFetch:
		return osb.WriteFetchTarget(prefix, request, instance, bindingNames(entry))
	case entry.Key.IsBinding:
		return osb.WriteBindingTarget(prefix, request, instance, bindingNames(entry), operation)
	}
	return osb.WriteNamedTarget(prefix, request, instanceNames(entry), operation)
}

func body(kind osb.Kind, entry *platform.Entry) ([]byte, error) {
	further := []byte(entry.Body)
	if len(further) == 0 {
		further = []byte("{}")
	}
	if entry.Key.IsBinding {
		return osb.WriteBindingBody(kind, bindingNames(entry), further)
	}
	return osb.WriteNamedBody(kind, instanceNames(entry), entry.Organization, entry.Space, further)
}

func instanceNames(entry *platform.Entry) osb.Names {
	return osb.Names{Instance: entry.Names.Instance, Service: entry.Names.Service, Plan: entry.Names.Plan}
}

func bindingNames(entry *platform.Entry) osb.BindingNames {
	names := entry.Names
	return osb.BindingNames{
		Instance: names.Instance, Binding: names.Binding, Service: names.Service, Plan: names.Plan,
	}
}

// ask sends a request to a broker, on one connection, and reads its answer whole.
func (c *Client) ask(ctx context.Context, to *broker, of platform.Broker, sent sending) (wholeAnswer, error) {
	request, err := c.request(to, of, sent)
	if err != nil {
		return wholeAnswer{}, notSent{err}
	}
	conn, err := c.enter(ctx, to, sent)
	if err != nil {
		return wholeAnswer{}, notSent{err}
	}
	defer to.leave()
	got, err := c.on(ctx, conn, request, sent)
	if err == nil && !sent.isOfAny {
		err = of.CheckStore(got.header.Values(platform.StoreHeader))
	}
	switch {
	case err == nil, errors.Is(err, platform.ErrOtherStore):
	case !conn.top.isWritten:
		err = notSent{c.because(ctx, sent.until, err)}
	default:
		err = c.because(ctx, sent.until, err)
	}
	c.giveBack(ctx, to, conn, sent, got, err)
	return got, err
}

// enter returns a connection for a request, once one is free. It is one that was kept, or a new one. Unless enter fails,
// the caller calls leave.
func (c *Client) enter(ctx context.Context, to *broker, sent sending) (*connection, error) {
	left := sent.until.Sub(c.now())
	if left <= 0 {
		return nil, ErrTimeOver
	}
	if ctx.Err() == nil && to.tryEnter() { // as usual, without the costs of another context
		if kept := c.kept(to, sent); kept != nil {
			return kept, nil
		}
		to.leave()
	}
	within, cancel := context.WithTimeout(ctx, left)
	defer cancel()
	reason := func(err error) error {
		if within.Err() != nil {
			err = ErrTimeOver
		}
		return c.because(ctx, sent.until, err)
	}
	if err := to.enter(within); err != nil {
		return nil, reason(err)
	}
	if kept := c.kept(to, sent); kept != nil {
		return kept, nil
	}
	conn, err := c.connect(within, to, sent.until)
	if err != nil {
		to.leave()
		if err = reason(err); ctx.Err() == nil {
			err = unreachable{err}
		}
	}
	return conn, err
}

// These headers, by their keys in an http.Header.
var (
	versionHeader             = http.CanonicalHeaderKey(osb.VersionHeader)
	requestIdentityHeader     = http.CanonicalHeaderKey(osb.RequestIdentityHeader)
	originatingIdentityHeader = http.CanonicalHeaderKey(osb.OriginatingIdentityHeader)
)

// request makes the request that is written.
func (c *Client) request(to *broker, of platform.Broker, sent sending) (*http.Request, error) {
	request, err := http.NewRequest(sent.method, to.origin+sent.target, bytes.NewReader(sent.body))
	if err != nil {
		return nil, errors.New("the target can't be sent") // err has all of it
	}
	if request.URL.RequestURI() != sent.target {
		return nil, errors.New("the target would be sent as another one")
	}
	request.Close = sent.isAlone || !to.returns.Load()
	request.Header.Set("User-Agent", c.options.UserAgent)
	request.Header.Set(versionHeader, osb.VersionSent)
	if len(sent.body) > 0 {
		request.Header.Set("Content-Type", osb.ContentType)
	}
	store := of.Store
	if sent.isOfAny {
		store = ""
	}
	for _, header := range [...]struct{ name, key, value string }{
		{osb.RequestIdentityHeader, requestIdentityHeader, sent.id},
		{osb.OriginatingIdentityHeader, originatingIdentityHeader, sent.identity},
		{journalfile.Header, journalfile.Header, sent.journalTime}, {platform.StoreHeader, platform.StoreHeader, store},
	} {
		if header.value == "" {
			continue
		}
		if err := osb.RequestIdentity(header.value); err != nil {
			return nil, fmt.Errorf("the header %s: %w", header.name, err)
		}
		request.Header.Set(header.key, header.value)
	}
	return request, c.authorize(request, of)
}

// authorize adds the user and the password, if the broker has a user. One without a user knows the platform by its
// certificate, or lets everybody in.
func (c *Client) authorize(request *http.Request, of platform.Broker) error {
	if of.User == "" && of.Password == nil && of.PasswordFile == "" {
		return nil
	}
	password, err := c.options.Password(of)
	if err != nil {
		return fmt.Errorf("the password at the broker %s: %w", of.Name, err)
	}
	if err := checkLogin(of.User, password); err != nil {
		return fmt.Errorf("the broker %s: %w", of.Name, err)
	}
	request.SetBasicAuth(of.User, password)
	return nil
}

// checkLogin rejects a user and a password that HTTP's Basic scheme can't carry (RFC 7617, section 2). No error has
// either.
func checkLogin(user, password string) error {
	switch {
	case user == "" || password == "":
		return errors.New("its user or its password is empty")
	case bytes.ContainsRune([]byte(user), ':'):
		return errors.New("its user has a colon")
	case !utf8.ValidString(user) || !utf8.ValidString(password):
		return errors.New("its user or its password isn't UTF-8")
	}
	return nil
}

// kept returns a connection that was kept, or nil if there is none, or the request has to have a new one.
func (c *Client) kept(to *broker, sent sending) *connection {
	if sent.isAlone || sent.id == "" || !to.returns.Load() {
		return nil
	}
	return to.take(c.now())
}

// on makes the exchange on a connection, and judges whether the answer is the one to the request.
func (c *Client) on(
	ctx context.Context, conn *connection, request *http.Request, sent sending,
) (got wholeAnswer, err error) {
	conn.begin(sent.until, sent.longest+around)
	if err := conn.heed(ctx, sent.until.Sub(c.now())); err != nil {
		return wholeAnswer{}, err
	}
	got, err = conn.exchange(request, sent.longest)
	switch {
	case err != nil:
		return got, err
	case !c.now().Before(sent.until):
		return got, ErrTimeOver
	case got.status < http.StatusOK:
		return got, fmt.Errorf("status %d: %w", got.status, osb.ErrNoAnswer)
	}
	switch returned := got.header[requestIdentityHeader]; {
	case sent.id != "" && !all(returned, sent.id): // neither its status nor its headers belong to this request
		return wholeAnswer{}, fmt.Errorf("%w: it has another one in %s", ErrOtherRequest, osb.RequestIdentityHeader)
	case len(returned) == 0 && conn.isKept:
		return got, fmt.Errorf("%w: it lacks %s", ErrOtherRequest, osb.RequestIdentityHeader)
	}
	if got.status >= http.StatusMultipleChoices && got.status < http.StatusBadRequest {
		return got, fmt.Errorf("status %d: %w", got.status, ErrRedirect)
	}
	return got, nil
}

// giveBack keeps a connection for the next request, or closes it.
func (c *Client) giveBack(ctx context.Context, to *broker, conn *connection, sent sending, got wholeAnswer, err error) {
	isReturned := err == nil && sent.id != "" && len(got.header[requestIdentityHeader]) > 0
	if got.status != 0 && sent.id != "" {
		to.returns.Store(isReturned)
	}
	if !isReturned || sent.isAlone || got.isLast || ctx.Err() != nil {
		conn.close()
		return
	}
	to.keep(conn, c.now())
}

// read reads an answer as package osb does.
func read(out *platform.Outgoing, got wholeAnswer) (in platform.Incoming) {
	in = platform.Incoming{
		Status: got.status, RetryAfter: retryAfter(got.header), JournalTime: got.header.Get(journalfile.Header),
	}
	status := uint16(got.status) // it has three digits
	if in.Details, in.Lost = osb.ReadDetails(got.body); in.Lost != nil {
		return in
	}
	if out.IsFetch {
		in.Binding, in.Lost = osb.ReadFetched(status, got.body)
	} else {
		in.Answer, in.Lost = osb.ReadAnswer(out.Request.Kind, status, got.body)
	}
	if in.Lost == nil && !out.IsFetch && out.Entry.Key.IsBinding {
		in.Binding, in.Lost = osb.ReadBinding(out.Request.Kind, status, got.body)
		if errors.Is(in.Lost, osb.ErrNoBinding) {
			in.Lost = nil
		}
	}
	if in.Lost != nil {
		in.Answer, in.Binding, in.Lost = osb.Answer{}, nil, fmt.Errorf("status %d: %w", got.status, in.Lost)
		return in
	}
	in.Metadata = in.Details.Metadata
	if status == http.StatusAccepted && out.Request.Kind != osb.KindPoll {
		in.Operation = in.Details.Operation
	}
	return in
}

// retryAfter is how long the broker asks to wait, and 0 if it doesn't say so in seconds. If it says so several times,
// the longest counts (this project's choice).
func retryAfter(header http.Header) (longest time.Duration) {
	for _, value := range header.Values("Retry-After") {
		seconds, err := osb.RetryAfter(value)
		switch {
		case err != nil:
			continue
		case seconds > uint64(math.MaxInt64/time.Second):
			return math.MaxInt64
		}
		if wait := time.Duration(seconds) * time.Second; wait > longest {
			longest = wait
		}
	}
	return longest
}

// readAtMost reads all, unless that is longer.
func readAtMost(from io.Reader, longest int) ([]byte, error) {
	text, err := io.ReadAll(io.LimitReader(from, int64(longest)+1))
	if err == nil && len(text) > longest {
		return nil, ErrTooLong
	}
	return text, err
}

func all(values []string, wanted string) bool {
	for _, value := range values {
		if value != wanted {
			return false
		}
	}
	return true
}

// sinceStart returns a clock that counts from now on by the one of package time, which is never set.
func sinceStart() func() time.Time {
	start := time.Now()
	return func() time.Time { return time.Unix(0, 0).Add(time.Since(start)) }
}

var (
	// ErrNotSent reports that not one byte of a request was written to a connection.
	ErrNotSent = errors.New("nothing was sent")
	// ErrTimeOver reports that the time of an exchange is over.
	ErrTimeOver = errors.New("the time of the exchange is over")
	// ErrTooLong reports an answer that is longer than is read.
	ErrTooLong = errors.New("the answer is too long")
	// ErrCut reports a connection that ended before the whole answer arrived.
	ErrCut = errors.New("the connection ended before an answer had come whole")
	// ErrGarbled reports that what arrived can't be read as HTTP.
	ErrGarbled = errors.New("the answer can't be read as HTTP")
	// ErrOtherRequest reports an answer that isn't surely the one to the request that was sent.
	ErrOtherRequest = errors.New("the answer isn't surely the one to this request")
	// ErrRedirect reports an answer that leads elsewhere, which isn't followed.
	ErrRedirect = errors.New("the broker redirects, which isn't followed: give its new URL")
)

// notSent is an error of a request of which nothing was sent.
type notSent struct{ reason error }

func (e notSent) Error() string { return ErrNotSent.Error() + ": " + e.reason.Error() }

func (e notSent) Is(target error) bool { return target == ErrNotSent }

func (e notSent) Unwrap() error { return e.reason }

// unreachable is an error of a connection that couldn't be made.
type unreachable struct{ reason error }

func (e unreachable) Error() string { return e.reason.Error() }

func (e unreachable) Is(target error) bool { return target == platform.ErrUnreachable }

func (e unreachable) Unwrap() error { return e.reason }

// readError is why an answer couldn't be read. The errors of package net/http may have a part of what was read, which
// may be credentials, so no other error than those of the connection is passed on.
func readError(err error) error {
	var network net.Error
	switch {
	case errors.Is(err, ErrTimeOver), errors.Is(err, ErrTooLong), errors.As(err, &network):
		return err
	case errors.Is(err, io.EOF), errors.Is(err, io.ErrUnexpectedEOF), errors.Is(err, net.ErrClosed):
		return ErrCut
	}
	return ErrGarbled
}

// because is why an exchange has failed that may last until a time.
func (c *Client) because(ctx context.Context, until time.Time, err error) error {
	switch {
	case ctx.Err() != nil:
		return ctx.Err()
	case errors.Is(err, os.ErrDeadlineExceeded), !c.now().Before(until):
		return ErrTimeOver
	}
	return err
}
