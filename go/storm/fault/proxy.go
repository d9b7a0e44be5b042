// Package fault is a proxy between a platform and a broker that loses, delays, repeats and garbles requests and
// answers.
//
// Which fault befalls a request is decided by a seed and the Number of the request, or by a list of faults that an
// earlier run has written. Minimize finds the shortest part of such a list that still has an effect.
package fault

import (
	"bufio"
	"bytes"
	"context"
	"crypto/tls"
	"errors"
	"fmt"
	"io"
	"net"
	"net/http"
	"net/url"
	"strings"
	"sync"
	"time"
)

// longestBody is how much of a request and of an answer is read, in bytes.
const longestBody = 1 << 20

// Options are what a Proxy works with.
type Options struct {
	Address string   // where to listen; a free port of this machine if it is empty
	Broker  *url.URL // http or https; a path is a prefix of every request
	// Others are further brokers over the same store. Each copy of a request reaches Broker or one of them, by chance.
	Others  []*url.URL
	Source  *Source
	Capture *Capture
	// Subject returns the Subject of an instance, or of a binding of it. The request of an instance that isn't one of
	// the run's is answered with 502, and doesn't reach the broker.
	Subject func(instance, binding string) (Subject, bool)
	// Catalogue answers the requests for the catalogue in the broker's place, without faults.
	Catalogue []byte
	// CatalogueHeader is the header of that answer, or nil for one that has only the Content-Type.
	CatalogueHeader http.Header
	// ForwardsOthers has the requests for the catalogue, and those without a Subject, reach the broker without faults.
	ForwardsOthers bool
	// RequestTime is how long the platform waits for an answer.
	RequestTime time.Duration
	// Late is the bound of every delay: a copy of a request reaches the broker within this time after the request.
	Late time.Duration
	// AnswerTime is how long the broker has for an answer, whatever the platform does.
	AnswerTime time.Duration
	// Restart kills the broker and starts it again. It is nil if the broker can't be restarted.
	Restart func(context.Context) error
	// Failed is called if a restart has failed. It may be nil.
	Failed func(error)
}

// A Proxy listens at a port of its own. Each connection carries one request.
type Proxy struct {
	Options
	listener  net.Listener
	upstreams []upstream
	ctx       context.Context // of everything that the Proxy still does; cancel ends it
	cancel    func()

	mutex       sync.Mutex
	connections map[net.Conn]bool
	pending     int // requests that may still reach the broker
	others      int // requests without a subject
	restarts    int
	restarting  sync.Mutex
	group       sync.WaitGroup
}

// Listen returns a Proxy that listens. Close ends it.
func Listen(options Options) (*Proxy, error) {
	address := options.Address
	if address == "" {
		address = "127.0.0.1:0"
	}
	listener, err := net.Listen("tcp", address)
	if err != nil {
		return nil, err
	}
	if options.CatalogueHeader == nil {
		options.CatalogueHeader = http.Header{"Content-Type": {"application/json"}}
	}
	p := &Proxy{Options: options, listener: listener, connections: map[net.Conn]bool{}}
	for _, address := range append([]*url.URL{options.Broker}, options.Others...) {
		p.upstreams = append(p.upstreams, upstream{broker: address, within: options.AnswerTime})
	}
	p.ctx, p.cancel = context.WithCancel(context.Background())
	p.group.Add(1)
	go func() {
		defer p.group.Done()
		p.accept()
	}()
	return p, nil
}

// URL returns where the Proxy listens.
func (p *Proxy) URL() string { return "http://" + p.listener.Addr().String() }

// Pending returns how many requests may still reach the broker, or haven't been answered by it.
func (p *Proxy) Pending() int {
	p.mutex.Lock()
	defer p.mutex.Unlock()
	return p.pending
}

// Restarts returns how often the broker was restarted.
func (p *Proxy) Restarts() int {
	p.mutex.Lock()
	defer p.mutex.Unlock()
	return p.restarts
}

// Close closes all connections to the platform, drops the requests that are late, and waits for the broker's answers to
// the others.
func (p *Proxy) Close() {
	p.cancel()
	_ = p.listener.Close()
	p.mutex.Lock()
	for connection := range p.connections {
		_ = connection.Close()
	}
	p.mutex.Unlock()
	p.group.Wait()
}

func (p *Proxy) accept() {
	for {
		connection, err := p.listener.Accept()
		if err != nil {
			if p.ctx.Err() != nil || errors.Is(err, net.ErrClosed) {
				return
			}
			time.Sleep(10 * time.Millisecond) // too many files are open
			continue
		}
		p.mutex.Lock()
		p.connections[connection] = true
		p.mutex.Unlock()
		p.group.Add(1)
		go func() {
			defer p.group.Done()
			p.serve(connection)
			p.mutex.Lock()
			delete(p.connections, connection)
			p.mutex.Unlock()
			_ = connection.Close()
		}()
	}
}

func (p *Proxy) serve(connection net.Conn) {
	request, body, err := readRequest(connection)
	if err != nil || p.ctx.Err() != nil {
		return
	}
	defer p.countPending()()
	if strings.HasSuffix(request.URL.Path, "/v2/catalog") && !p.ForwardsOthers {
		_, _ = connection.Write((&answer{http.StatusOK, p.CatalogueHeader, p.Catalogue}).bytes())
		return
	}
	instance, binding := idsOf(request.URL)
	subject, isOurs := p.Subject(instance, binding)
	if !isOurs && !p.ForwardsOthers {
		_, _ = connection.Write(page(http.StatusBadGateway))
		return
	}
	fault := p.fault(subject, isOurs)
	header := request.Header.Clone()
	header.Del("Authorization")
	carried := &carriage{
		Proxy: p, connection: connection, request: request, body: body, fault: fault,
		exchange: p.Capture.begin(Exchange{
			Number: fault.Number, Fault: fault.Kind, Instance: instance, Binding: binding, Method: request.Method,
			Target: request.URL.RequestURI(), Header: header, Body: body,
		}),
	}
	p.Capture.end(carried.exchange, carried.carry())
}

// fault returns what befalls a request. One without a subject has no fault, and reaches the brokers in turn.
func (p *Proxy) fault(subject Subject, isOurs bool) Fault {
	if isOurs {
		return p.Source.Next(subject)
	}
	p.mutex.Lock()
	defer p.mutex.Unlock()
	p.others++
	return Fault{Kind: None, Pick: p.others}
}

// countPending counts a request that may still reach the broker, until the function that it returns is called.
func (p *Proxy) countPending() func() {
	p.mutex.Lock()
	defer p.mutex.Unlock()
	p.pending++
	return func() {
		p.mutex.Lock()
		defer p.mutex.Unlock()
		p.pending--
	}
}

// restart restarts the broker, unless that is going on already.
func (p *Proxy) restart() {
	if p.Restart == nil || !p.restarting.TryLock() {
		return
	}
	defer p.restarting.Unlock()
	p.mutex.Lock()
	p.restarts++
	p.mutex.Unlock()
	if err := p.Restart(p.ctx); err != nil && p.Failed != nil {
		p.Failed(err)
	}
}

func readRequest(connection net.Conn) (*http.Request, []byte, error) {
	request, err := http.ReadRequest(bufio.NewReader(connection))
	if err != nil {
		return nil, nil, err
	}
	if strings.EqualFold(request.Header.Get("Expect"), "100-continue") {
		if _, err := io.WriteString(connection, "HTTP/1.1 100 Continue\r\n\r\n"); err != nil {
			return nil, nil, err
		}
		request.Header.Del("Expect")
	}
	body, err := io.ReadAll(io.LimitReader(request.Body, longestBody+1))
	if err == nil && len(body) > longestBody {
		err = errors.New("the body is too long")
	}
	return request, body, err
}

// idsOf returns the ids in the path of a request. They are empty if it has none.
func idsOf(of *url.URL) (instance, binding string) {
	parts := strings.Split(of.EscapedPath(), "/")
	after := func(name string) string {
		for at, part := range parts[:len(parts)-1] {
			if part == name {
				id, _ := url.PathUnescape(parts[at+1])
				return id
			}
		}
		return ""
	}
	return after("service_instances"), after("service_bindings")
}

// A carriage is one request on its way through a Proxy.
type carriage struct {
	*Proxy
	connection net.Conn
	request    *http.Request
	body       []byte
	fault      Fault
	exchange   *Exchange
}

var (
	cutReceipt = Receipt{Words: "a cut connection"}
	noReceipt  = Receipt{Words: "no answer"}
)

func (c *carriage) carry() Receipt {
	switch c.fault.Kind {
	case RequestLost:
		return cutReceipt
	case RequestSwallowed:
		c.waitForEnd(c.AnswerTime)
		return noReceipt
	case RequestLate:
		c.sendLater()
		c.waitForEnd(c.AnswerTime)
		return noReceipt
	case RequestCut, RequestGarbled, HangUp:
		_, _ = c.deliver(c.fault.Kind)
		return cutReceipt
	case GatewayBefore:
		return c.give(page(gateway(c.fault)))
	}
	return c.answer()
}

// answer has the broker answer, and gives the platform what the fault leaves of that.
func (c *carriage) answer() Receipt {
	if c.fault.Kind == RepeatedLate {
		c.sendLater()
	}
	restarted := make(chan struct{})
	go func() {
		defer close(restarted)
		if c.fault.Kind == RestartDuring && Sleep(c.ctx, time.Duration(c.fault.Share*float64(50*time.Millisecond))) {
			c.restart()
		}
	}()
	answer, err := c.deliver(c.fault.Kind)
	if err == nil && (c.fault.Kind == Repeated || c.fault.Kind == RepeatedUnread) {
		if second, again := c.deliver(None); again == nil {
			answer = second
		}
	}
	<-restarted
	if err != nil {
		return cutReceipt
	}
	receipt := c.giveAnswer(answer)
	if c.fault.Kind == RestartAfter {
		c.restart()
	}
	return receipt
}

// giveAnswer gives the platform what the fault leaves of an answer.
func (c *carriage) giveAnswer(answer *answer) Receipt {
	whole := answer.bytes()
	switch c.fault.Kind {
	case AnswerLost:
		return cutReceipt
	case AnswerLate, RepeatedUnread:
		if !c.waitForEnd(c.delay()) {
			return noReceipt
		}
	case AnswerSlow:
		return c.giveSlowly(whole)
	case AnswerGarbled:
		if len(answer.body) > 0 {
			answer.body = append([]byte{0}, answer.body[1:]...)
			whole = answer.bytes()
		}
	case AnswerBodyCut:
		return c.give(whole[:len(whole)-(len(answer.body)+1)/2])
	case AnswerHeadCut:
		return c.give(whole[:1+c.fault.Pick%40])
	case GatewayAfter:
		return c.give(page(gateway(c.fault)))
	case PageAfter:
		return c.give(page([]int{http.StatusNotFound, http.StatusTooManyRequests}[c.fault.Pick%2]))
	}
	return c.give(whole)
}

// sendLater sends a copy of the request later. Nobody gets its answer.
func (c *carriage) sendLater() {
	done := c.countPending()
	c.group.Add(1)
	go func() {
		defer c.group.Done()
		defer done()
		if Sleep(c.ctx, c.delay()) {
			_, _ = c.deliver(None)
		}
	}()
}

// delay is how late something is. It is within the bound, and if the bound allows it, the platform has timed out.
func (c *carriage) delay() time.Duration {
	least := c.RequestTime + c.RequestTime/10
	if least > c.Late {
		least = c.Late / 2
	}
	return least + time.Duration(c.fault.Share*float64(c.Late-least))
}

// deliver sends the request to the broker, as far as the kind says, and notes the answer. That counts whatever happens
// to the Proxy.
func (c *carriage) deliver(kind Kind) (*answer, error) {
	at := c.Capture.deliver(c.exchange)
	answer, err := c.upstream(at).send(context.Background(), c.request, c.body, kind, c.fault.Share)
	c.Capture.noteDelivery(c.exchange, at, answer, err)
	return answer, err
}

// upstream returns which broker a copy reaches, counted from 0.
func (c *carriage) upstream(at int) upstream {
	const bits = 4 // of Pick, for each copy
	return c.upstreams[(c.fault.Pick>>(bits*at))%len(c.upstreams)]
}

// give writes bytes to the platform, and returns what that is.
func (c *carriage) give(text []byte) Receipt {
	_ = c.connection.SetWriteDeadline(time.Now().Add(c.AnswerTime))
	if _, err := c.connection.Write(text); err != nil {
		return noReceipt
	}
	return receiptOf(text)
}

// receiptOf returns what a platform got that got these bytes.
func receiptOf(text []byte) Receipt {
	const before, head = len("HTTP/1.1 "), len("HTTP/1.1 200")
	if len(text) < head {
		return Receipt{Words: "a few bytes of the answer"}
	}
	receipt := Receipt{Words: fmt.Sprintf("status %s, %d bytes", text[before:head], len(text))}
	response, err := http.ReadResponse(bufio.NewReader(bytes.NewReader(text)), nil)
	if err != nil { // the head was cut
		return receipt
	}
	defer response.Body.Close()
	receipt.Status = response.StatusCode
	receipt.Body, err = io.ReadAll(response.Body)
	receipt.IsWhole = err == nil
	return receipt
}

// giveSlowly writes bytes to the platform in pieces. The whole takes at most as long as the bound of delays.
func (c *carriage) giveSlowly(text []byte) Receipt {
	const pieces = 10
	pause := time.Duration(c.fault.Share * float64(c.Late) / pieces)
	for at := 0; at < pieces; at++ {
		from, to := bounds(len(text), pieces, at)
		if _, err := c.connection.Write(text[from:to]); err != nil || !Sleep(c.ctx, pause) {
			receipt := receiptOf(text[:from])
			receipt.Words = "a part of the answer"
			return receipt
		}
	}
	receipt := receiptOf(text)
	receipt.Words += ", slowly"
	return receipt
}

// waitForEnd waits for a time, and returns false at once if the platform has timed out, or the Proxy is closed.
func (c *carriage) waitForEnd(rest time.Duration) bool {
	_ = c.connection.SetReadDeadline(time.Now().Add(rest))
	_, err := c.connection.Read(make([]byte, 1))
	var timeout net.Error
	return !errors.Is(err, io.EOF) && errors.As(err, &timeout) && timeout.Timeout()
}

var errCut = errors.New("the proxy has cut the connection")

// An upstream sends requests to a broker. Each has a connection of its own, so that none is sent twice.
type upstream struct {
	broker *url.URL
	within time.Duration
}

// send sends a request, as far as the kind of fault says, and returns the whole answer.
func (u upstream) send(
	ctx context.Context, request *http.Request, body []byte, kind Kind, share float64,
) (*answer, error) {
	ctx, cancel := context.WithTimeout(ctx, u.within)
	defer cancel()
	connection, err := Dial(ctx, u.broker)
	if err != nil {
		return nil, err
	}
	if u.broker.Scheme == "https" {
		connection = tls.Client(connection, &tls.Config{ServerName: u.broker.Hostname()})
	}
	defer connection.Close()
	_ = connection.SetDeadline(time.Now().Add(u.within))
	if kind == RequestGarbled && len(body) > 0 {
		body = append([]byte{0}, body[1:]...)
	}
	text, err := u.bytes(request, body)
	if err != nil {
		return nil, err
	}
	if kind == RequestCut || kind == RequestGarbled && len(body) == 0 {
		text = text[:len(text)-(len(body)+2)/2-1]
	}
	if err := write(ctx, connection, text, kind, share); err != nil {
		return nil, err
	}
	switch kind {
	case RequestCut, RequestGarbled, HangUp:
		time.Sleep(time.Duration(share * float64(20*time.Millisecond)))
		return nil, errCut
	}
	return readAnswer(connection, request)
}

// Dial returns a connection to the host of a URL, over which nothing was sent.
func Dial(ctx context.Context, to *url.URL) (net.Conn, error) {
	port := to.Port()
	if port == "" {
		port = map[string]string{"http": "80", "https": "443"}[to.Scheme]
	}
	return (&net.Dialer{}).DialContext(ctx, "tcp", net.JoinHostPort(to.Hostname(), port))
}

// bytes are a request as the broker gets it.
func (u upstream) bytes(request *http.Request, body []byte) ([]byte, error) {
	target, err := url.Parse(strings.TrimRight(u.broker.String(), "/") + request.URL.RequestURI())
	if err != nil {
		return nil, err
	}
	sent := &http.Request{
		Method: request.Method, URL: target, Host: u.broker.Host, Header: request.Header.Clone(), Close: true,
		Body: io.NopCloser(bytes.NewReader(body)), ContentLength: int64(len(body)),
	}
	if len(body) == 0 {
		sent.Body = http.NoBody
	}
	var text bytes.Buffer
	if err := sent.Write(&text); err != nil {
		return nil, err
	}
	return text.Bytes(), nil
}

// write writes a request: in pieces with pauses if it is slow, which takes a second at most.
func write(ctx context.Context, connection net.Conn, text []byte, kind Kind, share float64) error {
	pieces, pause := 1, time.Duration(0)
	if kind == RequestSlow {
		pieces, pause = 10, time.Duration(share*float64(100*time.Millisecond))
	}
	for at := 0; at < pieces && ctx.Err() == nil; at++ {
		from, to := bounds(len(text), pieces, at)
		if _, err := connection.Write(text[from:to]); err != nil {
			return err
		}
		time.Sleep(pause)
	}
	return ctx.Err()
}

func readAnswer(connection net.Conn, request *http.Request) (*answer, error) {
	response, err := http.ReadResponse(bufio.NewReader(connection), request)
	if err != nil {
		return nil, err
	}
	defer response.Body.Close()
	body, err := io.ReadAll(io.LimitReader(response.Body, longestBody+1))
	if err == nil && len(body) > longestBody {
		err = fmt.Errorf("the body of the answer is longer than %d bytes", longestBody)
	}
	if err != nil {
		return nil, err
	}
	return &answer{status: response.StatusCode, header: response.Header, body: body}, nil
}

type answer struct {
	status int
	header http.Header
	body   []byte
}

// bytes are the answer as the platform gets it. Its connection carries nothing else.
func (a *answer) bytes() []byte {
	header := a.header.Clone()
	for _, name := range []string{"Connection", "Transfer-Encoding", "Trailer"} {
		header.Del(name)
	}
	header.Set("Content-Length", fmt.Sprint(len(a.body)))
	header.Set("Connection", "close")
	var text bytes.Buffer
	fmt.Fprintf(&text, "HTTP/1.1 %d %s\r\n", a.status, http.StatusText(a.status))
	_ = header.Write(&text) // a bytes.Buffer takes everything
	text.WriteString("\r\n")
	text.Write(a.body)
	return text.Bytes()
}

func page(status int) []byte {
	header := http.Header{"Content-Type": {"text/html"}}
	return (&answer{status, header, []byte("<html></html>")}).bytes()
}

func gateway(fault Fault) int {
	return []int{http.StatusBadGateway, http.StatusServiceUnavailable, http.StatusGatewayTimeout}[fault.Pick%3]
}

// Sleep waits for a time, and returns false at once if ctx is done.
func Sleep(ctx context.Context, rest time.Duration) bool {
	timer := time.NewTimer(rest)
	defer timer.Stop()
	select {
	case <-ctx.Done():
		return false
	case <-timer.C:
		return ctx.Err() == nil
	}
}

// An Exchange is a request of the platform, with what has become of it.
type Exchange struct {
	Number            Number
	Fault             Kind
	Instance, Binding string      // the ids; Binding is empty for an instance
	Method, Target    string      // Target is the path with the query
	Header            http.Header // without Authorization
	Body              []byte
	Begun, Ended      time.Duration // since the start of the Capture; Ended is 0 until the platform has what it gets
	Deliveries        []Delivery
	Receipt           Receipt // what the platform got
}

// A Receipt is what a platform got in answer to a request.
type Receipt struct {
	Status  int // 0 if there was no status
	Body    []byte
	IsWhole bool // all of an answer arrived
	Words   string
}

// A Delivery is a copy of a request that was sent to the broker.
type Delivery struct {
	Begun, Ended time.Duration // Ended is 0 until there is an answer, or until there won't be one
	Status       int           // 0 if there is no answer
	Header       http.Header
	Body         []byte
	Lost         string // why there is no answer
}

// A Capture keeps the exchanges of a run. Any number of goroutines use it.
type Capture struct {
	start time.Time
	mutex sync.Mutex
	all   []*Exchange
}

// NewCapture returns an empty Capture that starts now.
func NewCapture() *Capture { return &Capture{start: time.Now()} }

// Now returns the time since the start.
func (c *Capture) Now() time.Duration { return time.Since(c.start) }

// Exchanges returns a copy of all exchanges, in the order in which they began.
func (c *Capture) Exchanges() []Exchange {
	c.mutex.Lock()
	defer c.mutex.Unlock()
	all := make([]Exchange, 0, len(c.all))
	for _, exchange := range c.all {
		one := *exchange
		one.Deliveries = append([]Delivery(nil), exchange.Deliveries...)
		all = append(all, one)
	}
	return all
}

func (c *Capture) begin(x Exchange) *Exchange {
	c.mutex.Lock()
	defer c.mutex.Unlock()
	x.Begun = c.Now()
	c.all = append(c.all, &x)
	return &x
}

func (c *Capture) end(x *Exchange, receipt Receipt) {
	c.mutex.Lock()
	defer c.mutex.Unlock()
	x.Ended, x.Receipt = c.Now(), receipt
}

// deliver notes that a copy is being sent. It returns the index of the delivery.
func (c *Capture) deliver(x *Exchange) int {
	c.mutex.Lock()
	defer c.mutex.Unlock()
	x.Deliveries = append(x.Deliveries, Delivery{Begun: c.Now()})
	return len(x.Deliveries) - 1
}

func (c *Capture) noteDelivery(x *Exchange, at int, answer *answer, err error) {
	c.mutex.Lock()
	defer c.mutex.Unlock()
	it := &x.Deliveries[at]
	it.Ended = c.Now()
	if err != nil {
		it.Lost = err.Error()
		return
	}
	it.Status, it.Header, it.Body = answer.status, answer.header, answer.body
}
