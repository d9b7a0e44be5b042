package broker

import (
	"bytes"
	"context"
	"errors"
	"fmt"
	"io"
	"math/rand"
	"net"
	"net/http"
	"strconv"
	"sync"
	"sync/atomic"
	"time"

	"pippinterm/internal/budget"
	"pippinterm/internal/httpserver"
	"pippinterm/osb"
)

// HandlerOptions are what a Handler is made of, beside its service.
type HandlerOptions struct {
	Users       *Users
	LongestBody int // in bytes, 1 or more; a longer body is answered with 413
	// ParsedAtOnce is how many bytes of bodies are parsed at once, LongestBody or more, or 0 for four times
	// LongestBody. A body takes up to 85 times its length while it is parsed. A request waits at most 30 seconds for
	// its turn, and is answered with 503 then. So does one whose body has to wait because the bodies of other requests,
	// from before they are read until they are answered, have 16 MiB or four times LongestBody. Of both, a user gets as
	// much as the others leave free.
	ParsedAtOnce int
	// AtOnce is how many requests are carried out at once, 1 or more; others wait. Of 2 or more, a quarter, and at
	// least one, is kept for requests that do no work. A request that may do work waits at most 30 seconds for its
	// turn, and is answered with 503 then. ServiceOptions.LocksAtOnce should be less than three quarters.
	AtOnce  int
	Limiter Limiter // of the passwords that can be tried, or nil for no limit
	// Touch is called with a key that somebody has to go on with: Sweeper.Touch.
	Touch    func(Key)
	Observer Observer
	Journal  Journal // or nil for none
}

// A Handler answers over HTTP. Requests are carried out with the context that it was made with: a platform that goes
// away cancels nothing.
type Handler struct {
	HandlerOptions
	ctx         context.Context
	service     *Service
	bodies      *budget.Budget // bytes of bodies in memory, from before they are read until their requests are answered
	parsed      *budget.Budget // bytes of bodies that are parsed
	slots       chan struct{}  // a slot for each request that is carried out
	working     chan struct{}  // a slot for each of them that may do work
	patience    time.Duration  // how long a request waits for a slot in working
	isStopping  atomic.Bool
	stopped     chan struct{} // is closed by the first Stop
	stop        sync.Once
	store       []string // the value of StoreHeader, or nil
	first, next uint64   // of which the ids of requests that have none are made
	wordings    sync.Map // the bodies of answers: wording to []byte
}

// NewHandler makes a handler over a service.
func NewHandler(ctx context.Context, service *Service, options HandlerOptions) (*Handler, error) {
	if options.Users == nil || options.Touch == nil || options.Observer == nil {
		return nil, errors.New("broker: a handler needs Users, Touch and an Observer")
	}
	if options.LongestBody < 1 || options.AtOnce < 1 {
		return nil, errors.New("broker: LongestBody and AtOnce are 1 or more")
	}
	if options.ParsedAtOnce == 0 {
		options.ParsedAtOnce = 4 * options.LongestBody
	}
	if options.ParsedAtOnce < options.LongestBody {
		return nil, fmt.Errorf("broker: at most %d bytes are parsed at once, and a body may have %d: allow more, or shorter "+
			"bodies", options.ParsedAtOnce, options.LongestBody)
	}
	if options.Journal == nil {
		options.Journal = noJournal{}
	}
	var named []string
	if id := service.catalogue.store; id != "" {
		named = []string{id}
	}
	return &Handler{
		store: named, HandlerOptions: options, ctx: ctx, service: service,
		bodies: budget.New(BodiesAtOnce(options.LongestBody)), parsed: budget.New(options.ParsedAtOnce),
		slots:   make(chan struct{}, options.AtOnce),
		working: make(chan struct{}, mayWorkAtOnce(options.AtOnce)), patience: longestQueue,
		stopped: make(chan struct{}),
		first:   rand.New(rand.NewSource(time.Now().UnixNano())).Uint64(),
	}, nil
}

// BodiesAtOnce returns how many bytes the bodies of all requests may have in memory, for a LongestBody.
func BodiesAtOnce(longest int) int {
	if longest > 4<<20 {
		return 4 * longest
	}
	return 16 << 20
}

// longestQueue is how long a request waits until it may do work, and until its body may be read or parsed.
const longestQueue = 30 * time.Second

// mayWorkAtOnce is how many of the requests that are carried out at once may do work. The others are kept for requests
// that do none, such as polls, since work may take minutes.
func mayWorkAtOnce(all int) int {
	kept := all / 4
	if kept == 0 && all > 1 {
		kept = 1
	}
	return all - kept
}

// Stop has every request from now on answered with 503. Answers to failed logins don't wait any more.
func (h *Handler) Stop() {
	h.isStopping.Store(true)
	h.stop.Do(func() { close(h.stopped) })
}

// Wait waits until no request is carried out, and returns whether that happened within the time. Call Stop before.
// Afterwards no request is carried out any more.
func (h *Handler) Wait(within time.Duration) bool {
	late := time.NewTimer(within)
	defer late.Stop()
	for taken := 0; taken < cap(h.slots); taken++ {
		select {
		case h.slots <- struct{}{}:
		case <-late.C:
			return false
		}
	}
	return true
}

// An arrival is one request while it is being answered.
type arrival struct {
	Exchange
	request *http.Request
	header  http.Header // of the answer
	target  osb.Target  // once the request is admitted
	arrived time.Time
}

// An answer is what is sent over HTTP. Every body is JSON.
type answer struct {
	status int
	body   []byte
}

// ServeHTTP answers one request.
func (h *Handler) ServeHTTP(w http.ResponseWriter, r *http.Request) {
	began := time.Now()
	a := &arrival{request: r, header: w.Header(), arrived: began, Exchange: Exchange{
		RequestID: h.requestID(r), Route: otherRoute, Method: atMost(r.Method, 20),
		Target: httpserver.LoggedTarget(r.RequestURI), Address: hostOf(r.RemoteAddr),
		Traceparent: first(r.Header, "Traceparent"), VcapRequest: first(r.Header, "X-Vcap-Request-Id"),
	}}
	a.header[requestIdentity] = []string{a.RequestID}
	if h.store != nil {
		a.header[StoreHeader] = h.store
	}
	a.header["Content-Type"] = jsonType
	if len(r.TransferEncoding) > 0 { // no request follows a body whose end the sender may see elsewhere
		a.header.Set("Connection", "close")
	}
	given := h.answer(a)
	a.header["Content-Length"] = []string{strconv.Itoa(len(given.body))} // so that it ends before the body has arrived
	w.WriteHeader(given.status)
	_, _ = w.Write(given.body) // a platform that has gone gets no answer
	a.Status, a.Duration = given.status, time.Since(began)
	h.Observer.OnExchange(a.Exchange)
}

const requestIdentity = "X-Broker-Api-Request-Identity" // as net/http writes it

var jsonType = []string{osb.ContentType}

// answer decides on what is answered. The headers are judged before any of the body is read.
func (h *Handler) answer(a *arrival) answer {
	if h.isStopping.Load() {
		return answer{http.StatusServiceUnavailable, stopping}
	}
	if refused, ok := h.admit(a); !ok {
		return refused
	}
	if a.target = osb.ReadTarget("", a.request.RequestURI); a.target == osb.TargetCatalogue {
		return h.catalogue(a)
	}
	if h.isForAnother(a.request) {
		return h.otherError(a, http.StatusMisdirectedRequest, otherStore)
	}
	size := h.sizeOf(a.request)
	if !h.bodies.Take(a.User, size, h.patience) {
		return h.busy(a)
	}
	defer func() { h.bodies.Give(a.User, size) }()
	body, err := h.body(a.request)
	if size > len(body) { // its length wasn't announced, or it was cut
		h.bodies.Give(a.User, size-len(body))
		size = len(body)
	}
	if err != nil { // it was cut on its way, was too slow, or has a malformed chunk
		a.header.Set("Connection", "close")
		return h.otherError(a, http.StatusRequestTimeout, cutBody)
	}
	visit, isParsed, err := h.parse(a, body)
	switch {
	case !isParsed:
		return h.busy(a)
	case err != nil:
		return h.refuse(a, err)
	}
	visit.Arrived = a.arrived
	return h.carryOut(a, visit)
}

// isForAnother reports whether a request names another store: it is meant for a broker over that one.
func (h *Handler) isForAnother(r *http.Request) bool {
	for _, name := range r.Header[StoreHeader] {
		if h.store != nil && name != h.store[0] {
			return true
		}
	}
	return false
}

// parse reads what a request asks, once its body may be parsed, and returns whether that happened in time.
func (h *Handler) parse(a *arrival, body []byte) (visit Visit, isParsed bool, err error) {
	if !h.parsed.Take(a.User, len(body), h.patience) {
		return visit, false, nil
	}
	defer h.parsed.Give(a.User, len(body))
	visit, err = h.read(a, body)
	if len(body) >= largeBody {
		osb.ReturnMemory()
	}
	return visit, true, err
}

// largeBody is the length of a body from which on it pays to return the memory that its parsing took: it takes longer
// than the return.
const largeBody = 32 << 10

// busy answers a request of which nothing was done, and nothing was looked up.
func (h *Handler) busy(a *arrival) answer {
	a.header.Set("Retry-After", "30")
	return h.otherError(a, http.StatusServiceUnavailable, allWork)
}

// sizeOf is how many bytes the body of a request may take.
func (h *Handler) sizeOf(r *http.Request) int {
	if r.ContentLength < 0 || r.ContentLength > int64(h.LongestBody) {
		return h.LongestBody
	}
	return int(r.ContentLength)
}

// mostDiscarded is how many bytes are read of a body beyond LongestBody.
const mostDiscarded = 32 << 20

// body reads the body. Of one that is too long it returns one byte more than is allowed, which the library refuses. It
// reads the rest too, so that a platform that sends all of the body before it reads gets the answer: the connection
// would be closed otherwise while the platform still sends.
//
// After an error the answer is 408, also if a chunk is malformed, though 400 would be usual for that. A platform takes
// a 400 as the broker's decision about the request, and doesn't clean up. But chunks are of one connection (RFC 9112,
// section 7): a proxy chunks the same request anew, so another copy of it may be carried out. This project's platform
// takes a 408 for no answer, and cleans up. Besides, net/http reports a trailer that was cut as a malformed one.
func (h *Handler) body(r *http.Request) ([]byte, error) {
	if r.ContentLength == 0 {
		return nil, nil
	}
	body := bytes.Buffer{}
	if r.ContentLength > 0 {
		body.Grow(h.sizeOf(r) + bytes.MinRead) // with which it doesn't grow again
	}
	_, err := body.ReadFrom(io.LimitReader(r.Body, int64(h.LongestBody)+1))
	if body.Len() > h.LongestBody {
		_, _ = io.CopyN(io.Discard, r.Body, mostDiscarded) // the answer is the same if the body ends, or is cut
	}
	return body.Bytes(), err
}

// catalogue answers the document of the catalogue.
func (h *Handler) catalogue(a *arrival) answer {
	a.Route = "catalog"
	if a.request.Method != http.MethodGet {
		a.header.Set("Allow", http.MethodGet)
		return h.refuse(a, osb.ErrRefusedMethod)
	}
	return answer{http.StatusOK, h.service.document()}
}

// carryOut carries a request out, and has gone on with what isn't finished.
func (h *Handler) carryOut(a *arrival, visit Visit) answer {
	if h.mayWork(visit) {
		if !h.takeTurn() {
			return h.busy(a)
		}
		defer func() { <-h.working }()
		if h.isStopping.Load() { // nothing was begun
			return answer{http.StatusServiceUnavailable, stopping}
		}
	}
	h.slots <- struct{}{}
	defer func() { <-h.slots }()
	ctx := h.Journal.OnArrival(h.ctx, a.request, a.RequestID, visit)
	response, given := h.handle(ctx, a, visit)
	if given.status != int(response.Status) { // it has failed
		response = Response{Answer: osb.Answer{Status: uint16(given.status), Body: osb.BodyOtherError}}
	}
	h.Journal.OnAnswer(ctx, a.header, response)
	return given
}

// handle has the service handle a request.
func (h *Handler) handle(ctx context.Context, a *arrival, visit Visit) (response Response, given answer) {
	err := safely(func() (err error) {
		response, err = h.service.Handle(ctx, visit)
		return err
	})
	if err != nil {
		return Response{}, h.fail(a, fmt.Errorf("%v: %w", visit.Key, err))
	}
	h.follow(ctx, a, visit, response)
	return response, h.write(a, response, h.sentence(visit, response))
}

// mayWork reports whether a request may do work before it is answered: the creations, updates and deletions of
// synchronous plans.
func (h *Handler) mayWork(visit Visit) bool {
	if visit.IsFetch {
		return false
	}
	if visit.Update != nil {
		return h.service.mayUpdate(visit.Update)
	}
	of := planIDs{visit.Asked.Service, visit.Asked.Plan}
	if visit.Asked.Kind == osb.KindDeprovision {
		return h.service.catalogue.mayDelete(visit.Key.IsBinding, of)
	}
	work := osb.WorkOf(visit.Asked.Kind, h.service.catalogue.mode(visit.Key.IsBinding, of))
	return work == osb.WorkMake
}

// takeTurn waits until a request may do work, and returns whether that happened in time.
func (h *Handler) takeTurn() bool {
	select {
	case h.working <- struct{}{}:
		return true
	default:
	}
	timer := time.NewTimer(h.patience)
	defer timer.Stop()
	select {
	case h.working <- struct{}{}:
		return true
	case <-timer.C:
		return false
	}
}

// follow has somebody go on with a key: an operation has begun, or work is pending whose worker may be dead. After the
// deletion of an instance was put off, it deletes the bindings whose creation has failed.
func (h *Handler) follow(ctx context.Context, a *arrival, visit Visit, response Response) {
	if response.IsUnfinished {
		h.Touch(visit.Key)
	}
	if !response.IsBound {
		return
	}
	var begun []Key
	err := safely(func() (err error) {
		begun, err = h.service.UnbindFailed(ctx, visit.Key.Instance)
		return err
	})
	for _, key := range begun {
		h.Touch(key)
	}
	if err != nil {
		h.report(a, "failed_binding_not_deleted", err)
	}
}

// admit judges who asks, and which version is spoken.
func (h *Handler) admit(a *arrival) (answer, bool) {
	authorization := a.request.Header["Authorization"]
	user, err := h.Users.judge(authorization)
	if errors.Is(err, osb.ErrUnauthorized) {
		if h.Limiter != nil {
			h.wait(h.Limiter.FailedLogin(a.Address))
		}
		a.header.Set("WWW-Authenticate", `Basic realm="service broker", charset="UTF-8"`)
		a.header.Set("Connection", "close") // nobody without a password keeps a connection
		sentence := wrongLogin
		if len(authorization) == 0 {
			sentence = noLogin
		}
		return h.otherError(a, http.StatusUnauthorized, sentence), false
	}
	if err == nil {
		a.User = user
		err = version(a.request.Header["X-Broker-Api-Version"])
	}
	if err != nil {
		return h.refuse(a, err), false
	}
	return answer{}, true
}

// wait has the answer to a failed login wait for its turn. The right password doesn't wait. That distinguishes them,
// but a client that goes away meanwhile ends nothing: its connection stays taken until then, so passwords aren't tried
// faster.
func (h *Handler) wait(turn time.Duration) {
	if turn <= 0 {
		return
	}
	timer := time.NewTimer(turn)
	defer timer.Stop()
	select {
	case <-timer.C:
	case <-h.stopped:
	case <-h.ctx.Done():
	}
}

// version judges the header X-Broker-API-Version. One that stands twice is judged as one with both values.
func version(values []string) error {
	switch len(values) {
	case 0:
		return osb.APIVersion(nil)
	case 1:
		if values[0] == osb.VersionSent {
			return nil
		}
		return osb.APIVersion(&values[0])
	}
	joined := values[0] + ", " + values[1]
	return osb.APIVersion(&joined)
}

// requestID is the id that the platform gave the request, or one that is made up here.
func (h *Handler) requestID(r *http.Request) string {
	given := r.Header[requestIdentity]
	if len(given) == 1 && len(given[0]) <= 200 && osb.RequestIdentity(given[0]) == nil {
		return given[0]
	}
	return strconv.FormatUint(h.first, 16) + "-" + strconv.FormatUint(atomic.AddUint64(&h.next, 1), 16)
}

// hostOf is the host of an address HOST:PORT.
func hostOf(address string) string {
	host, _, err := net.SplitHostPort(address)
	if err != nil {
		return address
	}
	return host
}

func first(header http.Header, name string) string {
	if values := header[name]; len(values) > 0 {
		return atMost(values[0], 200)
	}
	return ""
}

func atMost(text string, bytes int) string {
	if len(text) > bytes {
		return text[:bytes]
	}
	return text
}
