// Package health answers requests about the health of a program: whether it is alive, and whether it can work.
package health

import (
	"context"
	"errors"
	"net/http"
	"strconv"
	"sync"
	"sync/atomic"
	"time"
)

// Options say what a Handler answers. The zero Options are usable.
type Options struct {
	// Ready returns nil if the program can work, as Ready of a store does. If Ready is nil, the program always can.
	Ready func(ctx context.Context) error
	// Metrics answers /metrics. If Metrics is nil, Next does.
	Metrics http.Handler
	// Next answers all other requests. If Next is nil, they are answered with 404.
	Next http.Handler
	// NotReady is called with the error if Ready fails, and again if the text of its error changes. It may be nil.
	NotReady func(error)
}

// A Handler answers these paths without a password, and hands all other requests to Options.Next:
//
//	/healthz  200 while the process lives
//	/readyz   200 if Options.Ready returns nil, and 503 if it fails or takes longer than 2 seconds; a result is used for
//	          a second
//	/metrics  what Options.Metrics answers
//
// After Stop, /healthz and /readyz answer 503. The three paths answer a method other than GET and HEAD with 405. The
// bodies of all but Options.Metrics are JSON. (All of this is this project's choice.)
type Handler struct {
	options    Options
	readiness  *readiness
	isStopping atomic.Bool
}

// New returns a Handler. Calls of Options.Ready end with ctx, and not with the request that they were made for.
func New(ctx context.Context, options Options) *Handler {
	if options.Ready == nil {
		options.Ready = func(context.Context) error { return nil }
	}
	if options.Next == nil {
		options.Next = http.NotFoundHandler()
	}
	if options.NotReady == nil {
		options.NotReady = func(error) {}
	}
	return &Handler{options: options, readiness: newReadiness(ctx, options.Ready, options.NotReady)}
}

// Stop makes the Handler answer that the program is being stopped.
func (h *Handler) Stop() { h.isStopping.Store(true) }

// ServeHTTP answers one request.
func (h *Handler) ServeHTTP(w http.ResponseWriter, r *http.Request) {
	path := r.URL.Path
	isOurs := path == "/healthz" || path == "/readyz" || path == "/metrics" && h.options.Metrics != nil
	switch {
	case !isOurs:
		h.options.Next.ServeHTTP(w, r)
	case r.Method != http.MethodGet && r.Method != http.MethodHead:
		w.Header().Set("Allow", "GET, HEAD")
		send(w, http.StatusMethodNotAllowed, notGet)
	case path == "/healthz":
		h.answer(w, r, func(context.Context) error { return nil })
	case path == "/readyz":
		h.answer(w, r, h.readiness.check)
	default:
		h.options.Metrics.ServeHTTP(w, r)
	}
}

const (
	fine     = `{"status":"ok"}`
	notReady = `{"description":"The store can't be used now. The log has the reason: not_ready.",` +
		`"error":"ServiceUnavailable"}`
	stopping = `{"description":"The program is being stopped.","error":"ServiceUnavailable"}`
	notGet   = `{"description":"The path takes GET and HEAD.","error":"MethodNotAllowed"}`
)

func (h *Handler) answer(w http.ResponseWriter, r *http.Request, check func(context.Context) error) {
	switch {
	case h.isStopping.Load():
		send(w, http.StatusServiceUnavailable, stopping)
	case check(r.Context()) != nil:
		send(w, http.StatusServiceUnavailable, notReady)
	default:
		send(w, http.StatusOK, fine)
	}
}

func send(w http.ResponseWriter, status int, body string) {
	w.Header().Set("Content-Type", "application/json")
	w.Header().Set("Cache-Control", "no-store")
	w.Header().Set("Content-Length", strconv.Itoa(len(body))) // so that it ends before a body of the request has arrived
	w.WriteHeader(status)
	_, _ = w.Write([]byte(body)) // a client that has gone isn't waited for
}

const (
	keptFor  = time.Second     // how long a result is used
	waitsFor = 2 * time.Second // how long a request waits for a result
)

var errSlow = errors.New("it takes too long")

// A readiness calls a function for all requests that ask for its result. At most one call runs at a time. It runs in
// its own goroutine, since it may take longer than a request waits, and the goroutine ends with it.
type readiness struct {
	ctx      context.Context // of the calls; a request that ends doesn't end a call that others wait for
	ready    func(context.Context) error
	notReady func(error)
	now      func() time.Time
	waitsFor time.Duration

	mutex   sync.Mutex
	running chan struct{} // is closed once the call that runs has ended; nil if none runs
	at      time.Time     // when the last call ended
	err     error         // what it returned
}

func newReadiness(ctx context.Context, ready func(context.Context) error, notReady func(error)) *readiness {
	return &readiness{ctx: ctx, ready: ready, notReady: notReady, now: time.Now, waitsFor: waitsFor}
}

// check returns a result of ready that is less than a second old, or waits for one. It returns another error if that
// takes too long, or if ctx is done.
func (r *readiness) check(ctx context.Context) error {
	running, err := r.start()
	if running == nil {
		return err
	}
	timer := time.NewTimer(r.waitsFor)
	defer timer.Stop()
	select {
	case <-running:
		r.mutex.Lock()
		defer r.mutex.Unlock()
		return r.err
	case <-timer.C:
		return errSlow
	case <-ctx.Done():
		return ctx.Err()
	}
}

// start returns a channel that is closed when the running call ends, and starts a call if none runs. If the last result
// can be used, it returns nil and that result.
func (r *readiness) start() (running chan struct{}, err error) {
	r.mutex.Lock()
	defer r.mutex.Unlock()
	if r.running != nil {
		return r.running, nil
	}
	if !r.at.IsZero() && r.now().Sub(r.at) < keptFor {
		return nil, r.err
	}
	r.running = make(chan struct{})
	go r.run(r.running)
	return r.running, nil
}

func (r *readiness) run(running chan struct{}) {
	ctx, cancel := context.WithTimeout(r.ctx, r.waitsFor)
	defer cancel()
	err := r.ready(ctx)
	r.mutex.Lock()
	isNew := err != nil && (r.err == nil || r.err.Error() != err.Error())
	r.running, r.at, r.err = nil, r.now(), err
	r.mutex.Unlock()
	close(running)
	if isNew {
		r.notReady(err)
	}
}
