package broker

import (
	"context"
	"net"
	"net/http"

	"pippinterm/internal/crash"
	"pippinterm/internal/httpserver"
	"pippinterm/internal/httpserver/limiter"
)

// This file has what a program of your own uses of this project's internal packages.

// ErrCut reports that Serve has closed connections whose requests weren't answered in time.
var ErrCut = httpserver.ErrCut

// Serve answers the requests on the connections of a listener of TCP by a handler, such as a Handler, until stop is
// done. Then it closes the listener and all idle connections, and waits for at most 30 seconds until the running
// requests are answered. The contexts of the requests aren't done with stop.
//
// At most 800 connections are open at once, and 200 of them of one address. A connection may be silent for 5 seconds
// before its first request and for 30 seconds between two requests, and a request may take 30 seconds to arrive. If a
// head doesn't arrive whole, the answer is 408. A request whose end a proxy may see elsewhere is rejected with 400. The
// observer gets each request that is rejected like this, with the route other. (The limits are this project's choice.)
//
// Errors: that of the listener, if it fails; ErrCut, if the running requests take longer. Their handlers may still run
// then.
func Serve(stop context.Context, listener net.Listener, handler http.Handler, observer Observer) error {
	options := httpserver.Options{Observer: ServerObserver(observer)}
	site := httpserver.Site{Listener: httpserver.NewListener(listener, options), Handler: handler}
	return httpserver.Server{Sites: []httpserver.Site{site}}.Serve(stop)
}

// NewLimiter returns a Limiter for HandlerOptions: of each address, 20 failed logins are free at once, and one more
// each 3 seconds. The answer to each further one waits for its turn, which an address has each half second. (The
// numbers are this project's choice.)
func NewLimiter() Limiter { return limiter.New() }

// CrashAt is a crash point of a backend of your own, at which something is half done. In a program that is built with
// the tag crashpoints, it kills the process if OSB_CRASH_AT is the name of the point. Otherwise it does nothing.
func CrashAt(point string) { crash.At(point) }

// otherRoute is the route of a request that is none of the API, or that was rejected before anybody could know.
const otherRoute = "other"

// serverObserver hands what an HTTP server reports to an Observer.
type serverObserver struct{ to Observer }

// ServerObserver returns an observer of the HTTP server of this project. It hands each request that the server rejects
// before the Handler gets it to OnExchange, with the route other, and each failure to OnFailure.
func ServerObserver(to Observer) httpserver.Observer { return serverObserver{to} }

// OnRejection hands on a request that the Handler didn't get.
func (o serverObserver) OnRejection(it httpserver.RejectedRequest) {
	o.to.OnExchange(Exchange{
		Route: otherRoute, Method: it.Method, Target: it.Target, Status: it.Status, Reason: it.Reason,
		Duration: it.Duration, Address: it.Address,
	})
}

// OnFailure hands on a failure.
func (o serverObserver) OnFailure(event string, err error) {
	o.to.OnFailure(Failure{Event: event, Err: err})
}
