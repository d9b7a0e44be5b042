package main

import (
	"context"
	"errors"
	"fmt"
	"net"
	"net/http"
	"net/netip"
	"os"
	"os/signal"
	"sync/atomic"
	"syscall"
	"time"

	"github.com/spf13/cobra"

	"pippinterm/internal/cli"
	"pippinterm/internal/httpserver"
	"pippinterm/internal/httpserver/health"
	"pippinterm/internal/httpserver/limiter"
	"pippinterm/internal/secrets"
	"pippinterm/platform"
	"pippinterm/platform/api"
	"pippinterm/platform/page"
	"pippinterm/platform/vault"
)

// serveCommand serves the API and the page, and sends nothing.
func serveCommand(a *app) *cobra.Command {
	s := &runSettings{servesOnly: true, level: infoLevel}
	made := &cobra.Command{
		Use:   "serve",
		Short: "Serve the API and the page without a worker, until SIGTERM",
		Long: `Serve the API and the page over a store, until SIGTERM or SIGINT. Nothing is sent to a broker: that does
'run', on this machine or another one. Any number of both run over one store.

The log is lines of JSON on standard error. SIGHUP reads the files of --api-tls-.., --api-tokens and --page-users again.
GET /healthz, /readyz and /metrics of --health-listen need no password.`,
		Example: `  osb-platform serve --api 127.0.0.1:8092 --api-tokens tokens --page 127.0.0.1:8090
  osb-platform serve --store postgresql://platform@db/platform --page 127.0.0.1:8090`,
		RunE: func(c *cobra.Command, _ []string) error {
			return a.withStatus(runWorker(c.Context(), s, a.places, c.OutOrStdout(), c.ErrOrStderr()))
		},
	}
	flags := made.Flags()
	flags.SortFlags = false
	s.sites.add(flags)
	flags.BoolVar(&s.allowHTTP, "allow-http", false,
		"let the API add brokers by http:// that aren't on this machine. 'run' needs it too")
	flags.Var(levelFlag(&s.level), "log-level", "the least `level` that is logged: debug, info, warning, error")
	flags.Var(cli.Seconds(&s.stop, defaultStop), "stop-seconds", "for requests to be answered after SIGTERM")
	s.journal.add(flags)
	return made
}

// checkServe returns an error if there is nothing to serve.
func (s *runSettings) checkServe() error {
	if s.sites.page == "" && s.sites.api == "" {
		return cli.Unusable(errors.New("give --api HOST:PORT, or --page HOST:PORT, or both"))
	}
	return nil
}

// serveOnly waits until stop is done, or the sites are served no more.
func (r *worker) serveOnly(stop context.Context) error {
	select {
	case <-stop.Done():
		return nil
	case err := <-r.notServed:
		return err
	}
}

// How many connections may be open to each part at once.
const (
	healthConnections = 100
	pageConnections   = 100
	apiConnections    = 256
)

// pageSilence is how long a new connection to the page may send nothing. Anybody may open connections to the page, and
// further ones wait while all are taken.
const pageSilence = 2 * time.Second

// slowest is how long a client may take to accept one write of an answer.
const slowest = 10 * time.Second

// A part is what answers at an address besides the work.
type part struct {
	option, address string // the option that names the address, which is empty if the part isn't wanted
	connections     int
	perAddress      int // of them, or 0 for a quarter
	trusted         []netip.Prefix
	silence         time.Duration            // how long a new connection may send nothing, or 0 for the usual
	certificates    *httpserver.Certificates // or nil for HTTP
	make            func() (http.Handler, error)
	url             *string // where it is, once it listens
}

// parts are what is served. whenStopping takes what a part calls once the program is being stopped.
func (r *worker) parts(work context.Context, whenStopping func(func())) []part {
	healthPart := func() (http.Handler, error) {
		handler := health.New(work, health.Options{
			Ready: r.ready, Metrics: r.metrics.handler(), NotReady: func(err error) {
				r.observer.OnFailure(platform.Failure{Event: "not_ready", Err: err})
			},
		})
		whenStopping(handler.Stop)
		return handler, nil
	}
	pagePart := func() (http.Handler, error) {
		stopping, stop := context.WithCancel(work)
		whenStopping(stop)
		return r.page(stopping)
	}
	s := r.settings.sites
	return []part{
		{
			option: "--page", address: s.page, connections: pageConnections, silence: pageSilence, make: pagePart,
			url: &r.pageURL, perAddress: s.perAddress, trusted: s.trustedProxies,
		},
		{
			option: "--api", address: s.api, connections: apiConnections, certificates: r.apiTLS, make: r.api,
			url: &r.apiURL, perAddress: s.perAddress, trusted: s.trustedProxies,
		},
		{
			option: "--health-listen", address: s.healthListen, connections: healthConnections, make: healthPart,
			url: &r.healthURL,
		}, // it is the last to be stopped
	}
}

// files is how many files may be open at once.
func (r *worker) files() uint64 {
	needed := platform.MostInFlight(r.settings.atOnce) + 100
	for _, part := range r.parts(context.Background(), nil) {
		if part.address != "" {
			needed += part.connections
		}
	}
	return uint64(needed)
}

// page makes the page. stopping is done once the program stops. The page works without --api. With it, neither keeps
// the other waiting: each has its own limit of requests.
func (r *worker) page(stopping context.Context) (http.Handler, error) {
	s := r.settings.sites
	options := page.Options{Hosts: s.pageHosts, Stopping: stopping, Failed: func(err error) {
		r.observer.OnFailure(platform.Failure{Event: "page_failed", Err: err})
	}}
	var err error
	if options.Host, _, err = net.SplitHostPort(s.page); err != nil {
		return nil, err
	}
	reader := api.NewReader(r.store, true)
	if s.pageUsers == "" {
		return page.NewHandler(reader, options)
	}
	options.Limiter = limiter.New()
	return r.reloadable("users_reloaded", "users_not_reloaded", func() (http.Handler, error) {
		users, err := r.pageUsers()
		if err != nil {
			return nil, fmt.Errorf("--page-users: %w", err)
		}
		with := options
		with.Users = users
		return page.NewHandler(reader, with)
	})
}

// pageUsers reads the users of the page. Without any it is an error: the page would ask for no password.
func (r *worker) pageUsers() (map[string][]string, error) {
	file := r.settings.sites.pageUsers
	users, warning, err := secrets.Users(file)
	if err == nil && len(users) == 0 {
		err = fmt.Errorf("%s has no user", file)
	}
	if warning != "" {
		r.log.warn(warning)
	}
	for _, user := range secrets.Short(users) {
		event := r.log.at(warningLevel, "short_password").Str("user", user)
		event.Int("fewer_bytes_than", secrets.ShortestPassword).Send()
	}
	return users, err
}

// api makes the API.
func (r *worker) api() (http.Handler, error) {
	orders := platform.NewOrders(r.journal.ordersStore(r.store), r.vault)
	orders.AllowHTTP(r.settings.allowHTTP)
	hosts, err := api.ParseHosts(r.settings.sites.brokerHosts)
	if err != nil {
		return nil, err
	}
	return r.reloadable("tokens_reloaded", "tokens_not_reloaded", func() (http.Handler, error) {
		tokens, warning, err := api.ReadTokens(r.settings.sites.apiTokens)
		if err != nil {
			return nil, fmt.Errorf("--api-tokens: %w", err)
		}
		if warning != "" {
			r.log.warn(warning)
		}
		return api.NewHandler(orders, r.store, api.Options{
			Tokens: tokens, CheckKey: r.checkKeyOfAPI, Observe: r.log.apiRequest, BrokerHosts: hosts,
		})
	})
}

// checkKeyOfAPI is a platform.Rejection if the key of the store was replaced since it was opened. 'rekey' rejects to
// run beside a worker, but a 'serve' may go on with the old key.
func (r *worker) checkKeyOfAPI(ctx context.Context) error {
	err := r.checkKeys(ctx)
	if errors.Is(err, vault.ErrStoreKey) || errors.Is(err, vault.ErrRotating) {
		return &platform.Rejection{Kind: platform.Conflict, Text: "the key of the store was replaced, or is being replaced: " +
			"start this program again with the new key, and repeat the request"}
	}
	return err
}

// warnOf warns of a part that others than this machine reach, and that isn't protected.
func (r *worker) warnOf(of part, listener *httpserver.Listener) {
	address, isTCP := listener.Addr().(*net.TCPAddr)
	if of.url == &r.healthURL || isTCP && address.IP.IsLoopback() {
		return
	}
	if of.certificates == nil {
		r.log.at(warningLevel, "no_tls").Str("listen", of.address).Send()
	}
	if of.url == &r.pageURL && r.settings.sites.pageUsers == "" {
		r.log.at(warningLevel, "no_page_users").Str("listen", of.address).Send()
	}
}

// serveSites serves the parts, until the function that it returns is called.
func (r *worker) serveSites(work, stop context.Context) (end func(), err error) {
	var stops []func()
	var sites []httpserver.Site
	for _, part := range r.parts(work, func(call func()) { stops = append(stops, call) }) {
		if part.address == "" {
			continue
		}
		site, err := r.site(work, part)
		if err != nil {
			for _, open := range sites {
				_ = open.Listener.Close()
			}
			return nil, cli.Unusable(fmt.Errorf("%s %s: %w", part.option, part.address, err))
		}
		sites = append(sites, site)
	}
	if len(sites) == 0 {
		return func() {}, nil
	}
	return r.serveAll(work, stop, sites, stops), nil
}

// site listens for a part.
func (r *worker) site(work context.Context, of part) (httpserver.Site, error) {
	handler, err := of.make()
	if err != nil {
		return httpserver.Site{}, err
	}
	listener, err := httpserver.Listen(work, of.address, httpserver.Options{
		Connections: of.connections, PerAddress: of.perAddress, TrustedProxies: of.trusted, Silent: of.silence,
		Write: slowest, Certificates: of.certificates, Observer: serverObserver{to: r.observer},
	})
	if err != nil {
		return httpserver.Site{}, err
	}
	*of.url = listener.URL()
	r.warnOf(of, listener)
	return httpserver.Site{Listener: listener, Handler: handler}, nil
}

// serveAll serves the sites until the function that it returns is called. After stop it calls the functions stops.
func (r *worker) serveAll(work, stop context.Context, sites []httpserver.Site, stops []func()) (end func()) {
	ctx, cancel := context.WithCancel(work)
	served, noticed := make(chan struct{}), make(chan struct{})
	go func() {
		defer close(noticed)
		select {
		case <-stop.Done():
			for _, stop := range stops {
				stop()
			}
		case <-ctx.Done():
		}
	}()
	go func() {
		defer close(served)
		err := httpserver.Server{Sites: sites, Stop: r.lastAnswers()}.Serve(ctx)
		if err != nil && !errors.Is(err, httpserver.ErrCut) {
			r.log.at(errorLevel, "serving_failed").Err(err).Send()
			r.notServed <- err
		}
	}()
	return func() { cancel(); <-served; <-noticed }
}

// lastAnswers is how long requests may go on once the sites are stopped. Those of a worker were given the time for
// which the work was awaited.
func (r *worker) lastAnswers() time.Duration {
	if r.settings.servesOnly {
		return r.settings.stop
	}
	return time.Second
}

// A reloader reads files again that are in use. What can't be read stays as it was.
type reloader struct {
	done, failed string // the events of the log
	read         func() error
}

// certificatesOf reads certificates again.
func certificatesOf(read func() error) reloader {
	return reloader{done: "certificates_reloaded", failed: "certificates_not_reloaded", read: read}
}

// reloads reads files again at each SIGHUP, until the function that it returns is called. If there is none to read,
// SIGHUP does nothing.
func (r *worker) reloads(work context.Context) (end func()) {
	if len(r.reload) == 0 {
		signal.Ignore(syscall.SIGHUP)
		return func() {}
	}
	ctx, cancel := context.WithCancel(work)
	again, done := make(chan os.Signal, 1), make(chan struct{})
	signal.Notify(again, syscall.SIGHUP)
	go func() {
		defer close(done)
		for {
			select {
			case <-ctx.Done():
				return
			case <-again:
			}
			r.readAgain()
		}
	}()
	return func() { signal.Stop(again); cancel(); <-done }
}

// readAgain reads all files again.
func (r *worker) readAgain() {
	for _, files := range r.reload {
		if err := files.read(); err != nil {
			r.log.at(errorLevel, files.failed).Err(err).Send()
			continue
		}
		r.log.at(infoLevel, files.done).Send()
	}
}

// A replaceable is a handler whose place another one takes while it serves. Requests that the earlier one has begun
// are its own to the end.
type replaceable struct{ now atomic.Pointer[http.Handler] }

// ServeHTTP has the handler of this moment answer.
func (h *replaceable) ServeHTTP(w http.ResponseWriter, r *http.Request) {
	(*h.now.Load()).ServeHTTP(w, r)
}

// reloadable is the handler that a function makes of a file, and at each SIGHUP the next one. done and failed are the
// events of the log.
//
// Errors: those of the function.
func (r *worker) reloadable(
	done, failed string, handlerOf func() (http.Handler, error),
) (http.Handler, error) {
	current := &replaceable{}
	read := func() error {
		made, err := handlerOf()
		if err != nil {
			return err
		}
		current.now.Store(&made)
		return nil
	}
	if err := read(); err != nil {
		return nil, err
	}
	r.reload = append(r.reload, reloader{done: done, failed: failed, read: read})
	return current, nil
}

// ready returns nil if a row of the store can be read and one can be written, and if the worker's last write of its
// rows hasn't failed. The row of the former is small, and may be written while others can't.
func (r *worker) ready(ctx context.Context) error {
	err := r.store.Ready(ctx)
	if err == nil && r.engine != nil {
		err = r.engine.Ready()
	}
	return err
}
