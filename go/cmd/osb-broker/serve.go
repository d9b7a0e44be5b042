package main

import (
	"context"
	"errors"
	"fmt"
	"io"
	"net"
	"os"
	"os/signal"
	"runtime/debug"
	"strings"
	"syscall"
	"time"

	"pippinterm/broker"
	"pippinterm/broker/journal"
	"pippinterm/broker/sealed"
	"pippinterm/internal/cli"
	"pippinterm/internal/cli/notify"
	"pippinterm/internal/crash"
	"pippinterm/internal/httpserver"
	"pippinterm/internal/httpserver/health"
	"pippinterm/internal/httpserver/limiter"
	"pippinterm/internal/logs"
	"pippinterm/internal/pg"
	"pippinterm/internal/secrets"
	"pippinterm/internal/sqlitefile"
)

// A server is a broker that serves, or is about to.
type server struct {
	settings *settings
	log      *logs.Logger
	observer broker.Observer
	metrics  *metrics
	parts    *parts
	main     *httpserver.Listener
	handler  *broker.Handler
	health   *health.Handler
	sweeper  *broker.Sweeper
	access   *access
	journal  *journal.Writer // or nil
	isCut    bool            // whether work goes on once serve has returned
	work     context.Context // of the work, which endWork breaks off
	endWork  context.CancelFunc
}

// serve serves until SIGTERM or SIGINT. It writes the log to standard error.
func serve(ctx context.Context, s *settings, stderr io.Writer) error {
	if err := crash.Check(crash.Points()); err != nil {
		return cli.Unusable(err)
	}
	debug.SetGCPercent(400) // it has little in memory, and makes much that is short-lived
	syscall.Umask(0o077)
	queue := logs.NewQueue(stderr)
	defer func() {
		until, cancel := context.WithTimeout(ctx, time.Second)
		defer cancel()
		_ = queue.Close(until)
	}()
	r := &server{settings: s, log: logs.New(queue)}
	var err error
	if r.access, err = accessOf(s, r.log); err != nil { // a file that can't be read for long: the signals still end it
		return err
	}
	stop, forget := signal.NotifyContext(ctx, syscall.SIGTERM, syscall.SIGINT)
	defer forget()
	again := make(chan os.Signal, 1)
	signal.Notify(again, syscall.SIGHUP)
	defer signal.Stop(again)
	if err := r.open(ctx, stop, queue); err != nil {
		return err
	}
	defer r.parts.closeAll()
	defer r.closeJournal()
	reloading, end := context.WithCancel(ctx)
	ended := make(chan struct{})
	go func() {
		defer close(ended)
		r.access.reloadAt(reloading, again)
	}()
	defer func() {
		end()
		_ = r.wait(ended, lastWait) // a file that is read again may be on a file system that hangs
	}()
	return r.serve(ctx, stop)
}

// open opens everything but access, and what serve begins.
func (r *server) open(ctx, stop context.Context, queue *logs.Queue) (err error) {
	s := r.settings
	r.metrics = newMetrics(metricsOptions{
		DroppedLines: queue.DroppedLines, LostJournalLines: r.lostLines, Connections: r.connections,
	})
	r.observer = returns{observers{logObserver{r.log}, r.metrics}, r.log}
	if r.parts, err = partsOf(stop, s, r.log, r.observer); err != nil {
		return err
	}
	r.metrics.addStore(ctx, r.parts.store)
	defer func() {
		if err != nil {
			r.parts.closeAll()
		}
	}()
	can := broker.AbilitiesOf(r.parts.backend)
	if can.SecretParameters && r.parts.keys == nil {
		r.log.Warning("secret_parameters_in_clear").Send()
	}
	catalogue, err := catalogueOf(s.catalogue, r.parts.sells, can)
	if err != nil {
		return err
	}
	id, err := r.parts.store.ID(ctx)
	if err != nil {
		return away("the id of the store can't be read", err)
	}
	if catalogue, err = catalogue.OfStore(id); err != nil {
		return cli.Unusable(err)
	}
	if ids := inUpperCase(catalogue.Document()); len(ids) > 0 {
		r.log.Warning("guid_in_upper_case").Strs("ids", ids).Send()
	}
	if s.idsReturnAfter != 0 {
		r.log.Warning("ids_return").Int("after_seconds", s.idsReturnAfter).Send()
	}
	return r.openService(ctx, catalogue)
}

// openService makes the service, and what calls it.
func (r *server) openService(ctx context.Context, catalogue *broker.Catalogue) error {
	s := r.settings
	with, err := r.withJournal(catalogue)
	if err != nil {
		return err
	}
	service := broker.NewService(catalogue, with.store, with.backend, r.parts.locks, s.serviceOptions(), r.observer)
	r.sweeper = broker.NewSweeper(service, r.observer)
	r.work, r.endWork = context.WithCancel(ctx)
	r.handler, err = broker.NewHandler(r.work, service, broker.HandlerOptions{
		Users: r.access.users, LongestBody: s.longestBody, ParsedAtOnce: s.parsedAtOnce, AtOnce: s.threads,
		Limiter: limiter.New(), Touch: r.sweeper.Touch, Observer: r.observer, Journal: with.journal,
	})
	return cli.Unusable(err)
}

func (s *settings) serviceOptions() broker.ServiceOptions {
	return broker.ServiceOptions{
		FirstPoll: s.firstPoll, WaitForPoll: s.waitForPoll, LocksAtOnce: s.locksAtOnce(), LongestPause: s.longestPause,
		IDsReturnAfter: time.Duration(s.idsReturnAfter) * time.Second,
	}
}

func (r *server) connections() int {
	if r.main == nil {
		return 0
	}
	return r.main.Connections()
}

// serve listens, and serves until stop is done.
func (r *server) serve(ctx, stop context.Context) error {
	sites, err := r.sites(ctx)
	if err != nil {
		return err
	}
	defer r.endWork()
	sweeping, endSweeps := context.WithCancel(ctx)
	defer endSweeps()
	swept := make(chan struct{})
	go func() {
		defer close(swept)
		r.sweeper.Run(r.work, sweeping, r.settings.workers, r.settings.sweepTime)
	}()
	var stopped time.Time
	served := httpserver.Server{
		Sites: sites, Request: r.settings.requestTime, Stop: r.settings.stopTime, Stopping: func() {
			stopped = time.Now()
			r.log.Info("stopping").AnErr("notify_error", notify.Stopping()).Send()
			r.handler.Stop()
			r.health.Stop()
			endSweeps()
		},
		Work: func(within context.Context) { waitFor(within, swept) },
	}
	r.log.Info("serving").Str("url", r.main.URL()).AnErr("notify_error", notify.Ready()).Send()
	failed := served.Serve(stop)
	hasEnded := r.wait(swept, time.Until(stopped.Add(r.settings.stopTime)))
	isCut := errors.Is(failed, httpserver.ErrCut)
	r.log.Info("stopped").Bool("all_work_ended", hasEnded && !isCut).Send()
	if isCut || !hasEnded { // the work uses them still. It is taken up at the next start, as after a crash
		r.parts.close, r.isCut = nil, true
		r.endWork() // which kills what a command backend runs
		_ = r.handler.Wait(lastWait)
		_ = r.wait(swept, lastWait)
	}
	if isCut {
		return nil
	}
	return failed
}

// lastWait is how long what was broken off may take to end.
const lastWait = 2 * time.Second

// waitFor waits for what ends, at most until ctx is done.
func waitFor(ctx context.Context, ended <-chan struct{}) {
	select {
	case <-ended:
	case <-ctx.Done():
	}
}

// wait waits for what ends, such as the sweeper, and returns whether it has ended in time.
func (r *server) wait(ended <-chan struct{}, within time.Duration) bool {
	late := time.NewTimer(within)
	defer late.Stop()
	select {
	case <-ended:
		return true
	case <-late.C:
	}
	select { // both may be the case
	case <-ended:
		return true
	default:
		return false
	}
}

// sites are where it listens, and what answers there.
func (r *server) sites(ctx context.Context) ([]httpserver.Site, error) {
	s, certificates := r.settings, r.access.certificates
	var err error
	r.main, err = httpserver.Listen(ctx, s.listen, httpserver.Options{
		Connections: s.connections, PerAddress: s.perAddress, TrustedProxies: s.trustedProxies, Share: s.sharePort,
		Certificates: certificates, Observer: broker.ServerObserver(r.observer),
	})
	if err != nil {
		return nil, cli.Unusable(fmt.Errorf("--listen %s: %w", s.listen, err))
	}
	r.access.warn(r.access.short)
	if certificates == nil && !isLoopback(r.main.Addr()) {
		r.log.Warning("no_tls").Str("listen", s.listen).Send()
	}
	if err := httpserver.CheckFiles(s.files()); err != nil {
		return nil, cli.Unusable(err)
	}
	options := health.Options{Ready: r.parts.store.Ready, Metrics: r.metrics.handler(), NotReady: r.notReady}
	if s.healthListen != "" {
		r.health = health.New(ctx, options)
		other, err := httpserver.Listen(ctx, s.healthListen, httpserver.Options{
			Connections: 100, Observer: broker.ServerObserver(r.observer),
		})
		if err != nil {
			return nil, cli.Unusable(fmt.Errorf("--health-listen %s: %w", s.healthListen, err))
		}
		return []httpserver.Site{{Listener: r.main, Handler: r.handler}, {Listener: other, Handler: r.health}}, nil
	}
	options.Next = r.handler
	r.health = health.New(ctx, options)
	return []httpserver.Site{{Listener: r.main, Handler: r.health}}, nil
}

// notReady reports why the store can't be used.
func (r *server) notReady(err error) {
	r.observer.OnFailure(broker.Failure{Event: "not_ready", Err: err})
}

// Of the files that may be open at once:
const (
	filesOfWork = 1   // of each request and each worker: a lock or a session
	filesOfRun  = 5   // of each of them with a command: its lock twice, since the program has it too, and three pipes
	otherFiles  = 100 // all else
)

// files is how many files may be open at once.
func (s *settings) files() uint64 {
	each := uint64(filesOfWork)
	if _, isCommand := s.command(); isCommand {
		each = filesOfRun
	}
	return uint64(s.connections) + uint64(s.atOnce())*each + otherFiles
}

// atOnce is how many calls of the backend may be under way at once.
func (s *settings) atOnce() int { return s.threads + broker.MostRuns(s.workers) }

// locksAtOnce is how many of the threads may wait for a lock at once. They are fewer than those that may do work, so
// that a silent server of the locks leaves some, which answer at once.
func (s *settings) locksAtOnce() int { return (s.threads + 1) / 2 }

// isLoopback reports whether only this machine reaches an address.
func isLoopback(address net.Addr) bool {
	tcp, ok := address.(*net.TCPAddr)
	return ok && tcp.IP.IsLoopback()
}

// An access is how platforms reach the broker. Its files can be read again while it is in use.
type access struct {
	settings     *settings
	log          *logs.Logger
	users        *broker.Users
	short        []string                 // the users whose passwords could be guessed at the start
	certificates *httpserver.Certificates // nil without TLS
}

// accessOf reads the passwords and the certificates of the settings.
func accessOf(s *settings, log *logs.Logger) (*access, error) {
	a := &access{settings: s, log: log}
	passwords, err := a.passwords()
	if err != nil {
		return nil, cli.Unusable(err)
	}
	a.short = secrets.Short(passwords)
	if a.users, err = broker.NewUsers(passwords); err != nil {
		return nil, cli.Unusable(err)
	}
	if s.certificate == "" && s.key == "" && s.clientCA == "" {
		return a, nil
	}
	a.certificates, err = httpserver.LoadCertificates(httpserver.CertificateFiles{
		Certificate: s.certificate, Key: s.key, ClientCA: s.clientCA,
	})
	return a, cli.Unusable(err)
}

// reloadAt reads the files again for each signal, until ctx is done. What can't be read stays as it was.
func (a *access) reloadAt(ctx context.Context, signals <-chan os.Signal) {
	for {
		select {
		case <-signals:
			a.reload()
		case <-ctx.Done():
			return
		}
	}
}

func (a *access) reload() {
	if a.settings.usersFile != "" || a.settings.passwordFile != "" {
		a.report("users", a.reloadUsers())
	}
	if a.certificates != nil {
		a.report("certificates", a.certificates.Reload())
	}
}

func (a *access) reloadUsers() error {
	passwords, err := a.passwords()
	if err != nil {
		return err
	}
	if err := a.users.Replace(passwords); err != nil {
		return err
	}
	a.warn(secrets.Short(passwords))
	return nil
}

// report logs the result of reading again.
func (a *access) report(what string, err error) {
	if err != nil {
		a.log.Error(what + "_not_reloaded").Err(err).Send()
		return
	}
	a.log.Info(what + "_reloaded").Send()
}

// warn logs a warning of each of these users, whose passwords can be guessed.
func (a *access) warn(short []string) {
	for _, user := range short {
		a.log.Warning("short_password").Str("user", user).Int("fewer_bytes_than", secrets.ShortestPassword).Send()
	}
}

// passwords reads the passwords of each user, and logs a warning if others can read their file.
func (a *access) passwords() (map[string][]string, error) {
	all, warning, err := passwordsOf(a.settings)
	if warning != "" {
		a.log.Warning("secret").Str("warning", warning).Send()
	}
	return all, err
}

func passwordsOf(s *settings) (map[string][]string, string, error) {
	if s.usersFile != "" {
		if s.passwordFile != "" {
			return nil, "", errors.New("give --users-file or --password-file, and not both")
		}
		return secrets.Users(s.usersFile)
	}
	if s.user == "" || strings.Contains(s.user, ":") {
		return nil, "", errors.New("--user wants a name without a colon")
	}
	passwords, warning, err := secrets.Passwords("OSB_BROKER_PASSWORD", s.passwordFile)
	return map[string][]string{s.user: passwords}, warning, wrap("the platform's password", err)
}

// serviceParts are what a service is made of, and the journal of its requests, or nil.
type serviceParts struct {
	store   broker.Store
	backend broker.Backend
	journal broker.Journal
}

// withJournal returns the parts, which write the journal if there is one.
func (r *server) withJournal(catalogue *broker.Catalogue) (serviceParts, error) {
	s := r.settings
	with := serviceParts{store: sealed.New(r.parts.store, r.parts.keys), backend: r.parts.backend}
	if s.journal == "" {
		return with, nil
	}
	started, err := journal.StartMembers(cli.Version(), catalogue.Document(), s.serviceOptions(), r.parts.locks.CanBeLost())
	if err != nil {
		return with, err
	}
	r.journal, err = journal.Open(journal.Options{
		Path: s.journal, Most: int64(s.journalSize) << 20, Started: started, Failed: r.journalFailed,
	})
	if err != nil {
		return with, ofFiles("--journal", err)
	}
	to := journal.New(r.journal, isDoubtful)
	return serviceParts{store: to.Store(with.store), backend: to.Backend(with.backend), journal: to}, nil
}

// isDoubtful reports whether a change that has failed with an error may have been committed.
func isDoubtful(err error) bool {
	return errors.Is(err, pg.ErrUnknownCommit) || errors.Is(err, sqlitefile.ErrUnknownCommit)
}

func (r *server) journalFailed(err error) {
	r.observer.OnFailure(broker.Failure{Event: "journal_failed", Err: fmt.Errorf("lines are lost: %w", err)})
}

// lostLines are the lines of the journal that couldn't be written.
func (r *server) lostLines() uint64 {
	if r.journal == nil {
		return 0
	}
	return r.journal.LostLines()
}

// closeJournal ends the journal, unless work goes on: then it ends as after a crash.
func (r *server) closeJournal() {
	if r.journal != nil && !r.isCut {
		r.journal.Close()
	}
}
