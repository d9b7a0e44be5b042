package main

import (
	"context"
	"errors"
	"fmt"
	"io"
	"os/signal"
	"path/filepath"
	"syscall"
	"time"

	"github.com/spf13/pflag"

	"pippinterm/internal/cli"
	"pippinterm/internal/cli/notify"
	"pippinterm/internal/httpserver"
	"pippinterm/internal/logs"
	"pippinterm/internal/pg"
	"pippinterm/internal/sqlitefile"
	"pippinterm/platform"
	"pippinterm/platform/client"
	"pippinterm/platform/journal"
	"pippinterm/platform/vault"
)

const (
	lastWait  = 3 * time.Second // how long what was broken off may take to end
	queueWait = time.Second / 2 // how long a reader of the output may take to read the rest
)

// A worker is the program while it runs, or is about to.
type worker struct {
	settings *runSettings
	places   places
	log      eventLog
	observer observers
	metrics  *metrics
	store    platform.Store
	client   *client.Client
	keys     *vault.Vault   // or nil
	vault    platform.Vault // the keys, or nil
	engine   *platform.Engine
	names    *orderedIDs
	journal  platformJournal
	opened   chan struct{} // is closed once the store is open
	reload   []reloader    // what SIGHUP does
	// apiTLS are the certificates of the API, or nil for HTTP.
	apiTLS *httpserver.Certificates
	// notServed has why the sites are served no more.
	notServed chan error
	// These are where it listens, or empty.
	healthURL, pageURL, apiURL string
}

// runWorker runs a worker until SIGTERM or SIGINT. It writes the log to stderr, and what changes to stdout.
func runWorker(ctx context.Context, s *runSettings, p places, stdout, stderr io.Writer) error {
	if err := s.check(); err != nil {
		return err
	}
	stop, forget := signal.NotifyContext(ctx, syscall.SIGTERM, syscall.SIGINT)
	defer forget()
	lines, told := logs.NewQueue(stderr), logs.NewQueue(stdout)
	defer closeQueue(lines)
	defer closeQueue(told)
	r := &worker{settings: s, places: p, log: eventLog{logger: logs.New(lines), least: s.level}}
	r.opened, r.notServed, r.names = make(chan struct{}), make(chan error, 1), newOrderedIDs()
	r.journal.failed = func(of platform.Failure) { r.observer.OnFailure(of) }
	r.metrics = newMetrics(lines.DroppedLines, r.journal.lostLines)
	r.observer = observers{logObserver{r.log, r.names}, r.metrics}
	showsCounts := isTerminal(stdout) && !s.servesOnly
	if !showsCounts {
		r.observer = append(r.observer, changes{to: told, names: r.names})
	}
	ctx, endWork := context.WithCancel(ctx) // of what goes on after stop
	defer endWork()
	done := make(chan error, 1)
	go func() { done <- r.serve(ctx, stop) }()
	if showsCounts && !isTerminal(stderr) {
		defer r.showCounts(ctx, stdout)()
	}
	return r.await(stop, endWork, done)
}

func closeQueue(queue *logs.Queue) {
	until, cancel := context.WithTimeout(context.Background(), queueWait)
	defer cancel()
	_ = queue.Close(until) // a reader that doesn't read isn't waited for
}

// await waits until the worker has ended. After stop it may go on for --stop-seconds. Then it is broken off, and if it
// doesn't end then, for example because the database hangs, it is left: what it has in flight is given up at the next
// start, as after a crash.
func (r *worker) await(stop context.Context, endWork context.CancelFunc, done <-chan error) error {
	select {
	case err := <-done:
		return r.end(stop, err, true)
	case <-stop.Done():
	}
	r.log.at(infoLevel, "stopping").AnErr("notify_error", notify.Stopping()).Send()
	for _, limit := range []time.Duration{r.settings.stop, lastWait} {
		timer := time.NewTimer(limit)
		select {
		case err := <-done:
			timer.Stop()
			return r.end(stop, err, true)
		case <-timer.C:
			endWork()
		}
	}
	return r.end(stop, nil, false)
}

// warnOfFolder logs a warning if other accounts can write to the folder of the store: they can replace the store.
func (r *worker) warnOfFolder() {
	if pg.IsAddress(r.places.store) {
		return
	}
	folder := filepath.Dir(r.places.store)
	if mode, isOpen := cli.IsOpen(folder); isOpen {
		r.log.at(warningLevel, "folder_open").Str("folder", folder).Str("mode", fmt.Sprintf("%04o", mode)).Send()
	}
}

func (r *worker) end(stop context.Context, err error, hasEnded bool) error {
	if stop.Err() != nil { // it was asked to stop, and nothing else is wrong
		event := r.log.at(infoLevel, "stopped").Bool("all_work_ended", hasEnded && err == nil)
		event.Bool("store_closed", hasEnded).Send()
		return nil
	}
	return err
}

// serve opens everything, and works until stop is done.
func (r *worker) serve(ctx, stop context.Context) (err error) {
	store, err := openStore(stop, r.places.store, r.settings.sessions())
	if err != nil {
		return err
	}
	r.warnOfFolder()
	r.store = store
	close(r.opened)
	defer func() {
		if failed := store.Close(); err == nil {
			err = failed
		}
	}()
	defer r.journal.close()
	if err := r.open(stop); err != nil {
		return err
	}
	if r.client != nil {
		defer r.client.Close()
	}
	endServing, err := r.serveSites(ctx, stop)
	if err != nil {
		return err
	}
	defer endServing()
	defer r.reloads(ctx)()
	if r.settings.servesOnly {
		r.logStart()
		return r.serveOnly(stop)
	}
	return r.work(ctx, stop)
}

// logStart logs that it runs, and where it listens.
func (r *worker) logStart() {
	name := "running"
	if r.settings.servesOnly {
		name = "serving"
	}
	event := r.log.at(infoLevel, name)
	logs.Add(event, "worker", r.settings.worker)
	logs.Add(event, "page", r.pageURL)
	logs.Add(event, "api", r.apiURL)
	logs.Add(event, "health", r.healthURL)
	event.AnErr("notify_error", notify.Ready()).Send()
}

// sessions is how many connections to a database it has.
func (s *runSettings) sessions() int {
	most := s.atOnce
	if most > 16 {
		most = 16
	}
	if s.sites.page != "" || s.sites.api != "" {
		most += 8
	}
	return most + 2 // for readiness and metrics
}

// open makes what works and what is served over the store.
func (r *worker) open(ctx context.Context) (err error) {
	own, err := takePassword()
	if err != nil {
		return err
	}
	if r.keys, err = openVault(ctx, r.places.keys(), r.store, r.log.warn); err != nil {
		return err
	}
	if r.keys != nil {
		r.vault = r.keys
	} else {
		consequence := "bindings don't become ready"
		if r.settings.servesOnly {
			consequence = "credentials aren't answered, and no broker's password can be given"
		}
		r.log.at(infoLevel, "no_key").Str("consequence", consequence).Send()
	}
	if err := httpserver.CheckFiles(r.files()); err != nil {
		return cli.Unusable(err)
	}
	if r.settings.sites.isTLS() {
		if r.apiTLS, err = httpserver.LoadCertificates(r.settings.sites.apiTLS); err != nil {
			return cli.Unusable(fmt.Errorf("--api-tls-..: %w", err))
		}
		r.reload = append(r.reload, certificatesOf(r.apiTLS.Reload))
	}
	if err := r.journal.open(r.settings.journal, r.settings.worker, r.vault); err != nil {
		return err
	}
	if !r.settings.servesOnly {
		if err := r.openEngine(ctx, own); err != nil {
			return err
		}
	}
	r.metrics.addStore(ctx, r.store)
	return nil
}

// openEngine makes the client and the engine. own is the password of the broker default, or empty.
func (r *worker) openEngine(ctx context.Context, own string) (err error) {
	s := r.settings
	if s.url != "" {
		if err := s.putDefault(ctx, r.store, own != ""); err != nil {
			return err
		}
	}
	if brokers, err := r.store.Brokers(ctx); err == nil && len(brokers) == 0 {
		r.log.at(warningLevel, "no_brokers").Str("remedy", "osb-platform broker add NAME URL").Send()
	}
	r.client, err = client.New(client.Options{
		Password: passwordsOf(own, client.NewPasswords(r.vault, r.log.warn, r.places.keys()...)), TLS: s.tls,
		Connections: platform.MostInFlight(s.atOnce), AllowHTTP: s.allowHTTP,
	})
	if err != nil {
		return cli.Unusable(err)
	}
	if s.tls != (client.Files{}) {
		r.reload = append(r.reload, certificatesOf(r.client.Reload))
	}
	store := namingStore{Store: r.store, names: r.names}
	with, options, err := forStorm(r.client, store, platform.Options{
		Worker: s.worker, AtOnce: s.atOnce, Exchange: s.seconds, Look: s.look,
		Unsettled: s.unsettled,
	})
	if err != nil {
		return err
	}
	journaled := storeForStorm(r.journal.engineStore(store))
	r.engine = platform.NewEngine(journaled, r.journal.client(with), r.vault, options, r.observer)
	return nil
}

// showCounts shows how many rows are in each state, until the function that it returns is called.
func (r *worker) showCounts(ctx context.Context, to io.Writer) (end func()) {
	ctx, cancel := context.WithCancel(ctx)
	done := make(chan struct{})
	go func() {
		defer close(done)
		select {
		case <-r.opened:
			showCounts(ctx, to, r.store)
		case <-ctx.Done():
		}
	}()
	return func() { cancel(); <-done }
}

// A right is that of a worker to its name.
type right struct {
	end  func()
	lost <-chan struct{}
}

// work steps what is due until stop is done. If the right to the name of the worker is lost, as after an outage of
// PostgreSQL, it takes it again.
func (r *worker) work(ctx, stop context.Context) error {
	end, lost, err := r.store.Only(stop, r.settings.worker)
	if err != nil {
		return err
	}
	if end == nil { // such as a worker that lost its power, and whose session the server hasn't ended yet
		return cli.Unavailable(fmt.Errorf("a worker %s runs already over this store, or its session hasn't ended "+
			"yet. If it is another worker, name this one with --worker", r.settings.worker))
	}
	r.logStart()
	for name := (&right{end, lost}); name != nil; {
		name, err = r.workAs(ctx, stop, name)
	}
	return err
}

// workAs works under the name of the worker until stop is done. If the name is lost, no further requests are begun, and
// workAs returns the name, taken again, once those in flight are answered and written. Otherwise it returns nil and the
// error.
func (r *worker) workAs(ctx, stop context.Context, name *right) (again *right, err error) {
	held, cancel := context.WithCancel(stop)
	taken := make(chan *right, 1)
	go func() {
		select {
		case <-name.lost:
			cancel()
			r.log.at(warningLevel, "worker_name_lost").Str("worker", r.settings.worker).Send()
			name.end()
			taken <- r.nameAgain(stop)
		case <-held.Done():
			taken <- nil
		}
	}()
	err = r.engineRuns(ctx, held)
	cancel()
	if again = <-taken; again == nil {
		name.end()
	} else if stop.Err() != nil {
		again.end()
		again = nil
	}
	return again, err
}

// nameAgain takes the name of the worker again, or returns nil if stop is done before. The server may need a moment to
// notice that the session has ended.
func (r *worker) nameAgain(stop context.Context) *right {
	for {
		end, lost, err := r.store.Only(stop, r.settings.worker)
		if err == nil && end != nil {
			return &right{end, lost}
		}
		if sleep(stop, time.Second) != nil {
			return nil
		}
	}
}

// engineRuns has the engine run until stop is done, and what was in flight is answered and written, or until ctx is
// done.
func (r *worker) engineRuns(ctx, stop context.Context) error {
	for _, begin := range []func(context.Context) error{r.checkKeys, r.free} {
		err := begin(ctx)
		for errors.Is(err, platform.ErrAway) && sleep(stop, time.Second) == nil {
			err = begin(ctx)
		}
		if err != nil {
			return err
		}
	}
	if !r.settings.once {
		return r.engine.Run(ctx, stop.Done())
	}
	err := r.engine.RunOnceUntil(ctx, stop.Done())
	if errors.Is(err, platform.ErrUnreached) || errors.Is(err, platform.ErrLocked) {
		return &endError{status: statusRejected, text: err.Error()}
	}
	return err
}

// checkKeys returns an error if the key of the store was replaced since it was opened. Once the worker has its name,
// the key isn't replaced any more.
func (r *worker) checkKeys(ctx context.Context) error {
	if r.keys == nil {
		return nil
	}
	return checkVault(ctx, r.store, r.keys)
}

// free gives up what an earlier worker of this name has left in flight. Nothing of this one is in flight.
func (r *worker) free(ctx context.Context) error {
	return r.store.Free(ctx, r.settings.worker)
}

// A platformJournal is the journal of a process, if --journal names one. The zero platformJournal wraps nothing.
type platformJournal struct {
	failed func(platform.Failure)
	writer *journal.Writer // or nil
	to     *journal.Journal
}

// journalSettings are the options of a journal.
type journalSettings struct {
	path string
	size int // in MiB
}

func (s *journalSettings) add(flags *pflag.FlagSet) { cli.JournalFlags(flags, &s.path, &s.size) }

// open opens the journal that the settings name, if they name one, for a worker of this name, or for none. vault seals
// the credentials of the store, or is nil.
func (j *platformJournal) open(s journalSettings, worker string, vault platform.Vault) (err error) {
	if s.path == "" {
		return nil
	}
	j.writer, err = journal.Open(journal.Options{
		Path: s.path, Most: int64(s.size) << 20,
		Started: journal.StartMembers(cli.Version(), worker),
		Failed: func(err error) {
			j.failed(platform.Failure{Event: "journal_failed", Err: fmt.Errorf("lines are lost: %w", err)})
		},
	})
	if err != nil {
		return ofFiles("--journal", err)
	}
	j.to = journal.New(j.writer, vault, isDoubtful)
	return nil
}

// isDoubtful reports whether a transaction that has failed with an error may have been committed.
func isDoubtful(err error) bool {
	return errors.Is(err, platform.ErrAway) || errors.Is(err, sqlitefile.ErrUnknownCommit)
}

func (j *platformJournal) engineStore(of platform.Store) platform.Store {
	if j.to == nil {
		return of
	}
	return j.to.EngineStore(of)
}

func (j *platformJournal) ordersStore(of platform.Store) platform.Store {
	if j.to == nil {
		return of
	}
	return j.to.OrdersStore(of)
}

func (j *platformJournal) client(of platform.Client) platform.Client {
	if j.to == nil {
		return of
	}
	return j.to.Client(of)
}

// lostLines are the lines that couldn't be written.
func (j *platformJournal) lostLines() uint64 {
	if j.writer == nil {
		return 0
	}
	return j.writer.LostLines()
}

// close ends the journal, once nothing goes on any more.
func (j *platformJournal) close() {
	if j.writer != nil {
		j.writer.Close()
	}
}
