package platform

import (
	"context"
	"errors"
	"fmt"
	"net/url"
	"path/filepath"
	"sync"
	"time"

	"pippinterm/broker"
	"pippinterm/broker/backend/folders"
	"pippinterm/broker/journal"
	"pippinterm/broker/sqlite"
	"pippinterm/internal/cli"
	"pippinterm/internal/httpserver"
	"pippinterm/internal/journalfile"
	"pippinterm/internal/sqlitefile"
	"pippinterm/osb"
	"pippinterm/storm/fault"
	"pippinterm/storm/report"
	"pippinterm/storm/run"
	"pippinterm/storm/run/audit"
	"pippinterm/storm/run/goods"
)

// A shop is a broker that sells folders below a temporary folder. It listens at a free port of this machine.
type shop struct {
	broker.Silent // it is its own Observer
	store         *sqlite.Store
	backend       backend
	writer        *journalfile.Writer // of its journal, or nil
	address       *url.URL
	stop          func()
	served        chan error

	mutex  sync.Mutex
	failed []string
}

func openShop(ctx context.Context, c Options, folder string) (s *shop, err error) {
	s = &shop{served: make(chan error, 1)}
	catalogue, err := broker.NewCatalogue(goods.Document(), broker.Abilities{Bindings: true})
	if err != nil {
		return nil, err
	}
	users, err := broker.NewUsers(map[string][]string{c.User: {c.Password}})
	if err != nil {
		return nil, err
	}
	if s.backend, err = newBackend(c, filepath.Join(folder, "instances")); err != nil {
		return nil, err
	}
	if s.store, err = sqlite.Open(ctx, filepath.Join(folder, "holdings.sqlite"), s); err != nil {
		return nil, fmt.Errorf("the store of the broker: %w", err)
	}
	serviceOptions := broker.ServiceOptions{FirstPoll: c.FirstPoll, WaitForPoll: 10 * time.Minute}
	lines, err := s.openJournal(c.Journal, catalogue, serviceOptions)
	if err == nil {
		store, sold := broker.Store(s.store), broker.Backend(s.backend)
		options := broker.HandlerOptions{Users: users, LongestBody: 1 << 20, AtOnce: 64, Observer: s}
		if lines != nil {
			store, sold, options.Journal = lines.Store(store), lines.Backend(sold), lines
		}
		err = s.serve(ctx, broker.NewService(catalogue, store, sold, s.backend.Locks(), serviceOptions, s), options)
	}
	if err != nil {
		return nil, run.FirstError(err, s.closeFiles())
	}
	return s, nil
}

// openJournal opens the journal below a folder, or returns nil if its name is empty.
func (s *shop) openJournal(below string, catalogue *broker.Catalogue, options broker.ServiceOptions) (*journal.Journal, error) {
	if below == "" {
		return nil, nil
	}
	started, err := journal.StartMembers(cli.Version(), catalogue.Document(), options, s.backend.Locks().CanBeLost())
	if err != nil {
		return nil, err
	}
	s.writer, err = journalfile.Open(journalfile.Options{
		Path: filepath.Join(below, "broker") + "/", Side: "broker", Most: 64 << 20, Started: started,
		Failed: func(err error) {
			s.OnFailure(broker.Failure{Event: "journal_failed", Err: fmt.Errorf("lines are lost: %w", err)})
		},
	})
	if err != nil {
		return nil, fmt.Errorf("the journal: %w", err)
	}
	isDoubtful := func(err error) bool { return errors.Is(err, sqlitefile.ErrUnknownCommit) }
	return journal.New(s.writer, isDoubtful), nil
}

func (s *shop) serve(ctx context.Context, service *broker.Service, options broker.HandlerOptions) error {
	sweeper := broker.NewSweeper(service, s)
	options.Touch = sweeper.Touch
	handler, err := broker.NewHandler(ctx, service, options)
	if err != nil {
		return err
	}
	listener, err := httpserver.Listen(ctx, "127.0.0.1:0", httpserver.Options{Observer: broker.ServerObserver(s)})
	if err != nil {
		return err
	}
	if s.address, err = url.Parse(listener.URL()); err != nil {
		return err
	}
	stopping, stop := context.WithCancel(ctx)
	s.stop = stop
	swept := make(chan struct{})
	go func() {
		defer close(swept)
		sweeper.Run(ctx, stopping, 16, time.Second)
	}()
	go func() {
		served := httpserver.Server{Sites: []httpserver.Site{{Listener: listener, Handler: handler}}, Stop: 10 * time.Second}
		err := served.Serve(stopping)
		<-swept
		s.served <- err
	}()
	return nil
}

func (s *shop) close() error {
	s.stop()
	return run.FirstError(<-s.served, s.closeFiles())
}

func (s *shop) closeFiles() error {
	err := s.store.Close()
	if s.writer != nil {
		s.writer.Close()
	}
	return err
}

// OnFailure notes what went wrong with the broker.
func (s *shop) OnFailure(f broker.Failure) {
	if f.IsRejection {
		return
	}
	s.mutex.Lock()
	defer s.mutex.Unlock()
	s.failed = append(s.failed, fmt.Sprintf("the broker of osb-storm: %s: %v", f.Event, f.Err))
}

func (s *shop) failures() []string {
	s.mutex.Lock()
	defer s.mutex.Unlock()
	return append([]string(nil), s.failed...)
}

// rest waits until no operation is going on, at most until ctx is done.
func (s *shop) rest(ctx context.Context) error {
	for {
		isWorking, err := s.isWorking(ctx)
		if err != nil || !isWorking {
			return err
		}
		if !fault.Sleep(ctx, lookEach) {
			return errors.New("an operation of the broker of osb-storm goes on after all requests")
		}
	}
}

func (s *shop) isWorking(ctx context.Context) (bool, error) {
	unfinished, err := s.store.UnfinishedKeys(ctx)
	if err != nil {
		return false, err
	}
	for _, key := range unfinished {
		snapshot, err := s.store.Read(ctx, key)
		if err != nil {
			return false, err
		}
		if row, isHeld := snapshot.Holding.Row(); snapshot.IsUnfinished() && !(isHeld && row.Phase == osb.PhaseWaiting) {
			return true, nil
		}
	}
	return false, nil
}

// findExisting returns which of these instances and bindings exist, or a part of them.
func (s *shop) findExisting(ctx context.Context, keys []report.Key) (map[report.Key]bool, error) {
	found := map[report.Key]bool{}
	for _, key := range keys {
		its, err := audit.Numbered(key)
		if err != nil { // the broker accepts no such id
			continue
		}
		look := s.backend.Look
		if its.IsBinding {
			look = s.backend.LookBinding
		}
		there, err := look(ctx, broker.Request{Key: its})
		if err != nil {
			return nil, err
		}
		if there != broker.None {
			found[key] = true
		}
	}
	return found, nil
}

// A backend is folders whose asynchronous work takes a while.
type backend struct {
	*folders.Folders
	seed  int64
	takes time.Duration
}

func newBackend(c Options, folder string) (backend, error) {
	sold, err := folders.New(folder)
	return backend{sold, c.Seed, c.OperationTime}, err
}

// Create creates an instance.
func (b backend) Create(ctx context.Context, request broker.Request) error {
	b.work(ctx, request)
	return b.Folders.Create(ctx, request)
}

// Delete deletes an instance.
func (b backend) Delete(ctx context.Context, request broker.Request) error {
	b.work(ctx, request)
	return b.Folders.Delete(ctx, request)
}

// work waits as long as an operation takes, up to the time of operations. A synchronous plan does no such work.
func (b backend) work(ctx context.Context, request broker.Request) {
	if request.PlanID != goods.AtOnce {
		share := fault.Chance(b.seed, "work", request.InstanceID).Float64()
		_ = fault.Sleep(ctx, time.Duration(share*float64(b.takes)))
	}
}

// lookEach is how often a Storm looks while it waits.
const lookEach = 200 * time.Millisecond
