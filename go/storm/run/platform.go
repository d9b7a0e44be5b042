package run

import (
	"context"
	"errors"
	"fmt"
	"math/rand"
	"path/filepath"
	"sync"
	"time"

	"pippinterm/internal/journalfile"
	"pippinterm/internal/sqlitefile"
	"pippinterm/platform"
	"pippinterm/platform/client"
	"pippinterm/platform/journal"
	"pippinterm/platform/sqlite"
	"pippinterm/platform/vault"
	"pippinterm/storm/conform"
	"pippinterm/storm/fault"
	"pippinterm/storm/run/audit"
)

// The names of the worker and the broker in the store.
const (
	workerName = "storm"
	brokerName = "broker"
)

// A platformRig is this project's platform: an engine over a store in a folder of the run. It is an Orders.
type platformRig struct {
	book
	engine *platform.Engine
	client *client.Client
	free   func()              // the name of the worker
	writer *journalfile.Writer // of its journal, or nil
	stop   chan struct{}
	ended  chan error
}

var _ Orders = (*platformRig)(nil)

// startPlatform starts a platform whose broker is at a URL. If writer isn't nil, the platform writes its journal to it,
// and closes it in the end.
func startPlatform(
	ctx context.Context, c BrokerOptions, folder, url string, target conform.Target, observer platform.Observer,
	writer *journalfile.Writer,
) (*platformRig, error) {
	rig := &platformRig{book: bookOf(target), writer: writer, ended: make(chan error, 1)}
	if err := rig.open(ctx, c, folder, url, observer); err != nil {
		return nil, FirstError(err, rig.closeFiles())
	}
	rig.resume()
	within, cancel := context.WithTimeout(ctx, 30*time.Second)
	defer cancel()
	if reason, isThere := awaitCatalogue(within, rig.store); !isThere {
		return nil, FirstError(fmt.Errorf("the platform can't read the catalogue: %s", reason), rig.close())
	}
	return rig, nil
}

func (p *platformRig) open(ctx context.Context, c BrokerOptions, folder, url string, observer platform.Observer) error {
	sealing, err := newVault()
	if err != nil {
		return err
	}
	store, err := sqlite.Open(ctx, filepath.Join(folder, "orders.sqlite"))
	if err != nil {
		return fmt.Errorf("the store of the platform: %w", err)
	}
	p.store = store
	if p.free, _, err = p.store.Only(ctx, workerName); err != nil {
		return err
	}
	password := c.Broker.Password
	p.client, err = client.New(client.Options{
		Password: func(platform.Broker) (string, error) { return password, nil }, UserAgent: "osb-storm",
	})
	if err != nil {
		return err
	}
	orders, engine, sender := p.store, p.store, platform.Client(p.client)
	if p.writer != nil {
		lines := journal.New(p.writer, sealing, isDoubtful)
		orders, engine, sender = lines.OrdersStore(orders), lines.EngineStore(engine), lines.Client(sender)
	}
	p.orders = platform.NewOrders(orders, sealing)
	p.engine = platform.NewEngine(engine, sender, sealing, optionsOf(c), observer)
	return p.orders.AddBroker(ctx, platform.Broker{Name: brokerName, URL: url, User: c.Broker.User}, []byte(password))
}

// optionsOf are the options of the engine. What is late has arrived before a deletion is sent (Hold), as the platform
// assumes it of every network.
func optionsOf(c BrokerOptions) platform.Options {
	return platform.Options{
		Worker: workerName, Exchange: c.RequestTime, Margin: time.Second, Look: 50 * time.Millisecond,
		FirstPace: c.Broker.Pause, LongestPace: 4 * c.Broker.Pause, LongestPoll: c.Broker.OperationTime,
		Hold: c.Late + time.Second,
	}
}

func newVault() (*vault.Vault, error) {
	key := make([]byte, 32)
	if _, err := rand.Read(key); err != nil {
		return nil, fmt.Errorf("no random key: %w", err)
	}
	return vault.New(key)
}

// awaitCatalogue waits until the store of a platform has the catalogue of its broker. It returns why that isn't so.
func awaitCatalogue(ctx context.Context, store platform.Store) (reason string, isThere bool) {
	for {
		brokers, err := store.Brokers(ctx)
		if len(brokers) == 1 {
			reason, isThere = brokers[0].Reason.Lost, err == nil && brokers[0].Catalogue != nil
		}
		if isThere || !fault.Sleep(ctx, readEach) {
			return reason, isThere
		}
	}
}

// isDoubtful reports whether a transaction that has failed with an error may have been committed.
func isDoubtful(err error) bool { return errors.Is(err, sqlitefile.ErrUnknownCommit) }

// resume has the engine work, at first and after halt.
func (p *platformRig) resume() {
	stop := make(chan struct{})
	p.stop = stop
	go func() { p.ended <- p.engine.Run(context.Background(), stop) }()
}

// halt ends the engine, once what is in flight is answered.
func (p *platformRig) halt() error {
	select {
	case <-p.stop:
		return nil
	default:
		close(p.stop)
		return <-p.ended
	}
}

func (p *platformRig) close() error {
	err := p.halt()
	p.client.Close()
	return FirstError(err, p.closeFiles())
}

// closeFiles closes the store and the journal, as far as they are open.
func (p *platformRig) closeFiles() (err error) {
	if p.free != nil {
		p.free()
	}
	if p.store != nil {
		err = p.store.Close()
	}
	if p.writer != nil {
		p.writer.Close()
	}
	return err
}

// A book is the store of this project's platform. It is an Orders.
type book struct {
	service string
	plan    func(Key) string // of an instance
	store   platform.Store
	orders  *platform.Orders
}

var _ Orders = book{}

// bookOf returns a book, yet without its store, in which all instances are of one plan.
func bookOf(target conform.Target) book {
	return book{service: target.Service, plan: func(Key) string { return target.Plan }}
}

// Create writes down an instance to create.
func (b book) Create(ctx context.Context, key Key) error {
	_, err := b.orders.Create(ctx, platform.NewInstance{
		Broker: brokerName, Service: b.service, Plan: b.plan(key), ID: key.Instance,
		Organization: "osb-storm-organization", Space: "osb-storm-space",
	})
	return err
}

// Bind writes down a binding to create.
func (b book) Bind(ctx context.Context, key Key) error {
	_, err := b.orders.Bind(ctx, platform.NewBinding{Instance: key.Instance, ID: key.Binding})
	return err
}

// Remove has an instance or a binding deleted.
func (b book) Remove(ctx context.Context, key Key, withBindings bool) error {
	numbered, err := audit.Numbered(key)
	if err != nil {
		return err
	}
	_, err = b.orders.Remove(ctx, numbered, withBindings)
	return err
}

// Record returns the record of a key.
func (b book) Record(ctx context.Context, key Key) (Record, error) {
	numbered, err := audit.Numbered(key)
	if err != nil {
		return Record{}, err
	}
	entry, err := b.store.Read(ctx, numbered)
	if errors.Is(err, platform.ErrUnknown) {
		return Record{}, nil
	}
	return audit.RecordOf(entry), err
}

// Records returns all records.
func (b book) Records(ctx context.Context) (map[Key]Record, error) {
	entries, err := b.store.List(ctx, platform.Filter{})
	if err != nil {
		return nil, err
	}
	all := map[Key]Record{}
	for _, entry := range entries {
		all[Key{Instance: entry.Names.Instance, Binding: entry.Names.Binding}] = audit.RecordOf(entry)
	}
	return all, nil
}

// A notedBook is a book that notes how the records change. Any number of goroutines use it.
type notedBook struct {
	book
	events *events
	turn   sync.Mutex
	states map[Key]platform.State
}

// Record returns the record of a key.
func (n *notedBook) Record(ctx context.Context, key Key) (Record, error) {
	record, err := n.book.Record(ctx, key)
	if err == nil {
		n.note(key, record)
	}
	return record, err
}

// Records returns all records.
func (n *notedBook) Records(ctx context.Context) (map[Key]Record, error) {
	records, err := n.book.Records(ctx)
	for key, record := range records {
		n.note(key, record)
	}
	return records, err
}

func (n *notedBook) note(key Key, record Record) {
	n.turn.Lock()
	defer n.turn.Unlock()
	before := n.states[key]
	if before == record.State || !record.Known {
		return
	}
	n.states[key] = record.State
	what := string(record.State)
	if before != "" {
		what = string(before) + " -> " + what
	}
	n.events.add(key, "record", what)
}
