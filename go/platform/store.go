package platform

import (
	"context"
	"encoding/json"
	"errors"
	"strings"
	"time"

	"pippinterm/osb"
)

// A Snapshot is what a transaction reads of a row, which it has locked.
type Snapshot struct {
	Entry
	// Instance is the row of a binding's instance, locked too. For an instance it is nil.
	Instance *Entry
	// AllGone reports whether no binding of an instance may exist: each that was sent is recorded gone, or is
	// abandoned. Nobody goes on with what is abandoned. If it exists, the broker keeps the instance. AllGone may be
	// called until the transaction ends. For a binding it is nil.
	AllGone func() (bool, error)
}

// A Change is what a transaction writes. If the state differs from the one that was read, Entry.Since is the time that
// the Step was called with, and the Store writes down the Stay that has ended.
type Change struct {
	Entry Entry
	// Next is a new order to insert, or nil. If its Key is used already, nothing is written and the error is ErrUsed.
	Next *Entry
	// RemoveBindings has all bindings of an instance removed that aren't gone, withdrawn or abandoned: their Removal is
	// written, and they are due at once.
	RemoveBindings bool
	// WakeInstance has the instance of a binding due at once, if its removal is asked for.
	WakeInstance bool
	// Transaction is that of the driver that makes the change, or nil. The journal has its events.
	Transaction *osb.PlatformTransaction
}

// A Step is what a transaction does with what it has read. It returns the Change to write, or nil to write nothing. If
// it fails, nothing of the row is written. now is the Store's time: all workers of a Store have the same.
type Step func(now time.Time, snapshot Snapshot) (*Change, error)

// An Ordering is an order of rows.
type Ordering int

const (
	ByState Ordering = iota // State, Since, Key
	ByTime                  // Since, Key
	ByKey                   // Key, which never changes
)

// A Filter chooses rows. The zero Filter chooses all.
type Filter struct {
	States   []State // empty for all
	Broker   string  // empty for all
	Instance *osb.ID // only the bindings of this instance
	Bindings *bool   // only bindings, or only instances
	Prefix   string  // only rows whose number, as a GUID, begins so
	First    *osb.ID // only the tries of the order with this first id; Entry.Chain has those of a row
	Order    Ordering
	Latest   bool      // in the opposite order
	After    *Position // only rows behind this position, in the order in which they are listed
	Most     int       // as many at most; 0 for all
	// AsOf is the moment whose State and Since of each row count, for States, Order and After; empty for now. Of a row
	// that was ordered later, those count with which it was ordered. So if a list is read in pages as of one moment,
	// each behind the one before, a row of that moment is on one page, whatever changes.
	AsOf Moment
}

// A Moment is a text by which a Store separates what was committed by then from all later changes.
type Moment string

// Chain chooses all tries of the order of a row. The ids of bindings are those of one instance.
func (e Entry) Chain() Filter {
	first, isBinding := e.First, e.Key.IsBinding
	chain := Filter{First: &first, Bindings: &isBinding}
	if isBinding {
		instance := e.Key.Instance
		chain.Instance = &instance
	}
	return chain
}

// A Position is where a row stands in a list. Of a Filter's After only what its Order has counts.
type Position struct {
	State State
	Since time.Time
	Key   Key
}

// KeysOf returns the keys of rows in a list.
func KeysOf(positions []Position) []Key {
	keys := make([]Key, len(positions))
	for at := range positions {
		keys[at] = positions[at].Key
	}
	return keys
}

// A Count is how many rows there are of a kind.
type Count struct {
	Broker    string
	IsBinding bool
	State     State
	Count     int
	Oldest    time.Time // the earliest Since
}

// A Store keeps a row for each order. No row is ever deleted. Any number of goroutines use a Store, and any number of
// processes use the database. What a transaction has written outlives a power cut once the call has returned nil.
type Store interface {
	// Insert writes the row of a new order. Its broker can't be dropped meanwhile. check is called with the row of a
	// binding's instance, locked (Snapshot.Instance), and otherwise nothing in Snapshot counts; if it fails, nothing is
	// written.
	//
	// Errors: ErrUsed if the key has a row, which stays as it was; ErrUnknown if there is no broker of this name, or
	// the instance of a binding has no row.
	Insert(ctx context.Context, entry Entry, check func(Snapshot) error) error

	// Claim is one transaction over at most so many rows that are due, that nobody has leased, and whose broker is one
	// of these, the longest due first. Rows that another transaction has locked are passed over. It calls step for
	// each, and writes what step returns. A row whose step fails, or that can't be read, stays as it was, but is due
	// FailedRest later, and claimed has its error.
	Claim(ctx context.Context, brokers []string, most int, step Step) (claimed []ClaimedRow, err error)

	// Change is one transaction over the row of a key. It may call step more than once; the last call counts.
	//
	// Errors: ErrUnknown; that the row, or that of a binding's instance, can't be read; those of step.
	Change(ctx context.Context, key Key, step Step) error

	// Free ends all leases of a worker that doesn't run: their rows are due at once. The caller is the Only worker of
	// that name.
	Free(ctx context.Context, worker string) error

	// Only returns a function that ends the right to be the worker of this name, or nil if another process has it. lost
	// is closed if the right is lost before.
	Only(ctx context.Context, worker string) (end func(), lost <-chan struct{}, err error)

	// HasWorkers reports whether a process has the right to be a worker, of any name.
	HasWorkers(ctx context.Context) (bool, error)

	// Read returns the row of a key, also one that can't be read (Entry.Unreadable). Errors: ErrUnknown.
	Read(ctx context.Context, key Key) (Entry, error)

	// ReadAll returns the rows of these keys, in their order, all as of one moment, also those that can't be read. It
	// leaves out a key without a row, what the orders were sent with (Order.Body), and credentials. A body may have
	// 256 KiB.
	ReadAll(ctx context.Context, keys []Key) ([]Entry, error)

	// List returns rows as they are at one time, in the order of Filter.Order, or with Filter.Latest in the opposite
	// order. Reading locks nothing. A row that can't be read is one of them (Entry.Unreadable).
	//
	// Errors: ErrNoMoment.
	List(ctx context.Context, filter Filter) ([]Entry, error)

	// Positions returns the positions of the rows that List returns, with the State and the Since that count. Those of
	// all rows take little memory. Errors: ErrNoMoment.
	Positions(ctx context.Context, filter Filter) ([]Position, error)

	// Moment returns the present moment, for Filter.AsOf.
	Moment(ctx context.Context) (Moment, error)

	// Life returns the stays of a row that have ended, in their order.
	Life(ctx context.Context, key Key) ([]Stay, error)

	// Counts counts the rows of each broker, kind and state. They come in any order.
	Counts(ctx context.Context) ([]Count, error)

	// InFlight returns the rows that are leased, those of the earliest Lease.Until first, with those that can't be
	// read.
	InFlight(ctx context.Context, most int) ([]Entry, error)

	// NextDue returns when the next row is due that nobody has leased and whose broker is one of these, and the Store's
	// time. due is zero if none is.
	NextDue(ctx context.Context, brokers []string) (due, now time.Time, err error)

	// OldestDue returns since when the row is due that waits for longest, of all brokers, and the Store's time: since
	// Entry.DueSince, or since Entry.Due. due is later than now if nothing waits yet, and zero if all rows rest. What
	// is leased counts by Entry.DueSince, or once the lease is over.
	OldestDue(ctx context.Context) (due, now time.Time, err error)

	// Brokers returns all brokers, by name.
	Brokers(ctx context.Context) ([]Broker, error)

	// AddBroker writes a new broker. Errors: ErrUsed if the name is taken.
	AddBroker(ctx context.Context, broker Broker) error

	// ChangeBroker is one transaction over the broker of a name, which it locks. It writes what change returns, under
	// the same name, or nothing if that is nil. It may call change more than once; the last call counts.
	//
	// Errors: ErrUnknown; those of change, and then nothing is written.
	ChangeBroker(ctx context.Context, name string, change func(Broker) (*Broker, error)) error

	// DropBroker deletes a broker. Errors: ErrUnknown; ErrUsed if there is an order of it.
	DropBroker(ctx context.Context, name string) error

	// Fingerprint writes a fingerprint of the key that seals secrets, if none is written yet, and returns the one that
	// is.
	Fingerprint(ctx context.Context, fingerprint string) (string, error)

	// ReplaceFingerprint writes another fingerprint in place of the one that is written. Errors: ErrUnknown if another
	// one is written than before, or none; nothing is written then.
	ReplaceFingerprint(ctx context.Context, before, after string) error

	// Ready returns nil if a row can be read and one can be written.
	Ready(ctx context.Context) error

	// Close closes the store, once all transactions that have begun have ended.
	Close() error
}

// FailedRest is for how long Claim passes over a row whose step has failed. Such rows come first in each claim, and
// would keep all others waiting.
const FailedRest = 30 * time.Second

// A ClaimedRow is a row that Claim has stepped.
type ClaimedRow struct {
	Key Key
	Err error // of its step, or nil
}

var (
	// ErrUsed reports that a key or a name is used already. Nothing was written.
	ErrUsed = errors.New("it is used already")
	// ErrUnknown reports that there is no such row. Nothing was written.
	ErrUnknown = errors.New("it is unknown")
	// ErrNoMoment reports that a text isn't a Moment of the Store.
	ErrNoMoment = errors.New("it is no moment of the store")
	// ErrNoStore reports that a database or a file has no store. Nothing was created.
	ErrNoStore = errors.New("there is no store")
	// ErrAway reports that the database can't be reached for now. Nobody knows whether a change is written.
	ErrAway = errors.New("the store is away")
)

// A State is where an order stands: one of the following, or that of its record (docs/platform.md).
type State string

const (
	Ordered   State = "ordered"   // written down, and never sent yet
	Withdrawn State = "withdrawn" // removed before it was sent: it never will be
	Abandoned State = "abandoned" // an operator has given it up: nothing is sent any more, and nobody knows what exists

	Wanted          State = "wanted"
	Polling         State = "polling"
	Ready           State = "ready"
	Cleaning        State = "cleaning"
	CleaningPolling State = "cleaning-polling"
	Gone            State = "gone"
	Unsettled       State = "unsettled"
)

// StateOf is the state of a record.
func StateOf(record osb.Record) State { return states[record.State()] }

var states = map[osb.State]State{
	osb.StateWanted: Wanted, osb.StatePolling: Polling, osb.StateReady: Ready, osb.StateCleaning: Cleaning,
	osb.StateCleaningPolling: CleaningPolling, osb.StateGone: Gone, osb.StateUnsettled: Unsettled,
}

// Names are the ids as they are sent: texts of 1 to 255 bytes of UTF-8. Binding is empty for an instance.
type Names struct {
	Instance string `json:"instance"`
	Binding  string `json:"binding,omitempty"`
	Service  string `json:"service"`
	Plan     string `json:"plan"`
}

// An Order is what somebody asked for. It never changes.
type Order struct {
	Key           Key
	Broker        string // the name of the broker, whose records never go to another one
	Names         Names
	Service, Plan osb.ID
	IsOwnID       bool // whether the id was made up here, so that nobody else can have it

	Organization string // organization_guid of a Provision, not empty
	Space        string // space_guid of a Provision, not empty

	Body     json.RawMessage // an object with further members of the body, such as parameters and context
	Identity string          // the value of X-Broker-API-Originating-Identity, or empty

	Try   int    // 1 for the first, 2 for the next that is ordered after a passing reason, and so on
	Tries int    // as many are ordered at most, 1 or more
	First osb.ID // the id of the first try
}

// A Removal is what an operator has asked for.
type Removal int

const (
	NotRemoved   Removal = iota
	Removed              // the instance or the binding is to be deleted
	RemovedWhole         // the instance is to be deleted, and all of its bindings first
)

// A Lease is the right of a worker to step a row until a time. The zero Lease is nobody's.
type Lease struct {
	Worker string
	Until  time.Time
}

// A Reason is what the broker, or the way to it, said last. The zero Reason says nothing.
type Reason struct {
	At          time.Time `json:"at"`
	Kind        string    `json:"kind"`                  // provision, poll, deprovision, bind, unbind, fetch
	Status      int       `json:"status,omitempty"`      // of the answer, or 0 if none arrived
	Error       string    `json:"error,omitempty"`       // the code in the answer
	Description string    `json:"description,omitempty"` // the answer's, for a person
	Lost        string    `json:"lost,omitempty"`        // why no answer was taken, or what is wrong with it, or empty
}

// An Entry is a row: the order, and what has become of it.
type Entry struct {
	Order
	// Record decides, if IsSent. Its attempt is the number of the request in flight.
	Record osb.Record
	IsSent bool // whether a first request was recorded

	State State
	Since time.Time // when it changed to that state

	Operation   *string   // the broker's name for the operation that is polled, or nil
	SentUntil   time.Time // when the last of the Provision or the Bind has left at the latest; zero before it is sent
	PolledSince time.Time // when the polling that goes on, or the latest, began; zero before

	Removal Removal
	// HasLast says that one deletion more is to be sent though the record is gone: at a broker without tombstones.
	HasLast bool

	Due time.Time // when the next step is due; zero if the row rests
	// DueSince is since when the row is due though its requests were sent: the broker hasn't taken them up. It is zero
	// if Due says so.
	DueSince  time.Time
	Unchanged int // how many requests in turn have changed nothing
	Lease     Lease
	// Number is that of the driver whose request was the latest (osb.PlatformDriver), that of the latest last deletion,
	// or one that neither has, since an operator has retried or abandoned the row. It is zero before, and if version 0.2
	// has written the row last.
	Number osb.ID

	Last    Reason // what was said last
	Failure Reason // why the creation has failed, from the request that made it so
	Passing bool   // whether Failure may pass: the order may be tried again under another id
	// After is how long the broker of a passing Failure asked to wait.
	After time.Duration

	Dashboard   string          // dashboard_url of the Provision's answer, or empty
	Metadata    json.RawMessage // metadata of the answer, or nil
	Credentials []byte          // of a binding that is ready: its object, sealed; else nil
	Because     string          // why it was abandoned

	// Unreadable is why the row can't be read, or empty. Key, State and Since are as they are stored, and the rest is
	// as far as it could be read. No step gets such a row.
	Unreadable string
}

// OrderColumns are the columns of an Order, which never change, and StateColumns those of what has become of it. A
// Store has columns of its own for Key, Names and First.
var (
	OrderColumns = Columns[Entry]{
		column("broker", func(e *Entry) *string { return &e.Broker }).notNull(),
		textColumn("service", func(e *Entry) *osb.ID { return &e.Service }),
		textColumn("plan", func(e *Entry) *osb.ID { return &e.Plan }),
		column("own_id", func(e *Entry) *bool { return &e.IsOwnID }),
		column("organization", func(e *Entry) *string { return &e.Organization }).notNull(),
		column("space", func(e *Entry) *string { return &e.Space }).notNull(),
		textColumn("further", func(e *Entry) *jsonText { return (*jsonText)(&e.Body) }).notNull().long(),
		column("identity", func(e *Entry) *string { return &e.Identity }),
		column("try_number", func(e *Entry) *int { return &e.Try }),
		column("most_tries", func(e *Entry) *int { return &e.Tries }),
	}
	StateColumns = Columns[Entry]{
		column("state", func(e *Entry) *string { return (*string)(&e.State) }).notNull(),
		column("since", func(e *Entry) *time.Time { return &e.Since }),
		textColumn("record", func(e *Entry) *recordText { return (*recordText)(e) }),
		textColumn("operation", func(e *Entry) *operationText { return (*operationText)(e) }),
		column("sent_until", func(e *Entry) *time.Time { return &e.SentUntil }),
		column("polled_since", func(e *Entry) *time.Time { return &e.PolledSince }),
		column("removal", func(e *Entry) *int { return (*int)(&e.Removal) }),
		column("has_last", func(e *Entry) *bool { return &e.HasLast }),
		column("due", func(e *Entry) *time.Time { return &e.Due }),
		column("tries", func(e *Entry) *int { return &e.Unchanged }),
		column("worker", func(e *Entry) *string { return &e.Lease.Worker }),
		column("leased_until", func(e *Entry) *time.Time { return &e.Lease.Until }),
		textColumn("last", func(e *Entry) *lastText { return (*lastText)(e) }), // behind worker
		textColumn("failure", func(e *Entry) *reasonText { return (*reasonText)(&e.Failure) }),
		column("passing", func(e *Entry) *bool { return &e.Passing }),
		column("after", func(e *Entry) *time.Duration { return &e.After }),
		column("dashboard", func(e *Entry) *string { return &e.Dashboard }),
		textColumn("metadata", func(e *Entry) *jsonText { return (*jsonText)(&e.Metadata) }),
		column("credentials", func(e *Entry) *[]byte { return &e.Credentials }).ofBinding().long(),
		column("because", func(e *Entry) *string { return &e.Because }),
	}
)

// Rests reports whether nothing is to be done for a row until somebody asks.
func (e Entry) Rests() bool { return e.Due.IsZero() }

// isOver reports whether nothing is sent for the row any more.
func (e Entry) isOver() bool {
	return e.State == Withdrawn || e.State == Abandoned || e.State == Gone && !e.HasLast
}

// A Stay is a state that a row was in, and since when.
type Stay struct {
	State State
	Since time.Time
}

// Before returns the stays before the one that e is in, of those that have ended by now (Store.Life). Since e was read,
// the row may have changed to further states.
func (e Entry) Before(ended []Stay) []Stay {
	for at, stay := range ended {
		if stay.State == e.State && stay.Since.Equal(e.Since) {
			return ended[:at]
		}
	}
	return ended
}

// A Key names a row: that of an instance, or that of a binding of an instance (docs/binding.md). A Store has rows of
// many brokers, and uses each Key once.
type Key = osb.Key

// ParseKey reads a key as an operator writes it: the id of an instance, or that of an instance, a slash, and that of a
// binding. Each id is any text of 1 to 255 bytes of UTF-8 without a slash.
//
// Errors: a Rejection.
func ParseKey(text string) (Key, error) {
	first, second, isBinding := strings.Cut(text, "/")
	instance, err := osb.IDOfText(first)
	if err != nil {
		return Key{}, noID(first)
	}
	if !isBinding {
		return osb.InstanceKey(instance), nil
	}
	binding, err := osb.IDOfText(second)
	if err != nil {
		return Key{}, noID(second)
	}
	return osb.BindingKey(instance, binding), nil
}

// noID is the Rejection of a text that no id can be.
func noID(text string) error {
	return reject(Invalid, "the id %q can't be used: an id has 1 to 255 bytes of UTF-8", text)
}

// Walk calls with all rows that a filter chooses, in its order, and with so many at once at most. Which rows these are,
// and their order, is as of one moment. Each row is as it is when it is read, and is left out if it has left
// Filter.States by then. So a row that fits the filter all the while is passed once, whatever changes. While call runs,
// nothing is open in the store: call may take its time.
//
// Errors: those of the Store; that of call, which ends the walk.
func Walk(ctx context.Context, store Store, filter Filter, atOnce int, call func([]Entry) error) error {
	positions, err := store.Positions(ctx, filter)
	for len(positions) > 0 && err == nil {
		count := atOnce
		if count > len(positions) {
			count = len(positions)
		}
		err = walkOver(ctx, store, filter, positions[:count], call)
		positions = positions[count:]
	}
	return err
}

// walkOver calls with the rows at these positions that the filter still chooses.
func walkOver(ctx context.Context, store Store, filter Filter, positions []Position, call func([]Entry) error) error {
	rows, err := store.ReadAll(ctx, KeysOf(positions))
	if err != nil {
		return err
	}
	kept := rows[:0]
	for _, row := range rows {
		if filter.hasState(row.State) {
			kept = append(kept, row)
		}
	}
	return call(kept)
}

// hasState reports whether a filter chooses rows in a state.
func (f Filter) hasState(state State) bool {
	for _, wanted := range f.States {
		if wanted == state {
			return true
		}
	}
	return len(f.States) == 0
}
