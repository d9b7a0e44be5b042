package broker

import (
	"context"
	"encoding/json"
	"errors"
	"fmt"
	"strings"
	"time"

	"pippinterm/osb"
)

// An Entry is what a Store keeps of an instance or of a binding, in one row. The zero Entry is that of a key of which
// nothing is kept.
type Entry struct {
	// Holding decides. The zero Holding holds nothing.
	Holding osb.Holding
	// Request is the text of a Request, or nil: it is kept while the Holding is held.
	Request json.RawMessage
	// Change is what is kept of the updates of an instance, or nil until the first Update is judged. It is nil of a
	// binding.
	Change *Change
	// Binding is the object of a binding with its credentials, as a Bind and a Fetch are answered, or nil: it is kept
	// from the transaction on in which the row becomes ready, and never changes (docs/binding.md).
	Binding json.RawMessage
	// Description is why the last operation failed, for the platform, or empty.
	Description string
	// Since is when the pending work, the operation or the waiting began, also of an update, or the zero Time.
	Since time.Time
	// Life is how many lives of the instance have ended before this one: 0 unless its id has returned
	// (ServiceOptions.IDsReturnAfter). Of a binding it is the Life of its instance when the entry was written.
	Life int64
	// Worker is the number of the latest worker of the key, which no other worker has, or the zero ID if there was
	// none. A worker writes it in the transaction with which its work begins, and writes the end of its work only if it
	// still stands there.
	Worker osb.ID
}

// IsUnfinished reports whether somebody has to go on: work is pending, the row is making, deleting or waiting, or an
// update is under way.
func (e Entry) IsUnfinished() bool {
	if _, isPending := e.Holding.Work(); isPending || e.Change.isUnderWay() {
		return true
	}
	row, isHeld := e.Holding.Row()
	return isHeld && (row.Phase == osb.PhaseMaking || row.Phase == osb.PhaseDeleting || row.Phase == osb.PhaseWaiting)
}

// again is the entry, to be written as it is.
func (e Entry) again() *Entry { return &e }

// A Snapshot is what a transaction reads.
type Snapshot struct {
	Entry
	// EndedAgo is how long ago the tombstone was written, by the clock of the store. It is 0 if there is no tombstone,
	// and if nobody knows.
	EndedAgo time.Duration
	// Instance is the entry of a binding's instance. For an instance it is the zero Entry.
	Instance Entry
	// AnyBinding reports whether a binding of an instance is held (osb.Holding.IsHeld). It may be called until the
	// transaction ends. For a binding it is nil.
	AnyBinding func() (bool, error)
}

// A Step is what a transaction does with what it has read: it returns the Entry to write, or nil to write nothing. If
// it fails, nothing is written.
type Step func(Snapshot) (*Entry, error)

// A Store keeps a row for each instance and each binding. No row of an instance is ever deleted. Any number of
// goroutines use a Store, and any number of processes use the database.
//
// With each entry that has a tombstone, a Store writes the time by its own clock, which is one clock for all processes.
// A tombstone that was written before there was such a time has the time at which the database was extended.
//
// If the store can't be used now, and may be back soon, the error of a method is ErrAway (Away).
type Store interface {
	// Read returns what is committed and on disk.
	Read(ctx context.Context, key Key) (Snapshot, error)

	// Change is one transaction over the row of a key. It commits what step returns, and only then returns nil: what
	// was committed outlives a power cut. It may call step more than once; the last call counts. Two things are locked
	// until the transaction ends: the row itself, and for a binding the row of its instance. So no binding begins while
	// an instance's Change runs, nor the other way round.
	Change(ctx context.Context, key Key, step Step) error

	// UnfinishedKeys returns the keys whose Entry is unfinished.
	UnfinishedKeys(ctx context.Context) ([]Key, error)

	// HeldBindings returns the bindings of an instance that are held.
	HeldBindings(ctx context.Context, instance osb.ID) ([]osb.ID, error)

	// Ready returns nil if a row can be read and one can be written.
	Ready(ctx context.Context) error

	// Stats counts what is kept.
	Stats(ctx context.Context) (Stats, error)

	// Close closes the store, once all changes that have begun have ended.
	Close() error
}

// Stats are counts of what a Store keeps.
type Stats struct {
	Pending    int       // keys with pending work
	Operating  int       // keys whose row is making or deleting
	Waiting    int       // keys that wait for their first Poll
	Tombstones int       // keys with a tombstone
	Oldest     time.Time // since when the oldest of the unfinished ones is so; the zero Time if there is none
}

// Locks let one worker at a time be at a key, among all processes. A Lock lives as long as the work that is done under
// it, also if the work outlives its process. If the Locks can't be used now, and may be back soon, the error is
// ErrAway.
type Locks interface {
	// Lock waits for the lock.
	Lock(ctx context.Context, key Key) (Lock, error)
	// TryLock returns nil if somebody else has the lock.
	TryLock(ctx context.Context, key Key) (Lock, error)
	// CanBeLost reports whether a lock may end while its worker goes on, as that of a session does if the server ends
	// it. A journal says so.
	CanBeLost() bool
}

// A Lock is held until Unlock.
type Lock interface {
	// Context returns a context for the Backend, which carries whatever holds the lock.
	Context(ctx context.Context) context.Context
	Unlock()
}

var (
	// ErrLostWork reports that another worker has the key now, since the lock was lost. Nothing was written.
	ErrLostWork = errors.New("the lock was lost, and another worker has taken the work over")
	// ErrNobodyKnows reports that nobody knows how the work went. It stays pending, and is tried again.
	ErrNobodyKnows = errors.New("nobody knows how the work went")
	// ErrAway reports that the store or the Locks can't be used now, for example because their server has stopped. They
	// may be back soon. Nobody knows whether a Change that fails with it has committed, until another Change of the key
	// has: so by then that is decided. If that fails too, the request is answered with 503, and with 500 after any other
	// error.
	ErrAway = errors.New("the store or the locks can't be used now")
)

// Away returns an error with the text of err, which is ErrAway too, by errors.Is. It returns nil if err is nil.
func Away(err error) error {
	if err == nil {
		return nil
	}
	return away{err}
}

type away struct{ error }

func (a away) Unwrap() error { return a.error }

func (away) Is(target error) bool { return target == ErrAway }

// A Key names what a Store keeps a row for: an instance, or a binding of an instance (docs/binding.md).
type Key = osb.Key

// A NamedStore is a Store that has a name of its own from its first use on.
type NamedStore interface {
	Store

	// Name returns the name, or "" before the first use.
	Name(ctx context.Context) (string, error)
	// Begin gives the store a name for good, unless it has one, and returns the name that it has. Only a name that
	// begins with UntiedBefore replaces another name, and only the name Untied.
	Begin(ctx context.Context, name string) (string, error)
	// ID returns the id of the store: a random GUID that the first call makes up, and that stays for good. So the
	// answers of a broker say of which store they are (Catalogue.OfStore).
	ID(ctx context.Context) (string, error)
	// Tie calls tie while nobody else can be in a Tie of this store. isUsed is true if a backend keeps the store's
	// name, or the store has rows. The rows of a store whose name begins with UntiedBefore don't count. If tie returns
	// nil, the store notes for good that a backend keeps its name.
	Tie(ctx context.Context, tie func(isUsed bool) error) error
}

// A TiedBackend keeps the name of the store whose resources it has, where the resources are. So no other store takes
// them for its own, and the store is never used with other resources.
type TiedBackend interface {
	// Owner returns the name that is kept, or "".
	Owner(ctx context.Context) (string, error)
	// Own keeps the name of a store for good, unless there is one, and returns the name that is kept. It fails if there
	// are resources already of which it isn't known whose they are.
	Own(ctx context.Context, store string) (string, error)
}

// A LateTiedBackend is a TiedBackend that kept no name in earlier versions. Its store may have the name Untied, and
// rows. Tie gives that store a new name, and ties it to the first backend that is used with it.
type LateTiedBackend interface {
	TiedBackend
	IsLateTied()
}

// The names of stores that don't belong to a TiedBackend from their first use on.
const (
	Untied       = "untied"  // the backend keeps no name
	UntiedBefore = "untied-" // the name begins so: it was Untied, until a LateTiedBackend is used
)

// ErrParted reports that a store and a backend don't belong together. At most a new store has been given its name.
var ErrParted = errors.New("the store and the backend don't belong together")

// Tie checks that a store and a backend belong together, and ties a new store to a new backend. If mustExist is true, a
// new store is an error.
//
// Errors: ErrParted, and those of the store and the backend.
func Tie(ctx context.Context, store NamedStore, backend Backend, mustExist bool) error {
	tied, isTied := backend.(TiedBackend)
	name, err := store.Name(ctx)
	if err != nil {
		return err
	}
	if name == "" {
		if mustExist {
			return fmt.Errorf("%w: the store is new, and --existing wants one that has been begun", ErrParted)
		}
		if name, err = store.Begin(ctx, newName(isTied)); err != nil {
			return err
		}
	}
	_, isLate := backend.(LateTiedBackend)
	if name == Untied && isLate {
		if name, err = store.Begin(ctx, UntiedBefore+newName(true)); err != nil {
			return err
		}
	}
	if (name == Untied) == isTied || strings.HasPrefix(name, UntiedBefore) && !isLate {
		return fmt.Errorf("%w: the store's instances are another backend's, one that keeps the store's name, or doesn't",
			ErrParted)
	}
	if !isTied {
		return nil
	}
	return store.Tie(ctx, func(isUsed bool) error { return tieTo(ctx, tied, name, isUsed) })
}

func newName(isTied bool) string {
	if !isTied {
		return Untied
	}
	return newNumbers().next().String()
}

func tieTo(ctx context.Context, backend TiedBackend, name string, isUsed bool) error {
	owner, err := backend.Owner(ctx)
	if err != nil {
		return err
	}
	if owner == "" {
		if isUsed {
			return fmt.Errorf("%w: the store %s has begun with other resources, or these aren't all", ErrParted, name)
		}
		if owner, err = backend.Own(ctx, name); err != nil {
			return err
		}
	}
	if owner != name {
		return fmt.Errorf("%w: the store is %s, and the resources belong to the store %s", ErrParted, name, owner)
	}
	return nil
}
