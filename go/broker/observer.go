package broker

import (
	"context"
	"net/http"
	"time"

	"pippinterm/osb"
)

// An Observer gets events, for a log and for metrics. Its methods return at once, and are called by any number of
// goroutines. No password, no credentials and no body is handed to it.
type Observer interface {
	// OnExchange is called once for each request, after its answer was written.
	OnExchange(Exchange)
	// OnFailure is called if something went wrong that an operator has to know.
	OnFailure(Failure)
	// OnCallFailure is called after each call of the backend or of the Locks that fails, also if the same call is
	// repeated. The name is look, create, delete, look-update, update, look-binding, create-binding, delete-binding,
	// credentials or details, as for a command, or sync or lock. A creation or an update that the backend rejects hasn't
	// failed, nor has a lock that somebody else has.
	OnCallFailure(call string)
	// OnCommit is called after each commit of a store that writes several changes together, with their number.
	OnCommit(changes int)
	// OnEnd is called when an operation that went on after its answer has ended, well (ok) or badly. It is called
	// too when pending work of a dead worker has ended.
	OnEnd(key Key, ok bool)
}

// A ReturnObserver is an Observer that gets the ids that return (ServiceOptions.IDsReturnAfter).
type ReturnObserver interface {
	Observer
	// OnReturn is called once a creation was let in although its id has a tombstone.
	OnReturn(Return)
}

// A Return is a creation that was let in although its id has a tombstone.
type Return struct {
	RequestID string        // of the creation
	Key       Key           // of the instance or the binding
	EndedAgo  time.Duration // how long ago the old life had ended, by the clock of the store
}

// An Exchange is a request and its answer.
type Exchange struct {
	RequestID   string // the id that the platform gave the request, or one that was made up here
	Key         Key    // what the path names, if IsNamed is true
	IsNamed     bool
	Route       string // catalog, provision, update, deprovision, poll, fetch, those of bindings, or other
	Method      string // at most 20 bytes
	Target      string // path and query as they arrived, at most 1,000 bytes
	Status      int
	Reason      string // why the request was rejected or failed, or empty
	Duration    time.Duration
	User        string // the user that logged in, or empty
	Address     string // the host of the client
	Traceparent string // the headers of these names, at most 200 bytes each
	VcapRequest string
	Identity    string // the platform behind the header X-Broker-API-Originating-Identity, or empty
}

// A Failure is something that went wrong.
type Failure struct {
	Event     string // what went wrong, in snake case, such as request_failed: it doesn't change
	RequestID string // of the request that is being handled, or empty
	Key       Key    // what it is about, if IsNamed is true
	IsNamed   bool
	Err       error
	// IsRejection is true if the backend has rejected a creation (Rejection): nothing is wrong with the broker.
	IsRejection bool
}

// Silent is an Observer that does nothing.
type Silent struct{}

// OnExchange does nothing.
func (Silent) OnExchange(Exchange) {}

// OnFailure does nothing.
func (Silent) OnFailure(Failure) {}

// OnCallFailure does nothing.
func (Silent) OnCallFailure(string) {}

// OnCommit does nothing.
func (Silent) OnCommit(int) {}

// OnEnd does nothing.
func (Silent) OnEnd(Key, bool) {}

// A Journal gets each request that is carried out. What was rejected before, for example because its password is wrong,
// isn't among them. Its methods are called by any number of goroutines.
type Journal interface {
	// OnArrival is called before anything of a request is carried out. All of it is carried out with the context that
	// OnArrival returns.
	OnArrival(ctx context.Context, r *http.Request, requestID string, visit Visit) context.Context
	// OnAnswer is called with that context before the first byte of the answer leaves. header is that of the answer, to
	// which it may add.
	OnAnswer(ctx context.Context, header http.Header, response Response)
}

// transactionKey is where the context of a Change has the transaction of the driver that makes it.
type transactionKey struct{}

// A Transaction is what a transaction of a driver comes to, as an osb.Transaction and an osb.UpdateTransaction have it.
type Transaction interface {
	// Effect is the event that the transaction is, once it is committed.
	Effect() (effect osb.Effect, outcome osb.Outcome, ok bool)
	// UpdateOutcome is of osb.EffectEndUpdate how the work ended.
	UpdateOutcome() osb.UpdateOutcome
	// Allowed is of osb.EffectUpdate what the catalogue has for the Update.
	Allowed() osb.Allowed
}

// TransactionOf returns what the latest step of a Change has come to, by the context of that Change. So a Store of a
// journal knows which event the driver says that the change is. It returns nil if no driver makes the change.
func TransactionOf(ctx context.Context) Transaction {
	if it, isDriven := ctx.Value(transactionKey{}).(*transaction); isDriven {
		return it
	}
	return nil
}

type noJournal struct{}

func (noJournal) OnArrival(ctx context.Context, _ *http.Request, _ string, _ Visit) context.Context {
	return ctx
}

func (noJournal) OnAnswer(context.Context, http.Header, Response) {}
