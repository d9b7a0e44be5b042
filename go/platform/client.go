package platform

import (
	"context"
	"encoding/json"
	"errors"
	"time"

	"pippinterm/osb"
)

// An Outgoing is one request to a broker.
type Outgoing struct {
	Broker    Broker
	Entry     Entry       // whose order, names, body and operation count
	Request   osb.Request // the request that is recorded as in flight; of a binding, under the ID of the binding
	IsFetch   bool        // the Fetch of a binding in place of Request
	RequestID string      // the value of X-Broker-API-Request-Identity
	Until     time.Time   // on the clock of Clock: nothing is sent and no answer is taken afterwards
	// JournalTime is the value of the header X-Osb-Journal-Time (docs/journal.md), or empty for none.
	JournalTime string
}

// An Incoming is the result of an exchange.
type Incoming struct {
	Answer     osb.Answer      // the answer that is taken, if Lost is nil
	Details    osb.Details     // description, error code, dashboard URL and more
	Operation  *string         // the operation that the answer names, or nil
	Binding    json.RawMessage // the object of a Bind's or a Fetch's answer, or nil
	Metadata   json.RawMessage // the member metadata, or nil
	Status     int             // the HTTP status, also of an answer that isn't taken; or 0
	RetryAfter time.Duration   // how long the broker asks to wait; 0 if it doesn't say
	Duration   time.Duration
	Lost       error // why no answer is taken, so that a timeout is recorded; or nil
	// JournalTime is the value of the header X-Osb-Journal-Time of the answer, or empty.
	JournalTime string
}

// ErrUnreachable reports that there is no connection to a broker, so nothing was sent. The next request would fail,
// too.
var ErrUnreachable = errors.New("the broker can't be reached")

// A Client sends requests. Any number of goroutines use it.
type Client interface {
	// Exchange sends one request and waits for the whole answer, or until its Until. It never sends a request twice,
	// and follows no redirect. It takes no answer that Broker.CheckStore rejects. Lost is ErrUnreachable (by errors.Is)
	// if there is no connection.
	Exchange(ctx context.Context, out Outgoing) Incoming
	// Catalogue asks for the catalogue of a broker. It takes none that Broker.CheckCatalogue rejects. An error is why
	// it couldn't be fetched; status is the answer's, or 0.
	Catalogue(ctx context.Context, broker Broker) (document json.RawMessage, status int, err error)
	// Clock is the time on a clock that is never set, and that goes on while the machine is suspended.
	Clock() time.Time
}

// A Vault seals what is secret. What was sealed under a context can only be opened under it.
type Vault interface {
	Seal(plain []byte, context string) ([]byte, error)
	Open(sealed []byte, context string) ([]byte, error)
	// Fingerprint is the same for the same key, and shows nothing of it.
	Fingerprint() string
}

// An Observer gets events, for a log and for metrics. Its methods return at once, and are called by any number of
// goroutines. No password, no credentials and no body is handed to it, and no text or error of more than 1,000 bytes
// that a broker may have written.
type Observer interface {
	// OnRequest is called before a request is sent, once it is recorded as in flight.
	OnRequest(Exchange)
	// OnAnswer is called once for each OnRequest, when its answer has arrived, or none in time. It isn't written yet:
	// if it can't be, a Failure follows.
	OnAnswer(Exchange)
	// OnChange is called after a row has changed to another state, once that is written. A state that passes within a
	// step isn't reported.
	OnChange(key Key, before, after State)
	// OnFailure is called if something went wrong that an operator has to know.
	OnFailure(Failure)
	// OnOrphan is called after an answer to the last deletion of a row that is gone (docs/platform-guide.md). isFound
	// says that the broker held what was recorded as gone. If not, nobody knows whether the broker holds it.
	OnOrphan(key Key, status int, isFound bool)
	// OnCatalogue is called once a broker has answered its catalogue, so that its orders go on.
	OnCatalogue(broker string)
}

// An Exchange is a request to a broker, and its result. Before it is sent, only the first five members count.
type Exchange struct {
	RequestID string // the value of X-Broker-API-Request-Identity
	Broker    string
	Key       Key
	Kind      string // provision, poll, deprovision, bind, unbind, fetch
	Attempt   uint64 // the number of the request, or 0 of a Fetch and of the last deletion of a row that is gone

	Status      int    // of the answer, or 0 if none arrived
	Error       string // the code in the answer
	Description string // the answer's, for a person
	Lost        error  // why no answer was taken, or nil
	RetryAfter  time.Duration
	Duration    time.Duration
}

// A Failure is something that went wrong.
type Failure struct {
	// Event is what went wrong. It is one of the following, and doesn't change:
	//
	//	store_failed        a transaction, or a reading, failed; reported once for each reason until one succeeds,
	//	                    and after a transaction until one has written something
	//	step_failed         nothing could be decided about a row; it is looked at again
	//	answer_not_written  a request was sent, and its answer wasn't written: the lease runs out, and it is given up
	//	lease_lost          another worker had given up the request before its answer arrived, or an operator had
	//	                    retried or abandoned the row
	//	credentials_lost    the credentials of a binding couldn't be sealed; the binding isn't recorded ready
	//	broker_unreached    the catalogue of a broker couldn't be fetched; reported once for each reason
	//	other_store         a broker names another store than the one that is recorded: nothing is sent until that ends
	//	broker_refuses      a broker has answered 401 or 403: nothing is sent until its catalogue is answered
	Event     string
	Broker    string // its name, or empty
	Key       Key    // what it is about, if IsNamed is true
	IsNamed   bool
	RequestID string // of the request that it is about, or empty
	Err       error
}

// Silent is an Observer that does nothing.
type Silent struct{}

// OnRequest does nothing.
func (Silent) OnRequest(Exchange) {}

// OnAnswer does nothing.
func (Silent) OnAnswer(Exchange) {}

// OnChange does nothing.
func (Silent) OnChange(Key, State, State) {}

// OnFailure does nothing.
func (Silent) OnFailure(Failure) {}

// OnOrphan does nothing.
func (Silent) OnOrphan(Key, int, bool) {}

// OnCatalogue does nothing.
func (Silent) OnCatalogue(string) {}
