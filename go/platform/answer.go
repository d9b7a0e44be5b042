package platform

import (
	"encoding/json"
	"net/http"
	"strings"
	"time"
	"unicode/utf8"

	"pippinterm/osb"
)

// The greatest lengths of what is kept of a broker's words, in bytes (this project's choice). An operation has at most
// 10,000 characters (docs/wire.md).
const (
	longestText     = 1000 // of an error, a description, and a reason; the front is kept
	longestURL      = 10_000
	longestMetadata = 64 << 10
)

// An exchangeResult is the result of an exchange: of a Poll that a Fetch followed, the answer to the Poll and the
// object of the Fetch.
type exchangeResult struct {
	Incoming
	kind   string // of the request whose reason counts
	sealed []byte // the object of a binding, sealed, or nil
	// isUnsealed says that there is such an object, and it can't be sealed. Another binding would end the same.
	isUnsealed bool
}

// takeAnswer is what is written once a request was answered, or wasn't. It is nil if nothing is to be written, because
// that was done before, another worker or an operator has given the request up, or the request wasn't recorded.
func (s *sending) takeAnswer(now time.Time, snapshot Snapshot) (*Change, error) {
	e, t := snapshot.Entry, s.terms
	transaction, err := s.driver.Read(e.reading(t))
	if err != nil {
		return nil, err
	}
	s.transaction, s.driver = transaction, transaction.Unsure() // until the commit has returned
	if !transaction.Writes() {
		return nil, nil
	}
	read, result := e.State, s.result
	record, _ := transaction.Row()
	e.enter(now, record)
	e.Lease = Lease{}
	e.keep(result, s)
	e.Last = reasonOf(now, result)
	if isFailedCreation(read, e.State) {
		e.Failure, e.Passing, e.After = e.Last, result.isPassing(), atMostAnHour(result.RetryAfter)
	}
	e.schedule(now, s, result.RetryAfter)
	e.putOff(s, result.Incoming)
	change := &Change{Entry: e, Transaction: &transaction, WakeInstance: e.Key.IsBinding && e.State == Gone}
	if e.State == Gone {
		change.Next, err = nextTry(now, e, snapshot.Instance, t)
	}
	return change, err
}

// note notes what a transaction does with the row. If an answer is to be written again, nothing is left to write, and the
// row still has the number of its request, that was done before.
func (s *sending) note(now time.Time, snapshot Snapshot, change *Change) {
	s.read = now
	switch {
	case change != nil:
		s.entry = &change.Entry
	case snapshot.Number != s.number:
		s.entry = nil
	}
}

// keep keeps what an answer says besides.
func (e *Entry) keep(result exchangeResult, s *sending) {
	if e.Key.IsBinding && e.State == Ready {
		e.Credentials = result.sealed
	}
	if result.Lost != nil {
		return
	}
	if isPolled(e.State) && s.out.Request.Kind != osb.KindPoll {
		e.Operation = storable(result.Operation)
	}
	if s.out.Request.Kind == osb.KindProvision {
		if url := storable(result.Details.DashboardURL); url != nil && len(*url) <= longestURL {
			e.Dashboard = *url
		}
	}
	if result.Metadata != nil && len(result.Metadata) <= longestMetadata {
		e.Metadata = append(json.RawMessage(nil), result.Metadata...)
	}
}

// storable is a text that counts as it is or not at all, or nil if it has a NUL: not every database can keep that.
func storable(text *string) *string {
	if text == nil || strings.Contains(*text, "\x00") {
		return nil
	}
	return text
}

// isFailedCreation reports whether a creation has failed by what was answered.
func isFailedCreation(before, after State) bool {
	return (before == Wanted || before == Polling) && (after == Cleaning || after == Gone || after == Unsettled)
}

// schedule is when the next step is due after an exchange, and whether one deletion more follows.
func (e *Entry) schedule(now time.Time, s *sending, named time.Duration) {
	t := s.terms
	if e.Unchanged++; hasProgressed(s.before, e.State) {
		e.Unchanged = 0
	}
	switch e.State {
	case Gone:
		e.Due, e.Unchanged = time.Time{}, 0
		if e.HasLast = t.hold > 0 && !e.SentUntil.IsZero(); e.HasLast {
			e.Due = e.lastDue(t)
		}
		return
	case Ready, Unsettled:
		if e.Due = (time.Time{}); e.isToBeRemoved(t) {
			e.Due = now
		}
		return
	}
	unchanged := e.Unchanged
	if isPolled(e.State) && s.out.Request.Kind != osb.KindPoll { // the first Poll is soon
		unchanged = 0
	}
	e.Due = later(now.Add(t.pace.wait(unchanged, named)), e.heldUntil(t))
	if e.isToBeRemoved(t) {
		e.Due = now
	}
	if isPolled(e.State) {
		e.Due = earlier(e.Due, later(e.PolledSince.Add(t.longestPoll), now))
	}
}

// putOff notes since when a row is due whose request the broker hasn't taken up. A row that waits for the hold isn't
// due.
func (e *Entry) putOff(s *sending, in Incoming) {
	e.DueSince = time.Time{}
	if !in.isTakenUp() && !e.Rests() && !e.Due.Equal(e.heldUntil(s.terms)) {
		e.DueSince = s.since
	}
}

// isTakenUp reports whether a broker has taken a request up: an answer is taken, and it is no error of the broker or of
// what stands before it, and no refusal of the user.
func (in Incoming) isTakenUp() bool {
	return in.Lost == nil && !isRefusal(in.Status) && in.Status < http.StatusInternalServerError
}

// nextTry is the order under another id that follows one that has ended for a passing reason, or nil. A binding is
// ordered again only if one could be ordered now: instance is the row of its instance, locked in the same transaction.
func nextTry(now time.Time, e Entry, instance *Entry, t terms) (*Entry, error) {
	switch {
	case !e.Passing || e.Removal != NotRemoved || e.Try >= e.Tries:
		return nil, nil
	case e.Key.IsBinding && (instance == nil || checkReady(*instance) != nil):
		return nil, nil
	}
	id, err := t.newID()
	if err != nil {
		return nil, err
	}
	next := Entry{Order: e.Order, State: Ordered, Since: now}
	if e.Key.IsBinding {
		next.Key, next.Names.Binding = osb.BindingKey(e.Key.Instance, id), id.String()
	} else {
		next.Key, next.Names.Instance = osb.InstanceKey(id), id.String()
	}
	next.IsOwnID = true
	next.Try++
	next.Due = later(now.Add(t.pace.wait(e.Try-1, 0)), e.Failure.At.Add(t.pace.wait(0, e.After)))
	return &next, nil
}

// ofGateways are the statuses that gateways, proxies and servers give of themselves (docs/wire.md). After the wrong
// password or too many requests, the broker may still have what is asked for.
var ofGateways = map[int]bool{
	http.StatusUnauthorized: true, http.StatusForbidden: true, http.StatusNotFound: true,
	http.StatusMethodNotAllowed: true, http.StatusProxyAuthRequired: true, http.StatusRequestTimeout: true,
	http.StatusPreconditionFailed: true, http.StatusRequestEntityTooLarge: true, http.StatusRequestURITooLong: true,
	http.StatusUnsupportedMediaType: true, http.StatusTooManyRequests: true,
	http.StatusRequestHeaderFieldsTooLarge: true,
}

// isPassing reports whether a creation that has failed so may succeed later: no answer arrived, or none that is surely
// the broker's, or it was an error of the broker, or too much was asked of it.
func (h exchangeResult) isPassing() bool {
	status := int(h.Answer.Status)
	switch {
	case h.isUnsealed:
		return false
	case h.Lost != nil, ofGateways[status]:
		return true
	case status == http.StatusUnprocessableEntity:
		return h.Answer.Body == osb.BodyConcurrencyError
	}
	return status >= 500 && status < 600
}

// ---- the last deletion of a row that is gone

// An aftermath is what the answer to a last deletion shows.
type aftermath int

const (
	nothingLeft   aftermath = iota // or nothing that is known
	orphanFound                    // the broker held what was recorded as gone
	orphanUnknown                  // the broker, or a gateway, has rejected the deletion
)

// judgeLast judges the answer to a last deletion. isOver says that none follows. The record stays gone in any case.
func judgeLast(in Incoming) (shown aftermath, isOver bool) {
	if in.Lost != nil {
		return nothingLeft, false
	}
	status := int(in.Answer.Status)
	state := osb.DecideDeprovision(in.Answer)
	switch {
	case status == http.StatusGone:
		return nothingLeft, true
	case state == osb.StateGone:
		return orphanFound, true
	case state == osb.StateCleaningPolling:
		return orphanFound, false
	case status >= 400 && status < 500 && status != http.StatusUnprocessableEntity:
		return orphanUnknown, !ofGateways[status]
	}
	return nothingLeft, false
}

// takeLastAnswer is what is written after a last deletion, or nil if another worker has leased the row since.
func (s *sending) takeLastAnswer(now time.Time, snapshot Snapshot) (*Change, error) {
	e, in := snapshot.Entry, s.result.Incoming
	if e.State != Gone || e.Number != s.number || e.Lease.Worker == "" {
		return nil, nil
	}
	e.Lease, e.Last = Lease{}, reasonOf(now, s.result)
	if _, isOver := judgeLast(in); isOver {
		e.HasLast, e.Due, e.DueSince, e.Unchanged = false, time.Time{}, time.Time{}, 0
		return &Change{Entry: e}, nil
	}
	e.Unchanged++
	e.Due = now.Add(s.terms.pace.wait(e.Unchanged, in.RetryAfter))
	e.putOff(s, in)
	return &Change{Entry: e}, nil
}

// ---- reasons

// reasonOf is what was said last.
func reasonOf(now time.Time, result exchangeResult) Reason {
	reason := Reason{
		At: now, Kind: result.kind, Status: result.Status,
		Error: textOf(result.Details.Error), Description: textOf(result.Details.Description),
	}
	switch {
	case result.Lost != nil:
		reason.Lost = atMost(result.Lost.Error())
	case result.Status >= 200 && result.Status <= 202 && result.Answer.Body == osb.BodyMalformed:
		reason.Lost = "its body can't be read"
	}
	return reason
}

func textOf(text *string) string {
	if text == nil {
		return ""
	}
	return atMost(*text)
}

// atMost is the front of a text that isn't longer than is kept, as whole characters.
func atMost(text string) string {
	if len(text) <= longestText {
		return text
	}
	end := longestText
	for end > 0 && !utf8.RuneStart(text[end]) {
		end--
	}
	return text[:end]
}

// brief is an error whose text isn't longer than is kept, or nil: a broker may have written a part of it, such as the
// names in its certificate. What the error wraps is still found in it.
func brief(err error) error {
	if err == nil || len(err.Error()) <= longestText {
		return err
	}
	return briefError{err}
}

type briefError struct{ whole error }

func (e briefError) Error() string { return atMost(e.whole.Error()) }

func (e briefError) Unwrap() error { return e.whole }
