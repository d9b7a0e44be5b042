package platform

import (
	"errors"
	"fmt"
	"time"

	"pippinterm/osb"
)

// The terms are how a row is stepped: by the options of the worker, the settings of its broker and the catalogue.
type terms struct {
	pace
	worker   string
	exchange time.Duration // how long an exchange may last
	margin   time.Duration // how much longer the lease holds
	// hold is for how long after a creation has left no deletion is sent. It is 0 if the broker has tombstones.
	hold             time.Duration
	longestPoll      time.Duration
	removesUnsettled bool // whether what is unsettled under an id of our own making is removed
	isRetrievable    bool // whether the broker serves the Fetch of a binding
	newID            func() (osb.ID, error)
}

// A sending is a request that is recorded as in flight, or the last deletion of a row that is gone, and what has come of
// it until now.
type sending struct {
	out     Outgoing
	number  osb.ID             // that the row has got for it
	driver  osb.PlatformDriver // not of a last deletion, which is in no record
	attempt uint64             // the number of the request, or 0 of the last deletion
	before  State              // the state in which the row was read
	since   time.Time          // since when the row is due
	terms   terms
	// isBeside says that the request takes a slot beside the usual ones.
	isBeside bool

	unsure      error                   // why nobody knows whether the row was written, or nil
	result      exchangeResult          // of what was sent
	transaction osb.PlatformTransaction // the latest
	entry       *Entry                  // as the latest transaction has left the row, or nil if that wasn't the request's
	read        time.Time               // the time of the latest transaction
}

// isLast reports whether the request is the last deletion, of which nothing is in the record.
func (s *sending) isLast() bool { return s.attempt == 0 }

// A decision is what a worker does with a row that is due. The Change has the transaction of the driver that makes the
// decision, if one does.
type decision struct {
	Change
	before State
	// send is what is sent once the row is written, or nil.
	send *sending
	// err is why nothing could be decided. The row is looked at again.
	err error
}

// change is what the transaction writes.
func (d *decision) change() *Change {
	isNew := d.Entry.State != d.before
	d.WakeInstance = d.Entry.Key.IsBinding && isNew && d.Entry.State == Withdrawn
	return &d.Change
}

// needsAllGone reports whether the decision hangs on the bindings of an instance.
func needsAllGone(e Entry, t terms) bool { return !e.Key.IsBinding && e.IsSent && e.isToBeRemoved(t) }

// decide decides on a row that is due and that nobody has leased. allGone counts if needsAllGone. The decision is made
// of one reading of the row. So a worker that was paused before writes nothing that isn't right.
func decide(now time.Time, snapshot Snapshot, allGone bool, t terms) decision {
	snapshot.Lease = Lease{}
	e := snapshot.Entry
	switch {
	case e.State == Withdrawn || e.State == Abandoned:
		return restUntilAsked(e, e.State)
	case e.State == Gone:
		return decideGone(now, e, t)
	case !e.IsSent && (e.Removal != NotRemoved || e.Key.IsBinding && !mayBeReady(snapshot.Instance)):
		e.State, e.Since = Withdrawn, now
		return restUntilAsked(e, Ordered)
	}
	return decideRecord(now, snapshot, allGone, t)
}

func restUntilAsked(e Entry, before State) decision {
	e.Due, e.DueSince, e.Unchanged = time.Time{}, time.Time{}, 0
	return decision{Change: Change{Entry: e}, before: before}
}

// holdUntil is the decision of a row whose deletion isn't sent before a time.
func holdUntil(until time.Time, e Entry, before State) decision {
	e.Due, e.DueSince = until, time.Time{}
	return decision{Change: Change{Entry: e}, before: before}
}

// restStuck is the decision of a row of which nothing can be decided. It doesn't keep others waiting.
func restStuck(now time.Time, e Entry, err error, t terms) decision {
	e.Due = now.Add(t.pace.wait(e.Unchanged, t.longest))
	return decision{Change: Change{Entry: e}, before: e.State, err: err}
}

// waitForOther is the decision of a row that waits for another one.
func waitForOther(now time.Time, e Entry, before State, t terms) decision {
	e.Unchanged++
	e.Due = now.Add(t.pace.wait(e.Unchanged, 0))
	return decision{Change: Change{Entry: e}, before: before}
}

// leaseFor is the decision to send a request, for which a row has got a number. Whole milliseconds outlive every
// database.
func leaseFor(now time.Time, e Entry, before State, request osb.Request, t terms) decision {
	until, since := now.Add(t.exchange+t.margin).Truncate(time.Millisecond), e.DueSince
	if since.IsZero() {
		since = e.Due
	}
	e.Lease, e.Due = Lease{Worker: t.worker, Until: until}, until
	return decision{Change: Change{Entry: e}, before: before, send: &sending{
		out: Outgoing{Entry: e, Request: request}, number: e.Number, before: before, since: since, terms: t,
		result: exchangeResult{kind: kindOf(request.Kind, e.Key)},
	}}
}

// mayBeReady reports whether the instance of a binding is recorded ready, or may be so later.
func mayBeReady(instance *Entry) bool {
	if instance == nil || instance.Removal != NotRemoved {
		return false
	}
	switch instance.State {
	case Ordered, Wanted, Polling, Ready:
		return true
	}
	return false
}

// decideGone sends the last deletion, once it is due.
func decideGone(now time.Time, e Entry, t terms) decision {
	if !e.HasLast || t.hold == 0 {
		e.HasLast = false
		return restUntilAsked(e, Gone)
	}
	if until := e.lastDue(t); now.Before(until) {
		return holdUntil(until, e, Gone)
	}
	number, err := newID()
	if err != nil {
		return restStuck(now, e, err, t)
	}
	e.Number = number
	return leaseFor(now, e, Gone, osb.Request{
		Kind: osb.KindDeprovision, AcceptsIncomplete: true,
		ID: e.Key.ID(), Service: e.Record.Service(), Plan: e.Record.Plan(),
	}, t)
}

var errNothingSent = errors.New("the record allows nothing that could be sent")

// decideRecord has a driver go on with a row: what a crash has left is given up, a removal or the end of a long polling
// begins, and what is due is sent, unless it is a deletion that is held.
func decideRecord(now time.Time, snapshot Snapshot, allGone bool, t terms) decision {
	read := snapshot.Entry
	transaction, err := t.claim(now, snapshot, allGone)
	if err != nil {
		return restStuck(now, read, err, t)
	}
	e, sent := read, sentBy(transaction)
	if !transaction.HasRecord() { // it is a binding whose instance isn't ready yet
		return waitForOther(now, read, read.State, t)
	}
	e.follow(now, transaction, t)
	if hasProgressed(read.State, e.State) {
		e.Unchanged = 0
	}
	until := e.heldUntil(t)
	var made decision
	switch {
	case transaction.Sends():
		if !read.IsSent {
			e.SentUntil, e.Unchanged = now.Add(t.exchange), 0
		}
		made = leaseFor(now, e, read.State, sent.Request, t)
		made.send.attempt, made.send.transaction = sent.Attempt, transaction
	case (e.State == Ready || e.State == Unsettled) && e.isToBeRemoved(t): // a binding of it may exist
		made = waitForOther(now, e, read.State, t)
	case e.State == Ready || e.State == Unsettled:
		made = restUntilAsked(e, read.State)
	case now.Before(until):
		made = holdUntil(until, e, read.State)
	default:
		return restStuck(now, read, errNothingSent, t)
	}
	made.Transaction = &transaction
	return made
}

// claim is the first transaction of a driver of a row: what is wished for is by the terms. If it would send a deletion
// before the hold is over, its reading is dropped.
func (t terms) claim(now time.Time, snapshot Snapshot, allGone bool) (osb.PlatformTransaction, error) {
	e := &snapshot.Entry
	driver, err := newDriver(e.Key)
	if err != nil {
		return osb.PlatformTransaction{}, err
	}
	reading := e.reading(t)
	reading.Create, reading.CleanUp, reading.Send, reading.AllGone = true, e.cleanUp(now, allGone, t), true, allGone
	if snapshot.Instance != nil {
		reading.Instance, reading.HasInstance = snapshot.Instance.Record, snapshot.Instance.IsSent
	}
	transaction, err := driver.Read(reading)
	if err == nil && sentBy(transaction).Request.Kind == osb.KindDeprovision && now.Before(e.holdEnd(t)) {
		reading.Send = false
		transaction, err = driver.Read(reading)
	}
	return transaction, err
}

// sentBy is the request that is in flight by a transaction.
func sentBy(transaction osb.PlatformTransaction) osb.Sent { return transaction.Committed().Sent() }

// newDriver is a driver of a row, with a number of its own.
func newDriver(key Key) (osb.PlatformDriver, error) {
	number, err := newID()
	if err != nil {
		return osb.PlatformDriver{}, err
	}
	return osb.NewPlatformDriver(number, key.IsBinding)
}

// reading is what a driver reads of a row.
func (e *Entry) reading(t terms) osb.PlatformReading {
	return osb.PlatformReading{
		Record: e.Record, HasRecord: e.IsSent, Number: e.Number,
		ID: e.Key.ID(), Service: e.Service, Plan: e.Plan,
		AcceptsIncomplete: !e.Key.IsBinding || t.isRetrievable, IsRetrievable: t.isRetrievable,
	}
}

// cleanUp is how a row is to be cleaned up, if its record allows it.
func (e *Entry) cleanUp(now time.Time, allGone bool, t terms) osb.CleanUp {
	isLate := isPolled(e.State) && !now.Before(e.PolledSince.Add(t.longestPoll))
	switch {
	case e.isToBeRemoved(t) && (e.Key.IsBinding || allGone):
		return osb.CleanUpRemove
	case isLate && e.State == Polling:
		return osb.CleanUpExpire
	case isLate:
		return osb.CleanUpRetry
	}
	return osb.CleanUpNone
}

// follow notes what a transaction makes of the record, and why.
func (e *Entry) follow(now time.Time, transaction osb.PlatformTransaction, t terms) {
	before := e.State
	if transaction.TimesOut() {
		e.Last = Reason{
			At: now, Kind: kindOf(e.Record.InFlight(), e.Key),
			Lost: "the worker that sent it ended, or was paused for too long",
		}
	}
	if !transaction.HasRecord() {
		return
	}
	record, number := transaction.Row()
	e.IsSent, e.Number = true, number
	e.enter(now, record)
	switch {
	case before == Wanted && transaction.TimesOut():
		e.Failure, e.Passing, e.After = e.Last, true, 0
	case transaction.CleansUp() == osb.CleanUpExpire:
		e.Failure, e.Passing, e.After = Reason{
			At: now, Kind: "poll", Lost: fmt.Sprintf("the operation was polled for longer than %v", t.longestPoll),
		}, false, 0
	}
}

// isToBeRemoved reports whether a removal is to begin.
func (e *Entry) isToBeRemoved(t terms) bool {
	switch e.State {
	case Polling, Ready:
		return e.Removal != NotRemoved
	case Unsettled:
		return e.Removal != NotRemoved || t.removesUnsettled && e.IsOwnID
	}
	return false
}

// enter has the row enter the state of a record. What belongs to the state before is forgotten.
func (e *Entry) enter(now time.Time, record osb.Record) {
	e.Record = record
	state := StateOf(record)
	if state != e.State {
		e.State, e.Since = state, now
		if isPolled(state) {
			e.PolledSince = now
		}
	}
	if !isPolled(state) {
		e.Operation = nil
	}
	if state != Ready {
		e.Credentials = nil
	}
}

// heldUntil is the time before which no deletion is sent, because the broker may work for the creation.
func (e *Entry) heldUntil(t terms) time.Time {
	if e.State != Cleaning {
		return time.Time{}
	}
	return e.holdEnd(t)
}

// holdEnd is when a deletion may be sent.
func (e *Entry) holdEnd(t terms) time.Time {
	if t.hold == 0 || e.SentUntil.IsZero() {
		return time.Time{}
	}
	return e.SentUntil.Add(t.hold)
}

// lastDue is when the last deletion of a row that is gone is due: once the hold has passed again.
func (e *Entry) lastDue(t terms) time.Time { return later(e.Since, e.SentUntil).Add(t.hold) }

// hasProgressed reports whether a row has made progress. A deletion may begin and fail again and again: neither is
// progress.
func hasProgressed(before, after State) bool {
	return before != after && !(isDeleting(before) && isDeleting(after))
}

func isDeleting(state State) bool { return state == Cleaning || state == CleaningPolling }

func isPolled(state State) bool { return state == Polling || state == CleaningPolling }

// kindOf is the word for a request in a Reason.
func kindOf(kind osb.Kind, of Key) string {
	switch {
	case kind == osb.KindProvision && of.IsBinding:
		return "bind"
	case kind == osb.KindDeprovision && of.IsBinding:
		return "unbind"
	}
	return kind.String()
}
