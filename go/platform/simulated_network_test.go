//go:build crashpoints

package platform

import (
	"context"
	"errors"
	"fmt"
	"strings"
	"time"

	"pippinterm/osb"
)

// What follows is what each step of a simulation is compared with. What a record becomes is decided by the proved
// library (osb.Record), called for one event of the network at a time. No driver is asked.
//
//   - Each commit that changes a record is a few events of the network: an answer that this worker has got to the request
//     that is in flight; or a request is given up whose lease is over, or whose row an operator abandons, then the record
//     is cleaned up, and then a request gets in flight, with a number that no row has had.
//   - What is gone, withdrawn or abandoned stays so, and a removal is never forgotten.
//   - A request is sent while its row has its number, within its lease, and once for each number, unless an operator has
//     abandoned the row, or its last deletion, since it was claimed. Its time isn't over.
//   - A creation is sent before the time that is recorded, that of a binding while its instance is ready, and a deletion
//     once the hold is over.
//   - At any time, what is recorded ready, gone or not sent is so at the broker, and the credentials of what is ready are
//     those that work (contradicts).
//   - Without a fault no step and no answer fails.
//   - In the end, all rows rest, and nothing is held of which no row says so. After one removal nothing exists, whatever
//     arrives late.

// judgeSending is called when a request is sent.
func (r *runner) judgeSending(out Outgoing) {
	e, number, now := r.store.rows[out.Entry.Key], out.Entry.Number, r.now()
	kind, isFetch, isLast := out.Request.Kind, out.IsFetch, out.Entry.State == Gone
	isAbandoned := e.Because != "" && number == r.abandoned[e.Key]
	instance := r.store.rows[osb.InstanceKey(e.Key.Instance)]
	switch {
	case !isAbandoned && e.Number != number:
		r.Fail("%d sends a %v, and its row has the number of another", r.Number, kind)
	case !isAbandoned && !isLast && (!e.IsSent || e.Record.InFlight() != kind):
		r.Fail("%d sends a %v, and the record has %v in flight", r.Number, kind, e.Record.InFlight())
	case !isAbandoned && (e.Lease.Worker != r.worker() || !now.Before(e.Lease.Until)):
		r.Fail("%d sends a %v without the lease of its row", r.Number, kind)
	case !isFetch && r.sent[number]:
		r.Fail("%d sends a second request of one number", r.Number)
	case kind == osb.KindProvision && now.After(e.SentUntil):
		r.Fail("%d sends a creation after the time that is recorded", r.Number)
	case kind == osb.KindProvision && e.Key.IsBinding && instance.State != Ready && !isAbandoned:
		r.Fail("%d sends a Bind, and its instance is %s", r.Number, instance.State)
	case kind == osb.KindPoll && !isFetch && now.Sub(e.PolledSince) >= longestPoll+time.Minute:
		r.Fail("%d sends a Poll of what was polled for too long", r.Number)
	case kind == osb.KindDeprovision && r.scenario.hold > 0 && now.Before(e.SentUntil.Add(r.scenario.hold)):
		r.Fail("%d sends a deletion before the hold is over", r.Number)
	}
	r.sent[number] = r.sent[number] || !isFetch
}

// judgeCommit is called after a row was committed.
func (s *simulation) judgeCommit(of *runner, before, after Entry) {
	owner, isUsed := s.numbers[after.Number]
	isNew := after.Record.Attempt() > before.Record.Attempt()
	isFinal := before.State == Gone || before.State == Withdrawn || before.State == Abandoned
	isIdle := after.IsSent && after.Record.InFlight() == osb.KindNone && after.State != Gone
	isEvent := after.IsSent && after.Record != before.Record
	var events []recorded
	if isEvent {
		events = s.eventsOf(of, before, after)
	}
	if before.Because == "" && after.Because != "" {
		s.abandoned[after.Key] = before.Number
	}
	switch {
	case after.Number != before.Number && isUsed:
		s.Fail("%d writes the number of %s", of.Number, owner)
	case isNew && after.Number == before.Number:
		s.Fail("%d has a request in flight, and doesn't write a number", of.Number)
	case isNew && after.Lease.Worker != of.worker():
		s.Fail("%d has a request in flight, and no lease", of.Number)
	case before.Because != "" && after.Lease.Worker != "":
		s.Fail("%d claims what is abandoned", of.Number)
	case isFinal && after.State != before.State:
		s.Fail("%d writes %s over %s", of.Number, after.State, before.State)
	case after.State == Gone && !isFinal && s.scenario.hold > 0 && !after.HasLast:
		s.Fail("%d leaves out the last deletion", of.Number)
	case after.Removal < before.Removal:
		s.Fail("%d forgets a removal", of.Number)
	case isIdle && s.now().Before(after.Lease.Until):
		s.Fail("%d has nothing in flight, and keeps its lease", of.Number)
	case isEvent && events == nil:
		s.Fail("%d writes %v over %v, which is no event", of.Number, after.Record, before.Record)
	case after.IsSent && after.State != Abandoned && after.State != StateOf(after.Record):
		s.Fail("%d writes the state %s beside %v", of.Number, after.State, after.Record)
	case !isUsed:
		s.numbers[after.Number] = fmt.Sprintf("%d.%d", of.Number, len(s.numbers))
	}
	s.walk.recorded(after, events)
}

// A recorded is an event of the network at the platform, by its words, and the record after it.
type recorded struct {
	event  string
	record osb.Record
}

// eventsOf are the events of the network that lead from one record to another one, or none.
func (s *simulation) eventsOf(of *runner, before, after Entry) (events []recorded) {
	if !before.IsSent {
		if s.created(after) != after.Record {
			return nil
		}
		return []recorded{{"create", after.Record}}
	}
	record := before.Record
	if record.InFlight() != osb.KindNone {
		it, isHeard := of.heard[before.Number]
		if taken, event, err := s.taken(before, it); isHeard && err == nil && taken == after.Record {
			return []recorded{{event, taken}}
		}
		isLeased := s.now().Before(before.Lease.Until) && after.State != Abandoned
		if isLeased && (isHeard || before.Lease.Worker != of.worker()) {
			return nil
		}
		record, _ = record.Timeout(record.Attempt())
		events = append(events, recorded{"timeout", record})
	}
	for _, clean := range []struct {
		event  string
		record func(osb.Record) (osb.Record, error)
	}{
		{"", func(r osb.Record) (osb.Record, error) { return r, nil }},
		{"expire", osb.Record.Expire},
		{"retry", osb.Record.Retry},
		{"remove", func(r osb.Record) (osb.Record, error) {
			return r.RemoveIf(before.Key.IsBinding || s.allGone(before.Key))
		}},
	} {
		cleaned, err := clean.record(record)
		if err != nil {
			continue
		}
		found := events[:len(events):len(events)]
		if clean.event != "" {
			found = append(found, recorded{clean.event, cleaned})
		}
		if cleaned == after.Record {
			return found
		}
		if sent, _, err := cleaned.Send(before.Key.ID()); err == nil && sent == after.Record {
			return append(found, recorded{"send", sent})
		}
	}
	return nil
}

// created is the record of what is created, or that of nothing.
func (s *simulation) created(e Entry) osb.Record {
	if e.Key.IsBinding {
		record, _, _ := s.store.rows[osb.InstanceKey(e.Key.Instance)].Record.CreateBinding(e.Key.ID(), true)
		return record
	}
	record, _ := osb.Create(e.Key.ID(), e.Service, e.Plan, true)
	return record
}

// taken is the record once it is written what a worker has heard, and the event of that.
func (s *simulation) taken(before Entry, it hearing) (taken osb.Record, event string, err error) {
	record := before.Record
	isEnd := record.State() == osb.StatePolling && record.InFlight() == osb.KindPoll && it.answer.Status == 200
	hasObject := isEnd && it.answer.Body == osb.BodySucceeded
	switch event = it.event; {
	case !it.hasAnswer || before.Key.IsBinding && hasObject && !it.isFetched:
		event = "timeout"
		taken, err = record.Timeout(record.Attempt())
	case !before.Key.IsBinding:
		taken, err = record.Answer(record.Attempt(), it.answer)
	default:
		if hasObject {
			event = strings.Replace(event, "take", "take-fetched", 1) + fmt.Sprint(" ", it.fetched)
		}
		taken, err = record.AnswerBinding(record.Attempt(), it.answer, true)
	}
	return taken, event, err
}

// allGone reports whether no binding of an instance may exist.
func (s *simulation) allGone(instance Key) bool {
	for key, e := range s.store.rows {
		isOf := key.IsBinding && key.Instance == instance.Instance
		if isOf && e.IsSent && e.State != Gone && e.State != Abandoned {
			return false
		}
	}
	return true
}

// judgeState compares what is recorded with what is held and what exists.
func (s *simulation) judgeState() {
	if wrong := s.seller.contradicts(s.store.rows); wrong != "" {
		s.Fail("%s", wrong)
	}
}

// judgeEnd is called when a task has ended.
func (r *runner) judgeEnd(err error) {
	var rejected *Rejection
	if err != nil && r.Used == 0 && !errors.As(err, &rejected) {
		r.Fail("%d fails though nothing else did: %v", r.Number, err)
	}
}

// A simulatedObserver finds what no worker reports, and changes that aren't written.
type simulatedObserver struct {
	Silent
	of *runner
}

func (o simulatedObserver) OnFailure(it Failure) {
	if it.Event == "step_failed" || o.of.Used == 0 && it.Event != "lease_lost" {
		o.of.Fail("%d reports %s: %v", o.of.Number, it.Event, it.Err)
	}
}

func (o simulatedObserver) OnChange(key Key, _, after State) {
	if len(o.of.Doubts) == 0 && !o.of.had[key][after] {
		o.of.Fail("%d reports that a row is %s, and it never was", o.of.Number, after)
	}
}

func (o simulatedObserver) OnOrphan(key Key, status int, isFound bool) {
	o.of.Fail("%d reports an orphan by %d, %v", o.of.Number, status, isFound)
}

// Finish has workers go on until all rests, and removes everything then.
func (s *simulation) Finish() {
	s.forget()
	s.settle()
	if wrong := s.seller.unrecorded(s.store.rows); wrong != "" {
		s.Fail("in the end %s", wrong)
	}
	for _, key := range keysOf(s.store.rows) {
		_, err := NewOrders(s.store, seal{}).Remove(context.Background(), key, true)
		if err != nil && s.store.rows[key].State != Abandoned {
			s.Fail("the removal of %v fails: %v", key, err)
		}
	}
	s.settle()
	for len(s.network) > 0 {
		s.arrive(0)
	}
	s.work("")
	for key, e := range s.store.rows {
		if e.State != Gone && e.State != Withdrawn && e.State != Abandoned || !s.seller.isNone(key) {
			s.Fail("after its removal %v is recorded %s, and there is %s", key, e.State, s.seller.is(key))
		}
	}
}

// forget has an operator remove at the broker what is abandoned.
func (s *simulation) forget() {
	for key, e := range s.store.rows {
		if e.State == Abandoned {
			delete(s.seller.holdings, key)
			delete(s.seller.requests, key)
			s.seller.change(key, false)
		}
	}
	left := s.network[:0:0]
	for _, out := range s.network {
		if s.store.rows[out.Entry.Key].State != Abandoned {
			left = append(left, out)
		}
	}
	s.network = left
}

// mostRounds is more than any rows need until they rest.
const mostRounds = 60

// settle has workers and the broker go on until nothing is due.
func (s *simulation) settle() {
	for round := 0; s.Wrong == ""; round++ {
		due := firstDue(s.store.rows)
		switch {
		case due.IsZero():
			return
		case round == mostRounds:
			s.Fail("rows never rest: %v", s.rowsWords(s.store.rows))
		}
		if wait := due.Sub(s.now()); wait > 0 {
			s.passed += wait
		}
		s.RunUntil(s.start("step").Runner, "")
		s.work("")
	}
}
