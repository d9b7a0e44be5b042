package platform

import (
	"fmt"
	"testing"
	"time"

	"pippinterm/internal/diff"
	"pippinterm/osb"
)

// The times of the tests: a row changed to its state at the start, and a creation has left a minute later at the
// latest.
var (
	start = time.Date(2026, 3, 4, 5, 6, 7, 0, time.UTC)
	left  = start.Add(time.Minute)
)

func at(seconds int) time.Time { return start.Add(time.Duration(seconds) * time.Second) }

// plain are the terms of a broker with tombstones, without chance.
func plain() terms {
	return terms{
		pace:   pace{first: 2 * time.Second, longest: 2 * time.Minute, share: func() float64 { return 0 }},
		worker: "one", exchange: time.Minute, margin: 30 * time.Second, longestPoll: time.Hour, removesUnsettled: true,
		isRetrievable: true, newID: func() (osb.ID, error) { return id("99"), nil },
	}
}

// usualTerms are the terms of a broker without tombstones.
func usualTerms() terms {
	t := plain()
	t.hold = 5 * time.Minute
	return t
}

// wait has what is unsettled wait for an operator.
func wait() terms {
	t := plain()
	t.removesUnsettled = false
	return t
}

var (
	anInstance = osb.InstanceKey(id("1"))
	aBinding   = osb.BindingKey(id("1"), id("b1"))
)

// rowIn is a row in a state, in which nothing is in flight but in Wanted.
func rowIn(key Key, state State) Entry {
	e := Entry{
		Order: Order{
			Key: key, Broker: "shelf", Service: id("a0"), Plan: id("c1"), IsOwnID: true,
			Try: 1, Tries: 3, First: key.ID(),
		},
		State: state, Since: start, Due: start,
	}
	if state == Ordered || state == Withdrawn {
		return e
	}
	e.Record, e.IsSent, e.SentUntil = recordIn(key, state), true, left
	if isPolled(state) {
		operation := "task"
		e.Operation, e.PolledSince = &operation, start
	}
	if state == Ready && key.IsBinding {
		e.Credentials = []byte("sealed")
	}
	return e
}

// recordIn is a record in a state: that of an abandoned row is cleaning.
func recordIn(key Key, state State) osb.Record {
	record, _ := osb.Create(key.Instance, id("a0"), id("c1"), true)
	if key.IsBinding {
		ready := answerRecord(record, 201)
		var err error
		record, _, err = ready.CreateBinding(key.Binding, true)
		must(err)
	}
	cleaning, err := record.Timeout(1)
	must(err)
	switch state {
	case Wanted:
		return record
	case Polling:
		return answerRecord(record, 202)
	case Ready:
		return answerRecord(record, 201)
	case Gone:
		return answerRecord(record, 400)
	case Unsettled:
		return answerRecord(record, 409)
	case CleaningPolling:
		cleaning, _, err = cleaning.Send(key.ID())
		must(err)
		return answerRecord(cleaning, 202)
	}
	return cleaning
}

func answerRecord(record osb.Record, status uint16) osb.Record {
	record, err := record.Answer(record.Attempt(), osb.Answer{Status: status, Body: osb.BodyEmpty})
	must(err)
	return record
}

// inFlight is a row whose worker has ended after it sent what was due.
func inFlight(e Entry) Entry {
	if e.State != Wanted {
		record, _, err := e.Record.Send(e.Key.ID())
		must(err)
		e.Record = record
	}
	e.Lease, e.Due = Lease{Worker: "other", Until: at(90)}, at(90)
	return e
}

// with changes a row.
func with(e Entry, change func(*Entry)) Entry {
	change(&e)
	return e
}

func remove(e *Entry) { e.Removal = Removed }

func chosenID(e *Entry) { e.IsOwnID = false }

// An expectation is what a decision comes to: the state, what is sent, and when the row is due if nothing is sent; zero if it rests.
type expectation struct {
	state State
	sends string
	due   time.Time
}

func rests(state State) expectation { return expectation{state: state} }

func sends(state State, kind string) expectation { return expectation{state: state, sends: kind} }

func dueAt(state State, seconds int) expectation { return expectation{state: state, due: at(seconds)} }

type decideRow struct {
	name    string
	now     int // in seconds after the start
	row     Entry
	allGone bool
	terms   terms
	want    expectation
}

// Each row of the table is by docs/platform-guide.md, docs/platform.md and docs/binding.md. What is sent is leased for
// 90 seconds.
var decideRows = []decideRow{
	{"an order is sent", 0, rowIn(anInstance, Ordered), true, plain(), sends(Wanted, "provision")},
	{"a removed order is withdrawn", 0, with(rowIn(anInstance, Ordered), remove), true, plain(), rests(Withdrawn)},
	{"what is withdrawn rests", 0, rowIn(anInstance, Withdrawn), true, plain(), rests(Withdrawn)},
	{"what is abandoned rests", 0, rowIn(anInstance, Abandoned), true, plain(), rests(Abandoned)},

	{"polling goes on", 9, rowIn(anInstance, Polling), true, plain(), sends(Polling, "poll")},
	{"polling ends", 3600, rowIn(anInstance, Polling), true, plain(), sends(Cleaning, "deprovision")},
	{"polling hasn't ended", 3599, rowIn(anInstance, Polling), true, plain(), sends(Polling, "poll")},
	{"polling is removed", 9, with(rowIn(anInstance, Polling), remove), true, plain(), sends(Cleaning, "deprovision")},
	{"ready rests", 9, rowIn(anInstance, Ready), true, plain(), rests(Ready)},
	{"ready is removed", 9, with(rowIn(anInstance, Ready), remove), true, plain(), sends(Cleaning, "deprovision")},
	{"ready waits for its bindings", 9, with(rowIn(anInstance, Ready), remove), false, plain(), dueAt(Ready, 9+4)},
	{"bindings don't matter else", 9, rowIn(anInstance, Ready), false, plain(), rests(Ready)},
	{"cleaning is sent again", 9, rowIn(anInstance, Cleaning), true, plain(), sends(Cleaning, "deprovision")},
	{"a deletion is polled", 9, rowIn(anInstance, CleaningPolling), true, plain(), sends(CleaningPolling, "poll")},
	{"a deletion is sent again", 3600, rowIn(anInstance, CleaningPolling), true, plain(),
		sends(Cleaning, "deprovision")},
	{"gone rests", 9, rowIn(anInstance, Gone), true, plain(), rests(Gone)},
	{"unsettled is removed", 9, rowIn(anInstance, Unsettled), true, plain(), sends(Cleaning, "deprovision")},
	{"unsettled of another's id", 9, with(rowIn(anInstance, Unsettled), chosenID), true, plain(), rests(Unsettled)},
	{"unsettled waits", 9, rowIn(anInstance, Unsettled), true, wait(), rests(Unsettled)},
	{"unsettled is removed by hand", 9, with(with(rowIn(anInstance, Unsettled), chosenID), remove), true, wait(),
		sends(Cleaning, "deprovision")},

	{"a creation in flight is given up", 91, inFlight(rowIn(anInstance, Wanted)), true, plain(),
		sends(Cleaning, "deprovision")},
	{"a Poll in flight is given up", 91, inFlight(rowIn(anInstance, Polling)), true, plain(), sends(Polling, "poll")},
	{"a deletion in flight is given up", 91, inFlight(rowIn(anInstance, Cleaning)), true, plain(),
		sends(Cleaning, "deprovision")},
	{"given up and removed", 91, with(inFlight(rowIn(anInstance, Polling)), remove), true, plain(),
		sends(Cleaning, "deprovision")},

	{"a deletion is held", 359, rowIn(anInstance, Cleaning), true, usualTerms(), dueAt(Cleaning, 360)},
	{"a deletion is held no more", 360, rowIn(anInstance, Cleaning), true, usualTerms(), sends(Cleaning, "deprovision")},
	{"a removal is held", 100, with(rowIn(anInstance, Ready), remove), true, usualTerms(), dueAt(Cleaning, 360)},
	{"what is given up is held", 91, inFlight(rowIn(anInstance, Wanted)), true, usualTerms(), dueAt(Cleaning, 360)},
	{"a Poll isn't held", 100, rowIn(anInstance, Polling), true, usualTerms(), sends(Polling, "poll")},
	{"a deletion's Poll isn't held", 100, rowIn(anInstance, CleaningPolling), true, usualTerms(),
		sends(CleaningPolling, "poll")},
	{"the last deletion waits", 359, with(rowIn(anInstance, Gone), func(e *Entry) { e.HasLast = true }), true, usualTerms(),
		dueAt(Gone, 360)},
	{"the last deletion", 360, with(rowIn(anInstance, Gone), func(e *Entry) { e.HasLast = true }), true, usualTerms(),
		sends(Gone, "deprovision")},
	{"the last deletion waits after gone", 1299, with(rowIn(anInstance, Gone), func(e *Entry) {
		e.HasLast, e.Since = true, at(1000)
	}), true, usualTerms(), dueAt(Gone, 1300)},
	{"tombstones need no last deletion", 999, with(rowIn(anInstance, Gone), func(e *Entry) { e.HasLast = true }), true,
		plain(), rests(Gone)},

	{"a Bind is sent", 0, rowIn(aBinding, Ordered), false, plain(), sends(Wanted, "bind")},
	{"a removed Bind is withdrawn", 0, with(rowIn(aBinding, Ordered), remove), false, plain(), rests(Withdrawn)},
	{"a binding that is polled", 9, rowIn(aBinding, Polling), false, plain(), sends(Polling, "poll")},
	{"a binding that is ready", 9, rowIn(aBinding, Ready), false, plain(), rests(Ready)},
	{"a binding that is removed", 9, with(rowIn(aBinding, Ready), remove), false, plain(), sends(Cleaning, "unbind")},
	{"an Unbind is held", 9, rowIn(aBinding, Cleaning), false, usualTerms(), dueAt(Cleaning, 360)},
	{"the last Unbind", 360, with(rowIn(aBinding, Gone), func(e *Entry) { e.HasLast = true }), false, usualTerms(),
		sends(Gone, "unbind")},
	{"a Bind in flight is given up", 91, inFlight(rowIn(aBinding, Wanted)), false, plain(), sends(Cleaning, "unbind")},
}

func TestDecide(t *testing.T) {
	for _, row := range decideRows {
		t.Run(row.name, func(t *testing.T) {
			read := Snapshot{Entry: row.row}
			if row.row.Key.IsBinding {
				instance := rowIn(anInstance, Ready)
				read.Instance = &instance
			}
			checkExpected(t, decide(at(row.now), read, row.allGone, row.terms), row.want, at(row.now))
		})
	}
}

func checkExpected(t *testing.T, got decision, want expectation, now time.Time) {
	t.Helper()
	check(t, got.err)
	kind := ""
	if got.send != nil {
		kind = kindOf(got.send.out.Request.Kind, got.Entry.Key)
		want.due = now.Add(90 * time.Second)
		diff.Equal(t, got.Entry.Lease, Lease{"one", want.due}, "the lease")
		diff.Equal(t, got.Entry.Number != osb.ID{} && got.Entry.Number == got.send.number, true, "the row has its number")
	} else if got.Entry.Lease != (Lease{}) {
		t.Errorf("got the lease %v, want none, as nothing is sent", got.Entry.Lease)
	}
	if got.Entry.State != want.state || kind != want.sends || !got.Entry.Due.Equal(want.due) {
		t.Errorf("got %s, sends %q, due %v; want %s, %q, %v", got.Entry.State, kind, got.Entry.Due, want.state,
			want.sends, want.due)
	}
}

// A binding is created only while its instance is recorded ready and isn't removed. If the instance never will be
// ready, the order is withdrawn.
func TestDecideBind(t *testing.T) {
	waits, withdrawn := dueAt(Ordered, 4), rests(Withdrawn)
	for state, want := range map[State]expectation{
		Ordered: waits, Wanted: waits, Polling: waits, Ready: sends(Wanted, "bind"), Withdrawn: withdrawn,
		Cleaning: withdrawn, CleaningPolling: withdrawn, Gone: withdrawn, Unsettled: withdrawn, Abandoned: withdrawn,
	} {
		for _, removal := range []Removal{NotRemoved, Removed, RemovedWhole} {
			t.Run(fmt.Sprint(state, removal), func(t *testing.T) {
				instance := rowIn(anInstance, state)
				instance.Removal = removal
				if removal != NotRemoved {
					want = withdrawn
				}
				got := decide(start, Snapshot{Entry: rowIn(aBinding, Ordered), Instance: &instance}, false, plain())
				checkExpected(t, got, want, start)
				diff.Equal(t, got.change().WakeInstance, want == withdrawn, "the instance is woken")
			})
		}
	}
	diff.Equal(t, decide(start, Snapshot{Entry: rowIn(aBinding, Ordered)}, false, plain()).Entry.State, Withdrawn,
		"without an instance")
}

// The bits of a binding that can't be fetched: no asynchronous operation is accepted.
func TestDecideAccepts(t *testing.T) {
	instance := rowIn(anInstance, Ready)
	for _, retrievable := range []bool{true, false} {
		terms := plain()
		terms.isRetrievable = retrievable
		got := decide(start, Snapshot{Entry: rowIn(aBinding, Ordered), Instance: &instance}, false, terms)
		if got.send.out.Request.AcceptsIncomplete != retrievable {
			t.Errorf("accepts an asynchronous operation: got %[2]v, want %[1]v", retrievable,
				got.send.out.Request.AcceptsIncomplete)
		}
	}
	got := decide(start, Snapshot{Entry: rowIn(anInstance, Ordered)}, true, plain())
	diff.Equal(t, got.send.out.Request.AcceptsIncomplete, true, "an instance: accepts incomplete")
}

// What a crash left of a creation is its failure, and passes.
func TestGivenUpReason(t *testing.T) {
	got := decide(at(91), Snapshot{Entry: inFlight(rowIn(anInstance, Wanted))}, true, plain()).Entry
	if !got.Passing || got.Failure.Kind != "provision" || got.Failure.Lost == "" || got.Failure != got.Last {
		t.Errorf("got %+v, want a failure of the Provision that may pass", got)
	}
	got = decide(at(91), Snapshot{Entry: inFlight(rowIn(aBinding, Cleaning))}, true, plain()).Entry
	if got.Passing || got.Failure != (Reason{}) || got.Last.Kind != "unbind" {
		t.Errorf("got %+v, want no failure, and an Unbind last", got)
	}
}

// Polling that took too long is why the creation has failed. It doesn't pass: the broker used all its time.
func TestExpiredReason(t *testing.T) {
	got := decide(at(3600), Snapshot{Entry: rowIn(anInstance, Polling)}, true, plain()).Entry
	if got.Passing || got.Failure.Kind != "poll" || got.Failure.Lost == "" || !got.Failure.At.Equal(at(3600)) {
		t.Errorf("got %+v, want a failure of the Poll at its end", got)
	}
	got = decide(at(3600), Snapshot{Entry: rowIn(anInstance, CleaningPolling)}, true, plain()).Entry
	if got.Failure != (Reason{}) || got.Operation != nil {
		t.Errorf("a deletion: got %+v, want no failure and no operation", got)
	}
}

// A row of which nothing can be decided keeps nobody waiting.
func TestStuck(t *testing.T) {
	row := rowIn(anInstance, Cleaning)
	row.Record = osb.Record{}
	got := decide(at(9), Snapshot{Entry: row}, true, plain())
	if got.err == nil || got.send != nil || !got.Entry.Due.Equal(at(9+120)) || got.Entry.State != Cleaning {
		t.Errorf("got %v, %+v, want an error, and a deletion that is due later", got.err, got.Entry)
	}
}

// What holds of every decision: of all states, in flight or not, removals, times, terms and bindings.
func TestEveryDecision(t *testing.T) {
	// The request that is due, by docs/platform.md, and none while nothing is due.
	due := map[State]string{
		Wanted: "provision", Polling: "poll", Cleaning: "deprovision", CleaningPolling: "poll", Gone: "deprovision",
	}
	count := 0
	for _, key := range []Key{anInstance, aBinding} {
		for _, state := range everyState {
			for _, row := range variants(key, state) {
				for _, terms := range []terms{plain(), usualTerms(), wait()} {
					for _, now := range []int{91, 359, 360, 3599, 3600, 90000} {
						for _, allGone := range []bool{true, false} {
							instance := rowIn(anInstance, Ready)
							read := Snapshot{Entry: row}
							if key.IsBinding {
								read.Instance = &instance
							}
							got := decide(at(now), read, allGone, terms)
							checkDecision(t, row, got, allGone, at(now), terms, due)
							count++
						}
					}
				}
			}
		}
	}
	diff.AtLeast(t, count, 3000, "")
}

var everyState = []State{
	Ordered, Withdrawn, Abandoned, Wanted, Polling, Ready, Cleaning, CleaningPolling, Gone, Unsettled,
}

// variants are the rows in a state that can be due.
func variants(key Key, state State) (rows []Entry) {
	for _, removal := range []Removal{NotRemoved, Removed, RemovedWhole} {
		for _, isOwn := range []bool{true, false} {
			for _, hasLast := range []bool{true, false} {
				e := rowIn(key, state)
				e.Removal, e.IsOwnID, e.HasLast = removal, isOwn, hasLast && state == Gone
				if state != Wanted {
					rows = append(rows, e)
				}
				if state == Wanted || state == Cleaning || isPolled(state) {
					rows = append(rows, inFlight(e))
				}
			}
		}
	}
	return rows
}

func checkDecision(
	t *testing.T, row Entry, got decision, allGone bool, now time.Time, terms terms, due map[State]string,
) {
	t.Helper()
	e := got.Entry
	fail := func(what string) {
		t.Helper()
		t.Errorf("%s: %v, %s, removal %d, own %v, in flight %v, hold %v, at %v: got %s, sends %v, due %v, want it not so",
			what, row.Key, row.State, row.Removal, row.IsOwnID, row.Record.InFlight(), terms.hold, now.Sub(start), e.State,
			got.send != nil, e.Due)
	}
	if got.err != nil {
		fail(got.err.Error())
	}
	if (got.send != nil) != (e.Lease != Lease{}) {
		fail("a lease is that of a request")
	}
	if e.State != Ready && e.Credentials != nil {
		fail("credentials are kept while it is ready alone")
	}
	isRemoved := row.Removal != NotRemoved
	if row.State == Unsettled {
		isRemoved = isRemoved || row.IsOwnID && terms.removesUnsettled
	}
	canBegin := row.State == Polling || row.State == Ready || row.State == Unsettled
	if begins := isRemoved && canBegin && (allGone || row.Key.IsBinding); begins && e.State != Cleaning {
		fail("the removal doesn't begin")
	}
	if row.State == Ready && e.State != Ready && !isRemoved {
		fail("what is ready stays so")
	}
	if got.send != nil {
		checkRequest(fail, row, got, now, terms, due)
	} else {
		if e.State == Polling || e.State == CleaningPolling || e.State == Wanted {
			fail("nothing is sent")
		}
		if e.State == Cleaning && (terms.hold == 0 || !now.Before(left.Add(terms.hold))) {
			fail("the deletion isn't sent")
		}
	}
}

// checkRequest is what holds of everything that is sent.
func checkRequest(fail func(string), row Entry, got decision, now time.Time, terms terms, due map[State]string) {
	e, request := got.Entry, got.send.out.Request
	if request.Kind.String() != due[e.State] {
		fail("another request is due: " + request.Kind.String())
	}
	if request.ID != row.Key.ID() || request.Service != id("a0") || request.Plan != id("c1") {
		fail("it is of another one")
	}
	if request.Kind == osb.KindDeprovision && terms.hold > 0 && now.Before(left.Add(terms.hold)) {
		fail("a deletion is sent too early")
	}
	if isLast := row.State == Gone; got.send.isLast() != isLast || isLast && e.Record != row.Record {
		fail("the last deletion leaves the record as it is")
	}
	if !got.send.isLast() && (e.Record.InFlight() != request.Kind || got.send.attempt != e.Record.Attempt()) {
		fail("it isn't recorded")
	}
	if request.Kind == osb.KindProvision && !e.SentUntil.Equal(now.Add(time.Minute)) {
		fail("until when it leaves isn't recorded")
	}
}
