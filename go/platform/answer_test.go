package platform

import (
	"context"
	"encoding/json"
	"errors"
	"fmt"
	"strings"
	"sync/atomic"
	"testing"
	"time"

	"pippinterm/internal/diff"
	"pippinterm/osb"
)

// A trial is a request that was recorded ten seconds after the start, and is answered a second later.
type trial struct {
	row   Entry
	sent  sending
	terms terms
}

// newTrial has a row sent what is due.
func newTrial(t *testing.T, row Entry, terms terms) trial {
	t.Helper()
	instance := rowIn(anInstance, Ready)
	got := decide(at(10), Snapshot{Entry: row, Instance: &instance}, true, terms)
	if got.send == nil {
		t.Fatalf("%s: got nothing sent (%v), want a request", row.State, got.err)
	}
	got.send.driver = got.send.transaction.Committed()
	return trial{row: got.Entry, sent: *got.send, terms: terms}
}

// answer returns what a Client reads of an answer.
func (it trial) answer(status int, body string) exchangeResult {
	result := exchangeResult{kind: kindOf(it.sent.out.Request.Kind, it.row.Key)}
	result.Incoming = (&reply{status, []byte(body)}).incoming(it.sent.out)
	if result.Binding != nil {
		result.sealed = append([]byte("sealed "), result.Binding...)
	}
	return result
}

func (it trial) take(t *testing.T, result exchangeResult) *Change {
	t.Helper()
	snapshot := Snapshot{Entry: it.row}
	if it.row.Key.IsBinding {
		instance := rowIn(anInstance, Ready)
		snapshot.Instance = &instance
	}
	return it.takeAt(t, 11, snapshot, result)
}

// takeAt is what is written of a result by what is read then.
func (it trial) takeAt(t *testing.T, now int, snapshot Snapshot, result exchangeResult) *Change {
	t.Helper()
	return diff.Value(it.sent.taken(at(now), snapshot, result))(t)
}

// taken is what is written of a result.
func (s sending) taken(now time.Time, snapshot Snapshot, result exchangeResult) (change *Change, err error) {
	switch s.result = result; {
	case s.isLast():
		return s.takeLastAnswer(now, snapshot)
	case s.driver.Stage() != osb.PlatformStageSend:
	case result.Lost != nil:
		s.driver, err = s.driver.Lost()
	default:
		s.driver, err = s.driver.Answered(result.Answer, result.sealed != nil)
		if s.driver.Stage() == osb.PlatformStageFetch {
			s.driver, err = s.driver.Fetched(result.sealed != nil)
		}
	}
	if err != nil {
		return nil, err
	}
	return s.takeAnswer(now, snapshot)
}

// rest stands for a row that rests.
const rest = -1

const object, credentials = `{}`, `{"credentials": {"a": 1}}`

type takenRow struct {
	name    string
	row     Entry
	status  int
	body    string
	want    State
	due     int
	passing bool // whether a creation has failed for a passing reason
	failed  bool // whether a creation has failed
}

// The states are those of the tables of docs/platform.md and docs/binding.md. due is in seconds after the answer.
var takenRows = []takenRow{
	{"created", rowIn(anInstance, Ordered), 201, object, Ready, rest, false, false},
	{"was there", rowIn(anInstance, Ordered), 200, object, Ready, rest, false, false},
	{"begun", rowIn(anInstance, Ordered), 202, object, Polling, 2, false, false},
	{"200 unreadable", rowIn(anInstance, Ordered), 200, `x`, Unsettled, 0, false, true},
	{"201 unreadable", rowIn(anInstance, Ordered), 201, `x`, Cleaning, 2, false, true},
	{"202 unreadable", rowIn(anInstance, Ordered), 202, `x`, Cleaning, 2, false, true},
	{"204", rowIn(anInstance, Ordered), 204, ``, Cleaning, 2, false, true},
	{"302", rowIn(anInstance, Ordered), 302, ``, Cleaning, 2, false, true},
	{"400", rowIn(anInstance, Ordered), 400, object, Gone, rest, false, true},
	{"400 of a gateway", rowIn(anInstance, Ordered), 400, `<html>`, Cleaning, 2, true, true},
	{"401", rowIn(anInstance, Ordered), 401, object, Cleaning, 2, true, true},
	{"404", rowIn(anInstance, Ordered), 404, object, Cleaning, 2, true, true},
	{"408", rowIn(anInstance, Ordered), 408, object, Cleaning, 2, true, true},
	{"409", rowIn(anInstance, Ordered), 409, object, Unsettled, 0, false, true},
	{"422", rowIn(anInstance, Ordered), 422, `{"error": "QuotaExceeded"}`, Unsettled, 0, false, true},
	{"422 AsyncRequired", rowIn(anInstance, Ordered), 422, `{"error": "AsyncRequired"}`, Gone, rest, false, true},
	{"422 concurrent", rowIn(anInstance, Ordered), 422, `{"error": "ConcurrencyError"}`, Unsettled, 0, true, true},
	{"429", rowIn(anInstance, Ordered), 429, object, Cleaning, 2, true, true},
	{"500", rowIn(anInstance, Ordered), 500, object, Cleaning, 2, true, true},
	{"503", rowIn(anInstance, Ordered), 503, ``, Cleaning, 2, true, true},
	{"600", rowIn(anInstance, Ordered), 600, object, Cleaning, 2, false, true},

	{"making", rowIn(anInstance, Polling), 200, `{"state": "in progress"}`, Polling, 4, false, false},
	{"made", rowIn(anInstance, Polling), 200, `{"state": "succeeded"}`, Ready, rest, false, false},
	{"not made", rowIn(anInstance, Polling), 200, `{"state": "failed"}`, Cleaning, 2, false, true},
	{"a Poll of 410", rowIn(anInstance, Polling), 410, object, Polling, 4, false, false},
	{"a Poll of 404", rowIn(anInstance, Polling), 404, object, Polling, 4, false, false},
	{"a Poll of 500", rowIn(anInstance, Polling), 500, object, Polling, 4, false, false},

	{"deleted", rowIn(anInstance, Cleaning), 200, object, Gone, rest, false, false},
	{"nothing was there", rowIn(anInstance, Cleaning), 410, ``, Gone, rest, false, false},
	{"deleting", rowIn(anInstance, Cleaning), 202, object, CleaningPolling, 2, false, false},
	{"a deletion rejected", rowIn(anInstance, Cleaning), 400, object, Cleaning, 4, false, false},
	{"a deletion of 401", rowIn(anInstance, Cleaning), 401, object, Cleaning, 4, false, false},
	{"a deletion busy", rowIn(anInstance, Cleaning), 422, `{"error": "ConcurrencyError"}`, Cleaning, 4, false, false},
	{"still deleting", rowIn(anInstance, CleaningPolling), 200, `{"state": "in progress"}`, CleaningPolling, 4, false,
		false},
	{"deleted at last", rowIn(anInstance, CleaningPolling), 200, `{"state": "succeeded"}`, Gone, rest, false, false},
	{"gone at last", rowIn(anInstance, CleaningPolling), 410, object, Gone, rest, false, false},
	{"not deleted", rowIn(anInstance, CleaningPolling), 200, `{"state": "failed"}`, Cleaning, 4, false, false},

	{"bound", rowIn(aBinding, Ordered), 201, credentials, Ready, rest, false, false},
	{"was bound", rowIn(aBinding, Ordered), 200, credentials, Ready, rest, false, false},
	{"binding", rowIn(aBinding, Ordered), 202, object, Polling, 2, false, false},
	{"a Bind rejected", rowIn(aBinding, Ordered), 400, object, Gone, rest, false, true},
	{"a Bind of 422", rowIn(aBinding, Ordered), 422, `{"error": "RequiresApp"}`, Unsettled, 0, false, true},
	{"a Bind while something else goes on", rowIn(aBinding, Ordered), 422, `{"error": "ConcurrencyError"}`, Unsettled, 0,
		true, true},
	{"a Bind that has to be asynchronous", rowIn(aBinding, Ordered), 422, `{"error": "AsyncRequired"}`, Gone, rest, false,
		true},
	{"a Bind of 500", rowIn(aBinding, Ordered), 500, object, Cleaning, 2, true, true},
	{"still binding", rowIn(aBinding, Polling), 200, `{"state": "in progress"}`, Polling, 4, false, false},
	{"not bound", rowIn(aBinding, Polling), 200, `{"state": "failed"}`, Cleaning, 2, false, true},
	{"unbound", rowIn(aBinding, Cleaning), 200, object, Gone, rest, false, false},
	{"unbinding", rowIn(aBinding, Cleaning), 202, object, CleaningPolling, 2, false, false},
}

func TestTaken(t *testing.T) {
	for _, row := range takenRows {
		t.Run(row.name, func(t *testing.T) {
			try := newTrial(t, row.row, plain())
			change := try.take(t, try.answer(row.status, row.body))
			e := change.Entry
			want := at(11 + row.due)
			if row.due == rest {
				want = time.Time{}
			}
			diff.Equal(t, e.State, row.want, "the state")
			diff.Check(t, e.Due, want, "due")
			diff.Equal(t, e.Lease, Lease{}, "the lease")
			diff.Equal(t, e.Passing, row.passing, "whether it passes")
			diff.Equal(t, e.Failure != (Reason{}), row.failed, "whether it has failed")
			diff.Equal(t, e.Last.Status, row.status, "the status of the reason")
			diff.Check(t, e.Last.At, at(11), "the time of the reason")
			diff.Equal(t, e.Credentials != nil, e.Key.IsBinding && e.State == Ready, "whether there are credentials")
			diff.Equal(t, change.WakeInstance, e.Key.IsBinding && e.State == Gone, "the instance is woken")
		})
	}
}

// A request that got no answer: a creation is cleaned up, and everything else is sent again.
func TestTakenLost(t *testing.T) {
	for state, want := range map[State]State{
		Ordered: Cleaning, Polling: Polling, Cleaning: Cleaning, CleaningPolling: CleaningPolling,
	} {
		t.Run(string(state), func(t *testing.T) {
			for _, key := range []Key{anInstance, aBinding} {
				try := newTrial(t, rowIn(key, state), plain())
				e := try.take(t, exchangeResult{kind: "kind", Incoming: Incoming{Lost: errors.New("cut")}}).Entry
				if e.State != want || e.Passing != (state == Ordered) || e.Last.Lost != "cut" {
					t.Errorf("from %s: got %s, passing %v, %+v, want %s and \"cut\"", state, e.State, e.Passing, e.Last, want)
				}
			}
		})
	}
}

// abandon is what an operator does with a row: what is in flight is given up.
func abandon(e *Entry) {
	e.Record, _ = e.Record.Timeout(e.Record.Attempt())
	e.State, e.Lease, e.Number = Abandoned, Lease{}, id("77")
}

// Nothing is written of a request that another worker has given up, or of a row that was abandoned.
func TestTakenByAnother(t *testing.T) {
	try := newTrial(t, rowIn(anInstance, Ordered), plain())
	result := try.answer(201, `{}`)
	later := decide(at(101), Snapshot{Entry: try.row}, true, plain()).Entry
	abandoned := with(try.row, abandon)
	for name, row := range map[string]Entry{
		"given up": later, "abandoned": abandoned, "unsent": rowIn(anInstance, Ordered),
	} {
		t.Run(name, func(t *testing.T) {
			diff.Equal(t, try.takeAt(t, 102, Snapshot{Entry: row}, result), nil, "the change")
		})
	}
}

// doubt has a trial's claim fail, so that nobody knows whether it was committed. It returns the result of the request.
func (it *trial) doubt() exchangeResult {
	it.sent = *inDoubt(map[Key]*decision{it.row.Key: {send: &it.sent}}, 1, ErrAway)[0]
	return it.sent.result
}

// A request that was perhaps never recorded is given up, for a reason that passes, so another try follows. If it
// wasn't, another worker may have sent one of the same number, and nothing is written.
func TestTakenInDoubt(t *testing.T) {
	try := newTrial(t, rowIn(anInstance, Ordered), plain())
	lost := try.doubt()
	e := try.take(t, lost).Entry
	diff.Equal(t, e.State, Cleaning, "the state")
	diff.Equal(t, e.Passing, true, "whether it passes")
	diff.Contains(t, e.Failure.Lost, errUnsure.Error(), "why it has failed")
	diff.Equal(t, e.Failure.Kind, "provision", "what has failed")
	diff.Equal(t, e.Lease, Lease{}, "the lease")
	for _, number := range []osb.ID{{}, id("99")} {
		t.Run(fmt.Sprintf("with the number %v", number), func(t *testing.T) {
			row := with(try.row, func(e *Entry) { e.Number = number })
			diff.Equal(t, try.takeAt(t, 12, Snapshot{Entry: row}, lost), nil, "the change")
		})
	}
}

// A removal that was asked for while a request was in flight begins at once.
func TestTakenAndRemoved(t *testing.T) {
	for _, test := range []struct {
		row    Entry
		status int
		body   string
	}{
		{rowIn(anInstance, Ordered), 201, `{}`}, {rowIn(anInstance, Ordered), 202, `{}`},
		{rowIn(anInstance, Ordered), 409, `{}`}, {rowIn(anInstance, Polling), 200, `{"state": "in progress"}`},
	} {
		t.Run(fmt.Sprint(test.row.State, " ", test.status), func(t *testing.T) {
			try := newTrial(t, test.row, wait())
			remove(&try.row)
			diff.Check(t, try.take(t, try.answer(test.status, test.body)).Entry.Due, at(11), "%d: due", test.status)
		})
	}
	try := newTrial(t, rowIn(anInstance, Ordered), wait())
	diff.Check(t, try.take(t, try.answer(409, `{}`)).Entry.Due, time.Time{}, "unsettled: due")
}

// A deletion is due once the hold is over, and polling ends at the time for which it may go on.
func TestTakenDue(t *testing.T) {
	try := newTrial(t, rowIn(anInstance, Ordered), usualTerms())
	diff.Check(t, try.take(t, try.answer(500, `{}`)).Entry.Due, at(10+60+300), "the deletion, after the hold")
	short := plain()
	short.longestPoll = 12 * time.Second
	try = newTrial(t, rowIn(anInstance, Polling), short)
	due := try.take(t, try.answer(200, `{"state": "in progress"}`)).Entry.Due
	diff.Check(t, due, at(12), "the end of the polling")
	try = newTrial(t, rowIn(anInstance, CleaningPolling), short)
	diff.Check(t, try.take(t, try.answer(500, `{}`)).Entry.Due, at(12), "the end of the polling of the deletion")
	for unchanged, want := range []int{4, 8, 16, 32, 64, 120, 120} {
		try := newTrial(t, with(rowIn(anInstance, Cleaning), func(e *Entry) { e.Unchanged = unchanged }), plain())
		diff.Check(t, try.take(t, try.answer(500, `{}`)).Entry.Due, at(11+want), "after %d", unchanged)
	}
}

// Every status of every request: the record is what the library's tables give, and only a creation fails.
func TestEveryAnswer(t *testing.T) {
	bodies := []string{``, `{}`, `{"state": "succeeded"}`, `{"state": "failed"}`, `{"error": "ConcurrencyError"}`}
	for _, key := range []Key{anInstance, aBinding} {
		for _, state := range []State{Ordered, Polling, Cleaning, CleaningPolling} {
			try := newTrial(t, rowIn(key, state), plain())
			for status := 100; status < 620; status++ {
				for _, body := range bodies {
					result := try.answer(status, body)
					e := try.take(t, result).Entry
					want, err := try.row.Record.Timeout(try.sent.attempt)
					if result.Lost == nil && (state != Polling || !key.IsBinding || e.State != Polling) {
						want, err = try.row.Record.AnswerBinding(try.sent.attempt, result.Answer, true)
					}
					must(err)
					if key.IsBinding && want.IsReady() && result.sealed == nil {
						t.Errorf("%s, %d %s: got it ready without credentials, want them", state, status, body)
					}
					if e.Record != want || e.State != StateOf(want) {
						t.Fatalf("%s, %d %s: got %v, want %v", state, status, body, e.Record, want)
					}
				}
			}
		}
	}
}

// A Poll is answered in every state as docs/platform.md says, whatever the library's numbers are.
func TestKindOf(t *testing.T) {
	for _, test := range []struct {
		kind osb.Kind
		of   Key
		want string
	}{
		{osb.KindProvision, anInstance, "provision"}, {osb.KindPoll, anInstance, "poll"},
		{osb.KindDeprovision, anInstance, "deprovision"}, {osb.KindProvision, aBinding, "bind"},
		{osb.KindPoll, aBinding, "poll"}, {osb.KindDeprovision, aBinding, "unbind"},
	} {
		t.Run(test.want, func(t *testing.T) {
			diff.Equal(t, kindOf(test.kind, test.of), test.want, "%v of %v", test.kind, test.of)
		})
	}
}

// A binding is ready only with its credentials, and a 202 to a Bind is cleaned up if nobody can fetch them.
func TestTakenCredentials(t *testing.T) {
	try := newTrial(t, rowIn(aBinding, Polling), plain())
	succeeded := try.answer(200, `{"state": "succeeded"}`)
	if e := try.take(t, succeeded).Entry; e.State != Polling || e.Credentials != nil {
		t.Errorf("without a Fetch: got %s and %q, want %s and none", e.State, e.Credentials, Polling)
	}
	succeeded.sealed = []byte("those of the Fetch")
	if e := try.take(t, succeeded).Entry; e.State != Ready || string(e.Credentials) != "those of the Fetch" {
		t.Errorf("with a Fetch: got %s and %q, want %s and \"those of the Fetch\"", e.State, e.Credentials, Ready)
	}
	try = newTrial(t, rowIn(aBinding, Ordered), plain())
	created := try.answer(201, `{"credentials": {}}`)
	created.sealed = nil
	diff.Equal(t, try.take(t, created).Entry.State, Cleaning, "a 201 whose credentials can't be encrypted")
	unfetchable := plain()
	unfetchable.isRetrievable = false
	try = newTrial(t, rowIn(aBinding, Ordered), unfetchable)
	diff.Equal(t, try.take(t, try.answer(202, `{}`)).Entry.State, Cleaning, "a 202 whose credentials can't be fetched")
}

// What a broker says of a pace, an operation, a dashboard and metadata is kept.
func TestTakenKept(t *testing.T) {
	try := newTrial(t, rowIn(anInstance, Ordered), plain())
	result := try.answer(202, `{"operation": "task 1", "dashboard_url": "https://d.example", "metadata": {"labels": {}}}`)
	result.RetryAfter = 70 * time.Second
	e := try.take(t, result).Entry
	if e.Operation == nil || *e.Operation != "task 1" || e.Dashboard != "https://d.example" || e.Metadata == nil {
		t.Errorf("got %+v, want its operation, dashboard and metadata", e)
	}
	if !e.Due.Equal(at(11+70)) || !e.PolledSince.Equal(at(11)) {
		t.Errorf("got it due %v, polled since %v, want it after Retry-After, since now", e.Due, e.PolledSince)
	}
	polled := newTrial(t, with(e, func(e *Entry) { e.Due = at(9) }), plain())
	kept := polled.take(t, polled.answer(200, `{"state": "in progress", "operation": "task 2"}`)).Entry
	if *kept.Operation != "task 1" || kept.Dashboard != "https://d.example" || !kept.PolledSince.Equal(at(11)) {
		t.Errorf("got %+v, want the first operation and dashboard", kept)
	}
	done := polled.take(t, polled.answer(200, `{"state": "succeeded"}`)).Entry
	diff.Equal(t, done.Operation, nil, "after the operation")
}

// A long Retry-After counts for an hour, and a long description for its front.
func TestTakenBounds(t *testing.T) {
	try := newTrial(t, rowIn(anInstance, Cleaning), plain())
	result := try.answer(500, `{"error": "E", "description": "`+strings.Repeat("é", 2000)+`"}`)
	result.RetryAfter = 1000 * time.Hour
	e := try.take(t, result).Entry
	if !e.Due.Equal(at(11+3600)) || e.Last.Description != strings.Repeat("é", 500) || e.Last.Error != "E" {
		t.Errorf("got it due %v, %d bytes of %q, want it in an hour, and 500 letters", e.Due, len(e.Last.Description),
			e.Last.Error)
	}
}

// A text with a NUL isn't kept: not every database has it.
func TestNUL(t *testing.T) {
	try := newTrial(t, rowIn(anInstance, Ordered), plain())
	result := try.answer(202, `{"operation": "a\u0000b", "dashboard_url": "https://d.example/\u0000"}`)
	if result.Operation == nil || result.Details.DashboardURL == nil {
		t.Fatal("the answer: got no operation or dashboard, want both")
	}
	if e := try.take(t, result).Entry; e.State != Polling || e.Operation != nil || e.Dashboard != "" {
		t.Errorf("got %s, the operation %v and the dashboard %q, want polling and neither",
			e.State, e.Operation, e.Dashboard)
	}
}

// At a broker without tombstones, one deletion more is due after the end: once the hold has passed again.
func TestTakenHasLast(t *testing.T) {
	for _, key := range []Key{anInstance, aBinding} {
		t.Run(key.String(), func(t *testing.T) {
			row := with(rowIn(key, Cleaning), func(e *Entry) { e.SentUntil = at(-1000) })
			try := newTrial(t, row, usualTerms())
			if e := try.take(t, try.answer(410, `{}`)).Entry; !e.HasLast || !e.Due.Equal(at(11+300)) {
				t.Errorf("%v: got last %v, due %v, want one after the hold", key, e.HasLast, e.Due)
			}
			try = newTrial(t, rowIn(key, Ordered), usualTerms()) // it may leave until 60 seconds later
			if e := try.take(t, try.answer(400, `{}`)).Entry; !e.HasLast || !e.Due.Equal(at(10+60+300)) {
				t.Errorf("%v: got last %v, due %v, want one after the hold", key, e.HasLast, e.Due)
			}
			try = newTrial(t, row, plain())
			if e := try.take(t, try.answer(410, `{}`)).Entry; e.HasLast || !e.Rests() {
				t.Errorf("%v: at a broker with tombstones: got last %v, due %v, want none", key, e.HasLast, e.Due)
			}
		})
	}
}

// longGone is a row whose last deletion is due.
func longGone(key Key) Entry {
	return with(rowIn(key, Gone), func(e *Entry) { e.HasLast, e.SentUntil, e.Since = true, at(-1000), at(-900) })
}

// The table of docs/platform-guide.md about the answer to the last deletion.
func TestTakenLast(t *testing.T) {
	const none, found, unsure = nothingLeft, orphanFound, orphanUnknown
	type verdict struct {
		shown  aftermath
		isOver bool
	}
	want := map[int]verdict{
		410: {none, true}, 200: {found, true}, 202: {found, false}, 422: {none, false}, 500: {none, false},
		503: {none, false}, 302: {none, false}, 204: {none, false}, 201: {none, false}, 400: {unsure, true},
		402: {unsure, true}, 409: {unsure, true}, 411: {unsure, true}, 418: {unsure, true}, 499: {unsure, true},
	}
	for _, status := range []int{401, 403, 404, 405, 407, 408, 412, 413, 414, 415, 429, 431} {
		want[status] = verdict{unsure, false}
	}
	for _, key := range []Key{anInstance, aBinding} {
		t.Run(fmt.Sprint(key), func(t *testing.T) {
			for status, want := range want {
				t.Run(fmt.Sprint(status), func(t *testing.T) {
					row := longGone(key)
					try := newTrial(t, row, usualTerms())
					result := try.answer(status, `{}`)
					shown, isOver := judgeLast(result.Incoming)
					e := try.take(t, result).Entry
					if shown != want.shown || isOver != want.isOver || e.HasLast == want.isOver || e.Rests() != want.isOver {
						t.Errorf("%d: got %v, %v, %v, due %v; want %v", status, shown, isOver, e.HasLast, e.Due, want)
					}
					if e.State != Gone || e.Record != row.Record || e.Since != row.Since || e.Last.Status != status {
						t.Errorf("%d: got the record changed to %s: %v, want it unchanged", status, e.State, e.Record)
					}
				})
			}
		})
	}
	try := newTrial(t, longGone(anInstance), usualTerms())
	lost := exchangeResult{Incoming: Incoming{Lost: errors.New("cut")}}
	if e := try.take(t, lost).Entry; !e.HasLast || !e.Due.Equal(at(11+4)) {
		t.Errorf("no answer: got last %v, due %v, want one more soon", e.HasLast, e.Due)
	}
	try.row.Number = id("99")
	diff.Equal(t, try.take(t, try.answer(410, `{}`)), nil, "another worker's lease")
}

// The next try is ordered with the end of one that has failed for a passing reason, of an instance as of a binding.
func TestNextTry(t *testing.T) {
	for _, key := range []Key{anInstance, aBinding} {
		failed := func(change func(*Entry)) Entry { return with(failedTry(key), change) }
		for _, test := range []struct {
			name string
			row  Entry
			due  int // in seconds after the end, or rest if there is none
		}{
			{"after the first", failed(func(*Entry) {}), 2},
			{"after the second", failed(func(e *Entry) { e.Try = 2 }), 4},
			{"after the last", failed(func(e *Entry) { e.Try = 3 }), rest},
			{"of one", failed(func(e *Entry) { e.Tries = 1 }), rest},
			{"removed", failed(remove), rest},
			{"not passing", failed(func(e *Entry) { e.Passing = false }), rest},
			{"Retry-After", failed(func(e *Entry) { e.After = 50 * time.Second }), 5 + 50 - 11},
			{"a long Retry-After", failed(func(e *Entry) { e.After = 50 * time.Hour }), 5 + 3600 - 11},
			{"under a chosen id", failed(chosenID), 2},
		} {
			t.Run(fmt.Sprintf("%s, binding %v", test.name, key.IsBinding), func(t *testing.T) {
				try := newTrial(t, test.row, plain())
				next := try.take(t, try.answer(410, `{}`)).Next
				if diff.Equal(t, next != nil, test.due != rest, "a next try"); next == nil {
					return
				}
				order := orderAgain(test.row.Order)
				diff.Check(t, *next, Entry{Order: order, State: Ordered, Since: at(11), Due: at(11 + test.due)}, "")
			})
		}
	}
}

// failedTry is a row whose creation has failed for a passing reason, and which is being deleted.
func failedTry(key Key) Entry {
	e := rowIn(key, Cleaning)
	e.Passing, e.Failure, e.Names.Instance = true, Reason{At: at(5), Kind: "provision", Status: 503}, "a name"
	e.Body = json.RawMessage(`{"parameters": {}}`)
	if key.IsBinding {
		e.Names.Binding = "another name"
	}
	return e
}

// orderAgain is the order of the next try, under the id 99. That of a binding is of the same instance.
func orderAgain(order Order) Order {
	order.Try++
	order.IsOwnID = true
	if order.Key.IsBinding {
		order.Key, order.Names.Binding = osb.BindingKey(order.Key.Instance, id("99")), id("99").String()
		return order
	}
	order.Key, order.Names.Instance = osb.InstanceKey(id("99")), id("99").String()
	return order
}

// A creation that is refused for a passing reason and leaves nothing behind is ordered again at once.
func TestNextTryOfUnsettled(t *testing.T) {
	for _, key := range []Key{anInstance, aBinding} {
		row := with(rowIn(key, Unsettled), func(e *Entry) { e.Passing = true })
		try := newTrial(t, row, plain())
		diff.Equal(t, try.take(t, try.answer(200, `{}`)).Next != nil, true, "%v: a next try", key)
	}
}

// A binding is ordered again only if its instance is ready and isn't removed in the same transaction.
func TestNextTryOfBinding(t *testing.T) {
	count := 0
	for _, state := range everyState {
		for _, removal := range []Removal{NotRemoved, Removed, RemovedWhole} {
			t.Run(fmt.Sprint(state, " ", removal), func(t *testing.T) {
				try := newTrial(t, failedTry(aBinding), plain())
				instance := with(rowIn(anInstance, state), func(e *Entry) { e.Removal = removal })
				change, err := try.sent.taken(at(11), Snapshot{Entry: try.row, Instance: &instance}, try.answer(200, `{}`))
				check(t, err)
				diff.Equal(t, change.Next != nil, state == Ready && removal == NotRemoved,
					"a next try with the instance in %s, removal %d", state, removal)
				diff.Equal(t, change.Entry.State, Gone, "the binding with the instance in %s", state)
				diff.Equal(t, change.WakeInstance, true, "the instance in %s is woken", state)
				count++
			})
		}
	}
	diff.Equal(t, count, 3*len(everyState), "tried")
	try := newTrial(t, failedTry(aBinding), plain())
	change := try.takeAt(t, 11, Snapshot{Entry: try.row}, try.answer(200, `{}`))
	diff.Equal(t, change.Next, nil, "a next try without a row of the instance")
}

// A binding whose credentials can't be sealed isn't ordered again: another one would end the same.
func TestUnsealedIsNotPassing(t *testing.T) {
	for name, vault := range map[string]Vault{"without a vault": nil, "with a vault that fails": brokenVault{}} {
		t.Run(name, func(t *testing.T) {
			try := newTrial(t, rowIn(aBinding, Ordered), plain())
			engine := NewEngine(newMemory(time.Now), nil, vault, Options{}, Silent{})
			try.sent.result = try.answer(201, credentials)
			try.sent.result.sealed = nil
			engine.seal(&try.sent)
			e := try.take(t, try.sent.result).Entry
			if e.State != Cleaning || e.Passing || e.Failure == (Reason{}) {
				t.Errorf("got %s, passing %v, %+v, want it in cleaning with a failure that lasts", e.State, e.Passing,
					e.Failure)
			}
		})
	}
}

// A brokenVault seals nothing.
type brokenVault struct{ seal }

func (brokenVault) Seal([]byte, string) ([]byte, error) { return nil, errors.New("no random bytes") }

var errFull = errors.New("the disk is full")

// A claim that failed isn't taken for the next claim of the same row in the same millisecond: nothing is written of its
// request while that of the next one is in flight.
func TestTakenInDoubtOfTheSameMillisecond(t *testing.T) {
	gone := with(rowIn(anInstance, Gone), func(e *Entry) { e.HasLast, e.Due = true, at(9) })
	for _, row := range []Entry{rowIn(anInstance, Ordered), rowIn(aBinding, Ordered), gone} {
		terms := plain()
		if row.State == Gone {
			terms = usualTerms()
			row.Since = at(-1000)
			row.SentUntil = at(-1000)
		}
		first, second := newTrial(t, row, terms), newTrial(t, row, terms)
		lost := first.doubt()
		change := first.takeAt(t, 12, Snapshot{Entry: second.row}, lost)
		diff.Equal(t, change, nil, "%s: a change of the next claim", row.State)
		change = first.takeAt(t, 12, Snapshot{Entry: first.row}, lost)
		diff.Equal(t, change != nil, true, "%s: its own claim is given up", row.State)
	}
}

// An answer that failed to be written, and whose row somebody else has changed since, isn't reported as written. One
// that was written though the commit failed is, unless an operator has abandoned the row since.
func TestAnswerInDoubt(t *testing.T) {
	takeOver := func(e *Entry) { *e = decide(at(101), Snapshot{Entry: *e}, true, plain()).Entry }
	for name, test := range map[string]struct {
		isWritten bool
		then      func(*Entry) // what somebody else does with the row
		want      State        // or empty if nothing is reported
	}{
		"written":     {true, func(e *Entry) { e.Due = at(200) }, Ready},
		"abandoned":   {true, abandon, ""},
		"not written": {false, abandon, ""},
		"taken over":  {false, takeOver, ""},
	} {
		t.Run(name, func(t *testing.T) {
			p := newPlant(t, Options{})
			try := newTrial(t, with(rowIn(anInstance, Ordered), func(e *Entry) { e.Broker = "shelf" }), plain())
			try.sent.out.Until = time.Now().Add(patience)
			p.store.rows[anInstance] = try.row
			if test.isWritten {
				p.store.doubt = fmt.Errorf("%w: the answer to the COMMIT is lost", ErrAway)
			} else {
				p.store.setFull(errFull)
			}
			var tries atomic.Int32
			p.store.between = func(point string, _ Key) {
				if point != "change-begin" || tries.Add(1) != 2 {
					return
				}
				p.store.setFull(nil)
				p.store.mu.Lock()
				defer p.store.mu.Unlock()
				p.store.rows[anInstance] = with(p.store.rows[anInstance], test.then)
			}
			p.exchange = func(context.Context, Outgoing) Incoming { return try.answer(201, `{}`).Incoming }
			check(t, p.engine.drive(background, &try.sent, func() {}))
			entry := try.sent.entry
			if got := entry != nil; got != (test.want != "") || got && entry.State != test.want || tries.Load() != 2 {
				t.Errorf("got %+v after %d tries, want %s after 2", entry, tries.Load(), test.want)
			}
			diff.Equal(t, try.sent.driver.Stage(), osb.PlatformStageDone, "the stage of the driver")
		})
	}
}

// The rest after a failure doubles up to the longest one, and begins anew after a success.
func TestBackOff(t *testing.T) {
	rest := backOff{first: 300 * time.Millisecond}
	for n, want := range []time.Duration{300, 600, 1000, 1000} {
		diff.Equal(t, rest.next(), want*time.Millisecond, "the rest %d", n+1)
	}
	rest.end()
	diff.Equal(t, rest.next(), rest.first, "after a success")
}

// While nothing can be written, the worker rests longer and longer, and one line says why. Nothing is sent, and nothing
// is reported. Once something can be written, all orders go on.
func TestWritesFail(t *testing.T) {
	p := newPlant(t, Options{})
	p.engine.retry = 50 * time.Millisecond
	check(t, p.engine.RunOnce(background))
	var keys []Key
	for n := 0; n < 40; n++ {
		keys = append(keys, p.create(NewInstance{}))
	}
	var claims atomic.Int32
	p.store.between = func(point string, _ Key) {
		if point == "claim-begin" {
			claims.Add(1)
		}
	}
	p.store.setFull(errFull)
	p.start(background)
	time.Sleep(2 * time.Second)
	p.set(func() {
		if tried := claims.Load(); tried < 2 || tried > 8 || len(p.failures) != 1 || len(p.sent)+len(p.reported) > 0 {
			t.Errorf("got %d claims, %d failures, %d requests and %v, want 2 to 8, one and none", tried, len(p.failures),
				len(p.sent), p.reported)
		}
	})
	diff.ErrorIs(t, p.engine.Ready(), errFull, "the engine")
	p.store.setFull(nil)
	begun := time.Now()
	for _, key := range keys {
		p.untilState(key, Ready)
	}
	diff.AtMost(t, time.Since(begun), time.Minute, "the orders") // a lease holds for a minute and a half
	diff.NoError(t, p.engine.Ready(), "Ready")
	diff.Equal(t, p.hasFailed("store_failed"), 1, "reports")
}

// The engine is ready again once another worker has done what this one couldn't write.
func TestWritesFailAndAnotherWorks(t *testing.T) {
	p := newPlant(t, Options{})
	check(t, p.engine.RunOnce(background))
	key := p.create(NewInstance{})
	p.store.setFull(errFull)
	p.start(background)
	p.until("a failure", func() bool { return p.engine.Ready() != nil })
	p.store.mu.Lock()
	p.store.rows[key] = with(p.store.rows[key], func(e *Entry) { e.Due = time.Now().Add(time.Hour) })
	p.store.mu.Unlock()
	p.until("readiness", func() bool { return p.engine.Ready() == nil })
	diff.Equal(t, p.hasFailed("store_failed"), 1, "reports")
}
