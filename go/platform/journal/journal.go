// Package journal writes the journal of a platform (docs/journal.md): a Journal wraps the stores and the client of a
// platform.Engine and of platform.Orders.
//
// Each line is written before anybody else can see what it reports: that of a change in its transaction, and that of a
// request before it leaves. If the transaction fails, the line undone follows.
package journal

import (
	"context"
	"strconv"
	"strings"
	"sync/atomic"
	"time"

	"pippinterm/internal/journalfile"
	"pippinterm/osb"
	"pippinterm/platform"
)

// A Journal is the journal of one process. Any number of goroutines use it.
type Journal struct {
	to         *Writer
	vault      platform.Vault
	isDoubtful func(error) bool
	changes    atomic.Int64
}

// A Writer writes the lines of a journal, until its Close. What can't be written in time is lost and counted (Lost).
type Writer = journalfile.Writer

// Options say where a Writer writes, and how. Side is always platform.
type Options = journalfile.Options

// ErrTaken reports that another process writes to the file.
var ErrTaken = journalfile.ErrTaken

// Open opens the journal of a platform, and writes its line started.
//
// Errors: those of opening its file; ErrTaken; the path is neither a folder nor a regular file.
func Open(options Options) (*Writer, error) {
	options.Side = "platform"
	return journalfile.Open(options)
}

// New returns a journal that writes to a writer. vault seals the credentials of the stores, and may be nil. isDoubtful is
// whether a transaction of a store that fails with an error may have been committed.
func New(to *Writer, vault platform.Vault, isDoubtful func(error) bool) *Journal {
	return &Journal{to: to, vault: vault, isDoubtful: isDoubtful}
}

// StartMembers returns the members of the line started of a platform: of this version, whose worker has this name, or none.
func StartMembers(version, worker string) any {
	return struct {
		Version     string `json:"version"`
		Worker      string `json:"worker,omitempty"`
		NamesEvents bool   `json:"names_events"` // by Effect, in each line whose events a driver names
	}{version, worker, true}
}

// A subject is the instance or the binding that a line is about.
type subject struct {
	Instance   string `json:"instance"`
	Binding    string `json:"binding,omitempty"`
	InstanceID string `json:"instance_id,omitempty"` // as it was ordered, if it isn't the GUID
	BindingID  string `json:"binding_id,omitempty"`
}

func subjectOf(key platform.Key, names platform.Names) subject {
	it := subject{Instance: key.Instance.String()}
	if key.IsBinding {
		it.Binding = key.Binding.String()
	}
	if names.Instance != it.Instance {
		it.InstanceID = names.Instance
	}
	if names.Binding != it.Binding {
		it.BindingID = names.Binding
	}
	return it
}

// textOf is the text of a row's record as a store has it, or empty if no record was made yet.
func textOf(e platform.Entry) (string, error) {
	if !e.IsSent {
		return "", nil
	}
	write := e.Record.MarshalJSON
	if e.Key.IsBinding {
		write = e.Record.BindingText
	}
	text, err := write()
	return string(text), err
}

// Client returns a client whose requests and answers are written down. The requests have the time of the journal, and
// that of their answers is taken in.
func (j *Journal) Client(of platform.Client) platform.Client { return client{Client: of, journal: j} }

type client struct {
	platform.Client
	journal *Journal
}

// requestLine is the line of a request that is about to leave.
type requestLine struct {
	exchange
	Attempt uint64 `json:"attempt,omitempty"` // 0 of a Fetch, and of the last deletion of a row that is gone
	Accepts bool   `json:"accepts,omitempty"`
	Service string `json:"service"`
	Plan    string `json:"plan"`
}

// An exchange is what both lines of an exchange have.
type exchange struct {
	Request string `json:"request"`
	subject
	Broker string `json:"broker"`
	Kind   string `json:"kind"`
}

// answerLine is the line of an answer, or of the fact that none arrived.
type answerLine struct {
	exchange
	Status      int    `json:"status,omitempty"`
	Body        string `json:"body,omitempty"`
	Lost        string `json:"lost,omitempty"`
	Credentials string `json:"credentials,omitempty"` // the digest of the binding's object, if the answer has it
}

// Exchange writes down the request before it is sent, and the answer.
func (c client) Exchange(ctx context.Context, out platform.Outgoing) platform.Incoming {
	request := out.Request
	about := exchange{
		Request: out.RequestID, subject: subjectOf(out.Entry.Key, out.Entry.Names), Broker: out.Broker.Name,
		Kind: request.Kind.String(),
	}
	line := requestLine{
		exchange: about, Attempt: attemptOf(out.Entry.Record), Accepts: request.AcceptsIncomplete,
		Service: request.Service.String(), Plan: request.Plan.String(),
	}
	if out.IsFetch {
		about.Kind, line.Kind, line.Attempt = "fetch", "fetch", 0
	}
	out.JournalTime = strconv.FormatInt(c.journal.to.Write("sent", line), 10)
	in := c.Client.Exchange(ctx, out)
	c.journal.to.Receive(in.JournalTime)
	answer := answerLine{exchange: about, Status: in.Status, Credentials: journalfile.Digest(in.Binding)}
	switch {
	case in.Lost != nil:
		answer.Lost = in.Lost.Error()
	case !out.IsFetch:
		answer.Body = in.Answer.Body.String()
	}
	c.journal.to.Write("answered", answer)
	return in
}

// The causes of changes.
const (
	byOrder   = "order"   // a new order is inserted
	byClaim   = "claim"   // the first transaction of a step
	byTake    = "take"    // the second transaction of a step, with the answer to a request
	byCommand = "command" // an operator
)

// EngineStore returns the store of an Engine, whose changes are written down.
func (j *Journal) EngineStore(of platform.Store) platform.Store {
	return store{Store: of, journal: j, cause: byTake}
}

// OrdersStore returns the store of Orders, whose changes are written down.
func (j *Journal) OrdersStore(of platform.Store) platform.Store {
	return store{Store: of, journal: j, cause: byCommand}
}

type store struct {
	platform.Store
	journal *Journal
	cause   string // of a Change
}

// Insert writes down the order that is about to be committed.
func (s store) Insert(ctx context.Context, entry platform.Entry, check func(platform.Snapshot) error) error {
	lines := &transaction{journal: s.journal}
	err := s.Store.Insert(ctx, entry, func(snapshot platform.Snapshot) error {
		lines.undo(entry.Key, false) // the transaction is tried again
		if check != nil {
			if err := check(snapshot); err != nil {
				return err
			}
		}
		lines.change(byOrder, entry.Key, platform.Entry{Order: entry.Order}, entry, nil)
		return nil
	})
	lines.end(err)
	return err
}

// Claim writes down the changes that are about to be committed.
func (s store) Claim(
	ctx context.Context, brokers []string, most int, step platform.Step,
) ([]platform.ClaimedRow, error) {
	lines := &transaction{journal: s.journal}
	claimed, err := s.Store.Claim(ctx, brokers, most, lines.stepping(byClaim, step))
	if err == nil {
		lines.keep(claimed)
	}
	lines.end(err)
	return claimed, err
}

// Change writes down the change that is about to be committed.
func (s store) Change(ctx context.Context, key platform.Key, step platform.Step) error {
	lines := &transaction{journal: s.journal}
	err := s.Store.Change(ctx, key, lines.stepping(s.cause, step))
	lines.end(err)
	return err
}

// A transaction has the lines of the changes that may be committed with it. One goroutine uses it.
type transaction struct {
	journal *Journal
	lines   []pending
}

// A pending line is that of a change that may be committed.
type pending struct {
	of      platform.Key // of the row that was stepped: a further order is written with it
	number  int64
	subject subject
}

// stepping returns a step whose change is written down.
func (t *transaction) stepping(cause string, step platform.Step) platform.Step {
	return func(now time.Time, snapshot platform.Snapshot) (*platform.Change, error) {
		t.undo(snapshot.Key, false) // a step is called again once its transaction was rolled back
		change, err := step(now, snapshot)
		if err == nil && change != nil {
			t.change(cause, snapshot.Key, snapshot.Entry, change.Entry, change.Transaction)
			if next := change.Next; next != nil {
				t.change(byOrder, snapshot.Key, platform.Entry{Order: next.Order}, *next, nil)
			}
		}
		return change, err
	}
}

// change writes down the change of a row, unless its record and its state stay. made is the driver's transaction, or nil.
func (t *transaction) change(
	cause string, of platform.Key, before, after platform.Entry, made *osb.PlatformTransaction,
) {
	if before.IsSent == after.IsSent && before.Record == after.Record && before.State == after.State {
		return
	}
	it := pending{of: of, number: t.journal.changes.Add(1), subject: subjectOf(after.Key, after.Names)}
	t.lines = append(t.lines, it)
	line := changeLine{
		Change: it.number, subject: it.subject, Broker: after.Broker, Cause: cause, Effect: effectOf(made),
		State: string(after.State), Service: after.Service.String(), Plan: after.Plan.String(),
	}
	var err error
	if line.Before, err = textOf(before); err == nil {
		line.After, err = textOf(after)
	}
	if err != nil {
		t.journal.to.Lose(err)
		return
	}
	if cause == byTake {
		line.Attempt = before.Record.Attempt()
	}
	if before.Credentials == nil {
		line.Credentials = t.journal.digestOf(after)
	}
	t.journal.to.Write("changed", line)
}

// effectOf are the events of the network that the transaction of a driver is (docs/network-schedule.md), in their order,
// or empty if no driver has made the change.
func effectOf(made *osb.PlatformTransaction) string {
	if made == nil {
		return ""
	}
	var events []string
	if made.TimesOut() {
		events = append(events, "timeout")
	}
	if made.Takes() {
		events = append(events, "take")
	}
	if made.CleansUp() != osb.CleanUpNone {
		events = append(events, made.CleansUp().String())
	}
	switch {
	case made.Sends() && made.Committed().Sent().Attempt == 1:
		events = append(events, "create")
	case made.Sends():
		events = append(events, "send")
	case len(events) == 0:
		return "nothing"
	}
	return strings.Join(events, " ")
}

// undo writes down that the change of a row isn't committed.
func (t *transaction) undo(of platform.Key, isDoubtful bool) {
	rest := t.lines[:0]
	for _, line := range t.lines {
		if line.of == of {
			t.journal.to.Write("undone", undoneLine{Change: line.number, subject: line.subject, IsDoubtful: isDoubtful})
		} else {
			rest = append(rest, line)
		}
	}
	t.lines = rest
}

// keep undoes the changes of all rows but those that were claimed.
func (t *transaction) keep(claimed []platform.ClaimedRow) {
	isWritten := map[platform.Key]bool{}
	for _, row := range claimed {
		isWritten[row.Key] = row.Err == nil
	}
	for _, line := range append([]pending(nil), t.lines...) {
		if !isWritten[line.of] {
			t.undo(line.of, false)
		}
	}
}

// end undoes all changes if the transaction has failed.
func (t *transaction) end(err error) {
	for err != nil && len(t.lines) > 0 {
		t.undo(t.lines[0].of, t.journal.isDoubtful(err))
	}
}

// changeLine is the line of a change.
type changeLine struct {
	Change int64 `json:"change"`
	subject
	Broker      string `json:"broker"`
	Cause       string `json:"cause"`
	Attempt     uint64 `json:"attempt,omitempty"` // of the request whose answer is taken
	Before      string `json:"before"`
	After       string `json:"after"`
	State       string `json:"state"`
	Service     string `json:"service"`
	Plan        string `json:"plan"`
	Credentials string `json:"credentials,omitempty"` // the digest of the object that is recorded with it
	Effect      string `json:"effect,omitempty"`      // which events its driver says that it is
}

// undoneLine is the line of a change that wasn't committed.
type undoneLine struct {
	Change int64 `json:"change"`
	subject
	IsDoubtful bool `json:"doubtful,omitempty"` // whether it may have been committed
}

// digestOf is the digest of the credentials of a row, or empty if it has none or they can't be opened.
func (j *Journal) digestOf(e platform.Entry) string {
	if e.Credentials == nil || j.vault == nil {
		return ""
	}
	object, err := j.vault.Open(e.Credentials, e.Key.String())
	if err != nil {
		return ""
	}
	return journalfile.Digest(object)
}

// attemptOf is the number of the request that a record has in flight, or 0.
func attemptOf(record osb.Record) uint64 {
	if record.InFlight() == osb.KindNone {
		return 0
	}
	return record.Attempt()
}
