// Package broker is a broker under the Open Service Broker API 2.17: an http.Handler over a Store, a Backend and Locks.
// What becomes of an instance or a binding is decided by the proved library (package osb).
//
// The order in which a request is locked, written, worked and answered is that of a driver (osb.UpdateDriver of an
// instance, osb.Driver of a binding), which drive steps. Here is what each of its transactions reads and keeps beside the
// holding, and what is answered. Whatever fails on the way ends the request: what was committed until then stays, and the
// Sweeper goes on with it.
package broker

import (
	"context"
	"encoding/json"
	"errors"
	"fmt"
	"net/http"
	"time"

	"pippinterm/osb"
)

// A Service carries requests out. Any number of goroutines use it.
type Service struct {
	catalogue *Catalogue
	store     Store
	locks     Locks
	gate      *gate // of the locks
	worker    worker
	observer  Observer
	options   ServiceOptions
	stay      time.Duration // how long a request is kept, if ids return
	wait      time.Duration // how long a request waits for the lock of its key
	// pollers are the drivers of all Polls that need no transaction. They haven't the lock, so they take nothing over, and
	// their numbers are in no row. lookers are those of the looks before all take-ups. They are made as if they had the
	// lock, and nothing of them is written: they only say whether there is anything to do.
	pollers, lookers drivers
	numbers          *numbers
}

// ServiceOptions are this project's choice (docs/instance.md).
type ServiceOptions struct {
	// FirstPoll has the creation of an asynchronous plan begin only once its last operation was polled. Any
	// platform whose 202 is lost then has nothing that it doesn't know of.
	FirstPoll bool
	// WaitForPoll is how long a creation waits for its first Poll before it has failed.
	WaitForPoll time.Duration
	// LocksAtOnce is how many requests may take a lock at once, or 0 for any number. If it is less than the number of
	// requests that are carried out at once, a silent server of the locks doesn't hold up requests that need no lock.
	LocksAtOnce int
	// LongestPause is how long a key whose work fails again and again rests at most before a Sweeper goes on with it,
	// or 0 for DefaultLongestPause. The first rest is as long as the time between two sweeps, and each further one is
	// twice as long.
	LongestPause time.Duration
	// IDsReturnAfter is how old a tombstone has to be to stand in the way of a creation no longer, or 0 if it stands in
	// the way for good. If it isn't 0, it is ShortestReturn or more, and longer than any request of the old life is
	// under way (docs/broker-guide.md).
	IDsReturnAfter time.Duration
}

// NewService makes a service. If the backend is a LockBackend, give its locks.
func NewService(
	catalogue *Catalogue, store Store, backend Backend, locks Locks, options ServiceOptions, observer Observer,
) *Service {
	s := &Service{
		catalogue: catalogue, store: store, locks: locks, observer: observer, options: options, stay: longestStay,
		wait:    longestWait,
		gate:    newGate(locks, options.LocksAtOnce),
		worker:  worker{backend: backend, can: AbilitiesOf(backend), observer: observer},
		numbers: newNumbers(),
	}
	s.pollers, s.lookers = s.newDrivers(true, false), s.newDrivers(false, true)
	return s
}

// A Visit is one arrival of a request: what it asks of an instance or of a binding.
type Visit struct {
	Key        Key
	Names      Names
	Asked      osb.Asked // of a binding: under the ID of the binding
	IsFetch    bool      // whether it is a Fetch
	Attributes osb.Digest
	Request    json.RawMessage // of a creation: the text of its Request
	Creation   *Request        // of a creation: what Request is the text of, or nil if only the text is known
	Update     *AskedUpdate    // of an Update, whose Asked has the kind osb.KindNone, or nil
	Origin     Origin          // of a deletion, or of an Update
	Arrived    time.Time       // when the broker got the request, or the zero Time if that doesn't count
}

// A Response is the answer to a visit, and what is left to do then.
type Response struct {
	osb.Answer
	Binding     json.RawMessage // the object of a binding, which is the whole body then, or nil
	Instance    json.RawMessage // the object of an instance that was fetched, likewise
	Details     *Details        // of the instance, in an answer of success, or nil
	Description string          // for a person, or empty
	Rejected    *Rejection      // the backend's, or nil
	Outlook     *Outlook        // of an instance whose update has failed, or nil
	Effect      osb.Effect      // of an answer without work: EffectArrive, EffectPutOff or EffectUpdate
	Allowed     osb.Allowed     // of EffectUpdate: what the catalogue has for the Update

	IsUnfinished          bool // whether somebody has to go on with the key (Entry.IsUnfinished); not of a Fetch
	IsBound               bool // whether a deletion was put off because the instance has bindings
	IsMaintenanceConflict bool // whether an Update names another version than the plan has
}

// Handle carries a request out, with the work that it means, and returns the answer to send.
//
// The lock is taken first if it is free. If it isn't, the store answers without it, most often that work is pending. If
// work is due, nothing is written, and the request waits for the lock. If the locks are away, the store answers what
// needs no work, and all else fails.
func (s *Service) Handle(ctx context.Context, visit Visit) (Response, error) {
	if visit.IsFetch {
		return s.fetch(ctx, &visit)
	}
	c := &course{key: visit.Key, visit: &visit}
	switch err := s.answer(ctx, c); {
	case errors.Is(err, errAnother):
		return visit.unknownResponse(), nil
	case err != nil:
		return Response{}, err
	}
	return c.response, nil
}

// answer answers a request. A Poll that changes nothing waits for nobody, and needs no transaction.
func (s *Service) answer(ctx context.Context, c *course) error {
	if c.visit.Asked.Kind == osb.KindPoll {
		if isOver, err := s.look(ctx, s.pollers.of(c.key), c); err != nil || isOver {
			return err
		}
	}
	return s.drive(ctx, c)
}

// look has a driver read what is committed, and returns whether nothing is to be written, and there is nothing more to do
// than to answer. Then the reading counts as the transaction of a Poll. Otherwise it is dropped, as if it had not been: a
// driver is a value, and another one reads again in a transaction (docs/agreement.md).
func (s *Service) look(ctx context.Context, d driver, c *course) (isOver bool, err error) {
	snapshot, err := s.read(ctx, c.key)
	if err != nil {
		return false, err
	}
	it, next, err := s.step(d, snapshot, c)
	after := it.Committed().Stage()
	return next == nil && (after == osb.StageAnswer || after == osb.StageDone), err
}

// tryLock takes the lock of a key if it is free. The observer gets the failure.
func (s *Service) tryLock(ctx context.Context, key Key) (Lock, error) {
	lock, err := s.gate.tryLock(ctx, key)
	if err != nil && ctx.Err() == nil {
		s.observer.OnCallFailure("lock")
	}
	return lock, err
}

// longestWait is how long a request waits for the lock of its key. Whoever has the lock may have left it to a process
// that never ends.
const longestWait = 10 * time.Second

// lock waits for the lock of a key, and not for too long. If the locks fail, the observer gets the failure.
func (s *Service) lock(ctx context.Context, key Key) (Lock, error) {
	within, cancel := context.WithTimeout(ctx, s.wait)
	defer cancel()
	lock, err := s.locks.Lock(within, key)
	switch {
	case err == nil || ctx.Err() != nil:
		return lock, err
	case within.Err() != nil:
		return nil, fmt.Errorf("somebody else has the lock of %v, so nothing was begun", key)
	}
	s.observer.OnCallFailure("lock")
	return nil, err
}

// fetch answers a Fetch with what is stored.
func (s *Service) fetch(ctx context.Context, visit *Visit) (Response, error) {
	snapshot, err := s.read(ctx, visit.Key)
	if err == nil && !snapshot.Holding.Fits(s.modeOf(visit.Key, rowOf(snapshot.Holding))) {
		err = osb.ErrMisfit
	}
	if err != nil {
		return Response{}, err
	}
	if s.isLate(visit) {
		return Response{}, errLate
	}
	if isAnother, err := visit.namesAnother(&snapshot.Entry); err != nil || isAnother {
		return visit.unknownResponse(), err
	}
	if visit.Key.IsBinding {
		return s.fetchBinding(visit, &snapshot)
	}
	return s.fetchInstance(visit, &snapshot)
}

func (s *Service) fetchBinding(visit *Visit, snapshot *Snapshot) (Response, error) {
	answer, err := snapshot.Holding.Fetch()
	if err != nil {
		return Response{}, err
	}
	row, _ := snapshot.Holding.Row()
	if answer.Status == http.StatusOK && !s.catalogue.retrievable[row.Service] {
		answer = osb.Answer{Status: http.StatusNotFound, Body: osb.BodyOtherError}
	}
	if answer.Status != http.StatusOK {
		return Response{Answer: answer}, nil
	}
	return s.withBinding(visit.Key, answer, snapshot.Binding)
}

// withBinding is an answer with the object of a binding.
func (s *Service) withBinding(key Key, answer osb.Answer, object json.RawMessage) (Response, error) {
	if object == nil {
		return Response{}, fmt.Errorf("%v is ready, and its credentials aren't stored", key)
	}
	return Response{Answer: answer, Binding: object}, nil
}

// rowOf is the row, or the one that the pending work would make.
func rowOf(holding osb.Holding) osb.BrokerRow {
	row, isHeld := holding.Row()
	if !isHeld {
		work, _ := holding.Work()
		row = osb.BrokerRow{Service: work.Service, Plan: work.Plan}
	}
	return row
}

// noteEnd writes down, beside a holding whose work or operation has ended, the outcome.
func (e *Entry) noteEnd(key Key, done result) error {
	row, isHeld := e.Holding.Row()
	if !e.Holding.IsHeld() {
		*e = Entry{Holding: e.Holding, Life: e.Life, Worker: e.Worker}
		return nil
	}
	e.Since = time.Time{}
	if e.IsUnfinished() {
		e.Since = now()
	}
	e.Description = done.description
	if key.IsBinding && isHeld && row.Phase == osb.PhaseReady && e.Binding == nil {
		e.Binding = done.binding
	}
	if done.isUpdate && e.Change != nil {
		e.Change = e.Change.expecting(done.outlook)
	}
	if done.details != nil {
		return e.noteDetails(key, done.details)
	}
	return nil
}

// change is one transaction over what is held.
func (s *Service) change(ctx context.Context, key Key, step Step) error {
	return s.store.Change(ctx, key, func(snapshot Snapshot) (*Entry, error) {
		snapshot.leaveLives(key)
		return step(snapshot)
	})
}

func (s *Service) read(ctx context.Context, key Key) (Snapshot, error) {
	snapshot, err := s.store.Read(ctx, key)
	snapshot.leaveLives(key)
	return snapshot, err
}

// now is the time that is stored, in milliseconds.
func now() time.Time { return time.Now().UTC().Truncate(time.Millisecond) }

// step has a driver read a row. It returns what the transaction comes to, and the entry to write, or nil if that stays.
func (s *Service) step(d driver, snapshot Snapshot, c *course) (transaction, *Entry, error) {
	if c.visit != nil && d.Stage() == osb.StageBegin {
		return s.begin(d, &snapshot, c)
	}
	row := s.reading(c.key, &snapshot)
	row.MayGiveUp = time.Since(snapshot.Since) >= s.options.WaitForPoll
	it, err := s.readRow(d, row, &snapshot)
	if err != nil {
		return it, nil, err
	}
	effect, _, _ := it.Effect()
	isOver := it.Committed().Stage() == osb.StageDone
	if isOver && effect == osb.EffectNothing && d.Stage() != osb.StageBegin {
		return it, nil, ErrLostWork
	}
	entry := snapshot.Entry
	it.write(&entry, nil)
	switch effect {
	case osb.EffectEnd, osb.EffectFinish, osb.EffectEndUpdate, osb.EffectFinishUpdate:
		if err = entry.noteEnd(c.key, c.done); err == nil {
			err = s.tellEnd(entry, it, c)
		}
	case osb.EffectGiveUpWaiting:
		err = entry.noteEnd(c.key, result{description: noPoll})
		s.tellLate(snapshot.Entry, c)
	}
	c.entry, c.request = entry, nil
	if err != nil || !it.Writes() {
		return it, nil, err
	}
	return it, &c.entry, nil
}

// readRow has the driver of an instance or of a binding read its row.
func (s *Service) readRow(d driver, row osb.Reading, snapshot *Snapshot) (transaction, error) {
	if d.isBinding {
		return d.readBinding(row, snapshot.Instance.Holding)
	}
	return d.readInstance(readingOf(row, &snapshot.Entry))
}

// reading is what a driver reads of a row.
func (s *Service) reading(key Key, snapshot *Snapshot) osb.Reading {
	return osb.Reading{
		Holding: snapshot.Holding, Number: snapshot.Worker, ID: key.ID(), RowMode: s.modeOf(key, rowOf(snapshot.Holding)),
	}
}

// modeOf is the mode of a row's plan.
func (s *Service) modeOf(key Key, row osb.BrokerRow) osb.Mode {
	return s.catalogue.mode(key.IsBinding, planIDs{row.Service, row.Plan})
}

// begin is the first transaction of a request.
func (s *Service) begin(d driver, snapshot *Snapshot, c *course) (it transaction, next *Entry, err error) {
	visit := c.visit
	if s.isLate(visit) {
		return it, nil, errLate
	}
	snapshot, returned := s.options.enter(snapshot, visit)
	it, err = s.beginHolding(d, snapshot, visit)
	if err != nil {
		return it, nil, err
	}
	if isAnother, err := visit.namesAnother(&snapshot.Entry); err != nil || isAnother {
		return it, nil, either(err, errAnother)
	}
	entry := snapshot.Entry
	it.write(&entry, visit)
	if after := it.Committed(); after.Stage() == osb.StageAnswer {
		if c.response, err = s.respond(snapshot, visit, after); err != nil {
			return it, nil, err
		}
		c.response.Effect, _, _ = it.Effect()
		c.response.Allowed = it.allowed
		if !visit.Key.IsBinding && visit.Asked.Kind == osb.KindDeprovision && c.response.Effect == osb.EffectPutOff &&
			!snapshot.Change.isUnderWay() {
			c.response.Description, c.response.IsBound = "The instance has bindings. Delete them first.", true
		}
		c.response.IsUnfinished = entry.IsUnfinished()
	}
	if !it.Writes() {
		return it, s.options.renewal(snapshot, visit), nil
	}
	if returned != nil {
		c.after = append(c.after, func() { s.tellReturn(*returned) })
	}
	if visit.Update == nil || it.Committed().Stage() != osb.StageAnswer { // an Update that is answered begins nothing
		c.request, err = entry.noteBeginning(visit)
	}
	c.entry = entry
	return it, &c.entry, err
}

// beginHolding has the driver of a request read its row. Nothing of an instance begins while one of its bindings is held.
func (s *Service) beginHolding(d driver, snapshot *Snapshot, visit *Visit) (began transaction, err error) {
	row := s.reading(visit.Key, snapshot)
	row.FirstPoll, row.Attributes, row.MayBegin = s.options.FirstPoll, visit.Attributes, true
	if visit.Update != nil {
		return s.beginUpdate(d, row, snapshot, visit)
	}
	asked := s.asked(visit, snapshot)
	if row.Request, err = asked.Request(snapshot.Holding.Row()); err != nil {
		return began, err
	}
	row.Mode = s.modeOf(visit.Key, osb.BrokerRow{Service: row.Request.Service, Plan: row.Request.Plan})
	if visit.Key.IsBinding {
		instance, err := visit.instance(snapshot)
		if asked.Kind == osb.KindProvision && !snapshot.Instance.isBindable(visit.Asked.Plan) {
			instance = osb.Holding{} // so the Bind is put off
		}
		if err == nil {
			began, err = d.readBinding(row, instance)
		}
		return began, err
	}
	if asked.Kind != osb.KindPoll { // which begins nothing that a binding is in the way of
		isBound, err := snapshot.AnyBinding()
		if err != nil {
			return began, err
		}
		row.MayBegin = !isBound
	}
	if asked.Kind == osb.KindProvision {
		return s.beginProvision(d, row, snapshot, visit)
	}
	return s.readRow(d, row, snapshot)
}

// tellEnd makes the answer of work that ends, or has a take-up's end reported.
func (s *Service) tellEnd(entry Entry, it transaction, c *course) (err error) {
	done, answer := c.done, it.Committed().Answer()
	isUnfinished := entry.IsUnfinished()
	if c.visit == nil {
		c.after = append(c.after, func() { c.went = done.went(isUnfinished) })
		if !isUnfinished {
			c.after = append(c.after, func() { s.observer.OnEnd(c.key, done.isDone) })
		}
	}
	c.response = Response{Answer: answer, Description: done.description, Rejected: done.rejected, Outlook: done.outlook}
	row, _ := entry.Holding.Row()
	if c.key.IsBinding && row.Phase == osb.PhaseReady && (c.visit == nil || answer.Status == http.StatusCreated) {
		c.response, err = s.withBinding(c.key, answer, entry.Binding)
	} else {
		c.response, err = entry.withDetails(c.key, c.response)
	}
	c.response.IsUnfinished = isUnfinished
	return err
}

// respond returns an answer that needs no work, with what is stored beside the holding.
func (s *Service) respond(snapshot *Snapshot, visit *Visit, after driver) (Response, error) {
	answer := after.Answer()
	if after.IsUpdate() {
		conflict := osb.Answer{Status: http.StatusUnprocessableEntity, Body: osb.BodyOtherError}
		return Response{Answer: conflict, IsMaintenanceConflict: true}, nil
	}
	isBind := visit.Key.IsBinding && visit.Asked.Kind == osb.KindProvision
	if isBind && answer.Status == http.StatusOK && answer.Body == osb.BodyEmpty {
		return s.withBinding(visit.Key, answer, snapshot.Binding)
	}
	if answer.Body == osb.BodyFailed {
		return Response{Answer: answer, Description: snapshot.Description, Outlook: snapshot.outlook(answer)}, nil
	}
	if visit.Asked.Kind == osb.KindProvision && answer.Status == http.StatusInternalServerError {
		return failedBefore(snapshot, visit, answer)
	}
	return snapshot.withDetails(visit.Key, Response{Answer: answer})
}

// failedBefore answers the creation of what has failed. It says why, unless a deletion has failed since.
func failedBefore(snapshot *Snapshot, visit *Visit, answer osb.Answer) (Response, error) {
	request, err := requestOf(visit.Key, rowOf(snapshot.Holding), snapshot.Request)
	if err != nil || request.Deletion != nil {
		return Response{Answer: answer}, err
	}
	return Response{Answer: answer, Description: snapshot.Description}, nil
}

// noteBeginning writes down, beside a holding that has changed, what the worker needs. It returns what the entry's
// Request is the text of, or nil if that has to be read.
func (e *Entry) noteBeginning(visit *Visit) (*Request, error) {
	e.Since = now()
	switch {
	case !e.Holding.IsHeld(): // only a tombstone
		*e = Entry{Holding: e.Holding, Life: e.Life, Worker: e.Worker}
	case visit.Asked.Kind == osb.KindProvision:
		e.Request, e.Binding, e.Description = visit.Request, nil, ""
		return visit.Creation, nil
	case visit.Asked.Kind == osb.KindDeprovision:
		return e.noteDeletion(visit)
	}
	return nil, nil
}

func (e *Entry) noteDeletion(visit *Visit) (*Request, error) {
	row, _ := e.Holding.Row()
	request, err := requestOf(visit.Key, row, e.Request)
	if err != nil {
		return nil, err
	}
	origin := visit.Origin
	request.Deletion = &origin
	e.Request, err = request.text()
	return &request, err
}
