//go:build storm

package without

import (
	"context"
	"encoding/json"
	"errors"
	"fmt"
	"net/http"
	"sync"
	"time"

	"pippinterm/broker"
	"pippinterm/osb"
	"pippinterm/platform"
	"pippinterm/storm/run/goods"
)

// StoreAndLocks returns the store and the locks of a broker that lacks a part of the design:
//
//	(empty)     nothing is taken out
//	available   a Bind begins although its instance isn't available
//	held        a Deprovision begins although bindings of its instance are held
//	tombstones  nothing is kept of what has ended
//	work        no work becomes pending: it is done, and then written down
//	busy        while work is pending, a request is judged as if none were
//	locks       whoever asks for a lock gets it
//	broker      the broker as it is usually written: the work first and then its row, with no tombstones and no locks.
//	            The unfinished work of the last process has failed
//
// Errors: if it is no such part; with broker, those of the store.
func StoreAndLocks(
	ctx context.Context, part string, store broker.NamedStore, locks broker.Locks,
) (broker.NamedStore, broker.Locks, error) {
	switch part {
	case "":
		return store, locks, nil
	case "available":
		return stepStore{store, bindsAnyway}, locks, nil
	case "held":
		return stepStore{store, ignoreBindings}, locks, nil
	case "tombstones":
		return stepStore{store, forgetEnds}, locks, nil
	case "work":
		return stepStore{store, newDiary().step}, locks, nil
	case "busy":
		return stepStore{store, ignoreWork}, locks, nil
	case "locks":
		return store, withoutLocks{}, nil
	case "broker":
		err := failUnfinished(ctx, store)
		return stepStore{stepStore{idleStore{store}, newDiary().step}, forgetEnds}, withoutLocks{}, err
	}
	return nil, nil, fmt.Errorf("storm: a broker can't run without %q", part)
}

// A stepStore is a store whose transactions have another step.
type stepStore struct {
	broker.NamedStore
	step func(key broker.Key, step broker.Step, snapshot broker.Snapshot) (*broker.Entry, error)
}

// Change has the other step decide what is written.
func (s stepStore) Change(ctx context.Context, key broker.Key, step broker.Step) error {
	return s.NamedStore.Change(ctx, key, func(snapshot broker.Snapshot) (*broker.Entry, error) {
		return s.step(key, step, snapshot)
	})
}

// bindsAnyway judges a Bind that doesn't begin once more, as if its instance were available, with each plan of a
// storm's catalogue.
func bindsAnyway(key broker.Key, step broker.Step, snapshot broker.Snapshot) (*broker.Entry, error) {
	next, err := step(snapshot)
	if !key.IsBinding || next != nil || err != nil || snapshot.Holding.IsHeld() {
		return next, err
	}
	for _, plan := range []string{goods.AtOnce, goods.Later, goods.LaterWithBinds, goods.OnlyBindsLater} {
		available := snapshot
		if available.Instance.Holding, err = availableHolding(key, osb.MustParseID(goods.Service), osb.MustParseID(plan)); err != nil {
			return nil, err
		}
		if next, err := step(available); err == nil && next != nil && next.Holding.IsHeld() {
			return next, nil
		}
	}
	return step(snapshot)
}

// availableHolding returns the holding of a binding's instance that is available.
func availableHolding(of broker.Key, service, plan osb.ID) (osb.Holding, error) {
	request := osb.Request{ID: of.Instance, Kind: osb.KindProvision, Service: service, Plan: plan}
	begun, _, err := osb.Holding{}.Begin(osb.ModeSync, request, osb.Rules{})
	if err != nil {
		return osb.Holding{}, err
	}
	available, _, err := begun.End(osb.ModeSync, osb.OutcomeDone)
	return available, err
}

// ignoreBindings says of each instance that none of its bindings is held.
func ignoreBindings(key broker.Key, step broker.Step, snapshot broker.Snapshot) (*broker.Entry, error) {
	if !key.IsBinding {
		snapshot.AnyBinding = func() (bool, error) { return false, nil }
	}
	return step(snapshot)
}

// forgetEnds keeps nothing of what has ended.
func forgetEnds(_ broker.Key, step broker.Step, snapshot broker.Snapshot) (*broker.Entry, error) {
	next, err := step(snapshot)
	if err == nil && next != nil && next.Holding.HasTombstone() {
		next = &broker.Entry{}
	}
	return next, err
}

// withoutLocks are locks that exclude nobody.
type withoutLocks struct{}

func (withoutLocks) Lock(context.Context, broker.Key) (broker.Lock, error)    { return noLock{}, nil }
func (withoutLocks) TryLock(context.Context, broker.Key) (broker.Lock, error) { return noLock{}, nil }
func (withoutLocks) CanBeLost() bool                                          { return false }

type noLock struct{}

func (noLock) Context(ctx context.Context) context.Context { return ctx }
func (noLock) Unlock()                                     {}

// listens is for how much longer ClientWithoutAttempts listens for an answer.
const listens = 15 * time.Second

// ClientWithoutAttempts returns the client of a platform that ignores the numbers of requests. It goes on listening for
// the answer to a request that has timed out, and takes the answer for that to whatever request of the instance is in
// flight by then. Of bindings nothing is changed.
func ClientWithoutAttempts(client platform.Client, store platform.Store) platform.Client {
	return clientWithoutAttempts{Client: client, store: store}
}

type clientWithoutAttempts struct {
	platform.Client
	store platform.Store
}

// Exchange sends a request as the client does, and listens for longer.
func (c clientWithoutAttempts) Exchange(ctx context.Context, out platform.Outgoing) platform.Incoming {
	if out.Entry.Key.IsBinding {
		return c.Client.Exchange(ctx, out)
	}
	limit := time.NewTimer(out.Until.Sub(c.Clock()))
	defer limit.Stop()
	patient := out
	patient.Until = out.Until.Add(listens)
	came, isOver := make(chan platform.Incoming), make(chan struct{})
	go func() { // it ends with the exchange
		in := c.Client.Exchange(ctx, patient)
		select {
		case came <- in:
		case <-isOver:
			c.takeLate(ctx, out.Entry.Key, in)
		}
	}()
	select {
	case in := <-came:
		return in
	case <-limit.C:
		close(isOver)
		return platform.Incoming{Lost: context.DeadlineExceeded}
	}
}

// takeLate takes an answer for that to the request in flight, whichever it is.
func (c clientWithoutAttempts) takeLate(ctx context.Context, key platform.Key, in platform.Incoming) {
	if in.Lost != nil {
		return
	}
	_ = c.store.Change(ctx, key, func(now time.Time, snapshot platform.Snapshot) (*platform.Change, error) {
		e := snapshot.Entry
		if !e.IsSent || e.Record.InFlight() == osb.KindNone {
			return nil, nil
		}
		record, err := e.Record.Answer(e.Record.Attempt(), in.Answer)
		if err != nil {
			return nil, err
		}
		before := e.State
		e.Record, e.State, e.Lease, e.Due = record, platform.StateOf(record), platform.Lease{}, now
		if e.State != before {
			e.Since, e.PolledSince, e.Operation = now, now, nil
		}
		return &platform.Change{Entry: e}, nil
	})
}

// ForgetfulStore returns the store of a platform as platforms are usually written: a creation that has failed, or of
// which no answer says how it has ended, is recorded as gone, and forgotten. Package platform has it deleted. Creations
// that are to be removed, and deletions, go on as they do there.
func ForgetfulStore(store platform.Store) platform.Store { return forgetfulStore{store} }

type forgetfulStore struct{ platform.Store }

// Claim has the step decide once more about what is forgotten, so that it sends nothing.
func (s forgetfulStore) Claim(
	ctx context.Context, brokers []string, most int, step platform.Step,
) ([]platform.ClaimedRow, error) {
	return s.Store.Claim(ctx, brokers, most, func(now time.Time, snapshot platform.Snapshot) (*platform.Change, error) {
		change, isForgotten, err := forget(now, snapshot, step)
		if !isForgotten || err != nil {
			return change, err
		}
		snapshot.Entry = change.Entry
		return step(now, snapshot)
	})
}

// Change writes that a creation is forgotten in place of its deletion.
func (s forgetfulStore) Change(ctx context.Context, key platform.Key, step platform.Step) error {
	return s.Store.Change(ctx, key, func(now time.Time, snapshot platform.Snapshot) (*platform.Change, error) {
		change, _, err := forget(now, snapshot, step)
		return change, err
	})
}

// forget is what a step writes. If that is the beginning of a deletion for which nobody has asked, the row is gone.
func forget(
	now time.Time, snapshot platform.Snapshot, step platform.Step,
) (change *platform.Change, isForgotten bool, err error) {
	change, err = step(now, snapshot)
	if err != nil || change == nil || !isMitigation(snapshot.State, change.Entry) {
		return change, false, err
	}
	e := &change.Entry
	e.Record, err = goneOf(e.Key, e.Record)
	e.State, e.Since, e.Operation, e.HasLast = platform.Gone, now, nil, false
	e.Due, e.DueSince, e.Lease, e.Unchanged = time.Time{}, time.Time{}, platform.Lease{}, 0
	change.WakeInstance = e.Key.IsBinding
	return change, true, err
}

// goneOf is the record after a deletion that is answered with 410.
func goneOf(key platform.Key, record osb.Record) (osb.Record, error) {
	if record.InFlight() == osb.KindNone {
		var err error
		if record, _, err = record.Send(key.ID()); err != nil {
			return record, err
		}
	}
	answer := osb.Answer{Status: http.StatusGone, Body: osb.BodyEmpty}
	if key.IsBinding {
		return record.AnswerBinding(record.Attempt(), answer, false)
	}
	return record.Answer(record.Attempt(), answer)
}

// isMitigation reports whether a row changes from a creation to a deletion for which nobody has asked.
func isMitigation(before platform.State, after platform.Entry) bool {
	isCreated := before == platform.Wanted || before == platform.Polling
	return isCreated && after.State == platform.Cleaning && after.Removal == platform.NotRemoved
}

// A diary remembers pending work, until the process ends, for the change that ends the work.
type diary struct {
	turn  sync.Mutex
	begun map[broker.Key]broker.Entry
}

func newDiary() *diary { return &diary{begun: map[broker.Key]broker.Entry{}} }

// step writes what a step returns, unless that has pending work, which is only remembered. A step that misses its
// pending work is called again with what is remembered.
func (d *diary) step(key broker.Key, step broker.Step, snapshot broker.Snapshot) (*broker.Entry, error) {
	next, err := step(snapshot)
	d.turn.Lock()
	defer d.turn.Unlock()
	if begun, isBegun := d.begun[key]; isBegun && errors.Is(err, broker.ErrLostWork) {
		snapshot.Entry = begun
		return step(snapshot)
	}
	if err == nil && next != nil && isPending(*next) {
		d.begun[key] = *next
		return nil, nil
	}
	return next, err
}

// ignoreWork shows a step what is held without its pending work. That stays pending, until other work takes its place.
// A step that takes the work over, or misses it, gets it.
func ignoreWork(_ broker.Key, step broker.Step, snapshot broker.Snapshot) (*broker.Entry, error) {
	taken, err := step(snapshot)
	isTakeOver := err == nil && taken != nil && taken.Holding == snapshot.Holding
	if !isPending(snapshot.Entry) || isTakeOver {
		return taken, err
	}
	without, err := idleHolding(snapshot.Holding)
	if err != nil {
		return nil, err
	}
	shown := snapshot
	shown.Holding = without
	next, err := step(shown)
	if errors.Is(err, broker.ErrLostWork) { // it is the end of the work
		return step(snapshot)
	}
	if err == nil && next != nil && !isPending(*next) {
		next = nil
	}
	return next, err
}

func isPending(entry broker.Entry) bool {
	_, isPending := entry.Holding.Work()
	return isPending
}

// idleHolding returns a holding without its pending work. The texts of instances serve for both kinds.
func idleHolding(holding osb.Holding) (without osb.Holding, err error) {
	if _, isHeld := holding.Row(); !isHeld {
		return osb.Holding{}, nil
	}
	text, err := holding.MarshalJSON()
	if err != nil {
		return holding, err
	}
	var members map[string]json.RawMessage
	if err := json.Unmarshal(text, &members); err != nil {
		return holding, err
	}
	members["work"] = json.RawMessage("null")
	if text, err = json.Marshal(members); err != nil {
		return holding, err
	}
	err = without.UnmarshalJSON(text)
	return without, err
}

// idleStore says of each operation that it has ended: none is taken up.
type idleStore struct{ broker.NamedStore }

func (idleStore) UnfinishedKeys(context.Context) ([]broker.Key, error) { return nil, nil }

// failUnfinished has each operation fail that the last process left unfinished.
func failUnfinished(ctx context.Context, store broker.Store) error {
	keys, err := store.UnfinishedKeys(ctx)
	if err != nil {
		return err
	}
	for _, key := range keys {
		err := store.Change(ctx, key, func(snapshot broker.Snapshot) (*broker.Entry, error) {
			row, isHeld := snapshot.Holding.Row()
			if !isHeld || row.Phase != osb.PhaseMaking && row.Phase != osb.PhaseDeleting {
				return nil, nil
			}
			failed, err := snapshot.Holding.Finish(false)
			entry := snapshot.Entry
			entry.Holding = failed
			return &entry, err
		})
		if err != nil {
			return err
		}
	}
	return nil
}
