package broker

import (
	"context"
	"errors"

	"pippinterm/internal/crash"
	"pippinterm/osb"
)

// mostDoubts is how many commits of which nobody knows a driver goes on after. If the store stays away, the next
// transaction fails before it has read anything.
const mostDoubts = 3

// errAnother ends the course of a request that names another id than the one that is held under its number.
var errAnother = errors.New("the request names another id with the same number")

// drive carries out what a driver says, one action after the other, until it is over: the order in which is locked,
// written, worked and answered, and in which the backend is called, is the library's (docs/agreement.md).
//
// Errors: those of the store, the locks and the backend; ErrLostWork; errAnother. What was committed until then stays,
// and a Sweeper goes on with it.
func (s *Service) drive(ctx context.Context, c *course) error {
	lock, away := s.tryLock(ctx, c.key)
	if away != nil && !errors.Is(away, ErrAway) {
		return away
	}
	defer func() {
		if lock != nil {
			lock.Unlock()
		}
	}()
	c.isLocked = lock != nil
	at := s.newDriver(c.key, c.visit != nil, c.isLocked)
	for {
		var err error
		switch at.Stage() {
		case osb.StageAwaitLock:
			if away == nil {
				lock, away = s.lock(ctx, c.key)
			}
			c.isLocked = lock != nil
			at, err = at.locked(c.isLocked)
		case osb.StageWork:
			at, err = s.work(lock.Context(ctx), at, c)
		case osb.StageAnswer:
			return nil
		case osb.StageDone:
			return c.over(either(away, c.doubt))
		default:
			at, err = s.transact(ctx, at, c)
		}
		if err != nil {
			return err
		}
	}
}

// transact is one transaction of a driver.
func (s *Service) transact(ctx context.Context, d driver, c *course) (driver, error) {
	var it transaction
	var point string
	isRead := false
	ctx = context.WithValue(ctx, transactionKey{}, &it)
	err := s.change(ctx, c.key, func(snapshot Snapshot) (next *Entry, err error) {
		point, c.after = "", nil
		it, next, err = s.step(d, snapshot, c)
		isRead = err == nil
		switch {
		case isRead && next != nil:
			point = pointOf(it)
			crash.At(point + "-next")
		case isRead && c.doubt != nil: // the commit of the same row again confirms what was read
			return snapshot.Entry.again(), nil
		}
		return next, err
	})
	if err != nil {
		if !isRead || !errors.Is(err, ErrAway) || c.doubts == mostDoubts {
			return d, err // it failed
		}
		c.doubts, c.doubt, c.doubtful = c.doubts+1, err, c.after
		return it.Unsure(), nil // nobody knows whether it was committed, until the row is read again
	}
	if point != "" {
		crash.At(point + "-written")
	}
	c.report(d, it)
	return it.Committed(), nil
}

// pointOf is the name of the crash points of a transaction that writes.
func pointOf(it transaction) (point string) {
	switch effect, _, _ := it.Effect(); {
	case effect == osb.EffectEnd:
		point = "end"
	case effect == osb.EffectFinish:
		point = "finish"
	case effect == osb.EffectEndUpdate:
		point = "end-update"
	case effect == osb.EffectFinishUpdate:
		point = "finish-update"
	case effect == osb.EffectGiveUpWaiting:
		point = "wait"
	case effect == osb.EffectNothing:
		point = "take-over"
	case it.Committed().Stage() == osb.StageAnswer:
		point = "mark"
	case effect == osb.EffectUpdate:
		point = "begin-update"
	default:
		point = "begin"
	}
	return point
}

// work makes the call of the backend that a driver names.
func (s *Service) work(ctx context.Context, d driver, c *course) (driver, error) {
	calls, err := s.callsOf(d, c)
	if err != nil {
		return d, err
	}
	switch d.Call() {
	case osb.CallLook:
		var there There
		var settings osb.Settings
		if there, settings, err = calls.look(ctx); err == nil {
			d, err = d.looked(there, settings)
		}
	case osb.CallSync:
		if err = calls.settle(ctx); err == nil {
			d, err = d.synced()
		}
	case osb.CallCreate:
		d, err = d.called(calls.create(ctx))
	case osb.CallDelete:
		d, err = d.called(calls.delete(ctx))
	case osb.CallUpdate:
		d, err = d.called(calls.change(ctx))
	default:
		err = errPart
	}
	if err != nil {
		return d, calls.unknownOutcome(err)
	}
	if d.Stage() != osb.StageWork {
		c.done, c.calls = calls.conclude(ctx, d.IsDone()), nil
	}
	return d, nil
}
