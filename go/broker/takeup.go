package broker

import (
	"context"
	"errors"
	"fmt"
	"time"

	"pippinterm/osb"
)

// longWork is how long a worker may be at a key before that is reported. Five runs of a command take 25 minutes at
// most, by default.
const longWork = 30 * time.Minute

// ErrStillTaken reports that the lock of unfinished work has been taken for long. The work goes on, or its process
// hangs.
var ErrStillTaken = fmt.Errorf("another worker has the lock, and the work began more than %v ago. "+
	"See whether its process hangs", longWork)

// A backendResult is how going on with a key went.
type backendResult int

const (
	backendUnused    backendResult = iota // the backend wasn't needed, or nobody could ask it
	backendSucceeded                      // the backend did what was asked for, or rejected it
	backendFailed                         // the backend failed or hung
)

// takeUp goes on with a key: it does pending work that a dead worker has left, goes on with the operation that runs,
// and gives up a creation that has waited too long for its first Poll. If somebody else is at the key, it does nothing.
//
// It looks first whether there is anything to do, without the lock: what waits for a Poll is unfinished, and each sweep
// would be a transaction. That says only when a driver is made. What the driver does is decided by its own transaction.
//
// Errors: those of the store, the locks and the backend; ErrStillTaken. What isn't done stays as it is, to be taken up
// again.
func (s *Service) takeUp(ctx context.Context, key Key) (backendResult, error) {
	if isOver, err := s.look(ctx, s.lookers.of(key), &course{key: key}); err != nil || isOver {
		return backendUnused, err
	}
	c := &course{key: key}
	switch err := s.drive(ctx, c); {
	case errors.Is(err, ErrNobodyKnows):
		return backendFailed, err
	case err != nil:
		return c.went, err
	case !c.isLocked:
		return c.went, s.stillTaken(ctx, key)
	}
	return c.went, nil
}

// went is how the work went that has ended. If it was the start of an operation, the backend wasn't needed yet.
func (r result) went(isUnfinished bool) backendResult {
	switch {
	case isUnfinished:
		return backendUnused
	case r.isDone || r.rejected != nil:
		return backendSucceeded
	}
	return backendFailed
}

// tellLate has it reported that a creation had no first Poll in time.
func (s *Service) tellLate(entry Entry, c *course) {
	row, _ := entry.Holding.Row()
	request, _ := requestOf(c.key, row, entry.Request) // for the log alone
	c.after = append(c.after, func() {
		s.observer.OnFailure(Failure{
			Event: "creation_timed_out", RequestID: request.RequestID, Key: c.key, IsNamed: true, Err: errNoPoll,
		})
	})
}

// stillTaken returns ErrStillTaken if somebody else has been at the key for long.
func (s *Service) stillTaken(ctx context.Context, key Key) error {
	snapshot, err := s.read(ctx, key)
	if err == nil && snapshot.IsUnfinished() && !snapshot.Since.IsZero() && time.Since(snapshot.Since) > longWork {
		err = ErrStillTaken
	}
	return err
}

// UnbindFailed deletes the bindings of an instance whose creation has failed: a platform that doesn't unbind what has
// failed could never delete their instance otherwise. It is called after the deletion of an instance was put off, and
// doesn't touch a binding that was reported to the platform. It returns the keys whose deletion has begun and somebody
// has to go on with. That is this project's choice.
func (s *Service) UnbindFailed(ctx context.Context, instance osb.ID) (begun []Key, err error) {
	bindings, err := s.store.HeldBindings(ctx, instance)
	if err != nil {
		return nil, err
	}
	for _, binding := range bindings {
		key, arrived := osb.BindingKey(instance, binding), time.Now()
		snapshot, err := s.read(ctx, key)
		if err != nil {
			return begun, err
		}
		row, isHeld := snapshot.Holding.Row()
		if !isHeld || row.Phase != osb.PhaseFailed {
			continue
		}
		request, err := requestOf(key, row, snapshot.Request)
		if err != nil {
			return begun, err
		}
		unbind := osb.Asked{
			Kind: osb.KindDeprovision, AcceptsIncomplete: true, HasService: true, HasPlan: true,
			ID: binding, Service: row.Service, Plan: row.Plan,
		}
		response, err := s.Handle(ctx, Visit{Key: key, Names: request.names(), Asked: unbind, Arrived: arrived})
		if err != nil {
			return begun, err
		}
		if response.IsUnfinished {
			begun = append(begun, key)
		}
	}
	return begun, nil
}
