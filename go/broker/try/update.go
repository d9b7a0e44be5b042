package try

import (
	"context"
	"errors"
	"fmt"
	"time"

	"pippinterm/broker"
	"pippinterm/osb"
)

// updates is the backend, if it can update, and if there is something to update to.
func (t *trial) updates() (broker.UpdateBackend, bool) {
	backend, isOne := t.calls.backend.(broker.UpdateBackend)
	hasGoal := t.options.UpdateTo != nil || len(t.options.UpdateParameters) > 0
	return backend, isOne && hasGoal && broker.AbilitiesOf(t.calls.backend).Updates
}

// settings are those with which an instance is created.
func (t *trial) settings() broker.Settings {
	settings := broker.Settings{PlanID: t.options.Plan.ID}
	if len(t.options.Parameters) > 0 {
		settings.Parameters = t.options.Parameters
	}
	return settings
}

// goal are the settings to which it is updated.
func (t *trial) goal() broker.Settings {
	to := t.settings()
	if t.options.UpdateTo != nil {
		to.PlanID = t.options.UpdateTo.ID
	}
	if len(t.options.UpdateParameters) > 0 {
		to.Parameters = t.options.UpdateParameters
	}
	return to
}

// update updates an instance and updates it back. What else exists stays as it is, and the bindings have the credentials
// that they had.
func (t *trial) update(ctx context.Context, r *resource) {
	backend, canUpdate := t.updates()
	if !canUpdate || !r.isCreated {
		return
	}
	there := broker.Update{Request: r.request, From: t.settings(), To: t.goal(), Origin: r.request.Origin}
	back := broker.Update{Request: r.request, From: there.To, To: there.From, Origin: r.request.Origin}
	u := updating{trial: t, backend: backend, instance: r}
	u.lookBefore(ctx, there)
	took := u.updateTo(ctx, there, "")
	u.updateTo(ctx, there, " again")
	u.updateTo(ctx, back, " back")
	u.breakOff(ctx, there, took/2)
	u.updateTo(ctx, there, " after it was broken off")
	u.updateTo(ctx, back, " back")
	u.updateToUnknown(ctx, back)
	for _, other := range t.resources() {
		t.isUntouched(ctx, other)
		if other.request.Key.IsBinding {
			t.compareCredentials(ctx, other)
		}
	}
}

// An updating is the trial of the updates of one instance.
type updating struct {
	*trial
	backend  broker.UpdateBackend
	instance *resource
}

// update calls the backend.
func (u *updating) update(ctx context.Context, update broker.Update) error {
	return u.calls.under(ctx, update.Key, func(ctx context.Context) error { return u.backend.Update(ctx, update) })
}

// done looks how much of an update is done.
func (u *updating) done(ctx context.Context, update broker.Update) (done broker.There, err error) {
	err = u.calls.under(ctx, update.Key, func(ctx context.Context) (err error) {
		done, err = u.backend.LookUpdate(ctx, update)
		return err
	})
	return done, err
}

// try makes a call of the instance.
func (u *updating) try(ctx context.Context, call, remark string, do func() (found string, err error)) {
	u.trial.try(ctx, call+" "+u.instance.String()+remark, do)
}

// lookBefore looks before the first update. If both settings have the same effect, all of it is done already.
func (u *updating) lookBefore(ctx context.Context, update broker.Update) {
	u.try(ctx, "look-update", "", func() (string, error) {
		done, err := u.done(ctx, update)
		switch {
		case err == nil && done == broker.Part:
			err = errors.New("part, and not none")
		case err == nil && done == broker.Whole:
			return "whole: both settings have the same effect, so no change is tried", nil
		}
		return wordOf(done), err
	})
}

// updateTo updates the instance, and returns how long that took. All of the update has to be done then.
func (u *updating) updateTo(ctx context.Context, update broker.Update, remark string) (took time.Duration) {
	u.try(ctx, "update", remark, func() (string, error) {
		begun := time.Now()
		defer func() { took = time.Since(begun) }()
		return "", u.update(ctx, update)
	})
	u.try(ctx, "look-update", "", func() (string, error) {
		done, err := u.done(ctx, update)
		if err == nil && done != broker.Whole {
			err = fmt.Errorf("%v, and not whole", wordOf(done))
		}
		return wordOf(done), err
	})
	return took
}

// breakOff breaks an update off after a time, as the end of a broker does. A look can tell whatever is done then.
func (u *updating) breakOff(ctx context.Context, update broker.Update, after time.Duration) {
	u.try(ctx, "update", ", broken off", func() (string, error) {
		within, cancel := context.WithTimeout(ctx, after)
		defer cancel()
		if err := u.update(within, update); err != nil && within.Err() == nil {
			return "", err
		}
		done, err := u.done(ctx, update)
		return wordOf(done), err
	})
}

// updateToUnknown updates to a plan that doesn't exist. If the backend rejects that, nothing is changed. If it has no
// such limits, the instance is updated back.
func (u *updating) updateToUnknown(ctx context.Context, back broker.Update) {
	odd, home := back, back
	odd.From, odd.To.PlanID = back.To, "osb-broker-try-no-plan"
	home.From = odd.To
	u.try(ctx, "update", " to an unknown plan", func() (string, error) {
		err := u.update(ctx, odd)
		done, looked := u.done(ctx, odd)
		var rejected *broker.Rejection
		switch {
		case looked != nil:
			return "", looked
		case errors.As(err, &rejected) && done != broker.None:
			return "", fmt.Errorf("it was rejected, and %v of it is done", wordOf(done))
		case err == nil && done != broker.Whole:
			return "", fmt.Errorf("it has succeeded, and %v of it is done", wordOf(done))
		case err != nil:
			return "failed, " + wordOf(done), nil
		}
		return wordOf(done), nil
	})
	u.updateTo(ctx, home, " to an unknown plan, and back")
}

// Next returns another plan of the same service to which an instance of a plan can be updated, or nil if there is none.
//
// Errors: those of osb.ReadPlanUpdates.
func Next(document []byte, plans []Plan, of Plan) (*Plan, error) {
	ids, err := numbersOf(of.ServiceID, of.ID)
	if err != nil {
		return nil, err
	}
	updates, err := osb.ReadPlanUpdates(document, ids.service, ids.plan)
	if err != nil || !updates.Updateable {
		return nil, err
	}
	for at := range plans {
		if plans[at].ServiceID == of.ServiceID && plans[at].ID != of.ID {
			return &plans[at], nil
		}
	}
	return nil, nil
}
