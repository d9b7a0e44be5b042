package platform

import (
	"context"
	"fmt"
	"sort"
	"time"

	"pippinterm/internal/crash"
	"pippinterm/osb"
)

// claimResult is the result of a claim.
type claimResult struct {
	sendings []*sending // what is to be sent
	claimed  int        // the rows that were stepped
	err      error
}

// claim runs the first transaction of a driver of each row that is due, as far as there are free slots. The time of
// their exchanges begins before the claim, so that a worker that is paused in or after the claim sends nothing that is
// late.
func (e *Engine) claim(
	ctx context.Context, registry *registry, names []string, most int, spare *spareSlots,
) (found claimResult) {
	until := e.client.Clock().Add(e.Exchange)
	decisions := map[Key]*decision{}
	rows, err := e.store.Claim(ctx, names, most, func(now time.Time, snapshot Snapshot) (*Change, error) {
		delete(decisions, snapshot.Key)
		made, err := registry.decide(now, snapshot)
		if err != nil || made == nil {
			return nil, err
		}
		spare.useFor(now, snapshot.Entry, made, decisions)
		decisions[snapshot.Key] = made
		crash.At("claim-next")
		return made.change(), nil
	})
	found.err, found.claimed = err, len(rows)
	if e.health.wrote(len(decisions) > 0, err) {
		found.sendings = inDoubt(decisions, most, err)
		return found
	}
	crash.At("claim-written")
	for _, row := range rows {
		switch made := decisions[row.Key]; {
		case made == nil || row.Err != nil:
			e.stepFailed(row.Key, row.Err)
		case made.send != nil:
			made.send.out.Until, made.send.driver = until, made.send.transaction.Committed()
			found.sendings = append(found.sendings, made.send)
		default:
			e.stepFailed(row.Key, made.err)
			e.changed(&made.Entry, made.before)
		}
	}
	return found
}

// inDoubt are the requests of a claim of which nobody knows whether it was committed.
func inDoubt(decisions map[Key]*decision, most int, err error) (sendings []*sending) {
	for _, decision := range decisions {
		if s := decision.send; s != nil {
			s.driver, s.unsure = s.transaction.Unsure(), err
			s.result.Lost = fmt.Errorf("%w: %v", errUnsure, err)
			sendings = append(sendings, s)
		}
	}
	sort.Slice(sendings, func(one, other int) bool {
		return sendings[one].out.Entry.Key.String() < sendings[other].out.Entry.Key.String()
	})
	if len(sendings) > most {
		sendings = sendings[:most]
	}
	return sendings
}

// drive carries out what the driver of a request says, one action after the other, until it is over: what is sent, and
// what is written of its answer, is the library's (docs/agreement.md). It calls answered before the answer is written.
//
// Errors: those of the store, if nothing can be written for as long as the lease holds.
func (e *Engine) drive(ctx context.Context, s *sending, answered func()) (err error) {
	for err == nil {
		switch s.driver.Stage() {
		case osb.PlatformStageSend:
			s.driver, err = e.ask(ctx, s)
		case osb.PlatformStageFetch:
			s.driver, err = e.fetch(ctx, s)
		case osb.PlatformStageDone:
			return nil
		default:
			answered()
			if err = e.write(ctx, s, s.takeAnswer); err == nil {
				s.driver = s.transaction.Committed()
			}
		}
	}
	return err
}

// write runs the last transaction of a request. If it fails, it is tried again until the lease is over, or ctx is done.
func (e *Engine) write(ctx context.Context, s *sending, step Step) error {
	until := e.client.Clock().Add(e.Exchange + e.Margin)
	if s.unsure == nil {
		until = s.out.Until.Add(e.Margin)
	}
	rewrite := e.health.newRewrite()
	defer rewrite.end()
	for rest := (backOff{first: e.retry}); ; {
		var change *Change
		err := e.store.Change(ctx, s.out.Entry.Key, func(now time.Time, snapshot Snapshot) (_ *Change, err error) {
			if change, err = step(now, snapshot); change != nil {
				crash.At("take-next")
			}
			s.note(now, snapshot, change)
			return change, err
		})
		if !e.health.wrote(change != nil, err) {
			crash.At("take-written")
			return nil
		}
		rewrite.begin()
		if !e.waits(ctx, rest.next(), until) {
			return err
		}
	}
}
