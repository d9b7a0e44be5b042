package platform

import (
	"context"
	"errors"
	"fmt"
	"net/http"
	"time"

	"pippinterm/internal/crash"
	"pippinterm/osb"
)

var (
	errLate    = errors.New("it wasn't sent: the time of the exchange was over")
	errUnsure  = errors.New("it wasn't sent: nobody knows whether it is recorded")
	errNoVault = errors.New("there is no key to seal the credentials with")
)

// exchange sends one request, and takes its result. In between it calls answered, with whether there is an answer.
func (e *Engine) exchange(ctx context.Context, registry *registry, s *sending, answered func(isAnswered bool)) nextDue {
	carryOut := e.drive
	if s.isLast() {
		carryOut = e.sendLast
	}
	isOver := false
	release := func() {
		if !isOver {
			answered(s.result.Lost == nil)
			registry.judge(s.out.Broker, s.result.Incoming)
		}
		isOver = true
	}
	err := carryOut(ctx, s, release)
	release() // also if nothing could be written
	switch {
	case err != nil:
		e.fail("answer_not_written", s, err)
		return nextDue{}
	case s.entry == nil && s.unsure != nil: // it wasn't recorded
		return nextDue{isDue: true}
	case s.entry == nil:
		e.fail("lease_lost", s, osb.ErrNotInFlight)
		return nextDue{}
	}
	e.changed(s.entry, s.before)
	if s.isLast() {
		if shown, _ := judgeLast(s.result.Incoming); shown != nothingLeft {
			e.observer.OnOrphan(s.entry.Key, s.result.Status, shown == orphanFound)
		}
	}
	return nextDue{in: s.entry.Due.Sub(s.read), isDue: !s.entry.Due.IsZero()}
}

// changed reports that a row has changed to another state.
func (e *Engine) changed(after *Entry, before State) {
	if after.State != before {
		e.observer.OnChange(after.Key, before, after.State)
	}
}

// judge notes what the answer to a request shows of its broker.
func (r *registry) judge(of Broker, in Incoming) {
	switch {
	case isRefusal(in.Status):
		r.lose(of, "broker_refuses", fmt.Errorf("status %d", in.Status))
	case errors.Is(in.Lost, ErrOtherStore) && in.Status < http.StatusInternalServerError:
		r.lose(of, "other_store", brief(in.Lost))
	case errors.Is(in.Lost, ErrUnreachable):
		r.lose(of, "broker_unreached", brief(in.Lost))
	}
}

// isRefusal reports whether a broker refuses the user or the password.
func isRefusal(status int) bool {
	return status == http.StatusUnauthorized || status == http.StatusForbidden
}

func (e *Engine) fail(event string, s *sending, err error) {
	e.observer.OnFailure(Failure{
		Event: event, Broker: s.out.Entry.Broker, Key: s.out.Entry.Key, IsNamed: true, RequestID: s.out.RequestID,
		Err: brief(err),
	})
}

// stepFailed reports a row of which nothing could be decided. It isn't due at once any more, so it keeps no other
// waiting.
func (e *Engine) stepFailed(key Key, err error) {
	if err != nil {
		e.observer.OnFailure(Failure{Event: "step_failed", Key: key, IsNamed: true, Err: brief(err)})
	}
}

// ask sends the request of a driver.
func (e *Engine) ask(ctx context.Context, s *sending) (osb.PlatformDriver, error) {
	s.result.Incoming = e.send(ctx, s, s.result.kind)
	e.seal(s)
	if s.result.Lost != nil {
		return s.driver.Lost()
	}
	return s.driver.Answered(s.result.Answer, s.result.sealed != nil)
}

// fetch sends the Fetch that has to follow the answer to a Poll.
func (e *Engine) fetch(ctx context.Context, s *sending) (osb.PlatformDriver, error) {
	crash.At("fetch-next")
	fetch := *s
	fetch.out.IsFetch, fetch.attempt = true, 0
	fetched := e.send(ctx, &fetch, "fetch")
	s.out.RequestID = fetch.out.RequestID
	if fetched.Lost == nil && fetched.Binding == nil {
		fetched.Lost = fmt.Errorf("status %d: %w", fetched.Status, osb.ErrNoBinding)
	}
	if fetched.Lost != nil {
		s.result = exchangeResult{kind: "fetch", Incoming: fetched}
	}
	s.result.Binding, s.result.Metadata = fetched.Binding, fetched.Metadata
	e.seal(s)
	return s.driver.Fetched(s.result.sealed != nil)
}

// sendLast sends the last deletion of a row that is gone, of which nothing is in the record.
func (e *Engine) sendLast(ctx context.Context, s *sending, answered func()) error {
	if s.unsure == nil {
		s.result.Incoming = e.send(ctx, s, s.result.kind)
	}
	answered()
	return e.write(ctx, s, s.takeLastAnswer)
}

// seal seals the object of a binding. If that fails, the answer counts as lost, since nobody could use the binding.
func (e *Engine) seal(s *sending) {
	if s.result.Binding == nil || s.result.Lost != nil || !s.out.Entry.Key.IsBinding {
		return
	}
	err := errNoVault
	if e.vault != nil {
		s.result.sealed, err = e.vault.Seal(s.result.Binding, s.out.Entry.Key.String())
	}
	if err != nil {
		s.result.Lost, s.result.isUnsealed = fmt.Errorf("the credentials can't be sealed: %w", err), true
		e.fail("credentials_lost", s, err)
	}
}

// send is one exchange. The request gets an identity.
func (e *Engine) send(ctx context.Context, s *sending, kind string) Incoming {
	id, err := newID()
	if err != nil {
		return Incoming{Lost: err}
	}
	crash.At("send-next")
	if !e.client.Clock().Before(s.out.Until) {
		return Incoming{Lost: errLate}
	}
	s.out.RequestID = id.String()
	exchange := Exchange{
		RequestID: s.out.RequestID, Broker: s.out.Entry.Broker, Key: s.out.Entry.Key, Kind: kind, Attempt: s.attempt,
	}
	e.observer.OnRequest(exchange)
	crash.Soon("send-running")
	in := e.client.Exchange(ctx, s.out)
	exchange.Status, exchange.Lost, exchange.RetryAfter, exchange.Duration = in.Status, brief(in.Lost), in.RetryAfter, in.Duration
	exchange.Error, exchange.Description = textOf(in.Details.Error), textOf(in.Details.Description)
	e.observer.OnAnswer(exchange)
	return in
}

// longestRetry is the longest time until an answer is written again.
const longestRetry = time.Second

// waits waits, and returns false at once if ctx is done, or if it were longer than until a time.
func (e *Engine) waits(ctx context.Context, rest time.Duration, until time.Time) bool {
	return e.client.Clock().Add(rest).Before(until) && sleep(ctx, rest)
}

// sleep waits, and returns false at once if ctx is done.
func sleep(ctx context.Context, rest time.Duration) bool {
	timer := time.NewTimer(rest)
	defer timer.Stop()
	select {
	case <-ctx.Done():
		return false
	case <-timer.C:
		return true
	}
}
