package platform

import (
	"context"
	"errors"
	"fmt"
	"strings"
	"sync"
	"sync/atomic"
	"testing"
	"time"

	"pippinterm/internal/diff"
	"pippinterm/osb"
)

// What may have been recorded as in flight, though the claim has failed, is given up at once, and nothing is sent.
func TestClaimInDoubt(t *testing.T) {
	p := newPlant(t, Options{})
	p.start(background)
	p.until("the catalogue", func() bool { return p.hasCatalogue() })
	p.store.mu.Lock()
	p.store.doubt = ErrAway
	p.store.mu.Unlock()
	e, err := p.orders.Create(background, NewInstance{Service: "shelf", Plan: "now"})
	for errors.Is(err, ErrAway) { // it was the order, or another claim, that was in doubt
		p.store.mu.Lock()
		p.store.doubt = nil
		p.store.mu.Unlock()
		e, err = p.orders.Create(background, NewInstance{Service: "shelf", Plan: "now"})
	}
	check(t, err)
	p.until("an end", func() bool {
		e, err := p.store.Read(background, e.Key)
		return err == nil && (e.State == Ready || e.State == Gone)
	})
}

// A claim that the database didn't write leaves the order as it was, and no lost lease is reported.
func TestClaimNotWritten(t *testing.T) {
	p := newPlant(t, Options{})
	check(t, p.engine.RunOnce(background))
	key := p.create(NewInstance{Tries: 1})
	var isBroken atomic.Bool
	p.store.between = func(point string, _ Key) {
		if point == "claim-decided" && isBroken.CompareAndSwap(false, true) {
			p.store.breakAll()
		}
	}
	p.start(background)
	p.untilState(key, Ready)
	if !isBroken.Load() || p.hasFailed("store_failed") != 1 || p.hasFailed("lease_lost") != 0 {
		t.Errorf("got broken %v, and the failures %v, want one of the store", isBroken.Load(), p.failures)
	}
	p.set(func() {
		diff.Equal(t, len(p.sent), 1, "requests: the one whose claim wasn't written isn't sent")
	})
}

// A request whose time is over isn't sent: another worker may have its row by then.
func TestNothingIsSentAfterItsTime(t *testing.T) {
	p := newPlant(t, Options{})
	p.exchange = func(context.Context, Outgoing) Incoming { return Incoming{Status: 201} }
	for kind, isFetch := range map[string]bool{"provision": false, "fetch": true} {
		late := sending{out: Outgoing{Until: time.Now(), IsFetch: isFetch}}
		if in := p.engine.send(background, &late, kind); !errors.Is(in.Lost, errLate) || len(p.sent) != 0 {
			t.Errorf("%s: got %v and %d requests, want %v and none", kind, in.Lost, len(p.sent), errLate)
		}
	}
}

// Nothing is sent before the claim that records it is committed.
func TestNothingIsSentBeforeItsClaim(t *testing.T) {
	p := newPlant(t, Options{})
	check(t, p.engine.RunOnce(background))
	key := p.create(NewInstance{Tries: 1})
	var requests, early atomic.Int64
	usual := p.exchange
	p.exchange = func(ctx context.Context, out Outgoing) Incoming {
		requests.Add(1)
		return usual(ctx, out)
	}
	var isDecided atomic.Bool
	p.store.between = func(point string, _ Key) {
		if point == "claim-decided" && isDecided.CompareAndSwap(false, true) {
			early.Store(requests.Load())
		}
	}
	p.start(background)
	p.untilState(key, Ready)
	if got := early.Load(); !isDecided.Load() || got != 0 {
		t.Errorf("got %d requests before the first claim was committed, want none", got)
	}
}

// A meddling store changes the step of each claim.
type meddling struct {
	*memory
	with func(Step) Step
}

func (m meddling) Claim(ctx context.Context, brokers []string, most int, step Step) ([]ClaimedRow, error) {
	return m.memory.Claim(ctx, brokers, most, m.with(step))
}

// again is a step that is done twice, as if its transaction was undone and begun anew.
func again(step Step, meanwhile func()) Step {
	return func(now time.Time, snapshot Snapshot) (*Change, error) {
		if _, err := step(now, snapshot); err != nil {
			return nil, err
		}
		meanwhile()
		return step(now, snapshot)
	}
}

// unwritable is a step whose change can't be written.
func unwritable(step Step, _ func()) Step {
	return func(now time.Time, snapshot Snapshot) (*Change, error) {
		if _, err := step(now, snapshot); err != nil {
			return nil, err
		}
		return nil, errors.New("the row can't be written")
	}
}

// What was decided of a row isn't sent unless it is written: not if the row can't be written, and not if the claim was
// begun anew, and nothing was decided then.
func TestDecisionsThatAreNotWritten(t *testing.T) {
	for _, test := range []struct {
		name  string
		with  func(step Step, loseBroker func()) Step
		state State
	}{
		{"decided twice", func(step Step, _ func()) Step { return again(step, func() {}) }, Wanted},
		{"decided once, and the broker is lost", again, Ordered},
		{"can't be written", unwritable, Ordered},
	} {
		t.Run(test.name, func(t *testing.T) {
			p := newPlant(t, Options{})
			check(t, p.engine.RunOnce(background))
			key := p.create(NewInstance{})
			var group sync.WaitGroup
			registry := newRegistry(background, p.engine, &group)
			defer registry.stop()
			check(t, registry.reachAll())
			p.engine.store = meddling{p.store, func(step Step) Step {
				return test.with(step, func() { registry.miss(registry.byName["shelf"], ErrOtherStore) })
			}}
			claim := p.engine.claim(background, registry, []string{"shelf"}, 1, nil)
			check(t, claim.err)
			diff.Equal(t, diff.Value(p.store.Read(background, key))(t).State, test.state, "")
			diff.Equal(t, len(claim.sendings) == 1, test.state == Wanted, "it is sent")
		})
	}
}

// A change of the state is reported once it is committed.
func TestNothingIsReportedBeforeItsCommit(t *testing.T) {
	p := newPlant(t, Options{})
	check(t, p.engine.RunOnce(background))
	p.create(NewInstance{})
	early := []string{"no commit yet"}
	p.store.between = func(point string, _ Key) {
		if point == "change-commit" {
			p.set(func() { early = append([]string{}, p.reported...) })
		}
	}
	check(t, p.engine.RunOnce(background))
	diff.Empty(t, early, "before the commit")
	diff.Equal(t, strings.Join(p.reported, ", "), "ordered to ready", "after it")
}

// Events are reported in their order. A state that passes within a step isn't.
func TestObserver(t *testing.T) {
	p := newPlant(t, Options{})
	check(t, p.engine.RunOnce(background))
	key := p.create(NewInstance{})
	check(t, p.engine.RunOnce(background))
	diff.Value(p.orders.Remove(background, key, false))(t)
	check(t, p.engine.RunOnce(background))
	diff.Equal(t, strings.Join(p.reported, ", "), "ordered to ready, ready to gone", "")
	diff.Len(t, p.sent, 2, "sent")
	diff.Len(t, p.answered, 2, "answered")
	for at, want := range []Exchange{
		{Broker: "shelf", Key: key, Kind: "provision", Attempt: 1, Status: 201},
		{Broker: "shelf", Key: key, Kind: "deprovision", Attempt: 2, Status: 200},
	} {
		want.RequestID = p.sent[at].RequestID
		diff.Equal(t, want.RequestID != "", true, "the request has an identity")
		diff.Check(t, p.answered[at], want, "the exchange %d", at)
	}
}

// A broker without tombstones creates an instance once it has answered that it has none. The last deletion finds it.
func TestLastDeletion(t *testing.T) {
	p := newPlant(t, Options{})
	p.line.catalogue = func(Broker) (string, int, error) {
		return strings.Replace(sold, `"x-osb-tombstones": true`, `"x-osb-tombstones": false`, 1), 200, nil
	}
	hold := 30 * time.Millisecond
	p.engine.Hold, p.engine.Exchange = hold, 200*time.Millisecond
	var late, deletions atomic.Int32
	var begun atomic.Int64
	p.line.exchange = func(_ context.Context, out Outgoing) Incoming {
		if kindOf(out.Request.Kind, out.Entry.Key) == "provision" {
			begun.Store(time.Now().UnixNano())
			return Incoming{Lost: errors.New("the answer is lost")}
		}
		diff.AtLeast(t, time.Since(time.Unix(0, begun.Load())), hold, "a deletion")
		deletions.Add(1)
		status := []int{410, 202, 404, 200}[late.Load()]
		late.Add(1)
		return (&reply{status, []byte(`{}`)}).incoming(out)
	}
	p.start(background)
	key := p.create(NewInstance{Tries: 1})
	p.until("the end", func() bool {
		e := diff.Value(p.store.Read(background, key))(t)
		var reported int
		p.set(func() { reported = len(p.reported) })
		return e.State == Gone && e.Rests() && reported == 5
	})
	want := "ordered to cleaning, cleaning to gone, orphan 202 true, orphan 404 false, orphan 200 true"
	p.set(func() {
		if got := strings.Join(p.reported, ", "); got != want || deletions.Load() != 4 {
			t.Errorf("got %s, by %d deletions, want %s, by 4", got, deletions.Load(), want)
		}
	})
}

// A Fetch that is answered without a binding counts as lost, and is sent again.
func TestFetchWithoutABinding(t *testing.T) {
	p := newPlant(t, Options{})
	var isFound atomic.Bool
	usual := p.line.exchange
	p.line.exchange = func(ctx context.Context, out Outgoing) Incoming {
		if out.IsFetch && !isFound.Load() {
			return Incoming{Status: 404}
		}
		return usual(ctx, out)
	}
	p.start(background)
	instance := p.create(NewInstance{Plan: "bind-later"})
	p.untilState(instance, Ready)
	bound := diff.Value(p.orders.Bind(background, NewBinding{Instance: instance.Instance.String()}))(t)
	want := Reason{Kind: "fetch", Status: 404, Lost: "status 404: " + osb.ErrNoBinding.Error()}
	p.until("a Fetch", func() bool {
		e := diff.Value(p.store.Read(background, bound.Key))(t)
		got := e.Last
		got.At = time.Time{}
		return got == want && e.State == Polling
	})
	isFound.Store(true)
	p.untilState(bound.Key, Ready)
}

// Without a vault no binding is recorded ready, and none is left behind.
func TestWithoutVault(t *testing.T) {
	p := newPlant(t, Options{})
	p.engine.vault = nil
	p.start(background)
	instance := p.create(NewInstance{})
	p.untilState(instance, Ready)
	e := diff.Value(p.orders.Bind(background, NewBinding{Instance: instance.String()}))(t)
	p.untilState(e.Key, Gone)
	diff.AtLeast(t, p.hasFailed("credentials_lost"), 1, "reports")
	p.checkFailedRequest("bind")
}

// A Fetch whose object can't be sealed is the request that is reported, and not the Poll before it.
func TestFetchWithoutVault(t *testing.T) {
	p := newPlant(t, Options{})
	p.engine.vault = nil
	p.start(background)
	instance := p.create(NewInstance{Plan: "bind-later"})
	p.untilState(instance, Ready)
	check(t, diff.Err(p.orders.Bind(background, NewBinding{Instance: instance.String()})))
	p.until("a report", func() bool { return p.hasFailed("credentials_lost") > 0 })
	p.checkFailedRequest("fetch")
}

// checkFailedRequest checks that the first failure names the latest request of a kind that was sent until then.
func (p *plant) checkFailedRequest(kind string) {
	p.t.Helper()
	p.set(func() {
		for _, request := range p.sent {
			if request.Kind == kind && request.RequestID == p.failures[0].RequestID {
				return
			}
		}
		p.t.Errorf("got the request %q in %v, want that of a %s", p.failures[0].RequestID, p.failures[0], kind)
	})
}

// What is reported and kept of an error isn't long, as that of a certificate with many names. What it wraps is found.
func TestObserverBriefly(t *testing.T) {
	p := newPlant(t, Options{})
	check(t, p.engine.RunOnce(background))
	cut := errors.New("cut")
	long := fmt.Errorf("%s: %w", strings.Repeat("ä", 30_000), cut)
	p.line.exchange = func(context.Context, Outgoing) Incoming { return Incoming{Lost: long} }
	key := p.create(NewInstance{Tries: 1})
	check(t, p.engine.RunOnce(background))
	p.untilState(key, Cleaning)
	if len(p.answered) == 0 || len(p.answered[0].Lost.Error()) > longestText || !errors.Is(p.answered[0].Lost, cut) {
		t.Errorf("got %v, want a short text of the lost answer", p.answered)
	}
	p.engine.Exchange = 50 * time.Millisecond
	p.line.catalogue = func(Broker) (string, int, error) { return "", 0, long }
	err := p.engine.RunOnce(background)
	diff.ErrorIs(t, err, ErrUnreached, "")
	diff.AtMost(t, len(fmt.Sprint(err)), longestText+100, "the error")
	if len(p.failures) == 0 {
		t.Fatal("the reports: got none, want one")
	}
	for _, failure := range p.failures {
		diff.AtMost(t, len(failure.Err.Error()), longestText, "%s: error", failure.Event)
		diff.ErrorIs(t, failure.Err, cut, "%s", failure.Event)
	}
	diff.Equal(t, len(p.brokerNamed("shelf").Reason.Lost), longestText, "bytes kept")
}
