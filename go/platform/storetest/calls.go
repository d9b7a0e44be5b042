package storetest

import (
	"context"
	"encoding/json"
	"errors"
	"fmt"
	"testing"
	"time"

	"pippinterm/internal/diff"
	"pippinterm/osb"
	"pippinterm/platform"
)

// Calls are calls of a store, by what they call.
type Calls map[string]func(context.Context) error

// Reads returns the calls of a store that only read, some of them about the row of a key.
func Reads(store platform.Store, key platform.Key) Calls {
	return Calls{
		"Read":     func(ctx context.Context) error { return diff.Err(store.Read(ctx, key)) },
		"List":     func(ctx context.Context) error { return diff.Err(store.List(ctx, platform.Filter{})) },
		"Moment":   func(ctx context.Context) error { return diff.Err(store.Moment(ctx)) },
		"Life":     func(ctx context.Context) error { return diff.Err(store.Life(ctx, key)) },
		"Counts":   func(ctx context.Context) error { return diff.Err(store.Counts(ctx)) },
		"InFlight": func(ctx context.Context) error { return diff.Err(store.InFlight(ctx, 10)) },
		"NextDue":  func(ctx context.Context) error { _, _, err := store.NextDue(ctx, brokers); return err },
		"Brokers":  func(ctx context.Context) error { return diff.Err(store.Brokers(ctx)) },
	}
}

// AllCalls returns the calls of Reads, and others. These insert a row, and change that row and those of a key and of
// what is due by a step.
func AllCalls(store platform.Store, key platform.Key, inserted platform.Entry, step platform.Step) Calls {
	calls := Reads(store, key)
	calls["Insert and Change"] = func(ctx context.Context) error {
		if err := store.Insert(ctx, inserted, accept); err != nil {
			return err
		}
		if err := store.Change(ctx, inserted.Key, step); err != nil {
			return err
		}
		return store.Change(ctx, key, step)
	}
	calls["Claim"] = func(ctx context.Context) error { return diff.Err(store.Claim(ctx, brokers, 10, step)) }
	calls["Free"] = func(ctx context.Context) error { return store.Free(ctx, "me") }
	calls["Ready"] = store.Ready
	calls["HasWorkers"] = func(ctx context.Context) error { return diff.Err(store.HasWorkers(ctx)) }
	calls["AddBroker, ChangeBroker and DropBroker"] = func(ctx context.Context) error {
		if err := store.AddBroker(ctx, platform.Broker{Name: "b", URL: "http://b"}); err != nil {
			return err
		}
		move := func(it platform.Broker) (*platform.Broker, error) { it.URL = "http://c"; return &it, nil }
		if err := store.ChangeBroker(ctx, "b", move); err != nil {
			return err
		}
		return store.DropBroker(ctx, "b")
	}
	calls["Fingerprint and ReplaceFingerprint"] = func(ctx context.Context) error {
		was, err := store.Fingerprint(ctx, "x")
		if err != nil {
			return err
		}
		return store.ReplaceFingerprint(ctx, was, was+"y")
	}
	calls["Only"] = func(ctx context.Context) error {
		end, _, err := store.Only(ctx, "osb_platform_test_of_calls")
		if err == nil && end == nil {
			return errors.New("another has the name")
		}
		if err == nil {
			end()
		}
		return err
	}
	return calls
}

// Edit returns a step that changes the row, and nothing else. now is the time of the step.
func Edit(change func(e *platform.Entry, now time.Time)) platform.Step {
	return func(now time.Time, snapshot platform.Snapshot) (*platform.Change, error) {
		change(&snapshot.Entry, now)
		return &platform.Change{Entry: snapshot.Entry}, nil
	}
}

// A Seller is a broker of one plan that answers at once: each request has created what was ordered.
type Seller struct{ Service, Plan osb.ID }

// Exchange answers with 201.
func (Seller) Exchange(context.Context, platform.Outgoing) platform.Incoming {
	return platform.Incoming{Answer: osb.Answer{Status: 201, Body: osb.BodyEmpty}, Status: 201}
}

// Catalogue answers with the plan.
func (s Seller) Catalogue(context.Context, platform.Broker) (json.RawMessage, int, error) {
	return json.RawMessage(fmt.Sprintf(`{"services": [{"id": "%v", "name": "s", "description": "d", "bindable": true,
		"plans": [{"id": "%v", "name": "p", "description": "d"}]}]}`, s.Service, s.Plan)), 200, nil
}

// Clock returns the time of the machine.
func (Seller) Clock() time.Time { return time.Now() }

// A Quiet observer fails a test if something goes wrong.
type Quiet struct {
	platform.Silent
	T *testing.T
}

// OnFailure fails the test.
func (q Quiet) OnFailure(it platform.Failure) { q.T.Errorf("got the failure %+v, want none", it) }

// OnOrphan fails the test.
func (q Quiet) OnOrphan(key platform.Key, status int, isFound bool) {
	q.T.Errorf("got the answer %d to a further deletion of %v, want none", status, key)
}
