package broker_test

import (
	"context"
	"encoding/json"
	"errors"
	"fmt"
	"path/filepath"
	"strings"
	"testing"

	"pippinterm/broker"
	"pippinterm/broker/sqlite"
	"pippinterm/internal/diff"
	"pippinterm/osb"
)

// What the row of an instance keeps of its updates, over restarts with another catalogue too.

// A restartedBroker is a broker without a sweeper over a store of its own, that can be started again.
type restartedBroker struct {
	store   *sqlite.Store
	backend *updatingShelf
	service *broker.Service
	handler *broker.Handler
}

func newRestartedBroker(t *testing.T) *restartedBroker {
	t.Helper()
	r := &restartedBroker{backend: newUpdatingShelf(newShelf(func() int { return 9 }))}
	r.store = diff.Value(sqlite.Open(context.Background(), filepath.Join(t.TempDir(), "store"), broker.Silent{}))(t)
	t.Cleanup(func() { _ = r.store.Close() })
	r.start(t, updatingCatalogue)
	return r
}

func (r *restartedBroker) start(t *testing.T, document string) {
	t.Helper()
	sold := diff.Value(broker.NewCatalogue([]byte(document), broker.AbilitiesOf(r.backend)))(t)
	r.service = broker.NewService(sold, r.store, r.backend, newMemoryLocks(), broker.ServiceOptions{}, broker.Silent{})
	r.handler = handlerFor(t, r.service)
}

func (r *restartedBroker) expect(t *testing.T, status int, method, target, body string) {
	t.Helper()
	given := message{method: method, target: target, body: []byte(body)}.serve(r.handler)
	diff.Equal(t, given.status, status, "%s %s: %s", method, target, given.body)
}

// unseen has nobody be able to look at the backend, or again.
func (s *updatingShelf) unseen(is bool) {
	s.changing.Lock()
	defer s.changing.Unlock()
	s.isUnseen = is
}

// withoutPlan is a catalogue without one of its plans.
func withoutPlan(t *testing.T, document, plan string) string {
	t.Helper()
	var read map[string]any
	check(t, json.Unmarshal([]byte(document), &read))
	for _, it := range read["services"].([]any) {
		service, kept := it.(map[string]any), []any{}
		for _, of := range service["plans"].([]any) {
			if of.(map[string]any)["id"] != id(plan).String() {
				kept = append(kept, of)
			}
		}
		service["plans"] = kept
	}
	return string(diff.Value(json.Marshal(read))(t))
}

// An update to the settings of before mends one that has failed. The row has its texts then, as the resource has them, so
// an Update that the backend rejects afterwards leaves the instance as it was.
func TestTextsOfAMendedUpdate(t *testing.T) {
	for name, test := range map[string]struct{ before, again, want string }{
		"another order":   {`,"parameters":{"a":1,"b":2}`, `,"parameters":{"b":2,"a":1}`, `{"b":2,"a":1}`},
		"none, and empty": {"", `,"parameters":{}`, `{}`},
	} {
		t.Run(name, func(t *testing.T) {
			s, backend := newUpdatingBroker(t)
			one := instances + "i"
			s.expect(t, 201, "PUT", one, bodyOf(now, test.before))
			backend.fail(errors.New("half"), true)
			s.expect(t, 500, "PATCH", one, updateOf(`,"parameters":{"a":7}`))
			backend.fail(nil, false)
			s.expect(t, 200, "PATCH", one, updateOf(test.again))
			diff.Equal(t, string(s.fetch(t, one).Parameters), test.want, "the parameters")
			backend.fail(&broker.Rejection{Status: 422, Code: "QuotaExceeded", Description: "too many"}, false)
			s.expect(t, 422, "PATCH", one, updateOf(`,"parameters":{"a":9}`))
			diff.Equal(t, string(s.fetch(t, one).Parameters), test.want, "the parameters after a rejection")
		})
	}
}

// If the plan to which an update leads is sold no more, the update ends all the same, and the instance can be deleted.
func TestUpdateToAPlanThatIsSoldNoMore(t *testing.T) {
	for _, plan := range []string{"c4", later} {
		t.Run(plan, func(t *testing.T) {
			r := newRestartedBroker(t)
			one, key := instances+"i", osb.InstanceKey(idOf(t, "i"))
			r.expect(t, 201, "PUT", one, bodyOf(now, ""))
			r.backend.unseen(plan == "c4")
			pending := map[string]int{"c4": 500, later: 202} // the work of the one is pending, the operation of the other runs
			r.expect(t, pending[plan], "PATCH", one+"?accepts_incomplete=true", updateOf(planMember(plan)))
			r.backend.unseen(false)
			r.start(t, withoutPlan(t, updatingCatalogue, plan))
			r.expect(t, 200, "GET", one+"/last_operation", "")
			r.expect(t, 422, "PATCH", one, updateOf(""))
			r.expect(t, 422, "DELETE", one+names(now), "")
			check(t, r.service.TakeUp(context.Background(), key))
			diff.Contains(t, r.backend.has(key), id(plan).String(), "the settings of the resource")
			r.expect(t, 200, "DELETE", one+names(now), "")
		})
	}
}

// An update goes on in the mode in which it began, whatever the catalogue says later.
func TestModeOfAnUpdate(t *testing.T) {
	r := newRestartedBroker(t)
	one, key := instances+"i", osb.InstanceKey(idOf(t, "i"))
	r.expect(t, 201, "PUT", one, bodyOf(now, ""))
	r.backend.unseen(true)
	r.expect(t, 500, "PATCH", one, updateOf(`,"parameters":{"a":1}`))
	r.backend.unseen(false)
	r.start(t, strings.Replace(updatingCatalogue, `"maintenance_info"`, `"x-osb-asynchronous-updates":true,"maintenance_info"`, 1))
	check(t, r.service.TakeUp(context.Background(), key))
	change := diff.Value(r.store.Read(context.Background(), key))(t).Change
	diff.Equal(t, change.Holding.Phase(), osb.UpdatePhaseSettled, "the phase after one take-up")
	r.expect(t, 422, "PATCH", one, updateOf(`,"parameters":{"a":2}`)) // a new one is asynchronous
	r.expect(t, 202, "PATCH", one+"?accepts_incomplete=true", updateOf(`,"parameters":{"a":2}`))
	check(t, r.service.TakeUp(context.Background(), key))
	change = diff.Value(r.store.Read(context.Background(), key))(t).Change
	if change.To != nil || change.IsAsynchronous || change.Origin != (broker.Origin{}) {
		t.Errorf("got %+v, want nothing of an update that has ended", change)
	}
}

// A toldStore notes what the drivers of updates say that their transactions are.
type toldStore struct {
	*sqlite.Store
	allowed  []osb.Allowed       // of each beginning
	outcomes []osb.UpdateOutcome // of each end
}

func (s *toldStore) Change(ctx context.Context, key broker.Key, step broker.Step) error {
	err := s.Store.Change(ctx, key, step)
	it := broker.TransactionOf(ctx)
	switch effect, _, _ := it.Effect(); effect {
	case osb.EffectUpdate:
		s.allowed = append(s.allowed, it.Allowed())
	case osb.EffectEndUpdate:
		s.outcomes = append(s.outcomes, it.UpdateOutcome())
	}
	return err
}

// A Store sees what the catalogue had for an Update that begins, and how its work has ended.
func TestTransactionsOfUpdates(t *testing.T) {
	r := newRestartedBroker(t)
	sold := diff.Value(broker.NewCatalogue([]byte(updatingCatalogue), broker.AbilitiesOf(r.backend)))(t)
	told := &toldStore{Store: r.store}
	r.service = broker.NewService(sold, told, r.backend, newMemoryLocks(), broker.ServiceOptions{}, broker.Silent{})
	r.handler = handlerFor(t, r.service)
	one := instances + "i"
	r.expect(t, 201, "PUT", one, bodyOf(now, ""))
	r.expect(t, 200, "PATCH", one, updateOf(`,"parameters":{"a":1}`))
	r.backend.fails = errors.New("no")
	r.expect(t, 500, "PATCH", one, updateOf(`,"parameters":{"a":2}`))
	diff.Equal(t, fmt.Sprint(told.allowed), fmt.Sprint([]osb.Allowed{osb.AllowedSync, osb.AllowedSync}), "allowed")
	wanted := []osb.UpdateOutcome{osb.UpdateOutcomeDone, osb.UpdateOutcomeBefore}
	diff.Equal(t, fmt.Sprint(told.outcomes), fmt.Sprint(wanted), "outcomes")
	if found := broker.TransactionOf(context.Background()); found != nil {
		t.Errorf("got the transaction %v, want none without a driver", found)
	}
}

// A Provision with another version than the instance has is another one, also before the first Update.
func TestVersionsOfProvisions(t *testing.T) {
	s, _ := newUpdatingBroker(t)
	one, two := instances+"i", instances+"j"
	const version = `,"maintenance_info":{"version":"1.0"}`
	s.expect(t, 201, "PUT", one, bodyOf(now, ""))
	s.expect(t, 200, "PUT", one, bodyOf(now, ""))
	s.expect(t, 200, "PUT", one, bodyOf(now, version)) // until an Update is judged, nobody compares the versions
	s.expect(t, 200, "PATCH", one, updateOf(version))
	s.expect(t, 409, "PUT", one, bodyOf(now, ""))
	s.expect(t, 200, "PATCH", one, updateOf(`,"x-osb-update":1`))
	s.expect(t, 409, "PUT", one, bodyOf(now, ""))
	s.expect(t, 201, "PUT", two, bodyOf(now, version))
	s.expect(t, 200, "PATCH", two, updateOf(`,"x-osb-update":1`))
	s.expect(t, 200, "PUT", two, bodyOf(now, version))
	s.expect(t, 200, "PUT", two, bodyOf(now, `,"m\u0061intenance_info":{"version":"1.0"}`))
	s.expect(t, 409, "PUT", two, bodyOf(now, ""))
	three := instances + "k" // the names of members have their case
	s.expect(t, 201, "PUT", three, bodyOf("c4", `,"maintenance_info":{"Version":"2"}`))
	if found := s.fetch(t, three); found.Maintenance != nil {
		t.Errorf("got the version %s, want none", *found.Maintenance)
	}
}

const namedPlans = `{"services": [{
	"id": "shelf-id", "name": "shelf", "description": "A shelf", "bindable": true,
	"bindings_retrievable": true, "instances_retrievable": true, "plan_updateable": true, "plans": [
	{"id": "small", "name": "small", "description": "all at once"},
	{"id": "large", "name": "large", "description": "x"}]}]}`

// The store and the backend get the ids of the catalogue, also if a request names another text with the same number.
func TestTextsOfPlans(t *testing.T) {
	var backend *updatingShelf
	s := newTestBroker(t, setting{catalogue: namedPlans, over: func(of *shelf) broker.Backend {
		of.asked = func(broker.Request) {} // which compares with what was sent
		backend = newUpdatingShelf(of)
		return backend
	}})
	const order = `,"organization_guid":"o","space_guid":"s"}`
	one, small, large := instances+"i", idOf(t, "small").String(), idOf(t, "large").String()
	s.expect(t, 201, "PUT", one, `{"service_id":"`+idOf(t, "shelf-id").String()+`","plan_id":"`+small+`"`+order)
	found := s.fetch(t, one)
	diff.Equal(t, found.Plan, "small", "the plan of the Provision")
	s.expect(t, 200, "PATCH", one, `{"service_id":"shelf-id","plan_id":"`+large+`"}`)
	diff.Equal(t, s.fetch(t, one).Plan, "large", "the plan of the Update")
	diff.Contains(t, backend.has(osb.InstanceKey(idOf(t, "i"))), `"plan_id":"large"`, "the settings of the resource")
}

// Of a Provision whose request isn't at hand, the version is read from its text.
func TestProvisionByItsText(t *testing.T) {
	r := newRestartedBroker(t)
	key := osb.InstanceKey(idOf(t, "i"))
	r.expect(t, 201, "PUT", instances+"i", bodyOf(now, ""))
	r.expect(t, 200, "PATCH", instances+"i", updateOf(`,"maintenance_info":{"version":"1.0"}`))
	visit := broker.Visit{Key: key, Names: broker.Names{Instance: "i"}, Asked: osb.Asked{
		Kind: osb.KindProvision, HasService: true, HasPlan: true, ID: key.Instance, Service: id("a0"), Plan: id(now),
	}}
	for version, status := range map[string]uint16{"1.0": 200, "2.0": 409} {
		visit.Request = json.RawMessage(`{"instance_id":"i","body":{"maintenance_info":{"version":"` + version + `"}}}`)
		diff.Equal(t, diff.Value(r.service.Handle(context.Background(), visit))(t).Status, status, "version %s", version)
	}
	visit.Request = json.RawMessage(`{"instance_id":"i","body`)
	diff.ErrorContains(t, diff.Err(r.service.Handle(context.Background(), visit)), "what is stored of the request", "torn")
}
