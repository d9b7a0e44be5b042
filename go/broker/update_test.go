package broker_test

import (
	"context"
	"encoding/json"
	"errors"
	"fmt"
	"strconv"
	"strings"
	"sync"
	"testing"

	"pippinterm/broker"
	"pippinterm/internal/diff"
	"pippinterm/internal/waits"
	"pippinterm/osb"
)

// The plans of a service whose instances can be updated and fetched. Updates to c2 are asynchronous, those to c3
// synchronous although its instances are created later, and c4 can't be left.
const updatingCatalogue = `{"services": [{
	"id": "00000000-0000-0000-0000-0000000000a0", "name": "shelf", "description": "A shelf", "bindable": true,
	"bindings_retrievable": true, "instances_retrievable": true, "plan_updateable": true, "plans": [
	{"id": "00000000-0000-0000-0000-0000000000c1", "name": "now", "description": "all at once",
		"maintenance_info": {"version": "1.0"}},
	{"id": "00000000-0000-0000-0000-0000000000c2", "name": "later", "description": "updates later",
		"x-osb-asynchronous-updates": true},
	{"id": "00000000-0000-0000-0000-0000000000c3", "name": "made-later", "description": "updates at once",
		"x-osb-asynchronous": true, "x-osb-asynchronous-updates": false},
	{"id": "00000000-0000-0000-0000-0000000000c4", "name": "stays", "description": "can't be left",
		"plan_updateable": false}]}]}`

// An updatingShelf is a shelf whose instances can be updated.
type updatingShelf struct {
	*shelf
	changing  sync.Mutex
	settings  map[broker.Key]string // of the instances that were updated
	updates   int                   // how many updates were tried
	fails     error                 // with which an update fails, or nil
	isBetween bool                  // whether an update that fails leaves settings between
	isUnseen  bool                  // whether nobody can look
	gate      chan struct{}         // which an update waits for, or nil
	latest    broker.Origin         // of the latest update
}

func newUpdatingShelf(of *shelf) *updatingShelf {
	return &updatingShelf{shelf: of, settings: map[broker.Key]string{}}
}

func settingsText(settings broker.Settings) string {
	text, err := json.Marshal(settings)
	must(err)
	return string(text)
}

// has is the text of the settings of an instance that was updated.
func (s *updatingShelf) has(key broker.Key) string {
	s.changing.Lock()
	defer s.changing.Unlock()
	return s.settings[key]
}

func (s *updatingShelf) LookUpdate(_ context.Context, update broker.Update) (broker.There, error) {
	s.changing.Lock()
	defer s.changing.Unlock()
	has, wasUpdated := s.settings[update.Key]
	switch {
	case s.isUnseen:
		return broker.Part, errors.New("nobody can look")
	case s.there(update.Key) != broker.Whole:
		return broker.Part, nil
	case has == settingsText(update.To):
		return broker.Whole, nil
	case !wasUpdated || has == settingsText(update.From):
		return broker.None, nil
	}
	return broker.Part, nil
}

// hold has updates wait until the gate is closed.
func (s *updatingShelf) hold(gate chan struct{}) {
	s.changing.Lock()
	defer s.changing.Unlock()
	s.gate = gate
}

// origin is who sent the latest update.
func (s *updatingShelf) origin() broker.Origin {
	s.changing.Lock()
	defer s.changing.Unlock()
	return s.latest
}

func (s *updatingShelf) Update(_ context.Context, update broker.Update) error {
	s.changing.Lock()
	gate := s.gate
	s.changing.Unlock()
	if gate != nil {
		<-gate
	}
	s.changing.Lock()
	defer s.changing.Unlock()
	s.updates++
	s.latest = update.Origin
	if s.fails != nil {
		if s.isBetween {
			s.settings[update.Key] = "between"
		}
		return s.fails
	}
	s.settings[update.Key] = "between"
	broker.CrashAt("work-half")
	s.settings[update.Key] = settingsText(update.To)
	return nil
}

// fail has updates fail from now on.
func (s *updatingShelf) fail(with error, isBetween bool) {
	s.changing.Lock()
	defer s.changing.Unlock()
	s.fails, s.isBetween = with, isBetween
}

// newUpdatingBroker is a testBroker whose instances can be updated.
func newUpdatingBroker(t *testing.T) (s *testBroker, backend *updatingShelf) {
	t.Helper()
	s = newTestBroker(t, setting{catalogue: updatingCatalogue, over: func(of *shelf) broker.Backend {
		backend = newUpdatingShelf(of)
		return backend
	}})
	return s, backend
}

// updateOf is the body of an Update with these members besides the service.
func updateOf(further string) string {
	return `{"service_id":"` + id("a0").String() + `"` + further + `}`
}

func planMember(plan string) string { return `,"plan_id":"` + id(plan).String() + `"` }

// fetched is what a Fetch says of an instance.
type fetched struct {
	Plan        string           `json:"plan_id"`
	Parameters  json.RawMessage  `json:"parameters"`
	Maintenance *json.RawMessage `json:"maintenance_info"`
	Number      int              `json:"x-osb-update"`
}

func (s *testBroker) fetch(t *testing.T, target string) (found fetched) {
	t.Helper()
	diff.NoError(t, json.Unmarshal([]byte(s.expect(t, 200, "GET", target, "")), &found), "the answer to a Fetch")
	return found
}

// An update changes the settings of the instance, and all that follows sees them.
func TestUpdates(t *testing.T) {
	s, backend := newUpdatingBroker(t)
	one := instances + "i"
	s.expect(t, 201, "PUT", one, bodyOf(now, `,"parameters":{"size":1}`))
	diff.Equal(t, string(s.fetch(t, one).Parameters), `{"size":1}`, "the parameters of the Provision")
	s.expect(t, 200, "PATCH", one, updateOf(`,"parameters":{"size":2},"x-osb-update":3`))
	found := s.fetch(t, one)
	if found.Plan != id(now).String() || string(found.Parameters) != `{"size":2}` || found.Number != 3 {
		t.Errorf("got %+v, want the plan of before, size 2 and the number 3", found)
	}
	s.expect(t, 200, "PATCH", one, updateOf(`,"parameters":{"size":2},"x-osb-update":3`))
	s.expect(t, 409, "PATCH", one, updateOf(`,"parameters":{"size":7},"x-osb-update":2`))
	key := osb.InstanceKey(idOf(t, "i"))
	s.expect(t, 200, "PATCH", one, updateOf(`,"parameters":{"size":2},"x-osb-update":4`))
	diff.Equal(t, s.fetch(t, one).Number, 4, "the number of an Update that has nothing to do")
	diff.Equal(t, backend.updates, 1, "the updates of the backend")
	diff.Contains(t, backend.has(key), `"size":2`, "the settings of the resource")
	diff.Equal(t, s.shelf.there(key), broker.Whole, "the instance")

	s.expect(t, 409, "PUT", one, bodyOf(now, `,"parameters":{"size":1}`))
	s.expect(t, 200, "PATCH", one, updateOf(`,"parameters":{"size":1}`))
	s.expect(t, 200, "PUT", one, bodyOf(now, `,"parameters":{"size":1}`))
	s.expect(t, 409, "PUT", one, bodyOf(now, `,"parameters":{"size":1},"maintenance_info":{"version":"1.0"}`))
	s.expect(t, 200, "PATCH", one, updateOf(`,"maintenance_info":{"version":"1.0"}`))
	if found := s.fetch(t, one); found.Maintenance == nil || string(*found.Maintenance) != `{"version":"1.0"}` {
		t.Errorf("got %+v, want the version", found)
	}
	diff.Contains(t, backend.has(key), `"version":"1.0"`, "the settings of the resource")
	s.expect(t, 200, "DELETE", one+names(now), "")
	s.expect(t, 404, "GET", one, "")
	s.expect(t, 404, "PATCH", one, updateOf(`,"parameters":{"size":2}`))
}

func idOf(t *testing.T, text string) osb.ID { return diff.Value(osb.IDOfText(text))(t) }

// A platform may name the plan of before and that of after, and a binding needs the plan of after.
func TestUpdatesOfThePlan(t *testing.T) {
	s, _ := newUpdatingBroker(t)
	one := instances + "i"
	bind := func(status int, binding, plan string) {
		t.Helper()
		s.expect(t, status, "PUT", one+"/service_bindings/"+binding, bodyOf(plan, ""))
	}
	s.expect(t, 201, "PUT", one, bodyOf(now, ""))
	bind(201, "before", now)
	s.expect(t, 422, "PATCH", one, updateOf(planMember(later))) // it is asynchronous
	s.expect(t, 202, "PATCH", one+"?accepts_incomplete=true", updateOf(planMember(later)))
	s.until(t, `"succeeded"`, "GET", one+"/last_operation"+names(now))
	s.expect(t, 200, "GET", one+"/last_operation"+names(later), "")
	s.expect(t, 200, "PATCH", one, updateOf(planMember(later)))
	diff.Equal(t, s.fetch(t, one).Plan, id(later).String(), "the plan")
	bind(503, "b", now)
	bind(201, "b", later)
	bind(200, "b", later)
	bind(200, "before", now)
	s.expect(t, 200, "GET", one+"/service_bindings/b", "")
	s.expect(t, 400, "GET", one+"?plan_id="+id("ff").String(), "")
	s.expect(t, 400, "GET", one+"?service_id="+id("ff").String(), "")
	s.expect(t, 200, "GET", one+names(now), "")
	for _, binding := range []string{"b", "before"} {
		s.expect(t, 200, "DELETE", one+"/service_bindings/"+binding+names(later), "")
	}
	s.expect(t, 400, "DELETE", one+names("ff"), "")
	s.expect(t, 200, "DELETE", one+names(later), "")
}

// Once an instance was updated, a Provision of the settings that it has is answered as before the Update, and any other
// one is rejected.
func TestProvisionsAfterUpdates(t *testing.T) {
	var backend *describingShelf
	s := newTestBroker(t, setting{catalogue: updatingCatalogue, over: func(of *shelf) broker.Backend {
		backend = &describingShelf{updatingShelf: newUpdatingShelf(of)}
		return backend
	}})
	const first, second = `,"parameters":{"size":1}`, `,"parameters":{"size":2}`
	one, lasting := instances+"i", "?accepts_incomplete=true"
	s.expect(t, 201, "PUT", one, bodyOf(now, first))
	s.expect(t, 202, "PATCH", one+lasting, updateOf(planMember(later)+second))
	s.until(t, `"succeeded"`, "GET", one+"/last_operation")
	body := s.expect(t, 200, "PUT", one, bodyOf(later, second))
	diff.Contains(t, body, `"dashboard_url":"https://d/2"`, "the new settings")
	for name, body := range map[string]string{
		"the settings of before": bodyOf(now, first), "the plan of before": bodyOf(now, second),
		"the parameters of before": bodyOf(later, first), "a plan that it never had": bodyOf("c4", second),
		"a version": bodyOf(later, second+`,"maintenance_info":{"version":"1.0"}`),
	} {
		t.Run(name, func(t *testing.T) { s.expect(t, 409, "PUT", one, body) })
	}
	s.expect(t, 201, "PUT", instances+"j", bodyOf(now, first)) // of which no Update was judged
	for old, new := range map[string]string{`"space_guid":"s"`: `"space_guid":"t"`, id("a0").String(): id("a1").String()} {
		elsewhere := func(body string) string { return strings.Replace(body, old, new, 1) }
		never, _ := s.ask("PUT", instances+"j", elsewhere(bodyOf(now, first)))
		s.expect(t, never.StatusCode, "PUT", one, elsewhere(bodyOf(later, second)))
	}

	backend.unseen(true)
	s.expect(t, 500, "PATCH", one, updateOf(planMember("c3")))
	for plan, status := range map[string]int{later: 503, "c3": 409, now: 409} {
		s.expect(t, status, "PUT", one+lasting, bodyOf(plan, second))
	}
	backend.unseen(false)
	s.until(t, `"succeeded"`, "GET", one+"/last_operation")
	s.expect(t, 200, "PUT", one, bodyOf("c3", second))
	backend.fail(broker.Public(errors.New("no"), "The disk is full."), true)
	s.expect(t, 500, "PATCH", one, updateOf(planMember(now)))
	body = s.expect(t, 500, "PUT", one, bodyOf("c3", second))
	diff.Contains(t, body, "The disk is full.", "the settings of before the failure")
	s.expect(t, 409, "PUT", one, bodyOf(now, second))
}

// While an instance is deleted that was updated, or after its deletion has failed, a Provision of the settings that it
// has is answered as one of an instance that was never updated.
func TestProvisionsBesideADeletion(t *testing.T) {
	s, _ := newUpdatingBroker(t)
	const lasting = "?accepts_incomplete=true"
	for _, it := range []struct{ name, plan string }{{"never", "c3"}, {"updated", now}} {
		one := instances + it.name
		s.expect(t, 202, "PUT", one+lasting, bodyOf("c3", ""))
		s.until(t, `"succeeded"`, "GET", one+"/last_operation")
		if it.plan != "c3" {
			s.expect(t, 200, "PATCH", one, updateOf(planMember(it.plan)))
		}
	}
	gate := make(chan struct{})
	s.shelf.turn.Lock()
	s.shelf.mood = func() int { <-gate; return 0 }
	s.shelf.turn.Unlock()
	answers := func() (given []string) {
		for _, it := range []struct{ name, plan string }{{"never", "c3"}, {"updated", now}} {
			answer, body := s.ask("PUT", instances+it.name+lasting, bodyOf(it.plan, ""))
			given = append(given, fmt.Sprint(answer.StatusCode, body))
		}
		return given
	}
	for _, name := range []string{"never", "updated"} {
		s.expect(t, 202, "DELETE", instances+name+names("c3")+"&accepts_incomplete=true", "")
	}
	given := answers()
	diff.Equal(t, given[1], given[0], "while it is deleted")
	close(gate)
	for _, name := range []string{"never", "updated"} {
		s.until(t, `"failed"`, "GET", instances+name+"/last_operation")
	}
	given = answers()
	diff.Equal(t, given[1], given[0], "after its deletion has failed")
}

// What the catalogue or the backend rejects changes nothing.
func TestRejectedUpdates(t *testing.T) {
	s, backend := newUpdatingBroker(t)
	s.expect(t, 201, "PUT", instances+"i", bodyOf(now, `,"maintenance_info":{"version":"1.0"}`))
	s.expect(t, 201, "PUT", instances+"stays", bodyOf("c4", ""))
	backend.fail(&broker.Rejection{Status: 422, Code: "QuotaExceeded", Description: "too many"}, false)
	for _, test := range []struct {
		name, target, body string
		status             int
		says               string
	}{
		{"no such instance", "j", updateOf(""), 404, "No instance"},
		{"another service", "i", `{"service_id":"x"}`, 400, "service_id"},
		{"no such plan", "i", updateOf(planMember("ff")), 400, "no such plan"},
		{"a plan that can't be left", "stays", updateOf(planMember(now)), 422, "can't be changed"},
		{"another version", "i", updateOf(`,"maintenance_info":{"version":"2.0"}`), 422, "MaintenanceInfoConflict"},
		{"asynchronous", "i", updateOf(planMember(later)), 422, "AsyncRequired"},
		{"the backend", "i", updateOf(`,"parameters":{"size":9}`), 422, "QuotaExceeded"},
		{"a number that is none", "i", updateOf(`,"x-osb-update":"x"`), 400, "x-osb-update"},
		{"no object", "i", "[]", 400, "object of JSON"},
		{"another id of the same number", idOf(t, "i").String(), updateOf(""), 404, "Nothing exists"},
	} {
		t.Run(test.name, func(t *testing.T) {
			body := s.expect(t, test.status, "PATCH", instances+test.target, test.body)
			if !strings.Contains(body, test.says) {
				t.Errorf("got %s, want %q in it", body, test.says)
			}
		})
	}
	found := s.fetch(t, instances+"i")
	if string(found.Parameters) != "{}" || found.Maintenance == nil {
		t.Errorf("got %+v, want no parameters and a version", found)
	}
	s.expect(t, 404, "GET", instances+idOf(t, "i").String(), "")
	diff.Equal(t, s.observed.last().Route, "fetch", "the route")
}

// After an update that has failed nobody knows the settings, until another one has succeeded.
func TestFailedUpdates(t *testing.T) {
	s, backend := newUpdatingBroker(t)
	one := instances + "i"
	s.expect(t, 201, "PUT", one, bodyOf(now, ""))
	backend.fail(broker.Public(errors.New("no"), "The disk is full."), false)
	s.expect(t, 500, "PATCH", one, updateOf(`,"parameters":{"size":2}`))
	diff.Equal(t, string(s.fetch(t, one).Parameters), "{}", "after an update that has changed nothing")
	backend.fail(broker.Public(errors.New("no"), "The disk is full."), true)
	s.expect(t, 202, "PATCH", one+"?accepts_incomplete=true", updateOf(planMember(later)))
	body := s.until(t, `"failed"`, "GET", one+"/last_operation")
	if !strings.Contains(body, "The disk is full.") {
		t.Errorf("got %s, want why", body)
	}
	s.expect(t, 422, "GET", one, "")
	s.expect(t, 500, "PUT", one, bodyOf(now, ""))
	s.expect(t, 500, "PATCH", one, updateOf(planMember("ff")))
	s.expect(t, 503, "PUT", one+"/service_bindings/b", bodyOf(later, ""))
	backend.fail(nil, false)
	s.expect(t, 200, "PATCH", one, updateOf(`,"parameters":{"size":3}`))
	diff.Equal(t, string(s.fetch(t, one).Parameters), `{"size":3}`, "after the update that has succeeded")
	s.expect(t, 200, "DELETE", one+names(now), "")
}

// What the backend says of an update that has failed is in the answer to the Update, or to the Poll, until another
// update has ended. No other answer has it.
func TestOutlook(t *testing.T) {
	s, backend := newUpdatingBroker(t)
	one, yes, no := instances+"i", true, false
	const usable, repeatable = `"instance_usable":`, `"update_repeatable":`
	failing := func(with error, outlook broker.Outlook, isBetween bool) {
		backend.fail(broker.WithOutlook(with, outlook), isBetween)
	}
	wants := func(body string, has ...string) {
		t.Helper()
		for _, member := range has {
			diff.Contains(t, body, member, "")
		}
		if strings.Count(body, usable)+strings.Count(body, repeatable) != len(has) {
			t.Errorf("got %s, want of these members only %q", body, has)
		}
	}
	s.expect(t, 201, "PUT", one, bodyOf(now, ""))
	full := broker.Public(errors.New("no"), "The disk is full.")
	failing(full, broker.Unharmed(), false)
	wants(s.expect(t, 500, "PATCH", one, updateOf(`,"parameters":{"size":2}`)), usable+"true", repeatable+"true")
	failing(full, broker.Outlook{InstanceUsable: &yes, UpdateRepeatable: &no}, false)
	body := s.expect(t, 500, "PATCH", one, updateOf(`,"parameters":{"size":2}`))
	wants(body, usable+"true", repeatable+"false")
	diff.Contains(t, body, "The disk is full.", "the description")
	diff.Equal(t, s.observed.last().Reason, "The disk is full.", "the reason in the log")
	wants(s.expect(t, 200, "GET", one+"/last_operation", "")) // the settings of before hold
	failing(errors.New("no"), broker.Outlook{InstanceUsable: &no}, false)
	body = s.expect(t, 500, "PATCH", one, updateOf(`,"parameters":{"size":2}`))
	wants(body, usable+"false")
	diff.Contains(t, body, "The update has failed", "the sentence without a description")
	diff.Contains(t, s.observed.last().Reason, "The update has failed", "the reason in the log without a description")
	failing(errors.New("no"), broker.Outlook{}, false)
	wants(s.expect(t, 500, "PATCH", one, updateOf(`,"parameters":{"size":2}`)))
	failing(&broker.Rejection{Status: 422, Description: "too many"}, broker.Outlook{UpdateRepeatable: &no}, false)
	wants(s.expect(t, 422, "PATCH", one, updateOf(`,"parameters":{"size":2}`)))

	failing(full, broker.Outlook{UpdateRepeatable: &yes}, true)
	s.expect(t, 202, "PATCH", one+"?accepts_incomplete=true", updateOf(planMember(later)))
	body = s.until(t, `"failed"`, "GET", one+"/last_operation")
	wants(body, repeatable+"true")
	diff.Contains(t, body, "The disk is full.", "the description")
	wants(s.expect(t, 500, "PUT", one, bodyOf(now, "")))
	wants(s.expect(t, 500, "PATCH", one, updateOf(planMember("ff")))) // it is another Update
	failing(errors.New("no"), broker.Outlook{InstanceUsable: &no}, true)
	wants(s.expect(t, 500, "PATCH", one, updateOf(`,"parameters":{"size":4}`)), usable+"false")
	wants(s.expect(t, 200, "GET", one+"/last_operation", ""), usable+"false")
	failing(errors.New("no"), broker.Outlook{}, true)
	s.expect(t, 500, "PATCH", one, updateOf(`,"parameters":{"size":4}`))
	wants(s.expect(t, 200, "GET", one+"/last_operation", ""))
}

// A deletion that fails after an update says nothing of updates.
func TestOutlookOfADeletion(t *testing.T) {
	s, backend := newUpdatingBroker(t)
	one, yes := instances+"i", true
	s.expect(t, 202, "PUT", one+"?accepts_incomplete=true", bodyOf("c3", ""))
	s.until(t, `"succeeded"`, "GET", one+"/last_operation")
	backend.fail(broker.WithOutlook(errors.New("no"), broker.Outlook{UpdateRepeatable: &yes}), true)
	body := s.expect(t, 500, "PATCH", one, updateOf(`,"parameters":{"size":2}`))
	diff.Contains(t, body, "update_repeatable", "the Update")
	s.shelf.turn.Lock()
	s.shelf.mood = func() int { return 0 }
	s.shelf.turn.Unlock()
	s.expect(t, 202, "DELETE", one+names("c3")+"&accepts_incomplete=true", "")
	waits.Until(t, "the deletion to fail", func() bool {
		row, _ := diff.Value(s.store.Read(context.Background(), osb.InstanceKey(idOf(t, "i"))))(t).Holding.Row()
		return row.Phase == osb.PhaseDeleteFailed
	})
	body = s.expect(t, 200, "GET", one+"/last_operation", "")
	if !strings.Contains(body, `"failed"`) || strings.Contains(body, "update_repeatable") {
		t.Errorf("got %s, want a deletion that has failed, and nothing of an update", body)
	}
}

// While an update is under way, no deletion and no other update begins.
func TestUnderWay(t *testing.T) {
	s, backend := newUpdatingBroker(t)
	one := instances + "i"
	s.expect(t, 201, "PUT", one, bodyOf(now, ""))
	backend.changing.Lock()
	backend.isUnseen = true
	backend.changing.Unlock()
	s.expect(t, 500, "PATCH", one, updateOf(`,"parameters":{"size":2},"x-osb-update":1`))
	for _, test := range []struct {
		method, target, body string
		status               int
	}{
		{"PATCH", one, updateOf(`,"parameters":{"size":2},"x-osb-update":1`), 422},
		{"PATCH", one, updateOf(`,"parameters":{"size":3}`), 422},
		{"DELETE", one + names(now), "", 422},
		{"GET", one, "", 422},
		{"PUT", one, bodyOf(now, ""), 503},
		{"PUT", one + "/service_bindings/b", bodyOf(now, ""), 503},
	} {
		t.Run(test.method+" "+test.target, func(t *testing.T) {
			if body := s.expect(t, test.status, test.method, test.target, test.body); strings.Contains(body, "bindings. Delete") {
				t.Errorf("got %s, want no word of bindings", body)
			}
		})
	}
	s.until(t, `"in progress"`, "GET", one+"/last_operation")
	backend.changing.Lock()
	backend.isUnseen = false
	backend.changing.Unlock()
	s.until(t, `"succeeded"`, "GET", one+"/last_operation")
	diff.Equal(t, string(s.fetch(t, one).Parameters), `{"size":2}`, "the parameters")
}

// A backend that can't update has every Update rejected, and its instances can be fetched.
func TestBackendThatUpdatesNothing(t *testing.T) {
	s := newTestBroker(t, setting{})
	one := instances + "i"
	s.expect(t, 201, "PUT", one, bodyOf(now, ""))
	s.expect(t, 422, "PATCH", one, updateOf(`,"parameters":{"size":2}`))
	s.expect(t, 200, "PATCH", one, updateOf(""))
	s.expect(t, 404, "GET", one, "") // the catalogue doesn't promise it
}

// A broker of updates says so in its catalogue, and only with a backend that has them.
func TestCatalogueOfUpdates(t *testing.T) {
	served := diff.Value(broker.NewCatalogue([]byte(updatingCatalogue), broker.Abilities{Bindings: true, Updates: true}))(t)
	if numbers, err := osb.NumbersUpdates(served.Document()); err != nil || !numbers {
		t.Errorf("got x-osb-updates %t and %v, want it", numbers, err)
	}
	_, err := broker.NewCatalogue([]byte(updatingCatalogue), broker.Abilities{Bindings: true})
	diff.ErrorIs(t, err, osb.ErrUpdateUnserved, "without updates")
	without := diff.Value(broker.NewCatalogue([]byte(catalogue), broker.Abilities{Bindings: true}))(t)
	if numbers, err := osb.NumbersUpdates(without.Document()); err != nil || numbers {
		t.Errorf("got x-osb-updates %t and %v, want none", numbers, err)
	}
	_, err = broker.NewCatalogue([]byte(`{"x-osb-updates":true,`+catalogue[1:]), broker.Abilities{Bindings: true})
	diff.ErrorIs(t, err, broker.ErrCatalogueMember, "x-osb-updates in the document")
}

// What is kept of updates is read as it was written, also if its parameters have characters that HTML escapes.
func TestTextOfAChange(t *testing.T) {
	none, err := (*broker.Change)(nil).Text()
	if none != nil || err != nil {
		t.Errorf("got %s and %v, want nothing", none, err)
	}
	read, err := broker.ChangeOfText(nil)
	if read != nil || err != nil {
		t.Errorf("got %v and %v, want nothing", read, err)
	}
	change := broker.Change{
		Holding:  osb.NewUpdateHolding(osb.Settings{Plan: id(now)}),
		Settings: broker.Settings{PlanID: "p", Parameters: json.RawMessage(`{"a":"<&>"}`)},
		To:       &broker.Settings{PlanID: "q", Version: "1"},
	}
	text := diff.Value(change.Text())(t)
	if !strings.Contains(string(text), `"<&>"`) {
		t.Errorf("got %s, want the parameters as they were sent", text)
	}
	again := diff.Value(broker.ChangeOfText(text))(t)
	diff.Check(t, *again, change, "the change that was read")
	if _, err := broker.ChangeOfText(json.RawMessage(`{"holding":{}}`)); err == nil {
		t.Error("got no error of a holding that is none, want one")
	}
}

// A describingShelf is an updatingShelf that describes its instances.
type describingShelf struct {
	*updatingShelf
	version   int
	isUnknown bool
}

func (s *describingShelf) Abilities() broker.Abilities {
	return broker.Abilities{Bindings: true, Updates: true, Details: true, SecretParameters: true}
}

func (s *describingShelf) Details(context.Context, broker.Request) (broker.Details, error) {
	if s.isUnknown {
		return broker.Details{}, errors.New("nobody can tell")
	}
	s.version++
	details := broker.Details{Metadata: json.RawMessage(`{"labels":{"version":"` + strconv.Itoa(s.version) + `"}}`)}
	if s.version < 3 {
		details.DashboardURL = "https://d/" + strconv.Itoa(s.version)
	}
	return details, nil
}

// What the backend says of an instance is in each answer of success, as it was last said. Its parameters may be secret.
func TestDetails(t *testing.T) {
	var backend *describingShelf
	s := newTestBroker(t, setting{catalogue: updatingCatalogue, over: func(of *shelf) broker.Backend {
		backend = &describingShelf{updatingShelf: newUpdatingShelf(of)}
		return backend
	}})
	one, order := instances+"i", bodyOf(now, `,"parameters":{"password":"x"}`)
	const first, second = `"dashboard_url":"https://d/1"`, `"dashboard_url":"https://d/2"`
	for _, status := range []int{201, 200} {
		body := s.expect(t, status, "PUT", one, order)
		if !strings.Contains(body, first) || !strings.Contains(body, `"metadata":{"labels":{"version":"1"}}`) {
			t.Errorf("%d: got %s, want the dashboard and the metadata", status, body)
		}
	}
	diff.Contains(t, s.expect(t, 200, "PATCH", one, updateOf(`,"parameters":{"password":"y"}`)), second, "the Update")
	body := s.expect(t, 200, "GET", one, "")
	if !strings.Contains(body, second) || strings.Contains(body, "parameters") {
		t.Errorf("got %s, want the second dashboard, and no parameters", body)
	}
	diff.Equal(t, s.expect(t, 201, "PUT", one+"/service_bindings/b", bodyOf(now, "")), `{"credentials":"token 1"}`, "")
	s.expect(t, 200, "DELETE", one+"/service_bindings/b"+names(now), "")
	backend.isUnknown = true
	diff.Contains(t, s.expect(t, 200, "PATCH", one, updateOf(`,"parameters":{"password":"z"}`)), second, "unknown")
	if failures := s.observed.failures; len(failures) != 1 || failures[0].Event != "details_unknown" {
		t.Errorf("got %v, want that the details are unknown", failures)
	}
	backend.isUnknown = false
	body = s.expect(t, 200, "PATCH", one, updateOf(`,"parameters":{"password":"a"}`))
	if strings.Contains(body, "dashboard_url") || !strings.Contains(body, `"version":"3"`) {
		t.Errorf("got %s, want no dashboard any more", body)
	}
}

// If another backend is used that can't update, an update that is under way stays so.
func TestUpdateWithoutItsBackend(t *testing.T) {
	s, backend := newUpdatingBroker(t)
	s.expect(t, 201, "PUT", instances+"i", bodyOf(now, ""))
	backend.changing.Lock()
	backend.isUnseen = true
	backend.changing.Unlock()
	s.expect(t, 500, "PATCH", instances+"i", updateOf(`,"parameters":{"size":2}`))
	key := osb.InstanceKey(idOf(t, "i"))
	rows := rowStore{rows: map[broker.Key]broker.Entry{key: diff.Value(s.store.Read(context.Background(), key))(t).Entry}}
	service := broker.NewService(catalogueFor(t, catalogue), rows, s.shelf, newMemoryLocks(), broker.ServiceOptions{},
		broker.Silent{})
	err := service.TakeUp(context.Background(), key)
	diff.ErrorIs(t, err, broker.ErrNobodyKnows, "the take-up")
	diff.ErrorContains(t, err, "updates no instances", "the take-up")
	diff.Equal(t, rows.rows[key].IsUnfinished(), true, "unfinished")
}

// How much of an update is done is known by the text of the settings that a backend remembers.
func TestDone(t *testing.T) {
	from, to := broker.Settings{PlanID: "p"}, broker.Settings{PlanID: "q", Parameters: json.RawMessage(`{"a": "<"}`)}
	odd := broker.Settings{Parameters: json.RawMessage("{")}
	text := func(of broker.Settings) string { return diff.Value(of.Text())(t) }
	for _, test := range []struct {
		has  string
		want broker.There
	}{
		{"", broker.None}, {text(from), broker.None}, {text(to), broker.Whole},
		{text(broker.Settings{PlanID: "r"}), broker.Part},
	} {
		update := broker.Update{From: from, To: to}
		diff.Equal(t, diff.Value(update.Done(test.has))(t), test.want, "%q", test.has)
	}
	// SHA-256 of {"plan_id":"q","parameters":{"a":"\u003c"}}
	diff.Equal(t, text(to), "87ba36b619429e1f1f50a026df08ba06fbce9fe53cdbc0b97e25340801177e85", "the text")
	same := broker.Update{From: from, To: from}
	diff.Equal(t, diff.Value(same.Done(text(from)))(t), broker.Whole, "the same settings")
	for _, update := range []broker.Update{{From: odd, To: to}, {From: from, To: odd}} {
		if _, err := update.Done("x"); err == nil {
			t.Errorf("%+v: got no error of parameters that aren't JSON, want one", update)
		}
	}
}

// If what is stored of the Provision can't be read, nobody guesses the settings.
func TestUpdatesOfAnUnreadableRow(t *testing.T) {
	held, _, err := osb.Holding{}.Begin(osb.ModeSync, osb.Request{Service: id("a0"), Plan: id(now), ID: idOf(t, "i")}, osb.Rules{})
	check(t, err)
	held, _, err = held.End(osb.ModeSync, osb.OutcomeDone)
	check(t, err)
	const torn = `{"instance_id":"i","service_id`
	sold := diff.Value(broker.NewCatalogue([]byte(updatingCatalogue), broker.Abilities{Bindings: true, Updates: true}))(t)
	for name, entry := range map[string]broker.Entry{
		"never updated": {Holding: held, Request: json.RawMessage(torn)},
		"updated": {Holding: held, Request: json.RawMessage(torn), Change: &broker.Change{
			Holding: osb.NewUpdateHolding(osb.Settings{Plan: id(now)}), Settings: broker.Settings{PlanID: "p"},
		}},
	} {
		t.Run(name, func(t *testing.T) {
			store := rowStore{rows: map[broker.Key]broker.Entry{osb.InstanceKey(idOf(t, "i")): entry}}
			backend := newUpdatingShelf(newShelf(func() int { return 9 }))
			handler := handlerFor(t, broker.NewService(sold, store, backend, newMemoryLocks(), broker.ServiceOptions{},
				broker.Silent{}))
			backend.set(osb.InstanceKey(idOf(t, "i")), thing{there: broker.Whole})
			for _, asked := range []message{
				{method: "GET", target: instances + "i"},
				{method: "PATCH", target: instances + "i", body: []byte(updateOf(`,"parameters":{"size":2}`))},
			} {
				diff.Equal(t, asked.serve(handler).status, 500, "%s", asked.method)
			}
			diff.Equal(t, backend.updates, 0, "the updates of the backend")
		})
	}
}
