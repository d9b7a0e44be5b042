package broker_test

import (
	"context"
	"encoding/json"
	"errors"
	"fmt"
	"net/http"
	"strings"
	"testing"
	"time"

	"pippinterm/broker"
	"pippinterm/internal/diff"
	"pippinterm/osb"
)

// An oddShelf describes its instances by any metadata.
type oddShelf struct {
	*updatingShelf
	metadata string
}

func (s *oddShelf) Details(context.Context, broker.Request) (broker.Details, error) {
	s.changing.Lock()
	defer s.changing.Unlock()
	return broker.Details{DashboardURL: "https://d", Metadata: json.RawMessage(s.metadata)}, nil
}

func (s *oddShelf) describe(metadata string) {
	s.changing.Lock()
	defer s.changing.Unlock()
	s.metadata = metadata
}

// Details that can't be sent are unknown, and the work ends all the same.
func TestOddDetails(t *testing.T) {
	var backend *oddShelf
	s := newTestBroker(t, setting{catalogue: updatingCatalogue, over: func(of *shelf) broker.Backend {
		backend = &oddShelf{updatingShelf: newUpdatingShelf(of)}
		return backend
	}})
	for at, metadata := range []string{"7", "{", "[]", `{"a":"` + "\xff" + `"}`} {
		backend.describe(metadata)
		one := instances + fmt.Sprint("i", at)
		s.expect(t, 201, "PUT", one, bodyOf(now, ""))
		s.expect(t, 200, "PATCH", one, updateOf(`,"parameters":{"a":1}`))
		if body := s.expect(t, 200, "GET", one, ""); strings.Contains(body, "metadata") || strings.Contains(body, "dashboard") {
			t.Errorf("%s: got %s, want no details", metadata, body)
		}
		s.expect(t, 200, "DELETE", one+names(now), "")
	}
	for _, failure := range s.observed.failures {
		diff.Equal(t, failure.Event, "details_unknown", "the event")
	}
	diff.Equal(t, len(s.observed.failures), 8, "events")
	backend.describe("null")
	diff.Contains(t, s.expect(t, 201, "PUT", instances+"null", bodyOf(now, "")), "https://d", "no metadata")
}

// The details of an instance whose creation has gone on after its answer are known, and its deletion has none.
func TestDetailsOfAnOperation(t *testing.T) {
	var backend *oddShelf
	s := newTestBroker(t, setting{catalogue: updatingCatalogue, over: func(of *shelf) broker.Backend {
		backend = &oddShelf{updatingShelf: newUpdatingShelf(of), metadata: `{"labels":{}}`}
		return backend
	}})
	one := instances + "i"
	s.expect(t, 202, "PUT", one+"?accepts_incomplete=true", bodyOf("c3", ""))
	s.until(t, `"succeeded"`, "GET", one+"/last_operation")
	diff.Contains(t, s.expect(t, 200, "PUT", one+"?accepts_incomplete=true", bodyOf("c3", "")), "https://d", "the creation again")
	s.shelf.turn.Lock()
	s.shelf.mood = func() int { return 0 }
	s.shelf.turn.Unlock()
	for n := 0; n < 2; n++ {
		body := s.expect(t, 202, "DELETE", one+names("c3")+"&accepts_incomplete=true", "")
		if strings.Contains(body, "https://d") {
			t.Errorf("got %s, want no details of a deletion", body)
		}
	}
}

// A rejection that has changed something is a failure: the platform gets no 4xx and no code, and the log has no rejection.
func TestRejectionThatHasChangedSomething(t *testing.T) {
	s, backend := newUpdatingBroker(t)
	one := instances + "i"
	s.expect(t, 201, "PUT", one, bodyOf(now, ""))
	backend.fail(&broker.Rejection{Status: 422, Code: "QuotaExceeded", Description: "too many"}, true)
	body := s.expect(t, 500, "PATCH", one, updateOf(`,"parameters":{"a":9}`))
	if strings.Contains(body, "QuotaExceeded") || !strings.Contains(body, "too many") {
		t.Errorf("got %s, want the description, and no code", body)
	}
	failure := s.observed.failures[0]
	if failure.Event != "backend_failed_to_update" || failure.IsRejection {
		t.Errorf("got %+v, want a failure", failure)
	}
	backend.fail(nil, false)
	s.expect(t, 200, "PATCH", one, updateOf(`,"parameters":{"a":9}`))
	backend.fail(&broker.Rejection{Status: 422, Code: "QuotaExceeded", Description: "too many"}, false)
	s.expect(t, 422, "PATCH", one, updateOf(`,"parameters":{"a":10}`))
	last := s.observed.failures[len(s.observed.failures)-1]
	if last.Event != "backend_rejected" || !last.IsRejection {
		t.Errorf("got %+v, want a rejection", last)
	}
}

// Deletions of instances that have an asynchronous plan now, and had a synchronous one, leave a slot for other requests.
func TestSlotsOfDeletionsAfterUpdates(t *testing.T) {
	document := strings.Replace(updatingCatalogue, `"name": "later", "description": "updates later",`,
		`"name": "later", "description": "updates later", "x-osb-asynchronous": true,`, 1)
	var backend *updatingShelf
	gate := make(chan struct{})
	s := newTestBroker(t, setting{atOnce: 3, catalogue: document, over: func(of *shelf) broker.Backend {
		backend = newUpdatingShelf(of)
		return backend
	}})
	for n := 0; n < 4; n++ {
		one := instances + fmt.Sprint("i", n)
		s.expect(t, 201, "PUT", one, bodyOf(now, ""))
		s.expect(t, 202, "PATCH", one+"?accepts_incomplete=true", updateOf(planMember(later)))
		s.until(t, `"succeeded"`, "GET", one+"/last_operation")
	}
	s.expect(t, 201, "PUT", instances+"other", bodyOf(now, ""))
	s.shelf.turn.Lock()
	s.shelf.mood = func() int { <-gate; return 9 }
	s.shelf.turn.Unlock()
	deleted := make(chan int)
	for n := 0; n < 4; n++ {
		go func(target string) {
			given, _ := s.ask("DELETE", target, "")
			deleted <- given.StatusCode
		}(instances + fmt.Sprint("i", n) + names(later))
	}
	time.Sleep(100 * time.Millisecond)
	polled := make(chan int, 1)
	go func() {
		given, _ := s.ask("GET", instances+"other/last_operation", "")
		polled <- given.StatusCode
	}()
	select {
	case status := <-polled:
		diff.Equal(t, status, 200, "the Poll")
	case <-time.After(5 * time.Second):
		t.Error("the Poll of another instance waits for the deletions")
	}
	close(gate)
	for n := 0; n < 4; n++ {
		diff.Equal(t, <-deleted, 200, "a deletion")
	}
}

// An Update that names no plan, or a synchronous one, may do work, and one that names an asynchronous one leaves the slot.
func TestSlotsOfUpdates(t *testing.T) {
	var backend *updatingShelf
	gate := make(chan struct{})
	s := newTestBroker(t, setting{atOnce: 3, catalogue: updatingCatalogue, over: func(of *shelf) broker.Backend {
		backend = newUpdatingShelf(of)
		return backend
	}})
	for n := 0; n < 5; n++ {
		s.expect(t, 201, "PUT", instances+fmt.Sprint("i", n), bodyOf(now, ""))
	}
	backend.hold(gate)
	updated := make(chan int)
	for n := 0; n < 4; n++ {
		go func(target, plan string) {
			given, _ := s.ask("PATCH", target, updateOf(plan+`,"parameters":{"a":1}`))
			updated <- given.StatusCode
		}(instances+fmt.Sprint("i", n), []string{"", planMember("c3")}[n%2])
	}
	time.Sleep(100 * time.Millisecond)
	polled := make(chan int, 1)
	go func() {
		given, _ := s.ask("GET", instances+"i4/last_operation", "")
		polled <- given.StatusCode
	}()
	select {
	case status := <-polled:
		diff.Equal(t, status, 200, "the Poll")
	case <-time.After(5 * time.Second):
		t.Error("the Poll of another instance waits for the updates")
	}
	close(gate)
	for n := 0; n < 4; n++ {
		diff.Equal(t, <-updated, 200, "an Update")
	}
}

// The backend gets who has sent the Update, and a failure names the request of the Update.
func TestOriginOfAnUpdate(t *testing.T) {
	s, backend := newUpdatingBroker(t)
	one := instances + "i"
	send := func(status int, method, body, id string) {
		t.Helper()
		s.expect(t, status, method, one, body, func(r *http.Request) { r.Header.Set("X-Broker-API-Request-Identity", id) })
	}
	send(201, "PUT", bodyOf(now, ""), "first")
	send(200, "PATCH", updateOf(`,"parameters":{"a":1}`), "second")
	diff.Equal(t, backend.origin().RequestID, "second", "the request of the update")
	backend.fail(errors.New("no"), false)
	send(500, "PATCH", updateOf(`,"parameters":{"a":2}`), "third")
	diff.Equal(t, s.observed.failures[0].RequestID, "third", "the request in the log")
	change := diff.Value(s.store.Read(context.Background(), osb.InstanceKey(idOf(t, "i"))))(t).Change
	diff.Equal(t, change.Origin, broker.Origin{}, "of an update that has ended")
}

// While an update is under way, a deletion is put off because of the update, also if there are bindings. Afterwards, it is
// because of the bindings.
func TestDeletionDuringAnUpdate(t *testing.T) {
	s, backend := newUpdatingBroker(t)
	one := instances + "i"
	s.expect(t, 201, "PUT", one, bodyOf(now, ""))
	s.expect(t, 201, "PUT", one+"/service_bindings/b", bodyOf(now, ""))
	backend.unseen(true)
	s.expect(t, 500, "PATCH", one, updateOf(`,"parameters":{"a":1}`))
	if body := s.expect(t, 422, "DELETE", one+names(now), ""); strings.Contains(body, "bindings") {
		t.Errorf("got %s, want no word of bindings", body)
	}
	diff.Contains(t, s.expect(t, 422, "GET", one, ""), "update", "the Fetch")
	backend.unseen(false)
	s.until(t, `"succeeded"`, "GET", one+"/last_operation")
	diff.Contains(t, s.expect(t, 422, "DELETE", one+names(now), ""), "bindings", "the deletion afterwards")
	diff.Contains(t, s.expect(t, 409, "PUT", one, bodyOf(now, "")), "was updated", "the Provision")
}

// An Update that has nothing to do leaves the time at which the latest work began.
func TestTimeOfAnUpdate(t *testing.T) {
	s, _ := newUpdatingBroker(t)
	one, key := instances+"i", osb.InstanceKey(idOf(t, "i"))
	s.expect(t, 201, "PUT", one, bodyOf(now, ""))
	s.expect(t, 200, "PATCH", one, updateOf(`,"x-osb-update":1`))
	entry := diff.Value(s.store.Read(context.Background(), key))(t).Entry
	diff.Equal(t, entry.Since.IsZero(), true, "no time of an instance that is finished")
	diff.Equal(t, entry.Change.Holding.Number(), uint64(1), "the number")
}
