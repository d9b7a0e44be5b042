package broker_test

import (
	"context"
	"encoding/json"
	"fmt"
	"net/http"
	"strings"
	"testing"

	"pippinterm/broker"
	"pippinterm/internal/diff"
)

// descriptionIn returns the description and the code of an error.
func descriptionIn(t *testing.T, body string) (description, code string) {
	t.Helper()
	var read struct{ Description, Error string }
	if err := json.Unmarshal([]byte(body), &read); err != nil {
		t.Fatalf("%s: got the error %v, want none", body, err)
	}
	return read.Description, read.Error
}

// nestedObject is an object in which so many arrays and objects nest, itself included.
func nestedObject(depth int) string {
	return strings.Repeat(`{"a":`, depth) + "1" + strings.Repeat("}", depth)
}

// What the sentence about a body allows is accepted: 127 levels with the body itself, the number, and a whole pair.
func TestWhatABodyMayHave(t *testing.T) {
	for _, value := range []string{nestedObject(126), `{"a":1.7e308}`, `{"a":-1.7e308}`, `{"a":"\ud83d\ude00"}`} {
		newTestBroker(t, setting{}).expect(t, 201, "PUT", instances+"i", bodyOf(now, `,"parameters":`+value))
	}
}

// Each rejection says what is wrong, and has the code of its status.
func TestSentencesOfRefusals(t *testing.T) {
	s := newTestBroker(t, setting{})
	s.expect(t, 201, "PUT", instances+"i", bodyOf(now, ""))
	twice := func(r *http.Request) { r.Header.Add("X-Broker-API-Version", "2.17") }
	one, bound := instances+"i", instances+"i/service_bindings/b"
	without := func(member string) string {
		return strings.ReplaceAll(bodyOf(now, ""), `"`+member+`"`, `"x"`)
	}
	for _, test := range []struct {
		method, target, body string
		change               func(*http.Request)
		status               int
		description, code    string
	}{
		{"GET", "/v3", "", nil, 404, "The broker has no such path.", "NotFound"},
		{"POST", one, "", nil, 405, "The path doesn't take this method.", "MethodNotAllowed"},
		{"POST", "/v2/catalog", "", nil, 405, "The path doesn't take this method.", "MethodNotAllowed"},
		{"GET", "/v2/catalog", "", header("X-Broker-API-Version", "3.0"), 412,
			"The header X-Broker-API-Version must be 2.17, or another 2.x.", "PreconditionFailed"},
		{"GET", "/v2/catalog", "", twice, 412, "The header X-Broker-API-Version must be 2.17", "PreconditionFailed"},
		{"PUT", one, bodyOf(now, strings.Repeat(" ", 1000)), nil, 413, "longer than 1000 bytes", "ContentTooLarge"},
		{"PUT", one, "{", nil, 400, "The body must be an object of JSON", "BadRequest"},
		{"PUT", one, "[]", nil, 400, "The body must be an object of JSON", "BadRequest"},
		{"PUT", one, bodyOf(now, `,"parameters":`+nestedObject(127)), nil, 400, "at most 127 arrays and objects",
			"BadRequest"},
		{"PUT", one, bodyOf(now, `,"parameters":{"a":1e999999999999}`), nil, 400, "no number beyond 1.7e308", "BadRequest"},
		{"PUT", bound, bodyOf(now, `,"parameters":{"a":"\ud800"}`), nil, 400, `no lone surrogate such as \ud800`,
			"BadRequest"},
		{"PUT", one, without("service_id"), nil, 400, "service_id must be", "BadRequest"},
		{"PUT", one, without("plan_id"), nil, 400, "plan_id must be", "BadRequest"},
		{"PUT", one, without("organization_guid"), nil, 400, "organization_guid must be", "BadRequest"},
		{"PUT", one, without("space_guid"), nil, 400, "space_guid must be", "BadRequest"},
		{"PUT", one + "?accepts_incomplete=1", bodyOf(now, ""), nil, 400, "accepts_incomplete must be", "BadRequest"},
		{"PUT", one + "?accepts_incomplete=true&accepts_incomplete=true", bodyOf(now, ""), nil, 400,
			"A parameter of the query stands twice.", "BadRequest"},
		{"DELETE", one, "", nil, 400, "service_id must be", "BadRequest"},
		{"PUT", bound, bodyOf(now, `,"predecessor_binding_id":"a"`), nil, 400, "predecessor_binding_id", "BadRequest"},
		{"PUT", instances + "%2e", bodyOf(now, ""), nil, 400, "The instance id must be", "BadRequest"},
	} {
		t.Run(test.method+" "+test.target, func(t *testing.T) {
			if test.change == nil {
				test.change = func(*http.Request) {}
			}
			body := s.expect(t, test.status, test.method, test.target, test.body, test.change)
			description, code := descriptionIn(t, body)
			if !strings.Contains(description, test.description) || code != test.code {
				t.Errorf("%s %s: got %s, want %q and %q", test.method, test.target, body, test.description, test.code)
			}
		})
	}
}

// Each answer by what is held says why.
func TestSentencesOfAnswers(t *testing.T) {
	s := newTestBroker(t, setting{})
	s.expect(t, 201, "PUT", instances+"i", bodyOf(now, ""))
	s.expect(t, 201, "PUT", instances+"i/service_bindings/b", bodyOf(now, ""))
	s.expect(t, 201, "PUT", instances+"ended", bodyOf(now, ""))
	s.expect(t, 200, "DELETE", instances+"ended"+names(now), "")
	for _, test := range []struct {
		method, target, body string
		status               int
		description          string
	}{
		{"PUT", "new", bodyOf("ff", ""), 400, "The catalogue has no such service and plan."},
		{"PUT", "new", bodyOf(later, ""), 422, "Send the request with accepts_incomplete=true."},
		{"PUT", "i", bodyOf(bindLater, ""), 409, "An instance of this id exists, with another plan_id."},
		{"PUT", "i", bodyOf(now, `,"parameters":{"a":1}`), 409,
			"An instance of this id exists, with other parameters."},
		{"PUT", "ended", bodyOf(now, ""), 409, "An instance of this id has ended. An id is never used again"},
		{"PUT", "i/service_bindings/b", bodyOf(now, `,"parameters":{"a":1}`), 409,
			"A binding of this id exists, with other parameters"},
		{"PUT", "i/service_bindings/c", bodyOf("ff", ""), 400, "or the plan isn't bindable."},
		{"PUT", "new/service_bindings/b", bodyOf(now, ""), 503, "The instance isn't available"},
		{"DELETE", "i" + names(bindLater), "", 400, "The instance has another service_id or plan_id."},
		{"DELETE", "i/service_bindings/b" + names(bindLater), "", 400,
			"The binding has another service_id or plan_id."},
		{"DELETE", "none" + names(now), "", 410, "No instance of this id exists."},
		{"DELETE", "i/service_bindings/none" + names(now), "", 410, "No binding of this id exists."},
		{"GET", "no/last_operation", "", 410, "No instance of this id exists."},
		{"GET", "i/service_bindings/no/last_operation", "", 410, "No binding of this id exists."},
		{"GET", "i/service_bindings/no", "", 404, "No binding of this id can be fetched"},
	} {
		t.Run(test.method+" "+test.target, func(t *testing.T) {
			body := s.expect(t, test.status, test.method, instances+test.target, test.body)
			if description, _ := descriptionIn(t, body); !strings.Contains(description, test.description) {
				t.Errorf("got %s, want %q", body, test.description)
			}
			if reason := s.observed.last().Reason; !strings.Contains(reason, test.description) {
				t.Errorf("got the reason %q in the log, want %q in it", reason, test.description)
			}
		})
	}
}

// Each answer to an Update, and to the Fetch of an instance, says why.
func TestSentencesOfUpdates(t *testing.T) {
	s, backend := newUpdatingBroker(t)
	for _, plan := range []string{now, "c4"} {
		s.expect(t, 201, "PUT", instances+plan, bodyOf(plan, ""))
	}
	s.expect(t, 200, "PATCH", instances+now, updateOf(`,"parameters":{"size":1},"x-osb-update":5`))
	backend.fail(errScripted, true)
	for _, test := range []struct {
		method, target, body string
		status               int
		description          string
	}{
		{"PATCH", "none", updateOf(""), 404, "No instance of this id exists."},
		{"PATCH", now, updateOf(planMember("ff")), 400, "or the catalogue has no such plan."},
		{"PATCH", now, updateOf(`,"x-osb-update":4`), 409, "A later Update was received: its x-osb-update is greater."},
		{"PATCH", "c4", updateOf(planMember(now)), 422, "The plan of the instance can't be changed"},
		{"PATCH", now, updateOf(planMember("c2")), 422, "Send the request with accepts_incomplete=true."},
		{"PATCH", now, updateOf(`,"maintenance_info":{"version":"2.0"}`), 422,
			"The plan has another maintenance_info.version."},
		{"GET", "none", "", 404, "No instance of this id can be fetched."},
		{"GET", now + "?plan_id=ff", "", 400, "or its service has no such plan_id."},
		{"PATCH", now, updateOf(`,"parameters":{"size":2}`), 500,
			"The update has failed, or an Update with this x-osb-update was judged before. Send it again"},
		{"GET", now, "", 422, "An update of the instance is in progress, or has failed."},
	} {
		t.Run(test.method+" "+test.target, func(t *testing.T) {
			body := s.expect(t, test.status, test.method, instances+test.target, test.body)
			if description, _ := descriptionIn(t, body); !strings.Contains(description, test.description) {
				t.Errorf("got %s, want %q", body, test.description)
			}
		})
	}
}

// A rejection of the backend that says nothing has a sentence too, and so has a failure.
func TestSentencesOfTheBackend(t *testing.T) {
	for _, test := range []struct {
		failure     error
		status      int
		description string
	}{
		{&broker.Rejection{Status: 400}, 400, "The backend rejected the request."},
		{&broker.Rejection{Status: 422}, 422, "The backend rejected the request."},
		{&broker.Rejection{Status: 422, Code: "Quota"}, 422, "The backend rejected the request."},
		{&broker.Rejection{Status: 400, Description: "no such size"}, 400, "no such size"},
		{http.ErrNotSupported, 500, "The backend failed. The broker's log has the reason."},
	} {
		t.Run(fmt.Sprint(test.failure), func(t *testing.T) {
			s := newTestBroker(t, setting{over: func(s *shelf) broker.Backend { return refusingBackend{s, test.failure} }})
			body := s.expect(t, test.status, "PUT", instances+"i", bodyOf(now, ""))
			if description, _ := descriptionIn(t, body); description != test.description {
				t.Errorf("%v: got %s, want its description", test.failure, body)
			}
		})
	}
}

// The creation of what has failed says why the creation has failed, also if a part of it was deleted, and not why a
// deletion has failed since. A Poll doesn't say why an earlier operation has failed.
func TestSentencesOfWhatHasFailed(t *testing.T) {
	l, one := newLoneBroker(t), instances+"i"
	says := func(wanted string) {
		t.Helper()
		given := l.ask("PUT", one+query, bodyOf(later, ""))
		if description, _ := descriptionIn(t, string(given.body)); given.status != 500 || description != wanted {
			t.Errorf("got %d %s, want %q", given.status, given.body, wanted)
		}
	}
	takeUp := func() {
		t.Helper()
		check(t, l.TakeUp(context.Background(), keyOf("i")))
	}
	*l.backend = scriptedBackend{made: part, failure: broker.Public(errScripted, "no space"), deletes: true}
	l.expect(t, 202, "PUT", one+query, bodyOf(later, ""))
	takeUp()
	says("no space")
	given := l.ask("PUT", one+query, bodyOf(later, `,"parameters":{"a":1}`))
	if description, _ := descriptionIn(t, string(given.body)); given.status != 409 ||
		!strings.Contains(description, "with other parameters") {
		t.Errorf("with other parameters: got %d %s, want 409 and that these differ", given.status, given.body)
	}
	*l.backend = scriptedBackend{there: whole, deleted: whole, failure: broker.Public(errScripted, "in use")}
	l.expect(t, 202, "DELETE", one+names(later)+"&accepts_incomplete=true", "")
	takeUp()
	says("The backend failed. The broker's log has the reason.")
	l.backend.failure = errScripted
	l.expect(t, 202, "DELETE", one+names(later)+"&accepts_incomplete=true", "")
	takeUp()
	poll := string(l.ask("GET", one+"/last_operation", "").body)
	diff.Contains(t, poll, `"failed"`, "the Poll of a deletion that says nothing")
	diff.Lacks(t, poll, "in use", "the Poll of a deletion that says nothing")
}
