package conform

import (
	"context"
	"encoding/json"
	"fmt"
	"io"
	"net/http"
	"net/http/httptest"
	"net/url"
	"reflect"
	"sort"
	"strings"
	"sync"
	"testing"
	"time"

	"pippinterm/internal/diff"
)

func serve(t *testing.T, m *model) string {
	t.Helper()
	server := httptest.NewServer(m)
	t.Cleanup(server.Close)
	return server.URL
}

// password is that of the model. It stands otherwise in JSON and in a URL.
const password = `pa"ss <word> &%41`

func optionsFor(url string) Options {
	return Options{
		URL: url, User: "u", Password: password, Instances: 50, RequestTime: 10 * time.Second,
		OperationTime: 10 * time.Second, Pause: time.Millisecond,
	}
}

func runnerFor(t *testing.T, c Options) *Runner {
	t.Helper()
	return diff.Value(New(c))(t)
}

// openTarget returns the target of a Runner that has read the catalogue.
func openTarget(t *testing.T, r *Runner) Target {
	t.Helper()
	return diff.Value(r.Open(context.Background()))(t)
}

func ran(t *testing.T, r *Runner) *Report {
	t.Helper()
	return diff.Value(r.Run(context.Background()))(t)
}

// cleansUp checks that a Runner deletes everything at a model, within a minute.
func cleansUp(t *testing.T, r *Runner, m *model) {
	t.Helper()
	within, cancel := context.WithTimeout(context.Background(), time.Minute)
	defer cancel()
	if left := r.CleanUp(within); len(left) > 0 || m.countExisting() > 0 {
		t.Errorf("got %v left and %d that exist, want none", left, m.countExisting())
	}
}

// caseNames returns the names of the cases with a grade, sorted.
func caseNames(report *Report, grade Grade) string {
	var names []string
	for _, result := range report.Results {
		if result.Grade == grade {
			names = append(names, result.Name)
		}
	}
	sort.Strings(names)
	return strings.Join(names, " ")
}

func sortWords(names string) string {
	all := strings.Fields(names)
	sort.Strings(all)
	return strings.Join(all, " ")
}

// A broker that satisfies the standard fails no case, and each case is run at a broker of one of the three kinds.
func TestModelPasses(t *testing.T) {
	passed := map[string]bool{}
	for name, m := range map[string]*model{
		"synchronous": newModel(false), "asynchronous": newModel(true),
		"not updateable": {lives: map[key]*life{}, isFixed: true},
	} {
		m := m
		t.Run(name, func(t *testing.T) {
			r := runnerFor(t, optionsFor(serve(t, m)))
			for _, result := range ran(t, r).Results {
				if result.Grade == Fail || result.Grade == NotRun && result.Reason == "" {
					t.Errorf("got %+v, want no failure, and a reason if it isn't run", result)
				}
				passed[result.Name] = passed[result.Name] || result.Grade == Pass
			}
			cleansUp(t, r, m)
		})
	}
	for _, test := range Cases() {
		diff.Equal(t, passed[test.Name], true, "%s has run at one of them", test.Name)
	}
}

// Each mistake fails the cases that are about it, and no others. What exists is deleted all the same.
func TestMistakes(t *testing.T) {
	for _, mistake := range mistakes {
		mistake := mistake
		t.Run(strings.ReplaceAll(mistake.name, " ", "-"), func(t *testing.T) {
			m := newModel(mistake.async)
			m.spoil = mistake.spoil
			c := optionsFor(serve(t, m))
			c.OperationTime = time.Second
			r := runnerFor(t, c)
			report := ran(t, r)
			diff.Equal(t, caseNames(report, Fail), sortWords(mistake.fails), "the failures")
			within, cancel := context.WithTimeout(context.Background(), 5*time.Second)
			defer cancel()
			left := r.CleanUp(within)
			if exist := m.countExisting(); exist > len(left) {
				t.Errorf("got %d that exist, want them listed: %v", exist, left)
			}
		})
	}
}

// There is a mistake for each case, and each mistake is about cases that exist.
func TestEveryCaseHasAMistake(t *testing.T) {
	known, met := map[string]bool{}, map[string]bool{}
	for _, test := range Cases() {
		diff.Equal(t, known[test.Name], false, "%s stands twice", test.Name)
		known[test.Name] = true
	}
	for _, mistake := range mistakes {
		for _, name := range strings.Fields(mistake.fails) {
			met[name] = true
			diff.Equal(t, known[name], true, "%s: the case %s is there", mistake.name, name)
		}
	}
	for name := range known {
		diff.Equal(t, met[name], true, "a mistake about %s is there", name)
	}
}

// Without a catalogue, nobody knows what it would have.
func TestReasonsWithoutCatalogue(t *testing.T) {
	m := newModel(false)
	m.spoil = func(c *call) {
		if c.kind == "catalog" {
			c.give(404, object{})
		}
	}
	c := optionsFor(serve(t, m))
	c.Service, c.Plan = "s", "a"
	report := ran(t, runnerFor(t, c))
	of := map[string]string{}
	for _, result := range report.Results {
		of[result.Name] = result.Reason
	}
	for _, name := range []string{"provision-conflict-plan", "fetch-instance"} {
		t.Run(name, func(t *testing.T) {
			diff.Equal(t, of[name], "the catalogue can't be read", "%s", name)
		})
	}
}

// A case of an Update that a broker can't fail isn't run, and the reason says why.
func TestUpdatesNotRun(t *testing.T) {
	const fetches = "update-rejected-keeps update-parameters-fetched update-keeps-plan update-plan-fetched " +
		"update-keeps-parameters"
	const changes = "update-plan update-fields update-ends update-plan-fetched update-keeps-parameters update-repeated"
	ofService := func(change func(service object)) func(*call) { return catalogs(func(s, _ object) { change(s) }) }
	for _, test := range []struct {
		name    string
		isAsync bool
		spoil   func(*call)
		cases   string
		reason  string
	}{
		{"no endpoint", false, both(ofService(func(s object) { delete(s, "plan_updateable") }),
			at("patch", false, "ready", 200, gives(405))), "update-no-change update-plan provision-after-update",
			"the plan isn't plan_updateable, and the broker answers an Update with 405"},
		{"no endpoint for anybody", false, both(ofService(func(s object) { delete(s, "plan_updateable") }),
			at("patch", false, "ready", 401, gives(404))), "auth-update",
			"the broker has no such endpoint, and the plan isn't plan_updateable"},
		{"nothing is fetched", false, ofService(func(s object) { s["instances_retrievable"] = false }),
			fetches + " fetch-deleted fetch-fields", "the service isn't instances_retrievable"},
		{"nothing is fetched during an Update", true, ofService(func(s object) { s["instances_retrievable"] = false }),
			"async-fetch-during-update", "the service isn't instances_retrievable"},
		{"a Fetch reports nothing", false, at("fetch", false, "ready", 200, func(c *call) { c.body = object{} }),
			fetches, "no answer to a Fetch of the instance has these members"},
		{"one plan", false, ofService(func(s object) { s["plans"] = s["plans"].([]any)[:1] }), changes,
			"the service has no other plan"},
		{"no version", false, ofService(func(s object) { delete(s["plans"].([]any)[0].(object), "maintenance_info") }),
			"update-maintenance update-maintenance-conflict", "the plan has no maintenance_info"},
		{"no parameters", false, at("patch", false, "ready", 200, only(hasParameters, gives(400))),
			"update-parameters-fetched", "the parameters can't be updated"},
		{"nobody knows the parameters", false, at("patch", false, "ready", 200, only(hasParameters, gives(500))),
			"update-keeps-plan update-parameters-fetched", "no answer says which settings the instance has"},
		{"nobody knows the plan", false, at("patch", false, "ready", 200, only(asksPlan("b"), gives(500))),
			"provision-after-update provision-after-update-old", "no answer says which settings the instance has"},
		{"every Update is rejected", false, both(ofService(func(s object) { delete(s, "plan_updateable") }),
			at("patch", false, "ready", 200, only(func(c *call) bool { return !c.isSame }, gives(422)))),
			"provision-after-update provision-after-update-old", "no Update has changed anything"},
		{"no bindings", true, ofService(func(s object) { s["bindable"] = false }), "async-bind-during-update",
			"the plan isn't bindable"},
		{"it has ended before another one", true, at("patch", false, "updating", 422, goesOn), "async-update-during-update",
			"the operation had ended before the answer"},
		{"it is only once asynchronous", true, at("patch", false, "ready", 202, only(func(c *call) bool {
			return asksPlan("b")(c) && c.life.asked["parameters"] == nil // as of a new instance
		}, gives(500))), "async-update-repeated async-update-last-operation",
			"the same Update wasn't asynchronous again"},
	} {
		test := test
		t.Run(strings.ReplaceAll(test.name, " ", "-"), func(t *testing.T) {
			m := newModel(test.isAsync)
			m.spoil = test.spoil
			r := runnerFor(t, optionsFor(serve(t, m)))
			of := map[string]CaseResult{}
			for _, result := range ran(t, r).Results {
				of[result.Name] = result
			}
			for _, name := range strings.Fields(test.cases) {
				diff.Equal(t, of[name].Grade, NotRun, "the grade of %s", name)
				diff.Equal(t, of[name].Reason, test.reason, "%s", name)
			}
		})
	}
}

func both(one, other func(*call)) func(*call) { return func(c *call) { one(c); other(c) } }

// goesOn ends the Update that is in progress, and begins the one of the call.
func goesOn(c *call) {
	c.life.asked = c.life.to
	c.life.to = object{"plan": c.life.asked["plan"], "parameters": c.sent["parameters"]}
	c.life.number += 1000
	c.give(202, object{"operation": fmt.Sprintf("operation %d", c.life.number)})
}

type mistake struct {
	name  string
	fails string // the cases that must fail, and no others, with spaces between
	async bool
	spoil func(*call)
}

// at makes a mistake in the answers to a kind of request, in a state, that have a status.
func at(kind string, binding bool, before string, status int, spoil func(*call)) func(*call) {
	return func(c *call) {
		if c.kind == kind && c.isBinding() == binding && c.before == before && c.status == status {
			spoil(c)
		}
	}
}

// gives answers with another status. A success has an empty object.
func gives(status int) func(*call) {
	return func(c *call) {
		if status < 300 {
			c.give(status, object{})
		} else {
			c.reject(status, "Other")
		}
	}
}

// says changes members of an answer's object.
func says(members object) func(*call) {
	return func(c *call) {
		said := object{}
		for name, value := range c.body.(object) {
			said[name] = value
		}
		for name, value := range members {
			said[name] = value
		}
		c.body = said
	}
}

// only makes a mistake if a request is so.
func only(is func(*call) bool, spoil func(*call)) func(*call) {
	return func(c *call) {
		if is(c) {
			spoil(c)
		}
	}
}

func lacksMember(member string) func(*call) bool {
	return func(c *call) bool {
		if c.kind == "delete" {
			return !c.URL.Query().Has(member)
		}
		_, has := c.sent[member]
		return !c.malformed && !has
	}
}

// changes changes what an instance is set to.
func changes(settings object) func(*call) {
	return func(c *call) {
		asked := object{}
		for name, value := range c.life.asked {
			asked[name] = value
		}
		for name, value := range settings {
			asked[name] = value
		}
		c.life.asked = asked
	}
}

// catalogs changes the first service, or the last plan.
func catalogs(change func(service, plan object)) func(*call) {
	return at("catalog", false, "", 200, func(c *call) {
		service := c.body.(object)["services"].([]any)[0].(object)
		change(service, service["plans"].([]any)[2].(object))
	})
}

func hasEmpty(member string) func(*call) bool {
	return func(c *call) bool { return c.sent[member] == "" }
}

func saysState(c *call) { c.give(200, object{"state": "in progress"}) }

func retries(text string) func(*call) { return func(c *call) { c.retry = text } }

func hasHeader(name string) func(*call) bool {
	return func(c *call) bool { return c.Header.Get(name) != "" }
}

// hasError makes a mistake if an answer has an error code.
func hasError(code string) func(*call) bool {
	return func(c *call) bool {
		body, _ := c.body.(object)
		return body["error"] == code
	}
}

// during makes a mistake if the instance is in a state.
func during(state string) func(*call) bool { return func(c *call) bool { return c.of == state } }

func all(of ...func(*call) bool) func(*call) bool {
	return func(c *call) bool {
		for _, is := range of {
			if !is(c) {
				return false
			}
		}
		return true
	}
}

// reports makes a mistake if the answer to a Fetch has a plan.
func reports(plan string) func(*call) bool {
	return func(c *call) bool { return c.body.(object)["plan_id"] == plan }
}

func isMalformed(c *call) bool                 { return c.malformed }
func not(is func(*call) bool) func(*call) bool { return func(c *call) bool { return !is(c) } }
func asksPlan(id string) func(*call) bool {
	return func(c *call) bool { return c.sent["plan_id"] == id }
}
func hasParameters(c *call) bool  { return c.sent["parameters"] != nil }
func hasUnknown(c *call) bool     { return c.sent["x-osb-storm-unknown"] != nil }
func isOdd(c *call) bool          { return strings.Contains(c.key.instance, " ") }
func isGuid(text any) bool        { s, _ := text.(string); return len(s) == 36 }
func unknownService(c *call) bool { return isGuid(c.sent["service_id"]) }
func unknownPlan(c *call) bool    { return isGuid(c.sent["plan_id"]) }

var mistakes = []mistake{
	{"the catalogue has no list", "catalog-status", false, at("catalog", false, "", 200, gives(200))},
	{"a service has no description", "catalog-services", false,
		catalogs(func(s, _ object) { delete(s, "description") })},
	{"a plan has no description", "catalog-plans", false, catalogs(func(_, p object) { delete(p, "description") })},
	{"a plan's id stands twice", "catalog-ids-unique", false, catalogs(func(_, p object) { p["id"] = "b" })},
	{"a plan's name stands twice", "catalog-names-unique", false, catalogs(func(_, p object) { p["name"] = "plan-b" })},
	{"a flag is a string", "catalog-flags", false, catalogs(func(_, p object) { p["free"] = "yes" })},
	{"tags are a string", "catalog-flags", false, catalogs(func(s, _ object) { s["tags"] = "t" })},
	{"a permission of its own", "catalog-requires", false,
		catalogs(func(s, _ object) { s["requires"] = []any{"syslog_drain", "fly"} })},
	{"maintenance_info is a version", "catalog-flags", false,
		catalogs(func(_, p object) { p["maintenance_info"] = "1.0.0" })},
	{"maintenance_info has no version", "catalog-flags", false,
		catalogs(func(_, p object) { p["maintenance_info"] = object{"description": "d"} })},
	{"a name has a space", "catalog-names-for-cli", false, catalogs(func(_, p object) { p["name"] = "plan c" })},

	{"the version isn't read", "version-missing", false, at("catalog", false, "", 400, gives(200))},
	{"another version is taken", "version-of-another-major", false, at("catalog", false, "", 412, gives(200))},
	{"no login is taken", "auth-missing auth-provision auth-last-operation auth-fetch auth-bind auth-fetch-binding " +
		"auth-update auth-unbind auth-deprovision auth-binding-last-operation", false, only(not(hasHeader("Authorization")), gives(200))},
	{"anybody may see the catalogue", "auth-missing", false,
		at("catalog", false, "", 401, only(not(hasHeader("Authorization")), gives(200)))},
	{"anybody may provision without a password", "auth-provision", false,
		at("put", false, "", 401, only(not(hasHeader("Authorization")), gives(201)))},
	{"anybody may poll", "auth-last-operation", true,
		at("poll", false, "creating", 401, only(not(hasHeader("Authorization")), saysState))},
	{"anybody may poll what is ready", "auth-last-operation auth-tells-nothing", false,
		at("poll", false, "ready", 401, saysState)},
	{"anybody may fetch", "auth-fetch", false, at("fetch", false, "ready", 401, gives(200))},
	{"anybody may update", "auth-update", false, at("patch", false, "ready", 401, gives(200))},
	{"anybody may bind", "auth-bind", false, at("put", true, "", 401, gives(201))},
	{"anybody may poll a binding", "auth-binding-last-operation", true, at("poll", true, "creating", 401, saysState)},
	{"anybody may fetch a binding", "auth-fetch-binding", false, at("fetch", true, "ready", 401, gives(200))},
	{"anybody may unbind", "auth-unbind", false, at("delete", true, "ready", 401, gives(200))},
	{"anybody may deprovision", "auth-deprovision", false, at("delete", false, "ready", 401, gives(200))},
	{"anybody may deprovision later", "auth-deprovision", true, at("delete", false, "ready", 401, gives(202))},
	{"403 to a wrong login", "auth-wrong-password", false,
		at("catalog", false, "", 401, only(hasHeader("Authorization"), gives(403)))},
	{"anybody may provision", "auth-provision", false, at("put", false, "", 401, gives(201))},
	{"a wrong login is told what exists", "auth-tells-nothing", false, at("poll", false, "ready", 401,
		only(hasHeader("Authorization"), gives(403)))},

	{"service_id isn't required", "provision-without-service-id", false,
		at("put", false, "", 400, only(lacksMember("service_id"), gives(201)))},
	{"plan_id isn't required", "provision-without-plan-id", false,
		at("put", false, "", 400, only(lacksMember("plan_id"), gives(201)))},
	{"organization_guid isn't required", "provision-without-organization", false,
		at("put", false, "", 400, only(lacksMember("organization_guid"), gives(201)))},
	{"space_guid isn't required", "provision-without-space", false,
		at("put", false, "", 400, only(lacksMember("space_guid"), gives(201)))},
	{"an empty organization_guid", "provision-empty-organization", false,
		at("put", false, "", 400, only(hasEmpty("organization_guid"), gives(201)))},
	{"an empty space_guid", "provision-empty-space", false,
		at("put", false, "", 400, only(hasEmpty("space_guid"), gives(201)))},
	{"500 to what isn't JSON", "provision-malformed", false, at("put", false, "", 400, only(isMalformed, gives(500)))},
	{"any service", "provision-unknown-service", false, at("put", false, "", 400, only(unknownService, gives(201)))},
	{"any plan", "provision-unknown-plan", false, at("put", false, "", 400, only(unknownPlan, gives(201)))},

	{"200 to what is new", "provision-new unknown-fields content-type-missing originating-identity request-identity " +
		"id-percent-encoded", false, at("put", false, "", 201, gives(200))},
	{"dashboard_url is a number", "provision-fields", false,
		at("put", false, "", 201, says(object{"dashboard_url": 5}))},
	{"operation is too long", "provision-fields", false,
		at("put", false, "", 201, says(object{"operation": strings.Repeat("a", 10001)}))},
	{"a state of its own", "last-operation-state provision-ends", true,
		at("poll", false, "creating", 200, says(object{"state": "working"}))},
	{"a description that is a number", "last-operation-fields", true,
		at("poll", false, "creating", 200, says(object{"description": 5}))},
	{"instance_usable is a string", "last-operation-fields", true,
		at("poll", false, "deleting", 200, says(object{"instance_usable": "yes"}))},
	{"a description of a binding that is a number", "binding-last-operation-fields", true,
		at("poll", true, "creating", 200, says(object{"description": 5}))},
	{"Retry-After is a word", "retry-after", true, at("poll", false, "creating", 200, retries("soon"))},
	{"Retry-After is negative", "retry-after", true, at("poll", true, "creating", 200, retries("-5"))},
	{"operations fail", "provision-ends", true, func(c *call) {
		if body, is := c.body.(object); is && c.kind == "poll" && !c.isBinding() && body["state"] == "succeeded" {
			c.body = object{"state": "failed"}
		}
	}},
	{"201 again", "provision-repeated provision-after-update", false, at("put", false, "ready", 200, gives(201))},
	{"another plan is taken", "provision-conflict-plan", false,
		at("put", false, "ready", 409, only(asksPlan("b"), gives(200)))},
	{"other parameters are taken", "provision-conflict-parameters", false,
		at("put", false, "ready", 409, only(hasParameters, gives(200)))},
	{"the plan of another", "fetch-instance", false, at("fetch", false, "ready", 200, says(object{"plan_id": "b"}))},
	{"410 to a Fetch", "fetch-instance-unknown", false, at("fetch", false, "", 404, gives(410))},

	{"a deletion of any service", "deprovision-without-service-id", false,
		at("delete", false, "ready", 400, only(lacksMember("service_id"), gives(200)))},
	{"a deletion of any plan", "deprovision-without-plan-id", false,
		at("delete", false, "ready", 400, only(lacksMember("plan_id"), gives(200)))},
	{"204 to a deletion", "deprovision-existing", false,
		at("delete", false, "ready", 200, func(c *call) { c.give(204, nil) })},
	{"200 to every deletion", "deprovision-repeated", false, at("delete", false, "gone", 410, gives(200))},
	{"404 to a deletion", "deprovision-unknown", false, at("delete", false, "", 410, gives(404))},
	{"an id is used up", "provision-again-after-deletion", false, at("put", false, "gone", 201, gives(409))},

	{"fields are counted", "unknown-fields", false, at("put", false, "", 201, only(hasUnknown, gives(400)))},
	{"415 without a type", "content-type-missing", false,
		at("put", false, "", 201, only(not(hasHeader("Content-Type")), gives(415)))},
	{"nobody is an originator", "originating-identity", false,
		at("put", false, "", 201, only(hasHeader("X-Broker-API-Originating-Identity"), gives(400)))},
	{"a request's identity is dropped", "request-identity", false, // 299: see the model
		at("put", false, "", 201, only(hasHeader("X-Broker-API-Request-Identity"), gives(299)))},
	{"ids are plain", "id-percent-encoded", false, at("put", false, "", 201, only(isOdd, gives(400)))},

	{"422 of no kind", "async-required", true, at("put", false, "", 422, gives(422))},
	{"200 too early", "async-repeated", true, at("put", false, "creating", 202, gives(200))},
	{"another operation", "async-repeated", true, at("put", false, "creating", 202, says(object{"operation": "x"}))},
	{"another plan is taken during a creation", "async-conflict", true, at("put", false, "creating", 409, gives(202))},
	{"404 to a Bind during a creation", "async-bind-during-provision", true, at("put", true, "", 422,
		only(all(hasError("ConcurrencyError"), during("creating")), gives(404)))},
	{"200 to a Fetch during a creation", "async-fetch-during-provision", true,
		at("fetch", false, "creating", 404, gives(200))},
	{"500 to a deletion during a creation", "async-deprovision-during-provision", true,
		at("delete", false, "creating", 422, gives(500))},
	{"202 that nobody asked for", "async-deprovision-required", true, at("delete", false, "ready", 422, gives(202))},
	{"200 to a deletion too early", "async-deprovision-repeated", true,
		at("delete", false, "deleting", 202, gives(200))},
	{"404 to a Poll of what is gone", "async-deprovision-ends last-operation-state", true,
		at("poll", false, "deleting", 410, gives(404))},
	{"succeeded for good", "async-last-operation-gone", true,
		at("poll", false, "gone", 410, func(c *call) { c.give(200, object{"state": "succeeded"}) })},
	{"200 to every asynchronous deletion", "deprovision-repeated async-deprovision-gone", true,
		at("delete", false, "gone", 410, gives(200))},

	{"200 to a new binding", "bind-new bind-unknown-fields", false,
		at("put", true, "", 201, func(c *call) { c.status = 200 })},
	{"credentials are a string", "bind-fields bind-repeated-credentials fetch-binding-credentials", false,
		at("put", true, "", 201, says(object{"credentials": "secret"}))},
	{"a state of its own for bindings", "binding-last-operation-state bind-ends", true,
		at("poll", true, "creating", 200, says(object{"state": "working"}))},
	{"bindings fail", "bind-ends", true, func(c *call) {
		if body, is := c.body.(object); is && c.kind == "poll" && c.isBinding() && body["state"] == "succeeded" {
			c.body = object{"state": "failed"}
		}
	}},
	{"201 to a Bind again", "bind-repeated", false, at("put", true, "ready", 200, func(c *call) { c.status = 201 })},
	{"new credentials", "bind-repeated-credentials", false,
		at("put", true, "ready", 200, says(object{"credentials": object{"number": 0}}))},
	{"other parameters of a Bind are taken", "bind-conflict", false,
		at("put", true, "ready", 409, only(hasParameters, gives(200)))},
	{"other credentials of a Fetch", "fetch-binding-credentials", false,
		at("fetch", true, "ready", 200, says(object{"credentials": object{"number": 0}}))},
	{"other credentials of a Fetch after a Bind that took a while", "fetch-binding-credentials", true,
		at("fetch", true, "ready", 200, says(object{"credentials": object{"number": 0}}))},
	{"credentials of a Fetch that are a string", "fetch-binding fetch-binding-credentials", false,
		at("fetch", true, "ready", 200, says(object{"credentials": "secret"}))},
	{"500 to a Fetch of a binding", "fetch-binding", false, at("fetch", true, "ready", 200, gives(500))},
	{"410 to a Fetch of a binding", "fetch-binding-unknown", false, at("fetch", true, "", 404, gives(410))},
	{"an Unbind of any service", "unbind-without-service-id", false,
		at("delete", true, "ready", 400, only(lacksMember("service_id"), gives(200)))},
	{"an Unbind of any plan", "unbind-without-plan-id", false,
		at("delete", true, "ready", 400, only(lacksMember("plan_id"), gives(200)))},
	{"204 to an Unbind", "unbind-existing", false,
		at("delete", true, "ready", 200, func(c *call) { c.give(204, nil) })},
	{"200 to every Unbind", "unbind-repeated", false, at("delete", true, "gone", 410, gives(200))},
	{"404 to an Unbind", "unbind-unknown", false, at("delete", true, "", 410, gives(404))},
	{"service_id isn't required of a Bind", "bind-without-service-id", false,
		at("put", true, "", 400, only(lacksMember("service_id"), gives(201)))},
	{"plan_id isn't required of a Bind", "bind-without-plan-id", false,
		at("put", true, "", 400, only(lacksMember("plan_id"), gives(201)))},
	{"500 to a Bind that isn't JSON", "bind-malformed", false, at("put", true, "", 400, only(isMalformed, gives(500)))},
	{"fields of a Bind are counted", "bind-unknown-fields", false,
		at("put", true, "", 201, only(hasUnknown, gives(400)))},

	{"422 of no kind to a Bind", "async-bind-required", true, at("put", true, "", 422,
		only(hasError("AsyncRequired"), gives(422)))},
	{"200 to a Bind too early", "async-bind-repeated", true, at("put", true, "creating", 202, gives(200))},
	{"200 to a Fetch during a Bind", "async-fetch-during-bind", true, at("fetch", true, "creating", 404, gives(200))},
	{"202 to an Unbind that nobody asked for", "async-unbind-required", true,
		at("delete", true, "ready", 422, gives(202))},
	{"200 to an Unbind too early", "async-unbind-repeated", true, at("delete", true, "deleting", 202, gives(200))},
	{"404 to a Poll of a binding that is gone", "async-unbind-ends binding-last-operation-state", true,
		at("poll", true, "deleting", 410, gives(404))},
	{"200 to every asynchronous Unbind", "unbind-repeated async-unbind-gone", true,
		at("delete", true, "gone", 410, gives(200))},

	{"no endpoint for Updates", "update-no-change", false, at("patch", false, "ready", 200, gives(405))},
	{"service_id isn't required of an Update", "update-without-service-id", false,
		at("patch", false, "ready", 400, only(lacksMember("service_id"), gives(200)))},
	{"500 to an Update that isn't JSON", "update-malformed", false,
		at("patch", false, "ready", 400, only(isMalformed, gives(500)))},
	{"an unknown plan is the plan of before", "update-unknown-plan", false,
		at("patch", false, "ready", 400, only(unknownPlan, gives(200)))},
	{"an Update of nothing", "update-unknown-instance", false, at("patch", false, "", 404, gives(200))},
	{"a rejected Update changes the parameters", "update-rejected-keeps", false,
		at("patch", false, "ready", 400, only(unknownPlan, changes(object{"parameters": object{"half": true}})))},
	{"a rejected Update changes the version", "update-rejected-keeps", false,
		at("patch", false, "ready", 422, only(hasError("MaintenanceInfoConflict"), changes(object{"version": "0.9.0"})))},
	{"an Update is applied although it has to be asynchronous", "update-rejected-keeps", true,
		at("patch", false, "ready", 422, only(hasError("AsyncRequired"), changes(object{"plan": "b"})))},
	{"fields of an Update are counted", "update-unknown-fields", false,
		at("patch", false, "ready", 200, only(hasUnknown, gives(400)))},
	{"422 of no kind to a version", "update-maintenance-conflict", false,
		at("patch", false, "ready", 422, only(hasError("MaintenanceInfoConflict"), gives(422)))},
	{"no version is right", "update-maintenance", false,
		at("patch", false, "ready", 200, only(func(c *call) bool { return c.sent["maintenance_info"] != nil }, gives(409)))},
	{"500 to parameters", "update-parameters", false, at("patch", false, "ready", 200, only(hasParameters, gives(500)))},
	{"a Fetch without the parameters of an Update", "update-parameters-fetched", false,
		at("fetch", false, "ready", 200, says(object{"parameters": object{}}))},
	{"parameters change the plan", "update-keeps-plan", false, at("fetch", false, "ready", 200,
		only(all(reports("a"), func(c *call) bool { return c.body.(object)["parameters"] != nil }),
			says(object{"plan_id": "c"})))},
	{"any plan is updateable", "update-plan-not-updateable", false,
		catalogs(func(s, _ object) { delete(s, "plan_updateable") })},
	{"one plan is as updateable as the service", "update-plan-not-updateable", false,
		catalogs(func(s, _ object) { s["plans"].([]any)[0].(object)["plan_updateable"] = false })},
	{"500 to another plan", "update-plan", false, at("patch", false, "ready", 200, only(asksPlan("b"), gives(500)))},
	{"an operation of an Update that is a number", "update-fields", false,
		at("patch", false, "ready", 200, only(asksPlan("b"), says(object{"operation": 5})))},
	{"Updates fail", "update-ends", true, func(c *call) {
		if body, is := c.body.(object); is && c.kind == "poll" && c.before == "updating" && body["state"] == "succeeded" {
			c.body = object{"state": "failed"}
		}
	}},
	{"a Fetch of the plan of before", "update-plan-fetched", false,
		at("fetch", false, "ready", 200, says(object{"plan_id": "a"}))},
	{"another plan has no parameters", "update-keeps-parameters", false,
		at("fetch", false, "ready", 200, only(reports("b"), says(object{"parameters": object{}})))},
	{"409 to an Update again", "update-repeated", false, at("patch", false, "ready", 200,
		only(all(asksPlan("b"), func(c *call) bool { return c.isSame }), gives(409)))},
	{"a Provision is compared with the plan of before", "provision-after-update", false,
		at("put", false, "ready", 200, only(asksPlan("b"), gives(409)))},
	{"a Provision with the settings of before", "provision-after-update-old", false, at("put", false, "ready", 409,
		only(all(asksPlan("a"), func(c *call) bool { return c.life.asked["plan"] == "b" }), gives(200)))},
	{"a dashboard that is a number", "fetch-fields", false,
		at("fetch", false, "ready", 200, says(object{"dashboard_url": 5}))},
	{"metadata that is a list", "fetch-fields", false,
		at("fetch", false, "ready", 200, says(object{"metadata": []any{}}))},
	{"410 to a Fetch of what is gone", "fetch-deleted", false, at("fetch", false, "gone", 404, gives(410))},

	{"422 of no kind to an Update", "async-update-required", true,
		at("patch", false, "ready", 422, only(hasError("AsyncRequired"), gives(422)))},
	{"200 to an Update too early", "async-update-repeated", true,
		at("patch", false, "updating", 202, only(asksPlan("b"), gives(200)))},
	{"another operation of an Update", "async-update-repeated", true,
		at("patch", false, "updating", 202, says(object{"operation": "x"}))},
	{"a Poll of an Update names the plan of after", "async-update-last-operation last-operation-state update-ends", true,
		at("poll", false, "updating", 200, gives(400))},
	{"202 to another Update", "async-update-during-update", true, at("patch", false, "updating", 422, gives(202))},
	{"422 of no kind to another Update", "async-update-during-update", true,
		at("patch", false, "updating", 422, gives(422))},
	{"200 to a Fetch during an Update", "async-fetch-during-update", true,
		at("fetch", false, "updating", 422, gives(200))},
	{"404 to a Fetch during an Update", "async-fetch-during-update", true,
		at("fetch", false, "updating", 422, gives(404))},
	{"404 to a Bind during an Update", "async-bind-during-update", true, at("put", true, "", 422,
		only(all(hasError("ConcurrencyError"), during("updating")), gives(404)))},
	{"500 to a deletion during an Update", "async-deprovision-during-update", true,
		at("delete", false, "updating", 422, gives(500))},

	{"a string for a body", "answers-are-objects", false,
		at("delete", false, "gone", 410, func(c *call) { c.body = "gone" })},
	{"no body", "answers-are-objects", false, at("put", false, "ready", 409, func(c *call) { c.body = nil })},
	{"text/plain", "answers-content-type", false,
		at("put", false, "ready", 409, func(c *call) { c.kindOf = "text/plain" })},
	{"an error that is a number", "errors-have-strings", false,
		at("put", false, "ready", 409, says(object{"error": 5}))},
	{"an empty description", "errors-have-strings", false,
		at("put", false, "ready", 409, says(object{"description": ""}))},
}

// How many polls an operation of the model takes.
const pollsOfOperation = 4

// A life is an instance or a binding of the model.
type life struct {
	state         string // creating, ready, updating, deleting or gone
	asked         object // the plan, the parameters, and the version of maintenance_info once an Update has named it
	to            object // what an Update asks for that is in progress
	polls, number int
}

// A call is a request that the model has read, and its answer.
type call struct {
	*http.Request
	kind      string // catalog, put, patch, delete, poll or fetch
	key       key
	isUnknown bool   // the login is wrong
	life      *life  // of the instance or the binding, or nil
	before    string // its state, or ""
	of        string // the state of the instance, or ""
	isSame    bool   // an Update asks for the settings that there are
	sent      object
	malformed bool
	status    int
	body      any
	kindOf    string // the Content-Type of the answer
	retry     string // its Retry-After, if it has one
}

func (c *call) isBinding() bool   { return c.key.binding != "" }
func (c *call) isAccepting() bool { return c.URL.Query().Get("accepts_incomplete") == "true" }

// A model is a small broker that satisfies the standard, but for what spoil changes in its answers.
type model struct {
	async bool
	spoil func(*call)
	turn  sync.Mutex
	lives map[key]*life
	hold  func(*call) // called for each request before it is answered
	count int
	// isFixed has no plan updateable.
	isFixed bool
	// deletesForEver keeps every deletion in progress.
	deletesForEver bool
}

func newModel(async bool) *model { return &model{async: async, lives: map[key]*life{}} }

func (m *model) ServeHTTP(w http.ResponseWriter, r *http.Request) {
	c := readCall(r)
	if m.hold != nil {
		m.hold(c)
	}
	m.turn.Lock()
	defer m.turn.Unlock()
	if it := m.lives[c.key]; it != nil {
		c.life, c.before = it, it.state
	}
	if it := m.lives[key{instance: c.key.instance}]; it != nil {
		c.of = it.state
	}
	m.answer(c)
	if m.spoil != nil {
		m.spoil(c)
	}
	w.Header().Set("Content-Type", c.kindOf)
	if c.retry != "" {
		w.Header().Set("Retry-After", c.retry)
	}
	if identity := r.Header.Get("X-Broker-API-Request-Identity"); identity != "" {
		w.Header().Set("X-Broker-API-Request-Identity", identity)
	}
	if c.status == 299 { // the mistake to drop the header
		w.Header().Del("X-Broker-API-Request-Identity")
		c.status = 201
	}
	w.WriteHeader(c.status)
	if c.body != nil {
		_ = json.NewEncoder(w).Encode(c.body)
	}
}

func readCall(r *http.Request) *call {
	c := &call{Request: r, kindOf: "application/json"}
	user, given, _ := r.BasicAuth()
	c.isUnknown = user != "u" || given != password
	c.kind = map[string]string{"PUT": "put", "PATCH": "patch", "DELETE": "delete", "GET": "fetch"}[r.Method]
	parts := strings.Split(r.URL.EscapedPath(), "/")
	for at, part := range parts {
		parts[at], _ = url.PathUnescape(part)
	}
	switch {
	case r.URL.Path == "/v2/catalog":
		c.kind = "catalog"
		return c
	case parts[len(parts)-1] == "last_operation":
		c.kind, parts = "poll", parts[:len(parts)-1]
	}
	c.key.instance = parts[3]
	if len(parts) > 5 {
		c.key.binding = parts[5]
	}
	text, _ := io.ReadAll(r.Body)
	c.malformed = json.Unmarshal(text, &c.sent) != nil
	return c
}

func (c *call) give(status int, body any) { c.status, c.body = status, body }
func (c *call) reject(status int, code string) {
	c.give(status, object{"error": code, "description": "because"})
}

func (m *model) answer(c *call) {
	version := c.Header.Get("X-Broker-API-Version")
	query := c.URL.Query()
	switch {
	case c.isUnknown:
		c.reject(401, "Unauthorized")
	case version == "":
		c.reject(400, "BadRequest")
	case !strings.HasPrefix(version, "2."):
		c.reject(412, "PreconditionFailed")
	case c.kind == "catalog":
		c.give(200, m.catalog())
	case c.kind == "put":
		m.put(c)
	case c.kind == "patch":
		m.patch(c)
	case c.kind == "delete" && (query.Get("service_id") == "" || query.Get("plan_id") == ""):
		c.reject(400, "BadRequest")
	case c.kind == "delete":
		m.delete(c)
	case c.kind == "poll":
		m.poll(c)
	case c.before == "updating":
		c.reject(422, "ConcurrencyError")
	case c.before != "ready":
		c.reject(404, "NotFound")
	case c.isBinding():
		c.give(200, m.credentials(c.key))
	default:
		asked := c.life.asked
		c.give(200, object{
			"service_id": "s", "plan_id": asked["plan"], "parameters": asked["parameters"],
			"maintenance_info": object{"version": versionOf(asked)},
		})
	}
}

const version = "1.0.0"

func versionOf(asked object) string {
	if named := textIn(asked, "version"); named != "" {
		return named
	}
	return version
}

func (m *model) catalog() object {
	plan := func(id string) object {
		return object{
			"id": id, "name": "plan-" + id, "description": "d", "free": true, "maximum_polling_duration": 60,
			"maintenance_info": object{"version": version},
		}
	}
	return object{"services": []any{object{
		"id": "s", "name": "service", "description": "d", "bindable": true, "instances_retrievable": true,
		"bindings_retrievable": true, "tags": []any{"t"}, "requires": []any{"syslog_drain", "volume_mount"},
		"plan_updateable": !m.isFixed, "plans": []any{plan("a"), plan("b"), plan("c")},
	}}}
}

func (m *model) credentials(k key) object {
	return object{"credentials": object{"number": m.lives[k].number}}
}

func (m *model) put(c *call) {
	required := []string{"service_id", "plan_id"}
	if !c.isBinding() {
		required = append(required, "organization_guid", "space_guid")
	}
	for _, member := range required {
		if c.malformed || textIn(c.sent, member) == "" {
			c.reject(400, "BadRequest")
			return
		}
	}
	plan := textIn(c.sent, "plan_id")
	asked := object{"plan": plan, "parameters": c.sent["parameters"]}
	switch {
	case c.sent["service_id"] != "s" || len(plan) > 1 || !strings.Contains("abc", plan):
		c.reject(400, "BadRequest")
	case c.before == "deleting", c.before == "updating":
		c.reject(422, "ConcurrencyError")
	case c.before == "" || c.before == "gone":
		m.create(c, asked)
	case plan != c.life.asked["plan"] || !reflect.DeepEqual(asked["parameters"], c.life.asked["parameters"]):
		c.reject(409, "Conflict")
	case c.before == "creating":
		c.give(202, object{"operation": m.operation(c.key)})
	case c.isBinding():
		c.give(200, m.credentials(c.key))
	default:
		c.give(200, object{})
	}
}

func (m *model) patch(c *call) {
	plan, names := textIn(c.sent, "plan_id"), c.sent["plan_id"] != nil
	switch {
	case c.malformed || c.sent["service_id"] != "s", names && (len(plan) != 1 || !strings.Contains("abc", plan)):
		c.reject(400, "BadRequest")
		return
	case c.before == "" || c.before == "gone":
		c.reject(404, "NotFound")
		return
	case c.before == "creating" || c.before == "deleting":
		c.reject(422, "ConcurrencyError")
		return
	}
	it, to := c.life, object{}
	for member, value := range it.asked {
		to[member] = value
	}
	if names {
		to["plan"] = plan
	}
	if value, has := c.sent["parameters"]; has {
		to["parameters"] = value
	}
	named := versionIn(c.sent["maintenance_info"])
	c.isSame = reflect.DeepEqual(to, it.asked)
	switch {
	case c.before == "updating" && reflect.DeepEqual(to, it.to):
		c.give(202, object{"operation": m.operation(c.key)})
	case c.before == "updating":
		c.reject(422, "ConcurrencyError")
	case m.isFixed && to["plan"] != it.asked["plan"]:
		c.reject(422, "NotUpdateable")
	case named != "" && named != version:
		c.reject(422, "MaintenanceInfoConflict")
	case c.isSame:
		c.give(200, object{})
	case m.async && !c.isAccepting():
		c.reject(422, "AsyncRequired")
	case m.async:
		m.count++
		it.state, it.to, it.polls, it.number = "updating", to, 0, m.count
		c.give(202, object{"operation": m.operation(c.key)})
	default:
		it.asked = to
		c.give(200, object{"dashboard_url": "http://dashboard"})
	}
}

func (m *model) operation(k key) string { return fmt.Sprintf("operation %d", m.lives[k].number) }

func (m *model) create(c *call, asked object) {
	if c.isBinding() {
		of := m.lives[key{instance: c.key.instance}]
		if of == nil || of.state == "gone" {
			c.reject(400, "BadRequest")
			return
		}
		if of.state != "ready" {
			c.reject(422, "ConcurrencyError")
			return
		}
	}
	if m.async && !c.isAccepting() {
		c.reject(422, "AsyncRequired")
		return
	}
	m.count++
	it := &life{state: "ready", asked: asked, number: m.count}
	m.lives[c.key] = it
	switch {
	case m.async:
		it.state = "creating"
		c.give(202, object{"operation": m.operation(c.key)})
	case c.isBinding():
		c.give(201, m.credentials(c.key))
	default:
		c.give(201, object{"dashboard_url": "http://dashboard"})
	}
}

func (m *model) delete(c *call) {
	it := m.lives[c.key]
	switch {
	case c.before == "" || c.before == "gone":
		c.reject(410, "Gone")
	case m.async && !c.isAccepting():
		c.reject(422, "AsyncRequired")
	case c.before == "creating", c.before == "updating":
		c.reject(422, "ConcurrencyError")
	case m.async && c.before == "ready":
		m.count++
		it.state, it.polls, it.number = "deleting", 0, m.count
		c.give(202, object{"operation": m.operation(c.key)})
	case m.async:
		c.give(202, object{"operation": m.operation(c.key)})
	default:
		it.state = "gone"
		c.give(200, object{})
	}
}

func (m *model) poll(c *call) {
	it := m.lives[c.key]
	if it == nil || it.state == "gone" {
		c.reject(410, "Gone")
		return
	}
	operation := c.URL.Query().Get("operation")
	if operation != "" && operation != m.operation(c.key) {
		c.reject(400, "BadRequest")
		return
	}
	if it.polls++; it.polls >= pollsOfOperation && !(m.deletesForEver && it.state == "deleting") {
		if it.state == "deleting" {
			it.state = "gone"
			c.reject(410, "Gone")
			return
		}
		if it.state == "updating" {
			it.asked = it.to
		}
		it.state = "ready"
	}
	state := "in progress"
	if it.state == "ready" {
		state = "succeeded"
	} else {
		c.retry = "10"
	}
	c.give(200, object{"state": state, "description": "about half", "instance_usable": true})
}

func (m *model) countExisting() (count int) {
	m.turn.Lock()
	defer m.turn.Unlock()
	for _, life := range m.lives {
		if life.state != "gone" {
			count++
		}
	}
	return count
}
