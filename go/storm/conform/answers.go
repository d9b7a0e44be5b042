package conform

import (
	"net/http"
	"strings"
)

const (
	sectionVersion = "API Version Header"
	sectionAccess  = "Platform to Service Broker Authentication"
)

var accessCases = scenario{
	cases: []Case{
		{"version-missing", sectionVersion, Should, "400 or 412 to a request without X-Broker-API-Version"},
		{"version-of-another-major", sectionVersion, Should, "412 to a request with X-Broker-API-Version: 99.0"},
		{"auth-missing", sectionAccess, Must, "401 to a request without Authorization"},
		{"auth-wrong-password", sectionAccess, Must, "401 to a request with a wrong password"},
		{"auth-provision", sectionAccess, Must, "401 to a Provision with a wrong password, and without one"},
		{"auth-last-operation", sectionAccess, Must, "401 to a Poll without a password"},
		{"auth-fetch", sectionAccess, Must, "401 to a Fetch of an instance without a password"},
		{"auth-update", sectionAccess, Must, "401 to an Update without a password"},
		{"auth-bind", sectionAccess, Must, "401 to a Bind without a password"},
		{"auth-binding-last-operation", sectionAccess, Must, "401 to a Poll of a binding without a password"},
		{"auth-fetch-binding", sectionAccess, Must, "401 to a Fetch of a binding without a password"},
		{"auth-unbind", sectionAccess, Must, "401 to an Unbind without a password"},
		{"auth-deprovision", sectionAccess, Must, "401 to a Deprovision without a password"},
		{"auth-tells-nothing", sectionAccess, Should,
			"with a wrong password, one answer for an instance that exists and one that doesn't"},
	},
	run: func(r *Runner) {
		catalog := func(headers map[string]string) *exchange {
			return r.send(request{method: "GET", path: "/v2/catalog", headers: headers})
		}
		r.wants("version-missing", catalog(map[string]string{"X-Broker-API-Version": ""}), 400, 412)
		r.wants("version-of-another-major", catalog(map[string]string{"X-Broker-API-Version": "99.0"}), 412)
		r.wants("auth-missing", catalog(map[string]string{"Authorization": ""}), 401)
		r.wants("auth-wrong-password", catalog(r.wrongPassword()), 401)
		if r.hasPlan() {
			r.accessToInstances()
		}
	},
}

func (r *Runner) accessToInstances() {
	k := key{instance: r.id()}
	wrong := r.creation(k, nil)
	wrong.headers = r.wrongPassword()
	r.wants("auth-provision", r.create(k, r.target.Pair, wrong), 401)
	if r.accessTo(k, "auth-provision", "auth-last-operation", "auth-fetch", r.target.InstancesRetrievable) {
		r.skip(reasonNotFetched, "auth-fetch")
		r.accessToUpdates(k)
		r.accessToBindings(k)
		r.askAnonymously("auth-deprovision", deletion(k, r.target.Pair, true)) // CleanUp deletes it, whatever the answer says
	}
}

// accessTo judges the answers to requests without a password about what it then creates: a creation, a Poll and, if the
// service allows it, a Fetch. It reports whether that exists.
func (r *Runner) accessTo(k key, creates, polls, fetches string, isFetched bool) bool {
	r.wants(creates, r.create(k, r.target.Pair, anonymous(r.creation(k, nil))), 401)
	x := r.put(k, nil)
	if !x.is(200, 201, 202) {
		return false
	}
	if k.binding == "" {
		r.tellsNothing(k)
	}
	r.accessToPolls(polls, k, x)
	isThere := r.settle(k, x)
	if isThere && isFetched {
		r.askAnonymously(fetches, fetchOf(k, r.target.Pair))
	}
	return isThere
}

// tellsNothing compares the answers to a wrong password for an instance that exists, and for one that doesn't.
func (r *Runner) tellsNothing(k key) {
	ask := func(k key) *exchange {
		sent := poll(k, r.target.Pair, "")
		sent.headers = r.wrongPassword()
		return r.send(sent)
	}
	known, unknown := ask(k), ask(key{instance: r.id()})
	problem := ""
	if unknown.err == nil && (known.status != unknown.status || known.text != unknown.text) {
		problem = "the answer for an instance that doesn't exist is " + unknown.came()
	}
	r.judge("auth-tells-nothing", known, problem)
}

func (r *Runner) accessToBindings(of key) {
	if !r.target.Bindable {
		r.skip(reasonNotBindable, "auth-bind", "auth-binding-last-operation", "auth-fetch-binding", "auth-unbind")
		return
	}
	k := key{of.instance, r.id()}
	if r.accessTo(k, "auth-bind", "auth-binding-last-operation", "auth-fetch-binding", r.target.BindingsRetrievable) {
		r.skip(reasonNotRetrievable, "auth-fetch-binding")
		r.askAnonymously("auth-unbind", deletion(k, r.target.Pair, true)) // CleanUp deletes it, whatever the answer says
	}
}

// accessToPolls judges the answer to a Poll without a password. A broker without asynchronous operations may not have
// the endpoint.
func (r *Runner) accessToPolls(name string, k key, created *exchange) {
	sent := anonymous(poll(k, r.target.Pair, created.string("operation")))
	x := r.send(sent)
	if !created.is(202) && x.is(404, 405, 501) {
		r.skip("the broker has no such endpoint for a plan without asynchronous operations", name)
		return
	}
	r.wants(name, x, 401)
}

// accessToUpdates judges the answer to an Update without a password. A broker may not have the endpoint if the catalogue
// doesn't say that the plan is updateable.
func (r *Runner) accessToUpdates(k key) {
	x := r.send(anonymous(r.updated(k.instance).patch(nil)))
	if !r.target.Updateable && x.is(404, 405, 501) {
		r.skip("the broker has no such endpoint, and the plan isn't plan_updateable", "auth-update")
		return
	}
	r.wants("auth-update", x, 401)
}

func (r *Runner) askAnonymously(name string, sent request) {
	r.wants(name, r.send(anonymous(sent)), 401)
}

func anonymous(sent request) request {
	sent.headers = map[string]string{"Authorization": ""}
	return sent
}

func (r *Runner) wrongPassword() map[string]string {
	return map[string]string{"Authorization": "Basic " + basic(r.options.User, wrong(r.options.Password))}
}

func wrong(password string) string { return password + "-wrong" }

// hasPlan reports whether there is a plan to order. If there is none, the rest of the scenario isn't run.
func (r *Runner) hasPlan() bool {
	if r.target.Plan == "" || r.target.Service == "" {
		r.because = "the catalogue has no plan that can be ordered. Give --service and --plan with ids"
		return false
	}
	return true
}

const sectionErrors = "Service Broker Errors"

// answerCases are judged by the answers to the requests of all other cases.
var answerCases = scenario{
	cases: []Case{
		{"answers-are-objects", "Body", Must,
			"the body of every answer with 200, 201, 202, 400, 409, 410 or 422 is a JSON object"},
		{"answers-content-type", "Content Type", Should,
			"Content-Type: application/json in each of these answers that has a body"},
		{"errors-have-strings", sectionErrors, Must, "error and description, if present, are non-empty strings"},
		{"retry-after", sectionLastOperation, Must, "Retry-After, if present, is a number of seconds or a date of HTTP"},
	},
	run: func(r *Runner) {
		g := r.general
		r.judgeFirst("answers-are-objects", g.any, g.noObject, "the body isn't a JSON object")
		r.judgeFirst("answers-content-type", g.any, g.noType, "the Content-Type isn't application/json")
		r.judgeFirst("errors-have-strings", g.any, g.noStrings, "error or description isn't a non-empty string")
		r.judgeFirst("retry-after", g.retry, g.noRetry, wrongRetry)
		r.skip("no answer had the header", "retry-after")
	},
}

// judgeFirst fails a case by the first answer that breaks it, or else passes it by any answer.
func (r *Runner) judgeFirst(name string, any, first *exchange, problem string) {
	switch {
	case first != nil:
		r.judge(name, first, problem)
	case any != nil:
		r.judge(name, any, "")
	}
}

const wrongRetry = "Retry-After is no number of seconds and no date of HTTP"

// generalCases keeps the first answers that break what counts for all of them, and the first ones that it counts for.
type generalCases struct{ any, noObject, noType, noStrings, retry, noRetry *exchange }

func (g *generalCases) judge(x *exchange) {
	if x.err != nil {
		return
	}
	first := func(to **exchange, breaks bool) {
		if *to == nil && breaks {
			*to = x
		}
	}
	kind := strings.ToLower(strings.TrimSpace(strings.SplitN(x.header.Get("Content-Type"), ";", 2)[0]))
	isDefined := x.is(200, 201, 202, 400, 409, 410, 422)
	first(&g.any, true)
	first(&g.noObject, isDefined && x.object == nil)
	first(&g.noType, isDefined && x.text != "" && kind != "application/json")
	first(&g.retry, x.header.Get("Retry-After") != "")
	first(&g.noRetry, !isRetry(x.header.Values("Retry-After")))
	first(&g.noStrings, x.status >= 400 && (!isText(x.object, "error") || !isText(x.object, "description")))
}

// isRetry reports whether each value of Retry-After has one of the forms that HTTP knows.
func isRetry(values []string) bool {
	for _, value := range values {
		isSeconds := value != "" && strings.Trim(value, "0123456789") == ""
		if _, err := http.ParseTime(value); err != nil && !isSeconds {
			return false
		}
	}
	return true
}

// isText reports whether a member is missing, or is a string that isn't empty.
func isText(object map[string]any, member string) bool {
	value, has := object[member]
	text, is := value.(string)
	return !has || is && text != ""
}
