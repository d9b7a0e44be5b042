package conform

import "reflect"

const (
	sectionBind          = "Binding"
	sectionUnbind        = "Unbinding"
	sectionBindingPoll   = "Polling Last Operation for Service Bindings"
	sectionFetchBinding  = "Fetching a Service Binding"
	reasonNotBindable    = "the plan isn't bindable"
	reasonBindsAtOnce    = "the plan binds synchronously, or can't be bound"
	reasonNotRetrievable = "the service isn't bindings_retrievable"
	reasonNotFetched     = "the service isn't instances_retrievable"
	reasonOnePlan        = "the catalogue has one plan"
	reasonNoCatalogue    = "the catalogue can't be read"
)

// The members of the answer to a Bind that are strings, and those that are objects.
var (
	textsOfBinding   = []string{"operation", "syslog_drain_url", "route_service_url"}
	objectsOfBinding = []string{"credentials", "metadata"}
)

var bindingCases = scenario{
	cases: []Case{
		{"bind-new", sectionBind, Must, "201, or 202 if the Bind is asynchronous"},
		{"bind-fields", sectionBind, Must,
			"credentials and metadata, if present, are objects, and the URLs and operation are strings"},
		{"binding-last-operation-state", sectionBindingPoll, Must,
			"200 with the state in progress, succeeded or failed"},
		{"binding-last-operation-fields", sectionBindingPoll, Must, "description, if present, is a string"},
		{"bind-ends", sectionBindingPoll, Should, "the operation succeeds within the time for operations"},
		{"bind-repeated", sectionBind, Must, "200 to the same Bind once the binding exists"},
		{"bind-repeated-credentials", sectionBind, Should, "the same credentials in both answers"},
		{"bind-conflict", sectionBind, Must,
			"409 to a Bind of an existing binding with other parameters, or 400 if the plan takes no parameters"},
		{"fetch-binding", sectionFetchBinding, Must,
			"200, and credentials and metadata, if present, are objects, and the URLs are strings"},
		{"fetch-binding-credentials", sectionFetchBinding, Should, "the credentials that the Bind was answered with"},
		{"fetch-binding-unknown", sectionFetchBinding, Must, "404 for a binding that doesn't exist"},
		{"unbind-without-service-id", sectionUnbind, Must, "400 without service_id"},
		{"unbind-without-plan-id", sectionUnbind, Must, "400 without plan_id"},
		{"unbind-existing", sectionUnbind, Must, "200, or 202 if the Unbind is asynchronous"},
		{"unbind-repeated", sectionUnbind, Must, "410 once the binding is deleted"},
		{"unbind-unknown", sectionUnbind, Must, "410 for a binding that never existed"},
	},
	run: func(r *Runner) {
		if !r.canBind() {
			return
		}
		k := key{r.existing, r.id()}
		first := r.wants("bind-new", r.put(k, nil), 201, 202)
		r.judge("bind-fields", first, wrongFields(first, textsOfBinding, objectsOfBinding))
		r.bindsAsync = first.is(202)
		if !r.ends("bind-ends", k, first) {
			return
		}
		r.skip("the plan binds synchronously",
			"binding-last-operation-state", "binding-last-operation-fields", "bind-ends")
		r.fetchesBinding(k, r.repeatedBinds(k, first))
		r.deletes("unbind", k, key{k.instance, r.id()}, func() (key, bool) {
			another := key{k.instance, r.id()}
			return another, r.settle(another, r.put(another, nil))
		})
	},
}

func (r *Runner) canBind() bool {
	if r.hasPlan() && !r.target.Bindable {
		r.because = reasonNotBindable
		return false
	}
	if r.existing == "" {
		r.existing = r.ready()
	}
	return r.existing != ""
}

// repeatedBinds repeats a Bind, and returns the first answer with the credentials.
func (r *Runner) repeatedBinds(k key, first *exchange) *exchange {
	x := r.wants("bind-repeated", r.put(k, nil), 200)
	if x.is(200) && first.is(201) {
		problem := ""
		if !reflect.DeepEqual(first.object["credentials"], x.object["credentials"]) {
			problem = "the credentials are others"
		}
		r.judge("bind-repeated-credentials", x, problem)
	}
	r.skip("the first answer had no credentials", "bind-repeated-credentials")
	if first.is(202) {
		first = x
	}
	r.wants("bind-conflict", r.put(k, with("parameters", object{"osb-storm": "other"})), 409, 400)
	return first
}

// fetchesBinding fetches a binding. bound is an answer to its Bind.
func (r *Runner) fetchesBinding(k key, bound *exchange) {
	if !r.target.BindingsRetrievable {
		r.skip(reasonNotRetrievable, "fetch-binding", "fetch-binding-credentials", "fetch-binding-unknown")
		return
	}
	x := r.fetch(k)
	problem := x.want(200)
	if problem == "" {
		problem = wrongFields(x, textsOfBinding, objectsOfBinding)
	}
	r.judge("fetch-binding", x, problem)
	if given, has := bound.object["credentials"]; has && bound.is(200, 201) && x.is(200) {
		problem = ""
		if !reflect.DeepEqual(given, x.object["credentials"]) {
			problem = "the credentials are others"
		}
		r.judge("fetch-binding-credentials", x, problem)
	}
	r.skip("no answer to the Bind had credentials", "fetch-binding-credentials")
	r.wants("fetch-binding-unknown", r.fetch(key{k.instance, r.id()}), 404)
}

var rejectedBindings = []rejection{
	{"bind-without-service-id", Must, "400 without service_id", lacks("service_id")},
	{"bind-without-plan-id", Must, "400 without plan_id", lacks("plan_id")},
	{"bind-malformed", Must, "400 to a body that isn't JSON", nil},
}

var rejectedBindingCases = scenario{
	cases: append(casesOf(rejectedBindings, sectionBind),
		Case{"bind-unknown-fields", sectionExtensions, Must, "a Bind with unknown fields is accepted"}),
	run: func(r *Runner) {
		if !r.canBind() {
			return
		}
		newKey := func() key { return key{r.existing, r.id()} }
		r.rejects(rejectedBindings, newKey)
		r.wants("bind-unknown-fields", r.put(newKey(), with("x-osb-storm-unknown", []int{1})), 201, 202)
	},
}

var asyncBindingCases = scenario{
	cases: []Case{
		{"async-bind-required", sectionBind, Must,
			"422 AsyncRequired without accepts_incomplete=true, or 201 if the binding is created before the answer"},
		{"async-bind-repeated", sectionBind, Must,
			"202 with the same operation to the same Bind while it is in progress"},
		{"async-fetch-during-bind", sectionFetchBinding, Must, "404 while the binding is being created"},
		{"async-unbind-required", sectionUnbind, Must,
			"422 AsyncRequired without accepts_incomplete=true, or 200 if the binding is deleted before the answer"},
		{"async-unbind-repeated", sectionUnbind, Must,
			"202 with the same operation to the same Unbind while it is in progress"},
		{"async-unbind-ends", sectionBindingPoll, Must, "polls of the deletion end with 410, or 200 and succeeded"},
		{"async-unbind-gone", sectionUnbind, Must, "410 once the binding is deleted"},
	},
	run: func(r *Runner) {
		if !r.bindsAsync || !r.canBind() {
			r.because = reasonBindsAtOnce
			return
		}
		k := key{r.existing, r.id()}
		first := r.begins("async-bind-", key{r.existing, r.id()}, k)
		if !first.is(202) {
			return
		}
		if r.target.BindingsRetrievable {
			x := r.fetch(k)
			r.judgeDuring("async-fetch-during-bind", k, first.string("operation"), x, x.want(404))
		}
		r.skip(reasonNotRetrievable, "async-fetch-during-bind")
		if r.settle(k, first) {
			r.deletesLater("unbind", "Unbind", k)
		}
	},
}
