package conform

import "fmt"

const (
	sectionProvision     = "Provisioning"
	sectionLastOperation = "Polling Last Operation for Service Instances"
	sectionDeprovision   = "Deprovisioning"
	sectionFetch         = "Fetching a Service Instance"
	sectionExtensions    = "Vendor Extension Fields"
	sectionOriginating   = "Originating Identity"
	sectionRequest       = "Request Identity"
	sectionContentType   = "Content Type"
	sectionBlocking      = "Blocking Operations"

	longestOperation = 10000 // characters

	fieldsOfLastOperation = "description, if present, is a string, and instance_usable and update_repeatable are booleans"
)

var rejected = []rejection{
	{"provision-without-service-id", Must, "400 without service_id", lacks("service_id")},
	{"provision-without-plan-id", Must, "400 without plan_id", lacks("plan_id")},
	{"provision-without-organization", Must, "400 without organization_guid", lacks("organization_guid")},
	{"provision-without-space", Must, "400 without space_guid", lacks("space_guid")},
	{"provision-empty-organization", Must, "400 to an empty organization_guid", setEmpty("organization_guid")},
	{"provision-empty-space", Must, "400 to an empty space_guid", setEmpty("space_guid")},
	{"provision-malformed", Must, "400 to a body that isn't JSON", nil},
	{"provision-unknown-service", Should, "400 to a service_id that isn't in the catalogue", setUnknown("service_id")},
	{"provision-unknown-plan", Should, "400 to a plan_id that isn't in the catalogue", setUnknown("plan_id")},
}

func setEmpty(member string) func(*Runner, object) {
	return func(_ *Runner, body object) { body[member] = "" }
}

func setUnknown(member string) func(*Runner, object) {
	return func(r *Runner, body object) { body[member] = r.id() }
}

var rejectedCases = scenario{
	cases: casesOf(rejected, sectionProvision),
	run: func(r *Runner) {
		if r.hasPlan() {
			r.rejects(rejected, func() key { return key{instance: r.id()} })
		}
	},
}

var lifeCases = scenario{
	cases: []Case{
		{"provision-new", sectionProvision, Must, "201, or 202 if the Provision is asynchronous"},
		{"provision-fields", sectionProvision, Must,
			"dashboard_url and operation, if present, are strings, and metadata is an object"},
		{"last-operation-state", sectionLastOperation, Must, "200 with the state in progress, succeeded or failed"},
		{"last-operation-fields", sectionLastOperation, Must, fieldsOfLastOperation},
		{"provision-ends", sectionLastOperation, Should, "the operation succeeds within the time for operations"},
		{"provision-repeated", sectionProvision, Must, "200 to the same Provision once the instance exists"},
		{"provision-conflict-plan", sectionProvision, Must,
			"409 to a Provision of an existing instance with another plan"},
		{"provision-conflict-parameters", sectionProvision, Must,
			"409 to a Provision of an existing instance with other parameters, or 400 if the plan takes no parameters"},
		{"fetch-instance", sectionFetch, Must,
			"200 with the service and the plan of the instance, as far as the body has them"},
		{"fetch-fields", sectionFetch, Must,
			"dashboard_url, if present, is a string, and parameters, maintenance_info and metadata are objects"},
		{"fetch-instance-unknown", sectionFetch, Must, "404 for an instance that doesn't exist"},
	},
	run: func(r *Runner) {
		if !r.hasPlan() {
			return
		}
		k := key{instance: r.id()}
		x := r.wants("provision-new", r.put(k, nil), 201, 202)
		r.judge("provision-fields", x, wrongFields(x, []string{"dashboard_url", "operation"}, []string{"metadata"}))
		r.isAsync = x.is(202)
		if !r.ends("provision-ends", k, x) {
			return
		}
		r.skip("the plan is provisioned synchronously", "last-operation-state", "last-operation-fields", "provision-ends")
		r.existing = k.instance
		r.repeatedProvisions(k)
		r.fetches(k)
	},
}

func (r *Runner) repeatedProvisions(k key) {
	r.wants("provision-repeated", r.put(k, nil), 200)
	r.wants("provision-conflict-parameters", r.put(k, with("parameters", object{"osb-storm": "other"})), 409, 400)
	r.conflicts("provision-conflict-plan", k)
}

// conflicts judges a Provision with another plan, if there is one.
func (r *Runner) conflicts(name string, k key) {
	if other := r.target.other; other.Plan != "" {
		r.wants(name, r.create(k, other, r.creation(k, func(body object) {
			body["service_id"], body["plan_id"] = other.Service, other.Plan
		})), 409)
	}
	r.skip(reasonOnePlan, name)
}

func (r *Runner) fetches(k key) {
	if !r.target.InstancesRetrievable {
		r.skip(reasonNotFetched, "fetch-instance", "fetch-fields", "fetch-instance-unknown")
		return
	}
	x := r.fetch(k)
	problem := x.want(200)
	for member, wanted := range map[string]string{"service_id": r.target.Service, "plan_id": r.target.Plan} {
		if value, has := x.object[member]; has && problem == "" && value != wanted {
			problem = member + " is another one"
		}
	}
	r.judge("fetch-instance", x, problem)
	r.judge("fetch-fields", x, wrongFields(x, []string{"dashboard_url"}, objectsOfInstance))
	r.wants("fetch-instance-unknown", r.fetch(key{instance: r.id()}), 404)
}

// objectsOfInstance are the members of the answer to a Fetch that are objects.
var objectsOfInstance = []string{"parameters", "maintenance_info", "metadata"}

// fetchesDeleted judges the Fetch of an instance that was deleted.
func (r *Runner) fetchesDeleted(k key) {
	if r.target.InstancesRetrievable {
		r.wants("fetch-deleted", r.fetch(k), 404)
	}
	r.skip(reasonNotFetched, "fetch-deleted")
}

// wrongLastOperation returns a problem if a member of the answer to a Poll is present and has another type.
func wrongLastOperation(x *exchange) string {
	if problem := wrongFields(x, []string{"description"}, nil); problem != "" {
		return "description is no string"
	}
	for _, flag := range []string{"instance_usable", "update_repeatable"} {
		value, has := x.object[flag]
		if _, is := value.(bool); has && value != nil && !is && x.is(200) {
			return flag + " is no boolean"
		}
	}
	return ""
}

// wrongFields returns a problem if one of these members is present in a success and has another type.
func wrongFields(x *exchange, texts, objects []string) string {
	if !x.is(200, 201, 202) {
		return ""
	}
	for _, member := range texts {
		value, has := x.object[member]
		text, is := value.(string)
		isLong := member == "operation" && len([]rune(text)) > longestOperation
		if has && value != nil && (!is || isLong) {
			return fmt.Sprintf("%s is no string of the right length", member)
		}
	}
	for _, member := range objects {
		value, has := x.object[member]
		if _, is := value.(object); has && value != nil && !is {
			return member + " is no object"
		}
	}
	return ""
}

var deletionCases = scenario{
	cases: []Case{
		{"deprovision-without-service-id", sectionDeprovision, Must, "400 without service_id"},
		{"deprovision-without-plan-id", sectionDeprovision, Must, "400 without plan_id"},
		{"deprovision-existing", sectionDeprovision, Must, "200, or 202 if the Deprovision is asynchronous"},
		{"deprovision-repeated", sectionDeprovision, Must, "410 once the instance is deleted"},
		{"deprovision-unknown", sectionDeprovision, Must, "410 for an instance that never existed"},
		{"fetch-deleted", sectionFetch, Must, "404 once the instance is deleted"},
		{"provision-again-after-deletion", sectionProvision, May,
			"201 or 202 for the id of an instance that was deleted"},
	},
	run: func(r *Runner) {
		ready := func() (key, bool) {
			id := r.ready()
			return key{instance: id}, id != ""
		}
		if k, is := ready(); is {
			r.deletes("deprovision", k, key{instance: r.id()}, ready)
		}
	},
}

var acceptedCases = scenario{
	cases: []Case{
		{"unknown-fields", sectionExtensions, Must, "a Provision with unknown fields is accepted"},
		{"content-type-missing", sectionContentType, Must, "a Provision without Content-Type is accepted"},
		{"originating-identity", sectionOriginating, Should,
			"a Provision with X-Broker-API-Originating-Identity is accepted"},
		{"request-identity", sectionRequest, Should,
			"a Provision with X-Broker-API-Request-Identity is accepted, and its answer has the same header"},
		{"id-percent-encoded", sectionProvision, May,
			"a Provision of an id with a space, % and a letter beyond ASCII is accepted"},
	},
	run: func(r *Runner) {
		if !r.hasPlan() {
			return
		}
		r.judgeAcceptance("unknown-fields", r.id(), with("x-osb-storm-unknown", []int{1}), nil)
		r.judgeAcceptance("content-type-missing", r.id(), nil, map[string]string{"Content-Type": ""})
		r.judgeAcceptance("originating-identity", r.id(), nil, map[string]string{
			// {"user_id":"osb-storm"}
			"X-Broker-API-Originating-Identity": "cloudfoundry eyJ1c2VyX2lkIjoib3NiLXN0b3JtIn0=",
		})
		identity := r.id()
		x := r.judgeAcceptance("request-identity", r.id(), nil, map[string]string{"X-Broker-API-Request-Identity": identity})
		if x.err == nil && x.header.Get("X-Broker-API-Request-Identity") != identity {
			r.judge("request-identity", x, "the answer has no such header")
		}
		r.judgeAcceptance("id-percent-encoded", r.id()+" %2é", nil, nil)
	},
}

// judgeAcceptance judges a case whose Provision has to be accepted.
func (r *Runner) judgeAcceptance(name, id string, change func(object), headers map[string]string) *exchange {
	k := key{instance: id}
	sent := r.creation(k, change)
	sent.headers = headers
	return r.wants(name, r.create(k, r.target.Pair, sent), 201, 202)
}

var asyncCases = scenario{
	cases: []Case{
		{"async-required", sectionProvision, Must,
			"422 AsyncRequired without accepts_incomplete=true, or 201 if the instance is created before the answer"},
		{"async-repeated", sectionProvision, Must,
			"202 with the same operation to the same Provision while it is in progress"},
		{"async-conflict", sectionProvision, Must,
			"409 to a Provision with another plan while the first one is in progress"},
		{"async-bind-during-provision", sectionBlocking, Must,
			"422 ConcurrencyError to a Bind while the instance is being created, or success"},
		{"async-fetch-during-provision", sectionFetch, Must, "404 while the instance is being created"},
		{"async-deprovision-during-provision", sectionBlocking, Must,
			"422 ConcurrencyError, or 200 or 202 if the creation is halted"},
	},
	run: func(r *Runner) {
		if !r.isAsync {
			r.because = "the plan is provisioned synchronously, or can't be provisioned"
			return
		}
		k := key{instance: r.id()}
		if first := r.begins("async-", key{instance: r.id()}, k); first.is(202) {
			r.testDuringProvision(k, first.string("operation"))
		}
	},
}

func (r *Runner) testDuringProvision(k key, operation string) {
	r.conflicts("async-conflict", k)
	if r.target.InstancesRetrievable {
		x := r.fetch(k)
		r.judgeDuring("async-fetch-during-provision", k, operation, x, x.want(404))
	}
	r.skip(reasonNotFetched, "async-fetch-during-provision")
	if r.target.Bindable {
		binding := key{k.instance, r.id()}
		x := r.put(binding, nil)
		r.judgeDuring("async-bind-during-provision", k, operation, x, x.wantOr("ConcurrencyError", 200, 201, 202))
	}
	r.skip(reasonNotBindable, "async-bind-during-provision")
	x := r.delete(k)
	r.judgeDuring("async-deprovision-during-provision", k, operation, x, x.wantOr("ConcurrencyError", 200, 201, 202))
}

var asyncDeletionCases = scenario{
	cases: []Case{
		{"async-deprovision-required", sectionDeprovision, Must,
			"422 AsyncRequired without accepts_incomplete=true, or 200 if the instance is deleted before the answer"},
		{"async-deprovision-repeated", sectionDeprovision, Must,
			"202 with the same operation to the same Deprovision while it is in progress"},
		{"async-deprovision-ends", sectionLastOperation, Must,
			"polls of the deletion end with 410, or 200 and succeeded"},
		{"async-last-operation-gone", sectionLastOperation, Should, "410 once the instance is deleted"},
		{"async-deprovision-gone", sectionDeprovision, Must, "410 once the instance is deleted"},
	},
	run: func(r *Runner) {
		if !r.isAsync {
			r.because = "the plan is provisioned synchronously, or can't be provisioned"
			return
		}
		if id := r.ready(); id != "" {
			r.deletesLater("deprovision", "Deprovision", key{instance: id})
		}
	},
}
