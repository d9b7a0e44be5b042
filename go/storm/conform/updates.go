package conform

import (
	"fmt"
	"net/http"
	"net/url"
	"reflect"
)

const (
	sectionUpdate = "Updating a Service Instance"

	reasonNotUpdateable = "the plan isn't plan_updateable"
	reasonUpdateable    = "the plan is plan_updateable"
	reasonNoMaintenance = "the plan has no maintenance_info"
	reasonNoSibling     = "the service has no other plan"
	reasonUnsure        = "no answer says which settings the instance has"
	reasonUpdatesAtOnce = "the plan is updated synchronously, or can't be updated"

	// The members of the answer to a Fetch that are the settings of an instance.
	planMember, parametersMember, maintenanceMember = "plan_id", "parameters", "maintenance_info"
)

// otherVersion is a version of maintenance_info that no catalogue has.
const otherVersion = "0.0.0-osb-storm"

var updateCases = scenario{
	cases: []Case{
		{"update-no-change", sectionUpdate, Must, "200 or 202 to an Update that names no change"},
		{"update-without-service-id", sectionUpdate, Must, "400 without service_id"},
		{"update-malformed", sectionUpdate, Must, "400 to a body that isn't JSON"},
		{"update-unknown-plan", sectionUpdate, Should, "400 to a plan_id that isn't in the catalogue"},
		{"update-rejected-keeps", sectionUpdate, Must, "after a 4xx to an Update, the Fetch reports the settings of before"},
		{"update-unknown-instance", sectionUpdate, Should, "4xx to an Update of an instance that doesn't exist"},
		{"update-unknown-fields", sectionExtensions, Must, "an Update with unknown fields is accepted"},
		{"update-maintenance-conflict", sectionUpdate, Must,
			"422 MaintenanceInfoConflict to a version that isn't that of the catalogue"},
		{"update-maintenance", sectionUpdate, Must, "200 or 202 to the version of the catalogue"},
		{"update-parameters", sectionUpdate, Must,
			"200 or 202 to an Update of the parameters, or 400 or 422 if the plan takes no parameters"},
		{"update-parameters-fetched", sectionFetch, Should, "the Fetch reports the parameters of the Update"},
		{"update-keeps-plan", sectionUpdate, Must, "after an Update without plan_id, the Fetch reports the plan of before"},
		{"update-plan-not-updateable", sectionUpdate, Must,
			"422 or 400 to an Update to another plan, if the plan isn't plan_updateable"},
		{"update-plan", sectionUpdate, Must, "200 to an Update to another plan, or 202 if the Update is asynchronous"},
		{"update-fields", sectionUpdate, Must,
			"dashboard_url and operation, if present, are strings, and metadata is an object"},
		{"update-ends", sectionLastOperation, Should, "the operation succeeds within the time for operations"},
		{"update-plan-fetched", sectionFetch, Must, "after the Update, the Fetch reports the other plan"},
		{"update-keeps-parameters", sectionUpdate, Must,
			"after an Update without parameters, the Fetch reports the parameters of before"},
		{"update-repeated", sectionUpdate, Must, "200 to the same Update once the changes are applied"},
		{"provision-after-update", sectionProvision, Must,
			"200 to a Provision with the settings that the instance has after the Updates"},
		{"provision-after-update-old", sectionProvision, Must,
			"409 to a Provision with the settings that the instance had before the Updates"},
	},
	run: func(r *Runner) {
		id := r.ready()
		if id == "" {
			return
		}
		u := r.updated(id)
		if !u.takesUpdates() {
			return
		}
		u.rejections()
		u.wants("update-unknown-fields", u.update(object{"x-osb-storm-unknown": []int{1}, "x-osb-update": 1}), 200, 202)
		for _, part := range []func(){u.maintenance, u.parameters, u.plans} {
			if u.renew() {
				part()
			}
		}
		u.provisions()
	},
}

// An updated is an instance that is updated, with what the answers say of its settings.
type updated struct {
	*Runner
	key
	pair     Pair   // of the plan that it has
	settings object // the members of a Provision that names its settings, besides its service
	changed  bool   // the plan or the parameters aren't those of its creation any more
	unsure   bool   // no answer says which settings it has
}

func (r *Runner) updated(id string) *updated {
	return &updated{
		Runner: r, key: key{instance: id}, pair: r.target.Pair, settings: object{planMember: r.target.Plan},
	}
}

// patch is an Update that accepts an asynchronous operation. It names these members besides the service.
func (u *updated) patch(named object) request {
	body := object{"service_id": u.pair.Service}
	for member, value := range named {
		body[member] = value
	}
	return request{
		method: http.MethodPatch, path: pathOf(u.key), query: url.Values{"accepts_incomplete": {"true"}}, body: text(body),
	}
}

// update sends an Update, waits for its end, and notes the settings that the instance has then. It returns the answer.
func (u *updated) update(named object) *exchange {
	if plan := textIn(named, planMember); plan != "" {
		u.candidates.noteSending(u.key, Pair{u.pair.Service, plan})
	}
	x := u.send(u.patch(named))
	u.note(x, named)
	return x
}

// note notes the settings that the instance has after the answer to an Update, once that has ended.
func (u *updated) note(x *exchange, named object) {
	isDone, isRejected := x.is(200), x.status >= 400 && x.status < 500
	if x.is(202) {
		if named != nil {
			u.laterUpdate = named
		}
		state, last := u.awaitBy(u.key, u.pair, x.string("operation"))
		isDone = u.judgeEnd(state, last)
	}
	u.unsure = u.unsure || !isDone && !isRejected
	if !isDone {
		return
	}
	for _, member := range []string{planMember, parametersMember, maintenanceMember} {
		if value, has := named[member]; has && !reflect.DeepEqual(u.settings[member], value) {
			u.settings[member] = value
			u.changed = u.changed || member != maintenanceMember // it may have had the version from its creation on
		}
	}
	u.pair.Plan = textIn(u.settings, planMember)
}

// judgeEnd judges how the operation of an Update has ended, and reports whether it has succeeded.
func (u *updated) judgeEnd(state string, last *exchange) bool {
	problem := ""
	if state != "succeeded" {
		problem = "the operation doesn't succeed"
	}
	u.judge("update-ends", last, problem)
	return problem == ""
}

// renew takes a new instance if nobody knows which settings this one has. It reports whether there is one.
func (u *updated) renew() bool {
	if !u.unsure {
		return true
	}
	id := u.ready()
	if id != "" {
		*u = *u.Runner.updated(id)
	}
	return id != ""
}

// takesUpdates judges an Update without a change. It reports whether the broker has the endpoint. If the catalogue
// doesn't say that the plan is updateable, the broker may reject every Update.
func (u *updated) takesUpdates() bool {
	x := u.update(nil)
	hasNone := x.is(404, 405, 501)
	if !u.target.Updateable && (hasNone || x.is(400, 422)) {
		u.because = fmt.Sprintf("%s, and the broker answers an Update with %d", reasonNotUpdateable, x.status)
		return false
	}
	u.wants("update-no-change", x, 200, 202)
	u.because = fmt.Sprintf("the broker answers an Update with %d", x.status)
	return !hasNone && x.err == nil
}

// rejections judges Updates that have to be rejected, and what the instance is set to after that.
func (u *updated) rejections() {
	nameless, malformed := u.patch(nil), u.patch(nil)
	nameless.body, malformed.body = "{}", malformed.body[:len(malformed.body)-1]
	for _, test := range []struct {
		name string
		sent request
	}{{"update-without-service-id", nameless}, {"update-malformed", malformed}} {
		x := u.wants(test.name, u.send(test.sent), 400)
		u.note(x, nil)
	}
	before := u.fetched()
	x := u.update(object{planMember: u.id(), parametersMember: object{"osb-storm": "rejected"}})
	u.wants("update-unknown-plan", x, 400)
	u.keepsRejected(x, before)
	x = u.send((&updated{Runner: u.Runner, key: key{instance: u.id()}, pair: u.pair}).patch(nil))
	problem := ""
	if x.status < 400 || x.status > 499 {
		problem = x.want()
	}
	u.judge("update-unknown-instance", x, problem)
}

// fetched is the answer to a Fetch of the instance, or nil if the service isn't instances_retrievable.
func (u *updated) fetched() *exchange {
	if !u.target.InstancesRetrievable {
		return nil
	}
	return u.send(fetchOf(u.key, u.pair))
}

// keepsRejected judges that an Update which was answered with 4xx has changed nothing. before is fetched before it.
func (u *updated) keepsRejected(x, before *exchange) {
	if x.status >= 400 && x.status < 500 {
		u.keeps("update-rejected-keeps", before, planMember, parametersMember, maintenanceMember)
	}
}

// keeps judges a case by a Fetch: these members are those of before. It isn't run if the answers have none of them.
func (u *updated) keeps(name string, before *exchange, members ...string) {
	after := u.fetched()
	if after == nil {
		u.skip(reasonNotFetched, name)
		return
	}
	problem, isReported := after.want(200), false
	for _, member := range members {
		was, had := before.object[member]
		is, has := after.object[member]
		isReported = isReported || had || has
		if problem == "" && !reflect.DeepEqual(was, is) {
			problem = fmt.Sprintf("%s was %s before", member, text(was))
		}
	}
	if !before.is(200) || problem == "" && !isReported {
		u.skip(reasonNotReported, name)
		return
	}
	u.judge(name, after, problem)
}

const reasonNotReported = "no answer to a Fetch of the instance has these members"

// maintenance judges Updates of the version, if the plan has one.
func (u *updated) maintenance() {
	if u.target.Version == "" {
		u.skip(reasonNoMaintenance, "update-maintenance-conflict", "update-maintenance")
		return
	}
	before := u.fetched()
	x := u.update(versioned(otherVersion))
	u.judge("update-maintenance-conflict", x, x.wantError("MaintenanceInfoConflict"))
	u.keepsRejected(x, before)
	u.wants("update-maintenance", u.update(versioned(u.target.Version)), 200, 202)
}

func versioned(version string) object {
	return object{maintenanceMember: object{"version": version}}
}

// parameters judges an Update of the parameters alone.
func (u *updated) parameters() {
	const value = "updated"
	before := u.fetched()
	x := u.wants("update-parameters", u.update(object{parametersMember: object{"osb-storm": value}}), 200, 202, 400, 422)
	if u.unsure {
		u.skip(reasonUnsure, "update-keeps-plan", "update-parameters-fetched")
		return
	}
	u.keeps("update-keeps-plan", before, planMember)
	after := u.fetched()
	switch {
	case after == nil:
		u.skip(reasonNotFetched, "update-parameters-fetched")
	case !x.is(200, 202):
		u.skip("the parameters can't be updated", "update-parameters-fetched")
	case !after.is(200) || after.object[parametersMember] == nil:
		u.skip(reasonNotReported, "update-parameters-fetched")
	default:
		problem, reported := "", after.object[parametersMember]
		if of, _ := reported.(object); of["osb-storm"] != value {
			problem = "the parameters lack what the Update has set"
		}
		u.judge("update-parameters-fetched", after, problem)
	}
}

// plans judges Updates to another plan of the service.
func (u *updated) plans() {
	changes := []string{
		"update-plan", "update-fields", "update-ends", "update-plan-fetched", "update-keeps-parameters", "update-repeated",
	}
	sibling := u.target.sibling().Plan
	switch {
	case sibling == "":
		u.skip(reasonNoSibling, append(changes, "update-plan-not-updateable")...)
		return
	case !u.target.Updateable:
		before := u.fetched()
		x := u.wants("update-plan-not-updateable", u.update(object{planMember: sibling}), 422, 400)
		u.keepsRejected(x, before)
		u.skip(reasonNotUpdateable, changes...)
		return
	}
	u.skip(reasonUpdateable, "update-plan-not-updateable")
	before := u.fetched()
	x := u.wants("update-plan", u.update(object{planMember: sibling}), 200, 202)
	u.judge("update-fields", x, wrongFields(x, []string{"dashboard_url", "operation"}, []string{"metadata"}))
	if x.is(200) {
		u.skip("the plan is updated synchronously", "update-ends")
	}
	if u.pair.Plan != sibling {
		return
	}
	u.fetchesPlan("update-plan-fetched")
	u.keeps("update-keeps-parameters", before, parametersMember)
	u.wants("update-repeated", u.update(object{planMember: sibling}), 200)
}

// fetchesPlan judges a case by a Fetch: it reports the plan that the instance has.
func (u *updated) fetchesPlan(name string) {
	x := u.fetched()
	switch {
	case x == nil:
		u.skip(reasonNotFetched, name)
		return
	case x.is(200) && x.object[planMember] == nil:
		u.skip(reasonNotReported, name)
		return
	}
	problem := x.want(200)
	if problem == "" && x.object[planMember] != u.pair.Plan {
		problem = planMember + " is another one"
	}
	u.judge(name, x, problem)
}

// provisions judges Provisions of the instance with the settings of now, and with those of its creation.
func (u *updated) provisions() {
	names := []string{"provision-after-update", "provision-after-update-old"}
	switch {
	case u.unsure:
		u.skip(reasonUnsure, names...)
		return
	case !u.changed:
		u.skip("no Update has changed anything", names...)
		return
	}
	now := u.creation(u.key, func(body object) {
		for member, value := range u.settings {
			body[member] = value
		}
	})
	u.wants(names[0], u.create(u.key, u.pair, now), 200)
	u.wants(names[1], u.put(u.key, nil), 409)
}

var asyncUpdateCases = scenario{
	cases: []Case{
		{"async-update-required", sectionUpdate, Must,
			"422 AsyncRequired without accepts_incomplete=true, or 200 if the changes are applied before the answer"},
		{"async-update-repeated", sectionUpdate, Must,
			"202 with the same operation to the same Update while it is in progress"},
		{"async-update-last-operation", sectionLastOperation, Must,
			"200 with a state to a Poll of the Update that names the plan of before"},
		{"async-update-during-update", sectionBlocking, Must,
			"422 ConcurrencyError to another Update while the first one is in progress"},
		{"async-fetch-during-update", sectionFetch, Must, "422 ConcurrencyError while the instance is being updated"},
		{"async-bind-during-update", sectionBlocking, Must,
			"422 ConcurrencyError to a Bind while the instance is being updated, or success"},
		{"async-deprovision-during-update", sectionBlocking, Must,
			"422 ConcurrencyError while the instance is being updated, or 200 or 202 if the Update is halted"},
	},
	run: func(r *Runner) {
		if r.laterUpdate == nil {
			r.because = reasonUpdatesAtOnce
			return
		}
		id := r.ready()
		if id == "" {
			return
		}
		u, named := r.updated(id), r.laterUpdate
		before := u.fetched()
		x := u.send(asSynchronous(u.patch(named)))
		u.judge("async-update-required", x, x.wantOr("AsyncRequired", 200))
		u.keepsRejected(x, before)
		if plan := textIn(named, planMember); plan != "" {
			u.candidates.noteSending(u.key, Pair{u.pair.Service, plan})
		}
		if first := u.send(u.patch(named)); first.is(202) {
			u.testDuringUpdate(named, first)
			return
		}
		r.because = "the same Update wasn't asynchronous again"
	},
}

// testDuringUpdate judges requests while an Update is in progress whose first answer this is.
func (u *updated) testDuringUpdate(named object, first *exchange) {
	operation := first.string("operation")
	during := func(name string, x *exchange, problem string) { u.judgeDuring(name, u.key, operation, x, problem) }
	x := u.send(u.patch(named))
	during("async-update-repeated", x, repeats(first, x))
	u.judgeConcurrent(named, first)
	if x = u.fetched(); x != nil {
		during("async-fetch-during-update", x, x.wantError("ConcurrencyError"))
	}
	u.skip(reasonNotFetched, "async-fetch-during-update")
	if u.target.Bindable {
		x = u.put(key{u.instance, u.id()}, nil)
		during("async-bind-during-update", x, x.wantOr("ConcurrencyError", 200, 201, 202))
	}
	u.skip(reasonNotBindable, "async-bind-during-update")
	x = u.send(poll(u.key, u.pair, operation))
	problem := ""
	if stateOf(x) == "" {
		problem = "the answer isn't 200 with such a state"
	}
	u.judge("async-update-last-operation", x, problem)
	x = u.delete(u.key)
	during("async-deprovision-during-update", x, x.wantOr("ConcurrencyError", 200, 202))
}

// judgeConcurrent judges another Update while one is in progress. If the broker takes it, the first one may have ended
// before: only a repetition that is still answered as the first one shows that it hadn't.
func (u *updated) judgeConcurrent(named object, first *exchange) {
	const name = "async-update-during-update"
	x := u.send(u.patch(object{parametersMember: object{"osb-storm": "concurrent"}}))
	if x.is(202) && repeats(first, u.send(u.patch(named))) != "" {
		u.skip(reasonEnded, name)
		return
	}
	u.judgeDuring(name, u.key, first.string("operation"), x, x.wantError("ConcurrencyError"))
}
