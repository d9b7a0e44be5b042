//go:build crashpoints

package broker_test

import (
	"context"
	"encoding/json"
	"fmt"
	"math/rand"
	"strconv"
	"strings"
	"testing"

	"pippinterm/broker"
	"pippinterm/internal/diff"
	"pippinterm/internal/schedule"
	"pippinterm/osb"
)

// Updates in the simulation: an instance with settings, that are numbers here, from 0 of the Provision on. The settings
// 3 have another plan, which works in the other mode, and the plan of the settings 4 isn't sold. Between is the number
// of settings that nobody has asked for. What a row becomes, and what is answered, is compared with osb.UpdateHolding,
// called for one event at a time.

const (
	between   = -1
	withOther = 3 // the settings with another plan
	unsold    = 4 // the settings with a plan that isn't sold
)

// simulatedCatalogue has the plans of the usual catalogue. Only c3 can't be left.
const simulatedCatalogue = `{"services": [{
	"id": "00000000-0000-0000-0000-0000000000a0", "name": "shelf", "description": "A shelf", "bindable": true,
	"bindings_retrievable": true, "plan_updateable": true, "plans": [
	{"id": "00000000-0000-0000-0000-0000000000c1", "name": "now", "description": "all at once",
		"maintenance_info": {"version": "1.0"}},
	{"id": "00000000-0000-0000-0000-0000000000c2", "name": "later", "description": "all later",
		"maintenance_info": {"version": "1.0"}, "x-osb-asynchronous": true, "x-osb-asynchronous-bindings": true},
	{"id": "00000000-0000-0000-0000-0000000000c3", "name": "bind-later", "description": "bindings later",
		"maintenance_info": {"version": "1.0"}, "plan_updateable": false, "x-osb-asynchronous-bindings": true},
	{"id": "00000000-0000-0000-0000-0000000000c4", "name": "make-later", "description": "instances later",
		"maintenance_info": {"version": "1.0"}, "x-osb-asynchronous": true}]}]}`

func catalogueOfUpdates(t *testing.T) *broker.Catalogue {
	t.Helper()
	return diff.Value(broker.NewCatalogue([]byte(simulatedCatalogue), broker.Abilities{Bindings: true, Updates: true}))(t)
}

// parametersOf are the parameters of the settings with a number.
func parametersOf(number int) json.RawMessage {
	if number == 0 {
		return nil
	}
	return json.RawMessage(fmt.Sprintf(`{"n":%d}`, number))
}

func digestOf(number int) (digest osb.Digest) {
	if parameters := parametersOf(number); parameters != nil {
		var err error
		digest, err = osb.ParametersDigest(parameters)
		must(err)
	}
	return digest
}

// planOf is the plan of the settings with a number.
func (s scenario) planOf(number int) osb.ID {
	switch number {
	case withOther:
		return s.otherPlan()
	case unsold:
		return id("ff")
	}
	return s.plan.Plan
}

// otherPlan is one of the other mode.
func (s scenario) otherPlan() osb.ID {
	if modeOf(s.plan, false) == osb.ModeAsync {
		return id(now)
	}
	return id(later)
}

// updateModeOf is how an update to a plan is done.
func (s scenario) updateModeOf(plan osb.ID) osb.Mode {
	return modeOf(osb.Plan{Service: s.plan.Service, Plan: plan}, false)
}

// settingsOf are the settings with a number.
func (s scenario) settingsOf(number int) osb.Settings {
	return osb.Settings{Plan: s.planOf(number), Parameters: digestOf(number)}
}

// textsOf are the texts of the settings with a number.
func (s scenario) textsOf(number int) broker.Settings {
	return broker.Settings{PlanID: s.planOf(number).String(), Parameters: parametersOf(number)}
}

// numberOf is the number of settings.
func (s scenario) numberOf(settings osb.Settings) int {
	for number := 0; number <= unsold; number++ {
		if s.settingsOf(number) == settings {
			return number
		}
	}
	return between
}

// changeOf is what is kept of updates, or what stands for that.
func changeOf(entry broker.Entry) osb.UpdateHolding {
	if entry.Change != nil {
		return entry.Change.Holding
	}
	row, _ := entry.Holding.Row()
	return osb.NewUpdateHolding(osb.Settings{Plan: row.Plan, Parameters: entry.Holding.Attributes()})
}

// update is the Update of a word, such as update-2-n7: to the settings 2, with the number 7. Without them, it is to the
// settings 1, and has no number. With -blocking it doesn't accept an asynchronous operation, and with -outdated it
// names a version that no plan has.
func (s scenario) update(t *testing.T, word string) broker.Visit {
	t.Helper()
	to, visit := 1, visitOfKey(simulatedKeys[0], osb.KindNone, s.plan)
	asked := &broker.AskedUpdate{Update: osb.Update{Service: s.plan.Service, AcceptsIncomplete: true}}
	for _, part := range strings.Split(word, "-")[1:] {
		number, err := strconv.Atoi(strings.TrimPrefix(part, "n"))
		switch {
		case part == "blocking":
			asked.AcceptsIncomplete = false
		case part == "outdated":
			asked.Change.HasVersion, asked.Settings.Version = true, "2.0"
			asked.Change.Version = diff.Value(osb.VersionDigest("2.0"))(t)
		case err != nil:
			t.Fatalf("got the update %q, want one of settings", word)
		case part[0] == 'n':
			asked.Number = uint64(number)
		default:
			to = number
		}
	}
	asked.Change.HasPlan, asked.Change.Plan = true, s.planOf(to)
	asked.Change.HasParameters, asked.Change.Parameters = true, digestOf(to)
	asked.Settings.PlanID, asked.Settings.Parameters = s.planOf(to).String(), parametersOf(to)
	visit.Update = asked
	return visit
}

// provision is the Provision of a word, such as provision-2, which asks for the settings 2.
func (s scenario) provision(t *testing.T, word string) broker.Visit {
	t.Helper()
	number, err := strconv.Atoi(strings.TrimPrefix(word, "provision-"))
	diff.NoError(t, err, "the number in %q", word)
	visit := visitOfKey(simulatedKeys[0], osb.KindProvision, osb.Plan{Service: s.plan.Service, Plan: s.planOf(number)})
	visit.Attributes = digestOf(number)
	return visit
}

// failUpdate has an update have failed: nobody knows which settings the instance has.
func (s *simulation) failUpdate() {
	key := simulatedKeys[0]
	entry, thing := s.rows[key], s.things[key]
	named := osb.Change{Parameters: digestOf(1), HasParameters: true}
	pending, _, err := changeOf(entry).Begin(entry.Holding, osb.AllowedSync, osb.Update{
		Service: s.scenario.plan.Service, Change: named, AcceptsIncomplete: true,
	})
	must(err)
	failed, _, err := pending.End(osb.ModeSync, osb.UpdateOutcomeFailed)
	must(err)
	entry.Change, thing.settings = &broker.Change{Holding: failed}, between
	s.rows[key], s.things[key] = entry, thing
	s.sync(key)
}

// ---- what each step is compared with

// allowed is what the catalogue has for the Update of a runner, of an instance that has a plan (sections Updating a
// Service Instance and Maintenance Info Object).
func (r *runner) allowed(held osb.ID) osb.Allowed {
	asked := r.task.Update.Change
	switch {
	case asked.Plan == id("ff"):
		return osb.AllowedRejected400
	case asked.Plan != held && held == id(bindLater):
		return osb.AllowedRejected422
	case asked.HasVersion:
		return osb.AllowedMaintenanceConflict
	case r.scenario.updateModeOf(asked.Plan) == osb.ModeAsync:
		return osb.AllowedAsync
	}
	return osb.AllowedSync
}

// beginBeside is what the network does with a request of the instance, beside its updates. Once an Update was judged,
// the request names the first plan, whichever it names, and a Provision the first parameters.
func (r *runner) beginBeside(held osb.Holding, mode osb.Mode, request osb.Request, rules osb.Rules) (
	osb.Holding, osb.Begun, error,
) {
	entry := r.rows[r.task.Key]
	change := changeOf(entry)
	if row, isHeld := held.Row(); entry.Change != nil && isHeld {
		if answer, isOwn := answerInPlace(change, held, request, rules.Attributes); isOwn {
			return held, osb.Begun{Answer: answer}, nil
		}
		request.Plan, rules.Attributes = row.Plan, held.Attributes()
	}
	return change.BeginInstance(held, mode, request, rules, r.anyBinding())
}

// answerInPlace is what is answered by the updates in the place of the instance's table.
func answerInPlace(
	change osb.UpdateHolding, held osb.Holding, request osb.Request, parameters osb.Digest,
) (osb.Answer, bool) {
	polled, err := change.Poll(held)
	isSame := change.Settings() == osb.Settings{Plan: request.Plan, Parameters: parameters}
	answer := osb.Answer{Body: osb.BodyOtherError}
	switch isSettled := change.Phase() == osb.UpdatePhaseSettled; {
	case request.Kind == osb.KindPoll:
		return polled, err == nil && !isSettled
	case request.Kind != osb.KindProvision:
		return answer, false
	case !isSame:
		answer.Status = 409
	case err != nil || isSettled:
		return answer, false
	case change.Phase() == osb.UpdatePhaseFailed:
		answer.Status = 500
	default:
		answer.Status = 503
	}
	return answer, true
}

// updated is what the network does with the Update of a runner that arrives at this row.
func (r *runner) updated(entry broker.Entry) (osb.UpdateHolding, osb.UpdateBegun) {
	held := changeOf(entry)
	after, begun, err := held.Begin(entry.Holding, r.allowed(held.Settings().Plan), r.task.Update.Update)
	must(err)
	return after, begun
}

// noteUpdateReading is noteReading of an Update.
func (r *runner) noteUpdateReading(entry broker.Entry) {
	after, begun := r.updated(entry)
	if r.answered = (osb.Answer{}); !begun.HasWork && after == changeOf(entry) {
		r.answered = answerOf(begun)
	}
}

// answerOf is the answer of an Update that is answered at once. That of a conflict of versions has no code of its own.
func answerOf(begun osb.UpdateBegun) osb.Answer {
	if begun.IsMaintenanceConflict {
		return osb.Answer{Status: 422, Body: osb.BodyOtherError}
	}
	return begun.Answer
}

// judgeChange is called after a commit that changes what is kept of updates: it has to be one event.
func (s *simulation) judgeChange(of *runner, before, after broker.Entry) {
	was, is, key := changeOf(before), changeOf(after), simulatedKeys[0]
	if of.task.Update != nil && !was.IsUnderWay() {
		if arrived, begun := of.updated(before); arrived == is {
			if of.answered = answerOf(begun); begun.HasWork {
				of.answered, s.workers[key] = osb.Answer{}, of.Number
			}
			return
		}
	}
	has := s.things[key].settings
	for _, isDone := range []bool{true, false} {
		goal, _ := was.Goal()
		if ended, err := was.Finish(isDone); err == nil && ended == is && isDone == (has == s.scenario.numberOf(goal)) {
			return
		}
	}
	if s.endsUpdate(was, is, has) {
		return
	}
	s.Fail("%d writes %v over %v while the resource has %d, which is no event", of.Number, is, was, has)
}

// endsUpdate reports whether the end of pending work leads from one holding to another, if the resource has these
// settings. It gives the answer of the event.
func (s *simulation) endsUpdate(was, is osb.UpdateHolding, has int) bool {
	key := simulatedKeys[0]
	goal, _ := was.Goal()
	mode, isDone := s.scenario.updateModeOf(goal.Plan), has == s.scenario.numberOf(goal)
	isUnchanged := was.Phase() != osb.UpdatePhaseMending && has == s.scenario.numberOf(was.Settings())
	for outcome, isTrue := range map[osb.UpdateOutcome]bool{
		osb.UpdateOutcomeDone:       isDone || mode == osb.ModeAsync,
		osb.UpdateOutcomeBefore:     isUnchanged,
		osb.UpdateOutcomeRefused422: isUnchanged,
		osb.UpdateOutcomeFailed:     !isDone && !isUnchanged,
	} {
		ended, answer, err := was.End(mode, outcome)
		if err != nil || ended != is || !isTrue {
			continue
		}
		if worker := s.workers[key]; worker > 0 {
			s.runners[worker-1].mayBe = append(s.runners[worker-1].mayBe, answer)
		}
		defer func() { s.workers[key] = 0 }()
	}
	return s.workers[key] == 0 || len(s.runners[s.workers[key]-1].mayBe) > 0
}

// ---- the backend

// hasTexts reports whether the settings with a number have these texts.
func (s scenario) hasTexts(texts broker.Settings, number int) bool {
	want := s.textsOf(number)
	return number != between && texts.PlanID == want.PlanID && string(texts.Parameters) == string(want.Parameters)
}

// A simulatedUpdatingBackend updates instances.
type simulatedUpdatingBackend struct{ simulatedBackend }

func (simulatedUpdatingBackend) LookUpdate(ctx context.Context, update broker.Update) (broker.There, error) {
	r := runnerIn(ctx)
	if _, err := r.enter(ctx, update.Key, "look"); err != nil {
		return broker.Part, err
	}
	thing := r.things[update.Key]
	r.Saw(thing.there, thing.settings)
	switch {
	case thing.there != broker.Whole:
		return broker.Part, nil
	case r.scenario.hasTexts(update.To, thing.settings):
		return broker.Whole, nil
	case r.scenario.hasTexts(update.From, thing.settings):
		return broker.None, nil
	}
	return broker.Part, nil
}

func (simulatedUpdatingBackend) Update(ctx context.Context, update broker.Update) error {
	r, key, to := runnerIn(ctx), update.Key, 0
	_, _ = fmt.Sscanf(string(update.To.Parameters), `{"n":%d}`, &to)
	for _, part := range []struct {
		name   string
		faults []schedule.Fault
		then   int
	}{{"update", []schedule.Fault{lies, rejects}, between}, {"update-half", []schedule.Fault{lies}, to}} {
		switch how, err := r.enter(ctx, key, part.name, part.faults...); {
		case err != nil:
			return err
		case how == rejects.Name:
			return &broker.Rejection{Status: 422, Description: "too many"}
		case how == lies.Name:
			return nil
		}
		thing := r.things[key]
		thing.settings = part.then
		r.work(key, thing)
	}
	_, err := r.enter(ctx, key, "update-end")
	if err == nil {
		r.sync(key)
	}
	return err
}

// ---- the tests

// updatePairs are the scenarios of two drivers, of which at least one is of an Update.
var updatePairs = []string{
	"sync from ready: update + update",
	"sync from ready: update + update-2",
	"sync from ready: update-1-n1 + update-1-n1",
	"sync from ready: update-1-n2 + update-2-n1",
	"sync from ready: update + deprovision",
	"sync from ready: update + poll",
	"sync from ready: update + provision",
	"sync from ready: update + bind",
	"sync from late: update + take-up",
	"sync from late: take-up + take-up",
	"sync from late: take-up + deprovision",
	"sync from updated: update-2 + provision",
	"sync from updated: update-0 + provision",
	"sync from updated: provision-1 + deprovision",
	"sync from updated: other-provision-1 + take-up",
	"sync from other: provision-3 + other-deprovision",
	"sync from other: update-2 + provision-3",
	"sync from other: other-provision + provision",
	"async from other: provision-3 + other-poll",
	"sync from updated: update-0 + update-2",
	"sync from failed: update-0 + update-2",
	"sync from failed: update-1-n1 + update-1-n1",
	"sync from failed: update + deprovision",
	"sync power-cuts from failed: update-0 + take-up",
	"async from failed: update-0 + poll",
	"sync from updating: update-2 + take-up",
	"sync from bound: update + unbind",
	"sync power-cuts from synced: update + take-up",
	"sync power-cuts from updating: take-up + take-up",
	"async from ready: update + update-2",
	"async from ready: update + deprovision",
	"async from ready: update-1-n1 + update-1-n1",
	"async from late: take-up + take-up",
	"async from late: take-up + poll",
	"async from late: take-up + deprovision",

	// the plan changes, and with it the mode of the update
	"sync from ready: update-3 + update-3",
	"sync from ready: update-3 + other-poll",
	"sync from ready: update-3 + other-deprovision",
	"sync from ready: update-3 + provision",
	"sync from ready: update-3 + other-bind",
	"sync from bound: update-3 + other-unbind",
	"sync from other: other-bind + bind",
	"sync from other: update-0 + bind",
	"sync from other-late: take-up + other-deprovision",
	"sync from other-late: take-up + poll",
	"sync power-cuts from other-late: take-up + update-3",
	"async from ready: update-3 + poll",
	"async from ready: update-3 + update-2",
	"async from other: update-2 + other-deprovision",
	"async power-cuts from other-late: take-up + provision-3",

	// the catalogue rejects the Update, and what is rejected keeps its number
	"sync from ready: update-4 + update",
	"sync from ready: update-4-n2 + update-2-n1",
	"binds-async from ready: update-3 + update-1",
	"binds-async from ready: update-3-n1 + update-3-n1",
	"sync from ready: update-2-outdated + update-2",
	"sync from ready: update-2-n1-outdated + update-2-n1",
	"sync from ready: update-3-blocking + update-3",
	"async from ready: update-2-n1-blocking + update-2-n1",
	"sync from failed: update-4 + update-2",
	"sync from failed: update-3-blocking + update-3",
	"async from failed: update-2-outdated + take-up",
}

// TestEveryScheduleOfUpdates runs all schedules of two drivers with one fault at most.
func TestEveryScheduleOfUpdates(t *testing.T) {
	schedule.WithoutCrashes(t)
	catalogue := catalogueOfUpdates(t)
	for _, text := range updatePairs {
		t.Run(text, func(t *testing.T) {
			scenarioOf(t, catalogue, text, nil).schedules().Check(t, 1)
		})
	}
}

// TestRandomSchedulesOfUpdates runs schedules by chance, as many as SEEDS says, with more drivers and more faults.
func TestRandomSchedulesOfUpdates(t *testing.T) {
	schedule.WithoutCrashes(t)
	catalogue, most := catalogueOfUpdates(t), schedule.MostOf(3, 6)
	for seed := int64(0); seed < seedsOr(200) && !t.Failed(); seed++ {
		chance := rand.New(rand.NewSource(seed))
		one := func(of ...string) string { return of[chance.Intn(len(of))] }
		tasks := []string{"update"}
		for n := 2 + chance.Intn(4); n > 0; n-- {
			tasks = append(tasks, one("update", "update-0", "update-2", "update-2-n1", "update-3", "update-3-n2",
				"update-3-n3-blocking", "update-4", "update-4-n2", "update-2-outdated", "poll", "other-poll", "take-up",
				"take-up", "deprovision", "other-deprovision", "provision", "provision-2", "provision-3", "bind",
				"other-bind", "unbind"))
		}
		text := one("sync", "async", "binds-async") + one(" power-cuts", "", "") + " from " +
			one("ready", "updated", "updating", "late", "synced", "failed", "other", "other-late", "bound") + ": " +
			strings.Join(tasks, " + ")
		scenarioOf(t, catalogue, text, nil).schedules().CheckAny(t, most, chance)
	}
}
