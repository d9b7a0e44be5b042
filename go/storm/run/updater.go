package run

import (
	"context"
	"encoding/json"
	"fmt"
	"math/rand"
	"net/http"
	"net/url"
	"strconv"
	"sync"
	"time"

	"pippinterm/storm/conform"
	"pippinterm/storm/fault"
)

// What a storm of a broker can leave out.
const (
	WithoutUpdates = "updates" // no instance is updated
	WithoutNumbers = "numbers" // Updates have no number
)

// An updateState is the state of an updateRecord.
type updateState string

const (
	updateSettled  updateState = "settled"
	updateUpdating updateState = "updating" // an Update is due
	updatePolling  updateState = "polling"  // a Poll is due
	updateUnsure   updateState = "unsure"   // somebody has to choose settings
)

// An updateRecord is what the platform of a storm records of the updates of an instance. How it changes is this project's
// table of updates (docs/proofs.md).
type updateRecord struct {
	settings  settings // of the last time that it was settled
	state     updateState
	to        settings // what the latest Update asks for
	mixed     bool     // an Update to other settings may have been done since it was settled
	number    int      // of the latest Update, from 1
	operation string   // of the 202
}

// update is the record once settings are asked for.
func (u updateRecord) update(to settings) updateRecord {
	u.mixed = u.state != updateSettled && (u.mixed || to != u.to)
	u.state, u.to = updateUpdating, to
	u.number++
	return u
}

// settle is the record once it is settled with some settings.
func (u updateRecord) settle(with settings) updateRecord {
	u.state, u.settings, u.mixed, u.operation = updateSettled, with, false, ""
	return u
}

// afterUpdate is the record after the answer to its latest Update.
func (u updateRecord) afterUpdate(answer conform.Answer) updateRecord {
	isObject := answer.Object != nil
	switch status := answer.Status; {
	case status == http.StatusOK && isObject:
		return u.settle(u.to)
	case status == http.StatusAccepted && isObject:
		u.state, u.operation = updatePolling, answer.Text("operation")
	case status == http.StatusUnprocessableEntity && answer.Text("error") == "ConcurrencyError":
	case isObject && isRejection(status) && u.mixed:
		u.state = updateUnsure
	case isObject && isRejection(status):
		return u.settle(u.settings)
	}
	return u
}

// isRejection reports whether a status of an answer whose body is an object is a rejection by the broker, and surely not
// by a gateway.
func isRejection(status int) bool {
	switch status {
	case 401, 403, 404, 405, 407, 408, 412, 413, 414, 415, 429, 431:
		return false
	}
	return status >= 400 && status < 500
}

// afterPoll is the record after the answer to a Poll.
func (u updateRecord) afterPoll(answer conform.Answer) updateRecord {
	if answer.Status != http.StatusOK {
		return u
	}
	switch answer.Text("state") {
	case "succeeded":
		return u.settle(u.to)
	case "failed":
		u.state = updateUnsure
	}
	return u
}

// afterFetch is the record after the answer to a Fetch. It is evidence only with the number of the latest Update.
func (u updateRecord) afterFetch(answer conform.Answer) updateRecord {
	number, _ := answer.Object["x-osb-update"].(float64)
	reported := ofFetch(answer.Object)
	if answer.Status != http.StatusOK || int(number) != u.number || u.number == 0 ||
		reported.plan == unreported || reported.parameters == unreported {
		return u
	}
	if reported.version == unreported {
		reported.version = ""
	}
	return u.settle(reported)
}

// named are the members by which an Update names what may differ from the recorded settings: each part in which they
// differ, and all if an Update to other settings may have been done. Without numbers, that may always be.
func (u updateRecord) named(hasNumber bool) map[string]any {
	named := map[string]any{}
	isWhole := u.mixed || !hasNumber
	if isWhole || u.to.plan != u.settings.plan {
		named["plan_id"] = u.to.plan
	}
	if isWhole || u.to.parameters != u.settings.parameters {
		named["parameters"] = json.RawMessage("{}")
		if u.to.parameters != "" {
			named["parameters"] = json.RawMessage(u.to.parameters)
		}
	}
	if isWhole || u.to.version != u.settings.version {
		named["maintenance_info"] = map[string]any{"version": u.to.version}
	}
	if hasNumber {
		named["x-osb-update"] = u.number
	}
	return named
}

// An updater updates the instances of a run through the proxy. One request of an instance is out at a time. A nil
// updater updates nothing.
type updater struct {
	client            *conform.Runner // at the proxy
	target            conform.Target
	events            *events
	seed              int64
	numbers           bool // each Update has a number
	plans, parameters bool // what may be updated
	pollTime, pause   time.Duration

	guard
	of        map[Key]*updatedInstance
	succeeded int
}

// An updatedInstance is an instance that an updater updates.
type updatedInstance struct {
	updateRecord
	asked   map[settings]bool // the settings that it may have
	chance  *rand.Rand
	out     bool      // a request is out
	isOver  bool      // it is being removed: nothing is sent any more
	due     time.Time // of the next request
	accepts time.Time // when the operation was accepted
}

// updateEach is how often an updater looks what is to be sent.
const updateEach = 20 * time.Millisecond

// run sends what is due, until ctx is done. Then it waits for the answers to what is out.
func (u *updater) run(ctx context.Context) {
	if u == nil {
		return
	}
	var group sync.WaitGroup
	for fault.Sleep(ctx, updateEach) {
		for _, key := range u.take() {
			key := key
			group.Add(1)
			go func() {
				defer group.Done()
				u.send(context.Background(), key)
			}()
		}
	}
	group.Wait()
}

// take returns the instances of which a request is to be sent now. It is out then.
func (u *updater) take() (keys []Key) {
	u.hold(func() {
		for key, it := range u.of {
			if it.state != updateSettled && !it.out && !it.isOver && !time.Now().Before(it.due) {
				it.out = true
				keys = append(keys, key)
			}
		}
	})
	return keys
}

// fetchShare is how often a Fetch is sent in place of an Update again.
const fetchShare = 0.3

// send sends the next request of an instance, and notes its answer.
func (u *updater) send(ctx context.Context, key Key) {
	var it *updatedInstance
	u.hold(func() { it = u.of[key] })
	before := it.updateRecord // nobody else changes it while a request is out
	after := before
	switch {
	case before.state == updatePolling:
		after = before.afterPoll(u.client.Ask(ctx, http.MethodGet, key.Instance, "", "/last_operation", u.namesOf(before)))
		if after.state == updatePolling && time.Since(it.accepts) > u.pollTime {
			after.state = updateUnsure
		}
	case u.numbers && it.chance.Float64() < fetchShare:
		after = before.afterFetch(u.client.Ask(ctx, http.MethodGet, key.Instance, "", "", nil))
	default:
		if before.state == updateUnsure {
			before = before.update(u.choose(it))
		}
		before.number++ // each request has a number of its own
		after = before.afterUpdate(u.client.Update(ctx, key.Instance, before.named(u.numbers)))
	}
	u.note(key, it, after)
}

// choose returns the settings for an instance of which nobody knows them: those that were asked for, or those of before.
// Without a number, an Update can't name that there are no parameters.
func (u *updater) choose(it *updatedInstance) settings {
	if u.numbers && it.chance.Intn(2) == 0 {
		return it.settings
	}
	return it.to
}

// namesOf is the query of a Poll: it names the plan of before the Update.
func (u *updater) namesOf(record updateRecord) url.Values {
	names := url.Values{"service_id": {u.target.Service}, "plan_id": {record.settings.plan}}
	if record.operation != "" {
		names.Set("operation", record.operation)
	}
	return names
}

// note notes the record after an answer.
func (u *updater) note(key Key, it *updatedInstance, after updateRecord) {
	before := it.updateRecord
	u.hold(func() {
		it.updateRecord, it.out, it.due = after, false, time.Now().Add(u.pause)
		if after.state == updatePolling && before.state != updatePolling {
			it.accepts = time.Now()
		}
		if after.state == updateSettled && after.settings == after.to {
			u.succeeded++
		}
	})
	if after.state != before.state {
		what := fmt.Sprintf("settings: %s -> %s", before.state, after.state)
		if after.state == updateSettled {
			what += ", " + after.settings.String()
		}
		u.events.add(key, "record", what)
	}
}

// update asks for other settings of an instance that is recorded as ready, and waits until its record is settled, or ctx
// is done.
func (u *updater) update(ctx context.Context, key Key, number int) {
	if u == nil || ctx.Err() != nil {
		return
	}
	var to settings
	u.hold(func() {
		it := u.of[key]
		if it == nil {
			first := settings{plan: u.target.Plan}
			it = &updatedInstance{
				updateRecord: updateRecord{state: updateSettled, settings: first, to: first},
				asked:        map[settings]bool{first: true}, chance: fault.Chance(u.seed, "update", strconv.Itoa(number)),
			}
			u.of[key] = it
		}
		to = u.next(it)
		it.asked[to] = true
		it.updateRecord = it.updateRecord.update(to)
	})
	u.events.add(key, "operator", "updates the instance to "+to.String())
	for fault.Sleep(ctx, readEach) {
		if _, isSettled := u.settled()[key]; isSettled {
			return
		}
	}
}

// next returns other settings than an instance has: another plan, other parameters, or both. The version is that of the
// plan.
func (u *updater) next(it *updatedInstance) settings {
	to := it.settings
	isPlan := u.plans && (!u.parameters || it.chance.Intn(3) > 0)
	if isPlan {
		others := []conform.PlanVersion{}
		for _, plan := range u.target.Plans {
			if plan.Plan != to.plan {
				others = append(others, plan)
			}
		}
		to.plan = others[it.chance.Intn(len(others))].Plan
	}
	if u.parameters && (!isPlan || it.chance.Intn(2) == 0) {
		to.parameters = fmt.Sprintf(`{"osb-storm":%d}`, len(it.asked))
	}
	for _, plan := range u.target.Plans {
		if plan.Plan == to.plan {
			to.version = plan.Version
		}
	}
	return to
}

// end ends the updates of an instance that is to be removed. It waits until no request of them is out, or ctx is done.
func (u *updater) end(ctx context.Context, key Key) {
	if u == nil {
		return
	}
	for isOut := true; isOut && ctx.Err() == nil; {
		u.hold(func() {
			it := u.of[key]
			if isOut = it != nil && it.out; it != nil {
				it.isOver = true
			}
		})
		if isOut {
			fault.Sleep(ctx, updateEach)
		}
	}
}

// settled returns the records that are settled, of instances that aren't being removed.
func (u *updater) settled() map[Key]updateRecord {
	all := u.all()
	for key, record := range all {
		if record.state != updateSettled {
			delete(all, key)
		}
	}
	return all
}

// all returns the records of all instances that aren't being removed.
func (u *updater) all() map[Key]updateRecord {
	all := map[Key]updateRecord{}
	u.hold(func() {
		for key, it := range u.of {
			if !it.isOver {
				all[key] = it.updateRecord
			}
		}
	})
	return all
}

// asked returns the settings that an instance may have.
func (u *updater) asked(key Key) (all []settings) {
	u.hold(func() {
		for one := range u.of[key].asked {
			all = append(all, one)
		}
	})
	return all
}

// isAsked reports whether an instance may have some settings: those of its creation, or of an Update.
func (u *updater) isAsked(key Key, has settings) (is bool) {
	u.hold(func() { is = u.of[key] != nil && u.of[key].asked[has] })
	return is
}

// rests reports whether each record is settled.
func (u *updater) rests() bool { return u == nil || len(u.settled()) == len(u.all()) }

// unsettled returns the records that haven't converged.
func (u *updater) unsettled() (stuck []Difference) {
	if u == nil {
		return nil
	}
	for key, record := range u.all() {
		if record.state != updateSettled {
			stuck = append(stuck, Difference{Key: key, Kind: Stuck, What: "its update is still " + string(record.state)})
		}
	}
	return stuck
}

// count returns how many Updates have succeeded.
func (u *updater) count() (count int) {
	if u != nil {
		u.hold(func() { count = u.succeeded })
	}
	return count
}
