//go:build crashpoints

package broker_test

import (
	"bytes"
	"errors"
	"fmt"

	"pippinterm/broker"
	"pippinterm/internal/walks"
	"pippinterm/osb"
)

// What follows is what each step of a simulation is compared with. What a row becomes, and what is answered, are
// decisions of the proved library (osb.Holding), called for one event of the network at a time. No driver is asked.
//
//   - Each commit that changes a holding is one event of the network: a request that arrives, the end of pending work,
//     the end of an operation, or a creation that has waited too long. The end is true of what exists.
//   - Each answer is one that an event has given to this request, and the commit of that event is known.
//   - The backend is called only by the runner that has the lock, and only of a key whose work is pending or whose
//     operation runs. It creates only if that creates. It gets the request of the pending work.
//   - Whenever nothing goes on, the row says what exists. The row of a binding has the credentials that work, and its
//     instance is ready.
//   - Without a fault each driver ends without an error.
//   - In the end, one sweep finishes all that is unfinished, and after one removal nothing exists.
//
// These are checked in Go after each step. Besides, TestEverySchedule and TestRandomSchedules write the events down, and
// checks/go has the proved crate service_cases step them. What the platform records isn't checked: it
// follows by the theorem of osb_network.

// arrival is what the network does with the request of a runner that arrives at this holding.
func (r *runner) arrival(held osb.Holding) (osb.Holding, osb.Begun) {
	key := r.task.Key
	request, err := r.task.Asked.Request(held.Row())
	must(err)
	rules := osb.Rules{FirstPoll: r.scenario.firstPoll, Attributes: r.task.Attributes}
	mode := modeOf(r.scenario.plan, key.IsBinding)
	var after osb.Holding
	var begun osb.Begun
	if key.IsBinding {
		of := r.rows[osb.InstanceKey(key.Instance)]
		after, begun, err = held.BeginBinding(r.boundTo(of, held, &request), mode, request, rules)
	} else {
		after, begun, err = r.beginBeside(held, mode, request, rules)
	}
	must(err)
	return after, begun
}

// boundTo is what the request of a binding finds of its instance. Once an Update of the instance was judged, the
// request names the plan of the binding, whichever it names. That of a new binding has to name the plan that the
// instance has now, for which the first plan stands. If it doesn't, or while an update is under way, it is put off, as
// if there were no instance.
func (r *runner) boundTo(instance broker.Entry, held osb.Holding, request *osb.Request) osb.Holding {
	row, isHeld := instance.Holding.Row()
	if instance.Change == nil || !isHeld {
		return instance.Holding
	}
	change, isNew := instance.Change.Holding, request.Kind == osb.KindProvision
	isPutOff := isNew && (change.IsUnderWay() || request.Plan != change.Settings().Plan)
	switch of := rowOf(held); {
	case held.IsHeld():
		request.Plan = of.Plan
	case request.Plan == change.Settings().Plan:
		request.Plan = row.Plan
	}
	if isPutOff {
		return osb.Holding{}
	}
	return instance.Holding
}

// rowOf is the row of a holding, or the one that its pending work would make.
func rowOf(held osb.Holding) osb.BrokerRow {
	row, isHeld := held.Row()
	if work, _ := held.Work(); !isHeld {
		row.Service, row.Plan = work.Service, work.Plan
	}
	return row
}

// noteReading is called when a runner has read a row. If its request is answered at once by that, and nothing changes,
// that is an event: the request arrives, or arrives again if another runner has taken its work over.
func (r *runner) noteReading(key broker.Key) {
	entry := r.rows[key]
	isOwn := r.workers[key] == r.Number && r.numbers[entry.Worker] == r.Number
	if r.isTakeUp() || key != r.task.Key || isOwn {
		return
	}
	if r.task.Update != nil {
		r.noteUpdateReading(entry)
		return
	}
	after, begun := r.arrival(entry.Holding)
	if r.answered, r.object = (osb.Answer{}), nil; begun.Work == osb.WorkNone && after == entry.Holding {
		r.answered, r.object = begun.Answer, entry.Binding
		r.event(key, "arrive", r)
	}
}

// judgeCommit is called after an entry was committed.
func (s *simulation) judgeCommit(of *runner, key broker.Key, before, after broker.Entry) {
	if after.Worker != before.Worker {
		if owner, isKnown := s.numbers[after.Worker]; isKnown && owner != of.Number {
			s.Fail("%d writes the number of %d", of.Number, owner)
		}
		s.numbers[after.Worker] = of.Number
	}
	if after.Holding != before.Holding {
		event := s.eventOf(of, key, before.Holding, after)
		if event == "" {
			s.Fail("%d writes %q over %q while what exists is %v, which is no event", of.Number,
				walks.HoldingWords(after.Holding), walks.HoldingWords(before.Holding), s.things[key].there)
		}
		s.event(key, event, of)
	}
	if after.Change != nil && changeOf(after) != changeOf(before) {
		s.judgeChange(of, before, after)
	}
	s.judgeState()
}

// eventOf is the event of the network by which a holding has changed, or empty. It gives the answer of the event.
func (s *simulation) eventOf(of *runner, key broker.Key, before osb.Holding, next broker.Entry) string {
	after := next.Holding
	if work, isPending := before.Work(); isPending {
		return s.endOf(key, work.Kind, before, next)
	}
	if of.task.Asked.Kind != osb.KindNone && key == of.task.Key {
		if arrived, begun := of.arrival(before); arrived == after {
			if begun.Work == osb.WorkNone {
				of.answered, of.object = begun.Answer, nil
			} else {
				s.workers[key] = of.Number
			}
			return "arrive"
		}
	}
	row, _ := before.Row()
	isMaking := row.Phase == osb.PhaseMaking
	if finished, err := before.Finish(true); err == nil && finished == after && s.isTrue(key, isMaking, true) {
		return "finish ok"
	}
	if finished, err := before.Finish(false); err == nil && finished == after && s.isTrue(key, isMaking, false) {
		return "finish failed"
	}
	if late, err := before.GiveUpWaiting(); err == nil && late == after && s.isLater {
		return "give-up-waiting"
	}
	return ""
}

// endOf is the event that ends pending work.
func (s *simulation) endOf(key broker.Key, kind osb.Kind, before osb.Holding, next broker.Entry) string {
	mode, isCreation := modeOf(s.scenario.plan, key.IsBinding), kind == osb.KindProvision
	for _, end := range []struct {
		outcome osb.Outcome
		word    string
	}{{osb.OutcomeDone, "done"}, {osb.OutcomeBefore, "before"}, {osb.OutcomeRefused422, "refused 422"}} {
		ended, answer, err := before.End(mode, end.outcome)
		isDone := end.outcome == osb.OutcomeDone
		isTrue := isDone && mode == osb.ModeAsync || s.isTrue(key, isCreation, isDone)
		if err != nil || ended != next.Holding || !isTrue {
			continue
		}
		if worker := s.workers[key]; worker > 0 {
			s.runners[worker-1].ended, s.runners[worker-1].object = answer, next.Binding
		}
		s.workers[key] = 0
		return "end " + end.word
	}
	return ""
}

// isTrue reports whether a creation or a deletion that has succeeded, or changed nothing, leaves what exists.
func (s *simulation) isTrue(key broker.Key, isCreation, isDone bool) bool {
	want := broker.None
	if isCreation == isDone {
		want = broker.Whole
	}
	return s.things[key].there == want
}

// judgeAnswer is called when a request is answered.
func (r *runner) judgeAnswer(response broker.Response) {
	given := response.Answer
	isEnd := given == r.ended
	for _, answer := range r.mayBe {
		isEnd = isEnd || given == answer
	}
	if given == (osb.Answer{}) || given != r.answered && !isEnd {
		r.Fail("%d is answered %d %v, and no event has given that", r.Number, given.Status, given.Body)
	}
	if response.Binding != nil && !bytes.Equal(response.Binding, r.object) {
		r.Fail("%d is answered %s, and its row has %s", r.Number, response.Binding, r.object)
	}
}

// judgeEnd is called when a runner has ended.
func (r *runner) judgeEnd(err error) {
	if err != nil && r.Used == 0 && !errors.Is(err, broker.ErrStillTaken) {
		r.Fail("%d fails though nothing else did: %v", r.Number, err)
	}
}

// judgeCall is called when the backend does something.
func (s *simulation) judgeCall(key broker.Key, name string) {
	if s.rows[key].Change != nil && s.rows[key].Change.Holding.IsUnderWay() {
		return
	}
	held := s.rows[key].Holding
	row, _ := held.Row()
	work, isPending := held.Work()
	isCreation := work.Kind == osb.KindProvision || !isPending && row.Phase == osb.PhaseMaking
	isDeletion := work.Kind == osb.KindDeprovision || !isPending && row.Phase == osb.PhaseDeleting
	if !isCreation && (!isDeletion || name == "create") {
		s.Fail("%s is called, and the row has %q", name, walks.HoldingWords(held))
	}
}

// judgeRequest is called when the backend creates or deletes by a request. If work is pending, it is the request of that
// work, and not that of work which has ended. The request of a deletion says that it is one.
func (r *runner) judgeRequest(of broker.Request) {
	work, isPending := r.rows[of.Key].Holding.Work()
	if isPending && (work.Kind == osb.KindDeprovision) != (of.Deletion != nil) {
		r.Fail("%d does pending work by the request of other work", r.Number)
	}
}

// judgeState compares each row that nobody works on with what exists.
func (s *simulation) judgeState() {
	instance := s.rows[simulatedKeys[0]].Holding
	for _, key := range simulatedKeys {
		entry, there := s.rows[key], s.things[key].there
		if _, isPending := entry.Holding.Work(); key.IsBinding && entry.Holding.IsHeld() {
			row, _ := entry.Holding.Row()
			if !isPending && !instance.IsThere(row.Service, row.Plan) {
				s.Fail("a binding is held, and its instance has %q", walks.HoldingWords(instance))
			}
		}
		if entry.IsUnfinished() {
			continue
		}
		row, isHeld := entry.Holding.Row()
		want := broker.None
		if isHeld && row.Phase != osb.PhaseFailed {
			want = broker.Whole
		}
		if there != want {
			s.Fail("a row has %q, and what exists is %v", walks.HoldingWords(entry.Holding), there)
		}
		if change := changeOf(entry); !key.IsBinding && row.Phase == osb.PhaseReady &&
			change.Phase() == osb.UpdatePhaseSettled && s.scenario.numberOf(change.Settings()) != s.things[key].settings {
			s.Fail("a row has the settings %v, and the resource has %d", change, s.things[key].settings)
		}
		if change := entry.Change; change != nil && change.Holding.Phase() == osb.UpdatePhaseSettled &&
			!s.scenario.hasTexts(change.Settings, s.scenario.numberOf(change.Holding.Settings())) {
			s.Fail("a row has the texts %+v with the digests of %v", change.Settings, change.Holding)
		}
		if key.IsBinding && row.Phase == osb.PhaseReady {
			if object := `{"credentials":` + string(s.credentials(key)) + `}`; string(entry.Binding) != object {
				s.Fail("a binding has %s, and %s would work", entry.Binding, object)
			}
		}
	}
}

// work is called with what a resource has become.
func (s *simulation) work(key broker.Key, thing simulatedThing) {
	s.things[key] = thing
	word := "work " + thing.there.String()
	if key.IsBinding && thing.there == broker.Whole {
		word += fmt.Sprint(" ", thing.token)
	}
	s.event(key, word, nil)
	s.judgeState()
}

// event is called after an event of the model, with the runner that has written it.
func (s *simulation) event(key broker.Key, event string, of *runner) {
	if s.note != nil {
		s.note(key, event, of)
	}
}

// Finish sweeps once, and removes everything then.
func (s *simulation) Finish() {
	s.sweep()
	for _, key := range simulatedKeys {
		if row, _ := s.rows[key].Holding.Row(); s.rows[key].IsUnfinished() && row.Phase != osb.PhaseWaiting {
			s.Fail("after a sweep a row has %q", walks.HoldingWords(s.rows[key].Holding))
		}
	}
	s.note = nil
	for n := range simulatedKeys {
		key := simulatedKeys[len(simulatedKeys)-1-n]
		if !s.rows[key].Holding.IsHeld() {
			continue
		}
		s.runUntil(visitOfKey(key, osb.KindDeprovision, s.scenario.plan), "")
		s.sweep()
		if s.rows[key].Holding.IsHeld() || s.things[key].there != broker.None {
			s.Fail("after its removal a row has %q, and what exists is %v", walks.HoldingWords(s.rows[key].Holding),
				s.things[key].there)
		}
	}
}

// sweep goes on with all that is unfinished.
func (s *simulation) sweep() {
	for _, key := range simulatedKeys {
		if s.rows[key].IsUnfinished() {
			s.runUntil(visitOfKey(key, osb.KindNone, s.scenario.plan), "")
		}
	}
}
