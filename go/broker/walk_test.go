//go:build crashpoints

package broker_test

import (
	"fmt"
	"strings"

	"pippinterm/broker"
	"pippinterm/internal/walks"
	"pippinterm/osb"
)

// A walk has each event of a run, with what is recorded, held and there after it.
type walk struct {
	world *world
	to    *walks.Writer
	lines []string
	lives map[broker.Key]*course
}

// A course is what the model numbers of a life.
type course struct {
	name    string
	given   int    // answers that were given
	fetched int    // answers to a Fetch that were given
	waits   *visit // the request that waits for the end of its work, or nil
}

// A visit is a request at a process.
type visit struct {
	outgoingRequest
	isGiven bool // whether its answer is decided on
	at      int  // the number of that answer
}

// newWalk begins a walk, unless the platform keeps none of its rules: then the broker sends requests of its own.
func newWalk(w *world, to *walks.Writer) *walk {
	it := &walk{world: w, to: to, lives: map[broker.Key]*course{}}
	if w.isUnruly {
		it.to = nil
	}
	for at, life := range w.all() {
		it.lives[life.key] = &course{name: "instance"}
		if at > 0 {
			it.lives[life.key].name = fmt.Sprintf("binding %d", at)
		}
	}
	return it
}

// begin writes the line that begins a walk.
func (w *walk) begin(plan osb.Plan, firstPoll bool) {
	rule := "-"
	if firstPoll {
		rule = "first-poll"
	}
	var orders []string
	for _, life := range w.world.all() {
		orders = append(orders, fmt.Sprintf("%v accepts %s", modeOf(plan, life.key.IsBinding), rule))
	}
	w.line("service platform broker: "+strings.Join(orders, "; "), "new")
}

// modeOf is the mode of instances or bindings of a plan.
func modeOf(plan osb.Plan, isBinding bool) osb.Mode {
	later := map[bool]string{false: "c2 c4", true: "c2 c3"}[isBinding]
	if text := plan.Plan.String(); strings.Contains(later, text[len(text)-2:]) {
		return osb.ModeAsync
	}
	return osb.ModeSync
}

// event writes an event of a life.
func (w *walk) event(key broker.Key, event string) { w.line(w.lives[key].name+" "+event, "applied") }

func (w *walk) line(event, what string) {
	if w.to == nil {
		return
	}
	lives := []string{}
	for _, life := range w.world.all() {
		lives = append(lives, w.life(life))
	}
	w.lines = append(w.lines, walks.Line(event, what, strings.Join(lives, " | ")))
}

// end writes the walk.
func (w *walk) end() { w.to.Write(w.lines) }

// life is what is recorded, held and there.
func (w *walk) life(it *life) string {
	found := w.world.look(it.key)
	return lifeWords(it, found.Holding, found.there, w.world.shelf.credentials(it.key))
}

// lifeWords are what is recorded, held and there of a life. The credentials are those of a binding that exists.
func lifeWords(it *life, held osb.Holding, there broker.There, made string) string {
	return walks.Life{
		Record: it.record, IsOrdered: it.isThere, Holding: held, There: there.String(), IsBinding: it.key.IsBinding,
		Recorded: credentialsOf(it.object), Made: made,
	}.String()
}

// ---- what happens at the broker

// noteAnswer is called after a request was handled and its process wasn't killed. It numbers the answer.
func (w *walk) noteAnswer(visit *visit, given *numberedAnswer) {
	course := w.lives[visit.of]
	switch {
	case visit.isFetch:
		if given.status == 200 {
			given.at = course.fetched
			course.fetched++
			w.event(visit.of, "fetch")
		}
		return
	case course.waits == visit: // nobody knows how its work went
		course.waits = nil
		w.gives(visit)
		w.event(visit.of, "end-unknown")
	case !visit.isGiven: // nothing was changed
		w.gives(visit)
		w.event(visit.of, fmt.Sprintf("arrive %d", visit.attempt))
	}
	given.at = visit.at
}

// gives numbers the answer to a request.
func (w *walk) gives(visit *visit) {
	course := w.lives[visit.of]
	visit.at, visit.isGiven = course.given, true
	course.given++
}

// noteCrash is called after a process was killed, with the request that it handled, or nil. The model has one broker.
// In each life it crashes by itself: here in all lives but those whose request waits at another process.
func (w *walk) noteCrash(dead *visit) {
	for _, life := range w.world.all() {
		course := w.lives[life.key]
		if course.waits == nil || course.waits == dead {
			course.waits = nil
			w.event(life.key, "crash-broker")
		}
	}
}

// noteChange is called after a change of what is held was committed, with the request of the process that has changed
// it, or nil.
func (w *walk) noteChange(visit *visit, key broker.Key, before, after osb.Holding) {
	course := w.lives[key]
	old, wasHeld := before.Row()
	row, isHeld := after.Row()
	_, wasPending := before.Work()
	_, isPending := after.Work()
	if visit != nil && !wasPending {
		w.noteBeginning(visit, key)
	}
	switch {
	case !wasPending && isPending:
		course.waits = visit
		w.event(key, fmt.Sprintf("arrive %d", visit.attempt))
	case wasPending:
		w.noteEnd(visit, course)
		w.event(key, "end "+w.outcome(key, before, after))
	case wasHeld && old.Phase == osb.PhaseWaiting && isHeld && row.Phase == osb.PhaseFailed:
		w.event(key, "give-up-waiting")
	case wasHeld && (old.Phase == osb.PhaseMaking || old.Phase == osb.PhaseDeleting):
		ok := !isHeld || row.Phase == osb.PhaseReady
		w.event(key, map[bool]string{true: "finish ok", false: "finish failed"}[ok])
	default: // it was answered at once: a tombstone, a row that waits, or the first Poll
		w.gives(visit)
		w.event(key, fmt.Sprintf("arrive %d", visit.attempt))
	}
}

// noteBeginning is called after a request has begun something. A binding that another's request deletes is one whose
// creation has failed.
func (w *walk) noteBeginning(visit *visit, key broker.Key) {
	if visit.of == key {
		w.world.expected.begins(visit.message)
	} else {
		w.world.expected.beginsItself(key)
	}
}

// noteEnd is called once the work of a life has ended, with the request that has done it, or nil. It is the work of the
// request that waits for its end, or of one whose process has died.
func (w *walk) noteEnd(visit *visit, course *course) {
	if visit != course.waits {
		w.world.t.Fatalf("seed %d: got the end of the work of %+v by %+v, want only its own", w.world.seed, course.waits, visit)
	}
	if visit != nil {
		w.gives(visit)
	}
	course.waits = nil
}

// outcome is the one with which the library ends the work so.
func (w *walk) outcome(key broker.Key, before, after osb.Holding) string {
	mode := modeOf(w.world.plan, key.IsBinding)
	for _, test := range []struct {
		outcome osb.Outcome
		word    string
	}{{osb.OutcomeDone, "done"}, {osb.OutcomeBefore, "before"}, {osb.OutcomeRefused422, "refused 422"}} {
		if ended, _, err := before.End(mode, test.outcome); err == nil && ended == after {
			return test.word
		}
	}
	w.world.t.Fatalf("got no outcome that ends %v as %v, want one", before, after)
	return ""
}

// noteWork is called after the backend has changed a resource.
func (w *walk) noteWork(key broker.Key, there broker.There, credentials string) {
	word := there.String()
	if key.IsBinding && there == broker.Whole {
		word += " " + walks.NumberOf(credentials)
	}
	w.event(key, "work "+word)
}
