//go:build crashpoints

package broker_test

import (
	"fmt"
	"math/rand"
	"os"
	"sort"
	"strconv"
	"strings"
	"testing"
	"time"

	"pippinterm/broker"
	"pippinterm/internal/diff"
	"pippinterm/internal/schedule"
	"pippinterm/internal/walks"
	"pippinterm/osb"
)

// A scenario is what a simulation begins with: a plan and the rules, what exists, and the drivers.
type scenario struct {
	text         string
	service      *broker.Service
	plan         osb.Plan
	firstPoll    bool
	hasPowerCuts bool
	tasks        []broker.Visit
	begun        *simulation    // in which it has come about, once it has
	walk         *simulatedWalk // of what happened until then, or nil
	to           *walks.Writer
}

// simulatedKeys are those of the instance and its bindings.
var simulatedKeys = []broker.Key{
	osb.InstanceKey(id("1")), osb.BindingKey(id("1"), id("b1")), osb.BindingKey(id("1"), id("b2")),
}

// How what exists at the beginning came about: tasks, of which some are killed at a call.
var beginnings = map[string]string{
	"nothing":    "",
	"pending":    "provision@look",
	"part":       "provision@create-half",
	"unsynced":   "provision@create-end",
	"ready":      "provision poll take-up",
	"undeleted":  "provision poll take-up deprovision@delete-end",
	"making":     "provision",
	"waiting":    "provision",
	"deleting":   "provision poll take-up deprovision@look",
	"bound":      "provision poll take-up bind poll-1 take-up-1",
	"half-bound": "provision poll take-up bind@create-half",
	"unbinding":  "provision poll take-up bind poll-1 take-up-1 unbind@look",
	"two-bound":  "provision poll take-up bind poll-1 take-up-1 bind-2 poll-2 take-up-2",
}

// How what exists at the beginning of the scenarios of updates came about.
var updateBeginnings = map[string]string{
	"updated":  "provision poll take-up update take-up",
	"updating": "provision poll take-up update@update-half",
	"late":     "provision poll take-up update@look",
	"synced":   "provision poll take-up update@update-end",
	"failed":   "provision poll take-up",
	"other":    "provision poll take-up update-3 take-up",

	"other-late": "provision poll take-up update-3@look",
}

// everyBeginning returns the words of all beginnings, in order.
func everyBeginning() (words []string) {
	for word := range beginnings {
		words = append(words, word)
	}
	sort.Strings(words)
	return words
}

// pairs are the scenarios of two drivers.
var pairs = []string{
	"sync from nothing: provision + provision",
	"sync from nothing: provision + deprovision",
	"sync from ready: deprovision + deprovision",
	"sync from ready: provision + deprovision",
	"sync from pending: take-up + take-up",
	"sync from pending: provision + take-up",
	"sync power-cuts from part: deprovision + take-up",
	"sync power-cuts from unsynced: provision + take-up",
	"sync power-cuts from undeleted: deprovision + take-up",
	"async from nothing: provision + provision",
	"async from nothing: provision + deprovision",
	"async from making: take-up + take-up",
	"async from making: take-up + deprovision",
	"async from ready: deprovision + deprovision",
	"async from deleting: take-up + poll",
	"async first-poll from nothing: provision + provision",
	"async first-poll from waiting: poll + poll",
	"async first-poll from waiting: poll + take-up",
	"async first-poll from waiting: poll + deprovision",
	"sync from ready: bind + bind",
	"sync from ready: bind + deprovision",
	"sync from bound: bind + unbind",
	"sync from bound: unbind + deprovision",
	"sync from half-bound: bind + take-up-1",
	"sync from half-bound: take-up-1 + deprovision",
	"sync knowing from half-bound: take-up-1 + unbind",
	"binds-async from ready: bind + deprovision",
	"makes-async from ready: bind + deprovision",
	"async from ready: bind + deprovision",
}

// tasks are all that a driver carries out of an instance and its first binding.
var tasks = []string{"provision", "poll", "deprovision", "take-up", "bind", "poll-1", "unbind", "take-up-1"}

// everyPair returns the scenarios of any two drivers of an instance and its binding.
func everyPair(from string) (texts []string) {
	for n, first := range tasks {
		for _, second := range tasks[n:] {
			texts = append(texts, from+": "+first+" + "+second)
		}
	}
	return texts
}

// plansOr returns the plans that PLANS names, or these.
func plansOr(plans string) []string {
	if given := os.Getenv("PLANS"); given != "" {
		plans = given
	}
	return strings.Split(plans, ",")
}

// taskWords are what a driver carries out, of the instance; those of a binding end in its number.
var taskWords = map[string]osb.Kind{
	"provision": osb.KindProvision, "bind": osb.KindProvision, "poll": osb.KindPoll, "take-up": osb.KindNone,
	"deprovision": osb.KindDeprovision, "unbind": osb.KindDeprovision,
}

// scenarioOf reads the text of a scenario, such as `async first-poll from waiting: poll + take-up`. Its walks are
// written by a Writer, or by nil.
func scenarioOf(t *testing.T, catalogue *broker.Catalogue, text string, to *walks.Writer) scenario {
	t.Helper()
	head, tasks, _ := strings.Cut(text, ": ")
	words, from, _ := strings.Cut(head, " from ")
	plan := map[string]string{"sync": now, "async": later, "binds-async": bindLater, "makes-async": "c4"}
	s := scenario{
		text: text, to: to,
		plan:      osb.Plan{Service: id("a0"), Plan: id(plan[strings.Fields(words)[0]])},
		firstPoll: strings.Contains(words, "first-poll"), hasPowerCuts: strings.Contains(words, "power-cuts"),
	}
	var backend broker.Backend = simulatedBackend{}
	if strings.Contains(words, "knowing") {
		backend = simulatedKnowingBackend{} // it can tell the credentials of what exists
	}
	if strings.Contains(text, "update") || updateBeginnings[from] != "" {
		backend = simulatedUpdatingBackend{}
	}
	options := broker.ServiceOptions{FirstPoll: s.firstPoll, WaitForPoll: time.Minute}
	s.service = broker.NewService(catalogue, simulatedStore{}, backend, simulatedLocks{}, options, broker.Silent{})
	for _, word := range strings.Split(tasks, " + ") {
		s.tasks = append(s.tasks, s.task(t, word))
	}
	if to != nil {
		s.walk = newSimulatedWalk(s)
	}
	begun := newSimulation(s)
	s.walk.follow(begun)
	for _, word := range strings.Fields(beginnings[from] + updateBeginnings[from]) {
		name, until, _ := strings.Cut(word, "@")
		task := s.task(t, name)
		s.walk.send(task)
		begun.runUntil(task, until)
	}
	if from == "failed" {
		begun.failUpdate()
	}
	diff.Equal(t, begun.Wrong, "", "the beginning of %q", text)
	s.begun = begun
	return s
}

// task reads the word of a task.
func (s scenario) task(t *testing.T, word string) broker.Visit {
	t.Helper()
	switch {
	case strings.HasPrefix(word, "update"):
		return s.update(t, word)
	case strings.HasPrefix(word, "provision-"):
		return s.provision(t, word)
	case strings.HasPrefix(word, "other-"):
		visit := s.task(t, strings.TrimPrefix(word, "other-"))
		visit.Asked.Plan = s.otherPlan()
		return visit
	}
	kind, isKnown := taskWords[word]
	number := strings.Count(word, "bind")
	if at := len(word) - 2; !isKnown && at > 0 {
		kind, isKnown = taskWords[word[:at]]
		number = int(word[at+1] - '0')
	}
	if !isKnown || number >= len(simulatedKeys) {
		t.Fatalf("got the task %q, want a request or a take-up", word)
	}
	return visitOfKey(simulatedKeys[number], kind, s.plan)
}

func visitOfKey(key broker.Key, kind osb.Kind, plan osb.Plan) broker.Visit {
	return broker.Visit{Key: key, Asked: osb.Asked{
		Kind: kind, AcceptsIncomplete: true, HasService: true, HasPlan: true,
		ID: key.ID(), Service: plan.Service, Plan: plan.Plan,
	}}
}

// newSimulation is a simulation at the beginning of a scenario.
func newSimulation(of scenario) *simulation {
	s := &simulation{
		scenario: of, rows: map[broker.Key]broker.Entry{}, things: map[broker.Key]simulatedThing{},
		holders: map[broker.Key]*simulatedLock{}, workers: map[broker.Key]int{}, numbers: map[osb.ID]int{},
	}
	s.Scheduler = schedule.New(s)
	if of.begun != nil {
		for _, key := range simulatedKeys {
			s.rows[key], s.things[key] = of.begun.rows[key], of.begun.things[key]
			s.numbers[s.rows[key].Worker] = 0
		}
	}
	return s
}

// runUntil runs a driver to its end, or kills it at a call.
func (s *simulation) runUntil(task broker.Visit, call string) { s.RunUntil(s.start(task).Runner, call) }

// entryWords are what counts of an entry, as a runner sees it, which compares the number with its own alone, or with
// nil as all see it. All else is the same in all simulations of a scenario.
func (s *simulation) entryWords(as *runner, entry broker.Entry) string {
	worker := s.numbers[entry.Worker]
	if as != nil && worker != as.Number || worker > 0 && s.runners[worker-1].IsOver {
		worker = 0
	}
	return fmt.Sprint(walks.HoldingWords(entry.Holding), worker, string(entry.Binding), entry.Description, entry.Since.IsZero(),
		changeOf(entry))
}

// State is what exists and is locked, and what the drivers are answered.
func (s *simulation) State() string {
	var text strings.Builder
	for _, key := range simulatedKeys {
		thing, holder, worker := s.things[key], 0, s.workers[key]
		if lock := s.holders[key]; lock != nil {
			holder = lock.of.Number
		}
		if worker > 0 && s.runners[worker-1].IsOver {
			worker = -1
		}
		fmt.Fprint(&text, s.entryWords(nil, s.rows[key]), thing, holder, " ", worker, ";")
	}
	for _, r := range s.runners {
		if !r.IsOver {
			fmt.Fprint(&text, r.answered, r.ended, r.object, r.lock != nil && r.lock.isLost, ";")
		}
	}
	fmt.Fprint(&text, s.isLater, s.stepping != nil)
	return text.String()
}

// ---- the tests

// schedules are those of the scenario.
func (s scenario) schedules() schedule.Scenario {
	return schedule.Scenario{Text: s.text, Package: "./broker", Begin: func() *schedule.Scheduler {
		begun, walk := newSimulation(s), s.walk.copied()
		walk.follow(begun)
		for _, task := range s.tasks {
			walk.send(task)
		}
		begun.Ended = func() { walk.write(s.to) }
		return begun.Scheduler
	}}
}

// TestEverySchedule runs all schedules of two drivers with one fault at most, of the first pair and of those with power
// cuts with two, or with as many as FAULTS says. Each kind of fault happens once at most. Beside the pairs, it runs any
// two tasks of an instance and its binding from each beginning, with the plans that PLANS names, such as
// "async first-poll,binds-async".
func TestEverySchedule(t *testing.T) {
	schedule.WithoutCrashes(t)
	catalogue, to := catalogueFor(t, catalogue), walks.NewWriter(t)
	texts := pairs
	for _, beginning := range everyBeginning() {
		for _, plan := range plansOr("sync,async") {
			texts = append(texts, everyPair(plan+" from "+beginning)...)
		}
	}
	for n, text := range texts {
		count := 1
		if n == 0 || strings.Contains(text, "power-cuts") {
			count = 2
		}
		t.Run(text, func(t *testing.T) {
			scenarioOf(t, catalogue, text, to).schedules().Check(t, count)
		})
	}
}

// TestRandomSchedules runs schedules by chance, as many as SEEDS says, with more drivers and more faults. Their events
// are written to the file that WALKS names, and compared with the proved model.
func TestRandomSchedules(t *testing.T) {
	schedule.WithoutCrashes(t)
	catalogue, most, to := catalogueFor(t, catalogue), schedule.MostOf(3, 6), walks.NewWriter(t)
	for seed := int64(0); seed < seedsOr(400) && !t.Failed(); seed++ {
		chance := rand.New(rand.NewSource(seed))
		scenarioOf(t, catalogue, anyScenario(chance), to).schedules().CheckAny(t, most, chance)
	}
}

// anyScenario is a scenario by chance: one of two drivers, or of more.
func anyScenario(chance *rand.Rand) string {
	if chance.Intn(4) == 0 {
		return pairs[chance.Intn(len(pairs))]
	}
	one := func(of ...string) string { return of[chance.Intn(len(of))] }
	text := one("sync", "async", "binds-async", "makes-async") + one(" first-poll", "", "") + one(" knowing", "") +
		one(" power-cuts", "", "")
	tasks := make([]string, 3+chance.Intn(4))
	for n := range tasks {
		tasks[n] = one("provision", "deprovision", "poll", "take-up", "take-up", "bind", "unbind", "poll-1",
			"take-up-1", "bind-2", "unbind-2", "take-up-2")
	}
	return text + " from " + one(everyBeginning()...) + ": " + strings.Join(tasks, " + ")
}

// TestSchedule runs the schedule that SCHEDULE has, and logs all of its steps. Without the variable it runs a few: a
// process that dies at its work, a tombstone of which nobody knows, a power cut once the work was taken over, a worker
// that doesn't know whether it has written the end, while another one has its lock and has begun a deletion, and a
// deletion that ends the work of a creation before its own.
func TestSchedule(t *testing.T) {
	texts := []string{
		"sync from nothing: provision + provision | 1 1 1 1-dies",
		"async first-poll from waiting: poll + deprovision | 2 2 2-is-unsure",
		"sync power-cuts from unsynced: provision + take-up | 2 2 2 2 2 2 2 2 2 power-cut",
		"sync from nothing: provision + deprovision | 1 1 1 1 1 1 1 1 1 1-is-unsure 2 written-1 2 2 1-loses-its-lock 2 2",
		"sync from part: deprovision + take-up | 1 1-loses-its-lock 2 2 2 2 2 2 2 2 2 2",
	}
	schedule.WithoutCrashes(t)
	catalogue := catalogueFor(t, catalogue)
	schedule.CheckEach(t, texts, func(t *testing.T, text string) schedule.Scenario {
		return scenarioOf(t, catalogue, text, nil).schedules()
	})
}

// ---- the walks

// A simulatedWalk is a walk of a simulation, in the lines of a walk. Its platform sends what the drivers carry out, and
// takes no answer but a 202, so that it can poll. If a request changes something that no platform sends, the walk ends
// before it.
type simulatedWalk struct {
	*platform
	of     *simulation
	lines  []string
	isOver bool
}

func newSimulatedWalk(of scenario) *simulatedWalk {
	w := &simulatedWalk{}
	w.platform = newPlatform(w, of.plan)
	w.isUnruly = true
	return w
}

// copied is a walk that goes on by itself.
func (w *simulatedWalk) copied() *simulatedWalk {
	if w == nil {
		return nil
	}
	platform, instance := *w.platform, *w.instance
	it := &simulatedWalk{platform: &platform, lines: append([]string(nil), w.lines...), isOver: w.isOver}
	platform.network, platform.instance, platform.bindings = it, &instance, nil
	for _, binding := range w.bindings {
		life := *binding
		platform.bindings = append(platform.bindings, &life)
	}
	platform.sent = append([]outgoingRequest(nil), w.sent...)
	return it
}

// follow has the walk get what happens in a simulation from now on.
func (w *simulatedWalk) follow(of *simulation) {
	if w == nil {
		return
	}
	if w.of, of.note = of, w.happened; len(w.lines) > 0 {
		return
	}
	var orders []string
	for _, key := range simulatedKeys {
		order := modeOf(of.scenario.plan, key.IsBinding).String() + " accepts -"
		if of.scenario.firstPoll {
			order = strings.TrimSuffix(order, "-") + "first-poll"
		}
		orders = append(orders, order)
	}
	w.line("service broker: "+strings.Join(orders, "; "), "new")
}

func (w *simulatedWalk) deliver(outgoingRequest) *numberedAnswer { return nil }

func (w *simulatedWalk) note(it *life, event string) { w.happened(it.key, event, nil) }

// happened is called after an event, with the runner whose request it may be. The model hasn't the arrival of a request
// that no platform sends. If that changes nothing, the walk goes on without it.
func (w *simulatedWalk) happened(key broker.Key, event string, of *runner) {
	if event == "arrive" {
		kind := of.task.Asked.Kind
		isNothing := key.IsBinding && w.of.rows[key].Holding == osb.Holding{}
		if kind == osb.KindDeprovision && isNothing && w.of.rows[simulatedKeys[0]].Holding.HasTombstone() {
			return // the broker writes nothing; the model writes a tombstone, and forgets it
		}
		number := w.attempt(key, kind)
		if number == 0 {
			w.isOver = w.isOver || !strings.HasSuffix(w.lines[len(w.lines)-1], ": "+w.lives())
			return
		}
		event += fmt.Sprint(" ", number)
	}
	name := "instance"
	for n, it := range simulatedKeys {
		if it == key && n > 0 {
			name = fmt.Sprint("binding ", n)
		}
	}
	w.line(name+" "+event, "applied")
}

func (w *simulatedWalk) line(event, what string) {
	if w.isOver {
		return
	}
	w.lines = append(w.lines, walks.Line(event, what, w.lives()))
}

// lives are what is recorded, held and there.
func (w *simulatedWalk) lives() string {
	var lives []string
	for _, key := range simulatedKeys {
		thing, made := w.of.things[key], ""
		if thing.there == broker.Whole {
			made = strconv.Itoa(thing.token)
		}
		lives = append(lives, lifeWords(w.lifeOf(key), w.of.rows[key].Holding, thing.there, made))
	}
	return strings.Join(lives, " | ")
}

// attempt is the number of the latest request of a kind, or 0.
func (w *simulatedWalk) attempt(key broker.Key, kind osb.Kind) (number uint64) {
	method, err := osb.WriteMethod(kind)
	must(err)
	for _, it := range w.sent {
		if it.of == key && it.method == method {
			number = it.attempt
		}
	}
	return number
}

// send has the platform send what a driver carries out, unless it has, or wouldn't.
func (w *simulatedWalk) send(task broker.Visit) {
	kind := task.Asked.Kind
	if w == nil || kind == osb.KindNone {
		return
	}
	it := w.lifeOf(task.Key)
	for n := 0; n < 4 && w.attempt(task.Key, kind) == 0; n++ {
		isPolled := it.record.State() == osb.StatePolling && it.record.InFlight() == osb.KindNone
		row, isHeld := w.of.rows[task.Key].Holding.Row()
		isAnswered := isHeld && (row.Phase == osb.PhaseWaiting || row.Phase == osb.PhaseMaking)
		switch {
		case kind == osb.KindPoll && it.record.InFlight() == osb.KindProvision && isAnswered:
			w.take(it, 1, osb.Answer{Status: 202, Body: osb.BodyEmpty}, nil, "take 0")
		case kind == osb.KindDeprovision && isPolled:
			w.expire(it)
			w.step(it)
		default:
			w.step(it)
		}
	}
}

func (w *simulatedWalk) write(to *walks.Writer) {
	if w != nil {
		to.Write(w.lines)
	}
}
