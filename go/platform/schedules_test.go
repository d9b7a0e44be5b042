//go:build crashpoints

package platform

import (
	"encoding/json"
	"math/rand"
	"os"
	"sort"
	"strconv"
	"strings"
	"testing"
	"time"

	"pippinterm/internal/diff"
	"pippinterm/internal/schedule"
	"pippinterm/internal/walks"
	"pippinterm/osb"
)

// A scenario is what a simulation begins with: a plan, the settings, what is recorded, and the tasks.
type scenario struct {
	text      string
	plan      string
	catalogue *Catalogue
	hold      time.Duration
	tries     int
	tick      time.Duration // that passes at once
	most      time.Duration // that passes
	tasks     []string
	begun     *simulation // in which it has come about, once it has
	to        *walks.Writer

	generation int // of the names of workers and of ids: 1 until it has come about, and 2 from then on
}

// How what is recorded at the beginning came about: tasks, of which some are killed at a call.
var beginnings = map[string]string{
	"nothing":       "",
	"ordered":       "order",
	"claimed":       "order step@send minute minute",
	"sent":          "order step@hear minute minute",
	"answered":      "order step@change",
	"polling":       "order step minute",
	"ready":         "order settle",
	"removing":      "order settle remove",
	"cleaning":      "order settle remove step@change minute minute",
	"deleting":      "order settle remove step minute",
	"gone":          "order settle minute minute minute remove step minute minute",
	"bind-ordered":  "order settle bind",
	"bind-sent":     "order settle bind step@hear minute minute",
	"bind-polling":  "order settle bind step minute",
	"bound":         "order settle bind settle",
	"unbinding":     "order settle bind settle remove-binding",
	"removing-all":  "order settle bind settle remove-all",
	"bind-answered": "order settle bind step@change",
}

// everyBeginning returns the words of all beginnings, in order.
func everyBeginning() (words []string) {
	for word := range beginnings {
		words = append(words, word)
	}
	sort.Strings(words)
	return words
}

// commands are those of an operator.
var commands = []string{
	"bind", "remove", "remove-binding", "remove-all", "retry", "retry-binding", "abandon", "abandon-binding",
}

// everyPair returns the scenarios of a worker beside another one or beside any command.
func everyPair(from string) []string {
	texts := []string{from + ": step + step"}
	for _, command := range commands {
		texts = append(texts, from+": step + "+command)
	}
	return texts
}

// pairs are the scenarios of which all schedules are run.
var pairs = []string{
	"now from ordered: step + step",
	"now slowly from ordered: step + remove",
	"now from ordered: step + abandon",
	"now from sent: step + step",
	"now from answered: step + remove",
	"now from removing: step + bind",
	"now from cleaning: step + retry",
	"now hold from claimed: step + step",
	"now hold from gone: step + step",
	"now tries from ordered: step + remove",
	"later from polling: step",
	"later from deleting: step + retry",
	"now from ready: bind + remove",
	"now from bind-ordered: step + step",
	"now from bind-ordered: step + remove",
	"now tries from bind-ordered: step + remove-all",
	"now from bind-ordered: step + remove-binding",
	"now from bind-answered: step + abandon-binding",
	"now from unbinding: step + retry-binding",
	"now from removing-all: step + step",
	"later from bind-polling: step + step",
	"bind-later from bind-sent: step",
	"make-later from removing-all: step + step",
}

// scenarioOf reads the text of a scenario, such as `later hold from polling: step + remove`. Its walks are written by a
// Writer, or by nil.
func scenarioOf(t *testing.T, text string, most time.Duration, to *walks.Writer) scenario {
	t.Helper()
	head, tasks, _ := strings.Cut(text, ": ")
	words, from, _ := strings.Cut(head, " from ")
	s := scenario{
		text: text, plan: strings.Fields(words)[0], catalogue: diff.Value(ReadCatalogue([]byte(sold)))(t), tries: 1,
		tick: time.Minute, most: most, generation: 1, to: to,
	}
	if strings.Contains(words, "slowly") {
		s.tick = 40 * time.Second
	}
	if strings.Contains(words, "hold") {
		s.hold = 90 * time.Second
	}
	if strings.Contains(words, "tries") {
		s.tries = 2
	}
	begun := newSimulation(s)
	for _, word := range strings.Fields(beginnings[from]) {
		begun.begin(word)
	}
	diff.Equal(t, begun.Wrong, "", "the beginning of %q", text)
	s.begun, s.generation, s.tasks = begun, 2, strings.Split(tasks, " + ")
	return s
}

// begin does a word of a beginning.
func (s *simulation) begin(word string) {
	switch task, until, _ := strings.Cut(word, "@"); task {
	case "minute":
		s.passed += time.Minute
	case "settle":
		s.settle()
	default:
		s.RunUntil(s.start(task).Runner, until)
	}
}

// newSimulation is a simulation at the beginning of a scenario.
func newSimulation(of scenario) *simulation {
	s := &simulation{
		scenario: of, seller: newSeller(), numbers: map[osb.ID]string{}, sent: map[osb.ID]bool{},
		had: map[Key]map[State]bool{}, abandoned: map[Key]osb.ID{},
	}
	s.Scheduler, s.store = schedule.New(s), newMemory(s.now)
	s.store.brokers["shelf"] = Broker{
		Name: "shelf", URL: "https://broker.example", Catalogue: json.RawMessage(sold), Settings: Settings{Hold: &of.hold},
	}
	s.walk = newWalk(s)
	if begun := of.begun; begun != nil {
		s.passed, s.network = begun.passed, append([]Outgoing(nil), begun.network...)
		for key, e := range begun.store.rows {
			s.store.rows[key], s.numbers[e.Number] = e, ""
		}
		fill(s.sent, begun.sent)
		s.seller.made = begun.seller.made
		fill(s.seller.holdings, begun.seller.holdings)
		fill(s.seller.requests, begun.seller.requests)
		fill(s.seller.things, begun.seller.things)
		fill(s.seller.objects, begun.seller.objects)
		s.most = s.passed + of.most
		s.walk.goOn(begun.walk)
	}
	return s
}

func fill[K comparable, V any](to, from map[K]V) {
	for key, value := range from {
		to[key] = value
	}
}

// schedules are those of the scenario.
func (s scenario) schedules() schedule.Scenario {
	return schedule.Scenario{Text: s.text, Package: "./platform", Begin: func() *schedule.Scheduler {
		begun := newSimulation(s)
		begun.Ended = func() { begun.walk.write(s.to) }
		return begun.Scheduler
	}}
}

// TestEverySchedule runs all schedules of a pair with one fault at most, or with as many as FAULTS says. Each kind of
// fault happens once at most. Two minutes pass at most. If PLANS names plans, such as "now,later hold", it also runs a
// worker beside another one or beside any command, from each beginning.
func TestEverySchedule(t *testing.T) {
	schedule.WithoutCrashes(t)
	texts, to := pairs, walks.NewWriter(t)
	if plans := os.Getenv("PLANS"); plans != "" {
		for _, plan := range strings.Split(plans, ",") {
			for _, beginning := range everyBeginning() {
				texts = append(texts, everyPair(plan+" from "+beginning)...)
			}
		}
	}
	for _, text := range texts {
		t.Run(text, func(t *testing.T) { scenarioOf(t, text, 2*time.Minute, to).schedules().Check(t, 1) })
	}
}

// TestRandomSchedules runs schedules by chance, as many as SEEDS says, with more runners and more faults. Like those of
// TestEverySchedule, their events are written, and compared with the proved model.
func TestRandomSchedules(t *testing.T) {
	schedule.WithoutCrashes(t)
	seeds, to := 400, walks.NewWriter(t)
	if n, err := strconv.Atoi(os.Getenv("SEEDS")); err == nil {
		seeds = n
	}
	for seed := 0; seed < seeds && !t.Failed(); seed++ {
		chance := rand.New(rand.NewSource(int64(seed)))
		scenarioOf(t, anyScenario(chance), 8*time.Minute, to).schedules().CheckAny(t, schedule.MostOf(3, 6), chance)
	}
}

// anyScenario is a scenario by chance: one of two runners, or of more.
func anyScenario(chance *rand.Rand) string {
	if chance.Intn(4) == 0 {
		return pairs[chance.Intn(len(pairs))]
	}
	one := func(of ...string) string { return of[chance.Intn(len(of))] }
	tasks := make([]string, 3+chance.Intn(4))
	for n := range tasks {
		tasks[n] = one(append([]string{"step", "step", "steps", "steps"}, commands...)...)
	}
	return one(planNames...) + one(" slowly", "") + one(" hold", "", "") + one(" tries", "") + " from " + one(everyBeginning()...) +
		": " + strings.Join(tasks, " + ")
}

// TestSchedule runs the schedule that SCHEDULE has, and logs all of its steps. Without the variable it runs a few: a
// worker that dies while it sends, an answer that comes after the lease, a claim that nobody knows of, an answer that
// isn't written before an operator gives the request up, a last deletion that an operator wants again, or abandons,
// before it leaves, and an abandoned instance that its binding has woken.
func TestSchedule(t *testing.T) {
	texts := []string{
		"now from ordered: step + step | 1 1-dies",
		"now from ordered: step + step | 1 1 1 1 time-passes time-passes 2",
		"now from ordered: step + step | 1 1-is-unsure unwritten-1 2",
		"now from cleaning: step + retry | 1 1 1 1 1 1-fails time-passes time-passes 2",
		"now hold from gone: step + retry | 1 1 2",
		"now hold from gone: step + abandon | 1 1 2 2",
		"now from bind-ordered: remove + abandon + step + retry | 1 1 2 2 3 3",
	}
	schedule.WithoutCrashes(t)
	schedule.CheckEach(t, texts, func(t *testing.T, text string) schedule.Scenario {
		return scenarioOf(t, text, 8*time.Minute, nil).schedules()
	})
}
