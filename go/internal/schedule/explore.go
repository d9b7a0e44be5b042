package schedule

import (
	"fmt"
	"math/rand"
	"os"
	"runtime/debug"
	"strconv"
	"strings"
	"testing"

	"pippinterm/internal/crash"
	"pippinterm/internal/diff"
)

// WithoutCrashes has no crash point do anything until the test ends.
func WithoutCrashes(t *testing.T) {
	before := crash.Hook
	crash.Hook = func(string) {}
	t.Cleanup(func() { crash.Hook = before })
}

// A Scenario is what schedules begin with.
type Scenario struct {
	Text    string            // which one it is
	Package string            // of the tests, such as ./broker
	Begin   func() *Scheduler // a new Scheduler at the beginning of it
}

// state is all on which it depends what can still happen, and what is wrong then.
//
// A goroutine can't be looked into. But what it does is a function of what its calls have returned: a runner shares
// nothing else, has no clock, and of its random numbers only their equality counts. So if two runs have the same world,
// and their runners have seen the same, whatever happens to the one can happen to the other, and the second needn't go
// on. That is why the history of a runner is in the state, and not only its call. Of a runner that is over nothing
// counts.
func (s *Scheduler) state() string {
	var text strings.Builder
	for _, r := range s.Runners {
		if r.IsOver {
			text.WriteString("-;")
			continue
		}
		text.WriteString(r.History + r.Call.Name + ";")
	}
	for _, it := range s.Doubts {
		fmt.Fprint(&text, it.Of().Number, it, ";")
	}
	fmt.Fprint(&text, s.left, s.world.State())
	return text.String()
}

// explore runs all schedules of a scenario with so many faults: each choice in each state, and what usually happens
// after it. It returns the first schedule that fails, or none, and how many states there are and runs were needed.
func (of Scenario) explore(most Faults) (failed []string, states, runs int) {
	seen, ends := map[string]bool{}, map[string]bool{}
	waiting := [][]uint8{nil}
	for ; len(waiting) > 0; runs++ {
		prefix := waiting[len(waiting)-1]
		waiting = waiting[:len(waiting)-1]
		var path []uint8
		s := of.Begin()
		schedule := s.Run(most, func(choices []Choice) int {
			at := 0
			switch {
			case len(choices) == 0:
				if !isNew(ends, s.state()) {
					return -1
				}
			case len(path) < len(prefix):
				at = int(prefix[len(path)])
			case len(choices) > 1:
				if !isNew(seen, s.state()) {
					return -1
				}
				for n := len(choices) - 1; n > 0; n-- {
					waiting = append(waiting, append(append([]uint8(nil), path...), uint8(n)))
				}
			}
			path = append(path, uint8(at))
			return at
		})
		if s.Wrong != "" {
			return schedule, len(seen), runs
		}
	}
	return nil, len(seen), runs
}

// isNew reports whether a state wasn't seen yet.
func isNew(seen map[string]bool, state string) bool {
	before := len(seen)
	seen[state] = true
	return len(seen) > before
}

// Check runs all schedules of a scenario, with so many faults at most, or with as many as FAULTS says. Each kind of fault
// happens once at most.
func (of Scenario) Check(t *testing.T, count int) {
	t.Helper()
	if text := os.Getenv("FAULTS"); text != "" {
		count = diff.Value(strconv.Atoi(text))(t)
	}
	defer debug.SetGCPercent(debug.SetGCPercent(400)) // runs keep little
	most := MostOf(1, count)
	failed, states, runs := of.explore(most)
	t.Logf("%d states, %d runs", states, runs)
	if failed != nil {
		of.report(t, most, failed)
	}
}

// CheckAny runs a schedule of a scenario by chance, with so many faults at most.
func (of Scenario) CheckAny(t *testing.T, most Faults, chance *rand.Rand) {
	t.Helper()
	s := of.Begin()
	schedule := s.Run(most, func(choices []Choice) int { return anyChoice(chance, choices) })
	if s.Wrong != "" {
		of.report(t, most, schedule)
	}
}

// anyChoice is a choice by chance. One in six is a fault, if there can be one.
func anyChoice(chance *rand.Rand, choices []Choice) int {
	wantsFault := chance.Intn(6) == 0
	var found []int
	for at, it := range choices {
		if (it.What.Kind != Usual) == wantsFault {
			found = append(found, at)
		}
	}
	if len(found) == 0 {
		return 0
	}
	return found[chance.Intn(len(found))]
}

// follow runs a schedule, and then what usually happens. A step that can't be taken is left out, and the first one is
// returned as missing. It returns all steps that were taken, and what is wrong.
func (of Scenario) follow(most Faults, wanted []string) (schedule []string, wrong, missing string) {
	s := of.Begin()
	schedule = s.Run(most, func(choices []Choice) int {
		for ; len(wanted) > 0; wanted = wanted[1:] {
			for at, it := range choices {
				if it.String() == wanted[0] {
					wanted = wanted[1:]
					return at
				}
			}
			if missing == "" {
				missing = wanted[0]
			}
		}
		return 0
	})
	return schedule, s.Wrong, missing
}

// shorten leaves out steps of a schedule while it still fails. It returns what is wrong then, too.
func (of Scenario) shorten(most Faults, schedule []string) (shortest []string, wrong string) {
	_, wrong, _ = of.follow(most, schedule)
	for length := len(schedule); length > 0; length /= 2 {
		for at := 0; at+length <= len(schedule); {
			shorter := append(append([]string(nil), schedule[:at]...), schedule[at+length:]...)
			if _, still, _ := of.follow(most, shorter); still != "" {
				schedule, wrong = shorter, still
			} else {
				at++
			}
		}
	}
	return schedule, wrong
}

// report fails a test with a schedule, as short as it becomes.
func (of Scenario) report(t *testing.T, most Faults, schedule []string) {
	t.Helper()
	shortest, wrong := of.shorten(most, schedule)
	t.Errorf("got %s; want what the model has. To run it again:\n"+
		"SCHEDULE='%s | %s' scripts/go test -tags 'libsqlite3 crashpoints' -v -run TestSchedule %s",
		wrong, of.Text, strings.Join(shortest, " "), of.Package)
}

// CheckEach runs the schedule that SCHEDULE has, or each of these, and logs all of its steps. Such a text is that of a
// scenario, which is read by the function, and the steps.
func CheckEach(t *testing.T, texts []string, read func(t *testing.T, text string) Scenario) {
	if text := os.Getenv("SCHEDULE"); text != "" {
		texts = []string{text}
	}
	for _, text := range texts {
		t.Run(text, func(t *testing.T) {
			scenario, steps, _ := strings.Cut(text, " | ")
			schedule, wrong, missing := read(t, scenario).follow(MostOf(9, 99), strings.Fields(steps))
			t.Log(strings.Join(schedule, " "))
			diff.Equal(t, missing, "", "a step that can't be taken")
			diff.Equal(t, wrong, "", "what is wrong")
		})
	}
}
