package schedule

import (
	"fmt"
	"runtime"
	"strings"
	"testing"

	"pippinterm/internal/diff"
)

// A counter is a World in which two runners each add one to a number: in one commit, or by reading and then writing it.
type counter struct {
	*Scheduler
	isAtomic bool
	number   int
	ends     map[int]bool // gets the number at the end of each schedule
}

func (c *counter) Begin() {
	for n := 0; n < 2; n++ {
		c.Start(c.add)
	}
}

func (c *counter) add(r *Runner) {
	r.At("read")
	read := c.number
	r.Saw(read)
	if c.isAtomic {
		if how := r.At(Commit, Fails, Unsure, Dies); how != "" {
			c.end(r, read, how)
			return
		}
	} else {
		r.At("write")
	}
	c.number = read + 1
}

// end ends a commit in another way.
func (c *counter) end(r *Runner, read int, how string) {
	switch how {
	case Unsure.Name:
		c.Doubts = append(c.Doubts, doubt{r, c, read + 1})
	case Dies.Name:
		r.Die()
		runtime.Goexit()
	}
}

type doubt struct {
	of     *Runner
	world  *counter
	number int
}

func (d doubt) Of() *Runner { return d.of }

func (d doubt) Write() { d.world.number = d.number }

func (d doubt) String() string { return fmt.Sprint(d.number) }

func (c *counter) IsEnabled(r *Runner) bool { return !c.IsInDoubt(r) }

func (c *counter) Events() []Choice { return nil }

func (c *counter) Accidents(*Runner) []Choice { return nil }

func (c *counter) Died(*Runner) {}

func (c *counter) State() string { return fmt.Sprint(c.number) }

func (c *counter) Finish() {
	c.ends[c.number] = true
	if c.number < 2-c.Used {
		c.Fail("%d", c.number)
	}
}

func counting(isAtomic bool, ends map[int]bool) Scenario {
	return Scenario{Begin: func() *Scheduler {
		c := &counter{isAtomic: isAtomic, ends: ends}
		c.Scheduler = New(c)
		return c.Scheduler
	}}
}

// What is read and written in two calls is lost if another runner goes on in between. The schedule becomes as short as
// it can be, and runs again. A step that it doesn't have is missing.
func TestLostAddition(t *testing.T) {
	of := counting(false, map[int]bool{})
	failed, _, _ := of.explore(Faults{})
	shortest, wrong := of.shorten(Faults{}, failed)
	diff.Equal(t, strings.Join(shortest, " ")+": "+wrong, "2: 1", "the schedule")
	whole, wrong, missing := of.follow(Faults{}, []string{"2", "3", "1"})
	diff.Equal(t, strings.Join(whole, " ")+": "+wrong+", "+missing, "2 1 1 2: 1, 3", "the whole schedule")
}

// Of what is one step with the call before, nothing is lost but what a fault takes away. All ends are tried.
func TestAtomicAdditions(t *testing.T) {
	for most, want := range []map[int]bool{{2: true}, {1: true, 2: true}, {0: true, 1: true, 2: true}} {
		ends := map[int]bool{}
		failed, _, _ := counting(true, ends).explore(MostOf(1, most))
		diff.Check(t, failed, []string(nil), "%d faults", most)
		diff.Check(t, ends, want, "the ends with %d faults", most)
	}
}

// Once something is wrong, a runner doesn't go on.
func TestRunUntilSomethingIsWrong(t *testing.T) {
	c := &counter{}
	c.Scheduler = New(c)
	steps := 0
	r := c.Start(func(r *Runner) {
		for ; steps < mostSteps; steps++ {
			r.At("read")
			c.Fail("%d is wrong", c.number)
		}
	})
	c.RunUntil(r, "")
	diff.Equal(t, fmt.Sprint(steps, " ", r.IsOver, " ", c.Wrong), "1 true 0 is wrong", "the steps, and what is wrong")
}
