// Package schedule runs the goroutines of a test one at a time, each from one of its calls to the next: in every order,
// and with all that may come of the calls.
package schedule

import (
	"errors"
	"fmt"
	"runtime"
	"strconv"
)

// A Scheduler has runners, of which one at a time goes on, and only while the Scheduler waits for it. It is chosen who
// goes on, and what comes of the call. So the choices alone, a schedule, say what happens: there is no clock and no
// chance.
//
// A process that dies is a goroutine that ends at its call (runtime.Goexit).
type Scheduler struct {
	Runners []*Runner
	Doubts  []Doubt // in the order of their commits
	Used    int     // faults that have happened
	Wrong   string  // why this can't be, or empty
	Ended   func()  // is called once a run has ended, or nil
	world   World
	left    Faults // that may still happen
	yields  chan struct{}
}

// A World is what the runners of a Scheduler make their calls in.
type World interface {
	// Begin starts the runners.
	Begin()
	// IsEnabled reports whether the call of a runner can go on. If not, it waits for another one.
	IsEnabled(*Runner) bool
	// Events are what can happen beside the runners, and is no fault.
	Events() []Choice
	// Accidents are the faults that can happen to a runner at any call, besides its death. Those of nil happen to all.
	Accidents(*Runner) []Choice
	// Died is called when the process of a runner dies.
	Died(*Runner)
	// State is all on which it depends what can still happen, and what is wrong then, but for what Scheduler.State has.
	State() string
	// Finish is called once all runners are over, and nothing was wrong. There are no faults any more.
	Finish()
}

// A Doubt is a commit that nobody knows of.
type Doubt interface {
	Of() *Runner
	Write()
	String() string
}

// Faults are how often each kind of fault happens at most, and how many faults there are at most in all.
type Faults struct {
	of  [faultKinds]int
	all int
}

// The kinds of faults.
const (
	InDoubt    = iota // nobody knows what became of a commit
	Loss              // a lock or a message is lost
	Death             // a process dies, or a machine loses its power
	Failure           // a call fails
	faultKinds = iota
	Usual      = -1 // the kind of what is no fault
)

// MostOf are so many faults, of each kind and in all.
func MostOf(each, all int) Faults { return Faults{[faultKinds]int{each, each, each, each}, all} }

func (f Faults) has(kind int) bool { return kind == Usual || f.all > 0 && f.of[kind] > 0 }

// A Runner is a goroutine that makes calls.
type Runner struct {
	Number  int    // from 1
	Call    *Call  // at which it is
	History string // all that its calls have returned: what it does next depends on nothing else
	IsOver  bool
	IsDead  bool
	of      *Scheduler
	how     chan string // what becomes of the call
}

// A Call is what a Runner does next, and how else it may end.
type Call struct {
	Name   string
	faults []Fault
}

// Commit is the name of a call that is one step with the one before it: nobody else goes on in between.
const Commit = "commit"

// A Fault is what may come of a call, or may happen, and its kind.
type Fault struct {
	Name string
	Kind int
}

// Faults that calls have in every World.
var (
	Fails  = Fault{"fails", Failure}
	Dies   = Fault{"dies", Death}
	Unsure = Fault{"is-unsure", InDoubt}

	goesOn    = Fault{"", Usual}
	written   = Fault{"written", Usual}
	unwritten = Fault{"unwritten", Usual}
)

// ErrFails is how a call ends that fails.
var ErrFails = errors.New("the simulation has it fail")

// New is a Scheduler without runners.
func New(world World) *Scheduler { return &Scheduler{world: world, yields: make(chan struct{})} }

// Start begins a goroutine, which waits at its first call.
func (s *Scheduler) Start(do func(*Runner)) *Runner {
	r := &Runner{of: s, Number: len(s.Runners) + 1, how: make(chan string)}
	s.Runners = append(s.Runners, r)
	go func() {
		growStack()
		defer func() {
			if what := recover(); what != nil {
				s.Fail("panics: %v", what)
			}
			r.IsOver, r.Call = true, nil
			s.yields <- struct{}{}
		}()
		do(r)
	}()
	<-s.yields
	return r
}

// growStack has a goroutine get its stack at once, and not bit by bit, which takes longer than all else.
func growStack() {
	var space [32 << 10]byte
	runtime.KeepAlive(&space)
}

// At has a runner wait at a call until the Scheduler has it go on, and returns what is to become of the call: the name
// of a fault, or nothing.
func (r *Runner) At(name string, faults ...Fault) string {
	if r.IsDead {
		runtime.Goexit()
	}
	r.Call = &Call{name, faults}
	r.of.yields <- struct{}{}
	how := <-r.how
	if r.IsDead {
		runtime.Goexit()
	}
	return how
}

// Saw notes what a call has returned.
func (r *Runner) Saw(parts ...any) { r.History += fmt.Sprint(parts...) + ";" }

// Fail notes why what happens can't be.
func (s *Scheduler) Fail(format string, parts ...any) {
	if s.Wrong == "" {
		s.Wrong = fmt.Sprintf(format, parts...)
	}
}

// A Choice is something that can happen next: a runner goes on, or its call comes to something else, or what Do does.
type Choice struct {
	Of     *Runner
	What   Fault // empty if a runner goes on as usual
	Number int   // of what happens, of all of its name; or 0
	Do     func()
}

// String is the word for it in a schedule.
func (c Choice) String() string {
	switch {
	case c.Of == nil && c.Number == 0:
		return c.What.Name
	case c.Of == nil:
		return c.What.Name + "-" + strconv.Itoa(c.Number)
	case c.What.Name == "":
		return strconv.Itoa(c.Of.Number)
	}
	return strconv.Itoa(c.Of.Number) + "-" + c.What.Name
}

// choices are what can happen next. First comes what usually does, of the runner with the lowest number that can go on.
func (s *Scheduler) choices() (found []Choice) {
	for _, r := range s.Runners {
		if r.Call != nil && r.Call.Name == Commit {
			return s.faultsOf(r, append(found, Choice{Of: r, What: goesOn}))
		}
	}
	for _, r := range s.Runners {
		if r.Call != nil && s.world.IsEnabled(r) {
			found = append(found, Choice{Of: r, What: goesOn})
		}
	}
	for n := range s.Doubts {
		first := n + 1
		found = append(found, Choice{What: written, Number: first, Do: func() { s.Decide(first, true) }},
			Choice{What: unwritten, Number: first, Do: func() { s.Decide(first, false) }})
	}
	if len(found) == 0 {
		return nil
	}
	found = append(found, s.world.Events()...)
	for _, r := range s.Runners {
		if r.Call != nil {
			found = s.faultsOf(r, found)
		}
	}
	return s.accidents(nil, found)
}

// faultsOf appends what can happen to a runner.
func (s *Scheduler) faultsOf(r *Runner, found []Choice) []Choice {
	if s.world.IsEnabled(r) {
		for _, it := range r.Call.faults {
			if s.left.has(it.Kind) {
				found = append(found, Choice{Of: r, What: it})
			}
		}
	}
	if r.Call.Name == Commit {
		return found
	}
	found = s.accidents(r, found)
	if s.left.has(Death) && r.History != "" {
		found = append(found, Choice{Of: r, What: Dies, Do: func() { s.kill(r) }})
	}
	return found
}

// accidents appends the accidents that may still happen.
func (s *Scheduler) accidents(to *Runner, found []Choice) []Choice {
	for _, it := range s.world.Accidents(to) {
		if s.left.has(it.What.Kind) {
			found = append(found, it)
		}
	}
	return found
}

// IsInDoubt reports whether there is a doubt of another runner.
func (s *Scheduler) IsInDoubt(to *Runner) bool {
	for _, it := range s.Doubts {
		if it.Of() != to {
			return true
		}
	}
	return false
}

// take has a choice happen.
func (s *Scheduler) take(it Choice) {
	if it.What.Kind != Usual {
		s.left.of[it.What.Kind]--
		s.left.all--
		s.Used++
	}
	if it.Do != nil {
		it.Do()
		return
	}
	it.Of.Call = nil
	it.Of.how <- it.What.Name
	<-s.yields
}

// Decide decides what became of the first commits of which nobody knew: all of them were written, or else the last of
// them and those after it weren't.
func (s *Scheduler) Decide(first int, areWritten bool) {
	doubts := s.Doubts
	if first == 0 {
		return
	}
	if s.Doubts = doubts[: first-1 : first-1]; areWritten {
		s.Doubts = doubts[first:]
		for _, it := range doubts[:first] {
			it.Write()
		}
	}
}

// Die has the process of a runner die.
func (r *Runner) Die() {
	r.IsDead = true
	r.of.world.Died(r)
}

// kill ends the goroutine of a runner at its call.
func (s *Scheduler) kill(r *Runner) {
	r.Die()
	r.how <- ""
	<-s.yields
}

// Stop kills all runners.
func (s *Scheduler) Stop() {
	for _, r := range s.Runners {
		if !r.IsOver {
			s.kill(r)
		}
	}
}

// mostSteps is more than any schedule has.
const mostSteps = 500

// RunUntil has a runner go on as it usually does to its end, or kills it at a call.
func (s *Scheduler) RunUntil(r *Runner, call string) {
	for n := 0; !r.IsOver; n++ {
		choices := s.choices()
		switch {
		case n == mostSteps || len(choices) == 0:
			s.Fail("%d never ends", r.Number)
			s.kill(r)
		case s.Wrong != "" || r.Call.Name == call:
			s.kill(r)
		default:
			s.take(choices[0])
		}
	}
}

// Run starts the runners of the World, and has happen what is chosen until all is over, or until the choice is
// negative. Of nothing, the choice is whether to finish. It returns the words of what was chosen.
func (s *Scheduler) Run(most Faults, choose func([]Choice) int) (schedule []string) {
	if s.Ended != nil {
		defer s.Ended()
	}
	defer s.Stop()
	s.left = most
	s.world.Begin()
	for choices := s.choices(); len(choices) > 0 && s.Wrong == ""; choices = s.choices() {
		at := choose(choices)
		if at < 0 {
			return schedule
		}
		schedule = append(schedule, choices[at].String())
		if s.take(choices[at]); len(schedule) == mostSteps {
			s.Fail("it never ends")
		}
	}
	for _, r := range s.Runners {
		if !r.IsOver {
			s.Fail("%d waits for ever", r.Number)
		}
	}
	if s.Wrong == "" && choose(nil) >= 0 {
		s.left = Faults{}
		s.world.Finish()
	}
	return schedule
}
