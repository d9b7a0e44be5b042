// Package run has the core of all storms, and two of them: this project's platform drives a broker through the faults
// of the package fault, and osb-platform and osb-broker are killed besides. In the end it finds out what was lost
// (docs/storm.md).
//
// Each part knows only what it needs: the operator needs Orders, the audit needs records and an Inventory, and the
// report needs a Result. A Core runs a storm of any kind, and writes its Report.
package run

import (
	"context"
	"errors"
	"fmt"
	"sort"
	"sync"
	"time"

	"pippinterm/platform"
	"pippinterm/storm/conform"
	"pippinterm/storm/fault"
	"pippinterm/storm/report"
	"pippinterm/storm/run/audit"
)

// Options say which faults a storm of any kind has, and within which limits it goes on.
type Options struct {
	Seed  int64
	Share float64           // how many of all requests have a fault, from 0 to 1
	List  []fault.Injection // the faults of the run, in place of those by the seed; or nil
	// RequestTime is how long the platform waits for an answer, and Late is the bound of every delay.
	RequestTime, Late time.Duration
	Time, SettleTime  time.Duration // with faults, and then without
	MinimizeTime      time.Duration // for the runs that shrink the list of faults; 0 for none
	Folder            string        // in which the folders of the runs are created; empty for the system's
	Journal           string        // the folder below which the journals are written, or empty for none
	Commands          Commands
}

// Commands are commands of the shell. Each may be empty. The lists are of what exists at a broker, or of what a
// platform has.
type Commands struct {
	List         string // prints the id of each instance, one on a line
	Settings     string // prints the id of each instance that was updated, and its settings as an object of JSON
	ListBindings string // prints the ids of the instance and the binding for each binding
	Restart      string // kills the broker and starts it again
	Kill, Start  string // of the broker
	Order        string // has the platform create and delete instances and bindings
}

func (c Commands) restarts() bool { return c.Restart != "" || c.Kill != "" }

// A Conflict is options that exclude each other, or an option that has no such value.
type Conflict struct {
	Exists bool
	Reason string
}

// Demands are what the options of one kind of storm have to satisfy besides those of all kinds.
type Demands struct {
	Conflicts []Conflict
	Limits    []time.Duration // above 0
	NoRestart string          // why no fault can restart the broker, unless there is a command for that
}

// Check returns an error if options exclude each other, a limit isn't above 0, or the faults can't happen.
func (c Options) Check(own Demands) error {
	for _, conflict := range append(own.Conflicts, c.conflicts()...) {
		if conflict.Exists {
			return errors.New(conflict.Reason)
		}
	}
	for _, limit := range append(own.Limits, c.RequestTime, c.Late, c.Time, c.SettleTime) {
		if limit <= 0 {
			return errors.New("every limit must be above 0")
		}
	}
	for _, injection := range c.List {
		if injection.Kind.IsRestart() && !c.Commands.restarts() {
			return errors.New("the list of faults has a restart: " + own.NoRestart)
		}
	}
	return nil
}

func (c Options) conflicts() []Conflict {
	commands := c.Commands
	return []Conflict{
		{(commands.Kill == "") != (commands.Start == ""), "give a kill command and a start command, or neither"},
		{commands.Restart != "" && commands.Kill != "", "give a restart command, or a kill command and a start command"},
		{commands.ListBindings != "" && commands.List == "", "a list of bindings needs a list of instances"},
		{c.Share < 0 || c.Share > 1, "the share of requests with a fault is between 0 and 1"},
	}
}

// Source returns the faults of the run.
func (c Options) Source(weights fault.Weights) *fault.Source {
	if c.List != nil {
		return fault.ByList(c.Seed, c.List)
	}
	return fault.BySeed(c.Seed, c.Share, weights)
}

// A Result is the result of one run.
type Result struct {
	Keys        *Keys
	Exchanges   []fault.Exchange
	Events      []Event
	Differences report.Differences
	Broken      []Violation
	Given       []fault.Injection
	Unmet       []fault.Injection // of the list that was given
	Restarts    int
	Ended       string // why the run was ended before, or empty
	Converged   bool
	Took        time.Duration // until everything converged, after the faults
	Failed      []string      // what went wrong with the run itself
	Leftovers   []conform.Leftover
	Unknown     int // how many instances and bindings nobody could ask for
	Updates     int // that have succeeded
	// OrdersAll is set if a further run can't leave out the instances that a list of faults isn't about.
	OrdersAll bool

	end time.Duration // when the run ended, since its start
}

// losses are the differences in which something is lost or false.
var losses = []report.DifferenceKind{Lost, False, Disagree, FalseSettings, HalfUpdated}

// IsLoser reports whether something was lost, or a record was false.
func (r *Result) IsLoser() bool {
	for _, difference := range r.Differences {
		if difference.Kind.IsOneOf(losses...) {
			return true
		}
	}
	return false
}

// A Core runs a storm of any kind.
type Core struct {
	Options
	Report *Report
	// Once is a run: the first one if the candidate is nil, or a further one with the faults of the candidate.
	Once func(ctx context.Context, of *Candidate) (*Result, error)
	// Add adds to the report what only this kind of storm knows of its first run. It may be nil.
	Add func(*Result)
	// Stop gets the error of a further run. If it isn't nil, such an error ends the further runs.
	Stop func(error)
}

// EndedBefore is why a run was ended by a signal.
const EndedBefore = "the run was ended before"

// Run runs the storm, and writes its result into the report. If MinimizeTime is above 0 and something was lost, further
// runs shrink the list of faults. If ctx is done, it ends. It returns the error of the first run.
func (c Core) Run(ctx context.Context) error {
	found, err := c.Once(ctx, nil)
	c.Report.take(found)
	if err == nil && c.Add != nil {
		c.Add(found)
	}
	wouldFail := c.Stop != nil && len(found.Failed) > 0 // as a further run would, too
	if err == nil && c.MinimizeTime > 0 && found.IsLoser() && !wouldFail && ctx.Err() == nil {
		c.minimize(ctx, found)
	}
	if ctx.Err() != nil {
		c.Report.Ended = EndedBefore
	}
	c.Report.takeUntried(c.Options)
	return err
}

// FirstError returns the first error that isn't nil.
func FirstError(all ...error) error {
	for _, err := range all {
		if err != nil {
			return err
		}
	}
	return nil
}

// What is common to the reports of all storms, under its own names.
type (
	Key        = report.Key
	Record     = audit.Record
	Difference = report.Difference
	Event      = report.Event
	Finding    = report.Finding
	Violation  = report.Violation
)

const (
	Lost     = report.Lost
	False    = report.False
	Stuck    = report.Stuck
	Disagree = report.Disagree
	Present  = report.Present

	FalseSettings = report.FalseSettings
	HalfUpdated   = report.HalfUpdated
)

const whoBroker, whoPlatform = report.WhoBroker, report.WhoPlatform

// Keys are the ids of a run with their numbers. Any number of goroutines use them.
type Keys struct {
	newID func(number int) string
	first int           // the number of the first instance that isn't one of the lives'
	Began chan struct{} // is closed once there is a key
	mutex sync.Mutex
	ofKey map[Key]fault.Subject
	next  map[string]int // the number of the last binding of an instance
	order []Key          // in which they were named
	// others is how many instances have got a number although they aren't the lives'.
	others int
}

// firstOther is the number of the first instance that isn't one of the lives', such as a further try of one.
const firstOther = 1000001

// NewKeys returns Keys of a run in which somebody else names all instances.
func NewKeys() *Keys {
	return &Keys{first: 1, Began: make(chan struct{}), ofKey: map[Key]fault.Subject{}, next: map[string]int{}}
}

func newKeys(newID func(int) string) *Keys {
	k := NewKeys()
	k.newID, k.first = newID, firstOther
	return k
}

// add adds a key. The mutex is locked.
func (k *Keys) add(key Key, subject fault.Subject) Key {
	if len(k.order) == 0 {
		close(k.Began)
	}
	k.ofKey[key], k.order = subject, append(k.order, key)
	return key
}

func (k *Keys) instance(number int) Key {
	k.mutex.Lock()
	defer k.mutex.Unlock()
	return k.add(Key{Instance: k.newID(number)}, fault.Subject{Instance: number})
}

func (k *Keys) binding(of Key) Key {
	k.mutex.Lock()
	defer k.mutex.Unlock()
	k.next[of.Instance]++
	number := k.next[of.Instance]
	key := Key{Instance: of.Instance, Binding: k.newID(number)}
	return k.add(key, fault.Subject{Instance: k.ofKey[of].Instance, Binding: number})
}

// Subject returns the subject of ids, if they are of the run.
func (k *Keys) Subject(instance, binding string) (fault.Subject, bool) {
	k.mutex.Lock()
	defer k.mutex.Unlock()
	subject, is := k.ofKey[Key{Instance: instance, Binding: binding}]
	return subject, is
}

// SubjectOrNew returns the subject of ids. The first request about others numbers them. It is false if a path names no
// instance.
func (k *Keys) SubjectOrNew(instance, binding string) (fault.Subject, bool) {
	k.mutex.Lock()
	defer k.mutex.Unlock()
	key, of := Key{Instance: instance, Binding: binding}, Key{Instance: instance}
	if instance == "" {
		return fault.Subject{}, false
	}
	if _, is := k.ofKey[of]; !is {
		k.add(of, fault.Subject{Instance: k.first + k.others})
		k.others++
	}
	if _, is := k.ofKey[key]; !is {
		k.next[instance]++
		k.add(key, fault.Subject{Instance: k.ofKey[of].Instance, Binding: k.next[instance]})
	}
	return k.ofKey[key], true
}

// All returns all keys, in the order in which they were named.
func (k *Keys) All() []Key {
	k.mutex.Lock()
	defer k.mutex.Unlock()
	return append([]Key(nil), k.order...)
}

// inOrder returns all keys, in the order of their numbers.
func (k *Keys) inOrder() []Key {
	all := k.All()
	sort.Slice(all, func(one, other int) bool {
		a, _ := k.Subject(all[one].Instance, all[one].Binding)
		b, _ := k.Subject(all[other].Instance, all[other].Binding)
		return a.Less(b)
	})
	return all
}

// A guard makes calls one at a time.
type guard struct{ mutex sync.Mutex }

func (g *guard) hold(call func()) {
	g.mutex.Lock()
	defer g.mutex.Unlock()
	call()
}

// finds are the differences that were found so far. Each is an event, too. Any number of goroutines use them.
type finds struct {
	events *events
	guard
	all report.Differences
}

func (f *finds) add(key Key, kind report.DifferenceKind, what string) {
	f.hold(func() { f.all.Add(key, kind, what) })
	f.events.add(key, "osb-storm", what)
}

// addOnce adds a difference, unless one of the same key was found before. One goroutine calls it.
func (f *finds) addOnce(it Difference) {
	for _, known := range f.list() {
		if known.Key == it.Key {
			return
		}
	}
	f.add(it.Key, it.Kind, it.What)
}

func (f *finds) list() report.Differences {
	f.mutex.Lock()
	defer f.mutex.Unlock()
	return append(report.Differences(nil), f.all...)
}

// events are those of a run. Any number of goroutines use them.
type events struct {
	platform.Silent
	now func() time.Duration
	guard
	all   []Event
	found []Event // the last deletion has found what was recorded as gone
}

func (e *events) add(key Key, who, what string) {
	e.hold(func() { e.all = append(e.all, Event{At: e.now(), Key: key, Who: who, What: what}) })
}

func (e *events) list() []Event {
	e.mutex.Lock()
	defer e.mutex.Unlock()
	return append([]Event(nil), e.all...)
}

// orphans returns the events of instances and bindings that existed though they were recorded as gone.
func (e *events) orphans() []Event {
	e.mutex.Lock()
	defer e.mutex.Unlock()
	return append([]Event(nil), e.found...)
}

// OnChange notes that a record is in another state now.
func (e *events) OnChange(key platform.Key, before, after platform.State) {
	e.add(audit.KeyOf(key), "record", fmt.Sprintf("%s -> %s", before, after))
}

// OnAnswer notes why an answer wasn't taken.
func (e *events) OnAnswer(x platform.Exchange) {
	if x.Lost != nil {
		e.add(audit.KeyOf(x.Key), "platform", fmt.Sprintf("takes no answer to its %s: %v", x.Kind, x.Lost))
	}
}

// OnFailure notes what went wrong.
func (e *events) OnFailure(f platform.Failure) {
	key := Key{}
	if f.IsNamed {
		key = audit.KeyOf(f.Key)
	}
	e.add(key, "platform", fmt.Sprintf("%s: %v", f.Event, f.Err))
}

// OnOrphan notes what the last deletion has found.
func (e *events) OnOrphan(key platform.Key, status int, isFound bool) {
	if !isFound {
		return
	}
	found := Event{
		At: e.now(), Key: audit.KeyOf(key), Who: "platform",
		What: fmt.Sprintf("it existed though its record says gone: the last deletion was answered with %d", status),
	}
	e.hold(func() { e.all, e.found = append(e.all, found), append(e.found, found) })
}
