//go:build crashpoints

package broker_test

import (
	"context"
	"encoding/json"
	"fmt"
	"runtime"
	"strconv"
	"time"

	"pippinterm/broker"
	"pippinterm/internal/schedule"
	"pippinterm/osb"
)

// A simulation runs drivers of the executor over a store, locks and a backend of its own, by a schedule.
//
// If a process dies, its lock is free then. All drivers share a Service, which has no state of its own, and each dies by
// itself.
type simulation struct {
	*schedule.Scheduler
	scenario scenario
	rows     map[broker.Key]broker.Entry // what is committed
	things   map[broker.Key]simulatedThing
	holders  map[broker.Key]*simulatedLock
	workers  map[broker.Key]int // the runner that the model answers once the pending work ends, or 0
	numbers  map[osb.ID]int     // the runner that each number in a row is of
	runners  []*runner
	stepping *runner                                        // the one whose step of a Change runs, or nil
	isLater  bool                                           // whether an hour has passed
	note     func(key broker.Key, event string, of *runner) // gets each event of the model, or nil
}

// A simulatedThing is a resource: what exists of it, what outlives a power cut, and the number of its credentials.
type simulatedThing struct {
	there, onDisk       broker.There
	token               int // of a binding that is whole, and the latest one otherwise
	settings, settledOn int // the settings of an instance by their number, and those on disk
}

// A doubtfulCommit is one that nobody knows of. It is decided before another runner's Change of the instance or of its
// bindings. A Change of its own runner reads it as written, and decides it if that Change commits something.
type doubtfulCommit struct {
	of    *runner
	key   broker.Key
	entry broker.Entry
}

func (d doubtfulCommit) Of() *schedule.Runner { return d.of.Runner }

func (d doubtfulCommit) Write() { d.of.write(d.of, d.key, d.entry) }

func (d doubtfulCommit) String() string { return fmt.Sprint(d.key, d.of.entryWords(nil, d.entry)) }

type simulatedLock struct {
	of     *runner
	key    broker.Key
	isLost bool
}

// A runner is one driver: a goroutine that carries out a request or a take-up.
type runner struct {
	*schedule.Runner
	*simulation
	task broker.Visit // a Visit of no kind is a take-up, unless it is an Update
	key  broker.Key   // of the call at which it is
	lock *simulatedLock

	answered osb.Answer   // the answer that the model gives by what the runner has read last
	ended    osb.Answer   // the answer that the model has given by the end of the runner's work
	object   []byte       // the object of the binding beside that answer, or nil
	mayBe    []osb.Answer // of an Update: the answers of the ends that the commit of its end may be
}

var (
	loses        = schedule.Fault{Name: "loses-its-lock", Kind: schedule.Loss}
	anHourPasses = schedule.Fault{Name: "an-hour-passes", Kind: schedule.Usual}
	powerCut     = schedule.Fault{Name: "power-cut", Kind: schedule.Death}
)

// at has a runner wait at a call of a key, and returns what is to become of the call.
func (r *runner) at(name string, key broker.Key, faults ...schedule.Fault) string {
	r.key = key
	return r.At(name, faults...)
}

// start begins a driver, which waits at its first call.
func (s *simulation) start(task broker.Visit) *runner {
	r := &runner{simulation: s, task: task}
	s.runners = append(s.runners, r)
	s.Start(func(of *schedule.Runner) {
		r.Runner = of
		r.carryOut()
	})
	return r
}

// runnerKey is that of the runner in the context of its calls.
type runnerKey struct{}

func runnerIn(ctx context.Context) *runner { return ctx.Value(runnerKey{}).(*runner) }

func (r *runner) isTakeUp() bool { return r.task.Asked.Kind == osb.KindNone && r.task.Update == nil }

// carryOut carries out the request or the take-up.
func (r *runner) carryOut() {
	service, ctx := r.scenario.service, context.WithValue(context.Background(), runnerKey{}, r)
	if r.isTakeUp() {
		r.judgeEnd(service.TakeUp(ctx, r.task.Key))
		return
	}
	response, err := service.Handle(ctx, r.task)
	if err == nil {
		r.judgeAnswer(response)
	}
	r.judgeEnd(err)
}

// ---- what can happen

// Begin starts the drivers of the scenario.
func (s *simulation) Begin() {
	for _, task := range s.scenario.tasks {
		s.start(task)
	}
}

// Events are that an hour passes while an instance waits for its first Poll.
func (s *simulation) Events() []schedule.Choice {
	if row, _ := s.rows[simulatedKeys[0]].Holding.Row(); row.Phase != osb.PhaseWaiting || s.isLater {
		return nil
	}
	return []schedule.Choice{{What: anHourPasses, Do: func() { s.isLater = true }}}
}

// Accidents are that a lock is lost, or the power.
func (s *simulation) Accidents(to *schedule.Runner) []schedule.Choice {
	if to == nil {
		if !s.scenario.hasPowerCuts {
			return nil
		}
		return []schedule.Choice{{What: powerCut, Do: s.cutPower}}
	}
	if r := s.runners[to.Number-1]; r.lock != nil && !r.lock.isLost {
		return []schedule.Choice{{Of: to, What: loses, Do: func() { s.lose(r) }}}
	}
	return nil
}

// IsEnabled reports whether the call of a runner can go on: it waits for a lock that another has, and for a row.
func (s *simulation) IsEnabled(to *schedule.Runner) bool {
	r := s.runners[to.Number-1]
	switch to.Call.Name {
	case "lock":
		return s.holders[r.key] == nil
	case "change":
		return (s.stepping == nil || s.stepping == r) && !s.IsInDoubt(to)
	}
	return true
}

func (s *simulation) lose(r *runner) {
	r.lock.isLost = true
	delete(s.holders, r.lock.key)
}

// Died has the lock of a process be free that has died.
func (s *simulation) Died(of *schedule.Runner) {
	r := s.runners[of.Number-1]
	if r.lock != nil && !r.lock.isLost {
		s.lose(r)
	}
	if s.stepping == r {
		s.stepping = nil
	}
}

// cutPower kills all processes, and leaves of each resource what is on disk.
func (s *simulation) cutPower() {
	s.Stop()
	for key, thing := range s.things {
		if thing.there != thing.onDisk || thing.settings != thing.settledOn {
			thing.there, thing.settings = thing.onDisk, thing.settledOn
			s.work(key, thing)
		}
	}
}

// ---- the store

// A simulatedStore is the store of the simulation that the context has.
type simulatedStore struct {
	broker.Store // nothing else is called
}

// entry is what a Change of the runner reads of a key: also what it has written itself and nobody knows of.
func (r *runner) entry(key broker.Key) broker.Entry {
	for n := len(r.Doubts) - 1; n >= 0; n-- {
		if it := r.Doubts[n].(doubtfulCommit); it.of == r && it.key == key {
			return it.entry
		}
	}
	return r.rows[key]
}

// snapshot is what the runner reads of a key, with this entry.
func (r *runner) snapshot(key broker.Key, entry broker.Entry) broker.Snapshot {
	found := broker.Snapshot{Entry: entry}
	seen := []any{r.entryWords(r, entry)}
	if r.isLater && !found.Since.IsZero() {
		found.Since = found.Since.Add(-time.Hour)
	}
	if key.IsBinding {
		found.Instance = r.rows[osb.InstanceKey(key.Instance)]
		seen = append(seen, " of ", r.entryWords(r, found.Instance))
	} else {
		found.AnyBinding = func() (bool, error) { return r.anyBinding(), nil }
		seen = append(seen, r.anyBinding())
	}
	r.Saw(append(seen, r.isLater)...)
	return found
}

// anyBinding reports whether a binding is held.
func (s *simulation) anyBinding() bool {
	for _, key := range simulatedKeys {
		if key.IsBinding && s.rows[key].Holding.IsHeld() {
			return true
		}
	}
	return false
}

func (simulatedStore) Read(ctx context.Context, key broker.Key) (broker.Snapshot, error) {
	r := runnerIn(ctx)
	if r.at("read", key, schedule.Fails) != "" {
		r.Saw("fails")
		return broker.Snapshot{}, broker.Away(schedule.ErrFails)
	}
	r.noteReading(key)
	return r.snapshot(key, r.rows[key]), nil
}

// Change is one step of the scheduler, unless its step calls something: the row is locked, so nobody sees the time
// between the reading and the commit.
func (simulatedStore) Change(ctx context.Context, key broker.Key, step broker.Step) error {
	r := runnerIn(ctx)
	if r.at("change", key, schedule.Fails) != "" {
		r.Saw("fails")
		return broker.Away(schedule.ErrFails)
	}
	r.stepping = r
	next, err := step(r.snapshot(key, r.entry(key)))
	if err != nil {
		r.stepping = nil
		return err
	}
	how := r.at(schedule.Commit, key, schedule.Fails, schedule.Unsure, schedule.Dies)
	r.stepping = nil
	r.Saw("commit ", how)
	switch {
	case how == schedule.Fails.Name:
		return schedule.ErrFails
	case next == nil && how == "":
		r.noteReading(key)
	case next == nil:
	case how == "":
		r.Decide(len(r.Doubts), true)
		r.write(r, key, *next)
	default:
		r.Doubts = append(r.Doubts, doubtfulCommit{r, key, *next})
	}
	switch how {
	case schedule.Dies.Name:
		r.Die()
		runtime.Goexit()
	case schedule.Unsure.Name:
		return broker.Away(schedule.ErrFails)
	}
	return nil
}

// write commits an entry.
func (s *simulation) write(of *runner, key broker.Key, next broker.Entry) {
	before := s.rows[key]
	if s.rows[key] = next; next.Holding == before.Holding && changeOf(next) == changeOf(before) {
		of.noteReading(key)
	}
	s.judgeCommit(of, key, before, next)
}

// ---- the locks

type simulatedLocks struct{}

func (simulatedLocks) CanBeLost() bool { return true }

func (simulatedLocks) TryLock(ctx context.Context, key broker.Key) (broker.Lock, error) {
	return runnerIn(ctx).tryLock("try-lock", key)
}

func (simulatedLocks) Lock(ctx context.Context, key broker.Key) (broker.Lock, error) {
	return runnerIn(ctx).tryLock("lock", key)
}

// tryLock takes a lock that is free.
func (r *runner) tryLock(call string, key broker.Key) (broker.Lock, error) {
	how := r.at(call, key, schedule.Fails)
	r.Saw(how, r.holders[key] == nil)
	switch {
	case how != "":
		return nil, broker.Away(schedule.ErrFails)
	case r.holders[key] != nil:
		return nil, nil
	}
	r.lock = &simulatedLock{of: r, key: key}
	r.holders[key] = r.lock
	return r.lock, nil
}

type simulatedLockKey struct{}

func (l *simulatedLock) Context(ctx context.Context) context.Context {
	return context.WithValue(ctx, simulatedLockKey{}, l)
}

func (l *simulatedLock) Unlock() {
	if l.of.IsDead {
		return
	}
	l.of.at("unlock", l.key)
	if l.of.Saw("unlocked"); !l.isLost {
		delete(l.of.holders, l.key)
	}
	l.of.lock = nil
}

// ---- the backend

// A simulatedBackend is the backend of the simulation that the context has. What it does ends with the lock.
type simulatedBackend struct{}

// A simulatedKnowingBackend can tell the credentials of what exists.
type simulatedKnowingBackend struct{ simulatedBackend }

// enter is the beginning of a call of the backend, or of the next part of one. It returns an error if the call has failed.
func (r *runner) enter(ctx context.Context, key broker.Key, name string, faults ...schedule.Fault) (string, error) {
	lock, _ := ctx.Value(simulatedLockKey{}).(*simulatedLock)
	if lock == nil || lock.of != r || lock.key != key {
		r.Fail("%d calls %s without the lock of its key", r.Number, name)
	}
	how := r.at(name, key, append(faults, schedule.Fails)...)
	if lock != nil && lock.isLost {
		how = schedule.Fails.Name
	}
	if r.Saw(name, " ", how); how == schedule.Fails.Name {
		return how, schedule.ErrFails
	}
	r.judgeCall(key, name)
	return how, nil
}

func (simulatedBackend) Look(ctx context.Context, of broker.Request) (broker.There, error) {
	r := runnerIn(ctx)
	if _, err := r.enter(ctx, of.Key, "look"); err != nil {
		return broker.None, err
	}
	r.Saw(r.things[of.Key].there)
	return r.things[of.Key].there, nil
}

func (simulatedBackend) Sync(ctx context.Context, of broker.Request) error {
	r := runnerIn(ctx)
	_, err := r.enter(ctx, of.Key, "sync")
	if err == nil {
		r.sync(of.Key)
	}
	return err
}

// sync has what exists outlive a power cut.
func (s *simulation) sync(key broker.Key) {
	thing := s.things[key]
	thing.onDisk, thing.settledOn = thing.there, thing.settings
	s.things[key] = thing
}

// become changes what exists.
func (s *simulation) become(key broker.Key, there broker.There) {
	thing := s.things[key]
	thing.settings = 0
	if thing.there = there; there == broker.Whole && key.IsBinding {
		thing.token++
	}
	s.work(key, thing)
}

var (
	rejects = schedule.Fault{Name: "is-rejected", Kind: schedule.Failure}
	lies    = schedule.Fault{Name: "returns-too-early", Kind: schedule.Failure} // and reports no error
)

// change is a creation or a deletion, by what exists in the end. Each may end in the middle.
func (simulatedBackend) change(ctx context.Context, of broker.Request, name string, end broker.There) error {
	r, key := runnerIn(ctx), of.Key
	r.judgeRequest(of)
	faults := []schedule.Fault{lies, rejects}
	if end == broker.None {
		faults = faults[:1]
	}
	for _, part := range []struct {
		name string
		then broker.There
	}{{name, broker.Part}, {name + "-half", end}} {
		switch how, err := r.enter(ctx, key, part.name, faults...); {
		case err != nil:
			return err
		case how == rejects.Name:
			return &broker.Rejection{Status: 422, Description: "too many"}
		case how == lies.Name:
			return nil
		}
		r.become(key, part.then)
	}
	_, err := r.enter(ctx, key, name+"-end")
	if err == nil {
		r.sync(key)
	}
	return err
}

func (b simulatedBackend) Create(ctx context.Context, of broker.Request) error {
	return b.change(ctx, of, "create", broker.Whole)
}

func (b simulatedBackend) Delete(ctx context.Context, of broker.Request) error {
	return b.change(ctx, of, "delete", broker.None)
}

func (b simulatedBackend) LookBinding(ctx context.Context, of broker.Request) (broker.There, error) {
	return b.Look(ctx, of)
}

func (b simulatedBackend) CreateBinding(ctx context.Context, of broker.Request) (json.RawMessage, error) {
	if err := b.Create(ctx, of); err != nil {
		return nil, err
	}
	return runnerIn(ctx).credentials(of.Key), nil
}

func (b simulatedBackend) DeleteBinding(ctx context.Context, of broker.Request) error {
	return b.Delete(ctx, of)
}

func (simulatedKnowingBackend) Credentials(ctx context.Context, of broker.Request) (json.RawMessage, error) {
	if _, err := runnerIn(ctx).enter(ctx, of.Key, "credentials"); err != nil {
		return nil, err
	}
	return runnerIn(ctx).credentials(of.Key), nil
}

// credentials are those that work.
func (s *simulation) credentials(key broker.Key) json.RawMessage {
	return json.RawMessage(strconv.Quote("token " + strconv.Itoa(s.things[key].token)))
}
