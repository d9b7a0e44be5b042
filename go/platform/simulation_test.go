//go:build crashpoints

package platform

import (
	"context"
	"errors"
	"fmt"
	"runtime"
	"strings"
	"sync"
	"time"

	"pippinterm/internal/schedule"
	"pippinterm/osb"
)

// A simulation runs workers and operators of a platform over one store, a network and a broker, by a schedule. An
// exchange may last a minute, and a lease is over half a minute later. Time passes by minutes, or in smaller parts.
type simulation struct {
	*schedule.Scheduler
	scenario scenario
	store    *memory // has what is committed
	seller   *seller
	passed   time.Duration // on every clock
	most     time.Duration // that passes before the end
	network  []Outgoing    // requests that may still arrive
	runners  []*runner
	numbers  map[osb.ID]string      // the word for each number that a row has had
	sent     map[osb.ID]bool        // the numbers whose requests were sent
	had      map[Key]map[State]bool // the states that each row has had
	walk     *walk                  // that it writes, or nil

	abandoned map[Key]osb.ID // the number that each row had when it was abandoned
}

// A runner is a process that does something: that of a worker, or that of an operator's command.
type runner struct {
	*schedule.Runner
	*simulation
	task   string
	orders *Orders
	out    *Outgoing // what is about to be sent, or nil
	ids    int       // that it has made up
	heard  map[osb.ID]hearing

	isInTransaction bool // and so has the lock of the store
}

// A hearing is what a worker has got of its request of a number.
type hearing struct {
	answer    osb.Answer
	hasAnswer bool // and no gateway's or an unreadable one
	isFetched bool
	event     string // by which the answer arrives, with its place among those of the life
	fetched   int    // the place of the answer to a Fetch among those
}

// A doubtfulCommit is one that nobody knows of. It is decided before another runner's transaction. One of its own
// runner reads it as written, and decides it if it commits something.
type doubtfulCommit struct {
	of     *runner
	writes map[Key]Entry
}

func (d doubtfulCommit) Of() *schedule.Runner { return d.of.Runner }

func (d doubtfulCommit) Write() { d.of.write(d.of, d.writes) }

func (d doubtfulCommit) String() string { return d.of.rowsWords(d.writes) }

var (
	delayed  = schedule.Fault{Name: "is-delayed", Kind: schedule.Loss}  // a request, for longer than anybody waits
	repeated = schedule.Fault{Name: "is-repeated", Kind: schedule.Loss} // a request, later
	lost     = schedule.Fault{Name: "is-lost", Kind: schedule.Loss}     // an answer
	garbled  = schedule.Fault{Name: "is-garbled", Kind: schedule.Loss}  // an answer
	replaced = schedule.Fault{Name: "is-replaced", Kind: schedule.Loss} // an answer, by a gateway's
	hangs    = schedule.Fault{Name: "hangs", Kind: schedule.Failure}    // the broker, for longer than anybody waits
	rejects  = schedule.Fault{Name: "is-rejected", Kind: schedule.Failure}
	slow     = schedule.Fault{Name: "takes-two-minutes", Kind: schedule.Failure} // until a commit returns

	timePasses   = schedule.Fault{Name: "time-passes", Kind: schedule.Usual}
	brokerGoesOn = schedule.Fault{Name: "broker-goes-on", Kind: schedule.Usual}
	brokerFails  = schedule.Fault{Name: "broker-fails", Kind: schedule.Failure}
	arrives      = schedule.Fault{Name: "arrives", Kind: schedule.Usual}
	frees        = schedule.Fault{Name: "frees", Kind: schedule.Usual}
)

// moods are by how much the work of the broker goes worse than usual (seller.mood), by what becomes of a call.
var moods = map[string]int{rejects.Name: 7, schedule.Fails.Name: 8, brokerFails.Name: 9}

// start begins a runner, which waits at its first call.
func (s *simulation) start(task string) *runner {
	r := &runner{simulation: s, task: task, heard: map[osb.ID]hearing{}}
	s.runners = append(s.runners, r)
	s.Start(func(of *schedule.Runner) {
		r.Runner = of
		r.orders = NewOrders(simulatedStore{s.store, r}, seal{})
		r.orders.newID = r.newID
		r.judgeEnd(r.carryOut())
	})
	return r
}

// newID is an id that is made up, the same in each schedule in which the runner has seen the same.
func (r *runner) newID() (osb.ID, error) {
	r.ids++
	return id(fmt.Sprintf("%d%02d%02d", r.scenario.generation, r.Number, r.ids)), nil
}

// worker is the name of the worker that the runner is.
func (r *runner) worker() string {
	return fmt.Sprintf("worker %d.%d", r.scenario.generation, r.Number)
}

// carryOut carries out the task: some steps of a worker, or a command of an operator.
func (r *runner) carryOut() (err error) {
	ctx, isBinding := context.Background(), strings.HasSuffix(r.task, "-binding")
	key := r.latest(isBinding)
	switch strings.TrimSuffix(r.task, "-binding") {
	case "step":
		r.step(ctx)
	case "steps":
		r.step(ctx)
		r.step(ctx)
	case "order":
		_, err = r.orders.Create(ctx, NewInstance{Service: "shelf", Plan: r.scenario.plan, Tries: r.scenario.tries})
	case "bind":
		_, err = r.orders.Bind(ctx, NewBinding{Instance: key.Instance.String(), Tries: r.scenario.tries})
	case "remove", "remove-all":
		_, err = r.orders.Remove(ctx, key, r.task == "remove-all")
	case "retry":
		_, err = r.orders.Retry(ctx, key)
	case "abandon":
		_, err = r.orders.Abandon(ctx, key, "it is abandoned")
	default:
		r.Fail("there is no task %q", r.task)
	}
	return err
}

// longestPoll is how long an operation is polled.
const longestPoll = 2 * time.Minute

// step has a worker claim a row, and make the exchange that follows.
func (r *runner) step(ctx context.Context) {
	options := Options{Worker: r.worker(), Share: func() float64 { return 0 }, LongestPoll: longestPoll}
	engine := NewEngine(simulatedStore{r.store, r}, simulatedClient{of: r}, seal{}, options, simulatedObserver{of: r})
	engine.retry, engine.newID = time.Nanosecond, r.newID
	known := newRegistry(ctx, engine, &sync.WaitGroup{})
	defer known.stop()
	known.byName["shelf"] = &knownBroker{broker: r.store.brokers["shelf"], catalogue: r.scenario.catalogue}
	for _, sending := range engine.claim(ctx, known, []string{"shelf"}, 1, nil).sendings {
		engine.exchange(ctx, known, sending, func(bool) {})
	}
}

// latest is the key of the latest order of an instance, or of a binding. If there is none, no row has it.
func (s *simulation) latest(isBinding bool) Key {
	found := Key{IsBinding: isBinding}
	for _, key := range keysOf(s.store.rows) {
		if key.IsBinding == isBinding {
			found = key
		}
	}
	return found
}

// ---- what can happen

// Begin starts the runners of the scenario.
func (s *simulation) Begin() {
	for _, task := range s.scenario.tasks {
		s.start(task)
	}
}

// IsEnabled reports whether the call of a runner can go on: a transaction waits until those before are decided.
func (s *simulation) IsEnabled(of *schedule.Runner) bool {
	return of.Call.Name == "send" || of.Call.Name == "hear" || !s.IsInDoubt(of)
}

// Events are that time passes, the broker works, what was sent arrives late, and a worker that has died begins again.
func (s *simulation) Events() (found []schedule.Choice) {
	if s.passed < s.most {
		found = append(found, schedule.Choice{What: timePasses, Do: func() { s.passed += s.scenario.tick }})
	}
	if s.isWorking() {
		found = append(found, schedule.Choice{What: brokerGoesOn, Do: func() { s.work("") }})
	}
	for n := range s.network {
		at := n
		found = append(found, schedule.Choice{What: arrives, Number: n + 1, Do: func() { s.arrive(at) }})
	}
	for _, r := range s.runners {
		if it := r; r.IsDead && r.hasLease() {
			found = append(found, schedule.Choice{What: frees, Number: r.Number, Do: func() {
				must(s.store.Free(context.Background(), it.worker()))
			}})
		}
	}
	return found
}

// Accidents are that the work of the broker fails.
func (s *simulation) Accidents(of *schedule.Runner) []schedule.Choice {
	if of != nil || !s.isWorking() {
		return nil
	}
	return []schedule.Choice{{What: brokerFails, Do: func() { s.work(brokerFails.Name) }}}
}

// Died has what a process was about to send be on its way, maybe.
func (s *simulation) Died(of *schedule.Runner) {
	if r := s.runners[of.Number-1]; r.out != nil && !s.isLate(*r.out) {
		s.network = append(s.network, *r.out)
	}
}

// isWorking reports whether work is pending at the broker, or an operation runs.
func (s *simulation) isWorking() bool {
	for _, held := range s.seller.holdings {
		row, _ := held.Row()
		if _, isPending := held.Work(); isPending || row.Phase == osb.PhaseMaking || row.Phase == osb.PhaseDeleting {
			return true
		}
	}
	return false
}

// work has the broker go on with all that it works on.
func (s *simulation) work(how string) {
	s.setMood(how)
	s.seller.goOn()
	s.judgeState()
}

// arrive has a request arrive that nobody waits for.
func (s *simulation) arrive(at int) {
	out := s.network[at]
	s.network = append(append([]Outgoing(nil), s.network[:at]...), s.network[at+1:]...)
	s.handle(out, "")
}

// handle has a request arrive at the broker.
func (s *simulation) handle(out Outgoing, how string) *reply {
	s.setMood(how)
	s.walk.arriving(out)
	given := s.seller.handle(out)
	s.judgeState()
	return given
}

func (s *simulation) setMood(how string) {
	s.seller.mood = func() int { return 9 - moods[how] }
	s.seller.isSlow = func() bool { return how == hangs.Name }
}

func (r *runner) hasLease() bool {
	for _, e := range r.store.rows {
		if e.Lease.Worker == r.worker() {
			return true
		}
	}
	return false
}

// now is the time of the store.
func (s *simulation) now() time.Time { return newDial().now.Add(s.passed) }

// ---- the store

// A simulatedStore is the store as a runner has it.
type simulatedStore struct {
	*memory
	of *runner
}

// begin is a transaction of a runner, which reads what it has written itself and nobody knows of.
func (s simulatedStore) begin() *transaction {
	t := s.memory.begin()
	for _, it := range s.of.Doubts {
		for key, e := range it.(doubtfulCommit).writes {
			t.writes[key] = e
		}
	}
	return t
}

func (s simulatedStore) Claim(_ context.Context, brokers []string, most int, step Step) (claimed []ClaimedRow, err error) {
	err = s.transact("claim", func(t *transaction, hasWritten *bool) error {
		claimed = t.claim(s.clock(), brokers, most, s.of.watched(step, hasWritten))
		return nil
	})
	return claimed, err
}

func (s simulatedStore) Change(_ context.Context, key Key, step Step) error {
	return s.transact("change", func(t *transaction, hasWritten *bool) error {
		if _, isThere := t.read(key); !isThere {
			return ErrUnknown
		}
		return s.runStep(t, s.clock(), key, "change", s.of.watched(step, hasWritten))
	})
}

func (s simulatedStore) Insert(_ context.Context, entry Entry, check func(Snapshot) error) error {
	return s.transact("insert", func(t *transaction, hasWritten *bool) error {
		*hasWritten = true
		return t.insert(entry, func(snapshot Snapshot) error {
			s.of.saw(snapshot)
			return check(snapshot)
		})
	})
}

// transact is one transaction.
func (s simulatedStore) transact(name string, do func(t *transaction, hasWritten *bool) error) error {
	faults := []schedule.Fault{schedule.Fails}
	if name == "change" { // as if the commit failed
		faults = nil
	}
	if how := s.of.At(name, faults...); how != "" {
		s.of.Saw(how)
		return ErrAway
	}
	t, hasWritten, err := s.run(do)
	if err != nil {
		return err
	}
	return s.of.commit(t, hasWritten)
}

// run is a transaction up to its commit. If its process dies in it, the others go on.
func (s simulatedStore) run(do func(t *transaction, hasWritten *bool) error) (t *transaction, hasWritten bool, err error) {
	s.mu.Lock()
	s.of.isInTransaction = true
	defer func() {
		s.of.isInTransaction = false
		s.mu.Unlock()
	}()
	t = s.begin()
	defer t.end()
	err = do(t, &hasWritten)
	return t, hasWritten, err
}

func (s simulatedStore) Read(ctx context.Context, key Key) (Entry, error) {
	e, err := s.memory.Read(ctx, key)
	s.of.saw(Snapshot{Entry: e})
	return e, err
}

// watched is a step of which is noted what it reads, and whether it writes.
func (r *runner) watched(step Step, hasWritten *bool) Step {
	return func(now time.Time, snapshot Snapshot) (*Change, error) {
		r.saw(snapshot)
		change, err := step(now, snapshot)
		*hasWritten = *hasWritten || change != nil
		if rejected := (*Rejection)(nil); err != nil && !errors.As(err, &rejected) {
			r.Fail("%d can't step a row: %v", r.Number, err)
		}
		return change, err
	}
}

// saw notes what a transaction has read.
func (r *runner) saw(snapshot Snapshot) {
	instance := ""
	if snapshot.Instance != nil {
		instance = r.words(r, *snapshot.Instance)
	}
	r.Saw(r.passed, r.words(r, snapshot.Entry), instance, snapshot.AllGone != nil && r.allGone(snapshot.Key))
}

// commit is one step with the call before, so nobody sees the time between the reading and the commit.
func (r *runner) commit(t *transaction, hasWritten bool) error {
	if !hasWritten {
		r.Saw("nothing")
		return nil
	}
	how := r.At(schedule.Commit, schedule.Fails, schedule.Unsure, schedule.Dies, slow)
	r.Saw(how)
	switch how {
	case schedule.Fails.Name:
		return schedule.ErrFails
	case "", slow.Name:
		r.Decide(len(r.Doubts), true)
		if r.write(r, t.writes); how != "" {
			r.passed += 2 * time.Minute
		}
		return nil
	}
	r.Doubts = append(r.Doubts, doubtfulCommit{r, t.writes})
	if how == schedule.Dies.Name {
		r.Die()
		runtime.Goexit()
	}
	return ErrAway
}

// write commits rows.
func (s *simulation) write(of *runner, writes map[Key]Entry) {
	before := map[Key]Entry{}
	for key, e := range writes {
		if before[key], s.store.rows[key] = s.store.rows[key], e; s.had[key] == nil {
			s.had[key] = map[State]bool{}
		}
		s.had[key][e.State] = true
	}
	for _, key := range keysOf(writes) {
		s.judgeCommit(of, before[key], writes[key])
	}
	s.judgeState()
}

// ---- the network

// A simulatedClient is the network as a worker has it.
type simulatedClient struct {
	Client // nobody asks for a catalogue
	of     *runner
}

// ahead is how much the clock of the workers is ahead of the store's.
const ahead = 17 * time.Hour

func (c simulatedClient) Clock() time.Time {
	c.of.Saw(c.of.passed)
	return c.of.now().Add(ahead)
}

// isLate reports whether the time of an exchange is over.
func (s *simulation) isLate(out Outgoing) bool { return !s.now().Add(ahead).Before(out.Until) }

// Exchange sends a request, and waits for its answer. Each is a call of its own.
func (c simulatedClient) Exchange(_ context.Context, out Outgoing) Incoming {
	r := c.of
	switch r.out = &out; {
	case r.isInTransaction:
		r.Fail("%d sends a request before the transaction of its claim is over", r.Number)
	case r.isLate(out):
		r.Fail("%d sends a request after its time", r.Number)
	}
	how := r.At("send", delayed, repeated, hangs, rejects, schedule.Fails)
	r.out = nil
	if r.Saw(how, r.isLate(out)); r.isLate(out) {
		return Incoming{Lost: errLate}
	}
	r.judgeSending(out)
	var given *reply
	if how == delayed.Name || how == repeated.Name {
		r.network = append(r.network, out)
	}
	if how != delayed.Name {
		given = r.handle(out, how)
	}
	return r.hear(out, given)
}

// hear waits for the answer to a request.
func (r *runner) hear(out Outgoing, given *reply) Incoming {
	at := r.walk.latest(out)
	how := r.At("hear", lost, garbled, replaced)
	in, event := given.incoming(out), fmt.Sprint("take ", at)
	switch {
	case how == lost.Name || given == nil:
		in = Incoming{Lost: errors.New("no answer came")}
	case how == garbled.Name:
		in, event = (&reply{given.status, []byte(`{"cut": `)}).incoming(out), fmt.Sprint("garbled ", at)
	case how == replaced.Name:
		in, event = (&reply{502, []byte(`<html>`)}).incoming(out), "gateway 502"
	}
	if r.isLate(out) {
		in = Incoming{Lost: errLate}
	}
	r.Saw(how, in.Status, in.Answer, in.Lost, string(in.Binding))
	it := r.heard[out.Entry.Number]
	if out.IsFetch {
		it.isFetched, it.fetched = in.Lost == nil && in.Binding != nil, at
	} else {
		it.answer, it.hasAnswer, it.event = in.Answer, in.Lost == nil, event
	}
	r.heard[out.Entry.Number] = it
	return in
}

// ---- what counts

// words are what counts of a row, as a runner sees it, which compares the number with its own alone, or with nil as all
// see it.
func (s *simulation) words(as *runner, e Entry) string {
	number := s.numbers[e.Number]
	if owner, _, _ := strings.Cut(number, "."); as != nil && owner != fmt.Sprint(as.Number) {
		number = ""
	}
	times := []int64{}
	for _, at := range []time.Time{
		e.Since, e.SentUntil, e.PolledSince, e.Due, e.DueSince, e.Lease.Until, e.Failure.At,
	} {
		times = append(times, at.Unix())
	}
	return fmt.Sprint(e.Key.IsBinding, e.Key.ID(), e.IsSent, e.Record.State(), e.Record.InFlight(), e.Record.Attempt(),
		e.State, times, textOf(e.Operation), e.Removal, e.HasLast, e.Unchanged, e.Lease.Worker, number, e.Passing, e.After, e.Try,
		string(e.Credentials), e.Because != "")
}

func (s *simulation) rowsWords(rows map[Key]Entry) string {
	var text strings.Builder
	for _, key := range keysOf(rows) {
		text.WriteString(s.words(nil, rows[key]) + ";")
	}
	return text.String()
}

// State is what is recorded, on its way, held and there.
func (s *simulation) State() string {
	var text strings.Builder
	text.WriteString(s.rowsWords(s.store.rows))
	for _, key := range keysOf(s.seller.holdings) {
		held := s.seller.holdings[key]
		row, isHeld := held.Row()
		work, isPending := held.Work()
		fmt.Fprint(&text, key.ID(), row.Phase, isHeld, work.Kind, isPending, held.HasTombstone(), s.seller.things[key], ";")
	}
	for _, out := range s.network {
		fmt.Fprint(&text, out.Entry.Key.ID(), out.Request.Kind, out.IsFetch, ";")
	}
	for _, r := range s.runners {
		fmt.Fprint(&text, r.IsDead && r.hasLease())
	}
	fmt.Fprint(&text, s.passed)
	return text.String()
}
