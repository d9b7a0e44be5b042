package platform

import (
	"context"
	"crypto/rand"
	"errors"
	"fmt"
	mathrand "math/rand"
	"strings"
	"sync"
	"time"

	"pippinterm/osb"
)

// A Policy is what becomes of an order that is unsettled: another may have its id (docs/platform-guide.md).
type Policy string

const (
	// RemoveUnsettled removes it if its id was made up here, so that nobody else can have it.
	RemoveUnsettled Policy = "remove"
	// KeepUnsettled leaves it to an operator.
	KeepUnsettled Policy = "wait"
)

// Options are how an Engine works. Of each that is zero, the default counts.
type Options struct {
	Worker   string        // the name of this worker; no other process over the Store has it
	AtOnce   int           // how many requests are in flight at once, without those beside (MostInFlight); 64
	Exchange time.Duration // how long an exchange may last; 60 s
	Margin   time.Duration // how much longer a step may take before another worker takes it over; 30 s
	Look     time.Duration // how often it looks for what others have written; 1 s
	// Catalogues is how long after it was answered a broker's catalogue is asked for again; an hour. Until the next
	// answer the last one counts.
	Catalogues time.Duration

	// The following count for each broker whose settings and catalogue say nothing else.
	FirstPace   time.Duration // until the next request; 2 s
	LongestPace time.Duration // what that grows to; 120 s
	LongestPoll time.Duration // how long an operation is polled; a week
	Hold        time.Duration // for how long no deletion is sent, if the broker has no tombstones; 300 s

	Unsettled Policy         // RemoveUnsettled
	Share     func() float64 // chance, from 0 to 1, for the pace; that of math/rand
}

func (o Options) withDefaults() Options {
	for _, test := range []struct {
		of      *time.Duration
		standby time.Duration
	}{
		{&o.Exchange, time.Minute}, {&o.Margin, 30 * time.Second}, {&o.Look, time.Second},
		{&o.FirstPace, 2 * time.Second}, {&o.LongestPace, 2 * time.Minute}, {&o.LongestPoll, 7 * 24 * time.Hour},
		{&o.Hold, 5 * time.Minute}, {&o.Catalogues, time.Hour},
	} {
		if *test.of <= 0 {
			*test.of = test.standby
		}
	}
	if o.AtOnce <= 0 {
		o.AtOnce = 64
	}
	if o.Unsettled == "" {
		o.Unsettled = RemoveUnsettled
	}
	if o.Share == nil {
		o.Share = mathrand.Float64
	}
	return o
}

// An Engine steps the rows of a Store that are due, until each is ready or gone.
type Engine struct {
	Options
	store    Store
	client   Client
	vault    Vault // or nil: then no binding is recorded ready
	observer Observer
	once     *once
	health   *storeHealth
	retry    time.Duration // until a transaction is tried again that has failed, the first time
	apart    time.Duration // between two claims at least, while few slots are free
	newID    func() (osb.ID, error)
}

// NewEngine makes an engine. vault may be nil.
func NewEngine(store Store, client Client, vault Vault, options Options, observer Observer) *Engine {
	return &Engine{
		Options: options.withDefaults(), store: store, client: client, vault: vault, observer: observer,
		once: &once{observer: observer, reasons: map[string]string{}}, health: &storeHealth{observer: observer},
		retry: 50 * time.Millisecond, apart: 20 * time.Millisecond, newID: newID,
	}
}

// Ready returns nil, or why the last transaction that writes rows has failed. It is over once such a transaction has
// succeeded, or once nothing is left to be written.
func (e *Engine) Ready() error { return e.health.failing() }

// Run steps what is due until stop is closed, and returns nil once what was in flight is answered and written, which
// takes as long as its leases at most. If ctx is done, it returns the error of ctx, and what was in flight is left to
// the next worker. A store that is away, or a broker that isn't reached, is waited for. The caller is the Only worker
// of its name, and has called Free before. If it loses that right, it closes stop.
func (e *Engine) Run(ctx context.Context, stop <-chan struct{}) error {
	working, cancel := context.WithCancel(ctx)
	r := newRun(working, e)
	defer r.wait()
	defer cancel()
	r.registry.watch()
	if err := r.loop(ctx, stop); err != nil {
		return err
	}
	r.registry.stop()
	return r.settle(ctx, cancel)
}

// A run is one call of Run or RunOnce. All of its goroutines have ended once wait has returned.
type run struct {
	*Engine
	ctx      context.Context
	group    sync.WaitGroup
	registry *registry
	// inFlight are the requests that aren't answered yet, in all and of each broker. running are these, those that are
	// beside, and those whose answers are being written: at most twice as many as may be in flight, so that one
	// transaction of the Store can have the answers to some and the requests that follow.
	inFlight, running int
	busy              map[string]int  // only brokers that have requests in flight
	beside            map[string]int  // of each broker, the requests in flight that take no usual slot
	silent            map[string]bool // whether the last request to a broker wasn't answered
	sendings          chan *sending   // to a goroutine that has no exchange; it is closed once none begins any more
	answered          chan release    // of each request that is answered, or that won't be; it never blocks
	ended             chan nextDue    // of each exchange whose answer is written; it never blocks
	known             time.Time       // when something is due, as far as is known; zero if nothing is
	rest              backOff         // after claims that have failed
	resting           time.Time       // until when nothing is claimed
	claimed           time.Time       // when the last claim began
	look              time.Time       // when the Store is asked again
	asked             map[string]bool // for which brokers it was asked last
}

// nextDue is when the row of an exchange is due again. It isn't, if isDue is false.
type nextDue struct {
	in    time.Duration
	isDue bool
}

func newRun(ctx context.Context, e *Engine) *run {
	r := &run{
		Engine: e, ctx: ctx, busy: map[string]int{}, beside: map[string]int{}, silent: map[string]bool{},
		rest: backOff{first: e.retry},
	}
	r.sendings = make(chan *sending)
	r.answered, r.ended = make(chan release, 2*e.AtOnce), make(chan nextDue, 2*e.AtOnce)
	r.registry = newRegistry(ctx, e, &r.group)
	return r
}

// wait waits for all goroutines. No exchange is begun any more.
func (r *run) wait() {
	close(r.sendings)
	r.group.Wait()
}

// settle waits until what is in flight is answered and written. Once its leases are over, giveUp is called. It returns
// the error of ctx if that is done before.
func (r *run) settle(ctx context.Context, giveUp func()) error {
	limit := time.AfterFunc(r.Exchange+r.Margin, giveUp)
	defer limit.Stop()
	for r.running > 0 {
		select {
		case <-r.ended:
			r.running--
		case <-ctx.Done():
			return ctx.Err()
		}
	}
	return nil
}

// loop begins exchanges until it is to stop.
func (r *run) loop(ctx context.Context, stop <-chan struct{}) error {
	timer := time.NewTimer(0)
	defer timer.Stop()
	for {
		select {
		case <-stop:
			return nil
		case <-ctx.Done():
			return ctx.Err()
		case released := <-r.answered:
			r.freeSlot(released)
			continue
		case next := <-r.ended:
			r.note(next)
			continue
		default:
		}
		resetTimer(timer, r.pump())
		select {
		case <-stop:
			return nil
		case <-ctx.Done():
			return ctx.Err()
		case released := <-r.answered:
			r.freeSlot(released)
		case next := <-r.ended:
			r.note(next)
		case <-r.registry.changed:
			r.look = time.Time{}
		case <-timer.C:
		}
	}
}

func resetTimer(timer *time.Timer, wait time.Duration) {
	if !timer.Stop() {
		select {
		case <-timer.C:
		default:
		}
	}
	timer.Reset(wait)
}

// note takes in that an answer is written.
func (r *run) note(next nextDue) {
	r.running--
	if !next.isDue {
		return
	}
	if at := time.Now().Add(next.in); r.known.IsZero() || at.Before(r.known) {
		r.known = at
	}
}

// pump begins as many exchanges as there are free slots, and returns for how long there is nothing to do.
func (r *run) pump() time.Duration {
	if wait := time.Until(r.resting); wait > 0 {
		return wait
	}
	names, most := r.slots()
	if most <= 0 {
		if r.running == 0 { // no broker is reached, so no row is stepped
			r.health.nothingDue()
		}
		return r.Look
	}
	if wait := r.gather(); wait > 0 {
		return wait
	}
	for _, name := range names {
		if !r.asked[name] { // it took no slot then, and may have something due
			r.look = time.Time{}
		}
	}
	if now := time.Now(); (r.known.IsZero() || now.Before(r.known)) && !now.Before(r.look) {
		r.ask(names)
	}
	if now := time.Now(); !r.known.IsZero() && !now.Before(r.known) {
		r.begin(names, most)
	}
	next := r.look
	if !r.known.IsZero() {
		next = earlier(next, r.known)
	}
	if wait := time.Until(next); wait > 0 {
		return wait
	}
	return 0
}

// gather returns for how long the next claim waits for more free slots: one transaction for many requests costs less
// than many of one each. It is no longer than apart after the last claim, and while half of the slots are free, it is 0.
func (r *run) gather() time.Duration {
	if free := r.AtOnce - r.inFlight; 2*free >= r.AtOnce {
		return 0
	}
	return time.Until(r.claimed.Add(r.apart))
}

// ask asks the Store when something is due.
func (r *run) ask(names []string) {
	r.asked = map[string]bool{}
	for _, name := range names {
		r.asked[name] = true
	}
	due, now, err := r.store.NextDue(r.ctx, names)
	r.known, r.look = time.Time{}, time.Now().Add(r.Look)
	if r.health.read(err) {
		return
	}
	if due.IsZero() || due.After(now) {
		r.health.nothingDue()
	}
	if !due.IsZero() {
		r.known = time.Now().Add(due.Sub(now))
	}
}

// begin claims what is due, and begins its exchanges.
func (r *run) begin(names []string, most int) {
	r.claimed = time.Now()
	claim := r.claim(r.ctx, r.registry, names, most, r.spareSlots())
	r.start(claim.sendings)
	r.known = time.Time{}
	if claim.err == nil && claim.claimed > 0 {
		r.rest.end()
	}
	switch {
	case claim.err != nil: // what was in doubt is due again at once, and may fail again
		r.resting, r.look = time.Now().Add(r.rest.next()), time.Time{}
	case claim.claimed == most: // more may be due
		r.known = time.Now()
	case claim.claimed == 0: // another transaction has locked what is due
		r.look = time.Now().Add(shortRest)
	default:
		r.look = time.Time{}
	}
}

// shortRest is for how long nothing is asked if what is due is locked.
const shortRest = 10 * time.Millisecond

// start begins an exchange for each request, in a goroutine that has ended another one, or in a new one: there are no
// more than exchanges have run at once.
func (r *run) start(sendings []*sending) {
	for _, sending := range sendings {
		r.running++
		r.takeSlot(sending)
		select {
		case r.sendings <- sending:
		default:
			r.group.Add(1)
			go r.exchangeAll(sending)
		}
	}
}

// exchangeAll makes an exchange, and then those that are handed to it, until none begins any more.
func (r *run) exchangeAll(first *sending) {
	defer r.group.Done()
	for next, isOpen := first, true; isOpen; next, isOpen = <-r.sendings {
		of := release{broker: next.out.Broker.Name, isBeside: next.isBeside}
		r.ended <- r.exchange(r.ctx, r.registry, next, func(isAnswered bool) {
			of.isAnswered = isAnswered
			r.answered <- of
		})
	}
}

// newID is a GUID that is made up: of random digits.
func newID() (osb.ID, error) {
	var id osb.ID
	if _, err := rand.Read(id[:]); err != nil {
		return osb.ID{}, fmt.Errorf("no random id: %w", err)
	}
	id[6], id[8] = id[6]&0x0f|0x40, id[8]&0x3f|0x80
	return id, nil
}

// once reports a failure once for each reason, until it is over. Any number of goroutines use it.
type once struct {
	observer Observer
	mu       sync.Mutex
	reasons  map[string]string
}

// hasFailed reports whether there is an error. It reports the error if it is another one than before.
func (o *once) hasFailed(event, broker string, err error) bool {
	if errors.Is(err, context.Canceled) {
		return true
	}
	reason, name := "", event+" "+broker
	if err != nil {
		reason = err.Error()
	}
	o.mu.Lock()
	isNew := o.reasons[name] != reason
	o.reasons[name] = reason
	o.mu.Unlock()
	if err != nil && isNew {
		o.observer.OnFailure(Failure{Event: event, Broker: broker, Err: brief(err)})
	}
	return err != nil
}

// A release says that the slot of a request to a broker is free, and whether the request was answered.
type release struct {
	broker               string
	isBeside, isAnswered bool
}

// takeSlot takes a slot for a request.
func (r *run) takeSlot(s *sending) {
	taken := r.busy
	if s.isBeside {
		taken = r.beside
	} else {
		r.inFlight++
	}
	taken[s.out.Broker.Name]++
}

// freeSlot takes in that a request is answered, or won't be. That an order hangs again says nothing of its broker.
func (r *run) freeSlot(freed release) {
	if freed.isBeside {
		r.beside[freed.broker]--
		r.silent[freed.broker] = r.silent[freed.broker] && !freed.isAnswered
		return
	}
	r.inFlight--
	if r.busy[freed.broker]--; r.busy[freed.broker] == 0 {
		delete(r.busy, freed.broker)
	}
	r.silent[freed.broker] = !freed.isAnswered
}

// slots returns the brokers to which something may be sent, and how many requests. If there are several brokers, those
// that don't answer don't keep the orders of all others waiting:
//
//   - Each takes half of the slots at most. If its last request wasn't answered, it takes one.
//   - For each that has no request in flight a slot is kept, but half of the slots at most.
func (r *run) slots() (names []string, most int) {
	reached, known := r.registry.names()
	most = least(r.AtOnce-r.inFlight, 2*r.AtOnce-r.running)
	for _, name := range reached {
		left := r.slotsLeft(name, known)
		if left <= 0 {
			continue
		}
		names, most = append(names, name), least(most, left)
	}
	if len(names) == 0 {
		most = 0
	}
	return names, most
}

// slotsLeft is how many more requests may be sent to a broker, of so many brokers.
func (r *run) slotsLeft(name string, known int) int {
	share, busy := r.AtOnce, r.busy[name]
	free, others := r.AtOnce-r.inFlight, known-len(r.busy) // others are those without a request in flight
	if busy == 0 {
		others--
	}
	half := (r.AtOnce + 1) / 2
	switch {
	case known <= 1:
	case r.silent[name]:
		share = 1
	default:
		share = half
	}
	kept := least(others, half)
	if busy == 0 { // its own slot may be one of those that are kept
		return least(share, greatest(1, free-kept))
	}
	return least(share-busy, free-kept)
}

// MostInFlight returns how many requests of an engine with these Options.AtOnce are in flight at once, at most: those
// of rows whose last request the broker hasn't taken up are beside the others.
func MostInFlight(atOnce int) int { return atOnce + mostBeside(atOnce) }

func mostBeside(atOnce int) int { return greatest(1, atOnce/2) }

// spareSlots are how many slots a claim may give beside the usual ones: in all, and to the requests to each broker.
type spareSlots struct {
	all int
	to  map[string]int
}

// spareSlots returns the slots for rows whose last request the broker hasn't taken up. Each of these may hang again. So
// they take no usual slot. Beside these there are half as many, and at least one. If there are several brokers, each
// has half of these, and one if it is silent.
func (r *run) spareSlots() *spareSlots {
	names, known := r.registry.names()
	found := &spareSlots{all: mostBeside(r.AtOnce), to: map[string]int{}}
	for _, count := range r.beside {
		found.all -= count
	}
	for _, name := range names {
		share := mostBeside(r.AtOnce)
		switch {
		case known <= 1:
		case r.silent[name]:
			share = 1
		default:
			share = (share + 1) / 2
		}
		found.to[name] = share - r.beside[name]
	}
	return found
}

// hasFor reports whether there is a slot for one more request to a broker, after these decisions.
func (s *spareSlots) hasFor(broker string, decided map[Key]*decision) bool {
	all, left := s.all, s.to[broker]
	for _, decision := range decided {
		if decision.send == nil || !decision.send.isBeside {
			continue
		}
		if all--; decision.Entry.Broker == broker {
			left--
		}
	}
	return all > 0 && left > 0
}

// isPutOff reports whether the broker hasn't taken up the last request of a row. A request that its worker has left is
// none.
func (e Entry) isPutOff() bool { return !e.DueSince.IsZero() && e.Lease.Worker == "" }

// useFor has the request that was decided on a row take a slot beside the usual ones, if the row was put off. If there
// is none, the row rests again for as long as after its last request: what has failed less often is due again sooner. A
// nil spare has the row take a usual slot.
func (s *spareSlots) useFor(now time.Time, e Entry, made *decision, decided map[Key]*decision) {
	switch {
	case s == nil || made.send == nil || !e.isPutOff():
	case s.hasFor(e.Broker, decided):
		made.send.isBeside = true
	default:
		e.Due = now.Add(made.send.terms.wait(e.Unchanged, 0))
		*made = decision{Change: Change{Entry: e}, before: e.State}
	}
}

func least(one, other int) int {
	if one < other {
		return one
	}
	return other
}

func greatest(one, other int) int {
	if one > other {
		return one
	}
	return other
}

// atMostAnHour is how much of a Retry-After counts: a gateway may have written it.
func atMostAnHour(named time.Duration) time.Duration {
	if named > time.Hour {
		return time.Hour
	}
	return named
}

// A pace is how quickly a row is gone on with.
type pace struct {
	first   time.Duration // until the next request, if the broker names no time
	longest time.Duration // what that grows to by doubling, each time that nothing has changed
	// share is chance, from 0 to 1. Up to a half is added to each time, so that many rows aren't due at once. A time
	// that the broker has named gets no longer than an hour by that.
	share func() float64
}

// wait is the time until the next request: the back-off, or what the broker has named if that is longer. unchanged is
// how many requests in turn have changed nothing.
func (p pace) wait(unchanged int, named time.Duration) time.Duration {
	chosen := p.first
	for n := 0; n < unchanged && chosen < p.longest; n++ {
		chosen *= 2
	}
	if chosen > p.longest {
		chosen = p.longest
	}
	if named = atMostAnHour(named); chosen < named {
		return atMostAnHour(p.spread(named))
	}
	return p.spread(chosen)
}

// spread adds up to a half to a time.
func (p pace) spread(chosen time.Duration) time.Duration {
	return chosen + time.Duration(float64(chosen)*p.share()/2)
}

// later is the later of two times.
func later(one, other time.Time) time.Time {
	if one.Before(other) {
		return other
	}
	return one
}

// earlier is the earlier of two times.
func earlier(one, other time.Time) time.Time {
	if other.Before(one) {
		return other
	}
	return one
}

// Points are the names of the platform's crash points, in the order in which an order reaches them.
var Points = []string{
	"order-next",    // an order, or a change that an operator asks for, is about to be committed
	"order-written", // it is committed, and nothing is reported yet
	"claim-next",    // it is decided on a row that is due, and nothing is committed yet
	"claim-written", // it is committed; the request is recorded as in flight, and isn't sent yet
	"send-next",     // the request is about to be sent
	"send-running",  // some milliseconds later: it is being sent, or its answer awaited
	"fetch-next",    // a Poll was answered succeeded, and the Fetch isn't sent yet
	"take-next",     // an answer, or a timeout, is in the record, and nothing is committed yet
	"take-written",  // it is committed
}

var (
	// ErrUnreached reports that brokers haven't answered their catalogues.
	ErrUnreached = errors.New("brokers weren't reached")
	// ErrLocked reports that others have kept rows locked that are due.
	ErrLocked = errors.New("rows that are due stay locked by other transactions. Run it again")
)

// RunOnce does what is due, waits for the answers, and returns. It asks each broker for its catalogue first, for as
// long as an exchange may last. It waits no longer for a broker that refuses the user, the password or the version. For
// as long as an exchange may last, it waits for rows that are due and that others have locked.
//
// Errors: that of ctx; the first of the Store, once what was in flight is written, or its leases are over; ErrLocked if
// such a row stays locked; ErrUnreached if a broker wasn't reached, or refuses the user or the password, with the
// reason. The orders concerned are left to a later run.
func (e *Engine) RunOnce(ctx context.Context) error { return e.RunOnceUntil(ctx, nil) }

// RunOnceUntil is RunOnce that begins nothing more once stop is closed. Then it returns nil once what was in flight is
// answered and written, which takes as long as its leases at most.
func (e *Engine) RunOnceUntil(ctx context.Context, stop <-chan struct{}) error {
	working, cancel := context.WithCancel(ctx)
	r := newRun(working, e)
	defer r.wait()
	defer cancel()
	r.stopAt(stop)
	err := r.registry.reachAll()
	if err == nil {
		err = r.drain(r.registry.ctx)
	}
	if settled := r.settle(ctx, cancel); settled != nil {
		return settled
	}
	if r.registry.ctx.Err() != nil { // it was stopped
		return ctx.Err()
	}
	if err != nil {
		return err
	}
	if unreached := r.registry.unreachedBrokers(); len(unreached) > 0 {
		return fmt.Errorf("%w: %s", ErrUnreached, strings.Join(unreached, "; "))
	}
	return nil
}

// stopAt has the asking of the registry end once stop is closed.
func (r *run) stopAt(stop <-chan struct{}) {
	r.group.Add(1)
	go func() {
		defer r.group.Done()
		select {
		case <-stop:
			r.registry.stop()
		case <-r.ctx.Done():
		}
	}()
}

// drain goes on until nothing is due and nothing is in flight, or ctx is done.
func (r *run) drain(ctx context.Context) error {
	var since lockWatch
	for {
		if ctx.Err() != nil {
			return ctx.Err()
		}
		claim := claimResult{}
		names, most := r.slots()
		if most > 0 {
			claim = r.claim(r.ctx, r.registry, names, most, nil) // each row is sent once, so none is put off
			r.start(claim.sendings)
			if claim.err != nil {
				return claim.err
			}
		}
		if claim.claimed > 0 { // none of these is due at once any more
			since = lockWatch{}
			continue
		}
		if r.running == 0 && r.inFlight == 0 { // with requests in flight, no slot may have been free
			isDue, err := r.restIfDue(ctx, names, &since)
			if err != nil || !isDue {
				return err
			}
			continue
		}
		select {
		case released := <-r.answered:
			r.freeSlot(released)
		case next := <-r.ended:
			r.note(next)
		case <-ctx.Done():
			return ctx.Err()
		}
	}
}

// lockWatch is since when nothing was claimed though something is due. Claim passes over what others have locked.
type lockWatch struct {
	due   time.Time // the Store's time. What is due later is left to a later run: else one beside a busy worker never ends
	until time.Time // until when it is waited for
}

// restIfDue rests for a moment if something was due already when nothing was claimed for the first time, and returns
// whether it was.
//
// Errors: those of the Store and of ctx; ErrLocked if it is waited for no longer.
func (r *run) restIfDue(ctx context.Context, names []string, since *lockWatch) (bool, error) {
	due, now, err := r.store.NextDue(ctx, names)
	if r.health.read(err) {
		return false, err
	}
	if since.until.IsZero() {
		*since = lockWatch{due: now, until: time.Now().Add(r.Exchange)}
	}
	switch {
	case due.IsZero() || due.After(since.due):
		return false, nil
	case time.Now().After(since.until):
		return false, ErrLocked
	}
	timer := time.NewTimer(shortRest)
	defer timer.Stop()
	select {
	case <-timer.C:
		return true, nil
	case <-ctx.Done():
		return false, ctx.Err()
	}
}
