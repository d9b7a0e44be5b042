package broker

import (
	"context"
	"errors"
	"math/rand"
	"sync"
	"time"
)

// A Sweeper goes on with what is unfinished: at the start, again and again, and if a request touches it. Work that
// hangs or fails doesn't hold up the work of other keys, and is tried again after a pause that grows
// (ServiceOptions.LongestPause).
type Sweeper struct {
	service  *Service
	observer Observer

	turn     sync.Mutex
	change   *sync.Cond
	queue    []Key          // the keys that wait
	failing  []Key          // the keys that wait and whose last work failed
	old      []Key          // the keys that wait and were unfinished at the start
	tended   map[Key]bool   // the keys that wait or are gone on with; true if one was touched meanwhile
	reasons  map[Key]string // why a key wasn't ended, so that it is reported once for each reason
	slots    *slots         // nil before Run
	setbacks *setbacks
	isOver   bool
}

// NewSweeper makes a sweeper over a service. The observer gets why a key wasn't ended, once for each reason.
func NewSweeper(service *Service, observer Observer) *Sweeper {
	s := &Sweeper{
		service: service, observer: observer, tended: map[Key]bool{}, reasons: map[Key]string{},
		setbacks: newSetbacks(0, service.options.LongestPause),
	}
	s.change = sync.NewCond(&s.turn)
	return s
}

// Touch has the key gone on with soon. It returns at once. A key that rests after a failure isn't touched: a sweep
// finds it.
func (s *Sweeper) Touch(key Key) { s.touch(key, &s.queue) }

// touch is Touch. The key waits in this queue, unless its last work failed.
func (s *Sweeper) touch(key Key, in *[]Key) {
	s.turn.Lock()
	defer s.turn.Unlock()
	if s.isOver {
		return
	}
	if _, isTended := s.tended[key]; isTended {
		s.tended[key] = true
		return
	}
	s.enqueue(key, in)
}

// enqueue has a key wait that isn't tended, unless it rests.
func (s *Sweeper) enqueue(key Key, in *[]Key) {
	switch {
	case s.setbacks.rests(key):
		delete(s.tended, key)
		return
	case s.setbacks.isFailing(key):
		s.failing = append(s.failing, key)
	default:
		*in = append(*in, key)
	}
	s.tended[key] = false
	s.change.Broadcast()
}

// Run sweeps until stop is done, at least every so often, and returns once all that was being done then has ended. The
// work has ctx. Run is called once.
//
// So many workers go on with keys at once, and beside them work that is slow or has failed before: MostRuns in all.
func (s *Sweeper) Run(ctx, stop context.Context, workers int, every time.Duration) {
	s.turn.Lock()
	s.slots, s.setbacks.shortest = newSlots(workers), every
	s.turn.Unlock()
	var running sync.WaitGroup
	for n := 0; n < MostRuns(workers); n++ {
		running.Add(1)
		go func() {
			defer running.Done()
			for s.tendNext(ctx) {
			}
		}()
	}
	s.sweep(ctx, stop, every)
	s.turn.Lock()
	s.isOver = true
	s.turn.Unlock()
	s.change.Broadcast()
	running.Wait()
}

// sweep touches all that is unfinished at first, and later what was so a sweep ago: what is newer has a worker.
func (s *Sweeper) sweep(ctx, stop context.Context, every time.Duration) {
	again := time.NewTicker(every)
	defer again.Stop()
	var before map[Key]bool
	for {
		if found, err := s.service.store.UnfinishedKeys(ctx); err != nil {
			s.observer.OnFailure(Failure{Event: "unfinished_unreadable", Err: err})
		} else {
			before = s.touchAll(found, before)
		}
		select {
		case <-stop.Done():
			return
		case <-again.C:
		}
	}
}

func (s *Sweeper) touchAll(found []Key, before map[Key]bool) map[Key]bool {
	s.turn.Lock()
	s.setbacks.forget(s.tended)
	s.turn.Unlock()
	now, in := make(map[Key]bool, len(found)), &s.queue
	if before == nil {
		in = &s.old
	}
	for _, key := range found {
		now[key] = true
		if before == nil || before[key] {
			s.touch(key, in)
		}
	}
	return now
}

// tendNext goes on with the next key, and returns whether there may be another.
func (s *Sweeper) tendNext(ctx context.Context) bool {
	run, ok := s.take()
	if !ok {
		return false
	}
	key, went := run.key, backendUnused
	err := safely(func() (err error) {
		went, err = s.service.takeUp(ctx, key)
		return err
	})
	s.turn.Lock()
	defer s.turn.Unlock()
	s.slots.end(run, went)
	s.setbacks.add(key, went, err != nil)
	s.tell(key, err)
	if s.tended[key] && !s.isOver {
		s.enqueue(key, &s.queue)
	} else {
		delete(s.tended, key)
	}
	s.change.Broadcast()
	return true
}

// tell reports to the observer why a key wasn't ended, once for each reason.
func (s *Sweeper) tell(key Key, err error) {
	switch {
	case err == nil:
		delete(s.reasons, key)
	case s.reasons[key] != err.Error():
		s.reasons[key] = err.Error()
		event := "not_ended"
		if errors.Is(err, ErrStillTaken) {
			event = "lock_stays_taken"
		}
		s.observer.OnFailure(Failure{Event: event, Key: key, IsNamed: true, Err: err})
	}
}

// take waits for the next key for which there is a slot. It returns false once the sweeper is over.
func (s *Sweeper) take() (*run, bool) {
	s.turn.Lock()
	defer s.turn.Unlock()
	for !s.isOver {
		isFree, asFailing := s.slots.isFreeForOld()
		switch {
		case len(s.old) > 0 && isFree:
			return s.watch(s.slots.beginOld(pop(&s.old, 0), asFailing)), true
		case len(s.queue) > 0 && s.slots.isFree(false):
			return s.watch(s.slots.begin(pop(&s.queue, 0), false)), true
		case len(s.failing) > 0 && s.slots.isFree(true):
			return s.watch(s.slots.begin(pop(&s.failing, s.setbacks.next(s.failing)), true)), true
		}
		s.change.Wait()
	}
	return nil, false
}

// pop takes a key out of a queue. The others stay in their order.
func pop(from *[]Key, at int) Key {
	key := (*from)[at]
	copy((*from)[1:at+1], (*from)[:at])
	*from = (*from)[1:]
	return key
}

// watch has a run that has begun leave its slot once it is slow, and returns the run.
func (s *Sweeper) watch(begun *run) *run {
	s.tended[begun.key] = false
	begun.timer = time.AfterFunc(s.slots.slowAfter(), func() {
		s.turn.Lock()
		defer s.turn.Unlock()
		s.slots.becomeSlow(begun)
		s.change.Broadcast()
	})
	return begun
}

// A run is slow once it has taken a multiple of what runs take that succeed, within these bounds.
const (
	slowFactor   = 4
	shortestSlow = 250 * time.Millisecond
	longestSlow  = 5 * time.Second
)

// DefaultLongestPause is how long a key whose work fails again and again rests at most, if LongestPause is 0.
const DefaultLongestPause = time.Minute

const (
	mostSetbacks = 10_000    // keys whose failures are known. Others count as if they hadn't failed
	forgetAfter  = time.Hour // after the last failure of a key, and its rest
)

// MostRuns returns how many calls of the backend a sweeper with so many workers does at once, at most: twice as many,
// and three for one worker.
func MostRuns(workers int) int { return workers + mostBeside(workers) }

func mostBeside(workers int) int {
	if workers < 2 {
		return 2
	}
	return workers
}

// mostFailing is how many runs there may be at once of keys whose last work failed.
func mostFailing(workers int) int {
	if workers < 2 {
		return 1
	}
	return workers / 2
}

// A run goes on with one key.
type run struct {
	key       Key
	begun     time.Time
	isFailing bool // whether the last work of the key failed
	isBeside  bool // whether it has one of the slots beside the usual ones
	isOld     bool // whether it has one of the usual slots that what was unfinished at the start may have
	isOver    bool
	timer     *time.Timer // until it is slow
}

// Slots are what runs take, one each, so that work that hangs or fails doesn't hold up the work of other keys:
//
//   - A run begins in one of the usual slots. There are as many as workers.
//   - A slow run moves to one of the slots beside these, if one is free. There are as many again, and at least two.
//   - A run of a key whose last work failed begins beside the usual slots. Such runs have at most half as many slots
//     as there are workers, and at least one.
//   - A run of a key that was unfinished when the sweeper started begins in a usual slot, but leaves half of these to
//     other keys: nobody knows whether its work hung. With one worker it begins beside, as if it had failed.
type slots struct {
	workers                int
	usual, beside, failing int           // runs; failing ones are beside, too
	old                    int           // runs in usual slots of keys that were unfinished at the start
	slow                   map[*run]bool // the slow runs that are still in usual slots
	typical                time.Duration // what runs take that succeed, or 0
}

func newSlots(workers int) *slots { return &slots{workers: workers, slow: map[*run]bool{}} }

// isFree reports whether a run may begin of a key whose last work failed, or of another key.
func (p *slots) isFree(isFailing bool) bool {
	if isFailing {
		return p.failing < mostFailing(p.workers) && p.beside < mostBeside(p.workers)
	}
	return p.usual < p.workers
}

// isFreeForOld reports whether a run may begin of a key that was unfinished at the start, and whether as if it had
// failed.
func (p *slots) isFreeForOld() (isFree, asFailing bool) {
	if p.workers < 2 {
		return p.isFree(true), true
	}
	return p.usual < p.workers && p.old < p.workers-mostFailing(p.workers), false
}

// beginOld takes the slot that isFreeForOld has found.
func (p *slots) beginOld(key Key, asFailing bool) *run {
	begun := p.begin(key, asFailing)
	if begun.isOld = !asFailing; begun.isOld {
		p.old++
	}
	return begun
}

// leaveUsual has a run leave its usual slot.
func (p *slots) leaveUsual(r *run) {
	if p.usual--; r.isOld {
		p.old--
	}
}

// begin takes a slot that is free.
func (p *slots) begin(key Key, isFailing bool) *run {
	if isFailing {
		p.failing++
		p.beside++
	} else {
		p.usual++
	}
	return &run{key: key, begun: time.Now(), isFailing: isFailing, isBeside: isFailing}
}

// slowAfter returns how long a run may take before it is slow.
func (p *slots) slowAfter() time.Duration {
	switch after := slowFactor * p.typical; {
	case after < shortestSlow:
		return shortestSlow
	case after > longestSlow:
		return longestSlow
	default:
		return after
	}
}

// becomeSlow has a run leave its usual slot, as soon as there is one beside, unless the run has ended meanwhile.
func (p *slots) becomeSlow(r *run) {
	if !r.isBeside && !r.isOver {
		p.slow[r] = true
		p.moveSlow()
	}
}

func (p *slots) moveSlow() {
	for r := range p.slow {
		if p.beside >= mostBeside(p.workers) {
			return
		}
		delete(p.slow, r)
		r.isBeside = true
		p.leaveUsual(r)
		p.beside++
	}
}

// end gives the slot of a run back.
func (p *slots) end(r *run, went backendResult) {
	r.isOver = true
	r.timer.Stop()
	delete(p.slow, r)
	switch {
	case r.isFailing:
		p.failing--
		p.beside--
	case r.isBeside:
		p.beside--
	default:
		p.leaveUsual(r)
	}
	p.moveSlow()
	if took := time.Since(r.begun); went == backendSucceeded && p.typical == 0 {
		p.typical = took
	} else if went == backendSucceeded {
		p.typical += (took - p.typical) / 8
	}
}

// A setback is what is known of a key whose last work failed.
type setback struct {
	times int       // how often one after the other
	until time.Time // until when it rests: since it failed, if the work has ended, and only failed
}

// setbacks are the keys whose last work failed.
type setbacks struct {
	of       map[Key]setback
	shortest time.Duration // of the first rest
	longest  time.Duration
	random   *rand.Rand
}

func newSetbacks(shortest, longest time.Duration) *setbacks {
	if longest == 0 {
		longest = DefaultLongestPause
	}
	return &setbacks{map[Key]setback{}, shortest, longest, rand.New(rand.NewSource(time.Now().UnixNano()))}
}

// add notes how work of a key went. If the work goes on, the key rests, twice as long each time, and a random part less
// so that keys that failed together aren't tried again together.
func (s *setbacks) add(key Key, went backendResult, goesOn bool) {
	known, isKnown := s.of[key]
	switch {
	case went == backendSucceeded:
		delete(s.of, key)
	case went == backendFailed && (isKnown || len(s.of) < mostSetbacks):
		known.until = time.Now()
		if goesOn {
			known.until = known.until.Add(s.pause(known.times))
		}
		known.times++
		s.of[key] = known
	}
}

// pause returns how long a key rests that has failed so many times before.
func (s *setbacks) pause(times int) time.Duration {
	pause := s.shortest
	for ; times > 0 && pause < s.longest; times-- {
		pause *= 2
	}
	if pause > s.longest {
		pause = s.longest
	}
	return pause - time.Duration(s.random.Int63n(int64(pause)/2+1))
}

func (s *setbacks) isFailing(key Key) bool { _, isKnown := s.of[key]; return isKnown }

func (s *setbacks) rests(key Key) bool { return time.Now().Before(s.of[key].until) }

// next is the position in a queue, which isn't empty, of the key that has failed the least often, and of the first of
// these. So keys that fail again and again don't hold up one that has failed once.
func (s *setbacks) next(queue []Key) (at int) {
	for n, key := range queue {
		switch times := s.of[key].times; {
		case times == 0:
			return n
		case times < s.of[queue[at]].times:
			at = n
		}
	}
	return at
}

// forget forgets the keys that haven't rested or failed for long, and don't wait for their turn.
func (s *setbacks) forget(waiting map[Key]bool) {
	for key, setback := range s.of {
		if _, isWaiting := waiting[key]; !isWaiting && time.Since(setback.until) > forgetAfter {
			delete(s.of, key)
		}
	}
}
