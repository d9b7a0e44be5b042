package run

import (
	"context"
	"strconv"
	"sync"
	"time"

	"pippinterm/platform"
	"pippinterm/storm/fault"
	"pippinterm/storm/run/audit"
)

// A life is what the operator does with one instance. It depends on the seed and on the number of the instance alone.
type life struct {
	number   int
	begin    time.Duration
	bindings int
	early    bool // it is removed before it is ready
	stays    bool // it is never removed
	whole    bool // its bindings are removed with it, and otherwise before
	pause    time.Duration
	updates  int // before the pause
}

// lives returns the lives of a run. If only isn't nil, it returns those of these instances, and all begin at once.
func lives(seed int64, count int, within time.Duration, isBindable bool, only map[int]bool) (all []life) {
	for number := 1; number <= count; number++ {
		chance := fault.Chance(seed, "life", strconv.Itoa(number))
		it := life{
			number: number, begin: time.Duration(float64(within) * 0.6 * float64(number-1) / float64(count)),
			bindings: chance.Intn(3), early: chance.Float64() < 0.2, stays: chance.Float64() < 0.2,
			whole: chance.Float64() < 0.7, pause: time.Duration(chance.Float64() * float64(time.Second)),
			updates: chance.Intn(4),
		}
		if !isBindable {
			it.bindings = 0
		}
		if only != nil {
			it.begin = 0
		}
		if only == nil || only[number] {
			all = append(all, it)
		}
	}
	return all
}

// A course is how a run goes: the lives, the end of the faults, and the time until everything has converged.
type course struct {
	orders           Orders
	keys             *Keys
	events           *events
	updates          *updater
	look             func(context.Context) // compares the records with what exists
	lookEach         time.Duration         // between two looks
	source           *fault.Source
	now              func() time.Duration
	isQuiet          func() bool            // no request is on its way to the broker
	lives            func(round int) []life // from 0; a further round begins only if isDone returns false
	isDone           func() bool            // besides the lives, nothing has to happen before the faults end
	endsWhenDone     bool                   // the faults end once isDone returns true, whatever the lives still have to do
	calm             func()                 // is called when the faults end
	time, settleTime time.Duration
}

// run lives all lives, ends the faults, and waits until everything has converged. If ctx is done, it doesn't wait. It
// reports whether everything has converged, and how long that took.
func (c *course) run(ctx context.Context) (converged bool, took time.Duration) {
	looking, endLooks := context.WithCancel(ctx)
	var looks sync.WaitGroup
	looks.Add(1)
	go func() {
		defer looks.Done()
		for fault.Sleep(looking, c.lookEach) {
			c.look(looking)
		}
	}()
	operator := &operator{orders: c.orders, keys: c.keys, events: c.events, updates: c.updates, look: readEach}
	storming, endStorm := context.WithTimeout(ctx, c.time)
	looks.Add(1)
	go func() {
		defer looks.Done()
		c.endOnceDone(storming, endStorm)
	}()
	operator.run(storming, c.lives(0))
	for round := 1; storming.Err() == nil && !c.isDone(); round++ {
		operator.run(storming, c.lives(round))
	}
	operator.settle(storming, c.isQuiet) // then the storm ends before
	endStorm()
	c.calm()
	c.source.End()
	c.events.add(Key{}, "osb-storm", "ends the faults")
	ended := c.now()
	settling, cancel := context.WithTimeout(ctx, c.settleTime)
	converged = operator.settle(settling, c.isQuiet)
	cancel()
	took = c.now() - ended
	endLooks()
	looks.Wait()
	return converged, took
}

// endOnceDone calls end once nothing has to happen any more, unless the lives decide. It returns once ctx is done.
func (c *course) endOnceDone(ctx context.Context, end func()) {
	for c.endsWhenDone && fault.Sleep(ctx, doneEach) {
		if c.isDone() {
			end()
		}
	}
}

// doneEach is how often a course looks whether the faults may end.
const doneEach = 200 * time.Millisecond

// Orders are what an operator can do at a platform.
type Orders interface {
	Create(ctx context.Context, key Key) error
	Bind(ctx context.Context, key Key) error
	Remove(ctx context.Context, key Key, withBindings bool) error
	Record(ctx context.Context, key Key) (Record, error)
	Records(ctx context.Context) (map[Key]Record, error)
}

// An operator creates, binds, updates, unbinds and removes, as the lives say.
type operator struct {
	orders  Orders
	keys    *Keys
	events  *events
	updates *updater      // or nil
	look    time.Duration // how often a record is read while the operator waits for it
}

// run lives all lives, until ctx is done.
func (o *operator) run(ctx context.Context, all []life) {
	atOnce(all, func(l life) { o.live(ctx, l) })
}

func (o *operator) live(ctx context.Context, l life) {
	if !fault.Sleep(ctx, l.begin) {
		return
	}
	key := o.keys.instance(l.number)
	if !o.do(ctx, key, "creates the instance", func() error { return o.orders.Create(ctx, key) }) {
		return
	}
	if l.early {
		_ = fault.Sleep(ctx, l.pause) && o.remove(ctx, key, true)
		return
	}
	if o.rest(ctx, key).State != audit.Ready {
		return
	}
	bindings := o.bind(ctx, key, l)
	for count := 0; count < l.updates; count++ {
		o.updates.update(ctx, key, l.number)
	}
	if l.stays || !fault.Sleep(ctx, l.pause) {
		return
	}
	for _, binding := range bindings {
		if !l.whole && o.remove(ctx, binding, false) {
			o.rest(ctx, binding)
		}
	}
	o.remove(ctx, key, true)
}

// bind creates the bindings of a life, and waits for them.
func (o *operator) bind(ctx context.Context, of Key, l life) (bindings []Key) {
	for count := 0; count < l.bindings; count++ {
		key := o.keys.binding(of)
		if o.do(ctx, key, "creates the binding", func() error { return o.orders.Bind(ctx, key) }) {
			bindings = append(bindings, key)
			o.rest(ctx, key)
		}
	}
	return bindings
}

func (o *operator) remove(ctx context.Context, key Key, withBindings bool) bool {
	what := "removes the instance"
	if key.Binding != "" {
		what = "removes the binding"
	} else {
		o.updates.end(ctx, key)
	}
	return o.do(ctx, key, what, func() error { return o.orders.Remove(ctx, key, withBindings && key.Binding == "") })
}

// do does something, and notes it. It reports whether it was done.
func (o *operator) do(ctx context.Context, key Key, what string, call func() error) bool {
	if ctx.Err() != nil {
		return false
	}
	o.events.add(key, "operator", what)
	if err := call(); err != nil {
		o.events.add(key, "operator", "the platform rejects that: "+err.Error())
		return false
	}
	return true
}

// rest waits until a record rests, or ctx is done.
func (o *operator) rest(ctx context.Context, key Key) Record {
	for {
		record, err := o.orders.Record(ctx, key)
		if err == nil && record.Rests || !fault.Sleep(ctx, o.look) {
			return record
		}
	}
}

// settle waits until every record rests and nothing is in flight any more. It removes what waits for an operator. It
// reports whether that was reached before ctx was done.
func (o *operator) settle(ctx context.Context, isQuiet func() bool) bool {
	for {
		records, err := o.orders.Records(ctx)
		rests := err == nil && isQuiet()
		for key, record := range records {
			if record.State == platform.Unsettled && record.Rests {
				rests = !o.remove(ctx, key, true) && rests
			}
			rests = rests && record.Rests
		}
		if rests {
			return true
		}
		if !fault.Sleep(ctx, o.look) {
			return false
		}
	}
}
