package platform

import (
	"context"
	"encoding/json"
	"errors"
	"fmt"
	"sync"
	"sync/atomic"
	"testing"
	"time"

	"pippinterm/internal/crash"
	"pippinterm/internal/diff"
)

// patience is how long a test waits for what has to happen.
const patience = time.Minute

// A line is a Client over a seller, in real time. What it does may be replaced while it runs.
type line struct {
	Silent
	seller *seller

	mu        sync.Mutex
	exchange  func(context.Context, Outgoing) Incoming
	catalogue func(Broker) (string, int, error)
	failures  []Failure
	reached   int
	sent      []Exchange
	answered  []Exchange
	reported  []string // each change of a state, and each orphan
}

func newLine() *line {
	l := &line{seller: newSeller(), catalogue: func(Broker) (string, int, error) { return sold, 200, nil }}
	l.exchange = func(_ context.Context, out Outgoing) Incoming { return l.seller.handle(out).incoming(out) }
	return l
}

func (l *line) Clock() time.Time { return time.Now() }

func (l *line) Exchange(ctx context.Context, out Outgoing) Incoming {
	l.mu.Lock()
	exchange := l.exchange
	l.mu.Unlock()
	return exchange(ctx, out)
}

func (l *line) Catalogue(_ context.Context, broker Broker) (json.RawMessage, int, error) {
	l.mu.Lock()
	catalogue := l.catalogue
	l.mu.Unlock()
	document, status, err := catalogue(broker)
	return json.RawMessage(document), status, err
}

func (l *line) set(change func()) {
	l.mu.Lock()
	defer l.mu.Unlock()
	change()
}

func (l *line) OnRequest(it Exchange) { l.set(func() { l.sent = append(l.sent, it) }) }

func (l *line) OnAnswer(it Exchange) { l.set(func() { l.answered = append(l.answered, it) }) }

func (l *line) OnChange(_ Key, before, after State) {
	l.set(func() { l.reported = append(l.reported, fmt.Sprintf("%s to %s", before, after)) })
}

func (l *line) OnOrphan(_ Key, status int, isFound bool) {
	l.set(func() { l.reported = append(l.reported, fmt.Sprintf("orphan %d %v", status, isFound)) })
}

func (l *line) OnFailure(it Failure) { l.set(func() { l.failures = append(l.failures, it) }) }

func (l *line) OnCatalogue(string) { l.set(func() { l.reached++ }) }

// failed counts the failures of an event.
func (l *line) hasFailed(event string) (count int) {
	l.set(func() {
		for _, failure := range l.failures {
			if failure.Event == event {
				count++
			}
		}
	})
	return count
}

// A plant is an engine in real time, and what it works with.
type plant struct {
	*line
	t      *testing.T
	store  *memory
	orders *Orders
	engine *Engine
}

func newPlant(t *testing.T, options Options) *plant {
	t.Helper()
	p := &plant{line: newLine(), t: t, store: newMemory(time.Now)}
	p.orders = NewOrders(p.store, seal{})
	p.addBroker("shelf")
	options.Worker, options.Look = "one", 5*time.Millisecond
	options.FirstPace, options.LongestPace = time.Millisecond, 4*time.Millisecond
	p.engine = NewEngine(p.store, p.line, seal{}, options, p.line)
	p.engine.retry = time.Millisecond
	return p
}

func (p *plant) addBroker(name string) {
	p.t.Helper()
	check(p.t, p.orders.AddBroker(background, Broker{Name: name, URL: "https://" + name, User: "u"}, []byte("secret")))
}

// start has the engine run until the end of the test, and returns what stops it and returns its error.
func (p *plant) start(ctx context.Context) (stop func() error) {
	ending, ended := make(chan struct{}), make(chan error, 1)
	go func() { ended <- p.engine.Run(ctx, ending) }()
	var once sync.Once
	stop = func() (err error) {
		once.Do(func() {
			close(ending)
			select {
			case err = <-ended:
			case <-time.After(patience):
				err = errors.New("Run doesn't return")
			}
		})
		return err
	}
	p.t.Cleanup(func() { _ = stop() })
	return stop
}

// create orders an instance once the catalogue is there.
func (p *plant) create(wanted NewInstance) Key {
	p.t.Helper()
	wanted.Broker, wanted.Service = orText(wanted.Broker, "shelf"), "shelf"
	wanted.Plan = orText(wanted.Plan, "now")
	var key Key
	p.until("an order", func() bool {
		e, err := p.orders.Create(background, wanted)
		key = e.Key
		return err == nil
	})
	return key
}

// until waits for something to become so.
func (p *plant) until(what string, isSo func() bool) {
	p.t.Helper()
	for end := time.Now().Add(patience); !isSo(); time.Sleep(time.Millisecond) {
		if time.Now().After(end) {
			p.t.Fatalf("got no end of the wait for %s, want it", what)
		}
		p.seller.goOn()
	}
}

func (p *plant) untilState(key Key, want State) Entry {
	p.t.Helper()
	var e Entry
	p.until(string(want), func() bool {
		e = diff.Value(p.store.Read(background, key))(p.t)
		return e.State == want
	})
	return e
}

func TestRun(t *testing.T) {
	p := newPlant(t, Options{})
	stop := p.start(background)
	for _, plan := range planNames {
		instance := p.create(NewInstance{Plan: plan})
		p.untilState(instance, Ready)
		var bindings []Key
		for n := 0; n < 3; n++ {
			e := diff.Value(p.orders.Bind(background, NewBinding{Instance: instance.String()}))(t)
			bindings = append(bindings, e.Key)
		}
		for _, binding := range bindings {
			p.untilState(binding, Ready)
			object := diff.Value(p.orders.Credentials(background, binding))(t)
			diff.Equal(t, string(object), p.seller.object(binding), "the credentials")
		}
		diff.Error(t, diff.Err(p.orders.Remove(background, instance, false)), "an instance with bindings")
		diff.Value(p.orders.Remove(background, instance, true))(t)
		p.untilState(instance, Gone)
		for _, binding := range bindings {
			p.untilState(binding, Gone)
		}
	}
	diff.NoError(t, stop(), "")
	diff.Empty(t, p.seller.things, "things")
	diff.Equal(t, p.hasFailed("store_failed"), 0, "")
	p.checkIdentities()
}

// checkIdentities is that each request has an identity of its own.
func (p *plant) checkIdentities() {
	p.t.Helper()
	identities := map[string]bool{}
	for _, request := range p.sent {
		identities[request.RequestID] = true
	}
	if len(identities) != len(p.sent) || len(p.sent) == 0 {
		p.t.Errorf("got %d requests with %d identities, want as many", len(p.sent), len(identities))
	}
}

// The options that are zero have their defaults.
func TestOptions(t *testing.T) {
	got := Options{}.withDefaults()
	if got.AtOnce != 64 || got.Exchange != time.Minute || got.Margin != 30*time.Second || got.Look != time.Second ||
		got.FirstPace != 2*time.Second || got.LongestPace != 2*time.Minute || got.LongestPoll != 168*time.Hour ||
		got.Hold != 300*time.Second || got.Unsettled != RemoveUnsettled || got.Share == nil {
		t.Errorf("got %+v, want the documented defaults", got)
	}
}

// Besides AtOnce, half as many may be in flight, and at least one.
func TestMostInFlight(t *testing.T) {
	for atOnce, want := range map[int]int{1: 2, 2: 3, 16: 24, 1024: 1536} {
		t.Run(fmt.Sprint(atOnce), func(t *testing.T) {
			diff.Equal(t, MostInFlight(atOnce), want, "MostInFlight(%d)", atOnce)
		})
	}
}

// No more requests are in flight at once than there are slots.
func TestRunAtOnce(t *testing.T) {
	p := newPlant(t, Options{AtOnce: 3})
	check(t, p.engine.RunOnce(background))
	var now, most atomic.Int32
	usual := p.line.exchange
	p.line.exchange = func(ctx context.Context, out Outgoing) Incoming {
		if n := now.Add(1); n > most.Load() {
			most.Store(n)
		}
		time.Sleep(2 * time.Millisecond)
		defer now.Add(-1)
		return usual(ctx, out)
	}
	var keys []Key
	for n := 0; n < 20; n++ {
		keys = append(keys, p.create(NewInstance{}))
	}
	p.start(background)
	for _, key := range keys {
		p.untilState(key, Ready)
	}
	diff.AtMost(t, most.Load(), 3, "in flight at once")
	diff.AtLeast(t, most.Load(), 2, "in flight at once")
}

// While answers are being written, further requests are sent, as long as no more than twice as many aren't written.
func TestRunWritesBeside(t *testing.T) {
	p := newPlant(t, Options{AtOnce: 2})
	check(t, p.engine.RunOnce(background))
	writes := make(chan struct{})
	p.store.between = func(point string, _ Key) {
		if point == "change-commit" {
			<-writes
		}
	}
	var sent atomic.Int32
	usual := p.line.exchange
	p.line.exchange = func(ctx context.Context, out Outgoing) Incoming {
		sent.Add(1)
		return usual(ctx, out)
	}
	var keys []Key
	for n := 0; n < 10; n++ {
		keys = append(keys, p.create(NewInstance{}))
	}
	p.start(background)
	p.until("four requests", func() bool { return sent.Load() == 4 })
	time.Sleep(20 * time.Millisecond)
	diff.Equal(t, sent.Load(), 4, "requests sent")
	close(writes)
	for _, key := range keys {
		p.untilState(key, Ready)
	}
}

// A broker that doesn't answer keeps the orders of another one from nothing.
func TestRunBesideOneThatHangs(t *testing.T) {
	p := newPlant(t, Options{AtOnce: 4})
	p.addBroker("drawer")
	check(t, p.engine.RunOnce(background))
	answer := make(chan struct{})
	usual := p.line.exchange
	var hanging atomic.Int32
	p.line.exchange = func(ctx context.Context, out Outgoing) Incoming {
		if out.Broker.Name == "drawer" {
			hanging.Add(1)
			<-answer
		}
		return usual(ctx, out)
	}
	for n := 0; n < 10; n++ {
		p.create(NewInstance{Broker: "drawer"})
	}
	p.start(background)
	t.Cleanup(func() { close(answer) })
	p.until("requests that hang", func() bool { return hanging.Load() == 2 })
	for n := 0; n < 5; n++ {
		p.untilState(p.create(NewInstance{}), Ready)
	}
	diff.Equal(t, hanging.Load(), 2, "slots taken")
}

// Brokers that don't answer keep the orders of another one from nothing, as long as there are fewer of them than slots.
// So it is at once if no more of them than half of the slots begin to hang, and otherwise once a request to each
// wasn't answered.
func TestRunBesideThoseThatHang(t *testing.T) {
	for _, test := range []struct {
		slots, brokers, hanging int
		areKnown                bool // whether a request to each wasn't answered before
	}{
		{4, 3, 2, false}, {4, 20, 2, false}, {3, 3, 2, false}, {16, 9, 8, false}, {16, 30, 8, false},
		{2, 3, 1, false}, {4, 8, 3, true}, {16, 30, 15, true},
	} {
		t.Run(fmt.Sprintf("%d of %d over %d", test.hanging, test.brokers, test.slots), func(t *testing.T) {
			p := newPlant(t, Options{AtOnce: test.slots})
			hanging := map[string]*atomic.Int32{}
			for n := 1; n < test.brokers; n++ {
				name := fmt.Sprintf("hook-%d", n)
				if p.addBroker(name); n <= test.hanging {
					hanging[name] = new(atomic.Int32)
				}
			}
			check(t, p.engine.RunOnce(background))
			answer := make(chan struct{})
			usual := p.line.exchange
			var isHanging atomic.Bool
			isHanging.Store(!test.areKnown)
			p.line.exchange = func(ctx context.Context, out Outgoing) Incoming {
				if count := hanging[out.Broker.Name]; count != nil {
					count.Add(1)
					if isHanging.Load() {
						<-answer
					}
					return Incoming{Lost: errLate}
				}
				return usual(ctx, out)
			}
			for name := range hanging {
				for n := 0; n < test.slots; n++ {
					p.create(NewInstance{Broker: name})
				}
			}
			p.start(background)
			t.Cleanup(func() { close(answer) })
			areAsked := func() bool {
				for _, count := range hanging {
					if count.Load() == 0 {
						return false
					}
				}
				return true
			}
			p.until("requests to those that hang", areAsked)
			isHanging.Store(true)
			for n := 0; n < 5; n++ {
				p.untilState(p.create(NewInstance{}), Ready)
			}
		})
	}
}

// However many orders of a broker hang each time, they take half of the slots beside the others: another order of the
// same broker is carried out at once, and so is one of another broker.
func TestRunBesideOrdersThatHang(t *testing.T) {
	for _, test := range []struct{ slots, brokers, hanging, most int }{
		{4, 1, 9, 2}, {8, 2, 4, 2}, {8, 2, 20, 2}, {16, 3, 20, 4}, {1, 1, 3, 1}, {1, 2, 3, 1},
	} {
		t.Run(fmt.Sprintf("%d of %d over %d", test.hanging, test.brokers, test.slots), func(t *testing.T) {
			p := newPlant(t, Options{AtOnce: test.slots})
			for n := 1; n < test.brokers; n++ {
				p.addBroker(fmt.Sprintf("hook-%d", n))
			}
			check(t, p.engine.RunOnce(background))
			var turn sync.Mutex
			hangs, lost, now := map[Key]bool{}, map[Key]int{}, 0
			for n := 0; n < test.hanging; n++ {
				hangs[p.create(NewInstance{})] = true
			}
			letGo, isOver := make(chan struct{}), make(chan struct{})
			usual := p.line.exchange
			p.line.exchange = func(ctx context.Context, out Outgoing) Incoming {
				if !hangs[out.Entry.Key] {
					return usual(ctx, out)
				}
				turn.Lock()
				now++
				turn.Unlock()
				select {
				case <-letGo:
				case <-isOver:
				}
				turn.Lock()
				defer turn.Unlock()
				now--
				lost[out.Entry.Key]++
				return Incoming{Lost: errLate}
			}
			p.start(background)
			t.Cleanup(func() { close(isOver) })
			p.until("each to have hung once", func() bool {
				select {
				case letGo <- struct{}{}:
				default:
				}
				turn.Lock()
				defer turn.Unlock()
				return len(lost) == test.hanging
			})
			count := func() int { turn.Lock(); defer turn.Unlock(); return now }
			silent := test.most // hang while nothing shows that the broker answers others
			if test.brokers > 1 {
				silent = 1
			}
			p.until("orders that hang again", func() bool { return count() >= silent })
			time.Sleep(20 * time.Millisecond) // for one too many
			if got := count(); got > silent { // one that was let go last may only be gone now
				t.Errorf("got %d orders of a silent broker that hang at once, want %d", got, silent)
			}
			for n := 0; n < 3; n++ {
				p.untilState(p.create(NewInstance{}), Ready)
				if test.brokers > 1 {
					p.untilState(p.create(NewInstance{Broker: "hook-1"}), Ready)
				}
			}
			p.until("all that may hang", func() bool { return count() >= test.most })
			time.Sleep(20 * time.Millisecond)
			diff.Equal(t, count(), test.most, "hang at once")
		})
	}
}

// One broker of several with much to do goes on at once when one of its requests is answered. It isn't left for the
// next look.
func TestRunGoesOnWithoutALook(t *testing.T) {
	p := newPlant(t, Options{AtOnce: 4})
	p.addBroker("drawer")
	check(t, p.engine.RunOnce(background))
	usual := p.line.exchange
	p.line.exchange = func(ctx context.Context, out Outgoing) Incoming {
		time.Sleep(2 * shortRest) // meanwhile nothing is found that is due
		return usual(ctx, out)
	}
	var keys []Key
	for n := 0; n < 20; n++ {
		keys = append(keys, p.create(NewInstance{}))
	}
	p.engine.Look = time.Hour
	p.start(background)
	for _, key := range keys {
		p.untilState(key, Ready)
	}
}

// While all slots are taken, and while no broker is reached, a run waits until it looks again: it isn't busy.
func TestPumpWithoutSlots(t *testing.T) {
	p := newPlant(t, Options{AtOnce: 3})
	p.engine.Look = time.Hour
	r := newRun(background, p.engine)
	for _, running := range []int{0, 2 * p.engine.AtOnce} {
		r.running, r.inFlight = running, running
		diff.Equal(t, r.pump(), p.engine.Look, "with %d that run", running)
	}
}

// While less than half of the slots are free, a claim waits for more, but not for long.
func TestPumpGathers(t *testing.T) {
	for _, test := range []struct {
		inFlight int
		apart    time.Duration
		want     bool
	}{{5, time.Hour, false}, {5, time.Nanosecond, true}, {4, time.Hour, true}} {
		t.Run(fmt.Sprintf("%d in flight, %v apart", test.inFlight, test.apart), func(t *testing.T) {
			p := newPlant(t, Options{AtOnce: 8})
			check(t, p.engine.RunOnce(background))
			key := p.create(NewInstance{})
			p.engine.apart = test.apart
			r := newRun(background, p.engine)
			defer r.wait()
			check(t, r.registry.reachAll())
			r.running, r.inFlight, r.claimed = test.inFlight, test.inFlight, time.Now()
			r.pump()
			diff.Equal(t, diff.Value(p.store.Read(background, key))(t).IsSent, test.want, "whether the order is claimed")
		})
	}
}

func TestWait(t *testing.T) {
	share := 0.0
	p := pace{first: 2 * time.Second, longest: 120 * time.Second, share: func() float64 { return share }}
	for _, test := range []struct {
		unchanged int
		named     time.Duration
		share     float64
		want      time.Duration
	}{
		{0, 0, 0, 2 * time.Second}, {1, 0, 0, 4 * time.Second}, {5, 0, 0, 64 * time.Second},
		{6, 0, 0, 120 * time.Second},
		{1000000, 0, 0, 120 * time.Second}, {0, 0, 1, 3 * time.Second}, {0, 0, 0.5, 2500 * time.Millisecond},
		{0, time.Second, 0, 2 * time.Second}, {0, 9 * time.Second, 0, 9 * time.Second},
		{6, 9 * time.Second, 0, 120 * time.Second},
		{0, 1000 * time.Hour, 0, time.Hour}, {0, time.Hour, 1, time.Hour},
		{0, 50 * time.Minute, 1, time.Hour}, {0, 40 * time.Minute, 0.5, 50 * time.Minute},
	} {
		t.Run(fmt.Sprintf("%+v", test), func(t *testing.T) {
			share = test.share
			diff.Equal(t, p.wait(test.unchanged, test.named), test.want, "%+v", test)
		})
	}
	p.first = time.Hour
	if share = 0; p.wait(0, 0) != 120*time.Second {
		t.Errorf("the first wait: got %v, want the longest", p.wait(0, 0))
	}
}

func TestCheckPoints(t *testing.T) {
	for _, point := range append([]string{""}, Points...) {
		t.Setenv("OSB_CRASH_AT", point)
		diff.NoError(t, crash.Check(Points), "%q", point)
	}
	t.Setenv("OSB_CRASH_AT", "claim-nxt")
	diff.Equal(t, crash.Check(Points) != nil, crash.IsOn, "whether there are no crash points")
}

// What is in flight at the stop is answered and written before Run returns, and nothing else is begun.
func TestRunStops(t *testing.T) {
	p := newPlant(t, Options{AtOnce: 1})
	arrived, answer := make(chan struct{}, 10), make(chan struct{})
	usual := p.line.exchange
	p.line.exchange = func(ctx context.Context, out Outgoing) Incoming {
		arrived <- struct{}{}
		select {
		case <-answer:
			return usual(ctx, out)
		case <-ctx.Done():
			return Incoming{Lost: ctx.Err()}
		}
	}
	ending, ended := make(chan struct{}), make(chan error, 1)
	go func() { ended <- p.engine.Run(background, ending) }()
	first := p.create(NewInstance{})
	second := p.create(NewInstance{})
	<-arrived
	close(ending)
	select {
	case err := <-ended:
		t.Fatalf("while a request is in flight: got %v, want it to wait", err)
	case <-time.After(20 * time.Millisecond):
	}
	close(answer)
	check(t, <-ended)
	one := diff.Value(p.store.Read(background, first))(t)
	other := diff.Value(p.store.Read(background, second))(t)
	if one.State != Ready && other.State != Ready || len(arrived) > 0 {
		t.Errorf("got %s and %s, and %d further requests, want one ready and none", one.State, other.State, len(arrived))
	}
}

// Once the context is done, Run returns, though the broker doesn't answer, and the store is away.
func TestRunEnds(t *testing.T) {
	p := newPlant(t, Options{})
	arrived := make(chan struct{}, 10)
	p.line.exchange = func(ctx context.Context, _ Outgoing) Incoming {
		arrived <- struct{}{}
		<-ctx.Done()
		return Incoming{Lost: ctx.Err()}
	}
	ctx, cancel := context.WithCancel(background)
	ended := make(chan error, 1)
	go func() { ended <- p.engine.Run(ctx, nil) }()
	p.create(NewInstance{})
	<-arrived
	p.store.setAway(ErrAway)
	cancel()
	select {
	case err := <-ended:
		diff.ErrorIs(t, err, context.Canceled, "")
	case <-time.After(patience):
		t.Fatal("Run: got no end in time, want one")
	}
}

// A Run that has nothing to do returns the error of its context, too.
func TestRunEndsWithNothingToDo(t *testing.T) {
	p := newPlant(t, Options{})
	ctx, cancel := context.WithTimeout(background, 50*time.Millisecond)
	defer cancel()
	diff.ErrorIs(t, p.engine.Run(ctx, nil), context.DeadlineExceeded, "")
}

// A stop ends what is in flight once its lease is over, though the store is away.
func TestRunStopsWhileTheStoreIsAway(t *testing.T) {
	p := newPlant(t, Options{Exchange: 100 * time.Millisecond, Margin: 100 * time.Millisecond})
	arrived := make(chan struct{}, 10)
	usual := p.line.exchange
	p.line.exchange = func(ctx context.Context, out Outgoing) Incoming {
		p.store.setAway(ErrAway)
		arrived <- struct{}{}
		return usual(ctx, out)
	}
	stop := p.start(background)
	p.create(NewInstance{})
	<-arrived
	diff.NoError(t, stop(), "")
}

// A database that is away for a while ends nothing, and is reported once.
func TestRunWhileTheStoreIsAway(t *testing.T) {
	p := newPlant(t, Options{})
	arrived, answer := make(chan struct{}, 10), make(chan struct{})
	usual := p.line.exchange
	p.line.exchange = func(ctx context.Context, out Outgoing) Incoming {
		arrived <- struct{}{}
		<-answer
		return usual(ctx, out)
	}
	p.start(background)
	key := p.create(NewInstance{})
	<-arrived
	p.store.setAway(fmt.Errorf("%w: no route", ErrAway))
	close(answer)
	p.until("a failure", func() bool { return p.hasFailed("store_failed") > 0 })
	time.Sleep(50 * time.Millisecond)
	diff.Equal(t, p.hasFailed("store_failed"), 1, "reports")
	p.store.setAway(nil)
	p.untilState(key, Ready)
	p.untilState(p.create(NewInstance{}), Ready)
	diff.Equal(t, len(arrived), 1, "requests sent besides")
}
