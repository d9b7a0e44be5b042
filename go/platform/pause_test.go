package platform

import (
	"context"
	"encoding/json"
	"errors"
	"fmt"
	"sync"
	"sync/atomic"
	"testing"
	"time"

	"pippinterm/internal/diff"
	"pippinterm/osb"
)

// A wire is a Client over a seller, by a clock that is set. It keeps what has left, and when.
type wire struct {
	Silent
	dial   *dial
	seller *seller
	paused func(point string) // is called before a request leaves, once it was handled, and once its answer is there

	mu   sync.Mutex
	left []departure
}

// A departure is a request that has left.
type departure struct {
	Outgoing
	at time.Time
}

func (w *wire) Clock() time.Time { return w.dial.time().Add(time.Hour) }

func (w *wire) Catalogue(context.Context, Broker) (json.RawMessage, int, error) {
	return json.RawMessage(sold), 200, nil
}

// OnRequest is the last that happens before a Client is called, and OnAnswer is the first afterwards.
func (w *wire) OnRequest(it Exchange) { w.paused(pointOf("sent", it.Kind == "fetch")) }

func (w *wire) OnAnswer(it Exchange) { w.paused(pointOf("answered", it.Kind == "fetch")) }

// OnChange is the last that happens in a step, if the state is another one.
func (w *wire) OnChange(Key, State, State) { w.paused("changed") }

// pointOf is the name of a point, which is another one of a Fetch.
func pointOf(name string, isFetch bool) string {
	if isFetch {
		return "fetch-" + name
	}
	return name
}

func (w *wire) Exchange(_ context.Context, out Outgoing) Incoming {
	if !w.Clock().Before(out.Until) {
		return Incoming{Lost: errors.New("its time is over")}
	}
	w.mu.Lock()
	w.left = append(w.left, departure{out, w.dial.time()})
	w.mu.Unlock()
	given := w.seller.handle(out)
	w.paused(pointOf("handled", out.IsFetch))
	if !w.Clock().Before(out.Until) {
		return Incoming{Lost: errors.New("its time is over")}
	}
	return given.incoming(out)
}

// A stage is two workers over one store, one of which is paused.
type stage struct {
	*wire
	store   *memory
	orders  *Orders
	workers [2]*bench
}

func newStage(t *testing.T, hold time.Duration) *stage {
	t.Helper()
	s := &stage{wire: &wire{dial: newDial(), seller: newSeller(), paused: func(string) {}}}
	s.store = newMemory(s.dial.time)
	s.orders = NewOrders(s.store, seal{})
	broker := Broker{Name: "shelf", URL: "https://broker.example", User: "u", Settings: Settings{Hold: &hold}}
	check(t, s.orders.AddBroker(background, broker, []byte("secret")))
	broker = s.store.brokers["shelf"]
	broker.Catalogue = json.RawMessage(sold)
	s.store.brokers["shelf"] = broker
	catalogue := diff.Value(ReadCatalogue([]byte(sold)))(t)
	for at, name := range []string{"one", "two"} {
		options := Options{Worker: name, Share: func() float64 { return 0 }}
		b := &bench{name: name, engine: NewEngine(s.store, s.wire, seal{}, options, s.wire)}
		b.engine.retry = time.Microsecond
		b.registry = newRegistry(background, b.engine, &sync.WaitGroup{})
		b.registry.byName["shelf"] = &knownBroker{broker: broker, catalogue: catalogue}
		s.workers[at] = b
	}
	return s
}

var check = diff.Must

// step has a worker do all that is due.
func (s *stage) step(b *bench) {
	found := b.engine.claim(background, b.registry, []string{"shelf"}, 10, nil)
	for _, sending := range found.sendings {
		b.engine.exchange(background, b.registry, sending, func(bool) {})
	}
}

// goOn lets a worker step what is due until all rests, or for so many rounds.
func (s *stage) goOn(b *bench, rounds int) {
	for ; rounds > 0; rounds-- {
		s.step(b)
		s.seller.goOn()
		due, _, err := s.store.NextDue(background, []string{"shelf"})
		must(err)
		if due.IsZero() && !s.isLeased() {
			return
		}
		if wait := due.Sub(s.dial.time()); !due.IsZero() && wait > 0 {
			s.dial.forward(wait)
		} else if due.IsZero() {
			s.dial.forward(10 * time.Second)
		}
	}
}

func (s *stage) isLeased() bool {
	rows, err := s.store.List(background, Filter{})
	must(err)
	for _, row := range rows {
		if !row.Rests() {
			return true
		}
	}
	return false
}

// A pause is how a worker is paused, while another goes on.
type pause struct {
	point  string
	length time.Duration
	// isBroken says that the database ends the transaction that waits.
	isBroken bool
	// isMidway says that the other worker waits for an answer when the first one goes on.
	isMidway bool
}

func (p pause) String() string {
	name := fmt.Sprintf("%s/%v", p.point, p.length)
	if p.isBroken {
		name += "/broken"
	}
	if p.isMidway {
		name += "/midway"
	}
	return name
}

// pauses are all of them: for so long that an answer may still be taken, that no request may be sent, and that the
// lease is over.
func pauses() (all []pause) {
	for _, point := range points {
		for _, length := range []time.Duration{45 * time.Second, 75 * time.Second, 100 * time.Second} {
			for _, isBroken := range []bool{false, true} {
				all = append(all, pause{point, length, isBroken, false}, pause{point, length, isBroken, true})
			}
		}
	}
	return all
}

// A worker is paused at each point, until it may send no more, or for longer than its lease, while another goes on.
// Nothing is sent once the lease is over, no deletion is sent before its time, nothing is written that the other worker
// has leased, and what is recorded in the end is true.
func TestPausedWorker(t *testing.T) {
	for _, scene := range scenes {
		for _, pause := range pauses() {
			for _, hold := range []time.Duration{0, 5 * time.Minute} {
				if hold == 0 && scene.needsHold {
					continue
				}
				t.Run(fmt.Sprintf("%s/%v/hold %v", scene.name, pause, hold), func(t *testing.T) {
					s := newStage(t, hold)
					key := scene.come(t, s)
					diff.Equal(t, s.pause(t, pause), scene.hasPoint(pause.point, hold), "the pause")
					s.goOn(s.workers[0], 20)
					s.goOn(s.workers[1], 60)
					s.check(t, key, hold)
				})
			}
		}
	}
}

// pause pauses the first worker. It returns whether the worker has reached the point.
func (s *stage) pause(t *testing.T, how pause) bool {
	t.Helper()
	reached, resumed := make(chan struct{}), make(chan struct{})
	var isReached atomic.Bool
	pause := func(point string) {
		if point == how.point && isReached.CompareAndSwap(false, true) {
			close(reached)
			<-resumed
		}
	}
	s.store.between = func(point string, _ Key) { pause(point) }
	s.paused = pause
	ended := make(chan struct{})
	first := s.workers[0]
	go func() {
		defer close(ended)
		found := first.engine.claim(background, first.registry, []string{"shelf"}, 10, nil)
		pause("claimed")
		for _, sending := range found.sendings {
			first.engine.exchange(background, first.registry, sending, func(bool) {})
		}
	}()
	await(t, "it doesn't come to the point", reached, ended)
	hasPaused := isReached.Swap(true) // the second worker isn't paused
	if how.isBroken {
		s.store.breakAll()
	}
	s.dial.forward(how.length)
	resume := func() {
		close(resumed)
		await(t, "it doesn't end", ended, nil)
	}
	if how.isMidway {
		s.takeOver(t, resume)
		return hasPaused
	}
	for round := 0; round < 3; round++ {
		s.step(s.workers[1])
		s.dial.forward(time.Millisecond)
	}
	resume()
	return hasPaused
}

// takeOver has the second worker claim what is due, and send it once the first one has gone on. What the second one has
// leased, nobody else writes.
func (s *stage) takeOver(t *testing.T, resume func()) {
	t.Helper()
	second := s.workers[1]
	found := second.engine.claim(background, second.registry, []string{"shelf"}, 10, nil)
	before := diff.Value(s.store.List(background, Filter{}))(t)
	now := s.dial.time()
	resume()
	for _, entry := range before {
		after := diff.Value(s.store.Read(background, entry.Key))(t)
		isLeased := entry.Lease.Worker == second.name && now.Before(entry.Lease.Until)
		if isLeased {
			diff.Check(t, after, entry, "what the first worker has written over the second one's row")
		}
	}
	for _, sending := range found.sendings {
		second.engine.exchange(background, second.registry, sending, func(bool) {})
	}
}

// await waits for one of two things.
func await(t *testing.T, fault string, one, other <-chan struct{}) {
	t.Helper()
	select {
	case <-one:
	case <-other:
	case <-time.After(patience):
		t.Fatalf("got no end in time, want one: %v", fault)
	}
}

func (s *stage) check(t *testing.T, key Key, hold time.Duration) {
	t.Helper()
	created, sent := map[Key]time.Time{}, map[string]int{}
	for _, request := range s.left {
		e := request.Entry
		if !request.at.Before(e.Lease.Until) {
			t.Errorf("%v of %v: got it sent %v after its lease, want it before its end", request.Request.Kind, e.Key,
				request.at.Sub(e.Lease.Until))
		}
		name := fmt.Sprint(e.Key, e.Record.Attempt(), request.IsFetch, e.State == Gone, e.Lease.Until)
		sent[name]++
		diff.AtMost(t, sent[name], 1, "%v of %v: times that it is sent", request.Request.Kind, e.Key)
		switch request.Request.Kind {
		case osb.KindProvision:
			created[e.Key] = request.at
		case osb.KindDeprovision:
			if at, isThere := created[e.Key]; isThere && request.at.Before(at.Add(hold)) {
				t.Errorf("the deletion of %v: got it sent %v after its creation, want it after the hold", e.Key, request.at.Sub(at))
			}
		}
	}
	rows := diff.Value(s.store.List(background, Filter{}))(t)
	tries := map[string]int{}
	for _, e := range rows {
		name := fmt.Sprint(e.First, e.Try)
		tries[name]++
		diff.AtMost(t, tries[name], 1, "try %d of %v: times that it is ordered", e.Try, e.First)
		isRight := e.State == Ready && s.seller.isThere(e.Key) || e.State == Gone && s.seller.isNone(e.Key)
		if !isRight || !e.Rests() || e.Lease != (Lease{}) {
			t.Errorf("%v: got it recorded %s, due %v, %v, want it at rest as the broker has it: %s", e.Key, e.State, e.Due,
				e.Lease, s.seller.is(e.Key))
		}
		if object, err := s.orders.Credentials(background, e.Key); e.State == Ready && e.Key.IsBinding &&
			(err != nil || string(object) != s.seller.object(e.Key)) {
			t.Errorf("the credentials of %v: got %s (%v), want those of the broker", e.Key, object, err)
		}
	}
	if e, err := s.store.Read(background, key); err != nil || e.State == Ordered {
		t.Errorf("%v: got %s (%v), want it begun", key, e.State, err)
	}
}

// points are where a worker is paused, in the order in which a step reaches them: before and after each transaction and
// each exchange, and between any two statements.
var points = []string{
	"claim-begin", "claim-read", "claim-decided", "claim-commit", "claimed",
	"sent", "handled", "answered", "fetch-sent", "fetch-handled", "fetch-answered",
	"change-begin", "change-read", "change-decided", "change-commit", "changed",
}

// A scene has a row of which a request is due.
type scene struct {
	name      string
	come      func(t *testing.T, s *stage) Key
	isHeld    bool // whether the request waits for the hold, if there is one
	fetches   bool // whether a Fetch follows
	isSame    bool // whether the row stays in its state
	needsHold bool
}

// hasPoint reports whether a worker reaches a point.
func (s scene) hasPoint(point string, hold time.Duration) bool {
	switch point {
	case "claim-begin", "claim-read", "claim-decided", "claim-commit", "claimed":
		return true
	case "fetch-sent", "fetch-handled", "fetch-answered":
		return s.fetches
	case "changed":
		// of a deletion that waits, the new state is reported by the claim
		return !s.isSame
	}
	return !s.isHeld || hold == 0
}

var scenes = []scene{
	{name: "a creation", come: func(t *testing.T, s *stage) Key { return s.order(t, "now") }},
	{name: "a creation that goes on", come: func(t *testing.T, s *stage) Key { return s.order(t, "later") }},
	{name: "two creations of one claim", come: func(t *testing.T, s *stage) Key { // the second one is late
		s.order(t, "later")
		return s.order(t, "now")
	}},
	{name: "a Poll", come: func(t *testing.T, s *stage) Key {
		key := s.order(t, "later")
		s.step(s.workers[1])
		s.seller.goOn()
		s.dial.forward(2 * time.Second)
		return key
	}},
	{name: "a Poll too early", isSame: true, come: func(t *testing.T, s *stage) Key {
		key := s.order(t, "later")
		s.step(s.workers[1])
		s.dial.forward(2 * time.Second)
		return key
	}},
	{name: "the end of the polling", come: func(t *testing.T, s *stage) Key {
		key := s.order(t, "later")
		s.step(s.workers[1])
		s.dial.forward(8 * 24 * time.Hour)
		return key
	}},
	{name: "a deletion", come: func(t *testing.T, s *stage) Key {
		key := s.create(t, "now")
		s.remove(t, key)
		s.dial.forward(time.Hour)
		return key
	}},
	{name: "the first deletion", isHeld: true, come: func(t *testing.T, s *stage) Key {
		key := s.create(t, "now")
		s.remove(t, key)
		return key
	}},
	{name: "a Poll of a deletion", come: func(t *testing.T, s *stage) Key {
		key := s.create(t, "later")
		s.dial.forward(time.Hour)
		s.remove(t, key)
		s.step(s.workers[1])
		s.seller.goOn()
		s.dial.forward(2 * time.Second)
		return key
	}},
	{name: "the last deletion", needsHold: true, isSame: true, come: func(t *testing.T, s *stage) Key {
		key := s.create(t, "now")
		s.dial.forward(time.Hour)
		s.remove(t, key)
		s.step(s.workers[1])
		s.dial.forward(time.Hour)
		return key
	}},
	{name: "what a crash has left", come: func(t *testing.T, s *stage) Key {
		key := s.order(t, "now")
		s.crash(t)
		s.dial.forward(time.Hour)
		return key
	}},
	{name: "what a crash has left just now", isHeld: true, come: func(t *testing.T, s *stage) Key {
		key := s.order(t, "now")
		s.crash(t)
		s.dial.forward(91 * time.Second)
		return key
	}},
	{name: "a deletion that the next try follows", come: func(t *testing.T, s *stage) Key {
		s.seller.mood = func() int { return 1 }
		key := s.orderedOften(t, "now", 2)
		s.step(s.workers[1])
		s.seller.mood = func() int { return 9 }
		s.dial.forward(time.Hour)
		return key
	}},
	{name: "an Unbind that the next try follows", come: func(t *testing.T, s *stage) Key {
		instance := s.create(t, "now")
		s.seller.mood = func() int { return 1 }
		key := s.bind(t, instance)
		s.step(s.workers[1])
		s.seller.mood = func() int { return 9 }
		s.dial.forward(time.Hour)
		return key
	}},
	{name: "a Bind", come: func(t *testing.T, s *stage) Key { return s.bind(t, s.create(t, "now")) }},
	{name: "a Fetch", fetches: true, come: func(t *testing.T, s *stage) Key {
		key := s.bind(t, s.create(t, "bind-later"))
		s.step(s.workers[1])
		s.seller.goOn()
		s.dial.forward(2 * time.Second)
		return key
	}},
	{name: "an Unbind", come: func(t *testing.T, s *stage) Key {
		key := s.bind(t, s.create(t, "now"))
		s.step(s.workers[1])
		s.remove(t, key)
		s.dial.forward(time.Hour)
		return key
	}},
}

func (s *stage) order(t *testing.T, plan string) Key {
	t.Helper()
	return s.orderedOften(t, plan, 1)
}

func (s *stage) orderedOften(t *testing.T, plan string, tries int) Key {
	t.Helper()
	e := diff.Value(s.orders.Create(background, NewInstance{Service: "shelf", Plan: plan, Tries: tries}))(t)
	return e.Key
}

// create is an instance that is ready.
func (s *stage) create(t *testing.T, plan string) Key {
	t.Helper()
	key := s.order(t, plan)
	s.goOn(s.workers[1], 5)
	return key
}

func (s *stage) bind(t *testing.T, instance Key) Key {
	t.Helper()
	e := diff.Value(s.orders.Bind(background, NewBinding{Instance: instance.String()}))(t)
	return e.Key
}

func (s *stage) remove(t *testing.T, key Key) {
	t.Helper()
	diff.Value(s.orders.Remove(background, key, false))(t)
}

// crash has the second worker end once it has sent what is due.
func (s *stage) crash(t *testing.T) {
	t.Helper()
	second := s.workers[1]
	found := second.engine.claim(background, second.registry, []string{"shelf"}, 10, nil)
	check(t, found.err)
	for _, sending := range found.sendings {
		s.Exchange(background, sending.out)
	}
}
