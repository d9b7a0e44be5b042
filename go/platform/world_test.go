package platform

import (
	"context"
	"encoding/json"
	"errors"
	"fmt"
	"math/rand"
	"os"
	"strconv"
	"sync"
	"testing"
	"time"

	"pippinterm/internal/crash"
	"pippinterm/internal/diff"
	"pippinterm/osb"
)

var background = context.Background()

// Two workers order instances and bindings over a network that loses, delays and repeats, are killed and paused, and
// the database is away now and then. Whatever is recorded is true at any time, and in the end all rests.
func TestAnyNetwork(t *testing.T) {
	seeds, counts, ended, again := 300, map[string]int{}, map[State]int{}, map[State]int{}
	if n, err := strconv.Atoi(os.Getenv("SEEDS")); err == nil {
		seeds = n
	}
	for seed := int64(0); seed < int64(seeds); seed++ {
		w := newWorld(t, seed, counts)
		for n := 0; n < 400; n++ {
			w.happen()
			w.agree()
		}
		if !w.settle() {
			t.Fatalf("seed %d: got no rest, want one: %v", seed, w.store.rows)
		}
		for key, e := range w.store.rows {
			if key.IsBinding && e.Try > 1 {
				again[e.State]++
			}
		}
		w.end(ended)
	}
	t.Logf("%v", counts)
	t.Logf("%v, of the further bindings %v", ended, again)
	for _, state := range []State{Ready, Gone, Withdrawn, Unsettled} {
		diff.AtLeast(t, ended[state], 1, "ends in %s", state)
	}
	for _, state := range []State{Ready, Gone} {
		diff.AtLeast(t, again[state], 1, "further bindings that ended in %s", state)
	}
	for _, point := range Points {
		if crash.IsOn && point != "send-running" && counts["killed "+point] == 0 {
			t.Errorf("got no kill at %s, want one", point)
		}
	}
}

// end compares what is recorded with what is held and what exists, once all rests, and again once all is removed.
func (w *world) end(ended map[State]int) {
	w.t.Helper()
	for _, e := range w.store.rows {
		ended[e.State]++
	}
	w.all()
	rows, err := w.store.List(background, Filter{})
	check(w.t, err)
	for _, e := range rows {
		if _, err := w.orders.Remove(background, e.Key, true); err != nil {
			w.t.Errorf("seed %d: the removal of %v in %s: got %v, want no error", w.seed, e.Key, e.State, err)
		}
	}
	if !w.settle() {
		w.t.Fatalf("seed %d: after all was removed: got no rest, want one: %v", w.seed, w.store.rows)
	}
	for key, e := range w.store.rows {
		if e.State != Gone && e.State != Withdrawn {
			w.t.Errorf("seed %d: %v was removed: got %s, want it gone or withdrawn", w.seed, key, e.State)
		}
	}
	if len(w.seller.things) > 0 {
		w.t.Errorf("seed %d: after all was removed: got %v, want none", w.seed, w.seller.things)
	}
	w.all()
	for n := 0; n < 20; n++ {
		w.calm = false
		w.arriveLate()
		w.calm = true
		w.agree()
	}
}

// all is that each that exists, or is held, has a record that says so, or that isn't sure, once all rests.
func (w *world) all() {
	w.t.Helper()
	if wrong := w.seller.unrecorded(w.store.rows); wrong != "" {
		w.t.Errorf("seed %d: %s", w.seed, wrong)
	}
}

// unrecorded is what is held or exists though no record says so, or what can't rest, or empty.
func (s *seller) unrecorded(rows map[Key]Entry) string {
	for key := range s.holdings {
		e, isThere := rows[key]
		if !s.isNone(key) && (!isThere || e.State != Ready && e.State != Unsettled) {
			return fmt.Sprintf("%v is recorded %q: got %s, want none", key, e.State, s.is(key))
		}
	}
	for key, e := range rows {
		switch {
		case e.State == Ready && !s.isThere(key):
			return fmt.Sprintf("%v is recorded ready: got %s, want it there", key, s.is(key))
		case isPolled(e.State) || e.State == Wanted || e.State == Cleaning || e.State == Ordered:
			return fmt.Sprintf("%v: got it at rest in %s, want it in another state", key, e.State)
		}
	}
	return ""
}

// A dial is a clock that a test sets.
type dial struct {
	mu  sync.Mutex
	now time.Time
}

func newDial() *dial { return &dial{now: time.Date(2026, 1, 2, 3, 4, 5, 0, time.UTC)} }

func (d *dial) time() time.Time {
	d.mu.Lock()
	defer d.mu.Unlock()
	return d.now
}

func (d *dial) forward(by time.Duration) {
	d.mu.Lock()
	defer d.mu.Unlock()
	d.now = d.now.Add(by)
}

// A world has workers over one store, a broker, and a network that does its worst. It goes by chance, the same for the
// same seed, and one thing at a time.
type world struct {
	t       *testing.T
	seed    int64
	chance  *rand.Rand
	dial    *dial
	store   *memory
	seller  *seller
	orders  *Orders
	workers []*bench
	hold    time.Duration
	calm    bool
	late    []Outgoing        // copies of what was sent
	left    map[Key]time.Time // when a creation has left last
	depth   int
	running []*bench // the workers that do something now, one within another; nil is a command of an operator
	counts  map[string]int
}

// A bench is a worker, and what it is about to send.
type bench struct {
	*world
	name     string
	engine   *Engine
	registry *registry
	sendings []*sending
	dies     string // the point at which it is killed, or empty
}

type kill struct{ worker *bench }

func newWorld(t *testing.T, seed int64, counts map[string]int) *world {
	w := &world{
		t: t, seed: seed, chance: rand.New(rand.NewSource(seed)), dial: newDial(), seller: newSeller(),
		left: map[Key]time.Time{}, counts: counts,
	}
	w.store = newMemory(w.dial.time)
	w.seller.first = seed%3 == 0
	w.seller.mood = func() int { return w.roll(10) }
	w.seller.isSlow = func() bool { return w.roll(8) == 0 }
	w.orders = NewOrders(w.store, seal{})
	w.orders.newID = w.newID
	if seed%2 == 0 {
		w.hold = 5 * time.Minute
	}
	settings := Settings{Hold: &w.hold}
	must(w.orders.AddBroker(context.Background(), Broker{
		Name: "shelf", URL: "https://broker.example", User: "u", Settings: settings,
	}, []byte("secret")))
	broker := w.store.brokers["shelf"]
	broker.Catalogue = json.RawMessage(sold)
	w.store.brokers["shelf"] = broker
	for _, name := range []string{"one", "two"} {
		b := &bench{world: w, name: name}
		b.start()
		w.workers = append(w.workers, b)
	}
	w.store.between = w.between
	before := crash.Hook
	crash.Hook = w.reach
	t.Cleanup(func() { crash.Hook = before })
	return w
}

// newID is a GUID, the same for the same seed.
func (w *world) newID() (id osb.ID, err error) {
	_, err = w.chance.Read(id[:])
	return id, err
}

// roll is a number below most, and one that lets nothing go wrong if the world is calm.
func (w *world) roll(most int) int {
	if w.calm {
		return most - 1
	}
	return w.chance.Intn(most)
}

// start starts the worker, or the next one of its name after it was killed.
func (b *bench) start() {
	options := Options{Worker: b.name, AtOnce: 3, Share: b.chance.Float64}
	if b.seed%5 == 0 {
		options.LongestPoll = 10 * time.Minute
	}
	if b.seed%7 == 0 {
		options.Unsettled = KeepUnsettled
	}
	b.engine = NewEngine(b.store, b, seal{}, options, b)
	b.registry = newRegistry(context.Background(), b.engine, &sync.WaitGroup{})
	catalogue, err := ReadCatalogue([]byte(sold))
	must(err)
	b.registry.byName["shelf"] = &knownBroker{broker: b.store.brokers["shelf"], catalogue: catalogue}
	b.engine.retry, b.engine.newID = time.Microsecond, b.world.newID
	b.sendings, b.dies = nil, ""
}

// safely lets a worker do something, in which it may be killed.
func (b *bench) safely(do func()) {
	if b.as(b, do) {
		b.restart()
	}
}

// as does something as a worker, or as a command, and returns whether it was killed in it.
func (w *world) as(b *bench, do func()) (isKilled bool) {
	w.running = append(w.running, b)
	depth := len(w.running)
	defer func() {
		w.running = w.running[:depth-1]
		if what := recover(); what != nil {
			if it, ok := what.(kill); !ok || it.worker != b {
				panic(what)
			}
			isKilled = true
		}
	}()
	do()
	return false
}

// restart is the next worker of the name. It frees what the one before has left, unless that was lost sight of.
func (b *bench) restart() {
	if b.roll(2) == 0 {
		must(b.store.Free(context.Background(), b.name))
	}
	b.start()
}

// reach is called at each crash point.
func (w *world) reach(point string) {
	if len(w.running) == 0 || w.calm {
		return
	}
	it := w.running[len(w.running)-1]
	if it == nil && w.roll(10) > 0 || it != nil && it.dies != point {
		return
	}
	w.counts["killed "+point]++
	if it != nil {
		it.dies = ""
	}
	panic(kill{it})
}

// between is called between two statements of a transaction: its worker may be paused there, or die.
func (w *world) between(point string, _ Key) {
	if w.calm {
		return
	}
	switch w.roll(60) {
	case 0:
		w.counts["paused "+point]++
		w.dial.forward(time.Duration(w.roll(200)) * time.Second)
	case 1:
		if point == "claim-commit" || point == "change-commit" {
			w.counts["in doubt"]++
			w.store.mu.Lock()
			w.store.doubt = ErrAway
			w.store.mu.Unlock()
		}
	}
}

// claim has a worker claim what is due.
func (b *bench) claim() {
	b.safely(func() {
		found := b.engine.claim(context.Background(), b.registry, []string{"shelf"}, 3, nil)
		b.sendings = append(b.sendings, found.sendings...)
	})
}

// exchange has a worker go on with one of its exchanges.
func (b *bench) exchange() {
	if len(b.sendings) == 0 {
		return
	}
	at := b.roll(len(b.sendings))
	s := b.sendings[at]
	b.sendings = append(append([]*sending{}, b.sendings[:at]...), b.sendings[at+1:]...)
	b.safely(func() { b.engine.exchange(context.Background(), b.registry, s, func(bool) {}) })
}

// Clock is the time as the worker has it.
func (w *world) Clock() time.Time { return w.dial.time().Add(17 * time.Hour) }

// Catalogue answers the catalogue.
func (w *world) Catalogue(context.Context, Broker) (json.RawMessage, int, error) {
	return json.RawMessage(sold), 200, nil
}

// Exchange is the network: what is sent may be lost, late, or repeated, and so may the answer. Other things happen
// meanwhile.
func (w *world) Exchange(_ context.Context, out Outgoing) Incoming {
	if !w.Clock().Before(out.Until) {
		w.t.Fatalf("seed %d: %v: got it sent after its time, want it before", w.seed, out.Entry.Key)
	}
	w.checkSending(out)
	w.late = append(w.late, out)
	how := w.roll(14)
	if how < 3 {
		w.meanwhile()
	}
	switch how {
	case 3:
		return Incoming{Lost: fmt.Errorf("the request is lost")}
	case 4:
		return (&reply{503, []byte(`{}`)}).incoming(out)
	case 5:
		w.arriveLate()
	}
	given := w.seller.handle(out)
	if how == 6 || how == 7 {
		return Incoming{Lost: fmt.Errorf("the answer is lost")}
	}
	if how < 2 {
		w.meanwhile()
	}
	in := given.incoming(out)
	if !w.Clock().Before(out.Until) {
		return Incoming{Lost: fmt.Errorf("the time of the exchange is over")}
	}
	if how == 8 {
		in.RetryAfter = time.Duration(w.roll(100)) * time.Minute
	}
	return in
}

// checkSending is that what is sent is recorded, and no deletion is sent before its time.
func (w *world) checkSending(out Outgoing) {
	key, now := out.Entry.Key, w.dial.time()
	switch out.Request.Kind {
	case osb.KindProvision:
		if !out.IsFetch {
			w.left[key] = now
		}
	case osb.KindDeprovision:
		if left, isThere := w.left[key]; isThere && now.Before(left.Add(w.hold)) {
			w.t.Fatalf("seed %d: the deletion of %v: got it sent %v after its creation, want it after the hold", w.seed, key,
				now.Sub(left))
		}
	}
	e, err := w.store.Read(context.Background(), key)
	must(err)
	if !e.IsSent {
		w.t.Fatalf("seed %d: %v: got it sent without a record, want one", w.seed, key)
	}
	if out.Request.Kind == osb.KindProvision && now.After(e.SentUntil) {
		w.t.Fatalf("seed %d: the creation of %v: got it sent after the time that is recorded, want it before", w.seed, key)
	}
	if key.IsBinding && out.Request.Kind == osb.KindProvision {
		if of, err := w.store.Read(context.Background(), osb.InstanceKey(key.Instance)); err != nil || of.State != Ready {
			w.t.Fatalf("seed %d: the binding %v is sent: got its instance in %s (%v), want it ready", w.seed, key, of.State, err)
		}
	}
}

// meanwhile is what happens while a worker waits for an answer.
func (w *world) meanwhile() {
	if w.depth > 1 {
		return
	}
	w.depth++
	defer func() { w.depth-- }()
	w.dial.forward(time.Duration(w.roll(120)) * time.Second)
	for n := 0; n < 4; n++ {
		w.happen()
	}
}

func (w *world) arriveLate() {
	if len(w.late) > 0 {
		w.seller.handle(w.late[w.roll(len(w.late))])
	}
}

// operate is what an operator does, whose command may be killed too.
func (w *world) operate() { w.as(nil, w.command) }

func (w *world) command() {
	rows, err := w.store.List(context.Background(), Filter{})
	must(err)
	ctx := context.Background()
	if len(rows) == 0 || w.roll(5) == 0 && len(rows) < 12 {
		wanted := NewInstance{Service: "shelf", Plan: planNames[w.roll(4)], Parameters: json.RawMessage(`{"size": 1}`)}
		if w.roll(3) == 0 {
			wanted.ID = fmt.Sprintf("thing %d", len(rows))
		}
		_, err := w.orders.Create(ctx, wanted)
		w.isExpected(err)
		return
	}
	e := rows[w.roll(len(rows))]
	switch w.roll(6) {
	case 0:
		_, err = w.orders.Remove(ctx, e.Key, w.roll(2) == 0)
	case 1:
		_, err = w.orders.Retry(ctx, e.Key)
	case 2, 3, 4:
		if !e.Key.IsBinding {
			_, err = w.orders.Bind(ctx, NewBinding{Instance: e.Names.Instance})
		}
	}
	w.isExpected(err)
}

// isExpected is that an order was taken or rejected, or that the database was away.
func (w *world) isExpected(err error) {
	w.t.Helper()
	if _, isRejected := err.(*Rejection); err != nil && !isRejected && !errors.Is(err, ErrAway) {
		w.t.Fatalf("seed %d: got %v, want a rejection or that the store is away", w.seed, err)
	}
}

// happen is one thing that happens.
func (w *world) happen() {
	b := w.workers[w.roll(len(w.workers))]
	switch w.roll(30) {
	case 0, 1:
		w.operate()
	case 2, 3, 4, 5:
		w.seller.goOn()
	case 6:
		w.arriveLate()
	case 7, 8:
		if b.dies = Points[w.roll(len(Points))]; w.roll(2) == 0 {
			b.dies = "fetch-next"
		}
	case 9:
		if w.depth == 0 {
			b.restart()
		}
	case 10:
		if w.roll(5) == 0 {
			w.dial.forward(time.Duration(w.roll(400)) * time.Second)
		}
	case 11, 12, 13, 14:
		w.dial.forward(time.Duration(w.roll(5000)) * time.Millisecond)
	case 15, 16, 17, 18, 19, 20:
		b.claim()
	default:
		b.exchange()
	}
}

// agree is the theorem of docs/binding.md, about what is recorded, held and there.
func (w *world) agree() {
	w.t.Helper()
	if wrong := w.seller.contradicts(w.store.rows); wrong != "" {
		w.t.Fatalf("seed %d: %s", w.seed, wrong)
	}
}

// contradicts is how the rows aren't what is held and what exists, or empty.
func (s *seller) contradicts(rows map[Key]Entry) string {
	for key, e := range rows {
		of := rows[osb.InstanceKey(key.Instance)]
		switch {
		case e.State == Ready && !s.isThere(key):
			return fmt.Sprintf("%v is recorded ready: got %s, want it there", key, s.is(key))
		case (e.State == Gone || e.State == Withdrawn || e.State == Ordered) && !s.isNone(key):
			return fmt.Sprintf("%v is recorded %s: got %s, want none", key, e.State, s.is(key))
		case e.State != Ready && e.Credentials != nil:
			return fmt.Sprintf("%v in %s: got credentials, want none", key, e.State)
		case key.IsBinding && !s.isNone(key) && of.State != Ready && e.State != Abandoned:
			return fmt.Sprintf("the binding %v is there: got its instance in %s, want it ready", key, of.State)
		case key.IsBinding && e.State == Ordered && e.Removal == NotRemoved && checkReady(of) != nil:
			return fmt.Sprintf("try %d of the binding %v is ordered: got its instance in %s, removal %d, want it ready", e.Try,
				key, of.State, of.Removal)
		case key.IsBinding && e.State == Ready:
			if object, err := (seal{}).Open(e.Credentials, key.String()); err != nil || string(object) != s.object(key) {
				return fmt.Sprintf("the credentials of %v: got %s (%v), want %s", key, object, err, s.object(key))
			}
		}
	}
	return ""
}

// settle lets all converge. It returns false if something is due still.
func (w *world) settle() bool {
	w.calm = true
	for round := 0; round < 200; round++ {
		for _, b := range w.workers {
			b.claim()
			for len(b.sendings) > 0 {
				b.exchange()
			}
		}
		w.seller.goOn()
		w.agree()
		due := firstDue(w.store.rows)
		if due.IsZero() {
			return true
		}
		if wait := due.Sub(w.dial.time()); wait > 0 {
			w.dial.forward(wait)
		}
	}
	return false
}

// firstDue is when the first of these rows is due, or zero if all rest.
func firstDue(rows map[Key]Entry) (due time.Time) {
	for _, e := range rows {
		if free := later(e.Due, e.Lease.Until); !e.Due.IsZero() && (due.IsZero() || free.Before(due)) {
			due = free
		}
	}
	return due
}

// What the world gets as an Observer.

func (w *world) OnRequest(Exchange) { w.counts["sent"]++ }

func (w *world) OnAnswer(it Exchange) {
	if it.Lost != nil {
		w.counts["lost"]++
	}
}

func (w *world) OnChange(_ Key, _, after State) { w.counts["came to "+string(after)]++ }

func (w *world) OnFailure(it Failure) { w.counts["failed "+it.Event]++ }

func (w *world) OnOrphan(key Key, status int, isFound bool) {
	w.t.Errorf("seed %d: %v: got an orphan with %d, %v, want none", w.seed, key, status, isFound)
}

func (w *world) OnCatalogue(string) {}
