package storetest

import (
	"context"
	"encoding/json"
	"errors"
	"fmt"
	"io"
	"net/http"
	"net/http/httptest"
	"reflect"
	"strings"
	"sync"
	"sync/atomic"
	"testing"
	"time"

	"pippinterm/internal/diff"
	"pippinterm/osb"
	"pippinterm/platform"
	"pippinterm/platform/client"
)

// The times of TestPausedWorker. A lease holds for leaveTime and marginTime.
const (
	leaveTime  = 400 * time.Millisecond // for how long a request may be sent and answered
	marginTime = 200 * time.Millisecond
	holdTime   = 500 * time.Millisecond
	pauseTime  = leaveTime + marginTime + holdTime + 300*time.Millisecond
	workTime   = 50 * time.Millisecond // of the broker, for each request
)

// pausePoints are where a worker is paused, in the order in which a step reaches them: before and after each
// transaction and each request, and within a transaction before and after the decision.
var pausePoints = []string{
	"claim", "claim read", "claim decided", "claimed", "sent", "handled", "answered",
	"change", "change read", "change decided", "changed",
}

// TestPausedWorker has two workers over one database, one of which is paused for longer than its lease at each point of
// a step. It goes on while the other one has a request in flight. If the other one waits for it, as for a file that it
// has locked, it goes on after pauseTime. open is that of Test.
//
// Nothing is sent once the lease is over or before the hold has passed, no two requests of one instance are in flight
// at once, and what is recorded in the end is true.
func TestPausedWorker(t *testing.T, open func(t *testing.T) platform.Store) {
	for _, isDeletion := range []bool{false, true} {
		for _, point := range pausePoints {
			isDeletion, point := isDeletion, point
			name := "a creation/" + point
			if isDeletion {
				name = "a deletion/" + point
			}
			t.Run(name, func(t *testing.T) {
				t.Parallel()
				first, second := openStore(t, open), openStore(t, open)
				y := newYard(t, first)
				insert(t, first, order(instance(1)))
				if isDeletion {
					y.work(second, "two", nil).untilRest(second).end()
					diff.Value(platform.NewOrders(second, nil).Remove(background, readyIn(t, second), false))(t)
				}
				pause := &pause{point: point, gate: NewGate()}
				defer pause.gate.Open()
				paused := y.work(pausing{first, pause}, "one", pause)
				pause.gate.Await(t, paused.ended)
				other := y.work(second, "two", nil)
				y.awaitRequest()
				pause.gate.Open()
				other.untilRest(second).end()
				paused.end()
				y.check(second)
			})
		}
	}
}

// A pause is the one of a worker at a point.
type pause struct {
	point string
	once  sync.Once
	gate  *Gate
}

// at pauses a worker that reaches the point for the first time.
func (p *pause) at(point string) {
	if p != nil && p.point == point {
		p.once.Do(p.gate.Pass)
	}
}

// A pausing store pauses its worker.
type pausing struct {
	platform.Store
	pause *pause
}

func (p pausing) Claim(
	ctx context.Context, of []string, most int, step platform.Step,
) ([]platform.ClaimedRow, error) {
	p.pause.at("claim")
	claimed, err := p.Store.Claim(ctx, of, most, p.stepping("claim", step))
	p.pause.at("claimed")
	return claimed, err
}

func (p pausing) Change(ctx context.Context, key platform.Key, step platform.Step) error {
	p.pause.at("change")
	err := p.Store.Change(ctx, key, p.stepping("change", step))
	p.pause.at("changed")
	return err
}

// stepping pauses between the statement that reads and the one that writes.
func (p pausing) stepping(name string, step platform.Step) platform.Step {
	return func(now time.Time, snapshot platform.Snapshot) (*platform.Change, error) {
		p.pause.at(name + " read")
		change, err := step(now, snapshot)
		p.pause.at(name + " decided")
		return change, err
	}
}

// A yard is a broker without tombstones, that sells one plan whose instances are created at once. It keeps what it is
// sent, and fails the test if that mustn't be sent.
type yard struct {
	t *testing.T

	mu       sync.Mutex
	exists   map[platform.Key]bool
	created  map[platform.Key]time.Time // when the last Provision has left
	inFlight map[platform.Key]time.Time // until when the request that is being handled may be in flight
	sent     map[string]int
	departed chan struct{} // has a value once a request has left
}

// newYard is a broker, of the name "one", for the rows of a store.
func newYard(t *testing.T, store platform.Store) *yard {
	t.Helper()
	hold, pace := holdTime, 10*time.Millisecond
	broker := platform.Broker{
		Name: "one", URL: "https://broker.example", User: "u", PasswordFile: "/nowhere",
		Settings: platform.Settings{Hold: &hold, FirstPace: &pace, LongestPace: &pace},
	}
	check(t, store.AddBroker(background, broker))
	return &yard{
		t: t, exists: map[platform.Key]bool{}, created: map[platform.Key]time.Time{},
		inFlight: map[platform.Key]time.Time{}, sent: map[string]int{}, departed: make(chan struct{}, 1),
	}
}

// awaitRequest waits until a further request has left, but not for longer than pauseTime.
func (y *yard) awaitRequest() {
	select {
	case <-y.departed: // an earlier one
	default:
	}
	select {
	case <-y.departed:
	case <-time.After(pauseTime):
	}
}

// handle is a request, from when it leaves until the broker has handled it.
func (y *yard) handle(out platform.Outgoing) osb.Answer {
	y.leave(out)
	time.Sleep(workTime)
	y.mu.Lock()
	defer y.mu.Unlock()
	key := out.Entry.Key
	delete(y.inFlight, key)
	isThere := y.exists[key]
	y.exists[key] = out.Request.Kind == osb.KindProvision
	switch {
	case y.exists[key] && !isThere:
		return osb.Answer{Status: 201, Body: osb.BodyEmpty}
	case y.exists[key] || isThere:
		return osb.Answer{Status: 200, Body: osb.BodyEmpty}
	}
	return osb.Answer{Status: 410, Body: osb.BodyEmpty}
}

// leave checks a request that leaves.
func (y *yard) leave(out platform.Outgoing) {
	y.mu.Lock()
	defer y.mu.Unlock()
	entry, now := out.Entry, time.Now()
	key, lease := entry.Key, entry.Lease
	if !now.Before(lease.Until) {
		y.t.Errorf("%v of %s: got it sent %v after its lease, want it before its end", out.Request.Kind, lease.Worker,
			now.Sub(lease.Until))
	}
	if until, is := y.inFlight[key]; is && now.Before(until) {
		y.t.Errorf("%v of %s: got it sent while another request is in flight, want it after that", out.Request.Kind,
			lease.Worker)
	}
	y.inFlight[key] = lease.Until
	select {
	case y.departed <- struct{}{}:
	default:
	}
	name := fmt.Sprint(key, entry.State, entry.Record.Attempt(), lease.Until)
	if y.sent[name]++; y.sent[name] > 1 {
		y.t.Errorf("%v of %s: got it sent %d times, want once", out.Request.Kind, lease.Worker, y.sent[name])
	}
	switch out.Request.Kind {
	case osb.KindProvision:
		y.created[key] = now
	case osb.KindDeprovision:
		if at, is := y.created[key]; is && now.Before(at.Add(holdTime)) {
			y.t.Errorf("the deletion by %s: got it sent %v after the creation, want it after the hold", lease.Worker,
				now.Sub(at))
		}
	default:
		y.t.Errorf("got %v sent, want no such request", out.Request.Kind)
	}
}

// check checks that what is recorded is true.
func (y *yard) check(store platform.Store) {
	y.t.Helper()
	rows := diff.Value(store.List(background, platform.Filter{}))(y.t)
	ready, isRemoved := 0, false
	for _, row := range rows {
		isRemoved = isRemoved || row.Removal != platform.NotRemoved
		isRight := row.State == platform.Ready && y.exists[row.Key] || row.State == platform.Gone && !y.exists[row.Key]
		if !isRight || !reflect.DeepEqual(row.Lease, platform.Lease{}) {
			y.t.Errorf("%v: got it recorded %s (%+v), and existing %t, want both to agree", row.Key, row.State, row.Lease,
				y.exists[row.Key])
		}
		if row.State == platform.Ready {
			ready++
		}
	}
	if ready > 1 || isRemoved && ready > 0 {
		y.t.Errorf("of %d tries: got %d ready, though one is removed: %t, want at most 1, or none", len(rows), ready,
			isRemoved)
	}
}

// readyIn is the try of the order that is ready: the first one, unless the machine was too slow for it.
func readyIn(t *testing.T, store platform.Store) platform.Key {
	t.Helper()
	rows := diff.Value(store.List(background, platform.Filter{States: []platform.State{platform.Ready}}))(t)
	diff.Len(t, rows, 1, "ready")
	return rows[0].Key
}

// A hand is the client and the observer of one worker.
type hand struct {
	*yard
	pause *pause
}

// Exchange sends nothing and takes no answer once its time is over, as a platform.Client must.
func (h hand) Exchange(_ context.Context, out platform.Outgoing) (in platform.Incoming) {
	late := platform.Incoming{Lost: errors.New("its time is over")}
	if !h.Clock().Before(out.Until) {
		return late
	}
	in.Answer = h.handle(out)
	in.Status = int(in.Answer.Status)
	h.pause.at("handled")
	if !h.Clock().Before(out.Until) {
		return late
	}
	return in
}

// Catalogue is that of the broker.
func (h hand) Catalogue(context.Context, platform.Broker) (json.RawMessage, int, error) {
	return json.RawMessage(`{"services": [{"id": "` + service.String() + `", "name": "s", "description": "d",
		"bindable": true, "plans": [{"id": "` + plan.String() + `", "name": "p", "description": "d"}]}]}`), 200, nil
}

// Clock is the time.
func (h hand) Clock() time.Time { return time.Now() }

// OnRequest is the last that happens before a request leaves, and OnAnswer the first afterwards.
func (h hand) OnRequest(platform.Exchange) { h.pause.at("sent") }
func (h hand) OnAnswer(platform.Exchange)  { h.pause.at("answered") }

// OnFailure, OnChange, OnOrphan and OnCatalogue count nothing: a worker that was paused loses its lease.
func (h hand) OnFailure(platform.Failure)                            {}
func (h hand) OnChange(platform.Key, platform.State, platform.State) {}
func (h hand) OnOrphan(platform.Key, int, bool)                      {}
func (h hand) OnCatalogue(string)                                    {}

// A working worker runs until end is called.
type working struct {
	t     *testing.T
	stop  chan struct{}
	ended chan error
}

// work starts a worker over a store.
func (y *yard) work(store platform.Store, name string, pause *pause) *working {
	with := hand{y, pause}
	engine := platform.NewEngine(store, with, nil, platform.Options{
		Worker: name, Exchange: leaveTime, Margin: marginTime, Look: 10 * time.Millisecond,
	}, with)
	w := &working{t: y.t, stop: make(chan struct{}), ended: make(chan error, 1)}
	go func() { w.ended <- engine.Run(background, w.stop) }()
	return w
}

// untilRest waits until all rows of a store rest.
func (w *working) untilRest(store platform.Store) *working {
	w.t.Helper()
	for late := time.Now().Add(deadline); ; time.Sleep(10 * time.Millisecond) {
		due, _, err := store.OldestDue(background)
		switch {
		case err == nil && due.IsZero():
			return w
		case err != nil && !errors.Is(err, platform.ErrAway), time.Now().After(late):
			w.t.Fatalf("got rows due %v, %v, want them at rest", due, err)
		}
	}
}

// end ends a worker.
func (w *working) end() {
	w.t.Helper()
	close(w.stop)
	check(w.t, <-w.ended)
}

// atOnce is how many requests each engine of BenchmarkSteps has in flight, each on a connection of its own.
const atOnce = 16

// BenchmarkSteps has an engine over each store step rows that are polled, and reports the steps in a second. The stores
// are of one database, which has the broker "one", and rows of it that are due. The broker answers at once, in this
// process, that the operation goes on. So a row is due again a moment later, and is polled again and again.
func BenchmarkSteps(b *testing.B, stores ...platform.Store) {
	server := httptest.NewServer(http.HandlerFunc(goesOn))
	defer server.Close()
	pace := time.Millisecond
	err := stores[0].ChangeBroker(background, "one", func(it platform.Broker) (*platform.Broker, error) {
		it.URL, it.Settings = server.URL, platform.Settings{FirstPace: &pace, LongestPace: &pace}
		return &it, nil
	})
	check(b, err)
	sender, err := client.New(client.Options{
		Connections: len(stores) * atOnce, Password: func(platform.Broker) (string, error) { return "", nil },
	})
	check(b, err)
	defer sender.Close()
	counting := &counter{b: b, until: int64(b.N), stop: make(chan struct{})}
	b.ResetTimer()
	var all sync.WaitGroup
	for n, store := range stores {
		options := platform.Options{Worker: fmt.Sprint("worker ", n), AtOnce: atOnce}
		engine := platform.NewEngine(store, sender, nil, options, counting)
		all.Add(1)
		go func() {
			defer all.Done()
			diff.NoError(b, engine.Run(background, counting.stop), "")
		}()
	}
	all.Wait()
	b.StopTimer()
	b.ReportMetric(float64(counting.count.Load())/time.Since(counting.begun).Seconds(), "steps/s")
}

// goesOn answers a request for the catalogue, and a Poll.
func goesOn(w http.ResponseWriter, r *http.Request) {
	w.Header().Set(osb.RequestIdentityHeader, r.Header.Get(osb.RequestIdentityHeader))
	if !strings.HasSuffix(r.URL.Path, "/catalog") {
		_, _ = io.WriteString(w, `{"state": "in progress"}`)
		return
	}
	_, _ = io.WriteString(w, `{"services": [{"id": "`+service.String()+`", "name": "s", "description": "d", `+
		`"bindable": true, "plans": [{"id": "`+plan.String()+`", "name": "p", "description": "d"}]}]}`)
}

// A counter is an observer that counts the answers, from the first one on, and closes stop after so many.
type counter struct {
	b     *testing.B
	until int64
	count atomic.Int64
	once  sync.Once
	begun time.Time
	stop  chan struct{}
}

// OnAnswer counts an answer.
func (c *counter) OnAnswer(it platform.Exchange) {
	if it.Lost != nil || it.Status != http.StatusOK {
		c.b.Errorf("%s: got %d, %v, want 200", it.Kind, it.Status, it.Lost)
	}
	c.once.Do(func() { c.begun = time.Now() })
	if c.count.Add(1) == c.until {
		close(c.stop)
	}
}

// OnFailure fails the benchmark.
func (c *counter) OnFailure(it platform.Failure) { c.b.Errorf("got the failure %+v, want none", it) }

// OnRequest, OnChange, OnOrphan and OnCatalogue count nothing.
func (c *counter) OnRequest(platform.Exchange)                           {}
func (c *counter) OnChange(platform.Key, platform.State, platform.State) {}
func (c *counter) OnOrphan(platform.Key, int, bool)                      {}
func (c *counter) OnCatalogue(string)                                    {}

var _ platform.Observer = (*counter)(nil)
