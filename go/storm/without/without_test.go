//go:build storm

package without

import (
	"context"
	"encoding/json"
	"errors"
	"fmt"
	"net/http"
	"net/http/httptest"
	"os"
	"path/filepath"
	"strings"
	"testing"
	"time"

	"pippinterm/broker"
	"pippinterm/broker/backend/folders"
	"pippinterm/broker/brokertest"
	brokersqlite "pippinterm/broker/sqlite"
	"pippinterm/internal/diff"
	"pippinterm/internal/waits"
	"pippinterm/osb"
	"pippinterm/platform"
	"pippinterm/platform/sqlite"
	"pippinterm/storm/run/goods"
)

// Whatever is taken out: a life over a calm network goes as it does with everything in.
func TestALifeWithoutAPart(t *testing.T) {
	for _, part := range []string{"", "available", "held", "tombstones", "work", "busy", "locks", "broker"} {
		t.Run("without "+part, func(t *testing.T) {
			s := newTestBroker(t, part, broker.ServiceOptions{})
			s.provision(201, now)
			s.provision(200, now)
			s.bind(201, now)
			s.bind(200, now)
			_, err := os.Stat(filepath.Join(s.top, ".bindings", one.String()+"-"+bound.String()))
			diff.NoError(t, err, "the file of the binding")
			s.remove(200, binding, now)
			s.remove(200, instance, now)
			s.remove(410, instance, now)
			diff.ErrorIs(t, diff.Err(os.Stat(filepath.Join(s.top, one.String()))), os.ErrNotExist, "the folder")
		})
	}
}

func TestALaterLifeWithoutAPart(t *testing.T) {
	for _, part := range []string{"", "tombstones", "work", "busy", "locks", "broker"} {
		t.Run("without "+part, func(t *testing.T) {
			s := newTestBroker(t, part, broker.ServiceOptions{})
			s.provision(202, later) // and its operation ends in Touch
			s.provision(200, later)
			s.bind(202, later)
			s.bind(200, later)
			s.remove(202, binding, later)
			s.remove(410, binding, later)
			s.remove(202, instance, later)
			s.remove(410, instance, later)
		})
	}
}

func TestUnknownPart(t *testing.T) {
	_, _, err := StoreAndLocks(context.Background(), "everything", openEmpty(t), withoutLocks{})
	diff.Error(t, err, "a broker without everything")
}

func TestTombstones(t *testing.T) {
	for _, part := range []string{"tombstones", "broker"} {
		t.Run(part, func(t *testing.T) {
			s := newTestBroker(t, part, broker.ServiceOptions{})
			s.remove(410, instance, now)
			s.remove(410, binding, now)
			wantHolding(t, s.store, instance, osb.Holding{})
			wantHolding(t, s.store, binding, osb.Holding{})
			s.provision(201, now) // which a tombstone would forbid
		})
	}
	s := newTestBroker(t, "", broker.ServiceOptions{})
	s.remove(410, instance, now)
	s.provision(409, now)
}

// A Bind begins although its instance doesn't exist, or isn't ready. The Unbind is judged as ever.
func TestAvailable(t *testing.T) {
	for part, statuses := range map[string][3]int{"available": {201, 200, 202}, "": {503, 410, 503}} {
		t.Run("without "+part, func(t *testing.T) {
			s := newTestBroker(t, part, broker.ServiceOptions{})
			s.provision(201, now)
			write(t, s.store, instance, osb.Holding{})
			s.bind(statuses[0], now)
			s.remove(statuses[1], binding, now)
			s.remove(410, binding, now)
			for _, firstPoll := range []bool{false, true} {
				s = newTestBroker(t, part, broker.ServiceOptions{FirstPoll: firstPoll, WaitForPoll: time.Minute})
				write(t, s.store, instance, holding(t, in("making"), "null", false))
				s.bind(statuses[2], later)
			}
		})
	}
}

func TestHeld(t *testing.T) {
	for part, status := range map[string]int{"held": 200, "": 422} {
		t.Run("without "+part, func(t *testing.T) {
			s := newTestBroker(t, part, broker.ServiceOptions{})
			s.provision(201, now)
			s.bind(201, now)
			s.remove(status, instance, now)
		})
	}
}

func TestLocks(t *testing.T) {
	ctx := context.Background()
	_, locks, err := StoreAndLocks(ctx, "locks", openEmpty(t), nil)
	check(t, err)
	for n := 0; n < 2; n++ {
		diff.Equal(t, diff.Value(locks.TryLock(ctx, instance))(t) != nil, true, "attempt %d gets the lock", n)
	}
	diff.Value(locks.Lock(ctx, instance))(t)
}

// The unfinished work of the last process has failed, if the broker is as usual.
func TestUnfinishedHasFailed(t *testing.T) {
	ctx, store := context.Background(), openEmpty(t)
	making, deleting := holding(t, in("making"), "null", false), holding(t, in("deleting"), "null", false)
	other := osb.InstanceKey(bound)
	write(t, store, instance, making)
	write(t, store, other, deleting)
	usual, _, err := StoreAndLocks(ctx, "broker", store, nil)
	check(t, err)
	wantHolding(t, store, instance, holding(t, in("failed"), "null", false))
	wantHolding(t, store, other, holding(t, in("delete-failed"), "null", false))
	write(t, store, instance, making) // as a request has begun it since
	diff.Equal(t, len(diff.Value(usual.UnfinishedKeys(ctx))(t)), 0, "unfinished keys")
}

// A lateClient answers once the test lets it.
type lateClient struct {
	answers chan platform.Incoming
	until   chan time.Time // of each request
}

func (c lateClient) Exchange(_ context.Context, out platform.Outgoing) platform.Incoming {
	c.until <- out.Until
	return <-c.answers
}

func (lateClient) Catalogue(context.Context, platform.Broker) (json.RawMessage, int, error) {
	return nil, 0, context.Canceled
}

func (lateClient) Clock() time.Time { return time.Now() }

// inFlight is a store with an instance whose request is in flight.
func inFlight(t *testing.T) (platform.Store, platform.Entry) {
	t.Helper()
	ctx := context.Background()
	store := diff.Value(sqlite.Open(ctx, filepath.Join(t.TempDir(), "store")))(t)
	t.Cleanup(func() { check(t, store.Close()) })
	check(t, store.AddBroker(ctx, platform.Broker{Name: "b", URL: "http://127.0.0.1"}))
	record, _ := osb.Create(one, service, now, true)
	entry := platform.Entry{
		Order: platform.Order{
			Key: osb.InstanceKey(one), Broker: "b", Service: service, Plan: now, Body: json.RawMessage("{}"),
			Names:        platform.Names{Instance: one.String(), Service: service.String(), Plan: now.String()},
			Organization: "o", Space: "s", Try: 1, Tries: 1, First: one,
		},
		Record: record, IsSent: true, State: platform.Wanted, Since: time.Now(), Due: time.Now(),
	}
	check(t, store.Insert(ctx, entry, func(platform.Snapshot) error { return nil }))
	return store, entry
}

// An answer in time is the client's own, and changes nothing.
func TestAnswerInTime(t *testing.T) {
	store, entry := inFlight(t)
	client := lateClient{make(chan platform.Incoming, 1), make(chan time.Time, 1)}
	client.answers <- platform.Incoming{Status: http.StatusCreated}
	out := platform.Outgoing{Entry: entry, Until: time.Now().Add(time.Minute)}
	in := ClientWithoutAttempts(client, store).Exchange(context.Background(), out)
	diff.Equal(t, in.Status, http.StatusCreated, "the status")
	diff.Equal(t, (<-client.until).Sub(out.Until), listens, "for how much longer it listens")
	diff.Equal(t, diff.Value(store.Read(context.Background(), entry.Key))(t).State, platform.Wanted, "the state")
}

// A late answer is taken for that to another request: the 201 of a Provision for the answer to the Deprovision.
func TestLateAnswerIsTaken(t *testing.T) {
	ctx := context.Background()
	store, entry := inFlight(t)
	client := lateClient{make(chan platform.Incoming), make(chan time.Time, 1)}
	out := platform.Outgoing{Entry: entry, Until: time.Now()}
	diff.Error(t, ClientWithoutAttempts(client, store).Exchange(ctx, out).Lost, "the answer")
	check(t, store.Change(ctx, entry.Key, func(_ time.Time, snapshot platform.Snapshot) (*platform.Change, error) {
		e := snapshot.Entry
		record, _, err := diff.Value(e.Record.Timeout(1))(t).Send(one)
		e.Record, e.State = record, platform.StateOf(record)
		return &platform.Change{Entry: e}, err
	}))
	client.answers <- platform.Incoming{Answer: osb.Answer{Status: http.StatusOK, Body: osb.BodyEmpty}}
	waits.Until(t, "the state is gone", func() bool {
		read := diff.Value(store.Read(ctx, entry.Key))(t)
		return read.State == platform.Gone
	})
}

// givenUp is a step that gives the request in flight up, and then asks for the deletion, as package platform does.
func givenUp(t *testing.T, steps *[]platform.State) platform.Step {
	return func(_ time.Time, snapshot platform.Snapshot) (*platform.Change, error) {
		*steps = append(*steps, snapshot.State)
		e := snapshot.Entry
		if e.State == platform.Gone {
			return &platform.Change{Entry: e}, nil
		}
		record, _, err := diff.Value(e.Record.Timeout(e.Record.Attempt()))(t).Send(e.Key.ID())
		check(t, err)
		e.Record, e.State, e.Due = record, platform.StateOf(record), time.Now()
		e.Lease = platform.Lease{Worker: "w", Until: time.Now()}
		return &platform.Change{Entry: e}, nil
	}
}

// A creation that is abandoned is forgotten, by a claim and by an answer, and nothing is sent.
func TestForgets(t *testing.T) {
	ctx := context.Background()
	for name, change := range map[string]func(platform.Store, platform.Key, platform.Step) error{
		"claim": func(store platform.Store, _ platform.Key, step platform.Step) error {
			_, err := store.Claim(ctx, []string{"b"}, 1, step)
			return err
		},
		"change": func(store platform.Store, key platform.Key, step platform.Step) error {
			return store.Change(ctx, key, step)
		},
	} {
		t.Run(name, func(t *testing.T) {
			store, entry := inFlight(t)
			var steps []platform.State
			check(t, change(ForgetfulStore(store), entry.Key, givenUp(t, &steps)))
			read := diff.Value(store.Read(ctx, entry.Key))(t)
			if read.State != platform.Gone || !read.Record.IsGone() || !read.Due.IsZero() || read.Lease.Worker != "" {
				t.Errorf("%s: got %+v, want a record that is gone, and of no worker", name, read)
			}
			if last := steps[len(steps)-1]; name == "claim" && last != platform.Gone { // what was decided last is sent
				t.Errorf("%s: got the decisions on %v, want that of gone last", name, steps)
			}
		})
	}
}

// A creation that is to be removed, one that is answered, and a deletion go on.
func TestForgetsNothingElse(t *testing.T) {
	ctx := context.Background()
	for name, test := range map[string]struct {
		removal platform.Removal
		step    func(osb.Record) (osb.Record, error)
		wanted  platform.State
	}{
		"removed": {platform.Removed, func(r osb.Record) (osb.Record, error) { return r.Timeout(1) }, platform.Cleaning},
		"answered": {platform.NotRemoved, func(r osb.Record) (osb.Record, error) {
			return r.Answer(1, osb.Answer{Status: 201, Body: osb.BodyEmpty})
		}, platform.Ready},
		"deleted": {platform.Removed, func(r osb.Record) (osb.Record, error) {
			record := diff.Value(r.Answer(1, osb.Answer{Status: 201, Body: osb.BodyEmpty}))(t)
			return record.Remove()
		}, platform.Cleaning},
	} {
		t.Run(name, func(t *testing.T) {
			store, entry := inFlight(t)
			check(t, ForgetfulStore(store).Change(ctx, entry.Key, func(_ time.Time, snapshot platform.Snapshot) (*platform.Change, error) {
				e := snapshot.Entry
				var err error
				e.Record, err = test.step(e.Record)
				e.State, e.Removal = platform.StateOf(e.Record), test.removal
				return &platform.Change{Entry: e}, err
			}))
			read := diff.Value(store.Read(ctx, entry.Key))(t)
			diff.Equal(t, read.State, test.wanted, "%s: the state", name)
		})
	}
}

// begin writes pending work of the worker, and end ends what is pending, as broker.Service does.
func begin(t *testing.T, store broker.Store, key broker.Key, pending osb.Holding) {
	t.Helper()
	check(t, store.Change(context.Background(), key, func(broker.Snapshot) (*broker.Entry, error) {
		return &broker.Entry{Holding: pending, Worker: worker}, nil
	}))
}

var worker = osb.MustParseID("00000000-0000-4000-8000-00000000000a")

func end(store broker.Store, key broker.Key) error {
	return store.Change(context.Background(), key, func(snapshot broker.Snapshot) (*broker.Entry, error) {
		if snapshot.Worker != worker {
			return nil, broker.ErrLostWork
		}
		ended, _, err := snapshot.Holding.End(osb.ModeAsync, osb.OutcomeDone)
		if errors.Is(err, osb.ErrNothingBegun) { // as the driver has it
			err = broker.ErrLostWork
		}
		return &broker.Entry{Holding: ended}, err
	})
}

func TestWorkIsWrittenOnceItIsDone(t *testing.T) {
	store := openEmpty(t)
	wrapped, _, err := StoreAndLocks(context.Background(), "work", store, nil)
	check(t, err)
	diff.ErrorIs(t, end(wrapped, instance), broker.ErrLostWork, "work that nobody began")
	begin(t, wrapped, instance, holding(t, "null", pendingWork("provision", instance), false))
	wantHolding(t, store, instance, osb.Holding{})
	check(t, end(wrapped, instance))
	wantHolding(t, store, instance, holding(t, in("making"), "null", false))
}

// While work is pending, a step sees what is held without it.
func TestBusy(t *testing.T) {
	ctx, store := context.Background(), openEmpty(t)
	wrapped, _, err := StoreAndLocks(ctx, "busy", store, nil)
	check(t, err)
	creating := holding(t, "null", pendingWork("provision", instance), false)
	deleting := holding(t, in("ready"), pendingWork("deprovision", instance), false)
	for _, test := range []struct {
		name                 string
		pending, shown, next osb.Holding
		written              osb.Holding
	}{
		{"a tombstone isn't written", creating, osb.Holding{}, holding(t, "null", "null", true), creating},
		{"other work is", creating, osb.Holding{}, deleting, deleting},
		{"a row stays", deleting, holding(t, in("ready"), "null", false), holding(t, in("failed"), "null", false), deleting},
	} {
		t.Run(test.name, func(t *testing.T) {
			begin(t, store, instance, test.pending)
			var shown osb.Holding // in the last call, which counts
			check(t, wrapped.Change(ctx, instance, func(snapshot broker.Snapshot) (*broker.Entry, error) {
				shown = snapshot.Holding
				return &broker.Entry{Holding: test.next, Worker: worker}, nil
			}))
			diff.Equal(t, shown, test.shown, "the step")
			wantHolding(t, store, instance, test.written)
		})
	}
	check(t, end(wrapped, instance))
	wantHolding(t, store, instance, holding(t, in("deleting"), "null", false))
}

func TestBusyBinding(t *testing.T) {
	ctx, store := context.Background(), openEmpty(t)
	wrapped, _, err := StoreAndLocks(ctx, "busy", store, nil)
	check(t, err)
	write(t, store, binding, holding(t, in("ready"), pendingWork("deprovision", binding), false))
	var shown osb.Holding // in the last call, which counts
	check(t, wrapped.Change(ctx, binding, func(snapshot broker.Snapshot) (*broker.Entry, error) {
		shown = snapshot.Holding
		return nil, nil
	}))
	diff.Equal(t, shown, holding(t, in("ready"), "null", false), "the step")
}

// Whoever takes pending work over gets it.
func TestBusyTakeOver(t *testing.T) {
	ctx, store := context.Background(), openEmpty(t)
	wrapped, _, err := StoreAndLocks(ctx, "busy", store, nil)
	check(t, err)
	pending := holding(t, in("ready"), pendingWork("deprovision", instance), false)
	write(t, store, instance, pending)
	check(t, wrapped.Change(ctx, instance, func(snapshot broker.Snapshot) (*broker.Entry, error) {
		if _, isPending := snapshot.Holding.Work(); !isPending {
			return nil, nil
		}
		snapshot.Worker = instance.Instance
		return &snapshot.Entry, nil
	}))
	snapshot := diff.Value(store.Read(ctx, instance))(t)
	diff.Equal(t, snapshot.Worker, instance.Instance, "the worker")
	diff.Equal(t, snapshot.Holding, pending, "what is held")
}

func openEmpty(t *testing.T) broker.NamedStore {
	t.Helper()
	store, err := brokersqlite.Open(context.Background(), filepath.Join(t.TempDir(), "store"), broker.Silent{})
	check(t, err)
	t.Cleanup(func() { check(t, store.Close()) })
	return store
}

// holding reads a holding of an instance, whose row and work are JSON.
func holding(t *testing.T, row, work string, hasTombstone bool) (read osb.Holding) {
	t.Helper()
	text := fmt.Sprintf(`{"attributes":"%064d","row":%s,"tombstone":%t,"version":2,"work":%s}`, 0, row, hasTombstone, work)
	check(t, json.Unmarshal([]byte(text), &read))
	return read
}

func in(phase string) string {
	return fmt.Sprintf(`{"phase":%q,"plan":%q,"service":%q}`, phase, later, service)
}

// pending is the pending work of a request of this kind, about the key.
func pendingWork(kind string, key broker.Key) string {
	text := `{"accepts_incomplete":true,"id":%q,"kind":%q,"plan":%q,"service":%q}`
	return fmt.Sprintf(text, key.ID(), kind, later, service)
}

// write writes a holding, whatever is held.
func write(t *testing.T, store broker.Store, key broker.Key, holding osb.Holding) {
	t.Helper()
	check(t, store.Change(context.Background(), key, func(broker.Snapshot) (*broker.Entry, error) {
		return &broker.Entry{Holding: holding}, nil
	}))
}

// wantHolding compares what is written with what has to be.
func wantHolding(t *testing.T, store broker.Store, key broker.Key, want osb.Holding) {
	t.Helper()
	snapshot := diff.Value(store.Read(context.Background(), key))(t)
	diff.Equal(t, snapshot.Holding, want, "%v: written", key)
}

// A testBroker is a broker over a store and folders of its own.
type testBroker struct {
	t       *testing.T
	top     string
	handler *broker.Handler
	store   broker.NamedStore
}

func newTestBroker(t *testing.T, part string, options broker.ServiceOptions) *testBroker {
	t.Helper()
	ctx, s := context.Background(), &testBroker{t: t, top: t.TempDir()}
	sold := diff.Value(folders.New(s.top))(t)
	store, locks, err := StoreAndLocks(ctx, part, openEmpty(t), sold.Locks())
	check(t, err)
	read := diff.Value(broker.NewCatalogue(goods.Document(), broker.Abilities{Bindings: true}))(t)
	users := diff.Value(broker.NewUsers(map[string][]string{"u": {"p"}}))(t)
	made := broker.NewService(read, store, sold, locks, options, broker.Silent{})
	s.store = store
	s.handler, err = broker.NewHandler(ctx, made, broker.HandlerOptions{
		Users: users, LongestBody: 1000, AtOnce: 4, Observer: broker.Silent{},
		Touch: func(key broker.Key) { brokertest.Sweep(t, made, store, key)() },
	})
	check(t, err)
	return s
}

// ask sends a request below an instance, and returns the status of its answer.
func (s *testBroker) ask(method, target, body string) int {
	request := httptest.NewRequest(method, "/v2/service_instances/"+one.String()+target, strings.NewReader(body))
	request.SetBasicAuth("u", "p")
	request.Header.Set(osb.VersionHeader, osb.VersionSent)
	given := httptest.NewRecorder()
	s.handler.ServeHTTP(given, request)
	return given.Code
}

func (s *testBroker) want(status int, method, target, body string) {
	s.t.Helper()
	diff.Equal(s.t, s.ask(method, target, body), status, "%s %s", method, target)
}

func (s *testBroker) provision(status int, plan osb.ID) {
	s.t.Helper()
	body := `{"service_id":%q,"plan_id":%q,"organization_guid":"o","space_guid":"s"}`
	s.want(status, http.MethodPut, "?accepts_incomplete=true", fmt.Sprintf(body, service, plan))
}

func (s *testBroker) bind(status int, plan osb.ID) {
	s.t.Helper()
	body := fmt.Sprintf(`{"service_id":%q,"plan_id":%q}`, service, plan)
	s.want(status, http.MethodPut, "/service_bindings/"+bound.String()+"?accepts_incomplete=true", body)
}

func (s *testBroker) remove(status int, of broker.Key, plan osb.ID) {
	s.t.Helper()
	target := fmt.Sprintf("?service_id=%v&plan_id=%v&accepts_incomplete=true", service, plan)
	if of.IsBinding {
		target = "/service_bindings/" + bound.String() + target
	}
	s.want(status, http.MethodDelete, target, "")
}

var (
	service = osb.MustParseID(goods.Service)
	now     = osb.MustParseID(goods.AtOnce)
	later   = osb.MustParseID(goods.LaterWithBinds)
	one     = osb.MustParseID("00000000-0000-0000-0000-000000000001")
	bound   = osb.MustParseID("00000000-0000-0000-0000-0000000000f1")

	instance = osb.InstanceKey(one)
	binding  = osb.BindingKey(one, bound)
)

var check = diff.Must
