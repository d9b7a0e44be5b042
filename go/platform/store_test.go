package platform

import (
	"context"
	"errors"
	"fmt"
	"reflect"
	"strings"
	"sync"
	"sync/atomic"
	"testing"
	"time"

	"pippinterm/internal/diff"
	"pippinterm/osb"
)

var errStore = errors.New("the store fails")

// A failingStore fails at one of its calls: nothing is read or written then.
type failingStore struct {
	*memory
	left int    // how many calls until the one that fails, and 0 if none does
	call string // the one that has failed
}

func (s *failingStore) fails(call string) error {
	if s.left == 0 {
		return nil
	}
	if s.left--; s.left > 0 {
		return nil
	}
	s.call = call
	return fmt.Errorf("%w: %s", errStore, call)
}

func (s *failingStore) Brokers(ctx context.Context) ([]Broker, error) {
	if err := s.fails("Brokers"); err != nil {
		return nil, err
	}
	return s.memory.Brokers(ctx)
}

func (s *failingStore) Read(ctx context.Context, key Key) (Entry, error) {
	if err := s.fails("Read"); err != nil {
		return Entry{}, err
	}
	return s.memory.Read(ctx, key)
}

func (s *failingStore) NextDue(ctx context.Context, names []string) (due, now time.Time, err error) {
	if err := s.fails("NextDue"); err != nil {
		return due, now, err
	}
	return s.memory.NextDue(ctx, names)
}

func (s *failingStore) Insert(ctx context.Context, entry Entry, check func(Snapshot) error) error {
	if err := s.fails("Insert"); err != nil {
		return err
	}
	return s.memory.Insert(ctx, entry, check)
}

// Change fails itself, or at AllGone.
func (s *failingStore) Change(ctx context.Context, key Key, step Step) error {
	if err := s.fails("Change"); err != nil {
		return err
	}
	return s.memory.Change(ctx, key, func(now time.Time, snapshot Snapshot) (*Change, error) {
		if allGone := snapshot.AllGone; allGone != nil {
			snapshot.AllGone = func() (bool, error) {
				if err := s.fails("AllGone"); err != nil {
					return false, err
				}
				return allGone()
			}
		}
		return step(now, snapshot)
	})
}

func (s *failingStore) ReadAll(ctx context.Context, keys []Key) ([]Entry, error) {
	if err := s.fails("ReadAll"); err != nil {
		return nil, err
	}
	return s.memory.ReadAll(ctx, keys)
}

func (s *failingStore) AddBroker(ctx context.Context, broker Broker) error {
	if err := s.fails("AddBroker"); err != nil {
		return err
	}
	return s.memory.AddBroker(ctx, broker)
}

func (s *failingStore) ChangeBroker(ctx context.Context, name string, change func(Broker) (*Broker, error)) error {
	if err := s.fails("ChangeBroker"); err != nil {
		return err
	}
	return s.memory.ChangeBroker(ctx, name, change)
}

func (s *failingStore) DropBroker(ctx context.Context, name string) error {
	if err := s.fails("DropBroker"); err != nil {
		return err
	}
	return s.memory.DropBroker(ctx, name)
}

// A store that fails at any one call of an order is reported, and nothing is written.
func TestOrdersOverAStoreThatFails(t *testing.T) {
	wanted := NewInstance{Broker: "shelf", Service: "shelf", Plan: "now"}
	for name, call := range map[string]func(*Orders) error{
		"Create": func(o *Orders) error { return diff.Err(o.Create(background, wanted)) },
		"Bind": func(o *Orders) error {
			_, err := o.Bind(background, NewBinding{Instance: anInstance.String()})
			return err
		},
		"Remove":      func(o *Orders) error { return diff.Err(o.Remove(background, anInstance, true)) },
		"Retry":       func(o *Orders) error { return diff.Err(o.Retry(background, osb.InstanceKey(id("9")))) },
		"Abandon":     func(o *Orders) error { return diff.Err(o.Abandon(background, osb.InstanceKey(id("8")), "so")) },
		"Credentials": func(o *Orders) error { return diff.Err(o.Credentials(background, aBinding)) },
		"AddBroker": func(o *Orders) error {
			return o.AddBroker(background, Broker{Name: "b", URL: "https://b", User: "u"}, []byte("secret"))
		},
		"SetBroker": func(o *Orders) error {
			return o.SetBroker(background, "shelf", func(it *Broker) error { it.User = "v"; return nil }, nil)
		},
		"DropBroker": func(o *Orders) error { return o.DropBroker(background, "unused") },
	} {
		t.Run(name, func(t *testing.T) {
			for n, failed := 1, "none yet"; failed != ""; n++ {
				d := newDesk(t)
				check(t, d.orders.AddBroker(background, Broker{Name: "unused", URL: "https://c", User: "u"}, []byte("secret")))
				d.put(rowIn(anInstance, Ready))
				d.put(with(rowIn(aBinding, Ready), func(e *Entry) { e.Credentials, _ = seal{}.Seal([]byte("{}"), e.Key.String()) }))
				d.put(with(rowIn(osb.InstanceKey(id("9")), Polling), func(e *Entry) { e.Due = at(500) }))
				d.put(with(rowIn(osb.InstanceKey(id("8")), Unsettled), func(e *Entry) { e.Due = time.Time{} }))
				rows, brokers := fmt.Sprint(d.store.rows), fmt.Sprint(d.store.brokers)
				store := &failingStore{memory: d.store, left: n}
				err := call(NewOrders(store, seal{}))
				if failed = store.call; failed == "" {
					if err != nil || n == 1 {
						t.Errorf("got %v after %d calls of the store, want nil", err, n-1)
					}
					continue
				}
				diff.ErrorIs(t, err, errStore, "%s, and %s has failed", name, failed)
				if !reflect.DeepEqual(fmt.Sprint(d.store.rows), rows) || fmt.Sprint(d.store.brokers) != brokers {
					t.Errorf("%s, and %s has failed: got %v, want %s", name, failed, d.store.rows, rows)
				}
			}
		})
	}
}

// As long as an answer couldn't be written, the engine isn't ready, also if nothing is due: until the answer is written
// after all.
func TestNotReadyWhileAnAnswerIsNotWritten(t *testing.T) {
	p := newPlant(t, Options{Exchange: time.Hour})
	p.engine.retry = 200 * time.Millisecond
	full, tries := errors.New("the disk is full"), &atomic.Int32{}
	p.store.between = func(point string, _ Key) {
		if point == "change-commit" {
			tries.Add(1)
		}
	}
	usual := p.line.exchange
	p.line.exchange = func(ctx context.Context, out Outgoing) Incoming {
		p.store.setFull(full)
		return usual(ctx, out)
	}
	p.start(background)
	key := p.create(NewInstance{})
	p.until("a second try", func() bool { return tries.Load() >= 2 })
	time.Sleep(50 * time.Millisecond) // that try ends
	p.engine.health.nothingDue()
	diff.ErrorIs(t, p.engine.Ready(), full, "")
	p.line.set(func() { p.line.exchange = usual })
	p.store.setFull(nil)
	p.untilState(key, Ready)
	p.until("an engine that is ready", func() bool { return p.engine.Ready() == nil })
}

// A claim that has nothing to write doesn't make the engine ready while something can't be written.
func TestNotReadyAfterAClaimOfNothing(t *testing.T) {
	p := newPlant(t, Options{})
	registry := newRegistry(background, p.engine, &sync.WaitGroup{})
	defer registry.stop()
	full := errors.New("the disk is full")
	p.engine.health.wrote(true, full)
	if found := p.engine.claim(background, registry, []string{"shelf"}, 1, nil); found.err != nil || found.claimed > 0 {
		t.Errorf("got %d rows claimed, and %v, want none", found.claimed, found.err)
	}
	diff.ErrorIs(t, p.engine.Ready(), full, "")
}

// However often an answer is written again, it counts as one, and as none once it is written.
func TestAnswersThatAreWrittenAgain(t *testing.T) {
	failed := errors.New("the disk is full")
	h := &storeHealth{observer: Silent{}}
	one, other := h.newRewrite(), h.newRewrite()
	for range [3]int{} {
		h.wrote(true, failed)
		one.begin()
	}
	other.end() // it has never been written again
	h.nothingDue()
	diff.ErrorIs(t, h.failing(), failed, "while it isn't written")
	one.end()
	h.nothingDue()
	diff.NoError(t, h.failing(), "once it is written")
}

// A rejection names a row by the ids by which it was ordered. Nobody knows the numbers that the database has for these.
func TestFaultsNameIDs(t *testing.T) {
	d := newDesk(t)
	create := NewInstance{Service: "shelf", Plan: "now", ID: "my shelf"}
	e := diff.Value(d.orders.Create(background, create))(t)
	bound := osb.BindingKey(e.Key.Instance, id("b1"))
	set := func(key Key, change func(*Entry)) {
		row := with(rowIn(key, Ready), change)
		row.Names = e.Names
		if key.IsBinding {
			row.Names.Binding = "my book"
		}
		d.store.rows[key] = row
	}
	shelf, book := "the instance my shelf", "the binding my shelf/my book"
	as := func(state State) func(*Entry) { return func(e *Entry) { e.State, e.Due = state, time.Time{} } }
	for _, test := range []struct {
		text              string
		instance, binding func(*Entry)
		call              func() error
	}{
		{shelf, nil, nil, func() error { return diff.Err(d.orders.Create(background, create)) }},
		{shelf, as(Gone), nil, func() error {
			_, err := d.orders.Bind(background, NewBinding{Instance: "my shelf"})
			return err
		}},
		{shelf, remove, nil, func() error {
			_, err := d.orders.Bind(background, NewBinding{Instance: "my shelf"})
			return err
		}},
		{book, nil, nil, func() error {
			diff.Value(d.orders.Bind(background, NewBinding{Instance: "my shelf", ID: "my book"}))(t)
			_, err := d.orders.Bind(background, NewBinding{Instance: "my shelf", ID: "my book"})
			return err
		}},
		{shelf, nil, nil, func() error { return diff.Err(d.orders.Remove(background, e.Key, false)) }},
		{book, nil, as(Abandoned), func() error { return diff.Err(d.orders.Remove(background, bound, false)) }},
		{shelf, as(Ready), nil, func() error { return diff.Err(d.orders.Retry(background, e.Key)) }},
		{book, nil, as(Gone), func() error { return diff.Err(d.orders.Retry(background, bound)) }},
		{shelf, nil, nil, func() error { return diff.Err(d.orders.Abandon(background, e.Key, "so")) }},
		{book, nil, as(Withdrawn), func() error { return diff.Err(d.orders.Abandon(background, bound, "so")) }},
		{book, nil, as(Gone), func() error { return diff.Err(d.orders.Credentials(background, bound)) }},
	} {
		t.Run(test.text, func(t *testing.T) {
			for key, change := range map[Key]func(*Entry){e.Key: test.instance, bound: test.binding} {
				if change == nil {
					change = func(*Entry) {}
				}
				set(key, change)
			}
			err := test.call()
			wantRejection(t, err, Conflict, test.text)
			diff.Lacks(t, fmt.Sprint(err), e.Key.String(), "the key")
		})
	}
	_, err := d.orders.Bind(background, NewBinding{Instance: "another shelf"})
	wantRejection(t, err, NotFound, "the instance another shelf is unknown")
}

// A retry that the record doesn't allow is a rejection, and nothing is written.
func TestRetryRejected(t *testing.T) {
	d := newDesk(t)
	before := d.put(with(rowIn(anInstance, Ready), func(e *Entry) { e.State, e.Due = CleaningPolling, at(500) }))
	_, err := d.orders.Retry(background, anInstance)
	wantRejection(t, err, Conflict, describe(before)+" can't be retried: its record is ready")
	if after := d.store.rows[anInstance]; after.State != CleaningPolling || !after.Due.Equal(at(500)) {
		t.Errorf("got %+v, want it in cleaning-polling, due later", after)
	}
}

// An answer is taken if it names the recorded store, and no other. What a broker sends in the place of an id isn't
// repeated: the error has a command to be copied.
func TestCheckStore(t *testing.T) {
	b := Broker{Name: "shelf", Store: "8d5f7a3e"}
	for _, test := range []struct {
		named         []string
		has, hasNotIt string
	}{
		{named: []string{"8d5f7a3e", "8d5f7a3e"}},
		{named: nil, has: "it has no header X-Osb-Store"},
		{named: []string{"8d5f7a3e", "6a6b6c6d"}, has: "--accept-store 6a6b6c6d"},
		{named: []string{""}, has: "--accept-store none"},
		{named: []string{"x; reboot"}, has: "an id that can't be used", hasNotIt: "reboot"},
	} {
		t.Run(fmt.Sprintf("%q", test.named), func(t *testing.T) {
			err := b.CheckStore(test.named)
			switch {
			case test.has == "":
				diff.NoError(t, err, "%q", test.named)
			case !errors.Is(err, ErrOtherStore) || !strings.Contains(err.Error(), test.has):
				t.Errorf("%q: got %v, want %v with %q", test.named, err, ErrOtherStore, test.has)
			case test.hasNotIt != "" && strings.Contains(err.Error(), test.hasNotIt):
				t.Errorf("%q: got %v, want it without %q", test.named, err, test.hasNotIt)
			}
		})
	}
	diff.NoError(t, (Broker{Name: "shelf"}).CheckStore([]string{"6a6b6c6d"}), "without a recorded store")
}

// Passwords are sealed for this text. With another one, nobody could open those in the store.
func TestPasswordContext(t *testing.T) {
	got := PasswordContext(Broker{Name: "shelf", URL: "https://shelf/v", User: "u"})
	diff.Equal(t, got, "password 5:shelf 15:https://shelf/v 1:u", "")
}

// Walk passes each row once, some at once, and leaves out those that have left the states meanwhile. An error ends it.
func TestWalk(t *testing.T) {
	d := newDesk(t)
	keys := []Key{osb.InstanceKey(id("1")), osb.InstanceKey(id("2")), osb.InstanceKey(id("3"))}
	for _, key := range keys {
		d.put(rowIn(key, Ready))
	}
	for _, test := range []struct {
		filter Filter
		gone   bool // whether a row leaves Ready while Walk runs
		want   int
	}{{Filter{}, true, 3}, {Filter{States: []State{Ready}}, false, 3}, {Filter{States: []State{Ready}}, true, 2}} {
		t.Run(fmt.Sprintf("%+v", test), func(t *testing.T) {
			d.put(rowIn(keys[2], Ready))
			got, calls := 0, 0
			check(t, Walk(background, d.store, test.filter, 2, func(rows []Entry) error {
				got += len(rows)
				if calls++; test.gone {
					d.put(rowIn(keys[2], Gone))
				}
				return nil
			}))
			diff.Equal(t, got, test.want, "%+v", test)
			diff.Equal(t, calls, 2, "%+v", test)
		})
	}
	for _, fails := range []func(*failingStore, *error){
		func(s *failingStore, _ *error) { s.left = 1 },
		func(_ *failingStore, err *error) { *err = errStore },
	} {
		store, failure := &failingStore{memory: d.store}, error(nil)
		fails(store, &failure)
		diff.ErrorIs(t, Walk(background, store, Filter{}, 2, func([]Entry) error { return failure }), errStore, "")
	}
}

// A key is the id of an instance, or with a slash that of a binding of it. Each may be any text that an id can be.
func TestParseKey(t *testing.T) {
	one, other := id("1"), id("b1")
	for text, want := range map[string]Key{
		one.String():                        osb.InstanceKey(one),
		one.String() + "/" + other.String(): osb.BindingKey(one, other),
	} {
		t.Run(text, func(t *testing.T) {
			diff.Equal(t, diff.Value(ParseKey(text))(t), want, "")
			if got := want.String(); got != text { // with another text, nobody could open the credentials in the store
				t.Errorf("the text: got %s, want %s", got, text)
			}
		})
	}
	for _, text := range []string{"", "/", "a/", "/b", "\xff", "a/\xff", strings.Repeat("a", 256)} {
		wantRejection(t, diff.Err(ParseKey(text)), Invalid, "can't be used")
	}
}

// The chain of a row are the tries of its order, of an instance or of a binding of one.
func TestChain(t *testing.T) {
	for _, key := range []Key{anInstance, aBinding} {
		got := rowIn(key, Ready).Chain()
		if *got.First != key.ID() || *got.Bindings != key.IsBinding || (got.Instance != nil) != key.IsBinding {
			t.Errorf("%v: got %+v, want its first id and what its kind needs", key, got)
		}
	}
}

// The stays before the one of a row that was read are those that ended before, also if further ones have ended
// since.
func TestBefore(t *testing.T) {
	at := time.Date(2026, 1, 2, 3, 4, 5, 0, time.UTC)
	ended := []Stay{{Ordered, at}, {Wanted, at.Add(time.Second)}, {Ready, at.Add(time.Minute)}}
	for n, want := range append(ended, Stay{Wanted, at.Add(time.Hour)}) {
		diff.Equal(t, len((Entry{State: want.State, Since: want.Since}).Before(ended)), n, "%v", want)
	}
}
