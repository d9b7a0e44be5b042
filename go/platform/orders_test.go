package platform

import (
	"context"
	"encoding/base64"
	"encoding/json"
	"errors"
	"fmt"
	"strings"
	"testing"
	"time"

	"pippinterm/internal/diff"
	"pippinterm/osb"
)

// A desk is where an operator orders: a store with the broker shelf, whose catalogue is known.
type desk struct {
	t      *testing.T
	dial   *dial
	store  *memory
	orders *Orders
}

func newDesk(t *testing.T) *desk {
	t.Helper()
	d := &desk{t: t, dial: newDial()}
	d.store = newMemory(d.dial.time)
	d.orders = NewOrders(d.store, seal{})
	check(t, d.orders.AddBroker(background, Broker{Name: "shelf", URL: "https://shelf", User: "u"}, []byte("secret")))
	broker := d.store.brokers["shelf"]
	broker.Catalogue = json.RawMessage(sold)
	d.store.brokers["shelf"] = broker
	return d
}

// put writes a row as it is.
func (d *desk) put(e Entry) Entry {
	e.Names = Names{Instance: e.Key.Instance.String(), Service: id("a0").String(), Plan: id("c1").String()}
	if e.Key.IsBinding {
		e.Names.Binding = e.Key.Binding.String()
	}
	d.store.rows[e.Key] = whole(e)
	return d.store.rows[e.Key]
}

// wantRejection is that an error is a Rejection of a kind whose text has this in it.
func wantRejection(t *testing.T, err error, kind RejectionKind, part string) {
	t.Helper()
	var rejected *Rejection
	if !errors.As(err, &rejected) || rejected.Kind != kind || !strings.Contains(rejected.Text, part) {
		t.Errorf("got %v, want a rejection of kind %d with %q", err, kind, part)
	}
}

func TestCreate(t *testing.T) {
	d := newDesk(t)
	e := diff.Value(d.orders.Create(background, NewInstance{
		Service: "shelf", Plan: "later",
		Parameters: json.RawMessage(`{"size": 1, "a": "<&>"}`), Context: json.RawMessage(`{"a": []}`),
	}))(t)
	diff.Equal(t, diff.Value(d.store.Read(background, e.Key))(t).Key, e.Key, "what is stored")
	number := diff.Value(osb.IDOfText(e.Names.Instance))(t)
	want := Order{
		Key: osb.InstanceKey(number), Broker: "shelf", Service: id("a0"), Plan: id("c2"), IsOwnID: true,
		Names:        Names{Instance: e.Names.Instance, Service: id("a0").String(), Plan: id("c2").String()},
		Organization: "osb-platform", Space: "osb-platform", Try: 1, Tries: 3, First: number,
	}
	want.Body = json.RawMessage(`{"context":{"a":[]},"parameters":{"size":1,"a":"<&>"}}`)
	now := d.dial.time()
	diff.Check(t, e, Entry{Order: want, State: Ordered, Since: now, Due: now}, "the order")
}

// An order counts since now, to the millisecond: databases keep no more.
func TestSinceOfAnOrder(t *testing.T) {
	d := newDesk(t)
	d.dial.forward(987654321 * time.Nanosecond)
	e := diff.Value(d.orders.Create(background, NewInstance{Service: "shelf", Plan: "later"}))(t)
	want := d.dial.time().Truncate(time.Millisecond)
	diff.Check(t, [2]time.Time{e.Since, e.Due}, [2]time.Time{want, want}, "since and due")
}

func TestCreateNamed(t *testing.T) {
	d := newDesk(t)
	identity := longIdentity("six")
	e := diff.Value(d.orders.Create(background, NewInstance{
		Broker: "shelf", Service: id("a0").String(), Plan: id("c1").String(), ID: "a thing",
		Organization: "o", Space: "s", Identity: identity, Tries: 7,
	}))(t)
	if e.IsOwnID || e.Names.Instance != "a thing" || e.Organization != "o" || e.Space != "s" || e.Tries != 7 ||
		e.Identity != identity || string(e.Body) != `{}` {
		t.Errorf("got %+v, want what was asked for", e)
	}
	diff.Equal(t, diff.Value(ParseKey("a thing"))(t), e.Key, "the key of the name")
	_, err := d.orders.Create(background, NewInstance{Service: "shelf", Plan: "now", ID: "a thing"})
	wantRejection(t, err, Conflict, "used already")
	e = diff.Value(d.orders.Create(background, NewInstance{Service: "shelf", Plan: "now", ID: "another thing"}))(t)
	diff.Equal(t, e.Tries, 1, "tries: the next one would have another id")
}

func TestCreateRejected(t *testing.T) {
	d := newDesk(t)
	deep := json.RawMessage(`{"a": ` + strings.Repeat("[", 200) + strings.Repeat("]", 200) + `}`)
	for _, test := range []struct {
		name   string
		wanted NewInstance
		kind   RejectionKind
		part   string
	}{
		{"an unknown broker", NewInstance{Broker: "x", Service: "shelf", Plan: "now"}, NotFound, "there is shelf"},
		{"an unknown service", NewInstance{Service: "x", Plan: "now"}, Invalid, "name one of shelf"},
		{"an unknown plan", NewInstance{Service: "shelf", Plan: "x"}, Invalid, "name one of now, later"},
		{"no plan of several", NewInstance{Service: "shelf"}, Invalid, "name one of now, later"},
		{"a slash", NewInstance{Service: "shelf", Plan: "now", ID: "a/b"}, Invalid, "slash"},
		{"dots", NewInstance{Service: "shelf", Plan: "now", ID: ".."}, Invalid, ".."},
		{"a long id", NewInstance{Service: "shelf", Plan: "now", ID: strings.Repeat("a", 256)}, Invalid, "255"},
		{"no UTF-8", NewInstance{Service: "shelf", Plan: "now", ID: "\xff"}, Invalid, "UTF-8"},
		{"parameters that are none", NewInstance{Service: "shelf", Plan: "now", Parameters: json.RawMessage(`[1]`)},
			Invalid, "parameters isn't an object"},
		{"a context that is cut", NewInstance{Service: "shelf", Plan: "now", Context: json.RawMessage(`{"a"`)}, Invalid,
			"context isn't an object"},
		{"what nests too deep", NewInstance{Service: "shelf", Plan: "now", Parameters: deep}, Invalid,
			"parameters can't be sent: more than 126 arrays and objects lie within each other"},
		{"an identity", NewInstance{Service: "shelf", Plan: "now", Identity: "me"}, Invalid, "identity"},
		{"a long identity", NewInstance{Service: "shelf", Plan: "now", Identity: longIdentity("four")}, Invalid, "16385 bytes"},
		{"too many tries", NewInstance{Service: "shelf", Plan: "now", Tries: 101}, Invalid, "1 to 100"},
		{"too few tries", NewInstance{Service: "shelf", Plan: "now", Tries: -1}, Invalid, "1 to 100"},
		{"a space of no text", NewInstance{Service: "shelf", Plan: "now", Space: "\xff"}, Invalid, "can't be sent"},
	} {
		_, err := d.orders.Create(background, test.wanted)
		t.Run(test.name, func(t *testing.T) { wantRejection(t, err, test.kind, test.part) })
	}
	diff.Empty(t, d.store.rows, "")
}

// Without a catalogue, or a broker that is meant, nothing can be ordered.
func TestCreateWithoutCatalogue(t *testing.T) {
	orders := NewOrders(newMemory(time.Now), seal{})
	wantRejection(t, diff.Err(orders.Create(background, NewInstance{Service: "shelf"})), NotFound, "add one first")
	check(t, orders.AddBroker(background, Broker{Name: "one", URL: "https://one", User: "u"}, []byte("p")))
	wantRejection(t, diff.Err(orders.Create(background, NewInstance{Service: "shelf"})), Conflict, "no catalogue yet")
	check(t, orders.AddBroker(background, Broker{Name: "two", URL: "https://two", User: "u"}, []byte("p")))
	wantRejection(t, diff.Err(orders.Create(background, NewInstance{Service: "shelf"})), Invalid, "one, two")
}

// A binding is ordered only while its instance is ready and isn't removed.
func TestBind(t *testing.T) {
	for _, state := range everyState {
		for _, removal := range []Removal{NotRemoved, Removed} {
			t.Run(fmt.Sprint(state, " ", removal), func(t *testing.T) {
				d := newDesk(t)
				instance := d.put(with(rowIn(anInstance, state), func(e *Entry) { e.Removal = removal }))
				e, err := d.orders.Bind(background, NewBinding{
					Instance: instance.Names.Instance, Parameters: json.RawMessage(`{}`),
					BindResource: json.RawMessage(`{"app_guid": "1"}`),
				})
				if state == Ready && removal == NotRemoved {
					check(t, err)
					names := instance.Names
					names.Binding = e.Names.Binding
					diff.Check(t, e, Entry{Order: Order{
						Key: osb.BindingKey(anInstance.Instance, e.Key.Binding), Broker: "shelf", Service: instance.Service,
						Plan: instance.Plan, IsOwnID: true, Names: names, Organization: instance.Organization,
						Space: instance.Space, Try: 1, Tries: 3, First: e.Key.Binding,
						Body: json.RawMessage(`{"bind_resource":{"app_guid":"1"},"parameters":{}}`),
					}, State: Ordered, Since: d.dial.time(), Due: d.dial.time()}, "a binding of the instance")
					return
				}
				wantRejection(t, err, Conflict, "instance")
				diff.Equal(t, len(d.store.rows), 1, "%s", state)
			})
		}
	}
}

// A binding whose id is chosen is tried once, unless more tries are asked for.
func TestBindNamed(t *testing.T) {
	d := newDesk(t)
	instance := d.put(rowIn(anInstance, Ready)).Names.Instance
	for _, test := range []struct {
		wanted NewBinding
		tries  int
	}{
		{NewBinding{ID: "a binding"}, 1}, {NewBinding{ID: "another", Tries: 7}, 7}, {NewBinding{Tries: 1}, 1},
		{NewBinding{}, DefaultTries}, {NewBinding{Tries: 100}, 100},
	} {
		t.Run(fmt.Sprintf("%+v", test.wanted), func(t *testing.T) {
			test.wanted.Instance = instance
			e := diff.Value(d.orders.Bind(background, test.wanted))(t)
			diff.Equal(t, e.Tries, test.tries, "%+v", test.wanted)
			diff.Equal(t, e.IsOwnID, test.wanted.ID == "", "%+v", test.wanted)
		})
	}
}

func TestBindRejected(t *testing.T) {
	d := newDesk(t)
	d.put(rowIn(anInstance, Ready))
	d.put(rowIn(aBinding, Ready))
	name := anInstance.String()
	for _, test := range []struct {
		wanted NewBinding
		kind   RejectionKind
		part   string
	}{
		{NewBinding{Instance: "another"}, NotFound, "unknown"},
		{NewBinding{Instance: "a/b"}, Invalid, "slash"},
		{NewBinding{Instance: name, ID: aBinding.Binding.String()}, Conflict, "used already"},
		{NewBinding{Instance: name, ID: "a/b"}, Invalid, "slash"},
		{NewBinding{Instance: name, BindResource: json.RawMessage(`1`)}, Invalid, "bind_resource"},
		{NewBinding{Instance: name, Identity: "me"}, Invalid, "identity"},
		{NewBinding{Instance: name, Tries: 101}, Invalid, "1 to 100"},
		{NewBinding{Instance: name, Tries: -1}, Invalid, "1 to 100"},
	} {
		t.Run(test.part, func(t *testing.T) {
			wantRejection(t, diff.Err(d.orders.Bind(background, test.wanted)), test.kind, test.part)
		})
	}
	wantRejection(t, diff.Err(NewOrders(d.store, nil).Bind(background, NewBinding{Instance: name})), Conflict, "no key")
	dropped := d.store.brokers["shelf"]
	dropped.Catalogue = json.RawMessage(strings.ReplaceAll(sold, id("c1").String(), id("c9").String()))
	d.store.brokers["shelf"] = dropped
	_, err := d.orders.Bind(background, NewBinding{Instance: name})
	wantRejection(t, err, Conflict, `the catalogue of the broker shelf doesn't have the plan "`+id("c1").String()+`" any more`)
	unbindable := d.store.brokers["shelf"]
	unbindable.Catalogue = json.RawMessage(strings.ReplaceAll(sold, `"bindable": true`, `"bindable": false`))
	d.store.brokers["shelf"] = unbindable
	wantRejection(t, diff.Err(d.orders.Bind(background, NewBinding{Instance: name})), Invalid, "isn't bindable")
}

func TestRemove(t *testing.T) {
	for _, key := range []Key{anInstance, aBinding} {
		for _, state := range everyState {
			t.Run(fmt.Sprint(key, " ", state), func(t *testing.T) {
				d := newDesk(t)
				d.put(rowIn(anInstance, Ready))
				before := d.put(rowIn(key, state))
				d.dial.forward(time.Minute)
				after, err := d.orders.Remove(background, key, false)
				now := d.dial.time()
				switch state {
				case Abandoned:
					wantRejection(t, err, Conflict, "abandoned")
					return
				case Gone, Withdrawn:
					if err != nil || after.State != state || after.Due != before.Due || after.Removal != NotRemoved {
						t.Errorf("%s: got %+v, %v, want no change", state, after, err)
					}
					return
				case Ordered:
					if err != nil || after.State != Withdrawn || !after.Rests() || !after.Since.Equal(now) {
						t.Errorf("%s: got %+v, %v, want withdrawn since %v, at rest", state, after, err, now)
					}
				default:
					if err != nil || after.State != state || !after.Due.Equal(now) || after.Record != before.Record {
						t.Errorf("%s: got %+v, %v, want the same state and record, due at %v", state, after, err, now)
					}
				}
				if stored := d.store.rows[key]; stored.Removal != Removed || stored.State != after.State {
					t.Errorf("%s: got %+v stored, want the removal and the state", state, stored)
				}
			})
		}
	}
	wantRejection(t, diff.Err(newDesk(t).orders.Remove(background, anInstance, true)), NotFound, "no instance of this id")
}

func TestRemoveWithBindings(t *testing.T) {
	d := newDesk(t)
	d.put(rowIn(anInstance, Ready))
	other := osb.BindingKey(id("1"), id("b2"))
	d.put(with(rowIn(aBinding, Ready), func(e *Entry) { e.Due = time.Time{} }))
	d.put(rowIn(other, Gone))
	wantRejection(t, diff.Err(d.orders.Remove(background, anInstance, false)), Conflict, "has bindings")
	diff.Equal(t, d.store.rows[anInstance].Removal, NotRemoved, "the removal")
	after := diff.Value(d.orders.Remove(background, anInstance, true))(t)
	bound, ended := d.store.rows[aBinding], d.store.rows[other]
	removals := [3]Removal{after.Removal, bound.Removal, ended.Removal}
	diff.Equal(t, removals, [3]Removal{RemovedWhole, Removed, NotRemoved}, "the removals")
	diff.Check(t, bound.Due, d.dial.time(), "the binding is due")
	after = diff.Value(d.orders.Remove(background, anInstance, false))(t)
	diff.Equal(t, after.Removal, RemovedWhole, "a second time")
}

// A binding that was never sent is withdrawn at once if its instance is removed or abandoned, also if it is due later.
func TestRemoveWhileBindingWaits(t *testing.T) {
	for name, end := range map[string]func(*Orders) (Entry, error){
		"removed":               func(o *Orders) (Entry, error) { return o.Remove(background, anInstance, false) },
		"removed with bindings": func(o *Orders) (Entry, error) { return o.Remove(background, anInstance, true) },
		"abandoned":             func(o *Orders) (Entry, error) { return o.Abandon(background, anInstance, "shut") },
	} {
		t.Run(name, func(t *testing.T) {
			d := newDesk(t)
			d.put(rowIn(anInstance, Ready))
			d.put(with(rowIn(osb.BindingKey(id("1"), id("b0")), Gone), func(e *Entry) { e.Due = time.Time{} }))
			d.put(with(rowIn(aBinding, Ordered), func(e *Entry) { e.Try, e.Due = 2, d.dial.time().Add(time.Hour) }))
			diff.Value(end(d.orders))(t)
			e := diff.Value(d.store.Read(background, aBinding))(t)
			if e.State != Ordered || e.Removal != Removed || !e.Due.Equal(d.dial.time()) {
				t.Errorf("got %s, removal %d, due %v, want it ordered, removed and due now", e.State, e.Removal, e.Due)
			}
			instance := d.store.rows[anInstance]
			if got := decide(d.dial.time(), Snapshot{Entry: e, Instance: &instance}, false, plain()); got.send != nil ||
				got.Entry.State != Withdrawn || !got.Entry.Rests() {
				t.Errorf("got %+v, want it withdrawn", got.Entry)
			}
		})
	}
}

func TestRetry(t *testing.T) {
	for _, test := range []struct {
		row  Entry
		want State // empty if nothing is to be done
	}{
		{rowIn(anInstance, CleaningPolling), Cleaning}, {rowIn(anInstance, Cleaning), Cleaning},
		{rowIn(anInstance, Polling), Polling}, {rowIn(anInstance, Ordered), Ordered},
		{with(rowIn(anInstance, Gone), func(e *Entry) { e.HasLast = true }), Gone},
		{with(rowIn(anInstance, Ready), remove), Ready}, {rowIn(aBinding, CleaningPolling), Cleaning},
		{with(rowIn(anInstance, Unsettled), remove), Unsettled}, // it waits for its bindings
		{inFlight(rowIn(anInstance, CleaningPolling)), ""}, {inFlight(rowIn(anInstance, Wanted)), ""},
		{with(rowIn(anInstance, Ready), func(e *Entry) { e.Due = time.Time{} }), ""},
		{with(rowIn(anInstance, Unsettled), func(e *Entry) { e.Due = time.Time{} }), ""},
		{with(rowIn(anInstance, Gone), wake), ""}, {with(rowIn(anInstance, Withdrawn), wake), ""},
		{with(rowIn(anInstance, Abandoned), wake), ""},
	} {
		t.Run(string(test.row.State)+" to "+string(test.want), func(t *testing.T) {
			d := newDesk(t)
			d.dial.now = at(50)
			row := test.row
			if test.want != "" {
				row.Due, row.Unchanged = at(500), 6
			}
			d.put(rowIn(anInstance, Ready))
			d.put(row)
			after, err := d.orders.Retry(background, row.Key)
			if test.want == "" {
				wantRejection(t, err, Conflict, "")
				return
			}
			if err != nil || after.State != test.want || !after.Due.Equal(at(50)) || after.Unchanged != 0 {
				t.Errorf("%s: got %s, due %v, %v, want %s, due now", row.State, after.State, after.Due, err, test.want)
			}
			if after.State != row.State && (after.Operation != nil || !after.Since.Equal(at(50))) {
				t.Errorf("%s: got %+v, want no operation in a new state", row.State, after)
			}
		})
	}
}

// wake has a row be due, as that of an instance is whose binding is withdrawn.
func wake(e *Entry) { e.Due = at(500) }

// A request whose lease has run out is given up by a retry.
func TestRetryAfterCrash(t *testing.T) {
	d := newDesk(t)
	d.dial.now = at(91)
	d.put(inFlight(rowIn(anInstance, CleaningPolling)))
	after := diff.Value(d.orders.Retry(background, anInstance))(t)
	if after.State != Cleaning || after.Record.InFlight() != osb.KindNone || after.Last.Lost == "" {
		t.Errorf("got %+v, want it in cleaning with nothing in flight", after)
	}
}

// What was sent isn't withdrawn, however often it is removed.
func TestRemovedAgain(t *testing.T) {
	for _, key := range []Key{anInstance, aBinding} {
		for _, state := range []State{Wanted, Polling, Ready, Cleaning, CleaningPolling, Unsettled} {
			d := newDesk(t)
			d.put(rowIn(anInstance, Ready))
			d.put(with(rowIn(key, state), remove))
			after := diff.Value(d.orders.Remove(background, key, false))(t)
			diff.Equal(t, after.State, state, "%v", key)
		}
	}
}

func TestAbandon(t *testing.T) {
	for _, key := range []Key{anInstance, aBinding} {
		for _, state := range everyState {
			t.Run(fmt.Sprint(key, " ", state), func(t *testing.T) {
				d := newDesk(t)
				d.put(with(rowIn(anInstance, Ready), remove))
				before := d.put(with(rowIn(key, state), func(e *Entry) { e.Lease = Lease{Worker: "one", Until: at(1000)} }))
				d.dial.forward(time.Minute)
				after, err := d.orders.Abandon(background, key, "the broker was closed")
				if state == Gone || state == Withdrawn || state == Abandoned || state == Ordered {
					wantRejection(t, err, Conflict, describe(before))
					return
				}
				record, _ := before.Record.Timeout(before.Record.Attempt()) // unless nothing is in flight
				if err != nil || after.State != Abandoned || !after.Rests() || after.Because != "the broker was closed" ||
					after.Record != record || after.Number == before.Number || after.Lease != (Lease{}) || after.Credentials != nil ||
					!after.Since.Equal(d.dial.time()) {
					t.Errorf("%s: got %+v, %v, want it abandoned with nothing in flight", state, after, err)
				}
				if key.IsBinding && !d.store.rows[anInstance].Due.Equal(d.dial.time()) {
					t.Errorf("%s: got an instance that isn't woken, want it due now", state)
				}
			})
		}
	}
	d := newDesk(t)
	d.put(rowIn(anInstance, Cleaning))
	d.put(rowIn(aBinding, Cleaning))
	wantRejection(t, diff.Err(d.orders.Abandon(background, anInstance, "why not")), Conflict, "may exist")
	wantRejection(t, diff.Err(d.orders.Abandon(background, anInstance, "")), Invalid, "reason")
	_, err := d.orders.Abandon(background, osb.InstanceKey(id("77")), "why not")
	wantRejection(t, err, NotFound, "no instance of this id")
}

// A binding that is abandoned doesn't keep its instance from being removed or abandoned. One that is held beside it
// does.
func TestAbandonedBinding(t *testing.T) {
	held := osb.BindingKey(id("1"), id("b2"))
	for name, end := range map[string]func(*desk) (Entry, error){
		"removed": func(d *desk) (Entry, error) { return d.orders.Remove(background, anInstance, false) },
		"abandoned": func(d *desk) (Entry, error) {
			return d.orders.Abandon(background, anInstance, "the broker was closed")
		},
	} {
		t.Run(name, func(t *testing.T) {
			d := newDesk(t)
			d.put(rowIn(anInstance, Ready))
			d.put(rowIn(aBinding, CleaningPolling))
			wantRejection(t, diff.Err(end(d)), Conflict, "bind")
			diff.Value(d.orders.Abandon(background, aBinding, "it is never deleted"))(t)
			d.put(rowIn(held, Ready))
			wantRejection(t, diff.Err(end(d)), Conflict, "bind")
			d.put(rowIn(held, Gone))
			after, err := end(d)
			if isIt := after.Removal == Removed; err != nil || isIt != (name == "removed") ||
				(after.State == Abandoned) != (name == "abandoned") {
				t.Errorf("got %s, %v, %v, want what the name says", after.State, after.Removal, err)
			}
		})
	}
}

// An instance can be abandoned though a binding of it was ordered: that binding is never sent. Once it is due, it is
// withdrawn.
func TestAbandonedBesideOrdered(t *testing.T) {
	d := newDesk(t)
	d.put(rowIn(anInstance, Ready))
	ordered := d.put(rowIn(aBinding, Ordered))
	instance := diff.Value(d.orders.Abandon(background, anInstance, "the broker was closed"))(t)
	diff.Equal(t, instance.State, Abandoned, "the instance")
	made := decide(d.dial.time(), Snapshot{Entry: ordered, Instance: &instance}, false, terms{})
	if made.send != nil || made.Entry.State != Withdrawn || !made.Entry.Rests() {
		t.Errorf("got %s, and %+v sent, want it withdrawn", made.Entry.State, made.send)
	}
}

// An operator who changes a broker, and a worker who writes its catalogue, lose nothing of each other.
func TestSetBrokerBesideCatalogue(t *testing.T) {
	d := newDesk(t)
	document := json.RawMessage(`{"services": []}`)
	calls := 0
	d.store.beforeChange = func(name string) { // another transaction is first
		if calls++; calls > 1 {
			return
		}
		check(t, d.store.ChangeBroker(background, name, func(it Broker) (*Broker, error) {
			it.Catalogue = document
			return &it, nil
		}))
	}
	move := func(b *Broker) error { b.URL = "https://there"; return nil }
	check(t, d.orders.SetBroker(background, "shelf", move, nil))
	if got := d.store.brokers["shelf"]; got.URL != "https://there" || string(got.Catalogue) != string(document) {
		t.Errorf("got %+v, want the new URL and its catalogue", got)
	}
}

// A broker that was dropped just before an order is written gets none.
func TestCreateWithoutBroker(t *testing.T) {
	d := newDesk(t)
	d.orders.newID = func() (osb.ID, error) {
		check(t, d.store.DropBroker(background, "shelf"))
		return id("1"), nil
	}
	_, err := d.orders.Create(background, NewInstance{Service: "shelf", Plan: planNames[0]})
	wantRejection(t, err, NotFound, "shelf")
	diff.Empty(t, d.store.rows, "written")
}

// A record that is gone stays so: only the deletion that would follow is abandoned.
func TestAbandonLast(t *testing.T) {
	d := newDesk(t)
	d.put(with(rowIn(anInstance, Gone), func(e *Entry) { e.HasLast, e.Due = true, at(500) }))
	after, err := d.orders.Abandon(background, anInstance, "it answers 404 for ever")
	if err != nil || after.State != Gone || after.HasLast || !after.Rests() || after.Because == "" {
		t.Errorf("got %+v, %v, want it gone without a last deletion", after, err)
	}
}

func TestCredentials(t *testing.T) {
	d := newDesk(t)
	sealed := diff.Value(seal{}.Seal([]byte(`{"credentials": 1}`), aBinding.String()))(t)
	d.put(with(rowIn(aBinding, Ready), func(e *Entry) { e.Credentials = sealed }))
	diff.Equal(t, string(diff.Value(d.orders.Credentials(background, aBinding))(t)), `{"credentials": 1}`,
		"the credentials")
	wantRejection(t, diff.Err(NewOrders(d.store, nil).Credentials(background, aBinding)), Conflict, "no key")
	wantRejection(t, diff.Err(d.orders.Credentials(background, anInstance)), Invalid, "instance")
	_, err := d.orders.Credentials(background, osb.BindingKey(id("1"), id("b2")))
	wantRejection(t, err, NotFound, "no binding of this id")
	d.put(rowIn(aBinding, Cleaning))
	wantRejection(t, diff.Err(d.orders.Credentials(background, aBinding)), Conflict, "cleaning")
	d.put(with(rowIn(aBinding, Ready), func(e *Entry) { e.Credentials = nil }))
	diff.Error(t, diff.Err(d.orders.Credentials(background, aBinding)), "without any")
	d.put(with(rowIn(aBinding, Ready), func(e *Entry) { e.Credentials = []byte(`["another", ""]`) }))
	_, err = d.orders.Credentials(background, aBinding)
	diff.ErrorContains(t, err, describe(d.store.rows[aBinding])+" can't be decrypted", "encrypted for another row")
}

// longIdentity is an identity of this platform that has 16,381 bytes more than its name.
func longIdentity(platform string) string {
	object := `{"uid":"` + strings.Repeat("a", 12275) + `"}`
	return platform + " " + base64.StdEncoding.EncodeToString([]byte(object))
}

// An order takes an object as deep as the library writes it, and says which bound an object is beyond.
func TestObjects(t *testing.T) {
	nested := func(deep int) string {
		return `{"a": ` + strings.Repeat("[", deep-1) + strings.Repeat("]", deep-1) + `}`
	}
	for text, part := range map[string]string{
		`{"a": 1, "b": {"a": 1}, "c": [{"a": 1}, {"a": 1}], "A": 1}`: "",
		`{"a": -1.7e308, "b": 1e-400, "c": "\ud83d\ude00"}`:          "",
		nested(126):                     "",
		nested(127):                     "parameters can't be sent: more than 126 arrays and objects lie within each other",
		`{"a": 1e309}`:                  "parameters can't be sent: the number 1e309 is above 1.8e308",
		`{"a": [-1e999]}`:               "the number -1e999 is above",
		`{"a": 1, "a": 2}`:              `the member "a" stands twice in an object`,
		`{"x": [{"a": 1, "\u0061":2}]}`: `the member "a" stands twice in an object`,
		`{"a": "\ud800"}`:               `one half of a surrogate pair, such as \ud800`,
		`{"a"`:                          "parameters isn't an object of JSON",
	} {
		t.Run(fmt.Sprintf("%.80s", text), func(t *testing.T) {
			d := newDesk(t)
			_, err := d.orders.Create(background, NewInstance{
				Service: "shelf", Plan: "now", Parameters: json.RawMessage(text),
			})
			if part == "" {
				check(t, err)
				return
			}
			wantRejection(t, err, Invalid, part)
		})
	}
}

// A busy broker answers the first Bind with a status and a body, and all other requests as a seller does.
type busy struct {
	*plant
	status int
	body   string
	binds  int
	// unbound is called before the first Unbind is answered.
	unbound func()
}

// newBusy is a plant whose broker is busy once, with an instance that is ready.
func newBusy(t *testing.T, status int, body string) (*busy, Key) {
	t.Helper()
	b := &busy{plant: newPlant(t, Options{}), status: status, body: body, unbound: func() {}}
	b.line.exchange = b.answer
	b.start(background)
	instance := b.create(NewInstance{})
	b.untilState(instance, Ready)
	return b, instance
}

func (b *busy) answer(_ context.Context, out Outgoing) Incoming {
	if !out.Entry.Key.IsBinding {
		return b.seller.handle(out).incoming(out)
	}
	switch out.Request.Kind {
	case osb.KindProvision:
		isFirst := false
		b.set(func() { b.binds++; isFirst = b.binds == 1 })
		if isFirst {
			return (&reply{b.status, []byte(b.body)}).incoming(out)
		}
	case osb.KindDeprovision:
		var unbound func()
		b.set(func() { unbound, b.unbound = b.unbound, func() {} })
		unbound()
	}
	return b.seller.handle(out).incoming(out)
}

// tries are the rows of the bindings of an instance, by their tries.
func (b *busy) tries(instance Key) map[int]Entry {
	found := map[int]Entry{}
	for _, e := range diff.Value(b.store.List(background, Filter{}))(b.t) {
		if e.Key.IsBinding && e.Key.Instance == instance.Instance {
			diff.Equal(b.t, found[e.Try].Key, Key{}, "try %d stands before", e.Try)
			found[e.Try] = e
		}
	}
	return found
}

// A Bind that has failed for a passing reason is followed by another binding, which is the only one that exists.
func TestBindAgain(t *testing.T) {
	for _, test := range []struct {
		status int
		body   string
	}{
		{422, `{"error": "ConcurrencyError"}`}, {503, `{}`}, {500, `{}`}, {429, `{}`}, {404, `{}`}, {502, `<html>`},
	} {
		t.Run(fmt.Sprint(test.status), func(t *testing.T) {
			b, instance := newBusy(t, test.status, test.body)
			first := diff.Value(b.orders.Bind(background, NewBinding{Instance: instance.String()}))(t)
			b.untilState(first.Key, Gone)
			second, isOrdered := b.tries(instance)[2]
			if !isOrdered {
				t.Fatalf("%d: got %+v, want a second try", test.status, b.tries(instance))
			}
			b.untilState(second.Key, Ready)
			object := diff.Value(b.orders.Credentials(background, second.Key))(t)
			diff.Equal(t, string(object), b.seller.object(second.Key), "%d: the credentials", test.status)
			diff.Error(t, diff.Err(b.orders.Credentials(background, first.Key)), "%d: the first try", test.status)
			if !b.seller.isNone(first.Key) || !b.seller.isThere(second.Key) || len(b.tries(instance)) != 2 || b.binds != 2 {
				t.Errorf("%d: got %s and %s after %d Binds, want the second one only, after 2", test.status, b.seller.is(first.Key),
					b.seller.is(second.Key), b.binds)
			}
			if second.First != first.Key.Binding || second.Tries != 3 || second.Key.Instance != first.Key.Instance {
				t.Errorf("%d: the second try: got %+v, want it of the same instance", test.status, second.Order)
			}
		})
	}
}

// No binding follows one that has failed for another reason, or that is to be tried once.
func TestBindNotAgain(t *testing.T) {
	for name, test := range map[string]struct {
		status int
		body   string
		wanted NewBinding
	}{
		"400":                 {400, `{}`, NewBinding{}},
		"422 AsyncRequired":   {422, `{"error": "AsyncRequired"}`, NewBinding{}},
		"422 RequiresApp":     {422, `{"error": "RequiresApp"}`, NewBinding{}},
		"409":                 {409, `{}`, NewBinding{}},
		"201 that is no JSON": {201, `x`, NewBinding{}},
		"of one try":          {503, `{}`, NewBinding{Tries: 1}},
		"under a chosen id":   {503, `{}`, NewBinding{ID: "mine"}},
	} {
		t.Run(name, func(t *testing.T) {
			b, instance := newBusy(t, test.status, test.body)
			test.wanted.Instance = instance.String()
			first := diff.Value(b.orders.Bind(background, test.wanted))(t)
			b.untilState(first.Key, Gone)
			if tries := b.tries(instance); len(tries) != 1 || b.binds != 1 {
				t.Errorf("got %d tries after %d Binds, want 1: %+v", len(tries), b.binds, tries)
			}
		})
	}
}

// Once the instance or the binding is to be removed, no further binding is ordered, and none is created.
func TestBindAgainWhileRemoved(t *testing.T) {
	for name, remove := range map[string]func(*busy, Key, Key) error{
		"the instance": func(b *busy, key, _ Key) error { return diff.Err(b.orders.Remove(background, key, true)) },
		"the binding":  func(b *busy, _, key Key) error { return diff.Err(b.orders.Remove(background, key, false)) },
	} {
		t.Run(name, func(t *testing.T) {
			b, instance := newBusy(t, 422, `{"error": "ConcurrencyError"}`)
			var first Entry
			ordered := make(chan struct{})
			b.set(func() {
				b.unbound = func() {
					<-ordered
					check(t, remove(b, instance, first.Key))
				}
			})
			first = diff.Value(b.orders.Bind(background, NewBinding{Instance: instance.String()}))(t)
			close(ordered)
			b.untilState(first.Key, Gone)
			if name == "the instance" {
				b.untilState(instance, Gone)
			}
			if tries := b.tries(instance); len(tries) != 1 || b.binds != 1 || !b.seller.isNone(first.Key) {
				t.Errorf("%s is removed: got %d tries after %d Binds, want 1: %+v", name, len(tries), b.binds, tries)
			}
		})
	}
}

// A row whose requests the broker doesn't take up counts as due since its first request was due, however often it is
// put off. An answer of the broker ends that.
func TestDueSince(t *testing.T) {
	lost := exchangeResult{Incoming: Incoming{Lost: errors.New("connection refused")}}
	for _, entry := range []Entry{rowIn(anInstance, Polling), rowIn(aBinding, Cleaning), longGone(anInstance)} {
		row := with(entry, func(e *Entry) { e.Due = at(3) })
		terms := plain()
		if row.State == Gone {
			terms = usualTerms()
		}
		for tries := 0; tries < 3; tries++ {
			try := newTrial(t, row, terms)
			diff.Equal(t, try.row.DueSince, row.DueSince, "%s in flight", row.State)
			unheard := lost
			if tries > 0 {
				unheard = try.answer([]int{401, 503}[tries-1], object)
			}
			row = try.take(t, unheard).Entry
			if !row.DueSince.Equal(at(3)) || !row.Due.After(at(11)) {
				t.Errorf("%s: got due %v, since %v, want it due later, since its claim", row.State, row.Due, row.DueSince)
			}
			row.Due = at(9)
		}
		try := newTrial(t, row, terms)
		for _, answer := range []exchangeResult{
			try.answer(404, object), try.answer(410, object), try.answer(200, `{"state": "in progress"}`),
		} {
			diff.Check(t, try.take(t, answer).Entry.DueSince, time.Time{}, "%s: since when, after %d", row.State, answer.Status)
		}
	}
}

// The deletion after a creation without an answer counts since the creation was due, unless it waits for the hold.
func TestDueSinceOfDeletion(t *testing.T) {
	row := with(rowIn(anInstance, Ordered), func(e *Entry) { e.Due = at(3) })
	for _, test := range []struct {
		terms terms
		want  time.Time
	}{{plain(), at(3)}, {usualTerms(), time.Time{}}} {
		t.Run(fmt.Sprint("hold ", test.terms.hold), func(t *testing.T) {
			try := newTrial(t, row, test.terms)
			if e := try.take(t, try.answer(500, object)).Entry; e.State != Cleaning || !e.DueSince.Equal(test.want) {
				t.Errorf("got %s, due since %v, want %v", e.State, e.DueSince, test.want)
			}
		})
	}
	waits := with(rowIn(anInstance, Cleaning), func(e *Entry) { e.SentUntil, e.DueSince = at(5), at(3) })
	if got := decide(at(10), Snapshot{Entry: waits}, true, usualTerms()); got.send != nil || !got.Entry.DueSince.IsZero() {
		t.Errorf("a deletion that is held: got it due since %v, want no such time", got.Entry.DueSince)
	}
	ready := with(rowIn(anInstance, Ready), func(e *Entry) { e.DueSince = at(3) })
	if got := decide(at(10), Snapshot{Entry: ready}, true, plain()); !got.Entry.Rests() || !got.Entry.DueSince.IsZero() {
		t.Errorf("a row that rests: got it due since %v, want no such time", got.Entry.DueSince)
	}
}
