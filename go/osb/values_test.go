package osb_test

import (
	"crypto/sha256"
	"database/sql"
	"database/sql/driver"
	"encoding"
	"encoding/json"
	"errors"
	"fmt"
	"net/http"
	"net/url"
	"strings"
	"testing"

	"pippinterm/osb"
)

// What each type is to the standard library.
var (
	_ encoding.TextMarshaler   = osb.ID{}
	_ encoding.TextUnmarshaler = (*osb.ID)(nil)
	_ driver.Valuer            = osb.ID{}
	_ sql.Scanner              = (*osb.ID)(nil)
	_ json.Marshaler           = osb.Record{}
	_ json.Unmarshaler         = (*osb.Record)(nil)
	_ driver.Valuer            = osb.Record{}
	_ sql.Scanner              = (*osb.Record)(nil)
	_ json.Marshaler           = osb.Holding{}
	_ json.Unmarshaler         = (*osb.Holding)(nil)
	_ driver.Valuer            = osb.Holding{}
	_ sql.Scanner              = (*osb.Holding)(nil)
	_ json.Marshaler           = osb.UpdateHolding{}
	_ json.Unmarshaler         = (*osb.UpdateHolding)(nil)
	_ driver.Valuer            = osb.UpdateHolding{}
	_ sql.Scanner              = (*osb.UpdateHolding)(nil)
)

// The text of a record that was just created, from docs/instance.md.
const createdText = `{"attempt":1,"out":"provision","plan":"00000000-0000-0000-0000-0000000000b1",` +
	`"service":"00000000-0000-0000-0000-0000000000a0","state":"wanted","version":1}`

func TestID(t *testing.T) {
	id := need(osb.ParseID("12345678-9ABC-def0-1234-56789abcdef0"))(t)
	equal(t, "in lower case", id.String(), "12345678-9abc-def0-1234-56789abcdef0")
	half := [8]byte{0x12, 0x34, 0x56, 0x78, 0x9a, 0xbc, 0xde, 0xf0}
	equal(t, "bytes", string(id[:]), string(half[:])+string(half[:]))
	for _, text := range []string{"", "1", "12345678-9abc-def0-1234-56789abcdef", "12345678_9abc-def0-1234-56789abcdef0"} {
		t.Run(fmt.Sprintf("%q", text), func(t *testing.T) {
			before := id
			if err := id.UnmarshalText([]byte(text)); !errors.Is(err, osb.ErrNotAnID) || id != before {
				t.Errorf("%q: got %v, want ErrNotAnID, and no change", text, err)
			}
		})
	}
	as := need(json.Marshal(map[osb.ID]osb.ID{id: id}))(t)
	equal(t, "the id twice", string(as), `{"`+id.String()+`":"`+id.String()+`"}`)
	var back map[osb.ID]osb.ID
	check(t, json.Unmarshal(as, &back))
	equal(t, "what is read", back[id], id)
	defer func() {
		if recover() == nil {
			t.Error("MustParseID of no id: got no panic, want one")
		}
	}()
	osb.MustParseID("no id")
}

// The text of a key names locks, stands in the log, and opens credentials: programs of two versions need the same.
func TestKey(t *testing.T) {
	const one, other = "00000000-0000-0000-0000-000000000001", "00000000-0000-0000-0000-0000000000b1"
	instance, binding := osb.MustParseID(one), osb.MustParseID(other)
	for text, want := range map[string]osb.Key{
		one:               osb.InstanceKey(instance),
		one + "/" + other: osb.BindingKey(instance, binding),
	} {
		t.Run(text, func(t *testing.T) {
			bindingText := strings.TrimPrefix(strings.TrimPrefix(text, one), "/")
			key := need(osb.KeyOfTexts(one, bindingText))(t)
			equal(t, "the key", key, want)
			equal(t, "its text", key.String(), text)
		})
	}
	for _, texts := range [][2]string{{"", ""}, {"", one}, {one, "\xff"}} {
		if key, err := osb.KeyOfTexts(texts[0], texts[1]); err == nil {
			t.Errorf("%q: got %v, want an error", texts, key)
		}
	}
}

// Each value is read again from JSON and from a column, as a string and as bytes.
func TestRoundTrips(t *testing.T) {
	record, _ := osb.Create(instance, service, plan, false)
	holding := holdingOf(t, "ready:sync deprovision:sync")
	held := need(holding.MarshalJSON())(t)
	updates := updateHoldingOf(t, "updating 5 sync:01:02 async:01:02")
	updated := need(updates.MarshalJSON())(t)
	for _, row := range []struct {
		value driver.Valuer
		text  string
		fresh func() (sql.Scanner, func() driver.Valuer)
	}{
		{instance, instance.String(), func() (sql.Scanner, func() driver.Valuer) {
			var read osb.ID
			return &read, func() driver.Valuer { return read }
		}},
		{record, createdText, func() (sql.Scanner, func() driver.Valuer) {
			var read osb.Record
			return &read, func() driver.Valuer { return read }
		}},
		{holding, string(held), func() (sql.Scanner, func() driver.Valuer) {
			var read osb.Holding
			return &read, func() driver.Valuer { return read }
		}},
		{updates, string(updated), func() (sql.Scanner, func() driver.Valuer) {
			var read osb.UpdateHolding
			return &read, func() driver.Valuer { return read }
		}},
	} {
		t.Run(fmt.Sprintf("%T", row.value), func(t *testing.T) {
			column, err := row.value.Value()
			if err != nil || column != row.text || !driver.IsValue(column) {
				t.Errorf("got %v, %v, want %s", column, err, row.text)
			}
			equal(t, "what is printed", fmt.Sprint(row.value), row.text)
			for _, column := range []any{row.text, []byte(row.text)} {
				scanner, read := row.fresh()
				check(t, scanner.Scan(column))
				equal(t, "what is read is what was written", read() == row.value, true)
			}
			for _, column := range []any{nil, int64(1)} {
				if scanner, _ := row.fresh(); scanner.Scan(column) == nil {
					t.Errorf("%v: got no error, want one", column)
				}
			}
		})
	}
}

func TestJSON(t *testing.T) {
	type row struct {
		ID      osb.ID
		Record  osb.Record
		Holding osb.Holding
	}
	record, _ := osb.Create(instance, service, plan, true)
	given := row{instance, record, holdingOf(t, "ready:sync")}
	text := need(json.Marshal(given))(t)
	wanted := `{"ID":"00000000-0000-0000-0000-000000000001","Record":` + createdText + `,"Holding":` + given.Holding.String() + `}`
	equal(t, "the text", string(text), wanted)
	var back row
	check(t, json.Unmarshal(text, &back))
	equal(t, "what is read", back, given)
}

// The parts of a record and of a holding, one of each.
func TestParts(t *testing.T) {
	record := recordOf(t, "polling 2 poll")
	if record.Service() != service || record.Plan() != plan || record.Attempt() != 2 {
		t.Errorf("got %v, want the service, the plan and the attempt 2", record)
	}
	equal(t, "the state", record.State(), osb.StatePolling)
	equal(t, "in flight", record.InFlight(), osb.KindPoll)
	holding := holdingOf(t, "ready:sync deprovision:sync #01")
	row, held := holding.Row()
	if !held || row != (osb.BrokerRow{Service: service, Plan: plan, Phase: osb.PhaseReady}) {
		t.Errorf("got %+v, %v, want the ready row", row, held)
	}
	if work, due := holding.Work(); !due || work != requestOf(t, "deprovision:sync") {
		t.Errorf("got %+v, %v, want the Deprovision", work, due)
	}
	if holding.HasTombstone() || !holdingOf(t, "tombstone").HasTombstone() {
		t.Errorf("got %v, want that a tombstone alone has one", holding.HasTombstone())
	}
	equal(t, "the attributes", holding.Attributes(), digestOf(t, "01"))
}

// What has no name among the numbers is printed as its number.
func TestWords(t *testing.T) {
	for _, row := range []struct {
		value interface{ String() string }
		word  string
	}{
		{osb.KindPoll, "poll"}, {osb.KindNone, "none"}, {osb.Kind(200), "Kind(200)"},
		{osb.WorkNone, "none"}, {osb.WorkStartDeleting, "start-deleting"}, {osb.Work(200), "Work(200)"},
	} {
		t.Run(row.word, func(t *testing.T) {
			equal(t, "the word", row.value.String(), row.word)
		})
	}
}

// Both sides of one instance of an asynchronous plan, with all that HTTP carries between them. What is kept of it goes
// through its text after each step, as through a database.
type both struct {
	t       *testing.T
	record  osb.Record
	holding osb.Holding
}

// arrive has a request written, read by the broker, and answered. It returns the answer as it is sent.
func (b *both) arrive(request osb.Request) (status int, body []byte) {
	b.t.Helper()
	method := need(osb.WriteMethod(request.Kind))(b.t)
	texts := guids(request)
	target := need(osb.WriteNamedTarget("/postgres", request, texts, nil))(b.t)
	sent := need(osb.WriteNamedBody(request.Kind, texts, "org", "space", []byte("{}")))(b.t)
	received := need(osb.ReceiveRequest("/postgres", 1000, method, target, sent))(b.t)
	read := need(received.Asked.Request(b.holding.Row()))(b.t)
	holding, begun, err := b.holding.Begin(osb.ModeAsync, read, osb.Rules{})
	check(b.t, err)
	answer := begun.Answer
	if begun.Work != osb.WorkNone {
		holding = b.reload(holding) // pending, as after a crash
		holding, answer, err = holding.End(osb.ModeAsync, osb.OutcomeDone)
		check(b.t, err)
	}
	b.holding = b.reload(holding)
	body = need(osb.WriteDescribedAnswer(answer, nil, nil))(b.t)
	return int(answer.Status), body
}

// reload is the holding that is read from the text of a holding.
func (b *both) reload(holding osb.Holding) (read osb.Holding) {
	b.t.Helper()
	text := need(holding.MarshalJSON())(b.t)
	check(b.t, read.UnmarshalJSON(text))
	return read
}

// take has the platform take an answer to a request, and fails unless the record is in this state then.
func (b *both) take(sent osb.Sent, status int, body []byte, state osb.State) {
	b.t.Helper()
	answer := need(osb.ReadAnswer(sent.Request.Kind, uint16(status), body))(b.t)
	record := need(b.record.Answer(sent.Attempt, answer))(b.t)
	text := need(record.MarshalJSON())(b.t)
	check(b.t, b.record.UnmarshalJSON(text))
	if b.record.State() != state {
		b.t.Fatalf("%d %s: got %v, want %v", status, body, b.record.State(), state)
	}
}

// step sends what is due, and takes the answer.
func (b *both) step(state osb.State, holding string) {
	b.t.Helper()
	record, sent, err := b.record.Send(instance)
	check(b.t, err)
	b.record = record
	status, body := b.arrive(sent.Request)
	b.take(sent, status, body, state)
	b.holds(holding)
}

func (b *both) holds(holding string) {
	b.t.Helper()
	if b.holding != holdingOf(b.t, holding) {
		b.t.Fatalf("got %s, want %s", b.holding, holding)
	}
}

// isTooLate is that a Provision that arrives after its deletion is rejected.
func (b *both) isTooLate(request osb.Request) {
	b.t.Helper()
	status, _ := b.arrive(request)
	equal(b.t, "the status", status, http.StatusConflict)
	b.holds("tombstone")
}

// finish ends the operation of the broker.
func (b *both) finish() {
	b.t.Helper()
	b.holding = need(b.holding.Finish(true))(b.t)
}

// need returns what a call has returned, and ends the test at its error.
func need[T any](of T, err error) func(testing.TB) T {
	return func(t testing.TB) T {
		t.Helper()
		check(t, err)
		return of
	}
}

// equal fails the test unless two values are equal.
func equal[T comparable](t testing.TB, what string, got, want T) {
	t.Helper()
	if got != want {
		t.Errorf("%s: got %+v, want %+v", what, got, want)
	}
}

// check ends the test at an error.
func check(t testing.TB, err error) {
	t.Helper()
	if err != nil {
		t.Fatalf("got the error %v, want none", err)
	}
}

// What one side writes, the other reads, over a whole life: it is created, polled, deleted and polled. A copy of the
// Provision that arrives then is rejected, and nothing is held.
func TestBothSides(t *testing.T) {
	record, created := osb.Create(instance, service, async, true)
	b := &both{t: t, record: record}
	status, body := b.arrive(created.Request)
	b.take(created, status, body, osb.StatePolling)
	b.holds("making:async")
	b.step(osb.StatePolling, "making:async")
	b.finish()
	b.step(osb.StateReady, "ready:async")
	b.record = need(b.record.Remove())(t)
	b.step(osb.StateCleaningPolling, "deleting:async")
	b.step(osb.StateCleaningPolling, "deleting:async")
	b.finish()
	b.step(osb.StateGone, "tombstone")
	b.isTooLate(created.Request)
}

// The Provision arrives only after its deletion was answered with 410: it is rejected, and nothing is held.
func TestProvisionAfterThe410(t *testing.T) {
	record, created := osb.Create(instance, service, async, true)
	b := &both{t: t}
	var err error
	b.record, err = record.Timeout(created.Attempt)
	check(t, err)
	b.step(osb.StateGone, "tombstone")
	b.isTooLate(created.Request)
}

// The library that is linked has the version of the header over which the package was compiled.
func TestLinkedVersion(t *testing.T) {
	if osb.Version() != osb.HeaderVersion || osb.HeaderVersion < 300 {
		t.Errorf("got the library's version %d, want the header's %d, at least 300", osb.Version(), osb.HeaderVersion)
	}
}

const target = "/v2/service_instances/00000000-0000-0000-0000-000000000001"

const provisionBody = `{"service_id":"00000000-0000-0000-0000-0000000000a0",` +
	`"plan_id":"00000000-0000-0000-0000-0000000000b1","organization_guid":"org","space_guid":"space"}`

var names = osb.Names{Instance: "a database/é", Service: "postgres", Plan: "postgres, small"}

var boundNames = osb.BindingNames{
	Instance: "a database/é", Binding: "a binding/ü", Service: "postgres", Plan: "postgres, small",
}

var boundPath = "/v2/service_instances/" + url.PathEscape(boundNames.Instance) + "/service_bindings/" +
	url.PathEscape(boundNames.Binding)

const bindBody = `{"service_id": "postgres", "plan_id": "postgres, small", "bind_resource": {"app_guid": "an app"},
	"parameters": {"size": 1.50}, "context": {}, "predecessor_binding_id": "another"}`

// A catalogue in which each flag is promised, and a plan has a version.
const sold = `{"services": [
	{"id": "a0", "name": "database", "description": "A database", "bindable": true, "plan_updateable": true,
	"instances_retrievable": true, "bindings_retrievable": true, "plans": [
	{"id": "b1", "name": "small", "description": "One", "bindable": true, "plan_updateable": true,
	"maintenance_info": {"version": "2.1.1+abcdef", "description": "OS image update.\nExpect downtime."}},
	{"id": "b2", "name": "large", "description": "Two"}]},
	{"id": "c0", "name": "queue", "description": "A queue", "bindable": false, "plans": [
	{"id": "b3", "name": "small", "description": "Three"}]}]}`

var all = osb.Endpoints{Updating: true, Bindings: true, FetchingInstances: true, FetchingBindings: true}

// hashID is the number of a text that is no GUID in lower case: the first 128 bits of its SHA-256.
func hashID(text string) osb.ID {
	digest := sha256.Sum256([]byte(text))
	var id osb.ID
	copy(id[:], digest[:])
	return id
}

// namedRequest is a request with the numbers of these texts.
func namedRequest(kind osb.Kind) osb.Request {
	return osb.Request{
		Kind: kind, AcceptsIncomplete: true,
		ID: hashID(names.Instance), Service: hashID(names.Service), Plan: hashID(names.Plan),
	}
}

// namedBind is a request of the binding with the numbers of these texts.
func namedBind(kind osb.Kind) osb.Request {
	request := namedRequest(kind)
	request.ID = hashID(boundNames.Binding)
	return request
}

// guids are the texts of ids that are GUIDs in lower case.
func guids(request osb.Request) osb.Names {
	return osb.Names{Instance: request.ID.String(), Service: request.Service.String(), Plan: request.Plan.String()}
}

func second[T any](_ T, err error) error { return err }

// More plans than the first buffer holds.
func TestManyPlans(t *testing.T) {
	var many []string
	for at := 0; at < 100; at++ {
		many = append(many, `{"id":"00000000-0000-0000-0000-0000000000`+string("0123456789"[at/10])+
			string("0123456789"[at%10])+`"}`)
	}
	plans, err := osb.CataloguePlans([]byte(`{"services":[{"id":"a0","plans":[` + strings.Join(many, ",") + `]}]}`))
	if err != nil || len(plans) != 100 || plans[99].Plan != osb.MustParseID("00000000-0000-0000-0000-000000000099") {
		t.Errorf("got %d plans, %v, want 100, and the last one's id", len(plans), err)
	}
}
