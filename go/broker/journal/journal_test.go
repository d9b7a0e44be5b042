package journal

import (
	"context"
	"encoding/hex"
	"encoding/json"
	"errors"
	"io"
	"net/http"
	"net/http/httptest"
	"os"
	"os/signal"
	"strconv"
	"strings"
	"syscall"
	"testing"
	"time"

	"pippinterm/broker"
	"pippinterm/broker/brokertest"
	"pippinterm/internal/diff"
	"pippinterm/internal/journalfile"
	"pippinterm/internal/waits"
	"pippinterm/osb"
)

const (
	one  = "00000000-0000-0000-0000-000000000001"
	bind = "00000000-0000-0000-0000-000000000009"
)

func want(t *testing.T, what, got, want string) {
	t.Helper()
	if got != want {
		t.Errorf("%s: got\n%s\nwant\n%s", what, got, want)
	}
}

// The lines of requests whose work is done at once.
func TestAtOnce(t *testing.T) {
	s := newTestBroker(t)
	created := "arrived; changed; look begun; look ended absent done; create begun; create ended done; " +
		"look begun; look ended whole done; changed; answered Created empty"
	s.ask("PUT", one, atOnce)
	want(t, "create", s.events(1), created)
	from := len(s.lines())
	s.ask("PUT", one+"/"+bind, atOnce)
	want(t, "bind", s.events(from), created)
	from = len(s.lines())
	s.ask("DELETE", one+"/"+bind, atOnce)
	want(t, "unbind", s.events(from), "arrived; changed; look begun; look ended whole done; delete begun; "+
		"delete ended done; look begun; look ended absent done; changed; answered OK empty")
	from = len(s.lines())
	s.ask("DELETE", one+"/"+bind, atOnce)
	want(t, "unbind again", s.events(from), "arrived; answered Gone other-error")
}

// Each change, and each request that changes nothing, has the event that its driver says it is.
func TestEffects(t *testing.T) {
	refused := func(status int) error { return &broker.Rejection{Status: status, Description: "full"} }
	for _, test := range []struct {
		name  string
		fails error // of each creation
		asks  string
		want  string
	}{
		{"a creation", nil, "PUT at-once", "arrive; end done; -"},
		{"a creation that fails", errFull, "PUT at-once", "arrive; end before; -"},
		{"a creation that is rejected", refused(400), "PUT at-once", "arrive; end refused-400; -"},
		{"a creation that doesn't fit", refused(422), "PUT at-once", "arrive; end refused-422; -"},
		{"a deletion of nothing", nil, "DELETE at-once", "arrive; -"},
		{"an operation", nil, "PUT later, POLL later, sweep", "arrive; -; arrive; -; finish ok"},
		{"an operation that fails", errFull, "PUT later, POLL later, sweep", "arrive; -; arrive; -; finish fail"},
		{"a deletion that goes on", nil, "PUT later, POLL later, sweep, DELETE later",
			"arrive; -; arrive; -; finish ok; arrive; end done; -"},
		{"no first Poll", nil, "PUT later, expire", "arrive; -; give-up-waiting"},
		{"a creation again", nil, "PUT at-once, PUT at-once", "arrive; end done; -; arrive"},
		{"a Poll", nil, "PUT at-once, POLL at-once", "arrive; end done; -; arrive"},
		{"a Bind without its instance", nil, "BIND at-once", "put-off"},
		{"a deletion beside a binding", nil, "PUT at-once, BIND at-once, DELETE at-once",
			"arrive; end done; -; arrive; end done; -; put-off"},
		{"a Fetch", nil, "PUT at-once, BIND at-once, FETCH at-once", "arrive; end done; -; arrive; end done; -; -"},
	} {
		t.Run(test.name, func(t *testing.T) {
			s := newTestBroker(t)
			s.seller.fails = test.fails
			for _, ask := range strings.Split(test.asks, ", ") {
				method, plan, _ := strings.Cut(ask, " ")
				id := map[string]string{"at-once": atOnce, "later": later}[plan]
				switch method {
				case "sweep", "expire":
					key := diff.Value(osb.KeyOfTexts(one, ""))(t)
					finish := brokertest.Sweep(t, s.service, s.store, key)
					waits.Until(t, "the end of the waiting", func() bool {
						row, _ := diff.Value(s.store.Read(context.Background(), key))(t).Holding.Row()
						return method == "sweep" || row.Phase == osb.PhaseFailed
					})
					finish()
				case "BIND":
					s.ask("PUT", one+"/"+bind, id)
				case "FETCH":
					s.ask("GET", one+"/"+bind, id)
				default:
					s.ask(method, one, id)
				}
			}
			want(t, test.asks, s.effects(), test.want)
		})
	}
}

// A request that fails after it has read a row says nothing of an event, and neither does what no driver has changed.
func TestNoEffect(t *testing.T) {
	s := newTestBroker(t)
	s.store.fails = errFull
	s.ask("PUT", one, atOnce)
	check(t, New(s.writer, nil).Store(s.store).Change(context.Background(), broker.Key{},
		func(broker.Snapshot) (*broker.Entry, error) { return &broker.Entry{Life: 1}, nil }))
	want(t, "the effects", s.effects(), "arrive; -; -")
}

// The members of lines, and the chain of the texts.
func TestMembers(t *testing.T) {
	s := newTestBroker(t)
	s.ask("PUT", "my%20first", atOnce)
	s.ask("PUT", "my%20first/"+bind, atOnce)
	number := diff.Value(osb.IDOfText("my first"))(t)
	text, changes := map[string]string{}, int64(0)
	for _, line := range s.lines()[1:] {
		if line.Instance != number.String() || line.Event == "arrived" && line.InstanceID != "my first" {
			t.Errorf("got %+v, want the ids of the instance", line)
		}
		if isOfBinding := line.Visit == 2; isOfBinding != (line.Binding == bind) || line.Visit < 1 || line.Visit > 2 {
			t.Errorf("got %+v, want visit 1 of the instance or 2 of the binding", line)
		}
		switch line.Event {
		case "arrived":
			if line.Request != "request-1" || line.Kind != "provision" || !line.Accepts || line.Service != service || line.Plan != atOnce {
				t.Errorf("got %+v, want the Provision that was sent", line)
			}
		case "changed":
			if changes++; line.Before != text[line.Binding] || line.Change != changes || line.LifeBefore != nil {
				t.Errorf("change %d: got the beginning %q, want %q", line.Change, line.Before, text[line.Binding])
			}
			text[line.Binding] = line.After
		case "answered":
			diff.Equal(t, line.Request, "request-1", "%+v", line)
			diff.Equal(t, line.Saw, "", "%+v", line)
		}
	}
	var holding osb.Holding
	check(t, holding.UnmarshalJSON([]byte(text[""])))
	diff.Equal(t, holding, s.store.entries[osb.InstanceKey(number)].Holding, "the journal")
	bound, err := osb.ParseID(bind)
	check(t, err)
	holding, err = osb.BindingHoldingFromText([]byte(text[bind]))
	if key := osb.BindingKey(number, bound); err != nil || holding != s.store.entries[key].Holding {
		t.Errorf("the journal: got %v (%v), want %v held", holding, err, s.store.entries[key].Holding)
	}
}

// The arrival of a creation has the digest of its attributes, as the text of the holding has it. Other requests have
// none.
func TestAttributes(t *testing.T) {
	s := newTestBroker(t)
	s.ask("PUT", one, atOnce)
	s.ask("PUT", one+"/"+bind, atOnce)
	s.ask("POLL", one, "")
	s.ask("GET", one+"/"+bind, "")
	s.ask("DELETE", one+"/"+bind, atOnce)
	arrived, begun := map[int64]string{}, 0
	for _, line := range s.lines() {
		switch isCreation := line.Kind == "provision"; {
		case line.Event == "arrived" && (len(line.Attributes) == 64) != isCreation,
			line.Event != "arrived" && line.Attributes != "":
			t.Errorf("got %+v, want the digest of the attributes in the arrival of a creation alone", line)
		case line.Event == "arrived":
			arrived[line.Visit] = line.Attributes
		case line.Event == "changed" && line.Before == "":
			begun++
			diff.Contains(t, line.After, `"attributes":"`+arrived[line.Visit]+`"`, "%+v", line)
		}
	}
	if begun != 2 || arrived[1] == strings.Repeat("0", 64) {
		t.Errorf("got %d creations with %v, want 2 with attributes", begun, arrived)
	}
}

// The object of a binding is named by one digest: as created, stored and answered.
func TestCredentials(t *testing.T) {
	s := newTestBroker(t)
	s.ask("PUT", one, atOnce)
	given := s.ask("PUT", one+"/"+bind, atOnce)
	fetched := s.ask("GET", one+"/"+bind, "")
	digest := journalfile.Digest(given.Body.Bytes())
	found := ""
	for _, line := range s.lines() {
		if line.Credentials != "" {
			found += line.Event + " "
			diff.Equal(t, line.Credentials, digest, "%+v", line)
		}
	}
	want(t, "with a digest", found, "work changed answered answered ")
	diff.Equal(t, fetched.Body.String(), given.Body.String(), "fetched")
}

// The call for the credentials of a binding that exists is written down before it begins, and with their digest.
func TestCallForCredentials(t *testing.T) {
	s := newTestBroker(t)
	s.seller.called = func(call string) {
		if got := s.last(); got.Call != "credentials" || call != got.Call || got.Stage != "begun" {
			t.Errorf("before %s: got %+v, want the line of the call", call, got)
		}
	}
	backend, _ := New(s.writer, nil).Backend(s.seller).(broker.CredentialsBackend)
	known, err := backend.Credentials(context.Background(), broker.Request{})
	object := `{"credentials":` + string(known) + `}`
	if got := s.last(); err != nil || got.Stage != "ended" || got.Credentials != journalfile.Digest([]byte(object)) {
		t.Errorf("got %s, %v and %+v, want a line with the digest of %s", known, err, got, object)
	}
}

// The line of a change is in the file before it is committed, that of a call before it begins, and that of an answer
// before it leaves.
func TestOrder(t *testing.T) {
	s := newTestBroker(t)
	commits, calls := 0, 0
	s.store.stepped = func(next *broker.Entry) {
		commits++
		text, err := next.Holding.MarshalJSON()
		if last := s.last(); err != nil || last.Event != "changed" || last.After != string(text) {
			t.Errorf("before a commit of %s: got %+v, want it changed", text, last)
		}
	}
	s.seller.called = func(call string) {
		calls++
		if last := s.last(); last.Event != "work" || last.Call != call || last.Stage != "begun" {
			t.Errorf("before %s: got %+v, want its begin", call, last)
		}
	}
	given := &answerRecorder{ResponseRecorder: httptest.NewRecorder(), s: s}
	s.ServeHTTP(given, s.request("PUT", one, atOnce))
	if commits != 2 || calls != 3 || given.Code != 201 {
		t.Errorf("got %d commits, %d calls and the status %d, want 2, 3 and 201", commits, calls, given.Code)
	}
}

// answerRecorder is an answer that leaves with its status.
type answerRecorder struct {
	*httptest.ResponseRecorder
	s *testBroker
}

func (l *answerRecorder) WriteHeader(status int) {
	last := l.s.last()
	at, err := strconv.ParseInt(l.Header().Get(journalfile.Header), 10, 64)
	if last.Event != "answered" || last.Status != status || err != nil || at <= last.Time {
		l.s.t.Errorf("got the status %d at %d (%v) after %+v, want it after the line of the answer", status, at, err, last)
	}
	l.ResponseRecorder.WriteHeader(status)
}

// A change that isn't committed is undone, and one of which nobody knows is so doubtfully.
func TestUndone(t *testing.T) {
	for _, test := range []struct {
		fails error
		undo  string
	}{{errFull, "undone"}, {errDoubt, "undone doubtful"}} {
		t.Run(test.undo, func(t *testing.T) {
			s := newTestBroker(t)
			s.store.fails = test.fails
			s.ask("PUT", one, atOnce)
			want(t, test.fails.Error(), s.events(1), "arrived; changed; "+test.undo+"; answered Internal Server Error other-error")
			lines := s.lines()
			if undone := lines[3]; undone.Change != lines[2].Change || undone.Instance != one {
				t.Errorf("got %+v, want the change of the line before, of the instance", undone)
			}
		})
	}
}

// What is answered after a doubtful change rests on what was read again.
func TestAnswerAfterADoubt(t *testing.T) {
	s := newTestBroker(t)
	s.store.fails = broker.Away(errDoubt)
	s.store.stepped = func(next *broker.Entry) { s.store.entries[osb.InstanceKey(osb.MustParseID(one))] = *next }
	s.ask("DELETE", one, atOnce)
	want(t, "a doubt", s.events(1), "arrived; changed; undone doubtful; answered Gone other-error")
	if answered := s.lines()[4]; !strings.Contains(answered.Saw, `"tombstone":true`) {
		t.Errorf("got %+v, want an answer that has seen a tombstone", answered)
	}
}

// The step of a transaction that is tried again is undone first.
func TestTriedAgain(t *testing.T) {
	s := newTestBroker(t)
	s.store.tries = 3
	s.ask("PUT", one, later)
	want(t, "three tries", s.events(1), "arrived; changed; undone; changed; undone; changed; answered Accepted empty")
	for at, number := range map[int]int64{2: 1, 3: 1, 4: 2, 5: 2, 6: 3} {
		diff.Equal(t, s.lines()[at].Change, number, "line %d", at)
	}
}

// A request that changes nothing says what it was decided on, and one that is rejected before isn't there.
func TestSaw(t *testing.T) {
	s := newTestBroker(t)
	s.ask("PUT", one, atOnce)
	from := len(s.lines())
	ready := s.lines()[from-2].After
	for _, request := range [][2]string{{"PUT", one}, {"POLL", one}, {"GET", one + "/" + bind}, {"PUT", one + "/" + bind}} {
		s.ask(request[0], request[1], later)
	}
	s.ask("PUT", one, "unknown-plan")
	s.ask("POST", one, atOnce)
	bad := s.request("PUT", one, atOnce)
	bad.SetBasicAuth("platform", "wrong")
	s.ServeHTTP(httptest.NewRecorder(), bad)
	var got []string
	for _, line := range s.lines()[from:] {
		switch {
		case line.Event == "arrived":
			got = append(got, line.Kind+line.InstanceID)
		case line.SawInstance == nil:
			got = append(got, strconv.Itoa(line.Status)+" "+strconv.FormatBool(line.Saw == ready))
		default:
			got = append(got, strconv.Itoa(line.Status)+" "+line.Saw+" of "+strconv.FormatBool(*line.SawInstance == ready))
		}
	}
	want(t, "seen", strings.Join(got, "; "), "provision; 409 true; poll; 200 true; fetch; 404  of true; provision; 503  of true; "+
		"provision; 400 true")
}

// The work of an operation that goes on after its answer has no visit.
func TestSwept(t *testing.T) {
	s := newTestBroker(t)
	s.ask("PUT", one, later)
	s.ask("POLL", one, later)
	from := len(s.lines())
	brokertest.Sweep(t, s.service, s.store, diff.Value(osb.KeyOfTexts(one, ""))(t))()
	want(t, "taken up", s.events(from), "look begun; look ended absent done; create begun; create ended done; "+
		"look begun; look ended whole done; changed")
	for _, line := range s.lines()[from:] {
		diff.Equal(t, line.Visit, 0, "%+v", line)
	}
}

// How calls of the backend end.
func TestResults(t *testing.T) {
	for name, fails := range map[string]error{
		"rejected": &broker.Rejection{Status: 422, Description: "full"}, "failed": errFull,
	} {
		t.Run(name, func(t *testing.T) {
			s := newTestBroker(t)
			s.seller.fails = fails
			s.ask("PUT", one, atOnce)
			diff.Contains(t, s.events(1), "create begun; create ended "+name+"; look begun",
				"want the creation to end with %s", name)
		})
	}
	s := newTestBroker(t)
	s.seller.called = func(call string) { panic(call) }
	s.ask("PUT", one, atOnce)
	diff.Contains(t, s.events(1), "look begun; look ended failed; answered Internal", "after a panic")
}

// An Update has its arrival, its changes, the calls of the backend and its answer.
func TestUpdates(t *testing.T) {
	s, _ := newUpdatingBroker(t)
	s.ask("PUT", one, atOnce)
	from := len(s.lines())
	diff.Equal(t, s.update(one, `,"parameters":{"size":2}`).Code, 200, "an update")
	want(t, "update", s.events(from), "arrived; changed; look-update begun; look-update ended absent done; update begun; "+
		"update ended done; look-update begun; look-update ended whole done; changed; answered OK empty")
	from = len(s.lines())
	diff.Equal(t, s.update(one, `,"parameters":{"size":2}`).Code, 200, "the same again")
	want(t, "again", s.events(from), "arrived; answered OK empty")
}

// A backend that updates keeps its abilities, and its details aren't written down.
func TestUpdatingBackend(t *testing.T) {
	s, backend := newUpdatingBroker(t)
	made := New(s.writer, nil).Backend(backend)
	diff.Equal(t, broker.AbilitiesOf(made), broker.Abilities{Bindings: true, Updates: true, Details: true}, "the abilities")
	key := osb.InstanceKey(osb.ID{1})
	details := diff.Value(made.(broker.DetailsBackend).Details(context.Background(), broker.Request{Key: key}))(t)
	diff.Equal(t, details.DashboardURL, "https://d", "the details")
	diff.Equal(t, len(s.lines()), 1, "the lines")
}

// Each change of what is kept of updates, and each Update that changes nothing, has the event that its driver names.
func TestEffectsOfUpdates(t *testing.T) {
	const sized, numbered = `,"parameters":{"size":2}`, `,"x-osb-update":7`
	const grows, isUnknown = `,"plan_id":"` + grown + `"`, `,"plan_id":"unknown"`
	refused := func(status int) error { return &broker.Rejection{Status: status, Description: "full"} }
	for _, test := range []struct {
		name, plan, asks string
		fails            error // of each update
		isBetween        bool
		want             string
	}{
		{"an update", atOnce, sized, nil, false, "update sync; end-update done; -"},
		{"an update that fails", atOnce, sized, errFull, false, "update sync; end-update before; -"},
		{"an update that is half done", atOnce, sized, errFull, true, "update sync; end-update failed; -"},
		{"an update that the backend rejects", atOnce, sized, refused(400), false, "update sync; end-update refused-400; -"},
		{"an update that doesn't fit", atOnce, sized, refused(422), false, "update sync; end-update refused-422; -"},
		{"an operation", atOnce, grows, nil, false, "update async; end-update done; -; finish-update ok"},
		{"an operation that fails", atOnce, grows, errFull, false, "update async; end-update done; -; finish-update fail"},
		{"nothing to do", atOnce, "", nil, false, "update sync"},
		{"nothing to do, with a number", atOnce, numbered, nil, false, "update sync; -"},
		{"a plan that isn't sold", atOnce, isUnknown, nil, false, "update rejected-400"},
		{"a plan that isn't sold, with a number", atOnce, isUnknown + numbered, nil, false, "update rejected-400; -"},
		{"a plan that can't be left", bound, grows, nil, false, "update rejected-422"},
		{"another version", atOnce, `,"maintenance_info":{"version":"2.0"}`, nil, false, "update maintenance-conflict"},
	} {
		t.Run(test.name, func(t *testing.T) {
			s, backend := newUpdatingBroker(t)
			s.ask("PUT", one, test.plan)
			s.seller.fails, backend.isBetween = test.fails, test.isBetween
			before := s.effects()
			if answer := s.update(one, test.asks); answer.Code == http.StatusAccepted {
				brokertest.Sweep(t, s.service, s.store, diff.Value(osb.KeyOfTexts(one, ""))(t))()
			}
			want(t, test.asks, strings.TrimPrefix(s.effects(), before+"; "), test.want)
		})
	}
}

// What an Update names stands in the line of its arrival, and what is kept of updates in those of changes.
func TestMembersOfUpdates(t *testing.T) {
	s, _ := newUpdatingBroker(t)
	key := diff.Value(osb.KeyOfTexts(one, ""))(t)
	s.ask("PUT", one, atOnce)
	s.update(one, `,"parameters":{"size":1},"x-osb-update":3`)
	from := len(s.lines())
	s.update(one, `,"parameters":{"size":2},"maintenance_info":{"version":"1.0"},"x-osb-update":4`)
	lines := s.lines()
	sized, version := diff.Value(osb.ParametersDigest([]byte(`{"size":2}`)))(t), diff.Value(osb.VersionDigest("1.0"))(t)
	arrived := lines[from]
	diff.Equal(t, arrived.Kind+" "+arrived.Service+arrived.Plan, "update "+service, "the arrival")
	diff.Equal(t, arrived.Number, 4, "the number")
	diff.Equal(t, arrived.Parameters, hex.EncodeToString(sized[:]), "the parameters")
	diff.Equal(t, arrived.Version, hex.EncodeToString(version[:]), "the version")
	diff.Equal(t, lines[1].Version, "", "the version of a Provision that names none")
	held, kept := "", ""
	for _, line := range lines {
		if line.Event == "changed" {
			diff.Equal(t, line.Before+line.UpdatesBefore, held+kept, "the row before change %d", line.Change)
			held, kept = line.After, line.UpdatesAfter
		}
	}
	var holding osb.UpdateHolding
	check(t, holding.UnmarshalJSON([]byte(kept)))
	diff.Equal(t, holding, s.store.entries[key].Change.Holding, "the journal")
	diff.Equal(t, holding.Number(), uint64(4), "the number")
}

// The arrival of a creation has the digest of the version that it names.
func TestVersionOfACreation(t *testing.T) {
	s, _ := newUpdatingBroker(t)
	r := s.request("PUT", one, "")
	r.Body = io.NopCloser(strings.NewReader(`{"service_id":"` + service + `","plan_id":"` + atOnce +
		`","organization_guid":"o","space_guid":"s","maintenance_info":{"version":"1.0"}}`))
	s.ServeHTTP(httptest.NewRecorder(), r)
	version := diff.Value(osb.VersionDigest("1.0"))(t)
	diff.Equal(t, s.lines()[1].Version, hex.EncodeToString(version[:]), "the version")
}

// What a request was decided on has what was kept of updates, also of a binding's instance.
func TestSawOfUpdates(t *testing.T) {
	s, backend := newUpdatingBroker(t)
	s.ask("PUT", one, atOnce)
	s.ask("POLL", one, "")
	diff.Equal(t, s.last().SawUpdates, "", "before an update")
	s.seller.fails, backend.isBetween = errFull, true
	s.update(one, `,"parameters":{"size":2}`)
	lines := s.lines()
	kept := lines[len(lines)-2].UpdatesAfter
	diff.Contains(t, kept, `"phase":"failed"`, "what is kept")
	for _, test := range []struct{ method, target, want string }{
		{"POLL", one, "200 failed arrive"},
		{"GET", one, "422 concurrency-error "},
		{"PUT", one, "409 other-error arrive"},
	} {
		s.ask(test.method, test.target, grown)
		got := s.last()
		diff.Equal(t, strconv.Itoa(got.Status)+" "+got.Body+" "+got.Effect, test.want, test.method)
		diff.Equal(t, got.SawUpdates+got.SawInstanceUpdates, kept, test.method)
	}
	s.ask("PUT", one+"/"+bind, grown)
	got := s.last()
	diff.Equal(t, strconv.Itoa(got.Status)+" "+got.Effect, "503 put-off", "a Bind that names another plan")
	diff.Equal(t, got.SawInstanceUpdates, kept, "of the instance")
	diff.Equal(t, got.SawUpdates, "", "of the binding")
}

// The Fetch of an instance says what it has seen, and no event.
func TestFetchOfAnInstance(t *testing.T) {
	s, _ := newUpdatingBroker(t)
	s.ask("PUT", one, atOnce)
	s.ask("GET", one, "")
	got := s.last()
	diff.Equal(t, strconv.Itoa(got.Status)+" "+got.Body+got.Effect, "200 empty", "the answer")
	diff.Contains(t, got.Saw, `"phase":"ready"`, "what was seen")
	given := diff.Value(osb.ParametersDigest([]byte(`{"password":"` + parameter + `"}`)))(t)
	diff.Equal(t, got.Plan+" "+got.Parameters+got.Version, atOnce+" "+hex.EncodeToString(given[:]), "the settings")

	s.update(one, `,"plan_id":"`+bound+`","parameters":{"size":2},"maintenance_info":{"version":"1.0"},"x-osb-update":7`)
	s.ask("GET", one, "")
	got = s.last()
	sized, version := diff.Value(osb.ParametersDigest([]byte(`{"size":2}`)))(t), diff.Value(osb.VersionDigest("1.0"))(t)
	diff.Equal(t, got.Plan+" "+got.Parameters, bound+" "+hex.EncodeToString(sized[:]), "the settings after an update")
	diff.Equal(t, got.Version, hex.EncodeToString(version[:]), "the version")
	diff.Equal(t, got.Number, 7, "the number")
	diff.Error(t, diff.Err(fetchedIn([]byte(`{"plan_id":1}`))), "a body that isn't one")
}

// A request that has the time of another journal is followed by later lines.
func TestTimes(t *testing.T) {
	s := newTestBroker(t)
	ahead := time.Now().Add(time.Hour).UnixMicro()
	r := s.request("PUT", one, later)
	r.Header.Set(journalfile.Header, strconv.FormatInt(ahead, 10))
	wrong := s.request("PUT", one, later)
	wrong.Header.Set(journalfile.Header, strconv.FormatInt(ahead+1e9, 10))
	wrong.SetBasicAuth("platform", "wrong")
	given := httptest.NewRecorder()
	s.ServeHTTP(given, wrong) // nobody else sets the clock
	s.ServeHTTP(httptest.NewRecorder(), r)
	if got := s.lines()[1]; got.Event != "arrived" || got.Time <= ahead || got.Time > ahead+1e6 {
		t.Errorf("got %+v, want a time right after %d", got, ahead)
	}
	diff.Equal(t, given.Header().Get(journalfile.Header), "", "a stranger, %v", given.Header())
}

// No parameter, credential or password stands in a journal.
func TestNoSecrets(t *testing.T) {
	s := newTestBroker(t)
	s.ask("PUT", one, atOnce)
	s.ask("PUT", one+"/"+bind, atOnce)
	s.ask("GET", one+"/"+bind, "")
	s.seller.fails = broker.Public(errors.New(credential), parameter)
	s.ask("PUT", one+"/"+one, atOnce)
	s.ask("DELETE", one+"/"+bind, atOnce)
	s.ask("DELETE", one, atOnce)
	text := diff.Value(os.ReadFile(s.path))(t)
	for _, secret := range []string{password, parameter, credential} {
		diff.Lacks(t, string(text), secret, "the journal")
	}
	diff.Contains(t, string(text), bind, "")

	updated, _ := newUpdatingBroker(t)
	updated.ask("PUT", one, atOnce)
	updated.ask("PATCH", one, "")
	text = diff.Value(os.ReadFile(updated.path))(t)
	diff.Lacks(t, string(text), another, "the journal of an update")
	diff.Contains(t, string(text), `"updates_after":`, "the journal of an update")
}

// If the journal can't be written, requests are answered as before.
func TestFull(t *testing.T) {
	signal.Ignore(syscall.SIGXFSZ)
	s := newTestBroker(t)
	var limit syscall.Rlimit
	check(t, syscall.Getrlimit(syscall.RLIMIT_FSIZE, &limit))
	none := syscall.Rlimit{Cur: 0, Max: limit.Max}
	check(t, syscall.Setrlimit(syscall.RLIMIT_FSIZE, &none))
	given := s.ask("PUT", one, atOnce)
	check(t, syscall.Setrlimit(syscall.RLIMIT_FSIZE, &limit))
	if given.Code != 201 || s.failed != 1 || s.writer.LostLines() != 10 {
		t.Errorf("got the status %d, %d failures and %d lines lost, want 201, 1 and 10", given.Code, s.failed,
			s.writer.LostLines())
	}
	s.ask("POLL", one, "")
	want(t, "afterwards", s.events(1), "lost; arrived; answered OK succeeded")
}

// The optional methods of a backend stay as they are.
func TestOptional(t *testing.T) {
	s := newTestBroker(t)
	to := New(s.writer, nil)
	type plain struct{ broker.Backend }
	type binding struct{ broker.BindingBackend }
	type credentials struct{ broker.CredentialsBackend }
	type syncing struct{ broker.SyncBackend }
	for name, of := range map[string]broker.Backend{
		"": plain{s.seller}, "b": binding{s.seller}, "s": struct {
			plain
			syncing
		}{plain{s.seller}, syncing{s.seller}}, "bc": struct {
			binding
			credentials
		}{binding{s.seller}, credentials{s.seller}}, "bs": struct {
			binding
			syncing
		}{binding{s.seller}, syncing{s.seller}}, "bcs": s.seller,
	} {
		t.Run("with "+name, func(t *testing.T) {
			got := ""
			made := to.Backend(of)
			if _, ok := made.(broker.BindingBackend); ok {
				got += "b"
			}
			if _, ok := made.(broker.CredentialsBackend); ok {
				got += "c"
			}
			if _, ok := made.(broker.SyncBackend); ok {
				got += "s"
			}
			diff.Equal(t, got, name, "a backend with %q", name)
		})
	}
}

func TestStarted(t *testing.T) {
	made, err := StartMembers("1.2", []byte(catalogue), broker.ServiceOptions{
		FirstPoll: true, WaitForPoll: 90 * time.Second, IDsReturnAfter: time.Hour,
	}, true)
	check(t, err)
	text := diff.Value(json.Marshal(made))(t)
	var got line
	check(t, json.Unmarshal(text, &got))
	diff.Equal(t, got.LocksCanBeLost && got.NamesEvents, true, "%s", text)
	if got.Version != "1.2" || !got.FirstPoll || got.WaitForPoll != 90 || got.IDsReturnAfter != 3600 || len(got.Plans) != 4 {
		t.Fatalf("got %s, want the version, the rules and four plans", text)
	}
	number := diff.Value(osb.IDOfText("unbound"))(t)
	for at, test := range []struct{ plan, number, mode, binding string }{
		{atOnce, atOnce, "sync", "sync"}, {later, later, "async", "sync"}, {bound, bound, "sync", "async"},
		{"unbound", number.String(), "sync", "none"},
	} {
		t.Run(test.plan, func(t *testing.T) {
			plan := got.Plans[at]
			if plan["service"] != service || plan["service_number"] != service || plan["plan"] != test.plan ||
				plan["plan_number"] != test.number || plan["mode"] != test.mode || plan["binding"] != test.binding ||
				plan["retrievable"] != true || plan["instances_retrievable"] != false {
				t.Errorf("got %v, want %v", plan, test)
			}
		})
	}
	diff.Error(t, diff.Err(StartMembers("1.2", []byte(`[]`), broker.ServiceOptions{}, false)), "a catalogue that can't be read")
	made = diff.Value(StartMembers("1.2", []byte(updatingCatalogue), broker.ServiceOptions{}, false))(t)
	text = diff.Value(json.Marshal(made))(t)
	diff.Contains(t, string(text), `"instances_retrievable":true`, "instances that can be fetched")
}

// A change is undone once, also if the step writes nothing when it is called again.
func TestUndoneOnce(t *testing.T) {
	s := newTestBroker(t)
	to := New(s.writer, func(error) bool { return true })
	s.store.tries = 2
	calls := 0
	err := to.Store(s.store).Change(context.Background(), broker.Key{}, func(broker.Snapshot) (*broker.Entry, error) {
		if calls++; calls == 2 {
			return nil, errFull
		}
		return &broker.Entry{Life: 1}, nil
	})
	diff.ErrorIs(t, err, errFull, "")
	diff.Equal(t, calls, 2, "")
	want(t, "two tries", s.events(1), "changed; undone")
}

// If a broker deletes a binding that has failed, the change has the visit of the request of the instance, which says
// what was held of the instance.
func TestUnbindFailed(t *testing.T) {
	s := newTestBroker(t)
	s.ask("PUT", one, bound)
	ready := s.lines()[len(s.lines())-2].After
	s.ask("PUT", one+"/"+bind, bound)
	s.ask("POLL", one+"/"+bind, "")
	s.seller.fails = errFull
	brokertest.Sweep(t, s.service, s.store, diff.Value(osb.KeyOfTexts(one, bind))(t))()
	from := len(s.lines())
	s.ask("DELETE", one, bound)
	want(t, "deletion", s.events(from), "arrived; changed; changed; answered Unprocessable Entity concurrency-error")
	changed, answered := s.lines()[from+2], s.lines()[from+3]
	if changed.Binding != bind || changed.Visit != answered.Visit || answered.Binding != "" {
		t.Errorf("got %+v, and then %+v, want a Bind's change and an instance's answer", changed, answered)
	}
	diff.Equal(t, answered.Saw, ready, "seen")
}

// An arrival has the number of a change, so that it and all before it have ended, however they ended.
func TestCommitted(t *testing.T) {
	s := newTestBroker(t)
	to := New(s.writer, func(error) bool { return false })
	arrives := func(want int64) {
		t.Helper()
		to.OnArrival(context.Background(), s.request("POLL", one, ""), "r", broker.Visit{})
		diff.Equal(t, s.last().Committed, want, "")
	}
	change := func(store broker.Store, life int64) error {
		return store.Change(context.Background(), broker.Key{},
			func(broker.Snapshot) (*broker.Entry, error) { return &broker.Entry{Life: life}, nil })
	}
	store, another := to.Store(s.store), to.Store(&memory{entries: map[broker.Key]broker.Entry{}})
	arrives(0)
	check(t, change(store, 1))
	check(t, change(store, 2))
	arrives(2)
	s.store.stepped = func(*broker.Entry) {
		arrives(2) // the third isn't committed yet
		check(t, change(another, 4))
		arrives(2) // the fourth is
	}
	check(t, change(store, 3))
	arrives(4)
	s.store.stepped, s.store.fails = nil, errFull
	diff.ErrorIs(t, change(store, 5), errFull, "")
	arrives(5)
}

// A change that leaves the holding as it is has no line: the answer says what was seen.
func TestNoChange(t *testing.T) {
	s := newTestBroker(t)
	store := New(s.writer, nil).Store(s.store)
	check(t, store.Change(context.Background(), broker.Key{}, func(snapshot broker.Snapshot) (*broker.Entry, error) {
		snapshot.Entry.Description = "another"
		return &snapshot.Entry, nil
	}))
	if events := s.lines(); len(events) != 1 || s.store.entries[broker.Key{}].Description != "another" {
		t.Errorf("got %+v, want one line and the other description", events)
	}
}

// The life of an id that returns.
func TestLives(t *testing.T) {
	s := newTestBroker(t)
	store := New(s.writer, nil).Store(s.store)
	for _, life := range []int64{1, 1, 2} {
		check(t, store.Change(context.Background(), broker.Key{}, func(broker.Snapshot) (*broker.Entry, error) {
			return &broker.Entry{Life: life}, nil
		}))
	}
	lines := s.lines()
	if len(lines) != 3 {
		t.Fatalf("got %+v, want three lines", lines)
	}
	for at, before := range map[int]int64{1: 0, 2: 1} {
		if it := lines[at]; it.Life != before+1 || it.LifeBefore == nil || *it.LifeBefore != before {
			t.Errorf("got %+v, want the next life", it)
		}
	}
}

// What a Poll and a creation take of the processor, with a journal.
func BenchmarkRequests(b *testing.B) {
	for name, method := range map[string]string{"poll": "POLL", "creation": "PUT"} {
		b.Run(name, func(b *testing.B) {
			s := newTestBroker(&testing.T{})
			s.ask("PUT", one, atOnce)
			before := processor(b)
			for n := 0; n < b.N; n++ {
				if method == "PUT" {
					s.store.entries, s.seller.things = map[broker.Key]broker.Entry{}, map[broker.Key]broker.There{}
				}
				s.ServeHTTP(httptest.NewRecorder(), s.request(method, one, atOnce))
			}
			b.ReportMetric(float64(processor(b)-before)/float64(b.N), "processor-ns/op")
		})
	}
}

// processor is the time of the processor that this process has taken, in nanoseconds.
func processor(b *testing.B) int64 {
	var used syscall.Rusage
	check(b, syscall.Getrusage(syscall.RUSAGE_SELF, &used))
	return used.Utime.Nano() + used.Stime.Nano()
}
