package journal

import (
	"context"
	"encoding/json"
	"errors"
	"io"
	"net/http"
	"net/http/httptest"
	"os"
	"path/filepath"
	"strings"
	"sync"
	"testing"

	"pippinterm/broker"
	"pippinterm/internal/diff"
	"pippinterm/osb"
)

// What must not stand in a journal.
const (
	password   = "password-of-the-platform"
	parameter  = "value-of-a-parameter"
	another    = "value-of-an-update"
	credential = "secret-of-a-binding"
)

const (
	service = "00000000-0000-0000-0000-0000000000a0"
	atOnce  = "00000000-0000-0000-0000-0000000000b1"
	later   = "00000000-0000-0000-0000-0000000000b2"
	bound   = "00000000-0000-0000-0000-0000000000b3" // bindings later
)

// The last plan has a text as its id that is no GUID.
const catalogue = `{"services": [{"id": "` + service + `", "name": "s", "description": "d", "bindable": true,
	"bindings_retrievable": true, "plans": [
	{"id": "` + atOnce + `", "name": "at-once", "description": "d"},
	{"id": "` + later + `", "name": "later", "description": "d", "x-osb-asynchronous": true},
	{"id": "` + bound + `", "name": "bound", "description": "d", "x-osb-asynchronous-bindings": true},
	{"id": "unbound", "name": "unbound", "description": "d", "bindable": false}]}]}`

const grown = "00000000-0000-0000-0000-0000000000b4" // updates to it are asynchronous

// Its instances can be updated and fetched.
const updatingCatalogue = `{"services": [{"id": "` + service + `", "name": "s", "description": "d", "bindable": true,
	"instances_retrievable": true, "plan_updateable": true, "plans": [
	{"id": "` + atOnce + `", "name": "at-once", "description": "d", "maintenance_info": {"version": "1.0"}},
	{"id": "` + grown + `", "name": "grown", "description": "d", "x-osb-asynchronous-updates": true},
	{"id": "` + bound + `", "name": "bound", "description": "d", "plan_updateable": false}]}]}`

var errFull = errors.New("the disk is full")

// A memory is a store in memory.
type memory struct {
	broker.Store // has no other methods
	turn         sync.Mutex
	entries      map[broker.Key]broker.Entry
	fails        error                    // of the next commit
	tries        int                      // how often the next step is called, if it is more than once
	stepped      func(next *broker.Entry) // is called after each step, before the commit
}

func (m *memory) snapshot(key broker.Key) broker.Snapshot {
	snapshot := broker.Snapshot{Entry: m.entries[key]}
	if key.IsBinding {
		snapshot.Instance = m.entries[osb.InstanceKey(key.Instance)]
		return snapshot
	}
	snapshot.AnyBinding = func() (bool, error) {
		for other, entry := range m.entries {
			if other.IsBinding && other.Instance == key.Instance && entry.Holding.IsHeld() {
				return true, nil
			}
		}
		return false, nil
	}
	return snapshot
}

func (m *memory) Read(_ context.Context, key broker.Key) (broker.Snapshot, error) {
	m.turn.Lock()
	defer m.turn.Unlock()
	return m.snapshot(key), nil
}

func (*memory) UnfinishedKeys(context.Context) ([]broker.Key, error) { return nil, nil }

func (m *memory) Change(_ context.Context, key broker.Key, step broker.Step) error {
	m.turn.Lock()
	defer m.turn.Unlock()
	next, err := step(m.snapshot(key))
	for try := 1; err == nil && try < m.tries; try++ {
		next, err = step(m.snapshot(key))
	}
	m.tries = 0
	if err != nil || next == nil {
		return err
	}
	if m.stepped != nil {
		m.stepped(next)
	}
	if err, m.fails = m.fails, nil; err != nil {
		return err
	}
	m.entries[key] = *next
	return nil
}

func (m *memory) HeldBindings(_ context.Context, instance osb.ID) (ids []osb.ID, err error) {
	m.turn.Lock()
	defer m.turn.Unlock()
	for key, entry := range m.entries {
		if key.IsBinding && key.Instance == instance && entry.Holding.IsHeld() {
			ids = append(ids, key.Binding)
		}
	}
	return ids, nil
}

// A seller is a backend in memory.
type seller struct {
	things map[broker.Key]broker.There
	called func(call string) // is called before each call
	fails  error             // of each creation, and of each update
}

func (s *seller) Look(_ context.Context, request broker.Request) (broker.There, error) {
	s.called("look")
	return s.things[request.Key], nil
}

func (s *seller) Create(_ context.Context, request broker.Request) error {
	s.called("create")
	if s.fails == nil {
		s.things[request.Key] = broker.Whole
	}
	return s.fails
}

func (s *seller) Delete(_ context.Context, request broker.Request) error {
	s.called("delete")
	delete(s.things, request.Key)
	return nil
}

func (s *seller) LookBinding(ctx context.Context, request broker.Request) (broker.There, error) {
	return s.Look(ctx, request)
}

func (s *seller) CreateBinding(ctx context.Context, request broker.Request) (json.RawMessage, error) {
	return json.RawMessage(`{"password":"` + credential + `"}`), s.Create(ctx, request)
}

func (s *seller) DeleteBinding(ctx context.Context, request broker.Request) error {
	return s.Delete(ctx, request)
}

func (s *seller) Credentials(context.Context, broker.Request) (json.RawMessage, error) {
	s.called("credentials")
	return json.RawMessage(`{"password":"` + credential + `"}`), nil
}

func (s *seller) Sync(context.Context, broker.Request) error { return nil }

// An updatingSeller can update, and describes what it sells.
type updatingSeller struct {
	*seller
	has       string // the text of the settings of the instance, or empty if it was never updated
	isBetween bool   // whether an update that fails leaves settings between
}

func (s *updatingSeller) LookUpdate(_ context.Context, update broker.Update) (broker.There, error) {
	s.called("look-update")
	return update.Done(s.has)
}

func (s *updatingSeller) Update(_ context.Context, update broker.Update) error {
	s.called("update")
	to, err := update.To.Text()
	switch {
	case err != nil:
		return err
	case s.fails == nil:
		s.has = to
	case s.isBetween:
		s.has = "between"
	}
	return s.fails
}

func (s *updatingSeller) Details(context.Context, broker.Request) (broker.Details, error) {
	return broker.Details{DashboardURL: "https://d"}, s.fails
}

// A line is one of a journal.
type line struct {
	Time                         int64
	Event, Instance, Binding     string
	InstanceID                   string `json:"instance_id"`
	Visit, Change, Life          int64
	LifeBefore                   *int64 `json:"life_before"`
	Request, Kind, Service, Plan string
	Accepts, Doubtful            bool
	Attributes                   string
	Number, Committed            int64
	Parameters                   string
	Before, After, Effect        string
	UpdatesBefore                string `json:"updates_before"`
	UpdatesAfter                 string `json:"updates_after"`
	Call, Stage, Found, Result   string
	Status                       int
	Body, Credentials, Saw       string
	SawUpdates                   string  `json:"saw_updates"`
	SawInstance                  *string `json:"saw_instance"`
	SawInstanceUpdates           string  `json:"saw_instance_updates"`
	Count                        int
	Version                      string
	FirstPoll                    bool    `json:"first_poll"`
	WaitForPoll                  float64 `json:"wait_for_poll"`
	IDsReturnAfter               float64 `json:"ids_return_after"`
	LocksCanBeLost               bool    `json:"locks_can_be_lost"`
	NamesEvents                  bool    `json:"names_events"`
	Plans                        []map[string]any
}

// A testBroker is a broker whose journal is read.
type testBroker struct {
	*broker.Handler
	t       *testing.T
	path    string
	store   *memory
	seller  *seller
	service *broker.Service
	writer  *Writer
	failed  int // how often the journal has failed
}

var errDoubt = errors.New("nobody knows")

func newTestBroker(t *testing.T) *testBroker {
	t.Helper()
	of := newSeller()
	return newBrokerOf(t, catalogue, of, of)
}

// newUpdatingBroker is a testBroker whose instances can be updated.
func newUpdatingBroker(t *testing.T) (*testBroker, *updatingSeller) {
	t.Helper()
	of := &updatingSeller{seller: newSeller()}
	return newBrokerOf(t, updatingCatalogue, of.seller, of), of
}

func newSeller() *seller {
	return &seller{things: map[broker.Key]broker.There{}, called: func(string) {}}
}

// newBrokerOf is a testBroker of a catalogue. The seller is the backend, or what the backend is made of.
func newBrokerOf(t *testing.T, document string, of *seller, backend broker.Backend) *testBroker {
	t.Helper()
	s := &testBroker{
		t: t, path: filepath.Join(t.TempDir(), "journal"), store: &memory{entries: map[broker.Key]broker.Entry{}},
		seller: of,
	}
	sold := diff.Value(broker.NewCatalogue([]byte(document), broker.AbilitiesOf(backend)))(t)
	locks, err := broker.NewFileLocks(filepath.Join(t.TempDir(), "locks"))
	check(t, err)
	s.writer, err = Open(Options{
		Path: s.path, Most: 1 << 20, Failed: func(error) { s.failed++ },
	})
	check(t, err)
	to := New(s.writer, func(err error) bool { return errors.Is(err, errDoubt) })
	options := broker.ServiceOptions{FirstPoll: true}
	s.service = broker.NewService(sold, to.Store(s.store), to.Backend(backend), locks, options, broker.Silent{})
	users, err := broker.NewUsers(map[string][]string{"platform": {password}})
	check(t, err)
	s.Handler, err = broker.NewHandler(context.Background(), s.service, broker.HandlerOptions{
		Users: users, LongestBody: 1000, AtOnce: 4, Touch: func(broker.Key) {}, Observer: broker.Silent{}, Journal: to,
	})
	check(t, err)
	return s
}

var check = diff.Must

// ask sends a request, and returns the answer. An id is that of an instance, or of an instance and a binding.
func (s *testBroker) ask(method, target, plan string) *httptest.ResponseRecorder {
	given := httptest.NewRecorder()
	s.ServeHTTP(given, s.request(method, target, plan))
	return given
}

// update sends an Update with these members besides the service.
func (s *testBroker) update(target, members string) *httptest.ResponseRecorder {
	given, r := httptest.NewRecorder(), s.request("PATCH", target, "")
	r.Body = io.NopCloser(strings.NewReader(`{"service_id":"` + service + `"` + members + `}`))
	s.ServeHTTP(given, r)
	return given
}

func (s *testBroker) request(method, target, plan string) *http.Request {
	body := ""
	path := "/v2/service_instances/" + strings.Replace(target, "/", "/service_bindings/", 1)
	switch {
	case method == "POLL":
		method, path = "GET", path+"/last_operation"
	case method == "PUT":
		body = `{"service_id":"` + service + `","plan_id":"` + plan + `","organization_guid":"o","space_guid":"s",
			"parameters":{"password":"` + parameter + `"}}`
		path += "?accepts_incomplete=true"
	case method == "PATCH":
		body = `{"service_id":"` + service + `","parameters":{"password":"` + another + `"}}`
		path += "?accepts_incomplete=true"
	case method == "DELETE":
		path += "?accepts_incomplete=true&service_id=" + service + "&plan_id=" + plan
	}
	r := httptest.NewRequest(method, path, strings.NewReader(body))
	r.SetBasicAuth("platform", password)
	r.Header.Set("X-Broker-API-Version", "2.17")
	r.Header.Set("X-Broker-API-Request-Identity", "request-1")
	return r
}

// lines are those of the journal.
func (s *testBroker) lines() (lines []line) {
	s.t.Helper()
	text := diff.Value(os.ReadFile(s.path))(s.t)
	for _, text := range strings.Split(strings.TrimSuffix(string(text), "\n"), "\n") {
		var read line
		if err := json.Unmarshal([]byte(text), &read); err != nil {
			s.t.Fatalf("%q: got the error %v, want none", text, err)
		}
		lines = append(lines, read)
	}
	return lines
}

// events are the events of the lines from one on, with what distinguishes them.
func (s *testBroker) events(from int) string {
	s.t.Helper()
	var texts []string
	for _, line := range s.lines()[from:] {
		text := line.Event
		switch line.Event {
		case "work":
			text = strings.Join(strings.Fields(line.Call+" "+line.Stage+" "+line.Found+" "+line.Result), " ")
		case "answered":
			text = strings.Join([]string{"answered", http.StatusText(line.Status), line.Body}, " ")
		case "undone":
			if line.Doubtful {
				text += " doubtful"
			}
		}
		texts = append(texts, text)
	}
	return strings.Join(texts, "; ")
}

// effects are the events that the drivers name of all changes and answers.
func (s *testBroker) effects() string {
	s.t.Helper()
	var names []string
	for _, line := range s.lines() {
		switch {
		case line.Event != "changed" && line.Event != "answered":
		case line.Effect == "":
			names = append(names, "-")
		default:
			names = append(names, line.Effect)
		}
	}
	return strings.Join(names, "; ")
}

func (s *testBroker) last() line {
	s.t.Helper()
	all := s.lines()
	return all[len(all)-1]
}
