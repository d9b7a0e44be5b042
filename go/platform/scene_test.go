package platform_test

import (
	"context"
	"encoding/json"
	"errors"
	"fmt"
	"io"
	"net/http"
	"net/http/httptest"
	"net/url"
	"sort"
	"strings"
	"sync"
	"testing"
	"time"

	"pippinterm/internal/diff"
	"pippinterm/platform"
	"pippinterm/platform/client"
	"pippinterm/platform/vault"
)

var background = context.Background()

const (
	service, plan  = "postgres", "postgres-c1-id"
	user, password = "platform", "hunter2"
)

// small is a catalogue with one plan, and further members of the catalogue and of the plan.
func small(members, ofPlan string) string {
	return `{` + members + `"services": [{"id": "postgres", "name": "database", "description": "A database",
		"bindable": false, "plans": [{"id": "postgres-c1-id", "name": "small", "description": "A small one"` +
		ofPlan + `}]}]}`
}

// A step is a request that the broker must see next, and its answer, or what an operator does.
type step struct {
	request   string // PUT, GET of the last operation, or DELETE; empty for what an operator does
	status    int
	body      string
	header    [2]string // a further header of the answer, or empty
	operation string    // what the GET names
	try       int       // of which try of the order; 0 for the latest
	due       int       // when it must arrive, in seconds after the order; 0 stands for any time
	times     int       // how often, one after the other; 0 stands for 1
	phrase    string    // of the status line; empty for the usual one
	hangs     bool      // no answer is given, and the platform hangs up
	refuses   bool      // the login is refused from then on
	does      func(t *testing.T, s *scene)
}

func put(status int, body string) step    { return step{request: "PUT", status: status, body: body} }
func poll(status int, body string) step   { return step{request: "GET", status: status, body: body} }
func remove(status int, body string) step { return step{request: "DELETE", status: status, body: body} }

// last is the last deletion of a try: once the hold has passed again.
func last(status int, due int) step { return remove(status, `{}`).at(due) }

func operator(does func(t *testing.T, s *scene)) step { return step{does: does} }

func (s step) at(due int) step              { s.due = due; return s }
func (s step) repeat(times int) step        { s.times = times; return s }
func (s step) of(try int) step              { s.try = try; return s }
func (s step) naming(operation string) step { s.operation = operation; return s }
func (s step) retryAfter(value string) step { s.header = [2]string{"Retry-After", value}; return s }

// A scene is an engine, an operator, and a broker that answers by a script. Each try of the order is under another id.
type scene struct {
	platform.Silent
	*client.Client
	t      *testing.T
	start  time.Time
	store  platform.Store
	orders *platform.Orders
	engine *platform.Engine
	key    platform.Key // of the first try

	mu        sync.Mutex
	now       time.Time
	catalogue string
	script    []step
	seen      int // how often the first step of the script was seen
	tries     []string
	refusing  bool
	hangUp    func() // ends the exchange that the next step doesn't answer
	// turnedAway is the status of each answer to a request for the catalogue, or 0.
	turnedAway int
	orphans    []string
	exchanges  []platform.Exchange
	failures   []platform.Failure
}

// newScene is a scene that ends with the test.
func newScene(t *testing.T, catalogue string, settings platform.Settings, options platform.Options) *scene {
	t.Helper()
	start := time.Date(2026, 5, 6, 7, 8, 9, 0, time.UTC)
	s := &scene{t: t, start: start, now: start, catalogue: catalogue}
	server := httptest.NewServer(http.HandlerFunc(s.serve))
	t.Cleanup(server.Close)
	sealed := diff.Value(vault.New(make([]byte, vault.ShortestKey)))(t)
	s.Client = diff.Value(client.New(client.Options{Password: client.NewPasswords(sealed, nil).Of}))(t)
	t.Cleanup(s.Client.Close)
	s.store = platform.NewMemory(s.time)
	s.orders = platform.NewOrders(s.store, sealed)
	broker := platform.Broker{Name: "foreign", URL: server.URL, User: user, Settings: settings}
	check(t, s.orders.AddBroker(background, broker, []byte(password)))
	options.Worker, options.Share = "one", func() float64 { return 0 }
	s.engine = platform.NewEngine(s.store, s, sealed, options, s)
	return s
}

var check = diff.Must

// time is the time of the store.
func (s *scene) time() time.Time {
	s.mu.Lock()
	defer s.mu.Unlock()
	return s.now
}

func (s *scene) forward(by time.Duration) {
	s.mu.Lock()
	defer s.mu.Unlock()
	s.now = s.now.Add(by)
}

// Exchange sends a request over HTTP. It hangs up once the broker has a request that it doesn't answer.
func (s *scene) Exchange(ctx context.Context, out platform.Outgoing) platform.Incoming {
	within, hangUp := context.WithCancel(ctx)
	defer hangUp()
	s.mu.Lock()
	if len(s.script) > 0 && s.script[0].hangs {
		s.hangUp = hangUp
	}
	s.mu.Unlock()
	return s.Client.Exchange(within, out)
}

// serve is the broker.
func (s *scene) serve(w http.ResponseWriter, r *http.Request) {
	body, err := io.ReadAll(r.Body)
	s.mu.Lock()
	diff.NoError(s.t, err, "the body of %s %s", r.Method, r.URL)
	given, hangUp := s.answer(r, body), s.hangUp
	s.mu.Unlock()
	if given.hangs {
		hangUp()
		<-r.Context().Done()
		return
	}
	if given.header[0] != "" {
		w.Header().Set(given.header[0], given.header[1])
	}
	if given.phrase != "" {
		s.speak(w, given)
		return
	}
	w.Header().Set("Content-Type", "application/json")
	w.WriteHeader(given.status)
	_, _ = io.WriteString(w, given.body) // the platform may have hung up
}

// speak writes an answer whose status line has a phrase of the broker's own.
func (s *scene) speak(w http.ResponseWriter, given step) {
	conn, _, err := w.(http.Hijacker).Hijack()
	if err != nil {
		s.t.Errorf("got the error %v, want none", err)
		return
	}
	defer conn.Close()
	_, _ = fmt.Fprintf(conn, "HTTP/1.1 %d %s\r\nContent-Length: %d\r\n\r\n%s", given.status, given.phrase,
		len(given.body), given.body)
}

// answer is the answer to a request, which must be the next of the script. The scene is locked.
func (s *scene) answer(r *http.Request, body []byte) step {
	if name, secret, _ := r.BasicAuth(); name != user || secret != password {
		s.t.Errorf("%s %s: got the login %s:%s, want %s:%s", r.Method, r.URL, name, secret, user, password)
	}
	diff.Equal(s.t, r.Header.Get("X-Broker-API-Version"), "2.17", "%s %s", r.Method, r.URL)
	isCatalogue := r.URL.Path == "/v2/catalog"
	if s.refusing {
		if !isCatalogue {
			s.t.Errorf("%s %s: got it while the login is refused, want the catalogue only", r.Method, r.URL)
		}
		return step{status: http.StatusUnauthorized, body: `{"description": "who are you?"}`}
	}
	if isCatalogue && s.turnedAway != 0 {
		return step{status: s.turnedAway, body: empty}
	}
	if isCatalogue {
		return step{status: http.StatusOK, body: s.catalogue}
	}
	since := s.now.Sub(s.start)
	if len(s.script) == 0 || s.script[0].request != r.Method {
		s.t.Errorf("%s %s: got it after %v, want what is left of the script: %v", r.Method, r.URL, since, s.script)
		return step{status: http.StatusTeapot, body: `{}`}
	}
	next := s.script[0]
	s.checkRequest(next, r, body)
	if next.due != 0 && s.seen == 0 && since != time.Duration(next.due)*time.Second {
		s.t.Errorf("%s %s: got it after %v, want %d s", r.Method, r.URL, since, next.due)
	}
	if s.seen++; s.seen >= next.times {
		s.script, s.seen = s.script[1:], 0
	}
	s.refusing = next.refuses
	return next
}

// checkRequest is that a request is the one of its try, and has what the standard asks for.
func (s *scene) checkRequest(next step, r *http.Request, body []byte) {
	parts := strings.Split(strings.TrimPrefix(r.URL.Path, "/v2/service_instances/"), "/")
	query := r.URL.Query()
	if next.request == "PUT" {
		for _, try := range s.tries {
			if try == parts[0] {
				s.t.Errorf("the id %s: got it twice, want it once", try)
			}
		}
		s.tries = append(s.tries, parts[0])
		var sent map[string]any
		diff.NoError(s.t, json.Unmarshal(body, &sent), "the body %s", body)
		query.Set("service_id", fmt.Sprint(sent["service_id"]))
		query.Set("plan_id", fmt.Sprint(sent["plan_id"]))
	}
	try := next.try
	if try == 0 {
		try = len(s.tries)
	}
	diff.Equal(s.t, parts[0], s.tries[try-1], "%s %s", r.Method, r.URL)
	// in a Poll, this parameter says nothing: the standard doesn't have it there
	want := url.Values{"service_id": {service}, "plan_id": {plan}, "accepts_incomplete": {"true"}}
	if next.operation != "" {
		want.Set("operation", next.operation)
	}
	diff.Equal(s.t, query.Encode(), want.Encode(), "%s %s", r.Method, r.URL)
}

// run has the engine do all that is due.
func (s *scene) run() {
	s.t.Helper()
	err := s.engine.RunOnce(background)
	s.mu.Lock()
	defer s.mu.Unlock()
	switch {
	case s.refusing && !errors.Is(err, platform.ErrUnreached):
		s.t.Fatalf("RunOnce while the login is refused: got %v, want %v", err, platform.ErrUnreached)
	case !s.refusing && err != nil:
		s.t.Fatalf("RunOnce: got the error %v, want none", err)
	}
}

// play plays the script to its end, and until all rests.
func (s *scene) play(script []step) {
	s.t.Helper()
	s.script = script
	for round := 0; round < 1000; round++ {
		s.run()
		if act := s.act(); act != nil {
			act(s.t, s)
			continue
		}
		due, now, err := s.store.NextDue(background, []string{"foreign"})
		check(s.t, err)
		if due.IsZero() {
			break
		}
		if wait := due.Sub(now); wait > 0 {
			s.forward(wait)
		}
		if s.t.Failed() {
			return
		}
	}
	if len(s.script) > 0 {
		s.t.Errorf("at the end: got %v left of the script, want none", s.script)
	}
}

// act is what an operator does next, or nil.
func (s *scene) act() func(*testing.T, *scene) {
	s.mu.Lock()
	defer s.mu.Unlock()
	if len(s.script) == 0 || s.script[0].does == nil {
		return nil
	}
	does := s.script[0].does
	s.script = s.script[1:]
	return does
}

// order orders an instance, once the catalogue is there.
func (s *scene) order(wanted platform.NewInstance) {
	s.t.Helper()
	s.run()
	entry := diff.Value(s.orders.Create(background, wanted))(s.t)
	s.key = entry.Key
}

// rows are the tries of the order.
func (s *scene) rows() []platform.Entry {
	s.t.Helper()
	found := diff.Value(s.store.List(background, platform.Filter{}))(s.t)
	sort.Slice(found, func(one, other int) bool { return found[one].Try < found[other].Try })
	return found
}

func (s *scene) OnAnswer(it platform.Exchange) {
	s.mu.Lock()
	defer s.mu.Unlock()
	s.exchanges = append(s.exchanges, it)
}

func (s *scene) OnFailure(it platform.Failure) {
	s.mu.Lock()
	defer s.mu.Unlock()
	s.failures = append(s.failures, it)
}

func (s *scene) OnOrphan(_ platform.Key, status int, isFound bool) {
	s.mu.Lock()
	defer s.mu.Unlock()
	s.orphans = append(s.orphans, fmt.Sprint(status, " ", isFound))
}
