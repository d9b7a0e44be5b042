package broker_test

import (
	"context"
	"encoding/json"
	"fmt"
	"net/http"
	"net/http/httptest"
	"path/filepath"
	"strings"
	"sync"
	"sync/atomic"
	"testing"
	"time"

	"pippinterm/broker"
	"pippinterm/broker/sqlite"
	"pippinterm/internal/diff"
)

// A testBroker is a broker over a store of its own, with a sweeper that runs.
type testBroker struct {
	*broker.Handler
	shelf    *shelf
	store    *sqlite.Store
	observed *recorder
	expected *sentRequests // of the shelf
	sent     atomic.Int64
}

// A setting changes how a testBroker is made.
type setting struct {
	atOnce    int
	over      func(*shelf) broker.Backend
	catalogue string // or empty for the usual one
	options   broker.ServiceOptions
	limiter   broker.Limiter
	users     map[string][]string
}

func newTestBroker(t *testing.T, s setting) *testBroker {
	t.Helper()
	ctx := context.Background()
	it := &testBroker{shelf: newShelf(func() int { return 9 }), observed: &recorder{}, expected: newExpected()}
	it.shelf.asked = func(r broker.Request) { it.checkSent(t, r) }
	it.store = diff.Value(sqlite.Open(ctx, filepath.Join(t.TempDir(), "store"), it.observed))(t)
	t.Cleanup(func() { _ = it.store.Close() })
	backend := broker.Backend(it.shelf)
	if s.over != nil {
		backend = s.over(it.shelf)
	}
	if s.catalogue == "" {
		s.catalogue = catalogue
	}
	sold := diff.Value(broker.NewCatalogue([]byte(s.catalogue), broker.AbilitiesOf(backend)))(t)
	named := diff.Value(sold.OfStore(storeID))(t)
	service := broker.NewService(named, it.store, backend, newMemoryLocks(), s.options, it.observed)
	sweeper := broker.NewSweeper(service, it.observed)
	stop, cancel := context.WithCancel(ctx)
	swept := make(chan struct{})
	go func() {
		defer close(swept)
		sweeper.Run(ctx, stop, 2, 10*time.Millisecond)
	}()
	t.Cleanup(func() { cancel(); <-swept })
	if s.users == nil {
		s.users = map[string][]string{"u": {"p"}}
	}
	users, err := broker.NewUsers(s.users)
	check(t, err)
	it.Handler, err = broker.NewHandler(ctx, service, broker.HandlerOptions{
		Users: users, LongestBody: 1000, AtOnce: s.atOnce + 1, Touch: sweeper.Touch, Observer: it.observed,
		Limiter: s.limiter,
	})
	check(t, err)
	return it
}

// checkSent checks that what the backend is given was sent.
func (s *testBroker) checkSent(t *testing.T, r broker.Request) {
	snapshot, err := s.store.Read(context.Background(), r.Key)
	if err == nil {
		err = s.expected.check(r, isDeletion(snapshot.Entry))
	}
	diff.NoError(t, err, "")
}

// A recorder keeps what an Observer gets.
type recorder struct {
	broker.Silent
	turn      sync.Mutex
	exchanges []broker.Exchange
	failures  []broker.Failure
	finished  []operationEnd
}

// An operationEnd is an end that an Observer got.
type operationEnd struct {
	key broker.Key
	ok  bool
}

func (o *recorder) OnEnd(key broker.Key, ok bool) {
	o.turn.Lock()
	defer o.turn.Unlock()
	o.finished = append(o.finished, operationEnd{key, ok})
}

func (o *recorder) OnExchange(x broker.Exchange) {
	o.turn.Lock()
	defer o.turn.Unlock()
	o.exchanges = append(o.exchanges, x)
}

func (o *recorder) OnFailure(f broker.Failure) {
	o.turn.Lock()
	defer o.turn.Unlock()
	o.failures = append(o.failures, f)
}

func (o *recorder) last() broker.Exchange {
	o.turn.Lock()
	defer o.turn.Unlock()
	return o.exchanges[len(o.exchanges)-1]
}

const (
	now, later, bindLater = "c1", "c2", "c3"
	instances             = "/v2/service_instances/"
)

// names are the query of a deletion.
func names(plan string) string {
	return fmt.Sprintf("?service_id=%v&plan_id=%v", id("a0"), id(plan))
}

// bodyOf is the body of a Provision, with these members besides.
func bodyOf(plan, further string) string {
	return fmt.Sprintf(`{"service_id":"%v","plan_id":"%v","organization_guid":"o","space_guid":"s"%s}`,
		id("a0"), id(plan), further)
}

// ask sends a request, which may be changed first, and returns the answer with its body.
func (s *testBroker) ask(method, target, body string, change ...func(*http.Request)) (*http.Response, string) {
	r := httptest.NewRequest(method, target, strings.NewReader(body))
	r.SetBasicAuth("u", "p")
	r.Header.Set("X-Broker-API-Version", "2.17")
	number := s.sent.Add(1)
	for name, values := range signedBy(fmt.Sprintf("user %d", number), fmt.Sprintf("request-%d", number)) {
		r.Header[name] = values
	}
	for _, alter := range change {
		alter(r)
	}
	s.expected.add(message{method: method, target: target, body: []byte(body), header: r.Header})
	given := httptest.NewRecorder()
	s.ServeHTTP(given, r)
	if got := given.Header().Values(broker.StoreHeader); len(got) != 1 || got[0] != storeID {
		panic(fmt.Sprintf("%s %s: the answer %d names the stores %q, want %q", method, target, given.Code, got, storeID))
	}
	return given.Result(), given.Body.String()
}

// storeID is the store that every answer of a testBroker names.
const storeID = "8d5f7a3e-0000-4000-8000-000000000001"

// expect asks, and checks the status. It returns the body.
func (s *testBroker) expect(t *testing.T, status int, method, target, body string, change ...func(*http.Request)) string {
	t.Helper()
	given, text := s.ask(method, target, body, change...)
	if given.StatusCode != status {
		t.Fatalf("%s %s: got %d %s, want %d", method, target, given.StatusCode, text, status)
	}
	var object map[string]any
	if err := json.Unmarshal([]byte(text), &object); err != nil {
		t.Fatalf("%s %s: got the body %q (%v), want an object", method, target, text, err)
	}
	return text
}

// until asks again until the body has this text.
func (s *testBroker) until(t *testing.T, text, method, target string) string {
	t.Helper()
	for end := time.Now().Add(time.Minute); ; time.Sleep(2 * time.Millisecond) {
		_, body := s.ask(method, target, "")
		if strings.Contains(body, text) {
			return body
		}
		if time.Now().After(end) {
			t.Fatalf("%s %s: got %s, want %s", method, target, body, text)
		}
	}
}

// untilGone asks for the last operation until it is gone.
func (s *testBroker) untilGone(t *testing.T, target string) {
	t.Helper()
	for end := time.Now().Add(time.Minute); ; time.Sleep(time.Millisecond) {
		given, body := s.ask("GET", target+"/last_operation", "")
		if given.StatusCode == 410 {
			return
		}
		if time.Now().After(end) {
			t.Fatalf("%s: got %d %s after the time for it, want it gone", target, given.StatusCode, body)
		}
	}
}

func header(name, value string) func(*http.Request) {
	return func(r *http.Request) { r.Header.Set(name, value) }
}
