package main

import (
	"context"
	"fmt"
	"net/http"
	"net/http/httptest"
	"os"
	"path/filepath"
	"sync"
	"testing"
	"time"

	"pippinterm/broker"
	"pippinterm/broker/backend/folders"
	"pippinterm/broker/sqlite"
	"pippinterm/internal/diff"
	"pippinterm/internal/waits"
	"pippinterm/osb"
)

// A testBroker sells folders, over HTTP, in this process.
type testBroker struct {
	url string

	mutex   sync.Mutex
	instead []int         // statuses with which the next requests are answered, in place of the broker's answers
	held    chan struct{} // if it isn't nil, answers about instances and bindings wait until it is closed
	asked   int           // requests about instances and bindings
	seen    []string      // their methods and targets
	// password is the one that is accepted, and refused is how many requests about instances and bindings came with
	// another.
	password string
	refused  int
}

// newTestBroker starts a broker with the standard catalogue of osb-broker.
func newTestBroker(t *testing.T) *testBroker {
	t.Helper()
	return newTestBrokerFor(t, broker.Silent{})
}

// newTestBrokerFor is newTestBroker of a broker whose requests an observer sees.
func newTestBrokerFor(t *testing.T, observer broker.Observer) *testBroker {
	t.Helper()
	document := diff.Value(os.ReadFile("../osb-broker/catalogue.json"))(t)
	folder, ctx := t.TempDir(), context.Background()
	backend := diff.Value(folders.New(filepath.Join(folder, "instances")))(t)
	catalogue := diff.Value(broker.NewCatalogue(document, broker.AbilitiesOf(backend)))(t)
	store := diff.Value(sqlite.Open(ctx, filepath.Join(folder, "holdings"), broker.Silent{}))(t)
	locks := diff.Value(broker.NewFileLocks(filepath.Join(folder, "locks")))(t)
	service := broker.NewService(catalogue, store, backend, locks, broker.ServiceOptions{
		FirstPoll: true, WaitForPoll: time.Minute,
	}, broker.Silent{})
	sweeper := broker.NewSweeper(service, broker.Silent{})
	users := diff.Value(broker.NewUsers(map[string][]string{"platform": {"secret"}}))(t)
	handler := diff.Value(broker.NewHandler(ctx, service, broker.HandlerOptions{
		Users: users, LongestBody: 1 << 20, AtOnce: 8, Touch: sweeper.Touch, Observer: observer,
	}))(t)
	stop, cancel := context.WithCancel(ctx)
	swept := make(chan struct{})
	go func() {
		defer close(swept)
		sweeper.Run(ctx, stop, 2, 20*time.Millisecond)
	}()
	s := &testBroker{password: "secret"}
	server := httptest.NewServer(s.before(handler))
	s.url = server.URL
	t.Cleanup(func() {
		server.Close()
		cancel()
		<-swept
		_ = store.Close()
	})
	return s
}

// answer has the next requests about instances and bindings answered with these statuses, and not by the broker. A 422
// has the error ConcurrencyError.
func (s *testBroker) answer(statuses ...int) {
	s.mutex.Lock()
	defer s.mutex.Unlock()
	s.instead = statuses
}

// hold has answers wait, until the function that it returns is called.
func (s *testBroker) hold() (release func()) {
	held := make(chan struct{})
	s.mutex.Lock()
	defer s.mutex.Unlock()
	s.held = held
	return func() {
		s.mutex.Lock()
		defer s.mutex.Unlock()
		if s.held == held {
			s.held = nil
			close(held)
		}
	}
}

// setPassword has another password accepted, and the one before refused.
func (s *testBroker) setPassword(password string) {
	s.mutex.Lock()
	defer s.mutex.Unlock()
	s.password = password
}

// refusals returns how many requests about instances and bindings came with a wrong password.
func (s *testBroker) refusals() int {
	s.mutex.Lock()
	defer s.mutex.Unlock()
	return s.refused
}

// admit reports whether a request has the password. It gives the broker the one that it knows.
func (s *testBroker) admit(r *http.Request) bool {
	user, password, _ := r.BasicAuth()
	s.mutex.Lock()
	defer s.mutex.Unlock()
	if password != s.password {
		return false
	}
	r.SetBasicAuth(user, "secret")
	return true
}

// requests is how many requests there were about instances and bindings.
func (s *testBroker) requests() int {
	s.mutex.Lock()
	defer s.mutex.Unlock()
	return s.asked
}

// since returns the methods and the targets of all requests about instances and bindings but the first.
func (s *testBroker) since(first int) []string {
	s.mutex.Lock()
	defer s.mutex.Unlock()
	return append([]string(nil), s.seen[first:]...)
}

// await waits for so many requests about instances and bindings.
func (s *testBroker) await(t *testing.T, count int) {
	t.Helper()
	waits.Until(t, fmt.Sprint(count, " requests were sent"), func() bool { return s.requests() >= count })
}

// before counts requests, answers some of them, and holds answers.
func (s *testBroker) before(next http.Handler) http.Handler {
	return http.HandlerFunc(func(w http.ResponseWriter, r *http.Request) {
		isAdmitted := s.admit(r)
		if !isAdmitted {
			r.SetBasicAuth("platform", "wrong")
		}
		if r.URL.Path == "/v2/catalog" {
			next.ServeHTTP(w, r)
			return
		}
		s.mutex.Lock()
		s.asked++
		s.seen = append(s.seen, r.Method+" "+r.URL.RequestURI())
		if !isAdmitted {
			s.refused++
		}
		held, status := s.held, 0
		if len(s.instead) > 0 {
			status, s.instead = s.instead[0], s.instead[1:]
		}
		s.mutex.Unlock()
		if held != nil {
			<-held
		}
		if status == 0 {
			next.ServeHTTP(w, r)
			return
		}
		w.Header().Set("Content-Type", "application/json")
		w.Header().Set(osb.RequestIdentityHeader, r.Header.Get(osb.RequestIdentityHeader))
		w.WriteHeader(status)
		if status == http.StatusUnprocessableEntity {
			_, _ = w.Write([]byte(`{"error": "ConcurrencyError", "description": "busy"}`))
			return
		}
		_, _ = w.Write([]byte(`{"error": "Odd", "description": "no \u001b[2J place"}`))
	})
}
