package broker_test

import (
	"bytes"
	"context"
	"encoding/base64"
	"encoding/json"
	"errors"
	"fmt"
	"io"
	"math/rand"
	"net/http"
	"net/http/httptest"
	"strings"
	"testing"
	"testing/iotest"
	"time"

	"pippinterm/broker"
	"pippinterm/internal/diff"
	"pippinterm/osb"
)

func TestRefusals(t *testing.T) {
	s := newTestBroker(t, setting{})
	twice := func(r *http.Request) { r.Header.Add("Authorization", r.Header.Get("Authorization")) }
	for _, test := range []struct {
		name, method, target, body string
		change                     func(*http.Request)
		status                     int
	}{
		{"nobody", "GET", "/v2/catalog", "", func(r *http.Request) { r.Header.Del("Authorization") }, 401},
		{"somebody else", "GET", "/v2/catalog", "", func(r *http.Request) { r.SetBasicAuth("u", "q") }, 401},
		{"two logins", "GET", "/v2/catalog", "", twice, 401},
		{"no version", "GET", "/v2/catalog", "", func(r *http.Request) { r.Header.Del("X-Broker-API-Version") }, 412},
		{"another version", "GET", "/v2/catalog", "", header("X-Broker-API-Version", "3.0"), 412},
		{"an older 2.x", "GET", "/v2/catalog", "", header("X-Broker-API-Version", "2.11"), 200},
		{"no such target", "GET", "/v3", "", nil, 404},
		{"for this store", "GET", "/v3", "", header(broker.StoreHeader, storeID), 404},
		{"for another store", "PUT", instances + "i", bodyOf(now, ""), header(broker.StoreHeader, "another"), 421},
		{"for two stores", "PUT", instances + "i", bodyOf(now, ""), func(r *http.Request) {
			r.Header[broker.StoreHeader] = []string{storeID, "another"}
		}, 421},
		{"a poll for another store", "GET", instances + "i/last_operation", "", header(broker.StoreHeader, ""), 421},
		{"the catalogue for another store", "GET", "/v2/catalog", "", header(broker.StoreHeader, "another"), 200},
		{"another method", "POST", instances + "i", "", nil, 405},
		{"another method of a binding", "POST", instances + "i/service_bindings/b", "", nil, 405},
		{"too long", "PUT", instances + "i", bodyOf(now, strings.Repeat(" ", 1000)), nil, 413},
		{"no JSON", "PUT", instances + "i", "{", nil, 400},
		{"no service", "PUT", instances + "i", `{"plan_id":"p","organization_guid":"o","space_guid":"s"}`, nil, 400},
		{"an unknown plan", "PUT", instances + "i", bodyOf("ff", ""), nil, 400},
		{"async wanted", "PUT", instances + "i", bodyOf(later, ""), nil, 422},
		{"a predecessor", "PUT", instances + "i/service_bindings/b", bodyOf(now, `,"predecessor_binding_id":"a"`), nil,
			400},
	} {
		t.Run(test.name, func(t *testing.T) {
			if test.change == nil {
				test.change = func(*http.Request) {}
			}
			s.expect(t, test.status, test.method, test.target, test.body, test.change)
		})
	}
	if len(s.shelf.things) > 0 {
		t.Errorf("got %v created, want nothing", s.shelf.things)
	}
}

// An instance may have the name of a part of a path.
func TestOddNames(t *testing.T) {
	s := newTestBroker(t, setting{})
	for _, name := range []string{"service_bindings", "last_operation", "a%2Fservice_bindings%2Fb", "%20"} {
		t.Run(name, func(t *testing.T) {
			s.expect(t, 201, "PUT", instances+name, bodyOf(now, ""))
			s.expect(t, 200, "GET", instances+name+"/last_operation", "")
			s.expect(t, 201, "PUT", instances+name+"/service_bindings/"+name, bodyOf(now, ""))
			s.expect(t, 200, "DELETE", instances+name+"/service_bindings/"+name+names(now), "")
			s.expect(t, 200, "DELETE", instances+name+names(now), "")
		})
	}
}

// The header Allow has the methods of a path, also if an instance has the name of a part of a path.
func TestAllow(t *testing.T) {
	s := newTestBroker(t, setting{})
	for path, want := range map[string]string{
		"i":                                     "GET, PATCH, PUT, DELETE",
		"service_bindings":                      "GET, PATCH, PUT, DELETE",
		"last_operation":                        "GET, PATCH, PUT, DELETE",
		"i/last_operation":                      "GET",
		"last_operation/last_operation":         "GET",
		"i/service_bindings/b":                  "GET, PUT, DELETE",
		"i/service_bindings/b?a=/service":       "GET, PUT, DELETE",
		"i/service_bindings/b/last_operation":   "GET",
		"service_bindings/service_bindings/b":   "GET, PUT, DELETE",
		"i/service_bindings/last_operation":     "GET, PUT, DELETE",
		"i/service_bindings/b/last_operation?a": "GET",
	} {
		t.Run(path, func(t *testing.T) {
			given, body := s.ask("POST", instances+path, "")
			if got := given.Header.Get("Allow"); given.StatusCode != 405 || got != want {
				t.Errorf("got %d, Allow %q: %s; want 405, %q", given.StatusCode, got, body, want)
			}
		})
	}
}

// A body that ends too early is answered with 408, and one that nobody may send isn't read.
func TestBodies(t *testing.T) {
	s := newTestBroker(t, setting{})
	cut := func(r *http.Request) { r.Body, r.ContentLength = io.NopCloser(iotest.ErrReader(errors.New("cut"))), 10 }
	given, _ := s.ask("PUT", instances+"i", "", cut)
	if given.StatusCode != 408 || given.Header.Get("Connection") != "close" {
		t.Errorf("got %d and the header %v, want 408 and Connection: close", given.StatusCode, given.Header)
	}
	unread := func(r *http.Request) {
		r.Body, r.ContentLength = io.NopCloser(iotest.ErrReader(errors.New("it was read"))), 10
		r.SetBasicAuth("u", "q")
	}
	if given, _ := s.ask("PUT", instances+"i", "", unread); given.StatusCode != 401 {
		t.Errorf("a body of nobody: got %d, want 401", given.StatusCode)
	}
}

// The life of an instance and a binding, at once and later.
func TestLives(t *testing.T) {
	for plan, isLater := range map[string]bool{now: false, later: true, bindLater: true} {
		t.Run(plan, func(t *testing.T) {
			s := newTestBroker(t, setting{})
			one, query := instances+"my-instance", "?accepts_incomplete=true"
			given, _ := s.ask("PUT", one+query, bodyOf(plan, `,"parameters":{"size":1}`))
			if given.StatusCode == 202 {
				s.until(t, "succeeded", "GET", one+"/last_operation")
			} else if given.StatusCode != 201 {
				t.Fatalf("got %s, want 201", given.Status)
			}
			s.expect(t, 200, "PUT", one+query, bodyOf(plan, `,"parameters":{"size":1}`))
			s.expect(t, 409, "PUT", one+query, bodyOf(plan, `,"parameters":{"size":2}`))

			bound := one + "/service_bindings/b"
			s.expect(t, 404, "GET", bound, "")
			given, first := s.ask("PUT", bound+query, bodyOf(plan, ""))
			if isLater {
				s.until(t, "succeeded", "GET", bound+"/last_operation")
				first = s.expect(t, 200, "GET", bound, "")
			} else if given.StatusCode != 201 {
				t.Fatalf("got %s, want 201", given.Status)
			}
			diff.Contains(t, first, `"credentials":"token 1"`, "")
			diff.Equal(t, s.expect(t, 200, "PUT", bound+query, bodyOf(plan, "")), first, "")
			s.expect(t, 409, "PUT", bound+query, bodyOf(plan, `,"parameters":{"a":1}`))
			s.expect(t, 409, "PUT", bound+query, bodyOf(plan, `,"bind_resource":{"app_guid":"a"}`))
			body := s.expect(t, 422, "DELETE", one+names(plan)+"&accepts_incomplete=true", "")
			if !strings.Contains(body, "ConcurrencyError") || !strings.Contains(body, "has bindings") {
				t.Errorf("got the body %s, want a ConcurrencyError that says that it has bindings", body)
			}
			s.ask("DELETE", bound+names(plan)+"&accepts_incomplete=true", "")
			s.until(t, "{", "GET", bound+"/last_operation")
			s.untilGone(t, bound)
			s.expect(t, 409, "PUT", bound+query, bodyOf(plan, ""))
			s.ask("DELETE", one+names(plan)+"&accepts_incomplete=true", "")
			s.untilGone(t, one)
			if len(s.shelf.things) > 0 {
				t.Errorf("left: got %v, want none", s.shelf.things)
			}
		})
	}
}

// A blockedBackend creates nothing until it is released.
type blockedBackend struct {
	*shelf
	begun   chan broker.Request
	release chan struct{}
}

func (w blockedBackend) Create(ctx context.Context, request broker.Request) error {
	w.begun <- request
	<-w.release
	return w.shelf.Create(ctx, request)
}

// While work is pending, other requests of the instance are answered at once. The backend gets the whole request.
func TestPending(t *testing.T) {
	one := blockedBackend{begun: make(chan broker.Request, 1), release: make(chan struct{})}
	s := newTestBroker(t, setting{atOnce: 9, over: func(s *shelf) broker.Backend { one.shelf = s; return one }})
	identity := "cloudfoundry " + base64.StdEncoding.EncodeToString([]byte(`{"user_id":"me"}`))
	made := make(chan int)
	go func() {
		given, _ := s.ask("PUT", instances+"i", bodyOf(now, `,"parameters":{"a":1.0}`),
			header("X-Broker-API-Originating-Identity", identity), header("X-Broker-API-Request-Identity", "r-1"))
		made <- given.StatusCode
	}()
	got := <-one.begun
	if got.InstanceID != "i" || string(got.Member("parameters")) != `{"a":1.0}` || got.RequestID != "r-1" ||
		got.Identity == nil || got.Identity.Platform != "cloudfoundry" || string(got.Identity.Object) != `{"user_id":"me"}` {
		t.Errorf("the backend got the request %+v, want that of the user me", got)
	}
	s.expect(t, 503, "PUT", instances+"i", bodyOf(now, `,"parameters":{"a":1.0}`))
	s.expect(t, 422, "DELETE", instances+"i"+names(now), "")
	diff.Contains(t, s.expect(t, 200, "GET", instances+"i/last_operation", ""), "in progress", "")
	s.expect(t, 503, "PUT", instances+"i/service_bindings/b", bodyOf(now, ""))
	close(one.release)
	diff.Equal(t, <-made, 201, "")
	s.Stop()
	s.expect(t, 503, "GET", "/v2/catalog", "")
}

// As many requests are carried out at once as may be: others wait.
func TestAtOnce(t *testing.T) {
	one := blockedBackend{begun: make(chan broker.Request, 1), release: make(chan struct{})}
	s := newTestBroker(t, setting{atOnce: 0, over: func(s *shelf) broker.Backend { one.shelf = s; return one }})
	made := make(chan int, 2)
	create := func(of string) {
		given, _ := s.ask("PUT", instances+of, bodyOf(now, ""))
		made <- given.StatusCode
	}
	go create("i")
	<-one.begun
	go create("j")
	select {
	case <-one.begun:
		t.Error("got a second call at once, want one after the other")
	case <-time.After(50 * time.Millisecond):
	}
	close(one.release)
	if one, other := <-made, <-made; one != 201 || other != 201 {
		t.Errorf("got %d and %d, want 201 twice", one, other)
	}
}

// Wait returns once what is carried out has ended, or its time is over.
func TestWait(t *testing.T) {
	one := blockedBackend{begun: make(chan broker.Request, 1), release: make(chan struct{})}
	s := newTestBroker(t, setting{atOnce: 3, over: func(s *shelf) broker.Backend { one.shelf = s; return one }})
	made := make(chan int, 1)
	go func() {
		given, _ := s.ask("PUT", instances+"i", bodyOf(now, ""))
		made <- given.StatusCode
	}()
	<-one.begun
	s.Stop()
	go func() {
		time.Sleep(50 * time.Millisecond)
		close(one.release)
	}()
	if !s.Wait(time.Minute) {
		t.Error("got no end in a minute, want one")
	}
	select {
	case <-one.release:
	default:
		t.Error("got an end of Wait before that of the call, want it to wait")
	}
	diff.Equal(t, <-made, 201, "")
	if s.Wait(time.Millisecond) {
		t.Error("got nothing left of a call that runs, want something")
	}
}

// refusingBackend is a backend that refuses and fails.
type refusingBackend struct {
	*shelf
	failure error
}

func (r refusingBackend) Create(context.Context, broker.Request) error { return r.failure }

func TestFailures(t *testing.T) {
	for _, test := range []struct {
		name    string
		failure error
		status  int
		want    []string
		absent  string
	}{
		{"rejected", &broker.Rejection{Status: 400, Description: "no such size"}, 400, []string{"no such size"}, ""},
		{"a code", &broker.Rejection{Status: 422, Code: "Quota", Description: "all used"}, 422,
			[]string{`"error":"Quota"`, "all used"}, ""},
		{"the standard's code", &broker.Rejection{Status: 422, Code: "ConcurrencyError", Description: "x"}, 422, nil,
			"ConcurrencyError"},
		{"public", broker.Public(errors.New("secret"), "the disk is full"), 500, []string{"the disk is full"},
			"secret"},
		{"any other", errors.New("secret"), 500, nil, "secret"},
		{"a panic", nil, 500, nil, "boom"},
	} {
		t.Run(test.name, func(t *testing.T) {
			s := newTestBroker(t, setting{over: func(s *shelf) broker.Backend {
				if test.failure == nil {
					return panickingBackend{s}
				}
				return refusingBackend{s, test.failure}
			}})
			body := s.expect(t, test.status, "PUT", instances+"i", bodyOf(now, ""))
			for _, text := range test.want {
				diff.Contains(t, body, text, "")
			}
			if test.absent != "" && strings.Contains(body, test.absent) {
				t.Errorf("got the body %s, want no %s in it", body, test.absent)
			}
			if s.observed.failures == nil {
				t.Error("got no failure reported, want one")
			}
			given, body := s.ask("PUT", instances+"j?accepts_incomplete=true", bodyOf(later, ""))
			if given.StatusCode != 202 {
				t.Fatalf("got %s %s, want 202", given.Status, body)
			}
			body = s.until(t, "failed", "GET", instances+"j/last_operation")
			if test.name != "any other" && test.name != "a panic" && !strings.Contains(body, "description") {
				t.Errorf("got the body %s, want a description in it", body)
			}
		})
	}
}

type panickingBackend struct{ *shelf }

func (panickingBackend) Create(context.Context, broker.Request) error { panic("boom") }

// The creation of a later plan waits for its first Poll, if that is the rule, and fails after a while without one.
func TestFirstPoll(t *testing.T) {
	s := newTestBroker(t, setting{options: broker.ServiceOptions{FirstPoll: true, WaitForPoll: time.Hour}})
	s.expect(t, 202, "PUT", instances+"i?accepts_incomplete=true", bodyOf(later, ""))
	stats, err := s.store.Stats(context.Background())
	if err != nil || stats.Waiting != 1 || s.shelf.there(keyOf("i")) != broker.None {
		t.Errorf("got %+v and the error %v, want one that waits and nothing created", stats, err)
	}
	s.until(t, "succeeded", "GET", instances+"i/last_operation")

	s = newTestBroker(t, setting{options: broker.ServiceOptions{FirstPoll: true}})
	s.expect(t, 202, "PUT", instances+"i?accepts_incomplete=true", bodyOf(later, ""))
	for end := time.Now().Add(time.Minute); ; time.Sleep(time.Millisecond) {
		snapshot, err := s.store.Read(context.Background(), keyOf("i"))
		if row, _ := snapshot.Holding.Row(); err != nil || row.Phase == osb.PhaseFailed {
			break
		}
		if time.Now().After(end) {
			t.Fatal("got no end of the operation in time, want one")
		}
	}
	body := s.expect(t, 200, "GET", instances+"i/last_operation", "")
	const says = "No Poll of the last operation has arrived in time, so the creation has timed out."
	if !strings.Contains(body, "failed") || !strings.Contains(body, says) {
		t.Errorf("got the body %s, want failed and %q in it", body, says)
	}
	body = s.expect(t, 500, "PUT", instances+"i?accepts_incomplete=true", bodyOf(later, ""))
	if description, _ := descriptionIn(t, body); !strings.HasPrefix(description, says) {
		t.Errorf("the Provision: got the body %s, want a description that begins with %q", body, says)
	}
	s.observed.turn.Lock()
	defer s.observed.turn.Unlock()
	if found := s.observed.failures; len(found) != 1 || found[0].Event != "creation_timed_out" ||
		found[0].Key != keyOf("i") || !strings.HasPrefix(found[0].RequestID, "request-") || found[0].Err == nil {
		t.Errorf("the reports: got %+v, want one of creation_timed_out", found)
	}
}

func keyOf(text string) broker.Key {
	number, err := osb.IDOfText(text)
	must(err)
	return osb.InstanceKey(number)
}

// After the deletion of an instance was put off, its bindings whose creation has failed are deleted, so that it can be
// deleted later. A binding that exists stays.
func TestFailedBindings(t *testing.T) {
	s := newTestBroker(t, setting{over: func(s *shelf) broker.Backend { return unbindable{s} }})
	one := instances + "i"
	s.expect(t, 201, "PUT", one, bodyOf(bindLater, ""))
	s.expect(t, 202, "PUT", one+"/service_bindings/b?accepts_incomplete=true", bodyOf(bindLater, ""))
	s.until(t, "failed", "GET", one+"/service_bindings/b/last_operation")
	s.expected.beginsItself(osb.BindingKey(keyOf("i").Instance, keyOf("b").Instance))
	s.expect(t, 422, "DELETE", one+names(bindLater), "")
	for end := time.Now().Add(time.Minute); ; time.Sleep(time.Millisecond) {
		if given, _ := s.ask("DELETE", one+names(bindLater), ""); given.StatusCode == 200 {
			break
		}
		if time.Now().After(end) {
			t.Fatal("got an instance that can't be deleted in time, want it deleted")
		}
	}
}

type unbindable struct{ *shelf }

func (unbindable) CreateBinding(context.Context, broker.Request) (json.RawMessage, error) {
	return nil, errors.New("no")
}

// Credentials that can't be sent are of no use: the Bind fails, the binding is deleted, and nothing stays pending.
func TestUselessCredentials(t *testing.T) {
	s := newTestBroker(t, setting{over: func(s *shelf) broker.Backend { return unsendable{s} }})
	s.expect(t, 201, "PUT", instances+"i", bodyOf(now, ""))
	s.expect(t, 500, "PUT", instances+"i/service_bindings/b", bodyOf(now, ""))
	s.expect(t, 200, "DELETE", instances+"i"+names(now), "")
	if len(s.shelf.things) > 0 {
		t.Errorf("left: got %v, want none", s.shelf.things)
	}
}

type unsendable struct{ *shelf }

func (u unsendable) CreateBinding(ctx context.Context, r broker.Request) (json.RawMessage, error) {
	_, err := u.shelf.CreateBinding(ctx, r)
	return json.RawMessage("\xff"), err
}

func (unsendable) Credentials(context.Context, broker.Request) (json.RawMessage, error) {
	return json.RawMessage("\xff"), nil
}

// A Fetch of a binding is answered 404 if the catalogue says that bindings can't be retrieved.
func TestFetchOfWhatIsNotRetrievable(t *testing.T) {
	const document = `{"services": [{"id": "00000000-0000-0000-0000-0000000000a0", "name": "shelf", "description": "d",
		"bindable": true, "bindings_retrievable": IS, "plans": [
		{"id": "00000000-0000-0000-0000-0000000000c1", "name": "now", "description": "d"}]}]}`
	for retrievable, want := range map[string]int{"true": 200, "false": 404} {
		t.Run("bindings_retrievable "+retrievable, func(t *testing.T) {
			b := newBench(t, newShelf(calm), newMemoryLocks())
			document := strings.Replace(document, "IS", retrievable, 1)
			service := broker.NewService(
				catalogueFor(t, document), b.store, newShelf(calm), newMemoryLocks(), broker.ServiceOptions{}, b.observed)
			l := &loneBroker{handler: handlerFor(t, service)}
			l.expect(t, 201, "PUT", instances+"i", bodyOf(now, ""))
			l.expect(t, 201, "PUT", instances+"i/service_bindings/b", bodyOf(now, ""))
			given := l.ask("GET", instances+"i/service_bindings/b", "")
			if has := bytes.Contains(given.body, []byte("credentials")); given.status != want || has != (want == 200) {
				t.Errorf("bindings_retrievable %s: got %d %s, want %d", retrievable, given.status, given.body, want)
			}
		})
	}
}

// A platform that goes away while its request is carried out cancels nothing.
func TestPlatformThatGoesAway(t *testing.T) {
	l := newLoneBroker(t)
	gone, cancel := context.WithCancel(context.Background())
	cancel()
	given := message{method: "PUT", target: instances + "i", body: []byte(bodyOf(now, ""))}.serve(
		http.HandlerFunc(func(w http.ResponseWriter, r *http.Request) { l.handler.ServeHTTP(w, r.WithContext(gone)) }))
	diff.Equal(t, given.status, 201, "%s", given.body)
}

// Each of two passwords of a user is valid, and so is another user's.
func TestUsers(t *testing.T) {
	s := newTestBroker(t, setting{users: map[string][]string{"u": {"p", "new"}, "v": {"w"}}})
	for _, test := range []struct {
		user, password string
		status         int
	}{{"u", "p", 200}, {"u", "new", 200}, {"v", "w", 200}, {"v", "p", 401}, {"u", "", 401}} {
		t.Run(test.user+" "+test.password, func(t *testing.T) {
			login := func(r *http.Request) { r.SetBasicAuth(test.user, test.password) }
			s.expect(t, test.status, "GET", "/v2/catalog", "", login)
			if test.status == 200 && s.observed.last().User != test.user {
				t.Errorf("the user in the log: got %q, want %q", s.observed.last().User, test.user)
			}
		})
	}
	for _, wrong := range []map[string][]string{
		nil, {"u": nil}, {"u": {""}}, {"": {"p"}}, {"a:b": {"p"}}, {"u": {"\xff"}},
	} {
		t.Run(fmt.Sprintf("%q", wrong), func(t *testing.T) {
			if _, err := broker.NewUsers(wrong); err == nil || strings.Contains(err.Error(), "\xff") {
				t.Errorf("%q: got the error %v, want one without the password", wrong, err)
			}
		})
	}
	s.Users = &broker.Users{}
	s.expect(t, 401, "GET", "/v2/catalog", "")
}

// What a log gets of a request.
func TestObserved(t *testing.T) {
	s := newTestBroker(t, setting{})
	s.expect(t, 201, "PUT", instances+"i?x=1", bodyOf(now, ""), header("X-Broker-API-Request-Identity", "r-2"),
		header("Traceparent", "00-1"), header("X-Vcap-Request-Id", "v-1"))
	got := s.observed.last()
	got.Duration = 0
	want := broker.Exchange{
		RequestID: "r-2", Key: keyOf("i"), IsNamed: true, Route: "provision", Method: "PUT",
		Target: instances + "i?x=1", Status: 201, User: "u", Identity: "cloudfoundry",
		Address: "192.0.2.1", Traceparent: "00-1", VcapRequest: "v-1",
	}
	diff.Check(t, got, want, "the exchange")
	s.expect(t, 503, "PUT", instances+"j/service_bindings/b", bodyOf(now, ""))
	if reason := s.observed.last().Reason; reason == "" {
		t.Error("a Bind that was put off: got no reason in the log, want one")
	}
	s.expect(t, 400, "PUT", instances+"i", bodyOf("ff", "")[1:])
	diff.Contains(t, s.observed.last().Reason, "isn't JSON", "the reason")
	s.expect(t, 200, "GET", "/v2/catalog", "", header("Traceparent", strings.Repeat("0", 300)))
	if got := s.observed.last().Traceparent; len(got) != 200 {
		t.Errorf("got %d bytes of a long header, want 200", len(got))
	}
	given, _ := s.ask("GET", "/v2/catalog", "", header("X-Broker-API-Request-Identity", "a\nb"))
	if made := given.Header.Get("X-Broker-API-Request-Identity"); made == "" || made == "a\nb" {
		t.Errorf("the id: got %q, want another than none or that of the request", made)
	}
}

// A request that is rejected has its route in the log, if its target and its method exist.
func TestRoutesOfRejectedRequests(t *testing.T) {
	s := newTestBroker(t, setting{})
	long := strings.Repeat("a", 300)
	for _, test := range []struct{ method, target, body, route string }{
		{"PUT", "i", "{", "provision"},
		{"DELETE", "i", "", "deprovision"},
		{"GET", "i/last_operation?plan_id=", "", "poll"},
		{"GET", "i", "", "fetch"},
		{"PATCH", "i", "{", "update"},
		{"POST", "i", "", "other"},
		{"PUT", "i/b", "{}", "other"},
		{"PUT", "service_bindings", "{", "provision"},
		{"PUT", "i/service_bindings/b", "{", "bind"},
		{"PUT", "i/service_bindings/b", bodyOf(now, `,"predecessor_binding_id":"a"`), "bind"},
		{"DELETE", "i/service_bindings/b?service_id=" + long, "", "unbind"},
		{"GET", "i/service_bindings/b/last_operation?plan_id=", "", "poll-binding"},
		{"GET", "i/service_bindings/" + long, "", "fetch-binding"},
		{"GET", long + "/service_bindings/last_operation", "", "fetch-binding"},
		{"POST", "i/service_bindings/b", "", "other"},
	} {
		t.Run(test.method+" "+test.target, func(t *testing.T) {
			given, body := s.ask(test.method, instances+test.target, test.body)
			if given.StatusCode < 400 || given.StatusCode > 413 {
				t.Errorf("%s %s: got %d %s, want a status from 400 to 413", test.method, test.target, given.StatusCode, body)
			}
			if got := s.observed.last().Route; got != test.route {
				t.Errorf("%s %s: got the route %q in the log, want %q", test.method, test.target, got, test.route)
			}
		})
	}
}

// Ten thousand hostile requests: each is answered with a 4xx, and nothing is changed.
func TestHostile(t *testing.T) {
	s := newTestBroker(t, setting{})
	chance := rand.New(rand.NewSource(1))
	pick := func(of []string) string {
		text := []byte(of[chance.Intn(len(of))])
		for flips := chance.Intn(3); flips > 0 && len(text) > 0; flips-- {
			text[chance.Intn(len(text))] = byte(chance.Intn(256))
		}
		return string(text)
	}
	targets := []string{"i", "i%2f..", "%00", strings.Repeat("a", 300), "i/last_operation", "../catalog", "",
		"i/service_bindings/", "i/service_bindings/b/c", "i/service_bindings/%ff",
		"i/service_bindings/b/last_operation"}
	methods := []string{"GET", "PUT", "DELETE", "PATCH", "POST", "TRACE", "OPTIONS", "HEAD", "BREW", "put"}
	bodies := []string{"", "{}", "[]", `{"service_id":`, `{"service_id":1}`, "\xff", "null", strings.Repeat("[", 900),
		`{"service_id":"s","plan_id":"p","organization_guid":"","space_guid":"s"}`, bodyOf("ff", "")}
	for n := 0; n < 10_000; n++ {
		s.hostile(t, methods[chance.Intn(len(methods))], pick(targets), pick(bodies))
	}
	stats, err := s.store.Stats(context.Background())
	if err != nil || stats != (broker.Stats{}) || len(s.shelf.things) > 0 {
		t.Errorf("got %+v, the error %v and %v, want nothing", stats, err, s.shelf.things)
	}
}

func (s *testBroker) hostile(t *testing.T, method, target, body string) {
	t.Helper()
	r := httptest.NewRequest("GET", "/", bytes.NewReader([]byte(body)))
	r.Method, r.RequestURI = method, instances+target
	r.SetBasicAuth("u", "p")
	r.Header.Set("X-Broker-API-Version", "2.17")
	given := httptest.NewRecorder()
	s.ServeHTTP(given, r)
	if given.Code < 400 || given.Code > 499 {
		t.Errorf("%s %q %q: got %d, want a status from 400 to 499", method, target, body, given.Code)
	}
}

// A handler that lacks something, or has limits of 0, is rejected.
func TestConfigsThatAreRejected(t *testing.T) {
	service := newBench(t, newShelf(calm), newMemoryLocks()).Service
	full := broker.HandlerOptions{
		Users: &broker.Users{}, LongestBody: 1, AtOnce: 1, Touch: func(broker.Key) {}, Observer: broker.Silent{},
	}
	for name, change := range map[string]func(*broker.HandlerOptions){
		"":               func(*broker.HandlerOptions) {},
		"no users":       func(c *broker.HandlerOptions) { c.Users = nil },
		"no Touch":       func(c *broker.HandlerOptions) { c.Touch = nil },
		"no Observer":    func(c *broker.HandlerOptions) { c.Observer = nil },
		"LongestBody: 0": func(c *broker.HandlerOptions) { c.LongestBody = 0 },
		"AtOnce: 0":      func(c *broker.HandlerOptions) { c.AtOnce = 0 },
	} {
		t.Run(name, func(t *testing.T) {
			options := full
			change(&options)
			if _, err := broker.NewHandler(context.Background(), service, options); (err == nil) != (name == "") {
				t.Errorf("got %v, want an error only with a name", err)
			}
		})
	}
}

// Documents that aren't a catalogue are rejected.
func TestCataloguesThatAreRejected(t *testing.T) {
	for _, target := range []string{
		"", "[]", `{"services": 1}`, strings.Replace(catalogue, `"x-osb-asynchronous": true`, `"x-osb-asynchronous": 1`, 1),
		strings.Replace(catalogue, `"description": "all later"`, `"description": "d", "maintenance_info": 1`, 1),
		strings.Replace(catalogue, `"bindings_retrievable": true`, `"bindings_retrievable": 1`, 1),
	} {
		_, err := broker.NewCatalogue([]byte(target), broker.Abilities{Bindings: true})
		diff.Error(t, err, "%q", target)
	}
	if document := catalogueFor(t, catalogue).Document(); !json.Valid(document) {
		t.Errorf("got %s, want JSON", document)
	}
}

// Of the description of a refusal the first 1,000 characters are sent.
func TestLongDescriptions(t *testing.T) {
	long := strings.Repeat("é", 1001)
	s := newTestBroker(t, setting{over: func(s *shelf) broker.Backend {
		return refusingBackend{s, &broker.Rejection{Status: 400, Description: long}}
	}})
	body := s.expect(t, 400, "PUT", instances+"i", bodyOf(now, ""))
	if !strings.Contains(body, strings.Repeat("é", 1000)) || strings.Contains(body, long) {
		t.Errorf("got %s, want 1,000 characters", body)
	}
}

// A slowBody is a body of which nothing arrives until it is let go. Then it is cut.
type slowBody struct {
	begun chan<- struct{}
	letGo <-chan struct{}
}

func (s slowBody) Read([]byte) (int, error) {
	s.begun <- struct{}{}
	<-s.letGo
	return 0, io.ErrUnexpectedEOF
}

// twoUsers is a testBroker with the users u and v, whose bodies have at most 1,000 bytes.
func twoUsers(t *testing.T) *testBroker {
	t.Helper()
	return newTestBroker(t, setting{atOnce: 3, users: map[string][]string{"u": {"p"}, "v": {"w"}}})
}

// slowly has a user send so many bodies slowly, and returns their statuses, and once so many are read.
func (s *testBroker) slowly(t *testing.T, count, read int) <-chan int {
	t.Helper()
	begun, letGo, statuses := make(chan struct{}, count), make(chan struct{}), make(chan int, count)
	t.Cleanup(func() { close(letGo) })
	for number := 0; number < count; number++ {
		go func() {
			given, _ := s.ask("PUT", instances+"slow", "", func(r *http.Request) {
				r.Body, r.ContentLength = io.NopCloser(slowBody{begun, letGo}), 1000
			})
			statuses <- given.StatusCode
		}()
	}
	for number := 0; number < read; number++ {
		within(t, "reading a slow body", begun)
	}
	return statuses
}

func asOther(r *http.Request) { r.SetBasicAuth("v", "w") }

// However many bodies a user sends slowly, those of another user are read at once.
func TestSlowBodiesOfAnotherUser(t *testing.T) {
	for name, test := range map[string]struct{ bodies, count, read int }{
		"as many as a program allows": {16 << 20, 300, 300},
		"more than are read at once":  {4000, 300, 2},
	} {
		t.Run(name, func(t *testing.T) {
			s := twoUsers(t)
			s.SetBudgets(test.bodies, 1000)
			s.slowly(t, test.count, test.read)
			for s.TakeBody("u", 1000) { // all that the user may have, also if not all bodies have arrived
			}
			status := make(chan int, 1)
			go func() {
				given, _ := s.ask("PUT", instances+"i", bodyOf(now, ""), asOther)
				status <- given.StatusCode
			}()
			diff.Equal(t, within(t, "another user's creation", status), 201, "")
		})
	}
}

// A request whose body may not be read or parsed in time is answered with 503. Nothing of it was done, and requests
// without a body don't wait.
func TestBodiesThatWaitTooLong(t *testing.T) {
	for name, occupy := range map[string]func(*testing.T, *testBroker){
		"to be read": func(t *testing.T, s *testBroker) {
			s.SetBudgets(2000, 2000)
			s.slowly(t, 1, 1)
		},
		"to be parsed": func(t *testing.T, s *testBroker) {
			s.SetBudgets(1<<20, 100)
			if !s.Parse("u", 100) {
				t.Fatal("got no slot for another body, want one")
			}
		},
	} {
		t.Run(name, func(t *testing.T) {
			s := twoUsers(t)
			occupy(t, s)
			s.SetPatience(20 * time.Millisecond)
			body := bodyOf(now, `,"parameters":{"a":"`+strings.Repeat("a", 700)+`"}`)
			given, text := s.ask("PUT", instances+"i", body)
			if given.StatusCode != 503 || given.Header.Get("Retry-After") != "30" ||
				!strings.Contains(text, "nothing was done") {
				t.Errorf("got %d %v %s, want 503", given.StatusCode, given.Header, text)
			}
			s.expect(t, 410, "GET", instances+"i/last_operation", "")
		})
	}
}

// A body that is longer than all that may be parsed at once is a mistake of the program.
func TestParsedAtOnce(t *testing.T) {
	s := twoUsers(t)
	options := s.HandlerOptions
	options.ParsedAtOnce = options.LongestBody - 1
	_, err := broker.NewHandler(context.Background(), nil, options)
	diff.ErrorContains(t, err, "999 bytes", "")
}

func TestBodiesAtOnce(t *testing.T) {
	for longest, want := range map[int]int{1: 16 << 20, 256 << 10: 16 << 20, 4 << 20: 16 << 20, 5 << 20: 20 << 20} {
		t.Run(fmt.Sprint(longest), func(t *testing.T) {
			diff.Equal(t, broker.BodiesAtOnce(longest), want, "%d", longest)
		})
	}
}

// The memory of a large body is returned once the body was parsed, and its request is carried out.
func TestALargeBody(t *testing.T) {
	s := twoUsers(t)
	s.LongestBody = 64 << 10
	s.SetBudgets(1<<20, 64<<10)
	body := bodyOf(now, `,"parameters":{"a":"`+strings.Repeat("a", 40<<10)+`"}`)
	for _, want := range []int{201, 200} {
		s.expect(t, want, "PUT", instances+"i", body)
	}
}

func TestErrorsOfBackends(t *testing.T) {
	diff.Equal(t, (&broker.Rejection{Status: 400, Description: "too many"}).Error(), "rejected: too many", "")
	if broker.Away(nil) != nil {
		t.Error("got an error, want nil")
	}
}
