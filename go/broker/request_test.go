package broker_test

import (
	"bytes"
	"context"
	"encoding/base64"
	"encoding/json"
	"fmt"
	"net/http"
	"net/url"
	"strings"
	"sync"
	"testing"
	"time"

	"pippinterm/broker"
	"pippinterm/internal/diff"
	"pippinterm/osb"
)

// Two ids with one number are two instances: only the first one exists here.
func TestIDsWithOneNumber(t *testing.T) {
	const text = "somebody-elses"
	for _, test := range []struct{ first, second string }{
		{text, keyOf(text).Instance.String()},
		{keyOf(text).Instance.String(), text},
	} {
		t.Run(test.first, func(t *testing.T) {
			s := newTestBroker(t, setting{})
			first, second := instances+test.first, instances+test.second
			s.expect(t, 201, "PUT", first, bodyOf(now, ""))
			bound := s.expect(t, 201, "PUT", first+"/service_bindings/b", bodyOf(now, ""))

			s.unknown(t, second, now)
			s.expect(t, 503, "PUT", second+"/service_bindings/b2", bodyOf(now, ""))
			s.expect(t, 409, "PUT", second+"/service_bindings/b", bodyOf(now, ""))
			s.expect(t, 404, "GET", second+"/service_bindings/b", "")
			s.expect(t, 410, "DELETE", second+"/service_bindings/b"+names(now), "")

			diff.Equal(t, s.expect(t, 200, "PUT", first+"/service_bindings/b", bodyOf(now, "")), bound,
				"the binding")
			s.expect(t, 200, "DELETE", first+"/service_bindings/b"+names(now), "")
			s.expect(t, 200, "DELETE", first+names(now), "")
			s.expect(t, 409, "PUT", second, bodyOf(now, "")) // its number has a tombstone
		})
	}
}

// unknown checks that an instance is unknown, though another one has its number.
func (s *testBroker) unknown(t *testing.T, target, plan string) {
	t.Helper()
	s.expect(t, 409, "PUT", target, bodyOf(plan, ""))
	s.expect(t, 410, "GET", target+"/last_operation", "")
	s.expect(t, 410, "DELETE", target+names(plan), "")
}

// Two bindings whose ids have one number are two bindings.
func TestBindingsWithOneNumber(t *testing.T) {
	s := newTestBroker(t, setting{})
	instance := instances + "i"
	number, err := osb.IDOfText("b")
	must(err)
	first, second := instance+"/service_bindings/b", instance+"/service_bindings/"+number.String()
	s.expect(t, 201, "PUT", instance, bodyOf(now, ""))
	s.expect(t, 201, "PUT", first, bodyOf(now, ""))
	s.unknown(t, second, now)
	s.expect(t, 404, "GET", second, "")
	s.expect(t, 200, "GET", first, "")
}

// An id that is escaped in the path, or in JSON, is the same id.
func TestEscapedIDs(t *testing.T) {
	s := newTestBroker(t, setting{})
	s.expect(t, 201, "PUT", instances+`a%22b%3C%C3%A9`, bodyOf(now, ""))
	s.expect(t, 200, "PUT", instances+`%61%22b%3c%C3%A9`, bodyOf(now, ""))
	s.expect(t, 200, "DELETE", instances+`a%22b%3C%C3%A9`+names(now), "")
	guid := keyOf("g").Instance.String()
	s.expect(t, 201, "PUT", instances+guid, bodyOf(now, ""))
	s.expect(t, 200, "DELETE", instances+fmt.Sprintf("%%%02x", guid[0])+guid[1:]+names(now), "")
}

// sentRequests is what a backend may be given for each key, as it was sent.
type sentRequests struct {
	turn      sync.Mutex
	creations map[broker.Key][]string // the texts of the requests
	deletions map[broker.Key][]string // the texts of their origins
}

func newExpected() *sentRequests {
	return &sentRequests{creations: map[broker.Key][]string{}, deletions: map[broker.Key][]string{}}
}

// add adds a message that is sent. A message that no backend can be given is left out.
func (e *sentRequests) add(m message) {
	request, isGiven := m.request()
	if !isGiven {
		return
	}
	e.turn.Lock()
	defer e.turn.Unlock()
	switch m.method {
	case http.MethodPut:
		e.creations[request.Key] = append(e.creations[request.Key], textOf(request))
	case http.MethodDelete:
		e.deletions[request.Key] = append(e.deletions[request.Key], originText(request.Origin))
	}
}

// begins has only this message be expected: it begins a creation or a deletion.
func (e *sentRequests) begins(m message) {
	request, _ := m.request()
	e.turn.Lock()
	if m.method == http.MethodPut {
		delete(e.creations, request.Key)
	}
	delete(e.deletions, request.Key)
	e.turn.Unlock()
	e.add(m)
}

// beginsItself has the broker delete a binding of its own accord: nobody has sent that.
func (e *sentRequests) beginsItself(key broker.Key) {
	e.turn.Lock()
	defer e.turn.Unlock()
	e.deletions[key] = []string{originText(broker.Origin{})}
}

// check returns an error unless what the backend got was sent, and has the origin of the deletion if that is at work.
func (e *sentRequests) check(got broker.Request, isDeletion bool) error {
	e.turn.Lock()
	defer e.turn.Unlock()
	if text := textOf(got); !isAmong(text, e.creations[got.Key]) {
		return fmt.Errorf("the backend got %s for %v, and %v was sent", text, got.Key, e.creations[got.Key])
	}
	if !isDeletion && got.Deletion == nil {
		return nil
	}
	if !isDeletion || got.Deletion == nil {
		return fmt.Errorf("the backend got the deletion %+v for %v, and whether it is deleted is %v",
			got.Deletion, got.Key, isDeletion)
	}
	if text := originText(*got.Deletion); !isAmong(text, e.deletions[got.Key]) {
		return fmt.Errorf("the backend got a deletion by %s for %v, and %v was sent",
			text, got.Key, e.deletions[got.Key])
	}
	return nil
}

func isAmong(text string, all []string) bool {
	for _, element := range all {
		if element == text {
			return true
		}
	}
	return false
}

// isDeletion reports whether what is held is being deleted.
func isDeletion(entry broker.Entry) bool {
	if work, isPending := entry.Holding.Work(); isPending {
		return work.Kind == osb.KindDeprovision
	}
	row, _ := entry.Holding.Row()
	return row.Phase == osb.PhaseDeleting
}

// request is what a message asks for, as this test reads it. It is false if the message is of no instance and of no
// binding, or isn't well-formed.
func (m message) request() (request broker.Request, isGiven bool) {
	path, _, _ := strings.Cut(strings.TrimPrefix(m.target, instances), "?")
	names := strings.Split(path, "/")
	for at, part := range names {
		name, err := url.PathUnescape(part)
		if err != nil {
			return request, false
		}
		names[at] = name
	}
	request.InstanceID = names[0]
	if len(names) == 3 && names[1] == "service_bindings" {
		request.BindingID = names[2]
	}
	var err error
	request.Key, err = osb.KeyOfTexts(request.InstanceID, request.BindingID)
	if err != nil || len(names) > 1 && !request.Key.IsBinding {
		return request, false
	}
	request.Origin = originIn(m.header)
	return m.withBody(request)
}

// withBody is a request with what the body of the message says.
func (m message) withBody(request broker.Request) (broker.Request, bool) {
	if m.method != http.MethodPut {
		return request, true
	}
	var read struct {
		Service string `json:"service_id"`
		Plan    string `json:"plan_id"`
	}
	if json.Unmarshal(m.body, &read) != nil {
		return request, false
	}
	request.ServiceID, request.PlanID, request.Body = read.Service, read.Plan, m.body
	return request, true
}

// signedBy are the headers that name a user, and the request.
func signedBy(user, request string) http.Header {
	object, err := json.Marshal(map[string]string{"user_id": user})
	must(err)
	header := http.Header{}
	header.Set(osb.OriginatingIdentityHeader, "cloudfoundry "+base64.StdEncoding.EncodeToString(object))
	header.Set(osb.RequestIdentityHeader, request)
	return header
}

func originIn(header http.Header) broker.Origin {
	origin := broker.Origin{RequestID: header.Get(osb.RequestIdentityHeader)}
	platform, coded, isThere := strings.Cut(header.Get(osb.OriginatingIdentityHeader), " ")
	if object, err := base64.StdEncoding.DecodeString(coded); isThere && err == nil {
		origin.Identity = &osb.Identity{Platform: platform, Object: object}
	}
	return origin
}

// textOf is all of a request but its deletion.
func textOf(r broker.Request) string {
	return canonical([]any{r.InstanceID, r.BindingID, r.ServiceID, r.PlanID, r.Body, partsOf(r.Origin)})
}

func originText(origin broker.Origin) string { return canonical(partsOf(origin)) }

func partsOf(origin broker.Origin) []any {
	if origin.Identity == nil {
		return []any{origin.RequestID}
	}
	return []any{origin.RequestID, origin.Identity.Platform, origin.Identity.Object}
}

// canonical is a value as JSON, in which the members of each object are in order, and numbers are as they were.
func canonical(value any) string {
	text, err := json.Marshal(value)
	must(err)
	decoder := json.NewDecoder(bytes.NewReader(text))
	decoder.UseNumber()
	var read any
	must(decoder.Decode(&read))
	text, err = json.Marshal(read)
	must(err)
	return string(text)
}

// A hangingBackend creates nothing until it may.
type hangingBackend struct {
	*shelf
	begun, goOn chan struct{}
	open        func() // has all creations go on
}

func (h hangingBackend) Create(ctx context.Context, request broker.Request) error {
	h.begun <- struct{}{}
	<-h.goOn
	return h.shelf.Create(ctx, request)
}

// newHanging is a testBroker of so many threads whose backend hangs in its creations.
func newHanging(t *testing.T, threads int) (*testBroker, hangingBackend) {
	t.Helper()
	backend := hangingBackend{begun: make(chan struct{}, 100), goOn: make(chan struct{}, 100)}
	options := broker.ServiceOptions{FirstPoll: true, WaitForPoll: time.Hour}
	s := newTestBroker(t, setting{atOnce: threads - 1, options: options, over: func(s *shelf) broker.Backend {
		backend.shelf = s
		return backend
	}})
	var once sync.Once
	backend.open = func() { once.Do(func() { close(backend.goOn) }) }
	t.Cleanup(backend.open) // before the broker is closed
	return s, backend
}

// create sends a creation, and returns the channel that gets its status.
func (s *testBroker) create(name string) <-chan int {
	status := make(chan int, 1)
	go func() {
		given, _ := s.ask("PUT", instances+name, bodyOf(now, ""))
		status <- given.StatusCode
	}()
	return status
}

// within fails the test if a call takes a minute.
func within[T any](t *testing.T, what string, from <-chan T) T {
	t.Helper()
	select {
	case got := <-from:
		return got
	case <-time.After(time.Minute):
		t.Fatalf("%s: got nothing in a minute, want it sooner", what)
	}
	panic("not reached")
}

// However many creations hang, requests that need no work are answered: they have threads that no work takes.
func TestWorkLeavesThreads(t *testing.T) {
	for _, test := range []struct{ threads, works int }{{2, 1}, {4, 3}, {8, 6}} {
		t.Run(fmt.Sprint(test.threads, " threads"), func(t *testing.T) {
			s, backend := newHanging(t, test.threads)
			var all []<-chan int
			for n := 0; n < 2*test.threads; n++ {
				all = append(all, s.create(string(rune('a'+n))))
			}
			for n := 0; n < test.works; n++ {
				within(t, "a creation", backend.begun)
			}
			answered := make(chan int, 10)
			go func() {
				for _, target := range []string{
					"x/last_operation", "x/service_bindings/b", "x/service_bindings/b/last_operation",
				} {
					given, _ := s.ask("GET", instances+target, "")
					answered <- given.StatusCode
				}
				given, _ := s.ask("PUT", instances+"later?accepts_incomplete=true", bodyOf(later, ""))
				answered <- given.StatusCode
			}()
			for _, want := range []int{http.StatusGone, http.StatusNotFound, http.StatusGone, http.StatusAccepted} {
				diff.Equal(t, within(t, "a request without work", answered), want, "with %d threads", test.threads)
			}
			if further := len(backend.begun); further > 0 {
				t.Errorf("of %d threads: got %d more at work, want none", test.threads, further)
			}
			backend.open()
			for _, status := range all { // each gets its turn
				diff.Equal(t, within(t, "a creation", status), http.StatusCreated, "a creation")
			}
		})
	}
}

// A creation that gets no turn in time is answered with 503, and nothing is recorded: no thread has begun it.
func TestATurnThatDoesNotCome(t *testing.T) {
	s, backend := newHanging(t, 2)
	s.SetPatience(20 * time.Millisecond)
	first := s.create("first")
	within(t, "the first", backend.begun)
	answered := make(chan *http.Response, 1)
	go func() {
		given, _ := s.ask("PUT", instances+"second", bodyOf(now, ""))
		answered <- given
	}()
	given := within(t, "the second", answered)
	if given.StatusCode != http.StatusServiceUnavailable || given.Header.Get("Retry-After") == "" {
		t.Errorf("got %d, %v, want 503 with Retry-After", given.StatusCode, given.Header)
	}
	const says = "The broker is busy, and nothing was done. Send the request again later."
	diff.Equal(t, s.observed.last().Reason, says, "the reason in the log")
	snapshot, err := s.store.Read(context.Background(), keyOf("second"))
	if err != nil || snapshot.Holding != (osb.Holding{}) {
		t.Errorf("got %v held, %v, want nothing", snapshot.Holding, err)
	}
	backend.goOn <- struct{}{}
	diff.Equal(t, within(t, "the first", first), http.StatusCreated, "the first")
	backend.goOn <- struct{}{}
	s.expect(t, 201, "PUT", instances+"second", bodyOf(now, ""))
}

// A creation that gets its turn once the broker is being stopped isn't begun.
func TestATurnAfterTheStop(t *testing.T) {
	s, backend := newHanging(t, 2)
	first := s.create("first")
	within(t, "the first", backend.begun)
	second := s.create("second")
	time.Sleep(50 * time.Millisecond) // nothing can be waited for
	s.Stop()
	backend.goOn <- struct{}{}
	if one, two := within(t, "the first", first), within(t, "the second", second); one != 201 || two != 503 {
		t.Errorf("got %d and %d, want 201 and 503", one, two)
	}
	if len(backend.begun) > 0 {
		t.Error("got the second begun, want it to wait")
	}
}
