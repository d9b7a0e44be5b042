package broker_test

import (
	"context"
	"encoding/json"
	"errors"
	"net/http"
	"net/http/httptest"
	"path/filepath"
	"strings"
	"testing"

	"pippinterm/broker"
	"pippinterm/broker/sqlite"
	"pippinterm/internal/diff"
	"pippinterm/osb"
)

// A scriptedBackend has one instance or binding. Each call is noted, and leaves what the script says.
type scriptedBackend struct {
	there         broker.There
	made, deleted broker.There // what exists after such a call
	failure       error        // of such a call
	deletes       bool         // whether a deletion doesn't fail, whatever the failure
	blindness     error        // of each Look
	blinded       error        // of each Look after such a call
	calls         []string
	looks         int
}

func (s *scriptedBackend) Look(context.Context, broker.Request) (broker.There, error) {
	s.looks++
	return s.there, s.blindness
}

func (s *scriptedBackend) Sync(context.Context, broker.Request) error { return nil }

func (s *scriptedBackend) Create(context.Context, broker.Request) error {
	s.calls, s.there, s.blindness = append(s.calls, "create"), s.made, s.blinded
	return s.failure
}

func (s *scriptedBackend) Delete(context.Context, broker.Request) error {
	s.calls, s.there, s.blindness = append(s.calls, "delete"), s.deleted, s.blinded
	if s.deletes {
		return nil
	}
	return s.failure
}

func (s *scriptedBackend) LookBinding(ctx context.Context, r broker.Request) (broker.There, error) {
	return s.Look(ctx, r)
}

func (s *scriptedBackend) CreateBinding(ctx context.Context, r broker.Request) (json.RawMessage, error) {
	return json.RawMessage(`"new"`), s.Create(ctx, r)
}

func (s *scriptedBackend) DeleteBinding(ctx context.Context, r broker.Request) error {
	return s.Delete(ctx, r)
}

// How work has ended.
const (
	done    = "done"
	failed  = "failed"
	pending = "pending" // nobody knows
)

const (
	none  = broker.None
	part  = broker.Part
	whole = broker.Whole
)

var errScripted, errBlinded = errors.New("it failed"), errors.New("it can't be seen any more")

type script struct {
	name    string
	backend scriptedBackend
	outcome string
	calls   []string
	left    broker.There
}

var creations = []script{
	{"it is whole already", scriptedBackend{there: whole}, done, nil, whole},
	{"it is created", scriptedBackend{made: whole}, done, []string{"create"}, whole},
	{"a part is completed", scriptedBackend{there: part, made: whole}, done, []string{"create"}, whole},
	{"it fails, and is whole", scriptedBackend{made: whole, failure: errScripted}, done, []string{"create"}, whole},
	{"it fails, and nothing exists", scriptedBackend{failure: errScripted}, failed, []string{"create"}, none},
	{"nothing exists, without an error", scriptedBackend{}, failed, []string{"create"}, none},
	{"a part is deleted", scriptedBackend{made: part, failure: errScripted}, failed, []string{"create", "delete"}, none},
	{"a part can't be deleted", scriptedBackend{made: part, deleted: part, failure: errScripted}, pending,
		[]string{"create", "delete"}, part},
	{"it can't be seen", scriptedBackend{blindness: errScripted}, pending, nil, none},
	{"it can't be seen any more", scriptedBackend{made: whole, blinded: errBlinded}, pending, []string{"create"}, whole},
	{"it fails, and can't be seen any more", scriptedBackend{made: part, failure: errScripted, blinded: errBlinded},
		pending, []string{"create"}, part},
}

var deletions = []script{
	{"nothing exists", scriptedBackend{}, done, nil, none},
	{"it is deleted", scriptedBackend{there: whole}, done, []string{"delete"}, none},
	{"a part is deleted", scriptedBackend{there: part}, done, []string{"delete"}, none},
	{"it fails, and nothing exists", scriptedBackend{there: whole, failure: errScripted}, done, []string{"delete"}, none},
	{"it fails, and is whole", scriptedBackend{there: whole, deleted: whole, failure: errScripted}, failed,
		[]string{"delete"}, whole},
	{"it is whole, without an error", scriptedBackend{there: whole, deleted: whole}, failed, []string{"delete"}, whole},
	{"a part is left", scriptedBackend{there: whole, deleted: part}, pending, []string{"delete"}, part},
	{"a part is left, with an error", scriptedBackend{there: whole, deleted: part, failure: errScripted}, pending,
		[]string{"delete"}, part},
	{"it can't be seen", scriptedBackend{there: whole, blindness: errScripted}, pending, nil, whole},
	{"it can't be seen any more", scriptedBackend{there: whole, blinded: errBlinded}, pending, []string{"delete"}, none},
}

// A loneBroker has one backend, and no sweeper.
type loneBroker struct {
	*bench
	backend *scriptedBackend
	handler *broker.Handler
}

func newLoneBroker(t *testing.T) *loneBroker {
	t.Helper()
	backend := &scriptedBackend{made: whole}
	it := &loneBroker{bench: newBench(t, backend, newMemoryLocks()), backend: backend}
	it.handler = handlerFor(t, it.Service)
	return it
}

func (l *loneBroker) ask(method, target, body string) *answer {
	return message{method: method, target: target, body: []byte(body)}.serve(l.handler)
}

func (l *loneBroker) expect(t *testing.T, status int, method, target, body string) {
	t.Helper()
	if given := l.ask(method, target, body); given.status != status {
		t.Fatalf("%s %s: got %d %s, want %d", method, target, given.status, given.body, status)
	}
}

// follows checks a script: what was called, and what is left.
func (l *loneBroker) follows(t *testing.T, it script) {
	t.Helper()
	diff.Check(t, l.backend.calls, it.calls, "the calls")
	diff.Equal(t, l.backend.there, it.left, "left")
}

// What counts at a synchronous plan is what exists in the end.
func TestPendingWork(t *testing.T) {
	one := instances + "i"
	for _, creation := range creations {
		t.Run("create: "+creation.name, func(t *testing.T) {
			l := newLoneBroker(t)
			*l.backend = creation.backend
			l.expect(t, map[string]int{done: 201, failed: 500, pending: 500}[creation.outcome], "PUT", one, bodyOf(now, ""))
			l.follows(t, creation)
			if l.isPending(t, keyOf("i")) != (creation.outcome == pending) {
				t.Errorf("got it pending %[2]v, want the outcome %[1]s", creation.outcome, creation.outcome != pending)
			}
		})
	}
	for _, deletion := range deletions {
		t.Run("delete: "+deletion.name, func(t *testing.T) {
			l := newLoneBroker(t)
			l.expect(t, 201, "PUT", one, bodyOf(now, ""))
			*l.backend = deletion.backend
			l.expect(t, map[string]int{done: 200, failed: 500, pending: 500}[deletion.outcome], "DELETE", one+names(now), "")
			l.follows(t, deletion)
			if l.isPending(t, keyOf("i")) != (deletion.outcome == pending) {
				t.Errorf("got it pending %[2]v, want the outcome %[1]s", deletion.outcome, deletion.outcome != pending)
			}
		})
	}
}

// It is the same at an asynchronous plan. An operation of which nobody knows how it went goes on.
func TestOperations(t *testing.T) {
	one, key := instances+"i", keyOf("i")
	for _, creation := range creations {
		t.Run("create: "+creation.name, func(t *testing.T) {
			l := newLoneBroker(t)
			*l.backend = creation.backend
			l.expect(t, 202, "PUT", one+query, bodyOf(later, ""))
			l.operates(t, creation, key, `{"state":"succeeded"}`)
		})
	}
	for _, deletion := range deletions {
		t.Run("delete: "+deletion.name, func(t *testing.T) {
			l := newLoneBroker(t)
			l.expect(t, 202, "PUT", one+query, bodyOf(later, ""))
			check(t, l.TakeUp(context.Background(), key))
			*l.backend = deletion.backend
			l.expect(t, 202, "DELETE", one+names(later)+"&accepts_incomplete=true", "")
			l.operates(t, deletion, key, "")
		})
	}
}

// operates goes on with an operation. The answer to a Poll then says how it went: that of a deletion that was done is
// 410.
func (l *loneBroker) operates(t *testing.T, it script, key broker.Key, succeeded string) {
	t.Helper()
	if len(l.backend.calls) > 0 {
		t.Errorf("got %v called before the operation is recorded, want none", l.backend.calls)
	}
	before := len(l.observed.finished)
	err := l.TakeUp(context.Background(), key)
	isUnknown := errors.Is(err, broker.ErrNobodyKnows)
	if isUnknown != (it.outcome == pending) || !isUnknown && err != nil {
		t.Errorf("got %v, want it unknown exactly while it is pending", err)
	}
	if blinded := it.backend.blinded; blinded != nil && (err == nil || !strings.Contains(err.Error(), blinded.Error())) {
		t.Errorf("got %v, want %v in it", err, blinded)
	}
	ends := []operationEnd{}
	if it.outcome != pending {
		ends = append(ends, operationEnd{key, it.outcome == done})
	}
	diff.Check(t, append([]operationEnd{}, l.observed.finished[before:]...), ends, "the ends that are reported")
	l.follows(t, it)
	given := l.ask("GET", instances+"i/last_operation", "")
	var poll struct{ State string }
	check(t, json.Unmarshal(given.body, &poll))
	state := map[string]string{done: "succeeded", failed: "failed", pending: "in progress"}[it.outcome]
	if it.outcome == done && succeeded == "" {
		if given.status != 410 {
			t.Errorf("got %d %s, want 410", given.status, given.body)
		}
		return
	}
	if given.status != 200 || poll.State != state {
		t.Errorf("got %d %s, want %s", given.status, given.body, state)
	}
}

// A scribe is a Journal that keeps the answers.
type scribe struct{ given []broker.Response }

func (s *scribe) OnArrival(ctx context.Context, _ *http.Request, _ string, _ broker.Visit) context.Context {
	return ctx
}

func (s *scribe) OnAnswer(_ context.Context, _ http.Header, given broker.Response) {
	s.given = append(s.given, given)
}

// A Journal gets each answer as it leaves, with the object of a binding. That of a request that has failed is an error.
func TestAnswersOfAJournal(t *testing.T) {
	l, journal := newLoneBroker(t), &scribe{}
	l.handler.Journal = journal
	one := instances + "i"
	for _, test := range []struct {
		method, target, body string
		blindness            error
		want                 osb.Answer
		object               string
	}{
		{"PUT", one, bodyOf(now, ""), nil, osb.Answer{Status: 201, Body: osb.BodyEmpty}, ""},
		{"PUT", one + "/service_bindings/b", bodyOf(now, ""), nil, osb.Answer{Status: 201, Body: osb.BodyEmpty},
			`{"credentials":"new"}`},
		{"PUT", instances + "j" + query, bodyOf(later, ""), nil, osb.Answer{Status: 202, Body: osb.BodyEmpty}, ""},
		{"GET", instances + "j/last_operation", "", nil, osb.Answer{Status: 200, Body: osb.BodyInProgress}, ""},
		{"PUT", instances + "k", bodyOf(later, ""), nil, osb.Answer{Status: 422, Body: osb.BodyAsyncRequired}, ""},
		{"PUT", instances + "l", bodyOf(now, ""), errScripted, osb.Answer{Status: 500, Body: osb.BodyOtherError}, ""},
	} {
		t.Run(test.method+" "+test.target, func(t *testing.T) {
			l.backend.there, l.backend.blindness = none, test.blindness
			l.expect(t, int(test.want.Status), test.method, test.target, test.body)
			given := journal.given[len(journal.given)-1]
			if given.Answer != test.want || string(given.Binding) != test.object {
				t.Errorf("got %+v with %s, want %+v with %s", given.Answer, given.Binding, test.want, test.object)
			}
		})
	}
}

// A candidBackend can tell the credentials of what exists.
type candidBackend struct{ *scriptedBackend }

func (candidBackend) Credentials(context.Context, broker.Request) (json.RawMessage, error) {
	return json.RawMessage(`"old"`), nil
}

// A binding that exists, and whose credentials nobody knows, is deleted and created again. One whose credentials the
// backend can tell stays. The backend is asked once before that work whether the binding exists, and once after it.
func TestUnknownCredentials(t *testing.T) {
	absent, partial := &scriptedBackend{made: whole}, &scriptedBackend{made: whole}
	unknown, known := &scriptedBackend{made: whole}, &scriptedBackend{made: whole}
	for _, test := range []struct {
		name        string
		backend     broker.Backend
		script      *scriptedBackend
		there       broker.There // since its broker was killed while it created the binding
		calls       []string
		credentials string
	}{
		{"absent", absent, absent, none, []string{"create"}, "new"},
		{"a part", partial, partial, part, []string{"create"}, "new"},
		{"unknown", unknown, unknown, whole, []string{"delete", "create"}, "new"},
		{"known", candidBackend{known}, known, whole, nil, "old"},
	} {
		t.Run(test.name, func(t *testing.T) {
			handler := handlerFor(t, newBench(t, test.backend, newMemoryLocks()).Service)
			one := message{method: "PUT", target: instances + "i", body: []byte(bodyOf(now, ""))}
			if given := one.serve(handler); given.status != 201 {
				t.Fatalf("got %d %s, want 201", given.status, string(given.body))
			}
			test.script.calls, test.script.looks, test.script.there = nil, 0, test.there
			one.target += "/service_bindings/b"
			given := one.serve(handler)
			if given.status != 201 || credentialsOf(given.body) != test.credentials {
				t.Errorf("got %d %s, want %q", given.status, given.body, test.credentials)
			}
			diff.Check(t, test.script.calls, test.calls, "the calls")
			diff.Equal(t, test.script.looks, 2, "looks")
		})
	}
}

// A callObserver counts the failed calls of the backend.
type callObserver struct {
	recorder
	calls map[string]int
}

func (c *callObserver) OnCallFailure(call string) {
	c.turn.Lock()
	defer c.turn.Unlock()
	c.calls[call]++
}

// expect checks which calls have failed since it was called before.
func (c *callObserver) expect(t *testing.T, want map[string]int) {
	t.Helper()
	c.turn.Lock()
	defer c.turn.Unlock()
	diff.Check(t, c.calls, want, "the failed calls")
	c.calls = map[string]int{}
}

// A watchedBroker has one backend, no sweeper, and an observer of the backend's calls.
type watchedBroker struct {
	*broker.Service
	*callObserver
	handler *broker.Handler
}

func newWatched(t *testing.T, backend broker.Backend) *watchedBroker {
	t.Helper()
	return newWatchedWith(t, backend, newMemoryLocks())
}

func newWatchedWith(t *testing.T, backend broker.Backend, locks broker.Locks) *watchedBroker {
	t.Helper()
	seen := &callObserver{calls: map[string]int{}}
	store := diff.Value(sqlite.Open(context.Background(), filepath.Join(t.TempDir(), "store"), seen))(t)
	t.Cleanup(func() { _ = store.Close() })
	service := broker.NewService(catalogueFor(t, catalogue), store, backend, locks, broker.ServiceOptions{}, seen)
	return &watchedBroker{service, seen, handlerFor(t, service)}
}

// ask sends a request with an id, and returns the status of its answer.
func (w *watchedBroker) ask(method, target, body, requestID string) int {
	request := httptest.NewRequest(method, target, strings.NewReader(body))
	request.SetBasicAuth("u", "p")
	request.Header.Set(osb.VersionHeader, osb.VersionSent)
	request.Header.Set("X-Broker-API-Request-Identity", requestID)
	given := httptest.NewRecorder()
	w.handler.ServeHTTP(given, request)
	return given.Code
}

// A backend that is away: each retry counts, though the reason is the same.
func TestFailedCallsAreCountedEachTime(t *testing.T) {
	w := newWatched(t, &scriptedBackend{made: whole, blindness: errScripted})
	diff.Equal(t, w.ask("PUT", instances+"one", bodyOf(now, ""), "a"), http.StatusInternalServerError, "the Provision")
	w.expect(t, map[string]int{"look": 1})
	for round := 0; round < 3; round++ {
		diff.Error(t, w.TakeUp(context.Background(), keyOf("one")), "TakeUp")
	}
	w.expect(t, map[string]int{"look": 3})
}

// A failingBackend fails in the call of one name. Without an error it panics.
type failingBackend struct {
	*shelf
	name string
	err  error
}

func (f *failingBackend) at(name string, call func() error) error {
	if f.name != name {
		return call()
	}
	if f.err == nil {
		panic("boom")
	}
	return f.err
}

func (f *failingBackend) Look(ctx context.Context, r broker.Request) (there broker.There, err error) {
	err = f.at("look", func() error { there, err = f.shelf.Look(ctx, r); return err })
	return there, err
}

func (f *failingBackend) Create(ctx context.Context, r broker.Request) error {
	return f.at("create", func() error { return f.shelf.Create(ctx, r) })
}

func (f *failingBackend) Delete(ctx context.Context, r broker.Request) error {
	return f.at("delete", func() error { return f.shelf.Delete(ctx, r) })
}

func (f *failingBackend) Sync(ctx context.Context, r broker.Request) error {
	return f.at("sync", func() error { return f.shelf.Sync(ctx, r) })
}

func (f *failingBackend) LookBinding(ctx context.Context, r broker.Request) (there broker.There, err error) {
	err = f.at("look-binding", func() error { there, err = f.shelf.LookBinding(ctx, r); return err })
	return there, err
}

func (f *failingBackend) CreateBinding(ctx context.Context, r broker.Request) (credentials json.RawMessage, err error) {
	err = f.at("create-binding", func() error { credentials, err = f.shelf.CreateBinding(ctx, r); return err })
	return credentials, err
}

func (f *failingBackend) DeleteBinding(ctx context.Context, r broker.Request) error {
	return f.at("delete-binding", func() error { return f.shelf.DeleteBinding(ctx, r) })
}

func (f *failingBackend) Credentials(context.Context, broker.Request) (credentials json.RawMessage, err error) {
	err = f.at("credentials", func() error { credentials = json.RawMessage(`"token"`); return nil })
	return credentials, err
}

// Each call that fails is counted once, under its own name. A creation that is rejected isn't counted.
func TestNamesOfFailedCalls(t *testing.T) {
	one, bound := keyOf("one"), osb.BindingKey(keyOf("one").Instance, keyOf("b").Instance)
	rejected := &broker.Rejection{Status: 400}
	for title, test := range map[string]struct {
		name string
		err  error
		held []broker.Key // what was created before, in this order
		left []broker.Key // what a killed broker has left besides
		does string       // the request that fails
		of   broker.Key
	}{
		"look":           {"look", errScripted, nil, nil, "PUT", one},
		"create":         {"create", errScripted, nil, nil, "PUT", one},
		"a panic":        {"create", nil, nil, nil, "PUT", one},
		"rejected":       {"create", rejected, nil, nil, "PUT", one},
		"sync":           {"sync", errScripted, nil, []broker.Key{one}, "PUT", one},
		"delete":         {"delete", errScripted, []broker.Key{one}, nil, "DELETE", one},
		"look-binding":   {"look-binding", errScripted, []broker.Key{one}, nil, "PUT", bound},
		"create-binding": {"create-binding", errScripted, []broker.Key{one}, nil, "PUT", bound},
		"no binding":     {"create-binding", rejected, []broker.Key{one}, nil, "PUT", bound},
		"delete-binding": {"delete-binding", errScripted, []broker.Key{one, bound}, nil, "DELETE", bound},
		"credentials":    {"credentials", errScripted, []broker.Key{one}, []broker.Key{bound}, "PUT", bound},
	} {
		t.Run(title, func(t *testing.T) {
			backend := &failingBackend{shelf: newShelf(calm)}
			w := newWatched(t, backend)
			for _, key := range test.held {
				if status := w.ask("PUT", pathOf(key), bodyOf(now, ""), "a"); status != http.StatusCreated {
					t.Fatalf("before, %v: got %d, want %d", key, status, http.StatusCreated)
				}
			}
			for _, key := range test.left {
				backend.set(key, thing{there: whole, credentials: "token"})
			}
			w.expect(t, map[string]int{})
			backend.name, backend.err = test.name, test.err
			target, body := pathOf(test.of), bodyOf(now, "")
			if test.does == "DELETE" {
				target, body = target+names(now), ""
			}
			want := map[string]int{test.name: 1}
			if test.err == rejected {
				want = map[string]int{}
			}
			isCreated := test.name == "credentials" // the binding is deleted, and created again
			if status := w.ask(test.does, target, body, "a"); (status == http.StatusCreated) != isCreated {
				t.Errorf("got %d, want 201 only if it was created", status)
			}
			w.expect(t, want)
		})
	}
}

// brokenLocks are locks that fail.
type brokenLocks struct {
	*memoryLocks
	isTaken bool // whether TryLock reports that somebody else has the lock, in place of an error
}

func (b brokenLocks) TryLock(context.Context, broker.Key) (broker.Lock, error) {
	if b.isTaken {
		return nil, nil
	}
	return nil, errScripted
}

func (b brokenLocks) Lock(context.Context, broker.Key) (broker.Lock, error) { return nil, errScripted }

// A lock that fails is counted each time, of requests and of unfinished work. Nothing is done without it. A lock that
// somebody else has isn't counted.
func TestLocksThatFail(t *testing.T) {
	for name, isTaken := range map[string]bool{"at once": false, "while a request waits": true} {
		t.Run(name, func(t *testing.T) {
			backend := newShelf(calm)
			w := newWatchedWith(t, backend, brokenLocks{newMemoryLocks(), isTaken})
			diff.Equal(t, w.ask("PUT", instances+"one", bodyOf(now, ""), "a"), http.StatusInternalServerError,
				"the Provision")
			w.expect(t, map[string]int{"lock": 1})
			diff.Equal(t, backend.there(keyOf("one")), broker.None, "")
		})
	}
	locks := &replacedLocks{newMemoryLocks()}
	w := newWatchedWith(t, &scriptedBackend{made: whole, blindness: errScripted}, locks)
	diff.Equal(t, w.ask("PUT", instances+"one", bodyOf(now, ""), "a"), http.StatusInternalServerError, "the Provision")
	w.expect(t, map[string]int{"look": 1})
	taken := diff.Value(locks.TryLock(context.Background(), keyOf("one")))(t)
	diff.NoError(t, w.TakeUp(context.Background(), keyOf("one")), "TakeUp of what somebody else works at")
	taken.Unlock()
	w.expect(t, map[string]int{})
	locks.Locks = brokenLocks{newMemoryLocks(), false}
	for round := 0; round < 2; round++ {
		diff.ErrorIs(t, w.TakeUp(context.Background(), keyOf("one")), errScripted, "TakeUp")
	}
	w.expect(t, map[string]int{"lock": 2})
}

// replacedLocks are other locks once a test says so.
type replacedLocks struct{ broker.Locks }

// pathOf is the path of a key of the tests above.
func pathOf(key broker.Key) string {
	if key.IsBinding {
		return instances + "one/service_bindings/b"
	}
	return instances + "one"
}

// The log has the id of the request that the backend has failed, also if another worker did the work.
func TestFailuresHaveTheIDOfTheRequest(t *testing.T) {
	backend := &failingBackend{shelf: newShelf(calm), name: "create", err: errScripted}
	w := newWatched(t, backend)
	expect := func(event, requestID string) {
		t.Helper()
		w.turn.Lock()
		defer w.turn.Unlock()
		if len(w.failures) != 1 || w.failures[0].Event != event || w.failures[0].RequestID != requestID {
			t.Errorf("the failures: got %v, want %s of %s", w.failures, event, requestID)
		}
		w.failures = nil
	}
	w.ask("PUT", instances+"one", bodyOf(now, ""), "of-a-creation")
	expect("backend_failed_to_create", "of-a-creation")
	w.ask("PUT", instances+"two"+query, bodyOf(later, ""), "of-an-operation")
	check(t, w.TakeUp(context.Background(), keyOf("two")))
	expect("backend_failed_to_create", "of-an-operation")

	backend.err = &broker.Rejection{Status: 400, Description: "no such size"}
	w.ask("PUT", instances+"four", bodyOf(now, ""), "of-a-rejection")
	if len(w.failures) == 1 && !w.failures[0].IsRejection {
		t.Error("the failures: got a rejection, want none")
	}
	expect("backend_rejected", "of-a-rejection")

	backend.name, backend.err = "delete", errScripted
	w.ask("PUT", instances+"three", bodyOf(now, ""), "of-a-creation")
	w.ask("DELETE", instances+"three"+names(now), "", "of-a-deletion")
	expect("backend_failed_to_delete", "of-a-deletion")
}

// A mute backend can't report the credentials of what exists. Its creation of a binding may fail and leave all of it.
type mute struct {
	*scriptedBackend
	creation error  // of each binding
	deletion error  // of each binding
	asked    func() // is called when the credentials are asked for, or nil
}

var errMute = errors.New("no credentials")

func (m *mute) Credentials(context.Context, broker.Request) (json.RawMessage, error) {
	if m.asked != nil {
		m.asked()
	}
	return nil, errMute
}

func (m *mute) CreateBinding(ctx context.Context, r broker.Request) (json.RawMessage, error) {
	_ = m.Create(ctx, r)
	return json.RawMessage(`"new"`), m.creation
}

func (m *mute) DeleteBinding(ctx context.Context, r broker.Request) error {
	if m.deletion != nil {
		m.calls = append(m.calls, "delete")
		return m.deletion
	}
	return m.Delete(ctx, r)
}

// A binding that nobody has been given, and whose credentials can't be read, is a part: it is deleted and created
// again. If it can't be created either, the Bind has failed, and the binding and its instance can be deleted.
func TestCredentialsThatCannotBeRead(t *testing.T) {
	one, both := instances+"i", []string{"delete", "create"}
	bound := one + "/service_bindings/b"
	for name, test := range map[string]struct {
		there    broker.There // what a killed broker has left
		creation error
		bind     int
		calls    []string
	}{
		"left by a killed broker":     {whole, nil, 201, both},
		"left by a failed call":       {none, errScripted, 500, []string{"create", "delete"}},
		"left by both":                {whole, errScripted, 500, []string{"delete", "create", "delete"}},
		"a part, and by a failed one": {part, errScripted, 500, []string{"create", "delete"}},
	} {
		t.Run(name, func(t *testing.T) {
			l, backend := newLoneOver(t, &mute{scriptedBackend: &scriptedBackend{made: whole}})
			l.expect(t, 201, "PUT", one, bodyOf(now, ""))
			backend.there, backend.creation, backend.calls = test.there, test.creation, nil
			if given := l.ask("PUT", bound, bodyOf(now, "")); given.status != test.bind ||
				test.bind == 201 && credentialsOf(given.body) != "new" {
				t.Errorf("the Bind: got %d %s, want %d", given.status, given.body, test.bind)
			}
			diff.Check(t, backend.calls, test.calls, "the calls")
			var events []string
			for _, failure := range l.observed.failures {
				events = append(events, failure.Event)
			}
			if len(events) == 0 || events[0] != "credentials_useless" || !errors.Is(l.observed.failures[0].Err, errMute) {
				t.Errorf("the reports: got %v, want credentials_useless", l.observed.failures)
			}
			if given := l.ask("DELETE", bound+names(now), ""); given.status != 200 && given.status != 410 {
				t.Errorf("the Unbind: got %d %s, want 200 or 410", given.status, given.body)
			}
			backend.there = whole // of the instance
			l.expect(t, 200, "DELETE", one+names(now), "")
		})
	}
}

// As long as such a binding can't be deleted, nothing is reported, and the work stays pending. The reason says why.
func TestCredentialsThatCannotBeReadNorDeleted(t *testing.T) {
	bound := instances + "i/service_bindings/b"
	l, backend := newLoneOver(t, &mute{scriptedBackend: &scriptedBackend{made: whole}})
	l.expect(t, 201, "PUT", instances+"i", bodyOf(now, ""))
	backend.there, backend.deletion, backend.calls = whole, errScripted, nil
	l.expect(t, 500, "PUT", bound, bodyOf(now, ""))
	key := osb.BindingKey(keyOf("i").Instance, keyOf("b").Instance)
	if !l.isPending(t, key) {
		t.Error("got the work ended, want it pending")
	}
	l.expect(t, 422, "DELETE", bound+names(now), "")
	backend.deletion = nil
	if err := l.TakeUp(context.Background(), key); err != nil || l.isPending(t, key) {
		t.Errorf("TakeUp: got %v, want no error and the end of the work", err)
	}
	l.expect(t, 200, "DELETE", bound+names(now), "")
}

// If the broker stops, the credentials can't be read either. That says nothing about them, so nothing is deleted.
func TestCredentialsWhileTheBrokerStops(t *testing.T) {
	l, backend := newLoneOver(t, &mute{scriptedBackend: &scriptedBackend{made: whole}})
	l.expect(t, 201, "PUT", instances+"i", bodyOf(now, ""))
	backend.there, backend.deletion = whole, errScripted
	l.expect(t, 500, "PUT", instances+"i/service_bindings/b", bodyOf(now, ""))
	ctx, cancel := context.WithCancel(context.Background())
	backend.calls, backend.deletion, backend.asked = nil, nil, cancel
	key := osb.BindingKey(keyOf("i").Instance, keyOf("b").Instance)
	diff.ErrorIs(t, l.TakeUp(ctx, key), broker.ErrNobodyKnows, "TakeUp")
	if len(backend.calls) > 0 || !l.isPending(t, key) {
		t.Errorf("got the calls %v, want none and the work pending", backend.calls)
	}
}

func newLoneOver(t *testing.T, backend *mute) (*loneBroker, *mute) {
	t.Helper()
	it := &loneBroker{bench: newBench(t, backend, newMemoryLocks()), backend: backend.scriptedBackend}
	it.handler = handlerFor(t, it.Service)
	return it, backend
}

// A changingBackend creates a part of a binding, and fails to delete it: the password is another one then, and all of
// the binding exists.
type changingBackend struct{ *mute }

func (c changingBackend) CreateBinding(ctx context.Context, r broker.Request) (json.RawMessage, error) {
	_ = c.Create(ctx, r)
	c.there = part
	return json.RawMessage(`"before"`), nil
}

func (c changingBackend) DeleteBinding(context.Context, broker.Request) error {
	c.there = whole
	return errScripted
}

func (changingBackend) Credentials(context.Context, broker.Request) (json.RawMessage, error) {
	return json.RawMessage(`"after"`), nil
}

// A binding whose deletion has failed is reported with the credentials that it has then, and not with those of its
// creation.
func TestCredentialsAfterADeletionThatFailed(t *testing.T) {
	backend := changingBackend{&mute{scriptedBackend: &scriptedBackend{made: whole}}}
	it := &loneBroker{bench: newBench(t, backend, newMemoryLocks()), backend: backend.scriptedBackend}
	it.handler = handlerFor(t, it.Service)
	it.expect(t, 201, "PUT", instances+"i", bodyOf(now, ""))
	backend.there = none
	given := it.ask("PUT", instances+"i/service_bindings/b", bodyOf(now, ""))
	if got := credentialsOf(given.body); given.status != 201 || got != "after" {
		t.Errorf("got %d with the credentials %q, want 201 with \"after\"", given.status, got)
	}
}

// A reportingStore looks at each entry of a binding that is written.
type reportingStore struct {
	broker.Store
	written func(broker.Entry)
}

func (r *reportingStore) Change(ctx context.Context, key broker.Key, step broker.Step) error {
	return r.Store.Change(ctx, key, func(snapshot broker.Snapshot) (*broker.Entry, error) {
		next, err := step(snapshot)
		if err == nil && next != nil && key.IsBinding {
			r.written(*next)
		}
		return next, err
	})
}

// No transaction writes a binding that is ready without its credentials: a crash after it would lose them.
func TestCredentialsAreWrittenWithTheRow(t *testing.T) {
	key, err := osb.KeyOfTexts("i", "b")
	must(err)
	for _, plan := range []string{now, bindLater} {
		t.Run(plan, func(t *testing.T) {
			ready := 0
			l := newLoneBroker(t)
			backend := newShelf(calm)
			store := &reportingStore{Store: l.store, written: func(entry broker.Entry) {
				if row, isHeld := entry.Holding.Row(); isHeld && row.Phase == osb.PhaseReady {
					ready++
					diff.Equal(t, credentialsOf(entry.Binding), backend.credentials(key), "plan %s", plan)
				}
			}}
			l.Service = broker.NewService(catalogueFor(t, catalogue), store, backend, newMemoryLocks(), broker.ServiceOptions{},
				l.observed)
			l.handler = handlerFor(t, l.Service)
			l.expect(t, 201, "PUT", instances+"i", bodyOf(plan, ""))
			bound := instances + "i/service_bindings/b?accepts_incomplete=true"
			if given := l.ask("PUT", bound, bodyOf(plan, "")); given.status == 202 {
				must(l.TakeUp(context.Background(), key))
			}
			diff.Equal(t, ready, 1, "plan %s: entries that are ready", plan)
		})
	}
}
