package broker_test

import (
	"context"
	"testing"
	"time"

	"pippinterm/broker"
	"pippinterm/internal/diff"
	"pippinterm/osb"
)

// A toucher is a broker without a sweeper. It keeps the keys that are touched.
type toucher struct {
	*bench
	handler *broker.Handler
	touched []broker.Key
}

func newToucher(t *testing.T, backend broker.Backend, options broker.ServiceOptions) *toucher {
	t.Helper()
	it := &toucher{bench: newBench(t, backend, newMemoryLocks())}
	it.Service = broker.NewService(
		catalogueFor(t, catalogue), it.store, backend, newMemoryLocks(), options, it.observed)
	users, err := broker.NewUsers(map[string][]string{"u": {"p"}})
	check(t, err)
	it.handler, err = broker.NewHandler(context.Background(), it.Service, broker.HandlerOptions{
		Users: users, LongestBody: 1000, AtOnce: 1, Observer: broker.Silent{},
		Touch: func(key broker.Key) { it.touched = append(it.touched, key) },
	})
	check(t, err)
	return it
}

// A touchCase is a platform's request, the status of its answer, and whether its key is touched then.
type touchCase struct {
	method, target, body string
	status               int
	isTouched            bool
}

func (u *toucher) check(t *testing.T, key broker.Key, cases []touchCase) {
	t.Helper()
	for _, test := range cases {
		u.touched = nil
		given := message{method: test.method, target: test.target, body: []byte(test.body)}.serve(u.handler)
		var want []broker.Key
		if test.isTouched {
			want = []broker.Key{key}
		}
		if given.status != test.status {
			t.Errorf("%s %s: got %d %s, want %d", test.method, test.target, given.status, given.body, test.status)
		}
		diff.Check(t, u.touched, want, "%s %s: the keys that are touched", test.method, test.target)
	}
}

func (u *toucher) takeUp(t *testing.T, key broker.Key) {
	t.Helper()
	check(t, u.TakeUp(context.Background(), key))
}

const query = "?accepts_incomplete=true"

// firstPoll has a creation wait for its first Poll, for a day at most.
var firstPoll = broker.ServiceOptions{FirstPoll: true, WaitForPoll: 24 * time.Hour}

// The operations of an instance: its key is touched while one runs, and not before nor afterwards.
func TestTouchOfOperations(t *testing.T) {
	u, one, key := newToucher(t, newShelf(calm), broker.ServiceOptions{}), instances+"i", keyOf("i")
	order, poll, deletion := bodyOf(later, ""), one+"/last_operation", one+names(later)
	u.check(t, key, []touchCase{
		{"GET", "/v2/catalog", "", 200, false},
		{"GET", poll, "", 410, false},
		{"PUT", one, order, 422, false}, // AsyncRequired
		{"PUT", one + query, order, 202, true},
		{"PUT", one + query, order, 202, true},
		{"PUT", one + query, bodyOf(later, `,"parameters":{"a":1}`), 409, true},
		{"GET", poll, "", 200, true},
		{"DELETE", deletion + "&accepts_incomplete=true", "", 422, true}, // ConcurrencyError
	})
	u.takeUp(t, key)
	u.check(t, key, []touchCase{
		{"GET", poll, "", 200, false},
		{"PUT", one + query, order, 200, false},
		{"DELETE", deletion, "", 422, false}, // AsyncRequired
		{"DELETE", deletion + "&accepts_incomplete=true", "", 202, true},
		{"DELETE", deletion + "&accepts_incomplete=true", "", 202, true},
		{"GET", poll, "", 200, true},
	})
	u.takeUp(t, key)
	u.check(t, key, []touchCase{
		{"GET", poll, "", 410, false},
		{"DELETE", deletion + "&accepts_incomplete=true", "", 410, false},
		{"PUT", one + query, order, 409, false},
	})
}

// An instance that waits for its first Poll is touched until it is deleted.
func TestTouchOfAWait(t *testing.T) {
	u, one, key := newToucher(t, newShelf(calm), firstPoll), instances+"i", keyOf("i")
	u.check(t, key, []touchCase{
		{"PUT", one + query, bodyOf(later, ""), 202, true},
		{"DELETE", one + names(later) + "&accepts_incomplete=true", "", 200, false},
	})
}

// Work that is pending because its worker failed: whoever asks has it gone on with.
func TestTouchOfPendingWork(t *testing.T) {
	backend := &blind{shelf: newShelf(calm)}
	u, one, key := newToucher(t, backend, broker.ServiceOptions{}), instances+"i", keyOf("i")
	order, poll, deletion := bodyOf(now, ""), one+"/last_operation", one+names(now)
	backend.because("the backend is away")
	u.check(t, key, []touchCase{
		{"PUT", one, order, 500, false},
		{"PUT", one, order, 503, true},
		{"GET", poll, "", 200, true},
		{"DELETE", deletion, "", 422, true}, // ConcurrencyError
	})
	backend.because("")
	u.takeUp(t, key)
	u.check(t, key, []touchCase{
		{"PUT", one, order, 200, false},
		{"PUT", one, "{", 400, false},
		{"GET", poll, "", 200, false},
		{"DELETE", deletion, "", 200, false},
	})
}

// The same of a binding, under its own key.
func TestTouchOfBindings(t *testing.T) {
	u, one := newToucher(t, newShelf(calm), broker.ServiceOptions{}), instances+"i"
	key := osb.BindingKey(keyOf("i").Instance, keyOf("b").Instance)
	bound, poll := one+"/service_bindings/b", one+"/service_bindings/b/last_operation"
	u.check(t, key, []touchCase{
		{"PUT", bound + query, bodyOf(bindLater, ""), 503, false}, // its instance doesn't exist
		{"PUT", one, bodyOf(bindLater, ""), 201, false},
		{"PUT", bound + query, bodyOf(bindLater, ""), 202, true},
		{"GET", bound, "", 404, false},
		{"GET", poll, "", 200, true},
	})
	u.check(t, keyOf("i"), []touchCase{{"DELETE", one + names(bindLater), "", 422, false}}) // it has a binding
	u.takeUp(t, key)
	u.check(t, key, []touchCase{
		{"GET", poll, "", 200, false},
		{"GET", bound, "", 200, false},
		{"DELETE", bound + names(bindLater) + "&accepts_incomplete=true", "", 202, true},
		{"GET", bound, "", 404, false},
	})
}

// The deletions that the broker begins itself, of bindings whose creation has failed, are gone on with at once.
func TestTouchOfFailedBindings(t *testing.T) {
	backend := &failingBackend{shelf: newShelf(calm), name: "create-binding", err: errScripted}
	u, one := newToucher(t, backend, broker.ServiceOptions{}), instances+"i"
	key := osb.BindingKey(keyOf("i").Instance, keyOf("b").Instance)
	u.check(t, key, []touchCase{
		{"PUT", one, bodyOf(bindLater, ""), 201, false},
		{"PUT", one + "/service_bindings/b" + query, bodyOf(bindLater, ""), 202, true},
	})
	u.takeUp(t, key)
	u.touched = nil
	given := message{method: "DELETE", target: one + names(bindLater)}.serve(u.handler)
	if given.status != 422 {
		t.Errorf("got %d %s, want 422", given.status, given.body)
	}
	diff.Check(t, u.touched, []broker.Key{key}, "the keys that are touched")
	u.takeUp(t, key)
	u.check(t, key, []touchCase{{"DELETE", one + names(bindLater), "", 200, false}})
}
