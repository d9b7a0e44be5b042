package broker_test

import (
	"context"
	"errors"
	"fmt"
	"math"
	"runtime"
	"testing"

	"pippinterm/broker"
	"pippinterm/internal/diff"
	"pippinterm/osb"
)

// A rowStore keeps rows in memory, for one request at a time. It calls nothing in C.
type rowStore struct {
	broker.Store
	rows map[broker.Key]broker.Entry
	away error // why nobody can tell whether a binding is held, or nil
}

func (s rowStore) Read(_ context.Context, key broker.Key) (broker.Snapshot, error) {
	return broker.Snapshot{
		Entry: s.rows[key], Instance: s.rows[osb.InstanceKey(key.Instance)],
		AnyBinding: func() (bool, error) { return false, s.away },
	}, nil
}

func (s rowStore) Change(ctx context.Context, key broker.Key, step broker.Step) error {
	snapshot, err := s.Read(ctx, key)
	if err != nil {
		return err
	}
	next, err := step(snapshot)
	if err == nil && next != nil {
		s.rows[key] = *next
	}
	return err
}

// handlerOver is a Handler over a store.
func handlerOver(t *testing.T, store broker.Store) *broker.Handler {
	service := broker.NewService(catalogueFor(t, catalogue), store, newShelf(func() int { return 9 }), newMemoryLocks(),
		broker.ServiceOptions{}, broker.Silent{})
	users := diff.Value(broker.NewUsers(map[string][]string{"u": {"p"}}))(t)
	return diff.Value(broker.NewHandler(context.Background(), service, broker.HandlerOptions{
		Users: users, LongestBody: 1000, AtOnce: 1, Touch: func(broker.Key) {}, Observer: broker.Silent{},
	}))(t)
}

// TestBindingsNobodyCanTell has nothing begin if nobody can tell whether a binding of the instance is held.
func TestBindingsNobodyCanTell(t *testing.T) {
	store := rowStore{rows: map[broker.Key]broker.Entry{}, away: broker.Away(errors.New("the server has gone"))}
	create := message{method: "PUT", target: instances + "i", body: []byte(bodyOf(now, ""))}
	diff.Equal(t, create.serve(handlerOver(t, store)).status, 503, "the answer")
	diff.Equal(t, len(store.rows), 0, "the rows")
}

// TestCallsOfTheLibrary counts the calls of C that a request takes beside those of its store. Each costs some hundred
// nanoseconds. When Go kept the order of writes, they were 13, 9, 14, 8, 14, 5, 12 and 12.
func TestCallsOfTheLibrary(t *testing.T) {
	handler := handlerOver(t, rowStore{rows: map[broker.Key]broker.Entry{}})
	for _, test := range []struct {
		what, method, target, body string
		status                     int
		most                       int64
	}{
		{"a creation", "PUT", "", bodyOf(now, ""), 201, 13},
		{"the creation again", "PUT", "", bodyOf(now, ""), 200, 8},
		{"an asynchronous creation", "PUT", "-later?accepts_incomplete=true", bodyOf(later, ""), 202, 10},
		{"a Poll", "GET", "-later/last_operation", "", 200, 6},
		{"the creation of a binding", "PUT", "/service_bindings/b", bodyOf(now, ""), 201, 13},
		{"a Fetch", "GET", "/service_bindings/b", "", 200, 4},
		{"the deletion of a binding", "DELETE", "/service_bindings/b" + names(now), "", 200, 11},
		{"a deletion", "DELETE", names(now), "", 200, 11},
	} {
		least := int64(math.MaxInt64) // of a few, since a goroutine of an earlier test may call something, too
		for n := 0; n < 5; n++ {
			target := fmt.Sprintf("%si%d%s", instances, n, test.target)
			before := runtime.NumCgoCall()
			given := message{method: test.method, target: target, body: []byte(test.body)}.serve(handler)
			if calls := runtime.NumCgoCall() - before; calls < least {
				least = calls
			}
			diff.Equal(t, given.status, test.status, "%s: %s", test.what, given.body)
		}
		if least > test.most {
			t.Errorf("%s: got %d calls, want %d at most", test.what, least, test.most)
		}
	}
}
