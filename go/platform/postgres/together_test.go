package postgres

import (
	"context"
	"database/sql"
	"errors"
	"fmt"
	"runtime"
	"sync"
	"testing"
	"time"

	"pippinterm/internal/diff"
	"pippinterm/internal/pg/pgtest"
	"pippinterm/internal/storefaults"
	"pippinterm/internal/waits"
	"pippinterm/osb"
	"pippinterm/platform"
)

// togetherKey is the key of an instance of the test.
func togetherKey(n int) platform.Key {
	return osb.InstanceKey(osb.MustParseID(fmt.Sprintf("00000000-0000-4000-8000-%012x", n)))
}

// insertOrder writes an order, and its broker if it isn't there.
func insertOrder(t *testing.T, store *Store, key platform.Key) {
	t.Helper()
	if err := store.AddBroker(context.Background(), platform.Broker{Name: "one", URL: "http://one"}); err != nil {
		diff.ErrorIs(t, err, platform.ErrUsed, "")
	}
	order := platform.Order{
		Key: key, First: key.ID(), Broker: "one", Names: platform.Names{Instance: key.Instance.String()},
		Service: osb.ID{1}, Plan: osb.ID{2}, Organization: "o", Space: "s", Body: []byte("{}"), Try: 1, Tries: 1,
	}
	entry := platform.Entry{Order: order, State: platform.Ordered, Since: time.Now(), Due: time.Now()}
	diff.Must(t, store.Insert(context.Background(), entry, func(platform.Snapshot) error { return nil }))
}

// isWaiting returns whether so many changes wait for a transaction.
func isWaiting(store *Store, count int) func() bool {
	return func() bool {
		store.changes.turn.Lock()
		defer store.changes.turn.Unlock()
		return len(store.changes.waiting) == count
	}
}

// counted is a step that counts itself in the row.
func counted(_ time.Time, snapshot platform.Snapshot) (*platform.Change, error) {
	snapshot.Entry.Unchanged++
	return &platform.Change{Entry: snapshot.Entry}, nil
}

// Changes that wait are done by one transaction, and each has its own result: also one whose step fails, whose row is
// unknown or locked, whose row has another change, and one whose caller has gone.
func TestChangesTogether(t *testing.T) {
	background, errWrong := context.Background(), errors.New("wrong")
	url := pgtest.Schema(t, pgtest.URL(t), "osb_platform_together")
	store := diff.Value(Open(background, url, 8))(t)
	defer store.Close()
	const held, usual, failing, locked, left, rows = 0, atATime, atATime + 1, atATime + 2, atATime + 3, atATime + 4
	for n := 0; n < rows; n++ {
		insertOrder(t, store, togetherKey(n))
	}
	other := diff.Value(pgtest.DB(t, url).Begin())(t)
	defer func() { _ = other.Rollback() }()
	diff.Value(other.Exec("SELECT FROM osb_instances WHERE id = $1 FOR UPDATE", togetherKey(locked).String()))(t)

	begun, gate := make(chan struct{}, atATime), make(chan struct{})
	for n := held; n < held+atATime; n++ {
		go func(key platform.Key) {
			_ = store.Change(background, key, func(time.Time, platform.Snapshot) (*platform.Change, error) {
				begun <- struct{}{}
				<-gate
				return nil, nil
			})
		}(togetherKey(n))
	}
	for n := 0; n < atATime; n++ {
		<-begun
	}
	gone, leave := context.WithCancel(background)
	defer leave()
	wrong := func(time.Time, platform.Snapshot) (*platform.Change, error) { return nil, errWrong }
	results := map[string]chan error{}
	for name, test := range map[string]struct {
		ctx  context.Context
		key  platform.Key
		step platform.Step
	}{
		"usual": {background, togetherKey(usual), counted}, "twice": {background, togetherKey(usual), counted},
		"failing": {background, togetherKey(failing), wrong}, "unknown": {background, togetherKey(rows), counted},
		"locked": {background, togetherKey(locked), counted}, "left": {gone, togetherKey(left), counted},
	} {
		name, test, result := name, test, make(chan error, 1)
		results[name] = result
		go func() { result <- store.Change(test.ctx, test.key, test.step) }()
	}
	waits.Until(t, "all changes wait", isWaiting(store, len(results)))
	leave()
	diff.ErrorIs(t, <-results["left"], context.Canceled, "left")
	close(gate)
	diff.NoError(t, <-results["usual"], "usual")
	diff.NoError(t, <-results["twice"], "twice")
	diff.ErrorIs(t, <-results["failing"], errWrong, "failing")
	diff.ErrorIs(t, <-results["unknown"], platform.ErrUnknown, "unknown")
	diff.Empty(t, results["locked"], "results of the row that is locked")
	diff.Must(t, other.Rollback())
	diff.NoError(t, <-results["locked"], "locked")
	for n, want := range map[int]int{usual: 2, failing: 0, locked: 1, left: 0} {
		got := diff.Value(store.Read(background, togetherKey(n)))(t)
		diff.Equal(t, got.Unchanged, want, "changes of row %d", n)
	}
}

// newChange is a change that counts itself in the row of a key.
func newChange(key platform.Key) *oneChange {
	return &oneChange{
		ctx: context.Background(), call: &call{}, key: key, step: counted, ended: make(chan struct{}),
	}
}

// If a transaction of several changes fails, each of them is done alone.
func TestChangesTogetherThatFail(t *testing.T) {
	background := context.Background()
	const name, rows = "osb_platform_together_fails", 3
	url := pgtest.With(t, pgtest.Schema(t, pgtest.URL(t), name), "application_name", name)
	store, other := diff.Value(Open(background, url, 8))(t), pgtest.DB(t, pgtest.With(t, url, "application_name", "other"))
	defer store.Close()
	all := []*oneChange{}
	for n := 0; n < rows; n++ {
		insertOrder(t, store, togetherKey(n))
		all = append(all, newChange(togetherKey(n)))
	}
	all[1].step = func(now time.Time, snapshot platform.Snapshot) (*platform.Change, error) {
		const end = "SELECT pg_terminate_backend(pid, 10000) FROM pg_stat_activity WHERE application_name = $1"
		if _, err := other.Exec(end, name); err != nil {
			return nil, err
		}
		return counted(now, snapshot)
	}
	store.changeTogether(all)
	for n, it := range all {
		diff.Equal(t, it.isDone, false, "change %d is done", n)
		diff.Equal(t, diff.Value(store.Read(background, it.key))(t).Unchanged, 0, "changes of row %d", n)
	}
}

// A locking context has another session lock a row once a statement over that row has failed. Each try to run a
// transaction looks at its context before it begins.
type locking struct {
	context.Context
	turn     sync.Mutex
	other    *sql.Tx
	key      platform.Key
	isLocked bool
	err      error
}

func (l *locking) Done() <-chan struct{} {
	l.turn.Lock()
	defer l.turn.Unlock()
	var hasFailed bool
	if l.err == nil && !l.isLocked {
		l.err = l.other.QueryRow("SELECT is_called FROM tries").Scan(&hasFailed)
	}
	if l.err == nil && hasFailed {
		_, l.err = l.other.Exec("SELECT FROM osb_instances WHERE id = $1 FOR UPDATE", l.key.Instance.String())
		l.isLocked = l.err == nil
	}
	return nil
}

// A change counts by the last try of its transaction: if the first one is undone by a deadlock, and in the next one the
// row is locked, the change isn't done.
func TestChangesTogetherThatAreTriedAgain(t *testing.T) {
	background := context.Background()
	url := pgtest.Schema(t, pgtest.URL(t), "osb_platform_together_again")
	store, db := diff.Value(Open(background, url, 8))(t), pgtest.DB(t, url)
	defer store.Close()
	it, calls := newChange(togetherKey(0)), 0
	insertOrder(t, store, it.key)
	pgtest.Exec(t, db, "CREATE SEQUENCE tries", `CREATE FUNCTION undo() RETURNS trigger LANGUAGE plpgsql AS $$ BEGIN
		IF nextval('tries') = 1 THEN RAISE EXCEPTION USING ERRCODE = '40P01'; END IF; RETURN NEW; END $$`,
		"CREATE TRIGGER undo BEFORE UPDATE ON osb_instances FOR EACH ROW EXECUTE FUNCTION undo()")
	other := diff.Value(db.Begin())(t)
	defer func() { _ = other.Rollback() }()
	ctx := &locking{Context: background, other: other, key: it.key}
	it.ctx = ctx
	it.step = func(now time.Time, snapshot platform.Snapshot) (*platform.Change, error) {
		calls++
		return counted(now, snapshot)
	}
	store.changeTogether([]*oneChange{it})
	diff.NoError(t, ctx.err, "the other session")
	diff.Equal(t, ctx.isLocked, true, "the other session has locked the row")
	diff.Equal(t, calls, 1, "steps: the next try passes the row over")
	diff.NoError(t, it.err, "the change")
	diff.Equal(t, it.isDone, false, "the change is done")
	diff.Equal(t, diff.Value(store.Read(background, it.key))(t).Unchanged, 0, "changes of the row")
}

// A step that ends its goroutine fails, and the changes that wait for its transaction are done.
func TestChangesTogetherWhoseGoroutineEnds(t *testing.T) {
	store := diff.Value(Open(context.Background(), pgtest.Schema(t, pgtest.URL(t), "osb_platform_together_ends"), 8))(t)
	defer store.Close()
	ctx, cancel := context.WithCancel(context.Background())
	defer cancel()
	for n := 0; n < atATime+2; n++ {
		insertOrder(t, store, togetherKey(n))
	}
	begun, gate, results := make(chan struct{}, atATime), make(chan struct{}), make(chan error, atATime)
	for n := 0; n < atATime; n++ {
		go func(key platform.Key) {
			results <- store.Change(ctx, key, func(time.Time, platform.Snapshot) (*platform.Change, error) {
				begun <- struct{}{}
				<-gate
				runtime.Goexit()
				return nil, nil
			})
		}(togetherKey(n))
	}
	for n := 0; n < atATime; n++ {
		<-begun
	}
	usual := make(chan error, 2)
	for n := atATime; n < atATime+2; n++ {
		go func(key platform.Key) { usual <- store.Change(ctx, key, counted) }(togetherKey(n))
	}
	waits.Until(t, "the usual changes wait", isWaiting(store, cap(usual)))
	close(gate)
	for n := 0; n < 2; n++ {
		diff.NoError(t, <-usual, "a usual change")
	}
	for n := 0; n < atATime; n++ {
		diff.ErrorContains(t, <-results, "ended its goroutine", "a step that ends its goroutine")
	}
	for n := 0; n < atATime+2; n++ {
		want := 0
		if n >= atATime {
			want = 1
		}
		diff.Equal(t, diff.Value(store.Read(ctx, togetherKey(n)))(t).Unchanged, want, "changes of row %d", n)
	}
}

// Those that wait are done by the next transaction, as many as it may have, and none that has left.
func TestTurnsOfChanges(t *testing.T) {
	changes := &together{}
	first := newChange(togetherKey(0))
	diff.Len(t, changes.join(first), 1, "the first")
	for n := 1; n < atATime; n++ {
		diff.Len(t, changes.join(newChange(togetherKey(n))), 1, "change %d", n)
	}
	waiting := []*oneChange{}
	for n := 0; n < mostOfOne+2; n++ {
		waiting = append(waiting, newChange(togetherKey(n)))
		diff.Len(t, changes.join(waiting[n]), 0, "change %d that waits", n)
	}
	diff.Equal(t, changes.leave(waiting[0]), true, "the first one leaves")
	next := changes.end([]*oneChange{first})
	<-first.ended
	diff.Len(t, next, mostOfOne, "the next transaction")
	diff.Equal(t, changes.leave(waiting[2]), false, "one leaves that is in it")
	last := changes.end(next)
	<-waiting[2].ended
	diff.Len(t, last, 1, "the last transaction")
	diff.Equal(t, last[0], waiting[mostOfOne+1], "the last change")
	diff.Len(t, changes.end(last), 0, "those that wait at the end")
	diff.Equal(t, changes.running, atATime-1, "transactions that run")
}

// A transaction waits for the changes that come until a moment after the last one began, or until there are enough.
func TestChangesGather(t *testing.T) {
	changes := &together{isEnough: make(chan struct{}, 1)}
	first := changes.join(newChange(togetherKey(0)))
	diff.Len(t, changes.gather(first), 1, "the first transaction")
	changes.begun = time.Now().Add(time.Hour)
	gathered := make(chan []*oneChange, 1)
	go func() { gathered <- changes.gather(first) }()
	for n := 1; n < enough; n++ {
		changes.join(newChange(togetherKey(n)))
	}
	select {
	case got := <-gathered:
		t.Errorf("got a transaction of %d changes, want it to wait for %d", len(got), enough)
	case <-time.After(apart):
	}
	changes.join(newChange(togetherKey(enough)))
	diff.Len(t, <-gathered, enough+1, "the transaction of enough changes")
	diff.AtLeast(t, time.Since(changes.begun), 0, "the time since it began")
}

// If nobody knows whether a transaction of several changes was committed, nobody knows it of each of them.
func TestChangesTogetherOfAnUnknownCommit(t *testing.T) {
	background := context.Background()
	proxy, url := storefaults.NewProxy(t, pgtest.Schema(t, pgtest.URL(t), "osb_platform_together_lost"))
	store := diff.Value(Open(background, url, 8))(t)
	defer store.Close()
	insertOrder(t, store, togetherKey(0))
	insertOrder(t, store, togetherKey(1))
	for n, failed := 1, ""; !storefaults.IsCommit(failed); n++ {
		all := []*oneChange{newChange(togetherKey(0)), newChange(togetherKey(1))}
		proxy.Fail(n, storefaults.Lost)
		store.changeTogether(all)
		if failed = proxy.FailedStatement(); failed == "" {
			t.Fatalf("got %d statements, and no COMMIT that fails", n-1)
		}
		for _, it := range all {
			if isUnknown := it.isDone && errors.Is(it.err, ErrUnknownCommit); isUnknown != storefaults.IsCommit(failed) {
				t.Errorf("%s has failed: got %+v of %v, want an unknown commit exactly then", failed, it.err, it.key)
			}
		}
	}
}
