package postgres_test

import (
	"context"
	"sync"
	"testing"
	"time"

	"pippinterm/broker"
	"pippinterm/broker/backend/postgres"
	"pippinterm/internal/diff"
	"pippinterm/internal/pg/pgtest"
	"pippinterm/internal/storefaults"
	"pippinterm/internal/waits"
	"pippinterm/osb"
)

func take(t *testing.T, d *postgres.Databases, key broker.Key) broker.Lock {
	t.Helper()
	return diff.Value(d.Locks().TryLock(context.Background(), key))(t)
}

func TestLocks(t *testing.T) {
	r := newRig(t)
	first, second := r.open(), r.open()
	diff.Equal(t, first.Locks().CanBeLost(), true, "the lock of a session can be lost")
	id := randomID(t)
	for _, key := range []broker.Key{osb.InstanceKey(id), osb.BindingKey(id, id)} {
		t.Run(key.String(), func(t *testing.T) {
			taken := take(t, first, key)
			if taken == nil {
				t.Fatalf("%v: got no lock, want it free", key)
			}
			for _, d := range []*postgres.Databases{first, second} {
				diff.Equal(t, take(t, d, key) == nil, true, "%v: the lock is taken", key)
			}
			taken.Unlock()
			again := take(t, second, key)
			if again == nil {
				t.Fatalf("%v: got no lock, want it free again", key)
			}
			again.Unlock()
		})
	}
	both := []broker.Lock{take(t, first, osb.InstanceKey(id)), take(t, first, osb.BindingKey(id, id)),
		take(t, first, osb.BindingKey(id, randomID(t)))}
	for _, lock := range both {
		if lock == nil {
			t.Fatal("an instance and its bindings: got one lock, want two")
		}
		lock.Unlock()
	}
}

// Lock waits until the lock is free, also beyond the time that a statement waits, or until its context is done.
func TestLockWaits(t *testing.T) {
	r, d := newDatabases(t)
	key := newInstance(t)
	taken := take(t, d, key)
	ctx, cancel := context.WithCancel(context.Background())
	given := waits.Begin(func() error { return diff.Err(d.Locks().Lock(ctx, key)) })
	r.waitForWaiter()
	cancel()
	diff.Error(t, <-given, "Lock")
	given = waits.Begin(func() error {
		next, err := d.Locks().Lock(context.Background(), key)
		if err == nil {
			next.Unlock()
		}
		return err
	})
	select {
	case err := <-given:
		t.Errorf("Lock: got %v, want it to wait", err)
	case <-time.After(2500 * time.Millisecond):
	}
	taken.Unlock()
	diff.NoError(t, <-given, "Lock")
}

// waitForWaiter waits until somebody waits for an advisory lock in the brokers' database.
func (r *rig) waitForWaiter() {
	r.t.Helper()
	for until := time.Now().Add(10 * time.Second); !r.exists("pg_locks JOIN pg_database ON pg_database.oid = database "+
		"WHERE locktype = 'advisory' AND NOT granted AND datname = $1", r.role); {
		if time.Now().After(until) {
			r.t.Fatal("got nobody who waits, want one")
		}
	}
}

// Many who want one lock have it one after the other.
func TestLockExcludes(t *testing.T) {
	r := newRig(t)
	key, at := newInstance(t), 0
	var all sync.WaitGroup
	for n := 0; n < 8; n++ {
		d := r.open()
		all.Add(1)
		go func() {
			defer all.Done()
			taken, err := d.Locks().Lock(context.Background(), key)
			if err != nil {
				t.Errorf("got the error %v, want the lock", err)
				return
			}
			at++ // the race detector sees two at once
			taken.Unlock()
		}()
	}
	all.Wait()
	diff.Equal(t, at, 8, "")
}

// A call needs the lock of its own key.
func TestCallsWithoutTheLock(t *testing.T) {
	_, d := newDatabases(t)
	it := createInstance(t, d)
	other := lock(t, d, newInstance(t))
	binding := request(osb.BindingKey(it.request.Key.Instance, it.request.Key.Instance))
	for _, ctx := range []context.Context{context.Background(), other.ctx} {
		diff.Error(t, diff.Err(d.Look(ctx, it.request)), "Look")
		diff.Error(t, d.Create(ctx, it.request), "Create")
		diff.Error(t, d.Delete(ctx, it.request), "Delete")
		diff.Error(t, d.Sync(ctx, it.request), "Sync")
	}
	diff.Error(t, diff.Err(d.LookBinding(it.ctx, binding)), "LookBinding under the lock of the instance")
	diff.Error(t, diff.Err(d.CreateBinding(it.ctx, binding)), "CreateBinding under the lock of the instance")
	diff.Error(t, d.DeleteBinding(it.ctx, binding), "DeleteBinding under the lock of the instance")
	diff.Error(t, diff.Err(d.Credentials(it.ctx, binding)), "Credentials under the lock of the instance")
	wantThere(t, d, it, broker.Whole)
}

// A lock outlives its client for as long as the server runs its statement, and is lost with its session.
func TestALockThatOutlivesItsClient(t *testing.T) {
	r := newRig(t)
	r.open()
	proxy, url := storefaults.NewProxy(t, r.url)
	d, err := postgres.Open(context.Background(), url, postgres.Options{Key: secret, Sessions: 1})
	check(t, err)
	defer d.Close()
	key := newInstance(t)
	taken := take(t, d, key)
	// CREATE DATABASE waits for the lock of template0, which this transaction has.
	template := hold(t, r.admin, "BEGIN", "COMMENT ON DATABASE template0 IS 'unmodifiable empty database'")
	proxy.Cut("CREATE DATABASE")
	err = d.Create(taken.Context(context.Background()), request(key))
	diff.Error(t, err, "Create")
	taken.Unlock()
	second := r.open()
	diff.Equal(t, take(t, second, key) == nil, true, "the lock is taken while the server creates the database")
	diff.Equal(t, r.exists("pg_roles WHERE rolname = $1 AND NOT rolcanlogin", postgres.NameOf(key)), true,
		"the role can't log in before its database exists")
	diff.Value(template.ExecContext(context.Background(), "COMMIT"))(t)
	ctx, cancel := context.WithTimeout(context.Background(), time.Minute)
	defer cancel()
	next := diff.Value(second.Locks().Lock(ctx, key))(t)
	defer next.Unlock()
	diff.NoError(t, second.Create(next.Context(ctx), request(key)), "Create by the next")
}

func TestALockThatIsLost(t *testing.T) {
	r, d := newDatabases(t)
	it := lock(t, d, newInstance(t))
	pgtest.Exec(t, r.admin, "SELECT pg_terminate_backend(pid, 5000) FROM pg_locks JOIN pg_database "+
		"ON pg_database.oid = database WHERE locktype = 'advisory' AND datname = '"+r.role+"'")
	other := take(t, d, it.request.Key)
	if other == nil {
		t.Fatal("got no lock, want it free")
	}
	defer other.Unlock()
	diff.Error(t, d.Create(it.ctx, it.request), "Create without the lock")
	r.wantNothing(it.request.Key)
}

// As many are locked at once as there are sessions, and whoever asks for one more waits. Sessions that the server has
// ended are replaced.
func TestSessions(t *testing.T) {
	r := newRig(t)
	d := r.open(func(o *postgres.Options) { o.Sessions = 2 })
	all := []broker.Lock{take(t, d, newInstance(t)), take(t, d, newInstance(t))}
	ctx, cancel := context.WithTimeout(context.Background(), 100*time.Millisecond)
	defer cancel()
	diff.ErrorIs(t, diff.Err(d.Locks().TryLock(ctx, newInstance(t))), context.DeadlineExceeded, "a third session")
	for _, lock := range all {
		lock.Unlock()
	}
	pgtest.Exec(t, r.admin,
		"SELECT pg_terminate_backend(pid, 5000) FROM pg_stat_activity WHERE datname = '"+r.role+"'")
	for n := 0; n < 2; n++ {
		it := take(t, d, newInstance(t))
		defer it.Unlock()
	}
}

// While the server can't be reached, no lock is taken, and the error is broker.ErrAway. Afterwards all can be taken.
func TestLocksOfAServerThatIsAway(t *testing.T) {
	r := newRig(t)
	r.open()
	proxy, url := storefaults.NewProxy(t, r.url)
	d := diff.Value(postgres.Open(context.Background(), url, postgres.Options{Key: secret, Sessions: 2}))(t)
	defer d.Close()
	key := newInstance(t)
	proxy.Cut("\x00") // a byte of every message
	for round := 0; round < 2; round++ {
		diff.ErrorIs(t, diff.Err(d.Locks().TryLock(context.Background(), key)), broker.ErrAway, "TryLock")
		diff.ErrorIs(t, diff.Err(d.Locks().Lock(context.Background(), key)), broker.ErrAway, "Lock")
	}
	proxy.Cut("")
	taken := take(t, d, key)
	defer taken.Unlock()
	diff.Equal(t, take(t, d, key) == nil, true, "the lock is taken")
}

// While the server is silent, whoever wants a lock is answered broker.ErrAway within a limit, on sessions that were
// idle, on new ones, and while it waits for one. A lock that is held is given back in that time too.
func TestLocksOfAServerThatIsSilent(t *testing.T) {
	r := newRig(t)
	r.open()
	proxy, url := storefaults.NewProxy(t, r.url)
	d, err := postgres.Open(context.Background(), url, postgres.Options{Key: secret, Sessions: 3})
	check(t, err)
	defer d.Close()
	key := newInstance(t)
	taken, idle := take(t, d, key), take(t, d, newInstance(t))
	idle.Unlock()
	proxy.Hang(true)
	done := make(chan error, 5)
	for n := 0; n < 4; n++ {
		other := newInstance(t)
		go func() {
			_, err := d.Locks().TryLock(context.Background(), other)
			done <- err
		}()
	}
	go func() {
		taken.Unlock()
		done <- broker.ErrAway
	}()
	late := time.After(time.Minute)
	for n := 0; n < cap(done); n++ {
		select {
		case err := <-done:
			diff.ErrorIs(t, err, broker.ErrAway, "TryLock")
		case <-late:
			t.Fatal("got TryLock or Unlock to wait for the silent server, want their end")
		}
	}
	proxy.Hang(false)
	again := take(t, d, newInstance(t))
	again.Unlock()
}
