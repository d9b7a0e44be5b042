package postgres_test

import (
	"context"
	"errors"
	"fmt"
	"math/rand"
	"strconv"
	"strings"
	"sync"
	"testing"
	"time"

	"pippinterm/internal/diff"
	"pippinterm/internal/pg"
	"pippinterm/internal/pg/pgtest"
	"pippinterm/internal/storefaults"
	"pippinterm/osb"
	"pippinterm/platform"
	"pippinterm/platform/postgres"
	"pippinterm/platform/storetest"
)

// trigger has the statement run by each change of an instance, at once or with the COMMIT.
func trigger(t *testing.T, url, when, statement string) {
	t.Helper()
	pgtest.Exec(t, pgtest.DB(t, url), "CREATE SEQUENCE tries",
		"CREATE FUNCTION f() RETURNS trigger LANGUAGE plpgsql AS $$ BEGIN "+statement+" RETURN NULL; END $$",
		"CREATE CONSTRAINT TRIGGER of_test AFTER UPDATE ON osb_instances "+when+" FOR EACH ROW EXECUTE FUNCTION f()")
}

// transactions are those that count in an instance.
var transactions = map[string]func(platform.Store, context.Context, *int) error{
	"Change": func(store platform.Store, ctx context.Context, calls *int) error {
		return store.Change(ctx, instance(1), count(calls))
	},
	"Claim": func(store platform.Store, ctx context.Context, calls *int) error {
		claimed, err := store.Claim(ctx, []string{"one"}, 5, count(calls))
		if err == nil && len(claimed) != 1 {
			return errors.New("nothing was claimed")
		}
		return err
	},
}

// Nothing is reported as written that was rolled back, or of which nobody knows.
func TestACommitThatFails(t *testing.T) {
	for _, test := range []struct {
		name, statement string
		isUnknown       bool
	}{
		{"error", "RAISE EXCEPTION 'no';", false},
		{"warning", "RAISE WARNING 'no standby';", true},
	} {
		for of, call := range transactions {
			t.Run(of+" with an "+test.name, func(t *testing.T) {
				url := schemaNamed(t, "osb_platform_commit_"+strings.ToLower(of)+test.name)
				store := open(t, url)
				defer store.Close()
				insert(t, store, instance(1))
				trigger(t, url, "DEFERRABLE INITIALLY DEFERRED", test.statement)
				calls := 0
				err := call(store, background, &calls)
				if err == nil || errors.Is(err, pg.ErrUnknownCommit) != test.isUnknown || calls != 1 ||
					errors.Is(err, platform.ErrAway) != test.isUnknown {
					t.Errorf("after %d calls: got %v, want one after 1", calls, err)
				}
				if got := countStays(t, store, instance(1)); got != 0 && !test.isUnknown {
					t.Error("got it written, want it only if that is unknown")
				}
			})
		}
	}
}

func TestACommitWhoseAnswerIsLost(t *testing.T) {
	for of, call := range transactions {
		t.Run(of, func(t *testing.T) {
			direct := schemaNamed(t, "osb_platform_lost_"+strings.ToLower(of))
			proxy, url := storefaults.NewProxy(t, direct)
			store := open(t, url)
			defer store.Close()
			insert(t, store, instance(1))
			proxy.Cut("COMMIT\x00")
			calls := 0
			err := call(store, background, &calls)
			if !errors.Is(err, pg.ErrUnknownCommit) || !errors.Is(err, platform.ErrAway) || calls != 1 {
				t.Errorf("after %d calls: got %v, want %v after 1", calls, err,
					pg.ErrUnknownCommit) // once more could write it twice
			}
			proxy.Cut("")
			await(t, pgtest.DB(t, direct), "the server has got the COMMIT", "SELECT tries = 1 FROM osb_instances")
			if err := call(store, background, &calls); err != nil || countStays(t, store, instance(1)) != 2 {
				t.Errorf("the next: got %v, want it written", err)
			}
		})
	}
}

// What another transaction has undone is tried again, but not for ever.
func TestConflicts(t *testing.T) {
	for _, test := range []struct {
		name, code   string
		fails, calls int
		isWritten    bool
	}{
		{"deadlock", "40P01", 2, 3, true},
		{"serial", "40001", 1, 2, true},
		{"stays", "40001", 1000, 6, false},
		{"other", "22012", 1, 1, false},
	} {
		for of, call := range transactions {
			t.Run(of+" "+test.name, func(t *testing.T) {
				url := schemaNamed(t, "osb_platform_conflict_"+strings.ToLower(of)+test.name)
				store := open(t, url)
				defer store.Close()
				insert(t, store, instance(1))
				trigger(t, url, "", "IF nextval('tries') <= "+strconv.Itoa(test.fails)+
					" THEN RAISE EXCEPTION USING ERRCODE = '"+test.code+"'; END IF;")
				calls := 0
				err := call(store, background, &calls)
				if (err == nil) != test.isWritten || !test.isWritten && !pg.IsCode(err, test.code) ||
					calls != test.calls || errors.Is(err, platform.ErrAway) {
					t.Errorf("after %d calls: got %v, want %s after %d", calls, err, test.code, test.calls)
				}
				diff.Equal(t, countStays(t, store, instance(1)) == 1, test.isWritten, "whether it is written")
			})
		}
	}
}

// Sessions that the server has ended while they were idle fail nobody.
func TestSessionsThatTheServerEnds(t *testing.T) {
	const most, name = 4, "osb_platform_ends"
	store := open(t, schemaNamed(t, name))
	defer store.Close()
	insert(t, store, instance(1))
	n := 1
	for of, call := range calls(store, instance(1), binding(1, 1)) {
		if of == "Insert and Change" {
			call = func(ctx context.Context) error { n++; return store.Insert(ctx, order(binding(n, 1)), accept) }
		}
		openAll(t, store, most)
		terminate(t, name)
		for n := 0; n < most; n++ {
			diff.NoError(t, call(background), "%s", of)
		}
	}
}

// openAll has so many transactions run at once, so that the store has so many sessions. They are of bindings, each of
// which has a transaction of its own.
func openAll(t *testing.T, store platform.Store, most int) {
	t.Helper()
	gate, done := storetest.NewGate(), make(chan error, most)
	defer gate.Open()
	if _, err := store.Read(background, instance(100)); errors.Is(err, platform.ErrUnknown) {
		insert(t, store, instance(100))
	}
	for n := 0; n < most; n++ {
		key := binding(n, 100)
		if _, err := store.Read(background, key); errors.Is(err, platform.ErrUnknown) {
			insert(t, store, key)
		}
		go func() {
			done <- store.Change(background, key, func(time.Time, platform.Snapshot) (*platform.Change, error) {
				gate.Pass()
				return nil, nil
			})
		}()
	}
	for n := 0; n < most; n++ {
		gate.Await(t, done)
	}
	gate.Open()
	for n := 0; n < most; n++ {
		diff.NoError(t, <-done, "")
	}
}

// A session that is killed while a step runs writes nothing, and frees its rows at once.
func TestASessionThatIsKilledDuringAStep(t *testing.T) {
	for of := range transactions {
		t.Run(of, func(t *testing.T) {
			name := "osb_platform_killed_" + strings.ToLower(of)
			store := open(t, schemaNamed(t, name))
			defer store.Close()
			insert(t, store, instance(1))
			isKilled := false
			step := storetest.Edit(func(e *platform.Entry, _ time.Time) {
				if !isKilled {
					isKilled = true
					terminate(t, name)
				}
				e.Unchanged++
			})
			err := store.Change(background, instance(1), step)
			if of == "Claim" {
				isKilled = false
				_, err = store.Claim(background, []string{"one"}, 1, step)
			}
			diff.ErrorIs(t, err, platform.ErrAway, "")
			diff.Equal(t, countStays(t, store, instance(1)), 0, "")
			calls := 0
			diff.NoError(t, transactions[of](store, background, &calls), "the next")
		})
	}
}

// A call that waits for a table ends with its context.
func TestAContextThatEndsWhileReading(t *testing.T) {
	const name = "osb_platform_reads"
	url := schemaNamed(t, name)
	store, tx := open(t, url), begin(t, url)
	defer store.Close()
	run(t, tx, "LOCK TABLE osb_instances IN ACCESS EXCLUSIVE MODE")
	for of, call := range map[string]func(context.Context) error{
		"Read":   func(ctx context.Context) error { return diff.Err(store.Read(ctx, instance(1))) },
		"Change": func(ctx context.Context) error { return store.Change(ctx, instance(1), count(new(int))) },
	} {
		t.Run(of, func(t *testing.T) {
			ctx, cancel := context.WithCancel(background)
			done := make(chan error, 1)
			go func() { done <- call(ctx) }()
			await(t, pgtest.DB(t, pgtest.URL(t)), "it waits", isWaiting, name)
			cancel()
			if err := <-done; !errors.Is(err, context.Canceled) || errors.Is(err, platform.ErrAway) {
				t.Errorf("got %v, want context.Canceled without ErrAway", err)
			}
		})
	}
}

// A context that ends while a step runs, or while a row is waited for, writes nothing, and frees the row.
func TestAContextThatEnds(t *testing.T) {
	const name = "osb_platform_context"
	url := schemaNamed(t, name)
	store := open(t, url)
	defer store.Close()
	insert(t, store, instance(1))
	ctx, cancel := context.WithCancel(background)
	err := store.Change(ctx, instance(1), storetest.Edit(func(e *platform.Entry, _ time.Time) {
		cancel()
		e.Unchanged++
	}))
	diff.ErrorIs(t, err, context.Canceled, "in the step")
	diff.Equal(t, countStays(t, store, instance(1)), 0, "in the step")
	tx := begin(t, url)
	run(t, tx, "SELECT FROM osb_instances FOR UPDATE")
	ctx, cancel = context.WithCancel(background)
	defer cancel()
	done, calls := make(chan error, 1), 0
	go func() { done <- store.Change(ctx, instance(1), count(&calls)) }()
	await(t, pgtest.DB(t, pgtest.URL(t)), "the second waits", isWaiting, name)
	cancel()
	if err := <-done; !errors.Is(err, context.Canceled) || errors.Is(err, platform.ErrAway) || calls != 0 {
		t.Errorf("while it waits: got %v, want %v and no call", err, context.Canceled)
	}
	check(t, tx.Rollback())
	if err := store.Change(background, instance(1), count(&calls)); err != nil || countStays(t, store, instance(1)) != 1 {
		t.Errorf("afterwards: got %v, want it written once", err)
	}
}

func TestAway(t *testing.T) {
	url := schemaNamed(t, "osb_platform_away")
	store := open(t, url)
	defer store.Close()
	for name, test := range map[string]struct {
		url    string
		isAway bool
	}{
		"nobody listens":      {"postgresql://osb@127.0.0.1:1/osb", true},
		"an unknown database": {pgtest.In(t, url, "osb_platform_unknown"), false},
		"no URL":              {"http://127.0.0.1", false},
	} {
		t.Run(name, func(t *testing.T) {
			_, err := postgres.Open(background, test.url, 1)
			if err == nil || errors.Is(err, platform.ErrAway) != test.isAway {
				t.Errorf("got %v, want an error that is ErrAway: %t", err, test.isAway)
			}
		})
	}
	_, err := store.Read(background, instance(1))
	if !errors.Is(err, platform.ErrUnknown) || errors.Is(err, platform.ErrAway) {
		t.Errorf("an unknown row: got %v, want %v", err, platform.ErrUnknown)
	}
	diff.Error(t, diff.Err(postgres.Open(background, url, 0)), "a store without connections")
}

// What the server may get over by itself is ErrAway: it has no space left, or a lock or a statement takes too long.
func TestServerThatCannotWrite(t *testing.T) {
	url := schemaNamed(t, "osb_platform_cannot_write")
	store := open(t, url)
	defer store.Close()
	insert(t, store, instance(1))
	db := pgtest.DB(t, url)
	pgtest.Exec(t, db, "CREATE TABLE fails (code text); "+
		"CREATE FUNCTION f() RETURNS trigger LANGUAGE plpgsql AS "+
		"$$ BEGIN RAISE 'as planned' USING ERRCODE = (SELECT code FROM fails); END $$; "+
		"CREATE TRIGGER f BEFORE UPDATE ON osb_instances FOR EACH ROW EXECUTE FUNCTION f()")
	for code, isAway := range map[string]bool{
		"53100": true, "53200": true, "55P03": true, "57014": true, "23514": false, "42501": false,
	} {
		t.Run(code, func(t *testing.T) {
			pgtest.Exec(t, db, "DELETE FROM fails; INSERT INTO fails VALUES ('"+code+"')")
			calls := 0
			err := store.Change(background, instance(1), count(&calls))
			if err == nil || errors.Is(err, platform.ErrAway) != isAway {
				t.Errorf("got %v, want an error that is ErrAway: %t", err, isAway)
			}
		})
	}
}

// A row that is deleted by hand isn't taken for one that was written.
func TestARowThatIsGone(t *testing.T) {
	for of, call := range transactions {
		t.Run(of, func(t *testing.T) {
			url := schemaNamed(t, "osb_platform_gone_"+strings.ToLower(of))
			store := open(t, url)
			defer store.Close()
			insert(t, store, instance(1))
			pgtest.Exec(t, pgtest.DB(t, url), "CREATE FUNCTION f() RETURNS trigger LANGUAGE plpgsql AS "+
				"$$ BEGIN RETURN NULL; END $$",
				"CREATE TRIGGER gone BEFORE UPDATE ON osb_instances FOR EACH ROW EXECUTE FUNCTION f()")
			calls := 0
			err := call(store, background, &calls)
			if err == nil || !strings.Contains(err.Error(), "Never delete rows") || calls != 1 {
				t.Errorf("%s, after %d calls: got %v, want one after 1 that says what not to delete", of, calls, err)
			}
		})
	}
}

// A call whose statements can't be prepared fails, and does nothing. It succeeds once they can.
func TestStatementsThatCannotBePrepared(t *testing.T) {
	for of, call := range transactions {
		t.Run(of, func(t *testing.T) {
			for _, table := range []string{"osb_instances", "osb_lives"} { // of the statement that reads, and the one that writes
				url := schemaNamed(t, "osb_platform_unprepared_"+strings.ToLower(of)+"_"+table)
				store := open(t, url)
				defer store.Close()
				insert(t, store, instance(1))
				db := pgtest.DB(t, url)
				pgtest.Exec(t, db, "ALTER TABLE "+table+" RENAME TO hidden")
				calls := 0
				if err := call(store, background, &calls); err == nil || calls != 0 {
					t.Errorf("%s without %s: got %v after %d calls, want an error and no call", of, table, err, calls)
				}
				pgtest.Exec(t, db, "ALTER TABLE hidden RENAME TO "+table)
				if err := call(store, background, &calls); err != nil || calls != 1 {
					t.Errorf("%s with %s: got %v after %d calls, want one", of, table, err, calls)
				}
			}
		})
	}
}

// A row that can't be read hides no other one. A row whose ids can't be read is found by its number.
func TestRowsThatCannotBeRead(t *testing.T) {
	url := schemaNamed(t, "osb_platform_unreadable")
	store := open(t, url)
	defer store.Close()
	spoil := func(t *testing.T, key platform.Key, column string) {
		table, where := "osb_instances", "id = '"+key.Instance.String()+"'"
		if key.IsBinding {
			table, where = "osb_bound", where+" AND binding = '"+key.Binding.String()+"'"
		}
		pgtest.Exec(t, pgtest.DB(t, url), "UPDATE "+table+" SET "+column+" = 'x' WHERE "+where)
	}
	storetest.TestUnreadable(t, store, func(t *testing.T, key platform.Key) { spoil(t, key, "record") })
	for key, want := range map[platform.Key]platform.Names{
		instance(4):                  {Instance: id(4).String()},
		osb.BindingKey(id(1), id(3)): {Instance: id(1).String(), Binding: id(3).String()},
	} {
		t.Run(key.String(), func(t *testing.T) {
			spoil(t, key, "names")
			spoil(t, key, "last")
			got, err := store.Read(background, key)
			if err != nil || !strings.Contains(got.Unreadable, "the column names of ") || got.Names != want || !got.IsSent {
				t.Errorf("got %+v, %v, want an unreadable row that was sent, with its numbers for ids", got, err)
			}
		})
	}
}

// What a step returns and can't be written fails no other row.
func TestAChangeThatCannotBeWritten(t *testing.T) {
	store := open(t, schemaNamed(t, "osb_platform_unwritten"))
	defer store.Close()
	insert(t, store, instance(1), instance(2))
	step := storetest.Edit(func(e *platform.Entry, _ time.Time) {
		e.Unchanged++
		e.IsSent = e.Key == instance(2) // and there is no record
	})
	claimed, err := store.Claim(background, []string{"one"}, 10, step)
	if err != nil || len(claimed) != 2 || claimed[0].Err != nil || claimed[1].Err == nil {
		t.Errorf("got %v claimed, %v, want the first, and an error of the second", claimed, err)
	}
	diff.Error(t, store.Change(background, instance(2), step), "the change")
	if first, second := countStays(t, store, instance(1)), countStays(t, store, instance(2)); first != 1 || second != 0 {
		t.Errorf("got counts of %d and %d, want 1 and 0", first, second)
	}
}

// The right to a name is lost if its session ends.
func TestARightThatIsLost(t *testing.T) {
	const name = "osb_platform_right"
	store := open(t, schemaNamed(t, name))
	defer store.Close()
	end, lost := storetest.Right(t, store, name)
	storetest.NoRight(t, store, name)
	terminate(t, name)
	select {
	case <-lost:
	case <-time.After(deadline):
		t.Fatal("got no report of the lost right in time, want one")
	}
	again, lost := storetest.Right(t, store, name)
	end()
	end()
	select {
	case <-lost:
		t.Error("got the end of another right, want that of the lost one only")
	default:
	}
	again()
}

// Version 0.2 and this one take the same lock of a name.
func TestTheNameOfAWorkerOf02(t *testing.T) {
	url := schemaNamed(t, "osb_platform_name_02")
	store := open(t, url)
	defer store.Close()
	tx := begin(t, url)
	run(t, tx, "SELECT pg_advisory_lock(1869832816, 145842092)") // 0x6F736270, and crc32 of the name less 2^31
	storetest.NoRight(t, store, "osb_platform_name_02")
}

// While the server hangs, a call returns soon after its context has ended, and so does Close.
func TestAServerThatHangs(t *testing.T) {
	proxy, url := storefaults.NewProxy(t, schemaNamed(t, "osb_platform_hangs"))
	store := open(t, url)
	insert(t, store, instance(1))
	step := func(time.Time, platform.Snapshot) (*platform.Change, error) { return nil, nil }
	proxy.Hang(true)
	begun := time.Now()
	for name, call := range map[string]func(context.Context) error{
		"Change":  func(ctx context.Context) error { return store.Change(ctx, instance(1), step) },
		"Claim":   func(ctx context.Context) error { return diff.Err(store.Claim(ctx, []string{"one"}, 1, step)) },
		"NextDue": func(ctx context.Context) error { _, _, err := store.NextDue(ctx, []string{"one"}); return err },
	} {
		t.Run(name, func(t *testing.T) {
			ctx, cancel := context.WithCancel(background)
			time.AfterFunc(50*time.Millisecond, cancel)
			if err := call(ctx); !errors.Is(err, platform.ErrAway) || !errors.Is(err, context.Canceled) {
				t.Errorf("got %v, want ErrAway and context.Canceled", err)
			}
		})
	}
	diff.NoError(t, store.Close(), "")
	wantQuick(t, begun)
}

// wantQuick fails if the calls have waited for an answer of the server, which would take 45 seconds.
func wantQuick(t *testing.T, begun time.Time) {
	t.Helper()
	diff.AtMost(t, time.Since(begun), 30*time.Second, "")
}

// A server hangs while the store has idle sessions, whose statements are closed with them.
func TestClosingWhileTheServerHangs(t *testing.T) {
	proxy, url := storefaults.NewProxy(t, schemaNamed(t, "osb_platform_hangs_idle"))
	store := open(t, url)
	insert(t, store, instance(1))
	openAll(t, store, 4)
	proxy.Hang(true)
	begun := time.Now()
	diff.NoError(t, store.Close(), "")
	wantQuick(t, begun)
}

// The end of a right doesn't wait for long for a server that hangs.
func TestEndOfARightWhileTheServerHangs(t *testing.T) {
	proxy, url := storefaults.NewProxy(t, schemaNamed(t, "osb_platform_hangs_right"))
	store := open(t, url)
	end, _ := storetest.Right(t, store, "one")
	proxy.Hang(true)
	begun := time.Now()
	end()
	check(t, store.Close())
	wantQuick(t, begun)
}

// A server hangs while a step asks it for the bindings of an instance.
func TestAServerThatHangsInAStep(t *testing.T) {
	proxy, url := storefaults.NewProxy(t, schemaNamed(t, "osb_platform_hangs_step"))
	store := open(t, url)
	insert(t, store, instance(1))
	ctx, cancel := context.WithCancel(background)
	begun := time.Now()
	err := store.Change(ctx, instance(1), func(_ time.Time, snapshot platform.Snapshot) (*platform.Change, error) {
		proxy.Hang(true)
		time.AfterFunc(50*time.Millisecond, cancel)
		is, err := snapshot.AllGone()
		diff.Error(t, err, "AllGone, %t", is)
		return nil, err
	})
	diff.ErrorIs(t, err, platform.ErrAway, "")
	diff.ErrorIs(t, err, context.Canceled, "")
	diff.NoError(t, store.Close(), "")
	wantQuick(t, begun)
}

// calls are calls of a store over an instance and a new binding of it, in an order that works.
func calls(store platform.Store, key, of platform.Key) storetest.Calls {
	return storetest.AllCalls(store, key, order(of),
		func(_ time.Time, snapshot platform.Snapshot) (*platform.Change, error) {
			snapshot.Entry.Unchanged++
			return &platform.Change{
				Entry: snapshot.Entry, RemoveBindings: !snapshot.Key.IsBinding, WakeInstance: true,
			}, nil
		})
}

// order is the row of an order that is due.
func order(key platform.Key) platform.Entry {
	return platform.Entry{
		Order: platform.Order{
			Key: key, Broker: "one", Service: osb.MustParseID(theService), Plan: osb.MustParseID(thePlan),
			Names: platform.Names{Instance: key.Instance.String(), Service: theService, Plan: thePlan},
			Space: "a space", Organization: "an organization", Body: []byte("{}"), Try: 1, Tries: 3, First: key.ID(),
		},
		State: platform.Ordered, Since: at(0), Due: at(0),
	}
}

func accept(platform.Snapshot) error { return nil }

// addBroker adds the broker of the orders, unless it is there.
func addBroker(t testing.TB, store platform.Store) {
	t.Helper()
	err := store.AddBroker(background, platform.Broker{Name: "one", URL: "http://one"})
	if err != nil && !errors.Is(err, platform.ErrUsed) {
		t.Fatalf("AddBroker: got %v, want no error", err)
	}
}

// insert writes the orders of keys, and their broker if it isn't there.
func insert(t testing.TB, store platform.Store, keys ...platform.Key) {
	t.Helper()
	addBroker(t, store)
	for _, key := range keys {
		check(t, store.Insert(background, order(key), accept))
	}
}

// Whatever runs at once, no two transactions wait for each other in a circle. The server counts those that do for each
// database, so the test has one of its own.
func TestNoCircle(t *testing.T) {
	const name, instances, bindings, goroutines = "osb_platform_circle", 6, 4, 9
	url := pgtest.URL(t)
	db := pgtest.DB(t, url)
	pgtest.Exec(t, db, "DROP DATABASE IF EXISTS "+name+" WITH (FORCE)",
		"CREATE DATABASE "+name+" ENCODING 'UTF8' TEMPLATE template0")
	t.Cleanup(func() { pgtest.Exec(t, db, "DROP DATABASE "+name+" WITH (FORCE)") })
	stores := []platform.Store{}
	for n := 0; n < 3; n++ {
		stores = append(stores, open(t, pgtest.In(t, url, name)))
	}
	for n := 0; n < instances; n++ {
		insert(t, stores[0], instance(n))
		for of := 0; of < bindings; of++ {
			insert(t, stores[0], binding(of, n))
		}
	}
	var all sync.WaitGroup
	for n := 0; n < goroutines; n++ {
		all.Add(1)
		go func(it caller) {
			defer all.Done()
			for n := 0; n < 60; n++ {
				diff.NoError(t, it.call(), "")
			}
		}(caller{rand.New(rand.NewSource(int64(n))), stores[n%len(stores)], instances, bindings})
	}
	all.Wait()
	if rows, err := stores[0].List(background, platform.Filter{}); err != nil || len(rows) <= instances*(1+bindings) {
		t.Errorf("got %d rows (%v), want more: no binding was ordered again", len(rows), err)
	}
	for _, store := range stores {
		diff.NoError(t, store.Close(), "")
	}
	await(t, db, "the sessions have ended",
		"SELECT NOT EXISTS (SELECT FROM pg_stat_activity WHERE datname = $1 AND backend_type = 'client backend')", name)
	circles := -1
	err := db.QueryRow("SELECT deadlocks FROM pg_stat_database WHERE datname = $1", name).Scan(&circles)
	diff.NoError(t, err, "")
	diff.Equal(t, circles, 0, "circles")
}

// A caller makes calls at random.
type caller struct {
	random              *rand.Rand
	store               platform.Store
	instances, bindings int
}

func (c caller) call() error {
	of := c.random.Intn(c.instances)
	switch c.random.Intn(8) {
	default:
		claimed, err := c.store.Claim(background, []string{"one"}, 1+c.random.Intn(12), c.step)
		for _, row := range claimed {
			if row.Err != nil {
				err = row.Err
			}
		}
		return err
	case 0:
		return c.store.Change(background, instance(of), c.step)
	case 1:
		return c.store.Change(background, binding(c.random.Intn(c.bindings), of), c.step)
	case 2:
		return c.store.Free(background, fmt.Sprint("worker ", c.random.Intn(2)))
	case 3:
		err := c.store.Insert(background, order(binding(c.random.Intn(c.bindings), of)), accept)
		if errors.Is(err, platform.ErrUsed) {
			return nil
		}
		return err
	}
}

// step changes a row and what is beside it. The row is due again at once.
func (c caller) step(now time.Time, snapshot platform.Snapshot) (*platform.Change, error) {
	change := platform.Change{
		Entry: snapshot.Entry, RemoveBindings: c.random.Intn(2) == 0, WakeInstance: c.random.Intn(2) == 0,
	}
	change.Entry.Due, change.Entry.Removal, change.Entry.Lease = now, platform.Removed, platform.Lease{}
	if snapshot.Key.IsBinding && c.random.Intn(20) == 0 { // a further order of the binding
		next := order(binding(c.bindings+1+c.random.Intn(1<<40), 0))
		next.Key.Instance, next.Names.Instance = snapshot.Key.Instance, snapshot.Names.Instance
		change.Next = &next
	}
	if c.random.Intn(2) == 0 {
		change.Entry.Lease = platform.Lease{
			Worker: fmt.Sprint("worker ", c.random.Intn(2)), Until: now.Add(5 * time.Millisecond),
		}
	}
	if snapshot.AllGone != nil && c.random.Intn(2) == 0 {
		if _, err := snapshot.AllGone(); err != nil {
			return nil, err
		}
	}
	return &change, nil
}
