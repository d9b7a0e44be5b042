package postgres_test

import (
	"context"
	"encoding/json"
	"errors"
	"fmt"
	"strconv"
	"strings"
	"sync"
	"testing"
	"time"

	"pippinterm/broker"
	"pippinterm/broker/postgres"
	"pippinterm/broker/storetest"
	"pippinterm/internal/diff"
	"pippinterm/internal/pg"
	"pippinterm/internal/pg/pgtest"
	"pippinterm/internal/storefaults"
	"pippinterm/internal/waits"
	"pippinterm/osb"
)

// schemas gives each test a schema of its own.
type schemas struct {
	turn sync.Mutex
	urls map[string]string
}

func (s *schemas) url(t *testing.T) string {
	s.turn.Lock()
	defer s.turn.Unlock()
	name := "osb_" + storetest.NameOf(t)
	if s.urls[name] == "" {
		s.urls[name] = pgtest.Schema(t, pgtest.URL(t), name)
	}
	return s.urls[name]
}

func TestStore(t *testing.T) {
	pgtest.URL(t)
	all := &schemas{urls: map[string]string{}}
	storetest.Run(t, func(t *testing.T) broker.NamedStore { return open(t, all.url(t)) })
}

// A server hangs while the store has idle sessions, whose statements are closed with them: each would be waited for a
// minute.
func TestClosingWhileTheServerHangs(t *testing.T) {
	proxy, url := storefaults.NewProxy(t, pgtest.Schema(t, pgtest.URL(t), "osb_store_hangs"))
	store := open(t, url)
	openAll(t, store, 4)
	proxy.Hang(true)
	begun := time.Now()
	diff.NoError(t, store.Close(), "")
	if took := time.Since(begun); took > 30*time.Second {
		t.Errorf("got %v, want at most %v", took, 30*time.Second)
	}
}

// After the store was opened, its URL leads to the database of another store, as behind a proxy or a name that was
// changed. No call takes that for its own, since it has other instances and the broker names its store by the id of
// this one.
func TestURLThatLeadsToAnotherStore(t *testing.T) {
	const one, other, name = "osb_store_one", "osb_store_other", "osb_store_moves"
	ctx, db := context.Background(), pgtest.DB(t, pgtest.URL(t))
	store := open(t, pgtest.With(t, pgtest.Schema(t, pgtest.URL(t), one), "application_name", name))
	second := open(t, pgtest.Schema(t, pgtest.URL(t), other))
	for _, opened := range []*postgres.Store{store, second} {
		diff.Value(opened.Begin(ctx, broker.Untied))(t)
		diff.Value(opened.ID(ctx))(t)
	}
	check(t, second.Close())
	swap := func() {
		pgtest.Exec(t, db, "ALTER SCHEMA "+one+" RENAME TO osb_store_swap", "ALTER SCHEMA "+other+" RENAME TO "+one,
			"ALTER SCHEMA osb_store_swap RENAME TO "+other,
			"SELECT pg_terminate_backend(pid, 5000) FROM pg_stat_activity WHERE application_name = '"+name+"'")
	}
	key, calls := osb.InstanceKey(id(1)), 0
	for _, isOther := range []bool{false, true, false} {
		for what, call := range map[string]func() error{
			"Read":       func() error { _, err := store.Read(ctx, key); return err },
			"Change":     func() error { return store.Change(ctx, key, describe("x", &calls)) },
			"Unfinished": func() error { _, err := store.UnfinishedKeys(ctx); return err },
			"Ready":      func() error { return store.Ready(ctx) },
		} {
			t.Run(fmt.Sprintf("%s, over the other store %t", what, isOther), func(t *testing.T) {
				if err := call(); (err != nil) != isOther || err != nil && !strings.Contains(err.Error(), "another store") {
					t.Errorf("%s, over the other store %t: got %v, want an error only there", what, isOther, err)
				}
			})
		}
		if swap(); isOther {
			continue
		}
	}
	swap() // as the end of the test expects it
}

// open returns a store, which is closed at the end of the test.
func open(t *testing.T, url string) *postgres.Store {
	t.Helper()
	store := diff.Value(postgres.Open(context.Background(), url, 4, broker.Silent{}))(t)
	t.Cleanup(func() { _ = store.Close() })
	return store
}

// A store isn't ready before it has a name, and isn't tied.
func TestReadyWithoutAName(t *testing.T) {
	store := open(t, pgtest.Schema(t, pgtest.URL(t), "osb_store_without_a_name"))
	diff.ErrorContains(t, store.Ready(context.Background()), "no name yet", "")
	diff.ErrorContains(t, store.Tie(context.Background(), func(bool) error { return nil }), "no name yet", "Tie")
}

// A store isn't ready if what it writes can't be committed.
func TestReadyCommits(t *testing.T) {
	url, ctx := pgtest.Schema(t, pgtest.URL(t), "osb_store_ready"), context.Background()
	store := open(t, url)
	diff.Value(store.Begin(ctx, broker.Untied))(t)
	diff.NoError(t, store.Ready(ctx), "")
	trigger(t, url, "osb_store", "DEFERRABLE INITIALLY DEFERRED", "RAISE EXCEPTION 'no';")
	diff.Error(t, store.Ready(ctx), "the commit has failed")
}

func TestStoreWithoutConnections(t *testing.T) {
	_, err := postgres.Open(context.Background(), "postgresql://127.0.0.1:1/none", 0, broker.Silent{})
	diff.ErrorContains(t, err, "at least 1 connection", "")
	diff.ErrorIs(t, diff.Err(postgres.Open(context.Background(), "no URL", 1, broker.Silent{})), pg.ErrBadAddress, "")
}

// The tables of version 0.2.0, with an instance that is ready, one with pending work and one that has ended.
var of02 = []string{
	`CREATE TABLE osb_holdings (id uuid PRIMARY KEY, holding text NOT NULL, unfinished boolean NOT NULL)`,
	`CREATE INDEX osb_unfinished_holdings ON osb_holdings (id) WHERE unfinished`,
	`CREATE UNLOGGED TABLE osb_workers (id uuid PRIMARY KEY, worker bigint NOT NULL)`,
	`CREATE TABLE osb_store (one boolean PRIMARY KEY DEFAULT true CHECK (one), name text NOT NULL,
		is_tied boolean NOT NULL DEFAULT false)`,
	`INSERT INTO osb_store VALUES (true, 'of 0.2', true)`,
	insert02(1, `{"marked":false,"row":{"phase":"ready",`+sold+`},"version":1,"work":null}`, false),
	insert02(2, `{"marked":false,"row":null,"version":1,"work":{"accepts_incomplete":true,`+
		`"id":"00000000-0000-4000-8000-000000000002","kind":"provision",`+sold+`}}`, true),
	insert02(3, `{"marked":true,"row":null,"version":1,"work":null}`, false),
}

const sold = `"plan":"00000000-0000-0000-0000-0000000000b1","service":"00000000-0000-0000-0000-0000000000a0"`

func insert02(n int, holding string, unfinished bool) string {
	return fmt.Sprintf("INSERT INTO osb_holdings VALUES ('%v', '%s', %t)", id(n), holding, unfinished)
}

func id(n int) osb.ID { return osb.MustParseID(fmt.Sprintf("00000000-0000-4000-8000-%012x", n)) }

func TestTablesOf02(t *testing.T) {
	url := pgtest.Schema(t, pgtest.URL(t), "osb_store_of_02")
	db := pgtest.DB(t, url)
	pgtest.Exec(t, db, of02...)
	ctx := context.Background()
	for n := 0; n < 2; n++ { // the second time nothing is left to do
		store := open(t, url)
		diff.Equal(t, diff.Value(store.Name(ctx))(t), "of 0.2", "the name")
		snapshot, err := store.Read(ctx, osb.InstanceKey(id(1)))
		row, isHeld := snapshot.Holding.Row()
		if err != nil || !isHeld || row.Phase != osb.PhaseReady || snapshot.Request != nil {
			t.Errorf("the instance that is ready: got %+v, %v, want it without a request", snapshot, err)
		}
		keys, err := store.UnfinishedKeys(ctx)
		if err != nil || len(keys) != 1 || keys[0] != osb.InstanceKey(id(2)) {
			t.Errorf("unfinished: got %v, %v, want the second", keys, err)
		}
		diff.Equal(t, diff.Value(store.Stats(ctx))(t), broker.Stats{Pending: 1, Tombstones: 1}, "counts")
		diff.NoError(t, store.Close(), "")
	}
	store := open(t, url)
	err := store.Change(ctx, osb.InstanceKey(id(1)), func(snapshot broker.Snapshot) (*broker.Entry, error) {
		snapshot.Description = "extended"
		return &snapshot.Entry, nil
	})
	check(t, err)
	diff.Equal(t, diff.Value(store.Read(ctx, osb.InstanceKey(id(1))))(t).Description, "extended", "")
}

// The tables of an early 0.3.0, before tombstones had a time, with an instance and a binding that have ended.
func withoutTimes(t *testing.T) []string {
	return append(append([]string{}, of02...),
		`ALTER TABLE osb_holdings ADD COLUMN request text, ADD COLUMN description text NOT NULL DEFAULT '',
		ADD COLUMN since timestamptz`,
		`CREATE TABLE osb_bindings (instance uuid NOT NULL, binding uuid NOT NULL, holding text NOT NULL,
		held boolean NOT NULL, unfinished boolean NOT NULL, request text, object text,
		description text NOT NULL DEFAULT '', since timestamptz, PRIMARY KEY (instance, binding))`,
		`CREATE UNLOGGED TABLE osb_binding_workers (instance uuid NOT NULL, binding uuid NOT NULL,
			worker bigint NOT NULL, PRIMARY KEY (instance, binding))`,
		fmt.Sprintf("INSERT INTO osb_holdings (id, holding, unfinished) VALUES ('%v', '%s', false)", id(4),
			endedText(t, osb.Holding.MarshalJSON)),
		fmt.Sprintf("INSERT INTO osb_bindings (instance, binding, holding, held, unfinished) "+
			"VALUES ('%v', '%v', '%s', false, false)", id(1), id(2), endedText(t, osb.Holding.BindingText)))
}

// endedText is the text of a holding with a tombstone.
func endedText(t *testing.T, write func(osb.Holding) ([]byte, error)) []byte {
	t.Helper()
	var ended osb.Holding
	check(t, ended.UnmarshalJSON([]byte(`{"marked":true,"row":null,"version":1,"work":null}`)))
	return diff.Value(write(ended))(t)
}

// The tables of a broker of version 0.3, with the numbers of its workers: they are forgotten.
func TestWorkersOf03(t *testing.T) {
	url := pgtest.Schema(t, pgtest.URL(t), "osb_store_workers_03")
	db := pgtest.DB(t, url)
	pgtest.Exec(t, db, withoutTimes(t)...)
	pgtest.Exec(t, db, fmt.Sprintf("INSERT INTO osb_workers VALUES ('%v', 7)", id(2)),
		fmt.Sprintf("INSERT INTO osb_binding_workers VALUES ('%v', '%v', 8)", id(1), id(2)))
	for n := 0; n < 2; n++ { // the second time nothing is left to do
		store := open(t, url)
		for _, key := range []broker.Key{osb.InstanceKey(id(2)), osb.BindingKey(id(1), id(2))} {
			entry := diff.Value(store.Read(context.Background(), key))(t).Entry
			diff.Equal(t, entry.Worker, map[bool]osb.ID{true: id(9)}[n > 0], "%v", key)
			diff.Equal(t, entry.Change != nil, n > 0 && !key.IsBinding, "%v was updated", key)
			check(t, store.Change(context.Background(), key, func(snapshot broker.Snapshot) (*broker.Entry, error) {
				snapshot.Worker = id(9)
				snapshot.Change = &broker.Change{Settings: broker.Settings{PlanID: "p"}}
				return &snapshot.Entry, nil
			}))
		}
		diff.NoError(t, store.Close(), "")
	}
	for _, table := range []string{"osb_workers", "osb_binding_workers"} {
		pgtest.Exec(t, db, "CREATE UNLOGGED TABLE IF NOT EXISTS "+table+" (id uuid PRIMARY KEY, worker bigint NOT NULL)")
		_, err := db.Exec("SELECT worker FROM " + table)
		diff.ErrorContains(t, err, "worker", "what version 0.3 reads of %s", table)
	}
}

// PostgreSQL reads no JSON with \u0000 in it. Parameters may have it, and the rows are counted all the same.
func TestStatsOfOddParameters(t *testing.T) {
	url := pgtest.Schema(t, pgtest.URL(t), "osb_store_odd")
	store, ctx := open(t, url), context.Background()
	for n, phase := range []string{"pending", "mending", "updating"} {
		change := updatingIn(t, `{"phase":"settled","a":"\u0000"}`)
		check(t, store.Change(ctx, osb.InstanceKey(id(n+1)), func(broker.Snapshot) (*broker.Entry, error) { return change, nil }))
		pgtest.Exec(t, pgtest.DB(t, url), `UPDATE osb_holdings SET change = replace(change, '"phase":"pending"', '"phase":"`+phase+
			`"') WHERE id = '`+osb.InstanceKey(id(n+1)).Instance.String()+`'`)
	}
	for _, count := range []func(context.Context) (broker.Stats, error){store.UnfinishedStats, store.Stats} {
		stats := diff.Value(count(ctx))(t)
		diff.Equal(t, stats.Pending, 2, "pending")
		diff.Equal(t, stats.Operating, 1, "operating")
	}
}

// updatingIn is the entry of an instance whose update to these parameters is pending.
func updatingIn(t *testing.T, parameters string) *broker.Entry {
	t.Helper()
	service, plan := osb.MustParseID("00000000-0000-0000-0000-0000000000a0"), osb.MustParseID("00000000-0000-0000-0000-0000000000b1")
	held, _, err := osb.Holding{}.Begin(osb.ModeSync, osb.Request{Service: service, Plan: plan}, osb.Rules{})
	check(t, err)
	held, _, err = held.End(osb.ModeSync, osb.OutcomeDone)
	check(t, err)
	digest := diff.Value(osb.ParametersDigest([]byte(parameters)))(t)
	updates, _, err := osb.NewUpdateHolding(osb.Settings{Plan: plan}).Begin(held, osb.AllowedSync,
		osb.Update{Service: service, Change: osb.Change{Parameters: digest, HasParameters: true}})
	check(t, err)
	to := broker.Settings{PlanID: "p", Parameters: json.RawMessage(parameters)}
	return &broker.Entry{Holding: held, Change: &broker.Change{Holding: updates, To: &to}}
}

// What is kept of updates has to be readable, or nobody changes the row.
func TestChangeOfARowWithWrongUpdates(t *testing.T) {
	url := pgtest.Schema(t, pgtest.URL(t), "osb_store_wrong_updates")
	store := open(t, url)
	check(t, store.Change(context.Background(), osb.InstanceKey(id(1)), func(broker.Snapshot) (*broker.Entry, error) {
		return &broker.Entry{}, nil
	}))
	pgtest.Exec(t, pgtest.DB(t, url), `UPDATE osb_holdings SET change = '{"holding":{}}'`)
	err := store.Change(context.Background(), osb.InstanceKey(id(1)), func(it broker.Snapshot) (*broker.Entry, error) {
		t.Errorf("the step: got a call with %+v, want none", it)
		return nil, nil
	})
	diff.ErrorContains(t, err, id(1).String(), "")
}

// A tombstone without a time gets that of the migration, once. Rows without a tombstone get none.
func TestTombstonesWithoutATime(t *testing.T) {
	url := pgtest.Schema(t, pgtest.URL(t), "osb_store_without_times")
	pgtest.Exec(t, pgtest.DB(t, url), withoutTimes(t)...)
	ctx, before := context.Background(), time.Now()
	_ = open(t, url).Close()
	time.Sleep(50 * time.Millisecond)
	store := open(t, url) // which changes no time
	for _, key := range []broker.Key{
		osb.InstanceKey(id(3)), osb.InstanceKey(id(4)), osb.BindingKey(id(1), id(2)),
	} {
		t.Run(key.String(), func(t *testing.T) {
			snapshot, err := store.Read(ctx, key)
			if err != nil || !snapshot.Holding.HasTombstone() || snapshot.EndedAgo < 40*time.Millisecond ||
				snapshot.EndedAgo > time.Since(before)+10*time.Millisecond || snapshot.Life != 0 {
				t.Errorf("%v: got %+v and the error %v, want a tombstone of now in life 0", key, snapshot, err)
			}
		})
	}
	for _, n := range []int{1, 2} {
		snapshot, err := store.Read(ctx, osb.InstanceKey(id(n)))
		if err != nil || !snapshot.Holding.IsHeld() || snapshot.EndedAgo != 0 || snapshot.Life != 0 {
			t.Errorf("%d: got %+v and the error %v, want an instance that is held, in life 0", n, snapshot, err)
		}
	}
}

// Brokers that start at once create or extend the tables once.
func TestManyOpen(t *testing.T) {
	for _, test := range []struct {
		schema string
		tables []string
	}{{"osb_store_many_new", nil}, {"osb_store_many_02", of02}, {"osb_store_many_03", withoutTimes(t)}} {
		t.Run(test.schema, func(t *testing.T) {
			url := pgtest.Schema(t, pgtest.URL(t), test.schema)
			pgtest.Exec(t, pgtest.DB(t, url), test.tables...)
			waits.Together(6, func(int) {
				store, err := postgres.Open(context.Background(), url, 1, broker.Silent{})
				if err != nil {
					t.Errorf("got the error %v, want none", err)
					return
				}
				diff.NoError(t, store.Close(), "")
			})
		})
	}
}

// A role that may not alter tables serves tables that need no change, and the error says what to do about others.
func TestARoleThatMayNotAlter(t *testing.T) {
	url := pgtest.Schema(t, pgtest.URL(t), "osb_store_rights")
	db := pgtest.DB(t, url)
	pgtest.Exec(t, db, of02...)
	pgtest.Exec(t, db, "DROP ROLE IF EXISTS osb_store_writer", "CREATE ROLE osb_store_writer LOGIN PASSWORD 'x'",
		"GRANT USAGE ON SCHEMA osb_store_rights TO osb_store_writer",
		"ALTER DEFAULT PRIVILEGES IN SCHEMA osb_store_rights GRANT SELECT, INSERT, UPDATE ON TABLES TO osb_store_writer",
		"GRANT SELECT, INSERT, UPDATE ON ALL TABLES IN SCHEMA osb_store_rights TO osb_store_writer")
	t.Cleanup(func() { pgtest.Exec(t, db, "DROP OWNED BY osb_store_writer", "DROP ROLE osb_store_writer") })
	as := pgtest.As(t, url, "osb_store_writer", "x")
	_, err := postgres.Open(context.Background(), as, 1, broker.Silent{})
	diff.ErrorContains(t, err, "as their owner", "before the tables were extended")
	_ = open(t, url).Close()
	store, err := postgres.Open(context.Background(), as, 1, broker.Silent{})
	check(t, err)
	defer store.Close()
	key := osb.BindingKey(id(1), id(1))
	err = store.Change(context.Background(), key, func(snapshot broker.Snapshot) (*broker.Entry, error) {
		return &snapshot.Entry, nil
	})
	diff.NoError(t, err, "")
	diff.NoError(t, store.Ready(context.Background()), "")
}

func TestAnotherEncoding(t *testing.T) {
	url := pgtest.URL(t)
	db := pgtest.DB(t, url)
	pgtest.Exec(t, db, "DROP DATABASE IF EXISTS osb_store_latin1",
		"CREATE DATABASE osb_store_latin1 ENCODING 'LATIN1' LOCALE 'C' TEMPLATE template0")
	t.Cleanup(func() { pgtest.Exec(t, db, "DROP DATABASE osb_store_latin1 WITH (FORCE)") })
	latin := pgtest.In(t, url, "osb_store_latin1")
	diff.ErrorContains(t, diff.Err(postgres.Open(context.Background(), latin, 1, broker.Silent{})), "LATIN1", "Open")
}

// What every store must do if one of its statements fails.
func TestFaults(t *testing.T) {
	pgtest.URL(t)
	all := &schemas{urls: map[string]string{}}
	storetest.RunFaults(t, storetest.Faulty{
		Open: func(t *testing.T) (broker.NamedStore, *storefaults.Countdown) {
			proxy, url := storefaults.NewProxy(t, all.url(t))
			return open(t, url), &proxy.Countdown
		},
		Beside: func(t *testing.T) broker.NamedStore { return open(t, all.url(t)) },
		Spoil: func(t *testing.T, key broker.Key) {
			table, where := "osb_holdings", "id = '"+key.Instance.String()+"'"
			if key.IsBinding {
				table, where = "osb_bindings", "binding = '"+key.Binding.String()+"'"
			}
			pgtest.Exec(t, pgtest.DB(t, all.url(t)), "UPDATE "+table+" SET holding = '{}' WHERE "+where)
		},
		Faults: []storefaults.Fault{storefaults.Refused, storefaults.Cut, storefaults.Lost, storefaults.Broken},
	})
}

// Each statement of Open fails once, over an empty schema: the error is returned, and the store can be opened later.
func TestOpeningThatFails(t *testing.T) {
	proxy, url := storefaults.NewProxy(t, pgtest.Schema(t, pgtest.URL(t), "osb_opening"))
	for n, failed := 1, "none yet"; failed != ""; n++ {
		proxy.Fail(n, storefaults.Refused)
		store, err := postgres.Open(context.Background(), url, 2, broker.Silent{})
		failed = proxy.FailedStatement()
		proxy.Fail(0, storefaults.Refused)
		if (failed != "") != (err != nil) && !storefaults.IsBegin(failed) {
			t.Errorf("%q has failed: got %v, want an error exactly then", failed, err)
		}
		if err == nil {
			_ = store.Close()
		}
	}
}

// While the server can't be reached, every call fails with broker.ErrAway, and so does one whose COMMIT isn't
// answered. Other errors aren't that one. Once the server is back, the store is too.
func TestServerThatIsAway(t *testing.T) {
	ctx, calls := context.Background(), 0
	proxy, through := storefaults.NewProxy(t, pgtest.Schema(t, pgtest.URL(t), "osb_away"))
	store, err := postgres.Open(ctx, through, 2, broker.Silent{})
	check(t, err)
	t.Cleanup(func() { _ = store.Close() })
	key := osb.InstanceKey(osb.MustParseID("00000000-0000-0000-0000-000000000001"))
	change := func(text string) error { return store.Change(ctx, key, describe(text, &calls)) }
	all := map[string]func() error{
		"Change":       func() error { return change("away") },
		"Read":         func() error { _, err := store.Read(ctx, key); return err },
		"Unfinished":   func() error { _, err := store.UnfinishedKeys(ctx); return err },
		"HeldBindings": func() error { _, err := store.HeldBindings(ctx, key.Instance); return err },
		"Ready":        func() error { return store.Ready(ctx) },
	}
	proxy.Cut("\x00") // a byte of every message
	for round := 0; round < 2; round++ {
		for name, call := range all {
			t.Run(name, func(t *testing.T) {
				diff.ErrorIs(t, call(), broker.ErrAway, "%s while the server is away", name)
			})
		}
	}
	proxy.Cut("")
	check(t, change("back"))
	proxy.Cut("COMMIT\x00")
	lost := change("lost")
	diff.ErrorIs(t, lost, broker.ErrAway, "Change without an answer to the COMMIT")
	diff.ErrorIs(t, lost, pg.ErrUnknownCommit, "Change without an answer to the COMMIT")
	proxy.Cut("")
	own := errors.New("the step's own")
	err = store.Change(ctx, key, func(broker.Snapshot) (*broker.Entry, error) { return nil, own })
	diff.ErrorIs(t, err, own, "Change after an error of the step")
	diff.Equal(t, errors.Is(err, broker.ErrAway), false, "it is ErrAway: %v", err)
	diff.Equal(t, descriptionOf(t, store, key), "lost", "the store")
}

// While the server is silent, the calls of a request fail with broker.ErrAway within a limit, on sessions that were
// idle, on new ones, and while they wait for one.
func TestServerThatIsSilent(t *testing.T) {
	ctx, calls := context.Background(), 0
	proxy, through := storefaults.NewProxy(t, pgtest.Schema(t, pgtest.URL(t), "osb_silent"))
	store, err := postgres.Open(ctx, through, 3, broker.Silent{})
	check(t, err)
	t.Cleanup(func() { _ = store.Close() })
	key := osb.InstanceKey(osb.MustParseID("00000000-0000-0000-0000-000000000001"))
	check(t, store.Change(ctx, key, describe("before", &calls)))
	openAll(t, store, 3)
	proxy.Hang(true)
	all := map[string]func() error{
		"Change":       func() error { return store.Change(ctx, key, describe("silent", new(int))) },
		"Read":         func() error { _, err := store.Read(ctx, key); return err },
		"HeldBindings": func() error { _, err := store.HeldBindings(ctx, key.Instance); return err },
	}
	done := make(chan struct{}, 2*len(all))
	for name, call := range all {
		for n := 0; n < 2; n++ {
			name, call := name, call
			go func() {
				diff.ErrorIs(t, call(), broker.ErrAway, "%s", name)
				done <- struct{}{}
			}()
		}
	}
	late := time.After(time.Minute)
	for n := 0; n < cap(done); n++ {
		select {
		case <-done:
		case <-late:
			t.Fatal("got a call that waits for the silent server, want its end")
		}
	}
	proxy.Hang(false)
	diff.Equal(t, descriptionOf(t, store, key), "before", "the store")
}

// While the server is silent, a binding isn't read as one that was never there.
func TestReadOfASilentServer(t *testing.T) {
	ctx, calls := context.Background(), 0
	proxy, through := storefaults.NewProxy(t, pgtest.Schema(t, pgtest.URL(t), "osb_silent_read"))
	store := open(t, through)
	instance := osb.MustParseID("00000000-0000-0000-0000-000000000001")
	for _, key := range []broker.Key{osb.InstanceKey(instance), osb.BindingKey(instance, instance)} {
		t.Run(key.String(), func(t *testing.T) {
			check(t, store.Change(ctx, key, describe("text", &calls)))
			diff.Equal(t, descriptionOf(t, store, key), "text", "%v", key)
			proxy.Hang(true)
			diff.ErrorIs(t, diff.Err(store.Read(ctx, key)), broker.ErrAway, "%v", key)
			proxy.Hang(false)
		})
	}
}

// describe writes a description, and counts its calls.
func describe(text string, calls *int) broker.Step {
	return func(snapshot broker.Snapshot) (*broker.Entry, error) {
		*calls++
		snapshot.Description = text
		return &snapshot.Entry, nil
	}
}

func descriptionOf(t *testing.T, store broker.Store, key broker.Key) string {
	t.Helper()
	return diff.Value(store.Read(context.Background(), key))(t).Description
}

// failures are what an observer got.
type failures struct {
	broker.Silent
	turn sync.Mutex
	told []broker.Failure
}

func (f *failures) OnFailure(it broker.Failure) {
	f.turn.Lock()
	defer f.turn.Unlock()
	f.told = append(f.told, it)
}

// trigger has the statement run by each change of a row, at once or with the COMMIT.
func trigger(t *testing.T, url, table, when, statement string) {
	t.Helper()
	pgtest.Exec(t, pgtest.DB(t, url), "CREATE SEQUENCE tries",
		"CREATE FUNCTION f() RETURNS trigger LANGUAGE plpgsql AS $$ BEGIN "+statement+" RETURN NULL; END $$",
		"CREATE CONSTRAINT TRIGGER of_test AFTER UPDATE ON "+table+" "+when+" FOR EACH ROW EXECUTE FUNCTION f()")
}

// No change is reported as written that was rolled back, or of which nobody knows.
func TestACommitThatFails(t *testing.T) {
	for _, test := range []struct {
		name, schema, statement string
		isUnknown               bool
	}{
		{"with an error", "osb_store_fails", "RAISE EXCEPTION 'no';", false},
		{"with a warning", "osb_store_warns", "RAISE WARNING 'no standby';", true},
	} {
		t.Run(test.name, func(t *testing.T) {
			url := pgtest.Schema(t, pgtest.URL(t), test.schema)
			store := open(t, url)
			trigger(t, url, "osb_holdings", "DEFERRABLE INITIALLY DEFERRED", test.statement)
			key, calls := osb.InstanceKey(id(1)), 0
			err := store.Change(context.Background(), key, describe("x", &calls))
			if err == nil || errors.Is(err, pg.ErrUnknownCommit) != test.isUnknown || calls != 1 {
				t.Errorf("after %d calls: got %v, want one after 1", calls, err)
			}
			if got := descriptionOf(t, store, key); got != "" && !test.isUnknown {
				t.Errorf("got %q written, want it only if that is unknown", got)
			}
		})
	}
}

func TestACommitWhoseAnswerIsLost(t *testing.T) {
	proxy, url := storefaults.NewProxy(t, pgtest.Schema(t, pgtest.URL(t), "osb_store_lost"))
	store := open(t, url)
	proxy.Cut("COMMIT\x00")
	key, calls := osb.InstanceKey(id(1)), 0
	err := store.Change(context.Background(), key, describe("x", &calls))
	diff.ErrorIs(t, err, pg.ErrUnknownCommit, "")
	diff.Equal(t, calls, 1, "calls: once more could write it twice")
	proxy.Cut("")
	diff.NoError(t, store.Change(context.Background(), key, describe("y", &calls)), "the next change")
}

// What another transaction has undone is tried again, and reported, but not for ever.
func TestConflicts(t *testing.T) {
	for _, test := range []struct {
		name, schema, code string
		fails, calls       int
		isWritten          bool
	}{
		{"a deadlock", "osb_store_deadlock", "40P01", 2, 3, true},
		{"a serialization failure", "osb_store_serial", "40001", 1, 2, true},
		{"a conflict that stays", "osb_store_stays", "40001", 1000, 6, false},
		{"another error", "osb_store_other", "22012", 1, 1, false},
	} {
		t.Run(test.name, func(t *testing.T) {
			url := pgtest.Schema(t, pgtest.URL(t), test.schema)
			told := &failures{}
			store, err := postgres.Open(context.Background(), url, 2, told)
			check(t, err)
			defer store.Close()
			trigger(t, url, "osb_holdings", "", "IF nextval('tries') <= "+strconv.Itoa(test.fails)+
				" THEN RAISE EXCEPTION USING ERRCODE = '"+test.code+"'; END IF;")
			key, calls := osb.InstanceKey(id(1)), 0
			err = store.Change(context.Background(), key, describe("x", &calls))
			if (err == nil) != test.isWritten || !test.isWritten && !pg.IsCode(err, test.code) || calls != test.calls {
				t.Errorf("after %d calls: got %v, want %s after %d", calls, err, test.code, test.calls)
			}
			diff.Equal(t, descriptionOf(t, store, key) == "x", test.isWritten, "")
			if len(told.told) != test.calls-1 || len(told.told) > 0 && told.told[0].Key != key {
				t.Errorf("the reports: got %v, want one for each repetition", told.told)
			}
		})
	}
}

// Sessions that the server has ended while they were idle fail nobody.
func TestSessionsThatTheServerEnds(t *testing.T) {
	const most = 4
	url := pgtest.With(t, pgtest.Schema(t, pgtest.URL(t), "osb_store_ends"), "application_name", "osb_store_ends")
	store := open(t, url)
	key, calls := osb.BindingKey(id(1), id(1)), 0
	calling := map[string]func() error{
		"Change":     func() error { return store.Change(context.Background(), key, describe("x", &calls)) },
		"Read":       func() error { _, err := store.Read(context.Background(), key); return err },
		"Unfinished": func() error { _, err := store.UnfinishedKeys(context.Background()); return err },
	}
	for name, call := range calling {
		t.Run(name, func(t *testing.T) {
			openAll(t, store, most)
			pgtest.Exec(t, pgtest.DB(t, pgtest.URL(t)),
				"SELECT pg_terminate_backend(pid, 5000) FROM pg_stat_activity WHERE application_name = 'osb_store_ends'")
			for n := 0; n < most; n++ {
				diff.NoError(t, call(), "")
			}
		})
	}
}

// openAll has so many transactions run at once, so that the store has so many sessions.
func openAll(t *testing.T, store broker.Store, count int) {
	t.Helper()
	entered, done, gate := make(chan struct{}, count), make(chan error, count), make(chan struct{})
	var once sync.Once
	open := func() { once.Do(func() { close(gate) }) }
	defer open() // before the store is closed, which waits for the steps
	for n := 0; n < count; n++ {
		key := osb.InstanceKey(id(100 + n))
		go func() {
			done <- store.Change(context.Background(), key, func(broker.Snapshot) (*broker.Entry, error) {
				select {
				case entered <- struct{}{}:
				default: // it is called again
				}
				<-gate
				return nil, nil
			})
		}()
	}
	for n := 0; n < count; n++ {
		select {
		case <-entered:
		case err := <-done:
			t.Fatalf("a change: got %v before its step, want it to wait", err)
		}
	}
	open()
	for n := 0; n < count; n++ {
		diff.NoError(t, <-done, "")
	}
}

// A look at a row that the server ends is an error that may be over later, and the step isn't called.
func TestALookAtARowThatIsEnded(t *testing.T) {
	const name = "osb_store_look"
	ctx, url := context.Background(), pgtest.Schema(t, pgtest.URL(t), name)
	store := open(t, pgtest.With(t, url, "application_name", name))
	key, calls := osb.InstanceKey(id(1)), 0
	check(t, store.Change(ctx, key, describe("before", new(int))))
	db := pgtest.DB(t, url)
	holder, err := db.BeginTx(ctx, nil)
	check(t, err)
	defer func() { _ = holder.Rollback() }()
	_, err = holder.Exec("SELECT FROM osb_holdings FOR UPDATE")
	check(t, err)
	changed := waits.Begin(func() error { return store.Change(ctx, key, describe("x", &calls)) })
	for until := time.Now().Add(time.Minute); time.Now().Before(until); {
		pgtest.Exec(t, db, "SELECT pg_cancel_backend(pid) FROM pg_stat_activity WHERE application_name = '"+name+
			"' AND wait_event_type = 'Lock'")
		select {
		case err := <-changed:
			diff.ErrorIs(t, err, broker.ErrAway, "")
			diff.Equal(t, calls, 0, "")
			return
		case <-time.After(10 * time.Millisecond):
		}
	}
	t.Error("got a look at the row that goes on, want its end")
}

// A session that ends while its step runs writes nothing.
func TestASessionThatEndsDuringAStep(t *testing.T) {
	url := pgtest.With(t, pgtest.Schema(t, pgtest.URL(t), "osb_store_step"), "application_name", "osb_store_step")
	store := open(t, url)
	key := osb.InstanceKey(id(1))
	err := store.Change(context.Background(), key, func(snapshot broker.Snapshot) (*broker.Entry, error) {
		pgtest.Exec(t, pgtest.DB(t, pgtest.URL(t)),
			"SELECT pg_terminate_backend(pid, 5000) FROM pg_stat_activity WHERE application_name = 'osb_store_step'")
		snapshot.Description = "x"
		return &snapshot.Entry, nil
	})
	diff.Error(t, err, "the change")
	diff.Equal(t, descriptionOf(t, store, key), "", "what is written")
}

// A context that ends while a step runs, or while the row is waited for, writes nothing, and frees the row.
func TestAContextThatEnds(t *testing.T) {
	store := open(t, pgtest.Schema(t, pgtest.URL(t), "osb_store_context"))
	key, calls := osb.InstanceKey(id(1)), 0
	ctx, cancel := context.WithCancel(context.Background())
	err := store.Change(ctx, key, func(snapshot broker.Snapshot) (*broker.Entry, error) {
		cancel()
		snapshot.Description = "x"
		return &snapshot.Entry, nil
	})
	diff.ErrorIs(t, err, context.Canceled, "in the step")
	diff.Equal(t, descriptionOf(t, store, key), "", "in the step")
	ctx, cancel = context.WithCancel(context.Background())
	err = store.Change(context.Background(), key, func(snapshot broker.Snapshot) (*broker.Entry, error) {
		waited := waits.Begin(func() error { return store.Change(ctx, key, describe("of the second", &calls)) })
		cancel()
		diff.ErrorIs(t, <-waited, context.Canceled, "the second")
		snapshot.Description = "of the first"
		return &snapshot.Entry, nil
	})
	if err != nil || descriptionOf(t, store, key) != "of the first" || calls != 0 {
		t.Errorf("the first: got %v, want it written", err)
	}
}

// A row that is deleted by hand isn't taken for an instance of which nothing is kept, in the middle of a change.
func TestARowThatIsGone(t *testing.T) {
	url := pgtest.Schema(t, pgtest.URL(t), "osb_store_gone")
	store := open(t, url)
	pgtest.Exec(t, pgtest.DB(t, url), "CREATE RULE gone AS ON INSERT TO osb_holdings DO INSTEAD NOTHING")
	calls := 0
	err := store.Change(context.Background(), osb.InstanceKey(id(1)), describe("x", &calls))
	diff.ErrorContains(t, err, "Never delete rows", "")
	diff.Equal(t, calls, 0, "calls")
}

// A change that writes no row has failed.
func TestAChangeThatWritesNoRow(t *testing.T) {
	url := pgtest.Schema(t, pgtest.URL(t), "osb_store_no_row")
	store := open(t, url)
	pgtest.Exec(t, pgtest.DB(t, url),
		"CREATE FUNCTION f() RETURNS trigger LANGUAGE plpgsql AS 'BEGIN RETURN NULL; END'",
		"CREATE TRIGGER of_test BEFORE UPDATE ON osb_holdings FOR EACH ROW EXECUTE FUNCTION f()",
		"CREATE TRIGGER of_test BEFORE UPDATE ON osb_bindings FOR EACH ROW EXECUTE FUNCTION f()")
	for _, key := range []broker.Key{osb.InstanceKey(id(1)), osb.BindingKey(id(1), id(2))} {
		t.Run(key.String(), func(t *testing.T) {
			calls := 0
			err := store.Change(context.Background(), key, describe("x", &calls))
			diff.ErrorContains(t, err, "Never delete rows", "%v", key)
			diff.Equal(t, calls, 1, "%v: calls", key)
		})
	}
}

var check = diff.Must
