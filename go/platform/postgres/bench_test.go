package postgres_test

import (
	"fmt"
	"os"
	"strings"
	"sync"
	"sync/atomic"
	"testing"
	"time"

	"pippinterm/internal/diff"
	"pippinterm/internal/pg"
	"pippinterm/internal/pg/pgtest"
	"pippinterm/internal/storefaults"
	"pippinterm/osb"
	"pippinterm/platform"
	"pippinterm/platform/postgres"
	"pippinterm/platform/storetest"
)

const (
	workers = 3    // that run at once, each with a store of its own
	slots   = 16   // of each: so many exchanges run at once
	stepped = 1000 // rows, as often as they are due; the others rest
)

// BenchmarkSteps has three engines step rows, each with a store of its own, and with 16 connections to a broker that
// answers at once.
//
//	scripts/go test -run xxx -bench Steps -benchtime 20000x ./platform/postgres
func BenchmarkSteps(b *testing.B) {
	for _, rows := range []int{stepped, 100 * stepped} {
		url, stores := fill(b, rows), []platform.Store{}
		for n := 0; n < workers; n++ {
			store := diff.Value(postgres.Open(background, url, slots+1))(b)
			defer store.Close()
			stores = append(stores, store)
		}
		b.Run(fmt.Sprint(rows, " rows"), func(b *testing.B) { storetest.BenchmarkSteps(b, stores...) })
	}
}

// BenchmarkTransactions has three workers do the transactions of steps alone: a claim of as many rows as there are free
// slots, and a change for each. A row that is polled keeps its state, and a row that changes has two stays.
func BenchmarkTransactions(b *testing.B) {
	for _, kind := range []string{"polled", "changed"} {
		for _, rows := range []int{stepped, 100 * stepped} {
			b.Run(fmt.Sprintf("%s/%d", kind, rows), func(b *testing.B) { benchmark(b, rows, kind == "changed") })
		}
	}
}

func benchmark(b *testing.B, rows int, isChanged bool) {
	url := fill(b, rows)
	left, begun := int64(b.N), time.Now()
	b.ResetTimer()
	var all sync.WaitGroup
	for n := 0; n < workers; n++ {
		store := diff.Value(postgres.Open(background, url, slots+1))(b)
		defer store.Close()
		all.Add(1)
		go func(worker string) {
			defer all.Done()
			stepAll(b, store, worker, &left, isChanged)
		}(fmt.Sprint("worker ", n))
	}
	all.Wait()
	b.StopTimer()
	b.ReportMetric(float64(b.N)/time.Since(begun).Seconds(), "steps/s")
}

// fill is the URL of a store with so many rows that are polled. The first of them are due.
func fill(b *testing.B, rows int) string {
	b.Helper()
	address := os.Getenv(pgtest.Variable)
	if address == "" {
		b.Skip("set " + pgtest.Variable + " to the URL of a PostgreSQL server, as a superuser, that is for tests only")
	}
	const schema = "osb_platform_bench"
	options := pg.Options{
		Most: 1, Lock: deadline, Statement: 10 * deadline, Idle: deadline,
		Settings: map[string]string{"search_path": schema},
	}
	db := diff.Value(pg.Open(address, options))(b)
	b.Cleanup(func() {
		_, _ = db.Exec("DROP SCHEMA " + schema + " CASCADE")
		_ = db.Close()
	})
	url := address + "?search_path=" + schema
	if strings.Contains(address, "?") {
		url = address + "&search_path=" + schema
	}
	for _, text := range []string{"DROP SCHEMA IF EXISTS " + schema + " CASCADE", "CREATE SCHEMA " + schema} {
		diff.Value(db.Exec(text))(b)
	}
	store := open(b, url)
	polled := order(instance(0))
	polled.State, polled.IsSent, polled.Record = platform.Polling, true, pollingRecord(b)
	polled.PolledSince = time.Now()
	addBroker(b, store)
	check(b, store.Insert(background, polled, accept))
	_ = store.Close()
	const copies = "INSERT INTO osb_instances SELECT (t).* FROM (SELECT json_populate_record(t, json_build_object(" +
		"'id', c.id, 'first', c.id, 'due', CASE WHEN c.n < $2 THEN due END, " +
		"'names', json_build_object('instance', c.id, 'service', service, 'plan', plan)::text)) AS t " +
		"FROM osb_instances AS t, LATERAL (SELECT n, '00000000-0000-4000-8000-' || lpad(to_hex(n), 12, '0') AS id " +
		"FROM generate_series(1, $1 - 1) AS n) AS c) AS s"
	diff.Value(db.Exec(copies, rows, stepped))(b)
	diff.Value(db.Exec("ANALYZE"))(b)
	return url
}

func pollingRecord(b *testing.B) osb.Record {
	b.Helper()
	wanted, sent := osb.Create(id(0), osb.MustParseID(theService), osb.MustParseID(thePlan), true)
	record := diff.Value(wanted.Answer(sent.Attempt, osb.Answer{Status: 202, Body: osb.BodyEmpty}))(b)
	return record
}

// stepAll steps rows until no step is left.
func stepAll(b *testing.B, store platform.Store, worker string, left *int64, isChanged bool) {
	free := make(chan struct{}, slots)
	for n := 0; n < slots; n++ {
		free <- struct{}{}
	}
	var running sync.WaitGroup
	defer running.Wait()
	for atomic.LoadInt64(left) > 0 {
		<-free
		most := 1
		for ; len(free) > 0; most++ {
			<-free
		}
		claimed, err := store.Claim(background, []string{"one"}, most, send(worker, isChanged))
		if err != nil {
			b.Error(err)
			return
		}
		for n := len(claimed); n < most; n++ {
			free <- struct{}{}
		}
		for _, row := range claimed {
			running.Add(1)
			go func(key platform.Key) {
				defer running.Done()
				diff.NoError(b, store.Change(background, key, take(isChanged)), "")
				atomic.AddInt64(left, -1)
				free <- struct{}{}
			}(row.Key)
		}
	}
}

// send records a Poll as in flight.
func send(worker string, isChanged bool) platform.Step {
	return func(now time.Time, snapshot platform.Snapshot) (*platform.Change, error) {
		entry := snapshot.Entry
		record, _, err := entry.Record.Send(entry.Key.ID())
		if err != nil {
			return nil, err
		}
		entry.Record, entry.Lease = record, platform.Lease{Worker: worker, Until: now.Add(time.Minute)}
		if isChanged {
			entry.State, entry.Since = platform.Wanted, now
		}
		return &platform.Change{Entry: entry}, nil
	}
}

// take takes the answer to a Poll. The row is due again at once.
func take(isChanged bool) platform.Step {
	return func(now time.Time, snapshot platform.Snapshot) (*platform.Change, error) {
		entry := snapshot.Entry
		record, err := entry.Record.Timeout(entry.Record.Attempt())
		if err != nil {
			return nil, err
		}
		entry.Record, entry.Lease, entry.Due = record, platform.Lease{}, now
		entry.Last = platform.Reason{At: now, Kind: "poll", Status: 200, Description: "the database is being created"}
		if isChanged {
			entry.State, entry.Since = platform.Polling, now
		}
		return &platform.Change{Entry: entry}, nil
	}
}

// What a step of an engine takes if none shares its claim with another: what many steps take more than few.
func TestAStepOfAnEngine(t *testing.T) {
	proxy, url := storefaults.NewProxy(t, schemaNamed(t, "osb_platform_step"))
	store := open(t, url)
	defer store.Close()
	options := platform.Options{Worker: "one", AtOnce: 1}
	took, next := map[int]storefaults.Answers{}, 0
	seller := storetest.Seller{Service: osb.MustParseID(theService), Plan: osb.MustParseID(thePlan)}
	const warm, few, many = 5, 10, 30
	for _, rows := range []int{warm, few, many} { // at first the sessions are opened, and their statements prepared
		for n := 0; n < rows; n++ {
			insert(t, store, instance(next))
			next++
		}
		proxy.Tally()
		engine := platform.NewEngine(store, seller, nil, options, storetest.Quiet{T: t})
		check(t, engine.RunOnce(background))
		took[rows] = proxy.Tally()
	}
	for n := 0; n < next; n++ {
		diff.Equal(t, diff.Value(store.Read(background, instance(n)))(t).State, platform.Ready, "%v", instance(n))
	}
	const steps = many - few
	statements, transactions := took[many].Statements-took[few].Statements, took[many].Transactions-took[few].Transactions
	diff.AtLeast(t, statements, 4*steps, "%d steps: statements", steps)
	diff.AtMost(t, statements, 8*steps, "%d steps: statements", steps)
	diff.AtLeast(t, transactions, steps, "%d steps: transactions", steps)
	diff.AtMost(t, transactions, 3*steps, "%d steps: transactions", steps)
	t.Logf("%d steps take %d statements in %d transactions", steps, statements, transactions)
}
