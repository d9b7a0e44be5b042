package main

import (
	"bytes"
	"context"
	"errors"
	"fmt"
	"net/http/httptest"
	"strings"
	"testing"
	"time"

	"pippinterm/internal/diff"
	"pippinterm/internal/logs"
	"pippinterm/osb"
	"pippinterm/platform"
)

// observeAll reports one event of each kind to an observer.
func observeAll(o platform.Observer) {
	key := osb.BindingKey(osb.MustParseID("00000000-0000-0000-0000-000000000001"),
		osb.MustParseID("00000000-0000-0000-0000-000000000002"))
	exchange := platform.Exchange{RequestID: "r", Broker: "shop", Key: key, Kind: "bind", Attempt: 3}
	o.OnRequest(exchange)
	exchange.Status, exchange.Error, exchange.Description = 503, "Busy", "no \x1b place"
	exchange.Lost, exchange.RetryAfter = errors.New("it was late"), time.Minute
	exchange.Duration = 1234567 * time.Nanosecond
	o.OnAnswer(exchange)
	o.OnChange(key, platform.Wanted, platform.Cleaning)
	o.OnFailure(platform.Failure{Event: "lease_lost", Broker: "shop", Key: key, IsNamed: true, Err: errors.New("why")})
	o.OnOrphan(key, 200, true)
	o.OnOrphan(key, 403, false)
	o.OnCatalogue("shop")
}

// Each event is a line with its members. Those below the level are left out.
func TestLogObserver(t *testing.T) {
	const key = `"instance":"00000000-0000-0000-0000-000000000001","binding":"00000000-0000-0000-0000-000000000002"`
	lines := []string{
		`"level":"info","event":"request_sent","request":"r","broker":"shop",` + key + `,"kind":"bind","attempt":3}`,
		`"level":"warning","event":"request","request":"r","broker":"shop",` + key + `,"kind":"bind","attempt":3,` +
			`"status":503,"error":"Busy","description":"no \u001b place","lost":"it was late",` +
			`"retry_after_seconds":60,"milliseconds":1.2}`,
		`"level":"info","event":"state_changed",` + key + `,"before":"wanted","after":"cleaning"}`,
		`"level":"error","event":"lease_lost","broker":"shop",` + key + `,"error":"why"}`,
		`"level":"warning","event":"orphan_found",` + key + `,"status":200}`,
		`"level":"warning","event":"orphan_unknown",` + key + `,"status":403}`,
		`"level":"info","event":"broker_reached","broker":"shop"}`,
	}
	for least, want := range map[level][]string{
		debugLevel: lines, infoLevel: lines[1:], warningLevel: {lines[1], lines[3], lines[4], lines[5]},
		errorLevel: {lines[3]},
	} {
		t.Run(levels[least], func(t *testing.T) {
			var written bytes.Buffer
			observeAll(observers{logObserver{eventLog: eventLog{logger: logs.New(&written), least: least}}})
			got := strings.Split(strings.TrimSpace(written.String()), "\n")
			for at, line := range got {
				_, got[at], _ = strings.Cut(line, `Z",`)
			}
			diff.Equal(t, strings.Join(got, "\n"), strings.Join(want, "\n"), "%s", levels[least])
		})
	}
}

// A countStore has counts, and may fail.
type countStore struct {
	platform.Store
	due time.Time
	err error
}

func (s *countStore) Counts(context.Context) ([]platform.Count, error) {
	return []platform.Count{
		{Broker: "shop", State: platform.Unsettled, Count: 2, Oldest: time.Unix(40, 0)},
		{Broker: "shop", IsBinding: true, State: platform.Ready, Count: 3, Oldest: time.Unix(1, 0)},
	}, s.err
}

func (s *countStore) OldestDue(context.Context) (due, now time.Time, err error) {
	return s.due, time.Unix(100, 0), s.err
}

func TestMetrics(t *testing.T) {
	m, store := newMetrics(func() uint64 { return 5 }, func() uint64 { return 5 }), &countStore{due: time.Unix(93, 0)}
	m.addStore(context.Background(), store)
	observeAll(m)
	for n := 0; n < mostNames+10; n++ {
		m.OnAnswer(platform.Exchange{Broker: fmt.Sprint("b", n), Kind: "poll", Status: 200})
	}
	for _, code := range []string{"QuotaExceeded", "", "its own", "its other"} {
		m.OnAnswer(platform.Exchange{Broker: "shop", Kind: "provision", Status: 422, Error: code})
	}
	m.OnAnswer(platform.Exchange{Broker: "shop", Kind: "provision", Status: 201, Error: "QuotaExceeded"})
	text := textOfMetrics(t, m)
	for _, want := range []string{
		`rejections_total{broker="shop",error="QuotaExceeded",kind="provision",status="422"} 1`,
		`rejections_total{broker="shop",error="none",kind="provision",status="422"} 1`,
		`rejections_total{broker="shop",error="other",kind="provision",status="422"} 2`,
		`rejections_total{broker="shop",error="other",kind="bind",status="503"} 1`,
		`requests_total{broker="shop",kind="bind",status="lost"} 1`, `request_seconds_count{kind="bind"} 1`,
		`requests_total{broker="other",kind="poll",status="200"} 11`, `failures_total{event="lease_lost"} 1`,
		"leases_lost_total 1", `orphans_total{result="found"} 1`, `orphans_total{result="unknown"} 1`,
		"log_lines_dropped_total 5", `records{broker="shop",kind="instance",state="unsettled"} 2`,
		`records{broker="shop",kind="binding",state="ready"} 3`, "unsettled 2", "oldest_unsettled_seconds 60",
		"store_up 1",
	} {
		diff.Contains(t, text, "\n"+prefix+want+"\n", "%s", want)
	}
	if !strings.Contains(text, "\n"+prefix+"oldest_due_seconds 7") { // and some microseconds
		t.Errorf("got %s, want 7 s and some microseconds of oldest_due_seconds", text)
	}
	diff.Lacks(t, text, `status="201",error=`, "")
	diff.Lacks(t, text, "its own", "")
}

// If the store fails, only that is reported of it.
func TestMetricsWithoutStore(t *testing.T) {
	m := newMetrics(func() uint64 { return 0 }, func() uint64 { return 0 })
	m.addStore(context.Background(), &countStore{err: platform.ErrAway})
	text := textOfMetrics(t, m)
	diff.Contains(t, text, "\n"+prefix+"store_up 0\n", "")
	diff.Lacks(t, text, prefix+"records", "")
	diff.Lacks(t, text, prefix+"oldest_due_seconds", "")
}

// A scrape is answered though the store hangs, whatever its context says.
func TestMetricsOfAStoreThatHangs(t *testing.T) {
	for name, test := range map[string]struct{ due, counts bool }{"all of it": {due: true}, "the counts": {counts: true}} {
		t.Run(name, func(t *testing.T) {
			hung := make(chan struct{})
			store := &hungStore{Store: &countStore{}, hung: hung, due: test.due, counts: test.counts}
			collector := newStoreCollector(context.Background(), store, time.Now)
			collector.mostWait = 10 * time.Millisecond
			m := newMetrics(func() uint64 { return 5 }, func() uint64 { return 0 })
			m.registry.MustRegister(collector)
			text := textOfMetrics(t, m)
			up := map[bool]string{true: "store_up 1", false: "store_up 0"}[test.counts]
			diff.Contains(t, text, "\n"+prefix+up+"\n", "%s", up)
			diff.Lacks(t, text, prefix+"records", "%s", up)
			diff.Contains(t, text, "log_lines_dropped_total 5", "%s", up)
			close(hung)
			collector.mostWait = time.Minute
			diff.Contains(t, textOfMetrics(t, m), `records{broker="shop",kind="binding",state="ready"} 3`,
				"once it goes on")
		})
	}
}

// A hungStore hangs in OldestDue or in Counts until it is let go.
type hungStore struct {
	platform.Store
	hung        chan struct{}
	due, counts bool
}

func (h *hungStore) OldestDue(ctx context.Context) (due, now time.Time, err error) {
	if h.due {
		<-h.hung
	}
	return h.Store.OldestDue(ctx)
}

func (h *hungStore) Counts(ctx context.Context) ([]platform.Count, error) {
	if h.counts {
		<-h.hung
	}
	return h.Store.Counts(ctx)
}

// For how long the oldest row is due grows between two readings, and while the store is away.
func TestOldestDue(t *testing.T) {
	clock, store := time.Unix(1_000_000, 0), &countStore{due: time.Unix(103, 0)}
	collector := newStoreCollector(context.Background(), store, func() time.Time { return clock })
	m := newMetrics(func() uint64 { return 0 }, func() uint64 { return 0 })
	m.registry.MustRegister(collector)
	want := func(what, seconds string) {
		t.Helper()
		diff.Contains(t, textOfMetrics(t, m), "\n"+prefix+"oldest_due_seconds "+seconds+"\n",
			"%s, %s", what, seconds)
	}
	want("before it is due", "0")
	clock = clock.Add(4 * time.Second)
	want("once it is due", "1")
	store.err = platform.ErrAway
	clock = clock.Add(time.Hour)
	want("an hour after the last reading", "3601")
	clock = clock.Add(time.Hour)
	want("another hour later", "7201")
	store.err, store.due = nil, time.Time{}
	clock = clock.Add(time.Minute)
	want("when nothing is due", "0")
	store.err = platform.ErrAway
	clock = clock.Add(time.Hour)
	want("when nothing was due", "0")
}

func textOfMetrics(t *testing.T, m *metrics) string {
	t.Helper()
	recorder := httptest.NewRecorder()
	m.handler().ServeHTTP(recorder, httptest.NewRequest("GET", "/metrics", nil))
	return recorder.Body.String()
}

// On a terminal, the counts of all brokers are shown in one line.
func TestTextOfCounts(t *testing.T) {
	for want, counts := range map[string][]platform.Count{
		"nothing yet": nil,
		"2 gone, 5 ready": {
			{Broker: "a", State: platform.Ready, Count: 2}, {Broker: "b", State: platform.Ready, Count: 3},
			{State: platform.Gone, Count: 2},
		},
	} {
		t.Run(want, func(t *testing.T) {
			diff.Equal(t, textOfCounts(counts), want, "")
		})
	}
}
