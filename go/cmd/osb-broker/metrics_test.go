package main

import (
	"context"
	"errors"
	"fmt"
	"net/http"
	"net/http/httptest"
	"strings"
	"sync"
	"testing"
	"time"

	"pippinterm/broker"
	"pippinterm/internal/diff"
	"pippinterm/internal/waits"
)

// lines returns the metrics as the handler sends them, without comments.
func lines(t *testing.T, metrics *metrics) map[string]string {
	t.Helper()
	answer := httptest.NewRecorder()
	metrics.handler().ServeHTTP(answer, httptest.NewRequest(http.MethodGet, "/metrics", nil))
	if answer.Code != http.StatusOK {
		t.Fatalf("got the status %d and %s, want 200", answer.Code, answer.Body)
	}
	got := make(map[string]string)
	for _, line := range strings.Split(answer.Body.String(), "\n") {
		if name, value, isOne := strings.Cut(line, "} "); isOne {
			got[name+"}"] = value
		} else if name, value, isOne := strings.Cut(line, " "); isOne && name != "#" {
			got[name] = value
		}
	}
	return got
}

func expect(t *testing.T, metrics *metrics, want map[string]string) {
	t.Helper()
	got := lines(t, metrics)
	for name, value := range want {
		diff.Equal(t, got[name], value, "%s", name)
	}
}

func TestEventsAreCounted(t *testing.T) {
	metrics := newMetrics(metricsOptions{})
	for _, exchange := range []broker.Exchange{
		{Route: "provision", Status: 201, Duration: 3 * time.Millisecond},
		{Route: "provision", Status: 201, Duration: 2 * time.Second},
		{Route: "poll-binding", Status: 410},
		{Route: "made-up", Status: 404},
		{Route: "other", Status: 404},
		{Route: "catalog", Status: 0},
	} {
		metrics.OnExchange(exchange)
	}
	metrics.OnFailure(broker.Failure{Event: "store_failed", Err: errors.New("why")})
	metrics.OnFailure(broker.Failure{Event: "store_failed"})
	metrics.OnFailure(broker.Failure{Event: "backend_rejected", IsRejection: true})
	for _, call := range []string{"look", "sync", "look", "lock", "made-up"} {
		metrics.OnCallFailure(call)
	}
	metrics.OnCommit(1)
	metrics.OnCommit(5)
	metrics.OnEnd(broker.Key{}, true)
	metrics.OnEnd(broker.Key{}, false)
	metrics.OnEnd(broker.Key{}, false)
	expect(t, metrics, map[string]string{
		`osb_broker_requests_total{route="provision",status="201"}`:    "2",
		`osb_broker_requests_total{route="poll-binding",status="410"}`: "1",
		`osb_broker_requests_total{route="other",status="404"}`:        "2",
		`osb_broker_requests_total{route="catalog",status="other"}`:    "1",
		`osb_broker_request_seconds_count{route="provision"}`:          "2",
		`osb_broker_request_seconds_sum{route="provision"}`:            "2.003",
		`osb_broker_request_seconds_bucket{route="provision",le="1"}`:  "1",
		`osb_broker_failures_total{event="store_failed"}`:              "2",
		`osb_broker_backend_errors_total{call="look"}`:                 "2",
		`osb_broker_backend_errors_total{call="sync"}`:                 "1",
		`osb_broker_backend_errors_total{call="lock"}`:                 "1",
		`osb_broker_backend_errors_total{call="other"}`:                "1",
		`osb_broker_commit_changes_count`:                              "2",
		`osb_broker_commit_changes_bucket{le="4"}`:                     "1",
		`osb_broker_operations_total{result="succeeded"}`:              "1",
		`osb_broker_operations_total{result="failed"}`:                 "2",
	})
}

func TestTheNumberOfEventsIsBounded(t *testing.T) {
	metrics := newMetrics(metricsOptions{})
	for number := 0; number < 3*mostNames; number++ {
		metrics.OnFailure(broker.Failure{Event: fmt.Sprint("event-", number)})
	}
	metrics.OnFailure(broker.Failure{Event: "event-0"})
	count := 0
	for name := range lines(t, metrics) {
		if strings.HasPrefix(name, "osb_broker_failures_total{") {
			count++
		}
	}
	diff.Equal(t, count, mostNames+1, "time series")
	expect(t, metrics, map[string]string{
		`osb_broker_failures_total{event="event-0"}`: "2",
		`osb_broker_failures_total{event="other"}`:   fmt.Sprint(2 * mostNames),
	})
}

func TestTwoMetricsShareNothing(t *testing.T) {
	first, second := newMetrics(metricsOptions{}), newMetrics(metricsOptions{})
	first.OnExchange(broker.Exchange{Route: "poll", Status: 200})
	diff.Equal(t, lines(t, second)[`osb_broker_requests_total{route="poll",status="200"}`], "", "the second")
}

func TestTheProcessIsMeasured(t *testing.T) {
	got := lines(t, newMetrics(metricsOptions{}))
	for _, name := range []string{"process_open_fds", "go_goroutines"} {
		if got[name] == "" {
			t.Errorf("got no %s, want it", name)
		}
	}
}

func TestOptions(t *testing.T) {
	names := []string{"osb_broker_store_up", "osb_broker_log_lines_dropped_total", "osb_broker_connections"}
	none := lines(t, newMetrics(metricsOptions{}))
	all := newMetrics(metricsOptions{DroppedLines: func() uint64 { return 3 }, Connections: func() int { return 4 }})
	all.addStore(context.Background(), &store{})
	for _, name := range names {
		diff.Equal(t, none[name], "", "%s: without its option", name)
	}
	expect(t, all, map[string]string{names[0]: "1", names[1]: "3", names[2]: "4"})
}

// A store counts how often it is asked.
type store struct {
	mutex sync.Mutex
	asked int
	stats broker.Stats
	err   error
}

func (s *store) Stats(context.Context) (broker.Stats, error) {
	s.mutex.Lock()
	defer s.mutex.Unlock()
	s.asked++
	return s.stats, s.err
}

// over returns Metrics over a store, with a clock that the second function moves.
func over(store countedStore) (*metrics, func(time.Duration)) {
	metrics, now := newMetrics(metricsOptions{}), time.Date(2024, 1, 1, 0, 0, 0, 0, time.UTC)
	collector := newStoreCollector(context.Background(), store, func() time.Time { return now })
	metrics.registry.MustRegister(collector)
	return metrics, func(by time.Duration) { now = now.Add(by) }
}

func TestCountsOfTheStore(t *testing.T) {
	since := time.Date(2023, 12, 31, 23, 58, 0, 0, time.UTC)
	stats := broker.Stats{Pending: 1, Operating: 2, Waiting: 3, Tombstones: 4, Oldest: since}
	metrics, pass := over(&store{stats: stats})
	want := map[string]string{
		"osb_broker_store_up": "1", "osb_broker_pending": "1", "osb_broker_operating": "2", "osb_broker_waiting": "3",
		"osb_broker_tombstones": "4", "osb_broker_oldest_unfinished_seconds": "120",
	}
	expect(t, metrics, want)
	pass(30 * time.Second)
	want["osb_broker_oldest_unfinished_seconds"] = "150"
	expect(t, metrics, want)
}

func TestNothingUnfinishedHasNoAge(t *testing.T) {
	for name, oldest := range map[string]time.Time{"none": {}, "to come": time.Date(2099, 1, 1, 0, 0, 0, 0, time.UTC)} {
		t.Run(name, func(t *testing.T) {
			metrics, _ := over(&store{stats: broker.Stats{Oldest: oldest}})
			expect(t, metrics, map[string]string{"osb_broker_oldest_unfinished_seconds": "0"})
		})
	}
}

func TestTheStoreIsAskedOnceASecond(t *testing.T) {
	counted := &store{}
	metrics, pass := over(counted)
	for _, step := range []struct {
		after time.Duration
		asked int
	}{{0, 1}, {0, 1}, {999 * time.Millisecond, 1}, {time.Millisecond, 2}, {time.Hour, 3}} {
		pass(step.after)
		lines(t, metrics)
		diff.Equal(t, counted.asked, step.asked, "%v later: calls", step.after)
	}
}

func TestScrapesSideBySideAskTheStoreOnce(t *testing.T) {
	counted := &store{}
	metrics, _ := over(counted)
	waits.Together(5, func(int) {
		request := httptest.NewRequest(http.MethodGet, "/metrics", nil)
		metrics.handler().ServeHTTP(httptest.NewRecorder(), request)
	})
	diff.Equal(t, counted.asked, 1, "calls")
}

func TestAStoreThatCantBeAsked(t *testing.T) {
	failing := &store{stats: broker.Stats{Pending: 7}}
	metrics, pass := over(failing)
	expect(t, metrics, map[string]string{"osb_broker_store_up": "1", "osb_broker_pending": "7"})
	failing.err = errors.New("connection refused")
	pass(keptFor)
	expect(t, metrics, map[string]string{"osb_broker_store_up": "0", "osb_broker_pending": ""})
	failing.err = nil
	pass(keptFor)
	expect(t, metrics, map[string]string{"osb_broker_store_up": "1", "osb_broker_pending": "7"})
}

// A slowStore counts how often all its rows are read.
type slowStore struct {
	store
	failed error // of Stats
}

func (s *slowStore) Stats(ctx context.Context) (broker.Stats, error) {
	stats, err := s.store.Stats(ctx)
	if s.failed != nil {
		return broker.Stats{}, s.failed
	}
	return stats, err
}

func (s *slowStore) UnfinishedStats(context.Context) (broker.Stats, error) {
	stats := s.stats
	stats.Tombstones = 0
	return stats, s.err
}

func TestTombstonesAreCountedOnceAMinute(t *testing.T) {
	slow := &slowStore{store: store{stats: broker.Stats{Pending: 1, Tombstones: 4}}}
	metrics, pass := over(slow)
	for _, step := range []struct {
		after               time.Duration
		pending, tombstones int // what the store has from then on
		asked               int
		shown               string
	}{
		{0, 1, 4, 1, "4"}, {time.Second, 2, 5, 1, "4"}, {58 * time.Second, 3, 6, 1, "4"}, {time.Second, 4, 7, 2, "7"},
		{59 * time.Second, 5, 8, 2, "7"}, {time.Hour, 6, 9, 3, "9"},
	} {
		pass(step.after)
		slow.stats = broker.Stats{Pending: step.pending, Tombstones: step.tombstones}
		expect(t, metrics, map[string]string{
			"osb_broker_pending": fmt.Sprint(step.pending), "osb_broker_tombstones": step.shown,
		})
		diff.Equal(t, slow.asked, step.asked, "%v later", step.after)
	}
}

func TestTombstonesThatCantBeCounted(t *testing.T) {
	slow := &slowStore{store: store{stats: broker.Stats{Pending: 1, Tombstones: 4}}, failed: errors.New("too slow")}
	metrics, pass := over(slow)
	shown := map[string]string{"osb_broker_store_up": "1", "osb_broker_pending": "1", "osb_broker_tombstones": ""}
	expect(t, metrics, shown)
	slow.failed = nil
	pass(time.Second)
	expect(t, metrics, shown)
	pass(time.Minute)
	shown["osb_broker_tombstones"] = "4"
	expect(t, metrics, shown)
	slow.err = errors.New("away")
	pass(time.Second)
	expect(t, metrics, map[string]string{
		"osb_broker_store_up": "0", "osb_broker_pending": "", "osb_broker_tombstones": "",
	})
}

// A hungStore hangs, whatever its context says, until it is let go.
type hungStore struct {
	slowStore
	unfinished, all chan struct{} // nil: it doesn't hang
}

func (h *hungStore) UnfinishedStats(ctx context.Context) (broker.Stats, error) {
	if h.unfinished != nil {
		<-h.unfinished
	}
	return h.slowStore.UnfinishedStats(ctx)
}

func (h *hungStore) Stats(ctx context.Context) (broker.Stats, error) {
	if h.all != nil {
		<-h.all
	}
	return h.slowStore.Stats(ctx)
}

// A scrape is answered though the store hangs: with store_up 0, and with all that is known without the store.
func TestAStoreThatHangs(t *testing.T) {
	stats := broker.Stats{Pending: 1, Tombstones: 4}
	for name, test := range map[string]struct {
		store *hungStore
		want  map[string]string
	}{
		"all of it": {&hungStore{unfinished: make(chan struct{})}, map[string]string{
			"osb_broker_store_up": "0", "osb_broker_pending": "", "osb_broker_tombstones": "",
		}},
		"the tombstones": {&hungStore{all: make(chan struct{})}, map[string]string{
			"osb_broker_store_up": "1", "osb_broker_pending": "1", "osb_broker_tombstones": "",
		}},
	} {
		t.Run(name, func(t *testing.T) {
			test.store.stats = stats
			metrics := newMetrics(metricsOptions{Connections: func() int { return 3 }})
			collector := newStoreCollector(context.Background(), test.store, time.Now)
			collector.mostWait = 10 * time.Millisecond
			metrics.registry.MustRegister(collector)
			test.want["osb_broker_connections"] = "3"
			expect(t, metrics, test.want)
			for _, hung := range []chan struct{}{test.store.unfinished, test.store.all} {
				if hung != nil {
					close(hung)
				}
			}
			collector.mostWait = time.Minute
			expect(t, metrics, map[string]string{
				"osb_broker_store_up": "1", "osb_broker_pending": "1", "osb_broker_tombstones": "4",
			})
		})
	}
}
