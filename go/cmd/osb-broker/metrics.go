package main

import (
	"context"
	"errors"
	"net/http"
	"strconv"
	"sync"
	"time"

	"github.com/prometheus/client_golang/prometheus"
	"github.com/prometheus/client_golang/prometheus/collectors"
	"github.com/prometheus/client_golang/prometheus/promhttp"

	"pippinterm/broker"
	"pippinterm/internal/latest"
)

// metricsOptions give the metrics that aren't counted from events. If a member is nil, its metrics are left out.
type metricsOptions struct {
	// DroppedLines returns how many lines of the log were dropped, as logs.Queue.Dropped does.
	DroppedLines func() uint64
	// LostJournalLines returns how many lines of the journal couldn't be written, as journalfile.Writer.Lost does.
	LostJournalLines func() uint64
	// Connections returns how many connections are open, as httpserver.Listener.Connections does.
	Connections func() int
}

// metrics are a broker.Observer that counts events in its own registry, for Prometheus. Any number of goroutines may use
// them. metricTable has what they are. Those of the process (process_*) and of Go's runtime (go_*) are beside them.
type metrics struct {
	registry   *prometheus.Registry
	requests   *prometheus.CounterVec
	durations  *prometheus.HistogramVec
	failures   *prometheus.CounterVec
	calls      *prometheus.CounterVec
	operations *prometheus.CounterVec
	commits    *prometheus.HistogramVec
	events     labelValues
}

const metricsPrefix = "osb_broker_"

// newMetrics returns metrics that count from zero.
func newMetrics(options metricsOptions) *metrics {
	m := &metrics{
		registry:   prometheus.NewRegistry(),
		requests:   counter("requests_total"),
		failures:   counter("failures_total"),
		calls:      counter("backend_errors_total"),
		operations: counter("operations_total"),
		durations:  histogram("request_seconds", .001, .0025, .005, .01, .025, .05, .1, .25, .5, 1, 2.5, 5, 10, 30, 60, 300),
		commits:    histogram("commit_changes", 1, 2, 4, 8, 16, 32, 64, 128, 256),
	}
	m.registry.MustRegister(m.requests, m.durations, m.failures, m.calls, m.operations, m.commits,
		collectors.NewGoCollector(), collectors.NewProcessCollector(collectors.ProcessCollectorOpts{}))
	m.addOptions(options)
	return m
}

// addStore adds the metrics of the store, which is asked at most once a second, and not after ctx is done. A scrape
// waits for the store for 2 seconds at most. Call it once at most.
func (m *metrics) addStore(ctx context.Context, store countedStore) {
	m.registry.MustRegister(newStoreCollector(ctx, store, time.Now))
}

func counter(name string) *prometheus.CounterVec {
	name = metricsPrefix + name
	row := metricTable[name]
	return prometheus.NewCounterVec(prometheus.CounterOpts{Name: name, Help: row.help}, row.labels)
}

func histogram(name string, buckets ...float64) *prometheus.HistogramVec {
	name = metricsPrefix + name
	row := metricTable[name]
	return prometheus.NewHistogramVec(prometheus.HistogramOpts{Name: name, Help: row.help, Buckets: buckets}, row.labels)
}

func (m *metrics) addOptions(options metricsOptions) {
	m.addCounter("log_lines_dropped_total", options.DroppedLines)
	m.addCounter("journal_lines_lost_total", options.LostJournalLines)
	if connections := options.Connections; connections != nil {
		name := metricsPrefix + "connections"
		m.registry.MustRegister(prometheus.NewGaugeFunc(prometheus.GaugeOpts{Name: name, Help: metricTable[name].help},
			func() float64 { return float64(connections()) }))
	}
}

// addCounter adds a counter whose value a function returns. Without one, it is left out.
func (m *metrics) addCounter(name string, value func() uint64) {
	if value == nil {
		return
	}
	name = metricsPrefix + name
	m.registry.MustRegister(prometheus.NewCounterFunc(prometheus.CounterOpts{Name: name, Help: metricTable[name].help},
		func() float64 { return float64(value()) }))
}

// handler returns a handler that answers each request with all metrics, in the format that the client accepts.
func (m *metrics) handler() http.Handler {
	return promhttp.HandlerFor(m.registry, promhttp.HandlerOpts{MaxRequestsInFlight: 10})
}

// OnExchange counts a request. To bound the number of time series, a route that broker.Exchange doesn't have counts as
// other, and so does a status that isn't from 100 to 599.
func (m *metrics) OnExchange(exchange broker.Exchange) {
	route := routeLabel(exchange.Route)
	m.requests.WithLabelValues(route, statusLabel(exchange.Status)).Inc()
	m.durations.WithLabelValues(route).Observe(exchange.Duration.Seconds())
}

// OnFailure counts a failure by its event, unless a backend has rejected a creation. After 99 different events, all
// further events count as other.
func (m *metrics) OnFailure(failure broker.Failure) {
	if failure.IsRejection {
		return
	}
	m.failures.WithLabelValues(m.events.name(failure.Event)).Inc()
}

// OnCallFailure counts a call of the backend or of the locks that has failed. A call that broker.Observer
// doesn't name counts as other.
func (m *metrics) OnCallFailure(call string) { m.calls.WithLabelValues(callLabel(call)).Inc() }

func (m *metrics) OnCommit(changes int) { m.commits.WithLabelValues().Observe(float64(changes)) }

func (m *metrics) OnEnd(_ broker.Key, ok bool) {
	result := "failed"
	if ok {
		result = "succeeded"
	}
	m.operations.WithLabelValues(result).Inc()
}

const other = "other"

func routeLabel(route string) string {
	switch route {
	case "catalog", "provision", "update", "deprovision", "poll", "fetch", "bind", "unbind", "poll-binding", "fetch-binding":
		return route
	}
	return other
}

func callLabel(call string) string {
	switch call {
	case "look", "create", "delete", "look-update", "update", "look-binding", "create-binding", "delete-binding", "credentials",
		"details", "sync", "lock":
		return call
	}
	return other
}

func statusLabel(status int) string {
	if status < 100 || status > 599 {
		return other
	}
	return strconv.Itoa(status)
}

// labelValues are the values of a label. There may only be few.
type labelValues struct {
	mutex sync.Mutex
	known map[string]bool
}

const mostNames = 99

// name returns the name, or other if the name is new and there are mostNames already.
func (v *labelValues) name(name string) string {
	v.mutex.Lock()
	defer v.mutex.Unlock()
	if v.known[name] {
		return name
	}
	if len(v.known) >= mostNames {
		return other
	}
	if v.known == nil {
		v.known = make(map[string]bool)
	}
	v.known[name] = true
	return name
}

const (
	keptFor       = time.Second      // how long counts of a store are used
	tombstonesFor = time.Minute      // how long the count of the tombstones of a slowCountedStore is used
	mostTime      = 5 * time.Second  // how long the store may take to count what is unfinished
	mostToCount   = 30 * time.Second // how long it may take to count all rows
	mostWait      = 2 * time.Second  // how long a scrape waits for the store
)

// A countedStore returns counts of what it keeps. Every broker.Store is one.
type countedStore interface {
	Stats(ctx context.Context) (broker.Stats, error)
}

// A slowCountedStore is a countedStore whose Stats reads all rows to count the tombstones.
type slowCountedStore interface {
	countedStore
	// UnfinishedStats returns Stats without Tombstones, and reads only what is unfinished.
	UnfinishedStats(ctx context.Context) (broker.Stats, error)
}

// A storeCollector is a prometheus.Collector over the counts of a store. If the store fails, or doesn't answer in time, only
// osb_broker_store_up is sent: old counts would hide the failure. The tombstones of a slowCountedStore are counted once a
// minute at most. If that fails, they alone are left out until they are counted again. While that takes long, the last
// count is sent.
type storeCollector struct {
	unfinished *latest.Value[broker.Stats]
	all        *latest.Value[broker.Stats] // of a slowCountedStore, or nil
	now        func() time.Time
	mostWait   time.Duration

	up         *prometheus.Desc
	pending    *prometheus.Desc
	operating  *prometheus.Desc
	waiting    *prometheus.Desc
	tombstones *prometheus.Desc
	oldest     *prometheus.Desc
}

func newStoreCollector(ctx context.Context, store countedStore, now func() time.Time) *storeCollector {
	describe := func(name string) *prometheus.Desc {
		return prometheus.NewDesc(metricsPrefix+name, metricTable[metricsPrefix+name].help, nil, nil)
	}
	c := &storeCollector{
		now:        now,
		mostWait:   mostWait,
		up:         describe("store_up"),
		pending:    describe("pending"),
		operating:  describe("operating"),
		waiting:    describe("waiting"),
		tombstones: describe("tombstones"),
		oldest:     describe("oldest_unfinished_seconds"),
	}
	unfinished := store.Stats
	if slow, isSlow := store.(slowCountedStore); isSlow {
		unfinished = slow.UnfinishedStats
		c.all = latest.New(ctx, slow.Stats, latest.Options{Kept: tombstonesFor, Longest: mostToCount, Now: now})
	}
	c.unfinished = latest.New(ctx, unfinished, latest.Options{Kept: keptFor, Longest: mostTime, Now: now})
	return c
}

func (c *storeCollector) Describe(to chan<- *prometheus.Desc) {
	for _, desc := range []*prometheus.Desc{c.up, c.pending, c.operating, c.waiting, c.tombstones, c.oldest} {
		to <- desc
	}
}

// Collect sends the counts, which are at most a second old, but for the tombstones of a slowCountedStore. It waits for the
// store no longer than mostWait.
func (c *storeCollector) Collect(to chan<- prometheus.Metric) {
	end := time.Now().Add(c.mostWait)
	stats, err := c.unfinished.Get(c.mostWait)
	send := func(desc *prometheus.Desc, value float64) {
		to <- prometheus.MustNewConstMetric(desc, prometheus.GaugeValue, value)
	}
	if err != nil {
		send(c.up, 0)
		return
	}
	send(c.up, 1)
	send(c.pending, float64(stats.Pending))
	send(c.operating, float64(stats.Operating))
	send(c.waiting, float64(stats.Waiting))
	if tombstones, isKnown := c.countOf(stats, time.Until(end)); isKnown {
		send(c.tombstones, float64(tombstones))
	}
	send(c.oldest, c.ageOf(stats.Oldest))
}

// countOf returns the count of the tombstones, and whether it is known.
func (c *storeCollector) countOf(stats broker.Stats, wait time.Duration) (tombstones int, isKnown bool) {
	if c.all == nil {
		return stats.Tombstones, true
	}
	all, err := c.all.Get(wait)
	isOld := errors.Is(err, latest.ErrSlow) && all != broker.Stats{}
	return all.Tombstones, err == nil || isOld
}

// ageOf returns how many seconds ago a time was. It returns 0 for the zero Time and for a time in the future.
func (c *storeCollector) ageOf(since time.Time) float64 {
	age := c.now().Sub(since)
	if since.IsZero() || age < 0 {
		return 0
	}
	return age.Seconds()
}
