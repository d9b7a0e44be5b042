package main

import (
	"context"
	"errors"
	"net/http"
	"strconv"
	"sync"
	"time"

	"github.com/prometheus/client_golang/prometheus"
	"github.com/prometheus/client_golang/prometheus/collectors"
	"github.com/prometheus/client_golang/prometheus/promhttp"

	"pippinterm/internal/latest"
	"pippinterm/platform"
)

const prefix = "osb_platform_"

// Metrics are a platform.Observer that counts events, for Prometheus. metricTable has what they are. Those of a
// storeCollector, of the process (process_*) and of Go's runtime (go_*) are beside them.
type metrics struct {
	registry   *prometheus.Registry
	requests   *prometheus.CounterVec
	rejections *prometheus.CounterVec
	seconds    *prometheus.HistogramVec
	inFlight   prometheus.Gauge
	failures   *prometheus.CounterVec
	lost       prometheus.Counter
	orphans    *prometheus.CounterVec
	names      names
}

func newMetrics(dropped, lost func() uint64) *metrics {
	m := &metrics{
		registry:   prometheus.NewRegistry(),
		requests:   counter("requests_total"),
		rejections: counter("rejections_total"),
		seconds: prometheus.NewHistogramVec(prometheus.HistogramOpts{
			Name: prefix + "request_seconds", Help: metricTable[prefix+"request_seconds"].help,
			Buckets: []float64{.001, .0025, .005, .01, .025, .05, .1, .25, .5, 1, 2.5, 5, 10, 30, 60},
		}, metricTable[prefix+"request_seconds"].labels),
		inFlight: prometheus.NewGauge(prometheus.GaugeOpts{
			Name: prefix + "in_flight", Help: metricTable[prefix+"in_flight"].help,
		}),
		failures: counter("failures_total"),
		lost:     counter("leases_lost_total").WithLabelValues(),
		orphans:  counter("orphans_total"),
	}
	m.registry.MustRegister(m.requests, m.rejections, m.seconds, m.inFlight, m.failures, m.lost, m.orphans,
		counterOf("log_lines_dropped_total", dropped), counterOf("journal_lines_lost_total", lost),
		collectors.NewGoCollector(), collectors.NewProcessCollector(collectors.ProcessCollectorOpts{}))
	return m
}

func counter(name string) *prometheus.CounterVec {
	name = prefix + name
	return prometheus.NewCounterVec(prometheus.CounterOpts{Name: name, Help: metricTable[name].help}, metricTable[name].labels)
}

// counterOf returns a counter whose value a function returns.
func counterOf(name string, value func() uint64) prometheus.CounterFunc {
	name = prefix + name
	return prometheus.NewCounterFunc(prometheus.CounterOpts{Name: name, Help: metricTable[name].help},
		func() float64 { return float64(value()) })
}

// addStore adds what a store counts. The store isn't asked after ctx is done, and a scrape waits for it for 2 seconds at
// most.
func (m *metrics) addStore(ctx context.Context, store platform.Store) {
	m.registry.MustRegister(newStoreCollector(ctx, store, time.Now))
}

func (m *metrics) handler() http.Handler {
	return promhttp.HandlerFor(m.registry, promhttp.HandlerOpts{MaxRequestsInFlight: 10})
}

func (m *metrics) OnRequest(platform.Exchange) { m.inFlight.Inc() }

// OnAnswer counts a request. There are at most 99 brokers with a time series of their own.
func (m *metrics) OnAnswer(of platform.Exchange) {
	m.inFlight.Dec()
	status := "lost"
	if of.Lost == nil && of.Status >= 100 && of.Status <= 599 {
		status = strconv.Itoa(of.Status)
	}
	broker := m.names.name(of.Broker)
	m.requests.WithLabelValues(broker, of.Kind, status).Inc()
	if of.Status >= 400 && of.Status <= 599 {
		m.rejections.WithLabelValues(broker, of.Kind, strconv.Itoa(of.Status), errorLabel(of.Error)).Inc()
	}
	m.seconds.WithLabelValues(of.Kind).Observe(of.Duration.Seconds())
}

// knownErrors are the errors that the standard has, and the one that osb-broker answers besides.
var knownErrors = map[string]bool{
	"AsyncRequired": true, "ConcurrencyError": true, "RequiresApp": true, "MaintenanceInfoConflict": true,
	"QuotaExceeded": true,
}

// errorLabel is the error of an answer as the value of a label: a broker can answer any text.
func errorLabel(code string) string {
	switch {
	case code == "":
		return "none"
	case knownErrors[code]:
		return code
	}
	return other
}

// OnChange counts nothing: the collector counts states.
func (m *metrics) OnChange(platform.Key, platform.State, platform.State) {}

func (m *metrics) OnFailure(of platform.Failure) {
	m.failures.WithLabelValues(of.Event).Inc()
	if of.Event == "lease_lost" {
		m.lost.Inc()
	}
}

func (m *metrics) OnOrphan(_ platform.Key, _ int, isFound bool) {
	result := "unknown"
	if isFound {
		result = "found"
	}
	m.orphans.WithLabelValues(result).Inc()
}

func (m *metrics) OnCatalogue(string) {}

// Names are the values of a label, of which there may only be few.
type names struct {
	mutex sync.Mutex
	known map[string]bool
}

const (
	mostNames = 99
	other     = "other"
)

// name returns the name, or other if it is new and there are mostNames already.
func (n *names) name(name string) string {
	n.mutex.Lock()
	defer n.mutex.Unlock()
	if n.known == nil {
		n.known = map[string]bool{}
	}
	if !n.known[name] && len(n.known) >= mostNames {
		return other
	}
	n.known[name] = true
	return name
}

const (
	keptFor     = 5 * time.Second  // how long counts of a store are used
	mostTime    = 5 * time.Second  // how long the store may take to say when the oldest row is due
	mostToCount = 30 * time.Second // how long the store may take to count
	mostWait    = 2 * time.Second  // how long a scrape waits for the store
)

// A storeCollector has the counts of a store. If the store fails, or doesn't answer in time, only store_up is sent, and
// oldest_due_seconds by what was read last. While only the counting takes long, the last counts are sent.
type storeCollector struct {
	due      *latest.Value[dueTime]
	counts   *latest.Value[counts]
	now      func() time.Time
	mostWait time.Duration

	up, records, unsettled, oldest, oldestDue *prometheus.Desc
}

// A dueTime is since when the oldest row is due, or when it will be; due is zero if none is.
type dueTime struct {
	due, now time.Time // of the store
	readAt   time.Time // of this process
}

// late is for how long the oldest row is due.
func (d dueTime) late(now time.Time) time.Duration {
	if late := d.now.Add(now.Sub(d.readAt)).Sub(d.due); !d.due.IsZero() && late > 0 {
		return late
	}
	return 0
}

// Counts are the rows of a store, counted at a time.
type counts struct {
	rows []platform.Count
	now  time.Time // of the store, or zero before
}

func newStoreCollector(ctx context.Context, store platform.Store, now func() time.Time) *storeCollector {
	describe := func(name string) *prometheus.Desc {
		row := metricTable[prefix+name]
		return prometheus.NewDesc(prefix+name, row.help, row.labels, nil)
	}
	askDue := func(ctx context.Context) (found dueTime, err error) {
		found.due, found.now, err = store.OldestDue(ctx)
		found.readAt = now()
		return found, err
	}
	count := func(ctx context.Context) (found counts, err error) {
		if _, found.now, err = store.OldestDue(ctx); err == nil {
			found.rows, err = store.Counts(ctx)
		}
		return found, err
	}
	return &storeCollector{
		due:       latest.New(ctx, askDue, latest.Options{Kept: keptFor, Longest: mostTime, Now: now}),
		counts:    latest.New(ctx, count, latest.Options{Kept: keptFor, Longest: mostToCount, Now: now}),
		now:       now,
		mostWait:  mostWait,
		up:        describe("store_up"),
		records:   describe("records"),
		unsettled: describe("unsettled"),
		oldest:    describe("oldest_unsettled_seconds"),
		oldestDue: describe("oldest_due_seconds"),
	}
}

func (c *storeCollector) Describe(to chan<- *prometheus.Desc) {
	for _, desc := range []*prometheus.Desc{c.up, c.records, c.unsettled, c.oldest, c.oldestDue} {
		to <- desc
	}
}

// Collect sends the counts. It waits for the store no longer than mostWait.
func (c *storeCollector) Collect(to chan<- prometheus.Metric) {
	end := time.Now().Add(c.mostWait)
	send := func(desc *prometheus.Desc, value float64, labels ...string) {
		to <- prometheus.MustNewConstMetric(desc, prometheus.GaugeValue, value, labels...)
	}
	due, err := c.due.Get(c.mostWait)
	if !due.now.IsZero() {
		send(c.oldestDue, due.late(c.now()).Seconds())
	}
	if err != nil {
		send(c.up, 0)
		return
	}
	found, err := c.counts.Get(time.Until(end))
	isCounting := errors.Is(err, latest.ErrSlow)
	if err != nil && !isCounting {
		send(c.up, 0)
		return
	}
	send(c.up, 1)
	if isCounting && found.now.IsZero() {
		return
	}
	unsettled, oldest := 0, time.Duration(0)
	for _, row := range found.rows {
		send(c.records, float64(row.Count), row.Broker, kindOf(row.IsBinding), string(row.State))
		if row.State != platform.Unsettled {
			continue
		}
		unsettled += row.Count
		if age := found.now.Sub(row.Oldest); age > oldest {
			oldest = age
		}
	}
	send(c.unsettled, float64(unsettled))
	send(c.oldest, oldest.Seconds())
}

func kindOf(isBinding bool) string {
	if isBinding {
		return "binding"
	}
	return "instance"
}
