package main

import (
	"context"
	"fmt"
	"io"
	"sort"
	"strings"
	"sync"
	"time"

	"github.com/rs/zerolog"
	"github.com/spf13/pflag"

	"pippinterm/internal/cli"
	"pippinterm/internal/httpserver"
	"pippinterm/internal/logs"
	"pippinterm/platform"
	"pippinterm/platform/api"
)

// The levels of the log, the least first.
var levels = []string{"debug", "info", "warning", "error"}

// A level is one of levels.
type level int

const (
	debugLevel level = iota
	infoLevel
	warningLevel
	errorLevel
)

// levelFlag returns the value of the flag that is a level.
func levelFlag(to *level) pflag.Value {
	return cli.Value(to, "level", func(l level) string { return levels[l] }, func(text string) (level, error) {
		for at, name := range levels {
			if name == text {
				return level(at), nil
			}
		}
		return 0, fmt.Errorf("want one of %s", strings.Join(levels, ", "))
	})
}

// An eventLog is a log without the lines below a level.
type eventLog struct {
	logger *logs.Logger
	least  level
}

// at begins a line. Of one that is left out it returns nil, which takes all calls.
func (l eventLog) at(of level, event string) *zerolog.Event {
	switch {
	case of < l.least:
		return nil
	case of == errorLevel:
		return l.logger.Error(event)
	case of == warningLevel:
		return l.logger.Warning(event)
	}
	return l.logger.Info(event)
}

// apiRequest logs a request of the API with its answer: info, or a warning if it was rejected, with client, token (its
// name), method, target, route, status, code, error and milliseconds. If the API itself has failed, it is an error.
func (l eventLog) apiRequest(of api.Exchange) {
	level := infoLevel
	switch {
	case of.Err != nil:
		level = errorLevel
	case of.Status >= 400:
		level = warningLevel
	}
	event := l.at(level, "api_request")
	for _, pair := range [][2]string{
		{"client", of.Client}, {"token", of.Token}, {"method", of.Method}, {"target", of.Target}, {"route", of.Route},
	} {
		logs.Add(event, pair[0], pair[1])
	}
	event.Int("status", of.Status)
	logs.Add(event, "code", of.Code)
	if of.Err != nil {
		event.Str("error", of.Err.Error())
	}
	event.Float64("milliseconds", logs.Milliseconds(of.Duration)).Send()
}

func (l eventLog) warn(text string) { l.at(warningLevel, "secret").Str("warning", text).Send() }

// A logObserver logs these events. Their members that are empty are left out.
//
//	request_sent     debug: a request is about to be sent
//	request          info: a request and its answer, with request (its id), broker, instance, binding, kind, attempt,
//	                 status, error, description, lost (why no answer is taken), retry_after_seconds and milliseconds.
//	                 It is a warning if no answer is taken, or the broker has rejected the request
//	state_changed    info: a row has come to another state, with instance, binding, before and after
//	broker_reached   info: a broker has answered its catalogue
//	orphan_found     warning: the broker had what was recorded as gone; with instance, binding and status
//	orphan_unknown   warning: nobody knows whether it has it
//	Failure.Event    error: a failure, with broker, instance, binding, request and error
type logObserver struct {
	eventLog
	names *orderedIDs // by which instance and binding are the ids as they were ordered
}

var _ platform.Observer = logObserver{}

func (o logObserver) OnRequest(of platform.Exchange) {
	if event := o.at(debugLevel, "request_sent"); event != nil { // of a line that is left out, no id is written
		o.addExchange(event, of).Send()
	}
}

func (o logObserver) OnAnswer(of platform.Exchange) {
	level := infoLevel
	if of.Lost != nil || of.Status >= 400 && of.Status != 410 {
		level = warningLevel
	}
	event := o.addExchange(o.at(level, "request"), of)
	if of.Status != 0 {
		event.Int("status", of.Status)
	}
	logs.Add(event, "error", of.Error)
	logs.Add(event, "description", of.Description)
	if of.Lost != nil {
		event.Str("lost", of.Lost.Error())
	}
	if of.RetryAfter > 0 {
		event.Float64("retry_after_seconds", of.RetryAfter.Seconds())
	}
	event.Float64("milliseconds", logs.Milliseconds(of.Duration)).Send()
}

func (o logObserver) OnChange(key platform.Key, before, after platform.State) {
	event := o.addKey(o.at(infoLevel, "state_changed"), key)
	event.Str("before", string(before)).Str("after", string(after)).Send()
}

func (o logObserver) OnFailure(of platform.Failure) {
	event := o.at(errorLevel, of.Event)
	logs.Add(event, "broker", of.Broker)
	if of.IsNamed {
		o.addKey(event, of.Key)
	}
	logs.Add(event, "request", of.RequestID)
	if of.Err != nil {
		event.Str("error", of.Err.Error())
	}
	event.Send()
}

func (o logObserver) OnOrphan(key platform.Key, status int, isFound bool) {
	name := "orphan_unknown"
	if isFound {
		name = "orphan_found"
	}
	o.addKey(o.at(warningLevel, name), key).Int("status", status).Send()
}

func (o logObserver) OnCatalogue(name string) {
	o.at(infoLevel, "broker_reached").Str("broker", name).Send()
}

func (o logObserver) addExchange(event *zerolog.Event, of platform.Exchange) *zerolog.Event {
	logs.Add(event, "request", of.RequestID)
	logs.Add(event, "broker", of.Broker)
	o.addKey(event, of.Key)
	return event.Str("kind", of.Kind).Uint64("attempt", of.Attempt)
}

func (o logObserver) addKey(event *zerolog.Event, key platform.Key) *zerolog.Event {
	instance, binding := o.names.find(key)
	logs.Add(event, "instance", instance)
	logs.Add(event, "binding", binding)
	return event
}

// Observers are observers that get all events, in this order.
type observers []platform.Observer

func (o observers) OnRequest(of platform.Exchange) {
	for _, observer := range o {
		observer.OnRequest(of)
	}
}

func (o observers) OnAnswer(of platform.Exchange) {
	for _, observer := range o {
		observer.OnAnswer(of)
	}
}

func (o observers) OnChange(key platform.Key, before, after platform.State) {
	for _, observer := range o {
		observer.OnChange(key, before, after)
	}
}

func (o observers) OnFailure(of platform.Failure) {
	for _, observer := range o {
		observer.OnFailure(of)
	}
}

func (o observers) OnOrphan(key platform.Key, status int, isFound bool) {
	for _, observer := range o {
		observer.OnOrphan(key, status, isFound)
	}
}

func (o observers) OnCatalogue(broker string) {
	for _, observer := range o {
		observer.OnCatalogue(broker)
	}
}

// A serverObserver has the failures of package httpserver in the log and the metrics.
type serverObserver struct{ to platform.Observer }

// OnRejection does nothing: the log has the requests that the platform sends.
func (serverObserver) OnRejection(httpserver.RejectedRequest) {}

func (o serverObserver) OnFailure(event string, err error) {
	o.to.OnFailure(platform.Failure{Event: event, Err: err})
}

// mostOrderedIDs is of how many rows orderedIDs know the ids.
const mostOrderedIDs = 10_000

// OrderedIDs know by which ids rows were ordered, if these aren't GUIDs. An observer gets only keys. Any number of
// goroutines use them. A nil *orderedIDs knows none.
type orderedIDs struct {
	mutex sync.Mutex
	of    map[platform.Key]platform.Names
}

func newOrderedIDs() *orderedIDs { return &orderedIDs{of: map[platform.Key]platform.Names{}} }

// learn notes the ids of a row. If there are too many, it forgets another row, whose GUID stands for it then.
func (n *orderedIDs) learn(e platform.Entry) {
	if idOf(e) == e.Key.String() {
		return
	}
	n.mutex.Lock()
	defer n.mutex.Unlock()
	if _, isKnown := n.of[e.Key]; !isKnown && len(n.of) >= mostOrderedIDs {
		for other := range n.of {
			delete(n.of, other)
			break
		}
	}
	n.of[e.Key] = e.Names
}

// find is the id of the instance of a key, and that of the binding, or empty: as they were ordered, or as GUIDs.
func (n *orderedIDs) find(key platform.Key) (instance, binding string) {
	if n != nil {
		n.mutex.Lock()
		known, isKnown := n.of[key]
		n.mutex.Unlock()
		if isKnown {
			return known.Instance, known.Binding
		}
	}
	if key.IsBinding {
		return key.Instance.String(), key.Binding.String()
	}
	return key.Instance.String(), ""
}

// A namingStore is a store from which names learn, before an observer gets a row.
type namingStore struct {
	platform.Store
	names *orderedIDs
}

func (s namingStore) Claim(
	ctx context.Context, brokers []string, most int, step platform.Step,
) ([]platform.ClaimedRow, error) {
	return s.Store.Claim(ctx, brokers, most, s.learning(step))
}

func (s namingStore) Change(ctx context.Context, key platform.Key, step platform.Step) error {
	return s.Store.Change(ctx, key, s.learning(step))
}

func (s namingStore) learning(step platform.Step) platform.Step {
	return func(now time.Time, snapshot platform.Snapshot) (*platform.Change, error) {
		s.names.learn(snapshot.Entry)
		return step(now, snapshot)
	}
}

// Changes prints a line for each row that has changed to another state: the time, the id, and the state.
type changes struct {
	platform.Silent
	to    io.Writer // doesn't wait
	names *orderedIDs
}

func (c changes) OnChange(key platform.Key, _, after platform.State) {
	id, binding := c.names.find(key)
	if key.IsBinding {
		id += "/" + binding
	}
	_, _ = io.WriteString(c.to, moment(time.Now())+"\t"+printable(id)+"\t"+string(after)+"\n")
}

// showCounts shows on a terminal how many rows are in each state, until ctx is done.
func showCounts(ctx context.Context, to io.Writer, store platform.Store) {
	shown := newProgress(to)
	defer shown.end()
	for {
		if counts, err := store.Counts(ctx); err == nil {
			shown.show(textOfCounts(counts))
		}
		if sleep(ctx, time.Second) != nil {
			return
		}
	}
}

func textOfCounts(counts []platform.Count) string {
	sums := map[platform.State]int{}
	for _, count := range counts {
		sums[count.State] += count.Count
	}
	texts := make([]string, 0, len(sums))
	for state, sum := range sums {
		texts = append(texts, fmt.Sprintf("%d %s", sum, state))
	}
	sort.Slice(texts, func(one, other int) bool {
		return texts[one][strings.IndexByte(texts[one], ' '):] < texts[other][strings.IndexByte(texts[other], ' '):]
	})
	if len(texts) == 0 {
		return "nothing yet"
	}
	return strings.Join(texts, ", ")
}

// A progress is a line on a terminal that is written anew. Elsewhere it shows nothing.
type progress struct {
	to    io.Writer // nil if it isn't a terminal
	shown string
}

func newProgress(to io.Writer) *progress {
	if !isTerminal(to) {
		to = nil
	}
	return &progress{to: to}
}

// show writes the line.
func (p *progress) show(text string) {
	if p.to == nil || text == p.shown {
		return
	}
	blanks := len(p.shown) - len(text)
	if blanks < 0 {
		blanks = 0
	}
	fmt.Fprintf(p.to, "\r%s%s", text, strings.Repeat(" ", blanks))
	p.shown = text
}

// end ends the line.
func (p *progress) end() {
	if p.to != nil && p.shown != "" {
		fmt.Fprintln(p.to)
		p.shown = ""
	}
}
