// Package conform checks a broker against the Open Service Broker API 2.17 without faults: it sends requests, and
// judges each answer by a case. A case names the section of the standard that it is from, and whether that section
// says MUST, SHOULD or MAY.
//
// A Runner creates instances and bindings under ids of its own, never more than Options.Instances, and deletes
// everything that it may have created.
//
// The package reads HTTP and JSON with Go's standard library. It doesn't use this project's library, because it judges
// brokers that do.
package conform

import (
	"context"
	"crypto/rand"
	"encoding/hex"
	"errors"
	"fmt"
	"net/http"
	"net/url"
	"time"
)

// Options say which broker a Runner checks, and within which limits.
type Options struct {
	URL            string // http or https; a path is a prefix of every request
	User, Password string // of HTTP's Basic scheme
	// Service and Plan are names or ids in the catalogue. If both are empty, the first bindable plan is taken, or else
	// the first one. If the catalogue can't be read, they are ids.
	Service, Plan string
	Instances     int // how many instances may be asked for
	RequestTime   time.Duration
	OperationTime time.Duration // for an asynchronous operation
	Pause         time.Duration // between two polls
	// Transport wraps what sends the requests, or is nil.
	Transport func(http.RoundTripper) http.RoundTripper
	// Tell is called with a line for people if CleanUp has to wait, or is nil.
	Tell func(line string)
}

// ErrUnreachable is the error of Run if the broker doesn't answer the first request.
var ErrUnreachable = errors.New("the broker can't be reached")

// ErrLogin is the error of Run if the broker answers the first request with 401.
var ErrLogin = errors.New("the broker rejects the user or the password")

// ErrNoPlan is the error of Run if the catalogue lacks the service and the plan of the Options.
var ErrNoPlan = errors.New("the catalogue has no such plan")

// mostSilent is how many requests in a row may have no answer. Then no further case is run.
const mostSilent = 3

// A Runner runs the cases once. Use one goroutine.
type Runner struct {
	options    Options
	client     *client
	prefix     string
	candidates candidates
	ctx        context.Context // of Run
	results    map[string]*CaseResult
	because    string       // why the rest of a scenario isn't run
	ended      string       // why a request wasn't sent that a case needs, or empty
	silent     int          // requests in a row without an answer
	general    generalCases // what is judged over all answers
	fetched    *exchange    // of the catalogue
	target     Target
	// What the answers have shown: whether the target is created and bound asynchronously, and an instance that exists.
	isAsync, bindsAsync bool
	existing            string
	laterUpdate         object // what an Update named that was answered with 202, or nil
}

// New returns a Runner.
//
// Errors: the URL isn't one of http or https, or has a user, a query or a fragment; only one of Service and Plan is
// given; a limit isn't above 0.
func New(c Options) (*Runner, error) {
	if (c.Service == "") != (c.Plan == "") {
		return nil, errors.New("give a service and a plan, or neither")
	}
	if c.Instances < 1 || c.RequestTime <= 0 || c.OperationTime <= 0 || c.Pause <= 0 {
		return nil, errors.New("every limit must be above 0")
	}
	made, err := newClient(c)
	if err != nil {
		return nil, err
	}
	r := &Runner{options: c, client: made, results: map[string]*CaseResult{}}
	for _, test := range Cases() {
		r.results[test.Name] = &CaseResult{Case: test, Grade: NotRun}
	}
	if r.prefix, err = random(4); err != nil {
		return nil, err
	}
	return r, nil
}

// Prefix returns the first eight characters of each id of an instance and a binding that the Runner creates.
func (r *Runner) Prefix() string { return r.prefix }

// Run runs all cases and returns their results. If ctx is done, Run waits for the answer to the request that is in
// flight, and the rest of the cases isn't run. Call CleanUp afterwards, whatever Run returns.
//
// Errors: ErrUnreachable if the first request has no answer; ErrLogin if the answer to it is 401; ErrNoPlan if the
// catalogue lacks the plan of the Options.
func (r *Runner) Run(ctx context.Context) (*Report, error) {
	r.ctx = ctx
	if err := r.open(); err != nil {
		return r.report(), err
	}
	for _, scenario := range scenarios() {
		r.because = "an earlier answer makes it impossible"
		scenario.run(r)
		for _, one := range scenario.cases {
			r.skip(r.because, one.Name)
		}
	}
	return r.report(), nil
}

// open asks for the catalogue, and chooses the plan to order.
func (r *Runner) open() error {
	r.fetched = r.send(request{method: "GET", path: "/v2/catalog"})
	if r.fetched.err != nil {
		return fmt.Errorf("%w: %s", ErrUnreachable, r.fetched.came())
	}
	if r.fetched.is(401) {
		return ErrLogin
	}
	return r.client.hider().Error(r.choose())
}

// stopReason returns why no further request may be sent, or nil.
func (r *Runner) stopReason() (err error) {
	switch {
	case r.ctx.Err() != nil:
		err = errors.New("the run was ended before")
	case r.silent >= mostSilent:
		err = fmt.Errorf("the broker didn't answer %d requests in a row", mostSilent)
	default:
		return nil
	}
	r.ended = err.Error()
	return err
}

// send sends a request, unless the run has to end. A request in flight isn't broken off by the end of the run: its
// answer says what has to be deleted.
func (r *Runner) send(sent request) *exchange {
	if err := r.stopReason(); err != nil {
		return &exchange{request: sent, err: err, unsent: true}
	}
	x := r.client.send(context.Background(), sent)
	if x.err != nil && !x.unsent {
		r.silent++
	} else {
		r.silent = 0
	}
	r.general.judge(x)
	return x
}

// create sends the creation of an instance or a binding, and notes it for CleanUp. The pair is that of the request.
func (r *Runner) create(k key, p Pair, sent request) *exchange {
	if !r.candidates.all[k.instance] && len(r.candidates.all) >= r.options.Instances {
		err := fmt.Errorf("%d instances were ordered, which is the limit", r.options.Instances)
		r.ended = err.Error()
		return &exchange{request: sent, err: err, unsent: true}
	}
	if err := r.stopReason(); err != nil {
		return &exchange{request: sent, err: err, unsent: true}
	}
	r.candidates.noteSending(k, r.target.Pair)
	r.candidates.noteSending(k, p)
	x := r.send(sent)
	r.candidates.noteCreation(k, x)
	return x
}

// judge judges a case by an exchange: it passes if there is an answer and no problem. If a case is judged several
// times, the first failure counts.
func (r *Runner) judge(name string, x *exchange, problem string) {
	result := r.results[name]
	switch {
	case result.Grade == Fail:
		return
	case x.unsent:
		if result.Grade == NotRun {
			result.Reason = x.err.Error()
		}
		return
	case x.err != nil:
		problem = "there is no answer"
	}
	result.Grade, result.Reason = Pass, r.client.hider().In(problem)
	if problem != "" {
		result.Grade = Fail
	}
	result.Sent, result.Came = x.requestLine(), x.came()
}

// skip sets why a case isn't run, unless it has been judged.
func (r *Runner) skip(reason string, names ...string) {
	switch reason {
	case reasonOnePlan, reasonNotBindable, reasonNotRetrievable, reasonNotFetched, reasonNotUpdateable, reasonNoSibling,
		reasonNoMaintenance:
		if !r.hasCatalogue() { // then nobody knows whether it is so
			reason = reasonNoCatalogue
		}
	}
	for _, name := range names {
		if result := r.results[name]; result.Grade == NotRun && result.Reason == "" {
			result.Reason = reason
		}
	}
}

// pause waits for the time between two polls, or until ctx is done.
func (r *Runner) pause(ctx context.Context) {
	timer := time.NewTimer(r.options.Pause)
	defer timer.Stop()
	select {
	case <-timer.C:
	case <-ctx.Done():
	}
}

// id returns a new GUID that begins with the prefix.
func (r *Runner) id() string {
	text, err := random(12)
	if err != nil {
		panic(err) // the system has no random numbers
	}
	return fmt.Sprintf("%s-%s-4%s-8%s-%s", r.prefix, text[:4], text[4:7], text[7:10], text[10:22])
}

func random(count int) (string, error) {
	bytes := make([]byte, count)
	if _, err := rand.Read(bytes); err != nil {
		return "", fmt.Errorf("no random number: %w", err)
	}
	return hex.EncodeToString(bytes), nil
}

// A Level is how much the standard wants something.
type Level string

// The levels of the standard (RFC 2119).
const (
	Must   Level = "MUST"
	Should Level = "SHOULD"
	May    Level = "MAY"
)

// A Case is one thing that the standard says about the answers of a broker.
type Case struct {
	Name     string `json:"name"`
	Section  string `json:"section"` // the heading in spec.md
	Level    Level  `json:"level"`
	Expected string `json:"expected"`
}

// A Grade is the result of a case.
type Grade string

// The grades. NotRun is a case that doesn't concern this broker or plan, or that an earlier answer has made
// impossible: its reason says which.
const (
	Pass   Grade = "pass"
	Fail   Grade = "FAIL"
	NotRun Grade = "not run"
)

// A CaseResult is a case with its grade.
type CaseResult struct {
	Case
	Grade  Grade  `json:"verdict"`
	Reason string `json:"reason,omitempty"` // of a case that failed or wasn't run
	Sent   string `json:"sent,omitempty"`   // the request; no password
	Came   string `json:"came,omitempty"`   // the status and the body; no credentials
}

// A scenario is a few cases that share their requests.
type scenario struct {
	cases []Case
	run   func(*Runner)
}

// scenarios are all scenarios, in the order in which they run.
func scenarios() []scenario {
	return []scenario{
		catalogCases, accessCases, rejectedCases, lifeCases, deletionCases, acceptedCases, asyncCases,
		asyncDeletionCases, bindingCases, rejectedBindingCases, asyncBindingCases, updateCases, asyncUpdateCases,
		answerCases,
	}
}

// Cases returns all cases, in the order of a report.
func Cases() []Case {
	var all []Case
	for _, scenario := range scenarios() {
		all = append(all, scenario.cases...)
	}
	return all
}

// A Leftover is an instance or a binding that may exist, and that couldn't be deleted.
type Leftover struct {
	Instance string `json:"instance"`
	Binding  string `json:"binding,omitempty"` // empty if it is an instance
	Reason   string `json:"reason"`
}

// mostTries is how often a deletion is sent that the broker rejects or doesn't answer. A 422 ConcurrencyError doesn't
// count.
const mostTries = 5

// quietTime is how long a request, or CleanUp in all its passes so far, takes before it reports that deletions take
// long.
const quietTime = 2 * time.Second

// The reasons for a leftover while its deletion goes on.
const (
	reasonTime    = "the time for deletions was over"
	reasonArrives = "a creation that wasn't answered may still arrive"
	reasonRuns    = "the deletion is still in progress"
)

// CleanUp deletes everything that Run may have created, bindings before their instances. It returns what couldn't be
// deleted. When ctx is done, it stops, and returns the rest. It may be called again.
//
// CleanUp first sends each deletion once. Then it polls asynchronous deletions, and repeats those that were rejected or
// not answered. If a creation wasn't answered, it may still arrive: CleanUp repeats its deletion for twice the time of
// a request. If it has to wait, it reports once for what, and until when.
func (r *Runner) CleanUp(ctx context.Context) []Leftover {
	c := &cleanUp{Runner: r, begun: time.Now(), tell: r.options.Tell, bindings: map[string][]*removal{}}
	c.late = c.begun.Add(2 * r.options.RequestTime)
	for _, candidate := range r.candidates.rest() {
		made := &removal{candidate: candidate, reason: reasonTime}
		c.all = append(c.all, made)
		if candidate.binding != "" {
			c.bindings[candidate.instance] = append(c.bindings[candidate.instance], made)
		}
	}
	for c.pass(ctx); ctx.Err() == nil && c.isOpen(); c.pass(ctx) {
		r.pause(ctx)
	}
	left := []Leftover{}
	for _, removal := range c.all {
		if removal.state != removed {
			left = append(left, Leftover{Instance: removal.instance, Binding: removal.binding, Reason: removal.reason})
		}
	}
	return left
}

type removal struct {
	*candidate
	state     removalState
	reason    string    // why it isn't deleted, or not yet
	until     time.Time // when its time is over; zero before its first request
	sent      time.Time // the last deletion
	at        int       // the pair of the next request
	tries     int       // deletions that were rejected or not answered
	isPolled  bool      // an asynchronous deletion is in progress
	operation string    // of this deletion
	silent    int       // polls of it without a state
}

type removalState int

const (
	pending removalState = iota
	gone                 // a deletion has succeeded, and a creation may still arrive
	removed
	failed // it was tried for long enough
)

type cleanUp struct {
	*Runner
	all         []*removal
	bindings    map[string][]*removal // of each instance
	begun, late time.Time             // until late, a creation that wasn't answered may arrive
	tell        func(string)          // nil once it was called
}

// pass sends one request for each removal that isn't over. An instance waits until its bindings are gone.
func (c *cleanUp) pass(ctx context.Context) {
	for _, removal := range c.all {
		if ctx.Err() == nil && (removal.state == gone || removal.state == pending && !c.hasPending(removal)) {
			begun := time.Now()
			c.step(ctx, removal)
			c.announce(ctx, false, time.Since(begun) > quietTime)
		}
	}
	c.announce(ctx, true, time.Since(c.begun) > quietTime)
}

func (c *cleanUp) hasPending(of *removal) bool {
	if of.binding != "" {
		return false
	}
	for _, binding := range c.bindings[of.instance] {
		if binding.state == pending {
			return true
		}
	}
	return false
}

func (c *cleanUp) isOpen() bool { return c.count(pending)+c.count(gone) > 0 }

func (c *cleanUp) count(state removalState) (count int) {
	for _, removal := range c.all {
		if removal.state == state {
			count++
		}
	}
	return count
}

// step sends the next request for a removal.
func (c *cleanUp) step(ctx context.Context, it *removal) {
	if it.until.IsZero() {
		it.until = time.Now().Add(c.options.OperationTime + 2*c.options.RequestTime)
	}
	one, cancel := context.WithDeadline(ctx, it.until)
	defer cancel()
	if it.isPolled {
		c.pollDeletion(one, it)
	} else {
		c.sendDeletion(one, it)
	}
	if it.state == pending && (it.tries == mostTries || !time.Now().Before(it.until)) {
		it.state = failed
	}
}

func (c *cleanUp) sendDeletion(ctx context.Context, it *removal) {
	it.sent = time.Now()
	x := c.client.send(ctx, deletion(it.key, it.pairs[it.at], true))
	for x.is(400) && !it.rejected && it.at+1 < len(it.pairs) {
		it.at++
		x = c.client.send(ctx, deletion(it.key, it.pairs[it.at], true))
	}
	switch {
	case x.err != nil && ctx.Err() != nil: // it was broken off, which says nothing
	case x.err != nil:
		it.fails("the deletion has no answer: " + x.came())
	case x.is(200, 410), it.rejected && x.is(400, 401, 403, 404, 405): // if it was rejected, it was never created
		c.noteDeletion(it)
	case x.is(202):
		it.isPolled, it.operation, it.silent, it.reason = true, x.string("operation"), 0, reasonRuns
	case x.hasError("ConcurrencyError"):
		it.reason = "the deletion was answered with " + x.came()
		// Some brokers go on with an operation only once they are polled.
		c.client.send(ctx, poll(it.key, it.pairs[it.at], ""))
	default:
		it.fails("the deletion was answered with " + x.came())
	}
}

func (c *cleanUp) pollDeletion(ctx context.Context, it *removal) {
	x := c.client.send(ctx, poll(it.key, it.pairs[it.at], it.operation))
	state := x.string("state")
	switch {
	case x.is(410), x.is(200) && state == "succeeded":
		c.noteDeletion(it)
	case x.is(200) && state == "failed":
		it.fails("the deletion has failed: " + x.came())
	case !x.is(200) && ctx.Err() == nil:
		it.reason = "the last operation was answered with " + x.came()
		if it.silent++; it.silent == mostTries {
			it.fails(it.reason)
		}
	}
}

// noteDeletion notes that a deletion has succeeded. If a creation may still arrive, the deletion is repeated.
func (c *cleanUp) noteDeletion(it *removal) {
	it.isPolled, it.tries = false, 0
	if it.unanswered && it.sent.Before(c.late) {
		it.state, it.reason = gone, reasonArrives
		it.until = c.late.Add(c.options.OperationTime + 2*c.options.RequestTime)
		return
	}
	it.state, it.unanswered = removed, false
	c.candidates.forget(it.key)
}

// fails notes why a deletion hasn't succeeded. It is sent again.
func (it *removal) fails(reason string) {
	it.state, it.isPolled, it.reason = pending, false, reason
	it.tries++
}

// announce reports once for what CleanUp waits, and until when: creations that may still arrive after the first pass,
// and deletions that take long. isWhole says that a pass has ended, and isLong that it, or else one request, took
// long.
func (c *cleanUp) announce(ctx context.Context, isWhole, isLong bool) {
	if c.tell == nil || ctx.Err() != nil || !isWhole && !isLong {
		return
	}
	open, arriving := c.count(pending), c.count(gone)
	if open+arriving == 0 || arriving == 0 && !isLong {
		return
	}
	end := func(until time.Time) string {
		if bound, has := ctx.Deadline(); has && bound.Before(until) {
			until = bound
		}
		return until.Format("15:04:05")
	}
	line := fmt.Sprintf("%d of %d instances and bindings are deleted.", c.count(removed)+arriving, len(c.all))
	if arriving > 0 {
		line += fmt.Sprintf(" Creations that weren't answered: %d. They may still arrive, so their deletions are repeated until %s.",
			arriving, end(c.late))
	}
	if open > 0 {
		line += fmt.Sprintf(" Deletions that haven't succeeded yet: %d. They go on until %s at the latest.",
			open, end(time.Now().Add(c.options.OperationTime+2*c.options.RequestTime)))
	}
	c.tell(line)
	c.tell = nil
}

func deletion(k key, p Pair, async bool) request {
	query := namesOf(p)
	if async {
		query.Set("accepts_incomplete", "true")
	}
	return request{method: "DELETE", path: pathOf(k), query: query}
}

func poll(k key, p Pair, operation string) request {
	query := namesOf(p)
	if operation != "" {
		query.Set("operation", operation)
	}
	return request{method: "GET", path: pathOf(k) + "/last_operation", query: query}
}

func fetchOf(k key, p Pair) request {
	return request{method: "GET", path: pathOf(k), query: namesOf(p)}
}

func namesOf(p Pair) url.Values {
	query := url.Values{}
	if p.Service != "" {
		query.Set("service_id", p.Service)
	}
	if p.Plan != "" {
		query.Set("plan_id", p.Plan)
	}
	return query
}

func pathOf(k key) string {
	path := "/v2/service_instances/" + url.PathEscape(k.instance)
	if k.binding != "" {
		path += "/service_bindings/" + url.PathEscape(k.binding)
	}
	return path
}

// String returns the leftover as a line.
func (l Leftover) String() string {
	if l.Binding != "" {
		return fmt.Sprintf("binding %s of instance %s: %s", l.Binding, l.Instance, l.Reason)
	}
	return fmt.Sprintf("instance %s: %s", l.Instance, l.Reason)
}

// A key names an instance, or a binding of it.
type key struct{ instance, binding string }

// A Pair is the service and the plan of a request, by their ids.
type Pair struct{ Service, Plan string }

// A candidate is an instance or a binding that a broker may have created.
type candidate struct {
	key
	pairs      []Pair // under which it was asked for
	rejected   bool   // every creation was answered with 4xx, other than 408
	unanswered bool   // a creation wasn't answered, and may still arrive
}

// candidates are what may have been created, in the order in which they were first asked for.
type candidates struct {
	open []*candidate
	all  map[string]bool // the ids of all instances that were ever asked for
}

func (c *candidates) noteSending(k key, p Pair) {
	if c.all == nil {
		c.all = map[string]bool{}
	}
	c.all[k.instance] = true
	it := c.of(k)
	if it == nil {
		it = &candidate{key: k, rejected: true}
		c.open = append(c.open, it)
	}
	for _, known := range it.pairs {
		if known == p || p.Service == "" || p.Plan == "" {
			return
		}
	}
	it.pairs = append(it.pairs, p)
}

func (c *candidates) noteCreation(k key, x *exchange) {
	it := c.of(k)
	if x.status < 400 || x.status > 499 || x.status == 408 {
		it.rejected = false
	}
	it.unanswered = it.unanswered || x.err != nil
}

// forget forgets what was deleted, unless a creation may still arrive.
func (c *candidates) forget(k key) {
	for at, candidate := range c.open {
		if candidate.key == k && !candidate.unanswered {
			c.open = append(c.open[:at:at], c.open[at+1:]...)
			return
		}
	}
}

func (c *candidates) of(k key) *candidate {
	for _, candidate := range c.open {
		if candidate.key == k {
			return candidate
		}
	}
	return nil
}

// rest returns what has to be deleted: bindings before instances.
func (c *candidates) rest() []*candidate {
	var bindings, instances []*candidate
	for _, candidate := range c.open {
		if candidate.binding != "" {
			bindings = append(bindings, candidate)
		} else {
			instances = append(instances, candidate)
		}
	}
	return append(bindings, instances...)
}
