package conform

import (
	"context"
	"encoding/json"
	"errors"
	"fmt"
	"io"
	"net/http"
	"net/url"
	"strconv"
	"strings"
	"sync"
	"time"
	"unicode"
)

// creation is a valid Provision or Bind of the target that accepts an asynchronous operation. change may change its
// body.
func (r *Runner) creation(k key, change func(object)) request {
	body := object{"service_id": r.target.Service, "plan_id": r.target.Plan}
	if k.binding == "" {
		body["organization_guid"], body["space_guid"] = "osb-storm-organization", "osb-storm-space"
	}
	if change != nil {
		change(body)
	}
	return request{
		method: "PUT", path: pathOf(k), query: url.Values{"accepts_incomplete": {"true"}}, body: text(body),
	}
}

// with returns a change that sets a member.
func with(member string, value any) func(object) { return func(body object) { body[member] = value } }

// asSynchronous returns the request as one that doesn't accept an asynchronous operation.
func asSynchronous(sent request) request {
	query := url.Values{}
	for name, values := range sent.query {
		if name != "accepts_incomplete" {
			query[name] = values
		}
	}
	sent.query = query
	return sent
}

// put sends a creation of the target's pair. change may change its body.
func (r *Runner) put(k key, change func(object)) *exchange {
	return r.create(k, r.target.Pair, r.creation(k, change))
}

// delete sends a deletion that accepts an asynchronous operation.
func (r *Runner) delete(k key) *exchange { return r.deleteBy(k, deletion(k, r.target.Pair, true)) }

// deleteBy sends a deletion, and notes what its answer says.
func (r *Runner) deleteBy(k key, sent request) *exchange {
	x := r.send(sent)
	if x.is(200, 410) {
		r.candidates.forget(k)
	}
	return x
}

func (r *Runner) fetch(k key) *exchange { return r.send(fetchOf(k, r.target.Pair)) }

// wants judges a case: the answer has one of these statuses. It returns the exchange.
func (r *Runner) wants(name string, x *exchange, statuses ...int) *exchange {
	r.judge(name, x, x.want(statuses...))
	return x
}

// settle waits until what a creation was answered with has ended, and reports whether it has succeeded.
func (r *Runner) settle(k key, x *exchange) bool {
	if !x.is(202) {
		return x.is(200, 201)
	}
	state, last := r.await(k, x.string("operation"))
	return state == "succeeded" && last.is(200)
}

// await polls until an operation ends. It returns its last state and the last answer; after 410, the state "gone".
func (r *Runner) await(k key, operation string) (string, *exchange) {
	return r.awaitBy(k, r.target.Pair, operation)
}

// awaitBy is await by polls that name a pair.
func (r *Runner) awaitBy(k key, p Pair, operation string) (string, *exchange) {
	begun := time.Now()
	for {
		x := r.send(poll(k, p, operation))
		state := stateOf(x)
		if state != "gone" {
			problem := ""
			if state == "" {
				problem = "the answer isn't 200 with such a state"
			}
			r.judge(ofPoll(k, "last-operation-state"), x, problem)
			r.judge(ofPoll(k, "last-operation-fields"), x, wrongLastOperation(x))
		}
		if state != "in progress" || r.ctx.Err() != nil || time.Since(begun) > r.options.OperationTime {
			return state, x
		}
		r.pause(r.ctx)
	}
}

// ofPoll returns the case of an answer to a Poll, from that of an instance.
func ofPoll(k key, name string) string {
	if k.binding != "" {
		return "binding-" + name
	}
	return name
}

// stateOf returns the state in an answer to a Poll, "gone" for 410, and "" for every other answer.
func stateOf(x *exchange) string {
	state := x.string("state")
	switch {
	case x.is(410):
		return "gone"
	case x.is(200) && (state == "in progress" || state == "succeeded" || state == "failed"):
		return state
	}
	return ""
}

const reasonEnded = "the operation had ended before the answer"

// judgeDuring judges a case about an operation in progress. If there is a problem and the operation has ended
// meanwhile, the problem says nothing, and the case isn't run.
func (r *Runner) judgeDuring(name string, k key, operation string, x *exchange, problem string) {
	if problem != "" && x.err == nil {
		if state := stateOf(r.send(poll(k, r.target.Pair, operation))); state != "in progress" && state != "" {
			r.skip(reasonEnded, name)
			return
		}
	}
	r.judge(name, x, problem)
}

// repeats returns a problem unless an answer is 202 with the operation of the first one.
func repeats(first, x *exchange) string {
	if problem := x.want(202); problem != "" {
		return problem
	}
	if x.string("operation") != first.string("operation") {
		return "the operation isn't that of the first answer"
	}
	return ""
}

// ready returns the id of a new instance of the target, or "" if none could be created.
func (r *Runner) ready() string {
	if !r.hasPlan() {
		return ""
	}
	k := key{instance: r.id()}
	x := r.put(k, nil)
	if r.settle(k, x) {
		return k.instance
	}
	r.because = "no instance could be created"
	if x.unsent {
		r.because = x.err.Error()
	}
	return ""
}

// A rejection is a case of a creation that has to be rejected with 400. If change is nil, the body isn't JSON.
type rejection struct {
	name     string
	level    Level
	expected string
	change   func(*Runner, object)
}

func lacks(member string) func(*Runner, object) {
	return func(_ *Runner, body object) { delete(body, member) }
}

func casesOf(rejections []rejection, section string) (cases []Case) {
	for _, test := range rejections {
		cases = append(cases, Case{test.name, section, test.level, test.expected})
	}
	return cases
}

// rejects judges rejections, each of a new key.
func (r *Runner) rejects(rejections []rejection, newKey func() key) {
	for _, test := range rejections {
		k, body := newKey(), object{}
		sent := r.creation(k, func(of object) {
			if body = of; test.change != nil {
				test.change(r, of)
			}
		})
		if test.change == nil {
			sent.body = sent.body[:len(sent.body)-1]
		}
		r.wants(test.name, r.create(k, Pair{textIn(body, "service_id"), textIn(body, "plan_id")}, sent), 400)
	}
}

// ends judges the end of an asynchronous creation, and reports whether what was asked for exists.
func (r *Runner) ends(name string, k key, first *exchange) bool {
	if !first.is(202) {
		return first.is(200, 201)
	}
	state, last := r.await(k, first.string("operation"))
	problem := ""
	if state != "succeeded" {
		problem = "the operation doesn't succeed"
	}
	r.judge(name, last, problem)
	return problem == ""
}

// begins judges the creation of one key that accepts no asynchronous operation, and then, if another one is created
// asynchronously, the repetition of that. It returns the first answer about the other one. The cases begin with prefix.
func (r *Runner) begins(prefix string, one, other key) *exchange {
	x := r.create(one, r.target.Pair, asSynchronous(r.creation(one, nil)))
	r.judge(prefix+"required", x, x.wantOr("AsyncRequired", 201))
	first := r.put(other, nil)
	if first.is(202) {
		x = r.put(other, nil)
		r.judgeDuring(prefix+"repeated", other, first.string("operation"), x, repeats(first, x))
	}
	return first
}

// deletes judges deletions: first those of what exists without one of the ids. If one isn't rejected, again returns
// something else that exists, or false. kind is that of the cases: deprovision or unbind.
func (r *Runner) deletes(kind string, k, unknown key, again func() (key, bool)) {
	for _, test := range []struct {
		name string
		pair Pair
	}{{"-without-service-id", Pair{"", r.target.Plan}}, {"-without-plan-id", Pair{r.target.Service, ""}}} {
		x := r.wants(kind+test.name, r.send(deletion(k, test.pair, true)), 400) // CleanUp deletes it, whatever the answer says
		isThere := true
		if !x.is(400) { // it may be gone
			k, isThere = again()
		}
		if !isThere {
			return
		}
	}
	x := r.wants(kind+"-existing", r.delete(k), 200, 202)
	isGone := x.is(200)
	if x.is(202) {
		state, _ := r.await(k, x.string("operation"))
		isGone = whyNotDeleted(state) == ""
	}
	if isGone {
		r.wants(kind+"-repeated", r.delete(k), 410)
	}
	if isGone && k.binding == "" {
		r.fetchesDeleted(k)
		r.wants("provision-again-after-deletion", r.put(k, nil), 201, 202)
	}
	r.wants(kind+"-unknown", r.delete(unknown), 410)
}

// deletesLater judges an asynchronous deletion.
func (r *Runner) deletesLater(kind, name string, k key) {
	x := r.deleteBy(k, deletion(k, r.target.Pair, false))
	r.judge("async-"+kind+"-required", x, x.wantOr("AsyncRequired", 200))
	if !x.is(422) {
		return
	}
	first := r.delete(k)
	if !first.is(202) {
		r.because = "the " + name + " isn't asynchronous"
		return
	}
	operation := first.string("operation")
	x = r.delete(k)
	r.judgeDuring("async-"+kind+"-repeated", k, operation, x, repeats(first, x))
	state, last := r.await(k, operation)
	r.judge("async-"+kind+"-ends", last, whyNotDeleted(state))
	if whyNotDeleted(state) != "" {
		return
	}
	if k.binding == "" {
		r.wants("async-last-operation-gone", r.send(poll(k, r.target.Pair, operation)), 410)
	}
	r.wants("async-"+kind+"-gone", r.delete(k), 410)
}

func whyNotDeleted(state string) string {
	if state == "gone" || state == "succeeded" {
		return ""
	}
	return "the deletion doesn't succeed within the time for operations"
}

// longestBody is how much of an answer is read, in bytes.
const longestBody = 1 << 20

// A request is what is sent. The client adds the version, the user and the password.
type request struct {
	method, path string // the path after the URL of the broker, with escapes
	query        url.Values
	body         string            // JSON, or empty
	headers      map[string]string // in place of the usual ones; one that is empty isn't sent
}

// An exchange is a request with its answer, or with the reason why there is none.
type exchange struct {
	request
	status int // 0 if there is no answer
	header http.Header
	text   string
	object map[string]any // nil if the body isn't a JSON object
	err    error          // why there is no answer
	hide   Hider          // of what people see
	unsent bool           // the request wasn't sent
}

// A client sends requests to one broker.
type client struct {
	base, user, password string
	within               time.Duration
	http                 *http.Client
	mutex                sync.Mutex
	hide                 Hider           // by hider
	known                map[string]bool // the secrets of credentials that hide has
}

func newClient(c Options) (*client, error) {
	base, err := url.Parse(c.URL)
	if err != nil {
		return nil, errors.New("the URL of the broker can't be read") // the text could have a password
	}
	if base.Scheme != "http" && base.Scheme != "https" || base.Host == "" {
		return nil, errors.New("the URL of the broker must begin with http:// or https:// and have a host")
	}
	if base.User != nil || base.RawQuery != "" || base.Fragment != "" {
		return nil, errors.New("the URL of the broker must have no user, query or fragment")
	}
	var transport http.RoundTripper = &http.Transport{
		MaxResponseHeaderBytes: 64 << 10, DisableCompression: true, IdleConnTimeout: time.Second,
	}
	if c.Transport != nil {
		transport = c.Transport(transport)
	}
	return &client{
		base: strings.TrimRight(base.String(), "/"), user: c.User, password: c.Password, within: c.RequestTime,
		hide:  NewHider(c.User, c.Password).And(strings.TrimRight(basic(c.User, wrong(c.Password)), "=")),
		known: map[string]bool{},
		http: &http.Client{
			Transport:     transport,
			CheckRedirect: func(*http.Request, []*http.Request) error { return http.ErrUseLastResponse },
		},
	}, nil
}

// send sends a request and reads its answer.
func (c *client) send(ctx context.Context, r request) *exchange {
	x := &exchange{request: r, hide: c.hider()}
	ctx, cancel := context.WithTimeout(ctx, c.within)
	defer cancel()
	made, err := c.request(ctx, r)
	if err != nil {
		x.err, x.unsent = err, true
		return x
	}
	answer, err := c.http.Do(made)
	if err != nil {
		x.err = cause(err)
		return x
	}
	defer answer.Body.Close()
	text, err := io.ReadAll(io.LimitReader(answer.Body, longestBody+1))
	if err == nil && len(text) > longestBody {
		err = fmt.Errorf("the body is longer than %d bytes", longestBody)
	}
	if err != nil {
		x.err = cause(err)
		return x
	}
	x.status, x.header, x.text, x.object = answer.StatusCode, answer.Header, string(text), objectIn(text)
	c.learn(x.object["credentials"])
	x.hide = c.hider()
	return x
}

// hider returns a Hider of the login, and of all credentials that were received.
func (c *client) hider() Hider {
	c.mutex.Lock()
	defer c.mutex.Unlock()
	return c.hide
}

// learn has the secrets of credentials left out from now on.
func (c *client) learn(credentials any) {
	c.mutex.Lock()
	defer c.mutex.Unlock()
	for _, secret := range SecretsIn(credentials) {
		if !c.known[secret] {
			c.known[secret] = true
			c.hide = c.hide.And(secret)
		}
	}
}

func (c *client) request(ctx context.Context, r request) (*http.Request, error) {
	target := c.base + r.path
	if len(r.query) > 0 {
		target += "?" + r.query.Encode()
	}
	made, err := http.NewRequestWithContext(ctx, r.method, target, strings.NewReader(r.body))
	if err != nil {
		return nil, err
	}
	made.SetBasicAuth(c.user, c.password)
	made.Header.Set("X-Broker-API-Version", "2.17")
	made.Header.Set("User-Agent", "osb-storm")
	if r.body != "" {
		made.Header.Set("Content-Type", "application/json")
	}
	for name, value := range r.headers {
		made.Header.Del(name)
		if value != "" {
			made.Header.Set(name, value)
		}
	}
	return made, nil
}

// cause returns an error of net/http without the method and the URL.
func cause(err error) error {
	var of *url.Error
	if errors.As(err, &of) {
		err = of.Err
	}
	if errors.Is(err, context.DeadlineExceeded) {
		return errors.New("no answer in time")
	}
	return err
}

// longestShown is how much of a body a report has, in characters.
const longestShown = 300

func (x *exchange) is(statuses ...int) bool {
	for _, status := range statuses {
		if x.status == status {
			return true
		}
	}
	return false
}

// want returns a problem unless the answer has one of these statuses.
func (x *exchange) want(statuses ...int) string {
	if x.is(statuses...) {
		return ""
	}
	return fmt.Sprintf("the status is %d", x.status)
}

// wantError returns a problem unless the answer is 422 with this error code.
func (x *exchange) wantError(code string) string {
	if problem := x.want(422); problem != "" {
		return problem
	}
	if x.string("error") != code {
		return fmt.Sprintf("the member error isn't %q", code)
	}
	return ""
}

// wantOr returns a problem unless the answer has one of these statuses, or is 422 with this error code.
func (x *exchange) wantOr(code string, statuses ...int) string {
	if x.is(statuses...) {
		return ""
	}
	return x.wantError(code)
}

func (x *exchange) hasError(code string) bool { return x.wantError(code) == "" }

// string returns a member of the body that is a string, or "".
func (x *exchange) string(member string) string { return textIn(x.object, member) }

// requestLine returns the request as a line for people, without secrets.
func (x *exchange) requestLine() string {
	line := x.method + " " + x.path
	if len(x.query) > 0 {
		line += "?" + x.query.Encode()
	}
	if x.body != "" {
		line += " " + x.body
	}
	return Printable(x.hide.In(line))
}

// came returns the answer as a line for people. The values of credentials and other secrets are left out.
func (x *exchange) came() string {
	if x.err != nil {
		return Printable(x.hide.In(x.err.Error()))
	}
	text := x.text
	if _, has := x.object["credentials"]; has {
		shown := map[string]any{}
		for name, value := range x.object {
			shown[name] = value
		}
		shown["credentials"] = Hidden
		if bytes, err := json.Marshal(shown); err == nil {
			text = string(bytes)
		}
	} else if x.object == nil && strings.Contains(text, "credentials") {
		text = "(left out: a body with credentials that isn't an object)"
	}
	return Printable(fmt.Sprintf("%d %s", x.status, x.hide.In(text)))
}

// Printable returns a text as one line of limited length that a terminal can show.
func Printable(text string) string {
	var line strings.Builder
	count := 0
	for _, r := range strings.Join(strings.Fields(text), " ") {
		if count++; count > longestShown {
			line.WriteString("..")
			break
		}
		if unicode.IsPrint(r) {
			line.WriteRune(r)
			continue
		}
		line.WriteString(strings.Trim(strconv.QuoteRuneToASCII(r), "'"))
	}
	return line.String()
}

// This file has what osb-storm uses besides the cases: a storm asks a broker, judges answers that a proxy has seen, and
// deletes what it has created, with the same code as the cases.

// Open asks for the catalogue, and chooses the plan to order, as Run does.
//
// Errors: those of Run.
func (r *Runner) Open(ctx context.Context) (Target, error) {
	r.ctx = ctx
	if err := r.open(); err != nil {
		return Target{}, err
	}
	target := r.target
	target.Catalogue, target.HasCatalogue = []byte(r.fetched.text), r.hasCatalogue()
	if target.HasCatalogue {
		target.CatalogueHeader = r.fetched.header.Clone()
		target.CatalogueHeader.Del("X-Broker-API-Request-Identity") // it is that of this request
	}
	return target, nil
}

func (r *Runner) hasCatalogue() bool {
	_, isList := listOf(r.fetched.object["services"])
	return r.fetched.is(200) && isList
}

// Aim has Update and Create ask for a target, as Open does for the one that it has read.
func (r *Runner) Aim(target Target) { r.target = target }

// An Answer is what a broker has answered.
type Answer struct {
	Status int // 0 if there is no answer
	Object map[string]any
	Sent   string // the request, as a line for people
	Came   string // the answer, or why there is none, as a line for people, without credentials and the password
}

// Text returns a member of the body that is a string, or "".
func (a Answer) Text(member string) string { return textIn(a.Object, member) }

// Ask sends a request about an instance, or about a binding of it. path follows the path of the instance or the
// binding, such as /last_operation. It judges nothing, and is sent even if Run has ended.
func (r *Runner) Ask(ctx context.Context, method, instance, binding, path string, query url.Values) Answer {
	x := r.client.send(ctx, request{method: method, path: pathOf(key{instance, binding}) + path, query: query})
	return Answer{x.status, x.object, x.requestLine(), x.came()}
}

// Update sends an Update of an instance of the target that accepts an asynchronous operation. It names these members
// besides the service. It judges nothing, and is sent even if Run has ended.
func (r *Runner) Update(ctx context.Context, instance string, named map[string]any) Answer {
	x := r.client.send(ctx, r.updated(instance).patch(named))
	return Answer{x.status, x.object, x.requestLine(), x.came()}
}

// Create asks for an instance of the target, or a binding of it. CleanUp deletes it.
func (r *Runner) Create(ctx context.Context, instance, binding string) Answer {
	k := key{instance, binding}
	r.candidates.noteSending(k, r.target.Pair)
	x := r.client.send(ctx, r.creation(k, nil))
	r.candidates.noteCreation(k, x)
	return Answer{x.status, x.object, x.requestLine(), x.came()}
}

// A Debt is an instance or a binding of the target that somebody else has asked for.
type Debt struct {
	Instance, Binding string // Binding is empty for an instance
	Rejected          bool   // every creation was answered with 4xx, other than 408, or none was sent
	Unanswered        bool   // a creation wasn't answered, and may still arrive
}

// Owe has CleanUp delete an instance or a binding.
func (r *Runner) Owe(it Debt) {
	k := key{it.Instance, it.Binding}
	r.candidates.noteSending(k, r.target.Pair)
	owed := r.candidates.of(k)
	owed.rejected, owed.unanswered = it.Rejected, it.Unanswered
}

// An Observation is a request about an instance or a binding that was observed on its way to a broker, with its answer.
type Observation struct {
	Method, Target string // Target is the path with the query
	Sent           []byte // the body
	Status         int
	Header         http.Header
	Came           []byte // the body
	Hide           Hider  // of what people see
}

// Operation returns the operation that the answer names, or "".
func (s Observation) Operation() string { return s.exchange().string("operation") }

// State returns the state in the answer to a Poll, "gone" for 410, and "" for every other answer.
func (s Observation) State() string { return stateOf(s.exchange()) }

// Fail returns the result of a case that an answer fails.
//
// It panics if there is no such case.
func (s Observation) Fail(name, reason string) CaseResult {
	for _, test := range Cases() {
		if test.Name == name {
			x := s.exchange()
			return CaseResult{Case: test, Grade: Fail, Reason: reason, Sent: x.requestLine(), Came: x.came()}
		}
	}
	panic("there is no case " + name)
}

func (s Observation) exchange() *exchange {
	path, query, _ := strings.Cut(s.Target, "?")
	values, err := url.ParseQuery(query)
	if err != nil {
		values = nil
	}
	return &exchange{
		request: request{method: s.Method, path: path, query: values, body: string(s.Sent)},
		status:  s.Status, header: s.Header, text: string(s.Came), object: objectIn(s.Came), hide: s.Hide,
	}
}

// Judge returns the cases that an answer fails by itself, whatever was answered before.
func (s Observation) Judge() (failed []CaseResult) {
	x := s.exchange()
	if x.header == nil {
		x.header = http.Header{}
	}
	var g generalCases
	g.judge(x)
	isPoll := strings.HasSuffix(x.path, "/last_operation")
	k, fields, texts := key{}, "provision-fields", []string{"operation", "dashboard_url"}
	if strings.Contains(s.Target, "/service_bindings/") {
		k, fields, texts = key{binding: "binding"}, "bind-fields", textsOfBinding
	}
	for _, test := range []struct {
		name, problem string
		fails         bool
	}{
		{"answers-are-objects", "the body isn't a JSON object", g.noObject != nil},
		{"answers-content-type", "the Content-Type isn't application/json", g.noType != nil},
		{"errors-have-strings", "error or description isn't a non-empty string", g.noStrings != nil},
		{"retry-after", wrongRetry, g.noRetry != nil},
		{fields, wrongFields(x, texts, objectsOfBinding), s.Method == http.MethodPut},
		{"update-fields", wrongFields(x, texts, objectsOfBinding), s.Method == http.MethodPatch},
		{ofPoll(k, "last-operation-fields"), wrongLastOperation(x), isPoll},
		{ofPoll(k, "last-operation-state"), "the answer isn't one of these states", isPoll && x.is(200) && stateOf(x) == ""},
	} {
		if test.fails && test.problem != "" {
			failed = append(failed, s.Fail(test.name, test.problem))
		}
	}
	return failed
}

// Describe returns the answer as a line for people. The values of credentials and other secrets are left out.
func (s Observation) Describe() string { return s.exchange().came() }

// NewID returns a new GUID that begins with the prefix. Its second part is a number in decimal digits, so that people
// find the number in the id.
func (r *Runner) NewID(number int) string {
	id := r.id()
	return fmt.Sprintf("%s-%04d%s", id[:8], number%10000, id[13:])
}
