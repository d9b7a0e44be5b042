// Package api offers the calls of platform.Orders, and what a platform.Store has, over HTTP with JSON, so that a portal
// needs no shell. The routes, the members of each body and the codes of the errors are in openapi.json, which GET
// /v1/openapi.json answers with. A Reader reads what the API answers to GET, for the handler and for the page of the
// program.
//
// Who asks gives a bearer token (RFC 6750), and the permissions of the token say what it may do (ReadTokens). Passwords
// of brokers can be given, and are never answered. The credentials of a binding need a permission of their own.
//
// The names of the routes, the members and the codes are this project's choice. They don't change within /v1: members
// and codes may be added.
package api

import (
	"bytes"
	"context"
	_ "embed"
	"encoding/json"
	"errors"
	"fmt"
	"io"
	"mime"
	"net"
	"net/http"
	"net/url"
	"reflect"
	"sort"
	"strconv"
	"strings"
	"time"
	"unicode"
	"unicode/utf16"
	"unicode/utf8"

	"pippinterm/internal/budget"
	"pippinterm/osb"
	"pippinterm/platform"
)

//go:embed openapi.json
var document []byte

// Options are the parts and the limits of a handler. (The limits are this project's choice.)
type Options struct {
	// Tokens are those that may ask, one or more.
	Tokens []Token
	// LongestBody is how many bytes the body of a request may have. It is 256 KiB by default.
	LongestBody int64
	// ParsedAtOnce is how many bytes of bodies are parsed and carried out at once, LongestBody or more. It is four
	// times LongestBody by default. Others wait, and so do bodies beyond 16 MiB, or four times ParsedAtOnce, that have
	// arrived or are on their way. Of both, a token gets as much as the others leave free.
	ParsedAtOnce int64
	// Timeout is how long a request may wait for the store. It is 30 seconds by default.
	Timeout time.Duration
	// AtOnce is how many requests are carried out at once, after their bodies have arrived. It is 64 by default.
	// Further ones wait.
	AtOnce int
	// CheckKey returns an error if the vault of the orders doesn't have the key of the store, which may have been
	// replaced since. It is called before a password or credentials are read or written, and after a password was
	// written. It may be nil.
	CheckKey func(context.Context) error
	// BrokerHosts are those at which a broker may be that is added, or that gets another URL. By default they are all:
	// a token that may write can have this program connect to any address then.
	BrokerHosts Hosts
	// Observe is called once for each request, when its answer is known. It returns at once. It may be nil.
	Observe func(Exchange)
}

// An Exchange is a request and its answer, for a log. It has no token, no body and no credentials.
type Exchange struct {
	Client   string // the IP address of the connection
	Token    string // the name of the token, or empty
	Method   string
	Target   string // the path, escaped, with 256 bytes at most
	Route    string // the pattern of the route, as /v1/instances/{id}, or empty
	Status   int
	Code     string // of an error, or empty
	Err      error  // why the answer is 500 or 503, or nil
	Duration time.Duration
}

type handler struct {
	Options
	orders *platform.Orders
	store  platform.Store
	reader Reader         // over the store
	slots  chan struct{}  // has a value for each request that is carried out
	bodies *budget.Budget // bytes of bodies in memory
	parsed *budget.Budget // bytes of those whose requests are carried out
}

// NewHandler makes the handler of the API. It answers to /v1/.. alone, and to each request on one goroutine. What it
// writes goes through orders, which are over the same store.
//
// Errors: a part is nil, there is no token, two tokens are the same, or a limit is negative.
func NewHandler(orders *platform.Orders, store platform.Store, options Options) (http.Handler, error) {
	if orders == nil || store == nil {
		return nil, errors.New("api: a handler needs Orders and a Store")
	}
	if err := checkTokens(options.Tokens); err != nil {
		return nil, errors.New("api: " + err.Error())
	}
	if options.LongestBody < 0 || options.ParsedAtOnce < 0 || options.Timeout < 0 || options.AtOnce < 0 {
		return nil, errors.New("api: no limit is negative")
	}
	if options.LongestBody == 0 {
		options.LongestBody = 256 << 10
	}
	if options.ParsedAtOnce == 0 {
		options.ParsedAtOnce = 4 * options.LongestBody
	}
	if options.ParsedAtOnce < options.LongestBody {
		return nil, errors.New("api: ParsedAtOnce is LongestBody or more")
	}
	if options.Timeout == 0 {
		options.Timeout = 30 * time.Second
	}
	if options.AtOnce == 0 {
		options.AtOnce = 64
	}
	if options.CheckKey == nil {
		options.CheckKey = func(context.Context) error { return nil }
	}
	if options.Observe == nil {
		options.Observe = func(Exchange) {}
	}
	options.Tokens = append([]Token(nil), options.Tokens...)
	return &handler{
		Options: options, orders: orders, store: store, reader: NewReader(store, false),
		slots:  make(chan struct{}, options.AtOnce),
		bodies: budget.New(bodiesAtOnce(int(options.ParsedAtOnce))), parsed: budget.New(int(options.ParsedAtOnce)),
	}, nil
}

// bodiesAtOnce is how many bytes the bodies of all requests may have in memory, if so many are parsed at once.
func bodiesAtOnce(parsed int) int {
	if parsed > 4<<20 {
		return 4 * parsed
	}
	return 16 << 20
}

// request is a request on its way to its answer.
type request struct {
	*http.Request
	*handler
	query  url.Values
	token  string            // the name of the token, or empty
	values map[string]string // of the segments in braces of the route's pattern
	text   []byte            // the body
}

// An answer is a status with a body: a value, or a text of JSON as it is, or nil for none.
type answer struct {
	status   int
	body     any
	location string
}

func (h *handler) ServeHTTP(w http.ResponseWriter, r *http.Request) {
	began := time.Now()
	exchange := Exchange{Client: addressOf(r), Method: r.Method, Target: cut(r.URL.EscapedPath(), 256)}
	ctx, cancel := context.WithTimeout(r.Context(), h.Timeout)
	defer cancel()
	given, err := h.answer(w, r.WithContext(ctx), &exchange)
	var text []byte
	if err == nil {
		text, err = textOf(given.body)
	}
	kind := "application/json"
	if err != nil {
		found := problemOf(err)
		given, kind = answer{status: found.Status}, "application/problem+json"
		exchange.Code, exchange.Err = found.Code, found.cause
		text, _ = textOf(found) // texts and a number can always be written
	}
	h.write(w, r, given, kind, text)
	exchange.Status, exchange.Duration = given.status, time.Since(began)
	h.Observe(exchange)
}

// answer finds the route, checks the token, and calls.
func (h *handler) answer(w http.ResponseWriter, r *http.Request, exchange *Exchange) (answer, error) {
	found, values, allowed := routeOf(r.Method, r.URL.EscapedPath())
	if found != nil {
		exchange.Route = found.pattern
	}
	if found == nil || found.needs != 0 {
		token := tokenIn(h.Tokens, r.Header.Values("Authorization"))
		if token == nil {
			w.Header().Set("WWW-Authenticate", `Bearer realm="osb-platform"`)
			return answer{}, newProblem(http.StatusUnauthorized, "unauthorized", "give a bearer token")
		}
		exchange.Token = token.Name
		if found != nil && token.Permissions&found.needs == 0 {
			detail := "the token " + token.Name + " doesn't have the permission for this"
			return answer{}, newProblem(http.StatusForbidden, "forbidden", detail)
		}
	}
	switch {
	case found == nil && len(allowed) > 0:
		methods := strings.Join(allowed, ", ")
		w.Header().Set("Allow", methods)
		return answer{}, newProblem(http.StatusMethodNotAllowed, "method_not_allowed", "it takes "+methods)
	case found == nil:
		return answer{}, newProblem(http.StatusNotFound, "no_route", "there is no such path: see /v1/openapi.json")
	}
	a := &request{Request: r, handler: h, values: values, token: exchange.Token}
	if err := a.readQuery(found.query); err != nil {
		return answer{}, err
	}
	if err := a.checkBody(found); err != nil {
		return answer{}, err
	}
	size := a.sizeOf(found)
	if !h.bodies.Take(a.token, size, a.left()) {
		return answer{}, errBusy
	}
	defer h.bodies.Give(a.token, size)
	if err := a.readBody(w, found); err != nil {
		return answer{}, err
	}
	return a.carryOut(found)
}

// errBusy is the problem of a request of which nothing was done.
var errBusy = newProblem(http.StatusServiceUnavailable, "busy", "too many ask at once: nothing was done")

// left is for how long the request may still wait.
func (a *request) left() time.Duration {
	deadline, _ := a.Context().Deadline() // ServeHTTP has set one
	return time.Until(deadline)
}

// carryOut calls, once it is the turn of the request.
func (a *request) carryOut(found *route) (answer, error) {
	if !a.parsed.Take(a.token, len(a.text), a.left()) {
		return answer{}, errBusy
	}
	defer a.parsed.Give(a.token, len(a.text))
	if len(a.text) >= largeBody {
		defer osb.ReturnMemory()
	}
	select {
	case a.slots <- struct{}{}:
		defer func() { <-a.slots }()
		given, err := found.call(a)
		return given, a.withID(err)
	case <-a.Context().Done():
		return answer{}, errBusy
	}
}

// largeBody is the length of a body from which on it pays to return the memory that its parsing took.
const largeBody = 32 << 10

// readQuery reads the query, whose names must be of these.
func (a *request) readQuery(names []string) error {
	query, err := url.ParseQuery(a.URL.RawQuery)
	if err != nil {
		return malformedError("the query can't be read")
	}
	known := map[string]bool{}
	for _, name := range names {
		known[name] = true
	}
	for name, values := range query {
		if !known[name] {
			return malformedError("the query has a name that is unknown here: " + strconv.Quote(cut(name, 64)))
		}
		if len(values) > 1 && name != "state" {
			return malformedError("the query has " + name + " twice")
		}
	}
	a.query = query
	return nil
}

func (h *handler) write(w http.ResponseWriter, r *http.Request, given answer, kind string, text []byte) {
	header := w.Header()
	for name, value := range map[string]string{
		"Cache-Control":           "no-store",
		"Content-Security-Policy": "default-src 'none'; frame-ancestors 'none'",
		"Referrer-Policy":         "no-referrer",
		"X-Content-Type-Options":  "nosniff",
	} {
		header.Set(name, value)
	}
	if given.location != "" {
		header.Set("Location", given.location)
	}
	switch given.status {
	case http.StatusServiceUnavailable:
		header.Set("Retry-After", "5")
	case http.StatusUnauthorized, http.StatusForbidden:
		header.Set("Connection", "close") // nobody without a token keeps a connection
	}
	if text != nil {
		header.Set("Content-Type", kind)
		header.Set("Content-Length", strconv.Itoa(len(text)))
	}
	w.WriteHeader(given.status)
	if r.Method != http.MethodHead && text != nil {
		_, _ = w.Write(text) // whoever has asked has gone
	}
}

// textOf is a body as JSON, or nil for none.
func textOf(body any) ([]byte, error) {
	switch body := body.(type) {
	case nil:
		return nil, nil
	case json.RawMessage:
		return printable(body), nil
	}
	var text bytes.Buffer
	encoder := json.NewEncoder(&text)
	encoder.SetEscapeHTML(false) // it is no HTML, and a broker's metadata stay as they are
	err := encoder.Encode(body)
	return printable(text.Bytes()), err
}

// printable is the same JSON, in which characters are escaped that a terminal wouldn't show, but carry out: controls,
// and marks that turn the direction of the text round. Such characters are only in strings. Bytes that aren't UTF-8
// become U+FFFD, as readers of JSON read them.
func printable(text []byte) []byte {
	isPrintable := func(r rune) bool { return r < 0x7f || r != utf8.RuneError && unicode.IsPrint(r) }
	if bytes.IndexFunc(text, func(r rune) bool { return !isPrintable(r) }) < 0 {
		return text
	}
	made := make([]byte, 0, len(text)+100)
	for len(text) > 0 {
		r, size := utf8.DecodeRune(text)
		switch first, second := utf16.EncodeRune(r); {
		case isPrintable(r):
			made = append(made, text[:size]...)
		case r <= 0xffff:
			made = fmt.Appendf(made, `\u%04x`, r)
		default:
			made = fmt.Appendf(made, `\u%04x\u%04x`, first, second)
		}
		text = text[size:]
	}
	return made
}

func addressOf(r *http.Request) string {
	host, _, err := net.SplitHostPort(r.RemoteAddr)
	if err != nil {
		return r.RemoteAddr
	}
	return host
}

func cut(text string, most int) string {
	if len(text) > most {
		return text[:most]
	}
	return text
}

// A route is a method at the paths of a pattern, whose segments in braces stand for any text.
type route struct {
	method, pattern string
	needs           Permission // 0 for none: then no token is asked for
	query           []string   // the names that the query may have
	hasBody         bool
	call            func(*request) (answer, error)
}

const (
	instances = "/v1/instances"
	bindings  = instances + "/{id}/bindings"
	brokers   = "/v1/brokers"

	allBindings = "/v1/bindings"
	records     = "/v1/records"
)

// listing are the names that the query of a list may have: some of its own, and those of every list.
func listing(own ...string) []string {
	return append(own, "order", "latest", "unreadable", "life", "limit", "after", "before", "last")
}

var routes = []route{
	{"GET", instances, Read, listing("state", "broker", "prefix", "first"), false, (*request).listInstances},
	{"POST", instances, Write, nil, true, (*request).create},
	{"GET", instances + "/{id}", Read, nil, false, (*request).show},
	{"DELETE", instances + "/{id}", Write, []string{"bindings"}, false, (*request).remove},
	{"POST", instances + "/{id}/retry", Write, nil, false, (*request).retry},
	{"POST", instances + "/{id}/abandon", Write, nil, true, (*request).abandon},
	{"GET", allBindings, Read, listing("state", "broker", "prefix"), false, (*request).listAllBindings},
	{"GET", bindings, Read, listing("state", "first"), false, (*request).listBindings},
	{"POST", bindings, Write, nil, true, (*request).bind},
	{"GET", bindings + "/{bid}", Read, nil, false, (*request).show},
	{"DELETE", bindings + "/{bid}", Write, nil, false, (*request).remove},
	{"POST", bindings + "/{bid}/retry", Write, nil, false, (*request).retry},
	{"POST", bindings + "/{bid}/abandon", Write, nil, true, (*request).abandon},
	{"GET", bindings + "/{bid}/credentials", Credentials, nil, false, (*request).credentials},
	{"GET", brokers, Read, nil, false, (*request).listBrokers},
	{"GET", brokers + "/{name}", Read, nil, false, (*request).showBroker},
	{"PUT", brokers + "/{name}", Write, nil, true, (*request).putBroker},
	{"DELETE", brokers + "/{name}", Write, nil, false, (*request).dropBroker},
	{"GET", records, Read, listing("state", "broker", "prefix"), false, (*request).listRecords},
	{"GET", "/v1/in-flight", Read, []string{"life", "limit"}, false, (*request).listInFlight},
	{"GET", "/v1/counts", Read, nil, false, (*request).counts},
	{"GET", "/v1/openapi.json", 0, nil, false, func(*request) (answer, error) {
		return answer{status: http.StatusOK, body: json.RawMessage(document)}, nil
	}},
}

// routeOf is the route of a request, with the values of its pattern; or nil, with the methods that the path has.
// HEAD is asked for as GET is.
func routeOf(method, path string) (found *route, values map[string]string, allowed []string) {
	for at := range routes {
		route := &routes[at]
		matched, isMatched := match(route.pattern, path)
		if !isMatched {
			continue
		}
		if route.method == method || route.method == http.MethodGet && method == http.MethodHead {
			return route, matched, nil
		}
		allowed = append(allowed, route.method)
		if route.method == http.MethodGet {
			allowed = append(allowed, http.MethodHead)
		}
	}
	sort.Strings(allowed)
	return nil, nil, allowed
}

// match compares a path, as it was sent, with a pattern. No value is empty.
func match(pattern, path string) (values map[string]string, isIt bool) {
	wanted, given := strings.Split(pattern, "/"), strings.Split(path, "/")
	if len(wanted) != len(given) {
		return nil, false
	}
	values = map[string]string{}
	for at, part := range wanted {
		text, err := url.PathUnescape(given[at])
		switch {
		case err != nil:
			return nil, false
		case strings.HasPrefix(part, "{") && text != "":
			values[part[1:len(part)-1]] = text
		case part != text:
			return nil, false
		}
	}
	return values, true
}

// key is the key that the path names. A text that is no id names nothing.
func (a *request) key() (platform.Key, error) { return keyOf(a.values["id"], a.values["bid"]) }

// withID is an error with the id of the path, if that names nothing.
func (a *request) withID(err error) error {
	var rejected *platform.Rejection
	isUnknown := errors.Is(err, platform.ErrUnknown) || errors.As(err, &rejected) && rejected.Kind == platform.NotFound
	id, isOfOne := a.values["id"]
	if !isUnknown || !isOfOne {
		return err
	}
	detail := "the instance " + strconv.Quote(cut(id, longestID)) + " is unknown"
	if binding, isBinding := a.values["bid"]; isBinding {
		detail = "the binding " + strconv.Quote(cut(id+"/"+binding, 2*longestID)) + " is unknown"
	}
	return newProblem(http.StatusNotFound, "not_found", detail)
}

// longestID is how long an id may be, in bytes.
const longestID = 255

// A problem is an error as it is answered (RFC 7807). Its code doesn't change, and its detail is for a person.
type problem struct {
	Type   string `json:"type"`
	Title  string `json:"title"`
	Status int    `json:"status"`
	Code   string `json:"code"`
	Detail string `json:"detail,omitempty"`

	cause error // for the observer alone
}

func (p *problem) Error() string { return p.Code + ": " + p.Detail }

func (p *problem) Unwrap() error { return p.cause }

// Is reports whether the problem is ErrMalformed.
func (p *problem) Is(target error) bool { return target == ErrMalformed && p.Code == "malformed" }

func newProblem(status int, code, detail string) *problem {
	return &problem{Type: "about:blank", Title: http.StatusText(status), Status: status, Code: code, Detail: detail}
}

var rejectionStatus = map[platform.RejectionKind]struct {
	status int
	code   string
}{
	platform.Invalid:  {http.StatusBadRequest, "invalid"},
	platform.NotFound: {http.StatusNotFound, "not_found"},
	platform.Conflict: {http.StatusConflict, "conflict"},
}

// problemOf is how an error is answered. What is no fault of the client shows nothing of its cause.
func problemOf(err error) *problem {
	var known *problem
	var rejected *platform.Rejection
	switch {
	case errors.As(err, &known):
		return known
	case errors.As(err, &rejected):
		of := rejectionStatus[rejected.Kind]
		return newProblem(of.status, of.code, rejected.Text)
	case errors.Is(err, platform.ErrUnknown):
		return newProblem(http.StatusNotFound, "not_found", "there is no such instance or binding")
	case errors.Is(err, platform.ErrAway), errors.Is(err, context.DeadlineExceeded), errors.Is(err, context.Canceled):
		away := newProblem(http.StatusServiceUnavailable, "store_away",
			"the store can't be reached: whether a change was written isn't known")
		away.cause = err
		return away
	}
	internal := newProblem(http.StatusInternalServerError, "internal", "the log of the program has the reason")
	internal.cause = err
	return internal
}

// malformedError is a query or a body that can't be read.
func malformedError(detail string) error {
	return newProblem(http.StatusBadRequest, "malformed", detail)
}

// deepest is how many arrays and objects of a body may lie within each other.
const deepest = 64

// checkBody returns an error unless a request may have the body that it announces: only the route decides. That of GET
// doesn't count.
func (a *request) checkBody(found *route) error {
	switch {
	case found.method == http.MethodGet:
		return nil
	case !found.hasBody && a.ContentLength != 0:
		return malformedError("this request has no body")
	case !found.hasBody:
		return nil
	}
	if kind, _, err := mime.ParseMediaType(a.Header.Get("Content-Type")); err != nil || kind != "application/json" {
		return newProblem(http.StatusUnsupportedMediaType, "unsupported_media_type", "a body is application/json")
	}
	return nil
}

// sizeOf is how many bytes the body takes, or 0 if it isn't read.
func (a *request) sizeOf(found *route) int {
	switch {
	case !found.hasBody || found.method == http.MethodGet:
		return 0
	case a.ContentLength < 0 || a.ContentLength > a.LongestBody:
		return int(a.LongestBody)
	}
	return int(a.ContentLength)
}

// readBody reads the body of a request whose route has one.
func (a *request) readBody(w http.ResponseWriter, found *route) error {
	if !found.hasBody || found.method == http.MethodGet {
		return nil
	}
	var text bytes.Buffer
	if a.ContentLength > 0 {
		text.Grow(a.sizeOf(found) + bytes.MinRead) // with which it doesn't grow again
	}
	_, err := text.ReadFrom(http.MaxBytesReader(w, a.Body, a.LongestBody))
	a.text = text.Bytes()
	var tooLong *http.MaxBytesError
	switch {
	case errors.As(err, &tooLong):
		detail := fmt.Sprintf("a body has at most %d bytes", a.LongestBody)
		return newProblem(http.StatusRequestEntityTooLarge, "body_too_large", detail)
	case err != nil:
		return malformedError("the body didn't arrive whole")
	}
	return nil
}

// body reads the body of a request into a struct. It must be an object of JSON in UTF-8, with members that the struct
// names, in these letters, each once and none null. In the values that are handed on to a broker, too, no name stands
// twice in an object.
func (a *request) body(to any) error {
	if err := strict(a.text, to); err != nil {
		return malformedError(err.Error())
	}
	return nil
}

// strict reads an object of JSON into a struct.
func strict(text []byte, to any) error {
	if !utf8.Valid(text) {
		return errors.New("the body isn't UTF-8")
	}
	decoder := json.NewDecoder(bytes.NewReader(text))
	decoder.UseNumber()
	if err := unique(decoder, deepest); err != nil {
		return err
	}
	if _, err := decoder.Token(); err != io.EOF {
		return errors.New("something follows the body's object")
	}
	if err := checkMembers(text, to); err != nil {
		return err
	}
	var mistyped *json.UnmarshalTypeError
	err := json.Unmarshal(text, to)
	if errors.As(err, &mistyped) {
		return fmt.Errorf("the member %s has a value of a wrong type", mistyped.Field)
	}
	return err
}

// unique reads one value, in which no object has a name twice.
func unique(decoder *json.Decoder, deep int) error {
	token, err := decoder.Token()
	if err != nil {
		return errors.New("the body isn't JSON")
	}
	delim, isOpening := token.(json.Delim)
	if !isOpening {
		return nil
	}
	if deep == 0 {
		return fmt.Errorf("more than %d arrays and objects lie within each other", deepest)
	}
	names := map[string]bool{}
	for decoder.More() {
		if delim == '{' {
			if err := nextName(decoder, names); err != nil {
				return err
			}
		}
		if err := unique(decoder, deep-1); err != nil {
			return err
		}
	}
	if _, err := decoder.Token(); err != nil {
		return errors.New("the body isn't JSON")
	}
	return nil
}

// nextName reads the name of a member, which none of these names is.
func nextName(decoder *json.Decoder, names map[string]bool) error {
	token, err := decoder.Token()
	name, isText := token.(string)
	switch {
	case err != nil || !isText:
		return errors.New("the body isn't JSON")
	case names[name]:
		return fmt.Errorf("the member %.64q stands twice in an object", name)
	}
	names[name] = true
	return nil
}

// checkMembers is an error unless a text is an object whose members are the fields of a struct, and not null.
// encoding/json takes other letters for the same, and null for no member.
func checkMembers(text []byte, to any) error {
	var members map[string]json.RawMessage
	if err := json.Unmarshal(text, &members); err != nil || members == nil {
		return errors.New("the body isn't an object of JSON")
	}
	fields, of := map[string]reflect.Type{}, reflect.TypeOf(to).Elem()
	for at := 0; at < of.NumField(); at++ {
		name, _, _ := strings.Cut(of.Field(at).Tag.Get("json"), ",")
		fields[name] = of.Field(at).Type
	}
	for name, value := range members {
		kind, isKnown := fields[name]
		if !isKnown {
			return fmt.Errorf("the member %.64q is unknown", name)
		}
		if string(value) == "null" {
			return fmt.Errorf("the member %s is null: leave it out", name)
		}
		if kind.Kind() == reflect.Struct {
			if err := checkMembers(value, reflect.New(kind).Interface()); err != nil {
				return fmt.Errorf("the member %s: %w", name, err)
			}
		}
	}
	return nil
}
