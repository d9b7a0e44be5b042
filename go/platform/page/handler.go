// Package page shows to a browser what the API of osb-platform answers about instances, bindings and brokers: how many
// are in each state, what waits for a person, what is in flight and at which worker, and the life of each as a line of
// its states with their times. It only reads, needs no JavaScript, and loads nothing from elsewhere. Its own script
// keeps the focus and the scroll position as it refreshes the page.
//
// The page reads through api.Reader alone, as the handler of the API does. It reaches no store, and imports no other
// package of the platform. So it shows nothing that the API doesn't answer.
//
// What an order was sent with may be secret, and isn't shown: parameters, context, the originating identity. Neither
// are passwords and credentials.
package page

import (
	"bytes"
	"context"
	"crypto/sha256"
	"crypto/subtle"
	_ "embed"
	"encoding/base64"
	"errors"
	"html/template"
	"net"
	"net/http"
	"net/netip"
	"net/url"
	"strconv"
	"strings"
	"time"

	"pippinterm/platform/api"
)

//go:embed page.html
var templates string

//go:embed page.css
var style string

//go:embed page.js
var script string

// A Limiter limits how often an address may fail to log in, as pippinterm/internal/httpserver/limiter does.
type Limiter interface {
	// FailedLogin counts a login from this address that failed, and returns how long its answer has to wait, or 0.
	FailedLogin(address string) time.Duration
}

// Options are the parts and the limits of a page. (The limits are this project's choice.)
type Options struct {
	// Host is the host at which the page listens, as the operator has named it. It may be empty.
	Host string
	// Hosts are further values of the field Host to which the page answers, for example of a proxy before it, with the
	// port if it isn't the usual one.
	Hosts []string
	// Users are the users with their passwords, each of which is valid. If it is empty, no password is asked for.
	Users map[string][]string
	// Limiter limits how often an address may fail to log in. It may be nil.
	Limiter Limiter
	// Stopping is done once the program stops. Answers to failed logins don't wait any more then. It may be nil.
	Stopping context.Context
	// LongCleaning is for how long a deletion may go on before it waits for a person. It is an hour by default.
	LongCleaning time.Duration
	// AtOnce is how many requests read at once, each one thing after another. It is 16 by default. Further
	// ones wait.
	AtOnce int
	// Timeout is how long a request may wait for its turn, and for the store. It is 10 seconds by default.
	Timeout time.Duration
	// Failed is called if the store couldn't be read. It returns at once. It may be nil.
	Failed func(error)
}

type handler struct {
	Options
	maker
	shown      *template.Template
	policy     string
	passwords  [][sha256.Size]byte
	slots      chan struct{}
	head, foot template.HTML // the style and the script, in their elements
}

// NewHandler makes the page over a reader. The server that calls it has to bound how long a client
// may take to send a request and to accept an answer (pippinterm/internal/httpserver does).
//
// The page answers GET and HEAD at /, /instance/ID and /instance/ID/binding/ID. It answers only to a Host that is the
// address of the connection, Options.Host or one of Options.Hosts, or on this machine localhost, so that no site reads
// it whose name leads to the address. Every other request is rejected with a page that shows nothing of the store.
//
// Errors: the reader is nil, or a limit is negative.
func NewHandler(reader api.Reader, options Options) (http.Handler, error) {
	if reader == nil {
		return nil, errors.New("page: a page needs a Reader")
	}
	if options.LongCleaning < 0 || options.AtOnce < 0 || options.Timeout < 0 {
		return nil, errors.New("page: no limit is negative")
	}
	if options.LongCleaning == 0 {
		options.LongCleaning = time.Hour
	}
	if options.AtOnce == 0 {
		options.AtOnce = 16
	}
	if options.Timeout == 0 {
		options.Timeout = 10 * time.Second
	}
	if options.Failed == nil {
		options.Failed = func(error) {}
	}
	if options.Stopping == nil {
		options.Stopping = context.Background()
	}
	shown, err := template.New("page").Parse(templates)
	if err != nil {
		return nil, err
	}
	return &handler{
		Options: options, maker: maker{reader: reader, longCleaning: options.LongCleaning}, shown: shown,
		slots: make(chan struct{}, options.AtOnce), passwords: digests(options.Users),
		// No script, no style and nothing else is loaded, but what stands in the page and has these hashes.
		policy: "default-src 'none'; style-src '" + hash(style) + "'; script-src '" + hash(script) + "'; " +
			"connect-src 'self'; form-action 'self'; base-uri 'none'; frame-ancestors 'none'",
		// Both are files of this package.
		head: template.HTML("<style>" + style + "</style>"),
		foot: template.HTML("<script>" + script + "</script>"),
	}, nil
}

func hash(text string) string {
	digest := sha256.Sum256([]byte(text))
	return "sha256-" + base64.StdEncoding.EncodeToString(digest[:])
}

func (h *handler) ServeHTTP(w http.ResponseWriter, r *http.Request) {
	status, text := h.answer(w, r)
	header := w.Header()
	for name, value := range map[string]string{
		"Content-Type":                 "text/html; charset=utf-8",
		"Content-Length":               strconv.Itoa(len(text)),
		"Cache-Control":                "no-store",
		"Content-Security-Policy":      h.policy,
		"X-Frame-Options":              "DENY",
		"X-Content-Type-Options":       "nosniff",
		"Referrer-Policy":              "no-referrer",
		"Cross-Origin-Opener-Policy":   "same-origin",
		"Cross-Origin-Resource-Policy": "same-origin",
	} {
		header.Set(name, value)
	}
	if status == http.StatusUnauthorized || status == http.StatusMisdirectedRequest {
		header.Set("Connection", "close") // nobody without a password, or by a foreign name, keeps a connection
	}
	w.WriteHeader(status)
	if r.Method != http.MethodHead {
		_, _ = w.Write(text) // whoever has asked has gone
	}
}

// answer makes the whole answer, before any of it is sent: a slow client keeps no other one waiting.
func (h *handler) answer(w http.ResponseWriter, r *http.Request) (status int, text []byte) {
	switch {
	case !h.isNamed(r):
		return h.rejection(http.StatusMisdirectedRequest, "This page answers only at the address at which it listens.")
	case !h.isUser(r):
		w.Header().Set("WWW-Authenticate", `Basic realm="osb-platform", charset="UTF-8"`)
		return h.rejection(http.StatusUnauthorized, "This page asks for a user and a password.")
	case r.Method != http.MethodGet && r.Method != http.MethodHead:
		w.Header().Set("Allow", "GET, HEAD")
		return h.rejection(http.StatusMethodNotAllowed, "This page only reads: it takes only GET and HEAD.")
	}
	ctx, cancel := context.WithTimeout(r.Context(), h.Timeout)
	defer cancel()
	select {
	case h.slots <- struct{}{}:
		defer func() { <-h.slots }()
	case <-ctx.Done():
		w.Header().Set("Retry-After", "5")
		return h.rejection(http.StatusServiceUnavailable, "Too many ask at once. Try again.")
	}
	return h.page(ctx, w, r)
}

// page makes the page that a request asks for.
func (h *handler) page(ctx context.Context, w http.ResponseWriter, r *http.Request) (status int, text []byte) {
	frame := frame{Style: h.head, Script: h.foot}
	name, shown, err := h.read(ctx, r.URL, frame)
	switch {
	case errors.Is(err, errNoPage), errors.Is(err, api.ErrUnknown):
		return h.failure(http.StatusNotFound, "There is no such page, and no instance or binding of this id.")
	case err != nil:
		h.Failed(err)
		w.Header().Set("Retry-After", "5")
		return h.failure(http.StatusServiceUnavailable, "The store can't be read now. The program's log has more.")
	}
	var out bytes.Buffer
	if err := h.shown.ExecuteTemplate(&out, name, shown); err != nil {
		h.Failed(err)
		return h.rejection(http.StatusInternalServerError, "The page can't be made. The program's log has more.")
	}
	return http.StatusOK, out.Bytes()
}

// rejection is a page that shows nothing of the store, of the program and of the request: nobody knows who has asked.
func (h *handler) rejection(status int, sentence string) (int, []byte) {
	return h.message("message", frame{Title: http.StatusText(status)}, status, sentence)
}

// failure is a page for a user of the page. It shows nothing of the store and of the request.
func (h *handler) failure(status int, sentence string) (int, []byte) {
	whole := frame{Style: h.head, Script: h.foot, Title: http.StatusText(status)}
	return h.message("failed", whole, status, sentence)
}

func (h *handler) message(template string, f frame, status int, sentence string) (int, []byte) {
	var out bytes.Buffer
	err := h.shown.ExecuteTemplate(&out, template, message{frame: f, Text: sentence})
	if err != nil {
		h.Failed(err)
	}
	return status, out.Bytes()
}

// isNamed reports whether a request names the page by an address at which it listens.
func (h *handler) isNamed(r *http.Request) bool {
	given := strings.ToLower(r.Host)
	for _, host := range h.Hosts {
		if host != "" && given == strings.ToLower(host) {
			return true
		}
	}
	return h.isAddress(r, given)
}

// isAddress reports whether a Host is an address of the connection of a request, or a name of it.
func (h *handler) isAddress(r *http.Request, given string) bool {
	local, isKnown := r.Context().Value(http.LocalAddrContextKey).(net.Addr)
	if !isKnown {
		return false
	}
	address, err := netip.ParseAddrPort(local.String())
	if err != nil {
		return false
	}
	own := address.Addr().Unmap().WithZone("")
	names, usual := []string{strings.ToLower(h.Host), own.String()}, ":80"
	if own.IsLoopback() {
		names = append(names, "localhost")
	}
	if r.TLS != nil {
		usual = ":443"
	}
	for _, name := range names {
		if name == "" {
			continue
		}
		whole := net.JoinHostPort(name, strconv.Itoa(int(address.Port())))
		if given == whole || given+usual == whole {
			return true
		}
	}
	return false
}

// digests are those of the users with their passwords.
func digests(users map[string][]string) (all [][sha256.Size]byte) {
	for user, passwords := range users {
		for _, password := range passwords {
			all = append(all, digestOf(user, password))
		}
	}
	return all
}

// digestOf is the SHA-256 of a user with a password. None of Options.Users has a NUL.
func digestOf(user, password string) [sha256.Size]byte {
	return sha256.Sum256([]byte(user + "\x00" + password))
}

// isUser reports whether a request has the password of a user, or none is asked for. It compares all of them in
// constant time.
func (h *handler) isUser(r *http.Request) bool {
	if len(h.Users) == 0 {
		return true
	}
	address, _, err := net.SplitHostPort(r.RemoteAddr)
	if err != nil {
		address = r.RemoteAddr
	}
	user, password, isGiven := r.BasicAuth()
	if !isGiven || len(r.Header.Values("Authorization")) != 1 {
		return false
	}
	given, found := digestOf(user, password), 0
	for at := range h.passwords {
		found |= subtle.ConstantTimeCompare(given[:], h.passwords[at][:])
	}
	if found == 0 && h.Limiter != nil {
		h.wait(h.Limiter.FailedLogin(address))
	}
	return found == 1
}

// wait has the answer to a failed login wait for its turn, also if the client goes away. Otherwise its connection would
// be free sooner, and passwords could be tried faster.
func (h *handler) wait(turn time.Duration) {
	timer := time.NewTimer(turn)
	defer timer.Stop()
	select {
	case <-timer.C:
	case <-h.Stopping.Done():
	}
}

// errNoPage reports that a target names no page.
var errNoPage = errors.New("there is no such page")

const (
	inFlight    = "in-flight" // in place of a state: what has a request in flight
	longestFind = 255         // bytes
	// longestCursor is how many bytes a cursor of the API has at most. One of this program's has fewer than 400, and over
	// PostgreSQL about 5 more for each transaction that ran at its moment.
	longestCursor = 5000
)

// states are all states, in the order in which they are shown.
var states = []string{
	api.Ordered, api.Withdrawn, api.Wanted, api.Polling, api.Ready, api.Cleaning,
	api.CleaningPolling, api.Gone, api.Unsettled, api.Abandoned,
}

// orders say how a list is ordered. usualOrder stands for api.Newest: no target names it.
const usualOrder api.Ordering = ""

var orders = map[api.Ordering]string{
	usualOrder: "newest in their state first", api.Oldest: "longest in their state first",
	api.ByNumber: "by number",
}

// What the target of a list asks for.
type target struct {
	state    string       // one of states, or inFlight, or empty for all
	find     string       // what numbers begin with, or a whole id; if it isn't empty, no state counts
	bindings bool         // bindings, and not instances
	order    api.Ordering // of orders; Newest is empty here
	after    string       // the page that begins behind this cursor of the API
	before   string       // the page that ends before this cursor
	isLast   bool         // the last page
	skipped  int          // how many rows come before the cursor, as the page with the link says
	isStill  bool         // whether the page stays as it is, and isn't refreshed of itself
}

// isFirst reports whether the first page is asked for, with what waits and what is in flight.
func (a target) isFirst() bool { return a == target{isStill: a.isStill, order: a.order} }

// isPaged reports whether the rows are listed by time, on pages.
func (a target) isPaged() bool { return a.find == "" && a.state != inFlight }

// first asks for the first page of the same list.
func (a target) first() target {
	a.after, a.before, a.isLast, a.skipped = "", "", false, 0
	return a
}

// readAsked reads the query of a list. Errors: errNoPage.
func readAsked(query url.Values) (target, error) {
	a := target{isStill: query.Has("still")}
	for name, values := range query {
		if len(values) != 1 {
			return a, errNoPage
		}
		if err := a.take(name, values[0]); err != nil {
			return a, errNoPage
		}
	}
	starts := 0
	for _, isSet := range []bool{a.after != "", a.before != "", a.isLast} {
		if isSet {
			starts++
		}
	}
	if starts > 1 {
		return a, errNoPage
	}
	return a, nil
}

func (a *target) take(name, value string) (err error) {
	switch name {
	case "still":
	case "state":
		a.state = value
		if value != inFlight && !isState(value) {
			return errNoPage
		}
	case "find":
		a.find = strings.TrimSpace(value)
		if len(a.find) > longestFind {
			return errNoPage
		}
	case "kind":
		a.bindings = value == "bindings"
		if !a.bindings {
			return errNoPage
		}
	case "order":
		a.order = api.Ordering(value)
		if orders[a.order] == "" || a.order == usualOrder {
			return errNoPage
		}
	case "after":
		a.after, err = readCursor(value)
	case "before":
		a.before, err = readCursor(value)
	case "page":
		a.isLast = value == "last"
		if !a.isLast {
			return errNoPage
		}
	case "from":
		a.skipped, err = strconv.Atoi(value)
		if a.skipped < 0 || a.skipped > 1<<40 {
			return errNoPage
		}
	default:
		return errNoPage
	}
	return err
}

func isState(text string) bool {
	for _, state := range states {
		if state == text {
			return true
		}
	}
	return false
}

// readCursor reads a cursor. Only the API knows what it says.
func readCursor(text string) (string, error) {
	if text == "" || len(text) > longestCursor {
		return "", errNoPage
	}
	return text, nil
}

// target is the target that asks for this.
func (a target) target() string {
	query := url.Values{}
	for name, value := range map[string]string{"state": a.state, "find": a.find} {
		if value != "" {
			query.Set(name, value)
		}
	}
	if a.bindings {
		query.Set("kind", "bindings")
	}
	if a.order != usualOrder {
		query.Set("order", string(a.order))
	}
	for name, at := range map[string]string{"after": a.after, "before": a.before} {
		if at != "" {
			query.Set(name, at)
			query.Set("from", strconv.Itoa(a.skipped))
		}
	}
	if a.isLast {
		query.Set("page", "last")
	}
	if a.isStill {
		query.Set("still", "1")
	}
	if len(query) == 0 {
		return "/"
	}
	return "/?" + query.Encode()
}

// targetOf is the target of a row's own page.
func targetOf(r api.Record, isStill bool) string {
	if r.IsBinding() {
		return targetOfIDs(isStill, r.InstanceNumber, r.Number)
	}
	return targetOfIDs(isStill, r.Number)
}

// targetOfIDs is the target of the page of an instance, or of a binding of it.
func targetOfIDs(isStill bool, ids ...string) string {
	target := "/instance/" + url.PathEscape(ids[0])
	if len(ids) > 1 {
		target += "/binding/" + url.PathEscape(ids[1])
	}
	if isStill {
		target += "?still=1"
	}
	return target
}

// idsOf reads the path of a row's own page. binding is empty for an instance. Errors: errNoPage.
func idsOf(path string) (instance, binding string, err error) {
	parts := strings.Split(path, "/")
	if len(parts) != 3 && (len(parts) != 5 || parts[3] != "binding") || parts[1] != "instance" {
		return "", "", errNoPage
	}
	var ids []string
	for at := 2; at < len(parts); at += 2 {
		text, err := url.PathUnescape(parts[at])
		if err != nil || text == "" {
			return "", "", errNoPage
		}
		ids = append(ids, text)
	}
	if len(ids) == 1 {
		return ids[0], "", nil
	}
	return ids[0], ids[1], nil
}
