package page

import (
	"context"
	"encoding/json"
	"fmt"
	"go/parser"
	"go/token"
	"html"
	"io/fs"
	"net"
	"net/http"
	"net/http/httptest"
	"net/netip"
	"net/url"
	"os"
	"reflect"
	"regexp"
	"sort"
	"strconv"
	"strings"
	"testing"
	"time"

	"pippinterm/internal/diff"
	"pippinterm/osb"
	"pippinterm/platform"
	"pippinterm/platform/api"
)

func TestFirstPage(t *testing.T) {
	text := pageText(t, pageOf(t, shelf(), Options{}), "/")
	for _, state := range states {
		has(t, text, `id="go-`+string(state)+`"><strong>1</strong> <span class="state `+string(state)+`">`+string(state))
	}
	has(t, text, "<title>10 instances, 1 unsettled - osb-platform</title>",
		`<strong>1</strong> <span class="state in-flight">`,
		`id="go-binding-ready"><strong>1</strong>`, `data-refresh="5"`, "As of <time", "2026-01-03 03:04:05")
	waiting := part(t, text, "waiting")
	has(t, waiting, "<h3>1 unsettled</h3>", "1, the longest first", "<h3>Being deleted for over 1 h</h3>",
		"2, the longest first", "<code>osb-platform remove ID</code> only if <code>ask</code> advises it",
		`id="waits-`+idOf(9).String()+`"`,
		`id="waits-`+idOf(6).String()+`"`, `id="waits-`+idOf(7).String()+`"`,
		"2026-01-02 03:04:05</time> <span class=\"ago\">(1 day ago)",
		"The broker shut rejects the user or the password")
	diff.Lacks(t, waiting, "The broker shelf", "the broker shelf")
	has(t, part(t, text, "flights"), `id="flies-`+idOf(3).String()+`"`, "Provision",
		"worker-1, lease ran out 1 min ago")
	has(t, part(t, text, "brokers"), "https://shelf.example", "2026-01-02 03:04:05", "none yet",
		"catalogue, status 401, who are you")
	diff.Equal(t, len(linesIn(text)), 10, "the list")
}

func TestLifeInALine(t *testing.T) {
	store := shelf()
	text := part(t, pageText(t, pageOf(t, store, Options{}), "/?state=ready"), "instances")
	has(t, text,
		`<li><span class="state ordered">ordered</span> <time datetime="2025-12-31T03:04:05Z">2025-12-31 03:04:05`,
		`<li><span class="state wanted">wanted</span> <time datetime="2025-12-31T04:04:05Z">04:04:05</time>`,
		`<li><span class="state ready">ready</span> <time datetime="2026-01-02T03:04:05Z">2026-01-02 03:04:05</time>`)
	key := store.rows[4].Key
	for n := 0; n < 20; n++ {
		store.lives[key] = append(store.lives[key], platform.Stay{State: platform.Cleaning, Since: began})
	}
	has(t, pageText(t, pageOf(t, store, Options{}), "/?state=ready"), "<li>17 states before</li>")
	has(t, pageText(t, pageOf(t, store, Options{}), pageOn(key)), "24 states", `<th scope="row" role="rowheader">24</th>`)
}

// A row that can't be read is shown with the others, and why it can't be read.
func TestUnreadableRow(t *testing.T) {
	store := shelf()
	store.rows[4].Unreadable = "the record: <b>"
	h := pageOf(t, store, Options{})
	const why = "its record can't be read: the record: <b>"
	for _, target := range []string{"/", "/?state=ready", pageOn(store.rows[4].Key)} {
		text := html.UnescapeString(pageText(t, h, target))
		diff.Equal(t, strings.Count(text, why), 1, "%s, %s, %q", target, mainOf(text), why)
	}
	diff.Equal(t, len(linesIn(pageText(t, h, "/"))), len(states), "the list")
}

// A row that can't be read needs attention if something is to be done for it.
func TestUnreadableRowNeedsAttention(t *testing.T) {
	store := shelf()
	for at, row := range store.rows {
		if row.State == platform.Unsettled || row.State == platform.Ordered || row.State == platform.Gone {
			store.rows[at].Unreadable = "the record: <b>"
		}
	}
	waiting := html.UnescapeString(part(t, pageText(t, pageOf(t, store, Options{}), "/"), "waiting"))
	_, waiting, _ = strings.Cut(waiting, "<h3>Records that can't be read</h3>")
	waiting, _, isFollowed := strings.Cut(waiting, "<h3>1 unsettled</h3>")
	has(t, waiting, "2, the longest first", "Nothing is sent for such a record.",
		"<code>osb-platform show ID</code>")
	if strings.Count(waiting, "its record can't be read: the record: <b>") != 2 || !isFollowed ||
		strings.Count(waiting, ` id="unreadable-`) != 2 {
		t.Errorf("got %s, want two that can't be read, with links", waiting)
	}
}

func TestEmptyStore(t *testing.T) {
	text := pageText(t, pageOf(t, &fake{now: now}, Options{}), "/")
	has(t, text, "Nothing needs attention.", "No request is in flight.", "There are no brokers yet.",
		"There are no instances yet. To create one, run <code>osb-platform create</code>.", "0 instances")
	for _, state := range states {
		has(t, text, `<strong>0</strong> <span class="state `+string(state)+`">`+string(state)+`</span>`)
	}
	diff.Lacks(t, text, "go-binding-", "")
}

// What is cleaned for a short time doesn't wait for a person.
func TestShortCleaning(t *testing.T) {
	store := shelf()
	text := part(t, pageText(t, pageOf(t, store, Options{LongCleaning: 25 * time.Hour}), "/"), "waiting")
	diff.Lacks(t, text, "cleaning", "the table of what waits")
	has(t, text, "1 unsettled")
}

func TestMuchWaits(t *testing.T) {
	store := shelf()
	for n := 0; n < 7; n++ {
		store.rows = append(store.rows, entryOf(osb.InstanceKey(idOf(0x100+n)), platform.Unsettled))
		store.rows = append(store.rows, flying(entryOf(osb.InstanceKey(idOf(0x200+n)), platform.Cleaning)))
	}
	text := pageText(t, pageOf(t, store, Options{}), "/")
	has(t, part(t, text, "waiting"), "8 unsettled", "The first 5 of 8, the longest first",
		"The first 5, the longest first", "All 8 unsettled instances", "All 8 cleaning instances",
		"All 1 cleaning-polling instance")
	has(t, part(t, text, "flights"), "The first 5 of 8, by the end of their lease")
	diff.Equal(t, linkOf(text, "more-unsettled"), "/?order=oldest&state=unsettled", "the link")
	flights := pageText(t, pageOf(t, store, Options{}), linkOf(text, "more-in-flight"))
	diff.Equal(t, len(linesIn(flights)), 8, "the list")
}

func TestInstancePage(t *testing.T) {
	store := shelf()
	operation := "task-1"
	e := &store.rows[4]
	e.Operation, e.Dashboard, e.Metadata = &operation, "https://dash.example", []byte(`{"labels": {}}`)
	e.Last = platform.Reason{At: began, Kind: "poll", Status: 200, Error: "Code", Description: "it goes well"}
	e.Last.Lost = "cut"
	e.Failure = platform.Reason{At: began, Kind: "provision", Status: 500, Description: "no room"}
	e.Names.Instance, e.Because, e.Unchanged, e.Removal = "my id", "nobody wants it", 3, platform.RemovedWhole
	e.Due = now.Add(90 * time.Second)
	text := pageText(t, pageOf(t, store, Options{}), pageOn(e.Key))
	has(t, text, "<h1>Instance <code>my id</code></h1>", "task-1", "https://dash.example", "{&#34;labels&#34;: {}}",
		"poll, status 200, Code, it goes well, cut", "provision, status 500, no room", "nobody wants it",
		"the last 3 requests", "that of its bindings first", "(in 1 min)", e.Key.String(), "1 of 3",
		"4 states", "1 h</div>", "until now")
	diff.Lacks(t, text, `href="https://dash`, "")
	has(t, part(t, text, "bindings"), `id="b-`+e.Key.String()+"/"+idOf(0x51).String()+`"`, "1 binding")
	bound := pageText(t, pageOf(t, store, Options{}), linkOf(text, "b-"+e.Key.String()+"/"+idOf(0x51).String()))
	has(t, bound, "<h1>Binding <code>"+idOf(0x51).String(), `<a href="`+pageOn(e.Key)+`" id="instance">`)
	unsettled := pageText(t, pageOf(t, store, Options{}), pageOn(store.rows[8].Key))
	has(t, unsettled, "<code>osb-platform ask "+store.rows[8].Key.String(),
		"<code>osb-platform remove "+store.rows[8].Key.String(),
		"only if <code>ask</code> advises it, for example after a 410, or after a 200")
}

// The tries of an order are shown with each of them, in the order in which they are listed.
func TestChainOfTries(t *testing.T) {
	store := &fake{now: now}
	for n := 1; n <= 3; n++ {
		e := entryOf(osb.InstanceKey(idOf(n)), platform.Gone)
		e.Try, e.First, e.Passing = n, idOf(1), n < 3
		e.Since = began.Add(time.Duration(n) * time.Minute)
		if n < 3 {
			e.Failure = platform.Reason{At: began, Kind: "provision", Status: 503, Description: fmt.Sprint("full ", n)}
		}
		store.rows = append(store.rows, e)
	}
	for _, e := range store.rows {
		text := pageText(t, pageOf(t, store, Options{}), pageOn(e.Key))
		has(t, part(t, text, "tries"), "3 tries of one order", "try 1</span><span>provision, status 503, full 1",
			"try 3")
	}
	alone := pageText(t, pageOf(t, shelf(), Options{}), pageOn(shelf().rows[4].Key))
	diff.Lacks(t, alone, `id="tries"`, "an order without a further try")
}

// The tries of a binding are those of its instance, though another instance may have a binding of the same id.
func TestChainOfBindings(t *testing.T) {
	of := entryOf(osb.InstanceKey(idOf(7)), platform.Ready)
	other := entryOf(osb.InstanceKey(idOf(8)), platform.Ready)
	store := &fake{now: now, rows: []platform.Entry{of, other}}
	for n := 1; n <= 2; n++ {
		e := entryOf(osb.BindingKey(of.Key.Instance, idOf(n)), platform.Gone)
		e.Try, e.First, e.Passing, e.Since = n, idOf(1), true, began.Add(time.Duration(n)*time.Minute)
		e.Failure = platform.Reason{At: began, Kind: "bind", Status: 422, Error: "ConcurrencyError"}
		e.Failure.Description = fmt.Sprint("busy ", n)
		store.rows = append(store.rows, e)
	}
	alone := entryOf(osb.BindingKey(other.Key.Instance, idOf(1)), platform.Gone)
	alone.Passing = true
	store.rows = append(store.rows, alone)
	h := pageOf(t, store, Options{})
	for _, e := range store.rows[2:4] {
		text := pageText(t, h, pageOn(e.Key))
		has(t, part(t, text, "tries"), "2 tries of one order", "try 1</span><span>bind, status 422, ConcurrencyError, busy 1",
			"try 2</span><span>bind, status 422, ConcurrencyError, busy 2", `href="`+pageOn(store.rows[2].Key)+`"`)
		has(t, text, "<h1>Binding <code>"+e.Key.Binding.String(), fmt.Sprint(e.Try, " of 3"))
	}
	for _, e := range []platform.Entry{alone, of} {
		text := pageText(t, h, pageOn(e.Key))
		diff.Lacks(t, text, `id="tries"`, "%v", e.Key)
	}
}

// A further try of a binding that isn't due yet says until when it waits, and on its own page why.
func TestWaitingTryOfBinding(t *testing.T) {
	of := entryOf(osb.InstanceKey(idOf(7)), platform.Ready)
	before := entryOf(osb.BindingKey(of.Key.Instance, idOf(1)), platform.Gone)
	before.Passing, before.Failure = true, platform.Reason{At: began, Kind: "bind", Status: 503, Description: "no room"}
	e := entryOf(osb.BindingKey(of.Key.Instance, idOf(2)), platform.Ordered)
	e.Try, e.First, e.Due = 2, idOf(1), now.Add(10*time.Minute)
	h := pageOf(t, &fake{now: now, rows: []platform.Entry{of, before, e}}, Options{})
	for _, target := range []string{"/?kind=bindings&state=ordered", pageOn(of.Key), pageOn(before.Key)} {
		has(t, pageText(t, h, target), "<span>waits until 2026-01-03 03:14:05</span>")
	}
	has(t, pageText(t, h, pageOn(e.Key)), "<dt>Why the try before failed</dt>"+
		`<dd>bind, status 503, no room <span class="ago">(1 day ago)</span></dd>`)
}

// A further try that isn't due yet says until when it waits, and on its own page why. Any other order says neither.
func TestWaitingTry(t *testing.T) {
	const until, why = "<span>waits until 2026-01-03 03:14:05</span>", "<dt>Why the try before failed</dt>" +
		`<dd>provision, status 503, no room <span class="ago">(1 day ago)</span></dd>`
	for name, test := range map[string]struct {
		try  int
		wait time.Duration
		want int
	}{
		"a further try that waits": {2, 10 * time.Minute, 1}, "one that is due": {2, 0, 0},
		"a first try": {1, 10 * time.Minute, 0},
	} {
		t.Run(name, func(t *testing.T) {
			before := entryOf(osb.InstanceKey(idOf(1)), platform.Gone)
			before.Passing = true
			before.Failure = platform.Reason{At: began, Kind: "provision", Status: 503, Description: "no room"}
			e := entryOf(osb.InstanceKey(idOf(2)), platform.Ordered)
			e.Try, e.First, e.Due = test.try, idOf(1), now.Add(test.wait)
			h := pageOf(t, &fake{now: now, rows: []platform.Entry{before, e}}, Options{})
			for target, part := range map[string]string{
				"/": until, "/?state=ordered": until, "/?find=00000002": until, pageOn(e.Key): why, pageOn(before.Key): until,
			} {
				t.Run(target, func(t *testing.T) {
					text := pageText(t, h, target)
					diff.Equal(t, strings.Count(text, part), test.want, "%s, %q, %s", target, part, mainOf(text))
				})
			}
		})
	}
}

// A row says why it is in its state: what its deletion was answered, why its creation has failed, or why it was
// abandoned. What goes well needs no reason.
func TestReasons(t *testing.T) {
	shut := platform.Reason{At: began, Kind: "deprovision", Status: 503, Error: "Shut", Description: "come back"}
	full := platform.Reason{At: began, Kind: "provision", Status: 500, Description: "no room"}
	good := platform.Reason{At: began, Kind: "poll", Status: 200, Description: "it goes well"}
	cut := platform.Reason{At: began, Kind: "poll", Lost: "it was cut"}
	for at, test := range []struct {
		state         platform.State
		last, failure platform.Reason
		want          string
	}{
		{platform.Cleaning, shut, full, "deprovision, status 503, Shut, come back"},
		{platform.Cleaning, good, full, "provision, status 500, no room"},
		{platform.CleaningPolling, cut, full, "poll, it was cut"},
		{platform.Unsettled, full, full, "provision, status 500, no room"},
		{platform.Gone, good, full, "provision, status 500, no room"},
		{platform.Wanted, cut, platform.Reason{}, "poll, it was cut"},
		{platform.Polling, good, platform.Reason{}, ""},
		{platform.Ready, good, platform.Reason{}, ""},
		{platform.Abandoned, shut, full, "nobody wants it"},
	} {
		t.Run(string(test.state)+" "+test.want, func(t *testing.T) {
			e := entryOf(osb.InstanceKey(idOf(at+1)), test.state)
			e.Last, e.Failure, e.Because = test.last, test.failure, "nobody wants it"
			h := pageOf(t, &fake{now: now, rows: []platform.Entry{e}}, Options{})
			want := `<td role="cell" data-name="Now"><div><span>` + test.want + `</span></div></td>`
			if test.want == "" {
				want = `<td role="cell" data-name="Now" class="nothing"><div></div></td>`
			}
			has(t, part(t, pageText(t, h, "/?find=0"), "instances"), want)
			if test.state == platform.Unsettled || test.state == platform.Cleaning {
				has(t, part(t, pageText(t, h, "/"), "waiting"), `data-name="Reason"><div>`+test.want+`</div>`)
			}
		})
	}
}

// A request is in flight until it is given up, whether its lease goes on, has run out, or has ended.
func TestFlights(t *testing.T) {
	for until, want := range map[time.Duration]string{
		time.Minute: "worker-1", -200 * time.Second: "worker-1, lease ran out 3 min ago", 0: "no worker has it",
	} {
		t.Run(want, func(t *testing.T) {
			e := flying(entryOf(osb.InstanceKey(idOf(1)), platform.Wanted))
			if e.Lease.Until = now.Add(until); until == 0 {
				e.Lease = platform.Lease{}
			}
			h := pageOf(t, &fake{now: now, rows: []platform.Entry{e}}, Options{})
			has(t, pageText(t, h, "/"), "<span>Provision</span><span>"+want+"</span>")
			has(t, pageText(t, h, pageOn(e.Key)), "<dd>Provision, "+want+"</dd>")
		})
	}
}

// A very long life isn't shown whole, and its states have their numbers.
func TestLongLife(t *testing.T) {
	store := shelf()
	key := store.rows[4].Key
	for n := 0; n < longest+7; n++ {
		store.lives[key] = append(store.lives[key], platform.Stay{State: platform.Cleaning, Since: began})
	}
	text := pageText(t, pageOf(t, store, Options{}), pageOn(key))
	has(t, text, "<caption>1,011 states, of which the first 10 aren&#39;t shown</caption>",
		`<th scope="row" role="rowheader">11</th>`, `<th scope="row" role="rowheader">1,011</th>`)
	diff.Lacks(t, text, `<th scope="row" role="rowheader">10</th>`, "")
}

var background = context.Background()

// began is when everything in the tests began, and now is a day later.
var (
	began = time.Date(2026, 1, 2, 3, 4, 5, 0, time.UTC)
	now   = began.Add(24 * time.Hour)
)

var check = diff.Must

func idOf(n int) osb.ID { return osb.MustParseID(fmt.Sprintf("%08x-0000-4000-8000-%012x", n, n)) }

// A row of a state, as the orders of the tests are.
func entryOf(key platform.Key, state platform.State) platform.Entry {
	e := platform.Entry{
		Order: platform.Order{
			Key: key, Broker: "shelf", Service: idOf(0xa0), Plan: idOf(0xb1), IsOwnID: true,
			Names: platform.Names{Instance: key.Instance.String(), Service: "a0", Plan: "b1"},
			Body:  json.RawMessage(`{"parameters": {"hush": 1}}`), Identity: "cloud eyJodXNoIjoxfQ==",
			Organization: "org", Space: "space", Try: 1, Tries: 3, First: key.ID(),
		},
		State: state, Since: began,
	}
	if key.IsBinding {
		e.Names.Binding = key.Binding.String()
	}
	return e
}

// flying has a request in flight.
func flying(e platform.Entry) platform.Entry {
	e.Record, _ = osb.Create(e.Key.Instance, e.Service, e.Plan, true)
	e.IsSent, e.Lease = true, platform.Lease{Worker: "worker-1", Until: now.Add(-time.Minute)}
	return e
}

// A shelf has a row of each kind that the page shows.
func shelf() *fake {
	f := &fake{now: now, lives: map[platform.Key][]platform.Stay{}}
	for n, state := range states {
		f.rows = append(f.rows, entryOf(osb.InstanceKey(idOf(n+1)), platform.State(state)))
	}
	f.rows[2] = flying(f.rows[2])
	bound := entryOf(osb.BindingKey(f.rows[4].Key.Instance, idOf(0x51)), platform.Ready)
	bound.Credentials = []byte("hush")
	f.rows = append(f.rows, bound)
	f.lives[f.rows[4].Key] = []platform.Stay{
		{State: platform.Ordered, Since: began.Add(-48 * time.Hour)},
		{State: platform.Wanted, Since: began.Add(-47 * time.Hour)},
		{State: platform.Polling, Since: began.Add(-46 * time.Hour)},
	}
	f.brokers = []platform.Broker{
		{Name: "shelf", URL: "https://shelf.example", User: "me", Password: []byte("hush"), CatalogueAt: began},
		{
			Name: "shut", URL: "https://shut.example", PasswordFile: "/run/hush",
			Reason: platform.Reason{At: began, Kind: "catalogue", Status: 401, Description: "who are you"},
		},
	}
	return f
}

// pageOf is the page over a store.
func pageOf(t *testing.T, store platform.Store, options Options) http.Handler {
	t.Helper()
	return diff.Value(NewHandler(api.NewReader(store, true), options))(t)
}

// A request as a page at 127.0.0.1:8090 gets it.
func request(method, target string) *http.Request { return requestAt("127.0.0.1:8090", method, target) }

// requestAt is a request as a page at an address gets it, by that address.
func requestAt(address, method, target string) *http.Request {
	r := httptest.NewRequest(method, target, nil)
	r.Host = address
	local := net.TCPAddrFromAddrPort(netip.MustParseAddrPort(address))
	return r.WithContext(context.WithValue(r.Context(), http.LocalAddrContextKey, local))
}

// pageOn is the target of a row's own page.
func pageOn(key platform.Key) string {
	if key.IsBinding {
		return targetOfIDs(false, key.Instance.String(), key.Binding.String())
	}
	return targetOfIDs(false, key.Instance.String())
}

func answerTo(h http.Handler, r *http.Request) *httptest.ResponseRecorder {
	recorder := httptest.NewRecorder()
	h.ServeHTTP(recorder, r)
	return recorder
}

// pageText is the text of a page.
func pageText(t *testing.T, h http.Handler, target string) string {
	t.Helper()
	answered := answerTo(h, request("GET", target))
	if answered.Code != http.StatusOK {
		t.Fatalf("%s: got %d %s, want 200", target, answered.Code, answered.Body)
	}
	return answered.Body.String()
}

// has fails unless a page has all of these parts. Blanks and line feeds between words count as one blank.
func has(t *testing.T, text string, parts ...string) {
	t.Helper()
	text = strings.Join(strings.Fields(text), " ")
	for _, part := range parts {
		diff.Contains(t, text, part, "")
	}
}

// mainOf is a page without its style.
func mainOf(text string) string {
	_, after, _ := strings.Cut(text, "<body>")
	return after
}

// part is the section of a page with this id.
func part(t *testing.T, text, id string) string {
	t.Helper()
	_, after, isThere := strings.Cut(text, `<section id="`+id+`"`)
	if !isThere {
		t.Fatalf("got no section %s, want one", id)
	}
	inside, _, _ := strings.Cut(after, "</section>")
	return inside
}

var links = regexp.MustCompile(`<a href="([^"]*)" id="([^"]*)"`)

// linkOf is where the link of this id leads, or empty.
func linkOf(text, id string) string {
	for _, match := range links.FindAllStringSubmatch(text, -1) {
		if match[2] == id {
			return strings.ReplaceAll(match[1], "&amp;", "&")
		}
	}
	return ""
}

// linesIn are the ids of the links to the rows of the list.
func linesIn(text string) (found []string) {
	for _, match := range links.FindAllStringSubmatch(text, -1) {
		if strings.HasPrefix(match[2], "i-") {
			found = append(found, match[2][2:])
		}
	}
	return found
}

func TestAgo(t *testing.T) {
	for length, want := range map[time.Duration]string{
		-500 * time.Millisecond: "now", 0: "now", 990 * time.Millisecond: "now", time.Second: "1 s ago",
		59 * time.Second: "59 s ago", time.Minute: "1 min ago", 3599 * time.Second: "59 min ago", time.Hour: "1 h ago",
		24*time.Hour - time.Second: "23 h ago", 24 * time.Hour: "1 day ago", 48 * time.Hour: "2 days ago",
		1041 * 24 * time.Hour: "1,041 days ago", -time.Second: "in 1 s", -90 * time.Second: "in 1 min",
	} {
		t.Run(want, func(t *testing.T) {
			diff.Equal(t, ago(length), want, "%v", length)
		})
	}
}

func TestLasting(t *testing.T) {
	for length, want := range map[time.Duration]string{
		0: "0 s", 59 * time.Second: "59 s", 61 * time.Second: "1 min 1 s", 3 * time.Hour: "3 h",
		49 * time.Hour: "2 days 1 h", -time.Hour: "0 s", 24*time.Hour + time.Second: "1 day 1 s",
	} {
		t.Run(want, func(t *testing.T) {
			diff.Equal(t, lasting(length), want, "%v", length)
		})
	}
}

func TestThousands(t *testing.T) {
	for number, want := range map[int]string{0: "0", 999: "999", 1000: "1,000", 1234567: "1,234,567"} {
		t.Run(want, func(t *testing.T) {
			diff.Equal(t, thousands(number), want, "%d", number)
		})
	}
}

// What isn't shown, or would turn the text around it round, is escaped.
func TestPlain(t *testing.T) {
	for text, want := range map[string]string{
		"a é 漢": "a é 漢", "\x1b[31m": `\u001b[31m`, "a\u202eb": `a\u202eb`, "a\nb\x00": `a\u000ab\u0000`,
	} {
		t.Run(text, func(t *testing.T) {
			diff.Equal(t, plain(text), want, "")
		})
	}
}

func TestMarked(t *testing.T) {
	want := []words{{Text: "Run "}, {"list", true}, {Text: ", or "}, {"show ID", true}}
	diff.Check(t, parseWords("Run `list`, or `show ID`"), want, "the words")
}

// JSON is shown in one line, and texts in it stay as they are.
func TestSpaced(t *testing.T) {
	for value, want := range map[string]string{
		`{}`: `{}`, `{"a":[1,2],"b":{}}`: `{"a": [1, 2], "b": {}}`, "{\n \"a\" :\t1 }": `{"a": 1}`,
		`{"a:b , c":"d,\"e: \\","f":1}`: `{"a:b , c": "d,\"e: \\", "f": 1}`, "": "",
	} {
		t.Run(value, func(t *testing.T) {
			diff.Equal(t, spaceJSON([]byte(value)), want, "%s", value)
		})
	}
}

// The page imports of the platform only the API, whose Reader returns what the API answers. So the page shows nothing
// that a portal couldn't show.
func TestPageImportsOnlyTheAPI(t *testing.T) {
	found := importsOf(t, ".")
	diff.AtLeast(t, len(found), 5, "imports")
	for _, path := range found {
		first, _, _ := strings.Cut(path, "/")
		isStandard := first != "pippinterm" && !strings.Contains(first, ".") && !strings.HasPrefix(path, "database/")
		if path != "pippinterm/platform/api" && !isStandard {
			t.Errorf("got an import of %s, want only pippinterm/platform/api and the standard library", path)
		}
	}
}

// importsOf are the imports of the files of a folder, without its tests.
func importsOf(t *testing.T, folder string) (found []string) {
	t.Helper()
	isSource := func(file fs.FileInfo) bool { return !strings.HasSuffix(file.Name(), "_test.go") }
	packages := diff.Value(parser.ParseDir(token.NewFileSet(), folder, isSource, parser.ImportsOnly))(t)
	known := map[string]bool{}
	for _, parsed := range packages {
		for _, file := range parsed.Files {
			for _, imported := range file.Imports {
				path := diff.Value(strconv.Unquote(imported.Path.Value))(t)
				known[path] = true
			}
		}
	}
	for name := range known {
		found = append(found, name)
	}
	sort.Strings(found)
	return found
}

// A recorder is a Reader that knows some answers of the API. The tests of package api check them against the document.
type recorder struct {
	*testing.T
	answers map[string]json.RawMessage
	asked   []string // the targets, each of which is a path with a query
}

// read reads the answer to a GET. A target that isn't recorded has none.
func (r *recorder) read(path string, query url.Values, to any) error {
	target := path
	if len(query) > 0 {
		target += "?" + query.Encode()
	}
	r.asked = append(r.asked, target)
	text, isKnown := r.answers[target]
	if !isKnown {
		r.Errorf("got the target %s, want one that is recorded", target)
		return api.ErrUnknown
	}
	return json.Unmarshal(text, to)
}

func (r *recorder) Counts(context.Context) (found api.Counts, err error) {
	err = r.read("/v1/counts", nil, &found)
	return found, err
}

func (r *recorder) Brokers(context.Context) ([]api.Broker, error) {
	var found struct{ Items []api.Broker }
	err := r.read("/v1/brokers", nil, &found)
	return found.Items, err
}

func (r *recorder) InFlight(_ context.Context, limit, life int) ([]api.Record, error) {
	var found api.List
	err := r.read("/v1/in-flight", values(map[string]any{"limit": limit, "life": life}), &found)
	return found.Items, err
}

func (r *recorder) List(_ context.Context, query api.Query) (found api.List, err error) {
	path := "/v1/" + string(query.Kind)
	if query.Of != "" {
		path = "/v1/instances/" + query.Of + "/bindings"
	}
	asked := values(map[string]any{
		"broker": query.Broker, "prefix": query.Prefix, "first": query.First, "order": query.Order,
		"after": query.After, "before": query.Before, "unreadable": query.Unreadable, "latest": query.Latest,
		"last": query.Last, "life": query.Life, "limit": query.Limit,
	})
	if len(query.States) > 0 {
		asked["state"] = query.States
	}
	err = r.read(path, asked, &found)
	return found, err
}

func (r *recorder) Show(_ context.Context, instance, binding string) (found api.Record, err error) {
	path := "/v1/instances/" + instance
	if binding != "" {
		path += "/bindings/" + binding
	}
	err = r.read(path, nil, &found)
	return found, err
}

// values is a query with those of the members that aren't the zero value.
func values(members map[string]any) url.Values {
	found := url.Values{}
	for name, value := range members {
		if !reflect.ValueOf(value).IsZero() {
			found.Set(name, fmt.Sprint(value))
		}
	}
	return found
}

// recordedPage is the page over recorded answers of the API.
func recordedPage(t *testing.T) (http.Handler, *recorder) {
	t.Helper()
	text := diff.Value(os.ReadFile("testdata/recorded.json"))(t)
	r := &recorder{T: t}
	check(t, json.Unmarshal(text, &r.answers))
	h := diff.Value(NewHandler(r, Options{Failed: func(err error) { t.Errorf("got the error %v, want none", err) }}))(t)
	return h, r
}

// All that the page shows comes from the answers of the API.
func TestOverRecordedAnswers(t *testing.T) {
	h, answering := recordedPage(t)
	const web, old, app = "00000001-0000-4000-8000-000000000001", "00000002-0000-4000-8000-000000000002",
		"00000003-0000-4000-8000-000000000003"
	text := pageText(t, h, "/")
	has(t, text, "<title>2 instances, 1 unsettled - osb-platform</title>",
		`As of <time datetime="2026-01-03T03:04:05Z">`, `id="go-ready"><strong>1</strong>`, `id="go-binding-unsettled"><strong>1</strong>`)
	has(t, part(t, text, "waiting"), "<h3>1 unsettled</h3>", `href="/instance/`+web+`/binding/`+app+`"`, "of web-db",
		"bind, no answer came in time", "<h3>Being deleted for over 1 h</h3>", "deprovision, status 503, come back",
		"The broker local rejects the user or the password")
	has(t, part(t, text, "flights"), `id="flies-`+old+`">old db</a>`, "Deprovision", "worker-1</div>")
	has(t, part(t, text, "brokers"), "https://folder.example", "2026-01-01 00:00:00", "catalogue, status 401, who are you")
	has(t, part(t, text, "instances"), "17 states before", "1 to 2 of 2", "removal is asked for",
		`href="/?after=bmV4dA&amp;from=2" id="page-next"`)
	one := pageText(t, h, "/instance/web-db")
	has(t, one, "<h1>Instance <code>web-db</code></h1>", "2 requests", "https://folder.example/web-db", web,
		`{&#34;labels&#34;: {&#34;team&#34;: &#34;web&#34;, &#34;tier&#34;: 1}}`,
		"3 states", "4 min 4 s", "23 h 59 min until now", `id="b-`+web+"/"+app+`"`, "1 binding")
	if found := linesIn(pageText(t, h, "/?find=web-db")); len(found) != 1 || found[0] != web {
		t.Errorf("the search: got %v, want %s", found, web)
	}
	for target := range answering.answers {
		diff.Contains(t, strings.Join(answering.asked, "\n")+"\n", target+"\n", "%s", target)
	}
	diff.Equal(t, len(answering.asked), 8+2+3, "for three pages, %v", answering.asked)
}

// A counter is a Reader that counts its calls.
type counter struct {
	api.Reader
	calls int
}

func (c *counter) Counts(ctx context.Context) (api.Counts, error) {
	c.calls++
	return c.Reader.Counts(ctx)
}

func (c *counter) Brokers(ctx context.Context) ([]api.Broker, error) {
	c.calls++
	return c.Reader.Brokers(ctx)
}

func (c *counter) InFlight(ctx context.Context, limit, life int) ([]api.Record, error) {
	c.calls++
	return c.Reader.InFlight(ctx, limit, life)
}

func (c *counter) List(ctx context.Context, query api.Query) (api.List, error) {
	c.calls++
	return c.Reader.List(ctx, query)
}

func (c *counter) Show(ctx context.Context, instance, binding string) (api.Record, error) {
	c.calls++
	return c.Reader.Show(ctx, instance, binding)
}

// A page reads as often as before if it has more rows.
func TestReadsOfAPage(t *testing.T) {
	for _, number := range []int{3, 121} {
		reader := &counter{Reader: api.NewReader(many(number), true)}
		h := diff.Value(NewHandler(reader, Options{}))(t)
		// The counts, what is in flight, what can't be read of those that are ordered and of those that are wanted, the
		// brokers, and the list.
		const ofFirst = 6
		pageText(t, h, "/")
		diff.Equal(t, reader.calls, ofFirst, "%d", number)
		// The counts, what is in flight, and the list.
		pageText(t, h, "/?state=ordered")
		diff.Equal(t, reader.calls, ofFirst+3, "%d, %d", reader.calls-ofFirst, number)
	}
}

// A timeless Reader leaves out the store's time.
type timeless struct{ api.Reader }

func (timeless) Counts(context.Context) (api.Counts, error) { return api.Counts{}, nil }

func (timeless) Show(context.Context, string, string) (api.Record, error) {
	return api.Record{Number: "1"}, nil
}

// Without the store's time the page can't show how long something lasts, and no page is shown.
func TestWithoutTime(t *testing.T) {
	failures := 0
	h := diff.Value(NewHandler(timeless{}, Options{Failed: func(error) { failures++ }}))(t)
	for _, target := range []string{"/", "/instance/a"} {
		diff.Equal(t, answerTo(h, request("GET", target)).Code, 503, "%s", target)
	}
	diff.Equal(t, failures, 2, "failures")
}
