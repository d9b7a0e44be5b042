package page

import (
	"context"
	"encoding/json"
	"errors"
	"fmt"
	"io"
	"net"
	"net/http"
	"net/http/httptest"
	"path/filepath"
	"regexp"
	"strings"
	"sync"
	"testing"
	"time"

	"pippinterm/internal/diff"
	"pippinterm/internal/httpserver"
	"pippinterm/internal/waits"
	"pippinterm/osb"
	"pippinterm/platform"
	"pippinterm/platform/api"
	"pippinterm/platform/client"
	"pippinterm/platform/sqlite"
)

func targets() []string {
	return []string{
		"/", "/?state=ready", "/?state=unsettled", "/?state=in-flight", "/?kind=bindings", "/?find=0",
		pageOn(osb.InstanceKey(idOf(3))), pageOn(osb.InstanceKey(idOf(5))),
		pageOn(osb.BindingKey(idOf(5), idOf(0x51))),
	}
}

// No text of a broker, of an order or of a request is taken for HTML, and none turns the text around it round.
func TestEscaping(t *testing.T) {
	const harmful = `"><script>document.title = 'harmed'</script><b onload=x>` + "\x1b[31m\u202e\x00</style>"
	store := shelf()
	for at := range store.rows {
		e, operation := &store.rows[at], harmful
		e.Broker, e.Names.Service, e.Names.Plan, e.Operation = harmful, harmful, harmful, &operation
		e.Names.Instance, e.Because, e.Dashboard, e.Organization, e.Space = harmful, harmful, harmful, harmful, harmful
		e.Last = platform.Reason{At: began, Kind: harmful, Error: harmful, Description: harmful, Lost: harmful}
		e.Failure, e.Metadata = e.Last, objectOf(t, harmful)
		if e.Key.IsBinding {
			e.Names.Binding = harmful
		}
		if e.Lease.Worker != "" {
			e.Lease.Worker = harmful
		}
		store.lives[e.Key] = []platform.Stay{{State: harmful, Since: began}}
	}
	store.brokers = append(store.brokers, platform.Broker{
		Name: harmful, URL: "javascript:" + harmful,
		Reason: platform.Reason{Kind: harmful, Status: 401, Description: harmful},
	})
	h := pageOf(t, store, Options{})
	find := "/?find=%22%3E%3Cscript%3Edocument.title%3C/script%3E"
	for _, target := range append(targets(), find) {
		text := pageText(t, h, target)
		for _, harm := range []string{"<script>document", "<b onload", "\x1b", "\u202e", "\x00"} {
			diff.Lacks(t, text, harm, "%s", target)
		}
		diff.Equal(t, strings.Count(text, "<script"), 1, "%s", target)
		diff.Equal(t, strings.Count(text, "<style"), 1, "%s", target)
		diff.Lacks(t, text, `href="javascript`, "%s", target)
	}
}

// objectOf is an object of JSON with a member of this name and value.
func objectOf(t *testing.T, text string) []byte {
	t.Helper()
	return diff.Value(json.Marshal(map[string]string{text: text}))(t)
}

// No page shows a password, credentials, parameters, or the identity of an order.
func TestNoSecrets(t *testing.T) {
	h := pageOf(t, shelf(), Options{})
	for _, target := range targets() {
		text := pageText(t, h, target)
		for _, secret := range []string{"hush", "parameters", "eyJ", "cloud"} {
			diff.Lacks(t, text, secret, "%s", target)
		}
	}
}

func TestHeaders(t *testing.T) {
	h := pageOf(t, shelf(), Options{})
	for _, target := range append(targets(), "/none", "/?state=none") {
		answered := answerTo(h, request("GET", target))
		for name, want := range map[string]string{
			"Content-Type": "text/html; charset=utf-8", "Cache-Control": "no-store", "X-Frame-Options": "DENY",
			"X-Content-Type-Options": "nosniff", "Referrer-Policy": "no-referrer",
			"Cross-Origin-Opener-Policy":   "same-origin",
			"Cross-Origin-Resource-Policy": "same-origin", "Content-Length": fmt.Sprint(answered.Body.Len()),
		} {
			diff.Equal(t, answered.Header().Get(name), want, "%s: %s", target, name)
		}
		policy := answered.Header().Get("Content-Security-Policy")
		has(t, policy, "default-src 'none'", "form-action 'self'", "base-uri 'none'", "frame-ancestors 'none'")
		diff.Lacks(t, policy, "unsafe", "the policy")
	}
}

// inline is an attribute with a script or a style, which the policy keeps away.
var inline = regexp.MustCompile(`<[^>]*\s(on[a-z]+|style)\s*=`)

// The policy allows the style and the script of the page as they stand in it, and nothing else. The page has nothing
// else.
func TestPolicyHasTheHashes(t *testing.T) {
	h := pageOf(t, shelf(), Options{})
	for _, target := range append(targets(), "/none") {
		answered := answerTo(h, request("GET", target))
		text, policy := answered.Body.String(), answered.Header().Get("Content-Security-Policy")
		for _, element := range []string{"style", "script"} {
			_, after, _ := strings.Cut(text, "<"+element+">")
			inside, _, isEnded := strings.Cut(after, "</"+element+">")
			if !isEnded || len(inside) < 100 || strings.Count(text, "<"+element) != 1 {
				t.Fatalf("%s: got none or several %s, want one", target, element)
			}
			has(t, policy, element+"-src '"+hash(inside)+"';")
		}
		diff.Equal(t, inline.FindString(mainOf(text)), "", "%s", target)
	}
}

// A site whose name leads to the address of the page can't read it.
func TestHost(t *testing.T) {
	h := pageOf(t, shelf(), Options{Host: "Page.example", Hosts: []string{"portal.example", ""}})
	for host, isTaken := range map[string]bool{
		"127.0.0.1:8090": true, "localhost:8090": true, "LOCALHOST:8090": true, "page.example:8090": true,
		"portal.example": true, "PORTAL.example": true,
		"": false, "evil.example:8090": false, "127.0.0.1": false, "localhost": false, "127.0.0.1:80": false,
		"127.0.0.1:8090.evil.example": false, "127.0.0.1.evil.example:8090": false, "[::1]:8090": false,
		"portal.example:8090": false, "localhost.:8090": false, "2130706433:8090": false, ":8090": false,
		"page.example:8090@evil.example": false,
	} {
		t.Run(host, func(t *testing.T) {
			for _, target := range []string{"/", "/?state=ready", "/none"} {
				r := request("GET", target)
				r.Host = host
				answered := answerTo(h, r)
				if isRejected := answered.Code == http.StatusMisdirectedRequest; isRejected == isTaken {
					t.Errorf("got %d, want 421: %t", answered.Code, !isTaken)
				} else if isRejected {
					tellsNothing(t, answered.Body.String(), rejectedTells...)
				}
			}
		})
	}
	for local, hosts := range map[string]map[string]int{
		"[::1]:8090":     {"[::1]:8090": 200, "localhost:8090": 200, "127.0.0.1:8090": 421, "::1:8090": 421},
		"127.0.0.2:8090": {"127.0.0.2:8090": 200, "127.0.0.1:8090": 421}, // a page that listens at every address
		"192.0.2.1:80":   {"192.0.2.1": 200, "192.0.2.1:80": 200, "localhost": 421, "192.0.2.1:8090": 421},
	} {
		t.Run(local, func(t *testing.T) {
			for host, want := range hosts {
				r := requestAt(local, "GET", "/")
				r.Host = host
				diff.Equal(t, answerTo(pageOf(t, shelf(), Options{}), r).Code, want, "%q at %s", host, local)
			}
		})
	}
	without := httptest.NewRequest("GET", "/", nil)
	without.Host = "127.0.0.1:8090"
	diff.Equal(t, answerTo(h, without).Code, http.StatusMisdirectedRequest, "without an address")
}

// The server of the programs says at which address it has accepted a connection.
func TestHostOverHTTP(t *testing.T) {
	ctx, cancel := context.WithCancel(background)
	listener := diff.Value(httpserver.Listen(ctx, "127.0.0.1:0", httpserver.Options{}))(t)
	site := httpserver.Site{Listener: listener, Handler: pageOf(t, shelf(), Options{})}
	served := make(chan error, 1)
	go func() { served <- httpserver.Server{Sites: []httpserver.Site{site}}.Serve(ctx) }()
	client := &http.Client{Timeout: time.Minute}
	for host, want := range map[string]int{"": 200, "evil.example": 421, "localhost": 421} {
		t.Run(host, func(t *testing.T) {
			r := diff.Value(http.NewRequestWithContext(ctx, "GET", listener.URL(), nil))(t)
			r.Host = host
			answered := diff.Value(client.Do(r))(t)
			check(t, answered.Body.Close())
			diff.Equal(t, answered.StatusCode, want, "")
		})
	}
	client.CloseIdleConnections()
	cancel()
	check(t, <-served)
}

func TestMethods(t *testing.T) {
	h := pageOf(t, shelf(), Options{})
	for _, method := range []string{"POST", "PUT", "DELETE", "PATCH", "OPTIONS", "TRACE", "CONNECT", "GETS"} {
		answered := answerTo(h, request(method, "/"))
		diff.Equal(t, answered.Code, http.StatusMethodNotAllowed, "%s, %v", method, answered.Header())
		diff.Equal(t, answered.Header().Get("Allow"), "GET, HEAD", "%s, %v", method, answered.Header())
	}
	head := answerTo(h, request("HEAD", "/"))
	if head.Code != 200 || head.Body.Len() != 0 || len(head.Header().Get("Content-Length")) < 4 {
		t.Errorf("HEAD: got %d %v, want 200 with the length, and no body", head.Code, head.Header())
	}
}

// An error page shows nothing of the store and of the request, and a rejection nothing of the program either.
func TestErrorsTellNothing(t *testing.T) {
	store := shelf()
	var failures []error
	h := pageOf(t, store, Options{Failed: func(err error) { failures = append(failures, err) }})
	answers := []*httptest.ResponseRecorder{
		answerTo(h, request("GET", "/secret-path")), answerTo(h, request("GET", "/instance/secret-path")),
		answerTo(h, request("GET", "/?secret-path")),
	}
	diff.Equal(t, len(failures), 0, "the failures, %v", failures)
	tellsNothing(t, answerTo(h, request("POST", "/")).Body.String(), rejectedTells...)
	store.err = errors.New("postgres at secret-path")
	for _, target := range targets() {
		answered := answerTo(h, request("GET", target))
		if answered.Code != http.StatusServiceUnavailable || answered.Header().Get("Retry-After") == "" {
			t.Errorf("%s: got %d, want 503 with Retry-After", target, answered.Code)
		}
		if len(failures) == 0 || !errors.Is(failures[len(failures)-1], store.err) {
			t.Errorf("%s: got the failures %v, want %v last", target, failures, store.err)
		}
		answers = append(answers, answered)
	}
	for _, answer := range answers {
		tellsNothing(t, answer.Body.String(), inStore...)
		tellsNothing(t, answer.Body.String(), "secret-path", "postgres")
	}
}

// inStore is what a shelf has: the names and URLs of brokers, ids and states. rejectedTells is all that an answer shows
// nobody who isn't a user of the page, or who uses a foreign name.
var (
	inStore       = []string{"shelf", "shut", "example", idOf(5).String(), "state ready", "worker-1", "org"}
	rejectedTells = append([]string{"osb-platform", "<style", "<script", "127.0.0.1", "8090", "secret-path"}, inStore...)
)

// tellsNothing fails if a page has any of these parts.
func tellsNothing(t *testing.T, text string, parts ...string) {
	t.Helper()
	for _, part := range parts {
		diff.Lacks(t, text, part, "")
	}
}

func TestPasswords(t *testing.T) {
	limiter := &counting{}
	users := map[string][]string{"me": {"old", "new"}, "you": {"o:ther"}}
	h := pageOf(t, shelf(), Options{Users: users, Limiter: limiter})
	for _, test := range []struct {
		user, password string
		isUser         bool
	}{
		{"me", "old", true}, {"me", "new", true}, {"you", "o:ther", true}, {"me", "o:ther", false}, {"me", "", false},
		{"", "", false}, {"me", "ol", false}, {"me", "olds", false}, {"ME", "old", false}, {"me\x00old", "", false},
	} {
		t.Run(test.user+" "+test.password, func(t *testing.T) {
			r := request("GET", "/")
			r.SetBasicAuth(test.user, test.password)
			failed := limiter.failed
			answered := answerTo(h, r)
			if isUser := answered.Code == 200; isUser != test.isUser || (limiter.failed > failed) == test.isUser {
				t.Errorf("%q %q: got %d and %d failures, want a user: %v", test.user, test.password, answered.Code,
					limiter.failed-failed, test.isUser)
			}
			if answered.Code == http.StatusUnauthorized {
				tellsNothing(t, answered.Body.String(), rejectedTells...)
			}
		})
	}
	r := request("GET", "/")
	answered := answerTo(h, r)
	if answered.Code != 401 || !strings.HasPrefix(answered.Header().Get("WWW-Authenticate"), "Basic ") {
		t.Errorf("without a password: got %d %v, want 401 with a challenge", answered.Code, answered.Header())
	}
	r.SetBasicAuth("me", "old")
	r.Header.Add("Authorization", "Basic bm9ib2R5Og==")
	diff.Equal(t, answerTo(h, r).Code, 401, "two passwords")
	foreign := request("GET", "/")
	foreign.Host = "evil.example"
	diff.Equal(t, answerTo(h, foreign).Code, 421, "a foreign site")
}

type counting struct{ failed int }

func (c *counting) FailedLogin(address string) time.Duration {
	if address == "192.0.2.1" { // that of httptest
		c.failed++
	}
	return 0
}

// The connection of whoever has no password, or asks by a foreign name, is closed.
func TestARejectedRequestKeepsNoConnection(t *testing.T) {
	h := pageOf(t, shelf(), Options{Users: map[string][]string{"me": {"old"}}})
	for name, test := range map[string]struct {
		host, password, want string
		status               int
	}{
		"the right one":    {"127.0.0.1:8090", "old", "", 200},
		"a wrong password": {"127.0.0.1:8090", "new", "close", 401},
		"a foreign name":   {"evil.example", "old", "close", 421},
	} {
		t.Run(name, func(t *testing.T) {
			r := request("GET", "/")
			r.Host = test.host
			r.SetBasicAuth("me", test.password)
			answered := answerTo(h, r)
			if got := answered.Header().Get("Connection"); answered.Code != test.status || got != test.want {
				t.Errorf("got %d, Connection %q, want %d, %q", answered.Code, got, test.status, test.want)
			}
		})
	}
}

// An hour has each failed login wait for an hour.
type hour struct{}

func (hour) FailedLogin(string) time.Duration { return time.Hour }

// The answer to a wrong password waits for its turn, until the program stops, and the right password doesn't wait.
func TestFailedLoginsWait(t *testing.T) {
	ctx, stop := context.WithCancel(context.Background())
	defer stop()
	users := map[string][]string{"me": {"old"}}
	h := pageOf(t, shelf(), Options{Users: users, Limiter: hour{}, Stopping: ctx})
	status := func(password string) int {
		r := request("GET", "/")
		r.SetBasicAuth("me", password)
		return answerTo(h, r).Code
	}
	answered := make(chan int, 1)
	go func() { answered <- status("new") }()
	diff.Equal(t, status("old"), 200, "with the right password")
	select {
	case got := <-answered:
		t.Errorf("got %d before its turn, want no answer", got)
	case <-time.After(50 * time.Millisecond):
	}
	stop()
	diff.Equal(t, waits.For(t, answered, "the answer after the stop"), 401, "with a wrong password")
}

// A stallingWriter client is one that takes nothing of an answer until it is let go.
type stallingWriter struct {
	*httptest.ResponseRecorder
	writing, letGo chan struct{}
}

func (s stallingWriter) Write(text []byte) (int, error) {
	close(s.writing)
	<-s.letGo
	return s.ResponseRecorder.Write(text)
}

// Clients that take nothing keep no other one waiting: what is answered is made before it is sent.
func TestSlowReaders(t *testing.T) {
	h := pageOf(t, shelf(), Options{AtOnce: 1})
	var all sync.WaitGroup
	letGo := make(chan struct{})
	for n := 0; n < 3; n++ {
		slow := stallingWriter{httptest.NewRecorder(), make(chan struct{}), letGo}
		all.Add(1)
		go func() {
			defer all.Done()
			h.ServeHTTP(slow, request("GET", "/"))
		}()
		<-slow.writing
	}
	pageText(t, h, "/")
	close(letGo)
	all.Wait()
}

// So many requests read the store at once, and the others wait for their turn only so long.
func TestAtOnce(t *testing.T) {
	store := shelf()
	reading, letGo := make(chan struct{}), make(chan struct{})
	store.wait = func(ctx context.Context) error {
		reading <- struct{}{}
		<-letGo
		<-ctx.Done()
		return ctx.Err()
	}
	h := pageOf(t, store, Options{AtOnce: 1, Timeout: 50 * time.Millisecond})
	first := make(chan int)
	go func() { first <- answerTo(h, request("GET", "/")).Code }()
	<-reading
	answered := answerTo(h, request("GET", "/"))
	diff.Equal(t, answered.Code, 503, "while one reads, %s", answered.Body)
	diff.Contains(t, answered.Body.String(), "Too many", "while one reads")
	close(letGo)
	diff.Equal(t, <-first, 503, "a reading that takes too long")
}

func TestNewHandler(t *testing.T) {
	for name, test := range map[string]struct {
		reader  api.Reader
		options Options
	}{
		"no Reader": {nil, Options{}}, "cleaning": {timeless{}, Options{LongCleaning: -1}},
		"at once": {timeless{}, Options{AtOnce: -1}}, "timeout": {timeless{}, Options{Timeout: -1}},
	} {
		t.Run(name, func(t *testing.T) {
			diff.Error(t, diff.Err(NewHandler(test.reader, test.options)), "")
		})
	}
}

// long is 60 KB that a broker says. Nobody keeps or shows more of it than much.
var (
	long = strings.Repeat("long", 15_000)
	much = long[:1100]
)

// A page shows a part of a long text, whoever has written it, and however it was written to the store.
func TestLongTexts(t *testing.T) {
	store := shelf()
	for at := range store.rows {
		e, operation := &store.rows[at], long
		e.Operation, e.Because, e.Dashboard, e.Organization, e.Space = &operation, long, long, long, long
		e.Last = platform.Reason{At: began, Kind: "poll", Status: 500, Error: long, Description: long, Lost: long}
		e.Failure, e.Metadata, e.Names.Plan = e.Last, []byte(`{"a": "`+long+`"}`), long
	}
	store.brokers[0].Reason = platform.Reason{Kind: "catalogue", Status: 500, Description: long, Lost: long}
	h := pageOf(t, store, Options{})
	for _, target := range targets() {
		text := mainOf(pageText(t, h, target))
		diff.Contains(t, text, "longlong", "%s", target)
		diff.Lacks(t, text, much, "%s: text", target)
		diff.AtMost(t, len(text), 100_000, "%s: text", target)
	}
}

// A logRecorder is an Observer that keeps what is logged of exchanges and failures.
type logRecorder struct {
	mutex sync.Mutex
	texts []string
}

func (s *logRecorder) add(texts ...string) {
	s.mutex.Lock()
	defer s.mutex.Unlock()
	s.texts = append(s.texts, texts...)
}

func (s *logRecorder) OnRequest(platform.Exchange) {}

func (s *logRecorder) OnAnswer(of platform.Exchange) {
	s.add(of.Error, of.Description)
	if of.Lost != nil {
		s.add(of.Lost.Error())
	}
}

func (s *logRecorder) OnChange(platform.Key, platform.State, platform.State) {}

func (s *logRecorder) OnFailure(of platform.Failure) { s.add(of.Err.Error()) }

func (s *logRecorder) OnOrphan(platform.Key, int, bool) {}

func (s *logRecorder) OnCatalogue(string) {}

// answering is the URL of a broker that answers the request for its catalogue with these bytes, and each other request
// with those.
func answering(t *testing.T, catalogue, other string) string {
	t.Helper()
	listener := diff.Value(net.Listen("tcp", "127.0.0.1:0"))(t)
	var all sync.WaitGroup
	all.Add(1)
	go func() {
		defer all.Done()
		for {
			conn, err := listener.Accept()
			if err != nil {
				return
			}
			all.Add(1)
			go func() {
				defer all.Done()
				defer conn.Close()
				head := make([]byte, 1<<16)
				count, _ := conn.Read(head) // the whole request: it is short
				said := other
				if strings.Contains(string(head[:count]), " /v2/catalog ") {
					said = catalogue
				}
				_, _ = io.WriteString(conn, said)
			}()
		}
	}()
	t.Cleanup(func() { check(t, listener.Close()); all.Wait() })
	return "http://" + listener.Addr().String()
}

func answerOf(status int, body string) string {
	return fmt.Sprintf("HTTP/1.1 %d x\r\nContent-Type: application/json\r\nContent-Length: %d\r\nConnection: close\r\n\r\n%s",
		status, len(body), body)
}

// longAnswers are answers with long texts.
func longAnswers() map[string]string {
	return map[string]string{
		"a status line":  "HTTP/1.1 200 " + long + "\r\nContent-Length: 0\r\n\r\n",
		"no status line": long + "\r\n\r\n",
		"a bad status":   "HTTP/1.1 " + long + "\r\n\r\n",
		"a header":       "HTTP/1.1 500 x\r\n" + long + "\r\n\r\n",
		"a description":  answerOf(500, `{"error": "`+long+`", "description": "`+long+`"}`),
		"a rejection":    answerOf(400, `{"error": "`+long+`", "description": "`+long+`"}`),
		"no JSON":        answerOf(500, long),
	}
}

// engineOver makes an engine over a store with one broker, which has so long for an answer. It logs to the seen.
func engineOver(t *testing.T, url string, exchange time.Duration) (*platform.Engine, *sqlite.Store, *logRecorder) {
	t.Helper()
	store := openStore(t, filepath.Join(t.TempDir(), "instances.sqlite"))
	check(t, store.AddBroker(background, platform.Broker{Name: "shelf", URL: url}))
	asking, err := client.New(client.Options{Password: func(platform.Broker) (string, error) { return "", nil }})
	check(t, err)
	t.Cleanup(asking.Close)
	logged, options := &logRecorder{}, platform.Options{Worker: "one", AtOnce: 1, Exchange: exchange}
	return platform.NewEngine(store, asking, nil, options, logged), store, logged
}

// areShort fails if one of the texts has much of what a broker has said.
func areShort(t *testing.T, texts ...string) {
	t.Helper()
	for _, text := range texts {
		diff.Lacks(t, text, much, "%d", len(text))
	}
}

// What a hostile broker says at length is cut before it reaches the log, the row and the page.
func TestHostileBroker(t *testing.T) {
	for name, answer := range longAnswers() {
		t.Run(name, func(t *testing.T) { testHostileBroker(t, answer) })
	}
}

func testHostileBroker(t *testing.T, answer string) {
	engine, store, logged := engineOver(t, answering(t, answerOf(200, `{"services": []}`), answer), time.Minute)
	e := entryOf(osb.InstanceKey(idOf(1)), platform.Ordered)
	e.Names.Service, e.Names.Plan, e.Tries, e.Due = e.Service.String(), e.Plan.String(), 1, began
	check(t, store.Insert(background, e, func(platform.Snapshot) error { return nil }))
	check(t, engine.RunOnce(background))
	row := diff.Value(store.Read(background, e.Key))(t)
	if said := row.Last; said.Status == 0 && said.Lost == "" || strings.HasPrefix(said.Lost, client.ErrNotSent.Error()) {
		t.Errorf("got %+v, want an answer or why there was none", said)
	}
	areShort(t, logged.texts...)
	areShort(t, row.Last.Error, row.Last.Description, row.Last.Lost, row.Failure.Description)
	areShort(t, mainOf(pageText(t, pageOf(t, store, Options{}), pageOn(e.Key))))
}

// So is what it says in the place of its catalogue.
func TestHostileCatalogue(t *testing.T) {
	for name, answer := range longAnswers() {
		name, answer := name, answer
		t.Run(name, func(t *testing.T) {
			t.Parallel() // each asks again and again, for as long as an exchange may last
			engine, store, logged := engineOver(t, answering(t, answer, ""), 2*time.Second)
			err := engine.RunOnce(background)
			if !errors.Is(err, platform.ErrUnreached) {
				t.Fatalf("got %v, want that the broker isn't reached", err)
			}
			brokers := diff.Value(store.Brokers(background))(t)
			said := brokers[0].Reason
			if said.At.IsZero() {
				t.Error("got nothing written, want the reason")
			}
			areShort(t, append(logged.texts, err.Error(), said.Error, said.Description, said.Lost)...)
			areShort(t, part(t, pageText(t, pageOf(t, store, Options{}), "/"), "brokers"))
		})
	}
}

// Silent connections keep nobody from the page: they are closed soon.
func TestSilentConnections(t *testing.T) {
	const connections = 3
	ctx, cancel := context.WithCancel(background)
	listener := diff.Value(httpserver.Listen(ctx, "127.0.0.1:0", httpserver.Options{
		Connections: connections, PerAddress: connections, Silent: 200 * time.Millisecond,
	}))(t)
	site := httpserver.Site{Listener: listener, Handler: pageOf(t, shelf(), Options{})}
	served := make(chan error, 1)
	go func() { served <- httpserver.Server{Sites: []httpserver.Site{site}}.Serve(ctx) }()
	for n := 0; n < 2*connections; n++ {
		silent := diff.Value(net.Dial("tcp", listener.Addr().String()))(t)
		defer silent.Close()
	}
	client := &http.Client{Timeout: 30 * time.Second}
	answered, err := client.Get(listener.URL())
	diff.Must(t, err)
	check(t, answered.Body.Close())
	diff.Equal(t, answered.StatusCode, http.StatusOK, "")
	client.CloseIdleConnections()
	cancel()
	check(t, <-served)
}
