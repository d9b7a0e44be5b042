package main

import (
	"bufio"
	"bytes"
	"context"
	"crypto/sha256"
	"crypto/tls"
	"crypto/x509"
	"encoding/json"
	"errors"
	"fmt"
	"io"
	"net"
	"net/http"
	"net/http/httptest"
	"os"
	"path/filepath"
	"regexp"
	"strings"
	"sync"
	"syscall"
	"testing"
	"time"

	"github.com/mattn/go-sqlite3"

	"pippinterm/internal/diff"
	"pippinterm/internal/logs"
	"pippinterm/internal/pg/pgtest"
	"pippinterm/internal/programtest"
	"pippinterm/internal/waits"
	"pippinterm/platform"
	"pippinterm/platform/sqlite"
)

const token = "0123456789abcdef0123456789abcdef" // of the API

// newTokens makes a file with a token that may do all, and with one that may only read: the same, behind an x.
func newTokens(t *testing.T) string {
	t.Helper()
	file := filepath.Join(t.TempDir(), "tokens")
	write(t, file, fmt.Sprintf("portal read,write,credentials %x\nreader read %x\n",
		sha256.Sum256([]byte(token)), sha256.Sum256([]byte("x"+token))))
	return file
}

// A caller calls the API.
type caller struct {
	t      *testing.T
	client *http.Client
	url    string
	token  string
}

// jsonObject is an answer of the API.
type jsonObject map[string]any

// call makes a request, whose answer must have this status.
func (c caller) call(status int, method, path, body string) jsonObject {
	c.t.Helper()
	given, text := c.try(method, path, body)
	if given != status {
		c.t.Fatalf("%s %s: got %d %s, want %d", method, path, given, text, status)
	}
	var read jsonObject
	if len(text) > 0 {
		check(c.t, json.Unmarshal(text, &read))
	}
	return read
}

func (c caller) try(method, path, body string) (status int, text []byte) {
	c.t.Helper()
	request := diff.Value(http.NewRequest(method, c.url+path, strings.NewReader(body)))(c.t)
	if body != "" {
		request.Header.Set("Content-Type", "application/json")
	}
	request.Header.Set("Authorization", "Bearer "+c.token)
	given := diff.Value(c.client.Do(request))(c.t)
	defer given.Body.Close()
	text = diff.Value(io.ReadAll(given.Body))(c.t)
	return given.StatusCode, text
}

// await waits until a row is in a state.
func (c caller) await(path, state string) {
	c.t.Helper()
	waits.Until(c.t, path+" is "+state, func() bool { return c.call(200, "GET", path, "")["state"] == state })
}

// The whole way over the API, beside a worker: a broker is added; an instance and a binding are created; the
// credentials are read; all is removed. The page shows the instance.
func TestWholeWayOverAPI(t *testing.T) {
	s, store, key := newTestBroker(t), newPath(t), newKey(t)
	p := start(t, store, nil, "--key-file", key, "--api", "127.0.0.1:0", "--api-tokens", newTokens(t),
		"--page", "127.0.0.1:0", "--page-host", "platform.example")
	c := caller{t: t, client: http.DefaultClient, url: p.api, token: token}
	c.call(201, "PUT", "/v1/brokers/local", fmt.Sprintf(
		`{"url": %q, "user": "platform", "password": "secret", "settings": {"first_pace_seconds": 0.01}}`, s.url))
	diff.Check(t, p.Event("broker_reached")["broker"], "local", "the broker")
	c.call(201, "POST", "/v1/instances", `{"plan": "by-worker", "id": "one"}`)
	c.await("/v1/instances/one", "ready")
	c.call(201, "POST", "/v1/instances/one/bindings", `{"id": "two"}`)
	c.await("/v1/instances/one/bindings/two", "ready")
	given := c.call(200, "GET", "/v1/instances/one/bindings/two/credentials", "")
	credentials, _ := given["credentials"].(map[string]any)
	secret, _ := credentials["token"].(string)
	if secret == "" {
		t.Errorf("got %v, want a token", given)
	}
	pageShows(t, p)
	for _, test := range []struct {
		token, method, path string
		status              int
	}{
		{"y" + token, "GET", "/v1/instances", 401}, {"", "GET", "/v1/counts", 401},
		{"x" + token, "GET", "/v1/instances", 200}, {"x" + token, "DELETE", "/v1/instances/one", 403},
		{"x" + token, "GET", "/v1/instances/one/bindings/two/credentials", 403},
		{token, "DELETE", "/v1/instances/one", 409},
	} {
		other := c
		other.token = test.token
		other.call(test.status, test.method, test.path, "")
	}
	c.call(202, "DELETE", "/v1/instances/one?bindings=true", "")
	c.await("/v1/instances/one", "gone")
	c.await("/v1/instances/one/bindings/two", "gone")
	log := p.stop()
	for _, text := range []string{
		`"level":"info","event":"api_request","client":"127.0.0.1","token":"portal","method":"DELETE",` +
			`"target":"/v1/instances/one","route":"/v1/instances/{id}","status":202,`,
		`"level":"warning","event":"api_request","client":"127.0.0.1","method":"GET","target":"/v1/counts",` +
			`"route":"/v1/counts","status":401,"code":"unauthorized",`,
	} {
		diff.Contains(t, log, text, "the log")
	}
	if strings.Contains(log, token) || secret != "" && strings.Contains(log, secret) {
		t.Errorf("the log: got %s, want no secret in it", log)
	}
}

// pageShows checks that the page shows the instance one, at each of its names and at no other.
func pageShows(t *testing.T, p *process) {
	t.Helper()
	for host, want := range map[string]int{"": 200, "platform.example": 200, "elsewhere.example": 421} {
		t.Run(host, func(t *testing.T) {
			request := diff.Value(http.NewRequest("GET", p.page+"/instance/one", nil))(t)
			request.Host = host
			given := diff.Value(http.DefaultClient.Do(request))(t)
			text, err := io.ReadAll(given.Body)
			_ = given.Body.Close()
			diff.NoError(t, err, "%q, %s", host, text)
			diff.Equal(t, given.StatusCode, want, "%q, %s", host, text)
			diff.Equal(t, strings.Contains(string(text), "Instance <code>one</code>"), want == 200, "%q", host)
		})
	}
}

// serve takes orders and shows them, and sends nothing. It is no worker: one that has its host's name runs beside it.
func TestServe(t *testing.T) {
	s, store := newTestBroker(t), newPath(t)
	password := filepath.Join(t.TempDir(), "password")
	users := filepath.Join(t.TempDir(), "users")
	write(t, password, "secret\n")
	write(t, users, "operator:hidden\n")
	wantLines(t, store, []line{{"broker add local " + s.url + " --password-file " + password, 0, ``, ``}})
	p := launch(t, "serving", osbPlatform(nil, "serve", "--store", store, "--api", "127.0.0.1:0", "--api-tokens",
		newTokens(t), "--page", "127.0.0.1:0", "--page-users", users, "--health-listen", "127.0.0.1:0"))
	c := caller{t: t, client: http.DefaultClient, url: p.api, token: token}
	c.call(201, "POST", "/v1/instances", `{"plan": "at-once", "id": "one"}`)
	status, _ := get(t, p.page+"/")
	diff.Equal(t, status, 401, "without a password")
	status, text := get(t, strings.Replace(p.page, "//", "//operator:hidden@", 1)+"/instance/one")
	diff.Equal(t, status, 200, "the page")
	diff.Contains(t, text, "ordered", "the page")
	status, _ = get(t, p.health+"/readyz")
	diff.Equal(t, status, 200, "/readyz")
	c.await("/v1/instances/one", "ordered")
	wantLines(t, store, []line{{"run --once", 0, "20.*\tone\tready", `.*"worker":".*`}})
	c.await("/v1/instances/one", "ready")
	s.mutex.Lock()
	diff.Equal(t, s.asked, 1, "requests")
	s.mutex.Unlock()
	if rest := p.stop(); strings.Contains(rest, `"event":"request"`) || p.out.Len() > 0 {
		t.Errorf("the log: got %s and %s, want no request", rest, p.out.String())
	}
}

// The API is HTTPS, and its certificate is read again at SIGHUP.
func TestAPIOverTLS(t *testing.T) {
	t.Setenv("XDG_STATE_HOME", t.TempDir())
	folder := t.TempDir()
	certificate, key := filepath.Join(folder, "certificate"), filepath.Join(folder, "key")
	first := programtest.WriteCertificate(t, "", certificate, key)
	p := launch(t, "serving", osbPlatform(nil, "serve", "--store", filepath.Join(folder, "store"),
		"--api", "127.0.0.1:0", "--api-tokens", newTokens(t),
		"--api-tls-certificate", certificate, "--api-tls-key", key))
	diff.HasPrefix(t, p.api, "https://", "the API")
	secureCaller(t, p, first).call(200, "GET", "/v1/counts", "")
	second := programtest.WriteCertificate(t, "", certificate, key)
	check(t, p.Process.Signal(syscall.SIGHUP))
	p.Event("certificates_reloaded")
	secureCaller(t, p, second).call(200, "GET", "/v1/counts", "")
	p.stop()
}

// secureCaller calls the API of a process, which must have this certificate.
func secureCaller(t *testing.T, p *process, trusted *x509.CertPool) caller {
	t.Helper()
	transport := &http.Transport{TLSClientConfig: &tls.Config{RootCAs: trusted, MinVersion: tls.VersionTLS12}}
	t.Cleanup(transport.CloseIdleConnections)
	return caller{t: t, client: &http.Client{Transport: transport}, url: p.api, token: token}
}

// answerFrom connects from an address of this machine, sends a request behind a text, and returns the status line of
// the answer. It is empty if the connection was closed. The connection stays open until the test ends.
func answerFrom(t *testing.T, from, url, before string) string {
	t.Helper()
	dialer := net.Dialer{Timeout: deadline, LocalAddr: &net.TCPAddr{IP: net.ParseIP(from)}}
	host := strings.TrimPrefix(url, "http://")
	connection := diff.Value(dialer.Dial("tcp", host))(t)
	t.Cleanup(func() { _ = connection.Close() })
	check(t, connection.SetDeadline(time.Now().Add(deadline)))
	request := before + "GET / HTTP/1.1\r\nHost: " + host + "\r\nAuthorization: Bearer " + token + "\r\n\r\n"
	_, _ = io.WriteString(connection, request) // it may be closed already
	line, err := bufio.NewReader(connection).ReadString('\n')
	if errors.Is(err, os.ErrDeadlineExceeded) {
		t.Error("got neither an answer nor the end of the connection in time, want one of them")
	}
	return strings.TrimSpace(line)
}

// The API and the page limit the connections of each client, also of those that a trusted proxy names.
func TestConnectionsOfAClient(t *testing.T) {
	p := launch(t, "serving", osbPlatform(nil, "serve", "--store", newPath(t),
		"--api", "127.0.0.1:0", "--api-tokens", newTokens(t), "--page", "127.0.0.1:0",
		"--connections-per-address", "2", "--trusted-proxy", "127.0.0.2"))
	const one, other = "PROXY TCP4 198.51.100.1 192.0.2.1 8080 80\r\n", "PROXY TCP4 198.51.100.2 192.0.2.1 8080 80\r\n"
	for name, site := range map[string]struct{ url, answer string }{
		"the API": {p.api, "HTTP/1.1 404 Not Found"}, "the page": {p.page, "HTTP/1.1 200 OK"},
	} {
		t.Run(name, func(t *testing.T) {
			for number, test := range []struct{ from, before, want string }{
				{"127.0.0.1", "", site.answer}, {"127.0.0.1", "", site.answer}, {"127.0.0.1", "", ""},
				{"127.0.0.2", one, site.answer}, {"127.0.0.2", one, site.answer}, {"127.0.0.2", one, ""},
				{"127.0.0.2", other, site.answer}, {"127.0.0.3", one, "HTTP/1.1 400 Bad Request"},
			} {
				diff.Equal(t, answerFrom(t, test.from, site.url, test.before), test.want,
					"connection %d from %s %s", number, test.from, test.before)
			}
		})
	}
	p.stop()
}

// What others than this machine reach without TLS or a password, and a file that others may read, are in the log.
func TestServeWarns(t *testing.T) {
	tokens := newTokens(t)
	check(t, os.Chmod(tokens, 0o644))
	p := launch(t, "no_tls", osbPlatform(nil, "serve", "--store", newPath(t),
		"--page", "0.0.0.0:0", "--api", "127.0.0.1:0", "--api-tokens", tokens))
	p.Event("no_page_users")
	secret, _ := p.Event("secret")["warning"].(string)
	diff.Contains(t, secret, "chmod 600", "the warning")
	p.Event("serving")
	diff.Lacks(t, p.stop(), "no_tls", "the log")
}

// A user of the page whose password can be guessed is named in a warning, without the password.
func TestWarningOfShortPasswords(t *testing.T) {
	users := filepath.Join(t.TempDir(), "users")
	check(t, os.WriteFile(users, []byte("me:guessed\nyou:0123456789abcdef\n"), 0o600))
	p := launch(t, "short_password", osbPlatform(nil, "serve", "--store", filepath.Join(t.TempDir(), "store"),
		"--page", "127.0.0.1:0", "--page-users", users))
	serving := p.Event("serving")
	if rest := p.stop(); serving == nil || strings.Contains(rest, "guessed") || strings.Contains(rest, "short_password") {
		t.Errorf("the log: got %s, want it served without a guess", rest)
	}
}

// Ids that are GUIDs aren't kept, and of the others no more than a number.
func TestOrderedIDs(t *testing.T) {
	ids := newOrderedIDs()
	for n := 0; n < mostOrderedIDs+10; n++ {
		learnID(t, ids, fmt.Sprint("id ", n))
	}
	learnID(t, ids, "00000000-0000-0000-0000-000000000001")
	last := learnID(t, ids, "last")
	diff.Equal(t, len(ids.of), mostOrderedIDs, "the ids")
	if instance, binding := ids.find(last); instance != "last" || binding != "" {
		t.Errorf("got %q and %q, want \"last\" and none", instance, binding)
	}
	var none *orderedIDs
	instance, _ := none.find(last)
	diff.Equal(t, instance, last.String(), "")
}

// learnID has ids learn of an instance, and returns its key.
func learnID(t *testing.T, ids *orderedIDs, id string) platform.Key {
	t.Helper()
	key := diff.Value(platform.ParseKey(id))(t)
	ids.learn(platform.Entry{Order: platform.Order{Key: key, Names: platform.Names{Instance: id}}})
	return key
}

// The connections of what is served count among the files that may be open.
func TestFiles(t *testing.T) {
	for _, test := range []struct {
		sites siteSettings
		want  uint64
	}{
		{siteSettings{}, 124},
		{siteSettings{healthListen: "127.0.0.1:0"}, 124 + healthConnections},
		{siteSettings{page: "127.0.0.1:0", api: "127.0.0.1:0"}, 124 + pageConnections + apiConnections},
	} {
		t.Run(fmt.Sprintf("%+v", test.sites), func(t *testing.T) {
			r := &worker{settings: &runSettings{atOnce: 16, sites: test.sites}}
			diff.Equal(t, r.files(), test.want, "%+v", test.sites)
		})
	}
}

// servingOver serves the page, at platform.example too, and the API over a store, once they are made.
func servingOver(t *testing.T, store platform.Store, log io.Writer) *worker {
	t.Helper()
	r := &worker{
		settings: &runSettings{sites: siteSettings{
			page: "127.0.0.1:0", pageHosts: []string{"platform.example"}, api: "127.0.0.1:0", apiTokens: newTokens(t),
		}},
		log: eventLog{logger: logs.New(log)}, store: store,
	}
	r.observer = observers{logObserver{eventLog: r.log}}
	return r
}

// If the store fails, the page and the API say only that, and the log has why.
func TestServedStoreFails(t *testing.T) {
	var written bytes.Buffer
	r := servingOver(t, &countStore{err: platform.ErrAway}, &written)
	page := func() (http.Handler, error) { return r.page(context.Background()) }
	for target, test := range map[string]struct {
		make func() (http.Handler, error)
		log  string
	}{
		"/?still=1":  {page, `"error","event":"page_failed","error":"the store is away"`},
		"/v1/counts": {r.api, `"level":"error","event":"api_request",.*"status":503,.*"error":"the store is away"`},
	} {
		t.Run(target, func(t *testing.T) {
			handler := diff.Value(test.make())(t)
			recorder := answerOf(handler, target)
			diff.Equal(t, recorder.Code, 503, "%s", recorder.Body)
			diff.Lacks(t, recorder.Body.String(), "is away", "")
			diff.Equal(t, regexp.MustCompile(test.log).MatchString(written.String()), true, "%s in the log %s", test.log,
				written.String())
		})
	}
}

// answerOf is what a handler answers at platform.example, to whoever has the token.
func answerOf(of http.Handler, target string) *httptest.ResponseRecorder {
	request, recorder := httptest.NewRequest("GET", "http://platform.example"+target, nil), httptest.NewRecorder()
	request.Header.Set("Authorization", "Bearer "+token)
	of.ServeHTTP(recorder, request)
	return recorder
}

// A lockedStore lists bindings only once it is let go.
type lockedStore struct {
	platform.Store
	listing chan struct{} // gets a value for each list that waits
	letGo   chan struct{}
}

func (s *lockedStore) Positions(ctx context.Context, filter platform.Filter) ([]platform.Position, error) {
	if filter.Bindings != nil && *filter.Bindings {
		s.listing <- struct{}{}
		<-s.letGo
	}
	return s.Store.Positions(ctx, filter)
}

// A lockedBuffer is a buffer that several goroutines write to.
type lockedBuffer struct {
	mutex sync.Mutex
	text  bytes.Buffer
}

func (b *lockedBuffer) Write(text []byte) (int, error) {
	b.mutex.Lock()
	defer b.mutex.Unlock()
	return b.text.Write(text)
}

func (b *lockedBuffer) String() string {
	b.mutex.Lock()
	defer b.mutex.Unlock()
	return b.text.String()
}

// While the API carries out as many requests as it may at once, the page still answers, because it reads the store
// without a slot of the API. What the page reads isn't in the log.
func TestPageBesideBusyAPI(t *testing.T) {
	file := diff.Value(sqlite.Open(context.Background(), filepath.Join(t.TempDir(), "store")))(t)
	defer file.Close()
	written := &lockedBuffer{}
	store := &lockedStore{Store: file, listing: make(chan struct{}), letGo: make(chan struct{})}
	r := servingOver(t, store, written)
	api := diff.Value(r.api())(t)
	page := diff.Value(r.page(context.Background()))(t)
	const atOnce = 64 // of the API
	var all sync.WaitGroup
	for n := 0; n < atOnce; n++ {
		all.Add(1)
		go func() {
			defer all.Done()
			got := answerOf(api, "/v1/bindings")
			diff.Equal(t, got.Code, 200, "the API, %s", got.Body)
		}()
		<-store.listing
	}
	got := answerOf(page, "/")
	diff.Equal(t, got.Code, 200, "the page")
	diff.Contains(t, got.Body.String(), "0 instances", "the page")
	diff.Equal(t, written.String(), "", "the log")
	close(store.letGo)
	all.Wait()
}

// While the store keeps a page waiting, the API goes on.
func TestAPIBesideSlowPage(t *testing.T) {
	file := diff.Value(sqlite.Open(context.Background(), filepath.Join(t.TempDir(), "store")))(t)
	defer file.Close()
	store := &lockedStore{Store: file, listing: make(chan struct{}), letGo: make(chan struct{})}
	r := servingOver(t, store, new(lockedBuffer))
	page := diff.Value(r.page(context.Background()))(t)
	api := diff.Value(r.api())(t)
	shown := waits.Begin(func() int { return answerOf(page, "/?kind=bindings").Code })
	waits.For(t, store.listing, "the store's list for the page")
	listed := waits.Begin(func() int { return answerOf(api, "/v1/instances").Code })
	diff.Equal(t, waits.For(t, listed, "the API"), 200, "the API")
	diff.Equal(t, len(shown), 0, "pages that are shown meanwhile")
	close(store.letGo)
	waits.For(t, shown, "the page")
}

// The files with the API's tokens and with the page's users are read again at SIGHUP. After a file that can't be read,
// the old ones stay valid.
func TestUsersAndTokensAreReadAgain(t *testing.T) {
	t.Setenv("XDG_STATE_HOME", t.TempDir())
	folder := t.TempDir()
	tokens, users := filepath.Join(folder, "tokens"), filepath.Join(folder, "users")
	const other = "fedcba9876543210fedcba9876543210"
	lineOf := func(token string) string { return fmt.Sprintf("portal read %x\n", sha256.Sum256([]byte(token))) }
	write(t, tokens, lineOf(token))
	write(t, users, "operator:first\n")
	p := launch(t, "serving", osbPlatform(nil, "serve", "--store", filepath.Join(folder, "store"),
		"--api", "127.0.0.1:0", "--api-tokens", tokens, "--page", "127.0.0.1:0", "--page-users", users))
	logins := func(want map[string]int) {
		t.Helper()
		for secret, status := range want {
			c := caller{t: t, client: http.DefaultClient, url: p.api, token: secret}
			got, _ := c.try("GET", "/v1/counts", "")
			if !strings.HasPrefix(secret, "operator") && got != status {
				t.Errorf("the token %s: got %d, want %d", secret, got, status)
			}
			if strings.HasPrefix(secret, "operator") {
				got, _ := get(t, strings.Replace(p.page, "//", "//"+secret+"@", 1)+"/")
				diff.Equal(t, got, status, "%s", secret)
			}
		}
	}
	reload := func(events ...string) {
		t.Helper()
		check(t, p.Process.Signal(syscall.SIGHUP))
		for _, event := range events {
			p.Event(event)
		}
	}
	logins(map[string]int{token: 200, other: 401, "operator:first": 200, "operator:second": 401})
	write(t, tokens, lineOf(token)+lineOf(other))
	write(t, users, "operator:first\noperator:second\n")
	reload("users_reloaded", "tokens_reloaded")
	both := map[string]int{token: 200, other: 200, "operator:first": 200, "operator:second": 200}
	logins(both)
	write(t, tokens, "")
	write(t, users, "operator\n")
	reload("users_not_reloaded", "tokens_not_reloaded")
	logins(both)
	check(t, os.Remove(users))
	write(t, tokens, lineOf(other))
	reload("users_not_reloaded", "tokens_reloaded")
	logins(map[string]int{token: 401, other: 200, "operator:first": 200})
	write(t, users, "operator:second\n")
	reload("users_reloaded", "tokens_reloaded")
	logins(map[string]int{token: 401, other: 200, "operator:first": 401, "operator:second": 200})
	p.stop()
}

func TestRowsCannotBeWritten(t *testing.T) {
	store := filepath.Join(t.TempDir(), "store")
	checkUnwritten(t, store, ownPassword, func(statement string) {
		execute(t, store, statement)
	}, "CREATE TRIGGER full BEFORE UPDATE ON osb_instances BEGIN SELECT RAISE(ABORT, 'no space'); END",
		"DROP TRIGGER full")
}

func TestRowsCannotBeWrittenInPostgreSQL(t *testing.T) {
	_, address, environment := newProxy(t, "osb_program_full")
	setenv(t, environment)
	execute := func(statement string) { pgtest.Exec(t, pgtest.DB(t, address), statement) }
	checkUnwritten(t, address, environment, execute,
		"CREATE FUNCTION no_space() RETURNS trigger LANGUAGE plpgsql AS $$ BEGIN RAISE 'no space'; END $$; "+
			"CREATE TRIGGER no_space BEFORE UPDATE ON osb_instances FOR EACH ROW EXECUTE FUNCTION no_space()",
		"DROP TRIGGER no_space ON osb_instances")
}

// checkUnwritten spoils a store so that a worker's rows can't be written. Then /readyz answers 503 and the log says
// why, once. Nothing is printed and nothing is sent. Once the store is repaired, the order goes on.
func checkUnwritten(t *testing.T, store string, environment []string, execute func(string), spoil, repair string) {
	t.Helper()
	s := newTestBroker(t)
	t.Setenv("XDG_STATE_HOME", t.TempDir())
	p := start(t, store, environment, "--broker", s.url, "--health-listen", "127.0.0.1:0")
	p.Event("broker_reached")
	execute(spoil)
	wantLines(t, store, []line{{"create --plan at-once --id one", 0, `one`, ``}})
	readyIs(t, p, 503)
	time.Sleep(2 * time.Second)
	readyIs(t, p, 503)
	wantLines(t, store, []line{{"show one", 0, "id\tone\nstate\tordered\n.*", ``}})
	diff.Equal(t, s.requests(), 0, "requests sent")
	execute(repair)
	readyIs(t, p, 200)
	waits.Until(t, "the order has gone on", func() bool { return countListed(t, store, "ready") > 0 })
	log := p.stop()
	if printed := p.out.String(); strings.Count(printed, "\n") != 1 || !strings.HasSuffix(printed, "\tone\tready\n") {
		t.Errorf("the output: got %q, want the order ready", printed)
	}
	for event, want := range map[string]int{"store_failed": 1, "not_ready": 1, "state_changed": 1, "lease_lost": 0} {
		diff.Equal(t, strings.Count(log, `"event":"`+event+`"`), want, "the log, %s, %s", event, log)
	}
	if strings.Count(log, "no space") < 2 {
		t.Errorf("the log: got\n%s\nwant no space in it twice", log)
	}
}

// readyIs waits until /readyz is answered so.
func readyIs(t *testing.T, p *process, want int) {
	t.Helper()
	waits.Until(t, fmt.Sprint("/readyz is answered with ", want), func() bool {
		status, _ := get(t, p.health+"/readyz")
		return status == want
	})
}

// execute executes a statement in the file of a store.
func execute(t *testing.T, store, statement string) {
	t.Helper()
	made := diff.Value((&sqlite3.SQLiteDriver{}).Open("file:" + store + "?_busy_timeout=5000"))(t)
	defer made.Close()
	diff.Value(made.(*sqlite3.SQLiteConn).Exec(statement, nil))(t)
}

// A connection to the page that sends nothing is closed soon: it takes the place of another one.
func TestSilentConnectionToPage(t *testing.T) {
	p := launch(t, "serving", osbPlatform(nil, "serve", "--store", newPath(t),
		"--page", "127.0.0.1:0"))
	silent := diff.Value(net.Dial("tcp", strings.TrimPrefix(p.page, "http://")))(t)
	defer silent.Close()
	begun := time.Now()
	check(t, silent.SetReadDeadline(begun.Add(deadline)))
	got, err := io.ReadAll(silent)
	if took := time.Since(begun); err != nil || len(got) > 0 || took < pageSilence/2 || took > 5*pageSilence {
		t.Errorf("got it closed after %v with %q, %v, want it closed in time", took, got, err)
	}
	p.stop()
}
