package main

import (
	"bytes"
	"encoding/pem"
	"fmt"
	"io"
	"io/fs"
	"net/http"
	"net/http/httptest"
	"net/http/httputil"
	"net/url"
	"os"
	"path/filepath"
	"strconv"
	"strings"
	"sync/atomic"
	"testing"
	"time"

	"pippinterm/internal/diff"
	"pippinterm/internal/waits"
	"pippinterm/osb"
	"pippinterm/platform"
)

// Brokers are added, changed, listed, shown and dropped.
func TestBrokers(t *testing.T) {
	store, password, key := newStore(t), filepath.Join(t.TempDir(), "password"), newKey(t)
	write(t, password, "secret\n")
	t.Setenv(passwordVariable, "")
	wantLines(t, store, []line{
		{"broker list", 0, "shop\thttp://127.0.0.1:1\tplatform\t2023-11-14T22:13:20Z\t", ``},
		{"broker show shop", 0, `name	shop
url	http://127.0.0.1:1
user	platform
password	in the file /nowhere/password
hold	default
first pace	default
longest pace	default
longest poll	default
catalogue since	2023-11-14T22:13:20Z
tombstones	no
plan	database	small	s-1	p-1	bindable
plan	database	large	s-1	p-2	not bindable`, ``},
		{"broker show other", 1, ``, `osb-platform: the broker "other" is unknown`},
		{"broker add shop http://127.0.0.1:1 --password-file " + password, 1, ``, `.*: there is a broker shop.*`},
		{"broker add Shop http://127.0.0.1:1 --password-file " + password, 78, ``, `.*: the name of a broker.*`},
		{"broker add two http://192.0.2.1 --password-file " + password, 78, ``, `.*: with http:// every.*`},
		{"broker add two http://u:pw@127.0.0.1 --password-file " + password, 78, ``, `osb-platform: .*no user.*`},
		{"broker add two http://127.0.0.1:1", 78, ``, `osb-platform: the broker two has no password.*`},
		{"broker add two http://127.0.0.1:1 --password-file /nowhere/p", 78, ``, `osb-platform: --password-file: .*`},
		{"broker add two http://127.0.0.1:1 --store-password --password-file " + password, 78, ``, `.*not both`},
		{"broker add two http://127.0.0.1:1 --store-password --key-file " + key, 78, ``, `osb-platform: set OSB_PL.*`},
		{"broker add two http://127.0.0.1:1/ --hold 9 --password-file " + password, 0, ``, `osb-platform: warning: .*`},
		{"create --broker two --plan small", 1, ``, `.*has given no catalogue yet \(.*refused\): run the platform.*`},
		{"broker set two", 78, ``, `osb-platform: give an option .*`},
		{"broker set two --first-pace 0.5 --url http://127.0.0.1:2", 0, ``, `osb-platform: warning: .*refused.*`},
		{"broker show two", 0, `name	two
url	http://127.0.0.1:2
user	platform
password	in the file .*/password
hold	9
first pace	0.5
.*catalogue since	none
last reason	20[^ ]* the catalogue of two: .*refused`, ``},
		{"broker set two --hold default", 0, ``, ``},
		{"broker show two", 0, `.*hold	default
first pace	0.5
.*`, ``},
		{"broker set two --hold never", 2, ``, `osb-platform: .*want a number of seconds.*`},
		{"broker set three --hold 1", 1, ``, `osb-platform: the broker "three" is unknown.*`},
		{"create --plan small", 78, ``, `osb-platform: there are several brokers: name one of shop, two`},
		{"create --broker two --plan small", 1, ``, `osb-platform: the broker two has given no catalogue yet.*`},
		{"broker drop two", 0, ``, ``},
		{"broker drop two", 1, ``, `osb-platform: the broker "two" is unknown`},
	})
}

// A password is kept in the store only with a key, and never printed.
func TestStoredPassword(t *testing.T) {
	store, key := newStore(t), newKey(t)
	add := []string{"--store", store, "broker", "add", "two", "http://127.0.0.1:1", "--store-password"}
	callWith(t, "hunter2\n", add...).wants(t, 78, ``, `.*--key-file FILE.*`)
	diff.Equal(t, callWith(t, "hunter2\n", append(add, "--key-file", key)...).status, 0, "with a key")
	got := call(t, "--store", store, "broker", "show", "two")
	diff.Contains(t, got.out, "password\tin the store, encrypted\n", "%+v", got)
	diff.Lacks(t, got.out, "hunter2", "%+v", got)
	other := newKey(t)
	got = callWith(t, "hunter3\n", "--store", store, "broker", "set", "two", "--store-password", "--key-file", other)
	diff.Equal(t, got.status, 78, "with another key, %+v", got)
	diff.Contains(t, got.failed, "another key", "with another key, %+v", got)
	got = callWith(t, "hunter3\n", "--store", store, "broker", "set", "two", "--store-password", "--key-file", other,
		"--key-file", key)
	diff.Equal(t, got.status, 0, "with both keys, %+v", got)
}

// A broker that is rejected leaves no store behind, and no folder for one.
func TestRejectedBrokerLeavesNoStore(t *testing.T) {
	t.Setenv("XDG_STATE_HOME", t.TempDir())
	t.Setenv(passwordVariable, "")
	key, password := newKey(t), filepath.Join(t.TempDir(), "password")
	write(t, password, "secret\n")
	folder := filepath.Join(t.TempDir(), "state")
	store := filepath.Join(folder, "store")
	for _, expected := range []line{
		{"one http://127.0.0.1:1 --store-password", 78, ``, `.*--key-file FILE.*`},
		{"one http://127.0.0.1:1 --store-password --key-file /nowhere/key", 78, ``, `.*/nowhere/key.*`},
		{"one http://127.0.0.1:1 --store-password --key-file " + key, 78, ``, `.*set OSB_PLATFORM_PASSWORD.*`},
		{"one http://127.0.0.1:1", 78, ``, `.*has no password.*`},
		{"one http://127.0.0.1:1 --password-file /nowhere/password", 78, ``, `.*/nowhere/password.*`},
		{"one http://127.0.0.1:1 --tls-ca /nowhere/ca --password-file " + password, 78, ``, `.*/nowhere/ca.*`},
		{"One http://127.0.0.1:1 --password-file " + password, 78, ``, `.*the name of a broker.*`},
		{"one http://192.0.2.1 --password-file " + password, 78, ``, `.*with http://.*`},
	} {
		t.Run(expected.arguments, func(t *testing.T) {
			expected.arguments = "broker add " + expected.arguments
			wantLines(t, store, []line{expected})
			diff.ErrorIs(t, diff.Err(os.Stat(folder)), fs.ErrNotExist, "%s", expected.arguments)
		})
	}
	wantLines(t, store, []line{
		{"broker add one http://127.0.0.1:1 --password-file " + password, 0, ``, `.*warning: .*`},
		{"broker list", 0, "one\thttp://127.0.0.1:1\t.*", ``},
	})
}

// With the authority of its certificate, the catalogue of a broker is read at once.
func TestAddOverTLS(t *testing.T) {
	server := httptest.NewTLSServer(http.HandlerFunc(func(w http.ResponseWriter, r *http.Request) {
		w.Header().Set("Content-Type", "application/json")
		_, _ = w.Write([]byte(catalogue))
	}))
	defer server.Close()
	folder, store := t.TempDir(), newStore(t)
	ca, password := filepath.Join(folder, "ca"), filepath.Join(folder, "password")
	write(t, ca, string(pem.EncodeToMemory(&pem.Block{Type: "CERTIFICATE", Bytes: server.Certificate().Raw})))
	write(t, password, "secret\n")
	add := " " + server.URL + " --password-file " + password
	wantLines(t, store, []line{
		{"broker add one" + add, 0, ``, `osb-platform: warning: .*certificate.*`},
		{"broker add two" + add + " --tls-ca " + ca, 0, ``, ``},
		{"broker add three" + add + " --tls-ca /nowhere/ca", 78, ``, `osb-platform: .*/nowhere/ca.*`},
		{"broker show three", 1, ``, `osb-platform: the broker "three" is unknown`},
		{"broker set one --url " + server.URL + "/x --tls-ca " + ca, 0, ``, ``},
		{"broker show one", 0, ".*\nplan\tdatabase\tsmall\t.*", ``},
	})
}

// After a change of how the platform logs in, the catalogue is asked for: a wrong password is noticed at once, and with
// the right one instances can be ordered before a worker runs.
func TestSetAsksForCatalogue(t *testing.T) {
	s, store, folder := newTestBroker(t), newPath(t), t.TempDir()
	wrong, right := filepath.Join(folder, "wrong"), filepath.Join(folder, "right")
	write(t, wrong, "hunter2\n")
	write(t, right, "secret\n")
	wantLines(t, store, []line{
		{"broker add shop " + s.url + " --password-file " + wrong, 0, ``, `osb-platform: warning: .*\(401\).*`},
		{"broker list", 0, "shop\t.*\tnone\tthe broker shop rejects the user or the password \\(401\\): give it .*", ``},
		{"create --plan at-once", 1, ``, `.*no catalogue yet \(.*rejects the user or the password \(401\).*`},
		{"broker set shop --hold 3", 0, ``, ``},
		{"broker set shop --password-file " + right, 0, ``, ``},
		{"broker list", 0, "shop\t.*\t" + since + "\t", ``},
		{"create --plan at-once --id one", 0, `one`, ``},
		{"broker set shop --password-file " + wrong, 0, ``, `osb-platform: warning: .*\(401\).*`},
		{"create --plan at-once --id two", 0, `two`, ``}, // the catalogue that was answered last counts
	})
}

// A broker's line tombstones is there once its catalogue is known.
func TestShowsTombstones(t *testing.T) {
	for catalogue, wanted := range map[string]string{
		"":                 "",
		`{"services": []}`: "\ntombstones\tno\n",
		`{"services": [], "x-osb-tombstones": true}`: "\ntombstones\tyes\n",
	} {
		t.Run("catalogue "+catalogue, func(t *testing.T) {
			broker := platform.Broker{Name: "shop"}
			if catalogue != "" {
				broker.Catalogue = []byte(catalogue)
			}
			var shown strings.Builder
			check(t, showBroker(&shown, broker))
			diff.Contains(t, shown.String(), wanted, "%q", catalogue)
			diff.Equal(t, strings.Contains(shown.String(), "tombstones"), wanted != "", "%q", catalogue)
		})
	}
}

// The API takes no broker at a host that --broker-hosts doesn't name.
func TestBrokerHosts(t *testing.T) {
	store, key := newStore(t), newKey(t)
	p := launch(t, "serving", osbPlatform(nil, "serve", "--store", store, "--key-file", key, "--api", "127.0.0.1:0",
		"--api-tokens", newTokens(t), "--broker-hosts", "*.example,10.0.0.0/8"))
	c := caller{t: t, client: http.DefaultClient, url: p.api, token: token}
	c.call(400, "PUT", "/v1/brokers/other", `{"url": "https://127.0.0.1:22", "user": "me", "password": "p"}`)
	c.call(201, "PUT", "/v1/brokers/other", `{"url": "https://new.example", "user": "me", "password": "p"}`)
	c.call(200, "PUT", "/v1/brokers/other", `{"url": "https://10.1.2.3", "user": "me", "password": "p"}`)
	c.call(400, "PUT", "/v1/brokers/other", `{"url": "https://evil.test", "user": "me", "password": "p"}`)
	p.stop()
}

// The broker's password is replaced while a worker runs. After the first 401 nothing is sent until the worker has the
// new password, and then everything that was ordered is done.
func TestReplacedPassword(t *testing.T) {
	for name, replace := range map[string]func(t *testing.T, store, file, key string){
		"in the file": func(t *testing.T, _, file, _ string) { write(t, file, "another\n") },
		"in another file": func(t *testing.T, store, _, _ string) {
			other := filepath.Join(t.TempDir(), "password")
			write(t, other, "another\n")
			wantLines(t, store, []line{{"broker set local --password-file " + other, 0, ``, ``}})
		},
		"in the store": func(t *testing.T, store, _, key string) {
			got := callWith(t, "another\n", "--store", store, "--key-file", key, "broker", "set", "local", "--store-password")
			diff.Equal(t, got.status, 0, "%+v", got)
			diff.Equal(t, got.failed, "", "%+v", got)
		},
	} {
		t.Run(name, func(t *testing.T) {
			s, store, key := newTestBroker(t), newPath(t), newKey(t)
			file := passwordFile(t)
			wantLines(t, store, []line{
				{"broker add local " + s.url + " --first-pace 0.01 --hold 0 --password-file " + file, 0, ``, ``},
			})
			p := start(t, store, nil, "--key-file", key, "--at-once", "4")
			wantLines(t, store, []line{
				{"create --plan at-once --id before --wait=60", 0, `before`, `ordered before`},
				{"bind before --id one --wait=60 --key-file " + key, 0, `before/one`, `ordered before/one`},
			})
			s.setPassword("another")
			for n := 1; n <= 9; n++ {
				wantLines(t, store, []line{{fmt.Sprintf("create --plan by-worker --id new-%d --tries 3", n), 0, `.*`, ``}})
			}
			wantLines(t, store, []line{{"remove before --bindings", 0, ``, ``}})
			p.Event("broker_refuses")
			refused := settledRefusals(t, s)
			if refused == 0 || refused > 2*4 { // what was in flight, and what was claimed just before the first 401 was read
				t.Errorf("got %d requests with the old password, want 1 to 8", refused)
			}
			replace(t, store, file, key)
			p.Event("broker_reached")
			for n := 1; n <= 9; n++ {
				wantReady(t, store, fmt.Sprintf("new-%d", n))
			}
			wantLines(t, store, []line{{"remove before --wait=60", 0, ``, `before is gone`}})
			diff.Equal(t, s.refusals(), refused, "requests with the old password")
			p.stop()
		})
	}
}

// settledRefusals returns how many requests came with a wrong password, once there is none any more for a while.
func settledRefusals(t *testing.T, s *testBroker) int {
	t.Helper()
	for late := time.Now().Add(deadline); time.Now().Before(late); {
		before := s.refusals()
		time.Sleep(500 * time.Millisecond)
		if s.refusals() == before {
			return before
		}
	}
	t.Fatal("got more and more requests with a wrong password, want their end")
	return 0
}

// wantReady waits until an order is ready, under the id that it was given or that of a later try.
func wantReady(t *testing.T, store, id string) {
	t.Helper()
	got := ""
	for late := time.Now().Add(deadline); time.Now().Before(late); time.Sleep(50 * time.Millisecond) {
		got = call(t, "--store", store, "show", id).out
		if strings.Contains(got, "state\tready\n") || strings.Contains(got, " ready\n") &&
			strings.Contains(got, "\ntry ") {
			return
		}
	}
	t.Errorf("%s: got %s, want it ready", id, got)
}

// A front is before a testBroker. It names a store in each answer, and may stand for another broker.
type front struct {
	url      string
	store    atomic.Value // of string: the store that answers name
	isOther  atomic.Bool  // whether it answers as a broker that knows of no instance
	deletion atomic.Int64 // how many deletions arrived
}

func newFront(t *testing.T, s *testBroker) *front {
	t.Helper()
	f := &front{}
	f.store.Store("one")
	to := diff.Value(url.Parse(s.url))(t)
	proxy := httputil.NewSingleHostReverseProxy(to)
	proxy.ModifyResponse = f.name
	server := httptest.NewServer(http.HandlerFunc(func(w http.ResponseWriter, r *http.Request) {
		if r.Method == http.MethodDelete {
			f.deletion.Add(1)
		}
		if !f.isOther.Load() || strings.HasSuffix(r.URL.Path, "/v2/catalog") {
			proxy.ServeHTTP(w, r)
			return
		}
		w.Header().Set("X-Osb-Store", f.store.Load().(string))
		w.Header().Set(osb.RequestIdentityHeader, r.Header.Get(osb.RequestIdentityHeader))
		w.WriteHeader(http.StatusGone)
		_, _ = w.Write([]byte("{}"))
	}))
	t.Cleanup(server.Close)
	f.url = server.URL
	return f
}

// name names the store in an answer, and in the catalogue.
func (f *front) name(answer *http.Response) error {
	store := f.store.Load().(string)
	answer.Header.Set("X-Osb-Store", store)
	if !strings.HasSuffix(answer.Request.URL.Path, "/v2/catalog") {
		return nil
	}
	text, err := io.ReadAll(answer.Body)
	if err != nil {
		return err
	}
	text = bytes.Replace(text, []byte("{"), []byte(`{"x-osb-store":"`+store+`",`), 1)
	answer.Body, answer.ContentLength = io.NopCloser(bytes.NewReader(text)), int64(len(text))
	answer.Header.Set("Content-Length", strconv.Itoa(len(text)))
	return nil
}

// A broker is replaced by one over another store, which answers that each instance is gone. The platform believes none
// of that, sends nothing more, and says what to do. Once the operator accepts the other store, it goes on.
func TestBrokerOfAnotherStore(t *testing.T) {
	s, store := newTestBroker(t), newPath(t)
	f := newFront(t, s)
	file := passwordFile(t)
	wantLines(t, store, []line{
		{"broker add local " + f.url + " --first-pace 0.01 --hold 0 --password-file " + file, 0, ``, ``},
		{"broker show local", 0, `(?s).*store\tone\n.*`, ``},
	})
	p := start(t, store, nil)
	wantLines(t, store, []line{
		{"create --plan at-once --id before --wait=60", 0, `before`, `ordered before`},
		{"create --plan at-once --id beside --wait=60", 0, `beside`, `ordered beside`},
	})
	f.isOther.Store(true)
	f.store.Store("two")
	wantLines(t, store, []line{{"remove before", 0, ``, ``}})
	p.Event("other_store")
	wantAccept := `(?s).*the broker names the store two, and one is recorded\..*` +
		`osb-platform broker set local --accept-store two.*`
	waits.Until(t, "broker list names the command", func() bool {
		return isAll(wantAccept, call(t, "--store", store, "broker", "list").out)
	})
	diff.Equal(t, f.deletion.Load(), 1, "deletions sent to the other broker")
	for _, text := range []string{"before", "beside"} {
		diff.Lacks(t, call(t, "--store", store, "show", text).out, "state\tgone", "the answer of the other broker")
	}
	wantLines(t, store, []line{
		{"broker set local --accept-store x;y", 78, ``, `osb-platform: .*the id of a store has 1 to 200 letters.*`},
		{"broker set local --accept-store two", 0, ``, ``},
	})
	f.isOther.Store(false) // it is the same broker after all, over a copy of its store
	wantLines(t, store, []line{
		{"remove before --wait=60", 0, ``, `before is gone`}, {"remove beside --wait=60", 0, ``, `beside is gone`},
		{"broker show local", 0, `(?s).*store\ttwo\n.*`, ``},
	})
	p.stop()
}
