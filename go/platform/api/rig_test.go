package api

import (
	"bytes"
	"context"
	"crypto/sha256"
	"encoding/json"
	"fmt"
	"io"
	"net/http"
	"net/http/httptest"
	"path/filepath"
	"strconv"
	"strings"
	"testing"
	"time"

	"pippinterm/internal/diff"
	"pippinterm/osb"
	"pippinterm/platform"
	"pippinterm/platform/sqlite"
	"pippinterm/platform/vault"
)

var background = context.Background()

const (
	catalogue = `{"services": [{"id": "a0", "name": "shelf", "description": "", "bindable": true, "plans": [
		{"id": "b1", "name": "small", "description": ""},
		{"id": "b2", "name": "closed", "description": "", "bindable": false}
	]}]}`
	secret = `{"credentials": {"password": "hush"}}`
)

// The tokens of the tests, each with all of its permissions as its name.
var (
	reading = strings.Repeat("r", ShortestToken)
	writing = strings.Repeat("w", ShortestToken)
	opening = strings.Repeat("c", ShortestToken)
	all     = strings.Repeat("a", ShortestToken)
)

func tokenOfText(name, text string, permissions Permission) Token {
	return Token{Name: name, Permissions: permissions, Digest: sha256.Sum256([]byte(text))}
}

// A rig is the API over a store that has the broker shelf.
type rig struct {
	*testing.T
	store     platform.Store
	orders    *platform.Orders
	vault     *vault.Vault
	handler   http.Handler
	exchanges []Exchange
	checkKey  func(context.Context) error // or nil
}

func newRig(t *testing.T) *rig {
	t.Helper()
	return newRigOver(t, newStore(t))
}

func newRigOver(t *testing.T, store platform.Store) *rig {
	t.Helper()
	check(t, errDescribed)
	sealer := diff.Value(vault.New([]byte(strings.Repeat("k", vault.ShortestKey))))(t)
	r := &rig{T: t, store: store, vault: sealer, orders: platform.NewOrders(store, sealer)}
	r.handler = diff.Value(NewHandler(r.orders, store, Options{
		Tokens: []Token{
			tokenOfText("reader", reading, Read), tokenOfText("writer", writing, Write),
			tokenOfText("short", reading[1:], Read),
			tokenOfText("opener", opening, Credentials), tokenOfText("all", all, Read|Write|Credentials),
		},
		LongestBody: 4096,
		CheckKey: func(ctx context.Context) error {
			if r.checkKey == nil {
				return nil
			}
			return r.checkKey(ctx)
		},
		Observe: func(e Exchange) { r.exchanges = append(r.exchanges, e) },
	}))(t)
	broker := platform.Broker{Name: "shelf", URL: "https://shelf.example", User: "me"}
	check(t, r.orders.AddBroker(background, broker, []byte("sesame")))
	check(t, store.ChangeBroker(background, "shelf", func(it platform.Broker) (*platform.Broker, error) {
		it.Catalogue, it.CatalogueAt = json.RawMessage(catalogue), time.Date(2026, 1, 1, 0, 0, 0, 0, time.UTC)
		return &it, nil
	}))
	return r
}

var check = diff.Must

// A response is an answer of the API.
type response struct {
	*rig
	status int
	header http.Header
	text   string
	body   map[string]any
}

// call asks with the token that has all permissions. Every answer is checked against the document.
func (r *rig) call(method, target, body string) response {
	r.Helper()
	return r.callAs(all, method, target, body)
}

func (r *rig) callAs(token, method, target, body string) response {
	r.Helper()
	request := httptest.NewRequest(method, target, strings.NewReader(body))
	if body != "" {
		request.Header.Set("Content-Type", "application/json")
	}
	if token != "" {
		request.Header.Set("Authorization", "Bearer "+token)
	}
	return r.do(request)
}

func (r *rig) do(request *http.Request) response {
	r.Helper()
	asked := diff.Value(io.ReadAll(request.Body))(r.T)
	request.Body = io.NopCloser(bytes.NewReader(asked))
	recorder := httptest.NewRecorder()
	r.handler.ServeHTTP(recorder, request)
	text := diff.Value(io.ReadAll(recorder.Body))(r.T)
	answered := response{rig: r, status: recorder.Code, header: recorder.Header(), text: string(text)}
	if len(text) > 0 {
		check(r.T, json.Unmarshal(text, &answered.body))
	}
	for name, want := range map[string]string{"Cache-Control": "no-store", "X-Content-Type-Options": "nosniff"} {
		diff.Equal(r, answered.header.Get(name), want, "%s", name)
	}
	r.checkDocumented(request, asked, answered)
	return answered
}

// want fails unless the answer has this status, and of an error this code.
func (g response) want(status int, code string) response {
	g.Helper()
	found, _ := g.body["code"].(string)
	if g.status != status || found != code {
		g.Fatalf("got %d %s, want %d %q", g.status, g.text, status, code)
	}
	return g
}

// at is the value at a path of members, as text.
func (g response) at(path ...string) string {
	g.Helper()
	var value any = g.body
	for _, segment := range path {
		switch of := value.(type) {
		case map[string]any:
			value = of[segment]
		case []any:
			n, err := strconv.Atoi(segment)
			if err != nil || n >= len(of) {
				g.Fatalf("got no %v, want it in %s", path, g.text)
			}
			value = of[n]
		}
	}
	return fmt.Sprint(value)
}

func (g response) items() []any {
	g.Helper()
	found, isList := g.body["items"].([]any)
	if !isList {
		g.Fatalf("got no list, want one: %s", g.text)
	}
	return found
}

// order creates an instance, and returns its id.
func (r *rig) order() string {
	r.Helper()
	made := r.call("POST", "/v1/instances", `{"broker": "shelf", "service": "shelf", "plan": "small"}`)
	return made.want(201, "").at("id")
}

// send has the request of an order in flight.
func (r *rig) send(key platform.Key) {
	r.Helper()
	check(r.T, r.store.Change(background, key, func(now time.Time, snapshot platform.Snapshot) (*platform.Change, error) {
		e := snapshot.Entry
		var err error
		if key.IsBinding {
			e.Record, _, err = snapshot.Instance.Record.CreateBinding(key.Binding, true)
		} else {
			e.Record, _ = osb.Create(key.Instance, e.Service, e.Plan, true)
		}
		e.IsSent, e.State, e.Since = true, platform.Wanted, now
		e.Lease = platform.Lease{Worker: "one", Until: now.Add(time.Minute)}
		return &platform.Change{Entry: e}, err
	}))
}

// answer has the request in flight answered.
func (r *rig) answer(key platform.Key, status uint16, change func(*platform.Entry)) {
	r.Helper()
	check(r.T, r.store.Change(background, key, func(now time.Time, snapshot platform.Snapshot) (*platform.Change, error) {
		e := snapshot.Entry
		answer := osb.Answer{Status: status, Body: osb.BodyEmpty}
		record, err := e.Record.Answer(e.Record.Attempt(), answer)
		if key.IsBinding {
			record, err = e.Record.AnswerBinding(e.Record.Attempt(), answer, true)
		}
		if err != nil {
			return nil, err
		}
		e.Record, e.State, e.Since, e.Lease = record, platform.StateOf(record), now, platform.Lease{}
		e.Due = time.Time{}
		e.Last = platform.Reason{At: now, Kind: "provision", Status: int(status)}
		change(&e)
		return &platform.Change{Entry: e}, nil
	}))
}

func keyOfIDs(t *testing.T, ids ...string) platform.Key {
	t.Helper()
	return diff.Value(platform.ParseKey(strings.Join(ids, "/")))(t)
}

// ready creates an instance that is ready.
func (r *rig) ready() string {
	r.Helper()
	id := r.order()
	r.send(keyOfIDs(r.T, id))
	r.answer(keyOfIDs(r.T, id), 201, func(e *platform.Entry) {
		e.Dashboard, e.Metadata = "https://shelf.example/dash", json.RawMessage(`{"labels": {"a": "b"}}`)
	})
	return id
}

// bind creates a binding that is ready.
func (r *rig) bind(id string) string {
	r.Helper()
	bid := r.call("POST", "/v1/instances/"+id+"/bindings", `{"parameters": {}}`).want(201, "").at("id")
	key := keyOfIDs(r.T, id, bid)
	r.send(key)
	sealed := diff.Value(r.vault.Seal([]byte(secret), key.String()))(r.T)
	r.answer(key, 201, func(e *platform.Entry) { e.Credentials = sealed })
	return bid
}

// in has failures of the rig be those of a row of a table, until the row ends.
func (r *rig) in(t *testing.T) {
	table := r.T
	r.T = t
	t.Cleanup(func() { r.T = table })
}

// A testStore is a store in SQLite, of which tests choose what is read. A call that reads doesn't end with its context:
// the tests of limits are about the handler's waits, however long a busy machine takes for SQLite.
type testStore struct {
	*sqlite.Store
	now  time.Time                                  // by its clock, if it isn't zero
	rows map[platform.Key]func(row *platform.Entry) // what changes a row that is read
	err  error                                      // of every call that reads, or nil
}

func newStore(t *testing.T) *testStore {
	t.Helper()
	store := diff.Value(sqlite.Open(background, filepath.Join(t.TempDir(), "instances.sqlite")))(t)
	t.Cleanup(func() { check(t, store.Close()) })
	return &testStore{Store: store, rows: map[platform.Key]func(*platform.Entry){}}
}

// fails returns the error of the test, if there is one, and otherwise that of the store.
func (s *testStore) fails(err error) error {
	if s.err != nil {
		return s.err
	}
	return err
}

// read reads a row as the test has it.
func (s *testStore) read(e *platform.Entry) {
	if change := s.rows[e.Key]; change != nil {
		change(e)
	}
}

func (s *testStore) Read(_ context.Context, key platform.Key) (platform.Entry, error) {
	e, err := s.Store.Read(background, key)
	s.read(&e)
	return e, s.fails(err)
}

func (s *testStore) Positions(_ context.Context, filter platform.Filter) ([]platform.Position, error) {
	found, err := s.Store.Positions(background, filter)
	return found, s.fails(err)
}

func (s *testStore) ReadAll(_ context.Context, keys []platform.Key) ([]platform.Entry, error) {
	found, err := s.Store.ReadAll(background, keys)
	for at := range found {
		s.read(&found[at])
	}
	return found, s.fails(err)
}

func (s *testStore) Counts(context.Context) ([]platform.Count, error) {
	found, err := s.Store.Counts(background)
	return found, s.fails(err)
}

func (s *testStore) InFlight(_ context.Context, most int) ([]platform.Entry, error) {
	found, err := s.Store.InFlight(background, most)
	return found, s.fails(err)
}

func (s *testStore) Brokers(context.Context) ([]platform.Broker, error) {
	found, err := s.Store.Brokers(background)
	return found, s.fails(err)
}

func (s *testStore) NextDue(_ context.Context, names []string) (due, now time.Time, err error) {
	due, now, err = s.Store.NextDue(background, names)
	if !s.now.IsZero() {
		now = s.now
	}
	return due, now, s.fails(err)
}
