package broker_test

import (
	"bytes"
	"context"
	"encoding/json"
	"errors"
	"net/http"
	"net/http/httptest"
	"strconv"
	"strings"
	"sync"
	"testing"

	"pippinterm/broker"
	"pippinterm/internal/diff"
	"pippinterm/osb"
)

// The service and its plans: instances and bindings at once, both later, and either.
const catalogue = `{"services": [{
	"id": "00000000-0000-0000-0000-0000000000a0", "name": "shelf", "description": "A shelf", "bindable": true,
	"bindings_retrievable": true, "plans": [
	{"id": "00000000-0000-0000-0000-0000000000c1", "name": "now", "description": "all at once"},
	{"id": "00000000-0000-0000-0000-0000000000c2", "name": "later", "description": "all later",
		"x-osb-asynchronous": true, "x-osb-asynchronous-bindings": true},
	{"id": "00000000-0000-0000-0000-0000000000c3", "name": "bind-later", "description": "bindings later",
		"x-osb-asynchronous-bindings": true},
	{"id": "00000000-0000-0000-0000-0000000000c4", "name": "make-later", "description": "instances later",
		"x-osb-asynchronous": true}]}]}`

func catalogueFor(t *testing.T, document string) *broker.Catalogue {
	t.Helper()
	made := diff.Value(broker.NewCatalogue([]byte(document), broker.Abilities{Bindings: true}))(t)
	return made
}

func handlerFor(t *testing.T, service *broker.Service) *broker.Handler {
	t.Helper()
	users := diff.Value(broker.NewUsers(map[string][]string{"u": {"p"}}))(t)
	handler, err := broker.NewHandler(context.Background(), service, broker.HandlerOptions{
		Users: users, LongestBody: 1000, AtOnce: 4, Touch: func(broker.Key) {}, Observer: broker.Silent{},
	})
	check(t, err)
	return handler
}

// A shelf is a backend in memory, which outlives its broker. Each call may fail before or after it was done.
type shelf struct {
	mood   func() int
	asked  func(broker.Request)                   // gets each call, before it does anything
	worked func(broker.Key, broker.There, string) // gets each change, with the credentials
	turn   sync.Mutex
	things map[broker.Key]thing
	made   int
}

type thing struct {
	there       broker.There
	credentials string
}

func newShelf(mood func() int) *shelf {
	worked := func(broker.Key, broker.There, string) {}
	asked := func(broker.Request) {}
	return &shelf{mood: mood, asked: asked, worked: worked, things: map[broker.Key]thing{}}
}

func (s *shelf) there(key broker.Key) broker.There {
	s.turn.Lock()
	defer s.turn.Unlock()
	return s.things[key].there
}

// credentials are those of a binding that exists, or empty.
func (s *shelf) credentials(key broker.Key) string {
	s.turn.Lock()
	defer s.turn.Unlock()
	return s.things[key].credentials
}

func (s *shelf) set(key broker.Key, to thing) {
	s.turn.Lock()
	if s.things[key] = to; to.there == broker.None {
		delete(s.things, key)
	}
	s.turn.Unlock()
	s.worked(key, to.there, to.credentials)
}

// maybe does it, or fails before or after.
func (s *shelf) maybe(do func() error, mayReject bool) error {
	switch mood := s.mood(); {
	case mood == 0:
		return errors.New("before")
	case mood == 2 && mayReject:
		return &broker.Rejection{Status: 422, Description: "too many"}
	case mood == 1:
		if err := do(); err != nil {
			return err
		}
		return errors.New("after")
	}
	return do()
}

func (s *shelf) Look(_ context.Context, r broker.Request) (broker.There, error) {
	s.asked(r)
	return s.there(r.Key), nil
}

func (s *shelf) Sync(_ context.Context, r broker.Request) error {
	s.asked(r)
	return nil
}

func (s *shelf) Create(_ context.Context, r broker.Request) error {
	s.asked(r)
	return s.maybe(func() error {
		s.set(r.Key, thing{there: broker.Part})
		broker.CrashAt("work-half")
		s.set(r.Key, thing{there: broker.Whole})
		return nil
	}, s.there(r.Key) == broker.None)
}

func (s *shelf) Delete(_ context.Context, r broker.Request) error {
	s.asked(r)
	return s.maybe(func() error {
		s.set(r.Key, thing{there: broker.Part})
		broker.CrashAt("work-half")
		s.set(r.Key, thing{})
		return nil
	}, false)
}

func (s *shelf) LookBinding(_ context.Context, r broker.Request) (broker.There, error) {
	s.asked(r)
	return s.there(r.Key), nil
}

func (s *shelf) CreateBinding(_ context.Context, r broker.Request) (credentials json.RawMessage, err error) {
	s.asked(r)
	err = s.maybe(func() error {
		s.set(r.Key, thing{there: broker.Part})
		broker.CrashAt("binding-half")
		s.made++
		token := "token " + strconv.Itoa(s.made)
		s.set(r.Key, thing{broker.Whole, token})
		credentials, err = json.Marshal(token)
		return err
	}, s.there(r.Key) == broker.None)
	return credentials, err
}

func (s *shelf) DeleteBinding(_ context.Context, r broker.Request) error {
	s.asked(r)
	return s.maybe(func() error {
		s.set(r.Key, thing{there: broker.Part})
		broker.CrashAt("binding-half")
		s.set(r.Key, thing{})
		return nil
	}, false)
}

// memoryLocks are broker.Locks of one process.
type memoryLocks struct {
	turn  sync.Mutex
	taken map[broker.Key]chan struct{}
}

func newMemoryLocks() *memoryLocks { return &memoryLocks{taken: map[broker.Key]chan struct{}{}} }

type memoryLock struct {
	locks *memoryLocks
	key   broker.Key
}

func (l *memoryLocks) CanBeLost() bool { return false }

func (l *memoryLocks) take(key broker.Key) (broker.Lock, chan struct{}) {
	l.turn.Lock()
	defer l.turn.Unlock()
	if given, isTaken := l.taken[key]; isTaken {
		return nil, given
	}
	l.taken[key] = make(chan struct{})
	return memoryLock{l, key}, nil
}

func (l *memoryLocks) TryLock(_ context.Context, key broker.Key) (broker.Lock, error) {
	lock, _ := l.take(key)
	return lock, nil
}

func (l *memoryLocks) Lock(ctx context.Context, key broker.Key) (broker.Lock, error) {
	for {
		lock, given := l.take(key)
		if lock != nil {
			return lock, nil
		}
		select {
		case <-given:
		case <-ctx.Done():
			return nil, ctx.Err()
		}
	}
}

func (m memoryLock) Context(ctx context.Context) context.Context { return ctx }

func (m memoryLock) Unlock() {
	m.locks.turn.Lock()
	defer m.locks.turn.Unlock()
	close(m.locks.taken[m.key])
	delete(m.locks.taken, m.key)
}

// id is an id with these last digits.
func id(last string) osb.ID {
	return osb.MustParseID("00000000-0000-0000-0000-000000000000"[:36-len(last)] + last)
}

func must(err error) {
	if err != nil {
		panic(err)
	}
}

// A message is a request over HTTP.
type message struct {
	method, target string
	body           []byte
	header         http.Header // besides those of each request, or nil
}

// An answer is what came over HTTP.
type answer struct {
	status int
	header http.Header
	body   []byte
}

// serve has a handler answer the request.
func (m message) serve(handler http.Handler) *answer { return m.as(handler, "u", "p") }

func (m message) as(handler http.Handler, user, password string) *answer {
	request := httptest.NewRequest(m.method, m.target, bytes.NewReader(m.body))
	request.SetBasicAuth(user, password)
	request.Header.Set(osb.VersionHeader, osb.VersionSent)
	for name, values := range m.header {
		request.Header[name] = values
	}
	given := httptest.NewRecorder()
	handler.ServeHTTP(given, request)
	return &answer{status: given.Code, header: given.Header(), body: given.Body.Bytes()}
}

// credentialsOf are the credentials in the object of a binding.
func credentialsOf(object []byte) string {
	var read struct {
		Credentials string `json:"credentials"`
	}
	if json.Unmarshal(object, &read) != nil {
		return ""
	}
	return strings.TrimSpace(read.Credentials)
}
