package main

import (
	"bytes"
	"context"
	"encoding/json"
	"errors"
	"net/http/httptest"
	"net/url"
	"os"
	"os/exec"
	"path/filepath"
	"strings"
	"sync"
	"testing"
	"time"

	"pippinterm/broker"
	holdings "pippinterm/broker/sqlite"
	"pippinterm/osb"
	"pippinterm/platform"
	"pippinterm/platform/sqlite"
)

// asProgram is a variable in the environment of a process that is the program.
const asProgram = "TEST_AS_PROGRAM"

const token = "hunter2"

func TestMain(m *testing.M) {
	if os.Getenv(asProgram) != "" {
		main()
		return
	}
	os.Exit(m.Run())
}

// A shelf is a backend in memory. It has each name that was created and not deleted.
type shelf struct {
	mutex sync.Mutex
	names map[broker.Key]bool
	made  int

	once           sync.Once
	begun, release chan struct{} // the first binding closes one, and waits for the other; or nil
}

func (s *shelf) Look(_ context.Context, r broker.Request) (broker.There, error) {
	s.mutex.Lock()
	defer s.mutex.Unlock()
	if s.names[r.Key] {
		return broker.Whole, nil
	}
	return broker.None, nil
}

func (s *shelf) Create(_ context.Context, r broker.Request) error {
	s.mutex.Lock()
	defer s.mutex.Unlock()
	s.names[r.Key] = true
	s.made++
	return nil
}

func (s *shelf) Delete(_ context.Context, r broker.Request) error {
	s.mutex.Lock()
	defer s.mutex.Unlock()
	delete(s.names, r.Key)
	return nil
}

func (s *shelf) LookBinding(ctx context.Context, r broker.Request) (broker.There, error) {
	return s.Look(ctx, r)
}

func (s *shelf) CreateBinding(ctx context.Context, r broker.Request) (json.RawMessage, error) {
	if s.begun != nil {
		s.once.Do(func() {
			close(s.begun)
			<-s.release
		})
	}
	return json.RawMessage(`{"token":"` + token + `"}`), s.Create(ctx, r)
}

func (s *shelf) DeleteBinding(ctx context.Context, r broker.Request) error { return s.Delete(ctx, r) }

func (s *shelf) Sync(context.Context, broker.Request) error { return nil }

// counts is how many were ever created, and how many exist.
func (s *shelf) counts() (made, exist int) {
	s.mutex.Lock()
	defer s.mutex.Unlock()
	return s.made, len(s.names)
}

// serveBroker returns the port of a broker that sells what a shelf has, until the end of the test.
func serveBroker(t *testing.T, sold *shelf) (port string) {
	t.Helper()
	document, err := os.ReadFile("../folders/catalogue.json")
	need(t, err)
	catalogue, err := broker.NewCatalogue(document, broker.Abilities{Bindings: true})
	need(t, err)
	store, err := holdings.Open(context.Background(), filepath.Join(t.TempDir(), "holdings.sqlite"), broker.Silent{})
	need(t, err)
	locks, err := broker.NewFileLocks(filepath.Join(t.TempDir(), "locks"))
	need(t, err)
	options := broker.ServiceOptions{FirstPoll: true, WaitForPoll: time.Minute}
	service := broker.NewService(catalogue, store, sold, locks, options, broker.Silent{})
	users, err := broker.NewUsers(map[string][]string{"platform": {"secret"}})
	need(t, err)
	sweeper := broker.NewSweeper(service, broker.Silent{})
	handler, err := broker.NewHandler(context.Background(), service, broker.HandlerOptions{
		Users: users, LongestBody: 1 << 20, AtOnce: 4, Touch: sweeper.Touch, Observer: broker.Silent{},
	})
	need(t, err)
	stop, cancel := context.WithCancel(context.Background())
	ended := make(chan struct{})
	go func() {
		defer close(ended)
		sweeper.Run(context.Background(), stop, 2, time.Second)
	}()
	server := httptest.NewServer(handler)
	t.Cleanup(func() {
		server.Close()
		cancel()
		<-ended
		need(t, store.Close())
	})
	at, err := url.Parse(server.URL)
	need(t, err)
	return at.Port()
}

func need(t *testing.T, err error) {
	t.Helper()
	if err != nil {
		t.Fatalf("got the error %v, want none", err)
	}
}

// withKey is a folder with a key.
func withKey(t *testing.T) (state string) {
	t.Helper()
	state = t.TempDir()
	need(t, os.WriteFile(filepath.Join(state, "key"), []byte(strings.Repeat("k", 32)+"\n"), 0o600))
	return state
}

// command is the program, which isn't started yet.
func command(state, port string) *exec.Cmd {
	made := exec.Command(os.Args[0], state)
	made.Env = append(os.Environ(), asProgram+"=1", "PORT="+port, "BROKER_PASSWORD=secret")
	return made
}

// It prints what stands in platform.out, no credentials, and leaves nothing. It can be run again over what it keeps.
func TestProgram(t *testing.T) {
	wanted, err := os.ReadFile("platform.out")
	need(t, err)
	sold := &shelf{names: map[broker.Key]bool{}}
	state, port := withKey(t), serveBroker(t, sold)
	for made := 2; made <= 4; made += 2 {
		printed, err := command(state, port).CombinedOutput()
		if err != nil || !bytes.Equal(printed, wanted) {
			t.Fatalf("got the error %v and the output %s, want what was recorded", err, printed)
		}
		if ever, exist := sold.counts(); ever != made || exist != 0 {
			t.Errorf("got %d created and %d left, want %d and none", ever, exist, made)
		}
	}
	kept, err := os.ReadFile(filepath.Join(state, "orders.sqlite"))
	need(t, err)
	if bytes.Contains(kept, []byte(token)) {
		t.Error("the file: got the credentials in clear, want them encrypted")
	}
}

// It is killed while it waits for the answer to a Bind. The next one takes that binding up, and deletes it, because
// nobody knows its credentials. If there is time, it creates another one. The instance stays.
func TestKilled(t *testing.T) {
	sold := &shelf{names: map[broker.Key]bool{}, begun: make(chan struct{}), release: make(chan struct{})}
	state, port := withKey(t), serveBroker(t, sold)
	first := command(state, port)
	need(t, first.Start())
	select {
	case <-sold.begun:
	case <-time.After(time.Minute):
		t.Error("got no Bind in a minute, want one")
	}
	need(t, first.Process.Kill())
	_ = first.Wait()
	close(sold.release)
	if printed, err := command(state, port).CombinedOutput(); err != nil {
		t.Fatalf("got the error %v and the output %s, want none", err, printed)
	}
	store, err := sqlite.Open(context.Background(), filepath.Join(state, "orders.sqlite"))
	need(t, err)
	defer store.Close()
	rows, err := store.List(context.Background(), platform.Filter{})
	need(t, err)
	states := map[platform.State]int{}
	further := 0
	for _, row := range rows {
		if row.IsSent && row.Record.InFlight() != osb.KindNone {
			t.Errorf("%v: got a request in flight, want none", row.Key)
		}
		if row.Key.IsBinding && row.Try == 2 {
			further++
			continue
		}
		states[row.State]++
	}
	deleted := states[platform.Gone] + states[platform.Cleaning] // perhaps there was no time for the last of them
	if len(rows) != 4+further || states[platform.Ready] != 1 || states[platform.Gone] < 2 || deleted != 3 || further > 1 {
		t.Errorf("got %v with %d further, want one ready and the others gone", states, further)
	}
	if ever, _ := sold.counts(); ever < 4 || ever > 4+further {
		t.Errorf("got %d created, want 4 and those tried again", ever)
	}
}

// A key that is missing, and a worker that runs already: it says so and fails.
func TestFails(t *testing.T) {
	sold := &shelf{names: map[broker.Key]bool{}}
	state, port := withKey(t), serveBroker(t, sold)
	fails(t, command(t.TempDir(), port), "key")
	store, err := sqlite.Open(context.Background(), filepath.Join(state, "orders.sqlite"))
	need(t, err)
	defer store.Close()
	end, _, err := store.Only(context.Background(), "a")
	need(t, err)
	defer end()
	fails(t, command(state, port), "another process")
	if ever, _ := sold.counts(); ever != 0 {
		t.Errorf("got %d were created, want 0", ever)
	}
}

func fails(t *testing.T, asked *exec.Cmd, text string) {
	t.Helper()
	printed, err := asked.CombinedOutput()
	var status *exec.ExitError
	if !errors.As(err, &status) || status.ExitCode() != 1 || !strings.Contains(string(printed), text) {
		t.Errorf("got the error %v and the output %s, want status 1", err, printed)
	}
}
