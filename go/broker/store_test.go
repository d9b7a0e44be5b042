package broker_test

import (
	"context"
	"errors"
	"fmt"
	"os"
	"path/filepath"
	"strings"
	"sync"
	"testing"
	"time"

	"pippinterm/broker"
	"pippinterm/broker/backend/folders"
	"pippinterm/broker/sqlite"
	"pippinterm/internal/diff"
	"pippinterm/osb"
)

var errStore = errors.New("the store fails")

// A failingStore fails at one of its calls: nothing is read or written then.
type failingStore struct {
	*sqlite.Store
	turn sync.Mutex
	left int    // how many calls until the one that fails, and 0 if none does
	call string // the one that has failed
}

func (s *failingStore) fails(call string) error {
	s.turn.Lock()
	defer s.turn.Unlock()
	if s.left == 0 {
		return nil
	}
	if s.left--; s.left > 0 {
		return nil
	}
	s.call = call
	return fmt.Errorf("%w: %s", errStore, call)
}

func (s *failingStore) Read(ctx context.Context, key broker.Key) (broker.Snapshot, error) {
	if err := s.fails("Read"); err != nil {
		return broker.Snapshot{}, err
	}
	return s.Store.Read(ctx, key)
}

func (s *failingStore) Change(ctx context.Context, key broker.Key, step broker.Step) error {
	if err := s.fails("Change"); err != nil {
		return err
	}
	return s.Store.Change(ctx, key, step)
}

func (s *failingStore) HeldBindings(ctx context.Context, instance osb.ID) ([]osb.ID, error) {
	if err := s.fails("HeldBindings"); err != nil {
		return nil, err
	}
	return s.Store.HeldBindings(ctx, instance)
}

func (s *failingStore) UnfinishedKeys(ctx context.Context) ([]broker.Key, error) {
	if err := s.fails("Unfinished"); err != nil {
		return nil, err
	}
	return s.Store.UnfinishedKeys(ctx)
}

// A clumsy is a broker over a store that fails once.
type clumsy struct {
	*loneBroker
	store *failingStore
}

func newClumsy(t *testing.T, n int, backend broker.Backend) *clumsy {
	t.Helper()
	opened := diff.Value(sqlite.Open(context.Background(), filepath.Join(t.TempDir(), "store"), broker.Silent{}))(t)
	t.Cleanup(func() { _ = opened.Close() })
	c := &clumsy{store: &failingStore{Store: opened, left: n}}
	b := &bench{store: opened, observed: &recorder{}}
	b.Service = broker.NewService(
		catalogueFor(t, catalogue), c.store, backend, losableLocks{newMemoryLocks()}, broker.ServiceOptions{}, b.observed)
	c.loneBroker = &loneBroker{bench: b, handler: handlerFor(t, b.Service)}
	return c
}

// until sends a request until it is answered with this status, or with the other one: after a failure the work may be
// done. Meanwhile somebody takes up what is pending. A failure of the store is answered with 500.
func (c *clumsy) until(t *testing.T, status, other int, method, target, body string, key broker.Key) {
	t.Helper()
	var got []int
	for tries := 0; tries < 8; tries++ {
		before := c.store.call
		given := c.ask(method, target, body)
		if got = append(got, given.status); given.status == status || given.status == other && len(got) > 1 {
			return
		}
		if hasFailed := c.store.call != before; hasFailed && given.status != 500 {
			t.Errorf("%s of the store has failed: %s %s got %d, want 500", c.store.call, method, target, given.status)
		}
		if err := c.TakeUp(context.Background(), key); err != nil && !errors.Is(err, errStore) {
			t.Errorf("%s of the store has failed: TakeUp got %v, want that error or none", c.store.call, err)
		}
	}
	t.Fatalf("%s of the store has failed: %s %s got %v, want %d", c.store.call, method, target, got, status)
}

// A store that fails at any one call costs an answer, and leaves nothing: the same requests, sent again, end as they do
// without it.
func TestStoreThatFailsOnce(t *testing.T) {
	one, both := keyOf("i"), osb.BindingKey(keyOf("i").Instance, keyOf("b").Instance)
	bound := instances + "i/service_bindings/b"
	for _, plan := range []string{now, later} {
		t.Run(plan, func(t *testing.T) {
			created, deleted, query := 201, 200, ""
			if plan == later {
				created, deleted, query = 200, 410, "&accepts_incomplete=true"
			}
			for n, failed := 1, "none yet"; failed != ""; n++ {
				shelf := newShelf(calm)
				c := newClumsy(t, n, shelf)
				c.until(t, created, 200, "PUT", instances+"i?"+query, bodyOf(plan, ""), one)
				c.until(t, created, 200, "PUT", bound+"?"+query, bodyOf(plan, ""), both)
				c.until(t, 200, 200, "GET", bound, "", both)
				c.until(t, 200, 200, "GET", instances+"i/last_operation", "", one)
				c.until(t, deleted, 410, "DELETE", bound+names(plan)+query, "", both)
				c.until(t, deleted, 410, "DELETE", instances+"i"+names(plan)+query, "", one)
				if failed = c.store.call; len(shelf.things) > 0 {
					t.Errorf("%s: %s, call %d of the store, has failed: got %v, want nothing", plan, failed, n, shelf.things)
				}
				if failed == "" && n < 10 {
					t.Errorf("%s: got %d calls of the store, want more", plan, n)
				}
			}
		})
	}
}

// If the bindings of an instance can't be read, the caller gets the error, and none is deleted.
func TestUnbindFailedOverAStoreThatFails(t *testing.T) {
	for n, call := range []string{"HeldBindings", "Read"} {
		t.Run(call, func(t *testing.T) {
			c := newClumsy(t, 0, newShelf(calm))
			c.expect(t, 201, "PUT", instances+"i", bodyOf(now, ""))
			c.expect(t, 201, "PUT", instances+"i/service_bindings/b", bodyOf(now, ""))
			c.store.left = n + 1
			begun, err := c.UnbindFailed(context.Background(), keyOf("i").Instance)
			if !errors.Is(err, errStore) || len(begun) > 0 || c.store.call != call {
				t.Errorf("%s has failed: got %v, %v, want the error of the store", c.store.call, begun, err)
			}
		})
	}
}

// A forgetful store can't say which bindings an instance has.
type forgetful struct{ *sqlite.Store }

func (forgetful) HeldBindings(context.Context, osb.ID) ([]osb.ID, error) { return nil, errStore }

// If the broker can't delete the bindings whose creation has failed, that is reported, and the platform is answered.
func TestFailedBindingsThatAreNotDeleted(t *testing.T) {
	b := newBench(t, newShelf(calm), newMemoryLocks())
	service := broker.NewService(
		catalogueFor(t, catalogue), forgetful{b.store}, newShelf(calm), newMemoryLocks(), broker.ServiceOptions{}, b.observed)
	handler := handlerFor(t, service)
	handler.Observer = b.observed
	l := &loneBroker{bench: b, handler: handler}
	l.expect(t, 201, "PUT", instances+"i", bodyOf(now, ""))
	l.expect(t, 201, "PUT", instances+"i/service_bindings/b", bodyOf(now, ""))
	l.expect(t, 422, "DELETE", instances+"i"+names(now), "")
	if got := b.observed.failures; len(got) != 1 || got[0].Event != "failed_binding_not_deleted" || !errors.Is(got[0].Err, errStore) {
		t.Errorf("got %+v, want failed_binding_not_deleted with the error of the store", got)
	}
	l.handler = handlerFor(t, b.Service)
	l.handler.Observer = b.observed
	l.expect(t, 422, "DELETE", instances+"i"+names(now), "")
	if got := b.observed.failures; len(got) != 1 {
		t.Errorf("with a store that can say it: got %+v, want no further failure", got)
	}
}

// A store that fails at any one call ends a TakeUp with the error, and the next one does the work.
func TestTakeUpOverAStoreThatFails(t *testing.T) {
	for n, failed := 1, "none yet"; failed != ""; n++ {
		backend := &blind{shelf: newShelf(calm)}
		c := newClumsy(t, 0, backend)
		key := c.leave(t, backend, "i")
		c.store.left = n
		err := c.TakeUp(context.Background(), key)
		if failed = c.store.call; errors.Is(err, errStore) != (failed != "") {
			t.Errorf("call %d of the store, %s, has failed: got %v, want an error exactly then", n, failed, err)
		}
		c.store.left = 0
		check(t, c.TakeUp(context.Background(), key))
		if c.isPending(t, key) || backend.there(key) != broker.Whole {
			t.Errorf("after %s has failed: got %v, want the instance, and nothing pending", failed, backend.there(key))
		}
	}
}

// A sweep that can't read what is unfinished is reported, and the next one finds it.
func TestSweepOverAStoreThatFails(t *testing.T) {
	backend := &blind{shelf: newShelf(calm)}
	c := newClumsy(t, 0, backend)
	key := c.leave(t, backend, "left")
	c.store.left = 1
	end := runSweeper(t, broker.NewSweeper(c.Service, c.observed), nil, nil)
	defer end()
	for until := time.Now().Add(time.Minute); c.isPending(t, key); time.Sleep(time.Millisecond) {
		if time.Now().After(until) {
			t.Fatal("got it pending after the time for it, want its end")
		}
	}
	if failed := c.observed.failures[0]; failed.Event != "unfinished_unreadable" || !errors.Is(failed.Err, errStore) {
		t.Errorf("got %+v, want unfinished_unreadable", failed)
	}
}

// A ground is a folder with the stores and the folders of a test.
type ground struct {
	t   *testing.T
	top string
}

func newGround(t *testing.T) ground { return ground{t, t.TempDir()} }

func (g ground) store(name string) *sqlite.Store {
	g.t.Helper()
	store, err := sqlite.Open(context.Background(), filepath.Join(g.top, name), broker.Silent{})
	g.check(err)
	g.t.Cleanup(func() { _ = store.Close() })
	return store
}

func (g ground) folders(name string) *folders.Folders {
	g.t.Helper()
	made, err := folders.New(filepath.Join(g.top, name))
	g.check(err)
	return made
}

func (g ground) check(err error) {
	g.t.Helper()
	check(g.t, err)
}

func (g ground) tie(store broker.NamedStore, backend broker.Backend) {
	g.t.Helper()
	g.check(broker.Tie(context.Background(), store, backend, false))
}

// checkParted checks that a store and a backend don't belong together.
func (g ground) checkParted(store broker.NamedStore, backend broker.Backend, says string) {
	g.t.Helper()
	err := broker.Tie(context.Background(), store, backend, false)
	if !errors.Is(err, broker.ErrParted) || !strings.Contains(err.Error(), says) {
		g.t.Errorf("got %v, want %q", err, says)
	}
}

func (g ground) name(store broker.NamedStore) string {
	g.t.Helper()
	name, err := store.Name(context.Background())
	g.check(err)
	return name
}

func (g ground) owner(backend broker.TiedBackend) string {
	g.t.Helper()
	owner, err := backend.Owner(context.Background())
	g.check(err)
	return owner
}

// fill puts an instance into a store.
func (g ground) fill(store broker.NamedStore) {
	g.t.Helper()
	key := keyOf("i")
	request := osb.Request{Kind: osb.KindProvision, ID: key.Instance, Service: id("a0"), Plan: id("c1")}
	g.check(store.Change(context.Background(), key, func(broker.Snapshot) (*broker.Entry, error) {
		holding, _, err := osb.Holding{}.Begin(osb.ModeSync, request, osb.Rules{})
		return &broker.Entry{Holding: holding}, err
	}))
}

// A new store and new folders are tied for good.
func TestTie(t *testing.T) {
	g := newGround(t)
	g.tie(g.store("a"), g.folders("here"))
	name := g.name(g.store("a"))
	if owner := g.owner(g.folders("here")); name == "" || owner != name {
		t.Fatalf("got the store %q and the owner %q, want one name", name, owner)
	}
	g.fill(g.store("a"))
	for _, mustExist := range []bool{false, true} {
		g.check(broker.Tie(context.Background(), g.store("a"), g.folders("here"), mustExist))
	}
	diff.Equal(t, g.name(g.store("a")), name, "the name")
}

// Folders of one store are refused to any other: a new one, and one with folders and instances of its own.
func TestTieOfAnotherStore(t *testing.T) {
	g := newGround(t)
	g.tie(g.store("a"), g.folders("here"))
	name := g.name(g.store("a"))
	g.checkParted(g.store("b"), g.folders("here"), "belong to the store "+name)
	g.tie(g.store("c"), g.folders("there"))
	g.fill(g.store("c"))
	g.checkParted(g.store("c"), g.folders("here"), "belong to the store "+name)
	diff.Equal(t, g.owner(g.folders("here")), name, "the owner")
}

// A store is tied to one backend alone, also while it has no instances.
func TestTieOfAnotherBackend(t *testing.T) {
	g := newGround(t)
	g.tie(g.store("a"), g.folders("here"))
	for round := 0; round < 2; round++ {
		g.checkParted(g.store("a"), g.folders("there"), "has begun with other resources")
		diff.Equal(t, g.owner(g.folders("there")), "", "the owner of the folders")
		g.fill(g.store("a"))
	}
}

// A tie that was interrupted goes on: the store has its name, and perhaps the folders have it.
func TestTieThatWasInterrupted(t *testing.T) {
	for _, isOwned := range []bool{false, true} {
		t.Run(fmt.Sprintf("owned %t", isOwned), func(t *testing.T) {
			g, ctx := newGround(t), context.Background()
			name, err := g.store("a").Begin(ctx, "a-name")
			g.check(err)
			if isOwned {
				_, err := g.folders("here").Own(ctx, name)
				g.check(err)
			}
			g.check(broker.Tie(ctx, g.store("a"), g.folders("here"), true))
			if owner := g.owner(g.folders("here")); owner != "a-name" || g.name(g.store("a")) != owner {
				t.Errorf("the owner: got %q, want \"a-name\" and the name of the store", owner)
			}
			// It is noted that they are tied.
			g.checkParted(g.store("a"), g.folders("there"), "has begun with other resources")
		})
	}
}

// A slow backend waits when it is asked whose it is.
type slow struct {
	*folders.Folders
	asked, goOn chan struct{}
}

func (s slow) Owner(ctx context.Context) (string, error) {
	owner, err := s.Folders.Owner(ctx)
	s.asked <- struct{}{}
	<-s.goOn
	return owner, err
}

// Of two brokers that tie a new store to two backends at once, one waits for the other, and is refused.
func TestTwoTiesAtOnce(t *testing.T) {
	g := newGround(t)
	first := slow{g.folders("here"), make(chan struct{}), make(chan struct{})}
	second := slow{g.folders("there"), make(chan struct{}, 1), make(chan struct{})}
	close(second.goOn)
	tied, refused := make(chan error, 1), make(chan error, 1)
	one, other := g.store("a"), g.store("a")
	go func() { tied <- broker.Tie(context.Background(), one, first, false) }()
	soon(t, first.asked)
	go func() { refused <- broker.Tie(context.Background(), other, second, false) }()
	select {
	case <-second.asked:
		t.Error("got two that are being tied at once, want one after the other")
	case <-time.After(30 * time.Millisecond):
	}
	close(first.goOn)
	diff.NoError(t, soon(t, tied), "")
	diff.ErrorIs(t, soon(t, refused), broker.ErrParted, "the other has tied the store")
	diff.Equal(t, g.owner(g.folders("there")), "", "the owner of the second folders")
}

// A store with instances that was never tied, and folders of which nobody knows whose they are, as those of a copy.
func TestTieOfUnknownOwners(t *testing.T) {
	g := newGround(t)
	g.fill(g.store("a"))
	g.checkParted(g.store("a"), g.folders("here"), "has begun with other resources")
	here, instance := g.folders("here"), filepath.Join(g.top, "here", id("1").String())
	g.check(os.Mkdir(instance, 0o700))
	for round := 0; round < 2; round++ { // the first has given the store its name
		diff.Error(t, broker.Tie(context.Background(), g.store("b"), here, false), "the folders of an unknown owner")
		diff.Equal(t, g.owner(here), "", "the owner of the folders")
	}
	g.check(os.Remove(instance))
	g.tie(g.store("b"), here) // it wasn't noted that the store is tied
}

// A backend that keeps no name can't be distinguished from others like it, and doesn't replace one that does.
func TestUntied(t *testing.T) {
	g := newGround(t)
	for _, store := range []string{"a", "a", "b"} {
		g.tie(g.store(store), newShelf(calm))
	}
	diff.Equal(t, g.name(g.store("a")), broker.Untied, "the name")
	g.checkParted(g.store("a"), g.folders("here"), "another backend's")
	g.tie(g.store("c"), g.folders("here"))
	g.checkParted(g.store("c"), newShelf(calm), "another backend's")
}

// --existing refuses a new store, and changes neither it nor the backend.
func TestTieThatMustExist(t *testing.T) {
	g := newGround(t)
	for _, backend := range []broker.Backend{g.folders("here"), newShelf(calm)} {
		diff.ErrorIs(t, broker.Tie(context.Background(), g.store("a"), backend, true), broker.ErrParted,
			"the store is new")
	}
	if name, owner := g.name(g.store("a")), g.owner(g.folders("here")); name != "" || owner != "" {
		t.Errorf("got the store %q and the owner %q, want neither named", name, owner)
	}
}

// A late backend kept no name in earlier versions.
type late struct{ *folders.Folders }

func (late) IsLateTied() {}

// A store of an earlier version, in which the backend wasn't tied, is tied to the first backend, and to no other.
func TestLateTie(t *testing.T) {
	g := newGround(t)
	for _, store := range []string{"a", "b"} {
		g.tie(g.store(store), newShelf(calm))
		g.fill(g.store(store))
	}
	for round := 0; round < 2; round++ {
		g.tie(g.store("a"), late{g.folders("here")})
	}
	name := g.name(g.store("a"))
	if owner := g.owner(g.folders("here")); owner != name || name == broker.Untied {
		t.Errorf("got the store %q and the owner %q, want one name", name, owner)
	}
	g.checkParted(g.store("a"), late{g.folders("there")}, "has begun with other resources")
	g.checkParted(g.store("b"), late{g.folders("here")}, "belong to the store "+name)
	g.checkParted(g.store("a"), newShelf(calm), "another backend's")
	g.tie(g.store("b"), late{g.folders("elsewhere")})
	g.tie(g.store("c"), late{g.folders("new")})
	if name := g.name(g.store("c")); strings.HasPrefix(name, broker.Untied) {
		t.Errorf("the name of a new store: got %q, want one that is tied", name)
	}
}

// A late tie that was interrupted goes on, with late backends alone.
func TestLateTieThatWasInterrupted(t *testing.T) {
	for _, isOwned := range []bool{false, true} {
		t.Run(fmt.Sprintf("owned %t", isOwned), func(t *testing.T) {
			g, ctx := newGround(t), context.Background()
			g.tie(g.store("a"), newShelf(calm))
			g.fill(g.store("a"))
			name, err := g.store("a").Begin(ctx, broker.UntiedBefore+"x")
			g.check(err)
			if isOwned {
				_, err := g.folders("here").Own(ctx, name)
				g.check(err)
			}
			g.checkParted(g.store("a"), g.folders("there"), "another backend's")
			g.tie(g.store("a"), late{g.folders("here")})
			if owner := g.owner(g.folders("here")); owner != broker.UntiedBefore+"x" || g.name(g.store("a")) != owner {
				t.Errorf("the owner: got %q, want that before and the name of the store", owner)
			}
			g.checkParted(g.store("a"), late{g.folders("there")}, "has begun with other resources")
		})
	}
}

// A nameless store can't be given a name.
type nameless struct{ broker.NamedStore }

var errDiskFull = errors.New("the disk is full")

func (nameless) Begin(context.Context, string) (string, error) { return "", errDiskFull }

// A store that can't be given a name is tied to nothing.
func TestTieOfAStoreWithoutAName(t *testing.T) {
	g := newGround(t)
	backend := g.folders("here")
	diff.ErrorIs(t, broker.Tie(context.Background(), nameless{g.store("a")}, backend, false), errDiskFull, "")
	diff.Equal(t, g.owner(backend), "", "the owner of the folders")
	g.tie(g.store("a"), backend) // later it is tied
}

var errTie = errors.New("it fails")

// A failingTie is a store and a backend of which one call fails.
type failingTie struct {
	broker.NamedStore
	*folders.Folders
	at string
}

func (f failingTie) fails(at string) error {
	if f.at == at {
		return errTie
	}
	return nil
}

func (f failingTie) Name(ctx context.Context) (string, error) {
	if err := f.fails("Name"); err != nil {
		return "", err
	}
	return f.NamedStore.Name(ctx)
}

func (f failingTie) Begin(ctx context.Context, name string) (string, error) {
	if err := f.fails("Begin"); err != nil {
		return "", err
	}
	return f.NamedStore.Begin(ctx, name)
}

func (f failingTie) Owner(ctx context.Context) (string, error) {
	if err := f.fails("Owner"); err != nil {
		return "", err
	}
	return f.Folders.Owner(ctx)
}

func (f failingTie) Own(ctx context.Context, name string) (string, error) {
	if err := f.fails("Own"); err != nil {
		return "", err
	}
	return f.Folders.Own(ctx, name)
}

func (f failingTie) IsLateTied() {}

// A call that fails ends Tie with its error, of a new store and of one that was untied. Later they are tied.
func TestTieThatFails(t *testing.T) {
	for _, isUntied := range []bool{false, true} {
		for _, at := range []string{"Name", "Begin", "Owner", "Own"} {
			t.Run(fmt.Sprintf("%s, untied %t", at, isUntied), func(t *testing.T) {
				g := newGround(t)
				store, backend := g.store("a"), g.folders("here")
				if isUntied {
					_, err := store.Begin(context.Background(), broker.Untied)
					g.check(err)
				}
				failing := failingTie{store, backend, at}
				diff.ErrorIs(t, broker.Tie(context.Background(), failing, failing, false), errTie,
					"%s fails, untied %t", at, isUntied)
				diff.Equal(t, g.owner(backend), "", "%s fails, untied %t: the owner", at, isUntied)
				failing.at = ""
				g.check(broker.Tie(context.Background(), failing, failing, false))
			})
		}
	}
}
