package run

import (
	"context"
	"errors"
	"fmt"
	"os"
	"path/filepath"
	"strings"
	"sync"
	"testing"
	"time"

	"pippinterm/internal/diff"
	"pippinterm/platform"
	"pippinterm/platform/sqlite"
	"pippinterm/storm/fault"
	"pippinterm/storm/run/audit"
	"pippinterm/storm/run/goods"
)

// commandsOver returns commands of a platform that is a script of the shell, over a store in which an instance one is
// ordered. The script gets its arguments in the file calls of the folder.
func commandsOver(t *testing.T, script string) (c *commands, one Key, folder string) {
	t.Helper()
	folder = t.TempDir()
	store := diff.Value(sqlite.Open(context.Background(), filepath.Join(folder, "store")))(t)
	t.Cleanup(func() { _ = store.Close() })
	book := book{
		service: goods.Service, plan: func(Key) string { return goods.AtOnce }, store: store,
		orders: platform.NewOrders(store, nil),
	}
	broker := platform.Broker{
		Name: brokerName, URL: "http://127.0.0.1:1", User: "platform", Catalogue: goods.Document(), CatalogueAt: time.Now(),
	}
	check(t, store.AddBroker(context.Background(), broker))
	one = Key{Instance: "00000000-0000-4000-8000-000000000001"}
	check(t, book.Create(context.Background(), one))
	program := filepath.Join(folder, "program")
	text := "#!/bin/sh\ncd " + folder + "\necho \"$*\" >>calls\n" + script + "\n"
	check(t, os.WriteFile(program, []byte(text), 0o700))
	noted := &notedBook{book: book, events: silentEvents(), states: map[Key]platform.State{}}
	return newCommands(noted, fault.Chance(1, "test"), []string{program}, []string{"--journal", "j"}, os.Environ()), one, folder
}

// What an operator asks for is a command, and the commands whose changes are events of the model write a journal.
func TestCommandLines(t *testing.T) {
	t.Parallel()
	c, one, folder := commandsOver(t, "exit 0")
	ctx, bound := context.Background(), Key{Instance: one.Instance, Binding: "00000000-0000-4000-8000-000000000002"}
	c.triesOf = func(Key) int { return 3 }
	for _, call := range []func() error{
		func() error { return c.Create(ctx, one) }, func() error { return c.Remove(ctx, one, true) },
		func() error { return c.Remove(ctx, one, false) }, func() error { return c.Remove(ctx, bound, false) },
		func() error { return c.Retry(ctx, one) },
	} {
		diff.NoError(t, call(), "")
	}
	if err := c.Bind(ctx, bound); err == nil { // the script writes no order
		t.Error("the binding: got no error, want one")
	}
	text := diff.Value(os.ReadFile(filepath.Join(folder, "calls")))(t)
	i, b := one.Instance, bound.Binding
	wanted := fmt.Sprintf("create --id %s --service %s --plan %s --tries 3\nremove %s --bindings\nremove %s\nunbind %s/%s\n"+
		"retry %s --journal j\nbind %s --id %s --parameters {\"role\": \"reader\"} --tries 3\n", i, goods.Service,
		goods.AtOnce, i, i, i, b, i, i, b)
	diff.Equal(t, string(text), wanted, "the calls")
}

// If the records aren't what a command has reported, that is wrong.
func TestCommandsThatLie(t *testing.T) {
	t.Parallel()
	ctx, other := context.Background(), Key{Instance: "00000000-0000-4000-8000-000000000009"}
	for script, test := range map[string]struct {
		call  func(*commands, Key) error
		fails bool
		wrong string
	}{
		"exit 0 ": {func(c *commands, one Key) error { return c.Create(ctx, one) }, false, ""},
		"exit 1 ": {func(c *commands, _ Key) error { return c.Create(ctx, other) }, true, ""},
		"exit 0":  {func(c *commands, _ Key) error { return c.Create(ctx, other) }, true, "an order is lost: create"},
		"exit 1": {func(c *commands, one Key) error { return c.Create(ctx, one) }, false,
			"an order was rejected, and is written: create"},
		"exit 9": {func(c *commands, one Key) error { return c.Remove(ctx, one, false) }, true, "has ended with 9"},
		"exit 0  ": {func(c *commands, one Key) error { return c.Abandon(ctx, one) }, true,
			"0001 was abandoned, and is ordered"},
		"exit 1  ": {func(c *commands, one Key) error { return c.Abandon(ctx, one) }, true, ""},
		"[ -e away ] || { touch away; exit 75; }; exit 1": {
			func(c *commands, one Key) error { return c.Create(ctx, one) }, false, ""}, // the first call may have written it
	} {
		t.Run(script, func(t *testing.T) {
			c, one, _ := commandsOver(t, script)
			err := test.call(c, one)
			if odd := strings.Join(c.oddities(), "\n"); (err != nil) != test.fails || !strings.Contains(odd, test.wrong) ||
				(odd == "") != (test.wrong == "") {
				t.Errorf("%s: got %v and odd %q, want %q", script, err, odd, test.wrong)
			}
		})
	}
}

// A command that is killed at a crash point is run again, and both crash points are visited. An order that was written
// before the kill must not be taken once more.
func TestCommandsAreKilled(t *testing.T) {
	t.Parallel()
	c, one, _ := commandsOver(t, `[ -z "$OSB_CRASH_AT" ] || kill -9 $$
exit 1`)
	_, _, unvisited := c.points()
	diff.Equal(t, len(unvisited), 2, "crash points to be visited: %v", unvisited)
	c.kill(true)
	for try := 0; try < 60; try++ {
		_ = c.Create(context.Background(), one)
	}
	kills, visited, unvisited := c.points()
	if kills < 3 || kills > 20 || len(visited) != 2 || len(unvisited) != 0 {
		t.Errorf("got %d kills, and %v visited, want 3 to 20, and 2", kills, visited)
	}
	c, one, _ = commandsOver(t, `[ "$OSB_CRASH_AT" != order-written ] || kill -9 $$
exit 0`)
	c.kill(true)
	for try := 0; try < 60; try++ {
		_ = c.Create(context.Background(), one)
	}
	if odd := c.oddities(); len(odd) == 0 || !strings.Contains(odd[0], "an id was used twice: create") {
		t.Errorf("got %v, want that an id was used twice", odd)
	}
}

// What the operator has ordered is seen in the records at the end.
func TestUndone(t *testing.T) {
	t.Parallel()
	key := func(n int) Key { return Key{Instance: fmt.Sprint(n)} }
	c := newCommands(nil, nil, nil, nil, nil)
	records := map[Key]Record{}
	for n, state := range []platform.State{audit.Ready, audit.Gone, platform.Withdrawn, platform.Abandoned, platform.Cleaning} {
		records[key(n)] = Record{State: state, Known: true}
		c.deeds.removed[key(n)] = true
	}
	c.deeds.ordered[key(0)], c.deeds.ordered[key(9)] = true, true
	c.deeds.abandoned[key(3)], c.deeds.abandoned[key(4)] = true, true
	var found []string
	for _, difference := range c.missingDeeds(records) {
		found = append(found, difference.Key.Instance+" "+difference.What)
	}
	wanted := "0 it was to be removed, and its record says ready; 4 it was to be removed, and its record says cleaning; " +
		"4 it was abandoned, and its record says cleaning; 9 it was ordered, and the platform has no record"
	diff.Equal(t, strings.Join(found, "; "), wanted, "")
}

// memory is an Orders whose records rest at once: what is created in the state created, and what is removed as gone.
type memory struct {
	created platform.State
	rejects bool

	mutex   sync.Mutex
	records map[Key]Record
	calls   []string
}

func (m *memory) set(call string, key Key, state platform.State) error {
	m.mutex.Lock()
	defer m.mutex.Unlock()
	m.calls = append(m.calls, strings.TrimRight(fmt.Sprintf("%s %s/%s", call, key.Instance, key.Binding), "/"))
	if m.rejects {
		return errors.New("no")
	}
	if m.records == nil {
		m.records = map[Key]Record{}
	}
	m.records[key] = recordIn(state)
	return nil
}

func (m *memory) Create(_ context.Context, key Key) error { return m.set("create", key, m.created) }
func (m *memory) Bind(_ context.Context, key Key) error   { return m.set("bind", key, audit.Ready) }

func (m *memory) Remove(_ context.Context, key Key, withBindings bool) error {
	if withBindings {
		return m.set("remove whole", key, audit.Gone)
	}
	return m.set("remove", key, audit.Gone)
}

func (m *memory) Record(_ context.Context, key Key) (Record, error) {
	m.mutex.Lock()
	defer m.mutex.Unlock()
	return m.records[key], nil
}

func (m *memory) Records(context.Context) (map[Key]Record, error) {
	m.mutex.Lock()
	defer m.mutex.Unlock()
	all := map[Key]Record{}
	for key, record := range m.records {
		all[key] = record
	}
	return all, nil
}

func operatorOf(m *memory) *operator {
	return &operator{
		orders: m, keys: newKeys(func(number int) string { return fmt.Sprint(number) }),
		events: silentEvents(), look: time.Millisecond,
	}
}

// The operator does what a life says.
func TestLive(t *testing.T) {
	for _, test := range []struct {
		name    string
		life    life
		created platform.State
		wanted  []string
	}{
		{"removed with its bindings", life{number: 7, bindings: 2, whole: true}, audit.Ready,
			[]string{"create 7", "bind 7/1", "bind 7/2", "remove whole 7"}},
		{"removed after its bindings", life{number: 7, bindings: 1}, audit.Ready,
			[]string{"create 7", "bind 7/1", "remove 7/1", "remove whole 7"}},
		{"stays", life{number: 7, bindings: 1, stays: true}, audit.Ready, []string{"create 7", "bind 7/1"}},
		{"removed early", life{number: 7, bindings: 1, early: true}, audit.Ready, []string{"create 7", "remove whole 7"}},
		{"not ready", life{number: 7, bindings: 1}, audit.Gone, []string{"create 7"}},
	} {
		t.Run(test.name, func(t *testing.T) {
			m := &memory{created: test.created}
			operatorOf(m).run(context.Background(), []life{test.life})
			diff.Check(t, m.calls, test.wanted, "the calls")
		})
	}
	rejecting := &memory{rejects: true}
	o := operatorOf(rejecting)
	o.run(context.Background(), []life{{number: 7, bindings: 1}})
	diff.Equal(t, len(rejecting.calls), 1, "calls")
	diff.Equal(t, len(o.events.list()), 2, "list")
	ended, end := context.WithCancel(context.Background())
	end()
	m := &memory{created: audit.Ready}
	operatorOf(m).run(ended, []life{{number: 7}})
	diff.Equal(t, operatorOf(m).remove(ended, one, false), false, "something is removed after the end")
	diff.Equal(t, len(m.calls), 0, "calls after the end: %q", m.calls)
}

// Everything has converged if each record rests, none waits for an operator, and no request is on its way.
func TestSettle(t *testing.T) {
	quiet, loud := func() bool { return true }, func() bool { return false }
	working := Record{State: "cleaning", Known: true}
	for _, test := range []struct {
		name    string
		record  Record
		isQuiet func() bool
		wanted  bool
		calls   int
	}{
		{"ready", recordIn("ready"), quiet, true, 0},
		{"on its way", recordIn("ready"), loud, false, 0},
		{"working", working, quiet, false, 0},
		{"unsettled", recordIn("unsettled"), quiet, true, 1},
	} {
		t.Run(test.name, func(t *testing.T) {
			m := &memory{records: map[Key]Record{one: test.record}}
			ctx, cancel := context.WithTimeout(context.Background(), 30*time.Millisecond)
			diff.Equal(t, operatorOf(m).settle(ctx, test.isQuiet), test.wanted, "%s: it has converged", test.name)
			diff.Equal(t, len(m.calls), test.calls, "%s: the calls %q", test.name, m.calls)
			cancel()
		})
	}
}

// The faults end once nothing has to happen any more, although lives would still begin.
func TestCourseEndsWhenDone(t *testing.T) {
	t.Parallel()
	begun, ends := time.Now(), make(chan struct{}, 1)
	k := newKeys(func(n int) string { return fmt.Sprint(n) })
	c := &course{
		orders: &memory{created: audit.Ready}, keys: k, events: silentEvents(), source: fault.BySeed(1, 0, nil),
		now: func() time.Duration { return time.Since(begun) }, isQuiet: func() bool { return true }, lookEach: time.Hour,
		lives: func(int) []life { return []life{{number: 1}, {number: 2, begin: time.Hour}} }, endsWhenDone: true,
		isDone: func() bool { return time.Since(begun) > doneEach/2 }, calm: func() { ends <- struct{}{} },
		time: time.Hour, settleTime: time.Second,
	}
	converged, _ := c.run(context.Background())
	if took := time.Since(begun); !converged || took > time.Minute || len(ends) != 1 || len(k.All()) != 1 {
		t.Errorf("got converged %v after %s and %d instances, want true within a minute and 1", converged, took, len(k.All()))
	}
}
