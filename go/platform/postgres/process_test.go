package postgres_test

import (
	"bufio"
	"fmt"
	"io"
	"os"
	"os/exec"
	"testing"
	"time"

	"pippinterm/internal/diff"
	"pippinterm/internal/pg/pgtest"
	"pippinterm/osb"
	"pippinterm/platform"
	"pippinterm/platform/postgres"
	"pippinterm/platform/storetest"
)

// urlVariable makes the test binary another process of a test: it claims all rows of the store of this URL, and prints
// the numbers of those that it got.
const urlVariable = "OSB_PLATFORM_TEST_CLAIM"

func TestMain(m *testing.M) {
	url := os.Getenv(urlVariable)
	if url == "" {
		os.Exit(inDatabase(m))
	}
	if err := claimAll(url); err != nil {
		fmt.Fprintln(os.Stderr, err)
		os.Exit(1)
	}
}

// claimAll waits for a line before its first claim and before the others, so that two processes claim at once.
func claimAll(url string) error {
	store, err := postgres.Open(background, url, 2)
	if err != nil {
		return err
	}
	defer store.Close()
	in := bufio.NewReader(os.Stdin)
	for n, word := range []string{"open", "begun"} {
		fmt.Println(word)
		if _, err := in.ReadString('\n'); err != nil {
			return err
		}
		for {
			count, err := claimSome(store)
			if err != nil {
				return err
			}
			if n == 0 || count == 0 {
				break
			}
		}
	}
	return nil
}

// claimSome claims some rows, and prints their keys.
func claimSome(store platform.Store) (int, error) {
	worker := fmt.Sprint("process ", os.Getpid())
	claimed, err := store.Claim(background, []string{"one"}, 3,
		storetest.Edit(func(e *platform.Entry, now time.Time) {
			e.Lease = platform.Lease{Worker: worker, Until: now.Add(time.Hour)}
		}))
	for _, row := range claimed {
		if row.Err != nil {
			return 0, row.Err
		}
		fmt.Println(row.Key)
	}
	return len(claimed), err
}

// Of two processes that claim at once, each row goes to one.
func TestTwoProcesses(t *testing.T) {
	url := schemaNamed(t, "osb_platform_processes")
	store := open(t, url)
	defer store.Close()
	const rows = 100
	for n := 0; n < rows; n++ {
		insert(t, store, instance(n), binding(n, n))
	}
	processes := []*process{start(t, url), start(t, url)}
	taken := map[string]int{}
	for _, word := range []string{"open", "begun", ""} {
		for _, process := range processes {
			for _, key := range process.until(t, word) {
				taken[key]++
			}
		}
		for _, process := range processes {
			if word != "" {
				process.release(t)
			}
		}
	}
	for _, process := range processes {
		diff.NoError(t, process.command.Wait(), "")
	}
	// Two claims that have each locked a row of the other return nothing. So some rows may be left.
	for _, key := range claimFor(t, store, "the last", 2*rows) {
		taken[key.String()]++
	}
	diff.Equal(t, len(taken), 2*rows, "rows claimed")
	for key, count := range taken {
		diff.Equal(t, count, 1, "%s: claims", key)
	}
}

// A process is one that claims all rows.
type process struct {
	command *exec.Cmd
	in      io.Writer
	lines   *bufio.Scanner
}

func start(t *testing.T, url string) *process {
	t.Helper()
	command := exec.Command(os.Args[0])
	command.Env = append(os.Environ(), urlVariable+"="+url)
	command.Stderr = os.Stderr
	in := diff.Value(command.StdinPipe())(t)
	out := diff.Value(command.StdoutPipe())(t)
	check(t, command.Start())
	t.Cleanup(func() { _ = command.Process.Kill() })
	return &process{command: command, in: in, lines: bufio.NewScanner(out)}
}

// until returns the keys that the process has printed before a word, or before the end of its output if that is empty.
func (p *process) until(t *testing.T, word string) (keys []string) {
	t.Helper()
	for p.lines.Scan() {
		if p.lines.Text() == word {
			return keys
		}
		keys = append(keys, p.lines.Text())
	}
	if word != "" {
		t.Fatalf("got the end of the process, want %q first", word)
	}
	return keys
}

// release has the process go on.
func (p *process) release(t *testing.T) {
	t.Helper()
	diff.Value(io.WriteString(p.in, "\n"))(t)
}

// The time that a step decides by is read after its rows are locked. A worker that has waited, or was paused before it
// held the lock, doesn't decide by an old time.
func TestTheTimeOfAStep(t *testing.T) {
	for n, test := range []struct {
		name  string
		locks string // what another transaction holds
		key   platform.Key
	}{
		{"an instance", "SELECT FROM osb_instances FOR KEY SHARE", instance(1)},
		{"an instance that is changed", "UPDATE osb_instances SET tries = 7", instance(1)},
		{"the instance of a binding", "SELECT FROM osb_instances FOR UPDATE", binding(1, 1)},
		{"the instance of a binding that is changed", "UPDATE osb_instances SET tries = 7 WHERE id IN " +
			"(SELECT id FROM osb_instances FOR UPDATE)", binding(1, 1)},
		{"a binding", "SELECT FROM osb_bound FOR UPDATE", binding(1, 1)},
		{"a binding that is changed", "UPDATE osb_bound SET tries = 7", binding(1, 1)},
	} {
		t.Run(test.name, func(t *testing.T) {
			name := fmt.Sprintf("osb_platform_time_%d", n)
			url := schemaNamed(t, name)
			store, tx := open(t, url), begin(t, url)
			defer store.Close()
			insert(t, store, instance(1), binding(1, 1))
			run(t, tx, test.locks)
			done, now := make(chan error, 1), time.Time{}
			go func() {
				step := storetest.Edit(func(e *platform.Entry, at time.Time) {
					now = at
				})
				done <- store.Change(background, test.key, step)
			}()
			await(t, pgtest.DB(t, pgtest.URL(t)), "the step waits", isWaiting, name)
			var released float64
			check(t, tx.QueryRow("SELECT date_part('epoch', clock_timestamp())").Scan(&released))
			check(t, tx.Commit())
			check(t, <-done)
			diff.AtLeast(t, float64(now.UnixMicro())/1e6, released-1e-6, "the time")
		})
	}
}

// A worker that is paused between two statements of a transaction keeps no other one from claiming what it hasn't
// locked. When its transaction has been idle for too long, the server ends it: the rows are free, and it writes
// nothing, whatever it has decided.
func TestAWorkerThatIsPaused(t *testing.T) {
	t.Parallel()
	for n, test := range []struct {
		name string
		work func(platform.Store, platform.Step) error
	}{
		{"in a claim", func(store platform.Store, step platform.Step) error {
			_, err := store.Claim(background, []string{"one"}, 2, step)
			return err
		}},
		{"in a change", func(store platform.Store, step platform.Step) error {
			return store.Change(background, binding(1, 1), step)
		}},
	} {
		it, n := test, n
		t.Run(it.name, func(t *testing.T) {
			t.Parallel()
			url := schemaNamed(t, fmt.Sprintf("osb_platform_pause_%d", n))
			paused, other := open(t, url), open(t, url)
			defer paused.Close()
			defer other.Close()
			insert(t, paused, instance(1), binding(1, 1), instance(2), instance(3))
			gate, done := storetest.NewGate(), make(chan error, 1)
			defer gate.Open()
			go func() {
				done <- it.work(paused, storetest.Edit(func(e *platform.Entry, now time.Time) {
					gate.Pass()
					e.Lease = platform.Lease{Worker: "paused", Until: now.Add(time.Hour)}
				}))
			}()
			gate.Await(t, done)
			keys := claimFor(t, other, "other", 10)
			if len(keys) == 0 || len(keys) == 4 { // all, if it waited for the end of the session
				t.Errorf("the other worker: got %v claimed, want some, and not all", keys)
			}
			left := 4 - len(keys)
			await(t, pgtest.DB(t, pgtest.URL(t)), "the server ends the session", "SELECT NOT EXISTS "+
				"(SELECT FROM pg_stat_activity WHERE application_name = $1 AND state = 'idle in transaction')",
				fmt.Sprintf("osb_platform_pause_%d", n))
			keys = claimFor(t, other, "other", 10)
			diff.Equal(t, len(keys), left, "claimed after the end of the session")
			gate.Open()
			diff.ErrorIs(t, <-done, platform.ErrAway, "the paused worker")
			for _, key := range []platform.Key{instance(1), binding(1, 1), instance(2), instance(3)} {
				diff.Equal(t, diff.Value(other.Read(background, key))(t).Lease.Worker, "other", "%v", key)
			}
			diff.NoError(t, paused.Ready(background), "") // it goes on, with another session
		})
	}
}

// claimFor leases rows for a worker.
func claimFor(t testing.TB, store platform.Store, worker string, most int) (keys []platform.Key) {
	t.Helper()
	claimed, err := store.Claim(background, []string{"one"}, most,
		storetest.Edit(func(e *platform.Entry, now time.Time) {
			e.Lease = platform.Lease{Worker: worker, Until: now.Add(time.Hour)}
		}))
	diff.Must(t, err)
	for _, row := range claimed {
		keys = append(keys, row.Key)
		diff.NoError(t, row.Err, "%v", row.Key)
	}
	return keys
}

// A worker that is paused between its claim and its change has lost its lease, and another one has gone on. Its change
// reads what the other has written.
func TestAWorkerThatIsPausedBetweenTransactions(t *testing.T) {
	url := schemaNamed(t, "osb_platform_between")
	paused, other := open(t, url), open(t, url)
	defer paused.Close()
	defer other.Close()
	insert(t, paused, instance(1))
	step := func(worker string) platform.Step {
		return storetest.Edit(func(e *platform.Entry, now time.Time) {
			e.Unchanged++
			e.Lease = platform.Lease{Worker: worker, Until: now.Add(-time.Second)} // it is over at once
		})
	}
	for _, test := range []struct {
		store  platform.Store
		worker string
	}{{paused, "paused"}, {other, "other"}} {
		claimed := diff.Value(test.store.Claim(background, []string{"one"}, 1, step(test.worker)))(t)
		diff.Len(t, claimed, 1, "%s", test.worker)
	}
	err := paused.Change(background, instance(1), func(_ time.Time, snapshot platform.Snapshot) (*platform.Change, error) {
		diff.Equal(t, snapshot.Lease.Worker, "other", "the change: worker")
		diff.Equal(t, snapshot.Unchanged, 2, "the change: unchanged")
		return nil, nil
	})
	diff.NoError(t, err, "")
}

// If the row of its instance is locked, a binding is passed over, and its row isn't locked. Otherwise two claims that
// remove bindings could wait for each other.
func TestABindingWhoseInstanceIsLocked(t *testing.T) {
	url := schemaNamed(t, "osb_platform_order")
	store, tx := open(t, url), begin(t, url)
	defer store.Close()
	insert(t, store, instance(1), binding(1, 1), instance(2), binding(2, 2))
	run(t, tx, "SELECT FROM osb_instances WHERE id = $1 FOR UPDATE", id(1))
	isChecked := false
	claimed, err := store.Claim(background, []string{"one"}, 10,
		func(_ time.Time, snapshot platform.Snapshot) (*platform.Change, error) {
			if !isChecked {
				run(t, tx, "SELECT FROM osb_bound WHERE id = $1 FOR UPDATE NOWAIT", id(1))
			}
			isChecked = true
			return nil, nil
		})
	if err != nil || len(claimed) != 2 || !isChecked {
		t.Errorf("got %v claimed, %v, want 2, of which one is checked", claimed, err)
	}
}

// A claim waits for no row, not even for one that is changed and then locked.
func TestABindingWhoseInstanceIsChangedAndLocked(t *testing.T) {
	url := schemaNamed(t, "osb_platform_versions")
	store, tx := open(t, url), begin(t, url)
	defer store.Close()
	insert(t, store, instance(1), binding(1, 1), instance(2), binding(2, 2))
	run(t, tx, "UPDATE osb_instances SET tries = 7 WHERE id = $1", id(1))
	run(t, tx, "SELECT FROM osb_instances WHERE id = $1 FOR UPDATE", id(1))
	claimed := diff.Value(store.Claim(background, []string{"one"}, 10, count(new(int))))(t)
	diff.Equal(t, len(claimed), 2, "claimed")
}

// A binding is sent, and then its instance is stepped in the same claim: the binding may exist, though the database
// doesn't have it yet.
func TestAnInstanceBehindItsBinding(t *testing.T) {
	store := open(t, schemaNamed(t, "osb_platform_behind"))
	defer store.Close()
	insert(t, store, instance(1), instance(2), binding(1, 1), binding(2, 2))
	for n, key := range []platform.Key{binding(1, 1), binding(2, 2), instance(1), instance(2)} {
		check(t, store.Change(background, key, storetest.Edit(func(e *platform.Entry, _ time.Time) {
			e.Due = at(n)
		})))
	}
	claimed, err := store.Claim(background, []string{"one"}, 10,
		func(_ time.Time, snapshot platform.Snapshot) (*platform.Change, error) {
			switch snapshot.Key {
			case binding(1, 1):
				snapshot.Entry.State, snapshot.Entry.IsSent, snapshot.Entry.Record = platform.Wanted, true, wantedBinding(t)
				return &platform.Change{Entry: snapshot.Entry}, nil
			case instance(1), instance(2):
				is := diff.Value(snapshot.AllGone())(t)
				diff.Equal(t, is, snapshot.Key == instance(2), "the bindings of %v", snapshot.Key)
			}
			return nil, nil
		})
	diff.NoError(t, err, "")
	diff.Equal(t, len(claimed), 4, "claimed")
}

func wantedBinding(t *testing.T) osb.Record {
	t.Helper()
	wanted, sent := osb.Create(id(1), osb.MustParseID(theService), osb.MustParseID(thePlan), true)
	ready := diff.Value(wanted.Answer(sent.Attempt, osb.Answer{Status: 201, Body: osb.BodyEmpty}))(t)
	record, _, err := ready.CreateBinding(id(1), true)
	check(t, err)
	return record
}

// Many steps of bindings of an instance run at once, and each may wake the instance. None is undone and tried again.
func TestBindingsThatWakeAtOnce(t *testing.T) {
	url := schemaNamed(t, "osb_platform_wake")
	stores := []platform.Store{open(t, url), open(t, url)}
	insert(t, stores[0], instance(1))
	check(t, stores[0].Change(background, instance(1), storetest.Edit(func(e *platform.Entry, _ time.Time) {
		e.Removal, e.Due = platform.Removed, time.Time{}
	})))
	const steps = 4
	gate, done := storetest.NewGate(), make(chan error, steps)
	defer gate.Open()
	for n := 0; n < steps; n++ {
		insert(t, stores[0], binding(n, 1))
		go func(n int) {
			done <- stores[n%2].Change(background, binding(n, 1),
				func(_ time.Time, snapshot platform.Snapshot) (*platform.Change, error) {
					gate.Pass()
					return &platform.Change{Entry: snapshot.Entry, WakeInstance: true}, nil
				})
		}(n)
	}
	for n := 0; n < steps; n++ {
		gate.Await(t, done)
	}
	gate.Open()
	for n := 0; n < steps; n++ {
		diff.NoError(t, <-done, "")
	}
	diff.Equal(t, gate.Steps(), 0, "steps tried again")
	for _, store := range stores {
		diff.NoError(t, store.Close(), "")
	}
}
