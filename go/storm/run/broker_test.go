package run

import (
	"context"
	"errors"
	"fmt"
	"net/http"
	"net/http/httptest"
	"os"
	"path/filepath"
	"reflect"
	"sort"
	"strings"
	"testing"
	"time"

	"pippinterm/internal/diff"
	"pippinterm/storm/conform"
	"pippinterm/storm/fault"
	"pippinterm/storm/stormtest"
)

func optionsFor(t *testing.T, url string) BrokerOptions {
	t.Helper()
	return BrokerOptions{
		Options: Options{
			Seed: 1, Share: 0.5, RequestTime: 200 * time.Millisecond, Late: 400 * time.Millisecond, Time: 5 * time.Second,
			SettleTime: 20 * time.Second, Folder: t.TempDir(),
		},
		Broker: conform.Options{
			URL: url, User: "platform", Password: password, Instances: 30, RequestTime: 5 * time.Second,
			OperationTime: 10 * time.Second, Pause: 50 * time.Millisecond,
		},
		CleanUpTime: 20 * time.Second,
	}
}

// optionsForModel returns a model, and the options of a storm against it.
func optionsForModel(t *testing.T, isAsync bool, wrong mistakes) (*model, BrokerOptions) {
	t.Helper()
	m, url := newModel(t, isAsync, wrong)
	return m, optionsFor(t, url)
}

func openStorm(t *testing.T, options BrokerOptions) *BrokerStorm {
	t.Helper()
	return diff.Value(NewBroker(options))(t)
}

func runStorm(t *testing.T, options BrokerOptions) *Report {
	t.Helper()
	storm := openStorm(t, options)
	return diff.Value(storm.Run(context.Background(), context.Background()))(t)
}

// storms is in how many storms a mistake must show at least once: on a busy machine other requests meet the faults.
const storms = 10

// inOneStorm calls look for each seed, until it returns "". It fails with what look has returned last.
func inOneStorm(t *testing.T, look func(seed int64) string) {
	t.Helper()
	var missing string
	for seed := int64(1); seed <= storms; seed++ {
		if missing = look(seed); missing == "" {
			return
		}
	}
	t.Errorf("got it in none of %d storms, want it in one: %s", storms, missing)
}

func textOf(t *testing.T, report *Report) string {
	t.Helper()
	return stormtest.TextOf(t, report.WriteText)
}

// A broker without a mistake loses nothing, whether what exists is listed or asked for by the standard.
func TestNothingLost(t *testing.T) {
	for _, isAsync := range []bool{false, true} {
		for _, isListed := range []bool{false, true} {
			isAsync, isListed := isAsync, isListed
			t.Run("", func(t *testing.T) {
				t.Parallel()
				stormtest.UntilEnough(t, stormtest.Tally{20, 5, 100, 30}, func(seed int64) stormtest.Tally {
					m, options := optionsForModel(t, isAsync, mistakes{})
					options.Seed, options.SettleTime, options.CleanUpTime = seed, time.Minute, time.Minute
					if isListed {
						options.Commands = m.commands()
					}
					report := runStorm(t, options)
					if !report.IsClean() || len(report.Broken) > 0 || len(report.Failed) > 0 || len(report.Leftovers) > 0 {
						t.Errorf("got\n%s\nwant a clean report with nothing broken, failed or left", textOf(t, report))
					}
					m.expectNothing(t)
					return stormtest.Tally{report.Instances, report.Bindings, report.Requests, len(report.Given)}
				})
			})
		}
	}
}

// Each mistake is found, and named: what is lost, and by which answers.
func TestMistakes(t *testing.T) {
	for _, test := range []struct {
		name    string
		isAsync bool
		wrong   mistakes
		lost    string // part of what the report says of a lost one
		false   string // part of what the report says of a false record
		broken  string // the case that an answer fails
	}{
		{"forgets-unread", false, mistakes{forgetsUnread: true}, "it exists, and its record says gone", "", ""},
		{"forgets-restart", true, mistakes{forgetsRestart: true}, "it exists, and its record says gone", "",
			"last-operation-state"},
		{"gone-while-making", true, mistakes{goneWhileMaking: true}, "its record says gone", "",
			"async-deprovision-during-provision"},
		{"creates-again", false, mistakes{createsAgain: true}, "exist", "", "provision-repeated"},
		{"too-early", true, mistakes{tooEarly: true}, "", "its record said ready, and it didn't exist", ""},
	} {
		test := test
		t.Run(test.name, func(t *testing.T) {
			t.Parallel()
			inOneStorm(t, func(seed int64) string {
				m, url := newModel(t, test.isAsync, test.wrong)
				if test.wrong.goneWhileMaking {
					m.takes = 4 * time.Second // the platform deletes once what is late has arrived
				}
				options := optionsFor(t, url)
				options.Seed, options.Commands = seed, m.commands()
				if test.wrong.forgetsRestart {
					options.Commands.Restart = "touch " + m.folder + "/restart"
				}
				report := runStorm(t, options)
				text := textOf(t, report)
				switch {
				case test.lost != "" && !strings.Contains(stormtest.Whats(report.Lost), test.lost):
					return fmt.Sprintf("nothing is lost because %q:\n%s", test.lost, text)
				case test.false != "" && !strings.Contains(stormtest.Whats(report.False), test.false):
					return fmt.Sprintf("no record is false because %q:\n%s", test.false, text)
				case test.broken != "" && !stormtest.HasViolation(report.Broken, test.broken):
					return fmt.Sprintf("no answer breaks %s:\n%s", test.broken, text)
				case report.IsClean():
					return "the report is clean"
				}
				return ""
			})
		})
	}
}

// Without a list command, what exists is found out by fetches, by last operations, or by deletions.
func TestByTheStandard(t *testing.T) {
	for wanted, wrong := range map[string]mistakes{
		"the broker was asked for each instance":      {unreadLater: true},
		"the broker was asked for the last operation": {unreadLater: true, blind: true},
		"only a deletion shows what exists":           {unreadLater: true, blind: true, mute: true},
	} {
		wanted, wrong := wanted, wrong
		t.Run(strings.ReplaceAll(wanted, " ", "-"), func(t *testing.T) {
			t.Parallel()
			var options BrokerOptions
			inOneStorm(t, func(seed int64) string {
				_, url := newModel(t, false, wrong)
				options = optionsFor(t, url)
				options.Seed, options.SettleTime = seed, 10*time.Second
				report := runStorm(t, options)
				if !strings.HasPrefix(report.Inventory, wanted) {
					t.Errorf("got %s, want %s", report.Inventory, wanted)
				}
				if !strings.Contains(stormtest.Whats(report.Lost), "it exists, and its record says gone") {
					return "nothing is lost:\n" + textOf(t, report)
				}
				return ""
			})
			wrong.unreadLater = false
			_, options.Broker.URL = newModel(t, false, wrong)
			if report := runStorm(t, options); !report.IsClean() {
				t.Errorf("without the mistake: got\n%s\nwant a clean report", textOf(t, report))
			}
		})
	}
}

// The list of faults is shrunk to the one fault that loses an instance, and that one loses it again.
func TestMinimize(t *testing.T) {
	t.Parallel()
	inOneStorm(t, func(seed int64) string {
		m, options := optionsForModel(t, false, mistakes{forgetsUnread: true})
		options.Seed, options.Commands, options.MinimizeTime = seed, m.commands(), time.Minute
		options.Broker.Instances = 15
		report := runStorm(t, options)
		if len(report.Minimal) != 1 || len(report.MinimalLost) == 0 {
			return fmt.Sprintf("%v is left:\n%s", report.Minimal, textOf(t, report))
		}
		list := listOf(t, stormtest.TextOf(t, report.WriteFaults))
		options.List, options.MinimizeTime = list, 0
		if again := runStorm(t, options); len(again.Lost) != 1 || len(again.Given) != 1 {
			return fmt.Sprintf("with %v, %s", list, textOf(t, again))
		}
		return ""
	})
}

// A broker without a catalogue can be tested if the service and the plan are given. The error says so.
func TestNoCatalogue(t *testing.T) {
	server := httptest.NewServer(http.NotFoundHandler())
	defer server.Close()
	storm := openStorm(t, optionsFor(t, server.URL))
	_, err := storm.Run(context.Background(), context.Background())
	diff.ErrorIs(t, err, conform.ErrNoPlan, "")
	diff.ErrorContains(t, err, "give --service and --plan with ids", "")
}

// At the first signal the storm ends, and everything is deleted, whatever was going on.
func TestCleanUpAfterSignal(t *testing.T) {
	t.Parallel()
	m, options := optionsForModel(t, true, mistakes{})
	options.Commands, options.Time, options.Broker.RequestTime = m.commands(), 15*time.Second, time.Second
	storm := openStorm(t, options)
	running, signal := context.WithCancel(context.Background())
	go func() {
		for len(m.list(t)) < 5 {
			time.Sleep(10 * time.Millisecond)
		}
		signal()
	}()
	begun := time.Now()
	report, err := storm.Run(running, context.Background())
	if err != nil || report.Ended == "" || report.IsClean() || len(report.Leftovers)+len(report.Failed) > 0 {
		t.Errorf("got the error %v, want a report of a run that was ended, which left nothing:\n%s", err, textOf(t, report))
	}
	if len(report.Lost)+len(report.False)+len(report.Stuck) > 0 {
		t.Errorf("got\n%s\nwant nothing lost, false or stuck before everything converged", textOf(t, report))
	}
	m.expectNothing(t)
	diff.AtMost(t, time.Since(begun), 30*time.Second, "")
	stormtest.Empty(t, options.Folder)
}

// At the second signal nothing more is deleted, and what is left is listed.
func TestSecondSignal(t *testing.T) {
	t.Parallel()
	m, options := optionsForModel(t, false, mistakes{})
	options.Commands, options.Time = m.commands(), 15*time.Second
	storm := openStorm(t, options)
	running, first := context.WithCancel(context.Background())
	deleting, second := context.WithCancel(context.Background())
	go func() {
		for len(m.list(t)) < 5 {
			time.Sleep(10 * time.Millisecond)
		}
		second()
		first()
	}()
	report := diff.Value(storm.Run(running, deleting))(t)
	listed := map[string]bool{}
	for _, leftover := range report.Leftovers {
		listed[strings.Trim(leftover.Instance+"_"+leftover.Binding, "_")] = true
	}
	for _, name := range m.list(t) {
		diff.Equal(t, listed[name], true, "%s, which is left, is listed", name)
	}
	diff.AtLeast(t, len(m.list(t)), 1, "what is left")
}

// What others have at the broker is neither deleted nor reported, even if its id is like one of the run.
func TestOthersUntouched(t *testing.T) {
	t.Parallel()
	m, options := optionsForModel(t, false, mistakes{})
	options.Commands, options.Time, options.Broker.Instances = m.commands(), 2*time.Second, 8
	storm := openStorm(t, options)
	other := "0" + storm.Prefix()[1:]
	if other == storm.Prefix() {
		other = "1" + storm.Prefix()[1:]
	}
	theirs := []Key{
		{Instance: "00000000-0000-4000-8000-000000000001"}, {Instance: other + "-0001-4000-8000-000000000002"},
		{Instance: "x" + storm.Prefix()},
		{Instance: "x" + storm.Prefix(), Binding: storm.Prefix() + "-0001-4000-8000-000000000003"},
	}
	for _, key := range theirs {
		m.create(key)
		m.rows[key] = &row{}
	}
	before := m.list(t)
	report, err := storm.Run(context.Background(), context.Background())
	if err != nil || !report.IsClean() || len(report.Leftovers) > 0 {
		t.Errorf("got the error %v, want a clean report without leftovers:\n%s", err, textOf(t, report))
	}
	diff.Check(t, m.list(t), before, "what is left, and what was there before")
	diff.AtMost(t, report.Instances, options.Broker.Instances, "")
}

// If a creation without faults fails, nothing else is tried, whether osb-storm or the platform tries it, and nothing is
// left.
func TestTrial(t *testing.T) {
	for _, folder := range []string{"", t.TempDir()} {
		folder := folder
		t.Run("", func(t *testing.T) {
			t.Parallel()
			m, url := newModel(t, false, mistakes{})
			check(t, os.RemoveAll(filepath.Join(m.folder, "instances")))
			options := optionsFor(t, url)
			options.Broker.RequestTime, options.Journal = time.Second, folder
			storm := openStorm(t, options)
			diff.ErrorIs(t, diff.Err(storm.Run(context.Background(), context.Background())), ErrTrial, "")
			diff.Empty(t, m.rows, "")
			stormtest.Empty(t, options.Folder)
		})
	}
}

func TestConfigRejected(t *testing.T) {
	for name, change := range map[string]func(*BrokerOptions){
		"one instance":      func(c *BrokerOptions) { c.Broker.Instances = 1 },
		"share":             func(c *BrokerOptions) { c.Share = 1.1 },
		"time":              func(c *BrokerOptions) { c.Time = 0 },
		"kill":              func(c *BrokerOptions) { c.Commands.Kill = "x" },
		"start":             func(c *BrokerOptions) { c.Commands.Start = "x" },
		"both":              func(c *BrokerOptions) { c.Commands = Commands{Restart: "x", Kill: "x", Start: "x"} },
		"list of bindings":  func(c *BrokerOptions) { c.Commands.ListBindings = "x" },
		"restart":           func(c *BrokerOptions) { c.List = []fault.Injection{{Kind: fault.RestartAfter}} },
		"URL with password": func(c *BrokerOptions) { c.Broker.URL = "http://u:p@127.0.0.1" },
	} {
		t.Run(name, func(t *testing.T) {
			options := optionsFor(t, "http://127.0.0.1:1")
			change(&options)
			diff.Error(t, diff.Err(NewBroker(options)), "%s", name)
		})
	}
}

// What has to be deleted depends on what has reached the broker, and on its answers.
func TestOwed(t *testing.T) {
	k := newKeys(func(int) string { return "one" })
	key := k.instance(1)
	delivered := func(statuses ...int) *Result {
		x := exchange("PUT", 0, "", 0, 0)
		x.Deliveries = nil
		for _, status := range statuses {
			x.Deliveries = append(x.Deliveries, fault.Delivery{Status: status})
		}
		return &Result{Keys: k, Exchanges: []fault.Exchange{x}, end: time.Second}
	}
	type expectation struct{ isOwed, rejected, unanswered bool }
	for _, test := range []struct {
		statuses []int
		wanted   expectation
	}{
		{nil, expectation{}},
		{[]int{201}, expectation{isOwed: true}},
		{[]int{400}, expectation{isOwed: true, rejected: true}},
		{[]int{408}, expectation{isOwed: true}},
		{[]int{500}, expectation{isOwed: true}},
		{[]int{400, 201}, expectation{isOwed: true}},
		{[]int{0}, expectation{isOwed: true, unanswered: true}},
	} {
		t.Run(fmt.Sprint(test.statuses), func(t *testing.T) {
			got, isOwed := debtOf(key, delivered(test.statuses...), time.Minute)
			if !isOwed {
				got = conform.Debt{}
			}
			diff.Equal(t, expectation{isOwed, got.Rejected, got.Unanswered}, test.wanted, "%v", test.statuses)
		})
	}
	old := delivered(0)
	old.end = time.Hour
	got, _ := debtOf(key, old, time.Minute)
	diff.Equal(t, got.Unanswered, false, "an hour later, a creation may still be carried out")
}

// The leftovers of one run aren't those of the next one.
func TestLeftoversOnce(t *testing.T) {
	m, _ := newModel(t, false, mistakes{})
	l := listing{m.commands(), "pre", nil, map[Key]bool{}}
	for _, id := range []string{"pre-one", "pre-two", "other"} {
		m.create(Key{Instance: id})
	}
	names := func() (all []string) {
		sight := diff.Value(l.Look(context.Background(), []Key{{Instance: "pre-none"}}))(t)
		for key, is := range sight.Of {
			if is == Exists {
				all = append(all, key.Instance)
			}
		}
		sort.Strings(all)
		return all
	}
	diff.Check(t, names(), []string{"pre-one", "pre-two"}, "what exists")
	l.skipped[Key{Instance: "pre-one"}] = true
	diff.Check(t, names(), []string{"pre-two"}, "what exists, but what is skipped")
}

// A list that can't be read says nothing.
func TestListingFails(t *testing.T) {
	for command, wanted := range map[string]string{
		"echo broken >&2; exit 3": "(broken)", "echo one two": "doesn't have 1 ids",
	} {
		t.Run(command, func(t *testing.T) {
			_, err := listing{commands: Commands{List: command}}.Look(context.Background(), nil)
			if err == nil || !strings.Contains(err.Error(), wanted) {
				t.Errorf("%s: got the error %v, want %q", command, err, wanted)
			}
		})
	}
}

// The lives depend on the seed alone. In a replay of some instances, these have the same lives, and begin at once.
func TestLives(t *testing.T) {
	all := lives(7, 40, time.Minute, true, nil)
	again, others := lives(7, 40, time.Minute, true, nil), lives(8, 40, time.Minute, true, nil)
	diff.Check(t, again, all, "the lives of the same seed again")
	diff.Equal(t, reflect.DeepEqual(all, others), false, "another seed has the same lives")
	var early, stays, whole, bindings int
	for _, life := range all {
		counted := map[*int]bool{&early: life.early, &stays: life.stays, &whole: life.whole, &bindings: life.bindings > 0}
		for to, is := range counted {
			if is {
				*to++
			}
		}
		diff.AtLeast(t, life.begin, 0, "begin")
		diff.AtMost(t, life.begin, time.Minute, "begin")
	}
	if early == 0 || stays == 0 || whole == 0 || bindings == 0 || early == 40 || stays == 40 || whole == 40 {
		t.Errorf("got %d early, %d stay, %d whole and %d with bindings, want some of each", early, stays, whole, bindings)
	}
	some := lives(7, 40, time.Minute, true, map[int]bool{3: true, 20: true})
	wanted := []life{all[2], all[19]}
	wanted[0].begin, wanted[1].begin = 0, 0
	diff.Check(t, some, wanted, "the lives of two instances")
	for _, life := range lives(7, 40, time.Minute, false, nil) {
		diff.Equal(t, life.bindings, 0, "bindings")
	}
}

// A command that fails, or that doesn't print what exists, ends the run before the storm, whoever makes the trial. The
// error names the option, and says what the command must print. Nothing is left.
func TestWrongLists(t *testing.T) {
	t.Parallel()
	right := Commands{List: "right", ListBindings: "right"}
	for name, test := range map[string]struct {
		commands Commands
		wanted   string // of the error, or empty for none
	}{
		"right":          {right, ""},
		"fails":          {Commands{List: "ls /nonexistent"}, "of --list-command has failed: exit status 2 (ls: "},
		"prints nothing": {Commands{List: "true"}, "of --list-command doesn't print the instance "},
		"prints bindings": {
			Commands{List: "right", ListBindings: "echo one"}, "of --list-bindings-command has failed: the line",
		},
		"bindings fail":  {Commands{List: "right", ListBindings: "exit 3"}, "bindings-command has failed: exit status 3"},
		"prints no pair": {Commands{List: "right", ListBindings: "true"}, "bindings-command doesn't print the binding "},
	} {
		for _, isAsync := range []bool{false, true} {
			for _, hasJournal := range []bool{false, true} {
				name, test, isAsync, hasJournal := name, test, isAsync, hasJournal
				t.Run(fmt.Sprint(name, isAsync, hasJournal), func(t *testing.T) {
					t.Parallel()
					m, options := optionsForModel(t, isAsync, mistakes{})
					options.Commands, options.Time, options.Broker.Instances = test.commands, time.Second, 2
					if options.Commands.List == "right" {
						options.Commands.List = m.commands().List
					}
					if options.Commands.ListBindings == "right" {
						options.Commands.ListBindings = m.commands().ListBindings
					}
					if hasJournal {
						options.Journal = t.TempDir()
					}
					storm := openStorm(t, options)
					report, err := storm.Run(context.Background(), context.Background())
					if errors.Is(err, ErrList) != (test.wanted != "") {
						t.Fatalf("got the error %v, want %q:\n%s", err, test.wanted, textOf(t, report))
					}
					for _, wanted := range []string{test.wanted, "It must print the id"} {
						if err != nil && !strings.Contains(err.Error(), wanted) {
							t.Errorf("got the error %v, want %q", err, wanted)
						}
					}
					if err != nil && report.Requests > 0 {
						t.Error("got a storm, want none")
					}
					if left := m.list(t); len(left)+len(report.Leftovers) > 0 || len(m.rows) > 0 {
						t.Errorf("got %v %v left, want none", left, report.Leftovers)
					}
					stormtest.Empty(t, options.Folder)
				})
			}
		}
	}
}

// After a signal, no command of the user's keeps the storm from its end, even if it never ends and its children keep
// the pipe open. After the first one, everything is deleted. A second one ends it at once.
func TestHangingCommands(t *testing.T) {
	t.Parallel()
	const hangs = "sleep 1000 | cat"
	for name, change := range map[string]func(of *Commands, unless string){
		"list": func(of *Commands, unless string) {
			of.List = fmt.Sprintf("if %s; then %s; else %s; fi", unless, of.List, hangs)
		},
		"bindings": func(of *Commands, unless string) {
			of.ListBindings = fmt.Sprintf("if %s; then %s; else %s; fi", unless, of.ListBindings, hangs)
		},
		"restart": func(of *Commands, unless string) { of.Restart = hangs },
		"trial":   func(of *Commands, unless string) { of.List = hangs },
	} {
		for _, second := range []bool{false, true} {
			name, change, second := name, change, second
			t.Run(fmt.Sprint(name, second), func(t *testing.T) {
				t.Parallel()
				m, options := optionsForModel(t, false, mistakes{})
				options.Commands, options.Time = m.commands(), time.Minute
				flag := filepath.Join(t.TempDir(), "hang")
				change(&options.Commands, "! test -e "+flag)
				storm := openStorm(t, options)
				running, first := context.WithCancel(context.Background())
				deleting, end := context.WithCancel(context.Background())
				defer end()
				begun, ended := make(chan time.Time, 1), make(chan struct{})
				go func() {
					defer close(begun)
					for wanted := map[bool]int{true: 1, false: 2}[name == "trial"]; len(m.list(t)) < wanted; {
						select {
						case <-ended:
							return
						case <-time.After(10 * time.Millisecond):
						}
					}
					_ = os.WriteFile(flag, nil, 0o600)
					time.Sleep(time.Second)
					begun <- time.Now()
					first()
					if second {
						time.Sleep(time.Second)
						end()
					}
				}()
				report, err := storm.Run(running, deleting)
				close(ended)
				signal, isSent := <-begun
				if !isSent {
					t.Fatalf("got the end before a signal, want it afterwards\n%s", textOf(t, report))
				}
				took, most := time.Since(signal), 3*lastTime
				if second {
					most = 8 * time.Second
				}
				if err != nil || report.Ended == "" || took > most {
					t.Errorf("got %v after %v, want its end in time\n%s", err, took, textOf(t, report))
				}
				if left := m.list(t); !second && len(left) > 0 {
					t.Errorf("got %v left, want none", left)
				}
			})
		}
	}
}

// In a calm storm nothing is killed or has to be tried, and it ends with its lives.
func TestCalm(t *testing.T) {
	b := openFakes(t, func(c *BothOptions) {
		c.Calm, c.Without, c.Time, c.password = true, "held", 3*time.Second, "the password"
	})
	for _, program := range b.programs() {
		diff.Equal(t, b.isKilled(program), false, "%s is killed", program)
	}
	diff.Equal(t, b.password, "the password", "the password")
	if untried := b.omissions(); b.unruly != nil || len(untried) > 0 || b.options.time() != 3*time.Second {
		t.Errorf("got unruly %v, untried %v and %v, want false, none and 3 s", b.unruly != nil, untried, b.options.time())
	}
	ctx, cancel := context.WithCancel(context.Background())
	cancel()
	troubles := b.trouble(ctx)
	troubles.group.Wait()
	for _, program := range b.programs() {
		if its := program.counts(); program.running == nil || its.kills+its.pauses > 0 {
			t.Errorf("%s: got it to run %v, %d kills and %d pauses, want it to run without either", program,
				program.running != nil, its.kills, its.pauses)
		}
	}
	for name, change := range map[string]func(*BothOptions){
		"unruly": func(c *BothOptions) { c.Unruly = true }, "points": func(c *BothOptions) { c.CrashPoints = SomePoints },
	} {
		t.Run(name, func(t *testing.T) {
			wrong := b.options
			change(&wrong)
			diff.Error(t, wrong.Check(wrong.demands()), "%s", name)
		})
	}
}

// The lives of a trial are those of these instances in the storm, in whichever round, except that all begin at
// once.
func TestLivesOfTrial(t *testing.T) {
	b := openFakes(t, func(c *BothOptions) { c.Instances = 3 })
	var wanted []life
	for _, numbers := range [][2]int{{0, 2}, {2, 7}, {2, 9}} { // the round and the number
		for _, of := range b.lives(numbers[0]) {
			if of.number == numbers[1] {
				of.begin = 0
				wanted = append(wanted, of)
			}
		}
	}
	b.options.only = map[int]bool{9: true, 2: true, 7: true}
	diff.Equal(t, len(wanted), 3, "lives of these instances in the storm")
	diff.Check(t, b.lives(0), wanted, "the lives of the trial")
}

var check = diff.Must
