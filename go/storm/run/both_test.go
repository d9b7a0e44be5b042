package run

import (
	"context"
	"encoding/json"
	"errors"
	"fmt"
	"net/http"
	"net/http/httptest"
	"os"
	"path/filepath"
	"strconv"
	"strings"
	"sync"
	"testing"
	"time"

	"pippinterm/internal/crash"
	"pippinterm/internal/diff"
	"pippinterm/internal/waits"
	"pippinterm/osb"
	"pippinterm/platform"
	"pippinterm/storm/fault"
	"pippinterm/storm/run/audit"
	"pippinterm/storm/run/goods"
	"pippinterm/storm/stormtest"
)

func pidOf(v *victim) string { return strconv.Itoa(v.running.Process.Pid) }

// fakes writes programs that can do no more than make a key.
func fakes(t *testing.T) BothOptions {
	t.Helper()
	script := filepath.Join(t.TempDir(), "program")
	text := "#!/bin/sh\n[ \"$1\" != key ] || echo 0123456789012345678901234567890123456789012\n"
	check(t, os.WriteFile(script, []byte(text), 0o700))
	return BothOptions{
		Options: Options{
			RequestTime: time.Second, Late: time.Second, Time: time.Second, SettleTime: time.Second, Folder: t.TempDir(),
		},
		Broker: script, Platform: script, Brokers: 1, Workers: 1, Store: InFiles, Backend: AsFolders, Instances: 1,
	}
}

// openFakes returns a BothStorm of such programs, which ends with the test.
func openFakes(t *testing.T, change func(*BothOptions)) *BothStorm {
	t.Helper()
	options := fakes(t)
	change(&options)
	b := diff.Value(NewBoth(context.Background(), options))(t)
	t.Cleanup(func() {
		diff.NoError(t, b.Close(), "Close")
		stormtest.Empty(t, options.Folder)
	})
	return b
}

// With a folder for journals, each program gets a folder of its own below it.
func TestJournal(t *testing.T) {
	for _, folder := range []string{"", filepath.Join(t.TempDir(), "journals")} {
		b := openFakes(t, func(c *BothOptions) { c.Journal = folder })
		for name, line := range map[string][]string{"broker": b.brokers[0].line, "platform": b.workers[0].line} {
			t.Run(name, func(t *testing.T) {
				text, wanted := strings.Join(line, " "), " --journal "+filepath.Join(folder, name)
				if strings.HasSuffix(text, wanted) != (folder != "") || strings.Contains(text, "--journal") != (folder != "") {
					t.Errorf("%q: got %s, want that it ends with %q only if there is a folder", folder, text, wanted)
				}
				if folder != "" {
					diff.NoError(t, diff.Err(os.Stat(filepath.Join(folder, name))), "the folder of the journal")
				}
			})
		}
	}
}

// Each worker has a name of its own and each broker an address of its own. Each crash point is one program's to visit.
func TestSeveralPrograms(t *testing.T) {
	b := openFakes(t, func(c *BothOptions) { c.Brokers, c.Workers, c.CrashPoints = 3, 2, AllPoints })
	seen, logs, open := map[string]int{}, map[string]bool{}, 0
	for _, program := range b.programs() {
		line := strings.Join(program.line, " ")
		for _, word := range []string{"--state " + b.storage.state, "--listen 127.0.0.1:", "--worker storm-1 ", "--worker storm-2 "} {
			seen[strings.TrimPrefix(word, "--state "+b.folder)] += strings.Count(line, word)
		}
		seen[after(line, "--listen ")]++
		logs[program.log], open = true, open+len(program.open)
		if program.number == 0 || len(program.open) == 0 {
			t.Errorf("%s: got %d crash points, want some", program, len(program.open))
		}
	}
	got := [4]int{seen["/broker"], seen["--worker storm-1 "], seen["--worker storm-2 "], len(logs)}
	diff.Equal(t, got, [4]int{3, 1, 1, 5}, "the brokers, the workers of each name and the logs")
	for _, address := range b.addresses {
		diff.Equal(t, seen[address.Host], 1, "brokers at %s", address)
	}
	if wanted := len(crash.Points()) + len(workerPoints()); open != wanted || len(b.remainingPoints()) != wanted+2 {
		t.Errorf("got %d crash points to be visited, want %d", open, wanted)
	}
}

func after(line, text string) string {
	_, rest, _ := strings.Cut(line, text)
	word, _, _ := strings.Cut(rest, " ")
	return word
}

// A storm in which nothing has happened has tried nothing: each of these is named.
func TestUntried(t *testing.T) {
	b := openFakes(t, func(c *BothOptions) { c.Share, c.CrashPoints = 0.4, SomePoints })
	all := strings.Join(b.omissions(), "\n")
	for _, part := range []string{
		"instances that are ready were compared 0 times", "bindings that are gone were compared 0 times",
		"no request had the fault hang-up", "the broker was killed 0 times and paused 0 times", "the platform was killed",
	} {
		diff.Contains(t, all, part, "")
	}
	diff.Lacks(t, all, "crash points", "")
	b.options.CrashPoints, b.options.Share = AllPoints, 0
	if all := strings.Join(b.omissions(), "\n"); !strings.Contains(all, "order-next") || strings.Contains(all, "the fault") {
		t.Errorf("got %s, want the order that is left out, and no fault", all)
	}
}

// A request about an instance that isn't one of the lives' gets a number, and keeps it.
func TestSubjectOrNew(t *testing.T) {
	k := newKeys(func(n int) string { return fmt.Sprint("own-", n) })
	own := k.instance(3)
	var found []string
	for _, ids := range [][2]string{{own.Instance}, {"x"}, {"y", "b"}, {"x", "b"}, {"y", "b"}, {own.Instance, "c"}, {}} {
		subject, is := k.SubjectOrNew(ids[0], ids[1])
		found = append(found, fmt.Sprintf("%s %v", subject, is))
	}
	wanted := "3 true 1000001 true 1000002/1 true 1000001/1 true 1000002/1 true 3/1 true 0 false"
	diff.Equal(t, strings.Join(found, " "), wanted, "")
}

// The rounds of a storm have other instances.
func TestRounds(t *testing.T) {
	b := &BothStorm{options: BothOptions{Instances: 20, Options: Options{Time: time.Second}}}
	seen := map[int]bool{}
	for round := 0; round < 3; round++ {
		for _, life := range b.lives(round) {
			seen[life.number] = true
		}
	}
	if len(seen) != 60 || !seen[1] || !seen[60] {
		t.Errorf("got %d instances, want the 60", len(seen))
	}
}

func TestBothRejected(t *testing.T) {
	for name, change := range map[string]func(*BothOptions){
		"instances": func(c *BothOptions) { c.Instances = 0 },
		"workers":   func(c *BothOptions) { c.Workers = 0 },
		"brokers":   func(c *BothOptions) { c.Brokers = 0 },
		"share":     func(c *BothOptions) { c.Share = -0.1 },
		"time":      func(c *BothOptions) { c.Late = 0 },
		"restart":   func(c *BothOptions) { c.List = []fault.Injection{{Kind: fault.RestartAfter}} },
		"broker":    func(c *BothOptions) { c.Broker += "-none" },
		"no part":   func(c *BothOptions) { c.Without = "everything" },
		"databases": func(c *BothOptions) { c.Without, c.Backend, c.KillDatabase = "work", InPostgreSQL, 1 },
		"no server": func(c *BothOptions) { c.Store = InPostgreSQL },
		"away":      func(c *BothOptions) { c.Backend, c.PostgreSQL = InPostgreSQL, "postgresql://u@127.0.0.1:1/d" },
		"database":  func(c *BothOptions) { c.KillDatabase = 1 },
		"platform":  func(c *BothOptions) { c.Platform = "/" },
		"key":       func(c *BothOptions) { c.Platform = "/bin/false" },
	} {
		t.Run(name, func(t *testing.T) {
			options := fakes(t)
			change(&options)
			diff.Error(t, diff.Err(NewBoth(context.Background(), options)), "%s", name)
			stormtest.Empty(t, options.Folder)
		})
	}
}

// A crash point that wasn't visited, or an end that nobody caused, isn't clean, and is in the reports.
func TestProgramsInReport(t *testing.T) {
	for name, programs := range map[string]*Programs{
		"": {BrokerKills: 2, PlatformPauses: 1, Visited: []string{"a"}},
		"NOT TRIED: the broker was killed 0 times": {Untried: []string{"the broker was killed 0 times"}},
		"TWO WORKERS AT ONCE: at one/two":          {Together: []string{"one/two"}},
		"ODD: broker: it has ended by itself":      {Odd: []string{"broker: it has ended by itself"}},
	} {
		t.Run(name, func(t *testing.T) {
			report := emptyReport()
			report.Converged, report.Programs = true, programs
			diff.Equal(t, report.IsClean(), name == "", "%q: it is clean", name)
			for form, text := range stormtest.Forms(t, report) {
				if form != "JSON" && !strings.Contains(text, name) {
					t.Errorf("%s: got no %q, want it", form, name)
				}
			}
			if text := textOf(t, report); name == "" && !strings.Contains(text,
				"the broker was killed 2 times and paused 0 times, the platform was killed 0 times and paused once\n"+
					"1 crash point visited, commands were killed 0 times\n") {
				t.Errorf("got\n%s\nwant the kills and pauses of both", text)
			}
		})
	}
}

// A bindingState is that of a platform with one binding, and of a resource that lets its credentials in or not.
type bindingState struct {
	state  platform.State
	object string
	letsIn bool
	away   error
}

func (s *bindingState) keyring() *keyring {
	return &keyring{
		read: func(context.Context, Key) (json.RawMessage, error) {
			if s.state != audit.Ready || s.object == "" {
				return nil, nil
			}
			return json.RawMessage(s.object), nil
		},
		records: func(context.Context) (map[Key]Record, error) {
			return map[Key]Record{{Instance: "one", Binding: "two"}: {State: s.state}}, nil
		},
		works: func(_ context.Context, _ Key, given json.RawMessage) (bool, error) {
			return s.letsIn && string(given) == `{"token":"t"}`, s.away
		},
		finds: &finds{events: silentEvents()}, given: map[Key]json.RawMessage{},
	}
}

// The credentials of each binding that is ready are read and tried, and those of what is gone give no access.
func TestKeyring(t *testing.T) {
	t.Parallel()
	const object = `{"credentials":{"token":"t"}}`
	for name, test := range map[string]struct {
		first, then bindingState
		wrong       string
	}{
		"right":       {bindingState{"ready", object, true, nil}, bindingState{"ready", object, true, nil}, ""},
		"gone":        {bindingState{"ready", object, true, nil}, bindingState{"gone", object, false, nil}, ""},
		"never ready": {bindingState{"polling", object, true, nil}, bindingState{"gone", object, true, nil}, ""},
		"no access":   {bindingState{"ready", object, false, nil}, bindingState{"gone", object, false, nil}, "give no access"},
		"at the end":  {bindingState{"polling", object, false, nil}, bindingState{"ready", object, false, nil}, "give no access"},
		"not printed": {bindingState{"polling", "", true, nil}, bindingState{"ready", "", true, nil}, "prints no credentials"},
		"changed": {bindingState{"ready", object, true, nil}, bindingState{"ready", `{"credentials":{"token":"t"},"x":1}`, true, nil},
			"or other ones than before"},
		"gone, and give access": {bindingState{"ready", object, true, nil}, bindingState{"gone", object, true, nil},
			"its record says gone, and its credentials give access"},
	} {
		t.Run(name, func(t *testing.T) {
			s := test.first
			k := s.keyring()
			ctx, cancel := context.WithTimeout(context.Background(), credentialsEach+100*time.Millisecond)
			k.run(ctx)
			cancel()
			s = test.then
			diff.NoError(t, k.finish(context.Background()), "%s", name)
			var found []string
			for _, difference := range k.list() {
				found = append(found, difference.What)
			}
			if text := strings.Join(found, "; "); !strings.Contains(text, test.wrong) || (text == "") != (test.wrong == "") {
				t.Errorf("%s: got %q, want %q", name, text, test.wrong)
			}
		})
	}
	s := bindingState{"ready", object, false, errors.New("away")}
	k := s.keyring()
	if err := k.finish(context.Background()); err == nil || len(k.list()) > 0 {
		t.Errorf("a server that is away: got %v and %v, want an error and no difference", err, k.list())
	}
}

// fixedBroker has one instance that is ready, of which nothing exists.
type fixedBroker struct{ audit.Resources }

func (fixedBroker) Read(context.Context) (map[Key]audit.Row, error) { return nil, nil }

func (fixedBroker) Look(context.Context, func(string) bool) (audit.Stock, error) {
	return audit.Stock{}, nil
}

// The looks count what they compare, and what is found stays, once.
func TestAuditor(t *testing.T) {
	t.Parallel()
	ready, events := map[Key]Record{{Instance: "one"}: {State: audit.Ready, Rests: true}}, silentEvents()
	a := newAuditor(audit.Reader{
		Records:  func(context.Context) (map[Key]Record, error) { return ready, nil },
		Holdings: fixedBroker{}, Resources: fixedBroker{}, IsOurs: func(string) bool { return true },
		Given: func() map[Key]json.RawMessage { return nil }, Foreign: func() map[Key]bool { return nil },
	}, events)
	for look := 0; look < 3; look++ {
		a.look(context.Background())
	}
	all, err := a.end(context.Background())
	counts := a.counts()
	if err != nil || len(events.list()) != 1 || len(all) != 2 || counts["instances that are ready"] != 3 || len(counts) != 4 {
		t.Errorf("got %v, %d kept, %v and %v, want the counts of what is kept", err, len(events.list()), all, counts)
	}
	if all[0].What != "during the storm, its record says ready, and it doesn't exist, or not as a whole" ||
		all[1].What != strings.TrimPrefix(all[0].What, "during the storm, ") || all[0].Kind != False {
		t.Errorf("got %v, want a false record, first during the storm and then in the end", all)
	}
}

// A part is taken out of the program that has it, and of no other.
func TestWithout(t *testing.T) {
	for name, wanted := range map[string]string{
		"": "", "work": whoBroker, "held": whoBroker, "attempts": whoPlatform,
		"broker": whoBroker, "platform": whoPlatform,
	} {
		t.Run(name, func(t *testing.T) {
			b := openFakes(t, func(c *BothOptions) { c.Without, c.Share = name, 0.4 })
			for _, program := range b.programs() {
				has := strings.HasSuffix(strings.Join(program.environment, "\n"), "\nOSB_WITHOUT="+name)
				diff.Equal(t, has, program.name == wanted, "%q: a variable in the environment of %s", name, program)
				killed := name != "attempts" || program.name == whoBroker
				diff.Equal(t, b.isKilled(program), killed, "%q: %s is killed", name, program)
			}
			diff.Equal(t, b.unruly != nil, name == "held", "%q: an unruly client", name)
			usual := BothOptions{}.weights()
			slow := b.options.share() > 0.4 && b.options.weights()[1] != usual[1] && usual[1].Kind == fault.RequestSwallowed
			if slow != (name == "attempts") {
				t.Errorf("%q: got the faults %v with the share %v, want slow ones for attempts only", name, b.options.weights(),
					b.options.share())
			}
		})
	}
}

// A program that was built without the tag storm can't run without a part, and one with it ends at one that it lacks.
func TestCheckTag(t *testing.T) {
	script := filepath.Join(t.TempDir(), "program")
	const text = "#!/bin/sh\n[ \"$1\" != key ] || echo 0123456789012345678901234567890123456789012\n" +
		"case $OSB_WITHOUT in no-such-part) exit 2;; esac\n[ \"$1\" != serve ] || exec sleep 60\n"
	for content, wanted := range map[string]string{text: "", strings.Replace(text, "no-such", "any", 1): "without the tag storm"} {
		t.Run(content, func(t *testing.T) {
			check(t, os.WriteFile(script, []byte(content), 0o700))
			b := openFakes(t, func(c *BothOptions) { c.Broker, c.Platform, c.Without = script, script, "work" })
			b.brokers[0].times.point, b.workers[0].times.point = 300*time.Millisecond, 300*time.Millisecond
			got := ""
			if err := b.checkTag(context.Background()); err != nil {
				got = err.Error()
			}
			if !strings.Contains(got, wanted) || (got == "") != (wanted == "") {
				t.Errorf("got %q, want %q", got, wanted)
			}
		})
	}
}

// Without a part, a storm is clean if it has found something.
func TestReportWithout(t *testing.T) {
	for _, isFound := range []bool{false, true} {
		t.Run(fmt.Sprintf("found %v", isFound), func(t *testing.T) {
			report := emptyReport()
			report.Programs = &Programs{Without: "work"}
			words := "without work the storm has FOUND NOTHING that is left behind"
			if isFound {
				report.Lost = append(report.Lost, Finding{What: "it exists"})
				words = "without work the storm has found what is left behind"
			}
			if report.IsClean() != isFound || !strings.Contains(textOf(t, report), words) {
				t.Errorf("got clean %v, want it with %[3]q:\n%[2]s", report.IsClean(), textOf(t, report), words)
			}
		})
	}
}

// In a storm with both as they are usually written, each program is. Only the broker reaches no crash points.
func TestWithoutBoth(t *testing.T) {
	b := openFakes(t, func(c *BothOptions) { c.Without, c.CrashPoints = withoutBoth, SomePoints })
	for _, program := range b.programs() {
		last := program.environment[len(program.environment)-1]
		diff.Equal(t, last, "OSB_WITHOUT="+program.name, "the last variable of %s", program)
		diff.Equal(t, len(program.open) == 0, program.name == whoBroker, "no crash points of %s", program)
	}
	diff.Contains(t, strings.Join(b.brokers[0].line, " "), "--first-poll=false", "")
}

// A leavingBroker holds what was bound until it was unbound twice.
type leavingBroker struct {
	mutex sync.Mutex
	left  map[Key]int
	polls int
	bad   []string
}

func (l *leavingBroker) ServeHTTP(w http.ResponseWriter, r *http.Request) {
	l.mutex.Lock()
	defer l.mutex.Unlock()
	parts := strings.Split(r.URL.Path, "/")
	key := Key{Instance: parts[3], Binding: parts[5]}
	user, password, _ := r.BasicAuth()
	if user != "platform" || password != "secret" || r.Header.Get("X-Broker-API-Version") == "" {
		l.bad = append(l.bad, "the login")
	}
	switch r.Method {
	case http.MethodGet:
		l.polls++
	case http.MethodPut:
		var body map[string]string
		if json.NewDecoder(r.Body).Decode(&body) != nil || body["service_id"] != goods.Service ||
			body["plan_id"] != r.URL.Query().Get("plan_id") {
			l.bad = append(l.bad, fmt.Sprint(body))
		}
		l.left[key] = 2
		w.WriteHeader(http.StatusAccepted)
	case http.MethodDelete:
		if l.left[key] > 0 {
			l.left[key]--
		}
		w.WriteHeader(http.StatusServiceUnavailable)
	}
}

func (l *leavingBroker) holdings(t *testing.T) map[Key]audit.Row {
	const ready = `{"attributes":"%064d","row":{"phase":"ready","plan":"%s","service":"%s"},"tombstone":false,` +
		`"version":2,"work":null}`
	var holding osb.Holding
	diff.NoError(t, holding.UnmarshalJSON([]byte(fmt.Sprintf(ready, 0, goods.AtOnce, goods.Service))), "")
	l.mutex.Lock()
	defer l.mutex.Unlock()
	all := map[Key]audit.Row{}
	for key, left := range l.left {
		all[key] = audit.Row{}
		if left > 0 {
			all[key] = audit.Row{Holding: holding}
		}
	}
	return all
}

// The unruly client binds whatever exists, and unbinds all that the broker holds once it is calm.
func TestUnruly(t *testing.T) {
	t.Parallel()
	broker := &leavingBroker{left: map[Key]int{}}
	server := httptest.NewServer(broker)
	defer server.Close()
	plan := diff.Value(osb.IDOfText(goods.Later))(t)
	made, states := 0, map[string]platform.State{
		"cleaning": platform.Cleaning, "withdrawn": platform.Withdrawn, "gone": platform.Gone, "ordered": platform.Ordered,
	}
	u := &unrulyClient{
		url: server.URL, password: "secret", perSecond: 400, client: http.Client{Timeout: time.Second},
		held: func(context.Context) (map[Key]audit.Row, error) { return broker.holdings(t), nil },
		records: func(context.Context) (map[Key]Record, error) {
			all := map[Key]Record{}
			for id, state := range states {
				all[Key{Instance: id}] = Record{State: state, Plan: plan}
			}
			return all, nil
		},
		newID: func() string { made++; return fmt.Sprint("made-", made) }, chance: fault.Chance(4, "test"),
		bound: map[Key]bool{}, sending: map[Key]bool{},
	}
	ctx, cancel := context.WithCancel(context.Background())
	ended := make(chan struct{})
	go func() {
		defer close(ended)
		u.run(ctx)
	}()
	waits.Until(t, "24 bindings are held", func() bool { return len(broker.holdings(t)) >= 24 })
	u.calm()
	waits.Until(t, "nothing is held", func() bool { return u.isDone(ctx) })
	bound := len(u.all())
	cancel()
	<-ended
	if len(u.all()) != bound || len(broker.bad) > 0 || broker.polls == 0 {
		t.Errorf("got %d and then %d bound, %d polls and bad %v, want as many, some and none", bound, len(u.all()),
			broker.polls, broker.bad)
	}
	known, unknown := 0, 0
	for key := range u.all() {
		switch {
		case key.Instance == "cleaning":
			known++
		case strings.HasPrefix(key.Instance, "made-"):
			unknown++
		default:
			t.Errorf("%s: got a binding, want none", key.Instance)
		}
	}
	if known <= unknown || unknown == 0 {
		t.Errorf("got %d of an instance that is known, and %d of others, want more of the first", known, unknown)
	}
}
