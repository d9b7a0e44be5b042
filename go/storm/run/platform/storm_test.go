package platform

import (
	"bufio"
	"bytes"
	"context"
	"encoding/json"
	"errors"
	"fmt"
	"net/http"
	"os"
	"path/filepath"
	"strings"
	"testing"
	"time"

	"pippinterm/broker"
	"pippinterm/internal/diff"
	"pippinterm/storm/conform"
	"pippinterm/storm/fault"
	"pippinterm/storm/report"
	"pippinterm/storm/run"
	"pippinterm/storm/run/goods"
	"pippinterm/storm/stormtest"
)

// optionsFor are Options with short times. A platform without a mistake settles in a second or two, and on a busy
// machine in the time to settle.
func optionsFor(t *testing.T) Options {
	t.Helper()
	return Options{
		Options: run.Options{
			Seed: 1, Share: 0.5, RequestTime: 300 * time.Millisecond, Late: 600 * time.Millisecond, Time: 3 * time.Second,
			SettleTime: time.Minute, Folder: t.TempDir(),
		},
		Address: "127.0.0.1:0", User: "platform", Password: "secret", OperationTime: 200 * time.Millisecond,
		WaitTime: time.Minute,
	}
}

// runStorm returns the report of a storm for a model with these mistakes.
func runStorm(t *testing.T, options Options, wrong mistakes, isListed bool) *run.Report {
	t.Helper()
	lists := t.TempDir()
	if isListed {
		options.Commands = commandsOf(lists)
	}
	storm := diff.Value(Start(context.Background(), options))(t)
	m := newModel(t, storm.URL(), wrong, options.RequestTime)
	m.folder = lists
	m.write()
	ctx, cancel := context.WithCancel(context.Background())
	// The last life has ended when the faults end. A request after that could arrive once the storm has seen that all
	// is settled.
	sending, stop := context.WithTimeout(ctx, options.Time*7/10)
	m.run(ctx, sending)
	report := storm.Run(context.Background())
	stop()
	cancel()
	m.group.Wait()
	diff.NoError(t, storm.Close(), "")
	stormtest.Empty(t, options.Folder)
	diff.Empty(t, report.Failed, "")
	return report
}

func textOf(t *testing.T, report *run.Report) string {
	t.Helper()
	return stormtest.TextOf(t, report.WriteText)
}

// Nothing is found of a platform without a mistake, with a list and without one, with the rule of the first Poll and
// without it.
func TestNothingAbandoned(t *testing.T) {
	for n := 0; n < 4; n++ {
		isListed, firstPoll := n%2 == 0, n/2 == 0
		t.Run(fmt.Sprint(isListed, firstPoll), func(t *testing.T) {
			t.Parallel()
			stormtest.UntilEnough(t, stormtest.Tally{8, 1, 40, 15}, func(seed int64) stormtest.Tally {
				options := optionsFor(t)
				options.Seed, options.FirstPoll = seed, firstPoll
				report := runStorm(t, options, mistakes{}, isListed)
				if !report.IsClean() || len(report.Broken) > 0 || !report.Converged {
					t.Errorf("got\n%s\nwant a clean report that has converged", textOf(t, report))
				}
				diff.Equal(t, strings.Count(stormtest.TextOf(t, report.WriteHTML), "<svg"), 1, "pictures of the storm")
				diff.Equal(t, len(report.Exists) == 0, isListed, "nothing is to be compared")
				return stormtest.Tally{report.Instances, report.Bindings, report.Requests, len(report.Given)}
			})
		})
	}
}

// unhurried is a time for a request that a busy machine doesn't exceed. No fault of these tests waits for it.
const unhurried = 20 * time.Second

// listOf is a list of faults: the same for each instance and its first binding.
func listOf(kinds map[int]fault.Kind) []fault.Injection {
	list := []fault.Injection{}
	for instance := 1; instance <= 500; instance++ {
		for _, binding := range []int{0, 1} {
			for request, kind := range kinds {
				subject := fault.Subject{Instance: instance, Binding: binding}
				number := fault.Number{Subject: subject, Request: request}
				list = append(list, fault.Injection{Number: number, Kind: kind})
			}
		}
	}
	return list
}

// Each mistake is found and named: what is abandoned, what the platform has in vain, and which rule it breaks. Without
// the mistake, the same faults leave nothing.
func TestMistakes(t *testing.T) {
	for name, test := range map[string]struct {
		wrong     mistakes
		kinds     map[int]fault.Kind // the faults of the requests about an instance, by their numbers
		isListed  bool
		abandoned string // part of what the report says of something abandoned
		false     string // part of what the report says of a false record
		broken    string // the rule
	}{
		"forgets-timeout": {
			wrong: mistakes{forgetsTimeout: true}, kinds: map[int]fault.Kind{1: fault.AnswerLost},
			abandoned: "(PUT) got a cut connection, and so the standard asks for a deletion. None was sent",
			broken:    "mitigates-provision",
		},
		"forgets-timeout-listed": {
			wrong: mistakes{forgetsTimeout: true}, kinds: map[int]fault.Kind{1: fault.AnswerLost}, isListed: true,
			abandoned: "it exists, and the platform doesn't have it. ", broken: "mitigates-provision",
		},
		"forgets-what-never-came": {
			wrong: mistakes{forgetsTimeout: true}, kinds: map[int]fault.Kind{1: fault.RequestLost}, isListed: true,
			broken: "mitigates-provision",
		},
		"forgets-errors": {
			wrong: mistakes{forgetsErrors: true}, kinds: map[int]fault.Kind{1: fault.GatewayAfter},
			abandoned: "bytes, and so the standard asks for a deletion. None was sent", broken: "mitigates-provision",
		},
		"one-retry": {
			wrong:     mistakes{oneRetry: true},
			kinds:     map[int]fault.Kind{1: fault.AnswerLost, 2: fault.RequestLost, 3: fault.GatewayBefore},
			abandoned: "and wasn't repeated", broken: "repeats-mitigation",
		},
		"one-retry-of-a-removal": {
			wrong: mistakes{oneRetry: true}, kinds: map[int]fault.Kind{2: fault.RequestLost, 3: fault.GatewayBefore},
			isListed: true, abandoned: "and the platform hasn't repeated it",
		},
		"takes-unread": {
			wrong: mistakes{takesUnread: true}, kinds: map[int]fault.Kind{1: fault.AnswerGarbled}, isListed: true,
			false:  "bytes that can't be read, and so the standard asks for a deletion. None was sent",
			broken: "mitigates-provision",
		},
		"stops-polling": {
			wrong: mistakes{stopsPolling: true}, kinds: map[int]fault.Kind{2: fault.RequestLost},
			abandoned: "and the platform has stopped polling",
		},
		"believes-pages": {
			wrong: mistakes{believesPages: true}, kinds: map[int]fault.Kind{1: fault.PageAfter},
			abandoned: "The standard asks for no deletion then",
		},
	} {
		test := test
		t.Run(name, func(t *testing.T) {
			t.Parallel()
			options := optionsFor(t)
			options.List, options.Time, options.RequestTime = listOf(test.kinds), time.Second, unhurried
			if report := runStorm(t, options, mistakes{}, test.isListed); !report.IsClean() || len(report.Broken) > 0 {
				t.Errorf("without the mistake: got\n%s\nwant a clean report", textOf(t, report))
			}
			options.SettleTime = time.Second
			report := runStorm(t, options, test.wrong, test.isListed)
			if missing := lacks(report, test.abandoned, test.false, test.broken); missing != "" {
				t.Errorf("got a report without %s, want it there:\n%s", missing, textOf(t, report))
			}
		})
	}
}

// lacks returns what a report lacks of these, or "".
func lacks(report *run.Report, abandoned, false, broken string) string {
	switch {
	case !strings.Contains(stormtest.Whats(report.Lost), abandoned) || abandoned != "" && len(report.Lost) == 0:
		return fmt.Sprintf("nothing is abandoned because %q", abandoned)
	case !strings.Contains(stormtest.Whats(report.False), false) || false != "" && len(report.False) == 0:
		return fmt.Sprintf("no record is false because %q", false)
	case broken != "" && !stormtest.HasViolation(report.Broken, broken):
		return "no request breaks " + broken
	case report.IsClean() != (abandoned+false == ""):
		return "the verdict is wrong"
	}
	return ""
}

// Each rule about requests is found broken, alone if the mistake is about it alone, and with the level of the standard.
func TestRules(t *testing.T) {
	for rule, wrong := range map[string]mistakes{
		"version-header": {noVersion: true}, "content-type": {noType: true}, "deprovision-ids": {noIDs: true},
		"provision-body": {noBody: true}, "accepts-incomplete": {noIncomplete: true},
		"originating-identity": {badIdentity: true}, "login": {badLogin: true}, "route": {badRoute: true},
		"unbind-first": {bindingsLast: true},
	} {
		rule, wrong := rule, wrong
		t.Run(rule, func(t *testing.T) {
			t.Parallel()
			options := optionsFor(t)
			options.Share, options.Time, options.RequestTime = 0, 2*time.Second, unhurried
			if wrong.noIDs { // the broker rejects each deletion, so nothing settles
				options.SettleTime = time.Second
			}
			got := runStorm(t, options, wrong, true)
			if !stormtest.HasViolation(got.Broken, rule) {
				t.Fatalf("got\n%s\nwant the rule broken", textOf(t, got))
			}
			first := got.Broken[0]
			if first.Name != rule || first.Count < 2 || first.Sent == "" || first.Came == "" {
				t.Errorf("got %+v, want the rule %s broken twice, with a request and an answer", first, rule)
			}
			if rule == "provision-body" && (len(first.Numbers) != first.Count || first.Numbers[0] != first.Number) {
				t.Errorf("got %+v, want the number of each request", first)
			}
			isMust := rule != "content-type" && rule != "accepts-incomplete"
			if report.BreaksMust(got.Broken) != isMust || got.IsClean() == isMust {
				t.Errorf("got\n%s\nwant the verdict of the rule's level", textOf(t, got))
			}
		})
	}
}

// A report is clean only if nothing was found, and the run has ended.
func TestIsClean(t *testing.T) {
	must := report.Violation{CaseResult: conform.CaseResult{Case: conform.Case{Level: conform.Must}}}
	should := report.Violation{CaseResult: conform.CaseResult{Case: conform.Case{Level: conform.Should}}}
	one := []report.Finding{{}}
	for name, test := range map[string]struct {
		report  run.Report
		isClean bool
	}{
		"nothing": {run.Report{}, true}, "abandoned": {run.Report{Lost: one}, false}, "false": {run.Report{False: one}, false},
		"untried": {run.Report{Untried: []string{"x"}}, false}, "stuck": {run.Report{Stuck: one}, false}, "exists": {run.Report{Exists: one}, true},
		"must": {run.Report{Broken: []report.Violation{must}}, false}, "ended": {run.Report{Ended: "x"}, false},
		"should": {run.Report{Broken: []report.Violation{should}}, true},
	} {
		t.Run(name, func(t *testing.T) {
			test.report.IsOfPlatform = true
			diff.Equal(t, test.report.IsClean(), test.isClean, "%s: it is clean", name)
		})
	}
}

// A storm in which no fault befell a request isn't clean, unless no fault was wanted. Each form says what to do.
func TestUntried(t *testing.T) {
	for name, test := range map[string]struct {
		share float64
		list  []fault.Injection
		says  string
	}{
		"none of many": {1e-9, nil, "no request had a fault. Let the platform send more requests, "},
		"none of list": {0.4, listOf(map[int]fault.Kind{99: fault.HangUp}), "no request had a fault. Pass the --seed "},
		"no share":     {0, nil, ""},
		"empty list":   {0.4, []fault.Injection{}, ""},
	} {
		test := test
		t.Run(name, func(t *testing.T) {
			t.Parallel()
			options := optionsFor(t)
			options.Share, options.List, options.Time, options.RequestTime = test.share, test.list, time.Second, unhurried
			report := runStorm(t, options, mistakes{}, true)
			if report.IsClean() != (test.says == "") || len(report.Lost)+len(report.False)+len(report.Stuck) > 0 {
				t.Errorf("got\n%s\nwant the verdict of the list, and nothing lost, false or stuck", textOf(t, report))
			}
			for form, text := range stormtest.Forms(t, report) {
				before := map[string]string{
					"text": "\nNOT TRIED: ", "JSON": "\"untried\": [\n    \"", "HTML": "<th>Wrong</th><td>NOT TRIED: ",
				}[form]
				diff.Equal(t, strings.Contains(text, before+test.says), test.says != "", "%s: %q in %s", form, test.says, text)
			}
		})
	}
}

// If no request arrives, or the run is ended before, the report isn't clean, and nothing is left.
func TestEnded(t *testing.T) {
	options := optionsFor(t)
	options.WaitTime, options.Share = 100*time.Millisecond, 0
	storm := diff.Value(Start(context.Background(), options))(t)
	report := storm.Run(context.Background())
	if report.IsClean() || !strings.HasPrefix(report.Ended, "no request about an instance came") {
		t.Errorf("got\n%s\nwant an end because no request came", textOf(t, report))
	}
	diff.NoError(t, storm.Close(), "")
	options.WaitTime = time.Minute
	storm = diff.Value(Start(context.Background(), options))(t)
	m := newModel(t, storm.URL(), mistakes{}, unhurried)
	body := map[string]any{
		"service_id": goods.Service, "plan_id": goods.Later, "organization_guid": "o", "space_guid": "s",
	}
	sent := m.send(context.Background(), http.MethodPut, "/v2/service_instances/one?accepts_incomplete=true", body)
	ctx, cancel := context.WithCancel(context.Background())
	cancel()
	report = storm.Run(ctx) // nobody waits for what the platform does next
	if report.IsClean() || report.Ended != "the run was ended before" || sent.status != 202 || len(report.Stuck) > 0 {
		t.Errorf("got the status %d and %d that are stuck, want 202 and none, in a run that was ended:\n%s",
			sent.status, len(report.Stuck), textOf(t, report))
	}
	diff.NoError(t, storm.Close(), "")
	stormtest.Empty(t, options.Folder)
}

// The faults end, and after the run no request is answered.
func TestAfterRun(t *testing.T) {
	options := optionsFor(t)
	options.Share, options.Time, options.SettleTime = 1, 50*time.Millisecond, 50*time.Millisecond
	storm := diff.Value(Start(context.Background(), options))(t)
	defer storm.Close()
	m := newModel(t, storm.URL(), mistakes{}, options.RequestTime)
	m.send(context.Background(), http.MethodGet, "/v2/service_instances/one/last_operation", nil)
	next := storm.source.Next(fault.Subject{Instance: 100})
	diff.Equal(t, next.Kind == fault.None, false, "the faults end before the run")
	diff.Equal(t, storm.Run(context.Background()).Ended, "", "why the run ended before")
	after := storm.source.Next(fault.Subject{Instance: 99})
	diff.Equal(t, after.Kind, fault.None, "the fault of a request after the run")
	a := m.send(context.Background(), http.MethodGet, "/v2/catalog", nil)
	diff.Equal(t, a.status, 0, "the status of a request after the run")
}

// At the end of the run, too, a list command may take longer than the broker's operations.
func TestListIsSlow(t *testing.T) {
	t.Parallel()
	options, _ := orderingOptions(t, 1)
	options.Commands.List, options.SettleTime = "sleep 0.5; "+options.Commands.List, time.Minute
	storm := diff.Value(Start(context.Background(), options))(t)
	defer storm.Close()
	storm.restTime = 200 * time.Millisecond
	if report := storm.Run(context.Background()); len(report.Failed) > 0 || !report.Converged || !report.IsClean() {
		t.Errorf("got the failures %q, want a clean report of a storm that has converged:\n%s",
			report.Failed, textOf(t, report))
	}
}

// A signal during the last look ends the list command. The list is asked for once more, and that is no failure.
func TestListIsCutOff(t *testing.T) {
	t.Parallel()
	options, folder := orderingOptions(t, 1)
	options.Commands.List = strings.ReplaceAll(
		"[ ! -e F/first ] || [ -e F/last ] || { touch F/last; sleep 1000; }; [ -e F/first ] || { touch F/first; sleep 1000; }; ",
		"F/", folder+"/") + options.Commands.List
	ctx, cancel := context.WithCancel(context.Background())
	go cancelOnce(filepath.Join(folder, "last"), cancel)
	report, took := runOrders(t, ctx, options)
	if len(report.Failed) > 0 || report.Ended != run.EndedBefore || report.Inventory != knownByList || took > time.Minute {
		t.Errorf("got an end after %v with the failures %q, want one by the signal within a minute, without any:\n%s",
			took, report.Failed, textOf(t, report))
	}
}

// What goes wrong at the storm's broker is noted, unless the broker has rejected a request.
func TestBrokerFails(t *testing.T) {
	s := &shop{}
	for _, isRejection := range []bool{true, false} {
		broker.Observer(s).OnFailure(broker.Failure{Event: "store", Err: errors.New("broken"), IsRejection: isRejection})
	}
	wanted := []string{"the broker of osb-storm: store: broken"}
	diff.Check(t, s.failures(), wanted, "the failures")
}

// A list command that fails is reported, and no record is judged.
func TestListFails(t *testing.T) {
	options := optionsFor(t)
	options.Commands.List, options.WaitTime = "echo broken >&2; exit 3", 50*time.Millisecond
	storm := diff.Value(Start(context.Background(), options))(t)
	defer storm.Close()
	report := storm.Run(context.Background())
	if len(report.Failed) != 1 || !strings.Contains(report.Failed[0], "(broken)") {
		t.Errorf("got the failures %v, want (broken)", report.Failed)
	}
}

// No report has the password, credentials, or what a platform sends in a body.
func TestNoSecrets(t *testing.T) {
	t.Parallel()
	options := optionsFor(t)
	options.Time, options.SettleTime, options.RequestTime = 2*time.Second, time.Second, unhurried
	options.List = []fault.Injection{}
	for instance := 1; instance <= 500; instance++ { // the broker answers with credentials, and the answers are lost
		subject := fault.Subject{Instance: instance, Binding: 1}
		lost := fault.Injection{Number: fault.Number{Subject: subject, Request: 1}, Kind: fault.AnswerLost}
		options.List = append(options.List, lost)
	}
	report := runStorm(t, options, mistakes{forgetsTimeout: true, noType: true}, false)
	if !stormtest.HasBinding(report.Lost) || len(report.Broken) == 0 {
		t.Fatalf("got\n%s\nwant a binding that is lost, and a rule that is broken", textOf(t, report))
	}
	if len(report.Stuck) == 0 || stormtest.HasBinding(report.Stuck) { // the instances can't be deleted before their bindings
		t.Errorf("got\n%s\nwant instances that are stuck, and no binding", textOf(t, report))
	}
	for form, text := range stormtest.Forms(t, report) {
		for part, isWanted := range map[string]bool{
			"a-secret-parameter": false, `"token"`: false, "Basic ": false, "standard asks for a deletion": true, "(left out)": true,
		} {
			diff.Equal(t, strings.Contains(text, part), isWanted, "%s: it has %s", form, part)
		}
	}
}

// The same list of faults gives the same requests the same faults. Those that no request has met are in each form.
func TestList(t *testing.T) {
	options := optionsFor(t)
	options.List = []fault.Injection{
		{Number: fault.Number{Subject: fault.Subject{Instance: 1}, Request: 1}, Kind: fault.AnswerLost},
		{Number: fault.Number{Subject: fault.Subject{Instance: 99}, Request: 1}, Kind: fault.AnswerLost},
	}
	options.Time, options.SettleTime, options.RequestTime = time.Second, time.Second, unhurried
	report := runStorm(t, options, mistakes{forgetsTimeout: true}, false)
	diff.Check(t, report.Given, []string{"1.1 answer-lost"}, "the faults")
	if len(report.Lost) != 1 || report.Lost[0].Number != "1" {
		t.Errorf("got\n%s\nwant instance 1 lost", textOf(t, report))
	}
	for form, text := range stormtest.Forms(t, report) {
		diff.Contains(t, text, "99.1 answer-lost", "%s", form)
	}
	text := textOf(t, report)
	diff.Contains(t, text, "1 fault of the list met no request: 99.1 answer-lost\n", "")
}

func TestConfigRejected(t *testing.T) {
	for name, change := range map[string]func(*Options){
		"share":            func(c *Options) { c.Share = 1.1 },
		"time":             func(c *Options) { c.Time = 0 },
		"list of bindings": func(c *Options) { c.Commands.ListBindings = "x" },
		"minimize":         func(c *Options) { c.MinimizeTime = time.Minute },
		"restart":          func(c *Options) { c.List = []fault.Injection{{Kind: fault.RestartAfter}} },
		"user":             func(c *Options) { c.User = "a:b" },
		"address":          func(c *Options) { c.Address = "127.0.0.1:99999" },
	} {
		t.Run(name, func(t *testing.T) {
			options := optionsFor(t)
			change(&options)
			diff.Error(t, diff.Err(Start(context.Background(), options)), "%s", name)
			stormtest.Empty(t, options.Folder)
		})
	}
}

// docs/storm.md has each rule, with its level and its section.
func TestDocumented(t *testing.T) {
	text := diff.Value(os.ReadFile("../../../../docs/storm.md"))(t)
	cases := []conform.Case{mitigates, mitigatesBind, repeats}
	for _, rule := range rules() {
		cases = append(cases, rule.Case)
	}
	for _, test := range cases {
		found := false
		for _, line := range strings.Split(string(text), "\n") {
			columns := strings.Split(line, " | ")
			found = found || len(columns) == 4 && strings.Contains(columns[0], "`"+test.Name+"`") &&
				columns[1] == string(test.Level) && strings.Contains(columns[2], test.Section)
		}
		diff.Equal(t, found, true, "%s has a row (%s, section %s)", test.Name, test.Level, test.Section)
	}
}

// With a folder for journals, each request that reaches the broker is in its journal, with its answer, and so are the
// changes and the calls of the backend. The journal has the plans, and its end.
func TestJournal(t *testing.T) {
	t.Parallel()
	options := optionsFor(t)
	options.Journal = filepath.Join(t.TempDir(), "journals")
	report := runStorm(t, options, mistakes{}, true)
	names := diff.Value(filepath.Glob(filepath.Join(options.Journal, "broker", "broker-*.jsonl")))(t)
	diff.Len(t, names, 1, "")
	text := diff.Value(os.ReadFile(names[0]))(t)
	counts, instances, open := map[string]int{}, map[string]bool{}, map[int]bool{}
	var last string
	for lines := bufio.NewScanner(bytes.NewReader(text)); lines.Scan(); {
		var line struct {
			Event, Instance string
			Visit           int
			Plans           []any
		}
		check(t, json.Unmarshal(lines.Bytes(), &line))
		counts[line.Event]++
		switch line.Event {
		case "started":
			if len(line.Plans) != 4 || last != "" {
				t.Errorf("the beginning: got %s and %s, want the four plans", last, lines.Text())
			}
		case "arrived":
			instances[line.Instance], open[line.Visit] = true, true
		case "answered":
			delete(open, line.Visit)
		}
		last = line.Event
	}
	if last != "stopped" || len(open) > 0 || counts["work"] == 0 || counts["changed"] == 0 {
		t.Errorf("the end: got %s, %v not answered and %v, want stopped and all answered", last, open, counts)
	}
	if counts["arrived"] < report.Requests/3 || len(instances) < report.Instances/2 {
		t.Errorf("got %v of %d instances, want most of the report's %d requests and %d instances", counts, len(instances),
			report.Requests, report.Instances)
	}
}

// A journal that can't be opened ends the storm before it listens.
func TestNoJournal(t *testing.T) {
	options := optionsFor(t)
	options.Journal = filepath.Join(t.TempDir(), "file")
	check(t, os.WriteFile(options.Journal, nil, 0o600))
	if storm, err := Start(context.Background(), options); err == nil {
		_ = storm.Close()
		t.Error("a file: got no error, want that it is no folder")
	}
	stormtest.Empty(t, options.Folder)
}

var check = diff.Must
