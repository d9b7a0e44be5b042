package platform

import (
	"bytes"
	"context"
	"errors"
	"fmt"
	"net"
	"os"
	"path/filepath"
	"reflect"
	"strings"
	"syscall"
	"testing"
	"time"

	"pippinterm/internal/diff"
	"pippinterm/internal/waits"
	"pippinterm/storm/fault"
	"pippinterm/storm/run"
	"pippinterm/storm/run/goods"
	"pippinterm/storm/stormtest"
)

// ordering is an order command: a platform that creates some instances, one after the other, and lists those for whose
// creation it got a 201. It forgets all others. In each run it begins again, with ids of its own.
const ordering = `
: >LISTED
for number in $(seq COUNT); do
	id=$$-$number
	status=$(curl -s -m 5 -o BODY -w '%{http_code}' -u platform:secret -X PUT -H 'X-Broker-API-Version: 2.17' \
		-H 'Content-Type: application/json' -d '{"service_id": "SERVICE", "plan_id": "PLAN", "organization_guid": "o",
		"space_guid": "s"}' "$OSB_STORM_URL/v2/service_instances/$id")
	[ "$status" != 201 ] || echo $id >>LISTED
done
echo $OSB_STORM_URL >>URLS
`

// orderingOptions are Options with an order command that creates instances, and the folder of its files.
func orderingOptions(t *testing.T, count int, list ...string) (Options, string) {
	t.Helper()
	options, folder := optionsFor(t), t.TempDir()
	command := ordering
	for name, value := range map[string]string{
		"COUNT": fmt.Sprint(count), "SERVICE": goods.Service, "PLAN": goods.AtOnce,
		"LISTED": filepath.Join(folder, "listed"), "BODY": filepath.Join(folder, "body"), "URLS": filepath.Join(folder, "urls"),
	} {
		command = strings.ReplaceAll(command, name, value)
	}
	var err error
	options.List, err = fault.ReadList(strings.NewReader(strings.Join(list, "\n")))
	check(t, err)
	options.List = append([]fault.Injection{}, options.List...)
	options.Commands = run.Commands{Order: command, List: "cat " + filepath.Join(folder, "listed")}
	options.Time, options.SettleTime = 5*time.Minute, 300*time.Millisecond
	options.RequestTime, options.Journal = unhurried, filepath.Join(folder, "journals")
	return options, folder
}

// runOrders returns the report of a storm with an order command, and how long it took. Nothing is left in its folder.
func runOrders(t *testing.T, ctx context.Context, options Options) (*run.Report, time.Duration) {
	t.Helper()
	begun := time.Now()
	storm := diff.Value(Start(context.Background(), options))(t)
	report := storm.Run(ctx)
	diff.NoError(t, storm.Close(), "")
	stormtest.Empty(t, options.Folder)
	return report, time.Since(begun)
}

// A summary is what a report and the warnings say of a storm with an order command.
type summary struct {
	failed, notes        string
	ended, minimizeEnded string
	minimal              string
	runs, lost, bindings int
	warned               string
}

// What an order command does, and fails with, is reported.
func TestOrders(t *testing.T) {
	const (
		warning  = "osb-storm: the last lines that the order command has printed:\n"
		nothing  = "no request about an instance came until the order command ended"
		notFound = "--minimize was ended before a list was found that loses something"
		asks     = "curl -s -o /dev/null -u platform:secret -H 'X-Broker-API-Version: 2.17' $OSB_STORM_URL/v2/catalog; echo nothing"
		binds    = `
curl -s -m 5 -u platform:secret -X PUT -H 'X-Broker-API-Version: 2.17' -H 'Content-Type: application/json' \
	-d '{"service_id": "SERVICE", "plan_id": "PLAN"}' "$OSB_STORM_URL/v2/service_instances/$id/service_bindings/b"
exit 3`
	)
	for name, test := range map[string]struct {
		faults string
		order  string // the order command, in which ORDERS are those of the usual one, and FOLDER is the folder of its files
		change func(*Options)
		wanted summary
	}{
		// Nothing is shrunk after a run that has failed. What was abandoned before stays in the report.
		"fails": {"1.1 answer-lost", "ORDERS exit 3", minimize, summary{
			failed: "the order command has failed: exit status 3", lost: 1,
		}},
		// A request about anything else than an instance doesn't count.
		"orders nothing": {"", asks, dropLists, summary{ended: nothing, warned: warning + "  nothing\n"}},
		"orders nothing, and fails": {"", "echo nothing; exit 4", dropLists, summary{
			failed: "the order command has failed: exit status 4", ended: nothing, warned: warning + "  nothing\n",
		}},
		// The command goes on after its time, and fails because the broker is gone at the end of the run. That is no
		// failure. The list command takes so long that the order command ends before it is killed.
		"outlives the broker": {
			"1.1 answer-lost", "ORDERS while curl -s -o FOLDER/body $OSB_STORM_URL/v2/catalog; do sleep 0.05; done; " +
				"echo gone >>FOLDER/gone; exit 7",
			func(c *Options) {
				minimize(c)
				c.Commands.List, c.Time = "sleep 0.5; "+c.Commands.List, 500*time.Millisecond
			}, summary{minimal: "1.1 answer-lost", runs: 3, lost: 1},
		},
		// The last lines don't have the credentials that the broker has answered.
		"prints credentials": {"", "ORDERS " + binds, func(*Options) {}, summary{
			failed: "the order command has failed: exit status 3", bindings: 1,
			warned: warning + `  {"credentials":{"folder":"(left out)","token":"(left out)"}}` + "\n",
		}},
		"fails in a further run": {
			"1.1 answer-lost", "ORDERS [ $(wc -l <FOLDER/urls) = 1 ] || { echo broken secret; exit 3; }", minimize, summary{
				failed: "--minimize: the order command has failed: exit status 3", minimizeEnded: notFound, lost: 1,
				warned: warning + "  broken (left out)\n",
			},
		},
		// The report doesn't say that nothing was abandoned in it.
		"orders nothing in a further run": {
			"1.1 answer-lost", "[ ! -e FOLDER/urls ] || exit 0; ORDERS", minimize, summary{
				notes: "--minimize: in a further run, " + nothing, minimizeEnded: notFound, lost: 1,
			},
		},
	} {
		name, test := name, test
		t.Run(name, func(t *testing.T) {
			t.Parallel()
			options, folder := orderingOptions(t, 1, test.faults)
			test.change(&options)
			options.Commands.Order = strings.NewReplacer("ORDERS", options.Commands.Order, "FOLDER", folder, "SERVICE", goods.Service,
				"PLAN", goods.AtOnce).Replace(test.order)
			var warned bytes.Buffer
			options.Warnings = &warned
			report, took := runOrders(t, context.Background(), options)
			got := summary{
				strings.Join(report.Failed, "\n"), strings.Join(report.Notes, "\n"), report.Ended, report.MinimizeEnded,
				strings.Join(report.Minimal, "\n"), report.MinimizeRuns, len(report.Lost), report.Bindings,
				warned.String(),
			}
			if got != test.wanted || took > 50*time.Second {
				t.Errorf("got after %v\n%+v\nwant\n%+v", took, got, test.wanted)
			}
			_, err := os.Stat(filepath.Join(folder, "gone"))
			diff.Equal(t, err == nil, name == "outlives the broker", "the order command ran until it failed (%v)", err)
		})
	}
}

// minimize has a list of faults shrunk.
func minimize(c *Options) { c.MinimizeTime = time.Minute }

// dropLists leaves out the list commands and the list of faults.
func dropLists(c *Options) { c.Commands, c.List = run.Commands{}, nil }

// The faults end with the order command, or after their time if the command goes on then. At the end of the run, the
// command is killed with its children, and so is what a command has left behind that has ended. Neither is a failure.
func TestOrderEnds(t *testing.T) {
	for name, test := range map[string]struct {
		after string
		time  time.Duration
	}{
		"goes on":        {"sleep 1000 & echo $! >FOLDER/child; wait", time.Second},
		"leaves a child": {"sleep 1000 & echo $! >FOLDER/child", time.Minute},
	} {
		test := test
		t.Run(name, func(t *testing.T) {
			t.Parallel()
			options, folder := orderingOptions(t, 1)
			options.Commands.Order += strings.ReplaceAll(test.after, "FOLDER", folder)
			options.Time, options.SettleTime = test.time, time.Minute
			report, took := runOrders(t, context.Background(), options)
			if len(report.Failed) > 0 || !report.IsClean() || !report.Converged || took > 50*time.Second {
				t.Errorf("got an end after %v, want a clean report of a storm that has converged within 50 s:\n%s",
					took, textOf(t, report))
			}
			text := diff.Value(os.ReadFile(filepath.Join(folder, "child")))(t)
			waits.Until(t, "the child of the order command ends", func() bool {
				return !stormtest.IsRunning(string(bytes.TrimSpace(text)))
			})
		})
	}
}

// formsOf returns the report in its forms, and its list of faults.
func formsOf(t *testing.T, report *run.Report) map[string]string {
	t.Helper()
	all := stormtest.Forms(t, report)
	all["list"] = stormtest.TextOf(t, report.WriteFaults)
	return all
}

// The list is shrunk to the fault that has the platform forget, by runs at the same address with a broker that is
// empty. With this fault alone, an instance is abandoned again. Each run has a journal.
func TestMinimize(t *testing.T) {
	t.Parallel()
	options, folder := orderingOptions(t, 3, "1.1 answer-slow", "2.1 answer-lost", "3.1 request-lost")
	minimize(&options)
	options.Late = 100 * time.Millisecond
	report, _ := runOrders(t, context.Background(), options)
	if !reflect.DeepEqual(report.Minimal, []string{"2.1 answer-lost"}) || report.MinimizeEnded+report.Ended != "" {
		t.Fatalf("got\n%s\nwant the list 2.1 answer-lost", textOf(t, report))
	}
	if len(report.Lost) != 1 || len(report.MinimalLost) != 1 || len(report.Given) != 3 || len(report.Failed) > 0 {
		t.Errorf("got\n%s\nwant one life lost, with and without the minimal list", textOf(t, report))
	}
	again := report.MinimalLost[0]
	if first := report.Lost[0]; again.Number != "2" || first.Number != "2" || again.Instance == first.Instance {
		t.Errorf("got %+v and then %+v, want two instances of the number 2", first, again)
	}
	for form, parts := range map[string][]string{
		"text": {
			fmt.Sprintf("\nThe shortest list of faults that still loses one (%d runs):\n  2.1 answer-lost\n", report.MinimizeRuns),
			"\nwith these faults: instance 2 (" + again.Instance + "): it exists, and the platform doesn't have it. ",
			"FAULT: answer-lost",
		},
		"JSON": {`"minimal_fault_list": [` + "\n    \"2.1 answer-lost\"\n", `"minimal_lost": [`, `"minimize_runs": `, `"notes": []`},
		"HTML": {"The shortest list of faults that still loses one", "Abandoned with this list of faults", again.Instance},
		"list": {"2.1 answer-lost\n"},
	} {
		t.Run(form, func(t *testing.T) {
			for _, part := range parts {
				if text := formsOf(t, report)[form]; !strings.Contains(text, part) || form == "list" && text != part {
					t.Errorf("%s: got no %q, want it: %s", form, part, text)
				}
			}
		})
	}
	urls, err := os.ReadFile(filepath.Join(folder, "urls"))
	if runs := 1 + report.MinimizeRuns; err != nil || string(urls) != strings.Repeat(report.URL+"\n", runs) {
		t.Errorf("got %v and %d runs at %s, want each at one URL", err, runs, urls)
	}
	journals := diff.Value(filepath.Glob(filepath.Join(options.Journal, "broker", "broker-*.jsonl")))(t)
	diff.Len(t, journals, 1+report.MinimizeRuns, "")
}

// If nothing is abandoned, there is no further run. If something is abandoned without any fault, or in no further run,
// the report says so.
func TestMinimizeNotes(t *testing.T) {
	const first = "[ -e FOLDER/again ] || curl -s -u platform:secret -X PUT -H 'X-Broker-API-Version: 2.17' -d '%s' " +
		"$OSB_STORM_URL/v2/service_instances/more; touch FOLDER/again"
	body := fmt.Sprintf(`{"service_id": "%s", "plan_id": "%s", "organization_guid": "o", "space_guid": "s"}`,
		goods.Service, goods.AtOnce)
	for name, test := range map[string]struct {
		list  []string
		after string // what the order command does after its orders
		runs  int
		note  string
	}{
		"nothing":     {[]string{"1.1 answer-slow"}, "", 0, ""},
		"without any": {[]string{"1.1 answer-slow"}, ": >FOLDER/listed", 2, "--minimize: something is abandoned without any fault, too"},
		"only once": {
			[]string{"1.1 answer-slow"}, fmt.Sprintf(first, body), 6, "--minimize: in 6 further runs, nothing was abandoned",
		},
	} {
		test, isWithout := test, name == "without any"
		t.Run(name, func(t *testing.T) {
			t.Parallel()
			options, folder := orderingOptions(t, 1, test.list...)
			minimize(&options)
			options.Late = 100 * time.Millisecond
			options.Commands.Order += strings.ReplaceAll(test.after, "FOLDER", folder)
			report, _ := runOrders(t, context.Background(), options)
			if notes := strings.Join(report.Notes, ""); report.MinimizeRuns != test.runs || notes != test.note {
				t.Errorf("got %d runs and %s, want %d and %q\n%s", report.MinimizeRuns, notes, test.runs, test.note, textOf(t, report))
			}
			if report.IsClean() != (test.note == "") || report.NeedsNoFault() != isWithout {
				t.Errorf("got\n%s\nwant the verdict of the note", textOf(t, report))
			}
			for form, text := range formsOf(t, report) {
				isNone := strings.Contains(text, "none: something is abandoned without any fault")
				if form != "list" && !strings.Contains(text, test.note) || isNone != (isWithout && (form == "text" || form == "HTML")) {
					t.Errorf("%s: got %s, want the note %q", form, text, test.note)
				}
			}
		})
	}
}

// If the time is over, or at a signal, the shrinking ends at once, and the report has what was found and says so.
func TestMinimizeEnds(t *testing.T) {
	const notFound, isCut = " before a list was found that loses something", ": the list may not be the shortest"
	for name, test := range map[string]struct {
		hangs    string // the run whose order command goes on
		isSignal bool   // that run is ended by a signal
		minimal  []string
		ended    string
	}{
		"the time is over":   {"2", false, nil, "the time for --minimize was over" + notFound},
		"at once":            {"2", true, nil, "--minimize was ended" + notFound},
		"while it is shrunk": {"4", true, []string{"1.1 answer-lost", "1.2 answer-lost"}, "--minimize was ended" + isCut},
	} {
		test := test
		t.Run(name, func(t *testing.T) {
			t.Parallel()
			options, folder := orderingOptions(t, 1, "1.1 answer-lost", "1.2 answer-lost")
			minimize(&options)
			options.Commands.Order += strings.ReplaceAll("curl -s -m 5 -u platform:secret -H 'X-Broker-API-Version: 2.17' "+
				"$OSB_STORM_URL/v2/service_instances/$id; [ $(wc -l <FOLDER/urls) != "+test.hangs+
				" ] || { touch FOLDER/hangs; sleep 1000; }; true", "FOLDER", folder)
			ctx, cancel := context.WithCancel(context.Background())
			defer cancel()
			if test.isSignal {
				go cancelOnce(filepath.Join(folder, "hangs"), cancel)
			} else {
				options.MinimizeTime = time.Second
			}
			report, took := runOrders(t, ctx, options)
			if !reflect.DeepEqual(report.Minimal, test.minimal) || report.MinimizeEnded != test.ended || took > time.Minute {
				t.Errorf("got an end after %v, want the list %q and the end %q:\n%s",
					took, test.minimal, test.ended, textOf(t, report))
			}
			if (report.Ended == run.EndedBefore) != test.isSignal || len(report.Failed)+len(report.Notes) > 0 || report.IsClean() {
				t.Errorf("got the end %q and the failures %q, want an end by the signal: %v, and no failure",
					report.Ended, report.Failed, test.isSignal)
			}
			for form, text := range formsOf(t, report) {
				if form != "list" && (!strings.Contains(text, test.ended) || strings.Contains(text, "hortest list")) {
					t.Errorf("%s: got %s, want that it says %q, and of no shortest list", form, text, test.ended)
				}
				if form == "text" && !strings.Contains(text, "not everything cleaned up within ") { // in the first run
					t.Errorf("got\n%s\nwant that not everything was cleaned up", text)
				}
			}
		})
	}
}

// cancelOnce cancels once a file exists, within a time.
func cancelOnce(path string, cancel func()) {
	defer cancel()
	for until := time.Now().Add(20 * time.Second); time.Now().Before(until); time.Sleep(10 * time.Millisecond) {
		if _, err := os.Stat(path); err == nil {
			return
		}
	}
}

// A further run waits until nobody else has its address, but not if it is ended.
func TestStartAgain(t *testing.T) {
	t.Parallel()
	taken := diff.Value(net.Listen("tcp", "127.0.0.1:0"))(t)
	options := optionsFor(t)
	options.Address = taken.Addr().String()
	ctx, cancel := context.WithCancel(context.Background())
	cancel()
	begun := time.Now()
	if _, err := startAgain(ctx, options); !errors.Is(err, syscall.EADDRINUSE) || time.Since(begun) > portTime/2 {
		t.Errorf("got %v after %v, want %v at once", err, time.Since(begun), syscall.EADDRINUSE)
	}
	timer := time.AfterFunc(lookEach, func() { _ = taken.Close() })
	defer timer.Stop()
	storm := diff.Value(startAgain(context.Background(), options))(t)
	if err := storm.Close(); storm.URL() != "http://"+options.Address || err != nil {
		t.Errorf("got the error %v and the URL %s, want the address %s", err, storm.URL(), options.Address)
	}
}
