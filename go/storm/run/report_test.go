package run

import (
	"bufio"
	"context"
	"encoding/base64"
	"encoding/json"
	"encoding/xml"
	"errors"
	"fmt"
	"html"
	"io"
	"net/http"
	"net/http/httptest"
	"os"
	"path/filepath"
	"regexp"
	"strings"
	"sync"
	"testing"
	"time"

	"pippinterm/internal/diff"
	"pippinterm/internal/journalfile"
	"pippinterm/osb"
	"pippinterm/storm/conform"
	"pippinterm/storm/fault"
	"pippinterm/storm/report"
	"pippinterm/storm/stormtest"
)

const hostile = `<script>alert("&'1")</script>`

// hostileReport has a text of the broker wherever one may stand.
func hostileReport() *Report {
	life := []report.Item{
		{Seconds: 1, Number: "1.1", Who: "request", What: hostile, Fault: "hang-up", Until: 2},
		{Seconds: 1.5, Number: "1.1", Who: "broker", What: hostile}, {Seconds: 2, Who: "record", What: hostile},
		{Seconds: 1.2, Who: "broker", What: hostile},
	}
	finding := Finding{Number: "1", Instance: "ours", Binding: hostile, What: hostile, Life: life}
	return &Report{
		URL: "http://" + hostile, Service: hostile, Plan: hostile, Ended: hostile, Inventory: hostile,
		Lost: []Finding{finding}, False: []Finding{finding}, Stuck: []Finding{finding},
		Minimum: Minimum{MinimalLost: []Finding{finding}, Minimal: []string{hostile}}, Given: []string{hostile}, Notes: []string{hostile}, Failed: []string{hostile},
		Leftovers: []conform.Leftover{{Instance: hostile, Reason: hostile}},
		Broken:    []Violation{brokenWith(conform.CaseResult{Reason: hostile, Sent: hostile, Came: hostile}, hostile)},
	}
}

func brokenWith(result conform.CaseResult, number string) Violation {
	return Violation{CaseResult: result, Number: number, Count: 1}
}

// A broker's text is text in the page, wherever it stands. The page has no script, and needs nothing else.
func TestHTML(t *testing.T) {
	page := stormtest.Forms(t, hostileReport())["HTML"]
	diff.Lacks(t, page, "<script", "a text of the broker: page")
	diff.Lacks(t, page, "alert(\"", "a text of the broker: page")
	diff.AtLeast(t, strings.Count(page, "&lt;script&gt;"), 40, "the text")
	elsewhere := regexp.MustCompile(`(src|href)=|url\(|@import`)
	diff.Equal(t, elsewhere.FindString(page), "", "what the page has from elsewhere")
	// Apart from the void elements, the page is XML: each element ends.
	page = strings.Replace(page, "<!DOCTYPE html>", "", 1)
	text := regexp.MustCompile(`<(meta)([^>]*)>`).ReplaceAllString(page, "<$1$2/>")
	decoder := xml.NewDecoder(strings.NewReader(text))
	for {
		_, err := decoder.Token()
		if errors.Is(err, io.EOF) {
			break
		}
		check(t, err)
	}
	diff.Equal(t, strings.Count(page, `<rect class="request fault"`), 4, "requests with a fault in the picture")
}

// No report has the password or credentials, even if the broker repeats them in its errors.
func TestNoSecrets(t *testing.T) {
	t.Parallel()
	m, options := optionsForModel(t, false, mistakes{losesBindings: true, forgetsUnread: true, talks: true})
	options.Commands = m.commands()
	got := runStorm(t, options)
	if !stormtest.HasBinding(got.Lost) {
		t.Fatalf("got\n%s\nwant a binding that is lost", textOf(t, got))
	}
	login := base64.StdEncoding.EncodeToString([]byte("platform:" + password))
	for name, text := range stormtest.Forms(t, got) {
		for _, word := range []string{password, secret, login, fmt.Sprint(pin)} {
			diff.Lacks(t, text, word, "%s", name)
		}
		diff.Contains(t, text, report.Hidden, "%s", name)
	}
	var read map[string]any
	if err := json.Unmarshal([]byte(stormtest.Forms(t, got)["JSON"]), &read); err != nil || len(read["lost"].([]any)) == 0 {
		t.Errorf("got the error %v, want JSON in which something is lost", err)
	}
}

// If the trial fails, neither the error nor what is left has the password that the broker repeats.
func TestNoSecretsInErrors(t *testing.T) {
	t.Parallel()
	talk := func(w http.ResponseWriter, r *http.Request) {
		w.Header().Set("Content-Type", "application/json")
		status, body := 500, object{"description": "who sends " + r.Header.Get("Authorization") + ", which is " + password + "?"}
		if r.URL.Path == "/v2/catalog" {
			status, body = 200, catalogue(true)
		}
		w.WriteHeader(status)
		_ = json.NewEncoder(w).Encode(body)
	}
	server := httptest.NewServer(http.HandlerFunc(talk))
	defer server.Close()
	options := optionsFor(t, server.URL)
	options.Broker.Pause = time.Millisecond
	options.Commands.List = "echo " + password + " >&2; exit 3"
	storm := openStorm(t, options)
	got, failed := storm.Run(context.Background(), context.Background())
	if !errors.Is(failed, ErrTrial) || len(got.Leftovers) != 1 {
		t.Fatalf("got the error %v and the leftovers %v, want %v and one", failed, got.Leftovers, ErrTrial)
	}
	m, url := newModel(t, false, mistakes{})
	options.Broker.URL = url
	storm = openStorm(t, options)
	_, listed := storm.Run(context.Background(), context.Background())
	if !errors.Is(listed, ErrList) || len(m.list(t)) > 0 {
		t.Fatalf("got the error %v, want %v", listed, ErrList)
	}
	login := base64.StdEncoding.EncodeToString([]byte("platform:" + password))
	for _, value := range append(mapOf(stormtest.Forms(t, got)), failed.Error(), listed.Error(), got.Leftovers[0].String()) {
		if strings.Contains(value, password) || strings.Contains(value, login[:12]) || !strings.Contains(value, report.Hidden) {
			t.Errorf("got %s, want no password and no login in it", value)
		}
	}
}

func mapOf(all map[string]string) (values []string) {
	for _, value := range all {
		values = append(values, value)
	}
	return values
}

// A report is clean only if nothing was found, and everything has converged.
func TestIsClean(t *testing.T) {
	clean := func() *Report { return &Report{Converged: true} }
	diff.Equal(t, clean().IsClean(), true, "a report without a finding is clean")
	must, should := conform.CaseResult{Case: conform.Case{Level: conform.Must}}, conform.CaseResult{}
	for name, change := range map[string]func(*Report){
		"lost": func(r *Report) { r.Lost = []Finding{{}} }, "false": func(r *Report) { r.False = []Finding{{}} },
		"stuck":   func(r *Report) { r.Stuck = []Finding{{}} },
		"must":    func(r *Report) { r.Broken = []Violation{brokenWith(must, "")} },
		"unknown": func(r *Report) { r.Unknown = 1 },
		"untried": func(r *Report) { r.Untried = []string{"x"} },
		"ended":   func(r *Report) { r.Ended = "x" }, "not converged": func(r *Report) { r.Converged = false },
	} {
		t.Run(name, func(t *testing.T) {
			report := clean()
			change(report)
			diff.Equal(t, report.IsClean(), false, "%s: it is clean", name)
		})
	}
	report := clean()
	report.Broken = []Violation{brokenWith(should, "")}
	diff.Equal(t, report.IsClean(), true, "a report with a SHOULD is clean")
}

// What nobody could ask for doesn't count as nothing lost: each form says how many, and which option helps.
func TestUnasked(t *testing.T) {
	for _, test := range []struct {
		unknown         int
		inventory, line string
		verdict         string
	}{
		{0, "asked", "", "0 lost, 0 false records, "},
		{1, "asked", "1 instance or binding couldn't be asked for: give --list-command",
			"0 lost of those that could be asked for, 1 couldn't be asked for, 0 false records, "},
		{7, ByListCommand, "7 instances and bindings couldn't be asked for: give --list-bindings-command",
			"0 lost of those that could be asked for, 7 couldn't be asked for, 0 false records, "},
	} {
		t.Run(fmt.Sprint(test.unknown), func(t *testing.T) {
			report := emptyReport()
			report.Converged, report.Unknown, report.Inventory = true, test.unknown, test.inventory
			diff.Equal(t, report.IsClean(), test.unknown == 0, "%d: it is clean", test.unknown)
			for form, text := range stormtest.Forms(t, report) {
				text = html.UnescapeString(text)
				if form != "JSON" && !(strings.Contains(text, test.line) && strings.Contains(text, test.verdict)) {
					t.Errorf("%s: got %s, want %q and %q", form, text, test.line, test.verdict)
				}
				if form != "JSON" && test.unknown == 0 && strings.Contains(text, "asked for") {
					t.Errorf("%s: got %s, want nothing about what couldn't be asked for", form, text)
				}
			}
		})
	}
}

// If something is lost without any fault, the report says so in place of the list.
func TestNoFaultIsNeeded(t *testing.T) {
	for _, minimal := range [][]string{nil, {}, {"1.1 request-lost"}} {
		t.Run(fmt.Sprintf("%q", minimal), func(t *testing.T) {
			report := emptyReport()
			report.Minimal = minimal
			isSaid := minimal != nil && len(minimal) == 0
			for form, text := range stormtest.Forms(t, report) {
				if form != "JSON" && strings.Contains(text, "none: something is lost without any fault") != isSaid {
					t.Errorf("%q, %s: got %s, want that no fault is needed: %v", minimal, form, text, isSaid)
				}
			}
		})
	}
}

// Faults of a list that meet no request are named in each form.
func TestUnmet(t *testing.T) {
	t.Parallel()
	_, options := optionsForModel(t, false, mistakes{})
	options.Broker.Instances, options.Time = 2, time.Second
	options.List = listOf(t, "99.1 answer-lost\n1.1 answer-lost\n98/1.2 hang-up")
	for form, text := range stormtest.Forms(t, runStorm(t, options)) {
		wanted := "2 faults of the list met no request: 98/1.2 hang-up, 99.1 answer-lost"
		if form == "JSON" {
			wanted = "\"unmet_faults\": [\n    \"98/1.2 hang-up\",\n    \"99.1 answer-lost\"\n  ]"
		}
		diff.Contains(t, text, wanted, "%s", form)
	}
	for form, text := range stormtest.Forms(t, emptyReport()) {
		if strings.Contains(text, "met no request") || form == "JSON" && !strings.Contains(text, `"unmet_faults": []`) {
			t.Errorf("%s: got %s, want no unmet faults", form, text)
		}
	}
}

// A storm in which no fault befell a request isn't clean, unless no fault was wanted or the storm was ended. Each form
// says what to do.
func TestUntriedFaults(t *testing.T) {
	list := listOf(t, "99.1 answer-lost")
	for name, test := range map[string]struct {
		share       float64
		list, given []fault.Injection
		ended, says string
	}{
		"none of many": {0.4, nil, nil, "", "no request had a fault. Pass a greater number to --instances, "},
		"none of list": {0.4, list, nil, "", "no request had a fault. Pass the --seed "},
		"list alone":   {0, list, nil, "", "no request had a fault. Pass the --seed "},
		"one":          {0.4, nil, list, "", ""},
		"one of list":  {0.4, list, list, "", ""},
		"no share":     {0, nil, nil, "", ""},
		"empty list":   {0.4, []fault.Injection{}, nil, "", ""},
		"ended":        {0.4, nil, nil, "x", ""},
	} {
		t.Run(name, func(t *testing.T) {
			report := emptyReport()
			report.Converged, report.given, report.Ended = true, test.given, test.ended
			report.takeUntried(Options{Share: test.share, List: test.list})
			if report.IsClean() != (test.says == "" && test.ended == "") {
				t.Errorf("%s: got clean %v, want %v", name, report.IsClean(), test.says == "" && test.ended == "")
			}
			for form, text := range stormtest.Forms(t, report) {
				wanted := map[string]string{
					"JSON": "\"untried\": [\n    \"" + test.says, "text": "\nNOT TRIED: " + test.says,
					"HTML": "<th>Wrong</th><td>NOT TRIED: " + test.says,
				}[form]
				diff.Equal(t, strings.Contains(text, wanted), test.says != "", "%s, %s: %q in %s", name, form, wanted, text)
			}
		})
	}
}

// The storm itself counts: one whose few requests have no fault isn't clean.
func TestStormWithoutFault(t *testing.T) {
	t.Parallel()
	_, options := optionsForModel(t, false, mistakes{})
	options.Broker.Instances, options.Time, options.Share = 2, time.Second, 1e-9
	report := runStorm(t, options)
	if report.IsClean() || len(report.Untried) != 1 || !report.Converged || len(report.Lost) > 0 {
		t.Errorf("got\n%s\nwant what is untried, and nothing else", textOf(t, report))
	}
	options.Share = 0
	if report := runStorm(t, options); !report.IsClean() {
		t.Errorf("got\n%s\nwant a clean report", textOf(t, report))
	}
}

// A storm that has found nothing is drawn, too, with the restarts of the broker.
func TestPictureOfCleanStorm(t *testing.T) {
	t.Parallel()
	m, options := optionsForModel(t, false, mistakes{})
	options.Commands, options.Time = m.commands(), 2*time.Second
	options.Commands.Restart = "true"
	options.List = listOf(t, "1.1 restart-after\n2.1 answer-lost")
	report := runStorm(t, options)
	if !report.IsClean() || report.Restarts != 1 {
		t.Fatalf("got\n%s\nwant a clean report and 1 restart", textOf(t, report))
	}
	page := stormtest.Forms(t, report)["HTML"]
	for _, part := range []string{
		"<h2>The storm</h2>", "<title>the broker is killed and started again</title>", "   FAULT: restart-after</title>",
		"   FAULT: answer-lost</title>",
	} {
		diff.Contains(t, page, part, "the page")
	}
	diff.Equal(t, strings.Count(page, "<svg"), 1, "pictures")
}

// A journalLine is what the tests read of a line of a journal.
type journalLine struct {
	Process, Side, Event, Request, Instance, Binding, Kind, State, Lost string
	Attempt                                                             uint64
	Status                                                              int
}

// linesOf returns the lines of all files of a folder, process by process.
func linesOf(t *testing.T, folder string) (all []journalLine) {
	t.Helper()
	names := diff.Value(filepath.Glob(filepath.Join(folder, "platform-*.jsonl")))(t)
	for _, name := range names {
		file := diff.Value(os.Open(name))(t)
		defer file.Close()
		for lines := bufio.NewScanner(file); lines.Scan(); {
			var it journalLine
			check(t, json.Unmarshal(lines.Bytes(), &it))
			all = append(all, it)
		}
	}
	return all
}

// An arrival is a request about an instance or a binding, as a broker gets it.
type arrival struct {
	method, path string
	hasTime      bool // of a journal
}

// noted serves a broker until the end of the test, and notes each request with an id, by its id.
func noted(t *testing.T, of http.Handler) (url string, arrivals func() map[string]arrival) {
	t.Helper()
	var mutex sync.Mutex
	all := map[string]arrival{}
	server := httptest.NewServer(http.HandlerFunc(func(w http.ResponseWriter, r *http.Request) {
		if r.URL.Path != "/v2/catalog" {
			mutex.Lock()
			all[r.Header.Get(osb.RequestIdentityHeader)] = arrival{r.Method, r.URL.Path, r.Header.Get(journalfile.Header) != ""}
			mutex.Unlock()
		}
		of.ServeHTTP(w, r)
	}))
	t.Cleanup(server.Close)
	return server.URL, func() map[string]arrival {
		mutex.Lock()
		defer mutex.Unlock()
		return all
	}
}

// With a folder for journals, each request that reaches the broker is in one of them before, whether the platform or
// osb-storm itself has sent it, and the platform deletes everything that it has created. The answers are there, too.
func TestJournals(t *testing.T) {
	for _, isAsync := range []bool{false, true} {
		isAsync := isAsync
		t.Run("", func(t *testing.T) {
			t.Parallel()
			m, options := optionsForModel(t, isAsync, mistakes{})
			options.Commands.ListBindings = "" // osb-storm fetches the bindings
			own := checkJournals(t, m, m, options)
			if own["fetch"] == 0 || own["deprovision"] == 0 || own["provision"] > 0 {
				t.Errorf("got %v that aren't the platform's, want its fetches and deprovisions, and no provision", own)
			}
		})
	}
}

// With a folder for journals, the instances are updated, too. Each request of an Update is in a journal.
func TestJournalsOfUpdates(t *testing.T) {
	m, options := newUpdatable(t, true, truthful)
	own := checkJournals(t, m.model, m, options)
	if own["update"] < 10 || own["poll"] == 0 || own["deprovision"] == 0 || own["provision"] > 0 {
		t.Errorf("got %v that aren't the platform's, want its updates, polls and deprovisions, and no provision", own)
	}
}

// checkJournals runs a storm with journals against a broker over a model, and checks them. It returns the requests that
// osb-storm itself has sent, counted by their kinds.
func checkJournals(t *testing.T, m *model, of http.Handler, options BrokerOptions) (own map[string]int) {
	t.Helper()
	url, arrivals := noted(t, of)
	options.Broker.URL, options.Journal = url, filepath.Join(t.TempDir(), "journals")
	report := runStorm(t, options)
	if !report.IsClean() || len(report.Failed) > 0 || len(report.Leftovers) > 0 {
		t.Errorf("got\n%s\nwant a clean report and nothing left", textOf(t, report))
	}
	m.expectNothing(t)
	stormtest.Empty(t, options.Folder)
	lines := linesOf(t, filepath.Join(options.Journal, "platform"))
	checkDeletions(t, lines, report)
	return checkRequests(t, lines, arrivals())
}

// checkRequests compares the requests of journals with those that a broker got. It returns those of osb-storm itself,
// counted by their kinds.
func checkRequests(t *testing.T, lines []journalLine, arrivals map[string]arrival) (own map[string]int) {
	t.Helper()
	sent, answered := map[string]journalLine{}, map[string]bool{}
	for _, line := range lines {
		switch line.Event {
		case "sent":
			sent[line.Request] = line
		case "answered":
			answered[line.Request] = line.Status != 0 || line.Lost != ""
		}
	}
	own = map[string]int{}
	for id, arrival := range arrivals {
		line, is := sent[id]
		if kind := kindOf(arrival); !is || !arrival.hasTime || line.Kind != kind || !answered[id] {
			t.Fatalf("%+v: got the line %+v of a %s, answered %v, want that of the arrival", arrival, line, kind, answered[id])
		}
		if wanted := "/v2/service_instances/" + line.Instance; !strings.HasPrefix(arrival.path, wanted) ||
			strings.Contains(arrival.path, "/service_bindings/") != (line.Binding != "") || !strings.Contains(arrival.path, line.Binding) {
			t.Errorf("%+v: got the line %+v, want one of its instance and binding", arrival, line)
		}
		if line.Attempt == 0 {
			own[line.Kind]++
		}
	}
	diff.AtLeast(t, len(arrivals), 50, "requests")
	return own
}

func kindOf(it arrival) string {
	switch {
	case strings.HasSuffix(it.path, "/last_operation"):
		return "poll"
	case it.method == http.MethodGet:
		return "fetch"
	case it.method == http.MethodPut:
		return "provision"
	case it.method == http.MethodPatch:
		return "update"
	}
	return "deprovision"
}

// checkDeletions checks that what was created is gone at the end, of each instance and of each binding.
func checkDeletions(t *testing.T, lines []journalLine, report *Report) {
	t.Helper()
	states, processes := map[Key]string{}, map[string]bool{}
	instances := 0
	for _, line := range lines {
		key := Key{Instance: line.Instance, Binding: line.Binding}
		if _, is := states[key]; line.Event == "changed" && !is && line.Binding == "" {
			instances++
		}
		if line.Event == "changed" {
			states[key] = line.State
		}
		processes[line.Process] = true
	}
	for key, state := range states {
		if state != "gone" && state != "withdrawn" {
			t.Errorf("%s: got %s at the end, want it gone or withdrawn", key, state)
		}
	}
	bindings := len(states) - instances // the platform may reject a binding, which the report counts all the same
	if instances != report.Instances || bindings == 0 || bindings > report.Bindings || len(processes) != 3 {
		t.Errorf("got %d instances, %d bindings and %d processes, want those of the report, %d and %d, and 3", instances,
			bindings, len(processes), report.Instances, report.Bindings)
	}
}

// Without list commands, what only a deletion shows is judged by the platform's own deletion if there is one.
func TestJournalsByDeletion(t *testing.T) {
	t.Parallel()
	inOneStorm(t, func(seed int64) string {
		m, options := optionsForModel(t, false, mistakes{blind: true, mute: true})
		options.Seed, options.Journal = seed, t.TempDir()
		report := runStorm(t, options)
		if left := m.list(t); !report.IsClean() || report.Unknown > 0 || len(left) > 0 {
			return textOf(t, report)
		}
		return ""
	})
}

func TestDeletedSince(t *testing.T) {
	const begun = time.Second
	deletion := func(instance string, at time.Duration, statuses ...int) fault.Exchange {
		it := fault.Exchange{Method: http.MethodDelete, Instance: instance, Begun: at}
		for _, status := range statuses {
			it.Deliveries = append(it.Deliveries, fault.Delivery{Status: status})
		}
		return it
	}
	creation := deletion("created", begun, 201)
	creation.Method = http.MethodPut
	found := deletedSince(begun, []fault.Exchange{
		deletion("before", 0, 200), creation, deletion("lost", begun), deletion("here", begun, 202, 410),
		deletion("here", 2*begun, 410), deletion("missing", begun, 410, 200), deletion("failed", begun, 500),
	})
	for instance, wanted := range map[string]Existence{
		"before": Unknown, "created": Unknown, "lost": Unknown, "here": Exists, "missing": Missing, "failed": Unknown,
	} {
		t.Run(instance, func(t *testing.T) {
			diff.Equal(t, found[Key{Instance: instance}], wanted, "%s", instance)
		})
	}
}

// A journal that can't be opened ends the storm before anything is created.
func TestNoJournals(t *testing.T) {
	_, options := optionsForModel(t, false, mistakes{})
	options.Journal = filepath.Join(t.TempDir(), "file")
	check(t, os.WriteFile(options.Journal, nil, 0o600))
	diff.Error(t, diff.Err(NewBroker(options)), "a file")
}
