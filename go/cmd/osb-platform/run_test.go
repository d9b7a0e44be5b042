package main

import (
	"bytes"
	"encoding/json"
	"encoding/pem"
	"fmt"
	"io"
	"net/http"
	"net/http/httptest"
	"net/http/httputil"
	"net/url"
	"os"
	"os/exec"
	"path/filepath"
	"regexp"
	"strconv"
	"strings"
	"syscall"
	"testing"
	"time"

	"golang.org/x/sys/unix"

	"pippinterm/internal/diff"
	"pippinterm/internal/journalfile"
	"pippinterm/internal/programtest"
	"pippinterm/internal/sqlitefile"
	"pippinterm/internal/waits"
	"pippinterm/platform"
)

// A process is the program while it runs.
type process struct {
	*programtest.Program
	t   *testing.T
	out bytes.Buffer

	health, page, api string // where they are served
}

// start starts a worker over a store, and waits until it runs.
func start(t *testing.T, store string, environment []string, arguments ...string) *process {
	t.Helper()
	all := append([]string{"run", "--store", store, "--look-seconds", "0.02"}, arguments...)
	return launch(t, "running", osbPlatform(environment, all...))
}

// startAt starts a worker over a store with the broker default, and waits until that is reached.
func startAt(t *testing.T, s *testBroker, store string, arguments ...string) *process {
	t.Helper()
	p := start(t, store, ownPassword, append([]string{"--broker", s.url}, arguments...)...)
	p.Event("broker_reached")
	return p
}

// launch starts a process, and waits until its log has an event.
func launch(t *testing.T, event string, command *exec.Cmd) *process {
	t.Helper()
	p := &process{t: t}
	command.Stdout = &p.out
	p.Program = programtest.Start(t, command)
	started := p.Event(event)
	for name, to := range map[string]*string{"health": &p.health, "page": &p.page, "api": &p.api} {
		*to, _ = started[name].(string)
	}
	return p
}

// stop sends SIGTERM, and waits for the status 0. It returns the rest of the log.
func (p *process) stop() string {
	p.t.Helper()
	p.Terminate()
	return p.End()
}

// The whole way: a broker is added; an instance and a binding are created; the credentials are read; all is removed.
func TestWholeWay(t *testing.T) {
	s, store, key := newTestBroker(t), newPath(t), newKey(t)
	folder := t.TempDir()
	password, secret := filepath.Join(folder, "password"), filepath.Join(folder, "secret")
	write(t, password, "secret\n")
	wantLines(t, store, []line{
		{"broker add local " + s.url + " --password-file " + password + " --first-pace 0.01", 0, ``, ``},
		{"broker show local", 0, ".*\nplan\tSOLD\tby-worker\t.*\tbindable", ``},
	})
	p := start(t, store, nil, "--key-file", key, "--health-listen", "127.0.0.1:0", "--log-level", "debug")
	wantLines(t, store, []line{
		{"create --plan by-worker --id one --wait=60", 0, `one`, `ordered one`},
		{"bind one --id two --wait=60 --key-file " + key, 0, `one/two`, `ordered one/two`},
		{"credentials one/two", 78, ``, `osb-platform: name the file with the key .*--key-file FILE`},
		{"credentials one/two --key-file " + key, 0, `{"credentials":{"folder":".*","token":".*"}}`, ``},
		{"credentials one/two --to " + secret + " --key-file " + key, 0, ``, ``},
		{"credentials one/two --to " + secret + " --key-file " + key, 78, ``, `osb-platform: .* exists already.*`},
		{"list --bindings", 0, "one\tready\t.*\none/two\tready\t.*|one/two\tready\t.*\none\tready\t.*", ``},
		{"show one/two", 0, ".*\nlast reason\t" + since + " bind 20.*\nwas\t" + since + " ordered\n.*", ``},
		{"remove one", 1, ``, `osb-platform: the instance one has bindings: .*--bindings`},
		{"remove one --bindings --wait=60", 0, ``, `one is gone`},
		{"show one/two", 0, ".*state\tgone.*", ``},
		{"remove one", 0, `it is gone already`, ``},
		{"credentials one/two --key-file " + key, 1, ``, `osb-platform: the binding one/two is gone.*`},
	})
	text, err := os.ReadFile(secret)
	diff.NoError(t, err, "%q", text)
	diff.Contains(t, string(text), `"token"`, "")
	diff.Equal(t, diff.Value(os.Stat(secret))(t).Mode().Perm(), 0o600, "the mode")
	log := p.stop()
	var read struct{ Credentials struct{ Token string } }
	if err := json.Unmarshal(text, &read); err != nil || read.Credentials.Token == "" {
		t.Fatalf("got the credentials %s, %v, want a token", text, err)
	}
	for name, output := range map[string]string{"the log": log, "standard output": p.out.String()} {
		diff.Lacks(t, output, read.Credentials.Token, "%s", name)
		diff.Lacks(t, output, "secret", "%s", name)
	}
	for _, row := range []string{"\tone\tready\n", "\tone\tgone\n", "\tone/two\tready\n", "\tone/two\tgone\n"} {
		diff.Equal(t, strings.Count(p.out.String(), row), 1, "%q, %q", p.out.String(), row)
	}
	for _, event := range []string{
		`"instance":"one","binding":"two","kind":"bind"`, `"event":"state_changed","instance":"one",`,
	} {
		diff.Contains(t, log, event, "the log")
	}
}

// A request and its answer are logged, and counted.
func TestLogAndMetrics(t *testing.T) {
	s, store := newTestBroker(t), newStore(t)
	p := startAt(t, s, store, "--health-listen", "127.0.0.1:0",
		"--worker", "one", "--log-level", "debug")
	wantLines(t, store, []line{
		{"create --broker default --plan at-once --id one --wait=60", 0, `one`, `ordered one`},
		{"broker drop shop", 0, ``, ``},
	})
	sent, answered := p.Event("request_sent"), p.Event("request")
	if sent["request"] != answered["request"] || answered["status"] != 201.0 || answered["broker"] != "default" ||
		answered["kind"] != "provision" || answered["level"] != "info" || answered["instance"] == nil {
		t.Errorf("got %v and %v, want the Provision at the broker default, with its number, and 201", sent, answered)
	}
	changed := p.Event("state_changed")
	diff.Check(t, []any{changed["before"], changed["after"]}, []any{"ordered", "ready"}, "%v", changed)
	p.stop()
}

// /healthz, /readyz and /metrics are served.
func TestHealth(t *testing.T) {
	s, store := newTestBroker(t), newPath(t)
	p := startAt(t, s, store, "--health-listen", "127.0.0.1:0")
	wantLines(t, store, []line{{"create --plan at-once --id one --wait=60", 0, `one`, `ordered one`}})
	for path, text := range map[string]string{
		"/healthz": `"ok"`, "/readyz": `"ok"`,
		"/metrics": `osb_platform_requests_total{broker="default",kind="provision",status="201"} 1`,
	} {
		t.Run(path, func(t *testing.T) {
			status, body := get(t, p.health+path)
			diff.Equal(t, status, 200, "%s", body)
			diff.Contains(t, body, text, "")
		})
	}
	_, body := get(t, p.health+"/metrics")
	for _, want := range []string{
		`osb_platform_records{broker="default",kind="instance",state="ready"} 1`, "osb_platform_store_up 1",
		"osb_platform_in_flight 0", "osb_platform_oldest_due_seconds 0", "osb_platform_unsettled 0",
		"osb_platform_leases_lost_total 0", `osb_platform_request_seconds_count{kind="provision"} 1`,
	} {
		diff.Contains(t, body, want+"\n", "%s", want)
	}
	p.stop()
}

// An order is tried again under another id after a passing reason, but not without --tries if it names its id. One that
// is refused isn't.
func TestTries(t *testing.T) {
	s, store := newTestBroker(t), newPath(t)
	p := startAt(t, s, store, "--first-pace", "0.01",
		"--longest-pace", "0.02", "--hold", "0")
	s.answer(503)
	wantLines(t, store, []line{
		{"create --plan at-once --id one --tries 3 --wait=60", 0, guid,
			"ordered one\none has failed: tried again as " + guid},
		{"show one", 0, ".*\nfailure\t" + since + ` provision 503 Odd "no \\x1b\[2J place"` +
			"\ntry 1 of 3\tone gone\ntry 2 of 3\t" + guid + " ready\n.*", ``},
	})
	s.answer(503)
	wantLines(t, store, []line{
		{"create --plan at-once --wait=60", 0, guid, "ordered " + guid + "\n" + guid + " has failed: tried again as " + guid},
	})
	s.answer(503)
	wantLines(t, store, []line{
		{"create --plan at-once --id only --wait=60", 3, `only`,
			`ordered only\nosb-platform: only is gone: provision 503 Odd "no \\x1b\[2J place"`},
	})
	s.answer(400)
	wantLines(t, store, []line{
		{"create --plan at-once --id two --tries 3 --wait=60", 3, `two`,
			`ordered two\nosb-platform: two is gone: provision 400 Odd "no \\x1b\[2J place"`},
		{"list --state gone --reasons", 0, "(.*\tgone\t.*\tdefault\tprovision (503|400) Odd .*\n?){4}", ``},
	})
	s.answer(409)
	wantLines(t, store, []line{{"create --plan at-once --id three --wait=60", 3, `three`,
		`ordered three\n.*: three is unsettled: provision 409 Odd .*`}})
	diff.HasPrefix(t, call(t, "--store", store, "list").failed, "1 unsettled (oldest: 20", "")
	s.answer(409)
	wantLines(t, store, []line{
		{"create --plan at-once --tries 1 --wait=60", 3, guid, `ordered .*\n.*: provision 409 Odd .*`},
		{"remove three --wait=60", 0, ``, `three is gone`},
	})
	s.answer(409)
	wantLines(t, store, []line{
		{"create --plan at-once --id four --wait=60", 3, `four`, `ordered four\n.*`},
		{"abandon four --because shut", 0, ``, ``},
		{"list --state abandoned --reasons", 0, "four\tabandoned\t.*\tdefault\tshut", ``},
		{"show four", 0, ".*\nabandoned because\tshut\n.*was\t" + since + " unsettled", ``},
		{"retry four", 1, ``, `osb-platform: the instance four is abandoned.*`},
		{"remove four", 1, ``, `osb-platform: the instance four is abandoned.*`},
		{"remove four --wait", 1, ``, `osb-platform: the instance four is abandoned.*`},
		{"abandon four --because again", 1, ``, `osb-platform: the instance four is abandoned already`},
	})
	p.stop()
}

// SIGHUP reads the certificates again, if they are named. Else it does nothing.
func TestHangUp(t *testing.T) {
	t.Setenv("XDG_STATE_HOME", t.TempDir())
	folder := t.TempDir()
	name, store := filepath.Join(folder, "ca"), filepath.Join(folder, "store")
	server := httptest.NewTLSServer(nil)
	server.Close()
	write(t, name, string(pem.EncodeToMemory(&pem.Block{Type: "CERTIFICATE", Bytes: server.Certificate().Raw})))
	for _, arguments := range [][]string{{"--tls-ca", name}, nil} {
		p := start(t, store, nil, arguments...)
		check(t, p.Process.Signal(syscall.SIGHUP))
		if arguments != nil {
			p.Event("certificates_reloaded")
			write(t, name, "none")
			check(t, p.Process.Signal(syscall.SIGHUP))
			p.Event("certificates_not_reloaded")
		}
		p.stop()
	}
}

// One worker of a name runs at a time. --once ends, with the status 1 if a broker isn't reached.
func TestWorkers(t *testing.T) {
	s, store := newTestBroker(t), newPath(t)
	t.Setenv(passwordVariable, "secret")
	p := start(t, store, ownPassword, "--broker", s.url, "--worker", "one")
	wantLines(t, store, []line{
		{"run --worker one --once", 75, ``, `.*osb-platform: a worker one runs already.*`},
		{"run --worker a/b", 2, ``, `osb-platform: .*a worker's name.*`},
	})
	p.stop()
	for _, test := range []struct {
		arguments []string
		status    int
		says      string
	}{
		{[]string{"--broker", s.url, "--once"}, 0, `"broker_reached"`},
		{[]string{"--broker", s.url + "/elsewhere", "--once"}, 78, "--moved"},
		{[]string{"--broker", "http://127.0.0.1:1", "--moved", "--once", "--seconds", "0.3"}, 1, "nothing was sent: dial "},
		{[]string{"--broker", s.url, "--moved", "--late-for", "0", "--pace", "0.5", "--threads", "2", "--once"}, 0, ""},
	} {
		t.Run(strings.Join(test.arguments, " "), func(t *testing.T) {
			command := osbPlatform(ownPassword, append([]string{"run", "--store", store},
				test.arguments...)...)
			out, _ := command.CombinedOutput()
			diff.Equal(t, command.ProcessState.ExitCode(), test.status, "%v, %s", test.arguments, out)
			diff.Contains(t, string(out), test.says, "%v", test.arguments)
		})
	}
	wantLines(t, store, []line{{"broker show default", 0, ".*password\tnone.*\nhold\t0\nfirst pace\t0.5\n.*", ``}})
}

// A second worker of a name ends, and what the first one has in flight stays so.
func TestSecondWorkerOfAName(t *testing.T) {
	s := newTestBroker(t)
	release := s.hold()
	defer release()
	p, store := newOne(t, s)
	before := call(t, "show", "--store", store, "one")
	diff.Contains(t, before.out, "\nworker\tone\nleased until\t", "before the second worker")
	wantLines(t, store, []line{{"run --worker one --once", 75, ``, `.*osb-platform: a worker one runs already.*`}})
	diff.Equal(t, call(t, "show", "--store", store, "one").out, before.out, "after it")
	release()
	p.stop()
}

// get is the answer to a GET.
func get(t *testing.T, url string) (int, string) {
	t.Helper()
	given := diff.Value(http.Get(url))(t)
	defer given.Body.Close()
	text := diff.Value(io.ReadAll(given.Body))(t)
	return given.StatusCode, string(text)
}

// newOne is a store with a broker of this process, and a worker over it, after an order was taken up and while its
// answer is held.
func newOne(t *testing.T, s *testBroker, arguments ...string) (p *process, store string) {
	t.Helper()
	store = newPath(t)
	p = startAt(t, s, store, append([]string{"--first-pace", "0.01", "--hold", "0", "--worker", "one"}, arguments...)...)
	wantLines(t, store, []line{{"create --plan at-once --id one --tries 3", 0, "one", ``}})
	s.await(t, 1)
	return p, store
}

// SIGTERM waits for the answer that is awaited, and writes it.
func TestStopTakesAnAnswer(t *testing.T) {
	s := newTestBroker(t)
	release := s.hold()
	defer release()
	p, store := newOne(t, s, "--stop-seconds", "60", "--health-listen", "127.0.0.1:0")
	status, _ := get(t, p.health+"/readyz")
	diff.Equal(t, status, 200, "")
	p.Terminate()
	p.Event("stopping")
	readyIs(t, p, 503)
	release()
	diff.Contains(t, p.End(), `"all_work_ended":true`, "the log")
	wantLines(t, store, []line{{"list", 0, "one\tready\t.*", ``}})
}

// SIGTERM doesn't wait for ever for an answer. What the request has done is found out at the next start.
func TestStopDoesNotWaitForEver(t *testing.T) {
	s := newTestBroker(t)
	release := s.hold()
	defer release()
	p, store := newOne(t, s, "--stop-seconds", "0.1")
	diff.Contains(t, p.stop(), `"all_work_ended":false,"store_closed":true`, "the log")
	wantLines(t, store, []line{{"show one", 0, ".*\nworker\tone\nleased until\t.*", ``}})
	release()
	endsWell(t, s, store)
}

// A worker that is killed with a request in flight: the next one of its name gives it up at once, and goes on.
func TestKilled(t *testing.T) {
	s := newTestBroker(t)
	release := s.hold()
	defer release()
	p, store := newOne(t, s)
	check(t, p.Process.Kill())
	_ = p.Wait()
	release()
	endsWell(t, s, store)
}

// endsWell starts a worker, after which nothing is in flight, and of the order one try is ready.
func endsWell(t *testing.T, s *testBroker, store string) {
	t.Helper()
	p := start(t, store, ownPassword, "--broker", s.url, "--worker", "one")
	waits.Until(t, "one try is ready", func() bool { return countListed(t, store, "ready") == 1 })
	p.stop()
}

// The service manager gets READY=1 once a worker runs, and STOPPING=1 after SIGTERM.
func TestServiceManagerGetsReports(t *testing.T) {
	name, next := programtest.Manager(t)
	p := start(t, filepath.Join(t.TempDir(), "store"), []string{"NOTIFY_SOCKET=" + name})
	diff.Equal(t, next(), "READY=1", "once it runs")
	p.stop()
	diff.Equal(t, next(), "STOPPING=1", "after SIGTERM")
}

// oldestDue is the metric of a worker.
func oldestDue(t *testing.T, p *process) float64 {
	t.Helper()
	_, text := get(t, p.health+"/metrics")
	found := regexp.MustCompile(`(?m)^osb_platform_oldest_due_seconds (\S+)$`).FindStringSubmatch(text)
	if found == nil {
		t.Fatalf("got %s, want oldest_due_seconds", text)
	}
	return diff.Value(strconv.ParseFloat(found[1], 64))(t)
}

// While a broker doesn't answer, its oldest order counts as due since it was ordered, though each request is sent
// again.
func TestOldestDueOfSilentBroker(t *testing.T) {
	s, store := newTestBroker(t), newPath(t)
	password := passwordFile(t)
	settings := " --hold 0 --first-pace 0.01 --longest-pace 0.01 --password-file "
	wantLines(t, store, []line{{"broker add local " + s.url + settings + password, 0, ``, ``}})
	p := start(t, store, nil, "--seconds", "1", "--health-listen", "127.0.0.1:0")
	p.Event("broker_reached")
	defer s.hold()()
	begun := time.Now()
	wantLines(t, store, []line{{"create --plan at-once --id one", 0, `one`, ``}})
	created := time.Now()
	s.await(t, 3)                                   // the first two weren't answered within their second
	least := time.Since(created) - time.Millisecond // the store has whole milliseconds
	if got := oldestDue(t, p); got < least.Seconds() || got > time.Since(begun).Seconds() {
		t.Errorf("the oldest due: got %v s, want at least %v and at most the time since", got, least)
	}
}

// On a full disk the orders of others stay as they are. What the worker prints and logs is what is on disk, and the log
// says once why nothing goes on. Once there is space, each order is sent once.
func TestFullDisk(t *testing.T) {
	const orders = 20
	s, store := newTestBroker(t), newPath(t)
	p := startAt(t, s, store)
	p.LimitFiles(0)
	for n := 0; n < orders; n++ {
		id := fmt.Sprint("q", n)
		wantLines(t, store, []line{{"create --plan at-once --id " + id, 0, id, ``}})
	}
	time.Sleep(2 * time.Second)
	if count := countListed(t, store, "ordered"); count != orders || s.requests() > 0 {
		t.Errorf("got %d orders and %d requests sent, want all and none", count, s.requests())
	}
	p.LimitFiles(unix.RLIM_INFINITY)
	waits.Until(t, "all orders have gone on", func() bool { return countListed(t, store, "ready") >= orders })
	log := p.stop()
	printed := p.out.String()
	diff.Equal(t, strings.Count(printed, "\n"), orders, "the output, %s", printed)
	diff.Equal(t, strings.Count(printed, "\tready\n"), orders, "the output, %s", printed)
	for event, want := range map[string]int{"store_failed": 1, "state_changed": orders, "request": orders} {
		diff.Equal(t, strings.Count(log, `"event":"`+event+`"`), want, "the log, %s, %.3000s", event, log)
	}
}

// countListed is how many records are in a state.
func countListed(t *testing.T, store, state string) int {
	t.Helper()
	return strings.Count(call(t, "--store", store, "list", "--state", state).out, "\n")
}

// eventsIn are the events of all files of a folder with journals, one text for each file, by name.
func eventsIn(t *testing.T, folder string) (all []string) {
	t.Helper()
	type line struct{ Event, Kind, Cause, State string }
	return programtest.Journals(t, folder, func(read line) string {
		return strings.Join(strings.Fields(read.Event+" "+read.Kind+read.Cause+" "+read.State), " ")
	})
}

const creating = "changed claim wanted, sent provision, answered provision, changed take ready"

// journaling is a store with an order at a broker, and the arguments of a worker over it.
func journaling(t *testing.T) (s *testBroker, store string) {
	t.Helper()
	s, store = newTestBroker(t), newPath(t)
	t.Setenv(passwordVariable, "secret")
	wantLines(t, store, []line{{"run --once --broker " + s.url, 0, ``, `.*`}})
	return s, store
}

var ownPassword = []string{"OSB_PLATFORM_PASSWORD=secret"}

// A folder gets a file for each run, and the journal ends with stopped.
func TestJournal(t *testing.T) {
	s, store := journaling(t)
	folder := t.TempDir()
	for _, id := range []string{"one", "two"} {
		p := start(t, store, ownPassword, "--broker", s.url, "--worker", "one", "--journal", folder)
		wantLines(t, store, []line{{"create --plan at-once --wait=60 --id " + id, 0, id, `.*`}})
		p.stop()
		files := eventsIn(t, folder)
		diff.Equal(t, files[len(files)-1], "started, "+creating+", stopped", "")
	}
	diff.Equal(t, len(eventsIn(t, folder)), 2, "")
}

// What operators order by the API is in the journal of the process that serves it.
func TestJournalOfServe(t *testing.T) {
	_, store := journaling(t)
	folder := t.TempDir()
	p := launch(t, "serving", osbPlatform(nil, "serve", "--store", store, "--api", "127.0.0.1:0", "--api-tokens",
		newTokens(t), "--journal", folder))
	caller{t, http.DefaultClient, p.api, token}.call(201, "POST", "/v1/instances", `{"plan":"at-once"}`)
	p.stop()
	diff.Equal(t, strings.Join(eventsIn(t, folder), "; "), "started, changed order ordered, stopped", "")
}

// The commands that order write a journal, too, if they are to. That of create --wait ends once the wait has ended.
func TestJournalOfCommands(t *testing.T) {
	s, store := journaling(t)
	folder := t.TempDir()
	p := start(t, store, ownPassword, "--broker", s.url, "--worker", "one")
	wantLines(t, store, []line{{"create --plan at-once --wait=60 --id one --journal " + folder, 0, "one", `.*`}})
	p.stop()
	wantLines(t, store, []line{
		{"retry one --journal " + folder, 1, ``, `.*nothing is to be done for it`},
		{"abandon one --because why --journal " + folder, 0, ``, ``},
		{"create --plan at-once --id two --journal " + folder, 0, "two", ``},
		{"remove two --journal " + folder, 0, ``, ``},
	})
	got := strings.Join(eventsIn(t, folder), "; ")
	diff.Equal(t, got, "started, changed order ordered, stopped; started, stopped; "+
		"started, changed command abandoned, stopped; started, changed order ordered, stopped; "+
		"started, changed command withdrawn, stopped", "")
}

// Two workers can't write to one file.
func TestJournalTaken(t *testing.T) {
	s, store := journaling(t)
	file := filepath.Join(t.TempDir(), "journal")
	start(t, store, ownPassword, "--broker", s.url, "--worker", "one", "--journal", file)
	command := osbPlatform(ownPassword, "run", "--store", store, "--worker", "two", "--journal", file)
	out, _ := command.CombinedOutput()
	diff.Equal(t, command.ProcessState.ExitCode(), 78, "%s", out)
	diff.Contains(t, string(out), "--journal: "+file+": another process writes", "")
}

// Without --journal nothing is wrapped.
func TestNoJournal(t *testing.T) {
	j := &platformJournal{}
	check(t, j.open(journalSettings{}, "", nil))
	store, client := platform.Store(&ownStore{}), platform.Client(&ownClient{})
	if j.engineStore(store) != store || j.ordersStore(store) != store || j.client(client) != client || j.lostLines() != 0 {
		t.Error("without a journal: got something wrapped, want nothing")
	}
	j.close()
}

type (
	ownStore  struct{ platform.Store }
	ownClient struct{ platform.Client }
)

// A request has the time of its line, and the line of its answer is later than the time that the answer has.
func TestTimesCross(t *testing.T) {
	s, store := journaling(t)
	file, ahead := filepath.Join(t.TempDir(), "journal"), time.Now().Add(time.Hour).UnixMicro()
	front, received := inFrontOf(t, s, strconv.FormatInt(ahead, 10))
	p := start(t, store, ownPassword, "--broker", front, "--moved", "--worker", "one", "--journal", file)
	wantLines(t, store, []line{{"create --plan at-once --wait=60 --id one", 0, "one", `.*`}})
	p.stop()
	text := diff.Value(os.ReadFile(file))(t)
	at := map[string]int64{}
	for _, line := range strings.Split(strings.TrimSuffix(string(text), "\n"), "\n") {
		var read struct {
			Time  int64
			Event string
		}
		check(t, json.Unmarshal([]byte(line), &read))
		at[read.Event] = read.Time
	}
	if got := <-received; got != strconv.FormatInt(at["sent"], 10) || at["sent"] == 0 || at["answered"] <= ahead {
		t.Errorf("got %v and %s received, want the time of its sending, and a later one of the answer", at, got)
	}
}

// inFrontOf is a server in front of a testBroker, whose answers have this time. It returns the times of the requests
// about instances.
func inFrontOf(t *testing.T, s *testBroker, given string) (front string, received chan string) {
	t.Helper()
	behind := diff.Value(url.Parse(s.url))(t)
	received = make(chan string, 100)
	proxy := httputil.NewSingleHostReverseProxy(behind)
	proxy.ModifyResponse = func(of *http.Response) error {
		if strings.Contains(of.Request.URL.Path, "service_instances") {
			received <- of.Request.Header.Get(journalfile.Header)
		}
		of.Header.Set(journalfile.Header, given)
		return nil
	}
	server := httptest.NewServer(proxy)
	t.Cleanup(server.Close)
	return server.URL, received
}

// Which failed transactions may have been committed.
func TestDoubtful(t *testing.T) {
	for err, want := range map[error]bool{
		platform.ErrAway: true, sqlitefile.ErrUnknownCommit: true,
		platform.ErrUsed: false, platform.ErrUnknown: false, sqlitefile.ErrBusy: false,
	} {
		t.Run(err.Error(), func(t *testing.T) {
			diff.Equal(t, isDoubtful(fmt.Errorf("it has failed: %w", err)), want, "%v", err)
		})
	}
}
