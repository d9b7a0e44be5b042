package main

import (
	"bufio"
	"context"
	"encoding/json"
	"io"
	"os"
	"regexp"
	"strconv"
	"strings"
	"syscall"
	"testing"
	"time"

	"golang.org/x/sys/unix"

	"pippinterm/broker"
	"pippinterm/internal/diff"
	"pippinterm/internal/logs"
	"pippinterm/internal/waits"
	"pippinterm/osb"
	"pippinterm/platform"
)

const guid = `[0-9a-f]{8}-[0-9a-f]{4}-4[0-9a-f]{3}-[89ab][0-9a-f]{3}-[0-9a-f]{12}`

const since = `20[0-9]{2}-[0-9]{2}-[0-9]{2}T[0-9]{2}:[0-9]{2}:[0-9]{2}Z`

// What is ordered is listed and shown, and can be removed.
func TestOrders(t *testing.T) {
	wantLines(t, newStore(t), []line{
		{"list", 0, ``, ``},
		{"create --broker shop --service database --plan small --id one", 0, `one`, ``},
		{"create --plan p-2", 0, guid, ``},
		{"create --plan small --id one", 1, ``, `osb-platform: the id .* is used already.*`},
		{"create --plan small --id a/b", 78, ``, `osb-platform: .*slash.*`},
		{"create --plan middle", 78, ``, `osb-platform: .*no plan "middle": name one of small, large`},
		{"create --service queue", 78, ``, `osb-platform: .*no service "queue".*`},
		{"create --broker other --plan small", 1, ``, `osb-platform: the broker "other" is unknown.*`},
		{"create --plan small --parameters [1]", 2, ``, `osb-platform: .*--parameters.*`},
		{"create --plan small --identity one", 2, ``, `osb-platform: .*want PLATFORM=JSON.*`},
		{"create --plan small --tries 0", 2, ``, `osb-platform: .*--tries.*`},
		{"list --state ordered --broker shop", 0,
			guid + "\tordered\t" + since + "\ts-1\tp-2\tshop\none\tordered\t" + since + "\ts-1\tp-1\tshop|" +
				"one\tordered\t" + since + "\ts-1\tp-1\tshop\n" +
				guid + "\tordered\t" + since + "\ts-1\tp-2\tshop", ``},
		{"list --state ready", 0, ``, ``},
		{"list --broker other", 0, ``, ``},
		{"list --state sleeping", 78, ``, `osb-platform: --state "sleeping": want one of ordered, .*`},
		{"show one", 0, "id\tone\nstate\tordered\nsince\t" + since + "\nservice\ts-1\nplan\tp-1\nbroker\tshop\n" +
			"organization\tosb-platform\nspace\tosb-platform\ndue\t" + since, ``},
		{"show two", 1, ``, `osb-platform: the instance two is unknown`},
		{"retry one", 0, ``, ``},
		{"abandon one --because gone", 1, ``, `osb-platform: .*wasn't sent yet: remove it`},
		{"abandon one", 78, ``, `osb-platform: --because is missing: give the reason.*`},
		{"bind one", 78, ``, `osb-platform: name the file with the key .*--key-file FILE.*`},
		{"bind", 2, ``, `osb-platform: it takes INSTANCE, and there are 0 arguments \(see .*`},
		{"show one two", 2, ``, `osb-platform: it takes ID, and there are 2 arguments \(see .*`},
		{"list one", 2, ``, `osb-platform: unknown command "one".*`},
		{"create one", 2, ``, `osb-platform: it takes no argument, and "one" is one \(see .*`},
		{"create --plan small --wait 600", 2, ``, `osb-platform: too many arguments: .*--wait=600 \(see .*`},
		{"remove one --wait 600", 2, ``, `osb-platform: too many arguments: .*--wait=600 \(see .*`},
		{"show /two", 78, ``, `osb-platform: the id "" can't be used: an id has 1 to 255 bytes of UTF-8`},
		{"unbind one", 78, ``, `osb-platform: "one" is an instance: want INSTANCE/BINDING, or use remove`},
		{"unbind one/two", 1, ``, `osb-platform: the binding one/two is unknown`},
		{"credentials one", 78, ``, `osb-platform: .*is an instance.*`},
		{"create --plan small --id two --wait=0.1", 4, `two`, `ordered two\nosb-platform: two is still ordered \(not .*`},
		{"remove one --wait", 0, ``, `one is withdrawn`},
		{"remove one --wait", 0, ``, `one is withdrawn`},
		{"remove one", 0, `it is withdrawn already`, ``},
		{"list --state withdrawn", 0, "one\twithdrawn\t.*", ``},
		{"retry one", 1, ``, `osb-platform: .*nothing is to be done for it`},
		{"broker drop shop", 1, ``, `osb-platform: there are orders of the broker shop.*`},
	})
}

// Parameters are read from the command line, from a file, and from standard input. Version 0.2 named a file without @.
func TestParameters(t *testing.T) {
	store, file := newStore(t), t.TempDir()+"/parameters"
	write(t, file, `{"size": 3}`)
	for at, text := range []string{`{"size": 3}`, "@" + file, file, "@-"} {
		id := []string{"a", "b", "c", "d"}[at]
		got := callWith(t, `{"size": 3}`, "--store", store, "create", "--plan", "small", "--id", id,
			"--parameters", text, "--context", `{"platform": "here"}`, "--identity", `here={"user":1}`,
			"--organization", "o")
		diff.Equal(t, got.status, 0, "%s, %+v", text, got)
		over(t, store, func(ctx context.Context, in platform.Store) error {
			key, err := platform.ParseKey(id)
			if err != nil {
				return err
			}
			e, err := in.Read(ctx, key)
			if !isSame(t, string(e.Body), `{"parameters": {"size": 3}, "context": {"platform": "here"}}`) ||
				e.Identity != "here eyJ1c2VyIjoxfQ==" || e.Organization != "o" || e.Tries != 1 {
				t.Errorf("%s: got %s, %s, %s, %d, want the body, identity and organization that were given, and 1 try",
					text, e.Body, e.Identity, e.Organization, e.Tries)
			}
			return err
		})
	}
}

func isSame(t *testing.T, one, other string) bool {
	t.Helper()
	var first, second map[string]any
	if json.Unmarshal([]byte(one), &first) != nil || json.Unmarshal([]byte(other), &second) != nil {
		return false
	}
	again := diff.Value(json.Marshal(first))(t)
	wanted, err := json.Marshal(second)
	return err == nil && string(again) == string(wanted)
}

// Many rows are listed page by page, each once, also as JSON.
func TestManyRows(t *testing.T) {
	store := newStore(t)
	over(t, store, func(ctx context.Context, in platform.Store) error {
		orders := platform.NewOrders(in, nil)
		for n := 0; n < readAtOnce+20; n++ {
			if _, err := orders.Create(ctx, platform.NewInstance{Plan: "small"}); err != nil {
				return err
			}
		}
		return nil
	})
	seen := map[string]bool{}
	for _, text := range strings.Split(strings.TrimSpace(call(t, "--store", store, "list", "--json").out), "\n") {
		var read entryJSON
		err := json.Unmarshal([]byte(text), &read)
		if err != nil || read.State != platform.Ordered || read.Plan != "p-1" {
			t.Fatalf("%s: got %v, want an ordered row of the plan p-1", text, err)
		}
		seen[read.ID] = true
	}
	diff.Equal(t, len(seen), readAtOnce+20, "rows")
}

// What waits for an operator, and what isn't deleted for a long time, is reported with what to do.
func TestAttention(t *testing.T) {
	long, short := time.Now().Add(-2*longCleaning), time.Now()
	l := &listing{}
	for _, entry := range []platform.Entry{
		{State: platform.Unsettled, Since: time.Unix(1_700_000_000, 0)}, {State: platform.Unsettled, Since: short},
		{State: platform.Unsettled, Since: long, Due: short}, {State: platform.Ready, Since: long},
		{State: platform.Cleaning, Since: long, Due: short},
		{State: platform.CleaningPolling, Since: short, Due: short},
	} {
		l.count(entry)
	}
	text := l.attention()
	for _, want := range []string{
		"2 unsettled (oldest: 2023-11-14T22:13:20Z). ",
		"1 being deleted for more than an hour (oldest: " + moment(long),
	} {
		diff.Contains(t, text, want, "")
	}
	diff.Equal(t, new(listing).attention(), "", "")
}

// What an operator has chosen, and what is unsettled, is shown so that a terminal isn't controlled by it. Only the id
// that create prints for a script is as it is.
func TestHostileTexts(t *testing.T) {
	store := newStore(t)
	const id = "a\x1b[2Jb"
	got := call(t, "--store", store, "create", "--plan", "small", "--id", id)
	diff.Equal(t, got.out, id+"\n", "")
	for _, command := range [][]string{{"list"}, {"show", id}, {"list", "--json"}, {"show", id, "--json"}} {
		got := call(t, append([]string{"--store", store}, command...)...)
		if got.status != 0 || strings.Contains(got.out, "\x1b") || !strings.Contains(got.out, "[2Jb") {
			t.Errorf("%v: got %q and %q, want the id with escapes", command, got.out, got.failed)
		}
	}
	got = call(t, "--store", store, "abandon", id, "--because", "it")
	if got.status != 1 || strings.Contains(got.failed, "\x1b") || !strings.Contains(got.failed, "[2Jb wasn't sent") {
		t.Errorf("got %+v, want the status 1, and the id with escapes", got)
	}
}

// A binding is created again under another id after a passing reason, but not without --tries if it names its id.
func TestTriesOfBinding(t *testing.T) {
	key, s, store := newKey(t), newTestBroker(t), newPath(t)
	p := startAt(t, s, store, "--first-pace", "0.01",
		"--longest-pace", "0.02", "--hold", "0", "--key-file", key)
	wantLines(t, store, []line{{"create --plan at-once --id db --wait=60", 0, `db`, `ordered db`}})
	s.answer(422)
	bound := call(t, "--store", store, "bind", "db", "--wait=60", "--key-file", key)
	tried := regexp.MustCompile(`^ordered (db/\S+)\n(db/\S+) has failed: tried again as (db/\S+)\n$`).
		FindStringSubmatch(bound.failed)
	if bound.status != 0 || tried == nil || tried[1] != tried[2] || bound.out != tried[3]+"\n" || tried[2] == tried[3] {
		t.Fatalf("got %+v, want the id of the second try", bound)
	}
	first, last := tried[2], tried[3]
	wantLines(t, store, []line{
		{"show " + first, 0, ".*\nstate\tgone\n.*\nfailure\t" + since + " bind 422 ConcurrencyError busy\ntry 1 of 3\t" +
			first + " gone\ntry 2 of 3\t" + last + " ready\n.*", ``},
		{"list --bindings --state ready", 0, "db\tready\t.*\n" + last + "\tready\t.*", ``},
		{"list --bindings --state gone --reasons", 0, first + "\tgone\t.*\tbind 422 ConcurrencyError busy", ``},
		{"credentials " + last + " --key-file " + key, 0, `{"credentials":.*`, ``},
		{"credentials " + first + " --key-file " + key, 1, ``,
			`osb-platform: the binding ` + first + ` is gone: .*\. It was tried again as ` + last},
	})
	s.answer(503)
	wantLines(t, store, []line{
		{"bind db --id one --wait=60 --key-file " + key, 3, `db/one`,
			`ordered db/one\nosb-platform: db/one is gone: bind 503 Odd "no \\x1b\[2J place"`},
		{"credentials db/one --key-file " + key, 1, ``, `osb-platform: the binding db/one is gone: [^.]*`},
	})
	s.answer(503, 200, 503)
	wantLines(t, store, []line{
		{"bind db --id two --tries 2 --wait=60 --key-file " + key, 3, `db/` + guid,
			`ordered db/two\ndb/two has failed: tried again as db/` + guid + `\nosb-platform: db/` + guid +
				` is gone: bind 503 .*`},
		{"unbind " + first + " --wait=60", 0, ``, first + " was tried again as " + last + ": removing that one\n" + last +
			" is gone"},
		{"bind db --tries 0 --key-file " + key, 2, ``, `osb-platform: .*--tries.*`},
		{"remove db --wait=60", 0, ``, `db is gone`},
	})
	p.stop()
}

// Of a further try of a binding that isn't due yet, list --reasons and show say until when it waits. If its instance is
// removed meanwhile, it is withdrawn at once.
func TestFurtherBindingThatWaits(t *testing.T) {
	key, s, store := newKey(t), newTestBroker(t), newPath(t)
	p := startAt(t, s, store, "--first-pace", "0.01",
		"--longest-pace", "0.02", "--hold", "0", "--key-file", key)
	wantLines(t, store, []line{
		{"create --plan at-once --id db --wait=60", 0, `db`, `ordered db`},
		{"bind db --id one --tries 2 --wait=60 --key-file " + key, 0, `db/one`, `ordered db/one`},
		{"unbind db/one --wait=60", 0, ``, `db/one is gone`},
	})
	next := osb.MustParseID("00000000-0000-4000-8000-000000000003")
	over(t, store, func(ctx context.Context, in platform.Store) error {
		one, err := platform.ParseKey("db/one")
		if err != nil {
			return err
		}
		return in.Change(ctx, one, func(now time.Time, snapshot platform.Snapshot) (*platform.Change, error) {
			failed, again := snapshot.Entry, platform.Entry{Order: snapshot.Order, State: platform.Ordered, Since: now}
			failed.Passing, failed.After = true, time.Hour
			failed.Failure = platform.Reason{At: now, Kind: "bind", Status: 429, Description: "too much"}
			again.Key, again.Names.Binding, again.Try = osb.BindingKey(one.Instance, next), next.String(), 2
			again.Due = now.Add(time.Hour)
			return &platform.Change{Entry: failed, Next: &again}, nil
		})
	})
	until := "until " + since + `, as the broker has asked\. The try before: bind 429 too much`
	wantLines(t, store, []line{
		{"list --bindings --reasons --state ordered", 0, "db/" + next.String() + "\tordered\t[^\n]*\twaits " + until, ``},
		{"show db/" + next.String(), 0, ".*\nwaits\t" + until + "\ntry 1 of 2\tdb/one gone\ntry 2 of 2\tdb/" + next.String() +
			" ordered", ``},
		{"remove db --wait=60", 0, ``, `db is gone`},
	})
	waits.Until(t, "the further binding is withdrawn", func() bool {
		return strings.Contains(call(t, "--store", store, "show", "db/"+next.String()).out, "\nstate\twithdrawn\n")
	})
	p.stop()
}

// SIGINT and SIGTERM end a wait. The id is printed, and that what was ordered goes on.
func TestInterruptedWait(t *testing.T) {
	for _, signal := range []syscall.Signal{syscall.SIGINT, syscall.SIGTERM} {
		store := newStore(t)
		command := osbPlatform(nil, "--store", store, "create", "--plan", "small", "--id", "one", "--wait")
		failed := diff.Value(command.StderrPipe())(t)
		var out strings.Builder
		command.Stdout = &out
		check(t, command.Start())
		t.Cleanup(func() { _ = command.Process.Kill() })
		lines := bufio.NewReader(failed)
		diff.Equal(t, diff.Value(lines.ReadString('\n'))(t), "ordered one\n", "")
		check(t, command.Process.Signal(signal))
		rest, err := io.ReadAll(lines)
		_ = command.Wait()
		if status := command.ProcessState.ExitCode(); err != nil || out.String() != "one\n" || status != statusGoesOn ||
			string(rest) != "osb-platform: interrupted: one is ordered, and goes on\n" {
			t.Errorf("%v: got the status %d, %q, %q and %v, want %d and that it goes on", signal, status, out.String(), rest,
				err, statusGoesOn)
		}
		wantLines(t, store, []line{{"list", 0, "one\tordered\t.*", ``}})
	}
}

// A wait that has ended too soon says until when the deletion waits, such as for the hold.
func TestLaterDeletion(t *testing.T) {
	at := time.Now().Add(time.Hour)
	later := platform.Entry{State: platform.Cleaning, Due: at}
	soon, sent, polled, rests := later, later, later, later
	soon.Due = time.Now()
	sent.Lease.Worker = "one"
	polled.State = platform.CleaningPolling
	rests.Due = time.Time{}
	for _, test := range []struct {
		name string
		of   platform.Entry
		want string
	}{
		{"later", later, " (the deletion is due at " + at.UTC().Format("2006-01-02T15:04:05Z") + ")"},
		{"soon", soon, ""}, {"sent", sent, ""}, {"polled", polled, ""}, {"rests", rests, ""},
	} {
		t.Run(test.name, func(t *testing.T) {
			diff.Equal(t, dueLater(test.of), test.want, "%+v", test.of)
		})
	}
}

// terminal is a terminal of its own: what is written to it is read from screen.
func terminal(t *testing.T) (screen, written *os.File) {
	t.Helper()
	screen = diff.Value(os.OpenFile("/dev/ptmx", os.O_RDWR|unix.O_NOCTTY, 0))(t)
	t.Cleanup(func() { _ = screen.Close() })
	number := diff.Value(unix.IoctlGetInt(int(screen.Fd()), unix.TIOCGPTN))(t)
	check(t, unix.IoctlSetPointerInt(int(screen.Fd()), unix.TIOCSPTLCK, 0))
	written = diff.Value(os.OpenFile("/dev/pts/"+strconv.Itoa(number), os.O_RDWR|unix.O_NOCTTY, 0))(t)
	t.Cleanup(func() { _ = written.Close() })
	return screen, written
}

// On a terminal, --wait shows in one line how it stands, and ends that line before it reports the end.
func TestProgressOnTerminal(t *testing.T) {
	screen, written := terminal(t)
	store := newStore(t)
	command := osbPlatform(nil, "--store", store, "create", "--plan", "small", "--id", "one", "--wait=2.5")
	var out strings.Builder
	command.Stdout, command.Stderr = &out, written
	if err := command.Run(); command.ProcessState.ExitCode() != statusGoesOn || out.String() != "one\n" {
		t.Fatalf("got %v and %q, want the status %d and one", err, out.String(), statusGoesOn)
	}
	check(t, written.Close())
	shown, err := io.ReadAll(screen) // it ends with EIO once nobody has the terminal open
	const want = `ordered one\r\n(\rone: ordered, [0-9] s){2,}\r\nosb-platform: one is still ordered [^\r\n]*\r`
	diff.Equal(t, isAll(want, string(shown)), true, "%q, %v, %s", shown, err, want)
}

// A line that is shorter than the one before leaves nothing of it.
func TestProgressOverwrites(t *testing.T) {
	var to strings.Builder
	p := &progress{to: &to}
	p.show("one: ordered")
	p.show("one: ordered")
	p.show("one: gone")
	p.end()
	p.end()
	diff.Equal(t, to.String(), "\rone: ordered\rone: gone   \n", "")
}

// A loggedRequest is a line of a log, as far as it counts here.
type loggedRequest struct {
	Event, Request, Instance string
	Route, Kind              string // of the broker and of the platform
}

// requestsIn are the requests of a log that name an instance: what each asked for, by its identity.
func requestsIn(t *testing.T, log string) map[string]string {
	t.Helper()
	found := map[string]string{}
	for _, line := range strings.Split(strings.TrimSpace(log), "\n") {
		var of loggedRequest
		diff.NoError(t, json.Unmarshal([]byte(line), &of), "the line %q", line)
		if of.Event == "request" && of.Instance != "" {
			if found[of.Request] != "" || of.Request == "" {
				t.Errorf("the identity: got %q, want one of one request", of.Request)
			}
			found[of.Request] = of.Route + of.Kind
		}
	}
	return found
}

// A requestLog is a broker.Observer that writes a line for each request, with the members that osb-broker's log has.
type requestLog struct {
	broker.Silent
	log *logs.Logger
}

func (l requestLog) OnExchange(it broker.Exchange) {
	line := l.log.Info("request").Str("request", it.RequestID).Str("route", it.Route)
	if it.IsNamed {
		line.Str("instance", it.Key.Instance.String())
	}
	line.Send()
}

// The platform's log and the broker's have each request under the same identity.
func TestIdentityInBothLogs(t *testing.T) {
	var ofBroker lockedBuffer
	s, store := newTestBrokerFor(t, requestLog{log: logs.New(&ofBroker)}), newPath(t)
	password := passwordFile(t)
	wantLines(t, store, []line{
		{"broker add local " + s.url + " --password-file " + password + " --hold 0", 0, ``, ``},
		{"create --plan at-once --id one", 0, `one`, ``},
	})
	first := call(t, "--store", store, "run", "--once")
	wantLines(t, store, []line{{"remove one", 0, ``, ``}})
	second := call(t, "--store", store, "run", "--once")
	diff.Equal(t, first.status, 0, "%+v", first)
	diff.Equal(t, second.status, 0, "%+v", second)
	sent, received := requestsIn(t, first.failed+second.failed), requestsIn(t, ofBroker.String())
	kinds := map[string]bool{}
	for identity, kind := range sent {
		kinds[kind] = true
		diff.Equal(t, received[identity], kind, "%s %s", kind, identity)
	}
	if len(sent) != len(received) || !kinds["provision"] || !kinds["deprovision"] {
		t.Errorf("the platform: got %v, want what the broker has: %v", sent, received)
	}
}
