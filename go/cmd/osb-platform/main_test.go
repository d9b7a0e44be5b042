package main

import (
	"bytes"
	"context"
	"encoding/json"
	"fmt"
	"net/http"
	"os"
	"os/exec"
	"path/filepath"
	"regexp"
	"strings"
	"testing"
	"time"

	"github.com/spf13/cobra"

	"pippinterm/internal/cli"
	"pippinterm/internal/diff"
	"pippinterm/osb"
	"pippinterm/platform"
	"pippinterm/platform/sqlite"
)

// deadline is how long a test waits for something that must happen.
const deadline = time.Minute

// The test binary is the program too.
func TestMain(m *testing.M) {
	if os.Getenv("OSB_PLATFORM_TEST") == "program" {
		main()
		return
	}
	os.Exit(m.Run())
}

// A programRun is what a command has printed, and its exit status.
type programRun struct {
	arguments   []string
	status      int
	out, failed string
}

// call calls a command in this process.
func call(t *testing.T, arguments ...string) programRun {
	t.Helper()
	return callWith(t, "", arguments...)
}

func callWith(t *testing.T, stdin string, arguments ...string) programRun {
	t.Helper()
	a := &app{}
	root := rootCommand(a)
	var out, failed bytes.Buffer
	root.SetArgs(arguments)
	root.SetIn(strings.NewReader(stdin))
	root.SetOut(&out)
	root.SetErr(&failed)
	status := a.exit(cli.Run(context.Background(), root))
	return programRun{arguments: arguments, status: status, out: out.String(), failed: failed.String()}
}

// osbPlatform is the program with these arguments and variables, as a process.
func osbPlatform(environment []string, arguments ...string) *exec.Cmd {
	command := exec.Command(os.Args[0], arguments...)
	own := []string{"OSB_PLATFORM_TEST=program", "PATH=" + os.Getenv("PATH"), "HOME=/nowhere"}
	command.Env = append(own, environment...)
	return command
}

// A line is a command, its exit status, and what it prints.
type line struct {
	arguments   string // separated by blanks
	status      int
	out, failed string // regular expressions of all that is printed
}

// wantLines calls the commands over a store, one after the other.
func wantLines(t *testing.T, store string, lines []line) {
	t.Helper()
	for _, line := range lines {
		arguments := append([]string{"--store", store}, strings.Fields(line.arguments)...)
		call(t, arguments...).wants(t, line.status, line.out, line.failed)
	}
}

// wants checks the exit status, and by regular expressions all that is printed.
func (r programRun) wants(t *testing.T, status int, out, failed string) {
	t.Helper()
	if r.status != status || !isAll(out, r.out) || !isAll(failed, r.failed) {
		t.Errorf("%q: got the status %d\n%q\n%q\nwant %d\n%s\n%s", r.arguments, r.status, r.out, r.failed, status,
			out, failed)
	}
}

var check = diff.Must

// isAll reports whether a text is what a regular expression says, but for the line feed at its end.
func isAll(expression, text string) bool {
	return regexp.MustCompile(`(?s)^(` + expression + `)$`).MatchString(strings.TrimSuffix(text, "\n"))
}

// catalogue is one of a broker with two plans, the second of which isn't bindable.
const catalogue = `{"services": [{"id": "s-1", "name": "database", "description": "d", "bindable": true, "plans": [
	{"id": "p-1", "name": "small", "description": "d"},
	{"id": "p-2", "name": "large", "description": "d", "bindable": false}]}]}`

// newPath is the path of a store that doesn't exist yet. The state folder of the user is another one than that of
// others.
func newPath(t *testing.T) string {
	t.Helper()
	t.Setenv("XDG_STATE_HOME", t.TempDir())
	return filepath.Join(t.TempDir(), "store")
}

// passwordFile is a file with the password of a testBroker.
func passwordFile(t *testing.T) string {
	t.Helper()
	file := filepath.Join(t.TempDir(), "password")
	write(t, file, "secret\n")
	return file
}

// newStore is the path of a store with the broker shop, which nobody reaches.
func newStore(t *testing.T) string {
	t.Helper()
	path := newPath(t)
	over(t, path, func(ctx context.Context, store platform.Store) error {
		return store.AddBroker(ctx, platform.Broker{
			Name: "shop", URL: "http://127.0.0.1:1", User: "platform", PasswordFile: "/nowhere/password",
			Catalogue: json.RawMessage(catalogue), CatalogueAt: time.UnixMilli(1_700_000_000_000),
		})
	})
	return path
}

// over uses a store.
func over(t *testing.T, path string, use func(context.Context, platform.Store) error) {
	t.Helper()
	ctx := context.Background()
	store := diff.Value(sqlite.Open(ctx, path))(t)
	check(t, use(ctx, store))
	check(t, store.Close())
}

// newKey makes a file with a key, and names it for the commands that follow.
func newKey(t *testing.T) string {
	t.Helper()
	file := filepath.Join(t.TempDir(), "key")
	made := call(t, "key")
	diff.Equal(t, made.status, 0, "%+v", made)
	write(t, file, made.out)
	return file
}

func write(t *testing.T, name, text string) {
	t.Helper()
	check(t, os.WriteFile(name, []byte(text), 0o600))
}

// An option of version 0.2 that is no more says what to use. Options that don't go together are rejected.
func TestRunOptions(t *testing.T) {
	t.Setenv(passwordVariable, "")
	const here = " --broker http://127.0.0.1:1"
	wantLines(t, newPath(t), []line{
		{"run --organization o", 2, ``, `.*osb-platform create --organization TEXT.*`},
		{"run --space o", 2, ``, `.*osb-platform create --space TEXT.*`},
		{"run --catalog file", 2, ``, `.*Leave --catalog out.*`},
		{"run --page-host one", 78, ``, `.*go with --page HOST:PORT`},
		{"serve --page-users file --api 127.0.0.1:0", 78, ``, `.*go with --page HOST:PORT`},
		{"serve --api-tokens file --page 127.0.0.1:0", 78, ``, `.*go with --api HOST:PORT`},
		{"run --api-tls-key file", 78, ``, `.*go with --api HOST:PORT`},
		{"run --broker-hosts broker.example", 78, ``, `.*go with --api HOST:PORT`},
		{"run --once --connections-per-address 2", 78, ``, `.*go with --page or --api`},
		{"serve --health-listen 127.0.0.1:0 --trusted-proxy 127.0.0.1", 78, ``, `.*go with --page or --api`},
		{"serve --api 127.0.0.1:0 --api-tokens file --broker-hosts a.example,10.0.0.0/33", 78, ``,
			`osb-platform: --broker-hosts: "10\.0\.0\.0/33": want a name.*`},
		{"run --api 127.0.0.1:0", 78, ``, `.*--api-tokens FILE`},
		{"serve", 78, ``, `.*give --api HOST:PORT, or --page HOST:PORT, or both`},
		{"serve --page 192.0.2.1:1", 78, ``, `.*--page 192.0.2.1:1.*`},
		{"serve --page 127.0.0.1", 78, ``, `.*--page 127.0.0.1: .*`},
		{"serve --page 127.0.0.1:0 --page-users /dev/null", 78, ``, `.*/dev/null.*`},
		{"serve --api 127.0.0.1:0 --api-tokens /nowhere/tokens", 78, ``, `.*--api-tokens: .*/nowhere/tokens.*`},
		{"serve --api 127.0.0.1:0 --api-tokens /dev/null --api-tls-key /nowhere/key", 78, ``, `.*--api-tls-.*`},
		{"run --late-for 3", 78, ``, `.*broker set NAME --hold`},
		{"run --longest-poll 3", 78, ``, `.*broker set NAME --longest-poll`},
		{"run --moved", 78, ``, `.*--broker URL.*`},
		{"run --once --log-level loud", 2, ``, `.*want one of debug, info, warning, error.*`},
		{"run --once --unsettled never", 2, ``, `.*want remove or wait.*`},
		{"run --once --at-once 0", 2, ``, `.*--at-once.*`},
		{"run --once --tls-ca /nowhere/ca", 78, ``, `.*/nowhere/ca.*`},
		{"run --once --health-listen 192.0.2.1:1", 78, ``, `.*--health-listen 192.0.2.1:1.*`},
		{"run --once --key-file /nowhere/key", 78, ``, `.*/nowhere/key.*`},
		{"run --once" + here, 78, ``, `.*set OSB_PLATFORM_PASSWORD, or name a file with --password-file`},
		{"run --once --broker http://192.0.2.1", 78, ``, `.*everybody on the way.*`},
		{"run --once --user a:b --password-file /dev/null" + here, 78, ``, `.*--password-file.*`},
		{"run --once", 0, ``, `.*"event":"no_brokers".*`},
		{"", 2, ``, `.*a command is missing.*`},
		{"order", 2, ``, `.*unknown command "order".*`},
	})
}

// With the standard options, SIGTERM ends a worker within 10 seconds, whatever hangs.
func TestStopTime(t *testing.T) {
	given := runCommand(&app{}).Flags().Lookup("stop-seconds").DefValue
	stop, err := cli.ParseSeconds(given, 0, longestTime)
	if err != nil || stop+lastWait+2*queueWait >= 10*time.Second {
		t.Errorf("got %s and %v, want less than systemd's", given, lastWait+2*queueWait)
	}
}

// Each command has help with an example.
func TestHelp(t *testing.T) {
	root := rootCommand(&app{})
	all := root.Commands()
	for _, command := range root.Commands() {
		all = append(all, command.Commands()...)
	}
	if len(all) < 16 {
		t.Errorf("got %d commands, want at least 16", len(all))
	}
	for _, command := range all {
		if command.Name() != "help" && (command.Example == "" || command.Short == "") {
			t.Errorf("%s: got no example, want one", command.Name())
		}
		for _, line := range strings.Split(command.UsageString(), "\n") {
			if len(line) > 120 {
				t.Errorf("%s: got the line %q, want one of at most 120", command.Name(), line)
			}
		}
	}
	call(t, "create", "--help").wants(t, 0, `.*Examples:.*`, ``)
}

// A shell completes commands, and the states of a list.
func TestCompletion(t *testing.T) {
	for _, test := range []struct {
		arguments []string
		want      string
	}{
		{[]string{"completion", "bash"}, "# bash completion"}, {[]string{"__complete", "cre"}, "create\t"},
		{[]string{"__complete", "list", "--state", ""}, "ordered\nwithdrawn\n"},
	} {
		t.Run(strings.Join(test.arguments, " "), func(t *testing.T) {
			call(t, test.arguments...).wants(t, 0, regexp.QuoteMeta(test.want)+`.*`, `.*`)
		})
	}
}

func TestValues(t *testing.T) {
	for text, want := range map[string]time.Duration{"0.5": 500 * time.Millisecond, "0": 0, "31622400": longestTime} {
		t.Run(text, func(t *testing.T) {
			diff.Equal(t, diff.Value(cli.ParseSeconds(text, 0, longestTime))(t), want, "")
		})
	}
	for _, text := range []string{"", "-1", "31622401", "NaN", "1s", "inf"} {
		got, err := cli.ParseSeconds(text, 0, longestTime)
		diff.Error(t, err, "%q, %v", text, got)
	}
	for _, text := range []string{"0", "-1", "soon"} {
		diff.Error(t, new(waitFlag).Set(text), "--wait=%s", text)
	}
}

// What has ended, and whether as it was asked for.
func TestEnds(t *testing.T) {
	due := time.Now()
	for _, test := range []struct {
		state            platform.State
		due              time.Time
		created, deleted string
	}{
		{platform.Ordered, due, "", ""}, {platform.Wanted, due, "", ""}, {platform.Polling, due, "", ""},
		{platform.Ready, time.Time{}, "good", ""}, {platform.Cleaning, due, "", ""},
		{platform.CleaningPolling, due, "", ""}, {platform.Gone, time.Time{}, "bad", "good"},
		{platform.Withdrawn, time.Time{}, "bad", "good"}, {platform.Abandoned, time.Time{}, "bad", "bad"},
		{platform.Unsettled, time.Time{}, "bad", ""}, {platform.Unsettled, due, "", ""},
	} {
		t.Run(string(test.state), func(t *testing.T) {
			for is, want := range map[string]string{"created": test.created, "deleted": test.deleted} {
				t.Run(is, func(t *testing.T) {
					ends := map[string]end{"created": creationEnd, "deleted": deletionEnd}[is]
					hasEnded, isGood := ends(platform.Entry{State: test.state, Due: test.due})
					got := ""
					if hasEnded {
						got = map[bool]string{true: "good", false: "bad"}[isGood]
					}
					diff.Equal(t, got, want, "%s of %s", is, test.state)
				})
			}
		})
	}
}

// newWaiting is a store in which the creation of one has failed by a 503, and is tried again under an id once so much
// time has passed. The broker has asked to wait for after.
func newWaiting(t *testing.T, due, after time.Duration) (store, next string) {
	t.Helper()
	store = newStore(t)
	id := diff.Value(osb.IDOfText("the next try"))(t)
	over(t, store, func(ctx context.Context, in platform.Store) error {
		first, err := platform.NewOrders(in, nil).Create(ctx, platform.NewInstance{Plan: "small", ID: "one", Tries: 3})
		if err != nil {
			return err
		}
		return in.Change(ctx, first.Key, func(now time.Time, snapshot platform.Snapshot) (*platform.Change, error) {
			failed, again := snapshot.Entry, snapshot.Entry
			failed.State, failed.Since, failed.Due, failed.Passing, failed.After = platform.Gone, now, time.Time{}, true, after
			failed.Failure = platform.Reason{At: now, Kind: "provision", Status: 503, Description: "busy"}
			again.Key, again.Names.Instance, again.Try = osb.InstanceKey(id), id.String(), 2
			again.Due = now.Add(due)
			return &platform.Change{Entry: failed, Next: &again}, nil
		})
	})
	return store, id.String()
}

// Of a further try that isn't due yet, list --reasons, show and --wait say until when it waits, whether the broker has
// asked for it, and why the try before has failed.
func TestFurtherTryThatWaits(t *testing.T) {
	for _, test := range []struct {
		due, after time.Duration
		asked      string // a regular expression
	}{
		{time.Hour, time.Hour, `, as the broker has asked`},
		{80 * time.Minute, time.Hour, `, as the broker has asked`}, // a third of it is chance
		{time.Hour, 0, ``}, {time.Hour, time.Minute, ``},
	} {
		t.Run(fmt.Sprint(test.due, " after ", test.after), func(t *testing.T) {
			store, next := newWaiting(t, test.due, test.after)
			until := "until " + since + test.asked + `\. The try before: provision 503 busy`
			wantLines(t, store, []line{
				{"list --reasons --state ordered", 0, next + "\tordered\t[^\n]*\twaits " + until, ``},
				{"show " + next, 0, "id\t" + next + "\nstate\tordered\n.*\nwaits\t" + until + "\n.*", ``},
			})
			var row struct {
				Before platform.Reason `json:"try_before_failure"`
			}
			shown := call(t, "--store", store, "show", next, "--json")
			diff.NoError(t, json.Unmarshal([]byte(shown.out), &row), "%s", shown.out)
			diff.Equal(t, row.Before.Status, 503, "the try before, %s", shown.out)
			checkWait(t, store, next, until)
			wantLines(t, store, []line{
				{"retry " + next, 0, ``, ``}, {"list --reasons --state ordered", 0, next + "\tordered\t[^\n]*\t", ``},
			})
		})
	}
}

// checkWait waits for the order of one, whose next try waits, and checks what --wait prints.
func checkWait(t *testing.T, store, next, until string) {
	t.Helper()
	over(t, store, func(ctx context.Context, in platform.Store) error {
		first, err := readEntry(ctx, in, "one")
		if err != nil {
			return err
		}
		var failed bytes.Buffer
		command := &cobra.Command{}
		command.SetErr(&failed)
		w := &waitFlag{isOn: true, limit: time.Millisecond}
		s := session{store: in, orders: platform.NewOrders(in, nil)}
		_, err = w.wait(ctx, command, s, first, true, creationEnd)
		if err == nil || !isAll(next+" is still ordered: waits "+until, err.Error()) {
			t.Errorf("--wait: got %v, want that the next is still ordered", err)
		}
		diff.Equal(t, isAll("one has failed: tried again as "+next+` \(waits `+until+`\)`, failed.String()), true,
			"%q, %s", failed.String(), next)
		return nil
	})
}

// A script gets an id as it is. A terminal gets it with escapes.
func TestIDsForScripts(t *testing.T) {
	store := newStore(t)
	for _, id := range []string{"t\tq", "größe", "\x1b[2J"} {
		one := call(t, "--store", store, "create", "--plan", "small", "--id", id)
		diff.Equal(t, one.status, 0, "%q, %+v", id, one)
		diff.Equal(t, one.out, id+"\n", "%q, %+v", id, one)
		diff.Equal(t, call(t, "--store", store, "show", strings.TrimSuffix(one.out, "\n")).status, 0, "%q", id)
	}
	_, written := terminal(t)
	diff.Equal(t, printableOn(written, "t\tq"), `"t\tq"`, "on a terminal")
}

// An id that is given and empty is rejected: a variable of a script may have been empty.
func TestEmptyIDs(t *testing.T) {
	store, key := newStore(t), newKey(t)
	const said = `osb-platform: invalid argument "" for "--id" flag: it is empty: give an id, or leave --id out for a ` +
		`new GUID \(see osb-platform (create|bind) --help\)`
	for _, pair := range [][]string{
		{"create", "--plan", "small", "--id", ""}, {"create", "--plan", "small", "--id="},
		{"bind", "one", "--id", "", "--key-file", key},
	} {
		call(t, append(pair, "--store", store)...).wants(t, 2, ``, said)
	}
	wantLines(t, store, []line{{"list", 0, ``, ``}})
}

// The URL of a broker that ends with /v2 is rejected, with the remedy.
func TestURLWithVersion(t *testing.T) {
	store, password := newStore(t), filepath.Join(t.TempDir(), "password")
	write(t, password, "secret")
	for _, text := range []string{"http://127.0.0.1:1/v2", "http://127.0.0.1:1/a/v2/"} {
		wantLines(t, store, []line{
			{"broker add two " + text + " --password-file " + password, 78, ``, `osb-platform: .*: leave the /v2 out`},
			{"broker set shop --url " + text, 78, ``, `osb-platform: .*: leave the /v2 out`},
		})
	}
	wantLines(t, store, []line{{"broker list", 0, "shop\thttp://127.0.0.1:1\t[^\n]*", ``}})
}

// A store of another scheme isn't taken for a file of that name.
func TestStoreWithAnotherScheme(t *testing.T) {
	before := diff.Value(os.Getwd())(t)
	check(t, os.Chdir(t.TempDir()))
	t.Cleanup(func() { _ = os.Chdir(before) })
	for _, text := range []string{"list", "broker add x http://127.0.0.1:1", "run --once"} {
		wantLines(t, "mysql://x", []line{{text, 78, ``, `osb-platform: .*mysql://.*`}})
	}
	diff.Check(t, diff.Value(filepath.Glob("*"))(t), []string(nil), "what is left")
}

// What nests too deep, or has a name twice, is rejected with that reason.
func TestParametersBeyondTheBounds(t *testing.T) {
	store := newStore(t)
	deep := `{"a":` + strings.Repeat("[", 126) + strings.Repeat("]", 126) + `}`
	wantLines(t, store, []line{
		{"create --plan small --parameters " + deep, 78, ``,
			`osb-platform: parameters can't be sent: more than 126 arrays and objects lie within each other`},
		{`create --plan small --parameters {"a":1e400}`, 78, ``, `osb-platform: .*: the number 1e400 is above 1.8e308`},
		{`create --plan small --context {"a":1,"a":2}`, 78, ``,
			`osb-platform: context can't be sent: the member "a" stands twice in an object`},
		{"list", 0, ``, ``},
	})
}

// A broker may answer a Bind without credentials. The binding is ready, and 'credentials' prints the answer.
func TestBindingWithoutCredentials(t *testing.T) {
	s := newTestBroker(t)
	store, key := newUnsettled(t, s), newKey(t)
	wantLines(t, store, []line{
		{"create --plan at-once --id one", 0, `one`, ``},
		{"run --once --key-file " + key, 0, `.*`, `.*`},
		{"bind one --id app --key-file " + key, 0, `one/app`, ``},
	})
	s.answer(http.StatusCreated) // its object has no member credentials
	wantLines(t, store, []line{
		{"run --once --key-file " + key, 0, `.*`, `.*`},
		{"list --bindings --state ready", 0, "one\tready\t[^\n]*\none/app\tready\t[^\n]*", ``},
		{"credentials one/app --key-file " + key, 0, `{"error": ?"Odd", ?"description": ?"no \\u001b\[2J place"}`, ``},
	})
}

// After the catalogue has dropped the plan, 'bind' says that.
func TestBindAfterThePlanWasDropped(t *testing.T) {
	s := newTestBroker(t)
	store, key := newUnsettled(t, s), newKey(t)
	wantLines(t, store, []line{
		{"create --plan at-once --id one", 0, `one`, ``},
		{"run --once --key-file " + key, 0, `.*`, `.*`},
	})
	over(t, store, func(ctx context.Context, in platform.Store) error {
		return in.ChangeBroker(ctx, "local", func(it platform.Broker) (*platform.Broker, error) {
			it.Catalogue = json.RawMessage(`{"services": []}`)
			return &it, nil
		})
	})
	wantLines(t, store, []line{{"bind one --key-file " + key, 1, ``,
		`osb-platform: the catalogue of the broker local doesn't have the plan "[-0-9a-f]{36}" any more: .*`}})
}
