package main

import (
	"bytes"
	"encoding/json"
	"os"
	"os/exec"
	"os/signal"
	"path/filepath"
	"regexp"
	"strings"
	"syscall"
	"testing"
	"time"

	"pippinterm/internal/diff"
	"pippinterm/internal/pg/pgtest"
)

const examples = "../../../examples/broker/"

// A tryRun is a run of `osb-broker try`.
type tryRun struct {
	status         int
	stdout, stderr string
	temporary      []string // what it has left in the folder for temporary files
}

// runTry runs `osb-broker try` to its end, without the password of a platform. start is called once it runs.
func runTry(t *testing.T, environment []string, start func(*exec.Cmd), arguments ...string) tryRun {
	t.Helper()
	temporary := t.TempDir()
	environment = append([]string{"TMPDIR=" + temporary}, environment...)
	command := osbBroker(environment, append([]string{"try"}, arguments...)...)
	var stdout, stderr bytes.Buffer
	command.Stdout, command.Stderr = &stdout, &stderr
	check(t, command.Start())
	late := time.AfterFunc(time.Minute, func() { _ = command.Process.Kill() })
	defer late.Stop()
	if start != nil {
		start(command)
	}
	_ = command.Wait()
	left := diff.Value(filepath.Glob(temporary + "/*"))(t)
	return tryRun{command.ProcessState.ExitCode(), stdout.String(), stderr.String(), left}
}

// lines are the lines of standard output that begin with a word.
func (r tryRun) lines(word string) (found []string) {
	for _, line := range strings.Split(r.stdout, "\n") {
		if strings.HasPrefix(line, word+" ") {
			found = append(found, strings.TrimSpace(strings.TrimPrefix(line, word)))
		}
	}
	return found
}

// last is the last line of standard output.
func (r tryRun) last() string {
	lines := strings.Split(strings.TrimSuffix(r.stdout, "\n"), "\n")
	return lines[len(lines)-1]
}

// backendWith writes a backend in sh. The text comes before the calls that the backend then has, and may exit.
func backendWith(t *testing.T, text string) string {
	t.Helper()
	path := filepath.Join(t.TempDir(), "backend")
	program := "#!/bin/sh\n" + text + `
case $1 in
    look) [ -e "$OSB_NAME" ] && echo '{"exists": "whole"}' || echo '{"exists": "none"}' ;;
    create) : >"$OSB_NAME" ;;
    delete) rm -f "$OSB_NAME" ;;
    *) exit 5 ;;
esac
`
	check(t, os.WriteFile(path, []byte(program), 0o700))
	return "command:" + path
}

// unbindable is a catalogue for a backend that has no bindings.
func unbindable(t *testing.T) string {
	t.Helper()
	path := filepath.Join(t.TempDir(), "catalogue")
	text := bytes.ReplaceAll(catalogueWith(""), []byte(`"bindable": true`), []byte(`"bindable": false`))
	check(t, os.WriteFile(path, text, 0o600))
	return path
}

// The example of the guide does all that it has to do, and leaves nothing behind.
func TestTryExample(t *testing.T) {
	run := runTry(t, nil, nil, "--backend", "command:"+examples+"databases", "--catalog", examples+"own-catalogue.json")
	credentials := "credentials: an object with the members database, token"
	for _, line := range []string{
		"capabilities: bindings, credentials", "look instance 1: none", "create instance 1 again",
		"create-binding 1: " + credentials, "credentials of binding 2: those of create-binding",
		"delete-binding 1 again", "delete instance 2",
	} {
		diff.Contains(t, run.stdout, "\nok      "+line+"\n", "%q", line)
	}
	if run.status != 0 || run.last() != "52 ok, 0 failed" || run.stderr != "" || len(run.temporary) > 0 ||
		!strings.HasPrefix(run.stdout, "try     plan now of service database\n") {
		t.Errorf("got the status %d, %s%s and %v left, want 0, 52 ok and nothing", run.status, run.stdout, run.stderr,
			run.temporary)
	}
	diff.Equal(t, regexp.MustCompile(`[0-9a-f]{8}-`).FindString(run.stdout), "", "the output, %s", run.stdout)
}

// Folders are tried by the same calls, and in the folders that serve would use.
func TestTryFolders(t *testing.T) {
	state := t.TempDir()
	run := runTry(t, nil, nil, "--state", state, "--all-plans")
	plans := strings.Join(run.lines("try"), ", ")
	if run.status != 0 || run.last() != "150 ok, 0 failed" || run.stderr != "" ||
		plans != "plan at-once of service folder, plan by-worker of service folder" {
		t.Errorf("got the status %d and %s%s, want 0 and 150 ok of both plans", run.status, run.stdout, run.stderr)
	}
	if _, err := os.Stat(state + "/instances"); err != nil || len(soldInstances(t, state)) > 0 || len(run.temporary) > 0 {
		t.Errorf("got %v, %v and %v, want the folder, and nothing in it", err, soldInstances(t, state), run.temporary)
	}
}

// Plans are tried in the order in which they are named, with the parameters.
func TestTryPlans(t *testing.T) {
	seen := filepath.Join(t.TempDir(), "seen")
	backend := backendWith(t, `[ "$1" != create ] || cat >>"$BACKEND_SEEN"`)
	run := runTry(t, []string{"BACKEND_SEEN=" + seen}, nil, "--backend", backend, "--plan", "by-worker", "--plan",
		atOnce, "--parameters", `{"size": "small"}`)
	if run.status != 0 || run.last() != "38 ok, 0 failed" || len(run.lines("try")) != 2 {
		t.Errorf("got the status %d and %s%s, want 0 and 38 ok of two plans", run.status, run.stdout, run.stderr)
	}
	text := diff.Value(os.ReadFile(seen))(t)
	var plans []string
	for decoder := json.NewDecoder(bytes.NewReader(text)); decoder.More(); {
		var read struct {
			Plan string `json:"plan_id"`
			Body struct {
				Parameters struct{ Size string }
			}
		}
		if err := decoder.Decode(&read); err != nil || read.Body.Parameters.Size != "small" {
			t.Fatalf("got %+v and the error %v, want the size small", read, err)
		}
		plans = append(plans, read.Plan[len(read.Plan)-2:])
	}
	diff.Equal(t, strings.Join(plans, " "), "b2 b2 b2 b2 b1 b1 b1 b1", "the plans of the creations")
}

// A mistake of a program ends with status 1. Its line has the reason, and the state folder is kept.
func TestTryMistakes(t *testing.T) {
	const repeated = `[ "$1" != create ] || [ ! -e "$OSB_NAME" ] || `
	for name, test := range map[string]struct{ text, line, last string }{
		"not repeatable": {repeated + `{ echo 'first' >&2; printf 'it \033exists\n' >&2; exit 1; }`,
			`create instance 1 again: exit status 1: it \x1bexists`, "17 ok, 2 failed"},
		"output that isn't JSON": {repeated + `{ echo done; exit; }`,
			"create instance 1 again: exit status 0: standard output isn't the JSON that is expected: " +
				"invalid character 'd' looking for beginning of value", "17 ok, 2 failed"},
		"no such state": {`[ "$1" != look ] || { echo '{"exists": "no"}'; exit; }`,
			`look instance 1: "exists" is "no", and not none, part or whole`, "8 ok, 11 failed"},
		"killed": {repeated + `kill -9 $$`, "create instance 1 again: signal: killed", "17 ok, 2 failed"},
		"a process goes on": {`[ "$1" != create ] || [ -e ../once ] || { : >../once; sleep 10 >/dev/null 2>&1 & }`,
			"look instance 1: a process that an earlier call has started still runs, and has the lock of that call " +
				"open (descriptor 3)", ""},
		"rejected": {`[ "$1" != create ] || { echo '{"status": 400, "error": "Full", "description": "No."}'; exit 3; }`,
			"create instance 1: rejected with 400 Full: No.", "5 ok, 2 failed"},
	} {
		test := test
		t.Run(name, func(t *testing.T) {
			t.Parallel()
			run := runTry(t, nil, nil, "--backend", backendWith(t, test.text), "--catalog", unbindable(t))
			failed := run.lines("FAILED")
			if run.status != 1 || len(failed) == 0 || run.stderr != "" || test.last != "" && run.last() != test.last {
				t.Fatalf("got the status %d and %s%s, want 1 and what failed", run.status, run.stdout, run.stderr)
			}
			diff.Contains(t, strings.Join(failed, "\n")+"\n", test.line+"\n", "%q", test.line)
			kept := run.lines("kept")
			if len(run.temporary) != 1 || len(kept) != 1 || kept[0] != "the state folder "+run.temporary[0] {
				t.Errorf("got %v kept, and %q reported, want one folder that is reported", run.temporary, kept)
			}
			diff.Equal(t, len(run.lines("id")), 2, "the ids")
		})
	}
}

// What can't be deleted is named. The program has the umask that serve gives it.
func TestTryLeft(t *testing.T) {
	run := runTry(t, nil, nil, "--backend", backendWith(t, `[ "$1" != delete ] || exit 1`), "--catalog", unbindable(t))
	left, folder := run.lines("left"), filepath.Join(run.temporary[0], "command")
	found, err := filepath.Glob(folder + "/[0-9a-f]*")
	if err != nil || len(found) != 2 || len(left) != 2 || run.status != 1 {
		t.Fatalf("got the status %d, %s%s, %v and %v, want 1, and two named", run.status, run.stdout, run.stderr, found, err)
	}
	for _, path := range found {
		diff.Contains(t, strings.Join(left, "\n"), " "+filepath.Base(path)+" couldn't be deleted",
			"%s, %q", path, left)
		diff.Equal(t, diff.Value(os.Stat(path))(t).Mode().Perm(), 0o600, "the mode")
	}
}

// signalAt sends a signal to the program once a file exists.
func signalAt(t *testing.T, path string, signal os.Signal) func(*exec.Cmd) {
	return func(command *exec.Cmd) {
		for _, err := os.Stat(path); err != nil; _, err = os.Stat(path) {
			time.Sleep(5 * time.Millisecond)
		}
		diff.NoError(t, command.Process.Signal(signal), "")
	}
}

// takeHangups has the programs that the test starts take SIGHUP, also if nohup has started the test.
func takeHangups(t *testing.T) {
	taken := make(chan os.Signal, 1)
	signal.Notify(taken, syscall.SIGHUP)
	t.Cleanup(func() { signal.Stop(taken) })
}

// slow is a backend whose creations create all, say so in the file begun of the state folder, and don't end. The text
// comes before the calls.
func slow(t *testing.T, text string) string {
	return backendWith(t, text+"\n"+`[ "$1" != create ] || { : >"$OSB_NAME"; : >../begun; sleep 60; }`)
}

// A signal ends the call that runs, and what exists is deleted.
func TestTryStops(t *testing.T) {
	takeHangups(t)
	for _, signal := range []os.Signal{syscall.SIGTERM, os.Interrupt, syscall.SIGHUP} {
		t.Run(signal.String(), func(t *testing.T) {
			state := t.TempDir()
			run := runTry(t, nil, signalAt(t, state+"/begun", signal),
				"--state", state, "--backend", slow(t, ""), "--catalog", unbindable(t))
			wanted := "try     plan small of service shelf\nok      capabilities: neither bindings nor credentials\n" +
				"ok      look instance 1: none\nok      delete instance 1\nok      look instance 1: none\n" +
				"stopped by a signal, before all calls were tried\n4 ok, 0 failed\n"
			left, err := filepath.Glob(state + "/command/[0-9a-f]*")
			if run.status != 1 || run.stdout != wanted || run.stderr != "" || len(left) > 0 || err != nil {
				t.Errorf("%v: got the status %d, %s%s, %v left and %v, want 1 and nothing left", signal, run.status, run.stdout,
					run.stderr, left, err)
			}
		})
	}
}

// The deletions after a signal end with --stop-seconds, or at once with a second signal. A second SIGINT does nothing if
// the tests were started in the background by a shell, so here it is SIGTERM.
func TestTryStopsLate(t *testing.T) {
	const neverDeletes = `[ "$1" != delete ] || { : >../deleting; sleep 60; }`
	state := t.TempDir()
	run := runTry(t, nil, signalAt(t, state+"/begun", syscall.SIGTERM), "--state", state, "--stop-seconds", "0.2",
		"--backend", slow(t, neverDeletes), "--catalog", unbindable(t))
	if left := run.lines("left"); run.status != 1 || len(left) != 1 || !strings.HasPrefix(left[0], "instance 1: ") {
		t.Errorf("got the status %d and %s%s, want 1 and the instance 1 left", run.status, run.stdout, run.stderr)
	}
	state = t.TempDir()
	run = runTry(t, nil, func(command *exec.Cmd) {
		signalAt(t, state+"/begun", syscall.SIGTERM)(command)
		signalAt(t, state+"/deleting", syscall.SIGTERM)(command)
	}, "--state", state, "--backend", slow(t, neverDeletes), "--catalog", unbindable(t))
	diff.Equal(t, run.status, -1, "%s, %s", run.stdout, run.stderr)
	diff.Equal(t, run.last(), "ok      look instance 1: none", "%s, %s", run.stdout, run.stderr)
}

// A signal also ends the test while the program reports its capabilities. That is no mistake of an argument.
func TestTryStopsAtOnce(t *testing.T) {
	state := t.TempDir()
	run := runTry(t, nil, signalAt(t, state+"/begun", os.Interrupt), "--state", state, "--catalog", unbindable(t),
		"--backend", backendWith(t, `[ "$1" != capabilities ] || { : >../begun; sleep 60; }`))
	wanted := "stopped by a signal, before all calls were tried\n0 ok, 0 failed\n"
	if run.status != 1 || run.stdout != wanted || run.stderr != "" {
		t.Errorf("got the status %d and %s%s, want 1 and %s", run.status, run.stdout, run.stderr, wanted)
	}
}

// A terminal that is closed sends SIGHUP several times: what exists is deleted all the same.
func TestTryHangsUpTwice(t *testing.T) {
	takeHangups(t)
	state := t.TempDir()
	run := runTry(t, nil, func(command *exec.Cmd) {
		signalAt(t, state+"/begun", syscall.SIGHUP)(command)
		signalAt(t, state+"/deleting", syscall.SIGHUP)(command)
	}, "--state", state, "--catalog", unbindable(t),
		"--backend", slow(t, `[ "$1" != delete ] || { : >../deleting; sleep 0.3; }`))
	if run.status != 1 || run.last() != "4 ok, 0 failed" || run.stderr != "" {
		t.Errorf("got the status %d and %s%s, want 1 and 4 ok", run.status, run.stdout, run.stderr)
	}
}

// What an author has to change first ends with one line, and leaves no folder.
func TestTryUnusable(t *testing.T) {
	catalogue := unbindable(t)
	others := map[string]int{ // statuses besides 78
		"capabilities: exit status 1: out": 75, "--command-seconds": 2, "unknown flag: --listen": 2,
	}
	for says, arguments := range map[string][]string{
		"/nowhere/b":                        {"--backend", "command:/nowhere/b"},
		"capabilities: exit status 1: out":  {"--backend", backendWith(t, "echo out >&2; exit 1")},
		"/nowhere/c":                        {"--catalog", "/nowhere/c"},
		"can't be the catalogue":            {"--backend", backendWith(t, ""), "--catalog", examples + "own-catalogue.json"},
		`no plan has the name or id "huge"`: {"--plan", "huge"},
		"--plan or --all-plans":             {"--plan", "at-once", "--all-plans"},
		"--parameters: ":                    {"--parameters", "{"},
		"--parameters: want an object":      {"--parameters", "null"},
		"--command-seconds":                 {"--command-seconds", "0"},
		"unknown flag: --listen":            {"--listen", "127.0.0.1:0"},
		"the state folder":                  {"--state", catalogue},
		"PGPASSWORD":                        {"--backend", "postgresql://u:pw@h/d"},
		"OSB_BACKEND_KEY":                   {"--backend", "postgresql://u@127.0.0.1:1/d"},
	} {
		t.Run(says, func(t *testing.T) {
			want, isOther := others[says]
			if !isOther {
				want = 78
			}
			run := runTry(t, nil, nil, arguments...)
			isLine := strings.HasPrefix(run.stderr, "osb-broker: ") && strings.Count(run.stderr, "\n") == 1
			if run.status != want || !isLine || !strings.Contains(run.stderr, says) || run.stdout != "" || len(run.temporary) > 0 {
				t.Errorf("%v: got the status %d, %s%s and %v left, want %d and %s", arguments, run.status, run.stdout, run.stderr,
					run.temporary, want, says)
			}
		})
	}
}

// A server that no broker has used is rejected, because it would belong to the store of the test for good.
func TestTryDatabases(t *testing.T) {
	address, environment := postgresql(t)
	environment = append(environment[1:], "OSB_BACKEND_KEY="+strings.Repeat("k", 32))
	db := pgtest.DB(t, pgtest.URL(t))
	pgtest.Exec(t, db, "DROP SCHEMA IF EXISTS osb_try CASCADE", "CREATE SCHEMA osb_try")
	t.Cleanup(func() { pgtest.Exec(t, db, "DROP SCHEMA osb_try CASCADE") })
	address = pgtest.With(t, address, "search_path", "osb_try")
	arguments := []string{"--backend", address, "--customer-address", "localhost:5432"}
	run := runTry(t, environment, nil, arguments...)
	if run.status != 78 || !strings.Contains(run.stderr, "no broker has used this server") || len(run.temporary) > 0 {
		t.Errorf("got the status %d and %s%s, want 78 and that no broker has used it", run.status, run.stdout, run.stderr)
	}
	s := start(t, append([]string{password}, environment...), append([]string{"--state", t.TempDir()}, arguments...)...)
	s.stop()
	run = runTry(t, environment, nil, arguments...)
	if run.status != 0 || run.last() != "75 ok, 0 failed" || strings.Contains(run.stdout, "postgresql://") {
		t.Errorf("got the status %d and %s%s, want 0, 75 ok and no URL", run.status, run.stdout, run.stderr)
	}
}
