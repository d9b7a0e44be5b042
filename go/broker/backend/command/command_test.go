package command

import (
	"context"
	"encoding/json"
	"errors"
	"fmt"
	"os"
	"os/exec"
	"path/filepath"
	"sort"
	"strings"
	"sync/atomic"
	"syscall"
	"testing"
	"time"

	"pippinterm/broker"
	"pippinterm/broker/brokertest"
	"pippinterm/broker/sqlite"
	"pippinterm/internal/diff"
	"pippinterm/internal/filelock"
	"pippinterm/internal/waits"
	"pippinterm/osb"
)

var (
	ctx      = context.Background()
	instance = requestOf(osb.InstanceKey(osb.MustParseID("00000000-0000-0000-0000-000000000001")))
	binding  = requestOf(osb.BindingKey(instance.Key.Instance, osb.MustParseID("00000000-0000-0000-0000-000000000002")))
)

func requestOf(key broker.Key) broker.Request {
	request := broker.Request{Key: key, InstanceID: key.Instance.String(), ServiceID: "database", PlanID: "now"}
	if key.IsBinding {
		request.BindingID = key.Binding.String()
	}
	return request
}

// script returns the path of a new program in sh.
func script(t *testing.T, text string) string {
	t.Helper()
	path := filepath.Join(t.TempDir(), "backend")
	check(t, os.WriteFile(path, []byte("#!/bin/sh\n"+text+"\n"), 0o700))
	return path
}

// newBackend returns the backend of a program that supports all calls. Its calls run the text in sh.
func newBackend(t *testing.T, options Options, text string) bindingsWithCredentials {
	t.Helper()
	if options.State == "" {
		options.State = t.TempDir()
	}
	program := script(t, `case $1 in capabilities) echo '{"bindings":true,"credentials":true}'; exit 0 ;; esac`+"\n"+text)
	backend := diff.Value(New(ctx, program, options))(t)
	return backend.(bindingsWithCredentials)
}

func TestCapabilities(t *testing.T) {
	cases := map[string]struct {
		text                  string
		bindings, credentials bool
		isRejected            bool
	}{
		"updates and details":     {`echo '{"updates": true, "details": true}'`, false, false, false},
		"nothing":                 {"", false, false, false},
		"status 5":                {"echo 'unknown call'; exit 5", false, false, false},
		"an empty object":         {"echo '{}'", false, false, false},
		"bindings":                {`echo '{"bindings": true}'`, true, false, false},
		"both":                    {`echo '{"bindings": true, "credentials": true}'`, true, true, false},
		"credentials alone":       {`echo '{"credentials": true}'`, false, false, true},
		"no JSON":                 {"echo yes", false, false, true},
		"no object":               {"echo null", false, false, true},
		"not true or false":       {`echo '{"bindings": 1}'`, false, false, true},
		"status 1":                {"exit 1", false, false, true},
		"the input has the state": {`[ "$(cat)" = "{\"state\":\"$OSB_STATE\"}" ]`, false, false, false},
		"the call is its name":    {`[ "$*" = capabilities ]`, false, false, false},
	}
	for name, c := range cases {
		t.Run(name, func(t *testing.T) {
			backend, err := New(ctx, script(t, c.text), Options{State: t.TempDir()})
			if (err != nil) != c.isRejected {
				t.Fatalf("New: got %v, want an error exactly if it is rejected", err)
			}
			if c.isRejected {
				return
			}
			_, hasBindings := backend.(broker.BindingBackend)
			_, hasCredentials := backend.(broker.CredentialsBackend)
			diff.Equal(t, hasBindings, c.bindings, "")
			diff.Equal(t, hasCredentials, c.credentials, "")
			hasMore := strings.Contains(c.text, "updates")
			wanted := broker.Abilities{Bindings: c.bindings, Updates: hasMore, Details: hasMore}
			diff.Equal(t, broker.AbilitiesOf(backend), wanted, "the abilities")
			_, hasLocks := backend.(broker.LockBackend)
			diff.Equal(t, hasLocks, true, "the backend has locks")
			_, hasSync := backend.(broker.SyncBackend)
			diff.Equal(t, hasSync, false, "the backend claims to know what is on disk")
		})
	}
}

// A program that fails, is killed or is slow may report its capabilities at the next start. One that can't be run, or
// reports something wrong, needs a change first.
func TestCapabilitiesThatMayPass(t *testing.T) {
	for name, test := range map[string]struct {
		text    string
		mayPass bool
	}{
		"it fails":                       {"exit 1", true},
		"it fails with 2":                {"exit 2", true},
		"it fails with a text":           {"echo no; exit 4", true},
		"it is killed":                   {"kill -9 $$", true},
		"it is slow":                     {"sleep 600", true},
		"its output isn't closed":        {"sleep 600 & exit 0", true},
		"no JSON":                        {"echo yes", false},
		"credentials alone":              {`echo '{"credentials": true}'`, false},
		"too much output":                {"head -c 2000000 /dev/zero", false},
		"no such interpreter":            {"#!/nowhere/sh", false},
		"its last command doesn't exist": {"/nowhere/program", false},
	} {
		t.Run(name, func(t *testing.T) {
			limit := time.Minute
			if strings.Contains(test.text, "sleep") {
				limit = 300 * time.Millisecond
			}
			file := script(t, test.text)
			if strings.HasPrefix(test.text, "#!") {
				check(t, os.WriteFile(file, []byte(test.text+"\n"), 0o700))
			}
			_, err := New(ctx, file, Options{State: t.TempDir(), Limit: limit})
			var called *CallError
			if !errors.As(err, &called) || called.MayPass != test.mayPass {
				t.Errorf("New: got %v, which may pass: %v, want %v", err, called != nil && called.MayPass, test.mayPass)
			}
		})
	}
}

func TestProgramsThatNewRejects(t *testing.T) {
	file := filepath.Join(t.TempDir(), "file")
	check(t, os.WriteFile(file, []byte("#!/bin/sh\n"), 0o600))
	for name, program := range map[string]string{
		"a file that doesn't exist": file + "x", "a name that isn't in PATH": "osb-no-such-program",
		"a file that isn't executable": file, "a folder": t.TempDir(), "nothing": "",
	} {
		t.Run(name, func(t *testing.T) {
			diff.Error(t, diff.Err(New(ctx, program, Options{State: t.TempDir()})), "New with %s", name)
		})
	}
}

// A call of the program that hasn't ended by itself may succeed later, unless its error says that it can't.
func TestMayPass(t *testing.T) {
	for _, test := range []struct {
		err  error
		want bool
	}{
		{errors.New("the program was killed"), true}, {errTooLong, false}, {syscall.EAGAIN, true}, {syscall.ENOMEM, true},
		{syscall.EMFILE, true}, {syscall.ENFILE, true}, {syscall.ENOEXEC, false}, {syscall.EACCES, false},
	} {
		t.Run(test.err.Error(), func(t *testing.T) {
			diff.Equal(t, mayPass(fmt.Errorf("the call: %w", test.err)), test.want, "%v", test.err)
		})
	}
}

// Without locks there is no backend.
func TestLocksThatCanNotBeOpened(t *testing.T) {
	state := t.TempDir()
	check(t, os.Mkdir(state+lockFile, 0o700))
	diff.ErrorContains(t, diff.Err(New(ctx, script(t, ""), Options{State: state})), lockFile, "")
}

func TestOptionsThatNewRejects(t *testing.T) {
	file := filepath.Join(t.TempDir(), "file")
	check(t, os.WriteFile(file, nil, 0o600))
	for wanted, options := range map[string]Options{
		"no folder": {}, "not a directory": {State: file}, "UTF-8": {State: t.TempDir() + "/\xff"},
		"negative": {State: t.TempDir(), Limit: -1},
	} {
		t.Run(wanted, func(t *testing.T) {
			diff.ErrorContains(t, diff.Err(New(ctx, script(t, ""), options)), wanted, "New")
		})
	}
}

// With Options.Existing, New takes only a folder that was used before, and creates nothing.
func TestExisting(t *testing.T) {
	program, top := script(t, ""), t.TempDir()
	empty := filepath.Join(top, "empty")
	check(t, os.Mkdir(empty, 0o700))
	for name, state := range map[string]string{
		"a folder that doesn't exist": filepath.Join(top, "none"), "an empty folder": empty,
	} {
		t.Run(name, func(t *testing.T) {
			_, err := New(ctx, program, Options{State: state, Existing: true})
			diff.ErrorIs(t, err, os.ErrNotExist, "New with %s", name)
			diff.ErrorContains(t, err, state, "New with %s", name)
		})
	}
	diff.Empty(t, diff.Value(filepath.Glob(top+"/*/.locks"))(t), "")
	diff.ErrorIs(t, diff.Err(os.Stat(filepath.Join(top, "none"))), os.ErrNotExist, "the folder")
	for _, existing := range []bool{false, true} {
		t.Run(fmt.Sprintf("existing %t", existing), func(t *testing.T) {
			_, err := New(ctx, program, Options{State: empty, Existing: existing})
			diff.NoError(t, err, "New with Existing %v", existing)
		})
	}
}

// New needs the command that ends a run whose broker was killed.
func TestWithoutTimeout(t *testing.T) {
	program := script(t, "")
	t.Setenv("PATH", t.TempDir())
	diff.ErrorContains(t, diff.Err(New(ctx, program, Options{State: t.TempDir()})), "Install coreutils", "New")
}

// A relative path of the program, and of the folder, is one of the folder in which the broker was started.
func TestRelativePaths(t *testing.T) {
	program, folder := script(t, `pwd >"$OSB_STATE/pwd"`), t.TempDir()
	before := diff.Value(os.Getwd())(t)
	check(t, os.Chdir(filepath.Dir(program)))
	defer func() { _ = os.Chdir(before) }()
	state := diff.Value(filepath.Rel(filepath.Dir(program), filepath.Join(folder, "new", "state")))(t)
	diff.Value(New(ctx, "./backend", Options{State: state}))(t)
	diff.HasSuffix(t, strings.TrimSpace(string(diff.Value(os.ReadFile(folder+"/new/state/pwd"))(t))), "/new/state",
		"the working directory")
	diff.Equal(t, diff.Value(os.Stat(folder+"/new/state"))(t).Mode().Perm(), 0o700, "the folder")
}

func TestEnvironment(t *testing.T) {
	t.Setenv("OSB_BROKER_PASSWORD", "secret")
	t.Setenv("OSB_BACKEND_KEY", "secret")
	t.Setenv("PGPASSWORD", "secret")
	t.Setenv("BACKEND_REGION", "north")
	t.Setenv("LANG", "C")
	t.Setenv("TZ", "UTC")
	t.Setenv("HOME", "/nowhere")
	backend := newBackend(t, Options{}, `tr '\0' '\n' </proc/$$/environ >"$OSB_STATE/$1"`)
	_ = backend.Create(ctx, instance)
	_, _ = backend.CreateBinding(ctx, binding)
	one, two := instance.Key.Instance.String(), binding.Key.Binding.String()
	always := []string{
		"BACKEND_REGION=north", "HOME=/nowhere", "LANG=C", "OSB_INSTANCE=" + one,
		"OSB_STATE=" + backend.state, "PATH=" + os.Getenv("PATH"), "TZ=UTC",
	}
	for call, wanted := range map[string][]string{
		"create":         append([]string{"OSB_NAME=" + one}, always...),
		"create-binding": append([]string{"OSB_BINDING=" + two, "OSB_NAME=" + one + "." + two}, always...),
	} {
		t.Run(call, func(t *testing.T) {
			text := diff.Value(os.ReadFile(filepath.Join(backend.state, call)))(t)
			found := strings.Split(strings.TrimSpace(string(text)), "\n")
			sort.Strings(found)
			sort.Strings(wanted)
			diff.Check(t, found, wanted, "the environment of %s", call)
		})
	}
}

// all runs each call of the backend, and returns their errors by the names of the calls.
func all(backend bindingsWithCredentials) map[string]error {
	errs := map[string]error{
		"create": backend.Create(ctx, instance), "delete": backend.Delete(ctx, instance),
		"delete-binding": backend.DeleteBinding(ctx, binding),
	}
	_, errs["look"] = backend.Look(ctx, instance)
	_, errs["look-binding"] = backend.LookBinding(ctx, binding)
	_, errs["create-binding"] = backend.CreateBinding(ctx, binding)
	_, errs["credentials"] = backend.Credentials(ctx, binding)
	return errs
}

func TestEachCallIsItsName(t *testing.T) {
	backend := newBackend(t, Options{}, `echo "called with $*" >&2; exit 1`)
	for call, err := range all(backend) {
		diff.HasSuffix(t, fmt.Sprint(err), "called with "+call, "%s", call)
	}
}

func TestLook(t *testing.T) {
	cases := map[string]struct {
		text  string
		there broker.There
		isBad bool
	}{
		"none":              {text: `echo '{"exists": "none"}'`},
		"part":              {text: `echo '{"exists": "part"}'`, there: broker.Part},
		"whole":             {text: `printf '\n {"exists":"whole", "more": 1}'`, there: broker.Whole},
		"another word":      {text: `echo '{"exists": "unknown"}'`, isBad: true},
		"nothing":           {text: ``, isBad: true},
		"an empty object":   {text: `echo '{}'`, isBad: true},
		"no object":         {text: `echo '"whole"'`, isBad: true},
		"two objects":       {text: `echo '{"exists": "whole"}{"exists": "whole"}'`, isBad: true},
		"half an object":    {text: `echo '{"exists": "whole"'`, isBad: true},
		"a status":          {text: `echo '{"exists": "whole"}'; exit 1`, isBad: true},
		"a rejected look":   {text: `echo '{"exists": "whole"}'; exit 3`, isBad: true},
		"ended by a signal": {text: `echo '{"exists": "whole"}'; kill -9 $$`, isBad: true},
	}
	for name, c := range cases {
		t.Run(name, func(t *testing.T) {
			backend := newBackend(t, Options{}, c.text)
			there, err := backend.Look(ctx, instance)
			bound, boundErr := backend.LookBinding(ctx, binding)
			if there != c.there || bound != c.there || (err != nil) != c.isBad || (boundErr != nil) != c.isBad {
				t.Errorf("got Look %v, %v, and LookBinding %v, %v, want %v", there, err, bound, boundErr, c.there)
			}
		})
	}
}

func TestWork(t *testing.T) {
	for name, c := range map[string]struct {
		text  string
		isBad bool
	}{
		"nothing": {"", false}, "a blank line": {"echo", false}, "an empty object": {"echo '{}'", false},
		"a text": {"echo done", true}, "a list": {"echo '[]'", true}, "null": {"echo null", true},
	} {
		t.Run(name, func(t *testing.T) {
			errs := all(newBackend(t, Options{}, c.text))
			for _, call := range []string{"create", "delete", "delete-binding"} {
				diff.Equal(t, errs[call] != nil, c.isBad, "%s", call)
			}
		})
	}
}

func TestCredentials(t *testing.T) {
	for text, wanted := range map[string]string{
		`{"credentials": {"uri": "x", "n": 1.50}}`: `{"uri": "x", "n": 1.50}`,
		`{"credentials": "text"}`:                  `"text"`,
		`{"credentials": null}`:                    `null`,
		`{}`:                                       "",
		``:                                         "",
		`{"credentials": {"uri": "x"}`:             "",
	} {
		t.Run(text, func(t *testing.T) {
			backend := newBackend(t, Options{}, "echo '"+text+"'")
			created, createErr := backend.CreateBinding(ctx, binding)
			found, findErr := backend.Credentials(ctx, binding)
			isBad := wanted == ""
			if string(created) != wanted || string(found) != wanted || (createErr != nil) != isBad || (findErr != nil) != isBad {
				t.Errorf("of %q: got CreateBinding %s, %v, and Credentials %s, %v, want %q", text, created, createErr, found,
					findErr, wanted)
			}
		})
	}
}

func TestExitStatuses(t *testing.T) {
	cases := []struct {
		text     string
		wanted   string            // in the error
		rejected *broker.Rejection // of a creation
		public   string            // the description for the platform
	}{
		{"exit 1", "exit status 1", nil, ""},
		{"echo first >&2; echo ' last ' >&2; echo >&2; exit 1", "exit status 1: last", nil, ""},
		{"printf 'bad \\377' >&2; exit 2", "exit status 2: bad \uFFFD", nil, ""},
		{"exit 5", "doesn't support", nil, ""},
		{"exit 77", "exit status 77", nil, ""},
		{"kill -9 $$", "signal: killed", nil, ""},
		{"exit 3", "exit status 3: standard output has no \"status\"", nil, ""},
		{`echo '{"description": "Full."}'; exit 3`, "no \"status\"", nil, ""},
		{`echo '{"status": 403, "description": "Full."}'; echo no >&2; exit 3`, "so this is no rejection: no", nil, ""},
		{`echo '{"status": 400}'; exit 3`, "exit status 3", &broker.Rejection{Status: 400}, ""},
		{
			`echo '{"status": 422, "error": "QuotaExceeded", "description": "Full."}'; echo no >&2; exit 3`, "exit status 3: no",
			&broker.Rejection{Status: 422, Code: "QuotaExceeded", Description: "Full."}, "",
		},
		{"echo no; exit 3", "JSON", nil, ""},
		{`echo '{"description": "Try later."}'; echo why >&2; exit 4`, "exit status 4: Try later.: why", nil, "Try later."},
		{"exit 4", "exit status 4", nil, ""},
		{"echo no; exit 4", "JSON", nil, ""},
	}
	for _, c := range cases {
		t.Run(c.text, func(t *testing.T) {
			for call, err := range all(newBackend(t, Options{}, c.text)) {
				if err == nil {
					t.Fatalf("%s: got no error, want one", call)
				}
				isCreation := strings.HasPrefix(call, "create")
				var rejected *broker.Rejection
				if errors.As(err, &rejected) != (c.rejected != nil && isCreation) {
					t.Fatalf("%s: got %v, which is a rejection: %v, want one exactly if it is scripted", call, err, rejected)
				}
				if rejected != nil && *rejected != *c.rejected {
					t.Errorf("%s: got the rejection %+v, want %+v", call, rejected, *c.rejected)
				}
				wanted := c.wanted
				if !isCreation && strings.Contains(c.text, "exit 3") {
					wanted = "exit status 3: this call can't be rejected"
				}
				diff.ErrorContains(t, err, wanted, "%s", call)
				described := c.public
				if rejected != nil {
					described = c.rejected.Description
				}
				diff.Equal(t, broker.Description(err), described, "%s", call)
			}
		})
	}
}

func TestRequestIsTheInput(t *testing.T) {
	backend := newBackend(t, Options{}, `cat >"$OSB_STATE/$1"`)
	request := binding
	request.InstanceID = "a/../<é>"
	request.Body = json.RawMessage(`{"parameters": {"size": 1.50, "name": "<x>"}}`)
	request.Identity = &osb.Identity{Platform: "cloudfoundry", Object: json.RawMessage(`{"user_id": "u"}`)}
	request.RequestID = "r1"
	request.Deletion = &broker.Origin{RequestID: "r2"}
	_, _ = backend.CreateBinding(ctx, request)
	text := diff.Value(os.ReadFile(filepath.Join(backend.state, "create-binding")))(t)
	var found any
	check(t, json.Unmarshal(text, &found))
	wanted := map[string]any{
		"instance_id": "a/../<é>", "binding_id": request.BindingID, "service_id": "database", "plan_id": "now",
		"body":                 map[string]any{"parameters": map[string]any{"size": 1.5, "name": "<x>"}},
		"originating_identity": map[string]any{"platform": "cloudfoundry", "value": map[string]any{"user_id": "u"}},
		"request_identity":     "r1", "deletion": map[string]any{"request_identity": "r2"}, "state": backend.state,
	}
	diff.Check(t, found, wanted, "the input")
	diff.Contains(t, string(text), `1.50`, "a number")
}

var _ broker.LateTiedBackend = bindingsWithCredentials{}

// The folder keeps the name of the first store, also if an earlier version has used the folder before.
func TestOwner(t *testing.T) {
	state := t.TempDir()
	check(t, os.WriteFile(filepath.Join(state, "sold before"), nil, 0o600))
	first := newBackend(t, Options{State: state}, "")
	diff.Equal(t, diff.Value(first.Owner(ctx))(t), "", "the owner of a new folder")
	for _, store := range []string{"one", "two"} {
		diff.Equal(t, diff.Value(first.Own(ctx, store))(t), "one", "Own(%s)", store)
	}
	diff.Equal(t, diff.Value(newBackend(t, Options{State: state, Existing: true}, "").Owner(ctx))(t), "one",
		"the owner after a restart")
	left := diff.Value(os.ReadDir(state))(t)
	for n, name := range []string{".locks", ".owner", "sold before"} {
		if len(left) != 3 || left[n].Name() != name {
			t.Fatalf("the folder: got %v, want three files", left)
		}
	}
	diff.Equal(t, diff.Value(newBackend(t, Options{}, "").Owner(ctx))(t), "", "the owner of another folder")
}

// If nobody can tell the owner, Owner fails, and Own too.
func TestOwnerThatIsUnreadable(t *testing.T) {
	backend := newBackend(t, Options{}, "")
	check(t, os.Mkdir(backend.state+ownerFile, 0o700))
	diff.Error(t, diff.Err(backend.Owner(ctx)), "Owner")
	diff.Error(t, diff.Err(backend.Own(ctx, "one")), "Own")
}

// Of these variables, the first makes the test binary a broker that runs the program with the folder of the second, and
// with the limit of the third, if it is set.
const (
	programVariable = "COMMAND_TEST_PROGRAM"
	stateVariable   = "COMMAND_TEST_STATE"
	limitVariable   = "COMMAND_TEST_LIMIT"
)

func TestMain(m *testing.M) {
	program := os.Getenv(programVariable)
	if program == "" {
		os.Exit(m.Run())
	}
	if err := serve(program, os.Getenv(stateVariable)); err != nil {
		fmt.Fprintln(os.Stderr, err)
		os.Exit(1)
	}
}

// serve creates the instance under its lock, as a broker does.
func serve(program, state string) error {
	backend, err := New(ctx, program, Options{State: state})
	if err != nil {
		return err
	}
	sold := backend.(instances)
	if text := os.Getenv(limitVariable); text != "" {
		if sold.limit, err = time.ParseDuration(text); err != nil {
			return err
		}
		sold.grace = 100 * time.Millisecond
	}
	lock, err := sold.Locks().Lock(ctx, instance.Key)
	if err != nil {
		return err
	}
	defer lock.Unlock()
	return sold.Create(lock.Context(ctx), instance)
}

// The lock of a call outlives the broker: no other process gets it before the program has ended.
func TestLockOutlivesTheBroker(t *testing.T) {
	texts := map[string]string{
		"the program":            `echo >"$OSB_STATE/started"; read line <"$OSB_STATE/go"; : >"$OSB_STATE/done"`,
		"a child of the program": `{ echo >"$OSB_STATE/started"; read line <"$OSB_STATE/go"; : >"$OSB_STATE/done"; } &`,
	}
	for name, text := range texts {
		t.Run(name, func(t *testing.T) {
			state := t.TempDir()
			started, goOn := fifo(t, state+"/started"), fifo(t, state+"/go")
			killedBroker(t, script(t, "[ $1 = create ] || exit 0; "+text), state, func() { read(t, started) })
			locks := diff.Value(broker.NewFileLocks(state + "/.locks"))(t)
			diff.Equal(t, diff.Value(locks.TryLock(ctx, instance.Key))(t) == nil, true, "TryLock while the program runs")
			if lock, err := locks.TryLock(ctx, binding.Key); lock == nil || err != nil {
				t.Errorf("TryLock of another key: got %v and %v, want one and no error", lock, err)
			} else {
				lock.Unlock()
			}
			diff.Value(goOn.WriteString("go\n"))(t)
			mustLock(t, locks).Unlock()
			diff.NoError(t, diff.Err(os.Stat(state+"/done")), "the program's work before the lock is free")
		})
	}
}

// killedBroker starts another process as the broker, and kills it with SIGKILL once until returns.
func killedBroker(t *testing.T, program, state string, until func()) {
	t.Helper()
	cmd := exec.Command(os.Args[0])
	cmd.Env = append(os.Environ(), programVariable+"="+program, stateVariable+"="+state)
	cmd.Stderr = os.Stderr
	check(t, cmd.Start())
	defer func() { _ = cmd.Wait() }()
	defer func() { _ = cmd.Process.Kill() }()
	until()
}

// A run that hangs ends after its limit, though its broker was killed. So does what it has started.
func TestLimitOutlivesTheBroker(t *testing.T) {
	state := t.TempDir()
	started := fifo(t, state+"/started")
	t.Setenv(limitVariable, "2s")
	text := `[ $1 = create ] || exit 0; sleep 1000 & echo >"$OSB_STATE/started"; sleep 1000`
	killedBroker(t, script(t, text), state, func() { read(t, started) })
	locks := diff.Value(broker.NewFileLocks(state + "/.locks"))(t)
	diff.Equal(t, diff.Value(locks.TryLock(ctx, instance.Key))(t) == nil, true, "TryLock while the program runs")
	mustLock(t, locks).Unlock()
}

// A lockingBackend is a backend with its own locks.
type lockingBackend interface {
	broker.Backend
	broker.LockBackend
}

// countedLocks count how often a lock was tried.
type countedLocks struct {
	broker.Locks
	tries atomic.Int32
}

func (l *countedLocks) TryLock(ctx context.Context, key broker.Key) (broker.Lock, error) {
	defer l.tries.Add(1)
	return l.Locks.TryLock(ctx, key)
}

// A bench is a service over a backend.
type bench struct {
	*broker.Service
	store *sqlite.Store
	locks *countedLocks
}

func benchOf(t *testing.T, backend lockingBackend, observer broker.Observer) *bench {
	t.Helper()
	document := diff.Value(os.ReadFile(examples + "own-catalogue.json"))(t)
	catalogue := diff.Value(broker.NewCatalogue(document, broker.Abilities{Bindings: true}))(t)
	store := diff.Value(sqlite.Open(ctx, filepath.Join(t.TempDir(), "holdings.sqlite"), broker.Silent{}))(t)
	t.Cleanup(func() { _ = store.Close() })
	options := broker.ServiceOptions{WaitForPoll: time.Minute}
	locks := &countedLocks{Locks: backend.Locks()}
	return &bench{broker.NewService(catalogue, store, backend, locks, options, observer), store, locks}
}

// isEndedAfter fails unless the work stays pending as long as a process has its lock, whatever a sweeper does, and ends
// once goOn has had that process end.
func (b *bench) isEndedAfter(t *testing.T, goOn *os.File) {
	t.Helper()
	finish, before := brokertest.Sweep(t, b.Service, b.store, instance.Key), b.locks.tries.Load()
	waits.Until(t, "a sweeper has tried the lock", func() bool { return b.locks.tries.Load() > before+1 })
	if snapshot := diff.Value(b.store.Read(ctx, instance.Key))(t); !isPending(snapshot) {
		t.Errorf("while the process runs: got %v, want the work pending", snapshot.Holding)
	}
	diff.Value(goOn.WriteString("go\n"))(t)
	finish()
	snapshot := diff.Value(b.store.Read(ctx, instance.Key))(t)
	if row, isHeld := snapshot.Holding.Row(); !isHeld || row.Phase != osb.PhaseReady || isPending(snapshot) {
		t.Errorf("in the end: got %v in the store, want it ready", snapshot.Holding)
	}
}

// provision is the Provision of the instance.
func provision(t *testing.T) broker.Visit {
	t.Helper()
	asked := osb.Asked{
		Kind: osb.KindProvision, HasService: true, HasPlan: true, ID: instance.Key.Instance,
		Service: osb.MustParseID("11111111-0000-0000-0000-0000000000a0"),
		Plan:    osb.MustParseID("11111111-0000-0000-0000-0000000000b1"),
	}
	request := diff.Value(json.Marshal(instance))(t)
	return broker.Visit{Key: instance.Key, Asked: asked, Request: request}
}

// A process that left the group goes on after the creation has failed, and creates the resource. As long as it runs,
// look finds nothing, and that isn't reported: the work stays pending. Once the process has ended, the work ends too.
func TestNobodyIsToldWhatAProcessStillChanges(t *testing.T) {
	backend := newBackend(t, Options{}, `case $1 in
		look) [ -e resource ] && echo '{"exists": "whole"}' || echo '{"exists": "none"}' ;;
		create)
			setsid sh -c 'echo >left; read line <go; : >resource' >/dev/null 2>&1 &
			read line <left
			exit 1 ;;
		*) exit 5 ;;
	esac`)
	backend.grace = 200 * time.Millisecond
	fifo(t, backend.state+"/left")
	goOn := fifo(t, backend.state+"/go")
	b := benchOf(t, backend, broker.Silent{})
	response, err := b.Handle(ctx, provision(t))
	diff.ErrorIs(t, err, broker.ErrNobodyKnows, "the Provision, %v", response)
	diff.ErrorContains(t, err, filelock.ErrLent.Error(), "the Provision, %v", response)
	b.isEndedAfter(t, goOn)
}

func isPending(snapshot broker.Snapshot) bool {
	_, isPending := snapshot.Holding.Work()
	return isPending
}

var check = diff.Must

// The program gets an update with the settings of before and the new ones, and says how much of the update is done.
func TestUpdates(t *testing.T) {
	program := script(t, `case $1 in
capabilities) echo '{"updates": true, "details": true}' ;;
look-update) if [ -f "$OSB_STATE/$OSB_NAME" ]; then echo '{"updated": "whole"}'; else echo '{"updated": "none"}'; fi ;;
update) cat > "$OSB_STATE/$OSB_NAME" ;;
details) echo '{"dashboard_url": "https://d", "metadata": {"labels": {"a": "b"}}}' ;;
esac`)
	state := t.TempDir()
	backend := diff.Value(New(ctx, program, Options{State: state}))(t).(instances)
	update := broker.Update{
		Request: instance, From: broker.Settings{PlanID: "p"},
		To:     broker.Settings{PlanID: "q", Parameters: json.RawMessage(`{"a":1}`), Version: "2"},
		Origin: broker.Origin{RequestID: "r"},
	}
	diff.Equal(t, diff.Value(backend.LookUpdate(ctx, update))(t), broker.None, "before")
	check(t, backend.Update(ctx, update))
	diff.Equal(t, diff.Value(backend.LookUpdate(ctx, update))(t), broker.Whole, "after")
	var got struct {
		Instance string          `json:"instance_id"`
		State    string          `json:"state"`
		From, To broker.Settings // as their tags have them
		Update   broker.Origin
	}
	text := diff.Value(os.ReadFile(filepath.Join(state, instance.Key.Instance.String())))(t)
	check(t, json.Unmarshal(text, &got))
	if got.Instance != instance.InstanceID || got.State != state || got.Update.RequestID != "r" {
		t.Errorf("got %s, want the instance, the state and the request", text)
	}
	diff.Check(t, got.From, update.From, "the settings of before")
	diff.Check(t, got.To, update.To, "the new settings")
	details := diff.Value(backend.Details(ctx, instance))(t)
	diff.Equal(t, details.DashboardURL, "https://d", "the dashboard")
	diff.Equal(t, string(details.Metadata), `{"labels": {"a": "b"}}`, "the metadata")
}

// A program may reject an update, and what isn't a word of the protocol is an error.
func TestErrorsOfUpdates(t *testing.T) {
	backend := diff.Value(New(ctx, script(t, `case $1 in
capabilities) echo '{"updates": true}' ;;
look-update) echo '{"updated": "half"}' ;;
update) echo '{"status": 422, "error": "QuotaExceeded", "description": "too many"}'; exit 3 ;;
details) exit 1 ;;
esac`), Options{State: t.TempDir()}))(t).(instances)
	_, err := backend.LookUpdate(ctx, broker.Update{Request: instance})
	if err == nil || !strings.Contains(err.Error(), `"updated" is "half"`) {
		t.Errorf("got %v, want which member is wrong", err)
	}
	var rejected *broker.Rejection
	err = backend.Update(ctx, broker.Update{Request: instance})
	if !errors.As(err, &rejected) || rejected.Code != "QuotaExceeded" {
		t.Errorf("got %v, want the rejection", err)
	}
	if _, err := backend.Details(ctx, instance); err == nil {
		t.Error("details that fail: got no error, want one")
	}
	yes, no := true, false
	for text, want := range map[string]*broker.Outlook{
		`{"description": "x", "instance_usable": true}`:         {InstanceUsable: &yes},
		`{"instance_usable": false, "update_repeatable": true}`: {InstanceUsable: &no, UpdateRepeatable: &yes},
		`{"description": "x"}`:                                  nil,
	} {
		failing := script(t, `case $1 in
capabilities) echo '{"updates": true}' ;;
update) echo '`+text+`'; exit 4 ;;
esac`)
		backend := diff.Value(New(ctx, failing, Options{State: t.TempDir()}))(t).(instances)
		diff.Check(t, broker.OutlookOf(backend.Update(ctx, broker.Update{Request: instance})), want, "%s", text)
	}
}
