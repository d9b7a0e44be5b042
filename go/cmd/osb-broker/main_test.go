package main

import (
	"bytes"
	"context"
	"crypto/tls"
	"encoding/json"
	"fmt"
	"io"
	"net"
	"net/http"
	"os"
	"os/exec"
	"os/signal"
	"path/filepath"
	"regexp"
	"strings"
	"syscall"
	"testing"
	"time"

	"pippinterm/broker"
	"pippinterm/broker/sqlite"
	"pippinterm/internal/diff"
	"pippinterm/internal/programtest"
	"pippinterm/internal/waits"
)

// The test binary is the program too.
func TestMain(m *testing.M) {
	if os.Getenv("OSB_BROKER_TEST") == "program" {
		signal.Ignore(syscall.SIGXFSZ) // which ends a process that writes beyond its limit (TestFullDisk)
		main()
		return
	}
	os.Exit(m.Run())
}

// osbBroker is the program with these arguments and variables.
func osbBroker(environment []string, arguments ...string) *exec.Cmd {
	command := exec.Command(os.Args[0], arguments...)
	own := []string{"OSB_BROKER_TEST=program", "PATH=" + os.Getenv("PATH"), "HOME=/nowhere"}
	command.Env = append(own, environment...)
	return command
}

const password = "OSB_BROKER_PASSWORD=secret"

// A servedBroker is a broker that serves.
type servedBroker struct {
	*programtest.Program
	t      *testing.T
	url    string
	client *http.Client
}

// start starts a broker at a free port, and waits until it serves.
func start(t *testing.T, environment []string, arguments ...string) *servedBroker {
	t.Helper()
	command := osbBroker(environment, append([]string{"serve", "--listen", "127.0.0.1:0"}, arguments...)...)
	s := &servedBroker{
		Program: programtest.Start(t, command), t: t,
		client: &http.Client{Timeout: time.Minute, Transport: &http.Transport{DisableKeepAlives: true}},
	}
	s.url = s.Event("serving")["url"].(string)
	return s
}

// request is a request of a user.
func (s *servedBroker) request(user, password, method, path, body string) *http.Request {
	s.t.Helper()
	request := diff.Value(http.NewRequest(method, s.url+path, strings.NewReader(body)))(s.t)
	request.SetBasicAuth(user, password)
	request.Header.Set("X-Broker-API-Version", "2.17")
	return request
}

// ask sends a request of the platform, and returns the status and the body.
func (s *servedBroker) ask(method, path, body string) (int, string) {
	s.t.Helper()
	return s.do(s.request("platform", "secret", method, path, body))
}

func (s *servedBroker) do(request *http.Request) (int, string) {
	s.t.Helper()
	given := diff.Value(s.client.Do(request))(s.t)
	defer given.Body.Close()
	text := diff.Value(io.ReadAll(given.Body))(s.t)
	return given.StatusCode, string(text)
}

// stop sends SIGTERM, and waits for the end of all work and of the broker.
func (s *servedBroker) stop() {
	s.t.Helper()
	s.Terminate()
	s.ends(true)
}

// ends waits for the end of the broker, and checks whether all work has ended before.
func (s *servedBroker) ends(afterAllWork bool) {
	s.t.Helper()
	diff.Check(s.t, s.Event("stopped")["all_work_ended"], afterAllWork, "all_work_ended")
	s.End()
}

const (
	service = "00000000-0000-0000-0000-0000000000a0"
	atOnce  = "00000000-0000-0000-0000-0000000000b1"
	one     = "/v2/service_instances/one"
	names   = "?service_id=" + service + "&plan_id=" + atOnce
	order   = `{"service_id":"` + service + `","plan_id":"` + atOnce + `","organization_guid":"o","space_guid":"s"}`
	bind    = `{"service_id":"` + service + `","plan_id":"` + atOnce + `"}`
)

// A life over a restart: what was created before is there afterwards.
func TestServe(t *testing.T) {
	state := t.TempDir()
	s := start(t, []string{password}, "--state", state)
	s.expect(201, "PUT", one, order)
	bound := s.expect(201, "PUT", one+"/service_bindings/b", bind)
	diff.Contains(t, bound, "token", "the binding")
	s.stop()
	s = start(t, []string{password}, "--state", state, "--existing")
	diff.Equal(t, s.expect(200, "GET", one+"/service_bindings/b", ""), bound, "the binding")
	for _, path := range []string{one + "/service_bindings/b", one} {
		s.expect(200, "DELETE", path+names, "")
	}
	s.stop()
	for _, pattern := range []string{"instances/*-*", "instances/.bindings/*", "instances/.part-*"} {
		diff.Check(t, diff.Value(filepath.Glob(filepath.Join(state, pattern)))(t), []string(nil), "what is left")
	}
}

// Arguments that can't be parsed end it with status 2 and one line, and what an operator has to change with 78.
func TestUnusable(t *testing.T) {
	const password = "OSB_BROKER_PASSWORD=a secret that is long enough"
	empty := t.TempDir()
	file := func(name, text string) string {
		path := filepath.Join(empty, name)
		check(t, os.WriteFile(path, []byte(text), 0o600))
		return path
	}
	for _, test := range []struct {
		status                 int
		environment, arguments []string
		says                   string
	}{
		{2, nil, nil, "a command is missing: key, password, rekey, serve, try"},
		{2, nil, []string{"sell"}, "sell"},
		{78, nil, []string{"serve"}, "OSB_BROKER_PASSWORD"},
		{2, []string{password}, []string{"serve", "--threads", "0"}, "threads"},
		{2, []string{password}, []string{"serve", "--ids-return-after", "299"}, `"--ids-return-after" flag: want a number`},
		{2, []string{password}, []string{"serve", "--ids-return-after", "0"}, "from 300"},
		{2, []string{password}, []string{"serve", "--listen", "nowhere"}, "HOST:PORT"},
		{78, []string{password}, []string{"serve", "--user", "a:b"}, "--user"},
		{2, []string{password}, []string{"serve", "--state", empty, "--store", "mysql://x"}, "--store"},
		{2, []string{password}, []string{"serve", "--state", empty, "--backend", "postgresq://x"}, "with postgresq://"},
		{78, []string{password}, []string{"serve", "--state", empty, "--existing"}, "--existing"},
		{78, []string{password}, []string{"serve", "--state", file("f", "")}, "the state folder can't be created"},
		{78, []string{password}, []string{"serve", "--state", empty, "--catalog", file("c", "{}")},
			"can't be the catalogue"},
		{78, []string{password}, []string{"serve", "--state", empty, "--catalog", file("m",
			string(catalogueWith(`"requires": ["syslog_drain"],`)))}, `service "shelf": requires has "syslog_drain"`},
		{78, []string{password}, []string{"serve", "--state", empty, "--catalog", "/nowhere/c"}, "/nowhere/c"},
		{78, []string{password}, []string{"serve", "--state", empty, "--backend", "command:/nowhere/b"}, "/nowhere/b"},
		{78, []string{password}, []string{"serve", "--state", empty, "--store", "postgresql://u:pw@h/d"}, "PGPASSWORD"},
		{78, []string{password}, []string{"serve", "--state", empty, "--tls-certificate", "/nowhere/t", "--tls-key", "/n/k"},
			"/nowhere/t"},
		{78, []string{password}, []string{"serve", "--state", empty, "--listen", "192.0.2.1:1"}, "--listen 192.0.2.1:1"},
		{78, []string{password}, []string{"serve", "--state", empty, "--key-file", "/nowhere/k"}, "/nowhere/k"},
		{78, []string{password}, []string{"serve", "--state", empty, "--key-file", file("k", "short")},
			"osb-broker key --to FILE"},
		{78, nil, []string{"serve", "--users-file", file("u", "nobody\n")}, "user:password"},
		{78, nil, []string{"password", "one"}, "OSB_BACKEND_KEY"},
		{78, nil, []string{"rekey", "--backend", "folder"}, "postgresql://"},
	} {
		var stderr bytes.Buffer
		command := osbBroker(test.environment, test.arguments...)
		command.Stderr = &stderr
		_ = command.Run()
		text := stderr.String()
		isLine := strings.HasPrefix(text, "osb-broker: ") && strings.Count(text, "\n") == 1
		if got := command.ProcessState.ExitCode(); got != test.status || !isLine || !strings.Contains(text, test.says) {
			t.Errorf("%v: got the status %d, %q, want %d and %q", test.arguments, got, text, test.status, test.says)
		}
		diff.Lacks(t, text, "secret", "%v", test.arguments)
		diff.Lacks(t, text, ":pw@", "%v", test.arguments)
	}
}

// A store that is away ends it with status 75.
func TestUnavailable(t *testing.T) {
	command := osbBroker([]string{password}, "serve", "--state", t.TempDir(), "--store", "postgresql://u@127.0.0.1:1/d")
	out, _ := command.CombinedOutput()
	diff.Equal(t, command.ProcessState.ExitCode(), 75, "%s", out)
}

// The present key of rekey may be short, as in version 0.2. The new one may not.
func TestRekeyTakesAShortKey(t *testing.T) {
	file := filepath.Join(t.TempDir(), "new")
	for key, status := range map[string]int{strings.Repeat("k", 32): 75, "short": 78} {
		t.Run(fmt.Sprint(len(key), " bytes"), func(t *testing.T) {
			check(t, os.WriteFile(file, []byte(key), 0o600))
			command := osbBroker([]string{"OSB_BACKEND_KEY=hunter2"}, "rekey", "--backend", "postgresql://u@127.0.0.1:1/d",
				"--new-key-file", file)
			out, _ := command.CombinedOutput()
			diff.Equal(t, command.ProcessState.ExitCode(), status, "a new key of %d bytes, %s", len(key), out)
		})
	}
}

func TestHealth(t *testing.T) {
	s := start(t, []string{password}, "--state", t.TempDir())
	for path, text := range map[string]string{
		"/healthz": `"ok"`, "/readyz": `"ok"`, "/metrics": "osb_broker_requests_total",
	} {
		t.Run(path, func(t *testing.T) {
			request := diff.Value(http.NewRequest("GET", s.url+path, nil))(t)
			s.ask("GET", "/v2/catalog", "")
			status, body := s.do(request)
			diff.Equal(t, status, 200, "%s", path)
			diff.Contains(t, body, text, "%s", path)
		})
	}
	s.stop()
}

// Keys have 32 bytes, and are never the same.
func TestKey(t *testing.T) {
	key := func() string {
		out, err := osbBroker(nil, "key").Output()
		if err != nil || !regexp.MustCompile(`^[A-Za-z0-9_-]{43}\n$`).Match(out) {
			t.Errorf("got %q and the error %v, want a key", out, err)
		}
		return string(out)
	}
	if first, second := key(), key(); first == second {
		t.Error("two keys: got the same one, want two")
	}
}

// The certificates are used, and read again at SIGHUP.
func TestTLS(t *testing.T) {
	folder := t.TempDir()
	certificate, key := filepath.Join(folder, "c"), filepath.Join(folder, "k")
	make := func(name string) { programtest.WriteCertificate(t, name, certificate, key) }
	make("first")
	s := start(t, []string{password}, "--state", filepath.Join(folder, "s"), "--tls-certificate", certificate,
		"--tls-key", key)
	transport := s.client.Transport.(*http.Transport)
	seen := ""
	remember := func(c tls.ConnectionState) error {
		seen = c.PeerCertificates[0].Subject.CommonName
		return nil
	}
	transport.TLSClientConfig = &tls.Config{InsecureSkipVerify: true, VerifyConnection: remember}
	s.expect(200, "GET", "/v2/catalog", "")
	diff.Equal(t, seen, "first", "the certificate")
	make("second")
	check(t, s.Process.Signal(syscall.SIGHUP))
	s.Event("certificates_reloaded")
	s.expect(200, "GET", "/v2/catalog", "")
	diff.Equal(t, seen, "second", "the certificate")
}

// SIGTERM waits for the work that runs.
func TestStopWaits(t *testing.T) {
	folder := t.TempDir()
	script := filepath.Join(folder, "backend")
	text := `#!/bin/sh
case $1 in
    look) [ -e "$OSB_INSTANCE" ] && echo '{"exists": "whole"}' || echo '{"exists": "none"}' ;;
    create) touch "$OSB_STATE/begun"; sleep 1; touch "$OSB_INSTANCE" ;;
    *) exit 5 ;;
esac
`
	check(t, os.WriteFile(script, []byte(text), 0o700))
	s := start(t, []string{password}, "--state", folder, "--backend", "command:"+script)
	status := waits.Begin(func() int {
		given, _ := s.ask("PUT", one, order)
		return given
	})
	waits.Until(t, "the creation has begun", func() bool {
		_, err := os.Stat(filepath.Join(folder, "command", "begun"))
		return err == nil
	})
	s.stop()
	diff.Equal(t, <-status, 201, "")
}

func Example_help() {
	out, err := osbBroker(nil, "--help").Output()
	fmt.Println(strings.Contains(string(out), "osb-broker [command]"), err)
	// Output: true <nil>
}

// catalogueWith is a catalogue whose service has these members besides those that it must have.
func catalogueWith(members string) []byte {
	return []byte(`{"services": [{"id": "s", "name": "shelf", "description": "d", "bindable": true, ` + members +
		` "plans": [{"id": "p", "name": "small", "description": "d"}]}]}`)
}

// unusable runs the program, and checks that it ends with status 78 and this text.
func unusable(t *testing.T, says string, arguments ...string) {
	t.Helper()
	var stderr bytes.Buffer
	command := osbBroker([]string{password}, arguments...)
	command.Stderr = &stderr
	_ = command.Run()
	diff.Equal(t, command.ProcessState.ExitCode(), 78, "%v", arguments)
	diff.Contains(t, stderr.String(), says, "%v", arguments)
}

// An address that another process uses ends it, whichever of the two addresses that is.
func TestAddressInUse(t *testing.T) {
	used := diff.Value(net.Listen("tcp", "127.0.0.1:0"))(t)
	defer used.Close()
	address := used.Addr().String()
	says := ": can't listen: listen tcp4 " + address + ": bind: address already in use. "
	unusable(t, "--listen "+address+says+"Stop", "serve", "--state", t.TempDir(), "--listen", address)
	unusable(t, "--listen "+address+says+"A program has this address alone: stop it", "serve", "--state", t.TempDir(),
		"--listen", address, "--share-port")
	unusable(t, "--health-listen "+address+says, "serve", "--state", t.TempDir(), "--listen", "127.0.0.1:0",
		"--health-listen", address)
}

// Folders of another store, and a store of other folders, end it. The broker whose they are starts again.
func TestTiedToAnother(t *testing.T) {
	state, other := t.TempDir(), t.TempDir()
	s := start(t, []string{password}, "--state", state)
	s.expect(201, "PUT", one, order)
	s.stop()
	const says = "the store and the backend don't belong together"
	unusable(t, says, "serve", "--state", other, "--backend", filepath.Join(state, "instances"))
	unusable(t, says, "serve", "--state", state, "--backend", filepath.Join(other, "folders"))
	unusable(t, says, "serve", "--state", state, "--backend", "command:/bin/true")
	s = start(t, []string{password}, "--state", state, "--existing")
	s.expect(200, "PUT", one, order)
	s.stop()
}

// --existing begins no store, and leaves nothing behind by which a later start would find one.
func TestExistingBeginsNothing(t *testing.T) {
	state := t.TempDir()
	for round := 0; round < 2; round++ {
		unusable(t, "--existing", "serve", "--state", state, "--existing")
	}
	for _, name := range []string{"holdings.sqlite", "instances/.owner"} {
		diff.Error(t, diff.Err(os.Lstat(filepath.Join(state, name))), "%s", name)
	}
}

// --existing wants the folder of a command backend as it was used before. The store alone isn't enough.
func TestExistingCommand(t *testing.T) {
	state := t.TempDir()
	own := filepath.Join(state, "command")
	sold := []string{"--state", state, "--backend", "command:/bin/true"}
	start(t, []string{password}, sold...).stop()
	sold = append(sold, "--existing")
	start(t, []string{password}, sold...).stop()
	isMissing := func() { // the broker can't listen at that address, so it ends in any case
		t.Helper()
		unusable(t, own+" has no file .locks", append([]string{"serve", "--listen", "192.0.2.1:1"}, sold...)...)
	}
	check(t, os.Rename(own, own+".elsewhere"))
	isMissing()
	check(t, os.Mkdir(own, 0o700)) // where the disk is mounted
	isMissing()
	diff.Equal(t, len(diff.Value(os.ReadDir(own))(t)), 0, "the folder")
}

// The password of a database depends on the key and on the id, and on nothing else.
func TestPassword(t *testing.T) {
	const key = "a key that is long enough for a broker"
	file := filepath.Join(t.TempDir(), "key")
	check(t, os.WriteFile(file, []byte(key+"\n"), 0o600))
	of := func(key, id string, arguments ...string) string {
		t.Helper()
		out, err := osbBroker([]string{"OSB_BACKEND_KEY=" + key}, append([]string{"password", id}, arguments...)...).Output()
		if err != nil || len(bytes.TrimSpace(out)) < 40 || bytes.Count(out, []byte("\n")) != 1 {
			t.Errorf("of %q: got %q, %v, want one line of a password", id, out, err)
		}
		return string(out)
	}
	const lower, upper = "aaaaaaaa-0000-0000-0000-000000000001", "AAAAAAAA-0000-0000-0000-000000000001"
	first := of(key, lower)
	for name, again := range map[string]string{
		"the key of a file": of("", lower, "--backend-key-file", file),
		"once more":         of(key, lower),
	} {
		t.Run(name, func(t *testing.T) {
			diff.Equal(t, again, first, "%s", name)
		})
	}
	others := map[string]string{first: lower}
	for id, given := range map[string]string{
		"another key":            of(key+"!", lower),
		upper:                    of(key, upper),
		"a text":                 of(key, "a text"),
		"../é/":                  of(key, "../é/"),
		strings.Repeat("a", 255): of(key, strings.Repeat("a", 255)),
	} {
		if other, isSame := others[given]; isSame {
			t.Errorf("%q and %q: got the same password, want two", id, other)
		}
		others[given] = id
	}
	for _, id := range []string{"", strings.Repeat("a", 256)} {
		unusable(t, "can't be the id of an instance", "password", id, "--backend-key-file", file)
	}
}

// Many processes open a new store at once: all can, and there is one store then. None can listen, so each ends then.
func TestManyOpenANewStore(t *testing.T) {
	state := t.TempDir()
	errors := make([]bytes.Buffer, 12)
	running := make([]*exec.Cmd, len(errors))
	for n := range running {
		running[n] = osbBroker([]string{password}, "serve", "--state", state, "--listen", "192.0.2.1:1")
		running[n].Stderr = &errors[n]
		check(t, running[n].Start())
	}
	for n, cmd := range running {
		_ = cmd.Wait()
		diff.HasPrefix(t, errors[n].String(), "osb-broker: --listen 192.0.2.1:1: ", "%d", cmd.ProcessState.ExitCode())
	}
	s := start(t, []string{password}, "--state", state, "--existing")
	s.expect(201, "PUT", one, order)
	s.stop()
}

// A store with a command backend has one state folder, in which the locks are, and a state folder has one store. The
// store of an earlier version, which had no name of its own, is tied at the first start.
func TestStateFolderOfACommandIsTied(t *testing.T) {
	for _, isOld := range []bool{false, true} {
		t.Run(fmt.Sprintf("old %t", isOld), func(t *testing.T) {
			top := t.TempDir()
			if isOld {
				store, err := sqlite.Open(context.Background(), filepath.Join(top, "store"), broker.Silent{})
				if err == nil {
					_, err = store.Begin(context.Background(), broker.Untied)
				}
				if err == nil {
					err = store.Close()
				}
				check(t, err)
			}
			over := func(state, store string) []string {
				return []string{"--state", filepath.Join(top, state), "--store", filepath.Join(top, store),
					"--backend", "command:/bin/true"}
			}
			first := start(t, []string{password}, over("st1", "store")...)
			start(t, []string{password}, over("st1", "store")...).stop()
			refused := func(says, state, store string) {
				t.Helper()
				unusable(t, says, append([]string{"serve", "--listen", "192.0.2.1:1"}, over(state, store)...)...)
			}
			refused("Run all brokers of the store on one machine, with the --state", "st2", "store")
			refused("the name of the store to "+filepath.Join(top, "st2/command/.owner"), "st2", "store")
			refused("Choose another --state for this store", "st1", "other")
			first.stop()
			refused("Run all brokers of the store on one machine, with the --state", "st2", "store")
			start(t, []string{password}, append(over("st1", "store"), "--existing")...).stop()
			owner, err := os.ReadFile(filepath.Join(top, "st1/command/.owner"))
			if err == nil {
				err = os.WriteFile(filepath.Join(top, "st2/command/.owner"), owner, 0o600)
			}
			check(t, err)
			start(t, []string{password}, over("st2", "store")...).stop()
		})
	}
}

// A state folder that other accounts can write to is reported.
func TestOpenStateFolder(t *testing.T) {
	for mode, isOpen := range map[os.FileMode]bool{0o777: true, 0o770: true, 0o755: false, 0o700: false} {
		t.Run(fmt.Sprintf("%o", mode), func(t *testing.T) {
			state := t.TempDir()
			check(t, os.Chmod(state, mode))
			s := start(t, []string{password}, "--state", state)
			s.stop()
			warned := false
			for _, line := range s.Seen {
				warned = warned || strings.Contains(line, `"event":"folder_open"`) && strings.Contains(line, state)
			}
			diff.Equal(t, warned, isOpen, "a state folder of mode %o is reported", mode)
		})
	}
}

// Without TLS the log warns of each address but one of this machine alone.
func TestIsLoopback(t *testing.T) {
	for address, want := range map[string]bool{
		"127.0.0.1:1": true, "127.9.9.9:1": true, "[::1]:1": true, "0.0.0.0:1": false, "[::]:1": false, "192.0.2.1:1": false,
	} {
		t.Run(address, func(t *testing.T) {
			resolved := diff.Value(net.ResolveTCPAddr("tcp", address))(t)
			diff.Equal(t, isLoopback(resolved), want, "")
		})
	}
}

// The warning is logged before the broker serves.
func TestWarningWithoutTLS(t *testing.T) {
	command := osbBroker([]string{password}, "serve", "--state", t.TempDir(), "--listen", "0.0.0.0:0",
		"--health-listen", "192.0.2.1:1") // it can't listen there, so it ends
	out, _ := command.CombinedOutput()
	diff.Equal(t, hasEvent(out, "no_tls"), true, "a warning in %s", out)
	command = osbBroker([]string{password}, "serve", "--state", t.TempDir(), "--listen", "127.0.0.1:0",
		"--health-listen", "192.0.2.1:1")
	out, _ = command.CombinedOutput()
	diff.Equal(t, hasEvent(out, "no_tls"), false, "this machine: a warning in %s", out)
}

// Each user with a password that can be guessed is named in a warning, once and without the password. No other user is.
func TestWarningOfShortPasswords(t *testing.T) {
	const long = "0123456789abcdef"
	file := filepath.Join(t.TempDir(), "users")
	text := "one:short-1\none:short-2\ntwo:" + long + "\nthree:0123456789abcde\n"
	check(t, os.WriteFile(file, []byte(text), 0o600))
	command := osbBroker(nil, "serve", "--state", t.TempDir(), "--listen", "127.0.0.1:0", "--users-file", file,
		"--health-listen", "192.0.2.1:1") // it can't listen there, so it ends
	out, _ := command.CombinedOutput()
	var users []string
	for _, line := range strings.Split(string(out), "\n") {
		var read struct{ Event, Level, User string }
		if json.Unmarshal([]byte(line), &read) == nil && read.Event == "short_password" {
			users = append(users, read.Level+" "+read.User)
		}
	}
	diff.Check(t, users, []string{"warning one", "warning three"}, "%s", out)
	diff.Lacks(t, string(out), "short-", "the log")
	diff.Lacks(t, string(out), "0123456789", "the log")
}

// hasEvent reports whether a log has a line with this event.
func hasEvent(log []byte, name string) bool {
	for _, line := range strings.Split(string(log), "\n") {
		var read struct{ Event string }
		if json.Unmarshal([]byte(line), &read) == nil && read.Event == name {
			return true
		}
	}
	return false
}

// plain asks without a login.
func (s *servedBroker) plain(path string) (int, string) {
	s.t.Helper()
	request := diff.Value(http.NewRequest("GET", s.url+path, nil))(s.t)
	return s.do(request)
}

// expect asks, and checks the status. It returns the body.
func (s *servedBroker) expect(status int, method, path, body string) string {
	s.t.Helper()
	given, got := s.ask(method, path, body)
	if given != status {
		s.t.Fatalf("%s %s: got %d %s, want %d", method, path, given, got, status)
	}
	return got
}

// soldInstances are the instances that exist as folders.
func soldInstances(t *testing.T, state string) []string {
	t.Helper()
	return diff.Value(filepath.Glob(filepath.Join(state, "instances", "*-*")))(t)
}

// The asynchronous plan of the standard catalogue. Its creation begins with the first poll.
func TestPlanByWorker(t *testing.T) {
	state := t.TempDir()
	s := start(t, []string{password}, "--state", state, "--sweep-seconds", "0.01")
	s.expect(422, "PUT", one, asyncOrder)
	s.expect(202, "PUT", one+async, asyncOrder)
	_, metrics := s.plain("/metrics")
	diff.Contains(t, metrics, "\nosb_broker_waiting 1\n", "the metrics")
	diff.Equal(t, len(soldInstances(t, state)), 0, "before the first poll")
	s.until(200, "succeeded", "GET", poll, "")
	diff.Equal(t, len(soldInstances(t, state)), 1, "")
	s.expect(200, "PUT", one+async, asyncOrder)
	bound := s.expect(201, "PUT", one+"/service_bindings/b"+async, `{"service_id":"`+service+`","plan_id":"`+byWorker+`"}`)
	diff.Contains(t, bound, "token", "")
	s.expect(200, "DELETE", one+"/service_bindings/b"+asyncNames+"&accepts_incomplete=true", "")
	s.expect(422, "DELETE", one+asyncNames, "")
	s.expect(202, "DELETE", one+asyncNames+"&accepts_incomplete=true", "")
	s.until(410, "", "GET", poll, "")
	diff.Equal(t, len(soldInstances(t, state)), 0, "")
	s.stop()
}

const ownCatalogue = `{"x-own": {"a": [1.50]}, "services": [
	{"id": "AAAAAAAA-0000-0000-0000-0000000000a0", "name": "own", "description": "d", "bindable": false, "plans": [
		{"id": "00000000-0000-0000-0000-0000000000b1", "name": "one", "description": "d", "x-own": true},
		{"id": "00000000-0000-0000-0000-0000000000bB", "name": "two", "description": "d"}]}]}`

func ownFile(t *testing.T) string {
	t.Helper()
	path := filepath.Join(t.TempDir(), "catalogue")
	check(t, os.WriteFile(path, []byte(ownCatalogue), 0o600))
	return path
}

// A catalogue of one's own is served as it is, and says that the broker keeps tombstones, and of which store it is. The
// store keeps its id over restarts, and no two have the same.
func TestOwnCatalogue(t *testing.T) {
	state, stores := t.TempDir(), map[any]bool{}
	for _, folder := range []string{state, state, t.TempDir()} {
		s := start(t, []string{password}, "--state", folder, "--catalog", ownFile(t))
		got, want := map[string]any{}, map[string]any{}
		check(t, json.Unmarshal([]byte(ownCatalogue), &want))
		check(t, json.Unmarshal([]byte(s.expect(200, "GET", "/v2/catalog", "")), &got))
		want["x-osb-tombstones"], want["x-osb-updates"], want["x-osb-store"] = true, true, got["x-osb-store"]
		diff.Check(t, got, want, "the catalogue that is served")
		id, _ := got["x-osb-store"].(string)
		diff.Equal(t, len(id), 36, "the store, %v", got["x-osb-store"])
		stores[got["x-osb-store"]] = true
		s.stop()
	}
	diff.Equal(t, len(stores), 2, "the ids of two stores, %v", stores)
}

// GUIDs in upper case are other ids than the same ones in lower case. The log warns of them.
func TestGUIDInUpperCase(t *testing.T) {
	for _, test := range []struct {
		arguments []string
		ids       []any
	}{
		{nil, nil},
		{[]string{"--catalog", ownFile(t)},
			[]any{"AAAAAAAA-0000-0000-0000-0000000000a0", "00000000-0000-0000-0000-0000000000bB"}},
	} {
		t.Run(fmt.Sprint(test.arguments), func(t *testing.T) {
			// It can't listen there, so it ends after it has read the catalogue.
			arguments := append([]string{"serve", "--state", t.TempDir(), "--listen", "192.0.2.1:1"}, test.arguments...)
			out, _ := osbBroker([]string{password}, arguments...).CombinedOutput()
			var ids []any
			for _, text := range strings.Split(string(out), "\n") {
				var read struct {
					Event string
					IDs   []any
				}
				if json.Unmarshal([]byte(text), &read) == nil && read.Event == "guid_in_upper_case" {
					ids = read.IDs
				}
			}
			diff.Contains(t, string(out), "osb-broker: --listen", "%v", test.arguments)
			diff.Check(t, ids, test.ids, "%v, %s", test.arguments, out)
		})
	}
}

// Both plans of the example: instances and bindings over a script.
func TestExampleDatabases(t *testing.T) {
	const examples, id = "../../../examples/broker/", "11111111-0000-0000-0000-0000000000"
	state := t.TempDir()
	s := start(t, []string{password}, "--state", state, "--sweep-seconds", "0.01",
		"--catalog", examples+"own-catalogue.json", "--backend", "command:"+examples+"databases")
	for plan, isAsync := range map[string]bool{"b1": false, "b2": true} {
		t.Run(plan, func(t *testing.T) {
			instance := "/v2/service_instances/of-" + plan
			binding := instance + "/service_bindings/b"
			ids := `{"service_id":"` + id + `a0","plan_id":"` + id + plan + `"`
			query := async + "&service_id=" + id + "a0&plan_id=" + id + plan
			created, deleted := 201, 200
			if isAsync {
				created, deleted = 202, 202
			}
			s.expect(created, "PUT", instance+async, ids+`,"organization_guid":"o","space_guid":"s"}`)
			s.until(200, "succeeded", "GET", instance+"/last_operation", "")
			s.expect(created, "PUT", binding+async, ids+"}")
			s.until(200, "succeeded", "GET", binding+"/last_operation", "")
			var bound struct {
				Credentials struct{ Database, Token string }
			}
			text := s.expect(200, "GET", binding, "")
			check(t, json.Unmarshal([]byte(text), &bound))
			diff.Equal(t, bound.Credentials.Token != "", true, "the binding has a token: %s", text)
			path := filepath.Join(state, "command", bound.Credentials.Database)
			diff.NoError(t, diff.Err(os.Stat(path)), "")
			diff.Equal(t, s.expect(200, "PUT", binding+async, ids+"}"), text, "the binding")
			s.expect(deleted, "DELETE", binding+query, "")
			s.until(410, "", "GET", binding+"/last_operation", "")
			s.expect(deleted, "DELETE", instance+query, "")
			s.until(410, "", "GET", instance+"/last_operation", "")
		})
	}
	s.stop()
	diff.Check(t, diff.Value(filepath.Glob(filepath.Join(state, "command", "*-*")))(t), []string(nil), "what is left")
}

var check = diff.Must
