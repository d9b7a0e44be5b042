package main

import (
	"bytes"
	"context"
	"database/sql"
	"fmt"
	"net/url"
	"os"
	"os/exec"
	"path/filepath"
	"strings"
	"testing"
	"time"

	"golang.org/x/sys/unix"

	"pippinterm/internal/diff"
	"pippinterm/internal/pg/pgtest"
	"pippinterm/internal/storefaults"
)

// postgresql is where the tests' server is, for a broker: its URL has no password.
func postgresql(t *testing.T) (address string, environment []string) {
	t.Helper()
	address, secret := pgtest.URL(t), os.Getenv("PGPASSWORD")
	parsed := diff.Value(url.Parse(address))(t)
	if given, has := parsed.User.Password(); has {
		secret = given
		parsed.User = url.User(parsed.User.Username())
	}
	return parsed.String(), []string{password, "PGPASSWORD=" + secret}
}

// runToEnd runs the program, and checks its status and what it reports. A program that serves is killed after a while.
func runToEnd(t *testing.T, status int, says string, command *exec.Cmd) {
	t.Helper()
	var out bytes.Buffer
	command.Stderr = &out
	check(t, command.Start())
	late := time.AfterFunc(time.Minute, func() { _ = command.Process.Kill() })
	defer late.Stop()
	_ = command.Wait()
	got, text := command.ProcessState.ExitCode(), out.String()
	isLine := strings.HasPrefix(text, "osb-broker: ") && strings.Count(text, "\n") == 1
	if got != status || !isLine || !strings.Contains(text, says) {
		t.Errorf("%v: got the status %d, %q, want %d and %q", command.Args[1:], got, text, status, says)
	}
}

// What an operator has to change ends the broker with status 78, and a server that may be back soon with 75.
func TestStatusOfPostgreSQL(t *testing.T) {
	address, environment := postgresql(t)
	db := pgtest.DB(t, pgtest.URL(t))
	pgtest.Exec(t, db, "DROP SCHEMA IF EXISTS osb_status", "DROP ROLE IF EXISTS osb_limited, osb_poor",
		"CREATE ROLE osb_limited LOGIN PASSWORD 'of its own' CONNECTION LIMIT 0",
		"CREATE ROLE osb_poor LOGIN PASSWORD 'of its own'",
		"CREATE SCHEMA osb_status", "GRANT USAGE ON SCHEMA osb_status TO osb_poor")
	t.Cleanup(func() { pgtest.Exec(t, db, "DROP SCHEMA osb_status", "DROP ROLE osb_limited, osb_poor") })
	pgtest.Exec(t, db, "DROP DATABASE IF EXISTS osb_status_latin1",
		"CREATE DATABASE osb_status_latin1 TEMPLATE template0 ENCODING 'LATIN1' LC_COLLATE 'C' LC_CTYPE 'C'")
	t.Cleanup(func() { pgtest.Exec(t, db, "DROP DATABASE osb_status_latin1") })
	as := func(role, schema string) string {
		with := pgtest.With(t, pgtest.As(t, address, role, "-"), "search_path", schema)
		return strings.Replace(with, role+":-@", role+"@", 1)
	}
	verified := pgtest.With(t, address, "sslmode", "verify-full")
	for _, test := range []struct {
		name, address, secret string
		status                int
		says                  string
	}{
		{"a wrong password", address, "wrong", 78, "Set PGPASSWORD"},
		{"no password", address, "", 78, "Set PGPASSWORD"},
		{"an unknown database", pgtest.In(t, address, "osb_nowhere"), "", 78, "Create the database"},
		{"an unknown parameter", pgtest.With(t, address, "no_such_parameter", "1"), "", 78, "Correct the parameters"},
		{"a bad value", pgtest.With(t, address, "work_mem", "much"), "", 78, "Correct the parameters"},
		{"a missing file", pgtest.With(t, verified, "sslrootcert", "/nowhere/r"), "", 78, "/nowhere/r"},
		{"another encoding", pgtest.In(t, address, "osb_status_latin1"), "", 78, "ENCODING 'UTF8'"},
		{"a lossy commit", pgtest.With(t, address, "synchronous_commit", "off"), "", 78, "SET synchronous_commit = on"},
		{"a missing right", as("osb_poor", "osb_status"), "of its own", 78, "Grant the right"},
		{"an unknown schema", as("osb_poor", "osb_nowhere"), "of its own", 78, "Create the schema"},
		{"no connection left", as("osb_limited", "osb_status"), "of its own", 75, "too many connections"},
		{"nobody listens", "postgresql://u@127.0.0.1:1/d", "", 75, "Check that the server runs"},
		{"no socket", "postgresql:///d?user=u&host=/nowhere", "", 75, "Check that the server runs"},
	} {
		t.Run(test.name, func(t *testing.T) {
			variables := environment
			if test.secret != "" || test.name == "no password" {
				variables = []string{password, "PGPASSWORD=" + test.secret}
			}
			runToEnd(t, test.status, test.says, osbBroker(variables, "serve", "--state", t.TempDir(), "--store", test.address))
		})
	}
}

// A template that doesn't exist ends it before anything is sold.
func TestTemplateThatIsMissing(t *testing.T) {
	address, environment := postgresql(t)
	arguments := []string{"serve", "--state", t.TempDir(), "--backend", address, "--template", "osb_nowhere"}
	variables := append([]string{"OSB_BACKEND_KEY=" + strings.Repeat("k", 32)}, environment...)
	runToEnd(t, 78, "there is no database osb_nowhere to copy", osbBroker(variables, arguments...))
}

// A socket is of no use to applications, so their address has to be given with it.
func TestSocketOfTheBackend(t *testing.T) {
	variables := []string{password, "OSB_BACKEND_KEY=" + strings.Repeat("k", 32)}
	arguments := []string{"serve", "--state", t.TempDir(), "--backend", "postgresql:///d?user=u&host=/nowhere"}
	runToEnd(t, 78, "--customer-address", osbBroker(variables, arguments...))
	runToEnd(t, 75, "Check that the server runs", osbBroker(variables, append(arguments, "--customer-address", "db:5432")...))
}

// A server that goes away once the store is open, before the store and the backend are tied, ends it with status 75.
func TestStoreGoesAwayBeforeItIsTied(t *testing.T) {
	address, environment := postgresql(t)
	schema := pgtest.Schema(t, pgtest.URL(t), "osb_tied")
	_, through := storefaults.NewProxy(t, pgtest.With(t, address, "search_path", "osb_tied"))
	s := start(t, environment, "--state", t.TempDir(), "--store", through)
	s.stop()
	pgtest.Exec(t, pgtest.DB(t, schema), "TRUNCATE osb_store")
	for _, at := range []string{"SELECT name FROM osb_store", "INSERT INTO osb_store"} {
		t.Run(at, func(t *testing.T) {
			proxy, through := storefaults.NewProxy(t, pgtest.With(t, address, "search_path", "osb_tied"))
			proxy.Cut(at)
			runToEnd(t, 75, "the store and the backend can't be used together",
				osbBroker(environment, "serve", "--state", t.TempDir(), "--store", through))
		})
	}
}

// While the server of the store is away, requests are answered with 503, and the log says why. Once it is back, they
// are carried out.
func TestStoreGoesAway(t *testing.T) {
	address, environment := postgresql(t)
	pgtest.Schema(t, pgtest.URL(t), "osb_gone")
	proxy, through := storefaults.NewProxy(t, pgtest.With(t, address, "search_path", "osb_gone"))
	s := start(t, environment, "--state", t.TempDir(), "--store", through)
	s.expect(201, "PUT", one, order)
	proxy.Cut("\x00") // a byte of every message
	for _, test := range [][3]string{
		{"PUT", one, order}, {"PUT", "/v2/service_instances/two", order}, {"GET", one + "/last_operation", ""},
		{"PUT", one + "/service_bindings/b", bind}, {"DELETE", one + names, ""},
	} {
		t.Run(test[0]+" "+test[1], func(t *testing.T) {
			diff.Contains(t, s.expect(503, test[0], test[1], test[2]), "Send it again later.", "%s %s", test[0], test[1])
			if failed := s.Event("request_failed"); failed["error"] == "" {
				t.Errorf("the log: got %v, want an error", failed)
			}
		})
	}
	s.expect(200, "GET", "/v2/catalog", "")
	proxy.Cut("")
	s.expect(200, "PUT", one, order)
	s.expect(200, "DELETE", one+names, "")
	s.expect(410, "GET", one+"/last_operation", "")
	s.stop()
}

// /metrics is answered though the store hangs, as the server does after SIGSTOP. Its sessions notice that much later.
func TestMetricsWhileTheStoreHangs(t *testing.T) {
	address, environment := postgresql(t)
	pgtest.Schema(t, pgtest.URL(t), "osb_metrics_hangs")
	proxy, address := storefaults.NewProxy(t, pgtest.With(t, address, "search_path", "osb_metrics_hangs"))
	s := start(t, environment, "--state", t.TempDir(), "--store", address)
	s.expect(200, "GET", "/v2/catalog", "")
	metrics := func(up string) time.Duration {
		t.Helper()
		begun := time.Now()
		status, text := s.ask("GET", "/metrics", "")
		diff.Equal(t, status, 200, "%s", up)
		diff.Contains(t, text, "\nosb_broker_store_up "+up+"\n", "%s", up)
		diff.Contains(t, text, "\nosb_broker_requests_total{route=\"catalog\",status=\"200\"} 1\n", "%s", up)
		return time.Since(begun)
	}
	metrics("1")
	time.Sleep(time.Second) // for which counts are used
	proxy.Hang(true)
	for n := 0; n < 3; n++ {
		if took := metrics("0"); took > 15*time.Second { // 2 seconds, and what a machine under load adds
			t.Errorf("got an end after %v, want one within 15 s", took)
		}
	}
	proxy.Hang(false)
}

// An oldInstance is an instance of the state folder that version 0.2 has left.
type oldInstance struct {
	number    int
	plan      string
	hasFolder bool
}

func (o oldInstance) id() string { return fmt.Sprintf("00000000-0000-0000-0000-%012x", o.number) }

func (o oldInstance) path() string { return "/v2/service_instances/" + o.id() }

func (o oldInstance) order() string { return strings.Replace(order, atOnce, o.plan, 1) }

func (o oldInstance) names() string { return strings.Replace(names, atOnce, o.plan, 1) }

// The instances, by what the broker of version 0.2 had reported of each, or what it was doing when it was killed.
var (
	oldReady       = []oldInstance{{1, atOnce, true}, {2, byWorker, true}}
	oldGone        = []oldInstance{{3, atOnce, false}, {4, byWorker, false}, {5, atOnce, false}} // the last was never created
	oldFailed      = oldInstance{6, byWorker, false}
	oldUndeleted   = oldInstance{7, byWorker, true} // its deletion has failed
	oldCreating    = oldInstance{8, byWorker, false}
	oldDeleting    = oldInstance{9, byWorker, true}
	oldToBeCreated = oldInstance{10, atOnce, false} // the work was pending, and nothing of it done
	oldToBeDeleted = oldInstance{11, atOnce, true}
)

func oldInstances() []oldInstance {
	all := append([]oldInstance{oldFailed, oldUndeleted, oldCreating, oldDeleting, oldToBeCreated, oldToBeDeleted}, oldReady...)
	return append(all, oldGone...)
}

// oldState returns a state folder of version 0.2. The broker of that version, a program in Python, has written the
// store of which testdata has a dump. Its tables and its texts of holdings are those of release 0.2.0. Its folders are
// made here, as that broker had left them.
func oldState(t *testing.T) string {
	t.Helper()
	state := t.TempDir()
	dump := diff.Value(os.ReadFile("testdata/store-0.2.sql"))(t)
	store := diff.Value(sql.Open("sqlite3", filepath.Join(state, "holdings.sqlite")))(t)
	defer store.Close()
	var name string
	diff.Value(store.ExecContext(context.Background(), "PRAGMA journal_mode = WAL; "+string(dump)))(t)
	check(t, store.QueryRow("SELECT name FROM store").Scan(&name))
	files := map[string]string{".owner": name + "\n", ".locks": ""}
	for _, instance := range oldInstances() {
		if instance.hasFolder {
			files[instance.id()+"/instance.json"] = fmt.Sprintf(`{"instance": %q, "plan": %q, "service": %q}`, instance.id(), instance.plan, service)
		}
	}
	for name, text := range files {
		path := filepath.Join(state, "instances", name)
		check(t, os.MkdirAll(filepath.Dir(path), 0o700))
		check(t, os.WriteFile(path, []byte(text), 0o600))
	}
	return state
}

// isReady checks that an instance exists, and that a repeated Provision gets 200.
func (s *servedBroker) isReady(state string, it oldInstance) {
	s.t.Helper()
	s.until(200, "succeeded", "GET", it.path()+"/last_operation", "")
	s.expect(200, "PUT", it.path()+async, it.order())
	diff.NoError(s.t, diff.Err(os.Stat(filepath.Join(state, "instances", it.id()))), "")
}

// isGone checks that an instance doesn't exist, and that no Provision creates it.
func (s *servedBroker) isGone(state string, it oldInstance) {
	s.t.Helper()
	s.until(410, "", "GET", it.path()+"/last_operation", "")
	s.expect(409, "PUT", it.path()+async, it.order())
	s.expect(410, "DELETE", it.path()+it.names()+"&accepts_incomplete=true", "")
	if _, err := os.Stat(filepath.Join(state, "instances", it.id())); !os.IsNotExist(err) {
		s.t.Errorf("of %s: got the folder's %v, want none", it.id(), err)
	}
}

// The broker serves a state folder of version 0.2: what that version had reported stays so, also after a restart, what
// it has left unfinished is ended, and everything can be deleted.
func TestStateOfVersion02(t *testing.T) {
	state := oldState(t)
	s := start(t, []string{password}, "--state", state, "--existing")
	ready := append([]oldInstance{oldCreating, oldToBeCreated}, oldReady...)
	gone := append([]oldInstance{oldDeleting, oldToBeDeleted}, oldGone...)
	for round := 0; round < 2; round++ {
		for _, instance := range ready {
			s.isReady(state, instance)
		}
		for _, instance := range gone {
			s.isGone(state, instance)
		}
		for _, instance := range []oldInstance{oldFailed, oldUndeleted} {
			s.until(200, "failed", "GET", instance.path()+"/last_operation", "")
		}
		s.stop()
		s = start(t, []string{password}, "--state", state, "--existing")
	}
	bound := oldReady[0].path() + "/service_bindings/b"
	s.expect(201, "PUT", bound, bind)
	s.expect(200, "DELETE", bound+names, "")
	for _, instance := range append(ready, oldFailed, oldUndeleted) {
		status := map[string]int{atOnce: 200, byWorker: 202}[instance.plan]
		s.expect(status, "DELETE", instance.path()+instance.names()+"&accepts_incomplete=true", "")
		s.isGone(state, instance)
	}
	s.stop()
	diff.Equal(t, len(soldInstances(t, state)), 0, "")
}

// On a full disk the broker lives and isn't ready, and creates nothing. It is ready again once there is space.
func TestFullDisk(t *testing.T) {
	var limit unix.Rlimit
	if err := unix.Prlimit(0, unix.RLIMIT_FSIZE, nil, &limit); err != nil || limit.Max != unix.RLIM_INFINITY {
		t.Skipf("the length of files is limited: %v, %v", limit, err)
	}
	state := t.TempDir()
	s := start(t, []string{password}, "--state", state)
	s.until(200, "", "GET", "/readyz", "") // an answer may be a second old
	s.LimitFiles(0)
	s.until(503, "", "GET", "/readyz", "")
	status, body := s.plain("/healthz")
	diff.Equal(t, status, 200, "/healthz, %s", body)
	s.expect(500, "PUT", one, order)
	diff.Equal(t, len(soldInstances(t, state)), 0, "")
	s.LimitFiles(unix.RLIM_INFINITY)
	s.until(200, "", "GET", "/readyz", "")
	s.expect(201, "PUT", one, order)
	s.stop()
}
