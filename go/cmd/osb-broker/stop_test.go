package main

import (
	"bufio"
	"bytes"
	"fmt"
	"io"
	"net/http"
	"os"
	"path/filepath"
	"strconv"
	"strings"
	"syscall"
	"testing"
	"time"

	"pippinterm/internal/diff"
	"pippinterm/internal/programtest"
	"pippinterm/internal/waits"
)

// A gate is a backend whose create says when it has begun, and goes on once the test says so.
type gate struct {
	t               *testing.T
	state, backend  string
	begun, goOn     string // named pipes
	creates, number string // a line for each create, and the process of the last
}

func newGate(t *testing.T) *gate {
	t.Helper()
	state := t.TempDir()
	own := filepath.Join(state, "command") // OSB_STATE
	g := &gate{
		t: t, state: state, backend: filepath.Join(state, "backend"), begun: filepath.Join(own, "begun"),
		goOn: filepath.Join(own, "go"), creates: filepath.Join(own, "creates"), number: filepath.Join(own, "number"),
	}
	text := `#!/bin/sh
case $1 in
    look) [ -e "$OSB_INSTANCE" ] && echo '{"exists": "whole"}' || echo '{"exists": "none"}' ;;
    create) echo create >>creates; echo $$ >number; echo >begun; read line <go; : >"$OSB_INSTANCE" ;;
    *) exit 5 ;;
esac
`
	g.check(os.WriteFile(g.backend, []byte(text), 0o700))
	g.check(os.Mkdir(own, 0o700))
	g.check(syscall.Mkfifo(g.begun, 0o600))
	g.check(syscall.Mkfifo(g.goOn, 0o600))
	t.Cleanup(g.killRunning)
	return g
}

func (g *gate) check(err error) {
	g.t.Helper()
	check(g.t, err)
}

// start starts a broker over the backend. It sweeps often.
func (g *gate) start(arguments ...string) *servedBroker {
	g.t.Helper()
	all := append([]string{
		"--state", g.state, "--backend", "command:" + g.backend, "--sweep-seconds", "0.02", "--first-poll=false",
	}, arguments...)
	return start(g.t, []string{password}, all...)
}

// waits returns once a create has begun.
func (g *gate) waits() {
	g.t.Helper()
	g.in20Seconds(func() error { _, err := os.ReadFile(g.begun); return err })
}

// open has a create go on that waits.
func (g *gate) open() {
	g.t.Helper()
	g.in20Seconds(func() error { return os.WriteFile(g.goOn, []byte("\n"), 0o600) })
}

// in20Seconds calls what may wait for the other end of a pipe.
func (g *gate) in20Seconds(call func() error) {
	g.t.Helper()
	done := waits.Begin(func() error { return call() })
	g.check(waits.For(g.t, done, "the backend's create"))
}

// count is how often create was called.
func (g *gate) count() int {
	g.t.Helper()
	text, err := os.ReadFile(g.creates)
	g.check(err)
	return bytes.Count(text, []byte("\n"))
}

// until asks again until the status is this one, and the body has the text.
func (s *servedBroker) until(status int, text, method, path, body string) {
	s.t.Helper()
	for end := time.Now().Add(time.Minute); ; time.Sleep(5 * time.Millisecond) {
		given, got := s.ask(method, path, body)
		if given == status && strings.Contains(got, text) {
			return
		}
		if time.Now().After(end) {
			s.t.Fatalf("%s %s: got %d %s, want %d and %s", method, path, given, got, status, text)
		}
	}
}

const (
	async      = "?accepts_incomplete=true"
	byWorker   = "00000000-0000-0000-0000-0000000000b2"
	poll       = one + "/last_operation"
	asyncOrder = `{"service_id":"` + service + `","plan_id":"` + byWorker + `","organization_guid":"o","space_guid":"s"}`
	asyncNames = "?service_id=" + service + "&plan_id=" + byWorker
)

// SIGTERM waits for an operation that runs, which nobody waits for. The next broker knows that it has ended.
func TestStopWaitsForAnOperation(t *testing.T) {
	g := newGate(t)
	s := g.start()
	s.expect(202, "PUT", one+async, asyncOrder)
	g.waits()
	s.Terminate()
	s.Event("stopping")
	g.open()
	diff.Check(t, s.Event("operation_ended")["succeeded"], true, "the operation has succeeded")
	s.ends(true)
	s = g.start("--existing")
	diff.Contains(t, s.expect(200, "GET", poll, ""), "succeeded", "the operation")
	s.stop()
	diff.Equal(t, g.count(), 1, "create: calls")
}

// An operation that takes longer than --stop-seconds doesn't keep the broker, and the next one ends it.
func TestStopDoesNotWaitForEver(t *testing.T) {
	g := newGate(t)
	s := g.start("--stop-seconds", "0.1")
	s.expect(202, "PUT", one+async, asyncOrder)
	g.waits()
	s.Terminate()
	s.ends(false)
	s = g.start("--existing")
	g.waits() // the create was killed, and begins again
	g.open()
	s.until(200, "succeeded", "GET", poll, "")
	s.stop()
}

// A broker that was killed inside its backend's create: the next one ends the work, of each kind of plan. If the create
// lives on, the next broker waits for it, and doesn't call another.
func TestKilledInsideCreate(t *testing.T) {
	for plan, body := range map[string]string{"at once": order, "by a worker": asyncOrder} {
		for _, livesOn := range []bool{true, false} {
			t.Run(plan+" "+strconv.FormatBool(livesOn), func(t *testing.T) {
				g := newGate(t)
				s := g.start()
				s.send("PUT", one+async, body)
				g.waits()
				g.check(s.Process.Kill())
				if !livesOn {
					g.killCreate()
				}
				s = g.start("--existing")
				if !livesOn {
					g.waits()
				}
				diff.Contains(t, s.expect(200, "GET", poll, ""), "in progress", "the operation")
				g.open()
				s.until(200, "succeeded", "GET", poll, "")
				s.stop()
				diff.Equal(t, g.count() == 1, livesOn, "create")
			})
		}
	}
}

// killRunning kills a create that still waits after a test that failed.
func (g *gate) killRunning() {
	if !g.t.Failed() {
		return
	}
	text, _ := os.ReadFile(g.number)
	if number, err := strconv.Atoi(strings.TrimSpace(string(text))); err == nil {
		if arguments, _ := os.ReadFile("/proc/" + strconv.Itoa(number) + "/cmdline"); bytes.Contains(arguments, []byte(g.backend)) {
			_ = syscall.Kill(number, syscall.SIGKILL)
		}
	}
}

// killCreate kills the create that runs.
func (g *gate) killCreate() {
	g.t.Helper()
	text, err := os.ReadFile(g.number)
	g.check(err)
	number, err := strconv.Atoi(strings.TrimSpace(string(text)))
	g.check(err)
	g.check(syscall.Kill(number, syscall.SIGKILL))
}

// send sends a request whose answer may never arrive.
func (s *servedBroker) send(method, path, body string) {
	s.t.Helper()
	request := s.request("platform", "secret", method, path, body)
	go func() {
		if given, err := s.client.Do(request); err == nil {
			_ = given.Body.Close()
		}
	}()
}

// A platform that sends all of a body before it reads gets the answer that the body is too long, however the length is
// reported. Otherwise the broker would close the connection while the platform still sends, and the platform would see
// only that.
func TestAnswerToALongBodyArrives(t *testing.T) {
	s := start(t, []string{password}, "--state", t.TempDir(), "--longest-body", "300")
	const length = 8 << 20
	body := order + strings.Repeat(" ", length-len(order))
	chunk := fmt.Sprintf("%x\r\n%s\r\n", length/8, body[:length/8])
	for name, request := range map[string]string{
		"a length":                    fmt.Sprintf("Content-Length: %d\r\n\r\n", length) + body,
		"a length, of a last request": fmt.Sprintf("Connection: close\r\nContent-Length: %d\r\n\r\n", length) + body,
		"chunks":                      "Transfer-Encoding: chunked\r\n\r\n" + strings.Repeat(chunk, 8) + "0\r\n\r\n",
	} {
		t.Run(name, func(t *testing.T) {
			conn := s.dial()
			check(t, diff.Err(io.WriteString(conn, "PUT "+one+" HTTP/1.1"+headers()+request)))
			answer := diff.Value(http.ReadResponse(bufio.NewReader(conn), nil))(t)
			defer answer.Body.Close()
			text, err := io.ReadAll(answer.Body)
			if answer.StatusCode != 413 || err != nil || !strings.Contains(string(text), "longer than 300 bytes") {
				t.Errorf("got %s %s and the error %v, want 413 and the longest length", answer.Status, text, err)
			}
		})
	}
	s.stop()
}

// --wait-for-poll ends a creation for which no Poll arrives. Without a Poll, the broker looks at it as often as
// --sweep-seconds says.
func TestWaitForPoll(t *testing.T) {
	for _, test := range []struct {
		seconds string
		fails   bool
	}{{"0.2", true}, {"600", false}} {
		t.Run(test.seconds+" seconds", func(t *testing.T) {
			s := start(t, []string{password}, "--state", t.TempDir(), "--wait-for-poll", test.seconds, "--sweep-seconds", "0.1")
			s.expect(202, "PUT", one+async, asyncOrder)
			if !test.fails {
				s.expect(200, "GET", poll, "")
				diff.Check(t, s.Event("operation_ended")["succeeded"], true, "the operation has succeeded")
				s.stop()
				return
			}
			if found := s.Event("creation_timed_out"); found["instance"] == "" || found["error"] == "" {
				t.Errorf("got %v, want an instance and an error", found)
			}
			polled := s.expect(200, "GET", poll, "")
			diff.Contains(t, polled, `"failed"`, "a Poll")
			diff.Contains(t, polled, "No Poll", "a Poll")
			diff.Contains(t, s.expect(500, "PUT", one+async, asyncOrder), "No Poll", "the Provision")
			s.expect(202, "DELETE", one+asyncNames+"&accepts_incomplete=true", "")
			s.stop()
		})
	}
}

// hanging is a backend whose creations hang if their parameters ask for that.
const hanging = `#!/bin/sh
case $1 in
    look) [ -e "$OSB_NAME" ] && echo '{"exists": "whole"}' || echo '{"exists": "none"}' ;;
    create) ! grep -q hang || sleep 600; : >"$OSB_NAME" ;;
    delete) rm -f "$OSB_NAME" ;;
    *) exit 5 ;;
esac
`

// Four creations hang, which is as many as there are workers. A good one of an asynchronous plan ends long before they
// do, which would be in five minutes.
func TestHungCommandsDontHoldUpOthers(t *testing.T) {
	folder := t.TempDir()
	program := filepath.Join(folder, "backend")
	check(t, os.WriteFile(program, []byte(hanging), 0o700))
	s := start(t, []string{password}, "--state", folder, "--backend", "command:"+program, "--stop-seconds", "0.1",
		"--workers", "4")
	create := func(name, parameters string) string {
		path := "/v2/service_instances/" + name
		s.expect(202, "PUT", path+async, strings.Replace(asyncOrder, "{", `{"parameters":`+parameters+`,`, 1))
		s.expect(200, "GET", path+"/last_operation", "") // which the creation waits for
		return path
	}
	for n := 0; n < 4; n++ {
		create(fmt.Sprint("bad", n), `{"mode":"hang"}`)
	}
	s.until(200, "succeeded", "GET", create("good", "{}")+"/last_operation", "")
	for n := 0; n < 4; n++ {
		_, body := s.ask("GET", fmt.Sprintf("/v2/service_instances/bad%d/last_operation", n), "")
		diff.Contains(t, body, "in progress", "a creation that hangs")
	}
}

// The service manager gets READY=1 once the broker listens, and STOPPING=1 after SIGTERM.
func TestServiceManagerGetsReports(t *testing.T) {
	name, next := programtest.Manager(t)
	s := start(t, []string{password, "NOTIFY_SOCKET=" + name}, "--state", t.TempDir())
	diff.Equal(t, next(), "READY=1", "once it listens")
	s.expect(200, "GET", "/v2/catalog", "")
	s.stop()
	diff.Equal(t, next(), "STOPPING=1", "after SIGTERM")
}

// A broker that can't reach the service manager serves, and logs why.
func TestServesWithoutTheServiceManager(t *testing.T) {
	name := filepath.Join(t.TempDir(), "nobody")
	s := start(t, []string{password, "NOTIFY_SOCKET=" + name}, "--state", t.TempDir())
	s.expect(200, "GET", "/v2/catalog", "")
	s.Terminate()
	reason, _ := s.Event("stopping")["notify_error"].(string)
	diff.Contains(t, reason, "STOPPING=1", "the log")
	diff.Contains(t, reason, name, "the log")
	s.ends(true)
}
