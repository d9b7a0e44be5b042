//go:build crashpoints

package main

import (
	"bufio"
	"context"
	"errors"
	"fmt"
	"log"
	"net"
	"net/http"
	"os"
	"os/exec"
	"path/filepath"
	"strings"
	"syscall"
	"testing"
)

const (
	second  = "/v2/service_instances/00000000-0000-0000-0000-000000000003"
	missing = "/v2/service_instances/00000000-0000-0000-0000-000000000004"
)

// TestMain runs the tests. In a process that startProcess has started it serves instead.
func TestMain(m *testing.M) {
	state := os.Getenv("FOLDERS_STATE")
	if state == "" {
		os.Exit(m.Run())
	}
	listener, err := net.Listen("tcp", "127.0.0.1:0")
	if err != nil {
		log.Fatal(err)
	}
	fmt.Println(listener.Addr())
	log.Fatal(serve(context.Background(), context.Background(), listener, state, "secret"))
}

// startProcess starts the broker in a process of its own, which kills itself at a crash point.
func startProcess(t *testing.T, state, point string) (s *servedBroker, process *exec.Cmd) {
	t.Helper()
	process = exec.Command(os.Args[0])
	process.Env = append(os.Environ(), "FOLDERS_STATE="+state, "OSB_CRASH_AT="+point)
	printed, err := process.StdoutPipe()
	if err == nil {
		err = process.Start()
	}
	check(t, err)
	t.Cleanup(func() { _ = process.Process.Kill() })
	address, err := bufio.NewReader(printed).ReadString('\n')
	check(t, err)
	return &servedBroker{t: t, state: state, url: "http://" + strings.TrimSpace(address)}, process
}

// live creates and deletes an instance with a binding, and an instance of the asynchronous plan. It returns an error
// once there is no answer.
func (s *servedBroker) live() error {
	for _, test := range []struct{ method, target, plan string }{
		{"DELETE", missing, now},
		{"PUT", instance, now}, {"PUT", binding, now}, {"DELETE", binding, now}, {"DELETE", instance, now},
		{"PUT", second, later}, {"DELETE", second, later},
	} {
		_, _, err := s.try(test.method, test.target, test.plan)
		for isRunning := test.plan == later; isRunning && err == nil; {
			var body string
			_, body, err = s.try("GET", test.target+"/last_operation", test.plan)
			isRunning = strings.Contains(body, "in progress")
		}
		if err != nil {
			return err
		}
	}
	return nil
}

// At whichever crash point the broker is killed: once it is started again, it says that a resource exists if that
// exists, and everything can be deleted.
func TestCrashes(t *testing.T) {
	for _, point := range []string{
		"begin-next", "begin-written", "mark-next", "mark-written", "work-next", "work-running", "work-done", "end-next",
		"end-written", "take-over-next", "take-over-written", "operation-next", "operation-done", "finish-next",
		"finish-written",
	} {
		t.Run(point, func(t *testing.T) {
			s, process := startProcess(t, t.TempDir(), point)
			if err := s.live(); err == nil {
				t.Fatal("this crash point: got no crash of the broker, want one")
			}
			var exit *exec.ExitError
			if err := process.Wait(); !errors.As(err, &exit) || exit.Sys().(syscall.WaitStatus).Signal() != syscall.SIGKILL {
				t.Fatalf("the broker: got %v, want it killed", err)
			}
			s = start(t, s.state)
			s.agree(instance, now, folder)
			s.agree(binding, now, folder+".00000000-0000-0000-0000-000000000002")
			s.agree(second, later, "00000000-0000-0000-0000-000000000003")
			s.remove(binding, now)
			s.remove(instance, now)
			s.remove(second, later)
			s.sells()
			s.want("PUT", instance, now, http.StatusConflict, `"error"`)
			s.end()
		})
	}
}

// agree fails unless the broker says that a resource exists exactly if that exists.
func (s *servedBroker) agree(target, plan, name string) {
	s.t.Helper()
	status, body := s.poll(target, plan)
	_, err := os.Lstat(filepath.Join(s.state, "sold", name))
	if isSaid := status == http.StatusOK && strings.Contains(body, "succeeded"); isSaid != (err == nil) {
		s.t.Errorf("%s: got %d %s, and %v, want both to say the same", target, status, body, err)
	}
}

// remove deletes a resource, as a platform does that doesn't know whether it exists.
func (s *servedBroker) remove(target, plan string) {
	s.t.Helper()
	status, body := s.ask("DELETE", target, plan)
	if status == http.StatusAccepted {
		status, body = s.poll(target, plan)
	}
	if status != http.StatusOK && status != http.StatusGone {
		s.t.Errorf("%s: got %d %s, want 200 or 410", target, status, body)
	}
}
