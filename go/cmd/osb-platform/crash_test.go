//go:build crashpoints

package main

import (
	"bytes"
	"os/exec"
	"path/filepath"
	"strings"
	"syscall"
	"testing"
	"time"

	"pippinterm/internal/diff"
	"pippinterm/platform"
)

// A crash point that doesn't exist ends the program, which would never be killed otherwise.
func TestUnknownCrashPoint(t *testing.T) {
	command := osbPlatform([]string{"OSB_CRASH_AT=claim-nxt"}, "list", "--store", filepath.Join(t.TempDir(), "store"))
	out, _ := command.CombinedOutput()
	diff.Equal(t, command.ProcessState.ExitCode(), 78, "")
	diff.Contains(t, string(out), strings.Join(platform.Points, ", "), "")
}

// A command that is killed before its commit has changed nothing, and after it all.
func TestKilledCommand(t *testing.T) {
	for point, status := range map[string]int{"order-next": 0, "order-written": 1} {
		t.Run(point, func(t *testing.T) {
			store := newStore(t)
			create := []string{"--store", store, "create", "--plan", "small", "--id", "one"}
			wantKilled(t, point, osbPlatform([]string{"OSB_CRASH_AT=" + point}, create...))
			diff.Equal(t, call(t, create...).status, status, "the status")
		})
	}
}

// A worker that is killed at each of its crash points: the next one of its name ends what it has begun. "fetch-next" is
// left out, since the plans of this broker bind synchronously.
func TestKilledWorker(t *testing.T) {
	for _, point := range platform.Points[2:] {
		if point == "fetch-next" {
			continue
		}
		t.Run(point, func(t *testing.T) {
			s, store := newTestBroker(t), newPath(t)
			t.Setenv(passwordVariable, "secret")
			run := []string{"run", "--store", store, "--broker", s.url, "--worker", "one", "--first-pace", "0.01"}
			wantLines(t, store, []line{
				{"run --once --broker " + s.url, 0, ``, `.*`},
				{"create --plan by-worker --id one --tries 3", 0, "one", ``},
			})
			wantKilled(t, point, osbPlatform([]string{"OSB_PLATFORM_PASSWORD=secret", "OSB_CRASH_AT=" + point}, run...))
			endsWell(t, s, store)
		})
	}
}

// wantKilled runs a process that kills itself.
func wantKilled(t *testing.T, point string, command *exec.Cmd) {
	t.Helper()
	var out bytes.Buffer
	command.Stderr = &out
	check(t, command.Start())
	late := time.AfterFunc(deadline, func() { _ = command.Process.Signal(syscall.SIGTERM) })
	defer late.Stop()
	_ = command.Wait()
	diff.Equal(t, command.ProcessState.Sys().(syscall.WaitStatus).Signal(), syscall.SIGKILL, "%s, %v, %s", point,
		command.ProcessState, out.String())
}

// What the journal has once a worker was killed at a crash point of a creation: all that anybody else may have seen.
// Beside the last line of a change, nobody knows whether it was committed.
func TestJournalAtCrashPoints(t *testing.T) {
	const sent = "changed claim wanted, sent provision"
	for point, want := range map[string]string{
		"claim-next":    "",
		"claim-written": ", changed claim wanted",
		"send-next":     ", changed claim wanted",
		"take-next":     ", " + sent + ", answered provision",
		"take-written":  ", " + creating,
	} {
		t.Run(point, func(t *testing.T) {
			s, store := journaling(t)
			wantLines(t, store, []line{{"create --plan at-once --id one", 0, "one", `.*`}})
			folder := t.TempDir()
			wantKilled(t, point, osbPlatform(append([]string{"OSB_CRASH_AT=" + point}, ownPassword...), "run", "--store", store,
				"--broker", s.url, "--worker", "one", "--journal", folder))
			diff.Equal(t, strings.Join(eventsIn(t, folder), "; "), "started"+want, "")
		})
	}
}

// A rekey that is killed in the middle: no command begins with one of the keys, all go on with both, and a further
// rekey ends it.
func TestKilledRekey(t *testing.T) {
	s := newTestBroker(t)
	for _, point := range []string{"order-next", "order-written"} {
		store, key := storeWithBindings(t, s, 3)
		other := newKey(t)
		arguments := []string{"--store", store, "rekey", "--key-file", key, "--new-key-file", other}
		wantKilled(t, point, osbPlatform([]string{"OSB_CRASH_AT=" + point}, arguments...))
		const credentials = `{"credentials":{"folder":".*","token":".*"}}`
		wantLines(t, store, []line{
			{"credentials one/1 --key-file " + key, 78, ``, `osb-platform: the key of the store is being replaced: .*`},
			{"credentials one/1 --key-file " + other, 78, ``, `osb-platform: the key of the store is being replaced: .*`},
			{"run --once --key-file " + key, 78, ``, `.*osb-platform: the key of the store is being replaced: .*`},
			{"credentials one/1 --key-file " + other + " --key-file " + key, 0, credentials, ``},
			{"credentials one/3 --key-file " + other + " --key-file " + key, 0, credentials, ``},
			{"run --once --key-file " + other + " --key-file " + key, 0, ``, `.*"broker_reached".*`},
			{"rekey --key-file " + key + " --new-key-file " + other, 0, `encrypted again: the credentials of .*`, ``},
			{"credentials one/1 --key-file " + other, 0, credentials, ``},
			{"credentials one/2 --key-file " + other, 0, credentials, ``},
			{"credentials one/3 --key-file " + other, 0, credentials, ``},
		})
	}
}
