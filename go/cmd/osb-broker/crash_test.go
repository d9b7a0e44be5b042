//go:build crashpoints

package main

import (
	"encoding/json"
	"os"
	"path/filepath"
	"strings"
	"testing"
	"time"

	"pippinterm/broker"
	"pippinterm/internal/diff"
)

// A crash point that doesn't exist ends the broker, which would never be killed otherwise.
func TestUnknownCrashPoint(t *testing.T) {
	for point, says := range map[string]string{
		"begin-nxt": "begin-next, begin-written", "begin-next": "--listen 192.0.2.1:1",
	} {
		t.Run(point, func(t *testing.T) {
			environment := []string{password, "OSB_CRASH_AT=" + point}
			runToEnd(t, 78, says, osbBroker(environment, "serve", "--state", t.TempDir(), "--listen", "192.0.2.1:1"))
		})
	}
}

// What the journal has once the broker was killed at a crash point of a creation: all that anybody else may have seen.
// Beside the last line of a change, nobody knows whether it was committed.
func TestJournalAtCrashPoints(t *testing.T) {
	const worked = "arrived, changed" + looked + ", create begun, create ended" + looked
	for point, want := range map[string]string{
		"begin-next":    "arrived",
		"begin-written": "arrived, changed",
		"work-next":     "arrived, changed",
		"work-half":     "arrived, changed" + looked + ", create begun",
		"work-done":     worked,
		"end-next":      worked,
		"end-written":   worked + ", changed",
	} {
		t.Run(point, func(t *testing.T) {
			folder := t.TempDir()
			s := start(t, []string{password, "OSB_CRASH_AT=" + point}, "--state", t.TempDir(), "--journal", folder)
			request := diff.Value(newOrder(s.url))(t)
			if given, err := s.client.Do(request); err == nil {
				_ = given.Body.Close()
				t.Errorf("got the status %d, want it killed", given.StatusCode)
			}
			_ = s.Wait()
			diff.Equal(t, strings.Join(eventsIn(t, folder), "; "), "started, "+want, "")
		})
	}
}

const (
	worker = "00000000-0000-0000-0000-0000000000b2"
	larger = `{"service_id":"` + service + `","parameters":{"size":2}}`
	moved  = `{"service_id":"` + service + `","plan_id":"` + worker + `"}`

	numbered = `{"service_id":"` + service + `","x-osb-update":1}` // it has nothing to do, and its number is kept
)

// settingsAfter are those of the instance after each of these Updates.
var settingsAfter = map[string]broker.Settings{
	larger:   {PlanID: atOnce, Parameters: json.RawMessage(`{"size":2}`)},
	moved:    {PlanID: worker},
	numbered: {PlanID: atOnce},
}

// A killedUpdate is an Update, and the crash point at which the broker is killed.
type killedUpdate struct {
	point, body string
	isBegun     bool // whether the update is committed by then
}

// killedUpdates are all crash points that an update reaches whose work ends, of a synchronous one and of one that is
// not.
var killedUpdates = []killedUpdate{
	{"begin-update-next", larger, false}, {"begin-update-written", larger, true},
	{"work-next", larger, true}, {"work-running", larger, true}, {"work-done", larger, true},
	{"end-update-next", larger, true}, {"end-update-written", larger, true},
	{"end-update-next", moved, true}, {"end-update-written", moved, true},
	{"take-over-next", moved, true}, {"take-over-written", moved, true},
	{"operation-next", moved, true}, {"operation-done", moved, true},
	{"finish-update-next", moved, true}, {"finish-update-written", moved, true},
}

// kill has a broker over a state folder carry out an Update until it is killed, and starts another one. An Update that
// wasn't begun is sent to that one, too.
func (k killedUpdate) kill(t *testing.T, state string) (again *servedBroker) {
	t.Helper()
	s := start(t, []string{password, "OSB_CRASH_AT=" + k.point}, "--state", state)
	for end := time.Now().Add(time.Minute); time.Now().Before(end); time.Sleep(10 * time.Millisecond) {
		request := s.request("platform", "secret", "PATCH", one+"?accepts_incomplete=true", k.body)
		given, err := s.client.Do(request)
		if err != nil {
			break
		}
		_ = given.Body.Close()
	}
	_ = s.Wait()
	again = start(t, []string{password}, "--state", state)
	if !k.isBegun {
		again.ask("PATCH", one, k.body)
	}
	return again
}

// untilAnswered asks until the status and the text in the body are these.
func (s *servedBroker) untilAnswered(status int, text, path string) {
	s.t.Helper()
	for end := time.Now().Add(time.Minute); ; time.Sleep(5 * time.Millisecond) {
		got, body := s.ask("GET", path, "")
		if got == status && strings.Contains(body, text) {
			return
		}
		if time.Now().After(end) {
			s.t.Fatalf("GET %s: got %d %s, want %d and %q", path, got, body, status, text)
		}
	}
}

// isUpdated waits until the instance and its folder have the settings of an Update, and deletes the instance.
func (s *servedBroker) isUpdated(state, body string) {
	s.t.Helper()
	want := settingsAfter[body]
	text := `"plan_id":"` + want.PlanID + `"`
	if want.Parameters != nil {
		text = `"parameters":` + string(want.Parameters)
	}
	s.untilAnswered(200, text, one)
	if body == numbered {
		diff.Contains(s.t, s.expect(200, "GET", one, ""), `"x-osb-update":1`, "the number")
	} else {
		digest, has := diff.Value(want.Text())(s.t), diff.Value(os.ReadFile(settingsFile(s.t, state, "")))(s.t)
		diff.Equal(s.t, string(has), digest+"\n", "the settings of the folder")
	}
	s.expect(200, "DELETE", one+names, "")
}

// settingsFile is the file with the settings of the only folder, or with a prefix its part.
func settingsFile(t *testing.T, state, prefix string) string {
	t.Helper()
	folders := diff.Value(filepath.Glob(filepath.Join(state, "instances", "*-*-*-*-*")))(t)
	diff.Equal(t, len(folders), 1, "folders")
	return filepath.Join(state, "instances", ".settings", prefix+filepath.Base(folders[0]))
}

// created is a state folder with an instance.
func created(t *testing.T) (state string) {
	t.Helper()
	state = t.TempDir()
	s := start(t, []string{password}, "--state", state)
	s.expect(201, "PUT", one, order)
	s.stop()
	return state
}

// At whichever crash point of an update the broker is killed: once it is started again, the update goes on, and the
// broker reports the settings that the folder has.
func TestUpdatesAtCrashPoints(t *testing.T) {
	further := []killedUpdate{
		{"work-half", larger, true}, {"mark-next", numbered, false}, {"mark-written", numbered, true},
	}
	for _, test := range append(further, killedUpdates...) {
		t.Run(test.point+" "+settingsAfter[test.body].PlanID, func(t *testing.T) {
			state := created(t)
			test.kill(t, state).isUpdated(state, test.body)
		})
	}
}

// spoil has updates of the only folder fail, and leaves it with settings that nobody has asked for.
func spoil(t *testing.T, state string) {
	t.Helper()
	check(t, os.MkdirAll(filepath.Join(settingsFile(t, state, ".part-"), "in the way"), 0o700))
	check(t, os.WriteFile(settingsFile(t, state, ""), []byte("between\n"), 0o600))
}

// mend lets updates succeed again.
func mend(t *testing.T, state string) {
	t.Helper()
	check(t, os.RemoveAll(settingsFile(t, state, ".part-")))
}

// At whichever crash point of an update that fails the broker is killed: once it is started again, it reports that the
// update has failed, and no settings. Another update ends that.
func TestFailedUpdatesAtCrashPoints(t *testing.T) {
	for _, test := range killedUpdates {
		t.Run(test.point+" "+settingsAfter[test.body].PlanID, func(t *testing.T) {
			state := created(t)
			spoil(t, state)
			s := test.kill(t, state)
			s.untilAnswered(200, `"failed"`, one+"/last_operation")
			s.expect(422, "GET", one, "")
			mend(t, state)
			s.expect(200, "PATCH", one, larger)
			s.isUpdated(state, larger)
		})
	}
}

// At whichever crash point of an update the broker is killed that comes after one that has failed: once it is started
// again, the update goes on, and the broker reports its settings.
func TestMendedUpdatesAtCrashPoints(t *testing.T) {
	for _, test := range append([]killedUpdate{{"work-half", larger, true}}, killedUpdates...) {
		t.Run(test.point+" "+settingsAfter[test.body].PlanID, func(t *testing.T) {
			state := created(t)
			spoil(t, state)
			s := start(t, []string{password}, "--state", state)
			s.expect(500, "PATCH", one, larger)
			diff.Contains(t, s.expect(200, "GET", one+"/last_operation", ""), `"failed"`, "the update before")
			s.stop()
			mend(t, state)
			test.kill(t, state).isUpdated(state, test.body)
		})
	}
}
