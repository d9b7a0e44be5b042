package main

import (
	"fmt"
	"net/http"
	"path/filepath"
	"strings"
	"testing"

	"golang.org/x/sys/unix"

	"pippinterm/broker"
	"pippinterm/broker/sealed"
	"pippinterm/internal/diff"
	"pippinterm/internal/journalfile"
	"pippinterm/internal/pg"
	"pippinterm/internal/programtest"
	"pippinterm/internal/sqlitefile"
)

// eventsIn are the events of all files of a folder with journals, one text for each file, by name.
func eventsIn(t *testing.T, folder string) (all []string) {
	t.Helper()
	type line struct {
		Event, Call, Stage string
		Doubtful           bool
	}
	return programtest.Journals(t, folder, func(read line) string {
		switch {
		case read.Event == "work":
			return read.Call + " " + read.Stage
		case read.Doubtful:
			return read.Event + " doubtful"
		}
		return read.Event
	})
}

// The lines of a creation and of the deletion that follows.
const (
	looked   = ", look begun, look ended"
	creating = "arrived, changed" + looked + ", create begun, create ended" + looked + ", changed, answered"
	deleting = "arrived, changed" + looked + ", delete begun, delete ended" + looked + ", changed, answered"
)

// A folder gets a file for each run. With SIGTERM the journal ends with stopped.
func TestJournal(t *testing.T) {
	state, folder := t.TempDir(), t.TempDir()
	for _, test := range []struct {
		status                   int
		method, path, body, want string
	}{
		{201, "PUT", one, order, creating}, {200, "DELETE", one + names, "", deleting},
	} {
		s := start(t, []string{password}, "--state", state, "--journal", folder)
		s.expect(test.status, test.method, test.path, test.body)
		s.stop()
		files := eventsIn(t, folder)
		diff.Equal(t, files[len(files)-1], "started, "+test.want+", stopped", "")
	}
	diff.Equal(t, len(eventsIn(t, folder)), 2, "")
}

// A broker that is killed has written what it has done, and the next one goes on in the same file.
func TestJournalAfterAKill(t *testing.T) {
	state, file := t.TempDir(), filepath.Join(t.TempDir(), "journal")
	for n := 0; n < 2; n++ {
		s := start(t, []string{password}, "--state", state, "--journal", file)
		s.expect([]int{201, 200}[n], "PUT", one, order)
		check(t, s.Process.Kill())
		_ = s.Wait()
	}
	want := []string{"started, " + creating + ", started, arrived, answered"}
	diff.Check(t, eventsIn(t, filepath.Dir(file)), want, "the files")
}

// Two brokers can't write to one file, and a journal needs a place that can be written.
func TestJournalTaken(t *testing.T) {
	file := filepath.Join(t.TempDir(), "journal")
	start(t, []string{password}, "--state", t.TempDir(), "--journal", file)
	for place, says := range map[string]string{
		file: "--journal: " + file + ": another process writes this journal", "/nowhere/journal": "--journal: open /nowhere",
	} {
		t.Run(place, func(t *testing.T) {
			runToEnd(t, 78, says, osbBroker([]string{password}, "serve", "--state", t.TempDir(), "--listen", "127.0.0.1:0",
				"--journal", place))
		})
	}
}

// Without --journal nothing writes one, and no time is sent. The store is wrapped by what decrypts alone.
func TestNoJournal(t *testing.T) {
	parts := &parts{store: &ownStore{}, backend: &ownBackend{}}
	with, err := (&server{settings: &settings{}, parts: parts}).withJournal(nil)
	over, isOver := with.store.(*sealed.Store)
	isSame := isOver && over.Store == broker.Store(parts.store) && with.backend == parts.backend
	if err != nil || !isSame || with.journal != nil {
		t.Errorf("got %+v and the error %v, want the parts as they are", with, err)
	}
	for _, arguments := range [][]string{nil, {"--journal", t.TempDir()}} {
		t.Run(fmt.Sprintf("journal %t", arguments != nil), func(t *testing.T) {
			s := start(t, []string{password}, append([]string{"--state", t.TempDir()}, arguments...)...)
			request := diff.Value(newOrder(s.url))(t)
			given := diff.Value(s.client.Do(request))(t)
			_ = given.Body.Close()
			if got := given.Header.Get(journalfile.Header); given.StatusCode != 201 || (got == "") != (arguments == nil) {
				t.Errorf("with %v: got %d and the time %q, want 201, and a time with a journal alone",
					arguments, given.StatusCode, got)
			}
		})
	}
}

// newOrder is the creation of an instance.
func newOrder(url string) (*http.Request, error) {
	request, err := http.NewRequest("PUT", url+one, strings.NewReader(order))
	if err != nil {
		return nil, err
	}
	request.SetBasicAuth("platform", "secret")
	request.Header.Set("X-Broker-API-Version", "2.17")
	return request, nil
}

type (
	ownStore   struct{ broker.NamedStore }
	ownBackend struct{ broker.Backend }
)

// If the store's disk is full and the journal's isn't, the change that wasn't committed is undone, doubtfully.
func TestJournalOfAFullStore(t *testing.T) {
	folder := t.TempDir()
	s := start(t, []string{password}, "--state", t.TempDir(), "--journal", folder)
	s.LimitFiles(200_000)
	status := 201
	for n := 0; n < 200 && status == 201; n++ {
		status, _ = s.ask("PUT", fmt.Sprint(one, n), order)
	}
	s.LimitFiles(unix.RLIM_INFINITY)
	s.until(200, "", "GET", "/readyz", "")
	s.expect(201, "PUT", one, order)
	s.stop()
	events := eventsIn(t, folder)[0]
	failed := strings.Index(events, "changed, undone doubtful, answered, ")
	if status != 500 || failed < 0 || !strings.HasSuffix(events, creating+", stopped") || strings.Contains(events, "lost") {
		t.Errorf("got the status %d and %s, want 500 and a creation that is stopped", status, events)
	}
}

// Which failed changes may have been committed.
func TestDoubtful(t *testing.T) {
	for err, want := range map[error]bool{
		pg.ErrUnknownCommit: true, sqlitefile.ErrUnknownCommit: true,
		broker.ErrLostWork: false, sqlitefile.ErrBusy: false, pg.ErrNotBegun: false,
	} {
		t.Run(err.Error(), func(t *testing.T) {
			diff.Equal(t, isDoubtful(broker.Away(fmt.Errorf("it has failed: %w", err))), want, "%v", err)
		})
	}
}
