package servers

import (
	"context"
	"fmt"
	"io"
	"net"
	"net/http"
	"net/http/httptest"
	"os"
	"strings"
	"testing"
	"time"

	"pippinterm/internal/diff"
	"pippinterm/internal/pg/pgtest"
	"pippinterm/internal/waits"
	"pippinterm/storm/stormtest"
)

func rows(t *testing.T, address, query string) string {
	t.Helper()
	db := diff.Value(open(address))(t)
	defer db.Close()
	var text string
	if err := db.QueryRow(query).Scan(&text); err != nil {
		return "error: " + err.Error()
	}
	return text
}

// states are the states of the server's processes, as /proc has them, except those that have ended.
func states(p *Postgres) (all string) {
	pid := p.process.Process.Pid
	for _, child := range append([]int{pid}, children(pid)...) {
		text, err := os.ReadFile(fmt.Sprintf("/proc/%d/stat", child))
		if err != nil {
			continue
		}
		_, rest, _ := strings.Cut(string(text), ") ")
		if rest[:1] != "Z" && !strings.Contains(all, rest[:1]) {
			all += rest[:1]
		}
	}
	return all
}

// A server is killed, the first process alone and then all, and still has what it committed. It is paused, and goes
// on. At the end nothing is left.
func TestPostgres(t *testing.T) {
	pgtest.URL(t) // PostgreSQL is installed
	ctx, folder := context.Background(), t.TempDir()
	p := diff.Value(StartPostgres(ctx, openToPostgres(t, folder)))(t)
	url := p.URL("postgres")
	check(t, execute(ctx, url, "CREATE TABLE kept (number integer)"))
	for kills := 1; kills <= 2; kills++ {
		check(t, execute(ctx, url, fmt.Sprintf("INSERT INTO kept VALUES (%d)", kills)))
		before := p.process.Process.Pid
		check(t, p.Kill(ctx, 0))
		if p.process.Process.Pid == before {
			t.Error("got the same process, want another")
		}
		diff.Equal(t, rows(t, url, "SELECT count(*) || ' ' || max(number) FROM kept"), fmt.Sprint(kills, kills),
			"after %d kills", kills)
	}
	paused := make(chan struct{})
	go func() {
		defer close(paused)
		p.Pause(ctx, time.Second)
	}()
	waits.Until(t, "it is paused", func() bool { return states(p) == "T" })
	<-paused
	diff.Equal(t, rows(t, url, "SHOW recovery_init_sync_method"), "syncfs", "the synchronisation of files")
	if found := rows(t, url, "SHOW fsync"); found != "on" || strings.Contains(states(p), "T") {
		t.Errorf("after the pause: got fsync %s and the states %s, want on and none paused", found, states(p))
	}
	kills, pauses := p.Counts()
	diff.Equal(t, [2]int{kills, pauses}, [2]int{2, 1}, "the kills and the pauses")
	if err := p.Close(); err != nil || !strings.HasPrefix(rows(t, url, "SELECT 1"), "error: ") {
		t.Errorf("Close: got %v, or a server that still runs, want its end", err)
	}
	stormtest.Empty(t, folder)
}

// openToPostgres gives the user postgres access to a folder of a test.
func openToPostgres(t *testing.T, folder string) string {
	t.Helper()
	for at := folder; strings.HasPrefix(at, os.TempDir()+"/"); at = at[:strings.LastIndexByte(at, '/')] {
		check(t, os.Chmod(at, 0o755))
	}
	return folder
}

// A storm has a database of its own at a server. The sessions of its programs are ended, and no others. It is dropped.
func TestDatabase(t *testing.T) {
	server, ctx := pgtest.URL(t), context.Background()
	d := diff.Value(Create(ctx, server, "storm_of_a_test"))(t)
	diff.Equal(t, rows(t, d.URL(), "SELECT current_database()"), "storm_of_a_test", "")
	diff.Equal(t, diff.Value(d.EndSession(ctx))(t), false, "a session was ended")
	address, environment := d.ForPrograms()
	for _, variable := range environment {
		name, value, _ := strings.Cut(variable, "=")
		t.Setenv(name, value)
	}
	db := pgtest.DB(t, address)
	check(t, db.Ping())
	diff.Equal(t, diff.Value(d.EndSession(ctx))(t), true, "a session was ended")
	diff.NoError(t, d.Close(), "")
	diff.Contains(t, rows(t, d.URL(), "SELECT 1"), "does not exist", "")
}

// No password stands in the URL that the programs get, since everybody can read command lines.
func TestForPrograms(t *testing.T) {
	for given, wanted := range map[string]string{
		"postgresql://u@h:1/d":                      "postgresql://u@h:1/own?application_name=storm []",
		"postgresql://u:p%40q@h:1/d?sslmode=verify": "postgresql://u@h:1/own?application_name=storm&sslmode=verify [PGPASSWORD=p@q]",
		"postgresql://u@h/d?password=p&dbname=e":    "postgresql://u@h/own?application_name=storm [PGPASSWORD=p]",
	} {
		t.Run(given, func(t *testing.T) {
			at := diff.Value(In(given, "own"))(t)
			address, environment := (&Database{url: at}).ForPrograms()
			diff.Equal(t, fmt.Sprint(address, " ", environment), wanted, "%s", given)
		})
	}
}

// What isn't there is an error that says so, and leaves nothing.
func TestNoServer(t *testing.T) {
	ctx, folder := context.Background(), t.TempDir()
	diff.Error(t, diff.Err(Create(ctx, "postgresql://u@127.0.0.1:1/d", "x")), "a server that isn't there")
	diff.Error(t, diff.Err(Create(ctx, "nowhere", "x")), "no server")
	if _, err := StartHAProxy(ctx, folder, "not an address", nil); err == nil || !strings.Contains(err.Error(), "haproxy") {
		t.Errorf("haproxy at no address: got %v, want an error that names it", err)
	}
}

// HAProxy forwards to whichever broker lives, and ends.
func TestHAProxy(t *testing.T) {
	var addresses []string
	var brokers []*httptest.Server
	for _, name := range []string{"one", "other"} {
		name := name
		it := httptest.NewServer(http.HandlerFunc(func(w http.ResponseWriter, _ *http.Request) {
			_, _ = io.WriteString(w, name)
		}))
		defer it.Close()
		brokers, addresses = append(brokers, it), append(addresses, strings.TrimPrefix(it.URL, "http://"))
	}
	listener := diff.Value(net.Listen("tcp", "127.0.0.1:0"))(t)
	at := listener.Addr().String()
	_ = listener.Close()
	proxy := diff.Value(StartHAProxy(context.Background(), t.TempDir(), at, addresses))(t)
	defer proxy.Close()
	said := func() string {
		answer, err := http.Get("http://" + at)
		if err != nil {
			return err.Error()
		}
		defer answer.Body.Close()
		text, _ := io.ReadAll(answer.Body)
		return string(text)
	}
	if first, second := said(), said(); first == second || first+second != "oneother" && first+second != "otherone" {
		t.Errorf("got %s and %s, want one and other", first, second)
	}
	brokers[0].Close()
	diff.Equal(t, said()+" "+said(), "other other", "two answers of one broker")
}

var check = diff.Must
