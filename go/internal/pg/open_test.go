package pg_test

import (
	"context"
	"database/sql/driver"
	"errors"
	"fmt"
	"os"
	"strings"
	"testing"
	"time"

	"pippinterm/internal/diff"
	"pippinterm/internal/pg"
	"pippinterm/internal/pg/pgtest"
)

func TestSynchronousCommit(t *testing.T) {
	url := pgtest.URL(t)
	for _, value := range []string{"on", "local", "remote_write", "remote_apply"} {
		t.Run(value, func(t *testing.T) {
			db := pgtest.DB(t, pgtest.With(t, url, "synchronous_commit", value))
			var setting, source string
			err := db.QueryRow("SELECT setting, source FROM pg_settings WHERE name = 'synchronous_commit'").
				Scan(&setting, &source)
			if err != nil || setting != value || source != "session" { // of the session: no reload changes it
				t.Errorf("%s: got %s of the %s, %v, want it of the session", value, setting, source, err)
			}
		})
	}
	err := pgtest.DB(t, pgtest.With(t, url, "synchronous_commit", "off")).Ping()
	diff.ErrorIs(t, err, pg.ErrNotDurable, "off")
	diff.Contains(t, fmt.Sprint(err), "SET synchronous_commit = on", "off")
}

// A connection of which nobody can see whether its commits are durable isn't used.
func TestDurabilityThatCannotBeSeen(t *testing.T) {
	const schema = "osb_durability"
	url := pgtest.Schema(t, pgtest.URL(t), schema)
	pgtest.Exec(t, pgtest.DB(t, url), "CREATE FUNCTION set_config(text, text, boolean) RETURNS text LANGUAGE plpgsql AS "+
		"$$ BEGIN RAISE EXCEPTION 'no'; END $$")
	db := diff.Value(pg.Open(url, pg.Options{
		Most: 1, Lock: time.Second, Statement: 3 * time.Second, Idle: time.Minute,
		Settings: map[string]string{"search_path": schema + ", pg_catalog"},
	}))(t)
	defer db.Close()
	diff.Equal(t, pg.IsCode(db.Ping(), "P0001"), true, "pg.IsCode")
}

func TestSettings(t *testing.T) {
	db := diff.Value(pg.Open(pgtest.URL(t), pg.Options{
		Most: 1, Lock: 1500 * time.Millisecond, Statement: 3 * time.Second, Idle: time.Minute,
		Settings: map[string]string{"search_path": "pg_catalog", "default_transaction_read_only": "off"},
	}))(t)
	defer db.Close()
	for name, want := range map[string]string{
		"lock_timeout": "1500ms", "statement_timeout": "3s", "idle_in_transaction_session_timeout": "1min",
		"search_path": "pg_catalog", "application_name": "osb", "tcp_keepalives_idle": "30",
		"tcp_user_timeout": "60000",
	} {
		t.Run(name, func(t *testing.T) {
			pgtest.WantSetting(t, db, name, want)
		})
	}
}

// A connection that the check rejects isn't used.
func TestCheck(t *testing.T) {
	rejected := errors.New("not this one")
	var asked int
	db := diff.Value(pg.Open(pgtest.URL(t), pg.Options{
		Most: 1, Lock: time.Second, Statement: 3 * time.Second, Idle: time.Minute,
		Check: func(ctx context.Context, c driver.QueryerContext) error {
			asked++
			if asked == 1 {
				return rejected
			}
			return nil
		},
	}))(t)
	defer db.Close()
	for try, want := range []error{rejected, nil} {
		diff.ErrorIs(t, db.Ping(), want, "connection %d", try+1)
	}
}

// Settings win over those of the database and of the URL, also if they are empty or have spaces, and beside switches of
// the environment.
func TestSettingsThatAreEmptyOrHaveSpaces(t *testing.T) {
	url := pgtest.URL(t)
	pgtest.Exec(t, pgtest.DB(t, url), "DROP DATABASE IF EXISTS osb_session_settings",
		"CREATE DATABASE osb_session_settings TEMPLATE template0",
		"ALTER DATABASE osb_session_settings SET local_preload_libraries = 'garbage'",
		"ALTER DATABASE osb_session_settings SET default_transaction_isolation = 'serializable'",
		"ALTER DATABASE osb_session_settings SET client_min_messages = 'error'")
	t.Cleanup(func() { pgtest.Exec(t, pgtest.DB(t, url), "DROP DATABASE osb_session_settings WITH (FORCE)") })
	t.Setenv("PGOPTIONS", "-c geqo=off")
	want := map[string]string{
		"local_preload_libraries": "", "default_transaction_isolation": "repeatable read", "search_path": `"a \b", "c"`,
		"default_tablespace": "", "application_name": "of two words",
	}
	db := diff.Value(pg.Open(pgtest.With(t, url, "search_path", "public"), pg.Options{
		Most: 1, Lock: time.Second, Statement: time.Second, Idle: time.Minute, Database: "osb_session_settings",
		Settings: want,
	}))(t)
	defer db.Close()
	want["geqo"], want["client_min_messages"] = "off", "warning"
	for name, want := range want {
		t.Run(name, func(t *testing.T) {
			pgtest.WantSetting(t, db, name, want)
		})
	}
}

// A session that has ended needs no goodbye: whoever closes it has lost nothing.
func TestCloseAfterTheSessionHasEnded(t *testing.T) {
	url := pgtest.URL(t)
	for statements := 0; statements < 4; statements++ {
		db := diff.Value(pg.Open(url, pg.Options{Most: 1, Lock: time.Second, Statement: 5 * time.Second}))(t)
		var number int
		check(t, db.QueryRow("SELECT pg_backend_pid()").Scan(&number))
		for n := 0; n < statements; n++ {
			check(t, diff.Err(db.Prepare(fmt.Sprint("SELECT ", n))))
		}
		pgtest.Exec(t, pgtest.DB(t, url), fmt.Sprintf("SELECT pg_terminate_backend(%d, 10000)", number))
		diff.NoError(t, pg.Close(db), "with %d prepared statements", statements)
	}
}

// The user, the password and the database of the options take the place of those of the URL, also if they are its
// parameters.
func TestAnotherUser(t *testing.T) {
	url := pgtest.URL(t)
	pgtest.Exec(t, pgtest.DB(t, url), "DROP DATABASE IF EXISTS osb_session_user",
		"DROP ROLE IF EXISTS osb_session_user", "CREATE ROLE osb_session_user LOGIN PASSWORD 'of its own'",
		"CREATE DATABASE osb_session_user OWNER osb_session_user TEMPLATE template0")
	t.Cleanup(func() {
		pgtest.Exec(t, pgtest.DB(t, url), "DROP DATABASE osb_session_user WITH (FORCE)", "DROP ROLE osb_session_user")
	})
	for _, address := range []string{
		url, pgtest.With(t, url, "user", "zed"), pgtest.With(t, url, "password", "zed"), pgtest.With(t, url, "dbname", "zed"),
	} {
		db, err := pg.Open(address, pg.Options{
			Most: 1, Lock: time.Second, Statement: time.Second, Idle: time.Minute,
			Database: "osb_session_user", User: "osb_session_user", Password: "of its own",
		})
		check(t, err)
		defer db.Close()
		var user, database string
		err = db.QueryRowContext(context.Background(), "SELECT current_user, current_database()").Scan(&user, &database)
		if err != nil || user != "osb_session_user" || database != user {
			t.Errorf("%s: got %s in %s, %v, want osb_session_user in its own", address, user, database, err)
		}
	}
}

func TestLost(t *testing.T) {
	url := pgtest.URL(t)
	db := pgtest.DB(t, url)
	conn, err := db.Conn(context.Background())
	check(t, err)
	defer conn.Close()
	var pid int
	check(t, conn.QueryRowContext(context.Background(), "SELECT pg_backend_pid()").Scan(&pid))
	diff.Value(db.Exec("SELECT pg_terminate_backend($1, 5000)", pid))(t)
	_, err = conn.ExecContext(context.Background(), "SELECT 1")
	diff.Equal(t, pg.IsLost(err), true, "a session that has ended, %v", err)
	_, err = db.Exec("SELECT 1 / 0")
	if pg.IsLost(err) || !pg.IsCode(err, "01000", "22012") || pg.IsCode(err, "01000") {
		t.Errorf("a division by zero: got %v, want 22012 and no lost session", err)
	}
}

// What PostgreSQL's own programs take from the environment, and lib/pq panics at, doesn't stop a session that is the same
// without it. What says which server is meant, or how it is checked, is an error that lasts.
func TestVariablesThatTheDriverRejects(t *testing.T) {
	const address = "postgresql://u@127.0.0.1:1/d"
	open := func() error {
		db, err := pg.Open(address, pg.Options{Most: 1, Lock: 1, Statement: 1, Idle: 1})
		if err == nil {
			_ = db.Close()
		}
		return err
	}
	for _, name := range []string{
		"PGSYSCONFDIR", "PGSERVICEFILE", "PGLOCALEDIR", "PGREALM", "PGKRBSRVNAME", "PGGSSLIB",
	} {
		t.Setenv(name, "/nowhere")
		diff.NoError(t, open(), "%s", name)
	}
	for _, name := range []string{"PGHOSTADDR", "PGSERVICE", "PGREQUIRESSL", "PGSSLCRL", "PGREQUIREPEER"} {
		t.Run(name, func(t *testing.T) {
			t.Setenv(name, "")
			diff.NoError(t, open(), "an empty %s", name)
			t.Setenv(name, "1")
			err := open()
			if _, isLasting := pg.Remedy(err); !isLasting || !strings.Contains(err.Error(), "unset "+name) {
				t.Errorf("%s: got %v, lasting %v, want a lasting one that says what to unset", name, err, isLasting)
			}
			check(t, os.Unsetenv(name))
		})
	}
	for name, value := range map[string]string{"PGCLIENTENCODING": "LATIN1", "PGDATESTYLE": "German"} {
		t.Run(name, func(t *testing.T) {
			t.Setenv(name, value)
			_, isLasting := pg.Remedy(open())
			diff.Equal(t, isLasting, true, "%s=%s: the error lasts", name, value)
			check(t, os.Unsetenv(name))
		})
	}
}

func TestAddresses(t *testing.T) {
	t.Setenv("PGHOST", "")
	t.Setenv("PGPORT", "")
	for _, test := range []struct {
		address     string
		hasPassword bool
		host, port  string
	}{
		{"postgresql://broker@db/brokers", false, "db", "5432"},
		{"postgres://broker:x@db:6000/brokers", true, "db", "6000"},
		{"postgresql://broker@db/brokers?password=x", true, "db", "5432"},
		{"postgresql://broker@[::1]:7000/brokers", false, "::1", "7000"},
		{"postgresql:///brokers?host=/run/postgresql&port=6000", false, "/run/postgresql", "6000"},
		{"postgresql:///brokers", false, "localhost", "5432"},
	} {
		t.Run(test.address, func(t *testing.T) {
			hasPassword, err := pg.HasPassword(test.address)
			diff.NoError(t, err, "HasPassword(%s)", test.address)
			diff.Equal(t, hasPassword, test.hasPassword, "HasPassword(%s)", test.address)
			host, port, err := pg.HostAndPort(test.address)
			if err != nil || host != test.host || port != test.port {
				t.Errorf("HostAndPort(%s): got %s, %s, %v, want %s, %s", test.address, host, port, err, test.host, test.port)
			}
		})
	}
}

func TestHostAndPortOfTheEnvironment(t *testing.T) {
	t.Setenv("PGHOST", "elsewhere")
	t.Setenv("PGPORT", "6543")
	for address, want := range map[string][2]string{
		"postgresql:///brokers":           {"elsewhere", "6543"},
		"postgresql://db:5000/brokers":    {"db", "5000"},
		"postgresql://db/brokers?port=77": {"db", "77"},
	} {
		t.Run(address, func(t *testing.T) {
			host, port, err := pg.HostAndPort(address)
			check(t, err)
			diff.Equal(t, [2]string{host, port}, want, "the host and the port")
		})
	}
}

// The password of a URL that can't be read doesn't get into the error.
func TestBadAddresses(t *testing.T) {
	for _, address := range []string{
		"", "/srv/store.sqlite", "postgresql://u:secret@db:port/x", "postgresql://u:sec%ret@db",
	} {
		t.Run(fmt.Sprintf("%q", address), func(t *testing.T) {
			_, err := pg.Open(address, pg.Options{Most: 1})
			diff.ErrorIs(t, err, pg.ErrBadAddress, "Open(%s)", address)
			diff.Equal(t, fmt.Sprint(err), pg.ErrBadAddress.Error(), "Open(%s)", address)
			diff.ErrorIs(t, diff.Err(pg.HasPassword(address)), pg.ErrBadAddress, "HasPassword(%s)", address)
		})
	}
}

func TestAnEnvironmentThatIsNotSupported(t *testing.T) {
	t.Setenv("PGSERVICE", "x")
	diff.Error(t, diff.Err(pg.Open("postgresql://db/x", pg.Options{Most: 1})), "PGSERVICE")
}

var check = diff.Must
