// Package pgtest has what tests with a PostgreSQL server share.
package pgtest

import (
	"database/sql"
	"net/url"
	"os"
	"testing"
	"time"

	"pippinterm/internal/diff"
	"pippinterm/internal/pg"
)

// Variable is the environment variable with the URL of the server.
const Variable = "OSB_TEST_POSTGRESQL"

// URL returns the URL of a database, as a superuser. The test is skipped if the environment has none.
func URL(t *testing.T) string {
	t.Helper()
	address := os.Getenv(Variable)
	if address == "" {
		t.Skip("set " + Variable + " to the URL of a PostgreSQL server, as a superuser, that is for tests only")
	}
	return address
}

// With returns a URL with a further parameter.
func With(t *testing.T, address, name, value string) string {
	t.Helper()
	parsed := parse(t, address)
	asked := parsed.Query()
	asked.Set(name, value)
	parsed.RawQuery = asked.Encode()
	return parsed.String()
}

// As returns a URL with another user.
func As(t *testing.T, address, user, password string) string {
	t.Helper()
	parsed := parse(t, address)
	parsed.User = url.UserPassword(user, password)
	return parsed.String()
}

// In returns a URL with another database.
func In(t *testing.T, address, database string) string {
	t.Helper()
	parsed := parse(t, address)
	parsed.Path = "/" + database
	return parsed.String()
}

func parse(t *testing.T, address string) *url.URL {
	t.Helper()
	return diff.Value(url.Parse(address))(t)
}

// DB returns connections to a URL, which are closed at the end of the test.
func DB(t *testing.T, address string) *sql.DB {
	t.Helper()
	limits := pg.Options{Most: 4, Lock: 20 * time.Second, Statement: 20 * time.Second, Idle: time.Minute}
	db := diff.Value(pg.Open(address, limits))(t)
	t.Cleanup(func() { _ = db.Close() })
	return db
}

// Exec runs statements, each in a transaction of its own.
func Exec(t *testing.T, db *sql.DB, statements ...string) {
	t.Helper()
	for _, statement := range statements {
		if _, err := db.Exec(statement); err != nil {
			t.Fatalf("%s: got the error %v, want none", statement, err)
		}
	}
}

// WantSetting sees which value a session has of a setting.
func WantSetting(t *testing.T, db *sql.DB, name, want string) {
	t.Helper()
	var got string
	diff.Must(t, db.QueryRow("SHOW "+name).Scan(&got))
	diff.Equal(t, got, want, "%s", name)
}

// Schema creates an empty schema, which is dropped at the end of the test, and returns a URL that uses it.
func Schema(t *testing.T, address, name string) string {
	t.Helper()
	db := DB(t, address)
	Exec(t, db, "DROP SCHEMA IF EXISTS "+name+" CASCADE", "CREATE SCHEMA "+name)
	t.Cleanup(func() { Exec(t, db, "DROP SCHEMA "+name+" CASCADE") })
	return With(t, address, "search_path", name)
}
