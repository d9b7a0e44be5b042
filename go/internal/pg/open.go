// Package pg has what both stores and the broker's backend need of a PostgreSQL server: connections whose commits are
// durable and on which nothing waits forever, and transactions that report a commit only if there was one.
package pg

import (
	"context"
	"database/sql"
	"database/sql/driver"
	"errors"
	"fmt"
	"net"
	"net/url"
	"os"
	"regexp"
	"sort"
	"strconv"
	"strings"
	"time"

	"github.com/lib/pq"
)

// Options say how the connections are used.
type Options struct {
	// Most is how many connections are open at once, at least 1.
	Most int
	// Lock is how long a statement waits for a lock, and Statement how long it runs, both from 1 ms on. Idle is how
	// long a transaction may be idle.
	Lock, Statement, Idle time.Duration
	// Database, User and Password take the place of those of the URL, unless they are empty.
	Database, User, Password string
	// Settings are further settings of the sessions, such as search_path, which may be empty. They win over those of
	// the database, of the role and of the URL.
	Settings map[string]string
	// Check is called with each connection that was opened, or is nil. If it returns an error, opening the connection
	// fails with it.
	Check func(context.Context, driver.QueryerContext) error
}

// patience is how long the server's answer may take beyond the limits that the server has itself.
const patience = 10 * time.Second

// Open returns connections to the server of a URL, postgresql://user@host:port/database?parameters. What the URL
// doesn't say is found as other clients of PostgreSQL find it: in PGPASSWORD, in the file that PGPASSFILE names, and so
// on. If neither the URL nor PGSSLMODE has a sslmode, connections to this machine are without TLS, and all others need
// it (require). No connection is opened yet.
//
// On each connection synchronous_commit stays as the server, the database or the role has set it, for as long as the
// connection lives. If it is off, opening the connection fails with ErrNotDurable: any other value is accepted, since
// with each of them a commit is on the server's disk before it is reported.
//
// Errors: ErrBadAddress, or that the environment has a variable such as PGSERVICE, which isn't supported.
func Open(address string, options Options) (*sql.DB, error) {
	full, err := withSettings(address, options)
	if err != nil {
		return nil, err
	}
	made, err := newConnector(full)
	if err != nil {
		return nil, err
	}
	made.Dialer(newDialer(options.Statement + patience))
	db := sql.OpenDB(connector{made, options.Check})
	db.SetMaxOpenConns(options.Most)
	db.SetMaxIdleConns(options.Most)
	return db, nil
}

// withSettings is the URL with the settings of a session in it.
func withSettings(address string, options Options) (string, error) {
	parsed, err := parse(address)
	if err != nil {
		return "", err
	}
	host, _, err := HostAndPort(address)
	if err != nil {
		return "", err
	}
	asked := parsed.Query()
	defaults := map[string]string{"connect_timeout": "10", "application_name": "osb"}
	if isLocal(host) && os.Getenv("PGSSLMODE") == "" {
		defaults["sslmode"] = "disable"
	}
	for name, value := range defaults {
		if !asked.Has(name) {
			asked.Set(name, value)
		}
	}
	for name, value := range fixedSettings(options) {
		asked.Set(name, value)
	}
	if len(options.Settings) > 0 {
		asked.Set("options", switches(first(asked.Get("options"), os.Getenv("PGOPTIONS")), options.Settings))
	}
	for name := range options.Settings {
		asked.Del(name) // it would win over the switch
	}
	parsed.RawQuery = replace(parsed, asked, options).Encode()
	return parsed.String(), nil
}

// fixedSettings are the settings of all sessions.
func fixedSettings(options Options) map[string]string {
	return map[string]string{
		"lock_timeout":                        milliseconds(options.Lock),
		"statement_timeout":                   milliseconds(options.Statement),
		"idle_in_transaction_session_timeout": milliseconds(options.Idle),
		"client_min_messages":                 "warning", // Transaction has to see a warning to a COMMIT
		"tcp_keepalives_idle":                 "30",
		"tcp_keepalives_interval":             "10",
		"tcp_keepalives_count":                "3",
		"tcp_user_timeout":                    "60000", // so a lost machine gives back its locks within a minute
		"binary_parameters":                   "yes",   // a statement with parameters is one round trip
	}
}

// switches adds settings to the switches with which the server starts a session. Other than a parameter of a URL, a
// switch may be empty.
func switches(before string, settings map[string]string) string {
	words := []string{}
	for name, value := range settings {
		words = append(words, "-c "+name+"="+spaces.ReplaceAllString(value, `\$0`))
	}
	sort.Strings(words)
	return strings.TrimSpace(before + " " + strings.Join(words, " "))
}

// spaces are what the server splits switches at, and what it escapes that with.
var spaces = regexp.MustCompile(`[\s\v\\]`)

// replace puts another database, user and password into the URL.
func replace(parsed *url.URL, asked url.Values, options Options) url.Values {
	if options.Database != "" {
		parsed.Path = "/" + options.Database
		asked.Del("dbname")
	}
	if options.User != "" {
		parsed.User = url.UserPassword(options.User, options.Password)
		asked.Del("user")
		asked.Del("password")
	}
	return asked
}

// goodbye is how long Close waits for the server.
const goodbye = 2 * time.Second

// Close closes connections that nobody uses any more, and returns the error of the last one that has failed. Each
// connection asks the server to close its prepared statements, one connection after another. That a connection or its
// session has ended before is no error. If the server doesn't answer, Close returns 2 seconds later without an error,
// and the connections are closed once their limits are over.
func Close(db *sql.DB) error {
	closed := make(chan error, 1)
	go func() { closed <- db.Close() }()
	timer := time.NewTimer(goodbye)
	defer timer.Stop()
	select {
	case err := <-closed:
		if IsAway(err) {
			return nil
		}
		return err
	case <-timer.C:
		return nil
	}
}

func milliseconds(duration time.Duration) string {
	return strconv.FormatInt(duration.Milliseconds(), 10)
}

// newConnector returns a connector for a URL.
//
// Errors: ErrBadAddress; those of a variable of the environment that can't be used, which last.
func newConnector(address string) (made *pq.Connector, err error) {
	if err := useEnvironment(); err != nil {
		return nil, AsLasting(err)
	}
	defer func() { // lib/pq rejects variables by a panic
		if what := recover(); what != nil {
			err = AsLasting(fmt.Errorf("the environment can't be used: %v", what))
		}
	}()
	made, err = pq.NewConnector(address)
	var badURL *url.Error
	if errors.As(err, &badURL) {
		return nil, ErrBadAddress
	}
	return made, AsLasting(err)
}

// A connector opens connections whose synchronous_commit is known.
type connector struct {
	*pq.Connector
	check func(context.Context, driver.QueryerContext) error // or nil
}

func (c connector) Connect(ctx context.Context) (driver.Conn, error) {
	var network *limitedConn
	made, err := c.Connector.Connect(context.WithValue(ctx, dialedKey{}, &network))
	if err != nil {
		return nil, err
	}
	known, ok := made.(pqConn)
	if !ok || network == nil {
		_ = made.Close()
		return nil, fmt.Errorf("%T can't be used", made)
	}
	conn := &connection{known, network}
	within, cancel := Within(ctx, Answer)
	defer cancel()
	err = keepDurable(within, conn)
	if err == nil && c.check != nil {
		err = c.check(within, conn)
	}
	if err != nil {
		_ = conn.Close()
		return nil, AsNoAnswer(ctx, err)
	}
	return conn, nil
}

// The value that is in force is set once more, for the session: so no later change of the server's configuration
// changes it.
const pin = "SELECT set_config('synchronous_commit', current_setting('synchronous_commit'), false), current_user"

func keepDurable(ctx context.Context, conn *connection) error {
	rows, err := conn.QueryContext(ctx, pin, nil)
	if err != nil {
		return err
	}
	defer rows.Close()
	var columns [2]driver.Value
	if err := rows.Next(columns[:]); err != nil {
		return err
	}
	if text(columns[0]) == "off" {
		return fmt.Errorf("%w. Run: ALTER ROLE %s SET synchronous_commit = on", ErrNotDurable,
			pq.QuoteIdentifier(text(columns[1])))
	}
	return nil
}

func text(column driver.Value) string {
	if bytes, ok := column.([]byte); ok {
		return string(bytes)
	}
	return fmt.Sprint(column)
}

// ErrBadAddress reports that a text isn't the URL of a PostgreSQL server. The error doesn't quote the text, since a
// password may stand in it.
var ErrBadAddress = errors.New(
	"the URL of the PostgreSQL server can't be read. Write it as postgresql://user@host:port/database")

// IsAddress reports whether a text is the URL of a PostgreSQL server, and not the path of a file.
func IsAddress(text string) bool {
	return strings.HasPrefix(text, "postgresql://") || strings.HasPrefix(text, "postgres://")
}

// HasPassword reports whether a password stands in a URL. On a command line everybody who lists processes can read it.
//
// Errors: ErrBadAddress.
func HasPassword(address string) (bool, error) {
	parsed, err := parse(address)
	if err != nil {
		return false, err
	}
	_, hasPassword := parsed.User.Password()
	return hasPassword || parsed.Query().Has("password"), nil
}

// HostAndPort returns where the server of a URL listens, as Open finds it: from the URL, or from the environment
// variables PGHOST and PGPORT, or localhost and 5432. A host that begins with a slash is the folder of a socket.
//
// Errors: ErrBadAddress.
func HostAndPort(address string) (host, port string, err error) {
	parsed, err := parse(address)
	if err != nil {
		return "", "", err
	}
	asked := parsed.Query()
	host = first(asked.Get("host"), parsed.Hostname(), os.Getenv("PGHOST"), "localhost")
	port = first(asked.Get("port"), parsed.Port(), os.Getenv("PGPORT"), "5432")
	return host, port, nil
}

func parse(address string) (*url.URL, error) {
	if !IsAddress(address) {
		return nil, ErrBadAddress
	}
	parsed, err := url.Parse(address)
	if err != nil {
		return nil, ErrBadAddress
	}
	return parsed, nil
}

func first(texts ...string) string {
	for _, text := range texts {
		if text != "" {
			return text
		}
	}
	return ""
}

// isLocal reports whether a host is this machine, to which no connection needs TLS.
func isLocal(host string) bool {
	ip := net.ParseIP(host)
	return host == "localhost" || strings.HasPrefix(host, "/") || ip != nil && ip.IsLoopback()
}

// Variables of libpq that lib/pq doesn't know. It panics if one of them is set.
var (
	// These say where libpq finds files that lib/pq doesn't read, or how it logs in by Kerberos, which lib/pq doesn't
	// do here. So sessions are the same without them. pg_virtualenv sets the first.
	needless = []string{"PGSYSCONFDIR", "PGSERVICEFILE", "PGLOCALEDIR", "PGREALM", "PGKRBSRVNAME", "PGGSSLIB"}
	// These say which server libpq connects to, or how it checks the server. A session that ignores them could be one
	// with another server.
	needed = map[string]string{
		"PGHOSTADDR":    "Put the address into the URL",
		"PGSERVICE":     "Put the server and the database of the service into the URL",
		"PGREQUIRESSL":  "Set PGSSLMODE=require",
		"PGSSLCRL":      "A list of revoked certificates isn't read",
		"PGREQUIREPEER": "Connect with TLS, and set sslmode=verify-full in the URL",
	}
)

// useEnvironment removes from the environment of this process what lib/pq would panic at, and no session needs.
//
// Errors: if a variable is set that lib/pq doesn't know, and that sessions need.
func useEnvironment() error {
	for _, name := range needless {
		if _, isSet := os.LookupEnv(name); isSet {
			if err := os.Unsetenv(name); err != nil {
				return err
			}
		}
	}
	for name, remedy := range needed {
		value, isSet := os.LookupEnv(name)
		if value != "" {
			return fmt.Errorf("the variable %s can't be used. %s, and unset %s", name, remedy, name)
		}
		if isSet { // an empty one says nothing
			if err := os.Unsetenv(name); err != nil {
				return err
			}
		}
	}
	return nil
}
