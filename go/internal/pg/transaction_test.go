package pg_test

import (
	"context"
	"crypto/x509"
	"database/sql"
	"database/sql/driver"
	"errors"
	"fmt"
	"io"
	"net"
	"os"
	"runtime"
	"strings"
	"testing"
	"time"

	"github.com/lib/pq"

	"pippinterm/internal/diff"
	"pippinterm/internal/pg"
	"pippinterm/internal/pg/pgtest"
	"pippinterm/internal/storefaults"
	"pippinterm/internal/waits"
)

// table is a URL with an empty table t, whose name is that of a schema.
func table(t *testing.T, schema string) string {
	t.Helper()
	url := pgtest.Schema(t, pgtest.URL(t), schema)
	pgtest.Exec(t, pgtest.DB(t, url), "CREATE TABLE t (x integer)")
	return url
}

// insert is work that writes a row.
func insert(ctx context.Context) func(*sql.Tx) (bool, error) {
	return func(tx *sql.Tx) (bool, error) {
		_, err := tx.ExecContext(ctx, "INSERT INTO t VALUES ($1)", 1)
		return true, err
	}
}

func transaction(t *testing.T, ctx context.Context, url string, do func(*sql.Tx) (bool, error)) error {
	t.Helper()
	conn := diff.Value(pgtest.DB(t, url).Conn(context.Background()))(t)
	defer conn.Close()
	return pg.Transaction(ctx, conn, do)
}

func count(t *testing.T, url string) int { return countIn(t, pgtest.DB(t, url)) }

func countIn(t *testing.T, db *sql.DB) (count int) {
	t.Helper()
	check(t, db.QueryRow("SELECT count(*) FROM t").Scan(&count))
	return count
}

func TestTransactions(t *testing.T) {
	url := table(t, "osb_session_transactions")
	wrong := errors.New("wrong")
	for _, end := range []ending{
		{name: "that commits", does: func(*sql.Tx) (bool, error) { return true, nil }, isWritten: true},
		{name: "that doesn't commit", does: func(*sql.Tx) (bool, error) { return false, nil }},
		{name: "whose work fails", does: func(*sql.Tx) (bool, error) { return true, wrong }, is: wrong},
		{name: "whose work panics", does: func(*sql.Tx) (bool, error) { panic("a bug") }, has: "a bug"},
		{name: "that is cancelled", isCancelled: true, is: context.Canceled,
			does: func(*sql.Tx) (bool, error) { return true, nil }},
		{name: "that the server has aborted", has: "transaction", does: func(tx *sql.Tx) (bool, error) {
			_, _ = tx.Exec("SELECT 1 / 0") // and nobody looks at the error
			return true, nil
		}},
		{name: "that work has committed itself", has: "transaction", isWritten: true,
			does: func(tx *sql.Tx) (bool, error) { return true, tx.Commit() }},
	} {
		t.Run(end.name, func(t *testing.T) { end.run(t, url) })
	}
}

// An ending is what a transaction does after it has written a row, and its result.
type ending struct {
	name        string
	does        func(*sql.Tx) (bool, error)
	isCancelled bool
	isWritten   bool
	is          error
	has         string
}

func (e ending) run(t *testing.T, url string) {
	before := count(t, url)
	ctx, cancel := context.WithCancel(context.Background())
	defer cancel()
	err := transaction(t, ctx, url, func(tx *sql.Tx) (bool, error) {
		if _, err := insert(ctx)(tx); err != nil {
			return false, err
		}
		if e.isCancelled {
			cancel()
		}
		return e.does(tx)
	})
	isRight := e.is == nil && e.has == "" && err == nil || e.is != nil && errors.Is(err, e.is) ||
		e.has != "" && err != nil && strings.Contains(err.Error(), e.has)
	diff.Equal(t, isRight, true, "%v", err)
	isWritten := count(t, url) > before
	diff.Equal(t, isWritten, e.isWritten, "written")
}

// What the server says to the COMMIT counts: that it has rolled back, or a warning, as that a standby hasn't confirmed.
func TestCommits(t *testing.T) {
	for _, test := range []struct {
		name, schema, does string
		isUnknown          bool
		isWritten          int
	}{
		{"a COMMIT that fails", "osb_session_fails", "RAISE EXCEPTION 'no'", false, 0},
		{"a COMMIT with a warning", "osb_session_warns", "RAISE WARNING 'no standby'", true, 1},
	} {
		t.Run(test.name, func(t *testing.T) {
			url := pgtest.With(t, table(t, test.schema), "client_min_messages", "error") // it hides no warning
			pgtest.Exec(t, pgtest.DB(t, url),
				"CREATE FUNCTION f() RETURNS trigger LANGUAGE plpgsql AS $$ BEGIN "+test.does+"; RETURN NULL; END $$",
				"CREATE CONSTRAINT TRIGGER late AFTER INSERT ON t DEFERRABLE INITIALLY DEFERRED "+
					"FOR EACH ROW EXECUTE FUNCTION f()")
			err := transaction(t, context.Background(), url, insert(context.Background()))
			diff.Error(t, err, "%v", pg.ErrUnknownCommit)
			diff.Equal(t, errors.Is(err, pg.ErrUnknownCommit), test.isUnknown, "%v", pg.ErrUnknownCommit)
			diff.Equal(t, count(t, url), test.isWritten, "rows")
		})
	}
}

// A notice isn't a warning.
func TestACommitWithANotice(t *testing.T) {
	url := table(t, "osb_session_notice")
	pgtest.Exec(t, pgtest.DB(t, url),
		"CREATE FUNCTION f() RETURNS trigger LANGUAGE plpgsql AS $$ BEGIN RAISE NOTICE 'x'; RETURN NULL; END $$",
		"CREATE CONSTRAINT TRIGGER late AFTER INSERT ON t DEFERRABLE INITIALLY DEFERRED "+
			"FOR EACH ROW EXECUTE FUNCTION f()")
	diff.NoError(t, transaction(t, context.Background(), url, insert(context.Background())), "")
}

func TestACommitWhoseAnswerIsLost(t *testing.T) {
	direct := table(t, "osb_session_lost")
	proxy, url := storefaults.NewProxy(t, direct)
	proxy.Cut("COMMIT\x00")
	diff.ErrorIs(t, transaction(t, context.Background(), url, insert(context.Background())), pg.ErrUnknownCommit, "")
	db := pgtest.DB(t, direct)
	waits.Until(t, "the server has got the COMMIT", func() bool { return countIn(t, db) == 1 })
}

func TestATransactionThatCannotBegin(t *testing.T) {
	direct := table(t, "osb_session_unbegun")
	proxy, url := storefaults.NewProxy(t, direct)
	proxy.Cut("BEGIN")
	called := false
	err := transaction(t, context.Background(), url, func(*sql.Tx) (bool, error) {
		called = true
		return true, nil
	})
	if !errors.Is(err, pg.ErrNotBegun) || called {
		t.Errorf("got %v and a call of the work %t, want %v and none", err, called, pg.ErrNotBegun)
	}
}

// A server that is silent is waited for as long as one that only has to answer, and not as long as a statement.
func TestATransactionAtASilentServer(t *testing.T) {
	t.Parallel()
	proxy, url := storefaults.NewProxy(t, table(t, "osb_session_silent"))
	conn := diff.Value(pgtest.DB(t, url).Conn(context.Background()))(t)
	proxy.Hang(true)
	ended := make(chan error, 1)
	go func() {
		ended <- pg.Transaction(context.Background(), conn, insert(context.Background()))
		conn.Close()
	}()
	select {
	case err := <-ended:
		diff.ErrorIs(t, err, pg.ErrNotBegun, "")
	case <-time.After(6 * pg.Answer):
		t.Errorf("got no answer within %v, want one after %v", 6*pg.Answer, pg.Answer)
	}
}

// A step that ends its goroutine, as t.FailNow does, leaves no transaction behind.
func TestWorkThatEndsItsGoroutine(t *testing.T) {
	url := table(t, "osb_session_goexit")
	db := pgtest.DB(t, url)
	db.SetMaxOpenConns(1)
	ended := make(chan struct{})
	go func() {
		defer close(ended)
		conn, err := db.Conn(context.Background())
		if err != nil {
			t.Errorf("got the error %v, want a connection", err)
			return
		}
		defer conn.Close()
		_ = pg.Transaction(context.Background(), conn, func(tx *sql.Tx) (bool, error) {
			_, _ = insert(context.Background())(tx)
			runtime.Goexit()
			return true, nil
		})
	}()
	waits.For(t, ended, "the connection of the transaction")
	var open int
	err := db.QueryRow("SELECT count(*) FROM pg_locks JOIN pg_class ON pg_class.oid = relation " +
		"WHERE relname = 't' AND relnamespace = current_schema()::regnamespace").Scan(&open)
	if err != nil || open != 0 || countIn(t, db) != 0 {
		t.Errorf("got %d locks left, %v, want none and no row", open, err)
	}
}

// A reader reads a value while its context ends, and the rows are closed.
type reader struct {
	cancel context.CancelFunc
	db     *sql.DB
	was    string
	is     string
}

// Scan keeps the value, before and after the rows are closed.
func (r *reader) Scan(value any) error {
	bytes, ok := value.([]byte)
	if !ok {
		return fmt.Errorf("it is a %T", value)
	}
	r.was = string(bytes)
	r.cancel()
	for until := time.Now().Add(time.Minute); r.db.Stats().InUse > 0; time.Sleep(time.Millisecond) {
		if time.Now().After(until) {
			return fmt.Errorf("the rows weren't closed")
		}
	}
	r.is = string(bytes)
	return nil
}

func TestValuesStay(t *testing.T) {
	const texts = "(SELECT repeat(chr(97 + n), 100) AS text FROM generate_series(0, 25) AS n) AS t"
	for _, query := range []string{
		"SELECT row_to_json(t) FROM " + texts,
		"SELECT convert_to(text, 'UTF8') FROM " + texts,
	} {
		db := pgtest.DB(t, pgtest.URL(t))
		prepared := diff.Value(db.Prepare(query))(t)
		for name, run := range map[string]func(context.Context) (*sql.Rows, error){
			"":           func(ctx context.Context) (*sql.Rows, error) { return db.QueryContext(ctx, query) },
			", prepared": func(ctx context.Context) (*sql.Rows, error) { return prepared.QueryContext(ctx) },
		} {
			t.Run(query+name, func(t *testing.T) {
				ctx, cancel := context.WithCancel(context.Background())
				rows, err := run(ctx)
				if err != nil || !rows.Next() {
					t.Fatalf("%s%s: got the error %v, want a row", query, name, err)
				}
				it := &reader{cancel: cancel, db: db}
				if err := rows.Scan(it); err != nil || it.was == "" || it.is != it.was {
					t.Errorf("%s%s: got %v and %q from %q, want it unchanged", query, name, err, it.was, it.is)
				}
				_ = rows.Close() // the context has ended
			})
		}
		_ = prepared.Close() // the database is the test's own
	}
}

func TestRemedy(t *testing.T) {
	_, noFile := os.Open("/nowhere/root.crt")
	for name, test := range map[string]struct {
		err                  error
		isLasting, hasRemedy bool
	}{
		"a wrong password":             {&pq.Error{Code: "28P01"}, true, true},
		"no line in pg_hba.conf":       {&pq.Error{Code: "28000"}, true, true},
		"an unknown database":          {&pq.Error{Code: "3D000"}, true, true},
		"an unknown schema":            {&pq.Error{Code: "3F000"}, true, true},
		"a right that is missing":      {&pq.Error{Code: "42501"}, true, true},
		"an unknown parameter":         {&pq.Error{Code: "42704"}, true, true},
		"a bad value of a parameter":   {&pq.Error{Code: "22023"}, true, true},
		"no TLS":                       {pq.ErrSSLNotSupported, true, true},
		"a key that all can read":      {pq.ErrSSLKeyHasWorldPermissions, true, true},
		"an unknown authority":         {x509.UnknownAuthorityError{}, true, true},
		"a certificate of another":     {x509.HostnameError{}, true, true},
		"a certificate that is over":   {x509.CertificateInvalidError{Reason: x509.Expired}, true, true},
		"a file that is missing":       {noFile, true, true},
		"no URL":                       {pg.ErrBadAddress, true, false},
		"commits that may be lost":     {pg.ErrNotDurable, true, false},
		"another that lasts":           {pg.AsLasting(errors.New("a bad encoding")), true, false},
		"starting":                     {&pq.Error{Code: "57P03"}, false, false},
		"stopped by its administrator": {&pq.Error{Code: "57P01"}, false, false},
		"too many connections":         {&pq.Error{Code: "53300"}, false, false},
		"a standby":                    {&pq.Error{Code: "25006"}, false, false},
		"a full disk":                  {&pq.Error{Code: "53100"}, false, false},
		"connection refused":           {&net.OpError{Op: "dial", Err: os.ErrPermission}, false, false},
		"a lost connection":            {driver.ErrBadConn, false, false},
		"an answer that ends":          {io.ErrUnexpectedEOF, false, false},
		"any other":                    {errors.New("no memory"), false, false},
		"none":                         {nil, false, false},
	} {
		t.Run(name, func(t *testing.T) {
			err := test.err
			if err != nil {
				err = fmt.Errorf("the store: %w", err)
			}
			remedy, isLasting := pg.Remedy(err)
			diff.Equal(t, isLasting, test.isLasting, "")
			diff.Equal(t, remedy != "", test.hasRemedy, "%q", remedy)
		})
	}
	diff.NoError(t, pg.AsLasting(nil), "")
}

func TestIsAway(t *testing.T) {
	for name, test := range map[string]struct {
		err    error
		isAway bool
	}{
		"starting":                       {&pq.Error{Code: "57P03"}, true},
		"stopped by its administrator":   {&pq.Error{Code: "57P01"}, true},
		"a statement that took too long": {&pq.Error{Code: "57014"}, true},
		"a lock that nobody gives back":  {&pq.Error{Code: "55P03"}, true},
		"too many connections":           {&pq.Error{Code: "53300"}, true},
		"a full disk":                    {&pq.Error{Code: "53100"}, true},
		"a standby":                      {&pq.Error{Code: "25006"}, true},
		"a failed connection":            {&pq.Error{Code: "08006"}, true},
		"connection refused":             {&net.OpError{Op: "dial", Err: os.ErrPermission}, true},
		"a lost connection":              {driver.ErrBadConn, true},
		"an answer that ends":            {io.ErrUnexpectedEOF, true},
		"a transaction not begun":        {pg.ErrNotBegun, true},
		"a commit of which nobody knows": {pg.ErrUnknownCommit, true},
		"a wrong password":               {&pq.Error{Code: "28P01"}, false},
		"a right that is missing":        {&pq.Error{Code: "42501"}, false},
		"a conflict":                     {&pq.Error{Code: "40001"}, false},
		"a bad statement":                {&pq.Error{Code: "42601"}, false},
		"any other":                      {errors.New("no memory"), false},
		"none":                           {nil, false},
	} {
		t.Run(name, func(t *testing.T) {
			err := test.err
			if err != nil {
				err = fmt.Errorf("the store: %w", err)
			}
			diff.Equal(t, pg.IsAway(err), test.isAway, "away")
		})
	}
}
