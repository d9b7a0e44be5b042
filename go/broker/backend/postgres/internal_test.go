package postgres

import (
	"context"
	"fmt"
	"net"
	"strings"
	"testing"

	"github.com/lib/pq"

	"pippinterm/broker"
	"pippinterm/internal/diff"
	"pippinterm/osb"
)

// Parameters returns what every user may set, in the session of a key and in one that it opens in a database. For that
// one, search_path has to be what the broker has set.
func (d *Databases) Parameters(
	ctx context.Context, request broker.Request, database string,
) (own, entered map[string]string, err error) {
	conn, err := sessionOf(ctx, request.Key)
	if err != nil {
		return nil, nil, err
	}
	if own, err = ownParameters(ctx, conn); err != nil {
		return nil, nil, err
	}
	db, err := d.enter(ctx, conn, database)
	if err != nil {
		return nil, nil, err
	}
	defer db.Close()
	if entered, err = ownParameters(ctx, db); err != nil {
		return nil, nil, err
	}
	var path string
	if err := db.QueryRowContext(ctx, "SHOW search_path").Scan(&path); err != nil {
		return nil, nil, err
	}
	entered["search_path"] = path
	return own, entered, nil
}

// ForgetLongSettings is forgetLongSettings for the database of a request.
func (d *Databases) ForgetLongSettings(ctx context.Context, request broker.Request) (bool, error) {
	conn, err := sessionOf(ctx, request.Key)
	if err != nil {
		return false, err
	}
	return forgetLongSettings(ctx, conn, NameOf(request.Key))
}

var (
	one   = osb.MustParseID("0f1e2d3c-4b5a-6978-8796-a5b4c3d2e1f0")
	other = osb.MustParseID("ffffffff-ffff-ffff-ffff-ffffffffffff")
)

// The statements of Rekey have a limit, so that it doesn't wait for ever for a server that is silent.
func TestLongestStatementOfRekey(t *testing.T) {
	listener, err := net.Listen("tcp", "127.0.0.1:0")
	diff.Must(t, err)
	defer listener.Close()
	begun := make(chan string, 10)
	go func() {
		for {
			conn, err := listener.Accept()
			if err != nil {
				return
			}
			start := make([]byte, 4096) // the settings of the session
			n, _ := conn.Read(start)
			begun <- string(start[:n])
			_ = conn.Close()
		}
	}()
	key := []byte(strings.Repeat("k", 32))
	address := "postgresql://osb@" + listener.Addr().String() + "/osb?sslmode=disable"
	diff.Error(t, diff.Err(Rekey(context.Background(), address, key, key)), "")
	diff.Contains(t, <-begun, "statement_timeout\x00600000\x00", "the session")
}

// What version 0.2 gives for these arguments, so that what it has sold goes on working.
func TestAsIn02(t *testing.T) {
	key, secret := osb.InstanceKey(one), []byte(strings.Repeat("k", 32))
	diff.Equal(t, NameOf(key), "osb_0f1e2d3c4b5a69788796a5b4c3d2e1f0", "the name")
	diff.Equal(t, PasswordOf(secret, key), "Hebpcld5oYAzxf3pzzSTNFnHj02h8NQ3Hhx0CO3RHD0", "the password")
	diff.Equal(t, numberOf(key), -5314429486776885733, "the number of the lock")
}

// Names are unique, fit into 63 bytes, need no quoting, and name their key.
func TestNames(t *testing.T) {
	keys := []broker.Key{
		osb.InstanceKey(one), osb.InstanceKey(other), osb.InstanceKey(osb.ID{}),
		osb.BindingKey(one, other), osb.BindingKey(other, one), osb.BindingKey(one, one),
		osb.BindingKey(one, osb.ID{}),
	}
	names, passwords, numbers := map[string]bool{}, map[string]bool{}, map[int64]bool{}
	for _, key := range keys {
		name := NameOf(key)
		if names[name] || len(name) > 63 || strings.Trim(name, "0123456789abcdefghijklmnopqrstuvwxyz_") != "" {
			t.Errorf("%v: got the name %s, want one of its own that needs no quotes", key, name)
		}
		if got, isOne := KeyOf(name); !isOne || got != key {
			t.Errorf("%s: got the key %v, want %v", name, got, key)
		}
		password := PasswordOf([]byte("key"), key)
		if passwords[password] || numbers[numberOf(key)] {
			t.Errorf("%v: got the password or the number of another key, want its own", key)
		}
		names[name], passwords[password], numbers[numberOf(key)] = true, true, true
	}
	for _, name := range []string{
		"", "osb", "osb_", "osb_0f1e", "osb_0F1E2D3C4B5A69788796A5B4C3D2E1F0", "xsb_0f1e2d3c4b5a69788796a5b4c3d2e1f0",
		"osb_0f1e2d3c4b5a69788796a5b4c3d2e1f000", "osb_0f1e2d3c4b5a69788796a5b4c3d2e1f0_",
		"osb_0f1e2d3c4b5a69788796a5b4c3d2e1f0_00",
		NameOf(keys[3]) + "_", NameOf(keys[0]) + "_vvvvvvvvvvvvvvvvvvvvvvvvvv",
	} {
		t.Run(fmt.Sprintf("%q", name), func(t *testing.T) {
			if key, isOne := KeyOf(name); isOne {
				t.Errorf("%s: got the key %v, want none", name, key)
			}
		})
	}
}

// The example of RFC 7677, section 3: its client's proof and its server's signature are made from these keys.
func TestVerifier(t *testing.T) {
	salt := []byte("\x5b\x6d\x99\x68\x9d\x12\x35\x8e\xec\xa0\x4b\x14\x12\x36\xfa\x81")
	const want = "SCRAM-SHA-256$4096:W22ZaJ0SNY7soEsUEjb6gQ==$WG5d8oPm3OtcPnkdi4Uo7BkeZkBFzpcXkuLmtbsT4qY=:" +
		"wfPLwcE6nTWhTAmQ7tl2KeoiWGPlZqQxSrmfPwDl2dU="
	diff.Equal(t, verifier("pencil", salt, 4096), want, "")
	first, err := verifierOf("pencil")
	second, failed := verifierOf("pencil")
	if err != nil || failed != nil || first == second {
		t.Errorf("got %s and %s, %v, %v, want two", first, second, err, failed)
	}
}

// What is in the way is tried again, but not for ever, and other errors are returned at once.
func TestPersist(t *testing.T) {
	inUse, other := &pq.Error{Code: "55P03"}, &pq.Error{Code: "42501"}
	for _, test := range []struct {
		name  string
		given []error
		want  error
		calls int
	}{
		{"nobody", []error{nil}, nil, 1},
		{"somebody, for a while", []error{inUse, inUse, nil}, nil, 3},
		{"another error", []error{inUse, other}, other, 2},
		{"somebody, for ever", []error{inUse, inUse, inUse, inUse, inUse, inUse}, inUse, 5},
	} {
		t.Run(test.name, func(t *testing.T) {
			calls := 0
			err := persist(func() error {
				calls++
				return test.given[calls-1]
			})
			diff.ErrorIs(t, err, test.want, "%s is in the way", test.name)
			diff.Equal(t, calls, test.calls, "%s is in the way", test.name)
		})
	}
}

func TestOptions(t *testing.T) {
	key := []byte(strings.Repeat("k", ShortestKey))
	for _, test := range []struct {
		name, url string
		options   Options
		isRight   bool
	}{
		{"the least", "postgresql://db:6000/x", Options{Key: key, Sessions: 1}, true},
		{"no key", "postgresql://db/x", Options{Sessions: 1}, false},
		{"no session", "postgresql://db/x", Options{Key: key}, false},
		{"less than no connection", "postgresql://db/x", Options{Key: key, Sessions: 1, ConnectionsPerInstance: -1}, false},
		{"no URL", "db", Options{Key: key, Sessions: 1}, false},
		{"a socket", "postgresql:///x?host=/run/postgresql", Options{Key: key, Sessions: 1}, false},
		{"a socket, and a host", "postgresql:///x?host=/run/postgresql", Options{Key: key, Sessions: 1, Host: "db"}, true},
	} {
		t.Run(test.name, func(t *testing.T) {
			if _, err := test.options.withDefaults(test.url); (err == nil) != test.isRight {
				t.Errorf("got the error %v, want one if the options are wrong", err)
			}
		})
	}
	got, err := Options{Key: key, Sessions: 1}.withDefaults("postgresql://db:6000/x")
	if err != nil || got.ConnectionsPerInstance != 20 || got.Host != "db" || got.Port != 6000 {
		t.Errorf("the defaults: got %+v, %v, want those of the documents", got, err)
	}
}

// What is warned of.
func TestWarningsOf(t *testing.T) {
	good := server{version: 160000, locks: fewestLocks, limitsTempFiles: true, hasFsync: true}
	for _, test := range []struct {
		has    string
		change func(*server)
	}{
		{"max_prepared_transactions is 10", func(s *server) { s.prepared = 10 }},
		{"max_locks_per_transaction is 64: ", func(s *server) { s.locks = 64 }},
		{"Every role may connect", func(s *server) { s.isOpen = true }},
		{"customers can take advisory locks there", func(s *server) { s.open = "postgres" }},
		{"is a superuser", func(s *server) { s.isSuperuser = true }},
		{"operating system account", func(s *server) { s.version = 150018 }},
		{"temporary files", func(s *server) { s.limitsTempFiles = false }},
		{"fsync is off", func(s *server) { s.hasFsync = false }},
	} {
		t.Run(test.has, func(t *testing.T) {
			now := good
			test.change(&now)
			if found := now.warnings(Options{TempFileLimit: 1}); len(found) != 1 || !strings.Contains(found[0], test.has) {
				t.Errorf("want one warning with %s, got %q", test.has, found)
			}
		})
	}
	diff.Empty(t, good.warnings(Options{TempFileLimit: 1}), "a good server")
	good.limitsTempFiles = false
	diff.Empty(t, good.warnings(Options{TempFileLimit: -1}), "without a limit")
}
