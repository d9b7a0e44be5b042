package pg

import (
	"context"
	"net"
	"net/url"
	"os"
	"path/filepath"
	"syscall"
	"testing"
	"time"

	"pippinterm/internal/diff"
)

// Connections to this machine are without TLS unless the URL or the environment says else. For all others the driver's
// default counts, which is to need it.
func TestTLSByDefault(t *testing.T) {
	t.Setenv("PGHOST", "")
	for _, test := range []struct{ address, environment, want string }{
		{"postgresql://localhost/brokers", "", "disable"},
		{"postgresql://127.0.0.1/brokers", "", "disable"},
		{"postgresql://[::1]/brokers", "", "disable"},
		{"postgresql:///brokers?host=/run/postgresql", "", "disable"},
		{"postgresql://localhost/brokers?sslmode=verify-full", "", "verify-full"},
		{"postgresql://localhost/brokers", "verify-full", ""},
		{"postgresql://db/brokers", "", ""},
		{"postgresql://10.1.2.3/brokers", "", ""},
	} {
		t.Run(test.address+" "+test.environment, func(t *testing.T) {
			t.Setenv("PGSSLMODE", test.environment)
			full := diff.Value(withSettings(test.address, Options{}))(t)
			parsed := diff.Value(url.Parse(full))(t)
			diff.Equal(t, parsed.Query().Get("sslmode"), test.want, "%s, PGSSLMODE=%q", test.address, test.environment)
		})
	}
}

// silence is a connection to a server that says nothing.
func silence(t *testing.T, limit time.Duration) net.Conn {
	t.Helper()
	listener := diff.Value(net.Listen("tcp", "127.0.0.1:0"))(t)
	t.Cleanup(func() { _ = listener.Close() })
	conn := diff.Value(dialer{limit: limit}.DialContext(context.Background(), "tcp", listener.Addr().String()))(t)
	closing := time.AfterFunc(10*time.Second, func() { _ = conn.Close() })
	t.Cleanup(func() {
		closing.Stop()
		_ = conn.Close()
	})
	return conn
}

func TestAServerThatIsSilent(t *testing.T) {
	conn := silence(t, 20*time.Millisecond)
	diff.ErrorIs(t, diff.Err(conn.Read(make([]byte, 1))), os.ErrDeadlineExceeded, "Read")
}

// While somebody else has set a deadline, as for connecting, that one counts, and the limit again afterwards.
func TestADeadline(t *testing.T) {
	conn := silence(t, time.Hour)
	check(t, conn.SetDeadline(time.Now()))
	diff.ErrorIs(t, diff.Err(conn.Read(make([]byte, 1))), os.ErrDeadlineExceeded, "Read")
	short := silence(t, time.Millisecond)
	check(t, short.SetDeadline(time.Now().Add(time.Hour)))
	check(t, short.SetDeadline(time.Time{}))
	diff.ErrorIs(t, diff.Err(short.Read(make([]byte, 1))), os.ErrDeadlineExceeded, "Read without a deadline")
}

// What was sent and isn't confirmed fails a connection of TCP after userTimeout. One of a socket file has no such option.
func TestUserTimeout(t *testing.T) {
	for network, address := range map[string]string{
		"tcp": "127.0.0.1:0", "unix": filepath.Join(t.TempDir(), "socket"),
	} {
		t.Run(network, func(t *testing.T) {
			listener := diff.Value(net.Listen(network, address))(t)
			defer listener.Close()
			conn, err := newDialer(time.Minute).DialContext(context.Background(), network, listener.Addr().String())
			check(t, err)
			defer conn.Close()
			tcp, isTCP := conn.(*limitedConn).Conn.(*net.TCPConn)
			if !isTCP {
				return
			}
			raw, err := tcp.SyscallConn()
			check(t, err)
			const tcpUserTimeout = 18
			var got int
			check(t, raw.Control(func(descriptor uintptr) {
				got, err = syscall.GetsockoptInt(int(descriptor), syscall.IPPROTO_TCP, tcpUserTimeout)
			}))
			if want := int(userTimeout.Milliseconds()); err != nil || got != want {
				t.Errorf("got %d ms, %v, want %d ms", got, err, want)
			}
		})
	}
}

// There are at most as many connections as the options say.
func TestMostConnections(t *testing.T) {
	db, err := Open("postgresql://127.0.0.1/none", Options{Most: 3, Lock: time.Second, Statement: time.Second, Idle: time.Second})
	check(t, err)
	defer db.Close()
	diff.Equal(t, db.Stats().MaxOpenConnections, 3, "")
}

var check = diff.Must
