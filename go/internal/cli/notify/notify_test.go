package notify

import (
	"errors"
	"fmt"
	"net"
	"os"
	"path/filepath"
	"strings"
	"testing"
	"time"

	"pippinterm/internal/diff"
)

// manager listens as a service manager does, and sets the variable that names its socket.
func manager(t *testing.T, name string) *net.UnixConn {
	t.Helper()
	socket := diff.Value(net.ListenUnixgram("unixgram", &net.UnixAddr{Name: name, Net: "unixgram"}))(t)
	t.Cleanup(func() { socket.Close() })
	t.Setenv(variable, name)
	return socket
}

// nextReport returns the next report that the service manager gets.
func nextReport(t *testing.T, socket *net.UnixConn) string {
	t.Helper()
	check(t, socket.SetReadDeadline(time.Now().Add(10*time.Second)))
	buffer := make([]byte, 100)
	length := diff.Value(socket.Read(buffer))(t)
	return string(buffer[:length])
}

func TestReports(t *testing.T) {
	for kind, name := range map[string]string{
		"a path":           filepath.Join(t.TempDir(), "notify"),
		"an abstract name": fmt.Sprintf("@osb-test-%d", os.Getpid()),
	} {
		t.Run(kind, func(t *testing.T) {
			socket := manager(t, name)
			for want, call := range map[string]func() error{"READY=1": Ready, "STOPPING=1": Stopping} {
				check(t, call())
				diff.Equal(t, nextReport(t, socket), want, "")
			}
		})
	}
}

func TestWithoutAServiceManager(t *testing.T) {
	t.Setenv(variable, "")
	diff.NoError(t, Ready(), "")
}

func TestErrors(t *testing.T) {
	nobody := filepath.Join(t.TempDir(), "nobody")
	for name, says := range map[string]string{
		nobody: nobody, "@osb-test-nobody": "connection refused", "vsock:2:1234": `"vsock:2:1234"`, "relative": "want a path",
		"/" + strings.Repeat("a", 200): "invalid",
	} {
		t.Run(name, func(t *testing.T) {
			t.Setenv(variable, name)
			if err := Ready(); err == nil || !strings.Contains(err.Error(), says) || !strings.Contains(err.Error(), "READY=1") {
				t.Errorf("got %v, want an error with %q", err, says)
			}
		})
	}
}

// A service manager that takes no report doesn't stop the program.
func TestAReportIsNotWaitedForForever(t *testing.T) {
	manager(t, filepath.Join(t.TempDir(), "notify"))
	for at := 0; at < 100000; at++ {
		err := Ready()
		if errors.Is(err, os.ErrDeadlineExceeded) {
			return
		}
		check(t, err)
	}
	t.Fatal("got all reports taken, though nobody reads them, want a deadline")
}

var check = diff.Must
