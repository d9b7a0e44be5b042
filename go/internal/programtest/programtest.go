// Package programtest has tests run a program of this repository, and read what it logs and writes.
package programtest

import (
	"bufio"
	"crypto/ecdsa"
	"crypto/elliptic"
	"crypto/rand"
	"crypto/x509"
	"crypto/x509/pkix"
	"encoding/json"
	"encoding/pem"
	"math/big"
	"net"
	"os"
	"os/exec"
	"path/filepath"
	"strings"
	"syscall"
	"testing"
	"time"

	"golang.org/x/sys/unix"

	"pippinterm/internal/diff"
)

// limit is how long a test waits for something that must happen.
const limit = time.Minute

// A Program is a program that runs. Its log is lines of JSON on standard error.
type Program struct {
	*exec.Cmd
	Lines chan string // of the log, which Event hasn't taken
	Seen  []string    // which Event has taken
	t     testing.TB
}

// Start starts a program, which is killed at the end of the test.
func Start(t testing.TB, command *exec.Cmd) *Program {
	t.Helper()
	p := &Program{Cmd: command, Lines: make(chan string, 100_000), t: t}
	stderr := diff.Value(command.StderrPipe())(t)
	diff.Must(t, command.Start())
	t.Cleanup(func() {
		_ = command.Process.Kill()
		_ = command.Wait()
	})
	go func() {
		defer close(p.Lines)
		for lines := bufio.NewScanner(stderr); lines.Scan(); {
			p.Lines <- lines.Text()
		}
	}()
	return p
}

// Event waits for a line of the log with this event.
func (p *Program) Event(name string) map[string]any {
	p.t.Helper()
	late := time.After(limit)
	for {
		select {
		case line, isOpen := <-p.Lines:
			if !isOpen {
				p.t.Fatalf("got an end without %s, want it", name)
			}
			p.Seen = append(p.Seen, line)
			var read map[string]any
			if err := json.Unmarshal([]byte(line), &read); err != nil {
				p.t.Fatalf("a line: got %q, want JSON", line)
			}
			if read["event"] == name {
				return read
			}
		case <-late:
			p.t.Fatalf("the log: got no %s in time, want one", name)
		}
	}
}

// Terminate sends SIGTERM.
func (p *Program) Terminate() {
	p.t.Helper()
	diff.Must(p.t, p.Process.Signal(syscall.SIGTERM))
}

// End waits for the end with status 0, and returns the lines of the log that Event hasn't taken.
func (p *Program) End() string {
	p.t.Helper()
	var rest strings.Builder
	for line := range p.Lines {
		rest.WriteString(line + "\n")
	}
	diff.NoError(p.t, p.Wait(), "after SIGTERM")
	return rest.String()
}

// LimitFiles sets how long the files of the program may become. With 0, every write to a file fails, as on a full disk.
func (p *Program) LimitFiles(bytes uint64) {
	p.t.Helper()
	limit := unix.Rlimit{Cur: bytes, Max: unix.RLIM_INFINITY}
	diff.Must(p.t, unix.Prlimit(p.Process.Pid, unix.RLIMIT_FSIZE, &limit, nil))
}

// Manager returns the name of a socket of a service manager, and what waits for the next report to it.
func Manager(t testing.TB) (name string, next func() string) {
	t.Helper()
	name = filepath.Join(t.TempDir(), "notify")
	manager := diff.Value(net.ListenUnixgram("unixgram", &net.UnixAddr{Name: name, Net: "unixgram"}))(t)
	t.Cleanup(func() { _ = manager.Close() })
	return name, func() string {
		t.Helper()
		buffer := make([]byte, 100)
		diff.Must(t, manager.SetReadDeadline(time.Now().Add(limit)))
		length := diff.Value(manager.Read(buffer))(t)
		return string(buffer[:length])
	}
}

// Journals returns the lines of all files of a folder with journals as spell has them: one text for each file, by name.
func Journals[T any](t testing.TB, folder string, spell func(line T) string) (all []string) {
	t.Helper()
	paths, err := filepath.Glob(filepath.Join(folder, "*"))
	diff.Must(t, err)
	for _, path := range paths {
		text, err := os.ReadFile(path)
		diff.Must(t, err)
		var events []string
		for _, line := range strings.Split(strings.TrimSuffix(string(text), "\n"), "\n") {
			var read T
			if err := json.Unmarshal([]byte(line), &read); err != nil {
				t.Fatalf("%s: the line %q: got %v, want no error", path, line, err)
			}
			events = append(events, spell(read))
		}
		all = append(all, strings.Join(events, ", "))
	}
	return all
}

// WriteCertificate writes a new certificate for 127.0.0.1, with a name, and its key. It returns what trusts only that
// certificate.
func WriteCertificate(t testing.TB, name, certificate, key string) *x509.CertPool {
	t.Helper()
	private := diff.Value(ecdsa.GenerateKey(elliptic.P256(), rand.Reader))(t)
	of := &x509.Certificate{
		SerialNumber: big.NewInt(time.Now().UnixNano()), Subject: pkix.Name{CommonName: name},
		NotAfter: time.Now().Add(time.Hour), IPAddresses: []net.IP{net.IPv4(127, 0, 0, 1)}, IsCA: true,
		BasicConstraintsValid: true,
	}
	made := diff.Value(x509.CreateCertificate(rand.Reader, of, of, &private.PublicKey, private))(t)
	encoded := diff.Value(x509.MarshalPKCS8PrivateKey(private))(t)
	text := pem.EncodeToMemory(&pem.Block{Type: "CERTIFICATE", Bytes: made})
	diff.Must(t, os.WriteFile(certificate, text, 0o600))
	diff.Must(t, os.WriteFile(key, pem.EncodeToMemory(&pem.Block{Type: "PRIVATE KEY", Bytes: encoded}), 0o600))
	trusted := x509.NewCertPool()
	trusted.AppendCertsFromPEM(text)
	return trusted
}
