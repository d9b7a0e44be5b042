package servers

import (
	"context"
	"errors"
	"fmt"
	"net"
	"os"
	"os/exec"
	"path/filepath"
	"strings"
	"syscall"
	"time"

	"pippinterm/internal/child"
	"pippinterm/storm/fault"
)

// config is HAProxy's. It tries another broker only if it couldn't connect: what was sent may have been done.
const config = `global
    maxconn 2000
defaults
    mode http
    retries 2
    retry-on conn-failure
    option redispatch 1
    timeout connect 1s
    timeout client 60s
    timeout server 60s
frontend entrance
    bind %s
    default_backend brokers
backend brokers
    balance roundrobin
    option httpchk GET /healthz
    default-server check inter 200ms rise 1 fall 1
`

// An HAProxy stands in front of brokers, as a provider has it: one address, and whichever broker lives answers.
type HAProxy struct {
	process *exec.Cmd
	ended   <-chan error
}

// StartHAProxy starts HAProxy, which listens at an address and forwards to the brokers at these addresses, all of them
// host:port. Its configuration and its log are in the folder. It returns once HAProxy listens. Close ends HAProxy.
//
// Errors: HAProxy isn't installed, or has ended.
func StartHAProxy(ctx context.Context, folder, address string, brokers []string) (*HAProxy, error) {
	program, err := findHAProxy()
	if err != nil {
		return nil, err
	}
	text := fmt.Sprintf(config, address)
	for number, broker := range brokers {
		text += fmt.Sprintf("    server broker-%d %s\n", number, broker)
	}
	file, logFile := filepath.Join(folder, "haproxy.cfg"), filepath.Join(folder, "haproxy.log")
	if err := os.WriteFile(file, []byte(text), 0o600); err != nil {
		return nil, err
	}
	log, err := os.Create(logFile)
	if err != nil {
		return nil, err
	}
	defer log.Close()
	h := &HAProxy{process: exec.Command(program, "-db", "-f", file)}
	h.process.Stdout, h.process.Stderr = log, log
	if h.ended, err = child.Start(h.process, syscall.SIGKILL); err != nil {
		return nil, err
	}
	if err := h.await(ctx, address, logFile); err != nil {
		h.Close()
		return nil, err
	}
	return h, nil
}

// findHAProxy returns the path of the program, which Debian installs where only root looks for it.
func findHAProxy() (string, error) {
	if found, err := exec.LookPath("haproxy"); err == nil {
		return found, nil
	}
	for _, path := range []string{"/usr/sbin/haproxy", "/usr/local/sbin/haproxy"} {
		if found, err := exec.LookPath(path); err == nil {
			return found, nil
		}
	}
	return "", errors.New("haproxy isn't installed. On Debian, install the package haproxy")
}

func (h *HAProxy) await(ctx context.Context, address, log string) error {
	for {
		connection, err := net.DialTimeout("tcp", address, time.Second)
		if err == nil {
			return connection.Close()
		}
		select {
		case err := <-h.ended:
			text, _ := os.ReadFile(log)
			return fmt.Errorf("haproxy has ended: %v: %s", err, strings.TrimSpace(string(text)))
		default:
		}
		if !fault.Sleep(ctx, 20*time.Millisecond) {
			return ctx.Err()
		}
	}
}

// Close ends HAProxy.
func (h *HAProxy) Close() {
	_ = h.process.Process.Signal(syscall.SIGTERM)
	<-h.ended
}
