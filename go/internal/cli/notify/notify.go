// Package notify reports to the service manager that started the program, such as systemd, that the program is ready,
// and that it stops (sd_notify(3)).
package notify

import (
	"fmt"
	"os"
	"time"

	"github.com/coreos/go-systemd/daemon"
)

// variable is the environment variable with the service manager's socket.
const variable = "NOTIFY_SOCKET"

// longest is how long a service manager may take to take a report.
const longest = time.Second

// Ready reports that the program is ready. With Type=notify, systemd waits for this report before it starts the units
// that follow the program's.
//
// It sends one datagram to the socket that NOTIFY_SOCKET names: a path, or an abstract name that begins with @. Without
// this variable it does nothing and returns nil.
//
// Errors: the variable names no socket of this kind, nothing listens there, or the report isn't taken within a second.
func Ready() error { return report(daemon.SdNotifyReady) }

// Stopping reports that the program has begun to stop. It sends as Ready does, and has the same errors.
func Stopping() error { return report(daemon.SdNotifyStopping) }

func report(state string) error {
	if err := send(state); err != nil {
		return fmt.Errorf("the service manager doesn't get %s: %w", state, err)
	}
	return nil
}

func send(state string) error {
	if name := os.Getenv(variable); name != "" && name[0] != '/' && name[0] != '@' {
		return fmt.Errorf("%s is %q: want a path, or a name that begins with @", variable, name)
	}
	sent := make(chan error, 1)
	go func() { // SdNotify itself waits without a limit
		_, err := daemon.SdNotify(false, state)
		sent <- err
	}()
	select {
	case err := <-sent:
		return err
	case <-time.After(longest):
		return os.ErrDeadlineExceeded
	}
}
