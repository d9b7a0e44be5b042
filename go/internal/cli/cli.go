// Package cli has what the command lines of this project's programs share: exit statuses, values of flags, and the
// version. Its subpackages are notify (of the service manager) and pages (of the manual).
package cli

import (
	"context"
	"errors"
	"fmt"
	"io/fs"
	"os"
	"os/signal"
	"runtime/debug"
	"strconv"
	"strings"
	"syscall"
	"time"
	"unicode"

	"github.com/spf13/cobra"

	"pippinterm/osb"
)

// The exit statuses of Run (this project's choice; 70, 75 and 78 are those of sysexits.h).
const (
	StatusDone        = 0  // the command succeeded, or printed its help
	StatusUsage       = 2  // the command line can't be parsed; Go's runtime ends a program that crashes with 2, too
	StatusFailed      = 70 // any other failure
	StatusUnavailable = 75 // a service that the program needs is away: the same command may succeed later
	StatusUnusable    = 78 // the operator has to change something first: the same command fails again
)

// Unusable returns an error with the text of err, for which Run returns StatusUnusable. Use it for an error that lasts
// until the operator changes something, such as the value of an option, a missing file, or an address that is in use.
// It returns nil if err is nil.
func Unusable(err error) error { return statusOf(err, StatusUnusable) }

// Unavailable returns an error with the text of err, for which Run returns StatusUnavailable. Use it for an error that
// may be over soon, such as a database that can't be reached: a supervisor then starts the program again. It returns
// nil if err is nil.
func Unavailable(err error) error { return statusOf(err, StatusUnavailable) }

// Run runs the command that the arguments of the process name, and returns the exit status of the program. Run prints
// an error as one line on the standard error of root: the name of root, a colon, and the error.
//
//   - If the error is marked by Unusable or Unavailable, the outermost mark gives the status.
//   - Any other error of a RunE gives StatusFailed.
//   - An error of cobra, which is about the arguments, gives StatusUsage. If systemd has started the process, it gives
//     StatusUnusable: the arguments are those of a unit.
//   - A panic in the goroutine of Run is printed with its stack, and gives StatusFailed. (A panic in another goroutine
//     ends a Go program with status 2, and Run can't change that. So a supervisor has to start a program again after
//     status 2, and may leave it stopped after StatusUnusable.)
//
// Run is stricter than cobra: a command whose Args are nil takes no arguments, and a command that has only subcommands
// is an error. For this Run changes root and its subcommands, so use them for one Run.
//
// The process leaves no core dump, and no other process of its account can read its memory or its environment
// (PR_SET_DUMPABLE): they have passwords and keys.
//
// Until Run returns, a write to a standard output or standard error whose reader has gone returns an error. It doesn't
// end the process. If the reader of the standard error is slow, Run waits for it for a second.
func Run(ctx context.Context, root *cobra.Command) (status int) {
	pipes := make(chan os.Signal, 1)
	signal.Notify(pipes, syscall.SIGPIPE)
	defer signal.Stop(pipes)
	defer func() {
		if reason := recover(); reason != nil {
			report(root, fmt.Sprintf("panic: %v\n%s", reason, debug.Stack()))
			status = StatusFailed
		}
	}()
	if err := hideMemory(); err != nil {
		report(root, err.Error())
		return StatusFailed
	}
	prepare(root)
	root.SilenceErrors, root.SilenceUsage, root.DisableSuggestions = true, true, true
	called, err := root.ExecuteContextC(ctx)
	if err == nil {
		return StatusDone
	}
	status = usageStatus()
	hint := fmt.Sprintf(" (see %s --help)", called.CommandPath())
	var known *statusError
	if errors.As(err, &known) {
		status, hint = known.status, ""
	}
	report(root, OneLine(err.Error())+hint)
	return status
}

// A Verdict is what a command has found. Its status is that of the program if the command itself has succeeded.
type Verdict struct{ Status int }

// Main runs a command as Run does, and ends the process with the status.
func Main(root *cobra.Command, verdict *Verdict) {
	status := Run(context.Background(), root)
	if status == StatusDone {
		status = verdict.Status
	}
	os.Exit(status)
}

// WrapUsage has the options of a command, and of its subcommands, shown in lines that fit a wide terminal.
func WrapUsage(command *cobra.Command) {
	command.SetUsageTemplate(strings.ReplaceAll(command.UsageTemplate(), ".FlagUsages", ".FlagUsagesWrapped 110"))
}

// usageStatus returns the status for a command line that can't be parsed. systemd reports the process that it starts as
// the main process of a unit in SYSTEMD_EXEC_PID.
func usageStatus() int {
	if os.Getenv("SYSTEMD_EXEC_PID") == strconv.Itoa(os.Getpid()) {
		return StatusUnusable
	}
	return StatusUsage
}

// report prints a text on standard error. If that takes too long, a goroutine is left to do it until the process ends.
func report(root *cobra.Command, text string) {
	done := make(chan struct{})
	go func() {
		defer close(done)
		fmt.Fprintf(root.ErrOrStderr(), "%s: %s\n", root.Name(), text)
	}()
	timer := time.NewTimer(time.Second)
	defer timer.Stop()
	select {
	case <-done:
	case <-timer.C:
	}
}

// A statusError is an error that ends the program with a status.
type statusError struct {
	error
	status int
}

func (s *statusError) Unwrap() error { return s.error }

func statusOf(err error, status int) error {
	if err == nil {
		return nil
	}
	return &statusError{error: err, status: status}
}

// prepare marks the errors of RunE, so that Run can tell them from those of cobra, and makes cobra stricter.
func prepare(command *cobra.Command) {
	for _, child := range command.Commands() {
		prepare(child)
	}
	if command.Args == nil {
		command.Args = cobra.NoArgs
	}
	if !command.Runnable() {
		missing := statusOf(fmt.Errorf("a command is missing: %s", strings.Join(namesOf(command), ", ")), usageStatus())
		command.RunE = func(*cobra.Command, []string) error { return missing }
		return
	}
	if run := command.RunE; run != nil {
		command.RunE = func(command *cobra.Command, arguments []string) error {
			return markFailed(run(command, arguments))
		}
	}
}

// markFailed marks an error with StatusFailed, unless it is marked.
func markFailed(err error) error {
	var known *statusError
	if errors.As(err, &known) {
		return err
	}
	return statusOf(err, StatusFailed)
}

func namesOf(command *cobra.Command) []string {
	var names []string
	for _, child := range command.Commands() {
		if !child.Hidden {
			names = append(names, child.Name())
		}
	}
	return names
}

// Version returns the version of a program, and that of the library that is linked into it, such as "0.3.0 (libosb
// 0.3.0)". The number of the program is that of the osb.h over which it was compiled: the programs and the library have
// one version. It is for cobra's Command.Version, which makes the option --version (this project's choice).
func Version() string {
	return fmt.Sprintf("%s (libosb %s)", versionText(osb.HeaderVersion), versionText(osb.Version()))
}

// versionText returns a version as a text: 0.3.0 for 300.
func versionText(version uint32) string {
	return fmt.Sprintf("%d.%d.%d", version/10000, version/100%100, version%100)
}

// hideMemory has the process leave no core dump, and keeps other processes of its account from reading its memory.
func hideMemory() error {
	_, _, failed := syscall.RawSyscall(syscall.SYS_PRCTL, syscall.PR_SET_DUMPABLE, 0, 0)
	if failed != 0 {
		return fmt.Errorf("prctl: %w", failed)
	}
	return nil
}

// IsOpen reports whether accounts other than the owner can write to a folder, and the permissions of the folder. If it
// can't be read, it isn't open.
func IsOpen(folder string) (mode fs.FileMode, isOpen bool) {
	about, err := os.Stat(folder)
	if err != nil {
		return 0, false
	}
	return about.Mode().Perm(), about.Mode().Perm()&0o022 != 0
}

// OneLine returns a text as one line for a terminal. White space becomes single blanks, and a character that isn't
// printable, such as that of an escape sequence, becomes an escape of Go.
func OneLine(text string) string {
	var line strings.Builder
	for _, r := range strings.Join(strings.Fields(text), " ") {
		if unicode.IsPrint(r) {
			line.WriteRune(r)
			continue
		}
		quoted := strconv.QuoteRune(r)
		line.WriteString(quoted[1 : len(quoted)-1])
	}
	return line.String()
}
