package cli

import (
	"bytes"
	"context"
	"errors"
	"fmt"
	"os"
	"os/exec"
	"strings"
	"syscall"
	"testing"

	"github.com/spf13/cobra"

	"pippinterm/internal/diff"
	"pippinterm/internal/waits"
)

// commands returns a root with the command serve, which does what run does.
func commands(run func(*cobra.Command, []string) error) *cobra.Command {
	root := &cobra.Command{Use: "osb-broker", Short: "a broker"}
	serve := &cobra.Command{Use: "serve", Short: "serve until SIGTERM", RunE: run}
	serve.Flags().String("store", "", "where it is stored")
	root.AddCommand(serve, &cobra.Command{Use: "password", RunE: run})
	return root
}

func runWith(run func(*cobra.Command, []string) error, arguments ...string) (status int, stdout, stderr string) {
	root := commands(run)
	var out, err bytes.Buffer
	root.SetOut(&out)
	root.SetErr(&err)
	root.SetArgs(arguments)
	status = Run(context.Background(), root)
	return status, out.String(), err.String()
}

func TestRunStatusOfErrors(t *testing.T) {
	away := errors.New("connection refused")
	for name, test := range map[string]struct {
		err    error
		status int
		stderr string
	}{
		"no error":    {nil, 0, ""},
		"any error":   {errors.New("no memory"), 70, "osb-broker: no memory\n"},
		"unusable":    {Unusable(errors.New("no file x")), 78, "osb-broker: no file x\n"},
		"unavailable": {Unavailable(away), 75, "osb-broker: connection refused\n"},
		"wrapped unavailable": {fmt.Errorf("open the store: %w", Unavailable(away)), 75,
			"osb-broker: open the store: connection refused\n"},
		"the outermost counts": {Unusable(Unavailable(away)), 78, "osb-broker: connection refused\n"},
		"several lines":        {errors.New("one\r\n\ttwo\n"), 70, "osb-broker: one two\n"},
		"escape sequences": {errors.New("a\x1b[31m\u202eb\u009b"), 70,
			`osb-broker: a\x1b[31m\u202eb\u009b` + "\n"},
		"letters of a language": {errors.New("können"), 70, "osb-broker: können\n"},
	} {
		t.Run(name, func(t *testing.T) {
			status, stdout, stderr := runWith(func(*cobra.Command, []string) error { return test.err }, "serve")
			diff.Equal(t, status, test.status, "")
			diff.Equal(t, stdout, "", "")
			diff.Equal(t, stderr, test.stderr, "")
		})
	}
}

func TestRunRejectsArguments(t *testing.T) {
	for _, test := range []struct {
		arguments string
		stderr    string
	}{
		{"", "osb-broker: a command is missing: password, serve\n"},
		{"sevre", `osb-broker: unknown command "sevre" for "osb-broker" (see osb-broker --help)` + "\n"},
		{"serve --sotre x", "osb-broker: unknown flag: --sotre (see osb-broker serve --help)\n"},
		{"serve --sto x", "osb-broker: unknown flag: --sto (see osb-broker serve --help)\n"},
		{"serve --store", "osb-broker: flag needs an argument: --store (see osb-broker serve --help)\n"},
		{"serve x", `osb-broker: unknown command "x" for "osb-broker serve" (see osb-broker serve --help)` + "\n"},
	} {
		t.Run(test.arguments, func(t *testing.T) {
			ran := false
			status, stdout, stderr := runWith(func(*cobra.Command, []string) error { ran = true; return nil },
				strings.Fields(test.arguments)...)
			if status != StatusUsage || ran || stdout != "" || stderr != test.stderr {
				t.Errorf("got the status %d, ran %v, output %q, errors %q, want %q", status, ran, stdout, stderr, test.stderr)
			}
		})
	}
}

func TestRunHelp(t *testing.T) {
	for _, arguments := range [][]string{{"--help"}, {"serve", "--help"}} {
		t.Run(strings.Join(arguments, " "), func(t *testing.T) {
			ran := func(*cobra.Command, []string) error { return errors.New("it ran") }
			status, stdout, stderr := runWith(ran, arguments...)
			diff.Equal(t, status, StatusDone, "%v", arguments)
			diff.Contains(t, stdout, "serve", "%v", arguments)
			diff.Equal(t, stderr, "", "%v", arguments)
		})
	}
}

func TestRunHandsOnTheContext(t *testing.T) {
	type key struct{}
	var got any
	root := commands(func(command *cobra.Command, _ []string) error {
		got = command.Context().Value(key{})
		return nil
	})
	root.SetArgs([]string{"serve"})
	if status := Run(context.WithValue(context.Background(), key{}, "here"), root); status != 0 || got != "here" {
		t.Errorf("got the status %d and the value %v, want 0 and \"here\"", status, got)
	}
}

func TestRunCatchesPanics(t *testing.T) {
	status, _, stderr := runWith(func(*cobra.Command, []string) error { panic("index out of range") }, "serve")
	diff.Equal(t, status, StatusFailed, "")
	diff.HasPrefix(t, stderr, "osb-broker: panic: index out of range\n", "")
}

const (
	// brokenError is set in a process that TestRunOutlivesABrokenStandardError starts.
	brokenError = "OSB_TEST_BROKEN_STANDARD_ERROR"
	// wrongUsage is set in a process that TestStatusOfAUnit starts.
	wrongUsage = "OSB_TEST_WRONG_USAGE"
)

func TestMain(m *testing.M) {
	if os.Getenv(wrongUsage) != "" {
		root := commands(func(*cobra.Command, []string) error { return nil })
		root.SetArgs([]string{"serve", "--sotre", "x"})
		os.Exit(Run(context.Background(), root))
	}
	if os.Getenv(brokenError) == "" {
		os.Exit(m.Run())
	}
	root := commands(func(*cobra.Command, []string) error {
		if _, err := os.Stderr.WriteString("a line\n"); !errors.Is(err, syscall.EPIPE) {
			return fmt.Errorf("the write: %v", err)
		}
		return Unavailable(errors.New("this status is waited for"))
	})
	root.SetArgs([]string{"serve"})
	os.Exit(Run(context.Background(), root))
}

func TestRunOutlivesABrokenStandardError(t *testing.T) {
	reader, writer, err := os.Pipe()
	check(t, err)
	defer writer.Close()
	reader.Close()
	child := exec.Command(os.Args[0])
	child.Env, child.Stderr = append(os.Environ(), brokenError+"=1"), writer
	if err := child.Run(); child.ProcessState.ExitCode() != StatusUnavailable {
		t.Errorf("the process: got %v, want the status %d", err, StatusUnavailable)
	}
}

// systemd has started a process if SYSTEMD_EXEC_PID has its number. Then an argument is part of a unit, and the unit
// mustn't be started again.
func TestStatusOfAUnit(t *testing.T) {
	for set, want := range map[string]int{"$$": StatusUnusable, "1": StatusUsage, "": StatusUsage} {
		child := exec.Command("sh", "-c", `SYSTEMD_EXEC_PID=`+set+` exec "$0"`, os.Args[0])
		child.Env = append(os.Environ(), wrongUsage+"=1")
		_ = child.Run()
		diff.Equal(t, child.ProcessState.ExitCode(), want, "the process with SYSTEMD_EXEC_PID=%s", set)
	}
}

// A stalledWriter is a writer that waits until it is let go.
type stalledWriter struct{ pass chan struct{} }

func (s stalledWriter) Write(p []byte) (int, error) {
	<-s.pass
	return len(p), nil
}

func TestRunDoesntWaitForAStalledStandardError(t *testing.T) {
	to := stalledWriter{make(chan struct{})}
	defer close(to.pass)
	root := commands(func(*cobra.Command, []string) error { return errors.New("no memory") })
	root.SetErr(to)
	root.SetArgs([]string{"serve"})
	status := waits.Begin(func() int { return Run(context.Background(), root) })
	diff.Equal(t, waits.For(t, status, "Run"), StatusFailed, "")
}

func TestNoErrorStaysNoError(t *testing.T) {
	diff.NoError(t, Unusable(nil), "")
	diff.NoError(t, Unavailable(nil), "")
}

func TestMarkedErrorsKeepTheirCause(t *testing.T) {
	cause := errors.New("cause")
	diff.ErrorIs(t, Unusable(cause), cause, "")
	diff.ErrorIs(t, Unavailable(cause), cause, "")
}

func TestDotted(t *testing.T) {
	for version, want := range map[uint32]string{300: "0.3.0", 10203: "1.2.3", 129999: "12.99.99", 7: "0.0.7"} {
		t.Run(want, func(t *testing.T) {
			diff.Equal(t, versionText(version), want, "%d", version)
		})
	}
}

// A command runs in a process that leaves no core dump.
func TestNoCoreDump(t *testing.T) {
	defer func() {
		_, _, failed := syscall.RawSyscall(syscall.SYS_PRCTL, syscall.PR_SET_DUMPABLE, 1, 0)
		diff.Equal(t, failed, 0, "")
	}()
	dumpable := uintptr(1)
	status, _, _ := runWith(func(*cobra.Command, []string) error {
		dumpable, _, _ = syscall.RawSyscall(syscall.SYS_PRCTL, syscall.PR_GET_DUMPABLE, 0, 0)
		return nil
	}, "serve")
	diff.Equal(t, status, 0, "")
	diff.Equal(t, dumpable, 0, "")
}

var check = diff.Must
