package shell

import (
	"context"
	"fmt"
	"os"
	"path/filepath"
	"strconv"
	"strings"
	"syscall"
	"testing"
	"time"

	"pippinterm/internal/child"
	"pippinterm/internal/diff"
	"pippinterm/internal/waits"
	"pippinterm/storm/stormtest"
)

// The words of each line are returned, except those of empty lines.
func TestRows(t *testing.T) {
	rows := diff.Value(Rows(context.Background(), `printf 'a b\n\n  c\td \n'`, 2))(t)
	diff.Check(t, rows, [][]string{{"a", "b"}, {"c", "d"}}, "the rows")
	diff.Equal(t, len(diff.Value(Rows(context.Background(), "true", 1))(t)), 0, "rows of no output")
}

// Each line is returned as it is, except empty ones and the spaces around it. A line that is too long is an error.
func TestLines(t *testing.T) {
	lines := diff.Value(Lines(context.Background(), `printf 'a {"b":  1}\n\n  c\td \n'`))(t)
	diff.Check(t, lines, []string{`a {"b":  1}`, "c\td"}, "the lines")
	diff.ErrorContains(t, diff.Err(Lines(context.Background(), "head -c 2000000 /dev/zero")), "too long", "a long line")
	diff.ErrorContains(t, diff.Err(Lines(context.Background(), "exit 3")), "exit status 3", "a command that fails")
}

// A command that fails says nothing, and the error has the last line of its standard error.
func TestRowsFail(t *testing.T) {
	for command, wanted := range map[string]string{
		"echo one; echo first >&2; echo broken >&2; exit 3": "exit status 3 (broken)",
		"echo one two": "doesn't have 1 ids",
		"exit 4":       "exit status 4",
	} {
		t.Run(command, func(t *testing.T) {
			rows, err := Rows(context.Background(), command, 1)
			if err == nil || !strings.Contains(err.Error(), wanted) || len(rows) > 0 {
				t.Errorf("%s: got the error %v and the rows %v, want the error %q", command, err, rows, wanted)
			}
		})
	}
}

// However much a command prints on either output, all of it is read.
func TestRowsMuch(t *testing.T) {
	rows := diff.Value(Rows(context.Background(), "seq 50000 >&2; seq 50000; seq 50000 >&2", 1))(t)
	diff.Equal(t, len(rows), 50000, "rows")
}

// A command ends with its context, and what it has started may go on.
func TestRunEnds(t *testing.T) {
	ctx, cancel := context.WithTimeout(context.Background(), 50*time.Millisecond)
	defer cancel()
	diff.Error(t, Run(ctx, "exec sleep 60"), "a command that was killed")
	begun := time.Now()
	if err := Run(context.Background(), "sleep 20 & true"); err != nil || time.Since(begun) > 10*time.Second {
		t.Errorf("got %v after %v, want no error within 10 s", err, time.Since(begun))
	}
}

// The whole command ends with its context, whatever it has started, and whether a part of a pipe still runs.
func TestEndsWhole(t *testing.T) {
	for name, command := range map[string]string{
		"a child":      "sleep 1000",
		"a pipe":       "tail -f /dev/null | cat",
		"in the back":  "sleep 1000 & echo one",
		"a new group":  "setsid sleep 90 & echo one",
		"deaf to TERM": "trap '' TERM HUP INT; sleep 1000; sleep 1000",
	} {
		t.Run(name, func(t *testing.T) {
			marked := filepath.Join(t.TempDir(), "late")
			for _, run := range []func(context.Context) error{
				func(ctx context.Context) error { return Run(ctx, command+"; sleep 1000; touch "+marked) },
				func(ctx context.Context) error {
					rows, err := Rows(ctx, command, 1)
					diff.Empty(t, rows, "%s", name)
					return err
				},
			} {
				ctx, cancel := context.WithTimeout(context.Background(), 100*time.Millisecond)
				begun := time.Now()
				err := run(ctx)
				cancel()
				if took := time.Since(begun); err == nil || took > time.Minute {
					t.Errorf("%s: got %v after %v, want an error within a minute", name, err, took)
				}
			}
		})
	}
}

// Nothing of a command that was ended is left, except what has left its group.
func TestKillsGroup(t *testing.T) {
	pids := filepath.Join(t.TempDir(), "pids")
	ctx, cancel := context.WithTimeout(context.Background(), time.Second)
	defer cancel()
	diff.Error(t, diff.Err(Rows(ctx, "sleep 1000 & echo $! >"+pids+"; sleep 1000", 1)), "a command that was killed")
	text := diff.Value(os.ReadFile(pids))(t)
	pid := diff.Value(strconv.Atoi(strings.TrimSpace(string(text))))(t)
	t.Cleanup(func() {
		if t.Failed() {
			_ = syscall.Kill(pid, syscall.SIGKILL)
		}
	})
	waits.Until(t, "what the command has started ends", func() bool { return !stormtest.IsRunning(fmt.Sprint(pid)) })
}

// Each command has a limit of its own, and the error says so.
func TestLimit(t *testing.T) {
	diff.Equal(t, usualLimits(), limits{time: time.Minute, printed: 64 << 20}, "the limits of Run and Rows")
	short := usualLimits()
	short.time = 100 * time.Millisecond
	for name, run := range map[string]func() error{
		"Run": func() error {
			_, _, err := short.run(context.Background(), "sleep 1000 | cat", false)
			return err
		},
		"Rows": func() error { return diff.Err(short.rows(context.Background(), "sleep 1000 | cat", 1)) },
	} {
		t.Run(name, func(t *testing.T) {
			begun := time.Now()
			err := run()
			if took := time.Since(begun); err == nil || took > time.Minute || !strings.Contains(err.Error(), "within 100ms") {
				t.Errorf("%s: got %v after %v, want an error of 100 ms within a minute", name, err, took)
			}
		})
	}
}

// A command that prints too much on either output is killed with its group, and the error says so. One that prints just
// as much as it may isn't.
func TestMostPrinted(t *testing.T) {
	few := usualLimits()
	few.printed = 10000
	// Each command is bounded by itself, too: without the limit it would print 100 MB, and then end.
	for name, command := range map[string]string{
		"output":      "head -c 100000000 /dev/zero; sleep 1000",
		"errors":      "head -c 100000000 /dev/zero >&2; sleep 1000",
		"a pipe":      "head -c 100000000 /dev/zero | cat; sleep 1000",
		"and ends":    "head -c 10001 /dev/zero",
		"fails":       "head -c 100000000 /dev/zero; exit 3",
		"a new group": "setsid sleep 90 & head -c 100000000 /dev/zero; sleep 1000",
	} {
		t.Run(name, func(t *testing.T) {
			ctx, cancel := context.WithTimeout(context.Background(), 80*time.Second)
			begun := time.Now()
			rows, err := few.rows(ctx, command, 1)
			cancel()
			took := time.Since(begun)
			if err == nil || took > time.Minute || len(rows) > 0 || !strings.Contains(err.Error(), "more than 10000 bytes") {
				t.Errorf("%s: got %v after %v, want an error of too many bytes within a minute", name, err, took)
			}
		})
	}
	rows := diff.Value(few.rows(context.Background(), "yes 123456789 | head -c 10000", 1))(t)
	diff.Equal(t, len(rows), 1000, "rows")
}

func awaitEnd(t *testing.T, c *Command) {
	t.Helper()
	if !child.IsClosed(c.Done(), 10*time.Second) {
		t.Fatal("the command: got no end in time, want one")
	}
}

// A command gets the variables, and its error and the last lines of both outputs are returned once it has ended.
func TestStart(t *testing.T) {
	long, fitting := fmt.Sprintf("printf %%0%dd 0", 3*mostKept), fmt.Sprintf("printf '%%0%dd\\n' 0", mostKept-1)
	for command, test := range map[string]struct {
		failure string
		lines   []string
	}{
		`echo "$ONE-$OTHER"; echo late >&2; exit 3`: {"exit status 3", []string{"1-2", "late"}},
		"true":                          {"", nil},
		"no-such-command 2>/dev/null":   {"exit status 127", nil},
		"kill -9 $$":                    {"signal: killed", nil},
		"setsid sleep 5 & echo started": {"", []string{"started"}}, // it keeps the output open
		"yes | head -n 100000; seq 25":  {"", strings.Fields(numbers(6, 25))},
		long + "; echo; echo last":      {"", []string{"last"}}, // of the first line, only the end is kept
		long:                            {"", nil},
		long + "; echo; " + fitting:     {"", []string{strings.Repeat("0", mostKept-1)}},
	} {
		t.Run(command, func(t *testing.T) {
			c := diff.Value(Start(command, "ONE=1", "OTHER=2"))(t)
			awaitEnd(t, c)
			begun, text := time.Now(), ""
			if err := c.End(); err != nil {
				text = err.Error()
			}
			diff.Equal(t, text, test.failure, "the failure")
			diff.Check(t, c.LastLines(), test.lines, "the last lines")
			diff.AtMost(t, time.Since(begun), 4*time.Second, "%s", command)
		})
	}
}

// numbers returns the numbers between two, with a space after each.
func numbers(from, to int) (text string) {
	for ; from <= to; from++ {
		text += strconv.Itoa(from) + " "
	}
	return text
}

// A command that goes on is killed with all processes of its group, and so is what is left of one that has ended. That
// is no failure.
func TestEnd(t *testing.T) {
	for name, command := range map[string]string{
		"goes on": "sleep 1000 & echo $! >PIDS; sleep 1000", "deaf": "trap '' TERM; sleep 1000 & echo $! >PIDS; wait",
		"has ended": "sleep 1000 & echo $! >PIDS",
		"has left": `exec python3 -c 'import os, time
os.setpgid(0, os.getpgid(os.getppid()))
print(os.getpid(), file=open("PIDS", "w"), flush=True)
time.sleep(1000)'`, // the command itself has left its group
	} {
		t.Run(name, func(t *testing.T) {
			pids := filepath.Join(t.TempDir(), "pids")
			c := diff.Value(Start(strings.ReplaceAll(command, "PIDS", pids)))(t)
			pid := pidIn(t, pids)
			if name == "has ended" {
				awaitEnd(t, c)
			}
			diff.Equal(t, stormtest.IsRunning(fmt.Sprint(pid)), true, "%s: the child runs", name)
			diff.NoError(t, c.End(), "%s", name)
			waits.Until(t, "what the command has started ends", func() bool { return !stormtest.IsRunning(fmt.Sprint(pid)) })
		})
	}
}

// pidIn waits until a file has the id of a process.
func pidIn(t *testing.T, path string) int {
	t.Helper()
	for until := time.Now().Add(10 * time.Second); time.Now().Before(until); time.Sleep(10 * time.Millisecond) {
		if text, err := os.ReadFile(path); err == nil && strings.HasSuffix(string(text), "\n") {
			return diff.Value(strconv.Atoi(strings.TrimSpace(string(text))))(t)
		}
	}
	t.Fatal("the command: got no id of it in time, want one")
	return 0
}
