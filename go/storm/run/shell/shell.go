// Package shell runs commands of the shell for osb-storm, and reads the ids that they print.
package shell

import (
	"bufio"
	"bytes"
	"context"
	"fmt"
	"io"
	"os"
	"os/exec"
	"strings"
	"syscall"
	"time"

	"pippinterm/internal/child"
)

// limits are those of a command: how long it may take, and how many bytes it may print on each output.
type limits struct {
	time    time.Duration
	printed int64
}

func usualLimits() limits { return limits{time: time.Minute, printed: 64 << 20} }

// Run runs a command of the shell. Processes that it has started may go on once it has ended. A terminal's signals
// don't reach them.
//
// If ctx is done, or after a minute, the command is killed with all processes of its group. Then Run returns an error.
func Run(ctx context.Context, command string) error {
	_, _, err := usualLimits().run(ctx, command, false)
	return err
}

// Rows runs a command as Run does, and returns the words of each line that it prints. Empty lines are left out. It
// waits until no process has the command's standard output open.
//
// If the command prints more than 64 MiB on its standard output or its standard error, it is killed with all processes
// of its group.
//
// Errors: the command fails, or is killed; a line doesn't have as many ids as it should.
func Rows(ctx context.Context, command string, ids int) ([][]string, error) {
	return usualLimits().rows(ctx, command, ids)
}

func (l limits) rows(ctx context.Context, command string, ids int) (rows [][]string, err error) {
	lines, err := l.lines(ctx, command)
	for _, line := range lines {
		words := strings.Fields(line)
		if len(words) != ids {
			return nil, fmt.Errorf("the line %.100q doesn't have %d ids", line, ids)
		}
		rows = append(rows, words)
	}
	return rows, err
}

// Lines runs a command as Rows does, and returns each line that it prints, without the spaces around it. Empty lines are
// left out.
//
// Errors: the command fails, or is killed; a line is longer than 1 MiB.
func Lines(ctx context.Context, command string) ([]string, error) {
	return usualLimits().lines(ctx, command)
}

// longestLine is how long a line of a command may be, in bytes.
const longestLine = 1 << 20

func (l limits) lines(ctx context.Context, command string) (lines []string, err error) {
	printed, said, err := l.run(ctx, command, true)
	if err != nil {
		return nil, fmt.Errorf("%w%s", err, lastLineOf(said))
	}
	scanner := bufio.NewScanner(bytes.NewReader(printed))
	scanner.Buffer(nil, longestLine)
	for scanner.Scan() {
		if line := strings.TrimSpace(scanner.Text()); line != "" {
			lines = append(lines, line)
		}
	}
	return lines, scanner.Err()
}

// run runs a command. If it is read, run returns what it prints on its standard output and on its standard error.
func (l limits) run(ctx context.Context, command string, isRead bool) (printed, said []byte, err error) {
	within, cancel := context.WithTimeout(ctx, l.time)
	defer cancel()
	process := shellOf(command)
	var out, errors io.ReadCloser = nothing, nothing
	if isRead {
		if out, err = process.StdoutPipe(); err == nil {
			errors, err = process.StderrPipe()
		}
	}
	if err == nil {
		err = process.Start()
	}
	if err != nil {
		return nil, nil, err
	}
	kill := func() {
		killAll(process)
		_ = out.Close() // a process that has left the group may keep the pipe open
		_ = errors.Close()
	}
	ended := make(chan error, 1)
	go func() {
		// The shell keeps its process id, and so that of its group, until everything is read.
		fromErrors := make(chan []byte, 1)
		go func() { fromErrors <- l.readAll(errors, kill) }()
		printed = l.readAll(out, kill)
		said = <-fromErrors
		ended <- process.Wait()
	}()
	select {
	case err = <-ended:
		if l.isTooMuch(printed) || l.isTooMuch(said) {
			return nil, nil, fmt.Errorf("it printed more than %d bytes and was killed: let it print nothing but the ids",
				l.printed)
		}
		return printed, said, err
	case <-within.Done():
	}
	kill()
	<-ended
	if ctx.Err() != nil {
		return nil, said, ctx.Err()
	}
	return nil, said, fmt.Errorf("it didn't end within %v", l.time)
}

// shellOf returns a command of the shell in a group of its own.
func shellOf(command string) *exec.Cmd {
	process := exec.Command("/bin/sh", "-c", command)
	process.SysProcAttr = &syscall.SysProcAttr{Setpgid: true}
	return process
}

// killAll kills a command with all processes of its group, also if the command itself has left its group.
func killAll(command *exec.Cmd) {
	_ = syscall.Kill(-command.Process.Pid, syscall.SIGKILL)
	_ = command.Process.Kill()
}

var nothing = io.NopCloser(strings.NewReader(""))

// readAll returns what is written until nobody has the pipe open, or until it is closed. If it is too much, readAll
// calls kill, and returns a part of it that is too much, too.
func (l limits) readAll(from io.Reader, kill func()) []byte {
	all, _ := io.ReadAll(io.LimitReader(from, l.printed+1))
	if l.isTooMuch(all) {
		kill()
	}
	return all
}

func (l limits) isTooMuch(printed []byte) bool { return int64(len(printed)) > l.printed }

// lastLineOf returns the last line that a command has printed on its standard error, in brackets.
func lastLineOf(said []byte) string {
	if len(bytes.TrimSpace(said)) == 0 {
		return ""
	}
	lines := strings.Split(strings.TrimSpace(string(said)), "\n")
	return fmt.Sprintf(" (%.200s)", lines[len(lines)-1])
}

// A Command is a command of the shell that goes on beside its caller. Use one goroutine.
type Command struct {
	process *exec.Cmd
	out     io.ReadCloser // of both outputs
	ended   chan struct{}
	isRead  chan struct{} // is closed once nothing more is read
	last    child.Tail
}

// Start starts a command of the shell, with further variables in its environment, such as NAME=value. End ends it, and
// must be called. A terminal's signals don't reach the command.
//
// Errors: the shell can't be started.
func Start(command string, variables ...string) (*Command, error) {
	c := &Command{
		process: shellOf(command), ended: make(chan struct{}), isRead: make(chan struct{}), last: child.Tail{Most: mostKept},
	}
	c.process.Env = append(os.Environ(), variables...)
	var err error
	if c.out, err = c.process.StdoutPipe(); err != nil {
		return nil, err
	}
	c.process.Stderr = c.process.Stdout
	if err := c.process.Start(); err != nil {
		return nil, err
	}
	go func() {
		defer close(c.isRead)
		_, _ = io.Copy(&c.last, c.out)
	}()
	go func() {
		defer close(c.ended)
		_, _ = child.AwaitExit(c.process.Process.Pid)
	}()
	return c, nil
}

// Done returns a channel that is closed once the shell has ended. What it has started in the background may go on. It
// is nil if there is no command.
func (c *Command) Done() <-chan struct{} {
	if c == nil {
		return nil
	}
	return c.ended
}

// HasEnded reports whether the shell has ended.
func (c *Command) HasEnded() bool { return child.IsClosed(c.Done(), 0) }

// End kills the command with all processes of its group. It returns an error if the command failed before.
func (c *Command) End() error {
	hasEnded := c.HasEnded()
	killAll(c.process)
	<-c.ended
	child.IsClosed(c.isRead, time.Second) // a process that has left the group may keep the pipe open
	_ = c.out.Close()
	<-c.isRead
	err := c.process.Wait()
	if !hasEnded {
		return nil
	}
	return err
}

// LastLines returns the last lines that the command has printed on both outputs. A line of which only the end is kept
// is left out: a secret that was cut off couldn't be found in it. Call End before.
func (c *Command) LastLines() (lines []string) {
	text := string(c.last.Text)
	if c.last.IsCut {
		_, text, _ = strings.Cut(text, "\n")
	}
	if text = strings.TrimSpace(text); text == "" {
		return nil
	}
	lines = strings.Split(text, "\n")
	if over := len(lines) - mostLines; over > 0 {
		lines = lines[over:]
	}
	return lines
}

// mostLines and mostKept are how much is kept of what a Command prints, in lines and in bytes.
const (
	mostLines = 20
	mostKept  = 16 << 10
)
