package command

import (
	"bytes"
	"context"
	"encoding/json"
	"errors"
	"fmt"
	"io"
	"net/http"
	"os"
	"os/exec"
	"strconv"
	"strings"
	"sync"
	"syscall"
	"time"

	"pippinterm/broker"
	"pippinterm/internal/child"
	"pippinterm/internal/filelock"
)

const (
	mostOutput = 1 << 20  // bytes of standard output
	keptErrors = 4 * 1024 // bytes of standard error, the last ones
)

var errTooLong = fmt.Errorf("standard output has more than %d bytes", mostOutput)

// run runs the program with one argument, and lends the lock of ctx to it. Once the program and every process that has
// its outputs open have ended, run calls read, and returns what read returns. variables are added to the environment.
//
// Errors: those of starting the program, among them filelock.ErrLent; if it ran too long or ctx is done; if it wrote
// too much; those of read. If run returns an error, the process group was killed.
func (p *program) run(
	ctx context.Context, call string, input []byte, variables []string, read func(exit) error,
) error {
	started, err := p.start(ctx, call, variables)
	if err != nil {
		return err
	}
	done := started.tend(input)
	err = waitFor(ctx, done, p.limit)
	if err == nil {
		err = started.read(read)
	}
	if err != nil { // what the run has left must not go on after the call has failed
		_ = syscall.Kill(-started.cmd.Process.Pid, syscall.SIGKILL)
		if !child.IsClosed(done, p.grace) {
			go started.release(done) // ends with the process that has an output open. Until then nobody gets the lock
			return fmt.Errorf("%w; a process that left the process group still runs", err)
		}
	}
	started.release(done)
	return err
}

// A process is the program while it runs, under a supervisor: the command timeout, at the head of a process group.
//
// The supervisor is for a run that hangs after its broker was killed. Without it, such a run would keep its instance
// locked for ever. It kills the process group a little later than the broker does, so it does nothing while the broker
// lives. The other way is to write the number of the process to a file, for the next broker. But by then it may be the
// number of another process, and nobody would end the run before a broker starts.
type process struct {
	cmd            *exec.Cmd
	lent           *os.File // the open file of the lock, or nil
	stdin          io.WriteCloser
	stdout, stderr io.ReadCloser
	output         []byte // at most a byte more than it may have
	stderrEnd      child.Tail
	exit           syscall.WaitStatus
	exitErr        error // why exit isn't known
}

// start starts the program.
func (p *program) start(ctx context.Context, call string, variables []string) (*process, error) {
	if err := ctx.Err(); err != nil {
		return nil, err
	}
	lent, err := filelock.Lend(ctx, p.grace)
	if err != nil {
		return nil, err
	}
	started := &process{cmd: p.command(call, variables, lent), lent: lent, stderrEnd: child.Tail{Most: keptErrors}}
	if err := started.start(); err != nil {
		_ = lent.Close()
		return nil, err
	}
	return started, nil
}

// command returns the program for a call under its supervisor, with the open file of the lock, if there is one.
func (p *program) command(call string, variables []string, lent *os.File) *exec.Cmd {
	seconds := strconv.FormatFloat((p.limit + p.grace).Seconds(), 'f', 3, 64)
	cmd := exec.Command(p.timeout, "--signal=KILL", seconds, p.path, call)
	cmd.Dir = p.state
	cmd.Env = append(append([]string(nil), p.environment...), variables...)
	cmd.SysProcAttr = &syscall.SysProcAttr{Setpgid: true}
	if lent != nil {
		cmd.ExtraFiles = []*os.File{lent}
	}
	return cmd
}

// start opens the pipes and starts the process.
func (p *process) start() (err error) {
	if p.stdin, err = p.cmd.StdinPipe(); err != nil {
		return err
	}
	if p.stdout, err = p.cmd.StdoutPipe(); err != nil {
		return err
	}
	if p.stderr, err = p.cmd.StderrPipe(); err != nil {
		return err
	}
	return p.cmd.Start()
}

// release forgets a run, once its channel is closed. The process isn't reaped before, because its number is that of the
// process group.
func (p *process) release(done <-chan struct{}) {
	<-done
	_ = p.cmd.Wait() // its error repeats exit
	_ = p.lent.Close()
}

// read calls read with what the run has left.
func (p *process) read(read func(exit) error) error {
	if p.exitErr != nil {
		return p.exitErr
	}
	if len(p.output) > mostOutput {
		return errTooLong
	}
	return read(exit{exit: p.exit, output: p.output, stderr: p.stderrEnd.Text})
}

// waitFor returns nil once a run is done, or why it has to be killed.
func waitFor(ctx context.Context, done <-chan struct{}, limit time.Duration) error {
	timer := time.NewTimer(limit)
	defer timer.Stop()
	select {
	case <-done:
		return nil
	case <-timer.C:
		return fmt.Errorf("the run was killed: it ran longer than %v", limit)
	case <-ctx.Done():
		return fmt.Errorf("the run was killed: %w", ctx.Err())
	}
}

// tend writes the input, reads what the process writes, and waits for its exit. The channel is closed once the process
// has exited and its outputs are closed.
func (p *process) tend(input []byte) <-chan struct{} {
	written := inBackground(func() { _, _ = p.stdin.Write(input); _ = p.stdin.Close() })
	ended := inBackground(
		p.readOutput,
		func() { _, _ = io.Copy(&p.stderrEnd, p.stderr) },
		func() { p.exit, p.exitErr = child.AwaitExit(p.cmd.Process.Pid) },
	)
	return inBackground(func() {
		<-ended
		_ = p.stdin.Close() // nobody reads the rest of the input, though a process may have it open
		<-written
	})
}

// inBackground calls functions, each in a goroutine, and returns a channel that is closed once all have returned.
func inBackground(calls ...func()) <-chan struct{} {
	var all sync.WaitGroup
	all.Add(len(calls))
	for _, call := range calls {
		go func(call func()) {
			defer all.Done()
			call()
		}(call)
	}
	done := make(chan struct{})
	go func() {
		all.Wait()
		close(done)
	}()
	return done
}

// readOutput reads standard output. If there is too much, it closes the pipe: a process that goes on writing gets
// SIGPIPE.
func (p *process) readOutput() {
	p.output, _ = io.ReadAll(io.LimitReader(p.stdout, mostOutput+1))
	_ = p.stdout.Close()
}

// The exit statuses that mean something else than "failed".
const (
	statusDone        = 0
	statusRejected    = 3
	statusDescribed   = 4
	statusUnsupported = 5

	// Those of the command timeout, and of a shell: the program can't be run.
	statusNotExecutable = 126
	statusNotFound      = 127
)

// A result is what standard output has after a call that succeeded.
type result interface {
	// check returns an error if a member is missing, or has a value that means nothing.
	check() error
}

// nothing is the result of a call that reports nothing.
type nothing struct{}

func (nothing) check() error { return nil }

// lookResult is the result of look and look-binding.
type lookResult struct {
	Exists string `json:"exists"`
}

func (l lookResult) check() error {
	_, err := l.there()
	return err
}

// there returns what exists.
func (l lookResult) there() (broker.There, error) {
	return thereOf("exists", l.Exists)
}

// thereOf is what the word of a member stands for.
func thereOf(member, word string) (broker.There, error) {
	there, isWord := map[string]broker.There{"none": broker.None, "part": broker.Part, "whole": broker.Whole}[word]
	if !isWord {
		return broker.None, fmt.Errorf(`"%s" is %q, and not none, part or whole`, member, word)
	}
	return there, nil
}

// updateResult is the result of look-update.
type updateResult struct {
	Updated string `json:"updated"`
}

func (u updateResult) check() error {
	_, err := u.there()
	return err
}

// there returns how much of the update is done.
func (u updateResult) there() (broker.There, error) { return thereOf("updated", u.Updated) }

// detailsResult is the result of details.
type detailsResult struct{ broker.Details }

func (detailsResult) check() error { return nil }

// credentialsResult is the result of create-binding and credentials.
type credentialsResult struct {
	Credentials json.RawMessage `json:"credentials"`
}

func (k credentialsResult) check() error {
	if k.Credentials == nil {
		return errors.New(`standard output has no member "credentials"`)
	}
	return nil
}

// capable is the result of capabilities.
type capable struct {
	Bindings    bool `json:"bindings"`
	Credentials bool `json:"credentials"`
	Updates     bool `json:"updates"`
	Details     bool `json:"details"`
	HasSecrets  bool `json:"secret_parameters"`
}

func (c capable) check() error {
	if c.Credentials && !c.Bindings {
		return errors.New("the program supports credentials, and no bindings")
	}
	return nil
}

// An exit is a run that has ended by itself.
type exit struct {
	exit   syscall.WaitStatus
	output []byte // standard output, all of it
	stderr []byte // the end of standard error
}

// read reads what a run reports.
//
// Errors: if the run failed, and if standard output isn't the result. An error of a creation may be a *broker.Rejected.
func (e exit) read(into result, isCreation bool) error {
	switch status := e.exit.ExitStatus(); {
	case status == statusDone:
		if err := e.decode(into); err != nil {
			return err
		}
		return into.check()
	case status == statusRejected && isCreation:
		return e.rejection()
	case status == statusRejected:
		return e.failure("this call can't be rejected")
	case status == statusDescribed:
		return e.descriptionError()
	case status == statusUnsupported:
		return e.failure("the program doesn't support this call")
	}
	return e.failure("")
}

// isLasting reports whether a run whose result can't be used ends so again: the program can't be run, or it has
// succeeded and reported something wrong.
func (e exit) isLasting() bool {
	status := e.exit.ExitStatus()
	return status == statusDone || status == statusNotExecutable || status == statusNotFound
}

// rejection is the error of a creation that the program rejects. Many commands exit with status 3 for other reasons. So
// the run has failed if standard output doesn't have the status of a rejection.
func (e exit) rejection() error {
	var given struct {
		Status      int    `json:"status"`
		Error       string `json:"error"`
		Description string `json:"description"`
	}
	if err := e.decode(&given); err != nil {
		return err
	}
	if given.Status != http.StatusBadRequest && given.Status != http.StatusUnprocessableEntity {
		return e.failure(`standard output has no "status" of 400 or 422, so this is no rejection`)
	}
	rejected := &broker.Rejection{Status: given.Status, Code: given.Error, Description: given.Description}
	return fmt.Errorf("%w (%v)", rejected, e.failure(""))
}

// descriptionError is the error of a call that failed with a description for the platform. For an update, it may say
// what can be expected.
func (e exit) descriptionError() error {
	var given struct {
		Description string `json:"description"`
		broker.Outlook
	}
	if err := e.decode(&given); err != nil {
		return err
	}
	return broker.WithOutlook(broker.Public(e.failure(given.Description), given.Description), given.Outlook)
}

// decode reads standard output, if there is any.
func (e exit) decode(into any) error {
	text := bytes.TrimSpace(e.output)
	if len(text) == 0 {
		return nil
	}
	err := json.Unmarshal(text, into)
	if err == nil && text[0] != '{' {
		err = errors.New("it is no object")
	}
	if err != nil {
		return fmt.Errorf("%s: standard output isn't the JSON that is expected: %w", e.how(), err)
	}
	return nil
}

// how returns how the program exited, such as "exit status 1" or "signal: killed".
func (e exit) how() string {
	if e.exit.Exited() {
		return fmt.Sprintf("exit status %d", e.exit.ExitStatus())
	}
	return fmt.Sprintf("signal: %v", e.exit.Signal())
}

// failure is the error of a run: how it ended, a text if there is one, and the last line of standard error.
func (e exit) failure(text string) error {
	said := e.how()
	for _, part := range []string{text, lastLine(e.stderr)} {
		if part != "" {
			said += ": " + part
		}
	}
	return errors.New(said)
}

// lastLine returns the last line of a text that isn't blank, as UTF-8.
func lastLine(text []byte) string {
	trimmed := strings.TrimSpace(strings.ToValidUTF8(string(text), "\uFFFD"))
	return strings.TrimSpace(trimmed[strings.LastIndexByte(trimmed, '\n')+1:])
}
