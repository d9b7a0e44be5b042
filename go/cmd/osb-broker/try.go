package main

import (
	"context"
	"encoding/json"
	"errors"
	"fmt"
	"io"
	"os"
	"os/signal"
	"syscall"
	"time"

	"github.com/spf13/cobra"
	"github.com/spf13/pflag"

	"pippinterm/broker"
	"pippinterm/broker/backend/command"
	"pippinterm/broker/backend/postgres"
	"pippinterm/broker/try"
	"pippinterm/internal/cli"
	"pippinterm/internal/logs"
)

const tryHelp = `Test a backend without a broker and without a store.

The command creates two instances with new random ids and, if the backend and the plan support it, three
bindings. It repeats calls as a broker does after a crash, looks after each call what exists, and deletes
what it has created. Each call is a line on standard output with its result. Credentials aren't printed.

  ok      look instance 1: none
  ok      create instance 1
  FAILED  look instance 1: part, and not whole

Only the first plan of the catalogue is tried, unless you pass --plan or --all-plans: an instance may be
expensive. A rejected creation (exit status 3 of the program) counts as failed, because the calls after it
can't be tried. Pass --parameters that the plan accepts.

After SIGINT, SIGTERM or SIGHUP, the command deletes what it has created, for at most --stop-seconds. A
second SIGINT or SIGTERM ends it at once.

The command needs no password of a platform. With --backend postgresql://.., it needs the server's password
and key, as serve does, and a broker must have used the server before.

environment:
  OSB_BACKEND_KEY, PGPASSWORD, PGPASSFILE, BACKEND_..   as for 'osb-broker serve'

exit status: 0 all calls did what the guide says; 1 a call failed, something couldn't be deleted, or a
signal ended the test; 2 the command line can't be parsed; 78 change something first: an option, a file, a
program that can't be run, or one whose capabilities can't be read; 75 the server of the backend is away, or
the program failed to report its capabilities; 70 any other error`

// tryOptions are the options of `osb-broker try`.
type tryOptions struct {
	settings   *settings
	plans      []string
	areAll     bool // whether all plans are tried
	parameters string
	// updateParameters are those to which the first instance is updated.
	updateParameters string
	isOwn            bool // whether the state folder is a new temporary one
}

// sharedOptions are the options of serve that configure backends, and how long the end may take.
var sharedOptions = []string{"backend", "catalog", "customer-address", "backend-key-file", "command-seconds",
	"connections-per-instance", "template", "stop-seconds"}

func tryCommand(v *cli.Verdict) *cobra.Command {
	t := &tryOptions{settings: &settings{}}
	made := &cobra.Command{
		Use: "try", Short: "Test a backend of your own", Long: tryHelp,
		Example: `  osb-broker try --backend command:./mine --catalog mine.json
  osb-broker try --backend command:./mine --catalog mine.json --plan small --parameters '{"size": "small"}'`,
		RunE: func(c *cobra.Command, _ []string) (err error) {
			v.Status, err = t.run(c.Context(), c.OutOrStdout(), c.ErrOrStderr())
			return err
		},
	}
	cli.WrapUsage(made)
	t.add(made.Flags())
	return made
}

// add adds the options. Those that serve has, too, are the same.
func (t *tryOptions) add(flags *pflag.FlagSet) {
	flags.SortFlags = false
	ofServe := pflag.NewFlagSet("", pflag.ContinueOnError)
	t.settings.addPlaces(ofServe)
	t.settings.addAccess(ofServe)
	t.settings.addRules(ofServe)
	t.settings.addLimits(ofServe)
	for _, name := range sharedOptions {
		flags.AddFlag(ofServe.Lookup(name))
	}
	flags.StringArrayVar(&t.plans, "plan", nil,
		"try the plan with this `name or id`; may be given several times. Default: the first plan of the first service")
	flags.BoolVar(&t.areAll, "all-plans", false, "try all plans, one after the other")
	flags.StringVar(&t.parameters, "parameters", "", "the parameters of each instance, an object of `JSON`")
	flags.StringVar(&t.updateParameters, "update-parameters", "",
		"the parameters to which the first instance is updated, an object of `JSON`")
	flags.StringVar(&t.settings.state, "state", "", "the `folder` with what --backend doesn't place elsewhere. "+
		"Default: a new temporary folder, which is removed if nothing has failed")
}

// run tries the backend, and writes a line for each call. It returns the exit status.
func (t *tryOptions) run(ctx context.Context, out, stderr io.Writer) (status int, err error) {
	if err := t.checkParameters(); err != nil {
		return 0, cli.Unusable(err)
	}
	syscall.Umask(0o077) // as serve does: the program inherits it
	queue := logs.NewQueue(stderr)
	defer func() {
		until, cancel := context.WithTimeout(ctx, time.Second)
		defer cancel()
		_ = queue.Close(until)
	}()
	signals := []os.Signal{syscall.SIGTERM, syscall.SIGINT}
	if !signal.Ignored(syscall.SIGHUP) { // nohup ignores it
		signals = append(signals, syscall.SIGHUP)
		// A terminal that is closed sends SIGHUP several times, so no second one ends the process.
		signal.Notify(make(chan os.Signal, 1), syscall.SIGHUP)
	}
	stop, cancel := context.WithCancel(ctx)
	defer cancel()
	received := make(chan os.Signal, 1)
	signal.Notify(received, signals...)
	go func() {
		select {
		case <-received:
		case <-stop.Done():
		}
		signal.Stop(received) // before anybody sees that it stops: from now on a second signal ends the process
		cancel()
	}()
	if err := t.openState(); err != nil {
		return 0, cli.Unusable(err)
	}
	report := &tryReport{out: out}
	err = t.tryAll(stop, logs.New(queue), report)
	return t.end(report, err)
}

// checkParameters checks that the parameters are an object, if there are any.
func (t *tryOptions) checkParameters() error {
	if err := checkObject("--parameters", t.parameters); err != nil {
		return err
	}
	return checkObject("--update-parameters", t.updateParameters)
}

// checkObject returns an error if the value of an option is neither empty nor an object of JSON.
func checkObject(option, value string) error {
	if value == "" {
		return nil
	}
	var object map[string]json.RawMessage
	err := json.Unmarshal([]byte(value), &object)
	if err == nil && object == nil {
		err = errors.New("want an object")
	}
	return wrap(option, err)
}

// openState creates the state folder, a temporary one if none is named.
func (t *tryOptions) openState() (err error) {
	s := t.settings
	if s.state == "" {
		s.state, err = os.MkdirTemp("", "osb-broker-try-")
		t.isOwn = err == nil
	} else {
		err = os.MkdirAll(s.state, 0o700)
	}
	return wrap("the state folder can't be created", err)
}

// end writes the end of the report, and removes a temporary state folder if nothing has failed. It returns the exit
// status. failed is the error of the test itself.
func (t *tryOptions) end(report *tryReport, failed error) (status int, err error) {
	if t.isOwn && report.isClean() {
		if err := os.RemoveAll(t.settings.state); err != nil && failed == nil {
			failed = fmt.Errorf("the temporary state folder can't be removed: %w", err)
		}
	} else if t.isOwn {
		report.line("kept", "the state folder "+t.settings.state)
	}
	if failed != nil {
		return 0, failed
	}
	if err := report.end(); err != nil {
		return 0, fmt.Errorf("the report can't be written: %w", err)
	}
	if !report.isClean() {
		return statusFailedCalls, nil
	}
	return cli.StatusDone, nil
}

// tryAll opens the backend as serve does, and tries each plan that is asked for.
func (t *tryOptions) tryAll(ctx context.Context, log *logs.Logger, report *tryReport) error {
	p := &parts{}
	defer p.closeAll()
	if err := p.openBackend(ctx, t.settings, log); ctx.Err() != nil {
		report.writeStop()
		return nil
	} else if err != nil {
		return err
	}
	if err := p.openLocks(t.settings); err != nil {
		return err
	}
	if err := hasOwner(ctx, p.backend); err != nil {
		return err
	}
	catalogue, err := catalogueOf(t.settings.catalogue, p.sells, broker.AbilitiesOf(p.backend))
	if err != nil {
		return err
	}
	plans, err := t.choose(catalogue.Document())
	if err != nil {
		return cli.Unusable(err)
	}
	for _, plan := range plans {
		if err := t.tryPlan(ctx, p, catalogue.Document(), plan, report); err != nil {
			return err
		}
	}
	return nil
}

// hasOwner returns an error if the backend is a PostgreSQL server that no store has used. Such a server belongs to its
// first store for good, and a test has none.
func hasOwner(ctx context.Context, backend broker.Backend) error {
	databases, isServer := backend.(*postgres.Databases)
	if !isServer {
		return nil
	}
	owner, err := databases.Owner(ctx)
	if err == nil && owner == "" {
		return cli.Unusable(errors.New("no broker has used this server yet. Start 'osb-broker serve' over it once"))
	}
	return away("the backend can't be used", err)
}

// choose returns the plans that are asked for.
func (t *tryOptions) choose(document []byte) ([]try.Plan, error) {
	all, err := try.Plans(document)
	switch {
	case err != nil:
		return nil, err
	case t.areAll && len(t.plans) > 0:
		return nil, errors.New("give --plan or --all-plans, and not both")
	case len(all) == 0:
		return nil, errors.New("the catalogue has no plan")
	case t.areAll:
		return all, nil
	case len(t.plans) == 0:
		return all[:1], nil
	}
	var chosen []try.Plan
	for _, name := range t.plans {
		plan, err := try.Choose(all, name)
		if err != nil {
			return nil, fmt.Errorf("--plan: %w", err)
		}
		chosen = append(chosen, plan)
	}
	return chosen, nil
}

// tryPlan tries one plan, unless ctx is done.
func (t *tryOptions) tryPlan(
	ctx context.Context, p *parts, document []byte, plan try.Plan, report *tryReport,
) error {
	if ctx.Err() != nil {
		report.writeStop()
		return nil
	}
	report.line("try", plan.String())
	all, err := try.Plans(document)
	if err != nil {
		return err
	}
	next, err := try.Next(document, all, plan)
	if err != nil {
		return err
	}
	result, err := try.Run(ctx, p.backend, p.locks, try.Options{
		Plan: plan, Parameters: json.RawMessage(t.parameters), CleanUp: t.settings.stopTime,
		UpdateTo: next, UpdateParameters: json.RawMessage(t.updateParameters), Report: report.call,
	})
	if err != nil {
		return err
	}
	report.add(result)
	return nil
}

// statusFailedCalls is the exit status if a call of the backend failed, or not all was tried or deleted.
const statusFailedCalls = 1

// A tryReport is the output of `osb-broker try`.
type tryReport struct {
	out   io.Writer
	total try.Result // of all plans
	err   error      // the first error of writing
}

// line writes a line that begins with a word.
func (r *tryReport) line(word, text string) {
	if _, err := fmt.Fprintf(r.out, "%-8s%s\n", word, cli.OneLine(text)); r.err == nil {
		r.err = err
	}
}

// call writes the line of a call.
func (r *tryReport) call(call try.Call) {
	switch {
	case call.Err != nil:
		r.line("FAILED", call.Name+": "+reasonOf(call.Err))
	case call.Found != "":
		r.line("ok", call.Name+": "+call.Found)
	default:
		r.line("ok", call.Name)
	}
}

// reasonOf is the text of an error, without the program and the call of a command backend: the line has the call.
func reasonOf(err error) string {
	var call *command.CallError
	if errors.As(err, &call) {
		return call.Err.Error()
	}
	return err.Error()
}

// add adds the result of a plan. It writes the ids if anything failed, and what is left.
func (r *tryReport) add(result try.Result) {
	r.total.OK += result.OK
	r.total.Failed += result.Failed
	r.total.Left = append(r.total.Left, result.Left...)
	if result.Failed > 0 || len(result.Left) > 0 {
		for _, id := range result.IDs {
			r.line("id", id)
		}
	}
	for _, resource := range result.Left {
		r.line("left", resource+" couldn't be deleted. Delete it by hand")
	}
	if result.IsStopped {
		r.writeStop()
	}
}

// writeStop writes once that a signal has ended the test.
func (r *tryReport) writeStop() {
	if !r.total.IsStopped {
		r.line("stopped", "by a signal, before all calls were tried")
	}
	r.total.IsStopped = true
}

// isClean reports whether all was tried, succeeded and is deleted.
func (r *tryReport) isClean() bool {
	return r.total.Failed == 0 && !r.total.IsStopped && len(r.total.Left) == 0
}

// end writes the last line. It returns the first error of writing the report.
func (r *tryReport) end() error {
	text := fmt.Sprintf("%d ok, %d failed\n", r.total.OK, r.total.Failed)
	if _, err := io.WriteString(r.out, text); r.err == nil {
		r.err = err
	}
	return r.err
}
