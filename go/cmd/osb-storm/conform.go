package main

import (
	"context"
	"errors"
	"fmt"
	"io"
	"os"
	"os/signal"
	"syscall"
	"time"

	"github.com/spf13/cobra"
	"github.com/spf13/pflag"

	"pippinterm/internal/cli"
	"pippinterm/storm/conform"
)

type conformSettings struct {
	options              conform.Options
	passwordFile, json   string
	except               []string
	runTime, cleanupTime time.Duration
}

const conformHelp = `Send requests without faults to a broker, and compare each answer with the Open Service Broker
API 2.17.

Each instance and binding has an id that begins with a random prefix, which is printed first. All of
them are deleted at the end, also after SIGINT, SIGTERM or SIGHUP. A second SIGINT or SIGTERM ends the
deletions, too.

environment:
  OSB_BROKER_PASSWORD      the password, if --password-file isn't given

exit status: 0 every MUST passed that was run; 1 a MUST failed, or the run ended before all cases
were tried; 2 the command line can't be parsed; 3 an instance or a binding could not be deleted, and
standard output lists it; 69 the broker can't be reached; 78 change something first: an option, a file
or a name; 70 any other error`

func conformCommand(v *cli.Verdict) *cobra.Command {
	s := &conformSettings{}
	return commandOf(v, "conform --url URL",
		"Compare the answers of a broker with the standard", conformHelp, "url", s.add,
		func(c *cobra.Command) (int, error) { return s.run(c.Context(), c.OutOrStdout(), c.ErrOrStderr()) })
}

func (s *conformSettings) add(made *cobra.Command) {
	flags, options := made.Flags(), &s.options
	addTarget(flags, options, &s.passwordFile)
	flags.Var(cli.Count(&options.Instances, 50, 1, 10000), "instances", "the most instances to order")
	flags.Var(cli.Seconds(&s.runTime, 10*time.Minute), "seconds", "after which no further case is tried")
	flags.Var(cli.Seconds(&options.RequestTime, 30*time.Second), "request-seconds", "for the answer to a request")
	flags.Var(cli.Seconds(&options.OperationTime, 2*time.Minute), "operation-seconds",
		"for an asynchronous operation")
	flags.Var(cli.Seconds(&options.Pause, time.Second), "poll-seconds", "between two polls of an operation")
	flags.Var(cli.Seconds(&s.cleanupTime, 5*time.Minute), "cleanup-seconds", "for the deletions at the end")
	flags.StringSliceVar(&s.except, "except", nil, "`cases` that don't change the exit status, separated by commas")
	flags.StringVar(&s.json, "json", "", "a `file` to which the report is written as JSON, too")
}

// addTarget adds the options that say which broker is tested, and what is ordered at it.
func addTarget(flags *pflag.FlagSet, options *conform.Options, passwordFile *string) {
	flags.StringVar(&options.URL, "url", "", "the `URL` of the broker, without /v2")
	flags.StringVar(&options.User, "user", "platform", "the `name` with which to log in")
	flags.StringVar(passwordFile, "password-file", "", "a `file` with the password")
	flags.StringVar(&options.Service, "service", "",
		"the `name` or id of the service to order; with --plan. Default: the first bindable plan")
	flags.StringVar(&options.Plan, "plan", "", "the `name` or id of the plan to order; with --service")
}

// run checks the broker, deletes what it has created, and writes the report. It returns the exit status.
func (s *conformSettings) run(ctx context.Context, out, stderr io.Writer) (int, error) {
	files, err := openReports(s.json)
	if err != nil {
		return 0, err
	}
	defer files.close()
	running, deleting, forget := untilSignals(ctx)
	defer forget()
	s.options.Tell = waits(running, stderr)
	runner, err := s.runner(stderr)
	if err != nil {
		return 0, cli.Unusable(err)
	}
	fmt.Fprintf(out, "Each id begins with %s.\n\n", runner.Prefix())
	limited, cancel := context.WithTimeout(running, s.runTime)
	report, failure := runner.Run(limited)
	cancel()
	deletions, cancel := context.WithTimeout(deleting, s.cleanupTime)
	report.Leftovers = runner.CleanUp(deletions)
	cancel()
	if failure != nil {
		return s.failureStatus(failure, stderr)
	}
	return conclude(s.status(report), nil, files.write(out, report.WriteText, report.WriteJSON), stderr)
}

// runner reads the password, and returns a Runner for the settings.
func (s *conformSettings) runner(warnings io.Writer) (*conform.Runner, error) {
	if err := s.checkExcept(); err != nil {
		return nil, err
	}
	password, err := passwordOf(s.passwordFile, warnings)
	if err != nil {
		return nil, err
	}
	s.options.Password = password
	return conform.New(s.options)
}

func (s *conformSettings) checkExcept() error {
	known := map[string]bool{}
	for _, test := range conform.Cases() {
		known[test.Name] = true
	}
	for _, name := range s.except {
		if !known[name] {
			return fmt.Errorf("--except: there is no case %q", name)
		}
	}
	return nil
}

// failureStatus returns the exit status of a run that has tried no case.
func (s *conformSettings) failureStatus(failure error, stderr io.Writer) (int, error) {
	if errors.Is(failure, conform.ErrUnreachable) {
		fmt.Fprintf(stderr, "osb-storm: %v\n", failure)
		return statusUnreachable, nil
	}
	return 0, cli.Unusable(failure)
}

func (s *conformSettings) status(report *conform.Report) int {
	if len(report.Leftovers) > 0 {
		return statusLeft
	}
	excepted := map[string]bool{}
	for _, name := range s.except {
		excepted[name] = true
	}
	for _, result := range report.Results {
		if result.Level == conform.Must && result.Grade == conform.Fail && !excepted[result.Name] {
			return statusDeviates
		}
	}
	if report.Ended != "" {
		return statusDeviates
	}
	return cli.StatusDone
}

// waits returns what writes a line about deletions that have to wait. running is done after the first signal.
func waits(running context.Context, stderr io.Writer) func(line string) {
	return func(line string) {
		if running.Err() != nil {
			line += " A second SIGINT or SIGTERM ends the deletions."
		}
		fmt.Fprintf(stderr, "osb-storm: %s\n", line)
	}
}

// untilSignals returns a context that the first SIGINT, SIGTERM or SIGHUP ends, and one that the next SIGINT or SIGTERM
// ends. A terminal that is closed sends SIGHUP several times, so no SIGHUP ends the second one. With nohup, SIGHUP ends
// nothing.
//
// Until forget is called, a write to a pipe that nobody reads is an error, and doesn't end the program: ^C also ends a
// command that reads the output.
func untilSignals(ctx context.Context) (first, second context.Context, forget func()) {
	first, endFirst := context.WithCancel(ctx)
	second, endSecond := context.WithCancel(ctx)
	signals, pipes := make(chan os.Signal, 2), make(chan os.Signal, 1)
	signal.Notify(signals, syscall.SIGINT, syscall.SIGTERM)
	if !signal.Ignored(syscall.SIGHUP) {
		signal.Notify(signals, syscall.SIGHUP)
	}
	signal.Notify(pipes, syscall.SIGPIPE)
	go func() {
		for {
			select {
			case received := <-signals:
				if first.Err() != nil && received != syscall.SIGHUP {
					endSecond()
				}
				endFirst()
			case <-second.Done():
				return
			}
		}
	}()
	return first, second, func() {
		signal.Stop(signals)
		signal.Stop(pipes)
		endFirst()
		endSecond()
	}
}
