package main

import (
	"context"
	"fmt"
	"io"
	"time"

	"github.com/spf13/cobra"

	"pippinterm/internal/cli"
	"pippinterm/storm/run"
	"pippinterm/storm/run/platform"
)

type platformSettings struct {
	stormSettings
	options platform.Options
}

const platformHelp = `Be a broker for your platform, behind a network that loses, delays, repeats and garbles requests
and answers, and find out what the platform abandons: instances and bindings that exist though the platform doesn't have
them, those that the platform has in vain, missing deletions that the section Orphan Mitigation of the Open Service
Broker API 2.17 asks for, and requests that break the standard.

Add the broker to your platform, and let the platform create and delete instances and bindings. With the first request
about an instance, the faults begin. After --seconds they end, and the platform has --settle-seconds to clean up. If
nothing is left to clean up, osb-storm ends before.

The broker sells folders in a temporary folder, which is deleted at the end, also after SIGINT, SIGTERM or
SIGHUP.

To find out what the platform has, give --list-command, and --list-bindings-command for the bindings. Without them,
osb-storm judges by the platform's requests, and lists what you have to compare yourself.

With --order-command, osb-storm runs a command that has the platform create and delete instances and bindings. The
command finds the URL of the broker in OSB_STORM_URL. The faults end once the command has ended, or after --seconds. At
the end of the run, the command is killed with all processes of its group. If the command fails, or orders nothing,
its last lines are printed on standard error.

With --minimize, osb-storm finds the fewest faults with which the platform abandons something: it runs the order command
again and again, each time with fewer faults, and with a broker that is empty and listens at the same address.

environment:
  OSB_BROKER_PASSWORD      the password, if --password-file isn't given

exit status: 0 nothing was abandoned; 1 something was abandoned, a record was false, not everything converged, a
request broke a MUST, no request came, no request had a fault though --fault-percent or --faults asks for some, or a
signal ended the run; 2 the command line can't be parsed; 78 change something first: an option or a file; 70 any other
error, such as a command that fails`

func platformCommand(v *cli.Verdict) *cobra.Command {
	s := &platformSettings{}
	run := func(c *cobra.Command) (int, error) { return s.run(c, s.open) }
	return commandOf(v, "platform --listen HOST:PORT",
		"Be a broker behind a faulty network, and find what your platform abandons", platformHelp, "listen", s.add, run)
}

func (s *platformSettings) add(made *cobra.Command) {
	flags, options := made.Flags(), &s.options
	flags.Var(cli.Address(&options.Address, ""), "listen",
		"where the platform reaches the broker; port 0 is any free port")
	flags.StringVar(&options.User, "user", "platform", "the `name` with which the platform logs in")
	flags.StringVar(&s.passwordFile, "password-file", "", "a `file` with the password")
	flags.BoolVar(&options.FirstPoll, "first-poll", false,
		"create an instance of an asynchronous plan only once the platform has polled it")
	flags.StringVar(&options.Commands.List, "list-command", "",
		"a `command` that prints the id of each instance that the platform has, one on a line")
	flags.StringVar(&options.Commands.ListBindings, "list-bindings-command", "",
		"a `command` that prints the ids of the instance and the binding for each binding that the platform has")
	flags.StringVar(&options.Commands.Order, "order-command", "",
		"a `command` that has the platform create and delete instances and bindings at the broker OSB_STORM_URL")
	flags.Var(cli.Seconds(&options.WaitTime, 10*time.Minute), "wait-seconds", "for the first request about an instance")
	flags.Var(cli.Seconds(&options.Time, time.Minute), "seconds",
		"from then on until the faults end, unless --order-command ends before")
	flags.Var(cli.Seconds(&options.SettleTime, 2*time.Minute), "settle-seconds",
		"for the platform to clean up after the faults")
	s.addFaults(made)
	s.addMinimize(made, "if something is abandoned or a record is false, shrink the list of faults to the shortest one that "+
		"still loses one; with --order-command")
	flags.Var(cli.Seconds(&options.RequestTime, time.Minute), "request-seconds",
		"for which the platform waits for an answer")
	flags.Var(cli.Seconds(&options.Late, 6*time.Second), "late-seconds", "the bound of every delay")
	flags.Var(cli.Seconds(&options.OperationTime, 2*time.Second), "operation-seconds",
		"for an asynchronous operation, at most")
	flags.StringVar(&options.Journal, "journal", "",
		"a `directory`: the journal of the storm's broker is written to DIRECTORY/broker, for osb-audit")
	s.addReports(made)
}

// open reads the password and the list of faults, and starts a storm for the settings.
func (s *platformSettings) open(running context.Context, stderr io.Writer) (opened storm, err error) {
	if s.options.Password, err = passwordOf(s.passwordFile, stderr); err != nil {
		return opened, err
	}
	s.options.Warnings = stderr
	if err := s.fill(&s.options.Options); err != nil {
		return opened, err
	}
	of, err := platform.Start(running, s.options)
	if err != nil {
		return opened, err
	}
	intro := fmt.Sprintf("The broker listens at %s for the user %s. The seed is %d.\n"+
		"The faults begin with the first request about an instance.", of.URL(), s.options.User, s.seed)
	start := func(running, _ context.Context) (*run.Report, error) { return of.Run(running), nil }
	return storm{intro: intro, run: start, close: of.Close}, nil
}
