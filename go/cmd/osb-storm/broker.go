package main

import (
	"context"
	"fmt"
	"io"
	"time"

	"github.com/spf13/cobra"

	"pippinterm/internal/cli"
	"pippinterm/storm/run"
)

type brokerSettings struct {
	stormSettings
	options run.BrokerOptions
}

const brokerHelp = `Let a platform drive a broker through a network that loses, delays, repeats and garbles requests and
answers, and find out what was lost: instances and bindings that exist without a record, records that say ready though
nothing exists, instances that have other settings than the broker has reported, and answers that break the Open Service
Broker API 2.17.

The platform is the one of osb-platform, with a store in a temporary folder. After --seconds the faults end, and
osb-storm waits until everything has converged. Each instance and binding has an id that begins with a random prefix,
which is printed first. All of them are deleted at the end, also after SIGINT, SIGTERM or SIGHUP. A second SIGINT or
SIGTERM ends the deletions, too.

To find out what exists, give --list-command. Without it, osb-storm asks the broker for each instance. To find out which
settings the instances have, give --settings-command.

With --journal, the platform writes its journal, which osb-audit compares with that of osb-broker. The platform then also
deletes everything that its records name, before osb-storm deletes the rest.

The commands are run by /bin/sh, and must return within a minute. A command that lists may print 64 MiB. A broker that
is started in the foreground needs & at the end of its command.

environment:
  OSB_BROKER_PASSWORD      the password, if --password-file isn't given

exit status: 0 nothing was lost; 1 something was lost, a record or settings were false, an instance was half updated,
an answer broke a MUST, not everything converged, something couldn't be asked for, no request had a fault though
--fault-percent or --faults asks for some, or a signal ended the run; 2 the command line can't be parsed; 3 an
instance or a binding could not be deleted, and standard output lists it; 69 the broker can't be reached; 78 change
something first: an option, a file, a name, a plan that can't be created without faults, or a command that doesn't
list what exists or the settings; 70 any other error`

func brokerCommand(v *cli.Verdict) *cobra.Command {
	s := &brokerSettings{}
	run := func(c *cobra.Command) (int, error) { return s.run(c, s.open) }
	return commandOf(v, "broker --url URL",
		"Drive a broker through a faulty network, and find what was lost", brokerHelp, "url", s.add, run)
}

func (s *brokerSettings) add(made *cobra.Command) {
	flags, options, commands := made.Flags(), &s.options, &s.options.Commands
	addTarget(flags, &options.Broker, &s.passwordFile)
	flags.StringVar(&commands.List, "list-command", "",
		"a `command` that prints the id of each instance that exists, one on a line")
	flags.StringVar(&commands.ListBindings, "list-bindings-command", "",
		"a `command` that prints the ids of the instance and the binding for each binding that exists")
	flags.StringVar(&commands.Settings, "settings-command", "",
		"a `command` that prints the id of each instance that was updated, a space, and its settings as an object of JSON "+
			"with plan_id, parameters and version")
	flags.Var(choiceOf(&options.Without, "", run.WithoutUpdates, run.WithoutNumbers), "without",
		"what is left out: updates of instances, or the numbers of Updates (x-osb-update)")
	flags.StringVar(&commands.Restart, "restart-command", "",
		"a `command` that kills the broker and starts it again; it is run at random moments")
	flags.StringVar(&commands.Kill, "kill-command", "", "a `command` that kills the broker; with --start-command")
	flags.StringVar(&commands.Start, "start-command", "", "a `command` that starts the broker; with --kill-command")
	flags.Var(cli.Count(&options.Broker.Instances, 50, 2, 10000), "instances", "the most instances that a run creates")
	flags.Var(cli.Seconds(&options.Time, time.Minute), "seconds", "after which the faults end")
	flags.Var(cli.Seconds(&options.SettleTime, 2*time.Minute), "settle-seconds", "until everything has converged")
	s.addFaults(made)
	s.addMinimize(made, "shrink the list of faults to the shortest one that still loses one")
	flags.Var(cli.Seconds(&options.RequestTime, 3*time.Second), "request-seconds",
		"for which the platform waits for an answer")
	flags.Var(cli.Seconds(&options.Late, 6*time.Second), "late-seconds", "the bound of every delay")
	flags.Var(cli.Seconds(&options.Broker.RequestTime, 30*time.Second), "answer-seconds",
		"in which the broker answers a request")
	flags.Var(cli.Seconds(&options.Broker.OperationTime, 2*time.Minute), "operation-seconds",
		"for an asynchronous operation")
	flags.Var(cli.Seconds(&options.Broker.Pause, time.Second/2), "poll-seconds", "between two polls of an operation")
	flags.Var(cli.Seconds(&options.CleanUpTime, 5*time.Minute), "cleanup-seconds", "for the deletions at the end")
	flags.StringVar(&options.Journal, "journal", "",
		"a `directory`: the journal of the storm's platform is written to DIRECTORY/platform, for osb-audit")
	s.addReports(made)
}

// open reads the password and the list of faults, and opens a storm for the settings.
func (s *brokerSettings) open(running context.Context, stderr io.Writer) (opened storm, err error) {
	s.options.Broker.Tell = waits(running, stderr)
	if s.options.Broker.Password, err = passwordOf(s.passwordFile, stderr); err != nil {
		return opened, err
	}
	if err := s.fill(&s.options.Options); err != nil {
		return opened, err
	}
	of, err := run.NewBroker(s.options)
	if err != nil {
		return opened, err
	}
	intro := fmt.Sprintf("Each id begins with %s. The seed is %d.", of.Prefix(), s.seed)
	return storm{intro: intro, run: of.Run, close: func() error { return nil }}, nil
}
