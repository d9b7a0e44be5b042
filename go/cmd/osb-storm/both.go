package main

import (
	"context"
	"fmt"
	"io"
	"os"
	"path/filepath"
	"strings"
	"time"

	"github.com/spf13/cobra"

	"pippinterm/internal/cli"
	"pippinterm/storm/run"
)

type bothSettings struct {
	stormSettings
	options run.BothOptions
}

const bothHelp = `Run osb-broker and osb-platform with a network between them that loses, delays, repeats and garbles
requests and answers. Kill both programs with SIGKILL again and again, pause them with SIGSTOP for longer than a request
lasts, and start them again. Find out what was lost: instances and bindings that exist without a record, records that
say ready though nothing exists, records that don't converge, and whatever else the platform's records, the broker's
rows and the resources disagree in.

The stores, the folders that are sold, and the logs are in a temporary folder, which is deleted at the end, also after
SIGINT, SIGTERM or SIGHUP. A storm with --store postgresql or --backend postgresql needs --postgresql or
--kill-database.

A storm goes on until it has tried everything, for at most twice --seconds, or 240 seconds if that is more: until 20
records of each kind were compared, each kind of fault has met a request, and each program was killed twice and paused
once. With --crash-points, both programs and the commands are also killed at each of their named crash points. Build the
programs with the tag crashpoints for that.

environment:
  OSB_BROKER               the program osb-broker, if --broker-program isn't given
  OSB_PLATFORM             the program osb-platform, if --platform-program isn't given

Without them, both programs are looked for beside osb-storm.

exit status: 0 nothing was lost; 1 something was lost, a record was false, something disagrees, not everything
converged, an answer broke a MUST, a program ended by itself, not everything was tried, or a signal ended the run; 2
the command line can't be parsed; 78 change something first: an option, a file, a program or a server; 70 any other
error`

func bothCommand(v *cli.Verdict) *cobra.Command {
	s := &bothSettings{}
	run := func(c *cobra.Command) (int, error) {
		s.chooseSettleTime(c)
		return s.run(c, s.open)
	}
	return commandOf(v, "both",
		"Run osb-broker and osb-platform through faults and kills, and find what was lost", bothHelp, "", s.add, run)
}

// chooseSettleTime shortens the time to converge if a part of the design is taken out, unless a time is given: what is
// left behind then may keep an instance from being deleted.
func (s *bothSettings) chooseSettleTime(c *cobra.Command) {
	const without = 40 * time.Second
	if s.options.Without != "" && !c.Flags().Changed("settle-seconds") {
		s.options.SettleTime = without
	}
}

func (s *bothSettings) add(made *cobra.Command) {
	flags, options := made.Flags(), &s.options
	flags.StringVar(&options.Broker, "broker-program", "", "the `program` osb-broker")
	flags.StringVar(&options.Platform, "platform-program", "", "the `program` osb-platform")
	flags.Var(cli.Count(&options.Workers, 1, 1, 16), "workers", "how many workers the platform has")
	flags.Var(cli.Count(&options.Brokers, 1, 1, 16), "brokers",
		"how many brokers serve over one store; each request reaches one of them, by chance")
	flags.BoolVar(&options.HAProxy, "haproxy", false, "let HAProxy stand in front of the brokers")
	flags.Var(choiceOf(&options.Store, run.InFiles, run.InFiles, run.InPostgreSQL), "store",
		"where the records and the broker's rows are: `place`, sqlite or postgresql")
	flags.Var(choiceOf(&options.Backend, run.AsFolders, run.AsFolders, run.InPostgreSQL), "backend",
		"what the broker sells: `kind`, folders or postgresql")
	flags.StringVar(&options.PostgreSQL, "postgresql", "",
		"the `URL` of a PostgreSQL server for them. The storm creates a database of its own there, and needs the rights to "+
			"create databases and roles")
	flags.Var(cli.Count(&options.KillDatabase, 0, 0, 100), "kill-database",
		"how often PostgreSQL is killed, and how often it is paused. It is a server of the storm's own then")
	flags.BoolVar(&options.Unruly, "unruly", false,
		"a second client creates and deletes bindings of any instance at any time, so only the broker's rules protect them")
	flags.Var(choiceOf(&options.Without, "", run.Parts()...), "without",
		"take a `part` of the design out, and succeed only if the storm finds what that leaves behind: "+
			strings.Join(run.Parts(), ", ")+". The programs need the build tag storm")
	flags.Var(cli.Count(&options.Instances, 100, 1, 10000), "instances",
		"how many instances are created, and as many again if not everything is done after that")
	flags.Var(cli.Seconds(&options.Time, time.Minute), "seconds", "after which the faults and the kills end")
	flags.Var(cli.Seconds(&options.SettleTime, 2*time.Minute), "settle-seconds", "until everything has converged")
	flags.Var(choiceOf(&options.CrashPoints, "", run.AllPoints, run.SomePoints), "crash-points",
		"kill both programs and the commands at their crash points, too: `which`, all or some. With some, it is no failure "+
			"if a crash point isn't visited")
	flags.Lookup("crash-points").NoOptDefVal = run.AllPoints
	flags.BoolVar(&options.Calm, "calm", false,
		"kill and pause nothing, and let the operator do nothing besides the lives: nothing but the faults comes")
	s.addFaults(made)
	s.addMinimize(made, "if something is lost, shrink the list of faults to the shortest one that still loses one in a "+
		"calm storm, as with --calm. What needs a kill, a pause or --unruly can't be shrunk")
	flags.Var(cli.Seconds(&options.RequestTime, 2*time.Second), "request-seconds",
		"for which the platform waits for an answer")
	flags.Var(cli.Seconds(&options.Late, 6*time.Second), "late-seconds", "the bound of every delay")
	flags.StringVar(&options.Journal, "journal", "",
		"a `directory` for the journals of both programs, which get --journal DIRECTORY/broker and DIRECTORY/platform")
	s.addReports(made)
}

// open finds the programs, reads the list of faults, and opens a storm of both.
func (s *bothSettings) open(running context.Context, _ io.Writer) (opened storm, err error) {
	for _, test := range []struct {
		to             *string
		name, variable string
	}{{&s.options.Broker, "osb-broker", "OSB_BROKER"}, {&s.options.Platform, "osb-platform", "OSB_PLATFORM"}} {
		if *test.to, err = programOf(*test.to, test.name, test.variable); err != nil {
			return opened, err
		}
	}
	if err := s.fill(&s.options.Options); err != nil {
		return opened, err
	}
	both, err := run.NewBoth(running, s.options)
	if err != nil {
		return opened, err
	}
	start := func(running, _ context.Context) (*run.Report, error) {
		found, err := both.Run(running)
		return found, cli.Unusable(err)
	}
	intro := fmt.Sprintf("The seed is %d.", s.seed)
	return storm{intro: intro, run: start, close: func() error { return cli.Unusable(both.Close()) }}, nil
}

// programOf returns the path of a program: the one that an option or a variable names, or the one beside this program.
func programOf(given, name, variable string) (string, error) {
	if given == "" {
		given = os.Getenv(variable)
	}
	if given != "" {
		return filepath.Abs(given)
	}
	own, err := os.Executable()
	if err != nil {
		return "", err
	}
	found := filepath.Join(filepath.Dir(own), name)
	if _, err := os.Stat(found); err != nil {
		return "", fmt.Errorf("there is no %s: run ./%s --help once, which builds it, or name it with --%s-program",
			found, name, name[len("osb-"):])
	}
	return found, nil
}
