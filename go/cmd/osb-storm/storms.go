package main

import (
	"context"
	"errors"
	"fmt"
	"io"
	"io/fs"
	"math/rand"
	"os"
	"time"

	"github.com/spf13/cobra"

	"pippinterm/internal/cli"
	"pippinterm/internal/secrets"
	"pippinterm/storm/conform"
	"pippinterm/storm/fault"
	"pippinterm/storm/run"
)

// stormSettings are the options of all storms.
type stormSettings struct {
	passwordFile         string
	seed                 int64
	percent              int
	faultsFile, faultsTo string
	json, html           string
	minimize             bool
	minimizeTime         time.Duration
}

func (s *stormSettings) addFaults(made *cobra.Command) {
	flags := made.Flags()
	flags.Var(cli.Count(&s.percent, 40, 0, 100), "fault-percent", "how many of 100 requests have a fault")
	flags.Int64Var(&s.seed, "seed", 0, "a `number` that chooses the faults. Default: by chance; it is printed")
	flags.StringVar(&s.faultsFile, "faults", "",
		"a `file` with the faults, in place of those by the seed: on each line a request and a kind, such as "+
			"12.3 answer-lost")
	flags.StringVar(&s.faultsTo, "faults-to", "", "a `file` to which the faults are written, for --faults")
}

// addMinimize adds the options about a list of faults that is shrunk.
func (s *stormSettings) addMinimize(made *cobra.Command, usage string) {
	flags := made.Flags()
	flags.BoolVar(&s.minimize, "minimize", false, usage)
	flags.Var(cli.Seconds(&s.minimizeTime, 10*time.Minute), "minimize-seconds",
		"for --minimize. If the time is over before, the list may not be the shortest")
}

func (s *stormSettings) addReports(made *cobra.Command) {
	flags := made.Flags()
	flags.StringVar(&s.json, "json", "", "a `file` to which the report is written as JSON, too")
	flags.StringVar(&s.html, "html", "", "a `file` to which the report is written as one page of HTML, too")
}

// chooseSeed chooses a seed by chance, unless one is given.
func (s *stormSettings) chooseSeed(c *cobra.Command) {
	if !c.Flags().Changed("seed") {
		s.seed = rand.New(rand.NewSource(time.Now().UnixNano())).Int63n(1 << 32)
	}
}

// fill writes the seed, the faults and the time for --minimize into options.
func (s *stormSettings) fill(options *run.Options) (err error) {
	options.Seed, options.Share = s.seed, float64(s.percent)/100
	if s.minimize {
		options.MinimizeTime = s.minimizeTime
	}
	options.List, err = s.list()
	return err
}

// passwordOf reads the password from a file, or else from the environment.
func passwordOf(file string, warnings io.Writer) (string, error) {
	passwords, warning, err := secrets.Passwords("OSB_BROKER_PASSWORD", file)
	if err != nil {
		return "", fmt.Errorf("the password: %w", err)
	}
	if warning != "" {
		fmt.Fprintf(warnings, "osb-storm: %s\n", warning)
	}
	return passwords[0], nil
}

// list reads the list of faults. It is nil if there is no file, and isn't if the file has no fault.
func (s *stormSettings) list() ([]fault.Injection, error) {
	if s.faultsFile == "" {
		return nil, nil
	}
	file, err := os.Open(s.faultsFile)
	if err != nil {
		return nil, err
	}
	defer file.Close()
	list, err := fault.ReadList(file)
	if err != nil {
		return nil, fmt.Errorf("%s: %w", s.faultsFile, err)
	}
	return append([]fault.Injection{}, list...), nil
}

// A storm is one that was opened, of any kind.
type storm struct {
	intro string // what is printed before it runs
	run   func(running, deleting context.Context) (*run.Report, error)
	close func() error
}

// run opens a storm, runs it, and writes the reports. It returns the exit status.
func (s *stormSettings) run(
	c *cobra.Command, open func(running context.Context, stderr io.Writer) (storm, error),
) (int, error) {
	s.chooseSeed(c)
	out, stderr := c.OutOrStdout(), c.ErrOrStderr()
	files, err := openReports(s.json, s.html, s.faultsTo)
	if err != nil {
		return 0, err
	}
	defer files.close()
	running, deleting, forget := untilSignals(c.Context())
	defer forget()
	storm, err := open(running, stderr)
	if err != nil {
		return 0, cli.Unusable(err)
	}
	fmt.Fprint(out, storm.intro+"\n\n")
	found, failure := storm.run(running, deleting)
	closing := storm.close()
	if failure != nil {
		return statusOfFailure(found, failure, out, stderr)
	}
	status, failure := statusOf(found, closing)
	unwritten := files.write(out, found.WriteText, found.WriteJSON, found.WriteHTML, found.WriteFaults)
	return conclude(status, failure, unwritten, stderr)
}

// statusOf returns the exit status for a report, or what the storm has failed at. closing is the error of its close.
func statusOf(found *run.Report, closing error) (int, error) {
	switch {
	case closing != nil:
		return 0, closing
	case len(found.Leftovers) > 0:
		return statusLeft, nil
	case len(found.Failed) > 0:
		return 0, errors.New(found.Failed[0])
	case !found.IsClean():
		return statusDeviates, nil
	}
	return cli.StatusDone, nil
}

// statusOfFailure returns the exit status of a storm that has failed, and writes what couldn't be deleted.
func statusOfFailure(found *run.Report, failure error, out, stderr io.Writer) (int, error) {
	for _, leftover := range found.Leftovers {
		fmt.Fprintf(out, "not deleted: %s\n", leftover)
	}
	switch {
	case len(found.Leftovers) > 0:
		fmt.Fprintf(stderr, "osb-storm: %v\n", failure)
		return statusLeft, nil
	case errors.Is(failure, conform.ErrUnreachable):
		fmt.Fprintf(stderr, "osb-storm: %v\n", failure)
		return statusUnreachable, nil
	case errors.Is(failure, conform.ErrLogin), errors.Is(failure, conform.ErrNoPlan),
		errors.Is(failure, run.ErrTrial), errors.Is(failure, run.ErrList):
		return 0, cli.Unusable(failure)
	}
	return 0, failure
}

// commandOf returns a command. required is the option without which the command isn't run, or "". run returns the exit
// status.
func commandOf(
	v *cli.Verdict, use, short, long, required string, add func(*cobra.Command), run func(*cobra.Command) (int, error),
) *cobra.Command {
	made := &cobra.Command{
		Use: use, Short: short, Long: long,
		RunE: func(c *cobra.Command, _ []string) (err error) {
			v.Status, err = run(c)
			return err
		},
	}
	cli.WrapUsage(made)
	made.Flags().SortFlags = false
	add(made)
	if required == "" {
		return made
	}
	if err := made.MarkFlagRequired(required); err != nil {
		panic(err) // there is no such flag
	}
	return made
}

// A reportFile is a file for a report. It is opened before the run, so that no report is lost because of its name. It
// is nil if there is no name.
type reportFile struct {
	*os.File
	isNew, isWritten bool
}

type reportFiles []*reportFile

// openReports opens a file for each name. Until write, it changes no file that was there before.
func openReports(names ...string) (files reportFiles, err error) {
	for _, name := range names {
		file, err := openReport(name)
		if err != nil {
			files.close()
			return nil, cli.Unusable(fmt.Errorf("the report can't be written: %w", err))
		}
		files = append(files, file)
	}
	return files, nil
}

func openReport(name string) (*reportFile, error) {
	if name == "" {
		return nil, nil
	}
	file, err := os.OpenFile(name, os.O_WRONLY|os.O_CREATE|os.O_EXCL, 0o666)
	if errors.Is(err, fs.ErrExist) {
		file, err = os.OpenFile(name, os.O_WRONLY|os.O_CREATE, 0o666)
		return &reportFile{File: file}, err
	}
	return &reportFile{File: file, isNew: true}, err
}

// write writes the report to out, and in the form of each file into this file. It goes on after an error, and returns
// the first one.
func (f reportFiles) write(out io.Writer, text func(io.Writer) error, forms ...func(io.Writer) error) error {
	first := text(out)
	for at, file := range f {
		if file == nil {
			continue
		}
		if err := file.replace(forms[at]); err != nil && first == nil {
			first = err
		}
	}
	if first != nil {
		return fmt.Errorf("the report can't be written: %w", first)
	}
	return nil
}

// replace writes a report in place of what the file has.
func (f *reportFile) replace(write func(io.Writer) error) error {
	f.isWritten = true
	state, err := f.Stat()
	if err == nil && state.Mode().IsRegular() {
		err = f.Truncate(0)
	}
	if err != nil {
		return err
	}
	return write(f)
}

// close closes the files, and deletes those that are new and have no report.
func (f reportFiles) close() {
	for _, file := range f {
		if file == nil {
			continue
		}
		_ = file.Close()
		if file.isNew && !file.isWritten {
			_ = os.Remove(file.Name())
		}
	}
}

// conclude returns the exit status of a run, and its error. unwritten is the error of its reports. If the run has
// found something, or has failed, unwritten changes neither.
func conclude(status int, failure, unwritten error, stderr io.Writer) (int, error) {
	switch {
	case unwritten == nil:
		return status, failure
	case status == cli.StatusDone && failure == nil:
		return 0, unwritten
	}
	fmt.Fprintf(stderr, "osb-storm: %v\n", unwritten)
	return status, failure
}
