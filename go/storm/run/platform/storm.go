// Package platform is a storm for a platform of anyone's: a broker that sells folders of its own, behind a proxy
// that loses, delays, repeats and garbles messages. At the end it finds what exists and the platform has abandoned, and
// which requests break the standard.
package platform

import (
	"context"
	"errors"
	"fmt"
	"io"
	"os"
	"strings"
	"syscall"
	"time"

	"pippinterm/storm/conform"
	"pippinterm/storm/fault"
	"pippinterm/storm/report"
	"pippinterm/storm/run"
	"pippinterm/storm/run/shell"
)

// A Storm lets a platform drive a broker of its own through faults. Use one goroutine.
type Storm struct {
	options Options
	folder  string
	shop    *shop
	proxy   *fault.Proxy
	capture *fault.Capture
	source  *fault.Source
	keys    *run.Keys
	events  []report.Event
	// restTime is how long the operations of the broker may take once no request arrives, and how long the last look
	// may take after a signal.
	restTime time.Duration
}

// Start opens the broker, and listens. Close ends it.
//
// Errors: a limit isn't above 0; options contradict each other; the user or the password can't be sent; those of the
// address and of the folder.
func Start(ctx context.Context, options Options) (s *Storm, err error) {
	if err := options.Check(options.demands()); err != nil {
		return nil, err
	}
	s = &Storm{
		options: options, capture: fault.NewCapture(), keys: run.NewKeys(), source: options.Source(fault.StandardWeights(false)),
		restTime: 2*options.OperationTime + 10*time.Second,
	}
	if s.folder, err = os.MkdirTemp(options.Folder, "osb-storm-"); err != nil {
		return nil, err
	}
	if s.shop, err = openShop(ctx, options, s.folder); err != nil {
		return nil, run.FirstError(err, os.RemoveAll(s.folder))
	}
	s.proxy, err = fault.Listen(fault.Options{
		Address: options.Address, Broker: s.shop.address, Source: s.source, Capture: s.capture, Subject: s.keys.SubjectOrNew,
		ForwardsOthers: true, RequestTime: options.RequestTime, Late: options.Late,
		AnswerTime: options.RequestTime + options.RequestTime/10 + options.OperationTime + time.Second,
	})
	if err != nil {
		return nil, run.FirstError(err, s.shop.close(), os.RemoveAll(s.folder))
	}
	return s, nil
}

// URL returns where the platform reaches the broker.
func (s *Storm) URL() string { return s.proxy.URL() }

// Close ends the broker, and deletes all that it has sold. No request is answered any more.
func (s *Storm) Close() error {
	s.proxy.Close()
	return run.FirstError(s.shop.close(), os.RemoveAll(s.folder))
}

// Run starts the order command, waits for the first request about an instance, has faults befall the requests for a
// time or until the command has ended, waits until the platform has cleaned up, and returns what it has abandoned. If
// MinimizeTime is above 0 and something was abandoned or a record was false, further runs at the same address shrink
// the list of faults. If ctx is done, the run ends at once. Afterwards no request is answered any more.
func (s *Storm) Run(ctx context.Context) *run.Report {
	into := s.newReport()
	once := func(ctx context.Context, of *run.Candidate) (*run.Result, error) {
		if of == nil {
			return s.once(ctx), nil
		}
		return s.again(ctx, of.List)
	}
	stop := func(err error) {
		to := &into.Failed
		if errors.Is(err, errIdle) {
			to = &into.Notes
		}
		*to = append(*to, err.Error())
	}
	_ = run.Core{Options: s.options.Options, Report: into, Once: once, Stop: stop}.Run(ctx) // no first run returns an error
	return into
}

func (s *Storm) newReport() *run.Report {
	into := run.NewReport(s.URL(), s.options.Seed, s.options.User, s.options.Password)
	into.IsOfPlatform, into.FirstPoll, into.Inventory = true, s.options.FirstPoll, knownByRequests
	if s.options.Commands.List != "" {
		into.Inventory = knownByList
	}
	return into
}

// The ways in which it is known what the platform has.
const (
	knownByList     = run.ByListCommand
	knownByRequests = "from the platform's requests alone: give --list-command to ask the platform"
)

func (s *Storm) once(ctx context.Context) *run.Result {
	found := &result{Result: run.Result{Keys: s.keys, OrdersAll: true}}
	var ordering *shell.Command // or nil
	var err error
	if s.options.Commands.Order != "" {
		ordering, err = shell.Start(s.options.Commands.Order, urlVariable+"="+s.URL())
	}
	if err != nil {
		found.Ended, found.Failed = "the order command can't be run", append(found.Failed, failedOrders(err).Error())
	} else {
		found.Ended = s.storm(ctx, ordering.Done())
	}
	if found.Ended == "" {
		s.source.End()
		s.note("ends the faults")
		calm := s.capture.Now()
		found.calm = calm
		found.Took, found.Converged = s.settle(ctx, calm)
	}
	if ctx.Err() != nil {
		found.Ended = run.EndedBefore
	}
	hadEnded := ordering.HasEnded()
	s.finish(ctx, found)
	s.endOrders(ordering, hadEnded, found)
	found.Failed = append(found.Failed, s.shop.failures()...)
	found.Events, found.Given, found.Unmet = s.events, s.source.Faults(), s.source.Unmet()
	found.Broken = judge(found.Exchanges, found.views)
	return &found.Result
}

// finish ends the requests, and looks at what is left.
func (s *Storm) finish(ctx context.Context, found *result) {
	s.proxy.Close()
	within, cancel := context.WithTimeout(context.Background(), s.restTime)
	defer cancel()
	if err := s.shop.rest(within); err != nil {
		found.Failed = append(found.Failed, err.Error())
	}
	s.lookLast(ctx, found)
	if found.Ended != "" { // nobody has waited
		found.Differences = found.Differences.Without(run.Stuck)
	}
}

// lookLast looks at what is left. Each list command has a limit of its own. Once ctx is done, all of it has restTime.
func (s *Storm) lookLast(ctx context.Context, found *result) {
	failed := found.Failed
	if ctx.Err() == nil {
		s.look(ctx, found)
		if ctx.Err() == nil || len(found.Failed) == len(failed) {
			return
		}
		found.Failed, found.Ended = failed, run.EndedBefore
	}
	within, cancel := context.WithTimeout(context.Background(), s.restTime)
	defer cancel()
	s.look(within, found)
}

func (s *Storm) note(what string) {
	s.events = append(s.events, report.Event{At: s.capture.Now(), Who: "osb-storm", What: what})
}

// storm waits for the first request, and then until the faults end. ordered is closed once the order command has ended,
// and is nil if there is none. It returns why the run has ended before, or "".
func (s *Storm) storm(ctx context.Context, ordered <-chan struct{}) string {
	waiting, cancel := context.WithTimeout(ctx, s.options.WaitTime)
	defer cancel()
	select {
	case <-s.keys.Began:
	case <-ordered:
		if len(s.keys.All()) == 0 {
			return nothingOrdered
		}
	case <-waiting.Done():
		return fmt.Sprintf("no request about an instance came within %v", s.options.WaitTime)
	}
	storming, end := context.WithTimeout(ctx, s.options.Time)
	defer end()
	select {
	case <-ordered:
	case <-storming.Done():
	}
	return ""
}

// settle waits until nothing is open any more, at most for the time to settle. It returns how long that took, and
// whether that happened.
func (s *Storm) settle(ctx context.Context, calm time.Duration) (took time.Duration, settled bool) {
	within, cancel := context.WithTimeout(ctx, s.options.SettleTime)
	defer cancel()
	for {
		if s.proxy.Pending() == 0 && s.isSettled(within, calm) {
			return s.capture.Now() - calm, true
		}
		if !fault.Sleep(within, lookEach) {
			return s.capture.Now() - calm, false
		}
	}
}

// isSettled reports whether nothing would be found now, and the platform doesn't wait for an operation.
func (s *Storm) isSettled(ctx context.Context, calm time.Duration) bool {
	exchanges := s.capture.Exchanges()
	for _, view := range viewsOf(exchanges) {
		if view.belief == creating || view.belief == deleting || view.belief == doubtful || view.belief == undeleted {
			return false
		}
	}
	found := &result{calm: calm}
	s.look(ctx, found)
	return len(found.Failed) == 0 && !found.IsLoser() && s.proxy.Pending() == 0
}

// A result is the result of a run, and what was known on the way.
type result struct {
	run.Result
	calm  time.Duration // when the faults ended
	views map[report.Key]view
}

// look compares what exists with what the platform has.
func (s *Storm) look(ctx context.Context, found *result) {
	found.Exchanges = s.capture.Exchanges()
	found.views = viewsOf(found.Exchanges)
	keys := s.keys.All()
	existing, err := s.shop.findExisting(ctx, keys)
	if err != nil {
		found.Failed = append(found.Failed, "what exists can't be seen: "+err.Error())
		return
	}
	listed, err := s.readLists(ctx)
	if err != nil {
		found.Failed = append(found.Failed, err.Error())
		return
	}
	compare(found, keys, existing, listed)
}

// A list is what the platform has by its own word. Each of the two is nil if there is no command for it.
type list struct{ instances, bindings map[report.Key]bool }

// of reports whether the platform has a key, and whether that is known.
func (l list) of(key report.Key) (has, isKnown bool) {
	if key.Binding != "" {
		return l.bindings[key], l.bindings != nil
	}
	return l.instances[key], l.instances != nil
}

func (s *Storm) readLists(ctx context.Context) (l list, err error) {
	for _, test := range []struct {
		to      *map[report.Key]bool
		command string
		ids     int
	}{{&l.instances, s.options.Commands.List, 1}, {&l.bindings, s.options.Commands.ListBindings, 2}} {
		if test.command == "" {
			continue
		}
		rows, err := shell.Rows(ctx, test.command, test.ids)
		if err != nil {
			return list{}, fmt.Errorf("the command %q: %w", test.command, err)
		}
		*test.to = map[report.Key]bool{}
		for _, words := range rows {
			key := report.Key{Instance: words[0]}
			if test.ids == 2 {
				key.Binding = words[1]
			}
			(*test.to)[key] = true
		}
	}
	return l, nil
}

// Options say where a Storm listens, and within which limits. Folder is the one in which that of the broker is
// created. The order command gets urlVariable in its environment.
type Options struct {
	run.Options
	Address        string // HOST:PORT, where the platform reaches the broker
	User, Password string // with which the platform logs in
	FirstPoll      bool   // the broker creates an instance of an asynchronous plan only once it is polled
	OperationTime  time.Duration
	WaitTime       time.Duration // for the first request about an instance
	Warnings       io.Writer     // gets the last lines of an order command that fails, or orders nothing; or nil
}

func (c Options) demands() run.Demands {
	return run.Demands{
		Conflicts: []run.Conflict{{
			Exists: c.MinimizeTime > 0 && c.Commands.Order == "",
			Reason: "--minimize needs --order-command: in each further run, the platform has to order the same again",
		}},
		Limits: []time.Duration{c.WaitTime, c.OperationTime}, NoRestart: "this broker isn't restarted",
	}
}

// urlVariable is the variable in which the order command gets the URL of the broker, without /v2.
const urlVariable = "OSB_STORM_URL"

// nothingOrdered is why a run has ended whose order command ended too early.
const nothingOrdered = "no request about an instance came until the order command ended"

func failedOrders(err error) error { return fmt.Errorf("the order command has failed: %w", err) }

// endOrders kills what is left of the order command. If the command ended while the broker listened, endOrders
// notes if it failed: one that fails later may fail because the broker is gone. If the command failed, or has
// ordered nothing, endOrders writes what it has printed last.
func (s *Storm) endOrders(o *shell.Command, hadEnded bool, found *result) {
	if o == nil {
		return
	}
	err := o.End()
	isFailure := hadEnded && err != nil
	if isFailure {
		found.Failed = append(found.Failed, failedOrders(err).Error())
	}
	if isFailure || found.Ended == nothingOrdered {
		s.warn(o.LastLines(), found.Exchanges)
	}
}

// warn writes the last lines of the order command, if there are any. The exchanges are those of the run, whose
// credentials the command may print.
func (s *Storm) warn(lines []string, exchanges []fault.Exchange) {
	if len(lines) == 0 || s.options.Warnings == nil {
		return
	}
	hide := report.NewHider(s.options.User, s.options.Password, exchanges)
	fmt.Fprintln(s.options.Warnings, "osb-storm: the last lines that the order command has printed:")
	for _, line := range lines {
		fmt.Fprintf(s.options.Warnings, "  %s\n", conform.Printable(hide.In(line)))
	}
}

// errIdle is the error of a further run in which no request about an instance arrived: nothing could be abandoned in
// it.
var errIdle = errors.New("in a further run")

// again is a further run, with a list of faults and with a broker that is empty and listens at the same address.
//
// Errors: errIdle; the run has failed; the broker can't be opened or closed.
func (s *Storm) again(ctx context.Context, list []fault.Injection) (*run.Result, error) {
	options := s.options
	options.Address, options.MinimizeTime = strings.TrimPrefix(s.URL(), "http://"), 0
	options.List = append([]fault.Injection{}, list...)
	storm, err := startAgain(ctx, options)
	if err != nil {
		return nil, err
	}
	found := storm.once(ctx)
	if err := storm.Close(); err != nil {
		return nil, err
	}
	switch {
	case len(found.Failed) > 0:
		return nil, errors.New(found.Failed[0])
	case found.Ended != "" && ctx.Err() == nil:
		return nil, fmt.Errorf("%w, %s", errIdle, found.Ended)
	}
	return found, nil
}

// portTime is for how long an address may be in use that another Storm has left: a connection of any program may have
// its port for a moment.
const portTime = 5 * time.Second

// startAgain is Start at an address that another Storm has left. The broker goes on until it is closed, and so doesn't
// end with ctx.
func startAgain(ctx context.Context, options Options) (*Storm, error) {
	for until := time.Now().Add(portTime); ; {
		storm, err := Start(context.Background(), options)
		if !errors.Is(err, syscall.EADDRINUSE) || time.Now().After(until) || !fault.Sleep(ctx, lookEach) {
			return storm, err
		}
	}
}
