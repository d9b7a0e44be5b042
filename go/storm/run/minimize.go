package run

import (
	"context"
	"errors"
	"fmt"
	"io"
	"sort"

	"pippinterm/storm/fault"
	"pippinterm/storm/report"
)

// A Minimum is the part of a report about a list of faults that was shrunk to the shortest one that still loses
// something.
type Minimum struct {
	Minimal      []string  `json:"minimal_fault_list,omitempty"` // nil unless a list was shrunk
	MinimalLost  []Finding `json:"minimal_lost,omitempty"`
	MinimizeRuns int       `json:"minimize_runs,omitempty"`
	// MinimizeEnded is why --minimize was ended before the list was the shortest, or empty.
	MinimizeEnded string `json:"minimize_ended,omitempty"`

	minimal      []fault.Injection
	minimalKills []report.Item // what happened to the programs in the run that MinimalLost is about
}

// A Candidate is a list of faults that may lose something.
type Candidate struct {
	List []fault.Injection
	Only map[int]bool // the numbers of the instances that the faults are about, or nil for all
}

// tries is how often a list of faults is tried before it counts as one that loses nothing: what is lost may depend on
// chance at the broker or the platform, too.
const tries = 2

func (c Core) minimize(ctx context.Context, found *Result) {
	limited, cancel := context.WithTimeout(ctx, c.MinimizeTime)
	defer cancel()
	c.Report.shrink(limited, candidates(found), func(ctx context.Context, of Candidate) (*Result, error) {
		again, err := c.Once(ctx, &of)
		if err != nil && c.Stop != nil && ctx.Err() == nil {
			c.Stop(fmt.Errorf("--minimize: %w", err))
			cancel()
		}
		return again, err
	})
}

// shrink shrinks the list of the first candidate that loses something, and keeps it. once is a run with the faults of a
// candidate. One that fails has lost nothing. If ctx is done, the run that it has cut off doesn't count, and
// MinimizeEnded says that the list may not be the shortest.
func (r *Report) shrink(
	ctx context.Context, candidates []Candidate, once func(context.Context, Candidate) (*Result, error),
) {
	words := r.words()
	for _, of := range candidates {
		only := of.Only
		loses := func(ctx context.Context, list []fault.Injection) bool {
			return r.loses(ctx, func() (*Result, error) { return once(ctx, Candidate{list, only}) })
		}
		switch {
		case !loses(ctx, of.List):
			if ctx.Err() != nil {
				r.MinimizeEnded = whyMinimizeEnded(ctx) + " before a list was found that loses something"
				return
			}
			continue
		case loses(ctx, []fault.Injection{}):
			r.Minimal = []string{}
			r.Notes = append(r.Notes, fmt.Sprintf("--minimize: something is %s without any fault, too", words.lost))
			return
		}
		var isShortest bool
		r.minimal, isShortest = fault.Minimize(ctx, of.List, func(ctx context.Context, list []fault.Injection) bool {
			return len(list) > 0 && loses(ctx, list)
		})
		if r.Minimal = report.ListLines(r.minimal); !isShortest {
			r.MinimizeEnded = whyMinimizeEnded(ctx) + ": the list may not be the shortest"
		}
		return
	}
	if r.MinimizeRuns > 0 {
		r.Notes = append(r.Notes, fmt.Sprintf("--minimize: in %d %s, nothing was %s", r.MinimizeRuns, words.runs, words.lost))
	}
}

func whyMinimizeEnded(ctx context.Context) string {
	if errors.Is(ctx.Err(), context.DeadlineExceeded) {
		return "the time for --minimize was over"
	}
	return "--minimize was ended"
}

// loses reports whether one of some runs loses something. If so, its life is kept. A run that ctx has cut off doesn't
// count.
func (r *Report) loses(ctx context.Context, once func() (*Result, error)) bool {
	for try := 0; try < tries && ctx.Err() == nil; try++ {
		again, err := once()
		if ctx.Err() != nil {
			return false
		}
		if r.MinimizeRuns++; err == nil && again.IsLoser() {
			r.MinimalLost, r.minimalKills = r.findings(again, losses...), r.runOf(again).Kills()
			return true
		}
	}
	return false
}

// NeedsNoFault reports whether something is lost without any fault.
func (s *Minimum) NeedsNoFault() bool { return s.Minimal != nil && len(s.Minimal) == 0 }

// minimalTitle is what the list is called that was shrunk.
func (s *Minimum) minimalTitle() string {
	if s.MinimizeEnded != "" {
		return "A list of faults that still loses one"
	}
	return "The shortest list of faults that still loses one"
}

// minimalLines are the faults of the list that was shrunk, or say that it needs none. It is nil if no list was shrunk.
// lost is what the report calls what is lost: lost or abandoned.
func (s *Minimum) minimalLines(lost string) []string {
	if s.NeedsNoFault() {
		return []string{"none: something is " + lost + " without any fault"}
	}
	return s.Minimal
}

// writeMinimal writes the list that was shrunk for people, with what it loses, unless no list was shrunk.
func (s *Minimum) writeMinimal(w io.Writer, lost string) {
	if s.Minimal == nil {
		return
	}
	fmt.Fprintf(w, "\n%s (%d runs):\n", s.minimalTitle(), s.MinimizeRuns)
	for _, line := range s.minimalLines(lost) {
		fmt.Fprintf(w, "  %s\n", line)
	}
	report.WriteFindings(w, "with these faults", s.MinimalLost)
}

// replayList returns the list of faults that a further run is to have: the one that was shrunk, or else the given one.
func (s *Minimum) replayList(given []fault.Injection) []fault.Injection {
	if s.Minimal != nil {
		return s.minimal
	}
	return given
}

// mostCandidates is of how many lost instances the faults are tried alone.
const mostCandidates = 5

// candidates returns the faults of each instance of which something was lost, the shortest list first. The next one has
// the faults of all these instances. If there were restarts, the last ones have all restarts, and all faults: a restart
// is the fault of one instance, and another one may be lost by it. If each run has all instances, the last one has all
// faults, too.
func candidates(found *Result) (all []Candidate) {
	lost, restarted := map[int]bool{}, map[int]bool{}
	for _, difference := range found.Differences {
		subject, is := found.Keys.Subject(difference.Key.Instance, "")
		number := subject.Instance
		if is && difference.Kind.IsOneOf(losses...) && number < firstOther && !lost[number] {
			lost[number] = true
			all = append(all, part(found.Given, map[int]bool{number: true}))
		}
	}
	sort.SliceStable(all, func(one, other int) bool { return len(all[one].List) < len(all[other].List) })
	if len(all) > mostCandidates {
		all = all[:mostCandidates]
	}
	all = append(all, part(found.Given, lost))
	if found.Restarts > 0 {
		for _, injection := range found.Given {
			number := injection.Number.Instance
			restarted[number] = lost[number] || injection.Kind.IsRestart() || restarted[number]
		}
		all = append(all, part(found.Given, restarted))
	}
	if found.Restarts > 0 || found.OrdersAll {
		all = append(all, Candidate{List: found.Given})
	}
	return all
}

func part(given []fault.Injection, only map[int]bool) Candidate {
	of := Candidate{Only: only}
	for _, injection := range given {
		if only[injection.Number.Instance] {
			of.List = append(of.List, injection)
		}
	}
	return of
}
