package run

import (
	"context"
	"errors"
	"fmt"
	"strings"
	"testing"

	"pippinterm/internal/diff"
	"pippinterm/storm/fault"
	"pippinterm/storm/stormtest"
)

func listOf(t *testing.T, text string) []fault.Injection {
	t.Helper()
	return diff.Value(fault.ReadList(strings.NewReader(text)))(t)
}

func contains(list []fault.Injection, needed string) bool {
	words := strings.Fields(needed)
	for at := 0; at < len(words); at += 2 {
		if !strings.Contains(fmt.Sprint(list), words[at]+" "+words[at+1]) {
			return false
		}
	}
	return true
}

// The faults of each lost instance are tried alone, the fewest first, and of five instances at most. The next are those
// of all, and the restarts. An instance whose number isn't one of a life isn't tried: in another run, another instance
// may have that number.
func TestCandidates(t *testing.T) {
	k := newKeys(func(number int) string { return fmt.Sprint("id-", number) })
	found := &Result{Keys: k}
	lists := func(of string, lost ...Difference) (all []string) {
		found.Given, found.Differences = listOf(t, strings.ReplaceAll(of, ", ", "\n")), lost
		for _, candidate := range candidates(found) {
			all = append(all, strings.Trim(strings.ReplaceAll(fmt.Sprint(candidate.List), "up ", "up, "), "[]"))
		}
		return all
	}
	of := func(number int) Difference { return Difference{Key: k.instance(number)} }
	two, three := "1.1 hang-up, 1.2 hang-up", "4/1.1 hang-up, 4/1.2 hang-up, 4.3 hang-up"
	got := lists(two+", 2.1 hang-up, 3.1 hang-up, "+three, of(4), of(1), of(2), of(1), of(9))
	diff.Check(t, got, []string{"", "2.1 hang-up", two, three, two + ", 2.1 hang-up, " + three}, "the lists")
	got = lists(two, of(1), of(2), of(3), of(4), of(5), of(6), of(7))
	diff.Equal(t, len(got), mostCandidates+1, "candidates of seven")

	other := Difference{Key: Key{Instance: "another"}}
	if subject, _ := k.SubjectOrNew(other.Key.Instance, ""); subject.Instance != firstOther {
		t.Fatalf("another instance: got the number %s, want the first of the others", subject)
	}
	stuck, isFalse := of(3), of(2)
	stuck.Kind, isFalse.Kind = Stuck, False
	lost := []Difference{of(1), of(1), isFalse, stuck, other}
	ofLost := two + ", 2.1 hang-up"
	given := fmt.Sprintf("%s, 3.1 restart-after, 4.1 hang-up, %d.1 hang-up", ofLost, firstOther)
	wanted := []string{"2.1 hang-up", two, ofLost}
	diff.Check(t, lists(given, lost...), wanted, "the lists with others")
	found.Restarts = 1
	wanted = append(wanted, ofLost+", 3.1 restart-after", strings.ReplaceAll(given, "after, ", "after "))
	diff.Check(t, lists(given, lost...), wanted, "the lists with restarts")
}

// The first candidate that loses something is shrunk. A list that loses nothing is tried twice, and none is tried again
// once it is known that something is lost without faults. A run that was cut off says nothing, and a list that it has
// cut short isn't called the shortest, in no report.
func TestShrink(t *testing.T) {
	const one, four = "1.1 hang-up\n1.2 answer-lost\n", "2.1 hang-up\n2.2 answer-slow\n2.3 answer-lost\n2.4 hang-up"
	const isCut = "the time for --minimize was over: the list may not be the shortest"
	const notFound = "the time for --minimize was over before a list was found that loses something"
	const anyway = "--minimize: something is lost without any fault, too"
	const nothing = "--minimize: in %d runs with the faults of the lost instances alone, nothing was lost"
	all, shortest := strings.Split(four, "\n"), []string{"2.3 answer-lost"}
	for name, test := range map[string]struct {
		first   string // the list of a candidate before the other one, or empty
		needed  string // without these faults, nothing is lost
		cutAt   int    // the number of the run that is cut off, or 0
		lost    bool   // that run has lost something before
		fails   bool   // each run fails
		runs    int    // those that count
		minimal []string
		ended   string
		note    string
	}{
		"the second list":        {one, "2.3 answer-lost", 0, false, false, 9, shortest, "", ""},
		"two faults":             {one, "2.1 hang-up 2.4 hang-up", 0, false, false, 33, []string{"2.1 hang-up", "2.4 hang-up"}, "", ""},
		"no fault":               {one, "", 0, false, false, 2, []string{}, "", anyway},
		"nothing":                {one, "3.1 hang-up", 0, false, false, 4, nil, "", fmt.Sprintf(nothing, 4)},
		"failing":                {"", "", 0, false, true, tries, nil, "", fmt.Sprintf(nothing, tries)},
		"cut at the first":       {"", "2.3 answer-lost", 1, false, false, 0, nil, notFound, ""},
		"cut as it loses":        {"", "2.3 answer-lost", 1, true, false, 0, nil, notFound, ""},
		"cut at the second":      {"", "3.1 hang-up", 2, false, false, 1, nil, notFound, ""},
		"cut without faults":     {"", "2.3 answer-lost", 3, true, false, 2, all, isCut, ""},
		"cut again without":      {"", "2.3 answer-lost", 2, false, false, 1, all, isCut, ""},
		"cut while it shrinks":   {"", "2.3 answer-lost", 7, true, false, 6, []string{"2.3 answer-lost", "2.4 hang-up"}, isCut, ""},
		"cut after it has ended": {"", "2.3 answer-lost", 100, false, false, 7, shortest, "", ""},
	} {
		t.Run(name, func(t *testing.T) {
			got, runs := emptyReport(), 0
			ctx, cancel := context.WithCancel(context.Background())
			defer cancel()
			candidates := []Candidate{
				{List: listOf(t, test.first), Only: map[int]bool{1: true}}, {List: listOf(t, four), Only: map[int]bool{2: true}},
			}
			if test.first == "" {
				candidates = candidates[1:]
			}
			got.shrink(expiringContext{ctx}, candidates, func(_ context.Context, of Candidate) (*Result, error) {
				if len(of.List) > 0 && !of.Only[of.List[0].Number.Instance] {
					t.Errorf("got %v tried with the lives of %v, want its own", of.List, of.Only)
				}
				found, loses := &Result{Keys: newKeys(nil)}, contains(of.List, test.needed)
				if runs++; runs == test.cutAt {
					loses = test.lost
					cancel()
				}
				if loses {
					found.Differences = []Difference{{Kind: Disagree, What: fmt.Sprint(of.List)}}
				}
				if test.fails {
					return found, errors.New("no")
				}
				return found, nil
			})
			diff.Check(t, got.Minimal, test.minimal, "the list after %d runs", runs)
			diff.Equal(t, got.MinimizeEnded, test.ended, "the end")
			diff.Equal(t, strings.Join(got.Notes, "\n"), test.note, "the notes")
			diff.Equal(t, got.MinimizeRuns, test.runs, "the runs that count")
			if test.ended != "" {
				diff.Equal(t, runs, test.cutAt, "the runs")
			}
			diff.Equal(t, got.NeedsNoFault(), name == "no fault", "no fault is needed")
			diff.Equal(t, len(got.replayList(nil)), len(test.minimal), "faults to replay")
			if hasLife := len(got.MinimalLost) == 1; hasLife != (test.minimal != nil) {
				t.Fatalf("got the lives %v, want one exactly with a list", got.MinimalLost)
			}
			if test.minimal != nil {
				diff.Equal(t, got.MinimalLost[0].What, fmt.Sprint(got.replayList(nil)), "the list of the life")
			}
			for form, text := range stormtest.Forms(t, got) {
				isCalledShortest := strings.Contains(text, "shortest list") || strings.Contains(text, "Shortest list")
				isShortest := test.minimal != nil && test.ended == ""
				if form != "JSON" && isCalledShortest != isShortest || !strings.Contains(text, test.ended) {
					t.Errorf("%s: got %s, want the end %q", form, text, test.ended)
				}
			}
		})
	}
}

// An expiringContext is one whose end is that of a time.
type expiringContext struct{ context.Context }

func (e expiringContext) Err() error {
	if e.Context.Err() == nil {
		return nil
	}
	return context.DeadlineExceeded
}
