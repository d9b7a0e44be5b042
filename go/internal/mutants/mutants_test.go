package main

import (
	"bytes"
	"context"
	"io"
	"os"
	"path/filepath"
	"strings"
	"syscall"
	"testing"

	"pippinterm/internal/diff"
)

const toy = "pippinterm/internal/mutants/testdata/toy"

// loadToy returns the package testdata/toy.
func loadToy(t *testing.T) *pkg {
	t.Helper()
	packages := diff.Value(load(context.Background(), tags, toy))(t)
	diff.Equal(t, len(packages), 1, "packages")
	return packages[0]
}

// changeLine returns the line of a mutant with its change, without the blanks before it.
func changeLine(p *pkg, m mutant) string {
	_, after, _ := strings.Cut(m.diff(p.sources[0].text), "    + ")
	lines := strings.Split(strings.TrimSpace(after), "\n")
	for i := range lines {
		lines[i] = strings.TrimSpace(strings.TrimPrefix(strings.TrimSpace(lines[i]), "+"))
	}
	return strings.Join(lines, " ")
}

// TestPatterns: each pattern matches a package, through the symbolic link that scripts/go makes.
func TestPatterns(t *testing.T) {
	here := os.Getenv("PWD") // its path through the link, from which go list knows the packages' names
	top := filepath.Dir(filepath.Dir(here))
	t.Setenv("PWD", top)
	diff.Must(t, os.Chdir(top)) // where make mutants runs
	defer func() { _ = os.Chdir(here) }()
	packages := diff.Value(load(context.Background(), tags, ordinary...))(t)
	isLoaded := make(map[string]bool)
	for _, pkg := range packages {
		isLoaded[pkg.path] = true
	}
	for _, want := range []string{"broker/backend/postgres", "broker", "internal/pg", "platform/vault", "internal/httpserver"} {
		diff.Equal(t, isLoaded["pippinterm/"+want], true, "%d packages, and %s is one", len(packages), want)
	}
	none := "pippinterm/internal/cli/..."
	diff.ErrorContains(t, diff.Err(load(context.Background(), tags, toy, none)), none, "")
}

func TestKinds(t *testing.T) {
	p := loadToy(t)
	found := make(map[string]bool)
	for _, mutant := range find(p) {
		found[mutant.Function+": "+mutant.Kind+": "+changeLine(p, mutant)] = true
	}
	for _, want := range []string{
		"Odd: condition negated: if !(number%2 == 0) {",
		"Odd: condition always true: if ((number%2 == 0) || true) {",
		"Odd: condition always false: if ((number%2 == 0) && false) {",
		"Odd: comparison changed: if number%2 != 0 {",
		"Odd: nil for an error: return nil",
		"Wait: and for or: if isFirst || wait > 0 {",
		"Wait: comparison changed: if isFirst && wait >= 0 {",
		"Wait: duration times 1000: wait := (1000 * (time.Second))",
		"Wait: constant changed: if isFirst && wait > 1 {",
		"Sum: statement dropped: ",
		"Sum: statements swapped: last = number sum += last",
		"Sum: another variable: if last >= limit {",
		"Sum: constant changed: last := 1",
		"Name: case dropped: ",
		`Name: constant changed: return ""`,
		`Name: constant changed: return "x"`,
		"IsSmall: result negated: func IsSmall(number int) bool { return !(number < 10 == true) }",
		"IsSmall: constant changed: func IsSmall(number int) bool { return number < 10 == false }",
	} {
		diff.Equal(t, found[want], true, "the mutant %q is drawn", want)
	}
	for change := range found {
		diff.Equal(t, strings.HasPrefix(change, "Stop: "), false, "a crash point has the mutant %q", change)
	}
}

// TestDraw: the same seed and count give the same mutants, which all compile, and another seed gives others.
func TestDraw(t *testing.T) {
	var texts []string
	for _, seed := range []int64{1, 1, 2} {
		p := loadToy(t)
		drawn := diff.Value(draw([]*pkg{p}, seed, 20))(t)
		diff.Equal(t, len(drawn), 20, "mutants")
		if good, bad, err := compilable(p, drawn); err != nil || len(good) != 20 {
			t.Errorf("got %v, %v, want each to compile", bad, err)
		}
		var text strings.Builder
		for _, mutant := range drawn {
			text.WriteString(mutant.String() + mutant.diff(p.sources[0].text))
		}
		texts = append(texts, text.String())
	}
	diff.Equal(t, texts[1], texts[0], "the same seed")
	diff.Equal(t, texts[2] == texts[0], false, "the same mutants of another seed: %q", texts[2])
}

// TestMutantsThatDoNotCompile: each is left out, and no other one.
func TestMutantsThatDoNotCompile(t *testing.T) {
	p := loadToy(t)
	var mutants []mutant
	for _, mutant := range find(p) {
		if mutant.Function == "Odd" && mutant.Kind == dropped || mutant.Kind == negated {
			mutant.ID = len(mutants) + 1
			mutants = append(mutants, mutant)
		}
	}
	good, bad, err := compilable(p, mutants)
	if err != nil || len(bad) != 1 || len(good) != len(mutants)-1 {
		t.Errorf("got %v, %v, want one of %d that doesn't compile", bad, err, len(mutants))
	}
	for id := range bad {
		diff.Equal(t, changeLine(p, mutants[id-1]), "", "")
	}
}

// TestDrawing: a whole run prints which mutants survive, and the same run again knows all of it.
func TestDrawing(t *testing.T) {
	folder := t.TempDir()
	var out bytes.Buffer
	words := []string{"draw", "-folder", folder, "-count", "1000", "-workers", "4", toy}
	diff.Must(t, command(context.Background(), words, &out))
	diff.Contains(t, out.String(), "\nleft out: "+toy+" TestSkips: it skipped without a mutant\n", "")
	_, survivors, _ := strings.Cut(out.String(), "\n\n")
	for _, want := range []string{
		"survived: go/internal/mutants/testdata/toy/toy.go:21: Wait: duration times 1000\n    - \twait := time.Second\n" +
			"    + \twait := (1000 * (time.Second))\n",
		"unreached: go/internal/mutants/testdata/toy/toy.go:53: IsSmall: result negated\n",
	} {
		diff.Contains(t, survivors, want, "")
	}
	for _, other := range []string{"Name: constant", "Odd: condition", "Sum: statements swapped"} {
		diff.Lacks(t, survivors, other, "")
	}
	var again bytes.Buffer
	diff.Must(t, command(context.Background(), words, &again))
	diff.Contains(t, again.String(), "\n0 tests are run", "")
	diff.HasSuffix(t, again.String(), survivors, "")
}

// TestHang: a mutant with which a test doesn't end counts as killed.
func TestHang(t *testing.T) {
	t.Setenv("TOY_HANGS", "1")
	p := loadToy(t)
	var mutants []mutant
	for _, mutant := range find(p) {
		if mutant.Function == "Name" && mutant.New == `"x"` {
			mutant.ID = 1
			mutants = append(mutants, mutant)
		}
	}
	binaries := diff.Value(build(context.Background(), t.TempDir(), tags, 1, []*pkg{p}, mutants))(t)
	w := &worker{}
	found, err := w.do(context.Background(), run{binary: binaries[p.path], test: "TestHangs", mutant: 1, most: 1})
	diff.NoError(t, err, "")
	diff.Equal(t, found.ending, hung, "")
}

// TestTraceOfAnotherUser: what a test reaches is noted, also while it is another user.
func TestTraceOfAnotherUser(t *testing.T) {
	p := loadToy(t)
	drawn := diff.Value(draw([]*pkg{p}, 1, 20))(t)
	binaries := diff.Value(build(context.Background(), t.TempDir(), tags, 1, []*pkg{p}, drawn))(t)
	r := run{binary: binaries[p.path], test: "TestAsNobody", most: longestTest}
	found := diff.Value(trace(context.Background(), &worker{}, r))(t)
	diff.Equal(t, found.Ending, passed, "%+v", found)
	diff.Equal(t, len(found.Reaches) > 0, true, "it reaches some: %+v", found)
}

// TestInterruptedServer: pg_virtualenv ends the server itself, also after an interruption.
func TestInterruptedServer(t *testing.T) {
	folder := t.TempDir()
	ended := filepath.Join(folder, "ended")
	program := "#!/bin/sh\necho ready\ncat\ntouch " + ended + "\n"
	diff.Must(t, os.WriteFile(filepath.Join(folder, "pg_virtualenv"), []byte(program), 0o777))
	t.Setenv("PATH", folder+":"+os.Getenv("PATH"))
	ctx, cancel := context.WithCancel(context.Background())
	s := diff.Value(startServer(ctx))(t)
	if group, err := syscall.Getpgid(s.process.Process.Pid); err != nil || group == syscall.Getpgrp() {
		t.Errorf("got the process group %d, %v, want one that a terminal doesn't interrupt", group, err)
	}
	cancel()
	diff.NoError(t, s.close(), "")
	diff.NoError(t, diff.Err(os.Stat(ended)), "")
}

// TestFailsWithoutTheMutant: a test that fails without a mutant, too, doesn't count.
func TestFailsWithoutTheMutant(t *testing.T) {
	p := loadToy(t)
	drawn := diff.Value(draw([]*pkg{p}, 1, 1))(t)
	binaries := diff.Value(build(context.Background(), t.TempDir(), tags, 1, []*pkg{p}, drawn))(t)
	for fails, want := range map[string]string{"": survived, "always": survived, "with a mutant": killed} {
		t.Run("fails "+fails, func(t *testing.T) {
			t.Setenv("TOY_FAILS", fails)
			h := &hunt{out: io.Discard, binaries: binaries}
			v, err := h.judge(context.Background(), &worker{}, drawn[0], []tracedTest{{Package: p.path, Test: "TestFails"}})
			diff.NoError(t, err, "%q", fails)
			diff.Equal(t, v.Ending, want, "%q", fails)
		})
	}
}

// write writes an edit, and returns its path.
func write(t *testing.T, lines ...string) string {
	t.Helper()
	path := filepath.Join(t.TempDir(), "slip.edit")
	diff.Must(t, os.WriteFile(path, []byte(strings.Join(lines, "\n")+"\n"), 0o666))
	return path
}

func TestEdits(t *testing.T) {
	head := []string{"# The sum has the last one, too.", "file: internal/mutants/testdata/toy/toy.go", "function: Sum"}
	test, others := "test: internal/mutants/testdata/toy TestSum", "test: internal/mutants/testdata/toy TestName"
	swap := []string{"old: sum += last", "\t\tlast = number", "new: last = number", "\t\tsum += last"}
	for name, test := range map[string]struct {
		lines []string
		want  string // in the error, or in what is printed
	}{
		"noticed":       {append(append([]string{test}, head...), swap...), "1 mutants, each noticed\n"},
		"not noticed":   {append(append([]string{test + "s"}, head...), swap...), "TestSums skipped without a mutant"},
		"another test":  {append(append([]string{others}, head...), swap...), "passed with it"},
		"not there":     {append(append([]string{test}, head...), "old: sum += it", "new: "), "the old text 0 times"},
		"more than one": {append(append([]string{test}, head...), "old: last", "new: it"), "the old text 3 times"},
		"no function": {
			append(append([]string{test}, head[0], head[1], "function: Sums"), swap...), "has no function Sums",
		},
		"does not compile": {append(append([]string{test}, head...), "old: sum += last", "new: sum += 'x"), "isn't Go"},
		"another type":     {append(append([]string{test}, head...), "old: sum += last", "new: sum += test"), "doesn't compile"},
		"no test":          {append(append([]string{}, head...), swap...), "it needs a file"},
		"another line":     {append(append([]string{test, "tests: none"}, head...), swap...), "what is the line"},
	} {
		t.Run(name, func(t *testing.T) {
			var out bytes.Buffer
			err := command(context.Background(), []string{"check", "-folder", t.TempDir(), write(t, test.lines...)}, &out)
			got := out.String()
			if err != nil {
				got += err.Error()
			}
			diff.Contains(t, got, test.want, "")
			diff.Equal(t, err == nil, name == "noticed", "%v", err)
		})
	}
}
