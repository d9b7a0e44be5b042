// Program mutants changes the Go code in one place at a time, and looks whether a test notices:
//
//	mutants draw -seed N -count M [PACKAGE ..]
//	mutants check EDIT ..
//
// draw draws mutants of the packages at random, such as a negated condition or a dropped statement, and prints those
// that no test of their own package notices. check reads mutants from files, each with the tests that must notice it.
//
// All mutants of a run are in one build of each package: a function has its own body, and one for each of its mutants.
// The variable OSB_MUTANT switches one on. The sources stay as they are: `go build -overlay` reads the others.
package main

import (
	"context"
	"crypto/sha256"
	"encoding/json"
	"errors"
	"flag"
	"fmt"
	"io"
	"os"
	"os/signal"
	"path/filepath"
	"runtime"
	"sort"
	"strings"
	"syscall"
)

// The packages whose mutants are drawn if none are named: what has the order of writes, and what that stands on. They
// are below the current folder, because a pattern that begins with pippinterm doesn't match through a symbolic link.
var ordinary = []string{
	"./broker/backend/...", "./broker", "./internal/filelock", "./broker/journal", "./broker/postgres/...", "./broker/sqlite",
	"./platform", "./platform/client", "./platform/journal", "./platform/postgres", "./platform/sqlite",
	"./platform/vault", "./internal/ciphers", "./internal/cli/...", "./internal/httpserver/...", "./internal/journalfile",
	"./internal/latest", "./internal/logs", "./internal/pg", "./internal/secrets", "./internal/sqlitefile",
	"./internal/vault",
}

const usage = `usage:
    mutants draw -folder FOLDER [-seed N] [-count M] [-workers W] [PACKAGE ..]
        draws mutants at random, and prints those that no test of their own package notices
    mutants check -folder FOLDER [-workers W] EDIT ..
        each file has a mutant, and the tests that must notice it

FOLDER gets what is built, and what a run has found out: a run that was interrupted goes on.
`

// errMutants reports that a committed mutant isn't noticed. It is printed already.
var errMutants = errors.New("not each mutant is noticed")

func main() {
	ctx, stop := signal.NotifyContext(context.Background(), os.Interrupt, syscall.SIGTERM, syscall.SIGHUP)
	err := command(ctx, os.Args[1:], os.Stdout)
	stop()
	var wrong *wrongLine
	switch {
	case err == nil:
	case errors.As(err, &wrong):
		fmt.Fprintf(os.Stderr, "mutants: %v\n%s", err, usage)
		os.Exit(2)
	case errors.Is(err, context.Canceled):
		fmt.Fprintln(os.Stderr, "mutants: interrupted. The same command goes on where this one ended")
		os.Exit(1)
	case errors.Is(err, errNoPostgres):
		fmt.Fprintln(os.Stderr, "mutants:", err)
		os.Exit(78)
	default:
		fmt.Fprintln(os.Stderr, "mutants:", err)
		os.Exit(1)
	}
}

// A wrongLine is a command line that can't be parsed.
type wrongLine struct{ why string }

func (w *wrongLine) Error() string { return w.why }

// command runs what the words of a command line say.
func command(ctx context.Context, words []string, out io.Writer) error {
	if len(words) == 0 {
		return &wrongLine{"draw, or check?"}
	}
	options := flag.NewFlagSet(words[0], flag.ContinueOnError)
	options.SetOutput(io.Discard)
	folder := options.String("folder", "", "")
	many := options.Int("workers", runtime.NumCPU(), "")
	seed, count := options.Int64("seed", 1, ""), options.Int("count", 100, "")
	if err := options.Parse(words[1:]); err != nil {
		return &wrongLine{err.Error()}
	}
	if *count < 1 || *many < 1 {
		return &wrongLine{"at least one mutant, and one worker"}
	}
	if !filepath.IsAbs(*folder) { // scripts/go has changed the current folder
		return &wrongLine{"-folder needs an absolute path"}
	}
	switch {
	case words[0] == "draw":
		return (&drawing{out: out, folder: *folder, seed: *seed, count: *count, many: *many}).run(ctx, options.Args())
	case words[0] == "check" && options.NArg() > 0:
		return checkEdits(ctx, out, *folder, *many, options.Args())
	}
	return &wrongLine{"draw, or check EDIT ..?"}
}

// A drawing is a run of drawn mutants.
type drawing struct {
	out         io.Writer
	folder      string
	seed        int64
	count, many int
}

// tags are those of the programs, so that most packages are in Go's cache.
const tags = "libsqlite3,netgo,osusergo,sqlite_omit_load_extension"

func (d *drawing) run(ctx context.Context, patterns []string) error {
	if len(patterns) == 0 {
		patterns = ordinary
	}
	packages, err := load(ctx, tags, patterns...)
	if err != nil {
		return err
	}
	mutants, err := draw(packages, d.seed, d.count)
	if err != nil {
		return err
	}
	fmt.Fprintf(d.out, "%d mutants are drawn with the seed %d, and built at once\n", len(mutants), d.seed)
	packages = with(packages, mutants) // the tests of another package decide nothing
	folder := filepath.Join(d.folder, digest(packages, mutants))
	built := filepath.Join(folder, "built")
	binaries, err := build(ctx, built, tags, d.many, packages, mutants)
	if err != nil {
		return err
	}
	kept, err := openResults(filepath.Join(folder, "results.jsonl"))
	if err != nil {
		return err
	}
	defer kept.close()
	h := &hunt{out: d.out, results: kept, binaries: binaries, mutants: mutants, many: d.many}
	if err := h.run(ctx); err != nil {
		return err
	}
	if err := os.RemoveAll(built); err != nil { // hundreds of megabytes
		return err
	}
	return report(d.out, kept, packages, mutants)
}

// digest returns a name for mutants of these sources.
func digest(packages []*pkg, mutants []mutant) string {
	sum := sha256.New()
	for _, p := range packages {
		files, err := filepath.Glob(filepath.Join(p.dir, "*.go")) // the tests, too
		if err != nil {
			panic(err) // of the pattern
		}
		sort.Strings(files)
		for _, file := range files {
			text, _ := os.ReadFile(file) // a file that is away has another digest
			fmt.Fprintf(sum, "%s %d\n%s", file, len(text), text)
		}
	}
	_ = json.NewEncoder(sum).Encode(mutants)
	return fmt.Sprintf("%x", sum.Sum(nil)[:8])
}

// report prints the mutants that no test has noticed, and the counts.
func report(out io.Writer, kept *results, packages []*pkg, mutants []mutant) error {
	texts := make(map[string][]byte)
	for _, p := range packages {
		for _, source := range p.sources {
			texts[source.path] = source.text
		}
	}
	counts := make(map[string]int)
	for _, mutant := range mutants {
		ending := kept.fate(mutant.ID).Ending
		counts[ending]++
		if ending == survived || ending == unreached {
			fmt.Fprintf(out, "\n%s: %s\n%s", ending, mutant, mutant.diff(texts[mutant.File]))
		}
	}
	words := []string{fmt.Sprintf("%d mutants", len(mutants))}
	for _, state := range []string{killed, string(hung), survived, unreached} {
		words = append(words, fmt.Sprintf("%d %s", counts[state], state))
	}
	_, err := fmt.Fprintf(out, "\n%s\n", strings.Join(words, ", "))
	return err
}
