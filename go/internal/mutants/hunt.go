package main

import (
	"bufio"
	"context"
	"crypto/rand"
	"encoding/hex"
	"encoding/json"
	"errors"
	"fmt"
	"io"
	"io/fs"
	"net"
	"os"
	"os/exec"
	"path/filepath"
	"sort"
	"strconv"
	"strings"
	"sync"
	"syscall"
	"time"

	"pippinterm/internal/child"
)

const (
	longestTest = 20 * time.Minute // without a mutant
	shortest    = time.Minute      // of the limits of a test with a mutant
	slower      = 10               // so many times as long as without the mutant isn't a hang yet
)

// A hunt runs the mutants of a run.
type hunt struct {
	out      io.Writer
	results  *results
	binaries map[string]binary
	mutants  []mutant
	many     int // workers

	mutex sync.Mutex // of out
}

// run runs what the results don't have yet: each test alone, to know which mutants it reaches, and then each mutant.
func (h *hunt) run(ctx context.Context) error {
	if err := h.trace(ctx); err != nil {
		return err
	}
	tests := h.testsOfMutants()
	left := those(h.mutants, func(m mutant) bool { return h.results.fate(m.ID).Ending == "" })
	done := len(h.mutants) - len(left)
	return parallel(ctx, h.many, len(left), func(ctx context.Context, w *worker, i int) error {
		found, err := h.judge(ctx, w, left[i], tests[left[i].ID])
		if err != nil {
			return err
		}
		if err := h.results.add(line{Fate: &found}); err != nil {
			return err
		}
		h.mutex.Lock()
		defer h.mutex.Unlock()
		done++
		fmt.Fprintf(h.out, "%d of %d: %s: %s\n", done, len(h.mutants), found.Ending, left[i])
		return nil
	})
}

// trace runs each test without a mutant.
func (h *hunt) trace(ctx context.Context) error {
	var runs []run
	for _, binary := range inOrder(h.binaries) {
		names, err := binary.tests(ctx)
		if err != nil {
			return err
		}
		for _, name := range names {
			if !h.results.isTraced(binary.pkg.path, name) {
				runs = append(runs, run{binary: binary, test: name, most: longestTest})
			}
		}
	}
	fmt.Fprintf(h.out, "%d tests are run without a mutant, to know which mutants they reach\n", len(runs))
	return parallel(ctx, h.many, len(runs), func(ctx context.Context, w *worker, i int) error {
		found, err := trace(ctx, w, runs[i])
		if err != nil {
			return err
		}
		if found.Ending != passed {
			h.print("left out: %s %s: it %s without a mutant\n", found.Package, found.Test, found.Ending)
		}
		return h.results.add(line{Traced: &found})
	})
}

// inOrder returns the binaries by their names.
func inOrder(binaries map[string]binary) (found []binary) {
	for _, binary := range binaries {
		found = append(found, binary)
	}
	sort.Slice(found, func(i, j int) bool { return found[i].path < found[j].path })
	return found
}

// trace runs a test, and returns what it reaches.
func trace(ctx context.Context, w *worker, r run) (found tracedTest, err error) {
	folder, err := os.MkdirTemp("", "mutants-")
	if err != nil {
		return found, err
	}
	defer os.RemoveAll(folder)
	if r.reached, err = forAll(folder, "reached"); err != nil {
		return found, err
	}
	of, err := w.do(ctx, r)
	if err != nil {
		return found, err
	}
	found = tracedTest{Package: r.binary.pkg.path, Test: r.test, Ending: of.ending, Took: of.took}
	text, err := os.ReadFile(r.reached)
	isKnown := make(map[int]bool) // the processes of a test write beside each other
	for _, word := range strings.Fields(string(text)) {
		id, err := strconv.Atoi(word)
		if err != nil {
			return found, err
		}
		if !isKnown[id] {
			found.Reaches, isKnown[id] = append(found.Reaches, id), true
		}
	}
	return found, err
}

// forAll creates a file in a folder that any user can write, since some tests are another user for a while.
func forAll(folder, name string) (path string, err error) {
	path = filepath.Join(folder, name)
	if err = os.WriteFile(path, nil, 0o666); err == nil {
		err = os.Chmod(path, 0o666)
	}
	if err == nil {
		err = os.Chmod(folder, 0o755)
	}
	return path, err
}

// testsOfMutants returns the tests that reach each mutant of their own package, the shortest first.
func (h *hunt) testsOfMutants() map[int][]tracedTest {
	of := make(map[int]string)
	for _, mutant := range h.mutants {
		of[mutant.ID] = mutant.Package
	}
	found := make(map[int][]tracedTest)
	for _, test := range h.results.traced {
		if test.Ending != passed {
			continue
		}
		for _, id := range test.Reaches {
			if of[id] == test.Package {
				found[id] = append(found[id], test)
			}
		}
	}
	for _, these := range found {
		sort.Slice(these, func(i, j int) bool {
			return these[i].Took < these[j].Took || these[i].Took == these[j].Took && these[i].Test < these[j].Test
		})
	}
	return found
}

// judge runs the tests that reach a mutant, until one notices it.
func (h *hunt) judge(ctx context.Context, w *worker, m mutant, tests []tracedTest) (fate, error) {
	if len(tests) == 0 {
		return fate{Mutant: m.ID, Ending: unreached}, nil
	}
	for _, test := range tests {
		r := run{
			binary: h.binaries[m.Package], test: test.Test, mutant: m.ID,
			most: shortest + slower*test.Took,
		}
		ending, err := h.notice(ctx, w, r)
		if err != nil {
			return fate{}, err
		}
		switch ending {
		case failed:
			return fate{Mutant: m.ID, Ending: killed, By: test.Test}, nil
		case hung:
			return fate{Mutant: m.ID, Ending: string(hung), By: test.Test}, nil
		}
	}
	return fate{Mutant: m.ID, Ending: survived}, nil
}

// notice returns how a test ends with a mutant. A failure counts if it happens twice, and if the test passes without
// the mutant then: what another mutant has left at the server is no failure of this one.
func (h *hunt) notice(ctx context.Context, w *worker, r run) (ending, error) {
	without := r
	without.mutant = 0
	for tries := 0; tries < 2; tries++ {
		for i := 0; i < 2; i++ {
			if found, err := w.do(ctx, r); err != nil || found.ending != failed {
				return found.ending, err
			}
		}
		if found, err := w.do(ctx, without); err != nil || found.ending == passed {
			return failed, err
		}
		if err := w.close(); err != nil { // the next try has a new server
			return "", err
		}
	}
	h.print("not counted: %s %s: it also fails without the mutant\n", r.binary.pkg.path, r.test)
	return passed, nil
}

// print prints a line. The workers print at the same time.
func (h *hunt) print(format string, these ...any) {
	h.mutex.Lock()
	defer h.mutex.Unlock()
	fmt.Fprintf(h.out, format, these...)
}

// parallel calls do for each of so many jobs, with so many workers. It ends with the first error.
func parallel(ctx context.Context, many, jobs int, do func(ctx context.Context, w *worker, job int) error) error {
	ctx, cancel := context.WithCancel(ctx)
	defer cancel()
	next := make(chan int)
	ends := make(chan error)
	for i := 0; i < many; i++ {
		go func() { ends <- work(ctx, next, do) }()
	}
	go func() {
		defer close(next)
		for i := 0; i < jobs; i++ {
			select {
			case next <- i:
			case <-ctx.Done():
				return
			}
		}
	}()
	var first error
	for i := 0; i < many; i++ {
		if err := <-ends; err != nil && first == nil {
			first = err
			cancel()
		}
	}
	if first == nil {
		first = ctx.Err()
	}
	return first
}

// work is one worker: it does jobs until there are no more.
func work(ctx context.Context, next <-chan int, do func(ctx context.Context, w *worker, job int) error) (err error) {
	w := &worker{}
	defer func() {
		if closed := w.close(); err == nil && ctx.Err() == nil {
			err = closed
		}
	}()
	for job := range next {
		if err := do(ctx, w, job); err != nil {
			return err
		}
	}
	return nil
}

// How a test ended.
type ending string

const (
	passed  ending = "passed"
	skipped ending = "skipped"
	failed  ending = "failed"
	hung    ending = "hung" // it took too long
)

// A run is one test of a package, with a mutant that is on, or without one.
type run struct {
	binary  binary
	test    string // its name, or that of a test in it: TestStore/one
	mutant  int
	reached string // the file to which those are added that it reaches
	most    time.Duration
}

// A result is how a run ended, how long it took, and what it printed.
type result struct {
	ending  ending
	took    time.Duration
	printed string
}

// A worker runs one test at a time. It has a PostgreSQL server of its own once one of them needs one.
type worker struct {
	server *server
}

// close ends what the worker has started. Its next test that needs a server starts a new one.
func (w *worker) close() error {
	if w.server == nil {
		return nil
	}
	server := w.server
	w.server = nil
	return server.close()
}

// do runs a test. What the test has started ends with it.
func (w *worker) do(ctx context.Context, r run) (found result, err error) {
	temporary, err := os.MkdirTemp("", "mutants-")
	if err != nil {
		return found, err
	}
	defer os.RemoveAll(temporary)
	if err := os.Chmod(temporary, 0o755); err != nil { // some tests are another user for a while
		return found, err
	}
	process, err := w.process(ctx, r, temporary)
	if err != nil {
		return found, err
	}
	printed, err := os.Create(filepath.Join(temporary, "printed"))
	if err != nil {
		return found, err
	}
	defer printed.Close()
	process.Stdout, process.Stderr = printed, printed
	begun := time.Now()
	ended, err := child.Start(process, syscall.SIGKILL)
	if err != nil {
		return found, err
	}
	defer func() { _ = syscall.Kill(-process.Process.Pid, syscall.SIGKILL) }() // what it has left
	timer := time.NewTimer(r.most)
	defer timer.Stop()
	found.ending = hung
	select {
	case err := <-ended:
		found.ending = failed
		if err == nil {
			found.ending = passed
		}
	case <-timer.C:
		_ = process.Process.Kill()
		<-ended
	case <-ctx.Done():
		_ = process.Process.Kill()
		<-ended
		return found, ctx.Err()
	}
	found.took = time.Since(begun)
	text, err := os.ReadFile(printed.Name())
	found.printed = string(text)
	if found.ending == passed && !strings.Contains(found.printed, "--- PASS: ") {
		found.ending = skipped // or there is no such test
	}
	return found, err
}

// process returns the process of a run, with its environment.
func (w *worker) process(ctx context.Context, r run, temporary string) (*exec.Cmd, error) {
	process := exec.Command(r.binary.path, "-test.run", pattern(r.test), "-test.v", "-test.paniconexit0",
		"-test.timeout=0", "-test.count=1")
	process.Dir = r.binary.pkg.dir
	process.Env = append(os.Environ(), "TMPDIR="+temporary)
	if r.mutant != 0 {
		process.Env = append(process.Env, switchVariable+"="+strconv.Itoa(r.mutant))
	}
	if r.reached != "" {
		process.Env = append(process.Env, reachVariable+"="+r.reached)
	}
	if r.binary.pkg.usesPostgres {
		if w.server == nil {
			server, err := startServer(ctx)
			if err != nil {
				return nil, fmt.Errorf("%s needs PostgreSQL: %w", r.binary.pkg.path, err)
			}
			w.server = server
		}
		process.Env = append(process.Env, w.server.environment()...)
	}
	return process, nil
}

// pattern returns the regular expression of a test, and of a test in it: each part is one name.
func pattern(test string) string {
	parts := strings.Split(test, "/")
	for i, part := range parts {
		parts[i] = "^" + part + "$"
	}
	return strings.Join(parts, "/")
}

// errNoPostgres reports that the programs of PostgreSQL aren't installed.
var errNoPostgres = errors.New("pg_virtualenv isn't installed. Run: make packages")

// serve is what pg_virtualenv runs beside the server. It ends with its standard input.
const serve = `psql -qc "CREATE ROLE osb SUPERUSER LOGIN PASSWORD '$OSB_TEST_PASSWORD'"
psql -qc "CREATE DATABASE osb OWNER osb"
echo ready
cat >/dev/null`

// A server is a PostgreSQL server for the tests of one worker, as conftest.py starts it.
type server struct {
	port     int
	password string
	process  *exec.Cmd
	input    io.Closer
}

// startServer returns once the server answers. Another process may take its port first, and on a busy machine
// pg_virtualenv waits for too short a time, so it is tried again.
func startServer(ctx context.Context) (s *server, err error) {
	if _, err := exec.LookPath("pg_virtualenv"); err != nil {
		return nil, errNoPostgres
	}
	for tries := 0; tries < 3; tries++ {
		if s, err = tryServer(); err == nil || ctx.Err() != nil {
			return s, err
		}
	}
	return nil, err
}

// tryServer tries it once.
func tryServer() (*server, error) {
	secret := make([]byte, 16)
	if _, err := rand.Read(secret); err != nil {
		return nil, err
	}
	s := &server{password: hex.EncodeToString(secret)}
	var err error
	if s.port, err = freePort(); err != nil {
		return nil, err
	}
	words := []string{"-t", "-c", "--locale=C --encoding=UTF8"}
	for _, name := range []string{
		fmt.Sprintf("port=%d", s.port), "max_connections=300", "max_locks_per_transaction=10",
		"max_prepared_transactions=10",
	} {
		words = append(words, "-o", name)
	}
	s.process = exec.Command("pg_virtualenv", append(words, "sh", "-ec", serve)...)
	s.process.Env = append(os.Environ(), "OSB_TEST_PASSWORD="+s.password)
	s.process.SysProcAttr = &syscall.SysProcAttr{Setpgid: true} // if it is interrupted, it leaves the server behind
	if s.input, err = s.process.StdinPipe(); err != nil {
		return nil, err
	}
	return s, s.start()
}

// start starts the server, and waits until it is ready.
func (s *server) start() error {
	printed, err := s.process.StdoutPipe()
	if err != nil {
		return err
	}
	if err := s.process.Start(); err != nil {
		return err
	}
	var read strings.Builder
	buffer := make([]byte, 1024)
	for !strings.Contains(read.String(), "ready\n") {
		count, err := printed.Read(buffer)
		read.Write(buffer[:count])
		if err != nil {
			return fmt.Errorf("the server doesn't start: %w\n%s", err, read.String())
		}
	}
	go func() { _, _ = io.Copy(io.Discard, printed) }() // until the server ends
	return nil
}

// freePort returns a port below those that the system gives to connections.
func freePort() (int, error) {
	for tries := 0; tries < 1000; tries++ {
		var random [2]byte
		if _, err := rand.Read(random[:]); err != nil {
			return 0, err
		}
		port := 12000 + (int(random[0])<<8|int(random[1]))%8000
		listener, err := net.Listen("tcp", fmt.Sprintf("127.0.0.1:%d", port))
		if err == nil {
			return port, listener.Close()
		}
	}
	return 0, errors.New("no port is free for PostgreSQL")
}

// environment returns what the tests take the server from.
func (s *server) environment() []string {
	return []string{
		fmt.Sprintf("OSB_TEST_POSTGRESQL=postgresql://osb@127.0.0.1:%d/osb", s.port), "PGPASSWORD=" + s.password,
	}
}

// close ends the server, and deletes its files.
func (s *server) close() error {
	if err := s.input.Close(); err != nil {
		return err
	}
	const most = time.Minute
	timer := time.AfterFunc(most, func() { _ = s.process.Process.Kill() })
	defer timer.Stop()
	return s.process.Wait()
}

// A tracedTest is a test without a mutant, with those mutants that it reaches.
type tracedTest struct {
	Package, Test string
	Ending        ending
	Took          time.Duration
	Reaches       []int
}

// A fate is what became of a mutant.
type fate struct {
	Mutant int
	Ending string // killed, hung, survived, or unreached
	By     string // the test that noticed it
}

const (
	killed    = "killed"
	survived  = "survived"
	unreached = "unreached"
)

// A line is one line of the file of the results: one of the two.
type line struct {
	Traced *tracedTest `json:",omitempty"`
	Fate   *fate       `json:",omitempty"`
}

// results are a file with what a run has found out, so that a run that was interrupted goes on. Any number of
// goroutines use it.
type results struct {
	mutex  sync.Mutex
	file   *os.File
	traced map[string]tracedTest // by package and test
	fates  map[int]fate          // by mutant
}

// openResults reads a file, or creates it.
func openResults(path string) (*results, error) {
	r := &results{traced: make(map[string]tracedTest), fates: make(map[int]fate)}
	if err := r.read(path); err != nil && !errors.Is(err, fs.ErrNotExist) {
		return nil, err
	}
	var err error
	r.file, err = os.OpenFile(path, os.O_WRONLY|os.O_CREATE|os.O_APPEND, 0o666)
	return r, err
}

func (r *results) read(path string) error {
	file, err := os.Open(path)
	if err != nil {
		return err
	}
	defer file.Close()
	for lines := bufio.NewReader(file); ; {
		text, err := lines.ReadBytes('\n')
		if err != nil { // a line that was interrupted has no end
			return nil
		}
		var it line
		if json.Unmarshal(text, &it) == nil {
			r.note(it)
		}
	}
}

func (r *results) note(it line) {
	if it.Traced != nil {
		r.traced[it.Traced.Package+" "+it.Traced.Test] = *it.Traced
	}
	if it.Fate != nil {
		r.fates[it.Fate.Mutant] = *it.Fate
	}
}

// add writes a line.
func (r *results) add(it line) error {
	text, err := json.Marshal(it)
	if err != nil {
		return err
	}
	r.mutex.Lock()
	defer r.mutex.Unlock()
	r.note(it)
	_, err = r.file.Write(append(text, '\n'))
	return err
}

func (r *results) isTraced(p, test string) bool {
	r.mutex.Lock()
	defer r.mutex.Unlock()
	_, is := r.traced[p+" "+test]
	return is
}

// fate returns what became of a mutant, or nothing.
func (r *results) fate(id int) fate {
	r.mutex.Lock()
	defer r.mutex.Unlock()
	return r.fates[id]
}

func (r *results) close() error { return r.file.Close() }
