package sqlite

import (
	"bufio"
	"errors"
	"fmt"
	"io"
	"os"
	"os/exec"
	"path/filepath"
	"testing"
	"time"

	"pippinterm/internal/diff"
	"pippinterm/platform"
	"pippinterm/platform/storetest"
)

// pathVariable makes the test binary another process of a test: the worker child of the file that the variable names.
const pathVariable = "OSB_TEST_SQLITE_FILE"

func TestMain(m *testing.M) {
	path := os.Getenv(pathVariable)
	if path == "" {
		os.Exit(m.Run())
	}
	if err := play(path); err != nil {
		fmt.Fprintln(os.Stderr, err)
		os.Exit(1)
	}
}

// play is the worker child, counts, and goes on until standard input ends.
func play(path string) error {
	s, err := Open(background, path)
	if err != nil {
		return err
	}
	end, _, err := s.Only(background, "child")
	if err == nil && end == nil {
		err = errors.New("there is another child")
	}
	if err != nil {
		return err
	}
	fmt.Println("begun")
	if err := count(s); err != nil {
		return err
	}
	fmt.Println("counted")
	_, err = io.Copy(io.Discard, os.Stdin)
	return err
}

const each = 50

// count counts in a row.
func count(s *Store) error {
	for n := 0; n < each; n++ {
		err := s.Change(background, keyOf(1), storetest.Edit(func(e *platform.Entry, _ time.Time) {
			e.Unchanged++
		}))
		if err != nil {
			return err
		}
	}
	return nil
}

// A child is another process, which says how far it is.
type child struct {
	*exec.Cmd
	input io.Closer
	lines *bufio.Scanner
}

func startChild(t *testing.T, path string) *child {
	t.Helper()
	it := &child{Cmd: exec.Command(os.Args[0])}
	it.Env, it.Stderr = append(os.Environ(), pathVariable+"="+path), os.Stderr
	input := diff.Value(it.StdinPipe())(t)
	output, err := it.StdoutPipe()
	if err == nil {
		err = it.Start()
	}
	check(t, err)
	it.input, it.lines = input, bufio.NewScanner(output)
	return it
}

// wait waits for the next line of a child.
func (c *child) wait(t *testing.T, line string) {
	t.Helper()
	if !c.lines.Scan() || c.lines.Text() != line {
		t.Errorf("the child: got %q, want %q", c.lines.Text(), line)
	}
}

// kill kills a child, and returns once it has ended.
func (c *child) kill() {
	_ = c.Process.Kill()
	_ = c.Wait()
	_ = c.input.Close()
}

// Of two processes that change a row, no change is lost. One sees that the other is a worker, until that one is killed.
func TestProcesses(t *testing.T) {
	path := filepath.Join(t.TempDir(), "store")
	s := withBroker(t, open(t, path))
	check(t, s.Insert(background, order(1), nil))
	other := startChild(t, path)
	defer other.kill()
	other.wait(t, "begun")
	storetest.NoRight(t, s, "child")
	diff.NoError(t, count(s), "")
	other.wait(t, "counted")
	diff.Equal(t, diff.Value(s.Read(background, keyOf(1)))(t).Unchanged, 2*each, "the count")
	other.kill()
	end, _ := storetest.Right(t, s, "child")
	end()
}
