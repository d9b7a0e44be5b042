package journalfile

import (
	"encoding/json"
	"errors"
	"fmt"
	"io"
	"os"
	"os/signal"
	"path/filepath"
	"sort"
	"strconv"
	"strings"
	"syscall"
	"testing"
	"time"

	"pippinterm/internal/diff"
	"pippinterm/internal/waits"
)

// A line is one of a journal, as a reader has it.
type line struct {
	Time    int64
	Process string
	Side    string
	Event   string
	Number  int
	Text    string
	Count   int
	Version string
}

// member are the members of the lines that the tests write.
type member struct {
	Number int    `json:"number"`
	Text   string `json:"text,omitempty"`
}

// openJournal opens a journal at a path whose files have so many bytes. The test fails if a line is lost.
func openJournal(t *testing.T, path string, most int64) *Writer {
	t.Helper()
	w := diff.Value(Open(Options{
		Path: path, Side: "broker", Most: most, Started: map[string]string{"version": "one"},
		Failed: func(err error) { t.Errorf("got the error %v, want each line written", err) },
	}))(t)
	return w
}

// linesOf are the lines of a file.
func linesOf(t *testing.T, path string) (lines []line) {
	t.Helper()
	text := diff.Value(os.ReadFile(path))(t)
	for _, text := range strings.SplitAfter(string(text), "\n") {
		var read line
		if text == "" {
			continue
		}
		diff.NoError(t, json.Unmarshal([]byte(text), &read), "%s: %q", path, text)
		diff.HasSuffix(t, text, "}\n", "%s", path)
		lines = append(lines, read)
	}
	return lines
}

// eventsOf are the events of lines, those that the tests write with their numbers.
func eventsOf(lines []line) (events []string) {
	for _, line := range lines {
		switch line.Event {
		case "made":
			events = append(events, fmt.Sprint(line.Number))
		case "lost":
			events = append(events, fmt.Sprint("lost ", line.Count))
		default:
			events = append(events, line.Event)
		}
	}
	return events
}

func wantEvents(t *testing.T, path, want string) {
	t.Helper()
	diff.Equal(t, strings.Join(eventsOf(linesOf(t, path)), ", "), want, "%s", path)
}

// A line that comes while the journal ends doesn't wait for a goroutine that writes no more.
func TestALineAfterTheEnd(t *testing.T) {
	w := &Writer{lines: make(chan *job), ending: make(chan struct{})}
	close(w.ending)
	diff.ErrorIs(t, w.hand(&job{}, time.After(10*time.Second)), errClosed, "")
}

// filesIn are the paths of the files of a folder, by name.
func filesIn(t *testing.T, folder string) (paths []string) {
	t.Helper()
	entries := diff.Value(os.ReadDir(folder))(t)
	for _, entry := range entries {
		paths = append(paths, filepath.Join(folder, entry.Name()))
	}
	return paths
}

func TestLines(t *testing.T) {
	path := filepath.Join(t.TempDir(), "journal")
	before := time.Now().UnixMicro()
	w := openJournal(t, path, 1<<20)
	var times []int64
	for n := 1; n <= 3; n++ {
		times = append(times, w.Write("made", member{n, "a\nb\u2028\"\x00"}))
	}
	w.Close()
	w.Write("made", member{4, ""})
	w.Close()
	wantEvents(t, path, "started, 1, 2, 3, stopped")
	lines := linesOf(t, path)
	for at, line := range lines {
		if line.Side != "broker" || len(line.Process) != 16 || line.Process != lines[0].Process {
			t.Errorf("got %+v, want the side broker and one process", line)
		}
		if at > 0 && line.Time <= lines[at-1].Time || line.Time < before || line.Time > time.Now().Add(time.Second).UnixMicro() {
			t.Errorf("got %+v after %+v, want a later time", line, lines[at-1])
		}
		if line.Event == "made" && (line.Time != times[at-1] || line.Text != "a\nb\u2028\"\x00") {
			t.Errorf("got %+v, want the time and the text that were written", line)
		}
	}
	diff.Equal(t, lines[0].Version, "one", "%+v", lines[0])
	diff.Equal(t, diff.Value(os.Stat(path))(t).Mode(), 0o600, "the mode")
}

// Many goroutines write at once: no line is lost or torn, and the times of each file ascend.
func TestManyWriters(t *testing.T) {
	folder := t.TempDir()
	w := openJournal(t, folder, 20_000)
	waits.Together(8, func(n int) {
		for m := 0; m < 250; m++ {
			w.Write("made", member{1000*n + m, strings.Repeat("x", m)})
		}
	})
	w.Close()
	last, seen := int64(0), map[int]bool{}
	for _, path := range filesIn(t, folder) {
		for _, line := range linesOf(t, path) {
			if line.Time <= last {
				t.Fatalf("%s: got the time %d, want one after %d", path, line.Time, last)
			}
			if last = line.Time; line.Event == "made" {
				seen[line.Number] = true
			}
		}
	}
	diff.Equal(t, len(seen), 2000, "lines")
}

// In a folder, each process has files of its own, and a new one once the last is full. Each begins with started.
func TestFolder(t *testing.T) {
	folder := filepath.Join(t.TempDir(), "made", "here") + "/"
	for _, name := range []string{"first", "second"} {
		w := openJournal(t, folder, 1000)
		for n := 1; n <= 30; n++ {
			w.Write("made", member{n, name})
		}
		w.Close()
	}
	files := map[string]int{}
	numbers := map[string][]int{}
	for _, path := range filesIn(t, folder) {
		about, err := os.Stat(path)
		if err != nil || about.Size() > 1200 || about.Mode() != 0o600 {
			t.Errorf("%s: got %v bytes, the mode %v and the error %v, want at most 1200 and 0600",
				path, about.Size(), about.Mode(), err)
		}
		lines := linesOf(t, path)
		if process := lines[0].Process; lines[0].Event != "started" || !strings.Contains(path, "/broker-") ||
			!strings.Contains(path, fmt.Sprintf("-%s-%06d.jsonl", process, files[process]+1)) {
			t.Errorf("%s: got %+v, want the next number of its process", path, lines[0])
		}
		files[lines[0].Process]++
		for _, line := range lines {
			if line.Event == "made" {
				numbers[line.Text] = append(numbers[line.Text], line.Number)
			}
		}
	}
	diff.Equal(t, len(files), 2, "%v", files)
	for name, got := range numbers {
		if len(got) != 30 || !sort.IntsAreSorted(got) {
			t.Errorf("%s: got %v, want 30 numbers in order", name, got)
		}
	}
	for process, count := range files {
		if count < 3 {
			t.Errorf("%s: got %d files, want at least 3", process, count)
		}
	}
}

// writeNumbers writes a line for each number from the first to the last.
func writeNumbers(w *Writer, first, last int) {
	for n := first; n <= last; n++ {
		w.Write("made", member{n, ""})
	}
}

// A file goes on in FILE.1, FILE.2 and so on, also after a restart. Other files beside it don't count.
func TestFile(t *testing.T) {
	folder := t.TempDir()
	path := filepath.Join(folder, "journal")
	for _, other := range []string{"journal.x", "journal.07", "other.9", "journal.-1"} {
		check(t, os.WriteFile(filepath.Join(folder, other), nil, 0o600))
	}
	w := openJournal(t, path, 250)
	writeNumbers(w, 1, 5)
	w.Close()
	wantEvents(t, path, "started, 1, 2")
	wantEvents(t, path+".1", "started, 3, 4")
	wantEvents(t, path+".2", "started, 5, stopped")
	w = openJournal(t, path, 450)
	w.Write("made", member{6, ""})
	w.Write("made", member{7, ""})
	w.Close()
	wantEvents(t, path+".2", "started, 5, stopped, started, 6")
	wantEvents(t, path+".3", "started, 7, stopped")
}

// A file, and those that follow it, can be read by their owner only, also if they were there. A link isn't followed.
func TestOnlyTheOwnerReads(t *testing.T) {
	folder := t.TempDir()
	path, elsewhere := filepath.Join(folder, "journal"), filepath.Join(folder, "elsewhere")
	for _, file := range []string{path, path + ".1", elsewhere} {
		check(t, os.WriteFile(file, nil, 0o644))
	}
	w := openJournal(t, path, 250)
	writeNumbers(w, 1, 5)
	w.Close()
	for _, file := range []string{path, path + ".1", path + ".2"} {
		diff.Equal(t, diff.Value(os.Stat(file))(t).Mode(), 0o600, "the mode of %s", file)
	}
	for _, link := range []string{filepath.Join(folder, "link"), path + ".9"} {
		check(t, os.Symlink(elsewhere, link))
		of := strings.TrimSuffix(link, ".9")
		if w, err := Open(Options{Path: of, Side: "broker", Most: 200}); err == nil {
			w.Close()
			t.Errorf("%s: got a journal, want an error", link)
		} else if !strings.Contains(err.Error(), "symbolic link") {
			t.Errorf("%s: got the error %v, want one that names the symbolic link", link, err)
		}
	}
	if about, err := os.Stat(elsewhere); err != nil || about.Mode() != 0o644 || about.Size() != 0 {
		t.Errorf("the file behind the links: got %v, %v, want it unchanged", about, err)
	}
}

// One process writes to a file at a time, also while the journal is in a later one.
func TestTaken(t *testing.T) {
	path := filepath.Join(t.TempDir(), "journal")
	first := openJournal(t, path, 200)
	writeNumbers(first, 1, 5)
	_, err := Open(Options{Path: path, Side: "broker", Most: 200})
	diff.ErrorIs(t, err, ErrTaken, "")
	diff.Contains(t, fmt.Sprint(err), path, "")
	first.Close()
	openJournal(t, path, 200).Close()
}

// What can't be a journal is an error, and stays as it is.
func TestWrongPlaces(t *testing.T) {
	folder := t.TempDir()
	pipe, file := filepath.Join(folder, "pipe"), filepath.Join(folder, "file")
	check(t, syscall.Mkfifo(pipe, 0o600))
	check(t, os.WriteFile(file, nil, 0o600))
	for _, path := range []string{pipe, "/dev/null", filepath.Join(folder, "no", "folder"), file + "/", file + "/x", ""} {
		if w, err := Open(Options{Path: path, Side: "broker", Most: 200}); err == nil {
			w.Close()
			t.Errorf("%q: got a journal, want an error", path)
		}
	}
	diff.Check(t, filesIn(t, folder), []string{file, pipe}, "")
}

// A line that a power cut has torn stays a line of its own.
func TestTorn(t *testing.T) {
	path := filepath.Join(t.TempDir(), "journal")
	check(t, os.WriteFile(path, []byte(`{"time":12`), 0o600))
	openJournal(t, path, 1000).Close()
	text := diff.Value(os.ReadFile(path))(t)
	lines := strings.Split(string(text), "\n")
	if len(lines) != 4 || lines[0] != `{"time":12` || !json.Valid([]byte(lines[1])) || lines[3] != "" {
		t.Errorf("got the lines %q, want a torn one and two whole ones", lines)
	}
}

// longest sets how long files may become. Whatever is written beyond that fails, as on a full disk.
func longest(t *testing.T, bytes uint64) {
	t.Helper()
	var limit syscall.Rlimit
	check(t, syscall.Getrlimit(syscall.RLIMIT_FSIZE, &limit))
	if bytes > limit.Max {
		bytes = limit.Max
	}
	limit.Cur = bytes
	check(t, syscall.Setrlimit(syscall.RLIMIT_FSIZE, &limit))
}

// On a full disk, lines are lost and counted. That is reported once, and the journal says how many are missing.
func TestFull(t *testing.T) {
	signal.Ignore(syscall.SIGXFSZ)
	path := filepath.Join(t.TempDir(), "journal")
	told := []error{}
	w, err := Open(Options{Path: path, Side: "broker", Most: 1 << 20, Failed: func(err error) { told = append(told, err) }})
	check(t, err)
	w.Write("made", member{1, ""})
	about := diff.Value(os.Stat(path))(t)
	longest(t, uint64(about.Size())+20) // in the middle of the next line
	t.Cleanup(func() { longest(t, 1<<62) })
	writeNumbers(w, 2, 4)
	if len(told) != 1 || !errors.Is(told[0], syscall.EFBIG) || w.LostLines() != 3 {
		t.Errorf("got %v and %d lost, want one that the file is too large, and 3", told, w.LostLines())
	}
	longest(t, 1<<62)
	w.Write("made", member{5, ""})
	wantEvents(t, path, "started, 1, lost 3, 5")
	longest(t, 0)
	w.Write("made", member{6, ""})
	longest(t, 1<<62)
	w.Write("made", member{7, ""})
	w.Close()
	wantEvents(t, path, "started, 1, lost 3, 5, lost 1, 7, stopped")
	diff.Equal(t, len(told), 2, "%v", told)
	diff.Equal(t, w.LostLines(), 4, "%v", told)
}

// A full disk at the start: the line started is written later, before all others.
func TestFullAtFirst(t *testing.T) {
	signal.Ignore(syscall.SIGXFSZ)
	path := filepath.Join(t.TempDir(), "journal")
	longest(t, 0)
	t.Cleanup(func() { longest(t, 1<<62) })
	told := 0
	w := diff.Value(Open(Options{Path: path, Side: "broker", Most: 1 << 20, Failed: func(error) { told++ }}))(t)
	w.Write("made", member{1, ""})
	longest(t, 1<<62)
	w.Write("made", member{2, ""})
	w.Close()
	wantEvents(t, path, "started, lost 1, 2, stopped")
	diff.Equal(t, told, 1, "reports")
}

// If the next file can't be created, the journal goes on in the one that is full, and in the next once that can be.
func TestNoNextFile(t *testing.T) {
	folder := t.TempDir()
	path := filepath.Join(folder, "journal")
	w := openJournal(t, path, 250)
	check(t, os.Mkdir(path+".1", 0o700))
	writeNumbers(w, 1, 3)
	check(t, os.Remove(path+".1"))
	w.Write("made", member{4, ""})
	w.Close()
	wantEvents(t, path, "started, 1, 2, 3")
	wantEvents(t, path+".1", "started, 4, stopped")
}

// A line that can't be JSON is lost, as one that can't be made.
func TestNoJSON(t *testing.T) {
	path := filepath.Join(t.TempDir(), "journal")
	told := 0
	w := diff.Value(Open(Options{Path: path, Side: "broker", Most: 1 << 20, Failed: func(error) { told++ }}))(t)
	w.Write("made", func() {})
	w.Lose(errors.New("no text"))
	w.Close()
	wantEvents(t, path, "started, lost 2, stopped")
	diff.Equal(t, told, 1, "")
	diff.Equal(t, w.LostLines(), 2, "")
}

func TestDigest(t *testing.T) {
	// the first 8 bytes of SHA-256 of "abc" (FIPS 180-2, appendix B.1)
	diff.Equal(t, Digest([]byte("abc")), "ba7816bf8f01cfea", "")
	diff.Equal(t, Digest(nil), "", "of nothing")
}

// A disk that hangs holds nobody up: the lines that aren't written in time are lost, and the others after it.
func TestDiskHangs(t *testing.T) {
	var failures []string
	path := filepath.Join(t.TempDir(), "journal")
	w := diff.Value(Open(Options{Path: path, Side: "broker", Most: 1 << 30, Failed: func(err error) {
		failures = append(failures, err.Error())
	}}))(t)
	disk, read := full(t)
	w.patience, w.file = 50*time.Millisecond, disk
	begun := time.Now()
	writeNumbers(w, 1, 100)
	if took := time.Since(begun); took < w.patience || took > 60*w.patience { // each of them would wait
		t.Errorf("100 lines: got %v, want one wait for all of them", took)
	}
	if w.LostLines() != 100 || len(failures) != 1 || !strings.Contains(failures[0], "the disk doesn't answer") {
		t.Errorf("got %d lines lost and %q, want 100 and one report", w.LostLines(), failures)
	}
	w.patience = 10 * time.Second
	rest := waits.Begin(func() string { return read() })
	for end := time.Now().Add(time.Minute); ; time.Sleep(time.Millisecond) { // until a line isn't lost
		lost := w.LostLines()
		if w.Write("made", member{101, ""}); w.LostLines() == lost || time.Now().After(end) {
			break
		}
	}
	w.Close()
	_ = disk.Close()
	text := <-rest
	events := strings.Split(strings.TrimLeft(text, "x"), "\n")
	if !strings.Contains(events[0], `"number":1}`) || !strings.Contains(text, `"event":"lost"`) ||
		!strings.Contains(text, `"number":101}`) || !strings.Contains(text, `"event":"stopped"`) {
		t.Errorf("got the events %q, want the last number and stopped", events)
	}
}

// Of lines that are written at once to a disk that hangs, none waits for another one.
func TestLinesAtOnceWhileTheDiskHangs(t *testing.T) {
	const count = 8
	w, err := Open(Options{Path: filepath.Join(t.TempDir(), "journal"), Side: "broker", Most: 1 << 30, Failed: func(error) {}})
	check(t, err)
	disk, read := full(t)
	w.patience, w.file = 50*time.Millisecond, disk
	written := make(chan struct{}, count)
	for n := 1; n <= count; n++ {
		n := n
		go func() {
			w.Write("made", member{n, ""})
			written <- struct{}{}
		}()
	}
	late := time.After(10 * time.Second)
	for n := 0; n < count; n++ {
		select {
		case <-written:
		case <-late:
			t.Fatalf("got %d lines that still wait, want none", count-n)
		}
	}
	diff.Equal(t, w.LostLines(), count, "")
	go read()
	w.Close()
}

// A journal is closed although its disk hangs.
func TestCloseAtADiskThatHangs(t *testing.T) {
	w, err := Open(Options{Path: filepath.Join(t.TempDir(), "journal"), Side: "broker", Most: 1 << 30, Failed: func(error) {}})
	check(t, err)
	disk, read := full(t)
	w.patience, w.file = 50*time.Millisecond, disk
	begun := time.Now()
	w.Close()
	if took := time.Since(begun); took > time.Minute { // the disk hangs for good
		t.Errorf("got an end after %v, want one within a minute", took)
	}
	go read()
	<-w.ended
}

// full returns a file that takes nothing until somebody reads it, which read does until the file is closed.
func full(t *testing.T) (file *os.File, read func() string) {
	t.Helper()
	reader, writer, err := os.Pipe()
	check(t, err)
	check(t, writer.SetWriteDeadline(time.Now().Add(100*time.Millisecond)))
	for block := []byte(strings.Repeat("x", 4096)); ; {
		if _, err := writer.Write(block); errors.Is(err, os.ErrDeadlineExceeded) {
			break
		}
	}
	check(t, writer.SetWriteDeadline(time.Time{}))
	return writer, func() string {
		text, _ := io.ReadAll(reader)
		_ = reader.Close()
		return string(text)
	}
}

// The time is that of the machine. While the machine's clock stands or is set back, each time is one more than the
// last.
func TestClock(t *testing.T) {
	now := time.UnixMicro(1000)
	c := clock{now: func() time.Time { return now }}
	for _, test := range []struct{ now, want int64 }{
		{1000, 1000}, {1000, 1001}, {900, 1002}, {1002, 1003}, {1010, 1010}, {1011, 1011},
	} {
		now = time.UnixMicro(test.now)
		diff.Equal(t, c.next(), test.want, "at %d", test.now)
	}
}

// A time that was received is before all that follow, unless it is no time, or is more than a day ahead.
func TestReceive(t *testing.T) {
	const day = 24 * 60 * 60 * 1_000_000
	for text, want := range map[string]int64{
		"500": 1001, "1000": 1001, "7000": 7001, "07000": 7001,
		strconv.Itoa(1000 + day):     1001 + day,
		strconv.Itoa(1000 + day + 1): 1001,
		"":                           1001, "+7000": 1001, "-7000": 1001, "7000 ": 1001, "7e3": 1001, "0x1fff": 1001, "7_000": 1001,
		"9223372036854775807": 1001, "9223372036854775808": 1001, "99999999999999999999": 1001,
	} {
		t.Run(text, func(t *testing.T) {
			c := clock{now: func() time.Time { return time.UnixMicro(1000) }}
			c.next()
			c.receive(text)
			diff.Equal(t, c.next(), want, "")
		})
	}
}

// Lines have later times than what was received before, and what is sent is later than the lines before.
func TestTimesCross(t *testing.T) {
	path := filepath.Join(t.TempDir(), "journal")
	w := openJournal(t, path, 1<<20)
	ahead := time.Now().Add(time.Hour).UnixMicro()
	w.Receive(strconv.FormatInt(ahead, 10))
	at := w.Write("made", member{1, ""})
	given, err := strconv.ParseInt(w.Time(), 10, 64)
	if err != nil || at <= ahead || given <= at || given > ahead+10 {
		t.Errorf("got %d, and then %d, after %d (%v), want each later", at, given, ahead, err)
	}
	w.Close()
}

// What a line takes, with the call of write.
func BenchmarkWrite(b *testing.B) {
	w := diff.Value(Open(Options{Path: filepath.Join(b.TempDir(), "journal"), Side: "broker", Most: 64 << 20}))(b)
	line := member{Number: 1, Text: "00000000-0000-0000-0000-0000000000a0 00000000-0000-0000-0000-0000000000a0"}
	b.ResetTimer()
	for n := 0; n < b.N; n++ {
		w.Write("made", line)
	}
}

var check = diff.Must
