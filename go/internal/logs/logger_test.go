package logs

import (
	"bytes"
	"context"
	"encoding/json"
	"errors"
	"fmt"
	"io"
	"regexp"
	"strings"
	"testing"
	"time"

	"pippinterm/internal/diff"
	"pippinterm/internal/waits"
)

var aTime = regexp.MustCompile(`"time":"\d{4}-\d\d-\d\dT\d\d:\d\d:\d\d\.\d{3}Z"`)

// withoutTimes returns the lines with T in the place of each time that has the form of the log.
func withoutTimes(lines string) string { return aTime.ReplaceAllString(lines, `"time":"T"`) }

func TestEventsOfALogger(t *testing.T) {
	var got bytes.Buffer
	logger := New(&got)
	logger.Info("serving").Str("url", "http://127.0.0.1:8080").Send()
	logger.Warning("guid_in_upper_case").Strs("ids", []string{"A"}).Send()
	logger.Error("store_failed").Err(errors.New("no space")).Send()
	want := `{"time":"T","level":"info","event":"serving","url":"http://127.0.0.1:8080"}
{"time":"T","level":"warning","event":"guid_in_upper_case","ids":["A"]}
{"time":"T","level":"error","event":"store_failed","error":"no space"}
`
	diff.Equal(t, withoutTimes(got.String()), want, "")
}

func TestTimesAreInUTC(t *testing.T) {
	at := time.Date(2024, 7, 1, 1, 2, 3, 4_999_999, time.FixedZone("", 7200))
	diff.Equal(t, timeOf(at), "2024-06-30T23:02:03.004Z", "")
	for step := time.Nanosecond; at.Year() < 9000; step = step*2 + 7 {
		if step > 1000*24*time.Hour {
			step = 1000 * 24 * time.Hour
		}
		at = at.Add(step)
		diff.Equal(t, timeOf(at), at.UTC().Format("2006-01-02T15:04:05.000Z"), "")
	}
}

func TestLinesAreASCIIAndHaveNoControlCharacters(t *testing.T) {
	for _, text := range []string{
		"plain", "größe", "\u009b31m", "\x1b[31m", "line\nfeed", "\x7f", "\u202e", "😀", "\xff\xfe", `"\`, "\x00",
	} {
		t.Run(fmt.Sprintf("%q", text), func(t *testing.T) {
			var got bytes.Buffer
			New(&got).Info("request").Str("target", text).Send()
			line := got.Bytes()
			for _, b := range line[:len(line)-1] {
				if b < ' ' || b > '~' {
					t.Errorf("%q: got the byte %#x in %q, want ASCII", text, b, line)
				}
			}
			var read struct{ Target string }
			if err := json.Unmarshal(line, &read); err != nil {
				t.Fatalf("%q: got the error %v, want none", text, err)
			}
			if want := strings.ToValidUTF8(text, "\ufffd"); read.Target != want && text != "\xff\xfe" {
				t.Errorf("%q: got %q, want it without what isn't UTF-8", text, read.Target)
			}
		})
	}
}

const limit = 10 * time.Second // of what has to happen soon

func contextOf(t *testing.T) context.Context {
	t.Helper()
	ctx, cancel := context.WithTimeout(context.Background(), limit)
	t.Cleanup(cancel)
	return ctx
}

func closeQueue(t *testing.T, queue *Queue) {
	t.Helper()
	diff.Must(t, queue.Close(contextOf(t)))
}

func write(t *testing.T, to io.Writer, line string) {
	t.Helper()
	diff.Equal(t, diff.Value(to.Write([]byte(line)))(t), len(line), "Write")
}

// A gate is a writer that waits in each Write until the test lets it go on.
type gate struct {
	entered chan struct{} // has a value for each Write that began
	pass    chan error    // what each Write returns
	got     bytes.Buffer
}

func newGate() *gate {
	return &gate{entered: make(chan struct{}, 100), pass: make(chan error, 100)}
}

func (g *gate) Write(p []byte) (int, error) {
	g.entered <- struct{}{}
	if err := <-g.pass; err != nil {
		return 0, err
	}
	return g.got.Write(p)
}

func (g *gate) let(errs ...error) {
	for _, err := range errs {
		g.pass <- err
	}
}

func TestLinesAreWrittenInOrder(t *testing.T) {
	var got bytes.Buffer
	queue := NewQueue(&got)
	var want strings.Builder
	for number := 0; number < 1000; number++ {
		line := fmt.Sprintf("%d\n", number)
		want.WriteString(line)
		write(t, queue, line)
	}
	closeQueue(t, queue)
	diff.Equal(t, got.String(), want.String(), "")
	diff.Equal(t, queue.DroppedLines(), 0, "%d, %d", got.Len(), want.Len())
}

func TestASlowReaderHoldsNobodyUp(t *testing.T) {
	for name, test := range map[string]struct {
		line string
		fit  int
	}{
		"many lines": {"x\n", mostLines},
		"long lines": {strings.Repeat("x", 1<<16-1) + "\n", mostBytes >> 16},
	} {
		t.Run(name, func(t *testing.T) {
			to := newGate()
			queue := NewQueue(to)
			write(t, queue, test.line)
			<-to.entered // the first line is being written, and doesn't end
			const over = 7
			for number := 1; number < test.fit+over; number++ {
				write(t, queue, test.line)
			}
			diff.Equal(t, queue.DroppedLines(), over, "lines dropped")
			to.let(nil, nil, nil, nil)
			closeQueue(t, queue)
			report := `"level":"warning","event":"log_lines_dropped","lines":7}` + "\n"
			lines := to.got.String()
			if strings.Count(lines, test.line) < test.fit || !strings.HasSuffix(lines, report) {
				t.Errorf("got %d lines written, at the end %q, want all that fit and the report", strings.Count(lines, "\n"),
					lines[len(lines)-100:])
			}
		})
	}
}

func TestTheReportStandsWhereLinesAreMissing(t *testing.T) {
	to := newGate()
	queue := NewQueue(to)
	write(t, queue, "first\n")
	<-to.entered
	for number := 0; number < mostLines; number++ {
		write(t, queue, "x\n")
	}
	to.let(nil)
	<-to.entered // the lines that waited are being written
	write(t, queue, "last\n")
	to.let(nil, nil, nil)
	closeQueue(t, queue)
	lines := strings.SplitAfter(to.got.String(), "\n")
	if len(lines) != mostLines+3 {
		t.Fatalf("got %d lines, want %d", len(lines), mostLines+3)
	}
	diff.Contains(t, lines[mostLines], `"lines":1}`, "the end")
	diff.Equal(t, lines[mostLines+1], "last\n", "the end")
}

func TestALineThatIsTooLongIsDropped(t *testing.T) {
	var got bytes.Buffer
	queue := NewQueue(&got)
	write(t, queue, strings.Repeat("x", mostBytes)+"\n")
	write(t, queue, "short\n")
	closeQueue(t, queue)
	if queue.DroppedLines() != 1 || strings.Contains(got.String(), "xx") || !strings.Contains(got.String(), "short\n") ||
		!strings.Contains(got.String(), `"lines":1}`) {
		t.Errorf("got %d lines dropped and %.200q written, want the long one dropped", queue.DroppedLines(), got.String())
	}
}

func TestLinesThatCantBeWrittenAreCounted(t *testing.T) {
	to := newGate()
	queue := NewQueue(to)
	full := errors.New("no space left on device")
	write(t, queue, "lost\n")
	<-to.entered
	write(t, queue, "lost too\n")
	write(t, queue, "lost too\n")
	to.let(full)
	<-to.entered // the next batch
	to.let(full)
	<-to.entered // a report
	to.let(full)
	write(t, queue, "there\n")
	<-to.entered
	to.let(nil, nil, nil)
	closeQueue(t, queue)
	want := "there\n" + `{"time":"T","level":"warning","event":"log_lines_dropped","lines":3}` + "\n"
	if got := withoutTimes(to.got.String()); got != want || queue.DroppedLines() != 3 {
		t.Errorf("written: got %q, want %q; %d dropped", got, want, queue.DroppedLines())
	}
}

// A tearer writes so many bytes of the first batch alone.
type tearer struct {
	first int
	got   bytes.Buffer
}

func (t *tearer) Write(p []byte) (int, error) {
	if t.first == 0 {
		return t.got.Write(p)
	}
	count, _ := t.got.Write(p[:t.first])
	t.first = 0
	return count, io.ErrShortWrite
}

func TestATornLineStaysALineOfItsOwn(t *testing.T) {
	for first, want := range map[int]string{
		3: "fir\n" + `{"time":"T","level":"warning","event":"log_lines_dropped","lines":1}` + "\nsecond\n",
		6: "first\nsecond\n",
	} {
		t.Run(fmt.Sprintf("after %d bytes", first), func(t *testing.T) {
			to := &tearer{first: first}
			queue := NewQueue(to)
			write(t, queue, "first\n")
			waits.Until(t, "the first line is written", func() bool {
				queue.mutex.Lock()
				defer queue.mutex.Unlock()
				return queue.writing.lines == 0 && queue.lines == 0
			})
			write(t, queue, "second\n")
			closeQueue(t, queue)
			diff.Equal(t, withoutTimes(to.got.String()), want, "torn after %d bytes", first)
		})
	}
}

func TestCloseWaitsForTheRest(t *testing.T) {
	to := newGate()
	queue := NewQueue(to)
	write(t, queue, "a line\n")
	<-to.entered
	ctx, cancel := context.WithCancel(context.Background())
	cancel()
	diff.ErrorIs(t, queue.Close(ctx), context.Canceled, "Close")
	write(t, queue, "after Close\n")
	to.let(nil, nil)
	closeQueue(t, queue)
	if got := to.got.String(); !strings.HasPrefix(got, "a line\n") || strings.Contains(got, "after Close") {
		t.Errorf("written: got %q, want the first line only", got)
	}
	diff.Equal(t, queue.DroppedLines(), 1, "")
}

func TestManyWriters(t *testing.T) {
	var got bytes.Buffer
	queue := NewQueue(&got)
	waits.Together(8, func(int) {
		for number := 0; number < 200; number++ {
			write(t, queue, "a line\n")
		}
	})
	closeQueue(t, queue)
	diff.Equal(t, got.String(), strings.Repeat("a line\n", 1600), "")
}
