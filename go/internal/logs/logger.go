// Package logs writes a log as lines of JSON. A slow reader of the log never holds up the program.
package logs

import (
	"bytes"
	"context"
	"fmt"
	"io"
	"math"
	"sync"
	"time"
	"unicode/utf16"
	"unicode/utf8"

	"github.com/rs/zerolog"
)

// The levels of a line.
const (
	info    = "info"
	warning = "warning"
	failure = "error"
)

// A Logger writes events, each as one line of JSON. Every line begins with the members time (RFC 3339 with
// milliseconds, in UTC), level (info, warning or error) and event. A line is ASCII without control characters, so a
// text of a client in it can't control a terminal that shows the log. Any number of goroutines may use a Logger. (The
// members are this project's choice.)
type Logger struct {
	events zerolog.Logger
	now    func() time.Time
}

// New returns a Logger that writes each line by one call of Write. Usually the writer is a Queue.
func New(to io.Writer) *Logger {
	return &Logger{events: zerolog.New(ascii{to}), now: time.Now}
}

// Info begins the line of a usual event, whose name is in snake case and never changes. Add further members to the
// zerolog.Event that Info returns, and then call its method Send.
func (l *Logger) Info(event string) *zerolog.Event { return l.begin(info, event) }

// Warning begins, as Info does, the line of an event that an operator should look at.
func (l *Logger) Warning(event string) *zerolog.Event { return l.begin(warning, event) }

// Error begins, as Info does, the line of a failure.
func (l *Logger) Error(event string) *zerolog.Event { return l.begin(failure, event) }

// begin doesn't use the levels and the time of zerolog: their names and their order are settings of that package, and
// not of a logger.
func (l *Logger) begin(level, event string) *zerolog.Event {
	return l.events.Log().Str("time", timeOf(l.now())).Str("level", level).Str("event", event)
}

// Add adds a text to an event, unless it is empty.
func Add(event *zerolog.Event, name, text string) {
	if text != "" {
		event.Str(name, text)
	}
}

// Milliseconds returns a time in milliseconds, rounded to tenths.
func Milliseconds(of time.Duration) float64 {
	return math.Round(float64(of)/float64(time.Millisecond)*10) / 10
}

// timeOf is the time of a line, up to the year 9999. Format takes twice as long, and each line has a time.
func timeOf(t time.Time) string {
	t = t.UTC()
	year, month, day := t.Date()
	hour, minute, second := t.Clock()
	text := []byte("0000-00-00T00:00:00.000Z")
	for _, number := range [...]struct{ end, of int }{
		{4, year}, {7, int(month)}, {10, day}, {13, hour}, {16, minute}, {19, second}, {23, t.Nanosecond() / 1e6},
	} {
		for at, left := number.end-1, number.of; left > 0 && at >= 0; at, left = at-1, left/10 {
			text[at] += byte(left % 10)
		}
	}
	return string(text)
}

// ascii writes lines of JSON in ASCII. In JSON, other characters are only in strings, in which they can be escaped.
type ascii struct{ to io.Writer }

func (a ascii) Write(line []byte) (int, error) {
	for _, b := range line {
		if b >= utf8.RuneSelf {
			_, err := a.to.Write(escape(line))
			return len(line), err
		}
	}
	return a.to.Write(line)
}

// escape returns the line with \uXXXX in the place of each character that isn't ASCII.
func escape(line []byte) []byte {
	longer := make([]byte, 0, 2*len(line))
	for len(line) > 0 {
		r, size := utf8.DecodeRune(line)
		line = line[size:]
		first, second := utf16.EncodeRune(r)
		switch {
		case r < utf8.RuneSelf:
			longer = append(longer, byte(r))
		case r <= 0xffff:
			longer = appendEscape(longer, r)
		default:
			longer = appendEscape(appendEscape(longer, first), second)
		}
	}
	return longer
}

func appendEscape(line []byte, unit rune) []byte {
	const digits = "0123456789abcdef"
	return append(line, '\\', 'u', digits[unit>>12], digits[unit>>8&15], digits[unit>>4&15], digits[unit&15])
}

// The limits of a Queue. Lines that are being written count too.
const (
	mostBytes = 1 << 20
	mostLines = 10000
)

// pause is how long lines are gathered after others were written.
const pause = 10 * time.Millisecond

// A Queue is an io.Writer that never waits. It queues lines, at most 1 MiB and 10,000 of them, and one goroutine writes
// them to another writer: a line after a pause at once, and what follows within 10 ms together. The Queue drops lines that don't fit, and lines that can't be written, and counts them. Once
// it can write again, it writes a line of JSON with the event log_lines_dropped and the number of dropped lines. Any
// number of goroutines may use a Queue. (The limits and the event are this project's choice.)
type Queue struct {
	to  io.Writer
	now func() time.Time

	mutex    sync.Mutex
	waiting  []byte // queued lines
	lines    int    // how many
	writing  batch
	missing  uint64 // dropped lines that aren't logged yet
	dropped  uint64 // all dropped lines
	isClosed bool

	wake   chan struct{} // has a value if the goroutine has something to do
	closed chan struct{} // is closed by Close
	done   chan struct{} // is closed once the goroutine has ended
}

// A batch is lines that are written together.
type batch struct {
	bytes   []byte
	lines   int
	missing uint64 // lines that were dropped after these
}

// NewQueue returns a Queue that writes to another writer, and starts its goroutine. Close ends the goroutine. Nobody
// else may write to that writer until then.
func NewQueue(to io.Writer) *Queue {
	q := &Queue{
		to: to, now: time.Now, wake: make(chan struct{}, 1), closed: make(chan struct{}), done: make(chan struct{}),
	}
	go q.run()
	return q
}

// Write queues one line, which has to end with a line feed, or drops it. In both cases it returns the length of the
// line and no error. After Close it drops every line.
func (q *Queue) Write(line []byte) (int, error) {
	q.mutex.Lock()
	defer q.mutex.Unlock()
	defer q.wakeUp()
	isFull := q.lines+q.writing.lines >= mostLines || len(q.waiting)+len(q.writing.bytes)+len(line) > mostBytes
	if q.isClosed || isFull {
		q.drop(1)
		return len(line), nil
	}
	q.waiting = append(q.waiting, line...)
	q.lines++
	return len(line), nil
}

// DroppedLines returns how many lines the Queue has dropped so far.
func (q *Queue) DroppedLines() uint64 {
	q.mutex.Lock()
	defer q.mutex.Unlock()
	return q.dropped
}

// Close waits until all queued lines are written and the goroutine has ended, or until ctx is done.
//
// Errors: that of ctx. Then the goroutine still waits for the reader of the log, in a call of Write, and ends once that
// call returns and the queued lines are written.
func (q *Queue) Close(ctx context.Context) error {
	q.mutex.Lock()
	if !q.isClosed {
		q.isClosed = true
		close(q.closed)
	}
	q.wakeUp()
	q.mutex.Unlock()
	select {
	case <-q.done:
		return nil
	case <-ctx.Done():
		return fmt.Errorf("write the rest of the log: %w", ctx.Err())
	}
}

func (q *Queue) drop(lines int) {
	q.missing += uint64(lines)
	q.dropped += uint64(lines)
}

func (q *Queue) wakeUp() {
	select {
	case q.wake <- struct{}{}:
	default:
	}
}

// run writes queued lines, until the Queue is closed and empty.
func (q *Queue) run() {
	defer close(q.done)
	to := &lineWriter{to: q.to}
	for range q.wake {
		for {
			next, isClosed := q.take()
			q.write(to, next)
			if len(next.bytes) > 0 {
				q.rest()
				continue
			}
			if isClosed {
				return
			}
			break
		}
	}
}

// rest waits for a pause, unless the Queue is closed, or lines are missing: their report comes before all later lines.
func (q *Queue) rest() {
	q.mutex.Lock()
	isMissing := q.missing > 0
	q.mutex.Unlock()
	if isMissing {
		return
	}
	timer := time.NewTimer(pause)
	defer timer.Stop()
	select {
	case <-timer.C:
	case <-q.closed:
	}
}

// take returns all queued lines as a batch, and whether the Queue is closed.
func (q *Queue) take() (batch, bool) {
	q.mutex.Lock()
	defer q.mutex.Unlock()
	spare := q.writing.bytes[:0]
	q.writing = batch{bytes: q.waiting, lines: q.lines, missing: q.missing}
	q.waiting, q.lines, q.missing = spare, 0, 0
	return q.writing, q.isClosed
}

// write writes a batch, and then how many lines were dropped after it. It counts lines that it can't write as dropped.
func (q *Queue) write(to io.Writer, next batch) {
	var written int
	var err error
	if len(next.bytes) > 0 {
		written, err = to.Write(next.bytes)
	}
	if err == nil && next.missing > 0 {
		_, err = fmt.Fprintf(to, `{"time":"%s","level":"warning","event":"log_lines_dropped","lines":%d}`+"\n",
			timeOf(q.now()), next.missing)
	}
	q.mutex.Lock()
	defer q.mutex.Unlock()
	if err != nil {
		q.missing += next.missing
	}
	q.drop(bytes.Count(next.bytes[written:], []byte("\n")))
	q.writing = batch{bytes: next.bytes[:0]}
}

// A lineWriter writes lines to a writer that may fail in the middle of a line. If it does, a line feed is written
// before the next line.
type lineWriter struct {
	to     io.Writer
	isTorn bool
}

func (t *lineWriter) Write(lines []byte) (int, error) {
	if t.isTorn {
		if _, err := t.to.Write([]byte("\n")); err != nil {
			return 0, err
		}
		t.isTorn = false
	}
	written, err := t.to.Write(lines)
	if written > 0 {
		t.isTorn = lines[written-1] != '\n'
	}
	return written, err
}
