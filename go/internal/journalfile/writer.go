// Package journalfile writes a journal: what a process has changed, sent and answered, as lines of JSON that can be
// audited later (docs/journal.md). A line is written before anybody else can see what it reports, with one call of
// write. So a process that is killed loses no line. After a power cut the latest lines may be missing.
//
// The packages that wrap the stores, backends and clients of a program are broker/journal and platform/journal.
package journalfile

import (
	"crypto/rand"
	"crypto/sha256"
	"encoding/hex"
	"encoding/json"
	"errors"
	"fmt"
	"io"
	"os"
	"path/filepath"
	"strconv"
	"strings"
	"sync"
	"sync/atomic"
	"syscall"
	"time"
)

// patience is how long a line is waited for. A disk that works takes less, and a platform waits longer for an answer.
const patience = 5 * time.Second

// Options say where and how a journal is written.
type Options struct {
	// Path is a folder, in which each process has files of its own, or a file, which one process writes at a time.
	Path string
	// Side is broker or platform.
	Side string
	// Most is after how many bytes the journal goes on in another file.
	Most int64
	// Started are the members of the line started, which is the first of each file: an object of JSON, or nil for none.
	Started any
	// Failed gets why lines are lost: once, until a line can be written again.
	Failed func(error)
}

var (
	// errSlow is the error of a line that wasn't written in time.
	errSlow = errors.New("a line wasn't written in time: the disk doesn't answer")
	// errClosed is the error of a line after Close, which doesn't count as lost.
	errClosed = errors.New("the journal is closed")
)

// A Writer writes a journal. Any number of goroutines use it. A line that can't be written in time is lost and counted,
// and nobody waits for it any longer.
//
// One goroutine, which Open starts and Close ends, writes all lines: a disk that hangs keeps nobody else.
type Writer struct {
	options  Options
	process  string
	patience time.Duration

	lines   chan *job     // to the goroutine that writes
	ending  chan struct{} // closed by Close
	ended   chan struct{} // closed once nothing is written any more
	isStuck atomic.Bool   // a line wasn't written in time, and perhaps none has been written since

	mutex     sync.Mutex // of these
	clock     clock
	missing   uint64 // lines that were lost since the last one that was written
	lost      uint64 // all lines that were lost
	isFailing bool
	isClosed  bool

	// These belong to the goroutine that writes.
	files   files
	file    *os.File
	size    int64
	started []byte // the members of the line started
	isBegun bool   // whether the file has the line started of this process
	isTorn  bool   // whether the file ends within a line
	buffer  []byte
}

// A job is a line to be written.
type job struct {
	event string
	rest  []byte
	done  chan result // has room for one
}

// A result is the time of a line that was written, or why it wasn't.
type result struct {
	at  int64
	err error
}

// Open opens a journal, and writes the line started.
//
// Errors: those of opening its file; ErrTaken; the path is neither a folder nor a regular file.
func Open(options Options) (*Writer, error) {
	var random [8]byte
	if _, err := rand.Read(random[:]); err != nil {
		return nil, fmt.Errorf("no random bytes: %w", err)
	}
	w := &Writer{
		options: options, process: hex.EncodeToString(random[:]), patience: patience, clock: clock{now: time.Now},
		lines: make(chan *job), ending: make(chan struct{}), ended: make(chan struct{}),
	}
	var err error
	if options.Started == nil {
		options.Started = struct{}{}
	}
	if w.started, err = json.Marshal(options.Started); err != nil {
		return nil, err
	}
	if w.files, err = filesAt(options.Path, options.Side, w.process, time.Now()); err != nil {
		return nil, err
	}
	if err := w.openNext(); err != nil {
		w.files.close()
		return nil, err
	}
	if err := w.prepare(); err != nil { // the line started is written before the next line
		w.isFailing = true
		w.options.Failed(err)
	}
	go w.run()
	return w, nil
}

// run writes lines until Close.
func (w *Writer) run() {
	defer close(w.ended)
	for {
		select {
		case it := <-w.lines:
			it.done <- w.put(it)
			w.isStuck.Store(false)
		case <-w.ending:
			_ = w.file.Close()
			w.files.close()
			return
		}
	}
}

// put writes a line, and what precedes it.
func (w *Writer) put(it *job) result {
	if err := w.prepare(); err != nil {
		return result{err: err}
	}
	at := w.next()
	return result{at, w.append(at, it.event, it.rest)}
}

// next is the time of the next line.
func (w *Writer) next() int64 {
	w.mutex.Lock()
	defer w.mutex.Unlock()
	return w.clock.next()
}

// openNext has the journal go on in the next file.
func (w *Writer) openNext() error {
	file, err := w.files.next()
	if err != nil {
		return err
	}
	size, isTorn, err := endOf(file)
	if err != nil {
		_ = file.Close()
		return err
	}
	if w.file != nil {
		_ = w.file.Close()
	}
	w.file, w.size, w.isTorn = file, size, isTorn
	return nil
}

// endOf is the size of a file, and whether it ends within a line, as after a power cut.
func endOf(file *os.File) (size int64, isTorn bool, err error) {
	about, err := file.Stat()
	if err != nil || about.Size() == 0 {
		return 0, false, err
	}
	var last [1]byte
	if _, err := file.ReadAt(last[:], about.Size()-1); err != nil && !errors.Is(err, io.EOF) {
		return 0, false, err
	}
	return about.Size(), last[0] != '\n', nil
}

// Write writes a line, and returns its time. members is an object of JSON with what the event has besides. A line that
// wasn't written after a second counts as lost, although it may be written later. Until it is, further lines are lost
// at once.
func (w *Writer) Write(event string, members any) int64 {
	rest, err := json.Marshal(members)
	if err != nil {
		return w.lose(err)
	}
	it := w.write(&job{event, rest, make(chan result, 1)})
	if it.err != nil {
		return w.lose(it.err)
	}
	w.mutex.Lock()
	defer w.mutex.Unlock()
	w.isFailing = false
	return it.at
}

// Lose counts a line that can't be made, as one that can't be written.
func (w *Writer) Lose(err error) { w.lose(err) }

// lose counts a line that was lost, reports why if that is new, and returns the time.
func (w *Writer) lose(err error) int64 {
	at, isNew := w.count()
	if isNew {
		w.options.Failed(err)
	}
	return at
}

// count counts a line that was lost, unless the journal is closed. isNew is true if the line before wasn't lost.
func (w *Writer) count() (at int64, isNew bool) {
	w.mutex.Lock()
	defer w.mutex.Unlock()
	if w.isClosed {
		return w.clock.next(), false
	}
	isNew = !w.isFailing
	w.missing, w.lost, w.isFailing = w.missing+1, w.lost+1, true
	return w.clock.next(), isNew
}

// write has a line written.
//
// Errors: errSlow; errClosed; those of the file.
func (w *Writer) write(it *job) result {
	timer := time.NewTimer(w.patience)
	defer timer.Stop()
	err := w.hand(it, timer.C)
	if err == nil {
		select {
		case got := <-it.done:
			return got
		case <-timer.C:
			err = errSlow
		}
	}
	if errors.Is(err, errSlow) {
		w.isStuck.Store(true)
	}
	return result{err: err}
}

// hand gives a line to the goroutine that writes. If that hangs already, nobody waits for it.
func (w *Writer) hand(it *job, late <-chan time.Time) error {
	select {
	case w.lines <- it:
		return nil
	default:
	}
	if w.isStuck.Load() {
		return errSlow
	}
	select {
	case w.lines <- it:
		return nil
	case <-w.ending:
		return errClosed
	case <-late:
		return errSlow
	}
}

// prepare writes what precedes a line: the line started if it is the first of its file, and how many lines are missing.
// If the next file can't be opened, the journal goes on in the one that is full.
func (w *Writer) prepare() error {
	if w.size >= w.options.Most && w.openNext() == nil {
		w.isBegun = false
	}
	if !w.isBegun {
		if err := w.append(w.next(), "started", w.started); err != nil {
			return err
		}
		w.isBegun = true
	}
	missing := w.takeMissing()
	if missing == 0 {
		return nil
	}
	err := w.append(w.next(), "lost", []byte(`{"count":`+strconv.FormatUint(missing, 10)+"}"))
	if err != nil {
		w.mutex.Lock()
		defer w.mutex.Unlock()
		w.missing += missing
	}
	return err
}

// takeMissing returns how many lines were lost that no line reports yet. The caller reports them.
func (w *Writer) takeMissing() (missing uint64) {
	w.mutex.Lock()
	defer w.mutex.Unlock()
	missing, w.missing = w.missing, 0
	return missing
}

// append appends a line with one call of write. What is written of a line that doesn't fit is cut off again.
func (w *Writer) append(at int64, event string, rest []byte) error {
	line := w.buffer[:0]
	if w.isTorn {
		line = append(line, '\n')
	}
	line = strconv.AppendInt(append(line, `{"time":`...), at, 10)
	line = append(append(line, `,"process":"`...), w.process...)
	line = append(append(line, `","side":"`...), w.options.Side...)
	line = append(append(line, `","event":"`...), event...)
	line = append(line, '"')
	if len(rest) > len("{}") {
		line = append(append(line, ','), rest[1:len(rest)-1]...)
	}
	w.buffer = append(line, "}\n"...)
	count, err := w.file.Write(w.buffer)
	if err == nil {
		w.size, w.isTorn = w.size+int64(count), false
		return nil
	}
	if count > 0 && w.file.Truncate(w.size) != nil {
		w.size, w.isTorn = w.size+int64(count), true
	}
	return err
}

// Time is a time after all lines so far, as the value of Header.
func (w *Writer) Time() string {
	w.mutex.Lock()
	defer w.mutex.Unlock()
	return strconv.FormatInt(w.clock.next(), 10)
}

// Receive takes in the value of Header that another process has sent: the lines that follow have later times. A value
// that is no time, or one more than a day ahead, is ignored.
func (w *Writer) Receive(value string) {
	w.mutex.Lock()
	defer w.mutex.Unlock()
	w.clock.receive(value)
}

// LostLines returns how many lines were lost so far.
func (w *Writer) LostLines() uint64 {
	w.mutex.Lock()
	defer w.mutex.Unlock()
	return w.lost
}

// Close writes the line stopped, and closes the journal. No line is written afterwards. Call it only once nothing goes
// on any more that the journal reports. If the disk hangs, Close doesn't wait for it any longer than for a line.
func (w *Writer) Close() {
	w.Write("stopped", struct{}{})
	if !w.markClosed() {
		return
	}
	close(w.ending)
	select {
	case <-w.ended:
	case <-time.After(w.patience):
	}
}

// markClosed has no line count as lost any more. It returns whether the journal was open.
func (w *Writer) markClosed() (wasOpen bool) {
	w.mutex.Lock()
	defer w.mutex.Unlock()
	wasOpen, w.isClosed = !w.isClosed, true
	return wasOpen
}

// Digest names an object without showing it: the first 16 hexadecimal digits of its SHA-256, or "" of nil.
func Digest(object []byte) string {
	if object == nil {
		return ""
	}
	sum := sha256.Sum256(object)
	return hex.EncodeToString(sum[:8])
}

// ErrTaken reports that another process writes to the file.
var ErrTaken = errors.New("another process writes this journal. Give each process a file of its own, or name a folder")

// files are the files of a journal, one after another. Only the owner can read them.
type files interface {
	// next opens the file in which the journal goes on, for appending.
	next() (*os.File, error)
	close()
}

// filesAt are the files of a journal at a path: in a folder, or a file with those that follow it. A path that ends with
// a slash is that of a folder, which is created.
//
// Errors: those of opening; ErrTaken; the path is neither a folder nor a regular file.
func filesAt(path, side, process string, now time.Time) (files, error) {
	if strings.HasSuffix(path, "/") {
		if err := os.MkdirAll(path, 0o700); err != nil {
			return nil, err
		}
	}
	about, err := os.Stat(path)
	switch {
	case err == nil && about.IsDir():
		begun := now.UTC().Format("20060102T150405.000000Z")
		return &folder{prefix: filepath.Join(path, side+"-"+begun+"-"+process+"-")}, nil
	case err == nil && !about.Mode().IsRegular():
		return nil, fmt.Errorf("%s is neither a folder nor a regular file", path)
	case err != nil && !errors.Is(err, os.ErrNotExist):
		return nil, err
	}
	return chainAt(path)
}

// A folder has files of many processes, each with a name of its own.
type folder struct {
	prefix string
	count  int
}

func (f *folder) next() (*os.File, error) {
	name := fmt.Sprintf("%s%06d.jsonl", f.prefix, f.count+1)
	file, err := os.OpenFile(name, os.O_WRONLY|os.O_APPEND|os.O_CREATE|os.O_EXCL, 0o600)
	if err == nil {
		f.count++
	}
	return file, err
}

func (*folder) close() {}

// A chain is a file, and those that follow it: FILE, FILE.1, FILE.2 and so on. One process writes to it at a time,
// which has the lock of the first.
type chain struct {
	path  string
	lock  *os.File
	count int // the number of the latest file
	isNew bool
}

// chainAt locks the chain of a file. The journal goes on in the latest one.
func chainAt(path string) (*chain, error) {
	lock, err := openOwn(path, os.O_WRONLY)
	if err != nil {
		return nil, err
	}
	err = syscall.Flock(int(lock.Fd()), syscall.LOCK_EX|syscall.LOCK_NB)
	if errors.Is(err, syscall.EWOULDBLOCK) {
		err = fmt.Errorf("%s: %w", path, ErrTaken)
	}
	c := &chain{path: path, lock: lock, isNew: true}
	if err == nil {
		c.count, err = latestOf(path)
	}
	if err != nil {
		_ = lock.Close()
		return nil, err
	}
	return c, nil
}

// openOwn opens a file of a chain, or creates it, so that only its owner can read it. A symbolic link isn't followed.
func openOwn(path string, flags int) (*os.File, error) {
	file, err := os.OpenFile(path, flags|os.O_CREATE|syscall.O_NOFOLLOW, 0o600)
	if errors.Is(err, syscall.ELOOP) {
		return nil, fmt.Errorf("%s is a symbolic link, which isn't followed: name the file itself", path)
	}
	if err != nil {
		return nil, err
	}
	about, err := file.Stat()
	if err == nil && !about.Mode().IsRegular() {
		err = fmt.Errorf("%s isn't a regular file", path)
	}
	if err == nil && about.Mode().Perm()&0o077 != 0 { // a journal has what only the program should know
		err = file.Chmod(0o600)
	}
	if err != nil {
		_ = file.Close()
		return nil, fmt.Errorf("only the owner should read the journal: %w", err)
	}
	return file, nil
}

// latestOf is the greatest number of a file that follows another one, or 0.
func latestOf(path string) (latest int, err error) {
	entries, err := os.ReadDir(filepath.Dir(path))
	if err != nil {
		return 0, err
	}
	prefix := filepath.Base(path) + "."
	for _, entry := range entries {
		text := strings.TrimPrefix(entry.Name(), prefix)
		number, err := strconv.Atoi(text)
		if err == nil && strings.HasPrefix(entry.Name(), prefix) && strconv.Itoa(number) == text && number > latest {
			latest = number
		}
	}
	return latest, nil
}

func (c *chain) next() (*os.File, error) {
	number := c.count
	if !c.isNew {
		number++
	}
	name := c.path
	if number > 0 {
		name += "." + strconv.Itoa(number)
	}
	file, err := openOwn(name, os.O_RDWR|os.O_APPEND)
	if err == nil {
		c.count, c.isNew = number, false
	}
	return file, err
}

func (c *chain) close() { _ = c.lock.Close() }

// Header is the header in which two programs tell each other the times of their journals.
const Header = "X-Osb-Journal-Time"

// mostAhead is how far a time that was received may be ahead of this machine's clock.
const mostAhead = 24 * time.Hour

// A clock has the time of a journal, in microseconds since 1970: that of the machine, but later than each time before,
// and than each that was received. So what caused a line has an earlier time (a hybrid logical clock).
type clock struct {
	now  func() time.Time
	last int64
}

// next is the next time.
func (c *clock) next() int64 {
	c.last++
	if now := c.now().UnixMicro(); now > c.last {
		c.last = now
	}
	return c.last
}

// receive takes a time in that another process has sent. Anything but a number in digits, and a time that is too far
// ahead, is ignored.
func (c *clock) receive(text string) {
	received, err := strconv.ParseUint(text, 10, 63)
	if err != nil || int64(received) > c.now().Add(mostAhead).UnixMicro() {
		return
	}
	if int64(received) > c.last {
		c.last = int64(received)
	}
}
