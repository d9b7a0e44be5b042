// Package storefaults makes one statement fail in the tests of stores, over SQLite and over PostgreSQL.
package storefaults

import (
	"bufio"
	"bytes"
	"database/sql/driver"
	"encoding/binary"
	"errors"
	"io"
	"net"
	"net/url"
	"strings"
	"sync"
	"sync/atomic"
	"testing"

	"github.com/mattn/go-sqlite3"

	"pippinterm/internal/diff"
	"pippinterm/internal/pg"
)

// A Fault is how a statement fails.
type Fault int

const (
	// Refused: the database answers with an error, and has done nothing.
	Refused Fault = iota
	// Cut: the connection ends before the database gets the statement. SQLite has none.
	Cut
	// Lost: the connection ends before the database answers, which has executed the statement. Of SQLite's statements
	// only COMMITs are counted then.
	Lost
	// Broken: the connection ends in the middle of the answer, before its first row, or before its end if it has none.
	Broken
)

// String is the word for it.
func (f Fault) String() string { return [...]string{"refused", "cut", "lost", "broken"}[f] }

// ErrFault is the error of a statement that is made to fail, if the database isn't asked.
var ErrFault = errors.New("this statement was made to fail")

// A Countdown has one statement of a store fail. Any number of connections use it.
type Countdown struct {
	turn   sync.Mutex
	left   int // how many statements until the one that fails, and 0 if none does
	fault  Fault
	failed string
}

// Fail has the n-th statement from now on fail, and none if n is 0.
func (c *Countdown) Fail(n int, fault Fault) {
	c.turn.Lock()
	defer c.turn.Unlock()
	c.left, c.fault, c.failed = n, fault, ""
}

// FailedStatement returns the statement that has failed since Fail, or "".
func (c *Countdown) FailedStatement() string {
	c.turn.Lock()
	defer c.turn.Unlock()
	return c.failed
}

// next returns how the statement fails that does.
func (c *Countdown) next() Fault {
	c.turn.Lock()
	defer c.turn.Unlock()
	return c.fault
}

// fails counts a statement, and returns whether it is the one that fails.
func (c *Countdown) fails(text string) bool {
	c.turn.Lock()
	defer c.turn.Unlock()
	if c.left == 0 {
		return false
	}
	if c.left--; c.left > 0 {
		return false
	}
	c.failed = text
	return true
}

// IsBegin reports whether a statement begins a transaction: if it fails, it may be tried again.
func IsBegin(statement string) bool { return strings.HasPrefix(statement, "BEGIN") }

// IsCommit reports whether a statement commits what others have written.
func IsCommit(statement string) bool { return strings.HasPrefix(statement, "COMMIT") }

// A Proxy stands between the connections of a client and a PostgreSQL server. Each statement of a client may be the one
// that fails: what is prepared, each execution, and what a client sends as a text. It counts what the server answers.
type Proxy struct {
	Countdown
	listener net.Listener
	server   string
	running  sync.WaitGroup

	mutex   sync.Mutex
	cut     []byte
	hangs   bool
	isUsed  bool
	resumes *sync.Cond
	answers Answers
}

// Answers are what the server has answered.
type Answers struct {
	Trips        int // that end a round trip
	Statements   int // that end a statement, such as BEGIN, COMMIT and what is between them
	Transactions int // that end a transaction with BEGIN
}

// NewProxy starts a proxy before the server of a URL, and returns it with the URL to use. At the end of the test it
// waits until all connections are closed.
func NewProxy(t testing.TB, address string) (*Proxy, string) {
	t.Helper()
	host, port, err := pg.HostAndPort(address)
	diff.Must(t, err)
	parsed := diff.Value(url.Parse(address))(t)
	listener := diff.Value(net.Listen("tcp", "127.0.0.1:0"))(t)
	p := &Proxy{listener: listener, server: net.JoinHostPort(host, port)}
	p.resumes = sync.NewCond(&p.mutex)
	p.running.Add(1)
	go p.accept()
	t.Cleanup(func() {
		p.Hang(false)
		_ = listener.Close()
		p.running.Wait()
	})
	asked := parsed.Query()
	asked.Set("sslmode", "disable")
	parsed.Host, parsed.RawQuery = listener.Addr().String(), asked.Encode()
	return p, parsed.String()
}

// Cut has the connection closed that sends these bytes: the server gets the message, and the client no answer. With no
// bytes none is closed.
func (p *Proxy) Cut(at string) {
	p.mutex.Lock()
	defer p.mutex.Unlock()
	p.cut = []byte(at)
}

// Hang has the proxy forward nothing in either direction, or forward again, also what came meanwhile.
func (p *Proxy) Hang(is bool) {
	p.mutex.Lock()
	defer p.mutex.Unlock()
	p.hangs = is
	p.resumes.Broadcast()
}

// IsUsed reports whether a client has sent anything.
func (p *Proxy) IsUsed() bool {
	p.mutex.Lock()
	defer p.mutex.Unlock()
	return p.isUsed
}

// Tally is what the server has answered since the last call.
func (p *Proxy) Tally() Answers {
	p.mutex.Lock()
	defer p.mutex.Unlock()
	counted := p.answers
	p.answers = Answers{}
	return counted
}

// onRequest notes that a client has sent messages, waits while the proxy hangs, and returns whether the connection is cut.
func (p *Proxy) onRequest(round []byte) (isCut bool) {
	p.mutex.Lock()
	defer p.mutex.Unlock()
	p.isUsed = true
	for p.hangs {
		p.resumes.Wait()
	}
	return len(p.cut) > 0 && bytes.Contains(round, p.cut)
}

// onAnswer counts a message of the server, and waits while the proxy hangs.
func (p *Proxy) onAnswer(message []byte) {
	p.mutex.Lock()
	defer p.mutex.Unlock()
	for p.hangs {
		p.resumes.Wait()
	}
	switch message[0] {
	case 'Z': // ReadyForQuery
		p.answers.Trips++
	case 'C': // CommandComplete, with the name of the command
		p.answers.Statements++
		if name := string(message[5:]); name == "COMMIT\x00" || name == "ROLLBACK\x00" {
			p.answers.Transactions++
		}
	}
}

func (p *Proxy) accept() {
	defer p.running.Done()
	for {
		client, err := p.listener.Accept()
		if err != nil {
			return
		}
		server, err := net.Dial("tcp", p.server)
		if err != nil {
			_ = client.Close()
			continue
		}
		it := &talk{proxy: p, client: client, server: server, texts: map[string]string{}}
		p.running.Add(2)
		go func() {
			defer p.running.Done()
			defer client.Close()
			_ = it.answer()
		}()
		go func() {
			defer p.running.Done()
			defer server.Close()
			_ = it.forward()
		}()
	}
}

// A talk is a connection, as PostgreSQL's protocol 3 says ("Message Flow").
type talk struct {
	proxy          *Proxy
	client, server net.Conn
	texts          map[string]string // of prepared statements, by their names
	isLost         atomic.Bool       // whether the connection ends instead of the next answer
	isBroken       atomic.Bool       // whether the connection ends in the middle of the next answer
}

// answer forwards what the server answers, until one of the connections ends.
func (c *talk) answer() error {
	for from := bufio.NewReader(c.server); ; {
		message, err := read(from, 5)
		if err != nil {
			return err
		}
		c.proxy.onAnswer(message)
		kind := message[0] // D is a row, and C the end of what a statement answers
		if c.isLost.Load() || (kind == 'D' || kind == 'C') && c.isBroken.Load() {
			return io.EOF
		}
		if _, err := c.client.Write(message); err != nil {
			return err
		}
	}
}

// forward forwards what a client sends, until one of the connections ends.
func (c *talk) forward() error {
	first, err := read(c.client, 4) // the first message has no type
	if err == nil {
		err = c.send(first, "")
	}
	if err != nil {
		return err
	}
	var round []byte // what is answered together
	text := ""
	for {
		message, err := read(c.client, 5)
		if err != nil {
			return err
		}
		round = append(round, message...)
		if it := c.statement(message); it != "" {
			text = it
		}
		if kind := message[0]; kind != 'S' && kind != 'Q' && kind != 'p' && kind != 'X' {
			continue
		}
		if err := c.send(round, text); err != nil {
			return err
		}
		round, text = nil, ""
	}
}

// read reads a message whose length is in the last four bytes of its head.
func read(from io.Reader, head int) ([]byte, error) {
	message := make([]byte, head)
	if _, err := io.ReadFull(from, message); err != nil {
		return nil, err
	}
	rest := make([]byte, binary.BigEndian.Uint32(message[head-4:])-4)
	_, err := io.ReadFull(from, rest)
	return append(message, rest...), err
}

// statement is the text of the statement that a message prepares or executes, or "".
func (c *talk) statement(message []byte) string {
	texts := bytes.Split(message[5:], []byte{0})
	switch message[0] {
	case 'Q':
		return string(texts[0])
	case 'P':
		c.texts[string(texts[0])] = string(texts[1])
		return "PREPARE " + string(texts[1])
	case 'B':
		return c.texts[string(texts[1])]
	}
	return ""
}

// failing is a statement that fails.
const failing = "DO $$BEGIN RAISE EXCEPTION 'this statement was made to fail'; END$$\x00"

// releases are the statements that don't fail: what they release ends with the connection anyway.
var releases = map[string]bool{"ROLLBACK": true, "SELECT pg_advisory_unlock_all()": true}

// send sends messages to the server, unless they are to fail.
func (c *talk) send(round []byte, text string) error {
	fault := c.proxy.next()
	if c.proxy.onRequest(round) {
		_ = c.client.Close() // before the messages are forwarded: the answer can't be faster
		_, _ = c.server.Write(round)
		return io.EOF
	}
	if text == "" || releases[text] || !c.proxy.fails(text) {
		_, err := c.server.Write(round)
		return err
	}
	switch fault {
	case Refused:
		round = binary.BigEndian.AppendUint32([]byte{'Q'}, uint32(4+len(failing)))
		round = append(round, failing...)
	case Cut:
		_ = c.client.Close()
		return io.EOF
	case Lost:
		c.isLost.Store(true)
	case Broken:
		c.isBroken.Store(true)
	}
	_, err := c.server.Write(round)
	return err
}

// A Driver opens connections of SQLite. Each statement that is prepared or executed, and each row of a query, may be
// the one that fails, but not a ROLLBACK.
type Driver struct{ Countdown }

// Open opens a connection.
func (d *Driver) Open(name string) (driver.Conn, error) {
	made, err := (&sqlite3.SQLiteDriver{}).Open(name)
	if err != nil {
		return nil, err
	}
	return &conn{made.(*sqlite3.SQLiteConn), d}, nil
}

// refuse returns the error of a statement that fails before it is executed, and lose that of one that fails after.
func (d *Driver) refuse(text string) error { return d.fault(text, Refused) }

func (d *Driver) lose(text string) error { return d.fault(text, Lost) }

func (d *Driver) fault(text string, fault Fault) error {
	if text == "ROLLBACK" || fault == Lost && !IsCommit(text) || d.next() != fault || !d.fails(text) {
		return nil
	}
	return ErrFault
}

type conn struct {
	*sqlite3.SQLiteConn
	driver *Driver
}

func (c *conn) Exec(text string, values []driver.Value) (driver.Result, error) {
	return c.driver.exec(text, func() (driver.Result, error) { return c.SQLiteConn.Exec(text, values) })
}

// exec executes a statement, unless it is refused.
func (d *Driver) exec(text string, execute func() (driver.Result, error)) (driver.Result, error) {
	if err := d.refuse(text); err != nil {
		return nil, err
	}
	done, err := execute()
	if err == nil {
		err = d.lose(text)
	}
	return done, err
}

func (c *conn) Query(text string, values []driver.Value) (driver.Rows, error) {
	return c.driver.query(text, func() (driver.Rows, error) { return c.SQLiteConn.Query(text, values) })
}

// query begins a query, unless it is refused.
func (d *Driver) query(text string, query func() (driver.Rows, error)) (driver.Rows, error) {
	if err := d.refuse(text); err != nil {
		return nil, err
	}
	found, err := query()
	if err != nil {
		return nil, err
	}
	return &rows{found, text, d}, nil
}

func (c *conn) Prepare(text string) (driver.Stmt, error) {
	if err := c.driver.refuse("PREPARE " + text); err != nil {
		return nil, err
	}
	made, err := c.SQLiteConn.Prepare(text)
	if err != nil {
		return nil, err
	}
	return &statement{made.(*sqlite3.SQLiteStmt), text, c.driver}, nil
}

type statement struct {
	*sqlite3.SQLiteStmt
	text   string
	driver *Driver
}

func (s *statement) Exec(values []driver.Value) (driver.Result, error) {
	return s.driver.exec(s.text, func() (driver.Result, error) { return s.SQLiteStmt.Exec(values) })
}

func (s *statement) Query(values []driver.Value) (driver.Rows, error) {
	return s.driver.query(s.text, func() (driver.Rows, error) { return s.SQLiteStmt.Query(values) })
}

type rows struct {
	driver.Rows
	text   string
	driver *Driver
}

func (r *rows) Next(row []driver.Value) error {
	if err := r.driver.refuse("a row of " + r.text); err != nil {
		return err
	}
	return r.Rows.Next(row)
}
