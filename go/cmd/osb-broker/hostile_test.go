package main

import (
	"bufio"
	"context"
	"encoding/base64"
	"encoding/json"
	"fmt"
	"go/ast"
	"go/parser"
	"go/token"
	"io"
	"io/fs"
	"math/rand"
	"net"
	"net/http"
	"net/http/httptest"
	"os"
	"os/exec"
	"path/filepath"
	"regexp"
	"strconv"
	"strings"
	"sync/atomic"
	"syscall"
	"testing"
	"time"

	"github.com/spf13/pflag"

	"pippinterm/internal/diff"
	"pippinterm/internal/httpserver/health"
	"pippinterm/internal/logs"
)

// dial connects to the broker.
func (s *servedBroker) dial() *net.TCPConn {
	s.t.Helper()
	return dial(s.t, strings.TrimPrefix(s.url, "http://")).(*net.TCPConn)
}

// raw sends bytes and nothing more, and returns the whole answer.
func (s *servedBroker) raw(bytes string) string {
	s.t.Helper()
	conn := s.dial()
	defer conn.Close()
	diff.Value(conn.Write([]byte(bytes)))(s.t)
	check(s.t, conn.CloseWrite())
	given, err := io.ReadAll(conn)
	if err != nil {
		s.t.Fatalf("after %q: got %v, want no error", bytes, err)
	}
	return string(given)
}

func basic(user, password string) string {
	return "Basic " + base64.StdEncoding.EncodeToString([]byte(user+":"+password))
}

// headers are those of a platform, after the first line of a head.
func headers() string {
	return "\r\nHost: broker\r\nX-Broker-API-Version: 2.17\r\nAuthorization: " + basic("platform", "secret") + "\r\n"
}

// The log has neither a password nor the header Authorization, whether a login is right or wrong.
func TestLogHasNoPassword(t *testing.T) {
	const right, wrong = "right-password", "wrong-password"
	s := start(t, []string{"OSB_BROKER_PASSWORD=" + right}, "--state", t.TempDir())
	logins := []string{
		basic("platform", right), basic("platform", wrong), basic("somebody", wrong), basic("somebody", right),
		"Basic " + right, "Bearer " + wrong, "basic  " + wrong + ":", "Basic " + strings.Repeat(wrong, 100),
	}
	requests := 0
	for _, login := range logins {
		for _, target := range []string{"/v2/catalog", one + "/last_operation", "/nowhere"} {
			request := s.request("", "", "GET", target, "")
			request.Header.Set("Authorization", login)
			if status, body := s.do(request); (status == 401) != (login != logins[0]) {
				t.Errorf("login %s: got %d %s, want 401 for each but the first", login, status, body)
			}
			requests++
		}
	}
	s.Terminate()
	logged := 0
	for line := range s.Lines {
		if strings.Contains(line, `"event":"request"`) {
			logged++
		}
		secrets := []string{right, wrong, "uthorization", "Basic ", "Bearer "}
		for _, login := range logins {
			secrets = append(secrets, strings.TrimPrefix(login, "Basic "))
		}
		for _, secret := range secrets {
			diff.Lacks(t, line, secret, "the log")
		}
	}
	diff.Equal(t, logged, requests, "")
}

// Requests that are cut at every length, and hostile ones: nothing is held, and the broker lives.
func TestCutRequests(t *testing.T) {
	state := t.TempDir()
	s := start(t, []string{password}, "--state", state)
	lengthOf := fmt.Sprintf("Content-Length: %d\r\n", len(order))
	chunks := fmt.Sprintf("%x\r\n%s\r\n0\r\n\r\n", len(order), order)
	const encoding = "Transfer-Encoding: chunked\r\n"
	for _, test := range []struct {
		name, request string
		isHostile     bool // whether it is rejected as a whole too
	}{
		{"a length", "PUT " + one + " HTTP/1.1" + headers() + lengthOf + "\r\n" + order, false},
		{"chunks", "PUT " + one + " HTTP/1.1" + headers() + encoding + "\r\n" + chunks, false},
		{"HTTP/1.0", "PUT " + one + " HTTP/1.0" + headers() + lengthOf + "\r\n" + order, false},
		{"a length and chunks", "PUT " + one + " HTTP/1.1" + headers() + lengthOf + encoding + "\r\n" + chunks, true},
		{"two lengths", "PUT " + one + " HTTP/1.1" + headers() + lengthOf + "Content-Length: 3\r\n\r\n" + order, true},
		{"a null byte", "PUT " + one + "\x00 HTTP/1.1" + headers() + lengthOf + "\r\n" + order, true},
	} {
		t.Run(test.name, func(t *testing.T) {
			for cut := 0; cut <= len(test.request); cut++ {
				if cut == len(test.request) && !test.isHostile {
					break
				}
				given := s.raw(test.request[:cut])
				if given != "" && !strings.HasPrefix(given, "HTTP/1.1 4") && !strings.HasPrefix(given, "HTTP/1.0 4") {
					t.Errorf("%s, cut at %d: got %q, want none or a 4xx", test.name, cut, given)
				}
			}
		})
	}
	s.expect(410, "GET", poll, "")
	diff.Equal(t, len(soldInstances(t, state)), 0, "")
	_, metrics := s.plain("/metrics")
	diff.Contains(t, metrics, "\nosb_broker_tombstones 0\n", "the metrics")
	diff.Contains(t, metrics, "\nosb_broker_pending 0\n", "the metrics")
	s.expect(201, "PUT", one, order)
	s.stop()
}

// The health is answered while all --threads work.
func TestHealthWhileAllWork(t *testing.T) {
	g := newGate(t)
	s := g.start("--threads", "1")
	s.send("PUT", one, order)
	g.waits()
	for _, path := range []string{"/healthz", "/readyz", "/metrics"} {
		t.Run(path, func(t *testing.T) {
			status, body := s.plain(path)
			diff.Equal(t, status, 200, "%s, %s", path, body)
		})
	}
	g.open()
	s.until(200, "succeeded", "GET", poll, "")
	s.stop()
}

// A request isn't kept waiting by bodies that arrive slowly, although there are more of those than --threads.
func TestBesideSlowBodies(t *testing.T) {
	s := start(t, []string{password}, "--state", t.TempDir(), "--threads", "1")
	slow := make([]*bufio.ReadWriter, 20)
	for n := range slow {
		conn := s.dial()
		slow[n] = bufio.NewReadWriter(bufio.NewReader(conn), bufio.NewWriter(conn))
		const head = "PUT %s-%d HTTP/1.1%sExpect: 100-continue\r\nConnection: close\r\nContent-Length: %d\r\n\r\n"
		fmt.Fprintf(slow[n], head, one, n, headers(), len(order))
		s.line(slow[n], "HTTP/1.1 100 Continue\r\n") // the broker waits for the body
		s.line(slow[n], "\r\n")
		s.flush(slow[n], order[:9])
	}
	s.expect(201, "PUT", one, order)
	for _, readWriter := range slow {
		s.flush(readWriter, order[9:])
		s.line(readWriter, "HTTP/1.1 201 Created\r\n")
	}
	s.stop()
}

// line sends what is buffered, and reads a line.
func (s *servedBroker) line(of *bufio.ReadWriter, want string) {
	s.t.Helper()
	s.flush(of, "")
	if line, err := of.ReadString('\n'); err != nil || line != want {
		s.t.Fatalf("got %q, %v, want %q", line, err, want)
	}
}

func (s *servedBroker) flush(of *bufio.ReadWriter, text string) {
	s.t.Helper()
	_, err := of.WriteString(text)
	if err == nil {
		err = of.Flush()
	}
	check(s.t, err)
}

// The greatest length of a body, whether its length is sent before or not.
func TestLongestBody(t *testing.T) {
	s := start(t, []string{password}, "--state", t.TempDir(), "--longest-body", "300")
	s.client.Transport = &http.Transport{} // the connection stays open, so the answer follows the body
	defer s.client.CloseIdleConnections()
	for _, test := range []struct {
		bytes     int
		isChunked bool
		status    int
	}{
		{300, false, 201}, {301, false, 413}, {100_000, false, 413},
		{300, true, 201}, {301, true, 413}, {100_000, true, 413},
	} {
		t.Run(fmt.Sprintf("%d bytes, chunked %t", test.bytes, test.isChunked), func(t *testing.T) {
			body := order + strings.Repeat(" ", test.bytes-len(order))
			reader := io.Reader(strings.NewReader(body))
			if test.isChunked {
				reader = io.MultiReader(reader) // of which the length isn't known
			}
			path := fmt.Sprintf("%s-%d-%v", one, test.bytes, test.isChunked)
			request := diff.Value(http.NewRequest("PUT", s.url+path, reader))(t)
			request.SetBasicAuth("platform", "secret")
			request.Header.Set("X-Broker-API-Version", "2.17")
			status, body := s.do(request)
			diff.Equal(t, status, test.status, "%d bytes, chunked %v, %s", test.bytes, test.isChunked, body)
			status, _ = s.ask("GET", path+"/last_operation", "")
			diff.Equal(t, status, map[int]int{201: 200, 413: 410}[test.status],
				"a Poll after %d bytes, chunked %v", test.bytes, test.isChunked)
		})
	}
	s.stop()
}

// An inside is a broker in the process of the test, without a server.
type inside struct {
	t       *testing.T
	state   string
	handler http.Handler
	asked   int
}

func newInside(t *testing.T) *inside {
	t.Helper()
	ctx, s := context.Background(), &settings{}
	flags := pflag.NewFlagSet("", pflag.ContinueOnError)
	s.addPlaces(flags)
	s.addAccess(flags)
	s.addRules(flags)
	s.addLimits(flags)
	it := &inside{t: t, state: t.TempDir()}
	check(t, flags.Parse([]string{"--state", it.state, "--longest-body", strconv.Itoa(longestTaken)}))
	t.Setenv("OSB_BROKER_PASSWORD", "secret")
	queue := logs.NewQueue(io.Discard)
	t.Cleanup(func() { _ = queue.Close(ctx) })
	r := &server{settings: s, log: logs.New(queue)}
	r.access = diff.Value(accessOf(s, r.log))(t)
	check(t, r.open(ctx, ctx, queue))
	t.Cleanup(r.parts.closeAll)
	it.handler = health.New(ctx, health.Options{
		Ready: r.parts.store.Ready, Metrics: r.metrics.handler(), Next: r.handler,
	})
	return it
}

// answer returns the status and the body of the answer, and whether the broker was asked: what net/http can't read, it
// answers by itself with 400. Each message is from another address, so that no limit of failed logins is reached.
func (i *inside) answer(text string) (status int, body string, wasAsked bool) {
	request, err := http.ReadRequest(bufio.NewReader(strings.NewReader(text)))
	if err != nil {
		return http.StatusBadRequest, "", false
	}
	i.asked++
	request.RemoteAddr = fmt.Sprintf("10.0.%d.%d:1", i.asked/250, 1+i.asked%250)
	given := httptest.NewRecorder()
	i.handler.ServeHTTP(given, request)
	return given.Code, given.Body.String(), true
}

// prepareState creates what the valid messages need.
func prepareState(t *testing.T, send func(message) int) {
	t.Helper()
	access := []string{loginLine, versionLine}
	for _, message := range []message{
		{method: "PUT", instance: "kept", body: order, access: access},
		{method: "PUT", instance: "bare", body: order, access: access},
		{method: "PUT", instance: "ended", body: order, access: access},
		{method: "PUT", instance: "kept", binding: "b", body: bind, access: access},
		{method: "PUT", instance: "kept", binding: "c", body: bind, access: access},
	} {
		diff.Equal(t, send(message), 201, "%s", message.path())
	}
	diff.Equal(t, send(message{method: "DELETE", instance: "ended", query: idQuery, access: access}), 200, "")
}

// checkValid carries out the valid messages: those that the hostile ones were made of.
func checkValid(t *testing.T, send func(message) int) {
	t.Helper()
	for status, messages := range validMessages() {
		for _, message := range messages {
			diff.Equal(t, send(message), status, "%s %s", message.method, message.path())
		}
	}
}

// stateOf is all that is in the folder of the state: names, kinds, modes, times and contents, but for the index of
// SQLite's log, which readers write. Another process reads it, since closing a file of SQLite ends the locks on it.
func stateOf(t *testing.T, folder string) string {
	t.Helper()
	const script = `find . ! -name '*-shm' -printf '%p %y %m %i %s %T@\n' | LC_ALL=C sort &&
		find . -type f ! -name '*-shm' -print0 | LC_ALL=C sort -z | xargs -0 sha256sum`
	command := exec.Command("sh", "-c", script)
	command.Dir = folder
	out := diff.Value(command.Output())(t)
	return string(out)
}

// hostileMessage is a message that has to be rejected, with the statuses of which one is right.
func hostileMessage(chance *rand.Rand) (message, []int) {
	all := validMessages()
	messages := append(append(all[200], all[201]...), all[202]...)
	m, by := pickOne(chance, messages), pickOne(chance, spoilers)
	for by.of != nil && !by.of(m) {
		m, by = pickOne(chance, messages), pickOne(chance, spoilers)
	}
	by.spoil(chance, &m)
	for count := chance.Intn(4); count > 0; count-- {
		m.headers = append(m.headers, pickOne(chance, noiseHeaders))
	}
	return m, by.statuses
}

func isAmong(status int, statuses []int) bool {
	for _, element := range statuses {
		if element == status {
			return true
		}
	}
	return false
}

// isRejection reports whether a body is that of a rejection.
func isRejection(body string) bool {
	var read struct{ Error, Description string }
	return json.Unmarshal([]byte(body), &read) == nil && read.Error != "" && read.Description != ""
}

// Ten thousand messages, each with one thing that has to be rejected: each gets its status, and nothing is changed.
// Those that http.ReadRequest can't read are sent to the program.
func TestHostileRequests(t *testing.T) {
	i, chance := newInside(t), rand.New(rand.NewSource(1))
	send := func(m message) int { status, _, _ := i.answer(m.text()); return status }
	prepareState(t, send)
	before := stateOf(t, i.state)
	found, unread := map[int]int{}, []string(nil)
	for n := 0; n < 10_000; n++ {
		m, statuses := hostileMessage(chance)
		status, body, wasAsked := i.answer(m.text())
		if wasAsked && (!isAmong(status, statuses) || !isRejection(body)) {
			t.Fatalf("number %d: got %d %s, want one of %v, of %q", n, status, body, statuses, m.text())
		}
		if wasAsked {
			found[status]++
		} else {
			unread = append(unread, m.text())
		}
	}
	for _, status := range []int{400, 401, 404, 405, 412, 413, 422} {
		if found[status] < 100 {
			t.Errorf("got only %d answers with %d, want at least 100", found[status], status)
		}
	}
	diff.Equal(t, stateOf(t, i.state), before, "the state")
	checkValid(t, send)
	if len(unread) < 100 {
		t.Errorf("got only %d that can't be read, want at least 100", len(unread))
	}
	rejectAll(t, unread)
}

// rejectAll sends texts to the program, each on a connection of its own. Each has to be rejected by one answer with
// 4xx, and nothing may change.
func rejectAll(t *testing.T, texts []string) {
	t.Helper()
	state := t.TempDir()
	b := start(t, []string{password}, "--state", state, "--longest-body", strconv.Itoa(longestTaken))
	s := &sender{servedBroker: b}
	prepareState(t, s.status)
	before := stateOf(t, state)
	for _, text := range texts {
		if statuses, given := s.exchange(text); len(statuses) != 1 || statuses[0]/100 != 4 {
			t.Errorf("%.500q: got %v %.300s, want one 4xx", text, statuses, given)
		}
	}
	diff.Equal(t, stateOf(t, state), before, "the state")
	checkValid(t, s.status)
	s.stop()
}

// A message without a login, with bytes changed at random: it gets a 401, wherever they are, or net/http rejects it.
func TestNobodyGetsIn(t *testing.T) {
	i, chance := newInside(t), rand.New(rand.NewSource(1))
	prepareState(t, func(m message) int { status, _, _ := i.answer(m.text()); return status })
	before, asked := stateOf(t, i.state), 0
	for n := 0; n < 5_000; n++ {
		m, _ := hostileMessage(chance)
		m.access = []string{versionLine, "Authorization: " + basic("platform", "wrong")}
		text := []byte(m.text())
		for flips := chance.Intn(6); flips > 0; flips-- {
			text[chance.Intn(len(text))] = byte(chance.Intn(256))
		}
		status, body, wasAsked := i.answer(string(text))
		if !wasAsked {
			continue
		}
		if asked++; status != 401 || !isRejection(body) {
			t.Fatalf("number %d: got %d %s of %q, want a rejection with 401", n, status, body, text)
		}
	}
	if asked < 2_000 {
		t.Errorf("got only %d questions, want at least 2000", asked)
	}
	diff.Equal(t, stateOf(t, i.state), before, "the state")
}

// Headers on which no answer depends: a message with them is carried out as it is without them.
func TestNoise(t *testing.T) {
	i := newInside(t)
	send := func(m message) int { status, _, _ := i.answer(m.text()); return status }
	prepareState(t, send)
	before := stateOf(t, i.state)
	for _, header := range noiseHeaders {
		for _, m := range validMessages()[200][:4] {
			_, want, _ := i.answer(m.text())
			m.headers = []string{header}
			if status, body, wasAsked := i.answer(m.text()); wasAsked && (status != 200 || body != want) {
				t.Errorf("with %q: got %d %s, want 200 %s", header, status, body, want)
			}
		}
	}
	diff.Equal(t, stateOf(t, i.state), before, "the state")
}

// statusLine is where an answer begins. No header and no body has such a text.
var statusLine = regexp.MustCompile(`HTTP/1\.[01] ([0-9]{3}) `)

// A sender sends to a broker, each time from another address of this machine, so that no limit of failed logins is
// reached.
type sender struct {
	*servedBroker
	count atomic.Uint32
}

// exchange sends a text on a connection of its own, and returns the statuses of all answers, and their text. The broker
// may close the connection before it has read all.
func (s *sender) exchange(text string) (statuses []int, given string) {
	s.t.Helper()
	number := s.count.Add(1)
	dialer := net.Dialer{LocalAddr: &net.TCPAddr{IP: net.IPv4(127, 1, byte(number>>8), byte(number))}}
	conn, err := dialer.Dial("tcp", strings.TrimPrefix(s.url, "http://"))
	if err == nil {
		defer conn.Close()
		err = conn.SetDeadline(time.Now().Add(20 * time.Second))
	}
	if err != nil {
		s.t.Errorf("got the error %v, want a connection", err)
		return nil, ""
	}
	sent := make(chan struct{})
	go func() {
		defer close(sent)
		_, _ = io.WriteString(conn, text)
		_ = conn.(*net.TCPConn).CloseWrite()
	}()
	bytes, err := io.ReadAll(conn) // what arrived before the broker closed the connection counts
	if timeout, is := err.(net.Error); is && timeout.Timeout() {
		s.t.Errorf("after %.300q: got %v, want an answer in time", text, err)
	}
	<-sent
	for _, found := range statusLine.FindAllSubmatch(bytes, -1) {
		status, _ := strconv.Atoi(string(found[1])) // three digits
		statuses = append(statuses, status)
	}
	return statuses, string(bytes)
}

// status sends a message on a connection of its own, and returns the status of the answer.
func (s *sender) status(m message) int {
	s.t.Helper()
	m.headers = append(m.headers, "Connection: close")
	statuses, given := s.exchange(m.text())
	if len(statuses) != 1 {
		s.t.Fatalf("got %d answers in %s, want 1", len(statuses), given)
	}
	return statuses[0]
}

const (
	newPath     = "/v2/service_instances/new"
	putNew      = "PUT " + newPath
	http11      = " HTTP/1.1\r\n"
	chunkedLine = "Transfer-Encoding: chunked\r\n"
	closeLine   = "Connection: close\r\n"
)

var (
	entryLines  = loginLine + "\r\n" + versionLine + "\r\n"
	accessLines = "Host: broker\r\n" + entryLines
	// hiddenRequest is a whole request that would change something. In another one, it must not be found.
	hiddenRequest = message{
		method: "DELETE", instance: "bare", query: idQuery, access: []string{loginLine, versionLine},
	}.text()
	newHead    = putNew + http11 + accessLines
	headsOfAll = []string{
		newHead,
		"PUT /v2/service_instances/kept/service_bindings/new" + http11 + accessLines,
		"GET /v2/service_instances/kept/last_operation" + http11 + accessLines,
		"GET /v2/catalog" + http11 + accessLines,
		"DELETE /v2/service_instances/bare?" + idQuery[0] + "&" + idQuery[1] + http11 + accessLines,
	}
	lengthLine   = "Content-Length: " + strconv.Itoa(len(order)) + "\r\n"
	chunkedOrder = chunkOf(order) + "0\r\n\r\n"
)

func chunkOf(text string) string {
	return strconv.FormatInt(int64(len(text)), 16) + "\r\n" + text + "\r\n"
}

// badHeads are lines, beside those of access, that make the head of a request one that has to be rejected. A body
// follows, and a hidden request.
func badHeads() map[int][]string {
	return map[int][]string{
		400: joinedLists(
			linesOf("Transfer-Encoding:", "", " chunked, chunked", " identity", " identity, chunked",
				" chunked, identity", " xchunked", " gzip, chunked", " \"chunked\"", " chunked\x00", " \x0bchunked",
				"\r\n chunked",
				"\r\n\tchunked"),
			linesOf("Content-Length:", "", " -1", " +5", " 0x5", " 5e0", " 5 5", " 5, 5", " five",
				" 99999999999999999999", " 9223372036854775808", " \u0665", "\r\n 5"),
			linesOf(lengthLine+"X", "", ": a\r\n b", ": a\r\n\tb", ": a\x00b", ": a\rb", ": \x7f", " Y: a", "\x00: a",
				"(: a"),
			[]string{
				lengthLine + chunkedLine, chunkedLine + lengthLine, "Content-Length: 0\r\n" + chunkedLine,
				chunkedLine + chunkedLine,
				chunkedLine + " x\r\n",
				"content-length: 5\r\ntransfer-encoding: chunked\r\n", "Transfer-Encoding : chunked\r\n",
				"Transfer-Encoding\r\n: chunked\r\n", lengthLine + lengthLine, lengthLine + "Content-Length: 0\r\n",
				"Content-Length: 0\r\n" + lengthLine, "Content-Length : 5\r\n", lengthLine + " X: a\r\n",
				lengthLine + "\u00e9: a\r\n",
				lengthLine + "Host: other\r\n",
			},
		),
		417: {lengthLine + "Expect: 200-ok\r\n"},
		431: {
			lengthLine + "X: " + strings.Repeat("a", 1<<20) + "\r\n",
			lengthLine + strings.Repeat("a", 1<<20) + ": x\r\n",
			lengthLine + strings.Repeat("X: a\r\n", 200_000),
			lengthLine + strings.Repeat("X: a\r\n ", 200_000) + "\r\n",
		},
	}
}

// linesOf are lines that begin with the same text.
func linesOf(begin string, ends ...string) (all []string) {
	for _, end := range ends {
		all = append(all, begin+end+"\r\n")
	}
	return all
}

func joinedLists(lists ...[]string) (all []string) {
	for _, list := range lists {
		all = append(all, list...)
	}
	return all
}

// badStarts are first lines with what follows them, before a body and a hidden request.
func badStarts() map[int][]string {
	return map[int][]string{
		400: {
			putNew + " HTTP/1.0\r\n" + accessLines + chunkedLine,
			putNew + " HTTP/1.0\r\n" + accessLines + chunkedLine + lengthLine,
			putNew + " HTTP/1.0\r\n" + accessLines + chunkedLine + "Connection: keep-alive\r\n",
			putNew + " HTTP/1.2\r\n" + accessLines + chunkedLine, putNew + "\r\n" + accessLines,
			"PUT  " + newPath + http11 + accessLines,
			"PUT\t" + newPath + "\tHTTP/1.1\r\n" + accessLines,
			" " + newHead, putNew + " x" + http11 + accessLines, putNew + " HTTP/1.1 x\r\n" + accessLines,
			putNew + "\x00" + http11 + accessLines, putNew + "\x7f" + http11 + accessLines,
			putNew + "%" + http11 + accessLines,
			"PUT http://[::1" + newPath + http11 + accessLines, "PUT http://a b" + newPath + http11 + accessLines,
			"PUT " + newPath[1:] + http11 + accessLines, putNew + " http/1.1\r\n" + accessLines,
			putNew + " HTTP/1\r\n" + accessLines,
			putNew + " HTTP/1.\r\n" + accessLines, putNew + " HTTP/-1.1\r\n" + accessLines,
			"P(T " + newPath + http11 + accessLines,
			"\x00" + newHead, "\xef\xbb\xbf" + newHead, http11 + accessLines, "HTTP/1.1 200 OK\r\n" + accessLines,
			"\x16\x03\x01\x02\x00\x01\x00\x01\xfc\x03\x03\r\n", // the begin of TLS
			putNew + http11 + entryLines, putNew + http11 + "Host: a b\r\n" + entryLines,
			putNew + http11 + "Host: a/b\r\n" + entryLines,
		},
		404: {
			"GET http://other/" + http11 + accessLines + closeLine, "OPTIONS *" + http11 + accessLines + closeLine,
			"PRI * HTTP/2.0\r\n" + accessLines + closeLine,
		},
		431: {putNew + strings.Repeat("a", 1<<20) + http11 + accessLines, strings.Repeat("a", 1<<20)},
		505: {putNew + " HTTP/3.0\r\n" + accessLines, putNew + " HTTP/2.0\r\n" + accessLines},
	}
}

// badChunks are bodies that are broken off, or that aren't what their lengths say.
func badChunks() []string {
	return []string{
		"", "5", "5\r\n{", "g\r\n{}\r\n0\r\n\r\n", "-2\r\n{}\r\n0\r\n\r\n", "+2\r\n{}\r\n0\r\n\r\n",
		"0x2\r\n{}\r\n0\r\n\r\n", "\r\n{}\r\n0\r\n\r\n", ";\r\n{}\r\n0\r\n\r\n", "2 2\r\n{}\r\n0\r\n\r\n",
		"2\r\n{}0\r\n\r\n", "1\r\n{}\r\n0\r\n\r\n",
		"3\r\n{}\r\n0\r\n\r\n", "fffffffffffffffff\r\n{}\r\n0\r\n\r\n", "ffffffffffffffff\r\n{}\r\n0\r\n\r\n",
		"8000000000000000\r\n{}\r\n0\r\n\r\n", chunkOf(order), chunkOf(order) + "0",
		chunkOf(order) + "0\r\nX: a", chunkOf(order) + "0\r\nX",
		"2;" + strings.Repeat("a", 1<<16) + "\r\n{}\r\n0\r\n\r\n", strings.Repeat("1;a\r\n{\r\n", 9),
	}
}

// A smuggling is a text, and the statuses of its answers.
type smuggling struct {
	text     string
	statuses []int
}

// allSmuggled are texts in which something stands that has to be rejected, with a request behind it that must not be
// carried out, alone and behind a request that is.
func allSmuggled() (all []smuggling) {
	first := message{method: "GET", isCatalogue: true, access: []string{loginLine, versionLine}}.text()
	add := func(text string, status int) {
		all = append(all, smuggling{text, []int{status}}, smuggling{first + text, []int{200, status}})
	}
	for status, texts := range badHeads() {
		for _, text := range texts {
			body := order
			if strings.Contains(strings.ToLower(text), "chunked") {
				body = chunkedOrder
			}
			for _, target := range headsOfAll {
				if add(target+text+"\r\n"+body+hiddenRequest, status); status == 431 {
					break // net/http takes half a second for each
				}
			}
		}
	}
	for status, texts := range badStarts() {
		for _, text := range texts {
			add(text+"\r\n"+chunkedOrder+hiddenRequest, status)
		}
	}
	for _, chunk := range badChunks() {
		add(newHead+chunkedLine+"\r\n"+chunk, 408)
	}
	add(newHead+"Content-Length: 9999\r\n\r\n"+hiddenRequest, 408)
	add(newHead+chunkedLine+"\r\n"+chunkOf("{}")+"0\r\n\r\n"+hiddenRequest, 400) // no request follows chunks
	return all
}

// What net/http judges by itself, over a socket: each connection gets its answers and no other, nothing that is hidden
// in a request is carried out, and the broker lives.
func TestHostileConnections(t *testing.T) {
	state := t.TempDir()
	b := start(t, []string{password}, "--state", state, "--longest-body", strconv.Itoa(longestTaken))
	s := &sender{servedBroker: b}
	prepareState(t, s.status)
	before := stateOf(t, state)
	slots := make(chan struct{}, 16)
	for _, smuggling := range allSmuggled() {
		smuggling := smuggling
		slots <- struct{}{}
		go func() {
			defer func() { <-slots }()
			statuses, given := s.exchange(smuggling.text)
			diff.Check(t, statuses, smuggling.statuses, "%.500q, %.300s", smuggling.text, given)
		}()
	}
	for n := 0; n < cap(slots); n++ {
		slots <- struct{}{}
	}
	diff.Equal(t, stateOf(t, state), before, "the state")
	checkValid(t, s.status)
	s.stop()
}

// Some of the hostile messages over a socket: net/http has them answered as they are without it, or rejects them.
func TestHostileMessages(t *testing.T) {
	state, chance := t.TempDir(), rand.New(rand.NewSource(2))
	b := start(t, []string{password}, "--state", state, "--longest-body", strconv.Itoa(longestTaken))
	s := &sender{servedBroker: b}
	prepareState(t, s.status)
	before := stateOf(t, state)
	for n := 0; n < 1_000; n++ {
		m, statuses := hostileMessage(chance)
		if status := s.status(m); status != 400 && !isAmong(status, statuses) {
			t.Fatalf("number %d: got %d, want one of %v, of %q", n, status, statuses, m.text())
		}
	}
	diff.Equal(t, stateOf(t, state), before, "the state")
	checkValid(t, s.status)
	s.stop()
}

// Nobody else can read what the broker writes, whatever umask it was started with.
func TestStateIsPrivate(t *testing.T) {
	state := filepath.Join(t.TempDir(), "state")
	defer syscall.Umask(syscall.Umask(0)) // the broker inherits it
	s := start(t, []string{password}, "--state", state)
	s.expect(201, "PUT", one, order)
	s.expect(201, "PUT", one+"/service_bindings/b", bind)
	found := 0
	err := filepath.WalkDir(state, func(path string, entry fs.DirEntry, err error) error {
		if err != nil {
			return err
		}
		about, err := entry.Info()
		if err == nil && about.Mode().Perm()&0o077 != 0 {
			t.Errorf("%s: got the mode %v, want none for others", path, about.Mode())
		}
		found++
		return err
	})
	if err != nil || found < 8 {
		t.Errorf("got %d files, %v, want at least 8", found, err)
	}
	s.stop()
}

var (
	nameOfTest   = regexp.MustCompile(`\bTest[A-Z]\w*`)
	tableOfTests = regexp.MustCompile(`(?m)^\|.*\| test \|\n\|[-|]+\|\n((?:\|.*\n)+)`)
)

// The tests that SECURITY.md names exist, and each attack of its tables has one.
func TestSecurityNamesTests(t *testing.T) {
	document, err := os.ReadFile("../../../SECURITY.md")
	check(t, err)
	exists := map[string]bool{}
	err = filepath.WalkDir("../..", func(path string, _ fs.DirEntry, err error) error {
		if err != nil || !strings.HasSuffix(path, "_test.go") {
			return err
		}
		file, err := parser.ParseFile(token.NewFileSet(), path, nil, parser.SkipObjectResolution)
		if err != nil {
			return err
		}
		for _, declaration := range file.Decls {
			if function, isFunction := declaration.(*ast.FuncDecl); isFunction && function.Recv == nil {
				exists[function.Name.Name] = true
			}
		}
		return nil
	})
	check(t, err)
	named := nameOfTest.FindAllString(string(document), -1)
	for _, name := range named {
		diff.Equal(t, exists[name], true, "the test %s exists", name)
	}
	if len(named) < 40 {
		t.Errorf("got only %d tests named, want at least 40", len(named))
	}
	for _, table := range tableOfTests.FindAllStringSubmatch(string(document), -1) {
		for _, row := range strings.Split(strings.TrimSpace(table[1]), "\n") {
			cells := strings.Split(row, " | ")
			diff.Equal(t, nameOfTest.MatchString(cells[len(cells)-1]), true, "this attack has a test: %s", row)
		}
	}
}
