package httpserver

import (
	"bufio"
	"fmt"
	"io"
	"math/rand"
	"net/http"
	"strings"
	"testing"

	"pippinterm/internal/diff"
	"pippinterm/internal/waits"
)

const end = "\r\n\r\n"

// readIn follows a stream in pieces of this size, and returns what net/http gets.
func readIn(stream string, size int) (*heads, string) {
	followed, got := &heads{}, ""
	for at := 0; at < len(stream); at += size {
		piece := []byte(stream[at:])
		if len(piece) > size {
			piece = piece[:size]
		}
		got += string(piece[:followed.read(piece)])
	}
	return followed, got
}

const (
	get     = "GET / HTTP/1.1\r\nHost: x" + end
	put     = "PUT /a HTTP/1.1\r\nHost: x\r\ncontent-length:\t3 " + end + "{}\n"
	chunked = "PUT /a HTTP/1.1\r\nTransfer-Encoding: chunked" + end
	put11   = "PUT / HTTP/1.1\r\n"
)

var headTests = map[string]struct {
	stream string
	ended  uint64
	bad    uint64
	state  state
	got    string // what net/http gets, if it isn't the stream
}{
	"nothing":                  {"", 0, 0, between, ""},
	"one":                      {get, 1, 0, between, ""},
	"line feeds alone":         {"GET / HTTP/1.1\nHost: x\n\n", 1, 0, between, ""},
	"three":                    {get + put + get, 3, 0, between, ""},
	"a head in a body":         {put11 + "Content-Length: 27" + end + get, 1, 0, between, ""},
	"a part of a body":         {put11 + "Content-Length: 28" + end + get, 1, 0, inBody, ""},
	"a body of no length":      {put11 + "Content-Length: 0" + end + get, 2, 0, between, ""},
	"empty lines":              {"\r\n\n" + get + "\r\n" + get, 2, 0, between, get + get},
	"empty lines alone":        {"\r\n\r\n", 0, 0, between, "-"},
	"a part of a request line": {get + "PUT", 1, 0, requestLine, ""},
	"a part of a header":       {"GET / HTTP/1.1\r\nHo", 0, 0, headerLines, ""},
	"no empty line":            {"GET / HTTP/1.1\r\nHost: x\r\n", 0, 0, headerLines, ""},
	"chunked":                  {chunked, 1, 0, unfollowed, ""},
	"after chunked":            {chunked + "0" + end + get, 1, 0, unfollowed, ""},
	"both":                     {put11 + "Content-Length: 3\r\nTransfer-Encoding: chunked" + end, 1, 1, unfollowed, ""},
	"both in other letters": {get + "PUT / HTTP/1.1\r\ntransfer-encoding: chunked\r\nCONTENT-LENGTH: 3" + end, 2, 2,
		unfollowed, ""},
	"the encoding in 1.0":      {"PUT / HTTP/1.0\r\nTransfer-Encoding: chunked" + end, 1, 1, unfollowed, ""},
	"the encoding in 1.2":      {"PUT / HTTP/1.2\r\nTransfer-Encoding: chunked" + end, 1, 1, unfollowed, ""},
	"the encoding in no known": {"PUT / HTTP/1.1 \r\nTransfer-Encoding: chunked" + end, 1, 1, unfollowed, ""},
	"a length in 1.0":          {"PUT / HTTP/1.0\r\nContent-Length: 1" + end + "x" + get, 2, 0, between, ""},
	"two lengths":              {put11 + "Content-Length: 3\r\nContent-Length: 3" + end, 1, 1, unfollowed, ""},
	"an empty length":          {put11 + "Content-Length:" + end, 1, 1, unfollowed, ""},
	"a signed length":          {put11 + "Content-Length: +3" + end, 1, 1, unfollowed, ""},
	"a great length":           {put11 + "Content-Length: 9223372036854775808" + end, 1, 1, unfollowed, ""},
	"a continued line":         {"GET / HTTP/1.1\r\nA: b\r\n c" + end, 1, 1, unfollowed, ""},
	"a continued encoding":     {"GET / HTTP/1.1\r\nTransfer-Encoding:\r\n\tchunked" + end, 1, 1, unfollowed, ""},
	"after a bad one":          {"GET / HTTP/1.1\r\nA: b\r\n c" + end + get + "\r\n", 1, 1, unfollowed, ""},
	"names that only begin so": {"GET / HTTP/1.0\r\nTransfer-Encoding-X: a\r\nContent-Length-X: b" + end, 1, 0,
		between, ""},
	"OPTIONS *": {"OPTIONS * HTTP/1.1" + end, 1, 0, between, "OPTIONS / HTTP/1.1" + end},
	"OPTIONS * second": {get + "\nOPTIONS * HTTP/1.1" + end, 2, 0, between,
		get + "OPTIONS / HTTP/1.1" + end},
	"OPTIONS of a path":     {"OPTIONS /* HTTP/1.1" + end, 1, 0, between, ""},
	"a longer method":       {"XOPTIONS * HTTP/1.1" + end, 1, 0, between, ""},
	"OPTIONS * in a header": {"GET / HTTP/1.1\r\nOPTIONS *: x" + end, 1, 0, between, ""},
	"OPTIONS * in a body":   {put11 + "Content-Length: 9" + end + "OPTIONS *", 1, 0, between, ""},
}

func TestHeads(t *testing.T) {
	for name, test := range headTests {
		t.Run(name, func(t *testing.T) {
			want := test.got
			if want == "" {
				want = test.stream
			}
			for _, size := range []int{1, 2, 3, 7, 4096} {
				followed, got := readIn(test.stream, size)
				diff.Equal(t, followed.ended, test.ended, "in pieces of %d", size)
				diff.Equal(t, followed.bad.Load(), test.bad, "in pieces of %d", size)
				diff.Equal(t, followed.state, test.state, "in pieces of %d", size)
				diff.Equal(t, got, strings.Trim(want, "-"), "in pieces of %d net/http", size)
			}
		})
	}
}

// parts are what streams are made of at random, beside whole requests.
var parts = []string{
	"GET / HTTP/1.1\r\n", "PUT /a?b HTTP/1.1\r\n", "POST / HTTP/1.0\r\n", "PUT / HTTP/1.2\n", "OPTIONS * HTTP/1.1\r\n",
	"GET /\r\n", "Host: x\r\n", "Content-Length: 5\r\n", "content-length:0\n", "Content-Length: 05 \r\n",
	"Content-Length : 5\r\n", "Content-Length: 5\r\r\n", "Content-Length: 5, 5\r\n", "Content-Length:\r\n",
	"Transfer-Encoding: chunked\r\n", "transfer-encoding: identity\r\n", " folded\r\n", "\tfolded\r\n",
	"Content-Length\r\n", "X: Content-Length: 5\r\n", "Connection: keep-alive\r\n", "\r\n", "\n", "\r", "hello",
	"5\r\nhello\r\n0\r\n\r\n", ":\r\n", "\x00", " ", "a",
}

var requests = []string{
	"PUT / HTTP/1.1\r\nHost: x\r\nContent-Length: 5\r\n\r\nhello",
	"POST /a HTTP/1.0\ncontent-length:\t05\nA:b\n\nhello",
	"GET / HTTP/1.1\r\nHost: x\r\n\r\n",
	"DELETE /?a HTTP/1.2\r\nHost: x\r\nX: y\r\n\r\n\r\n",
}

func randomStream(random *rand.Rand) string {
	var stream strings.Builder
	for length := random.Intn(8); length > 0; length-- {
		if random.Intn(8) == 0 {
			stream.WriteString(parts[random.Intn(len(parts))])
		}
		request := requests[random.Intn(len(requests))]
		if random.Intn(8) == 0 {
			at := random.Intn(len(request))
			request = request[:at] + parts[random.Intn(len(parts))] + request[at:]
		}
		stream.WriteString(request)
	}
	return stream.String()
}

// ends returns what net/http gets of a stream, and where in that each head ends.
func ends(stream string) (followed *heads, got string, ends []int) {
	followed = &heads{}
	for at := range []byte(stream) {
		before, one := followed.ended, []byte{stream[at]}
		got += string(one[:followed.read(one)])
		if followed.ended > before {
			ends = append(ends, len(got))
		}
	}
	return followed, got, ends
}

// endsByNetHTTP returns where net/http sees the ends of heads, until it rejects one.
func endsByNetHTTP(stream string) (ends []int) {
	source := strings.NewReader(stream)
	reader := bufio.NewReader(source)
	for {
		request, err := http.ReadRequest(reader)
		if err != nil {
			return ends
		}
		ends = append(ends, len(stream)-source.Len()-reader.Buffered())
		if _, err := io.Copy(io.Discard, request.Body); err != nil {
			return ends
		}
	}
}

// TestHeadsAreThoseOfNetHTTP compares the ends of heads with those that net/http sees, in random streams.
func TestHeadsAreThoseOfNetHTTP(t *testing.T) {
	random := rand.New(rand.NewSource(1))
	compared := 0
	for number := 0; number < 10000; number++ {
		stream := randomStream(random)
		followed, got, found := ends(stream)
		want := endsByNetHTTP(got)
		if followed.state == unfollowed && len(want) > len(found) {
			want = want[:len(found)] // the server closes the connection there
		}
		if len(want) > len(found) {
			t.Fatalf("%q: got heads that end at %v, want what net/http sees: %v", got, found, want)
		}
		for at, end := range want {
			if found[at] != end {
				t.Fatalf("%q: got heads that end at %v, want what net/http sees: %v", got, found, want)
			}
			compared++
		}
	}
	if compared < 10000 {
		t.Errorf("got only %d heads compared, want at least 10000", compared)
	}
}

func TestBadHeadsAreRejected(t *testing.T) {
	const rest, chunked = "Host: x\r\n", "Transfer-Encoding: chunked\r\n"
	for name, request := range map[string]string{
		"both":             "PUT / HTTP/1.1\r\n" + rest + "Content-Length: 3\r\n" + chunked + "\r\n0\r\n\r\n",
		"encoding in 1.0":  "PUT / HTTP/1.0\r\n" + rest + chunked + "\r\n",
		"kept alive":       "PUT / HTTP/1.0\r\n" + rest + chunked + "Connection: keep-alive\r\n\r\n",
		"two lengths":      "PUT / HTTP/1.1\r\n" + rest + "Content-Length: 3\r\nContent-Length: 3\r\n\r\nabc",
		"a continued line": "PUT / HTTP/1.1\r\n" + rest + "A: b\r\n c\r\n\r\n",
	} {
		t.Run(name, func(t *testing.T) {
			observer := &recorder{}
			listener := start(t, Options{Observer: observer}, Server{}, echo)
			client := dial(t, listener)
			client.send(whole + request + whole)
			got := client.rest()
			diff.Check(t, statusesIn(got), []string{"200", "400"}, "the answers")
			diff.Lacks(t, got, "PUT", "a handler")
			diff.Lacks(t, got, "json", "a handler")
			diff.Check(t, observer.waitForStatuses(t, 1), []int{400}, "the observer")
			if it := observer.rejections[0]; it.Method != "PUT" || it.Target != "/" {
				t.Errorf("the observer: got %+v, want PUT of /", it)
			}
		})
	}
}

func TestGoodHeadsAreServed(t *testing.T) {
	const put = "PUT /a HTTP/1.1\r\nHost: x\r\n"
	for name, test := range map[string]struct {
		sent string
		want string // bodies of the answers
	}{
		"a body":              {put + "Content-Length: 3\r\n\r\nabc" + whole, "PUT /a abc;GET /a ;"},
		"an empty line":       {"\r\n" + whole, "GET /a ;"},
		"a line feed between": {whole + "\n" + whole, "GET /a ;GET /a ;"},
		"chunked":             {put + "Transfer-Encoding: chunked\r\n\r\n3\r\nabc\r\n0\r\n\r\n", "PUT /a abc;"},
		"1.0 with a length":   {"PUT /a HTTP/1.0\r\nContent-Length: 3\r\n\r\nabc", "PUT /a abc;"},
	} {
		t.Run(name, func(t *testing.T) {
			client := dial(t, start(t, Options{}, Server{}, echo))
			client.send(test.sent)
			for _, body := range strings.SplitAfter(strings.TrimSuffix(test.want, ";"), ";") {
				client.until("\r\n\r\n" + body)
			}
		})
	}
}

func TestAChunkedRequestIsTheLast(t *testing.T) {
	client := dial(t, start(t, Options{}, Server{}, echo))
	client.send("PUT /a HTTP/1.1\r\nHost: x\r\nTransfer-Encoding: chunked\r\n\r\n3\r\nabc\r\n0\r\n\r\n" + whole)
	got := client.rest()
	diff.Contains(t, got, "\r\nConnection: close\r\n", "the answers")
	diff.HasSuffix(t, got, "\r\n\r\nPUT /a abc;", "the answers")
}

func TestOPTIONSOfAnAsteriskIsGivenToTheHandler(t *testing.T) {
	client := dial(t, start(t, Options{}, Server{}, echo))
	client.send("OPTIONS * HTTP/1.1\r\nHost: x\r\nConnection: close\r\n\r\n")
	diff.HasSuffix(t, client.rest(), "OPTIONS / ;", "")
}

func TestWhatNetHTTPRejects(t *testing.T) {
	const get = "GET /a HTTP/1.1\r\nHost: x\r\n"
	for name, test := range map[string]struct {
		sent   string
		status int
	}{
		"no request line":     {"GET\r\n\r\n", 400},
		"a bad target":        {"GET http://[a HTTP/1.1\r\nHost: x\r\n\r\n", 400},
		"no host":             {"GET /a HTTP/1.1\r\n\r\n", 400},
		"no colon":            {get + "abc\r\n\r\n", 400},
		"a negative length":   {get + "Content-Length: -1\r\n\r\n", 400},
		"an unknown encoding": {get + "Transfer-Encoding: gzip\r\n\r\n", 400},
		"another version":     {"GET /a HTTP/3.0\r\nHost: x\r\n\r\n", 505},
		"a long target":       {"GET /" + strings.Repeat("a", 50000) + " HTTP/1.1\r\n", 431},
		"a long header":       {get + "A: " + strings.Repeat("a", 100000) + "\r\n\r\n", 431},
	} {
		test := test
		t.Run(name, func(t *testing.T) {
			t.Parallel() // net/http waits half a second after 431
			observer := &recorder{}
			client := dial(t, start(t, Options{Observer: observer}, Server{}, echo))
			client.send(test.sent)
			diff.HasPrefix(t, client.rest(), fmt.Sprintf("HTTP/1.1 %d ", test.status), "")
			diff.Check(t, observer.waitForStatuses(t, 1), []int{test.status}, "the observer, %d", test.status)
		})
	}
}

func TestAnAnswerOfAHandlerIsNoRejection(t *testing.T) {
	for _, status := range []int{400, 408, 501} {
		t.Run(fmt.Sprint(status), func(t *testing.T) {
			observer := &recorder{}
			client := dial(t, start(t, Options{Observer: observer}, Server{}, func(w http.ResponseWriter, _ *http.Request) {
				w.Header().Set("Connection", "close")
				http.Error(w, "text", status)
			}))
			client.send(whole)
			diff.HasPrefix(t, client.rest(), fmt.Sprintf("HTTP/1.1 %d ", status), "")
			diff.Empty(t, observer.waitForStatuses(t, 0), "%d: the observer", status)
		})
	}
}

func TestWhatGoesWrongInNetHTTPIsReported(t *testing.T) {
	observer := &recorder{}
	listener := start(t, Options{Observer: observer}, Server{}, func(_ http.ResponseWriter, r *http.Request) {
		if r.URL.Path == "/panic" {
			panic("index out of range")
		}
	})
	client := dial(t, listener)
	client.send("GET /a?b;c HTTP/1.1\r\nHost: x\r\n\r\n") // of which net/http complains, and nobody has to know
	client.until("\r\n\r\n")
	client.send("GET /panic HTTP/1.1\r\nHost: x\r\n\r\n")
	client.rest()
	waits.Until(t, "a failure", func() bool { return len(observer.events()) > 0 })
	events := observer.events()
	if len(events) != 1 || !strings.HasPrefix(events[0], "http_server: http: panic serving") ||
		!strings.Contains(events[0], "index out of range") {
		t.Errorf("the observer: got %q, want the panic", events)
	}
}
