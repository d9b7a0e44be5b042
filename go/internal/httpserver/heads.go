package httpserver

import (
	"bytes"
	"fmt"
	"net/http"
	"strconv"
	"sync/atomic"
)

// heads follows the requests on a connection in the bytes that arrive, in the same way as net/http will parse them. It
// finds heads that net/http accepts, although a proxy may see another end of the request (RFC 9112, sections 5.2, 6.1
// and 6.3):
//
//   - Transfer-Encoding beside Content-Length, or in another version than HTTP/1.1,
//   - two lines Content-Length, or one that isn't a number,
//   - a line that is continued on the next line.
//
// Such a head is bad. heads doesn't follow further requests after a bad head, nor after a head with Transfer-Encoding
// alone: the server has to close the connection after that request. heads needn't find what net/http rejects, because
// net/http closes the connection then.
//
// One goroutine at a time may use heads. Any goroutine may load bad.
type heads struct {
	state state
	line  []byte // the beginning of a line whose end hasn't arrived
	head  head
	body  uint64        // how many bytes of the body are missing
	ended uint64        // how many heads have ended
	bad   atomic.Uint64 // the number of the bad head, from 1 on, or 0
}

// A state is where the next byte stands.
type state int

const (
	between     state = iota // before a request, or in empty lines before it
	requestLine              // in the first line of a head
	headerLines              // in another line of a head
	inBody                   // in a body whose length is known
	unfollowed               // after the last head that is followed
)

// A head is what is known of a head.
type head struct {
	is11        bool // the version is HTTP/1.1
	isBad       bool
	hasLength   bool
	hasEncoding bool
	length      uint64
}

// isInside reports whether the head of a request has begun and hasn't ended.
func (h *heads) isInside() bool { return h.state == requestLine || h.state == headerLines }

// hasBegun reports whether a byte of a head has arrived.
func (h *heads) hasBegun() bool { return h.state != between || h.ended > 0 }

// read follows the bytes in p, and returns how many bytes of p are left for net/http. It removes empty lines before a
// request, which net/http would reject (RFC 9112, section 2.2). It replaces the target * of OPTIONS, which net/http
// would answer itself, with the path /.
func (h *heads) read(p []byte) int {
	kept := 0
	for at := 0; at < len(p); {
		rest := p[at:]
		var count int
		switch h.state {
		case between:
			if rest[0] == '\r' || rest[0] == '\n' {
				at++
				continue
			}
			h.state, h.head = requestLine, head{}
			continue
		case requestLine, headerLines:
			count = h.readLine(rest)
		case inBody:
			count = h.readBody(rest)
		default:
			count = len(rest)
		}
		copy(p[kept:], rest[:count])
		kept, at = kept+count, at+count
	}
	return kept
}

func (h *heads) readBody(p []byte) int {
	count := len(p)
	if uint64(count) > h.body {
		count = int(h.body)
	}
	if h.body -= uint64(count); h.body == 0 {
		h.state = between
	}
	return count
}

// readLine reads up to the end of a line, or all of p. The line is bounded, because net/http stops reading if a head is
// too long.
func (h *heads) readLine(p []byte) int {
	end := bytes.IndexByte(p, '\n')
	part := p
	if end >= 0 {
		part = p[:end]
	}
	if h.state == requestLine {
		h.replaceAsterisk(part)
	}
	if end < 0 {
		h.line = append(h.line, part...)
		return len(p)
	}
	line := part
	if len(h.line) > 0 {
		line = append(h.line, part...)
	}
	h.endLine(bytes.TrimSuffix(line, []byte("\r")))
	h.line = h.line[:0]
	return end + 1
}

const asterisk = "OPTIONS *"

// replaceAsterisk replaces the target * of OPTIONS if it is in this part of the request line.
func (h *heads) replaceAsterisk(part []byte) {
	before := len(h.line)
	at := len(asterisk) - 1 - before
	if at < 0 || at >= len(part) {
		return
	}
	if string(h.line) == asterisk[:before] && string(part[:at+1]) == asterisk[before:] {
		part[at] = '/'
	}
}

func (h *heads) endLine(line []byte) {
	switch {
	case h.state == requestLine:
		h.head.is11 = bytes.HasSuffix(line, []byte(" HTTP/1.1"))
		h.state = headerLines
	case len(line) == 0:
		h.endHead()
	case line[0] == ' ' || line[0] == '\t':
		h.head.isBad = true
	default:
		h.head.add(line)
	}
}

func (h *head) add(line []byte) {
	name, value, _ := bytes.Cut(line, []byte(":"))
	switch {
	case bytes.EqualFold(name, []byte("Transfer-Encoding")):
		h.hasEncoding = true
	case bytes.EqualFold(name, []byte("Content-Length")):
		length, err := strconv.ParseUint(string(bytes.Trim(value, " \t")), 10, 63)
		h.isBad = h.isBad || h.hasLength || err != nil
		h.hasLength, h.length = true, length
	}
}

func (h *heads) endHead() {
	h.ended++
	head := h.head
	isBad := head.isBad || head.hasEncoding && (head.hasLength || !head.is11)
	switch {
	case isBad:
		h.bad.Store(h.ended)
		h.state = unfollowed
	case head.hasEncoding:
		h.state = unfollowed
	case head.length > 0:
		h.state, h.body = inBody, head.length
	default:
		h.state = between
	}
}

// If net/http rejects a request by itself, it sends a status line, these headers, and a text. An answer of a handler
// has further headers, such as Date.
const (
	rejectionStart   = "HTTP/1.1 "
	rejectionHeaders = "Content-Type: text/plain; charset=utf-8\r\nConnection: close\r\n\r\n"
)

// rejectionOf returns the status if p is an answer by which net/http itself rejects a request, and 0 otherwise.
func rejectionOf(p []byte) int {
	if !bytes.HasPrefix(p, []byte(rejectionStart)) {
		return 0
	}
	line, rest, _ := bytes.Cut(p[len(rejectionStart):], []byte("\r\n"))
	if !bytes.HasPrefix(rest, []byte(rejectionHeaders)) {
		return 0
	}
	code, _, _ := bytes.Cut(line, []byte(" "))
	status, err := strconv.Atoi(string(code))
	if err != nil {
		return 0
	}
	return status
}

// rejectionWith returns an answer as net/http itself gives it, with this status. It isn't JSON, so a platform doesn't
// take it for a decision of the broker about an instance.
func rejectionWith(status int) []byte {
	text := fmt.Sprintf("%d %s", status, http.StatusText(status))
	return []byte(rejectionStart + text + "\r\n" + rejectionHeaders + text)
}
