package main

import (
	"bytes"
	"compress/gzip"
	"encoding/base64"
	"math/rand"
	"strconv"
	"strings"
	"unicode/utf16"
)

// malformedBodies are bodies that aren't JSON, or no object.
var malformedBodies = []string{
	"null", "true", "1", `"text"`, "[]", "[{}]", "{", "}", "{}{}", "{},", "{}x", `{"a"}`, `{"a":}`, `{"a":1,}`, "{,}",
	`{"a":1 "b":2}`, `{'a':1}`, `{a:1}`, `{"a":1}//`, `{/**/}`, `{"a":undefined}`, `{"a":True}`, `{"a":nul}`, "--", " ",
	"\n", "service_id=a&plan_id=b", "<a/>", "---\na: 1\n", "\xef\xbb\xbf{}", "\x00", "{}\x00", "\x1f\x8b\x08",
}

// badValues are members whose value isn't JSON, or can't be read.
var badValues = []string{
	"01", "-", "+1", ".5", "1.", "1e", "0x1", "1e999", "-1e999", strings.Repeat("9", 400), "NaN", "Infinity", "1_000",
	`"\ud800"`, `"\udc00\ud800"`, `"\u00"`, `"\x41"`, `"\'"`, "\"a\nb\"", "\"a\x00b\"", "\"a\x1fb\"", "\"\xff\"",
	"\"\xc0\x80\"", "\"\xed\xa0\x80\"", "\"\xf4\x90\x80\x80\"", `"a`, "tru", "nulL", "[1,]", "[,1]", "{\"a\":1,}",
	strings.Repeat("[", 128) + strings.Repeat("]", 128), strings.Repeat("[", 1500),
	strings.Repeat(`{"a":`, 128) + "1" + strings.Repeat("}", 128), strings.Repeat(`{"a":`, 300),
}

// spoiltBody is a body that can't be read.
func spoiltBody(chance *rand.Rand, body string) string {
	at := chance.Intn(len(body))
	switch chance.Intn(6) {
	case 0:
		return pickOne(chance, malformedBodies)
	case 1:
		return strings.Replace(body, "{", `{"parameters":{"a":`+pickOne(chance, badValues)+`},`, 1)
	case 2: // cut
		return body[:at+chance.Intn(2)*(len(body)-at-1)]
	case 3: // a byte that stands nowhere in JSON
		return body[:at] + string([]byte{pickOne(chance, []byte{0, 1, 8, 11, 12, 14, 31, 128, 192, 255})}) + body[at:]
	case 4:
		return pickOne(chance, []func(string) string{inUTF16, inGzip, inBase64})(body)
	}
	return ""
}

func inUTF16(text string) string {
	var long []byte
	for _, unit := range utf16.Encode([]rune(text)) {
		long = append(long, byte(unit>>8), byte(unit))
	}
	return string(long)
}

func inGzip(text string) string {
	var packed bytes.Buffer
	writer := gzip.NewWriter(&packed)
	_, _ = writer.Write([]byte(text)) // a Buffer takes all
	_ = writer.Close()
	return packed.String()
}

func inBase64(text string) string { return base64.StdEncoding.EncodeToString([]byte(text)) }

// wrongTexts are values of members that have to be ids, or texts that aren't empty.
var wrongTexts = []string{"null", "1", "true", "{}", "[]", `""`, `["a"]`, `{"a":"b"}`}

// spoilMember spoils a member that every body needs. If a member stands twice, the last counts.
func spoilMember(chance *rand.Rand, m *message) {
	names := []string{"service_id", "plan_id"}
	if m.binding == "" {
		names = append(names, "organization_guid", "space_guid")
	}
	name := pickOne(chance, names)
	begin := strings.TrimSuffix(m.body, "}") + `,"`
	switch chance.Intn(4) {
	case 0: // twice
		m.body = begin + name + `":` + pickOne(chance, wrongTexts) + "}"
	case 1: // twice, with an escape in the name
		m.body = begin + `\u00` + hexOf(name[0]) + name[1:] + `":1}`
	case 2: // missing
		m.body = strings.Replace(m.body, `"`+name+`"`, `"`+strings.ToUpper(name)+`"`, 1)
	case 3: // of nothing that is sold
		m.body = begin + pickOne(chance, names[:2]) + `":"` + pickOne(chance, notSold) + `"}`
	}
}

func hexOf(letter byte) string { return string([]byte{'0' + letter>>4, "0123456789abcdef"[letter&15]}) }

var notSold = []string{
	"x", "*", service[1:], " " + service, service + "\\u0000", "AB" + service[2:], strings.Repeat("a", 256),
	"../" + service, "' OR 1=1 --", "%", "\\u202e",
}

// noiseHeaders are headers that no answer depends on. The standard has no status for a wrong Content-Type or a user
// that can't be read: the body decides, and the request is of nobody.
var noiseHeaders = []string{
	"Content-Type: text/plain", "Content-Type: application/json; charset=utf-16", "Content-Type:", "Content-Type: \xff",
	"Content-Type: multipart/form-data; boundary=x", "Content-Encoding: gzip", "Content-Encoding: identity, br",
	"Content-Language: x", "Content-MD5: x", "Content-Range: bytes 0-1/2", "Digest: SHA-256=x",
	"Trailer: Authorization", "TE: trailers, chunked", "Accept: text/html", "Accept-Encoding: gzip;q=x",
	"Range: bytes=0-0,-1",
	"If-None-Match: *", "If-Match: \"x\"", "X-HTTP-Method-Override: DELETE", "X-Method-Override: PUT",
	"X-Original-URL: /v2/catalog",
	"X-Rewrite-URL: /healthz", "X-Forwarded-For: 127.0.0.1", "X-Forwarded-Host: evil", "Forwarded: for=_x",
	"X-Broker-API-Originating-Identity:", "X-Broker-API-Originating-Identity: cloudfoundry",
	"X-Broker-API-Originating-Identity: cloudfoundry !!!",
	"X-Broker-API-Originating-Identity: cloudfoundry " + inBase64("[1]"),
	"X-Broker-API-Originating-Identity: cloudfoundry " + inBase64(`{"a":`),
	"X-Broker-API-Originating-Identity: cloudfoundry " + inBase64("{\"a\":\"\xff\"}"),
	"X-Broker-API-Originating-Identity: cloudfoundry " + inBase64(`{"a":`+strings.Repeat("[", 2000)),
	"X-Broker-API-Originating-Identity: \x1b[31m e30=", "X-Broker-API-Originating-Identity: a e30=, b e30=",
	"X-Broker-API-Request-Identity:", "X-Broker-API-Request-Identity: " + strings.Repeat("a", 3000),
	"X-Broker-API-Request-Identity: \u202e\xff", "X-Broker-API-Request-Identity: a\tb",
	"Traceparent: " + strings.Repeat("0", 3000),
	"X-Vcap-Request-Id: \"}{\"", "Cookie: a=b; a=c", "Upgrade: h2c", "Upgrade: websocket", "HTTP2-Settings: AAMAAABk",
	"Referer: javascript:0", "User-Agent: ${jndi:ldap://x}", "Proxy: http://x", "\u00e9: x",
}

// A message is a request as its sender writes it.
type message struct {
	method            string
	instance, binding string // ids as the path has them
	isPoll            bool
	isCatalogue       bool
	target            string   // in place of all that the path is made of
	query             []string // parameters
	headers           []string // lines, beside Host, Content-Length and those of access
	access            []string // lines, Authorization and X-Broker-API-Version
	body              string
}

func (m message) isBind() bool   { return m.method == "PUT" && m.binding != "" }
func (m message) isDelete() bool { return m.method == "DELETE" }
func (m message) isPut() bool    { return m.method == "PUT" }

func (m message) path() string {
	switch {
	case m.target != "":
		return m.target
	case m.isCatalogue:
		return "/v2/catalog"
	}
	path := "/v2/service_instances/" + m.instance
	if m.binding != "" {
		path += "/service_bindings/" + m.binding
	}
	if m.isPoll {
		path += "/last_operation"
	}
	return path
}

// text is the message in HTTP/1.1.
func (m message) text() string {
	line := m.method + " " + m.path()
	if len(m.query) > 0 {
		line += "?" + strings.Join(m.query, "&")
	}
	lines := append([]string{line + " HTTP/1.1", "Host: broker"}, m.access...)
	lines = append(lines, m.headers...)
	if m.body != "" {
		lines = append(lines, "Content-Length: "+strconv.Itoa(len(m.body)))
	}
	return strings.Join(lines, "\r\n") + "\r\n\r\n" + m.body
}

var (
	loginLine   = "Authorization: " + basic("platform", "secret")
	versionLine = "X-Broker-API-Version: 2.17"
	idQuery     = []string{"service_id=" + service, "plan_id=" + atOnce}
)

// validMessages are messages that are carried out, each with its status. All but the first four change something.
// Before them, the instance kept has the bindings b and c, and the instance bare has none.
func validMessages() map[int][]message {
	all := map[int][]message{
		200: {
			{method: "GET", isCatalogue: true},
			{method: "GET", instance: "kept", isPoll: true},
			{method: "GET", instance: "kept"},
			{method: "PATCH", instance: "kept", body: bind},
			{method: "GET", instance: "kept", binding: "b", isPoll: true},
			{method: "GET", instance: "kept", binding: "b"},
			{method: "DELETE", instance: "kept", binding: "c", query: idQuery},
			{method: "DELETE", instance: "bare", query: idQuery},
		},
		201: {
			{method: "PUT", instance: "new", body: order},
			{method: "PUT", instance: "kept", binding: "new", body: bind},
		},
		202: {{method: "PUT", instance: "later", query: []string{"accepts_incomplete=true"}, body: asyncOrder}},
	}
	for _, messages := range all {
		for at := range messages {
			messages[at].access = []string{loginLine, versionLine}
		}
	}
	return all
}

// A spoiler makes a message one that has to be rejected.
type spoiler struct {
	of       func(message) bool // which messages it can spoil; nil for all
	statuses []int              // one of them is right
	spoil    func(*rand.Rand, *message)
}

func pickOne[T any](chance *rand.Rand, of []T) T { return of[chance.Intn(len(of))] }

var spoilers = []spoiler{
	{nil, []int{401}, func(chance *rand.Rand, m *message) {
		m.access = append([]string{versionLine}, pickOne(chance, wrongLogins)...)
	}},
	{nil, []int{412}, func(chance *rand.Rand, m *message) {
		m.access = append([]string{loginLine}, pickOne(chance, wrongVersions)...)
	}},
	{nil, []int{405}, func(chance *rand.Rand, m *message) { m.method = pickOne(chance, wrongMethods) }},
	{nil, []int{400, 404}, func(chance *rand.Rand, m *message) { m.target = pickOne(chance, wrongPaths(m.path())) }},
	{isNamed, []int{400, 404}, spoilID},
	{takesQuery, []int{400}, func(chance *rand.Rand, m *message) {
		m.query = append(m.query, pickOne(chance, oddQueries)...)
	}},
	{message.isDelete, []int{400}, spoilQuery},
	{message.isPut, []int{400}, func(chance *rand.Rand, m *message) { m.body = spoiltBody(chance, m.body) }},
	{message.isPut, []int{400}, spoilMember},
	{message.isPut, []int{413}, func(_ *rand.Rand, m *message) { m.body += strings.Repeat(" ", longestTaken) }},
	{isLater, []int{422}, func(chance *rand.Rand, m *message) {
		m.query = pickOne(chance, [][]string{nil, {"accepts_incomplete=false"}, {"accepts-incomplete=true"}})
	}},
	{message.isBind, []int{400}, func(_ *rand.Rand, m *message) {
		m.body = strings.Replace(m.body, "{", `{"predecessor_binding_id":"b",`, 1)
	}},
}

const longestTaken = 4096 // the length of a body that the broker takes

func isNamed(m message) bool { return !m.isCatalogue }
func isLater(m message) bool { return m.instance == "later" }

// takesQuery reports whether the parameter accepts_incomplete is judged: a Fetch has none.
func takesQuery(m message) bool { return isNamed(m) && (m.method != "GET" || m.isPoll) }

// eachBehind are lists of one line: each text behind the name of a header.
func eachBehind(header string, texts ...string) (lists [][]string) {
	for _, text := range texts {
		lists = append(lists, []string{header + ": " + text})
	}
	return lists
}

var (
	rightLogin  = basic("platform", "secret")
	wrongLogins = append(eachBehind("Authorization",
		"", "Basic", "Basic :", "Basic  "+rightLogin[6:], "Basic\t"+rightLogin[6:], "Bearer "+rightLogin[6:], rightLogin[6:],
		"Basic platform:secret", rightLogin[:len(rightLogin)-1], rightLogin+"=", rightLogin+" x",
		rightLogin[:12]+" "+rightLogin[12:], rightLogin+", "+rightLogin, basic("platform", "secre"),
		basic("platform", "secret "), basic("platform", "Secret"), basic("Platform", "secret"), basic("platform", ""),
		basic("", "secret"), basic("", ""), basic("secret", "platform"), basic("platform", "secret\x00"),
		basic("platform", "secret\n"), basic("\ufeffplatform", "secret"), basic("platform\x00", "secret"),
		"Basic "+inBase64("platformsecret"), basic("platform", "\xff\xfe"), "Basic \xff\xfe", strings.ToLower(rightLogin),
		"Basic "+strings.Repeat("QUFB", 2000),
	), nil, []string{"Authorization: " + rightLogin, "Authorization: " + rightLogin},
		[]string{"Authorization: " + rightLogin, "Authorization: " + basic("a", "b")},
		[]string{"Authorization: " + basic("a", "b"), "Authorization: " + rightLogin},
		[]string{"Proxy-Authorization: " + rightLogin}, []string{"X-Authorization: " + rightLogin},
		[]string{"Cookie: Authorization=" + rightLogin})
	wrongVersions = append(eachBehind("X-Broker-API-Version",
		"2", "2.", "3.0", "1.17", "2.x", "2.-1", "2.17.0", "02.17", "2,17", "v2.17", "2.1e1", "2.17, 2.17", "\u0662.17",
		"2.17\xff",
	), nil, []string{"X-Broker-API-Version:"}, []string{versionLine, versionLine}, []string{versionLine, "X-Broker-API-Version: 3.0"},
		[]string{"X-Broker-API: 2.17"}, []string{"Broker-API-Version: 2.17"})
	wrongMethods = []string{
		"POST", "Patch", "HEAD", "TRACE", "OPTIONS", "CONNECT", "BREW", "get", "put", "Put", "delete", "PUTS", "PRI",
		"M-SEARCH",
	}
)

// wrongPaths are paths at which there is nothing, made of one at which there is something.
func wrongPaths(path string) (all []string) {
	for _, part := range []string{
		"/v3/", "/V2/", "/v2//", "/v2/./", "/v2/../v2/", "/v2/%2e%2e/v2/", "/v2%2F", "/%76%32/", "/v2;a=b/", "/v2\\",
		"/healthz/../v2/",
	} {
		all = append(all, strings.Replace(path, "/v2/", part, 1))
	}
	for _, begin := range []string{"/prefix", "/.", "http:", "http://broker/x"} {
		all = append(all, begin+path)
	}
	for _, end := range []string{"//", "/x", "/%2e%2e", "/../../catalog", "/last_operation/x"} {
		all = append(all, path+end)
	}
	return append(all, "/", "/v2", "/v2/service_instances",
		"/v2/service_instances/kept/service_bindings/b/last_operation/c",
		"/v2/service_instances/kept/service_bindings/b%zz", "/v2/service_instances/kept%",
		"/v2/service_instances/ke\x00pt", "/v2/catalog/%2e", "/etc/passwd")
}

// wrongIDs are no ids: not UTF-8 once they are decoded, too long, too short, or a step in a path.
var wrongIDs = []string{
	".", "..", "%2e", "%2E%2e", ".%2e", "%ff", "%c0%af", "%c0%80", "%e0%80%af", "%ed%a0%80", "%f4%90%80%80", "%e2%82",
	"\xff", "\xc0\xaf", strings.Repeat("a", 256), strings.Repeat("%e2%82%ac", 86), strings.Repeat("%2e", 256),
	"%2g", "%",
}

func spoilID(chance *rand.Rand, m *message) {
	id := &m.instance
	if m.binding != "" && chance.Intn(2) == 0 {
		id = &m.binding
	}
	wrong := pickOne(chance, wrongIDs)
	if strings.HasPrefix(strings.ToLower(wrong), "%2e") || strings.HasPrefix(wrong, ".") {
		*id = wrong
		return
	}
	at := chance.Intn(len(*id) + 1)
	*id = (*id)[:at] + wrong + (*id)[at:]
}

// oddQueries are parameters that no request may have.
var oddQueries = [][]string{
	{"accepts_incomplete="}, {"accepts_incomplete"}, {"accepts_incomplete=TRUE"}, {"accepts_incomplete=1"},
	{"accepts_incomplete=true%00"}, {"accepts_incomplete=true", "accepts_incomplete=true"},
	{"accepts_incomplete=true", "accepts%5Fincomplete=false"}, {"accepts_incomplete=%ff"},
}

func spoilQuery(chance *rand.Rand, m *message) {
	names := append([]string{}, m.query...)
	at := chance.Intn(len(names))
	name, value, _ := strings.Cut(names[at], "=")
	names[at] = pickOne(chance, []string{
		"", name, name + "=", name + "=" + value + "&" + name + "=" + value, name + "=" + value + "&" + name + "=x",
		name + "=" + strings.Repeat("a", 256), strings.ToUpper(name) + "=" + value, name + "[]=" + value,
		name + "%00=" + value, "%ff" + name + "=" + value,
	})
	m.query = names
}
