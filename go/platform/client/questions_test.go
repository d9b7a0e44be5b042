package client

import (
	"context"
	"errors"
	"fmt"
	"net"
	"net/http"
	"net/http/httptest"
	"regexp"
	"strconv"
	"strings"
	"sync/atomic"
	"testing"
	"time"

	"pippinterm/internal/diff"
	"pippinterm/osb"
	"pippinterm/platform"
)

// askedAbout are a row of an instance and one of a binding.
func askedAbout(c *Client, url string) (instance, binding platform.Entry) {
	return outgoingOf(c, url, osb.KindPoll, ofInstance).Entry, outgoingOf(c, url, osb.KindPoll, ofBinding).Entry
}

// A question is one GET, with the headers of every request. The answer is returned as it is, without credentials.
func TestQuestions(t *testing.T) {
	const credentials = `{"credentials": {"password": "hunter3"}}`
	const target = "/v2/service_instances/an%20instance"
	for _, row := range []struct {
		isFetch, isBinding bool
		status, body       string
		target             string
		want               Answer
	}{
		{false, false, "200 OK", `{"state": "succeeded", "description": "done"}`, target + "/last_operation?",
			Answer{Status: 200, State: "succeeded", Description: "done"}},
		{false, false, "200 OK", `{"state": "in progress"}`, target + "/last_operation?",
			Answer{Status: 200, State: "in progress"}},
		{false, true, "200 OK", `{"state": "failed"}`, target + "/service_bindings/a%20binding/last_operation?",
			Answer{Status: 200, State: "failed"}},
		{false, false, "200 OK", `{}`, target + "/last_operation?", Answer{Status: 200}},
		{false, false, "200 OK", `{"state": "done"}`, target + "/last_operation?", Answer{Status: 200}},
		{false, false, "410 Gone", `{}`, target + "/last_operation?", Answer{Status: 410}},
		{false, false, "410 Gone", ``, target + "/last_operation?", Answer{Status: 410}},
		{false, false, "410 Gone", `<html>`, target + "/last_operation?", Answer{Status: 410, IsUnsure: true}},
		{false, false, "200 OK", ``, target + "/last_operation?", Answer{Status: 200, IsUnsure: true}},
		{false, false, "400 Bad Request", `{"error": "Odd", "description": "no"}`, target + "/last_operation?",
			Answer{Status: 400, Error: "Odd", Description: "no"}},
		{false, false, "404 Not Found", `<html>`, target + "/last_operation?", Answer{Status: 404, IsUnsure: true}},
		{true, false, "200 OK", `{"service_id": "a service"}`, target + "?", Answer{Status: 200}},
		{true, true, "200 OK", credentials, target + "/service_bindings/a%20binding?", Answer{Status: 200}},
		{true, true, "404 Not Found", `{"description": "none"}`, target + "/service_bindings/a%20binding?",
			Answer{Status: 404, Description: "none"}},
		{true, false, "404 Not Found", `<html>`, target + "?", Answer{Status: 404, IsUnsure: true}},
		{true, false, "200 OK", `null`, target + "?", Answer{Status: 200, IsUnsure: true}},
	} {
		t.Run(row.status+" "+row.target, func(t *testing.T) {
			server := serve(t, returning(row.status, row.body))
			c := newClient(t, Options{})
			entry, binding := askedAbout(c, server.url)
			if row.isBinding {
				entry = binding
			}
			ask := c.LastOperation
			if row.isFetch {
				ask = c.Fetch
			}
			got := diff.Value(ask(context.Background(), at(server.url), entry))(t)
			diff.Equal(t, got, row.want, "%s", row.target)
			requests, _ := server.arrivals()
			if len(requests) != 1 || !strings.HasPrefix(requests[0], "GET "+row.target) {
				t.Fatalf("got %q, want %s", requests, row.target)
			}
			line, head, _ := strings.Cut(requests[0], "\r\n")
			for _, text := range []string{"service_id=a+service", "plan_id=a+plan"} {
				if !row.isFetch && !strings.Contains(line, text) {
					t.Errorf("got %q, want %s in it", line, text)
				}
			}
			for _, text := range []string{"Authorization: Basic ", "X-Broker-Api-Version: 2.17\r\n"} {
				diff.Contains(t, head, text, "")
			}
			diff.Equal(t, strings.HasSuffix(head, "\r\n\r\n"), true, "no body in %q", head)
		})
	}
}

// The identity of a request is a random GUID of version 4.
func TestNewID(t *testing.T) {
	form := regexp.MustCompile("^[0-9a-f]{8}-[0-9a-f]{4}-4[0-9a-f]{3}-[89ab][0-9a-f]{3}-[0-9a-f]{12}$")
	made, begins := map[string]bool{}, map[string]bool{}
	for n := 0; n < 1000; n++ {
		id, err := newID()
		if err != nil || !form.MatchString(id) || made[id] {
			t.Fatalf("got %s, %v, want a new GUID of version 4", id, err)
		}
		made[id], begins[id[:2]] = true, true
	}
	if len(begins) < 128 { // of 256
		t.Errorf("got %d beginnings, want more", len(begins))
	}
}

// A question without an answer is an error that has no password.
func TestUnansweredQuestion(t *testing.T) {
	server := serve(t, always("HTTP/1.1 200 OK\r\n"))
	c := newClient(t, Options{})
	instance, binding := askedAbout(c, server.url)
	for _, entry := range []platform.Entry{instance, binding} {
		last, err := c.LastOperation(context.Background(), at(server.url), entry)
		fetched, failed := c.Fetch(context.Background(), at(server.url), entry)
		for _, err := range []error{err, failed} {
			if err == nil || strings.Contains(err.Error(), secret) {
				t.Errorf("got the error %v, want one without the secret", err)
			}
		}
		diff.Equal(t, last, Answer{}, "last")
		diff.Equal(t, fetched, Answer{}, "fetched")
	}
}

const document = `{"services":[{"id":"a","name":"a","description":"a","bindable":false,` +
	`"plans":[{"id":"b","name":"b","description":"b"}]}]}`

// The catalogue is asked for with the headers of every request, and is returned as it is.
func TestCatalogue(t *testing.T) {
	server := serve(t, returning("200 OK", document))
	c := newClient(t, Options{LongestAnswer: 10})
	got, status, err := c.Catalogue(context.Background(), at(server.url+"/postgres"))
	diff.NoError(t, err, "")
	diff.Equal(t, string(got), document, "")
	diff.Equal(t, status, 200, "")
	requests, _ := server.arrivals()
	for _, wanted := range []string{
		"GET /postgres/v2/catalog HTTP/1.1\r\n", "X-Broker-Api-Version: 2.17\r\n", "X-Broker-Api-Request-Identity: ",
		"Authorization: Basic ",
	} {
		diff.Contains(t, requests[0], wanted, "")
	}
}

// Why the catalogue couldn't be fetched, and what to do.
func TestNoCatalogue(t *testing.T) {
	for what, row := range map[string]struct {
		status, body, said string
	}{
		"401":          {"401 Unauthorized", "", "rejects the user or the password (401)"},
		"403":          {"403 Forbidden", "", "another user"},
		"404":          {"404 Not Found", "<html>", "up to before /v2"},
		"412":          {"412 Precondition Failed", `{"description":"2.13 only"}`, `version 2.17 of the API (412)`},
		"description":  {"412 Precondition Failed", `{"description":"2.13 only"}`, `It says: "2.13 only"`},
		"429":          {"429 Too Many Requests", "", "asked again"},
		"503":          {"503 Service Unavailable", "", "asked again"},
		"500":          {"500 Internal Server Error", "", "(500)"},
		"201":          {"201 Created", document, "(201)"},
		"301":          {"301 Moved Permanently", "", "redirects"},
		"no JSON":      {"200 OK", "<html>", "can't be read"},
		"no services":  {"200 OK", "{}", "can't be read"},
		"a plan twice": {"200 OK", strings.Replace(document, "]}]}", `,{"id":"b","name":"c"}]}]}`, 1), "can't be read"},
		"too long":     {"200 OK", strings.Repeat(" ", LongestCatalogue+1), "too long"},
	} {
		t.Run(what, func(t *testing.T) {
			server := serve(t, always(text(row.status, row.body, "")))
			got, status, err := newClient(t, Options{}).Catalogue(context.Background(), at(server.url))
			if got != nil || strconv.Itoa(status) != row.status[:3] || err == nil ||
				!strings.Contains(err.Error(), row.said) || !strings.Contains(err.Error(), "postgres") ||
				strings.Contains(err.Error(), secret) {
				t.Errorf("%s: got %s, %d, %v, want %s, and an error with %q and without the secret",
					what, got, status, err, row.status, row.said)
			}
		})
	}
}

// A broker that doesn't answer is waited for no longer than the option says, and a long description is cut.
func TestCatalogueTime(t *testing.T) {
	server := swallow(t)
	c := newClient(t, Options{CatalogueTime: 200 * time.Millisecond})
	begun := time.Now()
	_, status, err := c.Catalogue(context.Background(), at("http://"+server.url))
	if passed := time.Since(begun); !errors.Is(err, ErrTimeOver) || status != 0 || passed > patience/2 {
		t.Errorf("got %v after %v, want %v at its time", err, passed, ErrTimeOver)
	}
	diff.AtMost(t, len(reason([]byte(`{"description":"`+strings.Repeat("ü", 9999)+`"}`))), 3*longestReason, "")
	_, _, err = c.Catalogue(context.Background(), platform.Broker{Name: "postgres", URL: "broker.example"})
	diff.ErrorContains(t, err, "https://", "")
}

// The catalogue has a connection of its own, however many of the others are kept.
func TestCatalogueAlone(t *testing.T) {
	server := serve(t, returning("200 OK", document))
	c := patient(t)
	for range [3]int{} {
		_, _, err := c.Catalogue(context.Background(), at(server.url))
		diff.NoError(t, err, "")
	}
	server.wantArrivals(t, 3, 3)
}

// What a connection that breaks means, and what to check.
func TestBrokenConnections(t *testing.T) {
	answers := func(text string) func(net.Conn) {
		return func(c net.Conn) { _, _ = c.Write([]byte(text)) }
	}
	reset := func(c net.Conn) { _ = c.(*net.TCPConn).SetLinger(0) }
	const inTLS = "closed in the TLS handshake: check that the port is one for TLS, and whether the broker wants a " +
		"certificate (--tls-certificate, --tls-key)"
	for what, test := range map[string]struct {
		scheme string
		does   func(net.Conn)
		says   string
	}{
		"closed":            {"http", answers(""), "closed without an answer: check that a broker listens there"},
		"reset":             {"http", reset, "closed without an answer: check that a broker listens there"},
		"closed in between": {"http", answers("HTTP/1.1 200 OK\r\nContent-Length: 9\r\n\r\n{"), "answer, of status 200"},
		"no HTTP":           {"http", answers("SSH-2.0-OpenSSH_9.2\r\n"), "doesn't speak HTTP"},
		"TLS at http":       {"http", answers("\x15\x03\x01\x00\x02\x02\x28"), "whether it wants https://"},
		"http at TLS":       {"https", answers("HTTP/1.1 400 Bad Request\r\n\r\n"), "doesn't speak TLS"},
		"closed in TLS":     {"https", answers(""), inTLS},
		"reset in TLS":      {"https", reset, inTLS},
	} {
		t.Run(what, func(t *testing.T) {
			listener := diff.Value(net.Listen("tcp", "127.0.0.1:0"))(t)
			test := test
			go func() {
				for {
					conn, err := listener.Accept()
					if err != nil {
						return
					}
					_, _ = conn.Read(make([]byte, 4096))
					test.does(conn)
					_ = conn.Close()
				}
			}()
			url := test.scheme + "://" + listener.Addr().String()
			_, _, err := newClient(t, Options{}).Catalogue(context.Background(), at(url))
			if err == nil || !strings.Contains(err.Error(), test.says) || strings.Contains(err.Error(), secret) {
				t.Errorf("got %v, want %s", err, test.says)
			}
			_ = listener.Close()
		})
	}
}

// asks are all requests that a broker answers, with the result of each.
func asks(t *testing.T, c *Client, of platform.Broker) map[string]func() error {
	t.Helper()
	instance, binding := askedAbout(c, of.URL)
	exchanged := func(kind osb.Kind, names platform.Names, isFetch bool) func() error {
		return func() error {
			out := outgoingOf(c, of.URL, kind, names)
			out.Broker, out.IsFetch = of, isFetch
			return c.Exchange(context.Background(), out).Lost
		}
	}
	type question = func(context.Context, platform.Broker, platform.Entry) (Answer, error)
	asked := func(ask question, e platform.Entry) func() error {
		return func() error { return diff.Err(ask(context.Background(), of, e)) }
	}
	return map[string]func() error{
		"a Provision":   exchanged(osb.KindProvision, ofInstance, false),
		"a Poll":        exchanged(osb.KindPoll, ofInstance, false),
		"a Deprovision": exchanged(osb.KindDeprovision, ofInstance, false),
		"a Bind":        exchanged(osb.KindProvision, ofBinding, false),
		"an Unbind":     exchanged(osb.KindDeprovision, ofBinding, false),
		"a Fetch":       exchanged(osb.KindPoll, ofBinding, true),
		"a question":    asked(c.LastOperation, instance), "the question of a binding": asked(c.LastOperation, binding),
		"a question for the whole": asked(c.Fetch, instance),
		"the catalogue": func() error {
			_, _, err := c.Catalogue(context.Background(), of)
			return err
		},
	}
}

const namedCatalogue = `{"services":[{"id":"s","name":"s","description":"d","bindable":true,"plans":[{"id":"p","name":"p",` +
	`"description":"d"}]}],"x-osb-store":"one","credentials":{},"state":"succeeded"}`

// A broker has named the store one. An answer that names another one, or none, is lost, whatever it answers: no status
// of it counts as the broker's.
func TestAnswersOfAnotherStore(t *testing.T) {
	for what, row := range map[string]struct {
		headers []string
		status  int
		isTaken bool
	}{
		"its store": {[]string{"one"}, 200, true}, "twice": {[]string{"one", "one"}, 200, true},
		"another": {[]string{"two"}, 200, false}, "none": {nil, 200, false}, "empty": {[]string{""}, 200, false},
		"both": {[]string{"one", "two"}, 200, false}, "as one value": {[]string{"one, one"}, 200, false},
		"in capitals":      {[]string{"ONE"}, 200, false},
		"gone, by another": {[]string{"two"}, 410, false}, "gone, by nobody": {nil, 410, false},
		"a gateway's error": {nil, 502, false}, "a rejection by another": {[]string{"two"}, 400, false},
	} {
		t.Run(what, func(t *testing.T) {
			server := httptest.NewServer(http.HandlerFunc(func(w http.ResponseWriter, r *http.Request) {
				w.Header()[platform.StoreHeader] = row.headers
				w.WriteHeader(row.status)
				_, _ = w.Write([]byte(namedCatalogue))
			}))
			of := at(server.URL)
			of.Store = "one"
			for name, ask := range asks(t, newClient(t, Options{}), of) {
				err := ask()
				isOther := errors.Is(err, platform.ErrOtherStore)
				if row.isTaken && err != nil || !row.isTaken && !isOther && (name != "the catalogue" || err == nil) {
					t.Errorf("%s, %s: got %v, want it to be taken: %t", what, name, err, row.isTaken)
				}
			}
			of.Store = "" // nothing is recorded: the broker is believed, but not a catalogue that contradicts itself
			for name, ask := range asks(t, newClient(t, Options{}), of) {
				if err := ask(); errors.Is(err, platform.ErrOtherStore) && name != "the catalogue" {
					t.Errorf("%s, %s: got %v, want no other store while none is recorded", what, name, err)
				}
			}
			server.Close()
		})
	}
}

// A request names the store that is recorded, so that a broker over another one doesn't carry it out. Only the
// catalogue is asked for of any store.
func TestRequestsNameTheStore(t *testing.T) {
	for _, store := range []string{"", "one"} {
		var asked atomic.Int32
		server := httptest.NewServer(http.HandlerFunc(func(w http.ResponseWriter, r *http.Request) {
			want := store
			if strings.HasSuffix(r.URL.Path, "/v2/catalog") {
				want = ""
			}
			diff.Equal(t, strings.Join(r.Header.Values(platform.StoreHeader), "|"), want, "%s %s", r.Method, r.URL.Path)
			asked.Add(1)
		}))
		of := at(server.URL)
		of.Store = store
		all := asks(t, newClient(t, Options{}), of)
		for _, ask := range all {
			_ = ask()
		}
		diff.Equal(t, int(asked.Load()), len(all), "requests")
		server.Close()
	}
}

// The catalogue says which store it is, and what to do if that is another one. No text of the broker can stand in the
// command.
func TestCatalogueOfAnotherStore(t *testing.T) {
	for _, row := range []struct{ recorded, named, says, saysNot string }{
		{"", "one", "", ""}, {"one", "one", "", ""},
		{"", "", "", ""}, {"", "$(reboot)", "", ""}, {"", "none", "", ""},
		{"two", "one", "the broker names the store one, and two is recorded", "none"},
		{"two", "one", "osb-platform broker set there --accept-store one", "none"},
		{"two", "", "osb-platform broker set there --accept-store none", "names the store"},
		{"two", "$(reboot)", "names no store any more", "reboot"},
		{"two", "none", "--accept-store none", "$"},
	} {
		t.Run(fmt.Sprintf("%+v", row), func(t *testing.T) {
			server := httptest.NewServer(http.HandlerFunc(func(w http.ResponseWriter, r *http.Request) {
				if row.named != "" {
					w.Header().Set(platform.StoreHeader, row.named)
				}
				text := strings.Replace(namedCatalogue, `"one"`, `"`+row.named+`"`, 1)
				_, _ = w.Write([]byte(strings.Replace(text, `,"x-osb-store":""`, "", 1)))
			}))
			of := at(server.URL)
			of.Name, of.Store = "there", row.recorded
			document, _, err := newClient(t, Options{}).Catalogue(context.Background(), of)
			switch {
			case row.says == "" && err != nil, row.says != "" && !errors.Is(err, platform.ErrOtherStore):
				t.Errorf("%+v: got %v, want %v exactly if it says so", row, err, platform.ErrOtherStore)
			case row.says == "":
				if got := platform.StoreOf(document); got != "" && got != row.named || row.named == "one" && got != "one" {
					t.Errorf("%+v: got the store %q, want the one that is named", row, got)
				}
			case !strings.Contains(err.Error(), row.says) || strings.Contains(err.Error(), row.saysNot):
				t.Errorf("%+v: got %v, want what it says", row, err)
			}
			server.Close()
		})
	}
}
