package main

import (
	"context"
	"encoding/json"
	"io"
	"net"
	"net/http"
	"os"
	"path/filepath"
	"strings"
	"testing"
	"time"

	"pippinterm/internal/diff"
	"pippinterm/osb"
)

const (
	instance = "/v2/service_instances/00000000-0000-0000-0000-000000000001"
	binding  = instance + "/service_bindings/00000000-0000-0000-0000-000000000002"
	folder   = "00000000-0000-0000-0000-000000000001"
)

// A servedBroker serves over a folder that outlives it.
type servedBroker struct {
	t     *testing.T
	state string
	url   string
	stop  func()
	ended chan error
}

// start starts the broker.
func start(t *testing.T, state string) *servedBroker {
	t.Helper()
	listener, err := net.Listen("tcp", "127.0.0.1:0")
	check(t, err)
	stop, cancel := context.WithCancel(context.Background())
	s := &servedBroker{
		t: t, state: state, url: "http://" + listener.Addr().String(), stop: cancel, ended: make(chan error, 1),
	}
	go func() { s.ended <- serve(context.Background(), stop, listener, state, "secret") }()
	t.Cleanup(cancel)
	return s
}

// end stops the broker, and waits for it.
func (s *servedBroker) end() {
	s.t.Helper()
	s.stop()
	check(s.t, <-s.ended)
}

// ask sends a request for a plan, as a platform does, and returns the status and the body of the answer.
func (s *servedBroker) ask(method, target, plan string) (int, string) {
	s.t.Helper()
	status, body, err := s.try(method, target, plan)
	check(s.t, err)
	return status, body
}

// try does so too. If there is no answer, it returns an error.
func (s *servedBroker) try(method, target, plan string) (status int, body string, err error) {
	ids := "service_id=00000000-0000-0000-0000-0000000000a0&plan_id=" + plan + "&accepts_incomplete=true"
	asked := ""
	if method == http.MethodPut {
		ids, asked = "accepts_incomplete=true", `{"service_id":"00000000-0000-0000-0000-0000000000a0","plan_id":"`+plan+
			`","organization_guid":"an organization","space_guid":"a space"}`
	}
	request, err := http.NewRequest(method, s.url+target+"?"+ids, strings.NewReader(asked))
	if err != nil {
		return 0, "", err
	}
	request.SetBasicAuth("platform", "secret")
	request.Header.Set(osb.VersionHeader, osb.VersionSent)
	answer, err := (&http.Client{Timeout: time.Minute}).Do(request)
	if err != nil {
		return 0, "", err
	}
	defer answer.Body.Close()
	text, err := io.ReadAll(answer.Body)
	return answer.StatusCode, string(text), err
}

// want fails unless the answer has this status, and this text in its body.
func (s *servedBroker) want(method, target, plan string, status int, text string) string {
	s.t.Helper()
	got, body := s.ask(method, target, plan)
	if got != status || !strings.Contains(body, text) {
		s.t.Fatalf("%s %s: got %d %s, want %d with %s", method, target, got, body, status, text)
	}
	return body
}

// poll polls until the operation has ended.
func (s *servedBroker) poll(target, plan string) (int, string) {
	s.t.Helper()
	for deadline := time.Now().Add(time.Minute); ; {
		status, body := s.ask(http.MethodGet, target+"/last_operation", plan)
		if !strings.Contains(body, "in progress") {
			return status, body
		}
		if time.Now().After(deadline) {
			s.t.Fatal("the operation: got no end in time, want one")
		}
	}
}

// sells fails unless exactly these names exist.
func (s *servedBroker) sells(names ...string) {
	s.t.Helper()
	found, err := os.ReadDir(filepath.Join(s.state, "sold"))
	if err != nil && !os.IsNotExist(err) {
		s.t.Fatalf("got the error %v, want the folder or none", err)
	}
	var all []string
	for _, entry := range found {
		all = append(all, entry.Name())
	}
	if strings.Join(all, " ") != strings.Join(names, " ") {
		s.t.Fatalf("got %v, want %v", all, names)
	}
}

const (
	now   = "00000000-0000-0000-0000-0000000000b1"
	later = "00000000-0000-0000-0000-0000000000b2"
)

// A synchronous plan: an instance and a binding, with a new start of the broker in between.
func TestSynchronous(t *testing.T) {
	s := start(t, t.TempDir())
	s.want("GET", "/v2/catalog", now, 200, `"x-osb-tombstones":true`)
	s.want("PUT", binding, now, 503, `"error"`) // there is no instance yet
	s.want("PUT", instance, now, 201, "{}")
	s.want("PUT", instance, now, 200, "{}")
	credentials := s.want("PUT", binding, now, 201, `{"credentials":{"token":"`)
	s.sells(folder, folder+".00000000-0000-0000-0000-000000000002")
	s.end()

	s = start(t, s.state)
	for _, method := range []string{"PUT", "GET"} {
		if again := s.want(method, binding, now, 200, ""); again != credentials {
			t.Errorf("%s: got %s, want %s", method, again, credentials)
		}
	}
	s.want("DELETE", instance, now, 422, "ConcurrencyError") // it has a binding
	s.want("DELETE", binding, now, 200, "{}")
	s.sells(folder)
	s.want("GET", binding, now, 404, `"error"`)
	s.want("DELETE", instance, now, 200, "{}")
	s.sells()
	s.want("PUT", instance, now, 409, `"error"`)
	s.end()
}

// The credentials are those in the file of the binding.
func TestCredentials(t *testing.T) {
	s := start(t, t.TempDir())
	s.want("PUT", instance, now, 201, "{}")
	answer := s.want("PUT", binding, now, 201, "")
	file, err := os.ReadFile(filepath.Join(s.state, "sold", folder+".00000000-0000-0000-0000-000000000002"))
	if err != nil || answer != `{"credentials":`+string(file)+"}" {
		t.Errorf("got %s, the file %s and the error %v, want its content as credentials", answer, file, err)
	}
	var read struct{ Token string }
	if err := json.Unmarshal(file, &read); err != nil || len(read.Token) != 32 {
		t.Errorf("got %s and the error %v, want a token of 32 characters", file, err)
	}
}

// An asynchronous plan: the operations go on after their answers.
func TestAsynchronous(t *testing.T) {
	s := start(t, t.TempDir())
	s.want("PUT", instance, later, 202, "{}")
	if status, body := s.poll(instance, later); status != 200 || body != `{"state":"succeeded"}` {
		t.Fatalf("got %d %s, want 200 and succeeded", status, body)
	}
	s.sells(folder)
	s.want("PUT", binding, later, 201, `"token"`)
	s.want("DELETE", binding, later, 200, "{}")
	s.want("DELETE", instance, later, 202, "{}")
	if status, body := s.poll(instance, later); status != 410 {
		t.Fatalf("got %d %s, want 410", status, body)
	}
	s.sells()
	s.end()
}

// A request line that is cut is answered with 408, and not with the 400 of net/http: a 4xx that says that the broker
// has rejected the request has to depend on the request alone.
func TestCutRequest(t *testing.T) {
	s := start(t, t.TempDir())
	connection, err := net.Dial("tcp", strings.TrimPrefix(s.url, "http://"))
	check(t, err)
	defer connection.Close()
	diff.Value(io.WriteString(connection, "PUT /v2/service_inst"))(t)
	check(t, connection.(*net.TCPConn).CloseWrite())
	answer, err := io.ReadAll(connection)
	if err != nil || !strings.HasPrefix(string(answer), "HTTP/1.1 408 ") {
		t.Errorf("got %q, %v, want 408", answer, err)
	}
	s.end()
}

// Whoever has another password isn't served.
func TestPassword(t *testing.T) {
	s := start(t, t.TempDir())
	answer, err := http.Get(s.url + "/v2/catalog")
	if err != nil || answer.StatusCode != http.StatusUnauthorized {
		t.Fatalf("got %v, %v, want 401", answer, err)
	}
	if err := serve(context.Background(), context.Background(), nil, t.TempDir(), ""); err == nil {
		t.Error("serve without a password: got no error, want one")
	}
}
