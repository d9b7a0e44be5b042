package platform

import (
	"bytes"
	"context"
	"encoding/json"
	"fmt"
	"io"
	"net/http"
	"os"
	"path/filepath"
	"strings"
	"sync"
	"testing"
	"time"

	"pippinterm/internal/diff"
	"pippinterm/storm/report"
	"pippinterm/storm/run"
	"pippinterm/storm/run/goods"
)

type mistakes struct {
	forgetsTimeout bool // it forgets what it gets no answer about
	forgetsErrors  bool // it forgets an instance after a 5xx
	oneRetry       bool // it sends each deletion twice at most
	takesUnread    bool // it takes a 201 as a success, whatever its body is
	stopsPolling   bool // it forgets an instance once a Poll isn't answered
	believesPages  bool // it takes a 404 and a 429 as a rejection, even if the body is a page: so does the standard
	bindingsLast   bool // it deletes an instance before its bindings

	// Each breaks a rule about requests.
	noVersion, noType, noIDs, noBody, noIncomplete, badIdentity, badLogin, badRoute bool
}

// A model is a small platform. Apart from its mistakes it satisfies the standard, and loses nothing.
type model struct {
	mistakes
	t      *testing.T
	url    string
	http   *http.Client
	folder string
	mutex  sync.Mutex
	has    map[report.Key]bool
	group  sync.WaitGroup
}

func newModel(t *testing.T, url string, wrong mistakes, within time.Duration) *model {
	t.Helper()
	m := &model{mistakes: wrong, t: t, url: url, folder: t.TempDir(), has: map[report.Key]bool{}}
	m.http = &http.Client{Timeout: within, Transport: &http.Transport{DisableKeepAlives: true}}
	m.write()
	return m
}

func commandsOf(folder string) run.Commands {
	return run.Commands{List: "cat " + folder + "/instances", ListBindings: "cat " + folder + "/bindings"}
}

func (m *model) set(key report.Key, has bool) {
	m.mutex.Lock()
	defer m.mutex.Unlock()
	m.has[key] = has
	m.write()
}

func (m *model) write() {
	var instances, bindings strings.Builder
	for key, has := range m.has {
		switch {
		case has && key.Binding == "":
			fmt.Fprintln(&instances, key.Instance)
		case has:
			fmt.Fprintln(&bindings, key.Instance, key.Binding)
		}
	}
	for name, text := range map[string]string{"instances": instances.String(), "bindings": bindings.String()} {
		path := filepath.Join(m.folder, name)
		if os.WriteFile(path+".new", []byte(text), 0o600) != nil || os.Rename(path+".new", path) != nil {
			m.t.Error("a list: got an error, want it written")
		}
	}
}

func (m *model) send(ctx context.Context, method, path string, body any) (a answer) {
	var text []byte
	if body != nil {
		text, _ = json.Marshal(body)
	}
	sent, err := http.NewRequestWithContext(ctx, method, m.url+path, bytes.NewReader(text))
	if diff.NoError(m.t, err, "a request"); err != nil {
		return a
	}
	sent.SetBasicAuth("platform", "secret")
	if m.badLogin {
		sent.SetBasicAuth("platform", "wrong")
	}
	if !m.noVersion {
		sent.Header.Set("X-Broker-API-Version", "2.17")
	}
	if !m.noType && body != nil {
		sent.Header.Set("Content-Type", "application/json; charset=utf-8")
	}
	sent.Header.Set("X-Broker-API-Originating-Identity", "cloudfoundry eyJ1c2VyX2lkIjogIm1lIn0=")
	if m.badIdentity {
		sent.Header.Set("X-Broker-API-Originating-Identity", "me")
	}
	came, err := m.http.Do(sent)
	if err != nil {
		return a
	}
	defer came.Body.Close()
	text, err = io.ReadAll(came.Body)
	a.status = came.StatusCode
	if err != nil || json.Unmarshal(text, &a.object) != nil {
		a.object = nil
	}
	return a
}

func (m *model) query(plan string) string {
	query := "?service_id=" + goods.Service + "&plan_id=" + plan
	if m.noIDs {
		query = "?x=y"
	}
	if !m.noIncomplete {
		query += "&accepts_incomplete=true"
	}
	return query
}

func (m *model) create(ctx context.Context, key report.Key, plan string) bool {
	body := map[string]any{
		"service_id": goods.Service, "plan_id": plan, "organization_guid": "o", "space_guid": "s",
		"parameters": map[string]any{"token": "a-secret-parameter"},
	}
	if m.noBody {
		delete(body, "space_guid")
		delete(body, "plan_id")
	}
	a := m.send(ctx, http.MethodPut, pathOf(key)+"?accepts_incomplete="+fmt.Sprint(!m.noIncomplete), body)
	isRead := a.object != nil || m.takesUnread
	switch {
	case a.is(200, 201) && isRead:
		m.set(key, true)
		return true
	case a.is(202) && a.object != nil:
		if m.poll(ctx, key, "succeeded") {
			m.set(key, true)
			return true
		}
		if m.stopsPolling {
			return false
		}
	case a.status == 0 && m.forgetsTimeout, a.status >= 500 && m.forgetsErrors:
		return false
	case a.status >= 400 && a.status < 500 && (a.object != nil || m.believesPages):
		return false
	}
	m.remove(ctx, key, plan)
	return false
}

func (m *model) remove(ctx context.Context, key report.Key, plan string) {
	m.set(key, false)
	for try := 0; ctx.Err() == nil && !(m.oneRetry && try >= 2); try++ {
		a := m.send(ctx, http.MethodDelete, pathOf(key)+m.query(plan), nil)
		if a.is(200, 410) || a.is(202) && m.poll(ctx, key, "gone") {
			return
		}
		time.Sleep(50 * time.Millisecond)
	}
}

func (m *model) poll(ctx context.Context, key report.Key, wanted string) bool {
	for ctx.Err() == nil {
		a := m.send(ctx, http.MethodGet, pathOf(key)+"/last_operation", nil)
		state, _ := a.object["state"].(string)
		switch {
		case a.status == 200 && state == "succeeded", a.status == 410 && wanted == "gone":
			return true
		case a.status == 200 && state == "failed", a.status != 200 && m.stopsPolling:
			return false
		}
		time.Sleep(50 * time.Millisecond)
	}
	return false
}

// run creates instances of each plan, with bindings, and removes most of them. It returns at once.
func (m *model) run(ctx, sending context.Context) {
	for n := 1; n <= 8; n++ {
		n := n
		m.group.Add(1)
		go func() {
			defer m.group.Done()
			for at := 0; sending.Err() == nil; at++ {
				m.live(ctx, report.Key{Instance: fmt.Sprintf("mine-%d-%d", n, at)}, n+at)
				time.Sleep(20 * time.Millisecond)
			}
		}()
	}
}

func (m *model) live(ctx context.Context, key report.Key, n int) {
	plan := []string{goods.AtOnce, goods.Later, goods.LaterWithBinds}[n/2%3]
	if m.badRoute {
		m.send(ctx, http.MethodPost, pathOf(key), map[string]any{})
	}
	if !m.create(ctx, key, plan) {
		return
	}
	binding := report.Key{Instance: key.Instance, Binding: "b"}
	hasBinding := n%2 == 0 && m.create(ctx, binding, plan)
	if n%3 == 0 {
		return
	}
	if hasBinding && m.bindingsLast {
		m.send(ctx, http.MethodDelete, pathOf(key)+m.query(plan), nil)
	}
	if hasBinding {
		m.remove(ctx, binding, plan)
	}
	m.remove(ctx, key, plan)
}

// An answer is what the model gets. Its status is 0 if nothing arrived, and its object is nil if that can't be read.
type answer struct {
	status int
	object map[string]any
}

func (a answer) is(statuses ...int) bool {
	for _, status := range statuses {
		if status == a.status {
			return true
		}
	}
	return false
}

func pathOf(key report.Key) string {
	path := "/v2/service_instances/" + key.Instance
	if key.Binding != "" {
		path += "/service_bindings/" + key.Binding
	}
	return path
}
