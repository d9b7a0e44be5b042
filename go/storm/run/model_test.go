package run

import (
	"encoding/json"
	"io"
	"net/http"
	"net/http/httptest"
	"os"
	"path/filepath"
	"strings"
	"sync"
	"testing"
	"time"

	"pippinterm/internal/diff"
)

// secret stands in the credentials of each binding.
const secret = "the-secret-of-a-binding"

// pin is a number in the credentials of each binding.
const pin = 8675309

const password = "the-password"

type mistakes struct {
	forgetsUnread   bool // it forgets an instance if the connection is cut before the answer
	forgetsRestart  bool // it forgets the operations when it is restarted
	goneWhileMaking bool // it answers 410 to a deletion while the creation goes on
	createsAgain    bool // it creates a second resource for a repeated Provision
	tooEarly        bool // it reports succeeded before the instance exists
	talks           bool // its errors have the password and credentials
	losesBindings   bool // it says that a binding is deleted, and deletes nothing
	unreadLater     bool // if the connection is cut before the answer, it creates the instance 4 seconds later
	// The following are no mistakes.
	blind bool // the catalogue doesn't promise that anything can be fetched
	mute  bool // the last operation is the same for what exists and what was deleted
}

// A row is what a model knows of an instance or a binding.
type row struct{ isMaking bool }

// A model is a small broker. What exists are files, whose names are the ids: instances in one folder, and bindings in
// another. Apart from its mistakes it satisfies the standard, as far as a storm sees that.
type model struct {
	mistakes
	isAsync  bool
	takes    time.Duration // a creation
	folder   string
	mutex    sync.Mutex
	rows     map[Key]*row
	requests int
	making   sync.WaitGroup // the creations in the background
}

// newModel returns a model that runs until the end of the test, and its URL.
func newModel(t *testing.T, isAsync bool, wrong mistakes) (*model, string) {
	t.Helper()
	m := &model{mistakes: wrong, isAsync: isAsync, takes: 20 * time.Millisecond, folder: t.TempDir(), rows: map[Key]*row{}}
	if isAsync {
		m.takes = 250 * time.Millisecond
	}
	for _, name := range []string{"instances", "bindings"} {
		check(t, os.Mkdir(filepath.Join(m.folder, name), 0o700))
	}
	server := httptest.NewServer(m)
	t.Cleanup(m.making.Wait) // before the folder is removed
	t.Cleanup(server.Close)
	return m, server.URL
}

func (m *model) commands() Commands {
	return Commands{
		List:         "ls " + m.folder + "/instances | sed 's/~.*//'",
		ListBindings: "ls " + m.folder + "/bindings | tr _ ' '",
	}
}

func (m *model) file(k Key) string {
	if k.Binding != "" {
		return filepath.Join(m.folder, "bindings", k.Instance+"_"+k.Binding)
	}
	return filepath.Join(m.folder, "instances", k.Instance)
}

func (m *model) list(t *testing.T) (names []string) {
	t.Helper()
	for _, name := range []string{"instances", "bindings"} {
		files := diff.Value(os.ReadDir(filepath.Join(m.folder, name)))(t)
		for _, file := range files {
			names = append(names, file.Name())
		}
	}
	return names
}

func (m *model) expectNothing(t *testing.T) {
	t.Helper()
	diff.Empty(t, m.list(t), "")
}

func (m *model) create(k Key) {
	name := m.file(k)
	if _, err := os.Stat(name); err == nil {
		name += "~2"
	}
	if err := os.WriteFile(name, nil, 0o600); err != nil {
		panic(err)
	}
}

type object = map[string]any

func catalogue(isRetrievable bool) object {
	return object{"services": []object{{
		"id": "s", "name": "service", "description": "a service", "bindable": true, "instances_retrievable": isRetrievable,
		"bindings_retrievable": isRetrievable, "plans": []object{{"id": "p", "name": "plan", "description": "a plan"}},
	}}}
}

func (m *model) ServeHTTP(w http.ResponseWriter, r *http.Request) {
	_, given, _ := r.BasicAuth()
	status, body := 401, any(object{"description": "who are you?"})
	if text, err := io.ReadAll(r.Body); given == password && err == nil {
		m.mutex.Lock()
		m.requests++
		m.mutex.Unlock()
		status, body = m.answer(r, text)
	}
	if m.talks && status >= 400 {
		body = object{"error": "Talks", "description": "your password is " + password + ", the token is " + secret}
	}
	w.Header().Set("Content-Type", "application/json")
	w.WriteHeader(status)
	_ = json.NewEncoder(w).Encode(body)
}

func (m *model) answer(r *http.Request, text []byte) (int, any) {
	if r.URL.Path == "/v2/catalog" {
		return 200, catalogue(!m.blind)
	}
	path := strings.TrimSuffix(r.URL.Path, "/last_operation")
	parts := strings.Split(path, "/")
	key := Key{Instance: parts[3]}
	if len(parts) > 5 {
		key.Binding = parts[5]
	}
	if m.forgetsRestart {
		m.forget()
	}
	var body object
	switch {
	case r.Method == http.MethodPut && json.Unmarshal(text, &body) != nil:
		return 400, object{}
	case r.Method == http.MethodPut:
		return m.put(r, key)
	case r.Method == http.MethodPatch:
		return 405, object{}
	case r.Method == http.MethodDelete:
		return m.delete(key)
	case path != r.URL.Path:
		return m.poll(key)
	}
	return m.fetch(key)
}

// forget forgets what isn't done, if a restart was asked for.
func (m *model) forget() {
	m.mutex.Lock()
	defer m.mutex.Unlock()
	if os.Remove(filepath.Join(m.folder, "restart")) != nil {
		return
	}
	for key, row := range m.rows {
		if row.isMaking {
			delete(m.rows, key)
		}
	}
}

func (m *model) bodyOf(k Key) object {
	if k.Binding == "" {
		return object{}
	}
	return object{"credentials": object{"token": secret, "pin": pin}}
}

func (m *model) put(r *http.Request, k Key) (int, any) {
	m.mutex.Lock()
	defer m.mutex.Unlock()
	if it := m.rows[k]; it != nil {
		switch {
		case it.isMaking:
			return 202, object{"operation": operationOf(k)}
		case m.createsAgain && k.Binding == "":
			m.create(k)
			return 201, object{}
		}
		return 200, m.bodyOf(k)
	}
	if k.Binding != "" {
		if of := m.rows[k.InstanceKey()]; of == nil || of.isMaking {
			return 422, object{"error": "ConcurrencyError"}
		}
		m.create(k)
		m.rows[k] = &row{}
		return 201, m.bodyOf(k)
	}
	if m.isAsync {
		it := &row{isMaking: true}
		m.rows[k] = it
		m.making.Add(1)
		go m.make(k, it)
		return 202, object{"operation": operationOf(k)}
	}
	if m.unreadLater && m.isUnread(r) {
		m.making.Add(1)
		time.AfterFunc(4*time.Second, func() {
			defer m.making.Done()
			m.mutex.Lock()
			defer m.mutex.Unlock()
			m.create(k)
			m.rows[k] = &row{}
		})
		return 500, object{}
	}
	m.create(k)
	if m.forgetsUnread && m.isUnread(r) {
		return 500, object{}
	}
	m.rows[k] = &row{}
	return 201, object{}
}

// isUnread waits a little, and reports whether the connection was cut meanwhile.
func (m *model) isUnread(r *http.Request) bool {
	m.mutex.Unlock()
	defer m.mutex.Lock()
	select {
	case <-r.Context().Done():
		return true
	case <-time.After(m.takes):
		return false
	}
}

func operationOf(k Key) string { return "operation " + k.Instance }

// make creates an instance in the background.
func (m *model) make(k Key, it *row) {
	defer m.making.Done()
	time.Sleep(m.takes)
	if m.tooEarly {
		m.mutex.Lock()
		it.isMaking = false
		m.mutex.Unlock()
		time.Sleep(2 * time.Second)
	}
	m.mutex.Lock()
	defer m.mutex.Unlock()
	m.create(k)
	it.isMaking = false
}

func (m *model) delete(k Key) (int, any) {
	m.mutex.Lock()
	defer m.mutex.Unlock()
	it := m.rows[k]
	switch {
	case it == nil, m.goneWhileMaking && it.isMaking:
		return 410, object{}
	case it.isMaking:
		return 422, object{"error": "ConcurrencyError"}
	}
	if !m.losesBindings || k.Binding == "" {
		_ = os.Remove(m.file(k))
	}
	delete(m.rows, k)
	return 200, object{}
}

func (m *model) poll(k Key) (int, any) {
	m.mutex.Lock()
	defer m.mutex.Unlock()
	switch it := m.rows[k]; {
	case m.mute:
	case it == nil:
		return 410, object{}
	case it.isMaking:
		return 200, object{"state": "in progress"}
	}
	return 200, object{"state": "succeeded"}
}

func (m *model) fetch(k Key) (int, any) {
	m.mutex.Lock()
	defer m.mutex.Unlock()
	if _, err := os.Stat(m.file(k)); err != nil {
		return 404, object{}
	}
	return 200, m.bodyOf(k)
}
