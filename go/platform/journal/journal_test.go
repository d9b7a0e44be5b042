package journal

import (
	"bytes"
	"context"
	"encoding/json"
	"errors"
	"os"
	"path/filepath"
	"strconv"
	"strings"
	"sync"
	"testing"
	"time"

	"pippinterm/internal/diff"
	"pippinterm/internal/journalfile"
	"pippinterm/osb"
	"pippinterm/platform"
	"pippinterm/platform/sqlite"
)

func want(t *testing.T, what, got, want string) {
	t.Helper()
	diff.Equal(t, got, want, "%s", what)
}

const created = "order ordered; claim wanted; sent provision; answered empty; take ready"

// The lines of an instance and a binding.
func TestEvents(t *testing.T) {
	s := newTestPlatform(t)
	key := s.create("one")
	s.run()
	want(t, "create", s.events(1), created)
	from := len(s.lines())
	bound := diff.Value(s.orders.Bind(background, platform.NewBinding{Instance: "one"}))(t)
	s.run()
	want(t, "bind", s.events(from), created)
	from = len(s.lines())
	diff.Value(s.orders.Remove(background, bound.Key, false))(t)
	s.run()
	want(t, "unbind", s.events(from), "claim cleaning; sent deprovision; answered empty; take gone")
	from = len(s.lines())
	diff.Value(s.orders.Abandon(background, key, "the test wants it"))(t)
	want(t, "abandon", s.events(from), "command abandoned")
}

// The members of lines, and the chain of the texts.
func TestMembers(t *testing.T) {
	s := newTestPlatform(t)
	key := s.create("my first")
	s.run()
	text, request := "", ""
	for at, line := range s.lines() {
		switch {
		case at == 0:
			if line.Event != "started" || line.Version != "1.2" || line.Worker != "one" || !line.NamesEvents {
				t.Errorf("got %+v, want the start of the worker one, version 1.2, which names events", line)
			}
			continue
		case line.Instance != key.Instance.String() || line.InstanceID != "my first" || line.Binding != "" || line.Broker != "shop":
			t.Errorf("got %+v, want a line of the instance my first at shop", line)
		}
		isMade := line.Service == service && line.Plan == plan
		switch line.Event {
		case "changed":
			isTake := line.Cause == "take"
			if line.Before != text || !isMade || isTake != (line.Attempt == 1) || line.Change < 1 {
				t.Errorf("after %q: got %+v, want the change of that text", text, line)
			}
			text = line.After
		case "sent":
			if request = line.Request; request == "" || line.Attempt != 1 || !line.Accepts || !isMade {
				t.Errorf("got %+v, want attempt 1 of a request that accepts asynchronous work", line)
			}
		case "answered":
			if line.Request != request || line.Status != 200 || line.Kind != "provision" {
				t.Errorf("got %+v, want 200 to the Provision %s", line, request)
			}
		}
	}
	var record osb.Record
	check(t, record.UnmarshalJSON([]byte(text)))
	if entry, err := s.store.Read(background, key); err != nil || entry.Record != record {
		t.Errorf("the journal: got %[2]v (%[3]v), want %[1]v, as recorded", entry.Record, record, err)
	}
}

// The text of a binding's record is a binding's, and its credentials have one digest: as answered and as recorded.
func TestBinding(t *testing.T) {
	s := newTestPlatform(t)
	s.create("one")
	s.run()
	from := len(s.lines())
	bound := diff.Value(s.orders.Bind(background, platform.NewBinding{Instance: "one"}))(t)
	s.run()
	digest := journalfile.Digest([]byte(`{"credentials":{"password":"` + credential + `"}}`))
	found := ""
	for _, line := range s.lines()[from:] {
		diff.Equal(t, line.Binding, bound.Key.Binding.String(), "a line of the binding")
		if line.Credentials != "" {
			found += line.Event + " "
			want(t, line.Event, line.Credentials, digest)
		}
	}
	want(t, "with a digest", found, "answered changed ")
	entry := diff.Value(s.store.Read(background, bound.Key))(t)
	text := diff.Value(entry.Record.BindingText())(t)
	want(t, "the last record", s.last().After, string(text))
}

// A Fetch, and a poll that it follows. The Fetch has no attempt of its own.
func TestFetch(t *testing.T) {
	s := newTestPlatform(t)
	s.create("one")
	s.run()
	from := len(s.lines())
	s.seller.answers = func(out platform.Outgoing) platform.Incoming {
		if out.Request.Kind == osb.KindProvision {
			return platform.Incoming{Status: 202, Answer: osb.Answer{Status: 202, Body: osb.BodyEmpty}}
		}
		return sells(out)
	}
	diff.Value(s.orders.Bind(background, platform.NewBinding{Instance: "one"}))(t)
	s.run()
	time.Sleep(10 * time.Millisecond)
	s.run()
	want(t, "bind", s.events(from), "order ordered; claim wanted; sent provision; answered empty; take polling; "+
		"claim polling; sent poll; answered succeeded; sent fetch; answered ; take ready")
	attempts := ""
	for _, line := range s.lines()[from:] {
		if line.Event == "sent" {
			attempts += strconv.FormatUint(line.Attempt, 10) + " "
		}
	}
	want(t, "attempts", attempts, "1 2 0 ")
}

// The line of a change is in the file before it is committed, and that of a request before it leaves.
func TestOrder(t *testing.T) {
	s := newTestPlatform(t)
	commits, requests := 0, 0
	s.store.stepped = func(change *platform.Change) {
		commits++
		text, err := change.Entry.Record.MarshalJSON()
		if last := s.last(); err != nil || last.Event != "changed" || last.After != string(text) {
			t.Errorf("before a commit of %s: got %+v, want it changed", text, last)
		}
	}
	s.seller.answers = func(out platform.Outgoing) platform.Incoming {
		requests++
		last := s.last()
		if last.Event != "sent" || last.Request != out.RequestID || strconv.FormatInt(last.Time, 10) != out.JournalTime {
			t.Errorf("%s at %s: got the line %+v, want it sent", out.RequestID, out.JournalTime, last)
		}
		return sells(out)
	}
	s.create("one")
	s.run()
	diff.Equal(t, commits, 2, "commits")
	diff.Equal(t, requests, 1, "requests")
}

// A change of a step that isn't committed is undone, and one of which nobody knows is so doubtfully.
func TestUndone(t *testing.T) {
	for _, fails := range []error{errFull, errDoubt} {
		undo := map[error]string{errFull: "undone", errDoubt: "undone doubtful"}[fails]
		s := newTestPlatform(t)
		key := s.create("one")
		failed := false
		s.store.stepped = func(change *platform.Change) {
			if change.Entry.State == platform.Ready && !failed {
				failed = true
				s.store.fails = fails
			}
		}
		s.run()
		want(t, fails.Error(), s.events(1), strings.Replace(created, "take ready", "take ready; "+undo+"; take ready", 1))
		lines := s.lines()
		if undone := lines[6]; undone.Change != lines[5].Change || undone.Instance != key.Instance.String() {
			t.Errorf("got %+v, want change %d of %s", undone, lines[5].Change, key.Instance)
		}
	}
}

// A row of a claim whose step fails below the journal isn't written: its change is undone, and that of the other isn't.
func TestUndoneRow(t *testing.T) {
	s := newTestPlatform(t)
	s.create("one")
	s.create("two")
	from := len(s.lines())
	s.store.fails = errFull
	s.run()
	lines := s.lines()[from:]
	undone := 0
	for _, line := range lines {
		if line.Event == "undone" {
			undone++
			diff.Equal(t, line.Change, lines[0].Change, "change")
			diff.Equal(t, line.Instance, lines[0].Instance, "instance")
		}
	}
	diff.Equal(t, undone, 1, "%s", s.events(from))
}

// A claim that fails as a whole.
type failing struct {
	platform.Store
	err error
}

func (f failing) Claim(_ context.Context, _ []string, _ int, step platform.Step) ([]platform.ClaimedRow, error) {
	for _, text := range []string{"00000000-0000-0000-0000-000000000001", "00000000-0000-0000-0000-000000000002"} {
		id, err := osb.ParseID(text)
		if err != nil {
			return nil, err
		}
		if _, err := step(time.Now(), platform.Snapshot{Entry: platform.Entry{
			Order: platform.Order{Key: osb.InstanceKey(id)},
		}}); err != nil {
			return nil, err
		}
	}
	return nil, f.err
}

func TestUndoneClaim(t *testing.T) {
	for fails, want := range map[error]string{errFull: "undone; undone", errDoubt: "undone doubtful; undone doubtful"} {
		t.Run(fails.Error(), func(t *testing.T) {
			s := newTestPlatform(t)
			w := diff.Value(Open(Options{Path: s.path + ".own", Most: 1 << 20}))(t)
			to := New(w, nil, func(err error) bool { return errors.Is(err, errDoubt) })
			_, err := to.EngineStore(failing{s.store, fails}).Claim(background, nil, 2,
				func(_ time.Time, snapshot platform.Snapshot) (*platform.Change, error) {
					snapshot.State = platform.Withdrawn
					return &platform.Change{Entry: snapshot.Entry}, nil
				})
			diff.ErrorIs(t, err, fails, "")
			s.path += ".own"
			diff.Equal(t, s.events(1), "claim withdrawn; claim withdrawn; "+want, "when %v fails", fails)
		})
	}
}

// A record that has no text loses its line, and nothing else.
func TestNoText(t *testing.T) {
	s := newTestPlatform(t)
	path, failed := s.path+".own", 0
	w := diff.Value(Open(Options{
		Path: path, Most: 1 << 20, Failed: func(error) { failed++ },
	}))(t)
	key := s.create("one")
	to := New(w, nil, func(error) bool { return false })
	err := to.EngineStore(s.store).Change(background, key,
		func(_ time.Time, snapshot platform.Snapshot) (*platform.Change, error) {
			snapshot.Entry.IsSent = true
			return &platform.Change{Entry: snapshot.Entry}, nil
		})
	diff.ErrorIs(t, err, osb.ErrBadRecord, "") // that of the store
	s.path = path
	diff.Equal(t, failed, 1, "failed")
	diff.Equal(t, w.LostLines(), 1, "lost lines")
}

// The step of a transaction that is tried again is undone first.
func TestTriedAgain(t *testing.T) {
	s := newTestPlatform(t)
	s.create("one")
	s.store.tries = 3
	s.run()
	want(t, "three tries", s.events(1), strings.Replace(created, "claim wanted",
		"claim wanted; undone; claim wanted; undone; claim wanted", 1))
}

// An order that isn't inserted is undone.
func TestUsed(t *testing.T) {
	s := newTestPlatform(t)
	s.create("one")
	_, err := s.orders.Create(background, platform.NewInstance{Service: service, Plan: plan, ID: "one"})
	diff.Error(t, err, "the id that is used")
	want(t, "twice", s.events(1), "order ordered; order ordered; undone")
	from := len(s.lines())
	s.store.tries = 2
	s.create("two")
	want(t, "tried again", s.events(from), "order ordered; undone; order ordered")
}

// What is to be checked before an order is inserted is checked beside the journal, too.
func TestOrderThatIsNotAllowed(t *testing.T) {
	s := newTestPlatform(t)
	err := s.to.OrdersStore(s.store.Store).Insert(background, platform.Entry{
		Order: platform.Order{Key: keyOf("one"), Broker: "shop", Body: json.RawMessage("{}")},
	}, func(platform.Snapshot) error { return errFull })
	diff.ErrorIs(t, err, errFull, "")
	diff.ErrorIs(t, diff.Err(s.store.Read(background, keyOf("one"))), platform.ErrUnknown, "")
	want(t, "no order", s.events(1), "")
}

// A step that writes nothing has no line, and is no error.
func TestStepThatWritesNothing(t *testing.T) {
	s := newTestPlatform(t)
	key := s.create("one")
	from := len(s.lines())
	err := s.to.EngineStore(s.store.Store).Change(background, key,
		func(time.Time, platform.Snapshot) (*platform.Change, error) { return nil, nil })
	diff.NoError(t, err, "")
	want(t, "a step that writes nothing", s.events(from), "")
}

// An order that wasn't sent is withdrawn.
func TestWithdrawn(t *testing.T) {
	s := newTestPlatform(t)
	diff.Value(s.orders.Remove(background, s.create("one"), false))(t)
	want(t, "withdrawn", s.events(1), "order ordered; command withdrawn")
}

// The order under another id that follows a failed one is written down with the end of that one.
func TestNextTry(t *testing.T) {
	s := newTestPlatform(t)
	s.seller.answers = func(out platform.Outgoing) platform.Incoming {
		if out.Request.Kind == osb.KindProvision {
			return platform.Incoming{Lost: errors.New("no answer")}
		}
		return sells(out)
	}
	made := diff.Value(s.orders.Create(background, platform.NewInstance{Service: service, Plan: plan, Tries: 2}))(t)
	const first = "order ordered; claim wanted; sent provision; lost; take cleaning; " +
		"claim cleaning; sent deprovision; answered empty; take gone; order ordered"
	for late := time.Now().Add(10 * time.Second); !strings.HasPrefix(s.events(1), first); s.run() {
		if time.Now().After(late) {
			t.Fatalf("got %s, want %s first", s.events(1), first)
		}
	}
	instance := made.Key.Instance.String()
	if gone, next := s.lines()[9], s.lines()[10]; gone.Instance != instance || next.Instance == instance {
		t.Errorf("got %+v and then %+v, want the second of another instance", gone, next)
	}
}

// A command that changes the record: the retry of a deletion that hangs.
func TestRetry(t *testing.T) {
	s := newTestPlatform(t)
	key := s.create("one")
	s.run()
	s.seller.answers = func(platform.Outgoing) platform.Incoming {
		return platform.Incoming{Status: 202, Answer: osb.Answer{Status: 202, Body: osb.BodyEmpty}, RetryAfter: time.Hour}
	}
	diff.Value(s.orders.Remove(background, key, false))(t)
	s.run()
	from := len(s.lines())
	diff.Value(s.orders.Retry(background, key))(t)
	want(t, "retry", s.events(from), "command cleaning")
	if it := s.last(); it.Attempt != 0 || it.Before == it.After {
		t.Errorf("got %+v, want no attempt, and a record that has changed", it)
	}
}

// Each change that a driver makes has the events that the driver says it is. What no driver changes has none.
func TestEffects(t *testing.T) {
	const asynchronous, failed = 202, 500
	for _, test := range []struct {
		name    string
		answers []int // the statuses of requests in turn, 0 if no answer arrives; then all is done at once
		asks    string
		want    string
	}{
		{"a creation", nil, "create, run", "-; create; take"},
		{"an answer that is lost", []int{0}, "create, run, run", "-; create; timeout; send; take"},
		{"an error that is answered", []int{failed}, "create, run", "-; create; take"},
		{"a Poll", []int{asynchronous}, "create, run, run", "-; create; take; send; take"},
		{"a removal", nil, "create, run, remove, run", "-; create; take; remove send; take"},
		{"a polling that takes too long", []int{asynchronous}, "create, run, age, run",
			"-; create; take; expire send; take"},
		{"a deletion that takes too long", []int{200, asynchronous}, "create, run, remove, run, age, run",
			"-; create; take; remove send; take; retry send; take"},
		{"a retry", []int{200, asynchronous}, "create, run, remove, run, retry",
			"-; create; take; remove send; take; retry"},
		{"a dead worker", []int{asynchronous}, "create, run, die, run", "-; create; take; timeout send; take"},
		{"a dead worker, and a polling that takes too long", []int{asynchronous}, "create, run, die, age, run",
			"-; create; take; timeout expire send; take"},
		{"a dead worker, and a removal", []int{asynchronous}, "create, run, die, remove, run",
			"-; create; take; timeout remove send; take"},
		{"a dead worker, and a retry", []int{asynchronous}, "create, run, die, retry", "-; create; take; timeout"},
		{"a claim of which nobody knows", nil, "create, doubt", "-; create; timeout"},
		{"a withdrawal", nil, "create, remove", "-; -"},
		{"an end by an operator", nil, "create, run, abandon", "-; create; take; -"},
	} {
		t.Run(test.name, func(t *testing.T) {
			s := newTestPlatform(t)
			s.pace(time.Hour)
			s.seller.answers = func(out platform.Outgoing) platform.Incoming {
				if len(test.answers) == 0 {
					return sells(out)
				}
				status := test.answers[0]
				test.answers = test.answers[1:]
				if status == 0 {
					return platform.Incoming{Lost: errFull}
				}
				return platform.Incoming{Status: status, Answer: osb.Answer{Status: uint16(status), Body: osb.BodyEmpty}}
			}
			for _, ask := range strings.Split(test.asks, ", ") {
				s.ask(ask)
			}
			want(t, test.asks, s.effects(), test.want)
		})
	}
}

// An answer that has the time of another journal is followed by later lines.
func TestTimes(t *testing.T) {
	s := newTestPlatform(t)
	ahead := time.Now().Add(time.Hour).UnixMicro()
	s.seller.answers = func(out platform.Outgoing) platform.Incoming {
		in := sells(out)
		in.JournalTime = strconv.FormatInt(ahead, 10)
		return in
	}
	s.create("one")
	s.run()
	for _, line := range s.lines() {
		if line.Event == "answered" && (line.Time <= ahead || line.Time > ahead+1e6) {
			t.Errorf("got %+v after %d, want a time right after it", line, ahead)
		}
	}
}

// No parameter, credential or password stands in a journal.
func TestNoSecrets(t *testing.T) {
	s := newTestPlatform(t)
	s.create("one")
	s.run()
	bound := diff.Value(s.orders.Bind(background, platform.NewBinding{Instance: "one"}))(t)
	s.run()
	diff.Value(s.orders.Remove(background, bound.Key, false))(t)
	s.run()
	text := diff.Value(os.ReadFile(s.path))(t)
	for _, secret := range []string{password, parameter, credential} {
		diff.Lacks(t, string(text), secret, "the journal")
	}
	diff.Contains(t, string(text), bound.Key.Binding.String(), "")
}

func keyOf(text string) platform.Key {
	id, err := osb.IDOfText(text)
	if err != nil {
		panic(err)
	}
	return osb.InstanceKey(id)
}

// What must not stand in a journal.
const (
	password   = "password-at-the-broker"
	parameter  = "value-of-a-parameter"
	credential = "secret-of-a-binding"
)

const (
	service = "00000000-0000-0000-0000-0000000000a0"
	plan    = "00000000-0000-0000-0000-0000000000b1"
	sold    = `{"x-osb-tombstones": true, "services": [{"id": "` + service + `", "name": "s", "description": "d", "bindable": true,
	"bindings_retrievable": true, "plans": [{"id": "` + plan + `", "name": "p", "description": "d"}]}]}`
)

var (
	background = context.Background()
	errFull    = errors.New("the disk is full")
	errDoubt   = errors.New("nobody knows")
)

var check = diff.Must

// A faulty store is below the journal. It gets each transaction, and can fail it.
type faulty struct {
	platform.Store
	mutex   sync.Mutex
	stepped func(change *platform.Change) // is called after a step, before the commit
	fails   error                         // of the next commit, though its step was called
	tries   int                           // how often the next step is called, if it is more than once
	// isUnsure has the next claim of a row be committed, and report that nobody knows.
	isUnsure bool
}

func (f *faulty) commit() error {
	f.mutex.Lock()
	defer f.mutex.Unlock()
	err := f.fails
	f.fails = nil
	return err
}

// over is a step that fails if the commit does: nothing is written then.
func (f *faulty) over(step platform.Step) platform.Step {
	return func(now time.Time, snapshot platform.Snapshot) (*platform.Change, error) {
		change, err := step(now, snapshot)
		f.mutex.Lock()
		tries := f.tries
		f.tries = 0
		f.mutex.Unlock()
		for try := 1; try < tries; try++ {
			change, err = step(now, snapshot)
		}
		if err == nil && change != nil && f.stepped != nil {
			f.stepped(change)
		}
		if err == nil && change != nil {
			err = f.commit()
		}
		return change, err
	}
}

func (f *faulty) Insert(ctx context.Context, entry platform.Entry, check func(platform.Snapshot) error) error {
	return f.Store.Insert(ctx, entry, func(snapshot platform.Snapshot) error {
		err := check(snapshot)
		for ; err == nil && f.tries > 1; f.tries-- {
			err = check(snapshot)
		}
		return err
	})
}

func (f *faulty) Change(ctx context.Context, key platform.Key, step platform.Step) error {
	return f.Store.Change(ctx, key, f.over(step))
}

func (f *faulty) Claim(
	ctx context.Context, brokers []string, most int, step platform.Step,
) ([]platform.ClaimedRow, error) {
	claimed, err := f.Store.Claim(ctx, brokers, most, f.over(step))
	if f.isUnsure && err == nil && len(claimed) > 0 {
		f.isUnsure, err = false, errDoubt
	}
	return claimed, err
}

// A vault seals with no key.
type plainVault struct{}

func (plainVault) Seal(plain []byte, of string) ([]byte, error) {
	return append([]byte(of+" "), plain...), nil
}

func (plainVault) Open(sealed []byte, of string) ([]byte, error) {
	if !bytes.HasPrefix(sealed, []byte(of+" ")) {
		return nil, errors.New("another context")
	}
	return sealed[len(of)+1:], nil
}

func (plainVault) Fingerprint() string { return "plain" }

// A broker in memory.
type seller struct {
	answers func(out platform.Outgoing) platform.Incoming
}

func (s *seller) Exchange(_ context.Context, out platform.Outgoing) platform.Incoming {
	return s.answers(out)
}

func (*seller) Catalogue(context.Context, platform.Broker) (json.RawMessage, int, error) {
	return json.RawMessage(sold), 200, nil
}

func (*seller) Clock() time.Time { return time.Now() }

// sells answers that all is done at once.
func sells(out platform.Outgoing) platform.Incoming {
	in := platform.Incoming{Status: 200, Answer: osb.Answer{Status: 200, Body: osb.BodyEmpty}}
	if out.Entry.Key.IsBinding && out.Request.Kind == osb.KindProvision || out.IsFetch {
		in.Binding = json.RawMessage(`{"credentials":{"password":"` + credential + `"}}`)
	}
	if out.Request.Kind == osb.KindPoll {
		in.Answer.Body = osb.BodySucceeded
	}
	return in
}

// A line is one of a journal.
type line struct {
	Time                                int64
	Event, Instance, Binding            string
	InstanceID                          string `json:"instance_id"`
	Change                              int64
	Broker, Cause, Before, After, State string
	Attempt                             uint64
	Service, Plan, Credentials, Effect  string
	Doubtful, Accepts                   bool
	Request, Kind, Body, Lost           string
	Status, Count                       int
	NamesEvents                         bool `json:"names_events"`
	Version, Worker                     string
}

// A testPlatform is a platform whose journal is read.
type testPlatform struct {
	t      *testing.T
	path   string
	store  *faulty
	seller *seller
	engine *platform.Engine
	orders *platform.Orders
	to     *Journal
}

func newTestPlatform(t *testing.T) *testPlatform {
	t.Helper()
	folder := t.TempDir()
	s := &testPlatform{t: t, path: filepath.Join(folder, "journal"), seller: &seller{answers: sells}}
	store := diff.Value(sqlite.Open(background, filepath.Join(folder, "store")))(t)
	t.Cleanup(func() { check(t, store.Close()) })
	s.store = &faulty{Store: store}
	writer := diff.Value(Open(Options{
		Path: s.path, Most: 1 << 20, Started: StartMembers("1.2", "one"),
		Failed: func(err error) { t.Errorf("got the error %v, want each line written", err) },
	}))(t)
	to := New(writer, plainVault{}, func(err error) bool { return errors.Is(err, errDoubt) })
	s.to = to
	s.orders = platform.NewOrders(to.OrdersStore(s.store), plainVault{})
	s.pace(time.Millisecond)
	check(t, s.orders.AddBroker(background, platform.Broker{
		Name: "shop", URL: "http://127.0.0.1:1", User: "platform",
	}, []byte(password)))
	check(t, s.engine.RunOnce(background))
	return s
}

// pace has a row rest for so long after each request.
func (s *testPlatform) pace(pace time.Duration) {
	s.engine = platform.NewEngine(s.to.EngineStore(s.store), s.to.Client(s.seller), plainVault{}, platform.Options{
		Worker: "one", FirstPace: pace, LongestPace: pace,
	}, platform.Silent{})
}

// create orders an instance.
func (s *testPlatform) create(id string) platform.Key {
	s.t.Helper()
	made, err := s.orders.Create(background, platform.NewInstance{
		Service: service, Plan: plan, ID: id, Parameters: json.RawMessage(`{"password":"` + parameter + `"}`),
	})
	check(s.t, err)
	return made.Key
}

// run runs the engine until nothing is due.
func (s *testPlatform) run() {
	s.t.Helper()
	check(s.t, s.engine.RunOnce(background))
}

func (s *testPlatform) lines() (lines []line) {
	s.t.Helper()
	text, err := os.ReadFile(s.path)
	check(s.t, err)
	for _, whole := range strings.Split(strings.TrimSuffix(string(text), "\n"), "\n") {
		var read line
		if err := json.Unmarshal([]byte(whole), &read); err != nil {
			s.t.Fatalf("the line %q: got %v, want no error", whole, err)
		}
		lines = append(lines, read)
	}
	return lines
}

// ask has somebody do something with the instance one, or its row be as it may be later.
func (s *testPlatform) ask(what string) {
	s.t.Helper()
	key, err := keyOf("one"), error(nil)
	change := func(as func(now time.Time, e *platform.Entry)) error {
		return s.store.Store.Change(background, key, func(now time.Time, found platform.Snapshot) (*platform.Change, error) {
			as(now, &found.Entry)
			return &platform.Change{Entry: found.Entry}, nil
		})
	}
	switch what {
	case "create":
		s.create("one")
	case "run":
		err = change(func(now time.Time, e *platform.Entry) { e.Due = now })
		s.run()
	case "remove":
		_, err = s.orders.Remove(background, key, false)
	case "retry":
		_, err = s.orders.Retry(background, key)
	case "abandon":
		_, err = s.orders.Abandon(background, key, "the test wants it")
	case "age":
		err = change(func(now time.Time, e *platform.Entry) { e.PolledSince = now.AddDate(-1, 0, 0) })
	case "die":
		err = change(func(now time.Time, e *platform.Entry) { e.Record, _, _ = e.Record.Send(key.ID()) })
	case "doubt":
		s.store.isUnsure = true
		diff.ErrorIs(s.t, s.engine.RunOnce(background), errDoubt, "a claim")
	}
	check(s.t, err)
}

// effects are the events that the drivers name of all changes.
func (s *testPlatform) effects() string {
	s.t.Helper()
	var names []string
	for _, line := range s.lines() {
		switch {
		case line.Event != "changed":
		case line.Effect == "":
			names = append(names, "-")
		default:
			names = append(names, line.Effect)
		}
	}
	return strings.Join(names, "; ")
}

func (s *testPlatform) last() line {
	s.t.Helper()
	all := s.lines()
	return all[len(all)-1]
}

// events are the events of the lines from one on, with what distinguishes them.
func (s *testPlatform) events(from int) string {
	s.t.Helper()
	var texts []string
	for _, line := range s.lines()[from:] {
		text := line.Event
		switch {
		case line.Event == "changed":
			text = line.Cause + " " + line.State
		case line.Event == "sent":
			text += " " + line.Kind
		case line.Event == "answered" && line.Lost != "":
			text = "lost"
		case line.Event == "answered":
			text += " " + line.Body
		case line.Doubtful:
			text += " doubtful"
		}
		texts = append(texts, text)
	}
	return strings.Join(texts, "; ")
}
