package platform

import (
	"context"
	"encoding/json"
	"errors"
	"fmt"
	"sort"
	"strings"
	"sync"
	"time"

	"pippinterm/osb"
)

// sold is the catalogue of a seller: a plan for each mode of instances and of bindings.
const sold = `{"x-osb-tombstones": true, "services": [{
	"id": "00000000-0000-0000-0000-0000000000a0", "name": "shelf", "description": "A shelf", "bindable": true,
	"bindings_retrievable": true, "plans": [
	{"id": "00000000-0000-0000-0000-0000000000c1", "name": "now", "description": "all at once"},
	{"id": "00000000-0000-0000-0000-0000000000c2", "name": "later", "description": "all later",
		"x-osb-asynchronous": true, "x-osb-asynchronous-bindings": true},
	{"id": "00000000-0000-0000-0000-0000000000c3", "name": "bind-later", "description": "bindings later",
		"x-osb-asynchronous-bindings": true},
	{"id": "00000000-0000-0000-0000-0000000000c4", "name": "make-later", "description": "instances later",
		"x-osb-asynchronous": true}]}]}`

// planNames are those of the plans that are sold.
var planNames = []string{"now", "later", "bind-later", "make-later"}

// A seller is a broker: what it holds is decided by the proved library, and what exists is in memory.
type seller struct {
	mu       sync.Mutex
	mood     func() int // how the next work goes: 0 and 2 are rejections, 1 fails before, all else is done
	isSlow   func() bool
	first    bool // whether it has the rule of the first Poll
	holdings map[Key]osb.Holding
	requests map[Key]osb.Request // whose work is pending
	things   map[Key]string      // what exists, with its credentials
	objects  map[Key][]byte      // the object of a binding that is ready
	made     int
	// note gets each event of the network, by its words, and whether it gives an answer.
	note func(key Key, event string, isAnswered bool)
}

func newSeller() *seller {
	return &seller{
		mood: func() int { return 9 }, isSlow: func() bool { return false }, holdings: map[Key]osb.Holding{},
		requests: map[Key]osb.Request{}, things: map[Key]string{}, objects: map[Key][]byte{},
		note: func(Key, string, bool) {},
	}
}

func (s *seller) modeOf(key Key, plan osb.ID) osb.Mode {
	later := map[bool]string{false: "c2 c4", true: "c2 c3"}[key.IsBinding]
	if text := plan.String(); strings.Contains(later, text[len(text)-2:]) {
		return osb.ModeAsync
	}
	return osb.ModeSync
}

// A reply is an answer over HTTP.
type reply struct {
	status int
	body   []byte
}

// handle is a request at the broker. It returns nil if the work goes on for longer than the platform waits.
func (s *seller) handle(out Outgoing) *reply {
	s.mu.Lock()
	defer s.mu.Unlock()
	key := out.Entry.Key
	if out.IsFetch {
		return s.fetch(key)
	}
	held, instance := s.holdings[key], s.holdings[osb.InstanceKey(key.Instance)]
	mode, rules := s.modeOf(key, out.Request.Plan), osb.Rules{FirstPoll: s.first}
	var begun osb.Begun
	var err error
	if key.IsBinding {
		held, begun, err = held.BeginBinding(instance, mode, out.Request, rules)
	} else {
		held, begun, err = held.BeginIf(mode, out.Request, rules, !s.anyHeld(key.Instance))
	}
	must(err)
	s.holdings[key] = held
	s.note(key, "arrive", begun.Work == osb.WorkNone)
	if begun.Work == osb.WorkNone {
		return s.write(key, out.Request.Kind, begun.Answer)
	}
	s.requests[key] = out.Request
	if s.isSlow() {
		return nil
	}
	return s.work(key)
}

func (s *seller) anyHeld(instance osb.ID) bool {
	for key, holding := range s.holdings {
		if key.IsBinding && key.Instance == instance && holding.IsHeld() {
			return true
		}
	}
	return false
}

// work does the pending work of a key to its end, and returns the answer.
func (s *seller) work(key Key) *reply {
	request := s.requests[key]
	delete(s.requests, key)
	mode, outcome, word := s.modeOf(key, request.Plan), osb.OutcomeDone, "done"
	switch mood := s.mood(); {
	case mood == 0 && request.Kind == osb.KindProvision:
		outcome, word = osb.OutcomeRefused400, "refused 400"
	case mood == 1:
		outcome, word = osb.OutcomeBefore, "before"
	case mood == 2 && request.Kind == osb.KindProvision:
		outcome, word = osb.OutcomeRefused422, "refused 422"
	case mode == osb.ModeSync:
		s.change(key, request.Kind == osb.KindProvision)
	}
	held, answer, err := s.holdings[key].End(mode, outcome)
	must(err)
	s.holdings[key] = held
	s.note(key, "end "+word, true)
	return s.write(key, request.Kind, answer)
}

// object is what a Bind of this key was answered with.
func (s *seller) object(key Key) string {
	s.mu.Lock()
	defer s.mu.Unlock()
	return string(s.objects[key])
}

// change has a resource exist, or not.
func (s *seller) change(key Key, exists bool) {
	delete(s.things, key)
	delete(s.objects, key)
	if !exists {
		s.note(key, "work absent", false)
		return
	}
	s.made++
	s.things[key] = fmt.Sprintf("token %d", s.made)
	s.objects[key] = []byte(fmt.Sprintf(`{"credentials": {"token": "%s"}}`, s.things[key]))
	event := "work whole"
	if key.IsBinding {
		event += fmt.Sprint(" ", s.made)
	}
	s.note(key, event, false)
}

// goOn does what is pending, and ends the operations that run. One in so many fails.
func (s *seller) goOn() {
	s.mu.Lock()
	defer s.mu.Unlock()
	for _, key := range keysOf(s.holdings) {
		if _, isPending := s.requests[key]; isPending {
			s.work(key)
		}
		it := s.holdings[key]
		row, isHeld := it.Row()
		if !isHeld || row.Phase != osb.PhaseMaking && row.Phase != osb.PhaseDeleting {
			continue
		}
		ok := s.mood() != 0
		if ok {
			s.change(key, row.Phase == osb.PhaseMaking)
		}
		held, err := it.Finish(ok)
		must(err)
		s.holdings[key] = held
		s.note(key, map[bool]string{true: "finish ok", false: "finish failed"}[ok], false)
	}
}

// keysOf are the keys of a map, in an order.
func keysOf[V any](of map[Key]V) []Key {
	keys := make([]Key, 0, len(of))
	for key := range of {
		keys = append(keys, key)
	}
	sort.Slice(keys, func(a, b int) bool { return keys[a].String() < keys[b].String() })
	return keys
}

func (s *seller) fetch(key Key) *reply {
	answer, err := s.holdings[key].Fetch()
	must(err)
	if answer.Status == 200 {
		s.note(key, "fetch", true)
		return &reply{200, s.objects[key]}
	}
	return &reply{int(answer.Status), []byte(`{}`)}
}

func (s *seller) write(key Key, kind osb.Kind, answer osb.Answer) *reply {
	if key.IsBinding && kind == osb.KindProvision && (answer.Status == 200 || answer.Status == 201) {
		return &reply{int(answer.Status), s.objects[key]}
	}
	operation := "task " + kind.String()
	body, err := osb.WriteDescribedAnswer(answer, &operation, nil)
	must(err)
	return &reply{int(answer.Status), body}
}

// incoming is a reply as a Client reads it.
func (r *reply) incoming(out Outgoing) (in Incoming) {
	if r == nil {
		return Incoming{Lost: fmt.Errorf("no answer came")}
	}
	in.Status = r.status
	if in.Details, in.Lost = osb.ReadDetails(r.body); in.Lost != nil {
		return in
	}
	if out.IsFetch {
		in.Binding, in.Lost = osb.ReadFetched(uint16(r.status), r.body)
		return in
	}
	if in.Answer, in.Lost = osb.ReadAnswer(out.Request.Kind, uint16(r.status), r.body); in.Lost != nil {
		return in
	}
	in.Operation, in.Metadata = in.Details.Operation, in.Details.Metadata
	if out.Entry.Key.IsBinding {
		in.Binding, _ = osb.ReadBinding(out.Request.Kind, uint16(r.status), r.body)
	}
	return in
}

// is what is held and what exists of a key, as a text.
func (s *seller) is(key Key) string {
	held := s.holdings[key]
	row, isHeld := held.Row()
	_, isPending := held.Work()
	phase := "no row"
	if isHeld {
		phase = row.Phase.String()
	}
	return fmt.Sprintf("%s, pending %v, exists %q", phase, isPending, s.things[key])
}

// isThere reports whether all of a key exists and nothing is pending, and isNone whether nothing exists or is held.
func (s *seller) isThere(key Key) bool {
	row, _ := s.holdings[key].Row()
	_, isPending := s.holdings[key].Work()
	return row.Phase == osb.PhaseReady && !isPending && strings.HasPrefix(s.things[key], "token")
}

func (s *seller) isNone(key Key) bool { return !s.holdings[key].IsHeld() && s.things[key] == "" }

// A seal is a Vault that hides nothing: it binds a text to its context.
type seal struct{}

func (seal) Seal(plain []byte, context string) ([]byte, error) {
	return json.Marshal([]string{context, string(plain)})
}

func (seal) Open(sealed []byte, context string) ([]byte, error) {
	var read []string
	if err := json.Unmarshal(sealed, &read); err != nil || len(read) != 2 || read[0] != context {
		return nil, fmt.Errorf("it wasn't sealed under %q", context)
	}
	return []byte(read[1]), nil
}

func (seal) Fingerprint() string { return "seal" }

func must(err error) {
	if err != nil {
		panic(err)
	}
}

// NewMemory is a Store in memory by a clock that a test sets, for the tests that need package client.
func NewMemory(clock func() time.Time) Store { return newMemory(clock) }

// A memory is a Store in memory. It locks rows as a database does, keeps whole milliseconds, and can be stopped between
// any two statements.
type memory struct {
	Store // nil: what it doesn't have is called by nobody here
	clock func() time.Time
	// between is called before a transaction, and between two statements: without a lock of the memory, but with those
	// of the rows.
	between func(point string, key Key)
	// beforeChange is called before a broker is changed, without a lock.
	beforeChange func(name string)

	mu      sync.Mutex
	ended   *sync.Cond // a transaction has ended
	owners  map[Key]*transaction
	rows    map[Key]Entry
	lives   map[Key][]Stay
	brokers map[string]Broker
	away    error // why nothing can be read or written, or nil
	doubt   error // the error of the next commit, though it is written
	full    error // why nothing can be written, though all can be read, or nil
	told    string
	// unreadable are rows that can't be read.
	unreadable map[Key]bool
}

var errUnreadable = errors.New("it can't be read")

func newMemory(clock func() time.Time) *memory {
	m := &memory{
		clock: clock, between: func(string, Key) {}, beforeChange: func(string) {}, owners: map[Key]*transaction{},
		rows: map[Key]Entry{}, lives: map[Key][]Stay{}, brokers: map[string]Broker{},
	}
	m.ended = sync.NewCond(&m.mu)
	return m
}

// A transaction has locks, and writes that nobody else sees yet.
type transaction struct {
	*memory
	writes map[Key]Entry
	stays  map[Key]Stay
	broken bool // the server has ended it
}

func (m *memory) begin() *transaction {
	return &transaction{memory: m, writes: map[Key]Entry{}, stays: map[Key]Stay{}}
}

// lock locks a row, and returns whether it has: if it isn't to wait, another transaction may have it.
func (t *transaction) lock(key Key, waits bool) bool {
	for t.owners[key] != nil && t.owners[key] != t {
		if !waits {
			return false
		}
		t.ended.Wait()
	}
	t.owners[key] = t
	return true
}

func (t *transaction) read(key Key) (Entry, bool) {
	if e, ok := t.writes[key]; ok {
		return e, true
	}
	e, ok := t.rows[key]
	return e, ok
}

// keys are those of all rows that the transaction sees, in an order.
func (t *transaction) keys() []Key {
	found := []Key{}
	for key := range t.rows {
		found = append(found, key)
	}
	for key := range t.writes {
		if _, isOld := t.rows[key]; !isOld {
			found = append(found, key)
		}
	}
	sort.Slice(found, func(a, b int) bool { return found[a].String() < found[b].String() })
	return found
}

// held is what a step reads. The row is locked.
func (t *transaction) snapshot(key Key) Snapshot {
	e, _ := t.read(key)
	snapshot := Snapshot{Entry: e}
	if key.IsBinding {
		if instance, ok := t.read(osb.InstanceKey(key.Instance)); ok {
			snapshot.Instance = &instance
		}
		return snapshot
	}
	snapshot.AllGone = func() (bool, error) {
		t.mu.Lock()
		defer t.mu.Unlock()
		for _, other := range t.keys() {
			e, _ := t.read(other)
			if other.IsBinding && other.Instance == key.Instance && e.IsSent && e.State != Gone && e.State != Abandoned {
				return false, nil
			}
		}
		return true, nil
	}
	return snapshot
}

// lockAll locks what a step of a key reads: the instance first.
func (t *transaction) lockAll(key Key, waits bool) bool {
	return (!key.IsBinding || t.lock(osb.InstanceKey(key.Instance), waits)) && t.lock(key, waits)
}

func (t *transaction) write(before Entry, change *Change, now time.Time) error {
	if next := change.Next; next != nil {
		if _, isUsed := t.read(next.Key); isUsed {
			return ErrUsed
		}
		t.writes[next.Key] = whole(*next)
	}
	key := before.Key
	if change.Entry.State != before.State {
		t.stays[key] = Stay{before.State, before.Since}
	}
	t.writes[key] = whole(change.Entry)
	for _, other := range t.keys() {
		e, _ := t.read(other)
		switch {
		case change.RemoveBindings && other.IsBinding && other.Instance == key.Instance &&
			e.State != Gone && e.State != Withdrawn && e.State != Abandoned:
			t.lock(other, true)
			e, _ = t.read(other)
			e.Removal, e.Due = Removed, now
			t.writes[other] = whole(e)
		case change.WakeInstance && other == osb.InstanceKey(key.Instance) && e.Removal != NotRemoved:
			e.Due = now
			t.writes[other] = whole(e)
		}
	}
	return nil
}

// commit writes it all, unless the server has ended the transaction, or is away.
func (t *transaction) commit() error {
	if t.broken || t.away != nil {
		return ErrAway
	}
	if t.full != nil && len(t.writes) > 0 {
		return t.full
	}
	for key, e := range t.writes {
		t.rows[key] = e
	}
	for key, stay := range t.stays {
		t.lives[key] = append(t.lives[key], stay)
	}
	doubt := t.doubt
	t.doubt = nil
	return doubt
}

// end gives back the locks.
func (t *transaction) end() {
	for key, owner := range t.owners {
		if owner == t {
			delete(t.owners, key)
		}
	}
	t.ended.Broadcast()
}

// breakAll ends all transactions that have begun, as a server does that has waited for too long.
func (m *memory) breakAll() {
	m.mu.Lock()
	defer m.mu.Unlock()
	for _, owner := range m.owners {
		owner.broken = true
	}
	m.owners = map[Key]*transaction{}
	m.ended.Broadcast()
}

func whole(e Entry) Entry {
	for _, at := range []*time.Time{
		&e.Since, &e.SentUntil, &e.PolledSince, &e.Due, &e.Lease.Until, &e.Last.At, &e.Failure.At,
	} {
		*at = at.Truncate(time.Millisecond)
	}
	return e
}

func (m *memory) Insert(_ context.Context, entry Entry, check func(Snapshot) error) error {
	m.mu.Lock()
	defer m.mu.Unlock()
	if m.away != nil {
		return m.away
	}
	if _, isThere := m.brokers[entry.Broker]; !isThere {
		return ErrUnknown
	}
	t := m.begin()
	defer t.end()
	if err := t.insert(entry, check); err != nil {
		return err
	}
	return t.commit()
}

// insert writes a row, unless there is one.
func (t *transaction) insert(entry Entry, check func(Snapshot) error) error {
	t.lockAll(entry.Key, true)
	snapshot := t.snapshot(entry.Key)
	if entry.Key.IsBinding && snapshot.Instance == nil {
		return ErrUnknown
	}
	if _, isUsed := t.read(entry.Key); isUsed {
		return ErrUsed
	}
	if err := check(snapshot); err != nil {
		return err
	}
	t.writes[entry.Key] = whole(entry)
	return nil
}

// isDue reports whether a row is one to claim.
func isDue(e Entry, now time.Time, names []string) bool {
	isNamed := false
	for _, name := range names {
		isNamed = isNamed || name == e.Broker
	}
	return isNamed && !e.Due.IsZero() && !now.Before(e.Due) && !now.Before(e.Lease.Until)
}

func (m *memory) Claim(_ context.Context, brokers []string, most int, step Step) (claimed []ClaimedRow, err error) {
	m.between("claim-begin", Key{})
	m.mu.Lock()
	defer m.mu.Unlock()
	if m.away != nil {
		return nil, m.away
	}
	t := m.begin()
	defer t.end()
	claimed = t.claim(m.clock(), brokers, most, step)
	m.outside(func() { m.between("claim-commit", Key{}) })
	return claimed, t.commit()
}

// claim has a step decide on each row that is due and that can be locked.
func (t *transaction) claim(now time.Time, brokers []string, most int, step Step) (claimed []ClaimedRow) {
	keys := t.keys()
	sort.SliceStable(keys, func(a, b int) bool { return t.rows[keys[a]].Due.Before(t.rows[keys[b]].Due) })
	for _, key := range keys {
		e, _ := t.read(key)
		if len(claimed) == most || !isDue(e, now, brokers) || !t.lockAll(key, false) {
			continue
		}
		err := errUnreadable
		if !t.unreadable[key] {
			err = t.runStep(t, now, key, "claim", step)
		}
		if err != nil {
			e.Due = now.Add(FailedRest)
			t.writes[key] = whole(e)
		}
		claimed = append(claimed, ClaimedRow{Key: key, Err: err})
	}
	return claimed
}

// runStep has a step decide on a row that is locked.
func (m *memory) runStep(t *transaction, now time.Time, key Key, name string, step Step) error {
	snapshot := t.snapshot(key)
	var change *Change
	var err error
	m.outside(func() {
		m.between(name+"-read", key)
		change, err = step(now, snapshot)
		m.between(name+"-decided", key)
	})
	if err != nil || change == nil {
		return err
	}
	return t.write(snapshot.Entry, change, now)
}

// outside calls without the lock of the memory, also if the call panics.
func (m *memory) outside(call func()) {
	m.mu.Unlock()
	defer m.mu.Lock()
	call()
}

func (m *memory) Change(_ context.Context, key Key, step Step) error {
	m.between("change-begin", key)
	m.mu.Lock()
	defer m.mu.Unlock()
	if m.away != nil {
		return m.away
	}
	t := m.begin()
	defer t.end()
	if _, isThere := m.rows[key]; !isThere {
		return ErrUnknown
	}
	t.lockAll(key, true)
	if m.unreadable[key] {
		return errUnreadable
	}
	if err := m.runStep(t, m.clock(), key, "change", step); err != nil {
		return err
	}
	m.outside(func() { m.between("change-commit", key) })
	return t.commit()
}

func (m *memory) Free(_ context.Context, worker string) error {
	m.mu.Lock()
	defer m.mu.Unlock()
	for key, e := range m.rows {
		if e.Lease.Worker == worker {
			e.Lease, e.Due = Lease{}, m.clock()
			m.rows[key] = whole(e)
		}
	}
	return nil
}

func (m *memory) Only(context.Context, string) (func(), <-chan struct{}, error) {
	return func() {}, make(chan struct{}), nil
}

func (m *memory) HasWorkers(context.Context) (bool, error) { return false, nil }

func (m *memory) Read(_ context.Context, key Key) (Entry, error) {
	m.mu.Lock()
	defer m.mu.Unlock()
	e, isThere := m.rows[key]
	if !isThere {
		return Entry{}, ErrUnknown
	}
	return m.show(e), nil
}

// show is a row as it is read to be shown.
func (m *memory) show(e Entry) Entry {
	if m.unreadable[e.Key] {
		e.Record, e.IsSent, e.Unreadable = osb.Record{}, false, errUnreadable.Error()
	}
	return e
}

func (m *memory) List(context.Context, Filter) ([]Entry, error) {
	m.mu.Lock()
	defer m.mu.Unlock()
	found := []Entry{}
	for _, key := range m.begin().keys() {
		found = append(found, m.show(m.rows[key]))
	}
	return found, nil
}

func (m *memory) ReadAll(_ context.Context, keys []Key) (found []Entry, err error) {
	m.mu.Lock()
	defer m.mu.Unlock()
	for _, key := range keys {
		if e, ok := m.rows[key]; ok {
			found = append(found, m.show(e))
		}
	}
	return found, nil
}

func (m *memory) Positions(ctx context.Context, filter Filter) (positions []Position, err error) {
	rows, err := m.List(ctx, filter)
	for _, e := range rows {
		positions = append(positions, Position{State: e.State, Since: e.Since, Key: e.Key})
	}
	return positions, err
}

func (m *memory) Life(_ context.Context, key Key) ([]Stay, error) {
	m.mu.Lock()
	defer m.mu.Unlock()
	return append([]Stay(nil), m.lives[key]...), nil
}

func (m *memory) NextDue(_ context.Context, brokers []string) (due, now time.Time, err error) {
	m.mu.Lock()
	defer m.mu.Unlock()
	if m.away != nil {
		return due, now, m.away
	}
	now = m.clock()
	for _, e := range m.rows {
		for _, broker := range brokers {
			isFree := broker == e.Broker && !e.Due.IsZero() && !now.Before(e.Lease.Until)
			if isFree && (due.IsZero() || e.Due.Before(due)) {
				due = e.Due
			}
		}
	}
	return due, now, nil
}

func (m *memory) Brokers(context.Context) ([]Broker, error) {
	m.mu.Lock()
	defer m.mu.Unlock()
	if m.away != nil {
		return nil, m.away
	}
	found := []Broker{}
	for _, broker := range m.brokers {
		found = append(found, broker)
	}
	sort.Slice(found, func(a, b int) bool { return found[a].Name < found[b].Name })
	return found, nil
}

func (m *memory) AddBroker(_ context.Context, broker Broker) error {
	m.mu.Lock()
	defer m.mu.Unlock()
	if _, isThere := m.brokers[broker.Name]; isThere {
		return ErrUsed
	}
	m.brokers[broker.Name] = broker
	return nil
}

func (m *memory) ChangeBroker(_ context.Context, name string, change func(Broker) (*Broker, error)) error {
	m.beforeChange(name)
	m.mu.Lock()
	defer m.mu.Unlock()
	if m.away != nil {
		return m.away
	}
	broker, isThere := m.brokers[name]
	if !isThere {
		return ErrUnknown
	}
	next, err := change(broker)
	if err == nil && next != nil {
		m.brokers[name] = *next
	}
	return err
}

func (m *memory) DropBroker(_ context.Context, name string) error {
	m.mu.Lock()
	defer m.mu.Unlock()
	if _, isThere := m.brokers[name]; !isThere {
		return ErrUnknown
	}
	for _, e := range m.rows {
		if e.Broker == name {
			return ErrUsed
		}
	}
	delete(m.brokers, name)
	return nil
}

func (m *memory) Fingerprint(_ context.Context, fingerprint string) (string, error) {
	m.mu.Lock()
	defer m.mu.Unlock()
	if m.told == "" {
		m.told = fingerprint
	}
	return m.told, nil
}

func (m *memory) ReplaceFingerprint(_ context.Context, before, after string) error {
	m.mu.Lock()
	defer m.mu.Unlock()
	if m.told != before || before == "" {
		return ErrUnknown
	}
	m.told = after
	return nil
}

func (m *memory) Ready(context.Context) error { return m.away }

func (m *memory) Close() error { return nil }

// setAway has the database be away, or back.
func (m *memory) setAway(err error) {
	m.mu.Lock()
	defer m.mu.Unlock()
	m.away = err
}

// setFull has each write fail, or none.
func (m *memory) setFull(err error) {
	m.mu.Lock()
	defer m.mu.Unlock()
	m.full = err
}

// id is the id with these last digits.
func id(last string) osb.ID {
	return osb.MustParseID("00000000-0000-0000-0000-000000000000"[:36-len(last)] + last)
}
