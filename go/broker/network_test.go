//go:build crashpoints

package broker_test

import (
	"bytes"
	"context"
	"encoding/json"
	"errors"
	"fmt"
	"math/rand"
	"os"
	"path/filepath"
	"strconv"
	"testing"
	"time"

	"pippinterm/broker"
	databases "pippinterm/broker/backend/postgres"
	"pippinterm/broker/postgres"
	"pippinterm/broker/sqlite"
	"pippinterm/internal/crash"
	"pippinterm/internal/pg/pgtest"
	"pippinterm/internal/walks"
	"pippinterm/osb"
)

// The points at which the broker is killed.
var points = []string{
	"begin-next", "begin-written", "mark-next", "mark-written", "work-next", "work-half", "work-done", "end-next",
	"end-written", "operation-next", "operation-done", "finish-next", "finish-written", "wait-next", "wait-written",
	"binding-half", "take-over-next", "take-over-written",
}

// The points that are in a transaction: nothing else happens there.
var inTransaction = map[string]bool{
	"begin-next": true, "mark-next": true, "end-next": true, "take-over-next": true, "finish-next": true,
	"wait-next": true,
}

// A world is one instance with two bindings, their platform and its broker over a real store, a network that does its
// worst, work that goes as it likes, and kills. The broker is one process, or two over the same store, of which each is
// killed by itself. It goes by chance, the same for the same seed, also how the two processes get in each other's way.
type world struct {
	*platform
	t         *testing.T
	seed      int64
	chance    *rand.Rand
	calm      bool
	options   broker.ServiceOptions
	shelf     *shelf
	expected  *sentRequests // of the shelf
	backend   broker.Backend
	catalogue *broker.Catalogue
	open      opener
	processes []*process
	walk      *walk
	point     string   // where the next process that gets there is to be killed
	active    *process // the one that does something now, or nil
	turns     []*turn  // what happens and pauses
	now       *turn    // what happens now, or nil
	*tally
}

// Seen is what has happened in all worlds of a test.
type tally struct {
	kills  map[string]int // at each point
	beside int            // kills of a process while the other one was at work
	pauses int
	waits  int // requests that had to wait for their lock, and then went on
}

func newWorld(t *testing.T, seed int64, open opener, seen *tally, to *walks.Writer) *world {
	w := &world{t: t, seed: seed, chance: rand.New(rand.NewSource(seed)), open: open, tally: seen}
	w.options = broker.ServiceOptions{FirstPoll: seed%3 != 0, WaitForPoll: time.Hour}
	if seed%6 == 1 {
		w.options.WaitForPoll = 0
	}
	w.shelf, w.expected = newShelf(w.mood), newExpected()
	w.shelf.asked = w.checkSent
	w.backend = w.shelf
	if seed%2 == 0 {
		w.backend = knowingShelf{w.shelf}
	}
	w.catalogue = catalogueFor(t, catalogue)
	crash.Hook = w.passPoint
	w.platform = newPlatform(w, sold[seed%int64(len(sold))])
	w.isUnruly = seed%7 == 3
	w.walk = newWalk(w, to)
	w.shelf.worked = w.walk.noteWork
	for count := 1 + seed/4%2; count > 0; count-- {
		it := &process{world: w}
		it.start()
		w.processes = append(w.processes, it)
	}
	w.walk.begin(w.plan, w.options.FirstPoll)
	return w
}

// passPoint is called when a process reaches a point.
func (w *world) passPoint(point string) {
	if w.calm {
		return
	}
	if !inTransaction[point] && w.chance.Intn(4) > 0 {
		w.pause()
	}
	if point == w.point && !w.calm {
		w.kills[point]++
		if len(w.turns) > 1 {
			w.beside++
		}
		w.active.isDead, w.point = true, ""
		panic("killed at " + point) // all that is held is given back, and nothing more is done
	}
}

func (w *world) check(err error) {
	w.t.Helper()
	check(w.t, err)
}

// mood is how the next call of the backend goes: 0 fails before, 1 fails after it was done, 2 is rejected.
func (w *world) mood() int {
	if w.calm {
		return 9
	}
	return w.chance.Intn(16)
}

// checkSent checks that what the backend is given was sent, by the request that has begun the work.
func (w *world) checkSent(r broker.Request) {
	if err := w.expected.check(r, isDeletion(w.look(r.Key).Entry)); err != nil {
		w.t.Fatalf("seed %d: got %v, want no error", w.seed, err)
	}
}

// arrive is a request at a process. If that is killed meanwhile, nobody is answered.
func (w *world) arrive(it outgoingRequest) *numberedAnswer {
	visit := &visit{outgoingRequest: it}
	var given *numberedAnswer
	if !w.use(it.of, visit, func(p *process) { given = &numberedAnswer{answer: it.serve(p.handler)} }) {
		return nil
	}
	w.walk.noteAnswer(visit, given)
	return given
}

// note is called when the platform has done something.
func (w *world) note(it *life, event string) { w.walk.event(it.key, event) }

// deliver sends a request over the network: it may be lost, its answer may be lost, or an old one may arrive first.
func (w *world) deliver(it outgoingRequest) *numberedAnswer {
	how := 9
	if !w.calm {
		how = w.chance.Intn(12)
	}
	switch how {
	case 0, 3:
		return nil
	case 1:
		w.arrive(it)
		return nil
	case 2:
		w.arriveLate()
	}
	return w.arrive(it)
}

func (w *world) arriveLate() {
	if len(w.sent) > 0 {
		w.arrive(w.sent[w.chance.Intn(len(w.sent))])
	}
}

// sweep is what the Sweeper does with each key that is unfinished.
func (w *world) sweep() {
	keys, err := w.processes[0].store.UnfinishedKeys(context.Background())
	w.check(err)
	for _, key := range keys {
		w.use(key, nil, func(p *process) { p.takeUp(key) })
	}
}

// goOnOrBegin has something go on that pauses, or something else happen.
func (w *world) goOnOrBegin() {
	count := len(w.turns)
	if count > 0 && (count == len(w.processes) || w.chance.Intn(10) == 0) {
		w.goOn(w.chance.Intn(count))
		return
	}
	w.begin(w.happen)
}

// any is a life by chance. If a process pauses at one, it is often that.
func (w *world) any() *life {
	it := w.all()[w.chance.Intn(3)]
	for _, p := range w.processes {
		if p.isBusy && w.chance.Intn(2) == 0 {
			it = w.lifeOf(p.key)
		}
	}
	return it
}

// anyPoint is a crash point by chance, often one that is seldom reached: those that only a broker that doesn't wait for a
// Poll reaches, and that of an instance of which a part exists.
func (w *world) anyPoint() string {
	if w.chance.Intn(8) == 0 {
		return "work-half"
	}
	if w.options.WaitForPoll == 0 && w.chance.Intn(2) == 0 {
		return []string{"wait-next", "wait-written"}[w.chance.Intn(2)]
	}
	return points[w.chance.Intn(len(points))]
}

// happen is one thing that happens.
func (w *world) happen() {
	it := w.any()
	switch w.chance.Intn(20) {
	case 0:
		if it.key.IsBinding || w.chance.Intn(4) == 0 {
			w.remove(it)
		}
	case 1:
		w.expire(it)
	case 2, 3, 4, 5:
		w.sweep()
	case 6, 7, 8:
		w.arriveLate()
	case 9, 10, 11:
		w.point = w.anyPoint()
	default:
		w.step(it)
	}
}

// agree is the theorem of docs/binding.md about what is recorded, held and there.
func (w *world) agree() {
	w.t.Helper()
	instance := w.look(w.instance.key)
	w.agrees(w.instance, instance)
	for _, binding := range w.bindings {
		found := w.look(binding.key)
		w.agrees(binding, found)
		if binding.state() == osb.StateReady && string(binding.object) != string(found.Binding) {
			w.t.Fatalf("seed %d: %v: got the credentials %s, want the stored %s", w.seed, binding.key, binding.object,
				found.Binding)
		}
		if binding.state() == osb.StateReady && !w.shelf.isCredentials(binding.key, binding.object) {
			w.t.Fatalf("seed %d: got the credentials %s of %v, which don't work, want those that do", w.seed, binding.object,
				binding.key)
		}
		if !found.isUsed() {
			continue
		}
		if state := w.instance.state(); state == osb.StateGone || state == osb.StateNone {
			w.t.Fatalf("seed %d: %v: got it %v, want it there for its binding %v", w.seed, w.instance.key, state, binding.key)
		}
		if !instance.isReady() || !w.isUnruly && instance.there != broker.Whole {
			w.t.Fatalf("seed %d: %v: got its instance %v, want it ready", w.seed, binding.key, instance)
		}
	}
}

func (w *world) agrees(it *life, found inventory) {
	w.t.Helper()
	if (found.Request != nil) != found.Holding.IsHeld() {
		w.t.Fatalf("seed %d: the request for %v: got %q stored, want one exactly if it is held: %v", w.seed, it.key,
			found.Request, found)
	}
	switch it.state() {
	case osb.StateReady:
		if found.there != broker.Whole || !found.isReady() {
			w.t.Fatalf("seed %d: %v is recorded ready: got %v, want it ready and whole", w.seed, it.key, found)
		}
	case osb.StateGone, osb.StateNone:
		if found.isUsed() {
			w.t.Fatalf("seed %d: %v is recorded %v: got %v, want nothing used", w.seed, it.key, it.state(), found)
		}
	}
}

// inventory is what the broker holds of a key, and what is there.
type inventory struct {
	broker.Entry
	there broker.There
}

func (w *world) look(key broker.Key) inventory {
	w.t.Helper()
	snapshot, err := w.processes[0].store.Read(context.Background(), key)
	w.check(err)
	return inventory{snapshot.Entry, w.shelf.there(key)}
}

func (f inventory) String() string {
	return fmt.Sprintf("%v is there; held is %v, with %s", f.there, f.Holding, f.Binding)
}

func (f inventory) isReady() bool {
	row, isHeld := f.Holding.Row()
	_, isPending := f.Holding.Work()
	return isHeld && !isPending && row.Phase == osb.PhaseReady
}

func (f inventory) isUsed() bool { return f.there != broker.None || f.Holding.IsHeld() }

// beginCalmly is a calm beginning of most runs, in which the instance is created, and sometimes a binding.
func (w *world) beginCalmly() {
	w.calm = w.seed%5 != 0 && w.options.WaitForPoll > 0
	for round := 0; w.calm && round < 4; round++ {
		w.sweep()
		w.step(w.instance)
		if w.seed%5 > 2 {
			w.step(w.bindings[0])
		}
		w.agree()
	}
	w.calm = false
}

// settle lets everything converge, and says what is recorded then.
func (w *world) settle() {
	w.t.Helper()
	w.calm = true
	for round := 0; round < 5; round++ {
		for _, life := range w.all() {
			w.sweep()
			w.step(life)
			w.agree()
		}
	}
}

// enough is how many seeds reach every point.
const enough = 150

func TestAnyNetwork(t *testing.T) {
	seen, to := &tally{kills: map[string]int{}}, walks.NewWriter(t)
	settled := map[osb.State]int{}
	count := seedsOr(enough)
	for seed := int64(0); seed < count; seed++ {
		w := newWorld(t, seed, inFolder(t.TempDir()), seen, to)
		w.run()
		for _, life := range w.all() {
			settled[life.state()]++
		}
		w.removeAll()
	}
	t.Logf("settled: %v; %v", settled, seen)
	for _, point := range points {
		if seen.kills[point] == 0 && count >= enough {
			t.Errorf("got no kill at %s, want one", point)
		}
	}
	if seen.beside == 0 {
		t.Error("got no process killed while the other one was at work, want one")
	}
	if seen.waits == 0 {
		t.Error("got no request that waited for its lock while the other process had it, want one")
	}
}

func (s *tally) String() string {
	return fmt.Sprintf("kills: %v, %d of them beside a process at work; %d pauses; %d requests waited for their lock",
		s.kills, s.beside, s.pauses, s.waits)
}

// seedsOr is how many seeds there are: as many as SEEDS says, or so many.
func seedsOr(count int64) int64 {
	if n, err := strconv.ParseInt(os.Getenv("SEEDS"), 10, 64); err == nil {
		return n
	}
	return count
}

// run lets anything happen, and then everything converge.
func (w *world) run() {
	w.t.Helper()
	w.beginCalmly()
	w.point = points[w.seed%int64(len(points))]
	for happened := 0; happened < 90*len(w.processes); happened++ {
		w.goOnOrBegin()
		w.agree()
	}
	w.calmDown()
	w.agree()
	w.settle()
	for _, life := range w.all() {
		if !w.isUnruly && (life.state() == osb.StatePolling || life.state() == osb.StateCleaning) {
			w.t.Errorf("seed %d: %v: got it %v, want it settled", w.seed, life.key, life.state())
		}
	}
}

// removeAll has everything removed, and ends the processes.
func (w *world) removeAll() {
	w.t.Helper()
	for round := 0; round < 4; round++ {
		for _, binding := range w.bindings {
			w.remove(binding)
		}
		w.remove(w.instance)
		w.settle()
	}
	if !w.isUnruly || w.instance.state() == osb.StateGone {
		w.end()
	}
	w.arriveLate()
	w.agree()
	for _, process := range w.processes {
		w.check(process.close())
	}
	w.walk.end()
}

// end is that everything that was removed is gone.
func (w *world) end() {
	for _, life := range w.all() {
		if state := life.state(); state != osb.StateGone && state != osb.StateNone {
			w.t.Errorf("seed %d: %v was removed: got it %v, want it gone", w.seed, life.key, state)
		}
	}
	if len(w.shelf.things) > 0 {
		w.t.Errorf("seed %d: all was removed: got %v, want nothing", w.seed, w.shelf.things)
	}
}

var sold = []osb.Plan{
	{Service: id("a0"), Plan: id("c1")}, {Service: id("a0"), Plan: id("c2")},
	{Service: id("a0"), Plan: id("c3")}, {Service: id("a0"), Plan: id("c4")},
}

// isCredentials reports whether the object of a binding has the credentials that work.
func (s *shelf) isCredentials(key broker.Key, object []byte) bool {
	s.turn.Lock()
	defer s.turn.Unlock()
	it := s.things[key]
	return it.there == broker.Whole && it.credentials == credentialsOf(object)
}

// A knowingShelf can tell the credentials of what exists.
type knowingShelf struct{ *shelf }

func (k knowingShelf) Credentials(_ context.Context, r broker.Request) (json.RawMessage, error) {
	k.asked(r)
	k.turn.Lock()
	defer k.turn.Unlock()
	return json.Marshal(k.things[r.Key].credentials)
}

// A process is a broker as a process of its own has it: a service with its own connections and locks. The store and the
// resources are those of all processes. It does one thing at a time.
type process struct {
	broker.Silent
	world   *world
	store   broker.Store
	service *broker.Service
	handler *broker.Handler
	close   func() error
	isBusy  bool
	key     broker.Key // at which it is, or was last
	visit   *visit     // the request that it handles, or nil
	isDead  bool       // whether it was killed, and isn't started again yet
}

// An opener opens a store, and the locks of its keys, as another process does. What it returns last closes both.
type opener func() (broker.Store, broker.Locks, func() error, error)

// inFolder has the store in a file of SQLite in a folder, and the locks in a file beside it.
func inFolder(folder string) opener {
	return func() (broker.Store, broker.Locks, func() error, error) {
		locks, err := broker.NewFileLocks(filepath.Join(folder, "locks"))
		if err != nil {
			return nil, nil, nil, err
		}
		store, err := sqlite.Open(context.Background(), filepath.Join(folder, "store"), broker.Silent{})
		if err != nil {
			return nil, nil, nil, err
		}
		return store, locks, store.Close, nil
	}
}

// start starts the process, or the next one after it was killed.
func (p *process) start() {
	w := p.world
	store, locks, closing, err := w.open()
	w.check(err)
	p.store, p.close, p.isDead = store, closing, false
	seen := recordingStore{store, p}
	p.service = broker.NewService(w.catalogue, seen, w.backend, patientLocks{locks, w}, w.options, broker.Silent{})
	p.handler = handlerFor(w.t, p.service)
	p.handler.Observer = p
}

// OnFailure gets what a handler reports.
func (p *process) OnFailure(failure broker.Failure) {
	if failure.Event == "request_failed" {
		p.checkFailure(failure.Key, failure.Err)
	}
}

// checkFailure checks that something fails only if nobody knows how its work went, or if the process was killed.
func (p *process) checkFailure(key broker.Key, err error) {
	if err != nil && !p.isDead && !errors.Is(err, broker.ErrNobodyKnows) {
		p.world.t.Fatalf("seed %d: %v: got %v, want no error of a process that runs", p.world.seed, key, err)
	}
}

// takeUp goes on with a key, as the Sweeper does.
func (p *process) takeUp(key broker.Key) {
	defer func() {
		if what := recover(); what != nil && !p.isDead {
			panic(what)
		}
	}()
	p.checkFailure(key, p.service.TakeUp(context.Background(), key)) // what isn't done is taken up again
}

// A recordingStore reports to a walk what it has committed.
type recordingStore struct {
	broker.Store
	process *process
}

func (r recordingStore) Change(ctx context.Context, key broker.Key, step broker.Step) error {
	var before, after broker.Entry
	isWritten := false
	err := r.Store.Change(ctx, key, func(snapshot broker.Snapshot) (*broker.Entry, error) {
		next, err := step(snapshot)
		if isWritten = err == nil && next != nil && next.Holding != snapshot.Holding; isWritten {
			before, after = snapshot.Entry, *next
		}
		return next, err
	})
	if err == nil && isWritten {
		r.process.world.walk.noteChange(r.process.visit, key, before.Holding, after.Holding)
	}
	return err
}

// ---- what happens at the same time

// A turn is something that happens. It may pause, so that something else happens meanwhile.
type turn struct {
	goes, pauses chan struct{}
	isOver       bool
}

// begin has something happen until it is over or pauses. It isn't called by something that happens.
func (w *world) begin(happen func()) {
	it := &turn{goes: make(chan struct{}), pauses: make(chan struct{})}
	w.turns = append(w.turns, it)
	go func() {
		defer func() { // also after a Fatal
			it.isOver = true
			it.pauses <- struct{}{}
		}()
		<-it.goes
		happen()
	}()
	w.goOn(len(w.turns) - 1)
}

// goOn has the turn at a position happen until it is over or pauses again.
func (w *world) goOn(at int) {
	it := w.turns[at]
	w.now = it
	it.goes <- struct{}{}
	<-it.pauses
	w.now, w.active = nil, nil
	if it.isOver {
		w.turns = append(w.turns[:at], w.turns[at+1:]...)
	}
	if w.t.Failed() {
		w.t.FailNow()
	}
}

// pause has something else happen before this turn goes on. It returns false if nothing else can.
func (w *world) pause() bool {
	if w.now == nil || len(w.processes) == 1 {
		return false
	}
	it, active := w.now, w.active
	w.pauses++
	it.pauses <- struct{}{}
	<-it.goes
	w.active = active
	return true
}

// calmDown ends everything that happens, with no more kills.
func (w *world) calmDown() {
	w.calm = true
	for at := 0; len(w.turns) > 0; at++ {
		w.goOn(at % len(w.turns))
	}
}

// use has a free process do something. If the process was killed meanwhile, it is started again, and use returns false.
func (w *world) use(key broker.Key, visit *visit, do func(*process)) bool {
	at := w.chance.Intn(len(w.processes))
	for w.processes[at].isBusy {
		at = (at + 1) % len(w.processes)
	}
	p := w.processes[at]
	p.isBusy, p.key, p.visit, w.active = true, key, visit, p
	do(p)
	p.isBusy, p.visit, w.active = false, nil, nil
	if !p.isDead {
		return true
	}
	w.check(p.close())
	p.start()
	w.walk.noteCrash(visit)
	return false
}

// patientLocks are waited for while other things happen.
type patientLocks struct {
	broker.Locks
	world *world
}

func (p patientLocks) Lock(ctx context.Context, key broker.Key) (broker.Lock, error) {
	for {
		lock, err := p.TryLock(ctx, key)
		if lock != nil {
			p.world.waits++
		}
		if err != nil || lock != nil {
			return lock, err
		}
		if !p.world.pause() {
			return nil, errors.New("nobody gives back the lock")
		}
	}
}

// A crash point of a backend of one's own is one.
func TestCrashAt(t *testing.T) {
	before, reached := crash.Hook, ""
	defer func() { crash.Hook = before }()
	crash.Hook = func(point string) { reached = point }
	if broker.CrashAt("own-half"); reached != "own-half" {
		t.Errorf("got the crash point %q, want own-half", reached)
	}
}

// TestAnyNetworkOverPostgreSQL has the store in PostgreSQL. The locks are those of sessions, which can be lost.
func TestAnyNetworkOverPostgreSQL(t *testing.T) {
	url, seen, to := pgtest.URL(t), &tally{kills: map[string]int{}}, walks.NewWriter(t)
	for seed := int64(0); seed < seedsOr(12); seed++ {
		name := fmt.Sprintf("osb_network_%d", seed)
		t.Run(name, func(t *testing.T) {
			w := newWorld(t, seed, inPostgreSQL(pgtest.Schema(t, url, name)), seen, to)
			w.run()
			w.removeAll()
		})
	}
	t.Log(seen)
}

// inPostgreSQL has the store and the locks at the server of a URL.
func inPostgreSQL(url string) opener {
	return func() (broker.Store, broker.Locks, func() error, error) {
		ctx := context.Background()
		backend, err := databases.Open(ctx, url, databases.Options{Key: bytes.Repeat([]byte("k"), 32), Sessions: 2})
		if err != nil {
			return nil, nil, nil, err
		}
		store, err := postgres.Open(ctx, url, 2, broker.Silent{})
		if err != nil {
			_ = backend.Close()
			return nil, nil, nil, err
		}
		closing := func() error {
			err := store.Close()
			if failed := backend.Close(); err == nil {
				err = failed
			}
			return err
		}
		return store, backend.Locks(), closing, nil
	}
}
