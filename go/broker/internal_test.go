package broker

import (
	"bytes"
	"context"
	"encoding/json"
	"errors"
	"fmt"
	"strings"
	"testing"
	"time"

	"pippinterm/internal/budget"
	"pippinterm/internal/diff"
	"pippinterm/osb"
)

// SetPatience sets how long a request waits until it may do work.
func (h *Handler) SetPatience(patience time.Duration) { h.patience = patience }

// SetStay sets how long a request is kept, if ids return.
func (s *Service) SetStay(stay time.Duration) { s.stay = stay }

// SetWait sets how long a request waits for the lock of its key.
func (s *Service) SetWait(wait time.Duration) { s.wait = wait }

// TakeUp goes on with a key as a Sweeper does.
func (s *Service) TakeUp(ctx context.Context, key Key) error {
	_, err := s.takeUp(ctx, key)
	return err
}

// SetBudgets sets how many bytes of bodies may be in memory, and how many are parsed at once.
func (h *Handler) SetBudgets(bodies, parsed int) {
	h.bodies, h.parsed = budget.New(bodies), budget.New(parsed)
}

// TakeBody takes bytes of the bodies that a user may have in memory, as a request does while its body is read.
func (h *Handler) TakeBody(user string, bytes int) bool { return h.bodies.Take(user, bytes, 0) }

// Parse takes bytes of the bodies that a user may have parsed at once, as a request does while its body is parsed.
func (h *Handler) Parse(user string, bytes int) bool { return h.parsed.Take(user, bytes, 0) }

// tryLocks are locks whose TryLock a test has.
type tryLocks struct {
	Locks
	try func() error
}

func (l *tryLocks) TryLock(context.Context, Key) (Lock, error) { return nil, l.try() }

// While the locks are silent, one call tries, and the others fail at once.
func TestOneCallTriesSilentLocks(t *testing.T) {
	entered, release, ended := make(chan struct{}), make(chan struct{}), make(chan error, 1)
	locks := &tryLocks{try: func() error { close(entered); <-release; return nil }}
	g := newGate(locks, 4)
	g.fallSilent()
	go func() { _, err := g.tryLock(context.Background(), Key{}); ended <- err }()
	<-entered
	locks.try = func() error { return errors.New("the locks were asked") }
	if _, err := g.tryLock(context.Background(), Key{}); !errors.Is(err, errSilent) {
		t.Errorf("a further call: got %v, want %v", err, errSilent)
	}
	close(release)
	diff.NoError(t, <-ended, "the call that tries")
}

// Once a call has been answered, calls run side by side again. One that fails changes nothing.
func TestLocksThatAnswerAgain(t *testing.T) {
	g := newGate(&tryLocks{try: func() error { return errors.New("it failed") }}, 4)
	g.fallSilent()
	for _, test := range []struct {
		err     error
		isProbe bool
	}{{errors.New("it failed"), true}, {nil, false}} {
		g.locks = &tryLocks{try: func() error { return test.err }}
		if _, err := g.tryLock(context.Background(), Key{}); err != test.err {
			t.Errorf("the call that tries: got %v, want %v", err, test.err)
		}
		isProbe, ok := g.enter()
		if isProbe != test.isProbe || !ok {
			t.Errorf("enter after %v: got %t, %t, want %t, true", test.err, isProbe, ok, test.isProbe)
		}
		g.leave(isProbe, false)
	}
}

// A call that waits for a slot gets it, and gives it back. A busy machine may take longer than a call waits, so it
// tries more than once.
func TestAPlaceThatWasWaitedFor(t *testing.T) {
	var err error
	for tries := 0; tries < 20; tries++ {
		g := newGate(&tryLocks{try: func() error { return nil }}, 1)
		g.slots <- struct{}{}
		time.AfterFunc(50*time.Millisecond, func() { <-g.slots })
		if _, err = g.tryLock(context.Background(), Key{}); err == nil {
			if count := len(g.slots); count > 0 {
				t.Errorf("got %d slots that are taken, want 0", count)
			}
			return
		}
	}
	t.Errorf("got %v, want a slot", err)
}

// The member is added at the end, and all else stays byte for byte.
func TestWithStore(t *testing.T) {
	for document, want := range map[string]string{
		`{}`:                                     `{"x-osb-store":"an id"}`,
		" {\n} \n":                               ` {"x-osb-store":"an id"}`,
		`{"services":[ ],"b":1.0,"a":"\u00e4}"}`: `{"services":[ ],"b":1.0,"a":"\u00e4}","x-osb-store":"an id"}`,
		"{ \"a\" : {} \n}\n":                     `{ "a" : {},"x-osb-store":"an id"}`,
	} {
		t.Run(document, func(t *testing.T) {
			got := withStore([]byte(document), "an id")
			var read map[string]any
			if err := json.Unmarshal(got, &read); err != nil || string(got) != want || read["x-osb-store"] != "an id" {
				t.Errorf("got %q, %v, want %q", got, err, want)
			}
		})
	}
	if got := withStore([]byte(`{}`), "a\"<"); !bytes.Contains(got, []byte(`"a\"\u003c"`)) {
		t.Errorf("an id with a quote: got %s, want it escaped", got)
	}
}

// Both documents of a catalogue name the store, and the catalogue that they are made of stays as it is. A document that
// names a store itself is rejected: it would be that of another broker.
func TestOfStore(t *testing.T) {
	const document = `{"services": [{"id": "s", "name": "n", "description": "d", "bindable": false, "plans": [
		{"id": "p", "name": "n", "description": "d", "x-osb-asynchronous": false}]}]}`
	without := diff.Value(NewCatalogue([]byte(document), Abilities{}))(t)
	of, err := without.OfStore("the-id")
	diff.Must(t, err)
	for _, text := range [][]byte{of.document, of.returning, of.Document()} {
		if bytes.Count(text, []byte(`"x-osb-store":"the-id"`)) != 1 {
			t.Errorf("got %s, want the id once", text)
		}
	}
	if bytes.Contains(without.Document(), []byte("x-osb-store")) || bytes.Contains(without.returning, []byte("x-osb-store")) {
		t.Errorf("the catalogue without a store: got %s, want no id in it", without.Document())
	}
	_, err = without.OfStore("two\r\nlines")
	diff.Error(t, err, "an id of two lines")
	named := strings.Replace(document, "{", `{"x-osb-store": "mine", `, 1)
	if _, err := NewCatalogue([]byte(named), Abilities{}); !errors.Is(err, ErrCatalogueMember) ||
		!strings.Contains(err.Error(), "x-osb-store") {
		t.Errorf("a document that names a store: got %v, want %v", err, ErrCatalogueMember)
	}
}

// The body of an answer in words of this package is written once.
func TestBodiesAreWrittenOnce(t *testing.T) {
	h := &Handler{}
	for _, sentence := range []string{"", "It can't be done now."} {
		t.Run(fmt.Sprintf("%q", sentence), func(t *testing.T) {
			it := wording{osb.Answer{Status: 500, Body: osb.BodyOtherError}, sentence}
			first, err := h.wordingBody(it)
			if err != nil || !strings.Contains(string(first), sentence) {
				t.Fatalf("got %s and %v, want an error with %q", first, err, sentence)
			}
			if second, err := h.wordingBody(it); err != nil || &second[0] != &first[0] {
				t.Errorf("%q once more: got %s and %v, want the body that was written before", sentence, second, err)
			}
		})
	}
}

// The pauses double up to the longest, less a random part of at most a half.
func TestPauses(t *testing.T) {
	s := newSetbacks(time.Second, 10*time.Second)
	for times, want := range []time.Duration{1, 2, 4, 8, 10, 10, 10} {
		t.Run(fmt.Sprint(times), func(t *testing.T) {
			seen := map[time.Duration]bool{}
			for n := 0; n < 100; n++ {
				got := s.pause(times)
				seen[got] = true
				if got > want*time.Second || got < want*time.Second/2 {
					t.Errorf("the pause: got %v, want %v to %v", got, want*time.Second/2, want*time.Second)
				}
			}
			if len(seen) < 50 {
				t.Errorf("got %d pauses, want random ones", len(seen))
			}
		})
	}
	if got := newSetbacks(time.Hour, 0).pause(3); got > DefaultLongestPause {
		t.Errorf("the pause: got %v, want %v at most", got, DefaultLongestPause)
	}
}

func keyOfTest(n int) Key {
	number, err := osb.IDOfText(fmt.Sprint("n", n))
	if err != nil {
		panic(err)
	}
	return osb.InstanceKey(number)
}

// A key rests only if its work goes on. It is forgotten when its work succeeds, and some time after its last failure.
func TestSetbacks(t *testing.T) {
	s := newSetbacks(time.Hour, time.Hour)
	one, other, third := keyOfTest(1), keyOfTest(2), keyOfTest(3)
	s.add(one, backendFailed, true)
	s.add(other, backendFailed, false)
	s.add(third, backendUnused, true)
	for key, want := range map[Key][2]bool{one: {true, true}, other: {true, false}, third: {}} {
		t.Run(key.String(), func(t *testing.T) {
			if s.isFailing(key) != want[0] || s.rests(key) != want[1] {
				t.Errorf("%v: got failing %v and resting %v, want %v", key, s.isFailing(key), s.rests(key), want)
			}
		})
	}
	s.add(one, backendUnused, true)
	s.add(other, backendSucceeded, false)
	if !s.isFailing(one) || s.isFailing(other) {
		t.Error("got other keys that fail, want only those that haven't succeeded since")
	}
	ago := time.Now().Add(-2 * forgetAfter)
	s.of[one], s.of[other], s.of[third] = setback{1, ago}, setback{1, ago}, setback{1, time.Now().Add(time.Minute)}
	s.forget(map[Key]bool{other: false})
	if s.isFailing(one) || !s.isFailing(other) || !s.isFailing(third) {
		t.Error("got other keys that fail, want what waits or rests, and not what failed long ago")
	}
	for n := 0; n < mostSetbacks+10; n++ {
		s.add(keyOfTest(n), backendFailed, true)
	}
	diff.Equal(t, len(s.of), mostSetbacks, "keys known")
}

// When a run is slow follows what runs take that succeed, and no others.
func TestSlowFollowsWhatRunsTake(t *testing.T) {
	p := newSlots(1)
	for _, test := range []struct {
		runs            int
		took            time.Duration
		went            backendResult
		shortest, after time.Duration
	}{
		{1, 100 * time.Millisecond, backendSucceeded, 400 * time.Millisecond, time.Second},
		{30, time.Minute, backendFailed, 400 * time.Millisecond, time.Second},
		{30, time.Second, backendSucceeded, 3 * time.Second, longestSlow},
		{30, time.Minute, backendSucceeded, longestSlow, longestSlow},
		{100, time.Millisecond, backendSucceeded, shortestSlow, time.Second},
	} {
		for n := 0; n < test.runs; n++ {
			r := p.begin(keyOfTest(n), false)
			r.begun, r.timer = r.begun.Add(-test.took), time.NewTimer(0)
			p.end(r, test.went)
		}
		if after := p.slowAfter(); after < test.shortest || after > test.after {
			t.Errorf("%d runs of %v, %v: got slow after %v, want from %v to %v",
				test.runs, test.took, test.went, after, test.shortest, test.after)
		}
	}
}

// Of the keys that have failed, the one that has failed the least often comes first, and otherwise the one that waits
// for longest.
func TestFewestFailuresFirst(t *testing.T) {
	s := NewSweeper(&Service{}, Silent{})
	s.slots, s.setbacks.shortest = newSlots(20), time.Second
	for n, times := range []int{3, 3, 1, 2, 0, 1, 0} {
		key := keyOfTest(n)
		s.failing = append(s.failing, key)
		for ; times > 0; times-- {
			s.setbacks.add(key, backendFailed, true)
		}
	}
	for _, n := range []int{4, 6, 2, 5, 3, 0, 1} {
		if run, _ := s.take(); run.key != keyOfTest(n) {
			t.Errorf("got %v, want the key %d", run.key, n)
		}
	}
	diff.Equal(t, len(s.failing), 0, "keys that wait")
}

// A snapshotStore has one snapshot.
type snapshotStore struct {
	Store    // nothing else is called
	snapshot Snapshot
}

func (s snapshotStore) Read(context.Context, Key) (Snapshot, error) { return s.snapshot, nil }

// If a row has what a Provision asks for by the time at which the sentence of its 409 is chosen, nobody knows why it
// was rejected.
func TestSentenceOfAConflictThatIsOver(t *testing.T) {
	of := osb.Request{Service: osb.ID{1}, Plan: osb.ID{2}, ID: osb.ID{3}}
	held, _, err := osb.Holding{}.Begin(osb.ModeSync, of, osb.Rules{Attributes: osb.Digest{4}})
	diff.Must(t, err)
	held, _, err = held.End(osb.ModeSync, osb.OutcomeDone)
	diff.Must(t, err)
	h := &Handler{ctx: context.Background()}
	h.service = &Service{store: snapshotStore{snapshot: Snapshot{Entry: Entry{Holding: held}}}}
	visit := Visit{Asked: osb.Asked{Service: of.Service, Plan: of.Plan}, Attributes: osb.Digest{4}}
	diff.Equal(t, h.conflictSentence(visit, nounOf(visit.Key)), idTaken, "the sentence")
	visit.Attributes = osb.Digest{5}
	diff.Contains(t, h.conflictSentence(visit, nounOf(visit.Key)), "other parameters", "the sentence of another one")
}
