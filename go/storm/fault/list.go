package fault

import (
	"bufio"
	"context"
	"fmt"
	"hash/fnv"
	"io"
	"math/rand"
	"sort"
	"strconv"
	"strings"
	"sync"
)

// An Injection is a fault of a list: which kind befalls which request.
type Injection struct {
	Number Number
	Kind   Kind
}

// String returns the fault as a line of a list.
func (i Injection) String() string { return fmt.Sprintf("%s %s", i.Number, i.Kind) }

// ReadList reads a list of faults: a line for each, with a number and a kind. Empty lines and lines that begin with #
// are left out.
//
// Errors: a line isn't a fault; a number stands twice.
func ReadList(from io.Reader) ([]Injection, error) {
	var list []Injection
	known, lines := map[Number]bool{}, bufio.NewScanner(from)
	for at := 1; lines.Scan(); at++ {
		words := strings.Fields(lines.Text())
		if len(words) == 0 || strings.HasPrefix(words[0], "#") {
			continue
		}
		if len(words) != 2 {
			return nil, fmt.Errorf("line %d isn't the number of a request and a kind of fault", at)
		}
		number, err := ParseNumber(words[0])
		if err != nil {
			return nil, fmt.Errorf("line %d: %w", at, err)
		}
		switch kind := Kind(words[1]); {
		case !isKind(kind):
			return nil, fmt.Errorf("line %d: there is no kind of fault %q", at, words[1])
		case known[number]:
			return nil, fmt.Errorf("line %d: the request %s has a fault already", at, number)
		default:
			known[number] = true
			list = append(list, Injection{number, kind})
		}
	}
	return list, lines.Err()
}

// WriteList writes a list that ReadList reads.
func WriteList(to io.Writer, list []Injection) error {
	for _, injection := range list {
		if _, err := fmt.Fprintln(to, injection); err != nil {
			return err
		}
	}
	return nil
}

func sortList(list []Injection) {
	sort.Slice(list, func(one, other int) bool { return list[one].Number.less(list[other].Number) })
}

// A Kind is what befalls a request.
type Kind string

// The kinds of faults. The platform waits for an answer only for a limited time, the time of a request.
const (
	None Kind = "none"

	RequestLost      Kind = "request-lost"      // nothing reaches the broker, and the connection is cut
	RequestSwallowed Kind = "request-swallowed" // nothing reaches the broker, and the connection stays open
	RequestLate      Kind = "request-late"      // the request reaches the broker after the platform has given it up
	RequestCut       Kind = "request-cut"       // half of the request reaches the broker, and both connections are cut
	RequestGarbled   Kind = "request-garbled"   // the broker gets a body that isn't JSON, and the connection is cut
	RequestSlow      Kind = "request-slow"      // the request reaches the broker in pieces, with pauses

	Repeated       Kind = "repeated"        // the request reaches the broker twice, and the second answer is returned
	RepeatedLate   Kind = "repeated-late"   // the request reaches the broker, and seconds later once more
	RepeatedUnread Kind = "repeated-unread" // the request reaches the broker twice, and the second answer is too late

	HangUp        Kind = "hang-up"         // the request reaches the broker, and its connection is cut before the answer
	AnswerLost    Kind = "answer-lost"     // the broker answers, and the connection to the platform is cut
	AnswerLate    Kind = "answer-late"     // the answer arrives after the platform has given it up
	AnswerSlow    Kind = "answer-slow"     // the answer arrives in pieces, with pauses
	AnswerGarbled Kind = "answer-garbled"  // the body of the answer isn't JSON
	AnswerBodyCut Kind = "answer-body-cut" // half of the body of the answer arrives
	AnswerHeadCut Kind = "answer-head-cut" // a few bytes of the answer arrive

	GatewayBefore Kind = "gateway-before" // 502, 503 or 504 in the broker's place, which gets nothing
	GatewayAfter  Kind = "gateway-after"  // 502, 503 or 504 in place of the broker's answer
	PageAfter     Kind = "page-after"     // 404 or 429 with a page in HTML in place of the broker's answer

	RestartDuring Kind = "restart-during" // the broker is killed and started again while it has the request
	RestartAfter  Kind = "restart-after"  // the broker is killed and started again once it has answered
)

// Weights are how often the kinds are chosen, in relation to one another.
type Weights []Weight

// A Weight is how often a kind is chosen.
type Weight struct {
	Kind   Kind
	Weight int
}

// StandardWeights returns the weights of all kinds, except the restarts if the broker can't be restarted.
func StandardWeights(restarts bool) Weights {
	weights := Weights{
		{RequestLost, 2}, {RequestSwallowed, 2}, {RequestLate, 4}, {RequestCut, 2}, {RequestGarbled, 2}, {RequestSlow, 2},
		{Repeated, 2}, {RepeatedLate, 4}, {RepeatedUnread, 2},
		{HangUp, 4}, {AnswerLost, 4}, {AnswerLate, 4}, {AnswerSlow, 2}, {AnswerGarbled, 2}, {AnswerBodyCut, 2},
		{AnswerHeadCut, 2}, {GatewayBefore, 2}, {GatewayAfter, 2}, {PageAfter, 2},
	}
	if restarts {
		weights = append(weights, Weight{RestartDuring, 2}, Weight{RestartAfter, 2})
	}
	return weights
}

// Kinds returns all kinds, except None.
func Kinds() (kinds []Kind) {
	for _, weight := range StandardWeights(true) {
		kinds = append(kinds, weight.Kind)
	}
	return kinds
}

// IsRestart reports whether a kind restarts the broker.
func (k Kind) IsRestart() bool { return k == RestartDuring || k == RestartAfter }

func isKind(kind Kind) bool {
	for _, known := range Kinds() {
		if known == kind {
			return true
		}
	}
	return false
}

// choose returns the kind at a position between 0 and 1.
func (w Weights) choose(at float64) Kind {
	all := 0
	for _, weight := range w {
		all += weight.Weight
	}
	rest := int(at * float64(all))
	for _, weight := range w {
		if rest -= weight.Weight; rest < 0 {
			return weight.Kind
		}
	}
	return None
}

// A Subject is an instance, or a binding of it. Instances are counted from 1 in the order of the run, and so are the
// bindings of each instance. Binding is 0 for the instance itself.
type Subject struct{ Instance, Binding int }

// String returns the subject as people write it: 12 for an instance, and 12/2 for a binding of it.
func (s Subject) String() string {
	if s.Binding == 0 {
		return strconv.Itoa(s.Instance)
	}
	return fmt.Sprintf("%d/%d", s.Instance, s.Binding)
}

// Less reports whether a subject is before another one in a list.
func (s Subject) Less(other Subject) bool {
	return s.Instance < other.Instance || s.Instance == other.Instance && s.Binding < other.Binding
}

// A Number names a request: the first, second, .. request about a Subject. It is the same in each run with the same
// seed, in whatever order the requests about different subjects arrive.
type Number struct {
	Subject
	Request int // from 1
}

// String returns the number as people write it: 12.3 is the third request about the instance 12.
func (n Number) String() string { return fmt.Sprintf("%s.%d", n.Subject, n.Request) }

// ParseNumber reads what String has written.
func ParseNumber(text string) (Number, error) {
	subject, request, hasRequest := strings.Cut(text, ".")
	instance, binding, hasBinding := strings.Cut(subject, "/")
	if !hasBinding {
		binding = "0"
	}
	var n Number
	for _, test := range []struct {
		to    *int
		text  string
		least int
	}{{&n.Instance, instance, 1}, {&n.Binding, binding, 0}, {&n.Request, request, 1}} {
		number, err := strconv.Atoi(test.text)
		if err != nil || number < test.least || !hasRequest || hasBinding && binding == "0" {
			return Number{}, fmt.Errorf("%q isn't the number of a request, such as 12.3 or 12/2.3", text)
		}
		*test.to = number
	}
	return n, nil
}

func (n Number) less(other Number) bool {
	return n.Subject.Less(other.Subject) || n.Subject == other.Subject && n.Request < other.Request
}

// A Fault is what befalls one request.
type Fault struct {
	Number Number
	Kind   Kind
	// Share and Pick are chance, for what else is to be chosen: Share is between 0 and 1, and Pick isn't below 0.
	Share float64
	Pick  int
}

// A Source decides which fault befalls each request. Any number of goroutines use it.
type Source struct {
	seed    int64
	share   float64
	weights Weights
	list    map[Number]Kind // of a replay, or nil

	mutex sync.Mutex
	seen  map[Subject]int
	given []Injection
	ended bool
}

// BySeed returns a Source that chooses by chance. share is how many of all requests have a fault, from 0 to 1.
func BySeed(seed int64, share float64, weights Weights) *Source {
	return &Source{seed: seed, share: share, weights: weights, seen: map[Subject]int{}}
}

// ByList returns a Source that has the faults of a list. The seed decides what else is to be chosen about them.
func ByList(seed int64, list []Injection) *Source {
	s := &Source{seed: seed, list: map[Number]Kind{}, seen: map[Subject]int{}}
	for _, injection := range list {
		s.list[injection.Number] = injection.Kind
	}
	return s
}

// Next returns what befalls the next request about a subject.
func (s *Source) Next(subject Subject) Fault {
	s.mutex.Lock()
	defer s.mutex.Unlock()
	s.seen[subject]++
	fault := Fault{Number: Number{subject, s.seen[subject]}, Kind: None}
	chance := Chance(s.seed, "fault", fault.Number.String())
	isFault, at := chance.Float64() < s.share, chance.Float64()
	fault.Share, fault.Pick = chance.Float64(), chance.Intn(1<<16)
	switch kind, isListed := s.list[fault.Number]; {
	case s.ended:
	case isListed:
		fault.Kind = kind
	case s.list == nil && isFault:
		fault.Kind = s.weights.choose(at)
	}
	if fault.Kind != None {
		s.given = append(s.given, Injection{fault.Number, fault.Kind})
	}
	return fault
}

// End ends the faults: no further request has one.
func (s *Source) End() {
	s.mutex.Lock()
	defer s.mutex.Unlock()
	s.ended = true
}

// Faults returns the faults that have befallen requests, in the order of their numbers.
func (s *Source) Faults() []Injection {
	s.mutex.Lock()
	defer s.mutex.Unlock()
	given := append([]Injection(nil), s.given...)
	sortList(given)
	return given
}

// Unmet returns the faults of the list that have befallen no request, in the order of their numbers.
func (s *Source) Unmet() (unmet []Injection) {
	s.mutex.Lock()
	defer s.mutex.Unlock()
	isMet := map[Number]bool{}
	for _, injection := range s.given {
		isMet[injection.Number] = true
	}
	for number, kind := range s.list {
		if !isMet[number] {
			unmet = append(unmet, Injection{number, kind})
		}
	}
	sortList(unmet)
	return unmet
}

// WantsFaults reports whether a run should have faults: those of a list, or of this share of all requests if the list
// is nil.
func WantsFaults(share float64, list []Injection) bool {
	return list == nil && share > 0 || len(list) > 0
}

// Chance returns random numbers that are the same for the same seed and the same words.
func Chance(seed int64, words ...string) *rand.Rand {
	hash := fnv.New64a()
	fmt.Fprintf(hash, "%d", seed)
	for _, word := range words {
		fmt.Fprintf(hash, " %s", word)
	}
	return rand.New(rand.NewSource(int64(hash.Sum64())))
}

// Minimize returns the shortest part of a list that it finds for which test returns true: no part of the result that
// lacks one fault passes the test. This is the algorithm ddmin of Andreas Zeller. The list itself passes the test. If
// ctx is done before, Minimize returns what it has found so far, and false: it may not be the shortest. A test that ctx
// has cut off must return false.
func Minimize[T any](
	ctx context.Context, list []T, test func(context.Context, []T) bool,
) (shortest []T, isShortest bool) {
	for pieces := 2; len(list) > 0 && ctx.Err() == nil; {
		if pieces > len(list) {
			pieces = len(list)
		}
		next, rest := smaller(ctx, list, pieces, test)
		switch {
		case next != nil:
			list, pieces = next, rest
		case pieces == len(list):
			return list, ctx.Err() == nil
		default:
			pieces *= 2
		}
	}
	return list, len(list) == 0
}

// smaller returns a piece of a list that passes the test, or the list without a piece, and into how many pieces it is
// to be divided next. It returns nil if none passes.
func smaller[T any](
	ctx context.Context, list []T, pieces int, test func(context.Context, []T) bool,
) (next []T, rest int) {
	passes := func(part []T) bool { return ctx.Err() == nil && test(ctx, part) }
	for at := 0; at < pieces && pieces > 1; at++ {
		from, to := bounds(len(list), pieces, at)
		if piece := append([]T{}, list[from:to]...); passes(piece) {
			return piece, 2
		}
	}
	for at := 0; at < pieces && pieces != 2; at++ {
		from, to := bounds(len(list), pieces, at)
		if others := append(append([]T{}, list[:from]...), list[to:]...); passes(others) {
			if pieces--; pieces < 2 {
				pieces = 2
			}
			return others, pieces
		}
	}
	return nil, 0
}

func bounds(length, pieces, at int) (from, to int) {
	return length * at / pieces, length * (at + 1) / pieces
}
