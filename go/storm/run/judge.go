package run

import (
	"math"
	"net/http"
	"net/url"
	"sort"
	"strings"
	"time"

	"pippinterm/storm/conform"
	"pippinterm/storm/fault"
	"pippinterm/storm/report"
)

// judge returns the first answer that breaks each rule, with the numbers of all requests whose answers break it, in the
// order in which they arrived. differences are what was found in the end.
//
// A 410 to a deletion breaks a rule only if the thing exists in the end. Else the broker may have carried out this very
// deletion before it answered: another of its workers has taken it up, and the request has found nothing any more.
func judge(exchanges []fault.Exchange, differences []Difference, hide report.Hider) []Violation {
	var found report.Breaches
	lost := map[Key]bool{}
	for _, difference := range differences {
		lost[difference.Key] = lost[difference.Key] || difference.Kind == Lost
	}
	for _, delivery := range deliveriesOf(exchanges) {
		delivery.Hide = hide
		for _, failed := range delivery.judge(lost[delivery.key]) {
			found.Add(failed, delivery.number.String(), "")
		}
	}
	return found.All()
}

// A delivery is a request that has reached the broker, with what was known before of the instance or the binding.
type delivery struct {
	conform.Observation
	number       fault.Number
	key          Key
	begun, ended time.Duration
	isAnswered   bool
	before       knowledge
	first        conform.Observation // the creation that is in progress, if before is creating
}

// A knowledge is what the answers have shown of an instance or a binding. Whatever isn't certain is unknown.
type knowledge int

const (
	unknown  knowledge = iota
	fresh              // nothing was sent before
	creating           // a creation was answered with 202, and nothing that could end it was sent
	exists
	deleting
	gone
)

// deliveriesOf returns the deliveries, in the order in which they were answered.
func deliveriesOf(exchanges []fault.Exchange) []*delivery {
	byKey := map[Key][]*delivery{}
	var all []*delivery
	for _, x := range exchanges {
		for _, d := range x.Deliveries {
			it := &delivery{
				Observation: conform.Observation{
					Method: x.Method, Target: x.Target, Sent: x.Body, Status: d.Status, Header: d.Header, Came: d.Body,
				},
				number: x.Number, key: Key{Instance: x.Instance, Binding: x.Binding}, begun: d.Begun, ended: d.Ended,
				isAnswered: d.Status != 0,
			}
			byKey[it.key] = append(byKey[it.key], it)
			all = append(all, it)
		}
	}
	for key, ofKey := range byKey {
		if key.Binding == "" {
			learn(ofKey, math.MaxInt64)
			continue
		}
		learn(ofKey, firstDeletion(byKey[Key{Instance: key.Instance}]))
	}
	sort.SliceStable(all, func(one, other int) bool { return all[one].ended < all[other].ended })
	return all
}

func firstDeletion(all []*delivery) (begun time.Duration) {
	begun = math.MaxInt64
	for _, delivery := range all {
		if delivery.Method == http.MethodDelete && delivery.begun < begun {
			begun = delivery.begun
		}
	}
	return begun
}

// learn sets what was known before each delivery of one key. Of a binding, nothing is known any more once its instance
// may be deleted: the broker may first end the binding.
func learn(all []*delivery, deleted time.Duration) {
	sort.SliceStable(all, func(one, other int) bool { return all[one].ended < all[other].ended })
	state, first := fresh, conform.Observation{}
	for at, delivery := range all {
		if delivery.ended >= deleted {
			state = unknown
		}
		if overlaps(all, at) {
			state = unknown
			if delivery.changes() {
				continue
			}
		}
		delivery.before, delivery.first = state, first
		state = delivery.after(state)
		if delivery.Method == http.MethodPut && state == creating && delivery.before != creating {
			first = delivery.Observation
		}
	}
}

// overlaps reports whether a request that changes something was with the broker at the same time as a delivery. Nobody
// knows until when the broker works on a request that it doesn't answer.
func overlaps(all []*delivery, at int) bool {
	for other, delivery := range all {
		isOpen := !delivery.isAnswered && delivery.begun <= all[at].ended
		isAtOnce := delivery.begun < all[at].ended && all[at].begun < delivery.ended
		if other != at && delivery.changes() && (isOpen || isAtOnce) {
			return true
		}
	}
	return !all[at].isAnswered
}

func (s *delivery) changes() bool { return s.Method == http.MethodPut || s.Method == http.MethodDelete }

func (s *delivery) after(before knowledge) knowledge {
	switch {
	case !s.isAnswered:
		return unknown
	case s.Method == http.MethodPut:
		return s.afterPut(before)
	case s.Method == http.MethodDelete:
		switch {
		case s.Status == http.StatusOK || s.Status == http.StatusGone:
			return gone
		case s.Status == http.StatusAccepted:
			return deleting
		case s.Status == http.StatusUnprocessableEntity:
			return before
		}
		return unknown
	case s.isPoll():
		return s.afterPoll(before)
	}
	return before
}

func (s *delivery) afterPut(before knowledge) knowledge {
	switch {
	case s.Status == http.StatusOK || s.Status == http.StatusCreated:
		return exists
	case s.Status == http.StatusAccepted && (before == fresh || before == creating):
		return creating
	case s.Status == http.StatusUnprocessableEntity || s.Status == http.StatusConflict:
		return before
	}
	return unknown
}

func (s *delivery) afterPoll(before knowledge) knowledge {
	switch state := s.State(); {
	case state == "in progress":
		return before
	case before == creating && state == "succeeded":
		return exists
	case before == deleting && (state == "succeeded" || state == "gone"):
		return gone
	case before == exists || before == gone || before == fresh:
		return before
	}
	return unknown
}

func (s *delivery) isPoll() bool {
	path, _, _ := strings.Cut(s.Target, "?")
	return s.Method == http.MethodGet && strings.HasSuffix(path, "/last_operation")
}

func (s *delivery) pollOperation() string {
	_, query, _ := strings.Cut(s.Target, "?")
	values, err := url.ParseQuery(query)
	if err != nil {
		return ""
	}
	return values.Get("operation")
}

// judge returns the cases that the answer fails, by itself and by what was known before. isLost says that the thing
// exists in the end though its record says otherwise.
func (s *delivery) judge(isLost bool) []conform.CaseResult {
	if !s.isAnswered {
		return nil
	}
	failed := s.Judge()
	isSaidGone := s.Method == http.MethodDelete && s.Status == http.StatusGone
	if name, reason := s.breaks(); name != "" && (isLost || !isSaidGone) {
		failed = append(failed, s.Fail(name, reason))
	}
	return failed
}

type statuses map[int]bool

// A rule is an answer that breaks the standard, by what was known before.
type rule struct {
	method   string
	isPoll   bool
	before   knowledge
	statuses statuses
	of       string // the case of an instance
	binding  string // that of a binding, or empty for none
	reason   string
}

var rules = []rule{
	{http.MethodPut, false, exists, statuses{201: true, 202: true}, "provision-repeated", "bind-repeated",
		"the broker creates it again: the same creation has succeeded before"},
	{http.MethodDelete, false, creating, statuses{410: true}, "async-deprovision-during-provision", "",
		"the broker says that the instance doesn't exist while it is being created"},
	{http.MethodDelete, false, exists, statuses{410: true}, "deprovision-existing", "unbind-existing",
		"the broker says that it doesn't exist, after its creation has succeeded"},
	{http.MethodDelete, false, gone, statuses{200: true}, "deprovision-repeated", "unbind-repeated",
		"it was deleted before"},
	{http.MethodGet, true, creating, statuses{400: true, 404: true, 410: true},
		"last-operation-state", "binding-last-operation-state",
		"the broker doesn't know the operation any more that its 202 has begun"},
}

// breaks returns the case that the answer fails by what was known before, and why, or nothing.
func (s *delivery) breaks() (name, reason string) {
	if s.before == creating && s.Method == http.MethodPut && s.Status == http.StatusAccepted &&
		s.key.Binding == "" && s.Operation() != s.first.Operation() {
		return "async-repeated", "the operation isn't that of the first answer"
	}
	for _, rule := range rules {
		if rule.method != s.Method || rule.before != s.before || rule.isPoll != s.isPoll() || !rule.statuses[s.Status] {
			continue
		}
		if rule.isPoll && s.pollOperation() != s.first.Operation() { // it doesn't name the operation
			continue
		}
		if s.key.Binding != "" {
			return rule.binding, rule.reason
		}
		return rule.of, rule.reason
	}
	return "", ""
}
