// Package report has what the reports of all storms have in common: the lives of instances and bindings, what was
// found of them, a picture of that, and the page of HTML.
package report

import (
	"encoding/json"
	"fmt"
	"io"
	"sort"
	"strings"
	"time"

	"pippinterm/storm/conform"
	"pippinterm/storm/fault"
)

// A Finding is something that a storm has found of an instance or a binding.
type Finding struct {
	Number   string `json:"number"` // that of fault.Subject
	Instance string `json:"instance"`
	Binding  string `json:"binding,omitempty"`
	What     string `json:"what"`
	Life     []Item `json:"life"`
}

// A Difference is what a record and what exists disagree in, or what somebody has to compare.
type Difference struct {
	Key  Key
	Kind DifferenceKind
	What string // in words
}

// A DifferenceKind is the kind of a Difference.
type DifferenceKind int

const (
	Lost          DifferenceKind = iota // it exists, and the platform has no record, or one that says that nothing exists
	False                               // the record says ready, and that isn't true
	Stuck                               // the record hasn't converged
	Disagree                            // the platform's record, the broker's row and what exists disagree in something else
	Present                             // it exists, and by its requests the platform has it
	FalseSettings                       // the broker has reported settings, and the resource has others that were asked for
	HalfUpdated                         // the broker has reported settings, and the resource has some that nobody has asked for
)

// IsOneOf reports whether a kind is one of some.
func (k DifferenceKind) IsOneOf(kinds ...DifferenceKind) bool {
	for _, kind := range kinds {
		if kind == k {
			return true
		}
	}
	return false
}

// Differences are what was found.
type Differences []Difference

// Add adds one.
func (d *Differences) Add(key Key, kind DifferenceKind, what string) {
	*d = append(*d, Difference{key, kind, what})
}

// InOrder sorts them by their ids, and returns them.
func (d Differences) InOrder() Differences {
	sort.SliceStable(d, func(one, other int) bool { return d[one].Key.Less(d[other].Key) })
	return d
}

// Without returns those of all other kinds.
func (d Differences) Without(kind DifferenceKind) (rest Differences) {
	for _, difference := range d {
		if difference.Kind != kind {
			rest = append(rest, difference)
		}
	}
	return rest
}

// A Run is what happened in a run, from which Findings are written.
type Run struct {
	Subject   func(instance, binding string) (fault.Subject, bool)
	Exchanges []fault.Exchange
	Events    []Event
	Hide      Hider
}

// Findings returns the differences of some kinds, each instance or binding once, with their lives.
func (r Run) Findings(found []Difference, kinds ...DifferenceKind) []Finding {
	all, at := []Finding{}, map[Key]int{}
	for _, difference := range found {
		switch known, is := at[difference.Key]; {
		case !difference.Kind.IsOneOf(kinds...):
		case is && !strings.Contains(all[known].What, difference.What):
			all[known].What += "; " + difference.What
		case !is:
			number := "?"
			if subject, is := r.Subject(difference.Key.Instance, difference.Key.Binding); is {
				number = subject.String()
			}
			at[difference.Key] = len(all)
			life := LifeOf(difference.Key, r.Exchanges, r.Events, r.Hide)
			all = append(all, Finding{number, difference.Key.Instance, difference.Key.Binding, difference.What, life})
		}
	}
	return all
}

// Name returns the number and the ids.
func (f Finding) Name() string {
	if f.Binding != "" {
		return fmt.Sprintf("binding %s (%s of instance %s)", f.Number, f.Binding, f.Instance)
	}
	return fmt.Sprintf("instance %s (%s)", f.Number, f.Instance)
}

// WriteFindings writes findings for people, each with its life.
func WriteFindings(w io.Writer, title string, all []Finding) {
	for _, finding := range all {
		fmt.Fprintf(w, "\n%s: %s: %s\n", title, finding.Name(), finding.What)
		for _, item := range finding.Life {
			fmt.Fprintf(w, "  %s\n", item)
		}
	}
}

// A Violation is a rule of the standard that a request or an answer breaks.
type Violation struct {
	conform.CaseResult
	Number  string   `json:"number"`  // of the first such request
	Count   int      `json:"count"`   // how many break the same rule
	Numbers []string `json:"numbers"` // of all requests that have one, each once, in the order in which they were found
	Each    []Breach `json:"each"`    // all of them, in the same order
}

// A Breach is one request or answer that breaks a rule.
type Breach struct {
	Number string `json:"number"` // of the request, or what the report has in its place
	Reason string `json:"reason"`
	Sent   string `json:"sent"`
	Came   string `json:"came"`
}

// Breaches collects what breaks the standard. The zero value is ready to use.
type Breaches struct {
	all   []Violation
	at    map[string]int     // of each rule
	known map[[2]string]bool // rules with the numbers of requests
}

// Add adds a request. number is empty if the request has none, and first is then what the report has in its place.
func (b *Breaches) Add(failed conform.CaseResult, number, first string) {
	if b.at == nil {
		b.at, b.known = map[string]int{}, map[[2]string]bool{}
	}
	if number != "" {
		first = number
	}
	at, isKnown := b.at[failed.Name]
	if !isKnown {
		at, b.at[failed.Name] = len(b.all), len(b.all)
		b.all = append(b.all, Violation{CaseResult: failed, Number: first, Numbers: []string{}})
	}
	it := &b.all[at]
	it.Count++
	it.Each = append(it.Each, Breach{first, failed.Reason, failed.Sent, failed.Came})
	if its := [2]string{failed.Name, number}; number != "" && !b.known[its] {
		b.known[its] = true
		it.Numbers = append(it.Numbers, number)
	}
}

// All returns each rule that is broken once, in the order in which they were first broken.
func (b *Breaches) All() []Violation { return b.all }

// WithoutSecrets returns the Violation without secrets.
func (b Violation) WithoutSecrets(hide Hider) Violation {
	b.Sent, b.Came, b.Reason = hide.In(b.Sent), hide.In(b.Came), hide.In(b.Reason)
	each := make([]Breach, 0, len(b.Each))
	for _, breach := range b.Each {
		each = append(each, Breach{
			hide.In(breach.Number), hide.In(breach.Reason), hide.In(breach.Sent), hide.In(breach.Came),
		})
	}
	b.Each = each
	return b
}

// BreaksMust reports whether something broke what the standard demands.
func BreaksMust(all []Violation) bool {
	for _, violation := range all {
		if violation.Level == conform.Must {
			return true
		}
	}
	return false
}

// WriteBroken writes for people what breaks the standard. what is what breaks it, such as answer.
func WriteBroken(w io.Writer, what string, all []Violation) {
	for _, violation := range all {
		fmt.Fprintf(w, "\nBREAKS THE STANDARD: %s (%s, section %s), %s, the first one %s: %s\n"+
			"  expected: %s\n  sent:     %s\n  came:     %s\n",
			violation.Name, violation.Level, violation.Section, Quantity(violation.Count, what), violation.Number,
			violation.Reason, violation.Expected, violation.Sent, violation.Came)
	}
}

// Quantity returns a number with a noun. plural is its plural, if that isn't the noun with an s.
func Quantity(count int, noun string, plural ...string) string {
	switch {
	case count == 1:
		return "1 " + noun
	case len(plural) > 0:
		return fmt.Sprintf("%d %s", count, plural[0])
	}
	return fmt.Sprintf("%d %ss", count, noun)
}

// A KindCount is how many requests a kind of fault befell.
type KindCount struct {
	Kind  fault.Kind `json:"kind"`
	Count int        `json:"count"`
}

// CountKinds counts the faults of some exchanges.
func CountKinds(exchanges []fault.Exchange) []KindCount {
	counts := map[fault.Kind]int{}
	for _, exchange := range exchanges {
		if exchange.Fault != fault.None {
			counts[exchange.Fault]++
		}
	}
	all := []KindCount{}
	for kind, count := range counts {
		all = append(all, KindCount{kind, count})
	}
	sort.Slice(all, func(one, other int) bool { return all[one].Kind < all[other].Kind })
	return all
}

// KindLines returns the counts for people.
func KindLines(all []KindCount) (lines []string) {
	for _, kindCount := range all {
		lines = append(lines, fmt.Sprintf("%d %s", kindCount.Count, kindCount.Kind))
	}
	return lines
}

// WriteKinds writes the counts on a line, if there are any.
func WriteKinds(w io.Writer, all []KindCount) {
	if len(all) > 0 {
		fmt.Fprintf(w, "faults: %s\n", strings.Join(KindLines(all), ", "))
	}
}

// ListLines returns the lines of a list of faults.
func ListLines(list []fault.Injection) []string {
	all := make([]string, 0, len(list))
	for _, injection := range list {
		all = append(all, injection.String())
	}
	return all
}

// Omissions returns what a run with some faults hasn't tried, for people: nothing if a fault befell a request, or none
// was wanted. more says how a run gets more requests.
func Omissions(given []fault.Injection, share float64, list []fault.Injection, more string) []string {
	switch {
	case len(given) > 0 || !fault.WantsFaults(share, list):
		return []string{}
	case list != nil:
		return []string{"no request had a fault. Pass the --seed and the options of the run that wrote the list of faults, or " +
			"another list"}
	}
	return []string{"no request had a fault. " + more + ", or a greater number to --fault-percent"}
}

// mostUnmet is how many faults of a list are named that no request has met.
const mostUnmet = 5

// UnmetLines says for people which faults of a list no request has met. There is no line if each has met one.
func UnmetLines(unmet []string) []string {
	if len(unmet) == 0 {
		return nil
	}
	shown, more := unmet, ""
	if len(unmet) > mostUnmet {
		shown, more = unmet[:mostUnmet], ", .."
	}
	return []string{fmt.Sprintf("%s of the list met no request: %s%s", Quantity(len(unmet), "fault"),
		strings.Join(shown, ", "), more)}
}

// A Key names an instance, or a binding of it if Binding isn't empty, by their ids.
type Key struct{ Instance, Binding string }

// InstanceKey returns the key of the instance.
func (k Key) InstanceKey() Key { return Key{Instance: k.Instance} }

// Less reports whether a key is before another one in the order of the ids.
func (k Key) Less(other Key) bool {
	return k.Instance < other.Instance || k.Instance == other.Instance && k.Binding < other.Binding
}

// An Event is something that has happened to an instance or a binding, besides its requests.
type Event struct {
	At   time.Duration // since the start of the run
	Key  Key           // empty if it isn't about one of them, such as a kill
	Who  string        // operator, record, platform, broker or osb-storm
	What string
}

const (
	WhoBroker   = "broker"
	WhoPlatform = "platform"
)

// An Item is one thing in the life of an instance or a binding.
type Item struct {
	Seconds float64 `json:"seconds"`           // since the start of the run
	Until   float64 `json:"until,omitempty"`   // of a request: when the platform got its answer
	Number  string  `json:"request,omitempty"` // the number of the request, or empty
	Who     string  `json:"who"`               // operator, record, platform, request, proxy, broker or osb-storm
	What    string  `json:"what"`
	Fault   string  `json:"fault,omitempty"`

	isOfAll bool // it isn't about one instance, such as a kill
}

// LifeOf returns the life of an instance with its bindings, or of a binding with its instance.
func LifeOf(key Key, exchanges []fault.Exchange, events []Event, hide Hider) []Item {
	var life []Item
	for _, event := range events {
		if event.Key == (Key{}) || event.Key == key || event.Key == key.InstanceKey() {
			life = append(life, Item{
				Seconds: seconds(event.At), Who: event.Who, What: conform.Printable(hide.In(event.What)), isOfAll: event.Key == (Key{}),
			})
		}
	}
	for _, x := range exchanges {
		if its := (Key{x.Instance, x.Binding}); its == key || its == key.InstanceKey() {
			life = append(life, itemsOf(x, hide)...)
		}
	}
	sort.SliceStable(life, func(one, other int) bool { return life[one].Seconds < life[other].Seconds })
	for len(life) > 0 && life[0].isOfAll { // a kill before it was created
		life = life[1:]
	}
	return life
}

func itemsOf(x fault.Exchange, hide Hider) []Item {
	number := x.Number.String()
	item := func(at time.Duration, who, what string) Item {
		return Item{Seconds: seconds(at), Number: number, Who: who, What: conform.Printable(hide.In(what))}
	}
	request := item(x.Begun, "request", x.Method+" "+x.Target)
	if x.Fault != fault.None {
		request.Fault = string(x.Fault)
	}
	request.Until = seconds(x.Ended)
	all := []Item{request}
	for at, d := range x.Deliveries {
		which := "the request"
		switch {
		case at > 0:
			which = "the request once more"
		case x.Fault == fault.RequestCut:
			which = "half of the request"
		case x.Fault == fault.RequestGarbled:
			which = "the request with a body that isn't JSON"
		}
		all = append(all, item(d.Begun, WhoBroker, "gets "+which), item(d.Ended, WhoBroker, answerOf(x, d, hide)))
	}
	if len(x.Deliveries) == 0 {
		all = append(all, item(x.Begun, WhoBroker, "doesn't get the request"))
	}
	if x.Ended == 0 { // it is still in flight
		return all
	}
	return append(all, item(x.Ended, "proxy", "gives the platform "+x.Receipt.Words))
}

func answerOf(x fault.Exchange, d fault.Delivery, hide Hider) string {
	if d.Status == 0 {
		return "no answer: " + d.Lost
	}
	seen := conform.Observation{
		Method: x.Method, Target: x.Target, Status: d.Status, Header: d.Header, Came: d.Body, Hide: hide,
	}
	return "answers " + seen.Describe()
}

func seconds(of time.Duration) float64 { return float64(of.Milliseconds()) / 1000 }

// String returns the item for people.
func (i Item) String() string {
	text := fmt.Sprintf("%8.3f s  %-9s  %-9s  %s", i.Seconds, i.Number, i.Who, i.What)
	if i.Fault != "" {
		text += "   FAULT: " + i.Fault
	}
	return text
}

// Hidden is written in place of a secret.
const Hidden = conform.Hidden

// A Hider leaves out secrets.
type Hider = conform.Hider

// NewHider returns a Hider of a login, and of the credentials in the answers to some exchanges.
func NewHider(user, password string, exchanges []fault.Exchange) Hider {
	var secrets []string
	known := map[string]bool{}
	for _, x := range exchanges {
		for _, d := range x.Deliveries {
			var object struct{ Credentials any }
			if x.Binding == "" || json.Unmarshal(d.Body, &object) != nil {
				continue
			}
			for _, secret := range conform.SecretsIn(object.Credentials) {
				if !known[secret] {
					known[secret] = true
					secrets = append(secrets, secret)
				}
			}
		}
	}
	return conform.NewHider(user, password).And(secrets...)
}
