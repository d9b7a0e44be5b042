package page

import (
	"fmt"
	"html/template"
	"strconv"
	"strings"
	"time"
	"unicode"

	"pippinterm/platform/api"
)

// refreshed is how often a page is refreshed by its script, in seconds. Without one it is every 15 seconds (page.html).
const refreshed = 5

// A frame is what every page has around it.
type frame struct {
	Style, Script template.HTML
	Title         string
	Find          string
	Now           moment
	Refresh       int // seconds, or 0
	IsStill       bool
	Home          string
	Turned        string // the same page, which is refreshed if this one isn't, or the other way round
}

// still has a page be refreshed, or not.
func (f *frame) still(isStill bool, turned string) {
	f.IsStill, f.Turned, f.Home = isStill, turned, target{isStill: isStill}.target()
	if !isStill {
		f.Refresh = refreshed
	}
}

// Words are a part of a sentence: a text, or a command.
type words struct {
	Text   string
	IsCode bool
}

// A message is a page with one sentence.
type message struct {
	frame
	Text string
}

// An item is an instance or a binding in a table.
type item struct {
	ID     string
	Of     string // the id of a binding's instance, or empty
	Href   string
	Anchor string // the id of the link, so that it keeps the focus
	State  string
	Since  moment
	Before string // how many states aren't shown, in words; or empty
	Life   []span
	Flight string
	Worker string
	Reason string // why it is in its state, or empty
	Notes  []string
}

// A span is a state in a life. Time is its time, with the day if that isn't the one before.
type span struct {
	State  string
	Since  moment
	Time   string
	Number string // with Lasted, on the page of its row
	Lasted string
}

// A link to the rows of a state, with how many there are.
type link struct {
	Href, Anchor, Count, Kind, Word string
	IsHere, IsNone                  bool
}

// A nav has the links of instances, or of bindings.
type nav struct {
	Name    string
	IsNamed bool
	Links   []link
}

// A waiting is what waits for a person for one reason.
type waiting struct {
	Heading string
	Todo    []words
	Caption string
	Items   []item
	More    []link
}

// A seller is a broker.
type seller struct {
	Name, URL   string
	CatalogueAt *moment
	Reason      string
	ReasonAt    *moment
}

// A table has items.
type table struct {
	Caption string
	Items   []item
}

// An overview is the page of a list, and on the first page of what waits and what is in flight.
type overview struct {
	frame
	table
	States  []nav
	Heading string
	IsFirst bool

	Waiting       []waiting
	Rejected      []seller
	Flights       []item
	FlightCaption string
	MoreFlights   string
	Brokers       []seller
	BrokerCaption string

	Orders, Pages []link
	Nothing       []words
}

// A one is the page of an instance or a binding.
type one struct {
	frame
	Heading, ID string
	State       string
	Since       moment
	Todo        []words
	Known       []fact
	LifeCaption string
	Life        []span
	Tries       *table
	Bindings    *table
}

// A fact is something that is known of a row: a text, or a time.
type fact struct {
	Name, Text string
	IsCode     bool
	Href       string
	Anchor     string
	When       *moment
}

// A moment is a time as it is shown: in UTC, and how long ago that was.
type moment struct{ Stamp, Text, Ago string }

func momentOf(at, now time.Time) *moment {
	if at.IsZero() {
		return nil
	}
	at = at.UTC()
	return &moment{Stamp: at.Format(time.RFC3339), Text: at.Format("2006-01-02 15:04:05"), Ago: ago(now.Sub(at))}
}

// momentAt is the moment of a time that may be missing, or nil.
func momentAt(at *time.Time, now time.Time) *moment { return momentOf(timeOf(at), now) }

// saidAt is the moment of a reason, or nil.
func saidAt(reason *api.Reason, now time.Time) *moment {
	if reason == nil {
		return nil
	}
	return momentOf(reason.At, now)
}

// timeOf is a time that may be missing, or the zero time.
func timeOf(at *time.Time) time.Time {
	if at == nil {
		return time.Time{}
	}
	return *at
}

// ago is how long ago that was, or in how long it will be: in whole days, or hours, or minutes, or seconds.
func ago(since time.Duration) string {
	switch {
	case since <= -time.Second:
		return "in " + units(-since)[0]
	case since < time.Second:
		return "now"
	}
	return units(since)[0] + " ago"
}

// lasting is a time as days and hours, or as hours and minutes, and so on.
func lasting(length time.Duration) string {
	found := units(length)
	if len(found) > 2 {
		found = found[:2]
	}
	return strings.Join(found, " ")
}

func units(length time.Duration) (found []string) {
	rest := length
	if rest < 0 {
		rest = 0
	}
	for _, test := range []struct {
		unit time.Duration
		word string
	}{{24 * time.Hour, "day"}, {time.Hour, "h"}, {time.Minute, "min"}, {time.Second, "s"}} {
		number := int(rest / test.unit)
		rest %= test.unit
		if number > 0 || test.unit == time.Second && len(found) == 0 {
			text := strconv.Itoa(number) + " " + test.word
			if test.word == "day" {
				text = count(number, test.word)
			}
			found = append(found, text)
		}
	}
	return found
}

// count is so many of what the word says.
func count(number int, word string) string {
	if number != 1 {
		word += "s"
	}
	return thousands(number) + " " + word
}

// thousands is a number with commas.
func thousands(number int) string {
	text := strconv.Itoa(number)
	for at := len(text) - 3; at > 0; at -= 3 {
		text = text[:at] + "," + text[at:]
	}
	return text
}

// plain is a text in which what isn't shown, or turns other text round, is written as \u202e. html/template escapes the
// rest.
func plain(text string) string {
	var out strings.Builder
	for _, character := range text {
		switch {
		case unicode.IsPrint(character):
			out.WriteRune(character)
		default:
			fmt.Fprintf(&out, "\\u%04x", character)
		}
	}
	return out.String()
}

// parseWords are the words of a sentence of this package that has its commands between `.
func parseWords(sentence string) (all []words) {
	for at, part := range strings.Split(sentence, "`") {
		if part != "" {
			all = append(all, words{Text: part, IsCode: at%2 == 1})
		}
	}
	return all
}

// cut is a text with at most so many characters.
func cut(text string, most int) string {
	runes := []rune(text)
	if len(runes) > most {
		return string(runes[:most]) + " .."
	}
	return text
}

// kinds are the requests by their names in the standard.
var kinds = map[string]string{
	"provision": "Provision", "poll": "Poll", "deprovision": "Deprovision", "bind": "Bind", "unbind": "Unbind",
}

// flightOf is the kind of the request in flight, and who has it. Both are empty if none is in flight. What nobody has
// was left so by a crash, or by a store that failed.
func flightOf(r api.Record, now time.Time) (kind, worker string) {
	flight := r.InFlight
	if flight == nil {
		return "", ""
	}
	if kind = kinds[flight.Kind]; kind == "" {
		kind = plain(flight.Kind)
	}
	switch {
	case flight.Worker == "":
		return kind, "no worker has it"
	case timeOf(flight.Until).Before(now):
		return kind, plain(flight.Worker) + ", lease ran out " + ago(now.Sub(timeOf(flight.Until)))
	}
	return kind, plain(flight.Worker)
}

// spaceJSON is a value of JSON in one line, with a blank behind each comma and colon, however it was written.
func spaceJSON(value []byte) string {
	var out strings.Builder
	isText, isEscaped := false, false
	for _, char := range value {
		switch {
		case isText:
			isText = char != '"' || isEscaped
			isEscaped = char == '\\' && !isEscaped
		case char == '"':
			isText = true
		case char == ' ' || char == '\t' || char == '\n' || char == '\r':
			continue
		}
		out.WriteByte(char)
		if !isText && (char == ',' || char == ':') {
			out.WriteByte(' ')
		}
	}
	return out.String()
}

// reasonOf is what was said, in parts.
func reasonOf(reason *api.Reason) (parts []string) {
	if reason == nil {
		return nil
	}
	if reason.Kind != "" {
		parts = append(parts, plain(reason.Kind))
	}
	if reason.Status != 0 {
		parts = append(parts, "status "+strconv.Itoa(reason.Status))
	}
	for _, text := range []string{reason.Error, reason.Description, reason.Lost} {
		if text != "" {
			parts = append(parts, cut(plain(text), longestText))
		}
	}
	return parts
}

// inOne is what was said, in one text.
func inOne(reason *api.Reason) string { return strings.Join(reasonOf(reason), ", ") }

// How many characters of a broker's text are shown, and how many of a reason in a table.
const (
	longestText   = 1000
	longestReason = 200
)
