//go:build crashpoints

package platform

import (
	"encoding/json"
	"fmt"
	"strings"

	"pippinterm/internal/walks"
	"pippinterm/osb"
)

// A walk has each event of a simulation, with what is recorded, held and there of its instance after it. A nil one has
// nothing. For an instance it ends once one of its rows is abandoned: then an operator deletes at the broker.
type walk struct {
	of      *simulation
	steps   []happening
	courses map[Key]course
	isOver  map[osb.ID]bool
	out     Outgoing // which arrives
}

// A happening is an event, with the life of each row of its instance after it.
type happening struct {
	key   Key
	event string
	lives map[Key]string
}

// A course is what the model numbers of a life.
type course struct {
	given    int    // answers that were given
	fetched  int    // answers to a Fetch that were given
	deletion uint64 // the number of the latest Deprovision
}

// newWalk is the walk of a simulation whose walks are written, or nil.
func newWalk(of *simulation) *walk {
	if of.scenario.to == nil {
		return nil
	}
	w := &walk{of: of, courses: map[Key]course{}, isOver: map[osb.ID]bool{}}
	of.seller.note = w.happened
	return w
}

// goOn has a walk go on from another one.
func (w *walk) goOn(from *walk) {
	if w == nil {
		return
	}
	w.steps = append(w.steps, from.steps...)
	for key, course := range from.courses {
		w.courses[key] = course
	}
	for instance := range from.isOver {
		w.isOver[instance] = true
	}
}

// arriving is called before a request arrives.
func (w *walk) arriving(out Outgoing) {
	if w != nil {
		w.out = out
	}
}

// latest is the place of the latest answer to such a request.
func (w *walk) latest(out Outgoing) int {
	switch {
	case w == nil:
		return 0
	case out.IsFetch:
		return w.courses[out.Entry.Key].fetched - 1
	}
	return w.courses[out.Entry.Key].given - 1
}

// happened is called after an event at the broker.
func (w *walk) happened(key Key, event string, isAnswered bool) {
	course := w.courses[key]
	switch {
	case event == "fetch":
		course.fetched++
	case isAnswered:
		course.given++
	}
	if w.courses[key] = course; event == "arrive" {
		event += fmt.Sprint(" ", w.attempt())
	}
	w.note(key, event, nil)
}

// attempt is the number of the request that arrives. A last deletion is the latest one once more.
func (w *walk) attempt() uint64 {
	e := w.out.Entry
	if w.out.Request.Kind == osb.KindDeprovision && e.Record.InFlight() != osb.KindDeprovision {
		return w.courses[e.Key].deletion
	}
	return e.Record.Attempt()
}

// recorded is called after a row was committed, with the events of that.
func (w *walk) recorded(after Entry, events []recorded) {
	if w == nil {
		return
	}
	for _, it := range events {
		record := it.record
		if course := w.courses[after.Key]; record.InFlight() == osb.KindDeprovision {
			course.deletion = record.Attempt()
			w.courses[after.Key] = course
		}
		w.note(after.Key, it.event, &record)
	}
	if after.State == Abandoned {
		w.isOver[after.Key.Instance] = true
	}
}

// note notes an event, after which a row has this record if it isn't nil.
func (w *walk) note(key Key, event string, record *osb.Record) {
	if w.isOver[key.Instance] {
		return
	}
	lives := map[Key]string{}
	for other, e := range w.of.store.rows {
		if other.Instance != key.Instance {
			continue
		}
		if other == key && record != nil {
			e.Record = *record
		}
		lives[other] = w.life(e)
	}
	w.steps = append(w.steps, happening{key, event, lives})
}

// life is what is recorded, held and there of a row.
func (w *walk) life(e Entry) string {
	made := w.of.seller.things[e.Key]
	it := walks.Life{
		Record: e.Record, IsOrdered: e.IsSent, Holding: w.of.seller.holdings[e.Key], There: "absent",
		IsBinding: e.Key.IsBinding, Recorded: tokenOf(e), Made: made,
	}
	if made != "" {
		it.There = "whole"
	}
	return it.String()
}

// tokenOf is the token in the credentials of a row, or empty.
func tokenOf(e Entry) string {
	if e.Credentials == nil {
		return ""
	}
	object, err := seal{}.Open(e.Credentials, e.Key.String())
	must(err)
	var read struct {
		Credentials struct {
			Token string `json:"token"`
		} `json:"credentials"`
	}
	must(json.Unmarshal(object, &read))
	return read.Credentials.Token
}

// write writes the walk of each instance.
func (w *walk) write(to *walks.Writer) {
	if w == nil {
		return
	}
	for _, key := range keysOf(w.of.store.rows) {
		if !key.IsBinding {
			to.Write(w.linesOf(key))
		}
	}
}

// linesOf are the lines of an instance.
func (w *walk) linesOf(instance Key) []string {
	rows, names := w.livesOf(instance), map[Key]string{}
	var orders []string
	for at, key := range rows {
		mode := w.of.seller.modeOf(key, w.of.store.rows[instance].Plan)
		orders = append(orders, mode.String()+" accepts -")
		if names[key] = "instance"; at > 0 {
			names[key] = fmt.Sprint("binding ", at)
		}
	}
	lines := []string{walks.Line("service platform broker: "+strings.Join(orders, "; "), "new", wordsOf(rows, nil))}
	for _, it := range w.steps {
		if it.key.Instance == instance.Instance {
			lines = append(lines, walks.Line(names[it.key]+" "+it.event, "applied", wordsOf(rows, it.lives)))
		}
	}
	return lines
}

// livesOf are an instance and its bindings. The model has at least one, so if there is none, one that nobody orders.
func (w *walk) livesOf(instance Key) []Key {
	found := []Key{instance}
	for _, key := range keysOf(w.of.store.rows) {
		if key.IsBinding && key.Instance == instance.Instance {
			found = append(found, key)
		}
	}
	if len(found) == 1 {
		found = append(found, Key{IsBinding: true})
	}
	return found
}

// wordsOf are the lives of these rows. Of a row that isn't there yet, nothing is.
func wordsOf(rows []Key, lives map[Key]string) string {
	var texts []string
	for _, key := range rows {
		text, isThere := lives[key]
		if !isThere {
			text = walks.Life{There: "absent", IsBinding: key.IsBinding}.String()
		}
		texts = append(texts, text)
	}
	return strings.Join(texts, " | ")
}
