package page

import (
	"errors"
	"strings"
	"time"

	"pippinterm/platform/api"
)

// list reads the rows of a list.
func (l look) list(o *overview, a target, c counts, flights []api.Record) error {
	var err error
	shown, total, order := leaf{}, -1, orders[a.order]
	switch {
	case a.find != "":
		order = "by state"
		shown.Items, err = l.search(a)
	case a.state == inFlight:
		shown.Items, total, order = flights, len(flights), "by the end of their lease"
	case a.state != "":
		total = c.of[a.bindings][a.state]
		shown, err = l.leaf(a, []string{a.state}, total)
	default:
		total = c.all[a.bindings]
		shown, err = l.leaf(a, nil, total)
	}
	if err != nil {
		return err
	}
	if a.isPaged() {
		o.Pages, o.Orders = pagesOf(a, shown), ordersOf(a)
	}
	o.Nothing = parseWords(nothing(a, c))
	o.Caption = position(shown.skipped, len(shown.Items), total, order)
	if a.find != "" && len(shown.Items) >= size {
		o.Caption = "The first " + thousands(len(shown.Items)) + ", " + order + ": more digits find fewer"
	}
	o.Items = l.itemsOf(shown.Items, "i")
	return nil
}

func position(skipped, shown, total int, order string) string {
	if total < skipped+shown {
		total = skipped + shown // it grows, or isn't known
	}
	return thousands(skipped+1) + " to " + thousands(skipped+shown) + " of " + thousands(total) + ", " + order
}

// nothing is what an empty list says.
func nothing(a target, c counts) string {
	switch {
	case a.find != "":
		return "No instance and no binding has such an id. Give the first of its 32 hexadecimal digits, or the whole " +
			"id. Hyphens don't count."
	case a.bindings && c.all[true] == 0:
		return "There are no bindings yet. To create one, run `osb-platform bind INSTANCE`."
	case !a.bindings && c.all[false] == 0:
		return "There are no instances yet. To create one, run `osb-platform create`."
	}
	return "There are none now."
}

// search are the rows whose numbers begin with what is sought, and before them the row that has it as its whole id.
func (l look) search(a target) (all []api.Record, err error) {
	if prefix, isPrefix := api.Prefix(a.find); isPrefix {
		found, err := l.reader.List(l.ctx, api.Query{
			Kind: api.Records, Prefix: prefix, Order: api.ByState, Life: spans + 1, Limit: size,
		})
		if err != nil {
			return nil, err
		}
		all = found.Items
	}
	instance, binding, isOfTwo := strings.Cut(a.find, "/")
	if instance == "" || isOfTwo && binding == "" || holds(all, a.find) {
		return all, nil // it is no id, or is there
	}
	whole, err := l.reader.Show(l.ctx, instance, binding)
	if errors.Is(err, api.ErrUnknown) || err == nil && holds(all, whole.Key()) {
		return all, nil
	}
	if before := len(whole.Life) - spans - 1; before > 0 {
		whole.Life, whole.Omitted = whole.Life[before:], before
	}
	return append([]api.Record{whole}, all...), err
}

// holds reports whether one of these rows has an id, as it is sent or as a number.
func holds(all []api.Record, id string) bool {
	for _, record := range all {
		if record.Key() == id || record.ID == id && !record.IsBinding() || record.IsBinding() && record.InstanceID+"/"+record.ID == id {
			return true
		}
	}
	return false
}

// itemsOf are items with their lives.
func (l look) itemsOf(records []api.Record, kind string) (all []item) {
	for _, record := range records {
		shown := l.item(record, kind)
		if record.Omitted > 0 {
			shown.Before = count(record.Omitted, "state")
		}
		shown.Life = l.life(livedBy(record))
		all = append(all, shown)
	}
	return all
}

// livedBy are the states of a life that were answered, the one that lasts last.
func livedBy(r api.Record) []api.Stay {
	if len(r.Life) == 0 {
		return []api.Stay{{State: r.State, Since: r.Since}}
	}
	return r.Life
}

// life are the states of a life: those that have ended, and the one that lasts.
func (l look) life(stays []api.Stay) (found []span) {
	day := ""
	for _, stay := range stays {
		at := l.moment(stay.Since)
		text := at.Text
		if len(text) > 11 && text[:10] == day {
			text = text[11:]
		} else if len(text) > 10 {
			day = text[:10]
		}
		found = append(found, span{State: plain(stay.State), Since: at, Time: text})
	}
	return found
}

// moment is a time that should be there. If it isn't, it is shown as no time.
func (l look) moment(at time.Time) moment {
	if found := momentOf(at, l.now); found != nil {
		return *found
	}
	return moment{Text: "never"}
}

// item is an item without its life. kind keeps links to one item apart if a page has several.
func (l look) item(r api.Record, kind string) item {
	shown := item{
		ID: cut(nameOf(r), longestID), Href: targetOf(r, l.isStill), Anchor: kind + "-" + r.Key(),
		State: plain(r.State), Since: l.moment(r.Since),
	}
	if r.IsBinding() {
		shown.Of = cut(plain(r.InstanceID), longestID)
	}
	shown.Flight, shown.Worker = flightOf(r, l.now)
	for _, text := range []string{shown.Flight, shown.Worker} {
		if text != "" {
			shown.Notes = append(shown.Notes, text)
		}
	}
	if removals[r.Removal] != "" && r.State != api.Gone && r.State != api.Withdrawn {
		shown.Notes = append(shown.Notes, "removal is asked for")
	}
	if l.waits(r) {
		shown.Notes = append(shown.Notes, "waits until "+l.moment(timeOf(r.Due)).Text)
	}
	if shown.Reason = cut(why(r), longestReason); shown.Reason != "" {
		shown.Notes = append(shown.Notes, shown.Reason)
	}
	return shown
}

// leastWait is how long a further try must still wait for the wait to be shown.
const leastWait = time.Second

// waits reports whether a row is a further try that isn't due yet.
func (l look) waits(r api.Record) bool {
	return r.State == api.Ordered && r.Try > 1 && timeOf(r.Due).Sub(l.now) >= leastWait
}

// why is what explains the state of a row: that it can't be read, why it was abandoned, what its deletion was answered,
// or why its creation has failed. It is empty if nothing is wrong.
func why(r api.Record) string {
	if text := unreadable(r); text != "" {
		return text
	}
	isRejected := r.Last != nil && (r.Last.Lost != "" || r.Last.Status >= 400)
	switch r.State {
	case api.Abandoned:
		return plain(r.Because)
	case api.Cleaning, api.CleaningPolling, api.Wanted, api.Polling:
		if isRejected {
			return inOne(r.Last)
		}
	}
	return inOne(r.Failure)
}

// unreadable is why a row can't be read, as a sentence, or empty.
func unreadable(r api.Record) string {
	if r.Unreadable == "" {
		return ""
	}
	return "its record can't be read: " + plain(r.Unreadable)
}

// nameOf is the id as it is sent, or its number if it isn't known.
func nameOf(r api.Record) string {
	if r.ID == "" {
		return plain(r.Number)
	}
	return plain(r.ID)
}

// isBefore reports whether a row comes before another one by time and key.
func isBefore(a, b api.Record) bool {
	if !a.Since.Equal(b.Since) {
		return a.Since.Before(b.Since)
	}
	return a.Key() < b.Key()
}

// A leaf is one page of a list.
type leaf struct {
	api.List
	skipped              int // how many rows come before it
	hasPrevious, hasNext bool
}

// leaf reads a page of the rows in these states, or in all for none, of which there are so many.
func (l look) leaf(a target, of []string, total int) (leaf, error) {
	found, err := l.page_(a, of)
	if err != nil {
		return leaf{}, err
	}
	switch isBack := a.before != "" || a.isLast; {
	case !isBack:
		return leaf{List: found, skipped: a.skipped, hasPrevious: a.after != "", hasNext: found.Next != ""}, nil
	case found.Previous == "": // it begins where the list begins
		if !a.isLast {
			found, err = l.page_(a.first(), of)
		}
		return leaf{List: found, hasNext: found.Next != ""}, err
	}
	end := a.skipped
	if a.isLast {
		end = total
	}
	skipped := end - len(found.Items)
	if skipped < 0 { // rows were added, or have gone, since the page with the link
		skipped = 0
	}
	return leaf{List: found, skipped: skipped, hasPrevious: true, hasNext: !a.isLast}, nil
}

// page_ asks for the rows in these states by time and key, from the cursor that is asked for. Errors: errNoPage if that
// is none.
func (l look) page_(a target, of []string) (api.List, error) {
	query := api.Query{
		Kind: api.Instances, States: of, Order: a.order, Life: spans + 1, Limit: size,
		After: a.after, Before: a.before, Last: a.isLast,
	}
	if a.bindings {
		query.Kind = api.Bindings
	}
	if a.order == usualOrder {
		query.Order = api.Newest
	}
	found, err := l.reader.List(l.ctx, query)
	if errors.Is(err, api.ErrMalformed) && a.after+a.before != "" {
		return api.List{}, errNoPage
	}
	return found, err
}

// pagesOf are the links to other pages of a list. There are none if the list has one page.
func pagesOf(a target, shown leaf) []link {
	if !shown.hasPrevious && !shown.hasNext {
		return nil
	}
	first, previous, next, last := a.first(), a.first(), a.first(), a.first()
	last.isLast = true
	if len(shown.Items) > 0 {
		previous.before, previous.skipped = shown.Previous, shown.skipped
		next.after, next.skipped = shown.Next, shown.skipped+len(shown.Items)
	}
	return []link{
		{Word: "First", Anchor: "page-first", Href: first.target(), IsNone: !shown.hasPrevious},
		{Word: "Previous", Anchor: "page-previous", Href: previous.target(), IsNone: !shown.hasPrevious},
		{Word: "Next", Anchor: "page-next", Href: next.target(), IsNone: !shown.hasNext},
		{Word: "Last", Anchor: "page-last", Href: last.target(), IsNone: !shown.hasNext},
	}
}

// ordersOf are the links to the same list in each order.
func ordersOf(a target) (links []link) {
	for _, test := range []struct {
		order        api.Ordering
		word, anchor string
	}{
		{usualOrder, "Newest first", "order-newest"}, {api.Oldest, "Oldest first", "order-oldest"},
		{api.ByNumber, "By number", "order-number"},
	} {
		to := a.first()
		to.order = test.order
		links = append(links, link{Word: test.word, Anchor: test.anchor, Href: to.target(), IsHere: a.order == test.order})
	}
	return links
}
