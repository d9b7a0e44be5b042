package page

import (
	"net/url"
	"strconv"

	"pippinterm/platform/api"
)

// one is the page of an instance or a binding.
func (l look) one(path string, query url.Values, f frame) (*one, error) {
	instance, binding, err := idsOf(path)
	if err != nil {
		return nil, err
	}
	for name := range query {
		if name != "still" {
			return nil, errNoPage
		}
	}
	r, err := l.reader.Show(l.ctx, instance, binding)
	if err != nil {
		return nil, err
	}
	if err := l.asOf(timeOf(r.Now), &f); err != nil {
		return nil, err
	}
	f.still(l.isStill, targetOf(r, !l.isStill))
	o := &one{frame: f, ID: nameOf(r), Heading: "Instance", State: plain(r.State), Since: l.moment(r.Since)}
	o.Title = o.State + ": " + o.ID
	o.Todo = todo(r)
	l.whole(o, r)
	tries, err := l.tries(r)
	if err != nil {
		return nil, err
	}
	o.Known, o.Tries = l.facts(r, l.whyBefore(r, tries)), l.chain(tries)
	if r.IsBinding() {
		o.Heading = "Binding"
		return o, nil
	}
	o.Bindings, err = l.bindings(r)
	return o, err
}

// todo is what a person has to do. A number has none of the `, around which commands stand.
func todo(r api.Record) []words {
	remove := "osb-platform remove "
	if r.IsBinding() {
		remove = "osb-platform unbind "
	}
	switch r.State {
	case api.Unsettled:
		return parseWords("It needs attention: nobody knows whether the broker holds it, or another one under the same " +
			"id. Run `osb-platform ask " + r.Key() + "`, which asks the broker for its last operation and prints what " +
			"to do. Run `" + remove + r.Key() + "` only if `ask` advises it, for example after a 410, or after a 200 " +
			"if it is yours: that deletes it at the broker.")
	case api.Abandoned:
		return parseWords("It was abandoned. Nothing is sent for it any more, and nobody knows whether the broker holds it.")
	}
	return nil
}

// whole is a life as a table: a row for each state, with how long it lasted.
func (l look) whole(o *one, r api.Record) {
	stays := livedBy(r)
	number := r.Omitted + len(stays)
	o.LifeCaption = count(number, "state")
	if before := len(stays) - 1 - longest; before > 0 {
		stays = stays[before:]
	}
	if before := number - len(stays); before > 0 {
		o.LifeCaption += ", of which the first " + thousands(before) + " aren't shown"
	}
	o.Life = l.life(stays)
	for at := range o.Life {
		o.Life[at].Number = thousands(number - len(stays) + at + 1)
		if at+1 == len(stays) {
			o.Life[at].Lasted = lasting(l.now.Sub(stays[at].Since)) + " until now"
		} else {
			o.Life[at].Lasted = lasting(stays[at+1].Since.Sub(stays[at].Since))
		}
	}
}

// tries are all orders of a chain, if there may be one.
func (l look) tries(r api.Record) ([]api.Record, error) {
	if r.Try <= 1 && !r.FailureMayPass {
		return nil, nil
	}
	query := api.Query{
		Kind: api.Instances, First: r.First, Order: api.ByState, Life: spans + 1, Limit: mostBound,
	}
	if r.IsBinding() {
		query.Kind, query.Of = api.Bindings, r.InstanceNumber
	}
	found, err := l.reader.List(l.ctx, query)
	return found.Items, err
}

// whyBefore is why the try before has failed, if this is a further try that waits.
func (l look) whyBefore(r api.Record, tries []api.Record) *api.Reason {
	if !l.waits(r) {
		return nil
	}
	for _, try := range tries {
		if try.Try == r.Try-1 {
			return try.Failure
		}
	}
	return nil
}

// chain shows the tries of an order that was tried again, and is nil for any other order.
func (l look) chain(tries []api.Record) *table {
	if len(tries) < 2 {
		return nil
	}
	shown := &table{
		Caption: thousands(len(tries)) + " tries of one order, each under another id", Items: l.itemsOf(tries, "try"),
	}
	for at, try := range tries {
		shown.Items[at].Of = "" // that of this page
		shown.Items[at].Notes = append([]string{"try " + strconv.Itoa(try.Try)}, shown.Items[at].Notes...)
	}
	return shown
}

// bindings are those of an instance.
func (l look) bindings(r api.Record) (*table, error) {
	found, err := l.reader.List(l.ctx, api.Query{
		Kind: api.Bindings, Of: r.Number, Order: api.ByState, Life: spans + 1, Limit: mostBound,
	})
	if err != nil {
		return nil, err
	}
	shown := &table{Caption: count(len(found.Items), "binding") + ", by state", Items: l.itemsOf(found.Items, "b")}
	if found.Next != "" {
		shown.Caption = "The first " + thousands(len(found.Items)) + ", by state"
	}
	for at := range shown.Items {
		shown.Items[at].Of = "" // the instance of this page
	}
	return shown, nil
}

// facts is what is known of a row. What it was ordered with may be secret, and isn't shown. before is why the try
// before has failed, if the row is a further try that waits.
func (l look) facts(r api.Record, before *api.Reason) (all []fact) {
	text := func(name, text string) {
		if text != "" {
			all = append(all, fact{Name: name, Text: cut(plain(text), longestText)})
		}
	}
	code := func(name, text string) {
		if text != "" {
			all = append(all, fact{Name: name, Text: cut(plain(text), longestText), IsCode: true})
		}
	}
	when := func(name string, at *moment) {
		if at != nil {
			all = append(all, fact{Name: name, When: at})
		}
	}
	if r.IsBinding() {
		all = append(all, fact{
			Name: "Instance", Text: plain(r.InstanceID), Anchor: "instance", Href: targetOfIDs(l.isStill, r.InstanceNumber),
		})
	}
	text("Record", unreadable(r))
	text("In flight", inWords(flightOf(r, l.now)))
	when("Next step", momentAt(r.Due, l.now))
	text("Asked for", removals[r.Removal])
	text("Abandoned", r.Because)
	said := func(name string, reason *api.Reason) {
		if text := inOne(reason); text != "" {
			all = append(all, fact{Name: name, Text: text, When: saidAt(reason, l.now)})
		}
	}
	said("Last answer", r.Last)
	said("Why it failed", r.Failure)
	said("Why the try before failed", before)
	if r.State == api.Polling || r.State == api.CleaningPolling {
		when("Polled since", momentAt(r.PolledSince, l.now))
	}
	if r.Attempt != nil {
		text("Sent", count(int(*r.Attempt), "request"))
	}
	if r.Unchanged > 0 {
		text("Nothing changed by", "the last "+count(r.Unchanged, "request"))
	}
	if r.Operation != nil {
		code("Operation", *r.Operation)
	}
	if r.Tries > 1 {
		text("Try", strconv.Itoa(r.Try)+" of "+strconv.Itoa(r.Tries))
	}
	text("Broker", r.Broker)
	code("Service", r.ServiceID)
	code("Plan", r.PlanID)
	if r.Number != nameOf(r) {
		code("Number", r.Number)
	}
	code("Organization", r.Organization)
	code("Space", r.Space)
	code("Dashboard", r.Dashboard)
	code("Metadata", spaceJSON(r.Metadata))
	return all
}

func inWords(kind, worker string) string {
	if kind == "" {
		return "no request"
	}
	return kind + ", " + worker
}

var removals = map[string]string{
	api.Removed: "its removal", api.RemovedWithBindings: "its removal, and that of its bindings first",
}
