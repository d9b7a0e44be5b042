package page

import (
	"context"
	"errors"
	"net/http"
	"net/url"
	"sort"
	"strings"
	"time"

	"pippinterm/platform/api"
)

const (
	size       = 50   // rows of a page
	longestID  = 64   // characters of an id in a table
	short      = 5    // rows of what waits and of what is in flight, on the first page
	spans      = 6    // states of a life in a list, besides the one that lasts
	longest    = 1000 // states of a life on the page of its row
	mostFlying = 100  // rows that are read of what is in flight
	mostBound  = 200  // bindings and tries on the page of an instance
)

// errNoTime reports that the store's time is missing, by which the page shows how long something lasts.
var errNoTime = errors.New("the store hasn't returned its time")

// A maker makes pages of what a reader reads.
type maker struct {
	reader       api.Reader
	longCleaning time.Duration
}

// A look is a maker at one moment, for one request.
type look struct {
	maker
	ctx     context.Context
	now     time.Time // the store's, from the first answer on
	isStill bool      // whether the page isn't refreshed, and neither are those that it links to
}

// read makes what a URL asks for: the name of a template, and what it shows. Errors: errNoPage, those of the reader.
func (m maker) read(ctx context.Context, at *url.URL, f frame) (name string, shown any, err error) {
	query, err := url.ParseQuery(at.RawQuery)
	if err != nil {
		return "", nil, errNoPage
	}
	l := look{maker: m, ctx: ctx, isStill: query.Has("still")}
	if strings.HasPrefix(at.Path, "/instance/") {
		shown, err = l.one(at.EscapedPath(), query, f)
		return "one", shown, err
	}
	if at.Path != "/" {
		return "", nil, errNoPage
	}
	a, err := readAsked(query)
	if err != nil {
		return "", nil, err
	}
	shown, err = l.overview(a, f)
	return "overview", shown, err
}

// asOf has the page show what is so at a time.
func (l *look) asOf(now time.Time, f *frame) error {
	if now.IsZero() {
		return errNoTime
	}
	l.now, f.Now = now, *momentOf(now, now)
	return nil
}

// Counts of rows.
type counts struct {
	of  map[bool]map[string]int // by whether they are of bindings
	all map[bool]int
}

func countsOf(found []api.Count) counts {
	c := counts{of: map[bool]map[string]int{false: {}, true: {}}, all: map[bool]int{}}
	for _, count := range found {
		isBinding := count.Kind == "binding"
		c.of[isBinding][count.State] += count.Count
		c.all[isBinding] += count.Count
	}
	return c
}

func (l look) overview(a target, f frame) (*overview, error) {
	read, err := l.reader.Counts(l.ctx)
	if err != nil {
		return nil, err
	}
	if err := l.asOf(read.Now, &f); err != nil {
		return nil, err
	}
	c, other := countsOf(read.Counts), a
	other.isStill = !a.isStill
	f.still(a.isStill, other.target())
	f.Find = a.find
	o := &overview{frame: f, Heading: heading(a), IsFirst: a.isFirst()}
	flights, err := l.flights(a)
	if err != nil {
		return nil, err
	}
	o.States = navs(a, c, flights)
	if o.IsFirst {
		if err := l.parts(o, a, c, flights); err != nil {
			return nil, err
		}
	}
	o.Title = titleOf(a, c)
	return o, l.list(o, a, c, flights)
}

// titleOf shows in the browser's tab what waits.
func titleOf(a target, c counts) string {
	title := count(c.all[false], "instance")
	if waiting := c.of[false][api.Unsettled] + c.of[true][api.Unsettled]; waiting > 0 {
		title += ", " + thousands(waiting) + " unsettled"
	}
	if a.state != "" || a.find != "" || a.bindings {
		title = plain(heading(a)) + " - " + title
	}
	return title
}

func heading(a target) string {
	what := "instances"
	if a.bindings {
		what = "bindings"
	}
	switch {
	case a.find != "":
		return "Ids that begin with " + plain(a.find)
	case a.state == inFlight:
		return "In flight"
	case a.state == "":
		return "All " + what
	}
	return strings.ToUpper(what[:1]) + what[1:] + " that are " + a.state
}

// navs are the links to the rows of each state: for instances of all states, and for bindings of those in which there
// are some.
func navs(a target, c counts, flights []api.Record) []nav {
	instances := navOf(a, c, false)
	flying := thousands(len(flights))
	if len(flights) == mostFlying {
		flying += " or more"
	}
	instances.Links = append(instances.Links, link{
		Href: target{state: inFlight, isStill: a.isStill}.target(), Anchor: "go-in-flight", Count: flying,
		Kind: inFlight, Word: "in flight", IsHere: a.state == inFlight && a.find == "", IsNone: len(flights) == 0,
	})
	if c.all[true] == 0 {
		return []nav{instances}
	}
	instances.IsNamed = true
	return []nav{instances, navOf(a, c, true)}
}

func navOf(a target, c counts, bindings bool) nav {
	n, prefix := nav{Name: "Instances"}, "go-"
	if bindings {
		n, prefix = nav{Name: "Bindings", IsNamed: true}, "go-binding-"
	}
	add := func(state, word string, number int) {
		n.Links = append(n.Links, link{
			Href: target{state: state, bindings: bindings, isStill: a.isStill}.target(), Anchor: prefix + word,
			Count: thousands(number), Kind: word, Word: word, IsNone: number == 0,
			IsHere: a.state == state && a.find == "" && a.bindings == bindings,
		})
	}
	add("", "all", c.all[bindings])
	for _, state := range states {
		if number := c.of[bindings][state]; number > 0 || !bindings || a.state == state && a.bindings {
			add(state, state, number)
		}
	}
	return n
}

// flights are the rows with a request in flight. A lease that has run out may be that of a slow worker, or of one that
// is dead: the request is in flight until it is given up. They have their lives if they are the list of the page.
func (l look) flights(a target) ([]api.Record, error) {
	life := 0
	if a.find == "" && a.state == inFlight {
		life = spans + 1
	}
	return l.reader.InFlight(l.ctx, mostFlying, life)
}

// parts are those of the first page: what waits, what is in flight, the brokers.
func (l look) parts(o *overview, a target, c counts, flights []api.Record) error {
	var err error
	if o.Waiting, err = l.waiting(a, c); err != nil { // what needs attention comes first
		return err
	}
	for _, flight := range flights {
		if len(o.Flights) < short {
			o.Flights = append(o.Flights, l.item(flight, "flies"))
		}
	}
	o.FlightCaption = first(len(o.Flights), len(flights), "by the end of their lease")
	if len(flights) > short {
		o.MoreFlights = target{state: inFlight, isStill: a.isStill}.target()
	}
	brokers, err := l.reader.Brokers(l.ctx)
	if err != nil {
		return err
	}
	o.BrokerCaption = count(len(brokers), "broker") + ", by name"
	for _, broker := range brokers {
		shown := seller{
			Name: plain(broker.Name), URL: plain(broker.URL), CatalogueAt: momentAt(broker.CatalogueAt, l.now),
			Reason: cut(inOne(broker.Reason), longestReason), ReasonAt: saidAt(broker.Reason, l.now),
		}
		o.Brokers = append(o.Brokers, shown)
		if reason := broker.Reason; reason != nil && isDenial(reason.Status) {
			o.Rejected = append(o.Rejected, shown)
		}
	}
	return nil
}

// isDenial reports whether a status rejects the user or the password.
func isDenial(status int) bool {
	return status == http.StatusUnauthorized || status == http.StatusForbidden
}

// An attention is one kind of what waits for a person, as `osb-platform list` reports it.
type attention struct {
	states []string
	todo   string // with commands between `
	isLong bool   // whether only those wait that are in their state for longer than longCleaning
	// isUnreadable says that only those wait that can't be read. Such a row stays in its state, so it is among the
	// first size rows of that state.
	isUnreadable bool
}

const (
	todoUnreadable = "Nothing is sent for such a record. `osb-platform show ID` shows why it can't be read, and " +
		"`osb-platform list` finds all such records."
	todoUnsettled = "For each, run `osb-platform ask ID`, which asks the broker for its last operation and prints what " +
		"to do. Run `osb-platform remove ID` only if `ask` advises it, for example after a 410, or after a 200 if it is " +
		"yours: that deletes it at the broker."
	todoLong = "For each, see the broker's reason. `osb-platform retry ID` sends the deletion again, and " +
		"`osb-platform abandon ID` ends the record."
)

var attentions = []attention{
	{
		states: []string{
			api.Ordered, api.Wanted, api.Polling, api.Cleaning, api.CleaningPolling,
			api.Unsettled,
		},
		todo: todoUnreadable, isUnreadable: true,
	},
	{states: []string{api.Unsettled}, todo: todoUnsettled},
	{states: []string{api.Cleaning, api.CleaningPolling}, todo: todoLong, isLong: true},
}

// waiting is what waits for a person.
func (l look) waiting(a target, c counts) (all []waiting, err error) {
	for _, attention := range attentions {
		entries, number, err := l.those(attention, c)
		if err != nil {
			return nil, err
		}
		if len(entries) > 0 {
			all = append(all, l.waitingOf(attention, entries, number, a, c))
		}
	}
	return all, nil
}

// those are the rows that wait, the longest first: one more than is shown, if there are so many. number is how many
// there are, or 0 if that isn't counted.
func (l look) those(of attention, c counts) (found []api.Record, number int, err error) {
	var present []string
	for _, state := range of.states {
		if count := c.of[false][state] + c.of[true][state]; count > 0 {
			present, number = append(present, state), number+count
		}
	}
	switch {
	case len(present) == 0:
	case of.isUnreadable:
		found, err = l.unreadables(present)
		number = 0
	default:
		found, err = l.oldest(present)
	}
	if err == nil && of.isLong {
		found, number = l.long(found), 0
	}
	if len(found) > short+1 {
		found = found[:short+1]
	}
	return found, number, err
}

// oldest are those that are longest in one of these states.
func (l look) oldest(in []string) ([]api.Record, error) {
	found, err := l.reader.List(l.ctx, api.Query{
		Kind: api.Records, States: in, Order: api.Oldest, Limit: short + 1,
	})
	return found.Items, err
}

// long are those whose deletion goes on for long.
func (l look) long(records []api.Record) (found []api.Record) {
	for _, record := range records {
		if l.now.Sub(record.Since) >= l.longCleaning {
			found = append(found, record)
		}
	}
	return found
}

// unreadables are those that can't be read, the longest first.
func (l look) unreadables(in []string) (all []api.Record, err error) {
	for _, state := range in {
		found, err := l.reader.List(l.ctx, api.Query{
			Kind: api.Records, States: []string{state}, Unreadable: true, Order: api.ByState, Limit: size,
		})
		if err != nil {
			return nil, err
		}
		all = append(all, found.Items...)
	}
	sort.SliceStable(all, func(one, other int) bool { return isBefore(all[one], all[other]) })
	return all, nil
}

func (l look) waitingOf(of attention, entries []api.Record, number int, a target, c counts) waiting {
	w := waiting{Todo: parseWords(of.todo), Heading: thousands(number) + " " + of.states[0]}
	anchor := "waits"
	switch {
	case of.isLong:
		w.Heading = "Being deleted for over " + lasting(l.longCleaning)
	case of.isUnreadable:
		w.Heading, anchor = "Records that can't be read", "unreadable" // one that is unsettled may be there twice
	}
	isMore := len(entries) > short
	if isMore {
		entries = entries[:short]
	}
	if isMore && !of.isUnreadable { // no list has only those that can't be read
		w.More = moreOf(of, a, c)
	}
	for _, entry := range entries {
		w.Items = append(w.Items, l.item(entry, anchor))
	}
	switch {
	case isMore && number == 0:
		w.Caption = "The first " + thousands(short) + ", the longest first"
	case number == 0:
		w.Caption = first(len(entries), len(entries), "the longest first")
	default:
		w.Caption = first(len(entries), number, "the longest first")
	}
	return w
}

// moreOf are the links to all rows in the states of what waits.
func moreOf(of attention, a target, c counts) (found []link) {
	for _, bindings := range []bool{false, true} {
		word, anchor := "instance", "more-"
		if bindings {
			word, anchor = "binding", "more-binding-"
		}
		for _, state := range of.states {
			number := c.of[bindings][state]
			if number == 0 {
				continue
			}
			found = append(found, link{
				Href: target{
					state: state, bindings: bindings, order: api.Oldest, isStill: a.isStill,
				}.target(),
				Anchor: anchor + state, Word: "All " + count(number, state+" "+word),
			})
		}
	}
	return found
}

func first(shown, number int, order string) string {
	if shown == number {
		return thousands(number) + ", " + order
	}
	return "The first " + thousands(shown) + " of " + thousands(number) + ", " + order
}
