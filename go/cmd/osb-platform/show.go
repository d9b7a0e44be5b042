package main

import (
	"context"
	"encoding/json"
	"fmt"
	"net/http"
	"strconv"
	"strings"
	"time"

	"github.com/spf13/cobra"

	"pippinterm/platform"
)

// showCommand shows all that is known of one row.
func showCommand(a *app) *cobra.Command {
	inJSON := false
	made := &cobra.Command{
		Use:   "show ID",
		Short: "Show what is known of an instance or a binding",
		Long: `Show what is known of an instance or a binding, each fact on a line with its name before a tab:
among others the reasons, the states it was in, and the ids of all tries of its order. Parameters and
credentials aren't shown.`,
		Example: `  osb-platform show 5f1b7c0e-2f0b-4d0a-9d3e-6a3f0e1f2a3b --json`,
		Args:    wants("ID"),
		RunE: a.over(needsStore, func(ctx context.Context, c *cobra.Command, s session, arguments []string) error {
			all, err := readWhole(ctx, s.store, arguments[0])
			if err != nil {
				return err
			}
			if inJSON {
				return printJSON(c.OutOrStdout(), all.json())
			}
			for _, fact := range all.facts() {
				if _, err := fmt.Fprintf(c.OutOrStdout(), "%s\t%s\n", fact[0], fact[1]); err != nil {
					return err
				}
			}
			return nil
		}),
	}
	made.Flags().BoolVar(&inJSON, "json", false, "one object of JSON")
	return made
}

// A whole is an entry with its life and the tries of its order.
type whole struct {
	entryWithBroker
	life  []platform.Stay
	tries []platform.Entry
}

func readWhole(ctx context.Context, store platform.Store, id string) (whole, error) {
	entry, err := readEntry(ctx, store, id)
	if err != nil {
		return whole{}, err
	}
	life, err := store.Life(ctx, entry.Key)
	if err != nil {
		return whole{}, err
	}
	brokers, err := brokersOf(ctx, store)
	if err != nil {
		return whole{}, err
	}
	tries, err := triesOf(ctx, store, entry)
	if err != nil {
		return whole{}, err
	}
	before, err := tryBefore(ctx, store, entry)
	shown := entryWithBroker{Entry: entry, broker: brokers[entry.Broker], before: before}
	return whole{shown, entry.Before(life), tries}, err
}

// asked are the texts of what an operator has asked for.
var asked = map[platform.Removal]string{
	platform.Removed: "removal is asked for", platform.RemovedWhole: "removal is asked for, with all bindings",
}

// facts are what is known, each with its name before it.
func (w whole) facts() [][2]string {
	e, facts := w.Entry, [][2]string{}
	add := func(name, text string) {
		if text != "" {
			facts = append(facts, [2]string{name, text})
		}
	}
	add("id", printable(idOf(e)))
	add("state", string(e.State))
	add("since", moment(e.Since))
	add("service", printable(e.Names.Service))
	add("plan", printable(e.Names.Plan))
	add("broker", printable(e.Broker))
	add("organization", printable(e.Organization))
	add("space", printable(e.Space))
	add("asked", asked[e.Removal])
	add("due", momentOf(e.Due))
	add("waits", strings.TrimPrefix(w.waits(), "waits "))
	if e.State == platform.Polling || e.State == platform.CleaningPolling {
		add("polled since", momentOf(e.PolledSince))
	}
	if e.Operation != nil {
		add("operation", printable(*e.Operation))
	}
	add("worker", printable(e.Lease.Worker))
	add("leased until", momentOf(e.Lease.Until))
	switch {
	case e.Unreadable != "":
		add("record", unreadable(e))
	case e.IsSent:
		add("record", e.Record.String())
	}
	add("dashboard", printable(e.Dashboard))
	add("metadata", printable(string(e.Metadata)))
	add("last reason", at(e.Last))
	add("broker's reason", at(w.brokerReason()))
	add("failure", at(e.Failure))
	add("abandoned because", printable(e.Because))
	if len(w.tries) > 1 {
		for _, try := range w.tries {
			add(fmt.Sprintf("try %d of %d", try.Try, try.Tries), printable(idOf(try))+" "+string(try.State))
		}
	}
	for _, stay := range w.life {
		add("was", moment(stay.Since)+" "+string(stay.State))
	}
	return facts
}

func momentOf(at time.Time) string {
	if at.IsZero() {
		return ""
	}
	return moment(at)
}

// at is a reason, behind its time.
func at(r platform.Reason) string {
	if r == (platform.Reason{}) {
		return ""
	}
	return moment(r.At) + " " + textOf(r)
}

// An entryJSON is what --json prints of an instance or a binding. Its members stay as they are.
type entryJSON struct {
	ID           string           `json:"id"`
	Instance     string           `json:"instance"`
	Binding      string           `json:"binding,omitempty"`
	State        platform.State   `json:"state"`
	Since        time.Time        `json:"since"`
	Broker       string           `json:"broker"`
	Service      string           `json:"service"`
	Plan         string           `json:"plan"`
	Organization string           `json:"organization"`
	Space        string           `json:"space"`
	Asked        string           `json:"asked,omitempty"`
	Due          *time.Time       `json:"due,omitempty"`
	PolledSince  *time.Time       `json:"polled_since,omitempty"`
	Operation    *string          `json:"operation,omitempty"`
	Worker       string           `json:"worker,omitempty"`
	LeasedUntil  *time.Time       `json:"leased_until,omitempty"`
	Last         *platform.Reason `json:"last_reason,omitempty"`
	Failure      *platform.Reason `json:"failure,omitempty"`
	BrokerReason *platform.Reason `json:"broker_reason,omitempty"`
	TryBefore    *platform.Reason `json:"try_before_failure,omitempty"`
	Because      string           `json:"abandoned_because,omitempty"`
	Unreadable   string           `json:"unreadable,omitempty"`
	Dashboard    string           `json:"dashboard_url,omitempty"`
	Metadata     json.RawMessage  `json:"metadata,omitempty"`
	Try          int              `json:"try"`
	Tries        int              `json:"tries"`
}

func jsonOf(e entryWithBroker) entryJSON {
	return entryJSON{
		ID: idOf(e.Entry), Instance: e.Names.Instance, Binding: e.Names.Binding, State: e.State, Since: e.Since.UTC(),
		Broker: e.Broker, Service: e.Names.Service, Plan: e.Names.Plan, Organization: e.Organization, Space: e.Space,
		Asked: asked[e.Removal], Due: timeOf(e.Due), PolledSince: timeOf(e.PolledSince), Operation: e.Operation,
		Worker: e.Lease.Worker, LeasedUntil: timeOf(e.Lease.Until), Last: reason(e.Last), Failure: reason(e.Failure),
		BrokerReason: reason(e.brokerReason()), TryBefore: reason(e.before.Failure), Because: e.Because,
		Unreadable: e.Unreadable, Dashboard: e.Dashboard, Metadata: e.Metadata, Try: e.Try, Tries: e.Tries,
	}
}

func timeOf(at time.Time) *time.Time {
	if at.IsZero() {
		return nil
	}
	at = at.UTC()
	return &at
}

func reason(r platform.Reason) *platform.Reason {
	if r == (platform.Reason{}) {
		return nil
	}
	return &r
}

// A wholeJSON is what show --json prints.
type wholeJSON struct {
	entryJSON
	Life  []stay `json:"life"`
	Chain []try  `json:"chain"`
}

type stay struct {
	State platform.State `json:"state"`
	Since time.Time      `json:"since"`
}

type try struct {
	ID    string         `json:"id"`
	State platform.State `json:"state"`
}

func (w whole) json() wholeJSON {
	made := wholeJSON{entryJSON: jsonOf(w.entryWithBroker), Life: []stay{}, Chain: []try{}}
	for _, one := range w.life {
		made.Life = append(made.Life, stay{State: one.State, Since: one.Since.UTC()})
	}
	for _, other := range w.tries {
		made.Chain = append(made.Chain, try{ID: idOf(other), State: other.State})
	}
	return made
}

// reasonOf is why a row is as it is, in one line, or empty: of what is gone, why its creation has failed, if it has.
func reasonOf(e platform.Entry) string {
	switch {
	case e.Unreadable != "":
		return unreadable(e)
	case e.Because != "":
		return printable(e.Because)
	case e.State == platform.Gone && e.Failure != (platform.Reason{}):
		return textOf(e.Failure)
	}
	return textOf(e.Last)
}

// An entryWithBroker is an entry with its broker, and with the try before it if it is a further try that waits.
type entryWithBroker struct {
	platform.Entry
	broker platform.Broker // the zero Broker if it is unknown
	before platform.Entry  // or the zero Entry
}

// reason is why a row is as it is, in one line, or empty. If the row says nothing, it is why it waits, or the reason of
// its broker, marked as such.
func (p entryWithBroker) reason() string {
	text := reasonOf(p.Entry)
	if waits := p.waits(); text == "" && waits != "" {
		return waits
	}
	if of := textOf(p.brokerReason()); text == "" && of != "" {
		return "broker: " + of
	}
	return text
}

// brokerReason is why the broker hasn't answered its catalogue, if something is to be sent for the row.
func (p entryWithBroker) brokerReason() platform.Reason {
	if p.Rests() {
		return platform.Reason{}
	}
	return p.broker.Reason
}

// waits is until when a further try waits, and why, in one line that begins with "waits", or empty.
func (p entryWithBroker) waits() string {
	if p.before.Failure == (platform.Reason{}) {
		return ""
	}
	text := "waits until " + moment(p.Due)
	if wait := p.Due.Sub(p.before.Failure.At); wait <= p.before.After*3/2 { // up to a half is chance
		text += ", as the broker has asked"
	}
	return text + ". The try before: " + textOf(p.before.Failure)
}

// leastWait is how long a further try must still wait for the wait to be shown.
const leastWait = time.Second

// tryBefore is the try before a further try that waits, or the zero Entry for any other row.
func tryBefore(ctx context.Context, store platform.Store, e platform.Entry) (platform.Entry, error) {
	if e.State != platform.Ordered || e.Try <= 1 || time.Until(e.Due) < leastWait {
		return platform.Entry{}, nil
	}
	all, err := triesOf(ctx, store, e)
	for _, text := range all {
		if text.Try == e.Try-1 {
			return text, err
		}
	}
	return platform.Entry{}, err
}

// brokersOf are the brokers of a store, by their names.
func brokersOf(ctx context.Context, store platform.Store) (map[string]platform.Broker, error) {
	all, err := store.Brokers(ctx)
	if err != nil {
		return nil, err
	}
	byName := map[string]platform.Broker{}
	for _, broker := range all {
		byName[broker.Name] = broker
	}
	return byName, nil
}

// unreadable is why a row can't be read, in one line, or empty.
func unreadable(e platform.Entry) string {
	if e.Unreadable == "" {
		return ""
	}
	return "its record can't be read: " + printable(e.Unreadable)
}

// rejections are what a broker has done that has answered a request with one of these statuses. The body of such an
// answer says little: it is often that of a proxy.
var rejections = map[int]string{
	http.StatusUnauthorized: "the broker rejects the user or the password",
	http.StatusForbidden:    "the broker doesn't let this user in",
}

// kindOfCatalogue is the kind of the reason why a broker hasn't answered its catalogue. That reason is a whole sentence.
const kindOfCatalogue = "catalogue"

// textOf is a reason in one line.
func textOf(r platform.Reason) string {
	switch {
	case r == (platform.Reason{}):
		return ""
	case r.Kind == kindOfCatalogue && r.Lost != "":
		return printable(r.Lost)
	}
	parts := []string{r.Kind}
	if r.Status != 0 {
		parts = append(parts, strconv.Itoa(r.Status))
	}
	said := printableTexts(r.Error, r.Description)
	if rejection := rejections[r.Status]; rejection != "" {
		return strings.Join(append([]string{strings.Join(parts, " "), rejection}, said...), ": ")
	}
	lost := strings.TrimPrefix(strings.TrimPrefix(r.Lost, fmt.Sprintf("status %d: ", r.Status)), "osb: ")
	return strings.Join(append(append(parts, said...), printableTexts(lost)...), " ")
}

// printableTexts are those of the texts that aren't empty, as a terminal can show them.
func printableTexts(texts ...string) (all []string) {
	for _, text := range texts {
		if text != "" {
			all = append(all, printable(text))
		}
	}
	return all
}
