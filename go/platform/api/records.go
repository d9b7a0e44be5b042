package api

import (
	"encoding/json"
	"time"

	"pippinterm/osb"
	"pippinterm/platform"
)

// The states in which an instance or a binding may be.
const (
	Ordered         = string(platform.Ordered)
	Withdrawn       = string(platform.Withdrawn)
	Wanted          = string(platform.Wanted)
	Polling         = string(platform.Polling)
	Ready           = string(platform.Ready)
	Cleaning        = string(platform.Cleaning)
	CleaningPolling = string(platform.CleaningPolling)
	Gone            = string(platform.Gone)
	Unsettled       = string(platform.Unsettled)
	Abandoned       = string(platform.Abandoned)
)

// The values of Record.Removal.
const (
	NotRemoved          = "none"
	Removed             = "removed"
	RemovedWithBindings = "removed_with_bindings"
)

// A Record is an instance or a binding as the API answers it. The parameters, the context and the originating identity
// of an order may be secret, and aren't in it.
type Record struct {
	ID     string `json:"id"`     // as it is sent to the broker
	Number string `json:"number"` // of the ID, as a GUID
	// InstanceID and InstanceNumber are those of the instance of a binding. Of an instance they are empty.
	InstanceID     string `json:"instance_id,omitempty"`
	InstanceNumber string `json:"instance_number,omitempty"`

	Broker       string `json:"broker"`
	ServiceID    string `json:"service_id"`
	PlanID       string `json:"plan_id"`
	Organization string `json:"organization_guid"`
	Space        string `json:"space_guid"`

	State   string     `json:"state"`
	Since   time.Time  `json:"since"`
	Removal string     `json:"removal"`       // what was asked for: NotRemoved, Removed or RemovedWithBindings
	Due     *time.Time `json:"due,omitempty"` // when the next step is due, or nil if nothing is to be done

	Operation   *string    `json:"operation,omitempty"` // the broker's name for the operation that is polled, or nil
	PolledSince *time.Time `json:"polled_since,omitempty"`
	Attempt     *uint64    `json:"attempt,omitempty"`  // the number of the last request, or nil before the first
	Unchanged   int        `json:"unchanged_requests"` // how many requests in turn have changed nothing
	InFlight    *Flight    `json:"in_flight,omitempty"`

	Try     int     `json:"try"`   // 1 for the first order, 2 for the next after a passing reason, and so on
	Tries   int     `json:"tries"` // the largest number of tries
	First   string  `json:"first"` // the number of the first try
	Last    *Reason `json:"last,omitempty"`
	Failure *Reason `json:"failure,omitempty"` // why the creation has failed
	// FailureMayPass says that the order may be tried again under another id.
	FailureMayPass bool `json:"failure_may_pass,omitempty"`

	Dashboard string          `json:"dashboard_url,omitempty"`
	Metadata  json.RawMessage `json:"metadata,omitempty"` // an object, or nil
	Because   string          `json:"because,omitempty"`  // why it was abandoned
	// Unreadable is platform.Entry.Unreadable.
	Unreadable string `json:"unreadable,omitempty"`

	// Life are the last of its states, the current one last, as many as the query asks for. Omitted is how many states
	// come before them.
	Life    []Stay     `json:"life,omitempty"`
	Omitted int        `json:"life_omitted,omitempty"`
	Now     *time.Time `json:"now,omitempty"` // the store's time, or nil in a list
}

// IsBinding reports whether the record is a binding, and not an instance.
func (r Record) IsBinding() bool { return r.InstanceNumber != "" }

// Key returns the number of an instance, or that of a binding's instance, a slash, and that of the binding.
func (r Record) Key() string {
	if r.IsBinding() {
		return r.InstanceNumber + "/" + r.Number
	}
	return r.Number
}

// A Flight is the request in flight, and the worker that has sent it.
type Flight struct {
	Kind    string     `json:"kind"` // provision, poll, deprovision, bind or unbind
	Attempt uint64     `json:"attempt"`
	Worker  string     `json:"worker,omitempty"`
	Until   *time.Time `json:"until,omitempty"` // when the lease of the worker ends
}

// A Reason is a platform.Reason.
type Reason struct {
	At          time.Time `json:"at"`
	Kind        string    `json:"kind"`             // of the request
	Status      int       `json:"status,omitempty"` // of the answer, or 0 if none arrived
	Error       string    `json:"error,omitempty"`
	Description string    `json:"description,omitempty"`
	Lost        string    `json:"lost,omitempty"` // why no answer was taken
}

// A Stay is a state, and the time at which it began.
type Stay struct {
	State string    `json:"state"`
	Since time.Time `json:"since"`
}

// A List is a page of records.
type List struct {
	Items []Record `json:"items"`
	// Next is the value of Query.After for the next page, and Previous that of Query.Before for the previous one. Each
	// is empty if there is no such page.
	Next     string `json:"next,omitempty"`
	Previous string `json:"previous,omitempty"`
}

// Counts are the numbers of records.
type Counts struct {
	Counts []Count   `json:"counts"`
	Now    time.Time `json:"now"` // the store's time
}

// A Count is the number of records of a kind at a broker that are in a state.
type Count struct {
	Broker string    `json:"broker"`
	Kind   string    `json:"kind"` // instance or binding
	State  string    `json:"state"`
	Count  int       `json:"count"`
	Oldest time.Time `json:"oldest"`
}

// A Broker is a broker without its password, and without the path of a file with it.
type Broker struct {
	Name string `json:"name"`
	URL  string `json:"url"`
	User string `json:"user"`
	// Password says where the password is: store, file, or none.
	Password    string          `json:"password"`
	Settings    Settings        `json:"settings"`
	Store       string          `json:"store,omitempty"`
	CatalogueAt *time.Time      `json:"catalogue_at,omitempty"` // of the last catalogue, or nil for none
	Catalogue   json.RawMessage `json:"catalogue,omitempty"`    // only of one broker
	Reason      *Reason         `json:"reason,omitempty"`       // why the catalogue couldn't be read last
}

// Settings are the settings of a broker in seconds.
type Settings struct {
	Hold        *float64 `json:"hold_seconds,omitempty"`
	FirstPace   *float64 `json:"first_pace_seconds,omitempty"`
	LongestPace *float64 `json:"longest_pace_seconds,omitempty"`
	LongestPoll *float64 `json:"longest_poll_seconds,omitempty"`
}

// recordOf returns an entry as a record, without its life.
func recordOf(e platform.Entry) Record {
	r := Record{
		ID: e.Names.Instance, Number: e.Key.ID().String(),
		Broker: e.Broker, ServiceID: e.Names.Service, PlanID: e.Names.Plan,
		Organization: e.Organization, Space: e.Space,
		State: string(e.State), Since: utc(e.Since), Removal: removals[e.Removal], Due: timeOf(e.Due),
		Operation: e.Operation, PolledSince: timeOf(e.PolledSince), Unchanged: e.Unchanged, InFlight: flightOf(e),
		Try: e.Try, Tries: e.Tries, First: e.First.String(), Last: reasonOf(e.Last), Failure: reasonOf(e.Failure),
		FailureMayPass: e.Passing, Dashboard: e.Dashboard, Because: e.Because, Unreadable: e.Unreadable,
	}
	if json.Valid(e.Metadata) { // otherwise no record of the list could be answered
		r.Metadata = printable(e.Metadata)
	}
	if e.IsSent {
		attempt := e.Record.Attempt()
		r.Attempt = &attempt
	}
	if e.Key.IsBinding {
		r.ID, r.InstanceID, r.InstanceNumber = e.Names.Binding, e.Names.Instance, e.Key.Instance.String()
	}
	return r
}

var removals = map[platform.Removal]string{
	platform.NotRemoved: NotRemoved, platform.Removed: Removed, platform.RemovedWhole: RemovedWithBindings,
}

var (
	kinds = map[osb.Kind]string{
		osb.KindProvision: "provision", osb.KindPoll: "poll", osb.KindDeprovision: "deprovision",
	}
	kindsOfBindings = map[osb.Kind]string{
		osb.KindProvision: "bind", osb.KindPoll: "poll", osb.KindDeprovision: "unbind",
	}
)

func flightOf(e platform.Entry) *Flight {
	if !e.IsSent || e.Record.InFlight() == osb.KindNone {
		return nil
	}
	names := kinds
	if e.Key.IsBinding {
		names = kindsOfBindings
	}
	return &Flight{
		Kind: names[e.Record.InFlight()], Attempt: e.Record.Attempt(), Worker: e.Lease.Worker,
		Until: timeOf(e.Lease.Until),
	}
}

func reasonOf(reason platform.Reason) *Reason {
	if reason == (platform.Reason{}) {
		return nil
	}
	return &Reason{
		At: utc(reason.At), Kind: reason.Kind, Status: reason.Status, Error: reason.Error,
		Description: reason.Description, Lost: reason.Lost,
	}
}

// brokerOf returns a broker as the API answers it. Without showsCauses it doesn't say why there was no connection:
// otherwise whoever adds a broker would see which ports are open on the network of this program.
func brokerOf(broker platform.Broker, showsCauses bool) Broker {
	b := Broker{
		Name: broker.Name, URL: broker.URL, User: broker.User, Password: "none",
		Settings: Settings{
			secondsOf(broker.Settings.Hold), secondsOf(broker.Settings.FirstPace),
			secondsOf(broker.Settings.LongestPace), secondsOf(broker.Settings.LongestPoll),
		},
		Store: broker.Store, CatalogueAt: timeOf(broker.CatalogueAt), Reason: reasonOf(broker.Reason),
	}
	switch {
	case broker.PasswordFile != "":
		b.Password = "file"
	case broker.Password != nil:
		b.Password = "store"
	}
	if b.Reason != nil && b.Reason.Status == 0 && !showsCauses {
		b.Reason.Lost = "no answer came: 'osb-platform broker list' and the log of a worker say why"
	}
	return b
}

func secondsOf(duration *time.Duration) *float64 {
	if duration == nil {
		return nil
	}
	seconds := duration.Seconds()
	return &seconds
}

// timeOf is a time, or nil for none.
func timeOf(at time.Time) *time.Time {
	if at.IsZero() {
		return nil
	}
	at = utc(at)
	return &at
}

// utc is a time in UTC. JSON has no year behind 9999: a time that a damaged store has there is the zero time.
func utc(at time.Time) time.Time {
	if at = at.UTC(); at.Year() < 0 || at.Year() > 9999 {
		return time.Time{}
	}
	return at
}
