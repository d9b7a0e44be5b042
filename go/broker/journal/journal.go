// Package journal writes the journal of a broker (docs/journal.md): a Journal is the broker.Journal of a handler, and
// wraps the store and the backend of its service.
//
// Each line is written before anybody else can see what it reports: that of a change in its transaction, that of an
// answer before it leaves, and that of a call of the backend before the call begins. If the transaction fails, the line
// undone follows.
package journal

import (
	"context"
	"encoding/hex"
	"encoding/json"
	"fmt"
	"net/http"
	"sync/atomic"

	"pippinterm/broker"
	"pippinterm/internal/journalfile"
	"pippinterm/osb"
)

// A Journal is the journal of one process. Any number of goroutines use it.
type Journal struct {
	to         *Writer
	isDoubtful func(error) bool
	visits     atomic.Int64
	changes    changes
	texts      texts
}

// A Writer writes the lines of a journal, until its Close. What can't be written in time is lost and counted (Lost).
type Writer = journalfile.Writer

// Options say where a Writer writes, and how. Side is always broker.
type Options = journalfile.Options

// ErrTaken reports that another process writes to the file.
var ErrTaken = journalfile.ErrTaken

// Open opens the journal of a broker, and writes its line started.
//
// Errors: those of opening its file; ErrTaken; the path is neither a folder nor a regular file.
func Open(options Options) (*Writer, error) {
	options.Side = "broker"
	return journalfile.Open(options)
}

// New returns a journal that writes to a writer. isDoubtful reports whether a Change of the store that fails with an
// error may have been committed.
func New(to *Writer, isDoubtful func(error) bool) *Journal {
	return &Journal{to: to, isDoubtful: isDoubtful}
}

// A subject is the instance or the binding that a line is about.
type subject struct {
	Instance string `json:"instance"`
	Binding  string `json:"binding,omitempty"`
}

func subjectOf(key broker.Key) subject {
	it := subject{Instance: key.Instance.String()}
	if key.IsBinding {
		it.Binding = key.Binding.String()
	}
	return it
}

// A visitState is what the journal knows of a visit. One goroutine uses it.
type visitState struct {
	number   int64
	request  string // its X-Broker-API-Request-Identity
	key      broker.Key
	saw      *seen // what it has read last, or nil
	isChange bool  // whether it has changed what is held of its key, or what is kept of its updates
}

// seen are the row of the key of a visit, and that of a binding's instance.
type seen struct{ of, instance row }

// A row is what the lines have of an entry: what is held, and what is kept of the updates of an instance.
type row struct {
	holding   osb.Holding
	updates   osb.UpdateHolding
	isUpdated bool // whether anything is kept of updates
}

func rowOf(entry broker.Entry) row {
	it := row{holding: entry.Holding}
	if entry.Change != nil {
		it.updates, it.isUpdated = entry.Change.Holding, true
	}
	return it
}

// visitKey is where a context has its visit.
type visitKey struct{}

// visitIn is the visit of a context, or one that is in none.
func visitIn(ctx context.Context) *visitState {
	if it, isVisit := ctx.Value(visitKey{}).(*visitState); isVisit {
		return it
	}
	return &visitState{}
}

// visitOf is the number of the visit of a context, or 0.
func visitOf(ctx context.Context) int64 { return visitIn(ctx).number }

// sees notes what a visit has read.
func (v *visitState) sees(key broker.Key, snapshot broker.Snapshot) {
	if key == v.key {
		v.saw = &seen{rowOf(snapshot.Entry), rowOf(snapshot.Instance)}
	}
}

// arrivalLine is the line of a request that was read.
type arrivalLine struct {
	Visit   int64  `json:"visit"`
	Request string `json:"request"`
	subject
	InstanceID string `json:"instance_id,omitempty"` // as in the path, if it isn't the GUID
	BindingID  string `json:"binding_id,omitempty"`
	Kind       string `json:"kind"`
	Accepts    bool   `json:"accepts,omitempty"`
	Service    string `json:"service,omitempty"`
	Plan       string `json:"plan,omitempty"`
	Attributes string `json:"attributes,omitempty"` // of a creation: the digest that the holding's text has
	Number     uint64 `json:"number,omitempty"`     // of an Update, as are the parameters: their digest
	Parameters string `json:"parameters,omitempty"`
	Version    string `json:"version,omitempty"`   // the digest that an Update or the creation of an instance names
	Committed  int64  `json:"committed,omitempty"` // no change up to this one is still to be committed
}

// ask adds what an Update asks for, besides its service and its plan.
func (l *arrivalLine) ask(update *broker.AskedUpdate) {
	l.Kind, l.Number = "update", update.Number
	if update.Change.HasParameters {
		l.Parameters = hex.EncodeToString(update.Change.Parameters[:])
	}
	if update.Change.HasVersion {
		l.Version = hex.EncodeToString(update.Change.Version[:])
	}
}

// create adds what the creation of an instance or of a binding asks for.
func (l *arrivalLine) create(visit *broker.Visit) error {
	l.Attributes = hex.EncodeToString(visit.Attributes[:])
	if visit.Key.IsBinding || visit.Creation == nil {
		return nil
	}
	version, err := osb.VersionDigest(visit.Creation.Version())
	if version != (osb.Digest{}) {
		l.Version = hex.EncodeToString(version[:])
	}
	return err
}

// OnArrival writes down a request.
func (j *Journal) OnArrival(
	ctx context.Context, r *http.Request, requestID string, visit broker.Visit,
) context.Context {
	for _, value := range r.Header.Values(journalfile.Header) {
		j.to.Receive(value)
	}
	it := &visitState{number: j.visits.Add(1), request: requestID, key: visit.Key}
	line := arrivalLine{
		Visit: it.number, Request: requestID, subject: subjectOf(visit.Key), Kind: visit.Asked.Kind.String(),
		Accepts: visit.Asked.AcceptsIncomplete, Committed: j.changes.endedUpTo(),
	}
	line.InstanceID = other(visit.Names.Instance, line.Instance)
	line.BindingID = other(visit.Names.Binding, line.Binding)
	var err error
	switch {
	case visit.IsFetch:
		line.Kind = "fetch"
	case visit.Update != nil:
		line.ask(visit.Update)
	case visit.Asked.Kind == osb.KindProvision:
		err = line.create(&visit)
	}
	if visit.Asked.HasService {
		line.Service = visit.Asked.Service.String()
	}
	if visit.Asked.HasPlan {
		line.Plan = visit.Asked.Plan.String()
	}
	if err != nil {
		j.to.Lose(err)
	} else {
		j.to.Write("arrived", line)
	}
	return context.WithValue(ctx, visitKey{}, it)
}

// other is a text unless it is the one that stands there already.
func other(text, known string) string {
	if text == known {
		return ""
	}
	return text
}

// answerLine is the line of an answer.
type answerLine struct {
	Visit   int64  `json:"visit"`
	Request string `json:"request"`
	subject
	Status      uint16 `json:"status"`
	Body        string `json:"body"`
	Credentials string `json:"credentials,omitempty"` // the digest of the binding's object, if the answer has it
	fetchedLine
	sawLine
	Effect string `json:"effect,omitempty"` // which event the request is then
}

// A fetchedLine is with which settings the Fetch of an instance is answered: the number of the plan, the digests of the
// parameters and the version, if the answer has them, and the number of the Update.
type fetchedLine struct {
	Plan       string `json:"plan,omitempty"`
	Parameters string `json:"parameters,omitempty"`
	Version    string `json:"version,omitempty"`
	Number     uint64 `json:"number,omitempty"`
}

// fetchedIn is what the body of the answer to a Fetch of an instance says.
//
// Errors: the body isn't one.
func fetchedIn(body []byte) (line fetchedLine, err error) {
	var read struct {
		Plan        string          `json:"plan_id"`
		Parameters  json.RawMessage `json:"parameters"`
		Maintenance struct {
			Version string `json:"version"`
		} `json:"maintenance_info"`
		Number uint64 `json:"x-osb-update"`
	}
	var plan osb.ID
	var parameters, version osb.Digest
	if err = json.Unmarshal(body, &read); err == nil {
		plan, err = osb.IDOfText(read.Plan)
	}
	if err == nil && read.Parameters != nil {
		parameters, err = osb.ParametersDigest(read.Parameters)
		line.Parameters = hex.EncodeToString(parameters[:])
	}
	if err == nil && read.Maintenance.Version != "" {
		version, err = osb.VersionDigest(read.Maintenance.Version)
		line.Version = hex.EncodeToString(version[:])
	}
	line.Plan, line.Number = plan.String(), read.Number
	return line, err
}

// A sawLine is what a request was decided on that has changed nothing.
type sawLine struct {
	Saw                *string `json:"saw,omitempty"`
	SawUpdates         string  `json:"saw_updates,omitempty"`
	SawInstance        *string `json:"saw_instance,omitempty"` // of a binding
	SawInstanceUpdates string  `json:"saw_instance_updates,omitempty"`
}

// OnAnswer writes down an answer that is about to leave, and adds the time to its headers.
func (j *Journal) OnAnswer(ctx context.Context, header http.Header, given broker.Response) {
	it := visitIn(ctx)
	line := answerLine{
		Visit: it.number, Request: it.request, subject: subjectOf(it.key), Status: given.Status, Body: given.Body.String(),
		Credentials: journalfile.Digest(given.Binding),
	}
	if it.saw != nil && !it.isChange {
		line.Effect = effectOfAnswer(given)
		var err error
		if given.Instance != nil {
			line.fetchedLine, err = fetchedIn(given.Instance)
		}
		if err == nil {
			line.sawLine, err = j.see(*it.saw, it.key.IsBinding)
		}
		if err != nil {
			j.to.Lose(err)
		}
	}
	j.to.Write("answered", line)
	header.Set(journalfile.Header, j.to.Time())
}

// effectOfAnswer is the event that a request is which changes nothing, or empty if no driver has answered it.
func effectOfAnswer(given broker.Response) string {
	switch given.Effect {
	case osb.EffectNothing:
		return ""
	case osb.EffectUpdate:
		return ofUpdate(given.Allowed)
	}
	return given.Effect.String()
}

// see is what a request has seen.
func (j *Journal) see(saw seen, isBinding bool) (line sawLine, err error) {
	text, updates, err := j.texts.row(saw.of, isBinding)
	if err != nil {
		return line, err
	}
	line.Saw, line.SawUpdates = &text, updates
	if isBinding {
		instance, updates, err := j.texts.row(saw.instance, false)
		line.SawInstance, line.SawInstanceUpdates = &instance, updates
		return line, err
	}
	return line, nil
}

// startLine are the members of the line started.
type startLine struct {
	Version        string      `json:"version"`
	FirstPoll      bool        `json:"first_poll"`
	WaitForPoll    float64     `json:"wait_for_poll"`    // in seconds
	IDsReturnAfter float64     `json:"ids_return_after"` // in seconds, or 0 for never
	LocksCanBeLost bool        `json:"locks_can_be_lost"`
	NamesEvents    bool        `json:"names_events"` // by Effect, in each line whose event a driver names
	Plans          []startPlan `json:"plans"`
}

// A startPlan is a plan of the catalogue in the line started, with its ids as texts and as numbers.
type startPlan struct {
	Service       string `json:"service"`
	Plan          string `json:"plan"`
	ServiceNumber osb.ID `json:"service_number"`
	PlanNumber    osb.ID `json:"plan_number"`
	Mode          string `json:"mode"`
	Binding       string `json:"binding"`
	IsRetrievable bool   `json:"retrievable,omitempty"`
	IsFetchable   bool   `json:"instances_retrievable"`
}

// StartMembers returns the members of the line started of a broker: of this version, with the document of its catalogue
// and its options, and whether a lock may end while its worker goes on (broker.Locks).
//
// Errors: the document can't be read.
func StartMembers(version string, document []byte, options broker.ServiceOptions, locksCanBeLost bool) (any, error) {
	plans, err := plansOf(document)
	if err != nil {
		return nil, fmt.Errorf("the plans of the catalogue: %w", err)
	}
	return startLine{
		Version: version, FirstPoll: options.FirstPoll, WaitForPoll: options.WaitForPoll.Seconds(),
		IDsReturnAfter: options.IDsReturnAfter.Seconds(), LocksCanBeLost: locksCanBeLost, NamesEvents: true,
		Plans: plans,
	}, nil
}

func plansOf(document []byte) (plans []startPlan, err error) {
	var catalogue struct {
		Services []struct {
			ID    string
			Plans []struct{ ID string }
		}
	}
	if err := json.Unmarshal(document, &catalogue); err != nil {
		return nil, err
	}
	instances, err := modesOf(osb.CataloguePlans(document))
	if err != nil {
		return nil, err
	}
	bindings, err := modesOf(osb.BindingModes(document))
	if err != nil {
		return nil, err
	}
	for _, service := range catalogue.Services {
		for _, plan := range service.Plans {
			made := startPlan{Service: service.ID, Plan: plan.ID}
			if made.ServiceNumber, err = osb.IDOfText(service.ID); err != nil {
				return nil, err
			}
			if made.PlanNumber, err = osb.IDOfText(plan.ID); err != nil {
				return nil, err
			}
			if made.IsRetrievable, err = osb.BindingsRetrievable(document, made.ServiceNumber); err != nil {
				return nil, err
			}
			updates, err := osb.ReadPlanUpdates(document, made.ServiceNumber, made.PlanNumber)
			if err != nil {
				return nil, err
			}
			made.IsFetchable = updates.Retrievable
			numbers := [2]osb.ID{made.ServiceNumber, made.PlanNumber}
			made.Mode, made.Binding = wordOf(instances, numbers), wordOf(bindings, numbers)
			plans = append(plans, made)
		}
	}
	return plans, nil
}

// modesOf are the modes of plans, by the numbers of the service and the plan.
func modesOf(plans []osb.Plan, err error) (map[[2]osb.ID]string, error) {
	modes := map[[2]osb.ID]string{}
	for _, plan := range plans {
		modes[[2]osb.ID{plan.Service, plan.Plan}] = "sync"
		if plan.IsAsynchronous {
			modes[[2]osb.ID{plan.Service, plan.Plan}] = "async"
		}
	}
	return modes, err
}

func wordOf(modes map[[2]osb.ID]string, of [2]osb.ID) string {
	if word, isKnown := modes[of]; isKnown {
		return word
	}
	return "none"
}
