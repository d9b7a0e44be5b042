package run

import (
	"context"
	"crypto/sha256"
	"encoding/json"
	"fmt"
	"net/http"
	"strings"
	"time"

	"pippinterm/storm/conform"
	"pippinterm/storm/fault"
	"pippinterm/storm/run/audit"
	"pippinterm/storm/run/shell"
)

// settings are what an instance is set to, or what is reported of that. An empty part is that there is none.
type settings struct{ plan, parameters, version string }

// unreported is a part of settings about which an answer says nothing.
const unreported = "?"

// unreadable are the settings of a resource of which a command prints nothing that can be read: it is updated in part.
var unreadable = settings{plan: "unreadable"}

// String returns the settings for people.
func (s settings) String() string {
	text := "plan " + s.plan
	if s.parameters != "" {
		text += ", parameters " + s.parameters
	}
	if s.version != "" {
		text += ", version " + s.version
	}
	return text
}

// agrees reports whether two settings are the same, as far as both are reported.
func (s settings) agrees(other settings) bool {
	isSame := func(one, other string) bool { return one == other || one == unreported || other == unreported }
	return isSame(s.plan, other.plan) && isSame(s.parameters, other.parameters) && isSame(s.version, other.version)
}

// parametersOf returns the text of parameters with their names in order, or an empty one for none.
func parametersOf(value any) string {
	of, _ := value.(map[string]any)
	if len(of) == 0 {
		return ""
	}
	text, err := json.Marshal(of)
	if err != nil {
		panic(err) // it was read from JSON
	}
	return string(text)
}

// ofResource returns the settings that a command prints: an object with plan_id, parameters and version, or the digest of
// some of the settings that the resource may have.
func ofResource(text string, may []settings) settings {
	for _, one := range may {
		if one.hasDigest(text) {
			return one
		}
	}
	var of map[string]any
	if json.Unmarshal([]byte(text), &of) != nil || of == nil {
		return unreadable
	}
	plan, _ := of["plan_id"].(string)
	version, _ := of["version"].(string)
	return settings{plan, parametersOf(of["parameters"]), version}
}

// hasDigest reports whether a text is the SHA-256 of the object that the settings are, in hexadecimal digits. An object
// without parameters may have the member all the same.
func (s settings) hasDigest(text string) bool {
	parameters := []json.RawMessage{json.RawMessage(s.parameters)}
	if s.parameters == "" {
		parameters = append(parameters, json.RawMessage("{}"))
	}
	for _, its := range parameters {
		object, err := json.Marshal(struct {
			Plan       string          `json:"plan_id"`
			Parameters json.RawMessage `json:"parameters,omitempty"`
			Version    string          `json:"version,omitempty"`
		}{s.plan, its, s.version})
		if err != nil {
			panic(err) // these values are JSON
		}
		if text == fmt.Sprintf("%x", sha256.Sum256(object)) {
			return true
		}
	}
	return false
}

// ofFetch returns the settings that the 200 to a Fetch reports.
func ofFetch(of map[string]any) settings {
	s := settings{unreported, unreported, unreported}
	if plan, is := of["plan_id"].(string); is {
		s.plan = plan
	}
	if parameters, has := of["parameters"]; has {
		s.parameters = parametersOf(parameters)
	}
	if maintenance, is := of["maintenance_info"].(map[string]any); is {
		s.version, _ = maintenance["version"].(string)
	}
	return s
}

// A stock is what the resources are set to, by a command.
type stock struct {
	command string // or empty: nobody knows
	prefix  string
	first   settings // of an instance that the command doesn't print, because it was never updated
}

func (s stock) isKnown() bool { return s.command != "" }

// read runs the command. It returns what it prints of each instance.
func (s stock) read(ctx context.Context) (map[string]string, error) {
	if !s.isKnown() {
		return nil, nil
	}
	lines, err := shell.Lines(ctx, s.command)
	if err != nil {
		return nil, fmt.Errorf("the command that prints settings: %w", err)
	}
	all := map[string]string{}
	for _, line := range lines {
		id, text, _ := strings.Cut(line, " ")
		if strings.HasPrefix(id, s.prefix) {
			all[id] = text
		}
	}
	return all, nil
}

// of returns the settings of an instance. It may have some, of which the command prints a digest.
func (s stock) of(all map[string]string, instance string, may []settings) settings {
	if text, isThere := all[instance]; isThere {
		return ofResource(text, may)
	}
	return s.first
}

// A settingsWatch compares what the broker has reported of the settings with what the resources are set to.
type settingsWatch struct {
	updates *updater
	broker  *standardInventory // asked without faults
	stock   stock
	records func(context.Context) (map[Key]Record, error)
	*finds
}

// look compares the settings that the platform records as settled, while the storm goes on. Without numbers, a late copy
// of an Update may be done at any time, so nothing is compared then.
func (w *settingsWatch) look(ctx context.Context) {
	if w.updates == nil || !w.updates.numbers || !w.stock.isKnown() {
		return
	}
	before := w.settled(ctx)
	if len(before) == 0 {
		return
	}
	all, err := w.stock.read(ctx)
	if err != nil {
		return // such as while the broker is away: it says nothing
	}
	after := w.settled(ctx)
	for key, record := range before {
		if again, isThere := after[key]; isThere && again == record {
			w.compare(key, "during the storm, its last answer reported ", record.settings, w.has(key, all))
		}
	}
}

// has returns what a resource is set to, by what the command prints.
func (w *settingsWatch) has(key Key, all map[string]string) settings {
	return w.stock.of(all, key.Instance, w.updates.asked(key))
}

// settled returns the records of the updates that are settled, of instances that are recorded as ready.
func (w *settingsWatch) settled(ctx context.Context) map[Key]updateRecord {
	settled := w.updates.settled()
	records, err := w.records(ctx)
	for key := range settled {
		if err != nil || records[key].State != audit.Ready {
			delete(settled, key)
		}
	}
	return settled
}

// compare adds a difference if a resource isn't set to what was reported.
func (w *settingsWatch) compare(key Key, says string, reported, has settings) {
	if reported.agrees(has) {
		return
	}
	it := Difference{Key: key, Kind: FalseSettings, What: fmt.Sprintf("%s%v, and the resource has %v", says, reported, has)}
	if !w.updates.isAsked(key, has) {
		it.Kind = HalfUpdated
		it.What += ", which nobody has asked for"
	}
	w.addOnce(it)
}

// end compares at the end, once no request is in flight. It returns what went wrong with the comparison.
func (w *settingsWatch) end(ctx context.Context, last Sight) (failed []string) {
	if w.updates == nil {
		return nil
	}
	records, err := w.records(ctx)
	compared, fetches := map[Key]updateRecord{}, map[Key]settings{}
	for key, record := range w.updates.all() {
		if records[key].State != audit.Ready || last.Of[key] == Missing || ctx.Err() != nil {
			continue
		}
		compared[key] = record
		if reported, isReported := w.fetch(ctx, key); isReported {
			fetches[key] = reported
		}
	}
	all, failure := w.stock.read(ctx)
	if err = FirstError(err, failure); err != nil {
		if ctx.Err() == nil {
			failed = append(failed, "the settings can't be compared: "+err.Error())
		}
		return failed
	}
	for key, record := range compared {
		reported, isReported := w.fetch(ctx, key)
		isReported = isReported && reported == fetches[key] // else an Update has ended between the two
		w.endOf(ctx, key, record, all, reported, isReported)
	}
	return nil
}

// endOf compares what the platform records, what the broker reports without faults, and what the resource is set to.
func (w *settingsWatch) endOf(
	ctx context.Context, key Key, record updateRecord, all map[string]string, reported settings, isReported bool,
) {
	const fetched, recorded = "the broker reports by a Fetch ", "its last answer reported "
	isRecorded := w.updates.numbers && record.state == updateSettled
	if w.stock.isKnown() {
		has := w.has(key, all)
		switch {
		case isRecorded:
			w.compare(key, recorded, record.settings, has)
		case w.updates.numbers && !isReported && !w.updates.isAsked(key, has) && w.broker.lastOperation(ctx, key) == "200 succeeded":
			w.compare(key, "the broker reports success, to ", record.to, has)
		}
		if isReported {
			w.compare(key, fetched, reported, has)
		}
	}
	if isRecorded && isReported && !reported.agrees(record.settings) {
		w.addOnce(Difference{
			Key: key, Kind: FalseSettings, What: fmt.Sprintf("%s%v, and %s%v", recorded, record.settings, fetched, reported),
		})
	}
}

// fetch returns what a Fetch without faults reports, if the broker promises that and answers with 200. It waits until an
// Update has ended that a delayed copy has begun.
func (w *settingsWatch) fetch(ctx context.Context, key Key) (settings, bool) {
	if !w.broker.target.InstancesRetrievable {
		return settings{}, false
	}
	for until := time.Now().Add(listTime); ; {
		answer := w.broker.broker.Ask(ctx, http.MethodGet, key.Instance, "", "", w.broker.names())
		isUpdating := answer.Status == http.StatusUnprocessableEntity && time.Now().Before(until)
		if !isUpdating || !fault.Sleep(ctx, listEach) {
			return ofFetch(answer.Object), answer.Status == http.StatusOK && answer.Object != nil
		}
	}
}

// tryUpdate updates an instance without faults. It returns what the storm may update, or says why it updates nothing.
// While the instance exists, the command must print its settings.
func (s *BrokerStorm) tryUpdate(running, ctx context.Context, key Key) (why string, err error) {
	if s.options.Without == WithoutUpdates {
		return "--without updates", nil
	}
	first := settings{plan: s.target.Plan, parameters: `{"osb-storm":0}`}
	named := map[string]any{"parameters": json.RawMessage(first.parameters)}
	s.updatesPlans = s.target.Updateable && s.target.NumbersUpdates && len(s.target.Plans) > 1
	answer := s.broker.Update(ctx, key.Instance, named)
	problem := ""
	switch answer.Status {
	case http.StatusOK:
	case http.StatusAccepted:
		problem = s.await(ctx, key, answer.Text("operation"))
	default:
		problem = answer.Came
	}
	if s.updatesParameters = problem == ""; !s.updatesParameters {
		if s.updatesPlans {
			return "", nil
		}
		return "an Update of the parameters without faults ended with " + problem, nil
	}
	return "", s.trySettings(running, ctx, key, first)
}

// trySettings runs the command that prints settings, until it prints those of an instance. It returns what is wrong with
// it. If running is done, nobody knows.
func (s *BrokerStorm) trySettings(running, ctx context.Context, key Key, wanted settings) error {
	of := s.stock()
	if !of.isKnown() {
		return nil
	}
	within, cancel := linger(running, ctx)
	defer cancel()
	for until := time.Now().Add(listTime); ; {
		all, err := of.read(within)
		switch {
		case running.Err() != nil:
			return nil
		case err != nil:
			return fmt.Errorf("%w: the command of --settings-command has failed: %v. Run it in a shell", ErrList, err)
		case of.of(all, key.Instance, []settings{wanted}) == wanted:
			return nil
		case time.Now().After(until) || !fault.Sleep(within, listEach):
			return fmt.Errorf("%w: the command of --settings-command doesn't print what the broker has set the instance %s to: "+
				"got %v, want %v. It must print the id of each instance that was updated, a space, and an object of JSON with plan_id, "+
				"parameters and version", ErrList, key.Instance, of.of(all, key.Instance, nil), wanted)
		}
	}
}

// notes says for people what the storm doesn't update or compare, and why.
func (s *BrokerStorm) notes() (notes []string) {
	isNumbered := s.target.NumbersUpdates && s.options.Without != WithoutNumbers
	switch {
	case s.noUpdates != "":
		return []string{"no instance was updated: " + s.noUpdates}
	case !s.updatesPlans && s.target.Updateable:
		notes = append(notes, "no plan was updated: the catalogue has no x-osb-updates, or the service has no other plan")
	case !s.updatesParameters:
		notes = append(notes, "no parameters were updated: the broker rejects them")
	}
	switch {
	case s.stock().isKnown() && (isNumbered || s.target.InstancesRetrievable):
	case s.target.InstancesRetrievable && isNumbered:
		notes = append(notes, "the settings of the resources weren't compared: give --settings-command")
	default:
		notes = append(notes, "the settings weren't compared: that needs --settings-command, and a broker with "+
			"instances_retrievable or x-osb-updates")
	}
	return notes
}

func (s *BrokerStorm) stock() stock {
	return stock{s.options.Commands.Settings, s.Prefix(), settings{plan: s.target.Plan}}
}

// updates returns what updates the instances of a run, through its proxy, or nil if nothing is updated.
func (s *BrokerStorm) updater(url string, events *events) (*updater, error) {
	if !s.updatesParameters && !s.updatesPlans {
		return nil, nil
	}
	options := s.options.Broker
	options.URL, options.RequestTime = url, s.options.RequestTime
	options.Transport = func(next http.RoundTripper) http.RoundTripper { return s.journals.own(singleRequests(next)) }
	client, err := conform.New(options)
	if err != nil {
		return nil, err
	}
	client.Aim(s.target)
	return &updater{
		client: client, target: s.target, events: events, of: map[Key]*updatedInstance{},
		seed: s.options.Seed, numbers: s.target.NumbersUpdates && s.options.Without != WithoutNumbers,
		plans: s.updatesPlans, parameters: s.updatesParameters, pollTime: options.OperationTime, pause: options.Pause,
	}, nil
}

// singleRequests sends each request over a connection of its own, as the proxy has it.
func singleRequests(http.RoundTripper) http.RoundTripper {
	return &http.Transport{DisableKeepAlives: true}
}
