package run

import (
	"context"
	"encoding/json"
	"errors"
	"fmt"
	"net/http"
	"net/url"
	"os"
	"sort"
	"time"

	"pippinterm/internal/journalfile"
	"pippinterm/platform"
	"pippinterm/storm/conform"
	"pippinterm/storm/fault"
	"pippinterm/storm/report"
	"pippinterm/storm/run/audit"
)

// A BrokerStorm drives a broker through faults. Use one goroutine.
type BrokerStorm struct {
	options       BrokerOptions
	address       *url.URL
	broker        *conform.Runner // asks the broker itself, without faults
	target        conform.Target
	standard      *standardInventory
	inventory     Inventory
	isListed      bool
	left          map[Key]bool // what couldn't be deleted
	deletionsTell bool         // a repeated deletion is answered with 410
	// What the instances of a run are updated to, as the broker takes it.
	updatesPlans, updatesParameters bool
	noUpdates                       string    // why nothing is updated, or empty
	journals                        *journals // of the platform and of the requests that osb-storm sends itself, or nil
}

// NewBroker returns a BrokerStorm.
//
// Errors: those of conform.New; a limit isn't above 0; options contradict each other; the journal can't be opened.
func NewBroker(options BrokerOptions) (*BrokerStorm, error) {
	if err := options.Check(options.demands()); err != nil {
		return nil, err
	}
	address, err := url.Parse(options.Broker.URL)
	if err != nil {
		return nil, errors.New("the URL of the broker can't be read") // the text could have a password
	}
	journals, err := openJournals(options.Journal)
	if err != nil {
		return nil, err
	}
	options.Broker.Transport = journals.own
	broker, err := conform.New(options.Broker)
	if err != nil {
		journals.close()
		return nil, err
	}
	return &BrokerStorm{options: options, address: address, broker: broker, left: map[Key]bool{}, journals: journals}, nil
}

// Prefix returns the first eight characters of each id of an instance and a binding that the storm creates.
func (s *BrokerStorm) Prefix() string { return s.broker.Prefix() }

// Run runs the storm, deletes what it has created, and returns what was lost. If MinimizeTime is above 0 and something
// was lost, further runs shrink the list of faults. If running is done, no further request is sent with faults. If
// deleting is done, nothing more is deleted.
//
// Errors: those of conform's Runner.Open; ErrTrial; ErrList; what the storm itself failed at. The Report is never nil,
// and says what couldn't be deleted.
func (s *BrokerStorm) Run(running, deleting context.Context) (into *Report, err error) {
	into = NewReport(s.options.Broker.URL, s.options.Seed, s.options.Broker.User, s.options.Broker.Password)
	into.Prefix = s.Prefix()
	hide := conform.NewHider(s.options.Broker.User, s.options.Broker.Password)
	defer func() {
		into.Failed = append(into.Failed, s.journals.close()...)
		err = hide.Error(err)
	}()
	if err := s.open(running, into); err != nil {
		return into, err
	}
	trial, cancel := context.WithTimeout(deleting, s.options.Broker.OperationTime+s.options.CleanUpTime)
	defer cancel()
	if err := s.try(running, trial); err != nil {
		into.Leftovers = s.cleanUp(deleting)
		if running.Err() != nil {
			into.Ended, err = EndedBefore, nil
		}
		return into, err
	}
	into.Notes = append(into.Notes, s.notes()...)
	into.Inventory = s.standard.describe()
	if s.isListed {
		into.Inventory = ByListCommand
	}
	into.Instances++ // the one that was created without faults
	once := func(running context.Context, of *Candidate) (*Result, error) {
		if of == nil {
			source := s.options.Source(fault.StandardWeights(s.options.Commands.restarts()))
			return s.once(running, deleting, source, nil)
		}
		found, err := s.once(running, deleting, fault.ByList(s.options.Seed, of.List), of.Only)
		into.Leftovers = append(into.Leftovers, found.Leftovers...)
		return found, err
	}
	err = Core{Options: s.options.Options, Report: into, Once: once}.Run(running)
	if running.Err() != nil {
		err = nil
	}
	return into, err
}

// open reads the catalogue, and prepares to ask what exists.
func (s *BrokerStorm) open(ctx context.Context, report *Report) error {
	target, err := s.broker.Open(ctx)
	if err != nil {
		return err
	}
	s.target = target
	if s.target.Plan == "" {
		return fmt.Errorf("%w: it has no plan at all, or can't be read. Run 'osb-storm conform' to see its answer, or give "+
			"--service and --plan with ids that the broker knows", conform.ErrNoPlan)
	}
	if !target.HasCatalogue {
		s.target.Catalogue = catalogueOf(target)
		report.Notes = append(report.Notes, "the broker has no catalogue: no binding was created")
	}
	s.standard = &standardInventory{broker: s.broker, target: s.target}
	s.inventory = s.standard
	if s.options.Commands.List != "" {
		s.inventory, s.isListed = listing{s.options.Commands, s.Prefix(), s.standard, s.left}, true
	}
	hide := conform.NewHider(s.options.Broker.User, s.options.Broker.Password)
	report.Service, report.Plan = hide.In(s.target.ServiceName), hide.In(s.target.PlanName)
	return nil
}

// catalogueOf is a catalogue with a plan alone.
func catalogueOf(target conform.Target) []byte {
	type object = map[string]any
	text, err := json.Marshal(object{"services": []object{{
		"id": target.Service, "name": target.ServiceName, "description": "a service", "bindable": false,
		"plans": []object{{"id": target.Plan, "name": target.PlanName, "description": "a plan"}},
	}}})
	if err != nil {
		panic(err) // these values are JSON
	}
	return text
}

// ByListCommand is how osb-storm finds out what exists if there is a command for it.
const ByListCommand = "the list command was run"

func (s *BrokerStorm) deletion() url.Values {
	names := s.standard.names()
	names.Set("accepts_incomplete", "true")
	return names
}

// once is one run. If only isn't nil, only these instances are created.
func (s *BrokerStorm) once(running, deleting context.Context, source *fault.Source, only map[int]bool) (*Result, error) {
	folder, err := os.MkdirTemp(s.options.Folder, "osb-storm-")
	if err != nil {
		return &Result{Keys: newKeys(nil)}, err
	}
	defer os.RemoveAll(folder)
	r, err := s.startRun(running, deleting, folder, source)
	if err != nil {
		return &Result{Keys: newKeys(nil)}, err
	}
	found := r.storm(running, deleting, only)
	begun := r.capture.Now()
	records := s.end(deleting, r, found)
	r.proxy.Close()
	found.Exchanges = r.capture.Exchanges()
	found.Differences = append(found.Differences, s.byDeletion(deleting, records, r.last, begun, found)...)
	found.end = r.capture.Now()
	found.Leftovers = s.deleteAll(running, deleting, found)
	hide := report.NewHider(s.options.Broker.User, s.options.Broker.Password, found.Exchanges)
	found.Broken = judge(found.Exchanges, found.Differences, hide)
	found.Events, found.Given = r.events.list(), source.Faults()
	found.Restarts, found.Unmet = r.proxy.Restarts(), source.Unmet()
	return found, r.platform.close()
}

// end returns the records of the end. With a journal, the platform then deletes everything that they name: nobody
// else's deletion is in the journal of a platform.
func (s *BrokerStorm) end(deleting context.Context, r *brokerRun, found *Result) map[Key]Record {
	records, err := r.platform.Records(context.Background())
	if err != nil {
		return nil // the comparison has failed, too
	}
	if s.journals != nil {
		if err := r.clear(deleting, records); err != nil {
			found.Failed = append(found.Failed, "the platform failed: "+err.Error())
		}
	}
	return records
}

// byDeletion asks for the deletion of what nobody could ask for, and returns what the answers show. records and last
// are those of the end. Since begun, the platform may have deleted it.
func (s *BrokerStorm) byDeletion(
	ctx context.Context, records map[Key]Record, last Sight, begun time.Duration, found *Result,
) []Difference {
	if ctx.Err() != nil {
		return nil
	}
	deleted, shown := map[Key]Existence{}, map[Key]Existence{}
	if s.deletionsTell {
		deleted = deletedSince(begun, found.Exchanges)
	}
	var asked []Key
	for key, record := range records {
		isSent := len(creationsOf(key, found.Exchanges)) > 0
		switch {
		case last.Of[key] != Unknown || !record.Rests || !isSent || record.State != audit.Ready && !record.IsEnded():
		case deleted[key] != Unknown:
			shown[key] = deleted[key]
		default:
			asked = append(asked, key)
		}
	}
	within, cancel := context.WithTimeout(ctx, s.options.CleanUpTime)
	defer cancel()
	answers := s.deletionsOf(within, asked)
	found.Unknown = len(asked) - len(answers)
	for key, existence := range answers {
		shown[key] = existence
	}
	return compare(records, Sight{Of: shown}).Without(Stuck)
}

// deletedSince returns what existed by the first answer to each deletion that the platform has sent since a time.
func deletedSince(begun time.Duration, exchanges []fault.Exchange) map[Key]Existence {
	found := map[Key]Existence{}
	for _, exchange := range exchanges {
		key := Key{Instance: exchange.Instance, Binding: exchange.Binding}
		if exchange.Method == http.MethodDelete && exchange.Begun >= begun && found[key] == Unknown && len(exchange.Deliveries) > 0 {
			found[key] = byDeletion(exchange.Deliveries[0].Status)
		}
	}
	return found
}

// creationsOf returns the creations of a key that have reached the broker.
func creationsOf(key Key, exchanges []fault.Exchange) (all []fault.Delivery) {
	for _, exchange := range exchanges {
		its := Key{Instance: exchange.Instance, Binding: exchange.Binding}
		if exchange.Method == http.MethodPut && its == key {
			all = append(all, exchange.Deliveries...)
		}
	}
	return all
}

// BrokerOptions say which broker a BrokerStorm is about, and within which limits. Folder is that of the platform's
// store.
type BrokerOptions struct {
	Options
	Broker      conform.Options // Instances is how many instances a run may create. Pause is the time between two polls
	CleanUpTime time.Duration   // for the deletions at the end of each run
	Without     string          // WithoutUpdates, WithoutNumbers, or empty
}

func (c BrokerOptions) demands() Demands {
	return Demands{
		Conflicts: []Conflict{{
			c.Broker.Instances < 2, "a run needs two instances: one of them is created without faults, to try the broker",
		}},
		Limits: []time.Duration{c.CleanUpTime}, NoRestart: "give a command for it",
	}
}

type brokerRun struct {
	*BrokerStorm
	capture  *fault.Capture
	source   *fault.Source
	keys     *Keys
	events   *events
	proxy    *fault.Proxy
	platform *platformRig
	updates  *updater
	watch    *watch
	settings *settingsWatch
	last     Sight // of the end

	guard
	failed []string
}

// readEach is how often a record is read while somebody waits for it.
const readEach = 50 * time.Millisecond

// lookEach is how often the records are compared with what exists while the storm goes on.
const lookEach = 500 * time.Millisecond

func (s *BrokerStorm) startRun(ctx, deleting context.Context, folder string, source *fault.Source) (*brokerRun, error) {
	r := &brokerRun{BrokerStorm: s, capture: fault.NewCapture(), source: source, keys: newKeys(s.broker.NewID)}
	r.events = &events{now: r.capture.Now}
	restart := s.options.Commands.restart(s.address)
	if restart != nil {
		restart = r.noteRestarts(ctx, deleting, restart)
	}
	var err error
	r.proxy, err = fault.Listen(fault.Options{
		Broker: s.address, Source: source, Capture: r.capture, Subject: r.keys.Subject, Catalogue: s.target.Catalogue,
		CatalogueHeader: s.target.CatalogueHeader,
		RequestTime:     s.options.RequestTime, Late: s.options.Late, AnswerTime: s.options.Broker.RequestTime,
		Restart: restart, Failed: func(err error) { r.fail("a restart of the broker failed: " + err.Error()) },
	})
	if err != nil {
		return nil, err
	}
	r.updates, err = s.updater(r.proxy.URL(), r.events)
	var writer *journalfile.Writer
	if err == nil {
		writer, err = s.journals.open(workerName)
	}
	if err == nil {
		r.platform, err = startPlatform(ctx, s.options, folder, r.proxy.URL(), s.target, r.events, writer)
	}
	if err != nil {
		r.proxy.Close()
		return nil, err
	}
	r.watch = &watch{
		orders: r.platform, inventory: s.inventory, isCheap: s.isListed, seen: map[Key]Record{}, finds: &finds{events: r.events},
	}
	r.settings = &settingsWatch{
		updates: r.updates, broker: s.standard, stock: s.stock(), records: r.platform.Records, finds: &finds{events: r.events},
	}
	return r, nil
}

// noteRestarts returns a restart that is noted. It goes on although the proxy is closed: the broker has to be there for
// the deletions.
func (r *brokerRun) noteRestarts(
	running, deleting context.Context, restart func(context.Context) error,
) func(context.Context) error {
	return func(context.Context) error {
		ctx, cancel := linger(running, deleting)
		defer cancel()
		r.events.add(Key{}, whoBroker, "is killed and started again")
		err := restart(ctx)
		r.events.add(Key{}, whoBroker, "can be reached again")
		return err
	}
}

func (r *brokerRun) fail(what string) { r.hold(func() { r.failed = append(r.failed, what) }) }

// storm lives all lives, ends the faults, waits until everything has converged, and compares. If ctx is done, it
// doesn't wait. If deleting is done, it doesn't ask what exists.
func (r *brokerRun) storm(ctx, deleting context.Context, only map[int]bool) *Result {
	found := &Result{Keys: r.keys}
	course := &course{
		orders: r.platform, keys: r.keys, events: r.events, updates: r.updates, look: r.look, source: r.source,
		now:     r.capture.Now,
		isQuiet: r.isQuiet, isDone: func() bool { return true }, calm: func() {}, time: r.options.Time,
		settleTime: r.options.SettleTime, lookEach: lookEach,
	}
	isBindable, count := r.target.Bindable && r.target.HasCatalogue, r.options.Broker.Instances-1
	course.lives = func(int) []life { return lives(r.options.Seed, count, r.options.Time, isBindable, only) }
	endUpdates := r.beginUpdates(ctx)
	found.Converged, found.Took = course.run(ctx)
	endUpdates()
	if err := r.platform.halt(); err != nil {
		r.fail("the platform failed: " + err.Error())
	}
	looking, cancel := linger(ctx, deleting)
	defer cancel()
	end := r.watch.end(looking, ctx.Err() == nil)
	r.last, found.Differences = end.last, end.differences
	if r.deletionsTell {
		for _, event := range r.events.orphans() {
			found.Differences.Add(event.Key, Lost, event.What)
		}
	}
	found.Failed = append(append(r.failed, end.failed...), r.settings.end(looking, end.last)...)
	found.Differences, found.Updates = append(found.Differences, r.settings.list()...), r.updates.count()
	if ctx.Err() == nil {
		found.Differences = append(found.Differences, r.updates.unsettled()...)
	}
	return found
}

// beginUpdates has updates sent, until the function that it returns is called or ctx is done.
func (r *brokerRun) beginUpdates(ctx context.Context) (end func()) {
	updating, cancel := context.WithCancel(ctx)
	ended := make(chan struct{})
	go func() {
		defer close(ended)
		r.updates.run(updating)
	}()
	return func() { cancel(); <-ended }
}

// look compares what is recorded with what exists, and with the settings of that.
func (r *brokerRun) look(ctx context.Context) {
	r.watch.look(ctx)
	r.settings.look(ctx)
}

// clear has the platform delete everything that these records name. It waits until that is done, for at most the time
// to converge.
func (r *brokerRun) clear(ctx context.Context, records map[Key]Record) error {
	within, cancel := context.WithTimeout(ctx, r.options.SettleTime)
	defer cancel()
	r.events.add(Key{}, "osb-storm", "has the platform delete everything")
	r.platform.resume()
	operator := &operator{orders: r.platform, keys: r.keys, events: r.events, updates: r.updates, look: readEach}
	for key, record := range records {
		if key.Binding == "" && !record.IsEnded() {
			operator.remove(within, key, true)
		}
	}
	operator.settle(within, r.isQuiet)
	return r.platform.halt()
}

// isQuiet reports whether no request is on its way to the broker, and each update is settled.
func (r *brokerRun) isQuiet() bool { return r.proxy.Pending() == 0 && r.updates.rests() }

// deleteAll deletes everything that a run may have created, and returns what couldn't be deleted, except what an
// earlier run has returned.
func (s *BrokerStorm) deleteAll(running, deleting context.Context, found *Result) []conform.Leftover {
	for _, key := range found.Keys.inOrder() {
		if debt, isOwed := debtOf(key, found, s.options.Broker.RequestTime); isOwed {
			s.broker.Owe(debt)
		}
	}
	left := s.cleanUp(deleting)
	looking, cancel := linger(running, deleting)
	defer cancel()
	left = append(left, s.leftoversInList(looking, left)...)
	var news []conform.Leftover
	for _, leftover := range left {
		if key := (Key{Instance: leftover.Instance, Binding: leftover.Binding}); !s.left[key] {
			s.left[key] = true
			news = append(news, leftover)
		}
	}
	return news
}

func (s *BrokerStorm) cleanUp(ctx context.Context) []conform.Leftover {
	within, cancel := context.WithTimeout(ctx, s.options.CleanUpTime)
	defer cancel()
	return s.broker.CleanUp(within)
}

// debtOf returns what has to be deleted of a key. It is false if no creation has reached the broker. A creation that
// wasn't answered may still be carried out within a time, unless the platform has waited for that and converged.
func debtOf(key Key, found *Result, within time.Duration) (conform.Debt, bool) {
	debt := conform.Debt{Instance: key.Instance, Binding: key.Binding, Rejected: true}
	creations := creationsOf(key, found.Exchanges)
	for _, d := range creations {
		isRejection := d.Status >= 400 && d.Status < 500 && d.Status != http.StatusRequestTimeout
		debt.Rejected = debt.Rejected && isRejection
		debt.Unanswered = debt.Unanswered || d.Status == 0 && !found.Converged && found.end-d.Begun < within
	}
	return debt, len(creations) > 0
}

// leftoversInList returns what the list command prints after the deletions, besides what is known to be left.
func (s *BrokerStorm) leftoversInList(ctx context.Context, known []conform.Leftover) (left []conform.Leftover) {
	if !s.isListed || ctx.Err() != nil {
		return nil
	}
	sight, err := s.inventory.Look(ctx, nil)
	if err != nil {
		return nil
	}
	isKnown := map[Key]bool{}
	for _, leftover := range known {
		isKnown[Key{Instance: leftover.Instance, Binding: leftover.Binding}] = true
	}
	for key, existence := range sight.Of {
		if existence == Exists && !isKnown[key] {
			left = append(left, conform.Leftover{
				Instance: key.Instance, Binding: key.Binding,
				Reason: "the list command prints it, though the broker's answer to the deletion says that it is gone",
			})
		}
	}
	sort.Slice(left, func(one, other int) bool { return left[one].String() < left[other].String() })
	return left
}

// ErrTrial is the error of Run if the broker can't create and delete an instance without faults.
var ErrTrial = errors.New("the broker can't create and delete an instance without faults")

// try creates an instance and deletes it, without faults. It learns what the broker answers about an instance that
// exists, and about one that was deleted, and whether a repeated deletion is answered with 410. While the instance
// exists, the commands must list it.
func (s *BrokerStorm) try(running, ctx context.Context) error {
	keys, remove, problem := s.trial(ctx)
	if problem != "" {
		return fmt.Errorf("%w: %s", ErrTrial, problem)
	}
	key := keys[0]
	wrong := s.tryLists(running, ctx, keys)
	existing := s.standard.lastOperation(ctx, key)
	if wrong == nil {
		s.noUpdates, wrong = s.tryUpdate(running, ctx, key)
	}
	if s.inventory == Inventory(s.standard) && s.target.InstancesRetrievable && s.standard.look(ctx, key) != Exists {
		s.target.InstancesRetrievable, s.standard.target.InstancesRetrievable = false, false
	}
	problem = remove()
	if left := s.broker.CleanUp(ctx); problem == "" && len(left) > 0 {
		problem = left[0].String()
	}
	switch {
	case problem != "":
		return fmt.Errorf("%w: %s", ErrTrial, problem)
	case wrong != nil:
		return wrong
	}
	deleted := s.standard.lastOperation(ctx, key)
	if existing == "200 succeeded" && deleted != existing && deleted != "0" {
		s.standard.existing, s.standard.deleted = existing, deleted
	}
	again := s.broker.Ask(ctx, http.MethodDelete, key.Instance, "", "", s.deletion())
	s.deletionsTell = again.Status == http.StatusGone
	return nil
}

// trial creates an instance, and a binding of it if bindings are listed and the broker creates one. It returns their
// keys, what begins their deletion and ends the trial, and what is wrong, or "". With a journal, the platform creates
// and deletes them, so that its journal has that.
func (s *BrokerStorm) trial(ctx context.Context) (keys []Key, remove func() string, problem string) {
	if s.journals != nil {
		return s.trialByPlatform(ctx)
	}
	key, remove := Key{Instance: s.broker.NewID(0)}, func() string { return "" }
	if problem := s.ends(ctx, key, s.broker.Create(ctx, key.Instance, "")); problem != "" {
		return nil, remove, problem
	}
	keys = []Key{key}
	if s.listsBindings() {
		binding := Key{Instance: key.Instance, Binding: s.broker.NewID(0)}
		if s.ends(ctx, binding, s.broker.Create(ctx, binding.Instance, binding.Binding)) == "" {
			keys = append(keys, binding)
		}
	}
	return keys, remove, ""
}

// listsBindings reports whether there is a command that lists bindings, and a plan that has some.
func (s *BrokerStorm) listsBindings() bool {
	return s.options.Commands.ListBindings != "" && s.target.Bindable && s.target.HasCatalogue
}

// ends waits for the end of a creation, and returns what is wrong with it, or "".
func (s *BrokerStorm) ends(ctx context.Context, key Key, answer conform.Answer) string {
	switch answer.Status {
	case http.StatusOK, http.StatusCreated:
		return ""
	case http.StatusAccepted:
		return s.await(ctx, key, answer.Text("operation"))
	}
	return "the creation was answered with " + answer.Came
}

// trialByPlatform is trial by the platform of a run without faults.
func (s *BrokerStorm) trialByPlatform(ctx context.Context) (keys []Key, remove func() string, problem string) {
	folder, err := os.MkdirTemp(s.options.Folder, "osb-storm-")
	if err != nil {
		return nil, nil, err.Error()
	}
	r, err := s.startRun(ctx, ctx, folder, fault.ByList(s.options.Seed, []fault.Injection{}))
	if err != nil {
		_ = os.RemoveAll(folder)
		return nil, nil, err.Error()
	}
	end := func(problem string) string {
		if err := r.platform.close(); err != nil && problem == "" {
			problem = err.Error()
		}
		r.proxy.Close()
		_ = os.RemoveAll(folder)
		return problem
	}
	key := r.keys.instance(0)
	s.broker.Owe(conform.Debt{Instance: key.Instance})
	operator := &operator{orders: r.platform, keys: r.keys, events: r.events, look: readEach}
	wait := func(wanted platform.State, isAccepted bool) string {
		if state := operator.rest(ctx, key).State; !isAccepted || state != wanted {
			return fmt.Sprintf("the platform records %s, and not %s. A storm without --journal shows the answer", state, wanted)
		}
		return ""
	}
	creates := func() error { return r.platform.Create(ctx, key) }
	if problem := wait(audit.Ready, operator.do(ctx, key, "creates the instance", creates)); problem != "" {
		return nil, nil, end(problem)
	}
	keys = []Key{key}
	if s.listsBindings() {
		keys = append(keys, s.bindByPlatform(ctx, operator, key)...)
	}
	return keys, func() string { return end(wait(audit.Gone, operator.remove(ctx, key, true))) }, ""
}

// bindByPlatform has the platform create a binding, and returns its key if the binding is ready.
func (s *BrokerStorm) bindByPlatform(ctx context.Context, o *operator, of Key) []Key {
	key := o.keys.binding(of)
	s.broker.Owe(conform.Debt{Instance: key.Instance, Binding: key.Binding})
	binds := func() error { return o.orders.Bind(ctx, key) }
	if o.do(ctx, key, "creates the binding", binds) && o.rest(ctx, key).State == audit.Ready {
		return []Key{key}
	}
	return nil
}

// await polls until a creation has ended, and returns what is wrong, or "".
func (s *BrokerStorm) await(ctx context.Context, key Key, operation string) string {
	ctx, cancel := context.WithTimeout(ctx, s.options.Broker.OperationTime)
	defer cancel()
	for {
		names := s.standard.names()
		if operation != "" {
			names.Set("operation", operation)
		}
		answer := s.broker.Ask(ctx, http.MethodGet, key.Instance, key.Binding, "/last_operation", names)
		switch state := answer.Text("state"); {
		case answer.Status == http.StatusOK && state == "succeeded":
			return ""
		case answer.Status != http.StatusOK || state != "in progress":
			return "the last operation was answered with " + answer.Came
		}
		if !fault.Sleep(ctx, s.options.Broker.Pause) {
			return "the creation took too long"
		}
	}
}

// deletionsOf asks for the deletion of each key, and returns what existed by the answers. It begins with the bindings.
func (s *BrokerStorm) deletionsOf(ctx context.Context, keys []Key) map[Key]Existence {
	found := map[Key]Existence{}
	if !s.deletionsTell {
		return found
	}
	for _, isBinding := range []bool{true, false} {
		for _, key := range keys {
			if (key.Binding != "") != isBinding || ctx.Err() != nil {
				continue
			}
			answer := s.broker.Ask(ctx, http.MethodDelete, key.Instance, key.Binding, "", s.deletion())
			if existence := byDeletion(answer.Status); existence != Unknown {
				found[key] = existence
			}
		}
	}
	return found
}

// byDeletion returns what existed by the status of the answer to a deletion.
func byDeletion(status int) Existence {
	switch status {
	case http.StatusOK, http.StatusAccepted:
		return Exists
	case http.StatusGone:
		return Missing
	}
	return Unknown
}
