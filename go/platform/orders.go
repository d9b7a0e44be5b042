// Package platform orders instances and bindings of any number of brokers, and goes on with each until it is ready or
// gone. The order of its writes is that of a driver (osb.PlatformDriver), which executor.go carries out.
//
// A Store keeps a row for each. Engine.Run steps the rows that are due. A step has two transactions:
//
//  1. The row is read and locked, together with the rows of other orders that are due. The transaction decides on all
//     of it: what a crash has left is given up, a removal begins, polling that took too long ends, and the request that
//     is due is recorded as in flight. It writes the lease, and the latest time at which the request may leave.
//  2. The answer is taken by the number of its request, or a timeout in its place. The transaction writes the record,
//     the reason, the credentials, and when the next step is due. The lease ends.
//
// Between the two, a Client sends one request. Once the lease's time is over, it sends nothing. The records are those
// of package osb, which is proved: see docs/agreement.md for what holds, and docs/premises.md for what that rests on.
package platform

import (
	"bytes"
	"context"
	"encoding/json"
	"errors"
	"fmt"
	"strconv"
	"strings"
	"time"

	"pippinterm/internal/crash"
	"pippinterm/osb"
)

// Orders are the calls of an operator: of the commands, of the API and of the page. Each is one transaction or none.
// Nothing is sent: an Engine goes on with what is written.
type Orders struct {
	store Store
	vault Vault // or nil: then no broker's password and no credentials can be read or written
	newID func() (osb.ID, error)
	// allowsHTTP allows http:// for brokers that aren't on this machine.
	allowsHTTP bool
}

// NewOrders makes the calls over a store.
func NewOrders(store Store, vault Vault) *Orders {
	return &Orders{store: store, vault: vault, newID: newID}
}

// AllowHTTP sets whether a broker that isn't on this machine may have a URL with http://, by which everybody on the way
// reads the password. It mayn't at first. Call it before the first order.
func (o *Orders) AllowHTTP(isAllowed bool) { o.allowsHTTP = isAllowed }

// A NewInstance is an instance to create.
type NewInstance struct {
	Broker        string // may be empty if there is one broker
	Service, Plan string // names or ids of the catalogue; Plan may be empty if the service has one plan
	ID            string // empty for a new GUID
	Organization  string // empty stands for the store's own
	Space         string
	Parameters    json.RawMessage // an object, or nil
	Context       json.RawMessage // an object, or nil
	Identity      string          // the value of X-Broker-API-Originating-Identity, or empty
	Tries         int             // 0 stands for DefaultTries, or for 1 if there is an ID
}

// A NewBinding is a binding to create.
type NewBinding struct {
	Instance     string
	ID           string          // empty for a new GUID
	Parameters   json.RawMessage // an object, or nil
	Context      json.RawMessage // an object, or nil
	BindResource json.RawMessage // an object, or nil
	Identity     string
	Tries        int // as of a NewInstance
}

// DefaultTries is how often an instance or a binding is ordered at most, under a new id each time, if the reason may
// pass.
const DefaultTries = 3

// A Rejection is an order that can't be taken. Nothing was written.
type Rejection struct {
	Kind RejectionKind
	Text string // what is wrong, and what to do
}

// A RejectionKind is the kind of a rejection.
type RejectionKind int

const (
	Invalid  RejectionKind = iota // the order itself is wrong
	NotFound                      // it names something that doesn't exist
	Conflict                      // it isn't possible in the state in which the row is
)

func (r *Rejection) Error() string { return r.Text }

func reject(kind RejectionKind, format string, values ...any) error {
	return &Rejection{Kind: kind, Text: fmt.Sprintf(format, values...)}
}

// change is one transaction over the row of a key, and returns the row after it. step returns nil if the row stays as
// it is.
func (o *Orders) change(ctx context.Context, key Key, step func(time.Time, Snapshot) (*Change, error)) (Entry, error) {
	var after Entry
	err := o.store.Change(ctx, key, func(now time.Time, snapshot Snapshot) (*Change, error) {
		after = snapshot.Entry
		change, err := step(now, snapshot)
		if err != nil || change == nil {
			return nil, err
		}
		after = change.Entry
		crash.At("order-next")
		return change, nil
	})
	if err != nil {
		return Entry{}, noRow(key, err)
	}
	crash.At("order-written")
	return after, nil
}

// noRow is the Rejection of a key that has no row, or the error that is given.
func noRow(key Key, err error) error {
	switch {
	case !errors.Is(err, ErrUnknown):
		return err
	case key.IsBinding:
		return reject(NotFound, "there is no binding of this id")
	}
	return reject(NotFound, "there is no instance of this id")
}

// describe is what a row is, and the id by which it was ordered.
func describe(e Entry) string {
	if e.Key.IsBinding {
		return "the binding " + e.Names.Instance + "/" + e.Names.Binding
	}
	return "the instance " + e.Names.Instance
}

// The organization and the space of an order that names none.
const (
	DefaultOrganization = "osb-platform"
	DefaultSpace        = "osb-platform"
)

// mostTries is the most for which an instance or a binding may be ordered under further ids.
const mostTries = 100

// triesOf returns how often a creation is tried at most. wanted is how often somebody asks for, or 0. In that case,
// what has a chosen id is tried once, because the next try would have another id.
//
// Errors: a Rejection.
func triesOf(wanted int, isOwnID bool) (int, error) {
	switch {
	case wanted < 0 || wanted > mostTries:
		return 0, reject(Invalid, "a creation is tried 1 to %d times", mostTries)
	case wanted != 0:
		return wanted, nil
	case isOwnID:
		return DefaultTries, nil
	}
	return 1, nil
}

// Create writes down an instance to create, and returns its row.
//
// Errors: a Rejection if the broker, the service or the plan is unknown, the broker has given no catalogue yet, the id
// is used, or a member isn't an object of JSON that can be sent; those of the Store.
func (o *Orders) Create(ctx context.Context, wanted NewInstance) (Entry, error) {
	broker, err := o.broker(ctx, wanted.Broker)
	if err != nil {
		return Entry{}, err
	}
	service, plan, err := choosePlan(broker, wanted.Service, wanted.Plan)
	if err != nil {
		return Entry{}, err
	}
	text, number, err := o.idOf(wanted.ID)
	if err != nil {
		return Entry{}, err
	}
	tries, err := triesOf(wanted.Tries, wanted.ID == "")
	if err != nil {
		return Entry{}, err
	}
	order := Order{
		Key: osb.InstanceKey(number), Broker: broker.Name, Service: service.Number, Plan: plan.Number,
		IsOwnID:      wanted.ID == "",
		Names:        Names{Instance: text, Service: service.ID, Plan: plan.ID},
		Organization: orText(wanted.Organization, DefaultOrganization), Space: orText(wanted.Space, DefaultSpace),
		Identity: wanted.Identity, Try: 1, Tries: tries, First: number,
	}
	order.Body, err = bodyOf(member{"parameters", wanted.Parameters}, member{"context", wanted.Context})
	if err != nil {
		return Entry{}, err
	}
	if _, err := osb.WriteNamedBody(osb.KindProvision, osb.Names{
		Instance: text, Service: service.ID, Plan: plan.ID,
	}, order.Organization, order.Space, order.Body); err != nil {
		return Entry{}, unsendable(err)
	}
	return o.insert(ctx, order, func(Snapshot) error { return nil })
}

// Bind writes down a binding to create, and returns its row. Its instance must be recorded ready, and not be removed.
//
// Errors: a Rejection; those of the Store.
func (o *Orders) Bind(ctx context.Context, wanted NewBinding) (Entry, error) {
	if o.vault == nil {
		return Entry{}, reject(Conflict, "there is no key to keep credentials with: give the program one")
	}
	of, err := o.bindable(ctx, wanted.Instance)
	if err != nil {
		return Entry{}, err
	}
	text, number, err := o.idOf(wanted.ID)
	if err != nil {
		return Entry{}, err
	}
	tries, err := triesOf(wanted.Tries, wanted.ID == "")
	if err != nil {
		return Entry{}, err
	}
	order := Order{
		Key: osb.BindingKey(of.Key.Instance, number), Broker: of.Broker, Service: of.Service, Plan: of.Plan,
		IsOwnID:      wanted.ID == "",
		Names:        Names{Instance: of.Names.Instance, Binding: text, Service: of.Names.Service, Plan: of.Names.Plan},
		Organization: of.Organization, Space: of.Space, Identity: wanted.Identity, Try: 1, Tries: tries, First: number,
	}
	order.Body, err = bodyOf(
		member{"parameters", wanted.Parameters}, member{"context", wanted.Context},
		member{"bind_resource", wanted.BindResource},
	)
	if err != nil {
		return Entry{}, err
	}
	names := osb.BindingNames{
		Instance: order.Names.Instance, Binding: text, Service: order.Names.Service, Plan: order.Names.Plan,
	}
	if _, err := osb.WriteBindingBody(osb.KindProvision, names, order.Body); err != nil {
		return Entry{}, unsendable(err)
	}
	return o.insert(ctx, order, func(snapshot Snapshot) error { return checkReady(*snapshot.Instance) })
}

// bindable is the row of an instance whose plan is bindable.
func (o *Orders) bindable(ctx context.Context, id string) (Entry, error) {
	_, instance, err := namedID(id)
	if err != nil {
		return Entry{}, err
	}
	of, err := o.store.Read(ctx, osb.InstanceKey(instance))
	if err != nil {
		return Entry{}, unknownInstance(id, err)
	}
	return of, o.checkBindable(ctx, of)
}

// checkReady is a Rejection unless an instance is recorded ready and isn't removed.
func checkReady(instance Entry) error {
	switch {
	case instance.Removal != NotRemoved:
		return reject(Conflict, "%s is removed: no binding of it can be created", describe(instance))
	case instance.State != Ready:
		return reject(Conflict, "%s is %s: a binding can be created once it is ready", describe(instance), instance.State)
	}
	return nil
}

// unknownInstance is the Rejection of a binding whose instance has no row, or the error that is given.
func unknownInstance(id string, err error) error {
	if errors.Is(err, ErrUnknown) {
		return reject(NotFound, "the instance %s is unknown", id)
	}
	return err
}

// checkBindable is a Rejection unless the catalogue has the plan of an instance, and says that it is bindable.
func (o *Orders) checkBindable(ctx context.Context, instance Entry) error {
	broker, err := o.broker(ctx, instance.Broker)
	if err != nil {
		return err
	}
	catalogue, err := catalogueOf(broker)
	if err != nil {
		return err
	}
	_, plan := catalogue.plan(instance.Service, instance.Plan)
	switch {
	case plan == nil:
		return reject(Conflict, "the catalogue of the broker %s doesn't have the plan %q any more: no binding can be "+
			"created until the broker offers the plan again", broker.Name, instance.Names.Plan)
	case !plan.IsBindable:
		return reject(Invalid, "the plan %q isn't bindable: the catalogue of the broker %s says so", instance.Names.Plan,
			broker.Name)
	}
	return nil
}

// insert writes a new row, which is due at once.
func (o *Orders) insert(ctx context.Context, order Order, check func(Snapshot) error) (Entry, error) {
	if err := checkIdentity(order.Identity); err != nil {
		return Entry{}, err
	}
	now, err := timeOf(ctx, o.store)
	if err != nil {
		return Entry{}, err
	}
	now = now.Truncate(time.Millisecond)
	entry := Entry{Order: order, State: Ordered, Since: now, Due: now}
	err = o.store.Insert(ctx, entry, func(snapshot Snapshot) error {
		if err := check(snapshot); err != nil {
			return err
		}
		crash.At("order-next")
		return nil
	})
	switch {
	case errors.Is(err, ErrUsed):
		return Entry{}, reject(Conflict, "the id of %s is used already, and none is used twice: choose another one",
			describe(entry))
	case errors.Is(err, ErrUnknown) && !order.Key.IsBinding: // dropped since it was read
		return Entry{}, reject(NotFound, "the broker %q is unknown", order.Broker)
	case err != nil:
		return Entry{}, unknownInstance(order.Names.Instance, err)
	}
	crash.At("order-written")
	return entry, nil
}

// broker is the broker of this name, or the only one if none is named.
func (o *Orders) broker(ctx context.Context, name string) (Broker, error) {
	brokers, err := o.store.Brokers(ctx)
	if err != nil {
		return Broker{}, err
	}
	names := make([]string, 0, len(brokers))
	for _, broker := range brokers {
		if broker.Name == name || name == "" && len(brokers) == 1 {
			return broker, nil
		}
		names = append(names, broker.Name)
	}
	switch {
	case len(names) == 0:
		return Broker{}, reject(NotFound, "there is no broker: add one first")
	case name == "":
		return Broker{}, reject(Invalid, "there are several brokers: name one of %s", strings.Join(names, ", "))
	}
	return Broker{}, reject(NotFound, "the broker %q is unknown: there is %s", name, strings.Join(names, ", "))
}

// catalogueOf is the catalogue that a broker has answered last.
func catalogueOf(broker Broker) (*Catalogue, error) {
	if broker.Catalogue == nil {
		return nil, reject(Conflict, "the broker %s has given no catalogue yet%s: run the platform, and try again",
			broker.Name, reasonIn(broker))
	}
	catalogue, err := ReadCatalogue(broker.Catalogue)
	if err != nil {
		return nil, reject(Conflict, "the broker %s: %v", broker.Name, err)
	}
	return catalogue, nil
}

// reasonIn is why a broker has given no catalogue, in brackets, or empty if nobody has asked it.
func reasonIn(broker Broker) string {
	if broker.Reason.Lost == "" {
		return ""
	}
	return " (" + broker.Reason.Lost + ")"
}

// choosePlan are the service and the plan of a broker that an order names.
func choosePlan(broker Broker, service, plan string) (*CatalogueService, *CataloguePlan, error) {
	catalogue, err := catalogueOf(broker)
	if err != nil {
		return nil, nil, err
	}
	found := catalogue.Service(service)
	if found == nil {
		names := make([]string, 0, len(catalogue.Services))
		for _, service := range catalogue.Services {
			names = append(names, service.Name)
		}
		return nil, nil, reject(Invalid, "the broker %s has no service %q: name one of %s", broker.Name, service,
			strings.Join(names, ", "))
	}
	sold := found.Plan(plan)
	if sold == nil {
		names := make([]string, 0, len(found.Plans))
		for _, plan := range found.Plans {
			names = append(names, plan.Name)
		}
		return nil, nil, reject(Invalid, "the service %s has no plan %q: name one of %s", found.Name, plan,
			strings.Join(names, ", "))
	}
	return found, sold, nil
}

// idOf is the id that an order names, or a new GUID, and its number.
func (o *Orders) idOf(named string) (text string, number osb.ID, err error) {
	if named != "" {
		return namedID(named)
	}
	if number, err = o.newID(); err != nil {
		return "", number, err
	}
	return number.String(), number, nil
}

// namedID is the number of an id that an operator names.
func namedID(named string) (text string, number osb.ID, err error) {
	if named == "." || named == ".." || strings.Contains(named, "/") {
		return "", number, reject(Invalid, "the id %q can't be used: it is . or .., or has a slash", named)
	}
	if number, err = osb.IDOfText(named); err != nil {
		return "", number, noID(named)
	}
	return named, number, nil
}

// longestIdentity is how many bytes an originating identity may have. It is sent with each request, and servers reject
// a head that is too long: osb-broker one of more than 32 KiB. Then the order couldn't even be deleted.
const longestIdentity = 16 << 10

func checkIdentity(value string) error {
	if value == "" {
		return nil
	}
	if len(value) > longestIdentity {
		return reject(Invalid, "the originating identity has %d bytes, and may have %d", len(value), longestIdentity)
	}
	if _, err := osb.OriginatingIdentity(value); err != nil {
		return reject(Invalid, "the originating identity isn't a platform, a blank, and an object of JSON in base64")
	}
	return nil
}

// A member of the body of a request.
type member struct {
	name   string
	object json.RawMessage // an object of JSON, or nil
}

// bodyOf is the object of these members, with their texts as they are: json.Marshal would write six bytes for each < of
// them, and a broker may reject what is longer.
func bodyOf(members ...member) (json.RawMessage, error) {
	body := map[string]json.RawMessage{}
	for _, member := range members {
		if len(member.object) == 0 {
			continue
		}
		if err := checkObject(member.name, member.object); err != nil {
			return nil, err
		}
		body[member.name] = member.object
	}
	text := bytes.Buffer{}
	encoder := json.NewEncoder(&text)
	encoder.SetEscapeHTML(false)
	err := encoder.Encode(body)
	return bytes.TrimSuffix(text.Bytes(), []byte("\n")), err
}

func orText(text, standby string) string {
	if text != "" {
		return text
	}
	return standby
}

// Remove has an instance or a binding deleted. An order that wasn't sent is withdrawn. withBindings has the bindings of
// an instance deleted first. Without that, bindings of it that were ordered and never sent are withdrawn. It returns
// the row after that; if the row is gone or withdrawn already, it stays as it is.
//
// Errors: a Rejection if the key is unknown, or if the instance has bindings and withBindings is false; those of the
// Store. A binding that is abandoned doesn't count.
func (o *Orders) Remove(ctx context.Context, key Key, withBindings bool) (Entry, error) {
	return o.change(ctx, key, func(now time.Time, snapshot Snapshot) (*Change, error) {
		e := snapshot.Entry
		switch {
		case e.State == Gone || e.State == Withdrawn:
			return nil, nil
		case e.State == Abandoned:
			return nil, reject(Conflict, "%s is abandoned: nothing is sent any more", describe(e))
		case !e.IsSent:
			e.State, e.Since, e.Due, e.Removal = Withdrawn, now, time.Time{}, Removed
			return &Change{Entry: e, WakeInstance: key.IsBinding}, nil
		}
		removal, allGone := Removed, false
		if !key.IsBinding {
			var err error
			allGone, err = snapshot.AllGone()
			switch {
			case err != nil:
				return nil, err
			case withBindings:
				removal = RemovedWhole
			case !allGone && e.Removal != RemovedWhole:
				return nil, reject(Conflict, "%s has bindings: remove them first, or with it", describe(e))
			}
		}
		if e.Removal < removal {
			e.Removal = removal
		}
		e.Due = now
		return &Change{Entry: e, RemoveBindings: !key.IsBinding && (withBindings || allGone)}, nil
	})
}

// Retry has a deletion sent again that hangs in cleaning-polling, and every other step that is due later done at once.
//
// Errors: a Rejection if the key is unknown, if nothing is to be done for it, if a request is in flight, if its record
// doesn't allow that, or if it is unsettled, so that somebody has to decide; those of the Store.
func (o *Orders) Retry(ctx context.Context, key Key) (Entry, error) {
	return o.change(ctx, key, func(now time.Time, snapshot Snapshot) (*Change, error) {
		e := snapshot.Entry
		switch {
		case e.Rests() && e.State == Unsettled:
			return nil, reject(Conflict, "%s is unsettled: its creation has failed, and the broker may hold it. Nothing "+
				"is sent until somebody decides: ask the broker for its last operation, and then remove it or abandon it",
				describe(e))
		case e.Rests() || e.isOver(): // a binding that is withdrawn has woken it
			return nil, reject(Conflict, "%s is %s: nothing is to be done for it", describe(e), e.State)
		case now.Before(e.Lease.Until): // a last deletion is in no record
			return nil, reject(Conflict, "a request of %s is in flight: try again later", describe(e))
		}
		transaction, err := e.retry(now)
		if err != nil {
			return nil, err
		}
		e.Due, e.Unchanged = now, 0
		return &Change{Entry: e, Transaction: &transaction}, nil
	})
}

// retry has a driver give up what a dead worker has left in flight, and a deletion that is polled begin again. Nothing is
// sent. It returns the driver's transaction.
//
// Errors: a Rejection if the record doesn't allow that; osb.ErrBadRecord, which isn't the fault of whoever asks.
func (e *Entry) retry(now time.Time) (transaction osb.PlatformTransaction, err error) {
	transaction, number, err := e.giveUp(osb.CleanUpRetry)
	switch {
	case err != nil:
		return transaction, fmt.Errorf("%s: %w", describe(*e), err)
	case e.State == CleaningPolling && transaction.CleansUp() != osb.CleanUpRetry:
		return transaction, reject(Conflict, "%s can't be retried: its record is %s", describe(*e), StateOf(e.Record))
	}
	if e.follow(now, transaction, terms{}); transaction.HasRecord() {
		e.Number = number
	}
	return transaction, nil
}

// giveUp has a driver give up what is in flight, and clean the record up in this way if it allows that. Nothing is sent.
// Besides the driver's transaction it returns a number that no driver has, for the row.
func (e *Entry) giveUp(cleanUp osb.CleanUp) (transaction osb.PlatformTransaction, number osb.ID, err error) {
	driver, err := newDriver(e.Key)
	if err != nil {
		return transaction, number, err
	}
	if number, err = newID(); err != nil {
		return transaction, number, err
	}
	reading := e.reading(terms{})
	reading.CleanUp = cleanUp
	transaction, err = driver.Read(reading)
	return transaction, number, err
}

// Abandon ends the record as abandoned, for a reason that an operator gives. What is in flight is given up, and no
// further request is claimed. One that a worker has claimed before may still be sent, within the time of its exchange,
// and its answer isn't written. Nobody knows whether the resource exists. If a binding of an instance may exist, the
// instance can't be abandoned. An instance whose bindings are gone or abandoned can be removed, and it can be abandoned.
// Bindings of it that were ordered and never sent are withdrawn.
//
// Errors: a Rejection; those of the Store.
func (o *Orders) Abandon(ctx context.Context, key Key, because string) (Entry, error) {
	if because == "" {
		return Entry{}, reject(Invalid, "give a reason: whoever reads the record later sees it")
	}
	return o.change(ctx, key, func(now time.Time, snapshot Snapshot) (*Change, error) {
		e := snapshot.Entry
		switch {
		case e.isOver():
			return nil, reject(Conflict, "%s is %s already", describe(e), e.State)
		case !e.IsSent:
			return nil, reject(Conflict, "%s wasn't sent yet: remove it", describe(e))
		}
		if !key.IsBinding {
			allGone, err := snapshot.AllGone()
			if err != nil {
				return nil, err
			}
			if !allGone {
				return nil, reject(Conflict, "a binding of %s may exist: remove its bindings first", describe(e))
			}
		}
		transaction, number, err := e.giveUp(osb.CleanUpNone)
		if err != nil {
			return nil, fmt.Errorf("%s: %w", describe(e), err)
		}
		e.Record, _ = transaction.Row()
		e.Number = number
		e.Because = because
		e.Due, e.DueSince, e.Lease, e.HasLast = time.Time{}, time.Time{}, Lease{}, false
		e.Credentials, e.Operation = nil, nil
		if e.State != Gone { // of what is gone, only the last deletion is abandoned
			e.State, e.Since = Abandoned, now
		}
		change := &Change{Entry: e, WakeInstance: key.IsBinding, RemoveBindings: !key.IsBinding}
		if transaction.Writes() {
			change.Transaction = &transaction
		}
		return change, nil
	})
}

// Credentials returns the object of a binding that is ready, as the broker has answered it.
//
// Errors: a Rejection if the key is unknown or not ready, or there is no vault; those of the Store and the Vault.
func (o *Orders) Credentials(ctx context.Context, key Key) (json.RawMessage, error) {
	if !key.IsBinding {
		return nil, reject(Invalid, "it is an instance: only a binding has credentials")
	}
	if o.vault == nil {
		return nil, reject(Conflict, "there is no key to read credentials with: give the program the right one")
	}
	e, err := o.store.Read(ctx, key)
	if err != nil {
		return nil, noRow(key, err)
	}
	if e.Unreadable != "" {
		return nil, fmt.Errorf("%s can't be read: %s", describe(e), e.Unreadable)
	}
	if e.State != Ready {
		return nil, reject(Conflict, "%s is %s: it has credentials while it is ready", describe(e), e.State)
	}
	if e.Credentials == nil {
		return nil, fmt.Errorf("%s is ready, and has no credentials in the store", describe(e))
	}
	object, err := o.vault.Open(e.Credentials, key.String())
	if err != nil {
		return nil, fmt.Errorf("the credentials of %s can't be decrypted: %w", describe(e), err)
	}
	return object, nil
}

// deepest is how many arrays and objects of a member of a body may lie within each other, the member's own object
// included. The body has one more, and is read to a depth of 127 (docs/wire.md).
const deepest = 126

// checkObject returns a Rejection unless a member of a body is an object of JSON that every broker reads in the same
// way: no name stands twice in an object, no number is above every float, and it isn't too deep.
func checkObject(name string, text json.RawMessage) error {
	if !json.Valid(text) || bytes.TrimSpace(text)[0] != '{' {
		return reject(Invalid, "%s isn't an object of JSON", name)
	}
	decoder := json.NewDecoder(bytes.NewReader(text))
	decoder.UseNumber()
	if err := checkValue(decoder, deepest); err != nil {
		return reject(Invalid, "%s can't be sent: %v", name, err)
	}
	return nil
}

// checkValue reads one value of a text that is JSON.
func checkValue(decoder *json.Decoder, deep int) error {
	token, err := decoder.Token()
	if err != nil {
		return err
	}
	switch it := token.(type) {
	case json.Number:
		if _, err := strconv.ParseFloat(it.String(), 64); err != nil {
			return fmt.Errorf("the number %.64s is above 1.8e308", it)
		}
	case json.Delim:
		if deep == 0 {
			return fmt.Errorf("more than %d arrays and objects lie within each other", deepest)
		}
		return checkMembers(decoder, it == '{', deep-1)
	}
	return nil
}

// checkMembers reads what is left of an array or an object that was opened.
func checkMembers(decoder *json.Decoder, isObject bool, deep int) error {
	names := map[string]bool{}
	for decoder.More() {
		if isObject {
			token, err := decoder.Token()
			if err != nil {
				return err
			}
			name, _ := token.(string) // a name is a string
			if names[name] {
				return fmt.Errorf("the member %.64q stands twice in an object", name)
			}
			names[name] = true
		}
		if err := checkValue(decoder, deep); err != nil {
			return err
		}
	}
	_, err := decoder.Token()
	return err
}

// unsendable is the Rejection of an order whose body can't be written.
func unsendable(err error) error {
	if errors.Is(err, osb.ErrNotJSON) { // checkObject has found no other reason
		return reject(Invalid, `the order can't be sent: a text has one half of a surrogate pair, such as \ud800`)
	}
	return reject(Invalid, "the order can't be sent: %v", err)
}
