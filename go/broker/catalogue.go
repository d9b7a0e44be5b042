package broker

import (
	"bytes"
	"crypto/rand"
	"encoding/json"
	"errors"
	"fmt"
	"sort"
	"strconv"

	"pippinterm/osb"
)

// A Catalogue is what a broker sells: the document that it serves, and how each plan works.
type Catalogue struct {
	store       string // the id of the store, or empty
	document    []byte
	returning   []byte // the document of a broker whose ids return
	instances   map[planIDs]osb.Mode
	bindings    map[planIDs]osb.Mode
	updates     map[planIDs]osb.Mode // how an update to a plan works
	texts       map[planIDs]planTexts
	deletions   [2]map[osb.ID]bool // services with a synchronous plan: of instances, and of bindings
	versions    map[planIDs]string
	retrievable map[osb.ID]bool // services whose bindings can be fetched
	fetchable   map[osb.ID]bool // services whose instances can be fetched
}

// planIDs are the ids of a plan and its service.
type planIDs struct{ service, plan osb.ID }

// planTexts are the ids of a plan and its service as the catalogue has them. Another text may have the same number.
type planTexts struct{ service, plan string }

// NewCatalogue reads a document as osb.CheckCatalogue does. If the backend can't bind, no service may be bindable. If it
// can't update, no plan may be plan_updateable.
//
// Errors: those of osb.CheckCatalogue, osb.BindingModes and osb.ServedCatalogue, and ErrCatalogueMember.
func NewCatalogue(document []byte, can Abilities) (*Catalogue, error) {
	serves := osb.Endpoints{
		Updating: can.Updates, Bindings: can.Bindings, FetchingInstances: true, FetchingBindings: can.Bindings,
	}
	if err := osb.CheckCatalogue(document, serves); err != nil {
		return nil, err
	}
	instances, err := osb.CataloguePlans(document)
	if err != nil {
		return nil, err
	}
	bindings, err := osb.BindingModes(document)
	if err != nil {
		return nil, err
	}
	if !can.Bindings {
		bindings = nil
	}
	c := &Catalogue{instances: modesOf(instances), bindings: modesOf(bindings)}
	c.deletions = [2]map[osb.ID]bool{deletionsOf(c.instances), deletionsOf(c.bindings)}
	if c.document, err = served(document, can); err != nil {
		return nil, err
	}
	if c.returning, err = withoutTombstones(c.document); err != nil {
		return nil, err
	}
	return c, c.readRest(document)
}

// served is the document that is served.
func served(document []byte, can Abilities) ([]byte, error) {
	made, err := osb.ServedCatalogue(document)
	if err == nil && can.Updates {
		made, err = osb.ServedUpdates(made)
	}
	return made, err
}

// readUpdates reads how updates work, and which instances can be fetched.
func (c *Catalogue) readUpdates(document []byte) error {
	c.updates, c.fetchable = map[planIDs]osb.Mode{}, map[osb.ID]bool{}
	for ids, mode := range c.instances {
		plan, err := osb.ReadPlanUpdates(document, ids.service, ids.plan)
		if err != nil {
			return err
		}
		switch {
		case plan.Asynchronous == nil:
		case *plan.Asynchronous:
			mode = osb.ModeAsync
		default:
			mode = osb.ModeSync
		}
		c.updates[ids], c.fetchable[ids.service] = mode, plan.Retrievable
	}
	return nil
}

// readRest reads how updates work, the versions of plans, and what can be fetched.
func (c *Catalogue) readRest(document []byte) (err error) {
	if err := c.readUpdates(document); err != nil {
		return err
	}
	if c.versions, err = versionsOf(document, c.instances); err != nil {
		return err
	}
	c.retrievable = map[osb.ID]bool{}
	for ids := range c.bindings {
		if c.retrievable[ids.service], err = osb.BindingsRetrievable(document, ids.service); err != nil {
			return err
		}
	}
	if err := checkMembers(document); err != nil {
		return err
	}
	c.texts, err = textsOf(document)
	return err
}

// textsOf are the ids of a document that was checked.
func textsOf(document []byte) (map[planIDs]planTexts, error) {
	var read struct {
		Services []struct {
			ID    string `json:"id"`
			Plans []struct {
				ID string `json:"id"`
			} `json:"plans"`
		} `json:"services"`
	}
	if err := json.Unmarshal(document, &read); err != nil {
		return nil, fmt.Errorf("%w: %v", ErrCatalogueMember, err)
	}
	texts := map[planIDs]planTexts{}
	for _, service := range read.Services {
		number, err := osb.IDOfText(service.ID)
		for _, plan := range service.Plans {
			ids := planIDs{service: number}
			if err == nil {
				ids.plan, err = osb.IDOfText(plan.ID)
			}
			if err != nil {
				return nil, err
			}
			texts[ids] = planTexts{service.ID, plan.ID}
		}
	}
	return texts, nil
}

// deletionsOf are the services that have a synchronous plan.
func deletionsOf(modes map[planIDs]osb.Mode) map[osb.ID]bool {
	found := map[osb.ID]bool{}
	for ids, mode := range modes {
		if mode == osb.ModeSync {
			found[ids.service] = true
		}
	}
	return found
}

func versionsOf(document []byte, modes map[planIDs]osb.Mode) (map[planIDs]string, error) {
	versions := map[planIDs]string{}
	for ids := range modes {
		version, err := osb.PlanVersion(document, ids.service, ids.plan)
		switch {
		case errors.Is(err, osb.ErrNoPlanVersion):
		case err != nil:
			return nil, err
		default:
			versions[ids] = version
		}
	}
	return versions, nil
}

func modesOf(plans []osb.Plan) map[planIDs]osb.Mode {
	modes := map[planIDs]osb.Mode{}
	for _, plan := range plans {
		mode := osb.ModeSync
		if plan.IsAsynchronous {
			mode = osb.ModeAsync
		}
		modes[planIDs{plan.Service, plan.Plan}] = mode
	}
	return modes
}

// OfStore returns the catalogue of a broker over the store with this id (NamedStore.ID): its document names the store
// in the member x-osb-store, and so does each answer of a Handler, in the header StoreHeader. A platform that knows it
// takes no answer of a broker over another store.
//
// Errors: the id is no text that a header can have.
func (c *Catalogue) OfStore(id string) (*Catalogue, error) {
	if err := osb.RequestIdentity(id); err != nil {
		return nil, fmt.Errorf("the id of a store: %w", err)
	}
	of := *c
	of.store = id
	of.document, of.returning = withStore(c.document, id), withStore(c.returning, id)
	return &of, nil
}

// Document is the document that is served.
func (c *Catalogue) Document() []byte { return c.document }

// mode is how a plan works: for an instance, or for a binding. It is osb.ModeNone if the plan isn't sold, or isn't
// bindable.
func (c *Catalogue) mode(isBinding bool, of planIDs) osb.Mode {
	modes := c.instances
	if isBinding {
		modes = c.bindings
	}
	if mode, isSold := modes[of]; isSold {
		return mode
	}
	return osb.ModeNone
}

// mayDelete reports whether a deletion that names a plan may do its work before it is answered. After an update, it may
// name any plan of the service, and works as the plan with which the instance or the binding was created.
func (c *Catalogue) mayDelete(isBinding bool, of planIDs) bool {
	services := c.deletions[0]
	if isBinding {
		services = c.deletions[1]
	}
	return services[of.service] && c.mode(isBinding, of) != osb.ModeNone
}

// named are the texts of a plan and its service: those of the catalogue, or else those that a request names.
func (c *Catalogue) named(of planIDs, otherwise planTexts) planTexts {
	if texts, isSold := c.texts[of]; isSold {
		return texts
	}
	return otherwise
}

// updateMode is how an update to a plan works. It is osb.ModeNone if the plan isn't sold.
func (c *Catalogue) updateMode(of planIDs) osb.Mode {
	if mode, isSold := c.updates[of]; isSold {
		return mode
	}
	return osb.ModeNone
}

// allowed is what the catalogue has for an Update of an instance that has one plan to another, which may be the same.
func (c *Catalogue) allowed(update *AskedUpdate, held, asked osb.ID) (osb.Allowed, error) {
	mode := c.updateMode(planIDs{update.Service, asked})
	if mode == osb.ModeNone {
		return osb.AllowedRejected400, nil
	}
	var version *string
	if update.Change.HasVersion {
		version = &update.Settings.Version
	}
	return osb.UpdateAllowed(c.document, update.Service, held, asked, version, mode)
}

// ErrCatalogueMember reports a member of a catalogue that has another form than the standard's, or that promises what
// this broker doesn't serve. The message names the service and the plan.
var ErrCatalogueMember = errors.New("the catalogue can't be served")

// A member is a rule about a member of a service or a plan that the library passes through.
type member func(value json.RawMessage) error

// The rules of the sections Service Offering Object and Service Plan Object of the standard (Catalog Management). A
// member that isn't here is the library's, or is passed through as it is.
var (
	membersOfServices = map[string]member{
		"tags": listOfStrings, "requires": nothingRequired, "metadata": anObject, "dashboard_client": anObject,
		"allow_context_updates": notServed("updates of the context aren't served"),
		"binding_rotatable":     notServed("rotation isn't served"),
	}
	membersOfPlans = map[string]member{
		"free": aFlag, "metadata": anObject, "schemas": anObject, "maximum_polling_duration": positive,
		"x-osb-asynchronous-updates": aFlag,
		"maintenance_info":           maintenance,
		"binding_rotatable":          notServed("rotation isn't served"),
	}
)

// checkMembers checks the members of a document that the library passes through. Errors: ErrCatalogueMember.
func checkMembers(document []byte) error {
	var read struct {
		Services []map[string]json.RawMessage `json:"services"`
		Store    json.RawMessage              `json:"x-osb-store"`
		Updates  json.RawMessage              `json:"x-osb-updates"`
	}
	if err := json.Unmarshal(document, &read); err != nil {
		return fmt.Errorf("%w: %v", ErrCatalogueMember, err)
	}
	if read.Store != nil {
		return fmt.Errorf("%w: x-osb-store: the broker adds it, with the id of its store. Leave it out",
			ErrCatalogueMember)
	}
	if read.Updates != nil {
		return fmt.Errorf("%w: x-osb-updates: the broker adds it if its backend can update. Leave it out",
			ErrCatalogueMember)
	}
	for _, service := range read.Services {
		where := "service " + nameIn(service)
		if err := checkObject(service, membersOfServices, where); err != nil {
			return err
		}
		var plans []map[string]json.RawMessage
		if err := json.Unmarshal(service["plans"], &plans); err != nil {
			return fmt.Errorf("%w: %s: %v", ErrCatalogueMember, where, err)
		}
		for _, plan := range plans {
			if err := checkObject(plan, membersOfPlans, where+", plan "+nameIn(plan)); err != nil {
				return err
			}
		}
	}
	return nil
}

// checkObject checks the members of a service or a plan, in the order of their names.
func checkObject(of map[string]json.RawMessage, rules map[string]member, where string) error {
	names := make([]string, 0, len(of))
	for name := range of {
		names = append(names, name)
	}
	sort.Strings(names)
	for _, name := range names {
		rule := rules[name]
		if rule == nil {
			continue
		}
		if err := rule(of[name]); err != nil {
			return fmt.Errorf("%w: %s: %s %v", ErrCatalogueMember, where, name, err)
		}
	}
	return nil
}

// nameIn is the name of a service or a plan, which the library has read.
func nameIn(of map[string]json.RawMessage) string {
	var name string
	_ = json.Unmarshal(of["name"], &name)
	return strconv.Quote(name)
}

// reads reports whether a value has the form of a variable of Go. null has none.
func reads(value json.RawMessage, into any) bool {
	return !bytes.Equal(bytes.TrimSpace(value), []byte("null")) && json.Unmarshal(value, into) == nil
}

func anObject(value json.RawMessage) error {
	if !reads(value, &map[string]json.RawMessage{}) {
		return errors.New("isn't an object")
	}
	return nil
}

func aFlag(value json.RawMessage) error {
	if !reads(value, new(bool)) {
		return errors.New("isn't true or false")
	}
	return nil
}

func listOfStrings(value json.RawMessage) error {
	var texts []*string
	isRead := reads(value, &texts)
	for _, text := range texts {
		isRead = isRead && text != nil
	}
	if !isRead {
		return errors.New("isn't an array of strings")
	}
	return nil
}

func positive(value json.RawMessage) error {
	var number int64
	if !reads(value, &number) || number <= 0 {
		return errors.New("isn't a whole number of seconds above 0")
	}
	return nil
}

// nothingRequired is the rule of requires: no Bind is answered with what such a service gives to a platform.
func nothingRequired(value json.RawMessage) error {
	if err := listOfStrings(value); err != nil {
		return err
	}
	var permissions []string
	if _ = json.Unmarshal(value, &permissions); len(permissions) > 0 {
		return fmt.Errorf("has %q: no Bind is answered with a drain, a route service or volume mounts", permissions[0])
	}
	return nil
}

func maintenance(value json.RawMessage) error {
	var read struct {
		Version     *string `json:"version"`
		Description *string `json:"description"`
	}
	if !reads(value, &read) || read.Version == nil || *read.Version == "" {
		return errors.New("isn't an object with a version, which is a string")
	}
	return nil
}

// notServed is the rule of a flag that may only be false.
func notServed(why string) member {
	return func(value json.RawMessage) error {
		var isPromised bool
		switch {
		case !reads(value, &isPromised):
			return errors.New("isn't true or false")
		case isPromised:
			return errors.New("is true, and " + why)
		}
		return nil
	}
}

// StoreHeader is the header of each answer that names the store of the broker, as net/http writes it. A request may
// name the store for which it is, in the same header. storeMember is the member of the catalogue that names the store.
// All are this project's choice.
const (
	StoreHeader = "X-Osb-Store"
	storeMember = "x-osb-store"
)

// NewStoreID returns a new id of a store: a random GUID (RFC 4122, version 4).
func NewStoreID() (string, error) {
	var id osb.ID
	if _, err := rand.Read(id[:]); err != nil {
		return "", err
	}
	id[6], id[8] = id[6]&0x0f|0x40, id[8]&0x3f|0x80
	return id.String(), nil
}

// withStore is a document, an object without the member x-osb-store, with that member at its end. All else stays as it
// is.
func withStore(document []byte, id string) []byte {
	value, err := json.Marshal(id)
	if err != nil {
		panic(err) // of a text
	}
	before := bytes.TrimRight(document, " \t\r\n")
	before = bytes.TrimRight(before[:len(before)-1], " \t\r\n") // without the brace
	made := append(make([]byte, 0, len(document)+len(value)+20), before...)
	if !bytes.HasSuffix(before, []byte("{")) {
		made = append(made, ',')
	}
	made = append(append(made, `"`+storeMember+`":`...), value...)
	return append(made, '}')
}
