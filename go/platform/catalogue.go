package platform

import (
	"encoding/json"
	"errors"
	"fmt"
	"strconv"
	"strings"
	"time"

	"pippinterm/osb"
)

// A Catalogue is what the platform takes from the catalogue of a broker (section Catalog Management of the standard).
type Catalogue struct {
	Services []CatalogueService
	// HasTombstones says that the broker never creates again what has ended: x-osb-tombstones is true.
	HasTombstones bool
	// Store is the store that it names (StoreOf), or empty.
	Store string
}

// A CatalogueService is a service of a catalogue. Its ID is the text that is sent, and Number that text's number.
type CatalogueService struct {
	ID, Name, Description string
	Number                osb.ID
	// IsRetrievable says that a binding can be fetched, so that it may be created asynchronously.
	IsRetrievable bool
	// InstancesRetrievable says that an instance can be fetched.
	InstancesRetrievable bool
	Plans                []CataloguePlan
}

// A CataloguePlan is a plan of a service.
type CataloguePlan struct {
	ID, Name, Description string
	Number                osb.ID
	IsBindable            bool
	// IsAsynchronous and BindsAsynchronously are what the extensions of this project say (docs/wire.md). The platform
	// accepts both modes, whatever they are.
	IsAsynchronous, BindsAsynchronously bool
	// LongestPoll is maximum_polling_duration, or 0 if the plan has none.
	LongestPoll time.Duration
}

// mostSeconds is the greatest maximum_polling_duration that counts: some thirty years.
const mostSeconds = 1_000_000_000

var errNoServices = errors.New("the catalogue has no list of services")

// The members of a catalogue that count. A member of another type is passed over.
type (
	writtenCatalogue struct {
		Services   []writtenService
		Tombstones any `json:"x-osb-tombstones"`
	}
	writtenService struct {
		ID, Name, Description string
		Bindable              any
		Retrievable           any `json:"instances_retrievable"`
		Plans                 []writtenPlan
	}
	writtenPlan struct {
		ID, Name, Description string
		Bindable              any
		Longest               json.RawMessage `json:"maximum_polling_duration"`
	}
)

// ReadCatalogue reads the document of a catalogue. Brokers of other projects are read too: a service or a plan without
// an id is passed over, and so is a duration that is no whole number of seconds above 0.
//
// Errors: if the document isn't JSON, or has no list of services.
func ReadCatalogue(document []byte) (*Catalogue, error) {
	var written writtenCatalogue
	err := json.Unmarshal(document, &written)
	var mistyped *json.UnmarshalTypeError
	if err != nil && !errors.As(err, &mistyped) {
		return nil, fmt.Errorf("the catalogue can't be read: %w", err)
	}
	if written.Services == nil {
		return nil, errNoServices
	}
	read := &Catalogue{HasTombstones: written.Tombstones == true, Store: StoreOf(document)}
	modes := readModes(document)
	for _, service := range written.Services {
		number, err := osb.IDOfText(service.ID)
		if err != nil {
			continue
		}
		retrievable, err := osb.BindingsRetrievable(document, number)
		if err != nil {
			return nil, fmt.Errorf("the service %q: %w", service.ID, err)
		}
		read.Services = append(read.Services, CatalogueService{
			ID: service.ID, Name: service.Name, Description: service.Description, Number: number,
			IsRetrievable: retrievable, InstancesRetrievable: service.Retrievable == true,
			Plans: modes.plans(number, service),
		})
	}
	return read, nil
}

// modes are the plans that are asynchronous, and those that bind asynchronously.
type modes struct{ works, binds map[[2]osb.ID]bool }

// readModes reads the extensions of this project. A catalogue that they don't fit has none.
func readModes(document []byte) modes {
	given := modes{works: map[[2]osb.ID]bool{}, binds: map[[2]osb.ID]bool{}}
	if plans, err := osb.CataloguePlans(document); err == nil {
		for _, plan := range plans {
			given.works[[2]osb.ID{plan.Service, plan.Plan}] = plan.IsAsynchronous
		}
	}
	if plans, err := osb.BindingModes(document); err == nil {
		for _, plan := range plans {
			given.binds[[2]osb.ID{plan.Service, plan.Plan}] = plan.IsAsynchronous
		}
	}
	return given
}

func (m modes) plans(service osb.ID, of writtenService) (plans []CataloguePlan) {
	for _, plan := range of.Plans {
		number, err := osb.IDOfText(plan.ID)
		if err != nil {
			continue
		}
		bindable, isSaid := plan.Bindable.(bool)
		if !isSaid {
			bindable = of.Bindable == true
		}
		key := [2]osb.ID{service, number}
		plans = append(plans, CataloguePlan{
			ID: plan.ID, Name: plan.Name, Description: plan.Description, Number: number, IsBindable: bindable,
			IsAsynchronous: m.works[key], BindsAsynchronously: m.binds[key], LongestPoll: seconds(plan.Longest),
		})
	}
	return plans
}

// seconds reads a whole number of seconds above 0, and is 0 for everything else.
func seconds(text json.RawMessage) time.Duration {
	digits := strings.TrimSpace(string(text))
	if digits == "" || strings.Trim(digits, "0123456789") != "" {
		return 0
	}
	count, err := strconv.ParseUint(digits, 10, 64)
	if err != nil || count > mostSeconds {
		count = mostSeconds
	}
	return time.Duration(count) * time.Second
}

// Service returns the service of this name or id, and if none is named the only one. It returns nil if there is no
// such service.
func (c *Catalogue) Service(named string) *CatalogueService {
	return find(c.Services, named, func(s *CatalogueService) (id, name string) { return s.ID, s.Name })
}

// Plan returns the plan of this name or id, and if none is named the only one. It returns nil if there is no such plan.
func (s *CatalogueService) Plan(named string) *CataloguePlan {
	return find(s.Plans, named, func(p *CataloguePlan) (id, name string) { return p.ID, p.Name })
}

// find returns what has this id, or else what has this name; if none is named, the only one; and otherwise nil.
func find[T any](all []T, named string, textsOf func(*T) (id, name string)) (found *T) {
	switch {
	case named == "" && len(all) == 1:
		return &all[0]
	case named == "":
		return nil
	}
	for at := range all {
		id, name := textsOf(&all[at])
		if id == named {
			return &all[at]
		}
		if name == named && found == nil {
			found = &all[at]
		}
	}
	return found
}

// plan returns the service and the plan of these numbers, or nil for what there isn't.
func (c *Catalogue) plan(service, plan osb.ID) (*CatalogueService, *CataloguePlan) {
	for at := range c.Services {
		sold := &c.Services[at]
		if sold.Number != service {
			continue
		}
		for n := range sold.Plans {
			if sold.Plans[n].Number == plan {
				return sold, &sold.Plans[n]
			}
		}
		return sold, nil
	}
	return nil, nil
}
