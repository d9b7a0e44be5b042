package osb

/*
#include <osb.h>
*/
import "C"

import "encoding/json"

// A Plan is one that a broker sells.
type Plan struct {
	Service, Plan  ID
	IsAsynchronous bool // whether its operations are only begun when the broker answers
}

// CataloguePlans reads the plans that a catalogue's document names, as a broker answers it to GET /v2/catalog, in
// ascending order of service and plan. A plan is asynchronous if its member "x-osb-asynchronous" is true, or if
// "asynchronous" is true and it lacks that.
//
// Errors: ErrNotJSON, ErrNoServices, the first of ErrBadService, ErrNoPlans, ErrBadPlan, ErrBadPlanMode and
// ErrPlanTwice in the document's order, and ErrMemory.
func CataloguePlans(document []byte) ([]Plan, error) {
	return plansRead(func(buffer *C.struct_osb_plan, count C.size_t, needed *C.size_t) C.uint32_t {
		return C.osb_catalogue_plans(pointer(document), size(document), buffer, count, needed)
	})
}

// plansRead gives the plans that a call reads: it calls again with a longer buffer if it was too short.
func plansRead(read func(buffer *C.struct_osb_plan, count C.size_t, needed *C.size_t) C.uint32_t) ([]Plan, error) {
	buffer := make([]C.struct_osb_plan, 32)
	var needed C.size_t
	status := read(&buffer[0], C.size_t(len(buffer)), &needed)
	if status == C.OSB_TOO_SMALL {
		buffer = make([]C.struct_osb_plan, needed)
		status = read(&buffer[0], C.size_t(len(buffer)), &needed)
	}
	if err := errorOf(status); err != nil {
		return nil, err
	}
	plans := make([]Plan, needed)
	for at := range plans {
		plans[at] = planOf(buffer[at])
	}
	return plans, nil
}

// Endpoints are those that a broker serves besides those of Provision, Deprovision and Poll. The zero Endpoints are
// none.
type Endpoints struct {
	Updating          bool // of an instance, which plan_updateable promises
	Bindings          bool // which bindable promises
	FetchingInstances bool // which instances_retrievable promises
	FetchingBindings  bool // which bindings_retrievable promises
}

// CheckCatalogue judges whether a broker that serves these endpoints can have the document as its catalogue (section
// Catalog Management): the plans as CataloguePlans reads them, and then the names, descriptions and flags of services
// and plans, and the numbers of their ids. docs/wire.md has the table.
//
// Errors: those of CataloguePlans, then the first of ErrNoName to ErrBindingsUnserved in the document's order, then
// ErrSameNumber; and ErrMemory.
func CheckCatalogue(document []byte, serves Endpoints) error {
	endpoints := serves.c()
	return errorOf(C.osb_catalogue_check(pointer(document), size(document), &endpoints))
}

// ServedCatalogue is the document that a broker serves as its catalogue: the object that is given, with no spaces, and
// with the member x-osb-tombstones, which is true. A platform with this library learns from it that the broker never
// creates an id again, which is this project's choice.
//
// Errors: ErrNotAnObject if the document isn't UTF-8, isn't JSON, or is no object; ErrMemory.
func ServedCatalogue(document []byte) ([]byte, error) {
	return textFrom(func(buffer *C.uint8_t, bytes C.size_t, needed *C.size_t) C.uint32_t {
		return C.osb_served_catalogue(pointer(document), size(document), buffer, bytes, needed)
	})
}

// PlanVersion is the maintenance_info.version that a catalogue's document has of a plan of a service (section Catalog
// Management).
//
// Errors: ErrNoPlanVersion, ErrMemory.
func PlanVersion(document []byte, service, plan ID) (string, error) {
	text, err := textFrom(func(buffer *C.uint8_t, bytes C.size_t, needed *C.size_t) C.uint32_t {
		return C.osb_plan_version(pointer(document), size(document), service.c(), plan.c(), buffer, bytes, needed)
	})
	return string(text), err
}

// MaintenanceConflict judges whether the body of a Provision names another maintenance_info.version than the plan has,
// which is PlanVersion's, or nil for none (section Maintenance Info Object). A plan or a request without a version
// conflicts with nothing.
//
// Errors: ErrNotUTF8 (version), ErrRefusedMaintenance, to which RefusalStatus and RefusalBody are the answer;
// ErrMemory.
func MaintenanceConflict(version *string, body []byte) error {
	sold, hasVersion := optional(version)
	return errorOf(C.osb_maintenance_conflict(hasVersion, pointer(sold), size(sold), pointer(body), size(body)))
}

// Details are what the body of an answer says besides the answer. Each is nil if the body has no member of that name
// and type.
type Details struct {
	Description  *string // the reason, for a person
	Error        *string // the code of an error, the standard's or the broker's own
	DashboardURL *string // where the instance is managed
	// Operation is what the broker calls its operation, if that has at most 10,000 characters. A platform sends
	// it back in its Polls.
	Operation *string
	Metadata  json.RawMessage // in the form of Parts
	// InstanceUsable says whether the instance can be used after an update or a deletion that failed.
	InstanceUsable *bool
	// UpdateRepeatable says whether an update that failed may be sent again.
	UpdateRepeatable *bool
}

// ReadDetails reads what the body of an answer says besides the answer, to any request and with any status (sections
// Provisioning, Polling Last Operation for Service Instances, Deprovisioning and Service Broker Errors). A body that is
// no object says nothing.
//
// Errors: ErrMemory.
func ReadDetails(body []byte) (Details, error) {
	var read C.struct_osb_details
	text, err := textFrom(func(buffer *C.uint8_t, bytes C.size_t, needed *C.size_t) C.uint32_t {
		return C.osb_read_details(pointer(body), size(body), &read, buffer, bytes, needed)
	})
	if err != nil {
		return Details{}, err
	}
	rest := texts(text)
	return Details{
		Description:      rest.nextString(read.has_description, read.description),
		Error:            rest.nextString(read.has_error, read.error),
		DashboardURL:     rest.nextString(read.has_dashboard_url, read.dashboard_url),
		Operation:        rest.nextString(read.has_operation, read.operation),
		Metadata:         rest.next(read.has_metadata, read.metadata),
		InstanceUsable:   optionalBool(read.has_instance_usable, read.instance_usable),
		UpdateRepeatable: optionalBool(read.has_update_repeatable, read.update_repeatable),
	}, nil
}

// optionalBool is a boolean that may be missing.
func optionalBool(isThere, value C.bool) *bool {
	if !isThere {
		return nil
	}
	given := bool(value)
	return &given
}
