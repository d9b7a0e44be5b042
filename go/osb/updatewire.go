package osb

/*
#include <osb.h>
*/
import "C"

import "encoding/json"

// Updates and Fetches of an instance as HTTP and JSON have them, at a broker. ReadAnswer of a KindProvision,
// ReadDetails, WriteDescribedAnswer, ParametersDigest and MemberText serve for updates too.

// An UpdateAsked is what a request asks of an instance that exists, as it stands in the request: an Update, or a Fetch.
type UpdateAsked struct {
	IsFetch             bool   // whether it is a Fetch, which asks for the instance itself
	HasService, HasPlan bool   // whether it is a Fetch that names them
	ID                  ID     // the instance
	Service, Plan       ID     // those of a Fetch, if it names them
	Update              Update // the Update, if IsFetch is false
}

// An UpdateReceived is what a broker takes from an Update or a Fetch.
type UpdateReceived struct {
	Asked UpdateAsked // what is asked, with the number of each id
	Names Names       // the text of each id; Service and Plan are empty if the request doesn't name them
	Parts UpdateParts // the parts of an Update's body; of a Fetch all are nil
}

// UpdateParts are those of an Update's body, in the form of Parts. Each is nil if the Update doesn't name it, or if the
// body doesn't have it.
type UpdateParts struct {
	Parameters     json.RawMessage
	Version        *string // the version that maintenance_info names
	Context        json.RawMessage
	PreviousValues json.RawMessage // no decision is based on them
}

// ReceiveUpdateRequest reads what an Update (PATCH) or a Fetch (GET) asks of an instance, as ReceiveRequest reads other
// requests (sections Updating a Service Instance and Fetching a Service Instance). The number of an Update stands in
// its body under x-osb-update, which is this project's choice. Without a number, parameters that are {} or null aren't
// named.
//
// Errors: ErrNotUTF8 (prefix or method), ErrRefusedTarget, ErrRefusedMethod, ErrRefusedInstance, ErrRefusedLength, the
// first of ErrRefusedRepeated to ErrRefusedBody and ErrRefusedNumber in the order of docs/wire.md, and ErrMemory.
// UpdateRefusalStatus and UpdateRefusalBody are the answer to all but ErrNotUTF8.
func ReceiveUpdateRequest(
	prefix string, longestBody int, method, target string, body []byte,
) (UpdateReceived, error) {
	before, verb, uri := []byte(prefix), []byte(method), []byte(target)
	var asked C.struct_osb_update_asked
	var lengths C.struct_osb_update_received
	text, err := textFrom(func(buffer *C.uint8_t, bytes C.size_t, needed *C.size_t) C.uint32_t {
		return C.osb_receive_update_request(pointer(before), size(before), C.size_t(max(0, longestBody)),
			pointer(verb), size(verb), pointer(uri), size(uri), pointer(body), size(body), &asked, &lengths, buffer,
			bytes, needed)
	})
	if err != nil {
		return UpdateReceived{}, err
	}
	rest := texts(text)
	return UpdateReceived{
		Asked: updateAskedOf(asked),
		Names: Names{
			Instance: string(rest.next(true, lengths.instance)),
			Service:  string(rest.next(lengths.has_service, lengths.service)),
			Plan:     string(rest.next(lengths.has_plan, lengths.plan)),
		},
		Parts: UpdateParts{
			Parameters:     rest.next(lengths.has_parameters, lengths.parameters),
			Version:        rest.nextString(lengths.has_version, lengths.version),
			Context:        rest.next(lengths.has_context, lengths.context),
			PreviousValues: rest.next(lengths.has_previous_values, lengths.previous_values),
		},
	}, nil
}

// UpdateRefusalStatus is the HTTP status of a refusal of an Update or a Fetch, ErrRefusedTarget to ErrRefusedSpace,
// ErrRefusedMaintenance and ErrRefusedNumber, and 503 of ErrMemory; 0 of every other status.
func UpdateRefusalStatus(refusal Status) uint16 {
	return uint16(C.osb_update_refusal_status(C.uint32_t(refusal)))
}

// UpdateRefusalBody writes the body of a refusal of an Update or a Fetch.
//
// Errors: ErrNotRefused.
func UpdateRefusalBody(refusal Status) ([]byte, error) {
	return textFrom(func(buffer *C.uint8_t, bytes C.size_t, needed *C.size_t) C.uint32_t {
		return C.osb_update_refusal_body(C.uint32_t(refusal), buffer, bytes, needed)
	})
}

// WriteSuccess writes the body of a 200, a 201 or a 202 to an Update or a Provision: an object of the operation, the
// URL of the dashboard and the metadata, each unless it is nil (sections Provisioning and Updating a Service Instance).
// The operation is written in a 202 alone, and counts for none if it has more than 10,000 characters. The metadata is
// the text of an object, and counts for none if it isn't.
//
// Errors: ErrNotUTF8, ErrMemory.
func WriteSuccess(status uint16, operation, dashboardURL *string, metadata json.RawMessage) ([]byte, error) {
	named, hasOperation := optional(operation)
	url, hasURL := optional(dashboardURL)
	return textFrom(func(buffer *C.uint8_t, bytes C.size_t, needed *C.size_t) C.uint32_t {
		return C.osb_write_success(C.uint16_t(status), hasOperation, pointer(named), size(named), hasURL, pointer(url),
			size(url), metadata != nil, pointer(metadata), size(metadata), buffer, bytes, needed)
	})
}

// WriteFailure writes the body of an answer to an Update that failed, or to a Poll of one: what WriteDescribedAnswer
// writes with no operation, with instance_usable and update_repeatable, each unless it is nil (sections Updating a
// Service Instance, Polling Last Operation for Service Instances and Service Broker Errors).
//
// Errors: ErrNotUTF8 (description), ErrMemory.
func WriteFailure(answer Answer, description *string, instanceUsable, updateRepeatable *bool) ([]byte, error) {
	told, hasDescription := optional(description)
	hasUsable, usable := flagOf(instanceUsable)
	hasRepeatable, repeatable := flagOf(updateRepeatable)
	return textFrom(func(buffer *C.uint8_t, bytes C.size_t, needed *C.size_t) C.uint32_t {
		return C.osb_write_failure(answer.c(), hasDescription, pointer(told), size(told), hasUsable, usable,
			hasRepeatable, repeatable, buffer, bytes, needed)
	})
}

// flagOf is whether a boolean is there, and what it says.
func flagOf(given *bool) (isThere, says C.bool) {
	if given == nil {
		return false, false
	}
	return true, C.bool(*given)
}

// InstanceTexts are what a broker's answer to a Fetch says of an instance.
type InstanceTexts struct {
	Service, Plan string // the text of each id
	// Parameters are JSON. Without them a platform takes no settings from the answer: for none they are {}.
	Parameters   json.RawMessage
	Version      *string         // the version of maintenance_info, or nil
	DashboardURL *string         // where the instance is managed, or nil
	Metadata     json.RawMessage // JSON, or nil
	Number       uint64          // that of UpdateFetched
}

// WriteFetchedInstance writes the body of a 200 to a Fetch of an instance: an object of what isn't nil, and of the
// number, unless it is 0 (section Fetching a Service Instance; the number is this project's choice). Parameters and
// metadata are left out if they aren't JSON.
//
// Errors: ErrNotUTF8, ErrMemory.
func WriteFetchedInstance(it InstanceTexts) ([]byte, error) {
	service, plan := []byte(it.Service), []byte(it.Plan)
	version, hasVersion := optional(it.Version)
	url, hasURL := optional(it.DashboardURL)
	return textFrom(func(buffer *C.uint8_t, bytes C.size_t, needed *C.size_t) C.uint32_t {
		return C.osb_write_fetched(pointer(service), size(service), pointer(plan), size(plan), it.Parameters != nil,
			pointer(it.Parameters), size(it.Parameters), hasVersion, pointer(version), size(version), hasURL,
			pointer(url), size(url), it.Metadata != nil, pointer(it.Metadata), size(it.Metadata),
			C.uint64_t(it.Number), buffer, bytes, needed)
	})
}

// PlanUpdates are what a catalogue says of a plan's updates (section Catalog Management). The zero PlanUpdates are
// those of a plan that isn't sold.
type PlanUpdates struct {
	IsSold       bool    // whether the catalogue sells the plan
	Updateable   bool    // plan_updateable: whether an instance of the plan can be changed to another plan
	Retrievable  bool    // instances_retrievable: whether instances of the service can be fetched
	Asynchronous *bool   // x-osb-asynchronous-updates: whether updates to the plan are asynchronous, or nil
	Version      *string // the version of maintenance_info, or nil
	LongestPoll  *uint64 // maximum_polling_duration in seconds, or nil
}

// ReadPlanUpdates reads what a catalogue's document says of the updates of a plan of a service. A member of another
// type counts as missing. That a plan says how its updates work is this project's choice.
//
// Errors: ErrMemory.
func ReadPlanUpdates(document []byte, service, plan ID) (PlanUpdates, error) {
	var read C.struct_osb_plan_updates
	text, err := textFrom(func(buffer *C.uint8_t, bytes C.size_t, needed *C.size_t) C.uint32_t {
		return C.osb_plan_updates(pointer(document), size(document), service.c(), plan.c(), &read, buffer, bytes,
			needed)
	})
	if err != nil {
		return PlanUpdates{}, err
	}
	rest := texts(text)
	found := PlanUpdates{
		IsSold:       bool(read.is_sold),
		Updateable:   bool(read.updateable),
		Retrievable:  bool(read.retrievable),
		Asynchronous: optionalBool(read.has_asynchronous, read.asynchronous),
		Version:      rest.nextString(read.has_version, read.version),
	}
	if read.has_longest_poll {
		seconds := uint64(read.longest_poll)
		found.LongestPoll = &seconds
	}
	return found, nil
}

// NumbersUpdates reports whether a catalogue's document says by x-osb-updates that its broker orders Updates by their
// numbers. To such a broker a platform sends numbers. This is this project's choice.
//
// Errors: ErrMemory.
func NumbersUpdates(document []byte) (bool, error) {
	var numbers C.bool
	if err := errorOf(C.osb_numbers_updates(pointer(document), size(document), &numbers)); err != nil {
		return false, err
	}
	return bool(numbers), nil
}

// UpdateFlagsAreSound reports whether what a catalogue's document says of updates has the types that it must have:
// x-osb-updates, and of each plan x-osb-asynchronous-updates, is true or false, and maximum_polling_duration of each
// plan is an integer from 0 to 2^64 - 1, each if it is there. A broker doesn't start with a document that fails it.
// CheckCatalogue judges plan_updateable and instances_retrievable.
//
// Errors: ErrMemory.
func UpdateFlagsAreSound(document []byte) (bool, error) {
	var sound C.bool
	if err := errorOf(C.osb_update_flags_are_sound(pointer(document), size(document), &sound)); err != nil {
		return false, err
	}
	return bool(sound), nil
}

// ServedUpdates is the document that a broker serves which orders Updates by their numbers: the object that is given,
// with no spaces, and with the member x-osb-updates, which is true. Give it what ServedCatalogue returns. The member is
// this project's choice.
//
// Errors: ErrNotAnObject if the document isn't UTF-8, isn't JSON, or is no object; ErrMemory.
func ServedUpdates(document []byte) ([]byte, error) {
	return textFrom(func(buffer *C.uint8_t, bytes C.size_t, needed *C.size_t) C.uint32_t {
		return C.osb_served_updates(pointer(document), size(document), buffer, bytes, needed)
	})
}

// UpdateAllowed is whether a catalogue's document lets an Update be done, for UpdateHolding.Begin. held is the plan
// that the instance has, and asked the one that the Update asks for, which is the same if it names none. The version is
// the one that the Update names, or nil. otherwise is the mode of the plan that is asked for: ModeSync or ModeAsync.
// The first line that fits (sections Updating a Service Instance and Maintenance Info Object):
//
//   - The plan that is asked for isn't sold: AllowedRejected400.
//   - The plan changes, and the one that is held isn't plan_updateable or isn't sold: AllowedRejected422.
//   - The plan that is asked for has a version, and the Update names another: AllowedMaintenanceConflict. Its answer is
//     that of ErrRefusedMaintenance, by UpdateRefusalStatus and UpdateRefusalBody.
//   - x-osb-asynchronous-updates of the plan that is asked for says how: AllowedAsync or AllowedSync.
//   - As otherwise says.
//
// Errors: ErrNotUTF8 (version), ErrBadMode (ModeNone too), ErrMemory.
func UpdateAllowed(document []byte, service, held, asked ID, version *string, otherwise Mode) (Allowed, error) {
	named, hasVersion := optional(version)
	var allowed C.uint8_t
	status := C.osb_update_allowed(pointer(document), size(document), service.c(), held.c(), asked.c(), hasVersion,
		pointer(named), size(named), C.uint8_t(otherwise), &allowed)
	if err := errorOf(status); err != nil {
		return 0, err
	}
	return Allowed(allowed), nil
}

// VersionDigest is the digest of a version of maintenance_info, for Settings and Change: the SHA-256 of its text, and
// the zero Digest, for none, of an empty text. This is this project's choice.
//
// Errors: ErrNotUTF8.
func VersionDigest(version string) (Digest, error) {
	text := []byte(version)
	return digestFrom(func(digest *C.uint8_t) C.uint32_t {
		return C.osb_version_digest(pointer(text), size(text), digest)
	})
}
