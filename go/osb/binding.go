package osb

/*
#include <osb.h>
*/
import "C"

import "encoding/json"

// A platform keeps a Record of each binding, and a broker keeps a Holding, beside those of the instance. A Bind is a
// KindProvision, an Unbind a KindDeprovision, and the Poll of a binding's last operation a KindPoll. The ID of a
// request is the binding's, and the mode is that of binding at the plan. Every call serves for bindings too, but
// Create, Answer and Begin have CreateBinding, AnswerBinding and BeginBinding in their place. A binding's text is
// BindingText's: MarshalJSON, UnmarshalJSON, Value and Scan write and read an instance's.

// CreateBinding is a new binding of the instance that r is the record of: wanted, with the instance's service and plan,
// and its Bind, which is then in flight with the number 1. Read r, locked, in the transaction that writes the binding's
// record. Accept an asynchronous operation only if the broker serves the Fetch of a binding. Write the record to the
// database before the request is sent, under the IDs of the instance and of the binding, a pair that is used once and
// never again.
//
// Errors: ErrBadRecord, ErrNotReady.
func (r Record) CreateBinding(binding ID, acceptsIncomplete bool) (Record, Sent, error) {
	instance := r.c()
	var record C.struct_osb_record
	var request C.struct_osb_request
	status := C.osb_binding_create(&instance, binding.c(), C.bool(acceptsIncomplete), &record, &request)
	if err := errorOf(status); err != nil {
		return Record{}, Sent{}, err
	}
	return recordOf(record), Sent{Request: requestOf(request), Attempt: uint64(record.attempt)}, nil
}

// AnswerBinding takes the answer to the request of this number, as Answer does. But if the binding can't be fetched
// (retrievable is false), a 202 to a Bind is cleaned up: its credentials could never be fetched.
//
// If a Poll says succeeded in polling, send a Fetch first. Call AnswerBinding once the Fetch was answered 200 with an
// object, and otherwise Timeout for the Poll. A platform writes the credentials in the transaction in which the record
// becomes ready, and forgets them once it leaves ready.
//
// Errors: ErrBadRecord, ErrNotInFlight.
func (r Record) AnswerBinding(attempt uint64, answer Answer, retrievable bool) (Record, error) {
	record := r.c()
	return r.next(&record, C.osb_binding_answer(&record, C.uint64_t(attempt), answer.c(), C.bool(retrievable)))
}

// BeginBinding begins with a request to this binding, as Begin does for an instance, with two differences. The instance
// is the holding of the binding's instance. Read it, locked, in the transaction that writes this one.
//
//   - If the instance isn't there (IsThere), no Bind begins: one whose work would be due is answered with 503, and
//     nothing changes.
//   - If the instance has a tombstone, and nothing is kept of the binding, nothing changes: every Bind is answered with
//     503, and an Unbind with 410. So the tombstones of bindings may be deleted once their instance has one.
//
// If the holding changed, write it to the database before the work begins or the answer is sent. A broker stores the
// credentials beside the holding, in the transaction in which the row becomes ready, and never again.
//
// Errors: ErrBadHolding, ErrBadMode, ErrBadKind.
func (h Holding) BeginBinding(instance Holding, mode Mode, request Request, rules Rules) (Holding, Begun, error) {
	holding, beside, asked, attributes := h.c(), instance.c(), request.c(), rules.Attributes.c()
	var begun C.struct_osb_begun
	return h.next(&holding, &begun, C.osb_binding_begin(
		&holding, &beside, C.uint8_t(mode), C.bool(rules.FirstPoll), &asked, &attributes[0], &begun))
}

// Fetch is the answer to a Fetch of this binding: 200 if the row is ready and no work is pending, and else 404. Send a
// 200 with the credentials that are stored beside the holding.
//
// Errors: ErrBadHolding.
func (h Holding) Fetch() (Answer, error) {
	holding := h.c()
	var answer C.struct_osb_answer
	if err := errorOf(C.osb_binding_fetch(&holding, &answer)); err != nil {
		return Answer{}, err
	}
	return answerOf(answer), nil
}

// BindingText is the text of a binding's record, an object of JSON, for a column of a database: that of MarshalJSON,
// with a version of its own.
//
// Errors: ErrBadRecord, ErrMemory.
func (r Record) BindingText() ([]byte, error) {
	record := r.c()
	return textFrom(func(buffer *C.uint8_t, bytes C.size_t, needed *C.size_t) C.uint32_t {
		return C.osb_binding_record_to_text(&record, buffer, bytes, needed)
	})
}

// BindingRecordFromText reads the text of a binding's record.
//
// Errors: those of Record.UnmarshalJSON.
func BindingRecordFromText(text []byte) (Record, error) {
	var record C.struct_osb_record
	if err := errorOf(C.osb_binding_record_from_text(pointer(text), size(text), &record)); err != nil {
		return Record{}, err
	}
	return recordOf(record), nil
}

// BindingText is the text of a binding's holding, an object of JSON, for a column of a database: that of MarshalJSON,
// with a version of its own.
//
// Errors: ErrBadHolding, ErrMemory.
func (h Holding) BindingText() ([]byte, error) {
	holding := h.c()
	return textFrom(func(buffer *C.uint8_t, bytes C.size_t, needed *C.size_t) C.uint32_t {
		return C.osb_binding_holding_to_text(&holding, buffer, bytes, needed)
	})
}

// BindingHoldingFromText reads the text of a binding's holding.
//
// Errors: those of Holding.UnmarshalJSON.
func BindingHoldingFromText(text []byte) (Holding, error) {
	var holding C.struct_osb_holding
	if err := errorOf(C.osb_binding_holding_from_text(pointer(text), size(text), &holding)); err != nil {
		return Holding{}, err
	}
	return holdingOf(holding), nil
}

// Requests and answers of bindings. WriteMethod (a Fetch has the method of a Poll), ReadAnswer for a Bind, an Unbind
// and a Poll, ReadDetails, WriteDescribedAnswer and MemberText serve for bindings too.

// A BindingAsked is what a request asks of a binding, as it stands in the request. A Bind is a KindProvision, and an
// Unbind a KindDeprovision. A Fetch has the kind of a Poll, and may lack its service and its plan as a Poll may.
type BindingAsked struct {
	IsFetch  bool  // whether it is a Fetch, which asks for the binding itself
	Instance ID    // the instance
	Asked    Asked // the request, under the ID of the binding
}

// BindingNames are the texts of the IDs of a binding's request, in the form of Names.
type BindingNames struct {
	Instance string // instance_id, which stands in the path
	Binding  string // binding_id, which stands in the path
	Service  string // service_id
	Plan     string // plan_id
}

// A BindingReceived is what a broker takes from a request of a binding.
type BindingReceived struct {
	Asked BindingAsked // what is asked, with the number of each id
	Names BindingNames // the text of each id; Service and Plan are empty if a Poll or a Fetch doesn't name them
	Parts BindingParts // the parts of a Bind's body; of other requests all are nil
}

// BindingParts are those of a Bind's body, in the form of Parts. Each is nil if the body doesn't have it.
type BindingParts struct {
	BindResource         json.RawMessage
	Parameters           json.RawMessage
	Context              json.RawMessage
	PredecessorBindingID json.RawMessage // with its quotes
}

// ReceiveBindingRequest reads what a request asks of a binding, as ReceiveRequest does of an instance: a Bind, an
// Unbind, a Poll of a binding's last operation, or a Fetch (sections Binding, Unbinding, Polling Last Operation for
// Service Bindings and Fetching a Service Binding). Unless IsFetch is true, Asked.Request makes the request for
// BeginBinding.
//
// Errors: ErrNotUTF8 (prefix or method), ErrRefusedTarget, ErrRefusedMethod, ErrRefusedInstance, ErrRefusedBinding,
// ErrRefusedLength, the first of ErrRefusedRepeated to ErrRefusedBody in the order of docs/binding.md, and ErrMemory.
// BindingRefusalStatus and BindingRefusalBody are the answer to all but ErrNotUTF8.
func ReceiveBindingRequest(
	prefix string, longestBody int, method, target string, body []byte,
) (BindingReceived, error) {
	before, verb, uri := []byte(prefix), []byte(method), []byte(target)
	var asked C.struct_osb_binding_asked
	var lengths C.struct_osb_binding_received
	text, err := textFrom(func(buffer *C.uint8_t, bytes C.size_t, needed *C.size_t) C.uint32_t {
		return C.osb_receive_binding_request(pointer(before), size(before), C.size_t(max(0, longestBody)),
			pointer(verb), size(verb), pointer(uri), size(uri), pointer(body), size(body), &asked, &lengths, buffer,
			bytes, needed)
	})
	if err != nil {
		return BindingReceived{}, err
	}
	rest := texts(text)
	return BindingReceived{
		Asked: bindingAskedOf(asked),
		Names: BindingNames{
			Instance: string(rest.next(true, lengths.instance)),
			Binding:  string(rest.next(true, lengths.binding)),
			Service:  string(rest.next(lengths.has_service, lengths.service)),
			Plan:     string(rest.next(lengths.has_plan, lengths.plan)),
		},
		Parts: BindingParts{
			BindResource:         rest.next(lengths.has_bind_resource, lengths.bind_resource),
			Parameters:           rest.next(lengths.has_parameters, lengths.parameters),
			Context:              rest.next(lengths.has_context, lengths.context),
			PredecessorBindingID: rest.next(lengths.has_predecessor_binding_id, lengths.predecessor_binding_id),
		},
	}, nil
}

// BindingRefusalStatus is the HTTP status of a refusal of a request of a binding, ErrRefusedTarget to ErrRefusedSpace,
// ErrRefusedBinding and ErrRefusedApp, and 503 of ErrMemory; 0 of every other status.
func BindingRefusalStatus(refusal Status) uint16 {
	return uint16(C.osb_binding_refusal_status(C.uint32_t(refusal)))
}

// BindingRefusalBody writes the body of a refusal of a request of a binding.
//
// Errors: ErrNotRefused.
func BindingRefusalBody(refusal Status) ([]byte, error) {
	return textFrom(func(buffer *C.uint8_t, bytes C.size_t, needed *C.size_t) C.uint32_t {
		return C.osb_binding_refusal_body(C.uint32_t(refusal), buffer, bytes, needed)
	})
}

// RequiresApp judges whether the body of a Bind lacks the application that its plan needs: a string app_guid that isn't
// empty, of bind_resource or of the body itself (sections Binding and Service Broker Errors).
//
// Errors: ErrRefusedApp, to which BindingRefusalStatus and BindingRefusalBody are the answer; ErrMemory.
func RequiresApp(needsApp bool, body []byte) error {
	return errorOf(C.osb_requires_app(C.bool(needsApp), pointer(body), size(body)))
}

// WriteBindingTarget writes the target of a Bind, an Unbind or a Poll of a binding's last operation, with the texts of
// its IDs, escaped as a path and a query need it (sections Binding, Unbinding and Polling Last Operation for Service
// Bindings). The ID of the request is the binding's. Each text must be that of the request's ID, or of the instance, so
// no other binding is asked for. Prefix and operation are as in WriteNamedTarget.
//
// Errors: ErrNotUTF8 (prefix, any text, or operation), ErrBadKind, ErrNotInstanceText, ErrNotBindingText,
// ErrNotServiceText, ErrNotPlanText, ErrMemory. An instance or a binding named "." or ".." is no such text either,
// since HTTP clients resolve such a path.
func WriteBindingTarget(
	prefix string, request Request, instance ID, names BindingNames, operation *string,
) (string, error) {
	return bindingTarget(prefix, request, instance, names, false, operation)
}

// WriteFetchTarget writes the target of the Fetch of a request's binding, as WriteBindingTarget does (section Fetching
// a Service Binding). The kind of the request and AcceptsIncomplete count for nothing.
//
// Errors: those of WriteBindingTarget.
func WriteFetchTarget(prefix string, request Request, instance ID, names BindingNames) (string, error) {
	return bindingTarget(prefix, request, instance, names, true, nil)
}

func bindingTarget(
	prefix string, request Request, of ID, names BindingNames, isFetch bool, operation *string,
) (string, error) {
	before, asked := []byte(prefix), request.c()
	instance, binding := []byte(names.Instance), []byte(names.Binding)
	service, plan := []byte(names.Service), []byte(names.Plan)
	named, hasOperation := optional(operation)
	text, err := textFrom(func(buffer *C.uint8_t, bytes C.size_t, needed *C.size_t) C.uint32_t {
		return C.osb_write_binding_target(pointer(before), size(before), &asked, of.c(), pointer(instance),
			size(instance), pointer(binding), size(binding), pointer(service), size(service), pointer(plan), size(plan),
			C.bool(isFetch), hasOperation, pointer(named), size(named), buffer, bytes, needed)
	})
	return string(text), err
}

// WriteBindingBody writes the body of a request of the kind: of a Bind an object of the texts of the service and the
// plan, and the members of further, the text of an object ({} for none), as bind_resource, parameters, context or
// predecessor_binding_id; else an empty text (section Binding). It doesn't compare the texts with a request:
// WriteBindingTarget does.
//
// Errors: ErrNotUTF8 (any text), ErrBadKind, ErrNotJSON and ErrNotAnObject (further), ErrMemory.
func WriteBindingBody(kind Kind, names BindingNames, further []byte) ([]byte, error) {
	service, plan := []byte(names.Service), []byte(names.Plan)
	return textFrom(func(buffer *C.uint8_t, bytes C.size_t, needed *C.size_t) C.uint32_t {
		return C.osb_write_binding_body(C.uint8_t(kind), pointer(service), size(service), pointer(plan), size(plan),
			pointer(further), size(further), buffer, bytes, needed)
	})
}

// CheckBinding judges the object of a binding, with its credentials, that a broker has stored. If it returns nil, the
// object as it stands is the body of a 200 or a 201 to a Bind, and of a 200 to a Fetch (sections Binding and Fetching a
// Service Binding).
//
// Errors: ErrNotAnObject if the text isn't UTF-8, isn't JSON, or is no object; ErrMemory.
func CheckBinding(object []byte) error {
	return errorOf(C.osb_write_binding(pointer(object), size(object)))
}

// ReadBinding is the object of the binding that the response to a request of the kind has: the whole body of a 200 or a
// 201 to a Bind, as it stands (section Binding). What stands in the object isn't judged.
//
// Errors: ErrBadKind, ErrNoBinding, ErrMemory.
func ReadBinding(kind Kind, status uint16, body []byte) (json.RawMessage, error) {
	return bindingIn(body, C.osb_read_binding(false, C.uint8_t(kind), C.uint16_t(status), pointer(body), size(body)))
}

// ReadFetched is the object of the binding that the response to a Fetch has: the whole body of a 200, as it stands
// (section Fetching a Service Binding).
//
// Errors: ErrNoBinding, ErrMemory.
func ReadFetched(status uint16, body []byte) (json.RawMessage, error) {
	return bindingIn(body, C.osb_read_binding(true, C.OSB_KIND_POLL, C.uint16_t(status), pointer(body), size(body)))
}

func bindingIn(body []byte, status C.uint32_t) (json.RawMessage, error) {
	if err := errorOf(status); err != nil {
		return nil, err
	}
	return body, nil
}

// BindingModes reads how the plans that a catalogue's document names bind, as CataloguePlans reads how they work. A
// plan that isn't bindable is left out. A plan binds asynchronously if its own "x-osb-asynchronous-bindings" is true,
// or else that of its service, which is this project's choice; the service must then be bindings_retrievable. A plan's
// own "bindable" counts before that of its service (section Catalog Management).
//
// Errors: ErrNotJSON, ErrNoServices, the first of ErrBadService, ErrNoPlans, ErrBadPlan, ErrPlanTwice, ErrNotABoolean
// and ErrNotRetrievable in the document's order, and ErrMemory.
func BindingModes(document []byte) ([]Plan, error) {
	return plansRead(func(buffer *C.struct_osb_plan, count C.size_t, needed *C.size_t) C.uint32_t {
		return C.osb_binding_modes(pointer(document), size(document), buffer, count, needed)
	})
}

// BindingsRetrievable reports whether a catalogue's document says by bindings_retrievable of a service that its
// bindings can be fetched (section Catalog Management). AnswerBinding asks for it.
//
// Errors: ErrMemory.
func BindingsRetrievable(document []byte, service ID) (bool, error) {
	var retrievable C.bool
	status := C.osb_bindings_retrievable(pointer(document), size(document), service.c(), &retrievable)
	if err := errorOf(status); err != nil {
		return false, err
	}
	return bool(retrievable), nil
}
