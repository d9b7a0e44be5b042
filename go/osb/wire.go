package osb

/*
#include <osb.h>

// Each request is read by these, so its texts cross as Go has them, and the structs by value.

static const uint8_t *start_of(_GoString_ text) {
	return (const uint8_t *)(_GoStringLen(text) == 0 ? "" : _GoStringPtr(text));
}

static uint8_t read_target(_GoString_ prefix, _GoString_ target) {
	return osb_read_target(start_of(prefix), _GoStringLen(prefix), start_of(target), _GoStringLen(target));
}

struct request_received {
	struct osb_asked asked;
	struct osb_received lengths;
	size_t needed;
	uint32_t status;
};

static struct request_received receive_request(_GoString_ prefix, size_t longest_body, _GoString_ method,
	_GoString_ target, const uint8_t *body, size_t length, uint8_t *buffer, size_t bytes) {
	struct request_received it;
	it.status = osb_receive_request(start_of(prefix), _GoStringLen(prefix), longest_body, start_of(method),
		_GoStringLen(method), start_of(target), _GoStringLen(target), body, length, &it.asked, &it.lengths, buffer,
		bytes, &it.needed);
	return it;
}

struct request_made {
	struct osb_request request;
	uint32_t status;
};

static struct request_made make_request(struct osb_asked asked, bool is_held, struct osb_id service,
	struct osb_id plan) {
	struct request_made it;
	it.status = osb_asked_request(&asked, is_held, service, plan, &it.request);
	return it;
}
*/
import "C"

import "encoding/json"

// The headers of requests and answers, and what stands in them.
const (
	VersionHeader = "X-Broker-API-Version"
	VersionSent   = "2.17"
	ContentType   = "application/json"
)

// ReadAnswer is what a platform takes from a response to a request of the kind, from its status and all of its body.
// Where the response isn't surely the broker's it is ErrNoAnswer, and a timeout is taken in its place.
//
// Errors: ErrBadKind, ErrNoAnswer, ErrMemory.
func ReadAnswer(kind Kind, status uint16, body []byte) (Answer, error) {
	var answer C.struct_osb_answer
	read := C.osb_read_answer(C.uint8_t(kind), C.uint16_t(status), pointer(body), size(body), &answer)
	if err := errorOf(read); err != nil {
		return Answer{}, err
	}
	return answerOf(answer), nil
}

// WriteMethod writes the method of a request of the kind: PUT, GET or DELETE.
//
// Errors: ErrBadKind.
func WriteMethod(kind Kind) (string, error) {
	text, err := textFrom(func(buffer *C.uint8_t, bytes C.size_t, needed *C.size_t) C.uint32_t {
		return C.osb_write_method(C.uint8_t(kind), buffer, bytes, needed)
	})
	return string(text), err
}

// An Asked is what a request asks of a broker, as it stands in the request.
type Asked struct {
	Kind                Kind
	AcceptsIncomplete   bool // whether the operation may be asynchronous
	HasService, HasPlan bool // whether it names them; only a Poll may lack them
	ID, Service, Plan   ID
}

// Request is the request for a broker, with the service and the plan of the row that is held, where one is: they stand
// in the place of those that a Poll lacks. It is called as asked.Request(holding.Row()).
//
// Errors: ErrBadAsked.
func (a Asked) Request(held BrokerRow, isHeld bool) (Request, error) {
	made := C.make_request(a.c(), C.bool(isHeld), held.Service.c(), held.Plan.c())
	if err := errorOf(made.status); err != nil {
		return Request{}, err
	}
	return requestOf(made.request), nil
}

// WriteDescribedAnswer writes the body of an answer. The operation, or nil for none, is written in a 202 alone. The
// description for a person, or nil for none, is written for an error, in place of the usual sentence, and for a last
// operation that failed (sections Polling Last Operation for Service Instances and Service Broker Errors). Of one with
// more than 1,000 characters the first 1,000 are written, which is this project's choice.
//
// Errors: ErrNotUTF8 (operation or description), ErrMemory.
func WriteDescribedAnswer(answer Answer, operation, description *string) ([]byte, error) {
	named, hasOperation := optional(operation)
	told, hasDescription := optional(description)
	return textFrom(func(buffer *C.uint8_t, bytes C.size_t, needed *C.size_t) C.uint32_t {
		return C.osb_write_told_answer(answer.c(), hasOperation, pointer(named), size(named), hasDescription,
			pointer(told), size(told), buffer, bytes, needed)
	})
}

// RefusalStatus is the HTTP status of a refusal, ErrRefusedTarget to ErrRefusedSpace and ErrRefusedMaintenance, and 503
// of ErrMemory; 0 of every other status.
func RefusalStatus(refusal Status) uint16 { return uint16(C.osb_refusal_status(C.uint32_t(refusal))) }

// RefusalBody writes the body of a refusal.
//
// Errors: ErrNotRefused.
func RefusalBody(refusal Status) ([]byte, error) {
	return textFrom(func(buffer *C.uint8_t, bytes C.size_t, needed *C.size_t) C.uint32_t {
		return C.osb_refusal_body(C.uint32_t(refusal), buffer, bytes, needed)
	})
}

// APIVersion judges the version that a platform names in the header X-Broker-API-Version: 2.x, whichever. A request
// without the header has nil.
//
// Errors: ErrRefusedVersion.
func APIVersion(value *string) error {
	named, hasValue := optional(value)
	return errorOf(C.osb_api_version(hasValue, pointer(named), size(named)))
}

// BasicAuth judges whether the header Authorization names this user and this password, by HTTP's Basic scheme.
// The user must have no colon. An empty user with an empty password is never accepted. The time that it takes doesn't
// tell where they differ, as the code is written.
//
// Errors: ErrNotUTF8 (any of the three), ErrUnauthorized, ErrMemory.
func BasicAuth(value, user, password string) error {
	given, who, secret := []byte(value), []byte(user), []byte(password)
	return errorOf(C.osb_basic_auth(pointer(given), size(given), pointer(who), size(who), pointer(secret), size(secret)))
}

// RetryAfter reads the seconds that a broker names in the header Retry-After.
//
// Errors: ErrNoSeconds.
func RetryAfter(value string) (uint64, error) {
	given := []byte(value)
	var seconds C.uint64_t
	if err := errorOf(C.osb_retry_after(pointer(given), size(given), &seconds)); err != nil {
		return 0, err
	}
	return uint64(seconds), nil
}

func max(one, other int) int {
	if one > other {
		return one
	}
	return other
}

// A Received is what a broker takes from a request.
type Received struct {
	Asked Asked // what is asked, with the number of each id
	Names Names // the text of each id; Service and Plan are empty if a Poll doesn't name them
	Parts Parts // the parts of a Provision's body; of other requests all are nil
}

// Parts are those of a Provision's body: JSON with no spaces, numbers as they are written, and members in their order.
// What stands inside isn't judged. Each is nil if the body doesn't have it.
type Parts struct {
	Parameters      json.RawMessage
	Context         json.RawMessage
	MaintenanceInfo json.RawMessage
	// Others is the object of all other members but service_id and plan_id. organization_guid and space_guid are among
	// them. Every Provision has it.
	Others json.RawMessage
}

// ReadTarget is what a target names, whatever the method is and the ids are: so a broker knows which call reads the
// request. The path begins with the prefix, or stands for such a path as in ReceiveRequest. It is TargetNone if both
// ReceiveRequest and ReceiveBindingRequest return ErrRefusedTarget, and if the prefix isn't UTF-8.
func ReadTarget(prefix, target string) Target {
	return Target(C.read_target(prefix, target))
}

// ReceiveRequest reads what a request asks of a broker, from its method, its target (path and query, as the request
// line has them) and all of its body, with the texts of its ids and the parts of a Provision's body (sections
// Provisioning, Polling Last Operation for Service Instances and Deprovisioning). A body of more than longestBody
// bytes is refused unread.
//
// Errors: ErrNotUTF8 (prefix or method), ErrRefusedTarget, ErrRefusedMethod, ErrRefusedInstance, ErrRefusedLength, the
// first of ErrRefusedRepeated to ErrRefusedSpace in the order of docs/wire.md, and ErrMemory. RefusalStatus and
// RefusalBody are the answer to all but ErrNotUTF8.
func ReceiveRequest(prefix string, longestBody int, method, target string, body []byte) (Received, error) {
	var received C.struct_request_received
	// the texts stand in the target and the body, and are rarely shorter there
	text, err := textIn(make([]byte, len(target)+len(body)+64), func(buffer []byte) (C.size_t, C.uint32_t) {
		received = C.receive_request(prefix, C.size_t(max(0, longestBody)), method, target, pointer(body), size(body),
			pointer(buffer), size(buffer))
		return received.needed, received.status
	})
	if err != nil {
		return Received{}, err
	}
	rest, lengths := texts(text), received.lengths
	return Received{
		Asked: askedOf(received.asked),
		Names: Names{
			Instance: string(rest.next(true, lengths.instance)),
			Service:  string(rest.next(lengths.has_service, lengths.service)),
			Plan:     string(rest.next(lengths.has_plan, lengths.plan)),
		},
		Parts: Parts{
			Parameters:      rest.next(lengths.has_parameters, lengths.parameters),
			Context:         rest.next(lengths.has_context, lengths.context),
			MaintenanceInfo: rest.next(lengths.has_maintenance_info, lengths.maintenance_info),
			Others:          rest.next(lengths.has_others, lengths.others),
		},
	}, nil
}

// MemberText is the JSON that stands under a name in the object that a body is, in the form of Parts. Of a name that
// stands twice the last counts.
//
// Errors: ErrNotUTF8 (name), ErrNoMember if the body is no object of JSON or has no such member, ErrMemory.
func MemberText(body []byte, name string) (json.RawMessage, error) {
	key := []byte(name)
	return textFrom(func(buffer *C.uint8_t, bytes C.size_t, needed *C.size_t) C.uint32_t {
		return C.osb_member_text(pointer(body), size(body), pointer(key), size(key), buffer, bytes, needed)
	})
}

// AttributesDigest is the digest of what the body of a Provision asks for, which goes into Rules: that of its
// parameters, or the zero Digest if it has none. By it a broker decides whether a second Provision of an id is the same
// (section Provisioning). Context, organization and space don't count, which is this project's choice.
//
// Errors: ErrMemory.
func AttributesDigest(body []byte) (Digest, error) {
	return digestFrom(func(digest *C.uint8_t) C.uint32_t {
		return C.osb_attributes_digest(pointer(body), size(body), digest)
	})
}

// ParametersDigest is the digest of the JSON of parameters: the SHA-256 of the same JSON with no spaces, each number as
// it is written, and the members of each object in ascending order of their names. {} and null have the zero Digest.
// All of this is this project's choice.
//
// Errors: ErrNotJSON, ErrMemory.
func ParametersDigest(parameters []byte) (Digest, error) {
	return digestFrom(func(digest *C.uint8_t) C.uint32_t {
		return C.osb_parameters_digest(pointer(parameters), size(parameters), digest)
	})
}

// digestFrom returns the digest that a call writes.
func digestFrom(write func(digest *C.uint8_t) C.uint32_t) (Digest, error) {
	digest := make([]byte, len(Digest{}))
	if err := errorOf(write(pointer(digest))); err != nil {
		return Digest{}, err
	}
	var given Digest
	copy(given[:], digest)
	return given, nil
}

// texts are several, which a call wrote one after the other.
type texts []byte

// next takes the first one, of this length, from the front. It is nil if it isn't there.
func (t *texts) next(isThere C.bool, length C.size_t) []byte {
	if !isThere {
		return nil
	}
	text := (*t)[:length:length]
	*t = (*t)[length:]
	return text
}

// nextString takes the first one as a string.
func (t *texts) nextString(isThere C.bool, length C.size_t) *string {
	if !isThere {
		return nil
	}
	text := string(t.next(isThere, length))
	return &text
}

// A Request is what a platform asks of a broker.
type Request struct {
	Kind              Kind
	AcceptsIncomplete bool // whether the operation may be asynchronous
	ID, Service, Plan ID
}

// A Sent is a request to send, and its number among the requests of its instance. The number isn't sent: it stays with
// the connection on which the answer is awaited.
type Sent struct {
	Request Request
	Attempt uint64
}

// An Answer is what a broker says: the HTTP status, any number, and what can be read of the body.
type Answer struct {
	Status uint16
	Body   Body
}

// DecideDeprovision is the state of an instance in StateCleaning after the answer to its Deprovision.
func DecideDeprovision(answer Answer) State { return State(C.osb_decide_deprovision(answer.c())) }

// DecidePoll is the state of an instance in this state after the answer to its Poll: a state that isn't polled stays.
// StateNone where the number stands for no state.
func DecidePoll(state State, answer Answer) State {
	return State(C.osb_decide_poll(C.uint8_t(state), answer.c()))
}

// The headers that name the user behind a request, and the request itself.
const (
	OriginatingIdentityHeader = "X-Broker-API-Originating-Identity"
	RequestIdentityHeader     = "X-Broker-API-Request-Identity"
)

// An Identity is the user behind a request.
type Identity struct {
	Platform string          `json:"platform"` // such as cloudfoundry or kubernetes
	Object   json.RawMessage `json:"value"`    // an object of JSON as it arrived; its members are the platform's
}

// OriginatingIdentity reads the header X-Broker-API-Originating-Identity: the platform, a blank, and an object of JSON
// in padded base64 (section Originating Identity).
//
// Errors: ErrNotUTF8, ErrNoIdentity for every other value, ErrMemory.
func OriginatingIdentity(value string) (Identity, error) {
	given := []byte(value)
	var platform C.size_t
	text, err := textFrom(func(buffer *C.uint8_t, bytes C.size_t, needed *C.size_t) C.uint32_t {
		return C.osb_originating_identity(pointer(given), size(given), &platform, buffer, bytes, needed)
	})
	if err != nil {
		return Identity{}, err
	}
	return Identity{Platform: string(text[:platform]), Object: text[platform:]}, nil
}

// RequestIdentity judges the header X-Broker-API-Request-Identity (section Request Identity). If it returns nil, the
// broker returns the value in the same header of its answer.
//
// Errors: ErrNotUTF8, and ErrNoIdentity if the value is empty or has an ASCII control character, which is this
// project's choice.
func RequestIdentity(value string) error {
	given := []byte(value)
	return errorOf(C.osb_request_identity(pointer(given), size(given)))
}
