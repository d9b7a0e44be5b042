package broker

import (
	"bytes"
	"encoding/json"
	"errors"
	"fmt"
	"net/http"
	"strings"

	"pippinterm/osb"
)

// A Request is what a platform asked for when it created an instance or a binding, in full. It is stored in the
// transaction that writes the pending work, and forgotten once the instance or the binding has ended: so a Backend gets
// it after a crash too, and for a deletion.
type Request struct {
	Key Key `json:"-"`

	// The ids as the platform and the catalogue have them: texts of 1 to 255 bytes of UTF-8. BindingID is empty for an
	// instance.
	InstanceID string `json:"instance_id"`
	BindingID  string `json:"binding_id,omitempty"`
	ServiceID  string `json:"service_id"`
	PlanID     string `json:"plan_id"`

	// Body is the body of the Provision or the Bind, an object with parameters, context, organization_guid and all else
	// that the platform sent (sections Provisioning and Binding). It is nil if a version before 0.3 created the
	// instance, which kept no body.
	Body json.RawMessage `json:"body,omitempty"`

	Origin

	// Deletion is the source of the Deprovision or the Unbind, and nil until one begins.
	Deletion *Origin `json:"deletion,omitempty"`

	// Details are what the backend has last said of the instance, or nil.
	Details *Details `json:"details,omitempty"`
}

// An Origin is who sent a request, as its headers say.
type Origin struct {
	// Identity is the user behind the request, or nil if the header is missing (section Originating Identity).
	Identity *osb.Identity `json:"originating_identity,omitempty"`
	// RequestID is the id of the request in the log (section Request Identity).
	RequestID string `json:"request_identity,omitempty"`
}

// Member is the JSON that stands under a name in the body, such as parameters, or nil if there is none.
func (r Request) Member(name string) json.RawMessage {
	text, err := osb.MemberText(r.Body, name)
	if err != nil {
		return nil
	}
	return text
}

// text is what is stored of the request. It has the body as it was sent, without blanks: json.Marshal would write six
// bytes for each < of it.
func (r *Request) text() (json.RawMessage, error) { return textOf(r) }

func textOf(value any) (json.RawMessage, error) {
	text := bytes.Buffer{}
	encoder := json.NewEncoder(&text)
	encoder.SetEscapeHTML(false)
	err := encoder.Encode(value)
	return bytes.TrimSuffix(text.Bytes(), []byte("\n")), err
}

// requestOf is the request that is stored for a key. Of an instance that a version before 0.3 created only the ids are
// known.
func requestOf(key Key, row osb.BrokerRow, stored json.RawMessage) (Request, error) {
	request := Request{
		Key:        key,
		InstanceID: key.Instance.String(),
		ServiceID:  row.Service.String(),
		PlanID:     row.Plan.String(),
	}
	if key.IsBinding {
		request.BindingID = key.Binding.String()
	}
	if len(stored) == 0 {
		return request, nil
	}
	if err := json.Unmarshal(stored, &request); err != nil {
		return request, fmt.Errorf("what is stored of the request for %v: %w", key, err)
	}
	return request, nil
}

// Names are the ids of a request as they stand in its path. An empty one stands for the number's GUID.
//
// A Key has the numbers of the ids. Two ids can have one number: a text that is no GUID has the number that its SHA-256
// begins with, and another platform's id may be the GUID of that number. So whoever knows the one can name the other.
// A request that names another id than the one that is held is about something that doesn't exist.
type Names struct{ Instance, Binding string }

// names are those of a Request.
func (r Request) names() Names { return Names{r.InstanceID, r.BindingID} }

// of are the names under a key: all ids are filled in.
func (n Names) of(key Key) Names {
	if n.Instance == "" {
		n.Instance = key.Instance.String()
	}
	if key.IsBinding && n.Binding == "" {
		n.Binding = key.Binding.String()
	}
	return n
}

// namesAnother reports whether a request names another id than the one that is held under its key.
func (v *Visit) namesAnother(held *Entry) (bool, error) {
	if !held.Holding.IsHeld() {
		return false, nil
	}
	return v.Names.of(v.Key).differ(v.Key, held)
}

// instance is the holding of a binding's instance. If the request names another instance, it is the zero Holding.
func (v *Visit) instance(snapshot *Snapshot) (osb.Holding, error) {
	key := osb.InstanceKey(v.Key.Instance)
	differ, err := Names{Instance: v.Names.of(v.Key).Instance}.differ(key, &snapshot.Instance)
	if err != nil || differ {
		return osb.Holding{}, err
	}
	return snapshot.Instance.Holding, nil
}

// differ reports whether the names aren't those with which an entry was created.
func (n Names) differ(key Key, entry *Entry) (bool, error) {
	if n.begin(entry.Request) {
		return false, nil
	}
	request, err := requestOf(key, osb.BrokerRow{}, entry.Request)
	return err == nil && request.names() != n, err
}

// begin reports whether a text begins as that of a Request with these names does, unless a name has to be escaped in
// JSON.
func (n Names) begin(text []byte) bool {
	rest, isSame := cut(text, `{"instance_id":"`, n.Instance, `",`)
	if isSame && n.Binding != "" {
		_, isSame = cut(rest, `"binding_id":"`, n.Binding, `",`)
	}
	return isSame
}

// cut is what follows these parts in a text that begins with them.
func cut(text []byte, parts ...string) (rest []byte, begins bool) {
	for _, part := range parts {
		if len(text) < len(part) || string(text[:len(part)]) != part {
			return nil, false
		}
		text = text[len(part):]
	}
	return text, true
}

// unknownResponse answers a request that names something that doesn't exist, under a number that somebody else has.
func (v *Visit) unknownResponse() Response {
	response := Response{
		Answer:      osb.Answer{Status: http.StatusGone, Body: osb.BodyOtherError},
		Description: "Nothing exists under this id.",
	}
	switch {
	case v.IsFetch || v.Update != nil:
		response.Status = http.StatusNotFound
	case v.Asked.Kind == osb.KindProvision:
		response.Status = http.StatusConflict
		response.Description = "This id has the same number as the id of something else. Choose another id."
	}
	return response
}

// stopping is the body of each answer of a broker that is being stopped.
var stopping = []byte(`{"description":"The broker is being stopped. Send the request again later.","error":"ServiceUnavailable"}`)

// read reads what a request asks, and judges what the plan asks of it.
func (h *Handler) read(a *arrival, body []byte) (visit Visit, err error) {
	if route, isServed := routes[endpoint{a.target, a.request.Method}]; isServed {
		a.Route = route
	}
	switch a.target {
	case osb.TargetBinding, osb.TargetBindingOperation:
		visit, err = h.readBinding(a, body)
	case osb.TargetInstance:
		visit, err = h.readInstance(a, body)
	default: // it rejects what names nothing
		visit, err = h.readOfLife(a, body)
	}
	if err != nil {
		return visit, err
	}
	a.Key, a.IsNamed = visit.Key, true
	return visit, nil
}

// An endpoint is one of the requests that a broker takes: a method of what a target names.
type endpoint struct {
	target osb.Target
	method string
}

// routes has the name of each endpoint in logs and metrics, but that of the catalogue.
var routes = map[endpoint]string{
	{osb.TargetInstance, http.MethodGet}:          "fetch",
	{osb.TargetInstance, http.MethodPatch}:        "update",
	{osb.TargetInstance, http.MethodPut}:          "provision",
	{osb.TargetInstance, http.MethodDelete}:       "deprovision",
	{osb.TargetInstanceOperation, http.MethodGet}: "poll",
	{osb.TargetBinding, http.MethodGet}:           "fetch-binding",
	{osb.TargetBinding, http.MethodPut}:           "bind",
	{osb.TargetBinding, http.MethodDelete}:        "unbind",
	{osb.TargetBindingOperation, http.MethodGet}:  "poll-binding",
}

// methodsOf are those that a broker takes of what a target names.
func methodsOf(target osb.Target) string {
	var methods []string
	for _, method := range []string{http.MethodGet, http.MethodPatch, http.MethodPut, http.MethodDelete} {
		if routes[endpoint{target, method}] != "" {
			methods = append(methods, method)
		}
	}
	return strings.Join(methods, ", ")
}

// readInstance reads a request whose path names an instance.
func (h *Handler) readInstance(a *arrival, body []byte) (Visit, error) {
	switch a.request.Method {
	case http.MethodGet, http.MethodPatch:
		return h.readUpdate(a, body)
	}
	return h.readOfLife(a, body)
}

// readUpdate reads an Update or the Fetch of an instance.
func (h *Handler) readUpdate(a *arrival, body []byte) (visit Visit, err error) {
	received, err := osb.ReceiveUpdateRequest("", h.LongestBody, a.request.Method, a.request.RequestURI, body)
	if err != nil {
		return visit, err
	}
	asked := received.Asked
	visit.Key, visit.Names.Instance = osb.InstanceKey(asked.ID), received.Names.Instance
	visit.Asked, visit.IsFetch, visit.Origin = osb.Asked{Kind: osb.KindNone, ID: asked.ID}, asked.IsFetch, h.origin(a)
	if asked.IsFetch {
		visit.Asked.HasService, visit.Asked.Service = asked.HasService, asked.Service
		visit.Asked.HasPlan, visit.Asked.Plan = asked.HasPlan, asked.Plan
		return visit, nil
	}
	visit.Asked.HasService, visit.Asked.Service = true, asked.Update.Service
	visit.Asked.HasPlan, visit.Asked.Plan = asked.Update.Change.HasPlan, asked.Update.Change.Plan
	visit.Asked.AcceptsIncomplete = asked.Update.AcceptsIncomplete
	texts := h.service.catalogue.named(
		planIDs{visit.Asked.Service, visit.Asked.Plan}, planTexts{plan: received.Names.Plan})
	visit.Update = &AskedUpdate{
		Update: asked.Update, Settings: Settings{PlanID: texts.plan, Parameters: received.Parts.Parameters},
	}
	if received.Parts.Version != nil {
		visit.Update.Settings.Version = *received.Parts.Version
	}
	return visit, nil
}

// readOfLife reads a Provision, a Deprovision or a Poll.
func (h *Handler) readOfLife(a *arrival, body []byte) (visit Visit, err error) {
	received, err := osb.ReceiveRequest("", h.LongestBody, a.request.Method, a.request.RequestURI, body)
	if err != nil {
		return visit, err
	}
	visit.Asked, visit.Key, visit.Names.Instance =
		received.Asked, osb.InstanceKey(received.Asked.ID), received.Names.Instance
	if visit.Asked.Kind != osb.KindProvision {
		visit.Origin = h.origin(a)
		return visit, nil
	}
	if visit.Attributes, err = osb.AttributesDigest(body); err != nil {
		return visit, err
	}
	if err := h.conflict(planIDs{visit.Asked.Service, visit.Asked.Plan}, body); err != nil {
		return visit, err
	}
	return h.creation(a, visit, body, Request{ServiceID: received.Names.Service, PlanID: received.Names.Plan})
}

// conflict judges the maintenance_info of a Provision.
func (h *Handler) conflict(of planIDs, body []byte) error {
	version, hasVersion := h.service.catalogue.versions[of]
	if !hasVersion {
		return nil
	}
	return osb.MaintenanceConflict(&version, body)
}

// errPredecessor refuses a Bind that names a predecessor, since no plan is binding_rotatable.
var errPredecessor = errors.New("binding rotation isn't served: no plan is binding_rotatable")

func (h *Handler) readBinding(a *arrival, body []byte) (visit Visit, err error) {
	received, err := osb.ReceiveBindingRequest("", h.LongestBody, a.request.Method, a.request.RequestURI, body)
	if err != nil {
		return visit, err
	}
	visit.Asked, visit.IsFetch = received.Asked.Asked, received.Asked.IsFetch
	visit.Key = osb.BindingKey(received.Asked.Instance, visit.Asked.ID)
	visit.Names = Names{Instance: received.Names.Instance, Binding: received.Names.Binding}
	if visit.Asked.Kind != osb.KindProvision {
		visit.Origin = h.origin(a)
		return visit, nil
	}
	if received.Parts.PredecessorBindingID != nil {
		return visit, errPredecessor
	}
	if visit.Attributes, err = bindingDigest(received.Parts, body); err != nil {
		return visit, err
	}
	return h.creation(a, visit, body, Request{ServiceID: received.Names.Service, PlanID: received.Names.Plan})
}

// creation adds what is stored of a creation.
func (h *Handler) creation(a *arrival, visit Visit, body []byte, request Request) (Visit, error) {
	request.Key = visit.Key
	texts := h.service.catalogue.named(
		planIDs{visit.Asked.Service, visit.Asked.Plan}, planTexts{request.ServiceID, request.PlanID})
	request.ServiceID, request.PlanID = texts.service, texts.plan
	request.InstanceID, request.BindingID = visit.Names.Instance, visit.Names.Binding
	request.Body, request.Origin = body, h.origin(a)
	var err error
	visit.Request, err = request.text()
	visit.Creation = &request
	return visit, err
}

// bindingDigest is the digest of what a Bind asks for: of its parameters, and of its bind_resource if there is one.
// That bind_resource counts is this project's choice.
func bindingDigest(parts osb.BindingParts, body []byte) (osb.Digest, error) {
	if parts.BindResource == nil {
		return osb.AttributesDigest(body)
	}
	both, err := json.Marshal(struct {
		BindResource json.RawMessage `json:"bind_resource"`
		Parameters   json.RawMessage `json:"parameters,omitempty"`
	}{parts.BindResource, parts.Parameters})
	if err != nil {
		return osb.Digest{}, err
	}
	return osb.ParametersDigest(both)
}

// origin is who sent a request. A header that can't be read names nobody.
func (h *Handler) origin(a *arrival) Origin {
	origin := Origin{RequestID: a.RequestID}
	values := a.request.Header["X-Broker-Api-Originating-Identity"]
	if len(values) != 1 {
		return origin
	}
	identity, err := osb.OriginatingIdentity(values[0])
	if err != nil {
		return origin
	}
	a.Identity, origin.Identity = identity.Platform, &identity
	return origin
}

// write writes an answer, with its own description if it has one, and else with the sentence, which may be empty.
func (h *Handler) write(a *arrival, response Response, sentence string) answer {
	status := int(response.Status)
	if a.Reason == "" {
		a.Reason = response.Description
	}
	switch {
	case response.Binding != nil:
		return answer{status, response.Binding}
	case response.Instance != nil:
		return answer{status, response.Instance}
	case response.IsMaintenanceConflict:
		return h.refuse(a, osb.ErrRefusedMaintenance)
	case response.Details != nil:
		body, err := osb.WriteSuccess(response.Status, nil, response.Details.url(), response.Details.Metadata)
		if err == nil {
			return answer{status, body}
		}
		h.report(a, "details_not_sent", err)
	case response.Rejected != nil && isOwnCode(response.Rejected.Code):
		return h.writeRejection(a, status, response.Rejected)
	case response.Outlook != nil || response.Description != "":
		if a.Reason == "" {
			a.Reason = sentence
		}
		body, err := response.told(sentence)
		if err == nil {
			return answer{status, body}
		}
		h.report(a, "description_not_sent", err)
	}
	body, err := h.wordingBody(wording{response.Answer, sentence})
	if err != nil {
		return h.fail(a, err)
	}
	if status >= http.StatusBadRequest && a.Reason == "" {
		a.Reason = reasonIn(body)
	}
	return answer{status, body}
}

// told is the body of an answer with what the backend has said, or with the sentence in the place of its description.
func (r *Response) told(sentence string) ([]byte, error) {
	description := &r.Description
	switch {
	case r.Outlook == nil:
		return osb.WriteDescribedAnswer(r.Answer, nil, description)
	case r.Description == "" && sentence == "":
		description = nil
	case r.Description == "":
		description = &sentence
	}
	return osb.WriteFailure(r.Answer, description, r.Outlook.InstanceUsable, r.Outlook.UpdateRepeatable)
}

// otherError writes an error of this status, which says the sentence.
func (h *Handler) otherError(a *arrival, status uint16, sentence string) answer {
	return h.write(a, Response{Answer: osb.Answer{Status: status, Body: osb.BodyOtherError}}, sentence)
}

// A wording is an answer with a sentence of this package, or with none. There are few, so the library writes the body
// of each once.
type wording struct {
	osb.Answer
	sentence string
}

// wordingBody is the body of an answer.
func (h *Handler) wordingBody(it wording) ([]byte, error) {
	if body, isKnown := h.wordings.Load(it); isKnown {
		return body.([]byte), nil
	}
	var sentence *string
	if it.sentence != "" {
		sentence = &it.sentence
	}
	body, err := osb.WriteDescribedAnswer(it.Answer, nil, sentence)
	if err == nil {
		h.wordings.Store(it, body)
	}
	return body, err
}

// reasonIn is the description that a body has, or empty.
func reasonIn(body []byte) string {
	details, err := osb.ReadDetails(body)
	if err != nil || details.Description == nil {
		return ""
	}
	return *details.Description
}

// isOwnCode reports whether a code is the backend's own: the others are the standard's, by which a platform decides.
func isOwnCode(code string) bool {
	return code != "" && code != "AsyncRequired" && code != "ConcurrencyError"
}

// writeRejection writes a rejection with the backend's code.
func (h *Handler) writeRejection(a *arrival, status int, rejected *Rejection) answer {
	description := []rune(rejected.Description)
	if len(description) == 0 {
		description = []rune(notByUs)
	}
	if len(description) > 1000 {
		description = description[:1000]
	}
	body, err := json.Marshal(struct {
		Description string `json:"description"`
		Error       string `json:"error"`
	}{string(description), rejected.Code})
	if err != nil {
		return h.fail(a, err)
	}
	return answer{status, body}
}

// refuse answers what the library refused, or what has no memory.
func (h *Handler) refuse(a *arrival, err error) answer {
	a.Reason = err.Error()
	if errors.Is(err, errPredecessor) {
		return h.otherError(a, http.StatusBadRequest, predecessor)
	}
	var refusal osb.Status
	if !errors.As(err, &refusal) {
		return h.fail(a, err)
	}
	status, write := osb.BindingRefusalStatus(refusal), osb.BindingRefusalBody
	if status == 0 {
		status, write = osb.UpdateRefusalStatus(refusal), osb.UpdateRefusalBody // it has those of a Provision, too
	}
	if status == 0 {
		return h.fail(a, err)
	}
	if refusal == osb.ErrRefusedMethod && a.header.Get("Allow") == "" {
		a.header.Set("Allow", methodsOf(a.target))
	}
	if sentence := h.refusal(refusal); sentence != "" {
		return h.otherError(a, status, sentence)
	}
	body, err := write(refusal)
	if err != nil {
		return h.fail(a, err)
	}
	return answer{int(status), body}
}

// fail answers 500, or 503 if the store or the locks are away or there is no memory, and reports why. The work may have
// been done, so it is never a 4xx. Both statuses tell a platform that the outcome isn't known.
func (h *Handler) fail(a *arrival, err error) answer {
	h.report(a, "request_failed", err)
	if !errors.Is(err, osb.ErrMemory) {
		status, sentence := http.StatusInternalServerError, failedHere
		if errors.Is(err, ErrAway) {
			status, sentence = http.StatusServiceUnavailable, awayNow
		}
		failed := osb.Answer{Status: uint16(status), Body: osb.BodyOtherError}
		if body, err := h.wordingBody(wording{failed, sentence}); err == nil {
			return answer{status, body}
		}
	}
	body, _ := osb.RefusalBody(osb.ErrMemory) // it takes none of the library's memory, and is a refusal
	return answer{http.StatusServiceUnavailable, body}
}

func (h *Handler) report(a *arrival, event string, err error) {
	h.Observer.OnFailure(Failure{Event: event, RequestID: a.RequestID, Key: a.Key, IsNamed: a.IsNamed, Err: err})
}
