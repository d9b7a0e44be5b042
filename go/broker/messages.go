package broker

import (
	"errors"
	"fmt"
	"net/http"

	"pippinterm/osb"
)

// What a person reads if nothing is known of the instance.
const (
	noLogin     = "The header Authorization is missing. Log in with HTTP's Basic scheme."
	wrongLogin  = "The user or the password is wrong."
	cutBody     = "The body didn't arrive whole and in time. Send the request again."
	predecessor = "The broker doesn't rotate bindings. Send the Bind without predecessor_binding_id."
	failedHere  = "The broker failed. Its log has the reason, under the id of this request."
	awayNow     = "The broker can't work now, and doesn't know what came of the request. Send it again later."
	idTaken     = "The id is taken. Choose another id."
	notByUs     = "The backend rejected the request."
	otherStore  = "The request is for a broker over another store. Nothing was done. Check the URL, and the broker's store."
	allWork     = "The broker is busy, and nothing was done. Send the request again later."
	notJSON     = "The body must be an object of JSON, in UTF-8, and nothing else. Nest at most 127 arrays and objects, " +
		"the body included. Write no number beyond 1.7e308, and no lone surrogate such as \\ud800."
	noPoll = "No Poll of the last operation has arrived in time, so the creation has timed out. Nothing was created."
)

// errNoPoll is the reason of the event creation_timed_out.
var errNoPoll = errors.New("no Poll of the last operation has arrived in time, so nothing was created")

// refusal is the sentence for a refusal of the library, or "" if the library's own says what to do.
func (h *Handler) refusal(refusal osb.Status) string {
	switch refusal {
	case osb.ErrRefusedTarget:
		return "The broker has no such path. Send the request to /v2/catalog, or below /v2/service_instances/ID."
	case osb.ErrRefusedMethod:
		return "The path doesn't take this method. The header Allow has those that it takes."
	case osb.ErrRefusedVersion:
		return "The header X-Broker-API-Version must be " + osb.VersionSent + ", or another 2.x."
	case osb.ErrRefusedLength:
		return fmt.Sprintf("The body is longer than %d bytes. Send a shorter one.", h.LongestBody)
	case osb.ErrRefusedRepeated:
		return "A parameter of the query stands twice. Send each once."
	case osb.ErrRefusedBody:
		return notJSON
	}
	return ""
}

// A noun is how a sentence names what a request is about.
type noun struct{ name, an string }

func nounOf(key Key) noun {
	if key.IsBinding {
		return noun{"binding", "A binding"}
	}
	return noun{"instance", "An instance"}
}

// sentence is what a person reads in an answer that has no description of its own, or "" for one of success.
func (h *Handler) sentence(visit Visit, response Response) string {
	of := nounOf(visit.Key)
	switch {
	case response.Description != "":
		return ""
	case response.Rejected != nil:
		return notByUs
	case response.Body == osb.BodyAsyncRequired:
		return "The plan is asynchronous. Send the request with accepts_incomplete=true."
	case response.Body == osb.BodyConcurrencyError && visit.IsFetch && !visit.Key.IsBinding:
		return "An update of the instance is in progress, or has failed. Fetch the instance once an update has succeeded."
	case response.Body == osb.BodyConcurrencyError:
		return "Another operation on this " + of.name + " is in progress. Repeat the request once it has ended."
	case response.Body == osb.BodyOtherError:
		return h.otherSentence(visit, response.Status, of)
	}
	return ""
}

func (h *Handler) otherSentence(visit Visit, status uint16, of noun) string {
	isCreation := !visit.IsFetch && visit.Asked.Kind == osb.KindProvision
	if visit.Update != nil || visit.IsFetch && !visit.Key.IsBinding {
		return h.updateSentence(visit, status)
	}
	switch status {
	case http.StatusBadRequest:
		return badRequest(isCreation, of)
	case http.StatusNotFound:
		return "No binding of this id can be fetched. It doesn't exist, isn't ready, or isn't retrievable."
	case http.StatusConflict:
		return h.conflictSentence(visit, of)
	case http.StatusGone:
		return "No " + of.name + " of this id exists."
	case http.StatusServiceUnavailable:
		if visit.Key.IsBinding {
			return "The instance isn't available, or work on the binding is pending. Repeat the request later."
		}
		return "Work on this instance is pending, or it still has bindings. Repeat the request later."
	case http.StatusInternalServerError:
		return "The backend failed. The broker's log has the reason."
	}
	return ""
}

// updateSentence is what a person reads in the answer to an Update or to the Fetch of an instance.
func (h *Handler) updateSentence(visit Visit, status uint16) string {
	switch {
	case visit.IsFetch && status == http.StatusNotFound:
		return "No instance of this id can be fetched. It doesn't exist, isn't ready, or isn't retrievable."
	case visit.IsFetch:
		return "The instance has another service_id, or its service has no such plan_id."
	}
	switch status {
	case http.StatusNotFound:
		return "No instance of this id exists."
	case http.StatusBadRequest:
		return "The instance has another service_id, or the catalogue has no such plan."
	case http.StatusConflict:
		return "A later Update was received: its x-osb-update is greater. Send the request with a number that is greater still."
	case http.StatusUnprocessableEntity:
		return "The plan of the instance can't be changed, or the backend can't update."
	case http.StatusInternalServerError:
		return "The update has failed, or an Update with this x-osb-update was judged before. Send it again, with a " +
			"greater number if it has one. The broker's log has the reason."
	}
	return ""
}

// badRequest is the sentence of a 400 to a request that can be read.
func badRequest(isCreation bool, of noun) string {
	switch {
	case !isCreation:
		return "The " + of.name + " has another service_id or plan_id."
	case of.name == "binding":
		return "The catalogue has no such service and plan, or the plan isn't bindable."
	}
	return "The catalogue has no such service and plan."
}

// conflictSentence says why an id is taken, by what is held now. If that has changed since the request was answered, or
// can't be read, the sentence names no reason.
func (h *Handler) conflictSentence(visit Visit, of noun) string {
	snapshot, err := h.service.read(h.ctx, visit.Key)
	if err != nil {
		return idTaken
	}
	row, differs := rowOf(snapshot.Holding), "other parameters"
	switch {
	case !snapshot.Holding.IsHeld() && snapshot.Holding.HasTombstone():
		return of.an + " of this id has ended. " + h.service.options.reuse()
	case !snapshot.Holding.IsHeld():
		return idTaken
	case snapshot.Change != nil:
		return of.an + " of this id exists, and was updated. Choose another id, or send an Update."
	case row.Service != visit.Asked.Service:
		differs = "another service_id"
	case row.Plan != visit.Asked.Plan:
		differs = "another plan_id"
	case snapshot.Holding.Attributes() == visit.Attributes:
		return idTaken
	case visit.Key.IsBinding:
		differs = "other parameters, or another bind_resource"
	}
	return of.an + " of this id exists, with " + differs + ". Choose another id, or repeat the request that created it."
}
