package client

import (
	"context"
	"crypto/rand"
	"crypto/tls"
	"encoding/json"
	"errors"
	"fmt"
	"io"
	"net/http"
	"strings"
	"syscall"

	"pippinterm/osb"
	"pippinterm/platform"
)

// An Answer is what a broker has answered to a question that changes nothing. No credentials and no parameters are in
// it.
type Answer struct {
	Status             int
	State              string // of a last operation: in progress, succeeded or failed; or empty
	Error, Description string // the answer's, or empty
	// IsUnsure says that the answer isn't surely the broker's, because its body is no object. A gateway may have given
	// it. A broker may send a 410 without a body.
	IsUnsure bool
}

// states are the states of a last operation, in the standard's words.
var states = map[osb.Body]string{
	osb.BodyInProgress: "in progress", osb.BodySucceeded: "succeeded", osb.BodyFailed: "failed",
}

// LastOperation asks a broker for the last operation of an instance or a binding, with one GET. It waits for
// Options.CatalogueTime at most. Of the entry the names, the numbers, the operation and the identity count.
//
// Errors: no answer arrived whole, or it was the answer to another request. None has the password.
func (c *Client) LastOperation(ctx context.Context, of platform.Broker, entry platform.Entry) (Answer, error) {
	got, err := c.question(ctx, of, entry, false)
	if err != nil {
		return Answer{}, err
	}
	answer, err := answerOf(got)
	if err != nil {
		return Answer{}, err
	}
	read, err := osb.ReadAnswer(osb.KindPoll, uint16(got.status), got.body) // the status has three digits
	isBare := got.status == http.StatusGone && len(got.body) == 0
	answer.State, answer.IsUnsure = states[read.Body], read.Body == osb.BodyMalformed && !isBare
	return answer, err
}

// Fetch asks a broker for an instance or a binding itself, as LastOperation does. Only a broker whose catalogue says
// that they are retrievable has to answer it.
func (c *Client) Fetch(ctx context.Context, of platform.Broker, entry platform.Entry) (Answer, error) {
	got, err := c.question(ctx, of, entry, true)
	if err != nil {
		return Answer{}, err
	}
	answer, err := answerOf(got)
	var object map[string]json.RawMessage
	answer.IsUnsure = err == nil && (json.Unmarshal(got.body, &object) != nil || object == nil)
	return answer, err
}

// question is one GET about a row: the Fetch, or the Poll of its last operation.
func (c *Client) question(
	ctx context.Context, of platform.Broker, entry platform.Entry, isFetch bool,
) (got wholeAnswer, err error) {
	to, err := c.broker(of)
	if err != nil {
		return wholeAnswer{}, err
	}
	id, err := newID()
	if err != nil {
		return wholeAnswer{}, err
	}
	asked, err := questionTarget(to.prefix, entry, isFetch)
	if err != nil {
		return wholeAnswer{}, err
	}
	return c.ask(ctx, to, of, sending{
		method: http.MethodGet, target: asked, id: id, identity: entry.Identity,
		until: c.now().Add(c.options.CatalogueTime), longest: c.options.LongestAnswer, isAlone: true,
	})
}

// questionTarget is the target of a question. That of the Fetch of an instance is that of its last operation, without
// the last part of the path (section Fetching a Service Instance).
func questionTarget(prefix string, entry platform.Entry, isFetch bool) (string, error) {
	asked, err := target(prefix, &platform.Outgoing{
		Entry: entry, IsFetch: isFetch && entry.Key.IsBinding,
		Request: osb.Request{Kind: osb.KindPoll, ID: entry.Key.ID(), Service: entry.Service, Plan: entry.Plan},
	})
	if err != nil || !isFetch || entry.Key.IsBinding {
		return asked, err
	}
	path, query, _ := strings.Cut(asked, "?")
	return strings.TrimSuffix(path, "/last_operation") + "?" + query, nil
}

// answerOf reads what an answer says of itself.
func answerOf(got wholeAnswer) (Answer, error) {
	details, err := osb.ReadDetails(got.body)
	if err != nil {
		return Answer{}, fmt.Errorf("status %d: %w", got.status, err)
	}
	answer := Answer{Status: got.status}
	if details.Error != nil {
		answer.Error = *details.Error
	}
	if details.Description != nil {
		answer.Description = *details.Description
	}
	return answer, nil
}

// longestReason is how many characters of a broker's description stand in an error.
const longestReason = 200

// Catalogue asks for the catalogue of a broker, and returns its document if package osb can read it (section Catalog
// Management). It waits for Options.CatalogueTime at most. status is the answer's, or 0.
//
// Errors: those say what is wrong, and what to do. None has the password. platform.ErrOtherStore (by errors.Is) if the
// broker isn't over the store that is recorded.
func (c *Client) Catalogue(ctx context.Context, of platform.Broker) (document json.RawMessage, status int, err error) {
	got, err := c.catalogue(ctx, of)
	if err != nil {
		return nil, got.status, err
	}
	if err := of.CheckCatalogue(got.body, got.header.Values(platform.StoreHeader)); err != nil {
		return nil, got.status, fmt.Errorf("the catalogue of %s: %w", of.Name, err)
	}
	return got.body, got.status, nil
}

// catalogue is an answer with a catalogue that can be read.
func (c *Client) catalogue(ctx context.Context, of platform.Broker) (got wholeAnswer, err error) {
	to, err := c.broker(of)
	if err != nil {
		return wholeAnswer{}, err
	}
	id, err := newID()
	if err != nil {
		return wholeAnswer{}, err
	}
	got, err = c.ask(ctx, to, of, sending{
		method: http.MethodGet, target: to.prefix + "/v2/catalog", id: id, until: c.now().Add(c.options.CatalogueTime),
		longest: LongestCatalogue, isAlone: true, isOfAny: true,
	})
	if err != nil {
		return got, fmt.Errorf("the catalogue of %s: %w%s", of.Name, err, meaning(err, got.status, to.isTLS))
	}
	if got.status != http.StatusOK {
		return got, fmt.Errorf("the broker %s %s%s", of.Name, refusal(got.status), reason(got.body))
	}
	if _, err := osb.CataloguePlans(got.body); err != nil {
		return got, fmt.Errorf("the catalogue of %s can't be read: %w", of.Name, err)
	}
	return got, nil
}

// meaning says what a connection that broke means, and what to check, or nothing. status is that of the answer, or 0 if
// nothing of it has arrived.
func meaning(err error, status int, isTLS bool) string {
	var noTLS tls.RecordHeaderError
	isClosed := errors.Is(err, ErrCut) || errors.Is(err, io.EOF) || errors.Is(err, syscall.ECONNRESET)
	switch {
	case errors.As(err, &noTLS):
		return ". What listens there doesn't speak TLS: check the port, or give a URL with http://"
	case isClosed && status != 0:
		return fmt.Sprintf(". The broker, or a proxy before it, closed the connection within its answer, of status %d: "+
			"see its log", status)
	case isClosed && isTLS && errors.Is(err, ErrNotSent):
		return ". The connection was closed in the TLS handshake: check that the port is one for TLS, and whether the " +
			"broker wants a certificate (--tls-certificate, --tls-key)"
	case isClosed:
		return ". The connection was closed without an answer: check that a broker listens there, and whether it wants " +
			"https://"
	case errors.Is(err, ErrGarbled) && !isTLS:
		return ". What listens there doesn't speak HTTP: check the port, and whether it wants https://"
	}
	return ""
}

// refusal is what a status other than 200 says.
func refusal(status int) string {
	switch status {
	case http.StatusUnauthorized:
		return "rejects the user or the password (401): give it the right ones"
	case http.StatusForbidden:
		return "doesn't let this user in (403): give it another user, or the rights at the broker"
	case http.StatusNotFound:
		return "has no catalogue at its URL (404): give it the URL up to before /v2"
	case http.StatusPreconditionFailed:
		return "doesn't take version " + osb.VersionSent + " of the API (412): a newer version of the broker is needed"
	case http.StatusTooManyRequests, http.StatusServiceUnavailable:
		return fmt.Sprintf("has no time (%d): it is asked again", status)
	}
	return fmt.Sprintf("gives no catalogue (%d): see its log", status)
}

// reason is the description in the body of an answer, after a colon, or nothing.
func reason(body []byte) string {
	details, err := osb.ReadDetails(body)
	if err != nil || details.Description == nil || *details.Description == "" {
		return ""
	}
	text := []rune(*details.Description)
	if len(text) > longestReason {
		text = append(text[:longestReason], '…')
	}
	return fmt.Sprintf(". It says: %q", string(text))
}

// newID is a new value of X-Broker-API-Request-Identity: a random GUID (RFC 4122, version 4).
func newID() (string, error) {
	var id osb.ID
	if _, err := rand.Read(id[:]); err != nil {
		return "", fmt.Errorf("random bytes: %w", err)
	}
	id[6], id[8] = id[6]&0x0f|0x40, id[8]&0x3f|0x80
	return id.String(), nil
}
