package api

import (
	"encoding/json"
	"net/http"
	"net/url"

	"pippinterm/platform"
)

type newInstance struct {
	ID           *string         `json:"id"`
	Broker       string          `json:"broker"`
	Service      string          `json:"service"`
	Plan         string          `json:"plan"`
	Organization string          `json:"organization_guid"`
	Space        string          `json:"space_guid"`
	Parameters   json.RawMessage `json:"parameters"`
	Context      json.RawMessage `json:"context"`
	Identity     string          `json:"originating_identity"`
	Tries        int             `json:"tries"`
}

type newBinding struct {
	ID           *string         `json:"id"`
	Parameters   json.RawMessage `json:"parameters"`
	Context      json.RawMessage `json:"context"`
	BindResource json.RawMessage `json:"bind_resource"`
	Identity     string          `json:"originating_identity"`
	Tries        int             `json:"tries"`
}

type givenReason struct {
	Because string `json:"because"`
}

// show answers with a record, its whole life, and the time of the store.
func (a *request) show() (answer, error) {
	return answerOK(a.reader.Show(a.Context(), a.values["id"], a.values["bid"]))
}

func (a *request) create() (answer, error) {
	var given newInstance
	if err := a.body(&given); err != nil {
		return answer{}, err
	}
	id, err := chosenID(given.ID)
	if err != nil {
		return answer{}, err
	}
	return creation(a.orders.Create(a.Context(), platform.NewInstance{
		Broker: given.Broker, Service: given.Service, Plan: given.Plan, ID: id, Organization: given.Organization,
		Space: given.Space, Parameters: given.Parameters, Context: given.Context, Identity: given.Identity,
		Tries: given.Tries,
	}))
}

func (a *request) bind() (answer, error) {
	if _, err := a.key(); err != nil {
		return answer{}, err
	}
	var given newBinding
	if err := a.body(&given); err != nil {
		return answer{}, err
	}
	id, err := chosenID(given.ID)
	if err != nil {
		return answer{}, err
	}
	return creation(a.orders.Bind(a.Context(), platform.NewBinding{
		Instance: a.values["id"], ID: id, Parameters: given.Parameters, Context: given.Context,
		BindResource: given.BindResource, Identity: given.Identity, Tries: given.Tries,
	}))
}

// chosenID is the id that an order names, or empty for a new GUID. An id that is given and empty is an error: a
// variable of whoever asks may have been empty by mistake.
func chosenID(given *string) (string, error) {
	switch {
	case given == nil:
		return "", nil
	case *given == "":
		return "", malformedError("the member id is empty: leave it out for a new GUID")
	}
	return *given, nil
}

// creation answers with a new row, and where it is, unless there is an error.
func creation(e platform.Entry, err error) (answer, error) {
	at := instances + "/" + url.PathEscape(e.Names.Instance)
	if e.Key.IsBinding {
		at += "/bindings/" + url.PathEscape(e.Names.Binding)
	}
	made, err := withRecord(http.StatusCreated, e, err)
	made.location = at
	return made, err
}

// withRecord answers with a row, unless there is an error.
func withRecord(status int, e platform.Entry, err error) (answer, error) {
	if err != nil {
		return answer{}, err
	}
	return answer{status: status, body: recordOf(e)}, nil
}

// answerOK answers with what a call has found, unless there is an error.
func answerOK(found any, err error) (answer, error) {
	if err != nil {
		return answer{}, err
	}
	return answer{status: http.StatusOK, body: found}, nil
}

func (a *request) remove() (answer, error) {
	key, err := a.key()
	if err != nil {
		return answer{}, err
	}
	withBindings, err := a.flag("bindings")
	if err != nil {
		return answer{}, err
	}
	e, err := a.removeLast(key, withBindings)
	return withRecord(http.StatusAccepted, e, err)
}

// flag is a value of the query that is true or false, and false if it isn't given.
func (a *request) flag(name string) (bool, error) {
	values, isGiven := a.query[name]
	if isGiven && values[0] != "true" && values[0] != "false" {
		return false, malformedError(name + " is true or false")
	}
	return isGiven && values[0] == "true", nil
}

// removeLast removes the last try of the order of a row. If that is gone, a further one may have been ordered just now.
func (a *request) removeLast(key platform.Key, withBindings bool) (platform.Entry, error) {
	for {
		last, err := a.lastTry(key)
		if err != nil {
			return platform.Entry{}, err
		}
		e, err := a.orders.Remove(a.Context(), last, withBindings)
		if err != nil || e.State != platform.Gone {
			return e, err
		}
		if further, err := a.lastTry(last); err != nil || further == last {
			return e, err
		}
	}
}

// lastTry is the key of the last try of the order of a row.
func (a *request) lastTry(key platform.Key) (platform.Key, error) {
	e, err := a.store.Read(a.Context(), key)
	if err != nil || e.Tries <= 1 {
		return key, err
	}
	tries, err := a.store.List(a.Context(), e.Chain())
	for _, try := range tries {
		if try.Try > e.Try {
			e = try
		}
	}
	return e.Key, err
}

func (a *request) retry() (answer, error) {
	key, err := a.key()
	if err != nil {
		return answer{}, err
	}
	e, err := a.orders.Retry(a.Context(), key)
	return withRecord(http.StatusAccepted, e, err)
}

func (a *request) abandon() (answer, error) {
	key, err := a.key()
	if err != nil {
		return answer{}, err
	}
	var given givenReason
	if err := a.body(&given); err != nil {
		return answer{}, err
	}
	e, err := a.orders.Abandon(a.Context(), key, given.Because)
	return withRecord(http.StatusOK, e, err)
}

// credentials answers with what the broker has given, sealed until now. Every answer of the API has no-store.
func (a *request) credentials() (answer, error) {
	key, err := a.key()
	if err != nil {
		return answer{}, err
	}
	if err := a.CheckKey(a.Context()); err != nil {
		return answer{}, err
	}
	return answerOK(a.orders.Credentials(a.Context(), key))
}
