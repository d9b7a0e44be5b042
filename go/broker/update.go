package broker

import (
	"bytes"
	"crypto/sha256"
	"encoding/hex"
	"encoding/json"
	"fmt"
	"net/http"

	"pippinterm/osb"
)

// Settings are what an instance is set to, and what an Update changes (section Updating a Service Instance).
type Settings struct {
	// PlanID is that of the catalogue, or of a plan that it had when the instance got the settings.
	PlanID string `json:"plan_id"`
	// Parameters are JSON as the platform sent it, or nil for none.
	Parameters json.RawMessage `json:"parameters,omitempty"`
	// Version is that of maintenance_info, or empty for none.
	Version string `json:"version,omitempty"`
}

// An Update is what an UpdateBackend is asked to do: to change the instance of the Request from some settings to others.
type Update struct {
	// Request is the one that created the instance.
	Request
	// From are the settings that the instance had before. If an earlier update has failed, it may have others.
	From Settings `json:"from"`
	// To are the settings that are asked for. Each is given, also what the Update didn't name.
	To Settings `json:"to"`
	// Origin is who sent the Update.
	Origin Origin `json:"update"`
}

// Text is a text by which a backend may remember settings: the SHA-256 of their JSON, in 64 hexadecimal digits. The
// same settings have the same text. It has no parameters in clear, which may be secret.
//
// Errors: the parameters aren't JSON.
func (s Settings) Text() (string, error) {
	text, err := json.Marshal(s)
	if err != nil {
		return "", err
	}
	digest := sha256.Sum256(text)
	return hex.EncodeToString(digest[:]), nil
}

// Done returns how much of the update of a complete instance is done, as UpdateBackend.LookUpdate does: has is the text of
// the settings that the instance got by its latest update, or empty if it was never updated.
//
// Errors: those of Settings.Text.
func (u Update) Done(has string) (There, error) {
	to, err := u.To.Text()
	if err != nil || has == to {
		return Whole, err
	}
	from, err := u.From.Text()
	if err != nil || has != "" && has != from {
		return Part, err
	}
	return None, nil
}

// A Change is what a Store keeps of the updates of an instance, from the first Update on that was judged.
type Change struct {
	// Holding decides.
	Holding osb.UpdateHolding `json:"holding"`
	// Settings are those of Holding.Settings.
	Settings Settings `json:"settings"`
	// To are those of Holding.Goal, or nil if there is none.
	To *Settings `json:"to,omitempty"`
	// IsAsynchronous is how the Update to them began: its work goes on in that mode, whatever the catalogue says later.
	IsAsynchronous bool `json:"asynchronous,omitempty"`
	// Origin is who sent the Update whose work or operation is under way.
	Origin Origin `json:"update"`
	// Outlook is what the backend has said of the latest update that has failed, or nil.
	Outlook *Outlook `json:"outlook,omitempty"`
	// Sealed is Settings and To in the form in which a store has them that encrypts (package sealed), and nil otherwise.
	Sealed []byte `json:"sealed,omitempty"`
}

// Text is the text of the change, an object of JSON, or nil if the change is nil.
//
// Errors: osb.ErrBadHolding.
func (c *Change) Text() (json.RawMessage, error) {
	if c == nil {
		return nil, nil
	}
	return textOf(c)
}

// ChangeOfText reads the text of a change, or returns nil if there is no text.
//
// Errors: those of osb.UpdateHolding.UnmarshalJSON; the text isn't that of a change.
func ChangeOfText(text json.RawMessage) (*Change, error) {
	if len(text) == 0 {
		return nil, nil
	}
	var read Change
	if err := json.Unmarshal(text, &read); err != nil {
		return nil, fmt.Errorf("what is kept of updates: %w", err)
	}
	return &read, nil
}

// expecting is the change once an update has ended with this outlook, or with nil.
func (c Change) expecting(outlook *Outlook) *Change {
	c.Outlook = outlook
	return &c
}

// outlook is what can be expected of an instance whose Poll is answered so, or nil if that isn't the answer of an
// update that has failed.
func (e *Entry) outlook(polled osb.Answer) *Outlook {
	if e.Change == nil {
		return nil
	}
	answer, err := e.Change.Holding.Poll(e.Holding)
	if err != nil || answer != polled {
		return nil
	}
	return e.Change.Outlook
}

// isUnderWay reports whether the work of an Update is pending, or its operation runs.
func (c *Change) isUnderWay() bool { return c != nil && c.Holding.IsUnderWay() }

// An AskedUpdate is what an Update asks.
type AskedUpdate struct {
	osb.Update
	Settings Settings // the texts of what it names
}

// with are the settings that an Update asks for which comes for an instance with these.
func (s Settings) with(update *AskedUpdate) Settings {
	if update.Change.HasPlan {
		s.PlanID = update.Settings.PlanID
	}
	if update.Change.HasParameters {
		s.Parameters = update.Settings.Parameters
	}
	if update.Change.HasVersion {
		s.Version = update.Settings.Version
	}
	return s
}

// mode is how the work of an Update is done that is under way.
func (c *Change) mode() osb.Mode {
	if c.IsAsynchronous {
		return osb.ModeAsync
	}
	return osb.ModeSync
}

// next is the change with the next holding of updates, and the texts of its settings. The visit is that of an Update that
// arrives and may be done as allowed says, or nil if work or an operation has ended.
func (c Change) next(holding osb.UpdateHolding, visit *Visit, allowed osb.Allowed) *Change {
	_, hasGoal := holding.Goal()
	goal, hadGoal := c.Holding.Goal()
	if hadGoal && c.To != nil && holding.Phase() == osb.UpdatePhaseSettled && holding.Settings() == goal {
		c.Settings = *c.To // also if only the texts differ: the resource has these
	}
	switch {
	case !hasGoal:
		c.To, c.IsAsynchronous, c.Origin = nil, false, Origin{}
	case !hadGoal && visit != nil:
		to := c.Settings.with(visit.Update)
		c.To, c.IsAsynchronous, c.Origin = &to, allowed == osb.AllowedAsync, visit.Origin
	}
	c.Holding = holding
	return &c
}

// change is what is kept of the updates of an instance, or what stands for that until the first Update is judged: the
// settings of its Provision.
//
// Errors: what is stored of the Provision can't be read.
func (e *Entry) change(key Key) (Change, error) {
	if e.Change != nil {
		return *e.Change, nil
	}
	held, request, err := e.provisioned(key)
	if err != nil {
		return Change{}, err
	}
	settings := Settings{PlanID: request.PlanID, Parameters: request.Member("parameters"), Version: request.Version()}
	return Change{Holding: osb.NewUpdateHolding(held), Settings: settings}, nil
}

// provisioned are the settings of the row's Provision, and what is stored of it.
//
// Errors: as change.
func (e *Entry) provisioned(key Key) (settings osb.Settings, request Request, err error) {
	row, _ := e.Holding.Row()
	if request, err = requestOf(key, row, e.Request); err != nil {
		return settings, request, err
	}
	settings = osb.Settings{Plan: row.Plan, Parameters: e.Holding.Attributes()}
	settings.Version, err = versionDigest(request.Version())
	return settings, request, err
}

// versionDigest is osb.VersionDigest. For none it calls nothing.
func versionDigest(version string) (osb.Digest, error) {
	if version == "" {
		return osb.Digest{}, nil
	}
	return osb.VersionDigest(version)
}

const maintenanceMember = "maintenance_info"

// Version is the version that maintenance_info names in the body, or empty. A body without that name and without an
// escape has no such member.
func (r Request) Version() (version string) {
	if !bytes.Contains(r.Body, []byte(maintenanceMember)) && !bytes.ContainsRune(r.Body, '\\') {
		return ""
	}
	if text, err := osb.MemberText(r.Member(maintenanceMember), "version"); err == nil {
		_ = json.Unmarshal(text, &version) // of another form than the standard's, it names no version
	}
	return version
}

// readingOf is what the driver of an instance reads of its row: row has all but what is kept of its updates. Until the
// first Update is judged, the holding of updates is one whose settings are nobody's: only a Provision and an Update ask
// for them.
func readingOf(row osb.Reading, entry *Entry) osb.UpdateReading {
	reading := osb.UpdateReading{Reading: row}
	if entry.Change != nil {
		reading.Change, reading.UpdateMode = entry.Change.Holding, entry.Change.mode()
	}
	return reading
}

// beginUpdate has the driver of an Update read its row.
func (s *Service) beginUpdate(d driver, row osb.Reading, snapshot *Snapshot, visit *Visit) (transaction, error) {
	change, err := snapshot.change(visit.Key)
	if err != nil {
		return transaction{}, err
	}
	reading := readingOf(row, &snapshot.Entry)
	reading.Change, reading.IsUpdate, reading.Update = change.Holding, true, visit.Update.Update
	if reading.Allowed, err = s.allowed(change.Holding.Settings(), visit.Update); err != nil {
		return transaction{}, err
	}
	it, err := d.readInstance(reading)
	it.change, it.allowed = change, reading.Allowed
	return it, err
}

// allowed is what the catalogue and the backend have for an Update of an instance with these settings.
func (s *Service) allowed(held osb.Settings, update *AskedUpdate) (osb.Allowed, error) {
	if !s.worker.can.Updates {
		return osb.AllowedRejected422, nil
	}
	return s.catalogue.allowed(update, held.Plan, held.With(update.Change).Plan)
}

// mayUpdate reports whether an Update may do work before it is answered. One that names no plan may, since nobody has
// looked yet which plan the instance has.
func (s *Service) mayUpdate(update *AskedUpdate) bool {
	return !update.Change.HasPlan ||
		s.catalogue.updateMode(planIDs{update.Service, update.Change.Plan}) == osb.ModeSync
}

// beginProvision has the driver of a Provision read its row. If nothing is kept of updates, nothing differs from an
// instance that can't be updated: the settings of the row stand for those that this one asks for, and the table of the
// instance compares.
func (s *Service) beginProvision(d driver, row osb.Reading, snapshot *Snapshot, visit *Visit) (t transaction, err error) {
	reading := readingOf(row, &snapshot.Entry)
	reading.Parameters = visit.Attributes
	if snapshot.Change == nil {
		reading.Change = osb.NewUpdateHolding(osb.Settings{Plan: row.Request.Plan, Parameters: visit.Attributes})
		return d.readInstance(reading)
	}
	request := visit.Creation
	if request == nil {
		read, err := requestOf(visit.Key, osb.BrokerRow{}, visit.Request)
		if err != nil {
			return t, err
		}
		request = &read
	}
	if reading.Version, err = versionDigest(request.Version()); err != nil {
		return t, err
	}
	return d.readInstance(asFirst(reading))
}

// asFirst is what the driver of a Provision reads once an Update was judged. The settings that the Provision asks for
// are compared with those that the instance has now. All else is compared as if the Provision named the first settings
// of the instance, which its table has seen: so the plan that the instance has now goes by the name of its first plan.
func asFirst(reading osb.UpdateReading) osb.UpdateReading {
	row, _ := reading.Holding.Row()
	reading.Attributes = reading.Holding.Attributes()
	if reading.Request.Service == row.Service && reading.Request.Plan == reading.Change.Settings().Plan {
		reading.Request.Plan, reading.Mode = row.Plan, reading.RowMode
		reading.Change = reading.Change.WithPlan(row.Plan)
	}
	return reading
}

// asked is what a request asks. Once an Update of the instance was judged, any plan of its service stands for the plan
// with which the instance was created, and for that of the binding: a platform may name the plan of before, or of after.
// A new binding has to name the plan that the instance has now.
func (s *Service) asked(visit *Visit, snapshot *Snapshot) osb.Asked {
	asked, instance := visit.Asked, snapshot.Entry
	if visit.Key.IsBinding {
		instance = snapshot.Instance
	}
	row, isHeld := instance.Holding.Row()
	if instance.Change == nil || !isHeld || !asked.HasPlan || asked.Service != row.Service ||
		s.catalogue.mode(false, planIDs{asked.Service, asked.Plan}) == osb.ModeNone {
		return asked
	}
	switch {
	case !visit.Key.IsBinding && asked.Kind == osb.KindProvision:
	case !visit.Key.IsBinding:
		asked.Plan = row.Plan
	case snapshot.Holding.IsHeld():
		asked.Plan = rowOf(snapshot.Holding).Plan
	case asked.Plan == instance.Change.Holding.Settings().Plan:
		asked.Plan = row.Plan
	}
	return asked
}

// isBindable reports whether a binding of an instance may begin now that names this plan: no update of the instance is
// under way, and the instance has the plan.
func (e *Entry) isBindable(plan osb.ID) bool {
	return e.Change == nil || !e.Change.isUnderWay() && e.Change.Holding.Settings().Plan == plan
}

// fetchInstance answers the Fetch of an instance by what is stored (section Fetching a Service Instance).
func (s *Service) fetchInstance(visit *Visit, snapshot *Snapshot) (Response, error) {
	row, _ := snapshot.Holding.Row()
	if !s.catalogue.fetchable[row.Service] { // which the service of no row isn't either
		return Response{Answer: osb.Answer{Status: http.StatusNotFound, Body: osb.BodyOtherError}}, nil
	}
	asked := visit.Asked
	if asked.HasService && asked.Service != row.Service || asked.HasPlan &&
		s.catalogue.mode(false, planIDs{row.Service, asked.Plan}) == osb.ModeNone {
		return Response{Answer: osb.Answer{Status: http.StatusBadRequest, Body: osb.BodyOtherError}}, nil
	}
	change, err := snapshot.change(visit.Key)
	if err != nil {
		return Response{}, err
	}
	found, err := change.Holding.Fetch(snapshot.Holding)
	if err != nil || !found.IsFound {
		return Response{Answer: found.Answer}, err
	}
	request, err := requestOf(visit.Key, row, snapshot.Request)
	if err != nil {
		return Response{}, err
	}
	texts := request.fetched(change.Settings, found.Number)
	if s.worker.can.SecretParameters {
		texts.Parameters = nil
	}
	body, err := osb.WriteFetchedInstance(texts)
	return Response{Answer: osb.Answer{Status: http.StatusOK, Body: osb.BodyEmpty}, Instance: body}, err
}

// url is the URL of the dashboard, or nil if there is none.
func (d *Details) url() *string {
	if d.DashboardURL == "" {
		return nil
	}
	return &d.DashboardURL
}

// check returns an error if the details can't be sent. null stands for no metadata.
func (d *Details) check() error {
	if bytes.Equal(bytes.TrimSpace(d.Metadata), []byte("null")) {
		d.Metadata = nil
	}
	if d.Metadata != nil {
		if err := anObject(d.Metadata); err != nil {
			return fmt.Errorf("the metadata %w", err)
		}
	}
	if _, err := osb.WriteSuccess(http.StatusOK, nil, d.url(), d.Metadata); err != nil {
		return fmt.Errorf("the details can't be sent: %w", err)
	}
	return nil
}

// noteDetails writes down what the backend says of the instance.
func (e *Entry) noteDetails(key Key, details *Details) error {
	row, _ := e.Holding.Row()
	request, err := requestOf(key, row, e.Request)
	if err != nil {
		return err
	}
	request.Details = details
	e.Request, err = request.text()
	return err
}

// withDetails is an answer of success about an instance, with what the backend has said of the instance.
func (e *Entry) withDetails(key Key, response Response) (Response, error) {
	if key.IsBinding || response.Body != osb.BodyEmpty || !bytes.Contains(e.Request, []byte(`"details":`)) {
		return response, nil
	}
	row, _ := e.Holding.Row()
	if row.Phase == osb.PhaseDeleting {
		return response, nil // of a deletion nothing is said but its operation
	}
	request, err := requestOf(key, row, e.Request)
	response.Details = request.Details
	return response, err
}

// fetched is what the answer to a Fetch says of an instance with these settings. Without parameters a platform takes no
// settings from the answer, so an instance that has none has {}.
func (r Request) fetched(settings Settings, number uint64) osb.InstanceTexts {
	it := osb.InstanceTexts{
		Service: r.ServiceID, Plan: settings.PlanID, Parameters: settings.Parameters, Number: number,
	}
	if r.Details != nil {
		it.DashboardURL, it.Metadata = r.Details.url(), r.Details.Metadata
	}
	if it.Parameters == nil {
		it.Parameters = json.RawMessage("{}")
	}
	if settings.Version != "" {
		it.Version = &settings.Version
	}
	return it
}
