package broker

import (
	"context"
	"encoding/json"
	"errors"

	"pippinterm/osb"
)

// There is what exists of an instance or of a binding.
type There = osb.There

// What may exist.
const (
	None  = osb.ThereAbsent // nothing
	Part  = osb.TherePart   // something that can't be used: a creation or a deletion was broken off
	Whole = osb.ThereWhole  // all of it, ready for use
)

// A Backend creates and deletes what is sold. At most one call of a key runs at a time. Calls of different keys run side
// by side, each in a goroutine of its own. Each call may be repeated after a crash, so it begins with what exists. What
// counts is what Look finds afterwards: an error says only why.
//
// The context isn't cancelled if the platform goes away.
type Backend interface {
	// Look returns what exists. If it fails, nobody knows, and it is called again later.
	Look(ctx context.Context, request Request) (There, error)

	// Create creates all of it, if nothing exists, or a part. Once it returns nil, that outlives a power cut. An error
	// may be a *Rejection.
	Create(ctx context.Context, request Request) error

	// Delete deletes all of it, or a part. Once it returns nil, that outlives a power cut.
	Delete(ctx context.Context, request Request) error
}

// A BindingBackend is a Backend whose instances can be bound. What it creates for a binding is the binding's own, for
// example a role with a password: the work of one binding leaves the instance and its other bindings alone.
type BindingBackend interface {
	Backend

	// LookBinding returns what exists of a binding, as Look does.
	LookBinding(ctx context.Context, request Request) (There, error)

	// CreateBinding creates a binding as Create does, and returns its credentials, which are JSON. They are stored in
	// the transaction that ends the work, and no other call asks for them.
	CreateBinding(ctx context.Context, request Request) (credentials json.RawMessage, err error)

	// DeleteBinding deletes a binding as Delete does.
	DeleteBinding(ctx context.Context, request Request) error
}

// A CredentialsBackend can tell the credentials of a binding that exists, because it derives or stores them. Without it,
// or if Credentials fails, a binding that was created by work that was broken off is deleted and created again: nobody
// knows its credentials.
type CredentialsBackend interface {
	Credentials(ctx context.Context, request Request) (json.RawMessage, error)
}

// A SyncBackend returns from Sync once what Look or LookBinding says would outlive a power cut. It is called if the work
// was done by another, or by a call that failed. For any other backend all files of the machine are written to disk
// then.
type SyncBackend interface {
	Sync(ctx context.Context, request Request) error
}

// An UpdateBackend is a Backend that can update its instances. An update neither creates nor deletes an instance, and
// leaves the credentials of its bindings valid. What counts is what LookUpdate finds afterwards.
type UpdateBackend interface {
	Backend

	// LookUpdate returns how much of an update is done: None if the instance is complete and has the settings of before
	// (Update.From), Whole if it is complete and has the new ones (Update.To), and Part for anything else. If both have
	// the same effect, it returns Whole.
	LookUpdate(ctx context.Context, update Update) (There, error)

	// Update changes the instance to the new settings, whatever settings it has: an earlier update may have failed, or
	// was broken off. Once it returns nil, that outlives a power cut. An error may be a *Rejection, if nothing was
	// changed, or else say by WithOutlook what can be expected. An update that can't be done is undone as far as possible.
	Update(ctx context.Context, update Update) error
}

// Details are what answers say of an instance besides its settings (sections Provisioning, Updating a Service Instance
// and Fetching a Service Instance).
type Details struct {
	// DashboardURL is where a user manages the instance, or empty.
	DashboardURL string `json:"dashboard_url,omitempty"`
	// Metadata is an object of JSON with labels and attributes, or nil.
	Metadata json.RawMessage `json:"metadata,omitempty"`
}

// A DetailsBackend describes its instances. Details is called once an instance was created or updated, and may be called
// again after a crash. What it returns is stored and sent. If it fails, the instance has the details that it had.
type DetailsBackend interface {
	Details(ctx context.Context, request Request) (Details, error)
}

// Abilities are what a backend can do besides what each can.
type Abilities struct {
	Bindings bool // as a BindingBackend
	Updates  bool // as an UpdateBackend
	Details  bool // as a DetailsBackend
	// SecretParameters says that the parameters of instances have secrets: the Fetch of an instance is answered without
	// them.
	SecretParameters bool
}

// A LimitedBackend may have the methods of UpdateBackend and of DetailsBackend without the ability. Its Abilities say
// what counts.
type LimitedBackend interface {
	Abilities() Abilities
}

// AbilitiesOf are those of a backend.
func AbilitiesOf(backend Backend) (can Abilities) {
	if limited, isLimited := backend.(LimitedBackend); isLimited {
		return limited.Abilities()
	}
	_, can.Bindings = backend.(BindingBackend)
	_, can.Updates = backend.(UpdateBackend)
	_, can.Details = backend.(DetailsBackend)
	return can
}

// A LockBackend brings its own Locks. It needs them if its work outlives the process, or is done on several machines.
type LockBackend interface {
	Locks() Locks
}

// A Rejection says that the backend refuses a creation, and that nothing of it exists, or an update, and that nothing
// was changed. The platform gets that answer, and doesn't clean up.
type Rejection struct {
	// Status is 400 or 422. Any other number counts as 400.
	Status int
	// Code is a code for programs, such as QuotaExceeded, or empty. AsyncRequired and ConcurrencyError are the
	// standard's, and aren't sent (section Service Broker Errors).
	Code string
	// Description is for a person. Of one with more than 1,000 characters the first 1,000 are sent.
	Description string
}

// Error is the description.
func (r *Rejection) Error() string { return "rejected: " + r.Description }

// Public marks an error whose description the platform gets. The text of any other error goes to the log alone.
func Public(err error, description string) error {
	return &publicError{error: err, description: description}
}

type publicError struct {
	error
	description string
}

func (p *publicError) Unwrap() error { return p.error }

// An Outlook says what a platform can expect of an instance whose update has failed (section Service Broker Errors).
// What is nil isn't known.
type Outlook struct {
	// InstanceUsable is whether the instance can still be used.
	InstanceUsable *bool `json:"instance_usable,omitempty"`
	// UpdateRepeatable is whether the same Update may succeed if it is sent again.
	UpdateRepeatable *bool `json:"update_repeatable,omitempty"`
}

// WithOutlook marks an error of an update with what can be expected then. The platform gets that in the answer to the
// Update, or to a Poll, if the update has failed. What becomes of the instance doesn't depend on it.
func WithOutlook(err error, outlook Outlook) error { return &failedUpdate{err, outlook} }

// Unharmed is the Outlook of an update that has failed and left the instance as useful as it was: the same Update may
// be sent again.
func Unharmed() Outlook {
	yes := true
	return Outlook{InstanceUsable: &yes, UpdateRepeatable: &yes}
}

type failedUpdate struct {
	error
	outlook Outlook
}

func (f *failedUpdate) Unwrap() error { return f.error }

// OutlookOf is what can be expected after an error of an update, or nil if the error doesn't say.
func OutlookOf(err error) *Outlook {
	var failed *failedUpdate
	if !errors.As(err, &failed) || failed.outlook == (Outlook{}) {
		return nil
	}
	return &failed.outlook
}

// Description is what the platform gets to read of an error: the description of a *Rejection or of Public, and otherwise
// empty.
func Description(err error) string {
	var rejected *Rejection
	if errors.As(err, &rejected) {
		return rejected.Description
	}
	var public *publicError
	if errors.As(err, &public) {
		return public.description
	}
	return ""
}
