package broker

import (
	"context"
	"encoding/json"
	"errors"
	"fmt"
	"net/http"
	"runtime/debug"
	"syscall"

	"pippinterm/internal/crash"
	"pippinterm/osb"
)

// A worker makes the calls of the backend for one key, under its lock. A driver of the library says which call comes next,
// and how the work went: by what exists in the end, and by nothing else.
type worker struct {
	backend  Backend
	can      Abilities
	observer Observer
}

// A result is how work went.
type result struct {
	isDone      bool            // whether what was asked for is the case
	binding     json.RawMessage // of a binding that exists: its object with its credentials
	details     *Details        // of an instance that was created or updated, or nil
	description string          // why it failed, for the platform
	rejected    *Rejection      // why a creation or an update was refused
	isUpdate    bool            // whether it was the work of an update
	outlook     *Outlook        // what can be expected of an update that has failed, or nil
}

// errPart reports that work can't go on.
var errPart = errors.New("a part exists, and can't be deleted")

// callsOf returns the calls of the work that a driver does.
func (s *Service) callsOf(d driver, c *course) (*calls, error) {
	if c.calls != nil {
		return c.calls, nil
	}
	request, err := c.requestOfWork()
	if err != nil {
		return nil, err
	}
	var update *Update
	if d.IsUpdate() {
		if update, err = c.updateOfWork(request); err != nil {
			return nil, err
		}
	}
	point := "operation"
	if d.IsPending() {
		point = "work"
	}
	crash.At(point + "-next")
	c.calls = &calls{worker: s.worker, request: request, update: update, isCreation: d.Creates(), point: point}
	c.calls.before, c.calls.to = d.settings()
	return c.calls, nil
}

// conclude returns the result of work after which it is known what exists: isDone is whether that is what was asked for.
func (c *calls) conclude(ctx context.Context, isDone bool) result {
	what, exists, failed := "delete", "it still exists", c.failed
	switch {
	case c.update != nil:
		what, exists = "update", "it hasn't the new settings"
	case c.isCreation:
		what, exists = "create", "not all of it exists"
	}
	if !isDone && failed == nil {
		failed = fmt.Errorf("the backend returned no error, but Look reports that %s", exists)
	}
	isRejection := !isDone && c.rejected != nil && c.found == None
	event := "backend_failed_to_" + what
	if isRejection {
		event = "backend_rejected"
	}
	c.report(Failure{Event: "credentials_useless", Err: c.useless})
	c.report(Failure{Event: event, Err: failed, IsRejection: isRejection})
	done := result{isDone: true, binding: c.binding, details: c.details(ctx, isDone)}
	if !isDone {
		done = result{description: Description(failed)}
	}
	switch done.isUpdate = c.update != nil; {
	case isRejection:
		done.rejected = c.rejected
	case done.isUpdate && !isDone:
		done.outlook = OutlookOf(failed)
	}
	point := c.point
	crash.At(point + "-done")
	return done
}

// details are what the backend says of an instance that was created or updated, or nil.
func (c *calls) details(ctx context.Context, isDone bool) *Details {
	backend, describes := c.backend.(DetailsBackend)
	if !describes || !c.can.Details || !isDone || c.request.Key.IsBinding || !c.isCreation && c.update == nil {
		return nil
	}
	var found Details
	err := c.call("details", func() (err error) {
		if found, err = backend.Details(ctx, c.request); err == nil {
			err = found.check()
		}
		return err
	})
	if err != nil {
		c.report(Failure{Event: "details_unknown", Err: err})
		return nil
	}
	return &found
}

// report has a failure of the work reported, if there is one.
func (c *calls) report(it Failure) {
	if it.Err != nil {
		it.RequestID, it.Key, it.IsNamed = c.requestID(), c.request.Key, true
		c.observer.OnFailure(it)
	}
}

// unknownOutcome is the error of work of which nobody knows how it went: err says why it can't be known.
func (c *calls) unknownOutcome(err error) error {
	if failed := either(c.failed, c.useless); failed != nil {
		return fmt.Errorf("%w: %v: %v", ErrNobodyKnows, err, failed)
	}
	return fmt.Errorf("%w: %v", ErrNobodyKnows, err)
}

func either(first, second error) error {
	if first != nil {
		return first
	}
	return second
}

// safely makes an error of a panic.
func safely(call func() error) (err error) {
	defer func() {
		if what := recover(); what != nil {
			err = fmt.Errorf("panic: %v\n%s", what, debug.Stack())
		}
	}()
	return call()
}

// sync writes to disk what the backend did, if another did it, or a call that failed.
func (w worker) sync(ctx context.Context, request Request) error {
	if backend, ok := w.backend.(SyncBackend); ok {
		return safely(func() error { return backend.Sync(ctx, request) })
	}
	syscall.Sync()
	return nil
}

// calls are the backend's calls for one request: those of an instance, those of its update, or those of a binding.
type calls struct {
	worker
	request    Request
	update     *Update         // nil of a creation or a deletion
	before, to osb.Settings    // of an update: those of From and To
	isCreation bool            // whether the credentials of a binding count
	point      string          // how the names of the crash points begin
	found      There           // by the last look: what exists, or how much of the update is done
	failed     error           // how a call has failed first that creates, deletes or updates, or nil
	rejected   *Rejection      // with which the backend has refused the creation or the update, or nil
	binding    json.RawMessage // the object of the binding, once its credentials are known
	isUnusable bool            // whether the last look found all of the binding, whose credentials nobody knows
	useless    error           // why the credentials of a binding that existed couldn't be read or sent, or nil
}

// requestID is the id of the request that began the work, or empty if it isn't known.
func (c *calls) requestID() string {
	switch {
	case c.update != nil:
		return c.update.Origin.RequestID
	case c.isCreation:
		return c.request.RequestID
	case c.request.Deletion != nil:
		return c.request.Deletion.RequestID
	}
	return ""
}

// bindings is the backend, if it sells bindings.
func (c *calls) bindings() (BindingBackend, error) {
	if backend, ok := c.backend.(BindingBackend); ok {
		return backend, nil
	}
	return nil, errors.New("the backend sells no bindings")
}

// call does a call of the backend. The observer gets its failure.
func (c *calls) call(name string, do func() error) error {
	err := safely(do)
	var rejected *Rejection
	if err != nil && !errors.As(err, &rejected) {
		c.observer.OnCallFailure(name)
	}
	return err
}

// look returns what exists, and of an update which settings the instance has.
func (c *calls) look(ctx context.Context) (there There, settings osb.Settings, err error) {
	if c.update == nil {
		there, err = c.lookWhether(ctx)
		c.found = there
		return there, settings, err
	}
	there, err = c.lookUpdate(ctx)
	switch c.found = there; there {
	case None:
		there, settings = Whole, c.before
	case Whole:
		settings = c.to
	}
	return there, settings, err
}

// updates is the backend, if it updates instances.
func (c *calls) updates() (UpdateBackend, error) {
	if backend, ok := c.backend.(UpdateBackend); ok {
		return backend, nil
	}
	return nil, errors.New("the backend updates no instances")
}

// lookUpdate returns how much of the update is done.
func (c *calls) lookUpdate(ctx context.Context) (done There, err error) {
	err = c.call("look-update", func() error {
		backend, err := c.updates()
		if err == nil {
			done, err = backend.LookUpdate(ctx, *c.update)
		}
		return err
	})
	return done, err
}

// change does the update, and returns with which status the backend has rejected that, or 0.
func (c *calls) change(ctx context.Context) (ok bool, rejection uint16) {
	err := c.try(ctx, func(ctx context.Context) error {
		return c.call("update", func() error {
			backend, err := c.updates()
			if err == nil {
				err = backend.Update(ctx, *c.update)
			}
			return err
		})
	})
	return err == nil, c.rejection(err)
}

// lookWhether returns what exists. To a creation, a binding whose credentials nobody knows is a part.
func (c *calls) lookWhether(ctx context.Context) (there There, err error) {
	c.isUnusable = false
	if c.request.Key.IsBinding {
		there, err = c.lookBinding(ctx)
	} else {
		err = c.call("look", func() (err error) {
			there, err = c.backend.Look(ctx, c.request)
			return err
		})
	}
	if err != nil || there != Whole || !c.request.Key.IsBinding || !c.isCreation {
		return there, err
	}
	if there, err = c.withCredentials(ctx); err == nil {
		c.isUnusable = there == Part
	}
	return there, err
}

// lookBinding returns what exists of the binding, whoever knows its credentials.
func (c *calls) lookBinding(ctx context.Context) (there There, err error) {
	backend, err := c.bindings()
	if err != nil {
		return None, err
	}
	err = c.call("look-binding", func() (err error) {
		there, err = backend.LookBinding(ctx, c.request)
		return err
	})
	return there, err
}

// withCredentials is what exists of a binding of which all exists: a part, if nobody knows its credentials. A binding
// that is being created hasn't been reported to anybody. So if its credentials can't be read or sent, whatever the
// reason, it can be deleted and created again.
//
// Errors: if the broker stops. Nobody knows then whether the credentials can be read.
func (c *calls) withCredentials(ctx context.Context) (There, error) {
	if c.binding != nil {
		return Whole, nil
	}
	backend, ok := c.backend.(CredentialsBackend)
	if !ok {
		return Part, nil
	}
	var credentials json.RawMessage
	err := c.call("credentials", func() (err error) {
		credentials, err = backend.Credentials(ctx, c.request)
		return err
	})
	if err != nil && ctx.Err() != nil {
		return Whole, err
	}
	if err == nil {
		err = c.keep(credentials)
	}
	if err != nil {
		c.useless = err
		return Part, nil
	}
	return Whole, nil
}

// keep makes the object of the binding from its credentials.
func (c *calls) keep(credentials json.RawMessage) error {
	object, err := BindingObject(credentials)
	if err == nil {
		c.binding = object
	}
	return err
}

// BindingObject returns the object of a binding with these credentials, as a Bind and a Fetch are answered (sections
// Binding and Fetching a Service Binding).
//
// Errors: if the credentials aren't JSON, or can't be sent (osb.CheckBinding).
func BindingObject(credentials json.RawMessage) (json.RawMessage, error) {
	object, err := json.Marshal(struct {
		Credentials json.RawMessage `json:"credentials"`
	}{credentials})
	if err != nil {
		return nil, fmt.Errorf("the credentials aren't JSON: %w", err)
	}
	if err := osb.CheckBinding(object); err != nil {
		return nil, fmt.Errorf("the credentials can't be sent: %w", err)
	}
	return object, nil
}

// settle writes what exists to disk.
func (c *calls) settle(ctx context.Context) error {
	return c.call("sync", func() error { return c.sync(ctx, c.request) })
}

// try makes a call that creates, deletes or updates.
func (c *calls) try(ctx context.Context, call func(context.Context) error) error {
	crash.Soon("work-running")
	err := call(ctx)
	c.failed = either(c.failed, err)
	return err
}

// create creates what the request asks for, and returns with which status the backend has rejected that, or 0.
func (c *calls) create(ctx context.Context) (ok bool, rejection uint16) {
	err := c.try(ctx, c.createWhole)
	return err == nil, c.rejection(err)
}

// rejection is the status with which the backend has rejected what a call asked for that has ended so, or 0.
func (c *calls) rejection(err error) uint16 {
	switch {
	case !errors.As(err, &c.rejected):
		return 0
	case c.rejected.Status == http.StatusUnprocessableEntity:
		return http.StatusUnprocessableEntity
	}
	return http.StatusBadRequest
}

// delete deletes what exists. A deletion can't be rejected.
func (c *calls) delete(ctx context.Context) (ok bool, rejection uint16) {
	return c.try(ctx, c.deleteAny) == nil, 0
}

// createWhole creates it, by what the last look found. A binding that exists and whose credentials nobody knows is
// deleted first. Nobody else works on the key, so the backend isn't asked again whether that binding exists.
func (c *calls) createWhole(ctx context.Context) error {
	if !c.request.Key.IsBinding {
		return c.call("create", func() error { return c.backend.Create(ctx, c.request) })
	}
	backend, err := c.bindings()
	if err != nil {
		return err
	}
	if c.isUnusable {
		if err := c.deleteBinding(ctx, backend); err != nil {
			return err
		}
	}
	return c.call("create-binding", func() error {
		credentials, err := backend.CreateBinding(ctx, c.request)
		if err != nil {
			return err
		}
		return c.keep(credentials)
	})
}

func (c *calls) deleteAny(ctx context.Context) error {
	c.binding = nil
	if !c.request.Key.IsBinding {
		return c.call("delete", func() error { return c.backend.Delete(ctx, c.request) })
	}
	backend, err := c.bindings()
	if err != nil {
		return err
	}
	return c.deleteBinding(ctx, backend)
}

func (c *calls) deleteBinding(ctx context.Context, backend BindingBackend) error {
	return c.call("delete-binding", func() error { return backend.DeleteBinding(ctx, c.request) })
}
