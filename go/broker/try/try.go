// Package try tests a broker.Backend without a broker and without a store. For an author of a backend, it makes the
// calls that a broker makes for two instances and their bindings, and checks what exists after each of them:
//
//   - A creation leaves all of a resource, and can be repeated.
//   - A deletion leaves nothing of a resource, and can be repeated.
//   - The work of one instance or binding leaves all others alone.
//   - If the backend reports credentials later, they are those of the creation.
//   - An update leaves the new settings, can be repeated after it was broken off, and leaves the bindings valid.
//
// What else a crash leaves and what happens to calls that run at the same time isn't tested. The order of the calls is
// this project's choice.
package try

import (
	"context"
	"crypto/rand"
	"encoding/json"
	"errors"
	"fmt"
	"strings"
	"time"

	"pippinterm/broker"
	"pippinterm/osb"
)

// DefaultLockWait is how long a call waits for its lock if Options don't say.
const DefaultLockWait = 5 * time.Second

// Options are those of Run.
type Options struct {
	// Plan is the plan of both instances. Bindings are tried if it is bindable, and the backend supports bindings.
	Plan Plan
	// Parameters are those of each Provision: an object of JSON, or empty for none.
	Parameters json.RawMessage
	// UpdateTo is the plan to which the first instance is updated, and back, or nil for the same plan. UpdateParameters
	// are the parameters that it has then, or empty for the same. If the backend can't update, or if both are missing,
	// no update is tried.
	UpdateTo         *Plan
	UpdateParameters json.RawMessage
	// LockWait is how long a call waits for the lock of its instance or binding. Zero stands for DefaultLockWait.
	LockWait time.Duration
	// CleanUp is how long the deletions may take after the context of Run is done.
	CleanUp time.Duration
	// Report is called with each call, in their order.
	Report func(Call)
}

// A Call is a call of the backend with its result.
type Call struct {
	// Name is the call and for what it is made, such as "look instance 1" or "create-binding 2".
	Name string
	// Found is what the call has found, such as "whole", or empty. It has no secrets.
	Found string
	// Err is nil if the result is what it has to be.
	Err error
}

// A Result is what Run has found.
type Result struct {
	OK, Failed int      // numbers of calls
	IsStopped  bool     // whether the context was done before all calls were made
	IDs        []string // each instance and binding with its ids, such as "instance 1: ID"
	Left       []string // those that couldn't be deleted, likewise
}

// Run tries a backend, and deletes what it has created. If a call fails, Run goes on with the calls that don't need it.
// If ctx is done, the call that runs is broken off and isn't reported. Then Run only deletes what may exist.
//
// Errors: if the parameters aren't JSON, and if there are no random bytes. Nothing was called then.
func Run(ctx context.Context, backend broker.Backend, locks broker.Locks, options Options) (Result, error) {
	t, err := newTrial(backend, locks, options)
	if err != nil {
		return Result{}, err
	}
	t.capabilities()
	t.run(ctx)
	if ctx.Err() != nil {
		t.result.IsStopped = true
		t.cleanUp()
	}
	for _, resource := range t.resources() {
		t.result.IDs = append(t.result.IDs, label(resource))
		if resource.mayExist {
			t.result.Left = append(t.result.Left, label(resource))
		}
	}
	return t.result, nil
}

// label returns a resource with its ids.
func label(r *resource) string { return fmt.Sprintf("%v: %v", r, r.request.Key) }

// A trial is a run.
type trial struct {
	calls     calls
	options   Options
	result    Result
	instances [2]*resource
	bindings  []*resource // two of the first instance, and one of the second that has the id of the first. Or none
}

func newTrial(backend broker.Backend, locks broker.Locks, options Options) (*trial, error) {
	if options.LockWait == 0 {
		options.LockWait = DefaultLockWait
	}
	t := &trial{options: options, calls: calls{backend: backend, locks: locks, lockWait: options.LockWait}}
	for at := range t.instances {
		request, err := instanceRequest(options.Plan, options.Parameters)
		if err != nil {
			return nil, err
		}
		t.instances[at] = &resource{label: fmt.Sprint(at + 1), request: request}
	}
	var isSupported bool
	if t.calls.bindings, isSupported = backend.(broker.BindingBackend); !isSupported || !options.Plan.IsBindable {
		return t, nil
	}
	return t, t.addBindings()
}

// addBindings makes up the bindings. The id of a binding is unique only within its instance.
func (t *trial) addBindings() error {
	first, err := newID()
	if err != nil {
		return err
	}
	second, err := newID()
	if err != nil {
		return err
	}
	one, two := t.instances[0].request.Key.Instance, t.instances[1].request.Key.Instance
	for _, test := range []struct {
		label string
		key   broker.Key
	}{
		{"1", osb.BindingKey(one, first)},
		{"2", osb.BindingKey(one, second)},
		{"1 of instance 2", osb.BindingKey(two, first)},
	} {
		request, err := bindingRequest(t.options.Plan, test.key.Instance, test.key.Binding)
		if err != nil {
			return err
		}
		t.bindings = append(t.bindings, &resource{label: test.label, request: request})
	}
	return nil
}

// resources returns all of them in the order in which they are created.
func (t *trial) resources() []*resource { return append(t.instances[:2:2], t.bindings...) }

// capabilities reports what the backend supports.
func (t *trial) capabilities() {
	found, remarks := "neither bindings nor credentials", ""
	if t.calls.bindings != nil {
		found = "bindings"
		if _, hasCredentials := t.calls.backend.(broker.CredentialsBackend); hasCredentials {
			found += ", credentials"
		}
		if !t.options.Plan.IsBindable {
			remarks += ". The plan isn't bindable, so no bindings are tried"
		}
	}
	if broker.AbilitiesOf(t.calls.backend).Updates {
		found += ", updates"
		if _, areTried := t.updates(); !areTried {
			remarks += ". No updates are tried: the plan can't be changed, and no other parameters are given"
		}
	}
	t.count(Call{Name: "capabilities", Found: found + remarks})
}

// count reports a call, and returns whether it succeeded.
func (t *trial) count(call Call) bool {
	if call.Err == nil {
		t.result.OK++
	} else {
		t.result.Failed++
	}
	t.options.Report(call)
	return call.Err == nil
}

// try makes a call, and returns whether it succeeded. A call that ctx has broken off isn't reported.
func (t *trial) try(ctx context.Context, name string, do func() (found string, err error)) bool {
	if ctx.Err() != nil {
		return false
	}
	found, err := do()
	if err != nil && ctx.Err() != nil {
		return false
	}
	if err != nil {
		err = withReason(err)
	}
	return t.count(Call{Name: name, Found: found, Err: err})
}

// withReason returns the error of a rejection as an error that says what the platform would get. Other errors stay as
// they are.
func withReason(err error) error {
	var rejected *broker.Rejection
	if !errors.As(err, &rejected) {
		return err
	}
	code := ""
	if rejected.Code != "" {
		code = " " + rejected.Code
	}
	return fmt.Errorf("rejected with %d%s: %s", rejected.Status, code, rejected.Description)
}

// run makes all calls.
func (t *trial) run(ctx context.Context) {
	first, second := t.instances[0], t.instances[1]
	for _, instance := range t.instances {
		if t.create(ctx, instance) {
			t.createAgain(ctx, instance)
		}
	}
	t.isUntouched(ctx, first)
	t.bind(ctx)
	t.update(ctx, first)
	t.unbind(ctx)
	t.delete(ctx, first)
	t.deleteAgain(ctx, first)
	t.isUntouched(ctx, second)
	t.delete(ctx, second)
}

// bind creates the bindings of the instances that were created. Then it looks at all of them, and compares their
// credentials.
func (t *trial) bind(ctx context.Context) {
	for _, binding := range t.bindings {
		if t.instanceOf(binding).isCreated {
			t.create(ctx, binding)
		}
	}
	for _, binding := range t.bindings {
		t.isUntouched(ctx, binding)
		t.compareCredentials(ctx, binding)
	}
}

// unbind deletes the bindings, one after the other. The instance and the bindings that are left stay as they are.
func (t *trial) unbind(ctx context.Context) {
	for at, binding := range t.bindings {
		t.delete(ctx, binding)
		if at == 0 {
			t.deleteAgain(ctx, binding)
			t.recreate(ctx, binding)
		}
		for _, other := range t.bindings[at+1:] {
			t.isUntouched(ctx, other)
		}
		t.isUntouched(ctx, t.instanceOf(binding))
	}
}

// instanceOf returns the instance of a binding.
func (t *trial) instanceOf(binding *resource) *resource {
	for _, instance := range t.instances {
		if instance.request.Key.Instance == binding.request.Key.Instance {
			return instance
		}
	}
	panic("a binding has no instance")
}

// look looks what exists, which has to be what is wanted.
func (t *trial) look(ctx context.Context, r *resource, wanted broker.There) bool {
	return t.try(ctx, r.callName("look"), func() (string, error) {
		found, err := t.calls.look(ctx, r)
		if err == nil && found != wanted {
			err = fmt.Errorf("%v, and not %v", wordOf(found), wordOf(wanted))
		}
		return wordOf(found), err
	})
}

// wordOf is the word with which a backend says what exists.
func wordOf(there broker.There) string {
	if there == broker.None {
		return "none"
	}
	return there.String()
}

// isUntouched looks whether all of a resource still exists, if it was created and not deleted.
func (t *trial) isUntouched(ctx context.Context, r *resource) {
	if r.mayExist && r.isCreated {
		t.look(ctx, r, broker.Whole)
	}
}

// create creates a resource, and returns whether the call succeeded.
func (t *trial) create(ctx context.Context, r *resource) bool {
	t.look(ctx, r, broker.None)
	isRejected := false
	r.isCreated = t.try(ctx, r.callName("create"), func() (found string, err error) {
		r.mayExist = true
		r.credentials, err = t.calls.create(ctx, r)
		var rejected *broker.Rejection
		isRejected = errors.As(err, &rejected)
		if err == nil && r.request.Key.IsBinding {
			found = "credentials: " + describe(r.credentials)
		}
		return found, err
	})
	switch {
	case r.isCreated:
		t.look(ctx, r, broker.Whole)
	case isRejected && t.look(ctx, r, broker.None):
		r.mayExist = false // a broker doesn't delete what was rejected
	}
	return r.isCreated
}

// createAgain creates an instance again with the same request, as a broker does after a crash.
func (t *trial) createAgain(ctx context.Context, r *resource) {
	t.try(ctx, r.callName("create")+" again", func() (string, error) {
		_, err := t.calls.create(ctx, r)
		return "", err
	})
	t.look(ctx, r, broker.Whole)
}

// compareCredentials compares the credentials of a binding with those that the backend reports later.
func (t *trial) compareCredentials(ctx context.Context, r *resource) {
	from, isSupported := t.calls.backend.(broker.CredentialsBackend)
	if !isSupported || !r.isCreated {
		return
	}
	t.try(ctx, "credentials of "+r.String(), func() (string, error) {
		later, err := t.calls.readCredentials(ctx, from, r)
		if err == nil {
			err = differ(r.credentials, later)
		}
		return "those of create-binding", err
	})
}

// delete deletes a resource that may exist.
func (t *trial) delete(ctx context.Context, r *resource) {
	if r.mayExist {
		t.remove(ctx, r, r.callName("delete"))
	}
}

// deleteAgain repeats a deletion, as a broker does after a crash.
func (t *trial) deleteAgain(ctx context.Context, r *resource) {
	if r.isCreated || r.mayExist {
		t.remove(ctx, r, r.callName("delete")+" again")
	}
}

// recreate creates a deleted binding once more, and deletes it. A broker does so if it was killed during the creation
// and doesn't get the credentials.
func (t *trial) recreate(ctx context.Context, r *resource) {
	if !r.isCreated || r.mayExist {
		return
	}
	isCreated := t.try(ctx, r.callName("create")+" after its deletion", func() (string, error) {
		r.mayExist = true
		credentials, err := t.calls.create(ctx, r)
		if err != nil {
			return "", err
		}
		return "credentials: " + describe(credentials), nil
	})
	if isCreated {
		t.look(ctx, r, broker.Whole)
	}
	if r.mayExist {
		t.remove(ctx, r, r.callName("delete")+" once more")
	}
}

func (t *trial) remove(ctx context.Context, r *resource, name string) {
	isDeleted := t.try(ctx, name, func() (string, error) { return "", t.calls.delete(ctx, r) })
	if t.look(ctx, r, broker.None) && isDeleted {
		r.mayExist = false
	}
}

// cleanUp deletes what may exist after the trial was stopped: bindings first.
func (t *trial) cleanUp() {
	ctx, cancel := context.WithTimeout(context.Background(), t.options.CleanUp)
	defer cancel()
	all := t.resources()
	for at := len(all) - 1; at >= 0; at-- {
		t.delete(ctx, all[at])
	}
}

// A Plan is a plan of a catalogue.
type Plan struct {
	ServiceID, ID string // as the catalogue has them
	Service, Name string // the names of the service and the plan
	IsBindable    bool
}

// String returns the names of the service and the plan.
func (p Plan) String() string { return fmt.Sprintf("plan %s of service %s", p.Name, p.Service) }

// Plans returns the plans of a catalogue's document, in its order.
//
// Errors: those of osb.BindingModes; if the document isn't JSON.
func Plans(document []byte) ([]Plan, error) {
	type offer struct {
		ID   string `json:"id"`
		Name string `json:"name"`
	}
	var read struct {
		Services []struct {
			offer
			Plans []offer `json:"plans"`
		} `json:"services"`
	}
	if err := json.Unmarshal(document, &read); err != nil {
		return nil, fmt.Errorf("the catalogue can't be read: %w", err)
	}
	bindable, err := bindablePlans(document)
	if err != nil {
		return nil, err
	}
	var plans []Plan
	for _, service := range read.Services {
		for _, plan := range service.Plans {
			found := Plan{ServiceID: service.ID, ID: plan.ID, Service: service.Name, Name: plan.Name}
			ids, err := numbersOf(service.ID, plan.ID)
			if err != nil {
				return nil, err
			}
			found.IsBindable = bindable[ids]
			plans = append(plans, found)
		}
	}
	return plans, nil
}

// numbers are those of a service's and a plan's id.
type numbers struct{ service, plan osb.ID }

func numbersOf(service, plan string) (of numbers, err error) {
	if of.service, err = osb.IDOfText(service); err == nil {
		of.plan, err = osb.IDOfText(plan)
	}
	return of, err
}

func bindablePlans(document []byte) (map[numbers]bool, error) {
	modes, err := osb.BindingModes(document)
	if err != nil {
		return nil, err
	}
	bindable := map[numbers]bool{}
	for _, mode := range modes {
		bindable[numbers{mode.Service, mode.Plan}] = true
	}
	return bindable, nil
}

// Choose returns the plan that has a text as its id, or else the one that has it as its name.
//
// Errors: if no plan has this id or name, and if several plans have this name.
func Choose(plans []Plan, nameOrID string) (Plan, error) {
	var named []Plan
	var all []string
	for _, plan := range plans {
		if plan.ID == nameOrID {
			return plan, nil
		}
		if plan.Name == nameOrID {
			named = append(named, plan)
		}
		all = append(all, plan.Name)
	}
	switch len(named) {
	case 0:
		return Plan{}, fmt.Errorf("no plan has the name or id %q. The plans are: %s", nameOrID, strings.Join(all, ", "))
	case 1:
		return named[0], nil
	}
	return Plan{}, errors.New("several plans have the name " + nameOrID + ". Give the id of one of them")
}

// newID returns a random id, a GUID in lower case of version 4.
func newID() (osb.ID, error) {
	var id osb.ID
	if _, err := rand.Read(id[:]); err != nil {
		return id, fmt.Errorf("no random bytes: %w", err)
	}
	id[6], id[8] = id[6]&0x0f|0x40, id[8]&0x3f|0x80
	return id, nil
}

// The organization and the space of each instance.
const organization, space = "osb-broker-try", "osb-broker-try"

// instanceRequest returns the request of the Provision of a new instance.
//
// Errors: if the parameters aren't JSON.
func instanceRequest(plan Plan, parameters json.RawMessage) (broker.Request, error) {
	body := map[string]any{
		"service_id": plan.ServiceID, "plan_id": plan.ID, "organization_guid": organization, "space_guid": space,
		"context": map[string]string{
			"platform": "osb-broker-try", "organization_guid": organization, "space_guid": space,
		},
	}
	if len(parameters) > 0 {
		body["parameters"] = parameters
	}
	instance, err := newID()
	if err != nil {
		return broker.Request{}, err
	}
	return requestOf(osb.InstanceKey(instance), plan, body)
}

// bindingRequest returns the request of the Bind of a new binding.
func bindingRequest(plan Plan, instance, binding osb.ID) (broker.Request, error) {
	body := map[string]any{"service_id": plan.ServiceID, "plan_id": plan.ID}
	return requestOf(osb.BindingKey(instance, binding), plan, body)
}

func requestOf(key broker.Key, plan Plan, body map[string]any) (request broker.Request, err error) {
	request = broker.Request{
		Key: key, InstanceID: key.Instance.String(), ServiceID: plan.ServiceID, PlanID: plan.ID,
	}
	if key.IsBinding {
		request.BindingID = key.Binding.String()
	}
	if request.Body, err = json.Marshal(body); err != nil {
		return request, fmt.Errorf("the body of the request can't be written: %w", err)
	}
	id, err := newID()
	request.RequestID = id.String()
	return request, err
}

// forDeletion returns the request as it stands once its Deprovision or Unbind has begun.
func forDeletion(request broker.Request) (broker.Request, error) {
	id, err := newID()
	request.Deletion = &broker.Origin{RequestID: id.String()}
	return request, err
}
