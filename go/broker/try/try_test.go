package try

import (
	"context"
	"encoding/json"
	"errors"
	"fmt"
	"strings"
	"testing"
	"time"

	"pippinterm/broker"
	"pippinterm/internal/diff"
)

const came = ": credentials: an object with the members password, user"

var allSteps = []string{
	"capabilities: bindings, credentials",
	"look instance 1: none", "create instance 1", "look instance 1: whole",
	"create instance 1 again", "look instance 1: whole",
	"look instance 2: none", "create instance 2", "look instance 2: whole",
	"create instance 2 again", "look instance 2: whole",
	"look instance 1: whole",
	"look-binding 1: none", "create-binding 1" + came, "look-binding 1: whole",
	"look-binding 2: none", "create-binding 2" + came, "look-binding 2: whole",
	"look-binding 1 of instance 2: none", "create-binding 1 of instance 2" + came, "look-binding 1 of instance 2: whole",
	"look-binding 1: whole", "credentials of binding 1: those of create-binding",
	"look-binding 2: whole", "credentials of binding 2: those of create-binding",
	"look-binding 1 of instance 2: whole", "credentials of binding 1 of instance 2: those of create-binding",
	"delete-binding 1", "look-binding 1: none", "delete-binding 1 again", "look-binding 1: none",
	"create-binding 1 after its deletion" + came, "look-binding 1: whole",
	"delete-binding 1 once more", "look-binding 1: none",
	"look-binding 2: whole", "look-binding 1 of instance 2: whole", "look instance 1: whole",
	"delete-binding 2", "look-binding 2: none", "look-binding 1 of instance 2: whole", "look instance 1: whole",
	"delete-binding 1 of instance 2", "look-binding 1 of instance 2: none", "look instance 2: whole",
	"delete instance 1", "look instance 1: none", "delete instance 1 again", "look instance 1: none",
	"look instance 2: whole", "delete instance 2", "look instance 2: none",
}

// unbound are the calls that remain without bindings, after the capabilities.
var unbound = append(allSteps[1:12:12], allSteps[len(allSteps)-7:]...)

// without returns the lines that don't contain a text.
func without(lines []string, text string) (others []string) {
	for _, line := range lines {
		if !strings.Contains(line, text) {
			others = append(others, line)
		}
	}
	return others
}

func TestGoodBackend(t *testing.T) {
	f := newFake(t)
	found := tries(ctx, t, f, locks{}, Options{Plan: bindable})
	same(t, found.ok, allSteps)
	same(t, found.failed, nil)
	if len(f.there) > 0 || len(found.Left) > 0 || found.IsStopped || len(found.IDs) != 5 {
		t.Errorf("got %v and %+v, want nothing left of 5", f.there, found.Result)
	}
}

// What a backend doesn't support isn't tried.
func TestLessIsSupported(t *testing.T) {
	f, fixed := newFake(t), bindable
	fixed.IsBindable = false
	for name, test := range map[string]struct {
		backend broker.Backend
		plan    Plan
		first   string
		others  []string
	}{
		"no bindings": {struct{ broker.Backend }{f}, bindable, "neither bindings nor credentials", unbound},
		"no credentials": {
			struct{ broker.BindingBackend }{f}, bindable, "bindings", without(allSteps[1:], "credentials of"),
		},
		"not bindable": {f, fixed, "bindings, credentials. The plan isn't bindable, so no bindings are tried", unbound},
	} {
		t.Run(name, func(t *testing.T) {
			found := tries(ctx, t, test.backend, locks{}, Options{Plan: test.plan})
			same(t, found.failed, nil)
			same(t, found.ok, append([]string{"capabilities: " + test.first}, test.others...))
		})
	}
}

// The requests are those of one Provision and one Bind each, also if a creation is repeated.
func TestRequests(t *testing.T) {
	f := newFake(t)
	tries(ctx, t, f, locks{}, Options{Plan: bindable, Parameters: json.RawMessage(`{"size": "small"}`)})
	if len(f.order) != 5 || f.order[2].Binding != f.order[4].Binding || f.order[2].Binding == f.order[3].Binding {
		t.Fatalf("created: got %v, want the second instance's binding created again", f.order)
	}
	for _, key := range f.order {
		requests := f.created[key]
		first := requests[0]
		isRepeated := !key.IsBinding || key == f.order[binding1-1]
		diff.Equal(t, isRepeated, len(requests) == 2, "%v is repeated", key)
		diff.Check(t, first, requests[len(requests)-1], "%v", key)
		var body map[string]any
		diff.Must(t, json.Unmarshal(first.Body, &body))
		isComplete := body["organization_guid"] != nil && body["space_guid"] != nil && body["context"] != nil &&
			string(first.Member("parameters")) == `{"size":"small"}`
		if body["service_id"] != "s" || body["plan_id"] != "p" || isComplete == key.IsBinding {
			t.Errorf("the body of %v: got %s, want the service, the plan and what the key needs", key, first.Body)
		}
		if first.InstanceID != key.Instance.String() || first.ServiceID != "s" || first.PlanID != "p" ||
			(first.BindingID == key.Binding.String()) != key.IsBinding || first.RequestID == "" {
			t.Errorf("the request of %v: got %+v, want its ids", key, first)
		}
	}
}

func TestParametersThatAreNoJSON(t *testing.T) {
	_, err := Run(ctx, newFake(t), locks{}, Options{Plan: bindable, Parameters: json.RawMessage("{")})
	diff.Error(t, err, "Run")
}

// A call that is broken off isn't reported, and all that may exist is deleted.
func TestStop(t *testing.T) {
	for number := 1; number <= 5; number++ {
		f := newFake(t)
		stop, end := context.WithCancel(ctx)
		f.create = func(request broker.Request) error {
			_ = f.ownCreate(request)
			if f.nth(request.Key) == number {
				end()
				return stop.Err()
			}
			return nil
		}
		found := tries(stop, t, f, locks{}, Options{Plan: bindable})
		same(t, found.failed, nil)
		if !found.IsStopped || len(f.there) > 0 || len(found.Left) > 0 || len(f.deleted) != number {
			t.Errorf("stopped in creation %d: got %v, %v deleted and %+v, want nothing left", number, f.there, f.deleted,
				found.Result)
		}
		for key, times := range f.deleted {
			diff.Equal(t, times, 1, "%v: deletions", key)
		}
		end()
	}
}

// What can't be deleted after a stop is named.
func TestStopWithoutTime(t *testing.T) {
	f := newFake(t)
	stop, end := context.WithCancel(ctx)
	defer end()
	f.create = func(request broker.Request) error {
		end()
		return f.ownCreate(request)
	}
	result, err := Run(stop, f, locks{}, Options{Plan: bindable, Report: func(Call) {}})
	wanted := []string{"instance 1: " + f.order[0].String()}
	if err != nil || !result.IsStopped || len(f.deleted) > 0 {
		t.Errorf("got %+v, %v, and %v deleted, want it stopped, and nothing deleted", result, err, f.deleted)
	}
	diff.Check(t, result.Left, wanted, "what is left")
}

// A lock that a process of an earlier call has doesn't make the trial wait for ever.
func TestStuckLock(t *testing.T) {
	f := newFake(t)
	stuck := map[broker.Key]bool{}
	f.create = func(request broker.Request) error {
		stuck[request.Key] = f.nth(request.Key) == 2
		return f.ownCreate(request)
	}
	found := tries(ctx, t, struct{ broker.Backend }{f}, locks{stuck}, Options{Plan: bindable})
	for _, line := range found.failed {
		diff.Contains(t, line, "instance 2", "failed")
		diff.Contains(t, line, "descriptor 3", "failed")
	}
	if len(found.failed) == 0 || len(found.Left) != 1 || found.Left[0] != "instance 2: "+f.order[1].String() {
		t.Errorf("got %+v and the failures %q, want the second instance left", found.Result, found.failed)
	}
}

var errOfBackend = errors.New("exit status 1: of the backend")

// The positions in the order of the creations, if all succeed.
const (
	instance1 = 1 + iota
	instance2
	binding1
	binding2
	other1 // binding 1 of instance 2
)

// instancesOnly is a fake that doesn't support bindings.
func instancesOnly(f *fake) broker.Backend { return struct{ broker.Backend }{f} }

// A mistake is what a backend does wrong, the calls that have to fail because of it, and what has to be named as left.
type mistake struct {
	make     func(*fake)
	failed   []string
	left     []int
	bindings bool // whether the backend supports bindings
}

func TestMistakesOfInstances(t *testing.T) {
	checkMistakes(t, map[string]mistake{
		"create can't be repeated": {make: func(f *fake) {
			f.create = failing(f.ownCreate, func(key broker.Key) bool { return f.there[key] == broker.Whole })
		}, failed: []string{
			"create instance 1 again: exit status 1: of the backend", "create instance 2 again: exit status 1: of the backend",
		}},
		"create again leaves a part": {make: func(f *fake) {
			f.create = func(r broker.Request) error {
				if f.there[r.Key] == broker.Whole && f.nth(r.Key) == instance1 {
					f.there[r.Key] = broker.Part
					return nil
				}
				return f.ownCreate(r)
			}
		}, failed: []string{"look instance 1: part, and not whole", "look instance 1: part, and not whole"}},
		"create fails": {make: func(f *fake) {
			f.create = func(broker.Request) error { return errOfBackend }
		}, failed: []string{
			"create instance 1: exit status 1: of the backend", "create instance 2: exit status 1: of the backend",
		}},
		"create deletes another instance": {make: func(f *fake) {
			f.create = f.losing(f.ownCreate, instance2, instance1)
		}, failed: []string{"look instance 1: none, and not whole"}},
		"look always reports none": {make: func(f *fake) {
			f.look = func(broker.Request) (broker.There, error) { return broker.None, nil }
		}, failed: []string{
			"look instance 1: none, and not whole", "look instance 1: none, and not whole",
			"look instance 2: none, and not whole", "look instance 2: none, and not whole",
			"look instance 1: none, and not whole", "look instance 2: none, and not whole",
		}},
		"look always reports none, and delete fails": {make: func(f *fake) {
			f.look = func(broker.Request) (broker.There, error) { return broker.None, nil }
			f.delete = func(broker.Request) error { return errOfBackend }
		}, failed: []string{
			"look instance 1: none, and not whole", "look instance 1: none, and not whole",
			"look instance 2: none, and not whole", "look instance 2: none, and not whole",
			"look instance 1: none, and not whole", "delete instance 1: exit status 1: of the backend",
			"delete instance 1 again: exit status 1: of the backend", "look instance 2: none, and not whole",
			"delete instance 2: exit status 1: of the backend",
		}, left: []int{instance1, instance2}},
		"look always reports whole": {make: func(f *fake) {
			f.look = func(broker.Request) (broker.There, error) { return broker.Whole, nil }
		}, failed: []string{
			"look instance 1: whole, and not none", "look instance 2: whole, and not none",
			"look instance 1: whole, and not none", "look instance 1: whole, and not none",
			"look instance 2: whole, and not none",
		}, left: []int{instance1, instance2}},
		"look fails if nothing exists": {make: func(f *fake) {
			f.look = func(r broker.Request) (broker.There, error) {
				if f.there[r.Key] == broker.None {
					return broker.None, errOfBackend
				}
				return f.ownLook(r)
			}
		}, failed: []string{
			"look instance 1: exit status 1: of the backend", "look instance 2: exit status 1: of the backend",
			"look instance 1: exit status 1: of the backend", "look instance 1: exit status 1: of the backend",
			"look instance 2: exit status 1: of the backend",
		}, left: []int{instance1, instance2}},
		"delete leaves a part": {make: func(f *fake) {
			f.delete = func(r broker.Request) error {
				f.there[r.Key] = broker.Part
				return nil
			}
		}, failed: []string{
			"look instance 1: part, and not none", "look instance 1: part, and not none", "look instance 2: part, and not none",
		}, left: []int{instance1, instance2}},
		"delete does nothing": {make: func(f *fake) {
			f.delete = func(broker.Request) error { return nil }
		}, failed: []string{
			"look instance 1: whole, and not none", "look instance 1: whole, and not none",
			"look instance 2: whole, and not none",
		}, left: []int{instance1, instance2}},
		"delete can't be repeated": {make: func(f *fake) {
			f.delete = failing(f.ownDelete, func(key broker.Key) bool { return f.there[key] == broker.None })
		}, failed: []string{"delete instance 1 again: exit status 1: of the backend"}},
		"delete deletes all instances": {make: func(f *fake) {
			f.delete = func(broker.Request) error {
				f.there = map[broker.Key]broker.There{}
				return nil
			}
		}, failed: []string{"look instance 2: none, and not whole"}},
		"delete fails": {make: func(f *fake) {
			f.delete = func(broker.Request) error { return errOfBackend }
		}, failed: []string{
			"delete instance 1: exit status 1: of the backend", "look instance 1: whole, and not none",
			"delete instance 1 again: exit status 1: of the backend", "look instance 1: whole, and not none",
			"delete instance 2: exit status 1: of the backend", "look instance 2: whole, and not none",
		}, left: []int{instance1, instance2}},
	})
}

func TestMistakesOfBindings(t *testing.T) {
	checkMistakes(t, map[string]mistake{
		"look-binding doesn't find a binding": {bindings: true, make: func(f *fake) {
			f.look = func(r broker.Request) (broker.There, error) {
				if f.nth(r.Key) == binding2 {
					return broker.None, nil
				}
				return f.ownLook(r)
			}
		}, failed: []string{
			"look-binding 2: none, and not whole", "look-binding 2: none, and not whole", "look-binding 2: none, and not whole",
		}},
		"a binding can't be created after its deletion": {bindings: true, make: func(f *fake) {
			f.create = failing(f.ownCreate, func(key broker.Key) bool { return key.IsBinding && f.deleted[key] > 0 })
		}, failed: []string{"create-binding 1 after its deletion: exit status 1: of the backend"}},
		"delete-binding deletes the other binding": {bindings: true, make: func(f *fake) {
			f.delete = f.losing(f.ownDelete, binding1, binding2)
		}, failed: []string{"look-binding 2: none, and not whole"}},
		"delete-binding deletes the binding of another instance with this id": {bindings: true, make: func(f *fake) {
			f.delete = f.losing(f.ownDelete, binding1, other1)
		}, failed: []string{
			"look-binding 1 of instance 2: none, and not whole", "look-binding 1 of instance 2: none, and not whole",
		}},
		"delete-binding deletes the instance": {bindings: true, make: func(f *fake) {
			f.delete = f.losing(f.ownDelete, binding2, instance1)
		}, failed: []string{"look instance 1: none, and not whole"}},
		"delete-binding can't be repeated": {bindings: true, make: func(f *fake) {
			f.delete = failing(f.ownDelete, func(key broker.Key) bool { return f.there[key] == broker.None })
		}, failed: []string{
			"delete-binding 1 again: exit status 1: of the backend", "delete instance 1 again: exit status 1: of the backend",
		}},
		"delete-binding leaves a part": {bindings: true, make: func(f *fake) {
			f.delete = func(r broker.Request) error {
				if f.nth(r.Key) == other1 {
					f.there[r.Key] = broker.Part
					return nil
				}
				return f.ownDelete(r)
			}
		}, failed: []string{"look-binding 1 of instance 2: part, and not none"}, left: []int{other1}},
		"create-binding deletes the other binding": {bindings: true, make: func(f *fake) {
			f.create = f.losing(f.ownCreate, binding2, binding1)
		}, failed: []string{"look-binding 1: none, and not whole"}},
		"create-binding replaces the credentials of the other binding": {bindings: true, make: func(f *fake) {
			f.create = func(r broker.Request) error {
				if f.nth(r.Key) == binding2 {
					f.credentials[f.order[binding1-1]] = `{"user": "u", "password": "secret of another"}`
				}
				return f.ownCreate(r)
			}
		}, failed: []string{"credentials of binding 1: other credentials than those of create-binding, in password"}},
		"create-binding fails": {bindings: true, make: func(f *fake) {
			f.create = failing(f.ownCreate, func(key broker.Key) bool { return f.nth(key) == binding1 })
		}, failed: []string{"create-binding 1: exit status 1: of the backend"}},
		"create-binding reports no JSON": {bindings: true, make: func(f *fake) {
			f.create = func(r broker.Request) error {
				_ = f.ownCreate(r)
				if f.nth(r.Key) == binding1 {
					f.credentials[r.Key] = `{"password": secret`
				}
				return nil
			}
		}, failed: []string{"create-binding 1: the credentials aren't JSON: json: error calling MarshalJSON for type " +
			"json.RawMessage: invalid character 's' looking for beginning of value"}},
		"credentials fails": {bindings: true, make: func(f *fake) {
			f.readCredentials = func(r broker.Request) (string, error) {
				if f.nth(r.Key) == binding2 {
					return "", errOfBackend
				}
				return f.credentials[r.Key], nil
			}
		}, failed: []string{"credentials of binding 2: exit status 1: of the backend"}},
		"credentials reports other credentials": {bindings: true, make: func(f *fake) {
			f.readCredentials = func(r broker.Request) (string, error) {
				if f.nth(r.Key) == binding2 {
					return `["secret"]`, nil
				}
				return f.credentials[r.Key], nil
			}
		}, failed: []string{"credentials of binding 2: other credentials than those of create-binding: an array, which " +
			"were an object with the members password, user"}},
	})
}

// failing is a call that fails for the keys of which isSo is true, and is the fake's own for all others.
func failing(own func(broker.Request) error, isSo func(broker.Key) bool) func(broker.Request) error {
	return func(r broker.Request) error {
		if isSo(r.Key) {
			return errOfBackend
		}
		return own(r)
	}
}

// losing is the fake's own call, which for one key also deletes the resource of another one. Both are named by their
// positions in the order of the creations.
func (f *fake) losing(own func(broker.Request) error, of, other int) func(broker.Request) error {
	return func(r broker.Request) error {
		if f.nth(r.Key) == of {
			delete(f.there, f.order[other-1])
		}
		return own(r)
	}
}

// checkMistakes checks that exactly the lines of each mistake fail, and that exactly what is left is named.
func checkMistakes(t *testing.T, mistakes map[string]mistake) {
	for name, mistake := range mistakes {
		t.Run(name, func(t *testing.T) {
			f := newFake(t)
			mistake.make(f)
			backend := instancesOnly(f)
			if mistake.bindings {
				backend = f
			}
			found := tries(ctx, t, backend, locks{}, Options{Plan: bindable})
			same(t, found.failed, mistake.failed)
			var left []string
			for _, at := range mistake.left {
				name := map[int]string{instance1: "instance 1", instance2: "instance 2", other1: "binding 1 of instance 2"}[at]
				left = append(left, fmt.Sprintf("%s: %v", name, f.order[at-1]))
			}
			same(t, found.Left, left)
			if len(f.there) > 0 && len(left) == 0 {
				t.Errorf("got %v, and none named, want it named", f.there)
			}
		})
	}
}

// What is rejected isn't deleted, and has no bindings.
func TestAllRejected(t *testing.T) {
	f := newFake(t)
	f.create = func(broker.Request) error { return &broker.Rejection{Status: 400, Description: "No."} }
	found := tries(ctx, t, f, locks{}, Options{Plan: bindable})
	same(t, found.failed, []string{"create instance 1: rejected with 400: No.", "create instance 2: rejected with 400: No."})
	if len(f.order) != 2 || len(f.deleted) > 0 || len(found.Left) > 0 {
		t.Errorf("got %v created, %v deleted and %q left, want 2 created", f.order, f.deleted, found.Left)
	}
}

// A creation that is rejected is reported as such. Nothing of it may exist.
func TestRejected(t *testing.T) {
	rejection := fmt.Errorf("%w (exit status 3)",
		&broker.Rejection{Status: 422, Code: "NoSuchSize", Description: "Choose small or large."})
	for name, test := range map[string]struct {
		left    broker.There
		code    error
		failed  []string
		deleted int
	}{
		"nothing exists": {broker.None, rejection,
			[]string{"create instance 2: rejected with 422 NoSuchSize: Choose small or large."}, 0},
		"a part exists": {broker.Part, rejection, []string{
			"create instance 2: rejected with 422 NoSuchSize: Choose small or large.", "look instance 2: part, and not none",
		}, 1},
		"no code": {broker.None, &broker.Rejection{Status: 400, Description: "No."},
			[]string{"create instance 2: rejected with 400: No."}, 0},
	} {
		t.Run(name, func(t *testing.T) {
			f := newFake(t)
			f.create = func(r broker.Request) error {
				if f.nth(r.Key) != instance2 {
					return f.ownCreate(r)
				}
				if test.left != broker.None {
					f.there[r.Key] = test.left
				}
				return test.code
			}
			found := tries(ctx, t, f, locks{}, Options{Plan: bindable})
			same(t, found.failed, test.failed)
			if deleted := f.deleted[f.order[instance2-1]]; deleted != test.deleted || len(f.there) > 0 || len(found.Left) > 0 {
				t.Errorf("instance 2: got %d deletions, %v and %q, want %d and nothing left", deleted, f.there, found.Left,
					test.deleted)
			}
			if len(f.order) != 4 { // the second instance has no bindings
				t.Errorf("created: got %v, want 4", f.order)
			}
		})
	}
}

const document = `{"services": [
	{"id": "s1", "name": "database", "description": "d", "bindable": true, "plans": [
		{"id": "p1", "name": "small", "description": "d"},
		{"id": "p2", "name": "large", "description": "d", "bindable": false}]},
	{"id": "s2", "name": "queue", "description": "d", "bindable": false, "plans": [
		{"id": "small", "name": "p1", "description": "d"},
		{"id": "p4", "name": "large", "description": "d", "bindable": true}]}]}`

var (
	small      = Plan{ServiceID: "s1", ID: "p1", Service: "database", Name: "small", IsBindable: true}
	large      = Plan{ServiceID: "s1", ID: "p2", Service: "database", Name: "large"}
	queue      = Plan{ServiceID: "s2", ID: "small", Service: "queue", Name: "p1"}
	largeQueue = Plan{ServiceID: "s2", ID: "p4", Service: "queue", Name: "large", IsBindable: true}
)

func TestPlans(t *testing.T) {
	plans := diff.Value(Plans([]byte(document)))(t)
	diff.Check(t, plans, []Plan{small, large, queue, largeQueue}, "the plans")
	for _, text := range []string{"", "[", `{"services": 1}`, `{"services": [{"id": "s", "plans": [{"name": "p"}]}]}`} {
		t.Run(fmt.Sprintf("%q", text), func(t *testing.T) {
			if plans, err := Plans([]byte(text)); err == nil {
				t.Errorf("%s: Plans got %v, want an error", text, plans)
			}
		})
	}
}

// An id counts before a name, and a name has to be unique.
func TestChoose(t *testing.T) {
	plans := []Plan{small, large, queue, largeQueue}
	for text, wanted := range map[string]Plan{"p1": small, "p2": large, "small": queue, "p4": largeQueue} {
		t.Run(text, func(t *testing.T) {
			diff.Equal(t, diff.Value(Choose(plans, text))(t), wanted, "Choose, %s", text)
		})
	}
	diff.Equal(t, diff.Value(Choose(plans[:2], "small"))(t), small, "Choose")
	for text, says := range map[string]string{"large": "several plans", "s1": "small, large, p1, large", "": "no plan"} {
		t.Run(text, func(t *testing.T) {
			diff.ErrorContains(t, diff.Err(Choose(plans, text)), says, "Choose, %q", text)
		})
	}
}

func TestDescribed(t *testing.T) {
	for text, wanted := range map[string]string{
		`{"token": "secret", "database": {"secret": 1}}`: "an object with the members database, token",
		`{"token": "secret"}`:                            "an object with the member token",
		"{}":                                             "an object without members",
		`["secret"]`:                                     "an array",
		`"secret"`:                                       "a string",
		"7":                                              "a number",
		"false":                                          "true or false",
		"null":                                           "null",
	} {
		t.Run(text, func(t *testing.T) {
			diff.Equal(t, describe(json.RawMessage(text)), wanted, "")
		})
	}
}

func TestDiffer(t *testing.T) {
	const other = "other credentials than those of create-binding"
	for _, test := range []struct{ before, after, wanted string }{
		{`{"a": 1, "b": [true, null]}`, `{"b":[true,null],"a":1}`, ""},
		{`"secret"`, `"\u0073ecret"`, ""},
		{"12345678901234567890", "12345678901234567890", ""},
		{"12345678901234567890", "12345678901234567891", other + ": a number, which were a number"},
		{`{"a": "secret", "b": 1}`, `{"a": "other", "b": 1}`, other + ", in a"},
		{`{"a": 1, "b": 1}`, `{"b": 2, "c": 1}`, other + ", in a, b, c"},
		{`{"a": null}`, `{}`, other + ", in a"},
		{`{"a": null}`, `null`, other + ": null, which were an object with the member a"},
	} {
		t.Run(test.before+" and "+test.after, func(t *testing.T) {
			got := ""
			if err := differ(json.RawMessage(test.before), json.RawMessage(test.after)); err != nil {
				got = err.Error()
			}
			diff.Equal(t, got, test.wanted, "%s and %s", test.before, test.after)
		})
	}
}

var ctx = context.Background()

// A fake is a backend in memory. Each hook that isn't nil is called in place of the call; it may call the fake's own.
type fake struct {
	t           *testing.T
	there       map[broker.Key]broker.There
	credentials map[broker.Key]string
	order       []broker.Key                    // in which they were created first
	created     map[broker.Key][]broker.Request // the requests of each creation
	deleted     map[broker.Key]int              // numbers of deletions

	look            func(broker.Request) (broker.There, error)
	create, delete  func(broker.Request) error
	readCredentials func(broker.Request) (string, error)
}

func newFake(t *testing.T) *fake {
	return &fake{
		t: t, there: map[broker.Key]broker.There{}, credentials: map[broker.Key]string{},
		created: map[broker.Key][]broker.Request{}, deleted: map[broker.Key]int{},
	}
}

// nth returns the position of a key in the order of the creations, from 1 on, or 0.
func (f *fake) nth(key broker.Key) int {
	for at, call := range f.order {
		if call == key {
			return at + 1
		}
	}
	return 0
}

func (f *fake) ownLook(request broker.Request) (broker.There, error) {
	return f.there[request.Key], nil
}

func (f *fake) ownCreate(request broker.Request) error {
	f.there[request.Key] = broker.Whole
	if _, isKnown := f.credentials[request.Key]; !isKnown {
		f.credentials[request.Key] = fmt.Sprintf(`{"user": "u", "password": "secret %d"}`, len(f.credentials))
	}
	return nil
}

func (f *fake) ownDelete(request broker.Request) error {
	delete(f.there, request.Key)
	delete(f.credentials, request.Key)
	return nil
}

// begins checks what each call needs: the lock of its key, and the kind of its key.
func (f *fake) begins(ctx context.Context, request broker.Request, isBinding bool) {
	f.t.Helper()
	if held := ctx.Value(lockKey{}); held != request.Key {
		f.t.Errorf("a call of %v: got the lock of %v, want its own", request.Key, held)
	}
	if request.Key.IsBinding != isBinding {
		f.t.Errorf("a call: got the key %v, want one of a binding: %v", request.Key, isBinding)
	}
}

func (f *fake) looks(ctx context.Context, request broker.Request, isBinding bool) (broker.There, error) {
	f.begins(ctx, request, isBinding)
	if f.look != nil {
		return f.look(request)
	}
	return f.ownLook(request)
}

func (f *fake) creates(ctx context.Context, request broker.Request, isBinding bool) error {
	f.begins(ctx, request, isBinding)
	if f.nth(request.Key) == 0 {
		f.order = append(f.order, request.Key)
	}
	f.created[request.Key] = append(f.created[request.Key], request)
	if f.create != nil {
		return f.create(request)
	}
	return f.ownCreate(request)
}

func (f *fake) deletes(ctx context.Context, request broker.Request, isBinding bool) error {
	f.begins(ctx, request, isBinding)
	if request.Deletion == nil || request.Deletion.RequestID == "" {
		f.t.Errorf("a deletion: got %+v, want its request", request)
	}
	f.deleted[request.Key]++
	if f.delete != nil {
		return f.delete(request)
	}
	return f.ownDelete(request)
}

func (f *fake) Look(ctx context.Context, request broker.Request) (broker.There, error) {
	return f.looks(ctx, request, false)
}

func (f *fake) Create(ctx context.Context, request broker.Request) error {
	return f.creates(ctx, request, false)
}

func (f *fake) Delete(ctx context.Context, request broker.Request) error {
	return f.deletes(ctx, request, false)
}

func (f *fake) LookBinding(ctx context.Context, request broker.Request) (broker.There, error) {
	return f.looks(ctx, request, true)
}

func (f *fake) CreateBinding(ctx context.Context, request broker.Request) (json.RawMessage, error) {
	err := f.creates(ctx, request, true)
	return json.RawMessage(f.credentials[request.Key]), err
}

func (f *fake) DeleteBinding(ctx context.Context, request broker.Request) error {
	return f.deletes(ctx, request, true)
}

func (f *fake) Credentials(ctx context.Context, request broker.Request) (json.RawMessage, error) {
	f.begins(ctx, request, true)
	if f.readCredentials != nil {
		text, err := f.readCredentials(request)
		return json.RawMessage(text), err
	}
	return json.RawMessage(f.credentials[request.Key]), nil
}

// locks are those of one goroutine. A lock of a key that is stuck is never free.
type locks struct{ stuck map[broker.Key]bool }

type lockKey struct{}

type lock struct{ key broker.Key }

func (l locks) Lock(ctx context.Context, key broker.Key) (broker.Lock, error) {
	if l.stuck[key] {
		<-ctx.Done()
		return nil, fmt.Errorf("waiting: %w", ctx.Err())
	}
	return lock{key}, nil
}

func (l locks) TryLock(context.Context, broker.Key) (broker.Lock, error) {
	return nil, errors.New("nobody calls this")
}

func (l locks) CanBeLost() bool { return false }

func (l lock) Context(ctx context.Context) context.Context {
	return context.WithValue(ctx, lockKey{}, l.key)
}

func (l lock) Unlock() {}

var bindable = Plan{ServiceID: "s", ID: "p", Service: "database", Name: "small", IsBindable: true}

// A trialReport is what a trial has reported.
type trialReport struct {
	Result
	ok, failed []string // the lines of its calls
}

// tries tries a backend.
func tries(ctx context.Context, t *testing.T, backend broker.Backend, locks broker.Locks, options Options) trialReport {
	t.Helper()
	var found trialReport
	options.CleanUp, options.LockWait = time.Minute, 20*time.Millisecond
	options.Report = func(call Call) {
		switch {
		case call.Err != nil:
			found.failed = append(found.failed, call.Name+": "+call.Err.Error())
		case call.Found != "":
			found.ok = append(found.ok, call.Name+": "+call.Found)
		default:
			found.ok = append(found.ok, call.Name)
		}
	}
	found.Result = diff.Value(Run(ctx, backend, locks, options))(t)
	diff.Equal(t, found.OK, len(found.ok), "%+v", found.Result)
	diff.Equal(t, found.Failed, len(found.failed), "%+v", found.Result)
	return found
}

// same fails the test unless two lists are the same.
func same(t *testing.T, got, wanted []string) {
	t.Helper()
	if len(got) == 0 && len(wanted) == 0 {
		return
	}
	diff.Check(t, got, wanted, "the lines")
}

// An updatingFake is a fake whose instances can be updated. An update takes `before` until it has changed something, and
// then `after` until it has changed all.
type updatingFake struct {
	*fake
	before, after time.Duration
	settings      map[broker.Key]string
	update        func(broker.Update) error                 // in the place of its own, or nil
	lookAt        func(broker.Update) (broker.There, error) // likewise
}

func newUpdatingFake(t *testing.T) *updatingFake {
	return &updatingFake{fake: newFake(t), settings: map[broker.Key]string{}}
}

func (f *updatingFake) LookUpdate(ctx context.Context, update broker.Update) (broker.There, error) {
	f.begins(ctx, update.Request, false)
	if f.lookAt != nil {
		return f.lookAt(update)
	}
	return update.Done(f.settings[update.Key])
}

func (f *updatingFake) Update(ctx context.Context, update broker.Update) error {
	f.begins(ctx, update.Request, false)
	if f.update != nil {
		return f.update(update)
	}
	if err := wait(ctx, f.before); err != nil {
		return err
	}
	f.settings[update.Key] = "half"
	if err := wait(ctx, f.after); err != nil {
		return err
	}
	return f.ownUpdate(update)
}

// wait waits unless the context is done earlier.
func wait(ctx context.Context, d time.Duration) error {
	if d == 0 {
		return nil
	}
	select {
	case <-time.After(d):
		return nil
	case <-ctx.Done():
		return ctx.Err()
	}
}

func (f *updatingFake) ownUpdate(update broker.Update) (err error) {
	f.settings[update.Key], err = update.To.Text()
	return err
}

var larger = Plan{ServiceID: "s", ID: "q", Service: "database", Name: "large", IsBindable: true}

var updateSteps = []string{
	"look-update instance 1: none",
	"update instance 1", "look-update instance 1: whole", "update instance 1 again", "look-update instance 1: whole",
	"update instance 1 back", "look-update instance 1: whole",
	"update instance 1, broken off: whole",
	"update instance 1 after it was broken off", "look-update instance 1: whole",
	"update instance 1 back", "look-update instance 1: whole", "update instance 1 to an unknown plan: whole",
	"update instance 1 to an unknown plan, and back", "look-update instance 1: whole",
}

// Settings without parameters have nil, also if the option is an empty text.
func TestSettingsWithoutParameters(t *testing.T) {
	it := &trial{options: Options{Plan: bindable, Parameters: json.RawMessage("")}}
	if got := it.goal().Parameters; got != nil {
		t.Errorf("got %q, want nil", got)
	}
}

func TestUpdates(t *testing.T) {
	f := newUpdatingFake(t)
	found := tries(ctx, t, f, locks{}, Options{Plan: bindable, UpdateTo: &larger})
	same(t, found.failed, nil)
	at := 0
	for _, line := range found.ok {
		if at < len(updateSteps) && line == updateSteps[at] {
			at++
		}
	}
	diff.Equal(t, at, len(updateSteps), "steps of updates in their order, among %q", found.ok)
	diff.Equal(t, found.ok[0], "capabilities: bindings, credentials, updates", "the capabilities")
	const digest = "980a0e200a8efc1825682c21bdd9a6387a50be56aba587f3cece370f67037ca3" // SHA-256 of {"plan_id":"p"}
	diff.Equal(t, f.settings[f.order[0]], digest, "the settings in the end")

	without := tries(ctx, t, newUpdatingFake(t), locks{}, Options{Plan: bindable})
	diff.Equal(t, without.ok[0], "capabilities: bindings, credentials, updates. No updates are tried: "+
		"the plan can't be changed, and no other parameters are given", "the capabilities without another plan")
	diff.Equal(t, without.OK, len(allSteps), "the calls without another plan")
	parameters := tries(ctx, t, newUpdatingFake(t), locks{}, Options{
		Plan: bindable, UpdateParameters: json.RawMessage(`{"a":1}`),
	})
	diff.Equal(t, parameters.OK, found.OK, "the calls with other parameters")
}

// An update is broken off after half of the time that another one took. Then it has changed something, but not all.
func TestUpdateBrokenOff(t *testing.T) {
	f := newUpdatingFake(t)
	f.before, f.after = 40*time.Millisecond, 160*time.Millisecond
	found := tries(ctx, t, f, locks{}, Options{Plan: bindable, UpdateTo: &larger})
	same(t, found.failed, nil)
	diff.Contains(t, strings.Join(found.ok, "\n"), "\nupdate instance 1, broken off: part\n", "the calls")
}

// An update that fails before it is broken off has failed by itself.
func TestUpdateThatFailsEarlier(t *testing.T) {
	f := newUpdatingFake(t)
	calls := 0
	f.update = func(update broker.Update) error {
		if calls++; calls == 4 { // after one to the other plan, its repetition, and one back
			return errors.New("no")
		}
		time.Sleep(100 * time.Millisecond)
		return f.ownUpdate(update)
	}
	found := tries(ctx, t, f, locks{}, Options{Plan: bindable, UpdateTo: &larger})
	same(t, found.failed, []string{"update instance 1, broken off: no"})
}

// What an update must not do is found.
func TestMistakesOfUpdates(t *testing.T) {
	rejects := func(f *updatingFake, update broker.Update) error {
		if update.To.PlanID == "osb-broker-try-no-plan" {
			return &broker.Rejection{Status: 400, Description: "no such plan"}
		}
		return f.ownUpdate(update)
	}
	for name, test := range map[string]struct {
		mistake func(*updatingFake)
		failed  []string
	}{
		"rejects what doesn't exist": {func(f *updatingFake) {
			f.update = func(update broker.Update) error { return rejects(f, update) }
		}, nil},
		"half of it before": {func(f *updatingFake) {
			isFirst := true
			f.lookAt = func(update broker.Update) (broker.There, error) {
				if isFirst {
					isFirst = false
					return broker.Part, nil
				}
				return update.Done(f.settings[update.Key])
			}
		}, []string{"look-update instance 1: part, and not none"}},
		"rejects, and changes": {func(f *updatingFake) {
			f.update = func(update broker.Update) error {
				_ = f.ownUpdate(update)
				return rejects(f, update)
			}
		}, []string{"update instance 1 to an unknown plan: it was rejected, and whole of it is done"}},
		"changes nothing": {func(f *updatingFake) {
			f.update = func(update broker.Update) error { return nil }
		}, []string{
			"look-update instance 1: none, and not whole", "look-update instance 1: none, and not whole",
			"look-update instance 1: none, and not whole", "look-update instance 1: none, and not whole",
			"look-update instance 1: none, and not whole",
			"update instance 1 to an unknown plan: it has succeeded, and none of it is done",
			"look-update instance 1: none, and not whole",
		}},
		"nobody can look": {func(f *updatingFake) {
			f.lookAt = func(broker.Update) (broker.There, error) { return broker.Part, errors.New("no") }
		}, []string{
			"look-update instance 1: no", "look-update instance 1: no", "look-update instance 1: no",
			"look-update instance 1: no", "update instance 1, broken off: no", "look-update instance 1: no",
			"look-update instance 1: no", "update instance 1 to an unknown plan: no", "look-update instance 1: no",
		}},
		"deletes a binding": {func(f *updatingFake) {
			f.update = func(update broker.Update) error {
				delete(f.there, f.order[2])
				return f.ownUpdate(update)
			}
		}, []string{
			"look-binding 1: none, and not whole",
		}},
	} {
		t.Run(name, func(t *testing.T) {
			f := newUpdatingFake(t)
			test.mistake(f)
			found := tries(ctx, t, f, locks{}, Options{Plan: bindable, UpdateTo: &larger})
			same(t, found.failed, test.failed)
		})
	}
}

// If both settings have the same effect, the report says that no change is tried.
func TestUpdatesOfTheSameEffect(t *testing.T) {
	f := newUpdatingFake(t)
	f.lookAt = func(broker.Update) (broker.There, error) { return broker.Whole, nil }
	found := tries(ctx, t, f, locks{}, Options{Plan: bindable, UpdateTo: &larger})
	same(t, found.failed, nil)
	diff.Contains(t, strings.Join(found.ok, "\n"),
		"\nlook-update instance 1: whole: both settings have the same effect, so no change is tried\n", "the calls")
}

func TestNext(t *testing.T) {
	document := []byte(`{"services": [{"id": "s", "plan_updateable": true, "plans": [
		{"id": "p"}, {"id": "q"}, {"id": "r", "plan_updateable": false}]}, {"id": "o", "plans": [{"id": "p"}]}]}`)
	plans := []Plan{{ServiceID: "o", ID: "p"}, {ServiceID: "s", ID: "p"}, {ServiceID: "s", ID: "q"}}
	for of, want := range map[Plan]string{
		{ServiceID: "s", ID: "p"}: "q", {ServiceID: "s", ID: "q"}: "p", {ServiceID: "s", ID: "r"}: "",
		{ServiceID: "o", ID: "p"}: "",
	} {
		next, err := Next(document, plans, of)
		got := ""
		if next != nil {
			got = next.ID
		}
		if err != nil || got != want {
			t.Errorf("%v: got %q and %v, want %q", of, got, err, want)
		}
	}
	updateable := []byte(`{"services": [{"id": "s", "plan_updateable": true, "plans": [{"id": "p"}]}]}`)
	next, err := Next(updateable, plans[1:2], plans[1])
	if next != nil || err != nil {
		t.Errorf("the only plan: got %v and %v, want none", next, err)
	}
}
