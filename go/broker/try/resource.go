package try

import (
	"bytes"
	"context"
	"encoding/json"
	"errors"
	"fmt"
	"reflect"
	"sort"
	"strings"
	"time"

	"pippinterm/broker"
)

// A resource is an instance or a binding that is tried.
type resource struct {
	label       string // "1", or for a binding of the second instance "1 of instance 2"
	request     broker.Request
	credentials json.RawMessage // those that the creation of a binding has reported, or nil
	isCreated   bool            // whether the call that creates it has succeeded
	mayExist    bool            // from the beginning of the creation until a deletion has succeeded and nothing is found
}

// String returns what it is, such as "instance 1".
func (r *resource) String() string {
	if r.request.Key.IsBinding {
		return "binding " + r.label
	}
	return "instance " + r.label
}

// callName returns the name of a call: what is called, and for what, such as "look instance 1" or "look-binding 1".
func (r *resource) callName(call string) string {
	if r.request.Key.IsBinding {
		return call + "-binding " + r.label
	}
	return call + " instance " + r.label
}

// calls are the calls of a backend, each under the lock of its key, as a broker makes them.
type calls struct {
	backend  broker.Backend
	bindings broker.BindingBackend // nil if the backend doesn't support bindings
	locks    broker.Locks
	lockWait time.Duration
}

// errLocked reports that the lock of a call isn't free. Nobody else knows the ids, so only a process that the backend
// has left behind can have it.
var errLocked = errors.New("a process that an earlier call has started still runs, and has the lock of that call " +
	"open (descriptor 3)")

// under calls do under the lock of a key.
func (c *calls) under(ctx context.Context, key broker.Key, do func(context.Context) error) error {
	lock, err := c.lock(ctx, key)
	if err != nil {
		return err
	}
	defer lock.Unlock()
	return do(lock.Context(ctx))
}

func (c *calls) lock(ctx context.Context, key broker.Key) (broker.Lock, error) {
	within, cancel := context.WithTimeout(ctx, c.lockWait)
	defer cancel()
	lock, err := c.locks.Lock(within, key)
	if errors.Is(err, context.DeadlineExceeded) && ctx.Err() == nil {
		return nil, errLocked
	}
	if err != nil {
		return nil, fmt.Errorf("the lock of the call can't be taken: %w", err)
	}
	return lock, nil
}

func (c *calls) look(ctx context.Context, r *resource) (there broker.There, err error) {
	err = c.under(ctx, r.request.Key, func(ctx context.Context) (err error) {
		if r.request.Key.IsBinding {
			there, err = c.bindings.LookBinding(ctx, r.request)
		} else {
			there, err = c.backend.Look(ctx, r.request)
		}
		return err
	})
	return there, err
}

func (c *calls) create(ctx context.Context, r *resource) (credentials json.RawMessage, err error) {
	err = c.under(ctx, r.request.Key, func(ctx context.Context) (err error) {
		if !r.request.Key.IsBinding {
			return c.backend.Create(ctx, r.request)
		}
		if credentials, err = c.bindings.CreateBinding(ctx, r.request); err != nil {
			return err
		}
		_, err = broker.BindingObject(credentials)
		return err
	})
	return credentials, err
}

func (c *calls) delete(ctx context.Context, r *resource) error {
	request, err := forDeletion(r.request)
	if err != nil {
		return err
	}
	return c.under(ctx, r.request.Key, func(ctx context.Context) error {
		if r.request.Key.IsBinding {
			return c.bindings.DeleteBinding(ctx, request)
		}
		return c.backend.Delete(ctx, request)
	})
}

// readCredentials returns the credentials of a binding that exists.
func (c *calls) readCredentials(
	ctx context.Context, from broker.CredentialsBackend, r *resource,
) (credentials json.RawMessage, err error) {
	err = c.under(ctx, r.request.Key, func(ctx context.Context) (err error) {
		if credentials, err = from.Credentials(ctx, r.request); err != nil {
			return err
		}
		_, err = broker.BindingObject(credentials)
		return err
	})
	return credentials, err
}

// describe returns what kind of JSON the credentials are, with the names of an object's members, and without their
// values, which are secret.
func describe(credentials json.RawMessage) string {
	switch value := decode(credentials).(type) {
	case map[string]any:
		switch names := namesOf(value); len(names) {
		case 0:
			return "an object without members"
		case 1:
			return "an object with the member " + names[0]
		default:
			return "an object with the members " + strings.Join(names, ", ")
		}
	case []any:
		return "an array"
	case string:
		return "a string"
	case json.Number:
		return "a number"
	case bool:
		return "true or false"
	}
	return "null"
}

// differ returns an error if two credentials aren't the same JSON. The error names the members that differ, and has
// none of their values. Numbers are the same if they are written in the same way.
func differ(before, after json.RawMessage) error {
	was, is := decode(before), decode(after)
	if reflect.DeepEqual(was, is) {
		return nil
	}
	wasObject, _ := was.(map[string]any)
	isObject, _ := is.(map[string]any)
	if wasObject == nil || isObject == nil {
		return fmt.Errorf("other credentials than those of create-binding: %s, which were %s",
			describe(after), describe(before))
	}
	var names []string
	for _, name := range namesOf(wasObject, isObject) {
		first, isFirst := wasObject[name]
		second, isSecond := isObject[name]
		if isFirst != isSecond || !reflect.DeepEqual(first, second) {
			names = append(names, name)
		}
	}
	return fmt.Errorf("other credentials than those of create-binding, in %s", strings.Join(names, ", "))
}

// decode returns the value of a JSON text, with numbers as they are written. Of any other text it is nil.
func decode(text json.RawMessage) (value any) {
	decoder := json.NewDecoder(bytes.NewReader(text))
	decoder.UseNumber()
	if err := decoder.Decode(&value); err != nil {
		return nil
	}
	return value
}

// namesOf returns the names of the members of all objects, each once, in alphabetical order.
func namesOf(objects ...map[string]any) []string {
	var names []string
	seen := map[string]bool{}
	for _, object := range objects {
		for name := range object {
			if !seen[name] {
				seen[name] = true
				names = append(names, name)
			}
		}
	}
	sort.Strings(names)
	return names
}
