//go:build crashpoints

package broker_test

import (
	"errors"
	"fmt"

	"pippinterm/broker"
	"pippinterm/osb"
)

// A network carries a request to the broker, and returns nil if there is no answer. It hears what the platform does.
type network interface {
	deliver(outgoingRequest) *numberedAnswer
	note(it *life, event string)
}

// An outgoingRequest is one of a life.
type outgoingRequest struct {
	message
	of      broker.Key
	attempt uint64 // of a request but a Fetch
	isFetch bool
}

// A numberedAnswer has its number among the answers of the life, or among those to a Fetch.
type numberedAnswer struct {
	*answer
	at int
}

// A life is what a platform records of an instance or of a binding.
type life struct {
	key     broker.Key
	record  osb.Record
	isThere bool   // whether there is a record
	object  []byte // of a binding that is ready
}

func (l *life) state() osb.State {
	if !l.isThere {
		return osb.StateNone
	}
	return l.record.State()
}

// A platform records an instance and two bindings of it, and keeps its rules (docs/binding.md).
type platform struct {
	network   network
	plan      osb.Plan
	instance  *life
	bindings  []*life
	isUnruly  bool // whether it keeps none of its rules
	isRemoved bool // whether the instance is to be removed: no binding is created any more
	sent      []outgoingRequest
}

func newPlatform(network network, plan osb.Plan) *platform {
	p := &platform{network: network, plan: plan, instance: &life{key: osb.InstanceKey(id("1"))}}
	for _, binding := range []string{"b1", "b2"} {
		p.bindings = append(p.bindings, &life{key: osb.BindingKey(id("1"), id(binding))})
	}
	return p
}

func (p *platform) all() []*life { return append([]*life{p.instance}, p.bindings...) }

func (p *platform) lifeOf(key broker.Key) *life {
	for _, binding := range p.bindings {
		if binding.key == key {
			return binding
		}
	}
	return p.instance
}

// step gives up what is in flight, or sends what is due.
func (p *platform) step(it *life) {
	if !it.isThere {
		p.create(it)
		return
	}
	if it.record.InFlight() != osb.KindNone {
		p.timeout(it, it.record.Attempt())
		return
	}
	record, sent, err := it.record.Send(it.key.ID())
	if err != nil {
		return // nothing is due
	}
	it.record = record
	p.network.note(it, "send")
	p.exchange(it, sent)
}

func (p *platform) create(it *life) {
	var sent osb.Sent
	if !it.key.IsBinding || p.isUnruly {
		it.record, sent = osb.Create(it.key.ID(), p.plan.Service, p.plan.Plan, true)
	} else {
		if p.isRemoved {
			return
		}
		record, first, err := p.instance.createBinding(it.key.Binding)
		if err != nil {
			return // the instance isn't ready
		}
		it.record, sent = record, first
	}
	it.isThere = true
	p.network.note(it, "create")
	p.exchange(it, sent)
}

func (l *life) createBinding(binding osb.ID) (osb.Record, osb.Sent, error) {
	if !l.isThere {
		return osb.Record{}, osb.Sent{}, osb.ErrNotReady
	}
	return l.record.CreateBinding(binding, true)
}

// exchange sends a request whose record is written, and takes its result.
func (p *platform) exchange(it *life, sent osb.Sent) {
	given := p.send(p.message(it, sent, false))
	if given == nil {
		return // it stays in flight, until it is given up
	}
	answer, err := osb.ReadAnswer(sent.Request.Kind, uint16(given.status), given.body)
	if err != nil {
		p.timeout(it, sent.Attempt)
		return
	}
	taken := fmt.Sprintf("take %d", given.at)
	object, _ := osb.ReadBinding(sent.Request.Kind, uint16(given.status), given.body)
	if it.key.IsBinding && it.record.State() == osb.StatePolling && answer.Body == osb.BodySucceeded {
		fetched := p.fetch(it, sent)
		if fetched == nil {
			p.timeout(it, sent.Attempt)
			return
		}
		object, taken = fetched.body, fmt.Sprintf("take-fetched %d %d", given.at, fetched.at)
	}
	p.take(it, sent.Attempt, answer, object, taken)
}

// take takes an answer. The credentials are written in the transaction in which the record becomes ready. If the
// request was given up meanwhile, the record rejects the answer.
func (p *platform) take(it *life, attempt uint64, answer osb.Answer, object []byte, event string) {
	var record osb.Record
	var err error
	if it.key.IsBinding {
		record, err = it.record.AnswerBinding(attempt, answer, true)
	} else {
		record, err = it.record.Answer(attempt, answer)
	}
	if !it.isNext(attempt, record, err) {
		return
	}
	if record.State() != osb.StateReady {
		object = nil
	} else if object == nil {
		object = it.object
	}
	it.object = object
	p.network.note(it, event)
}

// timeout gives up a request, unless that was done meanwhile.
func (p *platform) timeout(it *life, attempt uint64) {
	record, err := it.record.Timeout(attempt)
	if it.isNext(attempt, record, err) {
		p.network.note(it, "timeout")
	}
}

// isNext writes the record after a request of this number, unless that isn't in flight any more.
func (l *life) isNext(attempt uint64, record osb.Record, err error) bool {
	isOut := l.record.InFlight() != osb.KindNone && l.record.Attempt() == attempt
	if !isOut && errors.Is(err, osb.ErrNotInFlight) {
		return false
	}
	must(err)
	l.record = record
	return true
}

// fetch is the answer to a Fetch that has the object of the binding, or nil.
func (p *platform) fetch(it *life, poll osb.Sent) *numberedAnswer {
	given := p.send(p.message(it, poll, true))
	if given == nil {
		return nil
	}
	if _, err := osb.ReadFetched(uint16(given.status), given.body); err != nil {
		return nil
	}
	return given
}

func (p *platform) send(it outgoingRequest) *numberedAnswer {
	p.sent = append(p.sent, it)
	return p.network.deliver(it)
}

func (p *platform) message(it *life, sent osb.Sent, isFetch bool) outgoingRequest {
	request := sent.Request
	made := outgoingRequest{of: it.key, attempt: sent.Attempt, isFetch: isFetch}
	number := fmt.Sprintf("%v-%v-%d", it.key, request.Kind, sent.Attempt)
	made.header = signedBy(fmt.Sprintf("the user of %v", it.key), number)
	var err error
	made.method, err = osb.WriteMethod(request.Kind)
	must(err)
	if !it.key.IsBinding {
		names := osb.Names{
			Instance: request.ID.String(), Service: request.Service.String(), Plan: request.Plan.String(),
		}
		made.target, err = osb.WriteNamedTarget("", request, names, nil)
		must(err)
		made.body, err = osb.WriteNamedBody(request.Kind, names, "org", "space", it.further())
		must(err)
		return made
	}
	names := osb.BindingNames{
		Instance: it.key.Instance.String(), Binding: it.key.Binding.String(),
		Service: request.Service.String(), Plan: request.Plan.String(),
	}
	if isFetch {
		made.target, err = osb.WriteFetchTarget("", request, it.key.Instance, names)
	} else {
		made.target, err = osb.WriteBindingTarget("", request, it.key.Instance, names, nil)
	}
	must(err)
	made.body, err = osb.WriteBindingBody(request.Kind, names, it.further())
	must(err)
	return made
}

// further are the members of a creation's body, which depend on the key.
func (l *life) further() []byte {
	return []byte(fmt.Sprintf(`{"parameters":{"of":"%v"},"context":{"platform":"test","of":"%v"}}`, l.key, l.key))
}

// remove has it removed, as an operator asks. An instance is removed only once all of its bindings are gone.
func (p *platform) remove(it *life) {
	if !it.isThere {
		return
	}
	if it.key.IsBinding {
		if record, err := it.record.Remove(); err == nil {
			it.record, it.object = record, nil
			p.network.note(it, "remove")
		}
		return
	}
	allGone := true
	for _, binding := range p.bindings {
		allGone = allGone && (!binding.isThere || binding.record.IsGone() || p.isUnruly)
	}
	if record, err := it.record.RemoveIf(allGone); err == nil {
		it.record, p.isRemoved = record, true
		p.network.note(it, "remove")
	}
}

// expire gives up polling.
func (p *platform) expire(it *life) {
	if !it.isThere {
		return
	}
	if record, err := it.record.Expire(); err == nil {
		it.record = record
		p.network.note(it, "expire")
	}
}
