// Package audit compares, all through a storm and at its end, three things: what the platform records, what the broker
// holds, and which resources exist. It finds what is lost, which record is false, and what else they disagree in.
package audit

import (
	"bytes"
	"context"
	"encoding/json"
	"time"

	"pippinterm/broker"
	"pippinterm/osb"
	"pippinterm/platform"
	"pippinterm/storm/report"
)

// Ready and Gone are the states of records that are compared while a storm goes on.
const (
	Ready = platform.Ready
	Gone  = platform.Gone
)

// SteadyKeys returns the keys of the records that were in a state all the time: bindings or instances.
func (r Reading) SteadyKeys(state platform.State, isBinding bool) (keys []Key) {
	for key, record := range r.Records {
		if record.State == state && r.After[key].State == state && (key.Binding != "") == isBinding {
			keys = append(keys, key)
		}
	}
	return keys
}

type finder struct {
	Reading
	report.Differences
}

// Compare returns what the three disagree in while a storm goes on.
func (r Reading) Compare() report.Differences {
	f := &finder{Reading: r}
	f.findUnrecorded()
	for key, record := range r.Records {
		if record.Says != "" && !record.isOfNoRecord() && record.Says != record.State {
			f.Add(key, report.False, "its state is "+string(record.State)+", and its record says "+string(record.Says))
		}
	}
	for _, isBinding := range []bool{false, true} {
		for _, key := range r.SteadyKeys(Ready, isBinding) {
			if why := r.whyNotReady(key, r.Records[key]); why != "" {
				f.Add(key, report.False, "its record says ready, and "+why)
			}
		}
		for _, key := range r.SteadyKeys(Gone, isBinding) {
			f.checkGone(key, "its record says gone")
		}
	}
	f.findWithoutInstance()
	return f.InOrder()
}

// IsEnded reports whether a record says that nothing exists.
func (r Record) IsEnded() bool { return !r.Known || r.State == Gone || r.State == platform.Withdrawn }

func (r Record) isOfNoRecord() bool {
	return r.State == platform.Ordered || r.State == platform.Withdrawn || r.State == platform.Abandoned
}

// findUnrecorded finds what exists, or what the broker has a row of, without a record.
func (f *finder) findUnrecorded() {
	for key := range f.Stock.Of {
		if _, isKnown := f.After[key]; !isKnown && !f.Foreign[key] && f.Stock.Some(key) {
			f.Add(key, report.Lost, "it exists, and the platform has no record")
		}
	}
	for key, row := range f.Held {
		if _, isKnown := f.After[key]; !isKnown && !f.Foreign[key] && !row.isEmpty() {
			f.Add(key, report.Disagree, "the broker has a row, and the platform has no record")
		}
	}
}

// isEmpty reports whether a row keeps nothing: PostgreSQL gets such a row for an instance of which only a binding was
// ever asked for.
func (h Row) isEmpty() bool {
	_, isHeld := h.Holding.Row()
	_, isPending := h.Holding.Work()
	return !isHeld && !isPending && !h.Holding.HasTombstone()
}

// whyNotReady returns what belies a record that says ready, or "".
func (r Reading) whyNotReady(key Key, record Record) string {
	if r.Stock.Of[key] != broker.Whole {
		return "it doesn't exist, or not as a whole"
	}
	if !r.isHeldReady(key, record) {
		return "the broker's row says something else"
	}
	shown, isShown := r.Stock.Credentials[key]
	given, isGiven := r.Given[key]
	if isShown && isGiven && !isSame(shown, CredentialsOf(given)) {
		return "its credentials are other ones"
	}
	return ""
}

// checkGone finds what belies a record that says that nothing exists.
func (f *finder) checkGone(key Key, says string) {
	if f.Stock.Some(key) {
		f.Add(key, report.Lost, "it exists, and "+says)
	}
	if f.Held[key].Holding.IsHeld() {
		f.Add(key, report.Disagree, "the broker holds it, and "+says)
	}
}

// isHeldReady reports whether the broker holds an instance or a binding, complete, with that service and plan, and no
// work is pending. If the object of a binding was given out, the broker has the same.
func (r Reading) isHeldReady(key Key, record Record) bool {
	held := r.Held[key]
	row, isHeld := held.Holding.Row()
	_, isPending := held.Holding.Work()
	wanted := osb.BrokerRow{Service: record.Service, Plan: record.Plan, Phase: osb.PhaseReady}
	if !isHeld || isPending || row != wanted {
		return false
	}
	given, isGiven := r.Given[key]
	return key.Binding == "" || held.Object != nil && (!isGiven || isSame(held.Object, given))
}

// findWithoutInstance finds each binding that exists or is held while its instance isn't held ready. A broker never
// lets that can happen, whatever it is asked.
func (f *finder) findWithoutInstance() {
	for key := range f.Stock.Of {
		if key.Binding == "" || !f.Before.Some(key) || !f.Stock.Some(key) {
			continue
		}
		row, isHeld := f.Held[key.InstanceKey()].Holding.Row()
		_, isPending := f.Held[key.InstanceKey()].Holding.Work()
		if !isHeld || row.Phase != osb.PhaseReady || isPending {
			f.Add(key, report.Disagree, "its credentials exist, and the broker doesn't hold its instance ready")
		}
	}
	for key, row := range f.Held {
		if key.Binding == "" {
			continue
		}
		service, plan, isHeld := heldPlan(row.Holding)
		if isHeld && !f.Held[key.InstanceKey()].Holding.IsThere(service, plan) {
			f.Add(key, report.Disagree, "the broker holds it, and doesn't hold its instance ready at the same plan")
		}
	}
}

// heldPlan returns the service and the plan of what is held or pending.
func heldPlan(holding osb.Holding) (service, plan osb.ID, isHeld bool) {
	if row, is := holding.Row(); is {
		return row.Service, row.Plan, true
	}
	work, is := holding.Work()
	return work.Service, work.Plan, is
}

// CredentialsOf returns the credentials in the object of a binding, or nil.
func CredentialsOf(object json.RawMessage) json.RawMessage {
	var read struct{ Credentials json.RawMessage }
	if json.Unmarshal(object, &read) != nil {
		return nil
	}
	return read.Credentials
}

// isSame reports whether two texts are the same value of JSON.
func isSame(one, other json.RawMessage) bool {
	a, isA := canonical(one)
	b, isB := canonical(other)
	return isA && isB && bytes.Equal(a, b)
}

func canonical(text json.RawMessage) ([]byte, bool) {
	var value any
	decoder := json.NewDecoder(bytes.NewReader(text))
	decoder.UseNumber()
	if decoder.Decode(&value) != nil {
		return nil, false
	}
	written, err := json.Marshal(value)
	return written, err == nil
}

// A Key names an instance, or a binding of it.
type Key = report.Key

// A Record is what the platform records about an instance or a binding.
type Record struct {
	State         platform.State
	Since         time.Time
	Service, Plan osb.ID
	// Says is the state of the record itself, or empty if nothing was sent yet.
	Says  platform.State
	Rests bool // nothing is to be done until somebody asks
	Known bool // the platform has a record
}

// RecordOf returns the Record of a row.
func RecordOf(e platform.Entry) Record {
	record := Record{
		State: e.State, Since: e.Since, Service: e.Service, Plan: e.Plan, Rests: e.Rests() && !e.HasLast, Known: true,
	}
	if e.IsSent {
		record.Says = platform.StateOf(e.Record)
	}
	return record
}

// A Row is a row of the broker.
type Row struct {
	Holding osb.Holding
	Object  json.RawMessage // of a binding: the object with its credentials, or nil
}

// A Stock is what exists. What it lacks doesn't exist.
type Stock struct {
	Of map[Key]broker.There
	// Credentials are those of each whole binding whose resource shows them.
	Credentials map[Key]json.RawMessage
}

// Some reports whether anything of a key exists.
func (s Stock) Some(key Key) bool { return s.Of[key] != broker.None }

// A Reading is what was seen, in the order of the members. What is the same in two members was so all the time between
// them: no record returns to ready, or leaves gone, and nothing exists again once it was deleted.
type Reading struct {
	Records map[Key]Record
	Before  Stock       // what existed before the rows of the broker were read
	Held    map[Key]Row // the rows of the broker, all of one moment
	Stock   Stock       // what existed after that
	After   map[Key]Record
	Given   map[Key]json.RawMessage // the objects of bindings that the platform has given out, with the credentials
	Foreign map[Key]bool            // the bindings that somebody else than the platform has created
}

// Holdings are the rows of a broker.
type Holdings interface {
	// Read returns all rows, as of one moment.
	Read(ctx context.Context) (map[Key]Row, error)
}

// Resources are what a broker sells in a storm.
type Resources interface {
	// Look returns what exists. isOurs reports whether an instance is one of the storm's, where the server may have
	// others.
	Look(ctx context.Context, isOurs func(instance string) bool) (Stock, error)
	// IsUsable reports whether the resource of an instance that is ready can be used, and is what was ordered.
	IsUsable(ctx context.Context, key Key, record Record) (bool, error)
	// Works reports whether the credentials of a binding give access to its instance.
	Works(ctx context.Context, key Key, credentials json.RawMessage) (bool, error)
	// Clear deletes what exists of the storm's instances, if the end of the storm doesn't.
	Clear(ctx context.Context, isOurs func(instance string) bool) error
}

// A Reader reads everything that is compared.
type Reader struct {
	Records   func(context.Context) (map[Key]Record, error)
	Holdings  Holdings
	Resources Resources
	Given     func() map[Key]json.RawMessage
	Foreign   func() map[Key]bool
	IsOurs    func(instance string) bool // besides the instances with a record
}

// Read reads everything, in the order of the members of a Reading.
func (r Reader) Read(ctx context.Context) (reading Reading, err error) {
	if reading.Records, err = r.Records(ctx); err != nil {
		return reading, err
	}
	isOurs := func(instance string) bool {
		_, isKnown := reading.Records[Key{Instance: instance}]
		return isKnown || r.IsOurs(instance)
	}
	if reading.Before, err = r.Resources.Look(ctx, isOurs); err != nil {
		return reading, err
	}
	if reading.Held, err = r.Holdings.Read(ctx); err != nil {
		return reading, err
	}
	if reading.Stock, err = r.Resources.Look(ctx, isOurs); err != nil {
		return reading, err
	}
	if reading.After, err = r.Records(ctx); err != nil {
		return reading, err
	}
	reading.Given, reading.Foreign = r.Given(), r.Foreign()
	return reading, nil
}

// CompareAtEnd returns what the three disagree in at the end: each instance and each binding has to be ready in all
// three, or in none. Nobody knows of the instances that were abandoned. It tries each resource that is ready, and
// returns the first error of that.
func (r Reading) CompareAtEnd(ctx context.Context, resources Resources) (report.Differences, error) {
	f := &finder{Reading: r}
	f.findUnrecorded()
	var failed error
	for key, record := range r.After {
		switch {
		case !record.Rests || !isFinal(record.State):
			f.Add(key, report.Stuck, "its record is still "+string(record.State))
		case record.State == Ready:
			if err := f.checkReady(ctx, key, record, resources); err != nil && failed == nil {
				failed = err
			}
		case record.State != platform.Abandoned:
			f.checkGone(key, "its record says "+string(record.State))
		}
	}
	f.findWithoutInstance()
	return f.InOrder(), failed
}

// isFinal reports whether a record may stay in a state at the end of a storm. One that is unsettled waits for an
// operator, and the storm's operator removes it.
func isFinal(state platform.State) bool {
	switch state {
	case Ready, Gone, platform.Withdrawn, platform.Abandoned:
		return true
	}
	return false
}

func (f *finder) checkReady(ctx context.Context, key Key, record Record, resources Resources) error {
	if why := f.whyNotReady(key, record); why != "" {
		f.Add(key, report.False, "its record says ready, and "+why)
		return nil
	}
	if key.Binding != "" {
		f.checkBinding(key)
		return nil
	}
	isUsable, err := resources.IsUsable(ctx, key, record)
	if err == nil && !isUsable {
		f.Add(key, report.False, "its record says ready, and it can't be used, or isn't what was ordered")
	}
	return err
}

// checkBinding finds what is wrong with a binding that is ready at the end, and that exists.
func (f *finder) checkBinding(key Key) {
	if _, isGiven := f.Given[key]; !isGiven {
		f.Add(key, report.False, "its record says ready, and its credentials aren't given out")
	}
	if instance := f.After[key.InstanceKey()]; instance.State != Ready {
		f.Add(key, report.Disagree, "its record says ready, and that of its instance says "+string(instance.State))
	}
}
