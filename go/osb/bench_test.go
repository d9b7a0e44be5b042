package osb_test

import (
	"testing"

	"pippinterm/osb"
)

// How long each call takes from Go: go test -bench . -run none.
func Benchmark(b *testing.B) {
	s := newSteps(b)
	steps := append(append(s.ofRecords(), s.ofHoldings()...), append(s.ofTheWire(), s.ofBindings()...)...)
	steps = append(append(steps, ofPlatformDrivers(b)...), ofUpdateDrivers(b)...)
	steps = append(append(steps, ofUpdates(b)...), ofTheWireOfUpdates()...)
	for _, step := range steps {
		b.Run(step.name, func(b *testing.B) { repeat(b, step.call) })
	}
}

// A step that is timed.
type step struct {
	name string
	call func() error
}

// The values that the steps begin with.
type steps struct {
	sent                      osb.Sent
	failed                    osb.Answer
	wanted, cleaning, polling osb.Record
	ready                     osb.Record
	none, begun, running      osb.Holding
	record, holding           []byte
	asked                     osb.Asked
	begin, await, look        osb.Driver
	try, sync                 osb.Driver
	reading                   osb.Reading
}

func newSteps(b *testing.B) steps {
	s := steps{failed: osb.Answer{Status: 500, Body: osb.BodyOtherError}}
	accepted := osb.Answer{Status: 202, Body: osb.BodyEmpty}
	var errs [14]error
	var transaction osb.Transaction
	var unlocked osb.Driver
	var received osb.Received
	s.wanted, s.sent = osb.Create(instance, service, plan, true)
	s.cleaning, errs[0] = s.wanted.Answer(1, s.failed)
	s.polling, errs[1] = s.wanted.Answer(1, accepted)
	s.begun, _, errs[2] = s.none.Begin(osb.ModeAsync, s.sent.Request, osb.Rules{})
	s.running, _, errs[3] = s.begun.End(osb.ModeAsync, osb.OutcomeDone)
	s.record, errs[4] = s.wanted.MarshalJSON()
	s.holding, errs[5] = s.begun.MarshalJSON()
	received, errs[6] = osb.ReceiveRequest("", 1000, "PUT", target, []byte(provisionBody))
	s.asked = received.Asked
	s.ready, errs[7] = s.wanted.Answer(1, osb.Answer{Status: 201, Body: osb.BodyEmpty})
	s.reading = osb.Reading{Holding: s.none, ID: instance, Request: s.sent.Request, MayBegin: true}
	s.begin, errs[8] = osb.NewDriver(osb.ID{1}, true, true)
	transaction, errs[9] = s.begin.Read(s.reading)
	s.look = transaction.Committed()
	unlocked, errs[10] = osb.NewDriver(osb.ID{1}, true, false)
	transaction, errs[11] = unlocked.Read(s.reading)
	s.await = transaction.Committed()
	s.try, errs[12] = s.look.Looked(osb.ThereAbsent)
	s.sync, errs[13] = s.look.Looked(osb.ThereWhole)
	for _, err := range errs {
		check(b, err)
	}
	return s
}

func (s steps) ofRecords() []step {
	row := osb.PlatformRow{Service: service, Plan: plan, State: osb.StateReady, InFlight: osb.KindNone}
	return []step{
		{"DecideDeprovision", func() error { osb.DecideDeprovision(s.failed); return nil }},
		{"IDOfText", func() error { return second(osb.IDOfText("postgres-small")) }},
		{"ParseID", func() error { return second(osb.ParseID("00000000-0000-0000-0000-000000000001")) }},
		{"ID.String", func() error { _ = instance.String(); return nil }},
		{"Create", func() error { osb.Create(instance, service, plan, true); return nil }},
		{"RecordFromRow", func() error { return second(osb.RecordFromRow(row)) }},
		{"Record.Send", func() error { _, _, err := s.cleaning.Send(instance); return err }},
		{"Record.Answer", func() error { return second(s.wanted.Answer(1, s.failed)) }},
		{"Record.Timeout", func() error { return second(s.wanted.Timeout(1)) }},
		{"Record.Expire", func() error { return second(s.polling.Expire()) }},
		{"Record.Remove", func() error { return second(s.polling.Remove()) }},
		{"Record.RemoveIf", func() error { return second(s.polling.RemoveIf(true)) }},
		{"Record.IsReady", func() error { s.polling.IsReady(); return nil }},
		{"Record.IsGone", func() error { s.polling.IsGone(); return nil }},
		{"Record.CreateBinding", func() error { _, _, err := s.ready.CreateBinding(instance, true); return err }},
		{"Record.AnswerBinding", func() error { return second(s.wanted.AnswerBinding(1, s.failed, true)) }},
		{"Record.MarshalJSON", func() error { return second(s.wanted.MarshalJSON()) }},
		{"Record.UnmarshalJSON", func() error { var read osb.Record; return read.UnmarshalJSON(s.record) }},
	}
}

func (s steps) ofHoldings() []step {
	return []step{
		{"Holding.Fits", func() error { s.begun.Fits(osb.ModeAsync); return nil }},
		{"Holding.Begin", func() error { _, _, err := s.none.Begin(osb.ModeAsync, s.sent.Request, osb.Rules{}); return err }},
		{"Holding.BeginIf", func() error {
			_, _, err := s.none.BeginIf(osb.ModeAsync, s.sent.Request, osb.Rules{}, false)
			return err
		}},
		{"Holding.BeginBinding", func() error {
			_, _, err := s.none.BeginBinding(s.none, osb.ModeAsync, s.sent.Request, osb.Rules{})
			return err
		}},
		{"Holding.Fetch", func() error { return second(s.begun.Fetch()) }},
		{"Holding.IsHeld", func() error { s.begun.IsHeld(); return nil }},
		{"Holding.IsThere", func() error { s.begun.IsThere(service, plan); return nil }},
		{"Holding.End", func() error { _, _, err := s.begun.End(osb.ModeAsync, osb.OutcomeDone); return err }},
		{"Holding.Finish", func() error { return second(s.running.Finish(true)) }},
		{"NewDriver", func() error { return second(osb.NewDriver(osb.ID{1}, true, true)) }},
		{"Driver.Locked", func() error { return second(s.await.Locked(true)) }},
		{"Driver.Looked", func() error { return second(s.look.Looked(osb.ThereAbsent)) }},
		{"Driver.Synced", func() error { return second(s.sync.Synced()) }},
		{"Driver.Called", func() error { return second(s.try.Called(true, 0)) }},
		{"Driver.Read", func() error { return second(s.begin.Read(s.reading)) }},
		{"Driver.ReadBinding", func() error { return second(s.begin.ReadBinding(s.reading, s.none)) }},
		{"WorkOf", func() error { osb.WorkOf(osb.KindProvision, osb.ModeSync); return nil }},
		{"Holding.MarshalJSON", func() error { return second(s.begun.MarshalJSON()) }},
		{"Holding.UnmarshalJSON", func() error { var read osb.Holding; return read.UnmarshalJSON(s.holding) }},
	}
}

func ofPlatformDrivers(b *testing.B) []step {
	reading := osb.PlatformReading{ID: instance, Service: service, Plan: plan, AcceptsIncomplete: true, Create: true}
	claim, err := osb.NewPlatformDriver(osb.ID{1}, false)
	check(b, err)
	created, err := claim.Read(reading)
	check(b, err)
	accepted := osb.Answer{Status: 202, Body: osb.BodyEmpty}
	return []step{
		{"NewPlatformDriver", func() error { return second(osb.NewPlatformDriver(osb.ID{1}, false)) }},
		{"PlatformDriver.Read", func() error { return second(claim.Read(reading)) }},
		{"PlatformDriver.Answered", func() error { return second(created.Committed().Answered(accepted, false)) }},
	}
}

func ofUpdateDrivers(b *testing.B) []step {
	before, after := osb.Settings{Plan: plan}, osb.Settings{Plan: async}
	row := osb.BrokerRow{Service: service, Plan: plan, Phase: osb.PhaseReady}
	reading := osb.UpdateReading{
		Reading:  osb.Reading{Holding: osb.HoldingByHand(&row, nil, false, osb.Digest{}), ID: instance, MayBegin: true},
		Change:   osb.NewUpdateHolding(before),
		IsUpdate: true, Update: osb.Update{Service: service, Change: osb.Change{Plan: async, HasPlan: true}},
	}
	begin := need(osb.NewUpdateDriver(osb.ID{1}, true, true))(b)
	look := need(begin.Read(reading))(b).Committed()
	await := need(need(osb.NewUpdateDriver(osb.ID{1}, true, false))(b).Read(reading))(b).Committed()
	try, sync := need(look.Looked(osb.ThereWhole, before))(b), need(look.Looked(osb.ThereWhole, after))(b)
	return []step{
		{"NewUpdateDriver", func() error { return second(osb.NewUpdateDriver(osb.ID{1}, true, true)) }},
		{"UpdateDriver.Locked", func() error { return second(await.Locked(true)) }},
		{"UpdateDriver.Looked", func() error { return second(look.Looked(osb.ThereWhole, before)) }},
		{"UpdateDriver.Synced", func() error { return second(sync.Synced()) }},
		{"UpdateDriver.Called", func() error { return second(try.Called(true, 0)) }},
		{"UpdateDriver.Read", func() error { return second(begin.Read(reading)) }},
	}
}

func ofUpdates(b *testing.B) []step {
	before := osb.Settings{Plan: plan}
	update := osb.Update{
		Service: service, Change: osb.Change{Plan: async, HasPlan: true}, Number: 1, AcceptsIncomplete: true,
	}
	row := osb.BrokerRow{Service: service, Plan: plan, Phase: osb.PhaseReady}
	ready := osb.HoldingByHand(&row, nil, false, osb.Digest{})
	deletion := osb.Request{Kind: osb.KindDeprovision, ID: instance, Service: service, Plan: plan}
	settled := osb.NewUpdateHolding(before)
	pending, _, err := settled.Begin(ready, osb.AllowedAsync, update)
	check(b, err)
	updating, _, err := pending.End(osb.ModeAsync, osb.UpdateOutcomeDone)
	check(b, err)
	text := need(updating.MarshalJSON())(b)
	return []step{
		{"Settings.With", func() error { before.With(update.Change); return nil }},
		{"NewUpdateHolding", func() error { osb.NewUpdateHolding(before); return nil }},
		{"UpdateHolding.IsUnderWay", func() error { updating.IsUnderWay(); return nil }},
		{"UpdateHolding.Begin", func() error { _, _, err := settled.Begin(ready, osb.AllowedAsync, update); return err }},
		{"UpdateHolding.End", func() error { _, _, err := pending.End(osb.ModeAsync, osb.UpdateOutcomeDone); return err }},
		{"UpdateHolding.Finish", func() error { return second(updating.Finish(true)) }},
		{"UpdateHolding.Poll", func() error { return second(updating.Poll(ready)) }},
		{"UpdateHolding.Fetch", func() error { return second(updating.Fetch(ready)) }},
		{"UpdateHolding.BeginInstance", func() error {
			_, _, err := updating.BeginInstance(ready, osb.ModeSync, deletion, osb.Rules{}, false)
			return err
		}},
		{"UpdateHolding.MarshalJSON", func() error { return second(updating.MarshalJSON()) }},
		{"UpdateHolding.UnmarshalJSON", func() error { var read osb.UpdateHolding; return read.UnmarshalJSON(text) }},
	}
}

func (s steps) ofTheWire() []step {
	version, operation, description := "2.17", "making 1", "The disk is full."
	texts := osb.Names{Instance: instance.String(), Service: service.String(), Plan: plan.String()}
	catalogue := []byte(`{"services":[{"id":"` + service.String() + `","plans":[{"id":"` + plan.String() + `"}]}]}`)
	return []step{
		{"WriteMethod", func() error { return second(osb.WriteMethod(osb.KindPoll)) }},
		{"WriteNamedTarget", func() error { return second(osb.WriteNamedTarget("", s.sent.Request, texts, nil)) }},
		{"WriteNamedBody", func() error {
			return second(osb.WriteNamedBody(osb.KindProvision, texts, "org", "space", []byte("{}")))
		}},
		{"ReadDetails", func() error { return second(osb.ReadDetails([]byte(`{"description":"The disk is full."}`))) }},
		{"ReadAnswer", func() error { return second(osb.ReadAnswer(osb.KindProvision, 201, []byte("{}"))) }},
		{"RetryAfter", func() error { return second(osb.RetryAfter("120")) }},
		{"ReceiveRequest", func() error {
			return second(osb.ReceiveRequest("", 1000, "PUT", target, []byte(provisionBody)))
		}},
		{"MemberText", func() error { return second(osb.MemberText([]byte(provisionBody), "space_guid")) }},
		{"AttributesDigest", func() error { return second(osb.AttributesDigest([]byte(`{"parameters":{"size":1}}`))) }},
		{"ParametersDigest", func() error { return second(osb.ParametersDigest([]byte(`{"size":1}`))) }},
		{"Asked.Request", func() error { return second(s.asked.Request(osb.BrokerRow{}, false)) }},
		{"WriteDescribedAnswer with an operation", func() error {
			return second(osb.WriteDescribedAnswer(osb.Answer{Status: 202, Body: osb.BodyEmpty}, &operation, nil))
		}},
		{"WriteDescribedAnswer", func() error { return second(osb.WriteDescribedAnswer(s.failed, nil, &description)) }},
		{"RefusalBody", func() error { return second(osb.RefusalBody(osb.ErrRefusedBody)) }},
		{"APIVersion", func() error { return osb.APIVersion(&version) }},
		{"BasicAuth", func() error {
			return osb.BasicAuth("Basic QWxhZGRpbjpvcGVuIHNlc2FtZQ==", "Aladdin", "open sesame")
		}},
		{"OriginatingIdentity", func() error { return second(osb.OriginatingIdentity("cloudfoundry e30=")) }},
		{"RequestIdentity", func() error { return osb.RequestIdentity("e26cee84-6b38-4456-b34e-d1a9f002c956") }},
		{"CataloguePlans", func() error { return second(osb.CataloguePlans(catalogue)) }},
		{"CheckCatalogue", func() error { return osb.CheckCatalogue([]byte(sold), all) }},
		{"ServedCatalogue", func() error { return second(osb.ServedCatalogue(catalogue)) }},
		{"ReadTarget", func() error { osb.ReadTarget("", "/v2/catalog"); return nil }},
		{"PlanVersion", func() error { return second(osb.PlanVersion([]byte(sold), hashID("a0"), hashID("b1"))) }},
		{"MaintenanceConflict", func() error { return osb.MaintenanceConflict(&version, []byte(provisionBody)) }},
	}
}

func (s steps) ofBindings() []step {
	of, asked, object := hashID(boundNames.Instance), namedBind(osb.KindProvision), []byte(`{"credentials":{}}`)
	return []step{
		{"WriteBindingTarget", func() error { return second(osb.WriteBindingTarget("", asked, of, boundNames, nil)) }},
		{"WriteFetchTarget", func() error { return second(osb.WriteFetchTarget("", asked, of, boundNames)) }},
		{"WriteBindingBody", func() error {
			return second(osb.WriteBindingBody(osb.KindProvision, boundNames, []byte("{}")))
		}},
		{"ReceiveBindingRequest", func() error {
			return second(osb.ReceiveBindingRequest("", 1000, "PUT", boundPath, []byte(bindBody)))
		}},
		{"BindingRefusalBody", func() error { return second(osb.BindingRefusalBody(osb.ErrRefusedBinding)) }},
		{"RequiresApp", func() error { return osb.RequiresApp(true, []byte(bindBody)) }},
		{"CheckBinding", func() error { return osb.CheckBinding(object) }},
		{"ReadBinding", func() error { return second(osb.ReadBinding(osb.KindProvision, 201, object)) }},
		{"ReadFetched", func() error { return second(osb.ReadFetched(200, object)) }},
		{"BindingModes", func() error { return second(osb.BindingModes([]byte(sold))) }},
		{"BindingsRetrievable", func() error { return second(osb.BindingsRetrievable([]byte(sold), hashID("a0"))) }},
	}
}

func ofTheWireOfUpdates() []step {
	version, usable := "2.1.1+abcdef", true
	catalogue, of, small := []byte(sold), hashID("a0"), hashID("b1")
	patch := []byte(`{"service_id":"a0","plan_id":"b1","parameters":{"size":1},"x-osb-update":1}`)
	texts := osb.InstanceTexts{Service: "a0", Plan: "b1", Parameters: []byte(`{"size":1}`), Version: &version, Number: 1}
	failed := osb.Answer{Status: 200, Body: osb.BodyFailed}
	return []step{
		{"ReceiveUpdateRequest", func() error { return second(osb.ReceiveUpdateRequest("", 1000, "PATCH", target, patch)) }},
		{"UpdateRefusalBody", func() error { return second(osb.UpdateRefusalBody(osb.ErrRefusedNumber)) }},
		{"WriteSuccess", func() error { return second(osb.WriteSuccess(202, &version, nil, nil)) }},
		{"WriteFailure", func() error { return second(osb.WriteFailure(failed, nil, &usable, &usable)) }},
		{"WriteFetchedInstance", func() error { return second(osb.WriteFetchedInstance(texts)) }},
		{"ReadPlanUpdates", func() error { return second(osb.ReadPlanUpdates(catalogue, of, small)) }},
		{"NumbersUpdates", func() error { return second(osb.NumbersUpdates(catalogue)) }},
		{"UpdateFlagsAreSound", func() error { return second(osb.UpdateFlagsAreSound(catalogue)) }},
		{"ServedUpdates", func() error { return second(osb.ServedUpdates(catalogue)) }},
		{"UpdateAllowed", func() error {
			return second(osb.UpdateAllowed(catalogue, of, small, small, &version, osb.ModeSync))
		}},
		{"VersionDigest", func() error { return second(osb.VersionDigest(version)) }},
	}
}

func repeat(b *testing.B, call func() error) {
	for round := 0; round < b.N; round++ {
		check(b, call())
	}
}
