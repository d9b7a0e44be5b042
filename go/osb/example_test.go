package osb_test

import (
	"errors"
	"fmt"

	"pippinterm/osb"
)

var (
	instance = osb.MustParseID("00000000-0000-0000-0000-000000000001")
	service  = osb.MustParseID("00000000-0000-0000-0000-0000000000a0")
	plan     = osb.MustParseID("00000000-0000-0000-0000-0000000000b1")
	async    = osb.MustParseID("00000000-0000-0000-0000-0000000000b2")
)

// One instance, by both sides, without HTTP: what each keeps is a value, and its text goes to a database.
func Example_values() {
	record, sent := osb.Create(instance, service, plan, false)
	var holding osb.Holding

	// The broker records the work, does it, and ends it.
	holding, begun, err := holding.Begin(osb.ModeSync, sent.Request, osb.Rules{})
	fmt.Println(begun.Work, err)
	holding, answer, err := holding.End(osb.ModeSync, osb.OutcomeDone)
	fmt.Println(answer.Status, err)

	// The platform takes the answer under the number of its request.
	record, err = record.Answer(sent.Attempt, answer)
	fmt.Println(record.State(), err)
	_, _, err = record.Send(instance)
	fmt.Println(errors.Is(err, osb.ErrNothingDue))

	fmt.Println(holding.Row())
	// Output:
	// make <nil>
	// 201 <nil>
	// ready <nil>
	// true
	// {00000000-0000-0000-0000-0000000000a0 00000000-0000-0000-0000-0000000000b1 ready} true
}

// What a platform sends of ids that are any texts, and what a broker receives.
func ExampleReceiveRequest() {
	names := osb.Names{Instance: "orders database", Service: "postgres", Plan: "postgres-small"}
	instance, _ := osb.IDOfText(names.Instance) // it fails only if a text isn't 1 to 255 bytes of UTF-8
	service, _ := osb.IDOfText(names.Service)
	plan, _ := osb.IDOfText(names.Plan)
	request := osb.Request{Kind: osb.KindProvision, ID: instance, Service: service, Plan: plan}

	target, err := osb.WriteNamedTarget("", request, names, nil)
	fmt.Println(target, err)
	further := []byte(`{"parameters": {"size": 3}}`)
	body, err := osb.WriteNamedBody(request.Kind, names, "an organization", "a space", further)
	fmt.Println(err)

	received, err := osb.ReceiveRequest("", 1<<20, "PUT", target, body)
	fmt.Println(received.Names, err)
	fmt.Printf("%s\n%s\n", received.Parts.Parameters, received.Parts.Others)
	fmt.Println(received.Asked.ID == instance)
	// Output:
	// /v2/service_instances/orders%20database <nil>
	// <nil>
	// {orders database postgres postgres-small} <nil>
	// {"size":3}
	// {"organization_guid":"an organization","space_guid":"a space"}
	// true
}
