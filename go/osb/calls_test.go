package osb_test

import (
	"encoding/hex"
	"encoding/json"
	"errors"
	"os"
	"reflect"
	"regexp"
	"strconv"
	"strings"
	"testing"

	"pippinterm/osb"
)

// arguments are what a call is given. Their methods fail the test if a cell isn't of their kind.
type arguments struct {
	t *testing.T
	cells
	wants cells // the result of the call
}

func (a arguments) text(column string) string {
	a.t.Helper()
	cell, isColumn := a.cells[column]
	if !isColumn || cell == nil {
		a.t.Fatalf("got no %s, want one", column)
	}
	return *cell
}

func (a arguments) bytes(column string) []byte { return []byte(a.text(column)) }

func (a arguments) flag(column string) bool { return a.text(column) == "yes" }

func (a arguments) number(column string) int {
	number, err := strconv.Atoi(a.text(column))
	check(a.t, err)
	return number
}

// id is the number of a text.
func (a arguments) id(column string) osb.ID { return idOf(a.text(column)) }

// idIf is the number of a text that may be missing.
func (a arguments) idIf(column string) (osb.ID, bool) {
	if a.cells[column] == nil {
		return osb.ID{}, false
	}
	return a.id(column), true
}

// rawIf is JSON that may be missing.
func (a arguments) rawIf(column string) json.RawMessage {
	if a.cells[column] == nil {
		return nil
	}
	return json.RawMessage(a.bytes(column))
}

// flagIf is a flag that may be missing.
func (a arguments) flagIf(column string) *bool {
	if a.cells[column] == nil {
		return nil
	}
	is := a.flag(column)
	return &is
}

func (a arguments) kind() osb.Kind { return osb.Kind(a.enum("kind", kindNames)) }

func (a arguments) state() osb.State { return osb.State(a.enum("state", stateNames)) }

func (a arguments) answer() osb.Answer {
	return osb.Answer{Status: uint16(a.number("status")), Body: osb.Body(a.enum("body", bodyNames))}
}

func (a arguments) request() osb.Request {
	return osb.Request{
		Kind: a.kind(), AcceptsIncomplete: a.cells["accepts"] == nil || a.flag("accepts"),
		ID: a.id("id"), Service: a.id("service_id"), Plan: a.id("plan_id"),
	}
}

func (a arguments) names() osb.Names {
	return osb.Names{Instance: a.text("instance"), Service: a.text("service"), Plan: a.text("plan")}
}

func (a arguments) refusal() osb.Status { return statusNames[a.text("refusal")] }

// enum is the number of a name, or the number itself.
func (a arguments) enum(column string, names map[string]uint8) uint8 {
	return numberOf(a.t, a.text(column), names)
}

var (
	kindNames   = numbersOf(func(n uint8) string { return osb.Kind(n).String() })
	stateNames  = numbersOf(func(n uint8) string { return osb.State(n).String() })
	bodyNames   = numbersOf(func(n uint8) string { return osb.Body(n).String() })
	statusNames = statusesByName()
)

// statusesByName has the statuses by their names in the header, without OSB_.
func statusesByName() map[string]osb.Status {
	header, err := os.ReadFile("../../include/osb.h")
	if err != nil {
		panic(err)
	}
	_, behind, _ := strings.Cut(string(header), "enum osb_status {")
	within, _, _ := strings.Cut(behind, "}")
	found := map[string]osb.Status{}
	for _, row := range regexp.MustCompile(`OSB_(\w+) = (\d+)`).FindAllStringSubmatch(within, -1) {
		number, err := strconv.Atoi(row[2])
		if err != nil {
			panic(err)
		}
		found[row[1]] = osb.Status(number)
	}
	return found
}

// numbersOf has the number of each name that an enum has.
func numbersOf(name func(uint8) string) map[string]uint8 {
	found := map[string]uint8{}
	for n := 0; n < 256; n++ {
		if word := name(uint8(n)); !strings.Contains(word, "(") {
			found[word] = uint8(n)
		}
	}
	return found
}

// idOf is the number of a text: of a GUID in lower case its own, else that of its digest.
func idOf(text string) osb.ID {
	if id, err := osb.ParseID(text); err == nil && id.String() == text {
		return id
	}
	return hashID(text)
}

// plans are those of a cell.
func plans(plans []osb.Plan) string {
	var rows []string
	for _, plan := range plans {
		mode := "sync"
		if plan.IsAsynchronous {
			mode = "async"
		}
		rows = append(rows, plan.Service.String()+" "+plan.Plan.String()+" "+mode)
	}
	return strings.Join(rows, ", ")
}

// errorIn is the code of an error, whose body has a description too, and nothing else.
func errorIn(t *testing.T, body []byte) string {
	t.Helper()
	var object map[string]string
	check(t, json.Unmarshal(body, &object))
	if len(object) != 2 || object["description"] == "" {
		t.Errorf("got %s, want an error and a description", body)
	}
	return object["error"]
}

// results are those of a call, as cells.
type results []*string

func text(of string) *string { return &of }

func word(is bool) *string {
	if is {
		return text("yes")
	}
	return text("no")
}

// one is the result of a call that gives a text.
func one[T ~string | ~[]byte](of T, err error) (results, error) {
	return results{text(string(of))}, err
}

// errorResult is the result of a call that gives nothing.
func errorResult(err error) (results, error) { return results{text("done")}, err }

// unset fails the test if what a call gave with an error isn't its zero value.
func unset[T any](t *testing.T, got, zero T) results {
	t.Helper()
	if !reflect.DeepEqual(got, zero) {
		t.Errorf("got %+v with an error, want the zero value", got)
	}
	return nil
}

// zeros are the cells of zero values, which come with an error.
var zeros = map[string]bool{
	"": true, "0": true, "no": true, "done": true, osb.BodyMalformed.String(): true, osb.ID{}.String(): true,
	hex.EncodeToString(make([]byte, len(osb.Digest{}))): true,
}

func raw(of json.RawMessage) *string {
	if of == nil {
		return nil
	}
	return text(string(of))
}

// nonempty is a text that is missing where it is empty.
func nonempty(of string) *string {
	if of == "" {
		return nil
	}
	return &of
}

func wordIf(is *bool) *string {
	if is == nil {
		return nil
	}
	return word(*is)
}

// requestResults are the kind of what is asked, and whether it may be asynchronous. The ids are the numbers of their
// texts.
func requestResults(t *testing.T, it osb.Asked, id, service, plan string) results {
	t.Helper()
	wanted := osb.Asked{
		Kind: it.Kind, AcceptsIncomplete: it.AcceptsIncomplete, ID: idOf(id), HasService: service != "", HasPlan: plan != "",
	}
	if wanted.HasService {
		wanted.Service = idOf(service)
	}
	if wanted.HasPlan {
		wanted.Plan = idOf(plan)
	}
	equal(t, "what is asked", it, wanted)
	return results{text(it.Kind.String()), word(it.AcceptsIncomplete)}
}

// updateAskedResults are those of what an Update or a Fetch asks. The ids are the numbers of their texts, and what
// doesn't count is zero.
func updateAskedResults(t *testing.T, it osb.UpdateReceived) results {
	t.Helper()
	given := it.Asked.Update
	wanted := osb.UpdateAsked{IsFetch: it.Asked.IsFetch, ID: idOf(it.Names.Instance)}
	named := osb.Change{HasPlan: it.Names.Plan != ""}
	if named.HasPlan {
		named.Plan = idOf(it.Names.Plan)
	}
	if wanted.IsFetch {
		wanted.HasService, wanted.HasPlan, wanted.Plan = it.Names.Service != "", named.HasPlan, named.Plan
		if wanted.HasService {
			wanted.Service = idOf(it.Names.Service)
		}
	} else {
		wanted.Update = given
		wanted.Update.Service = idOf(it.Names.Service)
		wanted.Update.Change.Plan, wanted.Update.Change.HasPlan = named.Plan, named.HasPlan
	}
	equal(t, "what is asked", it.Asked, wanted)
	return results{
		word(it.Asked.IsFetch), word(given.AcceptsIncomplete), text(strconv.FormatUint(given.Number, 10)),
		digestIf(given.Change.HasParameters, given.Change.Parameters),
		digestIf(given.Change.HasVersion, given.Change.Version),
	}
}

// digestIf is a digest that may be missing.
func digestIf(isThere bool, digest osb.Digest) *string {
	if !isThere {
		return nil
	}
	return text(hex.EncodeToString(digest[:]))
}

// calls are those of the cases, by their names.
var calls = map[string]func(arguments) (results, error){
	"id_of_text": func(a arguments) (results, error) {
		id, err := osb.IDOfText(a.text("text"))
		return results{text(id.String())}, err
	},
	"id_from_text": func(a arguments) (results, error) {
		id, err := osb.ParseID(a.text("text"))
		return results{text(id.String())}, err
	},
	"decide_deprovision": func(a arguments) (results, error) {
		return results{text(osb.DecideDeprovision(a.answer()).String())}, nil
	},
	"decide_poll": func(a arguments) (results, error) {
		return results{text(osb.DecidePoll(a.state(), a.answer()).String())}, nil
	},
	"read_answer": func(a arguments) (results, error) {
		answer, err := osb.ReadAnswer(a.kind(), uint16(a.number("status")), a.bytes("body"))
		if err == nil && int(answer.Status) != a.number("status") {
			a.t.Errorf("got the status %d, want %d", answer.Status, a.number("status"))
		}
		return results{text(answer.Body.String())}, err
	},
	"read_details": func(a arguments) (results, error) {
		it, err := osb.ReadDetails(a.bytes("body"))
		return results{
			it.Description, it.Error, it.DashboardURL, it.Operation, raw(it.Metadata), wordIf(it.InstanceUsable),
			wordIf(it.UpdateRepeatable),
		}, err
	},
	"retry_after": func(a arguments) (results, error) {
		seconds, err := osb.RetryAfter(a.text("value"))
		return results{text(strconv.FormatUint(seconds, 10))}, err
	},
	"write_method": func(a arguments) (results, error) { return one(osb.WriteMethod(a.kind())) },
	"write_named_target": func(a arguments) (results, error) {
		return one(osb.WriteNamedTarget(a.text("prefix"), a.request(), a.names(), a.cells["operation"]))
	},
	"write_named_body": func(a arguments) (results, error) {
		names := osb.Names{Service: a.text("service"), Plan: a.text("plan")}
		return one(osb.WriteNamedBody(a.kind(), names, a.text("organization"), a.text("space"), a.bytes("further")))
	},
	"receive_request": func(a arguments) (results, error) {
		it, err := osb.ReceiveRequest(
			a.text("prefix"), a.number("longest_body"), a.text("method"), a.text("target"), a.bytes("body"))
		if err != nil {
			return unset(a.t, it, osb.Received{}), err
		}
		first := requestResults(a.t, it.Asked, it.Names.Instance, it.Names.Service, it.Names.Plan)
		return append(first, &it.Names.Instance, nonempty(it.Names.Service), nonempty(it.Names.Plan),
			raw(it.Parts.Parameters), raw(it.Parts.Context), raw(it.Parts.MaintenanceInfo), raw(it.Parts.Others)), nil
	},
	"asked_request": func(a arguments) (results, error) {
		it := osb.Asked{Kind: a.kind(), AcceptsIncomplete: a.flag("accepts"), ID: a.id("id")}
		it.Service, it.HasService = a.idIf("service")
		it.Plan, it.HasPlan = a.idIf("plan")
		var held osb.BrokerRow
		var isHeld bool
		held.Service, isHeld = a.idIf("held_service")
		held.Plan, _ = a.idIf("held_plan")
		made, err := it.Request(held, isHeld)
		if err == nil && (made.Kind != it.Kind || made.AcceptsIncomplete != it.AcceptsIncomplete || made.ID != it.ID) {
			a.t.Errorf("got %+v, want %+v", made, it)
		}
		return results{text(made.Service.String()), text(made.Plan.String())}, err
	},
	"member_text": func(a arguments) (results, error) {
		return one(osb.MemberText(a.bytes("body"), a.text("name")))
	},
	"parameters_digest": func(a arguments) (results, error) {
		digest, err := osb.ParametersDigest(a.bytes("parameters"))
		return results{text(hex.EncodeToString(digest[:]))}, err
	},
	"attributes_digest": func(a arguments) (results, error) {
		digest, err := osb.AttributesDigest(a.bytes("body"))
		return results{text(hex.EncodeToString(digest[:]))}, err
	},
	"write_told_answer": func(a arguments) (results, error) {
		return one(osb.WriteDescribedAnswer(a.answer(), a.cells["operation"], a.cells["description"]))
	},
	"refusal_status": func(a arguments) (results, error) {
		return results{text(strconv.Itoa(int(osb.RefusalStatus(a.refusal()))))}, nil
	},
	"refusal_body": func(a arguments) (results, error) {
		body, err := osb.RefusalBody(a.refusal())
		if err != nil {
			return nil, err
		}
		return results{text(errorIn(a.t, body))}, nil
	},
	"api_version": func(a arguments) (results, error) { return errorResult(osb.APIVersion(a.cells["value"])) },
	"basic_auth": func(a arguments) (results, error) {
		return errorResult(osb.BasicAuth(a.text("value"), a.text("user"), a.text("password")))
	},
	"originating_identity": func(a arguments) (results, error) {
		it, err := osb.OriginatingIdentity(a.text("value"))
		return results{&it.Platform, raw(it.Object)}, err
	},
	"request_identity": func(a arguments) (results, error) {
		return errorResult(osb.RequestIdentity(a.text("value")))
	},
	"catalogue_plans": func(a arguments) (results, error) {
		found, err := osb.CataloguePlans(a.bytes("document"))
		return results{text(plans(found))}, err
	},
	"catalogue_check": func(a arguments) (results, error) {
		var serves osb.Endpoints
		for _, name := range strings.Fields(a.text("serves")) {
			*map[string]*bool{
				"updating": &serves.Updating, "bindings": &serves.Bindings,
				"fetching_instances": &serves.FetchingInstances, "fetching_bindings": &serves.FetchingBindings,
			}[name] = true
		}
		return errorResult(osb.CheckCatalogue(a.bytes("document"), serves))
	},
	"served_catalogue": func(a arguments) (results, error) {
		return one(osb.ServedCatalogue(a.bytes("document")))
	},
	"read_target": func(a arguments) (results, error) {
		return results{text(osb.ReadTarget(a.text("prefix"), a.text("target")).String())}, nil
	},
	"plan_version": func(a arguments) (results, error) {
		return one(osb.PlanVersion(a.bytes("document"), a.id("service"), a.id("plan")))
	},
	"maintenance_conflict": func(a arguments) (results, error) {
		return errorResult(osb.MaintenanceConflict(a.cells["version"], a.bytes("body")))
	},
	"write_binding_target": func(a arguments) (results, error) {
		names := osb.BindingNames{
			Instance: a.text("instance"), Binding: a.text("binding"), Service: a.text("service"), Plan: a.text("plan"),
		}
		if a.flag("is_fetch") {
			return one(osb.WriteFetchTarget(a.text("prefix"), a.request(), a.id("instance_id"), names))
		}
		return one(osb.WriteBindingTarget(
			a.text("prefix"), a.request(), a.id("instance_id"), names, a.cells["operation"]))
	},
	"write_binding_body": func(a arguments) (results, error) {
		names := osb.BindingNames{Service: a.text("service"), Plan: a.text("plan")}
		return one(osb.WriteBindingBody(a.kind(), names, a.bytes("further")))
	},
	"receive_binding_request": func(a arguments) (results, error) {
		it, err := osb.ReceiveBindingRequest(
			a.text("prefix"), a.number("longest_body"), a.text("method"), a.text("target"), a.bytes("body"))
		if err != nil {
			return unset(a.t, it, osb.BindingReceived{}), err
		}
		if it.Asked.Instance != idOf(it.Names.Instance) {
			a.t.Errorf("got the instance %v, want that of %s", it.Asked.Instance, it.Names.Instance)
		}
		first := append(results{word(it.Asked.IsFetch)},
			requestResults(a.t, it.Asked.Asked, it.Names.Binding, it.Names.Service, it.Names.Plan)...)
		return append(first, &it.Names.Instance, &it.Names.Binding, nonempty(it.Names.Service), nonempty(it.Names.Plan),
			raw(it.Parts.BindResource), raw(it.Parts.Parameters), raw(it.Parts.Context),
			raw(it.Parts.PredecessorBindingID)), nil
	},
	"binding_refusal_status": func(a arguments) (results, error) {
		return results{text(strconv.Itoa(int(osb.BindingRefusalStatus(a.refusal()))))}, nil
	},
	"binding_refusal_body": func(a arguments) (results, error) {
		body, err := osb.BindingRefusalBody(a.refusal())
		if err != nil {
			return nil, err
		}
		return results{text(errorIn(a.t, body))}, nil
	},
	"requires_app": func(a arguments) (results, error) {
		return errorResult(osb.RequiresApp(a.flag("needs_app"), a.bytes("body")))
	},
	"write_binding": func(a arguments) (results, error) { return errorResult(osb.CheckBinding(a.bytes("object"))) },
	"read_binding": func(a arguments) (results, error) {
		status, body := uint16(a.number("status")), a.bytes("body")
		object, err := osb.ReadFetched(status, body)
		if !a.flag("is_fetch") {
			object, err = osb.ReadBinding(a.kind(), status, body)
		}
		if err == nil && string(object) != string(body) {
			a.t.Errorf("got %s, want %s", object, body)
		}
		return errorResult(err)
	},
	"binding_modes": func(a arguments) (results, error) {
		found, err := osb.BindingModes(a.bytes("document"))
		return results{text(plans(found))}, err
	},
	"bindings_retrievable": func(a arguments) (results, error) {
		is, err := osb.BindingsRetrievable(a.bytes("document"), a.id("service"))
		return results{word(is)}, err
	},
	"receive_update_request": func(a arguments) (results, error) {
		it, err := osb.ReceiveUpdateRequest(
			a.text("prefix"), a.number("longest_body"), a.text("method"), a.text("target"), a.bytes("body"))
		if err != nil {
			return unset(a.t, it, osb.UpdateReceived{}), err
		}
		return append(updateAskedResults(a.t, it), &it.Names.Instance, nonempty(it.Names.Service),
			nonempty(it.Names.Plan), raw(it.Parts.Parameters), it.Parts.Version, raw(it.Parts.Context),
			raw(it.Parts.PreviousValues)), nil
	},
	"update_refusal_status": func(a arguments) (results, error) {
		return results{text(strconv.Itoa(int(osb.UpdateRefusalStatus(a.refusal()))))}, nil
	},
	"update_refusal_body": func(a arguments) (results, error) {
		body, err := osb.UpdateRefusalBody(a.refusal())
		if err != nil {
			return nil, err
		}
		return results{text(errorIn(a.t, body))}, nil
	},
	"write_success": func(a arguments) (results, error) {
		return one(osb.WriteSuccess(
			uint16(a.number("status")), a.cells["operation"], a.cells["dashboard_url"], a.rawIf("metadata")))
	},
	"write_failure": func(a arguments) (results, error) {
		return one(osb.WriteFailure(a.answer(), a.cells["description"], a.flagIf("usable"), a.flagIf("repeatable")))
	},
	"write_fetched": func(a arguments) (results, error) {
		return one(osb.WriteFetchedInstance(osb.InstanceTexts{
			Service: a.text("service"), Plan: a.text("plan"), Parameters: a.rawIf("parameters"),
			Version: a.cells["version"], DashboardURL: a.cells["dashboard_url"], Metadata: a.rawIf("metadata"),
			Number: unsignedOf(a.t, a.text("number")),
		}))
	},
	"plan_updates": func(a arguments) (results, error) {
		it, err := osb.ReadPlanUpdates(a.bytes("document"), a.id("service"), a.id("plan"))
		found := results{
			word(it.IsSold), word(it.Updateable), word(it.Retrievable), wordIf(it.Asynchronous), it.Version, nil,
		}
		if it.LongestPoll != nil {
			found[5] = text(strconv.FormatUint(*it.LongestPoll, 10))
		}
		return found, err
	},
	"numbers_updates": func(a arguments) (results, error) {
		numbers, err := osb.NumbersUpdates(a.bytes("document"))
		return results{word(numbers)}, err
	},
	"update_flags_are_sound": func(a arguments) (results, error) {
		sound, err := osb.UpdateFlagsAreSound(a.bytes("document"))
		return results{word(sound)}, err
	},
	"served_updates": func(a arguments) (results, error) { return one(osb.ServedUpdates(a.bytes("document"))) },
	"update_allowed": func(a arguments) (results, error) {
		allowed, err := osb.UpdateAllowed(a.bytes("document"), a.id("service"), a.id("held"), a.id("asked"),
			a.cells["version"], osb.Mode(a.enum("otherwise", modeNames)))
		if err != nil {
			return unset(a.t, allowed, osb.Allowed(0)), err
		}
		return results{text(allowed.String())}, nil
	},
	"version_digest": func(a arguments) (results, error) {
		digest, err := osb.VersionDigest(a.text("version"))
		return results{text(hex.EncodeToString(digest[:]))}, err
	},
}

// Each case of api/cases.txt.
func TestCases(t *testing.T) {
	made := map[string]bool{}
	for _, each := range readCases(t) {
		each := each
		made[each.call] = true
		t.Run(each.call+" line "+strconv.Itoa(each.line), func(t *testing.T) {
			call, isCall := calls[each.call]
			if !isCall {
				t.Fatalf("got no call %s, want one", each.call)
			}
			got, err := call(arguments{t, each.given, each.wants})
			if each.status != "DONE" {
				if !errors.Is(err, statusNames[each.status]) {
					t.Errorf("got %v, want %s", err, each.status)
				}
				for _, cell := range got {
					if cell != nil && !zeros[*cell] {
						t.Errorf("got %s with an error, want the zero value", *cell)
					}
				}
				return
			}
			if err != nil || !reflect.DeepEqual(got, wantedResults(each)) {
				t.Errorf("got %v, %v, want %v", textsOf(got), err, textsOf(wantedResults(each)))
			}
		})
	}
	for call := range calls {
		if !made[call] {
			t.Errorf("got no case that calls %s, want one", call)
		}
	}
}

// wantedResults are the results that a case wants. Ids and plans are written as the numbers of their texts.
func wantedResults(of testCase) results {
	found := append(results{}, of.gives...)
	switch of.call {
	case "asked_request":
		for at, cell := range found {
			found[at] = text(idOf(*cell).String())
		}
	case "catalogue_plans", "binding_modes":
		var rows []string
		for _, row := range strings.Split(*found[0], ", ") {
			if cells := strings.Split(row, " "); len(cells) == 3 {
				rows = append(rows, idOf(cells[0]).String()+" "+idOf(cells[1]).String()+" "+cells[2])
			}
		}
		found[0] = text(strings.Join(rows, ", "))
	}
	return found
}

func textsOf(cells results) []string {
	var found []string
	for _, cell := range cells {
		if cell == nil {
			found = append(found, "-")
		} else {
			found = append(found, *cell)
		}
	}
	return found
}
