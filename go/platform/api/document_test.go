package api

import (
	"encoding/json"
	"fmt"
	"net/http"
	"net/url"
	"os"
	"reflect"
	"strconv"
	"strings"
	"testing"
	"time"

	"github.com/getkin/kin-openapi/openapi3"

	"pippinterm/internal/diff"
	"pippinterm/osb"
)

// described is the document, and errDescribed why it can't be read.
var described, errDescribed = openapi3.NewLoader().LoadFromData(document)

// The texts of some formats are checked, too, and errors are one line.
func init() {
	openapi3.SchemaErrorDetailsDisabled = true
	openapi3.DefineStringFormatCallback("date-time", func(text string) error {
		read, err := time.Parse(time.RFC3339Nano, text)
		if err == nil && read.Year() < 2000 {
			err = fmt.Errorf("the year is %d", read.Year())
		}
		return err
	})
	openapi3.DefineStringFormatCallback("uuid", func(text string) error { return diff.Err(osb.ParseID(text)) })
}

// checkText checks a text of JSON.
func checkText(of *openapi3.SchemaRef, text []byte) error {
	var value any
	if err := json.Unmarshal(text, &value); err != nil {
		return fmt.Errorf("%w: %.200q", err, text)
	}
	return of.Value.VisitJSON(value)
}

// The document has the routes of the handler, and no others, with their parameters and permissions.
func TestDocumentHasTheRoutes(t *testing.T) {
	check(t, errDescribed)
	operations := map[string]*openapi3.Operation{}
	for pattern, item := range described.Paths {
		for method, operation := range item.Operations() {
			operations[method+" "+pattern] = operation
		}
	}
	for _, route := range routes {
		at := route.method + " " + route.pattern
		found := operations[at]
		if found == nil {
			t.Errorf("%s: got none in the document, want one", at)
			continue
		}
		if found.OperationID == "" || found.Summary == "" {
			t.Errorf("%s: got the name %q, want one with a summary", at, found.OperationID)
		}
		checkOperation(t, route, found)
		delete(operations, at)
	}
	for at := range operations {
		t.Errorf("%s: got no route, want one", at)
	}
}

func checkOperation(t *testing.T, it route, found *openapi3.Operation) {
	t.Helper()
	at := it.method + " " + it.pattern
	var query, path []string
	for _, parameter := range found.Parameters {
		switch parameter.Value.In {
		case "query":
			query = append(query, parameter.Value.Name)
		case "path":
			path = append(path, "{"+parameter.Value.Name+"}")
		}
	}
	diff.Check(t, query, it.query, "%s: the query", at)
	for _, segment := range strings.Split(it.pattern, "/") {
		if strings.HasPrefix(segment, "{") && !strings.Contains(strings.Join(path, ""), segment) {
			t.Errorf("%s: got the parameters %v, want those of the path", at, path)
		}
	}
	diff.Equal(t, found.RequestBody != nil && found.RequestBody.Value.Required, it.hasBody, "%s has a body", at)
	diff.Equal(t, found.Security != nil && len(*found.Security) == 0, it.needs == 0, "%s is for everybody", at)
	for name, permission := range permissions {
		diff.Equal(t, strings.HasSuffix(found.Description, "the permission "+name+"."), it.needs == permission,
			"%s needs the permission %s", at, name)
	}
}

// The document is one of OpenAPI 3.0, and has no member that OpenAPI doesn't know. Each reference leads somewhere, each
// component is used, and each thing that is needed is described.
func TestDocumentIsWhole(t *testing.T) {
	check(t, errDescribed)
	check(t, described.Validate(background))
	diff.Equal(t, len(unknownMembers(reflect.ValueOf(described))), 0, "")
	text := string(document)
	diff.Equal(t, strings.Count(text, `"type": "object"`), strings.Count(text, `"additionalProperties": `), "")
	for name, schema := range described.Components.Schemas {
		diff.Contains(t, text, `"#/components/schemas/`+name+`"`, "the schema %s", name)
		for _, needed := range schema.Value.Required {
			diff.Equal(t, schema.Value.Properties[needed] != nil, true, "the schema %s has %s", name, needed)
		}
	}
	for name, response := range described.Components.Responses {
		if *response.Value.Description == "" || !strings.Contains(text, `"#/components/responses/`+name+`"`) {
			t.Errorf("the response %s: got no description or no use, want both", name)
		}
	}
	for name := range described.Components.Parameters {
		diff.Contains(t, text, `"#/components/parameters/`+name+`"`, "the parameter %s", name)
	}
}

// unknownMembers are the members of a part of the document that OpenAPI doesn't have.
func unknownMembers(part reflect.Value) (found []string) {
	switch part.Kind() {
	case reflect.Interface, reflect.Pointer:
		if !part.IsNil() {
			found = unknownMembers(part.Elem())
		}
	case reflect.Slice:
		for n := 0; n < part.Len(); n++ {
			found = append(found, unknownMembers(part.Index(n))...)
		}
	case reflect.Map:
		for _, name := range part.MapKeys() {
			found = append(found, unknownMembers(part.MapIndex(name))...)
		}
	case reflect.Struct:
		for n := 0; n < part.NumField(); n++ {
			found = append(found, unknownMembers(part.Field(n))...)
		}
		if part.Type() == reflect.TypeOf(openapi3.ExtensionProps{}) {
			for _, name := range part.FieldByName("Extensions").MapKeys() {
				found = append(found, name.String())
			}
		}
	}
	return found
}

// The members of the bodies that are read and written are those of their schemas. What a Reader returns has no other
// fields: so the page shows nothing that the API doesn't answer.
func TestSchemasHaveTheMembers(t *testing.T) {
	check(t, errDescribed)
	schemas := described.Components.Schemas
	for name, example := range map[string]any{
		"NewInstance": newInstance{}, "NewBinding": newBinding{}, "Abandon": givenReason{}, "NewBroker": newBroker{},
		"Settings": Settings{}, "Broker": Broker{}, "Binding": Record{}, "Record": Record{}, "Reason": Reason{},
		"Flight": Flight{}, "Problem": problem{}, "Stay": Stay{}, "Instances": List{}, "Bindings": List{},
		"Records": List{}, "Brokers": brokerList{}, "Counts": Counts{}, "": Count{},
	} {
		t.Run("schema "+name, func(t *testing.T) {
			members := map[string]bool{}
			of := reflect.TypeOf(example)
			for at := 0; at < of.NumField(); at++ {
				member, _, _ := strings.Cut(of.Field(at).Tag.Get("json"), ",")
				if member != "" {
					members[member] = true
				} else if of.Field(at).IsExported() {
					t.Errorf("got the field %s of %s without a member, want one", of.Field(at).Name, of)
				}
			}
			schema := schemas["Counts"].Value.Properties["counts"].Value.Items
			if name != "" {
				schema = schemas[name]
			}
			for member := range schema.Value.Properties {
				diff.Equal(t, members[member], true, "%s has the member %s", name, member)
				delete(members, member)
			}
			diff.Equal(t, len(members), 0, "the schema %s", name)
		})
	}
	states := map[any]bool{}
	for _, state := range allStates {
		states[string(state)] = true
	}
	if enum := schemas["State"].Value.Enum; len(enum) != len(states) || !states[enum[0]] {
		t.Errorf("the states: got %v, want those of the platform", enum)
	}
}

func TestDocumentIsAnswered(t *testing.T) {
	r := newRig(t)
	got := r.callAs("", http.MethodGet, "/v1/openapi.json", "").want(200, "")
	if !json.Valid([]byte(got.text)) || got.text != string(document) {
		t.Error("got another text, want the document")
	}
}

// What the validator is for: it finds what is wrong.
func TestValidator(t *testing.T) {
	check(t, errDescribed)
	good := `{"type": "about:blank", "title": "t", "status": 404, "code": "not_found"}`
	of := described.Components.Schemas["Problem"]
	check(t, checkText(of, []byte(good)))
	for _, pair := range [][2]string{
		{`"status": 404`, `"status": "404"`}, {`"status": 404`, `"status": 1.5`}, {`"status": 404`, `"status": -1`},
		{"not_found", "other"}, {`, "code": "not_found"`, ""}, {`"title"`, `"more": 1, "title"`}, {`"t"`, `null`},
	} {
		diff.Error(t, checkText(of, []byte(strings.Replace(good, pair[0], pair[1], 1))), "%s", pair[1])
	}
	for text, of := range map[string]*openapi3.Schema{
		`"0001-01-01T00:00:00Z"`: openapi3.NewDateTimeSchema(), `"x"`: openapi3.NewUUIDSchema(),
		`"true"`: openapi3.NewBoolSchema(), `[1]`: openapi3.NewArraySchema().WithItems(openapi3.NewObjectSchema()),
	} {
		t.Run(text, func(t *testing.T) {
			diff.Error(t, checkText(of.NewRef(), []byte(text)),
				"%s of the type %s and the format %q", text, of.Type, of.Format)
		})
	}
}

// checkDocumented checks an answer against the document, and so the body that was asked with, if it was accepted.
func (r *rig) checkDocumented(request *http.Request, asked []byte, answered response) {
	r.Helper()
	method := request.Method
	if method == http.MethodHead {
		method = http.MethodGet
	}
	at := method + " " + request.URL.Path + " " + strconv.Itoa(answered.status)
	found, _, _ := routeOf(method, request.URL.EscapedPath())
	if found == nil {
		diff.NoError(r, checkText(described.Components.Schemas["Problem"], []byte(answered.text)), "%s", at)
		return
	}
	item := described.Paths[found.pattern]
	if item == nil || item.GetOperation(method) == nil {
		r.Fatalf("%s: got none in the document, want one", at)
	}
	operation := item.GetOperation(method)
	if answered.status < 300 && operation.RequestBody != nil {
		body := operation.RequestBody.Value.Content["application/json"]
		diff.NoError(r, checkText(body.Schema, asked), "%s, %s", at, asked)
	}
	wanted := operation.Responses.Get(answered.status)
	if wanted == nil {
		r.Fatalf("%s: got a status that the document doesn't have, want one that it has: %s", at, answered.text)
	}
	if len(wanted.Value.Content) == 0 && answered.text != "" {
		r.Errorf("%s: got the body %s, want none, as in the document", at, answered.text)
	}
	for kind, media := range wanted.Value.Content {
		diff.Equal(r, answered.header.Get("Content-Type"), kind, "%s", at)
		if request.Method == http.MethodHead {
			continue
		}
		diff.NoError(r, checkText(media.Schema, []byte(answered.text)), "%s, %s", at, answered.text)
	}
}

// The answers that the tests of the page have are those of the document, and so is what they are asked by.
func TestRecordedAnswersAreDocumented(t *testing.T) {
	text := diff.Value(os.ReadFile("../page/testdata/recorded.json"))(t)
	var answers map[string]json.RawMessage
	check(t, json.Unmarshal(text, &answers))
	diff.AtLeast(t, len(answers), 10, "")
	check(t, errDescribed)
	for target, body := range answers {
		at := diff.Value(url.Parse(target))(t)
		found, _, _ := routeOf("GET", at.EscapedPath())
		if found == nil || found.needs != Read {
			t.Errorf("%s: got no such path, want one to read", target)
			continue
		}
		operation := described.Paths[found.pattern].Get
		for name, values := range at.Query() {
			of := operation.Parameters.GetByInAndName("query", name)
			for _, value := range values {
				if of == nil || of.Schema.Value.Enum != nil && of.Schema.Value.VisitJSON(value) != nil {
					t.Errorf("%s: got no %s=%s in the query, want one", target, name, value)
				}
			}
		}
		diff.NoError(t, checkText(operation.Responses.Get(200).Value.Content["application/json"].Schema, body),
			"%s", target)
	}
}
