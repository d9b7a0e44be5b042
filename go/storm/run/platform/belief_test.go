package platform

import (
	"fmt"
	"net/http"
	"strings"
	"testing"
	"time"

	"pippinterm/internal/diff"
	"pippinterm/storm/fault"
	"pippinterm/storm/report"
	"pippinterm/storm/run"
)

// requestWith is a request about the instance one, or the binding of it, with what the platform got. A body of "" is
// one that was cut.
func requestWith(method, path string, status int, body string) fault.Exchange {
	x := fault.Exchange{
		Number: fault.Number{Subject: fault.Subject{Instance: 1}, Request: 1}, Method: method, Instance: "one",
		Target: "/v2/service_instances/one" + path, Fault: fault.None,
		Receipt: fault.Receipt{Status: status, Body: []byte(body), IsWhole: body != "", Words: "something"},
	}
	if strings.Contains(path, "/service_bindings/") {
		x.Binding = "two"
	}
	return x
}

// one are requests, each after the last.
func one(all ...fault.Exchange) []fault.Exchange {
	for at := range all {
		all[at].Begun = time.Duration(at+1) * time.Second
		all[at].Number.Request = at + 1
	}
	return all
}

// The answers to a Provision, by the table of the section Orphan Mitigation.
func TestOrphanMitigation(t *testing.T) {
	for _, test := range []struct {
		status int
		body   string
		wanted belief
	}{
		{200, "{}", ready}, {200, "", unclear}, {200, "[]", unclear}, {201, "{}", ready}, {201, "", doubtful},
		{201, "{]", doubtful}, {202, "{}", creating}, {202, "", doubtful}, {203, "{}", doubtful}, {299, "{}", doubtful},
		{400, "{}", rejected}, {404, "x", rejected}, {408, "{}", unclear}, {409, "{}", rejected}, {422, "{}", rejected},
		{499, "", rejected}, {500, "{}", doubtful}, {599, "", doubtful}, {0, "", doubtful},
	} {
		t.Run(fmt.Sprintf("%d %q", test.status, test.body), func(t *testing.T) {
			for path, key := range map[string]report.Key{
				"": {Instance: "one"}, "/service_bindings/two": {Instance: "one", Binding: "two"},
			} {
				views := viewsOf(one(requestWith(http.MethodPut, path, test.status, test.body)))
				diff.Equal(t, views[key].belief, test.wanted, "%d %q: the belief", test.status, test.body)
				diff.Equal(t, len(views), 1, "%d %q: views", test.status, test.body)
			}
		})
	}
}

// An answer that was cut can't be read, even if what has arrived is an object.
func TestCutObject(t *testing.T) {
	diff.Equal(t, beliefAfterCreation(fault.Receipt{Status: 201, Body: []byte("{}")}), doubtful, "the belief")
}

// What the platform can know after several requests.
func TestViews(t *testing.T) {
	put := func(status int) fault.Exchange { return requestWith(http.MethodPut, "", status, "{}") }
	remove := func(status int) fault.Exchange { return requestWith(http.MethodDelete, "?a=b", status, "{}") }
	polled := func(status int, state string) fault.Exchange {
		return requestWith(http.MethodGet, "/last_operation", status, `{"state": "`+state+`"}`)
	}
	for name, test := range map[string]struct {
		all    []fault.Exchange
		wanted belief
		tried  bool
	}{
		"deleted":                {one(put(201), remove(200)), nothing, false},
		"gone":                   {one(put(503), remove(410)), nothing, false},
		"deleting":               {one(put(201), remove(202)), deleting, false},
		"deletion ended":         {one(put(201), remove(202), polled(200, "succeeded")), nothing, false},
		"deletion gone":          {one(put(201), remove(202), polled(410, "")), nothing, false},
		"deletion goes on":       {one(put(201), remove(202), polled(200, "in progress")), deleting, false},
		"deletion failed":        {one(put(201), remove(202), polled(200, "failed")), undeleted, false},
		"deletion of nothing":    {one(remove(500)), nothing, false},
		"not deleted":            {one(put(201), remove(500)), undeleted, false},
		"not deleted, and gone":  {one(put(201), remove(500), polled(410, "")), nothing, false},
		"deletion rejected":      {one(put(201), remove(422)), undeleted, false},
		"not found":              {one(put(201), remove(404)), undeleted, false},
		"created":                {one(put(202), polled(200, "in progress"), polled(200, "succeeded")), ready, false},
		"creation failed":        {one(put(202), polled(200, "failed")), unclear, false},
		"creation goes on":       {one(put(202), polled(503, "")), creating, false},
		"a 410 ends no creation": {one(put(202), polled(410, "")), creating, false},
		"mitigation tried":       {one(put(500), remove(500)), doubtful, true},
		"mitigation never":       {one(put(500), polled(200, "in progress")), doubtful, false},
		"mitigated later":        {one(put(500), remove(500), remove(200)), nothing, false},
		"polled after all":       {one(put(500), polled(200, "succeeded")), ready, false},
		"repeated":               {one(put(500), put(201)), ready, false},
		"repeated, conflict":     {one(put(500), put(409)), doubtful, false},
		"repeated, no more":      {one(put(201), put(422)), ready, false},
		"rejected, then again":   {one(put(400), put(500)), doubtful, false},
		"repeated, then a 410":   {one(put(500), remove(500), put(201), polled(410, "")), ready, false},
		"fetched":                {one(put(500), requestWith(http.MethodGet, "", 200, "{}")), ready, false},
		"not fetched":            {one(put(500), requestWith(http.MethodGet, "", 404, "{}")), doubtful, false},
		"again after deletion":   {one(put(500), remove(500), remove(200), put(500)), doubtful, false},
	} {
		t.Run(name, func(t *testing.T) {
			got := viewsOf(test.all)[report.Key{Instance: "one"}]
			diff.Equal(t, got.belief, test.wanted, "%s: the belief", name)
			diff.Equal(t, got.tried, test.tried, "%s: a deletion was tried", name)
		})
	}
}

// What exists is compared with what the platform has, or can know.
func TestCompare(t *testing.T) {
	key := report.Key{Instance: "one"}
	yes, no := map[report.Key]bool{key: true}, map[report.Key]bool{}
	put := func(status int) []fault.Exchange { return one(requestWith(http.MethodPut, "", status, "{}")) }
	kept := one(append(put(201), requestWith(http.MethodDelete, "", 500, "{}"))...)
	mitigated := one(append(put(500), requestWith(http.MethodDelete, "", 500, "{}"))...)
	for name, test := range map[string]struct {
		all      []fault.Exchange
		calm     time.Duration
		existing map[report.Key]bool
		listed   list
		wanted   string
	}{
		"ready":                    {put(201), 0, yes, list{}, "exists"},
		"ready, nothing":           {put(201), 0, no, list{}, ""},
		"doubtful":                 {put(500), 0, yes, list{}, "abandoned"},
		"doubtful, nothing":        {put(500), 0, no, list{}, ""},
		"rejected":                 {put(429), 0, yes, list{}, "abandoned"},
		"still polling":            {put(202), 0, yes, list{}, "stuck"},
		"still polling, listed":    {put(202), 0, yes, list{instances: yes}, ""},
		"still polling, unlisted":  {put(202), 0, yes, list{instances: no}, "stuck"},
		"still deleting":           {kept, 0, yes, list{}, "stuck"},
		"no longer deleting":       {kept, time.Minute, yes, list{}, "abandoned"},
		"still mitigating":         {mitigated, 0, yes, list{instances: no}, "stuck"},
		"no longer mitigating":     {mitigated, time.Minute, yes, list{instances: no}, "abandoned"},
		"no longer polling":        {put(202), time.Minute, yes, list{}, "abandoned"},
		"listed":                   {put(201), 0, yes, list{instances: yes}, ""},
		"not listed":               {put(201), 0, yes, list{instances: no}, "abandoned"},
		"listed, nothing":          {put(201), 0, no, list{instances: yes}, "false"},
		"listed, doubtful":         {put(500), 0, yes, list{instances: yes}, "false"},
		"listed, undeleted":        {kept, 0, yes, list{instances: yes}, ""},
		"not listed, nothing":      {put(500), 0, no, list{instances: no}, ""},
		"a list of bindings alone": {put(201), 0, yes, list{bindings: no}, "exists"},
	} {
		t.Run(name, func(t *testing.T) {
			found := &result{views: viewsOf(test.all), calm: test.calm}
			compare(found, []report.Key{key}, test.existing, test.listed)
			names := map[report.DifferenceKind]string{
				run.Present: "exists", run.Lost: "abandoned", run.False: "false", run.Stuck: "stuck",
			}
			got := ""
			for _, difference := range found.Differences {
				got += names[difference.Kind]
			}
			diff.Equal(t, got, test.wanted, "%s", name)
		})
	}
}

// A method and a path are distinguished from all others.
func TestKinds(t *testing.T) {
	for text, wanted := range map[string]kind{
		"GET /v2/catalog": catalogue, "POST /v2/catalog": other, "PUT /v2/service_instances/a": provision,
		"PUT /v2/service_instances/": other, "DELETE /v2/service_instances/a?x=y": deprovision,
		"PATCH /v2/service_instances/a": update, "GET /v2/service_instances/a": fetch,
		"GET /v2/service_instances/a/last_operation": poll, "PUT /v2/service_instances/a/last_operation": other,
		"PUT /v2/service_instances/a/service_bindings/b":                bind,
		"POST /v2/service_instances/a":                                  other,
		"DELETE /v2/service_instances/a/service_bindings/b":             unbind,
		"GET /v2/service_instances/a/service_bindings/b":                fetchBinding,
		"GET /v2/service_instances/a/service_bindings/b/last_operation": pollBinding,
		"PATCH /v2/service_instances/a/service_bindings/b":              other, "GET /v2/service_instances/a/b": other,
		"GET /v3/service_instances/a": other, "GET /": other, "PUT /v2/service_instances/a/service_bindings/": other,
	} {
		t.Run(text, func(t *testing.T) {
			method, target, _ := strings.Cut(text, " ")
			diff.Equal(t, kindOf(fault.Exchange{Method: method, Target: target}), wanted, "%s", text)
		})
	}
}

// A deletion without ids breaks the rule, whether its instance is known or not, and so does one with others.
func TestIDs(t *testing.T) {
	put := requestWith(http.MethodPut, "", 201, "{}")
	put.Body = []byte(`{"service_id": "s", "plan_id": "p", "organization_guid": "o", "space_guid": "s"}`)
	for query, wanted := range map[string]string{
		"?accepts_incomplete=true": "service_id is missing", "?service_id=s": "plan_id is missing",
		"?service_id=s&plan_id=q": "plan_id isn't that of the instance", "?service_id=s&plan_id=p": "",
	} {
		t.Run(query, func(t *testing.T) {
			for _, all := range [][]fault.Exchange{
				one(put, requestWith(http.MethodDelete, query, 200, "{}")), one(requestWith(http.MethodDelete, query, 410, "{}")),
			} {
				if len(all) == 1 && query == "?service_id=s&plan_id=q" {
					continue
				}
				reason := ""
				for _, violation := range judge(all, viewsOf(all)) {
					if violation.Name == "deprovision-ids" {
						reason = violation.Reason
					}
				}
				diff.Equal(t, reason, wanted, "%s: the reason", query)
			}
		})
	}
}
