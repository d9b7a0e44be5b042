package platform

import (
	"encoding/json"
	"fmt"
	"net/http"
	"net/url"
	"regexp"
	"sort"
	"strings"

	"pippinterm/osb"
	"pippinterm/storm/conform"
	"pippinterm/storm/fault"
	"pippinterm/storm/report"
)

// A rule is what the standard says about a request of a platform.
type rule struct {
	conform.Case
	kinds  []kind                       // of the requests that it is about; all if it is empty
	breaks func(request, *world) string // why a request breaks it, or ""
}

// A request is one of the platform's, with what the judge needs of it.
type request struct {
	fault.Exchange
	kind  kind
	query url.Values
	body  map[string]any // nil if it isn't a JSON object
}

// A world is what was known before a request.
type world struct {
	views map[report.Key]view
	ids   map[report.Key]ids // of what was asked for
}

// ids are the service and the plan with which an instance was asked for.
type ids struct{ service, plan string }

var (
	creations = []kind{provision, bind}
	deletions = []kind{deprovision, unbind}
)

// rules are those that each request is judged by.
func rules() []rule {
	return []rule{
		{conform.Case{Name: "route", Section: "API Overview", Level: conform.Must,
			Expected: "a method and a path of the standard"}, nil, breaksRoute},
		{conform.Case{Name: "version-header", Section: "API Version Header", Level: conform.Must,
			Expected: "X-Broker-API-Version with a version, such as 2.17"}, nil, breaksVersion},
		{conform.Case{Name: "login", Section: "Platform to Service Broker Authentication", Level: conform.Must,
			Expected: "the user and the password of the broker, by HTTP basic authentication"}, nil, breaksLogin},
		{conform.Case{Name: "originating-identity", Section: "Originating Identity", Level: conform.Must,
			Expected: "if the header is sent, a platform, a blank, and a JSON object in base64"}, nil, breaksIdentity},
		{conform.Case{Name: "content-type", Section: "Content Type", Level: conform.Should,
			Expected: "Content-Type: application/json with a body"}, nil, breaksType},
		{conform.Case{Name: "provision-body", Section: "Provisioning", Level: conform.Must,
			Expected: "a JSON object with service_id, plan_id, organization_guid and space_guid, which aren't empty"},
			[]kind{provision}, breaksBody("service_id", "plan_id", "organization_guid", "space_guid")},
		{conform.Case{Name: "bind-body", Section: "Binding", Level: conform.Must,
			Expected: "a JSON object with service_id and plan_id, which aren't empty"},
			[]kind{bind}, breaksBody("service_id", "plan_id")},
		{conform.Case{Name: "deprovision-ids", Section: "Deprovisioning", Level: conform.Must,
			Expected: "service_id and plan_id of the instance, in the query"}, []kind{deprovision}, breaksIDs},
		{conform.Case{Name: "unbind-ids", Section: "Unbinding", Level: conform.Must,
			Expected: "service_id and plan_id of the instance, in the query"}, []kind{unbind}, breaksIDs},
		{conform.Case{Name: "unbind-first", Section: "Deprovisioning", Level: conform.Must,
			Expected: "all bindings of an instance are deleted before it"}, []kind{deprovision}, breaksOrder},
		{conform.Case{Name: "accepts-incomplete", Section: "Asynchronous Operations", Level: conform.May,
			Expected: "accepts_incomplete=true, without which an asynchronous plan is rejected"},
			append(append([]kind{}, creations...), deletions...), breaksIncomplete},
	}
}

// The rules about what a platform does after an answer.
var (
	mitigates = conform.Case{Name: "mitigates-provision", Section: "Orphan Mitigation", Level: conform.Should,
		Expected: "a Deprovision after a 201 or 202 that can't be read, another 2xx, 5xx, or no answer to a Provision"}
	mitigatesBind = conform.Case{Name: "mitigates-bind", Section: "Orphan Mitigation", Level: conform.Should,
		Expected: "an Unbind after a 201 or 202 that can't be read, another 2xx, 5xx, or no answer to a Bind"}
	repeats = conform.Case{Name: "repeats-mitigation", Section: "Orphan Mitigation", Level: conform.Should,
		Expected: "the deletion again, until it is answered with a success"}
)

// judge returns the first request that breaks each rule, with the numbers of all that break it, in the order in which
// the requests began.
func judge(exchanges []fault.Exchange, now map[report.Key]view) []report.Violation {
	b := &breaches{}
	w := &world{views: map[report.Key]view{}, ids: map[report.Key]ids{}}
	for _, x := range exchanges {
		r := requestOf(x)
		for _, rule := range rules() {
			if len(rule.kinds) > 0 && !r.kind.is(rule.kinds...) {
				continue
			}
			if why := rule.breaks(r, w); why != "" {
				b.add(rule.Case, why, x)
			}
		}
		w.learn(r)
	}
	b.addMitigations(now)
	return b.All()
}

func requestOf(x fault.Exchange) request {
	r := request{Exchange: x, kind: kindOf(x)}
	_, query, _ := strings.Cut(x.Target, "?")
	r.query, _ = url.ParseQuery(query) // of one that can't be read, what can be read
	if json.Unmarshal(x.Body, &r.body) != nil {
		r.body = nil
	}
	return r
}

func (w *world) learn(r request) {
	if r.Instance == "" {
		return
	}
	key := report.Key{Instance: r.Instance, Binding: r.Binding}
	w.views[key] = w.views[key].after(r.Exchange)
	if r.kind == provision && w.views[key].belief != rejected {
		w.ids[key] = ids{textIn(r.body, "service_id"), textIn(r.body, "plan_id")}
	}
}

type breaches struct{ report.Breaches }

func (b *breaches) add(of conform.Case, why string, x fault.Exchange) {
	number := ""
	if x.Number.Request > 0 {
		number = x.Number.String()
	}
	b.Add(conform.CaseResult{
		Case: of, Grade: conform.Fail, Reason: why, Sent: sentBy(x), Came: conform.Printable(x.Receipt.Words),
	}, number, "about no instance")
}

func (b *breaches) addMitigations(now map[report.Key]view) {
	var open []view
	for _, view := range now {
		if view.belief == doubtful {
			open = append(open, view)
		}
	}
	sort.Slice(open, func(one, other int) bool { return open[one].because.Begun < open[other].because.Begun })
	for _, view := range open {
		switch {
		case view.tried:
			b.add(repeats, fmt.Sprintf("%s got %s, and no further one followed", view.last.Method, view.last.Receipt.Words), view.last)
		case view.because.Binding != "":
			b.add(mitigatesBind, "no Unbind followed", view.because)
		default:
			b.add(mitigates, "no Deprovision followed", view.because)
		}
	}
}

// sentBy returns a request as a line for people. Of a body it has the names of the members, since their values may be
// secret.
func sentBy(x fault.Exchange) string {
	line := x.Method + " " + x.Target
	if len(x.Body) == 0 {
		return conform.Printable(line)
	}
	body := requestOf(x).body
	if body == nil {
		return conform.Printable(line) + " with a body that isn't a JSON object"
	}
	names := make([]string, 0, len(body))
	for name := range body {
		names = append(names, name)
	}
	sort.Strings(names)
	return conform.Printable(line + " with " + strings.Join(names, ", "))
}

func textIn(body map[string]any, member string) string {
	text, _ := body[member].(string)
	return text
}

func breaksRoute(r request, _ *world) string {
	if r.kind == other {
		return "the standard has no such request"
	}
	return ""
}

var version = regexp.MustCompile(`^[0-9]+\.[0-9]+$`)

func breaksVersion(r request, _ *world) string {
	switch given, has := r.Header[http.CanonicalHeaderKey("X-Broker-API-Version")]; {
	case !has:
		return "the header is missing"
	case len(given) > 1 || !version.MatchString(given[0]):
		return "the header isn't a version"
	}
	return ""
}

func breaksLogin(r request, _ *world) string {
	for _, delivery := range r.Deliveries {
		if delivery.Status == http.StatusUnauthorized {
			return "the broker answered 401"
		}
	}
	return ""
}

func breaksIdentity(r request, _ *world) string {
	for _, value := range r.Header[http.CanonicalHeaderKey(osb.OriginatingIdentityHeader)] {
		if _, err := osb.OriginatingIdentity(value); err != nil {
			return "the header has another form"
		}
	}
	return ""
}

func breaksType(r request, _ *world) string {
	given, _, _ := strings.Cut(r.Header.Get("Content-Type"), ";")
	if len(r.Body) > 0 && !strings.EqualFold(strings.TrimSpace(given), "application/json") {
		return "the header is missing, or names another type"
	}
	return ""
}

func breaksBody(members ...string) func(request, *world) string {
	return func(r request, _ *world) string {
		if r.body == nil {
			return "the body isn't a JSON object"
		}
		for _, member := range members {
			if textIn(r.body, member) == "" {
				return member + " is missing, empty, or no string"
			}
		}
		return ""
	}
}

func breaksIDs(r request, w *world) string {
	wanted, isKnown := w.ids[report.Key{Instance: r.Instance}]
	for _, test := range []struct{ name, wanted string }{{"service_id", wanted.service}, {"plan_id", wanted.plan}} {
		switch given := r.query.Get(test.name); {
		case given == "":
			return test.name + " is missing"
		case isKnown && test.wanted != "" && given != test.wanted:
			return test.name + " isn't that of the instance"
		}
	}
	return ""
}

func breaksOrder(r request, w *world) string {
	for key, view := range w.views {
		if key.Instance == r.Instance && key.Binding != "" && view.belief == ready {
			return "the platform has a binding of the instance, and got no answer that the binding is deleted"
		}
	}
	return ""
}

func breaksIncomplete(r request, _ *world) string {
	if r.query.Get("accepts_incomplete") == "true" {
		return ""
	}
	for _, delivery := range r.Deliveries {
		var answer struct{ Error string }
		if delivery.Status == http.StatusUnprocessableEntity && json.Unmarshal(delivery.Body, &answer) == nil &&
			answer.Error == "AsyncRequired" {
			return "the broker answered AsyncRequired"
		}
	}
	return ""
}
