package api

import (
	"context"
	"encoding/json"
	"errors"
	"fmt"
	"net/http/httptest"
	"reflect"
	"strings"
	"testing"
	"time"

	"pippinterm/internal/budget"
	"pippinterm/internal/diff"
	"pippinterm/platform"
)

func TestInstances(t *testing.T) {
	r := newRig(t)
	first := r.call("POST", "/v1/instances",
		`{"id": "my id/no", "service": "shelf", "plan": "small"}`).want(400, "invalid")
	diff.Contains(t, first.at("detail"), "slash", "the detail")
	made := r.call("POST", "/v1/instances", `{"id": "my id", "broker": "shelf", "service": "shelf", "plan": "small",
		"parameters": {"a": 1}, "context": {"b": []},
		"organization_guid": "o", "space_guid": "s", "tries": 2}`).want(201, "")
	if made.header.Get("Location") != "/v1/instances/my%20id" || made.at("state") != "ordered" ||
		made.at("tries") != "2" || made.at("organization_guid") != "o" || made.at("service_id") != "a0" ||
		made.at("plan_id") != "b1" {
		t.Errorf("got %v %s, want the order", made.header, made.text)
	}
	shown := r.call("GET", made.header.Get("Location"), "").want(200, "")
	diff.Equal(t, shown.at("number"), made.at("number"), "%s", shown.text)
	diff.Equal(t, shown.at("life", "0", "state"), "ordered", "%s", shown.text)
	r.call("GET", "/v1/instances/"+made.at("number"), "").want(200, "")
	diff.Lacks(t, shown.text, `"a"`, "")
	diff.Lacks(t, shown.text, "parameters", "")
	r.call("POST", "/v1/instances", `{"id": "my id", "service": "shelf", "plan": "small"}`).want(409, "conflict")
	r.call("POST", "/v1/instances", `{"broker": "none", "service": "shelf"}`).want(404, "not_found")
	r.call("POST", "/v1/instances", `{"service": "shelf", "plan": "none"}`).want(400, "invalid")
	r.call("POST", "/v1/instances", `{"service": "shelf", "plan": "small", "parameters": []}`).want(400, "invalid")
	r.call("POST", "/v1/instances", `{"service": "shelf", "plan": "small", "tries": 101}`).want(400, "invalid")
	r.call("GET", "/v1/instances/none", "").want(404, "not_found")
	r.call("GET", "/v1/instances/"+strings.Repeat("x", 256), "").want(404, "not_found")
}

func TestLife(t *testing.T) {
	r := newRig(t)
	id := r.ready()
	shown := r.call("GET", "/v1/instances/"+id, "").want(200, "")
	for n, want := range []string{"ordered", "wanted", "ready"} {
		diff.Equal(t, shown.at("life", fmt.Sprint(n), "state"), want, "state %d", n)
	}
	diff.Equal(t, shown.at("dashboard_url"), "https://shelf.example/dash", "%s", shown.text)
	diff.Equal(t, shown.at("metadata", "labels", "a"), "b", "%s", shown.text)
	diff.Equal(t, shown.at("last", "status"), "201", "%s", shown.text)
}

func TestInFlight(t *testing.T) {
	r := newRig(t)
	id := r.order()
	r.send(keyOfIDs(t, id))
	shown := r.call("GET", "/v1/instances/"+id, "").want(200, "")
	diff.Equal(t, shown.at("in_flight", "kind"), "provision", "%s", shown.text)
	diff.Equal(t, shown.at("in_flight", "worker"), "one", "%s", shown.text)
	r.call("POST", "/v1/instances/"+id+"/retry", "").want(409, "conflict")
}

// A row that can't be read is shown with the others, and why it can't be read.
func TestUnreadable(t *testing.T) {
	store := newStore(t)
	r := newRigOver(t, store)
	id, other := r.order(), r.order()
	store.rows[keyOfIDs(t, id)] = isUnreadable
	shown := r.call("GET", "/v1/instances/"+id, "").want(200, "")
	diff.Equal(t, shown.at("unreadable"), whyUnreadable, "%s", shown.text)
	diff.Equal(t, shown.at("state"), "ordered", "%s", shown.text)
	all := r.call("GET", "/v1/instances", "").want(200, "")
	diff.Equal(t, len(all.items()), 2, "the list, %s", all.text)
	diff.Lacks(t, r.call("GET", "/v1/instances/"+other, "").want(200, "").text, "unreadable", "")
}

const whyUnreadable = "the record: it is wrong"

// isUnreadable has a row not be readable.
func isUnreadable(e *platform.Entry) { e.Unreadable = whyUnreadable }

func TestRemoveRetryAbandon(t *testing.T) {
	r := newRig(t)
	id := r.order()
	path := "/v1/instances/" + id
	r.call("POST", path+"/retry", "").want(202, "")
	r.call("POST", path+"/abandon", `{"because": "no use"}`).want(409, "conflict") // it wasn't sent
	diff.Equal(t, r.call("DELETE", path, "").want(202, "").at("state"), "withdrawn", "")
	r.call("DELETE", path, "").want(202, "")
	r.call("POST", path+"/retry", "").want(409, "conflict")
	ready := "/v1/instances/" + r.ready()
	got := r.call("DELETE", ready+"?bindings=false", "").want(202, "")
	diff.Equal(t, got.at("removal"), "removed", "%s", got.text)
	r.call("DELETE", ready+"?bindings=maybe", "").want(400, "malformed")
	r.call("DELETE", ready, `{}`).want(400, "malformed")
	r.call("POST", ready+"/abandon", `{}`).want(400, "invalid")
	left := r.call("POST", ready+"/abandon", `{"because": "the broker is no more"}`).want(200, "")
	diff.Equal(t, left.at("state"), "abandoned", "%s", left.text)
	diff.Equal(t, left.at("because"), "the broker is no more", "%s", left.text)
	for _, route := range []string{"DELETE /v1/instances/none", "POST /v1/instances/none/retry"} {
		method, target, _ := strings.Cut(route, " ")
		r.call(method, target, "").want(404, "not_found")
	}
	r.call("POST", "/v1/instances/none/abandon", `{"because": "x"}`).want(404, "not_found")
}

func TestBindings(t *testing.T) {
	r := newRig(t)
	id := r.ready()
	path := "/v1/instances/" + id
	bid := r.bind(id)
	shown := r.call("GET", path+"/bindings/"+bid, "").want(200, "")
	if shown.at("state") != "ready" || shown.at("instance_id") != id || shown.at("life", "1", "state") != "wanted" {
		t.Errorf("got %s, want it ready with its life", shown.text)
	}
	made := r.call("POST", path+"/bindings",
		`{"id": "app", "context": {"x": 1}, "bind_resource": {}}`).want(201, "")
	diff.Equal(t, made.header.Get("Location"), path+"/bindings/app", "Location")
	listed := r.call("GET", path+"/bindings", "").want(200, "")
	diff.Equal(t, len(listed.items()), 2, "the list")
	diff.Lacks(t, listed.text, "hush", "the list")
	got := r.call("GET", path+"/bindings?state=ready", "").want(200, "")
	diff.Equal(t, len(got.items()), 1, "the list, %s", got.text)
	r.call("POST", path+"/bindings/app/retry", "").want(202, "")
	r.call("POST", path+"/bindings/"+bid+"/retry", "").want(409, "conflict")
	r.call("DELETE", path, "").want(409, "conflict")
	r.call("POST", path+"/abandon", `{"because": "x"}`).want(409, "conflict")
	diff.Equal(t, r.call("DELETE", path+"/bindings/app", "").want(202, "").at("state"), "withdrawn", "")
	whole := r.call("DELETE", path+"?bindings=true", "").want(202, "")
	diff.Equal(t, whole.at("removal"), "removed_with_bindings", "%s", whole.text)
	r.call("POST", path+"/bindings", `{}`).want(409, "conflict")
	r.call("POST", path+"/bindings/"+bid+"/abandon", `{"because": "x"}`).want(200, "")
	r.call("GET", path+"/bindings/none", "").want(404, "not_found")
	r.call("GET", path+"/bindings/"+strings.Repeat("x", 256), "").want(404, "not_found")
	r.call("GET", "/v1/instances/none/bindings", "").want(404, "not_found")
	r.call("POST", "/v1/instances/none/bindings", `{}`).want(404, "not_found")
}

func TestPlanThatIsNotBindable(t *testing.T) {
	r := newRig(t)
	id := r.call("POST", "/v1/instances", `{"service": "shelf", "plan": "closed"}`).want(201, "").at("id")
	r.call("POST", "/v1/instances/"+id+"/bindings", `{}`).want(400, "invalid")
	r.call("POST", "/v1/instances/"+id+"/bindings", `{"id": ""}`).want(400, "malformed")
}

func TestCredentials(t *testing.T) {
	r := newRig(t)
	id := r.ready()
	path := "/v1/instances/" + id + "/bindings/" + r.bind(id) + "/credentials"
	r.callAs(reading, "GET", path, "").want(403, "forbidden")
	r.callAs(writing, "GET", path, "").want(403, "forbidden")
	got := r.callAs(opening, "GET", path, "").want(200, "")
	diff.Equal(t, got.at("credentials", "password"), "hush", "%v, %s", got.header, got.text)
	diff.Equal(t, got.header.Get("Cache-Control"), "no-store", "%v, %s", got.header, got.text)
	waiting := r.call("POST", "/v1/instances/"+id+"/bindings", `{}`).want(201, "").at("id")
	r.callAs(opening, "GET", "/v1/instances/"+id+"/bindings/"+waiting+"/credentials", "").want(409, "conflict")
	r.callAs(opening, "GET", "/v1/instances/"+id+"/bindings/none/credentials", "").want(404, "not_found")
	for _, exchange := range r.exchanges {
		diff.Lacks(t, fmt.Sprint(exchange), "hush", "the observer")
	}
}

func TestPages(t *testing.T) {
	r := newRig(t)
	for n := 0; n < 7; n++ {
		r.order()
	}
	r.call("DELETE", "/v1/instances/"+r.order(), "").want(202, "")
	seen, sizes, target := map[string]bool{}, "", "/v1/instances?limit=3"
	for target != "" {
		page := r.call("GET", target, "").want(200, "")
		for n := range page.items() {
			seen[page.at("items", fmt.Sprint(n), "id")] = true
		}
		sizes += fmt.Sprint(len(page.items()), " ")
		target = ""
		if next, isThere := page.body["next"].(string); isThere {
			target = "/v1/instances?limit=3&after=" + next
		}
	}
	diff.Equal(t, len(seen), 8, "")
	diff.Equal(t, sizes, "3 3 2 ", "")
	diff.Equal(t, r.call("GET", "/v1/instances?limit=8", "").want(200, "").body["next"] == nil, true, "no page is next")
}

func TestFilters(t *testing.T) {
	r := newRig(t)
	id := r.ready()
	r.bind(id) // isn't listed
	r.call("POST", "/v1/instances", `{"id": "other", "service": "shelf", "plan": "small"}`).want(201, "")
	for query, want := range map[string]int{
		"": 2, "state=ready": 1, "state=ready&state=ordered": 2, "state=gone": 0, "broker=shelf": 2,
		"broker=none": 0, "prefix=" + id[:9]: 1, "prefix=" + strings.ToUpper(strings.ReplaceAll(id, "-", "")): 1,
		"first=" + id: 1,
		"first=other": 1,
	} {
		t.Run(query, func(t *testing.T) {
			r.in(t)
			got := r.call("GET", "/v1/instances?"+query, "").want(200, "")
			diff.Equal(t, len(got.items()), want, "%s, %s", query, got.text)
		})
	}
	for _, query := range []string{
		"state=lost", "limit=0", "limit=1001", "limit=x", "prefix=xyz", "prefix=-", "after=x", "after=e30",
		"nothing=1", "broker=a&broker=b", "limit=1;after=2", "first=" + strings.Repeat("x", 256),
		"prefix=" + strings.Repeat("a", 33), "broker=%00", "broker=%ff", "broker=A",
		"latest=1", "latest=",
	} {
		r.call("GET", "/v1/instances?"+query, "").want(400, "malformed")
	}
}

func TestBrokers(t *testing.T) {
	r := newRig(t)
	const path, put = "/v1/brokers/other", `{"url": "https://other.example/", "user": "me", "password": "sesame",
		"settings": {"hold_seconds": 1.5, "longest_poll_seconds": 3600}}`
	made := r.call("PUT", path, put).want(201, "")
	if made.header.Get("Location") != path || made.at("url") != "https://other.example" ||
		made.at("password") != "store" || made.at("settings", "hold_seconds") != "1.5" {
		t.Errorf("got %s, want the broker as it was set", made.text)
	}
	changed := r.call("PUT", path, `{"url": "https://other.example", "user": "you"}`).want(200, "")
	diff.Equal(t, changed.at("user"), "you", "%s", changed.text)
	diff.Equal(t, changed.at("settings"), "map[]", "%s", changed.text)
	before := r.brokerNamed("other")
	if got, err := r.vault.Open(before.Password, platform.PasswordContext(before)); string(got) != "sesame" {
		t.Errorf("the password: got %q, %v, want the one before", got, err)
	}
	r.call("PUT", path, `{"url": "https://elsewhere.example", "user": "you"}`).want(400, "password_needed")
	r.call("PUT", path, `{"url": "https://elsewhere.example", "user": "you", "password": "new"}`).want(200, "")
	other := r.brokerNamed("other")
	password, err := r.vault.Open(other.Password, platform.PasswordContext(other))
	diff.Equal(t, string(password), "new", "the password")
	diff.NoError(t, err, "the password, %q", password)
	r.call("PUT", "/v1/brokers/third", `{"url": "https://x", "user": "me"}`).want(400, "invalid")
	r.call("PUT", "/v1/brokers/NO", put).want(400, "invalid")
	r.call("PUT", path, `{"url": "https://x", "user": "m\u0000e", "password": "p"}`).want(400, "invalid")
	r.call("DELETE", "/v1/brokers/%00", "").want(404, "not_found")
	r.call("PUT", path, `{"url": "ftp://x", "user": "me", "password": "p"}`).want(400, "invalid")
	for _, bad := range []string{"-1", "1e300", "40000000"} {
		body := `{"url": "https://x", "user": "me", "password": "p", "settings": {"hold_seconds": ` + bad + `}}`
		r.call("PUT", path, body).want(400, "invalid")
	}
	listed := r.call("GET", "/v1/brokers", "").want(200, "")
	diff.Equal(t, len(listed.items()), 2, "%s", listed.text)
	diff.Equal(t, listed.at("items", "1", "catalogue_at"), "2026-01-01T00:00:00Z", "%s", listed.text)
	shown := r.call("GET", "/v1/brokers/shelf", "").want(200, "")
	diff.Equal(t, shown.at("catalogue", "services", "0", "name"), "shelf", "%s", shown.text)
	for _, response := range []response{made, changed, listed, shown} {
		diff.Lacks(t, response.text, "sesame", "")
		diff.Lacks(t, response.text, string(before.Password), "")
	}
	r.order()
	r.call("DELETE", "/v1/brokers/shelf", "").want(409, "conflict")
	r.call("DELETE", path, "").want(204, "")
	r.call("DELETE", path, "").want(404, "not_found")
	r.call("GET", path, "").want(404, "not_found")
}

func (r *rig) brokerNamed(name string) platform.Broker {
	r.Helper()
	all := diff.Value(r.store.Brokers(background))(r.T)
	for _, broker := range all {
		if broker.Name == name {
			return broker
		}
	}
	r.Fatalf("got no broker %s, want one", name)
	return platform.Broker{}
}

// A password that a worker reads from a file isn't sent elsewhere either, and the path isn't answered.
func TestPasswordFile(t *testing.T) {
	r := newRig(t)
	check(t, r.orders.AddBroker(background, platform.Broker{
		Name: "filed", URL: "https://filed.example", User: "me", PasswordFile: "/run/secret/filed",
	}, nil))
	shown := r.call("GET", "/v1/brokers/filed", "").want(200, "")
	diff.Equal(t, shown.at("password"), "file", "")
	diff.Lacks(t, shown.text, "/run", "")
	r.call("PUT", "/v1/brokers/filed", `{"url": "https://x.example", "user": "me"}`).want(400, "password_needed")
	r.call("PUT", "/v1/brokers/filed", `{"url": "https://filed.example", "user": "you"}`).want(200, "")
	if got := r.brokerNamed("filed"); got.PasswordFile != "/run/secret/filed" || got.User != "you" {
		t.Errorf("got %+v, want the file and the new user", got)
	}
	r.call("PUT", "/v1/brokers/filed", `{"url": "https://x.example", "user": "me", "password": "p"}`).want(200, "")
	if got := r.brokerNamed("filed"); got.PasswordFile != "" || got.Password == nil {
		t.Errorf("got %+v, want the password instead of the file", got)
	}
	r.call("PUT", "/v1/brokers/filed",
		`{"url": "https://x.example", "user": "me", "password_file": "/etc/shadow"}`).want(400, "malformed")
}

func TestCounts(t *testing.T) {
	r := newRig(t)
	diff.Equal(t, r.call("GET", "/v1/counts", "").want(200, "").at("counts"), "[]", "")
	r.bind(r.ready())
	got := r.call("GET", "/v1/counts", "").want(200, "")
	for _, part := range []string{`"instance","state":"ready","count":1`, `"binding","state":"ready","count":1`} {
		diff.Contains(t, got.text, part, "")
	}
}

func TestTokens(t *testing.T) {
	r := newRig(t)
	id := r.order()
	for at := range routes {
		route := routes[at]
		target := strings.NewReplacer("{id}", id, "{bid}", "b", "{name}", "shelf").Replace(route.pattern)
		for _, token := range []string{"", "wrong", strings.Repeat("x", ShortestToken), reading[1:], reading + "r"} {
			got := r.callAs(token, route.method, target, "")
			if route.needs == 0 {
				got.want(200, "")
				continue
			}
			challenge := got.want(401, "unauthorized").header.Get("WWW-Authenticate")
			diff.Equal(t, challenge != "", true, "WWW-Authenticate is there")
		}
		for text, has := range map[string]Permission{reading: Read, writing: Write, opening: Credentials} {
			if route.needs != 0 && has != route.needs {
				r.callAs(text, route.method, target, "").want(403, "forbidden")
			}
		}
	}
	r.callAs("", "GET", "/v1/nothing", "").want(401, "unauthorized")
	for _, fields := range [][]string{
		{"Bearer " + reading, "Bearer " + reading}, {"Basic " + reading}, {reading}, {"Bearer  " + reading}, {""},
	} {
		request := httptest.NewRequest("GET", "/v1/counts", nil)
		request.Header["Authorization"] = fields
		r.do(request).want(401, "unauthorized")
	}
	request := httptest.NewRequest("GET", "/v1/counts", nil)
	request.Header.Set("Authorization", "bearer "+reading)
	r.do(request).want(200, "")
}

// The connection of whoever may not ask is closed.
func TestARejectedTokenKeepsNoConnection(t *testing.T) {
	r := newRig(t)
	for token, want := range map[string]string{"": "close", "wrong": "close", writing: "close", reading: ""} {
		t.Run(token, func(t *testing.T) {
			r.in(t)
			got := r.callAs(token, "GET", "/v1/counts", "")
			diff.Equal(t, got.header.Get("Connection"), want, "%d", got.status)
		})
	}
}

func TestRoutes(t *testing.T) {
	r := newRig(t)
	for _, target := range []string{
		"/", "/v1", "/v1/", "/v2/catalog", "/v1/instances/", "/v1//instances", "/v1/instances/a/b",
		"/v1/instances/a/bindings/", "/v1/counts/x", "/v1/brokers/", "/v1/instances/a%2Fbindings",
	} {
		got := r.call("GET", target, "")
		diff.Equal(t, got.status, 404, "%s, %s", target, got.text)
	}
	r.call("GET", "/v1/nothing", "").want(404, "no_route")
	got := r.call("PATCH", "/v1/instances", "").want(405, "method_not_allowed")
	diff.Equal(t, got.header.Get("Allow"), "GET, HEAD, POST", "Allow")
	head := r.call("HEAD", "/v1/counts", "").want(200, "")
	if head.text != "" || head.header.Get("Content-Length") == "0" {
		t.Errorf("HEAD: got %v %s, want the length and no body", head.header, head.text)
	}
}

func TestStrictBodies(t *testing.T) {
	r := newRig(t)
	deep := strings.Repeat(`{"a":`, deepest+1) + "1" + strings.Repeat("}", deepest+1)
	for _, text := range []string{
		`[]`, `null`, `"x"`, `{`, `{}{}`, `{} x`, `{"other": 1}`, `{"Service": "shelf"}`, `{"service": 1}`,
		`{"service": null}`, `{"service": "a", "service": "b"}`, `{"parameters": {"a": 1, "a": 2}}`,
		`{"parameters": {"x": [{"a": 1, "\u0061": 2}]}}`,
		"{\"service\": \"\xff\"}", `{"tries": 1.5}`, `{"tries": "1"}`, `{"parameters": ` + deep + `}`, ` `,
		`{"parameters": {"a": 01}}`, `{"service": "shelf", "plan": "small", "id": ""}`,
	} {
		t.Run(text, func(t *testing.T) {
			r.in(t)
			r.call("POST", "/v1/instances", text).want(400, "malformed")
		})
	}
	for _, text := range []string{
		`{"url": "https://x", "user": "u", "settings": {"hold": 1}}`,
		`{"url": "https://x", "settings": {"hold_seconds": null}}`,
		`{"url": "https://x", "settings": []}`,
	} {
		t.Run(text, func(t *testing.T) {
			r.in(t)
			r.call("PUT", "/v1/brokers/x", text).want(400, "malformed")
		})
	}
	found, _ := r.store.List(background, platform.Filter{})
	diff.Equal(t, len(found), 0, "%v", found)
	long := `{"service": "` + strings.Repeat("x", 4096) + `"}`
	r.call("POST", "/v1/instances", long).want(413, "body_too_large")
	request := httptest.NewRequest("POST", "/v1/instances", strings.NewReader(`{}`))
	request.Header.Set("Authorization", "Bearer "+all)
	r.do(request).want(415, "unsupported_media_type")
	request = httptest.NewRequest("POST", "/v1/instances", strings.NewReader(`{"service": "shelf", "plan": "small"}`))
	request.Header.Set("Authorization", "Bearer "+all)
	request.Header.Set("Content-Type", "application/json; charset=utf-8")
	r.do(request).want(201, "")
}

func TestStoreThatFails(t *testing.T) {
	store := newStore(t)
	r := newRigOver(t, store)
	for failed, want := range map[error]struct {
		status int
		code   string
	}{
		fmt.Errorf("postgres at 10.0.0.1: %w", platform.ErrAway): {503, "store_away"},
		errors.New("disk of 10.0.0.1"):                           {500, "internal"},
	} {
		t.Run(want.code, func(t *testing.T) {
			r.in(t)
			store.err = failed
			for _, target := range []string{
				"/v1/instances", "/v1/instances/a", "/v1/instances/a/bindings", "/v1/brokers", "/v1/brokers/shelf",
				"/v1/counts", "/v1/records", "/v1/records?order=newest", "/v1/in-flight",
			} {
				got := r.call("GET", target, "").want(want.status, want.code)
				diff.Lacks(t, got.text, "10.0.0.1", "")
				if last := r.exchanges[len(r.exchanges)-1]; !errors.Is(last.Err, failed) || last.Code != want.code {
					t.Errorf("the observer: got %+v, want the error and its code", last)
				}
				diff.Equal(t, got.header.Get("Retry-After") != "", want.status == 503, "Retry-After")
			}
			r.call("POST", "/v1/instances", `{"service": "shelf", "plan": "small"}`).want(want.status, want.code)
			r.call("PUT", "/v1/brokers/shelf", `{"url": "https://shelf.example", "user": "u"}`).want(want.status, want.code)
			r.call("DELETE", "/v1/instances/a", "").want(want.status, want.code)
		})
	}
}

// So many requests are carried out at once, and the others wait for their turn only so long.
func TestAtOnce(t *testing.T) {
	store := newStore(t)
	reading, letGo := make(chan struct{}), make(chan struct{})
	h := diff.Value(NewHandler(platform.NewOrders(store, nil), slow{store, reading, letGo}, Options{
		Tokens: []Token{tokenOfText("all", all, Read)}, AtOnce: 1, Timeout: time.Second,
	}))(t)
	ask := func() int {
		request := httptest.NewRequest("GET", "/v1/counts", nil)
		request.Header.Set("Authorization", "Bearer "+all)
		recorder := httptest.NewRecorder()
		h.ServeHTTP(recorder, request)
		if text := recorder.Body.String(); recorder.Code == 503 && !strings.Contains(text, `"busy"`) {
			t.Errorf("got %s, want busy", text)
		}
		return recorder.Code
	}
	first := make(chan int, 1)
	go func() { first <- ask() }()
	select {
	case <-reading:
	case got := <-first:
		t.Fatalf("the first one: got %d before the store, want it to wait there", got)
	}
	diff.Equal(t, ask(), 503, "while one is carried out")
	close(letGo)
	diff.Equal(t, <-first, 200, "the first one")
}

// An order whose body may not be parsed in time is answered with 503, and nothing of it is done. Other tokens and
// requests without a body don't wait.
func TestParsedAtOnce(t *testing.T) {
	store := newStore(t)
	made := diff.Value(NewHandler(platform.NewOrders(store, nil), store, Options{
		Tokens: []Token{tokenOfText("one", writing, Read|Write), tokenOfText("two", all, Read|Write)}, LongestBody: 1000,
		Timeout: 50 * time.Millisecond,
	}))(t)
	ask := func(token, method, target, body string) *httptest.ResponseRecorder {
		request := httptest.NewRequest(method, target, strings.NewReader(body))
		request.Header.Set("Authorization", "Bearer "+token)
		request.Header.Set("Content-Type", "application/json")
		recorder := httptest.NewRecorder()
		made.ServeHTTP(recorder, request)
		return recorder
	}
	body := `{"broker":"` + strings.Repeat("a", 900) + `"}`
	for _, limit := range []*budget.Budget{made.(*handler).parsed, made.(*handler).bodies} {
		taken := 0
		for ; limit.Take("one", 900, 0); taken++ {
		}
		if got := ask(writing, "POST", "/v1/instances", body); got.Code != 503 || got.Header().Get("Retry-After") != "5" ||
			!strings.Contains(got.Body.String(), `"busy"`) {
			t.Errorf("got %d %s, want 503, busy", got.Code, got.Body)
		}
		diff.Equal(t, ask(writing, "GET", "/v1/counts", "").Code, 200, "without a body")
		if got := ask(all, "POST", "/v1/instances", body); got.Code != 400 && got.Code != 404 {
			t.Errorf("another token: got %d %s, want 400 or 404", got.Code, got.Body)
		}
		limit.Give("one", 900*taken)
	}
}

// A slow store counts only once it is let go.
type slow struct {
	platform.Store
	reading, letGo chan struct{}
}

func (s slow) Counts(ctx context.Context) ([]platform.Count, error) {
	s.reading <- struct{}{}
	<-s.letGo
	return s.Store.Counts(ctx)
}

func TestObserver(t *testing.T) {
	r := newRig(t)
	request := httptest.NewRequest("GET", "/v1/instances/"+strings.Repeat("%20", 200), nil)
	request.Header.Set("Authorization", "Bearer "+all)
	request.RemoteAddr = "[2001:db8::1]:80"
	r.do(request).want(404, "not_found")
	last := r.exchanges[len(r.exchanges)-1]
	if last.Client != "2001:db8::1" || last.Token != "all" || last.Route != "/v1/instances/{id}" ||
		last.Status != 404 || last.Code != "not_found" || len(last.Target) != 256 || last.Method != "GET" ||
		last.Err != nil {
		t.Errorf("the observer: got %+v, want the whole exchange", last)
	}
	r.callAs("wrong", "GET", "/v1/counts", "")
	if last := r.exchanges[len(r.exchanges)-1]; last.Token != "" || last.Status != 401 {
		t.Errorf("the observer: got %+v, want 401 and no token", last)
	}
}

func TestNewHandler(t *testing.T) {
	store := newStore(t)
	orders := platform.NewOrders(store, nil)
	token := tokenOfText("a", all, Read)
	for name, make := range map[string]func() error{
		"no store":  func() error { return diff.Err(NewHandler(orders, nil, Options{Tokens: []Token{token}})) },
		"no orders": func() error { return diff.Err(NewHandler(nil, store, Options{Tokens: []Token{token}})) },
		"no token":  func() error { return diff.Err(NewHandler(orders, store, Options{})) },
		"two":       func() error { return diff.Err(NewHandler(orders, store, Options{Tokens: []Token{token, token}})) },
		"no name":   func() error { return diff.Err(NewHandler(orders, store, Options{Tokens: []Token{{}}})) },
		"a limit": func() error {
			_, err := NewHandler(orders, store, Options{Tokens: []Token{token}, LongestBody: -1})
			return err
		},
	} {
		t.Run(name, func(t *testing.T) {
			diff.Error(t, make(), "")
		})
	}
	diff.NoError(t, diff.Err(NewHandler(orders, store, Options{Tokens: []Token{token}})), "")
}

// hostile has what a terminal carries out, or what turns a text round: DEL, the C1 controls such as CSI, marks of
// direction, a line separator, a tag outside the first plane. What a terminal shows stays.
const hostile = "\u007f \u009b31m \u202e\u2066 \u2028 \U000e0041 \u200b | \u00e4\u4e2d\U0001f600"

// No answer has a character of a broker's text that a terminal would carry out, and each text reads as it did.
func TestNoControlsInAnswers(t *testing.T) {
	r := newRig(t)
	id := r.ready()
	key := keyOfIDs(t, id)
	check(r.T, r.store.Change(background, key, func(now time.Time, snapshot platform.Snapshot) (*platform.Change, error) {
		e := snapshot.Entry
		e.Last = platform.Reason{At: now, Kind: "poll", Status: 500, Description: hostile, Error: hostile}
		e.Dashboard = "https://x/" + hostile
		e.Metadata = json.RawMessage(`{"labels": {"a": "` + hostile + `"}}`)
		return &platform.Change{Entry: e}, nil
	}))
	check(r.T, r.store.ChangeBroker(background, "shelf", func(b platform.Broker) (*platform.Broker, error) {
		b.Reason = platform.Reason{At: b.CatalogueAt, Kind: "catalogue", Status: 500, Lost: hostile}
		b.Catalogue = json.RawMessage(`{"services": [], "x": "` + hostile + `"}`)
		return &b, nil
	}))
	for _, path := range []string{
		"/v1/instances", "/v1/instances/" + id, "/v1/records", "/v1/brokers", "/v1/brokers/shelf",
	} {
		got := r.call("GET", path, "").want(200, "")
		for _, character := range got.text {
			if character >= 0x7f && !strings.ContainsRune("\u00e4\u4e2d\U0001f600", character) {
				t.Errorf("%s: got the character %U raw, want it escaped", path, character)
			}
		}
		diff.Contains(t, got.text, `\u007f \u009b31m \u202e\u2066 \u2028 \udb40\udc41 \u200b | `, "%s", path)
	}
	shown := r.call("GET", "/v1/instances/"+id, "").want(200, "")
	diff.Equal(t, shown.at("last", "description"), hostile, "%s", shown.text)
	diff.Equal(t, shown.at("metadata", "labels", "a"), hostile, "%s", shown.text)
	wrong := r.call("GET", "/v1/instances/"+strings.Repeat("%C2%9B", 3), "").want(404, "not_found")
	diff.Lacks(t, wrong.text, "\u009b", "a problem")
}

func TestPrintable(t *testing.T) {
	for _, text := range []string{hostile, "", "plain", "\x00\x1f\"\\/<>&", "\u0080\uffff\U0010ffff"} {
		written := diff.Value(json.Marshal(map[string]string{text: text}))(t)
		var before, after any
		check(t, json.Unmarshal(written, &before))
		made := printable(written)
		if err := json.Unmarshal(made, &after); err != nil || !reflect.DeepEqual(before, after) {
			t.Errorf("%q: got %q, %v, want the same value", text, made, err)
		}
	}
	diff.Equal(t, string(printable([]byte("\"\x9b\xff\""))), `"\ufffd\ufffd"`, "bytes that aren't UTF-8")
	diff.Equal(t, string(printable([]byte("{\n \"\u00e4\": 1\t}\n"))), "{\n \"\u00e4\": 1\t}\n", "what is printable")
}
