package api

import (
	"context"
	"encoding/base64"
	"encoding/json"
	"fmt"
	"net/http/httptest"
	"net/url"
	"sort"
	"strings"
	"testing"
	"time"

	"pippinterm/internal/diff"
	"pippinterm/osb"
	"pippinterm/platform"
)

// A mark is what a list is ordered by.
type mark struct {
	since time.Time
	key   string
}

// marks are those of the rows of an answer.
func (g response) marks() (found []mark) {
	g.Helper()
	for _, item := range g.items() {
		of := item.(map[string]any)
		since := diff.Value(time.Parse(time.RFC3339Nano, of["since"].(string)))(g.T)
		key := of["number"].(string)
		if instance, isBinding := of["instance_number"].(string); isBinding {
			key = instance + "/" + key
		}
		found = append(found, mark{since, key})
	}
	return found
}

// walk are the rows of all pages of a list from a target on, by the cursors of this name, and the answers.
func (r *rig) walk(target, name, parameter string) (rows []mark, pages []response) {
	r.Helper()
	list, _, _ := strings.Cut(strings.ReplaceAll(target, "&last=true", ""), "&after=")
	for len(pages) < 100 {
		page := r.call("GET", target, "").want(200, "")
		rows, pages = append(rows, page.marks()...), append(pages, page)
		cursor, isThere := page.body[name].(string)
		if !isThere {
			break
		}
		target = list + "&" + parameter + "=" + cursor
	}
	return rows, pages
}

// some are instances and bindings in some states.
func (r *rig) some() {
	r.Helper()
	for n := 0; n < 3; n++ {
		id := r.ready()
		r.order()
		r.bind(id)
		r.call("DELETE", "/v1/instances/"+r.order(), "").want(202, "")
		r.call("POST", "/v1/instances/"+id+"/bindings", `{}`).want(201, "")
	}
}

// A list in the order of time has each row once, whatever its state, forwards and from its end backwards.
func TestOrderOfTime(t *testing.T) {
	r := newRig(t)
	r.some()
	for path, count := range map[string]int{"/v1/records": 15, "/v1/instances": 9, "/v1/bindings": 6} {
		t.Run(path, func(t *testing.T) {
			r.in(t)
			want := r.call("GET", path+"?limit=1000", "").want(200, "").marks()
			sort.Slice(want, func(a, b int) bool {
				if !want[a].since.Equal(want[b].since) {
					return want[a].since.Before(want[b].since)
				}
				return want[a].key < want[b].key
			})
			diff.Len(t, want, count, "%s", path)
			r.bothWays(path+"?order=oldest&limit=4", want)
			r.bothWays(path+"?order=newest&limit=4", reverse(want))
		})
	}
	both := r.call("GET", "/v1/records?order=oldest&state=ready&state=ordered&state=ready", "").want(200, "")
	diff.Equal(t, len(both.items()), 3+3+3+3, "the list, %s", both.text)
}

func reverse(all []mark) (found []mark) {
	for at := range all {
		found = append(found, all[len(all)-1-at])
	}
	return found
}

// bothWays fails unless the pages of a list have these rows, by next from the first page and by previous from the last.
func (r *rig) bothWays(target string, want []mark) {
	r.Helper()
	rows, pages := r.walk(target, "next", "after")
	diff.Check(r, rows, want, "%s: the rows", target)
	if first := pages[0]; first.body["previous"] != nil {
		r.Errorf("%s: got a page before the first one, want none: %s", target, first.text)
	}
	_, pages = r.walk(target+"&last=true", "previous", "before")
	var back []mark
	for at := len(pages) - 1; at >= 0; at-- {
		back = append(back, pages[at].marks()...)
	}
	diff.Check(r, back, want, "%s: backwards the rows", target)
	if last := pages[0]; last.body["next"] != nil {
		r.Errorf("%s: got a page behind the last one, want none: %s", target, last.text)
	}
	if len(pages) > 1 {
		again := r.call("GET", target+"&after="+pages[1].at("next"), "").want(200, "")
		diff.Check(r, again.marks(), pages[0].marks(), "%s: back on the page before", target)
	}
}

// The orders of states and of numbers have both directions, too. That of numbers is the usual one.
func TestPagesBackwards(t *testing.T) {
	r := newRig(t)
	r.some()
	want := r.call("GET", "/v1/records?order=state", "").want(200, "").marks()
	r.bothWays("/v1/records?limit=4&order=state", want)
	r.bothWays("/v1/records?limit=4&order=state&latest=true", reverse(want))
	r.bothWays("/v1/records?limit=100&order=state", want)
	sort.Slice(want, func(a, b int) bool { return want[a].key < want[b].key })
	r.bothWays("/v1/records?limit=4", want)
	r.bothWays("/v1/records?limit=100&order=number", want)
}

// Records are instances and bindings, found by the beginning of their numbers.
func TestPrefixOfRecords(t *testing.T) {
	r := newRig(t)
	id := r.ready()
	bid := r.bind(id)
	of := map[string]string{"instances": id, "bindings": bid, "records": bid}
	for kind, target := range of {
		t.Run(kind, func(t *testing.T) {
			r.in(t)
			got := r.call("GET", "/v1/"+kind+"?prefix="+target[:13], "").want(200, "")
			diff.Equal(t, len(got.items()), 1, "%s, %s", kind, got.text)
			diff.Equal(t, got.at("items", "0", "id"), target, "%s, %s", kind, got.text)
		})
	}
	bound := r.call("GET", "/v1/records?prefix="+bid, "").want(200, "")
	diff.Equal(t, bound.at("items", "0", "instance_id"), id, "%s", bound.text)
	diff.Equal(t, bound.at("items", "0", "instance_number"), id, "%s", bound.text)
	instance := r.call("GET", "/v1/records?prefix="+id, "").want(200, "")
	diff.Lacks(t, instance.text, "instance_", "")
}

// A list has so many states of each life as are asked for, the last ones.
func TestLifeInLists(t *testing.T) {
	r := newRig(t)
	id := r.ready() // ordered, wanted, ready
	r.bind(id)
	for _, path := range []string{"/v1/instances", "/v1/bindings", "/v1/records", "/v1/instances/" + id + "/bindings"} {
		two := r.call("GET", path+"?life=2", "").want(200, "")
		diff.Equal(t, two.at("items", "0", "life", "0", "state"), "wanted", "%s, %s", path, two.text)
		diff.Equal(t, two.at("items", "0", "life_omitted"), "1", "%s, %s", path, two.text)
		diff.Equal(t, two.at("items", "0", "life", "1", "state"), "ready", "%s, %s", path, two.text)
		whole := r.call("GET", path+"?life=3", "").want(200, "")
		diff.Lacks(t, whole.text, "life_omitted", "%s", path)
		diff.Equal(t, whole.at("items", "0", "life", "0", "state"), "ordered", "%s", path)
		diff.Lacks(t, r.call("GET", path, "").want(200, "").text, "life", "%s", path)
	}
}

// What is in flight is listed, and what a worker has leased without a request isn't.
func TestListInFlight(t *testing.T) {
	r := newRig(t)
	id, other := r.ready(), r.order()
	bid := r.call("POST", "/v1/instances/"+id+"/bindings", `{}`).want(201, "").at("id")
	r.send(keyOfIDs(t, id, bid))
	r.send(keyOfIDs(t, r.order()))
	r.lease(keyOfIDs(t, other))
	flying := r.call("GET", "/v1/in-flight?life=1", "").want(200, "")
	if len(flying.items()) != 2 || strings.Contains(flying.text, other) {
		t.Fatalf("the list: got %s, want 2 without the other", flying.text)
	}
	for n := range flying.items() {
		at := fmt.Sprint(n)
		kind := "provision"
		if flying.at("items", at, "id") == bid {
			kind = "bind"
		}
		if flying.at("items", at, "in_flight", "kind") != kind || flying.at("items", at, "in_flight", "worker") != "one" ||
			flying.at("items", at, "life", "0", "state") != "wanted" || flying.at("items", at, "attempt") != "1" {
			t.Errorf("the list: got %s, want both with what is in flight", flying.text)
		}
	}
	diff.AtMost(t, len(r.call("GET", "/v1/in-flight?limit=1", "").want(200, "").items()), 1, "the list")
	r.call("GET", "/v1/in-flight?limit=0", "").want(400, "malformed")
	r.call("GET", "/v1/in-flight?state=wanted", "").want(400, "malformed")
}

// lease has a worker lease a row that has no request in flight.
func (r *rig) lease(key platform.Key) {
	r.Helper()
	check(r.T, r.store.Change(background, key, func(now time.Time, snapshot platform.Snapshot) (*platform.Change, error) {
		snapshot.Entry.Lease = platform.Lease{Worker: "two", Until: now.Add(time.Minute)}
		return &platform.Change{Entry: snapshot.Entry}, nil
	}))
}

// The records that can't be read are found, page by page: pages may be empty, and lead on.
func TestUnreadableAlone(t *testing.T) {
	store := newStore(t)
	r := newRigOver(t, store)
	for n := 0; n < 5; n++ {
		r.order()
	}
	all := r.call("GET", "/v1/instances", "").want(200, "")
	for _, n := range []string{"1", "4"} {
		store.rows[keyOfIDs(t, all.at("items", n, "number"))] = isUnreadable
	}
	rows, pages := r.walk("/v1/records?limit=2&unreadable=true", "next", "after")
	if len(rows) != 2 || len(pages) != 3 || len(pages[1].items()) != 0 {
		t.Errorf("got %d rows on %d pages: %v, want 2 on 3", len(rows), len(pages), rows)
	}
	whole := r.call("GET", "/v1/records?unreadable=false", "").want(200, "")
	diff.Equal(t, len(whole.items()), 5, "the list, %s", whole.text)
}

// Who shows how long something lasts asks for the store's time, and not for his own.
func TestTimeOfTheStore(t *testing.T) {
	store := newStore(t)
	r := newRigOver(t, store)
	id := r.ready()
	store.now = time.Date(2026, 1, 2, 3, 4, 5, 0, time.UTC)
	want := store.now.Format(time.RFC3339Nano)
	for _, target := range []string{"/v1/counts", "/v1/instances/" + id} {
		diff.Equal(t, r.call("GET", target, "").want(200, "").at("now"), want, "%s", target)
	}
}

// A row has what becomes of it: the number of its last request, and whether a failure may pass.
func TestAttemptAndFailure(t *testing.T) {
	r := newRig(t)
	id := r.order()
	shown := r.call("GET", "/v1/instances/"+id, "").want(200, "")
	diff.Lacks(t, shown.text, "attempt", "before it is sent")
	diff.Lacks(t, shown.text, "failure", "before it is sent")
	r.send(keyOfIDs(t, id))
	r.answer(keyOfIDs(t, id), 201, func(e *platform.Entry) {
		e.Failure, e.Passing = platform.Reason{At: e.Since, Kind: "provision", Status: 503}, true
	})
	shown = r.call("GET", "/v1/instances/"+id, "").want(200, "")
	if shown.at("attempt") != "1" || shown.at("failure_may_pass") != "true" || shown.at("failure", "status") != "503" {
		t.Errorf("got %s, want one attempt, and a failure that may pass", shown.text)
	}
}

// A time keeps its fraction, and metadata their text.
func TestPrecision(t *testing.T) {
	store := newStore(t)
	r := newRigOver(t, store)
	id := r.ready()
	const metadata = `{"labels":{"a":"<b> & c"}}`
	store.rows[keyOfIDs(t, id)] = func(e *platform.Entry) {
		e.Since, e.Metadata = e.Since.Truncate(time.Second).Add(123456789), json.RawMessage(metadata)
	}
	shown := r.call("GET", "/v1/instances/"+id, "").want(200, "")
	if !strings.HasSuffix(shown.at("since"), ".123456789Z") || !strings.Contains(shown.text, metadata) {
		t.Errorf("got %s, want the nanoseconds and the metadata", shown.text)
	}
}

// What is damaged in one row keeps no other one from being answered.
func TestDamagedRow(t *testing.T) {
	store := newStore(t)
	r := newRigOver(t, store)
	good := r.ready()
	store.rows[keyOfIDs(t, r.ready())] = func(e *platform.Entry) {
		e.Metadata, e.PolledSince = json.RawMessage(`{"a`), time.Date(20000, 1, 1, 0, 0, 0, 0, time.UTC)
		e.Last.At = e.PolledSince
	}
	request, recorded := httptest.NewRequest("GET", "/v1/instances", nil), httptest.NewRecorder()
	request.Header.Set("Authorization", "Bearer "+all)
	r.handler.ServeHTTP(recorded, request)
	diff.Equal(t, recorded.Code, 200, "%s", recorded.Body)
	diff.Contains(t, recorded.Body.String(), good, "")
}

// A query that asks for two things at once, or for what there isn't, is rejected.
func TestBadLists(t *testing.T) {
	r := newRig(t)
	r.order()
	r.order()
	cursor := r.call("GET", "/v1/records?limit=1", "").want(200, "").at("next")
	diff.Equal(t, url.QueryEscape(cursor), cursor, "the cursor")
	byState := r.call("GET", "/v1/records?limit=1&order=state", "").want(200, "").at("next")
	for _, query := range []string{
		"order=x", "order=", "order=newest&latest=true", "order=oldest&latest=false", "life=0", "life=101", "life=x",
		"last=yes", "unreadable=1", "before=x", "before=e30", "after=" + cursor + cursor, "order=newest&order=oldest",
		"first=a", "order=state&after=" + cursor, "latest=true&after=" + cursor, "order=number&after=" + byState,
		"after=" + byState, "order=number&latest=true", "order=id",
	} {
		t.Run(query, func(t *testing.T) {
			r.in(t)
			r.call("GET", "/v1/records?"+query, "").want(400, "malformed")
		})
	}
	const position = `"i":"00000000-0000-4000-8000-000000000001"`
	for _, query := range []string{
		`order=state {"s":"ready","t":"2026-01-02T03:04:05Z",` + position + `}`, // of version 0.3
		`order=newest {"s":"ready","t":"2026-01-02T03:04:05Z",` + position + `,"m":"x"}`,
		`order=number&state=ready {` + position + `}`, `order=number {` + position + `,"m":"1"}`,
	} {
		t.Run(query, func(t *testing.T) {
			r.in(t)
			query, text, _ := strings.Cut(query, " ")
			query += "&after=" + base64.RawURLEncoding.EncodeToString([]byte(text))
			got := r.call("GET", "/v1/records?"+query, "").want(400, "malformed")
			diff.Contains(t, got.at("detail"), "begin with the first page", "%s", text)
		})
	}
	for _, query := range []string{"after=a&before=a", "last=true&after=a", "last=true&before=a"} {
		got := r.call("GET", "/v1/records?"+query, "").want(400, "malformed")
		diff.Equal(t, got.at("detail"), "give one of after, before and last", "%s, %s", query, got.text)
	}
	r.call("GET", "/v1/bindings?prefix=x", "").want(400, "malformed")
	r.callAs(writing, "GET", "/v1/records", "").want(403, "forbidden")
}

// Between two pages, rows change to another state, behind and before the position of the page. In each order, the pages
// have each row once that fitted the query when the first one was read, as it is now.
func TestListsWhileRowsChange(t *testing.T) {
	r := newRig(t)
	states := map[string]string{} // of each instance
	for n := 0; n < 30; n++ {
		states[r.order()] = "ordered"
	}
	for _, order := range []string{"number", "state", "newest", "oldest", "state&latest=true"} {
		for _, chosen := range []string{"", "&state=ordered", "&state=withdrawn&state=ordered&broker=shelf"} {
			target, want, got, moved := "/v1/instances?limit=3&order="+order+chosen, map[string]int{}, map[string]int{}, 0
			for id, state := range states {
				if chosen != "&state=ordered" || state == "ordered" {
					want[id] = 1
				}
			}
			for next := ""; ; {
				page := r.call("GET", target+next, "").want(200, "")
				for n := range page.items() {
					id := page.at("items", fmt.Sprint(n), "id")
					diff.Equal(t, page.at("items", fmt.Sprint(n), "state"), states[id], "%s: the state of %s", target, id)
					got[id]++
				}
				for id := range want { // to another state, of one that was listed or not
					if states[id] == "ordered" && moved < 2 {
						r.call("DELETE", "/v1/instances/"+id, "").want(202, "")
						states[id], moved = "withdrawn", moved+1
						break
					}
				}
				cursor, isThere := page.body["next"].(string)
				if !isThere {
					break
				}
				next = "&after=" + cursor
			}
			diff.Check(t, got, want, "%s: how often each instance is on a page", target)
			diff.Equal(t, moved, 2, "%s: how many have changed", target)
		}
	}
}

// triedAgain has an instance or a binding gone, and another try of its order written, as a worker does. It returns the
// id of that.
func (r *rig) triedAgain(ids ...string) string {
	r.Helper()
	next, key := osb.MustParseID("00000000-0000-4000-8000-000000000002"), keyOfIDs(r.T, ids...)
	check(r.T, r.store.Change(background, key, func(now time.Time, snapshot platform.Snapshot) (*platform.Change, error) {
		failed, again := snapshot.Entry, snapshot.Entry
		failed.State, failed.Since, failed.Due, failed.Lease = platform.Gone, now, time.Time{}, platform.Lease{}
		if again.Try++; key.IsBinding {
			again.Key, again.Names.Binding = osb.BindingKey(key.Instance, next), next.String()
		} else {
			again.Key, again.Names.Instance = osb.InstanceKey(next), next.String()
		}
		again.State, again.Since, again.Due, again.IsSent = platform.Ordered, now, now, false
		again.Record, again.Lease = osb.Record{}, platform.Lease{}
		return &platform.Change{Entry: failed, Next: &again}, nil
	}))
	return next.String()
}

// Whoever removes an instance by the id of an earlier try removes the last one.
func TestRemoveLastTry(t *testing.T) {
	r := newRig(t)
	first := r.order()
	r.send(keyOfIDs(t, first))
	last := r.triedAgain(first)
	r.send(keyOfIDs(t, last))
	removed := r.call("DELETE", "/v1/instances/"+first, "").want(202, "")
	diff.Equal(t, removed.at("id"), last, "%s", removed.text)
	diff.Equal(t, removed.at("removal"), "removed", "%s", removed.text)
	shown := r.call("GET", "/v1/instances/"+last, "").want(200, "")
	diff.Equal(t, shown.at("removal"), "removed", "the last try, %s", shown.text)
	diff.Equal(t, r.call("GET", "/v1/instances/"+first, "").want(200, "").at("removal"), "none", "the first try")
}

// Whoever removes a binding by the id of an earlier try removes the last one. Its tries are listed by the first one's
// id, which another instance may have for a binding of its own.
func TestRemoveLastTryOfBinding(t *testing.T) {
	r := newRig(t)
	id, other := r.ready(), r.ready()
	path := "/v1/instances/" + id + "/bindings"
	for _, one := range []string{id, other} {
		made := r.call("POST", "/v1/instances/"+one+"/bindings", `{"id": "app", "tries": 2}`).want(201, "")
		diff.Equal(t, made.at("tries"), "2", "%s", made.text)
		diff.Equal(t, made.at("try"), "1", "%s", made.text)
		r.send(keyOfIDs(t, one, "app"))
	}
	last := r.triedAgain(id, "app")
	tries := r.call("GET", path+"?first=app&order=state", "").want(200, "")
	if len(tries.items()) != 2 || tries.at("items", "1", "id") != last || tries.at("items", "1", "try") != "2" {
		t.Errorf("the tries: got %s, want both", tries.text)
	}
	alone := r.call("GET", "/v1/instances/"+other+"/bindings?first=app", "").want(200, "")
	diff.Equal(t, len(alone.items()), 1, "the tries of the other, %s", alone.text)
	removed := r.call("DELETE", path+"/app", "").want(202, "")
	diff.Equal(t, removed.at("id"), last, "%s", removed.text)
	diff.Equal(t, removed.at("state"), "withdrawn", "%s", removed.text)
	shown := r.call("GET", "/v1/instances/"+other+"/bindings/app", "").want(200, "")
	diff.Equal(t, shown.at("removal"), "none", "the binding of the other, %s", shown.text)
	if removed := r.call("DELETE", "/v1/instances/"+other+"/bindings/app", "").want(202, ""); removed.at("id") != "app" ||
		removed.at("instance_id") != other || removed.at("removal") != "removed" {
		t.Errorf("got %s, want the binding of the other removed", removed.text)
	}
}

// A new binding has as many tries as a new instance.
func TestTriesOfBinding(t *testing.T) {
	r := newRig(t)
	path := "/v1/instances/" + r.ready() + "/bindings"
	for body, want := range map[string]string{
		`{}`: "3", `{"id": "a"}`: "1", `{"id": "b", "tries": 5}`: "5", `{"tries": 0}`: "3",
	} {
		t.Run(body, func(t *testing.T) {
			r.in(t)
			diff.Equal(t, r.call("POST", path, body).want(201, "").at("tries"), want, "%s", body)
		})
	}
	r.call("POST", path, `{"tries": 101}`).want(400, "invalid")
	r.call("POST", path, `{"tries": "1"}`).want(400, "malformed")
	r.call("GET", path+"?first="+strings.Repeat("x", 256), "").want(400, "malformed")
}

// A try that is ordered just before the one before it is removed is removed too.
func TestRemoveWhileTriedAgain(t *testing.T) {
	r := newRigOver(t, &retrying{Store: newStore(t)})
	first := r.order()
	r.send(keyOfIDs(t, first))
	last := ""
	r.store.(*retrying).before = func() { last = r.triedAgain(first) }
	removed := r.call("DELETE", "/v1/instances/"+first, "").want(202, "")
	diff.Equal(t, removed.at("id"), last, "%s", removed.text)
	diff.Equal(t, removed.at("state"), "withdrawn", "%s", removed.text)
}

// A retrying is a Store in which something happens before the next change.
type retrying struct {
	platform.Store
	before func()
}

func (s *retrying) Change(ctx context.Context, key platform.Key, step platform.Step) error {
	if before := s.before; before != nil {
		s.before = nil
		before()
	}
	return s.Store.Change(ctx, key, step)
}

// If the key of the store was replaced, no password is written with the old one, and no credentials are read.
func TestKeyThatWasReplaced(t *testing.T) {
	r := newRig(t)
	id := r.ready()
	credentials := "/v1/instances/" + id + "/bindings/" + r.bind(id) + "/credentials"
	r.call("GET", credentials, "").want(200, "")
	const path, body = "/v1/brokers/shelf", `{"url": "https://shelf.example", "user": "me", "password": "new"}`
	before := r.brokerNamed("shelf").Password
	asked, from := 0, 1
	r.checkKey = func(context.Context) error {
		if asked++; asked < from {
			return nil
		}
		return &platform.Rejection{Kind: platform.Conflict, Text: "the key was replaced"}
	}
	got := r.call("PUT", path, body).want(409, "conflict")
	diff.Equal(t, got.at("detail"), "the key was replaced", "%s", got.text)
	diff.Equal(t, string(r.brokerNamed("shelf").Password), string(before), "the password")
	r.call("GET", credentials, "").want(409, "conflict")
	url, user := r.brokerNamed("shelf").URL, r.brokerNamed("shelf").User
	r.call("PUT", path, `{"url": "`+url+`", "user": "`+user+`"}`).want(200, "")        // nothing is encrypted
	r.call("PUT", path, `{"url": "`+url+`", "user": "another"}`).want(409, "conflict") // the password is
	asked, from = 0, 2                                                                 // it is replaced while the password is written
	r.call("PUT", path, body).want(409, "conflict")
	asked = 0
	r.call("PUT", "/v1/brokers/other", body).want(409, "conflict")
}

// A problem names an instance or a binding by the ids of the path. Nobody knows the numbers of the store.
func TestProblemsNameIDs(t *testing.T) {
	r := newRig(t)
	r.call("POST", "/v1/instances", `{"id": "my id", "service": "shelf", "plan": "small"}`).want(201, "")
	const one, other, binding = "/v1/instances/my%20id", "/v1/instances/no%20id", "/bindings/my%20binding"
	const unknown, unknownBinding = `the instance "no id" is unknown`, `the binding "my id/my binding" is unknown`
	for _, test := range []struct {
		method, target, body string
		status               int
		code, detail         string
	}{
		{"GET", other, "", 404, "not_found", unknown},
		{"DELETE", other, "", 404, "not_found", unknown},
		{"POST", other + "/retry", "", 404, "not_found", unknown},
		{"POST", other + "/abandon", `{"because": "x"}`, 404, "not_found", unknown},
		{"GET", other + "/bindings", "", 404, "not_found", unknown},
		{"POST", other + "/bindings", `{}`, 404, "not_found", unknown},
		{"GET", one + binding, "", 404, "not_found", unknownBinding},
		{"DELETE", one + binding, "", 404, "not_found", unknownBinding},
		{"POST", one + binding + "/retry", "", 404, "not_found", unknownBinding},
		{"GET", one + binding + "/credentials", "", 404, "not_found", unknownBinding},
		{"POST", "/v1/instances", `{"id": "my id", "service": "shelf", "plan": "small"}`, 409, "conflict",
			"the id of the instance my id is used already, and none is used twice: choose another one"},
		{"POST", one + "/bindings", `{}`, 409, "conflict",
			"the instance my id is ordered: a binding can be created once it is ready"},
		{"POST", one + "/abandon", `{"because": "x"}`, 409, "conflict",
			"the instance my id wasn't sent yet: remove it"},
		{"DELETE", one, "", 202, "", ""},
		{"POST", one + "/retry", "", 409, "conflict",
			"the instance my id is withdrawn: nothing is to be done for it"},
	} {
		got := r.call(test.method, test.target, test.body).want(test.status, test.code)
		if test.detail != "" && got.at("detail") != test.detail {
			r.Errorf("%s %s: got the detail %q, want %q", test.method, test.target, got.at("detail"), test.detail)
		}
	}
}

// By http:// a password is sent in clear. So a broker elsewhere is added by it only if the program allows that.
func TestHTTPElsewhere(t *testing.T) {
	r := newRig(t)
	put := func(status int, code, url string) {
		r.call("PUT", "/v1/brokers/far", `{"url": "`+url+`", "user": "u", "password": "p"}`).want(status, code)
	}
	put(400, "invalid", "http://far.example")
	put(201, "", "http://127.0.0.1:8080")
	put(400, "invalid", "http://far.example")
	put(200, "", "https://far.example")
	r.orders.AllowHTTP(true)
	put(200, "", "http://far.example")
	r.orders.AllowHTTP(false) // the URL that it has was allowed
	put(200, "", "http://far.example/")
	put(400, "invalid", "http://far.example:81")
}
