package api

import (
	"context"
	"fmt"
	"regexp"
	"strings"
	"testing"
	"time"

	"pippinterm/internal/diff"
	"pippinterm/platform"
)

// The bindings of all instances are one list.
func TestAllBindings(t *testing.T) {
	r := newRig(t)
	one, two := r.ready(), r.ready()
	first, second := r.bind(one), r.bind(two)
	r.call("POST", "/v1/instances/"+one+"/bindings", `{"id": "app"}`).want(201, "")
	of := map[string]string{first: one, second: two, "app": one}
	seen, target := map[string]bool{}, "/v1/bindings?limit=2"
	for target != "" {
		page := r.call("GET", target, "").want(200, "")
		for n := range page.items() {
			id, at := page.at("items", fmt.Sprint(n), "id"), page.at("items", fmt.Sprint(n), "instance_id")
			if of[id] != at || seen[id] {
				t.Errorf("the binding %s of %s: got %s, want it once, of its instance", id, at, page.text)
			}
			seen[id] = true
		}
		target = ""
		if next, isThere := page.body["next"].(string); isThere {
			target = "/v1/bindings?limit=2&after=" + next
		}
	}
	diff.Equal(t, len(seen), 3, "the list, %v", seen)
	for query, want := range map[string]int{
		"state=ready": 2, "state=ordered": 1, "broker=shelf": 3, "broker=none": 0,
	} {
		t.Run(query, func(t *testing.T) {
			r.in(t)
			got := r.call("GET", "/v1/bindings?"+query, "").want(200, "")
			diff.Equal(t, len(got.items()), want, "%s, %s", query, got.text)
		})
	}
	r.call("GET", "/v1/bindings?first="+one, "").want(400, "malformed")
	r.callAs(writing, "GET", "/v1/bindings", "").want(403, "forbidden")
	r.call("POST", "/v1/bindings", `{}`).want(405, "method_not_allowed")
}

// latest=true turns each list round, also over its pages.
func TestLatest(t *testing.T) {
	r := newRig(t)
	id := r.ready()
	r.ready()
	r.order()
	r.bind(id)
	r.bind(id)
	for _, path := range []string{"/v1/instances", "/v1/bindings", "/v1/instances/" + id + "/bindings"} {
		usual, turned := r.idsOf(path+"?latest=false"), r.idsOf(path+"?latest=true")
		for at, one := range usual {
			if len(turned) != len(usual) || turned[len(usual)-1-at] != one {
				t.Fatalf("%s: got %v, want %v turned round", path, turned, usual)
			}
		}
		diff.AtLeast(t, len(usual), 2, "%s: usual", path)
		diff.Equal(t, strings.Join(usual, " "), strings.Join(r.idsOf(path+"?order=state"), " "), "%s", path)
	}
}

// A changing is a store in which a row changes to another state before its life is read.
type changing struct{ platform.Store }

func (c changing) Life(ctx context.Context, key platform.Key) ([]platform.Stay, error) {
	for _, state := range []platform.State{platform.Cleaning, platform.Unsettled} {
		err := c.Change(ctx, key, func(now time.Time, snapshot platform.Snapshot) (*platform.Change, error) {
			snapshot.Entry.State, snapshot.Entry.Since = state, now
			return &platform.Change{Entry: snapshot.Entry}, nil
		})
		if err != nil {
			return nil, err
		}
	}
	return c.Store.Life(ctx, key)
}

// A life ends with the state that its row has, also if the row changes to others meanwhile.
func TestLifeOfAChangingRow(t *testing.T) {
	for _, target := range []string{"/v1/instances?life=9", "/v1/instances/one"} {
		r := newRigOver(t, changing{newStore(t)})
		r.call("POST", "/v1/instances", `{"id": "one", "broker": "shelf", "service": "shelf", "plan": "small"}`).want(201, "")
		r.send(keyOfIDs(t, "one"))
		shown := r.call("GET", target, "").want(200, "")
		life := regexp.MustCompile(`"state":"([a-z-]+)"`).FindAllStringSubmatch(shown.text, -1)
		if len(life) != 3 || life[0][1] != "wanted" || life[1][1] != "ordered" || life[2][1] != "wanted" {
			t.Errorf("%s: got %v, want the state wanted, and the life ordered, wanted", target, life)
		}
	}
}

// idsOf are the ids of a list, page by page, with one row on each.
func (r *rig) idsOf(target string) (found []string) {
	r.Helper()
	for next := ""; ; {
		page := r.call("GET", target+"&limit=1"+next, "").want(200, "")
		if len(page.items()) > 0 {
			found = append(found, page.at("items", "0", "id"))
		}
		cursor, isThere := page.body["next"].(string)
		if !isThere {
			return found
		}
		next = "&after=" + cursor
	}
}
