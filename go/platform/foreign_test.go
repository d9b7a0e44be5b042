package platform_test

import (
	"encoding/json"
	"errors"
	"fmt"
	"strings"
	"testing"
	"time"

	"pippinterm/internal/diff"
	"pippinterm/platform"
)

// A reason is what is recorded of a platform.Reason. lost must be a part of its Lost, and is empty if that is.
type reason struct {
	kind, code, description, lost string
	status                        int
}

// An ending is what is recorded once all rests.
type ending struct {
	tries               []platform.State // the states of the tries of the order
	failure             reason           // why the creation of the first try has failed
	last                reason           // what was said last of the first try
	dashboard, metadata string
	because             string
	orphans             []string
}

var (
	ready         = []platform.State{platform.Ready}
	gone          = []platform.State{platform.Gone}
	goneThenReady = []platform.State{platform.Gone, platform.Ready}

	// absent is recorded last if a deletion finds nothing.
	absent = reason{kind: "deprovision", status: 410}
)

// A behaviour is what a broker does, and what is right for it.
type behaviour struct {
	name     string
	members  string // further members of the catalogue
	plan     string // further members of its plan
	id       string // an id that the operator chooses
	settings platform.Settings
	options  platform.Options
	script   []step
	want     ending
}

func seconds(count int) *time.Duration {
	duration := time.Duration(count) * time.Second
	return &duration
}

func removes(t *testing.T, s *scene) {
	diff.Value(s.orders.Remove(background, s.key, false))(t)
}

func retries(t *testing.T, s *scene) {
	diff.Value(s.orders.Retry(background, s.key))(t)
}

// abandons is the last way out. Until then the record says what hinders it.
func abandons(t *testing.T, s *scene) {
	diff.Equal(t, s.rows()[0].State, platform.Cleaning, "before it is abandoned")
	diff.Value(s.orders.Abandon(background, s.key, "asked the broker's people"))(t)
}

// accepts has the broker take the login again, after an hour in which only requests for the catalogue arrived.
func accepts(_ *testing.T, s *scene) {
	for n := 0; n < 6; n++ {
		s.forward(10 * time.Minute)
		s.run()
	}
	s.mu.Lock()
	defer s.mu.Unlock()
	s.refusing = false
}

// moves has the clock go forward by so many seconds, in which nothing is due.
func moves(count int) func(*testing.T, *scene) {
	return func(t *testing.T, s *scene) {
		s.forward(time.Duration(count) * time.Second)
	}
}

const (
	empty      = `{}`
	inProgress = `{"state": "in progress"}`
	succeeded  = `{"state": "succeeded"}`
	busy       = `{"error": "ConcurrencyError", "description": "something else is going on"}`
)

// The broker has no tombstones. A creation leaves at 0 s, and until 60 s at the latest. So its deletion is sent at
// 360 s at the earliest, 300 s later, and the last one 300 s after the end of the record (docs/platform-guide.md).
// Without chance, the pace is 2 s, and doubles up to 120 s.
func TestForeignCreations(t *testing.T) { playAll(t, creations) }

// creations are what brokers answer to a Provision, and to its Polls.
var creations = []behaviour{{
	name: "it has ids that are names", // each request has them
	script: []step{
		put(201, empty), operator(removes), remove(200, empty).at(360), last(410, 660),
	},
	want: ending{tries: gone, last: absent},
}, {
	name: "it names a dashboard and metadata",
	script: []step{
		put(201, `{"dashboard_url": "https://d.example/a?b=c", "metadata": {"labels": {"team": "blue"}}}`),
	},
	want: ending{
		tries: ready, last: reason{kind: "provision", status: 201}, dashboard: "https://d.example/a?b=c",
		metadata: `{"labels":{"team":"blue"}}`,
	},
}, {
	name: "its operation has characters that a query escapes, and it asks to wait",
	script: []step{
		put(202, `{"operation": "task 42&x=ü/ü"}`).retryAfter("9"),
		poll(200, inProgress).naming("task 42&x=ü/ü").at(9).retryAfter("30"),
		poll(200, succeeded).naming("task 42&x=ü/ü").at(39),
	},
	want: ending{tries: []platform.State{platform.Ready}, last: reason{kind: "poll", status: 200}},
}, {
	name: "it says later that the creation has failed",
	script: []step{
		put(202, `{"operation": "7"}`),
		poll(200, `{"state": "failed", "description": "no disk is left", "instance_usable": false}`).naming("7").at(2),
		remove(410, empty).at(360), last(410, 660),
	},
	want: ending{tries: gone, failure: reason{kind: "poll", status: 200, description: "no disk is left"}, last: absent},
}, {
	name: "it creates for longer than the platform waits, and has nothing at the first deletion",
	script: []step{
		{request: "PUT", hangs: true}, remove(410, empty).at(360),
		put(201, empty).at(362), last(200, 660).of(1),
	},
	want: ending{
		tries: goneThenReady, failure: reason{kind: "provision", lost: "canceled"},
		last: reason{kind: "deprovision", status: 200}, orphans: []string{"200 true"},
	},
}, rejection("QuotaExceeded", "your quota is used"), rejection("RequiresApp", "bind it to an application"),
	rejection("MaintenanceInfoConflict", "the plan has another version"), {
		name: "it is busy with a ConcurrencyError", // the order is sent again later, under another id
		script: []step{
			put(422, busy), remove(422, busy).at(360), remove(410, empty).at(364), put(201, empty).at(366),
			last(410, 664).of(1),
		},
		want: ending{
			tries:   goneThenReady,
			failure: reason{kind: "provision", status: 422, code: "ConcurrencyError", description: "something else is going on"},
			last:    absent,
		},
	}, {
		name: "it is busy with a ConcurrencyError under an id that the operator has chosen", // another may have it
		id:   "accounts",
		script: []step{
			put(422, `{"error": "ConcurrencyError"}`), operator(moves(9999)), operator(removes),
			remove(410, empty).at(9999), last(410, 10299),
		},
		want: ending{
			tries: gone, failure: reason{kind: "provision", status: 422, code: "ConcurrencyError"}, last: absent,
		},
	}, {
		name:   "it rejects with a 400 and a description", // then it has nothing
		script: []step{put(400, `{"description": "the name is too long"}`), last(410, 360)},
		want: ending{
			tries: gone, failure: reason{kind: "provision", status: 400, description: "the name is too long"},
			last: absent,
		},
	}, {
		name: "it has tombstones", members: `"x-osb-tombstones": true, `, // nothing is held, and none is the last
		script: []step{put(503, empty), remove(410, empty).at(2), put(201, empty).at(4)},
		want:   ending{tries: goneThenReady, failure: reason{kind: "provision", status: 503}, last: absent},
	}, {
		name:   "it has a conflict", // under an id that the platform has made up, so it is nobody else's
		script: []step{put(409, `{"description": "it is there"}`), remove(200, empty).at(360), last(410, 660)},
		want: ending{
			tries: gone, failure: reason{kind: "provision", status: 409, description: "it is there"}, last: absent,
		},
	}, {
		name:   "it has a conflict under an id that the operator has chosen", // another may have it
		id:     "accounts",
		script: []step{put(409, empty), operator(moves(9999)), operator(removes), remove(200, empty), last(410, 10299)},
		want:   ending{tries: gone, failure: reason{kind: "provision", status: 409}, last: absent},
	}, {
		name:    "it has a conflict, and what is unsettled waits",
		options: platform.Options{Unsettled: platform.KeepUnsettled},
		script:  []step{put(409, empty), operator(moves(9999))},
		want: ending{
			tries: []platform.State{platform.Unsettled}, failure: reason{kind: "provision", status: 409},
			last: reason{kind: "provision", status: 409},
		},
	}, refusal(401), refusal(403), {
		name: "it answers 404, as a gateway does", // it counts as no answer
		script: []step{
			put(404, `{"description": "no route"}`), remove(404, empty).at(360), remove(404, empty).at(364),
			remove(410, empty).at(372), put(201, empty).at(374), last(410, 672).of(1),
		},
		want: ending{
			tries: goneThenReady, failure: reason{kind: "provision", status: 404, description: "no route", lost: "404"},
			last: absent,
		},
	}, overload(429, "429"), overload(503, ""), {
		name: "it is overloaded at each try",
		script: []step{
			put(503, empty), remove(410, empty).at(360), put(503, empty).at(362), last(410, 660).of(1),
			remove(410, empty).at(722), put(503, empty).at(726), last(410, 1022).of(2), remove(410, empty).at(1086),
			last(410, 1386),
		},
		want: ending{
			tries:   []platform.State{platform.Gone, platform.Gone, platform.Gone},
			failure: reason{kind: "provision", status: 503}, last: absent,
		},
	},
	unreadable("a 200 with the text OK", 200, "OK", "can't be read"),
	unreadable("a 201 without a body", 201, "", "can't be read"),
	unreadable("a 202 without a body", 202, "", "can't be read"),
	unreadable("a 204", 204, "", ""),
	unreadable("a number beyond all limits", 201, `{"dashboard_url": "https://d.example", "size": 1e999}`,
		"can't be read"),
	{
		name:     "it knows nothing of the operation, without an end",
		settings: platform.Settings{LongestPoll: seconds(600)},
		script: []step{
			put(202, empty), poll(404, `{"description": "what?"}`).repeat(9), remove(410, empty).at(600),
			last(410, 900),
		},
		want: ending{tries: gone, failure: reason{kind: "poll", lost: "longer than 10m0s"}, last: absent},
	}, {
		name:   "its plan has a maximum_polling_duration",
		plan:   `, "maximum_polling_duration": 400`,
		script: []step{put(202, empty), poll(200, inProgress).repeat(8), remove(200, empty).at(400), last(410, 700)},
		want:   ending{tries: gone, failure: reason{kind: "poll", lost: "longer than 6m40s"}, last: absent},
	}, {
		name:   "its plan has a short maximum_polling_duration",
		plan:   `, "maximum_polling_duration": 4`,
		script: []step{put(202, empty), poll(200, inProgress).at(2), remove(200, empty).at(360), last(410, 660)},
		want:   ending{tries: gone, failure: reason{kind: "poll", lost: "longer than 4s"}, last: absent},
	},
	renaming("its operation is a number", `42`),
	renaming("its operation is too long", `"`+strings.Repeat("ü", 12_000)+`"`),
	renaming("its operation has a NUL", `"a\u0000b"`),
	{
		name: "its operation is as long as it may be",
		script: []step{
			put(202, `{"operation": "`+strings.Repeat("o", 10_000)+`"}`),
			poll(200, succeeded).naming(strings.Repeat("o", 10_000)).at(2),
		},
		want: ending{tries: []platform.State{platform.Ready}, last: reason{kind: "poll", status: 200}},
	}, {
		name: "it answers 412 to the creation alone", // it was replaced by an older one
		script: []step{
			put(412, `{"description": "I speak 2.13"}`), remove(410, empty).at(360), put(201, empty).at(362),
			last(410, 660).of(1),
		},
		want: ending{
			tries:   goneThenReady,
			failure: reason{kind: "provision", status: 412, description: "I speak 2.13", lost: "412"}, last: absent,
		},
	},
}

// rejection is a 422, after which nothing is sent but a deletion: the id is the platform's own.
func rejection(code, description string) behaviour {
	return behaviour{
		name: "it rejects with " + code,
		script: []step{
			put(422, `{"error": "`+code+`", "description": "`+description+`"}`), remove(410, empty).at(360),
			last(410, 660),
		},
		want: ending{
			tries: gone, failure: reason{kind: "provision", status: 422, code: code, description: description},
			last: absent,
		},
	}
}

// refusal is a login that is refused for an hour. The order isn't lost.
func refusal(status int) behaviour {
	return behaviour{
		name: "it refuses the login with " + map[int]string{401: "401", 403: "403"}[status],
		script: []step{
			{request: "PUT", status: status, body: `{"description": "who are you?"}`, refuses: true},
			operator(accepts), remove(410, empty).at(3600), put(201, empty).at(3602), last(410, 3900).of(1),
		},
		want: ending{
			tries:   goneThenReady,
			failure: reason{kind: "provision", status: status, description: "who are you?", lost: "isn't surely the broker's"},
			last:    absent,
		},
	}
}

// overload is a broker that asks to wait for longer than the hold.
func overload(status int, lost string) behaviour {
	return behaviour{
		name: map[int]string{429: "it has had too many requests", 503: "it isn't available"}[status],
		script: []step{
			put(status, `{"description": "later"}`).retryAfter("400"), remove(410, empty).at(400),
			put(201, empty).at(402), last(410, 700).of(1),
		},
		want: ending{
			tries: goneThenReady, failure: reason{kind: "provision", status: status, description: "later", lost: lost},
			last: absent,
		},
	}
}

// unreadable is an answer that says nothing that can be relied on.
func unreadable(name string, status int, body, lost string) behaviour {
	return behaviour{
		name: "it answers " + name, script: []step{put(status, body), remove(200, empty).at(360), last(410, 660)},
		want: ending{tries: gone, failure: reason{kind: "provision", status: status, lost: lost}, last: absent},
	}
}

// renaming is an operation that isn't one, so that its Polls name none, and are rejected.
func renaming(name, operation string) behaviour {
	return behaviour{
		name: name, settings: platform.Settings{LongestPoll: seconds(600)},
		script: []step{
			put(202, `{"operation": `+operation+`}`),
			poll(400, `{"description": "name the operation"}`).repeat(9), remove(200, empty).at(600), last(410, 900),
		},
		want: ending{tries: gone, failure: reason{kind: "poll", lost: "longer than 10m0s"}, last: absent},
	}
}

// long is more than is kept of any text.
var long = strings.Repeat("ä", 30_000)

// loud is an object in which everything is long.
func loud(more string) string {
	return fmt.Sprintf(`{"error": %q, "description": %q, "operation": %q, "dashboard_url": %q,
		"metadata": {"labels": {"team": %q}}, "instance_usable": true%s}`, long, long, long, "https://d.example/"+long,
		long+long, more)
}

// What a broker writes at length reaches neither the row nor the log as a whole.
func TestForeignBounds(t *testing.T) {
	for _, choice := range []behaviour{
		{name: "a creation", script: []step{put(201, loud(``))}},
		{name: "an operation", script: []step{
			put(202, loud(``)), poll(200, loud(`, "state": "in progress"`)), poll(200, loud(`, "state": "failed"`)),
			remove(202, loud(``)), poll(200, loud(`, "state": "succeeded"`)), last(410, 662),
		}},
		{name: "a rejection", script: []step{put(400, loud(``)), remove(500, loud(``)), last(410, 364)}},
		{name: "a status line", script: []step{
			{request: "PUT", status: 400, body: loud(``), phrase: long}, {request: "DELETE", status: 410, phrase: long},
		}},
		{name: "a header", script: []step{put(201, empty).retryAfter(strings.Repeat("9", 60_000))}},
		{name: "an operation that is as long as it may be", script: []step{
			put(202, `{"operation": "`+strings.Repeat("ä", 10_000)+`"}`),
			poll(200, succeeded).naming(strings.Repeat("ä", 10_000)),
		}},
	} {
		t.Run(choice.name, func(t *testing.T) {
			s := newScene(t, small("", ""), platform.Settings{}, platform.Options{})
			s.order(platform.NewInstance{})
			choice.script = append(choice.script, operator(s.checkRow))
			s.play(choice.script)
			s.checkReported(t)
		})
	}
}

// checkRow is that a row is short. It is called with an engine at rest, and by itself between two steps.
func (s *scene) checkRow(t *testing.T, _ *scene) {
	t.Helper()
	for _, row := range s.rows() {
		texts := map[string]int{
			row.Last.Error: 1000, row.Last.Description: 1000, row.Last.Lost: 1000, row.Failure.Error: 1000,
			row.Failure.Description: 1000, row.Failure.Lost: 1000, row.Dashboard: 10_000, string(row.Metadata): 64 << 10,
		}
		if row.Operation != nil {
			texts[*row.Operation] = 20_000
		}
		for text, most := range texts {
			diff.AtMost(t, len(text), most, "the text kept")
		}
		diff.AtMost(t, len(diff.Value(json.Marshal(row))(t)), 20_000, "the row")
	}
}

// checkReported checks that what was reported for a log is short.
func (s *scene) checkReported(t *testing.T) {
	t.Helper()
	s.mu.Lock()
	defer s.mu.Unlock()
	diff.AtLeast(t, len(s.exchanges), 1, "the reports")
	for _, exchange := range s.exchanges {
		lost := ""
		if exchange.Lost != nil {
			lost = exchange.Lost.Error()
		}
		for _, text := range []string{exchange.Error, exchange.Description, lost} {
			diff.AtMost(t, len(text), 1000, "the text reported")
		}
	}
	for _, failure := range s.failures {
		diff.AtMost(t, len(failure.Err.Error()), 1000, "the error reported")
	}
}

// playAll plays behaviours, and compares what is recorded in the end with what is right.
func playAll(t *testing.T, all []behaviour) {
	for _, behaviour := range all {
		behaviour := behaviour
		t.Run(behaviour.name, func(t *testing.T) {
			t.Parallel()
			s := newScene(t, small(behaviour.members, behaviour.plan), behaviour.settings, behaviour.options)
			s.order(platform.NewInstance{ID: behaviour.id})
			s.play(behaviour.script)
			s.checkEnding(t, behaviour.want)
		})
	}
}

func (s *scene) checkEnding(t *testing.T, want ending) {
	t.Helper()
	rows := s.rows()
	var states []string
	for at, row := range rows {
		states = append(states, string(row.State))
		if !row.Rests() || row.Lease != (platform.Lease{}) || row.Try != at+1 {
			t.Errorf("try %d: got %s, due %v, %v, want it at rest", row.Try, row.State, row.Due, row.Lease)
		}
	}
	var wanted []string
	for _, try := range want.tries {
		wanted = append(wanted, string(try))
	}
	if got, want := strings.Join(states, ", "), strings.Join(wanted, ", "); got != want {
		t.Fatalf("the tries: got %s, want %s", got, want)
	}
	first := rows[0]
	checkReason(t, "the failure", first.Failure, want.failure)
	checkReason(t, "the last reason", first.Last, want.last)
	if first.Dashboard != want.dashboard || string(first.Metadata) != want.metadata || first.Because != want.because {
		t.Errorf("kept: got %q, %q and %q, want %q, %q and %q", first.Dashboard, first.Metadata, first.Because,
			want.dashboard, want.metadata, want.because)
	}
	diff.Equal(t, strings.Join(s.orphans, ", "), strings.Join(want.orphans, ", "), "the orphans")
}

func checkReason(t *testing.T, what string, got platform.Reason, want reason) {
	t.Helper()
	isLost := got.Lost == want.lost || want.lost != "" && strings.Contains(got.Lost, want.lost)
	if got.Kind != want.kind || got.Status != want.status || got.Error != want.code ||
		got.Description != want.description || !isLost || got.At.IsZero() != (want == reason{}) {
		t.Errorf("%s: got %+v, want %+v", what, got, want)
	}
}

func TestForeignDeletions(t *testing.T) { playAll(t, deletions) }

// deletions are what brokers answer to a Deprovision, and to its Polls. The instance is removed an hour after its
// order, so nothing is held but the last deletion.
var deletions = []behaviour{{
	name: "it is busy twice",
	script: creating(
		remove(422, busy).at(3600), remove(422, busy).at(3602), remove(200, empty).at(3606), last(410, 3906),
	),
	want: endOf(platform.Gone, absent),
}, {
	name: "it says later that the deletion has failed",
	script: creating(
		remove(202, `{"operation": "d"}`).at(3600),
		poll(200, `{"state": "failed", "description": "it is in use", "instance_usable": true}`).naming("d").at(3602),
		remove(410, empty).at(3606), last(410, 3906),
	),
	want: endOf(platform.Gone, absent),
}, {
	name: "it says of a deletion that there is nothing any more", // to a Poll
	script: creating(
		remove(202, empty).at(3600), poll(200, inProgress).at(3602), poll(410, empty).at(3606), last(410, 3906),
	),
	want: endOf(platform.Gone, absent),
}, {
	name:     "it deletes without an end", // the deletion is sent again once it has been polled for too long
	settings: platform.Settings{LongestPoll: seconds(600)},
	script: creating(
		remove(202, empty).at(3600), poll(200, inProgress).repeat(9), remove(202, empty).at(4200),
		poll(200, inProgress).at(4202), poll(200, inProgress).at(4322).repeat(4), remove(410, empty).at(4800),
		last(410, 5100),
	),
	want: endOf(platform.Gone, absent),
}, {
	name:     "it answers each Poll of a deletion with 404",
	settings: platform.Settings{LongestPoll: seconds(600)},
	script: creating(
		remove(202, empty).at(3600), poll(404, empty).repeat(9), remove(410, empty).at(4200), last(410, 4500),
	),
	want: endOf(platform.Gone, absent),
}, {
	name: "it deletes without an end, and an operator has the deletion sent again",
	script: creating(
		remove(202, empty).at(3600), poll(200, inProgress).repeat(5), operator(retries), remove(200, empty).at(3662),
		last(410, 3962),
	),
	want: endOf(platform.Gone, absent),
}, {
	name: "it answers a deletion with 200 and no body, and with 404 from then on",
	script: creating(
		remove(200, "").at(3600), remove(404, `{"description": "what?"}`).at(3602).repeat(20), operator(abandons),
	),
	want: endOf(platform.Abandoned, reason{kind: "deprovision", status: 404, description: "what?"}),
}, {
	name:   "it answers a deletion with 204", // which says nothing, so the deletion is sent again
	script: creating(remove(204, "").at(3600), remove(410, empty).at(3602), last(410, 3902)),
	want:   endOf(platform.Gone, absent),
}, {
	name: "it rejects a deletion without an end",
	script: creating(
		remove(400, `{"error": "InUse", "description": "it has bindings"}`).at(3600).repeat(20), operator(abandons),
	),
	want: endOf(platform.Abandoned, reason{
		kind: "deprovision", status: 400, code: "InUse", description: "it has bindings",
	}),
}, {
	name: "it rejects a deletion until somebody has mended it",
	script: creating(
		remove(400, `{"description": "it has bindings"}`).at(3600).repeat(5), operator(retries),
		remove(200, empty).at(3630), last(410, 3930),
	),
	want: endOf(platform.Gone, absent),
}, {
	name: "it refuses the login of a deletion",
	script: creating(
		step{request: "DELETE", status: 401, body: empty, due: 3600, refuses: true}, operator(accepts),
		remove(200, empty).at(7200), last(410, 7500),
	),
	want: endOf(platform.Gone, absent),
}, {
	name: "it isn't available for a deletion, and asks to wait",
	script: creating(
		remove(503, empty).at(3600).retryAfter("900"), remove(200, empty).at(4500), last(410, 4800),
	),
	want: endOf(platform.Gone, absent),
}, {
	name:   "it rejects the last deletion", // nobody knows what it has
	script: creating(remove(410, empty).at(3600), last(400, 3900)),
	want: func() ending {
		want := endOf(platform.Gone, reason{kind: "deprovision", status: 400})
		want.orphans = []string{"400 false"}
		return want
	}(),
}}

// creating is the script of an instance that is ready, and removed an hour later.
func creating(script ...step) []step {
	return append([]step{put(201, empty), operator(moves(3600)), operator(removes)}, script...)
}

func endOf(state platform.State, last reason) ending {
	want := ending{tries: []platform.State{state}, last: last}
	if state == platform.Abandoned {
		want.because = "asked the broker's people"
	}
	return want
}

// What the catalogue lacks can't be ordered. The broker isn't asked.
func TestForeignPlan(t *testing.T) {
	s := newScene(t, small("", ""), platform.Settings{}, platform.Options{})
	s.run()
	for _, newInstance := range []platform.NewInstance{
		{Service: "mysql"}, {Service: service, Plan: "huge"}, {Service: "database", Plan: "postgres-c2-id"},
	} {
		var rejected *platform.Rejection
		_, err := s.orders.Create(background, newInstance)
		if !errors.As(err, &rejected) || rejected.Kind != platform.Invalid || !strings.Contains(rejected.Text, "name one of") {
			t.Errorf("%+v: got %v, want a rejection that lists the plans to name", newInstance, err)
		}
	}
	s.play(nil)
	diff.Empty(t, s.rows(), "")
}

// A broker of another version, or that refuses the login, rejects everything. Nothing is ordered of it, its reason is
// kept, and a run with an end doesn't wait for it.
func TestForeignRefusals(t *testing.T) {
	for _, test := range []struct {
		status int
		said   string
	}{
		{412, "version 2.17"}, {401, "rejects the user or the password"}, {403, "doesn't let this user in"},
	} {
		t.Run(fmt.Sprint(test.status), func(t *testing.T) {
			s := newScene(t, small("", ""), platform.Settings{}, platform.Options{})
			s.turnedAway = test.status
			begun := time.Now()
			err := s.engine.RunOnce(background)
			diff.ErrorIs(t, err, platform.ErrUnreached, "%d", test.status)
			diff.ErrorContains(t, err, test.said, "%d", test.status)
			diff.AtMost(t, time.Since(begun), 30*time.Second, "%d", test.status)
			var rejected *platform.Rejection
			if _, err := s.orders.Create(background, platform.NewInstance{}); !errors.As(err, &rejected) {
				t.Errorf("%d: an order: got %v, want a rejection", test.status, err)
			}
			brokers := diff.Value(s.store.Brokers(background))(t)
			if got := brokers[0].Reason; got.Status != test.status || !strings.Contains(got.Lost, test.said) {
				t.Errorf("%d: got the reason %+v, want %q", test.status, got, test.said)
			}
		})
	}
}

// What the scene gets as an Observer.
