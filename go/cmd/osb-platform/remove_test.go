package main

import (
	"bytes"
	"context"
	"encoding/json"
	"fmt"
	"net/http"
	"regexp"
	"strings"
	"testing"
	"time"

	"github.com/spf13/cobra"

	"pippinterm/internal/diff"
	"pippinterm/osb"
	"pippinterm/platform"
	"pippinterm/platform/client"
)

// Whoever removes an instance by the id that `create` has printed removes the try that is ready.
func TestRemoveLastTry(t *testing.T) {
	s, store := newTestBroker(t), newPath(t)
	password := passwordFile(t)
	wantLines(t, store, []line{
		{"broker add local " + s.url + " --password-file " + password + " --first-pace 0.01", 0, ``, ``},
	})
	p := start(t, store, nil)
	p.Event("broker_reached")
	s.answer(503)
	created := call(t, "--store", store, "create", "--plan", "at-once", "--wait=60")
	tried := regexp.MustCompile(`^ordered (\S+)\n(\S+) has failed: tried again as (\S+)\n$`).
		FindStringSubmatch(created.failed)
	if created.status != 0 || tried == nil {
		t.Fatalf("got %+v, want the status 0 and a second try", created)
	}
	first, last := tried[1], tried[3]
	wantLines(t, store, []line{
		{"remove " + first + " --wait=60", 0, ``,
			first + " was tried again as " + last + ": removing that one\n" + last + " is gone"},
		{"list --state gone", 0, "(" + first + "|" + last + ")\tgone\t.*(" + first + "|" + last + ")\tgone\t.*", ``},
		{"remove " + first, 0, "it is gone already", first + " was tried again as " + last + ": removing that one"},
		{"remove " + last, 0, "it is gone already", ``},
	})
	p.stop()
}

// A triedAgain is a store in which an order is tried again under the id next just before its next change.
type triedAgain struct {
	platform.Store
	next osb.ID
	done bool
}

func (s *triedAgain) Change(ctx context.Context, key platform.Key, step platform.Step) error {
	if !s.done {
		s.done = true
		fails := func(now time.Time, snapshot platform.Snapshot) (*platform.Change, error) {
			failed, again := snapshot.Entry, snapshot.Entry
			failed.State, failed.Since, failed.Due = platform.Gone, now, time.Time{}
			again.Key, again.Names.Instance, again.Try = osb.InstanceKey(s.next), s.next.String(), snapshot.Try+1
			return &platform.Change{Entry: failed, Next: &again}, nil
		}
		if err := s.Store.Change(ctx, key, fails); err != nil {
			return err
		}
	}
	return s.Store.Change(ctx, key, step)
}

// A try that is ordered while the one before it is removed is removed too.
func TestRemoveWhileTriedAgain(t *testing.T) {
	over(t, newStore(t), func(ctx context.Context, in platform.Store) error {
		orders := platform.NewOrders(in, nil)
		first, err := orders.Create(ctx, platform.NewInstance{Plan: "small"})
		if err != nil {
			return err
		}
		store := &triedAgain{Store: in, next: osb.MustParseID("00000000-0000-4000-8000-000000000002")}
		command, failed := &cobra.Command{}, &bytes.Buffer{}
		command.SetErr(failed)
		s := session{store: store, orders: platform.NewOrders(store, nil)}
		removed, err := removeLast(ctx, command, s, first, false)
		if err != nil {
			return err
		}
		after, err := in.Read(ctx, osb.InstanceKey(store.next))
		if removed.Key != after.Key || after.State != platform.Withdrawn ||
			!isAll(guid+" was tried again as "+after.Names.Instance+": removing that one", failed.String()) {
			t.Errorf("got %v removed, the next in %s, and %q, want the next one withdrawn", removed.Key, after.State, failed)
		}
		return err
	})
}

// Bindings aren't the reason why what is abandoned can't be removed.
func TestRemoveAbandoned(t *testing.T) {
	store := newUnsettled(t, newTestBroker(t), "one")
	wantLines(t, store, []line{
		{"abandon one --because it", 0, ``, ``},
		{"remove one", 1, ``, `osb-platform: the instance one is abandoned: nothing is sent any more`},
	})
}

// lastAnswers are the answers about a last operation: the rows of the tables below.
var lastAnswers = []client.Answer{
	{Status: 200, State: "succeeded"}, {Status: 200, State: "in progress"}, {Status: 200, State: "failed"},
	{Status: 410}, {Status: 400}, {Status: 404}, {Status: 500}, {Status: 200, IsUnsure: true},
	{Status: 410, IsUnsure: true},
}

// fetchAnswers are the answers to a Fetch, nil if there was none: the columns of the tables below.
var fetchAnswers = []*client.Answer{
	nil, {Status: 200}, {Status: 404}, {Status: 410}, {Status: 500}, {Status: 404, IsUnsure: true},
}

// What 'ask' advises after each answer about the last operation, each answer to the Fetch, with tombstones and without,
// for an id that was chosen and for one that was made up here, after a creation that was rejected with 409 and after
// another one:
//
//	Y  it exists: remove it if it is yours   O  it exists, and the id is our own: remove it
//	N  nothing exists: remove it             W  remove whatever exists: the id is our own
//	?  ask the operator                      g  ask the operator: the 410 may say only that there is no operation
//	!  the answers contradict each other     L  leave it, or abandon it
func TestAdvice(t *testing.T) {
	letters := map[byte]string{
		'Y': "If it is yours, run 'osb-platform remove one': that deletes it",
		'O': "nobody else has this id. Run 'osb-platform remove one': that deletes it at the broker",
		'N': "the broker has nothing. Run 'osb-platform remove one': the record becomes gone",
		'W': "doesn't say what the broker holds, but nobody else has this id. Run 'osb-platform remove one'",
		'?': "the answer doesn't say what the broker holds: ask its operator",
		'g': "may say only that it knows no operation",
		'!': "the answers contradict each other",
		'L': "'osb-platform abandon one --because TEXT'",
	}
	conflict := platform.Reason{Kind: "provision", Status: 409}
	polled := platform.Reason{Kind: "poll", Status: 409}
	for _, test := range []struct {
		hasTombstones, isOwnID bool
		failure                platform.Reason
		want                   []string // a row for each of lastAnswers, a letter for each of fetchAnswers
	}{
		{true, false, platform.Reason{},
			[]string{"YY!!YY", "YYYYYY", "YYYYYY", "N!NN??", "LLLLLL", "??????", "??????", "??????", "??????"}},
		{true, true, platform.Reason{},
			[]string{"OO!!OO", "OOOOOO", "OOOOOO", "N!NNNN", "LLLLLL", "WWWWWW", "WWWWWW", "WWWWWW", "WWWWWW"}},
		{false, false, platform.Reason{},
			[]string{"YY!!YY", "YYYYYY", "YYYYYY", "g!NN??", "??????", "??????", "??????", "??????", "??????"}},
		{false, true, platform.Reason{},
			[]string{"OO!!OO", "OOOOOO", "OOOOOO", "N!NNNN", "WWWWWW", "WWWWWW", "WWWWWW", "WWWWWW", "WWWWWW"}},
		// The broker has tombstones and has answered 409 to the creation: what it holds is somebody else's.
		{true, false, conflict,
			[]string{"LL!!LL", "LLLLLL", "LLLLLL", "N!NN??", "LLLLLL", "??????", "??????", "??????", "??????"}},
		{true, true, conflict,
			[]string{"OO!!OO", "OOOOOO", "OOOOOO", "N!NNNN", "LLLLLL", "WWWWWW", "WWWWWW", "WWWWWW", "WWWWWW"}},
		{false, false, conflict,
			[]string{"YY!!YY", "YYYYYY", "YYYYYY", "g!NN??", "??????", "??????", "??????", "??????", "??????"}},
		{true, false, polled,
			[]string{"YY!!YY", "YYYYYY", "YYYYYY", "N!NN??", "LLLLLL", "??????", "??????", "??????", "??????"}},
	} {
		t.Run(fmt.Sprintf("tombstones %v, own id %v, %d", test.hasTombstones, test.isOwnID, test.failure.Status), func(t *testing.T) {
			for row, last := range lastAnswers {
				for column, fetched := range fetchAnswers {
					q := question{entry: platform.Entry{State: platform.Unsettled}}
					q.entry.Names.Instance, q.entry.IsOwnID, q.entry.Failure = "one", test.isOwnID, test.failure
					q.broker.Catalogue = []byte(`{"services": []}`)
					if test.hasTombstones {
						q.broker.Catalogue = []byte(`{"services": [], "x-osb-tombstones": true}`)
					}
					letter := test.want[row][column]
					got := q.advice(last, fetched)
					diff.Contains(t, got, letters[letter],
						"tombstones %v, own id %v, failure %+v, last operation %+v, Fetch %+v, %c", test.hasTombstones,
						test.isOwnID, test.failure, last, fetched, letter)
					diff.Equal(t, strings.Contains(got, "remove one"), strings.ContainsRune("YONW", rune(letter)),
						"last operation %+v, Fetch %+v, %q, %c", last, fetched, got, letter)
				}
			}
		})
	}
}

// What 'ask' advises about what is to be deleted, after each answer about the last operation and each answer to the
// Fetch, with tombstones and without:
//
//	R  it exists: have the cause repaired    P  a part may exist: have that repaired
//	N  nothing exists: retry                 w  the broker works on it
//	?  ask the operator whether it exists    L  the broker holds something else: ask the operator
//	!  the answers contradict each other
func TestAdviceOfDeletions(t *testing.T) {
	texts := map[byte]string{
		'R': "it exists. 'osb-platform show one' says in 'last reason' why", 'P': "a part of it may exist",
		'N': "Run 'osb-platform retry one': the record becomes gone", 'w': "run 'osb-platform ask one' again later",
		'?': "the answers don't say whether it exists. Ask the broker's operator",
		'L': "the broker holds something else under this id. Ask its operator", '!': "the answers contradict each other",
	}
	for catalogue, want := range map[string][]string{
		`{"services": [], "x-osb-tombstones": true}`: {
			"RR!!RR", "wwwwww", "PRPPPP", "N!NNNN", "LLLLLL", "?R????", "?R????", "?R????", "?R????"},
		`{"services": []}`: {
			"?R????", "wwwwww", "PRPPPP", "?!????", "?R????", "?R????", "?R????", "?R????", "?R????"},
	} {
		t.Run(catalogue, func(t *testing.T) {
			for _, state := range []platform.State{platform.Cleaning, platform.CleaningPolling} {
				for row, last := range lastAnswers {
					for column, fetched := range fetchAnswers {
						q := question{entry: platform.Entry{State: state}}
						q.entry.Names.Instance, q.broker.Catalogue = "one", []byte(catalogue)
						letter := want[row][column]
						if got := q.advice(last, fetched); !strings.Contains(got, texts[letter]) || strings.Contains(got, "remove") {
							t.Errorf("%s, %s, last operation %+v, Fetch %+v: got %q, want %c", catalogue, state, last, fetched, got, letter)
						}
					}
				}
			}
		})
	}
}

// A 200 that names no state of the standard doesn't say that an operation has failed.
func TestAdviceOfDeletionsWithoutState(t *testing.T) {
	for _, hasTombstones := range []bool{true, false} {
		for fetch, want := range map[finding]advice{
			saysNothing: askWhetherExists, saysNone: askWhetherExists, saysHeld: repairWhole,
		} {
			t.Run(fmt.Sprintf("tombstones %v, Fetch %v", hasTombstones, fetch), func(t *testing.T) {
				diff.Equal(t, adviseDeletion(client.Answer{Status: 200}, fetch, hasTombstones), want,
					"tombstones %v, Fetch %v", hasTombstones, fetch)
			})
		}
	}
}

// For what neither waits for a decision nor is to be deleted there is no advice. A binding is deleted by unbind.
func TestAdviceOfOthers(t *testing.T) {
	of := func(state platform.State) question {
		entry := platform.Entry{State: state}
		entry.Names.Instance, entry.Names.Binding, entry.Key.IsBinding = "one", "app", true
		return question{entry: entry}
	}
	for state, want := range map[platform.State]string{
		platform.Ready: "", platform.Polling: "", platform.Gone: "",
		platform.Unsettled: "the broker holds it. If it is yours, run 'osb-platform unbind one/app': that deletes it at " +
			"the broker",
	} {
		t.Run(string(state), func(t *testing.T) {
			diff.Equal(t, of(state).advice(client.Answer{Status: 200, State: "succeeded"}, nil), want, "%s", state)
		})
	}
}

// newUnsettled is a store with the broker local, and with instances of these ids that are unsettled.
func newUnsettled(t *testing.T, s *testBroker, ids ...string) (store string) {
	t.Helper()
	store = newPath(t)
	password := passwordFile(t)
	lines := []line{{"broker add local " + s.url + " --password-file " + password + " --hold 0", 0, ``, ``}}
	for _, id := range ids {
		lines = append(lines, line{"create --plan at-once --id " + id, 0, id, ``})
	}
	wantLines(t, store, lines)
	statuses := make([]int, len(ids))
	for at := range statuses {
		statuses[at] = http.StatusConflict
	}
	s.answer(statuses...)
	wantLines(t, store, []line{{"run --once", 0, `.*`, `.*`}})
	return store
}

// put has the broker create an instance, as another platform would.
func (s *testBroker) put(t *testing.T, id, plan string) {
	t.Helper()
	body := `{"service_id": "00000000-0000-0000-0000-0000000000a0", "plan_id": "` + plan +
		`", "organization_guid": "o", "space_guid": "s"}`
	url := s.url + "/v2/service_instances/" + id + "?accepts_incomplete=true"
	request := diff.Value(http.NewRequest(http.MethodPut, url, strings.NewReader(body)))(t)
	request.SetBasicAuth("platform", "secret")
	request.Header.Set("X-Broker-API-Version", "2.17")
	request.Header.Set("Content-Type", "application/json")
	answer := diff.Value(http.DefaultClient.Do(request))(t)
	defer answer.Body.Close()
	if answer.StatusCode != http.StatusCreated && answer.StatusCode != http.StatusAccepted {
		t.Fatalf("got the status %d, want 201 or 202", answer.StatusCode)
	}
}

// rowsOf are all rows of a store.
func rowsOf(t *testing.T, store string) (rows []platform.Entry) {
	t.Helper()
	over(t, store, func(ctx context.Context, in platform.Store) (err error) {
		rows, err = in.List(ctx, platform.Filter{})
		return err
	})
	return rows
}

// 'ask' says what the broker answers about what is unsettled, and which command leads on. It sends only GET, and
// changes no row.
func TestAsk(t *testing.T) {
	s := newTestBroker(t)
	store := newUnsettled(t, s, "one", "two", "three")
	s.put(t, "two", "00000000-0000-0000-0000-0000000000b1")
	s.put(t, "three", "00000000-0000-0000-0000-0000000000b2")
	before, asked := rowsOf(t, store), s.requests()
	const head = "state\tunsettled\nbroker\tlocal\nlast operation status\t"
	const said = "(last operation (error|description)\t[^\n]*\n)*"
	const found, missing = "fetch status\t200\n", "fetch status\t404\n(fetch (error|description)\t[^\n]*\n)*"
	wantLines(t, store, []line{
		{"ask one", 0, "id\tone\n" + head + "410\n" + said + missing + "what to do\tthe broker has nothing. " +
			"Run 'osb-platform remove one': the record becomes gone", ``},
		{"ask two", 0, "id\ttwo\n" + head + "200\nlast operation state\tsucceeded\n" + found + "what to do\tthe broker " +
			"holds something else under this id. Leave it, or end the record: 'osb-platform abandon two --because TEXT'", ``},
		{"ask three", 0, "id\tthree\n" + head + "400\n" + said + missing + "what to do\tthe broker holds something else " +
			"under this id. Leave it, or end the record: 'osb-platform abandon three --because TEXT'", ``},
		{"ask four", 1, ``, `osb-platform: the instance four is unknown`},
	})
	s.answer(http.StatusNotFound)
	wantLines(t, store, []line{{"ask two", 0, "id\ttwo\n" + head + "404\nlast operation error\tOdd\n" +
		"last operation description\t" + `"no \\x1b\[2J place"` + "\n" + found +
		"what to do\tthe answer doesn't say what the broker holds: ask its operator", ``}})
	sent := s.since(asked)
	for at := range sent {
		sent[at], _, _ = strings.Cut(sent[at], "?")
	}
	wanted := []string{}
	for _, id := range []string{"one", "two", "three", "two"} {
		path := "GET /v2/service_instances/" + id
		wanted = append(wanted, path+"/last_operation", path)
	}
	diff.Check(t, sent, wanted, "the requests")
	diff.Check(t, rowsOf(t, store), before, "the rows, and what they were")
}

// 'ask' fails if nothing was sent, if no key opens the password, and if there is no answer.
func TestAskInVain(t *testing.T) {
	s := newTestBroker(t)
	store := newUnsettled(t, s, "one")
	s.setPassword("another")
	wantLines(t, store, []line{
		{"create --plan at-once --id two", 0, `two`, ``},
		{"ask two", 1, ``, `osb-platform: two is ordered: nothing was sent for it, so the broker can't know it`},
		{"ask one", 0, "id\tone\n.*status\t401\n.*what to do\tthe answer doesn't say what the broker holds: .*", ``},
		{"broker set local --url http://127.0.0.1:1", 0, ``, `.*warning.*`},
		{"ask one", 1, "id\tone\nstate\tunsettled\nbroker\tlocal",
			`osb-platform: the broker local hasn't answered: .*connection refused`},
	})
	key := newKey(t)
	t.Setenv(passwordVariable, "another")
	wantLines(t, store, []line{
		{"broker set local --store-password --url " + s.url + " --key-file " + key, 0, ``, ``},
		{"ask one", 78, ``, `osb-platform: name the file with the key that encrypted the broker's password: .*`},
		{"ask one --key-file " + key, 0, "id\tone\n.*status\t410\n.*", ``},
	})
}

// What the catalogue calls retrievable is fetched, too. The credentials aren't printed.
func TestAskRetrievable(t *testing.T) {
	s := newTestBroker(t)
	store, key := newUnsettled(t, s), newKey(t)
	wantLines(t, store, []line{
		{"create --plan at-once --id one", 0, `one`, ``},
		{"run --once --key-file " + key, 0, `.*`, `.*`},
		{"bind one --id app --key-file " + key, 0, `one/app`, ``},
		{"run --once --key-file " + key, 0, `.*`, `.*`},
	})
	over(t, store, func(ctx context.Context, in platform.Store) error {
		return in.ChangeBroker(ctx, "local", func(it platform.Broker) (*platform.Broker, error) {
			it.Catalogue = json.RawMessage(strings.Replace(string(it.Catalogue), `"bindings_retrievable"`,
				`"instances_retrievable": true, "bindings_retrievable"`, 1))
			return &it, nil
		})
	})
	asked := s.requests()
	const ready = "state\tready\nbroker\tlocal\nlast operation status\t200\nlast operation state\tsucceeded\n" +
		"fetch status\t"
	wantLines(t, store, []line{
		{"ask one", 0, "id\tone\n" + ready + `[0-9]+(\nfetch (error|description)\t[^\n]*)*`, ``},
		{"ask one/app", 0, "id\tone/app\n" + ready + "200", ``},
	})
	targets := s.since(asked)
	for at, target := range targets {
		targets[at], _, _ = strings.Cut(target, "?")
	}
	const one = "GET /v2/service_instances/one"
	const app = one + "/service_bindings/app"
	diff.Check(t, targets, []string{one + "/last_operation", one, app + "/last_operation", app}, "")
}

// For what is unsettled, 'retry' and 'list' name the command that leads on.
func TestRetryUnsettled(t *testing.T) {
	s := newTestBroker(t)
	store := newUnsettled(t, s, "one")
	wantLines(t, store, []line{
		{"retry one", 1, ``, `osb-platform: the instance one is unsettled: its creation has failed, and the broker may ` +
			`hold it. Nothing is sent until somebody decides: .* Run 'osb-platform ask one', and then 'osb-platform remove ` +
			`one' or 'osb-platform abandon one --because TEXT'`},
		{"list", 0, "one\tunsettled\t.*", `1 unsettled .*run 'osb-platform ask ID'.*`},
	})
}

// A broker may answer 410 about the last operation of an instance that it holds: the Fetch shows it. Then no command is
// advised that deletes.
func TestAskContrary(t *testing.T) {
	s := newTestBroker(t)
	store := newUnsettled(t, s, "one")
	over(t, store, func(ctx context.Context, in platform.Store) error {
		return in.ChangeBroker(ctx, "local", func(it platform.Broker) (*platform.Broker, error) {
			text := strings.Replace(string(it.Catalogue), `"bindings_retrievable"`,
				`"instances_retrievable": true, "bindings_retrievable"`, 1)
			it.Catalogue = json.RawMessage(text)
			return &it, nil
		})
	})
	s.answer(http.StatusGone, http.StatusOK)
	got := call(t, "--store", store, "ask", "one")
	if got.status != 0 || !strings.Contains(got.out, "fetch status\t200\n") ||
		!strings.Contains(got.out, "what to do\tthe answers contradict each other") || strings.Contains(got.out, "remove") {
		t.Errorf("got %+v, want the status 200 of a Fetch, and that the answers contradict each other", got)
	}
}
