package run

import (
	"context"
	"encoding/json"
	"errors"
	"fmt"
	"net/http"
	"strings"
	"testing"
	"time"

	"pippinterm/internal/diff"
	"pippinterm/platform"
	"pippinterm/storm/fault"
	"pippinterm/storm/report"
	"pippinterm/storm/stormtest"
)

// answers are exchanges about one instance, one after another: each is a method, a status, and a body.
func answers(of ...[3]any) (all []fault.Exchange) {
	for at, request := range of {
		begun := time.Duration(at) * time.Second
		all = append(all, exchange(request[0].(string), request[1].(int), request[2].(string), begun, begun+time.Millisecond))
		all[at].Number.Request = at + 1
	}
	return all
}

// exchange is a request that was delivered once. POLL is the method of a Poll of the operation 1.
func exchange(method string, status int, body string, begun, ended time.Duration) fault.Exchange {
	target := "/v2/service_instances/one"
	if method == "POLL" {
		method, target = http.MethodGet, target+"/last_operation?operation=1"
	}
	d := fault.Delivery{Begun: begun, Ended: ended, Status: status, Body: []byte(body)}
	d.Header = http.Header{"Content-Type": {"application/json"}}
	return fault.Exchange{
		Number: fault.Number{Subject: fault.Subject{Instance: 1}, Request: 1}, Instance: "one", Method: method,
		Target: target, Begun: begun, Ended: ended, Deliveries: []fault.Delivery{d},
	}
}

func namesOf(all []Violation) string {
	var names []string
	for _, violation := range all {
		names = append(names, violation.Name)
	}
	return strings.Join(names, " ")
}

const operation = `{"operation": "1"}`

// An answer breaks a rule by itself, or by what the broker has answered before.
func TestJudge(t *testing.T) {
	type x = [3]any
	for _, test := range []struct {
		name   string
		all    []fault.Exchange
		wanted string
	}{
		{"synchronous", answers(x{"PUT", 201, `{}`}, x{"PUT", 200, `{}`}, x{"DELETE", 200, `{}`},
			x{"DELETE", 410, `{}`}), ""},
		{"asynchronous", answers(x{"PUT", 202, operation}, x{"PUT", 202, operation},
			x{"POLL", 200, `{"state": "in progress"}`}, x{"DELETE", 422, `{}`}, x{"POLL", 200, `{"state": "succeeded"}`},
			x{"PUT", 200, `{}`}, x{"DELETE", 202, operation}, x{"POLL", 410, `{}`}, x{"DELETE", 410, `{}`}), ""},
		{"created again", answers(x{"PUT", 201, `{}`}, x{"PUT", 201, `{}`}), "provision-repeated"},
		{"created again, asynchronous", answers(x{"PUT", 202, operation}, x{"POLL", 200, `{"state": "succeeded"}`},
			x{"PUT", 202, operation}), "provision-repeated"},
		{"another operation", answers(x{"PUT", 202, operation}, x{"PUT", 202, `{"operation": "2"}`}), "async-repeated"},
		{"gone while it is created", answers(x{"PUT", 202, operation}, x{"DELETE", 410, `{}`}),
			"async-deprovision-during-provision"},
		{"halted", answers(x{"PUT", 202, operation}, x{"DELETE", 202, operation}, x{"POLL", 410, `{}`}), ""},
		{"gone though it exists", answers(x{"PUT", 201, `{}`}, x{"DELETE", 410, `{}`}), "deprovision-existing"},
		{"deleted again", answers(x{"PUT", 201, `{}`}, x{"DELETE", 200, `{}`}, x{"DELETE", 200, `{}`}),
			"deprovision-repeated"},
		{"operation forgotten", answers(x{"PUT", 202, operation}, x{"POLL", 410, `{}`}), "last-operation-state"},
		{"operation forgotten, 404", answers(x{"PUT", 202, operation}, x{"POLL", 404, `{}`}), "last-operation-state"},
		{"another operation polled", answers(x{"PUT", 202, `{"operation": "2"}`}, x{"POLL", 400, `{}`}), ""},
		{"no such state", answers(x{"POLL", 200, `{"state": "done"}`}), "last-operation-state"},
		{"no object", answers(x{"PUT", 201, `[]`}), "answers-are-objects"},
		{"no string", answers(x{"PUT", 202, `{"operation": 1}`}), "provision-fields"},
		{"an error that is no string", answers(x{"PUT", 400, `{"error": 1}`}), "errors-have-strings"},
		{"a gateway", answers(x{"PUT", 502, `<html>`}), ""},
		{"no answer", answers(x{"PUT", 201, `{}`}, x{"DELETE", 0, ``}, x{"DELETE", 410, `{}`}), ""},
		{"no answer to a creation", answers(x{"PUT", 0, ``}, x{"PUT", 201, `{}`}, x{"PUT", 201, `{}`}), ""},
		{"an error of the broker", answers(x{"PUT", 201, `{}`}, x{"DELETE", 500, `{}`}, x{"DELETE", 410, `{}`}), ""},
	} {
		t.Run(test.name, func(t *testing.T) {
			differences := []Difference{{Key: Key{Instance: "one"}, Kind: Lost}}
			diff.Equal(t, namesOf(judge(test.all, differences, report.Hider{})), test.wanted, "%s", test.name)
		})
	}
}

// A 410 to a deletion breaks no rule if the instance doesn't exist in the end: perhaps this very deletion was carried
// out.
func TestJudgeDeletionThatFindsNothing(t *testing.T) {
	type x = [3]any
	for name, all := range map[string][]fault.Exchange{
		"created": answers(x{"PUT", 202, operation}, x{"DELETE", 410, `{}`}),
		"exists":  answers(x{"PUT", 201, `{}`}, x{"DELETE", 410, `{}`}),
	} {
		t.Run(name, func(t *testing.T) {
			for _, differences := range [][]Difference{
				nil, {{Key: Key{Instance: "one"}, Kind: Stuck}}, {{Key: Key{Instance: "another"}, Kind: Lost}},
			} {
				diff.Equal(t, namesOf(judge(all, differences, report.Hider{})), "", "%s, %v", name, differences)
			}
		})
	}
}

// If two requests are with the broker at once, nobody knows which arrived first.
func TestJudgeAtOnce(t *testing.T) {
	const ms = time.Millisecond
	atOnce := []fault.Exchange{
		exchange("PUT", 201, `{}`, 0, ms), exchange("DELETE", 200, `{}`, 10*ms, 30*ms),
		exchange("DELETE", 410, `{}`, 20*ms, 25*ms), exchange("PUT", 201, `{}`, 40*ms, 50*ms),
		exchange("PUT", 201, `{}`, 45*ms, 55*ms),
	}
	diff.Equal(t, namesOf(judge(atOnce, nil, report.Hider{})), "", "")
	after := append(atOnce, exchange("PUT", 201, `{}`, 60*ms, 65*ms), exchange("PUT", 201, `{}`, 70*ms, 75*ms))
	if found := judge(after, nil, report.Hider{}); namesOf(found) != "provision-repeated" || found[0].Count != 1 {
		t.Errorf("got %+v, want provision-repeated once", found)
	}
}

// A binding may be ended by the broker once its instance is to be deleted.
func TestJudgeBindingOfADeletedInstance(t *testing.T) {
	type x = [3]any
	for _, test := range []struct {
		name   string
		all    []fault.Exchange
		wanted string
	}{
		{"while it is created", ofBinding(answers(x{"PUT", 202, operation}, x{"POLL", 410, `{}`}), 0, 1),
			"binding-last-operation-state"},
		{"after a deletion of the instance",
			ofBinding(answers(x{"PUT", 202, operation}, x{"DELETE", 422, `{}`}, x{"POLL", 410, `{}`}), 0, 2), ""},
		{"before a deletion of the instance",
			ofBinding(answers(x{"PUT", 202, operation}, x{"POLL", 410, `{}`}, x{"DELETE", 422, `{}`}), 0, 1),
			"binding-last-operation-state"},
	} {
		t.Run(test.name, func(t *testing.T) {
			diff.Equal(t, namesOf(judge(test.all, nil, report.Hider{})), test.wanted, "%s", test.name)
		})
	}
}

// ofBinding has some exchanges be about a binding of the instance.
func ofBinding(all []fault.Exchange, these ...int) []fault.Exchange {
	for _, at := range these {
		it := &all[at]
		it.Binding, it.Number.Binding = "two", 1
		it.Target = strings.Replace(it.Target, "/one", "/one/service_bindings/two", 1)
	}
	return all
}

// All requests whose answers break a rule are in the JSON, each with its answer, and only the first one is in the text.
func TestNumbers(t *testing.T) {
	type x = [3]any
	all := answers(x{"PUT", 201, `{}`}, x{"PUT", 201, `{}`}, x{"PUT", 200, `{}`}, x{"PUT", 201, `{}`}, x{"PUT", 201, `[]`})
	whole := emptyReport()
	whole.take(&Result{Keys: newKeys(nil), Exchanges: all, Broken: judge(all, nil, report.Hider{})})
	written := stormtest.Forms(t, whole)
	var read struct {
		Broken []struct {
			Name    string
			Count   int
			Numbers []string
			Section string
			Each    []report.Breach
		}
	}
	check(t, json.Unmarshal([]byte(written["JSON"]), &read))
	got := ""
	for _, violation := range read.Broken {
		got += fmt.Sprintf("%s, section %s: %d %v\n", violation.Name, violation.Section, violation.Count, violation.Numbers)
		for _, one := range violation.Each {
			got += fmt.Sprintf("  %s %.3s, %s\n", one.Number, one.Sent, one.Came)
		}
	}
	wanted := `provision-repeated, section Provisioning: 3 [1.2 1.4 1.5]
  1.2 PUT, 201 {}
  1.4 PUT, 201 {}
  1.5 PUT, 201 []
answers-are-objects, section Body: 1 [1.5]
  1.5 PUT, 201 []
`
	diff.Equal(t, got, wanted, "")
	text := written["text"]
	diff.Contains(t, text, "3 answers, the first one 1.2: ", "text")
	diff.Lacks(t, text, "1.4", "text")
}

var (
	one     = Key{Instance: "one"}
	binding = Key{Instance: "one", Binding: "b"}
	since   = time.Unix(1000, 0)
)

func recordIn(state platform.State) Record {
	return Record{State: state, Since: since, Rests: true, Known: true}
}

func textsOf(all []Difference) string {
	var texts []string
	for _, difference := range all {
		texts = append(texts, fmt.Sprintf("%d %s/%s: %s", difference.Kind, difference.Key.Instance, difference.Key.Binding, difference.What))
	}
	return strings.Join(texts, "\n")
}

// Each kind of difference is found at the end, and nothing else.
func TestCompare(t *testing.T) {
	working := Record{State: "cleaning", Since: since, Known: true}
	lastOfGone := Record{State: "gone", Since: since, Known: true}
	lastOfWithdrawn := Record{State: "withdrawn", Since: since, Known: true}
	for _, test := range []struct {
		name   string
		record *Record
		of     Existence
		wanted string
	}{
		{"ready and exists", point(recordIn("ready")), Exists, ""},
		{"ready and missing", point(recordIn("ready")), Missing, "1 one/: its record says ready, and it doesn't exist"},
		{"ready and unknown", point(recordIn("ready")), Unknown, ""},
		{"gone and missing", point(recordIn("gone")), Missing, ""},
		{"gone and exists", point(recordIn("gone")), Exists, "0 one/: it exists, and its record says gone"},
		{"gone and unknown", point(recordIn("gone")), Unknown, ""},
		{"withdrawn and exists", point(recordIn("withdrawn")), Exists, "0 one/: it exists, and its record says withdrawn"},
		{"no record and exists", nil, Exists, "0 one/: it exists, and the platform has no record"},
		{"no record and missing", nil, Missing, ""},
		{"unsettled and exists", point(recordIn("unsettled")), Exists, ""},
		{"working and exists", &working, Exists, "2 one/: its record is still cleaning"},
		{"working and missing", &working, Missing, "2 one/: its record is still cleaning"},
		{"last deletion of gone", &lastOfGone, Missing, "2 one/: its last deletion isn't answered yet"},
		{"last deletion of withdrawn", &lastOfWithdrawn, Unknown, "2 one/: its last deletion isn't answered yet"},
	} {
		t.Run(test.name, func(t *testing.T) {
			records := map[Key]Record{}
			if test.record != nil {
				records[one] = *test.record
			}
			diff.Equal(t, textsOf(compare(records, Sight{Of: map[Key]Existence{one: test.of}})), test.wanted,
				"%s", test.name)
		})
	}
	twice := Sight{Of: map[Key]Existence{one: Exists}, Twice: []Key{one}}
	found := textsOf(compare(map[Key]Record{one: recordIn("ready")}, twice))
	diff.Equal(t, found, "0 one/: it exists twice, and the platform knows one of them", "twice")
	bound := Sight{Of: map[Key]Existence{one: Exists, binding: Exists}}
	found = textsOf(compare(map[Key]Record{one: recordIn("ready"), binding: recordIn("gone")}, bound))
	diff.Equal(t, found, "0 one/b: it exists, and its record says gone", "a binding")
}

func point(r Record) *Record { return &r }

type stub struct {
	Orders
	records []map[Key]Record // of one call after another
	sight   Sight
	err     error
	asked   [][]Key
}

func (f *stub) Records(context.Context) (map[Key]Record, error) {
	next := f.records[0]
	if len(f.records) > 1 {
		f.records = f.records[1:]
	}
	return next, nil
}

func (f *stub) Look(_ context.Context, keys []Key) (Sight, error) {
	f.asked = append(f.asked, keys)
	return f.sight, f.err
}

func watchOf(f *stub, isCheap bool) *watch {
	return &watch{orders: f, inventory: f, isCheap: isCheap, seen: map[Key]Record{}, finds: &finds{events: silentEvents()}}
}

// Only a record that is the same before and after the look is compared, and each is found once.
func TestWatch(t *testing.T) {
	ready, gone := map[Key]Record{one: recordIn("ready")}, map[Key]Record{one: recordIn("gone")}
	again := map[Key]Record{one: {State: "ready", Since: since.Add(1), Rests: true, Known: true}}
	for _, test := range []struct {
		name          string
		before, after map[Key]Record
		of            Existence
		wanted        string
	}{
		{"ready and missing", ready, ready, Missing, "1 one/: during the storm, its record said ready, and it didn't exist"},
		{"gone and exists", gone, gone, Exists, "0 one/: during the storm, it exists, and its record says gone"},
		{"ready and exists", ready, ready, Exists, ""},
		{"changes meanwhile", ready, gone, Missing, ""},
		{"changes twice meanwhile", ready, again, Missing, ""},
		{"comes meanwhile", map[Key]Record{binding: recordIn("ready")}, gone, Exists, ""},
	} {
		t.Run(test.name, func(t *testing.T) {
			f := &stub{records: []map[Key]Record{test.before, test.after}, sight: Sight{Of: map[Key]Existence{one: test.of}}}
			w := watchOf(f, true)
			w.look(context.Background())
			if test.wanted != "" {
				w.look(context.Background())
			}
			diff.Equal(t, textsOf(w.list()), test.wanted, "%s", test.name)
		})
	}
	failing := &stub{records: []map[Key]Record{ready}, sight: Sight{Of: map[Key]Existence{one: Missing}}}
	failing.err = errors.New("away")
	w := watchOf(failing, true)
	w.look(context.Background())
	diff.Equal(t, textsOf(w.list()), "", "a look that failed")
}

// If each key costs a request, it is asked for once for each state of its record.
func TestWatchAsksOnce(t *testing.T) {
	ready, gone := map[Key]Record{one: recordIn("ready")}, map[Key]Record{one: recordIn("gone")}
	f := &stub{
		records: []map[Key]Record{ready, ready, ready, gone, gone, gone},
		sight:   Sight{Of: map[Key]Existence{one: Exists}},
	}
	w := watchOf(f, false)
	for count := 0; count < 5; count++ {
		w.look(context.Background())
	}
	diff.Equal(t, len(f.asked), 2, "looks: %v", f.asked)
}
