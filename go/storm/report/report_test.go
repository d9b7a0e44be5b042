package report

import (
	"bytes"
	"encoding/json"
	"fmt"
	"strings"
	"testing"
	"time"

	"pippinterm/internal/diff"
	"pippinterm/storm/conform"
	"pippinterm/storm/fault"
)

// Each instance and each binding is one finding, with all that was found of it, in its order.
func TestFindings(t *testing.T) {
	one, two := Key{Instance: "one"}, Key{Instance: "one", Binding: "two"}
	run := Run{Subject: func(instance, binding string) (fault.Subject, bool) {
		return fault.Subject{Instance: 7}, binding == ""
	}}
	all := run.Findings([]Difference{{one, Lost, "a"}, {two, Lost, "b"}, {one, Lost, "c"}, {one, Lost, "a"}, {one, Stuck, "d"}}, Lost)
	var got []string
	for _, finding := range all {
		got = append(got, finding.Number+" "+finding.Name()+" "+finding.What)
	}
	diff.Check(t, got, []string{"7 instance 7 (one) a; c", "? binding ? (two of instance one) b"}, "the findings")
}

// A life has what is about the instance, its binding, or all. It doesn't begin with what was before.
func TestLifeOf(t *testing.T) {
	key := Key{Instance: "one", Binding: "two"}
	events := []Event{
		{At: time.Second, Who: WhoBroker, What: "is killed"},
		{At: 2 * time.Second, Key: key.InstanceKey(), Who: "record", What: "ready"},
		{At: 4 * time.Second, Who: WhoPlatform, What: "is paused"},
		{At: 5 * time.Second, Key: Key{Instance: "other"}, Who: "record", What: "gone"},
		{At: 6 * time.Second, Key: Key{Instance: "one", Binding: "other"}, Who: "record", What: "gone"},
	}
	x := fault.Exchange{Instance: "one", Binding: "two", Method: "PUT", Target: "/x", Begun: 3 * time.Second}
	var got []string
	for _, item := range LifeOf(key, []fault.Exchange{x}, events, Hider{}) {
		got = append(got, item.What)
	}
	diff.Equal(t, strings.Join(got, "|"), "ready|PUT /x|doesn't get the request|is paused", "the life")
	x.Ended, x.Receipt.Words = 7*time.Second, "no answer"
	life := LifeOf(key, []fault.Exchange{x}, events, Hider{})
	if last := life[len(life)-1]; len(life) != len(got)+1 || last.What != "gives the platform no answer" {
		t.Errorf("got %+v, want one more line, that the platform gets no answer", life)
	}
}

// A life says what the broker has got of a request.
func TestDeliveriesOfALife(t *testing.T) {
	for kind, wanted := range map[fault.Kind][]string{
		fault.None:           {"gets the request", "gets the request once more"},
		fault.RequestCut:     {"gets half of the request", "gets the request once more"},
		fault.RequestGarbled: {"gets the request with a body that isn't JSON", "gets the request once more"},
	} {
		t.Run(string(kind), func(t *testing.T) {
			x := fault.Exchange{Instance: "one", Method: "PUT", Target: "/x", Fault: kind, Deliveries: make([]fault.Delivery, 2)}
			var got []string
			for _, item := range LifeOf(Key{Instance: "one"}, []fault.Exchange{x}, nil, Hider{}) {
				if strings.HasPrefix(item.What, "gets ") {
					got = append(got, item.What)
				}
			}
			diff.Check(t, got, wanted, "%s", kind)
		})
	}
}

// Only a MUST that is broken counts.
func TestBreaksMust(t *testing.T) {
	of := func(level conform.Level) Violation {
		return Violation{CaseResult: conform.CaseResult{Case: conform.Case{Level: level}}}
	}
	if BreaksMust(nil) || BreaksMust([]Violation{of(conform.Should), of(conform.May)}) {
		t.Error("got a MUST that is broken, want none")
	}
	diff.Equal(t, BreaksMust([]Violation{of(conform.Should), of(conform.Must)}), true, "a MUST is broken")
}

// Each rule stands once, with the first request, how often it was broken, and the number of each request that has one.
func TestBreaches(t *testing.T) {
	var b Breaches
	for _, pair := range [][2]string{
		{"a", "1.1"}, {"b", ""}, {"a", "1.2"}, {"a", "1.1"}, {"b", ""}, {"c", ""}, {"c", "2/1.1"}, {"a", "10.3"},
	} {
		b.Add(conform.CaseResult{Case: conform.Case{Name: pair[0]}}, pair[1], "none")
	}
	var got []string
	for _, violation := range b.All() {
		text := diff.Value(json.Marshal(violation.Numbers))(t)
		got = append(got, fmt.Sprint(violation.Name, " ", violation.Number, " ", violation.Count, " ", string(text)))
	}
	wanted := []string{`a 1.1 4 ["1.1","1.2","10.3"]`, `b none 2 []`, `c none 2 ["2/1.1"]`}
	diff.Check(t, got, wanted, "the rules")
}

// All marks of a picture are within it.
func TestPicture(t *testing.T) {
	life := []Item{
		{Seconds: 1, Number: "1.1", Who: "request", What: "PUT", Fault: "hang-up", Until: 2},
		{Seconds: 1.5, Number: "1.1", Who: "broker", What: "answers"}, {Seconds: 2, Who: "record", What: "ready"},
		{Seconds: 1.3, Who: "platform", What: "takes no answer"},
	}
	kills := []Item{
		{Seconds: 0.9, Who: "broker"}, {Seconds: 1.2, Who: "broker", What: "is killed"}, {Seconds: 3, Who: "broker"},
	}
	p := draw([]Finding{{Number: "1", Life: life}}, kills)
	if len(p.Lanes) != 1 || len(p.Lanes[0].Spans) != 1 || len(p.Lanes[0].Points) != 2 || len(p.Restarts) != 1 {
		t.Fatalf("got %+v, want one lane with one span and two points, and one restart", p)
	}
	if it := p.Restarts[0]; it.Label != "the broker is killed" || it.X <= p.Left || it.X >= p.Right {
		t.Errorf("got %+v, want the kill of the broker within the picture", it)
	}
	for _, point := range p.Lanes[0].Points {
		if point.X < p.Left || point.X > p.Right || point.Y > p.Height {
			t.Errorf("got %+v, want it within the picture", point)
		}
	}
	if it := p.Lanes[0].Spans[0]; it.X != p.Left || it.X+it.Width > p.Right+0.1 || len(p.Ticks) < 5 {
		t.Errorf("got %+v and %d ticks, want it within the picture, and at least 5", it, len(p.Ticks))
	}
}

// runOf returns a run with a request about each of some instances, a second after the other. Some have a fault.
func runOf(instances int, hasFault map[int]bool) Run {
	run := Run{
		Subject: func(instance, _ string) (fault.Subject, bool) {
			subject := fault.Subject{}
			_, err := fmt.Sscanf(instance, "id-%d", &subject.Instance)
			return subject, err == nil
		},
		Events: []Event{
			{At: 1500 * time.Millisecond, Who: WhoBroker, What: "is killed"},
			{At: 2500 * time.Millisecond, Who: WhoPlatform, What: "is paused"},
			{At: 2600 * time.Millisecond, Who: "osb-storm", What: "ends the faults"},
			{At: 2700 * time.Millisecond, Who: WhoBroker, Key: Key{Instance: "id-1"}, What: "is asked"},
		},
	}
	for number := instances; number > 0; number-- {
		x := fault.Exchange{
			Instance: fmt.Sprint("id-", number), Method: "PUT", Begun: time.Duration(number) * time.Second, Fault: fault.None,
		}
		if x.Ended = x.Begun + time.Second/2; hasFault[number] {
			x.Fault = fault.HangUp
		}
		run.Exchanges = append(run.Exchanges, x, fault.Exchange{Instance: "another's", Fault: fault.HangUp})
	}
	return run
}

// Kills before the creation of the first finding are drawn if they are within the picture.
func TestPictureOfAllKills(t *testing.T) {
	run := runOf(3, nil)
	found := run.Findings([]Difference{{Key: Key{Instance: "id-3"}}, {Key: Key{Instance: "id-1"}}}, Lost)
	var page bytes.Buffer
	written := &Page{Sections: []Section{{"Lost", found, run.Kills()}}, Course: run.Course(), Kills: run.Kills()}
	check(t, written.Write(&page))
	text := page.String()
	for _, title := range []string{"<title>the broker is killed</title>", "<title>the platform is paused</title>"} {
		diff.Equal(t, strings.Count(text, title), 1, "how often the page has %q", title)
	}
	if strings.Count(text, "<svg") != 1 || strings.Count(text, `class="restart"`) != 2 ||
		strings.Contains(text, "<h2>The storm") {
		t.Errorf("got %s, want two restarts in one picture without a title", text)
	}
}

// If nothing was found, the lives with the most faults are drawn, in their order, and at most a few.
func TestCourse(t *testing.T) {
	run := runOf(30, map[int]bool{29: true, 7: true, 30: true, 2: true})
	var numbers []string
	for _, finding := range run.Course() {
		numbers = append(numbers, finding.Number)
	}
	diff.Equal(t, strings.Join(numbers, " "), "2 7 21 22 23 24 25 26 27 28 29 30", "")
	var page bytes.Buffer
	check(t, (&Page{Course: run.Course(), Kills: run.Kills()}).Write(&page))
	text := page.String()
	if strings.Count(text, `<rect class="request fault"`) != 4 || strings.Count(text, `<rect class="request"`) != 8 ||
		strings.Count(text, `class="restart"`) != 1 || !strings.Contains(text, "each of the 12 with") {
		t.Errorf("got %s, want 4 of 12 requests with a fault, and one restart", text)
	}
	page.Reset()
	if err := (&Page{}).Write(&page); err != nil || strings.Contains(page.String(), "<svg") {
		t.Errorf("got %v, or a picture of nothing, want neither", err)
	}
}

var check = diff.Must
