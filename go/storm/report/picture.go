package report

import (
	_ "embed"
	"fmt"
	"html/template"
	"io"
	"math"
	"sort"

	"pippinterm/storm/conform"
	"pippinterm/storm/fault"
)

// The sizes of a picture, in the units of its SVG.
const (
	pictureWidth = 1100.0
	leftMargin   = 90.0
	rightMargin  = 20.0
	laneHeight   = 64.0
	topMargin    = 28.0
)

// A picture is the storm over some lives: a lane for each, and time from left to right.
type picture struct {
	Width, Height, Left, Right float64
	Lanes                      []lane
	Ticks                      []tick
	Restarts                   []tick
}

type lane struct {
	Label  string
	Y      float64
	Spans  []span // requests, each until the platform got its answer
	Points []mark // answers of the broker, and changes of the record
}

type span struct {
	X, Y, Width  float64
	Class, Title string
}

type mark struct {
	X, Y         float64
	Class, Title string
}

type tick struct {
	X     float64
	Label string
}

// draw draws a picture of findings, with the kills between their first and their last request.
func draw(findings []Finding, kills []Item) *picture {
	first, last := bounds(findings)
	x := func(at float64) float64 {
		return leftMargin + (at-first)/(last-first)*(pictureWidth-leftMargin-rightMargin)
	}
	p := &picture{
		Width: pictureWidth, Height: topMargin + laneHeight*float64(len(findings)) + 10,
		Left: leftMargin, Right: pictureWidth - rightMargin,
	}
	step := stepOf(last - first)
	for at := math.Ceil(first/step) * step; at <= last; at += step {
		p.Ticks = append(p.Ticks, tick{x(at), fmt.Sprintf("%g s", math.Round(at*1000)/1000)})
	}
	for at, finding := range findings {
		p.Lanes = append(p.Lanes, laneOf(finding, topMargin+laneHeight*float64(at), x))
	}
	for _, item := range kills {
		if item.Seconds >= first && item.Seconds <= last {
			p.Restarts = append(p.Restarts, tick{x(item.Seconds), "the " + item.Who + " " + item.What})
		}
	}
	return p
}

// bounds returns when the first and the last thing of some findings happened.
func bounds(findings []Finding) (first, last float64) {
	first = math.Inf(1)
	for _, finding := range findings {
		for _, item := range finding.Life {
			if item.Number != "" || item.Who == "record" || item.Who == "operator" {
				first = math.Min(first, item.Seconds)
				last = math.Max(last, math.Max(item.Seconds, item.Until))
			}
		}
	}
	if math.IsInf(first, 1) {
		first = 0
	}
	return first, math.Max(last, first+0.1)
}

// stepOf returns the time between two ticks: 1, 2 or 5 times a power of ten, so that there are about ten.
func stepOf(length float64) float64 {
	power := math.Pow(10, math.Floor(math.Log10(length/10)))
	for _, factor := range []float64{1, 2, 5} {
		if length/(factor*power) <= 12 {
			return factor * power
		}
	}
	return 10 * power
}

// laneOf draws a lane: the requests above, the broker's answers in the middle, and the record below.
func laneOf(it Finding, y float64, x func(float64) float64) lane {
	drawn := lane{Label: it.Number, Y: y}
	for _, item := range it.Life {
		title := item.String()
		switch {
		case item.Who == "request":
			class := "request"
			if item.Fault != "" {
				class = "request fault"
			}
			width := math.Max(3, x(math.Max(item.Until, item.Seconds))-x(item.Seconds))
			drawn.Spans = append(drawn.Spans, span{x(item.Seconds), y + 8, width, class, title})
		case item.Who == WhoBroker && item.Number != "":
			drawn.Points = append(drawn.Points, mark{x(item.Seconds), y + 30, "answer", title})
		case item.Who == "record", item.Who == "operator", item.Who == "osb-storm":
			drawn.Points = append(drawn.Points, mark{x(item.Seconds), y + 46, item.Who, title})
		}
	}
	return drawn
}

//go:embed report.html
var pageText string

// A Page is a report as a page of HTML.
type Page struct {
	Title        string // for example Storm against a URL
	Summary      string
	Facts        []Fact
	Minimal      []string // the list of faults to which those of the run were shrunk, or nil
	MinimalTitle string
	Sections     []Section
	// Course is what is drawn if there are no findings, and Kills what happened to the programs meanwhile.
	Course []Finding
	Kills  []Item
	Noun   string // what breaks the standard: answer or request
	Broken []Violation
	Given  []string // all faults
}

// A Fact is a line of the table of facts.
type Fact struct{ Name, Value string }

// A Section is findings of one kind.
type Section struct {
	Title    string
	Findings []Finding
	Kills    []Item // what happened to the programs in the same run
}

// Add adds a fact for each value.
func (p *Page) Add(name string, values ...string) {
	for _, value := range values {
		p.Facts = append(p.Facts, Fact{name, value})
	}
}

// Write writes the page. It needs nothing else: no script, no font, and nothing from a network.
func (p *Page) Write(w io.Writer) error {
	page, err := template.New("report").Parse(pageText)
	if err != nil {
		return err
	}
	type drawnSection struct {
		Section
		Picture *picture
	}
	var sections []drawnSection
	for _, section := range p.Sections {
		if len(section.Findings) > 0 {
			sections = append(sections, drawnSection{section, draw(section.Findings, section.Kills)})
		}
	}
	var course *picture
	if len(sections) == 0 && len(p.Course) > 0 {
		course = draw(p.Course, p.Kills)
	}
	return page.Execute(w, map[string]any{"Page": p, "Sections": sections, "Course": course})
}

// mostLanes is how many lives are drawn of a run in which nothing was found.
const mostLanes = 12

// Course returns the lives of the instances and bindings whose requests the most faults befell, in the order of their
// numbers. They are drawn if nothing was found.
func (r Run) Course() []Finding {
	all := r.countFaults()
	sort.SliceStable(all, func(one, other int) bool { return all[one].faults > all[other].faults })
	if len(all) > mostLanes {
		all = all[:mostLanes]
	}
	sort.SliceStable(all, func(one, other int) bool { return all[one].subject.Less(all[other].subject) })
	course := make([]Finding, 0, len(all))
	for _, faultCount := range all {
		life := LifeOf(faultCount.key, r.Exchanges, r.Events, r.Hide)
		course = append(course, Finding{
			Number: faultCount.subject.String(), Instance: faultCount.key.Instance, Binding: faultCount.key.Binding, Life: life,
		})
	}
	return course
}

// A faultCount is how many faults befell the requests of an instance or a binding.
type faultCount struct {
	key     Key
	subject fault.Subject
	faults  int
}

// countFaults counts the faults of each instance and binding of the run, in the order of their first requests.
func (r Run) countFaults() (all []*faultCount) {
	of := map[Key]*faultCount{}
	for _, x := range r.Exchanges {
		key := Key{x.Instance, x.Binding}
		if of[key] == nil {
			subject, is := r.Subject(x.Instance, x.Binding)
			if !is {
				continue
			}
			of[key] = &faultCount{key: key, subject: subject}
			all = append(all, of[key])
		}
		if x.Fault != fault.None {
			of[key].faults++
		}
	}
	return all
}

// Kills returns what happened to the programs: how they were killed, paused and started again.
func (r Run) Kills() (items []Item) {
	for _, event := range r.Events {
		if event.Key == (Key{}) && (event.Who == WhoBroker || event.Who == WhoPlatform) {
			what := conform.Printable(r.Hide.In(event.What))
			items = append(items, Item{Seconds: seconds(event.At), Who: event.Who, What: what, isOfAll: true})
		}
	}
	return items
}
