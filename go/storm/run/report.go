package run

import (
	"fmt"
	"io"
	"strings"

	"pippinterm/storm/conform"
	"pippinterm/storm/fault"
	"pippinterm/storm/report"
)

// A Report is what a storm has found. What has no name here for JSON has one in WriteJSON.
type Report struct {
	IsOfPlatform bool `json:"-"` // the storm was for a platform

	URL       string   `json:"url"`
	Prefix    string   `json:"-"`
	Service   string   `json:"-"`
	Plan      string   `json:"-"`
	FirstPoll bool     `json:"-"`
	Seed      int64    `json:"seed"`
	Ended     string   `json:"ended,omitempty"` // why the run was ended before, or empty
	Inventory string   `json:"-"`               // how osb-storm found out what exists, or what the platform has
	Instances int      `json:"instances"`
	Bindings  int      `json:"bindings"`
	Requests  int      `json:"requests"`
	Restarts  int      `json:"-"`
	Converged bool     `json:"-"`
	Took      float64  `json:"-"`            // after the faults ended
	Unknown   int      `json:"-"`            // how many instances and bindings nobody could ask for
	Updates   int      `json:"-"`            // that have succeeded
	Unmet     []string `json:"unmet_faults"` // those of the given list that no request has met

	Counts    []report.KindCount `json:"faults"`
	Lost      []Finding          `json:"-"`
	False     []Finding          `json:"false_records"`
	Stuck     []Finding          `json:"not_converged"`
	Disagree  []Finding          `json:"-"` // of the records, the broker's rows and what exists
	Exists    []Finding          `json:"-"` // by the platform's requests, the platform has it
	Settings  []Finding          `json:"-"` // the broker has reported others
	Half      []Finding          `json:"-"` // the resource has settings that nobody has asked for, and the broker reports others
	Broken    []Violation        `json:"broken"`
	Failed    []string           `json:"failed"` // what went wrong with the run itself
	Leftovers []conform.Leftover `json:"-"`
	Notes     []string           `json:"notes"`
	Untried   []string           `json:"untried"` // what every storm has to try, and this one hasn't

	Programs *Programs `json:"-"` // of a storm of both programs
	Given    []string  `json:"fault_list"`
	Minimum

	given          []fault.Injection
	user, password string
	course         []Finding // what is drawn if nothing was found
	kills          []report.Item
}

// A wording is what the reports of a storm call things.
type wording struct {
	lost, answer string // what is lost, and what breaks the standard
	runs         string // those of --minimize
	moreRequests string // how a run gets more requests

	inventory                      string // what Inventory is about
	converged, ended, notConverged string
}

var (
	ofBroker = wording{
		lost: "lost", answer: "answer", runs: "runs with the faults of the lost instances alone",
		moreRequests: "Pass a greater number to --instances, a longer time to --seconds",
		inventory:    "what exists", converged: "converged", ended: "not converged before the run was ended",
		notConverged: "not converged",
	}
	ofPlatform = wording{
		lost: "abandoned", answer: "request", runs: "further runs",
		moreRequests: "Let the platform send more requests, pass a longer time to --seconds",
		inventory:    "what the platform has", converged: "nothing open", ended: "ended before",
		notConverged: "not everything cleaned up",
	}
)

func (r *Report) words() wording {
	if r.IsOfPlatform {
		return ofPlatform
	}
	return ofBroker
}

// NewReport returns the report of a storm with a seed, at a URL. It leaves out the user and the password.
func NewReport(url string, seed int64, user, password string) *Report {
	report := emptyReport()
	report.URL, report.Seed, report.user, report.password = url, seed, user, password
	return report
}

// emptyReport returns a report without a member that is nil.
func emptyReport() *Report {
	return &Report{
		Counts: []report.KindCount{}, Lost: []Finding{}, False: []Finding{}, Stuck: []Finding{}, Disagree: []Finding{},
		Exists: []Finding{}, Settings: []Finding{}, Half: []Finding{}, Broken: []Violation{}, Failed: []string{}, Leftovers: []conform.Leftover{}, Notes: []string{},
		Given: []string{}, Unmet: []string{}, Untried: []string{},
	}
}

// takeUntried notes what the storm hasn't tried, unless it was ended before. What both programs haven't is known
// already.
func (r *Report) takeUntried(c Options) {
	if r.Ended == "" && r.Programs == nil {
		r.Untried = report.Omissions(r.given, c.Share, c.List, r.words().moreRequests)
	}
}

// omissions says for people what the storm hasn't tried, unless the lines of the programs say so.
func (r *Report) omissions() (lines []string) {
	if r.Programs != nil {
		return nil
	}
	for _, omission := range r.Untried {
		lines = append(lines, "NOT TRIED: "+omission)
	}
	return lines
}

func (r *Report) take(found *Result) {
	for _, key := range found.Keys.All() {
		if key.Binding == "" {
			r.Instances++
		} else {
			r.Bindings++
		}
	}
	r.Requests, r.Restarts, r.Ended = len(found.Exchanges), found.Restarts, found.Ended
	r.Converged, r.Took, r.Unknown = found.Converged, found.Took.Seconds(), found.Unknown
	r.Updates = found.Updates
	r.Counts = report.CountKinds(found.Exchanges)
	for kind, to := range map[report.DifferenceKind]*[]Finding{
		Lost: &r.Lost, False: &r.False, Stuck: &r.Stuck, Disagree: &r.Disagree, Present: &r.Exists,
		FalseSettings: &r.Settings, HalfUpdated: &r.Half,
	} {
		*to = r.findings(found, kind)
	}
	r.course, r.kills = r.runOf(found).Course(), r.runOf(found).Kills()
	hide := r.hider(found)
	for _, broken := range found.Broken {
		r.Broken = append(r.Broken, broken.WithoutSecrets(hide))
	}
	for _, failure := range found.Failed {
		r.Failed = append(r.Failed, conform.Printable(hide.In(failure)))
	}
	for _, leftover := range found.Leftovers {
		leftover.Reason = hide.In(leftover.Reason)
		r.Leftovers = append(r.Leftovers, leftover)
	}
	r.given, r.Given, r.Unmet = found.Given, report.ListLines(found.Given), report.ListLines(found.Unmet)
}

func (r *Report) hider(found *Result) report.Hider {
	return report.NewHider(r.user, r.password, found.Exchanges)
}

func (r *Report) findings(found *Result, kinds ...report.DifferenceKind) []Finding {
	return r.runOf(found).Findings(found.Differences, kinds...)
}

func (r *Report) runOf(found *Result) report.Run {
	return report.Run{
		Subject: found.Keys.Subject, Exchanges: found.Exchanges, Events: found.Events, Hide: r.hider(found),
	}
}

// BreaksMust reports whether an answer broke what the standard demands.
func (r *Report) BreaksMust() bool { return report.BreaksMust(r.Broken) }

// IsClean reports whether the storm has found nothing, and was run to its end. If a part of the design was taken out,
// it reports whether the storm has found what is left behind.
func (r *Report) IsClean() bool {
	switch {
	case r.Ended != "" || len(r.Untried) > 0 || r.Programs != nil && len(r.Programs.Odd) > 0:
		return false
	case r.Programs != nil && r.Programs.Without != "":
		return r.hasLoss()
	}
	return !r.hasLoss() && len(r.Stuck) == 0 && !r.BreaksMust() && (r.Converged || r.IsOfPlatform) && r.Unknown == 0 &&
		(r.Programs == nil || len(r.Programs.problems()) == 0)
}

// hasLoss reports whether something was lost, a record was false, something disagrees, or two have worked at once.
func (r *Report) hasLoss() bool {
	together := r.Programs != nil && len(r.Programs.Together) > 0
	return len(r.Lost)+len(r.False)+len(r.Disagree)+len(r.Settings)+len(r.Half) > 0 || together
}

// WriteJSON writes the report as a JSON object.
func (r *Report) WriteJSON(w io.Writer) error {
	if r.IsOfPlatform {
		return conform.WriteJSON(w, struct {
			*Report
			FirstPoll bool      `json:"first_poll"`
			Known     string    `json:"known"`
			Settled   bool      `json:"settled"`
			Took      float64   `json:"settled_after_seconds"`
			Abandoned []Finding `json:"abandoned"`
			Exists    []Finding `json:"exists"`
		}{r, r.FirstPoll, r.Inventory, r.Converged, r.Took, r.Lost, r.Exists})
	}
	return conform.WriteJSON(w, struct {
		*Report
		Prefix    string             `json:"prefix"`
		Service   string             `json:"service"`
		Plan      string             `json:"plan"`
		Inventory string             `json:"inventory"`
		Restarts  int                `json:"restarts"`
		Converged bool               `json:"converged"`
		Took      float64            `json:"converged_after_seconds"`
		Unknown   int                `json:"unknown"`
		Lost      []Finding          `json:"lost"`
		Updates   int                `json:"updates"`
		Settings  []Finding          `json:"false_settings"`
		Half      []Finding          `json:"half_updated"`
		Disagree  []Finding          `json:"disagreements"`
		Leftovers []conform.Leftover `json:"leftovers"`
		Programs  *Programs          `json:"programs,omitempty"`
	}{
		r, r.Prefix, r.Service, r.Plan, r.Inventory, r.Restarts, r.Converged, r.Took, r.Unknown, r.Lost, r.Updates,
		r.Settings, r.Half, r.Disagree, r.Leftovers, r.Programs,
	})
}

// unknownLines says for people how many instances and bindings nobody could ask for, and what to do. It is empty if
// there are none.
func (r *Report) unknownLines() []string {
	if r.Unknown == 0 {
		return nil
	}
	option := "--list-command"
	if r.Inventory == ByListCommand {
		option = "--list-bindings-command"
	}
	return []string{fmt.Sprintf("%s couldn't be asked for: give %s",
		report.Quantity(r.Unknown, "instance or binding", "instances and bindings"), option)}
}

// WriteFaults writes the faults of the run as a list that fault.ReadList reads, or the list to which it was shrunk.
func (r *Report) WriteFaults(w io.Writer) error { return fault.WriteList(w, r.replayList(r.given)) }

// WriteText writes the report for people.
func (r *Report) WriteText(w io.Writer) error {
	var text strings.Builder
	words := r.words()
	r.writeCounts(&text)
	report.WriteFindings(&text, strings.ToUpper(words.lost), r.Lost)
	report.WriteFindings(&text, "FALSE RECORD", r.False)
	report.WriteFindings(&text, "FALSE SETTINGS", r.Settings)
	report.WriteFindings(&text, "HALF UPDATED", r.Half)
	report.WriteFindings(&text, "NOT CONVERGED", r.Stuck)
	report.WriteFindings(&text, "DISAGREEMENT", r.Disagree)
	report.WriteBroken(&text, words.answer, r.Broken)
	r.writeExists(&text)
	r.writeMinimal(&text, words.lost)
	r.writeEnd(&text)
	_, err := io.WriteString(w, text.String())
	return err
}

func (r *Report) writeCounts(w io.Writer) {
	fmt.Fprintf(w, "%d instances, %d bindings, %d requests", r.Instances, r.Bindings, r.Requests)
	switch {
	case r.Programs != nil:
		fmt.Fprintf(w, "\n%s\n", strings.Join(r.Programs.lines(), "\n"))
	case r.IsOfPlatform:
		fmt.Fprintln(w)
	default:
		fmt.Fprintf(w, ", %d updates, %d restarts of the broker\n", r.Updates, r.Restarts)
	}
	report.WriteKinds(w, r.Counts)
	lines := append(r.unknownLines(), report.UnmetLines(r.Unmet)...)
	if r.Inventory != "" {
		inventory := r.words().inventory + ": " + r.Inventory
		if r.IsOfPlatform {
			lines = append(lines, inventory)
		} else {
			lines = append([]string{inventory}, lines...)
		}
	}
	for _, line := range lines {
		fmt.Fprintln(w, line)
	}
}

// writeExists writes what the operator of the platform has to compare.
func (r *Report) writeExists(w io.Writer) {
	if len(r.Exists) > 0 {
		fmt.Fprintln(w, "\nEXISTS. Compare this with what your platform has:")
	}
	for _, finding := range r.Exists {
		fmt.Fprintf(w, "  %s: %s\n", finding.Name(), finding.What)
	}
}

func (r *Report) writeEnd(w io.Writer) {
	lines := append([]string{""}, r.notes()...)
	if r.Programs != nil {
		lines = append(lines, r.Programs.problems()...)
	}
	lines = append(append(lines, r.omissions()...), r.Failed...)
	if r.Ended != "" {
		lines = append(lines, r.Ended)
	}
	for _, leftover := range r.Leftovers {
		lines = append(lines, "not deleted: "+leftover.String())
	}
	for _, line := range append(lines, r.summary()) {
		fmt.Fprintln(w, line)
	}
}

// notes are what the report says about the run, and about the list of faults that was to be shrunk.
func (r *Report) notes() []string {
	notes := append([]string{}, r.Notes...)
	if r.MinimizeEnded != "" {
		notes = append(notes, r.MinimizeEnded)
	}
	return notes
}

func (r *Report) summary() string {
	if r.IsOfPlatform {
		return fmt.Sprintf("%d abandoned, %d false records, %s of the standard broken, %s", len(r.Lost), len(r.False),
			report.Quantity(len(r.Broken), "rule"), r.convergence())
	}
	disagreements := ""
	if r.Programs != nil {
		disagreements = report.Quantity(len(r.Disagree), "disagreement") + ", "
	}
	if r.Programs != nil && r.Programs.Without != "" {
		found := "found what is left behind"
		if !r.hasLoss() {
			found = "FOUND NOTHING that is left behind"
		}
		disagreements += fmt.Sprintf("without %s the storm has %s, ", r.Programs.Without, found)
	}
	unasked := ""
	if r.Unknown > 0 {
		unasked = fmt.Sprintf(" of those that could be asked for, %d couldn't be asked for", r.Unknown)
	}
	settings := ""
	if r.Programs == nil {
		settings = fmt.Sprintf("%d false settings, %d half updated, ", len(r.Settings), len(r.Half))
	}
	return fmt.Sprintf("%d lost%s, %d false records, %s%s%d kinds of answers that break the standard, %s",
		len(r.Lost), unasked, len(r.False), settings, disagreements, len(r.Broken), r.convergence())
}

func (r *Report) convergence() string {
	words := r.words()
	switch {
	case r.Converged:
		return fmt.Sprintf("%s %.1f s after the faults ended", words.converged, r.Took)
	case r.Ended != "" && (r.MinimizeEnded == "" || !r.IsOfPlatform): // otherwise only the shrinking was ended
		return words.ended
	}
	return fmt.Sprintf("%s within %.1f s after the faults ended", words.notConverged, r.Took)
}

// WriteHTML writes the report as one page that needs nothing else: no script, no font, and nothing from a network.
func (r *Report) WriteHTML(w io.Writer) error {
	lost := capital(r.words().lost)
	page := &report.Page{
		Title:   "Storm against " + r.URL,
		Summary: r.summary(),
		Minimal: r.minimalLines(r.words().lost), MinimalTitle: r.minimalTitle(),
		Sections: []report.Section{
			{Title: lost, Findings: r.Lost, Kills: r.kills}, {Title: "False records", Findings: r.False, Kills: r.kills},
			{Title: "False settings", Findings: r.Settings, Kills: r.kills},
			{Title: "Half updated", Findings: r.Half, Kills: r.kills},
			{Title: "Not converged", Findings: r.Stuck, Kills: r.kills},
			{Title: "Disagreements", Findings: r.Disagree, Kills: r.kills},
			{Title: "What exists, to compare with what the platform has", Findings: r.Exists},
			{Title: lost + " with this list of faults", Findings: r.MinimalLost, Kills: r.minimalKills},
		},
		Course: r.course, Kills: r.kills, Noun: capital(r.words().answer), Broken: r.Broken, Given: r.Given,
	}
	switch {
	case r.Programs != nil:
		page.Title = "Storm of osb-broker and osb-platform"
	case r.IsOfPlatform:
		page.Title = "Storm against a platform"
	}
	r.addFacts(page)
	return page.Write(w)
}

func capital(word string) string { return strings.ToUpper(word[:1]) + word[1:] }

func (r *Report) addFacts(page *report.Page) {
	created := fmt.Sprintf("%d instances, %d bindings", r.Instances, r.Bindings)
	requests := strings.Join(append([]string{fmt.Sprint(r.Requests)}, report.KindLines(r.Counts)...), "; ")
	if r.IsOfPlatform {
		page.Add("Where it listened", r.URL)
		page.Add("Seed", fmt.Sprint(r.Seed))
		page.Add("Named by the platform", created)
		page.Add("Requests", requests)
		page.Add("Faults of the list", report.UnmetLines(r.Unmet)...)
		page.Add("What the platform has", r.Inventory)
		page.Add("Wrong", r.omissions()...)
	} else {
		page.Add("Service and plan", r.Service+", "+r.Plan)
		page.Add("Seed", fmt.Sprint(r.Seed))
		page.Add("Prefix of all ids", r.Prefix)
		page.Add("Created", created)
		page.Add("Requests", requests)
		if r.Programs != nil {
			page.Add("Kills and pauses", r.Programs.lines()...)
			page.Add("Wrong", r.Programs.problems()...)
		} else {
			page.Add("Restarts of the broker", fmt.Sprint(r.Restarts))
			page.Add("Wrong", r.omissions()...)
		}
		page.Add("What exists", r.Inventory)
		page.Add("Not asked for", r.unknownLines()...)
		page.Add("Faults of the list", report.UnmetLines(r.Unmet)...)
	}
	if r.Ended != "" {
		page.Add("Ended", r.Ended)
	}
	page.Add("Note", r.notes()...)
	page.Add("Failed", r.Failed...)
	for _, leftover := range r.Leftovers {
		page.Add("Not deleted", leftover.String())
	}
}
