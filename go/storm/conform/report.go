package conform

import (
	"encoding/base64"
	"encoding/json"
	"fmt"
	"io"
	"net/url"
	"sort"
	"strings"
	"text/tabwriter"
)

// A Report is the results of all cases, and what couldn't be deleted.
type Report struct {
	URL       string       `json:"url"`
	Prefix    string       `json:"prefix"`
	Service   string       `json:"service,omitempty"` // the names of what was ordered
	Plan      string       `json:"plan,omitempty"`
	Instances int          `json:"instances"`       // how many were asked for
	Ended     string       `json:"ended,omitempty"` // why the run was ended before every case was tried, or empty
	Results   []CaseResult `json:"results"`
	Leftovers []Leftover   `json:"leftovers"` // of CleanUp; the caller of Run sets them
}

func (r *Runner) report() *Report {
	hide := r.client.hider()
	report := &Report{
		URL: r.client.base, Prefix: r.prefix, Service: hide.In(r.target.ServiceName), Plan: hide.In(r.target.PlanName),
		Instances: len(r.candidates.all), Ended: r.ended, Leftovers: []Leftover{},
	}
	for _, test := range Cases() {
		report.Results = append(report.Results, *r.results[test.Name])
	}
	return report
}

// Count returns how many cases of a level have a grade.
func (r *Report) Count(level Level, grade Grade) (count int) {
	for _, result := range r.Results {
		if result.Level == level && result.Grade == grade {
			count++
		}
	}
	return count
}

// WriteJSON writes the report as a JSON object.
func (r *Report) WriteJSON(w io.Writer) error { return WriteJSON(w, r) }

// WriteJSON writes a report of any kind as a JSON object.
func WriteJSON(w io.Writer, report any) error {
	encoder := json.NewEncoder(w)
	encoder.SetEscapeHTML(false)
	encoder.SetIndent("", "  ")
	return encoder.Encode(report)
}

// WriteText writes the report for people: a table of all cases, what was sent and received for each case that failed,
// why cases weren't run, the counts, and what couldn't be deleted.
func (r *Report) WriteText(w io.Writer) error {
	table := tabwriter.NewWriter(w, 0, 0, 2, ' ', 0)
	fmt.Fprintln(table, "VERDICT\tLEVEL\tCASE\tSECTION")
	for _, result := range r.Results {
		fmt.Fprintf(table, "%s\t%s\t%s\t%s\n", result.Grade, result.Level, result.Name, result.Section)
	}
	if err := table.Flush(); err != nil {
		return err
	}
	r.writeFailures(w)
	r.writeNotRun(w)
	fmt.Fprintln(w)
	for _, level := range []Level{Must, Should, May} {
		fmt.Fprintf(w, "%s: %d passed, %d failed, %d not run\n",
			level, r.Count(level, Pass), r.Count(level, Fail), r.Count(level, NotRun))
	}
	if r.Ended != "" {
		fmt.Fprintf(w, "not every case was tried: %s\n", r.Ended)
	}
	for _, leftover := range r.Leftovers {
		if _, err := fmt.Fprintf(w, "not deleted: %s\n", leftover); err != nil {
			return err
		}
	}
	_, err := fmt.Fprintf(w, "%d instances were ordered, %d instances and bindings could not be deleted\n",
		r.Instances, len(r.Leftovers))
	return err
}

func (r *Report) writeFailures(w io.Writer) {
	for _, result := range r.Results {
		if result.Grade == Fail {
			fmt.Fprintf(w, "\n%s (%s, section %s): %s\n  expected: %s\n  sent:     %s\n  came:     %s\n",
				result.Name, result.Level, result.Section, result.Reason, result.Expected, result.Sent, result.Came)
		}
	}
}

// writeNotRun writes each reason why cases weren't run, with their names.
func (r *Report) writeNotRun(w io.Writer) {
	names := map[string][]string{}
	var reasons []string
	for _, result := range r.Results {
		if result.Grade != NotRun {
			continue
		}
		if len(names[result.Reason]) == 0 {
			reasons = append(reasons, result.Reason)
		}
		names[result.Reason] = append(names[result.Reason], result.Name)
	}
	for _, reason := range reasons {
		fmt.Fprintf(w, "\nnot run, because %s:\n  %s\n", reason, strings.Join(names[reason], "\n  "))
	}
}

// Hidden is written in place of a secret.
const Hidden = "(left out)"

// A Hider leaves out secrets: a broker may repeat the password or credentials in a description. The zero value leaves
// nothing out.
type Hider struct {
	secrets  []string // the longest first
	replacer *strings.Replacer
}

// NewHider returns a Hider of a login: of the password, and of the user with the password as HTTP's Basic scheme sends
// them.
func NewHider(user, password string) Hider {
	if password == "" {
		return Hider{}
	}
	return Hider{}.And(strings.TrimRight(basic(user, password), "="), password)
}

// basic returns a user and a password as HTTP's Basic scheme sends them.
func basic(user, password string) string {
	return base64.StdEncoding.EncodeToString([]byte(user + ":" + password))
}

// And returns a Hider that also leaves out these texts, also as they stand in JSON or in a URL.
func (h Hider) And(secrets ...string) Hider {
	known := map[string]bool{"": true}
	var all []string
	add := func(secret string) {
		if !known[secret] {
			known[secret] = true
			all = append(all, secret)
		}
	}
	for _, secret := range h.secrets {
		add(secret)
	}
	for _, secret := range secrets {
		for _, form := range []string{secret, inJSON(secret, true), inJSON(secret, false), url.QueryEscape(secret), url.PathEscape(secret)} {
			add(form)
		}
	}
	sort.SliceStable(all, func(one, other int) bool { return len(all[one]) > len(all[other]) })
	var pairs []string
	for _, secret := range all {
		pairs = append(pairs, secret, Hidden)
	}
	return Hider{all, strings.NewReplacer(pairs...)}
}

// inJSON returns a text as it stands in a string of JSON, with escapes for HTML or without.
func inJSON(text string, forHTML bool) string {
	var out strings.Builder
	encoder := json.NewEncoder(&out)
	encoder.SetEscapeHTML(forHTML)
	if encoder.Encode(text) != nil {
		return text
	}
	return strings.TrimSuffix(strings.TrimPrefix(strings.TrimSpace(out.String()), `"`), `"`)
}

// In returns a text without the secrets.
func (h Hider) In(text string) string {
	if h.replacer == nil {
		return text
	}
	return h.replacer.Replace(text)
}

// Error returns an error whose text has no secrets. It wraps err. It is nil if err is nil.
func (h Hider) Error(err error) error {
	if err == nil {
		return nil
	}
	return hiddenError{h.In(err.Error()), err}
}

type hiddenError struct {
	text string
	of   error
}

func (e hiddenError) Error() string { return e.text }
func (e hiddenError) Unwrap() error { return e.of }

// shortestSecret is how long a text of credentials is that is left out wherever it stands. The credentials themselves
// are left out however short they are.
const shortestSecret = 6

// SecretsIn returns the strings in credentials that are left out wherever they stand.
func SecretsIn(credentials any) (secrets []string) {
	switch it := credentials.(type) {
	case string:
		if len(it) >= shortestSecret {
			secrets = []string{it}
		}
	case []any:
		for _, one := range it {
			secrets = append(secrets, SecretsIn(one)...)
		}
	case map[string]any:
		for _, one := range it {
			secrets = append(secrets, SecretsIn(one)...)
		}
	}
	return secrets
}
