// Package stormtest has what the tests of several packages of storms share.
package stormtest

import (
	"bytes"
	"io"
	"os"
	"strings"
	"testing"

	"pippinterm/internal/diff"
	"pippinterm/storm/report"
)

// A Report can be written in several forms.
type Report interface {
	WriteText(io.Writer) error
	WriteJSON(io.Writer) error
	WriteHTML(io.Writer) error
}

// Forms returns a report in its forms.
func Forms(t testing.TB, of Report) map[string]string {
	t.Helper()
	return map[string]string{
		"text": TextOf(t, of.WriteText), "JSON": TextOf(t, of.WriteJSON), "HTML": TextOf(t, of.WriteHTML),
	}
}

// TextOf returns what a function writes.
func TextOf(t testing.TB, write func(io.Writer) error) string {
	t.Helper()
	var text bytes.Buffer
	diff.Must(t, write(&text))
	return text.String()
}

// Whats returns what was found.
func Whats(all []report.Finding) string {
	var text []string
	for _, finding := range all {
		text = append(text, finding.What)
	}
	return strings.Join(text, "\n")
}

// HasBinding reports whether something was found of a binding.
func HasBinding(all []report.Finding) bool {
	for _, finding := range all {
		if finding.Binding != "" {
			return true
		}
	}
	return false
}

// HasViolation reports whether a rule was broken.
func HasViolation(all []report.Violation, name string) bool {
	for _, violation := range all {
		if violation.Name == name {
			return true
		}
	}
	return false
}

// A Tally counts the instances, the bindings, the requests and the faults of a storm.
type Tally [4]int

// UntilEnough calls run with one seed after the other, until enough has happened in all storms together: on a slow
// machine less happens in each. It fails if it isn't enough after ten.
func UntilEnough(t *testing.T, enough Tally, run func(seed int64) Tally) {
	t.Helper()
	var all Tally
	for seed := int64(1); seed <= 10 && !t.Failed(); seed++ {
		isEnough := true
		for at, count := range run(seed) {
			all[at] += count
			isEnough = isEnough && all[at] >= enough[at]
		}
		if isEnough {
			return
		}
	}
	if !t.Failed() {
		t.Errorf("got %v in all storms, want at least %v", all, enough)
	}
}

// IsRunning reports whether a process runs. One that has ended may wait for its parent.
func IsRunning(pid string) bool {
	text, err := os.ReadFile("/proc/" + pid + "/stat")
	return err == nil && !strings.Contains(string(text), ") Z ")
}

// Empty checks that nothing is in a folder.
func Empty(t testing.TB, folder string) {
	t.Helper()
	diff.Empty(t, diff.Value(os.ReadDir(folder))(t), "")
}
