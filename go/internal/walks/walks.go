// Package walks writes what happens in a test in lines that the proved model reads (the crate service_cases), with what
// is recorded, held and there after each event. checks/go compares the two.
package walks

import (
	"bufio"
	"fmt"
	"hash/fnv"
	"os"
	"path/filepath"
	"strings"
	"testing"

	"pippinterm/internal/diff"
	"pippinterm/osb"
)

// A Life is what is recorded, held and there of an instance or of a binding.
type Life struct {
	Record    osb.Record // the platform's, if it has one
	IsOrdered bool       // whether it has
	Holding   osb.Holding
	There     string // absent, part or whole
	IsBinding bool
	Recorded  string // the credentials that the platform records, such as "token 1", or empty
	Made      string // those of the resource
}

// String is how a line has it.
func (l Life) String() string {
	record := "-"
	if l.IsOrdered {
		record = fmt.Sprintf("%v %s %d", l.Record.State(), kindWord(l.Record.InFlight()), l.Record.Attempt())
	}
	text := fmt.Sprintf("%s; %s; %s", record, HoldingWords(l.Holding), l.There)
	if l.IsBinding {
		text += "; credentials " + NumberOf(l.Recorded) + " " + NumberOf(l.Made)
	}
	return text
}

// HoldingWords are the row, the pending work and the tombstone of a holding.
func HoldingWords(held osb.Holding) string {
	phase, work, tombstone := "-", "-", "-"
	if row, isHeld := held.Row(); isHeld {
		phase = row.Phase.String()
	}
	if pending, isPending := held.Work(); isPending {
		work = kindWord(pending.Kind)
	}
	if held.HasTombstone() {
		tombstone = "tombstone"
	}
	return phase + " " + work + " " + tombstone
}

func kindWord(kind osb.Kind) string {
	if kind == osb.KindNone {
		return "-"
	}
	return kind.String()
}

// NumberOf is the number of credentials, or a dash.
func NumberOf(credentials string) string {
	if number := strings.TrimPrefix(credentials, "token "); number != "" {
		return number
	}
	return "-"
}

// Line is the line of an event, of what became of it, and of all lives after it.
func Line(event, what, lives string) string { return fmt.Sprintf("%s  %s: %s", event, what, lives) }

// A Writer writes walks. A nil one writes nothing.
type Writer struct {
	to   *bufio.Writer
	seen map[uint64]bool // the beginnings of all walks that were written, by a sum over them
}

// NewWriter is a Writer to a file in the folder that WALKS names, or nil if the variable isn't set.
func NewWriter(t *testing.T) *Writer {
	t.Helper()
	folder := os.Getenv("WALKS")
	if folder == "" {
		return nil
	}
	name := strings.ReplaceAll(filepath.Base(diff.Value(os.Getwd())(t))+"."+t.Name(), "/", ".")
	file := diff.Value(os.OpenFile(filepath.Join(folder, name), os.O_CREATE|os.O_EXCL|os.O_WRONLY, 0o600))(t)
	w := &Writer{to: bufio.NewWriter(file), seen: map[uint64]bool{}}
	t.Cleanup(func() {
		diff.NoError(t, w.to.Flush(), "")
		diff.NoError(t, file.Close(), "")
	})
	return w
}

// Write writes a walk, unless one that was written begins with it.
func (w *Writer) Write(lines []string) {
	if w == nil {
		return
	}
	sum, isNew := fnv.New64a(), false
	for _, line := range lines {
		fmt.Fprintln(sum, line)
		before := len(w.seen)
		w.seen[sum.Sum64()] = true
		isNew = isNew || len(w.seen) > before
	}
	if isNew {
		fmt.Fprintln(w.to, strings.Join(lines, "\n"))
	}
}
