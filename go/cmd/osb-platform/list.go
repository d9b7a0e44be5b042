package main

import (
	"bufio"
	"context"
	"encoding/json"
	"errors"
	"fmt"
	"io"
	"os"
	"strconv"
	"strings"
	"syscall"
	"time"
	"unicode"
	"unicode/utf16"
	"unicode/utf8"

	"github.com/spf13/cobra"
	"golang.org/x/sys/unix"

	"pippinterm/internal/cli"
	"pippinterm/platform"
)

// readAtOnce is how many rows are read at once.
const readAtOnce = 500

// allStates are the states, in the order in which --help has them.
var allStates = []platform.State{
	platform.Ordered, platform.Withdrawn, platform.Wanted, platform.Polling, platform.Ready, platform.Cleaning,
	platform.CleaningPolling, platform.Gone, platform.Unsettled, platform.Abandoned,
}

// A listing is how rows are listed.
type listing struct {
	state                        string
	filter                       platform.Filter
	bindings, reasons, inJSON    bool
	brokers                      map[string]platform.Broker // by name, if reasons are shown
	waiting, stuck, unreadable   int
	oldestWaiting, oldestOfStuck time.Time
}

// listCommand lists instances and bindings.
func listCommand(a *app) *cobra.Command {
	l := &listing{}
	made := &cobra.Command{
		Use:   "list",
		Short: "List the instances, and with --bindings their bindings too",
		Long: `List the instances, and with --bindings their bindings too, by state, and in each state the longest in it
first, or with --latest the latest.

The columns are ` + namesOfColumns() + `.
On a terminal they are below a header. Elsewhere they are separated by tabs, without a header. Standard error has what
needs attention.

--json prints an object on each line.`,
		Example: `  osb-platform list --state unsettled --reasons
  osb-platform list --state ready --latest | head
  osb-platform list --broker shop --bindings --json`,
		RunE: a.over(needsStore, func(ctx context.Context, c *cobra.Command, s session, _ []string) error {
			if err := l.prepare(); err != nil {
				return err
			}
			if err := l.listTo(ctx, s.store, c.OutOrStdout()); err != nil {
				return err
			}
			_, err := io.WriteString(c.ErrOrStderr(), l.attention())
			return err
		}),
	}
	flags := made.Flags()
	flags.SortFlags = false
	flags.StringVar(&l.state, "state", "", "only those in this `state`: "+join(allStates))
	flags.StringVar(&l.filter.Broker, "broker", "", "only those of the broker of this `name`")
	flags.BoolVar(&l.bindings, "bindings", false, "the bindings too")
	flags.BoolVar(&l.filter.Latest, "latest", false, "in the opposite order: in each state the latest first")
	flags.BoolVar(&l.reasons, "reasons", false, "what the broker, or the way to it, has reported last")
	flags.BoolVar(&l.inJSON, "json", false, "an object of JSON on each line")
	_ = made.RegisterFlagCompletionFunc("state", completeState) // there is this flag
	return made
}

// completeState are the states, for a shell that completes the command line.
func completeState(*cobra.Command, []string, string) ([]string, cobra.ShellCompDirective) {
	return strings.Split(join(allStates), ", "), cobra.ShellCompDirectiveNoFileComp
}

func join(states []platform.State) string {
	texts := make([]string, len(states))
	for at, state := range states {
		texts[at] = string(state)
	}
	return strings.Join(texts, ", ")
}

// prepare makes the filter.
func (l *listing) prepare() error {
	if !l.bindings {
		isBinding := false
		l.filter.Bindings = &isBinding
	}
	if l.state == "" {
		return nil
	}
	for _, state := range allStates {
		if string(state) == l.state {
			l.filter.States = []platform.State{state}
			return nil
		}
	}
	return cli.Unusable(fmt.Errorf("--state %q: want one of %s", l.state, join(allStates)))
}

// listTo prints the rows. It is no error if the reader of the output has gone, such as head after enough lines.
func (l *listing) listTo(ctx context.Context, store platform.Store, out io.Writer) error {
	var err error
	if l.reasons || l.inJSON {
		if l.brokers, err = brokersOf(ctx, store); err != nil {
			return err
		}
	}
	to := bufio.NewWriter(out)
	err = l.list(ctx, store, to, !l.inJSON && isTerminal(out))
	if failed := to.Flush(); err == nil {
		err = failed
	}
	if errors.Is(err, syscall.EPIPE) {
		return nil
	}
	return err
}

// list prints the rows.
func (l *listing) list(ctx context.Context, store platform.Store, to io.Writer, isHeaded bool) error {
	shown := shownColumns(l.reasons)
	if isHeaded {
		if err := printHead(to, shown); err != nil {
			return err
		}
	}
	return platform.Walk(ctx, store, l.filter, readAtOnce, func(rows []platform.Entry) error {
		for _, row := range rows {
			if err := l.print(ctx, store, row, shown, to, isHeaded); err != nil {
				return err
			}
		}
		return nil
	})
}

// print counts and prints a row.
func (l *listing) print(
	ctx context.Context, store platform.Store, row platform.Entry, shown []column, to io.Writer, isHeaded bool,
) (err error) {
	l.count(row)
	it := entryWithBroker{Entry: row, broker: l.brokers[row.Broker]}
	if l.reasons || l.inJSON {
		if it.before, err = tryBefore(ctx, store, row); err != nil {
			return err
		}
	}
	if l.inJSON {
		return printJSON(to, jsonOf(it))
	}
	return printRow(to, shown, it, isHeaded)
}

// longCleaning is after how long a deletion that doesn't end needs attention.
const longCleaning = time.Hour

// count counts what needs attention.
func (l *listing) count(e platform.Entry) {
	switch {
	case e.Unreadable != "":
		l.unreadable++
	case e.State == platform.Unsettled && e.Removal == platform.NotRemoved && e.Rests():
		l.waiting++
		l.oldestWaiting = earlierOf(l.oldestWaiting, e.Since)
	case (e.State == platform.Cleaning || e.State == platform.CleaningPolling) && time.Since(e.Since) > longCleaning:
		l.stuck++
		l.oldestOfStuck = earlierOf(l.oldestOfStuck, e.Since)
	}
}

func earlierOf(one, other time.Time) time.Time {
	if one.IsZero() || other.Before(one) {
		return other
	}
	return one
}

// attention is what needs attention among the rows that were listed, and what to do.
func (l *listing) attention() string {
	text := ""
	if l.unreadable > 0 {
		text += fmt.Sprintf("%s can't be read. Nothing is sent for such a record. 'osb-platform list --reasons' shows "+
			"why.\n", count(l.unreadable, "record"))
	}
	if l.waiting > 0 {
		text += fmt.Sprintf("%d unsettled (oldest: %s). For each, run 'osb-platform ask ID', which asks the broker "+
			"for its last operation and prints what to do. Don't run 'osb-platform remove ID' before: that deletes it at "+
			"the broker.\n", l.waiting, moment(l.oldestWaiting))
	}
	if l.stuck > 0 {
		text += fmt.Sprintf("%d being deleted for more than an hour (oldest: %s). For each, run 'osb-platform show "+
			"ID' for the broker's reason. 'retry ID' sends the deletion again, and 'abandon ID' ends the record.\n",
			l.stuck, moment(l.oldestOfStuck))
	}
	return text
}

// A column is one of `list`.
type column struct {
	name  string
	least int // its least width on a terminal
	cell  func(entryWithBroker) string
}

// columns are those of `list`, in their order. The last one is left out without --reasons. The guide has a table of
// them (docs/platform-guide.md).
var columns = []column{
	{"id", 36, func(p entryWithBroker) string { return printable(idOf(p.Entry)) }},
	{"state", 16, func(p entryWithBroker) string { return string(p.State) }},
	{"since", 20, func(p entryWithBroker) string { return moment(p.Since) }},
	{"service", 36, func(p entryWithBroker) string { return printable(p.Names.Service) }},
	{"plan", 36, func(p entryWithBroker) string { return printable(p.Names.Plan) }},
	{"broker", 12, func(p entryWithBroker) string { return printable(p.Broker) }},
	{"reason", 0, entryWithBroker.reason},
}

// shownColumns are the columns with or without the reason.
func shownColumns(withReasons bool) []column {
	if withReasons {
		return columns
	}
	return columns[:len(columns)-1]
}

// namesOfColumns are the columns in a sentence.
func namesOfColumns() string {
	always := make([]string, 0, len(columns))
	for _, column := range shownColumns(false) {
		always = append(always, column.name)
	}
	return strings.Join(always, ", ") + ", and with --reasons " + columns[len(columns)-1].name
}

// printHead prints the names of the columns above them, for a terminal.
func printHead(to io.Writer, of []column) error {
	return printLine(to, of, true, func(it column) string { return it.name })
}

// printRow prints a row: for a terminal below a head, and otherwise with tabs between the columns.
func printRow(to io.Writer, of []column, p entryWithBroker, isAligned bool) error {
	return printLine(to, of, isAligned, func(it column) string { return it.cell(p) })
}

func printLine(to io.Writer, of []column, isAligned bool, text func(column) string) error {
	cells := make([]string, len(of))
	for at, column := range of {
		if cells[at] = text(column); isAligned {
			cells[at] = fmt.Sprintf("%-*s", column.least, cells[at])
		}
	}
	line := strings.Join(cells, "\t")
	if isAligned {
		line = strings.TrimRight(strings.Join(cells, " "), " ")
	}
	_, err := fmt.Fprintln(to, line)
	return err
}

// idOf is the id of a row as it was ordered.
func idOf(e platform.Entry) string {
	if e.Key.IsBinding {
		return e.Names.Instance + "/" + e.Names.Binding
	}
	return e.Names.Instance
}

// readEntry is the row of an id of the command line. If there is none, the error is a Rejection.
func readEntry(ctx context.Context, store platform.Store, id string) (platform.Entry, error) {
	key, err := platform.ParseKey(id)
	if err != nil {
		return platform.Entry{}, err
	}
	entry, err := store.Read(ctx, key)
	if errors.Is(err, platform.ErrUnknown) {
		err = &platform.Rejection{
			Kind: platform.NotFound, Text: fmt.Sprintf("the %s %s is unknown", kindOf(key.IsBinding), printable(id)),
		}
	}
	return entry, err
}

// triesOf are all tries of the order of a row, the first one first.
func triesOf(ctx context.Context, store platform.Store, e platform.Entry) ([]platform.Entry, error) {
	if e.Tries <= 1 {
		return []platform.Entry{e}, nil
	}
	all, err := store.List(ctx, e.Chain())
	if err != nil {
		return nil, err
	}
	sorted := make([]platform.Entry, 0, len(all))
	for try := 1; len(sorted) < len(all) && try <= mostTries; try++ {
		for _, entry := range all {
			if entry.Try == try {
				sorted = append(sorted, entry)
			}
		}
	}
	return sorted, nil
}

// printable is a text that a broker or a customer has chosen, quoted with escapes if a terminal wouldn't show it as it
// is.
func printable(text string) string {
	if utf8.ValidString(text) && strings.IndexFunc(text, func(r rune) bool { return !unicode.IsPrint(r) }) < 0 {
		return text
	}
	return strconv.QuoteToASCII(text)
}

// printableOn is a text for a writer: printable on a terminal, and elsewhere the text itself, so that a script gets it
// as it is.
func printableOn(to io.Writer, text string) string {
	if isTerminal(to) {
		return printable(text)
	}
	return text
}

// moment is a time in UTC, to the second.
func moment(at time.Time) string {
	if at.Year() > 9999 {
		at = time.Date(9999, 12, 31, 23, 59, 59, 0, time.UTC)
	}
	return at.UTC().Format("2006-01-02T15:04:05Z")
}

// asciiJSON is the same JSON in ASCII: other characters, which are only in strings, are escaped.
func asciiJSON(text []byte) []byte {
	made := make([]byte, 0, len(text))
	for len(text) > 0 {
		r, size := utf8.DecodeRune(text)
		text = text[size:]
		first, second := utf16.EncodeRune(r)
		switch {
		case r < 0x7f:
			made = append(made, byte(r))
		case r <= 0xffff:
			made = fmt.Appendf(made, `\u%04x`, r)
		default:
			made = fmt.Appendf(made, `\u%04x\u%04x`, first, second)
		}
	}
	return made
}

// printJSON prints a value as one line of JSON in ASCII.
func printJSON(to io.Writer, value any) error {
	text, err := json.Marshal(value)
	if err != nil {
		return err
	}
	_, err = to.Write(append(asciiJSON(text), '\n'))
	return err
}

// isTerminal reports whether a reader or a writer is a terminal.
func isTerminal(it any) bool {
	file, ok := it.(*os.File)
	if !ok {
		return false
	}
	_, err := unix.IoctlGetWinsize(int(file.Fd()), unix.TIOCGWINSZ)
	return err == nil
}
