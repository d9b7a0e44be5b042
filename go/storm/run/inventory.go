package run

import (
	"context"
	"errors"
	"fmt"
	"net/http"
	"net/url"
	"strings"
	"time"

	"pippinterm/storm/conform"
	"pippinterm/storm/fault"
	"pippinterm/storm/report"
	"pippinterm/storm/run/audit"
	"pippinterm/storm/run/shell"
)

// An Existence says that something exists, or that it doesn't.
type Existence int

// The values of Existence. Unknown is the zero value.
const (
	Unknown Existence = iota
	Exists
	Missing
)

// A Sight is what exists. A key that it lacks is Unknown.
type Sight struct {
	Of    map[Key]Existence
	Twice []Key // what exists more than once
}

// An Inventory finds out what exists at a broker.
type Inventory interface {
	// Look returns what exists of these keys, and whatever else exists whose id has the prefix of the run.
	Look(ctx context.Context, keys []Key) (Sight, error)
}

// A listing asks commands, and another Inventory for the bindings if there is no command for them.
type listing struct {
	commands Commands
	prefix   string
	bindings Inventory
	skipped  map[Key]bool // what earlier runs have left
}

// Look runs the commands.
func (l listing) Look(ctx context.Context, keys []Key) (Sight, error) {
	sight := Sight{Of: map[Key]Existence{}}
	rows, err := l.rows(ctx, l.commands.List, 1)
	if err != nil {
		return sight, fmt.Errorf("the list command: %w", err)
	}
	hasBindings := l.commands.ListBindings != ""
	if hasBindings {
		bindings, err := l.rows(ctx, l.commands.ListBindings, 2)
		if err != nil {
			return sight, fmt.Errorf("the command that lists bindings: %w", err)
		}
		rows = append(rows, bindings...)
	}
	for _, key := range rows {
		if sight.Of[key] == Exists {
			sight.Twice = append(sight.Twice, key)
		}
		sight.Of[key] = Exists
	}
	var others []Key
	for _, key := range keys {
		switch {
		case key.Binding != "" && !hasBindings:
			others = append(others, key)
		case sight.Of[key] != Exists:
			sight.Of[key] = Missing
		}
	}
	if len(others) == 0 {
		return sight, nil
	}
	asked, err := l.bindings.Look(ctx, others)
	for key, existence := range asked.Of {
		sight.Of[key] = existence
	}
	return sight, err
}

// rows returns the keys of the run that a command prints, with so many ids on each line.
func (l listing) rows(ctx context.Context, command string, ids int) (rows []Key, err error) {
	printed, err := shell.Rows(ctx, command, ids)
	for _, words := range printed {
		key := Key{Instance: words[0]}
		if ids == 2 {
			key.Binding = words[1]
		}
		if strings.HasPrefix(key.Instance, l.prefix) && !l.skipped[key] {
			rows = append(rows, key)
		}
	}
	return rows, err
}

// ErrList is the error of Run if a command that lists what exists fails, or doesn't print what exists.
var ErrList = errors.New("what exists can't be listed")

// listTime is within which time a command must print what was created, and listEach how often it is run until then.
const (
	listTime = 10 * time.Second
	listEach = 200 * time.Millisecond
)

// tryLists runs the commands that list what exists, while these keys exist. It returns what is wrong with them. If
// running is done, nobody knows.
func (s *BrokerStorm) tryLists(running, ctx context.Context, keys []Key) error {
	if !s.isListed {
		return nil
	}
	within, cancel := linger(running, ctx)
	defer cancel()
	of := listing{commands: s.options.Commands, prefix: s.Prefix()}
	for _, test := range []struct {
		option, command, prints, what string
		ids                           int
	}{
		{"--list-command", s.options.Commands.List, "the id of each instance that exists, one on a line", "instance", 1},
		{
			"--list-bindings-command", s.options.Commands.ListBindings,
			"the ids of the instance and the binding of each binding that exists, one pair on a line", "binding", 2,
		},
	} {
		if test.command == "" {
			continue
		}
		missing, err := of.awaits(within, test.command, test.ids, keys)
		switch {
		case running.Err() != nil:
			return nil
		case err != nil:
			return fmt.Errorf("%w: the command of %s has failed: %v. Run it in a shell. It must print %s",
				ErrList, test.option, err, test.prints)
		case missing != "":
			return fmt.Errorf("%w: the command of %s doesn't print the %s %s, which the broker has created. It must print %s",
				ErrList, test.option, test.what, missing, test.prints)
		}
	}
	return nil
}

// awaits runs a command until it prints those of some keys that have so many ids. It returns one that it doesn't print,
// or "".
func (l listing) awaits(ctx context.Context, command string, ids int, keys []Key) (missing string, err error) {
	for until := time.Now().Add(listTime); ; {
		rows, err := l.rows(ctx, command, ids)
		if err != nil {
			return "", err
		}
		if missing = firstMissing(rows, ids, keys); missing == "" || time.Now().After(until) || !fault.Sleep(ctx, listEach) {
			return missing, nil
		}
	}
}

// firstMissing returns the first key with so many ids that isn't one of some others, or "".
func firstMissing(others []Key, ids int, keys []Key) string {
	for _, key := range keys {
		if isBinding := key.Binding != ""; isBinding == (ids == 2) && !hasKey(others, key) {
			return ofKey(key)
		}
	}
	return ""
}

func hasKey(all []Key, key Key) bool {
	for _, other := range all {
		if other == key {
			return true
		}
	}
	return false
}

// compare returns what records and what exists disagree in at the end, in the order of the ids.
func compare(records map[Key]Record, sight Sight) (all report.Differences) {
	for key, existence := range sight.Of {
		if record := records[key]; existence == Exists && record.IsEnded() {
			all.Add(key, Lost, lostBecause(record))
		}
	}
	for _, key := range sight.Twice {
		all.Add(key, Lost, "it exists twice, and the platform knows one of them")
	}
	for key, record := range records {
		switch {
		case !record.Rests:
			all.Add(key, Stuck, stuckBecause(record))
		case record.State == audit.Ready && sight.Of[key] == Missing:
			all.Add(key, False, "its record says ready, and it doesn't exist")
		}
	}
	return all.InOrder()
}

func stuckBecause(record Record) string {
	if record.IsEnded() { // only its last deletion is still sent
		return "its last deletion isn't answered yet"
	}
	return "its record is still " + string(record.State)
}

func lostBecause(record Record) string {
	if !record.Known {
		return "it exists, and the platform has no record"
	}
	return "it exists, and its record says " + string(record.State)
}

// compareSteady returns the false records of those that were the same before and after the look.
func compareSteady(before, after map[Key]Record, sight Sight) (all []Difference) {
	for _, difference := range compare(before, sight) {
		record := before[difference.Key]
		same := after[difference.Key] == record && record.Known
		if same && difference.Kind == Lost {
			difference.What = "during the storm, " + difference.What
		}
		if same && difference.Kind == False {
			difference.What = "during the storm, its record said ready, and it didn't exist"
		}
		if same && difference.Kind != Stuck {
			all = append(all, difference)
		}
	}
	return all
}

// A standardInventory asks the broker itself for each instance and binding, without faults: by a fetch if the catalogue
// promises that, and otherwise by the last operation.
type standardInventory struct {
	broker *conform.Runner
	target conform.Target
	// existing and deleted are the answers to the last operation of such instances. They are empty if the two answers
	// are the same, and then the last operation says nothing.
	existing, deleted string
}

// Look asks for each key.
func (s *standardInventory) Look(ctx context.Context, keys []Key) (Sight, error) {
	sight := Sight{Of: map[Key]Existence{}}
	for _, key := range keys {
		if ctx.Err() != nil {
			return sight, ctx.Err()
		}
		sight.Of[key] = s.look(ctx, key)
	}
	return sight, nil
}

func (s *standardInventory) look(ctx context.Context, key Key) Existence {
	switch {
	case key.Binding != "" && s.target.BindingsRetrievable, key.Binding == "" && s.target.InstancesRetrievable:
		return byFetch(s.broker.Ask(ctx, http.MethodGet, key.Instance, key.Binding, "", s.names()).Status)
	case key.Binding == "" && s.existing != "":
		switch s.lastOperation(ctx, key) {
		case s.existing:
			return Exists
		case s.deleted:
			return Missing
		}
	}
	return Unknown
}

func (s *standardInventory) lastOperation(ctx context.Context, key Key) string {
	answer := s.broker.Ask(ctx, http.MethodGet, key.Instance, key.Binding, "/last_operation", s.names())
	if answer.Status != http.StatusOK {
		return fmt.Sprint(answer.Status)
	}
	return fmt.Sprint(answer.Status, " ", answer.Text("state"))
}

func (s *standardInventory) names() url.Values {
	return url.Values{"service_id": {s.target.Service}, "plan_id": {s.target.Plan}}
}

func (s *standardInventory) describe() string {
	switch {
	case s.target.InstancesRetrievable:
		return "the broker was asked for each instance (instances_retrievable)"
	case s.existing != "":
		return "the broker was asked for the last operation of each instance"
	}
	return "only a deletion shows what exists: the last operation is the same for what exists and what was deleted"
}

func byFetch(status int) Existence {
	switch status {
	case http.StatusOK:
		return Exists
	case http.StatusNotFound, http.StatusGone:
		return Missing
	}
	return Unknown
}

// A watch compares, while a storm goes on, the records that say ready or gone with what exists.
type watch struct {
	orders    Orders
	inventory Inventory
	isCheap   bool           // one look is enough for all keys, so each look is about all
	seen      map[Key]Record // what was looked at, unless all are looked at each time
	*finds
}

// look looks once. A look that fails, such as while the broker is away, says nothing.
func (w *watch) look(ctx context.Context) {
	before, err := w.orders.Records(ctx)
	if err != nil {
		return
	}
	keys := w.due(before)
	if len(keys) == 0 {
		return
	}
	sight, err := w.inventory.Look(ctx, keys)
	if err != nil {
		return
	}
	after, err := w.orders.Records(ctx)
	if err != nil {
		return
	}
	for key, existence := range sight.Of {
		if existence != Unknown {
			w.seen[key] = before[key]
		}
	}
	sight.Twice = nil // one may be about to be deleted
	for _, difference := range compareSteady(before, after, sight) {
		w.addOnce(difference)
	}
}

func (w *watch) due(records map[Key]Record) (keys []Key) {
	for key, record := range records {
		if (record.State == audit.Ready || record.IsEnded()) && (w.isCheap || w.seen[key] != record) {
			keys = append(keys, key)
		}
	}
	return keys
}

// end compares at the end, and adds what was found before. isWhole says that the run has waited until the records
// converged.
func (w *watch) end(ctx context.Context, isWhole bool) (e ending) {
	e.differences = w.list()
	records, err := w.orders.Records(context.Background())
	if err != nil {
		e.failed = append(e.failed, "the records can't be read: "+err.Error())
		return e
	}
	keys := make([]Key, 0, len(records))
	for key := range records {
		keys = append(keys, key)
	}
	if e.last, err = w.inventory.Look(ctx, keys); err != nil && ctx.Err() == nil {
		e.failed = append(e.failed, "what exists can't be asked for: "+err.Error())
	}
	found := compare(records, e.last)
	if !isWhole {
		found = found.Without(Stuck)
	}
	e.differences = append(e.differences, found...)
	return e
}

// An ending is what exists at the end, and what the records and what exists disagree in.
type ending struct {
	last        Sight
	differences report.Differences
	failed      []string // what went wrong with the comparison
}
