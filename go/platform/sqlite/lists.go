package sqlite

import (
	"context"
	"database/sql/driver"
	"errors"
	"sort"
	"strconv"
	"strings"

	"pippinterm/platform"
)

// states are all states, in the order of a list.
var states = []platform.State{
	platform.Abandoned, platform.Cleaning, platform.CleaningPolling, platform.Gone, platform.Ordered, platform.Polling,
	platform.Ready, platform.Unsettled, platform.Wanted, platform.Withdrawn,
}

// List returns rows of one snapshot, in the order of the filter.
func (s *Store) List(ctx context.Context, filter platform.Filter) ([]platform.Entry, error) {
	return inSnapshot(ctx, s, func(c *connection) ([]platform.Entry, error) {
		positions, err := c.positions(ctx, filter)
		if err != nil {
			return nil, err
		}
		return showAll(ctx, platform.KeysOf(positions), c.show)
	})
}

// Positions returns the positions of the rows that List returns. If the filter has nothing but states and a broker, it
// reads indexes alone.
func (s *Store) Positions(ctx context.Context, filter platform.Filter) ([]platform.Position, error) {
	return inSnapshot(ctx, s, func(c *connection) ([]platform.Position, error) { return c.positions(ctx, filter) })
}

// ReadAll returns the rows of these keys, of one snapshot.
func (s *Store) ReadAll(ctx context.Context, keys []platform.Key) ([]platform.Entry, error) {
	return inSnapshot(ctx, s, func(c *connection) ([]platform.Entry, error) { return showAll(ctx, keys, c.showBriefly) })
}

// showAll reads the rows of these keys that there are.
func showAll(
	ctx context.Context, keys []platform.Key, show func(platform.Key) (platform.Entry, error),
) (entries []platform.Entry, err error) {
	for _, key := range keys {
		entry, err := show(key)
		switch {
		case errors.Is(err, platform.ErrUnknown):
		case err != nil:
			return nil, err
		default:
			entries = append(entries, entry)
		}
	}
	return entries, ctx.Err()
}

// inSnapshot returns what is read of one state of the file.
func inSnapshot[T any](ctx context.Context, s *Store, read func(*connection) ([]T, error)) (found []T, err error) {
	err = s.read(ctx, func(c *connection) error {
		return c.Snapshot(func() (err error) {
			found, err = read(c)
			return err
		})
	})
	return found, err
}

// Moment returns the number of the last stay that has ended. One transaction at a time writes the file, and each stay has
// a higher number than those before, whatever the clock says.
func (s *Store) Moment(ctx context.Context) (moment platform.Moment, err error) {
	err = s.read(ctx, func(c *connection) error {
		last, err := c.lastStay()
		moment = platform.Moment(strconv.FormatInt(last, 10))
		return err
	})
	return moment, err
}

// lastStay is the highest number of a stay, or 0.
func (c *connection) lastStay() (int64, error) {
	values, err := c.moment.One()
	if err != nil {
		return 0, err
	}
	r := &row{values: values}
	return r.number(), r.err
}

// A listing reads the positions of a list.
type listing struct {
	*connection
	filter platform.Filter
	asOf   driver.Value // the number of the filter's moment, or nil if nothing has changed since
	found  []platform.Position
}

// positions reads a list. As of a moment, the rows that have changed their state since are read apart.
func (c *connection) positions(ctx context.Context, filter platform.Filter) ([]platform.Position, error) {
	l := &listing{connection: c, filter: filter}
	if filter.AsOf != "" {
		number, err := strconv.ParseInt(string(filter.AsOf), 10, 64)
		if err != nil {
			return nil, platform.ErrNoMoment
		}
		last, err := c.lastStay()
		if err != nil {
			return nil, err
		}
		if last > number {
			l.asOf = number
			if err := l.readChanged(); err != nil {
				return nil, err
			}
		}
	}
	changed := l.found
	l.found = nil
	if err := l.readUnchanged(ctx); err != nil {
		return nil, err
	}
	if l.found = append(l.found, changed...); len(changed) > 0 || filter.Order == platform.ByTime {
		l.merge()
	}
	return l.found, nil
}

// readUnchanged reads all rows, or those whose state hasn't changed since the moment. By key that is one query. Else it
// is one for each state, which an index has in order: by state they are read until there are enough, and by time all.
func (l *listing) readUnchanged(ctx context.Context) error {
	if l.filter.Order == platform.ByKey {
		return l.byKey()
	}
	for _, state := range statesOf(l.filter) {
		if err := ctx.Err(); err != nil {
			return err
		}
		most := l.filter.Most
		if l.filter.Order == platform.ByState && most > 0 {
			if most -= len(l.found); most == 0 {
				break
			}
		}
		if err := l.in(state, most); err != nil {
			return err
		}
	}
	return nil
}

// merge sorts what was read in several parts, and keeps as many as the filter has at most.
func (l *listing) merge() {
	order := l.filter.Order
	sort.SliceStable(l.found, func(one, other int) bool {
		if l.filter.Latest {
			one, other = other, one
		}
		a, b := l.found[one], l.found[other]
		switch {
		case order == platform.ByState && a.State != b.State:
			return a.State < b.State
		case order != platform.ByKey && !a.Since.Equal(b.Since):
			return a.Since.Before(b.Since)
		}
		return a.Key.String() < b.Key.String()
	})
	if most := l.filter.Most; most > 0 && len(l.found) > most {
		l.found = l.found[:most]
	}
}

// in reads at most so many rows that are in a state, or all for 0.
func (l *listing) in(state platform.State, most int) error {
	filter := l.filter
	isNarrow := filter.Instance != nil || filter.First != nil || filter.Prefix != ""
	return l.read(false, "since, ", most, func(chosen *selection, of side) {
		chosen.and(withoutIndex(isNarrow)+"state = ?", string(state))
		chosen.of(filter, isNarrow)
		if filter.Order == platform.ByTime || filter.After != nil && filter.After.State == state {
			chosen.after(filter, "since, ", of)
		}
	})
}

// fewRows is how many rows a list by key sorts at most for one page.
const fewRows = 5000

// byKey reads the rows by their keys. If few rows have the states and the broker of the filter, an index finds them,
// and they are sorted. Else the rows are read in the order of their keys, and those that don't fit are passed over. So
// all pages together read each row once.
func (l *listing) byKey() error {
	filter := l.filter
	count, err := l.countOf(filter)
	if err != nil {
		return err
	}
	isUnindexed := filter.Instance != nil || filter.First != nil || filter.Prefix != "" || count > fewRows
	return l.inAll(false, "", isUnindexed)
}

// readChanged reads the rows that have changed their state since the moment, as they were then.
func (l *listing) readChanged() error {
	switch l.filter.Order {
	case platform.ByKey:
		return l.inAll(true, "", true)
	case platform.ByTime:
		return l.inAll(true, "since, ", true)
	}
	return l.inAll(true, "state, since, ", true)
}

// inAll reads rows in all states of the filter.
func (l *listing) inAll(isThen bool, columns string, isUnindexed bool) error {
	return l.read(isThen, columns, l.filter.Most, func(chosen *selection, of side) {
		if len(l.filter.States) > 0 {
			chosen.and(withoutIndex(isUnindexed)+"state IN "+anyState, pad(l.filter.States)...)
		}
		chosen.of(l.filter, isUnindexed)
		chosen.after(l.filter, columns, of)
	})
}

// countOf is how many rows have the states and the broker of a filter.
func (c *connection) countOf(filter platform.Filter) (count int64, err error) {
	s := &selection{}
	s.text.WriteString("SELECT coalesce(sum(count), 0) FROM osb_counts WHERE true")
	if len(filter.States) > 0 {
		s.and("state IN "+anyState, pad(filter.States)...)
	}
	if filter.Broker != "" {
		s.and("broker = ?", filter.Broker)
	}
	err = c.each(s.text.String(), s.values, func(values []driver.Value) error {
		r := &row{values: values}
		count = r.number()
		return r.err
	})
	return count, err
}

// A side is one of the two tables of rows: the columns of its key, also as they are selected, and the same as osb_lives
// has it. then are its rows that have changed their state since a moment, with the first stay that has ended since. From
// beside min(rowid), SQLite takes the columns of the same row.
type side struct{ table, key, selected, life, then string }

const changedFirst = "FROM (SELECT id AS key, state, since, min(rowid) FROM osb_lives WHERE rowid > ? GROUP BY +id) AS s " +
	"CROSS JOIN "

var (
	ofInstances = side{
		"osb_instances", "id", "id, NULL", "osb_instances.id",
		"(SELECT r.id, r.broker, r.first, s.state, s.since " + changedFirst + "osb_instances AS r ON r.id = s.key)",
	}
	ofBindings = side{
		"osb_bindings", "instance, id", "instance, id", "osb_bindings.instance || '/' || osb_bindings.id",
		"(SELECT r.instance, r.id, r.broker, r.first, s.state, s.since " + changedFirst +
			"osb_bindings AS r ON r.instance = substr(s.key, 1, 36) AND r.id = substr(s.key, 38))",
	}
)

// sides are the tables with rows of a filter.
func sides(filter platform.Filter) (found []side) {
	if filter.Instance == nil && (filter.Bindings == nil || !*filter.Bindings) {
		found = append(found, ofInstances)
	}
	if filter.Bindings == nil || *filter.Bindings {
		found = append(found, ofBindings)
	}
	return found
}

// read reads at most so many rows, or all for 0, in the order of these columns and the key: those that have changed since
// the moment as they were then, or the others. where adds the conditions on the rows of a table.
func (l *listing) read(isThen bool, columns string, most int, where func(chosen *selection, of side)) error {
	chosen := &selection{}
	for _, of := range sides(l.filter) {
		switch {
		case isThen:
			chosen.from(of.selected, of.then, l.asOf)
		case l.asOf == nil:
			chosen.from(of.selected, of.table)
		default:
			chosen.from(of.selected, of.table)
			chosen.and("NOT EXISTS (SELECT 1 FROM osb_lives AS l WHERE l.id = "+of.life+" AND +l.rowid > ?)", l.asOf)
		}
		where(chosen, of)
	}
	if chosen.text.Len() == 0 {
		return nil
	}
	order := columns + "1, 2"
	if l.filter.Latest {
		order = strings.ReplaceAll(order, ",", " DESC,") + " DESC"
	}
	if most == 0 {
		most = -1
	}
	chosen.text.WriteString(" ORDER BY " + order + " LIMIT ?")
	return l.each(chosen.text.String(), append(chosen.values, int64(most)), func(values []driver.Value) error {
		r := &row{values: values}
		at := platform.Position{Key: r.key(), State: platform.State(r.text()), Since: r.at()}
		l.found = append(l.found, at)
		return r.err
	})
}

// each calls with each row of a query that is prepared when it is first asked for.
func (c *connection) each(query string, values []driver.Value, call func([]driver.Value) error) error {
	statement := c.lists[query]
	if statement == nil {
		var err error
		if statement, err = c.Prepare(context.Background(), query); err != nil {
			return err
		}
		c.lists[query] = statement
	}
	return statement.Each(values, call)
}

// Life returns the stays of a row that have ended.
func (s *Store) Life(ctx context.Context, key platform.Key) (stays []platform.Stay, err error) {
	err = s.read(ctx, func(c *connection) error {
		stays = nil
		return c.life.Each([]driver.Value{key.String()}, func(values []driver.Value) error {
			r := &row{values: values}
			stays = append(stays, platform.Stay{State: platform.State(r.text()), Since: r.at()})
			return r.err
		})
	})
	return stays, err
}

// Counts counts the rows of each broker, kind and state.
func (s *Store) Counts(ctx context.Context) (counts []platform.Count, err error) {
	err = s.read(ctx, func(c *connection) error {
		counts = nil
		return c.counts.Each(nil, func(values []driver.Value) error {
			r := &row{values: values}
			counts = append(counts, platform.Count{
				Broker: r.text(), IsBinding: r.number() != 0, State: platform.State(r.text()),
				Count: int(r.number()), Oldest: r.at(),
			})
			return r.err
		})
	})
	return counts, err
}

// InFlight returns the rows that are leased.
func (s *Store) InFlight(ctx context.Context, most int) (entries []platform.Entry, err error) {
	err = s.read(ctx, func(c *connection) error {
		entries = nil
		return c.Snapshot(func() error {
			keys, err := c.keysInFlight(most)
			for n := 0; n < len(keys) && err == nil; n++ {
				var entry platform.Entry
				entry, err = c.show(keys[n])
				entries = append(entries, entry)
			}
			return err
		})
	})
	return entries, err
}

func (c *connection) keysInFlight(most int) (keys []platform.Key, err error) {
	err = c.inFlight.Each([]driver.Value{int64(most)}, func(values []driver.Value) error {
		r := &row{values: values[1:]}
		keys = append(keys, r.keyOfTexts())
		return r.err
	})
	return keys, err
}

// A selection is a statement with its values.
type selection struct {
	text   strings.Builder
	values []driver.Value
}

// from adds rows to those that are selected. The conditions on them follow.
func (s *selection) from(key, rows string, values ...driver.Value) {
	if s.text.Len() > 0 {
		s.text.WriteString(" UNION ALL ")
	}
	s.text.WriteString("SELECT " + key + ", state, since FROM " + rows + " WHERE true")
	s.values = append(s.values, values...)
}

// and adds a condition, in which each ? stands for the next of the values.
func (s *selection) and(condition string, values ...driver.Value) {
	s.text.WriteString(" AND " + condition)
	s.values = append(s.values, values...)
}

// withoutIndex is what stands before a column so that no index of it is used: another one leads to fewer rows.
func withoutIndex(is bool) string {
	if is {
		return "+"
	}
	return ""
}

// of adds the conditions of a filter, except for those on states and the position. isUnindexed says that no index of
// brokers is used.
func (s *selection) of(filter platform.Filter, isUnindexed bool) {
	if filter.Broker != "" {
		s.and(withoutIndex(isUnindexed)+"broker = ?", filter.Broker)
	}
	if filter.Instance != nil {
		s.and("instance = ?", filter.Instance.String())
	}
	if filter.First != nil {
		first := filter.First.String()
		s.and("(first = ? OR first IS NULL AND id = ?)", first, first)
	}
	if filter.Prefix != "" { // behind a digit or a hyphen comes a g
		s.and("id >= ? AND id < ?", filter.Prefix, filter.Prefix+"g")
	}
}

// after adds that a row comes behind the position of a filter, if it has one, by these columns and the key. An instance
// comes before its bindings, and in the opposite order behind them.
func (s *selection) after(filter platform.Filter, columns string, of side) {
	if filter.After == nil {
		return
	}
	position := *filter.After
	var values []driver.Value
	if strings.Contains(columns, "state") {
		values = append(values, string(position.State))
	}
	if strings.Contains(columns, "since") {
		values = append(values, seconds(position.Since))
	}
	values = append(values, position.Key.Instance.String())
	if of == ofBindings {
		values = append(values, bindingOf(position.Key))
	}
	is := " > "
	switch {
	case filter.Latest && of == ofInstances && position.Key.IsBinding:
		is = " <= "
	case filter.Latest:
		is = " < "
	}
	s.and("("+columns+of.key+")"+is+"(?"+strings.Repeat(", ?", len(values)-1)+")", values...)
}

// bindingOf is the id of a binding, or an empty text for an instance.
func bindingOf(key platform.Key) string {
	if key.IsBinding {
		return key.Binding.String()
	}
	return ""
}

// anyState is a list of as many states as there are, so that statements with any number of them have one text. padded
// are its values: these states, and texts that are no state.
var anyState = "(?" + strings.Repeat(", ?", len(states)-1) + ")"

func pad(of []platform.State) []driver.Value {
	values, chosen := make([]driver.Value, 0, len(states)), map[platform.State]bool{}
	for _, state := range of {
		chosen[state] = true
	}
	for _, state := range states {
		if !chosen[state] {
			state = ""
		}
		values = append(values, string(state))
	}
	return values
}

// statesOf are the states of the rows of a filter, in their order.
func statesOf(filter platform.Filter) (of []platform.State) {
	chosen := map[platform.State]bool{}
	for _, state := range filter.States {
		chosen[state] = true
	}
	for at := range states {
		state := states[at]
		if filter.Latest {
			state = states[len(states)-1-at]
		}
		if isBehind(filter, state) && (len(chosen) == 0 || chosen[state]) {
			of = append(of, state)
		}
	}
	return of
}

// isBehind reports whether rows in a state may come behind the position of a filter.
func isBehind(filter platform.Filter, state platform.State) bool {
	switch {
	case filter.After == nil || filter.Order == platform.ByTime:
		return true
	case filter.Latest:
		return state <= filter.After.State
	}
	return state >= filter.After.State
}
