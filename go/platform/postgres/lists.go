package postgres

import (
	"context"
	"database/sql"
	"errors"
	"fmt"
	"strconv"
	"strings"
	"time"

	"github.com/lib/pq"

	"pippinterm/platform"
)

// No statement here locks a row, and each is a transaction of its own.

var (
	readInstance = "SELECT " + lineOf("t", false, false) + " FROM osb_instances AS t WHERE id = $1"
	readBinding  = "SELECT " + lineOf("t", true, false) + " FROM osb_bound AS t WHERE id = $1 AND binding = $2"
)

// Read returns what is committed: the server shows nothing that isn't on its disk.
func (s *Store) Read(ctx context.Context, key platform.Key) (platform.Entry, error) {
	return within(ctx, s, func(*call) (entry platform.Entry, err error) {
		query, arguments := readInstance, []any{key.Instance}
		if key.IsBinding {
			query, arguments = readBinding, []any{key.Instance, key.Binding}
		}
		var text []byte
		err = s.db.QueryRowContext(ctx, query, arguments...).Scan(&text)
		if errors.Is(err, sql.ErrNoRows) {
			return entry, fmt.Errorf("%w: %v", platform.ErrUnknown, key)
		}
		if err != nil {
			return entry, err
		}
		return shownOf(text)
	})
}

// entries are the rows of a query with one column.
func (s *Store) entries(ctx context.Context, query string, parameters ...any) ([]platform.Entry, error) {
	return within(ctx, s, func(*call) ([]platform.Entry, error) {
		found := []platform.Entry{}
		rows, err := s.db.QueryContext(ctx, query, parameters...)
		err = each(rows, err, func(rows *sql.Rows) error {
			var text []byte
			if err := rows.Scan(&text); err != nil {
				return err
			}
			entry, err := shownOf(text)
			found = append(found, entry)
			return err
		})
		if err != nil {
			return nil, err
		}
		return found, nil
	})
}

// Life returns the stays of a row that have ended, in their order.
func (s *Store) Life(ctx context.Context, key platform.Key) ([]platform.Stay, error) {
	return within(ctx, s, func(*call) ([]platform.Stay, error) {
		found := []platform.Stay{}
		const life = "SELECT state, since FROM osb_lives WHERE id = $1 ORDER BY number"
		rows, err := s.db.QueryContext(ctx, life, key.String())
		err = each(rows, err, func(rows *sql.Rows) error {
			var state string
			var since float64
			err := rows.Scan(&state, &since)
			found = append(found, platform.Stay{State: platform.State(state), Since: timeOf(since)})
			return err
		})
		return found, err
	})
}

const counts = `
SELECT broker, false, state, count(*), min(since) FROM osb_instances GROUP BY broker, state
UNION ALL SELECT broker, true, state, count(*), min(since) FROM osb_bound GROUP BY broker, state
`

// Counts counts all rows, in one query.
func (s *Store) Counts(ctx context.Context) ([]platform.Count, error) {
	return within(ctx, s, func(*call) ([]platform.Count, error) {
		found := []platform.Count{}
		rows, err := s.db.QueryContext(ctx, counts)
		err = each(rows, err, func(rows *sql.Rows) error {
			var it platform.Count
			var oldest float64
			err := rows.Scan(&it.Broker, &it.IsBinding, &it.State, &it.Count, &oldest)
			it.Oldest = timeOf(oldest)
			found = append(found, it)
			return err
		})
		return found, err
	})
}

var inFlight = `
SELECT line FROM ((SELECT ` + lineOf("t", false, false) + ` AS line, leased_until, id, '' AS binding FROM osb_instances AS t
        WHERE worker IS NOT NULL ORDER BY leased_until LIMIT $1)
    UNION ALL (SELECT ` + lineOf("t", true, false) + `, leased_until, id, binding FROM osb_bound AS t
        WHERE worker IS NOT NULL ORDER BY leased_until LIMIT $1)) AS t
ORDER BY leased_until, id, binding LIMIT $1
`

// InFlight returns the rows that are leased, as platform.Store says.
func (s *Store) InFlight(ctx context.Context, most int) ([]platform.Entry, error) {
	return s.entries(ctx, inFlight, most)
}

// firstDueOf is when the first row of a broker is due that nobody has leased.
func firstDueOf(table string) string {
	return "(SELECT due FROM " + table + " WHERE broker = k.broker AND due IS NOT NULL AND " + isFree +
		" ORDER BY due LIMIT 1)"
}

var nextDue = "SELECT min(due), " + clock + " FROM unnest($1::text[]) AS k (broker) CROSS JOIN LATERAL (" +
	firstDueOf("osb_instances") + " UNION ALL " + firstDueOf("osb_bound") + ") AS d"

// NextDue returns when the next row is due, as platform.Store says.
func (s *Store) NextDue(ctx context.Context, brokers []string) (due, now time.Time, err error) {
	return s.dueAndNow(ctx, nextDue, array(brokers))
}

// dueAndNow reads a time, or none, and the time of the server.
func (s *Store) dueAndNow(ctx context.Context, query string, of ...any) (due, now time.Time, err error) {
	type times struct{ due, now time.Time }
	found, err := within(ctx, s, func(*call) (found times, err error) {
		var first sql.NullFloat64
		var at float64
		if err = s.db.QueryRowContext(ctx, query, of...).Scan(&first, &at); err != nil {
			return found, err
		}
		if first.Valid {
			found.due = timeOf(first.Float64)
		}
		found.now = timeOf(at)
		return found, nil
	})
	return found.due, found.now, err
}

// oldestDue reads what the column last has. Within a text of that column, a quote stands behind a backslash.
var oldestDue = `SELECT min(coalesce(substring(last from '"due_since":([0-9]+)')::float8 / 1000, due)), ` + clock + `
FROM (SELECT last, greatest(due, leased_until) AS due FROM osb_instances WHERE due IS NOT NULL
    UNION ALL SELECT last, greatest(due, leased_until) FROM osb_bound WHERE due IS NOT NULL) AS t`

// OldestDue returns since when the row is due that waits for longest, as platform.Store says.
func (s *Store) OldestDue(ctx context.Context) (due, now time.Time, err error) {
	return s.dueAndNow(ctx, oldestDue)
}

// each calls with each row that a query has returned, unless it has returned an error.
func each(rows *sql.Rows, err error, call func(*sql.Rows) error) error {
	if err != nil {
		return err
	}
	defer rows.Close()
	for rows.Next() {
		if err := call(rows); err != nil {
			return err
		}
	}
	return rows.Err()
}

// array is a parameter with any number of texts.
func array[T ~string](texts []T) any {
	all := pq.StringArray{}
	for _, text := range texts {
		all = append(all, storable(string(text)))
	}
	return all
}

// A condition collects what a query asks for, and its parameters.
type condition struct {
	texts      []string
	parameters *[]any
}

// and adds a text in which $ stands for each value in turn.
func (c *condition) and(text string, values ...any) {
	for _, value := range values {
		*c.parameters = append(*c.parameters, value)
		text = strings.Replace(text, "$", "\x00"+strconv.Itoa(len(*c.parameters)), 1)
	}
	c.texts = append(c.texts, strings.ReplaceAll(text, "\x00", "$"))
}

// List returns rows, as platform.Store says. It is one statement, and so of one time.
func (s *Store) List(ctx context.Context, filter platform.Filter) ([]platform.Entry, error) {
	query, parameters, err := listing(filter)
	if query == "" {
		return []platform.Entry{}, err
	}
	return s.entries(ctx, "WITH p AS MATERIALIZED ("+query+") "+
		"SELECT CASE p.binding WHEN '' THEN "+lineOf("i", false, false)+" ELSE "+lineOf("b", true, false)+" END FROM p "+
		"LEFT JOIN osb_instances AS i ON i.id = p.id AND p.binding = '' "+
		"LEFT JOIN osb_bound AS b ON b.id = p.id AND b.binding = p.binding"+
		orderBy(filter, columnsOf(filter, "p.", true)...), parameters...)
}

// Positions returns the positions of the rows that List returns, as platform.Store says.
func (s *Store) Positions(ctx context.Context, filter platform.Filter) ([]platform.Position, error) {
	query, parameters, err := listing(filter)
	if query == "" {
		return nil, err
	}
	return within(ctx, s, func(*call) (found []platform.Position, err error) {
		rows, err := s.db.QueryContext(ctx, query, parameters...)
		err = each(rows, err, func(rows *sql.Rows) error {
			var state, id, binding string
			var since float64
			if err := rows.Scan(&state, &since, &id, &binding); err != nil {
				return err
			}
			key, err := keyOf(id, binding)
			found = append(found, platform.Position{State: platform.State(state), Since: timeOf(since), Key: key})
			return err
		})
		return found, err
	})
}

var readAll = `
SELECT line FROM (SELECT n, ` + lineOf("t", false, true) + ` AS line
        FROM unnest($1::text[], $2::text[]) WITH ORDINALITY AS k (i, b, n)
        JOIN osb_instances AS t ON t.id = k.i WHERE k.b = ''
    UNION ALL SELECT n, ` + lineOf("t", true, true) + `
        FROM unnest($1::text[], $2::text[]) WITH ORDINALITY AS k (i, b, n)
        JOIN osb_bound AS t ON t.id = k.i AND t.binding = k.b WHERE k.b <> '') AS t
ORDER BY n
`

// ReadAll returns the rows of these keys, as platform.Store says.
func (s *Store) ReadAll(ctx context.Context, keys []platform.Key) ([]platform.Entry, error) {
	instances, bindings := make([]string, len(keys)), make([]string, len(keys))
	for at, key := range keys {
		instances[at] = key.Instance.String()
		if key.IsBinding {
			bindings[at] = key.Binding.String()
		}
	}
	return s.entries(ctx, readAll, array(instances), array(bindings))
}

// A side is one of the two tables of rows: the column of the binding, that of the number, and the key of a row t as
// osb_lives has it.
type side struct {
	isBinding                    bool
	table, binding, number, life string
}

var sides = []side{
	{false, "osb_instances", "''", "id", "t.id"}, {true, "osb_bound", "binding", "binding", "t.id || '/' || t.binding"},
}

// listing is the query of a filter for the positions of its rows, with its parameters: the columns state, since, id and
// binding. It is empty if the filter can choose no row. Errors: platform.ErrNoMoment.
func listing(filter platform.Filter) (query string, parameters []any, err error) {
	past, parts, limit, only := past{}, []string{}, "", "true"
	if filter.AsOf != "" {
		if past, err = pastOf(filter.AsOf); err != nil {
			return "", nil, err
		}
		only = "since < " + past.earliest
	}
	if filter.Most > 0 {
		limit = " LIMIT " + strconv.Itoa(filter.Most)
	}
	for _, of := range sides {
		if filter.Bindings != nil && *filter.Bindings != of.isBinding || filter.Instance != nil && !of.isBinding {
			continue
		}
		for _, states := range statesOf(filter) {
			parts = append(parts, partOf(filter, of, of.table, only, states, &parameters)+limit+")")
		}
		if filter.AsOf != "" {
			parts = append(parts, partOf(filter, of, past.recent(of), "true", filter.States, &parameters)+limit+")")
		}
	}
	if len(parts) == 0 {
		return "", nil, nil
	}
	return "SELECT * FROM (" + strings.Join(parts, " UNION ALL ") + ") AS t" +
		orderBy(filter, columnsOf(filter, "", true)...) + limit, parameters, nil
}

// everyState are all states.
var everyState = []platform.State{
	platform.Abandoned, platform.Cleaning, platform.CleaningPolling, platform.Gone, platform.Ordered, platform.Polling,
	platform.Ready, platform.Unsettled, platform.Wanted, platform.Withdrawn,
}

// statesOf are the states of each part of a query, or nil for all. By state and by time, an index has the rows of each
// state in their order, so each is a part.
func statesOf(filter platform.Filter) [][]platform.State {
	of := filter.States
	if filter.Order == platform.ByTime && len(of) == 0 {
		of = everyState
	}
	if filter.Order == platform.ByKey || len(of) == 0 {
		return [][]platform.State{of}
	}
	states, isThere := [][]platform.State{}, map[platform.State]bool{}
	for _, state := range of {
		if !isThere[state] {
			states, isThere[state] = append(states, []platform.State{state}), true
		}
	}
	return states
}

// partOf is the query of a filter over these rows of a table, with a condition, and over these states, or all if there
// are none.
func partOf(
	filter platform.Filter, of side, rows, only string, states []platform.State, parameters *[]any,
) string {
	number := of.number
	where := condition{texts: []string{only}, parameters: parameters}
	switch {
	case len(states) == 1:
		where.and("state = $", storable(string(states[0])))
	case len(states) > 0:
		where.and("state = ANY($)", array(states))
	}
	if filter.Broker != "" {
		where.and("broker = $", filter.Broker)
	}
	if filter.Instance != nil {
		where.and("id = $", *filter.Instance)
	}
	if filter.Prefix != "" {
		where.and("left("+number+", length($::text)) = $::text", filter.Prefix, filter.Prefix)
		where.and("("+number+" BETWEEN $ AND $ OR "+isOddOrder+")", pad(filter.Prefix, "0"), pad(filter.Prefix, "f"))
	}
	if filter.First != nil {
		first := *filter.First // the first try itself is found by its key, and the others by an index of their own
		where.and("("+number+" = $ AND first = $ OR first = $ AND first <> "+number+")", first, first, first)
	}
	columns := columnsOf(filter, "", of.isBinding)
	if filter.After != nil {
		position := positionOf(filter, of.isBinding)
		where.and("("+strings.Join(columns, ", ")+")"+behind(filter, of.isBinding)+
			"($"+strings.Repeat(", $", len(position)-1)+")", position...)
	}
	return "(SELECT state, since, id, " + of.binding + " AS binding FROM " + rows + " AS t WHERE " +
		strings.Join(where.texts, " AND ") + orderBy(filter, columns...)
}

// columnsOf are the columns of the order of a filter, behind the name of a table with a dot, or nothing.
func columnsOf(filter platform.Filter, of string, hasBinding bool) (columns []string) {
	switch filter.Order {
	case platform.ByKey:
		columns = []string{of + "id"}
	case platform.ByTime:
		columns = []string{of + "since", of + "id"}
	default:
		columns = []string{of + "state", of + "since", of + "id"}
	}
	if hasBinding {
		columns = append(columns, of+"binding")
	}
	return columns
}

// orderBy is the order of a filter, by these columns.
func orderBy(filter platform.Filter, columns ...string) string {
	if filter.Latest {
		return " ORDER BY " + strings.Join(columns, " DESC, ") + " DESC"
	}
	return " ORDER BY " + strings.Join(columns, ", ")
}

// behind compares a row with the position of a filter. In the opposite order, an instance comes behind its bindings.
func behind(filter platform.Filter, isBinding bool) string {
	switch {
	case !filter.Latest:
		return " > "
	case !isBinding && filter.After.Key.IsBinding:
		return " <= "
	}
	return " < "
}

// positionOf are the values of columnsOf at the position of a filter. An instance comes before its bindings.
func positionOf(filter platform.Filter, isBinding bool) (position []any) {
	at := *filter.After
	if filter.Order == platform.ByState {
		position = append(position, string(at.State))
	}
	if filter.Order != platform.ByKey {
		position = append(position, secondsOf(at.Since))
	}
	position = append(position, at.Key.Instance.String())
	switch {
	case isBinding && at.Key.IsBinding:
		position = append(position, at.Key.Binding.String())
	case isBinding:
		position = append(position, "")
	}
	return position
}

// isOddOrder selects whether padded isn't made for the database's order of texts: ICU can compare digits by the value
// of the whole number. The server works it out when it plans a query.
const isOddOrder = "'2' < '10'"

// pad is the first or the last GUID that begins so. Between two GUIDs an index finds those that do, in each order of
// texts in which digits come before letters, whatever that order makes of hyphens (isOddOrder).
func pad(prefix, digit string) string {
	all := strings.NewReplacer("0", digit).Replace("00000000-0000-0000-0000-000000000000")
	prefix = storable(prefix)
	if len(prefix) >= len(all) {
		return prefix
	}
	return prefix + all[len(prefix):]
}
