package sqlite

import (
	"context"
	"database/sql/driver"
	"fmt"
	"strconv"
	"strings"
	"time"

	"pippinterm/internal/sqlitefile"
	"pippinterm/osb"
	"pippinterm/platform"
)

// A connection is one of the file, with its statements. One goroutine at a time uses it.
type connection struct {
	*sqlitefile.Conn
	instances, bindings          table
	known                        knownRows
	counted                      counts // of the transaction
	addCount                     *sqlitefile.Statement
	stay, anyBinding             *sqlitefile.Statement
	removeBindings, wakeInstance *sqlitefile.Statement
	freeInstances, freeBindings  *sqlitefile.Statement
	due                          map[int]*sqlitefile.Statement // by the number of brokers
	lists                        map[string]*sqlitefile.Statement
	life, inFlight, counts       *sqlitefile.Statement
	oldestDue, moment            *sqlitefile.Statement
	brokers, broker              *sqlitefile.Statement
	insertBroker, updateBroker   *sqlitefile.Statement
	dropBroker, brokerUsed       *sqlitefile.Statement
	fingerprint, putFingerprint  *sqlitefile.Statement
	replaceFingerprint           *sqlitefile.Statement
	ready                        *sqlitefile.Statement
}

// A table has the columns of one of the two tables of rows, without its key, and the statements. state are the columns
// that change.
type table struct {
	name, key                    string // key is the condition for the row of a key
	row, state                   entryColumns
	read, readBriefly, readAhead *sqlitefile.Statement
	insert, postpone             *sqlitefile.Statement
	updates                      map[uint64]update // by the set of columns, by their indexes in state
}

// An update sets columns of a row.
type update struct {
	columns   entryColumns
	statement *sqlitefile.Statement
}

// The tables of rows, and the condition for the row of a key.
const (
	instancesTable, instanceKey = "osb_instances", "id = ?"
	bindingsTable, bindingKey   = "osb_bindings", "instance = ? AND id = ?"
)

func newTable(name, key string, isBinding bool) table {
	return table{
		name: name, key: key, row: rowColumns.Of(isBinding), state: stateColumns.Of(isBinding),
		updates: map[uint64]update{},
	}
}

// mostUpdates is how many sets of columns have a statement of their own. The others share that of all columns.
const mostUpdates = 64

// update returns what sets the columns that differ between two entries, at least one. With fewer columns, fewer indexes
// are written.
func (t *table) update(conn *sqlitefile.Conn, before, after *platform.Entry) (update, error) {
	set := uint64(0)
	for at, column := range t.state {
		if column.Differs(before, after) {
			set |= 1 << at
		}
	}
	found, isThere := t.updates[set]
	if !isThere && len(t.updates) >= mostUpdates {
		set = 1<<len(t.state) - 1
		found, isThere = t.updates[set]
	}
	if isThere {
		return found, nil
	}
	for at, column := range t.state {
		if set>>at&1 == 1 {
			found.columns = append(found.columns, column)
		}
	}
	var err error
	found.statement, err = conn.Prepare(context.Background(), updating(t.name, t.key, found.columns.Names()))
	if err == nil {
		t.updates[set] = found
	}
	return found, err
}

// prepare prepares the statements for a connection.
func prepare(ctx context.Context, conn *sqlitefile.Conn) (*connection, error) {
	c := &connection{
		Conn: conn, due: map[int]*sqlitefile.Statement{}, lists: map[string]*sqlitefile.Statement{},
		instances: newTable(instancesTable, instanceKey, false), bindings: newTable(bindingsTable, bindingKey, true),
	}
	for _, texts := range []map[**sqlitefile.Statement]string{c.ofRows(), c.ofOthers(), c.ofReading(), c.ofBrokers()} {
		for to, text := range texts {
			var err error
			if *to, err = conn.Prepare(ctx, text); err != nil {
				return nil, err
			}
		}
	}
	return c, c.known.Prepare(ctx, conn)
}

// ofRows are the statements of one row.
func (c *connection) ofRows() map[**sqlitefile.Statement]string {
	const ofInstance, ofOne = " FROM " + instancesTable + " WHERE " + instanceKey, " FROM " + bindingsTable + " WHERE " + bindingKey
	return map[**sqlitefile.Statement]string{
		&c.instances.read: "SELECT " + lineOf(false, false) + ofInstance,
		&c.bindings.read:  "SELECT " + lineOf(true, false) + ofOne,

		&c.instances.readBriefly: "SELECT " + lineOf(false, true) + ofInstance,
		&c.bindings.readBriefly:  "SELECT " + lineOf(true, true) + ofOne,

		&c.instances.readAhead: aheadText(instancesTable, false),
		&c.bindings.readAhead:  aheadText(bindingsTable, true),

		&c.instances.insert: inserting(instancesTable, append(c.instances.row.Names(), "id")...),
		&c.bindings.insert:  inserting(bindingsTable, append(c.bindings.row.Names(), "instance", "id")...),

		&c.instances.postpone: updating(instancesTable, instanceKey, []string{"due"}),
		&c.bindings.postpone:  updating(bindingsTable, bindingKey, []string{"due"}),
	}
}

// aheadText is the text of a statement that reads the rows of a table with these numbers, which are an array of JSON, one
// after another.
func aheadText(table string, isBinding bool) string {
	return "SELECT " + lineOf(isBinding, false) + " FROM (SELECT value FROM json_each(?)) CROSS JOIN " + table +
		" ON " + table + ".rowid = value"
}

// earlier is when a row is due that is due at the time ?1 at the latest.
const earlier = "min(coalesce(due, ?1), ?1)"

// ofOthers are the statements of what is written or asked beside a row.
func (c *connection) ofOthers() map[**sqlitefile.Statement]string {
	free := " SET worker = NULL, leased_until = NULL, due = " + earlier + " WHERE worker = ?2"
	return map[**sqlitefile.Statement]string{
		// with SELECT in place of VALUES, SQLite would note what it has to undo if one of many rows fails
		&c.stay: "INSERT INTO osb_lives (id, number, state, since) VALUES (?1, " +
			"(SELECT coalesce(max(number), 0) + 1 FROM osb_lives WHERE id = ?1), ?2, ?3)",
		&c.addCount: "INSERT INTO osb_counts VALUES (?, ?, ?, ?) " +
			"ON CONFLICT (broker, is_binding, state) DO UPDATE SET count = count + excluded.count",
		&c.anyBinding: "SELECT 1 FROM osb_bindings WHERE instance = ? AND may_exist LIMIT 1",
		&c.removeBindings: fmt.Sprintf("UPDATE osb_bindings SET removal = max(removal, %d), due = %s "+
			"WHERE instance = ?2 AND state NOT IN ('%s', '%s', '%s')",
			platform.Removed, earlier, platform.Gone, platform.Withdrawn, platform.Abandoned),
		&c.wakeInstance:  "UPDATE osb_instances SET due = " + earlier + " WHERE id = ?2 AND removal <> 0",
		&c.freeInstances: "UPDATE osb_instances" + free,
		&c.freeBindings:  "UPDATE osb_bindings" + free,
		&c.fingerprint:   "SELECT fingerprint FROM osb_store",
		&c.putFingerprint: "INSERT INTO osb_store VALUES (1, ?) ON CONFLICT (one) DO UPDATE " +
			"SET fingerprint = excluded.fingerprint WHERE fingerprint IS NULL",
		&c.replaceFingerprint: "UPDATE osb_store SET fingerprint = ? WHERE fingerprint = ?",
		&c.ready:              "INSERT INTO osb_readiness VALUES (1, ?) ON CONFLICT (one) DO UPDATE SET asked = excluded.asked",
	}
}

// dueSince is since when a row is due. It reads what the column last has, also of a row that can't be read.
const dueSince = "coalesce(CASE WHEN json_valid(last) THEN json_extract(last, '$.due_since') / 1000.0 END, " +
	"max(due, coalesce(leased_until, due)))"

// ofReading are the statements that read for people.
func (c *connection) ofReading() map[**sqlitefile.Statement]string {
	oldest := func(table string) string {
		return "(SELECT min(since) FROM " + table + " AS r WHERE r.broker = counts.broker AND r.state = counts.state)"
	}
	return map[**sqlitefile.Statement]string{
		&c.life:   "SELECT state, since FROM osb_lives WHERE id = ? ORDER BY number",
		&c.moment: "SELECT coalesce(max(rowid), 0) FROM osb_lives",
		&c.inFlight: "SELECT leased_until, id, '' FROM osb_instances WHERE worker IS NOT NULL UNION ALL " +
			"SELECT leased_until, instance, id FROM osb_bindings WHERE worker IS NOT NULL ORDER BY 1, 2, 3 LIMIT ?",
		&c.counts: "SELECT broker, is_binding, state, count, CASE is_binding WHEN 0 THEN " + oldest("osb_instances") +
			" ELSE " + oldest("osb_bindings") + " END FROM osb_counts AS counts WHERE count > 0",
		&c.oldestDue: "SELECT min(due) FROM (" +
			"SELECT " + dueSince + " AS due FROM osb_instances INDEXED BY osb_instances_to_do WHERE due IS NOT NULL " +
			"UNION ALL SELECT " + dueSince + " FROM osb_bindings INDEXED BY osb_bindings_to_do WHERE due IS NOT NULL)",
	}
}

// ofBrokers are the statements of brokers.
func (c *connection) ofBrokers() map[**sqlitefile.Statement]string {
	columns := brokerColumns.Names()
	return map[**sqlitefile.Statement]string{
		&c.brokers:      "SELECT " + join(columns) + " FROM osb_brokers ORDER BY name",
		&c.broker:       "SELECT " + join(columns) + " FROM osb_brokers WHERE name = ?",
		&c.insertBroker: inserting("osb_brokers", columns...),
		&c.updateBroker: updating("osb_brokers", "name = ?", columns[1:]),
		&c.dropBroker:   "DELETE FROM osb_brokers WHERE name = ?",
		&c.brokerUsed: "SELECT 1 FROM osb_instances WHERE broker = ?1 UNION ALL " +
			"SELECT 1 FROM osb_bindings WHERE broker = ?1 LIMIT 1",
	}
}

// of is the table of a key.
func (c *connection) of(key platform.Key) *table {
	if key.IsBinding {
		return &c.bindings
	}
	return &c.instances
}

// entry reads a row, unless it is known. It must not be changed. Errors: platform.ErrUnknown; that the row can't be read.
func (c *connection) entry(key platform.Key) (*platform.Entry, error) {
	if known := c.known.of(key); known != nil {
		return known, nil
	}
	entry, err := readBy(c.of(key).read, entryOf, key)
	return &entry, err
}

// show reads a row to show it (shownOf). Errors: platform.ErrUnknown.
func (c *connection) show(key platform.Key) (platform.Entry, error) {
	return readBy(c.of(key).read, shownOf, key)
}

// showBriefly is show without the columns that may be long.
func (c *connection) showBriefly(key platform.Key) (platform.Entry, error) {
	return readBy(c.of(key).readBriefly, shownOf, key)
}

func readBy(
	statement *sqlitefile.Statement, read func([]driver.Value) (platform.Entry, error), key platform.Key,
) (platform.Entry, error) {
	values, err := statement.One(keyValues(key)...)
	if err != nil {
		return platform.Entry{}, err
	}
	if values == nil {
		return platform.Entry{}, platform.ErrUnknown
	}
	return read(values)
}

// readSnapshot reads a row, and what a step gets of it. The row must not be changed.
func (c *connection) readSnapshot(key platform.Key) (before *platform.Entry, snapshot platform.Snapshot, err error) {
	if before, err = c.entry(key); err != nil {
		return nil, snapshot, err
	}
	snapshot.Entry = *before
	if key.IsBinding {
		snapshot.Instance, err = c.instance(key)
		return before, snapshot, err
	}
	snapshot.AllGone = func() (bool, error) {
		row, err := c.anyBinding.One(key.Instance.String())
		return row == nil && err == nil, err
	}
	return before, snapshot, nil
}

// instance reads the row of a binding's instance.
func (c *connection) instance(key platform.Key) (*platform.Entry, error) {
	entry, err := c.entry(osb.InstanceKey(key.Instance))
	if err != nil {
		return nil, fmt.Errorf("the instance of %v: %w", key, err)
	}
	instance := *entry // a step may change it
	return &instance, nil
}

// insert writes a new row. Errors: platform.ErrUsed, and then nothing was written.
func (c *connection) insert(entry platform.Entry) error {
	table := c.of(entry.Key)
	values, err := valuesOf(&entry, table.row)
	if err != nil {
		return err
	}
	rows, err := table.insert.Run(append(values, keyValues(entry.Key)...)...)
	if err != nil {
		return err
	}
	if rows == 0 {
		return platform.ErrUsed
	}
	c.counted.add(&entry.Order, entry.State, rows)
	return nil
}

// isOne reports whether a change is one statement, which needs nothing else to be undone.
func isOne(before *platform.Entry, change *platform.Change) bool {
	return change.Next == nil && before.State == change.Entry.State && !change.RemoveBindings && !change.WakeInstance
}

// write writes a change of a row. If it fails, a part of it may be written, which the caller undoes.
func (c *connection) write(now time.Time, before *platform.Entry, change *platform.Change) error {
	if change.Next != nil {
		if err := c.insert(*change.Next); err != nil {
			return fmt.Errorf("the next order, %v: %w", change.Next.Key, err)
		}
	}
	key, after := before.Key, change.Entry
	after.Order = before.Order // it never changes
	if before.State != after.State {
		if _, err := c.stay.Run(key.String(), string(before.State), seconds(before.Since)); err != nil {
			return err
		}
	}
	update, err := c.of(key).update(c.Conn, before, &after)
	if err != nil {
		return err
	}
	values, err := valuesOf(&after, update.columns)
	if err != nil {
		return err
	}
	if _, err := update.statement.Run(append(values, keyValues(key)...)...); err != nil {
		return err
	}
	if before.State != after.State {
		c.counted.add(&before.Order, before.State, -1)
		c.counted.add(&before.Order, after.State, 1)
	}
	c.known.keep(&after)
	return c.writeBeside(now, key, change)
}

// writeBeside writes what a change of a row has for other rows.
func (c *connection) writeBeside(now time.Time, key platform.Key, change *platform.Change) error {
	if change.RemoveBindings {
		c.known.forgetAll()
		if _, err := c.removeBindings.Run(seconds(now), key.Instance.String()); err != nil {
			return err
		}
	}
	if change.WakeInstance {
		c.known.forget(osb.InstanceKey(key.Instance))
		if _, err := c.wakeInstance.Run(seconds(now), key.Instance.String()); err != nil {
			return err
		}
	}
	return nil
}

// keysDue returns when rows of these brokers are due, and their keys: those that are due until the time, and that
// nobody has leased now, at most so many, the longest due first.
func (c *connection) keysDue(brokers []string, until, now driver.Value, most int) (found []dueKey, err error) {
	for len(brokers) > 0 && err == nil {
		count := len(brokers)
		if count > brokersAtOnce {
			count = brokersAtOnce
		}
		var statement *sqlitefile.Statement
		if statement, err = c.dueOf(count); err != nil {
			return nil, err
		}
		values := []driver.Value{until, now, int64(most)}
		for _, broker := range brokers[:count] {
			values = append(values, broker)
		}
		brokers = brokers[count:]
		err = statement.Each(values, func(values []driver.Value) error {
			r := &row{values: values}
			it := dueKey{at: r.at(), key: r.keyOfTexts(), row: r.number()}
			found = append(found, it)
			return r.err
		})
	}
	return longestDue(found, most), err
}

// readAhead reads the rows of these keys that aren't known, and have no error, each table's by one query. The error of a
// row that can't be read is that of its claim, and the rows behind it are read by another query.
func (c *connection) readAhead(due []dueKey, claimed []platform.ClaimedRow) {
	for _, table := range []*table{&c.instances, &c.bindings} {
		var unread []int
		for n, it := range due {
			if c.of(it.key) == table && claimed[n].Err == nil && c.known.of(it.key) == nil {
				unread = append(unread, n)
			}
		}
		for len(unread) > 0 {
			read := 0
			err := table.readAhead.Each([]driver.Value{numbersOf(due, unread)}, func(values []driver.Value) error {
				entry, err := entryOf(values)
				claimed[unread[read]].Err = err
				read++
				if err == nil {
					c.known.ahead[entry.Key] = &entry
				}
				return nil
			})
			if err == nil {
				break
			}
			if read == len(unread) {
				read-- // it has failed behind its last row
			}
			claimed[unread[read]].Err = err
			unread = unread[read+1:]
		}
	}
}

// numbersOf are the numbers of some of these rows, as an array of JSON.
func numbersOf(due []dueKey, of []int) string {
	text := []byte{'['}
	for at, n := range of {
		if at > 0 {
			text = append(text, ',')
		}
		text = strconv.AppendInt(text, due[n].row, 10)
	}
	return string(append(text, ']'))
}

// keyOfTexts is a key whose binding is an empty text for an instance.
func (r *row) keyOfTexts() platform.Key {
	if r.values[1] == "" {
		r.values[1] = nil
	}
	return r.key()
}

// brokersAtOnce is how many brokers one statement asks for: SQLite takes no more than 500 parts.
const brokersAtOnce = 100

// dueOf is the statement for so many brokers.
func (c *connection) dueOf(count int) (*sqlitefile.Statement, error) {
	if statement := c.due[count]; statement != nil {
		return statement, nil
	}
	statement, err := c.Prepare(context.Background(), dueText(count))
	if err == nil {
		c.due[count] = statement
	}
	return statement, err
}

// dueText is the text of that statement. Each of its parts reads an index from its beginning.
func dueText(count int) string {
	var parts []string
	for n := 0; n < count; n++ {
		for _, pair := range [][2]string{{"osb_instances", "id, '', rowid"}, {"osb_bindings", "instance, id, rowid"}} {
			parts = append(parts, fmt.Sprintf("SELECT * FROM (SELECT due, %s FROM %s INDEXED BY %s_to_do "+
				"WHERE broker = ?%d AND due IS NOT NULL AND due <= ?1 AND (leased_until IS NULL OR leased_until < ?2) "+
				"ORDER BY due LIMIT ?3)", pair[1], pair[0], pair[0], n+4))
		}
	}
	return strings.Join(parts, " UNION ALL ") + " ORDER BY 1, 2, 3 LIMIT ?3"
}
