package sqlite

import (
	"context"
	"database/sql/driver"
	"encoding/json"
	"errors"
	"fmt"
	"time"

	"pippinterm/broker"
	"pippinterm/broker/texts"
	"pippinterm/internal/sqlitefile"
	"pippinterm/osb"
)

// A connection is one of SQLite, with its statements. One goroutine at a time uses it.
type connection struct {
	*sqlitefile.Conn
	readInstance, putInstance *sqlitefile.Statement
	readBinding, putBinding   *sqlitefile.Statement
	anyBinding                *sqlitefile.Statement
	texts                     texts.Memory // of the holdings
	known                     knownRows
}

// The columns of an entry. The driver makes a text of the declared type of each column, for each row: what has a + before
// it has none. As a BLOB, a text is copied once less.
const entryColumns = "+holding, CAST(request AS BLOB), +description, +since, +life, +ended, +worker"

// prepare prepares the statements for a connection.
func prepare(ctx context.Context, conn *sqlitefile.Conn) (*connection, error) {
	c := &connection{Conn: conn}
	for to, text := range map[**sqlitefile.Statement]string{
		&c.readInstance: "SELECT " + entryColumns + ", CAST(change AS BLOB) FROM holdings WHERE id = ?",
		&c.putInstance: "INSERT INTO holdings (id, holding, unfinished, request, description, since, life, ended, " +
			"worker, change) VALUES (?, ?, ?, CAST(? AS TEXT), ?, ?, ?, ?, ?, CAST(? AS TEXT)) " +
			"ON CONFLICT (id) DO UPDATE SET holding = excluded.holding, " +
			"unfinished = excluded.unfinished, request = excluded.request, description = excluded.description, " +
			"since = excluded.since, life = excluded.life, ended = excluded.ended, worker = excluded.worker, " +
			"change = excluded.change",
		&c.readBinding: "SELECT " + entryColumns + ", CAST(object AS BLOB) FROM bindings " +
			"WHERE instance = ? AND binding = ?",
		&c.putBinding: "INSERT INTO bindings (instance, binding, holding, unfinished, request, description, since, " +
			"life, ended, worker, object, held) VALUES (?, ?, ?, ?, CAST(? AS TEXT), ?, ?, ?, ?, ?, CAST(? AS TEXT), ?) " +
			"ON CONFLICT (instance, binding) DO UPDATE SET holding = excluded.holding, " +
			"unfinished = excluded.unfinished, request = excluded.request, description = excluded.description, " +
			"since = excluded.since, life = excluded.life, ended = excluded.ended, worker = excluded.worker, " +
			"object = excluded.object, held = excluded.held",
		&c.anyBinding: "SELECT 1 FROM bindings WHERE instance = ? AND held LIMIT 1",
	} {
		var err error
		if *to, err = conn.Prepare(ctx, text); err != nil {
			return nil, err
		}
	}
	if err := c.known.Prepare(ctx, conn); err != nil {
		return nil, err
	}
	return c, sqlitefile.Patiently(ctx, func() error { _, err := c.snapshot(broker.Key{}); return err })
}

// snapshot reads what is kept of a key, and for a binding what is held of its instance.
func (c *connection) snapshot(key broker.Key) (snapshot broker.Snapshot, err error) {
	if !key.IsBinding {
		snapshot.Entry, snapshot.EndedAgo, err = c.instance(key.Instance)
		snapshot.AnyBinding = func() (bool, error) {
			row, err := one(c.anyBinding, key.Instance.String())
			return row != nil, err
		}
		return snapshot, err
	}
	if snapshot.Instance, _, err = c.instance(key.Instance); err != nil {
		return snapshot, err
	}
	if known := c.known.Of(key); known != nil {
		snapshot.Entry = *known
		return snapshot, nil
	}
	row, err := one(c.readBinding, key.Instance.String(), key.Binding.String())
	if err != nil || row == nil {
		return snapshot, err
	}
	if snapshot.Entry, err = c.entry(row, true); err != nil {
		return snapshot, unreadable{fmt.Errorf("sqlite: what is held of %v: %w", key, err)}
	}
	snapshot.EndedAgo = ago(row[5])
	snapshot.Entry.Binding = optional(row[7])
	return snapshot, nil
}

// unreadable is the error of a row that was found, and that can't be read.
type unreadable struct{ error }

func (u unreadable) Unwrap() error { return u.error }

// instance reads what is kept of an instance, and how long ago it has ended.
func (c *connection) instance(id osb.ID) (entry broker.Entry, endedAgo time.Duration, err error) {
	if known := c.known.Of(osb.InstanceKey(id)); known != nil {
		return *known, 0, nil
	}
	row, err := one(c.readInstance, id.String())
	if err != nil || row == nil {
		return entry, 0, err
	}
	if entry, err = c.entry(row, false); err == nil {
		entry.Change, err = broker.ChangeOfText(optional(row[7]))
	}
	if err != nil {
		return entry, 0, unreadable{fmt.Errorf("sqlite: what is held of %v: %w", id, err)}
	}
	return entry, ago(row[5]), nil
}

// ago is how long ago the time of a column was, by the clock of this machine: all processes are on it. It is 0 if the
// column is NULL, and if the time is in the future.
func ago(column driver.Value) time.Duration {
	at, ok := column.(int64)
	if !ok {
		return 0
	}
	if since := time.Since(time.UnixMilli(at)); since > 0 {
		return since
	}
	return 0
}

// entry reads the columns holding, request, description, since, life and worker.
func (c *connection) entry(row []driver.Value, isBinding bool) (entry broker.Entry, err error) {
	text, ok := row[0].(string) // nil if the driver has lost an error
	if !ok {
		return entry, errors.New("the column holding has no text")
	}
	if entry.Holding, err = c.texts.Holding(isBinding, text); err != nil {
		return entry, err
	}
	entry.Request = optional(row[1])
	if description, ok := row[2].(string); ok {
		entry.Description = description
	}
	if since, ok := row[3].(int64); ok {
		entry.Since = time.UnixMilli(since).UTC()
	}
	entry.Life, _ = row[4].(int64)
	if row[6] == nil {
		return entry, nil
	}
	number, ok := row[6].([]byte)
	if !ok || len(number) != len(entry.Worker) {
		return entry, fmt.Errorf("the column worker has no BLOB of %d bytes", len(entry.Worker))
	}
	copy(entry.Worker[:], number)
	return entry, nil
}

// optional is the JSON of a column that is read as a BLOB, or nil if it is NULL.
func optional(column driver.Value) json.RawMessage {
	text, _ := column.([]byte)
	return text
}

// put writes what is kept of a key.
func (c *connection) put(key broker.Key, entry broker.Entry) error {
	if !c.InTransaction() {
		return fmt.Errorf("sqlite: %w", sqlitefile.ErrBroken)
	}
	c.known.Forget(key)
	text, err := c.texts.Text(key.IsBinding, entry.Holding)
	if err != nil {
		return err
	}
	change, err := entry.Change.Text()
	if err != nil {
		return err
	}
	isUnfinished := entry.IsUnfinished()
	var description, since, ended, worker driver.Value
	if entry.Description != "" {
		description = entry.Description
	}
	if !entry.Since.IsZero() {
		since = entry.Since.UnixMilli()
	}
	if entry.Holding.HasTombstone() {
		ended = time.Now().UnixMilli()
	}
	if number := entry.Worker; number != (osb.ID{}) {
		worker = number[:]
	}
	values := append(make([]driver.Value, 0, 12), key.Instance.String())
	if key.IsBinding {
		values = append(values, key.Binding.String())
	}
	values = append(values,
		text, isUnfinished, []byte(entry.Request), description, since, entry.Life, ended, worker)
	if key.IsBinding {
		_, err = c.putBinding.Run(append(values, []byte(entry.Binding), entry.Holding.IsHeld())...)
	} else {
		_, err = c.putInstance.Run(append(values, []byte(change))...)
	}
	if err != nil {
		return fmt.Errorf("sqlite: %w", err)
	}
	if isUnfinished && ended == nil {
		c.known.keep(key, entry)
	}
	return nil
}

// one is the first row of a query, or nil if there is none.
func one(query *sqlitefile.Statement, arguments ...driver.Value) ([]driver.Value, error) {
	row, err := query.One(arguments...)
	if err != nil {
		return nil, fmt.Errorf("sqlite: %w", err)
	}
	return row, nil
}

// listBindings lists the bindings of an instance that are held.
func (c *connection) listBindings(instance osb.ID) (ids []osb.ID, err error) {
	err = c.each("SELECT binding FROM bindings WHERE instance = ? AND held", func(row []driver.Value) error {
		var id osb.ID
		if err := id.Scan(row[0]); err != nil {
			return err
		}
		ids = append(ids, id)
		return nil
	}, instance.String())
	return ids, err
}

// each calls with each row of a query.
func (c *connection) each(query string, call func(row []driver.Value) error, arguments ...driver.Value) error {
	if err := c.Each(query, arguments, call); err != nil {
		return fmt.Errorf("sqlite: %w", err)
	}
	return nil
}

func (c *connection) exec(statement string, arguments ...driver.Value) error {
	if err := c.Exec(statement, arguments...); err != nil {
		return fmt.Errorf("sqlite: %w", err)
	}
	return nil
}
