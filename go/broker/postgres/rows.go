package postgres

import (
	"context"
	"database/sql"
	"encoding/json"
	"errors"
	"fmt"
	"strings"
	"time"

	"pippinterm/broker"
	"pippinterm/broker/texts"
	"pippinterm/internal/pg"
	"pippinterm/osb"
)

// A row has the columns of an entry. All are NULL if there is no row.
type row struct {
	holding, request, object, description sql.NullString
	worker, change                        sql.NullString
	since                                 sql.NullTime
	life                                  sql.NullInt64
	endedAgo                              sql.NullFloat64 // in seconds
}

// into are the variables to scan the columns into.
func (r *row) into(more ...any) []any {
	return append([]any{
		&r.holding, &r.request, &r.object, &r.description, &r.since, &r.life, &r.worker, &r.change, &r.endedAgo,
	}, more...)
}

// entry is what the row has, or the zero Entry if there is no row.
func (r *row) entry(known *texts.Memory, key broker.Key) (entry broker.Entry, err error) {
	if !r.holding.Valid {
		return entry, nil
	}
	if entry.Holding, err = known.Holding(key.IsBinding, r.holding.String); err != nil {
		return broker.Entry{}, fmt.Errorf("what is held of %v: %w", key, err)
	}
	entry.Request, entry.Binding = raw(r.request), raw(r.object)
	entry.Description = r.description.String
	if r.since.Valid {
		entry.Since = r.since.Time.UTC()
	}
	entry.Life = r.life.Int64
	if entry.Change, err = broker.ChangeOfText(raw(r.change)); err != nil {
		return broker.Entry{}, fmt.Errorf("what is held of %v: %w", key, err)
	}
	if r.worker.Valid {
		err = entry.Worker.Scan(r.worker.String)
	}
	return entry, err
}

// snapshot is what the row has, and how long ago its tombstone was written.
func (r *row) snapshot(known *texts.Memory, key broker.Key) (snapshot broker.Snapshot, err error) {
	if snapshot.Entry, err = r.entry(known, key); err == nil && r.endedAgo.Float64 > 0 {
		snapshot.EndedAgo = time.Duration(r.endedAgo.Float64 * float64(time.Second))
	}
	return snapshot, err
}

// scanRow returns what the only row of a query has, and whether there is one.
func scanRow(known *texts.Memory, key broker.Key, from *sql.Row) (broker.Snapshot, bool, error) {
	var it row
	err := from.Scan(it.into()...)
	if errors.Is(err, sql.ErrNoRows) {
		return broker.Snapshot{}, false, nil
	}
	if err != nil {
		return broker.Snapshot{}, false, err
	}
	snapshot, err := it.snapshot(known, key)
	return snapshot, true, err
}

func raw(text sql.NullString) json.RawMessage {
	if !text.Valid {
		return nil
	}
	return json.RawMessage(text.String)
}

// orNull is JSON as a column has it.
func orNull(text json.RawMessage) sql.NullString {
	return sql.NullString{String: storable(string(text)), Valid: text != nil}
}

func numberOrNull(number osb.ID) sql.NullString {
	return sql.NullString{String: number.String(), Valid: number != osb.ID{}}
}

func timeOrNull(at time.Time) sql.NullTime { return sql.NullTime{Time: at.UTC(), Valid: !at.IsZero()} }

// storable is a text that a column of PostgreSQL has: others would be rejected with each try, and their work would
// never end. Bytes that aren't UTF-8, and NUL, become U+FFFD, as encoding/json reads the former too.
func storable(text string) string {
	return strings.ReplaceAll(strings.ToValidUTF8(text, "\uFFFD"), "\x00", "\uFFFD")
}

// Read returns what is committed: the server shows nothing that isn't on its disk.
func (s *Store) Read(outer context.Context, key broker.Key) (snapshot broker.Snapshot, err error) {
	err = s.callReading(outer, func(ctx context.Context, statements statementSet) error {
		if key.IsBinding {
			snapshot, err = s.readHeldBinding(ctx, statements[readBinding], key)
			return err
		}
		snapshot, _, err = scanRow(&s.texts, key, statements[findInstance].QueryRowContext(ctx, key.Instance))
		snapshot.AnyBinding = func() (is bool, err error) {
			err = s.callReading(outer, func(ctx context.Context, statements statementSet) error {
				return statements[anyBinding].QueryRowContext(ctx, key.Instance).Scan(&is)
			})
			return is, err
		}
		return err
	})
	return snapshot, err
}

// callReading calls with the prepared statements, for those that are transactions of their own. A server that doesn't
// answer isn't waited for longer than pg.Answer: its sessions would be used up.
func (s *Store) callReading(ctx context.Context, call func(context.Context, statementSet) error) error {
	return s.query(func(*sql.DB) error {
		within, cancel := pg.Within(ctx, pg.Answer)
		defer cancel()
		statements, err := s.statements(within)
		if err == nil {
			err = call(within, statements)
		}
		return pg.AsNoAnswer(ctx, err)
	})
}

func (s *Store) readHeldBinding(
	ctx context.Context, reading *sql.Stmt, key broker.Key,
) (snapshot broker.Snapshot, err error) {
	var it, instance row
	found := reading.QueryRowContext(ctx, key.Instance, key.Binding)
	if err := found.Scan(it.into(instance.into()...)...); err != nil {
		return snapshot, err
	}
	if snapshot, err = it.snapshot(&s.texts, key); err != nil {
		return snapshot, err
	}
	snapshot.Instance, err = instance.entry(&s.texts, osb.InstanceKey(key.Instance))
	return snapshot, err
}

const unfinished = `
SELECT id, NULL::uuid FROM osb_holdings WHERE unfinished
UNION ALL SELECT instance, binding FROM osb_bindings WHERE unfinished
`

// UnfinishedKeys returns the keys whose Entry is unfinished, in no order.
func (s *Store) UnfinishedKeys(ctx context.Context) (keys []broker.Key, err error) {
	err = s.each(ctx, unfinished, nil, func(rows *sql.Rows) error {
		var instance osb.ID
		var binding sql.NullString
		if err := rows.Scan(&instance, &binding); err != nil {
			return err
		}
		if !binding.Valid {
			keys = append(keys, osb.InstanceKey(instance))
			return nil
		}
		id, err := osb.ParseID(binding.String)
		keys = append(keys, osb.BindingKey(instance, id))
		return err
	})
	return keys, err
}

// HeldBindings returns the bindings of an instance that are held, in no order.
func (s *Store) HeldBindings(ctx context.Context, instance osb.ID) (ids []osb.ID, err error) {
	const held = "SELECT binding FROM osb_bindings WHERE instance = $1 AND held"
	within, cancel := pg.Within(ctx, pg.Answer)
	defer cancel()
	err = s.each(within, held, []any{instance}, func(rows *sql.Rows) error {
		var id osb.ID
		err := rows.Scan(&id)
		ids = append(ids, id)
		return err
	})
	return ids, away(pg.AsNoAnswer(ctx, err))
}

// each calls with each row of a query.
func (s *Store) each(ctx context.Context, query string, arguments []any, call func(*sql.Rows) error) error {
	return s.query(func(db *sql.DB) error {
		rows, err := db.QueryContext(ctx, query, arguments...)
		if err != nil {
			return err
		}
		defer rows.Close()
		for rows.Next() {
			if err := call(rows); err != nil {
				return err
			}
		}
		return rows.Err()
	})
}

// Partial indexes have the rows that are unfinished. The phase of updates is taken from the text as it is written, since
// PostgreSQL reads no JSON with \u0000 in it, which parameters may have.
const unfinishedStats = `
WITH unfinished AS (
    SELECT holding::json, substring(change FROM '^{"holding":{"number":[0-9]+,"phase":"([a-z]+)"') AS updates, since
    FROM osb_holdings WHERE unfinished
    UNION ALL SELECT holding::json, NULL, since FROM osb_bindings WHERE unfinished)
SELECT count(*) FILTER (WHERE holding ->> 'work' IS NOT NULL OR updates IN ('pending', 'mending')),
    count(*) FILTER (WHERE holding #>> '{row,phase}' IN ('making', 'deleting') OR updates = 'updating'),
    count(*) FILTER (WHERE holding #>> '{row,phase}' = 'waiting'),
    min(since)
FROM unfinished
`

// Texts of holdings have no spaces: docs/instance.md. Before 0.3.0 a tombstone was written as marked.
const tombstones = `
SELECT (SELECT count(*) FROM osb_holdings
        WHERE NOT unfinished AND (holding LIKE '%"tombstone":true%' OR holding LIKE '%"marked":true%'))
    + (SELECT count(*) FROM osb_bindings WHERE NOT held AND holding LIKE '%"tombstone":true%')
`

// Stats counts what is kept. It counts the tombstones over all rows, which takes some tenths of a second for a million.
func (s *Store) Stats(ctx context.Context) (broker.Stats, error) {
	counted, err := s.UnfinishedStats(ctx)
	if err != nil {
		return counted, err
	}
	err = s.query(func(db *sql.DB) error {
		return db.QueryRowContext(ctx, tombstones).Scan(&counted.Tombstones)
	})
	return counted, err
}

// UnfinishedStats returns Stats without Tombstones. It reads only the rows that are unfinished.
func (s *Store) UnfinishedStats(ctx context.Context) (counted broker.Stats, err error) {
	var oldest sql.NullTime
	err = s.query(func(db *sql.DB) error {
		return db.QueryRowContext(ctx, unfinishedStats).Scan(
			&counted.Pending, &counted.Operating, &counted.Waiting, &oldest)
	})
	if err == nil && oldest.Valid {
		counted.Oldest = oldest.Time.UTC()
	}
	return counted, err
}

// Ready returns nil if a row can be read and one can be written. The store needs a name by then (Begin).
func (s *Store) Ready(ctx context.Context) error {
	if _, err := s.Read(ctx, broker.Key{}); err != nil {
		return err
	}
	return s.transaction(ctx, nil, func(tx *sql.Tx) (bool, error) {
		done, err := tx.ExecContext(ctx, "UPDATE osb_store SET is_tied = is_tied")
		if err != nil {
			return false, err
		}
		if count, err := done.RowsAffected(); err != nil || count != 1 {
			return false, either(err, errors.New("the store has no name yet"))
		}
		return true, nil
	})
}

// either is the first error that isn't nil.
func either(first, second error) error {
	if first != nil {
		return first
	}
	return second
}

// Change is one transaction over the row of a key, as broker.Store says. The locks are always taken in one order: the
// row of the instance (for a binding FOR SHARE), the row of the binding. So no two changes wait for each other.
//
// If the row of an instance is missing, it is inserted, also by the Change of a binding: otherwise there would be no
// row to lock, and a Change of the instance could run beside. Another transaction that inserts the same row waits until
// this one ends. So no Change of an instance runs beside one of its bindings, whether the instance has a row or not. If
// step writes nothing, the inserted row is rolled back. A row that was inserted for a binding has the zero Holding.
//
// Errors: those of step, the context's and the server's; and ErrUnknownCommit if nobody knows whether the change is
// written. After any other error it isn't. A panic of step is an error. If the server can't be used now, the error is
// broker.ErrAway too.
func (s *Store) Change(ctx context.Context, key broker.Key, step broker.Step) error {
	statements, err := s.preparedFor(ctx)
	if err != nil {
		return away(err)
	}
	return s.transaction(ctx, &key, func(tx *sql.Tx) (bool, error) {
		it := change{ctx: ctx, tx: tx, statements: statements, texts: &s.texts, key: key}
		snapshot, err := it.lock()
		if err != nil {
			return false, err
		}
		next, err := step(snapshot)
		if err != nil || next == nil {
			return false, err
		}
		return true, it.write(*next)
	})
}

// A change is one transaction.
type change struct {
	ctx        context.Context
	tx         *sql.Tx
	statements statementSet
	texts      *texts.Memory
	key        broker.Key
}

// statement is the statement of a text in the transaction.
func (c change) statement(text string) *sql.Stmt { return c.tx.StmtContext(c.ctx, c.statements[text]) }

// lock reads what is held, and locks it.
func (c change) lock() (snapshot broker.Snapshot, err error) {
	if !c.key.IsBinding {
		snapshot, err = c.lockRow(c.key, forUpdate)
		snapshot.AnyBinding = func() (is bool, err error) {
			err = c.statement(anyBinding).QueryRowContext(c.ctx, c.key.Instance).Scan(&is)
			return is, err
		}
		return snapshot, err
	}
	instance, err := c.lockRow(osb.InstanceKey(c.key.Instance), forShare)
	if err != nil {
		return snapshot, err
	}
	snapshot, err = c.lockRow(c.key, forUpdate)
	snapshot.Instance = instance.Entry
	return snapshot, err
}

// lockRow locks the row of a key, and returns it. If the row is missing, it is inserted.
func (c change) lockRow(key broker.Key, how string) (broker.Snapshot, error) {
	snapshot, isThere, err := c.find(key, how)
	if err != nil || isThere {
		return snapshot, err
	}
	isNew, err := c.insert(key)
	if err != nil || isNew {
		return snapshot, err
	}
	snapshot, isThere, err = c.find(key, how)
	if err == nil && !isThere {
		err = errRowGone(key)
	}
	return snapshot, err
}

func (c change) find(key broker.Key, how string) (broker.Snapshot, bool, error) {
	return scanRow(c.texts, key, c.statement(findStatement(key)+how).QueryRowContext(c.ctx, keyParameters(key)...))
}

// insert inserts the row of the zero Holding, unless another transaction does it first, which it waits for. It returns
// whether the row is new. A new row is locked.
func (c change) insert(key broker.Key) (bool, error) {
	text, err := c.texts.Text(key.IsBinding, osb.Holding{})
	if err != nil {
		return false, err
	}
	statement := c.statement(of(key, insertInstance, insertBinding))
	done, err := statement.ExecContext(c.ctx, append(keyParameters(key), text)...)
	if err != nil {
		return false, err
	}
	count, err := done.RowsAffected()
	return count == 1, err
}

func (c change) write(entry broker.Entry) error {
	text, err := c.texts.Text(c.key.IsBinding, entry.Holding)
	if err != nil {
		return err
	}
	change, err := entry.Change.Text()
	if err != nil {
		return err
	}
	arguments := []any{
		text, entry.IsUnfinished(), orNull(entry.Request), storable(entry.Description), timeOrNull(entry.Since),
		entry.Life, entry.Holding.HasTombstone(), numberOrNull(entry.Worker), c.key.Instance,
	}
	if c.key.IsBinding {
		arguments = append(arguments, entry.Holding.IsHeld(), orNull(entry.Binding), c.key.Binding)
	} else {
		arguments = append(arguments, orNull(change))
	}
	done, err := c.statement(of(c.key, writeInstance, writeBinding)).ExecContext(c.ctx, arguments...)
	if err != nil {
		return err
	}
	if count, err := done.RowsAffected(); err != nil || count != 1 {
		return either(err, errRowGone(c.key))
	}
	return nil
}

func errRowGone(key broker.Key) error {
	return fmt.Errorf("the row of %v is gone. Never delete rows of the store", key)
}
