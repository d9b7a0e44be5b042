package postgres

import (
	"context"
	"database/sql"
	"errors"
	"fmt"
	"io"
	"math"
	"strings"
	"time"

	jsoniter "github.com/json-iterator/go"

	"pippinterm/osb"
	"pippinterm/platform"
)

type (
	entryColumn  = platform.Column[platform.Entry]
	entryColumns = platform.Columns[platform.Entry]
)

// The columns of the key, of an order, which are written once, and of what has become of it. Times are seconds since
// 1970, as version 0.2 has them.
var (
	keyColumns = entryColumns{
		{Name: "id", Member: func(e *platform.Entry) any { return &e.Key.Instance }},
		{Name: "binding", IsOfBinding: true, Member: func(e *platform.Entry) any { return &e.Key.Binding }},
	}
	orderColumns = append(append(entryColumns{}, platform.OrderColumns...),
		entryColumn{Name: "names", Member: func(e *platform.Entry) any { return namesText{&e.Names} }},
		entryColumn{Name: "first", Member: func(e *platform.Entry) any { return &e.First }},
	)
	stateColumns   = platform.StateColumns
	changedColumns = append(append(entryColumns{}, keyColumns...), stateColumns...)
	rowColumns     = append(append(append(entryColumns{}, keyColumns...), orderColumns...), stateColumns...)

	// changedOf are changedColumns of bindings, and of instances.
	changedOf = map[bool]entryColumns{true: changedColumns.Of(true), false: changedColumns.Of(false)}
)

// A namesText is platform.Names as an object.
type namesText struct{ of *platform.Names }

func (n namesText) MarshalText() ([]byte, error) { return jsoniter.Marshal(n.of) }

func (n namesText) UnmarshalText(text []byte) error { return jsoniter.Unmarshal(text, n.of) }

// objectOf is an object with columns of an entry or a broker, as json_populate_recordset reads it. So a statement has
// one parameter for any number of rows.
func objectOf[T any](of *T, columns platform.Columns[T]) ([]byte, error) {
	object := jsoniter.NewStream(jsoniter.ConfigDefault, nil, usualObject)
	object.WriteObjectStart()
	for n, column := range columns {
		value, err := column.Value(of)
		if err != nil {
			return nil, err
		}
		if n > 0 {
			object.WriteMore()
		}
		object.WriteObjectField(column.Name)
		writeValue(object, value)
	}
	object.WriteObjectEnd()
	return object.Buffer(), object.Error
}

// usualObject is as long as most objects are at most, in bytes.
const usualObject = 1 << 10

// lineOf is an array with the columns of a row, as entryOf reads it, or one without the columns that may be long. It has
// NULL for the columns that the table doesn't have.
func lineOf(row string, isBinding, isBrief bool) string {
	parts := []string{}
	for _, column := range rowColumns {
		if column.IsOfBinding && !isBinding || column.IsLong && isBrief {
			parts = append(parts, "NULL")
		} else {
			parts = append(parts, row+"."+column.Name)
		}
	}
	return "json_build_array(" + strings.Join(parts, ", ") + ")"
}

// entryOf is the entry of a line. If columns can't be read, the entry has all others, and unreadable is the error of the
// first of them. Without a key there is no entry, but an error.
func entryOf(line []byte) (entry platform.Entry, unreadable, err error) {
	texts, err := readLine(line, rowColumns, &entry)
	if err != nil {
		return entry, nil, err
	}
	if entry.Key, err = keyOf(string(texts[0]), string(texts[1])); err != nil {
		return entry, nil, err
	}
	others := len(keyColumns)
	return entry, readTexts(texts[others:], rowColumns[others:], &entry, entry.Key.String()), nil
}

// readLine reads an array of columns, and returns the texts of those that are a Text: readTexts reads them, once all
// others are read. The text of a column that is NULL is nil.
func readLine[T any](line []byte, columns platform.Columns[T], of *T) (texts [][]byte, err error) {
	texts = make([][]byte, 0, len(columns))
	values := valuesOf(line)
	isWhole := values.WhatIsNext() == jsoniter.ArrayValue && values.ReadArrayCB(func(*jsoniter.Iterator) bool {
		if len(texts) == len(columns) {
			return false
		}
		var text []byte
		if text, err = readInto(columns[len(texts)].Member(of), values); err == nil {
			texts = append(texts, text)
		}
		return err == nil
	})
	if len(texts) < len(columns) {
		return nil, fmt.Errorf("the column %s of a row: %w", columns[len(texts)].Name, either(err, errNotRead))
	}
	if !isWhole || values.WhatIsNext() != jsoniter.InvalidValue || values.Error != io.EOF {
		return nil, fmt.Errorf("the end of a row: %w", errNotRead)
	}
	return texts, nil
}

// readTexts reads all texts that can be read. The error is that of the first one that can't.
func readTexts[T any](texts [][]byte, columns platform.Columns[T], of *T, name string) (failed error) {
	for n, column := range columns {
		if texts[n] == nil {
			continue
		}
		if err := column.Member(of).(platform.Text).UnmarshalText(texts[n]); err != nil {
			failed = either(failed, fmt.Errorf("the column %s of %s: %w", column.Name, name, err))
		}
	}
	return failed
}

func keyOf(id, binding string) (key platform.Key, err error) {
	if key.Instance, err = osb.ParseID(id); err != nil {
		return key, fmt.Errorf("the row %q: %w", id, err)
	}
	if binding == "" {
		return key, nil
	}
	key.IsBinding = true
	if key.Binding, err = osb.ParseID(binding); err != nil {
		return key, fmt.Errorf("the row %q of %v: %w", binding, key.Instance, err)
	}
	return key, nil
}

// shownOf is entryOf for whoever only shows the row: if it can't be read, the entry says so. An error is left only if
// the row has no key, without which it has no position among others.
func shownOf(line []byte) (platform.Entry, error) {
	entry, unreadable, err := entryOf(line)
	if unreadable != nil {
		entry.Unreadable = unreadable.Error()
	}
	if names := &entry.Names; err == nil && names.Instance == "" { // the names can't be read
		names.Instance = entry.Key.Instance.String()
		if entry.Key.IsBinding {
			names.Binding = entry.Key.Binding.String()
		}
	}
	return entry, err
}

func secondsOf(at time.Time) float64 { return float64(at.UnixMicro()) / 1e6 }

// timeOf is the time that secondsOf has written: the nearest microsecond.
func timeOf(at float64) time.Time {
	whole := math.Floor(at)
	return time.Unix(int64(whole), int64(math.Round((at-whole)*1e6))*1000).UTC()
}

// storable is a text that a column of PostgreSQL has: others would be rejected with each try, and their work would
// never end. Bytes that aren't UTF-8, and NUL, become U+FFFD, as encoding/json reads the former too.
func storable(text string) string {
	return strings.ReplaceAll(strings.ToValidUTF8(text, "\uFFFD"), "\x00", "\uFFFD")
}

// brokerLine is an array of brokerColumns.
var (
	brokerColumns = platform.BrokerColumns
	brokerLine    = "json_build_array(" + strings.Join(brokerColumns.Names(), ", ") + ")"
)

// brokerOf is the broker of an array of brokerLine.
func brokerOf(line []byte) (broker platform.Broker, err error) {
	texts, err := readLine(line, brokerColumns, &broker)
	if err == nil {
		err = readTexts(texts, brokerColumns, &broker, "the broker "+broker.Name)
	}
	return broker, err
}

// Brokers returns all brokers, by name.
func (s *Store) Brokers(ctx context.Context) ([]platform.Broker, error) {
	return within(ctx, s, func(*call) ([]platform.Broker, error) {
		found := []platform.Broker{}
		rows, err := s.db.QueryContext(ctx, "SELECT "+brokerLine+" FROM osb_brokers ORDER BY name")
		err = each(rows, err, func(rows *sql.Rows) error {
			var text []byte
			if err := rows.Scan(&text); err != nil {
				return err
			}
			broker, err := brokerOf(text)
			found = append(found, broker)
			return err
		})
		return found, err
	})
}

// lockBroker keeps a broker from being dropped, and readBroker from being changed too.
const lockBroker = "SELECT name FROM osb_brokers WHERE name = $1 FOR KEY SHARE"

var (
	readBroker = `
WITH t AS MATERIALIZED (SELECT * FROM osb_brokers WHERE name = $1 FOR NO KEY UPDATE) SELECT ` + brokerLine + ` FROM t
`
	insertBroker = inserting("osb_brokers", brokerColumns.Names())
	updateBroker = "UPDATE osb_brokers AS t SET " + assignments(brokerColumns[1:].Names()) +
		" FROM json_populate_record(NULL::osb_brokers, $1) AS v WHERE t.name = v.name"
)

// AddBroker writes a new broker, as platform.Store says.
func (s *Store) AddBroker(ctx context.Context, broker platform.Broker) error {
	return s.run(ctx, func(*call) error {
		return s.transaction(ctx, func(tx *sql.Tx) (bool, error) {
			return true, writeBroker(ctx, tx, insertBroker, broker, platform.ErrUsed)
		})
	})
}

// ChangeBroker is one transaction, as platform.Store says. A panic of change is an error.
func (s *Store) ChangeBroker(
	ctx context.Context, name string, change func(platform.Broker) (*platform.Broker, error),
) error {
	return s.run(ctx, func(this *call) error {
		return s.transaction(ctx, func(tx *sql.Tx) (bool, error) {
			before, err := lockedBroker(ctx, tx, name)
			if err != nil {
				return false, err
			}
			var after *platform.Broker
			err = this.do(func() (err error) {
				after, err = change(before)
				return err
			})
			if err != nil || after == nil {
				return false, err
			}
			next := *after
			next.Name = name
			return true, writeBroker(ctx, tx, updateBroker, next, platform.ErrUnknown)
		})
	})
}

// lockedBroker locks and reads a broker.
func lockedBroker(ctx context.Context, tx *sql.Tx, name string) (platform.Broker, error) {
	var text []byte
	if err := tx.QueryRowContext(ctx, readBroker, name).Scan(&text); err != nil {
		return platform.Broker{}, orUnknown(err, name)
	}
	return brokerOf(text)
}

// orUnknown is platform.ErrUnknown if a query for a broker has found none.
func orUnknown(err error, name string) error {
	if errors.Is(err, sql.ErrNoRows) {
		return fmt.Errorf("%w: the broker %s", platform.ErrUnknown, name)
	}
	return err
}

// writeBroker writes a broker. If there is none to write, the error is the other one.
func writeBroker(ctx context.Context, tx *sql.Tx, query string, broker platform.Broker, otherwise error) error {
	object, err := objectOf(&broker, brokerColumns)
	if err != nil {
		return err
	}
	done, err := tx.ExecContext(ctx, query, string(object))
	return one(done, err, fmt.Errorf("%w: the broker %s", otherwise, broker.Name))
}

const hasOrders = `
SELECT EXISTS (SELECT FROM osb_instances WHERE broker = $1) OR EXISTS (SELECT FROM osb_bound WHERE broker = $1)
`

// DropBroker deletes a broker, as platform.Store says. Whoever inserts an order of it has locked it, so the second
// statement sees the order.
func (s *Store) DropBroker(ctx context.Context, name string) error {
	return s.run(ctx, func(*call) error {
		return s.transaction(ctx, func(tx *sql.Tx) (bool, error) {
			done, err := tx.ExecContext(ctx, "DELETE FROM osb_brokers WHERE name = $1", name)
			if err := one(done, err, fmt.Errorf("%w: the broker %s", platform.ErrUnknown, name)); err != nil {
				return false, err
			}
			var has bool
			if err := tx.QueryRowContext(ctx, hasOrders, name).Scan(&has); err != nil {
				return false, err
			}
			if has {
				return false, fmt.Errorf("%w: the broker %s has orders", platform.ErrUsed, name)
			}
			return true, nil
		})
	})
}

// Fingerprint returns the fingerprint that is written, as platform.Store says.
func (s *Store) Fingerprint(ctx context.Context, fingerprint string) (string, error) {
	return within(ctx, s, func(*call) (found string, err error) {
		err = s.transaction(ctx, func(tx *sql.Tx) (bool, error) {
			const keep = "UPDATE osb_platform SET fingerprint = coalesce(fingerprint, $1) RETURNING fingerprint"
			return true, tx.QueryRowContext(ctx, keep, fingerprint).Scan(&found)
		})
		return found, err
	})
}

// ReplaceFingerprint writes another fingerprint, as platform.Store says.
func (s *Store) ReplaceFingerprint(ctx context.Context, before, after string) error {
	return s.run(ctx, func(*call) error {
		return s.transaction(ctx, func(tx *sql.Tx) (bool, error) {
			const replace = "UPDATE osb_platform SET fingerprint = $2 WHERE fingerprint = $1"
			done, err := tx.ExecContext(ctx, replace, before, after)
			return true, one(done, err, fmt.Errorf("%w: the fingerprint", platform.ErrUnknown))
		})
	})
}

// Ready returns nil if a row can be read and one can be written.
func (s *Store) Ready(ctx context.Context) error {
	return s.run(ctx, func(*call) error {
		if _, err := s.db.ExecContext(ctx, "SELECT FROM osb_instances LIMIT 1"); err != nil {
			return err
		}
		return s.transaction(ctx, func(tx *sql.Tx) (bool, error) {
			done, err := tx.ExecContext(ctx, "UPDATE osb_platform SET fingerprint = fingerprint")
			return true, one(done, err, errors.New("the table osb_platform has no row"))
		})
	})
}

// one is the error of a statement, or the other one unless it has changed one row.
func one(done sql.Result, err, otherwise error) error {
	if err != nil {
		return err
	}
	count, err := done.RowsAffected()
	if err == nil && count != 1 {
		err = otherwise
	}
	return err
}
