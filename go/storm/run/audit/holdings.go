package audit

import (
	"context"
	"database/sql"
	"database/sql/driver"
	"encoding/json"
	"errors"
	"fmt"
	"io/fs"
	"os"

	"pippinterm/internal/sqlitefile"
	"pippinterm/osb"
)

// A File is the rows of a broker in a file of SQLite, of which this is the path. Before the file exists, there are
// none.
type File string

var _ Holdings = File("")

// The queries of all rows, with the same columns: the ids, the text of the holding, and the object of a binding.
const (
	instancesInFile = "SELECT id, '', holding, '' FROM holdings"
	bindingsInFile  = "SELECT instance, binding, holding, coalesce(object, '') FROM bindings"
	hasTablesInFile = "SELECT 1 FROM sqlite_master WHERE name = 'bindings'"
)

// Read returns all rows, as of one moment.
func (f File) Read(ctx context.Context) (all map[Key]Row, err error) {
	if _, err := os.Stat(string(f)); errors.Is(err, fs.ErrNotExist) {
		return nil, nil
	}
	err = sqlitefile.Look(ctx, string(f), func(conn *sqlitefile.Conn) error {
		all = map[Key]Row{} // the call may be repeated
		return conn.Snapshot(func() error { return readFile(conn, all) })
	})
	return all, err
}

func readFile(conn *sqlitefile.Conn, all map[Key]Row) error {
	hasTables := false
	err := conn.Each(hasTablesInFile, nil, func([]driver.Value) error {
		hasTables = true
		return nil
	})
	if err != nil || !hasTables {
		return err
	}
	for _, query := range []string{instancesInFile, bindingsInFile} {
		err := conn.Each(query, nil, func(row []driver.Value) error {
			return add(all, textOf(row[0]), textOf(row[1]), textOf(row[2]), textOf(row[3]))
		})
		if err != nil {
			return err
		}
	}
	return nil
}

func textOf(value driver.Value) string {
	if bytes, is := value.([]byte); is {
		return string(bytes)
	}
	return fmt.Sprint(value)
}

func add(all map[Key]Row, instance, binding, text, object string) error {
	holding, err := holdingOf(binding != "", text)
	if err != nil {
		return fmt.Errorf("the broker's row of %s/%s can't be read: %w", instance, binding, err)
	}
	held := Row{Holding: holding}
	if object != "" {
		held.Object = json.RawMessage(object)
	}
	all[Key{Instance: instance, Binding: binding}] = held
	return nil
}

// Tables are the rows of a broker in a database of PostgreSQL. Before the tables exist, there are none.
type Tables struct{ DB *sql.DB }

var _ Holdings = Tables{}

const (
	instancesInTables = "SELECT id::text, '', holding, '' FROM osb_holdings"
	bindingsInTables  = "SELECT instance::text, binding::text, holding, coalesce(object, '') FROM osb_bindings"
	hasTables         = "SELECT to_regclass('osb_bindings') IS NOT NULL"
)

// Read returns all rows, as of one moment.
func (t Tables) Read(ctx context.Context) (map[Key]Row, error) {
	tx, err := t.DB.BeginTx(ctx, &sql.TxOptions{Isolation: sql.LevelRepeatableRead, ReadOnly: true})
	if err != nil {
		return nil, err
	}
	defer func() { _ = tx.Rollback() }() // nothing was written
	var isThere bool
	if err := tx.QueryRowContext(ctx, hasTables).Scan(&isThere); err != nil || !isThere {
		return nil, err
	}
	all := map[Key]Row{}
	for _, query := range []string{instancesInTables, bindingsInTables} {
		if err := readRows(ctx, tx, query, all); err != nil {
			return nil, err
		}
	}
	return all, nil
}

func readRows(ctx context.Context, tx *sql.Tx, query string, all map[Key]Row) error {
	rows, err := tx.QueryContext(ctx, query)
	if err != nil {
		return err
	}
	defer rows.Close()
	for rows.Next() {
		var instance, binding, text, object string
		if err := rows.Scan(&instance, &binding, &text, &object); err != nil {
			return err
		}
		if err := add(all, instance, binding, text, object); err != nil {
			return err
		}
	}
	return rows.Err()
}

func holdingOf(isBinding bool, text string) (osb.Holding, error) {
	if isBinding {
		return osb.BindingHoldingFromText([]byte(text))
	}
	var holding osb.Holding
	err := holding.UnmarshalJSON([]byte(text))
	return holding, err
}
