package sqlitefile

import (
	"context"
	"database/sql/driver"
)

// MostKnown is how many rows are known at most.
const MostKnown = 10_000

// KnownRows are rows as the file has them, because they were written last by the connection that writes. So a
// transaction reads no row that one before it has written. They are forgotten if another connection has written to the
// file. The zero value knows none until Begin. One goroutine at a time uses it.
type KnownRows[K comparable, R any] struct {
	read    *Statement   // what changes as soon as another connection has written
	version driver.Value // what it was when these rows were written
	rows    map[K]*R
}

// Prepare prepares the statement of Begin, for a connection.
//
// Errors: those of the statement.
func (k *KnownRows[K, R]) Prepare(ctx context.Context, conn *Conn) (err error) {
	k.read, err = conn.Prepare(ctx, "PRAGMA data_version")
	return err
}

// Begin is called in each transaction of the connection that writes, before anything is read or written
// (Options.Begun).
//
// Errors: those of the statement. The transaction must not go on then.
func (k *KnownRows[K, R]) Begin() error {
	row, err := k.read.One()
	if err != nil {
		return err
	}
	if k.rows == nil || len(row) != 1 || row[0] != k.version {
		k.ForgetAll()
		k.version = row[0]
	}
	return nil
}

// Of is the row of a key, which must not be changed, or nil if it isn't known.
func (k *KnownRows[K, R]) Of(key K) *R { return k.rows[key] }

// Keep notes a row that was written, as it is read. If as many are known as may be, another one is forgotten.
func (k *KnownRows[K, R]) Keep(key K, row *R) {
	if k.rows == nil {
		return
	}
	if _, isKnown := k.rows[key]; !isKnown && len(k.rows) >= MostKnown {
		for other := range k.rows {
			delete(k.rows, other)
			break
		}
	}
	k.rows[key] = row
}

// Forget has a row read again.
func (k *KnownRows[K, R]) Forget(key K) { delete(k.rows, key) }

// ForgetAll has all rows read again, as if a transaction was undone (Options.Undone).
func (k *KnownRows[K, R]) ForgetAll() { k.rows = map[K]*R{} }
