// Package sqlite keeps what a broker holds in a file of SQLite, for many requests at once, and for any number of
// processes of one machine. A read waits for nobody. Changes that wait are written together, by package sqlitefile.
package sqlite

import (
	"context"
	"database/sql/driver"
	"fmt"
	"sync"
	"time"

	"pippinterm/broker"
	"pippinterm/internal/sqlitefile"
	"pippinterm/osb"
)

const (
	together = 256         // as many changes are written in one transaction at most
	readers  = 4           // as many read at once
	recount  = time.Minute // so often tombstones are counted at most
)

// A Store is a broker.NamedStore.
type Store struct {
	file       *sqlitefile.File[*connection]
	tombstones counter
}

// These errors are returned wrapped: compare them by errors.Is.
var (
	// ErrBusy reports that another process has locked the file for too long.
	ErrBusy = sqlitefile.ErrBusy
	// ErrUnknownCommit reports that nobody knows whether a transaction was committed.
	ErrUnknownCommit = sqlitefile.ErrUnknownCommit
)

// Open opens a file, and makes it if there is none. A file of version 0.2 or 0.3 is extended, and they can't serve it any
// more then. The observer gets how many changes each commit has written.
func Open(ctx context.Context, path string, observer broker.Observer) (*Store, error) {
	return openBy(ctx, path, observer, nil)
}

// openBy returns a store over a file whose connections a driver opens, SQLite's own if it is nil.
func openBy(ctx context.Context, path string, observer broker.Observer, by driver.Driver) (*Store, error) {
	file, err := sqlitefile.Open(ctx, path, sqlitefile.Options[*connection]{
		Readers:   readers,
		Together:  together,
		Driver:    by,
		Migrate:   makeTables,
		Prepare:   prepare,
		Begun:     func(c *connection) error { return c.known.Begin() },
		Undone:    func(c *connection) { c.known.ForgetAll() },
		Committed: observer.OnCommit,
	})
	if err != nil {
		return nil, err
	}
	return &Store{file: file}, nil
}

// Close closes the file, once all changes that have begun are written. To call Close again does nothing.
func (s *Store) Close() error { return s.file.Close() }

// Read returns what is committed.
func (s *Store) Read(ctx context.Context, key broker.Key) (snapshot broker.Snapshot, err error) {
	err = s.file.Read(ctx, func(c *connection) (err error) {
		snapshot, err = c.snapshot(key)
		return err
	})
	return snapshot, err
}

// Change is one transaction, or a part of one whose other parts are other changes.
func (s *Store) Change(ctx context.Context, key broker.Key, step broker.Step) error {
	return s.file.Write(ctx, func(c *connection) error {
		snapshot, err := c.snapshot(key)
		if err != nil {
			return err
		}
		next, err := step(snapshot)
		if err != nil || next == nil {
			return err
		}
		return c.put(key, *next)
	})
}

// HeldBindings returns the bindings of an instance that are held.
func (s *Store) HeldBindings(ctx context.Context, instance osb.ID) (ids []osb.ID, err error) {
	err = s.file.Read(ctx, func(c *connection) (err error) {
		ids, err = c.listBindings(instance)
		return err
	})
	return ids, err
}

// UnfinishedKeys returns the keys that are unfinished.
func (s *Store) UnfinishedKeys(ctx context.Context) (keys []broker.Key, err error) {
	err = s.file.Read(ctx, func(c *connection) error {
		keys = nil // the call may be repeated
		return c.eachUnfinished(func(key broker.Key) error {
			keys = append(keys, key)
			return nil
		})
	})
	return keys, err
}

// Ready returns nil if a row can be read and one can be written.
func (s *Store) Ready(ctx context.Context) error {
	if _, err := s.Read(ctx, broker.Key{}); err != nil {
		return err
	}
	return s.file.Write(ctx, func(c *connection) error {
		return c.exec("INSERT INTO readiness VALUES (1, ?) ON CONFLICT (one) DO UPDATE SET asked = excluded.asked",
			time.Now().UnixNano())
	})
}

// Name returns the name of the store, or "" before the first use.
func (s *Store) Name(ctx context.Context) (name string, err error) {
	err = s.file.Read(ctx, func(c *connection) error {
		name, err = c.text("SELECT name FROM store")
		return err
	})
	return name, err
}

// Begin gives the store a name for good, unless it has one, and returns the name that it has. A name that begins with
// broker.UntiedBefore replaces broker.Untied.
func (s *Store) Begin(ctx context.Context, name string) (string, error) {
	err := s.file.Write(ctx, func(c *connection) error {
		return c.exec("INSERT INTO store (one, name) VALUES (1, ?) ON CONFLICT (one) DO UPDATE SET name = excluded.name "+
			"WHERE store.name = '"+broker.Untied+"' AND excluded.name LIKE '"+broker.UntiedBefore+"%'", name)
	})
	if err != nil {
		return "", err
	}
	return s.Name(ctx)
}

// ID returns the id of the store, which the first call makes up.
func (s *Store) ID(ctx context.Context) (id string, err error) {
	made, err := broker.NewStoreID()
	if err != nil {
		return "", err
	}
	err = s.file.Write(ctx, func(c *connection) error {
		return c.exec("INSERT INTO identity VALUES (1, ?) ON CONFLICT (one) DO NOTHING", made)
	})
	if err != nil {
		return "", err
	}
	err = s.file.Read(ctx, func(c *connection) error {
		id, err = c.text("SELECT id FROM identity")
		return err
	})
	return id, err
}

// Tie calls tie in a transaction, beside which nothing is written.
func (s *Store) Tie(ctx context.Context, tie func(isUsed bool) error) error {
	return s.file.Read(ctx, func(c *connection) error { // the writer isn't for calls of others
		return c.Transaction(ctx, func() error {
			used, err := c.text("SELECT 'used' FROM store WHERE is_tied OR name NOT LIKE '" + broker.UntiedBefore + "%' " +
				"AND (EXISTS (SELECT 1 FROM holdings) OR EXISTS (SELECT 1 FROM bindings))")
			if err != nil {
				return err
			}
			if err := tie(used != ""); err != nil {
				return err
			}
			return c.exec("UPDATE store SET is_tied = 1 WHERE NOT is_tied")
		})
	})
}

// text is the only column of the first row of a query, or "" if there is none.
func (c *connection) text(query string) (text string, err error) {
	err = c.each(query, func(row []driver.Value) error {
		text = fmt.Sprint(row[0])
		return nil
	})
	return text, err
}

// counter is a number that is counted now and then.
type counter struct {
	turn  sync.Mutex
	value int
	at    time.Time
}

// Stats counts what is kept. Tombstones are counted at most once a minute, since that reads all rows.
func (s *Store) Stats(ctx context.Context) (broker.Stats, error) {
	stats, err := s.UnfinishedStats(ctx)
	if err == nil {
		stats.Tombstones, err = s.countTombstones(ctx)
	}
	return stats, err
}

// UnfinishedStats returns Stats without Tombstones. It reads only the rows that are unfinished.
func (s *Store) UnfinishedStats(ctx context.Context) (stats broker.Stats, err error) {
	err = s.file.Read(ctx, func(c *connection) (err error) {
		stats, err = c.countUnfinished()
		return err
	})
	return stats, err
}

// The unfinished rows of a table, by whether work is pending and by the phase. A text that isn't JSON isn't counted.
const unfinishedBy = `SELECT json_extract(holding, '$.work') IS NOT NULL%s, json_extract(holding, '$.row.phase'),
    count(*), min(since) FROM %s WHERE unfinished AND json_valid(holding) GROUP BY 1, 2`

// isUpdatePending is whether the work of an update is pending: its operation doesn't run yet.
const isUpdatePending = ` OR CASE WHEN json_valid(change)
    THEN json_extract(change, '$.holding.phase') IN ('pending', 'mending') ELSE 0 END`

// countUnfinished counts the unfinished rows.
func (c *connection) countUnfinished() (stats broker.Stats, err error) {
	for table, isPendingToo := range map[string]string{"holdings": isUpdatePending, "bindings": ""} {
		err := c.each(fmt.Sprintf(unfinishedBy, isPendingToo, table), func(row []driver.Value) error {
			isPending, _ := row[0].(int64)
			phase, _ := row[1].(string)
			add(&stats, isPending != 0, phase, row[2], row[3])
			return nil
		})
		if err != nil {
			return broker.Stats{}, err
		}
	}
	return stats, nil
}

// add adds a number of unfinished rows, of which the oldest began at a time in milliseconds.
func add(stats *broker.Stats, isPending bool, phase string, number, oldest driver.Value) {
	count, _ := number.(int64)
	switch {
	case isPending:
		stats.Pending += int(count)
	case phase == "waiting":
		stats.Waiting += int(count)
	default:
		stats.Operating += int(count)
	}
	if at, isKnown := oldest.(int64); isKnown {
		if since := time.UnixMilli(at).UTC(); stats.Oldest.IsZero() || since.Before(stats.Oldest) {
			stats.Oldest = since
		}
	}
}

func (s *Store) countTombstones(ctx context.Context) (int, error) {
	s.tombstones.turn.Lock()
	defer s.tombstones.turn.Unlock()
	if !s.tombstones.at.IsZero() && time.Since(s.tombstones.at) < recount {
		return s.tombstones.value, nil
	}
	count := 0
	err := s.file.Read(ctx, func(c *connection) (err error) {
		count, err = c.countTombstones()
		return err
	})
	if err == nil {
		s.tombstones.value, s.tombstones.at = count, time.Now()
	}
	return count, err
}

// countTombstones counts the rows of each text of a holding, and reads each text once.
func (c *connection) countTombstones() (count int, err error) {
	for _, test := range []struct {
		query string
		read  func([]byte) (osb.Holding, error)
	}{
		{"SELECT holding, count(*) FROM holdings WHERE NOT unfinished GROUP BY holding", instanceOfText},
		{"SELECT holding, count(*) FROM bindings WHERE NOT unfinished GROUP BY holding", osb.BindingHoldingFromText},
	} {
		err := c.each(test.query, func(row []driver.Value) error {
			text, _ := row[0].(string)
			holding, err := test.read([]byte(text))
			if number, ok := row[1].(int64); ok && err == nil && holding.HasTombstone() {
				count += int(number)
			}
			return err
		})
		if err != nil {
			return 0, err
		}
	}
	return count, nil
}

func instanceOfText(text []byte) (holding osb.Holding, err error) {
	err = holding.UnmarshalJSON(text)
	return holding, err
}

// eachUnfinished calls with each key that is unfinished.
func (c *connection) eachUnfinished(call func(broker.Key) error) error {
	err := c.each("SELECT id FROM holdings WHERE unfinished", func(row []driver.Value) error {
		return unfinishedOf(call, row[0], nil)
	})
	if err != nil {
		return err
	}
	return c.each("SELECT instance, binding FROM bindings WHERE unfinished", func(row []driver.Value) error {
		return unfinishedOf(call, row[0], row[1])
	})
}

func unfinishedOf(call func(broker.Key) error, instance, binding any) error {
	var key broker.Key
	if err := key.Instance.Scan(instance); err != nil {
		return err
	}
	if binding != nil {
		key.IsBinding = true
		if err := key.Binding.Scan(binding); err != nil {
			return err
		}
	}
	return call(key)
}

// The tables. Those of version 0.2 had the first three columns of holdings, and no bindings. The columns that came
// later are in columns.
var tables = []string{
	"CREATE TABLE IF NOT EXISTS holdings (id TEXT PRIMARY KEY, holding TEXT NOT NULL, unfinished INTEGER NOT NULL) " +
		"WITHOUT ROWID",
	"CREATE INDEX IF NOT EXISTS unfinished_holdings ON holdings (id) WHERE unfinished",
	"CREATE TABLE IF NOT EXISTS bindings (instance TEXT NOT NULL, binding TEXT NOT NULL, holding TEXT NOT NULL, " +
		"held INTEGER NOT NULL, unfinished INTEGER NOT NULL, request TEXT, object TEXT, description TEXT, " +
		"since INTEGER, PRIMARY KEY (instance, binding)) WITHOUT ROWID",
	"CREATE INDEX IF NOT EXISTS held_bindings ON bindings (instance) WHERE held",
	"CREATE INDEX IF NOT EXISTS unfinished_bindings ON bindings (instance) WHERE unfinished",
	"CREATE TABLE IF NOT EXISTS readiness (one INTEGER PRIMARY KEY CHECK (one = 1), asked INTEGER NOT NULL)",
	"CREATE TABLE IF NOT EXISTS identity (one INTEGER PRIMARY KEY CHECK (one = 1), id TEXT NOT NULL)",
	"CREATE TABLE IF NOT EXISTS store (one INTEGER PRIMARY KEY CHECK (one = 1), name TEXT NOT NULL, " +
		"is_tied INTEGER NOT NULL DEFAULT 0)",
}

// The columns of holdings that 0.2 didn't have, and those that bindings didn't have at first. The column ended has the
// time at which the tombstone was written.
var columns = map[string][][2]string{
	"holdings": {{"request", "TEXT"}, {"description", "TEXT"}, {"since", "INTEGER"}, life, ended, worker, change},
	"bindings": {life, ended, worker},
}

var (
	life   = [2]string{"life", "INTEGER NOT NULL DEFAULT 0"}
	ended  = [2]string{"ended", "INTEGER"}
	worker = [2]string{"worker", "BLOB"}
	change = [2]string{"change", "TEXT"} // of the updates of the instance: NULL until the first
)

// Texts of holdings have no spaces: docs/instance.md. Before 0.3.0 a tombstone was written as marked.
const isTombstone = `NOT unfinished AND (holding LIKE '%"tombstone":true%' OR holding LIKE '%"marked":true%')`

// makeTables makes the tables and columns that are missing, in one transaction.
func makeTables(ctx context.Context, conn *sqlitefile.Conn, _ string) error {
	return conn.Transaction(ctx, func() error {
		if err := keepEarlierOut(conn); err != nil {
			return err
		}
		for _, statement := range tables {
			if err := conn.Exec(statement); err != nil {
				return err
			}
		}
		for table := range columns {
			if err := addColumns(conn, table); err != nil {
				return err
			}
		}
		return nil
	})
}

// keepEarlierOut drops the table in which version 0.3 had the numbers of workers, and has a view in its place: a broker
// of version 0.3 can't open the file any more. It would neither know the numbers in the rows nor write its own there.
func keepEarlierOut(conn *sqlitefile.Conn) error {
	var kind string
	err := conn.Each("SELECT type FROM sqlite_schema WHERE name = 'workers'", nil, func(row []driver.Value) error {
		kind = fmt.Sprint(row[0])
		return nil
	})
	if err == nil && kind == "table" {
		err = conn.Exec("DROP TABLE workers")
	}
	if err != nil || kind == "view" {
		return err
	}
	return conn.Exec("CREATE VIEW workers AS SELECT 'the numbers of workers are in the rows' AS moved")
}

// addColumns adds the columns that a table lacks. A tombstone gets the time of now, if tombstones had no time.
func addColumns(conn *sqlitefile.Conn, table string) error {
	have := map[string]bool{}
	err := conn.Each("SELECT name FROM pragma_table_info('"+table+"')", nil, func(row []driver.Value) error {
		have[fmt.Sprint(row[0])] = true
		return nil
	})
	if err != nil {
		return err
	}
	for _, column := range columns[table] {
		if !have[column[0]] {
			if err := conn.Exec("ALTER TABLE " + table + " ADD COLUMN " + column[0] + " " + column[1]); err != nil {
				return err
			}
		}
	}
	if have[ended[0]] {
		return nil
	}
	return conn.Exec("UPDATE "+table+" SET ended = ? WHERE "+isTombstone, time.Now().UnixMilli())
}
