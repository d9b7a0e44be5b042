// Package sqlite keeps the rows of a platform in a file of SQLite, for any number of workers of one machine. It brings
// the files of versions 0.2 and 0.3 up to date.
//
// Changes that wait are written together, by package sqlitefile. Times are those of the machine, to the millisecond.
package sqlite

import (
	"context"
	"database/sql/driver"
	"errors"
	"fmt"
	"io/fs"
	"os"
	"path/filepath"
	"sort"
	"strings"
	"sync"
	"syscall"
	"time"

	"pippinterm/internal/sqlitefile"
	"pippinterm/platform"
)

const (
	readers  = 4        // as many read at once
	together = 256      // as many changes are written in one transaction at most
	cache    = 64 << 10 // KiB of pages that are kept: with fewer, the pages of 10,000 due rows are read again and again
)

// A Store is a platform.Store.
type Store struct{ file *sqlitefile.File[*connection] }

var _ platform.Store = (*Store)(nil)

// These errors are returned wrapped: compare them by errors.Is.
var (
	// ErrBusy reports that another process has locked the file for too long.
	ErrBusy = sqlitefile.ErrBusy
	// ErrUnknownCommit reports that nobody knows whether a transaction was committed.
	ErrUnknownCommit = sqlitefile.ErrUnknownCommit
)

// Open opens a file, and creates it if there is none. A file of version 0.2 or 0.3 is brought up to date in one
// transaction. The broker of version 0.2 becomes the broker "default" with the user "platform" and no password, and its
// rows have the organization and the space "osb-platform". The version refuses to run over the file afterwards. Nothing
// is written to a file whose tables are those of this version.
//
// Errors name the file: it can't be opened or brought up to date, it is of a later version or of another program, or it
// is of version 0.2 or 0.3 and a worker of that version runs. Nothing was changed then.
func Open(ctx context.Context, path string) (*Store, error) { return openAt(ctx, path, nil, migrate) }

// OpenExisting is Open of a file that has the tables, of this version or of 0.2 or 0.3. Otherwise it creates nothing,
// and the error is platform.ErrNoStore: there is no file, or it has no tables.
func OpenExisting(ctx context.Context, path string) (*Store, error) {
	about, err := os.Stat(path)
	if errors.Is(err, fs.ErrNotExist) || err == nil && about.Mode().IsRegular() && about.Size() == 0 {
		return nil, fmt.Errorf("sqlite: %s: %w", path, platform.ErrNoStore)
	}
	return openAt(ctx, path, nil, migrateExisting)
}

// openAt is a store over a file whose connections a driver opens, SQLite's own if it is nil. bring brings its tables up
// to date.
func openAt(
	ctx context.Context, path string, by driver.Driver,
	bring func(ctx context.Context, conn *sqlitefile.Conn, path string) error,
) (*Store, error) {
	file, err := sqlitefile.Open(ctx, path, options(by, bring))
	if err != nil {
		return nil, err
	}
	return &Store{file: file}, nil
}

func options(
	by driver.Driver, bring func(ctx context.Context, conn *sqlitefile.Conn, path string) error,
) sqlitefile.Options[*connection] {
	return sqlitefile.Options[*connection]{
		Readers: readers, Together: together, Cache: cache, Driver: by, Migrate: bring, Prepare: prepare,
		Begun: (*connection).begin, BeforeCommit: (*connection).writeCounts,
		Undone: func(c *connection) { c.known.forgetAll() },
	}
}

// Close closes the file, once all transactions that have begun have ended.
func (s *Store) Close() error { return s.file.Close() }

// now is the time of the store.
func now() time.Time { return round(time.Now()) }

// write has a job written with all others that wait.
func (s *Store) write(ctx context.Context, do func(*connection) error) error {
	return away(s.file.Write(ctx, do))
}

func (s *Store) read(ctx context.Context, call func(*connection) error) error {
	return away(s.file.Read(ctx, call))
}

// away is platform.ErrAway of a file that another process has kept for too long.
func away(err error) error {
	if errors.Is(err, sqlitefile.ErrBusy) {
		return fmt.Errorf("%w: %v", platform.ErrAway, err)
	}
	return err
}

// Insert writes the row of a new order.
func (s *Store) Insert(ctx context.Context, entry platform.Entry, check func(platform.Snapshot) error) error {
	return s.write(ctx, func(c *connection) (err error) {
		snapshot := platform.Snapshot{Entry: entry}
		if broker, err := c.broker.One(entry.Broker); err != nil {
			return err
		} else if broker == nil {
			return unknownBroker(entry.Broker)
		}
		if entry.Key.IsBinding {
			if snapshot.Instance, err = c.instance(entry.Key); err != nil {
				return err
			}
		}
		if check != nil {
			if err := check(snapshot); err != nil {
				return err
			}
		}
		return c.insert(entry)
	})
}

// Change is one transaction, or a part of one whose other parts are other changes. A step must not call what writes.
func (s *Store) Change(ctx context.Context, key platform.Key, step platform.Step) error {
	return s.write(ctx, func(c *connection) error {
		now := now()
		before, snapshot, err := c.readSnapshot(key)
		if err != nil {
			return err
		}
		change, err := step(now, snapshot)
		if err != nil || change == nil {
			return err
		}
		return c.write(now, before, change)
	})
}

// Claim is one transaction, or a part of one. Nobody writes beside it, so no row is locked by another transaction. If a
// row can't be written, and a part of it is, the transaction is rolled back, and the claim is done again without the row:
// a savepoint for each row would cost more than its statements.
func (s *Store) Claim(
	ctx context.Context, brokers []string, most int, step platform.Step,
) (claimed []platform.ClaimedRow, err error) {
	if most <= 0 || len(brokers) == 0 {
		return nil, ctx.Err()
	}
	for failed := map[platform.Key]error{}; ; {
		claimed, err = s.claimExcept(ctx, failed, brokers, most, step)
		var half halfWritten
		if !errors.As(err, &half) {
			return claimed, err
		}
		failed[half.key] = half.error
	}
}

// A halfWritten is why a row can't be written of which a part is.
type halfWritten struct {
	key platform.Key
	error
}

// claimExcept is Claim that doesn't step rows that have failed.
func (s *Store) claimExcept(
	ctx context.Context, failed map[platform.Key]error, brokers []string, most int, step platform.Step,
) (claimed []platform.ClaimedRow, err error) {
	err = s.write(ctx, func(c *connection) error {
		now := now()
		claimed = nil // the job may be done twice
		keys, err := c.keysDue(brokers, seconds(now), seconds(now), most)
		if err != nil {
			return err
		}
		for _, due := range keys {
			claimed = append(claimed, platform.ClaimedRow{Key: due.key, Err: failed[due.key]})
		}
		c.readAhead(keys, claimed)
		// if SQLite has rolled back because a row can't be read, nothing may be written: see postpone
		if err := c.postponeFailed(now, claimed); err != nil {
			return err
		}
		for n := range claimed {
			row := &claimed[n]
			if row.Err != nil {
				continue
			}
			row.Err = c.claim(now, row.Key, step)
			if half, isHalf := row.Err.(halfWritten); isHalf {
				return half
			}
			if err := c.postponeFailed(now, claimed[n:n+1]); err != nil {
				return err
			}
		}
		return nil
	})
	if err != nil {
		return nil, err
	}
	return claimed, nil
}

// claim steps one row. If it fails, nothing of the row is written, unless the error is a halfWritten.
func (c *connection) claim(now time.Time, key platform.Key, step platform.Step) error {
	before, snapshot, err := c.readSnapshot(key)
	if err != nil {
		return err
	}
	var change *platform.Change
	err = sqlitefile.Safely(func() (err error) {
		change, err = step(now, snapshot)
		return err
	})
	if err != nil || change == nil {
		return err
	}
	err = c.write(now, before, change)
	if err != nil && !isOne(before, change) {
		return halfWritten{key, err}
	}
	return err
}

// postponeFailed has those of these rows due later that have failed.
func (c *connection) postponeFailed(now time.Time, claimed []platform.ClaimedRow) error {
	for _, row := range claimed {
		if row.Err == nil {
			continue
		}
		if err := c.postpone(now, row.Key); err != nil {
			return fmt.Errorf("%w (after: %v)", err, row.Err)
		}
	}
	return nil
}

// postpone has a row whose step has failed due later. Nothing else of it is read or written.
func (c *connection) postpone(now time.Time, key platform.Key) error {
	if !c.InTransaction() {
		return sqlitefile.ErrBroken
	}
	c.known.forget(key)
	due := seconds(now.Add(platform.FailedRest))
	_, err := c.of(key).postpone.Run(append([]driver.Value{due}, keyValues(key)...)...)
	return err
}

// A dueKey is the key of a row that is due, and the number of the row in its table.
type dueKey struct {
	at  time.Time
	key platform.Key
	row int64
}

// longestDue are at most so many of these, the longest due first.
func longestDue(found []dueKey, most int) []dueKey {
	sort.SliceStable(found, func(i, j int) bool { return found[i].at.Before(found[j].at) })
	if len(found) > most {
		found = found[:most]
	}
	return found
}

// NextDue returns when the next row is due. A lease that is over is nobody's.
func (s *Store) NextDue(ctx context.Context, brokers []string) (due, at time.Time, err error) {
	at = now()
	err = s.read(ctx, func(c *connection) error {
		found, err := c.keysDue(brokers, never, seconds(at), 1)
		if len(found) > 0 {
			due = found[0].at
		}
		return err
	})
	return due, at, err
}

// OldestDue returns since when the row is due that waits for longest.
func (s *Store) OldestDue(ctx context.Context) (due, at time.Time, err error) {
	at = now()
	err = s.read(ctx, func(c *connection) error {
		values, err := c.oldestDue.One()
		if err == nil {
			r := &row{values: values}
			due, err = r.at(), r.err
		}
		return err
	})
	return due, at, err
}

// never is later than any time.
const never = 1e300

// Free ends all leases of a worker.
func (s *Store) Free(ctx context.Context, worker string) error {
	return s.write(ctx, func(c *connection) error {
		c.known.forgetAll()
		at := seconds(now())
		if _, err := c.freeInstances.Run(at, worker); err != nil {
			return err
		}
		_, err := c.freeBindings.Run(at, worker)
		return err
	})
}

// Read returns the row of a key.
func (s *Store) Read(ctx context.Context, key platform.Key) (entry platform.Entry, err error) {
	err = s.read(ctx, func(c *connection) error {
		entry, err = c.show(key)
		return err
	})
	return entry, err
}

// Fingerprint writes a fingerprint unless one is written.
func (s *Store) Fingerprint(ctx context.Context, fingerprint string) (written string, err error) {
	read := func(c *connection) error {
		values, err := c.fingerprint.One()
		if err == nil && values != nil {
			written = (&row{values: values}).text()
		}
		return err
	}
	if err := s.read(ctx, read); err != nil || written != "" || fingerprint == "" {
		return written, err
	}
	err = s.write(ctx, func(c *connection) error {
		if _, err := c.putFingerprint.Run(fingerprint); err != nil {
			return err
		}
		return read(c)
	})
	return written, err
}

// ReplaceFingerprint writes another fingerprint in place of the one that is written.
func (s *Store) ReplaceFingerprint(ctx context.Context, before, after string) error {
	return s.write(ctx, func(c *connection) error {
		return one(fmt.Errorf("%w: the fingerprint", platform.ErrUnknown))(c.replaceFingerprint.Run(after, before))
	})
}

// Ready returns nil if a row can be read and one can be written.
func (s *Store) Ready(ctx context.Context) error {
	err := s.read(ctx, func(c *connection) error {
		_, err := c.fingerprint.One()
		return err
	})
	if err != nil {
		return err
	}
	return s.write(ctx, func(c *connection) error {
		_, err := c.ready.Run(time.Now().UnixNano())
		return err
	})
}

// Only locks a file beside the database, as version 0.2 does. The lock ends with the process, and can't be lost.
//
// Errors: the name of the worker is empty, or can't be a part of a file's name; those of the file.
func (s *Store) Only(_ context.Context, worker string) (end func(), lost <-chan struct{}, err error) {
	if worker == "" || strings.ContainsAny(worker, "/\x00") {
		return nil, nil, fmt.Errorf("sqlite: %q can't be a worker's name", worker)
	}
	file, err := lock(s.file.Path()+"."+worker+lockEnd, os.O_CREATE)
	if err != nil || file == nil {
		return nil, nil, err
	}
	var once sync.Once
	return func() { once.Do(func() { unlock(file) }) }, make(chan struct{}), nil
}

// HasWorkers looks for files that are locked.
func (s *Store) HasWorkers(context.Context) (bool, error) {
	worker, err := running(s.file.Path())
	return worker != "", err
}

// lockEnd is the end of the name of a worker's lock.
const lockEnd = ".lock"

// lock locks a file, and returns nil if somebody else has locked it. A symbolic link isn't followed.
func lock(path string, flags int) (*os.File, error) {
	file, err := os.OpenFile(path, os.O_RDWR|syscall.O_NOFOLLOW|flags, 0o600)
	if err != nil {
		return nil, fmt.Errorf("sqlite: the lock of a worker: %w", err)
	}
	err = syscall.Flock(int(file.Fd()), syscall.LOCK_EX|syscall.LOCK_NB)
	switch {
	case err == nil:
		return file, nil
	case errors.Is(err, syscall.EWOULDBLOCK):
		_ = file.Close()
		return nil, nil
	}
	_ = file.Close()
	return nil, fmt.Errorf("sqlite: the lock %s: %w", path, err)
}

// running is the name of a worker that runs over the file of a path, or empty.
func running(path string) (string, error) {
	folder, name := filepath.Split(path)
	entries, err := os.ReadDir(folder)
	if err != nil {
		return "", fmt.Errorf("sqlite: the locks of workers: %w", err)
	}
	for _, entry := range entries {
		if !strings.HasPrefix(entry.Name(), name+".") || !strings.HasSuffix(entry.Name(), lockEnd) {
			continue
		}
		file, err := lock(filepath.Join(folder, entry.Name()), 0)
		if err != nil {
			return "", err
		}
		if file == nil {
			return strings.TrimSuffix(strings.TrimPrefix(entry.Name(), name+"."), lockEnd), nil
		}
		unlock(file)
	}
	return "", nil
}

// unlock ends a lock. Closing alone isn't enough, because between fork and exec any process that is being started has
// the file open for a moment.
func unlock(file *os.File) {
	_ = syscall.Flock(int(file.Fd()), syscall.LOCK_UN)
	_ = file.Close()
}

// Brokers returns all brokers, by name.
func (s *Store) Brokers(ctx context.Context) (brokers []platform.Broker, err error) {
	err = s.read(ctx, func(c *connection) error {
		brokers = nil
		return c.brokers.Each(nil, func(values []driver.Value) error {
			broker, err := brokerOf(values)
			brokers = append(brokers, broker)
			return err
		})
	})
	return brokers, err
}

func brokerOf(values []driver.Value) (broker platform.Broker, err error) {
	r := &row{values: values}
	readColumns(r, brokerColumns, &broker)
	if r.err != nil {
		err = fmt.Errorf("sqlite: the broker %s: %w", broker.Name, r.err)
	}
	return broker, err
}

// AddBroker writes a new broker.
func (s *Store) AddBroker(ctx context.Context, broker platform.Broker) error {
	values, err := valuesOf(&broker, brokerColumns)
	if err != nil {
		return err
	}
	return s.write(ctx, func(c *connection) error {
		return one(platform.ErrUsed)(c.insertBroker.Run(values...))
	})
}

// ChangeBroker is one transaction, or a part of one. Nobody writes beside it. change must not call what writes.
func (s *Store) ChangeBroker(
	ctx context.Context, name string, change func(platform.Broker) (*platform.Broker, error),
) error {
	return s.write(ctx, func(c *connection) error {
		row, err := c.broker.One(name)
		if err != nil {
			return err
		}
		if row == nil {
			return unknownBroker(name)
		}
		before, err := brokerOf(row)
		if err != nil {
			return err
		}
		after, err := change(before)
		if err != nil || after == nil {
			return err
		}
		values, err := valuesOf(after, brokerColumns)
		if err != nil {
			return err
		}
		return one(platform.ErrUnknown)(c.updateBroker.Run(append(values[1:], name)...))
	})
}

// unknownBroker is platform.ErrUnknown of a broker.
func unknownBroker(name string) error {
	return fmt.Errorf("%w: the broker %s", platform.ErrUnknown, name)
}

// one returns the error if a statement has written no row.
func one(otherwise error) func(rows int64, err error) error {
	return func(rows int64, err error) error {
		if err == nil && rows == 0 {
			return otherwise
		}
		return err
	}
}

// DropBroker deletes a broker of which nothing was ever ordered.
func (s *Store) DropBroker(ctx context.Context, name string) error {
	return s.write(ctx, func(c *connection) error {
		used, err := c.brokerUsed.One(name)
		if err != nil {
			return err
		}
		if err := one(platform.ErrUnknown)(c.dropBroker.Run(name)); err != nil {
			return err
		}
		if used != nil {
			return platform.ErrUsed // and the row stays, as nothing of a job that fails is written
		}
		return nil
	})
}
