package postgres

import (
	"bytes"
	"context"
	"database/sql"
	"errors"
	"fmt"
	"sort"
	"strings"
	"time"

	jsoniter "github.com/json-iterator/go"

	"pippinterm/osb"
	"pippinterm/platform"
)

// A clock that is read in the list of the outer query is read after the rows of the inner one are locked.
const clock = "date_part('epoch', clock_timestamp())"

// start is when the statement began, on the same clock.
const start = "date_part('epoch', statement_timestamp())"

// isFree is the condition that nobody has leased a row.
const isFree = "(worker IS NULL OR leased_until < " + start + ")"

// dueOf has the rows of a table that are due the longest, of each broker so many by its index, and then of all.
func dueOf(table, key string) string {
	return `(SELECT d.* FROM (SELECT DISTINCT unnest($1::text[]) AS broker) AS k CROSS JOIN LATERAL
        (SELECT ` + key + `, due FROM ` + table + ` WHERE broker = k.broker AND due <= ` + start + ` AND ` + isFree + `
        ORDER BY due LIMIT $3) AS d ORDER BY d.due LIMIT $3)`
}

// lockDue locks the rows that are due the longest, as many instances as bindings, and passes over those that others
// have locked. $2 is how many of each, and $3 among how many of each they are chosen: more, since others lock rows too.
// A row that another transaction has changed meanwhile is returned only if it is still due.
//
// The row of an instance is locked before that of its binding, in the order of the last clause. So whoever has locked a
// binding has locked its instance. FOR KEY SHARE would do, but it doesn't pass over a row that was changed and then
// locked meanwhile: PostgreSQL follows the versions of the row and waits, and two claims would wait for each other.
var lockDue = `
WITH a AS MATERIALIZED (SELECT t AS line FROM ` + dueOf("osb_instances", "id") + ` AS c
        JOIN osb_instances AS t ON t.id = c.id
        WHERE t.due <= ` + start + ` AND (t.worker IS NULL OR t.leased_until < ` + start + `)
        ORDER BY c.due LIMIT $2 FOR UPDATE OF t SKIP LOCKED),
    b AS MATERIALIZED (SELECT t AS line, i AS instance FROM ` + dueOf("osb_bound", "id, binding") + ` AS c
        JOIN osb_instances AS i ON i.id = c.id
        JOIN osb_bound AS t ON t.id = c.id AND t.binding = c.binding
        WHERE t.due <= ` + start + ` AND (t.worker IS NULL OR t.leased_until < ` + start + `)
        ORDER BY c.due LIMIT $2 FOR NO KEY UPDATE OF i SKIP LOCKED FOR UPDATE OF t SKIP LOCKED)
SELECT ` + lineOf("(a.line)", false, false) + `, NULL, ` + clock + ` FROM a
UNION ALL SELECT ` + lineOf("(b.line)", true, false) + `, ` + lineOf("(b.instance)", false, false) + `,
    ` + clock + ` FROM b
`

// among is among how many rows that are due a claim of so many chooses.
func among(most int) int { return 2*most + 64 }

// Claim is one transaction, as platform.Store says.
func (s *Store) Claim(
	ctx context.Context, brokers []string, most int, step platform.Step,
) (claimed []platform.ClaimedRow, err error) {
	return within(ctx, s, func(this *call) (claimed []platform.ClaimedRow, err error) {
		if most < 1 || len(brokers) == 0 {
			return nil, ctx.Err()
		}
		err = s.batch(ctx, this, lockDue, func(of *batch) (err error) {
			if claimed, err = of.lockDue(brokers, most); err != nil {
				return err
			}
			for n, due := range claimed {
				if due.Err == nil {
					claimed[n].Err = of.step(due.Key, step)
				}
				if claimed[n].Err != nil {
					of.postponed = append(of.postponed, due.Key)
				}
			}
			return nil
		})
		if err != nil {
			return nil, err
		}
		return claimed, nil
	})
}

// A dueRow is one that is due.
type dueRow struct {
	platform.ClaimedRow
	at time.Time
}

// lockDue locks and reads at most so many rows, in their order. A row that can't be read has an error.
func (b *batch) lockDue(brokers []string, most int) ([]platform.ClaimedRow, error) {
	found := []dueRow{}
	err := b.each(b.lock, []any{array(brokers), most, among(most)}, func(rows *sql.Rows) error {
		it, err := b.add(rows)
		found = append(found, it)
		return err
	})
	sort.SliceStable(found, func(i, j int) bool {
		if !found[i].at.Equal(found[j].at) {
			return found[i].at.Before(found[j].at)
		}
		return found[i].Key.String() < found[j].Key.String()
	})
	claimed := []platform.ClaimedRow{}
	for n := 0; n < len(found) && n < most; n++ {
		claimed = append(claimed, found[n].ClaimedRow)
	}
	return claimed, err
}

// add adds a row that is locked, and that of a binding's instance. The time is that after the last row was locked.
func (b *batch) add(rows *sql.Rows) (dueRow, error) {
	var text, instance []byte
	var now float64
	if err := rows.Scan(&text, &instance, &now); err != nil {
		return dueRow{}, err
	}
	b.now = timeOf(now)
	entry, unreadable, err := entryOf(text)
	if err != nil {
		return dueRow{}, err
	}
	if unreadable == nil && entry.Key.IsBinding {
		unreadable = b.addInstance(instance)
	}
	if unreadable == nil {
		b.rows[entry.Key] = &lockedRow{entry: entry, isOurs: true}
	}
	return dueRow{platform.ClaimedRow{Key: entry.Key, Err: unreadable}, entry.Due}, nil
}

// addInstance adds the row of a binding's instance, unless the batch has it.
func (b *batch) addInstance(text []byte) error {
	entry, unreadable, err := entryOf(text)
	if err = either(err, unreadable); err == nil && b.rows[entry.Key] == nil {
		b.rows[entry.Key] = &lockedRow{entry: entry}
	}
	return err
}

var lockInstance = `
WITH t AS MATERIALIZED (SELECT * FROM osb_instances WHERE id = $1 FOR UPDATE)
SELECT ` + lineOf("t", false, false) + `, NULL, ` + clock + ` FROM t
`

// The row of the instance is locked first, in the order of the last clause.
var lockBinding = `
WITH t AS MATERIALIZED (SELECT b AS line, i AS instance FROM osb_instances AS i JOIN osb_bound AS b ON b.id = i.id
    WHERE i.id = $1 AND b.binding = $2 FOR KEY SHARE OF i FOR UPDATE OF b)
SELECT ` + lineOf("(t.line)", true, false) + `, ` + lineOf("(t.instance)", false, false) + `, ` + clock + ` FROM t
`

var lockInstanceOf = `
WITH t AS MATERIALIZED (SELECT * FROM osb_instances WHERE id = $1 FOR KEY SHARE)
SELECT ` + lineOf("t", false, false) + ` FROM t
`

// Change is one transaction, as platform.Store says, or of an instance a part of one whose other parts are other
// changes. A panic of step is an error.
func (s *Store) Change(ctx context.Context, key platform.Key, step platform.Step) error {
	if !key.IsBinding {
		return s.changeInstance(ctx, key, step)
	}
	return s.run(ctx, func(this *call) error { return s.changeOne(ctx, this, key, step) })
}

// changeOne is Change in a transaction of its own.
func (s *Store) changeOne(ctx context.Context, this *call, key platform.Key, step platform.Step) error {
	lock, parameters := lockInstance, []any{key.Instance}
	if key.IsBinding {
		lock, parameters = lockBinding, []any{key.Instance, key.Binding}
	}
	return s.batch(ctx, this, lock, func(of *batch) error {
		if err := of.lockOne(key, parameters); err != nil {
			return err
		}
		return of.step(key, step)
	})
}

// lockOne locks and reads the row of a key, and that of a binding's instance.
func (b *batch) lockOne(key platform.Key, parameters []any) error {
	err := b.each(b.lock, parameters, func(rows *sql.Rows) error {
		it, err := b.add(rows)
		return either(err, it.Err)
	})
	if err == nil && b.rows[key] == nil {
		err = fmt.Errorf("%w: %v", platform.ErrUnknown, key)
	}
	return err
}

// Insert is one transaction, as platform.Store says.
func (s *Store) Insert(ctx context.Context, entry platform.Entry, check func(platform.Snapshot) error) error {
	return s.run(ctx, func(this *call) error {
		return s.transaction(ctx, func(tx *sql.Tx) (bool, error) {
			snapshot, err := lockForInsert(ctx, tx, entry)
			if err != nil {
				return false, err
			}
			if err := this.do(func() error { return check(snapshot) }); err != nil {
				return false, err
			}
			return true, insert(ctx, tx, entry)
		})
	})
}

// lockForInsert locks the broker of an order, and the row of a binding's instance.
func lockForInsert(ctx context.Context, tx *sql.Tx, entry platform.Entry) (snapshot platform.Snapshot, err error) {
	key, name := entry.Key, ""
	if err := tx.QueryRowContext(ctx, lockBroker, entry.Broker).Scan(&name); err != nil {
		return snapshot, orUnknown(err, entry.Broker)
	}
	if !key.IsBinding {
		return snapshot, nil
	}
	var text []byte
	err = tx.QueryRowContext(ctx, lockInstanceOf, key.Instance).Scan(&text)
	if errors.Is(err, sql.ErrNoRows) {
		return snapshot, fmt.Errorf("%w: %v", platform.ErrUnknown, osb.InstanceKey(key.Instance))
	}
	if err != nil {
		return snapshot, err
	}
	instance, unreadable, err := entryOf(text)
	snapshot.Instance = &instance
	return snapshot, either(err, unreadable)
}

var (
	insertInstance = inserting("osb_instances", rowColumns.Of(false).Names())
	insertBinding  = inserting("osb_bound", rowColumns.Names())
)

// inserting is a statement that inserts a row, unless its key has one.
func inserting(table string, names []string) string {
	columns := strings.Join(names, ", ")
	return "INSERT INTO " + table + " (" + columns + ") SELECT " + columns +
		" FROM json_populate_record(NULL::" + table + ", $1) ON CONFLICT DO NOTHING"
}

// insert inserts the row of a new order. If its key has a row, the error is platform.ErrUsed.
func insert(ctx context.Context, tx *sql.Tx, entry platform.Entry) error {
	object, err := objectOf(&entry, rowColumns.Of(entry.Key.IsBinding))
	if err != nil {
		return err
	}
	query := insertInstance
	if entry.Key.IsBinding {
		query = insertBinding
	}
	done, err := tx.ExecContext(ctx, query, string(object))
	if err != nil {
		return err
	}
	if count, err := done.RowsAffected(); err != nil || count != 1 {
		return either(err, fmt.Errorf("%w: %v", platform.ErrUsed, entry.Key))
	}
	return nil
}

// assignments are the assignments of columns, of the same columns of v.
func assignments(columns []string) string {
	texts := []string{}
	for _, column := range columns {
		texts = append(texts, column+" = v."+column)
	}
	return strings.Join(texts, ", ")
}

// A batch is what a transaction has locked and read, and what it is about to write. A step sees what steps before it in
// the same batch have done.
type batch struct {
	ctx  context.Context
	tx   *sql.Tx
	call *call
	lock *sql.Stmt // that locks and reads the rows
	send *sql.Stmt // that writes them: writeRows
	now  time.Time

	rows map[platform.Key]*lockedRow
	// Of these instances the bindings that aren't in the batch are removed, or the row is woken that isn't.
	removals, wakes []string
	stays           []stay
	postponed       []platform.Key // the rows whose steps have failed
	failed          error          // why the batch can't be written, or nil
	// bound are the instances of the batch with a binding that may exist and isn't in the batch. It is read once.
	bound map[string]bool
}

// A lockedRow row is one of a batch.
type lockedRow struct {
	entry  platform.Entry
	isOurs bool   // whether it is locked to be written; else it is the instance of a binding, and only read
	toSend []byte // the object that is to be written, or nil
}

// A stay is a row of osb_lives without its number.
type stay struct {
	key platform.Key
	platform.Stay
}

// batch calls a function in a transaction, with a batch whose rows are locked by a statement. The batch is written if
// the function returns no error.
func (s *Store) batch(ctx context.Context, of *call, lock string, passed func(*batch) error) error {
	locking, err := s.statement(ctx, lock)
	if err != nil {
		return err
	}
	sending, err := s.statement(ctx, writeRows)
	if err != nil {
		return err
	}
	return s.transaction(ctx, func(tx *sql.Tx) (bool, error) {
		it := &batch{ctx: ctx, tx: tx, call: of, lock: locking, send: sending, rows: map[platform.Key]*lockedRow{}}
		if err := passed(it); err != nil {
			return false, err
		}
		return it.write()
	})
}

// each calls with each row of a statement.
func (b *batch) each(statement *sql.Stmt, parameters []any, call func(*sql.Rows) error) error {
	rows, err := b.tx.StmtContext(b.ctx, statement).QueryContext(b.ctx, parameters...)
	return each(rows, err, call)
}

// step steps a row.
func (b *batch) step(key platform.Key, step platform.Step) error {
	snapshot := platform.Snapshot{Entry: b.rows[key].entry}
	if key.IsBinding {
		instance := b.rows[osb.InstanceKey(key.Instance)].entry
		snapshot.Instance = &instance
	} else {
		snapshot.AllGone = func() (bool, error) { return b.allGone(key) }
	}
	var change *platform.Change
	err := b.call.do(func() (err error) {
		change, err = step(b.now, snapshot)
		return err
	})
	if err != nil || change == nil {
		return err
	}
	return b.take(key, *change)
}

// take takes a change of a row. If it fails, nothing of the row is taken.
func (b *batch) take(key platform.Key, change platform.Change) error {
	it := b.rows[key]
	before, entry := it.entry, change.Entry
	entry.Order = before.Order
	object, err := objectOf(&entry, changedOf[entry.Key.IsBinding])
	if err != nil {
		return err
	}
	if change.Next != nil {
		if err := insert(b.ctx, b.tx, *change.Next); err != nil {
			return err
		}
	}
	it.entry, it.toSend = entry, object
	if entry.State != before.State {
		b.stays = append(b.stays, stay{key, platform.Stay{State: before.State, Since: before.Since}})
	}
	if change.RemoveBindings && !key.IsBinding {
		b.removeBindings(key)
	}
	if change.WakeInstance && key.IsBinding {
		b.wake(osb.InstanceKey(key.Instance))
	}
	return nil
}

// removeBindings removes those bindings of an instance that may be.
func (b *batch) removeBindings(instance platform.Key) {
	b.removals = append(b.removals, instance.Instance.String())
	for key, row := range b.rows {
		if !key.IsBinding || key.Instance != instance.Instance {
			continue
		}
		switch entry := row.entry; entry.State {
		case platform.Gone, platform.Withdrawn, platform.Abandoned:
		default:
			entry.Removal, entry.Due = platform.Removed, soonest(entry.Due, b.now)
			b.set(row, entry)
		}
	}
}

// wake has an instance due whose removal is asked for.
func (b *batch) wake(instance platform.Key) {
	switch it := b.rows[instance]; {
	case it.entry.Removal == platform.NotRemoved:
	case !it.isOurs:
		b.wakes = append(b.wakes, instance.Instance.String())
	default:
		entry := it.entry
		entry.Due = soonest(entry.Due, b.now)
		b.set(it, entry)
	}
}

// set has an entry written in place of the one that was read.
func (b *batch) set(it *lockedRow, entry platform.Entry) {
	object, err := objectOf(&entry, changedOf[entry.Key.IsBinding])
	it.entry, it.toSend = entry, object
	b.failed = either(b.failed, err)
}

func soonest(due, now time.Time) time.Time {
	if due.IsZero() || due.After(now) {
		return now
	}
	return due
}

// allGone reports whether no binding of an instance of the batch may exist. The row of the instance is locked, so none
// comes into being until the transaction ends.
func (b *batch) allGone(instance platform.Key) (bool, error) {
	for key, row := range b.rows {
		if key.IsBinding && key.Instance == instance.Instance && mayExist(row.entry) {
			return false, nil
		}
	}
	if b.bound == nil {
		if err := b.readBound(); err != nil {
			return false, err
		}
	}
	return !b.bound[instance.Instance.String()], nil
}

func mayExist(entry platform.Entry) bool {
	return entry.IsSent && !entry.Record.IsGone() && entry.State != platform.Abandoned
}

// boundOf has the instances with a binding that may exist (mayExist), but for some bindings. A statement of its own
// reads what was committed while the transaction waited for its locks.
const boundOf = `
SELECT DISTINCT id FROM osb_bound
WHERE id = ANY ($1) AND record IS NOT NULL AND state NOT IN ('gone', 'abandoned')
    AND id || '/' || binding <> ALL ($2)
`

// readBound reads bound. A step waits for it, so it doesn't outlast the context for long.
func (b *batch) readBound() (err error) {
	instances, bindings := []string{}, []string{}
	for key, row := range b.rows {
		switch {
		case key.IsBinding:
			bindings = append(bindings, key.String())
		case row.isOurs:
			instances = append(instances, key.String())
		}
	}
	b.bound, _, err = runWithin(b.ctx, func() (map[string]bool, error) {
		found := map[string]bool{}
		rows, err := b.tx.QueryContext(b.ctx, boundOf, array(instances), array(bindings))
		return found, each(rows, err, func(rows *sql.Rows) error {
			var id string
			err := rows.Scan(&id)
			found[id] = true
			return err
		})
	})
	if err != nil {
		b.bound = nil
	}
	return err
}

// Nobody else holds a lock of these bindings, since the row of their instance is locked.
const removeBindings = `
UPDATE osb_bound SET removal = 1, due = least(due, $2)
WHERE id = ANY ($1) AND state NOT IN ('gone', 'withdrawn', 'abandoned')
`

// Two transactions that wake the same instances wait for each other in one order.
const wakeInstances = `
WITH w AS MATERIALIZED
    (SELECT id FROM osb_instances WHERE id = ANY ($1) AND removal <> 0 ORDER BY id FOR NO KEY UPDATE)
UPDATE osb_instances AS t SET due = least(t.due, $2) FROM w WHERE t.id = w.id
`

// write writes what was taken, and returns whether there was anything. The rows of the batch come last, since they have
// all that was taken.
func (b *batch) write() (bool, error) {
	if b.failed != nil {
		return false, b.failed
	}
	for _, test := range []struct {
		query string
		ids   []string
	}{{removeBindings, b.removals}, {wakeInstances, b.wakes}} {
		if len(test.ids) == 0 {
			continue
		}
		if _, err := b.tx.ExecContext(b.ctx, test.query, array(test.ids), secondsOf(b.now)); err != nil {
			return false, err
		}
	}
	var instances, bindings objects
	for key, row := range b.rows {
		switch {
		case row.toSend == nil:
		case key.IsBinding:
			bindings.add(key, row.toSend)
		default:
			instances.add(key, row.toSend)
		}
	}
	if err := b.postpone(); err != nil {
		return false, err
	}
	if len(instances.ids)+len(bindings.ids) == 0 {
		return len(b.postponed) > 0, nil
	}
	return true, b.writeRows(instances, bindings)
}

const (
	postponeInstances = "UPDATE osb_instances SET due = $1 WHERE id = ANY ($2)"
	postponeBindings  = "UPDATE osb_bound SET due = $1 WHERE id = ANY ($2) AND id || '/' || binding = ANY ($3)"
)

// postpone has the rows whose steps have failed due later. Nothing else of them is read or written.
func (b *batch) postpone() error {
	var instances, of, bindings []string
	for _, key := range b.postponed {
		if key.IsBinding {
			of, bindings = append(of, key.Instance.String()), append(bindings, key.String())
		} else {
			instances = append(instances, key.Instance.String())
		}
	}
	due := secondsOf(b.now.Add(platform.FailedRest))
	if len(instances) > 0 {
		if _, err := b.tx.ExecContext(b.ctx, postponeInstances, due, array(instances)); err != nil {
			return err
		}
	}
	if len(bindings) == 0 {
		return nil
	}
	_, err := b.tx.ExecContext(b.ctx, postponeBindings, due, array(of), array(bindings))
	return err
}

// writeRows writes rows and stays in one statement. The conditions with ANY are for the planner. It doesn't know how
// many rows there are in JSON, and reads the whole of a small table otherwise.
var writeRows = `
WITH i AS (UPDATE osb_instances AS t SET ` + assignments(stateColumns.Of(false).Names()) + `
        FROM json_populate_recordset(NULL::osb_instances, $1) AS v WHERE t.id = v.id AND t.id = ANY ($4) RETURNING 1),
    b AS (UPDATE osb_bound AS t SET ` + assignments(stateColumns.Names()) + `
        FROM json_populate_recordset(NULL::osb_bound, $2) AS v
        WHERE t.id = v.id AND t.binding = v.binding AND t.id = ANY ($5) RETURNING 1),
    l AS (INSERT INTO osb_lives (id, number, state, since)
        SELECT v.id, (SELECT coalesce(max(number), 0) + 1 FROM osb_lives AS l WHERE l.id = v.id), v.state, v.since
        FROM json_populate_recordset(NULL::osb_lives, $3) AS v RETURNING 1)
SELECT (SELECT count(*) FROM i), (SELECT count(*) FROM b), (SELECT count(*) FROM l)
`

func (b *batch) writeRows(instances, bindings objects) error {
	stays, err := jsoniter.MarshalToString(keptStays(b.stays))
	if err != nil {
		return err
	}
	got, want := [3]int{}, [3]int{len(instances.ids), len(bindings.ids), len(b.stays)}
	parameters := []any{instances.text(), bindings.text(), stays, array(instances.ids), array(bindings.ids)}
	err = b.each(b.send, parameters, func(rows *sql.Rows) error {
		return rows.Scan(&got[0], &got[1], &got[2])
	})
	if err == nil && got != want {
		err = fmt.Errorf("%v rows were written, and not %v. Never delete rows of the store", got, want)
	}
	return err
}

// A keptStay is a stay in JSON, as json_populate_recordset reads it.
type keptStay struct {
	ID    string         `json:"id"`
	State platform.State `json:"state"`
	Since float64        `json:"since"` // secondsOf
}

func keptStays(stays []stay) []keptStay {
	kept := make([]keptStay, 0, len(stays))
	for _, it := range stays {
		kept = append(kept, keptStay{it.key.String(), it.State, secondsOf(it.Since)})
	}
	return kept
}

// objects are rows of one table that are to be written, with the ids of their instances.
type objects struct {
	ids  []string
	rows [][]byte
}

func (o *objects) add(key platform.Key, row []byte) {
	o.ids, o.rows = append(o.ids, key.Instance.String()), append(o.rows, row)
}

// text is an array of the rows.
func (o *objects) text() string { return "[" + string(bytes.Join(o.rows, []byte(","))) + "]" }

// either is the first error that isn't nil.
func either(first, second error) error {
	if first != nil {
		return first
	}
	return second
}
