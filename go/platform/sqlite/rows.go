package sqlite

import (
	"context"
	"database/sql/driver"
	"errors"
	"fmt"
	"math"
	"strings"
	"time"

	"pippinterm/internal/sqlitefile"
	"pippinterm/osb"
	"pippinterm/platform"
)

type (
	entryColumn  = platform.Column[platform.Entry]
	entryColumns = platform.Columns[platform.Entry]
)

// The columns of an order, which are written once, and of what has become of it.
var (
	orderColumns = append(columnsOf(platform.OrderColumns),
		entryColumn{Name: "instance_name", Member: func(e *platform.Entry) any {
			return &name{&e.Names.Instance, e.Key.Instance}
		}},
		entryColumn{Name: "service_name", Member: func(e *platform.Entry) any {
			return &name{&e.Names.Service, e.Service}
		}},
		entryColumn{Name: "plan_name", Member: func(e *platform.Entry) any { return &name{&e.Names.Plan, e.Plan} }},
		entryColumn{Name: "binding_name", IsOfBinding: true, Member: func(e *platform.Entry) any {
			return &name{&e.Names.Binding, e.Key.Binding}
		}},
		entryColumn{Name: "first", Member: func(e *platform.Entry) any { return (*first)(e) }},
	)
	stateColumns = append(columnsOf(platform.StateColumns),
		entryColumn{Name: "may_exist", IsOfBinding: true, Member: func(e *platform.Entry) any {
			mayExist := e.IsSent && !e.Record.IsGone() && e.State != platform.Abandoned
			return &mayExist // for platform.Snapshot.AllGone
		}},
	)
	rowColumns = append(append(entryColumns{}, orderColumns...), stateColumns...)
	// those that are written in whole milliseconds
	timeColumns = timesOf(stateColumns)

	brokerColumns = columnsOf(platform.BrokerColumns)
)

// columnsOf are columns as a file has them. Some have another name there, and an identity isn't NULL.
func columnsOf[T any](columns platform.Columns[T]) platform.Columns[T] {
	names := map[string]string{
		"own_id": "is_own", "try_number": "try", "passing": "is_passing", "after": "after_ms", "username": "user",
	}
	columns = append(platform.Columns[T]{}, columns...)
	for at, column := range columns {
		if name, isOther := names[column.Name]; isOther {
			columns[at].Name = name
		}
		columns[at].NotNull = column.NotNull || column.Name == "identity"
	}
	return columns
}

func timesOf(columns entryColumns) (times entryColumns) {
	for _, column := range columns {
		switch column.Member(&platform.Entry{}).(type) {
		case *time.Time, *time.Duration:
			times = append(times, column)
		}
	}
	return times
}

// A name is a text that is NULL if it is the number of its id.
type name struct {
	text *string
	id   osb.ID
}

func (n *name) MarshalText() ([]byte, error) {
	if *n.text == n.id.String() {
		return nil, nil
	}
	return []byte(*n.text), nil
}

func (n *name) UnmarshalText(text []byte) error {
	*n.text = string(text)
	return nil
}

// A first is platform.Entry.First, which is NULL if it is the row itself.
type first platform.Entry

func (f *first) MarshalText() ([]byte, error) {
	if f.First == f.Key.ID() {
		return nil, nil
	}
	return f.First.MarshalText()
}

func (f *first) UnmarshalText(text []byte) error { return f.First.UnmarshalText(text) }

// lineOf is what is read of a row of a table, as entryOf reads it: NULL for the columns that the table doesn't have, and
// if it is brief for those that may be long. The driver makes a text of the declared type of each column, for each query:
// what has a + before it has none.
func lineOf(isBinding, isBrief bool) string {
	names := []string{"+id", "NULL"}
	if isBinding {
		names = []string{"+instance", "+id"}
	}
	for _, column := range rowColumns {
		name := "+" + column.Name
		if column.IsOfBinding && !isBinding || column.IsLong && isBrief {
			name = "NULL"
		}
		names = append(names, name)
	}
	return join(names)
}

func join(names []string) string { return strings.Join(names, ", ") }

// inserting is a statement that inserts a row unless its key is used.
func inserting(table string, names ...string) string {
	return "INSERT INTO " + table + " (" + join(names) + ") VALUES (?" + strings.Repeat(", ?", len(names)-1) +
		") ON CONFLICT DO NOTHING"
}

// updating is a statement that sets columns of the row of a key.
func updating(table, key string, names []string) string {
	return "UPDATE " + table + " SET " + strings.Join(names, " = ?, ") + " = ? WHERE " + key
}

// keyValues are the values of the columns of a key.
func keyValues(key platform.Key) []driver.Value {
	if key.IsBinding {
		return []driver.Value{key.Instance.String(), key.Binding.String()}
	}
	return []driver.Value{key.Instance.String()}
}

// valuesOf are the values of columns of an entry or a broker.
func valuesOf[T any](of *T, columns platform.Columns[T]) ([]driver.Value, error) {
	values := make([]driver.Value, 0, len(columns)+2) // and a key
	for _, column := range columns {
		var value driver.Value
		var err error
		switch member := column.Member(of).(type) {
		case *int:
			value = int64(*member)
		case *time.Time:
			if !member.IsZero() {
				value = seconds(*member)
			}
		case *time.Duration:
			value = member.Milliseconds()
		default:
			value, err = column.Value(of)
		}
		if err != nil {
			return nil, err
		}
		values = append(values, value)
	}
	return values, nil
}

// seconds are a time as a column has it: seconds since 1970, in whole milliseconds.
func seconds(at time.Time) driver.Value {
	return float64(round(at).UnixMilli()) / 1000
}

// round is a time in whole milliseconds, and not before the time: nothing leaves later than a row says.
func round(at time.Time) time.Time {
	const most = time.Millisecond - time.Nanosecond
	return time.UnixMilli(at.Add(most).UnixMilli()).UTC()
}

// A row has the values of a row that was read, and gives them one after another. It keeps the first error.
type row struct {
	values []driver.Value
	err    error
}

func (r *row) next() (value driver.Value) {
	value, r.values = r.values[0], r.values[1:]
	return value
}

func (r *row) fail(value driver.Value, want string) {
	if r.err == nil {
		r.err = fmt.Errorf("a column has %T, and not %s", value, want)
	}
}

// text is a text, or empty if the column is NULL.
func (r *row) text() string {
	switch value := r.next().(type) {
	case nil:
	case string:
		return value
	case []byte:
		return string(value)
	default:
		r.fail(value, "a text")
	}
	return ""
}

func (r *row) optional() *string {
	if r.values[0] == nil {
		r.next()
		return nil
	}
	text := r.text()
	return &text
}

func (r *row) blob() []byte {
	switch value := r.next().(type) {
	case nil:
		return nil
	case []byte:
		return value
	case string:
		return []byte(value)
	default:
		r.fail(value, "bytes")
		return nil
	}
}

func (r *row) number() int64 {
	value := r.next()
	number, ok := value.(int64)
	if !ok && value != nil {
		r.fail(value, "a number")
	}
	return number
}

func (r *row) at() time.Time {
	var value float64
	switch it := r.next().(type) {
	case nil:
		return time.Time{}
	case float64:
		value = it
	case int64:
		value = float64(it)
	default:
		r.fail(it, "a time")
		return time.Time{}
	}
	return time.UnixMilli(int64(math.Round(value * 1000))).UTC()
}

// entryOf reads the columns of lineOf. If one can't be read, the entry has all others.
func entryOf(values []driver.Value) (entry platform.Entry, err error) {
	r := &row{values: values}
	entry.Key = r.key()
	readColumns(r, rowColumns, &entry)
	key, names := entry.Key, &entry.Names
	names.Instance = orNumber(names.Instance, key.Instance)
	names.Service, names.Plan = orNumber(names.Service, entry.Service), orNumber(names.Plan, entry.Plan)
	if key.IsBinding {
		names.Binding = orNumber(names.Binding, key.Binding)
	}
	if entry.First == (osb.ID{}) {
		entry.First = key.ID()
	}
	if r.err != nil {
		err = fmt.Errorf("sqlite: the row of %v: %w", key, r.err)
	}
	return entry, err
}

// orNumber is a name, or the number of its id if the name is NULL.
func orNumber(name string, id osb.ID) string {
	if name == "" {
		return id.String()
	}
	return name
}

// readColumns reads the next columns.
func readColumns[T any](r *row, columns platform.Columns[T], of *T) {
	for _, column := range columns {
		switch member := column.Member(of).(type) {
		case *string:
			*member = r.text()
		case *int:
			*member = int(r.number())
		case *bool:
			*member = r.number() != 0
		case *time.Time:
			*member = r.at()
		case *time.Duration:
			*member = time.Duration(r.number()) * time.Millisecond
		case *[]byte:
			*member = r.blob()
		case platform.Text:
			r.readText(column.Name, member)
		}
	}
}

func (r *row) readText(column string, member platform.Text) {
	if text := r.optional(); text != nil {
		if err := member.UnmarshalText([]byte(*text)); err != nil && r.err == nil {
			r.err = fmt.Errorf("the column %s: %w", column, err)
		}
	}
}

// sinceColumn is the index of since in lineOf.
var sinceColumn = 2 + len(orderColumns) + 1

// shownOf is entryOf for whoever only shows the row: if it can't be read, the entry says so. An error is left only if
// the key or since can't be read, without which the row has no position among others.
func shownOf(values []driver.Value) (platform.Entry, error) {
	position := &row{values: []driver.Value{values[0], values[1], values[sinceColumn]}}
	position.key()
	position.at()
	entry, err := entryOf(values)
	if err != nil && position.err == nil {
		entry.Unreadable, err = err.Error(), nil
	}
	return entry, err
}

func (r *row) key() (key platform.Key) {
	r.readText("id", &key.Instance)
	key.IsBinding = r.values[0] != nil
	r.readText("id", &key.Binding)
	return key
}

// The numbers of the tables, in the file's user_version: that which this version reads and writes, and that of version
// 0.3. Version 0.2 has 0 there.
const (
	format   = 4
	formatV3 = 3
)

// The values that version 0.2 has as defaults of its options, and that its tables don't have.
const (
	firstBroker   = "default"
	usualUser     = "platform"
	usualIdentity = "osb-platform" // of the organization and the space
)

// The tables of version 0.2.
var tables = []string{
	"CREATE TABLE IF NOT EXISTS osb_instances (id text PRIMARY KEY, service text NOT NULL, plan text NOT NULL, " +
		"further text NOT NULL, record text, operation text, state text NOT NULL, since double precision NOT NULL, " +
		"sent_until double precision, polled_since double precision, removal integer NOT NULL, due double precision, " +
		"tries integer NOT NULL, worker text, leased_until double precision)",
	"CREATE TABLE IF NOT EXISTS osb_lives (id text NOT NULL, number integer NOT NULL, state text NOT NULL, " +
		"since double precision NOT NULL, PRIMARY KEY (id, number))",
	"CREATE TABLE IF NOT EXISTS osb_broker_asked (one integer PRIMARY KEY CHECK (one = 1), url text NOT NULL)",
	"CREATE INDEX IF NOT EXISTS osb_instances_by_state ON osb_instances (state, since, id)",
	"CREATE INDEX IF NOT EXISTS osb_leased_instances ON osb_instances (leased_until) WHERE worker IS NOT NULL",
}

// The columns that 0.2 didn't have. Nothing is written into the rows that there are: they have the defaults. A name is
// NULL if it is the number of its id as a GUID, and the first try is NULL if it is the row itself.
var columns = []string{
	"broker text NOT NULL DEFAULT '" + firstBroker + "'",
	"instance_name text", "service_name text", "plan_name text",
	"is_own integer NOT NULL DEFAULT 0",
	"organization text NOT NULL DEFAULT '" + usualIdentity + "'",
	"space text NOT NULL DEFAULT '" + usualIdentity + "'",
	"identity text NOT NULL DEFAULT ''",
	"try integer NOT NULL DEFAULT 1", "most_tries integer NOT NULL DEFAULT 1", "first text",
	"has_last integer NOT NULL DEFAULT 0",
	"last text", "failure text", "is_passing integer NOT NULL DEFAULT 0", "after_ms integer NOT NULL DEFAULT 0",
	"dashboard text", "metadata text", "because text",
}

// What there is besides. Each index of bindings is that of instances.
var further = []string{
	"CREATE TABLE osb_bindings (instance text NOT NULL, id text NOT NULL, service text NOT NULL, plan text NOT NULL, " +
		"further text NOT NULL, record text, operation text, state text NOT NULL, since double precision NOT NULL, " +
		"sent_until double precision, polled_since double precision, removal integer NOT NULL, due double precision, " +
		"tries integer NOT NULL, worker text, leased_until double precision, broker text NOT NULL, " +
		"instance_name text, service_name text, plan_name text, is_own integer NOT NULL, organization text NOT NULL, " +
		"space text NOT NULL, identity text NOT NULL, try integer NOT NULL, most_tries integer NOT NULL, first text, " +
		"has_last integer NOT NULL, last text, failure text, is_passing integer NOT NULL, after_ms integer NOT NULL, " +
		"dashboard text, metadata text, because text, " +
		"binding_name text, credentials blob, may_exist integer NOT NULL, PRIMARY KEY (instance, id))",
	"CREATE TABLE osb_brokers (name text PRIMARY KEY, url text NOT NULL, user text NOT NULL, password blob, " +
		"password_file text NOT NULL, settings text NOT NULL, catalogue text, catalogue_at double precision, " +
		"reason text) WITHOUT ROWID",
	"CREATE TABLE osb_counts (broker text NOT NULL, is_binding integer NOT NULL, state text NOT NULL, " +
		"count integer NOT NULL, PRIMARY KEY (broker, is_binding, state)) WITHOUT ROWID",
	"CREATE TABLE osb_store (one integer PRIMARY KEY CHECK (one = 1), fingerprint text)",
	"CREATE TABLE osb_readiness (one integer PRIMARY KEY CHECK (one = 1), asked integer NOT NULL)",
	"DROP INDEX IF EXISTS osb_due_instances", // of 0.2: all brokers together
	"CREATE INDEX osb_instances_to_do ON osb_instances (broker, due, leased_until) WHERE due IS NOT NULL",
	"CREATE INDEX osb_bindings_to_do ON osb_bindings (broker, due, leased_until) WHERE due IS NOT NULL",
	"CREATE INDEX osb_instances_by_broker ON osb_instances (broker, state, since, id)",
	"CREATE INDEX osb_bindings_by_broker ON osb_bindings (broker, state, since, instance, id)",
	"CREATE INDEX osb_bindings_by_state ON osb_bindings (state, since, instance, id)",
	"CREATE INDEX osb_bindings_by_id ON osb_bindings (id)",
	"CREATE INDEX osb_leased_bindings ON osb_bindings (leased_until) WHERE worker IS NOT NULL",
	"CREATE INDEX osb_instances_tried_again ON osb_instances (first) WHERE first IS NOT NULL",
	"CREATE INDEX osb_bindings_tried_again ON osb_bindings (first) WHERE first IS NOT NULL",
	"CREATE INDEX osb_bindings_that_may_exist ON osb_bindings (instance) WHERE may_exist",
}

// Rows are counted as they are written (counts): to count them takes longer, the more there are.
const counting = "INSERT INTO osb_counts SELECT broker, 0, state, count(*) FROM osb_instances GROUP BY broker, state"

// In version 0.3, each statement counted what it wrote.
var countingOfV3 = []string{
	"DROP TRIGGER osb_instances_counted", "DROP TRIGGER osb_bindings_counted",
	"DROP TRIGGER osb_instances_recounted", "DROP TRIGGER osb_bindings_recounted",
}

// What becomes of the rows of 0.2. Times get whole milliseconds, as all that are written: a position in a list finds
// its row again. Of a row that is gone, only the last deletion was due. No worker goes on with one that is withdrawn.
var changes = []string{
	"UPDATE osb_instances SET since = round(since * 1000) / 1000.0, has_last = state = 'gone' AND due IS NOT NULL, " +
		"due = CASE WHEN state = 'withdrawn' THEN NULL ELSE round(due * 1000) / 1000.0 END, " +
		"leased_until = round(leased_until * 1000) / 1000.0",
	"INSERT INTO osb_brokers (name, url, user, password_file, settings) " +
		"SELECT '" + firstBroker + "', url, '" + usualUser + "', '', '{}' FROM osb_broker_asked",
	// 0.2 compares this with its --broker, and refuses to run over a store that it would take for its own
	"INSERT INTO osb_broker_asked " +
		"VALUES (1, 'of a later version of osb-platform, which this one must not run beside') " +
		"ON CONFLICT (one) DO UPDATE SET url = excluded.url",
}

var (
	errLater   = errors.New("it is the store of a later version of osb-platform. Run that version")
	errForeign = errors.New("it is a file of another program")
)

// migrate brings the tables of the file of a path up to date, in one transaction. If they are, nothing is written.
func migrate(ctx context.Context, conn *sqlitefile.Conn, path string) error {
	found, missing, err := schemaOf(ctx, conn)
	if err != nil || found == format && len(missing) == 0 {
		return err
	}
	if found != format {
		if worker, err := running(path); err != nil {
			return err
		} else if worker != "" {
			return fmt.Errorf("the worker %s of an older version runs over it. Stop all workers first", worker)
		}
	}
	return conn.Transaction(ctx, func() error {
		found, _, err := schemaOf(ctx, conn) // another process may have extended them meanwhile
		if err == nil && found != format {
			err = extend(conn, found)
		}
		if err != nil {
			return err
		}
		_, missing, err := schemaOf(ctx, conn)
		if err != nil {
			return err
		}
		return execute(conn, missing)
	})
}

// migrateExisting is migrate of a file that has tables. If it has none, the error is platform.ErrNoStore.
func migrateExisting(ctx context.Context, conn *sqlitefile.Conn, path string) error {
	count := int64(0)
	err := sqlitefile.Patiently(ctx, func() error {
		return conn.Each("SELECT count(*) FROM sqlite_master", nil, func(row []driver.Value) error {
			count, _ = row[0].(int64)
			return nil
		})
	})
	switch {
	case err != nil:
		return err
	case count == 0:
		return platform.ErrNoStore
	}
	return migrate(ctx, conn, path)
}

// The columns of osb_instances in version 0.2, which each later version has too.
const (
	firstColumns = "'id', 'service', 'plan', 'further', 'record', 'operation', 'state', 'since', 'sent_until', " +
		"'polled_since', 'removal', 'due', 'tries', 'worker', 'leased_until'"
	countOfFirst = 15
)

// schemaOf returns the number of the tables, and the statements that add the columns that they lack. Another program
// may have a table of the same name: the columns say which is which.
func schemaOf(ctx context.Context, conn *sqlitefile.Conn) (found int64, missing []string, err error) {
	columns, others := int64(0), int64(0)
	err = sqlitefile.Patiently(ctx, func() error {
		return conn.Each("SELECT (SELECT user_version FROM pragma_user_version), "+
			"(SELECT count(*) FROM pragma_table_info('osb_instances') WHERE name IN ("+firstColumns+")), "+
			"count(*) FROM sqlite_master WHERE type = 'table'", nil,
			func(row []driver.Value) error {
				found, _ = row[0].(int64)
				columns, _ = row[1].(int64)
				others, _ = row[2].(int64)
				return nil
			})
	})
	isKnown := columns == countOfFirst
	switch {
	case err != nil:
		return 0, nil, err
	case found > format && isKnown:
		return 0, nil, errLater
	case found != 0 && found != formatV3 && found != format, !isKnown && others > 0:
		return 0, nil, errForeign
	}
	missing, err = missingColumns(ctx, conn)
	return found, missing, err
}

// missingColumns are the statements that add the columns that the tables lack.
func missingColumns(ctx context.Context, conn *sqlitefile.Conn) (statements []string, err error) {
	for _, table := range []string{"osb_instances", "osb_bindings"} {
		found := map[driver.Value]bool{}
		err := sqlitefile.Patiently(ctx, func() error {
			return conn.Each("SELECT name FROM pragma_table_info(?)", []driver.Value{table}, func(row []driver.Value) error {
				found[row[0]] = true
				return nil
			})
		})
		if err != nil {
			return nil, err
		}
		for _, column := range rowColumns.Of(table == "osb_bindings") {
			if !found[column.Name] {
				statements = append(statements, "ALTER TABLE "+table+" ADD COLUMN "+column.Name+" "+typeOf(column))
			}
		}
	}
	return statements, nil
}

// typeOf is the type of a column that is added.
func typeOf(column entryColumn) string {
	switch column.Member(&platform.Entry{}).(type) {
	case *int, *bool, *time.Duration:
		return "integer"
	case *time.Time:
		return "double precision"
	case *[]byte:
		return "blob"
	}
	return "text"
}

// extend extends the tables of 0.3, or those of 0.2, which it creates if they are missing.
func extend(conn *sqlitefile.Conn, found int64) error {
	statements := append([]string{}, countingOfV3...)
	if found != formatV3 {
		statements = append([]string{}, tables...)
		for _, column := range columns {
			statements = append(statements, "ALTER TABLE osb_instances ADD COLUMN "+column)
		}
		statements = append(append(append(statements, further...), changes...), counting)
	}
	return execute(conn, append(statements, fmt.Sprintf("PRAGMA user_version = %d", format)))
}

// execute executes statements.
func execute(conn *sqlitefile.Conn, statements []string) error {
	for _, statement := range statements {
		if err := conn.Exec(statement); err != nil {
			return fmt.Errorf("%s: %w", statement, err)
		}
	}
	return nil
}
