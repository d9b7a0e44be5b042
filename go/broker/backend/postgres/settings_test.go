package postgres_test

import (
	"encoding/json"
	"errors"
	"strings"
	"testing"
	"time"

	"pippinterm/broker"
	"pippinterm/broker/backend/postgres"
	"pippinterm/internal/diff"
	"pippinterm/internal/pg/pgtest"
	"pippinterm/internal/waits"
	"pippinterm/osb"
)

var _ broker.UpdateBackend = (*postgres.Databases)(nil)

// Two plans, of which only the second has a limit of the time of statements.
var plans = map[string]postgres.Limits{
	"small": {Connections: 3},
	"large": {Connections: 5, StatementTimeout: time.Minute},
}

func withPlans(o *postgres.Options) { o.Plans = plans }

// updateOf is an update of an instance, from the plan with which it was created.
func updateOf(of lockedKey, plan, parameters string) broker.Update {
	to := broker.Settings{PlanID: plan}
	if parameters != "" {
		to.Parameters = json.RawMessage(parameters)
	}
	return broker.Update{Request: of.request, From: broker.Settings{PlanID: of.request.PlanID}, To: to}
}

// wantUpdated fails the test unless LookUpdate returns what is wanted.
func wantUpdated(t *testing.T, d *postgres.Databases, of lockedKey, update broker.Update, want broker.There) {
	t.Helper()
	diff.Equal(t, diff.Value(d.LookUpdate(of.ctx, update))(t), want, "of the update")
}

// wantLimits sees which limits a database and its roles have.
func (r *rig) wantLimits(key broker.Key, want, timeout string) {
	r.t.Helper()
	name := postgres.NameOf(osb.InstanceKey(key.Instance))
	limits := r.column("SELECT rolconnlimit::text FROM pg_roles WHERE starts_with(rolname, $1) UNION ALL "+
		"SELECT datconnlimit::text FROM pg_database WHERE datname = $1", name)
	for _, limit := range limits {
		diff.Equal(r.t, limit, want, "a limit of connections")
	}
	set := r.column("SELECT unnest(setconfig) FROM pg_db_role_setting JOIN pg_database AS d ON d.oid = setdatabase "+
		"WHERE datname = $1", name)
	diff.Equal(r.t, strings.Join(set, ","), timeout, "the timeout of statements")
}

// An update changes a living database with its bindings, and bindings of later get the new limits too.
func TestUpdate(t *testing.T) {
	r := newRig(t)
	d := r.open(withPlans)
	it := lock(t, d, newInstance(t))
	it.request.PlanID = "small"
	update := updateOf(it, "large", `{"connection_limit": 4, "statement_timeout": 1500}`)
	wantUpdated(t, d, it, update, broker.Part)
	if err := d.Update(it.ctx, update); err == nil || !strings.Contains(err.Error(), "doesn't exist") {
		t.Errorf("got %v, want that it doesn't exist", err)
	}
	check(t, d.Create(it.ctx, it.request))
	r.wantLimits(it.request.Key, "3", "")
	customer := r.customer(it.request.Key)
	pgtest.Exec(t, customer, "CREATE TABLE t (x integer)")
	one, _ := bound(t, d, it.request.Key)
	wantUpdated(t, d, it, update, broker.None)
	for n := 0; n < 2; n++ {
		check(t, d.Update(it.ctx, update))
		wantUpdated(t, d, it, update, broker.Whole)
		r.wantLimits(it.request.Key, "4", "statement_timeout=1500ms")
	}
	diff.NoError(t, d.Sync(it.ctx, it.request), "Sync")
	wantThere(t, d, one, broker.Whole)
	bound(t, d, it.request.Key)
	r.wantLimits(it.request.Key, "4", "statement_timeout=1500ms")

	back := broker.Update{Request: it.request, From: update.To, To: update.From}
	wantUpdated(t, d, it, back, broker.None)
	check(t, d.Update(it.ctx, back))
	wantUpdated(t, d, it, back, broker.Whole)
	wantUpdated(t, d, it, updateOf(it, "large", ""), broker.None)
	wantUpdated(t, d, it, broker.Update{Request: it.request, From: update.To, To: update.To}, broker.Part)
	r.wantLimits(it.request.Key, "3", "")
	pgtest.Exec(t, customer, "SELECT x FROM t")
	check(t, d.Delete(it.ctx, it.request))
	check(t, d.Create(it.ctx, it.request))
	wantUpdated(t, d, it, update, broker.None)
}

// An update is done also if the broker's role isn't a member of the roles any more, as a deletion is.
func TestUpdateWithoutMembership(t *testing.T) {
	r := newRig(t)
	d := r.open(withPlans)
	it := lock(t, d, newInstance(t))
	it.request.PlanID = "small"
	check(t, d.Create(it.ctx, it.request))
	one, _ := bound(t, d, it.request.Key)
	for _, key := range []broker.Key{it.request.Key, one.request.Key} {
		pgtest.Exec(t, r.admin, `REVOKE "`+postgres.NameOf(key)+`" FROM `+r.role)
	}
	check(t, d.Update(it.ctx, updateOf(it, "large", "")))
	r.wantLimits(it.request.Key, "5", "statement_timeout=60000ms")
	check(t, d.Delete(it.ctx, it.request))
}

// An update whose transaction fails leaves the database as it was, and says so. It may be tried again.
func TestUpdateThatFails(t *testing.T) {
	r := newRig(t)
	d := r.open(withPlans)
	it := lock(t, d, newInstance(t))
	it.request.PlanID = "small"
	if outlook := broker.OutlookOf(d.Update(it.ctx, updateOf(it, "large", ""))); outlook != nil {
		t.Errorf("without a database: got %v, want nothing that can be expected", outlook)
	}
	check(t, d.Create(it.ctx, it.request))
	own := pgtest.DB(t, r.url)
	pgtest.Exec(t, own, "ALTER TABLE osb_settings RENAME TO elsewhere")
	outlook := broker.OutlookOf(d.Update(it.ctx, updateOf(it, "large", "")))
	if outlook == nil || !*outlook.InstanceUsable || !*outlook.UpdateRepeatable {
		t.Errorf("got %v, want that the database can be used, and updated again", outlook)
	}
	r.wantLimits(it.request.Key, "3", "")
	pgtest.Exec(t, own, "ALTER TABLE elsewhere RENAME TO osb_settings")
	check(t, d.Update(it.ctx, updateOf(it, "large", "")))
	r.wantLimits(it.request.Key, "5", "statement_timeout=60000ms")
}

// An Unbind may drop a role that an update has found. Then the update is tried again.
func TestUpdateWhileARoleIsDropped(t *testing.T) {
	r := newRig(t)
	d := r.open(withPlans)
	it := lock(t, d, newInstance(t))
	it.request.PlanID = "small"
	check(t, d.Create(it.ctx, it.request))
	name := postgres.NameOf(it.request.Key)
	pgtest.Exec(t, r.admin, `CREATE ROLE "`+name+`_gone"`)
	blocked := diff.Value(r.admin.Begin())(t) // the update has found the roles, and waits
	diff.Value(blocked.Exec(`ALTER DATABASE "` + name + `" CONNECTION LIMIT 9`))(t)
	updated := waits.Begin(func() error { return d.Update(it.ctx, updateOf(it, "large", "")) })
	const waiting = "SELECT '' FROM pg_stat_activity WHERE wait_event_type = 'Lock' AND query LIKE 'ALTER DATABASE%'"
	waits.Until(t, "the update to wait", func() bool { return len(r.column(waiting)) > 0 })
	pgtest.Exec(t, r.admin, `DROP ROLE "`+name+`_gone"`)
	check(t, blocked.Rollback())
	check(t, waits.For(t, updated, "the end of the update"))
	r.wantLimits(it.request.Key, "5", "statement_timeout=60000ms")
}

// Parameters may ask for less than the plan has, and for nothing else.
func TestLimitsOfPlans(t *testing.T) {
	r := newRig(t)
	d := r.open(withPlans)
	for _, test := range []struct{ plan, parameters, says string }{
		{"small", `{"connection_limit": 4}`, "at most 3 connections"},
		{"small", `{"connection_limit": 0}`, "below 1"},
		{"small", `{"connection_limit": "many"}`, "numbers"},
		{"large", `{"statement_timeout": 60001}`, "at most 60000 milliseconds"},
		{"large", `{"statement_timeout": 0}`, "from 1"},
		{"other", `{"connection_limit": 21}`, "at most 20 connections"},
	} {
		t.Run(test.plan+test.parameters, func(t *testing.T) {
			it := lock(t, d, newInstance(t))
			it.request.PlanID, it.request.Body = test.plan, json.RawMessage(`{"parameters":`+test.parameters+`}`)
			update := updateOf(it, test.plan, test.parameters)
			for _, err := range []error{d.Create(it.ctx, it.request), d.Update(it.ctx, update)} {
				var rejected *broker.Rejection
				if !errors.As(err, &rejected) || rejected.Status != 400 || !strings.Contains(rejected.Description, test.says) {
					t.Errorf("got %v, want a rejection that says %q", err, test.says)
				}
			}
			wantThere(t, d, it, broker.None)
		})
	}
	it := lock(t, d, newInstance(t))
	it.request.PlanID, it.request.Body = "large", json.RawMessage(`{"parameters":{"statement_timeout":10,"x":1}}`)
	check(t, d.Create(it.ctx, it.request))
	r.wantLimits(it.request.Key, "5", "statement_timeout=10ms")
}

func TestReadPlans(t *testing.T) {
	document := `{"services": [{"plans": [{"id": "a", "x-osb-postgresql": %}, {"id": "b"}]}]}`
	with := func(text string) []byte { return []byte(strings.ReplaceAll(document, "%", text)) }
	read := diff.Value(postgres.ReadPlans(with(`{"connection_limit": 7, "statement_timeout": 1}`)))(t)
	diff.Check(t, read, map[string]postgres.Limits{"a": {Connections: 7, StatementTimeout: time.Millisecond}}, "the plans")
	for _, text := range []string{`{"connection_limit": -1}`, `{"statement_timeout": 2147483648}`, `7`} {
		if _, err := postgres.ReadPlans(with(text)); err == nil || !strings.Contains(err.Error(), `plan "a"`) {
			t.Errorf("%s: got %v, want an error with the plan", text, err)
		}
	}
	if _, err := postgres.ReadPlans([]byte("{")); err == nil {
		t.Error("no JSON: got no error, want one")
	}
}
