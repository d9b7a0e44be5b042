package postgres_test

import (
	"context"
	"errors"
	"fmt"
	"strings"
	"sync"
	"testing"

	"pippinterm/broker"
	"pippinterm/broker/backend/postgres"
	pgstore "pippinterm/broker/postgres"
	"pippinterm/internal/diff"
	"pippinterm/internal/pg/pgtest"
	"pippinterm/osb"
)

func TestOwner(t *testing.T) {
	r := newRig(t)
	first, second := r.openUntied(), r.openUntied()
	ctx := context.Background()
	diff.Equal(t, diff.Value(first.Owner(ctx))(t), "", "before the first")
	it := lock(t, first, newInstance(t))
	diff.Error(t, diff.Err(first.Look(it.ctx, it.request)), "Look before there is a store")
	diff.Error(t, first.Create(it.ctx, it.request), "Create before there is a store")
	diff.Equal(t, diff.Value(first.Own(ctx, store))(t), store, "the first")
	diff.Equal(t, diff.Value(second.Own(ctx, "00000000-0000-4000-8000-00000000bbbb"))(t), store, "the second")
	diff.Equal(t, diff.Value(second.Owner(ctx))(t), store, "afterwards")
}

// A store and the backend in one database, as the guide has them, and then another store with the same backend.
func TestTie(t *testing.T) {
	r := newRig(t)
	d := r.openUntied()
	ctx := context.Background()
	for n := 0; n < 2; n++ {
		s := diff.Value(pgstore.Open(ctx, r.url, 2, broker.Silent{}))(t)
		diff.NoError(t, broker.Tie(ctx, s, d, n > 0), "Tie")
		diff.NoError(t, s.Close(), "")
	}
	other := diff.Value(pgstore.Open(ctx, r.sibling().url, 2, broker.Silent{}))(t)
	defer other.Close()
	diff.ErrorIs(t, broker.Tie(ctx, other, d, false), broker.ErrParted, "Tie with another store")
}

// The backend of version 0.2 goes on with its store.
func TestTieOf02(t *testing.T) {
	r := newRig(t)
	r.of02(store)
	s := diff.Value(pgstore.Open(context.Background(), r.url, 2, broker.Silent{}))(t)
	defer s.Close()
	pgtest.Exec(t, r.login(r.role, "of the broker", r.role), "INSERT INTO osb_store VALUES (true, '"+store+"', true)")
	diff.NoError(t, broker.Tie(context.Background(), s, r.openUntied(), true), "Tie")
}

var another = []byte(strings.Repeat("another key ", 3))

// openWith opens the backend with a key.
func (r *rig) openWith(key []byte) (*postgres.Databases, error) {
	d, err := postgres.Open(context.Background(), r.url, postgres.Options{Key: key, Sessions: 2})
	if err == nil {
		r.t.Cleanup(func() { _ = d.Close() })
	}
	return d, err
}

// A key that can be guessed is rejected, and so is another key than the one that is in use.
func TestKeys(t *testing.T) {
	r := newRig(t)
	for _, short := range []string{"", "hunter2", strings.Repeat("k", postgres.ShortestKey-1)} {
		t.Run(fmt.Sprintf("%d bytes", len(short)), func(t *testing.T) {
			diff.ErrorContains(t, diff.Err(r.openWith([]byte(short))), "openssl rand", "a key of %d bytes", len(short))
		})
	}
	late := r.openUntied(func(o *postgres.Options) { o.Key = another }) // opened before the key was known
	r.open()
	diff.ErrorIs(t, diff.Err(r.openWith(another)), postgres.ErrWrongKey, "another key")
	diff.NoError(t, diff.Err(r.openWith(secret)), "the same key")
	diff.ErrorIs(t, diff.Err(late.Own(context.Background(), store)), postgres.ErrWrongKey, "Own with another key")
	it := lock(t, late, newInstance(t))
	diff.ErrorIs(t, late.Create(it.ctx, it.request), postgres.ErrWrongKey, "Create with another key")
	r.wantNothing(it.request.Key)
}

// Version 0.2 kept no fingerprint. The first key with which something is created becomes the key, of two at once one.
func TestTheKeyOf02(t *testing.T) {
	r := newRig(t)
	r.of02(store)
	both := []*postgres.Databases{r.openUntied(), r.openUntied(func(o *postgres.Options) { o.Key = another })}
	given := make([]error, len(both))
	var all sync.WaitGroup
	for n, d := range both {
		it := lock(t, d, newInstance(t))
		all.Add(1)
		go func(n int, d *postgres.Databases) {
			defer all.Done()
			given[n] = d.Create(it.ctx, it.request)
		}(n, d)
	}
	all.Wait()
	if (given[0] == nil) == (given[1] == nil) || !errors.Is(given[0], postgres.ErrWrongKey) &&
		!errors.Is(given[1], postgres.ErrWrongKey) {
		t.Errorf("Create with two keys: got %v, %v, want %v once", given[0], given[1], postgres.ErrWrongKey)
	}
}

func (r *rig) rekey(old, new []byte) []string {
	r.t.Helper()
	left, err := postgres.Rekey(context.Background(), r.url, old, new)
	if err != nil {
		r.t.Fatalf("Rekey: got %v, want no error", err)
	}
	return left
}

// wantPassword sees which key the password of a role is of.
func (r *rig) wantPassword(key broker.Key, opens, doesnt []byte) {
	r.t.Helper()
	database := postgres.NameOf(osb.InstanceKey(key.Instance))
	diff.NoError(r.t, r.login(postgres.NameOf(key), postgres.PasswordOf(opens, key), database).Ping(), "%v", key)
	if err := r.login(postgres.NameOf(key), postgres.PasswordOf(doesnt, key), database).Ping(); err == nil {
		r.t.Errorf("%v with the other key: got no error, want one", key)
	}
}

func TestRekey(t *testing.T) {
	r, d := newDatabases(t)
	it := createInstance(t, d)
	bind, _ := bound(t, d, it.request.Key)
	for n := 0; n < 2; n++ { // the second time all is done already
		diff.Empty(t, r.rekey(secret, another), "left")
		r.wantPassword(it.request.Key, another, secret)
		r.wantPassword(bind.request.Key, another, secret)
	}
	diff.ErrorIs(t, diff.Err(d.Credentials(bind.ctx, bind.request)), postgres.ErrWrongKey,
		"Credentials with the old key")
	next := lock(t, d, newInstance(t))
	diff.ErrorIs(t, d.Create(next.ctx, next.request), postgres.ErrWrongKey, "Create with the old key")
	r.wantNothing(next.request.Key)
	diff.ErrorIs(t, diff.Err(r.openWith(secret)), postgres.ErrWrongKey, "Open with the old key")
	diff.NoError(t, diff.Err(r.openWith(another)), "Open with the new key")
	wantThere(t, d, it, broker.Whole)
	diff.NoError(t, d.Delete(it.ctx, it.request), "Delete with the old key")
}

func TestRekeyRejects(t *testing.T) {
	r := newRig(t)
	diff.Error(t, diff.Err(postgres.Rekey(context.Background(), r.url, secret, another)), "before there is a store")
	key := createInstance(t, r.open()).request.Key
	for what, test := range map[string]struct{ old, new []byte }{
		"the wrong old key": {[]byte("not the key"), another},
		"a short new key":   {secret, []byte("short")},
	} {
		t.Run(what, func(t *testing.T) {
			diff.Error(t, diff.Err(postgres.Rekey(context.Background(), r.url, test.old, test.new)), "")
		})
	}
	r.wantPassword(key, secret, another)
	diff.NoError(t, diff.Err(r.openWith(secret)), "Open")
}

// A customer that holds its own role, also by a binding, has its sessions ended, and gets its new password.
func TestRekeyBesideACustomer(t *testing.T) {
	r, d := newDatabases(t)
	key, second := createInstance(t, d).request.Key, createInstance(t, d).request.Key
	hold(t, r.customer(key), "BEGIN", "ALTER ROLE CURRENT_USER PASSWORD 'x'")
	_, binding := bound(t, d, second)
	hold(t, r.login(binding.Username, binding.Password, binding.Database), "BEGIN", "ALTER ROLE CURRENT_USER PASSWORD 'x'")
	r.rekey(secret, another)
	r.wantPassword(key, another, secret)
	r.wantPassword(second, another, secret)
}

// Of roles without a label those are this store's that open with its key, which may be short.
func TestRekeyAfter02(t *testing.T) {
	short := []byte("hunter2")
	r := newRig(t)
	r.of02(store)
	ours, theirs, changed := newInstance(t), newInstance(t), newInstance(t)
	r.create02(ours, postgres.PasswordOf(short, ours))
	r.create02(theirs, postgres.PasswordOf(another, theirs)) // of another store with the same role
	r.create02(changed, "of the customer")
	left := strings.Join(r.rekey(short, secret), " ")
	for _, key := range []broker.Key{theirs, changed} {
		diff.Contains(t, left, postgres.NameOf(key), "left")
	}
	r.wantPassword(ours, secret, short)
	r.wantPassword(theirs, another, secret)
	d := r.open()
	it := lock(t, d, ours)
	wantThere(t, d, it, broker.Whole) // with a label now: its row needn't be of 0.2
	pgtest.Exec(t, r.admin, "COMMENT ON ROLE "+postgres.NameOf(changed)+" IS 'osb store "+store+"'")
	r.rekey(secret, another)
	r.wantPassword(changed, another, secret)
}

// Another store's roles are neither touched nor reported.
func TestRekeyBesideAnotherStore(t *testing.T) {
	r := newRig(t)
	r.open()
	other := r.sibling()
	theirs := other.openUntied()
	diff.Value(theirs.Own(context.Background(), "00000000-0000-4000-8000-00000000bbbb"))(t)
	key := createInstance(t, theirs).request.Key
	diff.Empty(t, r.rekey(secret, another), "left")
	r.wantPassword(key, secret, another)
}

// What is created beside a Rekey has the new password, or isn't created.
func TestRekeyBesideCreations(t *testing.T) {
	r, d := newDatabases(t)
	keys := make([]broker.Key, 3)
	given := make([]error, len(keys))
	var all sync.WaitGroup
	for n := range keys {
		it := lock(t, d, newInstance(t))
		keys[n] = it.request.Key
		all.Add(1)
		go func(n int) {
			defer all.Done()
			given[n] = d.Create(it.ctx, it.request)
		}(n)
	}
	r.rekey(secret, another)
	all.Wait()
	for n, key := range keys {
		if given[n] == nil {
			r.wantPassword(key, another, secret)
		} else if !errors.Is(given[n], postgres.ErrWrongKey) {
			t.Errorf("Create: got %v, want %v", given[n], postgres.ErrWrongKey)
		}
	}
}

var check = diff.Must

// wantForeign sees that no call for the key does anything.
func wantForeign(t *testing.T, d *postgres.Databases, it lockedKey) {
	t.Helper()
	_, err := d.Look(it.ctx, it.request)
	for call, err := range map[string]error{
		"Look": err, "Create": d.Create(it.ctx, it.request), "Delete": d.Delete(it.ctx, it.request),
	} {
		diff.ErrorIs(t, err, postgres.ErrForeign, "%s", call)
	}
	bind := lock(t, d, osb.BindingKey(it.request.Key.Instance, randomID(t)))
	_, err = d.LookBinding(bind.ctx, bind.request)
	_, failed := d.CreateBinding(bind.ctx, bind.request)
	for call, err := range map[string]error{
		"LookBinding": err, "CreateBinding": failed, "DeleteBinding": d.DeleteBinding(bind.ctx, bind.request),
	} {
		diff.ErrorIs(t, err, postgres.ErrForeign, "%s", call)
	}
}

// of02 has the brokers' database as version 0.2 left it.
func (r *rig) of02(of string) {
	r.t.Helper()
	pgtest.Exec(r.t, r.login(r.role, "of the broker", r.role),
		"CREATE TABLE osb_owner (one boolean PRIMARY KEY DEFAULT true CHECK (one), store uuid NOT NULL)",
		"INSERT INTO osb_owner (store) VALUES ('"+of+"')")
}

// create02 creates a database as version 0.2 did, with a password.
func (r *rig) create02(key broker.Key, password string) {
	r.t.Helper()
	name := postgres.NameOf(key)
	pgtest.Exec(r.t, r.login(r.role, "of the broker", r.role),
		"CREATE ROLE "+name+" LOGIN PASSWORD '"+password+"'",
		"GRANT "+name+" TO CURRENT_USER",
		"CREATE DATABASE "+name+" OWNER "+name+" TEMPLATE template0 ALLOW_CONNECTIONS false",
		"REVOKE ALL ON DATABASE "+name+" FROM PUBLIC",
		"ALTER DATABASE "+name+" ALLOW_CONNECTIONS true")
}

// Two stores on one server, with one role or with two, don't take each other's databases for their own.
func TestAnotherStore(t *testing.T) {
	r, d := newDatabases(t)
	it := createInstance(t, d)
	pgtest.Exec(t, r.customer(it.request.Key), "CREATE TABLE t (x integer)")
	for name, other := range map[string]*rig{"with a role of its own": newRig(t), "with the same role": r.sibling()} {
		t.Run(name, func(t *testing.T) {
			second := other.openUntied()
			diff.Value(second.Own(context.Background(), "00000000-0000-4000-8000-00000000bbbb"))(t)
			wantForeign(t, second, lock(t, second, it.request.Key))
			wantThere(t, d, it, broker.Whole)
			pgtest.Exec(t, r.customer(it.request.Key), "SELECT * FROM t")
		})
	}
}

// What has no label isn't this store's, unless version 0.2 created it for this store.
func TestWithoutALabel(t *testing.T) {
	for _, database := range []unlabelledDatabase{
		{"a store of 0.2, and an instance of 0.2", true, true, nil, true},
		{"a store of this version", false, true, nil, false},
		{"an instance of this version", true, false, nil, false},
		{"a role that another broker's role has created", true, true, []string{"REVOKE $name FROM $role"}, false},
		{"a role with another comment", true, true, []string{"COMMENT ON ROLE $name IS 'osb store x'"}, false},
		{"a database of somebody else", true, true, []string{"ALTER DATABASE $name OWNER TO CURRENT_USER"}, false},
		{"a database without a role", true, true, []string{"ALTER DATABASE $name OWNER TO CURRENT_USER",
			"ALTER DATABASE $name CONNECTION LIMIT 1", "DROP ROLE $name"}, false},
	} {
		t.Run(database.name, database.run)
	}
}

// An unlabelledDatabase is of a store and of an instance that version 0.2 created, or not, and was changed by hand.
type unlabelledDatabase struct {
	name                 string
	isStore02, isOfRow02 bool
	change               []string
	isOurs               bool
}

func (u unlabelledDatabase) run(t *testing.T) {
	r := newRig(t)
	if u.isStore02 {
		r.of02(store)
	}
	d := r.open()
	locked := lock(t, d, newInstance(t))
	if u.isOfRow02 {
		locked.request.Body = nil
	}
	r.create02(locked.request.Key, "x")
	t.Cleanup(func() { r.dropByForce(postgres.NameOf(locked.request.Key)) })
	for _, statement := range statementsOf(u.change, locked.request.Key) {
		pgtest.Exec(t, r.admin, strings.ReplaceAll(statement, "$role", r.role))
	}
	if u.isOurs {
		wantOurs(t, r, d, locked)
		return
	}
	if u.isOfRow02 { // the row of a binding doesn't say which version created its instance
		wantForeign(t, d, locked)
	} else if _, err := d.Look(locked.ctx, locked.request); !errors.Is(err, postgres.ErrForeign) {
		t.Errorf("Look: got %v, want %v", err, postgres.ErrForeign)
	}
	diff.Equal(t, r.exists("pg_database WHERE datname = $1", postgres.NameOf(locked.request.Key)), true, "the database is left")
}

// No customer changes its label: with another store's, its database could never be deleted.
func TestNoCustomerChangesItsLabel(t *testing.T) {
	r := newRig(t)
	it := createInstance(t, r.open())
	diff.Error(t, diff.Err(r.customer(it.request.Key).Exec("COMMENT ON ROLE CURRENT_USER IS 'osb store x'")),
		"another label")
	_, err := r.customer(it.request.Key).Exec("COMMENT ON ROLE " + postgres.NameOf(it.request.Key) + " IS NULL")
	diff.Error(t, err, "no label")
}

// wantOurs sees that an instance of version 0.2 is bound and deleted as any other.
func wantOurs(t *testing.T, r *rig, d *postgres.Databases, locked lockedKey) {
	t.Helper()
	wantThere(t, d, locked, broker.Whole)
	bound(t, d, locked.request.Key)
	r.wantDeletion(d, locked)
}

// dropByForce drops what a test has taken away from the broker.
func (r *rig) dropByForce(name string) {
	pgtest.Exec(r.t, r.admin, "DROP DATABASE IF EXISTS "+name+" WITH (FORCE)", "DROP ROLE IF EXISTS "+name)
}
