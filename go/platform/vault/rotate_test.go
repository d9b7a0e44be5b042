package vault

import (
	"context"
	"database/sql"
	"errors"
	"fmt"
	"os"
	"path/filepath"
	"sync"
	"testing"
	"time"

	"pippinterm/internal/diff"
	"pippinterm/osb"
	"pippinterm/platform"
	"pippinterm/platform/sqlite"
)

var (
	background = context.Background()
	one        = []byte("the first key, of forty bytes, and more.")
	other      = []byte("another key, which has forty bytes, too.")
	third      = []byte("a third key, which has forty bytes, too.")
)

func newVault(t *testing.T, keys ...[]byte) *Vault {
	t.Helper()
	return diff.Value(New(keys...))(t)
}

// instance is that of all bindings here.
var instance = osb.MustParseID("00000000-0000-0000-0000-000000000001")

func bindingKey(number int) platform.Key {
	return osb.BindingKey(instance, osb.MustParseID(fmt.Sprintf("00000000-0000-0000-0001-%012d", number)))
}

// A rig is a store with what a vault has sealed: the password of a broker, and the credentials of bindings.
type rig struct {
	platform.Store
	bindings int
}

func newRig(t *testing.T, by *Vault, bindings int) *rig {
	t.Helper()
	store := diff.Value(sqlite.Open(background, filepath.Join(t.TempDir(), "store")))(t)
	t.Cleanup(func() { check(t, store.Close()) })
	r := &rig{Store: store, bindings: bindings}
	orders := platform.NewOrders(store, by)
	shop := platform.Broker{Name: "shop", URL: "https://shop", User: "u"}
	check(t, orders.AddBroker(background, shop, []byte("hunter2")))
	check(t, store.AddBroker(background, platform.Broker{Name: "filed", URL: "https://f", PasswordFile: "/p"}))
	diff.Value(store.Fingerprint(background, by.Fingerprint()))(t)
	r.insert(t, osb.InstanceKey(instance), nil)
	for number := 1; number <= bindings; number++ {
		key := bindingKey(number)
		sealed := diff.Value(by.Seal([]byte(secretOf(key)), key.String()))(t)
		r.insert(t, key, sealed)
	}
	return r
}

var check = diff.Must

func secretOf(key platform.Key) string {
	return fmt.Sprintf(`{"credentials":{"password":"of %s"}}`, key.Binding)
}

// insert writes a row that is ready.
func (r *rig) insert(t *testing.T, key platform.Key, sealed []byte) {
	t.Helper()
	now := time.UnixMilli(1_700_000_000_000)
	entry := platform.Entry{Order: platform.Order{
		Key: key, Broker: "shop", Names: platform.Names{
			Instance: key.Instance.String(), Binding: key.Binding.String(), Service: "s", Plan: "p",
		},
		Organization: "o", Space: "s", Body: []byte("{}"), Try: 1, Tries: 1, First: key.ID(),
	}, State: platform.Ready, Since: now, Credentials: sealed}
	check(t, r.Insert(background, entry, func(platform.Snapshot) error { return nil }))
	check(t, r.Change(background, key, func(_ time.Time, snapshot platform.Snapshot) (*platform.Change, error) {
		snapshot.Entry.Credentials = sealed
		return &platform.Change{Entry: snapshot.Entry}, nil
	}))
}

// opens returns how many secrets of the store a vault opens.
func (r *rig) opens(t *testing.T, v *Vault) (opened int) {
	t.Helper()
	for number := 1; number <= r.bindings; number++ {
		key := bindingKey(number)
		e := diff.Value(r.Read(background, key))(t)
		if plain, err := v.Open(e.Credentials, key.String()); err == nil && string(plain) == secretOf(key) {
			opened++
		}
	}
	for _, broker := range diff.Value(r.Brokers(background))(t) {
		plain, err := v.Open(broker.Password, platform.PasswordContext(broker))
		if broker.Name == "shop" && err == nil && string(plain) == "hunter2" {
			opened++
		}
	}
	return opened
}

// Everything is sealed again, of more rows than are read at once. A second run changes nothing.
func TestRotate(t *testing.T) {
	before, both, after := newVault(t, one), newVault(t, other, one), newVault(t, other)
	r := newRig(t, before, page+3)
	diff.Equal(t, diff.Value(both.Rotate(background, r))(t), Rotation{page + 3, 1}, "what is done")
	diff.Equal(t, r.opens(t, before), 0, "the old key")
	diff.Equal(t, r.opens(t, after), page+4, "the new key")
	written := writtenIn(t, r)
	diff.Equal(t, written, after.Fingerprint(), "the fingerprint")
	diff.NoError(t, after.Fits(written), "the new key")
	diff.ErrorIs(t, before.Fits(written), ErrStoreKey, "the old key")
	filed := diff.Value(r.Brokers(background))(t)[0]
	if filed.Name != "filed" || filed.Password != nil || filed.PasswordFile != "/p" {
		t.Errorf("got %+v, want the broker filed with its file and without a password", filed)
	}
	diff.Equal(t, diff.Value(both.Rotate(background, r))(t), Rotation{}, "the second time")
}

// A dropping store has a broker that is dropped once it was listed.
type dropping struct{ platform.Store }

func (d dropping) Brokers(ctx context.Context) ([]platform.Broker, error) {
	found, err := d.Store.Brokers(ctx)
	return append(found, platform.Broker{Name: "dropped", Password: []byte("sealed")}), err
}

// A broker that is dropped meanwhile keeps neither a rotation nor a renewal from its end.
func TestBrokerThatIsDropped(t *testing.T) {
	r := newRig(t, newVault(t, one), 1)
	diff.Equal(t, diff.Value(newVault(t, other, one).Rotate(background, dropping{r}))(t), Rotation{1, 1}, "Rotate")
	store, _ := storeOf03(t)
	diff.NoError(t, diff.Err(newVault(t, one).Renew(background, dropping{store})), "Renew")
	diff.Equal(t, writtenIn(t, store), now, "the fingerprint")
}

var errFailing = errors.New("the disk is full")

// A faulty store has calls that fail.
type faulty struct {
	platform.Store
	turn sync.Mutex
	// fails returns why a call of this name fails, or nil. It is called once at a time.
	fails func(call string) error
}

// failsAfter is a store whose calls of these names fail with an error after so many.
func failsAfter(store platform.Store, left map[string]int, with error) *faulty {
	return &faulty{Store: store, fails: func(call string) error {
		if count, isOne := left[call]; isOne && count == 0 {
			return with
		}
		left[call]--
		return nil
	}}
}

// failsOnce is a store whose n-th call fails. That call sets hasFailed.
func failsOnce(store platform.Store, n int, hasFailed *bool) *faulty {
	*hasFailed = false
	return &faulty{Store: store, fails: func(string) error {
		if n--; n != 0 {
			return nil
		}
		*hasFailed = true
		return errFailing
	}}
}

func (f *faulty) call(name string) error {
	f.turn.Lock()
	defer f.turn.Unlock()
	return f.fails(name)
}

// If it can't be written that the key is being replaced, nothing is sealed again: a worker with the old key alone may
// start, and seal with it.
func TestRotateThatCanNotBegin(t *testing.T) {
	before, both := newVault(t, one), newVault(t, other, one)
	r := newRig(t, before, 3)
	wantNone(t, both, failsAfter(r, map[string]int{"ReplaceFingerprint": 0}, errFailing), errFailing)
	diff.Equal(t, r.opens(t, before), 4, "the old key")
}

// wantNone is that a rotation fails with an error, and does nothing.
func wantNone(t *testing.T, v *Vault, store platform.Store, want error) {
	t.Helper()
	done, err := v.Rotate(background, store)
	diff.ErrorIs(t, err, want, "the rotation")
	diff.Equal(t, done, Rotation{}, "what is done")
}

func (f *faulty) HasWorkers(ctx context.Context) (bool, error) {
	if err := f.call("HasWorkers"); err != nil {
		return false, err
	}
	return f.Store.HasWorkers(ctx)
}

func (f *faulty) Fingerprint(ctx context.Context, fingerprint string) (string, error) {
	if err := f.call("Fingerprint"); err != nil {
		return "", err
	}
	return f.Store.Fingerprint(ctx, fingerprint)
}

func (f *faulty) ReplaceFingerprint(ctx context.Context, before, after string) error {
	if err := f.call("ReplaceFingerprint"); err != nil {
		return err
	}
	return f.Store.ReplaceFingerprint(ctx, before, after)
}

func (f *faulty) Brokers(ctx context.Context) ([]platform.Broker, error) {
	if err := f.call("Brokers"); err != nil {
		return nil, err
	}
	return f.Store.Brokers(ctx)
}

func (f *faulty) ChangeBroker(
	ctx context.Context, name string, change func(platform.Broker) (*platform.Broker, error),
) error {
	if err := f.call("ChangeBroker"); err != nil {
		return err
	}
	return f.Store.ChangeBroker(ctx, name, change)
}

func (f *faulty) List(ctx context.Context, filter platform.Filter) ([]platform.Entry, error) {
	if err := f.call("List"); err != nil {
		return nil, err
	}
	return f.Store.List(ctx, filter)
}

func (f *faulty) Change(ctx context.Context, key platform.Key, step platform.Step) error {
	if err := f.call("Change"); err != nil {
		return err
	}
	return f.Store.Change(ctx, key, step)
}

// A store that fails at any one call ends a rotation with the error. Nothing is lost, and a further one ends it.
func TestRotateOverAStoreThatFails(t *testing.T) {
	before, both, after := newVault(t, one), newVault(t, other, one), newVault(t, other)
	for n, failed := 1, true; failed; n++ {
		r := newRig(t, before, 2)
		_, err := both.Rotate(background, failsOnce(r, n, &failed))
		diff.Equal(t, errors.Is(err, errFailing), failed, "call %d of the store has failed: %v", n, err)
		diff.Equal(t, r.opens(t, both), 3, "call %d of the store has failed: of both keys", n)
		diff.NoError(t, diff.Err(both.Rotate(background, r)), "after call %d of the store has failed", n)
		diff.Equal(t, r.opens(t, after), 3, "after call %d of the store has failed", n)
	}
}

// After a rotation that has ended in the middle, both keys are needed, and a further one ends it.
func TestRotateInTheMiddle(t *testing.T) {
	before, both, after := newVault(t, one), newVault(t, other, one), newVault(t, other)
	r := newRig(t, before, 50)
	done, err := both.Rotate(background, failsAfter(r, map[string]int{"Change": 20}, errFailing))
	diff.ErrorIs(t, err, errFailing, "the rotation")
	diff.Equal(t, done.Credentials, 20, "credentials")
	written := writtenIn(t, r)
	for name, test := range map[string]struct {
		vault *Vault
		want  error
	}{
		"the old key": {before, ErrRotating}, "the new key": {after, ErrRotating}, "both": {both, nil},
		"both, and the old one seals": {newVault(t, one, other), ErrRotating},
		"others":                      {newVault(t, third), ErrRotating},
	} {
		t.Run(name, func(t *testing.T) {
			diff.ErrorIs(t, test.vault.Fits(written), test.want, "")
		})
	}
	opened := [3]int{r.opens(t, before), r.opens(t, after), r.opens(t, both)}
	diff.Equal(t, opened, [3]int{30, 21, 51}, "the old key, the new one and both")
	diff.ErrorIs(t, diff.Err(newVault(t, third, one).Rotate(background, r)), ErrRotating, "a third key alone")
	diff.Equal(t, diff.Value(both.Rotate(background, r))(t).Credentials, 30, "credentials")
	r.isOf(t, after, 51)
}

// From the middle of a rotation, one to a third key can begin.
func TestRotateFurther(t *testing.T) {
	r := newRig(t, newVault(t, one), 9)
	full := failsAfter(r, map[string]int{"Change": 0}, errFailing)
	diff.ErrorIs(t, diff.Err(newVault(t, other, one).Rotate(background, full)), errFailing, "the rotation")
	diff.Equal(t, diff.Value(newVault(t, third, other, one).Rotate(background, r))(t), Rotation{9, 1}, "")
	r.isOf(t, newVault(t, third), 10)
}

// isOf is that the store has the fingerprint of a vault, which opens so many secrets.
func (r *rig) isOf(t *testing.T, v *Vault, opened int) {
	t.Helper()
	diff.Equal(t, r.opens(t, v), opened, "secrets that the key opens")
	diff.Equal(t, writtenIn(t, r), v.Fingerprint(), "the fingerprint")
}

// A wrong key, the same key, and a worker that runs: nothing is changed.
func TestRotateRejected(t *testing.T) {
	before := newVault(t, one)
	r := newRig(t, before, 3)
	for name, test := range map[string]struct {
		vault *Vault
		want  error
	}{
		"a wrong key": {newVault(t, other, third), ErrStoreKey}, "the same key": {newVault(t, one, one), ErrSameKey},
		"one key": {before, ErrSameKey},
	} {
		t.Run(name, func(t *testing.T) {
			wantNone(t, test.vault, r, test.want)
		})
	}
	end, _, err := r.Only(background, "one")
	check(t, err)
	wantNone(t, newVault(t, other, one), r, ErrWorkers)
	end()
	r.isOf(t, before, 4)
}

// A starting is a store of which a worker starts just after it was asked for workers.
type starting struct{ platform.Store }

func (s starting) HasWorkers(ctx context.Context) (bool, error) {
	has, err := s.Store.HasWorkers(ctx)
	if err == nil && !has {
		_, _, err = s.Only(ctx, "one")
	}
	return has, err
}

// A worker that starts beside a rotation ends it before anything is sealed again.
func TestRotateBesideStart(t *testing.T) {
	before := newVault(t, one)
	r := newRig(t, before, 3)
	diff.ErrorIs(t, diff.Err(newVault(t, other, one).Rotate(background, starting{r})), ErrWorkers, "")
	r.isOf(t, before, 4)
}

// What can't be opened is named, and everything else is sealed again. The rotation hasn't ended then.
func TestRotateUnopened(t *testing.T) {
	before, both, after := newVault(t, one), newVault(t, other, one), newVault(t, other)
	r := newRig(t, before, 4)
	lost := bindingKey(2)
	foreign := diff.Value(newVault(t, third).Seal([]byte(secretOf(lost)), lost.String()))(t)
	check(t, r.Change(background, lost, func(_ time.Time, snapshot platform.Snapshot) (*platform.Change, error) {
		snapshot.Entry.Credentials = foreign
		return &platform.Change{Entry: snapshot.Entry}, nil
	}))
	done, err := both.Rotate(background, r)
	want := ErrUnopened.Error() + ": the credentials of the binding " + lost.String() + " (" + ErrOtherKey.Error() + ")"
	diff.ErrorIs(t, err, ErrUnopened, "")
	diff.Equal(t, fmt.Sprint(err), want, "the error")
	diff.Equal(t, done, Rotation{3, 1}, "what is done")
	if written := writtenIn(t, r); after.Fits(written) == nil || both.Fits(written) != nil || r.opens(t, after) != 4 {
		t.Errorf("got the fingerprint %s, want one that fits both keys but not the new one, which opens 4 secrets", written)
	}
	diff.Equal(t, diff.Value(newVault(t, other, third, one).Rotate(background, r))(t), Rotation{1, 0}, "")
	r.isOf(t, after, 5)
}

// A store that was never used with a key gets the new one.
func TestRotateUnused(t *testing.T) {
	store := diff.Value(sqlite.Open(background, filepath.Join(t.TempDir(), "store")))(t)
	defer store.Close()
	diff.Equal(t, diff.Value(newVault(t, other, one).Rotate(background, store))(t), Rotation{}, "")
	want := newVault(t, other).Fingerprint()
	diff.Equal(t, diff.Value(store.Fingerprint(background, "x"))(t), want, "")
}

// storeOf03 is a store that version 0.3 has written, and its path.
func storeOf03(t *testing.T) (platform.Store, string) {
	t.Helper()
	dump := diff.Value(os.ReadFile("testdata/store-0.3.sql"))(t)
	path := filepath.Join(t.TempDir(), "store")
	execute(t, path, string(dump))
	store := diff.Value(sqlite.Open(background, path))(t)
	t.Cleanup(func() { check(t, store.Close()) })
	return store, path
}

func execute(t *testing.T, path, statements string) {
	t.Helper()
	db := diff.Value(sql.Open("sqlite3", path))(t)
	diff.Value(db.Exec(statements))(t)
	check(t, db.Close())
}

// passwords are the passwords that a vault opens, by broker.
func passwords(t *testing.T, store platform.Store, v *Vault) map[string]string {
	t.Helper()
	found := map[string]string{}
	for _, broker := range diff.Value(store.Brokers(background))(t) {
		if plain, err := v.Open(broker.Password, platform.PasswordContext(broker)); err == nil {
			found[broker.Name] = string(plain)
		}
	}
	return found
}

func writtenIn(t *testing.T, store platform.Store) string {
	t.Helper()
	return diff.Value(store.Fingerprint(background, "never written"))(t)
}

// wantRenewed is that a store has the fingerprint of this version, and all its passwords.
func wantRenewed(t *testing.T, store platform.Store, what string) {
	t.Helper()
	diff.Equal(t, writtenIn(t, store), now, "%s: the fingerprint", what)
	both := map[string]string{"shop": "hunter2", "other": "other"}
	diff.Check(t, passwords(t, store, newVault(t, one)), both, "%s: the passwords", what)
}

// The fingerprints of the first key, of version 0.3 and of this one: HKDF-SHA256 by the package hmac of Python.
const (
	former = "222467f16c1f06c92e12220847c420e6"
	now    = "d5eeb89b0b7b533d08b1d78365894caf"
)

// Each password is sealed again for its URL and its user, once.
func TestRenew(t *testing.T) {
	store, _ := storeOf03(t)
	v := newVault(t, one)
	if got := writtenIn(t, store); got != former || !errors.Is(v.Fits(got), ErrOldPasswords) {
		t.Fatalf("the text of version 0.3: got %q, %v, want it with %v", got, v.Fits(got), ErrOldPasswords)
	}
	done, err := v.Renew(background, store)
	if err != nil || len(done.Brokers) != 2 || done.Brokers[0].Name != "other" || done.Brokers[1].Name != "shop" ||
		done.Brokers[1].URL != "http://127.0.0.1:1/v" || len(done.Unopened) != 0 {
		t.Errorf("got %+v, %v, want both brokers done", done, err)
	}
	wantRenewed(t, store, "the first time")
	diff.NoError(t, v.Fits(now), "the fingerprint")
	diff.Empty(t, diff.Value(v.Renew(background, store))(t).Brokers, "the second time")
}

// What version 0.3 has sealed isn't accepted any more: neither written back, nor at another URL, nor by a further
// Renew.
func TestRenewOnce(t *testing.T) {
	store, path := storeOf03(t)
	brokers := diff.Value(store.Brokers(background))(t)
	v := newVault(t, one)
	diff.Value(v.Renew(background, store))(t)
	for _, url := range []string{"http://127.0.0.1:1/v", "http://127.0.0.1:2/evil"} {
		check(t, store.ChangeBroker(background, "shop", func(b platform.Broker) (*platform.Broker, error) {
			b.Password, b.URL = brokers[2].Password, url
			return &b, nil
		}))
		diff.Empty(t, diff.Value(v.Renew(background, store))(t).Brokers, "%s", url)
		diff.Check(t, passwords(t, store, v), map[string]string{"other": "other"}, "%s: the passwords", url)
	}
	// with another key, even the fingerprint of version 0.3 doesn't help
	_, err := newVault(t, other, one).Rotate(background, store)
	diff.ErrorIs(t, err, ErrUnopened, "") // that of shop
	execute(t, path, "UPDATE osb_store SET fingerprint = '"+former+"'")
	diff.ErrorIs(t, diff.Err(newVault(t, other).Renew(background, store)), ErrStoreKey, "with the new key alone")
}

// A fingerprint of version 0.3 that is written back has no password accepted again, as long as one of this version is
// there.
func TestRenewWrittenBack(t *testing.T) {
	store, path := storeOf03(t)
	brokers := diff.Value(store.Brokers(background))(t)
	v := newVault(t, one)
	diff.Value(v.Renew(background, store))(t)
	check(t, store.ChangeBroker(background, "shop", func(b platform.Broker) (*platform.Broker, error) {
		b.Password, b.URL = brokers[2].Password, "http://127.0.0.1:2/evil"
		return &b, nil
	}))
	execute(t, path, "UPDATE osb_store SET fingerprint = '"+former+"'")
	done, err := v.Renew(background, store)
	diff.ErrorIs(t, err, ErrWrittenBack, "")
	diff.Empty(t, done.Brokers, "what is done")
	diff.Equal(t, writtenIn(t, store), former, "the fingerprint")
	diff.Equal(t, passwords(t, store, v)["shop"], "", "the passwords")
	execute(t, path, "UPDATE osb_store SET fingerprint = NULL")
	diff.NoError(t, diff.Err(v.Renew(background, store)), "without a fingerprint")
	diff.Equal(t, writtenIn(t, store), now, "without a fingerprint")
	diff.Equal(t, passwords(t, store, v)["shop"], "", "without a fingerprint")
}

// A password that doesn't open stays as it is, and the others are sealed again. A URL that was changed before is the
// one that the password is sealed for: nobody can know it.
func TestRenewUnopened(t *testing.T) {
	store, path := storeOf03(t)
	execute(t, path, "UPDATE osb_brokers SET password = (SELECT password FROM osb_brokers WHERE name = 'shop') "+
		"WHERE name = 'other'")
	v := newVault(t, one)
	done, err := v.Renew(background, store)
	if err != nil || len(done.Brokers) != 1 || len(done.Unopened) != 1 || done.Unopened[0].Name != "other" {
		t.Errorf("got %+v, %v, want one done, and other unopened", done, err)
	}
	diff.Check(t, passwords(t, store, v), map[string]string{"shop": "hunter2"}, "the passwords")
}

// A wrong key, and a worker that runs: nothing is changed.
func TestRenewRejected(t *testing.T) {
	store, _ := storeOf03(t)
	diff.ErrorIs(t, diff.Err(newVault(t, other).Renew(background, store)), ErrStoreKey, "a wrong key")
	end, _, err := store.Only(background, "of version 0.3")
	check(t, err)
	v := newVault(t, one)
	diff.ErrorIs(t, diff.Err(v.Renew(background, store)), ErrWorkers, "with a worker")
	diff.Equal(t, writtenIn(t, store), former, "the fingerprint")
	end()
	diff.Empty(t, passwords(t, store, v), "encrypted again")
}

// Wherever it ends in the middle, the next one finishes it, and version 0.3 rejects the store from the first write on.
func TestRenewInTheMiddle(t *testing.T) {
	for _, test := range []struct{ changes, marks int }{{0, 0}, {0, 1}, {2, 1}, {3, 1}} {
		t.Run(fmt.Sprintf("after %d changes and %d marks", test.changes, test.marks), func(t *testing.T) {
			store, _ := storeOf03(t)
			v := newVault(t, one)
			left := map[string]int{"ChangeBroker": test.changes, "ReplaceFingerprint": test.marks}
			diff.ErrorIs(t, diff.Err(v.Renew(background, failsAfter(store, left, errFailing))), errFailing, "the end")
			if got := writtenIn(t, store); test.marks > 0 && got != now+" "+former || !errors.Is(v.Fits(got), ErrOldPasswords) {
				t.Errorf("the fingerprint: got %q, want both with %v", got, ErrOldPasswords)
			}
			end, _, err := store.Only(background, "of version 0.3")
			check(t, err)
			diff.ErrorIs(t, diff.Err(v.Renew(background, store)), ErrWorkers, "with a worker")
			end()
			diff.NoError(t, diff.Err(v.Renew(background, store)), "the next one")
			wantRenewed(t, store, "the next one")
		})
	}
}

// A store that fails at any one call ends a Renew with the error, and the next one ends the work.
func TestRenewOverAStoreThatFails(t *testing.T) {
	for n, failed := 1, true; failed; n++ {
		whole, _ := storeOf03(t)
		v := newVault(t, one)
		_, err := v.Renew(background, failsOnce(whole, n, &failed))
		diff.Equal(t, errors.Is(err, errFailing), failed, "call %d of the store has failed: %v", n, err)
		diff.NoError(t, diff.Err(v.Renew(background, whole)), "after call %d has failed", n)
		wantRenewed(t, whole, fmt.Sprintf("after call %d has failed", n))
	}
}

// A worker that starts beside a Renew ends it before anything is sealed again, and version 0.3 can go on.
func TestRenewBesideStart(t *testing.T) {
	store, _ := storeOf03(t)
	v := newVault(t, one)
	diff.ErrorIs(t, diff.Err(v.Renew(background, starting{store})), ErrWorkers, "")
	diff.Equal(t, writtenIn(t, store), former, "the fingerprint")
	diff.Empty(t, passwords(t, store, v), "encrypted again")
}

// A Renew ends, even if other processes renew the store, too, and replace its fingerprint first each time.
func TestRenewContested(t *testing.T) {
	store, _ := storeOf03(t)
	v := newVault(t, one)
	contested := failsAfter(store, map[string]int{"ReplaceFingerprint": 0}, platform.ErrUnknown)
	diff.ErrorIs(t, diff.Err(v.Renew(background, contested)), ErrRotating, "")
	diff.Empty(t, passwords(t, store, v), "encrypted again")
}

// Any number of processes bring a store up to date at once.
func TestRenewAtOnce(t *testing.T) {
	store, path := storeOf03(t)
	var all sync.WaitGroup
	for n := 0; n < 4; n++ {
		own := diff.Value(sqlite.Open(background, path))(t)
		all.Add(1)
		go func() {
			defer all.Done()
			diff.NoError(t, diff.Err(newVault(t, one).Renew(background, own)), "")
			diff.NoError(t, own.Close(), "")
		}()
	}
	all.Wait()
	wantRenewed(t, store, "all")
}

// A rotation that version 0.3 has begun goes on, and begins anew with the passwords of this version.
func TestRenewDuringRotation(t *testing.T) {
	store, _ := storeOf03(t)
	both := newVault(t, other, one)
	check(t, store.ReplaceFingerprint(background, former, both.Keys()[0].Former+" "+former))
	diff.ErrorIs(t, diff.Err(newVault(t, one).Renew(background, store)), ErrRotating, "with the old key alone")
	diff.NoError(t, diff.Err(both.Renew(background, store)), "with both keys")
	diff.ErrorIs(t, newVault(t, one).Fits(writtenIn(t, store)), ErrRotating, "the fingerprints")
	diff.Equal(t, diff.Value(both.Rotate(background, store))(t).Passwords, 2, "the passwords")
	diff.Equal(t, len(passwords(t, store, newVault(t, other))), 2, "the new key")
}
