package vault

import (
	"context"
	"errors"
	"fmt"
	"strings"
	"sync"
	"time"

	"pippinterm/internal/crash"
	"pippinterm/internal/vault"
	"pippinterm/platform"
)

const (
	page   = 500 // rows that are read at once
	atOnce = 32  // rows that are written at once, each in a transaction of its own
)

var (
	// ErrStoreKey reports that what is sealed in a store was sealed with a key that the Vault doesn't have.
	ErrStoreKey = errors.New("the store was used with another key")
	// ErrRotating reports that the key of a store is being replaced, and that the Vault would seal with the old one, or
	// doesn't have both.
	ErrRotating = errors.New("the key of the store is being replaced")
	// ErrSameKey reports that the key that is to replace another one is the same.
	ErrSameKey = errors.New("the new key is the same as the old one")
	// ErrWorkers reports that a worker runs, which seals with the old key.
	ErrWorkers = errors.New("a worker runs over the store")
	// ErrUnopened reports that something in the store can't be sealed again, because the Vault can't open it.
	ErrUnopened = errors.New("what is encrypted in the store can't be decrypted")
)

// Fits returns nil if the vault can be used over a store, by what Store.Fingerprint has returned. While the key of the
// store is being replaced, that is the fingerprints of the new key and of the old one.
//
// Errors: ErrStoreKey; ErrRotating; ErrOldPasswords if the keys are right, and Renew has to be called first.
func (v *Vault) Fits(written string) error {
	_, target, err := v.marks(written)
	if err == nil && target != written {
		err = ErrOldPasswords
	}
	return err
}

// Rotation is what a rotation has sealed again.
type Rotation struct{ Credentials, Passwords int }

// Rotate seals all credentials and passwords of a store again with the first key of v, each in a transaction of its
// own, and then the store has the fingerprint of that key. The other keys of v are those that sealed before. No worker
// may run. Whatever else seals over the store, such as an API that takes passwords, must not run either: what it seals
// with the old key meanwhile is found by a further call.
//
// A Rotate that has ended in the middle is finished by a further one with the same keys. Until then the vaults that fit
// the store are those with both keys, of which the first seals.
//
// Errors: ErrSameKey, ErrStoreKey, ErrRotating, ErrOldPasswords and ErrWorkers, and then nothing has changed;
// ErrUnopened, and then everything else is sealed again, and the store still waits for the end of the rotation; those
// of the Store.
func (v *Vault) Rotate(ctx context.Context, store platform.Store) (Rotation, error) {
	mark, err := v.begin(ctx, store)
	if err != nil {
		return Rotation{}, err
	}
	r := &rotation{Vault: v, store: store}
	if err := either(r.passwords(ctx), r.credentials(ctx)); err != nil {
		return r.done, err
	}
	if len(r.unopened) > 0 {
		return r.done, r.report()
	}
	if mark != v.Fingerprint() {
		err = replace(ctx, store, mark, v.Fingerprint())
	}
	return r.done, err
}

// replace replaces the fingerprint of a store, unless another process has meanwhile.
func replace(ctx context.Context, store platform.Store, before, after string) error {
	err := store.ReplaceFingerprint(ctx, before, after)
	if errors.Is(err, platform.ErrUnknown) {
		return ErrRotating
	}
	return err
}

// begin has the store know that its key is being replaced, and returns the fingerprints that are written then. After
// that, whoever starts with the old key alone is stopped by Fits.
func (v *Vault) begin(ctx context.Context, store platform.Store) (mark string, err error) {
	keys := v.Keys()
	last := keys[len(keys)-1]
	if last.Fingerprint == v.Fingerprint() {
		return "", ErrSameKey
	}
	if err := withoutWorkers(ctx, store); err != nil {
		return "", err
	}
	written, err := store.Fingerprint(ctx, last.Fingerprint)
	if err != nil {
		return "", err
	}
	others := []string{v.Fingerprint()}
	for _, word := range strings.Fields(written) {
		if !v.Knows(word) {
			return "", v.Fits(written)
		}
		if word != v.Fingerprint() {
			others = append(others, word)
		}
	}
	if mark = strings.Join(others, " "); mark == written {
		return mark, nil
	}
	if err := replace(ctx, store, written, mark); err != nil {
		return "", err
	}
	if err := withoutWorkers(ctx, store); err != nil { // one that has started meanwhile
		return "", either(replace(ctx, store, mark, written), err)
	}
	return mark, nil
}

func withoutWorkers(ctx context.Context, store platform.Store) error {
	has, err := store.HasWorkers(ctx)
	if err == nil && has {
		err = ErrWorkers
	}
	return err
}

func either(one, other error) error {
	if one != nil {
		return one
	}
	return other
}

// A rotation is one call of Rotate.
type rotation struct {
	*Vault
	store platform.Store

	mutex    sync.Mutex
	done     Rotation
	unopened []string // what can't be opened, and why
}

// passwords seals the passwords of brokers again.
func (r *rotation) passwords(ctx context.Context) error {
	brokers, err := r.store.Brokers(ctx)
	if err != nil {
		return err
	}
	for _, broker := range brokers {
		if broker.Password == nil {
			continue
		}
		isChanged, failed := false, error(nil)
		err := r.store.ChangeBroker(ctx, broker.Name, func(current platform.Broker) (*platform.Broker, error) {
			current.Password, isChanged, failed = r.again(current.Password, platform.PasswordContext(current))
			if failed != nil || !isChanged {
				return nil, nil
			}
			return &current, nil
		})
		switch {
		case errors.Is(err, platform.ErrUnknown): // dropped meanwhile
		case err != nil:
			return err
		default:
			r.count(&r.done.Passwords, isChanged, "the password of the broker "+broker.Name, failed)
		}
	}
	return nil
}

// credentials seals the credentials of bindings again. Only a binding that is ready has any, and without a worker none
// becomes ready, so a page that was read misses none.
func (r *rotation) credentials(ctx context.Context) error {
	isBinding := true
	filter := platform.Filter{States: []platform.State{platform.Ready}, Bindings: &isBinding, Most: page}
	for {
		rows, err := r.store.List(ctx, filter)
		if err != nil {
			return err
		}
		if err := r.ofRows(ctx, rows); err != nil {
			return err
		}
		if len(rows) < page {
			return nil
		}
		last := rows[len(rows)-1]
		filter.After = &platform.Position{State: last.State, Since: last.Since, Key: last.Key}
	}
}

// ofRows seals the credentials of these rows again, of several at once. After an error it begins none.
func (r *rotation) ofRows(ctx context.Context, rows []platform.Entry) (err error) {
	written, running := make(chan error, atOnce), 0
	for _, row := range rows {
		if running == atOnce {
			err = either(err, <-written)
			running--
		}
		if err != nil {
			break
		}
		if row.Credentials == nil {
			continue
		}
		running++
		go func(it platform.Entry) { written <- r.ofRow(ctx, it) }(row)
	}
	for ; running > 0; running-- {
		err = either(err, <-written)
	}
	return err
}

// ofRow seals the credentials of a row again, if they are sealed with another key by now.
func (r *rotation) ofRow(ctx context.Context, row platform.Entry) error {
	isChanged, failed := false, error(nil)
	err := r.store.Change(ctx, row.Key, func(_ time.Time, snapshot platform.Snapshot) (*platform.Change, error) {
		e := snapshot.Entry
		if isChanged, failed = false, nil; e.Credentials == nil {
			return nil, nil
		}
		e.Credentials, isChanged, failed = r.again(e.Credentials, e.Key.String())
		if failed != nil || !isChanged {
			return nil, nil
		}
		crash.At("order-next")
		return &platform.Change{Entry: e}, nil
	})
	if err != nil {
		return err
	}
	if isChanged {
		crash.At("order-written")
	}
	r.count(&r.done.Credentials, isChanged,
		"the credentials of the binding "+row.Names.Instance+"/"+row.Names.Binding, failed)
	return nil
}

// again is Rekey, without what it returns beside an error.
func (r *rotation) again(sealed []byte, context string) ([]byte, bool, error) {
	sealed, isChanged, err := r.Rekey(sealed, context)
	return sealed, isChanged && err == nil, err
}

// count counts what was sealed again, or notes why it couldn't be.
func (r *rotation) count(done *int, isChanged bool, what string, failed error) {
	r.mutex.Lock()
	defer r.mutex.Unlock()
	if isChanged {
		*done++
	}
	if failed != nil {
		r.unopened = append(r.unopened, what+" ("+failed.Error()+")")
	}
}

// mostNamed is how many of what can't be opened are named.
const mostNamed = 5

func (r *rotation) report() error {
	named, more := r.unopened, ""
	if len(named) > mostNamed {
		named, more = named[:mostNamed], fmt.Sprintf(" and %d more", len(r.unopened)-mostNamed)
	}
	return fmt.Errorf("%w: %s%s", ErrUnopened, strings.Join(named, ", "), more)
}

// ErrOldPasswords reports that a store has the fingerprint of version 0.3, which sealed the passwords of brokers under
// the names of the brokers alone.
var ErrOldPasswords = errors.New("the passwords in the store are encrypted as version 0.3 did it")

// ErrWrittenBack reports that a store has the fingerprint of version 0.3, and a password that was sealed since:
// somebody has written the fingerprint back, so that old passwords are accepted again.
var ErrWrittenBack = errors.New("somebody has written the fingerprint of version 0.3 back into the store")

// formerContext is the context under which version 0.3 sealed the password of a broker.
func formerContext(broker string) string { return "broker " + broker }

// Renewal is what Renew has sealed again.
type Renewal struct {
	// Brokers are those whose passwords are sealed for their URLs and users now.
	Brokers []platform.Broker
	// Unopened are those whose passwords couldn't be opened, and stay as they are. Nothing is sent to these brokers
	// until somebody sets their passwords again.
	Unopened []platform.Broker
}

// renewals is how often Renew looks again if other processes do the same.
const renewals = 10

// Renew brings the passwords of a store of version 0.3 up to date: it seals each again, so that it can only be opened
// for the URL and the user that the broker has now. Then the store has the fingerprint of this version: no password of
// the old form is accepted any more, and version 0.3 rejects the store. If the store is up to date, nothing changes. No
// worker may run: those of version 0.3 can't open what is sealed again.
//
// A Renew that has ended in the middle is finished by the next one. Any number of processes may call it at once.
//
// Errors: ErrStoreKey and ErrRotating, as Fits; ErrWorkers and ErrWrittenBack, and then nothing has changed; those of
// the Store.
func (v *Vault) Renew(ctx context.Context, store platform.Store) (all Renewal, err error) {
	for n := 0; n < renewals; n++ {
		written, err := store.Fingerprint(ctx, v.Fingerprint())
		if err != nil {
			return all, err
		}
		mark, target, err := v.marks(written)
		if err != nil || target == written {
			return all, err
		}
		err = v.renew(ctx, store, written, mark, target, &all)
		if err == nil || errors.Is(err, ErrRotating) {
			continue // it is done, or another process is at it
		}
		again, failed := store.Fingerprint(ctx, v.Fingerprint())
		if failed != nil || errors.Is(v.Fits(again), ErrOldPasswords) {
			return all, err
		}
	}
	return all, ErrRotating
}

// marks are the fingerprints that a store has while it is renewed, and afterwards. For a store that is up to date, both
// are what is written. Those of the keys of this version come first, in the order of those that are written.
//
// Errors: ErrStoreKey; ErrRotating.
func (v *Vault) marks(written string) (mark, target string, err error) {
	var now, former []string
	fields, has := strings.Fields(written), map[string]bool{}
	for _, field := range fields {
		of := v.keyOf(field)
		if of == nil && len(fields) > 1 {
			return "", "", ErrRotating
		}
		if of == nil {
			return "", "", ErrStoreKey
		}
		if field == of.Former {
			former = append(former, field)
		}
		if !has[of.Fingerprint] {
			now, has[of.Fingerprint] = append(now, of.Fingerprint), true
		}
	}
	if len(now) > 1 && now[0] != v.Fingerprint() {
		return "", "", ErrRotating
	}
	return strings.Join(append(now, former...), " "), strings.Join(now, " "), nil
}

// keyOf is the key with a fingerprint, of this version or of version 0.3, or nil.
func (v *Vault) keyOf(fingerprint string) *vault.Key {
	for _, key := range v.Keys() {
		if key.Fingerprint == fingerprint || key.Former == fingerprint {
			return &key
		}
	}
	return nil
}

// renew has the store know that it is renewed, seals the passwords again, and has the store know that it was.
func (v *Vault) renew(
	ctx context.Context, store platform.Store, written, mark, target string, all *Renewal,
) error {
	if err := withoutWorkers(ctx, store); err != nil {
		return err
	}
	if mark != written {
		if err := v.checkFormer(ctx, store); err != nil {
			return err
		}
		if err := replace(ctx, store, written, mark); err != nil {
			return err
		}
		if err := withoutWorkers(ctx, store); err != nil { // one that has started meanwhile
			return either(replace(ctx, store, mark, written), err)
		}
	}
	if err := v.renewPasswords(ctx, store, all); err != nil {
		return err
	}
	return replace(ctx, store, mark, target)
}

// checkFormer returns ErrWrittenBack if a password of a store that isn't renewed yet has the form of this version.
func (v *Vault) checkFormer(ctx context.Context, store platform.Store) error {
	brokers, err := store.Brokers(ctx)
	for _, broker := range brokers {
		if _, failed := v.Open(broker.Password, platform.PasswordContext(broker)); failed == nil && err == nil {
			err = ErrWrittenBack
		}
	}
	return err
}

func (v *Vault) renewPasswords(ctx context.Context, store platform.Store, all *Renewal) error {
	brokers, err := store.Brokers(ctx)
	if err != nil {
		return err
	}
	all.Unopened = nil
	for _, broker := range brokers {
		var list *[]platform.Broker
		err := store.ChangeBroker(ctx, broker.Name, func(current platform.Broker) (*platform.Broker, error) {
			var sealed []byte
			var err error
			sealed, list, err = v.renewPassword(current, all)
			if err != nil || sealed == nil {
				return nil, err
			}
			current.Password = sealed
			return &current, nil
		})
		if errors.Is(err, platform.ErrUnknown) { // dropped meanwhile
			continue
		}
		if err != nil {
			return err
		}
		if list != nil {
			*list = append(*list, broker)
		}
	}
	return nil
}

// renewPassword is the password of a broker sealed again, by the key that has sealed it, or nil if it stays. The broker
// is one of list, or of none if there is nothing to do.
func (v *Vault) renewPassword(broker platform.Broker, all *Renewal) (sealed []byte, list *[]platform.Broker, err error) {
	if broker.Password == nil {
		return nil, nil, nil
	}
	if _, err := v.Open(broker.Password, platform.PasswordContext(broker)); err == nil {
		return nil, nil, nil // sealed before the end of an earlier Renew
	}
	plain, by, err := v.OpenBy(broker.Password, formerContext(broker.Name))
	if err != nil {
		return nil, &all.Unopened, nil
	}
	sealed, err = v.SealBy(by, plain, platform.PasswordContext(broker))
	return sealed, &all.Brokers, err
}
