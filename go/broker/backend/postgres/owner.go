package postgres

import (
	"context"
	"crypto/hmac"
	"crypto/rand"
	"crypto/sha256"
	"database/sql"
	"encoding/base64"
	"errors"
	"fmt"

	"github.com/lib/pq"
	"golang.org/x/crypto/pbkdf2"

	"pippinterm/broker"
	"pippinterm/internal/pg"
)

// ErrWrongKey reports that the passwords of the databases are derived from another key.
var ErrWrongKey = errors.New("the key isn't the one that the passwords of the databases are derived from")

// The table in the brokers' database, as version 0.2 had it, the new columns, and the table of the settings of databases
// that were updated. A row of osb_owner that exists by then is of version 0.2, which created roles without labels.
const ownerTable = `
CREATE TABLE IF NOT EXISTS osb_owner (one boolean PRIMARY KEY DEFAULT true CHECK (one), store uuid NOT NULL);
ALTER TABLE osb_owner ADD COLUMN IF NOT EXISTS fingerprint text,
    ADD COLUMN IF NOT EXISTS has_unlabelled boolean NOT NULL DEFAULT true;
ALTER TABLE osb_owner ALTER COLUMN has_unlabelled SET DEFAULT false;
CREATE TABLE IF NOT EXISTS osb_settings (instance uuid PRIMARY KEY, settings text NOT NULL)
`

// All that is missing is created in one transaction, and the table osb_settings is the last that came.
const isCurrent = "SELECT to_regclass('osb_settings') IS NOT NULL"

// ownerLock is the number of an advisory lock for brokers that create the table at the same time. Version 0.2 takes the
// same lock.
const ownerLock = 0x6F73625F6F776E72

func migrate(ctx context.Context, db *sql.DB) error {
	var isDone bool
	if err := db.QueryRowContext(ctx, isCurrent).Scan(&isDone); err != nil || isDone {
		return err
	}
	return inTransaction(ctx, db, func(tx *sql.Tx) (bool, error) {
		if _, err := tx.ExecContext(ctx, "SELECT pg_advisory_xact_lock($1)", int64(ownerLock)); err != nil {
			return false, err
		}
		_, err := tx.ExecContext(ctx, ownerTable)
		return true, err
	})
}

func inTransaction(ctx context.Context, db *sql.DB, do func(*sql.Tx) (bool, error)) error {
	conn, err := db.Conn(ctx)
	if err != nil {
		return err
	}
	defer conn.Close()
	return pg.Transaction(ctx, conn, do)
}

// An owner is the store that has the databases. The zero owner is none.
type owner struct {
	store         string
	fingerprint   string // of the key, or empty if no role was created since version 0.2
	hasUnlabelled bool   // whether version 0.2 began
}

// A queryer is a *sql.DB, a *sql.Conn or a *sql.Tx.
type queryer interface {
	QueryRowContext(ctx context.Context, query string, arguments ...any) *sql.Row
}

const selectOwner = "SELECT store::text, coalesce(fingerprint, ''), has_unlabelled FROM osb_owner"

func readOwner(ctx context.Context, from queryer) (owner, error) {
	return scanOwner(ctx, from, selectOwner)
}

func scanOwner(ctx context.Context, from queryer, query string) (kept owner, err error) {
	err = from.QueryRowContext(ctx, query).Scan(&kept.store, &kept.fingerprint, &kept.hasUnlabelled)
	if errors.Is(err, sql.ErrNoRows) {
		return owner{}, nil
	}
	return kept, err
}

// check fails if the fingerprint is another key's.
func (o owner) check(key []byte) error {
	if o.fingerprint == "" || hmac.Equal([]byte(o.fingerprint), []byte(fingerprintOf(key, o.store))) {
		return nil
	}
	return fmt.Errorf("%w (store %s)", ErrWrongKey, o.store)
}

// Owner returns the name of the store that has the databases, or "".
func (d *Databases) Owner(ctx context.Context) (string, error) {
	kept, err := readOwner(ctx, d.db)
	return kept.store, err
}

// Own keeps the name of a store, a GUID, for good, unless there is one, and returns the name that is kept. It doesn't
// fail if the server has databases of other stores: these have another label or none, and are left alone.
//
// Errors: ErrWrongKey; those of the server.
func (d *Databases) Own(ctx context.Context, store string) (string, error) {
	err := inTransaction(ctx, d.db, func(tx *sql.Tx) (bool, error) {
		_, err := tx.ExecContext(ctx, "INSERT INTO osb_owner (store, fingerprint) VALUES ($1, $2) ON CONFLICT DO NOTHING",
			store, fingerprintOf(d.options.Key, store))
		return true, err
	})
	if err != nil {
		return "", err
	}
	kept, err := readOwner(ctx, d.db)
	if err != nil {
		return "", err
	}
	return kept.store, kept.check(d.options.Key)
}

// lockOwner returns the owner, and keeps its key from being changed until the transaction ends. The first key with
// which a role is created after version 0.2 becomes the key of the store.
//
// Errors: ErrWrongKey, also after Rekey by another process; errNoOwner.
func (d *Databases) lockOwner(ctx context.Context, tx *sql.Tx) (owner, error) {
	kept, err := readOwner(ctx, tx)
	if err != nil {
		return kept, err
	}
	if kept.store == "" {
		return kept, errNoOwner
	}
	if kept.fingerprint == "" {
		_, err = tx.ExecContext(ctx, "UPDATE osb_owner SET fingerprint = $1 WHERE fingerprint IS NULL",
			fingerprintOf(d.options.Key, kept.store))
		if err != nil {
			return kept, err
		}
	}
	if kept, err = scanOwner(ctx, tx, selectOwner+" FOR SHARE"); err != nil {
		return kept, err
	}
	return kept, kept.check(d.options.Key)
}

var errNoOwner = errors.New("the backend isn't tied to a store yet")

// Rekey gives all roles of the store new passwords, those that are derived from another key. The brokers have to be
// started with the new key afterwards: those with the old one create nothing any more. It can be called again, with the
// same keys, if it was broken off. The old key may be shorter than ShortestKey, as in version 0.2.
//
// All is changed in one transaction. The sessions of a role whose customer holds it up are ended.
//
// The store's bindings still have their old credentials then: applications have to be bound anew.
//
// A role without a label, as version 0.2 created them, is this store's if it opens with its old password. Others aren't
// changed, and are returned as left: of other stores of version 0.2, or with a password that the customer has changed.
// For one that is this store's, run `COMMENT ON ROLE name IS 'osb store NAME'` with the store's name, and call Rekey
// again.
//
// Errors: ErrWrongKey if old isn't the key; that new is too short, or that no store has begun here; those of the
// server. Nothing was changed then, unless it is ErrUnknownCommit: then call Rekey again.
func Rekey(ctx context.Context, url string, old, new []byte) (left []string, err error) {
	if err := checkKey(new); err != nil {
		return nil, err
	}
	db, err := pg.Open(url, pg.Options{Most: 2, Lock: lockWait, Statement: statement, Idle: idle})
	if err != nil {
		return nil, err
	}
	defer db.Close()
	if err := migrate(ctx, db); err != nil {
		return nil, err
	}
	it := rekeying{ctx: ctx, db: db, url: url, old: old, new: new}
	err = inTransaction(ctx, db, func(tx *sql.Tx) (bool, error) {
		left, err = it.all(tx)
		return true, err
	})
	return left, err
}

type rekeying struct {
	ctx      context.Context
	db       *sql.DB
	url      string
	old, new []byte
}

// all changes all roles, and returns the names of those that are left. The lock of the owner keeps roles from being
// created meanwhile.
func (r rekeying) all(tx *sql.Tx) (left []string, err error) {
	kept, err := scanOwner(r.ctx, tx, selectOwner+" FOR UPDATE")
	switch {
	case err != nil:
		return nil, err
	case kept.store == "":
		return nil, errNoOwner
	case kept.check(r.old) != nil && kept.check(r.new) != nil:
		return nil, kept.check(r.old)
	}
	roles, err := r.roles(tx)
	if err != nil {
		return nil, err
	}
	for _, role := range roles {
		isOurs := role.label == labelOf(kept.store)
		if role.label == "" && kept.hasUnlabelled {
			if isOurs, err = r.opens(tx, role.key); err != nil {
				return nil, err
			}
			if !isOurs {
				left = append(left, NameOf(role.key))
			}
		}
		if !isOurs {
			continue
		}
		if err := r.change(tx, role.key, kept.store); err != nil {
			return nil, fmt.Errorf("the password of %s: %w", NameOf(role.key), err)
		}
	}
	_, err = tx.ExecContext(r.ctx, "UPDATE osb_owner SET fingerprint = $1", fingerprintOf(r.new, kept.store))
	return left, err
}

// A labelledRole is a role whose name is that of a key.
type labelledRole struct {
	key   broker.Key
	label string
}

func (r rekeying) roles(tx *sql.Tx) (found []labelledRole, err error) {
	rows, err := tx.QueryContext(r.ctx, "SELECT rolname, coalesce(shobj_description(oid, 'pg_authid'), '') "+
		"FROM pg_roles WHERE starts_with(rolname, 'osb_') ORDER BY rolname")
	if err != nil {
		return nil, err
	}
	defer rows.Close()
	for rows.Next() {
		var name, label string
		if err := rows.Scan(&name, &label); err != nil {
			return nil, err
		}
		if key, isOne := KeyOf(name); isOne {
			found = append(found, labelledRole{key, label})
		}
	}
	return found, rows.Err()
}

// opens reports whether the role logs in with the password of the old key.
func (r rekeying) opens(tx *sql.Tx, key broker.Key) (bool, error) {
	own, err := ownParameters(r.ctx, tx)
	if err != nil {
		return false, err
	}
	name := NameOf(key)
	own["session_authorization"], own["role"] = name, "none"
	db, err := pg.Open(r.url, pg.Options{
		Most: 1, Lock: lockWait, Statement: statement, Idle: idle,
		Database: name, User: name, Password: PasswordOf(r.old, key), Settings: own,
	})
	if err != nil {
		return false, err
	}
	defer db.Close()
	return db.PingContext(r.ctx) == nil, nil
}

// change gives a role its new password, and its label. A customer that changes its own password in an open transaction
// holds that up, and has its sessions ended, by another session than that of the transaction.
func (r rekeying) change(tx *sql.Tx, key broker.Key, store string) error {
	verifier, err := verifierOf(PasswordOf(r.new, key))
	if err != nil {
		return err
	}
	name := quote(NameOf(key))
	for n := 0; ; n++ {
		err := r.inSavepoint(tx, "ALTER ROLE "+name+" PASSWORD "+pq.QuoteLiteral(verifier),
			"COMMENT ON ROLE "+name+" IS "+pq.QuoteLiteral(labelOf(store)))
		if n == tries || !pg.IsCode(err, pg.LockNotAvailable, pg.InternalError) {
			return err
		}
		if err := r.endSessions(NameOf(key)); err != nil {
			return err
		}
	}
}

// inSavepoint runs statements, and undoes them if one fails.
func (r rekeying) inSavepoint(tx *sql.Tx, statements ...string) error {
	if err := execAll(r.ctx, tx, "SAVEPOINT role"); err != nil {
		return err
	}
	if err := execAll(r.ctx, tx, statements...); err != nil {
		if failed := execAll(r.ctx, tx, "ROLLBACK TO SAVEPOINT role"); failed != nil {
			return failed
		}
		return err
	}
	return execAll(r.ctx, tx, "RELEASE SAVEPOINT role")
}

func (r rekeying) endSessions(role string) error {
	conn, err := r.db.Conn(r.ctx)
	if err != nil {
		return err
	}
	defer conn.Close()
	if err := endSessions(r.ctx, conn, "", []string{role}, 0); err != nil {
		return err
	}
	_, err = conn.ExecContext(r.ctx, selectEndOwner, role)
	return err
}

const scramRounds = 4096 // as PostgreSQL has it

// verifierOf is what stands for a password in a statement, since the server's log may have the statement: a verifier
// for SCRAM-SHA-256 (RFC 5802 and RFC 7677; its text is PostgreSQL's). The password must be ASCII.
func verifierOf(password string) (string, error) {
	salt := make([]byte, 16)
	if _, err := rand.Read(salt); err != nil {
		return "", err
	}
	return verifier(password, salt, scramRounds), nil
}

func verifier(password string, salt []byte, rounds int) string {
	salted := pbkdf2.Key([]byte(password), salt, rounds, sha256.Size, sha256.New)
	stored := sha256.Sum256(mac(salted, "Client Key"))
	text := base64.StdEncoding.EncodeToString
	return fmt.Sprintf("SCRAM-SHA-256$%d:%s$%s:%s", rounds, text(salt), text(stored[:]), text(mac(salted, "Server Key")))
}
