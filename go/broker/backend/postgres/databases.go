// Package postgres sells databases of a PostgreSQL server, each with a role and a password of its own. Each binding has
// a role of its own too, which acts as the role of its database.
//
// The server is for nothing else: a customer's load and disk usage reach everybody on it, and the broker's role may do
// much there (Warnings).
package postgres

import (
	"context"
	"crypto/hmac"
	"crypto/sha256"
	"database/sql"
	"encoding/base32"
	"encoding/base64"
	"encoding/binary"
	"encoding/hex"
	"encoding/json"
	"errors"
	"fmt"
	"net"
	"net/url"
	"strconv"
	"strings"
	"time"

	"github.com/lib/pq"
	"golang.org/x/crypto/blake2b"

	"pippinterm/broker"
	"pippinterm/internal/crash"
	"pippinterm/internal/pg"
	"pippinterm/osb"
)

const (
	oldest    = 140000           // the oldest version of the server, as server_version_num has it
	lockWait  = 2 * time.Second  // so long a statement waits for a lock that a customer holds
	statement = 10 * time.Minute // so long a statement runs: CREATE DATABASE takes long on a busy disk
	idle      = 5 * time.Minute  // so long a transaction of the broker does nothing
)

// Databases is a broker.BindingBackend, and an UpdateBackend, LockBackend, TiedBackend, SyncBackend and
// CredentialsBackend.
//
// A statement that the server runs goes on if its client is killed. So the lock of a key is held by the very session
// that runs the key's statements: the server releases it once the last of them has ended. Every call for a key needs
// the context of its lock (broker.Lock).
//
// The role of each database has a label: a comment that names the store. No customer can change it. The role is created
// with its label in one transaction, before the database is created, and is dropped after the database.
type Databases struct {
	db      *sql.DB
	url     string
	options Options
	server  server
	// template is the name of the database that those that are sold are copied from.
	template string
}

// These errors are returned wrapped: compare them by errors.Is.
var (
	// ErrBadAddress reports that a URL of a server can't be used.
	ErrBadAddress = pg.ErrBadAddress
	// ErrNotDurable reports that a commit might not outlive a power cut: synchronous_commit is off.
	ErrNotDurable = pg.ErrNotDurable
	// ErrUnknownCommit reports that nobody knows whether a transaction was committed.
	ErrUnknownCommit = pg.ErrUnknownCommit
)

// Open returns the backend that sells databases of the server of a URL. The database that the URL names is the brokers'
// own. It has the locks, the name of the store and a fingerprint of the key. All brokers of a store use the same one.
// The role of the URL needs CREATEDB and CREATEROLE. It becomes a member of each role that it creates. It connects to
// the databases that were sold too, to take away what a role owns there: pg_hba.conf has to allow that.
//
// Errors: ErrWrongKey, ErrBadAddress, ErrNotDurable, that an option can't be used or the server is
// older than PostgreSQL 14, and those of the connection and the server.
func Open(ctx context.Context, url string, options Options) (*Databases, error) {
	options, err := options.withDefaults(url)
	if err != nil {
		return nil, err
	}
	db, err := pg.Open(url, pg.Options{
		Most: options.Sessions, Lock: lockWait, Statement: statement, Idle: idle,
	})
	if err != nil {
		return nil, fmt.Errorf("the backend: %w", err)
	}
	d := &Databases{db: db, url: url, options: options}
	if err := d.prepare(ctx); err != nil {
		_ = db.Close()
		return nil, fmt.Errorf("the backend: %w", err)
	}
	return d, nil
}

// prepare looks at the server, and checks the key if the backend has an owner.
func (d *Databases) prepare(ctx context.Context) (err error) {
	if d.server, err = readServer(ctx, d.db); err != nil {
		return err
	}
	copied, err := readTemplate(ctx, d.db, d.options.Template)
	if err != nil {
		return err
	}
	d.template = copied.name
	if err := migrate(ctx, d.db); err != nil {
		return err
	}
	kept, err := readOwner(ctx, d.db)
	if err != nil {
		return err
	}
	return kept.check(d.options.Key)
}

// Close closes the sessions. Work that the server has begun goes on, and keeps its lock until it has ended. If the
// server doesn't answer, Close returns 2 seconds later, and the sessions end by themselves.
func (d *Databases) Close() error { return pg.Close(d.db) }

// Sync returns once what Look and LookBinding say would outlive a power cut, and the loss of the server if the server
// waits for a standby. It commits a record of the log: all earlier records are on disk then too.
func (d *Databases) Sync(ctx context.Context, request broker.Request) error {
	conn, err := sessionOf(ctx, request.Key)
	if err != nil {
		return err
	}
	return pg.Transaction(ctx, conn, func(tx *sql.Tx) (bool, error) {
		_, err := tx.ExecContext(ctx, "SELECT pg_logical_emit_message(true, 'osb', '')")
		return true, err
	})
}

// Credentials returns the credentials of a binding, as CreateBinding does.
//
// Errors: ErrWrongKey if the key has been changed by Rekey; those of the server.
func (d *Databases) Credentials(ctx context.Context, request broker.Request) (json.RawMessage, error) {
	conn, err := sessionOf(ctx, request.Key)
	if err != nil {
		return nil, err
	}
	kept, err := readOwner(ctx, conn)
	if err != nil {
		return nil, err
	}
	if err := kept.check(d.options.Key); err != nil {
		return nil, err
	}
	return d.credentials(request.Key)
}

// credentials are what an application needs to use a binding.
func (d *Databases) credentials(key broker.Key) (json.RawMessage, error) {
	database, username := NameOf(osb.InstanceKey(key.Instance)), NameOf(key)
	password := PasswordOf(d.options.Key, key)
	uri := url.URL{
		Scheme: "postgresql",
		User:   url.UserPassword(username, password),
		Host:   net.JoinHostPort(d.options.Host, strconv.Itoa(d.options.Port)),
		Path:   "/" + database,
	}
	return json.Marshal(struct {
		URI      string `json:"uri"`
		Host     string `json:"host"`
		Port     int    `json:"port"`
		Database string `json:"database"`
		Username string `json:"username"`
		Password string `json:"password"`
	}{uri.String(), d.options.Host, d.options.Port, database, username, password})
}

// exec runs statements, each in a transaction of its own.
func exec(ctx context.Context, conn *sql.Conn, statements ...string) error {
	for _, statement := range statements {
		if _, err := conn.ExecContext(ctx, statement); err != nil {
			return err
		}
	}
	return nil
}

// Options say what is sold, and how. The zero value of each but Key and Sessions stands for its default.
type Options struct {
	// Key is what the passwords are derived from, at least 32 bytes that nobody can guess, for example from
	// `openssl rand -base64 32`. Who has the key can compute all passwords.
	Key []byte
	// Sessions is how many keys are locked, and so worked at, side by side, at least 1. Each is a connection to the
	// server, and has a second one while it drops a role that owns something in another database.
	Sessions int
	// ConnectionsPerInstance is how many connections each role may have, and each database; 20 by default. A customer
	// can lift the limit of its database, but no role can lift its own. So an instance with n bindings has at most n +
	// 1 times as many connections.
	ConnectionsPerInstance int
	// Plans are the limits of plans, by their ids. A plan without a limit has that of ConnectionsPerInstance.
	Plans map[string]Limits
	// TempFileLimit is how many bytes of temporary files each session of a customer may have, 1 GiB by default, and no
	// limit if negative. It is only set if the broker's role may set it (Warnings).
	TempFileLimit int64
	// IdleInTransaction is how long a transaction of a customer may be idle, 10 minutes by default, and no limit if
	// negative. A customer can change it.
	IdleInTransaction time.Duration
	// Template is the database that those that are sold are copied from. The default is DefaultTemplate, or template0
	// if there is no such database.
	Template string
	// Host and Port are where customers reach the server, by default the host and the port of the URL.
	Host string
	Port int
}

const (
	// ShortestKey is how many bytes a key has at least.
	ShortestKey = 32
	// DefaultTemplate is the name of the template that docs/broker-guide.md creates: in its copies no customer can take
	// advisory locks.
	DefaultTemplate = "template_osb"

	defaultConnections   = 20
	defaultTempFileLimit = 1 << 30
	defaultIdle          = 10 * time.Minute
)

// withDefaults checks the options, and fills in what is missing.
func (o Options) withDefaults(url string) (Options, error) {
	if err := checkKey(o.Key); err != nil {
		return o, err
	}
	if o.Sessions < 1 {
		return o, fmt.Errorf("the backend needs at least 1 session, and not %d", o.Sessions)
	}
	if o.ConnectionsPerInstance < 0 {
		return o, fmt.Errorf("an instance can't have %d connections", o.ConnectionsPerInstance)
	}
	if o.ConnectionsPerInstance == 0 {
		o.ConnectionsPerInstance = defaultConnections
	}
	if o.TempFileLimit == 0 {
		o.TempFileLimit = defaultTempFileLimit
	}
	if o.IdleInTransaction == 0 {
		o.IdleInTransaction = defaultIdle
	}
	return o.withPlace(url)
}

// withPlace fills in where customers reach the server.
func (o Options) withPlace(url string) (Options, error) {
	host, port, err := pg.HostAndPort(url)
	if err != nil {
		return o, err
	}
	if o.Host == "" {
		o.Host = host
	}
	if o.Port == 0 {
		if o.Port, err = strconv.Atoi(port); err != nil {
			return o, pg.ErrBadAddress
		}
	}
	if strings.HasPrefix(o.Host, "/") {
		return o, errors.New("the URL names a socket of this machine. Give the host at which customers reach the server")
	}
	return o, nil
}

func checkKey(key []byte) error {
	if len(key) < ShortestKey {
		return fmt.Errorf("the key of the passwords has %d bytes, and needs at least %d. Make one with: "+
			"openssl rand -base64 32", len(key), ShortestKey)
	}
	return nil
}

// digits are those of a binding's id in the name of its role. With them the name has 63 bytes, the most that a name of
// PostgreSQL has.
var digits = base32.HexEncoding.WithPadding(base32.NoPadding)

// NameOf returns the name of the role of a key. For an instance that is the name of its database too: osb_ and the 32
// hexadecimal digits of its number. For a binding it is that name, _ and the number of the binding in base 32.
func NameOf(key broker.Key) string {
	name := "osb_" + hex.EncodeToString(key.Instance[:])
	if key.IsBinding {
		name += "_" + strings.ToLower(digits.EncodeToString(key.Binding[:]))
	}
	return name
}

// KeyOf returns the key whose role has a name, if there is one.
func KeyOf(name string) (key broker.Key, isOne bool) {
	parts := strings.Split(name, "_")
	if len(parts) < 2 || len(parts) > 3 || parts[0] != "osb" {
		return key, false
	}
	instance, err := hex.DecodeString(parts[1])
	if err != nil || copy(key.Instance[:], instance) != len(osb.ID{}) {
		return key, false
	}
	if len(parts) == 3 {
		binding, err := digits.DecodeString(strings.ToUpper(parts[2]))
		if err != nil || copy(key.Binding[:], binding) != len(osb.ID{}) {
			return key, false
		}
		key.IsBinding = true
	}
	return key, NameOf(key) == name
}

// PasswordOf returns the password of the role of a key: 43 characters, derived from the key of the passwords, and
// stored nowhere. That of an instance is the one of version 0.2.
func PasswordOf(secret []byte, key broker.Key) string {
	of := "password of " + key.String()
	if key.IsBinding {
		of = "password of binding " + key.String()
	}
	return base64.RawURLEncoding.EncodeToString(mac(secret, of))
}

// fingerprintOf is a text by which one key of the passwords can be distinguished from another. The key can't be
// computed from it.
func fingerprintOf(secret []byte, store string) string {
	return hex.EncodeToString(mac(secret, "fingerprint for store "+store))
}

func mac(secret []byte, of string) []byte {
	made := hmac.New(sha256.New, secret)
	made.Write([]byte(of))
	return made.Sum(nil)
}

// labelOf is the comment on each role that a store has created.
func labelOf(store string) string { return "osb store " + store }

// numberOf is the number of the advisory lock of a key. If two keys have the same number, one waits for the other. That
// of an instance is the one of version 0.2.
func numberOf(key broker.Key) int64 {
	of := "osb instance " + key.String()
	if key.IsBinding {
		of = "osb binding " + key.String()
	}
	made, err := blake2b.New(8, nil)
	if err != nil {
		panic(err) // 8 bytes are a size that it has
	}
	made.Write([]byte(of))
	return int64(binary.BigEndian.Uint64(made.Sum(nil)))
}

func quote(name string) string { return pq.QuoteIdentifier(name) }

// Create creates the role and the database of an instance. What a call that was broken off has left of them is deleted
// first. The role can't log in before all else is done.
//
// Errors: ErrForeign, ErrWrongKey; those of the server.
func (d *Databases) Create(ctx context.Context, request broker.Request) error {
	limits, err := d.limitsOf(broker.Settings{PlanID: request.PlanID, Parameters: request.Member("parameters")})
	if err != nil {
		return err
	}
	conn, f, err := instance(ctx, request)
	if err != nil {
		return err
	}
	if err := d.remove(ctx, conn, request.Key, f); err != nil {
		return err
	}
	name := quote(f.name)
	if err := d.createRole(ctx, conn, request.Key, "NOLOGIN", limits.Connections); err != nil {
		return err
	}
	crash.At("work-half")
	err = exec(ctx, conn, "CREATE DATABASE "+name+" OWNER "+name+" TEMPLATE "+quote(d.template)+
		" ALLOW_CONNECTIONS false CONNECTION LIMIT "+strconv.Itoa(limits.Connections))
	if err != nil {
		return err
	}
	return persist(func() error { return open(ctx, conn, name, limits) }) // a Rekey may have the role
}

// open lets the customer in.
func open(ctx context.Context, conn *sql.Conn, name string, limits Limits) error {
	return pg.Transaction(ctx, conn, func(tx *sql.Tx) (bool, error) {
		return true, execAll(ctx, tx,
			"REVOKE ALL ON DATABASE "+name+" FROM PUBLIC",
			timeoutStatement(name, limits),
			"ALTER DATABASE "+name+" ALLOW_CONNECTIONS true",
			"ALTER ROLE "+name+" LOGIN")
	})
}

// createRole creates the role of a key with its label, in one transaction: no role of the broker's is without one. The
// broker's role becomes a member, as it needs to be to delete what the role has created, and to end its sessions. The
// role of a binding may have as many connections as that of its instance.
func (d *Databases) createRole(ctx context.Context, conn *sql.Conn, key broker.Key, login string, limit int) error {
	verifier, err := verifierOf(PasswordOf(d.options.Key, key))
	if err != nil {
		return err
	}
	return pg.Transaction(ctx, conn, func(tx *sql.Tx) (bool, error) {
		kept, err := d.lockOwner(ctx, tx)
		if err != nil {
			return false, err
		}
		if key.IsBinding {
			if limit, err = lockLimit(ctx, tx, osb.InstanceKey(key.Instance)); err != nil {
				return false, err
			}
		}
		return true, execAll(ctx, tx, d.roleStatements(key, login, verifier, kept.store, limit)...)
	})
}

func (d *Databases) roleStatements(key broker.Key, login, verifier, store string, limit int) []string {
	name := quote(NameOf(key))
	statements := []string{
		"CREATE ROLE " + name + " " + login + " CONNECTION LIMIT " + strconv.Itoa(limit) + " PASSWORD " +
			pq.QuoteLiteral(verifier),
		"COMMENT ON ROLE " + name + " IS " + pq.QuoteLiteral(labelOf(store)),
		"GRANT " + name + " TO CURRENT_USER",
	}
	if d.options.IdleInTransaction > 0 {
		statements = append(statements, "ALTER ROLE "+name+" SET idle_in_transaction_session_timeout = '"+
			strconv.FormatInt(d.options.IdleInTransaction.Milliseconds(), 10)+"ms'")
	}
	if d.options.TempFileLimit > 0 && d.server.limitsTempFiles {
		statements = append(statements, "ALTER ROLE "+name+" SET temp_file_limit = '"+
			strconv.FormatInt((d.options.TempFileLimit+1023)/1024, 10)+"kB'")
	}
	if key.IsBinding { // what the binding's sessions create belongs to the instance's role
		of := quote(NameOf(osb.InstanceKey(key.Instance)))
		statements = append(statements, "GRANT "+of+" TO "+name, "ALTER ROLE "+name+" SET role = "+of)
	}
	return statements
}

// execAll runs statements in a transaction.
func execAll(ctx context.Context, tx *sql.Tx, statements ...string) error {
	for _, statement := range statements {
		if _, err := tx.ExecContext(ctx, statement); err != nil {
			return err
		}
	}
	return nil
}

// ErrForeign reports that a database or a role has the name of a key, and isn't known to be this store's. Nothing was
// changed. An operator has to look.
var ErrForeign = errors.New("it isn't known to be of this store")

// A resource is what the server has under the name of a key: a role, a database, both or neither.
type resource struct {
	name  string
	owner owner

	hasRole  bool
	canLogin bool
	label    string // the comment on the role
	isMember bool   // whether the broker's role was made a member of the role

	hasDatabase bool
	isRoles     bool // whether the database belongs to the role
	isOpen      bool // whether it can be connected to
	isBroken    bool // whether a DROP DATABASE was broken off, so that nothing but another one is possible
	isTemplate  bool
}

// The database of a role is the one that the role owns. A customer can neither rename it nor give it to another role:
// both need CREATEDB.
const selectFound = `
SELECT r.oid IS NOT NULL, coalesce(r.rolcanlogin, false), coalesce(shobj_description(r.oid, 'pg_authid'), ''),
    EXISTS (SELECT FROM pg_auth_members AS m
        WHERE m.roleid = r.oid AND m.member = (SELECT oid FROM pg_roles WHERE rolname = current_user)),
    d.oid IS NOT NULL, coalesce(d.datdba = r.oid, false), coalesce(d.datallowconn AND d.datconnlimit <> -2, false),
    coalesce(d.datconnlimit = -2, false), coalesce(d.datistemplate, false)
FROM (SELECT $1::name AS name) AS n
LEFT JOIN pg_roles AS r ON r.rolname = n.name
LEFT JOIN pg_database AS d ON d.datname = n.name
`

// find looks under the name of a key.
func find(ctx context.Context, conn *sql.Conn, key broker.Key) (f resource, err error) {
	f.name = NameOf(key)
	if f.owner, err = readOwner(ctx, conn); err != nil {
		return f, err
	}
	if f.owner.store == "" {
		return f, errNoOwner
	}
	err = conn.QueryRowContext(ctx, selectFound, f.name).Scan(&f.hasRole, &f.canLogin, &f.label, &f.isMember,
		&f.hasDatabase, &f.isRoles, &f.isOpen, &f.isBroken, &f.isTemplate)
	return f, err
}

// check fails unless what was found is this store's. The label of the role says so.
//
// Version 0.2 created roles without a label. Such a role is this store's if all of this is true:
//
//   - Version 0.2 began the store (osb_owner).
//   - The broker's role is a member of the role. Version 0.2 made it one.
//   - Version 0.2 wrote the store's row of the instance (mayBeUnlabelled). Otherwise the role would have a label. A call
//     for a binding doesn't know that row, and passes true: a binding only begins if the store says that the instance is
//     ready.
//
// So a store that began with this version never adopts a role without a label. If two stores of version 0.2 on one
// server have a row for the same id, and their brokers use the same role, both have adopted its database already, and
// nobody can tell whose it is.
func (f resource) check(mayBeUnlabelled bool) error {
	isLabelled := f.hasRole && f.label == labelOf(f.owner.store)
	isOf02 := f.hasRole && f.label == "" && mayBeUnlabelled && f.owner.hasUnlabelled && f.isMember
	switch {
	case !f.hasRole && !f.hasDatabase:
		return nil
	case !f.hasRole:
		return fmt.Errorf("the database %s has no role of its name: %w", f.name, ErrForeign)
	case f.hasDatabase && !f.isRoles:
		return fmt.Errorf("the database %s doesn't belong to the role %s: %w", f.name, f.name, ErrForeign)
	case !isLabelled && !isOf02:
		return fmt.Errorf("the role %s has the comment %q: %w. If it is this store's, run: COMMENT ON ROLE %s IS '%s'",
			f.name, f.label, ErrForeign, f.name, labelOf(f.owner.store))
	}
	return nil
}

// there is what exists of an instance. A deletion first takes the login away, and a creation gives it last.
func (f resource) there() broker.There {
	switch {
	case f.hasRole && f.canLogin && f.hasDatabase && f.isOpen:
		return broker.Whole
	case f.hasRole || f.hasDatabase:
		return broker.Part
	}
	return broker.None
}

// instance returns the session that holds the lock of an instance, and what is found of the instance, if that is this
// store's.
func instance(ctx context.Context, request broker.Request) (conn *sql.Conn, f resource, err error) {
	if conn, err = sessionOf(ctx, request.Key); err != nil {
		return conn, f, err
	}
	if f, err = find(ctx, conn, request.Key); err != nil {
		return conn, f, err
	}
	return conn, f, f.check(request.Body == nil)
}

// Look returns what exists of an instance.
//
// Errors: ErrForeign if the name is taken by what isn't this store's; those of the server.
func (d *Databases) Look(ctx context.Context, request broker.Request) (broker.There, error) {
	_, f, err := instance(ctx, request)
	if err != nil {
		return broker.None, err
	}
	return f.there(), nil
}

// binding returns the session that holds the lock of a binding, and what is found of the binding and of its instance. It
// fails unless both are this store's. The request of a binding doesn't show whether version 0.2 created the instance.
func binding(ctx context.Context, request broker.Request) (conn *sql.Conn, own, of resource, err error) {
	if conn, err = sessionOf(ctx, request.Key); err != nil {
		return conn, own, of, err
	}
	if of, err = find(ctx, conn, osb.InstanceKey(request.Key.Instance)); err != nil {
		return conn, own, of, err
	}
	if err := of.check(true); err != nil {
		return conn, own, of, err
	}
	if own, err = find(ctx, conn, request.Key); err != nil {
		return conn, own, of, err
	}
	return conn, own, of, own.check(false)
}

// LookBinding returns what exists of a binding: its role, or a part if the role can't log in.
//
// Errors: ErrForeign; those of the server.
func (d *Databases) LookBinding(ctx context.Context, request broker.Request) (broker.There, error) {
	_, own, _, err := binding(ctx, request)
	switch {
	case err != nil || !own.hasRole:
		return broker.None, err
	case !own.canLogin:
		return broker.Part, nil
	}
	return broker.Whole, nil
}

// CreateBinding creates the role of a binding in one transaction, and returns the credentials. The role is a member of
// the instance's role, and its sessions act as the instance's role. So the other bindings can use what one binding
// creates, and it stays after the binding was deleted.
//
// Errors: ErrForeign, ErrWrongKey, that there is no such database; those of the server.
func (d *Databases) CreateBinding(ctx context.Context, request broker.Request) (json.RawMessage, error) {
	conn, own, of, err := binding(ctx, request)
	if err != nil {
		return nil, err
	}
	if !of.hasRole || !of.hasDatabase {
		return nil, fmt.Errorf("the database %s doesn't exist", of.name)
	}
	if err := d.removeBinding(ctx, conn, request.Key, own, of); err != nil {
		return nil, err
	}
	if err := d.createRole(ctx, conn, request.Key, "LOGIN", 0); err != nil {
		return nil, err
	}
	return d.credentials(request.Key)
}

// DeleteBinding ends the sessions of a binding, and drops its role. The sessions of other bindings go on, except those
// whose open transaction has granted something to the role, or has changed a role. The instance's role gets what the
// role owns.
//
// The application acted as the instance's role, so it could give that role a password. DeleteBinding gives it the
// broker's password again, and ends its sessions.
//
// From the first step on nobody can log in with the binding. DeleteBinding can still fail then, and has to be called
// again, if the role owns something in the database, and other sessions hold a lock on it.
//
// Errors: ErrForeign; ErrWrongKey if the key has been changed by Rekey; those of the server.
func (d *Databases) DeleteBinding(ctx context.Context, request broker.Request) error {
	conn, own, of, err := binding(ctx, request)
	if err != nil {
		return err
	}
	return d.removeBinding(ctx, conn, request.Key, own, of)
}

func (d *Databases) removeBinding(ctx context.Context, conn *sql.Conn, key broker.Key, own, of resource) error {
	if !own.hasRole {
		return nil
	}
	if err := rejoin(ctx, conn, own.name, of.name); err != nil {
		return err
	}
	return persist(func() error {
		if err := endSessions(ctx, conn, "", []string{own.name}, 0); err != nil {
			return err
		}
		if err := exec(ctx, conn, "ALTER ROLE "+quote(own.name)+" NOLOGIN"); err != nil {
			return err
		}
		crash.At("binding-half")
		if err := endSessions(ctx, conn, "", []string{own.name}, endWait); err != nil {
			return err
		}
		if of.hasRole {
			if err := d.renewPassword(ctx, conn, osb.InstanceKey(key.Instance)); err != nil {
				return err
			}
		}
		return d.dropRole(ctx, conn, own.name, of.name)
	})
}

// The sessions of the role of an instance, and those of its bindings that have changed a role in an open transaction.
const selectEndOwner = `
SELECT pg_terminate_backend(pid) FROM pg_stat_activity AS a
WHERE pid <> pg_backend_pid() AND backend_type = 'client backend' AND pg_has_role(usesysid, 'USAGE')
    AND (usename = $1::text OR starts_with(usename, $1::text || '_') AND EXISTS (SELECT FROM pg_locks AS l
        WHERE l.pid = a.pid AND relation = 'pg_authid'::regclass AND mode = 'RowExclusiveLock'))
`

// Two sessions that alter one role at a time fail, so those that renew a password take turns.
const selectTurn = "SELECT pg_advisory_xact_lock(hashtextextended('osb password ' || $1::text, 0))"

// renewPassword gives the role of an instance the broker's password, and ends the sessions that were opened with
// another one.
func (d *Databases) renewPassword(ctx context.Context, conn *sql.Conn, instance broker.Key) error {
	name := NameOf(instance)
	verifier, err := verifierOf(PasswordOf(d.options.Key, instance))
	if err != nil {
		return err
	}
	if _, err := conn.ExecContext(ctx, selectEndOwner, name); err != nil { // they may hold up what follows
		return err
	}
	err = pg.Transaction(ctx, conn, func(tx *sql.Tx) (bool, error) {
		if _, err := d.lockOwner(ctx, tx); err != nil {
			return false, err
		}
		if _, err := tx.ExecContext(ctx, selectTurn, name); err != nil {
			return false, err
		}
		return true, execAll(ctx, tx, "ALTER ROLE "+quote(name)+" PASSWORD "+pq.QuoteLiteral(verifier))
	})
	if err != nil {
		return err
	}
	_, err = conn.ExecContext(ctx, selectEndOwner, name)
	return err
}
