package audit

import (
	"context"
	"database/sql"
	"encoding/json"
	"errors"
	"fmt"
	"io/fs"
	"net"
	"net/url"
	"os"
	"path/filepath"
	"strings"
	"syscall"
	"time"

	"pippinterm/broker"
	"pippinterm/broker/backend/postgres"
	"pippinterm/internal/pg"
	"pippinterm/osb"
)

// Databases are the databases and the roles that osb-broker sells at a PostgreSQL server.
type Databases struct {
	DB     *sql.DB // at the server, as a superuser
	Server string  // its URL
	Secret []byte  // from which the broker derives the passwords
}

var _ Resources = Databases{}

// exist selects the names of roles and databases, and whether each can be used: a role that may log in, and if it is
// that of an instance, whose database can be connected to.
const exist = `
SELECT rolname, rolcanlogin AND (rolname ~ '_.*_' OR EXISTS (SELECT FROM pg_database
    WHERE datname = rolname AND datallowconn AND datconnlimit <> -2)) FROM pg_roles WHERE rolname ~ '^osb_'
UNION SELECT datname, false FROM pg_database WHERE datname ~ '^osb_'
`

// Look reads the names. No role shows its password.
func (d Databases) Look(ctx context.Context, isOurs func(string) bool) (Stock, error) {
	stock := Stock{Of: map[Key]broker.There{}}
	rows, err := d.DB.QueryContext(ctx, exist)
	if err != nil {
		return stock, err
	}
	defer rows.Close()
	for rows.Next() {
		var name string
		var isWhole bool
		if err := rows.Scan(&name, &isWhole); err != nil {
			return stock, err
		}
		key, isKey := keyOfRole(name)
		switch {
		case !isKey || !isOurs(key.Instance):
		case isWhole:
			stock.Of[key] = broker.Whole
		case stock.Of[key] != broker.Whole:
			stock.Of[key] = broker.Part
		}
	}
	return stock, rows.Err()
}

// IsUsable reports whether the database of an instance lets its role in, and takes a table from it.
func (d Databases) IsUsable(ctx context.Context, key Key, _ Record) (bool, error) {
	named, err := Numbered(key)
	if err != nil {
		return false, err
	}
	name := postgres.NameOf(named)
	return takes(ctx, d.Server, pg.Options{
		Database: name, User: name, Password: postgres.PasswordOf(d.Secret, named),
	})
}

// Works reports whether the user of a binding can log in to the database of its instance, and create a table.
func (d Databases) Works(ctx context.Context, key Key, credentials json.RawMessage) (bool, error) {
	var given struct {
		Host, Database, Username, Password string
		Port                               int
	}
	if json.Unmarshal(credentials, &given) != nil {
		return false, nil
	}
	named, err := Numbered(key.InstanceKey())
	if err != nil || given.Database != postgres.NameOf(named) {
		return false, err
	}
	server, err := url.Parse(d.Server)
	if err != nil {
		return false, pg.ErrBadAddress
	}
	server.Host = net.JoinHostPort(given.Host, fmt.Sprint(given.Port))
	return takes(ctx, server.String(), pg.Options{
		Database: given.Database, User: given.Username, Password: given.Password,
	})
}

// Clear drops the databases and the roles.
func (d Databases) Clear(ctx context.Context, isOurs func(string) bool) error {
	stock, err := d.Look(ctx, isOurs)
	if err != nil {
		return err
	}
	var databases, bindings, instances []string
	for key := range stock.Of {
		named, err := Numbered(key)
		if err != nil {
			return err
		}
		name := postgres.NameOf(named)
		if key.Binding != "" {
			bindings = append(bindings, "DROP ROLE IF EXISTS "+name)
			continue
		}
		databases = append(databases, "DROP DATABASE IF EXISTS "+name+" WITH (FORCE)")
		instances = append(instances, "DROP ROLE IF EXISTS "+name)
	}
	for _, database := range append(append(databases, bindings...), instances...) { // a role after what it owns
		if _, err := d.DB.ExecContext(ctx, database); err != nil {
			return err
		}
	}
	return nil
}

func keyOfRole(name string) (Key, bool) {
	named, isOne := postgres.KeyOf(name)
	if !isOne {
		return Key{}, false
	}
	return KeyOf(named), true
}

// KeyOf returns the ids of a row. They are GUIDs, so their numbers are their texts.
func KeyOf(numbered osb.Key) Key {
	if numbered.IsBinding {
		return Key{Instance: numbered.Instance.String(), Binding: numbered.Binding.String()}
	}
	return Key{Instance: numbered.Instance.String()}
}

// Numbered returns the key with the numbers of its ids.
func Numbered(key Key) (osb.Key, error) { return osb.KeyOfTexts(key.Instance, key.Binding) }

// takes reports whether a session that is opened so may create a table. If the server is away, it returns an error.
func takes(ctx context.Context, address string, as pg.Options) (bool, error) {
	as.Most, as.Lock, as.Statement, as.Idle = 1, 10*time.Second, 10*time.Second, time.Minute
	db, err := pg.Open(address, as)
	if err != nil {
		return false, err
	}
	defer pg.Close(db)
	_, err = db.ExecContext(ctx, "CREATE TEMPORARY TABLE x (y integer)")
	if _, isRejected := pg.Remedy(err); err != nil && !isRejected && !isClosedTo(err) {
		return false, err
	}
	return err == nil, nil
}

// isClosedTo reports whether a database doesn't take connections, or the role isn't let in.
func isClosedTo(err error) bool {
	const objectNotInState = "55000"
	return pg.IsCode(err, objectNotInState)
}

// Folders are the folders that osb-broker sells: INSTANCE, and .bindings/INSTANCE-BINDING, or the same names after
// .part- if a part of it exists. All of them are the storm's.
type Folders struct{ Top string }

var _ Resources = Folders{}

const (
	partPrefix = ".part-"
	bindings   = ".bindings"
	guidLength = 36
)

// Look reads the folders.
func (f Folders) Look(context.Context, func(string) bool) (Stock, error) {
	stock := Stock{Of: map[Key]broker.There{}, Credentials: map[Key]json.RawMessage{}}
	for _, folder := range []string{"", bindings} {
		files, err := os.ReadDir(filepath.Join(f.Top, folder))
		if errors.Is(err, fs.ErrNotExist) { // the broker hasn't started yet
			continue
		}
		if err != nil {
			return stock, err
		}
		for _, file := range files {
			name := strings.TrimPrefix(file.Name(), partPrefix)
			key, isKey := keyOfName(name, folder != "")
			switch isPart := name != file.Name(); {
			case !isKey:
			case isPart: // the whole, if there is one, is later: the names are sorted
				stock.Of[key] = broker.Part
			default:
				stock.Of[key] = broker.Whole
				f.show(stock, key)
			}
		}
	}
	return stock, nil
}

// show adds the credentials of a binding. One that is deleted meanwhile has none.
func (f Folders) show(stock Stock, key Key) {
	if key.Binding == "" {
		return
	}
	if text, err := os.ReadFile(f.binding(key)); err == nil && json.Valid(text) {
		stock.Credentials[key] = text
	}
}

func (f Folders) binding(key Key) string {
	return filepath.Join(f.Top, bindings, key.Instance+"-"+key.Binding)
}

// IsUsable reports whether the label of the folder says what was ordered, in an attribute or in a file.
func (f Folders) IsUsable(_ context.Context, key Key, record Record) (bool, error) {
	folder := filepath.Join(f.Top, key.Instance)
	attribute := make([]byte, 4096)
	if length, err := syscall.Getxattr(folder, "user.osb", attribute); err == nil {
		return string(attribute[:length]) == digits(record.Service)+" "+digits(record.Plan), nil
	}
	text, err := os.ReadFile(filepath.Join(folder, "instance.json"))
	if err != nil {
		return false, nil
	}
	var read struct {
		Instance      string
		Service, Plan osb.ID
	}
	err = json.Unmarshal(text, &read)
	isSame := read.Instance == key.Instance && read.Service == record.Service && read.Plan == record.Plan
	return err == nil && isSame, nil
}

// Works reports whether the file of a binding has these credentials, which are for the folder of its instance.
func (f Folders) Works(_ context.Context, key Key, credentials json.RawMessage) (bool, error) {
	text, err := os.ReadFile(f.binding(key))
	if err != nil {
		return false, nil
	}
	folder, err := filepath.Abs(filepath.Join(f.Top, key.Instance))
	if err != nil {
		return false, err
	}
	var given struct{ Folder string }
	err = json.Unmarshal(credentials, &given)
	return err == nil && isSame(text, credentials) && given.Folder == folder, nil
}

// Clear does nothing: the storm's folder ends with it.
func (f Folders) Clear(context.Context, func(string) bool) error { return nil }

// keyOfName returns the key of a folder, or of the file of a binding.
func keyOfName(name string, isBinding bool) (Key, bool) {
	switch {
	case !isBinding && len(name) == guidLength:
		return Key{Instance: name}, true
	case isBinding && len(name) == 2*guidLength+1:
		return Key{Instance: name[:guidLength], Binding: name[guidLength+1:]}, true
	}
	return Key{}, false
}

func digits(id osb.ID) string { return strings.ReplaceAll(id.String(), "-", "") }
