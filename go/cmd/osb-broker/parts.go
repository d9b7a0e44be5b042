package main

import (
	"context"
	"errors"
	"fmt"
	"io/fs"
	"net"
	"os"
	"path/filepath"
	"strconv"
	"strings"

	"pippinterm/broker"
	"pippinterm/broker/backend/command"
	"pippinterm/broker/backend/folders"
	"pippinterm/broker/backend/postgres"
	pgstore "pippinterm/broker/postgres"
	"pippinterm/broker/sealed"
	"pippinterm/broker/sqlite"
	"pippinterm/internal/cli"
	"pippinterm/internal/logs"
	"pippinterm/internal/pg"
	"pippinterm/internal/secrets"
	"pippinterm/internal/sqlitefile"
	"pippinterm/internal/vault"
)

// parts are what a broker is made of.
type parts struct {
	backend broker.Backend
	store   broker.NamedStore
	locks   broker.Locks
	keys    *vault.Vault // of what is encrypted in the store, or nil
	sells   string       // what an instance is called in the standard catalogue
	close   []func()
}

// partsOf opens what the settings name. If it fails, nothing stays open.
//
// Errors: cli.Unusable for what an operator has to change; cli.Unavailable for a server that is away, a full
// disk, and a file of SQLite that another process has kept.
func partsOf(ctx context.Context, s *settings, log *logs.Logger, observer broker.Observer) (p *parts, err error) {
	p = &parts{}
	defer func() {
		if err != nil {
			p.closeAll()
		}
	}()
	if err := os.MkdirAll(s.state, 0o700); err != nil {
		return p, ofFiles("the state folder can't be created", err)
	}
	warnOfFolder(s.state, log)
	if err := p.openKeys(s, log); err != nil {
		return p, err
	}
	if err := p.openBackend(ctx, s, log); err != nil {
		return p, err
	}
	if err := p.openStore(ctx, s, observer); err != nil {
		return p, err
	}
	if err := p.openLocks(s); err != nil {
		return p, err
	}
	if err := p.forStorm(ctx, s); err != nil {
		return p, err
	}
	err = broker.Tie(ctx, p.store, p.backend, s.existing)
	if errors.Is(err, broker.ErrParted) {
		return p, cli.Unusable(fmt.Errorf("%w. %s", err, p.remedy(ctx, s)))
	}
	return p, away("the store and the backend can't be used together", err)
}

// warnOfFolder logs a warning if other accounts can write to the state folder: they can replace the store.
func warnOfFolder(folder string, log *logs.Logger) {
	if mode, isOpen := cli.IsOpen(folder); isOpen {
		log.Warning("folder_open").Str("folder", folder).Str("mode", fmt.Sprintf("%04o", mode)).Send()
	}
}

// openKeys reads the keys of the store, if there are any. The log says which they are.
func (p *parts) openKeys(s *settings, log *logs.Logger) error {
	if len(s.storeKeys) == 0 {
		return nil
	}
	keys, warnings, err := sealed.ReadKeys(s.storeKeys...)
	if err != nil {
		return cli.Unusable(fmt.Errorf("--key-file: %w. Make a key with: osb-broker key --to FILE", err))
	}
	for _, warning := range warnings {
		log.Warning("secret").Str("warning", warning).Send()
	}
	var ids []string
	for _, key := range keys.Keys() {
		ids = append(ids, key.ID())
	}
	log.Info("store_encrypted").Strs("keys", ids).Send()
	p.keys = keys
	return nil
}

// remedy is what to do about a store and a backend that don't belong together.
func (p *parts) remedy(ctx context.Context, s *settings) string {
	if s.existing {
		if name, err := p.store.Name(ctx); err == nil && name == "" {
			return "Check --state and --store. For the first start, leave --existing out"
		}
	}
	backend, isTied := p.backend.(broker.LateTiedBackend)
	if !isTied {
		return "Start each broker of a store with the --state, --store and --backend of its first start"
	}
	if owner, err := backend.Owner(ctx); err != nil || owner != "" {
		return "Choose another --state for this store, or the --store of this state folder"
	}
	return "Run all brokers of the store on one machine, with the --state and --backend of its first start. If that " +
		"folder is lost for good, and no broker of the store runs, write the name of the store to " +
		filepath.Join(commandState(s), ".owner")
}

func (p *parts) closeAll() {
	for at := len(p.close) - 1; at >= 0; at-- {
		p.close[at]()
	}
	p.close = nil
}

// command is the program of a command backend, and whether the backend is one.
func (s *settings) command() (string, bool) {
	name := strings.TrimPrefix(s.backend, "command:")
	return name, name != s.backend
}

// openBackend opens what is sold.
func (p *parts) openBackend(ctx context.Context, s *settings, log *logs.Logger) (err error) {
	if name, isCommand := s.command(); isCommand {
		p.sells = "resource"
		options := command.Options{State: commandState(s), Limit: s.commandTime, Existing: s.existing}
		p.backend, err = command.New(ctx, name, options)
		var called *command.CallError
		if errors.As(err, &called) && called.MayPass {
			return cli.Unavailable(wrap("the backend can't be used", err))
		}
		return ofFiles("the backend can't be used", err)
	}
	if pg.IsAddress(s.backend) {
		p.sells = "database"
		return p.openDatabases(ctx, s, log)
	}
	p.sells = "folder"
	top := s.backend
	if top == "" {
		top = filepath.Join(s.state, "instances")
	}
	p.backend, err = folders.New(top)
	return ofFiles("the backend can't be used", err)
}

// commandState is the folder for the own use of the program of a command backend.
func commandState(s *settings) string { return filepath.Join(s.state, "command") }

func (p *parts) openDatabases(ctx context.Context, s *settings, log *logs.Logger) error {
	if err := withoutPassword(s.backend); err != nil {
		return err
	}
	key, err := longKeyOf(s.keyFile, log)
	if err != nil {
		return err
	}
	options := postgres.Options{
		Key: key, ConnectionsPerInstance: s.perInstance, Sessions: s.atOnce(), Template: s.template,
	}
	if options.Host, options.Port, err = customersOf(s.customers, s.backend); err != nil {
		return cli.Unusable(fmt.Errorf("--customer-address: %w", err))
	}
	if options.Plans, err = plansOf(s.catalogue); err != nil {
		return err
	}
	databases, err := postgres.Open(ctx, s.backend, options)
	if err != nil {
		return away("the backend can't be used", err)
	}
	p.close = append(p.close, func() { _ = databases.Close() })
	p.backend = databases
	warnings, err := databases.Warnings(ctx)
	if err != nil {
		return away("the backend can't be used", err)
	}
	for _, warning := range warnings {
		log.Warning("backend").Str("warning", warning).Send()
	}
	return nil
}

// plansOf are the limits of the plans of a catalogue's file, or none without a file.
func plansOf(file string) (map[string]postgres.Limits, error) {
	if file == "" {
		return nil, nil
	}
	document, err := os.ReadFile(file)
	if err != nil {
		return nil, cli.Unusable(fmt.Errorf("the catalogue can't be read: %w", err))
	}
	plans, err := postgres.ReadPlans(document)
	if err != nil {
		return nil, cli.Unusable(fmt.Errorf("%s can't be the catalogue: %w", file, err))
	}
	return plans, nil
}

// customersOf is the address at which applications reach the databases, or an empty host and 0 for that of the backend.
// No application on another machine reaches a socket of this one.
func customersOf(address, backend string) (string, int, error) {
	if address == "" {
		host, _, err := pg.HostAndPort(backend)
		if err == nil && strings.HasPrefix(host, "/") {
			err = errors.New("--backend names a socket of this machine. Give the address at which applications reach " +
				"the server")
		}
		return "", 0, err
	}
	host, text, err := net.SplitHostPort(address)
	if err != nil {
		return "", 0, err
	}
	port, err := strconv.ParseUint(text, 10, 16)
	return host, int(port), err
}

// openStore opens where the holdings are.
func (p *parts) openStore(ctx context.Context, s *settings, observer broker.Observer) error {
	if pg.IsAddress(s.store) {
		if err := withoutPassword(s.store); err != nil {
			return err
		}
		store, err := pgstore.Open(ctx, s.store, atMost(s.atOnce(), 8), observer)
		if err != nil {
			return away("the store can't be used", err)
		}
		p.store = store
	} else {
		store, err := openFile(ctx, s, observer)
		if err != nil {
			return ofFiles("the store can't be used", err)
		}
		p.store = store
	}
	p.close = append(p.close, func() { _ = p.store.Close() })
	return nil
}

func openFile(ctx context.Context, s *settings, observer broker.Observer) (*sqlite.Store, error) {
	path := s.store
	if path == "" {
		path = filepath.Join(s.state, "holdings.sqlite")
	}
	if _, err := os.Lstat(path); s.existing && errors.Is(err, fs.ErrNotExist) {
		return nil, fmt.Errorf("there is no %s, and --existing wants a store that has been used before", path)
	}
	if err := os.MkdirAll(filepath.Dir(path), 0o700); err != nil {
		return nil, err
	}
	return sqlite.Open(ctx, path, observer)
}

// openLocks are the backend's locks, or locks in a file of the state folder.
func (p *parts) openLocks(s *settings) (err error) {
	if backend, ok := p.backend.(broker.LockBackend); ok {
		p.locks = backend.Locks()
		return nil
	}
	p.locks, err = broker.NewFileLocks(filepath.Join(s.state, ".locks"))
	return ofFiles("the locks can't be used", err)
}

// keyOf is the key of the databases' passwords.
func keyOf(file string, log *logs.Logger) ([]byte, error) {
	key, warning, err := secrets.Secret("OSB_BACKEND_KEY", file)
	if err != nil {
		return nil, cli.Unusable(fmt.Errorf("the key of the databases' passwords: %w", err))
	}
	if warning != "" && log != nil {
		log.Warning("secret").Str("warning", warning).Send()
	}
	return []byte(key), nil
}

// longKeyOf is the key as keyOf returns it, if it is long enough for a new password.
func longKeyOf(file string, log *logs.Logger) ([]byte, error) {
	key, err := keyOf(file, log)
	if err == nil && len(key) < postgres.ShortestKey {
		err = cli.Unusable(fmt.Errorf(
			"the key of the databases' passwords has %d bytes, and needs at least %d. Make one with: osb-broker key",
			len(key), postgres.ShortestKey))
	}
	return key, err
}

// withoutPassword refuses a URL with a password, which everybody could read who lists processes.
func withoutPassword(url string) error {
	has, err := pg.HasPassword(url)
	if err != nil {
		return cli.Unusable(fmt.Errorf("the URL of PostgreSQL can't be read: %w", err))
	}
	if has {
		return cli.Unusable(errors.New(
			"a URL must not have a password: put it into PGPASSWORD, or into a file that PGPASSFILE names"))
	}
	return nil
}

// ofFiles is the error of files of this machine: an operator has to change something, unless it may be over later.
func ofFiles(what string, err error) error {
	err = wrap(what, err)
	if sqlitefile.MayPass(err) {
		return cli.Unavailable(err)
	}
	return cli.Unusable(err)
}

// away is the error of a server: it may be back later, unless an operator has to change something.
func away(what string, err error) error {
	remedy, isLasting := pg.Remedy(err)
	err = wrap(what, err)
	switch {
	case isLasting && remedy != "":
		return cli.Unusable(fmt.Errorf("%w. %s", err, remedy))
	case isLasting || errors.Is(err, postgres.ErrWrongKey):
		return cli.Unusable(err)
	case isOfNetwork(err):
		return cli.Unavailable(fmt.Errorf("%w. Check that the server runs, and the host and port of the URL", err))
	}
	return cli.Unavailable(err)
}

// isOfNetwork reports whether a connection failed before the server has answered.
func isOfNetwork(err error) bool {
	var failed *net.OpError
	return errors.As(err, &failed)
}

func wrap(what string, err error) error {
	if err == nil {
		return nil
	}
	return fmt.Errorf("%s: %w", what, err)
}

func atMost(number, greatest int) int {
	if number > greatest {
		return greatest
	}
	return number
}
