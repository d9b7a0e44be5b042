package main

import (
	"context"
	"errors"
	"fmt"
	"io"
	"io/fs"
	"net"
	"os"
	"path/filepath"

	"github.com/spf13/cobra"
	"github.com/spf13/pflag"

	"pippinterm/internal/cli"
	"pippinterm/internal/pg"
	"pippinterm/internal/sqlitefile"
	"pippinterm/platform"
	"pippinterm/platform/postgres"
	"pippinterm/platform/sqlite"
	"pippinterm/platform/vault"
)

// Places are where the store is, and the keys that seal what is secret in it.
type places struct {
	store    string
	keyFiles []string
}

// stateFolder is where the state is if nothing else is named.
func stateFolder() string {
	home := os.Getenv("XDG_STATE_HOME")
	if home == "" {
		home = filepath.Join(os.Getenv("HOME"), ".local", "state")
	}
	return filepath.Join(home, "osb-platform")
}

// The variables of the environment that stand for options which aren't given.
const (
	storeVariable   = "OSB_PLATFORM_STORE"
	keyFileVariable = "OSB_PLATFORM_KEY_FILE"
)

func (p *places) add(flags *pflag.FlagSet) {
	standard := filepath.Join(stateFolder(), "instances.sqlite")
	given := os.Getenv(storeVariable)
	if given == "" {
		given = standard
	}
	flags.StringVar(&p.store, "store", given, "where records are kept: a `file` of SQLite, or postgresql://.. "+
		"(default: that of "+storeVariable+", or "+standard+")")
	flags.Lookup("store").DefValue = "" // the variable may have a password, which is rejected later
	flags.StringArrayVar(&p.keyFiles, "key-file", nil,
		"a `file` with the key that encrypts credentials and passwords in the store (default: that of "+
			keyFileVariable+", or "+standardKey()+", if it exists). 'osb-platform rekey' replaces the key")
}

func standardKey() string { return filepath.Join(stateFolder(), "key") }

// keys are the files with the keys. There may be none.
func (p *places) keys() []string {
	if len(p.keyFiles) > 0 {
		return p.keyFiles
	}
	if file := os.Getenv(keyFileVariable); file != "" {
		return []string{file}
	}
	if _, err := os.Stat(standardKey()); errors.Is(err, fs.ErrNotExist) {
		return nil
	}
	return []string{standardKey()}
}

// existingStore is openStore of a store that exists. It creates none. A command that only reads or orders would
// otherwise answer from an empty store if the name of the store is misspelt.
func existingStore(ctx context.Context, place string, most int) (platform.Store, error) {
	if err := checkPlace(place); err != nil {
		return nil, err
	}
	if !pg.IsAddress(place) {
		store, err := sqlite.OpenExisting(ctx, place)
		if err != nil {
			return nil, missing(place, err, ofFile)
		}
		return store, nil
	}
	store, err := postgres.OpenExisting(ctx, place, most)
	if err != nil {
		return nil, missing(place, err, away)
	}
	return store, nil
}

// missing is the error of a store that doesn't exist, or what other makes of any other error.
func missing(place string, err error, other func(error) error) error {
	if !errors.Is(err, platform.ErrNoStore) {
		return other(err)
	}
	return cli.Unusable(fmt.Errorf("there is no store %s: name the right one with --store or in %s. "+
		"'osb-platform broker add' and 'osb-platform run' create a new one", place, storeVariable))
}

// openStore opens the store, with so many connections at most, and creates it if there is none.
//
// Errors: cli.Unusable for what an operator has to change, and cli.Unavailable for a server that is away.
func openStore(ctx context.Context, place string, most int) (platform.Store, error) {
	if err := checkPlace(place); err != nil {
		return nil, err
	}
	if !pg.IsAddress(place) {
		return openFile(ctx, place)
	}
	store, err := postgres.Open(ctx, place, most)
	if err != nil {
		return nil, away(err)
	}
	return store, nil
}

// checkPlace returns an error if a place is neither a path nor a URL of PostgreSQL without a password.
func checkPlace(place string) error {
	if err := cli.CheckPlace(place); err != nil {
		return cli.Unusable(fmt.Errorf("the store: %w", err))
	}
	if !pg.IsAddress(place) {
		return nil
	}
	has, err := pg.HasPassword(place)
	switch {
	case err != nil:
		return cli.Unusable(fmt.Errorf("the URL of PostgreSQL can't be read: %w", err))
	case has:
		return cli.Unusable(errors.New(
			"a URL must not have a password: put it into PGPASSWORD, or into a file that PGPASSFILE names"))
	}
	return nil
}

func openFile(ctx context.Context, path string) (platform.Store, error) {
	if err := os.MkdirAll(filepath.Dir(path), 0o700); err != nil {
		return nil, ofFile(err)
	}
	store, err := sqlite.Open(ctx, path)
	if err != nil {
		return nil, ofFile(err)
	}
	return store, nil
}

// ofFile is the error of the store's file.
func ofFile(err error) error { return ofFiles("the store can't be used", err) }

// ofFiles is the error of files of this machine: an operator has to change something, unless it may be over later.
func ofFiles(what string, err error) error {
	err = fmt.Errorf("%s: %w", what, err)
	if sqlitefile.MayPass(err) {
		return cli.Unavailable(err)
	}
	return cli.Unusable(err)
}

// away is the error of PostgreSQL: it may be back later, unless an operator has to change something.
func away(err error) error {
	remedy, isLasting := pg.Remedy(err)
	err = fmt.Errorf("the store can't be used: %w", err)
	var network *net.OpError
	switch {
	case isLasting && remedy != "":
		return cli.Unusable(fmt.Errorf("%w. %s", err, remedy))
	case isLasting:
		return cli.Unusable(err)
	case errors.As(err, &network):
		return cli.Unavailable(fmt.Errorf("%w. Check that the server runs, and the host and port of the URL", err))
	}
	return cli.Unavailable(err)
}

// openVault opens the vault with the keys in these files, if there are any, and else returns nil. The store must have
// been used with one of them, or with none yet.
func openVault(
	ctx context.Context, files []string, store platform.Store, warn func(string),
) (*vault.Vault, error) {
	opened, err := readVault(files, warn)
	if err != nil || opened == nil {
		return nil, err
	}
	if err := useVault(ctx, store, opened, warn); err != nil {
		return nil, err
	}
	return opened, nil
}

// readVault is openVault without a store: call useVault before you use the vault over one.
func readVault(files []string, warn func(string)) (*vault.Vault, error) {
	if len(files) == 0 {
		return nil, nil
	}
	opened, warnings, err := vault.FromFiles(files...)
	if err != nil {
		return nil, cli.Unusable(fmt.Errorf("the key: %w", err))
	}
	for _, warning := range warnings {
		warn(warning)
	}
	return opened, nil
}

// asVault is a vault as orders use it: nil if there is none.
func asVault(keys *vault.Vault) platform.Vault {
	if keys == nil {
		return nil
	}
	return keys
}

// checkVault returns an error unless a vault can be used over a store.
func checkVault(ctx context.Context, store platform.Store, opened *vault.Vault) error {
	written, err := store.Fingerprint(ctx, opened.Fingerprint())
	if err != nil {
		return err
	}
	return keyError(opened.Fits(written))
}

// useVault brings the passwords of a store of version 0.3 up to date, and returns an error unless a vault can be used
// over the store.
func useVault(ctx context.Context, store platform.Store, opened *vault.Vault, warn func(string)) error {
	done, err := opened.Renew(ctx, store)
	for _, broker := range done.Brokers {
		warn(fmt.Sprintf("the password of the broker %s, which version 0.3 has encrypted, is encrypted again: for the "+
			"URL %s and the user %s. If these aren't right, somebody has changed the store: change the password at the "+
			"broker", broker.Name, broker.URL, broker.User))
	}
	for _, unopened := range done.Unopened {
		warn(fmt.Sprintf("the password of the broker %s can't be decrypted, and nothing is sent to this broker. Set the "+
			"password again: osb-platform broker set %s --store-password", unopened.Name, unopened.Name))
	}
	if errors.Is(err, vault.ErrWorkers) {
		return &platform.Rejection{Kind: platform.Conflict, Text: err.Error() + ", and its passwords are encrypted as " +
			"version 0.3 did it: stop all workers and every 'serve' once, and run this again"}
	}
	return keyError(err)
}

// keyError says what to do if a vault can't be used over a store.
func keyError(err error) error {
	switch {
	case errors.Is(err, vault.ErrOldPasswords), errors.Is(err, vault.ErrWrittenBack):
		return cli.Unusable(fmt.Errorf("%w. Restore the table with the fingerprint (osb_store in a file of SQLite, "+
			"osb_platform in PostgreSQL), check the URLs of all brokers, and change their passwords", err))
	case errors.Is(err, vault.ErrRotating):
		return cli.Unusable(fmt.Errorf("%w: run 'osb-platform rekey' again with the files that it was given. "+
			"Until it has succeeded, name both: --key-file NEW --key-file OLD", err))
	case errors.Is(err, vault.ErrStoreKey):
		return cli.Unusable(fmt.Errorf("%w: name the file with that key by --key-file", err))
	}
	return err
}

// warner prints warnings.
func warner(to io.Writer) func(string) {
	return func(text string) { fmt.Fprintf(to, "osb-platform: warning: %s\n", printable(text)) }
}

// keyCommand makes a key.
func keyCommand() *cobra.Command {
	return cli.KeyCommand("Make a new key that encrypts credentials and passwords in the store",
		`Make a new random key that encrypts the credentials of bindings, and the passwords of brokers,
in the store. It is printed, or written to the new file that --to names. Keep a copy of the file apart from the store:
without it nobody reads them again. 'rekey' replaces the key of a store.`,
		`  osb-platform key --to key`)
}

// rekeySessions is how many connections to a database rekey has.
const rekeySessions = 8

// rekeyCommand replaces the key of the store.
func rekeyCommand(a *app) *cobra.Command {
	file := ""
	made := &cobra.Command{
		Use:   "rekey --new-key-file FILE",
		Short: "Replace the key that encrypts credentials and passwords in the store",
		Long: `Encrypt all credentials and passwords in the store again, with the key of --new-key-file in place of that of
--key-file. The brokers aren't asked, and the credentials themselves stay as they are.

Stop all workers and every 'serve' first. If a worker runs, rekey changes nothing, and the exit status is 1. In
PostgreSQL a worker of another schema of the same database counts, too.

If rekey ends in the middle, nothing is lost: run the same command again. Until it has succeeded, every other command
needs both files, the new one first: --key-file NEW --key-file OLD.

Afterwards start the workers with the new file, or move it to where the old one was. Keep the old file for as long as
you keep backups of the store.`,
		Example: `  (umask 077; osb-platform key > new-key)
  osb-platform rekey --key-file key --new-key-file new-key`,
		RunE: func(c *cobra.Command, _ []string) error {
			return a.withStatus(rekey(c.Context(), a.places, file, c.OutOrStdout(), warner(c.ErrOrStderr())))
		},
	}
	made.Flags().StringVar(&file, "new-key-file", "", "a `file` with the new key")
	return made
}

func rekey(ctx context.Context, p places, file string, to io.Writer, warn func(string)) (err error) {
	if file == "" {
		return cli.Unusable(errors.New("--new-key-file is missing"))
	}
	old := p.keys()
	if len(old) == 0 {
		return cli.Unusable(errors.New("name the file with the present key: --key-file FILE"))
	}
	keys, warnings, err := vault.FromFiles(append([]string{file}, old...)...)
	if err != nil {
		return cli.Unusable(fmt.Errorf("the key: %w", err))
	}
	for _, warning := range warnings {
		warn(warning)
	}
	store, err := existingStore(ctx, p.store, rekeySessions)
	if err != nil {
		return err
	}
	defer func() {
		if failed := store.Close(); err == nil {
			err = failed
		}
	}()
	if err := useVault(ctx, store, keys, warn); err != nil && !errors.Is(err, vault.ErrRotating) &&
		!errors.Is(err, vault.ErrStoreKey) {
		return err
	} // a rotation says more of these
	done, err := keys.Rotate(ctx, store)
	if done != (vault.Rotation{}) || err == nil {
		if _, failed := fmt.Fprintf(to, "encrypted again: the credentials of %s, the passwords of %s\n",
			count(done.Credentials, "binding"), count(done.Passwords, "broker")); err == nil {
			err = failed
		}
	}
	return rekeyError(err)
}

// count is a number of things with their name.
func count(number int, name string) string {
	if number == 1 {
		return "1 " + name
	}
	return fmt.Sprintf("%d %ss", number, name)
}

// rekeyError says what to do.
func rekeyError(err error) error {
	switch {
	case errors.Is(err, vault.ErrWorkers):
		return &platform.Rejection{Kind: platform.Conflict, Text: err.Error() +
			": stop all workers and every 'serve', and run this again. Nothing was changed"}
	case errors.Is(err, vault.ErrSameKey):
		return cli.Unusable(errors.New("--new-key-file has the same key as --key-file: " +
			"make a new one with 'osb-platform key'"))
	case errors.Is(err, vault.ErrStoreKey):
		return cli.Unusable(fmt.Errorf("%w: name its file with --key-file", err))
	case errors.Is(err, vault.ErrRotating):
		return cli.Unusable(fmt.Errorf("%w by another new key: name that file with --new-key-file, or with a "+
			"further --key-file", err))
	case errors.Is(err, vault.ErrUnopened):
		return cli.Unusable(fmt.Errorf("%w. Everything else is encrypted again. Name the file with the key that "+
			"encrypted it by a further --key-file, and run this again. If no key opens a binding's credentials, unbind it "+
			"first. If none opens a broker's password, set it again: osb-platform broker set NAME --store-password",
			err))
	}
	return err
}
