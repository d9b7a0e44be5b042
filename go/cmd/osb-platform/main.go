// osb-platform is a platform under the Open Service Broker API 2.17 (docs/platform-guide.md).
package main

import (
	"context"
	"encoding/base64"
	"encoding/json"
	"errors"
	"fmt"
	"io"
	"os"
	"runtime/debug"
	"strings"
	"syscall"
	"time"

	"github.com/spf13/cobra"
	"github.com/spf13/pflag"

	"pippinterm/internal/cli"
	"pippinterm/internal/crash"
	"pippinterm/internal/pg"
	"pippinterm/internal/sqlitefile"
	"pippinterm/osb"
	"pippinterm/platform"
	"pippinterm/platform/vault"
)

func main() {
	syscall.Umask(0o077)
	debug.SetGCPercent(400) // it has little in memory, and makes much that is short-lived
	a := &app{}
	os.Exit(a.exit(cli.Run(context.Background(), rootCommand(a))))
}

const environment = `
environment:
  OSB_PLATFORM_STORE     the store, if --store isn't given
  OSB_PLATFORM_KEY_FILE  the file with the key, if --key-file isn't given
  OSB_PLATFORM_PASSWORD  the password at a broker, for 'run --broker URL', 'ask' and
                         --store-password
  PGPASSWORD, PGPASSFILE and PostgreSQL's other variables: how its server is reached. A URL
                         must not have a password

exit status: 0 done; 1 rejected: an id or a broker is unknown, used already, or in a state
that doesn't allow it; 2 the command line can't be parsed (78 if systemd has started the
program); 3 --wait: it has ended in another state than you asked for; 4 --wait: the wait timed
out or was interrupted, and the creation or the deletion goes on; 75 the store isn't available,
its disk is full, or another worker has the name, so try again; 78 change something first: an
option, a file, a password or a right; 70 any other error`

func rootCommand(a *app) *cobra.Command {
	root := &cobra.Command{
		Use:     "osb-platform",
		Short:   "A platform under the Open Service Broker API 2.17",
		Version: cli.Version(),
		Long: `A platform under the Open Service Broker API 2.17. It creates instances and bindings of any number of
brokers, and deletes them.

'create', 'bind', 'unbind' and 'remove' only write to the store, and 'run' sends the requests. You may kill 'run' at any
moment and start it again.

    osb-platform broker add shop https://broker.example --user platform --password-file password
    osb-platform run &
    osb-platform create --broker shop --service database --plan small --wait

docs/platform-guide.md says how to run it.
` + environment,
		PersistentPreRunE: func(*cobra.Command, []string) error { return cli.Unusable(crash.Check(platform.Points)) },
	}
	root.AddGroup(
		&cobra.Group{ID: "orders", Title: "Instances and bindings:"}, &cobra.Group{ID: "run", Title: "The program:"},
	)
	add := func(group string, commands ...*cobra.Command) {
		for _, command := range commands {
			command.GroupID = group
			root.AddCommand(command)
		}
	}
	add("orders", createCommand(a), bindCommand(a), unbindCommand(a), credentialsCommand(a), removeCommand(a),
		askCommand(a), retryCommand(a), abandonCommand(a), listCommand(a), showCommand(a))
	add("run", brokerCommand(a), runCommand(a), serveCommand(a), keyCommand(), rekeyCommand(a))
	root.SetHelpCommandGroupID("run")
	root.SetCompletionCommandGroupID("run")
	a.places.add(root.PersistentFlags())
	cli.WrapUsage(root)
	return root
}

// The exit statuses besides those of package cli.
const (
	statusRejected  = 1 // an order that can't be taken
	statusOtherwise = 3 // --wait: it has ended otherwise than asked for
	statusGoesOn    = 4 // --wait: the time is over
)

// An app is one run of the program.
type app struct {
	places  places
	journal journalSettings // of a command that changes records
	status  int             // that of the error of the command, or 0 for that of cli.Run
}

// exit is the exit status, by that of cli.Run.
func (a *app) exit(status int) int {
	if a.status != 0 && status == cli.StatusFailed {
		return a.status
	}
	return status
}

// withStatus marks the error of a command with its exit status.
func (a *app) withStatus(err error) error {
	var rejected *platform.Rejection
	var ended *endError
	switch {
	case errors.As(err, &ended):
		a.status = ended.status
	case errors.As(err, &rejected) && rejected.Kind == platform.Invalid:
		return cli.Unusable(err)
	case errors.As(err, &rejected):
		a.status = statusRejected
	case pg.IsCode(err, pg.QueryCanceled, pg.LockNotAvailable):
		return cli.Unavailable(fmt.Errorf("the store hasn't answered in time: %w. Another session may have locked a "+
			"table, for example by VACUUM FULL: see pg_stat_activity, and try again", err))
	case errors.Is(err, platform.ErrAway), sqlitefile.MayPass(err):
		return cli.Unavailable(err)
	}
	return err
}

// An endError is how a wait has ended, if not as it was asked for.
type endError struct {
	text   string
	status int
}

func (e *endError) Error() string { return e.text }

// A session is what the commands but run work with.
type session struct {
	store  platform.Store
	vault  platform.Vault // or nil
	orders *platform.Orders
	keys   []string // the files with keys
}

// A need is what a command works with.
type need int

const (
	needsStore need = iota // a store that exists
	needsKey               // that, and the vault, if there is a file with its key
)

// over is the RunE of a command over a store that exists.
func (a *app) over(
	needs need, do func(ctx context.Context, c *cobra.Command, s session, arguments []string) error,
) func(*cobra.Command, []string) error {
	return func(c *cobra.Command, arguments []string) error {
		store, err := existingStore(c.Context(), a.places.store, 1)
		if err != nil {
			return err
		}
		var keys *vault.Vault
		if needs == needsKey {
			if keys, err = readVault(a.places.keys(), warner(c.ErrOrStderr())); err != nil {
				return closeStore(store, err)
			}
		}
		return closeStore(store, a.within(c.Context(), store, keys, warner(c.ErrOrStderr()), func(s session) error {
			return do(c.Context(), c, s, arguments)
		}))
	}
}

// within calls do in a session over a store, with these keys or nil.
func (a *app) within(
	ctx context.Context, store platform.Store, keys *vault.Vault, warn func(string), do func(session) error,
) error {
	if keys != nil {
		if err := useVault(ctx, store, keys, warn); err != nil {
			return a.withStatus(err)
		}
	}
	sealing, journal := asVault(keys), &platformJournal{failed: func(of platform.Failure) {
		warner(os.Stderr)(of.Err.Error())
	}}
	if err := journal.open(a.journal, "", sealing); err != nil {
		return err
	}
	defer journal.close()
	orders := platform.NewOrders(journal.ordersStore(store), sealing)
	return a.withStatus(do(session{store: store, vault: sealing, orders: orders, keys: a.places.keys()}))
}

// closeStore closes a store, and returns the error of what was done with it, or else that of Close.
func closeStore(store platform.Store, err error) error {
	if failed := store.Close(); err == nil {
		return failed
	}
	return err
}

// wants is the Args of a command that takes these arguments.
func wants(names ...string) cobra.PositionalArgs {
	return func(c *cobra.Command, given []string) error {
		wait := c.Flag("wait")
		switch {
		case len(given) == len(names):
			return nil
		case len(given) > len(names) && wait != nil && wait.Changed:
			return fmt.Errorf("too many arguments: the seconds of --wait follow an equals sign, as in --wait=600")
		case len(names) == 0:
			return fmt.Errorf("it takes no argument, and %q is one", given[0])
		}
		return fmt.Errorf("it takes %s, and there are %d arguments", strings.Join(names, " and "), len(given))
	}
}

// mostObject is how long a file with an object may be.
const mostObject = 1 << 20

// An object is the value of a flag that is an object of JSON: the object itself, or the name of a file with it, behind
// @ or alone. @- is the standard input.
type object struct {
	to    *json.RawMessage
	stdin func() io.Reader
	shown string
}

func objectValue(to *json.RawMessage, stdin func() io.Reader) pflag.Value {
	return &object{to: to, stdin: stdin}
}

func (o *object) String() string { return o.shown }

func (o *object) Type() string { return "JSON|@FILE" }

func (o *object) Set(text string) error {
	given := []byte(text)
	if !strings.HasPrefix(strings.TrimSpace(text), "{") {
		name := strings.TrimPrefix(text, "@")
		var err error
		if given, err = o.read(name, text == "@-"); err != nil {
			return err
		}
	}
	var members map[string]json.RawMessage
	if err := json.Unmarshal(given, &members); err != nil || members == nil {
		return fmt.Errorf("it isn't an object of JSON")
	}
	*o.to, o.shown = given, text
	return nil
}

func (o *object) read(name string, isStandard bool) ([]byte, error) {
	var from io.Reader
	if isStandard {
		from = o.stdin()
	} else {
		file, err := os.Open(name)
		if err != nil {
			return nil, fmt.Errorf("it is neither an object of JSON nor a file that can be read: %w", err)
		}
		defer file.Close()
		from = file
	}
	given, err := io.ReadAll(io.LimitReader(from, mostObject+1))
	switch {
	case err != nil:
		return nil, err
	case len(given) > mostObject:
		return nil, fmt.Errorf("it is longer than %d bytes", mostObject)
	}
	return given, nil
}

// An identity is the value of a flag PLATFORM=JSON: the user behind an order. It becomes the value of a header.
type identity struct {
	to    *string
	shown string
}

func (i *identity) String() string { return i.shown }

func (i *identity) Type() string { return "PLATFORM=JSON" }

func (i *identity) Set(text string) error {
	platform, object, isWhole := strings.Cut(text, "=")
	value := platform + " " + base64.StdEncoding.EncodeToString([]byte(object))
	if _, err := osb.OriginatingIdentity(value); err != nil || !isWhole {
		return fmt.Errorf(`want PLATFORM=JSON, such as cloudfoundry={"user_id":"one"}`)
	}
	*i.to, i.shown = value, text
	return nil
}

// chosenID returns the value of a flag that is an id. It isn't empty: a variable of a script may have been empty by
// mistake.
func chosenID(to *string) pflag.Value {
	return cli.Text(to, "id", func(text string) (string, error) {
		if text == "" {
			return "", errors.New("it is empty: give an id, or leave --id out for a new GUID")
		}
		return text, nil
	})
}

// longestTime is the longest time of a setting.
const longestTime = 366 * 24 * time.Hour

// A setting is the value of a flag with a number of seconds from least, or the word default.
type setting struct {
	to      **time.Duration
	least   time.Duration
	changed bool
}

func (s *setting) String() string {
	if s.to == nil || *s.to == nil {
		return ""
	}
	return cli.SecondsText(**s.to)
}

func (s *setting) Type() string { return "seconds" }

func (s *setting) Set(text string) error {
	if text == "default" {
		*s.to, s.changed = nil, true
		return nil
	}
	chosen, err := cli.ParseSeconds(text, s.least, longestTime)
	if err != nil {
		return err
	}
	*s.to, s.changed = &chosen, true
	return nil
}
