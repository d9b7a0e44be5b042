package main

import (
	"bufio"
	"context"
	"errors"
	"fmt"
	"io"
	"os"
	"path/filepath"
	"strconv"
	"strings"
	"time"

	"github.com/spf13/cobra"
	"github.com/spf13/pflag"

	"pippinterm/internal/cli"
	"pippinterm/internal/secrets"
	"pippinterm/platform"
	"pippinterm/platform/client"
)

const passwordVariable = "OSB_PLATFORM_PASSWORD"

// brokerCommand has the commands about brokers.
func brokerCommand(a *app) *cobra.Command {
	made := &cobra.Command{
		Use:   "broker",
		Short: "Add, change, list, show or drop a broker",
		Example: `  osb-platform broker add shop https://broker.example --user platform --password-file password
  osb-platform broker list`,
	}
	made.AddCommand(addCommand(a), setCommand(a), brokersCommand(a), showBrokerCommand(a), dropCommand(a))
	return made
}

// A login is how the platform logs in at a broker, and how the broker is asked.
type login struct {
	url, user, passwordFile string
	stores, allowHTTP       bool
	tls                     client.Files // for the catalogue that a command asks for. Workers have their own
	settings                platform.Settings
	set                     []*setting
}

func (l *login) add(flags *pflag.FlagSet, user string) {
	flags.SortFlags = false
	flags.StringVar(&l.user, "user", user, "the `name` with which the platform logs in")
	flags.StringVar(&l.passwordFile, "password-file", "",
		"a `file` with the password, which each worker reads again when it changes")
	flags.BoolVar(&l.stores, "store-password", false, "keep the password in the store, encrypted with the key of "+
		"--key-file. It is taken from "+passwordVariable+", or from a line of standard input")
	l.addSettings(flags)
	addTLS(flags, &l.tls)
	flags.BoolVar(&l.allowHTTP, "allow-http", false, "allow http:// for a broker that isn't on this machine. 'run' "+
		"needs it too")
}

func (l *login) addSettings(flags *pflag.FlagSet) {
	for _, test := range []struct {
		name, text string
		to         **time.Duration
		least      time.Duration
	}{
		{"hold", "for how many seconds after a creation was sent no deletion is sent (default: 0 if the catalogue " +
			"has x-osb-tombstones: true, and else 300)", &l.settings.Hold, 0},
		{"first-pace", "seconds until the next request (default 2)", &l.settings.FirstPace, time.Millisecond},
		{"longest-pace", "what the pace grows to while nothing changes (default 120)", &l.settings.LongestPace,
			time.Millisecond},
		{"longest-poll", "for how many seconds an operation is polled (default: maximum_polling_duration of the " +
			"plan, or a week)", &l.settings.LongestPoll, time.Second},
	} {
		value := &setting{to: test.to, least: test.least}
		l.set = append(l.set, value)
		flags.Var(value, test.name, test.text)
	}
}

// isOfLogin reports whether an option was given about how the platform logs in.
func (l *login) isOfLogin() bool {
	return l.url != "" || l.user != "" || l.passwordFile != "" || l.stores
}

// isGiven reports whether any option was given.
func (l *login) isGiven() bool {
	for _, option := range l.set {
		if option.changed {
			return true
		}
	}
	return l.isOfLogin()
}

// change writes the settings that were given.
func (l *login) change(to *platform.Settings) {
	for at, of := range []**time.Duration{&to.Hold, &to.FirstPace, &to.LongestPace, &to.LongestPoll} {
		if l.set[at].changed {
			*of = *l.set[at].to
		}
	}
}

// password is the password that the store is to keep, or nil.
func (l *login) password(stdin io.Reader, vault platform.Vault, warn func(string)) ([]byte, error) {
	if !l.stores {
		return nil, nil
	}
	if l.passwordFile != "" {
		return nil, cli.Unusable(errors.New("give --password-file or --store-password, and not both"))
	}
	if vault == nil {
		return nil, cli.Unusable(errors.New("--store-password: name the file with the key that encrypts the " +
			"password: --key-file FILE, here and for 'run'. 'osb-platform key' makes a key"))
	}
	if os.Getenv(passwordVariable) != "" {
		text, warning, err := secrets.Secret(passwordVariable, "")
		if warning != "" {
			warn(warning)
		}
		return []byte(text), cli.Unusable(err)
	}
	if isTerminal(stdin) {
		return nil, cli.Unusable(fmt.Errorf("set %s, or write the password to standard input by <FILE: a terminal "+
			"would show it", passwordVariable))
	}
	line, err := bufio.NewReader(io.LimitReader(stdin, 64<<10)).ReadString('\n')
	line = strings.TrimSuffix(line, "\n")
	if err != nil && !errors.Is(err, io.EOF) {
		return nil, err
	}
	if line == "" {
		return nil, cli.Unusable(fmt.Errorf("set %s, or write the password to standard input", passwordVariable))
	}
	return []byte(line), nil
}

// absolute is the absolute path of a file with a password, for workers in other folders.
func absolute(file string) (string, error) {
	if file == "" {
		return "", nil
	}
	if _, _, err := secrets.Secret("", file); err != nil {
		return "", cli.Unusable(fmt.Errorf("--password-file: %w", err))
	}
	return filepath.Abs(file)
}

func addCommand(a *app) *cobra.Command {
	l := &login{}
	made := &cobra.Command{
		Use:   "add NAME URL",
		Short: "Add a broker",
		Long: `Add a broker, by a name of your own and its URL up to before /v2. Its catalogue is asked for, and with it
'create' can name services and plans. If the broker doesn't answer, 'run' asks again. The options --tls-.. and
--allow-http aren't stored: give them to 'run', too.`,
		Example: `  osb-platform broker add shop https://broker.example/postgres --password-file password
  OSB_PLATFORM_PASSWORD=secret osb-platform broker add local http://127.0.0.1:8080 --user platform --store-password`,
		Args: wants("NAME", "URL"),
		RunE: func(c *cobra.Command, arguments []string) error {
			return a.addBroker(c, l, platform.Broker{
				Name: arguments[0], URL: arguments[1], User: l.user, Settings: l.settings,
			})
		},
	}
	l.add(made.Flags(), "platform")
	return made
}

// addBroker adds a broker, and creates the store if there is none. A command that is rejected must not leave an empty
// store behind. So everything that can be checked without the store is checked first.
func (a *app) addBroker(c *cobra.Command, l *login, broker platform.Broker) error {
	ctx, warn := c.Context(), warner(c.ErrOrStderr())
	if err := checkPlace(a.places.store); err != nil {
		return err
	}
	keys, err := readVault(a.places.keys(), warn)
	if err != nil {
		return err
	}
	password, err := l.password(c.InOrStdin(), asVault(keys), warn)
	if err != nil {
		return err
	}
	if broker.PasswordFile, err = absolute(l.passwordFile); err != nil {
		return err
	}
	asking, err := l.client(asVault(keys), a.places.keys(), warn)
	if err != nil {
		return err
	}
	defer asking.Close()
	addTo := func(orders *platform.Orders) error {
		orders.AllowHTTP(l.allowHTTP)
		return orders.AddBroker(ctx, broker, password)
	}
	if err := addTo(platform.NewOrders(dryStore{}, asVault(keys))); err != nil {
		return a.withStatus(err)
	}
	store, err := openStore(ctx, a.places.store, 1)
	if err != nil {
		return err
	}
	return closeStore(store, a.within(ctx, store, keys, warn, func(s session) error {
		if err := addTo(s.orders); err != nil {
			return err
		}
		return s.askCatalogue(ctx, broker.Name, asking, warn)
	}))
}

// A dryStore takes a broker that orders have checked, and keeps nothing.
type dryStore struct{ platform.Store }

func (dryStore) AddBroker(context.Context, platform.Broker) error { return nil }

func setCommand(a *app) *cobra.Command {
	l, accepts := &login{}, ""
	made := &cobra.Command{
		Use:   "set NAME",
		Short: "Change a broker",
		Long: `Change a broker: what no option names stays. Seconds may be the word default. Workers notice the change.
After a change of the URL, the user or the password the catalogue is asked for. If the broker doesn't answer it, that
is a warning. The options --tls-.. and --allow-http aren't stored: give them to 'run', too.

To replace a password, have the broker accept both the old and the new one, change it here, and then have the broker
forget the old one. If a password is in a file, change the file: workers read it again. After a 401 a worker sends
nothing more to the broker until the catalogue is answered again, and orders that weren't sent yet wait.

--url is for the same broker at another address. Another broker would answer that each instance is gone. If the
catalogue of a broker names its store (x-osb-store), no answer is taken of a broker that names another one. If its
instances have come into another store, 'broker list' prints the --accept-store that has its answers taken.`,
		Example: `  osb-platform broker set shop --url https://broker-2.example --hold 900
  osb-platform broker set shop --store-password <password`,
		Args: wants("NAME"),
		RunE: a.over(needsKey, func(ctx context.Context, c *cobra.Command, s session, arguments []string) error {
			if !l.isGiven() && accepts == "" {
				return cli.Unusable(errors.New("give an option that says what to change (see " +
					"osb-platform broker set --help)"))
			}
			warn := warner(c.ErrOrStderr())
			password, err := l.password(c.InOrStdin(), s.vault, warn)
			if err != nil {
				return err
			}
			file, err := absolute(l.passwordFile)
			if err != nil {
				return err
			}
			asking, err := l.client(s.vault, s.keys, warn)
			if err != nil {
				return err
			}
			defer asking.Close()
			s.orders.AllowHTTP(l.allowHTTP)
			err = s.orders.SetBroker(ctx, arguments[0], func(of *platform.Broker) error {
				if l.url != "" {
					of.URL = l.url
				}
				if l.user != "" {
					of.User = l.user
				}
				if file != "" {
					of.PasswordFile = file
				}
				l.change(&of.Settings)
				if accepts != "" {
					return of.AcceptStore(accepts)
				}
				return nil
			}, password)
			if err != nil || !l.isOfLogin() && accepts == "" {
				return err
			}
			return s.askCatalogue(ctx, arguments[0], asking, warn)
		}),
	}
	made.Flags().StringVar(&l.url, "url", "", "the new `URL`, up to before /v2")
	made.Flags().StringVar(&accepts, "accept-store", "", "the `ID` of the store whose broker is believed from now on, or "+
		"none for a broker that names no store any more")
	l.add(made.Flags(), "")
	return made
}

func brokersCommand(a *app) *cobra.Command {
	return &cobra.Command{
		Use:   "list",
		Short: "List the brokers",
		Long: `List the brokers. The columns are name, url, user, since when the catalogue is as it is, and
why the broker didn't answer its catalogue the last time. They are separated by tabs.`,
		Example: `  osb-platform broker list`,
		RunE: a.over(needsStore, func(ctx context.Context, c *cobra.Command, s session, _ []string) error {
			brokers, err := s.store.Brokers(ctx)
			if err != nil {
				return err
			}
			for _, broker := range brokers {
				cells := []string{
					broker.Name, printable(broker.URL), printable(broker.User), orNone(momentOf(broker.CatalogueAt)), textOf(broker.Reason),
				}
				if _, err := fmt.Fprintln(c.OutOrStdout(), strings.Join(cells, "\t")); err != nil {
					return err
				}
			}
			return nil
		}),
	}
}

func orNone(text string) string {
	if text == "" {
		return "none"
	}
	return text
}

func dropCommand(a *app) *cobra.Command {
	return &cobra.Command{
		Use:     "drop NAME",
		Short:   "Drop a broker for which no order was ever written",
		Example: `  osb-platform broker drop shop`,
		Args:    wants("NAME"),
		RunE: a.over(needsStore, func(ctx context.Context, _ *cobra.Command, s session, arguments []string) error {
			return s.orders.DropBroker(ctx, arguments[0])
		}),
	}
}

// showBrokerCommand shows a broker and what it sells.
func showBrokerCommand(a *app) *cobra.Command {
	return &cobra.Command{
		Use:   "show NAME",
		Short: "Show a broker, its settings, and the services and plans of its catalogue",
		Long: `Show a broker, each fact on a line with its name before a tab. Then come the plans of its catalogue,
with the names of the service and the plan, their ids, and whether the plan is bindable.`,
		Example: `  osb-platform broker show shop`,
		Args:    wants("NAME"),
		RunE: a.over(needsStore, func(ctx context.Context, c *cobra.Command, s session, arguments []string) error {
			broker, err := brokerOf(ctx, s.store, arguments[0])
			if err != nil {
				return err
			}
			return showBroker(c.OutOrStdout(), broker)
		}),
	}
}

// brokerOf is the broker of a name. If there is none, the error is a Rejection.
func brokerOf(ctx context.Context, store platform.Store, name string) (platform.Broker, error) {
	brokers, err := store.Brokers(ctx)
	if err != nil {
		return platform.Broker{}, err
	}
	for _, broker := range brokers {
		if broker.Name == name {
			return broker, nil
		}
	}
	return platform.Broker{}, &platform.Rejection{
		Kind: platform.NotFound, Text: fmt.Sprintf("the broker %q is unknown", name),
	}
}

func showBroker(to io.Writer, b platform.Broker) error {
	catalogue := &platform.Catalogue{}
	if b.Catalogue != nil {
		var err error
		if catalogue, err = platform.ReadCatalogue(b.Catalogue); err != nil {
			return err
		}
	}
	for _, pair := range [][2]string{
		{"name", b.Name}, {"url", printable(b.URL)}, {"user", printable(b.User)}, {"password", passwordOf(b)},
		{"hold", secondsText(b.Settings.Hold)}, {"first pace", secondsText(b.Settings.FirstPace)},
		{"longest pace", secondsText(b.Settings.LongestPace)}, {"longest poll", secondsText(b.Settings.LongestPoll)},
		{"catalogue since", orNone(momentOf(b.CatalogueAt))}, {"tombstones", tombstonesOf(b, catalogue)},
		{"store", printable(b.Store)}, {"last reason", at(b.Reason)},
	} {
		if pair[1] == "" {
			continue
		}
		if _, err := fmt.Fprintf(to, "%s\t%s\n", pair[0], pair[1]); err != nil {
			return err
		}
	}
	return showPlans(to, catalogue)
}

// tombstonesOf reports whether a catalogue has x-osb-tombstones, or empty if there is no catalogue yet.
func tombstonesOf(b platform.Broker, catalogue *platform.Catalogue) string {
	switch {
	case b.Catalogue == nil:
		return ""
	case catalogue.HasTombstones:
		return "yes"
	}
	return "no"
}

func passwordOf(b platform.Broker) string {
	switch {
	case b.PasswordFile != "":
		return "in the file " + printable(b.PasswordFile)
	case b.Password != nil:
		return "in the store, encrypted"
	}
	return "none: that of 'run --broker', from " + passwordVariable
}

func secondsText(of *time.Duration) string {
	if of == nil {
		return "default"
	}
	return strconv.FormatFloat(of.Seconds(), 'f', -1, 64)
}

func showPlans(to io.Writer, catalogue *platform.Catalogue) error {
	for _, service := range catalogue.Services {
		for _, plan := range service.Plans {
			isBindable := "not bindable"
			if plan.IsBindable {
				isBindable = "bindable"
			}
			if _, err := fmt.Fprintf(to, "plan\t%s\t%s\t%s\t%s\t%s\n", printable(service.Name), printable(plan.Name),
				printable(service.ID), printable(plan.ID), isBindable); err != nil {
				return err
			}
		}
	}
	return nil
}

const (
	askTime       = 10 * time.Second // for how long a command asks for a catalogue
	longestReason = 1000             // how long a reason may be that is kept, in bytes
)

// first are at most so many bytes of a text, at its beginning.
func first(text string, most int) string {
	if len(text) > most {
		text = strings.ToValidUTF8(text[:most], "")
	}
	return text
}

// client is what asks for a catalogue.
func (l *login) client(vault platform.Vault, keys []string, warn func(string)) (*client.Client, error) {
	asking, err := client.New(client.Options{
		Password: client.NewPasswords(vault, warn, keys...).Of, TLS: l.tls, AllowHTTP: l.allowHTTP, CatalogueTime: askTime,
	})
	return asking, cli.Unusable(err)
}

// askCatalogue asks a broker for its catalogue once, and keeps it, so that orders can name its services at once. If the
// broker doesn't answer it, that is a warning, and the reason is kept: a worker asks again.
func (s session) askCatalogue(ctx context.Context, name string, asking *client.Client, warn func(string)) error {
	broker, err := brokerOf(ctx, s.store, name)
	if err != nil {
		return err
	}
	document, status, err := asking.Catalogue(ctx, broker)
	if err == nil {
		_, err = platform.ReadCatalogue(document)
	}
	now := time.Now().UTC().Truncate(time.Millisecond)
	reason := platform.Reason{}
	if err != nil {
		warn(fmt.Sprintf("%v. What was given is written: 'run' asks for the catalogue again", err))
		lost := first(err.Error(), longestReason)
		reason = platform.Reason{At: now, Kind: kindOfCatalogue, Status: status, Lost: lost}
	}
	return s.store.ChangeBroker(ctx, name, func(it platform.Broker) (*platform.Broker, error) {
		switch {
		case it.URL != broker.URL || it.User != broker.User || it.Store != broker.Store: // changed meanwhile by somebody else
			return nil, nil
		case err == nil:
			it.Catalogue, it.CatalogueAt, it.Reason, it.Store = document, now, reason, platform.StoreOf(document)
		case it.Catalogue == nil: // else a worker may have reached it
			it.Reason = reason
		}
		return &it, nil
	})
}
