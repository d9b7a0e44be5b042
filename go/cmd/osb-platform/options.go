package main

import (
	"context"
	"errors"
	"fmt"
	"net/netip"
	"os"
	"reflect"
	"regexp"
	"strings"
	"time"

	"github.com/spf13/cobra"
	"github.com/spf13/pflag"

	"pippinterm/internal/cli"
	"pippinterm/internal/httpserver"
	"pippinterm/internal/secrets"
	"pippinterm/platform"
	"pippinterm/platform/api"
	"pippinterm/platform/client"
)

// defaultStop is the default of --stop-seconds.
const defaultStop = 5 * time.Second

// RunSettings are the options of `osb-platform run`.
type runSettings struct {
	login      // of the broker default
	moved      bool
	worker     string
	atOnce     int
	seconds    time.Duration
	look, stop time.Duration
	once       bool
	unsettled  platform.Policy
	level      level
	sites      siteSettings
	servesOnly bool // whether it is the command serve, and sends nothing
	journal    journalSettings
}

func runCommand(a *app) *cobra.Command {
	s := &runSettings{unsettled: platform.RemoveUnsettled, level: infoLevel, worker: hostName()}
	made := &cobra.Command{
		Use:   "run",
		Short: "Send what is due, until SIGTERM",
		Long: `Send what is due to all brokers, until SIGTERM or SIGINT. Nothing is sent to a broker before it
has answered its catalogue. Any number of workers run over one store, each under a name of its own.

--broker URL is a shortcut for a store of one broker: it adds the broker 'default', or changes it. Its password comes
from OSB_PLATFORM_PASSWORD, which isn't stored, or from --password-file.

The log is lines of JSON on standard error. On standard output there is a line for each instance or binding that has
come to another state: time, id, state. On a terminal it shows how many are in each state.

SIGTERM ends the program with status 0 within 10 seconds. A request that isn't answered by then times out, and at the
next start the worker finds out what it has done. The other exit statuses are in 'osb-platform --help'.

SIGHUP reads the files of --tls-.., --api-tls-.., --api-tokens and --page-users again.

If a broker answers 401 or 403, nothing more is sent to it until it answers its catalogue. A worker notices a new
password in the file of --password-file, and one of 'broker set', without a restart.

The page and the API are served too, if --page and --api name where. GET /healthz, /readyz and /metrics of
--health-listen need no password.`,
		Example: `  osb-platform run
  OSB_PLATFORM_PASSWORD=secret osb-platform run --broker http://127.0.0.1:8080 --health-listen 127.0.0.1:8091
  osb-platform run --page 127.0.0.1:8090 --api 127.0.0.1:8092 --api-tokens tokens
  osb-platform run --store postgresql://platform@db/platform --worker one`,
		RunE: func(c *cobra.Command, _ []string) error {
			return a.withStatus(runWorker(c.Context(), s, a.places, c.OutOrStdout(), c.ErrOrStderr()))
		},
	}
	flags := made.Flags()
	flags.SortFlags = false
	s.addWork(flags)
	s.sites.add(flags)
	s.journal.add(flags)
	s.addBroker(flags)
	addOld(flags, s)
	return made
}

func (s *runSettings) addWork(flags *pflag.FlagSet) {
	flags.Var(workerFlag(&s.worker), "worker", "the `name` of this worker, that no other one over the store has")
	flags.Var(cli.Count(&s.atOnce, 64, 1, 1024), "at-once",
		"requests that are in flight at once; half as many more if some weren't answered before")
	flags.Var(cli.Seconds(&s.seconds, time.Minute), "seconds", "for a request to be sent and answered")
	flags.BoolVar(&s.once, "once", false,
		"send what is due, wait for the answers, and end. The exit status is 1 if a broker isn't reached, or if rows that "+
			"are due stay locked")
	flags.Var(unsettledFlag(&s.unsettled), "unsettled", "what becomes of what is unsettled under an id that was made up here: "+
		"remove deletes it, wait leaves it to you. What is unsettled already stays (`remove|wait`)")
	flags.Var(levelFlag(&s.level), "log-level", "the least `level` that is logged: debug, info, warning, error")
	flags.Var(cli.Seconds(&s.look, time.Second), "look-seconds", "between two looks for what others have written")
	flags.Var(cli.Seconds(&s.stop, defaultStop), "stop-seconds",
		"for requests in flight to be answered after SIGTERM")
	addTLS(flags, &s.tls)
	flags.BoolVar(&s.allowHTTP, "allow-http", false,
		"allow http:// for brokers that aren't on this machine, also for those that the API adds: everybody on the way "+
			"reads their passwords")
}

// addTLS adds the options about the certificates of brokers.
func addTLS(flags *pflag.FlagSet, files *client.Files) {
	flags.StringVar(&files.Authorities, "tls-ca", "",
		"a `file` with the authorities of brokers' certificates, in place of the system's")
	flags.StringVar(&files.Certificate, "tls-certificate", "", "a `file` with the platform's own certificates")
	flags.StringVar(&files.Key, "tls-key", "", "the `file` with the key of --tls-certificate")
}

func (s *runSettings) addBroker(flags *pflag.FlagSet) {
	flags.StringVar(&s.url, "broker", "", "add or change the broker 'default': its `URL` up to before /v2")
	flags.BoolVar(&s.moved, "moved", false,
		"with --broker: it is the same broker at another URL. Another one would answer that each instance is gone")
	flags.StringVar(&s.user, "user", "platform", "with --broker: the `name` with which the platform logs in")
	flags.StringVar(&s.passwordFile, "password-file", "", "with --broker: a `file` with the password")
	s.addSettings(flags)
}

// addOld adds the options of version 0.2 that have another name now, and those that are no more.
func addOld(flags *pflag.FlagSet, s *runSettings) {
	for name, of := range map[string]string{"threads": "at-once", "late-for": "hold", "pace": "first-pace"} {
		flags.Var(flags.Lookup(of).Value, name, "now --"+of)
		flags.Lookup(name).Hidden = true
	}
	for name, says := range map[string]string{
		"organization": "it belongs to an order now: osb-platform create --organization TEXT",
		"space":        "it belongs to an order now: osb-platform create --space TEXT",
		"catalog":      "the broker is always asked for its catalogue. Leave --catalog out",
	} {
		flags.Var(removedFlag{errors.New(says)}, name, says)
		flags.Lookup(name).Hidden = true
	}
}

// A removedFlag is the value of a flag that is no more.
type removedFlag struct{ says error }

func (removedFlag) String() string { return "" }

func (removedFlag) Type() string { return "text" }

func (g removedFlag) Set(string) error { return g.says }

// unsettledFlag returns the value of --unsettled.
func unsettledFlag(to *platform.Policy) pflag.Value {
	return cli.Text(to, "remove|wait", func(text string) (platform.Policy, error) {
		switch chosen := platform.Policy(text); chosen {
		case platform.RemoveUnsettled, platform.KeepUnsettled:
			return chosen, nil
		}
		return "", errors.New("want remove or wait")
	})
}

var (
	workerName = regexp.MustCompile(`^[A-Za-z0-9_.-]{1,64}$`)
	notInName  = regexp.MustCompile(`[^A-Za-z0-9_.-]`)
)

// workerFlag returns the value of --worker.
func workerFlag(to *string) pflag.Value {
	return cli.Text(to, "name", func(text string) (string, error) {
		if !workerName.MatchString(text) {
			return "", fmt.Errorf("a worker's name has 1 to 64 characters: letters, digits and _.-")
		}
		return text, nil
	})
}

func hostName() string {
	name, err := os.Hostname()
	if name = notInName.ReplaceAllString(name, "-"); err != nil || name == "" {
		return "worker"
	}
	if len(name) > 64 {
		name = name[:64]
	}
	return name
}

// check returns an error for options that don't go together.
func (s *runSettings) check() error {
	if err := s.sites.check(); err != nil {
		return err
	}
	if s.servesOnly {
		return s.checkServe()
	}
	if s.url != "" {
		return nil
	}
	for at, name := range []string{"hold", "first-pace", "longest-pace", "longest-poll"} {
		if s.set[at].changed {
			return cli.Unusable(fmt.Errorf("--%s is of a broker: osb-platform broker set NAME --%s", name, name))
		}
	}
	if s.passwordFile != "" || s.moved {
		return cli.Unusable(errors.New("--password-file and --moved go with --broker URL. " +
			"For other brokers use: osb-platform broker set"))
	}
	return nil
}

// SiteSettings are the options of what is served besides the work.
type siteSettings struct {
	healthListen    string
	page, pageUsers string
	pageHosts       []string
	api, apiTokens  string
	brokerHosts     []string
	apiTLS          httpserver.CertificateFiles
	perAddress      int // connections, or 0 for a quarter of those of the page or the API
	trustedProxies  []netip.Prefix
}

func (s *siteSettings) add(flags *pflag.FlagSet) {
	flags.StringVar(&s.healthListen, "health-listen", "", "a `host:port` for /healthz, /readyz and /metrics")
	flags.StringVar(&s.page, "page", "", "a `host:port` for the page that shows all to a browser")
	flags.StringArrayVar(&s.pageHosts, "page-host", nil, "a further `name` at which the page answers, such as that of "+
		"a proxy, with its port if it isn't the usual one. May be given several times")
	flags.StringVar(&s.pageUsers, "page-users", "",
		"a `file` with the page's users, a user:password on each line (default: it asks for no password)")
	flags.StringVar(&s.api, "api", "", "a `host:port` for the API. GET /v1/openapi.json describes it")
	flags.StringVar(&s.apiTokens, "api-tokens", "",
		"the `file` with the API's tokens: a name, permissions, and the SHA-256 of a token on each line")
	flags.StringSliceVar(&s.brokerHosts, "broker-hosts", nil, "the `hosts` at which a broker may be that the API adds or "+
		"moves: names, *.NAME for all below one, addresses and networks, each with or without a port, with commas "+
		"between them. May be given several times (default: all)")
	flags.StringVar(&s.apiTLS.Certificate, "api-tls-certificate", "",
		"a `file` with the certificates of the API, which is HTTPS then")
	flags.StringVar(&s.apiTLS.Key, "api-tls-key", "", "the `file` with the key of --api-tls-certificate")
	flags.Var(cli.Count(&s.perAddress, 0, 1, apiConnections), "connections-per-address",
		"`number` of connections of each client's address at once, to the API and to the page (default: 64 and 25, a "+
			"quarter of all)")
	flags.Var(cli.Networks(&s.trustedProxies), "trusted-proxy",
		"the `network` of a proxy before the API or the page that names its clients, by the PROXY protocol or by "+
			"X-Forwarded-For: an address, or such as 10.1.0.0/16. May be given several times")
}

// check returns an error for options that don't go together.
func (s *siteSettings) check() error {
	switch {
	case s.page == "" && (len(s.pageHosts) > 0 || s.pageUsers != ""):
		return cli.Unusable(errors.New("--page-host and --page-users go with --page HOST:PORT"))
	case s.api == "" && (s.apiTokens != "" || s.isTLS() || len(s.brokerHosts) > 0):
		return cli.Unusable(errors.New("--api-tokens, --broker-hosts and --api-tls-.. go with --api HOST:PORT"))
	case s.api != "" && s.apiTokens == "":
		return cli.Unusable(errors.New("--api wants a file with tokens: --api-tokens FILE"))
	case s.page == "" && s.api == "" && (s.perAddress > 0 || len(s.trustedProxies) > 0):
		return cli.Unusable(errors.New("--connections-per-address and --trusted-proxy go with --page or --api"))
	}
	if _, err := api.ParseHosts(s.brokerHosts); err != nil {
		return cli.Unusable(fmt.Errorf("--broker-hosts: %w", err))
	}
	return nil
}

// isTLS reports whether the API is HTTPS.
func (s *siteSettings) isTLS() bool { return s.apiTLS != (httpserver.CertificateFiles{}) }

// defaultBroker is the name of the broker of `run --broker`, and of that of a store of version 0.2.
const defaultBroker = "default"

// takePassword takes the password out of the environment. It is empty if there is none.
func takePassword() (string, error) {
	if os.Getenv(passwordVariable) == "" {
		return "", nil
	}
	text, _, err := secrets.Secret(passwordVariable, "")
	return text, cli.Unusable(err)
}

// putDefault writes the broker of `run --broker` into the store, unless it stands there as it is.
func (s *runSettings) putDefault(ctx context.Context, store platform.Store, hasPassword bool) error {
	if err := platform.CheckURL(s.url, s.allowHTTP); err != nil {
		return cli.Unusable(fmt.Errorf("--broker: %w", err))
	}
	file, err := absolute(s.passwordFile)
	if err != nil {
		return err
	}
	before, err := brokerOf(ctx, store, defaultBroker)
	var rejected *platform.Rejection
	isNew := errors.As(err, &rejected)
	if err != nil && !isNew {
		return err
	}
	after := before
	after.Name, after.URL, after.User = defaultBroker, strings.TrimRight(s.url, "/"), s.user
	s.change(&after.Settings)
	switch {
	case file != "" || hasPassword:
		after.Password, after.PasswordFile = nil, file
	case after.Password == nil && after.PasswordFile == "":
		return cli.Unusable(fmt.Errorf("set %s, or name a file with --password-file", passwordVariable))
	}
	switch {
	case !isNew && before.URL != after.URL && !s.moved:
		return cli.Unusable(fmt.Errorf("the broker default is at %s. If it has moved to another URL, add "+
			"--moved. For another broker use: osb-platform broker add NAME URL", before.URL))
	case after.User == "" || strings.Contains(after.User, ":"):
		return cli.Unusable(errors.New("--user wants a name without a colon"))
	case !isNew && reflect.DeepEqual(before, after):
		return nil
	}
	if isNew {
		err = store.AddBroker(ctx, after)
	} else {
		err = store.ChangeBroker(ctx, defaultBroker, func(it platform.Broker) (*platform.Broker, error) {
			it.URL, it.User, it.Settings = after.URL, after.User, after.Settings
			it.Password, it.PasswordFile = after.Password, after.PasswordFile
			return &it, nil
		})
	}
	if errors.Is(err, platform.ErrUsed) { // another worker has written it meanwhile
		return s.putDefault(ctx, store, hasPassword)
	}
	return err
}

// passwordsOf returns the password of a broker: that of the environment if the broker default has none in the store.
func passwordsOf(own string, others *client.Passwords) func(platform.Broker) (string, error) {
	return func(of platform.Broker) (string, error) {
		if own != "" && of.Name == defaultBroker && of.Password == nil && of.PasswordFile == "" {
			return own, nil
		}
		return others.Of(of)
	}
}
