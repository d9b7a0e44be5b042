package main

import (
	"net/netip"
	"os"
	"path/filepath"
	"time"

	"github.com/spf13/cobra"
	"github.com/spf13/pflag"

	"pippinterm/broker"
	"pippinterm/internal/cli"
)

// Settings are the options of `osb-broker serve`.
type settings struct {
	listen, healthListen          string
	sharePort, existing           bool
	state, catalogue              string
	store, backend                string
	user, passwordFile, usersFile string
	keyFile                       string
	storeKeys                     []string // the files of --key-file
	certificate, key, clientCA    string
	firstPoll                     bool
	waitForPoll                   time.Duration
	idsReturnAfter                int // in seconds, or 0
	threads, workers, connections int
	perAddress                    int // connections, or 0 for a quarter of them
	trustedProxies                []netip.Prefix
	longestBody, parsedAtOnce     int // in bytes; parsedAtOnce is 0 for four times longestBody
	perInstance                   int
	requestTime, sweepTime        time.Duration
	longestPause                  time.Duration
	stopTime, commandTime         time.Duration
	customers, template           string
	journal                       string
	journalSize                   int // in MiB
}

const most = 1 << 30 // of any number

const environment = `
environment:
  OSB_BROKER_PASSWORD      the password of the platform, if neither --password-file nor
                           --users-file is given
  OSB_BACKEND_KEY          for --backend postgresql://..: the key from which the
                           passwords of the databases are made, if --backend-key-file
                           isn't given
  PGPASSWORD, PGPASSFILE   and PostgreSQL's other variables: how its servers are reached.
                           A URL must not have a password
  BACKEND_..               for --backend command:..: variables that the command gets

GET /healthz, /readyz and /metrics need no password. The log is lines of JSON on standard
error. SIGTERM and SIGINT end the broker with status 0, once the running work has ended.
SIGHUP reads the files of --users-file, --password-file and --tls-.. again.

exit status: 0 done; 2 the command line can't be parsed (78 if systemd has started the program);
78 change something first: an option, a file, a password or a right; 75 the store or the backend
is away, so try again; 70 any other error`

func serveCommand() *cobra.Command {
	s := &settings{}
	made := &cobra.Command{
		Use:   "serve",
		Short: "Serve until SIGTERM",
		Long:  "Serve the catalogue, instances and bindings until SIGTERM.\n" + environment,
		RunE:  func(c *cobra.Command, _ []string) error { return serve(c.Context(), s, os.Stderr) },
	}
	cli.WrapUsage(made)
	flags := made.Flags()
	flags.SortFlags = false
	s.addPlaces(flags)
	s.addAccess(flags)
	s.addRules(flags)
	s.addLimits(flags)
	return made
}

// stateFolder is where the state is if no folder is named.
func stateFolder() string {
	home := os.Getenv("XDG_STATE_HOME")
	if home == "" {
		home = filepath.Join(os.Getenv("HOME"), ".local", "state")
	}
	return filepath.Join(home, "osb-broker")
}

func (s *settings) addPlaces(flags *pflag.FlagSet) {
	flags.Var(cli.Address(&s.listen, "127.0.0.1:8080"), "listen",
		"where to listen; port 0 is any free port")
	flags.StringVar(&s.healthListen, "health-listen", "",
		"a second `host:port` for /healthz, /readyz and /metrics, which a full first one doesn't block")
	flags.BoolVar(&s.sharePort, "share-port", false,
		"let other brokers of the same store listen at the same address")
	flags.StringVar(&s.state, "state", stateFolder(),
		"the `folder` with what --store and --backend don't place elsewhere")
	flags.BoolVar(&s.existing, "existing", false, "start only over a store that has been used before")
	flags.StringVar(&s.catalogue, "catalog", "", "the `file` with the document of GET /v2/catalog")
	flags.Var(cli.Place(&s.store, ""), "store", "where to keep holdings: a `file` of SQLite, or postgresql://..")
	flags.Var(cli.Place(&s.backend, ""), "backend",
		"what to sell: a `folder` for folders, postgresql://.. for databases, or command:PROGRAM")
	flags.StringVar(&s.customers, "customer-address", "",
		"the `host:port` at which applications reach the databases, if it isn't that of --backend")
	flags.StringVar(&s.template, "template", "",
		"for --backend postgresql://..: the `database` to copy. Default: template_osb if it exists, or else template0")
	cli.JournalFlags(flags, &s.journal, &s.journalSize)
}

func (s *settings) addAccess(flags *pflag.FlagSet) {
	flags.StringVar(&s.user, "user", "platform", "the `name` with which the platform logs in")
	flags.StringVar(&s.passwordFile, "password-file", "",
		"a `file` with the platform's password; a second line is a second valid password")
	flags.StringVar(&s.usersFile, "users-file", "",
		"a `file` with lines user:password, in place of --user and its password")
	flags.StringArrayVar(&s.storeKeys, "key-file", nil,
		"a `file` with the key that encrypts parameters and credentials in the store (default: none, and nothing is "+
			"encrypted). May be given several times: the first encrypts, and all decrypt")
	flags.StringVar(&s.keyFile, "backend-key-file", "", "a `file` with the key of the databases' passwords")
	flags.StringVar(&s.certificate, "tls-certificate", "", "a `file` with the certificates, to speak TLS")
	flags.StringVar(&s.key, "tls-key", "", "the `file` with the key of --tls-certificate")
	flags.StringVar(&s.clientCA, "tls-client-ca", "",
		"a `file` with the authorities whose client certificates are required")
}

func (s *settings) addRules(flags *pflag.FlagSet) {
	flags.BoolVar(&s.firstPoll, "first-poll", true,
		"create the instances and bindings of asynchronous plans only once the platform has polled")
	flags.Var(cli.Seconds(&s.waitForPoll, 10*time.Minute), "wait-for-poll",
		"after so many seconds without the first poll, a creation has failed")
	flags.Var(cli.Count(&s.idsReturnAfter, 0, int(broker.ShortestReturn.Seconds()), most), "ids-return-after",
		"let an id be created again so many `seconds` after its deletion has ended, at least 300; without this option, "+
			"never. No request may be under way for that long: docs/broker-guide.md says what breaks otherwise")
}

func (s *settings) addLimits(flags *pflag.FlagSet) {
	flags.Var(cli.Count(&s.threads, 64, 1, most), "threads", "requests that are carried out at once")
	flags.Var(cli.Count(&s.workers, 32, 1, most), "workers",
		"operations and pending work at once, besides requests; up to twice as many if some are slow or have failed before")
	flags.Var(cli.Count(&s.connections, 800, 1, most), "connections", "connections of clients at once")
	flags.Var(cli.Count(&s.perAddress, 0, 1, most), "connections-per-address",
		"`number` of connections of each client's address at once (default: a quarter of --connections)")
	flags.Var(cli.Networks(&s.trustedProxies), "trusted-proxy",
		"the `network` of a proxy that names its clients, by the PROXY protocol or by X-Forwarded-For: an address, or "+
			"such as 10.1.0.0/16. May be given several times")
	flags.Var(cli.Count(&s.longestBody, 256<<10, 1, most/4), "longest-body",
		"the greatest length of a body, in bytes")
	flags.Var(cli.Count(&s.parsedAtOnce, 0, 1, most), "parsed-at-once",
		"`bytes` of bodies that are parsed at once, at least --longest-body (default: 4 times --longest-body). Each byte "+
			"takes up to 85 bytes of memory. Others wait")
	flags.Var(cli.Seconds(&s.requestTime, 30*time.Second), "request-seconds", "in which a request has to arrive")
	flags.Var(cli.Seconds(&s.sweepTime, 5*time.Second), "sweep-seconds", "between two looks for unfinished work")
	flags.Var(cli.Seconds(&s.longestPause, broker.DefaultLongestPause), "longest-pause",
		"in seconds, between two tries of work that fails again and again")
	flags.Var(cli.Seconds(&s.stopTime, 30*time.Second), "stop-seconds", "for running work to end after SIGTERM")
	flags.Var(cli.Seconds(&s.commandTime, 5*time.Minute), "command-seconds", "for one run of --backend command:..")
	flags.Var(cli.Count(&s.perInstance, 20, 1, most), "connections-per-instance",
		"connections of each role; a database that is sold has a role, and each of its bindings has one")
}
