package run

import (
	"context"
	"crypto/rand"
	"encoding/hex"
	"encoding/json"
	"fmt"
	"net"
	"net/http"
	"net/url"
	"os"
	"os/exec"
	"path/filepath"
	"strings"
	"sync"
	"time"

	"pippinterm/internal/cli"
	"pippinterm/internal/crash"
	"pippinterm/platform"
	"pippinterm/platform/postgres"
	"pippinterm/platform/sqlite"
	"pippinterm/storm/conform"
	"pippinterm/storm/fault"
	"pippinterm/storm/run/audit"
	"pippinterm/storm/run/goods"
	"pippinterm/storm/run/servers"
)

// BothOptions say which programs a storm of both is about, and within which limits.
type BothOptions struct {
	Options
	Broker, Platform string // the programs osb-broker and osb-platform
	Workers, Brokers int    // how many workers the platform has, and how many brokers serve over one store
	Store, Backend   string // InFiles and AsFolders, or InPostgreSQL
	PostgreSQL       string // the URL of a server for them, unless the server is the storm's own
	KillDatabase     int    // how often a server of the storm's own is killed, and how often it is paused; 0 for no such server
	HAProxy          bool   // HAProxy stands in front of the brokers
	Unruly           bool   // a second client creates and deletes bindings, and keeps no rules
	Calm             bool   // nothing is killed or paused, and the operator does nothing besides the lives
	Without          string // a part of the design that is taken out, or empty
	Instances        int    // how many a round creates; there is one, unless something isn't done after it
	CrashPoints      string // AllPoints, SomePoints, or empty for none

	only     map[int]bool // the instances whose lives are lived; nil for all
	password string       // of the broker; empty for a new one
}

func (c BothOptions) demands() Demands {
	return Demands{
		Conflicts: []Conflict{
			{c.Instances < 1, "a run needs an instance"},
			{c.Workers < 1 || c.Brokers < 1, "a run needs a worker and a broker"},
			{c.KillDatabase > 0 && !c.needsPostgreSQL(),
				"a database is killed only if PostgreSQL is the store or the backend"},
			{c.needsPostgreSQL() && c.KillDatabase == 0 && c.PostgreSQL == "",
				"give the URL of a PostgreSQL server on which databases and roles may be created"},
			{partOf(c.Without).name != c.Without,
				fmt.Sprintf("there is no part %q. Choose one of: %s", c.Without, strings.Join(Parts(), ", "))},
			{partOf(c.Without).needsFolders && c.Backend != AsFolders,
				fmt.Sprintf("without %s, the broker has to sell folders", c.Without)},
			{c.Calm && (c.Unruly || c.CrashPoints != ""),
				"a calm storm has no second client, and visits no crash points"},
		},
		NoRestart: "both programs are killed at random moments",
	}
}

// findPrograms returns an error if one of both programs can't be run.
func (c BothOptions) findPrograms() error {
	for _, program := range []string{c.Broker, c.Platform} {
		if _, err := exec.LookPath(program); err != nil {
			return fmt.Errorf("the program can't be run: %w", err)
		}
	}
	return nil
}

// Which crash points are visited.
const (
	AllPoints  = "all"  // each of them, or the storm has failed
	SomePoints = "some" // as many as there is time for
)

func (c BothOptions) needsPostgreSQL() bool {
	return c.Store == InPostgreSQL || c.Backend == InPostgreSQL
}

// longest is how long a storm goes on at least, as long as something that has to be tried isn't.
const longest = 10 * time.Minute

// time is how long the faults last at most.
func (c BothOptions) time() time.Duration {
	if c.Calm {
		return c.Time
	}
	if most := 2 * c.Time; most > longest {
		return most
	}
	return longest
}

// A BothStorm drives osb-broker and osb-platform through faults, kills and pauses. Use one goroutine.
type BothStorm struct {
	options          BothOptions
	folder           string
	addresses        []*url.URL // of the brokers
	password         string
	capture          *fault.Capture
	source           *fault.Source
	keys             *Keys
	events           *events
	proxy            *fault.Proxy
	storage          *storage
	haproxy          *servers.HAProxy
	store            platform.Store
	commands         *commands // of osb-platform, with which the operator orders
	auditor          *auditor
	keyring          *keyring
	unruly           *unrulyClient // or nil
	brokers, workers []*victim
	ids              *conform.Runner
}

// NewBoth returns a BothStorm that runs in a new folder. Close deletes the folder.
//
// Errors: a limit isn't above 0; a program can't be run; those of the folder and of the platform's store.
func NewBoth(ctx context.Context, options BothOptions) (*BothStorm, error) {
	options.Unruly = options.Unruly || partOf(options.Without).isRule && !options.Calm
	if err := FirstError(options.Check(options.demands()), options.findPrograms()); err != nil {
		return nil, err
	}
	b := &BothStorm{options: options, capture: fault.NewCapture(), password: options.password}
	if b.password == "" {
		password := make([]byte, 16)
		if _, err := rand.Read(password); err != nil {
			return nil, fmt.Errorf("no random password: %w", err)
		}
		b.password = hex.EncodeToString(password)
	}
	if err := b.open(ctx); err != nil {
		return nil, FirstError(err, b.Close())
	}
	return b, nil
}

// open makes the folder and the storage, chooses the addresses and the faults, and prepares the programs.
func (b *BothStorm) open(ctx context.Context) (err error) {
	if b.folder, err = os.MkdirTemp(b.options.Folder, "osb-storm-"); err != nil {
		return err
	}
	if b.addresses, err = freeAddresses(b.options.Brokers); err != nil {
		return err
	}
	b.ids, err = conform.New(conform.Options{
		URL: b.addresses[0].String(), User: "platform", Password: b.password, Instances: b.options.Instances,
		RequestTime: time.Second, OperationTime: time.Second, Pause: time.Second,
	})
	if err != nil {
		return err
	}
	b.keys = newKeys(b.ids.NewID)
	b.events = &events{now: b.capture.Now}
	faults := b.options.Options
	faults.Share = b.options.share()
	b.source = faults.Source(b.options.weights())
	if b.storage, err = openStorage(ctx, b.options, b.folder, b.ids.Prefix()); err != nil {
		return err
	}
	if err := b.openProxy(ctx); err != nil {
		return err
	}
	if err := b.writeFiles(ctx); err != nil {
		return err
	}
	if err := b.addPlatform(ctx); err != nil {
		return err
	}
	return b.prepare()
}

// freeAddresses returns the URLs of ports of this machine that are free now.
func freeAddresses(count int) (all []*url.URL, err error) {
	for len(all) < count {
		listener, err := net.Listen("tcp", "127.0.0.1:0")
		if err != nil {
			return nil, err
		}
		defer listener.Close() // once all are chosen, so that no two are the same
		all = append(all, &url.URL{Scheme: "http", Host: listener.Addr().String()})
	}
	return all, nil
}

// openProxy starts the proxy, and HAProxy behind it.
func (b *BothStorm) openProxy(ctx context.Context) (err error) {
	first, others := b.addresses[0], b.addresses[1:]
	if b.options.HAProxy {
		if first, err = b.startHAProxy(ctx); err != nil {
			return err
		}
		others = nil
	}
	b.proxy, err = fault.Listen(fault.Options{
		Broker: first, Others: others, Source: b.source, Capture: b.capture, Subject: b.keys.SubjectOrNew,
		ForwardsOthers: true, RequestTime: b.options.RequestTime, Late: b.options.Late, AnswerTime: 30 * time.Second,
	})
	return err
}

// writeFiles writes what the programs read: a key, the password and the catalogue.
func (b *BothStorm) writeFiles(ctx context.Context) error {
	key, err := exec.CommandContext(ctx, b.options.Platform, "key").Output()
	if err != nil {
		return fmt.Errorf("%s key: %w", b.options.Platform, err)
	}
	for name, text := range map[string][]byte{
		"key": key, "password": []byte(b.password), "catalogue.json": goods.Document(),
	} {
		if err := os.WriteFile(b.file(name), text, 0o600); err != nil {
			return err
		}
	}
	return nil
}

// startHAProxy starts HAProxy in front of the brokers, and returns where it listens.
func (b *BothStorm) startHAProxy(ctx context.Context) (*url.URL, error) {
	entrances, err := freeAddresses(1)
	if err != nil {
		return nil, err
	}
	var hosts []string
	for _, address := range b.addresses {
		hosts = append(hosts, address.Host)
	}
	b.haproxy, err = servers.StartHAProxy(ctx, b.folder, entrances[0].Host, hosts)
	return entrances[0], err
}

func (b *BothStorm) file(name string) string { return filepath.Join(b.folder, name) }

// addPlatform adds the broker to the platform, opens the platform's store, and prepares to look at everything.
func (b *BothStorm) addPlatform(ctx context.Context) error {
	journal, err := b.journalOptions("platform")
	if err != nil {
		return err
	}
	book := &notedBook{
		book: book{service: goods.Service, plan: b.plan}, events: b.events, states: map[Key]platform.State{},
	}
	chance := fault.Chance(b.options.Seed, "commands")
	b.commands = newCommands(book, chance, b.platformLine(), journal, b.storage.environment)
	b.commands.triesOf = b.tries
	words := []string{
		"broker", "add", brokerName, b.proxy.URL(), "--user", "platform", "--password-file", b.file("password"),
		"--first-pace", "0.1", "--longest-pace", "1", "--longest-poll", "1.5",
	}
	if ended, err := b.commands.call(ctx, words...); err != nil || ended.status != cli.StatusDone {
		return fmt.Errorf("the broker can't be added to the platform: %v%s", err, ended.said)
	}
	if b.store, err = b.storage.openStore(ctx, b.options); err != nil {
		return err
	}
	b.commands.store = b.store
	b.look()
	return nil
}

// look prepares to look at everything, and the client that keeps no rules.
func (b *BothStorm) look() {
	if b.options.Unruly {
		b.unruly = &unrulyClient{
			url: b.proxy.URL(), password: b.password, records: b.commands.book.Records, held: b.storage.holdings.Read,
			newID: func() string { return b.ids.NewID(0) }, client: http.Client{Timeout: unrulyRequest},
			perSecond: float64(b.options.Instances) / 2 / b.options.Time.Seconds(),
			chance:    fault.Chance(b.options.Seed, "unruly"), bound: map[Key]bool{}, sending: map[Key]bool{},
		}
	}
	b.keyring = &keyring{
		read: b.commands.Credentials, records: b.commands.book.Records, works: b.storage.resources.Works,
		finds: &finds{events: b.events}, given: map[Key]json.RawMessage{},
	}
	b.auditor = newAuditor(audit.Reader{
		Records: b.commands.book.Records, Holdings: b.storage.holdings, Resources: b.storage.resources, Given: b.keyring.all,
		Foreign: b.foreignBindings, IsOurs: b.isOurs,
	}, b.events)
}

// isOurs reports whether an instance that the platform doesn't have may be the storm's.
func (b *BothStorm) isOurs(instance string) bool { return strings.HasPrefix(instance, b.ids.Prefix()) }

// foreignBindings returns the bindings that somebody else than the platform has created.
func (b *BothStorm) foreignBindings() map[Key]bool {
	if b.unruly == nil {
		return nil
	}
	return b.unruly.all()
}

// Close ends what runs, and deletes everything that the storm has created.
func (b *BothStorm) Close() error {
	atOnce(b.programs(), (*victim).kill)
	if b.proxy != nil {
		b.proxy.Close()
	}
	if b.haproxy != nil {
		b.haproxy.Close()
	}
	var all []error
	var isOurs func(string) bool
	if b.store != nil {
		if records, err := b.commands.book.Records(context.Background()); err == nil {
			isOurs = func(instance string) bool {
				_, isRecorded := records[Key{Instance: instance}]
				return isRecorded || b.isOurs(instance)
			}
		}
	}
	if b.store != nil {
		all = append(all, b.store.Close())
	}
	if b.storage != nil {
		all = append(all, b.storage.close(isOurs))
	}
	return FirstError(append(all, os.RemoveAll(b.folder))...)
}

// platformLine is the program osb-platform with the options of its store.
func (b *BothStorm) platformLine() []string {
	return []string{b.options.Platform, "--store", b.storage.storeName, "--key-file", b.file("key")}
}

// tries is how many ids the order of an instance, or of a binding of it, may use up: one, or three.
func (b *BothStorm) tries(key Key) int {
	subject, _ := b.keys.Subject(key.Instance, "")
	return 1 + 2*(subject.Instance/len(plans)%2)
}

// plans are those of the instances of a storm.
var plans = []string{goods.AtOnce, goods.Later, goods.LaterWithBinds, goods.OnlyBindsLater}

func (b *BothStorm) plan(key Key) string {
	subject, _ := b.keys.Subject(key.Instance, "")
	return plans[subject.Instance%len(plans)]
}

// prepare says how both programs are started.
func (b *BothStorm) prepare() error {
	for number, address := range b.addresses {
		words := []string{
			b.options.Broker, "serve", "--listen", address.Host, "--catalog", b.file("catalogue.json"), "--sweep-seconds", "0.5",
			"--wait-for-poll", "2", "--workers", "8", "--stop-seconds", "20",
		}
		if partOf(b.options.Without).isUsualBroker { // it has no such rule
			words = append(words, "--first-poll=false")
		}
		named := programNumber(number, b.options.Brokers)
		made, err := b.victim(whoBroker, named, append(words, b.storage.brokerWords...), "OSB_BROKER_PASSWORD="+b.password)
		if err != nil {
			return err
		}
		b.brokers = append(b.brokers, made)
	}
	for number := 0; number < b.options.Workers; number++ {
		words := append(b.platformLine(), "run", "--worker", fmt.Sprintf("storm-%d", number+1), "--seconds",
			fmt.Sprint(b.options.RequestTime.Seconds()), "--look-seconds", "0.2", "--stop-seconds", "5")
		named := programNumber(number, b.options.Workers) // a lease ends soon, with the tag storm
		made, err := b.victim(whoPlatform, named, words, "OSB_MARGIN=1s", "OSB_PLATFORM_PASSWORD="+b.password)
		if err != nil {
			return err
		}
		b.workers = append(b.workers, made)
	}
	if b.options.CrashPoints != "" && !partOf(b.options.Without).isUsualBroker { // such a broker doesn't reach them
		b.share(b.brokers, crash.Points())
	}
	if b.options.CrashPoints != "" {
		b.share(b.workers, workerPoints())
	}
	return nil
}

// journalOptions returns the options with which a side writes its journal, and makes the folder of the journal.
func (b *BothStorm) journalOptions(side string) ([]string, error) {
	if b.options.Journal == "" {
		return nil, nil
	}
	folder := filepath.Join(b.options.Journal, side)
	return []string{"--journal", folder}, os.MkdirAll(folder, 0o700)
}

// programNumber returns the number of the program at an index, from 1, or 0 if there is no other one of its kind.
func programNumber(at, count int) int {
	if count == 1 {
		return 0
	}
	return at + 1
}

// share gives each of some programs its share of the crash points to visit.
func (b *BothStorm) share(among []*victim, points []string) {
	chance := fault.Chance(b.options.Seed, "points", among[0].name)
	for at, point := range shuffle(chance, points) {
		to := among[at%len(among)]
		to.open = append(to.open, point)
	}
}

func (b *BothStorm) programs() []*victim {
	return append(append([]*victim{}, b.brokers...), b.workers...)
}

// victim returns a program that is to be killed. With PostgreSQL, its store may be away.
func (b *BothStorm) victim(name string, number int, line []string, environment ...string) (*victim, error) {
	journal, err := b.journalOptions(name)
	if err != nil {
		return nil, err
	}
	file := fmt.Sprintf("%s-%d.log", name, number)
	made := &victim{
		process: process{
			name: name, number: number, line: append(line, journal...), log: b.file(file),
			environment: append(append([]string{}, b.storage.environment...), environment...),
		},
		chance: fault.Chance(b.options.Seed, "kills", file), events: b.events, times: usualTimes(),
	}
	made.environment = append(made.environment, b.options.withoutOf(name)...)
	if b.options.needsPostgreSQL() {
		made.accepted = []int{cli.StatusUnavailable}
	}
	return made, nil
}

// workerPoints are the crash points of the platform's worker. The others are those of its orders, which osb-storm
// writes itself.
func workerPoints() (points []string) {
	for _, point := range platform.Points {
		if !strings.HasPrefix(point, "order-") {
			points = append(points, point)
		}
	}
	return points
}

// atOnce calls for each program, or something else, at once, and returns once all calls have returned.
func atOnce[T any](all []T, call func(T)) {
	var group sync.WaitGroup
	for _, element := range all {
		element := element
		group.Add(1)
		go func() {
			defer group.Done()
			call(element)
		}()
	}
	group.Wait()
}

// checkPoints returns an error if crash points are to be visited, and a program was built without them. A program with
// crash points doesn't start if it is to be killed at one that it doesn't have.
func (b *BothStorm) checkPoints(ctx context.Context) error {
	if b.options.CrashPoints == "" {
		return nil
	}
	for _, program := range []*victim{b.brokers[0], b.workers[0]} {
		if err := b.probe(ctx, program, program.environment, "no-such-point", "crashpoints"); err != nil {
			return err
		}
	}
	return nil
}

// Where records, holdings and resources are.
const (
	InFiles      = "sqlite"     // a store
	AsFolders    = "folders"    // a backend
	InPostgreSQL = "postgresql" // both
)

// A storage is where the records, the broker's rows and the resources of a storm are.
type storage struct {
	server   *servers.Postgres // of the storm's own, or nil
	database *servers.Database // of the storm's own, or nil
	state    string            // the folder of the brokers

	storeName   string   // what --store says to osb-platform
	brokerWords []string // the options of the brokers
	environment []string // of all programs

	holdings  audit.Holdings
	resources audit.Resources
}

// backendKey is what the passwords of the databases are derived from that a storm sells.
const backendKey = "the key of a storm's passwords, of which nobody has any use"

// openStorage makes a new storage, with nothing in it.
func openStorage(ctx context.Context, c BothOptions, folder, prefix string) (*storage, error) {
	s := &storage{
		state: filepath.Join(folder, "broker"), storeName: filepath.Join(folder, "instances.sqlite"),
		environment: append(os.Environ(), "OSB_BACKEND_KEY="+backendKey),
	}
	s.brokerWords = []string{"--state", s.state}
	s.holdings = audit.File(filepath.Join(s.state, "holdings.sqlite"))
	s.resources = audit.Folders{Top: filepath.Join(s.state, "instances")}
	if !c.needsPostgreSQL() {
		return s, nil
	}
	if err := s.openDatabase(ctx, c, "storm_"+prefix); err != nil {
		return nil, FirstError(err, s.close(nil))
	}
	s.useDatabase(c)
	return s, nil
}

// openDatabase creates the database, on a server of the storm's own if that is to be killed.
func (s *storage) openDatabase(ctx context.Context, c BothOptions, name string) (err error) {
	address := c.PostgreSQL
	if c.KillDatabase > 0 {
		if s.server, err = servers.StartPostgres(ctx, c.Folder); err != nil {
			return err
		}
		address = s.server.URL("postgres")
	}
	s.database, err = servers.Create(ctx, address, name)
	return err
}

// useDatabase has the database be the store and the backend, as the options say.
func (s *storage) useDatabase(c BothOptions) {
	named, environment := s.database.ForPrograms()
	s.environment = append(s.environment, environment...)
	if c.Store == InPostgreSQL {
		s.storeName, s.holdings = named, audit.Tables{DB: s.database.DB()}
		s.brokerWords = append(s.brokerWords, "--store", named)
	}
	if c.Backend == InPostgreSQL {
		s.brokerWords = append(s.brokerWords, "--backend", named)
		s.resources = audit.Databases{
			DB: s.database.DB(), Server: s.database.URL(), Secret: []byte(backendKey),
		}
	}
}

func (s *storage) openStore(ctx context.Context, c BothOptions) (store platform.Store, err error) {
	if c.Store == InPostgreSQL {
		const connections = 8
		store, err = postgres.Open(ctx, s.database.URL(), connections)
	} else {
		store, err = sqlite.Open(ctx, s.storeName)
	}
	if err != nil {
		return nil, fmt.Errorf("the store of the platform: %w", err)
	}
	return store, nil
}

// describe says where the audit looks.
func (c BothOptions) describe() string {
	where := map[string]string{
		AsFolders: "the folders of the broker", InPostgreSQL: "the databases and the roles of PostgreSQL",
	}
	return where[c.Backend] + " were read, and the rows of the broker and the platform"
}

// collisions returns the keys at which two have worked at once, as far as a broker with the tag storm sees it.
func (s *storage) collisions() []string {
	text, err := os.ReadFile(filepath.Join(s.state, "together"))
	if err != nil {
		return nil
	}
	return strings.Fields(string(text))
}

// close deletes what the storm has created. isOurs reports whether an instance is one of the storm's. It may be nil if
// none was created.
func (s *storage) close(isOurs func(string) bool) (err error) {
	if isOurs != nil && s.server == nil {
		err = s.resources.Clear(context.Background(), isOurs)
	}
	if s.database != nil && s.server == nil {
		err = FirstError(err, s.database.Close())
	}
	if s.server != nil { // everything ends with it
		err = FirstError(err, s.server.Close())
	}
	return err
}
