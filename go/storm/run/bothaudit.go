package run

import (
	"context"
	"encoding/json"
	"fmt"
	"strings"
	"time"

	"pippinterm/platform"
	"pippinterm/storm/fault"
	"pippinterm/storm/report"
	"pippinterm/storm/run/audit"
)

// An auditor compares what the platform records, what the broker holds and what exists, all through a storm of both.
type auditor struct {
	reader audit.Reader
	*finds

	guard
	compared map[string]int // how many records of each kind were compared
}

// A comparedKind is a kind of records that is compared while a storm goes on.
type comparedKind struct {
	name      string
	state     platform.State
	isBinding bool
}

var comparedKinds = []comparedKind{
	{"instances that are ready", audit.Ready, false}, {"instances that are gone", audit.Gone, false},
	{"bindings that are ready", audit.Ready, true}, {"bindings that are gone", audit.Gone, true},
}

func newAuditor(reader audit.Reader, events *events) *auditor {
	return &auditor{reader: reader, finds: &finds{events: events}, compared: map[string]int{}}
}

// look looks once. A look that fails, such as while the database is away, says nothing.
func (a *auditor) look(ctx context.Context) {
	reading, err := a.reader.Read(ctx)
	if err != nil {
		return
	}
	a.mutex.Lock()
	defer a.mutex.Unlock()
	for _, kind := range comparedKinds {
		a.compared[kind.name] += len(reading.SteadyKeys(kind.state, kind.isBinding))
	}
	for _, wrong := range reading.Compare() {
		wrong.What = "during the storm, " + wrong.What
		a.addOnce(wrong)
	}
}

// end returns what the looks have found, and what is wrong at the end.
func (a *auditor) end(ctx context.Context) (all report.Differences, failed error) {
	all = a.list()
	reading, err := a.reader.Read(ctx)
	if err != nil {
		return all, fmt.Errorf("the records, the rows and what exists can't be compared: %w", err)
	}
	left, err := reading.CompareAtEnd(ctx, a.reader.Resources)
	if err != nil {
		err = fmt.Errorf("a resource can't be tried: %w", err)
	}
	return append(all, left...), err
}

func (a *auditor) counts() map[string]int {
	a.mutex.Lock()
	defer a.mutex.Unlock()
	all := map[string]int{}
	for _, kind := range comparedKinds {
		all[kind.name] = a.compared[kind.name]
	}
	return all
}

// A keyring reads the credentials of each binding once it is ready, and tries them.
type keyring struct {
	read    func(context.Context, Key) (json.RawMessage, error) // the object, or nil if the binding isn't ready
	records func(context.Context) (map[Key]Record, error)
	works   func(context.Context, Key, json.RawMessage) (bool, error)
	*finds

	guard
	given map[Key]json.RawMessage // the objects that were read, also of bindings that are gone now
}

// credentialsEach is how often the keyring looks for bindings that are ready.
const credentialsEach = 200 * time.Millisecond

// run reads and tries until ctx is done. If the store or the server is away, it tries again later.
func (k *keyring) run(ctx context.Context) {
	for fault.Sleep(ctx, credentialsEach) {
		records, err := k.records(ctx)
		if err != nil {
			continue
		}
		for key, record := range records {
			if key.Binding != "" && record.State == audit.Ready && !k.has(key) && ctx.Err() == nil {
				_ = k.try(ctx, key)
			}
		}
	}
}

// finish reads and tries the credentials of all bindings that are ready at the end. Those of bindings that are gone
// must give no access.
func (k *keyring) finish(ctx context.Context) error {
	records, err := k.records(ctx)
	if err != nil {
		return err
	}
	before := k.all()
	for key, record := range records {
		if key.Binding == "" {
			continue
		}
		if record.State == audit.Ready {
			if err := k.again(ctx, key, before[key]); err != nil {
				return err
			}
		}
		object, isGiven := before[key]
		if !isGiven || record.State != audit.Gone {
			continue
		}
		works, err := k.works(ctx, key, audit.CredentialsOf(object))
		if err != nil {
			return fmt.Errorf("credentials can't be tried: %w", err)
		}
		if works {
			k.add(key, Lost, "its record says gone, and its credentials give access")
		}
	}
	return nil
}

// again reads the credentials of a binding that is ready at the end. They are those that were read before, if any were.
func (k *keyring) again(ctx context.Context, key Key, before json.RawMessage) error {
	if err := k.try(ctx, key); err != nil {
		return fmt.Errorf("credentials can't be tried: %w", err)
	}
	after, isGiven := k.all()[key]
	if !isGiven || before != nil && string(before) != string(after) {
		k.add(key, False, "its record says ready, and osb-platform prints no credentials, or other ones than before")
	}
	return nil
}

// try reads the credentials of a binding, and tries them.
func (k *keyring) try(ctx context.Context, key Key) error {
	object, err := k.read(ctx, key)
	if err != nil || object == nil {
		return err
	}
	k.hold(func() { k.given[key] = object })
	works, failed := k.works(ctx, key, audit.CredentialsOf(object))
	if works {
		return nil
	}
	records, err := k.records(ctx)
	if err != nil || records[key].State != audit.Ready { // if it is, it was so all the time
		return err
	}
	if failed != nil {
		return failed
	}
	k.add(key, False, "its record says ready, and its credentials give no access")
	return nil
}

func (k *keyring) has(key Key) bool {
	k.mutex.Lock()
	defer k.mutex.Unlock()
	_, has := k.given[key]
	return has
}

func (k *keyring) all() map[Key]json.RawMessage {
	k.mutex.Lock()
	defer k.mutex.Unlock()
	all := make(map[Key]json.RawMessage, len(k.given))
	for key, object := range k.given {
		all[key] = object
	}
	return all
}

// Programs are what a storm of both programs did to them, and what is wrong with the storm itself.
type Programs struct {
	Brokers        int            `json:"brokers"`
	Workers        int            `json:"workers"`
	Store          string         `json:"store"`
	Backend        string         `json:"backend"`
	HAProxy        bool           `json:"haproxy"`
	BrokerKills    int            `json:"broker_kills"`
	BrokerPauses   int            `json:"broker_pauses"`
	PlatformKills  int            `json:"platform_kills"`
	PlatformPauses int            `json:"platform_pauses"`
	CommandKills   int            `json:"command_kills"`
	DatabaseKills  int            `json:"database_kills"`
	DatabasePauses int            `json:"database_pauses"`
	Ends           int            `json:"ends"` // how often a program has ended by itself because its store was away
	Visited        []string       `json:"visited_crash_points"`
	Unvisited      []string       `json:"unvisited_crash_points"`
	Compared       map[string]int `json:"compared"`          // how many records of each kind were compared during the storm
	Credentials    int            `json:"credentials"`       // of how many bindings they were tried
	Together       []string       `json:"together"`          // the keys at which two have worked at once
	Without        string         `json:"without,omitempty"` // the part of the design that was taken out
	UnrulyBindings int            `json:"unruly_bindings"`   // of the client that keeps no rules
	Untried        []string       `json:"untried"`           // what has to happen in every storm, and hasn't
	Odd            []string       `json:"odd"`               // ends that nobody caused, and errors that a program didn't expect
}

func (b *BothStorm) newReport() *Report {
	report := NewReport(b.proxy.URL(), b.options.Seed, "platform", b.password)
	report.Prefix, report.Service, report.Plan = b.ids.Prefix(), "osb-storm", "all plans"
	report.Inventory = b.options.describe()
	report.Programs = &Programs{
		Brokers: len(b.brokers), Workers: len(b.workers), Store: b.options.Store, Backend: b.options.Backend,
		HAProxy: b.options.HAProxy, Visited: []string{}, Unvisited: []string{}, Together: []string{}, Untried: []string{},
		Odd: []string{},
	}
	return report
}

// add adds what the storm has done to the programs.
func (b *BothStorm) add(report *Report, found *Result) {
	p, hide := report.Programs, report.hider(found)
	for _, test := range []struct {
		of            []*victim
		kills, pauses *int
	}{{b.brokers, &p.BrokerKills, &p.BrokerPauses}, {b.workers, &p.PlatformKills, &p.PlatformPauses}} {
		for _, v := range test.of {
			its := v.counts()
			*test.kills, *test.pauses = *test.kills+its.kills, *test.pauses+its.pauses
			p.Ends += its.ends
			p.Visited = append(p.Visited, its.visited...)
			for _, line := range append(append([]string{}, its.odd...), cries(v.log)...) {
				p.Odd = append(p.Odd, hide.In(fmt.Sprintf("%s: %.1000s", v, line)))
			}
		}
	}
	kills, visited, _ := b.commands.points()
	p.CommandKills, p.Visited = kills, append(p.Visited, visited...)
	p.Unvisited = append(p.Unvisited, b.remainingPoints()...)
	for _, line := range b.commands.oddities() {
		p.Odd = append(p.Odd, hide.In(line))
	}
	if b.storage.server != nil {
		p.DatabaseKills, p.DatabasePauses = b.storage.server.Counts()
	}
	p.Compared, p.Credentials = b.auditor.counts(), len(b.keyring.all())
	p.Together = append(p.Together, b.storage.collisions()...)
	p.Without = b.options.Without
	if b.unruly != nil {
		p.UnrulyBindings = len(b.unruly.all())
	}
	report.Instances, report.Bindings = b.commands.counts()
	if report.Ended == "" && p.Without == "" {
		p.Untried = append(p.Untried, b.omissions()...)
		report.Untried = p.Untried
	}
	report.Restarts = p.BrokerKills
}

// lines returns the facts for people.
func (p *Programs) lines() []string {
	lines := []string{
		fmt.Sprintf("%s killed %s and paused %s, %s killed %s and paused %s",
			many("the broker was", p.Brokers, "the %d brokers were"), times(p.BrokerKills), times(p.BrokerPauses),
			many("the platform was", p.Workers, "the %d workers of the platform were"), times(p.PlatformKills),
			times(p.PlatformPauses)),
	}
	if p.DatabaseKills+p.DatabasePauses > 0 {
		lines = append(lines, fmt.Sprintf("PostgreSQL was killed %s and paused %s", times(p.DatabaseKills),
			times(p.DatabasePauses)))
	}
	if p.Ends > 0 {
		lines = append(lines, fmt.Sprintf("programs have ended by themselves %s because their store was away", times(p.Ends)))
	}
	if all := len(p.Visited) + len(p.Unvisited); all > 0 {
		lines = append(lines, fmt.Sprintf("%s visited, commands were killed %s",
			report.Quantity(len(p.Visited), "crash point"), times(p.CommandKills)))
	}
	if p.UnrulyBindings > 0 {
		lines = append(lines, fmt.Sprintf("the client that keeps no rules has created %s",
			report.Quantity(p.UnrulyBindings, "binding")))
	}
	return append(lines, p.looks())
}

// looks says what was compared, for people.
func (p *Programs) looks() string {
	var compared []string
	for _, kind := range comparedKinds {
		compared = append(compared, fmt.Sprintf("%d %s", p.Compared[kind.name], kind.name))
	}
	return fmt.Sprintf("records compared during the storm: %s; credentials of %s tried", strings.Join(compared, ", "),
		report.Quantity(p.Credentials, "binding"))
}

// many returns the words for one, or those for several with their number in it.
func many(one string, count int, several string) string {
	if count <= 1 {
		return one
	}
	return fmt.Sprintf(several, count)
}

func times(count int) string {
	if count == 1 {
		return "once"
	}
	return fmt.Sprintf("%d times", count)
}

// mostTogether is how many keys at which two have worked at once are listed.
const mostTogether = 5

// problems returns what went wrong with the programs and with the storm, for people.
func (p *Programs) problems() (lines []string) {
	for at, key := range p.Together {
		if at == mostTogether {
			lines = append(lines, fmt.Sprintf("TWO WORKERS AT ONCE: %s more", times(len(p.Together)-at)))
			break
		}
		lines = append(lines, "TWO WORKERS AT ONCE: at "+key)
	}
	for _, omission := range p.Untried {
		lines = append(lines, "NOT TRIED: "+omission)
	}
	for _, oddity := range p.Odd {
		lines = append(lines, "ODD: "+oddity)
	}
	return lines
}
