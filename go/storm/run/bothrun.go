package run

import (
	"context"
	"fmt"
	"math/rand"
	"strings"
	"sync"
	"time"

	"pippinterm/platform"
	"pippinterm/storm/fault"
	"pippinterm/storm/report"
	"pippinterm/storm/run/audit"
	"pippinterm/storm/run/servers"
)

// Run runs the storm, and returns what was lost. If ctx is done, it ends at once.
//
// Errors: a program can't be started, or, if crash points are to be visited, was built without them.
func (b *BothStorm) Run(ctx context.Context) (*Report, error) {
	into := b.newReport()
	once := func(ctx context.Context, of *Candidate) (*Result, error) {
		if of == nil {
			return b.once(ctx)
		}
		return b.again(ctx, *of)
	}
	add := func(found *Result) { b.add(into, found) }
	err := Core{Options: b.options.Options, Report: into, Once: once, Add: add}.Run(ctx)
	if hasShrunk := into.MinimizeRuns > 0 || into.MinimizeEnded != ""; hasShrunk && into.Minimal == nil {
		into.Notes = append(into.Notes, "--minimize: nothing was killed or paused in these runs")
	}
	return into, err
}

func (b *BothStorm) once(ctx context.Context) (*Result, error) {
	if err := b.begin(ctx); err != nil {
		return &Result{Keys: b.keys}, err
	}
	b.commands.kill(b.options.CrashPoints != "")
	found := b.course(ctx)
	for _, all := range [][]*victim{b.workers, b.brokers} {
		atOnce(all, (*victim).end)
	}
	return found, nil
}

// again is a further run, which is calm, with the faults of a candidate.
func (b *BothStorm) again(ctx context.Context, of Candidate) (*Result, error) {
	options := b.options
	options.Calm, options.CrashPoints, options.Unruly, options.password = true, "", false, b.password
	options.List, options.only = append([]fault.Injection{}, of.List...), of.Only
	trial, err := NewBoth(ctx, options)
	if err != nil {
		return nil, err
	}
	again, err := trial.once(ctx)
	return again, FirstError(err, trial.Close())
}

// begin starts the brokers and a worker once without faults, until the platform has the catalogue.
func (b *BothStorm) begin(ctx context.Context) error {
	if err := FirstError(b.checkPoints(ctx), b.checkTag(ctx)); err != nil {
		return err
	}
	first, end := append([]*victim{b.workers[0]}, b.brokers...), (*victim).kill
	if b.options.Calm {
		end = (*victim).end
	}
	defer atOnce(first, end)
	for _, victim := range first {
		if !victim.start("") {
			return fmt.Errorf("a program can't be started: %v", victim.odd)
		}
	}
	within, cancel := context.WithTimeout(ctx, 30*time.Second)
	defer cancel()
	for at, address := range b.addresses {
		if err := awaitBroker(within, address); err != nil {
			return fmt.Errorf("%w. Its log: %.1000s", err, servers.LastOf(b.brokers[at].log, 1000))
		}
	}
	if _, isThere := awaitCatalogue(within, b.store); !isThere {
		return fmt.Errorf("the platform doesn't get the catalogue. Its log: %.1000s", servers.LastOf(b.workers[0].log, 1000))
	}
	return nil
}

// lives are those of a round, with numbers of their own. If only some instances are lived, all begin at once.
func (b *BothStorm) lives(round int) (all []life) {
	if b.options.only == nil {
		return b.livesOf(round, nil)
	}
	last := 0
	for number := range b.options.only {
		if of := (number - 1) / b.options.Instances; of > last {
			last = of
		}
	}
	for round := 0; round <= last; round++ {
		of := map[int]bool{}
		for number := range b.options.only {
			of[number-round*b.options.Instances] = true
		}
		all = append(all, b.livesOf(round, of)...)
	}
	return all
}

// livesOf are those of a round. If only isn't nil, they are those of these instances, by their numbers in the round.
func (b *BothStorm) livesOf(round int, only map[int]bool) []life {
	all := lives(b.options.Seed+int64(round), b.options.Instances, b.options.Time, true, only)
	for at := range all {
		all[at].number += round * b.options.Instances
	}
	return all
}

func (b *BothStorm) remainingPoints() (points []string) {
	for _, program := range b.programs() {
		points = append(points, program.counts().remainingPoints()...)
	}
	if b.options.CrashPoints != "" {
		_, _, ofCommands := b.commands.points()
		points = append(points, ofCommands...)
	}
	return points
}

// course lets the lives and the kills go on, waits until everything has converged, and compares at the end.
func (b *BothStorm) course(ctx context.Context) *Result {
	endUnruly := b.runUnruly(ctx)
	troubles := b.trouble(ctx)
	begun := b.capture.Now()
	c := &course{
		orders: b.commands, keys: b.keys, events: b.events, source: b.source, now: b.capture.Now, lives: b.lives,
		isQuiet: func() bool { return b.proxy.Pending() == 0 && (b.unruly == nil || b.unruly.isDone(ctx)) },
		time:    b.options.time(), settleTime: b.options.SettleTime,
		look: b.auditor.look, lookEach: lookEach / 2,
		isDone: func() bool {
			if b.options.Calm {
				return true
			}
			since := b.capture.Now() - begun
			if since < b.options.Time || len(b.auditor.list()) > 0 {
				return since >= b.options.Time
			}
			return b.options.Without != "" && since >= 2*b.options.Time || b.options.Without == "" && len(b.omissions()) == 0
		},
		endsWhenDone: !b.options.Calm, calm: func() { b.calm(ctx, troubles) },
	}
	found := &Result{Keys: b.keys}
	found.Converged, found.Took = c.run(ctx)
	endUnruly()
	b.compare(ctx, found)
	found.Exchanges, found.Events, found.Given = b.capture.Exchanges(), b.events.list(), b.source.Faults()
	hide := report.NewHider("platform", b.password, found.Exchanges)
	found.Broken, found.Unmet = judge(found.Exchanges, found.Differences, hide), b.source.Unmet()
	return found
}

// runUnruly starts the client that keeps no rules, if there is one, and returns what ends it.
func (b *BothStorm) runUnruly(ctx context.Context) (end func()) {
	if b.unruly == nil {
		return func() {}
	}
	ctx, cancel := context.WithCancel(ctx)
	ended := make(chan struct{})
	go func() {
		defer close(ended)
		b.unruly.run(ctx)
	}()
	return func() {
		cancel()
		<-ended
	}
}

// compare compares everything at the end, unless ctx is done: then only what was found before counts.
func (b *BothStorm) compare(ctx context.Context, found *Result) {
	isWhole := ctx.Err() == nil
	ctx = context.Background()
	if isWhole {
		if err := b.keyring.finish(ctx); err != nil {
			found.Failed = append(found.Failed, err.Error())
		}
	}
	ofAudit, err := b.auditor.end(ctx)
	if err != nil {
		found.Failed = append(found.Failed, err.Error())
	}
	found.Differences = append(append(found.Differences, b.keyring.list()...), ofAudit...)
	if !isWhole {
		found.Differences = found.Differences.Without(Stuck)
		return
	}
	records, err := b.commands.Records(ctx)
	if err != nil {
		found.Failed = append(found.Failed, err.Error())
		return
	}
	found.Differences = append(found.Differences, b.commands.missingDeeds(records)...)
	if found.Converged {
		b.comparePrinted(ctx, records)
	}
}

// comparePrinted compares what osb-platform prints with its records.
func (b *BothStorm) comparePrinted(ctx context.Context, records map[Key]Record) {
	listed, err := b.commands.ListStates(ctx)
	if err != nil {
		b.commands.note(err.Error())
	}
	shown := 0
	for key, record := range records {
		if listed[ofKey(key)] != string(record.State) {
			b.commands.note(fmt.Sprintf("osb-platform list prints %q for %s, which is %s", listed[ofKey(key)], ofKey(key), record.State))
			return
		}
		if shown++; shown > shownRows {
			continue
		}
		if state, err := b.commands.ShowState(ctx, key); err != nil || state != string(record.State) {
			b.commands.note(fmt.Sprintf("osb-platform show prints %q for %s, which is %s", state, ofKey(key), record.State))
		}
	}
	if len(listed) != len(records) {
		b.commands.note(fmt.Sprintf("osb-platform list prints %d rows, and there are %d", len(listed), len(records)))
	}
}

// shownRows is for how many rows the output of `show` is compared.
const shownRows = 3

// troubles are what goes on until the faults end: kills and pauses, and what the operator does besides the lives.
type troubles struct {
	cancel func()
	group  sync.WaitGroup
}

func (b *BothStorm) trouble(ctx context.Context) *troubles {
	ctx, cancel := context.WithCancel(ctx)
	t := &troubles{cancel: cancel}
	calls := []func(context.Context){b.keyring.run}
	if !b.options.Calm {
		calls = append(calls, b.meddle)
	}
	for _, program := range b.programs() {
		if b.isKilled(program) {
			calls = append(calls, program.run)
		} else {
			program.startCalmly()
		}
	}
	if b.storage.database != nil && !b.options.Calm {
		calls = append(calls, b.endSessions)
	}
	if b.storage.server != nil && !b.options.Calm {
		calls = append(calls, b.strike)
	}
	for _, call := range calls {
		call := call
		t.group.Add(1)
		go func() {
			defer t.group.Done()
			call(ctx)
		}()
	}
	return t
}

// calm ends the troubles, and starts all programs for the last time, unless ctx is done.
func (b *BothStorm) calm(ctx context.Context, t *troubles) {
	t.cancel()
	t.group.Wait()
	b.commands.kill(false)
	if ctx.Err() != nil {
		return
	}
	if b.unruly != nil {
		b.unruly.calm()
	}
	var killed []*victim
	for _, program := range b.programs() {
		if b.isKilled(program) {
			killed = append(killed, program)
		}
	}
	atOnce(killed, (*victim).startCalmly)
}

// endSessions ends a session with PostgreSQL every few seconds.
func (b *BothStorm) endSessions(ctx context.Context) {
	chance := fault.Chance(b.options.Seed, "sessions")
	for fault.Sleep(ctx, between(chance, 500*time.Millisecond, 3*time.Second)) {
		if isEnded, err := b.storage.database.EndSession(ctx); err == nil && isEnded {
			b.events.add(Key{}, "osb-storm", "ends a session with PostgreSQL")
		}
	}
}

func between(chance *rand.Rand, least, most time.Duration) time.Duration {
	return least + time.Duration(chance.Float64()*float64(most-least))
}

// strike kills PostgreSQL as often as the options say, and starts it again after some seconds. It pauses it as
// often, for longer than a request lasts.
func (b *BothStorm) strike(ctx context.Context) {
	begun, chance, count := time.Now(), fault.Chance(b.options.Seed, "database"), b.options.KillDatabase
	at := func(number int, least, most float64) time.Duration {
		share := (float64(number) + least + chance.Float64()*(most-least)) / float64(count)
		return time.Duration(share*float64(b.options.Time)) - time.Since(begun)
	}
	for number := 0; number < count; number++ {
		if !fault.Sleep(ctx, at(number, 0.3, 0.4)) {
			return
		}
		b.events.add(Key{}, "osb-storm", "kills PostgreSQL")
		if err := b.storage.server.Kill(ctx, between(chance, time.Second, 4*time.Second)); err != nil {
			b.commands.note(err.Error())
			return
		}
		b.events.add(Key{}, "osb-storm", "has started PostgreSQL again")
		if !fault.Sleep(ctx, at(number, 0.7, 0.8)) {
			return
		}
		rest := between(chance, usualTimes().pause[0], usualTimes().pause[1])
		b.events.add(Key{}, "osb-storm", fmt.Sprintf("pauses PostgreSQL for %.1f s", rest.Seconds()))
		b.storage.server.Pause(ctx, rest)
	}
}

// meddleEach is the time between two turns of what the operator does besides the lives.
const meddleEach = 300 * time.Millisecond

// The share of the records in a state that are removed, retried or abandoned at each turn.
var (
	isRemoved = map[platform.State]float64{
		platform.Ready: 0.01, platform.Polling: 0.02, platform.Unsettled: 0.1, platform.Wanted: 0.02, platform.Ordered: 0.02,
	}
	isRetried = map[platform.State]float64{
		platform.Polling: 0.01, platform.Cleaning: 0.02, platform.CleaningPolling: 0.02,
	}
	isAbandoned = map[platform.State]float64{platform.Cleaning: 0.005, platform.CleaningPolling: 0.005}
)

func (b *BothStorm) meddle(ctx context.Context) {
	chance := fault.Chance(b.options.Seed, "operator")
	for fault.Sleep(ctx, meddleEach) {
		records, err := b.commands.Records(ctx)
		if err != nil {
			continue
		}
		for _, key := range sortedKeys(records) {
			b.meddleWith(ctx, chance, key, records[key])
		}
		b.bindOne(ctx, chance, records)
	}
}

// bindOne now and then creates a binding of an instance that is ready: half as many as there are instances.
func (b *BothStorm) bindOne(ctx context.Context, chance *rand.Rand, records map[Key]Record) {
	if chance.Float64() > float64(b.options.Instances)/2*float64(meddleEach)/float64(b.options.Time) {
		return
	}
	var ready []Key
	for _, key := range sortedKeys(records) {
		if key.Binding == "" && records[key].State == audit.Ready {
			ready = append(ready, key)
		}
	}
	if len(ready) == 0 {
		return
	}
	operator := &operator{events: b.events}
	key := b.keys.binding(ready[chance.Intn(len(ready))])
	operator.do(ctx, key, "creates the binding", func() error { return b.commands.Bind(ctx, key) })
}

// meddleWith does one of these things with a record, or nothing. One instance in eight stays, so that some are left at
// the end.
func (b *BothStorm) meddleWith(ctx context.Context, chance *rand.Rand, key Key, record Record) {
	do := func(what string, call func() error) {
		operator := &operator{events: b.events}
		operator.do(ctx, key, what, call)
	}
	subject, _ := b.keys.SubjectOrNew(key.Instance, key.Binding)
	removed, retried, abandoned := chance.Float64(), chance.Float64(), chance.Float64()
	switch {
	case removed < isRemoved[record.State] && (subject.Instance+subject.Binding)%8 != 0:
		withBindings := chance.Float64() < 0.7
		do("removes it", func() error { return b.commands.Remove(ctx, key, withBindings && key.Binding == "") })
	case retried < isRetried[record.State]:
		do("retries it", func() error { return b.commands.Retry(ctx, key) })
	case key.Binding == "" && abandoned < isAbandoned[record.State]:
		do("abandons it", func() error { return b.commands.Abandon(ctx, key) })
	}
}

// leastCompared is how many records of each kind a storm compares at least.
const leastCompared = 20

// omissions returns what has to happen in every storm that isn't calm, and hasn't yet, or too seldom.
func (b *BothStorm) omissions() (all []string) {
	if b.options.Calm {
		return nil
	}
	compared := b.auditor.counts()
	for _, kind := range comparedKinds {
		if compared[kind.name] < leastCompared {
			all = append(all, fmt.Sprintf("%s were compared %s", kind.name, times(compared[kind.name])))
		}
	}
	all = append(all, b.unmetFaults()...)
	if b.unruly != nil && len(b.unruly.all()) == 0 {
		all = append(all, "the client that keeps no rules has created no binding")
	}
	for _, program := range b.programs() {
		if its := program.counts(); b.isKilled(program) && (its.kills < 2 || its.pauses < 1) {
			all = append(all, fmt.Sprintf("the %s was killed %s and paused %s", program, times(its.kills), times(its.pauses)))
		}
	}
	if b.storage.server != nil {
		if kills, pauses := b.storage.server.Counts(); kills < b.options.KillDatabase || pauses < b.options.KillDatabase {
			all = append(all, fmt.Sprintf("PostgreSQL was killed %s and paused %s", times(kills), times(pauses)))
		}
	}
	if b.options.CrashPoints == AllPoints {
		if points := b.remainingPoints(); len(points) > 0 {
			all = append(all, "crash points that weren't visited: "+strings.Join(points, ", "))
		}
	}
	return all
}

func (b *BothStorm) unmetFaults() (all []string) {
	if b.options.List != nil || b.options.Share == 0 {
		return nil
	}
	met := map[fault.Kind]bool{}
	for _, injection := range b.source.Faults() {
		met[injection.Kind] = true
	}
	for _, weight := range fault.StandardWeights(false) {
		if !met[weight.Kind] {
			all = append(all, fmt.Sprintf("no request had the fault %s", weight.Kind))
		}
	}
	return all
}

func shuffle(chance *rand.Rand, all []string) []string {
	chance.Shuffle(len(all), func(one, other int) { all[one], all[other] = all[other], all[one] })
	return all
}
