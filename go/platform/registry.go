package platform

import (
	"bytes"
	"context"
	"encoding/json"
	"errors"
	"fmt"
	"net/http"
	"reflect"
	"sort"
	"sync"
	"time"
)

// The times between two requests for a catalogue that couldn't be fetched.
const (
	firstAsking   = 100 * time.Millisecond
	longestAsking = 5 * time.Second
)

// A registry has the brokers of a Store, as a run knows them. It asks each for its catalogue before anything is sent to
// the broker. So a broker that is down, and a wrong password, cost no order.
type registry struct {
	*Engine
	ctx     context.Context // of all that is asked
	stop    context.CancelFunc
	group   *sync.WaitGroup // of all goroutines
	changed chan struct{}   // has a value once a broker was reached

	mu     sync.Mutex
	byName map[string]*knownBroker
}

// A knownBroker is a broker of a registry. It is reached if it has a catalogue.
type knownBroker struct {
	broker    Broker
	catalogue *Catalogue
	reason    error              // why there is no catalogue, or nil
	cancel    context.CancelFunc // ends the goroutine that asks for the catalogue, now and later
}

func newRegistry(ctx context.Context, e *Engine, group *sync.WaitGroup) *registry {
	asking, stop := context.WithCancel(ctx)
	return &registry{
		Engine: e, ctx: asking, stop: stop, group: group, changed: make(chan struct{}, 1), byName: map[string]*knownBroker{},
	}
}

// watch notices brokers that are added, changed or dropped, until stop.
func (r *registry) watch() {
	r.group.Add(1)
	go func() {
		defer r.group.Done()
		for {
			brokers, err := r.store.Brokers(r.ctx)
			if !r.health.read(err) {
				r.refresh(brokers)
			}
			if !sleep(r.ctx, r.Look) {
				return
			}
		}
	}()
}

// refresh takes in which brokers there are. One that is new, or that is asked in another way, is asked for its
// catalogue.
func (r *registry) refresh(brokers []Broker) {
	r.mu.Lock()
	defer r.mu.Unlock()
	dropped := map[string]bool{}
	for name := range r.byName {
		dropped[name] = true
	}
	for _, broker := range brokers {
		delete(dropped, broker.Name)
		have := r.byName[broker.Name]
		if have != nil && isAskedAlike(have.broker, broker) {
			continue
		}
		if have != nil {
			have.cancel()
		}
		r.byName[broker.Name] = &knownBroker{broker: broker}
		r.ask(r.ctx, r.byName[broker.Name], r.group, r.Catalogues)
	}
	for name := range dropped {
		r.byName[name].cancel()
		delete(r.byName, name)
	}
}

// isAskedAlike reports whether two versions of a broker have the same address, login and settings.
func isAskedAlike(one, other Broker) bool {
	for _, broker := range []*Broker{&one, &other} {
		broker.Catalogue, broker.CatalogueAt, broker.Reason = nil, time.Time{}, Reason{}
		if len(broker.Password) == 0 {
			broker.Password = nil
		}
	}
	return reflect.DeepEqual(one, other)
}

// ask has a goroutine ask a broker for its catalogue until it is answered, and again and again after every so long. If
// every is 0, one answer is enough, also one that refuses the platform. The goroutine ends once ctx is done, or
// the broker's cancel is called.
func (r *registry) ask(ctx context.Context, known *knownBroker, group *sync.WaitGroup, every time.Duration) {
	asking, cancel := context.WithCancel(ctx)
	known.cancel = cancel
	group.Add(1)
	go func() {
		defer group.Done()
		defer cancel()
		for r.askOnce(asking, known, every == 0) && every > 0 && sleep(asking, every) {
		}
	}()
}

// askOnce asks a broker for its catalogue until it is answered. It returns false if ctx is done before, or if the
// broker refuses the platform and that ends it. Until then the last catalogue counts.
func (r *registry) askOnce(ctx context.Context, known *knownBroker, refusalEnds bool) bool {
	for rest := firstAsking; ; rest = longerRest(rest) {
		broker := r.brokerOf(known)
		catalogue, status, err := r.catalogue(ctx, broker)
		if err == nil {
			r.reach(ctx, known, catalogue)
			return true
		}
		if ctx.Err() == nil {
			r.miss(known, err)
			r.once.hasFailed(eventOf(err), broker.Name, err)
		}
		if refusalEnds && refusesPlatform(status) {
			return false
		}
		if !sleep(ctx, rest) {
			return false
		}
	}
}

// longerRest is the rest after this one: twice as long, up to longestAsking.
func longerRest(rest time.Duration) time.Duration {
	if rest > longestAsking/2 {
		return longestAsking
	}
	return 2 * rest
}

// eventOf is the event of a catalogue that couldn't be fetched.
func eventOf(err error) string {
	if errors.Is(err, ErrOtherStore) {
		return "other_store"
	}
	return "broker_unreached"
}

// refusesPlatform reports whether no waiting mends what a broker has answered: that it refuses the user, the password,
// or the version of the API.
func refusesPlatform(status int) bool {
	return isRefusal(status) || status == http.StatusPreconditionFailed
}

// miss notes why the catalogue of a broker couldn't be fetched. If that is because the broker is over another store,
// nothing more is sent there.
func (r *registry) miss(known *knownBroker, reason error) {
	r.mu.Lock()
	defer r.mu.Unlock()
	if known.reason = reason; errors.Is(reason, ErrOtherStore) {
		known.catalogue = nil
	}
}

// brokerOf returns a broker as it is read in the Store. Its first catalogue says of which store it is.
func (r *registry) brokerOf(known *knownBroker) Broker {
	r.mu.Lock()
	defer r.mu.Unlock()
	return known.broker
}

// reach takes in that a broker has answered its catalogue, unless nobody asks for this answer any more.
func (r *registry) reach(ctx context.Context, known *knownBroker, catalogue *Catalogue) {
	r.mu.Lock()
	isOver, isNew := ctx.Err() != nil, known.catalogue == nil
	if !isOver {
		known.catalogue, known.reason, known.broker.Store = catalogue, nil, catalogue.Store
	}
	r.mu.Unlock()
	if isOver {
		return
	}
	for _, event := range []string{"broker_unreached", "other_store"} {
		r.once.hasFailed(event, known.broker.Name, nil)
	}
	if !isNew {
		return
	}
	r.observer.OnCatalogue(known.broker.Name)
	select {
	case r.changed <- struct{}{}:
	default:
	}
}

// catalogue asks for the catalogue once, and writes it, or why that failed, into the Store. status is the answer's, or
// 0.
func (r *registry) catalogue(ctx context.Context, broker Broker) (read *Catalogue, status int, err error) {
	limited, cancel := context.WithTimeout(ctx, r.Exchange)
	defer cancel()
	document, status, err := r.client.Catalogue(limited, broker)
	if err == nil {
		read, err = ReadCatalogue(document)
	}
	if err != nil {
		reason := Reason{Kind: "catalogue", Status: status, Lost: atMost(err.Error())}
		if written := r.keep(ctx, broker, nil, reason); written != nil && !errors.Is(written, errChanged) {
			r.health.brokerFailed(written)
		}
		return nil, status, err
	}
	return read, status, r.keep(ctx, broker, document, Reason{})
}

var errChanged = errors.New("the broker was changed or dropped meanwhile")

// keep writes a catalogue with the store that it names, or why it couldn't be fetched, unless the Store has the same.
// If the broker was changed or dropped meanwhile, nothing is written, and the error is errChanged.
func (r *registry) keep(ctx context.Context, asked Broker, document json.RawMessage, reason Reason) error {
	now, err := timeOf(ctx, r.store)
	if err != nil {
		return err
	}
	err = r.store.ChangeBroker(ctx, asked.Name, func(broker Broker) (*Broker, error) {
		if !isAskedAlike(broker, asked) {
			return nil, errChanged
		}
		before := broker.Reason
		before.At = time.Time{}
		store := StoreOf(document)
		isKept := document == nil || broker.Store == store && isSameJSON(broker.Catalogue, document)
		if before == reason && isKept {
			return nil, nil
		}
		if broker.Reason = reason; document == nil {
			broker.Reason.At = now
		}
		if !isKept {
			broker.Catalogue, broker.CatalogueAt, broker.Store = document, now, store
		}
		return &broker, nil
	})
	if errors.Is(err, ErrUnknown) {
		return errChanged
	}
	return err
}

// timeOf is the time of a Store.
func timeOf(ctx context.Context, store Store) (time.Time, error) {
	_, now, err := store.NextDue(ctx, nil)
	return now, err
}

// isSameJSON reports whether two texts are the same JSON, in whatever form a database returns it.
func isSameJSON(one, other json.RawMessage) bool {
	if bytes.Equal(one, other) {
		return true
	}
	var first, second any
	if json.Unmarshal(one, &first) != nil || json.Unmarshal(other, &second) != nil {
		return false
	}
	return reflect.DeepEqual(first, second)
}

// lose has a broker asked for its catalogue again before anything more is sent, since it refuses the user or the
// password, or can't be reached. event says which. So an outage of a broker costs the orders that are in flight, and no
// other.
func (r *registry) lose(asked Broker, event string, reason error) {
	err := fmt.Errorf("%w: nothing more is sent until it answers its catalogue", reason)
	r.mu.Lock()
	known := r.byName[asked.Name]
	isLost := known != nil && known.catalogue != nil && isAskedAlike(known.broker, asked) && r.ctx.Err() == nil
	if isLost {
		known.cancel()
		known.catalogue, known.reason = nil, err
		r.ask(r.ctx, known, r.group, r.Catalogues)
	}
	r.mu.Unlock()
	if isLost {
		r.observer.OnFailure(Failure{Event: event, Broker: asked.Name, Err: err})
	}
}

// names returns the names of the brokers that are reached, and how many brokers there are.
func (r *registry) names() (names []string, count int) {
	r.mu.Lock()
	defer r.mu.Unlock()
	for name, known := range r.byName {
		if known.catalogue != nil {
			names = append(names, name)
		}
	}
	sort.Strings(names)
	return names, len(r.byName)
}

// reachAll asks each broker for its catalogue, for as long as an exchange may last, or until the broker refuses the
// platform.
func (r *registry) reachAll() error {
	brokers, err := r.store.Brokers(r.ctx)
	if err != nil {
		return err
	}
	limited, cancel := context.WithTimeout(r.ctx, r.Exchange)
	defer cancel()
	var group sync.WaitGroup
	r.mu.Lock()
	for _, broker := range brokers {
		r.byName[broker.Name] = &knownBroker{broker: broker}
		r.ask(limited, r.byName[broker.Name], &group, 0)
	}
	r.mu.Unlock()
	group.Wait()
	return r.ctx.Err()
}

// unreachedBrokers are the brokers that aren't reached, each with its name and why.
func (r *registry) unreachedBrokers() (found []string) {
	r.mu.Lock()
	defer r.mu.Unlock()
	for name, known := range r.byName {
		switch {
		case known.catalogue != nil:
		case known.reason != nil:
			found = append(found, fmt.Sprintf("%s: %s", name, atMost(known.reason.Error())))
		default:
			found = append(found, name)
		}
	}
	sort.Strings(found)
	return found
}

// decide decides on a row by the terms of its broker. It returns nil if the broker isn't reached any more: the row
// stays.
func (r *registry) decide(now time.Time, snapshot Snapshot) (*decision, error) {
	r.mu.Lock()
	known := r.byName[snapshot.Broker]
	if known == nil || known.catalogue == nil {
		r.mu.Unlock()
		return nil, nil
	}
	broker, catalogue := known.broker, known.catalogue
	r.mu.Unlock()
	t := r.terms(broker, catalogue, snapshot.Entry)
	allGone := false
	if needsAllGone(snapshot.Entry, t) {
		var err error
		if allGone, err = snapshot.AllGone(); err != nil {
			return nil, err
		}
	}
	made := decide(now, snapshot, allGone, t)
	if made.send != nil {
		made.send.out.Broker = broker
	}
	return &made, nil
}

// terms are those of a row.
func (r *registry) terms(broker Broker, catalogue *Catalogue, e Entry) terms {
	settings := broker.Settings
	service, plan := catalogue.plan(e.Service, e.Plan)
	t := terms{
		pace: pace{
			first: or(settings.FirstPace, r.FirstPace), longest: or(settings.LongestPace, r.LongestPace),
			share: r.Share,
		},
		worker: r.Worker, exchange: r.Exchange, margin: r.Margin,
		longestPoll: r.LongestPoll, hold: r.Hold,
		removesUnsettled: r.Unsettled == RemoveUnsettled,
		isRetrievable:    service != nil && service.IsRetrievable,
		newID:            r.newID,
	}
	if plan != nil && plan.LongestPoll > 0 {
		t.longestPoll = plan.LongestPoll
	}
	if catalogue.HasTombstones {
		t.hold = 0
	}
	t.longestPoll, t.hold = or(settings.LongestPoll, t.longestPoll), or(settings.Hold, t.hold)
	return t
}

// or is what is set, or what else counts.
func or(set *time.Duration, standby time.Duration) time.Duration {
	if set != nil {
		return *set
	}
	return standby
}
