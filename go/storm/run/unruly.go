package run

import (
	"context"
	"encoding/json"
	"io"
	"math/rand"
	"net/http"
	"net/url"
	"sort"
	"strings"
	"sync"
	"time"

	"pippinterm/platform"
	"pippinterm/storm/fault"
	"pippinterm/storm/run/audit"
	"pippinterm/storm/run/goods"
)

const (
	unrulyAtOnce   = 8
	unrulyEach     = 50 * time.Millisecond // between two looks at what is to be sent
	unrulyRequest  = 2 * time.Second
	unrulyPolls    = 5 // after an answer that says that work goes on
	unrulyPollEach = 200 * time.Millisecond
	unboundShare   = 0.02 // of what was bound, at each look
	unknownShare   = 0.05 // of the Binds: their instance was never ordered
)

// An unrulyClient is a client of bindings that keeps no rules, and no records. Only the broker's two rules keep an
// instance that isn't ready from having credentials, and one that has bindings from being deleted.
type unrulyClient struct {
	url, password string // where the broker is reached
	records       func(context.Context) (map[Key]Record, error)
	held          func(context.Context) (map[Key]audit.Row, error)
	newID         func() string
	perSecond     float64 // how many bindings it creates
	client        http.Client
	chance        *rand.Rand // of run alone

	guard
	isCalm  bool         // nothing is bound any more, and all that the broker holds is unbound
	bound   map[Key]bool // what a Bind was sent for
	sending map[Key]bool
}

// run sends Binds and Unbinds of any instance at any time, until ctx is done.
func (u *unrulyClient) run(ctx context.Context) {
	begun, group := time.Now(), sync.WaitGroup{}
	for fault.Sleep(ctx, unrulyEach) {
		records, err := u.records(ctx)
		if err != nil {
			continue
		}
		for _, request := range u.due(ctx, records, time.Since(begun)) {
			request := request
			group.Add(1)
			go func() {
				defer group.Done()
				u.send(ctx, request)
			}()
		}
	}
	group.Wait()
}

// A bindingRequest is a Bind or an Unbind to send.
type bindingRequest struct {
	method, plan string
	key          Key
}

// due returns what is to be sent now, and notes it.
func (u *unrulyClient) due(ctx context.Context, records map[Key]Record, since time.Duration) (all []bindingRequest) {
	unbound := u.toUnbind(ctx)
	u.mutex.Lock()
	defer u.mutex.Unlock()
	add := func(method string, key Key) {
		if u.sending[key] {
			return
		}
		u.sending[key] = true
		plan := goods.AtOnce
		if it, isKnown := records[key.InstanceKey()]; isKnown {
			plan = it.Plan.String()
		}
		all = append(all, bindingRequest{method, plan, key})
	}
	for _, key := range unbound {
		add(http.MethodDelete, key)
	}
	candidates := sentOf(records)
	for !u.isCalm && len(candidates) > 0 && len(u.sending) < unrulyAtOnce &&
		float64(len(u.bound)) < u.perSecond*since.Seconds() {
		key := Key{Instance: candidates[u.chance.Intn(len(candidates))], Binding: u.newID()}
		if u.chance.Float64() < unknownShare {
			key.Instance = u.newID()
		}
		u.bound[key] = true
		add(http.MethodPut, key)
	}
	return all
}

// sentOf returns the instances that may have reached the broker, and that aren't recorded gone.
func sentOf(records map[Key]Record) (ids []string) {
	for key, record := range records {
		isSent := record.State != platform.Ordered && record.State != platform.Withdrawn && record.State != audit.Gone
		if key.Binding == "" && isSent {
			ids = append(ids, key.Instance)
		}
	}
	sort.Strings(ids)
	return ids
}

// toUnbind returns some of what was bound, or in the calm what the broker holds of it.
func (u *unrulyClient) toUnbind(ctx context.Context) (keys []Key) {
	isCalm := false
	if u.hold(func() { isCalm = u.isCalm }); isCalm {
		keys, _ = u.heldKeys(ctx) // while the store is away, nothing is unbound
		return keys
	}
	for _, key := range sortedKeys(u.all()) {
		if u.chance.Float64() < unboundShare {
			keys = append(keys, key)
		}
	}
	return keys
}

// sortedKeys returns the keys of a map, in the order of the ids.
func sortedKeys[V any](of map[Key]V) (keys []Key) {
	for key := range of {
		keys = append(keys, key)
	}
	sort.Slice(keys, func(one, other int) bool { return keys[one].Less(keys[other]) })
	return keys
}

// heldKeys returns what the broker still holds of what was bound.
func (u *unrulyClient) heldKeys(ctx context.Context) (keys []Key, err error) {
	held, err := u.held(ctx)
	bound := u.all()
	for key, row := range held {
		if bound[key] && row.Holding.IsHeld() {
			keys = append(keys, key)
		}
	}
	return keys, err
}

func (u *unrulyClient) isDone(ctx context.Context) bool {
	keys, err := u.heldKeys(ctx)
	return err == nil && len(keys) == 0
}

// calm ends the Binds, and has all that the broker holds unbound.
func (u *unrulyClient) calm() { u.hold(func() { u.isCalm = true }) }

func (u *unrulyClient) all() map[Key]bool {
	u.mutex.Lock()
	defer u.mutex.Unlock()
	all := make(map[Key]bool, len(u.bound))
	for key := range u.bound {
		all[key] = true
	}
	return all
}

// send sends a request, and polls if work goes on: no creation begins before its first Poll.
func (u *unrulyClient) send(ctx context.Context, it bindingRequest) {
	defer u.hold(func() { delete(u.sending, it.key) })
	path := "/v2/service_instances/" + it.key.Instance + "/service_bindings/" + it.key.Binding
	query := url.Values{"accepts_incomplete": {"true"}, "service_id": {goods.Service}, "plan_id": {it.plan}}
	body := ""
	if it.method == http.MethodPut {
		text, err := json.Marshal(map[string]string{"service_id": goods.Service, "plan_id": it.plan})
		if err != nil {
			panic(err) // these values are JSON
		}
		body = string(text)
	}
	if u.ask(ctx, it.method, path+"?"+query.Encode(), body) != http.StatusAccepted {
		return
	}
	for poll := 0; poll < unrulyPolls && fault.Sleep(ctx, unrulyPollEach); poll++ {
		u.ask(ctx, http.MethodGet, path+"/last_operation", "")
	}
}

// ask returns the status of the answer, or 0 if none arrived.
func (u *unrulyClient) ask(ctx context.Context, method, target, body string) int {
	request, err := http.NewRequestWithContext(ctx, method, u.url+target, strings.NewReader(body))
	if err != nil {
		panic(err) // the target is one of ours
	}
	request.SetBasicAuth("platform", u.password)
	request.Header.Set("X-Broker-API-Version", "2.17")
	request.Header.Set("Content-Type", "application/json")
	request.Close = true
	answer, err := u.client.Do(request)
	if err != nil {
		return 0
	}
	defer answer.Body.Close()
	_, _ = io.Copy(io.Discard, answer.Body)
	return answer.StatusCode
}
