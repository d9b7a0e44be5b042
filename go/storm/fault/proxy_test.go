package fault

import (
	"bufio"
	"context"
	"errors"
	"io"
	"net"
	"net/http"
	"net/http/httptest"
	"net/url"
	"strings"
	"sync"
	"testing"
	"time"

	"pippinterm/internal/diff"
)

const (
	requestTime = 200 * time.Millisecond
	late        = 500 * time.Millisecond
	path        = "/v2/service_instances/ours"
)

// A countingBroker counts the requests that have arrived whole.
type countingBroker struct {
	mutex   sync.Mutex
	bodies  []string
	broken  int // requests whose body was cut
	hangUps int // requests whose connection was cut before the answer
	times   []time.Time
	paths   []string
	pause   time.Duration // before an answer
}

func (c *countingBroker) ServeHTTP(w http.ResponseWriter, r *http.Request) {
	body, err := io.ReadAll(r.Body)
	c.mutex.Lock()
	if err != nil {
		c.broken++
	} else {
		c.bodies = append(c.bodies, string(body))
		c.times, c.paths = append(c.times, time.Now()), append(c.paths, r.URL.RequestURI())
	}
	c.mutex.Unlock()
	select {
	case <-time.After(c.pause):
	case <-r.Context().Done():
		c.mutex.Lock()
		c.hangUps++
		c.mutex.Unlock()
		return
	}
	w.Header().Set("Content-Type", "application/json")
	w.WriteHeader(http.StatusCreated)
	_, _ = io.WriteString(w, `{"operation": "one"}`)
}

func (c *countingBroker) counts() (whole, broken, hangUps int) {
	c.mutex.Lock()
	defer c.mutex.Unlock()
	return len(c.bodies), c.broken, c.hangUps
}

// between returns a Proxy before a broker, with one fault for the first request.
func between(t *testing.T, broker *countingBroker, kind Kind, change func(*Options)) *Proxy {
	t.Helper()
	server := httptest.NewServer(broker)
	t.Cleanup(server.Close)
	at := diff.Value(url.Parse(server.URL))(t)
	options := Options{
		Broker: at, Capture: NewCapture(), Source: ByList(1, []Injection{{Number{Subject{1, 0}, 1}, kind}}),
		RequestTime: requestTime, Late: late, AnswerTime: 5 * time.Second, Catalogue: []byte(`{"services": []}`),
		Subject: func(instance, _ string) (Subject, bool) { return Subject{1, 0}, instance == "ours" },
	}
	if change != nil {
		change(&options)
	}
	p := diff.Value(Listen(options))(t)
	t.Cleanup(p.Close)
	return p
}

// A result is what the platform gets, and how long that took.
type result struct {
	status int
	body   string
	err    error
	took   time.Duration
}

// put waits for the answer as long as a busy machine may need.
func put(p *Proxy, path string) result { return putWithin(p, path, 25*requestTime) }

// putOf waits no longer than the proxy thinks if the fault is that the answer is too late, or missing.
func putOf(p *Proxy, kind Kind) result {
	switch kind {
	case RequestSwallowed, RequestLate, RepeatedUnread, AnswerLate:
		return putWithin(p, path, requestTime)
	default:
		return put(p, path)
	}
}

func putWithin(p *Proxy, path string, limit time.Duration) result {
	ctx, cancel := context.WithTimeout(context.Background(), limit)
	defer cancel()
	begun := time.Now()
	sent, err := http.NewRequestWithContext(ctx, http.MethodPut, p.URL()+path, strings.NewReader(`{"plan_id": "a"}`))
	if err != nil {
		return result{err: err}
	}
	client := &http.Client{Transport: &http.Transport{DisableKeepAlives: true}}
	answer, err := client.Do(sent)
	if err != nil {
		return result{err: err, took: time.Since(begun)}
	}
	defer answer.Body.Close()
	body, err := io.ReadAll(answer.Body)
	return result{answer.StatusCode, string(body), err, time.Since(begun)}
}

func (r result) isLate() bool { return errors.Is(r.err, context.DeadlineExceeded) }
func (r result) isCut() bool  { return r.err != nil && !r.isLate() }

// Each fault does what its name says: to the broker, and to the platform.
func TestKinds(t *testing.T) {
	answered := func(r result) bool { return r.err == nil && r.status == 201 && r.body == `{"operation": "one"}` }
	html := func(statuses ...int) func(result) bool {
		return func(r result) bool {
			for _, status := range statuses {
				if r.err == nil && r.status == status && r.body == "<html></html>" {
					return true
				}
			}
			return false
		}
	}
	slow := func(r result) bool { return answered(r) || r.err != nil } // the pauses may be longer than a request
	for _, test := range []struct {
		kind          Kind
		whole, broken int // whole requests when the platform has what it gets, if known, and cut ones in the end
		later         int // whole requests in the end
		gets          func(result) bool
	}{
		{None, 1, 0, 1, answered},
		{RequestLost, 0, 0, 0, result.isCut},
		{RequestSwallowed, 0, 0, 0, result.isLate},
		{RequestLate, 0, 0, 1, result.isLate},
		{RequestCut, 0, 1, 0, result.isCut},
		{RequestGarbled, -1, 0, 1, result.isCut},
		{RequestSlow, -1, 0, 1, slow},
		{Repeated, 2, 0, 2, answered},
		{RepeatedLate, 1, 0, 2, answered},
		{RepeatedUnread, 2, 0, 2, result.isLate},
		{HangUp, -1, 0, 1, result.isCut},
		{AnswerLost, 1, 0, 1, result.isCut},
		{AnswerLate, 1, 0, 1, result.isLate},
		{AnswerSlow, 1, 0, 1, slow},
		{AnswerGarbled, 1, 0, 1, func(r result) bool { return r.err == nil && r.status == 201 && r.body[0] == 0 }},
		{AnswerBodyCut, 1, 0, 1, func(r result) bool { return r.status == 201 && r.body == `{"operatio` && r.err != nil }},
		{AnswerHeadCut, 1, 0, 1, result.isCut},
		{GatewayBefore, 0, 0, 0, html(502, 503, 504)},
		{GatewayAfter, 1, 0, 1, html(502, 503, 504)},
		{PageAfter, 1, 0, 1, html(404, 429)},
	} {
		test := test
		t.Run(string(test.kind), func(t *testing.T) {
			t.Parallel()
			broker := &countingBroker{}
			p := between(t, broker, test.kind, nil)
			r := putOf(p, test.kind)
			diff.Equal(t, test.gets(r), true, "the platform gets what the fault gives: %+v", r)
			if whole, _, _ := broker.counts(); test.whole >= 0 && whole != test.whole {
				t.Errorf("the broker: got %d requests, want %d", whole, test.whole)
			}
			until(t, func() bool { return p.Pending() == 0 })
			until(t, func() bool {
				whole, broken, _ := broker.counts()
				return whole == test.later && broken == test.broken
			})
			all := p.Capture.Exchanges()
			if len(all) != 1 || all[0].Fault != test.kind || all[0].Number.String() != "1.1" || all[0].Receipt.Words == "" {
				t.Fatalf("the capture: got %+v, want the fault of 1.1", all)
			}
			again := put(p, path)
			diff.Equal(t, answered(again), true, "the next request is answered: %+v", again)
		})
	}
}

func until(t *testing.T, is func() bool) {
	t.Helper()
	for end := time.Now().Add(time.Minute); !is(); time.Sleep(5 * time.Millisecond) {
		if time.Now().After(end) {
			t.Fatal("got nothing in time, want it")
		}
	}
}

// startLong starts a Proxy whose first request has a fault with a long time, and its share of the longest one.
func startLong(t *testing.T, broker *countingBroker, kind Kind) (p *Proxy, share float64) {
	t.Helper()
	seed := int64(0)
	for ; share < 0.7; seed++ {
		share = ByList(seed+1, nil).Next(Subject{Instance: 1}).Share
	}
	return between(t, broker, kind, func(c *Options) {
		c.Source = ByList(seed, []Injection{{Number{Subject{1, 0}, 1}, kind}})
	}), share
}

// What is slow takes as long as the number of the request says. Nothing else is slow, but for what a busy machine does:
// that is tried again.
func TestSlow(t *testing.T) {
	for _, kind := range []Kind{RequestSlow, AnswerSlow, None} {
		t.Run(string(kind), func(t *testing.T) {
			for end := time.Now().Add(time.Minute); ; {
				request, answer := slowParts(t, kind)
				if kind == RequestSlow && !request || kind == AnswerSlow && !answer {
					t.Fatalf("slow: got %v for the request and %v for the answer, want it slow", request, answer)
				}
				if request == (kind == RequestSlow) && answer == (kind == AnswerSlow) {
					return
				}
				if time.Now().After(end) {
					t.Fatalf("slow each time: got %v for the request and %v for the answer, want other times", request, answer)
				}
			}
		})
	}
}

// slowParts reports whether the request and the answer took as long as those that are slow.
func slowParts(t *testing.T, kind Kind) (request, answer bool) {
	t.Helper()
	p, share := startLong(t, &countingBroker{}, kind)
	put(p, path)
	until(t, func() bool { return p.Pending() == 0 })
	x := p.Capture.Exchanges()[0]
	delivery := x.Deliveries[0]
	least := time.Duration(share * float64(time.Second))
	return delivery.Ended-delivery.Begun >= least*9/10, x.Ended-delivery.Ended >= requestTime/2*9/10
}

// A copy that is late arrives after the platform has timed out, and within the bound. If it arrives later, a busy
// machine may be the cause: that is tried again.
func TestLateWithinBound(t *testing.T) {
	const bound = late + 100*time.Millisecond
	for _, kind := range []Kind{RequestLate, RepeatedLate} {
		t.Run(string(kind), func(t *testing.T) {
			last := bound + 1
			for end := time.Now().Add(time.Minute); last > bound && time.Now().Before(end); {
				broker := &countingBroker{}
				p, _ := startLong(t, broker, kind)
				begun := time.Now()
				putOf(p, kind)
				until(t, func() bool { return p.Pending() == 0 })
				last = broker.times[len(broker.times)-1].Sub(begun)
			}
			if last < requestTime || last > bound {
				t.Errorf("%s: got the copy after %v, want it after %v to %v", kind, last, requestTime, bound)
			}
		})
	}
}

// The broker sees that the connection is cut before its answer, and only then.
func TestHangUp(t *testing.T) {
	for kind, wanted := range map[Kind]int{HangUp: 1, AnswerLost: 0} {
		t.Run(string(kind), func(t *testing.T) {
			broker := &countingBroker{pause: 100 * time.Millisecond}
			p := between(t, broker, kind, nil)
			put(p, path)
			until(t, func() bool { _, _, hangUps := broker.counts(); return hangUps >= wanted })
			time.Sleep(200 * time.Millisecond)
			_, _, hangUps := broker.counts()
			diff.Equal(t, hangUps, wanted, "%s: connections that were cut", kind)
		})
	}
}

// A request that is garbled is no JSON at the broker.
func TestGarbledRequest(t *testing.T) {
	broker := &countingBroker{}
	p := between(t, broker, RequestGarbled, nil)
	put(p, path)
	until(t, func() bool { whole, _, _ := broker.counts(); return whole == 1 })
	diff.Equal(t, broker.bodies[0], "\x00\"plan_id\": \"a\"}", "the broker")
}

// A restart is run while the broker has the request, or once the platform has its answer.
func TestRestarts(t *testing.T) {
	for _, kind := range []Kind{RestartDuring, RestartAfter} {
		t.Run(string(kind), func(t *testing.T) {
			broker := &countingBroker{pause: time.Second}
			var at time.Time
			p := between(t, broker, kind, func(c *Options) {
				c.RequestTime = 20 * time.Second
				c.Restart = func(context.Context) error { at = time.Now(); return errors.New("broken") }
				c.Failed = func(err error) { diff.Equal(t, err.Error(), "broken", "the failure of the restart") }
			})
			begun := time.Now()
			r := putWithin(p, path, 20*time.Second)
			until(t, func() bool { return p.Pending() == 0 })
			if isDuring := at.Sub(begun) < broker.pause; isDuring != (kind == RestartDuring) || r.status != 201 {
				t.Errorf("%s: got a restart after %v and %+v at the platform, want 201, and the restart in time", kind,
					at.Sub(begun), r)
			}
			diff.Equal(t, p.Restarts(), 1, "%s: restarts", kind)
		})
	}
}

// What isn't of the run doesn't reach the broker, and the catalogue is that of the Options.
func TestOthersUntouched(t *testing.T) {
	broker := &countingBroker{}
	p := between(t, broker, None, nil)
	for _, path := range []string{"/v2/service_instances/theirs", "/v2/service_instances/", "/v2/x", "/"} {
		t.Run(path, func(t *testing.T) {
			r := put(p, path)
			diff.Equal(t, r.status, 502, "%s: the status in %+v", path, r)
		})
	}
	diff.Equal(t, put(p, "/v2/catalog").body, `{"services": []}`, "the catalogue")
	if whole, broken, _ := broker.counts(); whole+broken > 0 {
		t.Errorf("the broker: got %q, want nothing", broker.paths)
	}
}

// The path of the broker's URL is a prefix, and the query stays.
// Several brokers each get some of the requests, with a subject and without one. A copy may reach another broker.
func TestSeveralBrokers(t *testing.T) {
	one, other := &countingBroker{}, &countingBroker{}
	p := between(t, one, None, func(c *Options) {
		server := httptest.NewServer(other)
		t.Cleanup(server.Close)
		at := diff.Value(url.Parse(server.URL))(t)
		c.Others, c.ForwardsOthers = []*url.URL{at}, true
		c.Source = BySeed(1, 1, Weights{{Repeated, 1}})
	})
	counts := func() [2]int {
		ofOne, _, _ := one.counts()
		ofOther, _, _ := other.counts()
		return [2]int{ofOne, ofOther}
	}
	for request := 0; request < 8; request++ {
		put(p, path)
	}
	if c := counts(); c[0] < 3 || c[1] < 3 || c[0]+c[1] != 16 || c[0]%2 == 0 {
		t.Errorf("got %v of 8 requests that were repeated, want at least 3 of each, 16 in all", c)
	}
	before := counts()
	for request := 0; request < 4; request++ {
		put(p, "/v2/service_instances/theirs")
	}
	if c := counts(); c[0]-before[0] != 2 || c[1]-before[1] != 2 {
		t.Errorf("got %v of 4 requests without a subject, want 2 more of each", c)
	}
}

func TestPrefix(t *testing.T) {
	broker := &countingBroker{}
	p := between(t, broker, None, func(c *Options) { c.Broker.Path = "/postgres/" })
	put(p, path+"?service_id=s&operation=a%2Fb")
	diff.Equal(t, broker.paths[0], "/postgres"+path+"?service_id=s&operation=a%2Fb", "the path at the broker")
}

// Close drops what is late, and waits for what the broker has.
func TestClose(t *testing.T) {
	broker := &countingBroker{pause: 200 * time.Millisecond}
	p := between(t, broker, RequestLate, func(c *Options) { c.Late = time.Hour; c.RequestTime = time.Hour })
	put(p, path)
	go put(p, path)
	until(t, func() bool { whole, _, _ := broker.counts(); return whole == 1 })
	p.Close()
	all := p.Capture.Exchanges()
	if last := all[len(all)-1].Deliveries; len(all) != 2 || len(all[0].Deliveries) != 0 || last[0].Status != 201 {
		t.Errorf("the capture: got %+v, want the answer of the second", all)
	}
}

// The capture has what the platform got: which status, and whether all of the answer arrived.
func TestReceipts(t *testing.T) {
	const whole = `{"operation": "one"}`
	for kind, wanted := range map[Kind]Receipt{
		None:          {Status: 201, Body: []byte(whole), IsWhole: true},
		Repeated:      {Status: 201, Body: []byte(whole), IsWhole: true},
		RequestLost:   {},
		RequestLate:   {},
		AnswerLost:    {},
		AnswerLate:    {},
		HangUp:        {},
		AnswerHeadCut: {},
		AnswerBodyCut: {Status: 201, Body: []byte(`{"operatio`)},
		AnswerGarbled: {Status: 201, Body: []byte("\x00" + whole[1:]), IsWhole: true},
	} {
		kind, wanted := kind, wanted
		t.Run(string(kind), func(t *testing.T) {
			t.Parallel()
			p := between(t, &countingBroker{}, kind, nil)
			putOf(p, kind)
			until(t, func() bool { return p.Pending() == 0 })
			got := p.Capture.Exchanges()[0].Receipt
			got.Words = ""
			diff.Check(t, got, wanted, "what the platform got")
		})
	}
}

// With ForwardsOthers, the broker gets the other requests and those for the catalogue, without faults. The capture has
// their headers without the login.
func TestForwardsOthers(t *testing.T) {
	broker := &countingBroker{}
	p := between(t, broker, None, func(c *Options) {
		c.ForwardsOthers, c.Source = true, BySeed(1, 1, Weights{{RequestLost, 1}})
	})
	others := []string{"/v2/service_instances/theirs", "/v2/x", "/v2/catalog"}
	for _, path := range others {
		sent := diff.Value(http.NewRequest(http.MethodGet, p.URL()+path, nil))(t)
		sent.SetBasicAuth("platform", "secret")
		sent.Header.Set("X-Broker-Api-Version", "2.17")
		answer := diff.Value(http.DefaultTransport.RoundTrip(sent))(t)
		_ = answer.Body.Close()
	}
	diff.Error(t, put(p, path).err, "the request about an instance")
	wanted := strings.Join(others, " ")
	if whole, _, _ := broker.counts(); whole != len(others) || strings.Join(broker.paths, " ") != wanted {
		t.Errorf("the broker: got %q, want %q", broker.paths, wanted)
	}
	for _, x := range p.Capture.Exchanges()[:len(others)] {
		if x.Fault != None || x.Header.Get("Authorization") != "" || x.Header.Get("X-Broker-API-Version") != "2.17" {
			t.Errorf("got %+v, want no fault, no password and the version 2.17", x)
		}
	}
}

// A platform that waits for 100 Continue gets it, and then sends the body.
func TestExpectContinue(t *testing.T) {
	broker := &countingBroker{}
	p := between(t, broker, None, nil)
	connection := diff.Value(net.Dial("tcp", strings.TrimPrefix(p.URL(), "http://")))(t)
	defer connection.Close()
	_ = connection.SetDeadline(time.Now().Add(10 * time.Second))
	head := "PUT " + path + " HTTP/1.1\r\nHost: x\r\nExpect: 100-continue\r\nContent-Length: 2\r\n\r\n"
	diff.Value(io.WriteString(connection, head))(t)
	came := bufio.NewReader(connection)
	diff.Equal(t, diff.Value(came.ReadString('\n'))(t), "HTTP/1.1 100 Continue\r\n", "")
	diff.Equal(t, diff.Value(came.ReadString('\n'))(t), "\r\n", "")
	diff.Value(io.WriteString(connection, "{}"))(t)
	answer := diff.Value(http.ReadResponse(came, nil))(t)
	defer answer.Body.Close()
	if whole, _, _ := broker.counts(); whole != 1 || broker.bodies[0] != "{}" || answer.StatusCode != 201 {
		t.Errorf("got %d requests and the status %d, want 1 and 201", whole, answer.StatusCode)
	}
}

// A connection on which nothing has arrived isn't a request that may still reach the broker.
func TestSilentConnection(t *testing.T) {
	p := between(t, &countingBroker{}, None, nil)
	connection := diff.Value(net.Dial("tcp", strings.TrimPrefix(p.URL(), "http://")))(t)
	defer connection.Close()
	time.Sleep(50 * time.Millisecond)
	diff.Equal(t, p.Pending(), 0, "pending")
}
