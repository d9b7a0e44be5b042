package health

import (
	"context"
	"errors"
	"net/http"
	"net/http/httptest"
	"sync"
	"testing"
	"time"

	"pippinterm/internal/diff"
	"pippinterm/internal/waits"
)

func ask(handler http.Handler, method, target string) *httptest.ResponseRecorder {
	answer := httptest.NewRecorder()
	handler.ServeHTTP(answer, httptest.NewRequest(method, target, nil))
	return answer
}

func always(status int) http.Handler {
	return http.HandlerFunc(func(w http.ResponseWriter, _ *http.Request) { w.WriteHeader(status) })
}

func failCheck(context.Context) error { return errors.New("connection refused") }

var next, scraped = always(http.StatusTeapot), always(http.StatusAccepted)

var answers = []struct {
	name           string
	options        Options
	isStopping     bool
	method, target string
	status         int
	body           string
}{
	{"alive", Options{}, false, "GET", "/healthz", 200, fine},
	{"alive by HEAD", Options{}, false, "HEAD", "/healthz", 200, fine},
	{"alive with a query", Options{}, false, "GET", "/healthz?a=b", 200, fine},
	{"alive and not ready", Options{Ready: failCheck}, false, "GET", "/healthz", 200, fine},
	{"alive by PUT", Options{}, false, "PUT", "/healthz", 405, notGet},
	{"alive and stopping", Options{}, true, "GET", "/healthz", 503, stopping},
	{"ready", Options{}, false, "GET", "/readyz", 200, fine},
	{"not ready", Options{Ready: failCheck}, false, "GET", "/readyz", 503, notReady},
	{"ready by DELETE", Options{}, false, "DELETE", "/readyz", 405, notGet},
	{"ready and stopping", Options{}, true, "GET", "/readyz", 503, stopping},
	{"metrics", Options{Metrics: scraped, Next: next}, false, "GET", "/metrics", 202, ""},
	{"metrics and stopping", Options{Metrics: scraped}, true, "GET", "/metrics", 202, ""},
	{"metrics by HEAD", Options{Metrics: scraped}, false, "HEAD", "/metrics", 202, ""},
	{"metrics by POST", Options{Metrics: scraped}, false, "POST", "/metrics", 405, notGet},
	{"metrics by OPTIONS", Options{Metrics: scraped}, false, "OPTIONS", "/metrics", 405, notGet},
	{"metrics by POST and stopping", Options{Metrics: scraped}, true, "POST", "/metrics", 405, notGet},
	{"no metrics by POST", Options{Next: next}, false, "POST", "/metrics", 418, ""},
	{"no metrics", Options{Next: next}, false, "GET", "/metrics", 418, ""},
	{"another path", Options{Next: next, Metrics: scraped}, false, "PUT", "/v2/catalog", 418, ""},
	{"below", Options{Next: next}, false, "GET", "/healthz/", 418, ""},
	{"no next", Options{}, false, "GET", "/v2/catalog", 404, "404 page not found\n"},
}

func TestAnswers(t *testing.T) {
	for _, test := range answers {
		t.Run(test.name, func(t *testing.T) {
			handler := New(context.Background(), test.options)
			if test.isStopping {
				handler.Stop()
			}
			answer := ask(handler, test.method, test.target)
			diff.Equal(t, answer.Code, test.status, "%q", answer.Body)
			diff.Equal(t, answer.Body.String(), test.body, "")
			if test.status == 405 && answer.Header().Get("Allow") != "GET, HEAD" {
				t.Errorf("Allow: got %q, want GET and HEAD", answer.Header().Get("Allow"))
			}
		})
	}
}

// The answers don't say which program it is.
func TestAnswersFitEachProgram(t *testing.T) {
	for _, body := range []string{fine, notReady, stopping, notGet} {
		for _, word := range []string{"broker", "platform", "worker"} {
			diff.Lacks(t, body, word, "")
		}
	}
}

// A calls counts calls of ready, each of which waits for a value if there is a channel.
type calls struct {
	mutex sync.Mutex
	count int
	err   error
	begun chan struct{}
	pass  chan struct{}
}

func (c *calls) ready(context.Context) error {
	c.mutex.Lock()
	c.count++
	err := c.err
	c.mutex.Unlock()
	if c.pass != nil {
		c.begun <- struct{}{}
		<-c.pass
	}
	return err
}

func (c *calls) sum() int {
	c.mutex.Lock()
	defer c.mutex.Unlock()
	return c.count
}

func (c *calls) fail(err error) {
	c.mutex.Lock()
	defer c.mutex.Unlock()
	c.err = err
}

func TestAResultIsUsedForASecond(t *testing.T) {
	var counted calls
	handler, now := New(context.Background(), Options{Ready: counted.ready}), time.Now()
	handler.readiness.now = func() time.Time { return now }
	for _, step := range []struct {
		after  time.Duration
		err    error
		count  int
		status int
	}{
		{0, nil, 1, 200},
		{999 * time.Millisecond, errors.New("away"), 1, 200},
		{time.Millisecond, errors.New("away"), 2, 503},
		{999 * time.Millisecond, nil, 2, 503},
		{time.Millisecond, nil, 3, 200},
	} {
		now = now.Add(step.after)
		counted.fail(step.err)
		status, count := ask(handler, "GET", "/readyz").Code, counted.sum()
		diff.Equal(t, status, step.status, "%v later", step.after)
		diff.Equal(t, count, step.count, "%v later", step.after)
	}
}

func TestACallThatHangsHoldsNobodyUp(t *testing.T) {
	hanging := calls{begun: make(chan struct{}, 10), pass: make(chan struct{})}
	handler := New(context.Background(), Options{Ready: hanging.ready})
	handler.readiness.waitsFor = 20 * time.Millisecond
	for number := 0; number < 3; number++ {
		diff.Equal(t, ask(handler, "GET", "/readyz").Code, http.StatusServiceUnavailable, "")
	}
	diff.Equal(t, ask(handler, "GET", "/healthz").Code, http.StatusOK, "/healthz")
	diff.Equal(t, hanging.sum(), 1, "calls at once")
	handler.readiness.waitsFor = 10 * time.Second
	status := waits.Begin(func() int { return ask(handler, "GET", "/readyz").Code })
	close(hanging.pass)
	diff.Equal(t, <-status, http.StatusOK, "")
}

func TestManyShareOneCall(t *testing.T) {
	counted := calls{begun: make(chan struct{}, 10), pass: make(chan struct{})}
	handler := New(context.Background(), Options{Ready: counted.ready})
	status := make(chan int)
	for number := 0; number < 5; number++ {
		go func() { status <- ask(handler, "GET", "/readyz").Code }()
	}
	<-counted.begun
	close(counted.pass)
	for number := 0; number < 5; number++ {
		diff.Equal(t, <-status, http.StatusOK, "")
	}
	diff.Equal(t, counted.sum(), 1, "calls")
}

func TestACallHasALimitOfTime(t *testing.T) {
	handler := New(context.Background(), Options{Ready: func(ctx context.Context) error {
		<-ctx.Done()
		return ctx.Err()
	}})
	handler.readiness.waitsFor = 10 * time.Millisecond
	diff.Equal(t, ask(handler, "GET", "/readyz").Code, http.StatusServiceUnavailable, "")
}

func TestARequestThatEndsEndsNoCall(t *testing.T) {
	counted := calls{begun: make(chan struct{}, 1), pass: make(chan struct{})}
	handler := New(context.Background(), Options{Ready: counted.ready})
	ctx, cancel := context.WithCancel(context.Background())
	ended := waits.Begin(func() error { return handler.readiness.check(ctx) })
	<-counted.begun
	cancel()
	diff.ErrorIs(t, <-ended, context.Canceled, "the request ended")
	another := waits.Begin(func() error { return handler.readiness.check(context.Background()) })
	close(counted.pass)
	diff.NoError(t, <-another, "another")
	diff.Equal(t, counted.sum(), 1, "calls")
}

func TestEachReasonIsReportedOnce(t *testing.T) {
	var counted calls
	reported := make(chan error, 10)
	handler, now := New(context.Background(), Options{
		Ready: counted.ready, NotReady: func(err error) { reported <- err },
	}), time.Now()
	handler.readiness.now = func() time.Time { return now }
	for _, step := range []struct {
		err        error
		isReported bool
	}{
		{errors.New("away"), true}, {errors.New("away"), false}, {errors.New("full"), true}, {nil, false},
		{errors.New("full"), true},
	} {
		counted.fail(step.err)
		ask(handler, "GET", "/readyz")
		now = now.Add(keptFor)
		if !step.isReported {
			continue
		}
		diff.Check(t, <-reported, step.err, "what is reported")
	}
	diff.Equal(t, len(reported), 0, "more reported")
}
