package broker_test

import (
	"fmt"
	"io"
	"net/http"
	"strings"
	"sync"
	"sync/atomic"
	"testing"
	"time"

	"pippinterm/broker"
	"pippinterm/internal/diff"
)

// few lets some logins fail, and delays each later one.
type few struct {
	left  int
	delay time.Duration
}

func (f *few) FailedLogin(string) time.Duration {
	f.left--
	if f.left >= 0 {
		return 0
	}
	return f.delay
}

func wrongLogin(r *http.Request) { r.SetBasicAuth("u", "q") }

// After failed logins from an address, the answer to a wrong password waits, and the right one doesn't.
func TestFailedLoginsAreDelayed(t *testing.T) {
	limiter := &few{left: 1, delay: 60 * time.Millisecond}
	s := newTestBroker(t, setting{limiter: limiter})
	s.expect(t, 401, "GET", "/v2/catalog", "", wrongLogin)
	for count := 0; count < 2; count++ {
		began := time.Now()
		s.expect(t, 401, "GET", "/v2/catalog", "", wrongLogin)
		if took := time.Since(began); took < limiter.delay {
			t.Errorf("got the answer after %v, want it after %v", took, limiter.delay)
		}
	}
	limiter.delay = time.Hour
	s.expect(t, 200, "GET", "/v2/catalog", "")
	if limiter.left != -2 {
		t.Errorf("got %d failures, want 3", 1-limiter.left)
	}
}

// A broker that stops has no answer wait, however many turns are before it.
func TestFailedLoginsDontDelayTheStop(t *testing.T) {
	s := newTestBroker(t, setting{limiter: &few{delay: time.Hour}})
	answered := make(chan int, 1)
	go func() {
		given, _ := s.ask("GET", "/v2/catalog", "", wrongLogin)
		answered <- given.StatusCode
	}()
	select {
	case got := <-answered:
		t.Errorf("got %d before the stop, want no answer", got)
	case <-time.After(50 * time.Millisecond):
	}
	s.Stop()
	select {
	case got := <-answered:
		diff.Equal(t, got, 401, "")
	case <-time.After(time.Minute):
		t.Error("got no answer in a minute after the stop, want one")
	}
}

// The right password is accepted while others at its address try wrong ones without a pause, also by a broker
// that has just started and has seen no login. The wrong ones of the address are answered at the rate that the guide
// states, however many connections it has.
func TestGuessesDontShutOutThePlatform(t *testing.T) {
	const guessers, free = 8, 20
	s := newTestBroker(t, setting{limiter: broker.NewLimiter(), atOnce: guessers})
	began, stop := time.Now(), make(chan struct{})
	var judged atomic.Int64
	var all sync.WaitGroup
	var once sync.Once
	end := func() { once.Do(func() { close(stop) }); all.Wait() }
	defer end()
	for n := 0; n < guessers; n++ {
		all.Add(1)
		go func() {
			defer all.Done()
			for isOver := false; !isOver; {
				given, body := s.ask("GET", "/v2/catalog", "", wrongLogin)
				if given.StatusCode != 401 {
					t.Errorf("a wrong password: got %d %s, want 401", given.StatusCode, body)
					return
				}
				judged.Add(1)
				select {
				case <-stop:
					isOver = true
				default:
				}
			}
		}()
	}
	for late := time.Now().Add(time.Minute); judged.Load() < free+2; time.Sleep(time.Millisecond) {
		if time.Now().After(late) {
			t.Fatal("the wrong passwords: got them not judged in time, want them judged")
		}
	}
	for n := 0; n < 3; n++ {
		s.expect(t, 200, "GET", "/v2/catalog", "")
	}
	end()
	// two a second for all of them together, besides those that are free, of which there is one more each 3 seconds
	most := free + (2+1./3)*time.Since(began).Seconds() + 1
	if got := judged.Load(); float64(got) > most {
		t.Errorf("got %d passwords judged in %v, want at most %.0f", got, time.Since(began), most)
	}
}

// A request without a login is answered so. The answer to a wrong login doesn't say which part of it is wrong.
func TestWhatALoginIsTold(t *testing.T) {
	s := newTestBroker(t, setting{})
	none := s.expect(t, 401, "GET", "/v2/catalog", "", func(r *http.Request) { r.Header.Del("Authorization") })
	diff.Contains(t, none, "The header Authorization is missing.", "")
	user := s.expect(t, 401, "GET", "/v2/catalog", "", func(r *http.Request) { r.SetBasicAuth("v", "p") })
	if wrong := s.expect(t, 401, "GET", "/v2/catalog", "", wrongLogin); wrong != user ||
		!strings.Contains(wrong, "The user or the password is wrong.") {
		t.Errorf("got the body %s, want %s", wrong, user)
	}
}

// The connection of a wrong login is closed, and that of the right one is kept, also if its request is rejected.
func TestAWrongLoginKeepsNoConnection(t *testing.T) {
	s := newTestBroker(t, setting{})
	for name, test := range map[string]struct {
		change func(*http.Request)
		status int
		want   string
	}{
		"no login":          {func(r *http.Request) { r.Header.Del("Authorization") }, 401, "close"},
		"a wrong login":     {wrongLogin, 401, "close"},
		"the right one":     {func(*http.Request) {}, 200, ""},
		"a foreign version": {header("X-Broker-API-Version", "3.0"), 412, ""},
	} {
		t.Run(name, func(t *testing.T) {
			given, _ := s.ask("GET", "/v2/catalog", "", test.change)
			if got := given.Header.Get("Connection"); given.StatusCode != test.status || got != test.want {
				t.Errorf("got %d, Connection %q, want %d, %q", given.StatusCode, got, test.status, test.want)
			}
		})
	}
}

// An unread body fails the test if it is read.
type unread struct{ t *testing.T }

func (u unread) Read([]byte) (int, error) {
	u.t.Error("got the body read, want it left")
	return 0, io.EOF
}

// Who asks, and in which version, is judged on the headers. None of the body is read before.
func TestALoginIsJudgedBeforeTheBody(t *testing.T) {
	s := newTestBroker(t, setting{})
	for status, change := range map[int]func(*http.Request){
		401: wrongLogin, 412: header("X-Broker-API-Version", "3.0"),
	} {
		t.Run(fmt.Sprint(status), func(t *testing.T) {
			s.expect(t, status, "PUT", instances+"i", bodyOf(now, ""), change, func(r *http.Request) {
				r.Body = io.NopCloser(unread{t})
			})
		})
	}
}

// Users that are replaced may not log in any more, and their successors may. What can't be replaced stays.
func TestUsersAreReplaced(t *testing.T) {
	s := newTestBroker(t, setting{users: map[string][]string{"u": {"p"}, "v": {"w"}}})
	expect := func(when string, want map[string]int) {
		t.Helper()
		for login, status := range want {
			user, password, _ := strings.Cut(login, ":")
			given, _ := s.ask("GET", "/v2/catalog", "", func(r *http.Request) { r.SetBasicAuth(user, password) })
			diff.Equal(t, given.StatusCode, status, "%s, %s", when, login)
		}
	}
	for _, test := range []struct {
		when string
		next map[string][]string
		want map[string]int
	}{
		{"with a second password", map[string][]string{"u": {"p", "new"}}, map[string]int{"u:p": 200, "u:new": 200, "v:w": 401}},
		{"after an error", map[string][]string{"u": {"other"}, "": {"w"}},
			map[string]int{"u:p": 200, "u:new": 200, "u:other": 401}},
		{"with nobody", nil, map[string]int{"u:p": 200}},
		{"with the new password", map[string][]string{"u": {"new"}}, map[string]int{"u:p": 401, "u:new": 200}},
	} {
		if err := s.Users.Replace(test.next); (err != nil) != (test.next == nil || test.next[""] != nil) {
			t.Errorf("%s: got the error %v, want one for wrong users alone", test.when, err)
		}
		expect(test.when, test.want)
	}
}
