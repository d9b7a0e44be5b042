package limiter

import (
	"fmt"
	"testing"
	"time"

	"pippinterm/internal/diff"
	"pippinterm/internal/waits"
)

// at returns a Limiter whose clock stands, and a function that moves it.
func at() (*Limiter, func(time.Duration)) {
	limiter, now := New(), time.Date(2024, 1, 1, 0, 0, 0, 0, time.UTC)
	limiter.now = func() time.Time { return now }
	return limiter, func(by time.Duration) { now = now.Add(by) }
}

// failures counts how many failures in a row are free.
func failures(limiter *Limiter, address string) int {
	for count := 0; ; count++ {
		if limiter.FailedLogin(address) > 0 || count > 2*burst {
			return count
		}
	}
}

func TestTwentyFailuresAndOneMoreEachThreeSeconds(t *testing.T) {
	limiter, pass := at()
	for _, step := range []struct {
		after time.Duration
		want  int
	}{{0, 20}, {0, 0}, {2999 * time.Millisecond, 0}, {3 * time.Second, 1}, {9 * time.Second, 3}, {time.Hour, 20}} {
		pass(step.after)
		diff.Equal(t, failures(limiter, "192.0.2.1"), step.want, "%v later: failures free", step.after)
	}
}

func TestFailuresBeyondTheLimitDontExtendIt(t *testing.T) {
	limiter, pass := at()
	for count := 0; count < 1000; count++ {
		limiter.FailedLogin("192.0.2.1")
	}
	pass(burst * interval)
	diff.Equal(t, failures(limiter, "192.0.2.1"), burst, "failures free a minute later")
}

// The turns of an address are half a second apart, and those of another address are its own.
func TestTheTurns(t *testing.T) {
	limiter, pass := at()
	failures(limiter, "192.0.2.1")
	for count := time.Duration(2); count <= 100; count++ { // failures has taken the first turn
		diff.Equal(t, limiter.FailedLogin("192.0.2.1"), count*delay, "failure %d", count)
	}
	diff.Equal(t, limiter.FailedLogin("192.0.2.2"), 0, "another address")
	pass(18 * delay)
	for count, want := range []time.Duration{0, 0, 0, 83 * delay, 84 * delay} { // three are free after nine seconds
		diff.Equal(t, limiter.FailedLogin("192.0.2.1"), want, "%d, %v", count+1, 18*delay)
	}
}

func TestWhichAddressesShareALimit(t *testing.T) {
	for _, test := range []struct {
		first, second string
		isShared      bool
	}{
		{"192.0.2.1", "192.0.2.1", true},
		{"192.0.2.1", "192.0.2.2", false},
		{"192.0.2.1", "::ffff:192.0.2.1", true},
		{"2001:db8::1", "2001:db8::ffff:ffff:ffff:ffff", true},
		{"2001:db8::1", "2001:db8:0:1::1", false},
		{"fe80::1%eth0", "fe80::2%eth1", true},
		{"", "a name", true},
		{"a name", "192.0.2.1", false},
	} {
		t.Run(test.first+" and "+test.second, func(t *testing.T) {
			limiter, _ := at()
			failures(limiter, test.first)
			isShared := limiter.FailedLogin(test.second) > 0
			diff.Equal(t, isShared, test.isShared, "%q and %q", test.first, test.second)
		})
	}
}

func TestMemoryIsBounded(t *testing.T) {
	limiter, pass := at()
	for number := 0; number < 3*capacity; number++ {
		limiter.FailedLogin(fmt.Sprintf("10.%d.%d.%d", number>>16&255, number>>8&255, number&255))
		if len(limiter.of) > capacity {
			t.Fatalf("got %d addresses remembered, want at most %v", len(limiter.of), capacity)
		}
	}
	pass(interval)
	limiter.FailedLogin("192.0.2.1")
	diff.Equal(t, len(limiter.of), 1, "addresses remembered after the failures of all others are over")
}

func TestAFullLimiterKeepsTheWorst(t *testing.T) {
	limiter, _ := at()
	failures(limiter, "192.0.2.1")
	for number := 0; number < 2*capacity; number++ {
		limiter.FailedLogin(fmt.Sprintf("10.%d.%d.%d", number>>16&255, number>>8&255, number&255))
	}
	diff.Equal(t, limiter.FailedLogin("192.0.2.1") > 0, true, "an address at its limit is kept")
}

func TestManyGoroutines(t *testing.T) {
	limiter, _ := at()
	waits.Together(10, func(int) {
		limiter.FailedLogin("192.0.2.1")
	})
	diff.Equal(t, failures(limiter, "192.0.2.1"), burst-10, "")
}
