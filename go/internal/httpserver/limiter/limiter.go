// Package limiter limits how often an address may fail to log in.
package limiter

import (
	"net/netip"
	"sync"
	"time"
)

const (
	burst    = 20                     // failures at once
	interval = 3 * time.Second        // after which one more is allowed
	delay    = 500 * time.Millisecond // between two turns of an address that has failed too often
	capacity = 16384                  // addresses that are remembered
	sample   = 8                      // of which one is forgotten for a new one
)

// A Limiter counts the failed logins of each address: 20 are free at once, and one more each 3 seconds. The answer to
// each further one waits for its turn. An address has one turn each half second, however many connections it has. All
// addresses that share a limit (Neighbours) count as one. A Limiter remembers at most 16,384 of them, in about 3 MiB. If
// there are more, it forgets addresses whose failures are nearly over. Any number of goroutines may use a Limiter. (The
// numbers are this project's choice.)
//
// The right password never waits, so nobody who guesses at the same address keeps its platform waiting. Nor does that
// let passwords be tried faster: whoever has tried one and sees no answer knows that it was wrong, but its connection
// stays taken until its turn, also if the client closes it. So an address tries as many passwords at once as it may have
// connections, and from then on two a second.
type Limiter struct {
	now func() time.Time

	mutex sync.Mutex
	of    map[netip.Prefix]count
}

// A count is what is known of an address.
type count struct {
	free time.Time // when all its failures will be over
	turn time.Time // when the last turn is that was given
}

// New returns a Limiter without failures.
func New() *Limiter { return &Limiter{now: time.Now, of: make(map[netip.Prefix]count)} }

// FailedLogin counts a failed login from this address, and returns how long its answer has to wait: 0, or until its turn.
// The address is an IP address without a port. All texts that are no IP address count as one address.
func (l *Limiter) FailedLogin(address string) time.Duration {
	key, now := Neighbours(address), l.now()
	l.mutex.Lock()
	defer l.mutex.Unlock()
	it, isKnown := l.of[key]
	if !isKnown && len(l.of) >= capacity {
		l.forget(now)
	}
	isFree := it.free.Sub(now) <= (burst-1)*interval
	it.free = latest(it.free, now).Add(interval)
	if limit := now.Add(burst * interval); it.free.After(limit) {
		it.free = limit
	}
	var wait time.Duration
	if !isFree {
		it.turn = latest(it.turn, now).Add(delay)
		wait = it.turn.Sub(now)
	}
	l.of[key] = it
	return wait
}

func latest(one, other time.Time) time.Time {
	if one.Before(other) {
		return other
	}
	return one
}

// forget removes one address of a few, that whose failures are over first. If they are over already, it removes all
// such addresses. The few are random, because Go iterates over a map in random order.
func (l *Limiter) forget(now time.Time) {
	var earliest netip.Prefix
	seen := 0
	for key, count := range l.of {
		if seen == 0 || count.free.Before(l.of[earliest].free) {
			earliest = key
		}
		if seen++; seen == sample {
			break
		}
	}
	if l.of[earliest].free.After(now) {
		delete(l.of, earliest)
		return
	}
	for key, count := range l.of {
		if !count.free.After(now) {
			delete(l.of, key)
		}
	}
}

// Neighbours returns the addresses that share a limit with this one, because one client usually has them all: those of a
// /64 of IPv6, and only itself of IPv4. It is the zero Prefix for a text that is no address.
func Neighbours(text string) netip.Prefix {
	address, err := netip.ParseAddr(text)
	if err != nil {
		return netip.Prefix{}
	}
	address = address.Unmap().WithZone("")
	bits := address.BitLen()
	if address.Is6() {
		bits = 64
	}
	prefix, err := address.Prefix(bits)
	if err != nil {
		return netip.Prefix{}
	}
	return prefix
}
