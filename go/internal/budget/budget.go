// Package budget bounds how much requests have of something at once, such as bytes of memory, and shares it among
// users.
package budget

import (
	"sync"
	"time"
)

// A Budget is an amount, of which each request takes a part and gives it back. A user may have as much as all others
// leave free: so whatever one user takes, half is left for the others, and whatever two take, a third. Any number of
// goroutines may use a Budget.
type Budget struct {
	total int

	mutex   sync.Mutex
	taken   int
	of      map[string]int // what each user has
	waiting []*waiter      // in the order in which they began to wait
}

// A waiter is a request that waits for its part.
type waiter struct {
	user   string
	amount int
	given  chan struct{} // is closed once it has it
}

// New returns a Budget of this amount.
func New(total int) *Budget { return &Budget{total: total, of: make(map[string]int)} }

// Take takes an amount for a user, and returns whether the user got it in time. If so, give it back. An amount above
// the total counts as the total, and for 0 nobody waits. The requests of a user get their parts in the order in which
// they began to wait.
func (b *Budget) Take(user string, amount int, within time.Duration) bool {
	if amount = b.part(amount); amount == 0 {
		return true
	}
	b.mutex.Lock()
	if len(b.waiting) == 0 && b.mayHave(user, amount) {
		b.have(user, amount)
		b.mutex.Unlock()
		return true
	}
	it := &waiter{user: user, amount: amount, given: make(chan struct{})}
	b.waiting = append(b.waiting, it)
	b.serve()
	b.mutex.Unlock()
	late := time.NewTimer(within)
	defer late.Stop()
	select {
	case <-it.given:
		return true
	case <-late.C:
		return !b.leave(it)
	}
}

// Give gives back what Take has taken, or a part of it.
func (b *Budget) Give(user string, amount int) {
	if amount = b.part(amount); amount == 0 {
		return
	}
	b.mutex.Lock()
	defer b.mutex.Unlock()
	b.taken -= amount
	if b.of[user] -= amount; b.of[user] == 0 {
		delete(b.of, user)
	}
	b.serve()
}

func (b *Budget) part(amount int) int {
	if amount > b.total {
		return b.total
	}
	return amount
}

// serve gives their parts to those who may have them. Behind one that has to wait, its user gets nothing.
func (b *Budget) serve() {
	if len(b.waiting) == 0 {
		return
	}
	left, isBlocked := b.waiting[:0], make(map[string]bool)
	for _, waiter := range b.waiting {
		if isBlocked[waiter.user] || !b.mayHave(waiter.user, waiter.amount) {
			left, isBlocked[waiter.user] = append(left, waiter), true
			continue
		}
		b.have(waiter.user, waiter.amount)
		close(waiter.given)
	}
	for at := len(left); at < len(b.waiting); at++ {
		b.waiting[at] = nil
	}
	b.waiting = left
}

// mayHave reports whether a user may have this amount more: all that the user has then is at most what is left free.
func (b *Budget) mayHave(user string, amount int) bool {
	free, has := b.total-b.taken-amount, b.of[user]
	return free >= 0 && (has == 0 || has+amount <= free)
}

func (b *Budget) have(user string, amount int) {
	b.taken += amount
	b.of[user] += amount
}

// leave has a waiter wait no more, and returns whether it has got nothing.
func (b *Budget) leave(it *waiter) bool {
	b.mutex.Lock()
	defer b.mutex.Unlock()
	for at := range b.waiting {
		if b.waiting[at] == it {
			b.waiting = append(b.waiting[:at], b.waiting[at+1:]...)
			b.serve() // it may have kept others of its user waiting
			return true
		}
	}
	return false
}
