package budget

import (
	"fmt"
	"sync/atomic"
	"testing"
	"time"

	"pippinterm/internal/diff"
	"pippinterm/internal/waits"
)

const long = time.Minute // in which everything has to happen

// countTakes counts how often a user gets an amount at once.
func countTakes(b *Budget, user string, amount int) (count int) {
	for b.Take(user, amount, 0) {
		count++
	}
	return count
}

// Whatever users take, a further one gets its part.
func TestAUserLeavesAsMuchFree(t *testing.T) {
	b := New(120)
	for number, want := range []int{60, 30, 15, 7, 4} {
		diff.Equal(t, countTakes(b, fmt.Sprint(number), 1), want, "%d", number)
	}
	b.Give("0", 60)
	diff.Equal(t, countTakes(b, "0", 1), 32, "")
}

// Of large parts, a user gets one whenever it is free.
func TestTheFirstPartOfAUser(t *testing.T) {
	b := New(100)
	for user, want := range []int{1, 0} {
		diff.Equal(t, countTakes(b, fmt.Sprint(user), 70), want, "%d", user)
	}
	b.Give("0", 70)
	diff.Equal(t, countTakes(b, "1", 1000), 1, "")
	b.Give("1", 1000)
	diff.Equal(t, b.taken, 0, "%v", b.of)
	diff.Equal(t, len(b.of), 0, "%v", b.of)
}

// Who waits gets its part once it is free. Nobody waits for another user, and those of one user get it in their order.
func TestWaiting(t *testing.T) {
	b := New(4)
	if got := countTakes(b, "one", 1); got != 2 {
		t.Fatalf("got %d, want 2", got)
	}
	order := make(chan int, 2)
	for number, amount := range []int{2, 1} {
		number, amount := number, amount
		go func() {
			if b.Take("one", amount, long) {
				order <- number
			}
		}()
		waitFor(t, b, number+1)
	}
	diff.Equal(t, b.Take("two", 1, 0), true, "another user")
	b.Give("two", 1)
	b.Give("one", 1)
	b.Give("one", 1)
	for want := 0; want < 2; want++ {
		got := waits.For(t, order, "a part")
		diff.Equal(t, got, want, "")
		b.Give("one", 2-got)
	}
}

// Who waits for too long gets nothing, and holds up nobody any more.
func TestWhoLeaves(t *testing.T) {
	b := New(4)
	countTakes(b, "one", 1)
	diff.Equal(t, b.Take("one", 2, time.Millisecond), false, "b.Take")
	diff.Equal(t, b.Take("one", 0, 0), true, "b.Take")
	diff.Equal(t, len(b.waiting), 0, "that wait")
	b.Give("one", 1)
	diff.Equal(t, b.Take("one", 1, 0), true, "b.Take")
}

// Many goroutines never have more than the total.
func TestManyGoroutines(t *testing.T) {
	const total = 10
	b := New(total)
	var has, got atomic.Int64
	waits.Together(40, func(number int) {
		user, amount := fmt.Sprint(number%3), number%4+1
		for count := 0; count < 50; count++ {
			if !b.Take(user, amount, long) {
				continue
			}
			if now := has.Add(int64(amount)); now > total {
				t.Errorf("got %d taken, want at most %d", now, total)
			}
			got.Add(1)
			has.Add(int64(-amount))
			b.Give(user, amount)
		}
	})
	if got.Load() != 40*50 || b.taken != 0 || len(b.of) != 0 || len(b.waiting) != 0 {
		t.Errorf("got %d parts, want %d, and left is %+v", got.Load(), 40*50, b)
	}
}

func waitFor(t *testing.T, b *Budget, count int) {
	t.Helper()
	waits.Until(t, fmt.Sprint(count, " are waiting"), func() bool {
		b.mutex.Lock()
		defer b.mutex.Unlock()
		return len(b.waiting) == count
	})
}
