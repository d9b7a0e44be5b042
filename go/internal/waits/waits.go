// Package waits has tests wait for what must happen.
package waits

import (
	"sync"
	"testing"
	"time"
)

// limit is how long a test waits. A busy machine doesn't take so long.
const limit = time.Minute

// Until waits until something is so, and ends the test if that takes too long. The text says what is so then.
func Until(t testing.TB, what string, isSo func() bool) {
	t.Helper()
	for late := time.Now().Add(limit); !isSo(); time.Sleep(5 * time.Millisecond) {
		if time.Now().After(late) {
			t.Fatalf("got no end in %v of the wait until %s, want one", limit, what)
		}
	}
}

// For waits for a value of a channel, or for its end, and ends the test if that takes too long. The text says whose
// value it is.
func For[T any](t testing.TB, from <-chan T, what string) (value T) {
	t.Helper()
	select {
	case value = <-from:
	case <-time.After(limit):
		t.Fatalf("%s: got nothing in %v, want an end", what, limit)
	}
	return value
}

// Begin calls a function, and returns at once. What the function returns comes from the channel.
func Begin[T any](call func() T) <-chan T {
	ended := make(chan T, 1)
	go func() { ended <- call() }()
	return ended
}

// Together calls a function so many times at once, with the numbers from 0 on, and returns once all calls have ended.
func Together(count int, call func(n int)) {
	var all sync.WaitGroup
	all.Add(count)
	for n := 0; n < count; n++ {
		go func(n int) {
			defer all.Done()
			call(n)
		}(n)
	}
	all.Wait()
}
