package broker

import (
	"bufio"
	"crypto/rand"
	"io"
	"sync"

	"pippinterm/osb"
)

// numbers makes the numbers of drivers: 128 random bits, which nothing else has. It has the kernel make many at once.
// Any number of goroutines use it.
type numbers struct {
	lock  sync.Mutex
	bytes *bufio.Reader
}

func newNumbers() *numbers { return &numbers{bytes: bufio.NewReaderSize(rand.Reader, 1024)} }

func (n *numbers) next() (number osb.ID) {
	n.lock.Lock()
	defer n.lock.Unlock()
	if _, err := io.ReadFull(n.bytes, number[:]); err != nil {
		panic(err) // the kernel has no random bytes
	}
	return number
}
