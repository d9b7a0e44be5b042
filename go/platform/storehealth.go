package platform

import (
	"context"
	"errors"
	"sync"
	"time"
)

// storeHealth is how the calls of a Store have ended. It reports a failure once for each reason, until it is over. Any
// number of goroutines use it.
type storeHealth struct {
	observer Observer

	mu      sync.Mutex
	reason  string // what was reported last, or empty
	isWrite bool   // whether something couldn't be written since then: only a write ends that, as reading may work
	rows    error  // why the last transaction that writes rows has failed, or nil
	answers int    // how many answers are being written again
}

// read notes how a reading has ended, and returns whether it failed.
func (h *storeHealth) read(err error) bool { return h.note(err, false) }

// brokerFailed takes in that a change of a broker has failed.
func (h *storeHealth) brokerFailed(err error) { h.note(err, true) }

// wrote notes how a transaction that was to write rows has ended, and returns whether it failed. hasWritten says
// that there was anything to write.
func (h *storeHealth) wrote(hasWritten bool, err error) bool {
	h.mu.Lock()
	switch {
	case errors.Is(err, context.Canceled):
	case err != nil:
		h.rows = err
	case hasWritten:
		h.rows, h.isWrite = nil, false
	}
	h.mu.Unlock()
	return h.note(err, err != nil)
}

// A rewrite is the writing of one answer, once it has failed.
type rewrite struct {
	of      *storeHealth
	isBegun bool
}

// newRewrite is for an answer that isn't written yet.
func (h *storeHealth) newRewrite() *rewrite { return &rewrite{of: h} }

// begin takes in that the answer is written again. It may be called more than once.
func (r *rewrite) begin() {
	if !r.isBegun {
		r.isBegun = true
		r.of.addAnswers(1)
	}
}

// end takes in that the answer isn't written again.
func (r *rewrite) end() {
	if r.isBegun {
		r.of.addAnswers(-1)
	}
}

func (h *storeHealth) addAnswers(count int) {
	h.mu.Lock()
	defer h.mu.Unlock()
	h.answers += count
}

// nothingDue takes in that no row is to be stepped now. So nothing of what failed is left to be written, unless it is
// an answer.
func (h *storeHealth) nothingDue() {
	h.mu.Lock()
	defer h.mu.Unlock()
	if h.answers == 0 {
		h.rows = nil
	}
}

// failing is why the last transaction that writes rows has failed, or nil.
func (h *storeHealth) failing() error {
	h.mu.Lock()
	defer h.mu.Unlock()
	return h.rows
}

// note reports a failure that is new, and returns whether there is one. A call that was broken off says nothing.
func (h *storeHealth) note(err error, isWrite bool) bool {
	if errors.Is(err, context.Canceled) {
		return true
	}
	h.mu.Lock()
	isNew := err != nil && h.reason != err.Error()
	switch {
	case err != nil:
		h.reason, h.isWrite = err.Error(), h.isWrite || isWrite
	case !h.isWrite:
		h.reason = ""
	}
	h.mu.Unlock()
	if isNew {
		h.observer.OnFailure(Failure{Event: "store_failed", Err: brief(err)})
	}
	return err != nil
}

// A backOff is a rest that grows with each failure.
type backOff struct {
	first time.Duration
	rest  time.Duration // the next one, or 0 for the first
}

// next is the rest after one more failure.
func (b *backOff) next() time.Duration {
	rest := b.rest
	if rest == 0 {
		rest = b.first
	}
	if rest > longestRetry {
		rest = longestRetry
	}
	b.rest = 2 * rest
	return rest
}

// end is called after a success.
func (b *backOff) end() { b.rest = 0 }
