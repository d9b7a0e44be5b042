// Package latest has values that are asked for in the background, so that nobody waits for a server that hangs.
package latest

import (
	"context"
	"errors"
	"sync"
	"time"
)

// ErrSlow reports that a call hasn't returned in time.
var ErrSlow = errors.New("it hasn't answered in time")

// Options are those of New.
type Options struct {
	Kept    time.Duration    // how long a value is used before the next call
	Longest time.Duration    // how long a call may take, if it heeds its context
	Now     func() time.Time // a clock, or nil for time.Now
}

// A Value is what a call has returned last. At most one call runs at a time, in a goroutine of its own. Any number of
// goroutines may use a Value.
type Value[T any] struct {
	ctx     context.Context // Get has none, and a call may outlive it
	call    func(context.Context) (T, error)
	options Options

	turn    sync.Mutex
	running chan struct{} // closed once the call that runs has returned, or nil
	found   T
	err     error
	at      time.Time // when the last call returned; zero before
}

// New returns a Value of a call, which isn't made any more once ctx is done.
func New[T any](ctx context.Context, call func(context.Context) (T, error), options Options) *Value[T] {
	if options.Now == nil {
		options.Now = time.Now
	}
	return &Value[T]{ctx: ctx, call: call, options: options}
}

// Get returns what the last call has returned. If that is older than Options.Kept, Get has the call made again, and
// waits for its end, but not longer than so long.
//
// Errors: those of the call; ErrSlow if it goes on. With either, found is what an earlier call has returned.
func (v *Value[T]) Get(wait time.Duration) (found T, err error) {
	running := v.begin()
	if running == nil {
		return v.last(nil)
	}
	timer := time.NewTimer(wait)
	defer timer.Stop()
	select {
	case <-running:
		return v.last(nil)
	case <-timer.C:
		return v.last(ErrSlow)
	}
}

func (v *Value[T]) last(slow error) (T, error) {
	v.turn.Lock()
	defer v.turn.Unlock()
	if slow != nil {
		return v.found, slow
	}
	return v.found, v.err
}

// begin begins a call if the last one is too long ago and none runs. It returns what to wait for, or nil.
func (v *Value[T]) begin() <-chan struct{} {
	v.turn.Lock()
	defer v.turn.Unlock()
	if v.running != nil {
		return v.running
	}
	if !v.at.IsZero() && v.options.Now().Sub(v.at) < v.options.Kept {
		return nil
	}
	v.running = make(chan struct{})
	go v.run(v.running)
	return v.running
}

func (v *Value[T]) run(done chan struct{}) {
	ctx, cancel := context.WithTimeout(v.ctx, v.options.Longest)
	defer cancel()
	found, err := v.call(ctx)
	v.turn.Lock()
	defer v.turn.Unlock()
	if err == nil {
		v.found = found
	}
	v.err, v.at, v.running = err, v.options.Now(), nil
	close(done)
}
