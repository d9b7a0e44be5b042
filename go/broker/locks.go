package broker

import (
	"context"
	"errors"
	"sync"
	"time"
)

// patience is how long a TryLock may take before the locks count as silent.
const patience = 2 * time.Second

var errSilent = Away(errors.New("the locks don't answer"))

// A gate keeps requests from waiting all at once for locks whose server is silent. Otherwise requests that need no lock
// would find no free thread.
type gate struct {
	locks Locks
	slots chan struct{} // a slot for each TryLock that runs, or nil for any number

	turn     sync.Mutex
	isSilent bool // a TryLock has taken longer than patience, and none has returned without an error since
	isProbed bool // while they are silent: whether a TryLock runs
}

func newGate(locks Locks, most int) *gate {
	g := &gate{locks: locks}
	if most > 0 {
		g.slots = make(chan struct{}, most)
	}
	return g
}

// tryLock is TryLock of the locks. While they are silent, only one call at a time tries, and the others fail at once.
// Before that, a call waits for a slot no longer than patience.
//
// Errors: those of the locks; ErrAway.
func (g *gate) tryLock(ctx context.Context, key Key) (lock Lock, err error) {
	if g.slots == nil {
		return g.locks.TryLock(ctx, key)
	}
	isProbe, ok := g.enter()
	if !ok {
		return nil, errSilent
	}
	answered := false
	defer func() { g.leave(isProbe, answered) }()
	if !g.takeSlot(isProbe) {
		return nil, errSilent
	}
	defer func() { <-g.slots }()
	late := time.AfterFunc(patience, g.fallSilent)
	defer late.Stop()
	lock, err = g.locks.TryLock(ctx, key)
	answered = err == nil
	return lock, err
}

// enter reports whether a call may try, and whether it is the only one that does.
func (g *gate) enter() (isProbe, ok bool) {
	g.turn.Lock()
	defer g.turn.Unlock()
	if !g.isSilent {
		return false, true
	}
	isProbe = !g.isProbed
	g.isProbed = true
	return isProbe, isProbe
}

func (g *gate) leave(isProbe, answered bool) {
	g.turn.Lock()
	defer g.turn.Unlock()
	if isProbe {
		g.isProbed = false
	}
	if answered {
		g.isSilent = false
	}
}

func (g *gate) fallSilent() {
	g.turn.Lock()
	defer g.turn.Unlock()
	g.isSilent = true
}

// takeSlot waits for a slot, and returns whether there was one in time. A probe doesn't wait.
func (g *gate) takeSlot(isProbe bool) bool {
	select {
	case g.slots <- struct{}{}:
		return true
	default:
		if isProbe {
			return false
		}
	}
	timer := time.NewTimer(patience)
	defer timer.Stop()
	select {
	case g.slots <- struct{}{}:
		return true
	case <-timer.C:
		return false
	}
}
