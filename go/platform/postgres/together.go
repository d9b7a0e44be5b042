package postgres

import (
	"context"
	"database/sql"
	"errors"
	"sync"
	"time"

	"pippinterm/internal/pg"
	"pippinterm/platform"
)

const (
	atATime   = 1                     // so many transactions run at once: with more, each has fewer changes
	mostOfOne = 64                    // so many changes are in one of them at most
	enough    = 32                    // so many changes that wait don't wait for more
	apart     = 20 * time.Millisecond // between the beginnings of two transactions, unless enough changes wait
)

// Together has the changes of instances that wait done by few transactions, each with its own result. A change that
// comes while fewer transactions run than may run begins one, at the earliest apart after the last one began. The others
// wait until one begins, and are in it.
type together struct {
	turn     sync.Mutex
	running  int
	waiting  []*oneChange
	begun    time.Time     // when the last transaction began
	isEnough chan struct{} // has a value if enough changes may wait
}

// A oneChange is a change of an instance.
type oneChange struct {
	ctx   context.Context
	call  *call
	key   platform.Key
	step  platform.Step
	ended chan struct{} // closed once the transaction has ended that has the change
	// What follows counts once it has ended.
	isDone bool // whether the transaction has had the change done. Otherwise it is done alone
	err    error
}

// join returns the changes of a transaction that is to begin with the change, or nil if the change waits.
func (t *together) join(it *oneChange) []*oneChange {
	t.turn.Lock()
	defer t.turn.Unlock()
	if t.running >= atATime {
		t.waiting = append(t.waiting, it)
		t.tell()
		return nil
	}
	t.running++
	return []*oneChange{it}
}

// tell notes whether enough changes wait.
func (t *together) tell() {
	if len(t.waiting) >= enough {
		select {
		case t.isEnough <- struct{}{}:
		default:
		}
	}
}

// gather waits until a transaction of these changes may begin, and adds those that wait by then.
func (t *together) gather(changes []*oneChange) []*oneChange {
	t.turn.Lock()
	rest := time.Until(t.begun.Add(apart))
	t.turn.Unlock()
	if len(changes) < enough && rest > 0 {
		timer := time.NewTimer(rest)
		defer timer.Stop()
		select {
		case <-timer.C:
		case <-t.isEnough:
		}
	}
	t.turn.Lock()
	defer t.turn.Unlock()
	t.begun = time.Now()
	return append(changes, t.take(mostOfOne-len(changes))...)
}

// take takes at most so many of the changes that wait.
func (t *together) take(most int) []*oneChange {
	if most > len(t.waiting) {
		most = len(t.waiting)
	}
	taken := append([]*oneChange(nil), t.waiting[:most]...)
	t.waiting = append(t.waiting[:0], t.waiting[most:]...)
	return taken
}

// leave reports whether a change that has waited isn't in a transaction, and is in none later.
func (t *together) leave(it *oneChange) bool {
	t.turn.Lock()
	defer t.turn.Unlock()
	for at, other := range t.waiting {
		if other == it {
			t.waiting = append(t.waiting[:at], t.waiting[at+1:]...)
			return true
		}
	}
	return false
}

// end ends a transaction, and returns the changes of the next one, or nil if none waits.
func (t *together) end(of []*oneChange) (next []*oneChange) {
	for _, it := range of {
		close(it.ended)
	}
	t.turn.Lock()
	defer t.turn.Unlock()
	if next = t.take(mostOfOne); next == nil {
		t.running--
	}
	return next
}

// changeInstance is Change of an instance. Once the context has ended, it waits for the transaction that has the change no
// longer than within waits for a function.
func (s *Store) changeInstance(ctx context.Context, key platform.Key, step platform.Step) error {
	if err := ctx.Err(); err != nil {
		return err
	}
	if err := s.enter(); err != nil {
		return err
	}
	defer s.running.Done()
	it := &oneChange{ctx: ctx, call: &call{}, key: key, step: step, ended: make(chan struct{})}
	if first := s.changes.join(it); first != nil {
		go s.changeAll(first)
	}
	switch {
	case endsBefore(ctx, it.ended):
	case s.changes.leave(it):
		return ctx.Err()
	case !endsSoon(it.ended):
		it.call.end()
		return away{ctx.Err()}
	}
	if it.isDone {
		return errorOf(ctx, it.err)
	}
	_, err := entered(ctx, func(this *call) (struct{}, error) {
		return struct{}{}, s.changeOne(ctx, this, key, step)
	})
	return err
}

// changeAll has changes done by one transaction, and then those that wait by the next one, until none waits. Its callers
// wait for their changes, and Close waits for the callers.
func (s *Store) changeAll(changes []*oneChange) {
	defer func() {
		if changes == nil {
			return
		}
		for _, it := range changes { // a step has ended the goroutine, and nothing is written
			it.isDone = false
		}
		if next := s.changes.end(changes); next != nil {
			go s.changeAll(next)
		}
	}()
	for changes != nil {
		changes = s.changes.gather(changes)
		s.changeTogether(changes)
		changes = s.changes.end(changes)
	}
}

// A row that another transaction has locked is passed over. So no two of these transactions wait for each other.
var lockInstances = `
WITH t AS MATERIALIZED (SELECT * FROM osb_instances WHERE id = ANY ($1) FOR UPDATE SKIP LOCKED)
SELECT ` + lineOf("t", false, false) + `, NULL, ` + clock + ` FROM t
`

// changeTogether has changes done in one transaction. What it can't do is left to be done alone: a change whose row is
// locked, can't be read or has another change here, and if the transaction of several fails, all of them. It fails if the
// context of the first one ends.
func (s *Store) changeTogether(all []*oneChange) {
	err := s.batch(all[0].ctx, all[0].call, lockInstances, func(of *batch) error {
		ids := []string{}
		for _, it := range all {
			it.isDone, it.err = false, nil // the transaction may be tried again
			ids = append(ids, it.key.Instance.String())
		}
		err := of.each(of.lock, []any{array(ids)}, func(rows *sql.Rows) error {
			_, err := of.add(rows)
			return err
		})
		if err != nil {
			return err
		}
		stepped := map[platform.Key]bool{}
		for _, it := range all {
			if of.rows[it.key] == nil || stepped[it.key] {
				continue
			}
			stepped[it.key], it.isDone = true, true
			of.call = it.call
			it.err = of.step(it.key, it.step)
		}
		return nil
	})
	for _, it := range all {
		switch {
		case err == nil:
		case len(all) == 1:
			it.isDone, it.err = true, err
		case !errors.Is(err, pg.ErrUnknownCommit):
			it.isDone = false
		case it.isDone && it.err == nil:
			it.err = err
		}
	}
}
