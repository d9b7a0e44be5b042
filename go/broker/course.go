package broker

import (
	"fmt"

	"pippinterm/osb"
)

// A course is the way of one driver: what it is of, and what has come of it until now.
type course struct {
	key   Key
	visit *Visit // nil of a take-up

	isLocked bool          // whether the lock of the key was had
	entry    Entry         // as the latest transaction has left it
	request  *Request      // what entry.Request is the text of, or nil if it has to be read
	calls    *calls        // of the work that goes on, or nil
	done     result        // of the work that has ended
	response Response      // to the visit
	went     backendResult // of a take-up
	after    []func()      // what is reported once the transaction is committed
	doubtful []func()      // what was to be reported of the latest commit of which nobody knew
	doubts   int           // how many commits there were of which nobody knew
	doubt    error         // why nobody knows of the latest one, or nil
}

// updateOfWork is the update whose work is to be done.
func (c *course) updateOfWork(request Request) (*Update, error) {
	change := c.entry.Change
	if change == nil || change.To == nil {
		return nil, fmt.Errorf("the row of %v has no settings that its update leads to", c.key)
	}
	return &Update{Request: request, From: change.Settings, To: *change.To, Origin: change.Origin}, nil
}

// requestOfWork is the request whose work is to be done.
func (c *course) requestOfWork() (Request, error) {
	if c.request != nil {
		return *c.request, nil
	}
	return requestOf(c.key, rowOf(c.entry.Holding), c.entry.Request)
}

// report reports what a transaction has brought about that is committed. If its driver had doubts, and the work that it
// had begun is its own, the transaction before was committed, too.
func (c *course) report(before driver, it transaction) {
	reports := c.after
	after := it.Committed().Stage()
	if before.Stage() == osb.StageUnsure && (after == osb.StageWork || after == osb.StageEnd) {
		reports = c.doubtful
	}
	c.doubt, c.doubtful = nil, nil
	for _, report := range reports {
		report()
	}
}

// over is the error with which a course ends that has no answer.
func (c *course) over(err error) error {
	if err == nil && c.visit != nil {
		return ErrLostWork
	}
	return err
}
