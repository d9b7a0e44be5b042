package sqlite

import "pippinterm/platform"

// Counts are how many rows more, or fewer, a transaction leaves than it has found, by what osb_counts counts them by.
// They are written once, before the commit: a trigger would take as long as the change of the row.
type counts map[kind]int64

// A kind is what rows have in common that are counted together.
type kind struct {
	broker    string
	isBinding bool
	state     platform.State
}

// add counts a row of an order in a state.
func (c counts) add(of *platform.Order, state platform.State, rows int64) {
	c[kind{of.Broker, of.Key.IsBinding, state}] += rows
}

// begin is called in each transaction of the connection that writes, before anything is read or written. Nothing is left
// of a transaction that was undone.
func (c *connection) begin() error {
	c.counted = counts{}
	return c.known.begin()
}

// writeCounts is called in each transaction before it is committed.
func (c *connection) writeCounts() error {
	for kind, rows := range c.counted {
		if rows == 0 {
			continue
		}
		if _, err := c.addCount.Run(kind.broker, kind.isBinding, string(kind.state), rows); err != nil {
			return err
		}
	}
	return nil
}
