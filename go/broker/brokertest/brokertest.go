// Package brokertest has what the tests of several packages about brokers share.
package brokertest

import (
	"context"
	"testing"
	"time"

	"pippinterm/broker"
	"pippinterm/internal/diff"
	"pippinterm/internal/waits"
	"pippinterm/osb"
)

// Sweep has a sweeper go on with a key until what is returned is called, which waits until the key isn't unfinished in
// the store, or waits for its first Poll. The test fails if the sweeper can't end something.
func Sweep(t testing.TB, service *broker.Service, store broker.Store, key broker.Key) (finish func()) {
	stop, end := context.WithCancel(context.Background())
	sweeper, ended := broker.NewSweeper(service, failing{t: t}), make(chan struct{})
	sweeper.Touch(key)
	go func() {
		defer close(ended)
		sweeper.Run(context.Background(), stop, 1, time.Millisecond)
	}()
	return func() {
		t.Helper()
		waits.Until(t, "the key isn't unfinished", func() bool {
			snapshot := diff.Value(store.Read(context.Background(), key))(t)
			row, _ := snapshot.Holding.Row()
			return !snapshot.IsUnfinished() || row.Phase == osb.PhaseWaiting
		})
		end()
		waits.For(t, ended, "the sweeper")
	}
}

// failing is an observer that fails a test at each failure.
type failing struct {
	broker.Silent
	t testing.TB
}

func (f failing) OnFailure(it broker.Failure) {
	f.t.Errorf("%s of %v: got %v, want no failure", it.Event, it.Key, it.Err)
}
