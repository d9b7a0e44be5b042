package postgres

import (
	"context"
	"testing"

	"pippinterm/broker"
	"pippinterm/internal/diff"
	"pippinterm/internal/pg/pgtest"
	"pippinterm/internal/waits"
	"pippinterm/osb"
)

// A change needs one connection, also if its step looks for bindings. Otherwise changes that have all connections of
// the store would wait for each other.
func TestConnectionsOfAChange(t *testing.T) {
	url := pgtest.Schema(t, pgtest.URL(t), "osb_store_one_connection")
	store := diff.Value(Open(context.Background(), url, 1, broker.Silent{}))(t)
	defer store.Close()
	for name, key := range map[string]broker.Key{
		"an instance": osb.InstanceKey(osb.ID{1}), "a binding": osb.BindingKey(osb.ID{1}, osb.ID{2}),
	} {
		t.Run(name, func(t *testing.T) {
			ctx, cancel := context.WithCancel(context.Background())
			defer cancel()
			before := store.db.Stats().WaitCount
			changed := waits.Begin(func() error {
				return store.Change(ctx, key, func(snapshot broker.Snapshot) (_ *broker.Entry, err error) {
					if !key.IsBinding {
						_, err = snapshot.AnyBinding()
					}
					return &snapshot.Entry, err
				})
			})
			waits.Until(t, "the change has ended, or waits for another connection", func() bool {
				return len(changed) > 0 || store.db.Stats().WaitCount > before
			})
			if len(changed) == 0 {
				cancel()
			}
			diff.NoError(t, waits.For(t, changed, "the change"), "the change")
			diff.Equal(t, store.db.Stats().WaitCount, before, "waits for a connection")
		})
	}
}
