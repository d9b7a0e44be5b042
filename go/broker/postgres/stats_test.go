package postgres

import (
	"context"
	"strings"
	"testing"

	"pippinterm/broker"
	"pippinterm/internal/diff"
	"pippinterm/internal/pg/pgtest"
)

// The server ends what takes too long in a session of the store.
func TestLimitsOfASession(t *testing.T) {
	store, err := Open(context.Background(), pgtest.Schema(t, pgtest.URL(t), "osb_store_limits"), 1, broker.Silent{})
	check(t, err)
	defer store.Close()
	for name, want := range map[string]string{
		"lock_timeout": "30s", "statement_timeout": "30s", "idle_in_transaction_session_timeout": "1min",
	} {
		t.Run(name, func(t *testing.T) {
			pgtest.WantSetting(t, store.db, name, want)
		})
	}
}

// However many rows have ended, the unfinished ones are counted by the indexes that have them alone.
func TestUnfinishedStatsReadNoOtherRows(t *testing.T) {
	url := pgtest.Schema(t, pgtest.URL(t), "osb_store_stats")
	ctx := context.Background()
	store := diff.Value(Open(ctx, url, 1, broker.Silent{}))(t)
	defer store.Close()
	const ended = `'{"attributes":null,"row":null,"tombstone":true,"version":1,"work":null}'`
	pgtest.Exec(t, store.db,
		"INSERT INTO osb_holdings (id, holding, unfinished) SELECT gen_random_uuid(), "+ended+
			", false FROM generate_series(1, 20000)",
		"INSERT INTO osb_bindings (instance, binding, holding, held, unfinished) SELECT id, id, "+ended+
			", false, false FROM osb_holdings",
		"ANALYZE osb_holdings", "ANALYZE osb_bindings")
	diff.Equal(t, diff.Value(store.Stats(ctx))(t), broker.Stats{Tombstones: 40_000}, "")
	diff.Equal(t, diff.Value(store.UnfinishedStats(ctx))(t), broker.Stats{}, "")
	rows := diff.Value(store.db.Query("EXPLAIN " + unfinishedStats))(t)
	defer rows.Close()
	var plan []string
	for rows.Next() {
		var line string
		check(t, rows.Scan(&line))
		plan = append(plan, line)
	}
	all := strings.Join(plan, "\n")
	if rows.Err() != nil || strings.Contains(all, "Seq Scan") || strings.Count(all, "osb_unfinished_") != 2 {
		t.Errorf("got %v and the plan\n%s\nwant both indexes of what is unfinished, and no scan", rows.Err(), all)
	}
}

var check = diff.Must
