package postgres

import (
	"context"
	"fmt"
	"strings"
	"testing"
	"time"

	"pippinterm/internal/diff"
	"pippinterm/internal/pg/pgtest"
	"pippinterm/osb"
	"pippinterm/platform"
	"pippinterm/platform/storetest"
)

// A moment separates the transactions that the server showed from all others, also where their lower 32 bits begin
// again.
func TestMomentOfASnapshot(t *testing.T) {
	db := pgtest.DB(t, pgtest.URL(t))
	for _, test := range []struct{ snapshot, shown, later string }{
		{"745:745:", "3, 700, 744, 2147484393", "745, 746, 2147484392"},
		{"740:745:740,744", "739, 741, 743, 4000000000", "740, 744, 745, 1000000000"},
		{"4294967290:4294967300:4294967295,4294967299", "4294967290, 4294967294, 0, 2", "4294967295, 3, 4, 2000000000"},
	} {
		t.Run(test.snapshot, func(t *testing.T) {
			past := diff.Value(pastOf(diff.Value(momentOf(test.snapshot, 1.7e9))(t)))(t)
			query := fmt.Sprintf("SELECT count(*) FROM (SELECT n::text::xid AS xmin, n IN (%[2]s) AS want "+
				"FROM unnest(ARRAY[%[1]s, %[2]s]::bigint[]) AS n) AS l WHERE %[3]s <> want", test.shown, test.later, past.isLater)
			wrong := 0
			diff.NoError(t, db.QueryRow(query).Scan(&wrong), "%s", query)
			diff.Equal(t, wrong, 0, "the transactions that are taken for others")
		})
	}
	many := diff.Value(pastOf(platform.Moment("1700000000-745" + strings.Repeat("-1", 10000))))(t)
	diff.Equal(t, strings.Count(many.isLater, "l.xmin"), 2, "the comparisons with many transactions")
	_, err := momentOf("740:x:", 1.7e9)
	diff.Equal(t, err != nil, true, "an error of a snapshot that can't be read")
}

// The transactions of stays that have ended long ago may have the lower 32 bits of later ones. They don't count.
func TestStaysOfLongAgo(t *testing.T) {
	url := pgtest.Schema(t, pgtest.URL(t), "osb_platform_moment")
	ctx := context.Background()
	store := diff.Value(Open(ctx, url, 1))(t)
	defer store.Close()
	key := osb.InstanceKey(osb.MustParseID("00000000-0000-4000-8000-000000000007"))
	check(t, store.AddBroker(ctx, platform.Broker{Name: "one", URL: "http://one"}))
	ready := platform.Entry{Order: platform.Order{Key: key, Broker: "one", First: key.ID()}, State: platform.Ready}
	ready.Since = time.Date(2020, 2, 3, 4, 5, 6, 0, time.UTC)
	check(t, store.Insert(ctx, ready, func(platform.Snapshot) error { return nil }))
	moment := diff.Value(store.Moment(ctx))(t)
	pgtest.Exec(t, pgtest.DB(t, url), fmt.Sprintf("INSERT INTO osb_lives VALUES ('%v', 1, 'ordered', 10), ('%[1]v', 2, 'wanted', 20)", key))
	check(t, store.Change(ctx, key, storetest.Edit(func(e *platform.Entry, now time.Time) {
		e.State, e.Since = platform.Cleaning, now
	})))
	got := diff.Value(store.Positions(ctx, platform.Filter{AsOf: moment}))(t)
	diff.Check(t, got, []platform.Position{{State: platform.Ready, Since: ready.Since, Key: key}}, "as of the moment")
	half := platform.Filter{AsOf: "1"}
	diff.ErrorIs(t, diff.Err(store.Positions(ctx, half)), platform.ErrNoMoment, "half of a moment")
}
