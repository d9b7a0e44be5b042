package postgres

import (
	"context"
	"fmt"
	"strconv"
	"strings"

	"pippinterm/platform"
)

// A row of osb_lives is written by the transaction that ends its stay, and has the number of that transaction in the
// system column xmin. So a stay has ended after a moment if the snapshot of the moment doesn't show that transaction,
// whatever the clock says. The time is needed only to find the rows to look at by an index.

// Moment returns which transactions the server shows, and its time.
func (s *Store) Moment(ctx context.Context) (platform.Moment, error) {
	return within(ctx, s, func(*call) (platform.Moment, error) {
		var snapshot string
		var now float64
		const moment = "SELECT pg_current_snapshot()::text, " + start
		if err := s.db.QueryRowContext(ctx, moment).Scan(&snapshot, &now); err != nil {
			return "", err
		}
		return momentOf(snapshot, now)
	})
}

// momentOf is the moment of a snapshot, which PostgreSQL writes as xmin:xmax:xip,.., and a time: whole seconds, xmax,
// and by how much each xip is lower, with hyphens between them.
func momentOf(snapshot string, now float64) (platform.Moment, error) {
	text, next := strconv.FormatInt(int64(now), 10), uint64(0)
	for at, number := range strings.FieldsFunc(snapshot, func(r rune) bool { return r == ':' || r == ',' }) {
		transaction, err := strconv.ParseUint(number, 10, 64)
		switch {
		case err != nil:
			return "", fmt.Errorf("the snapshot %q: %w", snapshot, err)
		case at == 1:
			next = transaction
			text += "-" + number
		case at > 1:
			text += "-" + strconv.FormatUint(next-transaction, 10)
		}
	}
	return platform.Moment(text), nil
}

// anyState is a list of all states, with which an index finds the rows of a time.
var anyState = "'" + strings.Join(strings.Fields(strings.Trim(fmt.Sprint(everyState), "[]")), "', '") + "'"

// A past has the conditions of queries for rows as they were at a moment.
type past struct {
	// isLater says that a row l of osb_lives was written after the moment. xmin has the lower 32 bits of a
	// transaction's number.
	isLater string
	// earliest is a time before the end of each stay that has ended since the moment. Rows that have been in their
	// state for longer stand where they stood.
	earliest string
}

// slack is for how many seconds a transaction may have run before a moment, and by how many the clock may have been set
// back since.
const slack = 600

// pastOf reads a moment.
func pastOf(moment platform.Moment) (past, error) {
	var numbers []uint64
	for _, text := range strings.Split(string(moment), "-") {
		number, err := strconv.ParseUint(text, 10, 63)
		if err != nil {
			return past{}, platform.ErrNoMoment
		}
		numbers = append(numbers, number)
	}
	if len(numbers) < 2 {
		return past{}, platform.ErrNoMoment
	}
	running := []string{}
	for _, lower := range numbers[2:] {
		running = append(running, strconv.FormatUint(uint64(uint32(numbers[1]-lower)), 10))
	}
	isLater := fmt.Sprintf("((l.xmin::text::bigint - %d) & 4294967295 < 2147483648 OR l.xmin = ANY ('{%s}'))",
		uint32(numbers[1]), strings.Join(running, ","))
	return past{isLater, fmt.Sprintf("least(%d, %s) - %d", numbers[0], start, slack)}, nil
}

// recent are the rows of a table that may have changed their state since the moment, as they were then: by the first
// stay that has ended since. The lower 32 bits say nothing of stays that have ended long before, so the time leaves
// them out.
func (p past) recent(of side) string {
	key := "t.id"
	if of.isBinding {
		key = "t.id, t.binding"
	}
	return "(SELECT DISTINCT ON (" + key + ") coalesce(l.state, t.state) AS state, coalesce(l.since, t.since) AS since, " +
		key + ", t.broker, t.first FROM " + of.table + " AS t LEFT JOIN osb_lives AS l ON l.id = " + of.life + " AND " +
		p.isLater + " AND NOT EXISTS (SELECT FROM osb_lives AS n WHERE n.id = l.id AND n.number > l.number " +
		"AND n.since < " + p.earliest + ") WHERE t.state IN (" + anyState + ") AND t.since >= " + p.earliest +
		" ORDER BY " + key + ", l.number)"
}
