package sqlitefile

import (
	"path/filepath"
	"testing"

	"pippinterm/internal/diff"
	"pippinterm/internal/storefaults"
)

// A row is known until another connection writes, or until it is forgotten. A transaction that can't tell fails.
func TestKnownRows(t *testing.T) {
	by, with := &storefaults.Driver{}, options()
	with.Driver = by
	path := filepath.Join(t.TempDir(), "notes")
	file, other := open(t, path, with), open(t, path, options())
	var known KnownRows[string, int]
	row := 7
	isKnown := func() (is bool) {
		t.Helper()
		diff.NoError(t, file.Write(background, func(*notes) error {
			err := known.Begin()
			is = known.Of("row") != nil
			known.Keep("row", &row)
			return err
		}), "Write")
		return is
	}
	diff.NoError(t, file.Write(background, func(n *notes) error { return known.Prepare(background, n.Conn) }), "Prepare")
	diff.Equal(t, isKnown(), false, "known in the first transaction")
	diff.NoError(t, file.Write(background, note("its own")), "")
	diff.Equal(t, isKnown(), true, "known after a write of its own connection")
	diff.NoError(t, other.Write(background, note("another's")), "")
	diff.Equal(t, isKnown(), false, "known after a write of another connection")
	known.Forget("row")
	diff.Equal(t, isKnown(), false, "known once it is forgotten")
	diff.ErrorIs(t, file.Write(background, func(*notes) error {
		by.Fail(1, storefaults.Refused)
		defer by.Fail(0, storefaults.Refused)
		return known.Begin()
	}), storefaults.ErrFault, "Begin")
}

// No more rows are known than a limit, and none before the first transaction.
func TestFewRowsAreKnown(t *testing.T) {
	var known KnownRows[int, int]
	row := 7
	known.Keep(1, &row)
	diff.Equal(t, known.Of(1) == nil, true, "known before the first transaction: none")
	known.ForgetAll()
	for n := 0; n < MostKnown+2; n++ {
		known.Keep(n, &row)
		diff.Equal(t, known.Of(n) == &row, true, "row %d is known", n)
	}
	known.Keep(MostKnown+1, &row)
	diff.Equal(t, len(known.rows), MostKnown, "rows")
}
