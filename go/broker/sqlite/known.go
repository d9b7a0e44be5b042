package sqlite

import (
	"time"

	"pippinterm/broker"
	"pippinterm/internal/sqlitefile"
)

// longestKnown is how long the texts of any length of an entry are together at most, in bytes, if it is known.
const longestKnown = 1 << 10

// knownRows are the unfinished entries that the connection that writes has written: the end of their work is written
// without reading them.
type knownRows struct {
	sqlitefile.KnownRows[broker.Key, broker.Entry]
}

// keep notes an entry that was written, as it is read.
func (k *knownRows) keep(key broker.Key, entry broker.Entry) {
	if len(entry.Request)+len(entry.Binding)+len(entry.Description) > longestKnown {
		return
	}
	if !entry.Since.IsZero() {
		entry.Since = time.UnixMilli(entry.Since.UnixMilli()).UTC()
	}
	k.Keep(key, &entry)
}
