package sqlite

import (
	"time"
	"unicode/utf8"

	"pippinterm/internal/sqlitefile"
	"pippinterm/osb"
	"pippinterm/platform"
)

// longestKnown is how long the texts of any length of a row are together at most, in bytes, if it is known.
const longestKnown = 1 << 10

// knownRows are the rows that a step of a worker needn't read: those that the step before it has written, and those that
// the transaction has read ahead.
type knownRows struct {
	sqlitefile.KnownRows[platform.Key, platform.Entry]
	ahead map[platform.Key]*platform.Entry // of any length
}

// begin is called in each transaction of the connection that writes, before anything is read or written.
func (k *knownRows) begin() error {
	k.ahead = map[platform.Key]*platform.Entry{}
	return k.Begin()
}

// of is the row of a key, or nil if it isn't known.
func (k *knownRows) of(key platform.Key) *platform.Entry {
	if entry := k.Of(key); entry != nil {
		return entry
	}
	return k.ahead[key]
}

// forget has a row read again.
func (k *knownRows) forget(key platform.Key) {
	k.Forget(key)
	delete(k.ahead, key)
}

// forgetAll has all rows read again.
func (k *knownRows) forgetAll() {
	k.ForgetAll()
	k.ahead = map[platform.Key]*platform.Entry{}
}

// keep notes a row that was written, and changes it to what is read. One that rests is forgotten: nothing is to be done
// for it.
func (k *knownRows) keep(entry *platform.Entry) {
	length := len(entry.Body) + len(entry.Metadata) + len(entry.Credentials) + len(entry.Dashboard)
	k.forget(entry.Key)
	if !entry.Rests() && length <= longestKnown && asRead(entry) {
		k.Keep(entry.Key, entry)
	}
}

// asRead changes an entry, whose order was read and whose rest was written, to what entryOf reads then. It returns false
// if only reading shows that.
func asRead(e *platform.Entry) bool {
	for _, column := range timeColumns {
		switch member := column.Member(e).(type) {
		case *time.Time:
			if !member.IsZero() {
				*member = round(*member)
			}
		case *time.Duration:
			*member = member.Truncate(time.Millisecond)
		}
	}
	e.Last.At, e.Failure.At = e.Last.At.UTC(), e.Failure.At.UTC()
	if !e.DueSince.IsZero() {
		e.DueSince = time.UnixMilli(e.DueSince.UnixMilli()).UTC()
	}
	if !e.IsSent {
		e.Record = osb.Record{}
	}
	return isText(e.Last) && isText(e.Failure) && (e.Metadata == nil) == (len(e.Metadata) == 0) &&
		(e.Credentials == nil) == (len(e.Credentials) == 0)
}

// isText reports whether JSON has the texts of a reason as they are.
func isText(of platform.Reason) bool {
	return utf8.ValidString(of.Kind) && utf8.ValidString(of.Error) && utf8.ValidString(of.Description) &&
		utf8.ValidString(of.Lost)
}
