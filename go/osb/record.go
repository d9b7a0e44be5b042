package osb

// #include <osb.h>
import "C"

import "database/sql/driver"

// A Record is what a platform keeps of one instance, for a row of a database. It is a value, may be copied and
// compared, and owns nothing. Each call gives the next record, or with an error the record as it was. There is no
// record but those that the calls give: the zero Record is refused with ErrBadRecord.
type Record struct {
	service, plan ID
	attempt       uint64
	state         State
	inFlight      Kind
}

// A PlatformRow is an instance as a saved record of version 0.2 or earlier names it (docs/saved-record.md).
type PlatformRow struct {
	Service, Plan ID
	State         State
	InFlight      Kind // the kind of the request in flight, or KindNone
}

// Create is a new instance, wanted, and its Provision, which is then in flight with the number 1. The record is
// written to the database under the id before the request is sent, and never deleted; the database has to refuse an
// id that is there.
func Create(id, service, plan ID, acceptsIncomplete bool) (Record, Sent) {
	var record C.struct_osb_record
	var request C.struct_osb_request
	C.osb_record_create(id.c(), service.c(), plan.c(), C.bool(acceptsIncomplete), &record, &request)
	return recordOf(record), Sent{Request: requestOf(request), Attempt: uint64(record.attempt)}
}

// RecordFromRow returns the first record of an instance that a saved record names, as after a restart: wanted becomes
// cleaning, nothing is in flight, and the attempt is 0. Call it once for each instance, when a platform moves from a
// saved record to a database.
//
// Errors: ErrBadRow.
func RecordFromRow(row PlatformRow) (Record, error) {
	var record C.struct_osb_record
	given := row.c()
	if err := errorOf(C.osb_record_from_row(&given, &record)); err != nil {
		return Record{}, err
	}
	return recordOf(record), nil
}

// Service is the instance's service.
func (r Record) Service() ID { return r.service }

// Plan is the instance's plan.
func (r Record) Plan() ID { return r.plan }

// State is what is known of the instance.
func (r Record) State() State { return r.state }

// InFlight is the kind of the request in flight, or KindNone.
func (r Record) InFlight() Kind { return r.inFlight }

// Attempt is the number of the latest request, and 0 before the first.
func (r Record) Attempt() uint64 { return r.attempt }

// Send gives the request that is due, which is then in flight with the next number: a Poll in polling and
// cleaning-polling, a Deprovision in cleaning. The id is that of Create, the key of the record's row.
//
// Errors: ErrBadRecord, ErrBusy, ErrNothingDue, ErrAttemptsUsedUp.
func (r Record) Send(id ID) (Record, Sent, error) {
	record := r.c()
	var request C.struct_osb_request
	if err := errorOf(C.osb_record_send(&record, id.c(), &request)); err != nil {
		return r, Sent{}, err
	}
	return recordOf(record), Sent{Request: requestOf(request), Attempt: uint64(record.attempt)}, nil
}

// Answer takes the answer to the request of this number: the state becomes what the table of its kind gives, and
// nothing is in flight.
//
// Errors: ErrBadRecord, ErrNotInFlight.
func (r Record) Answer(attempt uint64, answer Answer) (Record, error) {
	record := r.c()
	return r.next(&record, C.osb_record_answer(&record, C.uint64_t(attempt), answer.c()))
}

// Timeout gives up the request of this number: wanted becomes cleaning, every other state stays, and nothing is in
// flight. So is done with what was in flight when a platform crashed.
//
// Errors: ErrBadRecord, ErrNotInFlight.
func (r Record) Timeout(attempt uint64) (Record, error) {
	record := r.c()
	return r.next(&record, C.osb_record_timeout(&record, C.uint64_t(attempt)))
}

// Expire gives up polling, as the maximum polling duration has passed: polling becomes cleaning.
//
// Errors: ErrBadRecord, ErrBusy, ErrNotPolling.
func (r Record) Expire() (Record, error) {
	record := r.c()
	return r.next(&record, C.osb_record_expire(&record))
}

// Retry sends a deletion again, for one whose maximum polling duration has passed, or that the broker never ends:
// cleaning-polling becomes cleaning.
//
// Errors: ErrBadRecord, ErrBusy, ErrNotPolling.
func (r Record) Retry() (Record, error) {
	record := r.c()
	return r.next(&record, C.osb_record_retry(&record))
}

// Remove has the instance deleted, as an operator asks: polling, ready and unsettled become cleaning.
//
// Errors: ErrBadRecord, ErrBusy, ErrNotRemovable.
func (r Record) Remove() (Record, error) {
	record := r.c()
	return r.next(&record, C.osb_record_remove(&record))
}

// RemoveIf has an instance deleted that may have bindings, as Remove does. allGone is true if each binding of the
// instance that is recorded is gone, as IsGone returns it. Read it in the transaction that writes the record, with the
// record locked. RemoveIf waits for no binding and removes none: do that first.
//
// Errors: ErrBadRecord, ErrBusy, ErrNotRemovable, ErrBound.
func (r Record) RemoveIf(allGone bool) (Record, error) {
	record := r.c()
	return r.next(&record, C.osb_record_remove_if(&record, C.bool(allGone)))
}

// IsReady reports whether ready is recorded. A binding of an instance is created only then.
func (r Record) IsReady() bool {
	record := r.c()
	return bool(C.osb_record_is_ready(&record))
}

// IsGone reports whether gone is recorded. An instance is removed only once each of its bindings is gone.
func (r Record) IsGone() bool {
	record := r.c()
	return bool(C.osb_record_is_gone(&record))
}

// next is the record that a call gave, or the one before where it wasn't done.
func (r Record) next(record *C.struct_osb_record, status C.uint32_t) (Record, error) {
	if err := errorOf(status); err != nil {
		return r, err
	}
	return recordOf(*record), nil
}

// MarshalJSON writes the text of the record, an object of JSON, for a column of a database.
//
// Errors: ErrBadRecord, ErrMemory.
func (r Record) MarshalJSON() ([]byte, error) {
	record := r.c()
	return textFrom(func(buffer *C.uint8_t, bytes C.size_t, needed *C.size_t) C.uint32_t {
		return C.osb_record_to_text(&record, buffer, bytes, needed)
	})
}

// UnmarshalJSON reads the text of a record. Where it is refused the record is as before.
//
// Errors: ErrNotUTF8, ErrNotJSON, ErrNotAnObject, ErrBadVersion, ErrBadOuter, ErrBadMember, ErrImpossible, ErrMemory.
func (r *Record) UnmarshalJSON(text []byte) error {
	var record C.struct_osb_record
	if err := errorOf(C.osb_record_from_text(pointer(text), size(text), &record)); err != nil {
		return err
	}
	*r = recordOf(record)
	return nil
}

// Value is the record's text, for a column of the type text, json or jsonb.
func (r Record) Value() (driver.Value, error) { return valueOf(r.MarshalJSON()) }

// Scan reads the record's text from a column. NULL is no record's.
func (r *Record) Scan(column any) error { return scan(column, r.UnmarshalJSON) }

// String is the record's text, or where it is none what is wrong with it.
func (r Record) String() string { return stringOf(r.MarshalJSON()) }

// valueOf is a text as a column takes it.
func valueOf(text []byte, err error) (driver.Value, error) {
	if err != nil {
		return nil, err
	}
	return string(text), nil
}

// stringOf is a text as a person reads it.
func stringOf(text []byte, err error) string {
	if err != nil {
		return err.Error()
	}
	return string(text)
}
