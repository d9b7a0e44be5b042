package osb

/*
#include <osb.h>

// These are asked several times for each request. The holding crosses by value, as a driver does.

static bool fits(struct osb_holding holding, uint8_t mode) { return osb_holding_fits(&holding, mode); }

static bool is_held(struct osb_holding holding) { return osb_holding_is_held(&holding); }
*/
import "C"

import "database/sql/driver"

// A Holding is what a broker keeps of one instance, for a row of a database: a row or none, pending work or none, the
// digest of the attributes of both, and a tombstone if the instance has ended. It is a value, may be copied and
// compared, and owns nothing. The zero Holding holds nothing: an id without any request has that. Each call returns the
// next holding, or with an error the holding as it was.
type Holding struct {
	row                           BrokerRow
	work                          Request
	hasRow, hasWork, hasTombstone bool
	attributes                    Digest
}

// A Digest is that of what a Provision asks for besides service and plan. The zero Digest is that of nothing.
type Digest [32]byte

// The Rules of a Provision: whether the broker has the rule of the first Poll, and the digest of its attributes.
type Rules struct {
	// FirstPoll has the instance of an asynchronous plan made only once it was polled.
	FirstPoll bool
	// Attributes is the digest of what a Provision asks for, as AttributesDigest returns it. For other requests it
	// doesn't count.
	Attributes Digest
}

// A BrokerRow is an instance that a broker holds.
type BrokerRow struct {
	Service, Plan ID
	Phase         Phase
}

// A Begun is the immediate result of a request: an answer to send if Work is WorkNone, and else the work that is due
// and pending.
type Begun struct {
	Answer Answer
	Work   Work
}

// Row is the instance that is held, and whether one is.
func (h Holding) Row() (BrokerRow, bool) { return h.row, h.hasRow }

// Work is the request whose work is pending, and whether there is one.
func (h Holding) Work() (Request, bool) { return h.work, h.hasWork }

// HasTombstone reports whether the instance has ended: none with this id is ever made again.
func (h Holding) HasTombstone() bool { return h.hasTombstone }

// Attributes is the digest of the attributes of row and work.
func (h Holding) Attributes() Digest { return h.attributes }

// Fits reports whether the holding is possible at a plan of the mode, that of the row's plan, or if there is no row
// that of the pending request's. A program asks it of each holding of its database: at another mode End would forget
// what was made.
func (h Holding) Fits(mode Mode) bool {
	return bool(C.fits(h.c(), C.uint8_t(mode)))
}

// Begin begins with a request to this instance: it is answered, or its work is pending. The mode is that of the
// request's plan. With Rules.FirstPoll, the Provision of an asynchronous plan leaves a row in PhaseWaiting, and its
// first Poll one in PhaseMaking, whose operation runs from then on. A Provision of the same service and plan with other
// attributes is answered with 409. If the holding changed, write it to the database before the work begins or the
// answer is sent.
//
// Errors: ErrBadHolding, ErrBadMode, ErrBadKind.
func (h Holding) Begin(mode Mode, request Request, rules Rules) (Holding, Begun, error) {
	holding, asked, attributes := h.c(), request.c(), rules.Attributes.c()
	var begun C.struct_osb_begun
	return h.next(&holding, &begun, C.osb_holding_begin(
		&holding, C.uint8_t(mode), C.bool(rules.FirstPoll), &asked, &attributes[0], &begun))
}

// BeginIf begins with a request as Begin does, but if mayBegin is false, nothing begins: a request whose work would be
// due is answered as if work were pending, and nothing changes. For an instance that may have bindings, mayBegin is
// whether IsHeld is false of each of them. Read it in the transaction that writes the holding. A Deprovision is then
// answered with 422.
//
// Errors: ErrBadHolding, ErrBadMode, ErrBadKind.
func (h Holding) BeginIf(mode Mode, request Request, rules Rules, mayBegin bool) (Holding, Begun, error) {
	holding, asked, attributes := h.c(), request.c(), rules.Attributes.c()
	var begun C.struct_osb_begun
	return h.next(&holding, &begun, C.osb_holding_begin_if(
		&holding, C.uint8_t(mode), C.bool(rules.FirstPoll), &asked, &attributes[0], C.bool(mayBegin), &begun))
}

// next is what a call that begins gave, or with an error the holding before.
func (h Holding) next(holding *C.struct_osb_holding, begun *C.struct_osb_begun, status C.uint32_t) (
	Holding, Begun, error,
) {
	if err := errorOf(status); err != nil {
		return h, Begun{}, err
	}
	return holdingOf(*holding), begunOf(*begun), nil
}

// c is the digest as it crosses.
func (d Digest) c() (to [32]C.uint8_t) {
	for at, one := range d {
		to[at] = C.uint8_t(one)
	}
	return to
}

// IsHeld reports whether there is a row, or work is pending. It is true also of a holding that no call gives, so that
// nothing begins then. While a binding is held, the deletion of its instance doesn't begin.
func (h Holding) IsHeld() bool {
	return h.hasRow || h.hasWork || bool(C.is_held(h.c())) // what is there needs no call
}

// IsThere reports whether the row is ready, with this service and plan, and no work is pending. BeginBinding asks this
// of the instance's holding.
func (h Holding) IsThere(service, plan ID) bool {
	holding := h.c()
	return bool(C.osb_holding_is_there(&holding, service.c(), plan.c()))
}

// End ends the pending work with this outcome, and returns the answer to its request. The mode is that of the pending
// request's plan, and has to fit. A refusal leaves the tombstone. Write the holding to the database before the answer
// is sent.
//
// Errors: ErrBadHolding, ErrBadMode, ErrBadOutcome, ErrNothingBegun, ErrNotAProvision.
func (h Holding) End(mode Mode, outcome Outcome) (Holding, Answer, error) {
	holding := h.c()
	var answer C.struct_osb_answer
	if err := errorOf(C.osb_holding_end(&holding, C.uint8_t(mode), C.uint8_t(outcome), &answer)); err != nil {
		return h, Answer{}, err
	}
	return holdingOf(holding), answerOf(answer), nil
}

// Finish ends the operation that runs on the instance, well (ok) or badly. The result is written to the database before
// anything is reported.
//
// Errors: ErrBadHolding, ErrNothingRunning.
func (h Holding) Finish(ok bool) (Holding, error) {
	holding := h.c()
	if err := errorOf(C.osb_holding_finish(&holding, C.bool(ok))); err != nil {
		return h, err
	}
	return holdingOf(holding), nil
}

// GiveUpWaiting gives up an instance that has waited too long for its first Poll: it has failed then, and nothing of it
// was made. Write the holding to the database before anything is reported.
//
// Errors: ErrBadHolding, ErrNotWaiting.
func (h Holding) GiveUpWaiting() (Holding, error) {
	holding := h.c()
	if err := errorOf(C.osb_holding_give_up_waiting(&holding)); err != nil {
		return h, err
	}
	return holdingOf(holding), nil
}

// MarshalJSON writes the text of the holding, an object of JSON, for a column of a database.
//
// Errors: ErrBadHolding, ErrMemory.
func (h Holding) MarshalJSON() ([]byte, error) {
	holding := h.c()
	return textFrom(func(buffer *C.uint8_t, bytes C.size_t, needed *C.size_t) C.uint32_t {
		return C.osb_holding_to_text(&holding, buffer, bytes, needed)
	})
}

// UnmarshalJSON reads the text of a holding. Where it is refused the holding is as before.
//
// Errors: ErrNotUTF8, ErrNotJSON, ErrNotAnObject, ErrBadVersion, ErrBadOuter, ErrBadMember, ErrImpossible, ErrMemory.
func (h *Holding) UnmarshalJSON(text []byte) error {
	var holding C.struct_osb_holding
	if err := errorOf(C.osb_holding_from_text(pointer(text), size(text), &holding)); err != nil {
		return err
	}
	*h = holdingOf(holding)
	return nil
}

// Value is the holding's text, for a column of the type text, json or jsonb.
func (h Holding) Value() (driver.Value, error) { return valueOf(h.MarshalJSON()) }

// Scan reads the holding's text from a column. NULL is no holding's; the zero Holding has a text too.
func (h *Holding) Scan(column any) error { return scan(column, h.UnmarshalJSON) }

// String is the holding's text, or where it is none what is wrong with it.
func (h Holding) String() string { return stringOf(h.MarshalJSON()) }

// WorkOf is the work that a request of the kind means at a plan of the mode. It is WorkNone of a Poll, at ModeNone, and
// where a number stands for nothing.
func WorkOf(kind Kind, mode Mode) Work {
	return Work(C.osb_work_of(C.uint8_t(kind), C.uint8_t(mode)))
}
