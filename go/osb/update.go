package osb

/*
#include <osb.h>
*/
import "C"

import "database/sql/driver"

// A broker keeps an UpdateHolding of each instance beside its Holding, from the first Update on. An update is under way
// if the work of an Update is pending or its operation runs. The instance is available if its row is ready and no work
// of it is pending. Two rules tie both together: no Update begins unless the instance is available
// (UpdateHolding.Begin), and no deletion of the instance begins while an update is under way
// (UpdateHolding.BeginInstance). Read both, locked, in the transaction that writes one of them.

// Settings are what an instance is set to. What goes into the digests is the broker's choice.
type Settings struct {
	Plan       ID     // plan_id
	Parameters Digest // the digest of the parameters
	Version    Digest // the digest of maintenance_info.version
}

// A Change is the settings that an Update names. What it doesn't name stays. The zero Change names none.
type Change struct {
	Plan                               ID     // it counts if HasPlan is true
	Parameters                         Digest // they count if HasParameters is true
	Version                            Digest // it counts if HasVersion is true
	HasPlan, HasParameters, HasVersion bool
}

// An Update is a request to change an instance: PATCH on the instance (section Updating a Service Instance).
type Update struct {
	Service           ID     // service_id
	Change            Change // the settings that it names
	Number            uint64 // its number among the Updates of the instance, from 1, or 0 if it has none
	AcceptsIncomplete bool   // whether the operation may be asynchronous
}

// An UpdateHolding is what a broker keeps of the updates of one instance, for a column of the instance's row that is
// null until the first Update: the settings, the greatest number of an Update that was judged, and how far the latest
// update has come. It is a value, may be copied and compared, and owns nothing. Each call returns the next one, or with
// an error the one as it was.
type UpdateHolding struct {
	settings, to Settings
	number       uint64
	phase        UpdatePhase
}

// An UpdateBegun is the immediate result of an Update: work that is due and pending if HasWork is true, an answer with
// the status 422 and the error MaintenanceInfoConflict if IsMaintenanceConflict is true, and else Answer.
type UpdateBegun struct {
	To                    Settings // the settings to which the work leads
	Answer                Answer   // the answer to send
	Mode                  Mode     // how the work is done: ModeSync or ModeAsync
	HasWork               bool
	IsMaintenanceConflict bool
}

// An UpdateFetched is the result of a Fetch of an instance: the status 200 with the settings and the number if IsFound
// is true, and else Answer.
type UpdateFetched struct {
	Settings Settings
	Number   uint64
	Answer   Answer
	IsFound  bool
}

// With are the settings that an Update asks for which comes for an instance with these: what the change names, and else
// what there was.
func (s Settings) With(change Change) Settings {
	settings, named := s.c(), change.c()
	var asked C.struct_osb_settings
	C.osb_update_asked_for(&settings, &named, &asked)
	return settingsOf(asked)
}

// NewUpdateHolding is that of an instance of which no Update was judged, with the settings of its Provision. Its phase
// is UpdatePhaseSettled, and its number is 0.
func NewUpdateHolding(settings Settings) UpdateHolding {
	provisioned := settings.c()
	var holding C.struct_osb_update_holding
	C.osb_update_new(&provisioned, &holding)
	return updateHoldingOf(holding)
}

// Settings are those of the Provision, or of the last update that has succeeded.
func (u UpdateHolding) Settings() Settings { return u.settings }

// WithPlan is the holding in which the plan of the Settings goes by another id. It is for an UpdateReading of a
// Provision that names the plan that the instance has now, if the row of the instance keeps the plan with which it was
// created: give both, the holding and the Request, the plan of the row. Then UpdateDriver.Read compares the other
// settings, and the table of the instance finds its own plan. Such a holding is never written: a Provision of an
// instance that has a row changes nothing of the updates.
func (u UpdateHolding) WithPlan(plan ID) UpdateHolding {
	u.settings.Plan = plan
	return u
}

// Number is the greatest number of an Update that was judged, or 0.
func (u UpdateHolding) Number() uint64 { return u.number }

// Phase is how far the latest update has come.
func (u UpdateHolding) Phase() UpdatePhase { return u.phase }

// Goal is the settings to which the pending work or the operation leads, and whether there is such a one.
func (u UpdateHolding) Goal() (Settings, bool) {
	return u.to, u.phase == UpdatePhasePending || u.phase == UpdatePhaseUpdating || u.phase == UpdatePhaseMending
}

// IsUnderWay reports whether the work of an Update is pending, or its operation runs. It is true also of a holding that
// no call gives, so that nothing begins then.
func (u UpdateHolding) IsUnderWay() bool {
	holding := u.c()
	return bool(C.osb_update_is_under_way(&holding))
}

// Begin begins with an Update: it is answered, or its work is pending. The instance is the holding of the instance.
// allowed is what the catalogue has for the settings that the Update asks for: Settings().With(update.Change). The
// first line that fits:
//
//   - The instance has neither a row nor pending work: 404, and nothing changes.
//   - The instance isn't available: 422 ConcurrencyError, and nothing changes.
//   - The row has another service: 400, and nothing changes.
//   - The Update has a number that is lower than the one that is held: 409, and nothing changes.
//   - It has the number that is held: 422 ConcurrencyError if its work is pending, 202 if the operation to the settings
//     that are asked for runs, 200 if the resource has them, else 500; nothing changes.
//   - It has no number, and the operation to the settings that are asked for runs: 202, and nothing changes.
//   - An update is under way: 422 ConcurrencyError, and nothing changes.
//   - The resource has the settings that are asked for: 200.
//   - The catalogue rejects it: 400 or 422, or 422 MaintenanceInfoConflict.
//   - It has to be asynchronous, and doesn't accept that: 422 AsyncRequired.
//   - Its work is due and pending.
//
// In the last four lines, the Update is judged, and its number is held. If the latest update has failed, nobody knows
// which settings the resource has: the first of these four never fits then, and what the next two reject is answered
// with 500. If the holding changed, write it to the database before the work begins or the answer is sent.
//
// Errors: ErrBadHolding, ErrBadAllowed.
func (u UpdateHolding) Begin(instance Holding, allowed Allowed, update Update) (UpdateHolding, UpdateBegun, error) {
	holding, beside, asked := u.c(), instance.c(), update.c()
	var begun C.struct_osb_update_begun
	status := C.osb_update_begin(&holding, &beside, C.uint8_t(allowed), &asked, &begun)
	if err := errorOf(status); err != nil {
		return u, UpdateBegun{}, err
	}
	return updateHoldingOf(holding), updateBegunOf(begun), nil
}

// End ends the pending work of an Update with this outcome, and returns the answer to the Update. The mode is that of
// the UpdateBegun. The number stays. Write the holding to the database before the answer is sent.
//
// Errors: ErrBadHolding, ErrBadMode (ModeNone too), ErrBadOutcome, ErrNothingBegun.
func (u UpdateHolding) End(mode Mode, outcome UpdateOutcome) (UpdateHolding, Answer, error) {
	holding := u.c()
	var answer C.struct_osb_answer
	if err := errorOf(C.osb_update_end(&holding, C.uint8_t(mode), C.uint8_t(outcome), &answer)); err != nil {
		return u, Answer{}, err
	}
	return updateHoldingOf(holding), answerOf(answer), nil
}

// Finish ends the operation of an Update, which succeeded (ok) or failed. If it succeeded, the holding is settled with
// the settings of the operation, and else it is failed. Write the holding to the database before a Poll is answered by
// it.
//
// Errors: ErrBadHolding, ErrNothingUpdating.
func (u UpdateHolding) Finish(ok bool) (UpdateHolding, error) {
	holding := u.c()
	if err := errorOf(C.osb_update_finish(&holding, C.bool(ok))); err != nil {
		return u, err
	}
	return updateHoldingOf(holding), nil
}

// Poll is the answer to a Poll of an instance that is available: 200, in progress while an update is under way,
// succeeded if the holding is settled, failed if the latest update has failed. If it returns ErrNotAvailable, Begin of
// the instance's holding answers.
//
// Errors: ErrBadHolding, ErrNotAvailable.
func (u UpdateHolding) Poll(instance Holding) (Answer, error) {
	holding, beside := u.c(), instance.c()
	var answer C.struct_osb_answer
	if err := errorOf(C.osb_update_poll(&holding, &beside, &answer)); err != nil {
		return Answer{}, err
	}
	return answerOf(answer), nil
}

// Fetch is the result of a Fetch of the instance that its service and plan allow: 200 with the settings and the number
// that is held, if the instance is available and the holding is settled; 422 ConcurrencyError if the instance is
// available and the holding isn't settled; else 404.
//
// Errors: ErrBadHolding.
func (u UpdateHolding) Fetch(instance Holding) (UpdateFetched, error) {
	holding, beside := u.c(), instance.c()
	var fetched C.struct_osb_update_fetched
	if err := errorOf(C.osb_update_fetch(&holding, &beside, &fetched)); err != nil {
		return UpdateFetched{}, err
	}
	return updateFetchedOf(fetched), nil
}

// BeginInstance begins with a request to an instance of which an update may be under way, as Holding.BeginIf does.
// anyHeld is whether IsHeld is true of a binding of the instance. If it is, or while an update is under way, nothing
// begins: a Deprovision whose work would be due is answered with 422 ConcurrencyError, and nothing changes. The result
// is the next holding of the instance, or with an error the one as it was. If the instance has a row, compare the
// settings that a Provision asks for first (docs/c.md).
//
// Errors: ErrBadHolding, ErrBadMode, ErrBadKind.
func (u UpdateHolding) BeginInstance(
	instance Holding, mode Mode, request Request, rules Rules, anyHeld bool,
) (Holding, Begun, error) {
	holding, next, asked, attributes := u.c(), instance.c(), request.c(), rules.Attributes.c()
	var begun C.struct_osb_begun
	return instance.next(&next, &begun, C.osb_update_begin_instance(&holding, &next, C.uint8_t(mode),
		C.bool(rules.FirstPoll), &asked, &attributes[0], C.bool(anyHeld), &begun))
}

// MarshalJSON writes the text of the holding of updates, an object of JSON, for a column of a database.
//
// Errors: ErrBadHolding, ErrMemory.
func (u UpdateHolding) MarshalJSON() ([]byte, error) {
	holding := u.c()
	return textFrom(func(buffer *C.uint8_t, bytes C.size_t, needed *C.size_t) C.uint32_t {
		return C.osb_update_holding_to_text(&holding, buffer, bytes, needed)
	})
}

// UnmarshalJSON reads the text of a holding of updates. If the text is rejected, the holding is as before.
//
// Errors: ErrNotUTF8, ErrNotJSON, ErrNotAnObject, ErrBadVersion, ErrBadOuter, ErrBadMember, ErrMemory.
func (u *UpdateHolding) UnmarshalJSON(text []byte) error {
	var holding C.struct_osb_update_holding
	if err := errorOf(C.osb_update_holding_from_text(pointer(text), size(text), &holding)); err != nil {
		return err
	}
	*u = updateHoldingOf(holding)
	return nil
}

// Value is the text of the holding of updates, for a column of the type text, json or jsonb.
func (u UpdateHolding) Value() (driver.Value, error) { return valueOf(u.MarshalJSON()) }

// Scan reads the text of a holding of updates from a column. NULL is none's: NewUpdateHolding has what NULL stands for.
func (u *UpdateHolding) Scan(column any) error { return scan(column, u.UnmarshalJSON) }

// String is the text of the holding of updates, or if it has none what is wrong with it.
func (u UpdateHolding) String() string { return stringOf(u.MarshalJSON()) }
