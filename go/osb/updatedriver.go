package osb

/*
#include <osb.h>

// The structs cross by value: Go would put a struct on its heap whose address it gives to C.

struct update_stepped {
	struct osb_update_driver driver;
	uint32_t status;
};

static struct update_stepped new_update_driver(struct osb_update_driver numbered, bool is_request, bool has_lock) {
	struct update_stepped it;
	it.status = osb_update_driver_new(numbered.driver.number, is_request, has_lock, &it.driver);
	return it;
}

static struct update_stepped update_locked(struct update_stepped it, bool has_lock) {
	it.status = osb_update_driver_locked(&it.driver, has_lock);
	return it;
}

static struct update_stepped update_looked(struct update_stepped it, uint8_t there, struct osb_settings settings) {
	it.status = osb_update_driver_looked(&it.driver, there, &settings);
	return it;
}

static struct update_stepped update_synced(struct update_stepped it) {
	it.status = osb_update_driver_synced(&it.driver);
	return it;
}

static struct update_stepped update_called(struct update_stepped it, bool ok, uint16_t rejection) {
	it.status = osb_update_driver_called(&it.driver, ok, rejection);
	return it;
}

struct update_row_read {
	struct osb_update_transaction transaction;
	uint32_t status;
};

static struct update_row_read read_update_row(struct osb_update_driver driver, struct osb_update_reading row) {
	struct update_row_read it;
	it.status = osb_update_driver_read(&driver, &row, &it.transaction);
	return it;
}
*/
import "C"

// An UpdateDriver is a Driver of an instance that can be updated: the way of one request of the instance, of one Update
// of it, or of one take-up. It serves every instance, also one that was never updated. Its stages and its calls are
// those of a Driver, and the program carries them out in the same way. Bindings have a Driver. An UpdateDriver is a
// value and owns nothing. Each call returns the next driver, or with an error the driver as it was; step no driver
// twice.
type UpdateDriver struct {
	driver              Driver
	to, before          Settings
	outcome             UpdateOutcome
	isUpdate, hasBefore bool
}

// An UpdateReading is what a transaction of an UpdateDriver is given.
type UpdateReading struct {
	// Reading is what a Driver of the instance is given. Its Request counts only if IsUpdate is false.
	Reading
	// Change is what is held of the updates, read and locked in this transaction. If the row keeps nothing of updates,
	// it is NewUpdateHolding with the settings of the row's Provision, or without a row with those that the Provision
	// asks for.
	Change UpdateHolding
	// UpdateMode is how the Update is done whose work is pending: ModeSync or ModeAsync. It counts only if such work is
	// pending.
	UpdateMode Mode
	// The rest counts only at the first transaction of a request, and is zero for a take-up. Update is the Update that
	// is asked for if IsUpdate is true, and Allowed what the catalogue has for it. Parameters and Version are the
	// digests of what a Provision asks for.
	Update              Update
	Allowed             Allowed
	IsUpdate            bool
	Parameters, Version Digest
}

// An UpdateTransaction is what a transaction of an UpdateDriver comes to, once the row is read.
type UpdateTransaction struct {
	holding                  Holding
	change                   UpdateHolding
	number                   ID
	committed, unsure        UpdateDriver
	effect                   Effect
	outcome                  Outcome
	updateOutcome            UpdateOutcome
	ok, writes, writesChange bool
}

// NewUpdateDriver is a driver at its beginning, as NewDriver: of a request or an Update, or of a take-up.
//
// Errors: ErrBadDriver if the number is zero.
func NewUpdateDriver(number ID, isRequest, hasLock bool) (UpdateDriver, error) {
	numbered := UpdateDriver{driver: Driver{number: number}}
	return UpdateDriver{}.next(C.new_update_driver(numbered.c(), C.bool(isRequest), C.bool(hasLock)))
}

// Stage is the action that the program carries out next.
func (d UpdateDriver) Stage() Stage { return d.driver.stage }

// Number is the driver's own.
func (d UpdateDriver) Number() ID { return d.driver.number }

// IsUpdate reports whether the stage is one of an Update: at StageWork, StageEnd and StageFinish, the work is that of
// an Update; at StageAnswer, the answer is IsMaintenanceConflict. A driver that answers an Update isn't at such a stage
// before its work is due.
func (d UpdateDriver) IsUpdate() bool { return d.isUpdate }

// Task is at StageWork the request of the instance whose work is pending. It is none if the work is an operation, or if
// it is that of an Update.
func (d UpdateDriver) Task() (Request, bool) { return d.driver.task, d.driver.isPending && !d.isUpdate }

// Goal is at StageWork the settings to which an Update leads. There are none if the work is that of the instance.
func (d UpdateDriver) Goal() (Settings, bool) {
	return d.to, d.isUpdate && d.driver.stage == StageWork
}

// IsPending reports at StageWork whether the work is pending. Otherwise, it is the operation that runs.
func (d UpdateDriver) IsPending() bool { return d.driver.isPending }

// Before is at StageWork of an Update the settings of the row. There are none if an Update before has failed, since
// nobody knows then which settings the resource has.
func (d UpdateDriver) Before() (Settings, bool) { return d.before, d.hasBefore }

// Call is at StageWork the call of the backend to make next. It is CallNone if nobody knows how the work ended: then
// step the driver no more.
func (d UpdateDriver) Call() Call { return d.driver.call }

// Creates reports at StageWork whether the work is a creation. Otherwise, it is a deletion, or, with IsUpdate, an
// update.
func (d UpdateDriver) Creates() bool { return d.driver.creates }

// IsDone reports at StageEnd and at StageFinish whether the work has ended as it was asked for.
func (d UpdateDriver) IsDone() bool {
	if d.isUpdate && d.driver.stage == StageEnd {
		return d.outcome == UpdateOutcomeDone
	}
	return d.driver.IsDone()
}

// Answer is at StageAnswer what is sent, unless IsMaintenanceConflict is true.
func (d UpdateDriver) Answer() Answer { return d.driver.answer }

// IsMaintenanceConflict reports whether 422 with the error MaintenanceInfoConflict is sent, which no Answer stands for.
func (d UpdateDriver) IsMaintenanceConflict() bool {
	return d.isUpdate && d.driver.stage == StageAnswer
}

// Locked reports at StageAwaitLock whether the driver has the lock of its key after it has waited. A lock of which
// nobody knows isn't had.
//
// Errors: ErrBadDriver, ErrWrongStage.
func (d UpdateDriver) Locked(hasLock bool) (UpdateDriver, error) {
	return d.next(C.update_locked(d.step(), C.bool(hasLock)))
}

// Looked reports what the look of CallLook has found. The settings are those of the resource, and count only with
// IsUpdate, if the resource is whole. If they are between, report TherePart. A look that shows how the work has ended
// moves the driver on, to StageEnd or StageFinish. If a look has failed, nobody knows how the work ended: step the
// driver no more.
//
// Errors: ErrBadDriver, ErrBadThere, ErrWrongStage.
func (d UpdateDriver) Looked(there There, settings Settings) (UpdateDriver, error) {
	return d.next(C.update_looked(d.step(), C.uint8_t(there), settings.c()))
}

// Synced reports that what exists is on disk, with its settings (CallSync). If that has failed, step the driver no
// more.
//
// Errors: ErrBadDriver, ErrWrongStage.
func (d UpdateDriver) Synced() (UpdateDriver, error) {
	return d.next(C.update_synced(d.step()))
}

// Called reports that CallCreate, CallDelete or CallUpdate has returned, and whether without an error. The rejection is
// 400 or 422 if the backend has rejected the creation or the update with that status, and else 0.
//
// Errors: ErrBadDriver, ErrNotRefused, ErrWrongStage.
func (d UpdateDriver) Called(ok bool, rejection uint16) (UpdateDriver, error) {
	return d.next(C.update_called(d.step(), C.bool(ok), C.uint16_t(rejection)))
}

// step is the driver as it crosses.
func (d UpdateDriver) step() C.struct_update_stepped { return C.struct_update_stepped{driver: d.c()} }

// next is what a report gave, or with an error the driver before.
func (d UpdateDriver) next(after C.struct_update_stepped) (UpdateDriver, error) {
	if err := errorOf(after.status); err != nil {
		return d, err
	}
	return updateDriverOf(after.driver), nil
}

// Read is the transaction of a driver at StageBegin, StageEnd, StageFinish and StageUnsure. If the transaction that it
// returns Writes, write its row, and commit. Work that only starts an operation needs no call of the backend: the
// driver that is committed is at StageEnd then. A driver that an Update begins does its work as Allowed says, and any
// other one as UpdateMode says.
//
// Errors: ErrBadDriver, ErrBadHolding (of either), ErrBadMode (ModeNone as UpdateMode too), ErrBadKind, ErrBadAllowed,
// ErrWrongStage; ErrMisfit if the row doesn't fit its plan, or its pending work is of another id. Such a row is left
// alone.
func (d UpdateDriver) Read(row UpdateReading) (UpdateTransaction, error) {
	it := C.read_update_row(d.c(), row.c())
	if err := errorOf(it.status); err != nil {
		return UpdateTransaction{}, err
	}
	return updateTransactionOf(it.transaction), nil
}

// Row is what the row has to have: the holding of the instance, that of its updates, and the number.
func (t UpdateTransaction) Row() (Holding, UpdateHolding, ID) { return t.holding, t.change, t.number }

// Writes reports whether the row has to be written: one of the holdings or the number changed.
func (t UpdateTransaction) Writes() bool { return t.writes }

// WritesChange reports whether the holding of the updates changed. If it didn't, a row that keeps nothing of updates
// goes on to keep nothing.
func (t UpdateTransaction) WritesChange() bool { return t.writesChange }

// Committed is the driver once the commit has returned.
func (t UpdateTransaction) Committed() UpdateDriver { return t.committed }

// Unsure is the driver if nobody knows whether the transaction was committed.
func (t UpdateTransaction) Unsure() UpdateDriver { return t.unsure }

// Effect is the event that the transaction is, once it is committed: of EffectEnd with the outcome, and of EffectFinish
// and EffectFinishUpdate with whether the operation succeeded. EffectEndUpdate has UpdateOutcome.
func (t UpdateTransaction) Effect() (effect Effect, outcome Outcome, ok bool) {
	return t.effect, t.outcome, t.ok
}

// UpdateOutcome is of EffectEndUpdate how the work ended.
func (t UpdateTransaction) UpdateOutcome() UpdateOutcome { return t.updateOutcome }
