package osb

/*
#include <osb.h>

// The structs cross by value: Go would put a struct on its heap whose address it gives to C.

struct stepped {
	struct osb_driver driver;
	uint32_t status;
};

static struct stepped new_driver(struct osb_driver numbered, bool is_request, bool has_lock) {
	struct stepped it;
	it.status = osb_driver_new(numbered.number, is_request, has_lock, &it.driver);
	return it;
}

static struct stepped locked(struct stepped it, bool has_lock) {
	it.status = osb_driver_locked(&it.driver, has_lock);
	return it;
}

static struct stepped looked(struct stepped it, uint8_t there) {
	it.status = osb_driver_looked(&it.driver, there);
	return it;
}

static struct stepped synced(struct stepped it) {
	it.status = osb_driver_synced(&it.driver);
	return it;
}

static struct stepped called(struct stepped it, bool ok, uint16_t rejection) {
	it.status = osb_driver_called(&it.driver, ok, rejection);
	return it;
}

struct row_read {
	struct osb_transaction transaction;
	uint32_t status;
};

static struct row_read read_row(struct osb_driver driver, struct osb_reading row) {
	struct row_read it;
	it.status = osb_driver_read(&driver, &row, &it.transaction);
	return it;
}

static struct row_read read_binding(struct osb_driver driver, struct osb_reading row, struct osb_holding instance) {
	struct row_read it;
	it.status = osb_binding_driver_read(&driver, &row, &instance, &it.transaction);
	return it;
}
*/
import "C"

// A Driver is the way of one request through a broker, or of one take-up, which goes on with what a dead worker has
// left. It says the one action that the program carries out next (Stage), and the program reports what came of it: by
// Locked, by Looked, Synced or Called, or by one of the drivers of a Transaction. So the program decides nothing. A Driver
// is a value and owns nothing. Each call returns the next driver, or with an error the driver as it was; step no driver
// twice.
type Driver struct {
	number                                                 ID
	task                                                   Request
	answer                                                 Answer
	rejection                                              uint16
	stage                                                  Stage
	outcome                                                Outcome
	call                                                   Call
	look                                                   Look
	isRequest, isLocked, isPending, creates, hasAnswer, ok bool
}

// A Reading is what a transaction of a driver is given.
type Reading struct {
	// Holding and Number are those of the row, read and locked in this transaction. A row has the number of the driver
	// that last began work on it, or the zero ID.
	Holding Holding
	Number  ID
	// ID is that of the row: the instance's, or the binding's.
	ID ID
	// RowMode is the mode of the row's plan, or, if there is no row, of the pending work's.
	RowMode Mode
	// Request, Mode, FirstPoll and Attributes are those of Begin, and MayBegin is that of BeginIf. They count only at the
	// first transaction of a request, and are zero for a take-up. A binding has its instance in the place of MayBegin.
	Request    Request
	Mode       Mode
	FirstPoll  bool
	Attributes Digest
	MayBegin   bool
	// MayGiveUp is whether the row has waited too long for its first Poll.
	MayGiveUp bool
}

// A Transaction is what a transaction of a driver comes to, once the row is read.
type Transaction struct {
	holding           Holding
	number            ID
	committed, unsure Driver
	effect            Effect
	outcome           Outcome
	ok, writes        bool
}

// NewDriver is a driver at its beginning: of a request, or of a take-up. The program has taken the lock of its key, if
// that was free: hasLock is whether it was. A lock of which nobody knows isn't had. The number is the driver's own: no
// other driver ever has it, so draw 128 random bits.
//
// Errors: ErrBadDriver if the number is zero.
func NewDriver(number ID, isRequest, hasLock bool) (Driver, error) {
	return Driver{}.next(C.new_driver(Driver{number: number}.c(), C.bool(isRequest), C.bool(hasLock)))
}

// Stage is the action that the program carries out next.
func (d Driver) Stage() Stage { return d.stage }

// Number is the driver's own.
func (d Driver) Number() ID { return d.number }

// Task is at StageWork the request whose work is pending. It is none if the work is the operation that runs.
func (d Driver) Task() (Request, bool) { return d.task, d.isPending }

// Call is at StageWork the call of the backend to make next. It is CallNone if nobody knows how the work ended: then step
// the driver no more.
func (d Driver) Call() Call { return d.call }

// Creates reports at StageWork whether the work is a creation. Otherwise, it is a deletion.
func (d Driver) Creates() bool { return d.creates }

// IsDone reports at StageEnd and at StageFinish whether the work has ended as it was asked for.
func (d Driver) IsDone() bool { return d.ok || d.stage == StageEnd && d.outcome == OutcomeDone }

// Answer is at StageAnswer what is sent.
func (d Driver) Answer() Answer { return d.answer }

// Locked reports at StageAwaitLock whether the driver has the lock of its key after it has waited. A lock of which nobody
// knows isn't had.
//
// Errors: ErrBadDriver, ErrWrongStage.
func (d Driver) Locked(hasLock bool) (Driver, error) {
	return d.next(C.locked(d.step(), C.bool(hasLock)))
}

// Looked reports what the look of CallLook has found. A look that shows how the work has ended moves the driver on, to
// StageEnd or StageFinish. If a look has failed, nobody knows how the work ended: step the driver no more.
//
// Errors: ErrBadDriver, ErrBadThere, ErrWrongStage.
func (d Driver) Looked(there There) (Driver, error) {
	return d.next(C.looked(d.step(), C.uint8_t(there)))
}

// Synced reports that what exists is on disk (CallSync). If that has failed, step the driver no more.
//
// Errors: ErrBadDriver, ErrWrongStage.
func (d Driver) Synced() (Driver, error) {
	return d.next(C.synced(d.step()))
}

// Called reports that CallCreate or CallDelete has returned, and whether without an error. The rejection is 400 or 422 if
// the backend has rejected the creation with that status, and else 0.
//
// Errors: ErrBadDriver, ErrNotRefused, ErrWrongStage.
func (d Driver) Called(ok bool, rejection uint16) (Driver, error) {
	return d.next(C.called(d.step(), C.bool(ok), C.uint16_t(rejection)))
}

// step is the driver as it crosses.
func (d Driver) step() C.struct_stepped { return C.struct_stepped{driver: d.c()} }

// next is what a report gave, or with an error the driver before.
func (d Driver) next(after C.struct_stepped) (Driver, error) {
	if err := errorOf(after.status); err != nil {
		return d, err
	}
	return driverOf(after.driver), nil
}

// Read is the transaction of an instance's driver at StageBegin, StageEnd, StageFinish and StageUnsure. If the
// transaction that it returns Writes, write its row, and commit. Work that only starts an operation needs no call of the
// backend: the driver that is committed is at StageEnd then.
//
// Errors: ErrBadDriver, ErrBadHolding, ErrBadMode, ErrBadKind, ErrWrongStage; ErrMisfit if the row doesn't fit its plan,
// or its pending work is of another id. Such a row is left alone.
func (d Driver) Read(row Reading) (Transaction, error) {
	return read(C.read_row(d.c(), row.c()))
}

// ReadBinding is the transaction of a binding's driver, as Read is that of an instance's. The instance is the holding of
// the binding's instance, read and locked in this transaction: what may begin is what BeginBinding lets begin. If the
// instance has a tombstone, and nothing is kept of the binding, nothing is written. The modes are those of binding.
//
// Errors: those of Read, of which ErrBadHolding also stands for the instance's.
func (d Driver) ReadBinding(row Reading, instance Holding) (Transaction, error) {
	return read(C.read_binding(d.c(), row.c(), instance.c()))
}

// read is what a transaction comes to that has read its row.
func read(it C.struct_row_read) (Transaction, error) {
	if err := errorOf(it.status); err != nil {
		return Transaction{}, err
	}
	return transactionOf(it.transaction), nil
}

// Row is what the row has to have.
func (t Transaction) Row() (Holding, ID) { return t.holding, t.number }

// Writes reports whether the row has to be written: its holding or its number changed.
func (t Transaction) Writes() bool { return t.writes }

// Committed is the driver once the commit has returned.
func (t Transaction) Committed() Driver { return t.committed }

// Unsure is the driver if nobody knows whether the transaction was committed.
func (t Transaction) Unsure() Driver { return t.unsure }

// Effect is the event that the transaction is, once it is committed: of EffectEnd with the outcome, and of EffectFinish
// with whether the operation succeeded.
func (t Transaction) Effect() (effect Effect, outcome Outcome, ok bool) {
	return t.effect, t.outcome, t.ok
}
