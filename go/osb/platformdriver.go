package osb

/*
#include <osb.h>

// The structs cross by value, as those of a Driver do.

struct platform_stepped {
	struct osb_platform_driver driver;
	uint32_t status;
};

static struct platform_stepped new_platform_driver(struct osb_platform_driver numbered, bool is_binding) {
	struct platform_stepped it;
	it.status = osb_platform_driver_new(numbered.number, is_binding, &it.driver);
	return it;
}

static struct platform_stepped answered(struct osb_platform_driver driver, bool has_answer, struct osb_answer answer,
	bool has_credentials) {
	struct platform_stepped it = {driver, 0};
	it.status = osb_platform_driver_answered(&it.driver, has_answer, answer, has_credentials);
	return it;
}

static struct platform_stepped fetched(struct osb_platform_driver driver, bool has_credentials) {
	struct platform_stepped it = {driver, 0};
	it.status = osb_platform_driver_fetched(&it.driver, has_credentials);
	return it;
}

struct platform_row_read {
	struct osb_platform_transaction transaction;
	uint32_t status;
};

static struct platform_row_read read_platform_row(struct osb_platform_driver driver, struct osb_platform_reading row) {
	struct platform_row_read it;
	it.status = osb_platform_driver_read(&driver, &row, &it.transaction);
	return it;
}
*/
import "C"

// A PlatformDriver is the way of one request of a platform, of an instance or of a binding, from its record to its answer.
// It says the one action that the program carries out next (Stage), and the program reports what came of it, by
// Answered, Lost or Fetched, or by one of the drivers of a PlatformTransaction. A PlatformDriver is a value and owns
// nothing. Each call returns the next driver, or with an error the driver as it was; step no driver twice.
type PlatformDriver struct {
	number                                        ID
	attempt                                       uint64
	request                                       Request
	answer                                        Answer
	stage                                         PlatformStage
	isBinding, hasAnswer, hasCredentials, fetches bool
}

// A PlatformReading is what a transaction of a PlatformDriver is given. Only Record, HasRecord, Number and IsRetrievable
// count at PlatformStageTake and PlatformStageUnsure.
type PlatformReading struct {
	// Record, if HasRecord is true, and Number are those of the row, read and locked in this transaction. A row has the
	// number of the driver that last claimed it, or the zero ID.
	Record    Record
	HasRecord bool
	Number    ID
	// Instance, if HasInstance is true, is the record of a binding's instance, read and locked in this transaction. A
	// binding is created only while it is ready, with its service and plan.
	Instance    Record
	HasInstance bool
	// AllGone is whether each recorded binding of an instance is gone. An instance is removed only then.
	AllGone bool
	// ID is the key of the row: the id of the instance, or that of the binding.
	ID ID
	// Service, Plan and AcceptsIncomplete are those of Create. A binding has its instance's service and plan.
	Service, Plan     ID
	AcceptsIncomplete bool
	// IsRetrievable is whether the broker serves the Fetch of a binding.
	IsRetrievable bool
	// CleanUp, Create and Send are what the program wishes: to clean up, to create what isn't recorded, and to send the
	// request that is due. A driver does only what the record allows.
	CleanUp      CleanUp
	Create, Send bool
}

// A PlatformTransaction is what a transaction of a PlatformDriver comes to, once the row is read.
type PlatformTransaction struct {
	record                                    Record
	number                                    ID
	committed, unsure, failed                 PlatformDriver
	cleansUp                                  CleanUp
	hasRecord, writes, timesOut, sends, takes bool
}

// NewPlatformDriver is a driver at its beginning: of a binding, or of an instance. The number is its own: no other driver
// ever has it, so draw 128 random bits.
//
// Errors: ErrBadDriver if the number is zero.
func NewPlatformDriver(number ID, isBinding bool) (PlatformDriver, error) {
	return PlatformDriver{}.next(C.new_platform_driver(PlatformDriver{number: number}.c(), C.bool(isBinding)))
}

// Stage is the action that the program carries out next.
func (d PlatformDriver) Stage() PlatformStage { return d.stage }

// Number is the driver's own.
func (d PlatformDriver) Number() ID { return d.number }

// Sent is the request and its attempt at PlatformStageSend. The request of a binding has the binding's id. At
// PlatformStageFetch, PlatformStageTake and PlatformStageUnsure, the attempt alone counts.
func (d PlatformDriver) Sent() Sent { return Sent{Request: d.request, Attempt: d.attempt} }

// Answered reports the answer to the request of PlatformStageSend. hasCredentials is whether it had an object of the
// binding, and the program has sealed it.
//
// Errors: ErrBadDriver, ErrWrongStage.
func (d PlatformDriver) Answered(answer Answer, hasCredentials bool) (PlatformDriver, error) {
	return d.heard(true, answer, hasCredentials)
}

// Lost reports that no answer to the request of PlatformStageSend came in time, or none that is surely the broker's.
//
// Errors: ErrBadDriver, ErrWrongStage.
func (d PlatformDriver) Lost() (PlatformDriver, error) { return d.heard(false, Answer{}, false) }

func (d PlatformDriver) heard(hasAnswer bool, answer Answer, hasCredentials bool) (PlatformDriver, error) {
	return d.next(C.answered(d.c(), C.bool(hasAnswer), answer.c(), C.bool(hasCredentials)))
}

// Fetched reports whether the Fetch of PlatformStageFetch was answered with an object of the binding, and the program has
// sealed it.
//
// Errors: ErrBadDriver, ErrWrongStage.
func (d PlatformDriver) Fetched(hasCredentials bool) (PlatformDriver, error) {
	return d.next(C.fetched(d.c(), C.bool(hasCredentials)))
}

// next is what a call gave, or with an error the driver before.
func (d PlatformDriver) next(after C.struct_platform_stepped) (PlatformDriver, error) {
	if err := errorOf(after.status); err != nil {
		return d, err
	}
	return platformDriverOf(after.driver), nil
}

// Read is the transaction of a driver at PlatformStageClaim, PlatformStageTake and PlatformStageUnsure. If the
// transaction that it returns Writes, write its row, and commit.
//
// Errors: ErrBadDriver, ErrBadRecord (of the row or of the instance), ErrWrongStage.
func (d PlatformDriver) Read(row PlatformReading) (PlatformTransaction, error) {
	it := C.read_platform_row(d.c(), row.c())
	if err := errorOf(it.status); err != nil {
		return PlatformTransaction{}, err
	}
	return platformTransactionOf(it.transaction), nil
}

// Row is what the row has to have. It has a record if HasRecord.
func (t PlatformTransaction) Row() (Record, ID) { return t.record, t.number }

// HasRecord reports whether the row has a record. What isn't recorded yet, and isn't created, has none.
func (t PlatformTransaction) HasRecord() bool { return t.hasRecord }

// Writes reports whether the row has to be written: its record or its number changed.
func (t PlatformTransaction) Writes() bool { return t.writes }

// Committed is the driver once the commit has returned.
func (t PlatformTransaction) Committed() PlatformDriver { return t.committed }

// Unsure is the driver if nobody knows whether the transaction was committed.
func (t PlatformTransaction) Unsure() PlatformDriver { return t.unsure }

// Failed is the driver if the transaction wasn't committed.
func (t PlatformTransaction) Failed() PlatformDriver { return t.failed }

// TimesOut reports whether a request in flight was given up.
func (t PlatformTransaction) TimesOut() bool { return t.timesOut }

// CleansUp is how the record was cleaned up, or CleanUpNone.
func (t PlatformTransaction) CleansUp() CleanUp { return t.cleansUp }

// Sends reports whether a request is in flight by this transaction.
func (t PlatformTransaction) Sends() bool { return t.sends }

// Takes reports whether an answer was taken.
func (t PlatformTransaction) Takes() bool { return t.takes }
