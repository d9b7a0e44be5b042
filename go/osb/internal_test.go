package osb

import (
	"bytes"
	"errors"
	"fmt"
	"math/rand"
	"testing"
)

// The text of an id is the one that the library writes, whatever the id.
func TestTextOfID(t *testing.T) {
	ids := []ID{{}, MustParseID("12345678-9abc-def0-1234-56789abcdef0")}
	for at := range (ID{}) {
		for one := 0; one < 256; one++ { // each byte at each position
			id := ID{}
			id[at] = byte(one)
			ids = append(ids, id)
		}
	}
	chance := rand.New(rand.NewSource(1))
	for n := 0; n < 2000; n++ {
		var id ID
		chance.Read(id[:])
		ids = append(ids, id)
	}
	for _, id := range ids {
		wanted := id.textOfLibrary()
		text, err := id.MarshalText()
		if err != nil || !bytes.Equal(text, wanted[:]) || id.String() != string(wanted[:]) {
			t.Errorf("%x: got %s and %s, want %s, %v", id[:], text, id, wanted, err)
		}
	}
}

// errors.Is finds a status within another error. The number 2 is never used again.
func TestStatuses(t *testing.T) {
	wrapped := fmt.Errorf("wrapped: %w", ErrBusy)
	if !errors.Is(wrapped, ErrBusy) || errors.Is(wrapped, ErrMemory) {
		t.Errorf("got %v, want ErrBusy in it, and not ErrMemory", wrapped)
	}
	if ErrBusy.Error() != "osb: a request is in flight" || Status(2).Error() != "osb: status 2" {
		t.Errorf("got %v and %v, want a request in flight, and a number without a text", ErrBusy, Status(2))
	}
}

// RecordByHand returns a record of these parts, which may be one that no call gives.
func RecordByHand(service, plan ID, attempt uint64, state State, inFlight Kind) Record {
	return Record{service, plan, attempt, state, inFlight}
}

// HoldingByHand returns a holding of these parts, which may be one that no call gives.
func HoldingByHand(row *BrokerRow, work *Request, hasTombstone bool, attributes Digest) Holding {
	holding := Holding{hasTombstone: hasTombstone, attributes: attributes}
	if row != nil {
		holding.row, holding.hasRow = *row, true
	}
	if work != nil {
		holding.work, holding.hasWork = *work, true
	}
	return holding
}

// UpdateHoldingByHand returns a holding of updates of these parts, which may be one that no call gives.
func UpdateHoldingByHand(settings, to Settings, number uint64, phase UpdatePhase) UpdateHolding {
	return UpdateHolding{settings: settings, to: to, number: number, phase: phase}
}

// DriverParts are the parts of a driver. A Task makes its work pending, and at StageEnd an Answer is an earlier try's.
type DriverParts struct {
	Number                           ID
	Stage                            Stage
	IsRequest, IsLocked, Creates, OK bool
	Task                             *Request
	Call                             Call
	Look                             Look
	Rejection                        uint16
	Outcome                          Outcome
	Answer                           *Answer
}

// DriverByHand returns a driver of these parts, which may be one that no call gives.
func DriverByHand(of DriverParts) Driver {
	driver := Driver{
		number: of.Number, stage: of.Stage, outcome: of.Outcome, isRequest: of.IsRequest, isLocked: of.IsLocked, ok: of.OK,
		call: of.Call, look: of.Look, rejection: of.Rejection, creates: of.Creates,
	}
	if of.Task != nil {
		driver.task, driver.isPending = *of.Task, true
	}
	if of.Answer != nil {
		driver.answer, driver.hasAnswer = *of.Answer, of.Stage == StageEnd
	}
	return driver
}

// UpdateDriverParts are the parts of a driver of an instance that can be updated. The Driver has those of the stage.
type UpdateDriverParts struct {
	Driver              Driver
	IsUpdate, IsPending bool
	To, Before          *Settings
	Outcome             UpdateOutcome
}

// UpdateDriverByHand returns a driver of these parts, which may be one that no call gives.
func UpdateDriverByHand(of UpdateDriverParts) UpdateDriver {
	driver := UpdateDriver{driver: of.Driver, isUpdate: of.IsUpdate, outcome: of.Outcome, hasBefore: of.Before != nil}
	if of.IsUpdate {
		driver.driver.isPending = of.IsPending
	}
	if of.To != nil {
		driver.to = *of.To
	}
	if of.Before != nil {
		driver.before = *of.Before
	}
	return driver
}

// PlatformDriverParts are the parts of a platform's driver. An Answer is none if it is nil.
type PlatformDriverParts struct {
	Number                             ID
	Stage                              PlatformStage
	IsBinding, Fetches, HasCredentials bool
	Sent                               Sent
	Answer                             *Answer
}

// PlatformDriverByHand returns a driver of these parts, which may be one that no call gives.
func PlatformDriverByHand(of PlatformDriverParts) PlatformDriver {
	driver := PlatformDriver{
		number: of.Number, attempt: of.Sent.Attempt, request: of.Sent.Request, stage: of.Stage,
		isBinding: of.IsBinding, fetches: of.Fetches, hasCredentials: of.HasCredentials,
	}
	if of.Answer != nil {
		driver.answer, driver.hasAnswer = *of.Answer, of.Stage == PlatformStageTake
	}
	return driver
}

// The empty record, which no call gives, is refused, and is neither ready nor gone.
func TestEmptyRecord(t *testing.T) {
	var none Record
	_, removed := none.Remove()
	_, _, bound := none.CreateBinding(ID{}, true)
	_, written := none.MarshalJSON()
	_, column := none.Value()
	_, text := none.BindingText()
	for at, err := range []error{removed, bound, written, column, text} {
		if !errors.Is(err, ErrBadRecord) {
			t.Errorf("call %d: got %v, want ErrBadRecord", at, err)
		}
	}
	if none.IsReady() || none.IsGone() || none.String() != ErrBadRecord.Error() {
		t.Errorf("got ready %v, gone %v and %s, want neither, and ErrBadRecord", none.IsReady(), none.IsGone(), none)
	}
}
