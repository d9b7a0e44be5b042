package broker

import "pippinterm/osb"

// A driver is that of an instance, which can be updated, or that of a binding. It is a value, as both are, and step has
// the one that counts.
type driver struct {
	isBinding bool
	ofBinding osb.Driver
	instance  osb.UpdateDriver
}

// newDriver returns the driver of a request or of a take-up of a key, with a number of its own, that has the lock or
// hasn't.
func (s *Service) newDriver(key Key, isRequest, hasLock bool) driver {
	d, err := driver{isBinding: key.IsBinding}, error(nil)
	if number := s.numbers.next(); key.IsBinding {
		d.ofBinding, err = osb.NewDriver(number, isRequest, hasLock)
	} else {
		d.instance, err = osb.NewUpdateDriver(number, isRequest, hasLock)
	}
	if err != nil {
		panic(err) // the number is zero
	}
	return d
}

// drivers are one of an instance and one of a binding.
type drivers struct{ instance, binding driver }

func (s *Service) newDrivers(isRequest, hasLock bool) drivers {
	return drivers{s.newDriver(Key{}, isRequest, hasLock), s.newDriver(Key{IsBinding: true}, isRequest, hasLock)}
}

// of is the one of a key.
func (d *drivers) of(key Key) driver {
	if key.IsBinding {
		return d.binding
	}
	return d.instance
}

// Stage is the action that comes next.
func (d driver) Stage() osb.Stage {
	if d.isBinding {
		return d.ofBinding.Stage()
	}
	return d.instance.Stage()
}

// Call is the call of the backend that comes next.
func (d driver) Call() osb.Call {
	if d.isBinding {
		return d.ofBinding.Call()
	}
	return d.instance.Call()
}

// Creates reports whether the work is a creation.
func (d driver) Creates() bool {
	if d.isBinding {
		return d.ofBinding.Creates()
	}
	return d.instance.Creates()
}

// IsUpdate reports whether the work is that of an update, or the answer is MaintenanceInfoConflict.
func (d driver) IsUpdate() bool { return !d.isBinding && d.instance.IsUpdate() }

// settings are those of the row, or none if they aren't known, and those to which an update leads whose work is due.
func (d driver) settings() (before, to osb.Settings) {
	before, _ = d.instance.Before()
	to, _ = d.instance.Goal()
	return before, to
}

// IsPending reports whether the work is pending. Otherwise, it is the operation that runs.
func (d driver) IsPending() bool {
	if d.isBinding {
		_, isPending := d.ofBinding.Task()
		return isPending
	}
	return d.instance.IsPending()
}

// IsDone reports whether the work has ended as it was asked for.
func (d driver) IsDone() bool {
	if d.isBinding {
		return d.ofBinding.IsDone()
	}
	return d.instance.IsDone()
}

// Answer is what is sent.
func (d driver) Answer() osb.Answer {
	if d.isBinding {
		return d.ofBinding.Answer()
	}
	return d.instance.Answer()
}

// locked is the driver once it has waited for the lock.
func (d driver) locked(hasLock bool) (after driver, err error) {
	after = d
	if d.isBinding {
		after.ofBinding, err = d.ofBinding.Locked(hasLock)
	} else {
		after.instance, err = d.instance.Locked(hasLock)
	}
	return after, err
}

// looked is the driver once a look has found this. The settings count only for the work of an update.
func (d driver) looked(there There, settings osb.Settings) (after driver, err error) {
	after = d
	if d.isBinding {
		after.ofBinding, err = d.ofBinding.Looked(there)
	} else {
		after.instance, err = d.instance.Looked(there, settings)
	}
	return after, err
}

// synced is the driver once what exists is on disk.
func (d driver) synced() (after driver, err error) {
	after = d
	if d.isBinding {
		after.ofBinding, err = d.ofBinding.Synced()
	} else {
		after.instance, err = d.instance.Synced()
	}
	return after, err
}

// called is the driver once a call has returned that creates, deletes or updates.
func (d driver) called(ok bool, rejection uint16) (after driver, err error) {
	after = d
	if d.isBinding {
		after.ofBinding, err = d.ofBinding.Called(ok, rejection)
	} else {
		after.instance, err = d.instance.Called(ok, rejection)
	}
	return after, err
}

// A transaction is what a transaction of a driver comes to.
type transaction struct {
	isBinding bool
	ofBinding osb.Transaction
	instance  osb.UpdateTransaction
	change    Change      // of an Update: what was read of the updates
	allowed   osb.Allowed // of an Update: what the catalogue has for it
}

// readBinding has the driver of a binding read its row, and its instance's.
func (d driver) readBinding(row osb.Reading, instance osb.Holding) (t transaction, err error) {
	t.isBinding = true
	t.ofBinding, err = d.ofBinding.ReadBinding(row, instance)
	return t, err
}

// readInstance has the driver of an instance read its row.
func (d driver) readInstance(row osb.UpdateReading) (t transaction, err error) {
	t.instance, err = d.instance.Read(row)
	return t, err
}

// write writes down in an entry what its row has to have. The visit is the one that arrives, or nil.
func (t transaction) write(entry *Entry, visit *Visit) {
	if t.isBinding {
		entry.Holding, entry.Worker = t.ofBinding.Row()
		return
	}
	var held osb.UpdateHolding
	entry.Holding, held, entry.Worker = t.instance.Row()
	if !t.instance.WritesChange() {
		return
	}
	before := t.change
	if entry.Change != nil {
		before = *entry.Change
	}
	entry.Change = before.next(held, visit, t.allowed)
}

// Effect is the event that the transaction is.
func (t transaction) Effect() (effect osb.Effect, outcome osb.Outcome, ok bool) {
	if t.isBinding {
		return t.ofBinding.Effect()
	}
	return t.instance.Effect()
}

// UpdateOutcome is of osb.EffectEndUpdate how the work ended.
func (t transaction) UpdateOutcome() osb.UpdateOutcome { return t.instance.UpdateOutcome() }

// Allowed is of osb.EffectUpdate what the catalogue has for the Update.
func (t transaction) Allowed() osb.Allowed { return t.allowed }

// Writes reports whether the row has to be written.
func (t transaction) Writes() bool {
	if t.isBinding {
		return t.ofBinding.Writes()
	}
	return t.instance.Writes()
}

// Committed is the driver once the commit has returned.
func (t transaction) Committed() driver {
	return driver{t.isBinding, t.ofBinding.Committed(), t.instance.Committed()}
}

// Unsure is the driver if nobody knows whether the transaction was committed.
func (t transaction) Unsure() driver {
	return driver{t.isBinding, t.ofBinding.Unsure(), t.instance.Unsure()}
}
