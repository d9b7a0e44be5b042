package broker

import (
	"encoding/json"
	"errors"
	"fmt"
	"time"

	"pippinterm/osb"
)

// An id returns if a creation is let in although the id has a tombstone. That is this project's choice, and off unless
// ServiceOptions.IDsReturnAfter is set. A life of an id begins with a creation, and ends with a tombstone. What it
// rests on is in docs/broker-guide.md: no request of an old life arrives later than that time after its end.

// ShortestReturn is the least that ServiceOptions.IDsReturnAfter may be, if it isn't 0. A minute of it is longestStay.
// PostgreSQL ends a transaction that is idle for another minute, and the time of a tombstone is taken before its
// commit. The other three minutes are left for a request that is under way.
const ShortestReturn = 5 * time.Minute

// longestStay is how long a broker keeps a request before it begins with it, if ids return. So a request that a broker
// got in the old life changes nothing in the new one, also if the broker was stopped meanwhile (SIGSTOP). That doesn't
// count the time in which the request is still in its socket, or in which the machine is suspended.
const longestStay = time.Minute

// errLate reports that the broker has kept a request for longer than longestStay, and hasn't begun with it.
var errLate = Away(errors.New("the request has waited in the broker for over a minute, and its id may have returned " +
	"meanwhile"))

// enter returns what a request finds. If the id returns with it, that is what is held of an id without any request, in
// the next life of the instance.
func (o ServiceOptions) enter(snapshot *Snapshot, visit *Visit) (found *Snapshot, returned *Return) {
	isCreation := !visit.IsFetch && visit.Asked.Kind == osb.KindProvision
	if o.IDsReturnAfter == 0 || !isCreation || !snapshot.Holding.HasTombstone() || snapshot.EndedAgo < o.IDsReturnAfter {
		return snapshot, nil
	}
	request, _ := requestOf(visit.Key, osb.BrokerRow{}, visit.Request) // for the log alone
	returned = &Return{RequestID: request.RequestID, Key: visit.Key, EndedAgo: snapshot.EndedAgo}
	life := snapshot.Life
	if !visit.Key.IsBinding {
		life++
	}
	entered := *snapshot
	entered.Entry, entered.EndedAgo = Entry{Life: life, Worker: snapshot.Worker}, 0
	return &entered, returned
}

// renewal is what is written if a deletion finds a tombstone, if ids return: the tombstone again, which the store gives
// the time of now. Otherwise it is nil. The platform may have sent the deletion after a creation that has timed out and
// is still under way. That creation mustn't find an old tombstone: nobody would know what it creates.
func (o ServiceOptions) renewal(snapshot *Snapshot, visit *Visit) *Entry {
	if o.IDsReturnAfter == 0 || visit.Asked.Kind != osb.KindDeprovision || !snapshot.Holding.HasTombstone() {
		return nil
	}
	return snapshot.Entry.again()
}

// isLate reports whether the broker has kept a request for too long. It is asked while the row is locked, or after it
// was read.
func (s *Service) isLate(visit *Visit) bool {
	return s.options.IDsReturnAfter != 0 && !visit.Arrived.IsZero() && time.Since(visit.Arrived) > s.stay
}

// leaveLives leaves what is held in the life of the instance that goes on. The tombstone of a binding counts in the life
// of its instance in which it was written. A binding that is held is of this life, since no instance ends before its
// bindings.
func (h *Snapshot) leaveLives(key Key) {
	if !key.IsBinding || h.Life == h.Instance.Life {
		return
	}
	if !h.Holding.IsHeld() {
		h.Entry, h.EndedAgo = Entry{Worker: h.Worker}, 0
	}
	h.Life = h.Instance.Life
}

func (s *Service) tellReturn(it Return) {
	if observer, ok := s.observer.(ReturnObserver); ok {
		observer.OnReturn(it)
	}
}

// reuse is what a person reads of an id that has ended.
func (o ServiceOptions) reuse() string {
	if o.IDsReturnAfter == 0 {
		return "An id is never used again: choose a new one."
	}
	return fmt.Sprintf("The id can be used again %.0f seconds after its end: repeat the request then, or choose a new one.",
		o.IDsReturnAfter.Seconds())
}

// document is what is served as the catalogue. If ids return, it doesn't promise that none ever does.
func (s *Service) document() []byte {
	if s.options.IDsReturnAfter != 0 {
		return s.catalogue.returning
	}
	return s.catalogue.document
}

// withoutTombstones is a document that says that the broker has no tombstones, which last for good.
func withoutTombstones(document []byte) ([]byte, error) {
	var members map[string]json.RawMessage
	if err := json.Unmarshal(document, &members); err != nil {
		return nil, err
	}
	members["x-osb-tombstones"] = json.RawMessage("false")
	return json.Marshal(members)
}
