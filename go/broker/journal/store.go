package journal

import (
	"context"
	"encoding/json"
	"errors"
	"sync"

	"pippinterm/broker"
	"pippinterm/internal/journalfile"
	"pippinterm/osb"
)

// Store returns a store whose changes are written down.
func (j *Journal) Store(of broker.Store) broker.Store { return store{Store: of, journal: j} }

type store struct {
	broker.Store
	journal *Journal
}

// Read notes what the request of the context has read.
func (s store) Read(ctx context.Context, key broker.Key) (broker.Snapshot, error) {
	snapshot, err := s.Store.Read(ctx, key)
	if err == nil {
		visitIn(ctx).sees(key, snapshot)
	}
	return snapshot, err
}

// Change writes down the change that is about to be committed. If it isn't, or nobody knows, that follows.
func (s store) Change(ctx context.Context, key broker.Key, step broker.Step) error {
	number := int64(0) // of the change that may be committed
	undo := func(isDoubtful bool) {
		if number != 0 {
			s.journal.to.Write("undone", undoneLine{Change: number, subject: subjectOf(key), IsDoubtful: isDoubtful})
			s.journal.changes.end(number)
		}
		if isDoubtful { // what is answered then rests on what the next transaction sees
			visitIn(ctx).isChange = false
		}
		number = 0
	}
	err := s.Store.Change(ctx, key, func(snapshot broker.Snapshot) (*broker.Entry, error) {
		undo(false) // the step is called again once its transaction was rolled back
		visitIn(ctx).sees(key, snapshot)
		next, err := step(snapshot)
		if err == nil && next != nil && isAnother(snapshot.Entry, *next) {
			number = s.journal.writeChange(ctx, key, snapshot.Entry, *next)
		}
		return next, err
	})
	if err != nil {
		undo(s.journal.isDoubtful(err))
	}
	s.journal.changes.end(number)
	return err
}

// isAnother reports whether a change changes the holding, or what is kept of updates. Otherwise it only has the age of
// a tombstone start again, or another worker takes the work over.
func isAnother(before, after broker.Entry) bool {
	return rowOf(before) != rowOf(after) || before.Life != after.Life
}

// undoneLine is the line of a change that wasn't committed.
type undoneLine struct {
	Change int64 `json:"change"`
	subject
	IsDoubtful bool `json:"doubtful,omitempty"` // whether it may have been committed
}

// changeLine is the line of a change.
type changeLine struct {
	Change int64 `json:"change"`
	Visit  int64 `json:"visit,omitempty"` // of the request that changes it
	subject
	Life       int64  `json:"life,omitempty"`
	LifeBefore *int64 `json:"life_before,omitempty"` // if it is another one
	Before     string `json:"before"`
	After      string `json:"after"`
	// What is kept of the updates of an instance, or empty.
	UpdatesBefore string `json:"updates_before,omitempty"`
	UpdatesAfter  string `json:"updates_after,omitempty"`
	Credentials   string `json:"credentials,omitempty"` // the digest of the binding's object
	Effect        string `json:"effect,omitempty"`      // which event its driver says that it is
}

// effectOf is the event of the network that a transaction is (docs/network-schedule.md), or empty if no driver has made
// it.
func effectOf(transaction broker.Transaction) string {
	if transaction == nil {
		return ""
	}
	effect, outcome, ok := transaction.Effect()
	switch effect {
	case osb.EffectEnd:
		return effect.String() + " " + outcome.String()
	case osb.EffectEndUpdate:
		return effect.String() + " " + transaction.UpdateOutcome().String()
	case osb.EffectUpdate:
		return ofUpdate(transaction.Allowed())
	case osb.EffectFinish, osb.EffectFinishUpdate:
		if ok {
			return effect.String() + " ok"
		}
		return effect.String() + " fail"
	}
	return effect.String()
}

// ofUpdate is the event that an Update is which may be done as allowed says.
func ofUpdate(allowed osb.Allowed) string { return osb.EffectUpdate.String() + " " + allowed.String() }

// writeChange writes down a change, and returns its number.
func (j *Journal) writeChange(ctx context.Context, key broker.Key, before, after broker.Entry) int64 {
	visit := visitIn(ctx)
	visit.isChange = visit.isChange || key == visit.key
	line := changeLine{
		Change: j.changes.begin(), Visit: visit.number, subject: subjectOf(key), Life: after.Life,
		Credentials: journalfile.Digest(after.Binding), Effect: effectOf(broker.TransactionOf(ctx)),
	}
	var err error
	if line.Before, line.UpdatesBefore, err = j.texts.row(rowOf(before), key.IsBinding); err == nil {
		line.After, line.UpdatesAfter, err = j.texts.row(rowOf(after), key.IsBinding)
	}
	if err != nil {
		j.to.Lose(err)
		return line.Change
	}
	if before.Life != after.Life {
		line.LifeBefore = &before.Life
	}
	j.to.Write("changed", line)
	return line.Change
}

// changes number the changes of a process, and keep those that may still be committed.
type changes struct {
	turn sync.Mutex
	last int64
	open map[int64]struct{}
}

// begin returns the number of another change.
func (c *changes) begin() int64 {
	c.turn.Lock()
	defer c.turn.Unlock()
	if c.open == nil {
		c.open = map[int64]struct{}{}
	}
	c.last++
	c.open[c.last] = struct{}{}
	return c.last
}

// end notes that a change was committed, or that its transaction has failed.
func (c *changes) end(number int64) {
	c.turn.Lock()
	defer c.turn.Unlock()
	delete(c.open, number)
}

// endedUpTo returns the number of a change, so that it and all before it have ended.
func (c *changes) endedUpTo() int64 {
	c.turn.Lock()
	defer c.turn.Unlock()
	first := c.last + 1
	for number := range c.open {
		if number < first {
			first = number
		}
	}
	return first - 1
}

// texts are those of rows that were written lately. The row before a change is most often the one after the last
// change, and polls read the same one again and again.
type texts struct {
	turn                sync.Mutex
	instances, bindings map[osb.Holding]string
	updates             map[osb.UpdateHolding]string
}

const fewTexts = 1024

// row is the text of what is held, and that of what is kept of updates, as a store has them. It is empty for nothing.
func (t *texts) row(of row, isBinding bool) (holding, updates string, err error) {
	t.turn.Lock()
	defer t.turn.Unlock()
	switch {
	case of.holding == (osb.Holding{}):
	case isBinding:
		holding, err = textIn(&t.bindings, of.holding, of.holding.BindingText)
	default:
		holding, err = textIn(&t.instances, of.holding, of.holding.MarshalJSON)
	}
	if err == nil && of.isUpdated {
		updates, err = textIn(&t.updates, of.updates, of.updates.MarshalJSON)
	}
	return holding, updates, err
}

// textIn is the text of a value, which is written unless it was lately.
func textIn[T comparable](all *map[T]string, of T, write func() ([]byte, error)) (string, error) {
	if known, isKnown := (*all)[of]; isKnown {
		return known, nil
	}
	text, err := write()
	if err != nil {
		return "", err
	}
	if *all == nil || len(*all) >= fewTexts {
		*all = make(map[T]string, fewTexts)
	}
	(*all)[of] = string(text)
	return string(text), nil
}

// Backend returns a backend whose calls are written down. It has those of the optional methods that the backend has
// which a broker.Service calls, or says by its Abilities which of them count.
func (j *Journal) Backend(of broker.Backend) broker.Backend {
	it := backend{of, j}
	binding, sells := of.(broker.BindingBackend)
	known, knows := of.(broker.CredentialsBackend)
	syncing, syncs := of.(broker.SyncBackend)
	bindings := selling{it, binding}
	credentials := credentials{known, j}
	switch {
	case sells && knows && syncs:
		return struct {
			selling
			broker.CredentialsBackend
			broker.SyncBackend
		}{bindings, credentials, syncing}
	case sells && knows:
		return struct {
			selling
			broker.CredentialsBackend
		}{bindings, credentials}
	case sells && syncs:
		return struct {
			selling
			broker.SyncBackend
		}{bindings, syncing}
	case sells:
		return bindings
	case syncs:
		return struct {
			backend
			broker.SyncBackend
		}{it, syncing}
	}
	return it
}

// workLine is the line of a call of the backend.
type workLine struct {
	subject
	Visit       int64  `json:"visit,omitempty"` // of the request that does the work
	Call        string `json:"call"`
	Stage       string `json:"stage"`
	Found       string `json:"found,omitempty"`       // of a look
	Result      string `json:"result,omitempty"`      // of a call that has ended
	Credentials string `json:"credentials,omitempty"` // the digest of the object with them
}

// do writes down a call before and after it. found and made are what it has found, and the credentials that it has.
func (j *Journal) do(
	ctx context.Context, request broker.Request, call string, do func() (found string, made json.RawMessage, err error),
) {
	line := workLine{subject: subjectOf(request.Key), Visit: visitOf(ctx), Call: call, Stage: "begun"}
	j.to.Write("work", line)
	line.Stage, line.Result = "ended", "failed" // also if the call panics
	defer func() { j.to.Write("work", line) }()
	found, made, err := do()
	var rejected *broker.Rejection
	switch {
	case errors.As(err, &rejected):
		line.Result = "rejected"
	case err == nil:
		line.Result, line.Found, line.Credentials = "done", found, digestOf(made)
	}
}

// digestOf is the digest of the object in which credentials are stored and answered.
func digestOf(credentials json.RawMessage) string {
	if credentials == nil {
		return ""
	}
	object, err := json.Marshal(map[string]json.RawMessage{"credentials": credentials})
	if err != nil {
		return "" // they aren't JSON, and can't be stored
	}
	return journalfile.Digest(object)
}

// A backend writes down the calls of an instance.
type backend struct {
	of      broker.Backend
	journal *Journal
}

func (b backend) Look(ctx context.Context, request broker.Request) (there broker.There, err error) {
	b.journal.do(ctx, request, "look", func() (string, json.RawMessage, error) {
		there, err = b.of.Look(ctx, request)
		return there.String(), nil, err
	})
	return there, err
}

func (b backend) Create(ctx context.Context, request broker.Request) (err error) {
	b.journal.do(ctx, request, "create", func() (string, json.RawMessage, error) {
		err = b.of.Create(ctx, request)
		return "", nil, err
	})
	return err
}

func (b backend) Delete(ctx context.Context, request broker.Request) (err error) {
	b.journal.do(ctx, request, "delete", func() (string, json.RawMessage, error) {
		err = b.of.Delete(ctx, request)
		return "", nil, err
	})
	return err
}

// Abilities are those of the backend.
func (b backend) Abilities() broker.Abilities { return broker.AbilitiesOf(b.of) }

func (b backend) LookUpdate(ctx context.Context, update broker.Update) (done broker.There, err error) {
	b.journal.do(ctx, update.Request, "look-update", func() (string, json.RawMessage, error) {
		done, err = b.of.(broker.UpdateBackend).LookUpdate(ctx, update)
		return done.String(), nil, err
	})
	return done, err
}

func (b backend) Update(ctx context.Context, update broker.Update) (err error) {
	b.journal.do(ctx, update.Request, "update", func() (string, json.RawMessage, error) {
		err = b.of.(broker.UpdateBackend).Update(ctx, update)
		return "", nil, err
	})
	return err
}

// Details isn't written down: it changes nothing, and nobody judges what it returns.
func (b backend) Details(ctx context.Context, request broker.Request) (broker.Details, error) {
	return b.of.(broker.DetailsBackend).Details(ctx, request)
}

// A selling backend writes down the calls of bindings, too.
type selling struct {
	backend
	of broker.BindingBackend
}

func (b selling) LookBinding(ctx context.Context, request broker.Request) (there broker.There, err error) {
	b.journal.do(ctx, request, "look", func() (string, json.RawMessage, error) {
		there, err = b.of.LookBinding(ctx, request)
		return there.String(), nil, err
	})
	return there, err
}

func (b selling) CreateBinding(ctx context.Context, request broker.Request) (made json.RawMessage, err error) {
	b.journal.do(ctx, request, "create", func() (string, json.RawMessage, error) {
		made, err = b.of.CreateBinding(ctx, request)
		return "", made, err
	})
	return made, err
}

func (b selling) DeleteBinding(ctx context.Context, request broker.Request) (err error) {
	b.journal.do(ctx, request, "delete", func() (string, json.RawMessage, error) {
		err = b.of.DeleteBinding(ctx, request)
		return "", nil, err
	})
	return err
}

// credentials write down the call for the credentials of a binding that exists.
type credentials struct {
	of      broker.CredentialsBackend
	journal *Journal
}

func (c credentials) Credentials(ctx context.Context, request broker.Request) (known json.RawMessage, err error) {
	c.journal.do(ctx, request, "credentials", func() (string, json.RawMessage, error) {
		known, err = c.of.Credentials(ctx, request)
		return "", known, err
	})
	return known, err
}
