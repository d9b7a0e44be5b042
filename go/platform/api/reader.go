package api

import (
	"context"
	"encoding/base64"
	"encoding/json"
	"errors"
	"strconv"
	"strings"
	"time"

	"pippinterm/osb"
	"pippinterm/platform"
)

var (
	// ErrUnknown reports that there is no such instance or binding.
	ErrUnknown = platform.ErrUnknown
	// ErrMalformed reports that a query can't be read, for example because of its cursor.
	ErrMalformed = errors.New("the query can't be read")
)

// A Reader reads what is recorded. The handler of the API answers with what it returns, and the page shows what it
// returns: both have nothing else to read with.
//
// Each method returns the store's errors besides those that it names. Any number of goroutines may call a Reader.
type Reader interface {
	// Counts returns the numbers of records, and the store's time.
	Counts(ctx context.Context) (Counts, error)
	// Brokers returns all brokers, by name.
	Brokers(ctx context.Context) ([]Broker, error)
	// InFlight returns the records that have a request in flight, of so many records that a worker has leased, and so
	// many states of the life of each. Those whose lease ends first come first.
	InFlight(ctx context.Context, limit, life int) ([]Record, error)
	// List returns a page of records. The pages of a list have each record that fitted the query when the first of them
	// was read, once, in the order of then. What a record shows is as it is when its page is read. Errors: ErrUnknown
	// if there is no instance Query.Of; ErrMalformed.
	List(ctx context.Context, query Query) (List, error)
	// Show returns an instance, or one of its bindings, with its whole life and the store's time. Each is named by its
	// id or its number. binding is empty for the instance. Errors: ErrUnknown.
	Show(ctx context.Context, instance, binding string) (Record, error)
}

// NewReader returns the reader of a store. With showsCauses, a broker's reason says why there was no connection.
func NewReader(store platform.Store, showsCauses bool) Reader {
	return &reader{store: store, showsCauses: showsCauses}
}

type reader struct {
	store       platform.Store
	showsCauses bool
}

// A RecordKind is the kind of the records of a list.
type RecordKind string

const (
	Instances RecordKind = "instances"
	Bindings  RecordKind = "bindings"
	Records   RecordKind = "records" // instances and bindings
)

// An Ordering is the order of a list.
type Ordering string

const (
	ByNumber Ordering = "number"
	ByState  Ordering = "state" // by state, the time of that, and number
	Newest   Ordering = "newest"
	Oldest   Ordering = "oldest"
)

// A Query chooses the records of a List. Its zero value chooses the first page of all records.
type Query struct {
	Kind   RecordKind
	Of     string   // with Bindings: only those of the instance with this id or number
	States []string // empty for all
	Broker string   // or empty for all
	Prefix string   // only those whose number begins with it; hyphens don't count
	First  string   // only the tries of the order with this first id
	// Unreadable asks only for records that can't be read. A page may have fewer then, or none: go on
	// while it has a Next.
	Unreadable bool
	Order      Ordering // or empty for ByNumber
	Latest     bool     // whether the order ByState is turned round
	Life       int      // the number of states of the life of each record, or 0 for none
	Limit      int      // the number of records of a page, or 0 for 100

	// After, Before and Last choose the page: the one after a List.Next, the one before a List.Previous, or the last.
	// One of them is given at most.
	After, Before string
	Last          bool
}

func (r *reader) Counts(ctx context.Context) (Counts, error) {
	counts, err := r.store.Counts(ctx)
	if err != nil {
		return Counts{}, err
	}
	_, now, err := r.store.NextDue(ctx, nil)
	if err != nil {
		return Counts{}, err
	}
	found := Counts{Counts: []Count{}, Now: utc(now)}
	for _, count := range counts {
		kind := "instance"
		if count.IsBinding {
			kind = "binding"
		}
		found.Counts = append(found.Counts, Count{count.Broker, kind, string(count.State), count.Count, utc(count.Oldest)})
	}
	return found, nil
}

func (r *reader) Brokers(ctx context.Context) ([]Broker, error) {
	all, err := r.store.Brokers(ctx)
	if err != nil {
		return nil, err
	}
	found := []Broker{}
	for _, broker := range all {
		found = append(found, brokerOf(broker, r.showsCauses))
	}
	return found, nil
}

func (r *reader) InFlight(ctx context.Context, limit, life int) ([]Record, error) {
	leased, err := r.store.InFlight(ctx, limit)
	if err != nil {
		return nil, err
	}
	found := []Record{}
	for _, entry := range leased {
		if flightOf(entry) == nil {
			continue
		}
		record, err := r.record(ctx, entry, life)
		if err != nil {
			return nil, err
		}
		found = append(found, record)
	}
	return found, nil
}

func (r *reader) Show(ctx context.Context, instance, binding string) (Record, error) {
	key, err := keyOf(instance, binding)
	if err != nil {
		return Record{}, err
	}
	e, err := r.store.Read(ctx, key)
	if err != nil {
		return Record{}, err
	}
	shown, err := r.withLife(ctx, e, 0)
	if err != nil {
		return Record{}, err
	}
	_, now, err := r.store.NextDue(ctx, nil)
	if err != nil {
		return Record{}, err
	}
	shown.Now = timeOf(now)
	return shown, nil
}

// keyOf returns the key of an instance, or of one of its bindings. A text that is no id names nothing.
func keyOf(instance, binding string) (platform.Key, error) {
	key, err := osb.KeyOfTexts(instance, binding)
	if err != nil {
		return platform.Key{}, ErrUnknown
	}
	return key, nil
}

// record returns an entry of a list: with so many states of its life, or without its life for 0.
func (r *reader) record(ctx context.Context, e platform.Entry, states int) (Record, error) {
	if states == 0 {
		return recordOf(e), nil
	}
	return r.withLife(ctx, e, states)
}

// withLife reads the life of an entry: the states that have ended, and the current one. The record has at most so many
// states, the last ones, or all of them if most is 0.
func (r *reader) withLife(ctx context.Context, e platform.Entry, most int) (Record, error) {
	ended, err := r.store.Life(ctx, e.Key)
	if err != nil {
		return Record{}, err
	}
	record, all := recordOf(e), append(e.Before(ended), platform.Stay{State: e.State, Since: e.Since})
	if most > 0 && len(all) > most {
		record.Omitted = len(all) - most
		all = all[record.Omitted:]
	}
	for _, stay := range all {
		record.Life = append(record.Life, Stay{string(stay.State), utc(stay.Since)})
	}
	return record, nil
}

// A selection is what a Query asks the store for.
type selection struct {
	// The filter says in which order the rows are read, and behind which position.
	filter platform.Filter
	isBack bool // the page is read from its end: against its order, and the rows before a position
	limit  int  // rows of the page
}

// List reads one row more than the page has, to see whether there is one.
func (r *reader) List(ctx context.Context, query Query) (List, error) {
	filter, err := r.filter(ctx, query)
	if err != nil {
		return List{}, err
	}
	s, err := query.selection(filter)
	if err != nil {
		return List{}, err
	}
	if s.filter.AsOf == "" && isOfAMoment(s.filter) {
		if s.filter.AsOf, err = r.store.Moment(ctx); err != nil {
			return List{}, err
		}
	}
	s.filter.Most = s.limit + 1
	positions, err := r.store.Positions(ctx, s.filter)
	if errors.Is(err, platform.ErrNoMoment) {
		return List{}, errCursor
	}
	if err != nil {
		return List{}, err
	}
	isMore := len(positions) > s.limit
	if isMore {
		positions = positions[:s.limit]
	}
	if s.isBack {
		turn(positions)
	}
	found := List{Items: []Record{}}
	if err := found.link(s, positions, isMore); err != nil {
		return List{}, err
	}
	entries, err := r.store.ReadAll(ctx, platform.KeysOf(positions))
	if err != nil {
		return List{}, err
	}
	for _, entry := range entries {
		if query.Unreadable && entry.Unreadable == "" {
			continue
		}
		record, err := r.record(ctx, entry, query.Life)
		if err != nil {
			return List{}, err
		}
		found.Items = append(found.Items, record)
	}
	return found, nil
}

// filter returns the filter of the kind of a query. The instance whose bindings are listed must be there.
func (r *reader) filter(ctx context.Context, query Query) (platform.Filter, error) {
	isBinding := query.Kind == Bindings
	switch {
	case query.Of != "":
		key, err := keyOf(query.Of, "")
		if err != nil {
			return platform.Filter{}, err
		}
		_, err = r.store.Read(ctx, key)
		return platform.Filter{Instance: &key.Instance}, err
	case query.Kind == Instances || isBinding:
		return platform.Filter{Bindings: &isBinding}, nil
	}
	return platform.Filter{}, nil
}

// link writes the cursors of a page, by whether there are more rows in the direction in which it was read. In the other
// direction there are more if it was read from a position.
func (l *List) link(s selection, positions []platform.Position, isMore bool) (err error) {
	hasNext, hasPrevious := isMore, s.filter.After != nil
	if s.isBack {
		hasNext, hasPrevious = hasPrevious, hasNext
	}
	if hasNext && len(positions) > 0 {
		if l.Next, err = cursorOf(positions[len(positions)-1], s.filter); err != nil {
			return err
		}
	}
	if hasPrevious && len(positions) > 0 {
		l.Previous, err = cursorOf(positions[0], s.filter)
	}
	return err
}

// selection checks a query, and completes the filter of its kind.
func (q Query) selection(filter platform.Filter) (s selection, err error) {
	s.filter, s.limit = filter, q.Limit
	if s.limit == 0 {
		s.limit = usualLimit
	}
	for _, choose := range []func(Query, *selection) error{Query.chooseRows, Query.chooseOrder, Query.choosePage} {
		if err := choose(q, &s); err != nil {
			return s, err
		}
	}
	return s, nil
}

// chooseRows chooses the rows of a list.
func (q Query) chooseRows(s *selection) error {
	known := map[string]bool{}
	for _, state := range q.States {
		if !isState(platform.State(state)) {
			return malformedError("there is no state " + strconv.Quote(cut(state, 64)))
		}
		if !known[state] {
			s.filter.States = append(s.filter.States, platform.State(state))
		}
		known[state] = true
	}
	if q.Prefix != "" {
		var isPrefix bool
		if s.filter.Prefix, isPrefix = Prefix(q.Prefix); !isPrefix {
			return malformedError("a prefix has 1 to 32 hexadecimal digits; its hyphens don't count")
		}
	}
	if q.First != "" {
		number, err := osb.IDOfText(q.First)
		if err != nil {
			return malformedError("first isn't an id")
		}
		s.filter.First = &number
	}
	s.filter.Broker = q.Broker
	if q.Broker != "" && !brokerName.MatchString(q.Broker) {
		return malformedError("the name of a broker has 1 to 63 characters: a-z, 0-9 and hyphens")
	}
	return nil
}

// chooseOrder chooses the order of a list.
func (q Query) chooseOrder(s *selection) error {
	switch q.Order {
	case ByState:
		s.filter.Latest = q.Latest
	case ByNumber, "":
		s.filter.Order = platform.ByKey
	case Newest, Oldest:
		s.filter.Order, s.filter.Latest = platform.ByTime, q.Order == Newest
	default:
		return errOrder
	}
	return nil
}

// errOrder reports an order that there isn't.
var errOrder = malformedError("order is number, state, newest or oldest")

// choosePage chooses the page of a list.
func (q Query) choosePage(s *selection) (err error) {
	if q.After != "" && q.Before != "" || q.Last && (q.After != "" || q.Before != "") {
		return malformedError("give one of after, before and last")
	}
	if cursor := q.After + q.Before; cursor != "" {
		if err := readCursor(cursor, &s.filter); err != nil {
			return err
		}
	}
	if s.isBack = q.Last || q.Before != ""; s.isBack {
		s.filter.Latest = !s.filter.Latest
	}
	return nil
}

// turn turns a list round.
func turn(positions []platform.Position) {
	for one, other := 0, len(positions)-1; one < other; one, other = one+1, other-1 {
		positions[one], positions[other] = positions[other], positions[one]
	}
}

// Prefix returns the beginning of a GUID with the hyphens where they belong.
func Prefix(text string) (prefix string, isPrefix bool) {
	digits := strings.ToLower(strings.ReplaceAll(text, "-", ""))
	if digits == "" || len(digits) > 32 || strings.Trim(digits, "0123456789abcdef") != "" {
		return "", false
	}
	for at := range digits {
		if at == 8 || at == 12 || at == 16 || at == 20 {
			prefix += "-"
		}
		prefix += digits[at : at+1]
	}
	return prefix, true
}

// isOfAMoment reports whether a list may change with the states of its rows.
func isOfAMoment(filter platform.Filter) bool {
	return filter.Order != platform.ByKey || len(filter.States) > 0
}

// A written position, as it stands in a cursor. By key it has no state and no time.
type writtenPosition struct {
	State    platform.State  `json:"s,omitempty"`
	Since    *time.Time      `json:"t,omitempty"`
	Instance *osb.ID         `json:"i"`
	Binding  *osb.ID         `json:"b,omitempty"`
	AsOf     platform.Moment `json:"m,omitempty"` // of the first page, if the list may change with states
}

var errCursor = malformedError("the cursor isn't one that this API has answered to this query: begin with the first page")

// cursorOf is the position of a row in a list, as a text that stands in a URL as it is.
func cursorOf(at platform.Position, filter platform.Filter) (string, error) {
	position := writtenPosition{Instance: &at.Key.Instance, AsOf: filter.AsOf}
	if filter.Order != platform.ByKey {
		since := at.Since.UTC()
		position.State, position.Since = at.State, &since
	}
	if at.Key.IsBinding {
		position.Binding = &at.Key.Binding
	}
	text, err := json.Marshal(position)
	return base64.RawURLEncoding.EncodeToString(text), err
}

// readCursor reads the position that a cursor names into a filter.
func readCursor(cursor string, filter *platform.Filter) error {
	var written writtenPosition
	text, err := base64.RawURLEncoding.DecodeString(cursor)
	if err != nil || json.Unmarshal(text, &written) != nil || written.Instance == nil {
		return errCursor
	}
	position := &platform.Position{State: written.State, Key: osb.InstanceKey(*written.Instance)}
	if written.Since != nil {
		position.Since = *written.Since
	}
	isByKey := written.State == "" && written.Since == nil
	if isByKey != (filter.Order == platform.ByKey) || !isByKey && (written.Since == nil || !isState(written.State)) {
		return errCursor
	}
	if isOfAMoment(*filter) != (written.AsOf != "") {
		return errCursor
	}
	if written.Binding != nil {
		position.Key = osb.BindingKey(*written.Instance, *written.Binding)
	}
	filter.After, filter.AsOf = position, written.AsOf
	return nil
}

var allStates = []platform.State{
	platform.Ordered, platform.Withdrawn, platform.Abandoned, platform.Wanted, platform.Polling, platform.Ready,
	platform.Cleaning, platform.CleaningPolling, platform.Gone, platform.Unsettled,
}

func isState(state platform.State) bool {
	for _, known := range allStates {
		if known == state {
			return true
		}
	}
	return false
}
