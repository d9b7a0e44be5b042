package api

import (
	"strconv"
)

// How many rows a list has: if nobody says, and at most. mostStates is how many states of a life a list has at most.
const (
	usualLimit = 100
	mostLimit  = 1000
	mostStates = 100
)

func (a *request) listInstances() (answer, error) { return a.list(Query{Kind: Instances}) }

func (a *request) listBindings() (answer, error) {
	return a.list(Query{Kind: Bindings, Of: a.values["id"]})
}

func (a *request) listAllBindings() (answer, error) { return a.list(Query{Kind: Bindings}) }

func (a *request) listRecords() (answer, error) { return a.list(Query{Kind: Records}) }

// listInFlight answers with the rows that a worker has leased, and that have a request in flight.
func (a *request) listInFlight() (answer, error) {
	limit, err := a.number("limit", usualLimit, mostLimit)
	if err != nil {
		return answer{}, err
	}
	states, err := a.number("life", 0, mostStates)
	if err != nil {
		return answer{}, err
	}
	found, err := a.reader.InFlight(a.Context(), limit, states)
	return answerOK(List{Items: found}, err)
}

// list answers with the page of a list that the query of the request asks for.
func (a *request) list(query Query) (answer, error) {
	query.States, query.Broker = a.query["state"], a.query.Get("broker")
	query.Prefix, query.First = a.query.Get("prefix"), a.query.Get("first")
	query.After, query.Before = a.query.Get("after"), a.query.Get("before")
	for _, read := range []func(*Query) error{a.readOrder, a.readPage} {
		if err := read(&query); err != nil {
			return answer{}, err
		}
	}
	return answerOK(a.reader.List(a.Context(), query))
}

// readOrder reads the order of a list.
func (a *request) readOrder(query *Query) (err error) {
	if query.Latest, err = a.flag("latest"); err != nil {
		return err
	}
	_, hasLatest := a.query["latest"]
	values, hasOrder := a.query["order"]
	switch {
	case hasOrder && values[0] == "":
		return errOrder
	case hasOrder:
		query.Order = Ordering(values[0])
	case hasLatest:
		query.Order = ByState
	}
	isOther := query.Order == ByNumber || query.Order == Newest || query.Order == Oldest
	if hasLatest && isOther {
		return malformedError("latest goes with the order state: leave it out")
	}
	return nil
}

// readPage reads how much a page of a list has, and whether it is the last one.
func (a *request) readPage(query *Query) (err error) {
	if query.Last, err = a.flag("last"); err != nil {
		return err
	}
	if query.Unreadable, err = a.flag("unreadable"); err != nil {
		return err
	}
	if query.Life, err = a.number("life", 0, mostStates); err != nil {
		return err
	}
	query.Limit, err = a.number("limit", usualLimit, mostLimit)
	return err
}

// number is a number of the query, from 1 to most, or usual if it isn't given.
func (a *request) number(name string, usual, most int) (int, error) {
	text := a.query.Get(name)
	if text == "" {
		return usual, nil
	}
	number, err := strconv.Atoi(text)
	if err != nil || number < 1 || number > most {
		return 0, malformedError(name + " is a number from 1 to " + strconv.Itoa(most))
	}
	return number, nil
}
