package osb_test

import (
	"encoding/hex"
	"fmt"
	"strconv"
	"strings"
	"testing"

	"pippinterm/osb"
)

// The words that records, requests and holdings have in api/cases.txt.
var (
	boundID      = osb.MustParseID("00000000-0000-0000-0000-000000000002")
	planWords    = map[string]osb.ID{"sync": plan, "async": async}
	ofABinding   = map[string]string{"bind": "provision", "unbind": "deprovision", "poll-binding": "poll"}
	modeNames    = numbersOf(func(n uint8) string { return osb.Mode(n).String() })
	phaseNames   = numbersOf(func(n uint8) string { return osb.Phase(n).String() })
	workNames    = numbersOf(func(n uint8) string { return osb.Work(n).String() })
	outcomeNames = numbersOf(func(n uint8) string { return osb.Outcome(n).String() })
)

// numberOf is the number of a name, or the number itself.
func numberOf(t *testing.T, word string, names map[string]uint8) uint8 {
	t.Helper()
	if number, isName := names[word]; isName {
		return number
	}
	number := need(strconv.ParseUint(word, 10, 8))(t)
	return uint8(number)
}

func recordOf(t *testing.T, cell string) osb.Record {
	t.Helper()
	if cell == "none" {
		return osb.Record{}
	}
	words := append(strings.Fields(cell), "none")
	attempt := need(strconv.ParseUint(words[1], 10, 64))(t)
	state, inFlight := numberOf(t, words[0], stateNames), numberOf(t, words[2], kindNames)
	return osb.RecordByHand(service, plan, attempt, osb.State(state), osb.Kind(inFlight))
}

func requestOf(t *testing.T, cell string) osb.Request {
	t.Helper()
	words := strings.Split(cell, ":")
	it := osb.Request{AcceptsIncomplete: len(words) == 2, ID: instance, Service: service, Plan: planWords[words[1]]}
	if kind, isOfABinding := ofABinding[words[0]]; isOfABinding {
		words[0], it.ID = kind, boundID
	}
	it.Kind = osb.Kind(numberOf(t, words[0], kindNames))
	return it
}

func digestOf(t *testing.T, cell string) (digest osb.Digest) {
	t.Helper()
	once := need(hex.DecodeString(cell))(t)
	for at := range digest {
		digest[at] = once[at%len(once)]
	}
	return digest
}

func holdingOf(t *testing.T, cell string) osb.Holding {
	t.Helper()
	var row *osb.BrokerRow
	var work *osb.Request
	var hasTombstone bool
	var attributes osb.Digest
	for _, word := range strings.Fields(cell) {
		name, plan, _ := strings.Cut(word, ":")
		phase, isRow := phaseNames[name]
		switch {
		case word == "none":
		case word == "tombstone":
			hasTombstone = true
		case word[0] == '#':
			attributes = digestOf(t, word[1:])
		case isRow:
			row = &osb.BrokerRow{Service: service, Plan: planWords[plan], Phase: osb.Phase(phase)}
		default:
			request := requestOf(t, word)
			work = &request
		}
	}
	return osb.HoldingByHand(row, work, hasTombstone, attributes)
}

func answerOf(t *testing.T, cell string) osb.Answer {
	t.Helper()
	status, body, _ := strings.Cut(cell, " ")
	return arguments{t: t, cells: cells{"status": &status, "body": &body}}.answer()
}

func begunOf(t *testing.T, cell string) osb.Begun {
	t.Helper()
	if strings.Contains(cell, " ") {
		return osb.Begun{Answer: answerOf(t, cell)}
	}
	return osb.Begun{Work: osb.Work(numberOf(t, cell, workNames))}
}

// parsed has the value of a cell, for each column whose cells are words.
var parsed = map[string]func(*testing.T, string) any{
	"record":  func(t *testing.T, cell string) any { return recordOf(t, cell) },
	"request": func(t *testing.T, cell string) any { return requestOf(t, cell) },
	"holding": func(t *testing.T, cell string) any { return holdingOf(t, cell) },
	"answer":  func(t *testing.T, cell string) any { return answerOf(t, cell) },
	"begun":   func(t *testing.T, cell string) any { return begunOf(t, cell) },
}

// An output is a value that a call gave for a column, and the value that comes with an error.
type output struct {
	column       string
	got, onError any
}

// resultsOf are the results of a call that gave these values. If a value is the one that a cell stands for, the cell is the
// result.
func (a arguments) resultsOf(err error, outputs ...output) (results, error) {
	var found results
	for _, output := range outputs {
		wanted := a.wants[output.column]
		switch {
		case err != nil && output.got != output.onError:
			a.t.Errorf("got %+v with an error, want %+v", output.got, output.onError)
		case err != nil:
		case wanted != nil && parsed[output.column](a.t, *wanted) == output.got:
			found = append(found, wanted)
		default:
			found = append(found, text(fmt.Sprintf("%+v", output.got)))
		}
	}
	return found, err
}

func (a arguments) next(record osb.Record, err error) (results, error) {
	return a.resultsOf(err, output{"record", record, a.record()})
}

func (a arguments) resultsOfSend(record, before osb.Record, sent osb.Sent, err error) (results, error) {
	if err == nil && sent.Attempt != record.Attempt() {
		a.t.Errorf("got the attempt %d, want %d", sent.Attempt, record.Attempt())
	}
	return a.resultsOf(err, output{"record", record, before}, output{"request", sent.Request, osb.Request{}})
}

func (a arguments) nextHolding(holding osb.Holding, err error) (results, error) {
	return a.resultsOf(err, output{"holding", holding, a.holding()})
}

func (a arguments) resultsOfBegin(holding osb.Holding, begun osb.Begun, err error) (results, error) {
	return a.resultsOf(err, output{"holding", holding, a.holding()}, output{"begun", begun, osb.Begun{}})
}

func (a arguments) record() osb.Record { return recordOf(a.t, a.text("record")) }

func (a arguments) holding() osb.Holding { return holdingOf(a.t, a.text("holding")) }

func (a arguments) mode() osb.Mode { return osb.Mode(a.enum("mode", modeNames)) }

func (a arguments) requestCell() osb.Request { return requestOf(a.t, a.text("request")) }

func (a arguments) rules() osb.Rules {
	rules := osb.Rules{FirstPoll: a.flag("first_poll")}
	if cell := a.cells["attributes"]; cell != nil {
		rules.Attributes = digestOf(a.t, *cell)
	}
	return rules
}

func (a arguments) attempt() uint64 {
	attempt, err := strconv.ParseUint(a.text("attempt"), 10, 64)
	check(a.t, err)
	return attempt
}

// The calls of records and holdings.
func init() {
	for name, call := range map[string]func(arguments) (results, error){
		"record_create": func(a arguments) (results, error) {
			record, sent := osb.Create(a.id("id"), a.id("service"), a.id("plan"), a.flag("accepts_incomplete"))
			return a.resultsOfSend(record, record, sent, nil)
		},
		"record_from_row": func(a arguments) (results, error) {
			row := osb.PlatformRow{Service: service, Plan: plan, State: a.state()}
			row.InFlight = osb.Kind(a.enum("out", kindNames))
			record, err := osb.RecordFromRow(row)
			return a.resultsOf(err, output{"record", record, osb.Record{}})
		},
		"record_send": func(a arguments) (results, error) {
			record, sent, err := a.record().Send(a.id("id"))
			return a.resultsOfSend(record, a.record(), sent, err)
		},
		"record_answer": func(a arguments) (results, error) {
			return a.next(a.record().Answer(a.attempt(), a.answer()))
		},
		"record_timeout":  func(a arguments) (results, error) { return a.next(a.record().Timeout(a.attempt())) },
		"record_expire":   func(a arguments) (results, error) { return a.next(a.record().Expire()) },
		"record_retry":    func(a arguments) (results, error) { return a.next(a.record().Retry()) },
		"record_remove":   func(a arguments) (results, error) { return a.next(a.record().Remove()) },
		"record_is_ready": func(a arguments) (results, error) { return results{word(a.record().IsReady())}, nil },
		"record_is_gone":  func(a arguments) (results, error) { return results{word(a.record().IsGone())}, nil },
		"record_remove_if": func(a arguments) (results, error) {
			return a.next(a.record().RemoveIf(a.flag("all_gone")))
		},
		"record_to_text": func(a arguments) (results, error) { return one(a.record().MarshalJSON()) },
		"record_from_text": func(a arguments) (results, error) {
			before := recordOf(a.t, "ready 1")
			record := before
			err := record.UnmarshalJSON(a.bytes("text"))
			return a.resultsOf(err, output{"record", record, before})
		},
		"binding_create": func(a arguments) (results, error) {
			record, sent, err := a.record().CreateBinding(a.id("binding"), a.flag("accepts_incomplete"))
			return a.resultsOfSend(record, osb.Record{}, sent, err)
		},
		"binding_answer": func(a arguments) (results, error) {
			return a.next(a.record().AnswerBinding(a.attempt(), a.answer(), a.flag("retrievable")))
		},
		"binding_record_to_text": func(a arguments) (results, error) { return one(a.record().BindingText()) },
		"binding_record_from_text": func(a arguments) (results, error) {
			record, err := osb.BindingRecordFromText(a.bytes("text"))
			return a.resultsOf(err, output{"record", record, osb.Record{}})
		},
		"work_of": func(a arguments) (results, error) {
			return results{text(osb.WorkOf(a.kind(), a.mode()).String())}, nil
		},
		"holding_fits": func(a arguments) (results, error) { return results{word(a.holding().Fits(a.mode()))}, nil },
		"holding_begin": func(a arguments) (results, error) {
			return a.resultsOfBegin(a.holding().Begin(a.mode(), a.requestCell(), a.rules()))
		},
		"holding_begin_if": func(a arguments) (results, error) {
			return a.resultsOfBegin(a.holding().BeginIf(a.mode(), a.requestCell(), a.rules(), a.flag("may_begin")))
		},
		"binding_begin": func(a arguments) (results, error) {
			of := holdingOf(a.t, a.text("instance"))
			return a.resultsOfBegin(a.holding().BeginBinding(of, a.mode(), a.requestCell(), a.rules()))
		},
		"holding_end": func(a arguments) (results, error) {
			holding, answer, err := a.holding().End(a.mode(), osb.Outcome(a.enum("outcome", outcomeNames)))
			return a.resultsOf(err, output{"holding", holding, a.holding()}, output{"answer", answer, osb.Answer{}})
		},
		"holding_finish":          func(a arguments) (results, error) { return a.nextHolding(a.holding().Finish(a.flag("ok"))) },
		"holding_give_up_waiting": func(a arguments) (results, error) { return a.nextHolding(a.holding().GiveUpWaiting()) },
		"holding_is_held":         func(a arguments) (results, error) { return results{word(a.holding().IsHeld())}, nil },
		"holding_is_there": func(a arguments) (results, error) {
			return results{word(a.holding().IsThere(a.id("service"), a.id("plan")))}, nil
		},
		"binding_fetch": func(a arguments) (results, error) {
			answer, err := a.holding().Fetch()
			return a.resultsOf(err, output{"answer", answer, osb.Answer{}})
		},
		"holding_to_text": func(a arguments) (results, error) { return one(a.holding().MarshalJSON()) },
		"holding_from_text": func(a arguments) (results, error) {
			before := holdingOf(a.t, "ready:sync")
			holding := before
			err := holding.UnmarshalJSON(a.bytes("text"))
			return a.resultsOf(err, output{"holding", holding, before})
		},
		"binding_holding_to_text": func(a arguments) (results, error) { return one(a.holding().BindingText()) },
		"binding_holding_from_text": func(a arguments) (results, error) {
			holding, err := osb.BindingHoldingFromText(a.bytes("text"))
			return a.resultsOf(err, output{"holding", holding, osb.Holding{}})
		},
	} {
		calls[name] = call
	}
}
