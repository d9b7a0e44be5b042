package osb_test

import (
	"strconv"
	"strings"
	"testing"

	"pippinterm/osb"
)

var (
	stageNames  = numbersOf(func(n uint8) string { return osb.Stage(n).String() })
	callNames   = numbersOf(func(n uint8) string { return osb.Call(n).String() })
	lookNames   = numbersOf(func(n uint8) string { return osb.Look(n).String() })
	thereNames  = numbersOf(func(n uint8) string { return osb.There(n).String() })
	effectNames = numbersOf(func(n uint8) string { return osb.Effect(n).String() })
)

func driverNumberOf(t *testing.T, cell string) (number osb.ID) {
	t.Helper()
	digest := digestOf(t, cell)
	copy(number[:], digest[:])
	return number
}

func driverOf(t *testing.T, cell string) osb.Driver {
	t.Helper()
	words := strings.Fields(cell)
	parts := osb.DriverParts{Number: driverNumberOf(t, "01"), Stage: osb.Stage(numberOf(t, words[0], stageNames))}
	flags := map[string]*bool{
		"take-up": new(bool), "request": &parts.IsRequest, "locked": &parts.IsLocked, "creates": &parts.Creates, "ok": &parts.OK,
	}
	for _, word := range words[1:] {
		call, isCall := callNames[word]
		look, isLook := lookNames[word]
		switch {
		case flags[word] != nil:
			*flags[word] = true
		case isCall:
			parts.Call = osb.Call(call)
		case isLook:
			parts.Look = osb.Look(look)
		case strings.HasPrefix(word, "rejected-"):
			parts.Rejection = uint16(need(strconv.ParseUint(word[len("rejected-"):], 10, 16))(t))
		case word[0] == '#':
			parts.Number = driverNumberOf(t, word[1:])
		case strings.Contains(word, "/"):
			answer := answerOf(t, strings.ReplaceAll(word, "/", " "))
			parts.Answer = &answer
		case strings.Contains(word, ":"):
			task := requestOf(t, word)
			parts.Task = &task
		default:
			parts.Outcome = osb.Outcome(numberOf(t, word, outcomeNames))
		}
	}
	return osb.DriverByHand(parts)
}

// anyDriverOf is the driver of a broker or of a platform.
func anyDriverOf(t *testing.T, cell string) any {
	t.Helper()
	if strings.Contains(cell, " instance") || strings.Contains(cell, " binding") {
		return platformDriverOf(t, cell)
	}
	return driverOf(t, cell)
}

// An event is what a transaction is once it is committed.
type event struct {
	effect        osb.Effect
	outcome       osb.Outcome
	updateOutcome osb.UpdateOutcome
	ok            bool
}

func eventOf(t *testing.T, cell string) event {
	t.Helper()
	words := append(strings.Fields(cell), "")
	found := event{effect: osb.Effect(numberOf(t, words[0], effectNames)), ok: words[1] == "ok"}
	switch found.effect {
	case osb.EffectEnd:
		found.outcome = osb.Outcome(numberOf(t, words[1], outcomeNames))
	case osb.EffectEndUpdate:
		found.updateOutcome = osb.UpdateOutcome(numberOf(t, words[1], updateOutcomeNames))
	}
	return found
}

// reading is what a transaction is given.
func (a arguments) reading() osb.Reading {
	rules := a.rules()
	return osb.Reading{
		Holding: a.holding(), Number: driverNumberOf(a.t, a.text("number")), ID: a.id("id"),
		RowMode: osb.Mode(a.enum("row_mode", modeNames)), Request: a.requestCell(), Mode: a.mode(),
		FirstPoll: rules.FirstPoll, Attributes: rules.Attributes, MayGiveUp: a.flag("may_give_up"),
	}
}

func (a arguments) resultsOfRead(transaction osb.Transaction, err error) (results, error) {
	if err != nil {
		return a.resultsOf(err, output{"committed", transaction.Committed(), osb.Driver{}})
	}
	holding, number := transaction.Row()
	effect, outcome, ok := transaction.Effect()
	return a.resultsOf(nil,
		output{"holding", holding, nil}, output{"number", number, nil}, output{"writes", transaction.Writes(), nil},
		output{"committed", transaction.Committed(), nil}, output{"unsure", transaction.Unsure(), nil},
		output{"effect", event{effect: effect, outcome: outcome, ok: ok}, nil})
}

// The calls of drivers.
func init() {
	for _, column := range []string{"driver", "committed", "unsure", "failed"} {
		parsed[column] = anyDriverOf
	}
	parsed["number"] = func(t *testing.T, cell string) any { return driverNumberOf(t, cell) }
	parsed["writes"] = func(_ *testing.T, cell string) any { return cell == "yes" }
	parsed["effect"] = func(t *testing.T, cell string) any { return eventOf(t, cell) }

	calls["driver_new"] = func(a arguments) (results, error) {
		driver, err := osb.NewDriver(driverNumberOf(a.t, a.text("number")), a.flag("is_request"), a.flag("has_lock"))
		return a.resultsOf(err, output{"driver", driver, osb.Driver{}})
	}
	for name, report := range map[string]func(arguments, osb.Driver) (osb.Driver, error){
		"driver_locked": func(a arguments, d osb.Driver) (osb.Driver, error) { return d.Locked(a.flag("has_lock")) },
		"driver_looked": func(a arguments, d osb.Driver) (osb.Driver, error) {
			return d.Looked(osb.There(a.enum("there", thereNames)))
		},
		"driver_synced": func(_ arguments, d osb.Driver) (osb.Driver, error) { return d.Synced() },
		"driver_called": func(a arguments, d osb.Driver) (osb.Driver, error) {
			return d.Called(a.flag("ok"), uint16(a.number("rejection")))
		},
	} {
		report := report
		calls[name] = func(a arguments) (results, error) {
			before := driverOf(a.t, a.text("driver"))
			driver, err := report(a, before)
			return a.resultsOf(err, output{"driver", driver, before})
		}
	}
	calls["driver_read"] = func(a arguments) (results, error) {
		row := a.reading()
		row.MayBegin = a.flag("may_begin")
		return a.resultsOfRead(driverOf(a.t, a.text("driver")).Read(row))
	}
	calls["binding_driver_read"] = func(a arguments) (results, error) {
		of := holdingOf(a.t, a.text("instance"))
		return a.resultsOfRead(driverOf(a.t, a.text("driver")).ReadBinding(a.reading(), of))
	}
}

// A driver says what its action needs, and nothing else.
func TestDriver(t *testing.T) {
	task := requestOf(t, "provision:sync")
	for _, test := range []struct {
		cell    string
		stage   osb.Stage
		hasTask bool
		call    osb.Call
		creates bool
		answer  osb.Answer
	}{
		{"work request provision:sync creates look first", osb.StageWork, true, osb.CallLook, true, osb.Answer{}},
		{"work take-up delete", osb.StageWork, false, osb.CallDelete, false, osb.Answer{}},
		{"answer request 200/empty", osb.StageAnswer, false, osb.CallNone, false, answerOf(t, "200 empty")},
	} {
		t.Run(test.cell, func(t *testing.T) {
			driver := driverOf(t, test.cell)
			got, hasTask := driver.Task()
			if driver.Stage() != test.stage || hasTask != test.hasTask || hasTask && got != task {
				t.Errorf("got %v, and the task %+v, %t; want %v, %t", driver.Stage(), got, hasTask, test.stage, test.hasTask)
			}
			if driver.Call() != test.call || driver.Creates() != test.creates {
				t.Errorf("got the call %v, creates %t; want %v, %t", driver.Call(), driver.Creates(), test.call, test.creates)
			}
			if driver.Answer() != test.answer || driver.Number() != driverNumberOf(t, "01") {
				t.Errorf("got %+v and the number %x, want %+v and ones", driver.Answer(), driver.Number(), test.answer)
			}
		})
	}
}
