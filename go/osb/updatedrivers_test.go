package osb_test

import (
	"strings"
	"testing"

	"pippinterm/osb"
)

func updateDriverOf(t *testing.T, cell string) osb.UpdateDriver {
	t.Helper()
	words := strings.Fields(cell)
	parts := osb.UpdateDriverParts{}
	var both []*osb.Settings
	own := words[:1:1]
	for _, word := range words[1:] {
		plan, _, isLong := strings.Cut(word, ":")
		_, isPlan := planWords[plan]
		_, isOutcome := updateOutcomeNames[word]
		switch {
		case isLong && isPlan:
			settings := settingsOf(t, word)
			both = append(both, &settings)
		case word == "updates":
			parts.IsUpdate = true
		case word == "pending":
			parts.IsPending = true
		case parts.IsUpdate && (isOutcome || word[0] >= '0' && word[0] <= '9' && !strings.Contains(word, "/")):
			parts.Outcome = osb.UpdateOutcome(numberOf(t, word, updateOutcomeNames))
		default:
			own = append(own, word)
		}
	}
	if len(both) > 0 {
		parts.To = both[0]
	}
	if len(both) > 1 {
		parts.Before = both[1]
	}
	parts.Driver = driverOf(t, strings.Join(own, " "))
	return osb.UpdateDriverByHand(parts)
}

// updateReading is what a transaction is given. An Update that is missing isn't asked for.
func (a arguments) updateReading() osb.UpdateReading {
	row := osb.UpdateReading{
		Reading: a.reading(), Change: a.updateHolding(), UpdateMode: osb.Mode(a.enum("update_mode", modeNames)),
		Allowed:    osb.Allowed(a.enum("allowed", allowedNames)),
		Parameters: digestOf(a.t, a.text("parameters")), Version: digestOf(a.t, a.text("version")),
	}
	row.MayBegin = a.flag("may_begin")
	if row.IsUpdate = a.cells["update"] != nil; row.IsUpdate {
		row.Update = updateOf(a.t, a.text("update"))
	}
	return row
}

func (a arguments) resultsOfUpdateRead(transaction osb.UpdateTransaction, err error) (results, error) {
	if err != nil {
		return a.resultsOf(err, output{"update_committed", transaction.Committed(), osb.UpdateDriver{}})
	}
	holding, change, number := transaction.Row()
	effect, outcome, ok := transaction.Effect()
	return a.resultsOf(nil,
		output{"holding", holding, nil}, output{"update_holding", change, nil}, output{"number", number, nil},
		output{"writes", transaction.Writes(), nil}, output{"writes_change", transaction.WritesChange(), nil},
		output{"update_committed", transaction.Committed(), nil}, output{"update_unsure", transaction.Unsure(), nil},
		output{"effect", event{effect, outcome, transaction.UpdateOutcome(), ok}, nil})
}

// The calls of drivers of an instance that can be updated.
func init() {
	for _, column := range []string{"update_driver", "update_committed", "update_unsure"} {
		parsed[column] = func(t *testing.T, cell string) any { return updateDriverOf(t, cell) }
	}
	parsed["writes_change"] = func(_ *testing.T, cell string) any { return cell == "yes" }

	calls["update_driver_new"] = func(a arguments) (results, error) {
		number := driverNumberOf(a.t, a.text("number"))
		driver, err := osb.NewUpdateDriver(number, a.flag("is_request"), a.flag("has_lock"))
		return a.resultsOf(err, output{"update_driver", driver, osb.UpdateDriver{}})
	}
	for name, report := range map[string]func(arguments, osb.UpdateDriver) (osb.UpdateDriver, error){
		"update_driver_locked": func(a arguments, d osb.UpdateDriver) (osb.UpdateDriver, error) {
			return d.Locked(a.flag("has_lock"))
		},
		"update_driver_looked": func(a arguments, d osb.UpdateDriver) (osb.UpdateDriver, error) {
			return d.Looked(osb.There(a.enum("there", thereNames)), a.settings())
		},
		"update_driver_synced": func(_ arguments, d osb.UpdateDriver) (osb.UpdateDriver, error) { return d.Synced() },
		"update_driver_called": func(a arguments, d osb.UpdateDriver) (osb.UpdateDriver, error) {
			return d.Called(a.flag("ok"), uint16(a.number("rejection")))
		},
	} {
		report := report
		calls[name] = func(a arguments) (results, error) {
			before := updateDriverOf(a.t, a.text("update_driver"))
			driver, err := report(a, before)
			return a.resultsOf(err, output{"update_driver", driver, before})
		}
	}
	calls["update_driver_read"] = func(a arguments) (results, error) {
		return a.resultsOfUpdateRead(updateDriverOf(a.t, a.text("update_driver")).Read(a.updateReading()))
	}
}

// A driver says what its action needs, of the instance or of an Update, and nothing else.
func TestUpdateDriver(t *testing.T) {
	task, to, before := requestOf(t, "provision:sync"), settingsOf(t, "async:01:02"), settingsOf(t, "sync:01:02")
	for _, test := range []struct {
		cell                                                    string
		isUpdate, hasTask, hasGoal, hasBefore, isPending, isBad bool
		isDone                                                  bool
		call                                                    osb.Call
		answer                                                  osb.Answer
	}{
		{cell: "work request provision:sync creates look first", hasTask: true, isPending: true, call: osb.CallLook},
		{cell: "work take-up delete", call: osb.CallDelete},
		{
			cell: "work request updates pending async:01:02 sync:01:02 update", isUpdate: true, hasGoal: true, hasBefore: true,
			isPending: true, call: osb.CallUpdate,
		},
		{cell: "work take-up updates async:01:02 look first", isUpdate: true, hasGoal: true, call: osb.CallLook},
		{cell: "end request updates done", isUpdate: true, isDone: true},
		{cell: "end request updates before", isUpdate: true},
		{cell: "end request done", isDone: true},
		{cell: "finish take-up updates ok", isUpdate: true, isDone: true},
		{cell: "answer request 200/empty", answer: answerOf(t, "200 empty")},
		{cell: "answer request updates", isUpdate: true, isBad: true},
	} {
		t.Run(test.cell, func(t *testing.T) {
			driver := updateDriverOf(t, test.cell)
			equal(t, "of an Update", driver.IsUpdate(), test.isUpdate)
			if got, hasTask := driver.Task(); hasTask != test.hasTask || hasTask && got != task {
				t.Errorf("got the task %+v, %t; want %t", got, hasTask, test.hasTask)
			}
			if got, hasGoal := driver.Goal(); hasGoal != test.hasGoal || hasGoal && got != to {
				t.Errorf("got the goal %+v, %t; want %t", got, hasGoal, test.hasGoal)
			}
			if got, hasBefore := driver.Before(); hasBefore != test.hasBefore || hasBefore && got != before {
				t.Errorf("got the settings %+v of the row, %t; want %t", got, hasBefore, test.hasBefore)
			}
			equal(t, "pending", driver.IsPending(), test.isPending)
			equal(t, "done", driver.IsDone(), test.isDone)
			equal(t, "the call", driver.Call(), test.call)
			equal(t, "creates", driver.Creates(), test.hasTask)
			equal(t, "the answer", driver.Answer(), test.answer)
			equal(t, "a conflict", driver.IsMaintenanceConflict(), test.isBad)
			equal(t, "the number", driver.Number(), driverNumberOf(t, "01"))
		})
	}
}

// A whole Update: its work is begun in a transaction, tried once, looked at, and ended in another one.
func TestADrivenUpdate(t *testing.T) {
	number, id := driverNumberOf(t, "01"), requestOf(t, "poll:sync").ID
	reading := osb.UpdateReading{
		Reading:  osb.Reading{Holding: holdingOf(t, "ready:sync"), ID: id, MayBegin: true},
		Change:   osb.NewUpdateHolding(settingsOf(t, "sync:01:02")),
		IsUpdate: true, Update: updateOf(t, "1 async:-:-"),
	}
	begun := need(need(osb.NewUpdateDriver(number, true, true))(t).Read(reading))(t)
	equal(t, "writes", begun.Writes() && begun.WritesChange(), true)
	driver := begun.Committed()
	for _, step := range []struct {
		call osb.Call
		next func(osb.UpdateDriver) (osb.UpdateDriver, error)
	}{
		{osb.CallLook, func(d osb.UpdateDriver) (osb.UpdateDriver, error) {
			return d.Looked(osb.ThereWhole, settingsOf(t, "sync:01:02"))
		}},
		{osb.CallUpdate, func(d osb.UpdateDriver) (osb.UpdateDriver, error) { return d.Called(true, 0) }},
		{osb.CallLook, func(d osb.UpdateDriver) (osb.UpdateDriver, error) {
			return d.Looked(osb.ThereWhole, settingsOf(t, "async:01:02"))
		}},
	} {
		equal(t, "the call", driver.Call(), step.call)
		driver = need(step.next(driver))(t)
	}
	_, reading.Change, reading.Number = begun.Row()
	ended := need(driver.Read(reading))(t)
	_, change, _ := ended.Row()
	equal(t, "the settings", change.Settings(), settingsOf(t, "async:01:02"))
	equal(t, "the answer", ended.Committed().Answer(), answerOf(t, "200 empty"))
}
