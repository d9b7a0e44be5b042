package osb_test

import (
	"strconv"
	"strings"
	"testing"

	"pippinterm/osb"
)

// The words that settings, Updates and holdings of updates have in api/cases.txt.
var (
	allowedNames       = numbersOf(func(n uint8) string { return osb.Allowed(n).String() })
	updatePhaseNames   = numbersOf(func(n uint8) string { return osb.UpdatePhase(n).String() })
	updateOutcomeNames = numbersOf(func(n uint8) string { return osb.UpdateOutcome(n).String() })
)

// changeOf is the change of a cell. What it doesn't name is zero.
func changeOf(t *testing.T, cell string) (change osb.Change) {
	t.Helper()
	words := strings.Split(cell, ":")
	change.Plan, change.HasPlan = planWords[words[0]]
	if change.HasParameters = words[1] != "-"; change.HasParameters {
		change.Parameters = digestOf(t, words[1])
	}
	if change.HasVersion = words[2] != "-"; change.HasVersion {
		change.Version = digestOf(t, words[2])
	}
	return change
}

func settingsOf(t *testing.T, cell string) osb.Settings {
	t.Helper()
	all := changeOf(t, cell)
	return osb.Settings{Plan: all.Plan, Parameters: all.Parameters, Version: all.Version}
}

func unsignedOf(t *testing.T, word string) uint64 {
	t.Helper()
	return need(strconv.ParseUint(word, 10, 64))(t)
}

func updateOf(t *testing.T, cell string) osb.Update {
	t.Helper()
	words := strings.Fields(cell)
	update := osb.Update{
		Service: service, Change: changeOf(t, words[1]), Number: unsignedOf(t, words[0]), AcceptsIncomplete: true,
	}
	for _, word := range words[2:] {
		switch word {
		case "refuses":
			update.AcceptsIncomplete = false
		case "elsewhere":
			update.Service = plan
		}
	}
	return update
}

func updateHoldingOf(t *testing.T, cell string) osb.UpdateHolding {
	t.Helper()
	words := strings.Fields(cell)
	var to osb.Settings
	if len(words) > 3 {
		to = settingsOf(t, words[3])
	}
	phase := osb.UpdatePhase(numberOf(t, words[0], updatePhaseNames))
	return osb.UpdateHoldingByHand(settingsOf(t, words[2]), to, unsignedOf(t, words[1]), phase)
}

func updateBegunOf(t *testing.T, cell string) osb.UpdateBegun {
	t.Helper()
	first, to, _ := strings.Cut(cell, " ")
	if cell == "conflict" {
		return osb.UpdateBegun{IsMaintenanceConflict: true}
	}
	if mode, isWork := modeNames[first]; isWork {
		return osb.UpdateBegun{To: settingsOf(t, to), Mode: osb.Mode(mode), HasWork: true}
	}
	return osb.UpdateBegun{Answer: answerOf(t, cell)}
}

func updateFetchedOf(t *testing.T, cell string) osb.UpdateFetched {
	t.Helper()
	words := strings.Fields(cell)
	if words[0] != "found" {
		return osb.UpdateFetched{Answer: answerOf(t, cell)}
	}
	return osb.UpdateFetched{Settings: settingsOf(t, words[2]), Number: unsignedOf(t, words[1]), IsFound: true}
}

func (a arguments) updateHolding() osb.UpdateHolding {
	return updateHoldingOf(a.t, a.text("update_holding"))
}

func (a arguments) settings() osb.Settings { return settingsOf(a.t, a.text("settings")) }

func (a arguments) instance() osb.Holding { return holdingOf(a.t, a.text("instance")) }

// The calls of updates, and the words of their columns.
func init() {
	parsed["settings"] = func(t *testing.T, cell string) any { return settingsOf(t, cell) }
	parsed["update_holding"] = func(t *testing.T, cell string) any { return updateHoldingOf(t, cell) }
	parsed["update_begun"] = func(t *testing.T, cell string) any { return updateBegunOf(t, cell) }
	parsed["update_fetched"] = func(t *testing.T, cell string) any { return updateFetchedOf(t, cell) }
	for name, call := range map[string]func(arguments) (results, error){
		"update_asked_for": func(a arguments) (results, error) {
			asked := a.settings().With(changeOf(a.t, a.text("change")))
			return a.resultsOf(nil, output{"settings", asked, nil})
		},
		"update_new": func(a arguments) (results, error) {
			return a.resultsOf(nil, output{"update_holding", osb.NewUpdateHolding(a.settings()), nil})
		},
		"update_is_under_way": func(a arguments) (results, error) {
			return results{word(a.updateHolding().IsUnderWay())}, nil
		},
		"update_begin": func(a arguments) (results, error) {
			before, allowed := a.updateHolding(), osb.Allowed(a.enum("allowed", allowedNames))
			holding, begun, err := before.Begin(a.instance(), allowed, updateOf(a.t, a.text("update")))
			return a.resultsOf(err, output{"update_holding", holding, before},
				output{"update_begun", begun, osb.UpdateBegun{}})
		},
		"update_end": func(a arguments) (results, error) {
			before, outcome := a.updateHolding(), osb.UpdateOutcome(a.enum("outcome", updateOutcomeNames))
			holding, answer, err := before.End(a.mode(), outcome)
			return a.resultsOf(err, output{"update_holding", holding, before}, output{"answer", answer, osb.Answer{}})
		},
		"update_finish": func(a arguments) (results, error) {
			holding, err := a.updateHolding().Finish(a.flag("ok"))
			return a.resultsOf(err, output{"update_holding", holding, a.updateHolding()})
		},
		"update_poll": func(a arguments) (results, error) {
			answer, err := a.updateHolding().Poll(a.instance())
			return a.resultsOf(err, output{"answer", answer, osb.Answer{}})
		},
		"update_fetch": func(a arguments) (results, error) {
			fetched, err := a.updateHolding().Fetch(a.instance())
			return a.resultsOf(err, output{"update_fetched", fetched, osb.UpdateFetched{}})
		},
		"update_begin_instance": func(a arguments) (results, error) {
			return a.resultsOfBegin(a.updateHolding().BeginInstance(
				a.holding(), a.mode(), a.requestCell(), a.rules(), a.flag("any_held")))
		},
		"update_holding_to_text": func(a arguments) (results, error) { return one(a.updateHolding().MarshalJSON()) },
		"update_holding_from_text": func(a arguments) (results, error) {
			before := updateHoldingOf(a.t, "failed 1 sync:01:02")
			holding := before
			err := holding.UnmarshalJSON(a.bytes("text"))
			return a.resultsOf(err, output{"update_holding", holding, before})
		},
	} {
		calls[name] = call
	}
}

// The parts of a holding of updates. It leads to settings exactly while an update is under way.
func TestPartsOfUpdates(t *testing.T) {
	holding := updateHoldingOf(t, "updating 5 sync:01:02 async:03:04")
	equal(t, "the settings", holding.Settings(), settingsOf(t, "sync:01:02"))
	equal(t, "the number", holding.Number(), 5)
	equal(t, "the phase", holding.Phase(), osb.UpdatePhaseUpdating)
	if to, isLeading := holding.Goal(); !isLeading || to != settingsOf(t, "async:03:04") {
		t.Errorf("got %+v, %v, want the settings to which the operation leads", to, isLeading)
	}
	for _, cell := range []string{"settled 5 sync:01:02", "failed 5 sync:01:02"} {
		if to, isLeading := updateHoldingOf(t, cell).Goal(); isLeading {
			t.Errorf("%s: got the settings %+v, want none", cell, to)
		}
	}
}

// A whole update: it is begun, kept as text over a crash, started, polled, fetched and ended.
func TestAnUpdate(t *testing.T) {
	instance := holdingOf(t, "ready:sync")
	pending, begun, err := osb.NewUpdateHolding(settingsOf(t, "sync:01:02")).Begin(
		instance, osb.AllowedAsync, updateOf(t, "1 async:-:-"))
	check(t, err)
	if !begun.HasWork || begun.To != settingsOf(t, "async:01:02") {
		t.Fatalf("got %+v, want work to the settings that are asked for", begun)
	}
	var read osb.UpdateHolding
	check(t, read.Scan(need(pending.Value())(t)))
	equal(t, "what is read", read, pending)
	updating, answer, err := read.End(begun.Mode, osb.UpdateOutcomeDone)
	check(t, err)
	equal(t, "the answer", answer, osb.Answer{Status: 202, Body: osb.BodyEmpty})
	equal(t, "under way", updating.IsUnderWay(), true)
	equal(t, "the Poll", need(updating.Poll(instance))(t), osb.Answer{Status: 200, Body: osb.BodyInProgress})
	settled := need(updating.Finish(true))(t)
	fetched := need(settled.Fetch(instance))(t)
	equal(t, "the Fetch", fetched, osb.UpdateFetched{Settings: begun.To, Number: 1, IsFound: true})
}

// A holding in which the plan goes by another id is the same in all else.
func TestWithPlan(t *testing.T) {
	settings := osb.Settings{Plan: plan, Parameters: osb.Digest{1}, Version: osb.Digest{2}}
	held := osb.NewUpdateHolding(settings)
	other := held.WithPlan(async)
	settings.Plan = async
	if other != osb.NewUpdateHolding(settings) || held.Settings().Plan != plan {
		t.Errorf("got %v of %v, want the plan alone changed, and the first as it was", other, held)
	}
}
