package osb_test

import (
	"strconv"
	"strings"
	"testing"

	"pippinterm/osb"
)

var (
	platformStageNames = numbersOf(func(n uint8) string { return osb.PlatformStage(n).String() })
	cleanUpNames       = numbersOf(func(n uint8) string { return osb.CleanUp(n).String() })
)

func platformDriverOf(t *testing.T, cell string) osb.PlatformDriver {
	t.Helper()
	words := strings.Fields(cell)
	parts := osb.PlatformDriverParts{
		Number: driverNumberOf(t, "01"), Stage: osb.PlatformStage(numberOf(t, words[0], platformStageNames)),
	}
	for _, word := range words[1:] {
		switch {
		case word == "instance":
		case word == "binding":
			parts.IsBinding = true
		case word == "fetches":
			parts.Fetches = true
		case word == "credentials":
			parts.HasCredentials = true
		case word[0] == '#':
			parts.Number = driverNumberOf(t, word[1:])
		case word[0] == '@':
			parts.Sent.Attempt = need(strconv.ParseUint(word[1:], 10, 64))(t)
		case strings.Contains(word, "/"):
			answer := answerOf(t, strings.ReplaceAll(word, "/", " "))
			parts.Answer = &answer
		default:
			parts.Sent.Request = requestOf(t, word)
		}
	}
	return osb.PlatformDriverByHand(parts)
}

// platformReading is what a transaction is given. The plan of an instance is the records'. A binding's is its instance's,
// whatever the reading has.
func (a arguments) platformReading() osb.PlatformReading {
	reading := osb.PlatformReading{
		Record: a.record(), Number: driverNumberOf(a.t, a.text("number")), Instance: recordOf(a.t, a.text("instance")),
		AllGone: a.flag("all_gone"), ID: instance, Service: service, Plan: plan,
		AcceptsIncomplete: a.flag("accepts"), IsRetrievable: a.flag("retrievable"),
	}
	reading.HasRecord, reading.HasInstance = a.text("record") != "none", a.text("instance") != "none"
	if strings.Contains(a.text("driver"), " binding") {
		reading.ID, reading.Plan = boundID, async
	}
	for _, wish := range strings.Fields(a.text("wishes")) {
		switch wish {
		case "create":
			reading.Create = true
		case "send":
			reading.Send = true
		default:
			reading.CleanUp = osb.CleanUp(numberOf(a.t, wish, cleanUpNames))
		}
	}
	return reading
}

// effectsOf are the words of what a transaction did.
func effectsOf(transaction osb.PlatformTransaction) string {
	var words []string
	for _, effect := range []struct {
		word string
		isSo bool
	}{
		{"times-out", transaction.TimesOut()},
		{transaction.CleansUp().String(), transaction.CleansUp() != osb.CleanUpNone},
		{"sends", transaction.Sends()},
		{"takes", transaction.Takes()},
	} {
		if effect.isSo {
			words = append(words, effect.word)
		}
	}
	if words == nil {
		return "none"
	}
	return strings.Join(words, " ")
}

func (a arguments) platformDriver() osb.PlatformDriver {
	return platformDriverOf(a.t, a.text("driver"))
}

// The calls of drivers of a platform.
func init() {
	parsed["effects"] = func(_ *testing.T, cell string) any { return cell }

	calls["platform_driver_new"] = func(a arguments) (results, error) {
		driver, err := osb.NewPlatformDriver(driverNumberOf(a.t, a.text("number")), a.flag("is_binding"))
		return a.resultsOf(err, output{"driver", driver, osb.PlatformDriver{}})
	}
	calls["platform_driver_answered"] = func(a arguments) (results, error) {
		before, hasCredentials := a.platformDriver(), a.flag("has_credentials")
		driver, err := before.Lost()
		if a.cells["answer"] != nil {
			driver, err = before.Answered(answerOf(a.t, a.text("answer")), hasCredentials)
		}
		return a.resultsOf(err, output{"driver", driver, before})
	}
	calls["platform_driver_fetched"] = func(a arguments) (results, error) {
		before := a.platformDriver()
		driver, err := before.Fetched(a.flag("has_credentials"))
		return a.resultsOf(err, output{"driver", driver, before})
	}
	calls["platform_driver_read"] = func(a arguments) (results, error) {
		transaction, err := a.platformDriver().Read(a.platformReading())
		if err != nil {
			return a.resultsOf(err, output{"committed", transaction.Committed(), osb.PlatformDriver{}})
		}
		record, number := transaction.Row()
		if transaction.HasRecord() != (record != osb.Record{}) {
			a.t.Errorf("got a record: %t, want %+v", transaction.HasRecord(), record)
		}
		return a.resultsOf(nil,
			output{"record", record, nil}, output{"number", number, nil}, output{"writes", transaction.Writes(), nil},
			output{"committed", transaction.Committed(), nil}, output{"unsure", transaction.Unsure(), nil},
			output{"failed", transaction.Failed(), nil}, output{"effects", effectsOf(transaction), nil})
	}
}

// A driver of a platform says what its action needs, and nothing else.
func TestPlatformDriver(t *testing.T) {
	bind := requestOf(t, "bind:sync")
	for _, test := range []struct {
		cell  string
		stage osb.PlatformStage
		sent  osb.Sent
	}{
		{"send binding @1 bind:sync", osb.PlatformStageSend, osb.Sent{Request: bind, Attempt: 1}},
		{"take binding @2 201/empty", osb.PlatformStageTake, osb.Sent{Attempt: 2}},
		{"done instance", osb.PlatformStageDone, osb.Sent{}},
	} {
		t.Run(test.cell, func(t *testing.T) {
			driver := platformDriverOf(t, test.cell)
			if driver.Stage() != test.stage || driver.Sent() != test.sent || driver.Number() != driverNumberOf(t, "01") {
				t.Errorf("got %v, %+v and %x, want %v, %+v and ones", driver.Stage(), driver.Sent(), driver.Number(),
					test.stage, test.sent)
			}
		})
	}
}
