package run

import (
	"bytes"
	"context"
	"crypto/sha256"
	"encoding/json"
	"fmt"
	"io"
	"net/http"
	"net/http/httptest"
	"os"
	"path/filepath"
	"strings"
	"sync"
	"testing"
	"time"

	"pippinterm/internal/diff"
	"pippinterm/storm/conform"
	"pippinterm/storm/fault"
	"pippinterm/storm/stormtest"
)

// A lie is a mistake of an updatable.
type lie string

const (
	truthful     lie = ""
	doesNothing  lie = "it reports success, and changes nothing"
	doesHalf     lie = "it reports success, and changes the plan alone"
	takesCopies  lie = "it does whatever arrives, however late"
	tooSoon      lie = "it reports success before the resource is changed"
	reportsPast  lie = "its Fetch reports the parameters of before"
	keepsBadNews lie = "it rejects an Update that it has done"
	// The following are no lies.
	failsOnce         lie = "the first operation to some settings fails"
	rejectsParameters lie = "it rejects parameters"
)

// An updatable is a model whose instances can be updated. It judges Updates by their numbers. The settings of an instance
// that was updated are a file.
type updatable struct {
	*model
	lie     lie
	isAsync bool // its updates
	turn    sync.Mutex
	of      map[string]*updatableRow
}

// An updatableRow is what an updatable knows of the settings of an instance.
type updatableRow struct {
	settings, to settings
	past         settings // before the latest update
	number       float64
	until        time.Time // when the operation ends
	isUpdating   bool
	hasFailed    bool              // the latest operation
	tried        map[settings]bool // what an operation has led to
}

// newUpdatable returns an updatable that runs until the end of the test, and the options of a storm against it.
func newUpdatable(t *testing.T, isAsync bool, lie lie) (*updatable, BrokerOptions) {
	t.Helper()
	of, _ := newModel(t, false, mistakes{})
	m := &updatable{model: of, lie: lie, isAsync: isAsync, of: map[string]*updatableRow{}}
	check(t, os.Mkdir(filepath.Join(m.folder, "settings"), 0o700))
	server := httptest.NewServer(m)
	t.Cleanup(server.Close)
	options := optionsFor(t, server.URL)
	options.Commands = m.commands()
	options.Commands.Settings = "cd " + m.folder + `/settings; for it in *-*; do echo "$it $(cat $it)"; done`
	return m, options
}

func (m *updatable) ServeHTTP(w http.ResponseWriter, r *http.Request) {
	text, _ := io.ReadAll(r.Body)
	r.Body = io.NopCloser(bytes.NewReader(text))
	if status, body := m.answer(r, text); status != 0 {
		w.Header().Set("Content-Type", "application/json")
		w.WriteHeader(status)
		_ = json.NewEncoder(w).Encode(body)
		return
	}
	m.model.ServeHTTP(w, r)
}

// answer answers what concerns updates. The status 0 leaves a request to the model.
func (m *updatable) answer(r *http.Request, text []byte) (int, object) {
	parts := strings.Split(r.URL.Path, "/")
	if _, given, _ := r.BasicAuth(); given != password {
		return 0, nil
	}
	if r.URL.Path == "/v2/catalog" {
		of := catalogue(true)
		of["x-osb-updates"] = true
		service := of["services"].([]object)[0]
		service["plan_updateable"] = true
		service["plans"] = append(service["plans"].([]object),
			object{"id": "q", "name": "other", "description": "another", "maintenance_info": object{"version": "2.0.0"}})
		return 200, of
	}
	isPoll := parts[len(parts)-1] == "last_operation"
	if len(parts) > 5 || len(parts) == 5 && !isPoll {
		return 0, nil
	}
	m.turn.Lock()
	defer m.turn.Unlock()
	row := m.row(parts[3])
	switch {
	case row == nil:
	case r.Method == http.MethodPatch:
		return m.patch(parts[3], row, text)
	case r.Method == http.MethodGet && isPoll && row.isUpdating:
		return 200, object{"state": "in progress"}
	case r.Method == http.MethodGet && isPoll && row.hasFailed:
		return 200, object{"state": "failed"}
	case r.Method == http.MethodGet && !isPoll:
		return m.fetched(row)
	case r.Method == http.MethodDelete && row.isUpdating:
		return 422, object{"error": "ConcurrencyError"}
	case r.Method == http.MethodDelete:
		delete(m.of, parts[3])
		_ = os.Remove(m.file(parts[3]))
	}
	return 0, nil
}

func (m *updatable) file(instance string) string {
	return filepath.Join(m.folder, "settings", instance)
}

// row returns the row of an instance that is ready, or nil. If its operation is over, it has ended.
func (m *updatable) row(instance string) *updatableRow {
	m.model.mutex.Lock()
	_, isThere := m.rows[Key{Instance: instance}]
	m.model.mutex.Unlock()
	if !isThere {
		return nil
	}
	if m.of[instance] == nil {
		m.of[instance] = &updatableRow{settings: settings{plan: "p"}, tried: map[settings]bool{}}
	}
	row := m.of[instance]
	if row.isUpdating && time.Now().After(row.until) {
		row.isUpdating, row.hasFailed = false, m.lieFor(row) == failsOnce && !row.tried[row.to]
		row.tried[row.to] = true
		if !row.hasFailed {
			m.apply(instance, row)
		}
	}
	return row
}

// lieFor returns the lie about an update. The one that tries the broker is always done.
func (m *updatable) lieFor(row *updatableRow) lie {
	if row.to.parameters == `{"osb-storm":0}` {
		return truthful
	}
	return m.lie
}

// apply sets an instance to what is asked for, and changes its resource as the lie says.
func (m *updatable) apply(instance string, row *updatableRow) {
	row.past, row.settings = row.settings, row.to
	has := row.to
	switch m.lieFor(row) {
	case doesNothing:
		has = row.past
	case doesHalf:
		has.parameters = row.past.parameters
	case tooSoon:
		m.making.Add(1)
		time.AfterFunc(2*time.Second, func() {
			defer m.making.Done()
			m.turn.Lock()
			defer m.turn.Unlock()
			if m.of[instance] == row {
				m.write(instance, row.settings)
			}
		})
		return
	}
	m.write(instance, has)
}

func (m *updatable) write(instance string, has settings) {
	of := object{"plan_id": has.plan, "version": has.version}
	if has.parameters != "" {
		of["parameters"] = json.RawMessage(has.parameters)
	}
	text, err := json.Marshal(of)
	if err == nil {
		err = os.WriteFile(m.file(instance)+".part", text, 0o600)
	}
	if err == nil {
		err = os.Rename(m.file(instance)+".part", m.file(instance))
	}
	if err != nil {
		panic(err)
	}
}

func (m *updatable) patch(instance string, row *updatableRow, text []byte) (int, object) {
	var body object
	if json.Unmarshal(text, &body) != nil || m.lie == rejectsParameters && parametersOf(body["parameters"]) != "" {
		return 400, object{}
	}
	to, number := row.settings, 0.0
	if plan, is := body["plan_id"].(string); is {
		to.plan = plan
	}
	number, _ = body["x-osb-update"].(float64)
	if parameters := parametersOf(body["parameters"]); parameters != "" || number > 0 && body["parameters"] != nil {
		to.parameters = parameters
	}
	if maintenance, is := body["maintenance_info"].(map[string]any); is {
		to.version, _ = maintenance["version"].(string)
	}
	isOld := m.lie != takesCopies && number > 0 && number <= row.number
	switch {
	case isOld && number < row.number:
		return 409, object{"error": "OldUpdate"}
	case row.isUpdating && to == row.to:
		return 202, object{"operation": "update"}
	case row.isUpdating:
		return 422, object{"error": "ConcurrencyError"}
	case isOld && to != row.settings:
		return 500, object{}
	}
	row.number, row.to, row.hasFailed = number, to, false
	switch {
	case to == row.settings:
	case m.isAsync:
		row.isUpdating, row.until = true, time.Now().Add(150*time.Millisecond)
		return 202, object{"operation": "update"}
	default:
		m.apply(instance, row)
		if m.lieFor(row) == keepsBadNews {
			return 400, object{"error": "Rejected"}
		}
	}
	return 200, object{}
}

func (m *updatable) fetched(row *updatableRow) (int, object) {
	if row.isUpdating || row.hasFailed {
		return 422, object{"error": "ConcurrencyError"}
	}
	has := row.settings
	if m.lie == reportsPast {
		has.parameters = row.past.parameters
	}
	of := object{
		"plan_id": has.plan, "maintenance_info": object{"version": has.version}, "x-osb-update": row.number,
		"parameters": object{},
	}
	if has.parameters != "" {
		of["parameters"] = json.RawMessage(has.parameters)
	}
	return 200, of
}

// A broker that tells the truth about settings passes, with numbers and without them, whatever becomes of Updates.
func TestTrueSettings(t *testing.T) {
	for name, test := range map[string]struct {
		isAsync bool
		lie     lie
		without string
	}{
		"synchronous": {}, "asynchronous": {isAsync: true}, "without numbers": {without: WithoutNumbers},
		"failing": {isAsync: true, lie: failsOnce}, "plans alone": {lie: rejectsParameters},
		"late copies without numbers": {isAsync: true, lie: takesCopies, without: WithoutNumbers},
	} {
		test := test
		t.Run(strings.ReplaceAll(name, " ", "-"), func(t *testing.T) {
			t.Parallel()
			updates := 0
			for seed := int64(1); seed <= storms && updates < 20 && !t.Failed(); seed++ {
				_, options := newUpdatable(t, test.isAsync, test.lie)
				options.Seed, options.Without, options.SettleTime = seed, test.without, time.Minute
				report := runStorm(t, options)
				updates += report.Updates
				isNoted := strings.Contains(strings.Join(report.Notes, ""), "no parameters were updated: the broker rejects them")
				diff.Equal(t, isNoted, test.lie == rejectsParameters, "a note about parameters")
				if !report.IsClean() || len(report.Broken) > 0 || len(report.Failed) > 0 || len(report.Leftovers) > 0 {
					t.Errorf("got\n%s\nwant a clean report with nothing broken, failed or left", textOf(t, report))
				}
			}
			diff.AtLeast(t, updates, 20, "updates that have succeeded")
		})
	}
}

// withoutCommand has a storm not know what the resources are set to.
const withoutCommand = "command"

// Each lie about settings is found, and named.
func TestFalseSettings(t *testing.T) {
	for _, test := range []struct {
		lie     lie
		isAsync bool
		without string
		half    bool   // the resource has settings that nobody has asked for
		wanted  string // part of what the report says
	}{
		{doesNothing, false, "", false, "its last answer reported "},
		{doesNothing, true, WithoutNumbers, false, "the broker reports by a Fetch "},
		{doesHalf, false, "", true, ", which nobody has asked for"},
		{doesHalf, true, WithoutNumbers, true, ", which nobody has asked for"},
		{takesCopies, false, "", false, "its last answer reported "},
		{tooSoon, true, "", false, "during the storm, its last answer reported "},
		{reportsPast, false, "", false, "the broker reports by a Fetch "},
		{reportsPast, false, withoutCommand, false, ", and the broker reports by a Fetch "},
		{keepsBadNews, false, "", false, "its last answer reported "},
	} {
		test := test
		t.Run(strings.ReplaceAll(fmt.Sprint(test.lie, test.without), " ", "-"), func(t *testing.T) {
			t.Parallel()
			inOneStorm(t, func(seed int64) string {
				_, options := newUpdatable(t, test.isAsync, test.lie)
				options.Seed, options.Without, options.CleanUpTime = seed, test.without, time.Minute
				if test.without == withoutCommand {
					options.Without, options.Commands.Settings = "", ""
				}
				report := runStorm(t, options)
				found, heading := report.Settings, "FALSE SETTINGS: instance "
				if test.half {
					found, heading = report.Half, "HALF UPDATED: instance "
				}
				if !strings.Contains(stormtest.Whats(found), test.wanted) || report.IsClean() {
					return textOf(t, report)
				}
				diff.Contains(t, textOf(t, report), heading, "the report")
				return ""
			})
		})
	}
}

// The settings of the tables: those of before, those that are asked for, and others.
var (
	old   = settings{plan: "p"}
	asked = settings{plan: "q", parameters: `{"a":1}`, version: "2"}
	third = settings{plan: "r", parameters: `{"a":3}`}
)

func answerOf(status int, members object) conform.Answer {
	return conform.Answer{Status: status, Object: members}
}

// What a platform records after the answers to an Update, a Poll and a Fetch is what the tables of the design say.
func TestUpdateTables(t *testing.T) {
	updating := updateRecord{settings: old, to: old, state: updateSettled}.update(asked)
	mixed := updating.update(third).update(asked)
	polling, unsure := updating, updating
	polling.state, unsure.state = updatePolling, updateUnsure
	fetched := object{"plan_id": "q", "parameters": object{"a": 1.0}, "maintenance_info": object{"version": "2"}}
	with := func(number float64) object {
		of := object{"x-osb-update": number}
		for name, value := range fetched {
			of[name] = value
		}
		return of
	}
	none, unnumbered := with(1), with(1)
	delete(none, "parameters")
	delete(unnumbered, "x-osb-update")
	update, poll, fetch := updateRecord.afterUpdate, updateRecord.afterPoll, updateRecord.afterFetch
	for _, test := range []struct {
		name   string
		table  func(updateRecord, conform.Answer) updateRecord
		before updateRecord
		answer conform.Answer
		state  updateState
		has    settings
	}{
		{"200", update, updating, answerOf(200, object{}), updateSettled, asked},
		{"200 without an object", update, updating, answerOf(200, nil), updateUpdating, old},
		{"202", update, updating, answerOf(202, object{}), updatePolling, old},
		{"202 without an object", update, updating, answerOf(202, nil), updateUpdating, old},
		{"422 later", update, updating, answerOf(422, object{"error": "ConcurrencyError"}), updateUpdating, old},
		{"422", update, updating, answerOf(422, object{"error": "AsyncRequired"}), updateSettled, old},
		{"400", update, updating, answerOf(400, object{}), updateSettled, old},
		{"400 of a gateway", update, updating, answerOf(400, nil), updateUpdating, old},
		{"400 if others may have been done", update, mixed, answerOf(400, object{}), updateUnsure, old},
		{"404", update, updating, answerOf(404, object{}), updateUpdating, old},
		{"429", update, updating, answerOf(429, object{}), updateUpdating, old},
		{"500", update, updating, answerOf(500, object{}), updateUpdating, old},
		{"none", update, updating, answerOf(0, nil), updateUpdating, old},
		{"succeeded", poll, polling, answerOf(200, object{"state": "succeeded"}), updateSettled, asked},
		{"failed", poll, polling, answerOf(200, object{"state": "failed"}), updateUnsure, old},
		{"in progress", poll, polling, answerOf(200, object{"state": "in progress"}), updatePolling, old},
		{"a Poll with 410", poll, polling, answerOf(410, object{"state": "succeeded"}), updatePolling, old},
		{"a Fetch of the latest", fetch, unsure, answerOf(200, with(1)), updateSettled, asked},
		{"a Fetch of an earlier one", fetch, unsure, answerOf(200, with(0)), updateUnsure, old},
		{"a Fetch without a number", fetch, unsure, answerOf(200, unnumbered), updateUnsure, old},
		{"a Fetch without parameters", fetch, unsure, answerOf(200, none), updateUnsure, old},
		{"a Fetch with 404", fetch, unsure, answerOf(404, with(1)), updateUnsure, old},
	} {
		t.Run(test.name, func(t *testing.T) {
			after := test.table(test.before, test.answer)
			diff.Equal(t, after.state, test.state, "the state")
			diff.Equal(t, after.settings, test.has, "the settings")
			diff.Equal(t, after.mixed, test.before.mixed && after.state != updateSettled, "others may have been done")
		})
	}
	diff.Equal(t, updating.number, 1, "the number of the first Update")
	diff.Equal(t, updating.mixed, false, "an Update after a settled one")
	diff.Equal(t, updating.update(asked).mixed, false, "the same Update again")
	diff.Equal(t, mixed.mixed, true, "another Update before one is settled")
}

// An Update names what differs from the recorded settings, and everything if others may have been done or nobody knows
// the order of Updates.
func TestNamed(t *testing.T) {
	plan := updateRecord{settings: old, to: old, state: updateSettled}.update(settings{plan: "q"})
	back := plan.update(settings{plan: "q", parameters: `{"a":1}`}).update(old)
	for _, test := range []struct {
		name      string
		record    updateRecord
		hasNumber bool
		wanted    string
	}{
		{"plan", plan, true, `{"plan_id":"q","x-osb-update":1}`},
		{"all", back, true, `{"maintenance_info":{"version":""},"parameters":{},"plan_id":"p","x-osb-update":3}`},
		{"no number", plan, false, `{"maintenance_info":{"version":""},"parameters":{},"plan_id":"q"}`},
	} {
		t.Run(test.name, func(t *testing.T) {
			text := diff.Value(json.Marshal(test.record.named(test.hasNumber)))(t)
			diff.Equal(t, string(text), test.wanted, "the members")
		})
	}
}

// Settings are read from what a command prints, and from the answer to a Fetch, which may say less.
func TestSettingsOf(t *testing.T) {
	for text, wanted := range map[string]settings{
		`{"plan_id":"q","parameters":{"b":2,"a":1},"version":"2"}`: {"q", `{"a":1,"b":2}`, "2"},
		`{"plan_id":"q","parameters":{}}`:                          {plan: "q"},
		`half`:                                                     unreadable,
		`null`:                                                     unreadable,
		``:                                                         unreadable,
	} {
		t.Run(text, func(t *testing.T) { diff.Equal(t, ofResource(text, nil), wanted, "%s", text) })
	}
	for _, test := range []struct {
		object string // of which a command prints the digest
		wanted settings
	}{
		{`{"plan_id":"p"}`, old}, {`{"plan_id":"p","parameters":{}}`, old},
		{`{"plan_id":"q","parameters":{"a":1},"version":"2"}`, asked},
		{`{"plan_id":"q","parameters":{"a":3},"version":"2"}`, unreadable},
	} {
		t.Run(test.object, func(t *testing.T) {
			digest := fmt.Sprintf("%x", sha256.Sum256([]byte(test.object)))
			diff.Equal(t, ofResource(digest, []settings{asked, old}), test.wanted, "the digest of %s", test.object)
		})
	}
	diff.Equal(t, ofFetch(object{}), settings{unreported, unreported, unreported}, "an answer that says nothing")
	some := ofFetch(object{"plan_id": "q", "parameters": nil})
	diff.Equal(t, some, settings{plan: "q", version: unreported}, "an answer that says something")
	for _, test := range []struct {
		other  settings
		wanted bool
	}{
		{settings{plan: "q", version: "2"}, true}, {settings{plan: "p"}, false},
		{settings{plan: "q", parameters: `{"a":1}`}, false}, {settings{unreported, unreported, unreported}, true},
	} {
		t.Run(test.other.String(), func(t *testing.T) {
			diff.Equal(t, some.agrees(test.other), test.wanted, "they agree")
			diff.Equal(t, test.other.agrees(some), test.wanted, "they agree the other way round")
		})
	}
}

// A command that fails, or that doesn't print what an instance was set to, ends the run before the storm.
func TestWrongSettings(t *testing.T) {
	for command, wanted := range map[string]string{
		"exit 3": "the command of --settings-command has failed: ", "true": "got plan p, want plan p, parameters {\"osb-storm\":0}",
	} {
		t.Run(command, func(t *testing.T) {
			m, options := newUpdatable(t, true, truthful)
			options.Commands.Settings = command
			storm := openStorm(t, options)
			report, err := storm.Run(context.Background(), context.Background())
			diff.ErrorIs(t, err, ErrList, "")
			diff.ErrorContains(t, err, wanted, "")
			diff.Equal(t, report.Requests, 0, "requests of a storm")
			m.expectNothing(t)
		})
	}
}

// What isn't updated or compared is in the report, with the reason.
func TestUpdateNotes(t *testing.T) {
	for name, test := range map[string]struct {
		change func(*BrokerStorm)
		wanted string
	}{
		"nothing": {func(s *BrokerStorm) { s.noUpdates = "because" }, "no instance was updated: because"},
		"all":     {func(*BrokerStorm) {}, ""},
		"no plans": {func(s *BrokerStorm) { s.updatesPlans = false },
			"no plan was updated: the catalogue has no x-osb-updates, or the service has no other plan"},
		"no parameters": {func(s *BrokerStorm) { s.updatesParameters = false },
			"no parameters were updated: the broker rejects them"},
		"no command": {func(s *BrokerStorm) { s.options.Commands.Settings = "" },
			"the settings of the resources weren't compared: give --settings-command"},
		"nothing to compare": {func(s *BrokerStorm) { s.target.NumbersUpdates, s.target.InstancesRetrievable = false, false },
			"the settings weren't compared: that needs --settings-command, and a broker with instances_retrievable or " +
				"x-osb-updates"},
	} {
		t.Run(name, func(t *testing.T) {
			storm := openStorm(t, optionsFor(t, "http://127.0.0.1:1"))
			storm.updatesPlans, storm.updatesParameters, storm.options.Commands.Settings = true, true, "settings"
			storm.target.Updateable, storm.target.NumbersUpdates, storm.target.InstancesRetrievable = true, true, true
			test.change(storm)
			diff.Equal(t, strings.Join(storm.notes(), "\n"), test.wanted, "the notes")
		})
	}
}

// Without updates, no Update is sent, and the report says why. So it is if the broker rejects them.
func TestNoUpdates(t *testing.T) {
	for name, test := range map[string]struct {
		change func(*testing.T, *updatable, *BrokerOptions)
		wanted string
	}{
		"without": {func(_ *testing.T, _ *updatable, c *BrokerOptions) { c.Without = WithoutUpdates },
			"no instance was updated: --without updates"},
		"rejected": {func(t *testing.T, m *updatable, c *BrokerOptions) {
			server := httptest.NewServer(m.model) // which knows no Update
			t.Cleanup(server.Close)
			c.Broker.URL = server.URL
		}, "no instance was updated: an Update of the parameters without faults ended with "},
	} {
		test := test
		t.Run(name, func(t *testing.T) {
			t.Parallel()
			m, options := newUpdatable(t, false, truthful)
			options.Time, options.Broker.Instances = time.Second, 5
			test.change(t, m, &options)
			report := runStorm(t, options)
			diff.Contains(t, strings.Join(report.Notes, "\n"), test.wanted, "the notes")
			diff.Equal(t, report.Updates, 0, "updates")
			m.turn.Lock()
			defer m.turn.Unlock()
			for _, row := range m.of {
				diff.Equal(t, row.number, 0.0, "the number of an Update")
			}
		})
	}
}

// An update that hasn't ended when the storm ends hasn't converged.
func TestUpdateNotConverged(t *testing.T) {
	key := Key{Instance: "one"}
	u := &updater{of: map[Key]*updatedInstance{key: {updateRecord: updateRecord{state: updatePolling}}}}
	diff.Equal(t, u.rests(), false, "it rests")
	diff.Check(t, u.unsettled(), []Difference{{Key: key, Kind: Stuck, What: "its update is still polling"}}, "what hasn't converged")
	u.end(context.Background(), key)
	diff.Equal(t, u.rests(), true, "it rests once its instance is removed")
	diff.Empty(t, u.unsettled(), "what hasn't converged then")
}

// False settings and half an update are in each form of a report, which isn't clean then.
func TestSettingsInReports(t *testing.T) {
	for heading, change := range map[string]func(*Report, []Finding){
		"false settings": func(r *Report, found []Finding) { r.Settings = found },
		"half updated":   func(r *Report, found []Finding) { r.Half = found },
	} {
		t.Run(heading, func(t *testing.T) {
			report := emptyReport()
			report.Converged, report.Updates = true, 17
			diff.Equal(t, report.IsClean(), true, "it is clean before")
			change(report, []Finding{{Number: "1", Instance: "ours", What: "the reason"}})
			diff.Equal(t, report.IsClean(), false, "it is clean")
			forms := stormtest.Forms(t, report)
			for form, text := range forms {
				diff.Contains(t, text, "the reason", "%s", form)
				if form != "JSON" {
					diff.Contains(t, text, "1 "+heading, "%s", form)
				}
			}
			diff.Contains(t, forms["text"], ", 17 updates, ", "the text")
			diff.Contains(t, forms["JSON"], `"updates": 17`, "the JSON")
		})
	}
}

// After an operation that has failed, the settings that were asked for are chosen, or those of before. Without a number,
// an Update can't name those of before.
func TestChoose(t *testing.T) {
	it := &updatedInstance{updateRecord: updateRecord{settings: old, to: asked}, chance: fault.Chance(1, "choose")}
	for _, numbers := range []bool{false, true} {
		chosen := map[settings]bool{}
		for count := 0; count < 50; count++ {
			chosen[(&updater{numbers: numbers}).choose(it)] = true
		}
		diff.Check(t, chosen, map[bool]map[settings]bool{false: {asked: true}, true: {asked: true, old: true}}[numbers],
			"what is chosen, with numbers %v", numbers)
	}
}
