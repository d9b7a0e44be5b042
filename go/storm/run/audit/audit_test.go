package audit

import (
	"context"
	"encoding/json"
	"fmt"
	"net/url"
	"os"
	"path/filepath"
	"strconv"
	"strings"
	"syscall"
	"testing"

	"pippinterm/broker"
	"pippinterm/broker/backend/postgres"
	brokersqlite "pippinterm/broker/sqlite"
	"pippinterm/internal/diff"
	"pippinterm/internal/pg"
	"pippinterm/internal/pg/pgtest"
	"pippinterm/osb"
	"pippinterm/platform"
	"pippinterm/storm/report"
)

var (
	service, plan, otherPlan = id("00000000-0000-0000-0000-0000000000a0"), id("00000000-0000-0000-0000-0000000000b1"),
		id("00000000-0000-0000-0000-0000000000b2")
	one   = Key{Instance: "00000000-0000-0000-0000-000000000001"}
	bound = Key{Instance: one.Instance, Binding: "00000000-0000-0000-0000-000000000002"}
)

const (
	object = `{"credentials": {"token": "t"}}`
	token  = `{"token": "t"}`
)

func id(text string) osb.ID {
	made, err := osb.IDOfText(text)
	if err != nil {
		panic(err)
	}
	return made
}

// row is a row of the broker in a phase, or with pending work, or with a tombstone, or an empty one. The text is that
// of an instance (docs/instance.md).
func row(t *testing.T, what string, at osb.ID) osb.Holding {
	t.Helper()
	ready := fmt.Sprintf(`{"phase":"ready","plan":"%s","service":"%s"}`, at, service)
	held, work, tombstone := "null", "null", "false"
	switch what {
	case "", "empty":
		return osb.Holding{}
	case "tombstone":
		tombstone = "true"
	case "provision", "deprovision":
		work = fmt.Sprintf(`{"accepts_incomplete":true,"id":"%s","kind":"%s","plan":"%s","service":"%s"}`,
			one.Instance, what, at, service)
		if what == "deprovision" {
			held = ready
		}
	default:
		held = strings.Replace(ready, "ready", what, 1)
	}
	var holding osb.Holding
	text := fmt.Sprintf(`{"attributes":"%064d","row":%s,"tombstone":%s,"version":2,"work":%s}`, 0, held, tombstone, work)
	if err := holding.UnmarshalJSON([]byte(text)); err != nil {
		t.Fatalf("got the error of %s: %v, want none", text, err)
	}
	return holding
}

// A scene is one binding of an instance that is ready everywhere, or an instance alone.
type scene struct {
	state, says   platform.State
	held          string // the row of what the scene is about
	object        string // of the binding in the broker's row
	exists        broker.There
	shows         string // the credentials that the resource shows
	given         string
	instance      string         // the row of the binding's instance; "-" for none
	instanceState platform.State // the record of the binding's instance
	moves         bool           // the record has changed meanwhile
	restless      bool
	foreign       bool
	unrecorded    bool
	came          bool // what exists was created after the rows were read
}

func (s scene) reading(t *testing.T, key Key) Reading {
	t.Helper()
	reading := Reading{
		Records: map[Key]Record{}, After: map[Key]Record{}, Held: map[Key]Row{}, Given: map[Key]json.RawMessage{},
		Foreign: map[Key]bool{bound: s.foreign},
		Stock:   Stock{Of: map[Key]broker.There{}, Credentials: map[Key]json.RawMessage{}},
	}
	if key.Binding != "" {
		state := s.instanceState
		if state == "" {
			state = Ready
		}
		instance := Record{State: state, Says: state, Service: service, Plan: plan, Rests: true}
		reading.Records[one], reading.After[one], reading.Stock.Of[one] = instance, instance, broker.Whole
		if s.instance == "" {
			s.instance = "ready"
		}
		if s.instance != "-" {
			reading.Held[one] = Row{Holding: row(t, s.instance, plan)}
		}
	}
	says := s.says
	if says == "" {
		says = s.state
	}
	record := Record{State: s.state, Says: says, Service: service, Plan: plan, Rests: !s.restless}
	if !s.unrecorded {
		reading.Records[key], reading.After[key] = record, record
	}
	if s.moves {
		record.State = platform.Cleaning
		reading.After[key] = record
	}
	if s.held != "" {
		reading.Held[key] = Row{Holding: row(t, s.held, plan), Object: json.RawMessage(s.object)}
		if s.object == "" {
			reading.Held[key] = Row{Holding: row(t, s.held, plan)}
		}
	}
	if !s.came {
		reading.Before = Stock{Of: map[Key]broker.There{key: s.exists}}
	}
	if s.exists != broker.None {
		reading.Stock.Of[key] = s.exists
	}
	if s.shows != "" {
		reading.Stock.Credentials[key] = json.RawMessage(s.shows)
	}
	if s.given != "" {
		reading.Given[key] = json.RawMessage(s.given)
	}
	return reading
}

type resourceStub struct {
	Resources
	is bool
}

func (r resourceStub) IsUsable(context.Context, Key, Record) (bool, error) { return r.is, nil }

func texts(all report.Differences, key Key) string {
	var found []string
	for _, wrong := range all {
		if wrong.Key == key {
			found = append(found, fmt.Sprintf("%d %s", wrong.Kind, wrong.What))
		}
	}
	return strings.Join(found, "; ")
}

func differencesAtEnd(t *testing.T, r Reading, key Key) string {
	t.Helper()
	return texts(diff.Value(r.CompareAtEnd(context.Background(), resourceStub{is: true}))(t), key)
}

var readyBinding = scene{state: Ready, held: "ready", object: object, exists: broker.Whole, shows: token, given: object}

func (s scene) with(change func(*scene)) scene {
	change(&s)
	return s
}

// Everything that can be wrong with a binding is found, and nothing else: while the storm goes on, and at the end.
func TestBindings(t *testing.T) {
	const (
		absent   = "1 its record says ready, and it doesn't exist, or not as a whole"
		other    = "1 its record says ready, and the broker's row says something else"
		stands   = "0 it exists, and its record says gone"
		holds    = "3 the broker holds it, and its record says gone"
		noRecord = "0 it exists, and the platform has no record"
		alone    = "3 its credentials exist, and the broker doesn't hold its instance ready"
		unheld   = "3 the broker holds it, and doesn't hold its instance ready at the same plan"
		wanting  = "2 its record is still wanted"
	)
	checkScenes(t, bound, map[string]finding{
		"ready":                  {readyBinding, "", ""},
		"other spaces":           {readyBinding.with(func(s *scene) { s.object = `{"credentials":{"token":"t"}}` }), "", ""},
		"gone with a tombstone":  {scene{state: Gone, held: "tombstone"}, "", ""},
		"gone":                   {scene{state: Gone}, "", ""},
		"in flight":              {scene{state: platform.Wanted, restless: true}, "", wanting},
		"in flight, begun":       {scene{state: platform.Wanted, restless: true, held: "provision"}, "", wanting},
		"in flight, exists":      {scene{state: platform.Wanted, restless: true, held: "ready", object: object, exists: broker.Whole}, "", wanting},
		"absent":                 {readyBinding.with(func(s *scene) { s.exists = broker.None }), absent, absent},
		"a part":                 {readyBinding.with(func(s *scene) { s.exists = broker.Part }), absent, absent},
		"no row":                 {readyBinding.with(func(s *scene) { s.held, s.object = "", "" }), other, other},
		"failed":                 {readyBinding.with(func(s *scene) { s.held = "failed" }), other, other},
		"pending":                {readyBinding.with(func(s *scene) { s.held = "deprovision" }), other, other},
		"no object":              {readyBinding.with(func(s *scene) { s.object = "" }), other, other},
		"another object":         {readyBinding.with(func(s *scene) { s.object = `{"credentials": 1}` }), other, other},
		"other credentials":      {readyBinding.with(func(s *scene) { s.shows = `{"token": "u"}` }), "1 its record says ready, and its credentials are other ones", "1 its record says ready, and its credentials are other ones"},
		"not given out":          {readyBinding.with(func(s *scene) { s.given = "" }), "", "1 its record says ready, and its credentials aren't given out"},
		"gone, held":             {scene{state: Gone, held: "ready"}, holds, holds},
		"gone, begun":            {scene{state: Gone, held: "provision"}, holds, holds},
		"gone, exists":           {scene{state: Gone, exists: broker.Whole}, stands, stands},
		"gone, a part":           {scene{state: Gone, exists: broker.Part}, stands, stands},
		"changes":                {scene{state: Ready, moves: true}, "", "2 its record is still cleaning"},
		"no record, held":        {readyBinding.with(func(s *scene) { s.unrecorded, s.exists = true, broker.None }), "3 the broker has a row, and the platform has no record", "3 the broker has a row, and the platform has no record"},
		"no record, exists":      {scene{unrecorded: true, exists: broker.Whole}, noRecord, noRecord},
		"no record, a part":      {scene{unrecorded: true, exists: broker.Part}, noRecord, noRecord},
		"somebody else's":        {scene{unrecorded: true, foreign: true, exists: broker.Whole, held: "ready", object: object}, "", ""},
		"another state":          {readyBinding.with(func(s *scene) { s.state, s.says = platform.Polling, Ready }), "1 its state is polling, and its record says ready", "2 its record is still polling"},
		"without instance":       {scene{state: platform.Wanted, restless: true, exists: broker.Whole, instance: "-"}, alone, wanting + "; " + alone},
		"instance deleting":      {scene{state: platform.Wanted, restless: true, exists: broker.Whole, instance: "deleting"}, alone, wanting + "; " + alone},
		"instance failed":        {scene{state: platform.Wanted, restless: true, held: "provision", instance: "failed"}, unheld, wanting + "; " + unheld},
		"instance being deleted": {scene{state: platform.Wanted, restless: true, held: "provision", instance: "deprovision"}, unheld, wanting + "; " + unheld},
		"came before the end":    {scene{state: platform.Wanted, restless: true, exists: broker.Whole, came: true, instance: "-"}, "", wanting},
		"ended without instance": {scene{state: Gone, held: "tombstone", instance: "-"}, "", ""},
		"instance recorded gone": {readyBinding.with(func(s *scene) { s.instanceState = Gone }), "", "3 its record says ready, and that of its instance says gone"},
	})
}

// A finding is what has to be found of a scene.
type finding struct {
	scene  scene
	during string // while the storm goes on
	atEnd  string
}

func checkScenes(t *testing.T, key Key, scenes map[string]finding) {
	t.Helper()
	for name, test := range scenes {
		t.Run(name, func(t *testing.T) {
			r := test.scene.reading(t, key)
			diff.Equal(t, texts(r.Compare(), key), test.during, "while the storm goes on")
			diff.Equal(t, differencesAtEnd(t, r, key), test.atEnd, "at the end")
		})
	}
}

// A binding at another plan than its instance is found.
func TestAnotherPlan(t *testing.T) {
	r := scene{state: platform.Wanted, restless: true, held: "provision"}.reading(t, bound)
	r.Held[one] = Row{Holding: row(t, "ready", otherPlan)}
	diff.Contains(t, texts(r.Compare(), bound), "at the same plan", "")
}

// The same for instances.
func TestInstances(t *testing.T) {
	const (
		holds  = "3 the broker holds it, and its record says gone"
		stands = "0 it exists, and its record says gone"
		absent = "1 its record says ready, and it doesn't exist, or not as a whole"
		other  = "1 its record says ready, and the broker's row says something else"
	)
	checkScenes(t, one, map[string]finding{
		"ready":             {scene{state: Ready, held: "ready", exists: broker.Whole}, "", ""},
		"gone":              {scene{state: Gone}, "", ""},
		"withdrawn":         {scene{state: platform.Withdrawn}, "", ""},
		"abandoned, exists": {scene{state: platform.Abandoned, says: platform.Cleaning, held: "ready", exists: broker.Whole}, "", ""},
		"abandoned":         {scene{state: platform.Abandoned, says: platform.Cleaning}, "", ""},
		"wanted":            {scene{state: platform.Wanted, restless: true, held: "ready", exists: broker.Whole}, "", "2 its record is still wanted"},
		"unsettled, exists": {scene{state: platform.Unsettled, exists: broker.Whole}, "", "2 its record is still unsettled"},
		"withdrawn, exists": {scene{state: platform.Withdrawn, exists: broker.Whole}, "", "0 it exists, and its record says withdrawn"},
		"an empty row":      {scene{unrecorded: true, held: "empty"}, "", ""},
		"only a tombstone": {scene{unrecorded: true, held: "tombstone"},
			"3 the broker has a row, and the platform has no record", "3 the broker has a row, and the platform has no record"},
		"gone, held":   {scene{state: Gone, held: "ready"}, holds, holds},
		"gone, exists": {scene{state: Gone, exists: broker.Whole}, stands, stands},
		"gone, both":   {scene{state: Gone, held: "ready", exists: broker.Part}, stands + "; " + holds, stands + "; " + holds},
		"absent":       {scene{state: Ready, held: "ready"}, absent, absent},
		"no row":       {scene{state: Ready, exists: broker.Whole}, other, other},
	})
	r := scene{state: Ready, held: "ready", exists: broker.Whole}.reading(t, one)
	if all, err := r.CompareAtEnd(context.Background(), resourceStub{is: false}); err != nil || len(all) != 1 {
		t.Errorf("a resource that can't be used: got %v %v, want 1", all, err)
	}
}

// Only the records count that were in the state all the time.
func TestCompared(t *testing.T) {
	for state, wanted := range map[platform.State]int{Ready: 1, Gone: 0} {
		t.Run(string(state), func(t *testing.T) {
			r := readyBinding.reading(t, bound)
			if of, instances := r.SteadyKeys(state, true), r.SteadyKeys(state, false); len(of) != wanted || len(instances) != wanted {
				t.Errorf("%s: got %v and %v, want %d of each", state, of, instances, wanted)
			}
		})
	}
	if of := readyBinding.with(func(s *scene) { s.moves = true }).reading(t, bound).SteadyKeys(Ready, true); len(of) != 0 {
		t.Errorf("one that changes: got %v, want none", of)
	}
}

var background = context.Background()

func every(string) bool { return true }

func guid(n int) string { return fmt.Sprintf("00000000-0000-4000-8000-%012d", n) }

func write(t *testing.T, path, text string) {
	t.Helper()
	check(t, os.MkdirAll(filepath.Dir(path), 0o700))
	check(t, os.WriteFile(path, []byte(text), 0o600))
}

// What exists is read from the names of the folders, and so are the credentials of bindings.
func TestFolders(t *testing.T) {
	top := t.TempDir()
	for _, name := range []string{guid(1), partPrefix + guid(2), guid(3), partPrefix + guid(3), "other"} {
		check(t, os.MkdirAll(filepath.Join(top, name), 0o700))
	}
	write(t, filepath.Join(top, bindings, guid(1)+"-"+guid(5)), token)
	write(t, filepath.Join(top, bindings, partPrefix+guid(1)+"-"+guid(6)), "{")
	write(t, filepath.Join(top, bindings, "other"), token)
	whole := Key{Instance: guid(1), Binding: guid(5)}
	wanted := Stock{Of: map[Key]broker.There{
		{Instance: guid(1)}: broker.Whole, {Instance: guid(2)}: broker.Part, {Instance: guid(3)}: broker.Whole, whole: broker.Whole,
		{Instance: guid(1), Binding: guid(6)}: broker.Part,
	}, Credentials: map[Key]json.RawMessage{whole: json.RawMessage(token)}}
	stock := diff.Value(Folders{top}.Look(background, every))(t)
	diff.Check(t, stock, wanted, "what exists")
	stock = diff.Value(Folders{top + "/none"}.Look(background, every))(t)
	diff.Equal(t, len(stock.Of), 0, "what exists without a folder: %v", stock)
}

// Credentials give access if the file of the binding has them, and they are for the folder of its instance.
func TestCredentialsOfFolders(t *testing.T) {
	top := t.TempDir()
	f, file := Folders{top}, filepath.Join(top, bindings, bound.Instance+"-"+bound.Binding)
	given := fmt.Sprintf(`{"folder": %q, "token": "t"}`, filepath.Join(top, one.Instance))
	elsewhere := `{"folder": "/", "token": "t"}`
	for _, test := range []struct {
		written, given string
		works          bool
	}{
		{"", given, false}, {given, given, true}, {given + "\n", given, true}, {given, token, false}, {given, "null", false},
		{token, given, false}, {elsewhere, elsewhere, false},
	} {
		t.Run(fmt.Sprintf("%s in a file with %q", test.given, test.written), func(t *testing.T) {
			if test.written != "" {
				write(t, file, test.written)
			}
			works := diff.Value(f.Works(background, bound, json.RawMessage(test.given)))(t)
			diff.Equal(t, works, test.works, "they give access")
		})
	}
}

// A folder can be used if its label says what was ordered.
func TestLabels(t *testing.T) {
	top := t.TempDir()
	label := func(instance, plan string) string {
		return fmt.Sprintf(`{"instance":%q,"plan":%q,"service":%q}`, instance, plan, service)
	}
	record := Record{Service: service, Plan: plan}
	for text, wanted := range map[string]bool{
		label(one.Instance, plan.String()): true, label(guid(9), plan.String()): false,
		label(one.Instance, otherPlan.String()): false, "{": false,
	} {
		t.Run(text, func(t *testing.T) {
			write(t, filepath.Join(top, one.Instance, "instance.json"), text)
			diff.Equal(t, diff.Value(Folders{top}.IsUsable(background, one, record))(t), wanted, "it can be used")
		})
	}
	is := diff.Value(Folders{top}.IsUsable(background, Key{Instance: guid(9)}, record))(t)
	diff.Equal(t, is, false, "without a folder, it can be used")
	for _, test := range []struct {
		plan   osb.ID
		wanted bool
	}{{plan, true}, {otherPlan, false}} {
		t.Run("an attribute of "+test.plan.String(), func(t *testing.T) {
			text := strings.ReplaceAll(service.String()+" "+test.plan.String(), "-", "")
			if err := syscall.Setxattr(filepath.Join(top, one.Instance), "user.osb", []byte(text), 0); err != nil {
				t.Logf("the file system of the temporary folder has no extended attributes: %v", err)
				return
			}
			diff.Equal(t, diff.Value(Folders{top}.IsUsable(background, one, record))(t), test.wanted, "it can be used")
		})
	}
}

// The rows of a broker are read from its file, which isn't created.
func TestFile(t *testing.T) {
	path := filepath.Join(t.TempDir(), "holdings.sqlite")
	diff.Equal(t, len(diff.Value(File(path).Read(background))(t)), 0, "rows without a file")
	diff.ErrorIs(t, diff.Err(os.Stat(path)), os.ErrNotExist, "the file")
	write(t, path, "")
	diff.Equal(t, len(diff.Value(File(path).Read(background))(t)), 0, "rows without tables")
	store := diff.Value(brokersqlite.Open(background, path, broker.Silent{}))(t)
	defer store.Close()
	wanted := map[Key]Row{
		one: {Holding: row(t, "ready", plan)}, bound: {Holding: row(t, "ready", plan), Object: json.RawMessage(object)},
	}
	for key, row := range wanted {
		numbered := diff.Value(Numbered(key))(t)
		entry := broker.Entry{Holding: row.Holding, Binding: row.Object}
		step := func(broker.Snapshot) (*broker.Entry, error) { return &entry, nil }
		check(t, store.Change(background, numbered, step))
	}
	diff.Check(t, diff.Value(File(path).Read(background))(t), wanted, "the rows")
}

// What exists at a server is read from the names of roles and databases. Credentials give access while the role may log
// in. Nobody knows of a server that is away.
func TestDatabases(t *testing.T) {
	server := pgtest.URL(t)
	db, parsed := pgtest.DB(t, server), diff.Value(url.Parse(server))(t)
	secret := []byte("the key of a test's passwords, long enough for that")
	d := Databases{DB: db, Server: server, Secret: secret}
	instance := diff.Value(Numbered(one))(t)
	binding := diff.Value(Numbered(bound))(t)
	name, role, password := postgres.NameOf(instance), postgres.NameOf(binding), postgres.PasswordOf(secret, instance)
	ours := func(id string) bool { return id == one.Instance }
	look := func() map[Key]broker.There {
		return diff.Value(d.Look(background, ours))(t).Of
	}
	given := func(change func(map[string]any)) json.RawMessage {
		all := map[string]any{
			"host": parsed.Hostname(), "port": port(t, server), "database": name, "username": role, "password": "secret",
		}
		change(all)
		text, _ := json.Marshal(all)
		return text
	}
	works := func(change func(map[string]any)) bool {
		return diff.Value(d.Works(background, bound, given(change)))(t)
	}
	same := func(map[string]any) {}
	t.Cleanup(func() { _ = d.Clear(background, ours) })
	if works(same) || len(look()) > 0 {
		t.Error("before: got something that exists, want nothing")
	}
	pgtest.Exec(t, db, "CREATE ROLE "+name+" LOGIN PASSWORD '"+password+"'")
	diff.Check(t, look(), map[Key]broker.There{one: broker.Part}, "a role alone")
	pgtest.Exec(t, db, "CREATE DATABASE "+name+" OWNER "+name, "CREATE ROLE "+role+" LOGIN PASSWORD 'secret'")
	diff.Check(t, look(), map[Key]broker.There{one: broker.Whole, bound: broker.Whole}, "the instance and the binding")
	stock := diff.Value(d.Look(background, func(string) bool { return false }))(t)
	diff.Equal(t, len(stock.Of), 0, "what exists of nobody's: %v", stock)
	diff.Equal(t, diff.Value(d.IsUsable(background, one, Record{}))(t), true, "it can be used")
	for what, change := range map[string]func(map[string]any){
		"the password": func(all map[string]any) { all["password"] = "other" },
		"the database": func(all map[string]any) { all["database"] = "postgres" },
		"the user":     func(all map[string]any) { all["username"] = "nobody" },
	} {
		t.Run(what, func(t *testing.T) {
			diff.Equal(t, works(change), false, "other credentials for %s give access", what)
		})
	}
	diff.Equal(t, works(same), true, "the credentials give access")
	_, err := d.Works(background, bound, given(func(all map[string]any) { all["port"] = 1 }))
	diff.Error(t, err, "a server that is away")
	pgtest.Exec(t, db, "ALTER ROLE "+role+" NOLOGIN", "ALTER ROLE "+name+" PASSWORD 'other'")
	if is, err := d.IsUsable(background, one, Record{}); works(same) || look()[bound] != broker.Part || is || err != nil {
		t.Errorf("without the right to log in: got %v %v, want a part that can't be used", look(), err)
	}
	check(t, d.Clear(background, ours))
	diff.Equal(t, len(look()), 0, "what exists after Clear: %v", look())
}

// The rows of a broker are read from its tables.
func TestTables(t *testing.T) {
	db := pgtest.DB(t, pgtest.Schema(t, pgtest.URL(t), "osb_stormaudit"))
	diff.Equal(t, len(diff.Value(Tables{db}.Read(background))(t)), 0, "rows without tables")
	ready := row(t, "ready", plan)
	ofBinding := diff.Value(ready.BindingText())(t)
	pgtest.Exec(t, db, "CREATE TABLE osb_holdings (id uuid, holding text)",
		"CREATE TABLE osb_bindings (instance uuid, binding uuid, holding text, object text)",
		fmt.Sprintf("INSERT INTO osb_holdings VALUES ('%s', '%s')", one.Instance, ready),
		fmt.Sprintf("INSERT INTO osb_bindings VALUES ('%s', '%s', '%s', '%s'), ('%s', '%s', '%s', NULL)",
			bound.Instance, bound.Binding, ofBinding, object, bound.Instance, one.Instance, ofBinding))
	wanted := map[Key]Row{
		one: {Holding: ready}, bound: {Holding: ready, Object: json.RawMessage(object)},
		{Instance: one.Instance, Binding: one.Instance}: {Holding: ready},
	}
	diff.Check(t, diff.Value(Tables{db}.Read(background))(t), wanted, "the rows")
}

func port(t *testing.T, address string) int {
	t.Helper()
	_, text, err := pg.HostAndPort(address)
	check(t, err)
	return diff.Value(strconv.Atoi(text))(t)
}

var check = diff.Must
