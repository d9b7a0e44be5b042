package platform

import (
	"encoding/json"
	"fmt"
	"reflect"
	"testing"
	"time"

	jsoniter "github.com/json-iterator/go"

	"pippinterm/internal/diff"
	"pippinterm/osb"
)

// Each member of an entry and of a broker has a column, or is kept in one with others.
func TestColumns(t *testing.T) {
	operation, hold := "task", time.Second
	columns := append(append(Columns[Entry]{}, OrderColumns...), StateColumns...)
	for _, key := range []Key{anInstance, aBinding} {
		entry := rowIn(key, Ready)
		entry.Names = Names{Instance: "i", Binding: "b", Service: "s", Plan: "p"}
		entry.Body, entry.Metadata = json.RawMessage("{}"), json.RawMessage(`{"labels": {}}`)
		entry.Operation = &operation
		entry.Lease, entry.Number = Lease{Worker: "one", Until: at(5)}, id("77")
		entry.Last, entry.Failure = Reason{Kind: "poll"}, Reason{At: at(6), Kind: "bind", Status: 400}
		wantKept(t, columns, entry, Entry{Order: Order{Key: entry.Key, Names: entry.Names, First: entry.First}})
	}
	wantKept(t, BrokerColumns, Broker{
		Settings: Settings{Hold: &hold}, Catalogue: json.RawMessage("{}"), Reason: Reason{Kind: "catalogue"},
	}, Broker{})
	if got, want := StateColumns.Of(false).Names(), StateColumns.Of(true).Names(); len(got) != len(want)-1 {
		t.Errorf("got %d columns of an instance, want all but one", len(got))
	}
}

// wantKept fails if a member isn't the same once it was written and read. Zero members of a type that a column has get a
// value. No two times, durations or bytes are the same.
func wantKept[T any](t *testing.T, columns Columns[T], want, got T) {
	t.Helper()
	for n, of := range reflect.VisibleFields(reflect.TypeOf(want)) {
		switch member := reflect.ValueOf(&want).Elem().FieldByIndex(of.Index); {
		case !member.IsZero() || of.Name == "Unreadable":
		case of.Type.Kind() == reflect.String:
			member.SetString("a text")
		case of.Type.Kind() == reflect.Int:
			member.SetInt(1)
		case of.Type.Kind() == reflect.Bool:
			member.SetBool(true)
		case of.Type == reflect.TypeOf(time.Time{}):
			member.Set(reflect.ValueOf(at(n + 1)))
		case of.Type == reflect.TypeOf(time.Duration(0)):
			member.SetInt(int64(n+1) * int64(time.Second))
		case of.Type == reflect.TypeOf([]byte{}):
			member.SetBytes([]byte(of.Name))
		default:
			t.Errorf("%s: got no value, want one from this test", of.Name)
		}
	}
	for _, column := range columns {
		value := diff.Value(column.Value(&want))(t)
		switch member := column.Member(&got).(type) {
		case *string:
			*member = value.(string)
		case *int:
			*member = value.(int)
		case *bool:
			*member = value.(bool)
		case *time.Time:
			*member = value.(time.Time)
		case *time.Duration:
			*member = value.(time.Duration)
		case *[]byte:
			*member = value.([]byte)
		case Text:
			check(t, member.UnmarshalText([]byte(value.(string))))
		}
		diff.NoError(t, diff.Err(column.Value(new(T))), "a zero %s", column.Name)
	}
	diff.Check(t, got, want, "what is read")
}

// A record that can't be written is an error, and a member of another type is a slip.
func TestValuesThatCannotBeWritten(t *testing.T) {
	entry := Entry{Order: Order{Key: anInstance}, IsSent: true}
	diff.ErrorIs(t, diff.Err((*recordText)(&entry).MarshalText()), osb.ErrBadRecord, "")
	defer func() {
		diff.Equal(t, recover() != nil, true, "a float64 panics")
	}()
	_, _ = Column[Entry]{Member: func(*Entry) any { return new(float64) }}.Value(&entry)
}

// What a Store keeps of the last reason is read again, with since when the row is due. A text of version 0.2 is read,
// too.
func TestLastText(t *testing.T) {
	reason := Reason{
		At: at(1), Kind: "poll", Status: 503, Error: "Error", Description: `"due_since":1`, Lost: "it was \x01 lost",
	}
	for _, want := range []Entry{
		{}, {Last: reason}, {DueSince: at(3)}, {Last: reason, DueSince: at(3)}, {Number: id("77")},
		{Last: reason, DueSince: at(3), Number: id("77")},
	} {
		t.Run(fmt.Sprintf("%d %v %v", want.Last.Status, want.DueSince, want.Number), func(t *testing.T) {
			text := diff.Value((*lastText)(&want).MarshalText())(t)
			var got Entry
			if text != nil {
				check(t, (*lastText)(&got).UnmarshalText(text))
			}
			isNone := want.Last == Reason{} && want.DueSince.IsZero() && want.Number == osb.ID{}
			if (text == nil) != isNone || got.Number != want.Number || got.Last != want.Last ||
				!got.DueSince.Equal(want.DueSince) {
				t.Errorf("%s: got %+v, %v, want what was written", text, got.Last, got.DueSince)
			}
		})
	}
	var got Entry
	text := diff.Value((*lastText)(&Entry{Last: Reason{Description: "a\xffb"}}).MarshalText())(t)
	check(t, (*lastText)(&got).UnmarshalText(text))
	diff.Equal(t, got.Last.Description, "a\uFFFDb", "written, and read")
	check(t, (*lastText)(&got).UnmarshalText([]byte("{\"description\": \"\xff\"}")))
	diff.Equal(t, got.Last.Description, "\uFFFD", "read")
	got = Entry{}
	check(t, (*lastText)(&got).UnmarshalText([]byte(`{"at": "2026-01-02T03:04:05Z", "kind": "poll"}`)))
	if got.Last.Kind != "poll" || !got.DueSince.IsZero() || got.Number != (osb.ID{}) {
		t.Errorf("got %+v, due since %v, number %v, want poll, and neither", got.Last, got.DueSince, got.Number)
	}
	for _, text := range []string{
		`{"due_since": "x"}`, `{"claim": "x"}`, `{"claim": 1}`, `{"at": "x"}`, `{"at": 1}`, `{"status": "x"}`, `{"kind": 1}`,
		`{"kind": "poll"`, "",
	} {
		diff.Error(t, (*lastText)(&got).UnmarshalText([]byte(text)), "%s", text)
	}
}

// What is kept is the text that jsoniter.Marshal writes, whatever stands in it. No year after 9999 can be written.
func TestKeptLast(t *testing.T) {
	kept := keptLast{Reason: Reason{At: at(1), Kind: "poll"}}
	for _, change := range []func(){
		func() {}, func() { kept.Status = 503 }, func() { kept.Error = "a <code> & \"more\"" },
		func() { kept.Description = "\u2028 \u00e9 \U0001f600 \t\r\n\x01\x7f \xff \\" }, func() { kept.Lost = "it was lost" },
		func() { kept.Claim = id("77").String() }, func() { kept.DueSince = -1 }, func() { kept.At = time.Unix(1, 5).UTC() },
	} {
		change()
		got, want := diff.Value(kept.marshal())(t), diff.Value(jsoniter.Marshal(kept))(t)
		diff.Equal(t, string(got), string(want), "%+v", kept)
	}
	kept.At = time.Date(10000, 1, 1, 0, 0, 0, 0, time.UTC)
	diff.Error(t, diff.Err(kept.marshal()), "")
}

// Each column differs between entries that differ in its member, and no other one does, except a text that is always
// written.
func TestDiffers(t *testing.T) {
	operation := "task"
	for name, change := range map[string]func(*Entry){
		"state":        func(e *Entry) { e.State = Gone },
		"since":        func(e *Entry) { e.Since = at(9) },
		"record":       func(e *Entry) { e.IsSent = !e.IsSent },
		"operation":    func(e *Entry) { e.Operation = &operation },
		"sent_until":   func(e *Entry) { e.SentUntil = at(9) },
		"polled_since": func(e *Entry) { e.PolledSince = at(9) },
		"removal":      func(e *Entry) { e.Removal = RemovedWhole },
		"has_last":     func(e *Entry) { e.HasLast = !e.HasLast },
		"due":          func(e *Entry) { e.Due = at(9) },
		"tries":        func(e *Entry) { e.Unchanged = 9 },
		"worker":       func(e *Entry) { e.Lease.Worker = "another" },
		"leased_until": func(e *Entry) { e.Lease.Until = at(9) },
		"last":         func(e *Entry) { e.Last.Kind = "fetch" },
		"failure":      func(e *Entry) { e.Failure.Kind = "fetch" },
		"passing":      func(e *Entry) { e.Passing = !e.Passing },
		"after":        func(e *Entry) { e.After = time.Hour },
		"dashboard":    func(e *Entry) { e.Dashboard = "https://another" },
		"metadata":     func(e *Entry) { e.Metadata = json.RawMessage("{}") },
		"credentials":  func(e *Entry) { e.Credentials = []byte("x") },
		"because":      func(e *Entry) { e.Because = "another" },
	} {
		one := rowIn(aBinding, Ready)
		other := one
		change(&other)
		for _, column := range StateColumns {
			isWritten := column.Name == "last" || column.Name == "credentials"
			if got, want := column.Differs(&one, &other), column.Name == name || isWritten; got != want {
				t.Errorf("%s is changed: got %v of %s, want %v", name, got, column.Name, want)
			}
		}
	}
}
