package postgres

import (
	"encoding/json"
	"testing"
	"time"

	jsoniter "github.com/json-iterator/go"

	"pippinterm/internal/diff"
	"pippinterm/platform"
)

// A value is written as package encoding/json reads it, and read as it was written.
func TestScalars(t *testing.T) {
	for name, test := range map[string]struct {
		value any
		want  string
	}{
		"nothing":   {nil, "null"},
		"a text":    {"plain", `"plain"`},
		"an escape": {"a \"quote\", \\ and\n\x01", `"a \"quote\", \\ and\u000a\u0001"`},
		"umlauts":   {"für ☃", `"für ☃"`},
		"no UTF-8":  {"a\xffb\x00c", `"a\uFFFDb\uFFFDc"`},
		"an int":    {-12, "-12"},
		"a bool":    {true, "true"},
		"a time":    {time.UnixMicro(1700000000123456), "1700000000.123456"},
		"a span":    {1500 * time.Millisecond, "1.5"},
		"bytes":     {[]byte{0, 255, 7}, `"\\x00ff07"`},
		"no bytes":  {[]byte{}, `"\\x"`},
	} {
		t.Run(name, func(t *testing.T) {
			text := written(test.value)
			var got, want any
			diff.Must(t, json.Unmarshal(text, &got))
			diff.Must(t, json.Unmarshal([]byte(test.want), &want))
			diff.Check(t, got, want, "%s", text)
		})
	}
}

func written(value any) []byte {
	stream := jsoniter.NewStream(jsoniter.ConfigDefault, nil, 0)
	writeValue(stream, value)
	return stream.Buffer()
}

// A member is read as json_build_array writes it, and NULL leaves it as it is.
func TestReadInto(t *testing.T) {
	text, number, is, span, bytes := "x", 1, true, time.Second, []byte("x")
	for _, test := range []struct {
		written      string
		member, want any
	}{
		{"null", &text, "x"}, {`"a\u003cb"`, &text, "a<b"}, {"\"\xff\"", &text, "\uFFFD"}, {`""`, &text, ""},
		{"null", &number, 1}, {"-7", &number, -7},
		{"null", &is, true}, {"false", &is, false},
		{"null", &span, time.Second}, {"0.0000015", &span, 2 * time.Microsecond},
		{"null", &bytes, []byte("x")}, {`"\\x00ff07"`, &bytes, []byte{0, 255, 7}}, {`"\\x"`, &bytes, []byte{}},
	} {
		t.Run(test.written, func(t *testing.T) {
			diff.Must(t, diff.Err(readInto(test.member, valuesOf([]byte(test.written)))))
			switch member := test.member.(type) {
			case *string:
				diff.Check(t, *member, test.want.(string), "")
			case *int:
				diff.Check(t, *member, test.want.(int), "")
			case *bool:
				diff.Check(t, *member, test.want.(bool), "")
			case *time.Duration:
				diff.Check(t, *member, test.want.(time.Duration), "")
			case *[]byte:
				diff.Check(t, string(*member), string(test.want.([]byte)), "")
			}
		})
	}
	for written, member := range map[string]any{
		`"x"`: new(int), "7": new(string), "2": new(bool), "x": new(time.Time), `"1"`: new(time.Duration),
		`"\\xzz"`: new([]byte), `"\u00"`: new(string), "1.5": new(int), "0": new(int64),
		"25000000000000000000": new(int), "nul": new(int), "\"\n\"": new(string),
	} {
		t.Run("not "+written, func(t *testing.T) {
			diff.Error(t, diff.Err(readInto(member, valuesOf([]byte(written)))), "read into %T", member)
		})
	}
}

// A row whose columns can't be read has no entry. It is a whole array, with an element for each column.
func TestALineThatCannotBeRead(t *testing.T) {
	worker := entryColumns{{Name: "worker", Member: func(e *platform.Entry) any { return &e.Lease.Worker }}}
	var entry platform.Entry
	diff.Must(t, diff.Err(readLine([]byte(` [ "a" ] `), worker, &entry)))
	diff.Equal(t, entry.Lease.Worker, "a", "the column")
	for _, line := range []string{
		"", "null", "[", "[]", `["a`, `["a"`, `["a"}`, `["a",`, `["a",]`, `["a", "b"]`, `["a"null`, `["a"[]`, `["a"]]`, `["a"]x`,
		`["a"]1`, `,"a"]`, `["a]`, `[["a"]]`, `[{}]`, `{"a"}`, `"a"`,
	} {
		t.Run(line, func(t *testing.T) {
			diff.Error(t, diff.Err(readLine([]byte(line), worker, &entry)), "")
		})
	}
	for _, line := range []string{"[]", `["a", 1]`, `[null, null, 7]`} {
		t.Run(line, func(t *testing.T) {
			_, err := readLine([]byte(line), rowColumns, &platform.Entry{})
			diff.Error(t, err, "")
		})
	}
}

// Names are read as they were written, also those that a statement has written.
func TestNamesText(t *testing.T) {
	want := platform.Names{Instance: "an \"instance\"", Binding: "b", Service: "s", Plan: "p"}
	var got platform.Names
	diff.Must(t, namesText{&got}.UnmarshalText(diff.Value(namesText{&want}.MarshalText())(t)))
	diff.Equal(t, got, want, "")
	got = platform.Names{}
	diff.Must(t, namesText{&got}.UnmarshalText([]byte(`{"instance" : "i", "service" : "s", "plan" : "p", "other" : 1}`)))
	diff.Equal(t, got, platform.Names{Instance: "i", Service: "s", Plan: "p"}, "")
	diff.Error(t, namesText{&got}.UnmarshalText([]byte(`{"instance": 1}`)), "a number")
}
