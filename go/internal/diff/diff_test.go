package diff

import (
	"errors"
	"fmt"
	"regexp"
	"strings"
	"testing"
	"time"
)

// A number is printed by its text.
type number [2]byte

func (n number) String() string { return fmt.Sprintf("number-%d-%d", n[0], n[1]) }

// A loose value equals every other one, by its method.
type loose struct{ N int }

func (loose) Equal(loose) bool { return true }

type row struct {
	Number   number
	Name     string
	At       time.Time
	lines    []string
	Settings map[string]any
	Other    [40]string
}

func some() row {
	return row{
		Number: number{1, 2}, Name: "one", At: time.Unix(1, 0).UTC(), lines: []string{"a", "b"},
		Settings: map[string]any{"size": 3.0, "name": "x"}, Other: [40]string{39: "last"},
	}
}

// A fake keeps what a test reports.
type fake struct {
	testing.TB
	failed string
}

func (f *fake) Helper() {}

func (f *fake) Fatalf(format string, arguments ...any) {
	f.failed += "ended: " + fmt.Sprintf(format, arguments...)
}

func (f *fake) Errorf(format string, arguments ...any) { f.failed += fmt.Sprintf(format, arguments...) }

// What is equal reports nothing. Otherwise the report has what was got and what is wanted of each difference, also of a
// field that isn't exported, and leaves out the other fields.
func TestCheck(t *testing.T) {
	for name, test := range map[string]struct {
		change    func(*row)
		want, got string // regular expressions of a line
	}{
		"an id":          {func(r *row) { r.Number[1] = 7 }, `Number: +s"number-1-2"`, `Number: +s"number-1-7"`},
		"a text":         {func(r *row) { r.Name = "two" }, `Name: +"one"`, `Name: +"two"`},
		"a time":         {func(r *row) { r.At = r.At.Add(1) }, `At: +s".*:01 \+0000 UTC"`, `At: +s".*:01.000000001 `},
		"a zone":         {func(r *row) { r.At = r.At.In(time.FixedZone("x", 60)) }, `At: +s".* UTC"`, `At: +s".* x"`},
		"a hidden field": {func(r *row) { r.lines = []string{"a", "c"} }, `"b"`, `"c"`},
		"nil":            {func(r *row) { r.Settings = nil }, `Settings: +map`, `Settings: +nil`},
		"a member":       {func(r *row) { r.Settings["size"] = 4.0 }, `"size": +float64\(3\)`, `"size": +float64\(4\)`},
	} {
		t.Run(name, func(t *testing.T) {
			f, got := &fake{TB: t}, some()
			test.change(&got)
			Check(f, got, some(), "row %d", 5)
			text := strings.ReplaceAll(f.failed, "\u00a0", " ") // cmp has either blank, so that nobody compares its texts
			wanted := `(?s)^row 5: got \+, want -\n.*\n-\s+` + test.want + `.*\n\+\s+` + test.got
			if !regexp.MustCompile(wanted).MatchString(text) || strings.Contains(text, "last") {
				t.Errorf("got %q, want %s", text, wanted)
			}
		})
	}
	f := &fake{TB: t}
	if Check(f, some(), some(), "row"); f.failed != "" {
		t.Errorf("got %q of equal values, want nothing", f.failed)
	}
	if Check(f, loose{1}, loose{2}, "row %d", 6); f.failed != "row 6: got {N:1}, want {N:2}" {
		t.Errorf("got %q, want both values", f.failed)
	}
}

// What is compared is before what was got and what is wanted, and of texts with several lines there is what differs.
func TestValuesAndErrors(t *testing.T) {
	wrong := errors.New("wrong")
	for want, call := range map[string]func(testing.TB){
		"":                                           func(t testing.TB) { Equal(t, 1, 1, "%d", 2); Equal(t, "a", "a", "") },
		"a count of 2: got 1, want 3":                func(t testing.TB) { Equal(t, 1, 3, "a count of %d", 2) },
		`got "a", want ""`:                           func(t testing.TB) { Equal(t, "a", "", "") },
		"got +, want -\n":                            func(t testing.TB) { Equal(t, "a\nb\n", "a\nc\n", "") },
		"of 1: got the error no, want wrong":         func(t testing.TB) { ErrorIs(t, errors.New("no"), wrong, "of %d", 1) },
		"got the error <nil>, want wrong":            func(t testing.TB) { ErrorIs(t, nil, wrong, "") },
		"Read: got the error wrong, want none":       func(t testing.TB) { NoError(t, wrong, "Read") },
		"ended: got the error wrong, want none":      func(t testing.TB) { Must(t, wrong) },
		"ended: got the error no, want none":         func(t testing.TB) { Value(1, errors.New("no"))(t) },
		"Read 2: got no error, want one":             func(t testing.TB) { Error(t, nil, "Read %d", 2) },
		`a log: got "a", want "b" in it`:             func(t testing.TB) { Contains(t, "a", "b", "a log") },
		`got "abc", want no "b" in it`:               func(t testing.TB) { Lacks(t, "abc", "b", "") },
		`a log: got "abc", want "b" first`:           func(t testing.TB) { HasPrefix(t, "abc", "b", "a log") },
		`got "abc", want "b" last`:                   func(t testing.TB) { HasSuffix(t, "abc", "b", "") },
		`got the error wrong, want one with "no"`:    func(t testing.TB) { ErrorContains(t, wrong, "no", "") },
		`a: got the error <nil>, want one with "no"`: func(t testing.TB) { ErrorContains(t, nil, "no", "a") },
		"row 1: got [2], want none":                  func(t testing.TB) { Empty(t, []int{2}, "row %d", 1) },
		"ended: row 1: got [2], want 2":              func(t testing.TB) { Len(t, []int{2}, 2, "row %d", 1) },
		"got 2s, want at most 1s":                    func(t testing.TB) { AtMost(t, 2*time.Second, time.Second, "") },
		"calls: got 1, want at least 2":              func(t testing.TB) { AtLeast(t, 1, 2, "calls") },
	} {
		t.Run(want, func(t *testing.T) {
			f := &fake{TB: t}
			call(f)
			if f.failed != want && (!strings.HasSuffix(want, "\n") || !strings.HasPrefix(f.failed, want)) {
				t.Errorf("got %q, want %q", f.failed, want)
			}
		})
	}
	f := &fake{TB: t}
	Must(f, nil)
	NoError(f, nil, "x")
	Equal(t, Value(5, nil)(f), 5, "the value")
	Error(f, wrong, "x")
	ErrorContains(f, wrong, "ron", "x")
	Contains(f, "abc", "bc", "x")
	Lacks(f, "abc", "ac", "x")
	HasPrefix(f, "abc", "ab", "x")
	HasSuffix(f, "abc", "bc", "x")
	Empty(f, map[string]int{}, "x")
	Len(f, []int{1, 2}, 2, "x")
	AtMost(f, 2, 2, "x")
	AtLeast(f, 2, 2, "x")
	ErrorIs(f, Err(5, wrong), wrong, "x")
	if ErrorIs(f, fmt.Errorf("of x: %w", wrong), wrong, "x"); f.failed != "" {
		t.Errorf("got %q, want nothing", f.failed)
	}
}
