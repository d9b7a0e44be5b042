// Package diff compares values in tests, and prints only what differs.
package diff

import (
	"errors"
	"fmt"
	"reflect"
	"strings"
	"testing"

	"github.com/google/go-cmp/cmp"
)

// options have cmp look at all fields, and print a value that has a text, such as an id or a time, as its text.
var options = cmp.Options{
	cmp.Exporter(func(reflect.Type) bool { return true }),
	cmp.Comparer(func(one, other fmt.Stringer) bool { return reflect.DeepEqual(one, other) }),
}

// Check fails the test unless got is deeply equal to want (reflect.DeepEqual). The format and its arguments say what
// was compared.
func Check(t testing.TB, got, want any, format string, arguments ...any) {
	t.Helper()
	if !reflect.DeepEqual(got, want) {
		t.Errorf("%s: %s", fmt.Sprintf(format, arguments...), Of(got, want))
	}
}

// Equal fails the test unless got is want. The format and its arguments say what was compared. They may be empty.
func Equal[T comparable](t testing.TB, got, want T, format string, arguments ...any) {
	t.Helper()
	if got != want {
		t.Errorf("%s%s", prefix(format, arguments), difference(got, want))
	}
}

// ErrorIs fails the test unless an error is another one (errors.Is), and says what was compared as Equal does.
func ErrorIs(t testing.TB, err, want error, format string, arguments ...any) {
	t.Helper()
	if !errors.Is(err, want) {
		t.Errorf("%sgot the error %v, want %v", prefix(format, arguments), err, want)
	}
}

// prefix says what was compared, before a message.
func prefix(format string, arguments []any) string {
	if format == "" {
		return ""
	}
	return fmt.Sprintf(format, arguments...) + ": "
}

// difference has two values. Of texts with several lines it has those that differ.
func difference(got, want any) string {
	text := fmt.Sprint(got, want)
	switch isText := reflect.TypeOf(got).Kind() == reflect.String; {
	case isText && strings.Contains(text, "\n"):
		return Of(got, want)
	case isText:
		return fmt.Sprintf("got %q, want %q", got, want)
	}
	return fmt.Sprintf("got %+v, want %+v", got, want)
}

// NoError fails the test at an error, and says what was called as Equal does. The test goes on.
func NoError(t testing.TB, err error, format string, arguments ...any) {
	t.Helper()
	if err != nil {
		t.Errorf("%sgot the error %v, want none", prefix(format, arguments), err)
	}
}

// Error fails the test unless there is an error, and says what was called as Equal does.
func Error(t testing.TB, err error, format string, arguments ...any) {
	t.Helper()
	if err == nil {
		t.Errorf("%sgot no error, want one", prefix(format, arguments))
	}
}

// ErrorContains fails the test unless there is an error whose text has a part, and says what was called as Equal does.
func ErrorContains(t testing.TB, err error, part, format string, arguments ...any) {
	t.Helper()
	if err == nil || !strings.Contains(err.Error(), part) {
		t.Errorf("%sgot the error %v, want one with %q", prefix(format, arguments), err, part)
	}
}

// Contains fails the test unless a text has a part, and says what was searched as Equal does.
func Contains(t testing.TB, text, part, format string, arguments ...any) {
	t.Helper()
	if !strings.Contains(text, part) {
		t.Errorf("%sgot %q, want %q in it", prefix(format, arguments), text, part)
	}
}

// Lacks fails the test if a text has a part, and says what was searched as Equal does.
func Lacks(t testing.TB, text, part, format string, arguments ...any) {
	t.Helper()
	if strings.Contains(text, part) {
		t.Errorf("%sgot %q, want no %q in it", prefix(format, arguments), text, part)
	}
}

// HasPrefix fails the test unless a text begins with a part, and says what was searched as Equal does.
func HasPrefix(t testing.TB, text, part, format string, arguments ...any) {
	t.Helper()
	if !strings.HasPrefix(text, part) {
		t.Errorf("%sgot %q, want %q first", prefix(format, arguments), text, part)
	}
}

// HasSuffix fails the test unless a text ends with a part, and says what was searched as Equal does.
func HasSuffix(t testing.TB, text, part, format string, arguments ...any) {
	t.Helper()
	if !strings.HasSuffix(text, part) {
		t.Errorf("%sgot %q, want %q last", prefix(format, arguments), text, part)
	}
}

// Empty fails the test unless a list or a map has no element, and says what was counted as Equal does.
func Empty(t testing.TB, got any, format string, arguments ...any) {
	t.Helper()
	if reflect.ValueOf(got).Len() > 0 {
		t.Errorf("%sgot %+v, want none", prefix(format, arguments), got)
	}
}

// Len ends the test unless a list has so many elements, and says what was counted as Equal does.
func Len[T any](t testing.TB, list []T, want int, format string, arguments ...any) {
	t.Helper()
	if len(list) != want {
		t.Fatalf("%sgot %+v, want %d", prefix(format, arguments), list, want)
	}
}

type measure interface {
	~int | ~int32 | ~int64 | ~float64
}

// AtMost fails the test if a number is above a bound, and says what was measured as Equal does.
func AtMost[T measure](t testing.TB, got, bound T, format string, arguments ...any) {
	t.Helper()
	if got > bound {
		t.Errorf("%sgot %v, want at most %v", prefix(format, arguments), got, bound)
	}
}

// AtLeast fails the test if a number is below a bound, and says what was measured as Equal does.
func AtLeast[T measure](t testing.TB, got, bound T, format string, arguments ...any) {
	t.Helper()
	if got < bound {
		t.Errorf("%sgot %v, want at least %v", prefix(format, arguments), got, bound)
	}
}

// Must ends the test at an error.
func Must(t testing.TB, err error) {
	t.Helper()
	if err != nil {
		t.Fatalf("got the error %v, want none", err)
	}
}

// Value returns what a call has returned, and ends the test at its error: text := diff.Value(os.ReadFile(name))(t).
func Value[T any](value T, err error) func(testing.TB) T {
	return func(t testing.TB) T {
		t.Helper()
		Must(t, err)
		return value
	}
}

// Err returns the error of a call that also returns a value: diff.Error(t, diff.Err(os.ReadFile(name)), "").
func Err[T any](_ T, err error) error { return err }

// Of says how got differs from want: the lines with + are what was got, and those with - what is wanted. If cmp sees no
// difference, both are printed as a whole.
func Of(got, want any) string {
	if found := cmp.Diff(want, got, options); found != "" {
		return "got +, want -\n" + found
	}
	return fmt.Sprintf("got %+v, want %+v", got, want)
}
