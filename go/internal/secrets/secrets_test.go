package secrets

import (
	"fmt"
	"os"
	"path/filepath"
	"reflect"
	"strings"
	"syscall"
	"testing"

	"pippinterm/internal/diff"
	"pippinterm/internal/waits"
)

const variable = "OSB_TEST_PASSWORD"

// fileWith returns the name of a new file with this text and mode.
func fileWith(t *testing.T, text string, mode os.FileMode) string {
	t.Helper()
	name := filepath.Join(t.TempDir(), "file")
	diff.Must(t, os.WriteFile(name, []byte(text), 0o600))
	diff.Must(t, os.Chmod(name, mode))
	return name
}

func TestPasswordsOfAFile(t *testing.T) {
	for text, want := range map[string][]string{
		"sesame": {"sesame"}, "sesame\n": {"sesame"}, "old\nnew\n": {"old", "new"}, "old\nnew": {"old", "new"},
		" with blanks \n": {" with blanks "}, "with:colon": {"with:colon"}, "größe\n": {"größe"},
		"": nil, "\n": nil, "sesame\n\n": nil, "\nsesame\n": nil, "sesame\n\nother\n": nil, "one\ntwo\nthree\n": nil,
		"sesame\r\n": nil, "ses\x00ame": nil, "ses\tame": nil, "sesame\xff": nil,
		strings.Repeat("s", longest+1): nil,
	} {
		file := fileWith(t, text, 0o600) // whose name doesn't have the text
		t.Run(fmt.Sprintf("%.20q", text), func(t *testing.T) {
			t.Setenv(variable, "of the environment")
			got, warning, err := Passwords(variable, file)
			if !reflect.DeepEqual(got, want) || (err == nil) != (want != nil) || warning != "" {
				t.Errorf("got %.20q, warning %q, error %v, want %q", got, warning, err, want)
			}
			if err != nil && (strings.Contains(err.Error(), "ses") || strings.Contains(err.Error(), "one\n")) {
				t.Errorf("got %v, want no secret in it", err)
			}
		})
	}
}

func TestPasswordsOfTheEnvironment(t *testing.T) {
	for value, want := range map[string][]string{
		"sesame": {"sesame"}, "": nil, "sesame\nother": nil, "sesame\xff": nil,
	} {
		t.Run(fmt.Sprintf("%.20q", value), func(t *testing.T) {
			t.Setenv(variable, value)
			got, warning, err := Passwords(variable, "")
			if !reflect.DeepEqual(got, want) || (err == nil) != (want != nil) || warning != "" {
				t.Errorf("got %q, warning %q, error %v, want %q", got, warning, err, want)
			}
			if err != nil && (strings.Contains(err.Error(), "sesame") || !strings.Contains(err.Error(), variable)) {
				t.Errorf("got %v, want the variable and no secret in it", err)
			}
		})
	}
}

func TestTheEnvironmentKeepsNoPassword(t *testing.T) {
	for _, file := range []string{"", fileWith(t, "of the file\n", 0o600)} {
		t.Setenv(variable, "sesame")
		_, _, err := Passwords(variable, file)
		diff.Must(t, err)
		if _, isSet := os.LookupEnv(variable); isSet {
			t.Errorf("file %q: got the variable still set, want it unset", file)
		}
	}
}

func TestPasswordsOfNoFile(t *testing.T) {
	name := filepath.Join(t.TempDir(), "none")
	if _, _, err := Passwords(variable, name); !os.IsNotExist(err) || !strings.Contains(err.Error(), name) {
		t.Errorf("got %v, want an error that names the file", err)
	}
	_, _, err := Passwords(variable, t.TempDir())
	diff.Error(t, err, "a folder")
}

func TestSecretIsOneLine(t *testing.T) {
	if got, _, err := Secret(variable, fileWith(t, "a key\n", 0o600)); got != "a key" || err != nil {
		t.Errorf("got %q and the error %v, want a key", got, err)
	}
	got, _, err := Secret(variable, fileWith(t, "a key\nanother\n", 0o600))
	diff.Error(t, err, "two lines, %q", got)
}

func TestWarningOfTheMode(t *testing.T) {
	for mode, isWarned := range map[os.FileMode]bool{
		0o600: false, 0o400: false, 0o640: true, 0o604: true, 0o660: true, 0o700: true, 0o666: true,
	} {
		t.Run(fmt.Sprintf("%o", mode), func(t *testing.T) {
			name := fileWith(t, "user:sesame\n", mode)
			_, first, err := Passwords(variable, name)
			diff.Must(t, err)
			_, second, err := Users(name)
			diff.Must(t, err)
			for _, warning := range []string{first, second} {
				if (warning != "") != isWarned || isWarned && !strings.Contains(warning, name) {
					t.Errorf("mode %o: got the warning %q, want one %v", mode, warning, isWarned)
				}
				diff.Lacks(t, warning, "sesame", "mode %o", mode)
			}
		})
	}
}

func TestUsers(t *testing.T) {
	for text, want := range map[string]map[string][]string{
		"cf:sesame":                          {"cf": {"sesame"}},
		"cf:sesame\nk8s:other\n":             {"cf": {"sesame"}, "k8s": {"other"}},
		"cf:sesame\nk8s:other\ncf:sesame2\n": {"cf": {"sesame", "sesame2"}, "k8s": {"other"}},
		"cf:a:b\n":                           {"cf": {"a:b"}},
		"":                                   nil,
		"\n":                                 nil,
		"cf\n":                               nil,
		"cf:\n":                              nil,
		":sesame\n":                          nil,
		"cf:sesame\n\n":                      nil,
		"cf:sesame\ncf:sesame\n":             nil,
		"cf:sesame\ncf:b\ncf:c\n":            nil,
		"cf:ses\x01ame\n":                    nil,
		"cf:sesame\r\n":                      nil,
	} {
		file := fileWith(t, text, 0o600) // whose name doesn't have the text
		t.Run(fmt.Sprintf("%.20q", text), func(t *testing.T) {
			got, _, err := Users(file)
			diff.Check(t, got, want, "")
			diff.Equal(t, err == nil, want != nil, "%v", err)
			if err != nil && strings.Contains(err.Error(), "ses") {
				t.Errorf("got %v, want no secret in it", err)
			}
		})
	}
}

func TestShort(t *testing.T) {
	got := Short(map[string][]string{
		"long": {"0123456789abcdef"}, "one": {"0123456789abcde"}, "both": {"a", "b"}, "an old one": {"0123456789abcdef", "c"},
	})
	diff.Check(t, got, []string{"an old one", "both", "one"}, "")
}

// What isn't a regular file is rejected at once, also a pipe that nobody writes to.
func TestFilesThatAreNotRegular(t *testing.T) {
	folder := t.TempDir()
	pipe := filepath.Join(folder, "pipe")
	diff.Must(t, syscall.Mkfifo(pipe, 0o600))
	link := filepath.Join(folder, "link")
	diff.Must(t, os.Symlink(pipe, link))
	for _, name := range []string{pipe, link, folder, os.DevNull} {
		name := name
		done := waits.Begin(func() error {
			_, _, err := Passwords(variable, name)
			return err
		})
		err := waits.For(t, done, "reading "+name)
		if err == nil || !strings.HasSuffix(err.Error(), name+" isn't a regular file") {
			t.Errorf("%s: got the error %v, want one that says that it isn't a regular file", name, err)
		}
	}
}
