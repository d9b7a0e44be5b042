package pages

import (
	"os"
	"path/filepath"
	"strings"
	"testing"
	"time"

	"github.com/spf13/cobra"

	"pippinterm/internal/diff"
)

func commands() *cobra.Command {
	root := &cobra.Command{
		Use: "osb-test", Short: "A program", Version: "1.2.3 (libosb 4.5.6)", Long: "A program for tests,\n'alone'.\n\n    osb-test serve\n",
	}
	serve := &cobra.Command{
		Use: "serve", Short: "Serve until SIGTERM", Run: func(*cobra.Command, []string) {},
		Long: "Serve until SIGTERM.\n\nenvironment:\n  OSB_TEST  a variable\n            of two lines\n",
	}
	serve.Flags().String("store", "place", "where it is kept")
	root.AddCommand(serve)
	return root
}

func writePages(t *testing.T, date time.Time) map[string]string {
	t.Helper()
	folder := t.TempDir()
	diff.Must(t, Write(commands(), folder, date))
	files := make(map[string]string)
	for _, name := range []string{"osb-test.1", "osb-test-serve.1", "osb-test.bash", "_osb-test"} {
		text := diff.Value(os.ReadFile(filepath.Join(folder, name)))(t)
		files[name] = string(text)
	}
	return files
}

func TestPages(t *testing.T) {
	files := writePages(t, time.Date(2024, 2, 29, 12, 0, 0, 0, time.UTC))
	for name, parts := range map[string][]string{
		"osb-test.1": {
			`.TH "OSB-TEST" "1" "Feb 2024" "osb-test 1.2.3" "User Commands"`, `osb-test - A program`, `osb-test-serve(1)`,
			"\n    osb-test serve\n", "\nA program for tests, 'alone'.\n",
		},
		"osb-test-serve.1": {`\fB--store\fP="place"`, "\n  OSB_TEST  a variable\n            of two lines\n"},
		"osb-test.bash":    {"complete -o default -F __start_osb-test osb-test"},
		"_osb-test":        {"#compdef osb-test\n"},
	} {
		t.Run(name, func(t *testing.T) {
			for _, part := range parts {
				diff.Contains(t, strings.ReplaceAll(files[name], `\-`, "-"), part, "%s", files[name])
			}
		})
	}
}

func TestNoFolder(t *testing.T) {
	err := Write(commands(), filepath.Join(t.TempDir(), "absent"), time.Now())
	diff.ErrorIs(t, err, os.ErrNotExist, "pages in no folder")
}
