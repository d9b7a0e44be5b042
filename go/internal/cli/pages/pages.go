// Package pages writes the manual pages of a program, and what completes its command line in bash and zsh. The
// release calls it (release/); no program that is shipped is linked with it.
package pages

import (
	"fmt"
	"os"
	"path/filepath"
	"strconv"
	"strings"
	"time"

	"github.com/spf13/cobra"
	"github.com/spf13/cobra/doc"
)

// Variable is the environment variable that names the folder for Main.
const Variable = "OSB_PAGES"

// Main writes the pages of a program into the folder that the environment variable OSB_PAGES names, and ends the
// process: with status 0, or with status 1 and an error on standard error. It is for the file pages.go of a program,
// which is compiled with the build tag pages alone.
func Main(root *cobra.Command, date time.Time) {
	if err := Write(root, os.Getenv(Variable), date); err != nil {
		fmt.Fprintf(os.Stderr, "%s: the pages can't be written: %v\n", root.Name(), err)
		os.Exit(1)
	}
	os.Exit(0)
}

// AtEpoch is Main with the date of the environment variable SOURCE_DATE_EPOCH, in seconds since 1970. It panics if the
// variable is no number.
func AtEpoch(root *cobra.Command) {
	seconds, err := strconv.ParseInt(os.Getenv("SOURCE_DATE_EPOCH"), 10, 64)
	if err != nil {
		panic(err)
	}
	Main(root, time.Unix(seconds, 0).UTC())
}

// Write writes these files into an existing folder. ROOT is the name of the root command:
//
//	ROOT.1, ROOT-COMMAND.1 ..  a manual page for each command
//	ROOT.bash, _ROOT           what completes the command line in bash and in zsh
//
// The pages have this date. The same commands and the same date give the same bytes. Write changes root and its
// subcommands, so don't run them afterwards.
//
// Errors: a file can't be written.
func Write(root *cobra.Command, folder string, date time.Time) error {
	prepare(root)
	version, _, _ := strings.Cut(root.Version, " ")
	header := &doc.GenManHeader{Section: "1", Date: &date, Source: root.Name() + " " + version, Manual: "User Commands"}
	if err := doc.GenManTree(root, header, folder); err != nil {
		return err
	}
	if err := root.GenBashCompletionFileV2(filepath.Join(folder, root.Name()+".bash"), true); err != nil {
		return err
	}
	return root.GenZshCompletionFile(filepath.Join(folder, "_"+root.Name()))
}

// prepare makes the texts of a command and its subcommands fit for a page.
func prepare(command *cobra.Command) {
	command.DisableAutoGenTag = true
	command.Long = markdown(command.Long)
	for _, child := range command.Commands() {
		prepare(child)
	}
}

// markdown returns a help text as Markdown. A paragraph with an indented line is a table or a command, whose lines stay
// as they are. Any other paragraph becomes one line: troff takes a line that begins with an apostrophe for a request.
func markdown(text string) string {
	paragraphs := strings.Split(text, "\n\n")
	for at, paragraph := range paragraphs {
		if strings.HasPrefix(paragraph, "  ") || strings.Contains(paragraph, "\n  ") {
			paragraphs[at] = "```\n" + strings.Trim(paragraph, "\n") + "\n```"
		} else {
			paragraphs[at] = strings.ReplaceAll(paragraph, "\n", " ")
		}
	}
	return strings.Join(paragraphs, "\n\n")
}
