//go:build pages

package main

import "pippinterm/internal/cli/pages"

// With the build tag pages this isn't the program, but what writes its manual pages (release/). SOURCE_DATE_EPOCH is
// their date.
func init() {
	root := rootCommand(&app{})
	for _, command := range root.Commands() {
		if name := command.Flags().Lookup("worker"); name != nil {
			name.DefValue = "the machine's name" // and not that of the machine that writes the page
		}
	}
	pages.AtEpoch(root)
}
