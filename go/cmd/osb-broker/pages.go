//go:build pages

package main

import (
	"pippinterm/internal/cli"
	"pippinterm/internal/cli/pages"
)

// With the build tag pages this isn't the program, but what writes its manual pages (release/). SOURCE_DATE_EPOCH is
// their date.
func init() { pages.AtEpoch(rootCommand(&cli.Verdict{})) }
