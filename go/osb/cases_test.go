package osb_test

import (
	"bytes"
	"encoding/hex"
	"fmt"
	"os"
	"regexp"
	"strconv"
	"strings"
	"testing"
)

// A testCase is a call with its arguments and its results, by the names of the columns of api/cases.txt. A cell that is
// missing is nil.
type testCase struct {
	call   string
	given  cells
	status string
	gives  []*string
	wants  cells // gives by the names of the columns
	line   int
}

type cells map[string]*string

var (
	escape      = regexp.MustCompile(`\\(?:x([0-9a-f]{2})|\{(.+?)\*(\d+)\}|(.))`)
	alternative = regexp.MustCompile(`\\\|`)
)

// plain is the text that a cell stands for.
func plain(cell string) string {
	return escape.ReplaceAllStringFunc(cell, func(found string) string {
		parts := escape.FindStringSubmatch(found)
		switch {
		case parts[1] != "":
			one, err := hex.DecodeString(parts[1])
			if err != nil {
				panic(err)
			}
			return string(one)
		case parts[2] != "":
			times, err := strconv.Atoi(parts[3])
			if err != nil {
				panic(err)
			}
			return strings.Repeat(plain(parts[2]), times)
		}
		return strings.NewReplacer("t", "\t", "n", "\n", "r", "\r").Replace(parts[4])
	})
}

// value is a cell's text, or nil if it is missing.
func value(cell string, texts map[string]string) *string {
	text := ""
	switch {
	case cell == "-":
		return nil
	case cell == `""`:
	case strings.HasPrefix(cell, `\[`):
		parts := strings.Split(cell[2:len(cell)-1], "|")
		text = texts[parts[0]]
		for at := 1; at < len(parts); at += 2 {
			if !strings.Contains(text, plain(parts[at])) {
				panic(fmt.Sprintf("the text %s hasn't %s", parts[0], parts[at]))
			}
			text = strings.ReplaceAll(text, plain(parts[at]), plain(parts[at+1]))
		}
	default:
		text = plain(cell)
	}
	return &text
}

// A table of api/cases.txt: the call, the columns before = and behind it, and the cells of its first case.
type table struct {
	call    string
	columns []string
	gives   []string
	first   []string
}

// cases are those of a line: a cell with several texts stands for as many.
func (t *table) cases(row []string, line int, texts map[string]string) []testCase {
	split := len(t.columns)
	if t.first == nil {
		t.first = row[:split]
	}
	found := []testCase{{call: t.call, status: "DONE", line: line}}
	results := row[split+1:]
	if strings.HasPrefix(results[0], "!") {
		found[0].status, results = results[0][1:], nil
	}
	for at, column := range t.columns {
		cell := row[at]
		if cell == "." {
			cell = t.first[at]
		}
		var next []testCase
		for _, one := range alternative.Split(cell, -1) {
			for _, each := range found {
				given := cells{column: value(one, texts)}
				for name, cell := range each.given {
					given[name] = cell
				}
				each.given = given
				next = append(next, each)
			}
		}
		found = next
	}
	for each := range found {
		it := &found[each]
		it.wants = cells{}
		for at, cell := range results {
			wanted := value(cell, texts)
			if cell == "." {
				wanted = it.given[t.gives[at]]
			}
			it.gives = append(it.gives, wanted)
			it.wants[t.gives[at]] = wanted
		}
	}
	return found
}

// readCases reads api/cases.txt, whose head says how it is written.
func readCases(t *testing.T) []testCase {
	t.Helper()
	all := need(os.ReadFile("../../api/cases.txt"))(t)
	var found []testCase
	var of *table
	texts := map[string]string{}
	for at, line := range bytes.Split(all, []byte("\n")) {
		row := strings.Split(string(line), "\t")
		switch {
		case len(line) == 0 || line[0] == '#':
			of = nil
		case strings.HasPrefix(row[0], "text "):
			texts[row[0][len("text "):]] = plain(row[1])
		case of == nil:
			of = &table{call: row[0]}
			for at := 1; row[at] != "="; at++ {
				of.columns = append(of.columns, row[at])
			}
			of.gives = append(row[len(of.columns)+2:], "") // "done" has no column
		default:
			found = append(found, of.cases(row, at+1, texts)...)
		}
	}
	return found
}
