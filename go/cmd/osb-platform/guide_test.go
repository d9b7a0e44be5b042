package main

import (
	"go/ast"
	"go/parser"
	gotoken "go/token"
	"io/fs"
	"os"
	"path/filepath"
	"regexp"
	"strconv"
	"strings"
	"testing"

	"pippinterm/internal/diff"
)

// textBetween returns the part of a document behind one text and before another.
func textBetween(t *testing.T, path, from, to string) string {
	t.Helper()
	_, behind, isFound := strings.Cut(string(diff.Value(os.ReadFile("../../../"+path))(t)), from)
	text, _, isEnded := strings.Cut(behind, to)
	if !isFound || !isEnded {
		t.Fatalf("%s: got no %q with %q behind it, want both", path, from, to)
	}
	return text
}

// quoted returns the texts between backticks.
func quoted(text string) map[string]bool {
	found := map[string]bool{}
	for _, match := range regexp.MustCompile("`([^`]+)`").FindAllStringSubmatch(text, -1) {
		found[match[1]] = true
	}
	return found
}

// The table of metrics names each value of the label error, and no other.
func TestErrorsInTheTableOfMetrics(t *testing.T) {
	row := textBetween(t, "docs/operating.md", "\n| `osb_platform_rejections_total", "\n")
	got, want := quoted(strings.Split(row, " | ")[1]), map[string]bool{"error": true, errorLabel(""): true, other: true}
	for code := range knownErrors {
		want[code] = true
	}
	diff.Check(t, got, want, "the values in %s", row)
}

// eventArguments are the functions that get the name of an event, and which of their arguments have one.
var eventArguments = map[string][]int{
	"at": {1}, "fail": {0}, "lose": {1}, "hasFailed": {0}, "OnFailure": {0}, "reloadable": {0, 1},
}

// namedEvents returns the expressions of a node that name an event.
func namedEvents(node ast.Node) (found []ast.Expr) {
	switch node := node.(type) {
	case *ast.CallExpr:
		if function, isSelector := node.Fun.(*ast.SelectorExpr); isSelector {
			for _, at := range eventArguments[function.Sel.Name] {
				if at < len(node.Args) {
					found = append(found, node.Args[at])
				}
			}
		}
	case *ast.KeyValueExpr:
		if key, isName := node.Key.(*ast.Ident); isName && (key.Name == "Event" || key.Name == "done" || key.Name == "failed") {
			found = append(found, node.Value)
		}
	}
	return found
}

// addTexts adds the texts in the sources below a folder, each with whether it names an event where it stands.
func addTexts(t *testing.T, folder string, texts map[string]bool) {
	t.Helper()
	textOf := func(node ast.Node) string {
		if literal, isLiteral := node.(*ast.BasicLit); isLiteral && literal.Kind == gotoken.STRING {
			return diff.Value(strconv.Unquote(literal.Value))(t)
		}
		return ""
	}
	check(t, filepath.WalkDir(folder, func(path string, entry fs.DirEntry, err error) error {
		if err != nil || entry.IsDir() || !strings.HasSuffix(path, ".go") || strings.HasSuffix(path, "_test.go") {
			return err
		}
		file, err := parser.ParseFile(gotoken.NewFileSet(), path, nil, 0)
		ast.Inspect(file, func(node ast.Node) bool {
			if text := textOf(node); text != "" {
				texts[text] = texts[text] || false
				if _, behind, isLine := strings.Cut(text, `"event":"`); isLine { // a whole line of the log
					texts[strings.Split(behind, `"`)[0]] = true
				}
			}
			for _, name := range namedEvents(node) {
				if text := textOf(name); text != "" {
					texts[text] = true
				}
			}
			return true
		})
		return err
	}))
}

// The table of the guide has each event that the program logs, and no other.
func TestEventsInTheGuide(t *testing.T) {
	texts, listed := map[string]bool{}, map[string]bool{}
	for _, folder := range []string{".", "../../platform", "../../internal/httpserver", "../../internal/logs"} {
		addTexts(t, folder, texts)
	}
	table := textBetween(t, "docs/platform-guide.md", "\n### What a worker prints", "\n### ")
	for _, row := range strings.Split(table, "\n| `")[1:] {
		for event := range quoted("`" + strings.Split(row, " |")[0]) {
			listed[event] = true
			if _, isText := texts[event]; !isText {
				t.Errorf("got no event %s in the program, want that of the guide", event)
			}
		}
	}
	for text, isEvent := range texts {
		if isEvent && !listed[text] {
			t.Errorf("got no row of the event %s in the guide, want one", text)
		}
	}
	if len(listed) <= 20 {
		t.Errorf("got %d events in the guide, want more than 20", len(listed))
	}
}
