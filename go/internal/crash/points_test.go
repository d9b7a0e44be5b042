package crash

import (
	"go/ast"
	"go/parser"
	"go/token"
	"io/fs"
	"path/filepath"
	"sort"
	"strconv"
	"strings"
	"testing"

	"pippinterm/internal/diff"
)

// textOf returns the text of a literal, and whether the expression is one.
func textOf(expression ast.Expr) (string, bool) {
	literal, isLiteral := expression.(*ast.BasicLit)
	if !isLiteral || literal.Kind != token.STRING {
		return "", false
	}
	text, err := strconv.Unquote(literal.Value)
	return text, err == nil
}

// texts returns the texts that a file assigns to a variable, without empty ones.
func texts(file *ast.File, name string) (found []string) {
	ast.Inspect(file, func(node ast.Node) bool {
		assignment, isAssignment := node.(*ast.AssignStmt)
		if !isAssignment || len(assignment.Lhs) != 1 {
			return true
		}
		variable, isVariable := assignment.Lhs[0].(*ast.Ident)
		if text, isText := textOf(assignment.Rhs[0]); isVariable && variable.Name == name && isText && text != "" {
			found = append(found, text)
		}
		return true
	})
	return found
}

// pointsOf returns the points that an argument of At or Soon names: a text, or a variable and the end of a text.
func pointsOf(file *ast.File, argument ast.Expr) (found []string) {
	if text, isText := textOf(argument); isText {
		return []string{text}
	}
	sum, isSum := argument.(*ast.BinaryExpr)
	if !isSum {
		return nil
	}
	variable, isVariable := sum.X.(*ast.Ident)
	end, isText := textOf(sum.Y)
	if !isVariable || !isText {
		return nil
	}
	for _, text := range texts(file, variable.Name) {
		found = append(found, text+end)
	}
	return found
}

// isCall reports whether a call is one of At or Soon.
func isCall(call *ast.CallExpr) bool {
	function, isSelector := call.Fun.(*ast.SelectorExpr)
	if !isSelector || function.Sel.Name != "At" && function.Sel.Name != "Soon" {
		return false
	}
	from, isName := function.X.(*ast.Ident)
	return isName && from.Name == "crash"
}

// pointsIn returns the points that a file calls, and the calls whose point isn't known. CrashAt is what programs of
// others call: their points aren't in the list.
func pointsIn(file *ast.File) (found []string, unknown []token.Pos) {
	ast.Inspect(file, func(node ast.Node) bool {
		if function, isFunction := node.(*ast.FuncDecl); isFunction && function.Name.Name == "CrashAt" {
			return false
		}
		call, isCallOfAny := node.(*ast.CallExpr)
		if !isCallOfAny || !isCall(call) {
			return true
		}
		points := pointsOf(file, call.Args[0])
		if len(points) == 0 {
			unknown = append(unknown, call.Pos())
		}
		found = append(found, points...)
		return true
	})
	return found, unknown
}

// listOf returns the texts of the lists that files declare under a name.
func listOf(files []*ast.File, name string) (found []string) {
	for _, file := range files {
		ast.Inspect(file, func(node ast.Node) bool {
			variable, isVariable := node.(*ast.ValueSpec)
			if !isVariable || variable.Names[0].Name != name || len(variable.Values) != 1 {
				return true
			}
			list, isList := variable.Values[0].(*ast.CompositeLit)
			if !isList {
				return true
			}
			for _, element := range list.Elts {
				if text, isText := textOf(element); isText {
					found = append(found, text)
				}
			}
			return false
		})
	}
	return found
}

const everything, platform = "../..", "../../platform"

// sources are the files of a folder and of the folders below it, except those of tests and one of these folders.
func sources(t *testing.T, set *token.FileSet, folder, except string) (files []*ast.File) {
	err := filepath.WalkDir(folder, func(path string, entry fs.DirEntry, err error) error {
		if path == except {
			return filepath.SkipDir
		}
		if err != nil || entry.IsDir() || !strings.HasSuffix(path, ".go") || strings.HasSuffix(path, "_test.go") {
			return err
		}
		file, err := parser.ParseFile(set, path, nil, 0)
		files = append(files, file)
		return err
	})
	diff.Must(t, err)
	return files
}

// checkCalls checks that files call each point of a list, and no other.
func checkCalls(t *testing.T, set *token.FileSet, files []*ast.File, listed []string) {
	isCalled := map[string]bool{}
	for _, file := range files {
		found, unknown := pointsIn(file)
		for _, at := range unknown {
			t.Errorf("%v: got a call whose point isn't known, want a text", set.Position(at))
		}
		for _, point := range found {
			isCalled[point] = true
		}
	}
	var got []string
	for point := range isCalled {
		got = append(got, point)
	}
	sort.Strings(got)
	want := append([]string(nil), listed...)
	sort.Strings(want)
	diff.Equal(t, strings.Join(got, " "), strings.Join(want, " "), "the sources")
}

// The list has each point that the programs reach, and no other. Those of the platform are in a list of their own.
func TestPoints(t *testing.T) {
	set := token.NewFileSet()
	checkCalls(t, set, sources(t, set, everything, platform), points)
}

// The package platform calls each point of platform.Points. Neither this package nor those below it call another point.
// The test reads the list from the sources, because internal/ may not import platform.
func TestPlatformPoints(t *testing.T) {
	set := token.NewFileSet()
	files := sources(t, set, platform, "")
	var own []*ast.File
	for _, file := range files {
		if file.Name.Name == "platform" {
			own = append(own, file)
		}
	}
	listed := listOf(own, "Points")
	if len(listed) == 0 {
		t.Fatal("got no list platform.Points, want one")
	}
	checkCalls(t, set, own, listed)
	checkCalls(t, set, files, listed)
}
