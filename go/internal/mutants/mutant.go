package main

import (
	"bytes"
	"context"
	"errors"
	"fmt"
	"go/ast"
	goconstant "go/constant"
	"go/token"
	"go/types"
	"io"
	"math/rand"
	"os"
	"path/filepath"
	"strconv"
	"strings"
	"time"
)

// A mutant is a change of a function's body: the bytes of a file from Start to End become New.
type mutant struct {
	ID         int    // not 0, and of no other mutant of the run
	Kind       string // what was done, for example "condition negated"; of a committed one, its name
	Package    string // the import path
	File       string // the path
	Function   string // for example Gate.Enter
	Line       int
	Start, End int
	New        string
}

// String returns where the mutant is, and its kind.
func (m mutant) String() string {
	of := strings.TrimPrefix(m.Package, "pippinterm") // scripts/go has the folder go/ under this name
	return fmt.Sprintf("go%s/%s:%d: %s: %s", of, filepath.Base(m.File), m.Line, m.Function, m.Kind)
}

// diff returns the lines that the change touches, as they were and as they are with it.
func (m mutant) diff(text []byte) string {
	first := bytes.LastIndexByte(text[:m.Start], '\n') + 1
	last := len(text)
	if next := bytes.IndexByte(text[m.End:], '\n'); next >= 0 {
		last = m.End + next
	}
	before := string(text[first:last])
	after := string(text[first:m.Start]) + m.New + string(text[m.End:last])
	return mark("-", before) + mark("+", after)
}

// mark returns each line of a text that isn't blank behind a mark.
func mark(mark, text string) string {
	var found strings.Builder
	for _, line := range strings.Split(text, "\n") {
		if strings.TrimSpace(line) != "" {
			fmt.Fprintf(&found, "    %s %s\n", mark, line)
		}
	}
	return found.String()
}

// functions calls with each function of the file that has a body that can be changed, and its name: Name or Type.Name.
// A function that recovers from a panic by itself can't: only what is deferred itself may call recover.
func functions(file *source, call func(name string, f *ast.FuncDecl)) {
	for _, decl := range file.tree.Decls {
		if f, is := decl.(*ast.FuncDecl); is && f.Body != nil && !recovers(f.Body) {
			call(nameOf(f), f)
		}
	}
}

// recovers reports whether a body calls recover, but in a function of its own.
func recovers(body *ast.BlockStmt) (found bool) {
	ast.Inspect(body, func(n ast.Node) bool {
		if call, is := n.(*ast.CallExpr); is {
			name, is := call.Fun.(*ast.Ident)
			found = found || is && name.Name == "recover"
		}
		_, isAnother := n.(*ast.FuncLit)
		return !isAnother
	})
	return found
}

// nameOf returns the name of a function, with that of its receiver's type.
func nameOf(f *ast.FuncDecl) string {
	if f.Recv == nil {
		return f.Name.Name
	}
	of := f.Recv.List[0].Type
	for {
		switch it := of.(type) {
		case *ast.StarExpr:
			of = it.X
		case *ast.IndexExpr:
			of = it.X
		case *ast.IndexListExpr:
			of = it.X
		case *ast.Ident:
			return it.Name + "." + f.Name.Name
		default:
			return f.Name.Name
		}
	}
}

// The kinds of mutants.
const (
	negated    = "condition negated"
	always     = "condition always true"
	never      = "condition always false"
	comparison = "comparison changed"
	logical    = "and for or"
	dropped    = "statement dropped"
	swapped    = "statements swapped"
	constant   = "constant changed"
	longer     = "duration times 1000"
	variable   = "another variable"
	forError   = "nil for an error"
	opposite   = "result negated"
	lessCase   = "case dropped"
)

// kinds are all of them, in the order in which draw takes one of each in turn.
var kinds = []string{
	negated, always, never, comparison, logical, dropped, swapped, constant, longer, variable, forError, opposite,
	lessCase,
}

// others are the operators that each is changed to.
var others = map[token.Token]string{
	token.LSS: "<=", token.LEQ: "<", token.GTR: ">=", token.GEQ: ">", token.EQL: "!=", token.NEQ: "==",
	token.LAND: "||", token.LOR: "&&",
}

// A finder finds the mutants of a function.
type finder struct {
	pkg      *pkg
	file     *source
	function string
	found    []mutant
}

// find returns each mutant of the package that stands in one place. Some of them don't compile. They have no ID yet.
func find(p *pkg) (found []mutant) {
	for _, file := range p.sources {
		functions(file, func(name string, f *ast.FuncDecl) {
			finder := &finder{pkg: p, file: file, function: name}
			ast.Inspect(f.Body, finder.visit)
			found = append(found, finder.found...)
		})
	}
	return found
}

// add adds the mutant that has another text from one position to another.
func (f *finder) add(kind string, from, to token.Pos, text string) {
	f.found = append(f.found, mutant{
		Kind: kind, Package: f.pkg.path, File: f.file.path, Function: f.function,
		Line: f.pkg.set.Position(from).Line, Start: f.pkg.offset(from), End: f.pkg.offset(to), New: text,
	})
}

// replace adds the mutant that has another text in the place of a node.
func (f *finder) replace(kind string, n ast.Node, text string) { f.add(kind, n.Pos(), n.End(), text) }

func (f *finder) text(n ast.Node) string { return f.pkg.text(f.file, n.Pos(), n.End()) }

func (f *finder) visit(n ast.Node) bool {
	switch it := n.(type) {
	case *ast.IfStmt:
		f.condition(it.Cond)
	case *ast.ForStmt:
		f.condition(it.Cond)
	case *ast.ExprStmt:
		if isCrashPoint(it) {
			return false
		}
	case *ast.BinaryExpr:
		f.operator(it)
	case *ast.ReturnStmt:
		f.results(it)
	case *ast.BlockStmt:
		if !isOfCases(it) {
			f.statements(it.List)
		}
	case *ast.CaseClause:
		f.replace(lessCase, it, "")
		f.statements(it.Body)
	case *ast.CommClause:
		f.replace(lessCase, it, "")
		f.statements(it.Body)
	case *ast.BasicLit:
		f.literal(it)
	case *ast.Ident:
		f.name(it)
	}
	return !f.duration(n)
}

func (f *finder) condition(e ast.Expr) {
	if e == nil {
		return
	}
	text := f.text(e)
	f.replace(negated, e, "!("+text+")")
	f.replace(always, e, "(("+text+") || true)")
	f.replace(never, e, "(("+text+") && false)")
}

func (f *finder) operator(e *ast.BinaryExpr) {
	other, is := others[e.Op]
	if !is {
		return
	}
	kind := comparison
	if e.Op == token.LAND || e.Op == token.LOR {
		kind = logical
	}
	f.add(kind, e.OpPos, e.OpPos+token.Pos(len(e.Op.String())), other)
}

// results has nil in the place of an error, and the opposite of a truth value.
func (f *finder) results(s *ast.ReturnStmt) {
	for _, result := range s.Results {
		of := f.pkg.info.Types[result]
		switch {
		case of.Type == nil || of.IsNil():
		case types.Identical(of.Type, types.Universe.Lookup("error").Type()):
			f.replace(forError, result, "nil")
		case types.Identical(of.Type.Underlying(), types.Typ[types.Bool]) || of.Type == types.Typ[types.UntypedBool]:
			f.replace(opposite, result, "!("+f.text(result)+")")
		}
	}
}

// statements drops each statement of a list, and swaps it with the next one.
func (f *finder) statements(list []ast.Stmt) {
	for i, stmt := range list {
		if isCrashPoint(stmt) {
			continue
		}
		if isDroppable(stmt) {
			f.replace(dropped, stmt, "")
		}
		if i == 0 || ends(list[i-1]) || ends(stmt) || isCrashPoint(list[i-1]) {
			continue
		}
		between := f.pkg.text(f.file, list[i-1].End(), stmt.Pos())
		f.add(swapped, list[i-1].Pos(), stmt.End(), f.text(stmt)+between+f.text(list[i-1]))
	}
}

// isCrashPoint reports whether a statement is a crash point, which does nothing in these builds.
func isCrashPoint(s ast.Stmt) bool {
	statement, isExpression := s.(*ast.ExprStmt)
	if !isExpression {
		return false
	}
	call, isCall := statement.X.(*ast.CallExpr)
	if !isCall {
		return false
	}
	switch called := call.Fun.(type) {
	case *ast.Ident:
		return called.Name == "point"
	case *ast.SelectorExpr:
		from, isName := called.X.(*ast.Ident)
		return isName && from.Name == "crash"
	}
	return false
}

func isDroppable(s ast.Stmt) bool {
	switch it := s.(type) {
	case *ast.ExprStmt, *ast.DeferStmt, *ast.ReturnStmt, *ast.IncDecStmt, *ast.SendStmt, *ast.BranchStmt:
		return true
	case *ast.AssignStmt:
		return it.Tok != token.DEFINE
	}
	return false
}

// ends reports whether nothing after a statement is run.
func ends(s ast.Stmt) bool {
	switch s.(type) {
	case *ast.ReturnStmt, *ast.BranchStmt:
		return true
	}
	return false
}

func (f *finder) literal(l *ast.BasicLit) {
	switch l.Kind {
	case token.INT:
		text := "0"
		if value, err := strconv.ParseInt(l.Value, 0, 64); err != nil || value == 0 {
			text = "1"
		}
		f.replace(constant, l, text)
	case token.STRING:
		text := `""`
		if value, err := strconv.Unquote(l.Value); err == nil && value == "" {
			text = `"x"`
		}
		f.replace(constant, l, text)
	}
}

// duration multiplies a constant duration that isn't 0, and returns whether the node is one: its parts aren't changed.
func (f *finder) duration(n ast.Node) bool {
	e, is := n.(ast.Expr)
	if !is {
		return false
	}
	of := f.pkg.info.Types[e]
	if of.Value == nil || of.Type.String() != "time.Duration" || goconstant.Sign(of.Value) == 0 {
		return false
	}
	f.replace(longer, e, "(1000 * ("+f.text(e)+"))")
	return true
}

// name has the opposite truth value in the place of one, and in the place of a variable the one of the same type that
// was declared last.
func (f *finder) name(n *ast.Ident) {
	of := f.pkg.info.Uses[n]
	for value, other := range map[string]string{"true": "false", "false": "true"} {
		if of == types.Universe.Lookup(value) {
			f.replace(constant, n, other)
		}
	}
	if v, is := of.(*types.Var); is && !v.IsField() && v.Parent() != v.Pkg().Scope() {
		if other := f.sameType(n, v); other != "" {
			f.replace(variable, n, other)
		}
	}
}

func (f *finder) sameType(n *ast.Ident, v *types.Var) (name string) {
	declared := token.NoPos
	for scope := f.scope(n.Pos()); scope != nil && scope != v.Pkg().Scope(); scope = scope.Parent() {
		for _, candidate := range scope.Names() {
			other, is := scope.Lookup(candidate).(*types.Var)
			if is && other != v && candidate != "_" && candidate != n.Name && other.Pos() > declared &&
				other.Pos() < n.Pos() && types.Identical(other.Type(), v.Type()) {
				name, declared = candidate, other.Pos()
			}
		}
	}
	return name
}

// scope returns the innermost scope at a position of the file.
func (f *finder) scope(at token.Pos) *types.Scope {
	return f.pkg.info.Scopes[f.file.tree].Innermost(at)
}

// draw returns so many mutants of the packages that compile, of each kind in turn. The same seed, count and sources
// give the same mutants, in the same order. There may be fewer.
func draw(packages []*pkg, seed int64, count int) (drawn []mutant, err error) {
	order := shuffle(packages, rand.New(rand.NewSource(seed)))
	for i := range order {
		order[i].ID = i + 1
	}
	for len(drawn) < count && len(order) > 0 {
		next := count - len(drawn)
		if next > len(order) {
			next = len(order)
		}
		good, err := check(packages, order[:next])
		if err != nil {
			return nil, err
		}
		drawn, order = append(drawn, good...), order[next:]
	}
	return drawn, nil
}

// shuffle returns all mutants in an order at random, one of each kind in turn while there are some.
func shuffle(packages []*pkg, random *rand.Rand) (order []mutant) {
	byKind := make(map[string][]mutant)
	for _, p := range packages {
		for _, mutant := range find(p) {
			byKind[mutant.Kind] = append(byKind[mutant.Kind], mutant)
		}
	}
	for _, kind := range kinds {
		these := byKind[kind]
		random.Shuffle(len(these), func(i, j int) { these[i], these[j] = these[j], these[i] })
	}
	for i, isDone := 0, false; !isDone; i++ {
		isDone = true
		for _, kind := range kinds {
			if i < len(byKind[kind]) {
				order, isDone = append(order, byKind[kind][i]), false
			}
		}
	}
	return order
}

// check returns those mutants that compile, in their order.
func check(packages []*pkg, mutants []mutant) (found []mutant, err error) {
	isBad := make(map[int]bool)
	for _, p := range packages {
		_, bad, err := compilable(p, inPackage(p, mutants))
		if err != nil {
			return nil, fmt.Errorf("%s with its mutants: %w", p.path, err)
		}
		for id := range bad {
			isBad[id] = true
		}
	}
	return those(mutants, func(m mutant) bool { return !isBad[m.ID] }), nil
}

// those returns the mutants of which something is so.
func those(mutants []mutant, isSo func(mutant) bool) (found []mutant) {
	for _, mutant := range mutants {
		if isSo(mutant) {
			found = append(found, mutant)
		}
	}
	return found
}

// with returns the packages that have mutants.
func with(packages []*pkg, mutants []mutant) (found []*pkg) {
	for _, p := range packages {
		if len(inPackage(p, mutants)) > 0 {
			found = append(found, p)
		}
	}
	return found
}

func inPackage(p *pkg, mutants []mutant) []mutant {
	return those(mutants, func(m mutant) bool { return m.Package == p.path })
}

// An edit is a committed mutant:
//
//	file: broker/locks.go                    below go/
//	function: Gate.Enter                    or Name
//	test: broker TestGate                   a package and a test that must fail; any number of such lines
//	old: a text that its body has once      to the line with new:
//	new: the text in its place              to the end of the file
//
// Lines before these that begin with # say what the slip is.
type edit struct {
	name, file, function string
	tests                []editTest
	old, new             string
}

// An editTest is a test that must notice an edit.
type editTest struct{ pkg, test string }

// crashTags are those of a build with crash points, which has more tests.
const crashTags = tags + ",crashpoints"

// readEdit reads the file of an edit.
func readEdit(path string) (edit, error) {
	text, err := os.ReadFile(path)
	if err != nil {
		return edit{}, err
	}
	e := edit{name: strings.TrimSuffix(filepath.Base(path), ".edit")}
	head, body, isWhole := strings.Cut("\n"+string(text), "\nold:")
	old, new, isChanged := strings.Cut(body, "\nnew:")
	if !isWhole || !isChanged {
		return edit{}, fmt.Errorf("%s: it needs the lines `old:` and `new:`", path)
	}
	e.old, e.new = strings.Trim(old, " \n"), strings.Trim(new, " \n")
	for _, line := range strings.Split(head, "\n") {
		if line == "" || strings.HasPrefix(line, "#") {
			continue
		}
		key, value, _ := strings.Cut(line, ": ")
		switch key {
		case "file":
			e.file = value
		case "function":
			e.function = value
		case "test":
			of, test, _ := strings.Cut(value, " ")
			e.tests = append(e.tests, editTest{pkg: of, test: test})
		default:
			return edit{}, fmt.Errorf("%s: what is the line %q?", path, line)
		}
	}
	if e.file == "" || e.function == "" || len(e.tests) == 0 || e.old == "" {
		return edit{}, fmt.Errorf("%s: it needs a file, a function, a test and an old text", path)
	}
	return e, nil
}

// mutant returns the change that the edit makes. Its old text must stand once in the function's body.
func (e edit) mutant(packages []*pkg) (m mutant, err error) {
	for _, p := range packages {
		for _, file := range p.sources {
			if !strings.HasSuffix(file.path, "/"+e.file) {
				continue
			}
			functions(file, func(name string, f *ast.FuncDecl) {
				if name != e.function {
					return
				}
				begin, end := p.offset(f.Body.Lbrace)+1, p.offset(f.Body.Rbrace)
				body := file.text[begin:end]
				if count := bytes.Count(body, []byte(e.old)); count != 1 {
					err = fmt.Errorf("%s: %s of %s has the old text %d times", e.name, e.function, e.file, count)
					return
				}
				at := begin + bytes.Index(body, []byte(e.old))
				m = mutant{
					Kind: e.name, Package: p.path, File: file.path, Function: name,
					Line: 1 + bytes.Count(file.text[:at], []byte("\n")), Start: at, End: at + len(e.old), New: e.new,
				}
			})
		}
	}
	if err == nil && m.Package == "" {
		err = fmt.Errorf("%s: %s has no function %s", e.name, e.file, e.function)
	}
	return m, err
}

// A committedEdit is an edit with its mutant.
type committedEdit struct {
	edit   edit
	mutant mutant
}

// checkEdits has each test of each edit run with its mutant, and returns an error if one passes.
func checkEdits(ctx context.Context, out io.Writer, folder string, many int, paths []string) error {
	edits, packages, err := readEdits(ctx, paths)
	if err != nil {
		return err
	}
	var mutants []mutant
	for _, edit := range edits {
		mutants = append(mutants, edit.mutant)
	}
	for _, p := range packages {
		_, bad, err := compilable(p, inPackage(p, mutants))
		if err != nil {
			return err
		}
		for id, why := range bad {
			return fmt.Errorf("%s doesn't compile: %w", edits[id-1].edit.name, why)
		}
	}
	fmt.Fprintf(out, "%d mutants are built at once\n", len(mutants))
	binaries, err := build(ctx, filepath.Join(folder, "committed"), crashTags, many, packages, mutants)
	if err != nil {
		return err
	}
	return runEdits(ctx, out, many, binaries, edits)
}

// readEdits reads the files, and loads the packages of their mutants and of their tests.
func readEdits(ctx context.Context, paths []string) (found []committedEdit, packages []*pkg, err error) {
	patterns := make(map[string]bool)
	for _, path := range paths {
		e, err := readEdit(path)
		if err != nil {
			return nil, nil, err
		}
		found = append(found, committedEdit{edit: e})
		patterns["pippinterm/"+filepath.Dir(e.file)] = true
		for _, test := range e.tests {
			patterns["pippinterm/"+test.pkg] = true
		}
	}
	var these []string
	for pattern := range patterns {
		these = append(these, pattern)
	}
	if packages, err = load(ctx, crashTags, these...); err != nil {
		return nil, nil, err
	}
	var wrongs []string // all, because a change of the code may be in the way of many
	for i := range found {
		if found[i].mutant, err = found[i].edit.mutant(packages); err != nil {
			wrongs = append(wrongs, err.Error())
		}
		found[i].mutant.ID = i + 1
	}
	if len(wrongs) > 0 {
		return nil, nil, errors.New(strings.Join(wrongs, "\n"))
	}
	return found, packages, nil
}

// runEdits runs each test without a mutant first, which must pass, and then with each mutant that it must notice.
func runEdits(ctx context.Context, out io.Writer, many int, binaries map[string]binary, edits []committedEdit) error {
	type job struct {
		editTest
		mutants []committedEdit
	}
	var jobs []*job
	known := make(map[editTest]*job)
	for _, edit := range edits {
		for _, test := range edit.edit.tests {
			if known[test] == nil {
				known[test] = &job{editTest: test}
				jobs = append(jobs, known[test])
			}
			known[test].mutants = append(known[test].mutants, edit)
		}
	}
	wrongs := make([][]string, len(jobs))
	err := parallel(ctx, many, len(jobs), func(ctx context.Context, w *worker, i int) (err error) {
		b, is := binaries["pippinterm/"+jobs[i].pkg]
		if !is {
			return fmt.Errorf("the package %s has no tests", jobs[i].pkg)
		}
		wrongs[i], err = notice(ctx, w, run{binary: b, test: jobs[i].test, most: longestTest}, jobs[i].mutants)
		return err
	})
	count := 0
	for _, these := range wrongs {
		for _, wrong := range these {
			fmt.Fprintln(out, wrong)
			count++
		}
	}
	if err == nil && count > 0 {
		err = errMutants
	}
	if err == nil {
		fmt.Fprintf(out, "%d mutants, each noticed\n", len(edits))
	}
	return err
}

// notice runs a test with each of these mutants, and returns a line for each that it doesn't notice.
func notice(ctx context.Context, w *worker, r run, mutants []committedEdit) (wrongs []string, err error) {
	found, err := w.do(ctx, r)
	if err != nil {
		return nil, err
	}
	if found.ending != passed {
		return []string{fmt.Sprintf("%s %s %s without a mutant:\n%s", r.binary.pkg.path, r.test, found.ending, found.printed)}, nil
	}
	r.most = shortest + slower*found.took
	for _, mutant := range mutants {
		r.mutant = mutant.mutant.ID
		begun := time.Now()
		found, err := w.do(ctx, r)
		if err != nil {
			return nil, err
		}
		if found.ending == passed || found.ending == skipped {
			wrongs = append(wrongs, fmt.Sprintf("%s: %s %s %s with it, after %v", mutant.edit.name, r.binary.pkg.path,
				r.test, found.ending, time.Since(begun)))
		}
	}
	return wrongs, nil
}
