package main

import (
	"bytes"
	"context"
	"encoding/json"
	"errors"
	"fmt"
	"go/ast"
	"go/importer"
	"go/parser"
	"go/token"
	"go/types"
	"io"
	"os"
	"os/exec"
	"path/filepath"
	"sort"
	"strconv"
	"strings"
)

// support is a further file of each package that has mutants.
const support = `package %s

import (
	"os"
	"strconv"
	"sync"
)

// mutantOn is the mutant that this process has, or 0.
var mutantOn, _ = strconv.Atoi(os.Getenv("` + switchVariable + `"))

var (
	mutantReached = os.Getenv("` + reachVariable + `")
	mutantsKnown  sync.Map
)

// mutantAt adds a mutant to the file of those that were reached.
func mutantAt(id int) {
	if mutantReached == "" {
		return
	}
	if _, isKnown := mutantsKnown.LoadOrStore(id, true); isKnown {
		return
	}
	file, err := os.OpenFile(mutantReached, os.O_WRONLY|os.O_CREATE|os.O_APPEND, 0o666)
	if err == nil {
		_, err = file.WriteString(strconv.Itoa(id) + "\n")
		_ = file.Close()
	}
	if err != nil { // a test may keep its process from writing for a while
		mutantsKnown.Delete(id)
	}
}
`

// supportImports are the packages that it imports.
var supportImports = []string{"os", "strconv", "sync"}

const (
	supportFile    = "osb_mutants.go"
	switchVariable = "OSB_MUTANT"          // the ID of the mutant that is on
	reachVariable  = "OSB_MUTANTS_REACHED" // the file to which the IDs of those are added that a process reaches
)

// A mutatedFile is a file with all its mutants. Each has a function of its own in the function that it is of.
type mutatedFile struct {
	text []byte
	at   map[int]int // where the function of a mutant begins, by ID
	ends map[int]int
}

// rewrite returns the text of a file with these mutants of it.
func rewrite(p *pkg, file *source, mutants []mutant) *mutatedFile {
	r := &mutatedFile{at: make(map[int]int), ends: make(map[int]int)}
	done := 0 // what the text has of the file
	functions(file, func(_ string, f *ast.FuncDecl) {
		begin, end := p.offset(f.Body.Lbrace)+1, p.offset(f.Body.Rbrace)
		these := within(mutants, begin, end)
		if len(these) == 0 {
			return
		}
		r.text = append(r.text, file.text[done:begin]...)
		r.add("\nswitch mutantOn {\n")
		for _, mutant := range these {
			r.body(p, file, f, mutant)
		}
		r.add("}\n")
		r.original(p, file, f, these)
		done = end
	})
	r.text = append(r.text, file.text[done:]...)
	return r
}

func (r *mutatedFile) add(text string) { r.text = append(r.text, text...) }

// body adds the case of one mutant.
func (r *mutatedFile) body(p *pkg, file *source, f *ast.FuncDecl, m mutant) {
	begin, end := p.offset(f.Body.Lbrace)+1, p.offset(f.Body.Rbrace)
	r.add("case " + strconv.Itoa(m.ID) + ":\n")
	r.at[m.ID] = len(r.text)
	isVoid := f.Type.Results == nil
	if isVoid {
		r.add("func() {")
	} else {
		r.add("return func() " + p.text(file, f.Type.Results.Pos(), f.Type.Results.End()) + " {")
	}
	r.text = append(r.text, file.text[begin:m.Start]...)
	r.add(m.New)
	r.text = append(r.text, file.text[m.End:end]...)
	r.add("}()\n")
	r.ends[m.ID] = len(r.text)
	if isVoid {
		r.add("return\n")
	}
}

// original adds the function's own body, which says which mutants are reached.
func (r *mutatedFile) original(p *pkg, file *source, f *ast.FuncDecl, these []mutant) {
	at := make(map[int]string) // what is inserted, by where
	for _, mutant := range these {
		at[statement(p, f.Body, mutant.Start)] += "mutantAt(" + strconv.Itoa(mutant.ID) + "); "
	}
	offsets := make([]int, 0, len(at))
	for offset := range at {
		offsets = append(offsets, offset)
	}
	sort.Ints(offsets)
	done := p.offset(f.Body.Lbrace) + 1
	for _, offset := range offsets {
		r.text = append(r.text, file.text[done:offset]...)
		r.add(at[offset])
		done = offset
	}
	r.text = append(r.text, file.text[done:p.offset(f.Body.Rbrace)]...)
}

// statement returns where the innermost statement of a list begins that has the offset in it.
func statement(p *pkg, body *ast.BlockStmt, offset int) int {
	found := p.offset(body.Lbrace) + 1
	look := func(list []ast.Stmt) {
		for _, stmt := range list {
			if p.offset(stmt.Pos()) <= offset && offset < p.offset(stmt.End()) {
				found = p.offset(stmt.Pos())
			}
		}
	}
	ast.Inspect(body, func(n ast.Node) bool {
		switch it := n.(type) {
		case *ast.BlockStmt:
			if !isOfCases(it) {
				look(it.List)
			}
		case *ast.CaseClause:
			look(it.Body)
		case *ast.CommClause:
			look(it.Body)
		}
		return true
	})
	return found
}

// isOfCases reports whether a block has the cases of a switch or a select.
func isOfCases(block *ast.BlockStmt) bool {
	if len(block.List) == 0 {
		return false
	}
	switch block.List[0].(type) {
	case *ast.CaseClause, *ast.CommClause:
		return true
	}
	return false
}

// within returns those mutants that are between two offsets.
func within(mutants []mutant, begin, end int) []mutant {
	return those(mutants, func(m mutant) bool { return begin <= m.Start && m.End <= end })
}

// of returns the mutants of a file.
func of(file *source, mutants []mutant) []mutant {
	return those(mutants, func(m mutant) bool { return m.File == file.path })
}

// compilable returns those mutants of a package that compile, and for each other one why it doesn't. Each mutant has an
// ID.
func compilable(p *pkg, mutants []mutant) (good []mutant, bad map[int]error, err error) {
	bad = make(map[int]error)
	set := token.NewFileSet()
	var trees []*ast.File
	written := make(map[string]*mutatedFile)
	for _, file := range p.sources {
		r := rewrite(p, file, of(file, mutants))
		tree, err := parser.ParseFile(set, file.path, r.text, parser.SkipObjectResolution)
		if err != nil {
			return nil, nil, fmt.Errorf("a mutant isn't Go: %w", err)
		}
		trees = append(trees, tree)
		written[file.path] = r
	}
	further, err := parser.ParseFile(set, supportFile, p.support(), parser.SkipObjectResolution)
	if err != nil {
		return nil, nil, err
	}
	var failed error
	_ = p.check(set, append(trees, further), nil, func(reported error) {
		var wrong types.Error
		if !errors.As(reported, &wrong) {
			failed = reported
			return
		}
		at := set.Position(wrong.Pos)
		id := 0
		if r := written[at.Filename]; r != nil {
			id = r.mutantAt(at.Offset)
		}
		if id == 0 {
			failed = reported
			return
		}
		bad[id] = reported
	})
	return those(mutants, func(m mutant) bool { return bad[m.ID] == nil }), bad, failed
}

// mutantAt returns the mutant whose function has this offset in it, or 0.
func (r *mutatedFile) mutantAt(offset int) int {
	for id, at := range r.at {
		if at <= offset && offset < r.ends[id] {
			return id
		}
	}
	return 0
}

func (p *pkg) support() []byte {
	return []byte(fmt.Sprintf(support, p.sources[0].tree.Name.Name))
}

// overlay writes the packages with their mutants into a folder, and returns the file for `go build -overlay`.
func overlay(folder string, packages []*pkg, mutants []mutant) (string, error) {
	replaced := make(map[string]string)
	put := func(path string, text []byte) error {
		to := filepath.Join(folder, strconv.Itoa(len(replaced))+".go")
		replaced[path] = to
		return os.WriteFile(to, text, 0o666)
	}
	for _, p := range packages {
		isChanged := false
		for _, file := range p.sources {
			these := of(file, mutants)
			if len(these) == 0 {
				continue
			}
			isChanged = true
			if err := put(file.path, rewrite(p, file, these).text); err != nil {
				return "", err
			}
		}
		if !isChanged {
			continue
		}
		if err := put(filepath.Join(p.dir, supportFile), p.support()); err != nil {
			return "", err
		}
	}
	var text bytes.Buffer
	if err := json.NewEncoder(&text).Encode(map[string]any{"Replace": replaced}); err != nil {
		return "", err
	}
	name := filepath.Join(folder, "overlay.json")
	return name, os.WriteFile(name, text.Bytes(), 0o666)
}

// A listing is what `go list -json` prints of a package.
type listing struct {
	ImportPath, Dir, Export    string
	GoFiles, CgoFiles, Imports []string
	TestGoFiles, XTestGoFiles  []string
	TestImports, XTestImports  []string
	Match                      []string // the patterns that it matches
	DepOnly, Standard          bool
}

// A source is a file of a package.
type source struct {
	path string
	text []byte
	tree *ast.File
}

// A pkg is a package whose types are checked.
type pkg struct {
	path, dir    string
	hasTests     bool
	usesPostgres bool
	sources      []*source
	set          *token.FileSet
	info         *types.Info
	importer     types.Importer
}

// load returns the packages of these patterns that can be changed: those that use no cgo, and that aren't helpers of
// tests. The tags are those of the build.
func load(ctx context.Context, tags string, patterns ...string) ([]*pkg, error) {
	all, err := list(ctx, tags, patterns...)
	if err != nil {
		return nil, err
	}
	exports, isMatched := make(map[string]string), make(map[string]bool)
	for _, pkg := range all {
		exports[pkg.ImportPath] = pkg.Export
		for _, pattern := range pkg.Match {
			isMatched[pattern] = true
		}
	}
	for _, pattern := range patterns {
		if !isMatched[pattern] {
			return nil, fmt.Errorf("no package matches %s: patterns are relative to go/, such as ./internal/httpserver", pattern)
		}
	}
	var found []*pkg
	for _, listed := range all {
		if listed.DepOnly || listed.Standard || len(listed.CgoFiles) > 0 || contains(listed.Imports, "testing") {
			continue
		}
		p := &pkg{path: listed.ImportPath, dir: listed.Dir, hasTests: len(listed.TestGoFiles)+len(listed.XTestGoFiles) > 0}
		p.usesPostgres = contains(append(listed.TestImports, listed.XTestImports...), "pippinterm/internal/pg/pgtest")
		if err := p.read(listed.GoFiles, exports); err != nil {
			return nil, err
		}
		found = append(found, p)
	}
	return found, nil
}

// list runs `go list`, which compiles what the packages import.
func list(ctx context.Context, tags string, patterns ...string) (found []listing, err error) {
	line := append([]string{"list", "-json", "-export", "-deps", "-tags", tags}, patterns...)
	line = append(line, supportImports...)
	printed, err := output(exec.CommandContext(ctx, "go", line...))
	if err != nil {
		return nil, err
	}
	for decoder := json.NewDecoder(bytes.NewReader(printed)); ; {
		var one listing
		if err := decoder.Decode(&one); errors.Is(err, io.EOF) {
			return found, nil
		} else if err != nil {
			return nil, fmt.Errorf("what go list prints can't be read: %w", err)
		}
		found = append(found, one)
	}
}

// output runs a command, and returns what it prints. Its error has what the command reports.
func output(command *exec.Cmd) ([]byte, error) {
	var reported bytes.Buffer
	command.Stderr = &reported
	printed, err := command.Output()
	if err != nil {
		err = fmt.Errorf("%s: %w\n%s", strings.Join(command.Args[:2], " "), err, reported.String())
	}
	return printed, err
}

// read parses the files of the package, and checks their types over the compiled packages that they import.
func (p *pkg) read(files []string, exports map[string]string) error {
	p.set = token.NewFileSet()
	p.importer = importer.ForCompiler(p.set, "gc", func(path string) (io.ReadCloser, error) {
		return os.Open(exports[path])
	})
	for _, name := range files {
		path := filepath.Join(p.dir, name)
		text, err := os.ReadFile(path)
		if err != nil {
			return err
		}
		tree, err := parser.ParseFile(p.set, path, text, parser.SkipObjectResolution)
		if err != nil {
			return err
		}
		p.sources = append(p.sources, &source{path: path, text: text, tree: tree})
	}
	p.info = &types.Info{
		Types: make(map[ast.Expr]types.TypeAndValue), Uses: make(map[*ast.Ident]types.Object),
		Scopes: make(map[ast.Node]*types.Scope),
	}
	return p.check(p.set, p.trees(), p.info, nil)
}

// check checks the types of files that are instead of the package's. report gets each error; without one, the first is
// returned.
func (p *pkg) check(set *token.FileSet, files []*ast.File, info *types.Info, report func(error)) error {
	config := types.Config{Importer: p.importer, Error: report}
	_, err := config.Check(p.path, set, files, info)
	if report != nil {
		return nil
	}
	return err
}

func (p *pkg) trees() []*ast.File {
	var trees []*ast.File
	for _, source := range p.sources {
		trees = append(trees, source.tree)
	}
	return trees
}

// offset returns where a position is in the text of its file.
func (p *pkg) offset(at token.Pos) int { return p.set.Position(at).Offset }

// text returns what the file has between two positions.
func (p *pkg) text(file *source, from, to token.Pos) string {
	return string(file.text[p.offset(from):p.offset(to)])
}

func contains(these []string, one string) bool {
	for _, element := range these {
		if element == one {
			return true
		}
	}
	return false
}

// A binary has the tests of a package, over all packages with their mutants.
type binary struct {
	pkg  *pkg
	path string
}

// build compiles the tests of the packages with these mutants into a folder, and links so many at a time.
func build(
	ctx context.Context, folder, tags string, many int, packages []*pkg, mutants []mutant,
) (map[string]binary, error) {
	if err := os.MkdirAll(folder, 0o777); err != nil {
		return nil, err
	}
	over, err := overlay(folder, packages, mutants)
	if err != nil {
		return nil, err
	}
	found := make(map[string]binary)
	how := []string{"-trimpath", "-overlay", over, "-tags", tags}
	compile := append([]string{"list", "-export", "-test"}, how...) // all at once; then each is only linked
	for _, p := range packages {
		if p.hasTests {
			found[p.path] = binary{pkg: p, path: filepath.Join(folder, strings.ReplaceAll(p.path, "/", ".")+".test")}
			compile = append(compile, p.path)
		}
	}
	if _, err := output(exec.CommandContext(ctx, "go", compile...)); err != nil {
		return nil, fmt.Errorf("the mutants: %w", err)
	}
	link := append([]string{"test", "-c", "-vet=off", "-ldflags=-w"}, how...)
	these := inOrder(found)
	return found, parallel(ctx, many, len(these), func(ctx context.Context, _ *worker, i int) error {
		words := append(link[:len(link):len(link)], "-o", these[i].path, these[i].pkg.path)
		_, err := output(exec.CommandContext(ctx, "go", words...))
		return err
	})
}

// tests returns the names of the tests of a package, and of its examples with an output.
func (b binary) tests(ctx context.Context) (names []string, err error) {
	listing := exec.CommandContext(ctx, b.path, "-test.list", "^(Test|Example)")
	listing.Dir = b.pkg.dir
	printed, err := output(listing)
	for _, word := range strings.Fields(string(printed)) {
		if strings.HasPrefix(word, "Test") || strings.HasPrefix(word, "Example") {
			names = append(names, word)
		}
	}
	return names, err
}
