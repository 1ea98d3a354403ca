package main

import (
	"fmt"
	"go/ast"
	"go/importer"
	"go/parser"
	"go/token"
	"go/types"
	"io"
	"os"
	"path/filepath"
	"sort"
	"strconv"
	"strings"
	"unicode"
)

// rewriting is what is done to all packages.
type rewriting struct {
	folder   string            // for what is written
	recorder string            // the import path of the recorder
	place    string            // its folder
	replace  map[string]string // the overlay
	exports  map[string]string // what the compiler knows of each package, by its path
	objects  map[string]*wanted
}

// edit is a change of the text of a file. Lines stay where they are.
type edit struct {
	from, to int
	text     string
	closes   bool // it belongs to what stands before
	number   int
}

// source is a file that is rewritten.
type source struct {
	w     *rewriting
	fset  *token.FileSet
	info  *types.Info
	file  *ast.File
	text  []byte
	edits []edit
	jobs  []func() // changes that need others within them, outermost first
	above []ast.Node
	used  map[string]string // a declaration that uses an import, by the import's name
	tail  string            // what stands behind the file's text
	names int
	taken map[ast.Node]bool // what something else has changed
}

// rewrite rewrites the files of a package that weren't yet.
func (w *rewriting) rewrite(one *listed) {
	fset, files, names := token.NewFileSet(), []*ast.File{}, []string{}
	for _, name := range one.GoFiles {
		if !filepath.IsAbs(name) {
			name = filepath.Join(one.Dir, name)
		}
		file, err := parser.ParseFile(fset, name, nil, parser.SkipObjectResolution)
		if err != nil {
			return // the compiler tells
		}
		files, names = append(files, file), append(names, name)
	}
	info := &types.Info{
		Types: map[ast.Expr]types.TypeAndValue{}, Uses: map[*ast.Ident]types.Object{}, Defs: map[*ast.Ident]types.Object{},
		Selections: map[*ast.SelectorExpr]*types.Selection{}, Instances: map[*ast.Ident]types.Instance{},
	}
	config := types.Config{Error: func(error) {}, Importer: importer.ForCompiler(fset, "gc", func(path string) (io.ReadCloser, error) {
		if mapped, some := one.ImportMap[path]; some {
			path = mapped
		}
		return os.Open(w.exports[path])
	})}
	config.Check(strings.Split(one.ImportPath, " ")[0], fset, files, info)
	for i, file := range files {
		if _, done := w.replace[names[i]]; done {
			continue
		}
		text, err := os.ReadFile(names[i])
		if err != nil {
			fail(err)
		}
		s := &source{w: w, fset: fset, info: info, file: file, text: text, used: map[string]string{}, taken: map[ast.Node]bool{}}
		if text = s.rewritten(); text == nil {
			continue
		}
		w.write(names[i], string(text))
	}
}

// rewritten is the new text, or nil where nothing changes.
func (s *source) rewritten() []byte {
	ast.Inspect(s.file, func(n ast.Node) bool {
		if n == nil {
			s.above = s.above[:len(s.above)-1]
			return true
		}
		s.node(n)
		s.above = append(s.above, n)
		return true
	})
	for i := len(s.jobs) - 1; i >= 0; i-- {
		s.jobs[i]()
	}
	if len(s.edits) == 0 {
		return nil
	}
	s.after(s.file.Name.End(), fmt.Sprintf("; import rdrecord_ %q", s.w.recorder))
	tail := "\n"
	for _, name := range sorted(s.used) {
		tail += s.used[name] + "\n"
	}
	return []byte(s.render(0, len(s.text)) + tail + s.tail)
}

func sorted(of map[string]string) (names []string) {
	for name := range of {
		names = append(names, name)
	}
	sort.Strings(names)
	return names
}

func (s *source) offset(at token.Pos) int { return s.fset.Position(at).Offset }

func (s *source) add(e edit) {
	e.number = len(s.edits)
	s.edits = append(s.edits, e)
}

// before puts a text in front of what begins here, after behind what ends here, and instead in place of what stands between.
func (s *source) before(at token.Pos, text string) {
	s.add(edit{from: s.offset(at), to: s.offset(at), text: text})
}

func (s *source) after(at token.Pos, text string) {
	s.add(edit{from: s.offset(at), to: s.offset(at), text: text, closes: true})
}

func (s *source) instead(from, to token.Pos, text string) {
	s.add(edit{from: s.offset(from), to: s.offset(to), text: text + lineEnds(string(s.text[s.offset(from):s.offset(to)]), text)})
}

// lineEnds are the line ends that a text has and its successor lacks.
func lineEnds(old, text string) string {
	if more := strings.Count(old, "\n") - strings.Count(text, "\n"); more > 0 {
		return strings.Repeat("\n", more)
	}
	return ""
}

// render is a part of the new text.
func (s *source) render(from, to int) string {
	edits := []edit{}
	for _, e := range s.edits {
		if e.from < from || e.to > to || e.from == from && e.to == from && e.closes && from > 0 || e.from == to && !e.closes && to < len(s.text) {
			continue
		}
		edits = append(edits, e)
	}
	sort.SliceStable(edits, func(i, j int) bool {
		a, b := edits[i], edits[j]
		switch {
		case a.from != b.from:
			return a.from < b.from
		case a.closes != b.closes:
			return a.closes
		case a.closes:
			return a.number > b.number
		}
		return a.number < b.number
	})
	out := strings.Builder{}
	for _, e := range edits {
		if e.from >= from {
			out.Write(s.text[from:e.from])
			from = e.from
		}
		out.WriteString(e.text)
		if e.to > from {
			from = e.to
		}
	}
	out.Write(s.text[from:to])
	return out.String()
}

// shown is the new text of a node.
func (s *source) shown(n ast.Node) string { return s.render(s.offset(n.Pos()), s.offset(n.End())) }

// replaced puts a text in place of a node whose new text is part of it.
func (s *source) replaced(from, to token.Pos, text string) {
	a, b, kept := s.offset(from), s.offset(to), s.edits[:0]
	for _, e := range s.edits {
		inside := e.from >= a && e.to <= b && !(e.from == a && e.to == a && e.closes) && !(e.from == b && !e.closes)
		if !inside {
			kept = append(kept, e)
		}
	}
	s.edits = kept
	s.edits = append(s.edits, edit{from: a, to: b, text: text + lineEnds(string(s.text[a:b]), text), number: 1 << 30})
}

func (s *source) fresh() string {
	s.names++
	return "rd_" + strconv.Itoa(s.names)
}

func (s *source) parent(up int) ast.Node {
	if len(s.above) < up {
		return nil
	}
	return s.above[len(s.above)-up]
}

func (s *source) typeOf(e ast.Expr) types.Type { return s.info.Types[e].Type }

// within names the function that a statement stands in.
func (s *source) within() string {
	for _, n := range s.above {
		if f, is := n.(*ast.FuncDecl); is {
			return f.Name.Name
		}
	}
	return "go"
}

// stands are the names of packages that the recorder has too, by their paths, and a declaration that uses the import still.
var stands = map[string][2]string{
	"sync":        {" Mutex RWMutex WaitGroup Once Cond NewCond Map Pool Locker ", "var _ %s.Locker"},
	"sync/atomic": {atomicNames, "var _ = %s.AddInt32"},
	"context":     {" WithCancel WithDeadline WithTimeout ", "var _ %s.Context"},
	"time":        {" AfterFunc ", "var _ %s.Time"},
	"os":          {" Exit ", "var _ = %s.Exit"},
}

var atomicNames = func() string {
	names := " Bool Int32 Int64 Uint32 Uint64 Uintptr Pointer Value "
	for _, what := range []string{"Load", "Store", "Swap", "CompareAndSwap", "Add"} {
		for _, sort := range []string{"Int32", "Int64", "Uint32", "Uint64", "Uintptr", "Pointer"} {
			names += what + sort + " "
		}
	}
	return names
}()

func (s *source) node(n ast.Node) {
	if s.taken[n] {
		return
	}
	switch n := n.(type) {
	case *ast.SelectorExpr:
		s.selector(n)
		s.variable(n)
	case *ast.Ident:
		s.variable(n)
	case *ast.FuncDecl:
		s.function(n)
	case *ast.GoStmt:
		s.goes(n)
	case *ast.CallExpr:
		s.call(n)
	case *ast.SendStmt:
		if comm, is := s.parent(1).(*ast.CommClause); is && comm.Comm == n || !s.channel(n.Chan) {
			return
		}
		s.before(n.Chan.Pos(), "rdrecord_.To(")
		s.instead(n.Chan.End(), n.Value.Pos(), ").Send(")
		s.after(n.Value.End(), ")")
	case *ast.UnaryExpr:
		if n.Op != token.ARROW || !s.channel(n.X) {
			return
		}
		name := "rdrecord_.Receive("
		if _, two := s.typeOf(n).(*types.Tuple); two {
			name = "rdrecord_.Receive2("
		}
		s.instead(n.Pos(), n.X.Pos(), name)
		s.after(n.End(), ")")
	case *ast.RangeStmt:
		s.ranges(n)
	case *ast.SelectStmt:
		s.selects(n)
	}
}

// channel says whether this is a channel whose type is known.
func (s *source) channel(e ast.Expr) bool {
	t := s.typeOf(e)
	if t == nil {
		return false
	}
	if _, parameter := t.(*types.TypeParam); parameter {
		return false
	}
	_, is := t.Underlying().(*types.Chan)
	return is
}

func (s *source) selector(n *ast.SelectorExpr) {
	x, is := n.X.(*ast.Ident)
	if !is {
		return
	}
	name, is := s.info.Uses[x].(*types.PkgName)
	if !is {
		return
	}
	if stand, some := stands[name.Imported().Path()]; some && strings.Contains(stand[0], " "+n.Sel.Name+" ") {
		s.instead(x.Pos(), x.End(), "rdrecord_")
		s.used[x.Name] = fmt.Sprintf(stand[1], x.Name)
	}
}

// function begins the recording of a test, and ends that of a program.
func (s *source) function(n *ast.FuncDecl) {
	if n.Body == nil {
		return
	}
	if n.Recv == nil && n.Name.Name == "main" && s.file.Name.Name == "main" {
		s.after(n.Body.Lbrace+1, " defer rdrecord_.End(); ")
	}
	if n.Recv == nil && strings.HasSuffix(s.fset.Position(n.Pos()).Filename, "_test.go") {
		switch name := n.Name.Name; {
		case begins(name, "Test"), begins(name, "Fuzz"):
			s.tests(n.Type, n.Body)
		case begins(name, "Example") && len(n.Type.Params.List) == 0:
			s.after(n.Body.Lbrace+1, " defer rdrecord_.Example()(); ")
		}
	}
	s.method(n)
}

// begins says whether the go command takes a function for one of this sort.
func begins(name, sort string) bool {
	return strings.HasPrefix(name, sort) && (name == sort || !unicode.IsLower(rune(name[len(sort)])))
}

// tests begins a test, whose first parameter is that of package testing.
func (s *source) tests(function *ast.FuncType, body *ast.BlockStmt) {
	if len(function.Params.List) == 0 || len(function.Params.List[0].Names) != 1 || function.Params.List[0].Names[0].Name == "_" {
		return
	}
	of := function.Params.List[0]
	if t := s.typeOf(of.Type); t != nil && (t.String() == "*testing.T" || t.String() == "*testing.F") {
		s.after(body.Lbrace+1, " rdrecord_.Test("+of.Names[0].Name+"); ")
	}
}

// builtin is the name of the builtin function that is called, if one is.
func (s *source) builtin(call *ast.CallExpr) string {
	if name, is := bare(call.Fun).(*ast.Ident); is {
		if _, is := s.info.Uses[name].(*types.Builtin); is {
			return name.Name
		}
	}
	return ""
}

// impure says whether an argument has to be evaluated where the go statement stands.
func impure(e ast.Expr) (found bool) {
	ast.Inspect(e, func(n ast.Node) bool {
		switch n := n.(type) {
		case *ast.FuncLit:
			return false
		case *ast.CallExpr:
			found = true
		case *ast.UnaryExpr:
			found = found || n.Op == token.ARROW
		}
		return !found
	})
	return found
}

func (s *source) goes(n *ast.GoStmt) {
	call, name := n.Call, strconv.Quote(s.within())
	generic := false
	switch f := bare(call.Fun).(type) {
	case *ast.Ident:
		_, generic = s.info.Instances[f]
	case *ast.SelectorExpr:
		_, generic = s.info.Instances[f.Sel]
	}
	if s.builtin(call) != "" || generic {
		s.before(call.Pos(), "rdrecord_.Wrap("+name+", func() { ")
		s.after(call.End(), " })()")
		return
	}
	last := -1
	for i, arg := range call.Args {
		if impure(arg) {
			last = i
		}
	}
	if _, tuple := s.lastType(call, last).(*types.Tuple); last >= 0 && !tuple {
		s.before(call.Fun.Pos(), "rdrecord_.Later("+name+", ")
		s.before(call.Args[last].Pos(), "rdrecord_.Forked(")
		s.after(call.Args[last].End(), ")")
	} else {
		s.before(call.Fun.Pos(), "rdrecord_.Wrap("+name+", ")
	}
	s.after(call.Fun.End(), ")")
}

func (s *source) lastType(call *ast.CallExpr, last int) types.Type {
	if last < 0 {
		return nil
	}
	return s.typeOf(call.Args[last])
}

func (s *source) call(n *ast.CallExpr) {
	switch s.builtin(n) {
	case "close":
		if s.channel(n.Args[0]) {
			s.instead(n.Fun.Pos(), n.Fun.End(), "rdrecord_.Close")
		}
		return
	case "make":
		if s.channel(n) {
			s.before(n.Pos(), "rdrecord_.Made(")
			s.after(n.End(), ")")
		}
		return
	}
	f, is := n.Fun.(*ast.SelectorExpr)
	if !is || s.typeOf(f.X) == nil {
		return
	}
	switch sort := s.typeOf(f.X).String(); {
	case sort == "context.Context" && f.Sel.Name == "Err" && len(n.Args) == 0:
		s.before(f.X.Pos(), "rdrecord_.Err(")
		s.instead(f.X.End(), n.End(), ")")
	case sort == "*testing.T" && f.Sel.Name == "Run" && len(n.Args) == 2:
		s.before(f.X.Pos(), "rdrecord_.RunTest(")
		s.instead(f.X.End(), n.Args[0].Pos(), ", ")
	case sort == "*testing.F" && f.Sel.Name == "Fuzz" && len(n.Args) == 1:
		if body, is := n.Args[0].(*ast.FuncLit); is {
			s.tests(body.Type, body.Body)
		}
	case sort == "*testing.M" && f.Sel.Name == "Run":
		s.before(f.X.Pos(), "rdrecord_.RunAll(")
		s.instead(f.X.End(), n.End(), ")")
	case sort == "*testing.T" && f.Sel.Name == "Parallel":
		s.before(f.X.Pos(), "rdrecord_.Parallel(")
		s.instead(f.X.End(), n.End(), ")")
	}
}

// ranges is a range over a channel.
func (s *source) ranges(n *ast.RangeStmt) {
	if !s.channel(n.X) {
		return
	}
	name := s.fresh()
	front, next := fmt.Sprintf(" %s := rdrecord_.Each(", name), "nil"
	if key, is := n.Key.(*ast.Ident); n.Key != nil && (!is || key.Name != "_") {
		old := string(s.text[s.offset(n.Key.Pos()):s.offset(n.Key.End())])
		next = "&" + old
		if n.Tok == token.DEFINE {
			front = fmt.Sprintf(" %s, %s := rdrecord_.Range(", old, name)
		}
	}
	if n.Key != nil {
		ast.Inspect(n.Key, func(within ast.Node) bool { s.taken[within] = true; return true })
	}
	s.instead(n.For+3, n.X.Pos(), front)
	s.after(n.X.End(), fmt.Sprintf("); %s.Next(%s); ", name, next))
}

// selects makes a switch of a select: its cases are evaluated at its head.
func (s *source) selects(n *ast.SelectStmt) {
	if len(n.Body.List) == 0 {
		return
	}
	for _, each := range n.Body.List { // a channel of an unknown type: left as it is
		var from ast.Expr
		switch comm := each.(*ast.CommClause).Comm.(type) {
		case *ast.SendStmt:
			from = comm.Chan
		case *ast.ExprStmt:
			from = received(comm.X).X
		case *ast.AssignStmt:
			from = received(comm.Rhs[0]).X
		default:
			continue
		}
		if !s.channel(from) {
			return
		}
	}
	for _, each := range n.Body.List {
		switch comm := each.(*ast.CommClause).Comm.(type) {
		case *ast.ExprStmt:
			s.taken[received(comm.X)] = true
		case *ast.AssignStmt:
			s.taken[received(comm.Rhs[0])] = true
			for _, left := range comm.Lhs {
				ast.Inspect(left, func(within ast.Node) bool { s.taken[within] = true; return true })
			}
		}
	}
	s.jobs = append(s.jobs, func() { s.selected(n) })
}

func received(e ast.Expr) *ast.UnaryExpr { return bare(e).(*ast.UnaryExpr) }

func (s *source) selected(n *ast.SelectStmt) {
	names, values, number, choose := []string{}, []string{}, 0, "rdrecord_.Select("
	type change struct {
		clause *ast.CommClause
		text   string
	}
	changes := []change{}
	for _, each := range n.Body.List {
		clause := each.(*ast.CommClause)
		if clause.Comm == nil {
			choose = "rdrecord_.TrySelect("
			continue
		}
		name, text := s.fresh(), fmt.Sprintf("case %d:", number)
		var left []ast.Expr
		var from *ast.UnaryExpr
		tok := token.ASSIGN
		switch comm := clause.Comm.(type) {
		case *ast.SendStmt:
			values = append(values, "rdrecord_.To("+s.shown(comm.Chan)+").Value("+s.shown(comm.Value)+")")
		case *ast.ExprStmt:
			from = received(comm.X)
		case *ast.AssignStmt:
			from, left, tok = received(comm.Rhs[0]), comm.Lhs, comm.Tok
		}
		if from != nil {
			values = append(values, "rdrecord_.From("+s.shown(from.X)+")")
		}
		if len(left) > 0 {
			lefts, fields := []string{}, []string{name + ".V", name + ".OK"}
			for _, one := range left {
				lefts = append(lefts, s.shown(one))
			}
			text += " " + strings.Join(lefts, ", ") + " " + tok.String() + " " + strings.Join(fields[:len(left)], ", ") + ";"
		}
		changes = append(changes, change{clause, text})
		names = append(names, name)
		number++
	}
	head := "switch "
	if number > 0 {
		head += strings.Join(names, ", ") + " := " + strings.Join(values, ", ") + "; "
	}
	head += choose + strings.Join(names, ", ") + ") {"
	if strings.Contains(head, "\n") {
		at := s.fset.Position(n.Body.Lbrace)
		head += fmt.Sprintf(" /*line %s:%d:%d*/", at.Filename, at.Line, at.Column+1)
	}
	for _, c := range changes {
		s.replaced(c.clause.Pos(), c.clause.Colon+1, c.text)
	}
	s.replaced(n.Select, n.Body.Lbrace+1, head)
	if choose == "rdrecord_.Select(" {
		s.before(n.Body.Rbrace, "; default: panic(\"no case\") ")
	}
}

// bare is an expression without the brackets around it.
func bare(e ast.Expr) ast.Expr {
	for {
		in, is := e.(*ast.ParenExpr)
		if !is {
			return e
		}
		e = in.X
	}
}
