package main

import (
	"fmt"
	"go/ast"
	"go/token"
	"go/types"
	"os"
	"sort"
	"strconv"
	"strings"
)

// wanted is a line of the file of objects.
type wanted struct {
	kind    string
	methods map[string]string
	line    string
	met     bool
}

// readObjects reads the file of objects: KIND WHAT [METHOD=NAME ..].
func (w *rewriting) readObjects(path string) {
	w.objects = map[string]*wanted{}
	if path == "" {
		return
	}
	text, err := os.ReadFile(path)
	if err != nil {
		fail(err)
	}
	for number, line := range strings.Split(string(text), "\n") {
		words := strings.Fields(strings.SplitN(line, "#", 2)[0])
		if len(words) == 0 {
			continue
		}
		if len(words) < 2 {
			fail(fmt.Sprintf("%s:%d: no line KIND WHAT [METHOD=NAME ..]", path, number+1))
		}
		one := &wanted{kind: words[0], methods: map[string]string{}, line: fmt.Sprintf("%s:%d: %s", path, number+1, strings.Join(words, " "))}
		for _, word := range words[2:] {
			method, name, both := strings.Cut(word, "=")
			if !both {
				fail(one.line + ": no METHOD=NAME: " + word)
			}
			one.methods[method] = name
		}
		if len(one.methods) == 0 && one.kind != "register" && one.kind != "dictionary" {
			fail(one.line + ": a variable is a register or a dictionary")
		}
		one.met = words[1] == "sync.Map"
		w.objects[words[1]] = one
	}
}

// tellUnused tells of lines that fit nothing.
func (w *rewriting) tellUnused() {
	lines := []string{}
	for _, one := range w.objects {
		if !one.met {
			lines = append(lines, one.line)
		}
	}
	sort.Strings(lines)
	for _, line := range lines {
		fmt.Fprintln(os.Stderr, "rdrecord-go: nothing that is recorded is meant by", line)
	}
}

// want is the line for a name of a package, if there is one: the package by its path or by its name.
func (w *rewriting) want(of *types.Package, name string) *wanted {
	if of == nil {
		return nil
	}
	for _, what := range []string{strings.TrimSuffix(of.Path(), "_test") + "." + name, of.Path() + "." + name, of.Name() + "." + name} {
		if one := w.objects[what]; one != nil {
			one.met = true
			return one
		}
	}
	return nil
}

// meant is what the file of objects says of a variable, and its name.
func (s *source) meant(e ast.Expr) (*wanted, string) {
	if len(s.w.objects) == 0 {
		return nil, ""
	}
	switch e := e.(type) {
	case *ast.Ident:
		v, is := s.info.Uses[e].(*types.Var)
		if !is || v.Pkg() == nil || v.IsField() {
			return nil, ""
		}
		name := v.Name()
		if v.Parent() != v.Pkg().Scope() { // of a function
			name = s.within() + "." + name
		}
		return s.w.want(v.Pkg(), name), name
	case *ast.SelectorExpr:
		selection := s.info.Selections[e]
		if selection == nil {
			return s.meant(e.Sel)
		}
		if selection.Kind() == types.FieldVal {
			if owner := ownerOf(selection); owner != nil && owner.Obj().Pkg() != nil {
				name := owner.Obj().Name() + "." + e.Sel.Name
				return s.w.want(owner.Obj().Pkg(), name), name
			}
		}
	}
	return nil, ""
}

// ownerOf is the type that declares the field which is selected.
func ownerOf(selection *types.Selection) *types.Named {
	t := selection.Recv()
	for i := range selection.Index() {
		if pointer, is := t.Underlying().(*types.Pointer); is {
			t = pointer.Elem()
		}
		if i == len(selection.Index())-1 {
			named, _ := t.(*types.Named)
			return named
		}
		t = t.Underlying().(*types.Struct).Field(selection.Index()[i]).Type()
	}
	return nil
}

func (s *source) note(n ast.Node, why string) {
	at := s.fset.Position(n.Pos())
	fmt.Fprintf(os.Stderr, "rdrecord-go: %s:%d: not recorded: %s\n", at.Filename, at.Line, why)
}

// variable rewrites a use of a variable that is recorded.
func (s *source) variable(e ast.Expr) {
	if selector, is := s.parent(1).(*ast.SelectorExpr); is && selector.Sel == e {
		return // the whole is looked at
	}
	one, name := s.meant(e)
	if one == nil || len(one.methods) > 0 {
		return
	}
	if one.kind == "dictionary" {
		s.dictionary(e, strconv.Quote(name))
		return
	}
	if !s.info.Types[e].Addressable() {
		s.note(e, "a copy of "+name)
		return
	}
	s.register(e, strconv.Quote(name))
}

// part says whether e is the base of what its parents change or take the address of, as in e.x = 1, &e.x or e.Method().
func (s *source) part(e ast.Expr) bool {
	var inner ast.Node = e
	for up := 1; ; up++ {
		outer := s.parent(up)
		_, pointer := s.typeOf(inner.(ast.Expr)).Underlying().(*types.Pointer)
		switch n := outer.(type) {
		case *ast.ParenExpr:
		case *ast.SelectorExpr:
			if selection := s.info.Selections[n]; selection != nil && selection.Kind() == types.MethodVal {
				_, takes := selection.Obj().(*types.Func).Type().(*types.Signature).Recv().Type().(*types.Pointer)
				return takes && !pointer && !types.IsInterface(s.typeOf(inner.(ast.Expr)))
			}
			if pointer {
				return false
			}
		case *ast.IndexExpr:
			if _, array := s.typeOf(inner.(ast.Expr)).Underlying().(*types.Array); !array || n.X != inner {
				return false
			}
		case *ast.SliceExpr:
			_, array := s.typeOf(inner.(ast.Expr)).Underlying().(*types.Array)
			return array && n.X == inner
		case *ast.UnaryExpr:
			return n.Op == token.AND
		case *ast.AssignStmt:
			for _, left := range n.Lhs {
				if left == inner && inner != e {
					return true
				}
			}
			return false
		case *ast.IncDecStmt:
			return inner != e
		default:
			return false
		}
		inner = outer
	}
}

// stepOf is how a statement changes what it has on its left: an operator, and what stands behind it.
func stepOf(n ast.Node) (operator string, right ast.Expr) {
	switch n := n.(type) {
	case *ast.IncDecStmt:
		return n.Tok.String()[:1], nil
	case *ast.AssignStmt:
		return strings.TrimSuffix(n.Tok.String(), "="), n.Rhs[0]
	}
	return "", nil
}

func (s *source) register(e ast.Expr, name string) {
	at := func() string { return "rdrecord_.At(&" + s.shown(e) + ", " + name + ")" }
	if s.part(e) {
		s.note(e, "a part or the address of "+name)
		return
	}
	statement := s.parent(1)
	assign, is := statement.(*ast.AssignStmt)
	_, counts := statement.(*ast.IncDecStmt)
	left := counts
	if is {
		for _, one := range assign.Lhs {
			left = left || one == e
		}
	}
	_, listed := s.parent(2).(*ast.BlockStmt)
	clause, inClause := s.parent(2).(*ast.CaseClause)
	listed = listed || inClause && clause != nil
	switch {
	case !left:
		if r, is := statement.(*ast.RangeStmt); is && (r.Key == e || r.Value == e) {
			s.note(e, "assigned by a range: "+name)
			return
		}
		s.before(e.Pos(), "rdrecord_.At(&")
		s.after(e.End(), ", "+name+").Get()")
	case counts || assign.Tok != token.ASSIGN:
		if impure(e) {
			s.note(e, "changed where its place is the result of a call: "+name)
			return
		}
		s.jobs = append(s.jobs, func() {
			operator, right := stepOf(statement)
			amount := "1"
			if right != nil {
				amount = "(" + s.shown(right) + ")"
			}
			s.replaced(statement.Pos(), statement.End(), at()+".Set("+at()+".Get() "+operator+" "+amount+")")
		})
	case len(assign.Lhs) == 1:
		s.before(e.Pos(), "rdrecord_.At(&")
		s.instead(e.End(), assign.Rhs[0].Pos(), ", "+name+").Set(")
		s.after(assign.Rhs[0].End(), ")")
	case listed && !impure(e):
		s.jobs = append(s.jobs, func() { s.after(statement.End(), "; "+at()+".Wrote()") })
	default:
		s.note(e, "assigned with others: "+name)
	}
}

func (s *source) dictionary(e ast.Expr, name string) {
	open := "rdrecord_.In("
	if held, is := s.typeOf(e).Underlying().(*types.Map); !is {
		s.note(e, "no map, and so no dictionary: "+name)
		return
	} else if keys, is := held.Key().Underlying().(*types.Interface); is {
		if open = "rdrecord_.InAny("; !keys.Empty() {
			s.note(e, "a map by keys of an interface: "+name)
			return
		}
	}
	if call, is := s.parent(1).(*ast.CallExpr); is && len(call.Args) > 0 && call.Args[0] == e {
		switch s.builtin(call) {
		case "delete":
			s.instead(call.Pos(), e.Pos(), open)
			s.instead(e.End(), call.Args[1].Pos(), ", "+name+").Delete(")
			return
		case "len":
			s.instead(call.Pos(), e.Pos(), open)
			s.instead(e.End(), call.End(), ", "+name+").Len()")
			return
		}
	}
	if r, is := s.parent(1).(*ast.RangeStmt); is && r.X == e {
		base := string(s.text[s.offset(e.Pos()):s.offset(e.End())])
		if impure(e) {
			s.note(e, "a range over the result of a call: "+name)
			return
		}
		s.before(e.Pos(), "rdrecord_.Sized("+open+base+", "+name+"), ")
		s.after(e.End(), ")")
		key, is := r.Key.(*ast.Ident)
		if !is || r.Tok != token.DEFINE {
			return
		}
		met := key.Name
		if met == "_" {
			met = s.fresh()
			s.instead(key.Pos(), key.End(), met)
		}
		s.after(r.Body.Lbrace+1, " "+open+base+", "+name+").Met("+met+"); ")
		return
	}
	index, is := s.parent(1).(*ast.IndexExpr)
	if !is || index.X != e {
		return // a map as a whole
	}
	in := func() string { return open + s.shown(e) + ", " + name + ")" }
	statement := s.parent(2)
	assign, is := statement.(*ast.AssignStmt)
	_, counts := statement.(*ast.IncDecStmt)
	left := counts
	if is {
		for _, one := range assign.Lhs {
			left = left || one == index
		}
	}
	switch {
	case !left:
		get := "Get("
		if _, two := s.typeOf(index).(*types.Tuple); two {
			get = "Get2("
		}
		s.before(e.Pos(), open)
		s.instead(e.End(), index.Index.Pos(), ", "+name+")."+get)
		s.instead(index.Index.End(), index.End(), ")")
	case counts || assign.Tok != token.ASSIGN:
		if impure(e) || impure(index.Index) {
			s.note(e, "changed where its place is the result of a call: "+name)
			return
		}
		s.jobs = append(s.jobs, func() {
			operator, right := stepOf(statement)
			amount := "1"
			if right != nil {
				amount = "(" + s.shown(right) + ")"
			}
			key := s.shown(index.Index)
			s.replaced(statement.Pos(), statement.End(), in()+".Put("+key+", "+in()+".Get("+key+") "+operator+" "+amount+")")
		})
	case len(assign.Lhs) == 1:
		s.before(e.Pos(), open)
		s.instead(e.End(), index.Index.Pos(), ", "+name+").Put(")
		s.instead(index.Index.End(), assign.Rhs[0].Pos(), ", ")
		s.after(assign.Rhs[0].End(), ")")
	default:
		s.note(e, "assigned with others: "+name)
	}
}

// method gives a method that is recorded another name, and writes one around it.
func (s *source) method(n *ast.FuncDecl) {
	if n.Recv == nil || len(n.Recv.List) != 1 {
		return
	}
	function, is := s.info.Defs[n.Name].(*types.Func)
	if !is {
		return
	}
	receiver := function.Type().(*types.Signature).Recv().Type()
	pointer, is := receiver.(*types.Pointer)
	if !is {
		return
	}
	named, is := pointer.Elem().(*types.Named)
	if !is || len(s.w.objects) == 0 {
		return
	}
	one := s.w.want(named.Obj().Pkg(), named.Obj().Name())
	if one == nil || one.methods[n.Name.Name] == "" {
		return
	}
	source := func(e ast.Node) string { return string(s.text[s.offset(e.Pos()):s.offset(e.End())]) }
	parameters, passed, values, results := []string{}, []string{}, []string{}, []string{}
	for _, field := range n.Type.Params.List {
		for i := 0; i < len(field.Names) || i == 0; i++ {
			name := s.fresh()
			parameters = append(parameters, name+" "+source(field.Type))
			values = append(values, name)
			if _, many := field.Type.(*ast.Ellipsis); many {
				name += "..."
			}
			passed = append(passed, name)
		}
	}
	resultTypes := []string{}
	if n.Type.Results != nil {
		for _, field := range n.Type.Results.List {
			for i := 0; i < len(field.Names) || i == 0; i++ {
				resultTypes = append(resultTypes, source(field.Type))
				results = append(results, s.fresh())
			}
		}
	}
	entered := append([]string{"rd_o", strconv.Quote(one.kind), strconv.Quote(named.Obj().Name()), strconv.Quote(one.methods[n.Name.Name])}, values...)
	call := "rd_o.rd_" + n.Name.Name + "(" + strings.Join(passed, ", ") + ")"
	give := strings.Join(results, ", ")
	text := fmt.Sprintf("//line %s/wrapper.go:1\nfunc (rd_o %s) %s(%s) (%s) { rd_m := rdrecord_.Enter(%s); defer rd_m.End(); ", s.w.place, source(n.Recv.List[0].Type), n.Name.Name,
		strings.Join(parameters, ", "), strings.Join(resultTypes, ", "), strings.Join(entered, ", "))
	if give != "" {
		text += give + " := "
	}
	s.tail += text + call + "; rd_m.Leave(" + give + "); return " + give + " }\n"
	s.instead(n.Name.Pos(), n.Name.End(), "rd_"+n.Name.Name)
}
