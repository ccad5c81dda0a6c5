package main

import (
	"bytes"
	"fmt"
	"go/ast"
	"go/format"
	"go/parser"
	"go/token"
	"os"
	"path"
	"path/filepath"
	"regexp"
	"strings"
)

// A source is a file of Go, and what is to become of it.
type source struct {
	path    string
	content []byte
	set     *token.FileSet
	tree    *ast.File
	// The functions that are left out.
	dropped map[*ast.FuncDecl]bool
	// The file whose declarations are added at the end.
	added *source
}

func readSource(path string) (*source, error) {
	content, err := os.ReadFile(path)
	if err != nil {
		return nil, err
	}
	return parseSource(path, content)
}

func parseSource(path string, content []byte) (*source, error) {
	set := token.NewFileSet()
	tree, err := parser.ParseFile(set, path, content, parser.ParseComments)
	if err != nil {
		return nil, err
	}
	return &source{path: path, content: content, set: set, tree: tree, dropped: map[*ast.FuncDecl]bool{}}, nil
}

// readDecisions reads a file of decisions. It imports etcd's packages by their path in 3.4; `importPath` is the path of
// the raft that is there.
func readDecisions(path, importPath string) (*source, error) {
	content, err := os.ReadFile(path)
	if err != nil {
		return nil, err
	}
	content = bytes.ReplaceAll(content, []byte(`"go.etcd.io/etcd/raft/`), []byte(`"`+importPath+`/`))
	return parseSource(path, content)
}

// functions returns the functions and methods of the file that are not left out.
func (s *source) functions() []*ast.FuncDecl {
	var all []*ast.FuncDecl
	for _, declaration := range s.tree.Decls {
		if function, ok := declaration.(*ast.FuncDecl); ok && !s.dropped[function] {
			all = append(all, function)
		}
	}
	return all
}

// uses notes the names that the file uses outside of a function: those behind a dot in `selected`, as methods are, and
// the others in `plain`, as functions and packages are.
func (s *source) uses(outside *ast.FuncDecl, plain, selected map[string]bool) {
	for _, declaration := range s.tree.Decls {
		if function, ok := declaration.(*ast.FuncDecl); ok && (function == outside || s.dropped[function]) {
			continue
		}
		ast.Inspect(declaration, func(node ast.Node) bool {
			switch node := node.(type) {
			case *ast.FuncDecl:
				noteUses(node.Recv, plain, selected)
				noteUses(node.Type, plain, selected)
				if node.Body != nil {
					noteUses(node.Body, plain, selected)
				}
				return false
			case *ast.ImportSpec:
				return false
			case ast.Expr:
				noteUses(node, plain, selected)
				return false
			}
			return true
		})
	}
}

func noteUses(tree ast.Node, plain, selected map[string]bool) {
	if fields, ok := tree.(*ast.FieldList); ok && fields == nil {
		return
	}
	ast.Inspect(tree, func(node ast.Node) bool {
		switch node := node.(type) {
		case *ast.SelectorExpr:
			selected[node.Sel.Name] = true
			noteUses(node.X, plain, selected)
			return false
		case *ast.Ident:
			plain[node.Name] = true
		}
		return true
	})
}

// text returns the file without what is left out and with what is added.
func (s *source) text() ([]byte, error) {
	var out bytes.Buffer
	out.Write(s.content[:s.offset(s.tree.Name.End())])
	out.WriteString("\n")
	plain, selected := map[string]bool{}, map[string]bool{}
	s.uses(nil, plain, selected)
	files := []*source{s}
	if s.added != nil {
		s.added.uses(nil, plain, selected)
		files = append(files, s.added)
	}
	// Imports that are unused now are kept as blank ones, since `go vet` reads etcd's file with the imports of this one.
	imports, unused := map[string]bool{}, map[string]bool{}
	for _, file := range files {
		for _, spec := range file.tree.Imports {
			if plain[importName(spec)] {
				imports[string(file.content[file.offset(spec.Pos()):file.offset(spec.End())])] = true
			} else if file == s {
				unused["_ "+spec.Path.Value] = true
			}
		}
	}
	if all := append(sorted(imports), sorted(unused)...); len(all) > 0 {
		fmt.Fprintf(&out, "\nimport (\n\t%s\n)\n", strings.Join(all, "\n\t"))
	}
	for _, file := range files {
		out.Write(file.body())
	}
	return format.Source(out.Bytes())
}

// body returns what follows the package clause, without imports and without what is left out.
func (s *source) body() []byte {
	var out bytes.Buffer
	from := s.offset(s.tree.Name.End())
	for _, declaration := range s.tree.Decls {
		start, leave := declaration.Pos(), false
		switch declaration := declaration.(type) {
		case *ast.GenDecl:
			leave = declaration.Tok == token.IMPORT
		case *ast.FuncDecl:
			leave = s.dropped[declaration]
			if declaration.Doc != nil {
				start = declaration.Doc.Pos()
			}
		}
		if leave {
			out.Write(s.content[from:s.offset(start)])
			from = s.offset(declaration.End())
		}
	}
	out.Write(s.content[from:])
	return out.Bytes()
}

func (s *source) offset(position token.Pos) int {
	return s.set.Position(position).Offset
}

var majorVersion = regexp.MustCompile(`^v[0-9]+$`)

// importName returns the name by which a file uses an import.
func importName(spec *ast.ImportSpec) string {
	if spec.Name != nil {
		return spec.Name.Name
	}
	imported := strings.Trim(spec.Path.Value, `"`)
	if majorVersion.MatchString(path.Base(imported)) {
		imported = path.Dir(imported)
	}
	return path.Base(imported)
}

// goFiles returns the paths of the files of Go in a folder.
func goFiles(folder string) ([]string, error) {
	paths, err := filepath.Glob(filepath.Join(folder, "*.go"))
	if err == nil && len(paths) == 0 {
		err = fmt.Errorf("%s: no files of Go", folder)
	}
	return paths, err
}
