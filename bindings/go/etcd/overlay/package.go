package main

import (
	"fmt"
	"go/ast"
	"strings"
)

// A goPackage is a package of etcd: its files, and those of its tests.
type goPackage struct {
	folder string
	files  []*source
	tests  []*source
}

func readPackage(folder string) (*goPackage, error) {
	paths, err := goFiles(folder)
	if err != nil {
		return nil, err
	}
	read := &goPackage{folder: folder}
	for _, path := range paths {
		file, err := readSource(path)
		if err != nil {
			return nil, err
		}
		if strings.HasSuffix(path, "_test.go") {
			read.tests = append(read.tests, file)
		} else {
			read.files = append(read.files, file)
		}
	}
	return read, nil
}

// drop leaves out the functions that the decisions define, and then the private ones that nothing uses any more. It
// fails if the package lacks one of the former, since then it is not a raft that the decisions are written for.
func (p *goPackage) drop(decisions *source) error {
	for _, decided := range decisions.functions() {
		if ast.IsExported(decided.Name.Name) && !p.dropNamed(fullName(decided)) {
			return fmt.Errorf("%s has no function %s: this version of raft is not one that the decisions are written for", p.folder, fullName(decided))
		}
	}
	for p.dropUnused(decisions) {
	}
	return nil
}

// dropNamed leaves out the function of this name, and returns whether there is one.
func (p *goPackage) dropNamed(name string) bool {
	for _, file := range p.files {
		for _, function := range file.functions() {
			if fullName(function) == name {
				file.dropped[function] = true
				return true
			}
		}
	}
	return false
}

// dropUnused leaves out a private function that nothing uses, in a file that lost another one. It returns whether there
// is one.
func (p *goPackage) dropUnused(decisions *source) bool {
	for _, file := range p.files {
		if len(file.dropped) == 0 {
			continue
		}
		for _, function := range file.functions() {
			if !ast.IsExported(function.Name.Name) && !p.isUsed(function, decisions) {
				file.dropped[function] = true
				return true
			}
		}
	}
	return false
}

// isUsed returns whether another function of the package, a test of it or a decision uses the function.
func (p *goPackage) isUsed(function *ast.FuncDecl, decisions *source) bool {
	plain, selected := map[string]bool{}, map[string]bool{}
	for _, file := range append(append([]*source{decisions}, p.files...), p.tests...) {
		file.uses(function, plain, selected)
	}
	if function.Recv != nil {
		return selected[function.Name.Name]
	}
	return plain[function.Name.Name]
}

// add adds the decisions to the file that lost most functions.
func (p *goPackage) add(decisions *source) {
	most := p.files[0]
	for _, file := range p.files {
		if len(file.dropped) > len(most.dropped) {
			most = file
		}
	}
	most.added = decisions
}

// changed returns the files that lost a function or got the decisions.
func (p *goPackage) changed() []*source {
	var all []*source
	for _, file := range p.files {
		if len(file.dropped) > 0 || file.added != nil {
			all = append(all, file)
		}
	}
	return all
}

// fullName returns the name of a function, behind the type of its receiver if it is a method.
func fullName(function *ast.FuncDecl) string {
	if function.Recv == nil {
		return function.Name.Name
	}
	of := function.Recv.List[0].Type
	if pointer, ok := of.(*ast.StarExpr); ok {
		of = pointer.X
	}
	if named, ok := of.(*ast.Ident); ok {
		return named.Name + "." + function.Name.Name
	}
	return function.Name.Name
}
