// Overlay writes the files with which etcd's raft decides by confscript, and the list of them for go's flag -overlay.
//
//	overlay DECISIONS_FOLDER OUT_FOLDER {RAFT_IMPORT_PATH RAFT_FOLDER}..
//
// Each file DECISIONS_FOLDER/PACKAGE.go belongs to the package of that name below each raft folder. The files of the
// package are copied to a folder in OUT_FOLDER without the functions that the decisions define, and without the private
// functions that nothing calls any more. The decisions are added at the end of the file that lost most, since `go vet` does
// not see files that only the overlay has. The list is OUT_FOLDER/overlay.json.
package main

import (
	"encoding/json"
	"fmt"
	"os"
	"path/filepath"
	"sort"
	"strings"
)

func main() {
	if len(os.Args) < 5 || len(os.Args)%2 == 0 {
		fail(fmt.Errorf("wrong usage: overlay DECISIONS_FOLDER OUT_FOLDER {RAFT_IMPORT_PATH RAFT_FOLDER}.."))
	}
	decisions, out := os.Args[1], os.Args[2]
	sources, err := filepath.Glob(filepath.Join(decisions, "*.go"))
	if err != nil {
		fail(err)
	}
	replaced := map[string]string{}
	for rafts := os.Args[3:]; len(rafts) > 0; rafts = rafts[2:] {
		importPath, raft := rafts[0], rafts[1]
		for _, source := range sources {
			if err := replace(raft, importPath, source, filepath.Join(out, importPath), replaced); err != nil {
				fail(err)
			}
		}
	}
	list, err := json.MarshalIndent(map[string]map[string]string{"Replace": replaced}, "", "\t")
	if err != nil {
		fail(err)
	}
	if err := write(filepath.Join(out, "overlay.json"), append(list, '\n')); err != nil {
		fail(err)
	}
}

// replace writes the files of one package that the decisions of a file change, and notes them in `replaced`.
func replace(raft, importPath, decisions, out string, replaced map[string]string) error {
	name := strings.TrimSuffix(filepath.Base(decisions), ".go")
	etcd, err := readPackage(filepath.Join(raft, name))
	if err != nil {
		return err
	}
	added, err := readDecisions(decisions, importPath)
	if err != nil {
		return err
	}
	if err := etcd.drop(added); err != nil {
		return err
	}
	etcd.add(added)
	for _, file := range etcd.changed() {
		path := filepath.Join(out, name, filepath.Base(file.path))
		text, err := file.text()
		if err != nil {
			return err
		}
		if err := write(path, text); err != nil {
			return err
		}
		replaced[file.path] = path
	}
	return nil
}

// write writes a file, unless it has this text already, so that go need not build it again. Another run that reads the
// file meanwhile reads the former text or the new one.
func write(path string, text []byte) error {
	if former, err := os.ReadFile(path); err == nil && string(former) == string(text) {
		return nil
	}
	if err := os.MkdirAll(filepath.Dir(path), 0o777); err != nil {
		return err
	}
	part, err := os.CreateTemp(filepath.Dir(path), "part")
	if err != nil {
		return err
	}
	if _, err := part.Write(text); err != nil {
		return err
	}
	if err := part.Close(); err != nil {
		return err
	}
	return os.Rename(part.Name(), path)
}

// sorted returns the keys of a set in ascending order.
func sorted(names map[string]bool) []string {
	all := make([]string, 0, len(names))
	for name := range names {
		all = append(all, name)
	}
	sort.Strings(all)
	return all
}

func fail(err error) {
	fmt.Fprintln(os.Stderr, "overlay:", err)
	os.Exit(1)
}
