package etcd

import (
	"go/build"
	"os"
	"path/filepath"
	"regexp"
	"testing"
)

// TestFiles checks and rewrites the script files of etcd's own tests of confchange and quorum.
func TestFiles(t *testing.T) {
	found := 0
	for _, name := range []string{"confchange", "quorum"} {
		in, err := build.Import("go.etcd.io/etcd/raft/"+name, "", build.FindOnly)
		if err != nil {
			t.Fatal(err)
		}
		paths, err := filepath.Glob(filepath.Join(in.Dir, "testdata", "*.txt"))
		if err != nil {
			t.Fatal(err)
		}
		for _, path := range paths {
			found++
			t.Run(name+"/"+filepath.Base(path), func(t *testing.T) { checkFile(t, path) })
		}
	}
	t.Run("all are there", func(t *testing.T) {
		if found != 13 {
			t.Errorf("%d files", found)
		}
	})
}

var clean = regexp.MustCompile(`^[1-9]\d* directives, 0 mismatches\n$`)

func checkFile(t *testing.T, path string) {
	text, err := os.ReadFile(path)
	if err != nil {
		t.Fatal(err)
	}
	if report := confscript(t, string(text), "check", "--next-floor", "0"); !clean.MatchString(report) {
		t.Errorf("checked: %s", report)
	}
	if rewritten := rewrite(t, string(text)); rewritten != string(text) {
		t.Errorf("rewritten:\n%s", difference(rewritten, string(text)))
	}
}
