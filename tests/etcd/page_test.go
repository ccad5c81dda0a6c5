package etcd

import (
	"io/ioutil"
	"strings"
	"testing"
)

// TestPage demands that docs/ETCD.md shows hasAppliedChanges as it is in rules.go.
func TestPage(t *testing.T) {
	t.Run("hasAppliedChanges", func(t *testing.T) {
		page, err := ioutil.ReadFile("../../docs/ETCD.md")
		if err != nil {
			t.Fatal(err)
		}
		source, err := ioutil.ReadFile("rules.go")
		if err != nil {
			t.Fatal(err)
		}
		function := string(source[strings.Index(string(source), "// hasAppliedChanges"):])
		if !strings.Contains(string(page), "```go\n"+function+"```\n") {
			t.Errorf("docs/ETCD.md does not show\n%s", function)
		}
	})
}
