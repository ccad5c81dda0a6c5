package etcd

import (
	"bufio"
	"flag"
	"fmt"
	"os"
	"path/filepath"
	"strings"
	"testing"

	"github.com/cockroachdb/datadriven"
)

const (
	scripts    = 100
	directives = 500 // of each script
)

// TestScripts rewrites generated scripts by confscript, and what comes out by datadriven with etcd's answers. Both
// texts have to be the same.
func TestScripts(t *testing.T) {
	seen := map[string]int{}
	for seed := int64(0); seed < scripts; seed++ {
		t.Run(fmt.Sprint("seed ", seed), func(t *testing.T) {
			found := rewrite(t, script(seed, directives))
			expected, answered := rewriteByEtcd(t, found, seen)
			if answered != directives {
				t.Errorf("%d directives were answered", answered)
			}
			if found != expected {
				t.Error(difference(found, expected))
			}
		})
	}
	t.Run("each answer occurs", func(t *testing.T) {
		for _, answer := range answers {
			if seen[answer] < 20 {
				t.Errorf("%q occurs %d times", answer, seen[answer])
			}
		}
	})
}

// answers have to occur, each at least 20 times: the texts of refusals, and the commands that were carried out.
var answers = []string{
	"simple", "enter-joint", "leave-joint", "conf-change", "conf-state", "restore", "undo", "ack", "commit-index",
	"committed", "vote",
	"can't apply simple config change in joint config", "removed all voters",
	"more than one voter changed without entering joint config", "config is already joint",
	"can't make a zero-voter config joint", "can't leave a non-joint config", "this command takes no input",
	"unknown command", "not a configuration", "not a member", "wrong number of values",
	"no plan: 0 earlier configurations are kept",
}

// rewriteByEtcd returns the script as datadriven writes it with etcd's answers, and how many directives it has. It
// counts in seen what was answered.
func rewriteByEtcd(t *testing.T, script string, seen map[string]int) (string, int) {
	t.Helper()
	path := filepath.Join(t.TempDir(), "script")
	if err := os.WriteFile(path, []byte(script), 0o600); err != nil {
		t.Fatal(err)
	}
	flag.Set("rewrite", "true")
	defer flag.Set("rewrite", "false")
	answered := 0
	session := newSession()
	datadriven.RunTest(t, path, func(t *testing.T, d *datadriven.TestData) string {
		answered++
		answer := session.answer(t, d)
		if line := strings.TrimSpace(answer); holdsText(answers, line) {
			seen[line]++
		} else {
			seen[d.Cmd]++
		}
		return answer
	})
	rewritten, err := os.ReadFile(path)
	if err != nil {
		t.Fatal(err)
	}
	return string(rewritten), answered
}

func holdsText(texts []string, text string) bool {
	for _, other := range texts {
		if other == text {
			return true
		}
	}
	return false
}

// difference shows the first line in which two texts differ, with the lines before it.
func difference(found, expected string) string {
	a, b := bufio.NewScanner(strings.NewReader(found)), bufio.NewScanner(strings.NewReader(expected))
	var before []string
	for number := 1; ; number++ {
		more, moreExpected := a.Scan(), b.Scan()
		if !more && !moreExpected || a.Text() != b.Text() {
			if len(before) > 20 {
				before = before[len(before)-20:]
			}
			lines := append(before, "confscript: "+a.Text(), "etcd:       "+b.Text())
			return fmt.Sprintf("line %d\n%s", number, strings.Join(lines, "\n"))
		}
		before = append(before, a.Text())
	}
}
