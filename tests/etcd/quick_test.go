package etcd

import (
	"fmt"
	"math/rand"
	"regexp"
	"sort"
	"strings"
	"testing"

	"github.com/cockroachdb/datadriven"
	"go.etcd.io/etcd/raft"
	pb "go.etcd.io/etcd/raft/raftpb"
)

// quickCases is how many random cases etcd's quick checks of confchange try.
const quickCases = 1000

// empty makes the configuration empty again.
const empty = "restore\nVoters:[] VotersOutgoing:[] Learners:[] LearnersNext:[] AutoLeave:false\n----\n\n"

// TestSimpleAgainstJoint is etcd's TestConfChangeQuick, asked of confscript: changes that are made one by one and
// changes that are made at once, through a joint configuration with auto-leave or without, lead to the same
// configuration and members. (etcd's members are all fresh, with the same next, so what is kept of match and next is
// not compared.)
func TestSimpleAgainstJoint(t *testing.T) {
	chance := rand.New(rand.NewSource(2))
	var script strings.Builder
	for i := 0; i < quickCases; i++ {
		// The voter 1 is never touched, so that there is always one.
		setup := append([]pb.ConfChangeSingle{{NodeID: 1}}, changeList(chance, []uint64{1, 2, 3, 4, 5}, 1+chance.Intn(5))...)
		for j := range setup {
			setup[j].Type = pb.ConfChangeAddNode
		}
		changes := changeList(chance, []uint64{2, 3, 4, 5, 6, 7, 8, 9, 10}, 1+chance.Intn(9))
		script.WriteString(empty + oneByOne(setup) + oneByOne(changes))
		for _, autoLeave := range []bool{false, true} {
			enter := step{"enter-joint", autoLeave, changes}
			script.WriteString(empty + oneByOne(setup) + enter.directive() + step{command: "leave-joint"}.directive())
		}
	}
	script.WriteString(empty)
	lasts := beforeEmpty(t, rewrite(t, script.String()))
	if len(lasts) != 3*quickCases {
		t.Fatalf("%d cases", len(lasts))
	}
	t.Run("same outcome", func(t *testing.T) {
		for i := 0; i < len(lasts); i += 3 {
			if lasts[i] != lasts[i+1] || lasts[i] != lasts[i+2] {
				t.Fatalf("case %d\n%s", i/3, strings.Join(lasts[i:i+3], "\n"))
			}
		}
	})
}

// oneByOne writes a simple change for each change.
func oneByOne(changes []pb.ConfChangeSingle) string {
	var text strings.Builder
	for _, change := range changes {
		text.WriteString(step{command: "simple", changes: []pb.ConfChangeSingle{change}}.directive())
	}
	return text.String()
}

var known = regexp.MustCompile(`match=\d+ next=\d+`)

// beforeEmpty returns the outputs before each directive that makes the configuration empty, except the first. No
// change may be refused.
func beforeEmpty(t *testing.T, rewritten string) []string {
	var lasts []string
	last := ""
	datadriven.RunTestFromString(t, rewritten, func(t *testing.T, d *datadriven.TestData) string {
		if !strings.HasPrefix(d.Expected, "voters=") {
			t.Fatalf("%s: %s", d.Pos, d.Expected)
		}
		if d.Cmd == "restore" && last != "" {
			lasts = append(lasts, last)
		}
		last = known.ReplaceAllString(d.Expected, "")
		return d.Expected
	})
	return lasts
}

// TestRestore is etcd's test of the same name, asked of confscript: a ConfState that is restored is saved as it was,
// its lists in ascending order.
func TestRestore(t *testing.T) {
	states := []pb.ConfState{
		{},
		{Voters: []uint64{1, 2, 3}},
		{Voters: []uint64{1, 2, 3}, Learners: []uint64{4, 5, 6}},
		{Voters: []uint64{1, 2, 3}, Learners: []uint64{5}, VotersOutgoing: []uint64{1, 2, 4, 6}, LearnersNext: []uint64{4}},
	}
	chance := rand.New(rand.NewSource(3))
	for len(states) < 4+quickCases {
		states = append(states, configuration(chance, pool(chance, 2+chance.Intn(20), chance.Intn(2) == 0)))
	}
	var script strings.Builder
	for _, state := range states {
		fmt.Fprintf(&script, "restore\n%s\n----\n\nconf-state\n----\n\n", raft.DescribeConfState(state))
	}
	var saved []string
	datadriven.RunTestFromString(t, rewrite(t, script.String()), func(t *testing.T, d *datadriven.TestData) string {
		if d.Cmd == "conf-state" {
			saved = append(saved, d.Expected)
		}
		return d.Expected
	})
	t.Run("same ConfState", func(t *testing.T) {
		for i, state := range states {
			for _, ids := range [][]uint64{state.Voters, state.VotersOutgoing, state.Learners, state.LearnersNext} {
				sort.Slice(ids, func(a, b int) bool { return ids[a] < ids[b] })
			}
			if saved[i] != raft.DescribeConfState(state)+"\n" {
				t.Fatalf("restored %s\nsaved %s", raft.DescribeConfState(state), saved[i])
			}
		}
	})
}
