package etcd

import (
	"fmt"
	"math/bits"
	"math/rand"
	"strings"
	"testing"

	"go.etcd.io/etcd/raft/quorum"
	pb "go.etcd.io/etcd/raft/raftpb"
)

// TestNumbers compares the numbers of each step with etcd's quorums, by trying each set of voters, and with clusters
// in which the ids of --down are cut off.
func TestNumbers(t *testing.T) {
	chance := rand.New(rand.NewSource(2))
	stalled, committed := 0, 0
	for _, strategy := range strategies {
		for i := 0; i < 100; i++ {
			p := pair(chance, strategy)
			var down []uint64
			for len(down) == 0 {
				down = some(chance, append(members(p.now), members(p.target)...), 3)
			}
			status := askPlans(t, strategy, []*plan{p}, "--down", list(down))
			t.Run(fmt.Sprint(strategy, " ", i), func(t *testing.T) {
				stalls := !commits(t, p.now, down)
				for _, line := range p.lines {
					late := append(append([]uint64(nil), down...), line.CatchingUp...)
					does := commits(t, line.ConfState, late)
					stalls = stalls || !does
					compareNumbers(t, line, down)
					if len(without(down, line.Down)) != 0 || len(without(line.Down, down)) != 0 || !ascend(line.Down) {
						t.Errorf("%v are down, and the line has %v", down, line.Down)
					}
					if (line.MayBeDownBesides != nil) != does {
						t.Errorf("without %v this commits: %v\n%s", late, does, describe(line.ConfState))
					}
				}
				if stalls {
					stalled++
				} else {
					committed++
				}
				if (status == 1) != stalls || p.stalls != stalls {
					t.Errorf("status %d, stalls: %v, without %v for\n%s", status, p.stalls, down, describe(p.now, p.target))
				}
			})
		}
	}
	t.Run("both occur", func(t *testing.T) {
		if stalled < 20 || committed < 20 {
			t.Errorf("%d plans stall, and %d do not", stalled, committed)
		}
	})
}

// list writes ids with commas between them.
func list(ids []uint64) string {
	return strings.Trim(strings.ReplaceAll(fmt.Sprint(ids), " ", ","), "[]")
}

// compareNumbers compares how many may be down, at all, until those that have to catch up have done so, and besides
// those that are down, with what trying each set of voters gives.
func compareNumbers(t *testing.T, line planLine, down []uint64) {
	for _, number := range []struct {
		name  string
		value *int
		down  []uint64
	}{
		{"may_be_down", &line.MayBeDown, nil},
		{"until_then", line.WhileCatchingUp, line.CatchingUp},
		{"may_be_down_besides", line.MayBeDownBesides, append(append([]uint64(nil), down...), line.CatchingUp...)},
	} {
		value := -1
		if number.value != nil {
			value = *number.value
		}
		if k := mayBeDown(line.ConfState, number.down); k != value {
			t.Errorf("%s is %d instead of %d without %v in\n%s", number.name, value, k, number.down, describe(line.ConfState))
		}
	}
}

// voters returns a configuration's pair of voter sets, as etcd counts them.
func voters(state pb.ConfState) quorum.JointConfig {
	pair := quorum.JointConfig{quorum.MajorityConfig{}, quorum.MajorityConfig{}}
	for _, id := range state.Voters {
		pair[0][id] = struct{}{}
	}
	for _, id := range state.VotersOutgoing {
		pair[1][id] = struct{}{}
	}
	return pair
}

// mayBeDown returns the greatest k such that, whichever k voters are down beside these, the others
// win a vote; -1 if they do not even with none down.
func mayBeDown(state pb.ConfState, down []uint64) int {
	pair := voters(state)
	ids := pair.IDs()
	var all []uint64
	for id := range ids {
		all = append(all, id)
	}
	least := len(all) + 1 // of a set that, if it is down, leaves no quorum
	for set := uint(0); set < 1<<len(all); set++ {
		yes := map[uint64]bool{}
		for i, id := range all {
			yes[id] = set&(1<<i) == 0 && !holds(down, id)
		}
		if pair.VoteResult(yes) != quorum.VoteWon && bits.OnesCount(set) < least {
			least = bits.OnesCount(set)
		}
	}
	return least - 1
}

// commits says whether a cluster with this configuration commits an entry once some members are cut off.
func commits(t *testing.T, state pb.ConfState, down []uint64) bool {
	for _, id := range append(append([]uint64(nil), state.Voters...), state.VotersOutgoing...) {
		if !holds(down, id) {
			return commitsUnder(t, state, id, down)
		}
	}
	return false // no voter is left to lead
}

// commitsUnder makes a member leader, cuts the others off, and proposes an entry.
func commitsUnder(t *testing.T, state pb.ConfState, leader uint64, down []uint64) bool {
	state.AutoLeave = false // else etcd leaves the configuration at once
	c := newCluster(t, state, leader)
	for _, id := range down {
		delete(c.members, id)
	}
	if err := c.leading().raw.Propose([]byte("entry")); err != nil {
		t.Fatal(err)
	}
	c.wait()
	last, _ := c.leading().storage.LastIndex()
	return c.leading().applied == last
}

// ascend reports whether each number is greater than the one before it.
func ascend(numbers []uint64) bool {
	for i := 1; i < len(numbers); i++ {
		if numbers[i-1] >= numbers[i] {
			return false
		}
	}
	return true
}
