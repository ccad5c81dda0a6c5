package hashicorp

import (
	"strings"
	"testing"

	"github.com/hashicorp/raft"
)

// TestCalls shows what docs/HASHICORP.md says of the calls.
func TestCalls(t *testing.T) {
	t.Run("AddNonvoter leaves a voter one, and DemoteVoter does not", demote)
	t.Run("AddVoter waits for no one", addVoter)
	t.Run("a change counts once it is appended", countsOnceAppended)
	t.Run("the leader removes itself", removeLeader)
	t.Run("refusals", refusals)
}

func (c *cluster) expect(wanted string) {
	c.t.Helper()
	if found := configurationOf(c.leading()).text(); found != wanted {
		c.t.Errorf("%s instead of %s", found, wanted)
	}
}

func demote(t *testing.T) {
	c := newCluster(t, configuration{Voters: []uint64{1, 2, 3}}, nil)
	defer c.stopAll()
	c.commit("an entry")
	c.must(c.leading().AddNonvoter("2", "2", 0, limit).Error())
	c.expect("voters=(1 2 3)")
	id := without([]uint64{1, 2, 3}, []uint64{c.leading().id})[0]
	c.must(c.leading().DemoteVoter(name(id), 0, limit).Error())
	c.expect("voters=(" + list(without([]uint64{1, 2, 3}, []uint64{id})) + ") learners=(" + list([]uint64{id}) + ")")
}

// 4 does not run. It votes at once, so no other of the four may be down.
func addVoter(t *testing.T) {
	c := newCluster(t, configuration{Voters: []uint64{1, 2, 3}}, nil)
	defer c.stopAll()
	c.commit("an entry")
	c.must(c.leading().AddVoter("4", "4", 0, limit).Error())
	c.expect("voters=(1 2 3 4)")
	c.stop(without([]uint64{1, 2, 3}, []uint64{c.leading().id})[0])
	leader := c.leading()
	c.until("the leader gives up", func() bool { return leader.State() != raft.Leader })
	c.start(4, nil)
	c.commit("another one")
}

// One of three voters is down, and one is added that does not run. The two that are left could commit that by the old
// configuration, but the new one is in force. A voter that is alone commits by the old one.
func countsOnceAppended(t *testing.T) {
	c := newCluster(t, configuration{Voters: []uint64{1, 2, 3}}, []uint64{3})
	defer c.stopAll()
	c.commit("an entry")
	leader := c.leading()
	future := leader.AddVoter("4", "4", 0, limit)
	c.until("the leader gives up", func() bool { return leader.State() != raft.Leader })
	if err := future.Error(); err != raft.ErrLeadershipLost {
		t.Errorf("the call answers %v", err)
	}
	if found := configurationOf(leader).text(); found != "voters=(1 2 3 4)" {
		t.Errorf("its last configuration is %s", found)
	}
	alone := newCluster(t, configuration{Voters: []uint64{1}}, nil)
	defer alone.stopAll()
	alone.commit("an entry")
	alone.must(alone.leading().AddVoter("2", "2", 0, limit).Error())
}

func removeLeader(t *testing.T) {
	c := newCluster(t, configuration{Voters: []uint64{1, 2, 3}}, nil)
	defer c.stopAll()
	c.commit("an entry")
	leader := c.leading()
	c.must(leader.RemoveServer(name(leader.id), 0, limit).Error())
	c.stop(leader.id)
	c.commit("another one")
	c.expect("voters=(" + list(without([]uint64{1, 2, 3}, []uint64{leader.id})) + ")")
}

func refusals(t *testing.T) {
	c := newCluster(t, configuration{Voters: []uint64{1}}, nil)
	defer c.stopAll()
	c.commit("an entry")
	c.start(2, nil)
	leader := c.leading()
	if index := leader.GetConfiguration().Index(); index != 0 {
		t.Errorf("the index of the configuration is given: %d", index)
	}
	first := leader.AddNonvoter("2", "2", 0, limit)
	c.must(first.Error())
	c.must(leader.AddNonvoter("3", "3", first.Index(), limit).Error())
	for _, row := range []struct {
		name, wanted string
		answer       error
	}{
		{"another change came between", "onfiguration changed since", leader.RemoveServer("2", first.Index(), limit).Error()},
		{"no voter is left", "at least one voter", leader.RemoveServer("1", 0, limit).Error()},
		{"the address of another one", "duplicate address", leader.AddVoter("4", "2", 0, limit).Error()},
		{"not the leader", raft.ErrNotLeader.Error(), c.servers[2].RemoveServer("2", 0, limit).Error()},
	} {
		if row.answer == nil || !strings.Contains(row.answer.Error(), row.wanted) {
			t.Errorf("%s: %v", row.name, row.answer)
		}
	}
	c.expect("voters=(1) learners=(2 3)")
}
