package etcd

import (
	"fmt"
	"testing"

	"go.etcd.io/etcd/raft"
	pb "go.etcd.io/etcd/raft/raftpb"
)

// TestNoLeader shows how a cluster loses its leader for ever while both servers are up and no message is lost. In (2)&&(1)
// the leader proposes to leave, and in (1 2) to remove 1. It applies that, has one more entry, and restarts before the other
// one knows that the change is committed. If 1 led, it knows that it is removed, so it never campaigns, and it refuses its
// vote to the shorter log of 2; and 2 counts by the former configuration. If 2 led, it is elected again.
func TestNoLeader(t *testing.T) {
	for _, row := range []struct {
		name  string
		state pb.ConfState
		leave pb.ConfChangeV2
	}{
		{"joint", pb.ConfState{Voters: []uint64{2}, VotersOutgoing: []uint64{1}}, pb.ConfChangeV2{}},
		{"simple", pb.ConfState{Voters: []uint64{1, 2}}, change(pb.ConfChangeTransitionAuto, "r1")},
	} {
		for _, preVote := range []bool{false, true} {
			for _, leader := range []uint64{1, 2} {
				t.Run(fmt.Sprintf("%s, %d leads, PreVote %v", row.name, leader, preVote), func(t *testing.T) {
					seedElectionTimeouts(1)
					leaveAndCrash(t, row.state, row.leave, leader, preVote)
				})
			}
		}
	}
}

func leaveAndCrash(t *testing.T, state pb.ConfState, leave pb.ConfChangeV2, leader uint64, preVote bool) {
	c := startCluster(t, state)
	for id := range c.members {
		c.startAgain(id, preVote)
	}
	c.elect(leader)
	first, other := c.members[leader], c.members[3-leader]
	first.raw.ProposeConfChange(leave)
	c.handle(first)
	c.handle(other)
	first.raw.Propose([]byte("entry"))
	c.connect()
	c.handleAll(first)
	if holds(voterIDs(first.state), 1) || !holds(voterIDs(other.state), 1) {
		t.Fatalf("the leader has %s, the other one %s", describe(first.state), describe(other.state))
	}
	c.startAgain(leader, preVote)
	c.connect([]uint64{1, 2})
	if ticks, isElected := c.ticks(20000); isElected != (leader == 2) {
		t.Errorf("a leader after %d ticks: %v", ticks, isElected)
	}
	if leader == 2 {
		return
	}
	// The way out: 2 gets to know what 1 knows.
	if !tellCommit(c.members[1].storage, c.members[2].storage) {
		t.Error("2 does not have what 1 knows to be committed")
	}
	c.startAgain(2, preVote)
	if ticks, isElected := c.ticks(100); !isElected || c.leader() != 2 {
		t.Errorf("after %d ticks %d leads", ticks, c.leader())
	}
}

// tellCommit raises the commit index in a stored hard state towards that of another one, as far as both have the same entries,
// and says whether it did. What is committed stays so, whoever leads.
func tellCommit(from, to *raft.MemoryStorage) bool {
	known, _, _ := from.InitialState()
	hardState, _, _ := to.InitialState()
	index, _ := to.LastIndex()
	if known.Commit < index {
		index = known.Commit
	}
	ours, err := to.Term(index)
	theirs, other := from.Term(index)
	if err != nil || other != nil || ours != theirs || index <= hardState.Commit {
		return false
	}
	hardState.Commit = index
	to.SetHardState(hardState)
	return true
}

// startAgain starts a member from what it stored, with PreVote or without.
func (c *cluster) startAgain(id uint64, preVote bool) {
	m := &member{storage: c.members[id].storage, preVote: preVote}
	snapshot, _ := m.storage.Snapshot()
	m.restore(snapshot)
	m.begin(c.t, id)
	c.members[id] = m
}

// ticks lets all clocks run until there is a leader, but not for ever, and returns for how many ticks.
func (c *cluster) ticks(most int) (ticks int, isElected bool) {
	for ; ticks < most && c.leader() == 0; ticks++ {
		for _, id := range c.ids() {
			c.members[id].raw.Tick()
		}
		c.settle()
	}
	return ticks, c.leader() != 0
}
