package etcd

import (
	"testing"

	"go.etcd.io/etcd/raft"
	pb "go.etcd.io/etcd/raft/raftpb"
)

// TestReturningID shows why an id never comes back without its log and its vote. 2 leads term 2 with the vote of 1
// while 3 is cut off, and a plan replaces 1 by 4. Then 1 comes back, and 3, which heard of nothing, can reach only 1.
func TestReturningID(t *testing.T) {
	for _, strategy := range strategies {
		t.Run(strategy+", with an empty log", func(t *testing.T) {
			serving, cutOff := replaceOne(t, strategy)
			cutOff.members[1] = startMember(t, 1, raft.NewMemoryStorage())
			cutOff.elect(3)
			for _, half := range []*cluster{serving, cutOff} {
				half.leading().raw.Propose([]byte("entry"))
				half.wait()
			}
			two, three := serving.leading(), cutOff.leading()
			if a, b := two.raw.BasicStatus(), three.raw.BasicStatus(); a.Term != 2 || b.Term != 2 || a.ID != 2 || b.ID != 3 {
				t.Errorf("%d leads term %d, and %d leads term %d", a.ID, a.Term, b.ID, b.Term)
			}
			if index := firstDifference(two, three); index == 0 {
				t.Errorf("both have applied the same:\n%v\n%v", two.entries, three.entries)
			}
		})
		t.Run(strategy+", with its log and its vote", func(t *testing.T) {
			serving, cutOff := replaceOne(t, strategy)
			cutOff.members[1] = startMember(t, 1, serving.stopped[1])
			for i := 0; i < 5; i++ {
				cutOff.members[3].raw.Campaign()
				cutOff.settle()
			}
			if leader := cutOff.leader(); leader != 0 {
				t.Errorf("%d leads", leader)
			}
		})
	}
}

// replaceOne lets (1 2 3) without 3 elect 2, and carry out the plan to (2 3 4). It returns these members, and a cluster
// of 3 alone.
func replaceOne(t *testing.T, strategy string) (serving, cutOff *cluster) {
	p := &plan{strategy: strategy, now: pb.ConfState{Voters: []uint64{1, 2, 3}}, target: pb.ConfState{Voters: []uint64{2, 3, 4}}}
	askPlans(t, strategy, []*plan{p})
	serving = startCluster(t, p.now)
	cutOff = &cluster{t: t, members: map[uint64]*member{3: serving.members[3]}}
	delete(serving.members, 3)
	serving.elect(2)
	for _, line := range p.lines {
		serving.startMissing(pb.ConfState{Learners: line.CatchingUp})
		serving.propose(line.ConfChange)
	}
	if state := serving.leading().state; !isSame(state, p.target) {
		t.Fatalf("the plan leads to %s", describe(state))
	}
	serving.stopOthers(p.target)
	return serving, cutOff
}

// firstDifference returns the first index at which two members have applied different entries since they started, or 0.
func firstDifference(a, b *member) uint64 {
	var first uint64
	for index, ours := range a.given {
		theirs, ok := b.given[index]
		if ok && (ours.Type != theirs.Type || string(ours.Data) != string(theirs.Data)) && (first == 0 || index < first) {
			first = index
		}
	}
	return first
}
