//go:build etcd_3_5

package etcd

import (
	"testing"

	pb "go.etcd.io/etcd/raft/raftpb"
)

// TestStuck lets a leader call Advance before ApplyConfChange. Then 3.5 does not leave a joint configuration by itself,
// until another one leads or a change that leaves is proposed.
func TestStuck(t *testing.T) {
	for _, pace := range []pace{prompt, early} {
		c := newCluster(t, pb.ConfState{Voters: []uint64{1, 2, 3}}, 1)
		one := c.members[1]
		one.pace = pace
		if err := one.raw.ProposeConfChange(change(pb.ConfChangeTransitionJointImplicit, "u1")); err != nil {
			t.Fatal(err)
		}
		for i := 0; i < 30; i++ {
			one.raw.Propose([]byte("entry"))
			c.settle()
			c.apply(one)
			one.raw.Tick()
		}
		if left := len(one.state.VotersOutgoing) == 0; left != (pace == prompt) {
			t.Errorf("pace %v: left: %v", pace, left)
		}
		if pace == prompt {
			continue
		}
		// Another leader leaves.
		one.pace = prompt
		c.elect(2)
		c.wait()
		if state := c.members[2].state; len(state.VotersOutgoing) > 0 {
			t.Errorf("another leader is in %s", describe(state))
		}
	}
}
