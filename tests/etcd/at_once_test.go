//go:build etcd_3_5

package etcd

import (
	"fmt"
	"math/rand"
	"testing"

	pb "go.etcd.io/etcd/raft/raftpb"
)

// TestAtOnce carries out the joint steps of plans as one proposal of all changes, which raft then leaves by itself, on
// clusters that serve. In 3.4 that ends a cluster (severalChanges).
func TestAtOnce(t *testing.T) {
	const several = "a proposal of several changes"
	seen := map[string]int{}
	for i, p := range makePlans(t, rand.New(rand.NewSource(5)), "shortest") {
		p.compareTarget(t)
		seen[several] += p.makeAtOnce()
		t.Run(fmt.Sprint(i), func(t *testing.T) { p.serve(t, nil, int64(i), seen) })
	}
	t.Run("each kind occurs", func(t *testing.T) { compareSeen(t, seen, append(kindsOfServing, several)) })
}

// makeAtOnce makes one line of each two that enter a joint configuration by several changes and leave it, and returns how
// many it made. The target is then what the last line leads to before raft leaves.
func (p *plan) makeAtOnce() (made int) {
	var lines []planLine
	for _, line := range p.lines {
		last := len(lines) - 1
		if last < 0 || !line.ConfChange.LeaveJoint() || len(lines[last].ConfChange.Changes) < 2 {
			lines = append(lines, line)
			continue
		}
		enter := &lines[last]
		enter.ConfChange.Transition = pb.ConfChangeTransitionAuto
		enter.ConfState.AutoLeave = true
		enter.MayBeDown = least(enter.MayBeDown, line.MayBeDown)
		made++
	}
	p.lines, p.target = lines, lines[len(lines)-1].ConfState
	return made
}
