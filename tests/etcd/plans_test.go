package etcd

import (
	"fmt"
	"math/rand"
	"testing"

	pb "go.etcd.io/etcd/raft/raftpb"
)

// plans is how many pairs of configurations there are for each strategy.
const plans = 500

// TestPlans lets clusters of etcd's raft carry out the plans between random pairs of configurations, by each strategy:
// the JSON of each line is proposed as it is.
func TestPlans(t *testing.T) {
	for _, strategy := range strategies {
		chance := rand.New(rand.NewSource(1))
		seen := map[string]int{}
		made := makePlans(t, chance, strategy)
		for i, p := range made {
			p.count(seen)
			t.Run(fmt.Sprint(strategy, " ", i), func(t *testing.T) { p.carryOut(t, rand.New(rand.NewSource(int64(i))), seen) })
		}
		t.Run(strategy+": each kind occurs", func(t *testing.T) { compareSeen(t, seen, kindsOfPlans[strategy]) })
	}
}

// compareSeen demands that each kind was seen at least five times.
func compareSeen(t *testing.T, seen map[string]int, kinds []string) {
	for _, kind := range kinds {
		if seen[kind] < 5 {
			t.Errorf("%s: %d times", kind, seen[kind])
		}
	}
}

// kindsOfPlans are the kinds of steps and events that have to occur, each at least five times.
var kindsOfPlans = map[string][]string{
	"shortest": {
		"1 steps", "2 steps", "3 steps", "4 steps", "auto", "explicit", "implicit", "leaving", "an update alone",
		"left by itself at the start", "leadership moved", "leadership lost",
	},
	"learners-first": {
		"1 steps", "2 steps", "3 steps", "4 steps", "5 steps", "auto", "explicit", "implicit", "leaving", "leadership moved",
	},
	"one-at-a-time": {"1 steps", "2 steps", "3 steps", "4 steps", "8 steps", "auto", "leaving", "leadership moved"},
}

// count counts the kinds of steps that the plan has.
func (p *plan) count(seen map[string]int) {
	seen[fmt.Sprintf("%d steps", len(p.lines))]++
	for _, line := range p.lines {
		change := line.ConfChange
		switch {
		case len(change.Changes) == 0:
			seen["leaving"]++
		case change.Transition == pb.ConfChangeTransitionAuto:
			seen["auto"]++
		case change.Transition == pb.ConfChangeTransitionJointExplicit:
			seen["explicit"]++
		default:
			seen["implicit"]++
		}
		if len(change.Changes) == 1 && change.Changes[0].Type == pb.ConfChangeUpdateNode {
			seen["an update alone"]++
		}
	}
}

// makePlans asks confscript for the plans between random pairs of configurations that differ.
func makePlans(t *testing.T, chance *rand.Rand, strategy string) []*plan {
	var made []*plan
	for len(made) < plans {
		p := pair(chance, strategy)
		if !isSame(p.now, p.target) {
			made = append(made, p)
		}
	}
	if status := askPlans(t, strategy, made); status != 0 {
		t.Fatalf("%s: status %d", strategy, status)
	}
	return made
}

// pair returns two configurations that share members. The target is any, or one that a few changes lead to. With one
// change at a time no plan leads to a joint one.
func pair(chance *rand.Rand, strategy string) *plan {
	ids := pool(chance, 2+chance.Intn(6), chance.Intn(3) == 0)
	p := &plan{strategy: strategy, now: configuration(chance, ids)}
	for p.target.Voters == nil || strategy == "one-at-a-time" && len(p.target.VotersOutgoing) > 0 {
		if chance.Intn(3) == 0 {
			p.target = walked(chance, p.now, ids)
		} else {
			p.target = configuration(chance, ids)
		}
	}
	return p
}

// compareTarget demands that the last line leads to the target.
func (p *plan) compareTarget(t *testing.T) {
	if states := p.after(); !isSame(states[len(states)-1], p.target) {
		t.Fatalf("the plan for\n%s\nleads to\n%s", describe(p.now, p.target), describe(states...))
	}
}

// carryOut starts a cluster with the current configuration, and proposes the steps.
func (p *plan) carryOut(t *testing.T, chance *rand.Rand, seen map[string]int) {
	p.compareTarget(t)
	// With auto-leave the first step comes before leadership can be moved.
	leaders := p.now.Voters
	if !p.now.AutoLeave {
		leaders = append(append([]uint64(nil), p.now.Voters...), p.now.VotersOutgoing...)
	}
	c := newCluster(t, p.now, oneOf(chance, leaders))
	before := p.now
	for _, line := range p.lines {
		c.carryOut(line, before, seen)
		before = line.settled()
	}
	c.commit()
	for id, m := range c.members {
		if !isSame(m.state, before) {
			t.Errorf("%d has the configuration\n%s\ninstead of\n%s", id, describe(m.state), describe(before))
		}
	}
}

// carryOut starts new members, moves leadership if the step takes it away, proposes the line's change, waits, and
// compares the leader's configuration with the one of the line. A configuration with auto-leave is left without a
// proposal.
func (c *cluster) carryOut(line planLine, before pb.ConfState, seen map[string]int) {
	last := line.settled()
	c.startMissing(line.ConfState)
	if before.AutoLeave {
		seen["left by itself at the start"]++
	} else {
		if c.moveLeader(before, last) {
			seen["leadership moved"]++
		}
		c.propose(line.ConfChange)
	}
	if states := c.taken(); !areSame(states, line.passed()) {
		c.t.Fatalf("%v led from\n%s\nto\n%s\ninstead of\n%s", line.ConfChange, describe(before), describe(states...), describe(line.passed()...))
	}
	c.stopOthers(last)
	if c.leader() == 0 && line.ConfState.AutoLeave {
		c.elect(last.Voters[0])
		seen["leadership lost"]++
	}
	c.catchUp()
	c.commit()
}

// moveLeader moves leadership to a voter that stays one if the leader does not, and says whether it did. Where none
// stays, since etcd leaves the joint configuration by itself, the leader is left in place, and an election has to
// follow.
func (c *cluster) moveLeader(before, last pb.ConfState) bool {
	if holds(voterIDs(last), c.leader()) {
		return false
	}
	for _, id := range staying(before, last) {
		c.move(id)
		return true
	}
	return false
}
