package etcd

import (
	"fmt"
	"testing"

	pb "go.etcd.io/etcd/raft/raftpb"
)

// TestRaft shows what docs/ETCD.md says of etcd's raft where it decides how a step is proposed, and what has to be
// waited for.
func TestRaft(t *testing.T) {
	t.Run("a list without changes does not enter", enterWithoutChanges)
	t.Run("a change is refused while another is not applied", twoAtOnce)
	t.Run("a voter that is only outgoing is sent no snapshot", lateOutgoingVoter)
	t.Run("the log is compacted while the configuration is joint", compactWhileJoint)
	t.Run("removed members are stopped too early", stopTooEarly)
	t.Run("a leader that does not vote answers a read", readWithoutVote)
	t.Run("a server that was a voter is deaf", deafServer)
	t.Run("auto-leave while entries are applied leaves twice", leaveTwice)
	t.Run("several changes in one proposal end a cluster that serves", severalChanges)
}

// change writes a ConfChangeV2.
func change(transition pb.ConfChangeTransition, changes string) pb.ConfChangeV2 {
	list, err := pb.ConfChangesFromString(changes)
	if err != nil {
		panic(err)
	}
	return pb.ConfChangeV2{Transition: transition, Changes: list}
}

func enterWithoutChanges(t *testing.T) {
	c := newCluster(t, pb.ConfState{Voters: []uint64{1, 2}}, 1)
	c.propose(change(pb.ConfChangeTransitionJointExplicit, ""))
	if states := c.taken(); len(states) != 0 {
		t.Errorf("it led to %s", describe(states...))
	}
	c.propose(change(pb.ConfChangeTransitionJointExplicit, "u1"))
	if states := c.taken(); len(states) != 1 || len(states[0].VotersOutgoing) != 2 {
		t.Errorf("with an update, it led to %s", describe(states...))
	}
}

func twoAtOnce(t *testing.T) {
	c := newCluster(t, pb.ConfState{Voters: []uint64{1, 2, 3}}, 1)
	c.startMissing(pb.ConfState{Voters: []uint64{4}})
	for _, changes := range []string{"v4", "r3"} {
		if err := c.members[1].raw.ProposeConfChange(change(pb.ConfChangeTransitionAuto, changes)); err != nil {
			t.Fatal(err)
		}
	}
	c.wait()
	if states := c.taken(); len(states) != 1 || !holds(states[0].Voters, 3) {
		t.Errorf("they led to %s", describe(states...))
	}
}

// lateOutgoingVoter starts a new voter after one more change, which lets it stay or not.
func lateOutgoingVoter(t *testing.T) {
	for changes, isIncoming := range map[string]bool{"u4": true, "r4": false} {
		c := newCluster(t, pb.ConfState{Voters: []uint64{1, 2, 3}}, 1)
		c.propose(change(pb.ConfChangeTransitionAuto, "v4"))
		c.propose(change(pb.ConfChangeTransitionJointExplicit, changes))
		c.startMissing(pb.ConfState{Voters: []uint64{4}})
		c.wait()
		if wanted := isIncoming || isMended; c.isCaughtUp() != wanted {
			t.Errorf("%s: 4 has caught up: %v", changes, !wanted)
		}
	}
}

// compactWhileJoint cuts 3 off while a change makes it an outgoing voter. When it is back, it catches up, unless the log was
// compacted meanwhile: up to that change, or only up to the entry before it, which 3 lacks too.
func compactWhileJoint(t *testing.T) {
	for _, isCompacted := range []string{"not", "before the change", "with the change"} {
		c := newCluster(t, pb.ConfState{Voters: []uint64{1, 2, 3}}, 1)
		leader := c.leading()
		compact := func(when string) {
			if when == isCompacted {
				leader.storage.Compact(leader.applied)
			}
		}
		c.connect([]uint64{1, 2})
		leader.raw.Propose([]byte("entry"))
		c.settle()
		compact("before the change")
		c.propose(change(pb.ConfChangeTransitionJointExplicit, "r3"))
		compact("with the change")
		c.connect([]uint64{1, 2, 3})
		for i := 0; i < 10; i++ {
			c.wait()
		}
		if wanted := isCompacted == "not" || isMended; c.isCaughtUp() != wanted {
			t.Errorf("if the log is compacted %s, 3 has caught up: %v", isCompacted, !wanted)
		}
	}
}

// readWithoutVote has a leader that removed or demoted itself, so that one voter is left, and does not know that this one was
// elected. Raft takes the leader for the voter: it answers a read at once, without what the other one has committed.
func readWithoutVote(t *testing.T) {
	for _, changes := range []string{"r1", "l1"} {
		c := newCluster(t, pb.ConfState{Voters: []uint64{1, 2}}, 1)
		one, two := c.members[1], c.members[2]
		c.propose(change(pb.ConfChangeTransitionAuto, changes))
		c.connect([]uint64{2})
		two.raw.Campaign()
		c.settle()
		two.raw.Propose([]byte("entry"))
		c.settle()
		one.raw.ReadIndex([]byte("read"))
		reads := one.take().ReadStates
		if len(reads) != 1 || reads[0].Index >= two.applied {
			t.Errorf("%s: the reads are at %v, and the applied index is %d", changes, reads, two.applied)
		}
	}
}

// deafServer has a server that was a voter, is a learner, and does not know it. Without PreVote and CheckQuorum it campaigns
// into a later term, towards voters that were stopped, and hears nothing of the leader. With either it comes back.
func deafServer(t *testing.T) {
	for _, row := range []struct{ preVote, checkQuorum bool }{{false, false}, {true, false}, {false, true}} {
		c := startCluster(t, pb.ConfState{Voters: []uint64{1, 2, 3}, Learners: []uint64{4}})
		for id, m := range c.members {
			m = &member{storage: m.storage, preVote: row.preVote, checkQuorum: row.checkQuorum}
			snapshot, _ := m.storage.Snapshot()
			m.restore(snapshot)
			m.begin(t, id)
			c.members[id] = m
		}
		c.elect(3)
		deaf := c.members[1]
		c.connect([]uint64{2, 3, 4})
		c.propose(change(pb.ConfChangeTransitionJointExplicit, "l1 r2 r3 v4"))
		c.leading().raw.TransferLeader(4)
		c.settle()
		c.propose(pb.ConfChangeV2{})
		c.stopOthers(pb.ConfState{Voters: []uint64{4}, Learners: []uint64{1}})
		for i := 0; i < 100; i++ {
			deaf.raw.Tick()
			c.handleAll(deaf)
		}
		c.connect([]uint64{1, 4})
		for i := 0; i < 1000; i++ {
			deaf.raw.Tick()
			c.members[4].raw.Tick()
			c.settle()
		}
		if wanted := row.preVote || row.checkQuorum; holds(deaf.state.Learners, 1) != wanted {
			t.Errorf("%+v: 1 knows that it is a learner: %v", row, !wanted)
		}
	}
}

// stopTooEarly leaves a joint configuration. When the leader has applied that, and no other member knows of it, those
// that are removed are stopped or not, and the leader fails, as one of three voters may.
func stopTooEarly(t *testing.T) {
	for _, isStopped := range []bool{true, false} {
		c := newCluster(t, pb.ConfState{Voters: []uint64{4, 5, 6}, VotersOutgoing: []uint64{1, 2, 3}}, 4)
		leader, all := c.leading(), c.members
		if err := leader.raw.ProposeConfChange(change(pb.ConfChangeTransitionAuto, "")); err != nil {
			t.Fatal(err)
		}
		c.handleEach()
		for _, id := range []uint64{1, 2, 3} {
			c.handleAll(c.members[id])
		}
		c.members = map[uint64]*member{4: leader}
		c.handleAll(leader)
		if left := c.taken(); len(left) != 1 {
			t.Fatalf("the leader went through\n%s", describe(left...))
		}
		c.members = all
		delete(c.members, 4)
		if isStopped {
			c.stopOthers(pb.ConfState{Voters: []uint64{5, 6}})
		}
		for _, id := range []uint64{5, 6, 5, 6} {
			c.members[id].raw.Campaign()
			c.settle()
		}
		if (c.leader() == 0) != isStopped {
			t.Errorf("if they are stopped: %v, %d leads", isStopped, c.leader())
		}
	}
}

// leftTwice is what etcd panics with when it applies a change that leaves, and the configuration is not joint.
const leftTwice = "can't leave a non-joint config"

// panicOf returns what a call panics with, or nothing.
func panicOf(call func()) (panicked string) {
	defer func() {
		if value := recover(); value != nil {
			panicked = fmt.Sprint(value)
		}
	}()
	call()
	return ""
}

// proposeWhileServing proposes a change, and then entries, so that some are applied while the change is on its way.
func (c *cluster) proposeWhileServing(change pb.ConfChangeV2) {
	leader := c.leading().raw
	if err := leader.ProposeConfChange(change); err != nil {
		c.t.Fatal(err)
	}
	for i := 0; i < 10; i++ {
		leader.Propose([]byte("entry"))
		c.handleEach()
	}
	c.settle()
}

// leaveTwice lets entries be applied between the change that enters and the one that leaves.
func leaveTwice(t *testing.T) {
	c := newCluster(t, pb.ConfState{Voters: []uint64{1, 2, 3}}, 1)
	panicked := panicOf(func() { c.proposeWhileServing(change(pb.ConfChangeTransitionJointImplicit, "u1")) })
	wanted := leftTwice
	if isMended {
		wanted = ""
	}
	if taken := c.taken(); panicked != wanted || isMended && len(taken) != 2 {
		t.Errorf("etcd answered %q; configurations\n%s", panicked, describe(taken...))
	}
}

// severalChanges makes a simple step of two changes, first as one proposal. Then each member panics, and again when it
// starts from what it stored. As one proposal for each change, as the lines of a plan are, the step is made.
func severalChanges(t *testing.T) {
	voters := []uint64{1, 2, 3}
	start := func() *cluster {
		c := newCluster(t, pb.ConfState{Voters: voters}, 1)
		c.startMissing(pb.ConfState{Learners: []uint64{4, 5}})
		return c
	}
	c := start()
	answers := []string{panicOf(func() { c.proposeWhileServing(change(pb.ConfChangeTransitionAuto, "l4 l5")) })}
	for _, id := range voters[1:] {
		answers = append(answers, panicOf(func() { c.handleAll(c.members[id]) }))
	}
	for _, id := range voters {
		answers = append(answers, panicOf(func() { c.handleAll(startMember(t, id, c.members[id].storage)) }))
	}
	expected := pb.ConfState{Voters: voters, Learners: []uint64{4, 5}}
	for _, answer := range answers {
		if answer != leftTwice && !isMended || answer != "" && isMended {
			t.Errorf("etcd answered %q", answers)
			break
		}
	}
	if isMended {
		if c.catchUp(); !isSame(c.leading().state, expected) {
			t.Errorf("one proposal led to %s", describe(c.leading().state))
		}
	}
	c = start()
	for _, changes := range []string{"l4", "l5"} {
		c.proposeWhileServing(change(pb.ConfChangeTransitionAuto, changes))
		c.catchUp()
	}
	if !isSame(c.leading().state, expected) {
		t.Errorf("they led to %s", describe(c.leading().state))
	}
}
