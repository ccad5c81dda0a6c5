package etcd

import (
	"testing"

	pb "go.etcd.io/etcd/raft/raftpb"
)

// A schedule returns two members that have applied different entries at one index, if a rule is broken.
type schedule func(t *testing.T, isBroken bool) (a, b *member)

// breaks runs a schedule twice: with a rule broken two members have applied different entries, and with the rule kept none.
func (s schedule) breaks(t *testing.T) {
	for _, isBroken := range []bool{true, false} {
		if differ := firstDifference(s(t, isBroken)) != 0; differ != isBroken {
			t.Errorf("if the rule is broken: %v; different entries are applied: %v", isBroken, differ)
		}
	}
}

// 1 is the only voter, and applies an entry while it saves it: raft takes the entry for committed at once. It is killed
// before that is done. Then it leads again, with another entry at that index.
func applyBeforeSave(t *testing.T, isBroken bool) (before, after *member) {
	c := newCluster(t, pb.ConfState{Voters: []uint64{1}}, 1)
	before = c.members[1]
	before.raw.Propose([]byte("entry"))
	ready := before.raw.Ready()
	if !isBroken {
		before.save(ready)
	}
	for _, entry := range ready.CommittedEntries {
		before.apply(entry)
	}
	c.members[1] = startMember(t, 1, before.storage)
	return before, c.campaign(1)
}

// The same with a learner: 1 sends the entry while it saves it, with a commit index that covers it, and the learner applies
// it.
func sendBeforeSave(t *testing.T, isBroken bool) (learner, after *member) {
	c := newCluster(t, pb.ConfState{Voters: []uint64{1}, Learners: []uint64{2}}, 1)
	c.members[1].raw.Propose([]byte("entry"))
	c.sendAndCrash(1, isBroken)
	c.connect()
	c.settle()
	return c.members[2], c.campaign(1)
}

// The same after 1 has committed the change that adds 3: it takes one more entry before it applies that, and so commits it by
// itself. When it sends the entry, it is not a quorum any more. Then it is elected by 3.
func sendCommittedBeforeSave(t *testing.T, isBroken bool) (learner, after *member) {
	c := newCluster(t, pb.ConfState{Voters: []uint64{1}, Learners: []uint64{2}}, 1)
	one := c.members[1]
	one.raw.ProposeConfChange(change(pb.ConfChangeTransitionAuto, "v3"))
	c.send(one.take())
	one.raw.Propose([]byte("entry"))
	c.apply(one)
	c.sendAndCrash(1, isBroken)
	c.connect()
	c.settle()
	c.startMissing(three)
	c.connect([]uint64{1, 3})
	return c.members[2], c.campaign(1)
}

// 2 acknowledges an entry while it saves it, and is killed before that is done. 1 commits it with 2. Then 2 is elected by 3.
func answerBeforeSave(t *testing.T, isBroken bool) (before, after *member) {
	c := newCluster(t, three, 1)
	one := c.members[1]
	c.connect([]uint64{1, 2})
	one.raw.Propose([]byte("entry"))
	c.handle(one)
	c.sendAndCrash(2, isBroken)
	c.connect([]uint64{2, 3})
	c.settle()
	return one, c.campaign(2)
}

// 3 votes for 1 while it saves its vote, and is killed before that is done. Then it votes for 2 in the same term. Both
// commit entries of that term with 3, which cannot tell them apart.
func voteBeforeSave(t *testing.T, isBroken bool) (a, b *member) {
	c := startCluster(t, three)
	one, two := c.members[1], c.members[2]
	c.connect([]uint64{1, 3})
	one.raw.Campaign()
	c.handle(one)
	c.sendAndCrash(3, isBroken)
	c.connect([]uint64{2, 3})
	c.settle()
	c.campaign(2)
	two.raw.Propose([]byte("of 2")) // dropped, if it does not lead
	c.settle()
	c.connect([]uint64{1, 3})
	one.raw.Propose([]byte("of 1"))
	one.raw.Tick()
	c.settle()
	if isBroken && one.raw.BasicStatus().Term != two.raw.BasicStatus().Term {
		t.Error("1 and 2 do not lead the same term")
	}
	return one, two
}

// 4 is added to (1 2 3), and 1 is removed. 1 has both changes, and its hard state says that the first one is committed. That
// was saved without a sync, as raft allows (MustSync), into a file of its own, and is lost, while what was saved after it is
// not. So 1 counts by (1 2 3), and is elected by 2, while 3 goes on with 4.
func loseHardState(t *testing.T, isBroken bool) (a, b *member) {
	c := newCluster(t, three, 3)
	c.startMissing(four)
	one, leader := c.members[1], c.members[3]
	c.add(4, true)
	leader.raw.ProposeConfChange(change(pb.ConfChangeTransitionAuto, "r1"))
	c.connect([]uint64{1, 3, 4})
	for _, m := range []*member{leader, one, c.members[4]} { // 1 does not hear that its removal is committed
		c.handle(m)
	}
	c.connect([]uint64{3, 4})
	c.settle()
	c.commitWith(4)
	one.crash(isBroken)
	c.restart(1, three)
	c.connect([]uint64{1, 2})
	c.settle()
	return leader, c.campaign(1)
}

// 4 and 5 are added to (1 2 3). 2 restarts, and its application has kept all that it has applied, so Config.Applied is the
// index of the last change. The ConfState in its storage is older. So 2 counts by (1 2 3), and is elected by 3, while 1 goes
// on with 4 and 5.
func restartWithOlderConfState(t *testing.T, isBroken bool) (a, b *member) {
	c := newCluster(t, three, 1)
	c.startMissing(five)
	c.add(4, true)
	c.add(5, true)
	two := c.members[2]
	if isBroken {
		two.storage = c.olderStorage(2, three)
	}
	c.members[2] = startBeyond(t, 2, two)
	if !hasAppliedChanges(c.members[2].raw, two.storage) {
		t.Error("hasAppliedChanges sees that the ConfState is older")
	}
	c.commitWith(4, 5)
	c.connect([]uint64{2, 3})
	return c.members[1], c.campaign(2)
}

// 2 is cut off while 4 and 5 are added to (1 2 3), and is sent a snapshot of what comes after. The ConfState in it is older. So
// 2 counts by (1 2 3), and is elected by 3, while 1 goes on with 4 and 5.
func sendOlderConfState(t *testing.T, isBroken bool) (a, b *member) {
	c := newCluster(t, three, 1)
	c.startMissing(five)
	one := c.members[1]
	c.connect([]uint64{1, 3, 4, 5})
	c.add(4, true)
	c.add(5, true)
	one.raw.Propose([]byte("entry"))
	c.settle()
	inForce := one.state
	if isBroken {
		one.state = three
	}
	one.snapshot()
	one.state = inForce
	one.storage.Compact(one.applied)
	one.raw.ReportUnreachable(2)
	c.connect([]uint64{1, 2})
	c.wait()
	c.commitWith(4, 5)
	c.connect([]uint64{2, 3})
	return one, c.campaign(2)
}

// 4 and 5 are added to (1 2 3). The application of 2 cancels both changes, by what it alone knows. So 2 counts by (1 2 3), and
// is elected by 3, while 1 goes on with 4 and 5.
func cancelAlone(t *testing.T, isBroken bool) (a, b *member) {
	c := newCluster(t, three, 1)
	c.startMissing(five)
	c.members[2].cancels = isBroken
	c.add(4, true)
	c.add(5, true)
	c.commitWith(4, 5)
	c.connect([]uint64{2, 3})
	return c.members[1], c.campaign(2)
}

// sendAndCrash lets a member send what is ready, either before that is saved or after. Then it is killed, and starts again.
func (c *cluster) sendAndCrash(id uint64, isBeforeSave bool) {
	m := c.members[id]
	ready := m.raw.Ready()
	if !isBeforeSave {
		m.save(ready)
	}
	c.send(ready)
	c.members[id] = startMember(c.t, id, m.storage)
}

// campaign lets a member campaign, and returns it when there is nothing more to do, whether it was elected or not.
func (c *cluster) campaign(id uint64) *member {
	c.members[id].raw.Campaign()
	c.settle()
	return c.members[id]
}
