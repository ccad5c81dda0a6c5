package etcd

import (
	"bytes"
	"math"
	"testing"

	"go.etcd.io/etcd/raft"
	pb "go.etcd.io/etcd/raft/raftpb"
)

var (
	three = pb.ConfState{Voters: []uint64{1, 2, 3}}
	four  = pb.ConfState{Voters: []uint64{1, 2, 3, 4}}
	five  = pb.ConfState{Voters: []uint64{1, 2, 3, 4, 5}}
)

// TestBrokenRules shows what etcd's raft leaves to a program. Each of these breaks one rule, and keeps to raft's page
// otherwise: save, send, apply, Advance. Then two members have applied different entries at one index.
func TestBrokenRules(t *testing.T) {
	t.Run("a member campaigns before it has applied changes", campaignBeforeApply)
	t.Run("leadership moves to a member that has not applied changes", transferBeforeApply)
	t.Run("Advance comes before ApplyConfChange", advanceBeforeApply)
	t.Run("a snapshot comes while changes are applied", snapshotDuringApply)
	t.Run("entries are saved without their hard state", tornWrite)
	t.Run("a hard state is lost, and what is saved after it is not", schedule(loseHardState).breaks)
	t.Run("entries are applied before they are saved", schedule(applyBeforeSave).breaks)
	t.Run("a leader that is a quorum by itself sends before it saves", schedule(sendBeforeSave).breaks)
	t.Run("a leader that was a quorum by itself sends before it saves", schedule(sendCommittedBeforeSave).breaks)
	t.Run("a follower acknowledges before it saves", schedule(answerBeforeSave).breaks)
	t.Run("a follower votes before it saves", schedule(voteBeforeSave).breaks)
	t.Run("a restart with an older ConfState than what is applied", schedule(restartWithOlderConfState).breaks)
	t.Run("a snapshot with an older ConfState than its index", schedule(sendOlderConfState).breaks)
	t.Run("one member cancels changes", schedule(cancelAlone).breaks)
}

// 4 and 5 are added to (1 2 3). 2 restarts from an older snapshot: it has both changes, committed, and has to apply them
// again. Before that its clock runs out. It counts votes by (1 2 3), so that of 3 will do, while 1 goes on with 4 and 5.
// If the changes are V1, raft does not campaign; it does not look for V2 changes.
func campaignBeforeApply(t *testing.T) {
	for _, isV2 := range []bool{false, true} {
		c := newCluster(t, three, 1)
		c.startMissing(five)
		c.add(4, isV2)
		c.add(5, isV2)
		c.restart(2, three)
		c.commitWith(4, 5)
		two := c.members[2]
		two.raw.Campaign()
		if hasCampaigned := two.raw.BasicStatus().RaftState == raft.StateCandidate; hasCampaigned != (isV2 && !isMended) {
			t.Errorf("with V2 changes: %v; 2 campaigns: %v", isV2, hasCampaigned)
		}
		if isV2 && !isMended {
			c.electSecond()
		}
	}
}

// The changes are V1 here. 1 moves leadership to 2, which has restarted in the same way. 1 knows that 2 has all entries,
// and asks it to campaign; 2 does so, whatever it has applied. 1 hears nothing of that, gives up, and goes on with 4
// and 5.
func transferBeforeApply(t *testing.T) {
	c := newCluster(t, three, 1)
	c.startMissing(five)
	c.add(4, false)
	c.add(5, false)
	c.restart(2, three)
	one := c.members[1]
	one.raw.TransferLeader(2)
	c.handle(one)
	for i := 0; i < 10; i++ {
		one.raw.Tick()
	}
	if isMended {
		if state := c.members[2].raw.BasicStatus().RaftState; state != raft.StateFollower {
			t.Errorf("2 is %v", state)
		}
		return
	}
	c.commitWith(4, 5)
	c.electSecond()
}

// electSecond lets 2, which campaigns, win by the vote of 3, while it is slow to apply the changes. Then it applies them,
// and commits an entry with 3 and 4, where 1 has applied another.
func (c *cluster) electSecond() {
	two := c.members[2]
	two.pace = slow
	c.connect([]uint64{2, 3})
	c.settle()
	if c.leader() != 2 {
		c.t.Error("2 was not elected by 3")
		return
	}
	two.pace = prompt
	c.apply(two)
	c.connect([]uint64{2, 3, 4})
	c.wait()
	c.expectDifference(1, 2)
}

// 4 and 5 are added while the leader's application lags; Advance is called all the same. So 1 still counts by (1 2 3),
// and commits an entry with 2. 3 has applied both changes, and is elected by 4 and 5.
func advanceBeforeApply(t *testing.T) {
	c := newCluster(t, three, 1)
	c.startMissing(five)
	one := c.members[1]
	one.pace = early
	c.add(4, false)
	c.add(5, false)
	c.commitWith(2)
	c.apply(one)
	c.connect([]uint64{3, 4, 5})
	c.elect(3)
	c.expectDifference(1, 3)
}

// 2 is handed the changes that add 4 and 5, and is slow to apply them. Meanwhile both are removed again, and 2 is sent a
// snapshot. It makes (1 2 3) raft's configuration at once; then the application comes to the two changes, and makes
// (1 2 3 4 5) of it. So 2 is elected by 4 and 5, which are not members, while 1 goes on with 3. No id came back.
func snapshotDuringApply(t *testing.T) {
	c := newCluster(t, three, 1)
	c.startMissing(five)
	one, two := c.members[1], c.members[2]
	c.connect([]uint64{1, 3, 4, 5})
	c.add(4, false)
	c.add(5, false)
	two.pace = slow
	c.connect(five.Voters)
	c.wait()
	c.connect([]uint64{1, 3, 4, 5})
	c.propose(change(pb.ConfChangeTransitionAuto, "r4"))
	c.propose(change(pb.ConfChangeTransitionAuto, "r5"))
	one.storage.Compact(one.applied)
	one.raw.ReportUnreachable(2)
	c.commitWith(2, 3) // for 2 it is the snapshot
	two.pace = prompt
	c.apply(two)
	c.connect([]uint64{2, 4, 5})
	c.settle()
	two.raw.Campaign()
	c.settle()
	if c.leader() != 2 {
		t.Error("2 was not elected by 4 and 5")
		return
	}
	c.connect([]uint64{2, 3, 4, 5})
	c.wait()
	c.expectDifference(1, 2)
}

// 1 is cut off while 4 is added. Then one message brings it that change, its own removal and a large entry, and it is
// killed while etcd's WAL saves them. The hard state, which says that the first change is committed, comes last there, and
// is lost. So 1 counts by (1 2 3), and is elected by 2, while 3 and 4 go on by (2 3 4).
func tornWrite(t *testing.T) {
	c := newCluster(t, three, 3)
	c.startMissing(four)
	one, leader := c.members[1], c.members[3]
	c.connect([]uint64{2, 3, 4})
	c.add(4, false)
	leader.raw.ProposeConfChange(change(pb.ConfChangeTransitionAuto, "r1"))
	c.connect([]uint64{2, 3})
	c.settle()
	leader.raw.Propose(bytes.Repeat([]byte("x"), 200<<10))
	c.connect([]uint64{1, 3})
	for _, m := range []*member{leader, one, leader} { // 1 says that it is behind, and is sent the rest
		c.handle(m)
	}
	c.members[1] = startMember(t, 1, killedWhileSaving(t, one.storage, one.raw.Ready()))
	c.connect([]uint64{3, 4})
	c.wait()
	c.connect([]uint64{1, 2})
	c.elect(1)
	c.expectDifference(3, 1)
}

// add adds a voter, by a ConfChange or a ConfChangeV2.
func (c *cluster) add(id uint64, isV2 bool) {
	adding := pb.ConfChange{Type: pb.ConfChangeAddNode, NodeID: id}
	if isV2 {
		c.propose(adding.AsV2())
	} else {
		c.propose(adding)
	}
}

// restart restarts a member with its log and its hard state, from an older snapshot, of this configuration.
func (c *cluster) restart(id uint64, older pb.ConfState) {
	c.members[id] = startMember(c.t, id, c.olderStorage(id, older))
}

// olderStorage returns the storage of a member with an older snapshot, of this configuration.
func (c *cluster) olderStorage(id uint64, older pb.ConfState) *raft.MemoryStorage {
	before := c.members[id].storage
	last, _ := before.LastIndex()
	entries, err := before.Entries(2, last+1, math.MaxUint64)
	if err != nil {
		c.t.Fatal(err)
	}
	hardState, _, _ := before.InitialState()
	storage := storageOf(older)
	storage.SetHardState(hardState)
	storage.Append(entries)
	return storage
}

// commitWith lets the leader commit an entry with some others. Nobody else gets the entry, and only the leader knows that
// it is committed.
func (c *cluster) commitWith(others ...uint64) {
	leader := c.leading()
	c.connect(append(others, c.leader()))
	if err := leader.raw.Propose([]byte("entry")); err != nil {
		c.t.Fatal(err)
	}
	c.handleAll(leader)
	for _, id := range others {
		c.handleAll(c.members[id])
	}
	c.connect()
	c.handleAll(leader)
}

// expectDifference demands that two members have applied different entries at one index.
func (c *cluster) expectDifference(a, b uint64) {
	if firstDifference(c.members[a], c.members[b]) == 0 {
		c.t.Errorf("%d and %d have applied the same entries, so etcd keeps this rule by itself", a, b)
	}
}
