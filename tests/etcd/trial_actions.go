package etcd

import (
	"strconv"

	"go.etcd.io/etcd/raft"
	"go.etcd.io/etcd/raft/confchange"
	pb "go.etcd.io/etcd/raft/raftpb"
	"go.etcd.io/etcd/raft/tracker"
)

// An action is something that a member of a trial does now and then.
type action struct {
	weight int // how often, compared with the others
	do     func(t *trial, id uint64)
}

// What any member does, and what one does that takes itself for the leader.
var (
	memberActions = []action{
		{20, func(t *trial, id uint64) { t.handle(id) }},
		{1, (*trial).campaign},
		{1, (*trial).restart},
		{1, (*trial).snapshot},
		{1, (*trial).retire},
	}
	leaderActions = []action{
		{8, func(t *trial, id uint64) {}},
		{4, func(t *trial, id uint64) { t.members[id].raw.Tick() }},
		{3, (*trial).proposeEntry},
		{4, (*trial).proposeChange},
		{2, (*trial).transfer},
		{1, (*trial).snapshot},
	}
)

// mix returns actions with weights of their own for a phase. The first action stays likely, the others may not happen.
func (t *trial) mix(actions []action) []action {
	mixed := append([]action(nil), actions...)
	for i := range mixed {
		mixed[i].weight *= []int{0, 0, 1, 4}[t.chance.Intn(4)]
	}
	mixed[0].weight += actions[0].weight
	return mixed
}

// act lets a member do one of the actions.
func (t *trial) act(id uint64, actions []action) {
	sum := 0
	for _, each := range actions {
		sum += each.weight
	}
	chosen := t.chance.Intn(sum)
	for _, each := range actions {
		if chosen -= each.weight; chosen < 0 {
			each.do(t, id)
			return
		}
	}
}

// handle does one thing of what a member has to do: it saves and sends what is ready, applies an entry, or ends what is
// ready. It says whether there was anything.
func (t *trial) handle(id uint64) bool {
	m := t.members[id]
	switch {
	case t.round < t.idleUntil[id]:
		return false
	case m.ready != nil && t.leavesOut(advanceRule) && t.chance.Intn(2) == 0:
		m.advance()
	case len(m.handed) > 0 && (m.ready != nil || t.chance.Intn(2) == 0 || !m.raw.HasReady()):
		t.apply(id)
	case m.ready != nil:
		m.advance()
	case m.raw.HasReady():
		t.take(id)
	default:
		return false
	}
	return true
}

// take saves and sends what a member has ready. A leader sends first, if it may. Now and then a member is killed before it has
// saved; then it may have sent, or applied, if it may or a rule is left out.
func (t *trial) take(id uint64) {
	m := t.members[id]
	ready := m.raw.Ready()
	isKilled := t.chance.Intn(200) == 0
	savesFirst := isCommitted(m.raw.BasicStatus(), ready.Entries)
	sendsFirst := m.leads() && !savesFirst || t.leavesOut(sendRule)
	if sendsFirst {
		t.sendAll(ready)
	}
	if isKilled && (!savesFirst || t.leavesOut(applyRule)) && raft.IsEmptySnap(ready.Snapshot) {
		for m.handed = append(m.handed, ready.CommittedEntries...); t.members[id] == m && len(m.handed) > 0; {
			t.apply(id)
			t.observer.seen["a member is killed after it has applied"]++
		}
	}
	if isKilled {
		if sendsFirst && m.leads() {
			t.observer.seen["a leader is killed after it has sent"]++
		}
		t.restart(id)
		return
	}
	m.accept(ready)
	t.observer.sees(m, ready)
	if !sendsFirst {
		t.sendAll(ready)
	}
}

// isCommitted says whether some of the entries that a member has to save are committed. That a leader is no quorum by itself
// does not say so: it may have been one when it committed.
func isCommitted(status raft.BasicStatus, entries []pb.Entry) bool {
	return len(entries) > 0 && entries[0].Index <= status.Commit
}

func (t *trial) sendAll(ready raft.Ready) {
	for _, message := range ready.Messages {
		t.send(message)
	}
}

// apply applies the next entry that a member was handed. If that is a second change which leaves its joint configuration,
// the member panics, and would again each time that it starts. So it never runs again.
func (t *trial) apply(id uint64) {
	m := t.members[id]
	entry := m.handed[0]
	m.handed = m.handed[1:]
	t.observer.applies(id, entry)
	m.cancels = t.leavesOut(cancelRule) && t.chance.Intn(4) == 0
	isChange := false
	switch panicked := panicOf(func() { isChange = m.apply(entry) }); {
	case panicked == "":
	case panicked == leftTwice && !isMended:
		delete(t.members, id)
	default:
		panic(panicked)
	}
	if isChange {
		t.observer.becomes(id, entry.Index, m.state)
		if t.waits {
			m.snapshot()
		}
	}
}

// campaign lets a member campaign, as when its clock runs out.
func (t *trial) campaign(id uint64) {
	m := t.members[id]
	if m.leads() || !t.leavesOut(campaignRule) && !t.mayPass(m, "a campaign") {
		return
	}
	if t.looks && !m.hasLooked() {
		t.observer.seen["a campaign is kept off"]++
		return
	}
	if !hasAppliedChanges(m.raw, m.storage) {
		t.observer.seen["a campaign before changes"]++
	}
	m.raw.Campaign()
	if m.leads() {
		t.observer.seesLeader(m)
	}
}

// restart kills a member, and starts it from its disk, where hard states may be lost that were not synced. If its application
// keeps all that it has applied, and no change is beyond the snapshot, it may start after that. If a rule is left out, it may
// be killed while it saves, between the entries and their hard state, or its disk may be empty, or a change be beyond the
// snapshot.
func (t *trial) restart(id uint64) {
	m := t.members[id]
	if m == nil {
		return
	}
	switch {
	case t.leavesOut(hardStateRule) && m.ready == nil && m.raw.HasReady():
		if ready := m.raw.Ready(); raft.IsEmptySnap(ready.Snapshot) {
			m.storage.Append(ready.Entries)
		}
	case t.leavesOut(diskRule) && t.chance.Intn(4) == 0:
		t.disks[id] = raft.NewMemoryStorage()
	}
	if m.crash(t.leavesOut(syncRule)) {
		t.observer.seen["a hard state is lost"]++
		m.commitSnapshot()
	}
	if t.disks[id] == m.storage && t.chance.Intn(2) == 0 && t.mayStartBeyond(m) {
		t.members[id] = startBeyond(t, id, m)
		t.slowDown(id)
		t.observer.seen["a restart beyond the snapshot"]++
	} else {
		t.start(id)
	}
	m = t.members[id]
	if !hasAppliedChanges(m.raw, m.storage) {
		t.observer.seen["a restart before changes"]++
	}
}

// mayStartBeyond says whether raft accepts what a member has applied as Config.Applied, and the ConfState in its storage is
// that after it.
func (t *trial) mayStartBeyond(m *member) bool {
	snapshot, _ := m.storage.Snapshot()
	hardState, _, _ := m.storage.InitialState()
	first := snapshot.Metadata.Index
	return first < m.applied && m.applied <= hardState.Commit && (t.leavesOut(appliedRule) || t.observer.changes(m.storage, first, m.applied) == 0)
}

// snapshot lets a member take a snapshot, and drop some of the entries that it has and raft takes for applied.
func (t *trial) snapshot(id uint64) {
	m := t.members[id]
	m.snapshot()
	first, _ := m.storage.FirstIndex()
	last := m.raw.BasicStatus().Applied
	if m.applied < last {
		last = m.applied
	}
	if first <= last {
		m.storage.Compact(first + uint64(t.chance.Intn(int(last-first+1))))
	}
}

// retire stops a member that was removed.
func (t *trial) retire(id uint64) {
	if t.observer.isRetired(id) {
		delete(t.members, id)
	}
}

func (t *trial) proposeEntry(id uint64) {
	t.proposed++
	t.members[id].raw.Propose([]byte(strconv.Itoa(t.proposed)))
}

// transfer moves leadership to a voter that runs, first to one that has not applied all changes that it should.
func (t *trial) transfer(id uint64) {
	m := t.members[id]
	var others, behind []uint64
	for _, other := range without(m.state.Voters, []uint64{id}) {
		if to := t.members[other]; to != nil {
			others = append(others, other)
			if !hasAppliedChanges(to.raw, to.storage) {
				behind = append(behind, other)
			}
		}
	}
	switch {
	case len(behind) > 0:
		m.raw.TransferLeader(oneOf(t.chance, behind))
	case len(others) > 0:
		m.raw.TransferLeader(oneOf(t.chance, others))
	}
}

// proposeChange proposes a change at random, if etcd accepts it in the configuration that the leader has. Now and then a
// new member starts. An id that was a member, and is none, does not come back.
func (t *trial) proposeChange(id uint64) {
	if len(t.members) < membersOfTrial && t.chance.Intn(4) == 0 {
		t.startNew(raft.NewMemoryStorage())
	}
	m := t.members[id]
	if t.waits && !t.haveApplied(m) {
		return
	}
	var candidates []uint64
	for _, id := range t.ids() {
		if holds(members(m.state), id) || !t.observer.wasMember[id] {
			candidates = append(candidates, id)
		}
	}
	if len(candidates) == 0 {
		return
	}
	next := t.change(m.state, candidates)
	if list := next.AsV2(); isAccepted(m.state, list) && !orphansLeader(list, m.state, id) {
		m.raw.ProposeConfChange(next)
	}
}

// haveApplied says whether all members of a leader's configuration run, and have applied all changes that any has
// applied, and whether the leader has applied all changes of its log.
func (t *trial) haveApplied(leader *member) bool {
	for _, id := range members(leader.state) {
		if m := t.members[id]; m == nil || m.applied < t.observer.lastChange {
			return false
		}
	}
	return !leader.hasPendingChange()
}

// orphansLeader says whether a change enters a joint configuration with auto-leave while the leader is not a voter. If
// the leader is not a member after it, etcd panics when it wants to leave.
func orphansLeader(next pb.ConfChangeV2, state pb.ConfState, leader uint64) bool {
	autoLeave, isJoint := next.EnterJoint()
	return isJoint && autoLeave && !holds(voterIDs(state), leader)
}

// change returns a V1, V2 or joint change of some ids, or one that leaves a joint configuration. One of three removals
// stays one.
func (t *trial) change(state pb.ConfState, ids []uint64) pb.ConfChangeI {
	if len(state.VotersOutgoing) > 0 {
		return pb.ConfChangeV2{}
	}
	list := changeList(t.chance, ids, 1+t.chance.Intn(3))
	if list[0].Type == pb.ConfChangeRemoveNode && t.chance.Intn(3) > 0 {
		list[0].Type = pb.ConfChangeAddNode
	}
	switch kind := t.chance.Intn(12); {
	case kind < 5:
		return pb.ConfChange{Type: list[0].Type, NodeID: list[0].NodeID}
	case kind < 9:
		return pb.ConfChangeV2{Changes: list[:1]}
	case kind < 11 || t.waits: // raft waits for no one before it leaves by itself
		return pb.ConfChangeV2{Transition: pb.ConfChangeTransitionJointExplicit, Changes: list}
	default:
		return pb.ConfChangeV2{Transition: pb.ConfChangeTransitionJointImplicit, Changes: list}
	}
}

// isAccepted says whether etcd's changer accepts a change in a configuration. To apply another would be a panic.
func isAccepted(state pb.ConfState, next pb.ConfChangeV2) bool {
	changer := confchange.Changer{Tracker: tracker.MakeProgressTracker(10)}
	var err error
	if changer.Tracker.Config, changer.Tracker.Progress, err = confchange.Restore(changer, state); err != nil {
		return false
	}
	if next.LeaveJoint() {
		_, _, err = changer.LeaveJoint()
	} else if autoLeave, isJoint := next.EnterJoint(); isJoint {
		_, _, err = changer.EnterJoint(autoLeave, next.Changes...)
	} else {
		_, _, err = changer.Simple(next.Changes...)
	}
	return err == nil
}
