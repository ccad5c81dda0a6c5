package etcd

import (
	"math"

	"go.etcd.io/etcd/raft"
	pb "go.etcd.io/etcd/raft/raftpb"
)

// An observer holds what the members of a trial show against what they showed before (history.go), and against these
// invariants, by which the configurations that count votes and acknowledgements are never further apart than one change:
//
//   - of a leader's log at most one change is not applied by it,
//   - of a stored log at most one change is not known to be committed by the hard state that is stored with it,
//   - of the log up to the end of an append at most one change is beyond the commit index that the append carries,
//   - a new leader has all entries that were applied.
type observer struct {
	*history
	wasMember  map[uint64]bool // the ids that were ever in a configuration
	last       uint64          // the last index of those that were applied
	lastChange uint64          // the last index of a change that was applied
	leader     uint64          // the greatest term that had a leader
	seen       map[string]int  // how often each kind of thing happened
	anyCommit  bool            // the second invariant may be broken
}

func newObserver(t reporter, first pb.ConfState) *observer {
	o := &observer{history: newHistory(t), wasMember: map[uint64]bool{}, last: 1, seen: map[string]int{}}
	o.entries[1] = applied{term: 1}
	o.becomes(0, 1, first)
	return o
}

// isRetired says whether an id was a member, and is none after the last change.
func (o *observer) isRetired(id uint64) bool {
	return o.wasMember[id] && !holds(members(o.stateAt(o.last)), id)
}

func (o *observer) applies(id uint64, entry pb.Entry) {
	o.history.applies(id, entry)
	if entry.Index > o.last {
		o.last = entry.Index
	}
	o.seen["an entry is applied"]++
}

func (o *observer) becomes(id, index uint64, state pb.ConfState) {
	o.history.becomes(id, index, state)
	if index > o.lastChange {
		o.lastChange = index
	}
	for _, member := range members(state) {
		o.wasMember[member] = true
	}
	o.seen["a change is applied"]++
	if len(state.VotersOutgoing) > 0 {
		o.seen["a joint configuration"]++
	}
}

// sees looks at a member that has saved what is ready.
func (o *observer) sees(m *member, ready raft.Ready) {
	if !raft.IsEmptySnap(ready.Snapshot) {
		o.seen["a snapshot from the leader"]++
	}
	status := m.raw.BasicStatus()
	stored, _, _ := m.storage.InitialState()
	last, _ := m.storage.LastIndex()
	if count := o.changes(m.storage, stored.Commit, last); count > 1 && !o.anyCommit {
		o.t.Fatalf("%d has stored %d changes after %d, up to which it knows its log to be committed", status.ID, count, stored.Commit)
	}
	if status.RaftState != raft.StateLeader {
		return
	}
	o.seesLeader(m)
	if status.Term > o.leader {
		o.leader = status.Term
		o.expectAll(m, status.Term)
	}
	for _, message := range ready.Messages {
		if message.Type == pb.MsgApp && message.Term == status.Term {
			end := message.Index + uint64(len(message.Entries))
			if count := o.changes(m.storage, message.Commit, end); count > 1 {
				o.t.Fatalf("%d appends up to %d with commit index %d, after which are %d changes", status.ID, end, message.Commit, count)
			}
			o.seen["an append"]++
		}
	}
}

// seesLeader looks at a member that leads.
func (o *observer) seesLeader(m *member) {
	status := m.raw.BasicStatus()
	// Before its term is saved it has sent nothing, and a crash makes it undone.
	if stored, _, _ := m.storage.InitialState(); stored.Term == status.Term {
		if _, isKnown := o.leaders[status.Term]; !isKnown {
			o.seen["a leader"]++
		}
		o.leads(status.Term, status.ID)
	}
	applied := status.Applied
	if m.applied < applied {
		applied = m.applied
	}
	last, _ := m.storage.LastIndex()
	if count := o.changes(m.storage, applied, last); count > 1 {
		o.t.Fatalf("%d leads term %d with %d changes after %d, up to which it has applied", status.ID, status.Term, count, applied)
	}
}

// expectAll demands that a new leader has all entries that were applied.
func (o *observer) expectAll(m *member, term uint64) {
	first, _ := m.storage.FirstIndex()
	for index := first; index <= o.last; index++ {
		if found, err := m.storage.Term(index); err != nil || found != o.entries[index].term {
			o.t.Fatalf("%d leads term %d without the entry at %d, which was applied", m.raw.BasicStatus().ID, term, index)
		}
	}
}

// changes counts the changes in a log after an index, up to another. A second change that leaves the same joint
// configuration does not count: who applies it panics.
func (o *observer) changes(storage *raft.MemoryStorage, after, last uint64) int {
	if first, _ := storage.FirstIndex(); after+1 < first {
		after = first - 1
	}
	if after >= last {
		return 0
	}
	entries, err := storage.Entries(after+1, last+1, math.MaxUint64)
	if err != nil {
		o.t.Fatal(err)
	}
	count := 0
	isJoint := len(o.stateAt(after).VotersOutgoing) > 0
	for _, entry := range entries {
		change := changeOf(entry)
		if change == nil {
			continue
		}
		list := change.AsV2()
		if leaves := list.LeaveJoint(); !leaves || isJoint {
			count++
			_, enters := list.EnterJoint()
			isJoint = enters && !leaves
		}
	}
	return count
}

// stateAt returns the configuration after the last change up to an index.
func (o *observer) stateAt(index uint64) pb.ConfState {
	for ; index > 0; index-- {
		if state, ok := o.states[index]; ok {
			return state
		}
	}
	return pb.ConfState{}
}
