package etcd

import (
	"io"
	"log"
	"math"
	"sort"
	"strings"

	"go.etcd.io/etcd/raft"
	pb "go.etcd.io/etcd/raft/raftpb"
)

// A member is a RawNode. Its storage is its disk: what it holds outlives a restart. Its state machine is the list of
// the entries that it has applied.
type member struct {
	raw                  *raft.RawNode
	storage              *raft.MemoryStorage
	applied              uint64
	state                pb.ConfState        // after the last change that it applied
	entries              []string            // all that it has applied but for changes and empty entries
	given                map[uint64]pb.Entry // what it has applied since it started, by index
	synced               hardStates
	preVote, checkQuorum bool
	pace                 pace
	cancels              bool        // each change that it applies
	handed               []pb.Entry  // what it was handed and has not applied
	ready                *raft.Ready // what it has saved and sent, and Advance was not called for
	received             bool        // it was sent something since it saved last
}

// What a crash leaves of the hard states that were saved: the last one that was synced with what was saved after it, and the
// last one that was synced by itself.
type hardStates struct{ withLater, alone pb.HardState }

// A pace is when a member applies what it is handed.
type pace int

const (
	prompt pace = iota // at once
	slow               // when the test says so; until then it takes no more, as raft's page on Ready demands
	early              // when the test says so; Advance is called before that, which the page allows
)

// idsOf returns the ids of members, in ascending order.
func idsOf(members map[uint64]*member) []uint64 {
	ids := make([]uint64, 0, len(members))
	for id := range members {
		ids = append(ids, id)
	}
	sort.Slice(ids, func(i, j int) bool { return ids[i] < ids[j] })
	return ids
}

// storageOf returns the storage of a member that begins with a snapshot of a configuration.
func storageOf(state pb.ConfState) *raft.MemoryStorage {
	storage := raft.NewMemoryStorage()
	storage.ApplySnapshot(pb.Snapshot{Metadata: pb.SnapshotMetadata{ConfState: state, Index: 1, Term: 1}})
	storage.SetHardState(pb.HardState{Term: 1, Commit: 1})
	return storage
}

// A reporter ends a test, as testing.T does.
type reporter interface {
	Fatal(values ...interface{})
	Fatalf(format string, values ...interface{})
}

// startMember starts a member from its storage. etcd panics if it cannot restore the configuration there.
func startMember(t reporter, id uint64, storage *raft.MemoryStorage) *member {
	snapshot, err := storage.Snapshot()
	if err != nil {
		t.Fatal(err)
	}
	m := &member{storage: storage}
	m.restore(snapshot)
	m.begin(t, id)
	return m
}

// startBeyond starts a member again whose application has kept all that it applied, also what is beyond the snapshot in its
// storage.
func startBeyond(t reporter, id uint64, before *member) *member {
	m := &member{storage: before.storage, applied: before.applied, entries: before.entries}
	m.begin(t, id)
	return m
}

// begin starts raft, which takes all that the member has applied for applied, with the configuration that its storage has.
func (m *member) begin(t reporter, id uint64) {
	hardState, state, err := m.storage.InitialState()
	if err != nil {
		t.Fatal(err)
	}
	m.state, m.given, m.synced = state, map[uint64]pb.Entry{}, hardStates{hardState, hardState}
	m.raw, err = raft.NewRawNode(&raft.Config{
		ID:              id,
		ElectionTick:    10,
		HeartbeatTick:   1,
		Storage:         m.storage,
		Applied:         m.applied,
		PreVote:         m.preVote,
		CheckQuorum:     m.checkQuorum,
		MaxSizePerMsg:   math.MaxUint64,
		MaxInflightMsgs: 256,
		Logger:          &raft.DefaultLogger{Logger: log.New(io.Discard, "", 0)},
	})
	if err != nil {
		t.Fatal(err)
	}
}

// restore takes over what a snapshot holds.
func (m *member) restore(snapshot pb.Snapshot) {
	m.applied, m.state = snapshot.Metadata.Index, snapshot.Metadata.ConfState
	m.entries = strings.Fields(string(snapshot.Data))
}

// save saves what the member has ready, which comes before its messages are sent.
func (m *member) save(ready raft.Ready) {
	if !raft.IsEmptySnap(ready.Snapshot) {
		m.storage.ApplySnapshot(ready.Snapshot)
		m.restore(ready.Snapshot)
	}
	if !raft.IsEmptyHardState(ready.HardState) {
		m.storage.SetHardState(ready.HardState)
	}
	m.storage.Append(ready.Entries)
	if ready.MustSync || !raft.IsEmptySnap(ready.Snapshot) {
		m.sync()
		if !raft.IsEmptyHardState(ready.HardState) {
			m.synced.alone = ready.HardState
		}
	}
}

// sync makes the hard state durable that was saved last.
func (m *member) sync() {
	m.synced.withLater, _, _ = m.storage.InitialState()
}

// crash leaves in the storage the hard state that was synced, and says whether its commit index is an older one. If hard
// states are kept in a file of their own, they are not synced with what is saved after them.
func (m *member) crash(inOwnFile bool) (isOlder bool) {
	left := m.synced.withLater
	if inOwnFile {
		left = m.synced.alone
	}
	stored, _, _ := m.storage.InitialState()
	m.storage.SetHardState(left)
	return left.Commit < stored.Commit
}

// commitSnapshot raises the commit index of the stored hard state to the index of the snapshot, or raft would not start.
func (m *member) commitSnapshot() {
	hardState, _, _ := m.storage.InitialState()
	if snapshot, _ := m.storage.Snapshot(); hardState.Commit < snapshot.Metadata.Index {
		hardState.Commit = snapshot.Metadata.Index
		m.storage.SetHardState(hardState)
	}
}

// take takes what the member has ready, and saves it. It has to be sent, and applied.
func (m *member) take() raft.Ready {
	ready := m.raw.Ready()
	m.accept(ready)
	return ready
}

// accept saves what is ready, and hands the committed entries to the application.
func (m *member) accept(ready raft.Ready) {
	m.save(ready)
	m.received = false
	m.handed = append(m.handed, ready.CommittedEntries...)
	m.ready = &ready
}

// advance ends what the member has taken.
func (m *member) advance() {
	ready := *m.ready
	m.ready = nil
	m.raw.Advance(ready)
}

// apply applies a committed entry, and says whether it changes the configuration.
func (m *member) apply(entry pb.Entry) bool {
	m.applied = entry.Index
	m.given[entry.Index] = entry
	change := changeOf(entry)
	if change == nil {
		m.entries = append(m.entries, strings.Fields(string(entry.Data))...)
		return false
	}
	if m.cancels {
		change = pb.ConfChange{} // of the id 0, as raft's page says
	}
	m.state = *m.raw.ApplyConfChange(change)
	return true
}

// snapshot stores a snapshot of what the member has applied, which a member that starts with an empty log is sent.
func (m *member) snapshot() {
	m.sync()
	m.storage.CreateSnapshot(m.applied, &m.state, []byte(strings.Join(m.entries, " ")))
}

// hasPendingChange says whether the member's log has a change that it has not applied.
func (m *member) hasPendingChange() bool {
	last, _ := m.storage.LastIndex()
	if m.applied == last {
		return false
	}
	entries, _ := m.storage.Entries(m.applied+1, last+1, math.MaxUint64)
	for _, entry := range entries {
		if changeOf(entry) != nil {
			return true
		}
	}
	return false
}

// hasLooked says whether a member has applied all changes of its log but one at most, whatever it knows to be committed. The
// log has to be saved for that.
func (m *member) hasLooked() bool {
	if m.received && m.raw.HasReady() {
		return false
	}
	last, _ := m.storage.LastIndex()
	applied := m.raw.BasicStatus().Applied
	if applied == last {
		return true
	}
	entries, _ := m.storage.Entries(applied+1, last+1, math.MaxUint64)
	count := 0
	for _, entry := range entries {
		if changeOf(entry) != nil {
			count++
		}
	}
	return count <= 1
}

// changeOf reads the change of an entry, or returns nil if the entry has none.
func changeOf(entry pb.Entry) pb.ConfChangeI {
	switch entry.Type {
	case pb.EntryConfChange:
		var single pb.ConfChange
		if err := single.Unmarshal(entry.Data); err != nil {
			panic(err)
		}
		return single
	case pb.EntryConfChangeV2:
		var list pb.ConfChangeV2
		if err := list.Unmarshal(entry.Data); err != nil {
			panic(err)
		}
		return list
	default:
		return nil
	}
}
