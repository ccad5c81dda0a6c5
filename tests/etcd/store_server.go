package etcd

import (
	"encoding/binary"
	"strconv"
	"strings"

	library "confscript"

	"go.etcd.io/etcd/raft"
	pb "go.etcd.io/etcd/raft/raftpb"
)

// floorPrefix begins an entry that says up to where the logs may be cut.
const floorPrefix = "floor="

// A replica is a server of a store. Its disk outlives a crash, but for hard states that were not synced.
type replica struct {
	*member
	store    *store
	id       uint64
	disk     *raft.MemoryStorage
	views    *library.Views
	answer   library.Action // when it was asked last
	isUp     bool
	isDead   bool
	wakesAt  int
	changed  uint64            // the index of the last change that it has applied
	written  map[string]bool   // what was written at this server, and is not applied
	reads    map[uint64]uint64 // what was acknowledged when a read began, by its number
	served   map[uint64]uint64 // the index that a read has to wait for, by its number
	reported uint64            // what it last reported as applied, and when
	reportAt int
}

// start starts a server from its disk.
func (s *replica) start() {
	snapshot, _ := s.disk.Snapshot()
	s.member = &member{storage: s.disk, preVote: s.store.preVote, checkQuorum: s.store.checkQuorum}
	s.restore(snapshot)
	s.begin(s.store.t, s.id)
	s.views = library.NewViews[raft.Status, pb.Entry](s.raw, s.disk, 10)
	s.written, s.reads, s.served = map[string]bool{}, map[uint64]uint64{}, map[uint64]uint64{}
	s.isUp = true
	s.become()
	s.handleAll()
}

// become takes the configuration over that it has applied.
func (s *replica) become() {
	s.changed = s.applied
	s.views.Applied(s.applied, &s.state)
}

func (s *replica) status() raft.BasicStatus { return s.raw.BasicStatus() }

func (s *replica) votes() bool { return holds(voterIDs(s.state), s.id) }

// receive takes a message. A server that does not vote answers no reads of others: where there is one voter, raft would.
func (s *replica) receive(message pb.Message) {
	if message.Type == pb.MsgReadIndex && !s.votes() {
		return
	}
	s.raw.Step(message) // an error says that the message is out of date
	s.views.Heard(message.From)
	s.handleAll()
}

func (s *replica) tick() {
	s.raw.Tick()
	s.views.Ticked()
	s.handleAll()
	if s.isUp && s.store.chance.Intn(4) == 0 {
		s.reported, s.reportAt = s.applied, s.store.round
	}
}

func (s *replica) write(text string) {
	if s.raw.Propose([]byte(text)) == nil {
		s.written[text] = true
	}
	s.handleAll()
}

// read begins a read, which sees all that was acknowledged before. A server that does not vote begins none.
func (s *replica) read(number uint64) {
	if s.votes() {
		s.reads[number] = s.store.acknowledged
		s.raw.ReadIndex(binary.BigEndian.AppendUint64(nil, number))
		s.handleAll()
	}
}

// view is what a leader knows. If members are asked, it is what they last reported, and not what raft knows of their logs.
func (s *replica) view() library.View {
	view, err := s.views.View()
	if err != nil {
		s.store.t.Fatal(err)
	}
	view.Started, view.Retired = s.store.ids(), s.store.retired
	if !s.store.asks {
		return view
	}
	view.ConfIndex = s.changed
	for id := range view.Progress {
		if other := s.store.servers[id]; id == s.id {
			view.Progress[id] = library.Progress{Match: s.applied, RecentActive: true}
		} else if other != nil {
			view.Progress[id] = library.Progress{Match: other.reported, RecentActive: other.reportAt > 0 && s.store.round-other.reportAt < 25}
		}
	}
	return view
}

func (s *replica) handleAll() {
	for s.isUp && s.raw.HasReady() {
		s.handle()
	}
	for number, index := range s.served {
		if s.isUp && index <= s.applied {
			s.answerRead(number, index)
		}
	}
}

// answerRead demands that a read sees what was acknowledged before it began.
func (s *replica) answerRead(number, index uint64) {
	if floor := s.reads[number]; index < floor {
		s.store.t.Fatalf("%d reads at index %d, and %d was acknowledged before", s.id, index, floor)
	}
	s.store.seen["a read"]++
	delete(s.reads, number)
	delete(s.served, number)
}

// handle saves, sends and applies what a server has ready, unless it crashes.
func (s *replica) handle() {
	ready := s.raw.Ready()
	s.expectNoView(ready)
	if s.crashes("before it saves") {
		return
	}
	s.accept(ready)
	s.views.Saved()
	if !raft.IsEmptySnap(ready.Snapshot) {
		s.become()
	}
	if ready.SoftState != nil && s.leads() {
		s.store.leads(s)
	}
	for _, message := range ready.Messages {
		if s.crashes("before it sends") {
			return
		}
		s.send(message)
	}
	for _, read := range ready.ReadStates {
		if number := binary.BigEndian.Uint64(read.RequestCtx); s.reads[number] > 0 {
			s.served[number] = read.Index
		}
	}
	for len(s.handed) > 0 {
		if s.crashes("before it applies") {
			return
		}
		s.applyNext()
	}
	if !s.crashes("before it advances") {
		s.advance()
	}
}

// expectNoView demands that there is no view while a leader counts entries that are not saved.
func (s *replica) expectNoView(ready raft.Ready) {
	if _, isMember := s.raw.Status().Progress[s.id]; !isMember || len(ready.Entries) == 0 {
		return
	}
	if view, err := s.views.View(); err != library.ErrUnsaved {
		s.store.t.Fatalf("a view between a Ready and its saving: %+v, %v", view, err)
	}
	s.store.seen["no view"]++
}

func (s *replica) send(message pb.Message) {
	isLost := !s.store.carry(message)
	if isLost {
		s.raw.ReportUnreachable(message.To)
	}
	if message.Type == pb.MsgSnap {
		status := raft.SnapshotFinish
		if isLost {
			status = raft.SnapshotFailure
		}
		s.raw.ReportSnapshot(message.To, status)
		s.store.seen["a snapshot"]++
	}
}

// applyNext applies the next entry. With each change, and now and then, the server takes a snapshot, and may drop from its
// log what is in it.
func (s *replica) applyNext() {
	entry := s.handed[0]
	s.handed = s.handed[1:]
	s.store.history.applies(s.id, entry)
	isChange := s.apply(entry)
	if isChange {
		s.become()
		s.store.becomes(s)
	} else if text := string(entry.Data); s.written[text] {
		delete(s.written, text)
		if s.store.acknowledged < entry.Index {
			s.store.acknowledged = entry.Index
		}
	}
	if isChange || entry.Index%16 == 0 {
		s.snapshot()
	}
	if floor, err := strconv.ParseUint(strings.TrimPrefix(string(entry.Data), floorPrefix), 10, 64); err == nil {
		s.cut(floor)
	}
}

// cut drops the beginning of the log, up to an index, but not what is not in a snapshot.
func (s *replica) cut(floor uint64) {
	snapshot, _ := s.disk.Snapshot()
	if floor > snapshot.Metadata.Index {
		floor = snapshot.Metadata.Index
	}
	if s.disk.Compact(floor) == nil {
		s.store.seen["a log is cut"]++
		if len(s.state.VotersOutgoing) > 0 {
			s.store.seen["a log is cut while joint"]++
		}
	}
}
