package etcd

import (
	"math/rand"
	"strconv"
	"testing"

	"go.etcd.io/etcd/raft"
	pb "go.etcd.io/etcd/raft/raftpb"
)

// patience is how many rounds a service waits for something before it ends the test.
const patience = 20000

// A service is a cluster that serves while it is changed: each member has a clock of its own, entries are proposed all
// the while, messages are dropped, delayed and reordered, members restart from their disks, and some are down. What is
// left to chance comes from a seed, and time is counted in rounds, so that a service runs the same way each time.
type service struct {
	t        *testing.T
	chance   *rand.Rand
	network  *network
	disks    map[uint64]*raft.MemoryStorage // of all members that were ever started
	members  map[uint64]*member             // that run
	history  *history
	round    int
	proposed int  // how many entries were proposed
	isQuiet  bool // whether no entries are proposed
}

// newService starts those members of a configuration that are not down.
func newService(t *testing.T, state pb.ConfState, down []uint64, seed int64) *service {
	seedElectionTimeouts(seed)
	chance := rand.New(rand.NewSource(seed))
	s := &service{
		t:       t,
		chance:  chance,
		network: &network{chance: chance, loss: 0.2 * chance.Float64(), delay: 1 + chance.Intn(4)},
		disks:   map[uint64]*raft.MemoryStorage{},
		members: map[uint64]*member{},
		history: newHistory(t),
		isQuiet: state.AutoLeave && !isMended,
	}
	for _, id := range members(state) {
		s.disks[id] = storageOf(state)
	}
	s.start(without(members(state), down))
	return s
}

// start starts members from their disks. A new one has an empty disk; one that comes back has its log and its vote.
func (s *service) start(ids []uint64) {
	for _, id := range ids {
		if s.members[id] != nil {
			continue
		}
		if s.disks[id] == nil {
			s.disks[id] = raft.NewMemoryStorage()
		}
		s.members[id] = startMember(s.t, id, s.disks[id])
		s.handle(id)
	}
}

// stop stops members at once. Their disks are left.
func (s *service) stop(ids []uint64) {
	for _, id := range ids {
		delete(s.members, id)
	}
}

// ids returns the members that run, in ascending order.
func (s *service) ids() []uint64 {
	return idsOf(s.members)
}

// step passes a round: messages come in, clocks tick, an entry is proposed, and now and then a member restarts, or drops
// the beginning of its log.
func (s *service) step() {
	s.round++
	for _, message := range s.network.receive(s.round) {
		s.receive(message)
	}
	for _, id := range s.ids() {
		if s.chance.Intn(10) > 0 { // no two clocks run alike
			s.members[id].raw.Tick()
			s.handle(id)
		}
	}
	if len(s.members) == 0 {
		return
	}
	id := oneOf(s.chance, s.ids())
	switch s.chance.Intn(50) {
	case 0:
		s.stop([]uint64{id})
		s.start([]uint64{id})
	case 1:
		s.compact(s.members[id])
	default:
		if !s.isQuiet && s.chance.Intn(2) == 0 {
			s.proposeEntry(id)
		}
	}
}

// compact lets a member drop that part of its log that all members of its configuration have. The others may still need
// the rest, since etcd 3.4 sends a member that is only an outgoing voter no snapshot that it accepts.
func (s *service) compact(m *member) {
	common := m.applied
	for _, id := range members(m.state) {
		disk := s.disks[id]
		if disk == nil {
			continue
		}
		if state, _, _ := disk.InitialState(); 0 < state.Commit && state.Commit < common {
			common = state.Commit
		}
	}
	m.snapshot()
	m.storage.Compact(common) // an error says that this was dropped before
}

// until passes rounds until something is so.
func (s *service) until(what string, isSo func() bool) {
	s.t.Helper()
	for last := s.round + patience; !isSo(); s.step() {
		if s.round == last {
			s.t.Fatalf("after %d rounds there is no sign of %s; %v run, and %d leads", patience, what, s.ids(), s.leader())
		}
	}
}

// handle saves, sends and applies what a member has ready.
func (s *service) handle(id uint64) {
	m := s.members[id]
	if status := m.raw.BasicStatus(); status.RaftState == raft.StateLeader {
		s.history.leads(status.Term, id)
	}
	for m.raw.HasReady() {
		ready := m.raw.Ready()
		m.save(ready)
		for _, message := range ready.Messages {
			if s.network.send(message, s.round) {
				s.report(message, raft.SnapshotFailure)
			}
		}
		for _, entry := range ready.CommittedEntries {
			s.history.applies(id, entry)
			if m.apply(entry) {
				m.snapshot()
				s.history.becomes(id, entry.Index, m.state)
			}
		}
		m.raw.Advance(ready)
	}
}

// receive delivers a message, unless the member that it is for does not run.
func (s *service) receive(message pb.Message) {
	to := s.members[message.To]
	if to == nil {
		s.report(message, raft.SnapshotFailure)
		return
	}
	s.report(message, raft.SnapshotFinish)
	to.raw.Step(message) // an error says that the message is out of date
	s.handle(message.To)
}

// report reports to the sender of a snapshot what became of it, as etcd's raft demands.
func (s *service) report(message pb.Message, status raft.SnapshotStatus) {
	if from := s.members[message.From]; from != nil && message.Type == pb.MsgSnap {
		from.raw.ReportSnapshot(message.To, status)
	}
}

// leader returns the member that leads in the greatest term, or 0.
func (s *service) leader() uint64 {
	var leader, term uint64
	for _, id := range s.ids() {
		status := s.members[id].raw.BasicStatus()
		if status.RaftState == raft.StateLeader && status.Term > term {
			leader, term = id, status.Term
		}
	}
	return leader
}

// proposeEntry proposes the next entry to a member, which passes it on to the leader. Without one the entry is lost.
func (s *service) proposeEntry(id uint64) {
	s.proposed++
	s.members[id].raw.Propose([]byte(strconv.Itoa(s.proposed)))
	s.handle(id)
}

// pause stops the proposing of entries, and waits until none is on its way to a leader.
func (s *service) pause() {
	s.isQuiet = true
	s.until("the end of what was proposed", func() bool { return !s.network.carries(pb.MsgProp) })
}

// serve waits until ten entries that are proposed from now on are acknowledged.
func (s *service) serve() {
	s.isQuiet = false
	proposed, seen, served := s.proposed, len(s.history.acknowledged), 0
	s.until("the next entries", func() bool {
		for ; seen < len(s.history.acknowledged); seen++ {
			if number, _ := strconv.Atoi(s.history.acknowledged[seen]); number > proposed {
				served++
			}
		}
		return served >= 10
	})
}

// catchUp waits until those of some members that run have applied all that any has applied by now.
func (s *service) catchUp(ids []uint64) {
	var last uint64
	for _, m := range s.members {
		if m.applied > last {
			last = m.applied
		}
	}
	s.until("members that have caught up", func() bool {
		for _, id := range ids {
			if m := s.members[id]; m != nil && m.applied < last {
				return false
			}
		}
		return true
	})
}

// run lets these members run, and no others.
func (s *service) run(ids []uint64) {
	s.stop(without(s.ids(), ids))
	s.start(ids)
}

// letBeDown stops some members at random, at most as many as may be down, and returns how many it stopped.
func (s *service) letBeDown(among []uint64, atMost int) int {
	count := least(atMost, len(among))
	for _, index := range s.chance.Perm(len(among))[:count] {
		s.stop(among[index : index+1])
	}
	return count
}

// propose proposes a change to the leader, unless it has one that it has not applied. First it moves leadership to a
// voter that stays one, if the leader does not. It is called again and again, since what is proposed may be lost.
func (s *service) propose(change pb.ConfChangeI, before, after pb.ConfState) (isMoved bool) {
	id := s.leader()
	if id == 0 || s.round%10 > 0 || s.members[id].hasPendingChange() {
		return false
	}
	defer s.handle(id)
	leader := s.members[id].raw
	if !holds(voterIDs(after), id) {
		staying := staying(before, after)
		if running := without(staying, without(staying, s.ids())); len(running) > 0 {
			leader.TransferLeader(oneOf(s.chance, running))
			return true
		}
	}
	leader.ProposeConfChange(change)
	return false
}

// compareStates demands that each member of a configuration that runs has it.
func (s *service) compareStates(state pb.ConfState) {
	for _, id := range members(state) {
		if m := s.members[id]; m != nil && !isSame(m.state, state) {
			s.t.Fatalf("%d has the configuration\n%s\ninstead of\n%s", id, describe(m.state), describe(state))
		}
	}
}

// leftWithoutLog returns the members of a configuration that are only outgoing voters and never ran. etcd 3.4 sends them
// no snapshot that they accept.
func (s *service) leftWithoutLog(state pb.ConfState) []uint64 {
	var ids []uint64
	if isMended {
		return nil
	}
	for _, id := range without(state.VotersOutgoing, state.Voters) {
		if s.disks[id] == nil {
			ids = append(ids, id)
		}
	}
	return ids
}
