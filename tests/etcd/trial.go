package etcd

import (
	"fmt"
	"math/rand"

	"go.etcd.io/etcd/raft"
	pb "go.etcd.io/etcd/raft/raftpb"
)

// A rule is one that etcd 3.4.23's raft leaves to the program around it.
type rule string

const (
	campaignRule  rule = "no campaign while a change is committed and not applied"
	transferRule  rule = "no MsgTimeoutNow while a change is committed and not applied"
	snapshotRule  rule = "no MsgSnap while a change is committed and not applied"
	advanceRule   rule = "ApplyConfChange before Advance"
	hardStateRule rule = "entries and hard state are saved as one"
	syncRule      rule = "a hard state is durable no later than what is saved after it"
	applyRule     rule = "a Ready is saved before it is applied"
	sendRule      rule = "a Ready is saved before it is sent"
	appliedRule   rule = "the ConfState in the storage is that after Config.Applied"
	cancelRule    rule = "a change that is cancelled is cancelled by all"
	diskRule      rule = "no id comes back with an empty disk"
)

const (
	roundsOfTrial  = 1000
	roundsOfPhase  = 60 // at most
	membersOfTrial = 6  // that run at once, at most
)

// A trial is a random run of a cluster whose configuration changes all the while. Its members are slow to apply, restart,
// and drop the beginning of their logs; its messages are lost, doubled and late. It keeps the rules from outside, but for
// some that may be left out. All is left to chance, which comes from a seed.
type trial struct {
	leftOut       []rule
	waits         bool // a change waits until each member has applied the one before, and restarts do not undo that
	looks         bool // a member campaigns only when it has applied all changes of its log but one
	chance        *rand.Rand
	network       *network
	disks         map[uint64]*raft.MemoryStorage
	members       map[uint64]*member // that run
	idleUntil     map[uint64]int     // the round up to which a member only gets messages
	observer      *observer
	groups        [][]uint64 // messages pass only within a group
	memberActions []action   // as often as in this phase
	leaderActions []action
	round         int
	phaseEnd      int
	proposed      int
	lastID        uint64 // each id up to it was given to a member
}

// newTrial starts a cluster of one to three members, and others that are none yet: four to six in all.
func newTrial(seed int64, leftOut ...rule) *trial {
	chance := rand.New(rand.NewSource(seed))
	t := &trial{
		leftOut:   leftOut,
		chance:    chance,
		network:   &network{chance: chance},
		disks:     map[uint64]*raft.MemoryStorage{},
		members:   map[uint64]*member{},
		idleUntil: map[uint64]int{},
	}
	first := pb.ConfState{Voters: []uint64{1, 2, 3}[:1+chance.Intn(3)]}
	t.observer = newObserver(t, first)
	for count := 4 + chance.Intn(3); len(t.members) < count; {
		if holds(first.Voters, t.lastID+1) {
			t.startNew(storageOf(first))
		} else {
			t.startNew(raft.NewMemoryStorage())
		}
	}
	return t
}

// startNew starts a member with the next id.
func (t *trial) startNew(disk *raft.MemoryStorage) {
	t.lastID++
	t.disks[t.lastID] = disk
	t.start(t.lastID)
}

// A contradiction ends a trial whose members contradict each other, or an invariant.
type contradiction string

func (t *trial) Fatal(values ...interface{}) { panic(contradiction(fmt.Sprint(values...))) }

func (t *trial) Fatalf(format string, values ...interface{}) {
	panic(contradiction(fmt.Sprintf(format, values...)))
}

// isKept says whether etcd's raft keeps a rule by itself.
func isKept(rule rule) bool {
	return isMended && (rule == campaignRule || rule == transferRule)
}

// mayPanic says whether a rule is left out that raft does not keep by itself.
func (t *trial) mayPanic() bool {
	for _, rule := range t.leftOut {
		if !isKept(rule) {
			return true
		}
	}
	return false
}

// leavesOut says whether a rule is not kept.
func (t *trial) leavesOut(rule rule) bool {
	for _, other := range t.leftOut {
		if rule == other {
			return true
		}
	}
	return false
}

// run runs the trial, and returns the contradiction that it ended with, or "". A panic is one too, unless rules are left
// out that raft does not keep: then etcd may panic.
func (t *trial) run() (ended contradiction) {
	defer func() {
		value := recover()
		contradicted, is := value.(contradiction)
		_, isFromLogger := value.(string) // of etcd
		switch {
		case is:
			ended = contradicted
		case value != nil && !t.mayPanic():
			ended = contradiction(fmt.Sprint("a panic: ", value))
		case value != nil && !isFromLogger:
			panic(value)
		}
	}()
	for t.round < roundsOfTrial && len(t.members) > 0 {
		t.step()
	}
	return ""
}

// start starts a member from its disk.
func (t *trial) start(id uint64) {
	t.members[id] = startMember(t, id, t.disks[id])
	t.slowDown(id)
}

// slowDown lets a member be idle for some rounds, and sets its pace from then on.
func (t *trial) slowDown(id uint64) {
	t.idleUntil[id] = t.round + t.chance.Intn(1+t.chance.Intn(40))
	t.members[id].pace = []pace{prompt, prompt, slow}[t.chance.Intn(3)]
}

// ids returns the members that run, in ascending order.
func (t *trial) ids() []uint64 {
	return idsOf(t.members)
}

// leaders returns the members that take themselves for the leader.
func (t *trial) leaders() []uint64 {
	var leaders []uint64
	for _, id := range t.ids() {
		if t.members[id].leads() {
			leaders = append(leaders, id)
		}
	}
	return leaders
}

func (m *member) leads() bool {
	return m.raw.BasicStatus().RaftState == raft.StateLeader
}

// step passes a round: messages come in, a member does something, and so does a leader. Without one a member campaigns.
func (t *trial) step() {
	if t.round == t.phaseEnd {
		t.beginPhase()
	}
	t.round++
	for _, message := range t.network.receive(t.round) {
		t.receive(message)
	}
	t.act(t.oneOfMembers(), t.memberActions)
	if leaders := t.leaders(); len(leaders) > 0 {
		t.act(oneOf(t.chance, leaders), t.leaderActions)
	} else if len(t.members) > 0 && t.chance.Intn(40) == 0 {
		t.campaign(t.oneOfMembers())
	}
	for _, id := range t.ids() {
		for t.isPrompt(id) && t.handle(id) {
		}
	}
}

func (t *trial) isPrompt(id uint64) bool {
	m := t.members[id]
	return m != nil && m.pace == prompt
}

// oneOfMembers returns a member that runs, seldom one that knows of no configuration.
func (t *trial) oneOfMembers() uint64 {
	id := oneOf(t.chance, t.ids())
	for i := 0; i < 5 && len(t.members[id].state.Voters) == 0; i++ {
		id = oneOf(t.chance, t.ids())
	}
	return id
}

// beginPhase changes how the network and the members behave for some rounds.
func (t *trial) beginPhase() {
	t.phaseEnd = t.round + 1 + t.chance.Intn(roundsOfPhase)
	t.memberActions, t.leaderActions = t.mix(memberActions), t.mix(leaderActions)
	t.network.delay = 1 + t.chance.Intn(1+t.chance.Intn(20))
	t.network.loss = 0.3 * t.chance.Float64() * t.chance.Float64()
	t.network.doubling = 0.3 * t.chance.Float64() * t.chance.Float64()
	ids := t.ids()
	for _, id := range some(t.chance, ids, len(ids)) {
		t.slowDown(id)
	}
	t.groups = [][]uint64{ids}
	if t.chance.Intn(2) == 0 {
		t.chance.Shuffle(len(ids), func(i, j int) { ids[i], ids[j] = ids[j], ids[i] })
		cut := t.chance.Intn(len(ids) + 1)
		t.groups = [][]uint64{ids[:cut], ids[cut:]}
	}
}

// send puts a message on the network, unless it leaves its group.
func (t *trial) send(message pb.Message) {
	for _, group := range t.groups {
		if holds(group, message.From) && holds(group, message.To) && !t.network.send(message, t.round) {
			return
		}
	}
	t.report(message, raft.SnapshotFailure)
	if t.chance.Intn(4) == 0 {
		t.members[message.From].raw.ReportUnreachable(message.To)
	}
}

// receive delivers a message, unless the member that it is for does not run, or a rule forbids it.
func (t *trial) receive(message pb.Message) {
	to := t.members[message.To]
	if to == nil || !t.mayStep(to, message.Type) {
		t.report(message, raft.SnapshotFailure)
		return
	}
	t.report(message, raft.SnapshotFinish)
	to.received = true
	to.raw.Step(message) // an error says that the message is out of date
	if to.leads() {
		t.observer.seesLeader(to)
	}
}

func (t *trial) mayStep(m *member, kind pb.MessageType) bool {
	if t.looks && kind == pb.MsgTimeoutNow && !m.hasLooked() {
		t.observer.seen["MsgTimeoutNow is kept off"]++
		return false
	}
	if kind == pb.MsgTimeoutNow && !t.leavesOut(transferRule) || kind == pb.MsgSnap && !t.leavesOut(snapshotRule) {
		return t.mayPass(m, kind.String())
	}
	return true
}

// mayPass says whether a rule lets a member campaign, or take a message.
func (t *trial) mayPass(m *member, what string) bool {
	if hasAppliedChanges(m.raw, m.storage) {
		return true
	}
	t.observer.seen[what+" is kept off"]++
	return false
}

// report reports to the sender of a snapshot what became of it, as etcd's raft demands.
func (t *trial) report(message pb.Message, status raft.SnapshotStatus) {
	if from := t.members[message.From]; from != nil && message.Type == pb.MsgSnap {
		from.raw.ReportSnapshot(message.To, status)
	}
}
