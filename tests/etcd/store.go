package etcd

import (
	"fmt"
	"math/rand"
	"testing"

	library "confscript"

	"go.etcd.io/etcd/raft"
	pb "go.etcd.io/etcd/raft/raftpb"
)

// A store is a replicated store that is led from one configuration to the next under faults. Each server that takes itself
// for the leader asks what to do next by the view that library.Views makes of its node, and that is done: servers start and
// stop, leadership moves, changes are proposed. No one else decides anything, and nothing is kept.
//
// store_server.go has a server, store_faults.go what goes wrong, and store_ends.go how a plan ends.
type store struct {
	t       *testing.T
	chance  *rand.Rand
	network *network
	history *history
	servers map[uint64]*replica // that were started, and not stopped for good
	retired []uint64
	storeOptions

	down    []uint64       // who is named as down
	namedAt map[uint64]int // when a dead server is named
	task    storeTask
	isDone  bool

	crash         float64 // how likely one is now, at each point
	round, writes int
	lastID        uint64
	term          uint64 // the greatest one that had a leader
	acknowledged  uint64 // the greatest index of a write that was acknowledged
	changed       uint64 // the index of the newest change that a server has applied, and the configuration after it
	state         pb.ConfState
	seen          map[string]int
}

// What is the same for all plans of a store.
type storeOptions struct {
	preVote, checkQuorum bool
	asks                 bool // members are asked what they have applied; else what raft knows of their logs is known
	maxLag               uint64
	shape                int // of ids
	crashes, loss        float64
	delay                int
}

// A storeTask is a target, and how to reach it.
type storeTask struct {
	strategy library.Strategy
	target   pb.ConfState
}

func newStore(t *testing.T, seed int64) *store {
	chance := rand.New(rand.NewSource(seed))
	seedElectionTimeouts(seed)
	d := &store{
		t: t, chance: chance, servers: map[uint64]*replica{}, namedAt: map[uint64]int{}, seen: map[string]int{}, history: newHistory(t),
		network: &network{chance: chance},
		storeOptions: storeOptions{
			preVote: chance.Intn(2) == 0, checkQuorum: chance.Intn(2) == 0, asks: chance.Intn(3) == 0, shape: chance.Intn(3),
			maxLag: []uint64{0, 4, 8, 40}[chance.Intn(4)], crashes: []float64{0, 0.0005, 0.002, 0.004}[chance.Intn(4)],
			loss: []float64{0, 0.02, 0.05, 0.15}[chance.Intn(4)], delay: 1 + chance.Intn(6),
		},
	}
	for count := 1 + chance.Intn(5); count > 0; count-- {
		d.state.Voters = append(d.state.Voters, d.newID())
	}
	d.changed = 1
	for _, id := range d.state.Voters {
		d.create(id, storageOf(d.state))
	}
	return d
}

// newID returns an id that was never used: a small one, one near 2^64, or any.
func (d *store) newID() uint64 {
	d.lastID++
	switch d.shape {
	case 1:
		return ^uint64(0) - d.lastID
	case 2:
		return d.lastID * 0x9E3779B97F4A7C15
	}
	return d.lastID
}

// create starts a server that was never started.
func (d *store) create(id uint64, disk *raft.MemoryStorage) {
	if d.servers[id] != nil || holds(d.retired, id) {
		d.t.Fatalf("%d is started a second time, with an empty log", id)
	}
	d.servers[id] = &replica{store: d, id: id, disk: disk}
	d.servers[id].start()
}

// ids returns the servers, in ascending order.
func (d *store) ids() (ids []uint64) {
	for id := range d.servers {
		ids = append(ids, id)
	}
	return ascending(ids)
}

// up returns the servers that are up, in ascending order of their ids.
func (d *store) up() (up []*replica) {
	for _, id := range d.ids() {
		if d.servers[id].isUp {
			up = append(up, d.servers[id])
		}
	}
	return up
}

func (d *store) leader() (leader *replica) {
	for _, s := range d.up() {
		if s.leads() && (leader == nil || s.status().Term > leader.status().Term) {
			leader = s
		}
	}
	return leader
}

// tick passes a moment: messages come in, clocks tick, servers come back, something is written and read, and leaders ask what
// is next.
func (d *store) tick() {
	d.round++
	for _, message := range d.network.receive(d.round) {
		if to := d.servers[message.To]; to != nil && to.isUp {
			to.receive(message)
		}
	}
	for _, id := range d.ids() {
		switch s := d.servers[id]; {
		case s.isUp:
			s.tick()
		case !s.isDead && d.round >= s.wakesAt:
			s.start()
		}
	}
	if up := d.up(); len(up) > 0 {
		d.serve(up[d.chance.Intn(len(up))])
	}
	for _, s := range d.up() {
		if d.servers[s.id] == s && s.isUp && s.leads() && d.chance.Intn(3) == 0 {
			d.drive(s)
		}
	}
}

// serve writes something at a server or reads something, and now and then lets its log be cut.
func (d *store) serve(s *replica) {
	switch d.chance.Intn(6) {
	case 0, 1:
		d.writes++
		s.write(fmt.Sprint("write", d.writes))
	case 2:
		s.read(uint64(d.round))
	case 3:
		if s.leads() {
			s.write(fmt.Sprint(floorPrefix, d.floor(s)))
		}
	}
}

// floor returns up to where the logs may be cut, as a leader knows: while a joint change is in its log, or in force, all that
// each voter has acknowledged that may come back; else all that a voter which counts as caught up has.
func (d *store) floor(leader *replica) uint64 {
	status := leader.raw.Status()
	least := status.Commit
	if len(leader.state.VotersOutgoing) == 0 && !leader.hasPendingChange() {
		if least < d.maxLag {
			return 0
		}
		return least - d.maxLag
	}
	for _, id := range without(voterIDs(leader.state), d.down) {
		if match := status.Progress[id].Match; match < least {
			least = match
		}
	}
	return least
}

// drive does what a leader is to do next.
func (d *store) drive(s *replica) {
	view := s.view()
	action, err := d.next(library.DriveOptions{Strategy: d.task.strategy, Down: d.down, MaxLag: d.maxLag}, fromRaft(d.task.target), view)
	if err != nil {
		d.t.Fatal(err)
	}
	s.answer = action
	switch action := action.(type) {
	case library.Start:
		d.startAll(action.IDs)
	case library.Stop:
		d.stopAll(s, action.IDs)
	case library.Transfer:
		s.raw.TransferLeader(action.To)
	case library.Propose:
		change, err := library.As[pb.ConfChangeV2](action.Stage.ConfChange)
		if err != nil {
			d.t.Fatal(err)
		}
		s.raw.ProposeConfChange(change) // an error says that raft drops it
	case library.Stuck:
		d.t.Fatalf("%v for\n%s", action, describe(s.state, d.task.target))
	case library.Done:
		d.expectDone(s)
	}
	s.handleAll()
}

// startAll starts servers, some of which never get anywhere.
func (d *store) startAll(ids []uint64) {
	for _, id := range ids {
		d.create(id, raft.NewMemoryStorage())
		if s := d.servers[id]; d.chance.Intn(12) == 0 && d.mayDie(s) {
			d.die(s)
		}
	}
}

// stopAll stops servers for good. None may be a member, and no member that may come back may have a configuration in which
// one votes without knowing the one in force.
func (d *store) stopAll(leader *replica, ids []uint64) {
	for _, id := range ids {
		if holds(members(d.state), id) {
			d.t.Fatalf("%d is stopped, and is a member of\n%s", id, describe(d.state))
		}
		for _, other := range members(leader.state) {
			s := d.servers[other]
			if s == nil || s.isDead || s == leader || !holds(voterIDs(s.state), id) {
				continue
			}
			if hardState, _, _ := s.disk.InitialState(); hardState.Commit < leader.changed {
				d.t.Fatalf("%d is stopped, and %d needs it, which knows %d to be committed, and not %d", id, other, hardState.Commit, leader.changed)
			}
		}
		delete(d.servers, id)
		d.retired = append(d.retired, id)
	}
}

// expectDone ends a plan, unless an old leader takes it for done.
func (d *store) expectDone(leader *replica) {
	if leader.status().Term < d.term {
		d.seen["an old leader is done"]++
		return
	}
	if !isSame(d.state, d.task.target) || len(without(d.ids(), members(d.state))) > 0 {
		d.t.Fatalf("done in\n%s\nwith %v, and not in\n%s", describe(d.state), d.ids(), describe(d.task.target))
	}
	d.isDone = true
}

// next returns what to do next as the library says, and demands that the table of next.go says so too.
func (d *store) next(options library.DriveOptions, target library.ConfState, v library.View) (library.Action, error) {
	lines, stalls, err := pathOf(options.Strategy, toRaft(v.ConfState), toRaft(target), options.Down)
	if err != nil {
		return nil, err
	}
	s := newSituation(viewOf(v), task{Target: toRaft(target), Down: options.Down, MaxLag: options.MaxLag}, lines, stalls)
	wanted, row := answerTo(s, rows)
	d.seen[fmt.Sprint("row ", row)]++
	action, err := library.Next(options, target, v)
	if err == nil && !isSameAnswer(fromLibrary(action), wanted) {
		err = fmt.Errorf("row %d says %v, the library %v, to %+v", row, wanted, action, s)
	}
	return action, err
}
