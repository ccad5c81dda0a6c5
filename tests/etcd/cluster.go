package etcd

import (
	"testing"

	"go.etcd.io/etcd/raft"
	pb "go.etcd.io/etcd/raft/raftpb"
)

// A cluster is a group of members whose messages are delivered by hand, in the order of their ids. Only the leader's
// clock runs, so there is no election that the test did not start.
type cluster struct {
	t       *testing.T
	members map[uint64]*member
	stopped map[uint64]*raft.MemoryStorage // what was stored by those that were stopped
	groups  [][]uint64                     // if not nil, messages pass only within a group
	changed []pb.ConfState                 // the leader's configuration after each change since the last call of taken
}

// newCluster starts the members of a configuration, and makes one of them leader.
func newCluster(t *testing.T, state pb.ConfState, leader uint64) *cluster {
	c := startCluster(t, state)
	c.elect(leader)
	return c
}

// startCluster starts the members of a configuration, as if from a snapshot that holds it.
func startCluster(t *testing.T, state pb.ConfState) *cluster {
	c := &cluster{t: t, members: map[uint64]*member{}, stopped: map[uint64]*raft.MemoryStorage{}}
	for _, id := range members(state) {
		c.members[id] = startMember(t, id, storageOf(state))
	}
	return c
}

// startMissing starts the members of a configuration that do not run yet: a new one with an empty log, and one that
// was stopped with what it stored.
func (c *cluster) startMissing(state pb.ConfState) {
	for _, id := range members(state) {
		if c.members[id] != nil {
			continue
		}
		storage := c.stopped[id]
		if storage == nil {
			storage = raft.NewMemoryStorage()
		}
		c.members[id] = startMember(c.t, id, storage)
	}
}

// stopOthers stops those that are not members of a configuration.
func (c *cluster) stopOthers(state pb.ConfState) {
	for id, m := range c.members {
		if !holds(members(state), id) {
			c.stopped[id] = m.storage
			delete(c.members, id)
		}
	}
}

// ids returns the ids of the members that run, in ascending order.
func (c *cluster) ids() []uint64 {
	return idsOf(c.members)
}

// leader returns the id of the member that leads in the greatest term, or 0.
func (c *cluster) leader() uint64 {
	var leader, term uint64
	for id, m := range c.members {
		status := m.raw.BasicStatus()
		if status.RaftState == raft.StateLeader && status.Term > term {
			leader, term = id, status.Term
		}
	}
	return leader
}

// leading returns the member that leads.
func (c *cluster) leading() *member {
	leader := c.members[c.leader()]
	if leader == nil {
		c.t.Fatal("no member leads")
	}
	return leader
}

// settle handles what there is to do until there is nothing more.
func (c *cluster) settle() {
	for isBusy := true; isBusy; {
		isBusy = c.handleEach()
	}
}

// handleEach handles once what each member has ready, and says whether there was anything.
func (c *cluster) handleEach() bool {
	isBusy := false
	for _, id := range c.ids() {
		if m := c.members[id]; m.hasMore() {
			isBusy = true
			c.handle(m)
		}
	}
	return isBusy
}

// handleAll handles all that one member has ready.
func (c *cluster) handleAll(m *member) {
	for m.hasMore() {
		c.handle(m)
	}
}

// hasMore says whether there is something to handle, and the member takes it.
func (m *member) hasMore() bool {
	return m.ready == nil && m.raw.HasReady()
}

// wait runs the leader's clock for some heartbeats. With auto-leave, etcd appends the change that leaves to the
// leader's log, and sends it only after the next heartbeat.
func (c *cluster) wait() {
	for beat := 0; beat < 3; beat++ {
		c.settle()
		c.leading().raw.Tick()
	}
	c.settle()
}

// handle saves, sends and applies what a member has ready, at its pace.
func (c *cluster) handle(m *member) {
	c.send(m.take())
	switch {
	case m.pace == prompt || len(m.handed) == 0:
		c.apply(m)
	case m.pace == early:
		m.advance()
	}
}

// send delivers the messages that are ready.
func (c *cluster) send(ready raft.Ready) {
	for _, message := range ready.Messages {
		if to := c.members[message.To]; to != nil && c.reaches(message) {
			to.raw.Step(message) // an error says that the message is out of date
		}
	}
}

// apply applies what a member was handed, and then ends what it has taken.
func (c *cluster) apply(m *member) {
	for _, entry := range m.handed {
		if m.apply(entry) {
			m.snapshot()
			if m == c.members[c.leader()] {
				c.changed = append(c.changed, m.state)
			}
		}
	}
	m.handed = nil
	if m.ready != nil {
		m.advance()
	}
}

// connect lets messages pass within each of these groups from now on, and no others.
func (c *cluster) connect(groups ...[]uint64) {
	c.groups = append([][]uint64{}, groups...)
}

func (c *cluster) reaches(message pb.Message) bool {
	for _, group := range c.groups {
		if holds(group, message.From) && holds(group, message.To) {
			return true
		}
	}
	return c.groups == nil
}

// taken returns the leader's configuration after each change since the last call.
func (c *cluster) taken() []pb.ConfState {
	changed := c.changed
	c.changed = nil
	return changed
}

// elect lets a member campaign, and waits until it leads.
func (c *cluster) elect(id uint64) {
	if err := c.members[id].raw.Campaign(); err != nil {
		c.t.Fatal(err)
	}
	c.wait()
	if c.leader() != id {
		c.t.Fatalf("%d was not elected", id)
	}
}

// move moves leadership to a voter, as an operator does.
func (c *cluster) move(to uint64) {
	c.leading().raw.TransferLeader(to)
	c.catchUp()
	if c.leader() != to {
		c.t.Fatalf("leadership was not moved to %d", to)
	}
}

// propose proposes a change to the leader, and waits until it is made. etcd drops a proposal with an error, or
// refuses it and puts an empty entry in its place: then the configuration does not change, which the tests see.
func (c *cluster) propose(change pb.ConfChangeI) {
	if err := c.leading().raw.ProposeConfChange(change); err != nil {
		c.t.Fatalf("%v was dropped: %v", change, err)
	}
	c.wait()
}

// commit commits an entry that is no change, and waits until each member has applied it.
func (c *cluster) commit() {
	if err := c.leading().raw.Propose([]byte("entry")); err != nil {
		c.t.Fatal(err)
	}
	c.catchUp()
}

// catchUp waits until each member of the leader's configuration has applied all that the leader has in its log.
func (c *cluster) catchUp() {
	for beat := 0; beat < 20; beat++ {
		c.settle()
		if c.isCaughtUp() {
			return
		}
		c.leading().raw.Tick()
	}
	c.t.Fatal("some members do not catch up")
}

func (c *cluster) isCaughtUp() bool {
	leader := c.leading()
	last, _ := leader.storage.LastIndex()
	for id, progress := range leader.raw.Status().Progress {
		m := c.members[id]
		if m == nil || progress.Match != last || m.applied != last || !isSame(m.state, leader.state) {
			return false
		}
	}
	return true
}
