package etcd

import (
	library "confscript"

	pb "go.etcd.io/etcd/raft/raftpb"
)

// leads sees that a server begins to lead.
func (d *store) leads(s *replica) {
	term := s.status().Term
	d.history.leads(term, s.id)
	if d.term < term {
		d.term = term
	}
}

// becomes sees the configuration of a server after a change.
func (d *store) becomes(s *replica) {
	d.history.becomes(s.id, s.changed, s.state)
	if d.changed < s.changed {
		d.changed, d.state = s.changed, s.state
	}
	d.seen["a change is applied"]++
}

// How a plan ends.
const (
	ended   = "done"
	wayOut  = "done by the way out of raft's trap"
	trapped = "raft's trap"
	deaf    = "deaf"
	hung    = "hung"
)

// carryOut leads the store to a target, first under faults, then, unless it is done, without. It returns how that ends.
func (d *store) carryOut(task storeTask) string {
	d.task, d.isDone = task, false
	d.worsen()
	dies, diesAt := d.chance.Intn(2) == 0, d.round+1+d.chance.Intn(300)
	for end := d.round + 300 + d.chance.Intn(900); d.round < end && !d.isDone; {
		d.tick()
		d.fault()
		d.nameDead()
		if dies && d.round >= diesAt {
			dies = !d.letDie()
		}
	}
	if d.isDone && len(d.namedAt) == 0 && d.chance.Intn(3) > 0 {
		return ended
	}
	d.heal()
	return d.end()
}

// letDie lets a server die, if it may, and says whether it did.
func (d *store) letDie() bool {
	victim := d.servers[oneOf(d.chance, d.ids())]
	if !d.mayDie(victim) {
		return false
	}
	d.die(victim)
	return true
}

// end lets a plan come to its end without faults, and demands that all members come to the same entries.
func (d *store) end() string {
	how := ended
	for end, led := d.round+6000, d.round; !d.isDone || len(d.namedAt) > 0; {
		d.tick()
		d.nameDead()
		if d.leader() != nil {
			led = d.round
		} else if d.round > led+1000 && d.isTrapped() {
			how, led = wayOut, d.round
			d.tellCommits()
		}
		if d.round >= end {
			return d.classify()
		}
	}
	for end := d.round + 1000; !d.isSettled(); d.tick() {
		if d.round >= end {
			d.t.Fatalf("the members did not come to the same entries")
		}
	}
	return how
}

// isSettled says whether all members that may come back have applied all that any server has, or nearly all while more is
// written.
func (d *store) isSettled() bool {
	var greatest uint64
	for index := range d.history.entries {
		if index > greatest {
			greatest = index
		}
	}
	for _, id := range without(members(d.state), d.down) {
		if s := d.servers[id]; s == nil || !s.isUp || s.applied+20 < greatest || s.changed < d.changed {
			return false
		}
	}
	return true
}

// classify says why a plan is not done.
func (d *store) classify() string {
	switch leader := d.leader(); {
	case leader == nil && d.isTrapped():
		return trapped
	case leader != nil && d.isDeaf(leader):
		return deaf
	}
	return hung
}

// isTrapped says whether by raft's rules no server that is up may campaign and win: who is removed, or a learner, does not
// campaign, and who has a longer log refuses its vote.
func (d *store) isTrapped() bool {
	for _, candidate := range d.up() {
		var granted []uint64
		for _, s := range d.up() {
			if !s.hasLongerLog(candidate) {
				granted = append(granted, s.id)
			}
		}
		if candidate.votes() && tolerance(candidate.state, granted) >= 0 {
			return false
		}
	}
	return true
}

func (s *replica) hasLongerLog(other *replica) bool {
	last, _ := s.disk.LastIndex()
	term, _ := s.disk.Term(last)
	otherLast, _ := other.disk.LastIndex()
	otherTerm, _ := other.disk.Term(otherLast)
	return term > otherTerm || term == otherTerm && last > otherLast
}

// isDeaf says whether a leader waits for a server that is in a later term, where without PreVote and CheckQuorum no message
// tells the leader so.
func (d *store) isDeaf(leader *replica) bool {
	wait, isWaiting := leader.answer.(library.Wait)
	if d.preVote || d.checkQuorum || !isWaiting {
		return false
	}
	for _, id := range wait.IDs {
		if s := d.servers[id]; s != nil && s.isUp && s.status().Term > leader.status().Term {
			return true
		}
	}
	return false
}

// tellCommits is what a program can do if no server is elected: each one that is up gets to know what another one knows to be
// committed, if it has the same entry there.
func (d *store) tellCommits() {
	for _, from := range d.up() {
		for _, to := range d.up() {
			if tellCommit(from.disk, to.disk) {
				to.start()
			}
		}
	}
}

// target returns a configuration of members that live and new ones, now and then a joint one.
func (d *store) target() pb.ConfState {
	ids := without(members(d.state), d.dead())
	for len(ids) < 5 || len(ids) < 8 && d.chance.Intn(2) == 0 {
		ids = append(ids, d.newID())
	}
	d.chance.Shuffle(len(ids), func(i, j int) { ids[i], ids[j] = ids[j], ids[i] })
	voters := 1 + d.chance.Intn(5)
	state := pb.ConfState{Voters: ids[:voters:voters]}
	rest := ids[voters:]
	if d.chance.Intn(2) == 0 {
		state.Learners = some(d.chance, rest, 2)
	}
	if rest = without(rest, state.Learners); d.chance.Intn(8) == 0 {
		state.VotersOutgoing = union(state.Voters[:1:1], some(d.chance, state.Voters, voters))
		if len(rest) > 0 {
			state.VotersOutgoing = append(state.VotersOutgoing, rest[0])
			state.LearnersNext = some(d.chance, rest[:1], 1)
		}
	}
	return state
}
