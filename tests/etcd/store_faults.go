package etcd

import (
	library "confscript"

	pb "go.etcd.io/etcd/raft/raftpb"
	"go.etcd.io/etcd/raft/tracker"
)

// carry takes a message, and says whether it may arrive as far as the sender knows.
func (d *store) carry(message pb.Message) bool {
	to := d.servers[message.To]
	return to != nil && to.isUp && !d.network.send(message, d.round)
}

// crashes lets a server crash now and then.
func (s *replica) crashes(when string) bool {
	if s.store.chance.Float64() >= s.store.crash {
		return false
	}
	s.store.seen["a crash "+when]++
	s.kill(5 + s.store.chance.Intn(80))
	return true
}

// kill stops a server for some rounds, without the hard states that were not synced.
func (s *replica) kill(rounds int) {
	if s.crash(false) {
		s.store.seen["a commit index is lost"]++
	}
	s.isUp, s.wakesAt = false, s.store.round+rounds
}

// fault lets something go wrong now and then: a server crashes or all do, the network is parted, or one is cut off, both ways
// or one.
func (d *store) fault() {
	up := d.up()
	if len(up) == 0 || d.chance.Intn(80) > 0 {
		return
	}
	until, one := d.round+10+d.chance.Intn(150), up[d.chance.Intn(len(up))].id
	switch d.chance.Intn(8) {
	case 0:
		for _, s := range up {
			s.kill(1 + d.chance.Intn(60))
		}
		d.seen["all crash"]++
	case 1, 2:
		d.servers[one].kill(1 + d.chance.Intn(200))
	case 3, 4:
		isLeft := map[uint64]bool{}
		for _, s := range up {
			isLeft[s.id] = d.chance.Intn(2) == 0
		}
		d.cutLinks(until, func(l link) bool { return isLeft[l.from] != isLeft[l.to] })
		d.seen["two parts"]++
	case 5:
		d.cutLinks(until, func(l link) bool { return l.from == one || l.to == one })
		d.seen["one is cut off"]++
	case 6:
		d.cutLinks(until, func(l link) bool { return l.from == one })
		d.seen["one is not heard"]++
	case 7:
		d.network.slow = one
	}
}

func (d *store) cutLinks(until int, isCut func(l link) bool) {
	for _, from := range d.ids() {
		for _, to := range d.ids() {
			if isCut(link{from, to}) {
				d.network.cut[link{from, to}] = until
			}
		}
	}
}

// worsen lets things go wrong.
func (d *store) worsen() {
	d.crash = d.crashes
	d.network.loss, d.network.doubling, d.network.delay, d.network.slow, d.network.cut = d.loss, 0.05, d.delay, 0, map[link]int{}
}

// heal ends the faults. Who is dead stays so.
func (d *store) heal() {
	d.crash = 0
	d.network.loss, d.network.doubling, d.network.delay, d.network.slow, d.network.cut = 0, 0, 2, 0, map[link]int{}
	for _, id := range d.ids() {
		d.servers[id].wakesAt = d.round
	}
}

// die stops a server for good: its disk is lost. That it is down is named soon, or later.
func (d *store) die(s *replica) {
	s.isUp, s.isDead = false, true
	d.namedAt[s.id] = d.round + d.chance.Intn([]int{10, 300}[d.chance.Intn(2)])
	d.seen["a death"]++
}

// nameDead names who died as down, once that is known.
func (d *store) nameDead() {
	for id, at := range d.namedAt {
		if d.round >= at {
			d.down = union(d.down, []uint64{id})
			delete(d.namedAt, id)
		}
	}
}

// dead returns the servers that died, and some more.
func (d *store) dead(more ...uint64) []uint64 {
	for _, id := range d.ids() {
		if d.servers[id].isDead {
			more = union(more, []uint64{id})
		}
	}
	return more
}

// mayDie says whether a server may die: as many as each configuration tolerates that a server has, and each stage of the plan,
// the one that is carried out and the one that is made once the death is named. No change may be on its way, and no voter may
// lack the newest one. A member that is only an outgoing voter and waits for a snapshot, which 3.4 does not accept, counts as
// lost.
func (d *store) mayDie(victim *replica) bool {
	if d.leader() == nil || victim.isDead {
		return false
	}
	dead := d.dead(victim.id)
	for _, id := range d.ids() {
		s := d.servers[id]
		if !s.isDead && s != victim && (!s.isUp || s.hasPendingChange() || holds(voterIDs(d.state), id) && s.changed < d.changed) {
			return false
		}
		if len(s.state.Voters) > 0 && tolerance(s.state, without(voterIDs(s.state), dead, s.waiting())) < 0 {
			return false
		}
	}
	return d.tolerates(d.down, dead) && d.tolerates(dead, dead)
}

// waiting returns the outgoing voters that a leader sent a snapshot.
func (s *replica) waiting() (ids []uint64) {
	if s.isUp && s.leads() {
		for id, progress := range s.raw.Status().Progress {
			if progress.State == tracker.StateSnapshot && !holds(s.state.Voters, id) {
				ids = append(ids, id)
			}
		}
	}
	return ids
}

// tolerates says whether there is a path for those who are named as down on which each configuration tolerates the dead.
func (d *store) tolerates(down, dead []uint64) bool {
	lines, stalls, err := pathOf(d.task.strategy, d.state, d.task.target, down)
	if err != nil || stalls {
		return false
	}
	for _, line := range lines {
		if tolerance(line.ConfState, without(voterIDs(line.ConfState), dead)) < 0 {
			return false
		}
	}
	return true
}

// pathOf returns the plan by a strategy, with those down that either end has.
func pathOf(strategy library.Strategy, now, target pb.ConfState, down []uint64) (lines []planLine, stalls bool, err error) {
	down = both(down, union(members(now), members(target)))
	stages, stalls, err := library.Stages(library.Options{Strategy: strategy, Down: down}, fromRaft(now), fromRaft(target))
	return toLines(stages), stalls, err
}
