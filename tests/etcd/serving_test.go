package etcd

import (
	"fmt"
	"math/rand"
	"testing"

	pb "go.etcd.io/etcd/raft/raftpb"
)

// plansWhileDown is how many pairs of configurations there are for each strategy and each list of ids that are down.
const plansWhileDown = 50

// TestServing lets clusters that serve carry out the plans between random pairs of configurations, by each strategy,
// while as many members are down as the lines allow.
func TestServing(t *testing.T) {
	for _, strategy := range strategies {
		seen := map[string]int{}
		for i, p := range makePlans(t, rand.New(rand.NewSource(3)), strategy) {
			t.Run(fmt.Sprint(strategy, " ", i), func(t *testing.T) { p.serve(t, nil, int64(i), seen) })
		}
		t.Run(strategy+": each kind occurs", func(t *testing.T) { compareSeen(t, seen, kindsOfServing) })
	}
}

// TestSameSeed carries out the first plans twice, which has to give the same runs.
func TestSameSeed(t *testing.T) {
	for _, strategy := range strategies {
		for i, p := range makePlans(t, rand.New(rand.NewSource(3)), strategy)[:10] {
			t.Run(fmt.Sprint(strategy, " ", i), func(t *testing.T) {
				first, second := p.serve(t, nil, 1, map[string]int{}), p.serve(t, nil, 1, map[string]int{})
				if first.round != second.round || fmt.Sprint(first.history) != fmt.Sprint(second.history) {
					t.Errorf("%d rounds and %v\n%d rounds and %v", first.round, first.history, second.round, second.history)
				}
			})
		}
	}
}

// TestServingWhileDown does the same with --down, where one or two members are down from first to last, and as many
// others as the lines allow. Plans that stall are left out.
func TestServingWhileDown(t *testing.T) {
	for _, strategy := range strategies {
		chance := rand.New(rand.NewSource(4))
		seen := map[string]int{}
		for _, down := range [][]uint64{{1}, {2}, {1, 2}, {2, 3}} {
			for i, p := range makePlansWhileDown(t, chance, strategy, down) {
				if p.stalls {
					continue
				}
				seen["a plan was carried out"]++
				t.Run(fmt.Sprint(strategy, " without ", list(down), " ", i), func(t *testing.T) { p.serve(t, down, int64(i), seen) })
			}
		}
		t.Run(strategy+": each kind occurs", func(t *testing.T) {
			compareSeen(t, seen, kindsOfServing)
			if seen["a plan was carried out"] < 100 {
				t.Errorf("only %d plans were carried out", seen["a plan was carried out"])
			}
		})
	}
}

// makePlansWhileDown asks confscript for the plans between random pairs of configurations that commit while some ids are
// down, which are among the voters.
func makePlansWhileDown(t *testing.T, chance *rand.Rand, strategy string, down []uint64) []*plan {
	var made []*plan
	for len(made) < plansWhileDown {
		p := pair(chance, strategy)
		voters := voterIDs(p.now, p.target)
		if len(without(down, voters)) == 0 && mayBeDown(p.now, down) >= 0 && mayBeDown(p.target, down) >= 0 && !isSame(p.now, p.target) {
			made = append(made, p)
		}
	}
	askPlans(t, strategy, made, "--down", list(down))
	return made
}

// kindsOfServing are what has to occur while plans are carried out, each at least five times.
var kindsOfServing = []string{
	"leadership moved", "members had to catch up", "members were down", "a leader was elected", "entries were acknowledged",
}

// serve carries out the plan on a cluster that serves. Some ids are down from first to last. As many others are down as
// the lines allow: while a step is on its way, as many as may be down both before and after it. A member that comes back
// catches up before others are down. Members that have to catch up start only when the others have made the step and
// served, unless the line says that it stalls till then.
func (p *plan) serve(t *testing.T, down []uint64, seed int64, seen map[string]int) *service {
	p.compareTarget(t)
	s := newService(t, p.now, down, seed)
	before, allowedBefore := p.now, mayBeDown(p.now, down)
	for _, line := range p.lines {
		after := line.settled()
		whileCatchingUp, allowed := line.mayBeDown(down != nil)
		s.run(without(members(before), down))
		s.catchUp(s.ids())
		s.letBeDown(without(voterIDs(before, line.ConfState), down, line.CatchingUp), least(allowedBefore, orZero(whileCatchingUp)))
		if whileCatchingUp == nil {
			s.start(without(line.CatchingUp, down))
		}
		s.carryOut(line, before, seen)
		s.stop(without(s.ids(), members(after)))
		s.serve()
		s.run(without(members(after), down))
		s.catchUp(s.ids())
		seen["members were down"] += s.letBeDown(without(voterIDs(after), down), allowed)
		s.serve()
		before, allowedBefore = after, allowed
	}
	s.end(before)
	seen["a leader was elected"] += len(s.history.leaders)
	seen["entries were acknowledged"] += len(s.history.acknowledged)
	return s
}

// mayBeDown returns how many members may be down after the line's step, besides given ones if there are any: while
// members are catching up, or nil if the configuration stalls then, and from then on.
func (line planLine) mayBeDown(areDown bool) (whileCatchingUp *int, then int) {
	if areDown {
		return line.MayBeDownBesides, orZero(line.MayBeDownBesides)
	}
	return line.WhileCatchingUp, line.MayBeDown
}

func orZero(number *int) int {
	if number == nil {
		return 0
	}
	return *number
}

func least(a, b int) int {
	if a < b {
		return a
	}
	return b
}

// carryOut proposes the line's change until it is made, waits until the members of the configuration that run have caught
// up, and compares the configurations with those of the line. While one with auto-leave is on its way no entries are
// proposed, since etcd 3.4 may panic then.
func (s *service) carryOut(line planLine, before pb.ConfState, seen map[string]int) {
	after := line.settled()
	if catchingUp := without(members(line.ConfState), members(before)); len(without(catchingUp, line.CatchingUp)) > 0 {
		s.t.Fatalf("%v have to catch up too in\n%s", catchingUp, describe(line.ConfState))
	}
	if (before.AutoLeave || line.ConfState.AutoLeave) && !isMended {
		s.pause()
	}
	passed := line.passed()
	s.until("the change", func() bool {
		if !before.AutoLeave && len(s.history.changed) == 0 && s.propose(line.ConfChange, before, after) {
			seen["leadership moved"]++
		}
		return len(s.history.changed) >= len(passed)
	})
	s.catchUp(members(after))
	if states := s.history.taken(); !areSame(states, passed) {
		s.t.Fatalf("%v led from\n%s\nto\n%s\ninstead of\n%s", line.ConfChange, describe(before), describe(states...), describe(passed...))
	}
	s.compareStates(after)
	if len(line.CatchingUp) > 0 {
		seen["members had to catch up"]++
	}
}

// end lets all members of the configuration run that can catch up, and no more entries be proposed. Then each of them
// has to have the configuration, and all entries that were ever acknowledged.
func (s *service) end(last pb.ConfState) {
	s.run(without(members(last), s.leftWithoutLog(last)))
	s.serve()
	s.pause()
	acknowledged := s.history.acknowledged
	s.catchUp(s.ids())
	s.compareStates(last)
	for _, id := range s.ids() {
		if entries := s.members[id].entries; fmt.Sprint(entries[:least(len(entries), len(acknowledged))]) != fmt.Sprint(acknowledged) {
			s.t.Errorf("%d has\n%v\nwhile this was acknowledged:\n%v", id, entries, acknowledged)
		}
	}
}
