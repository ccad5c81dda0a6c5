package etcd

import (
	"fmt"
	"testing"

	pb "go.etcd.io/etcd/raft/raftpb"
)

// A planner asks confscript for plans, for each only once.
type planner struct{ known map[string]*plan }

// path returns the plan by a strategy, with those down that either end has.
func (p *planner) path(t *testing.T, strategy string, now, target pb.ConfState, down []uint64) *plan {
	down = ascending(both(down, union(members(now), members(target))))
	key := fmt.Sprint(strategy, describe(now, target), down)
	if found := p.known[key]; found != nil {
		return found
	}
	made := &plan{strategy: strategy, now: now, target: target}
	var options []string
	if len(down) > 0 {
		options = []string{"--down", list(down)}
	}
	askPlans(t, strategy, []*plan{made}, options...)
	p.known[key] = made
	return made
}

func (p *plan) noPlan() bool {
	return len(p.lines) > 0 && p.lines[0].NoPlan != ""
}

// situation returns a view with the plan for it, or nil if there is none.
func (p *planner) situation(t *testing.T, v view, task task) *situation {
	path := p.path(t, task.Strategy, v.ConfState, task.Target, task.Down)
	if path.noPlan() {
		return nil
	}
	return newSituation(v, task, path.lines, path.stalls)
}
