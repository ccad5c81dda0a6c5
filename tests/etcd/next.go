package etcd

import (
	"fmt"
	"math"

	pb "go.etcd.io/etcd/raft/raftpb"
)

// A view is what a leader knows of its cluster, or a tool that asks all members.
type view struct {
	ConfState        pb.ConfState   `json:"conf_state"`
	ConfIndex        uint64         `json:"conf_index"` // who has it knows the configuration
	Lead             uint64         `json:"lead"`       // who leads, or 0
	Commit           uint64         `json:"commit"`
	PendingConfIndex uint64         `json:"pending_conf_index"` // of a change in the log that is not applied, or 0
	Progress         []progressView `json:"progress"`
	Running          []uint64       `json:"running"` // who was started, and was not stopped for good
	Retired          []uint64       `json:"retired"` // who was stopped for good
}

type progressView struct {
	ID           uint64 `json:"id"`
	Match        uint64 `json:"match"`
	RecentActive bool   `json:"recent_active"`
}

// A task is what a view is asked for.
type task struct {
	Strategy string       `json:"strategy"`
	Target   pb.ConfState `json:"target"`
	Down     []uint64     `json:"down"`    // these do not come back
	MaxLag   uint64       `json:"max_lag"` // how many entries a member that has caught up may lack
}

// An answer is what to do now.
type answer struct {
	Action string // start, stop, transfer, propose, wait, stuck or done
	Why    string // of wait and stuck
	IDs    []uint64
	Stage  planLine // of propose
}

func (a answer) String() string {
	if a.Action == "propose" {
		return fmt.Sprint("propose ", a.Stage.ConfChange)
	}
	return fmt.Sprint(a.Action, " ", a.Why, " ", a.IDs)
}

// A situation is a view with what follows from it. The parts of a configuration are sets of ids.
type situation struct {
	view
	task
	path                                []planLine
	stalls                              bool
	incoming, outgoing, voters, members []uint64 // of the configuration now
	votersAfter, membersAfter           []uint64 // of the one after the first stage
	after                               pb.ConfState
	known                               uint64   // who has this index knows the configuration, as far as this leader can tell
	heard, up                           []uint64 // who was heard from, and who of these has caught up and is not down
	match                               map[uint64]uint64
}

func newSituation(v view, t task, path []planLine, stalls bool) *situation {
	s := &situation{view: v, task: t, path: path, stalls: stalls, after: v.ConfState, match: map[uint64]uint64{}}
	if len(path) > 0 {
		s.after = path[0].ConfState
	}
	s.incoming, s.outgoing = v.ConfState.Voters, v.ConfState.VotersOutgoing
	s.voters, s.members = voterIDs(v.ConfState), members(v.ConfState)
	s.votersAfter, s.membersAfter = voterIDs(s.after), members(s.after)
	if s.known = v.ConfIndex; !holds(s.voters, v.Lead) && s.known > 0 {
		s.known-- // a leader that does not vote may not add the entry after the change
	}
	for _, each := range v.Progress {
		s.match[each.ID] = each.Match
		if each.RecentActive {
			s.heard = append(s.heard, each.ID)
		}
	}
	for _, id := range without(both(s.members, s.heard), t.Down) {
		if s.match[id] >= s.known && s.match[id]+t.MaxLag >= v.Commit {
			s.up = append(s.up, id)
		}
	}
	return s
}

// isRefused says whether there is no answer: who knows the configuration is not filled in, or the progress of a leader that is a
// member, or raft would leave the target.
func (s *situation) isRefused() bool {
	_, isListed := s.match[s.Lead]
	return s.Lead != 0 && s.ConfIndex == 0 || holds(s.members, s.Lead) && !isListed || s.Target.AutoLeave
}

// lacking returns those of the ids that lack an index.
func (s *situation) lacking(index uint64, ids []uint64) (lacking []uint64) {
	for _, id := range ids {
		if s.match[id] < index {
			lacking = append(lacking, id)
		}
	}
	return lacking
}

// wait waits for who is not heard from, or if all are, for who has not caught up.
func (s *situation) wait(ids []uint64) *answer {
	if silent := without(ids, s.heard); len(silent) > 0 {
		return ifAny("wait", "unheard", silent)
	}
	return ifAny("wait", "behind", ids)
}

// transfer moves leadership to one of the ids, if there are any: to the least incoming voter of the target, or to the least.
func (s *situation) transfer(ids []uint64) *answer {
	if staying := both(ids, s.Target.Voters); len(staying) > 0 {
		ids = staying
	}
	if len(ids) == 0 {
		return nil
	}
	return &answer{Action: "transfer", IDs: ascending(ids)[:1]}
}

// ifAny returns an answer that names ids, if there are any.
func ifAny(action, why string, ids []uint64) *answer {
	if len(ids) == 0 {
		return nil
	}
	return &answer{Action: action, Why: why, IDs: ascending(ids)}
}

// orElse returns the first list that is not empty.
func orElse(ids, others []uint64) []uint64 {
	if len(ids) > 0 {
		return ids
	}
	return others
}

// A row is one of a table. The first row with an answer gives it.
type row func(s *situation) *answer

// rows are what to do next on the way to a target.
var rows = []row{
	// 1. The voters that are not down are no quorum.
	func(s *situation) *answer {
		if tolerance(s.ConfState, without(s.voters, s.Down)) >= 0 {
			return nil
		}
		return &answer{Action: "stuck", Why: "quorum_lost", IDs: ascending(both(s.voters, s.Down))}
	},
	// 2. Who is named as down is heard from, or leads.
	func(s *situation) *answer {
		return ifAny("wait", "heard", union(both(s.Down, s.heard, s.members), both(s.Down, []uint64{s.Lead})))
	},
	// 3. There is no leader.
	func(s *situation) *answer {
		if s.Lead != 0 {
			return nil
		}
		return ifAny("wait", "no_leader", orElse(without(s.voters, s.Down, s.heard), without(s.voters, s.Down)))
	},
	// 4. The leader does not vote.
	func(s *situation) *answer {
		if holds(s.voters, s.Lead) {
			return nil
		}
		if found := s.transfer(both(s.incoming, s.up)); found != nil {
			return found
		}
		return s.wait(without(s.incoming, s.Down))
	},
	// 5. A change is pending, and a voter that stays could lead in place of one that does not.
	func(s *situation) *answer {
		could := both(s.incoming, s.up)
		switch {
		case s.PendingConfIndex == 0:
			return nil
		case len(s.outgoing) > 0 && !holds(s.incoming, s.Lead):
			return s.transfer(could)
		case !holds(voterIDs(s.Target), s.Lead):
			return s.transfer(both(could, voterIDs(s.Target)))
		}
		return nil
	},
	// 6. A change is pending.
	func(s *situation) *answer {
		if s.PendingConfIndex == 0 {
			return nil
		}
		return ifAny("wait", "pending", orElse(s.lacking(s.PendingConfIndex, without(s.voters, s.Down)), []uint64{s.Lead}))
	},
	// 7. The path stalls with those that are down.
	func(s *situation) *answer {
		if !s.stalls {
			return nil
		}
		return &answer{Action: "stuck", Why: "stalls", IDs: ascending(both(s.Down, union(s.voters, voterIDs(s.Target))))}
	},
	// 8. The target has an id that does not vote and was stopped for good.
	func(s *situation) *answer {
		return ifAny("stuck", "reused", both(without(members(s.Target), s.voters), s.Retired))
	},
	// 9. Who does not vote, is a member now or after the stage, and stays, was not started.
	func(s *situation) *answer {
		return ifAny("start", "", without(both(union(s.membersAfter, s.members), members(s.Target)), s.voters, s.Down, s.Running))
	},
	// 10. Ids that are not members, now or at the target, run; each member knows the configuration, and a quorum is heard from.
	func(s *situation) *answer {
		if len(s.lacking(s.ConfIndex, without(s.members, s.Down))) > 0 || tolerance(s.ConfState, without(both(s.voters, s.heard), s.Down)) < 0 {
			return nil
		}
		return ifAny("stop", "", without(s.Running, s.members, members(s.Target)))
	},
	// 11. Raft is to leave by itself.
	func(s *situation) *answer {
		if len(s.path) == 0 || !s.ConfState.AutoLeave {
			return nil
		}
		return ifAny("wait", "leaving", orElse(without(s.voters, s.Down, s.up), []uint64{s.Lead}))
	},
	// 12. The leader does not vote after the stage, and another voter could lead.
	func(s *situation) *answer {
		if holds(s.votersAfter, s.Lead) {
			return nil
		}
		return s.transfer(both(s.voters, s.votersAfter, s.up))
	},
	// 13. The same, and one could if it caught up.
	func(s *situation) *answer {
		if holds(s.votersAfter, s.Lead) {
			return nil
		}
		return s.wait(without(both(s.voters, s.votersAfter), s.Down))
	},
	// 14. The target is reached.
	func(s *situation) *answer {
		if len(s.path) > 0 {
			return nil
		}
		needed := union(s.incoming, s.ConfState.Learners)
		if len(without(s.Running, s.members)) > 0 {
			needed = s.members
		}
		if lacking := without(needed, s.Down, s.up); len(lacking) > 0 {
			return s.wait(lacking)
		}
		return &answer{Action: "done"}
	},
	// 15. A new voter has not caught up.
	func(s *situation) *answer { return s.wait(without(s.votersAfter, s.voters, s.Down, s.up)) },
	// 16. A voter after the stage is heard from, and has not caught up.
	func(s *situation) *answer {
		return ifAny("wait", "behind", without(both(s.votersAfter, s.heard), s.Down, s.up))
	},
	// 17. Who is up and has caught up is no quorum.
	func(s *situation) *answer {
		if tolerance(s.ConfState, s.up) >= 0 {
			return nil
		}
		return s.wait(without(s.voters, s.Down, s.up))
	},
	// 18. A voter after the stage is silent, and the stage is a joint one, or it tolerates less.
	func(s *situation) *answer {
		if len(s.after.VotersOutgoing) == 0 && tolerance(s.after, s.up) >= tolerance(s.ConfState, s.up) {
			return nil
		}
		return ifAny("wait", "unheard", without(s.votersAfter, s.Down, s.heard))
	},
	// 19. Otherwise.
	func(s *situation) *answer { return &answer{Action: "propose", Stage: s.path[0]} },
}

// answerTo returns the answer of the first row that has one, and which row that is.
func answerTo(s *situation, rows []row) (answer, int) {
	for i, row := range rows {
		if found := row(s); found != nil {
			return *found, i + 1
		}
	}
	panic("the last row always applies")
}

// tolerance returns how many of a set, whichever they are, may fail so that the rest is a quorum, or -1 if the set is none.
func tolerance(state pb.ConfState, up []uint64) int {
	least := math.MaxInt
	for _, half := range [][]uint64{state.Voters, state.VotersOutgoing} {
		if spare := len(both(half, up)) - (len(half)/2 + 1); len(half) > 0 && spare < least {
			least = spare
		}
	}
	if least < 0 {
		return -1
	}
	return least
}
