package etcd

import (
	"fmt"
	"math/rand"
	"testing"

	"go.etcd.io/etcd/raft/confchange"
	pb "go.etcd.io/etcd/raft/raftpb"
	"go.etcd.io/etcd/raft/tracker"
)

// TestNext holds the answers of the table to random views against what they promise, then the answers of the table without
// each of its rows, of which some break a promise. Row 13 alone only decides whom a wait names: without it a later row waits.
func TestNext(t *testing.T) {
	planner := &planner{map[string]*plan{}}
	var situations []*situation
	for _, s := range randomSituations(t, planner, 14000, 5, false) {
		if !s.isRefused() {
			situations = append(situations, s)
		}
	}
	t.Run("the table", func(t *testing.T) {
		seen := map[string]int{}
		for _, s := range situations {
			_, row := answerTo(s, rows)
			seen[fmt.Sprint("row ", row)]++
			if broken := brokenPromise(t, planner, s, rows); broken != "" {
				found, _ := answerTo(s, rows)
				t.Fatalf("%s: %v to %+v", broken, found, s)
			}
		}
		t.Log(seen)
		if len(seen) != len(rows) {
			t.Errorf("%d rows of %d applied", len(seen), len(rows))
		}
	})
	for i := range rows[:len(rows)-1] {
		t.Run(fmt.Sprint("without row ", i+1), func(t *testing.T) {
			fewer := append(append([]row{}, rows[:i]...), rows[i+1:]...)
			broken := ""
			for _, s := range situations {
				panicked := panicOf(func() { broken = brokenPromise(t, planner, s, fewer) })
				if broken += panicked; broken != "" {
					t.Log(broken)
					break
				}
			}
			if (broken != "") != (i+1 != 13) {
				t.Errorf("a broken promise: %q", broken)
			}
		})
	}
}

// randomSituations returns random views, some for each of many pairs of configurations of two ids to as many as are said.
func randomSituations(t *testing.T, planner *planner, count, most int, wide bool) (made []*situation) {
	chance := rand.New(rand.NewSource(1))
	for len(made) < count {
		ids := pool(chance, 2+chance.Intn(most-1), wide)
		strategy := strategies[1+chance.Intn(2)]
		now, target := configuration(chance, ids), configuration(chance, ids)
		if chance.Intn(5) == 0 {
			target = now
		}
		asked := task{Strategy: strategy, Target: target, MaxLag: uint64(chance.Intn(3))}
		for _, id := range ids {
			if chance.Intn(7) == 0 {
				asked.Down = append(asked.Down, id)
			}
		}
		for i := 0; i < 20; i++ {
			if s := planner.situation(t, randomView(chance, now, ids, asked.Down), asked); s != nil {
				made = append(made, s)
			}
		}
	}
	return made
}

// randomView returns a view in which most members have been heard from and have caught up. What is committed is 4.
func randomView(chance *rand.Rand, now pb.ConfState, ids, down []uint64) view {
	v := view{ConfState: now, ConfIndex: uint64(chance.Intn(5)), Commit: 4}
	if chance.Intn(10) == 0 {
		v.PendingConfIndex = 5
	}
	good := []float64{0.5, 0.8, 0.95, 1}[chance.Intn(4)]
	var heard []uint64
	for _, id := range members(now) {
		each := progressView{ID: id, Match: 4, RecentActive: !holds(down, id) && chance.Float64() < good || chance.Intn(100) == 0}
		if chance.Float64() > good {
			each.Match = uint64(chance.Intn(5))
		}
		if each.RecentActive {
			heard = append(heard, id)
		}
		v.Progress = append(v.Progress, each)
	}
	switch {
	case chance.Intn(30) == 0 || len(heard) == 0:
	case chance.Intn(50) == 0:
		v.Lead = oneOf(chance, members(now))
	default:
		v.Lead = oneOf(chance, heard)
	}
	running := []float64{0.5, 0.95, 1}[chance.Intn(3)]
	for _, id := range ids {
		if chance.Float64() < running {
			v.Running = append(v.Running, id)
		}
		if chance.Intn(100) == 0 {
			v.Retired = append(v.Retired, id)
		}
	}
	return v
}

// brokenPromise returns which promise the answer of a table to a situation breaks, or "".
func brokenPromise(t *testing.T, planner *planner, s *situation, rows []row) string {
	a, _ := answerTo(s, rows)
	again := func(change func(v *view)) answer {
		v := s.view
		v.Progress = append([]progressView(nil), v.Progress...)
		change(&v)
		found, _ := answerTo(newSituation(v, s.task, s.path, s.stalls), rows)
		return found
	}
	if tolerance(s.ConfState, without(s.voters, s.Down)) < 0 && a.Action != "stuck" {
		return "no quorum is left"
	}
	if s.Lead == 0 && a.Action != "stuck" && a.Action != "wait" {
		return "nobody leads, so nobody can do it"
	}
	isHeard := len(both(s.Down, s.heard, s.members)) > 0 || holds(s.Down, s.Lead)
	if isHeard && a.Action != "stuck" && a.Why != "heard" {
		return "who is named as down is alive"
	}
	if a.Action != "done" && a.Action != "propose" && a.Why != "stalls" && len(a.IDs) == 0 {
		return "no id is named"
	}
	if (a.Action == "propose") != s.mayPropose() {
		return "a step is proposed exactly if nothing holds it up"
	}
	switch a.Action {
	case "propose":
		return brokenProposal(t, planner, s, a.Stage)
	case "transfer":
		return brokenTransfer(s, a.IDs, again)
	case "start":
		switch {
		case len(both(a.IDs, union(s.voters, s.Running, s.Down, s.Retired))) > 0:
			return "an id starts that may not"
		case len(without(a.IDs, members(s.Target))) > 0 || len(without(a.IDs, s.members, s.membersAfter)) > 0:
			return "an id starts that is not a member, or does not stay one"
		case again(func(v *view) { v.Running = union(v.Running, a.IDs) }).Action == "start":
			return "it starts twice"
		}
	case "stop":
		switch {
		case len(both(a.IDs, union(s.members, members(s.Target)))) > 0 || len(without(a.IDs, s.Running)) > 0:
			return "an id stops that may not"
		case len(s.lacking(s.ConfIndex, without(s.members, s.Down))) > 0:
			return "an id stops that a member may need"
		case tolerance(s.ConfState, without(both(s.voters, s.heard), s.Down)) < 0:
			return "an id stops, and there may be a newer leader"
		case again(func(v *view) { v.Running = without(v.Running, a.IDs) }).Action == "stop":
			return "it stops twice"
		}
	case "wait":
		return brokenWait(s, a, again)
	case "stuck":
		return brokenStuck(s, a)
	case "done":
		needed := without(union(s.incoming, s.ConfState.Learners), s.Down)
		if !isSame(s.ConfState, s.Target) || s.PendingConfIndex > 0 || !holds(voterIDs(s.Target), s.Lead) || len(without(s.Running, s.members)) > 0 || len(without(needed, s.up)) > 0 ||
			len(without(s.ConfState.Learners, s.Running, s.Down)) > 0 || len(both(s.ConfState.Learners, s.Retired)) > 0 || tolerance(s.ConfState, without(s.voters, s.Down)) < 0 {
			return "it is not done"
		}
	}
	return ""
}

// mayPropose says whether nothing holds up the first step of the path.
func (s *situation) mayPropose() bool {
	target := voterIDs(s.Target)
	leads := holds(both(s.voters, s.votersAfter), s.Lead) && s.PendingConfIndex == 0 && !s.ConfState.AutoLeave
	lives := tolerance(s.ConfState, without(s.voters, s.Down)) >= 0 && tolerance(s.Target, without(target, s.Down)) >= 0 && len(both(s.Down, union([]uint64{s.Lead}, both(s.heard, s.members)))) == 0
	starting := without(both(union(s.membersAfter, s.members), members(s.Target)), s.voters, s.Down, s.Running)
	served := len(both(without(members(s.Target), s.voters), s.Retired)) == 0 && len(starting) == 0 &&
		(len(without(s.Running, s.members, members(s.Target))) == 0 || len(s.lacking(s.ConfIndex, without(s.members, s.Down))) > 0)
	new := without(s.votersAfter, s.voters, s.Down)
	follow := len(without(union(new, without(both(s.votersAfter, s.heard), s.Down)), s.up)) == 0 && tolerance(s.ConfState, s.up) >= 0
	tolerates := len(without(s.votersAfter, s.Down, s.heard)) == 0 || len(s.after.VotersOutgoing) == 0 && tolerance(s.after, s.up) >= tolerance(s.ConfState, s.up)
	return !isSame(s.ConfState, s.Target) && leads && lives && served && follow && tolerates
}

func brokenStuck(s *situation, a answer) string {
	switch {
	case (a.Why == "quorum_lost") != (tolerance(s.ConfState, without(s.voters, s.Down)) < 0):
		return "a quorum is lost, or is not"
	case a.Why == "stalls" && tolerance(s.Target, without(voterIDs(s.Target), s.Down)) >= 0:
		return "the target does not stall"
	case a.Why == "reused" && len(without(a.IDs, both(members(s.Target), s.Retired))) > 0:
		return "it was not stopped for good"
	}
	return ""
}

func brokenTransfer(s *situation, ids []uint64, again func(func(v *view)) answer) string {
	to, isPending := ids[0], s.PendingConfIndex > 0
	settles := holds(s.voters, s.Lead) && !isPending
	switch {
	case len(ids) != 1 || to == s.Lead || !holds(both(s.voters, s.up), to):
		return "the leader to be is no voter that is up"
	case settles && !holds(s.votersAfter, to) || !settles && !holds(s.incoming, to):
		return "the leader to be may not lead"
	case settles && holds(s.votersAfter, s.Lead) || isPending && holds(both(s.incoming, voterIDs(s.Target)), s.Lead):
		return "leadership moves though it may stay"
	}
	then := again(func(v *view) { v.Lead = to })
	if then.Action == "transfer" && (settles || again(func(v *view) { v.Lead = then.IDs[0] }).Action == "transfer") {
		return "leadership moves once more"
	}
	return ""
}

func brokenProposal(t *testing.T, planner *planner, s *situation, stage planLine) string {
	after := stage.ConfState
	switch {
	case s.PendingConfIndex > 0 || s.ConfState.AutoLeave:
		return "another change comes first"
	case !leadsTo(s.ConfState, stage.ConfChange, after):
		return "etcd's changer leads elsewhere"
	case tolerance(s.ConfState, s.up) < 0 || tolerance(after, s.up) < 0:
		return "those that are up are no quorum"
	case tolerance(after, s.up) < tolerance(s.ConfState, s.up) && tolerance(after, s.up) < tolerance(s.Target, without(voterIDs(s.Target), s.Down)):
		return "fewer may fail"
	case len(without(after.Voters, s.voters, s.ConfState.Learners)) > 0 || len(both(s.votersAfter, stage.CatchingUp)) > 0:
		return "a new voter was no learner"
	case !holds(s.votersAfter, s.Lead):
		return "the leader leaves"
	case len(without(s.votersAfter, s.voters, s.Down, s.up)) > 0:
		return "a new voter has not caught up"
	case len(without(both(s.membersAfter, members(s.Target)), s.voters, s.Down, s.Running)) > 0:
		return "a member does not run"
	}
	for _, id := range without(s.votersAfter, s.Down, s.up) {
		if holds(s.heard, id) || len(after.VotersOutgoing) > 0 {
			return "a voter lags"
		}
	}
	rest := planner.path(t, s.Strategy, after, s.Target, s.Down)
	if rest.noPlan() || rest.stalls || len(rest.lines) >= len(s.path) {
		return "the rest of the plan is not shorter"
	}
	return ""
}

func brokenWait(s *situation, a answer, again func(func(v *view)) answer) string {
	switch {
	case a.Why == "heard":
		if len(without(a.IDs, s.Down)) > 0 {
			return "it is not named as down"
		}
		return ""
	case len(both(a.IDs, s.Down)) > 0 || len(without(a.IDs, s.members, []uint64{s.Lead})) > 0:
		return "it is down, or no member"
	case a.Why == "pending" && len(s.outgoing) > 0 && !holds(s.incoming, s.Lead) && len(both(s.incoming, s.up)) > 0:
		return "an outgoing voter leads"
	case a.Why == "behind" && (len(both(a.IDs, s.up)) > 0 || len(without(a.IDs, s.heard)) > 0):
		return "it has caught up, or is silent"
	case a.Why == "unheard" && len(both(a.IDs, s.heard)) > 0:
		return "it was heard from"
	}
	if a.Why != "behind" && a.Why != "unheard" {
		return ""
	}
	then := again(func(v *view) {
		for i := range v.Progress {
			if holds(a.IDs, v.Progress[i].ID) {
				v.Progress[i] = progressView{v.Progress[i].ID, v.Commit + v.ConfIndex, true}
			}
		}
	})
	if then.Action == "wait" && len(both(then.IDs, a.IDs)) > 0 {
		return "it is waited for, and has caught up"
	}
	return ""
}

// leadsTo says whether etcd's changer accepts a proposal, and it leads to a configuration.
func leadsTo(now pb.ConfState, proposal pb.ConfChangeV2, after pb.ConfState) bool {
	changer := confchange.Changer{Tracker: tracker.MakeProgressTracker(10)}
	var err error
	if changer.Tracker.Config, changer.Tracker.Progress, err = confchange.Restore(changer, now); err != nil {
		return false
	}
	if proposal.LeaveJoint() {
		changer.Tracker.Config, _, err = changer.LeaveJoint()
	} else if autoLeave, isJoint := proposal.EnterJoint(); isJoint {
		changer.Tracker.Config, _, err = changer.EnterJoint(autoLeave, proposal.Changes...)
	} else {
		changer.Tracker.Config, _, err = changer.Simple(proposal.Changes...)
	}
	return err == nil && isSame(changer.Tracker.ConfState(), after)
}
