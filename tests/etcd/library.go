package etcd

import (
	"fmt"
	"reflect"
	"sort"

	library "confscript"

	pb "go.etcd.io/etcd/raft/raftpb"
)

// nextOfLibrary asks the library what to do next.
func nextOfLibrary(s *situation) (answer, error) {
	view := library.View{
		ConfState: fromRaft(s.ConfState), ConfIndex: s.ConfIndex, Lead: s.Lead, Commit: s.Commit, PendingConfIndex: s.PendingConfIndex,
		Progress: map[uint64]library.Progress{}, Started: s.Running, Retired: s.Retired,
	}
	for _, each := range s.Progress {
		view.Progress[each.ID] = library.Progress{Match: each.Match, RecentActive: each.RecentActive}
	}
	action, err := library.Next(library.DriveOptions{Strategy: strategyNames[s.Strategy], Down: s.Down, MaxLag: s.MaxLag}, fromRaft(s.Target), view)
	if err != nil {
		return answer{}, err
	}
	return fromLibrary(action), nil
}

func fromLibrary(action library.Action) answer {
	switch action := action.(type) {
	case library.Start:
		return answer{Action: "start", IDs: action.IDs}
	case library.Stop:
		return answer{Action: "stop", IDs: action.IDs}
	case library.Transfer:
		return answer{Action: "transfer", IDs: []uint64{action.To}}
	case library.Propose:
		return answer{Action: "propose", Stage: toLine(action.Stage)}
	case library.Wait:
		return answer{Action: "wait", Why: waitReasons[action.Reason], IDs: action.IDs}
	case library.Stuck:
		return answer{Action: "stuck", Why: stuckReasons[action.Reason], IDs: action.IDs}
	default:
		return answer{Action: "done"}
	}
}

var (
	strategyNames = map[string]library.Strategy{"learners-first": library.LearnersFirst, "one-at-a-time": library.OneAtATime}
	waitReasons   = map[library.WaitReason]string{
		library.WaitNoLeader: "no_leader", library.WaitPending: "pending", library.WaitHeard: "heard",
		library.WaitUnheard: "unheard", library.WaitBehind: "behind", library.WaitLeaving: "leaving",
	}
	stuckReasons = map[library.StuckReason]string{
		library.StuckQuorumLost: "quorum_lost", library.StuckStalls: "stalls", library.StuckReused: "reused",
	}
)

func fromRaft(state pb.ConfState) library.ConfState {
	return library.ConfState{
		Voters: state.Voters, VotersOutgoing: state.VotersOutgoing, Learners: state.Learners, LearnersNext: state.LearnersNext, AutoLeave: state.AutoLeave,
	}
}

func toRaft(state library.ConfState) pb.ConfState {
	return pb.ConfState{
		Voters: state.Voters, VotersOutgoing: state.VotersOutgoing, Learners: state.Learners, LearnersNext: state.LearnersNext, AutoLeave: state.AutoLeave,
	}
}

// viewOf returns a view of the library as next.go has it, with the members in ascending order.
func viewOf(v library.View) view {
	made := view{
		ConfState: toRaft(v.ConfState), ConfIndex: v.ConfIndex, Lead: v.Lead, Commit: v.Commit, PendingConfIndex: v.PendingConfIndex,
		Running: v.Started, Retired: v.Retired,
	}
	for id, each := range v.Progress {
		made.Progress = append(made.Progress, progressView{id, each.Match, each.RecentActive})
	}
	sort.Slice(made.Progress, func(i, j int) bool { return made.Progress[i].ID < made.Progress[j].ID })
	return made
}

func toLines(stages []library.Stage) (lines []planLine) {
	for _, stage := range stages {
		lines = append(lines, toLine(stage))
	}
	return lines
}

// toLine returns a stage of the library as the program prints it.
func toLine(stage library.Stage) planLine {
	line := planLine{
		ConfState:  toRaft(stage.ConfState),
		CatchingUp: stage.CatchingUp, MayBeDown: int(*stage.MayBeDown), WhileCatchingUp: number(stage.UntilThen), MayBeDownBesides: number(stage.MayBeDownBesides),
	}
	line.ConfChange.Transition = pb.ConfChangeTransition(stage.ConfChange.Transition)
	for _, single := range stage.ConfChange.Changes {
		line.ConfChange.Changes = append(line.ConfChange.Changes, pb.ConfChangeSingle{Type: pb.ConfChangeType(single.Type), NodeID: single.NodeID})
	}
	return line
}

func number(count *uint64) *int {
	if count == nil {
		return nil
	}
	made := int(*count)
	return &made
}

// isSameAnswer says whether two answers are the same, but for the numbers of a plan's line.
func isSameAnswer(a, b answer) bool {
	if a.Action == "propose" && b.Action == "propose" {
		return isSameStage(a.Stage, b.Stage)
	}
	return a.Action == b.Action && a.Why == b.Why && fmt.Sprint(a.IDs) == fmt.Sprint(b.IDs)
}

// isSameStage says whether a stage of the library has what a line of a plan has.
func isSameStage(a, b planLine) bool {
	return fmt.Sprint(a.ConfChange, a.CatchingUp, a.MayBeDown) == fmt.Sprint(b.ConfChange, b.CatchingUp, b.MayBeDown) && isSame(a.ConfState, b.ConfState) &&
		reflect.DeepEqual(a.WhileCatchingUp, b.WhileCatchingUp) && (len(b.Down) == 0 || reflect.DeepEqual(a.MayBeDownBesides, b.MayBeDownBesides))
}
