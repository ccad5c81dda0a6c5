//go:build cgo

package confscript

import (
	"errors"
	"strings"
	"testing"
)

// at returns a view of a cluster in which this configuration is known with index 5 and 9 is committed. The members have
// these indexes, and were heard from; of one with a negative index, nothing was heard.
func at(state ConfState, lead uint64, indexes map[uint64]int, started ...uint64) View {
	view := View{ConfState: state, ConfIndex: 5, Lead: lead, Commit: 9, Progress: map[uint64]Progress{}, Started: started}
	for id, index := range indexes {
		if index < 0 {
			view.Progress[id] = Progress{Match: uint64(-index)}
		} else {
			view.Progress[id] = Progress{uint64(index), true}
		}
	}
	return view
}

func with(view View, change func(*View)) View {
	change(&view)
	return view
}

// TestNext has a view for each row of the rule, in its order, with the text of the action.
func TestNext(t *testing.T) {
	three, target := ConfState{Voters: ids(1, 2, 3)}, ConfState{Voters: ids(1, 2, 4)}
	learning := ConfState{Voters: ids(1, 2, 3), Learners: ids(4)}
	joint := ConfState{Voters: target.Voters, VotersOutgoing: three.Voters}
	leaving := ConfState{Voters: target.Voters, VotersOutgoing: three.Voters, AutoLeave: true}
	all := map[uint64]int{1: 9, 2: 9, 3: 9, 4: 9}
	first, oneAtATime := DriveOptions{Strategy: LearnersFirst}, DriveOptions{Strategy: OneAtATime}
	down := func(ids ...uint64) DriveOptions { return DriveOptions{Strategy: LearnersFirst, Down: ids} }
	plain := at(three, 1, all, 1, 2, 3, 4)
	for _, row := range []struct {
		options DriveOptions
		target  ConfState
		view    View
		want    string
	}{
		{down(2, 3), target, plain, "quorum is lost with 2 3 down"},
		{down(3), target, plain, "3 named as down, but heard from"},
		{first, target, at(three, 0, map[uint64]int{1: 9, 2: 9, 3: -9}, 1, 2, 3), "there is no leader: waiting for 3"},
		{first, target, with(at(joint, 3, all, 1, 2, 3, 4), func(view *View) { view.PendingConfIndex = 8 }), "transfer leadership to 1"},
		{first, target, with(at(three, 1, map[uint64]int{1: 10, 2: 9, 3: 10}, 1, 2, 3), func(view *View) { view.PendingConfIndex = 10 }),
			"the change at index 10 is not applied: waiting for 2"},
		{down(4), ConfState{Voters: ids(3, 4)}, at(three, 1, map[uint64]int{1: 9, 2: 9, 3: 9}, 1, 2, 3, 4), "with 4 down, nothing commits in a configuration on the way"},
		{first, target, with(at(three, 1, all, 1, 2, 3), func(view *View) { view.Retired = ids(4) }), "stopped for good, and not used again: 4"},
		{first, target, at(three, 1, all, 1, 2, 3), "start 4"},
		{first, ConfState{Voters: ids(1, 2)}, at(ConfState{Voters: ids(1, 2)}, 1, all, 1, 2, 3), "stop 3 for good"},
		{first, target, at(leaving, 1, map[uint64]int{1: 9, 2: 9, 3: 4, 4: 9}, 1, 2, 3, 4), "the joint configuration is left automatically: waiting for 3"},
		{first, target, at(joint, 3, all, 1, 2, 3, 4), "transfer leadership to 1"},
		{oneAtATime, ConfState{Voters: ids(2, 3)}, at(three, 1, map[uint64]int{1: 9, 2: 8, 3: 8}, 1, 2, 3), "2 has not caught up: 8 of 9, 3 has not caught up: 8 of 9"},
		{down(3), three, at(three, 1, map[uint64]int{1: 9, 2: 9}, 1, 2, 3), "done"},
		{first, three, at(three, 1, map[uint64]int{1: 9, 2: 9}, 1, 2, 3), "not heard from 3"},
		{first, target, at(learning, 1, map[uint64]int{1: 9, 2: 9, 3: 9, 4: 2}, 1, 2, 3, 4), "4 has not caught up: 2 of 9"},
		{DriveOptions{Strategy: LearnersFirst, MaxLag: 3}, target, at(learning, 1, map[uint64]int{1: 9, 2: 9, 3: 9, 4: 2}, 1, 2, 3, 4), "4 has not caught up: 2 of 6"},
		{DriveOptions{Strategy: LearnersFirst, MaxLag: 3}, target, at(learning, 1, map[uint64]int{1: 9, 2: 9, 3: 9, 4: 6}, 1, 2, 3, 4), "propose enter-joint autoleave=false r3 v4"},
		{oneAtATime, ConfState{Voters: ids(1, 2, 3, 4)}, at(three, 1, map[uint64]int{1: 9, 2: -9, 3: -9}, 1, 2, 3, 4), "not heard from 2 3"},
		{first, target, at(learning, 1, map[uint64]int{1: 9, 2: 9, 3: 9, 4: -9}, 1, 2, 3, 4), "not heard from 4"},
		{first, target, plain, "propose simple l4"},
		{first, target, at(joint, 1, map[uint64]int{1: 9, 2: 9, 3: 4, 4: 9}, 1, 2, 3, 4), "propose leave-joint"},
		{down(9), three, at(three, 1, map[uint64]int{1: 9, 2: 9, 3: 9}, 1, 2, 3), "done"},
		// A removed leader cannot add the entry after its removal, which others know by the one before.
		{first, three, with(at(three, 4, map[uint64]int{1: 9, 2: 9, 3: 9}, 1, 2, 3, 4), func(view *View) { view.ConfIndex = 10 }), "transfer leadership to 1"},
		{first, three, with(at(three, 4, map[uint64]int{1: 9, 2: 10, 3: -9}, 1, 2, 3, 4), func(view *View) { view.ConfIndex = 12 }), "not heard from 3"},
		{down(3), three, with(at(three, 4, map[uint64]int{1: 9, 2: 10}, 1, 2, 3, 4), func(view *View) { view.ConfIndex = 12 }), "1 has not caught up: 9 of 11, 2 has not caught up: 10 of 11"},
		// Who is silent or was stopped for good neither votes nor starts again.
		{first, ConfState{Voters: ids(1, 2, 3)}, at(ConfState{Voters: ids(1, 2), Learners: ids(3)}, 1, map[uint64]int{1: 9, 2: 9, 3: -9}, 1, 2, 3), "not heard from 3"},
		{first, ConfState{Voters: ids(1, 2)}, with(at(ConfState{Voters: ids(1, 2), Learners: ids(3)}, 1, map[uint64]int{1: 9, 2: 9, 3: -9}, 1, 2), func(view *View) { view.Retired = ids(3) }), "propose simple r3"},
		// No server stops while a newer leader may have it, or a member does not know that it is removed.
		{first, three, at(three, 1, map[uint64]int{1: 9, 2: -9, 3: -9}, 1, 2, 3, 4), "not heard from 2 3"},
		{first, ConfState{Voters: ids(2, 3), Learners: ids(1)}, at(ConfState{Voters: ids(2, 3), Learners: ids(1)}, 2, map[uint64]int{1: 4, 2: 9, 3: 9}, 1, 2, 3, 4), "1 has not caught up: 4 of 9"},
	} {
		action, err := Next(row.options, row.target, row.view)
		if err != nil || action.String() != row.want {
			t.Errorf("Next(%+v, %v, %+v): %v, %v, and not %q", row.options, row.target, row.view, action, err, row.want)
		}
	}
}

// TestNextLeads does what Next says in a cluster that obeys, until it is done: the stages are those of Stages.
func TestNextLeads(t *testing.T) {
	const most = 1<<64 - 1
	now, target := ConfState{Voters: ids(1, 2, most)}, ConfState{Voters: ids(2, 3, 4), Learners: ids(1)}
	view := at(now, 1, map[uint64]int{1: 9, 2: 9, most: 9}, 1, 2, most)
	options := DriveOptions{Strategy: LearnersFirst}
	stages, _, err := Stages(Options{Strategy: LearnersFirst}, now, target)
	if err != nil {
		t.Fatal(err)
	}
	for count := 0; ; count++ {
		action, err := Next(options, target, view)
		if err != nil || count > 20 {
			t.Fatalf("after %d actions: %v, %v", count, action, err)
		}
		switch action := action.(type) {
		case Start:
			for _, id := range action.IDs {
				view.Progress[id] = Progress{9, true}
			}
			view.Started = append(view.Started, action.IDs...)
		case Stop:
			view.Started, view.Retired = ids(1, 2, 3, 4), append(view.Retired, action.IDs...)
		case Transfer:
			view.Lead = action.To
		case Propose:
			if want := stages[0].ConfState; !action.Stage.ConfState.Equal(want) {
				t.Errorf("%v leads to %v, and not to %v", action, action.Stage.ConfState, want)
			}
			view.ConfState, stages = action.Stage.ConfState, stages[1:]
		case Done:
			if len(stages) > 0 || !view.ConfState.Equal(target) || len(view.Retired) != 1 || view.Retired[0] != most || view.Lead == most {
				t.Errorf("done with %+v, and %d stages left", view, len(stages))
			}
			return
		default:
			t.Fatal(action)
		}
	}
}

// TestNextIsRefused has an error for each part of what is asked. Its text names the part.
func TestNextIsRefused(t *testing.T) {
	state, wrong := ConfState{Voters: ids(1)}, ConfState{Voters: ids(1), Learners: ids(1)}
	view := at(state, 1, map[uint64]int{1: 9}, 1)
	first := DriveOptions{Strategy: LearnersFirst}
	for _, row := range []struct {
		options DriveOptions
		target  ConfState
		view    View
		want    error
		part    string
	}{
		{DriveOptions{}, state, view, ErrNoStrategy, "confscript: the strategy is missing"},
		{DriveOptions{Strategy: 9}, state, view, ErrBadStrategy, ""},
		{DriveOptions{Strategy: LearnersFirst, Down: ids(2, 2, 0)}, state, view, ErrZeroID, "down: "},
		{first, ConfState{}, view, ErrNoVoter, "the target: "},
		{first, state, with(view, func(view *View) { view.ConfState = ConfState{} }), ErrNoVoter, "the configuration: "},
		{first, wrong, view, ErrLearnerAndVoter, "the target: "},
		{first, state, with(view, func(view *View) { view.ConfState = wrong }), ErrLearnerAndVoter, "the configuration: "},
		{first, ConfState{Voters: ids(0)}, view, ErrZeroID, "the target: "},
		{first, state, with(view, func(view *View) { view.Started = ids(1, 0) }), ErrZeroID, "started: "},
		{first, state, with(view, func(view *View) { view.Retired = ids(0) }), ErrZeroID, "retired: "},
		{first, state, with(view, func(view *View) { view.Progress = map[uint64]Progress{0: {}, 1: {Match: 9}} }), ErrZeroID, "the progress: "},
		{first, state, with(view, func(view *View) { view.ConfIndex = 0 }), ErrNoConfIndex, ""},
		{first, state, with(view, func(view *View) { view.Progress = nil }), ErrNoLeaderProgress, ""},
		{first, ConfState{Voters: ids(1), VotersOutgoing: ids(2), AutoLeave: true}, view, ErrAutoLeaveTarget, ""},
		{DriveOptions{Strategy: OneAtATime}, ConfState{Voters: ids(1), VotersOutgoing: ids(2)}, view, ErrJointTarget, ""},
	} {
		action, err := Next(row.options, row.target, row.view)
		if !errors.Is(err, row.want) || !strings.HasPrefix(err.Error(), row.part) {
			t.Errorf("Next(%+v, %v, %+v): %v, %v, and not %s%v", row.options, row.target, row.view, action, err, row.part, row.want)
		}
	}
}
