//go:build cgo

package confscript_test

import (
	"errors"
	"fmt"

	"confscript"
)

func ExamplePlan() {
	steps, err := confscript.Plan("voters=(1 2 3)", "r1 v4")
	fmt.Print(steps, err)
	// Output:
	// enter-joint autoleave=false r1 v4
	// leave-joint
	// <nil>
}

func ExampleStages() {
	now, target := confscript.ConfState{Voters: []uint64{1, 2, 3}}, confscript.ConfState{Voters: []uint64{1, 2, 3, 4}}
	stages, _, err := confscript.Stages(confscript.Options{Strategy: confscript.LearnersFirst}, now, target)
	if err != nil {
		fmt.Println(err)
	}
	for _, stage := range stages {
		fmt.Println(stage.ConfChange, stage.ConfState)
	}
	// Output:
	// {ConfChangeTransitionAuto [{ConfChangeAddLearnerNode 4}]} voters=(1 2 3) learners=(4)
	// {ConfChangeTransitionAuto [{ConfChangeAddNode 4}]} voters=(1 2 3 4)
}

func ExampleNext() {
	now, target := confscript.ConfState{Voters: []uint64{1, 2, 3}}, confscript.ConfState{Voters: []uint64{1, 2, 4}}
	view := confscript.View{
		ConfState: now, ConfIndex: 57, Lead: 1, Commit: 60, Started: []uint64{1, 2, 3},
		Progress: map[uint64]confscript.Progress{1: {Match: 60, RecentActive: true}, 2: {Match: 60, RecentActive: true}, 3: {Match: 17}},
	}
	options := confscript.DriveOptions{Strategy: confscript.LearnersFirst}
	fmt.Println(confscript.Next(options, target, view))
	view.Started = append(view.Started, 4) // it was started
	fmt.Println(confscript.Next(options, target, view))
	// Output:
	// start 4 <nil>
	// propose simple l4 <nil>
}

func ExampleApplyConfChange() {
	change := confscript.ConfChangeV2{Changes: []confscript.ConfChangeSingle{{Type: confscript.ConfChangeAddNode, NodeID: 4}}}
	fmt.Println(confscript.ApplyConfChange(confscript.ConfState{Voters: []uint64{1, 2, 3}}, change))
	// Output: voters=(1 2 3 4) [4] <nil>
}

func ExampleLeaveJoint() {
	_, _, err := confscript.LeaveJoint(confscript.ConfState{Voters: []uint64{1}})
	fmt.Println(err, errors.Is(err, confscript.ErrNotJoint))
	// Output: can't leave a non-joint config true
}

func ExampleCommitted() {
	fmt.Println(confscript.Committed([]uint64{1, 2, 3}, nil, map[uint64]uint64{1: 9, 2: 7}))
	// Output: 7
}

func ExampleVote() {
	fmt.Println(confscript.Vote([]uint64{1, 2, 3}, nil, map[uint64]bool{1: true, 3: true}))
	// Output: VoteWon
}

func ExampleMayBeDown() {
	fmt.Println(confscript.MayBeDown([]uint64{1, 2, 3}, nil, nil))
	// Output: 1 <nil>
}
