//go:build cgo

package confscript

import (
	"reflect"
	"testing"
)

func only(number uint64) *uint64 { return &number }

func TestStages(t *testing.T) {
	five, last := ids(1, 2, 3, 4, 5), ConfState{Voters: ids(3, 4, 5, 6, 7)}
	auto := func(change ConfChangeSingle) ConfChangeV2 { return ConfChangeV2{Changes: changes(change)} }
	want := []Stage{
		{auto(learner(6)), ConfState{Voters: five, Learners: ids(6)}, ids(6), only(2), only(2), nil},
		{auto(learner(7)), ConfState{Voters: five, Learners: ids(6, 7)}, ids(7), only(2), only(2), nil},
		{ConfChangeV2{ConfChangeTransitionJointExplicit, changes(removed(1), removed(2), voter(6), voter(7))},
			ConfState{Voters: last.Voters, VotersOutgoing: five}, nil, only(2), only(2), nil},
		{ConfChangeV2{}, last, nil, only(2), only(2), nil},
	}
	stages, stalls, err := Stages(Options{Strategy: LearnersFirst}, ConfState{Voters: ids(5, 4, 3, 2, 1)}, last)
	if err != nil || stalls || !reflect.DeepEqual(stages, want) {
		t.Errorf("Stages: %+v, %v, %v", stages, stalls, err)
	}
}

// TestStagesLead carries plans out: each proposal leads to the configuration of its stage, the last to the target. The
// ids are so large that a float would round them.
func TestStagesLead(t *testing.T) {
	const most = 1<<64 - 1
	states := []ConfState{
		{Voters: ids(most)},
		{Voters: ids(1, most-2, most-1), Learners: ids(most)},
		{Voters: ids(2, 1<<53+1), VotersOutgoing: ids(1, 2, most), Learners: ids(5), LearnersNext: ids(most)},
		{Voters: ids(3, 4), VotersOutgoing: ids(1, 2), AutoLeave: true},
	}
	for _, now := range states {
		for _, target := range states {
			for strategy := Shortest; strategy <= OneAtATime; strategy++ {
				stages, stalls, err := Stages(Options{Strategy: strategy}, now, target)
				if strategy == OneAtATime && len(target.VotersOutgoing) > 0 && !reflect.DeepEqual(now, target) {
					if err == nil || err.Error() != "the target is joint" {
						t.Errorf("%v to %v: %v", now, target, err)
					}
					continue
				}
				state := now
				for _, stage := range stages {
					next, catchingUp, err := ApplyConfChange(state, stage.ConfChange)
					if err != nil || !reflect.DeepEqual(next, stage.ConfState) || !reflect.DeepEqual(catchingUp, stage.CatchingUp) {
						t.Errorf("%v to %v: %v, %v, %v, and not %v", now, target, next, catchingUp, err, stage)
					}
					state = next
				}
				if err != nil || stalls || !reflect.DeepEqual(state, target) {
					t.Errorf("%v to %v: %v, %v, %v", now, target, state, stalls, err)
				}
			}
		}
	}
}

func TestStagesWithIdsDown(t *testing.T) {
	one, three := ConfState{Voters: ids(1)}, ConfState{Voters: ids(1, 2, 3)}
	stages, stalls, err := Stages(Options{OneAtATime, ids(5, 4)}, ConfState{Voters: ids(1, 2, 3, 4, 5)}, ConfState{Voters: ids(1, 2, 3, 6, 7)})
	if err != nil || stalls || len(stages) != 6 || stages[0].ConfChange.Changes[0] != removed(4) || *stages[5].MayBeDownBesides != 2 {
		t.Errorf("Stages: %+v, %v, %v", stages, stalls, err)
	}
	stages, stalls, err = Stages(Options{Down: ids(1, 2)}, three, three)
	if err != nil || !stalls || stages != nil {
		t.Errorf("Stages: %+v, %v, %v", stages, stalls, err)
	}
	stages, stalls, err = Stages(Options{Down: ids(2)}, one, ConfState{Voters: ids(1, 2)})
	if err != nil || !stalls || len(stages) != 1 || stages[0].MayBeDownBesides != nil || *stages[0].MayBeDown != 0 {
		t.Errorf("Stages: %+v, %v, %v", stages, stalls, err)
	}
	stages, stalls, err = Stages(Options{}, one, ConfState{Voters: ids(1, 2)})
	if err != nil || stalls || len(stages) != 1 || stages[0].UntilThen != nil || *stages[0].MayBeDown != 0 {
		t.Errorf("Stages: %+v, %v, %v", stages, stalls, err)
	}
}

// TestManyStages has more numbers than the first buffer.
func TestManyStages(t *testing.T) {
	target := ConfState{Voters: ids(1000)}
	for id := uint64(1); id <= 100; id++ {
		target.Learners = append(target.Learners, id)
	}
	stages, _, err := Stages(Options{}, ConfState{Voters: ids(1000)}, target)
	if err != nil || len(stages) != 100 || !reflect.DeepEqual(stages[99].ConfState, target) || !reflect.DeepEqual(stages[99].CatchingUp, ids(100)) {
		t.Errorf("Stages: %+v, %v", stages, err)
	}
}

func TestRefusedStages(t *testing.T) {
	one := ConfState{Voters: ids(1)}
	refused := func(_ []Stage, _ bool, err error) error { return err }
	for text, err := range map[string]error{
		"unknown strategy":                     refused(Stages(Options{Strategy: 3}, one, one)),
		"the id 0":                             refused(Stages(Options{Down: ids(0)}, one, one)),
		"an id is named twice (id 7)":          refused(Stages(Options{}, ConfState{Voters: ids(7, 1, 7)}, one)),
		"a learner is a voter (id 2)":          refused(Stages(Options{}, one, ConfState{Voters: ids(2), Learners: ids(2)})),
		"down and not a member (id 9)":         refused(Stages(Options{Down: ids(1, 9)}, one, one)),
		"the configuration: no incoming voter": refused(Stages(Options{}, ConfState{}, one)),
		"the target: no incoming voter":        refused(Stages(Options{}, one, ConfState{Learners: ids(1)})),
		"the target is joint":                  refused(Stages(Options{Strategy: OneAtATime}, one, ConfState{Voters: ids(2), VotersOutgoing: ids(1)})),
	} {
		if err == nil || err.Error() != text {
			t.Errorf("%v, and not %s", err, text)
		}
	}
}
