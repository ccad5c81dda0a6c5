//go:build cgo

package confscript

import (
	"reflect"
	"testing"
)

func ids(all ...uint64) []uint64 { return all }

func changes(all ...ConfChangeSingle) []ConfChangeSingle { return all }

func voter(id uint64) ConfChangeSingle   { return ConfChangeSingle{ConfChangeAddNode, id} }
func learner(id uint64) ConfChangeSingle { return ConfChangeSingle{ConfChangeAddLearnerNode, id} }
func removed(id uint64) ConfChangeSingle { return ConfChangeSingle{ConfChangeRemoveNode, id} }
func updated(id uint64) ConfChangeSingle { return ConfChangeSingle{ConfChangeUpdateNode, id} }

func TestChanges(t *testing.T) {
	three := ConfState{Voters: ids(1, 2, 3)}
	joint := ConfState{Voters: ids(2, 4), VotersOutgoing: ids(1, 2, 3), Learners: ids(5), LearnersNext: ids(3), AutoLeave: true}
	for name, row := range map[string]struct {
		got        outcome
		next       ConfState
		catchingUp []uint64
	}{
		"simple":                               {of(Simple(three, changes(voter(4)))), ConfState{Voters: ids(1, 2, 3, 4)}, ids(4)},
		"promote":                              {of(Simple(ConfState{Voters: ids(1), Learners: ids(2)}, changes(voter(2)))), ConfState{Voters: ids(1, 2)}, nil},
		"several learners":                     {of(Simple(three, changes(learner(7), learner(6), updated(1), voter(0)))), ConfState{Voters: ids(1, 2, 3), Learners: ids(6, 7)}, ids(6, 7)},
		"removed and added again":              {of(Simple(three, changes(removed(3), voter(3)))), three, ids(3)},
		"enter":                                {of(EnterJoint(three, true, changes(removed(1), learner(3), voter(4), learner(5)))), joint, ids(4, 5)},
		"enter, not left by itself":            {of(EnterJoint(three, false, changes(removed(1), learner(3), voter(4), learner(5)))), ConfState{joint.Voters, joint.Learners, joint.VotersOutgoing, joint.LearnersNext, false}, ids(4, 5)},
		"an outgoing voter keeps its progress": {of(EnterJoint(three, false, changes(removed(3), voter(3)))), ConfState{Voters: ids(1, 2, 3), VotersOutgoing: ids(1, 2, 3)}, nil},
		"leave":                                {of(LeaveJoint(joint)), ConfState{Voters: ids(2, 4), Learners: ids(3, 5)}, nil},
		"auto one":                             {of(ApplyConfChange(three, ConfChangeV2{Changes: changes(removed(1))})), ConfState{Voters: ids(2, 3)}, nil},
		"auto two":                             {of(ApplyConfChange(three, ConfChangeV2{Changes: changes(removed(1), removed(2))})), ConfState{Voters: ids(3), VotersOutgoing: ids(1, 2, 3), AutoLeave: true}, nil},
		"auto none":                            {of(ApplyConfChange(joint, ConfChangeV2{})), ConfState{Voters: ids(2, 4), Learners: ids(3, 5)}, nil},
		"explicit":                             {of(ApplyConfChange(three, ConfChangeV2{ConfChangeTransitionJointExplicit, changes(removed(1))})), ConfState{Voters: ids(2, 3), VotersOutgoing: ids(1, 2, 3)}, nil},
		"implicit":                             {of(ApplyConfChange(three, ConfChangeV2{ConfChangeTransitionJointImplicit, changes(removed(1))})), ConfState{Voters: ids(2, 3), VotersOutgoing: ids(1, 2, 3), AutoLeave: true}, nil},
		"restore":                              {of(Restore(ConfState{Voters: ids(4, 2), VotersOutgoing: ids(3, 1, 2), Learners: ids(5), LearnersNext: ids(3), AutoLeave: true})), joint, ids(1, 2, 3, 4, 5)},
		"restore the largest id":               {of(Restore(ConfState{Voters: ids(1<<64 - 1)})), ConfState{Voters: ids(1<<64 - 1)}, ids(1<<64 - 1)},
		"restore nothing":                      {of(Restore(ConfState{})), ConfState{}, nil},
	} {
		if row.got.err != nil || !reflect.DeepEqual(row.got.next, row.next) || !reflect.DeepEqual(row.got.catchingUp, row.catchingUp) {
			t.Errorf("%s: %v", name, row.got)
		}
	}
}

// An outcome is what a call returned.
type outcome struct {
	next       ConfState
	catchingUp []uint64
	err        error
}

func of(next ConfState, catchingUp []uint64, err error) outcome {
	return outcome{next, catchingUp, err}
}

func TestRefusedChanges(t *testing.T) {
	one, joint := ConfState{Voters: ids(1)}, ConfState{Voters: ids(1, 2), VotersOutgoing: ids(1)}
	refused := func(_ ConfState, _ []uint64, err error) error { return err }
	for text, err := range map[string]error{
		"can't apply simple config change in joint config":          refused(Simple(joint, changes(voter(3)))),
		"more than one voter changed without entering joint config": refused(Simple(one, changes(voter(2), voter(3)))),
		"removed all voters":                   refused(Simple(one, changes(removed(1)))),
		"config is already joint":              refused(EnterJoint(joint, false, nil)),
		"can't make a zero-voter config joint": refused(EnterJoint(ConfState{}, false, changes(voter(1)))),
		"can't leave a non-joint config":       refused(LeaveJoint(one)),
		"an id is named twice (id 7)":          refused(Restore(ConfState{Voters: ids(7, 1, 7)})),
		"a learner is a voter (id 2)":          refused(Restore(ConfState{Voters: ids(1, 2, 3), Learners: ids(3, 2)})),
		"the id 0":                             refused(Restore(ConfState{Voters: ids(0)})),
		"no incoming voter":                    refused(Restore(ConfState{Learners: ids(1)})),
		"auto-leave without outgoing voters":   refused(Restore(ConfState{Voters: ids(1), AutoLeave: true})),
	} {
		if err == nil || err.Error() != text {
			t.Errorf("%v, and not %s", err, text)
		}
	}
	if err := refused(Simple(one, changes(ConfChangeSingle{4, 2}))); err == nil {
		t.Error("a change of an unknown type is accepted")
	}
	// 3 is a simple step of the library, and 4 leaves a joint configuration.
	for _, transition := range []ConfChangeTransition{-1, 3, 4, 5} {
		for _, state := range []ConfState{one, joint} {
			err := refused(ApplyConfChange(state, ConfChangeV2{transition, changes(learner(3))}))
			if err == nil || err.Error() != "unknown step" {
				t.Errorf("transition %d: %v", transition, err)
			}
		}
	}
}

func BenchmarkSimple(b *testing.B) {
	state, change := ConfState{Voters: ids(1, 2, 3, 4, 5)}, changes(voter(6))
	for i := 0; i < b.N; i++ {
		_, _, _ = Simple(state, change)
	}
}
