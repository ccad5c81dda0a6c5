//go:build cgo

package confscript

/*
#include "confscript.h"
*/
import "C"

// ConfState is a configuration, with the field names of raftpb.ConfState, also in JSON, which Plan reads. The ids of a
// list may be in any order.
type ConfState struct {
	// The voters; in a joint configuration the incoming ones.
	Voters   []uint64 `json:"voters,omitempty"`
	Learners []uint64 `json:"learners,omitempty"`
	// The outgoing voters of a joint configuration.
	VotersOutgoing []uint64 `json:"voters_outgoing,omitempty"`
	// The outgoing voters that become learners when the joint configuration is left.
	LearnersNext []uint64 `json:"learners_next,omitempty"`
	// Whether raft leaves the joint configuration by itself.
	AutoLeave bool `json:"auto_leave"`
}

// ConfChangeType is what a change does to its id.
type ConfChangeType int32

// The types of changes, with the numbers of raftpb.
const (
	ConfChangeAddNode        ConfChangeType = C.CONFSCRIPT_CHANGE_VOTER
	ConfChangeRemoveNode     ConfChangeType = C.CONFSCRIPT_CHANGE_REMOVE
	ConfChangeUpdateNode     ConfChangeType = C.CONFSCRIPT_CHANGE_UPDATE
	ConfChangeAddLearnerNode ConfChangeType = C.CONFSCRIPT_CHANGE_LEARNER
)

// ConfChangeSingle is a change of one id. A change of the id 0 has no effect.
type ConfChangeSingle struct {
	Type   ConfChangeType `json:"type"`
	NodeID uint64         `json:"node_id"`
}

// ConfChangeTransition is how the changes of a proposal are made.
type ConfChangeTransition int32

// The transitions, with the numbers of raftpb.
const (
	// No change leaves a joint configuration, one is a simple change, and more enter a joint configuration that raft
	// leaves by itself.
	ConfChangeTransitionAuto ConfChangeTransition = C.CONFSCRIPT_STEP_AUTO
	// The changes enter a joint configuration that raft leaves by itself.
	ConfChangeTransitionJointImplicit ConfChangeTransition = C.CONFSCRIPT_STEP_IMPLICIT
	// The changes enter a joint configuration that another proposal has to leave.
	ConfChangeTransitionJointExplicit ConfChangeTransition = C.CONFSCRIPT_STEP_EXPLICIT
)

// ConfChangeV2 is a proposal, with the field names of raftpb.ConfChangeV2. It is read from the JSON of a plan and from
// that of raftpb, which has numbers in place of the names.
type ConfChangeV2 struct {
	Transition ConfChangeTransition `json:"transition"`
	Changes    []ConfChangeSingle   `json:"changes"`
}

// ApplyConfChange returns the configuration after a proposal, as etcd's raft applies it, and the members that are
// catching up in it: those that were none before, and those that the changes remove and add again, unless they are
// outgoing voters. The other members keep their progress. A transition that raftpb does not have is refused.
func ApplyConfChange(state ConfState, change ConfChangeV2) (next ConfState, catchingUp []uint64, err error) {
	switch change.Transition {
	case ConfChangeTransitionAuto, ConfChangeTransitionJointImplicit, ConfChangeTransitionJointExplicit:
		return step(state, uint32(change.Transition), change.Changes)
	default:
		// The library has steps of other numbers, which are not transitions.
		return ConfState{}, nil, &Refused{Status: ErrBadStep}
	}
}

// Simple returns the configuration after changes of any number of learners and at most one voter. It is refused in a
// joint configuration.
func Simple(state ConfState, changes []ConfChangeSingle) (next ConfState, catchingUp []uint64, err error) {
	return step(state, C.CONFSCRIPT_STEP_SIMPLE, changes)
}

// EnterJoint returns the joint configuration that changes lead to, which raft leaves by itself with autoLeave.
func EnterJoint(state ConfState, autoLeave bool, changes []ConfChangeSingle) (next ConfState, catchingUp []uint64, err error) {
	if autoLeave {
		return step(state, C.CONFSCRIPT_STEP_IMPLICIT, changes)
	}
	return step(state, C.CONFSCRIPT_STEP_EXPLICIT, changes)
}

// LeaveJoint returns the configuration after a joint one is left.
func LeaveJoint(state ConfState) (next ConfState, catchingUp []uint64, err error) {
	return step(state, C.CONFSCRIPT_STEP_LEAVE_JOINT, nil)
}

// Restore checks a saved configuration, and returns it with its ids in ascending order. Each member is catching up, as
// when a server restarts.
func Restore(state ConfState) (restored ConfState, catchingUp []uint64, err error) {
	from := state.numbers()
	return configuration(room(state, 0), func(out []uint64) answer { return callRestore(from, out) })
}

func step(state ConfState, kind uint32, changes []ConfChangeSingle) (ConfState, []uint64, error) {
	from := state.numbers()
	return configuration(room(state, len(changes)), func(out []uint64) answer { return callStep(from, kind, changes, out) })
}

// size returns how many ids the lists have.
func (state ConfState) size() int {
	return len(state.Voters) + len(state.VotersOutgoing) + len(state.Learners) + len(state.LearnersNext)
}

// numbers returns the configuration as the array that enum confscript_part describes.
func (state ConfState) numbers() []uint64 {
	lists := [][]uint64{state.Voters, state.VotersOutgoing, state.Learners, state.LearnersNext}
	numbers := make([]uint64, C.CONFSCRIPT_PART_IDS, C.CONFSCRIPT_PART_IDS+state.size())
	if state.AutoLeave {
		numbers[C.CONFSCRIPT_PART_AUTO_LEAVE] = 1
	}
	for i, list := range lists {
		numbers[C.CONFSCRIPT_PART_INCOMING+i] = uint64(len(list))
		numbers = append(numbers, list...)
	}
	return numbers
}

// room returns how many numbers a call writes at most, as the macro CONFSCRIPT_STEP_ROOM of confscript.h.
func room(state ConfState, changes int) int {
	return C.CONFSCRIPT_PART_IDS + 2*(state.size()+changes)
}

// configuration returns the configuration that a call writes into this room, and the members that are catching up in it.
func configuration(room int, call func(out []uint64) answer) (ConfState, []uint64, error) {
	out := make([]uint64, room)
	if _, err := number(call(out)); err != nil {
		return ConfState{}, nil, err
	}
	state, catchingUp, _ := read(out)
	return state, catchingUp, nil
}

// read returns the configuration of such an array, its members that are catching up, and what follows it. The lists are
// parts of it; an empty one is nil.
func read(numbers []uint64) (state ConfState, catchingUp, rest []uint64) {
	rest = numbers[C.CONFSCRIPT_PART_IDS:]
	next := func(part int) []uint64 {
		count := numbers[part]
		list := rest[:count:count]
		rest = rest[count:]
		if count == 0 {
			return nil
		}
		return list
	}
	state = ConfState{
		Voters:         next(C.CONFSCRIPT_PART_INCOMING),
		VotersOutgoing: next(C.CONFSCRIPT_PART_OUTGOING),
		Learners:       next(C.CONFSCRIPT_PART_LEARNERS),
		LearnersNext:   next(C.CONFSCRIPT_PART_LEARNERS_NEXT),
		AutoLeave:      numbers[C.CONFSCRIPT_PART_AUTO_LEAVE] == 1,
	}
	catchingUp = next(C.CONFSCRIPT_PART_CATCHING_UP)
	return state, catchingUp, rest
}
