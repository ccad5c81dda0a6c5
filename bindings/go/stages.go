//go:build cgo

package confscript

/*
#include "confscript.h"
*/
import "C"

// Stage is a proposal of a plan, and the configuration that it leads to.
type Stage struct {
	// What to propose to etcd's raft, once the stage before it is applied and its members have caught up. A joint
	// configuration with AutoLeave is left by raft itself: the stage that leaves it is not proposed, but waited for.
	ConfChange ConfChangeV2
	// The configuration once it is applied.
	ConfState ConfState
	// The members that have to catch up there.
	CatchingUp []uint64
	// How many ids may be down there, whichever they are.
	MayBeDown *uint64
	// How many while members are catching up; nil if nothing commits then.
	UntilThen *uint64
	// How many besides those in Options.Down, while members are catching up. It is nil if nothing commits then, and if no ids
	// are down.
	MayBeDownBesides *uint64
}

// Stages returns the plan from a configuration to a target as the proposals that carry it out, one after another. A
// simple step of several changes is as many stages of one change each, since etcd's raft would take them through a
// joint configuration. There is none if there is nothing to do. The plan stalls if with the ids that are down nothing
// commits in a configuration on the way, the first one among them. Both configurations are checked as by Restore, and
// must have a voter.
func Stages(options Options, configuration, target ConfState) (stages []Stage, stalls bool, err error) {
	from, to, down := configuration.numbers(), target.numbers(), options.Down
	numbers, err := filled(func(out []uint64) answer { return callStages(from, to, options.Strategy, down, out) })
	if err != nil {
		return nil, false, err
	}
	rest := numbers[C.CONFSCRIPT_STAGES_FIRST:]
	for count := numbers[C.CONFSCRIPT_STAGES_COUNT]; count > 0; count-- {
		var stage Stage
		stage, rest = readStage(rest, len(down) > 0)
		stages = append(stages, stage)
	}
	return stages, numbers[C.CONFSCRIPT_STAGES_STALLS] == 1, nil
}

// readStage returns the stage with which the numbers begin, and the rest of them.
func readStage(numbers []uint64, areDown bool) (stage Stage, rest []uint64) {
	stage.ConfChange.Transition = ConfChangeTransition(numbers[C.CONFSCRIPT_STAGE_TRANSITION])
	stage.MayBeDown = count(numbers[C.CONFSCRIPT_STAGE_MAY_BE_DOWN])
	stage.UntilThen = count(numbers[C.CONFSCRIPT_STAGE_WHILE_CATCHING_UP])
	if areDown {
		stage.MayBeDownBesides = count(numbers[C.CONFSCRIPT_STAGE_MAY_BE_DOWN_BESIDES])
	}
	rest = numbers[C.CONFSCRIPT_STAGE_FIRST_CHANGE:]
	for changes := numbers[C.CONFSCRIPT_STAGE_CHANGES]; changes > 0; changes-- {
		change := ConfChangeSingle{Type: ConfChangeType(rest[0]), NodeID: rest[1]}
		stage.ConfChange.Changes = append(stage.ConfChange.Changes, change)
		rest = rest[2:]
	}
	stage.ConfState, stage.CatchingUp, rest = read(rest)
	return stage, rest
}

// count returns how many ids may be down, or nil if nothing commits.
func count(number uint64) *uint64 {
	if number == C.CONFSCRIPT_STAGE_NO_QUORUM {
		return nil
	}
	return &number
}
