//go:build cgo

package confscript

/*
#include "confscript.h"
*/
import "C"

import (
	"errors"
	"fmt"
	"sort"
	"strings"
)

// ErrNoStrategy is the error of Next if its options have no strategy.
var ErrNoStrategy = errors.New("confscript: the strategy is missing: LearnersFirst or OneAtATime")

// DriveOptions is how Next goes to a target.
type DriveOptions struct {
	// LearnersFirst or OneAtATime. There is no default: by Shortest new voters vote with empty logs.
	Strategy Strategy
	// The ids that do not come back. A member that is merely silent is not down.
	Down []uint64
	// How many of the committed entries a member that has caught up may lack. With 0 it must have all of them, which under
	// load hardly any member ever has.
	MaxLag uint64
}

// Progress is what is known of a member: the fields of raft's tracker.Progress that Next looks at.
type Progress struct {
	// The last index at which it is known to have the leader's log.
	Match uint64
	// Whether it was heard from lately; the leader itself always is. Raft resets it only with CheckQuorum, and sets that of a
	// new leader only then.
	RecentActive bool
}

// View is what a leader knows of its cluster, or a tool that asks all members. The names are those of etcd's raft. Views makes
// that of a RawNode.
type View struct {
	// The configuration that the leader has applied.
	ConfState ConfState
	// Who has this index knows that the configuration is in force. For a leader that applies a change: its last index plus
	// one; for one that begins to lead: its last index. If Match is what the member has applied: the index of the change.
	ConfIndex uint64
	// Who leads, or 0.
	Lead uint64
	// The leader's commit index.
	Commit uint64
	// The index of a change in the leader's log that it has not applied, or 0.
	PendingConfIndex uint64
	// The members, by id.
	Progress map[uint64]Progress
	// The servers that were started, and not stopped for good, whether they are up or not.
	Started []uint64
	// The servers that were stopped for good.
	Retired []uint64
}

// Action is what Next says is to be done: a Start, Stop, Transfer, Propose, Wait, Stuck or Done. As text it is a line for
// a log.
type Action interface {
	fmt.Stringer
	isAction()
}

// Start is to start these servers, each with an empty log that is created, and never opened anew.
type Start struct{ IDs []uint64 }

// Stop is to stop these servers for good: their ids do not come back.
type Stop struct{ IDs []uint64 }

// Transfer is to make a member the leader.
type Transfer struct{ To uint64 }

// Propose is to propose a stage, at once, to the leader whose view this is.
type Propose struct{ Stage Stage }

// Wait is to do nothing until these ids are as the reason says.
type Wait struct {
	Reason WaitReason
	IDs    []uint64
	// The index that each of them has to have, and what it is known to have, if the reason is WaitBehind or WaitPending.
	Needed  uint64
	Matched []uint64
}

// Stuck is to do nothing, since the target is not reached as things are.
type Stuck struct {
	Reason StuckReason
	IDs    []uint64
}

// Done is to do nothing, since the target is reached.
type Done struct{}

func (Start) isAction()    {}
func (Stop) isAction()     {}
func (Transfer) isAction() {}
func (Propose) isAction()  {}
func (Wait) isAction()     {}
func (Stuck) isAction()    {}
func (Done) isAction()     {}

// WaitReason is why to wait.
type WaitReason uint64

// The reasons to wait.
const (
	WaitNoLeader WaitReason = C.CONFSCRIPT_REASON_NO_LEADER // there is no leader
	WaitPending  WaitReason = C.CONFSCRIPT_REASON_PENDING   // a change is not applied yet
	WaitHeard    WaitReason = C.CONFSCRIPT_REASON_HEARD     // they are named as down, and are heard from, or one leads
	WaitUnheard  WaitReason = C.CONFSCRIPT_REASON_UNHEARD   // they are neither heard from nor named as down
	WaitBehind   WaitReason = C.CONFSCRIPT_REASON_BEHIND    // they are heard from, and have not caught up
	WaitLeaving  WaitReason = C.CONFSCRIPT_REASON_LEAVING   // raft leaves the joint configuration by itself
)

// StuckReason is why the target is not reached.
type StuckReason uint64

// The reasons why the target is not reached.
const (
	StuckQuorumLost StuckReason = C.CONFSCRIPT_REASON_QUORUM_LOST // the voters that are not down are not a quorum
	StuckStalls     StuckReason = C.CONFSCRIPT_REASON_STALLS      // with these ids down, nothing commits on the way
	StuckReused     StuckReason = C.CONFSCRIPT_REASON_REUSED      // the target adds ids that were stopped for good
)

// Next returns what to do next on the way to a target. Call it on the goroutine that owns the RawNode, with what the node
// knows now, do what it says, and call it again. It keeps nothing. The configuration and the target are checked as by
// Stages, but for ids in Down that neither has, which are ignored.
func Next(options DriveOptions, target ConfState, view View) (Action, error) {
	if options.Strategy == Shortest {
		return nil, ErrNoStrategy
	}
	from, to, down, known := view.ConfState.numbers(), target.numbers(), options.Down, view.numbers(options.MaxLag)
	numbers, err := filled(func(out []uint64) answer { return callNext(from, to, options.Strategy, down, known, out) })
	if err != nil {
		return nil, inPart(err, options, target, view)
	}
	return readAction(numbers, options, view), nil
}

// inPart returns the error of a call of Next with the part that it is about, unless its text names that.
func inPart(err error, options DriveOptions, target ConfState, view View) error {
	refused := err.(*Refused)
	if place, _ := refused.names(); place != "" {
		return err
	}
	for _, part := range []struct {
		name  string
		state ConfState
	}{{"the configuration", view.ConfState}, {"the target", target}} {
		if _, _, err := Restore(part.state); errors.Is(err, refused.Status) {
			return fmt.Errorf("%s: %w", part.name, refused)
		}
	}
	for _, part := range []struct {
		name string
		ids  []uint64
	}{{"down", options.Down}, {"the progress", ascending(view.Progress)}, {"started", view.Started}, {"retired", view.Retired}} {
		for _, id := range part.ids {
			if id == 0 && refused.Status == ErrZeroID {
				return fmt.Errorf("%s: %w", part.name, refused)
			}
		}
	}
	return err
}

// numbers returns the array of the view (enum confscript_view_part), with the members in ascending order.
func (view View) numbers(maxLag uint64) []uint64 {
	numbers := make([]uint64, 0, C.CONFSCRIPT_VIEW_FIRST+3*len(view.Progress)+len(view.Started)+len(view.Retired))
	numbers = append(numbers, view.ConfIndex, view.Lead, view.Commit, view.PendingConfIndex, maxLag,
		uint64(len(view.Progress)), uint64(len(view.Started)), uint64(len(view.Retired)))
	for _, id := range ascending(view.Progress) {
		var active uint64
		if view.Progress[id].RecentActive {
			active = 1
		}
		numbers = append(numbers, id, view.Progress[id].Match, active)
	}
	return append(append(numbers, view.Started...), view.Retired...)
}

// ascending returns the keys in ascending order.
func ascending(progress map[uint64]Progress) []uint64 {
	ids := make([]uint64, 0, len(progress))
	for id := range progress {
		ids = append(ids, id)
	}
	sort.Slice(ids, func(i, j int) bool { return ids[i] < ids[j] })
	return ids
}

// readAction returns the action of an array (enum confscript_action_part).
func readAction(numbers []uint64, options DriveOptions, view View) Action {
	reason, rest := numbers[C.CONFSCRIPT_ACTION_REASON], numbers[C.CONFSCRIPT_ACTION_FIRST:]
	switch numbers[C.CONFSCRIPT_ACTION_KIND] {
	case C.CONFSCRIPT_ACTION_START:
		return Start{rest}
	case C.CONFSCRIPT_ACTION_STOP:
		return Stop{rest}
	case C.CONFSCRIPT_ACTION_TRANSFER:
		return Transfer{rest[0]}
	case C.CONFSCRIPT_ACTION_PROPOSE:
		stage, _ := readStage(rest, len(options.Down) > 0)
		return Propose{stage}
	case C.CONFSCRIPT_ACTION_WAIT:
		return waitFor(WaitReason(reason), rest, options, view)
	case C.CONFSCRIPT_ACTION_STUCK:
		return Stuck{StuckReason(reason), rest}
	default:
		return Done{}
	}
}

// waitFor returns a Wait, with the index that it waits for.
func waitFor(reason WaitReason, ids []uint64, options DriveOptions, view View) Wait {
	wait := Wait{Reason: reason, IDs: ids}
	switch reason {
	case WaitPending:
		wait.Needed = view.PendingConfIndex
	case WaitBehind:
		wait.Needed = view.known()
		if view.Commit > options.MaxLag && view.Commit-options.MaxLag > wait.Needed {
			wait.Needed = view.Commit - options.MaxLag
		}
	default:
		return wait
	}
	for _, id := range ids {
		wait.Matched = append(wait.Matched, view.Progress[id].Match)
	}
	return wait
}

// known returns which index a member has to have to know the configuration, as far as this leader can tell: one that does not
// vote may not add the entry after a change.
func (view View) known() uint64 {
	for _, list := range [][]uint64{view.ConfState.Voters, view.ConfState.VotersOutgoing} {
		for _, id := range list {
			if id == view.Lead {
				return view.ConfIndex
			}
		}
	}
	return view.ConfIndex - 1
}

func (start Start) String() string { return "start " + listed(start.IDs) }

func (stop Stop) String() string { return "stop " + listed(stop.IDs) + " for good" }

func (transfer Transfer) String() string { return fmt.Sprint("transfer leadership to ", transfer.To) }

// String names the step of the proposal, such as "propose simple l4".
func (propose Propose) String() string { return "propose " + stepOf(propose.Stage.ConfChange) }

// stepOf returns a proposal of a plan as the line of its step.
func stepOf(change ConfChangeV2) string {
	words := []string{"simple"}
	if change.Transition != ConfChangeTransitionAuto {
		words[0] = fmt.Sprint("enter-joint autoleave=", change.Transition == ConfChangeTransitionJointImplicit)
	} else if len(change.Changes) == 0 {
		words[0] = "leave-joint"
	}
	for _, single := range change.Changes {
		letter := map[ConfChangeType]string{ConfChangeAddNode: "v", ConfChangeRemoveNode: "r", ConfChangeUpdateNode: "u", ConfChangeAddLearnerNode: "l"}[single.Type]
		words = append(words, fmt.Sprint(letter, single.NodeID))
	}
	return strings.Join(words, " ")
}

func (Done) String() string { return "done" }

// String names each id, and how far it is, such as "4 has not caught up: 17 of 60".
func (wait Wait) String() string {
	switch wait.Reason {
	case WaitNoLeader:
		return "there is no leader: waiting for " + listed(wait.IDs)
	case WaitPending:
		return fmt.Sprintf("the change at index %d is not applied: waiting for %s", wait.Needed, listed(wait.IDs))
	case WaitHeard:
		return listed(wait.IDs) + " named as down, but heard from"
	case WaitUnheard:
		return "not heard from " + listed(wait.IDs)
	case WaitLeaving:
		return "the joint configuration is left automatically: waiting for " + listed(wait.IDs)
	}
	texts := make([]string, len(wait.IDs))
	for i, id := range wait.IDs {
		texts[i] = fmt.Sprintf("%d has not caught up: %d of %d", id, wait.Matched[i], wait.Needed)
	}
	return strings.Join(texts, ", ")
}

func (stuck Stuck) String() string {
	switch stuck.Reason {
	case StuckQuorumLost:
		return "quorum is lost with " + listed(stuck.IDs) + " down"
	case StuckStalls:
		return "with " + listed(stuck.IDs) + " down, nothing commits in a configuration on the way"
	default:
		return "stopped for good, and not used again: " + listed(stuck.IDs)
	}
}

// listed returns the ids with a space between them.
func listed(ids []uint64) string {
	return strings.Trim(fmt.Sprint(ids), "[]")
}
