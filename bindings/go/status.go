//go:build cgo

package confscript

/*
#include "confscript.h"
*/
import "C"

import "fmt"

// Status is why a call was refused, with the number of confscript.h. It is what a Refused wraps, so
// errors.Is(err, confscript.ErrNotJoint) reports whether that is why.
type Status uint32

// The statuses of refusals. For ErrNextNotOutgoing, ErrNextAndIncoming, ErrLearnerAndVoter, ErrRepeatedID and the three of ids that are not
// members, the number of the Refused is the id.
const (
	ErrNoMemory             Status = C.CONFSCRIPT_STATUS_NO_MEMORY
	ErrBadConfState         Status = C.CONFSCRIPT_STATUS_BAD_CONF_STATE
	ErrRepeatedID           Status = C.CONFSCRIPT_STATUS_REPEATED_ID
	ErrNotAConfiguration    Status = C.CONFSCRIPT_STATUS_NOT_A_CONFIGURATION
	ErrNoVoter              Status = C.CONFSCRIPT_STATUS_NO_VOTER
	ErrBadLine              Status = C.CONFSCRIPT_STATUS_BAD_LINE
	ErrNotAMember           Status = C.CONFSCRIPT_STATUS_NOT_A_MEMBER
	ErrAlreadyJoint         Status = C.CONFSCRIPT_STATUS_ALREADY_JOINT
	ErrZeroVoterJoint       Status = C.CONFSCRIPT_STATUS_ZERO_VOTER_JOINT
	ErrNotJoint             Status = C.CONFSCRIPT_STATUS_NOT_JOINT
	ErrSimpleInJoint        Status = C.CONFSCRIPT_STATUS_SIMPLE_IN_JOINT
	ErrRemovedAllVoters     Status = C.CONFSCRIPT_STATUS_REMOVED_ALL_VOTERS
	ErrMoreThanOneVoter     Status = C.CONFSCRIPT_STATUS_MORE_THAN_ONE_VOTER
	ErrZeroID               Status = C.CONFSCRIPT_STATUS_ZERO_ID
	ErrNextNotOutgoing      Status = C.CONFSCRIPT_STATUS_NEXT_NOT_OUTGOING
	ErrNextAndIncoming      Status = C.CONFSCRIPT_STATUS_NEXT_AND_INCOMING
	ErrLearnerAndVoter      Status = C.CONFSCRIPT_STATUS_LEARNER_AND_VOTER
	ErrAddedAgain           Status = C.CONFSCRIPT_STATUS_ADDED_AGAIN
	ErrNotJointButAutoLeave Status = C.CONFSCRIPT_STATUS_NOT_JOINT_BUT_AUTO_LEAVE
	ErrDifferentLengths     Status = C.CONFSCRIPT_STATUS_DIFFERENT_LENGTHS
	ErrBadVote              Status = C.CONFSCRIPT_STATUS_BAD_VOTE
	ErrNoQuorum             Status = C.CONFSCRIPT_STATUS_NO_QUORUM
	ErrBadStrategy          Status = C.CONFSCRIPT_STATUS_BAD_STRATEGY
	ErrJointTarget          Status = C.CONFSCRIPT_STATUS_JOINT_TARGET
	ErrBadStep              Status = C.CONFSCRIPT_STATUS_BAD_STEP
	ErrBadChange            Status = C.CONFSCRIPT_STATUS_BAD_CHANGE
	ErrBadOutput            Status = C.CONFSCRIPT_STATUS_BAD_OUTPUT
	ErrUnknownForm          Status = C.CONFSCRIPT_STATUS_UNKNOWN_FORM
	ErrBadPrinted           Status = C.CONFSCRIPT_STATUS_BAD_PRINTED
	ErrBadJSON              Status = C.CONFSCRIPT_STATUS_BAD_JSON
	ErrBadChangeList        Status = C.CONFSCRIPT_STATUS_BAD_CHANGE_LIST
	ErrDownNotAMember       Status = C.CONFSCRIPT_STATUS_DOWN_NOT_A_MEMBER
	ErrStrategyMayStall     Status = C.CONFSCRIPT_STATUS_STRATEGY_MAY_STALL
	ErrAutoLeaveTarget      Status = C.CONFSCRIPT_STATUS_AUTO_LEAVE_TARGET
	ErrNoConfIndex          Status = C.CONFSCRIPT_STATUS_NO_CONF_INDEX
	ErrNoLeaderProgress     Status = C.CONFSCRIPT_STATUS_NO_LEADER_PROGRESS
)

// Error returns what the status means, in words.
func (status Status) Error() string {
	text, err := written(func(out []byte) answer { return callStatusText(status, out) })
	if err != nil {
		return fmt.Sprintf("status %d", uint32(status))
	}
	return text
}

// Refused is the error of a call that was refused: the status, and its number in confscript.h, such as the id that is in
// the wrong list.
type Refused struct {
	Status Status
	Number uint64
}

// Unwrap returns the status, for errors.Is.
func (refused *Refused) Unwrap() error { return refused.Status }

// Error returns what the status means, in words, after the text, line, step or change of which it is reported, and before the
// id.
func (refused *Refused) Error() string {
	place, id := refused.names()
	return place + refused.Status.Error() + id
}

// names returns what the number names; both are empty if the status has none.
func (refused *Refused) names() (place, id string) {
	number := refused.Number
	if number == 0 {
		return "", ""
	}
	switch refused.Status {
	case ErrBadConfState, ErrNotAConfiguration, ErrNoVoter, ErrUnknownForm, ErrBadPrinted, ErrBadJSON, ErrBadChangeList:
		if number == 1 {
			return "the configuration: ", ""
		}
		return "the target: ", ""
	case ErrBadLine:
		return fmt.Sprintf("line %d: ", number), ""
	case ErrAlreadyJoint, ErrZeroVoterJoint, ErrNotJoint, ErrSimpleInJoint, ErrRemovedAllVoters, ErrMoreThanOneVoter:
		return fmt.Sprintf("step %d: ", number), ""
	case ErrBadChange:
		return fmt.Sprintf("change %d: ", number), ""
	case ErrRepeatedID, ErrNextNotOutgoing, ErrNextAndIncoming, ErrLearnerAndVoter, ErrNotAMember, ErrAddedAgain, ErrDownNotAMember:
		return "", fmt.Sprintf(" (id %d)", number)
	default:
		return "", fmt.Sprintf(" (%d)", number)
	}
}
