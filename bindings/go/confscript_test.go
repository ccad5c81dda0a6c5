//go:build cgo

package confscript

import (
	"errors"
	"fmt"
	"math"
	"strconv"
	"strings"
	"testing"
)

const now = "Voters:[1 2 3] VotersOutgoing:[] Learners:[] LearnersNext:[] AutoLeave:false"
const target = "Voters:[2 3 5] VotersOutgoing:[] Learners:[] LearnersNext:[] AutoLeave:false"

func TestPlanAndApply(t *testing.T) {
	steps, err := Plan(now, target)
	if err != nil || steps != "enter-joint autoleave=false r1 v5\nleave-joint\n" {
		t.Fatalf("Plan: %q, %v", steps, err)
	}
	if after, err := Apply(now, steps); err != nil || after != target {
		t.Fatalf("Apply: %q, %v", after, err)
	}
}

func TestStrategies(t *testing.T) {
	for strategy, want := range map[Strategy]string{
		Shortest:      "enter-joint autoleave=false r1 v5\nleave-joint\n",
		LearnersFirst: "simple l5\nenter-joint autoleave=false r1 v5\nleave-joint\n",
		OneAtATime:    "simple l5\nsimple v5\nsimple r1\n",
	} {
		steps, err := PlanBy(Options{Strategy: strategy}, now, target)
		if err != nil || steps != want {
			t.Errorf("PlanBy %d: %q, %v", strategy, steps, err)
		}
		if after, err := Apply(now, steps); err != nil || after != target {
			t.Errorf("Apply: %q, %v", after, err)
		}
	}
}

func TestOutputs(t *testing.T) {
	const table = `step         1 2  majority  may be down  catch up  until then  besides 2
now          V .  1 of 1    0                                  0
1 simple v2  V V  2 of 2    0            2         stalls      stalls
`
	for text, of := range map[string]struct {
		output  Output
		options Options
		to      string
	}{
		table:                        {Table, Options{Down: []uint64{2}}, "v2"},
		"{\"plan\":1,\"steps\":0}\n": {JSON, Options{}, "v1"},
		"# no quorum with 1 down: no step can be made\nsimple v2\n": {Steps, Options{Down: []uint64{1}}, "v2"},
	} {
		if got, err := PlanAs(of.output, of.options, "voters=(1)", of.to); err != nil || got != text {
			t.Errorf("PlanAs: %q, %v", got, err)
		}
	}
}

func TestLongText(t *testing.T) {
	ids := []string{}
	for id := 1; id <= 500; id++ {
		ids = append(ids, strconv.Itoa(id))
	}
	many := strings.Replace(now, "1 2 3", strings.Join(ids, " "), 1)
	if after, err := Apply(many, "simple u1"); err != nil || after != many {
		t.Fatalf("Apply: %q, %v", after, err)
	}
}

func TestRefusals(t *testing.T) {
	_, first := Plan("Voters:[1]", target)
	_, second := Plan(now, "Voters:[1]")
	_, form := Plan("", target)
	_, printed := Plan(now, "voters=(1")
	_, json := Plan("{}}", target)
	_, list := Plan(now, "v1 x")
	_, member := Plan(now, "r7")
	_, again := Plan(now, "r3 v3")
	_, down := PlanBy(Options{Down: []uint64{3, 9}}, now, "v4")
	_, step := Apply(now, "leave-joint")
	_, strategy := PlanBy(Options{Strategy: 3}, now, target)
	_, output := PlanAs(3, Options{}, now, target)
	_, joint := PlanBy(Options{Strategy: OneAtATime}, now, strings.Replace(target, "Outgoing:[]", "Outgoing:[1 2 3]", 1))
	for text, err := range map[string]error{
		"the configuration: not a ConfState line: expected Voters:[1 2] VotersOutgoing:[] Learners:[3] LearnersNext:[] AutoLeave:false": first,
		"the target: not a ConfState line: expected Voters:[1 2] VotersOutgoing:[] Learners:[3] LearnersNext:[] AutoLeave:false":        second,
		"step 1: can't leave a non-joint config": step,
		"the configuration: no form of a configuration: expected voters=(1 2 3) learners=(4), a ConfState line, or JSON of a ConfState or of etcdctl member list":                                   form,
		"the target: not a printed configuration: expected voters=(1 2)&&(1 2 3) learners=(4) learners_next=(3) autoleave, without what is empty, with spaces between ids":                          printed,
		"the configuration: not the JSON of a configuration: expected voters, voters_outgoing, learners, learners_next and auto_leave, or etcdctl member list -w json, with decimal numbers as ids": json,
		"the target: not a list of changes: expected changes as r1 v4 l5, or a configuration as voters=(1 2 3), a ConfState line, or JSON":                                                          list,
		"not a member (id 7)": member,
		"removed and added again: a server that lost its log needs a new id (id 3)": again,
		"down and not a member (id 9)":                                              down,
		"unknown strategy":                                                          strategy,
		"unknown output":                                                            output,
		"the target is joint":                                                       joint,
		"the id 0":                                                                  Check(strings.Replace(now, "1 2", "0 2", 1)),
	} {
		if err == nil || err.Error() != text {
			t.Errorf("%v, and not %s", err, text)
		}
	}
	if err := Check(now); err != nil {
		t.Error(err)
	}
}

// statuses are all that the package names.
var statuses = []Status{
	ErrNoMemory, ErrBadConfState, ErrRepeatedID, ErrNotAConfiguration, ErrNoVoter, ErrBadLine, ErrNotAMember, ErrAlreadyJoint, ErrZeroVoterJoint, ErrNotJoint,
	ErrSimpleInJoint, ErrRemovedAllVoters, ErrMoreThanOneVoter, ErrZeroID, ErrNextNotOutgoing, ErrNextAndIncoming, ErrLearnerAndVoter, ErrAddedAgain,
	ErrNotJointButAutoLeave, ErrDifferentLengths, ErrBadVote, ErrNoQuorum, ErrBadStrategy, ErrJointTarget, ErrBadStep, ErrBadChange, ErrBadOutput,
	ErrUnknownForm, ErrBadPrinted, ErrBadJSON, ErrBadChangeList, ErrDownNotAMember, ErrStrategyMayStall, ErrAutoLeaveTarget, ErrNoConfIndex, ErrNoLeaderProgress,
}

// TestStatuses looks at each number from that of ErrNoMemory on: it has a name here if the library has a text for it.
func TestStatuses(t *testing.T) {
	named := map[Status]bool{}
	for _, status := range statuses {
		named[status] = true
	}
	for status := ErrNoMemory; status < 100; status++ {
		if is := status.Error() != "unknown status"; is != named[status] {
			t.Errorf("%d, %v: %v", status, status, named[status])
		}
		err := fmt.Errorf("more: %w", &Refused{Status: status, Number: 1})
		if !errors.Is(err, status) || errors.Is(err, status+1) {
			t.Errorf("%v", err)
		}
	}
	err := Check(strings.Replace(now, "Learners:[]", "Learners:[2]", 1))
	if refused := (*Refused)(nil); !errors.As(err, &refused) || refused.Status != ErrLearnerAndVoter || refused.Number != 2 {
		t.Error(err)
	}
}

func TestErrorTexts(t *testing.T) {
	for text, refused := range map[string]Refused{
		"no incoming voter":             {ErrNoVoter, 0},
		"the target: no incoming voter": {ErrNoVoter, 2},
		"line 3: not a step: expected simple l4 l5, enter-joint autoleave=false r1 v4, or leave-joint": {ErrBadLine, 3},
		"can't leave a non-joint config":                                {ErrNotJoint, 0},
		"change 2: unknown kind of change":                              {ErrBadChange, 2},
		"a next learner is an incoming voter (id 18446744073709551615)": {ErrNextAndIncoming, math.MaxUint64},
		"unknown status (7)":                                            {1000, 7},
	} {
		if refused.Error() != text {
			t.Errorf("%v, and not %s", refused.Error(), text)
		}
	}
}

func TestQuorums(t *testing.T) {
	voters := []uint64{1, 2, 3}
	if index := Committed(voters, nil, map[uint64]uint64{1: 9, 2: 7}); index != 7 {
		t.Errorf("Committed: %d", index)
	}
	if index := Committed(voters, []uint64{4}, map[uint64]uint64{1: 9, 2: 7, 4: 5}); index != 5 {
		t.Errorf("Committed: %d", index)
	}
	if index := Committed(nil, nil, nil); index != math.MaxUint64 {
		t.Errorf("Committed: %d", index)
	}
	for result, votes := range map[VoteResult]map[uint64]bool{VoteWon: {1: true, 2: true}, VoteLost: {1: false, 2: false}, VotePending: nil} {
		if got := Vote(voters, nil, votes); got != result {
			t.Errorf("Vote: %d", got)
		}
	}
}

func TestMayBeDown(t *testing.T) {
	if count, err := MayBeDown([]uint64{1, 2, 3}, nil, nil); err != nil || count != 1 {
		t.Errorf("MayBeDown: %d, %v", count, err)
	}
	if _, err := MayBeDown(nil, nil, nil); !errors.Is(err, ErrNoQuorum) || err.Error() != "the voters are no quorum" {
		t.Errorf("MayBeDown: %v", err)
	}
}

func TestVersion(t *testing.T) {
	if Version() != 100 {
		t.Error(Version())
	}
}
