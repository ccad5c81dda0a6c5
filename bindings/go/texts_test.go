//go:build cgo

package confscript

import (
	"errors"
	"fmt"
	"reflect"
	"strings"
	"testing"
)

func TestTexts(t *testing.T) {
	for _, row := range []struct {
		value any
		text  string
	}{
		{[]Strategy{Shortest, LearnersFirst, OneAtATime, 3}, "[shortest learners-first one-at-a-time 3]"},
		{[]Output{Steps, Table, JSON, 3}, "[steps table json 3]"},
		{[]VoteResult{VotePending, VoteLost, VoteWon, 3}, "[VotePending VoteLost VoteWon 3]"},
		{[]Ballot{VotedNo, VotedYes, NotVoted, 3}, "[VotedNo VotedYes NotVoted 3]"},
		{ConfState{}, "voters=()"},
		{ConfState{Voters: ids(2, 1), VotersOutgoing: ids(1<<64-1, 3), Learners: ids(5), LearnersNext: ids(3), AutoLeave: true},
			"voters=(1 2)&&(3 18446744073709551615) learners=(5) learners_next=(3) autoleave"},
	} {
		if text := fmt.Sprint(row.value); text != row.text {
			t.Errorf("%s, and not %s", text, row.text)
		}
	}
	stages, _, err := Stages(Options{Down: ids(3)}, ConfState{Voters: ids(1, 2, 3)}, ConfState{Voters: ids(1, 2, 3, 4)})
	text := fmt.Sprintf("%v %+v", stages, stages)
	want := "[{ConfChangeTransitionAuto [{ConfChangeAddNode 4}]} -> voters=(1 2 3 4) catch up (4), may be down 1, until then 0, besides -]"
	if err != nil || text != want+" "+want || strings.Contains(text, "0xc") {
		t.Errorf("%s, %v", text, err)
	}
}

func TestEqual(t *testing.T) {
	one := ConfState{Voters: ids(1, 2), VotersOutgoing: ids(3), AutoLeave: true}
	for _, row := range []struct {
		other ConfState
		equal bool
	}{
		{ConfState{Voters: ids(2, 1), VotersOutgoing: ids(3), Learners: ids(), AutoLeave: true}, true},
		{ConfState{Voters: ids(1, 2), VotersOutgoing: ids(3)}, false},
		{ConfState{Voters: ids(1), VotersOutgoing: ids(3), AutoLeave: true}, false},
		{ConfState{Voters: ids(1, 2), VotersOutgoing: ids(3), Learners: ids(4), AutoLeave: true}, false},
		{ConfState{Voters: ids(12), VotersOutgoing: ids(3), AutoLeave: true}, false},
	} {
		if one.Equal(row.other) != row.equal || row.other.Equal(one) != row.equal {
			t.Errorf("%v and %v: not %v", one, row.other, row.equal)
		}
	}
	if want := ids(2, 1); !reflect.DeepEqual(want, ids(2, 1)) || (ConfState{Voters: want}).String() != "voters=(1 2)" || !reflect.DeepEqual(want, ids(2, 1)) {
		t.Errorf("String changed its argument: %v", want)
	}
}

// A message is what raftpb would write; tests/etcd/builds has raftpb's own.
type message string

func (m message) Marshal() ([]byte, error) {
	if m == "fails" {
		return nil, errors.New("it fails")
	}
	return []byte(m), nil
}

// An unmarshaled ConfState, in place of that of raftpb.
type unmarshaled struct{ state ConfState }

func (u *unmarshaled) Unmarshal(data []byte) (err error) {
	u.state, err = ConfStateOf(message(data))
	return err
}

func TestMessages(t *testing.T) {
	state, err := ConfStateOf(message("\x08\x02\x08\x80\x02\x10\x07\x18\x03\x20\x03\x28\x01"))
	want := ConfState{Voters: ids(2, 256), Learners: ids(7), VotersOutgoing: ids(3), LearnersNext: ids(3), AutoLeave: true}
	if err != nil || !reflect.DeepEqual(state, want) {
		t.Errorf("%v, %v", state, err)
	}
	change, err := ConfChangeV2Of(message("\x08\x02\x12\x04\x08\x03\x10\x09\x12\x00\x1a\x02hi"))
	if err != nil || !reflect.DeepEqual(change, ConfChangeV2{ConfChangeTransitionJointExplicit, changes(learner(9), voter(0))}) {
		t.Errorf("%v, %v", change, err)
	}
	for _, state := range []ConfState{want, {}, {Voters: ids(1<<64 - 1)}} {
		if again, err := ConfStateOf(state); err != nil || !reflect.DeepEqual(again, state) {
			t.Errorf("%v is written as %v, %v", state, again, err)
		}
		if again, err := As[unmarshaled](state); err != nil || !reflect.DeepEqual(again.state, state) {
			t.Errorf("%v is %v, %v", state, again, err)
		}
	}
	for _, change := range []ConfChangeV2{change, {}, {Transition: -1, Changes: changes(voter(1<<64-1), ConfChangeSingle{-1, 1<<64 - 1})}} {
		if again, err := ConfChangeV2Of(change); err != nil || !reflect.DeepEqual(again, change) {
			t.Errorf("%v is written as %v, %v", change, again, err)
		}
	}
	if again, err := As[unmarshaled](message("fails")); err == nil {
		t.Errorf("it is %v", again)
	}
	for _, bad := range []message{"fails", "\x08", "\x80", "\x09\x01", "\x12\x05\x08", "\x12\x01\x08"} {
		if change, err := ConfChangeV2Of(bad); err == nil {
			t.Errorf("%q is read as %v", bad, change)
		}
	}
}
