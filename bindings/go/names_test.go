//go:build cgo

package confscript

import (
	"encoding/json"
	"reflect"
	"testing"
)

func TestNames(t *testing.T) {
	text, err := json.Marshal(ConfChangeV2{ConfChangeTransitionJointImplicit, changes(updated(1<<64 - 1))})
	want := `{"transition":"ConfChangeTransitionJointImplicit","changes":[{"type":"ConfChangeUpdateNode","node_id":18446744073709551615}]}`
	if err != nil || string(text) != want {
		t.Errorf("%s, %v", text, err)
	}
	var kind ConfChangeType
	for _, text := range []string{`"ConfChangeAddNod"`, `"2"`, `""`, `2147483648`, `0.5`, `true`, `[2]`} {
		if err := json.Unmarshal([]byte(text), &kind); err == nil {
			t.Errorf("%s is read as %v", text, kind)
		}
	}
	if name := ConfChangeTransition(3).String(); name != "3" {
		t.Error(name)
	}
}

// TestJSON reads the JSON of raftpb, which has numbers, and what a value is written as, even if raftpb does not have it.
func TestJSON(t *testing.T) {
	want := ConfChangeV2{ConfChangeTransitionJointExplicit, changes(voter(1), learner(2))}
	for _, text := range []string{
		`{"transition":2,"changes":[{"type":0,"node_id":1},{"type":3,"node_id":2}],"context":"eA=="}`,
		`{"transition":"ConfChangeTransitionJointExplicit","changes":[{"type":"ConfChangeAddNode","node_id":1},{"type":3,"node_id":2}]}`,
	} {
		var change ConfChangeV2
		if err := json.Unmarshal([]byte(text), &change); err != nil || !reflect.DeepEqual(change, want) {
			t.Errorf("%s: %v, %v", text, change, err)
		}
	}
	for number := int32(-1); number < 6; number++ {
		change := ConfChangeV2{ConfChangeTransition(number), changes(ConfChangeSingle{ConfChangeType(number), 7})}
		var read ConfChangeV2
		text, err := json.Marshal(change)
		if err != nil || json.Unmarshal(text, &read) != nil || !reflect.DeepEqual(read, change) {
			t.Errorf("%s: %v, %v", text, read, err)
		}
	}
}

// TestConfStateAsJSON passes a configuration to Plan as JSON.
func TestConfStateAsJSON(t *testing.T) {
	state := ConfState{Voters: ids(2, 1<<64-1), VotersOutgoing: ids(1, 2, 3), Learners: ids(5), LearnersNext: ids(3), AutoLeave: true}
	text, err := json.Marshal(state)
	if err != nil {
		t.Fatal(err)
	}
	steps, err := Plan(string(text), "voters=(2 18446744073709551615)&&(1 2 3) learners=(5) learners_next=(3) autoleave")
	if err != nil || steps != "nothing to do\n" {
		t.Errorf("Plan of %s: %q, %v", text, steps, err)
	}
}
