//go:build cgo

package confscript

import (
	"encoding/json"
	"fmt"
)

// The names of raftpb, by number.
var (
	changeNames     = []string{"ConfChangeAddNode", "ConfChangeRemoveNode", "ConfChangeUpdateNode", "ConfChangeAddLearnerNode"}
	transitionNames = []string{"ConfChangeTransitionAuto", "ConfChangeTransitionJointImplicit", "ConfChangeTransitionJointExplicit"}
)

// String returns the name of the type in raftpb, or the number of one that raftpb does not have.
func (kind ConfChangeType) String() string { return nameIn(changeNames, int32(kind)) }

// String returns the name of the transition in raftpb, or the number of one that raftpb does not have.
func (transition ConfChangeTransition) String() string {
	return nameIn(transitionNames, int32(transition))
}

// MarshalJSON writes the name of the type, as the JSON of a plan has it, or the number of one that raftpb does not have.
func (kind ConfChangeType) MarshalJSON() ([]byte, error) { return nameAsJSON(changeNames, int32(kind)) }

// MarshalJSON writes the name of the transition, as the JSON of a plan has it, or the number of one that raftpb does not
// have.
func (transition ConfChangeTransition) MarshalJSON() ([]byte, error) {
	return nameAsJSON(transitionNames, int32(transition))
}

// UnmarshalJSON reads the name of a type, or its number.
func (kind *ConfChangeType) UnmarshalJSON(text []byte) error {
	return nameFromJSON(changeNames, text, (*int32)(kind))
}

// UnmarshalJSON reads the name of a transition, or its number.
func (transition *ConfChangeTransition) UnmarshalJSON(text []byte) error {
	return nameFromJSON(transitionNames, text, (*int32)(transition))
}

func nameIn(names []string, number int32) string {
	if number < 0 || int(number) >= len(names) {
		return fmt.Sprint(number)
	}
	return names[number]
}

func nameAsJSON(names []string, number int32) ([]byte, error) {
	if name := nameIn(names, number); name != fmt.Sprint(number) {
		return json.Marshal(name)
	}
	return json.Marshal(number)
}

func nameFromJSON(names []string, text []byte, number *int32) error {
	if text[0] != '"' {
		return json.Unmarshal(text, number)
	}
	var name string
	if err := json.Unmarshal(text, &name); err != nil {
		return err
	}
	for i, each := range names {
		if each == name {
			*number = int32(i)
			return nil
		}
	}
	return fmt.Errorf("confscript: unknown name %q", name)
}
