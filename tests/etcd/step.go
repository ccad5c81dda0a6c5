package etcd

import (
	"fmt"
	"strings"

	"go.etcd.io/etcd/raft/confchange"
	pb "go.etcd.io/etcd/raft/raftpb"
	"go.etcd.io/etcd/raft/tracker"
)

// A step of a script: a directive that changes the configuration.
type step struct {
	command   string // simple, enter-joint or leave-joint
	autoLeave bool
	changes   []pb.ConfChangeSingle
}

// readStep reads a line of a printed plan.
func readStep(line string) (step, error) {
	words := strings.Fields(line)
	if len(words) == 0 {
		return step{}, fmt.Errorf("not a step: %q", line)
	}
	read := step{command: words[0]}
	words = words[1:]
	switch read.command {
	case "simple", "leave-joint":
	case "enter-joint":
		if len(words) == 0 || words[0] != "autoleave=true" && words[0] != "autoleave=false" {
			return step{}, fmt.Errorf("not a step: %q", line)
		}
		read.autoLeave = words[0] == "autoleave=true"
		words = words[1:]
	default:
		return step{}, fmt.Errorf("not a step: %q", line)
	}
	var err error
	read.changes, err = readChanges(strings.Join(words, " "))
	return read, err
}

// readPlan reads the steps of a printed plan, and returns how many lines they are.
func readPlan(text string) (steps []step, lines int) {
	for _, line := range strings.Split(text, "\n") {
		if line == "nothing to do" && lines == 0 {
			return nil, 1
		}
		next, err := readStep(line)
		if err != nil {
			return steps, lines
		}
		steps, lines = append(steps, next), lines+1
	}
	return steps, lines
}

// take makes the step by etcd's changer.
func (s step) take(changer confchange.Changer) (tracker.Config, tracker.ProgressMap, error) {
	switch s.command {
	case "simple":
		return changer.Simple(s.changes...)
	case "enter-joint":
		return changer.EnterJoint(s.autoLeave, s.changes...)
	default:
		return changer.LeaveJoint()
	}
}

// directive writes the step as a directive of a script.
func (s step) directive() string {
	changes := pb.ConfChangesToString(s.changes)
	switch s.command {
	case "enter-joint":
		return fmt.Sprintf("enter-joint autoleave=%v\n%s\n----\n\n", s.autoLeave, changes)
	default:
		return fmt.Sprintf("%s\n%s\n----\n\n", s.command, changes)
	}
}
