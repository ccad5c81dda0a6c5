package etcd

import (
	"errors"
	"fmt"
	"strings"
	"testing"

	"github.com/cockroachdb/datadriven"
	"go.etcd.io/etcd/raft"
	"go.etcd.io/etcd/raft/confchange"
	"go.etcd.io/etcd/raft/quorum"
	pb "go.etcd.io/etcd/raft/raftpb"
	"go.etcd.io/etcd/raft/tracker"
)

// A session answers the directives of one script by etcd's packages. Where a command or a text is confscript's own,
// the answer is a translation, which README.md names.
type session struct {
	changer confchange.Changer
	kept    []tracker.Config // from before each accepted change, the newest last
}

// keptAtMost is how many earlier configurations confscript keeps by default.
const keptAtMost = 100

func newSession() *session {
	return &session{changer: confchange.Changer{Tracker: tracker.MakeProgressTracker(10)}}
}

func (s *session) answer(t *testing.T, d *datadriven.TestData) string {
	defer func() { s.changer.LastIndex++ }()
	switch d.Cmd {
	case "conf-state":
		return raft.DescribeConfState(s.changer.Tracker.ConfState())
	case "restore":
		return s.restore(d.Input)
	case "undo":
		return s.undo(t, d)
	case "ack":
		return s.acknowledge(t, d)
	case "commit-index":
		return quorum.Index(s.changer.Tracker.Committed()).String()
	case "committed":
		return readQuorum(t, d).committed()
	case "vote":
		return readQuorum(t, d).vote()
	default:
		return s.change(t, d)
	}
}

// text writes the configuration and its members as etcd's test of confchange does.
func (s *session) text() string {
	return fmt.Sprintf("%s\n%s", s.changer.Tracker.Config, s.changer.Tracker.Progress)
}

// become takes over the outcome of a change.
func (s *session) become(config tracker.Config, progress tracker.ProgressMap) {
	s.changer.Tracker.Config, s.changer.Tracker.Progress = config, progress
}

// change makes the change that the command names; conf-change makes that which etcd's raft would.
func (s *session) change(t *testing.T, d *datadriven.TestData) string {
	changes, err := readChanges(d.Input)
	if err != nil {
		return err.Error()
	}
	var config tracker.Config
	var progress tracker.ProgressMap
	switch d.Cmd {
	case "simple":
		config, progress, err = s.changer.Simple(changes...)
	case "enter-joint":
		var autoLeave bool
		if d.HasArg("autoleave") {
			d.ScanArgs(t, "autoleave", &autoLeave)
		}
		config, progress, err = s.changer.EnterJoint(autoLeave, changes...)
	case "leave-joint":
		if len(changes) > 0 {
			err = errors.New("this command takes no input")
		} else {
			config, progress, err = s.changer.LeaveJoint()
		}
	case "conf-change":
		config, progress, err = s.apply(pb.ConfChangeV2{Transition: transition(t, d), Changes: changes})
	default:
		return "unknown command"
	}
	if err != nil {
		return err.Error()
	}
	s.kept = append(s.kept, s.changer.Tracker.Config)
	if len(s.kept) > keptAtMost {
		s.kept = s.kept[1:]
	}
	s.become(config, progress)
	return s.text()
}

func transition(t *testing.T, d *datadriven.TestData) pb.ConfChangeTransition {
	name := "auto"
	if d.HasArg("transition") {
		d.ScanArgs(t, "transition", &name)
	}
	return map[string]pb.ConfChangeTransition{
		"auto":     pb.ConfChangeTransitionAuto,
		"implicit": pb.ConfChangeTransitionJointImplicit,
		"explicit": pb.ConfChangeTransitionJointExplicit,
	}[name]
}

// apply makes the change that etcd's raft makes when it applies an entry with this list of changes.
func (s *session) apply(list pb.ConfChangeV2) (tracker.Config, tracker.ProgressMap, error) {
	if list.LeaveJoint() {
		return s.changer.LeaveJoint()
	}
	if autoLeave, ok := list.EnterJoint(); ok {
		return s.changer.EnterJoint(autoLeave, list.Changes...)
	}
	return s.changer.Simple(list.Changes...)
}

// restore restores a saved configuration as etcd's raft does when it starts or takes a snapshot: by confchange, and
// then the outcome has to be the ConfState that was saved.
func (s *session) restore(line string) string {
	state, err := readConfState(line)
	if err != nil {
		return "bad conf state"
	}
	restored := newSession()
	restored.changer.LastIndex = s.changer.LastIndex
	config, progress, err := confchange.Restore(restored.changer, state)
	if err != nil {
		return "not a configuration"
	}
	restored.become(config, progress)
	if !isSame(restored.changer.Tracker.ConfState(), state) {
		return "not a configuration"
	}
	*s = *restored
	return s.text()
}

// undo has no counterpart in etcd. So the steps of confscript's plan are read from its output, which is the expected
// one here, and made by etcd's changer. They have to lead to the configuration that was kept.
func (s *session) undo(t *testing.T, d *datadriven.TestData) string {
	steps := 1
	if d.HasArg("steps") {
		d.ScanArgs(t, "steps", &steps)
	}
	if steps > len(s.kept) {
		return fmt.Sprintf("no plan: %d earlier configurations are kept", len(s.kept))
	}
	earlier := s.kept[len(s.kept)-steps]
	if len(earlier.Voters[0]) == 0 {
		return "no plan: the earlier configuration has no voter"
	}
	plan, lines := readPlan(d.Expected)
	for _, next := range plan {
		config, progress, err := next.take(s.changer)
		if err != nil {
			return fmt.Sprintf("etcd refuses a step of the plan: %v", err)
		}
		s.become(config, progress)
	}
	if s.changer.Tracker.Config.String() != earlier.String() {
		return fmt.Sprintf("the plan leads to %s instead of %s", s.changer.Tracker.Config, earlier)
	}
	s.kept = s.kept[:len(s.kept)-steps]
	printed := strings.SplitAfter(d.Expected, "\n")[:lines]
	return strings.Join(printed, "") + s.text()
}

// acknowledge leaves a member at match 0 and next 0 as it is when it acknowledges 0, as confscript does. etcd makes its
// next 1.
func (s *session) acknowledge(t *testing.T, d *datadriven.TestData) string {
	var id, index uint64
	d.ScanArgs(t, "id", &id)
	d.ScanArgs(t, "index", &index)
	progress, ok := s.changer.Tracker.Progress[id]
	if !ok {
		return "not a member"
	}
	if index > 0 || progress.Next > 0 {
		progress.MaybeUpdate(index)
	}
	return fmt.Sprintf("%d: %s", id, progress)
}
