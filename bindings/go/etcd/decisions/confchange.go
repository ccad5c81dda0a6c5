//go:build ignore

// The decisions of etcd's package confchange. They carry configurations to confscript and back, and keep the progress
// of the members that confscript says keep theirs; confscript decides.
package confchange

import (
	"fmt"

	"confscript"

	"go.etcd.io/etcd/raft/quorum"
	pb "go.etcd.io/etcd/raft/raftpb"
	"go.etcd.io/etcd/raft/tracker"
)

// Simple makes changes that alter at most one voter.
func (c Changer) Simple(ccs ...pb.ConfChangeSingle) (tracker.Config, tracker.ProgressMap, error) {
	changes, err := changesOf(ccs)
	if err != nil {
		return tracker.Config{}, nil, err
	}
	return c.after(confscript.Simple(stateByConfscript(c.Tracker.Config), changes))
}

// EnterJoint makes changes and enters a joint configuration.
func (c Changer) EnterJoint(autoLeave bool, ccs ...pb.ConfChangeSingle) (tracker.Config, tracker.ProgressMap, error) {
	changes, err := changesOf(ccs)
	if err != nil {
		return tracker.Config{}, nil, err
	}
	return c.after(confscript.EnterJoint(stateByConfscript(c.Tracker.Config), autoLeave, changes))
}

// LeaveJoint leaves a joint configuration.
func (c Changer) LeaveJoint() (tracker.Config, tracker.ProgressMap, error) {
	return c.after(confscript.LeaveJoint(stateByConfscript(c.Tracker.Config)))
}

// Restore returns the configuration of a ConfState, in which each member is catching up. The changer must have an empty
// configuration.
func Restore(chg Changer, cs pb.ConfState) (tracker.Config, tracker.ProgressMap, error) {
	return chg.after(confscript.Restore(confscript.ConfState{
		Voters: cs.Voters, VotersOutgoing: cs.VotersOutgoing, Learners: cs.Learners, LearnersNext: cs.LearnersNext, AutoLeave: cs.AutoLeave,
	}))
}

// after returns the configuration and the progress after a change: of the members that are catching up it is
// new, and the others keep theirs.
func (c Changer) after(next confscript.ConfState, catchingUp []uint64, err error) (tracker.Config, tracker.ProgressMap, error) {
	if err != nil {
		return tracker.Config{}, nil, err
	}
	cfg := configOf(next)
	prs := tracker.ProgressMap{}
	for _, id := range catchingUp {
		prs[id] = &tracker.Progress{
			Next:      c.LastIndex,
			Inflights: tracker.NewInflights(c.Tracker.MaxInflight),
			// A new member counts as active until it has had time to answer.
			RecentActive: true,
		}
	}
	for _, ids := range []map[uint64]struct{}{cfg.Voters.IDs(), cfg.Learners} {
		for id := range ids {
			if err := c.keep(prs, id); err != nil {
				return tracker.Config{}, nil, err
			}
		}
	}
	for id, pr := range prs {
		_, pr.IsLearner = cfg.Learners[id]
	}
	return cfg, prs, nil
}

// keep adds a copy of a member's progress, unless the member is there.
func (c Changer) keep(prs tracker.ProgressMap, id uint64) error {
	if _, ok := prs[id]; ok {
		return nil
	}
	former, ok := c.Tracker.Progress[id]
	if !ok {
		return fmt.Errorf("no progress for %d", id)
	}
	kept := *former
	prs[id] = &kept
	return nil
}

// stateByConfscript returns a configuration with its sets as lists.
func stateByConfscript(cfg tracker.Config) confscript.ConfState {
	return confscript.ConfState{
		Voters:         idsOf(cfg.Voters[0]),
		VotersOutgoing: idsOf(cfg.Voters[1]),
		Learners:       idsOf(cfg.Learners),
		LearnersNext:   idsOf(cfg.LearnersNext),
		AutoLeave:      cfg.AutoLeave,
	}
}

func idsOf(set map[uint64]struct{}) []uint64 {
	ids := make([]uint64, 0, len(set))
	for id := range set {
		ids = append(ids, id)
	}
	return ids
}

// configOf returns a configuration with its lists as sets. An empty set is nil, but for the incoming voters, since
// etcd tells the two apart when it prints a configuration.
func configOf(state confscript.ConfState) tracker.Config {
	voters := quorum.MajorityConfig{}
	for _, id := range state.Voters {
		voters[id] = struct{}{}
	}
	return tracker.Config{
		Voters:       quorum.JointConfig{voters, setOf(state.VotersOutgoing)},
		Learners:     setOf(state.Learners),
		LearnersNext: setOf(state.LearnersNext),
		AutoLeave:    state.AutoLeave,
	}
}

func setOf(ids []uint64) map[uint64]struct{} {
	if len(ids) == 0 {
		return nil
	}
	set := make(map[uint64]struct{}, len(ids))
	for _, id := range ids {
		set[id] = struct{}{}
	}
	return set
}

// changesOf returns the changes in confscript's form.
func changesOf(ccs []pb.ConfChangeSingle) ([]confscript.ConfChangeSingle, error) {
	changes := make([]confscript.ConfChangeSingle, 0, len(ccs))
	for _, cc := range ccs {
		kind, known := kinds[cc.Type]
		if !known {
			return nil, fmt.Errorf("unexpected conf type %d", cc.Type)
		}
		changes = append(changes, confscript.ConfChangeSingle{Type: kind, NodeID: cc.NodeID})
	}
	return changes, nil
}

var kinds = map[pb.ConfChangeType]confscript.ConfChangeType{
	pb.ConfChangeAddNode:        confscript.ConfChangeAddNode,
	pb.ConfChangeAddLearnerNode: confscript.ConfChangeAddLearnerNode,
	pb.ConfChangeRemoveNode:     confscript.ConfChangeRemoveNode,
	pb.ConfChangeUpdateNode:     confscript.ConfChangeUpdateNode,
}
