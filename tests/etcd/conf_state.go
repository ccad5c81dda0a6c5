package etcd

import (
	"fmt"
	"strconv"
	"strings"

	"go.etcd.io/etcd/raft"
	"go.etcd.io/etcd/raft/confchange"
	pb "go.etcd.io/etcd/raft/raftpb"
	"go.etcd.io/etcd/raft/tracker"
)

// readConfState reads the line that etcd's DescribeConfState writes.
func readConfState(line string) (pb.ConfState, error) {
	var state pb.ConfState
	var err error
	rest := strings.TrimSpace(line)
	// list cuts the list off that follows the field's name.
	list := func(name string) []uint64 {
		end := strings.IndexByte(rest, ']')
		if err != nil || !strings.HasPrefix(rest, name+":[") || end < 0 {
			err = fmt.Errorf("not a ConfState: %q", line)
			return nil
		}
		var ids []uint64
		for _, word := range strings.Fields(rest[len(name)+2 : end]) {
			var id uint64
			if id, err = strconv.ParseUint(word, 10, 64); err != nil {
				return nil
			}
			ids = append(ids, id)
		}
		rest = strings.TrimPrefix(rest[end+1:], " ")
		return ids
	}
	state.Voters = list("Voters")
	state.VotersOutgoing = list("VotersOutgoing")
	state.Learners = list("Learners")
	state.LearnersNext = list("LearnersNext")
	state.AutoLeave = rest == "AutoLeave:true"
	if err == nil && !state.AutoLeave && rest != "AutoLeave:false" {
		err = fmt.Errorf("not a ConfState: %q", line)
	}
	return state, err
}

// isSame says whether two ConfStates name the same configuration.
func isSame(a, b pb.ConfState) bool {
	return a.Equivalent(b) == nil
}

// areSame says whether two lists of ConfStates name the same configurations, one by one.
func areSame(a, b []pb.ConfState) bool {
	for i := range a {
		if i < len(b) && !isSame(a[i], b[i]) {
			return false
		}
	}
	return len(a) == len(b)
}

// describe writes states for a report.
func describe(states ...pb.ConfState) string {
	var lines []string
	for _, state := range states {
		lines = append(lines, raft.DescribeConfState(state))
	}
	return strings.Join(lines, "\n")
}

// holds says whether an id is in a list.
func holds(ids []uint64, id uint64) bool {
	for _, other := range ids {
		if other == id {
			return true
		}
	}
	return false
}

// members returns the ids of a configuration, each once: first the incoming voters, then the others.
func members(state pb.ConfState) []uint64 {
	var ids []uint64
	for _, list := range [][]uint64{state.Voters, state.VotersOutgoing, state.Learners} {
		for _, id := range list {
			if !holds(ids, id) {
				ids = append(ids, id)
			}
		}
	}
	return ids
}

// voterIDs returns the incoming and the outgoing voters of configurations, each once.
func voterIDs(states ...pb.ConfState) []uint64 {
	var ids []uint64
	for _, state := range states {
		ids = append(ids, without(state.Voters, ids)...)
		ids = append(ids, without(state.VotersOutgoing, ids)...)
	}
	return ids
}

// staying returns the voters of a configuration that are voters of another one too.
func staying(before, after pb.ConfState) []uint64 {
	return without(voterIDs(before), without(voterIDs(before), voterIDs(after)))
}

// left returns what a joint configuration becomes when etcd's changer leaves it.
func left(joint pb.ConfState) pb.ConfState {
	changer := confchange.Changer{Tracker: tracker.MakeProgressTracker(10)}
	var err error
	changer.Tracker.Config, changer.Tracker.Progress, err = confchange.Restore(changer, joint)
	if err == nil {
		changer.Tracker.Config, changer.Tracker.Progress, err = changer.LeaveJoint()
	}
	if err != nil {
		panic(err)
	}
	return changer.Tracker.ConfState()
}
