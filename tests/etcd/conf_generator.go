package etcd

import (
	"math"
	"math/rand"

	"go.etcd.io/etcd/raft/confchange"
	pb "go.etcd.io/etcd/raft/raftpb"
	"go.etcd.io/etcd/raft/tracker"
)

// pool returns count different ids: 1, 2, .. or, if they are wide, numbers of up to 64 bits, among them the greatest.
func pool(chance *rand.Rand, count int, wide bool) []uint64 {
	var ids []uint64
	for id := uint64(1); len(ids) < count; id++ {
		next := id
		if wide {
			next = chance.Uint64() >> uint(chance.Intn(60))
			if id == 1 {
				next = math.MaxUint64
			}
		}
		if next != 0 && !holds(ids, next) {
			ids = append(ids, next)
		}
	}
	return ids
}

func oneOf(chance *rand.Rand, ids []uint64) uint64 {
	return ids[chance.Intn(len(ids))]
}

// some returns at most atMost of the ids, in any order.
func some(chance *rand.Rand, ids []uint64, atMost int) []uint64 {
	if atMost > len(ids) {
		atMost = len(ids)
	}
	var chosen []uint64
	for _, place := range chance.Perm(len(ids))[:chance.Intn(atMost+1)] {
		chosen = append(chosen, ids[place])
	}
	return chosen
}

// without returns the ids that are in none of the lists.
func without(ids []uint64, lists ...[]uint64) []uint64 {
	var left []uint64
	for _, id := range ids {
		isIn := false
		for _, list := range lists {
			isIn = isIn || holds(list, id)
		}
		if !isIn {
			left = append(left, id)
		}
	}
	return left
}

// configuration returns a valid configuration among the ids, with a voter. Its lists are in any order.
func configuration(chance *rand.Rand, ids []uint64) pb.ConfState {
	state := pb.ConfState{Voters: some(chance, ids, len(ids))}
	if len(state.Voters) == 0 {
		state.Voters = []uint64{oneOf(chance, ids)}
	}
	if chance.Intn(2) == 0 {
		state.VotersOutgoing = some(chance, ids, len(ids))
	}
	state.Learners = some(chance, without(ids, state.Voters, state.VotersOutgoing), len(ids))
	state.LearnersNext = some(chance, without(state.VotersOutgoing, state.Voters), len(ids))
	state.AutoLeave = len(state.VotersOutgoing) > 0 && chance.Intn(2) == 0
	return state
}

// changeList returns changes of any kind of some of the ids.
func changeList(chance *rand.Rand, ids []uint64, count int) []pb.ConfChangeSingle {
	var changes []pb.ConfChangeSingle
	for len(changes) < count {
		changes = append(changes, pb.ConfChangeSingle{
			Type:   pb.ConfChangeType(chance.Intn(len(pb.ConfChangeType_name))),
			NodeID: oneOf(chance, ids),
		})
	}
	return changes
}

// walked returns the configuration after one to three changes by etcd's changer.
func walked(chance *rand.Rand, from pb.ConfState, ids []uint64) pb.ConfState {
	changer := confchange.Changer{Tracker: tracker.MakeProgressTracker(10)}
	config, progress, err := confchange.Restore(changer, from)
	for taken := 0; err == nil && taken < 1+chance.Intn(3); {
		changer.Tracker.Config, changer.Tracker.Progress = config, progress
		command := []string{"simple", "enter-joint", "leave-joint"}[chance.Intn(3)]
		next := step{command, chance.Intn(2) == 0, changeList(chance, ids, chance.Intn(4))}
		if c, p, refusal := next.take(changer); refusal == nil {
			config, progress, taken = c, p, taken+1
		}
	}
	changer.Tracker.Config = config
	return changer.Tracker.ConfState()
}
