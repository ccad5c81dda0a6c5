package etcd

import (
	"math"

	"go.etcd.io/etcd/raft"
	"go.etcd.io/etcd/raft/raftpb"
)

// hasAppliedChanges says whether a member has applied all changes of its log that it knows to be committed. Until then it
// may not campaign, nor take a snapshot.
func hasAppliedChanges(node *raft.RawNode, storage raft.Storage) bool {
	status := node.BasicStatus()
	if status.Applied == status.Commit {
		return true
	}
	saved, _, err := storage.InitialState()
	if err != nil || saved.Commit < status.Commit {
		return false // the next Ready has to be saved first
	}
	entries, err := storage.Entries(status.Applied+1, status.Commit+1, math.MaxUint64)
	if err != nil {
		return false
	}
	for _, entry := range entries {
		if entry.Type != raftpb.EntryNormal {
			return false
		}
	}
	return true
}
