//go:build etcd_3_5

package etcd

import (
	pb "go.etcd.io/etcd/raft/raftpb"
	"go.etcd.io/etcd/wal/walpb"
)

// isMended is described in version_3_4.go.
const isMended = true

// startOfWAL returns what the WAL says of a snapshot, its configuration too.
func startOfWAL(snapshot pb.SnapshotMetadata) walpb.Snapshot {
	return walpb.Snapshot{Index: snapshot.Index, Term: snapshot.Term, ConfState: &snapshot.ConfState}
}
