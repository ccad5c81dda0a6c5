//go:build !etcd_3_5

package etcd

import (
	pb "go.etcd.io/etcd/raft/raftpb"
	"go.etcd.io/etcd/wal/walpb"
)

// isMended says whether etcd's raft is that of 3.5, where it keeps two rules by itself (campaignRule, transferRule), leaves
// a joint configuration with auto-leave just once, and gives a member a snapshot that is only an outgoing voter.
const isMended = false

// startOfWAL returns what the WAL says of a snapshot.
func startOfWAL(snapshot pb.SnapshotMetadata) walpb.Snapshot {
	return walpb.Snapshot{Index: snapshot.Index, Term: snapshot.Term}
}
