// Package changer times simple changes by etcd's confchange package, which may decide by confscript.
package changer

import (
	"testing"

	"go.etcd.io/etcd/raft/confchange"
	pb "go.etcd.io/etcd/raft/raftpb"
	"go.etcd.io/etcd/raft/tracker"
)

// BenchmarkChangerSimple removes one of five voters. Each call begins with the same five.
func BenchmarkChangerSimple(b *testing.B) {
	voters := pb.ConfState{Voters: []uint64{1, 2, 3, 4, 5}}
	changer := confchange.Changer{Tracker: tracker.MakeProgressTracker(1), LastIndex: 1}
	config, progress, err := confchange.Restore(changer, voters)
	if err != nil {
		b.Fatal(err)
	}
	changer.Tracker.Config, changer.Tracker.Progress = config, progress
	change := pb.ConfChangeSingle{Type: pb.ConfChangeRemoveNode, NodeID: 3}
	b.ReportAllocs()
	for i := 0; i < b.N; i++ {
		if _, _, err := changer.Simple(change); err != nil {
			b.Fatal(err)
		}
	}
}
