package etcd

import (
	"fmt"
	"testing"

	pb "go.etcd.io/etcd/raft/raftpb"
)

// TestCases has views that are incomplete, old or rare, in each of which a leader once did harm, or waited for ever. The
// change that leads to the configuration is at index 5, unless it says otherwise, and 9 is committed.
func TestCases(t *testing.T) {
	has := func(ids ...uint64) (progress []progressView) {
		for _, id := range ids {
			progress = append(progress, progressView{id, 9, true})
		}
		return progress
	}
	two, learning := pb.ConfState{Voters: []uint64{1, 2}}, pb.ConfState{Voters: []uint64{1, 2}, Learners: []uint64{3}}
	three, demoted := pb.ConfState{Voters: []uint64{1, 2, 3}}, pb.ConfState{Voters: []uint64{2, 3}, Learners: []uint64{1}}
	joint := pb.ConfState{Voters: []uint64{3}, VotersOutgoing: []uint64{1}, AutoLeave: true}
	for _, row := range []struct {
		name   string
		target pb.ConfState
		view   view
		want   string // or "" if it is refused
	}{
		{"a removed leader, which cannot add the entry after its removal", two,
			view{ConfState: two, ConfIndex: 10, Lead: 3, Progress: has(1, 2), Running: []uint64{1, 2, 3}}, "transfer  [1]"},
		{"the same, and no voter is known to have its removal", two,
			view{ConfState: two, ConfIndex: 12, Lead: 3, Progress: has(1, 2), Running: []uint64{1, 2, 3}}, "wait behind [1 2]"},
		{"a learner that was never heard from", three,
			view{ConfState: learning, ConfIndex: 5, Lead: 1, Progress: append(has(1, 2), progressView{ID: 3}), Running: []uint64{1, 2, 3}}, "wait unheard [3]"},
		{"a learner that was stopped for good, and is dropped", two,
			view{ConfState: learning, ConfIndex: 5, Lead: 1, Progress: append(has(1, 2), progressView{ID: 3}), Running: []uint64{1, 2}, Retired: []uint64{3}}, "propose simple r3"},
		{"a learner that was stopped for good, and is to vote", three,
			view{ConfState: learning, ConfIndex: 5, Lead: 1, Progress: append(has(1, 2), progressView{ID: 3}), Running: []uint64{1, 2}, Retired: []uint64{3}}, "stuck reused [3]"},
		{"a learner that was never started, and is dropped", two,
			view{ConfState: learning, ConfIndex: 5, Lead: 1, Progress: append(has(1, 2), progressView{ID: 3}), Running: []uint64{1, 2}}, "propose simple r3"},
		{"a leader that hears from no other voter, while another server is to stop", three,
			view{ConfState: three, ConfIndex: 5, Lead: 1, Progress: append(has(1), progressView{2, 9, false}, progressView{3, 9, false}), Running: []uint64{1, 2, 3, 4}}, "wait unheard [2 3]"},
		{"a demoted voter that does not know it, while another server is to stop", demoted,
			view{ConfState: demoted, ConfIndex: 5, Lead: 2, Progress: append(has(2, 3), progressView{1, 4, true}), Running: []uint64{1, 2, 3, 4}}, "wait behind [1]"},
		{"a target that raft leaves by itself", joint,
			view{ConfState: pb.ConfState{Voters: []uint64{1}}, ConfIndex: 5, Lead: 1, Progress: has(1), Running: []uint64{1}}, ""},
		{"who knows the configuration is not filled in", two,
			view{ConfState: two, Lead: 1, Progress: has(1, 2), Running: []uint64{1, 2, 3}}, ""},
		{"the progress of the leader is not filled in", two,
			view{ConfState: two, ConfIndex: 5, Lead: 1, Progress: has(2), Running: []uint64{1, 2, 3}}, ""},
	} {
		t.Run(row.name, func(t *testing.T) {
			row.view.Commit = 9
			s := (&planner{map[string]*plan{}}).situation(t, row.view, task{Strategy: "learners-first", Target: row.target})
			if s.isRefused() != (row.want == "") {
				t.Fatalf("it is refused: %v", s.isRefused())
			}
			compareWithLibrary(t, s)
			if row.want == "" {
				return
			}
			if found, _ := answerTo(s, rows); text(found) != row.want {
				t.Errorf("%s, and not %s", text(found), row.want)
			}
		})
	}
}

// text writes an answer, and of a proposal its step.
func text(a answer) string {
	if a.Action != "propose" {
		return a.String()
	}
	return fmt.Sprint("propose simple ", pb.ConfChangesToString(a.Stage.ConfChange.Changes))
}
