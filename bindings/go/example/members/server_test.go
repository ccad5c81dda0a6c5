package main

import (
	"fmt"
	"path/filepath"
	"testing"

	pb "go.etcd.io/etcd/raft/raftpb"
)

// TestFirstEvent starts 2 of (1 2 3) with a journal that says that the change which adds 4 is committed. Its first event asks
// it to campaign. By then it has applied the change, so it asks 4 for its vote too.
func TestFirstEvent(t *testing.T) {
	name := filepath.Join(t.TempDir(), "2.journal")
	if err := found(name, []uint64{1, 2, 3}); err != nil {
		t.Fatal(err)
	}
	journal, _, err := openJournal(name)
	if err != nil {
		t.Fatal(err)
	}
	adding := pb.ConfChangeV2{Changes: []pb.ConfChangeSingle{{Type: pb.ConfChangeAddNode, NodeID: 4}}}
	entry := pb.Entry{Type: pb.EntryConfChangeV2, Term: 1, Index: 2, Data: marshaled(&adding)}
	if err := journal.write(record{Entries: [][]byte{marshaled(&entry)}, HardState: marshaled(&pb.HardState{Term: 1, Commit: 2})}); err != nil {
		t.Fatal(err)
	}
	asked := make(chan uint64, 10)
	s, err := startServer(2, name, func(message pb.Message) bool {
		if message.Type == pb.MsgVote {
			asked <- message.To
		}
		return true
	})
	if err != nil {
		t.Fatal(err)
	}
	s.inbox <- pb.Message{Type: pb.MsgTimeoutNow, From: 1, To: 2, Term: 1}
	s.do(func() {}) // the message before this call, or after it
	s.do(func() {})
	close(s.quit)
	<-s.done
	var ids []uint64
	for len(asked) > 0 {
		ids = append(ids, <-asked)
	}
	if !contains(ids, 4) {
		t.Errorf("%v were asked for their votes", ids)
	}
}

// TestCreatedOnce demands that no journal is created where one is, and that a server that was stopped for good does not start.
func TestCreatedOnce(t *testing.T) {
	name := filepath.Join(t.TempDir(), "1.journal")
	if err := createJournal(name); err != nil {
		t.Fatal(err)
	}
	if err := createJournal(name); err == nil {
		t.Error("it was created twice")
	}
	journal, _, err := openJournal(name)
	if err != nil {
		t.Fatal(err)
	}
	if err := journal.write(record{Retired: true}); err != nil {
		t.Fatal(err)
	}
	if s, err := startServer(1, name, nil); err != nil || s != nil {
		t.Error("it starts again", err)
	}
}

// TestView leads 1 of (1 2), in which the test is 2, through a change that adds the learner 3. What 1 knows is compared after each
// event.
func TestView(t *testing.T) {
	name := filepath.Join(t.TempDir(), "1.journal")
	if err := found(name, []uint64{1, 2}); err != nil {
		t.Fatal(err)
	}
	s, err := startServer(1, name, func(pb.Message) bool { return true })
	if err != nil {
		t.Fatal(err)
	}
	close(s.quit) // the test takes the place of its goroutine
	<-s.done
	answers := func(kinds ...pb.MessageType) func() error {
		return func() error {
			for _, kind := range kinds {
				last, _ := s.storage.LastIndex()
				s.receive(pb.Message{Type: kind, From: 2, To: 1, Term: 2, Index: last})
				for s.node.HasReady() {
					s.handle(s.node.Ready())
				}
			}
			return nil
		}
	}
	adding := pb.ConfChangeV2{Changes: []pb.ConfChangeSingle{{Type: pb.ConfChangeAddLearnerNode, NodeID: 3}}}
	for _, row := range []struct {
		event string
		does  func() error
		want  string // the configuration, its index, the leader, the commit index, that of a change that is pending, and the members
	}{
		{"it campaigns", s.node.Campaign, "voters=(1 2) 0 0 1 0 map[]"},
		{"it is elected", answers(pb.MsgPreVoteResp, pb.MsgVoteResp), "voters=(1 2) 2 1 1 0 map[1:{2 true} 2:{0 true}]"},
		{"its first entry is committed", answers(pb.MsgAppResp), "voters=(1 2) 2 1 2 0 map[1:{2 true} 2:{2 true}]"},
		{"it proposes a change", func() error { return s.node.ProposeConfChange(adding) }, "voters=(1 2) 2 1 2 3 map[1:{3 true} 2:{2 true}]"},
		{"the change is committed", answers(pb.MsgAppResp), "voters=(1 2) learners=(3) 4 1 3 0 map[1:{3 true} 2:{3 true} 3:{0 false}]"},
		{"an entry after it is", answers(pb.MsgAppResp), "voters=(1 2) learners=(3) 4 1 4 0 map[1:{4 true} 2:{4 true} 3:{0 false}]"},
	} {
		if err := row.does(); err != nil {
			t.Fatal(row.event, err)
		}
		for s.node.HasReady() {
			s.handle(s.node.Ready())
		}
		view, err := s.views.View()
		if err != nil {
			t.Fatal(row.event, err)
		}
		if found := fmt.Sprint(view.ConfState, " ", view.ConfIndex, view.Lead, view.Commit, view.PendingConfIndex, view.Progress); found != row.want {
			t.Errorf("%s: %s, and not %s", row.event, found, row.want)
		}
		for s.node.HasReady() {
			s.handle(s.node.Ready()) // of an entry that the view proposes
		}
	}
	if last, _ := s.storage.LastIndex(); last != 4 {
		t.Errorf("the last index is %d", last)
	}
}
