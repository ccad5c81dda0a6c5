package main

import (
	"encoding/json"
	"io"
	"log"
	"math"
	"time"

	"confscript"

	"go.etcd.io/etcd/raft"
	pb "go.etcd.io/etcd/raft/raftpb"
)

// A server is a member of the cluster: a RawNode, its journal, and a state machine, which is a list of lines. All of it
// belongs to one goroutine; others ask it by `do`.
type server struct {
	id      uint64
	node    *raft.RawNode
	journal *journal
	storage *raft.MemoryStorage
	send    func(pb.Message) bool
	inbox   chan pb.Message
	calls   chan func()
	quit    chan struct{}
	done    chan struct{}

	views   *confscript.Views
	applied uint64       // the index of the last entry that it has applied
	state   pb.ConfState // the configuration after that entry
	lines   []string
}

// found writes the journal of one of the first members: a snapshot that all of them have.
func found(name string, first []uint64) error {
	if err := createJournal(name); err != nil {
		return err
	}
	journal, _, err := openJournal(name)
	if err != nil {
		return err
	}
	snapshot := pb.Snapshot{Metadata: pb.SnapshotMetadata{Index: 1, Term: 1, ConfState: pb.ConfState{Voters: first}}}
	if err := journal.write(record{Received: marshaled(&snapshot), HardState: marshaled(&pb.HardState{Term: 1, Commit: 1})}); err != nil {
		return err
	}
	return journal.file.Close()
}

// startServer starts a server from its journal. It returns nil for one that was stopped for good. Config.Applied is the index
// of the newest snapshot, whose ConfState is the one that raft starts with.
func startServer(id uint64, name string, send func(pb.Message) bool) (*server, error) {
	journal, storage, err := openJournal(name)
	if err != nil || storage == nil {
		return nil, err
	}
	s := &server{
		id: id, journal: journal, storage: storage, send: send,
		inbox: make(chan pb.Message, 1024), calls: make(chan func()), quit: make(chan struct{}), done: make(chan struct{}),
	}
	snapshot, err := storage.Snapshot()
	if err != nil {
		return nil, err
	}
	config := &raft.Config{
		ID: id, Storage: storage, Applied: snapshot.Metadata.Index, ElectionTick: 10, HeartbeatTick: 1, CheckQuorum: true, PreVote: true,
		MaxSizePerMsg: math.MaxUint64, MaxInflightMsgs: 256, Logger: &raft.DefaultLogger{Logger: log.New(io.Discard, "", 0)},
	}
	if s.node, err = raft.NewRawNode(config); err != nil {
		return nil, err
	}
	s.views = confscript.NewViews[raft.Status, pb.Entry](s.node, storage, config.ElectionTick)
	s.restore(snapshot)
	go s.run()
	return s, nil
}

// run is the server's goroutine. Before the first event, and between two, all that is committed is applied. So the server
// never campaigns, and never takes over leadership or a snapshot, while it has a change to apply.
func (s *server) run() {
	defer close(s.done)
	ticker := time.NewTicker(10 * time.Millisecond)
	defer ticker.Stop()
	for {
		for s.node.HasReady() {
			s.handle(s.node.Ready())
		}
		select {
		case <-s.quit:
			return
		case <-ticker.C:
			s.node.Tick()
			s.views.Ticked()
		case message := <-s.inbox:
			s.receive(message)
		case call := <-s.calls:
			call()
		}
	}
}

func (s *server) receive(message pb.Message) {
	s.node.Step(message) // an error says that the message is out of date
	s.views.Heard(message.From)
}

// do runs a call on the server's goroutine, and reports whether it did: a server that has stopped runs none.
func (s *server) do(call func()) bool {
	ran := make(chan struct{})
	select {
	case s.calls <- func() { call(); close(ran) }:
		<-ran
		return true
	case <-s.done:
		return false
	}
}

// stop ends the server's goroutine and closes its journal.
func (s *server) stop() error {
	close(s.quit)
	<-s.done
	return s.journal.file.Close()
}

// handle saves what the node has ready before it sends and applies it, so a crash takes nothing of that back. Advance comes
// after ApplyConfChange: until then raft lets no further change through.
func (s *server) handle(ready raft.Ready) {
	s.save(ready)
	for _, message := range ready.Messages {
		sent := s.send(message)
		if !sent {
			s.node.ReportUnreachable(message.To)
		}
		if message.Type == pb.MsgSnap {
			status := raft.SnapshotFinish
			if !sent {
				status = raft.SnapshotFailure
			}
			s.node.ReportSnapshot(message.To, status)
		}
	}
	for _, entry := range ready.CommittedEntries {
		s.apply(entry)
	}
	s.node.Advance(ready)
}

func (s *server) save(ready raft.Ready) {
	var saved record
	if !raft.IsEmptySnap(ready.Snapshot) {
		saved.Received = marshaled(&ready.Snapshot)
	}
	for i := range ready.Entries {
		saved.Entries = append(saved.Entries, marshaled(&ready.Entries[i]))
	}
	if !raft.IsEmptyHardState(ready.HardState) {
		saved.HardState = marshaled(&ready.HardState)
	}
	if saved.Received == nil && saved.Entries == nil && saved.HardState == nil {
		return
	}
	s.keep(saved)
	s.views.Saved()
	if saved.Received != nil {
		s.restore(ready.Snapshot)
	}
}

// keep writes a record to the journal and to raft's storage. A server that cannot do so must not go on.
func (s *server) keep(saved record) {
	if err := s.journal.write(saved); err != nil {
		log.Fatal(err)
	}
	if err := saved.load(s.storage); err != nil {
		log.Fatal(err)
	}
}

// restore takes over what a snapshot has.
func (s *server) restore(snapshot pb.Snapshot) {
	s.applied, s.lines = snapshot.Metadata.Index, nil
	s.become(snapshot.Metadata.ConfState)
	if len(snapshot.Data) > 0 {
		if err := json.Unmarshal(snapshot.Data, &s.lines); err != nil {
			log.Fatal(err)
		}
	}
}

// apply applies a committed entry; no change is cancelled. With each change of the members it takes a snapshot, since a
// server with an empty log is sent one, which has to name it. So a restart, which is told that all up to the snapshot is
// applied, has the configuration there.
func (s *server) apply(entry pb.Entry) {
	s.applied = entry.Index
	if entry.Type == pb.EntryNormal {
		if len(entry.Data) > 0 {
			s.lines = append(s.lines, string(entry.Data))
		}
		return
	}
	var change pb.ConfChangeV2 // all changes here are of this kind
	if err := change.Unmarshal(entry.Data); err != nil {
		log.Fatal(err)
	}
	s.become(*s.node.ApplyConfChange(change))
	data, err := json.Marshal(s.lines)
	if err != nil {
		log.Fatal(err)
	}
	s.keep(record{Taken: marshaled(&pb.Snapshot{Metadata: pb.SnapshotMetadata{Index: s.applied, Term: entry.Term, ConfState: s.state}, Data: data})})
}

// become takes over the configuration after the last entry that is applied.
func (s *server) become(state pb.ConfState) {
	s.state = state
	s.views.Applied(s.applied, &state)
}
