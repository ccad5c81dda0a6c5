package main

import (
	"bytes"
	"encoding/json"
	"io"
	"os"
	"path/filepath"

	"go.etcd.io/etcd/raft"
	pb "go.etcd.io/etcd/raft/raftpb"
)

// A journal is the disk of a server: a file with a record on each line. A record is written whole or not at all, and synced.
// So two rules are kept that raft leaves to the program: the entries and the hard state of a Ready are saved as one, and a
// hard state is not lost if anything is kept that was saved after it. No record is ever dropped; a program that runs for long
// writes a new journal now and then, which begins with the newest snapshot, while the configuration is not joint (see load).
type journal struct{ file *os.File }

// A record is what a server saves at once. The parts are those of raft, in the form that they have on the wire.
type record struct {
	Received, Taken []byte   `json:",omitempty"` // a snapshot of the leader's, or of its own
	Entries         [][]byte `json:",omitempty"`
	HardState       []byte   `json:",omitempty"`
	Retired         bool     `json:",omitempty"` // the server was stopped for good
}

// createJournal creates an empty journal. It fails if there is one: an id is used once, since a server that comes back
// without its log could vote twice.
func createJournal(name string) error {
	file, err := os.OpenFile(name, os.O_WRONLY|os.O_CREATE|os.O_EXCL, 0o644)
	if err != nil {
		return err
	}
	if err := file.Close(); err != nil {
		return err
	}
	return syncFolder(filepath.Dir(name))
}

// syncFolder makes the names in a folder durable.
func syncFolder(name string) error {
	folder, err := os.Open(name)
	if err != nil {
		return err
	}
	defer folder.Close()
	return folder.Sync()
}

// openJournal opens the journal of this name, and returns what it has, or no storage if the server was stopped for good.
func openJournal(name string) (*journal, *raft.MemoryStorage, error) {
	file, err := os.OpenFile(name, os.O_RDWR, 0)
	if err != nil {
		return nil, nil, err
	}
	text, err := io.ReadAll(file)
	if err != nil {
		return nil, nil, err
	}
	// What follows the last newline is a record whose writing was interrupted.
	whole := bytes.LastIndexByte(text, '\n') + 1
	if err := file.Truncate(int64(whole)); err != nil {
		return nil, nil, err
	}
	if _, err := file.Seek(int64(whole), io.SeekStart); err != nil {
		return nil, nil, err
	}
	storage := raft.NewMemoryStorage()
	for _, line := range bytes.Split(bytes.TrimSuffix(text[:whole], []byte("\n")), []byte("\n")) {
		if len(line) == 0 {
			continue
		}
		var saved record
		if err := json.Unmarshal(line, &saved); err != nil {
			return nil, nil, err
		}
		if saved.Retired {
			return nil, nil, file.Close()
		}
		if err := saved.load(storage); err != nil {
			return nil, nil, err
		}
	}
	return &journal{file}, storage, nil
}

// isRetired reports whether the server of this journal was stopped for good.
func isRetired(name string) (bool, error) {
	journal, storage, err := openJournal(name)
	if err != nil || storage == nil {
		return err == nil, err
	}
	return false, journal.file.Close()
}

// retireJournal notes that the server of this journal was stopped for good, also if its journal is lost.
func retireJournal(name string) error {
	if err := createJournal(name); err != nil && !os.IsExist(err) {
		return err
	}
	journal, storage, err := openJournal(name)
	if err != nil || storage == nil {
		return err
	}
	if err := journal.write(record{Retired: true}); err != nil {
		return err
	}
	return journal.file.Close()
}

// load puts a record into raft's storage. What the server's own snapshot has is dropped from the log, but not while the
// configuration is joint: in raft 3.4 an outgoing voter accepts no snapshot, and one that lacks an entry would never catch
// up. All that are not down have the log up to the last snapshot before: Next waits for that.
func (r record) load(storage *raft.MemoryStorage) error {
	var snapshot pb.Snapshot
	var state pb.HardState
	entries := make([]pb.Entry, len(r.Entries))
	for i, data := range r.Entries {
		if err := entries[i].Unmarshal(data); err != nil {
			return err
		}
	}
	if r.Received != nil {
		if err := snapshot.Unmarshal(r.Received); err != nil {
			return err
		}
		if err := storage.ApplySnapshot(snapshot); err != nil {
			return err
		}
	}
	if err := storage.Append(entries); err != nil {
		return err
	}
	if r.HardState != nil {
		if err := state.Unmarshal(r.HardState); err != nil {
			return err
		}
		if err := storage.SetHardState(state); err != nil {
			return err
		}
	}
	if r.Taken != nil {
		if err := snapshot.Unmarshal(r.Taken); err != nil {
			return err
		}
		_, err := storage.CreateSnapshot(snapshot.Metadata.Index, &snapshot.Metadata.ConfState, snapshot.Data)
		if err != nil || len(snapshot.Metadata.ConfState.VotersOutgoing) > 0 {
			return err
		}
		return storage.Compact(snapshot.Metadata.Index)
	}
	return nil
}

// write writes a record, and returns once it is on the disk.
func (j *journal) write(r record) error {
	line, err := json.Marshal(r)
	if err != nil {
		return err
	}
	if _, err := j.file.Write(append(line, '\n')); err != nil {
		return err
	}
	return j.file.Sync()
}

// marshaled returns a part of raft in the form that it has on the wire.
func marshaled(part interface{ Marshal() ([]byte, error) }) []byte {
	data, err := part.Marshal()
	if err != nil {
		panic(err) // raft's own types are always written
	}
	return data
}
