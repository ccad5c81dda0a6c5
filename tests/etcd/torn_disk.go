package etcd

import (
	"io"
	"io/ioutil"
	"path/filepath"
	"testing"

	"go.etcd.io/etcd/raft"
	"go.etcd.io/etcd/wal"
	"go.uber.org/zap"
)

// killedWhileSaving returns what a member reads from its disk that is killed while etcd's WAL saves what is ready. The
// WAL passes on a large entry in two writes, the first up to the end of a page; here the member is killed between them.
func killedWhileSaving(t *testing.T, before *raft.MemoryStorage, ready raft.Ready) *raft.MemoryStorage {
	must := func(err error) {
		t.Helper()
		if err != nil {
			t.Fatal(err)
		}
	}
	defer func(size int64) { wal.SegmentSizeBytes = size }(wal.SegmentSizeBytes)
	wal.SegmentSizeBytes = 1 << 20
	directory := filepath.Join(t.TempDir(), "wal")
	snapshot, err := before.Snapshot()
	must(err)
	start := startOfWAL(snapshot.Metadata)
	hardState, _, err := before.InitialState()
	must(err)
	first, _ := before.FirstIndex()
	last, _ := before.LastIndex()
	entries, err := before.Entries(first, last+1, 1<<20)
	must(err)

	written, err := wal.Create(zap.NewNop(), directory, nil)
	must(err)
	must(written.SaveSnapshot(start))
	must(written.Save(hardState, entries))
	must(written.Save(ready.HardState, ready.Entries))
	must(written.Close())

	files, err := filepath.Glob(filepath.Join(directory, "*.wal"))
	must(err)
	content, err := ioutil.ReadFile(files[0])
	must(err)
	const page = 4096
	must(ioutil.WriteFile(files[0], append(content[:page], make([]byte, len(content)-page)...), 0600))

	// What follows is how etcd's server reads its WAL.
	torn, err := wal.Open(zap.NewNop(), directory, start)
	must(err)
	if _, _, _, err = torn.ReadAll(); err != io.ErrUnexpectedEOF {
		t.Fatalf("the WAL is not torn: %v", err)
	}
	torn.Close()
	if !wal.Repair(zap.NewNop(), directory) {
		t.Fatal("the WAL cannot be repaired")
	}
	repaired, err := wal.Open(zap.NewNop(), directory, start)
	must(err)
	defer repaired.Close()
	_, hardState, entries, err = repaired.ReadAll()
	must(err)

	left := raft.NewMemoryStorage()
	must(left.ApplySnapshot(snapshot))
	must(left.SetHardState(hardState))
	must(left.Append(entries))
	return left
}
