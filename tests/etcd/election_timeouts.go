package etcd

import (
	"math/rand"
	"sync"
	"unsafe"

	_ "go.etcd.io/etcd/raft" // has the variable
)

// raftChance points to what etcd's raft draws its election timeouts from. It is private there, and seeded by the time
// of day.
//
//go:linkname raftChance go.etcd.io/etcd/raft.globalRand
var raftChance unsafe.Pointer

// A lockedRand is laid out as the type of that name in etcd's raft.
type lockedRand struct {
	mutex sync.Mutex
	rand  *rand.Rand
}

// seedElectionTimeouts makes the election timeouts of all members follow from a seed.
func seedElectionTimeouts(seed int64) {
	chance := (*lockedRand)(raftChance)
	chance.mutex.Lock()
	defer chance.mutex.Unlock()
	chance.rand = rand.New(rand.NewSource(seed))
}
