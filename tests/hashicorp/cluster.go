// Package hashicorp lets clusters of hashicorp/raft carry out plans of confscript. README.md says what this shows.
package hashicorp

import (
	"fmt"
	"io"
	"io/ioutil"
	"sync"
	"testing"
	"time"

	"github.com/hashicorp/raft"
)

// limit is how long a state is waited for. It only ends a test that hangs.
const limit = time.Minute

// A cluster has servers in one process, which reach each other in memory. An id of confscript is the id and the address of
// a server, as text.
type cluster struct {
	t            *testing.T
	lock         sync.Mutex
	servers      map[uint64]*server // that run
	acknowledged []string           // entries, in their order
	lastChange   uint64             // the index of the last change, or 0 if it is not known
}

// A server is a raft, with an application that keeps the entries.
type server struct {
	*raft.Raft
	id        uint64
	transport *raft.InmemTransport
	lock      sync.Mutex
	entries   []string
}

func (s *server) Apply(log *raft.Log) interface{} {
	s.lock.Lock()
	defer s.lock.Unlock()
	s.entries = append(s.entries, string(log.Data))
	return nil
}

// There are no snapshots: a test has fewer entries than raft asks for.
func (s *server) Snapshot() (raft.FSMSnapshot, error) { return nil, io.ErrUnexpectedEOF }
func (s *server) Restore(io.ReadCloser) error         { return io.ErrUnexpectedEOF }

// applied returns the entries that were applied, in their order.
func (s *server) applied() []string {
	s.lock.Lock()
	defer s.lock.Unlock()
	return append([]string(nil), s.entries...)
}

func name(id uint64) raft.ServerID         { return raft.ServerID(fmt.Sprint(id)) }
func address(id uint64) raft.ServerAddress { return raft.ServerAddress(fmt.Sprint(id)) }

// newCluster starts a cluster with a configuration, in which some ids are down. Learners get it from the leader: one that
// does not know it to be committed campaigns.
func newCluster(t *testing.T, first configuration, down []uint64) *cluster {
	c := &cluster{t: t, servers: map[uint64]*server{}}
	for _, id := range without(first.Voters, down) {
		c.start(id, &first)
	}
	for _, id := range without(first.Learners, down) {
		c.start(id, nil)
	}
	return c
}

// start starts a server with an empty log, or with a log that begins with a configuration.
func (c *cluster) start(id uint64, first *configuration) {
	config := raft.DefaultConfig()
	config.LocalID = name(id)
	config.HeartbeatTimeout, config.ElectionTimeout, config.LeaderLeaseTimeout = 200*time.Millisecond, 200*time.Millisecond, 200*time.Millisecond
	config.CommitTimeout = 5 * time.Millisecond
	config.ShutdownOnRemove = false // a test stops servers
	config.LogOutput, config.LogLevel = ioutil.Discard, "OFF"
	store, snapshots := raft.NewInmemStore(), raft.NewInmemSnapshotStore()
	s := &server{id: id}
	_, s.transport = raft.NewInmemTransportWithTimeout(address(id), time.Second)
	if first != nil {
		c.must(raft.BootstrapCluster(config, store, store, snapshots, s.transport, first.servers()))
	}
	for _, other := range c.servers {
		s.transport.Connect(address(other.id), other.transport)
		other.transport.Connect(address(id), s.transport)
	}
	var err error
	s.Raft, err = raft.NewRaft(config, s, store, store, snapshots, s.transport)
	c.must(err)
	c.lock.Lock()
	c.servers[id] = s
	c.lock.Unlock()
}

// stop stops a server for good.
func (c *cluster) stop(id uint64) {
	c.lock.Lock()
	s := c.servers[id]
	delete(c.servers, id)
	c.lock.Unlock()
	for _, other := range c.servers {
		other.transport.Disconnect(address(id))
	}
	s.transport.DisconnectAll()
	c.must(s.Shutdown().Error())
}

func (c *cluster) stopAll() {
	for id := range c.servers {
		c.stop(id)
	}
}

func (c *cluster) must(err error) {
	c.t.Helper()
	if err != nil {
		c.t.Fatal(err)
	}
}

// until waits for a state.
func (c *cluster) until(what string, holds func() bool) {
	c.t.Helper()
	for end := time.Now().Add(limit); !holds(); time.Sleep(time.Millisecond) {
		if time.Now().After(end) {
			c.t.Fatalf("waited in vain: %s", what)
		}
	}
}

// leading returns a server that takes itself for the leader.
func (c *cluster) leading() (leader *server) {
	c.t.Helper()
	c.until("a leader", func() bool {
		c.lock.Lock()
		defer c.lock.Unlock()
		for _, s := range c.servers {
			if s.State() == raft.Leader {
				leader = s
			}
		}
		return leader != nil
	})
	return leader
}

// commit proposes entries until one is acknowledged.
func (c *cluster) commit(entry string) {
	c.t.Helper()
	c.until("an entry is acknowledged", func() bool { return c.leading().Raft.Apply([]byte(entry), limit).Error() == nil })
	c.acknowledged = append(c.acknowledged, entry)
}

// catchUp waits until servers have applied what was acknowledged.
func (c *cluster) catchUp(ids []uint64) {
	c.t.Helper()
	for _, id := range ids {
		c.until(fmt.Sprintf("%d has each acknowledged entry", id), func() bool { return isWithin(c.acknowledged, c.servers[id].applied()) })
	}
}

// isWithin says whether a list has the elements of another one, in their order. Between them it may have others: those that
// were not acknowledged to the one who proposed them.
func isWithin(some, all []string) bool {
	for _, each := range all {
		if len(some) > 0 && some[0] == each {
			some = some[1:]
		}
	}
	return len(some) == 0
}
