// Members is a raft cluster, on etcd's RawNode, that changes its members as confscript says while it serves: servers 4, 5
// and 6 take the place of 1, 2 and 3.
//
//	members -folder DIR [-target 4,5,6] [-down 3] [-exit-after N]
//
// All servers are in this program, each in a goroutine, with a journal in the folder; a real one has each server in a
// program of its own, and sends the messages over a network. Those that are down do not run. A run that is stopped at any
// point, by kill -9 too, is carried on by the same command. With -exit-after the program stops by itself after N stages,
// without any care.
//
// membership.go asks what to do next and does it, server.go is raft's loop, and journal.go the disk. The rules that raft
// leaves to a program (docs/ETCD.md) are kept in these, each where a comment says so. README.md says how to build it.
package main

import (
	"errors"
	"flag"
	"fmt"
	"log"
	"os"
	"path/filepath"
	"strconv"
	"strings"
	"sync"
	"time"

	"confscript"

	"go.etcd.io/etcd/raft"
	pb "go.etcd.io/etcd/raft/raftpb"
)

const (
	poll = 5 * time.Millisecond
	// How long there may be nothing to do but wait.
	patience = time.Minute
	// How many entries a member that has caught up may lack. Lines are proposed all the while.
	maxLag = 10
)

// A cluster is the servers that run here, and the network between them.
type cluster struct {
	folder    string
	exitAfter int
	down      []uint64 // these do not come back
	mutex     sync.Mutex
	servers   map[uint64]*server // that were started, and not stopped for good; nil for one that is down
	retired   []uint64           // that were stopped for good
}

func main() {
	folder := flag.String("folder", "", "where the journals are")
	target := flag.String("target", "4,5,6", "the last members")
	down := flag.String("down", "", "the servers that do not come back")
	exitAfter := flag.Int("exit-after", 0, "stop after this many stages")
	flag.Parse()
	last, err := readIDs(*target)
	lost, errDown := readIDs(*down)
	if *folder == "" || err != nil || errDown != nil {
		log.Fatal("usage: members -folder DIR [-target 4,5,6] [-down 3] [-exit-after N]")
	}
	c := &cluster{folder: *folder, exitAfter: *exitAfter, down: lost, servers: map[uint64]*server{}}
	if err := c.serve([]uint64{1, 2, 3}, confscript.ConfState{Voters: last}); err != nil {
		log.Fatal(err)
	}
}

func readIDs(text string) ([]uint64, error) {
	var ids []uint64
	for _, word := range strings.FieldsFunc(text, func(r rune) bool { return r == ',' }) {
		id, err := strconv.ParseUint(word, 10, 64)
		if err != nil {
			return nil, err
		}
		ids = append(ids, id)
	}
	return ids, nil
}

// serve leads the cluster from its first members to the target, while lines are proposed.
func (c *cluster) serve(first []uint64, target confscript.ConfState) error {
	if err := c.found(first); err != nil {
		return err
	}
	if err := c.startAll(); err != nil {
		return err
	}
	stop, stopped := make(chan struct{}), make(chan struct{})
	go c.propose(stop, stopped)
	if err := c.lead(target); err != nil {
		return err
	}
	close(stop)
	<-stopped
	lines, err := c.compare()
	fmt.Printf("done: %s, the same %d lines on each\n", describe(target), lines)
	return err
}

// found creates the journals of the first members, unless there are journals already. The folder gets its name last, so
// that it has all of them: one that is missing later was lost, and its server does not start again.
func (c *cluster) found(first []uint64) error {
	if names, err := c.journals(); err != nil || len(names) > 0 {
		return err
	}
	draft := c.folder + ".new"
	if err := os.RemoveAll(draft); err != nil {
		return err
	}
	if err := os.MkdirAll(draft, 0o755); err != nil {
		return err
	}
	for _, id := range first {
		if err := found(filepath.Join(draft, fmt.Sprint(id, ".journal")), first); err != nil {
			return err
		}
	}
	if err := os.Rename(draft, c.folder); err != nil {
		return err
	}
	return syncFolder(filepath.Dir(c.folder))
}

// startAll starts the servers that have a journal.
func (c *cluster) startAll() error {
	names, err := c.journals()
	if err != nil {
		return err
	}
	for _, name := range names {
		id, err := strconv.ParseUint(strings.TrimSuffix(filepath.Base(name), ".journal"), 10, 64)
		if err != nil {
			return err
		}
		if err := c.start(id); err != nil {
			return err
		}
	}
	for _, id := range c.down {
		if !contains(c.retired, id) {
			c.servers[id] = nil // also one whose journal is lost
		}
	}
	return nil
}

func (c *cluster) journals() ([]string, error) {
	return filepath.Glob(filepath.Join(c.folder, "*.journal"))
}

func (c *cluster) journal(id uint64) string {
	return filepath.Join(c.folder, fmt.Sprint(id, ".journal"))
}

func contains(ids []uint64, id uint64) bool {
	for _, each := range ids {
		if each == id {
			return true
		}
	}
	return false
}

// start starts a server from its journal, unless it was stopped for good, or is down.
func (c *cluster) start(id uint64) error {
	retired, err := isRetired(c.journal(id))
	if retired {
		c.retired = append(c.retired, id)
	}
	if err != nil || retired || contains(c.down, id) {
		return err
	}
	s, err := startServer(id, c.journal(id), c.send)
	if err != nil {
		return err
	}
	c.mutex.Lock()
	defer c.mutex.Unlock()
	c.servers[id] = s
	return nil
}

// startNew starts servers with empty journals. It fails if one was ever started: an id is used once.
func (c *cluster) startNew(ids []uint64) error {
	for _, id := range ids {
		if err := createJournal(c.journal(id)); err != nil {
			return err
		}
		if err := c.start(id); err != nil {
			return err
		}
	}
	return nil
}

// retire stops servers for good. Their journals stay, so that no id is used again.
func (c *cluster) retire(ids []uint64) error {
	for _, id := range ids {
		if s := c.server(id); s != nil {
			if err := s.stop(); err != nil {
				return err
			}
		}
		c.mutex.Lock()
		delete(c.servers, id)
		c.mutex.Unlock()
		if err := retireJournal(c.journal(id)); err != nil {
			return err
		}
		c.retired = append(c.retired, id)
	}
	return nil
}

// ids returns the servers that were started, and not stopped for good.
func (c *cluster) ids() []uint64 {
	c.mutex.Lock()
	defer c.mutex.Unlock()
	all := make([]uint64, 0, len(c.servers))
	for id := range c.servers {
		all = append(all, id)
	}
	return all
}

// running returns the servers that run.
func (c *cluster) running() []*server {
	c.mutex.Lock()
	defer c.mutex.Unlock()
	all := make([]*server, 0, len(c.servers))
	for _, s := range c.servers {
		if s != nil {
			all = append(all, s)
		}
	}
	return all
}

func (c *cluster) server(id uint64) *server {
	c.mutex.Lock()
	defer c.mutex.Unlock()
	return c.servers[id]
}

// send passes a message to the server that it is for, unless that does not run, or does not keep up.
func (c *cluster) send(message pb.Message) bool {
	to := c.server(message.To)
	if to == nil {
		return false
	}
	select {
	case to.inbox <- message:
		return true
	default:
		return false
	}
}

// leader returns the server that leads in the greatest term, or nil.
func (c *cluster) leader() *server {
	var leader *server
	var greatest uint64
	for _, s := range c.running() {
		var status raft.BasicStatus
		if s.do(func() { status = s.node.BasicStatus() }) && status.RaftState == raft.StateLeader && status.Term > greatest {
			leader, greatest = s, status.Term
		}
	}
	return leader
}

// propose proposes lines to whoever leads, until it is stopped.
func (c *cluster) propose(stop, stopped chan struct{}) {
	defer close(stopped)
	for i := 0; ; i++ {
		select {
		case <-stop:
			return
		case <-time.After(2 * poll):
			if leader := c.leader(); leader != nil {
				leader.do(func() { leader.node.Propose([]byte(fmt.Sprint("line ", i))) })
			}
		}
	}
}

// after stops the program after as many stages as were asked for, and says how many lines are applied by then.
func (c *cluster) after(stage int) {
	if stage != c.exitAfter {
		return
	}
	lines := 0
	if leader := c.leader(); leader != nil {
		leader.do(func() { lines = len(leader.lines) })
	}
	fmt.Printf("stopped: %d lines\n", lines)
	os.Exit(0)
}

// compare waits until the servers that run have applied the same entries, demands that they have the same lines, and returns
// how many.
func (c *cluster) compare() (int, error) {
	for end := time.Now().Add(patience); ; time.Sleep(poll) {
		lines, texts, indexes := 0, map[string]bool{}, map[uint64]bool{}
		for _, s := range c.running() {
			s.do(func() { lines, texts[strings.Join(s.lines, "\n")], indexes[s.applied] = len(s.lines), true, true })
		}
		switch {
		case len(indexes) == 1 && len(texts) == 1:
			return lines, nil
		case len(indexes) == 1:
			return 0, errors.New("servers have different lines")
		case time.Now().After(end):
			return 0, fmt.Errorf("servers have not applied the same entries after %v", patience)
		}
	}
}
