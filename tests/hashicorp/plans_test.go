package hashicorp

import (
	"bufio"
	"encoding/json"
	"fmt"
	"math/rand"
	"os"
	"os/exec"
	"strings"
	"sync"
	"testing"

	"github.com/hashicorp/raft"
)

const (
	plans          = 200
	plansWhileDown = 100
)

// A line is one of `plan --output json`: a step, which has one change.
type line struct {
	ConfChange struct {
		Changes []struct {
			Type string `json:"type"`
			ID   uint64 `json:"node_id"`
		} `json:"changes"`
	} `json:"conf_change"`
	ConfState configuration `json:"conf_state"`
	NoPlan    string        `json:"no_plan"`
	Plan      int           `json:"plan"`
	Stalls    bool          `json:"stalls"`
	Steps     int           `json:"steps"`
}

// A plan leads from one configuration to another while some voters are down.
type plan struct {
	now, target configuration
	down        []uint64
	lines       []line
}

// counts counts what happens in all plans, which run beside each other.
type counts struct {
	lock sync.Mutex
	of   map[string]int
}

func (c *counts) add(what string) {
	c.lock.Lock()
	defer c.lock.Unlock()
	c.of[what]++
}

// TestPlans carries out the plans between random pairs of configurations, one change at a time. No call is refused, each
// configuration is that of the line, and no acknowledged entry is lost.
func TestPlans(t *testing.T) {
	carryOutAll(t, rand.New(rand.NewSource(1)), plans, nil, "AddNonvoter", "AddVoter", "DemoteVoter", "RemoveServer", "leadership moved")
}

// TestPlansWhileDown does the same with a voter that is down from first to last. Plans that stall are left out.
func TestPlansWhileDown(t *testing.T) {
	carryOutAll(t, rand.New(rand.NewSource(2)), plansWhileDown, []uint64{1}, "AddNonvoter", "AddVoter", "DemoteVoter", "RemoveServer", "leadership moved")
}

func carryOutAll(t *testing.T, chance *rand.Rand, count int, down []uint64, kinds ...string) {
	seen := &counts{of: map[string]int{}}
	t.Run("plans", func(t *testing.T) {
		for i := 0; i < count; i++ {
			p := makePlan(t, chance, down)
			t.Run(fmt.Sprint(i), func(t *testing.T) {
				t.Parallel()
				p.carryOut(t, seen)
			})
		}
	})
	t.Log(seen.of)
	t.Run("each kind occurs", func(t *testing.T) {
		for _, kind := range kinds {
			if seen.of[kind] < 5 {
				t.Errorf("%s: %d times", kind, seen.of[kind])
			}
		}
	})
}

// makePlan asks confscript for the plan between two random configurations that differ, and with which entries commit while
// the ids are down, which vote at first.
func makePlan(t *testing.T, chance *rand.Rand, down []uint64) *plan {
	for {
		p := &plan{now: someConfiguration(chance), target: someConfiguration(chance), down: down}
		if len(without(down, p.now.Voters)) > 0 || p.now.text() == p.target.text() {
			continue
		}
		if p.ask(t); len(p.lines) > 0 {
			return p
		}
	}
}

// someConfiguration returns voters and learners among the ids 1 to 6.
func someConfiguration(chance *rand.Rand) (found configuration) {
	for len(found.Voters) == 0 {
		found = configuration{}
		for id := uint64(1); id <= 6; id++ {
			switch chance.Intn(5) {
			case 0, 1:
				found.Voters = append(found.Voters, id)
			case 2:
				found.Learners = append(found.Learners, id)
			}
		}
	}
	return found
}

// ask asks for the plan's lines. A plan that stalls has none.
func (p *plan) ask(t *testing.T) {
	words := []string{"plan", "--strategy", "one-at-a-time", "--output", "json", "--from", p.now.text(), "--to", p.target.text()}
	if len(p.down) > 0 {
		words = append(words, "--down", list(p.down))
	}
	output, err := exec.Command(os.Getenv("CONFSCRIPT"), words...).Output()
	if exit, is := err.(*exec.ExitError); err != nil && !(is && exit.ExitCode() == 1) {
		t.Fatalf("%v: %v", words, err)
	}
	for scanner := bufio.NewScanner(strings.NewReader(string(output))); scanner.Scan(); {
		var next line
		if err := json.Unmarshal(scanner.Bytes(), &next); err != nil {
			t.Fatalf("%v: %s", err, scanner.Text())
		}
		if next.Stalls {
			p.lines = nil
			return
		}
		if next.NoPlan != "" || len(next.ConfChange.Changes) != 1 || len(next.ConfState.VotersOutgoing) > 0 {
			t.Fatalf("not one change: %s", scanner.Text())
		}
		p.lines = append(p.lines, next)
	}
	if len(p.lines) == 0 || p.lines[len(p.lines)-1].ConfState.text() != p.target.text() {
		t.Fatalf("the plan from %s to %s ends at %v", p.now.text(), p.target.text(), p.lines)
	}
}

// carryOut starts a cluster with the current configuration, and makes the changes while entries are committed.
func (p *plan) carryOut(t *testing.T, seen *counts) {
	c := newCluster(t, p.now, p.down)
	defer c.stopAll()
	before := p.now
	for i, line := range p.lines {
		c.commit(fmt.Sprint("before ", i))
		for _, id := range without(line.ConfState.members(), before.members()) {
			c.start(id, nil)
		}
		c.make(line, before, p.down, seen)
		for _, id := range without(before.members(), line.ConfState.members()) {
			if !holds(p.down, id) {
				c.stop(id)
			}
		}
		c.commit(fmt.Sprint("after ", i))
		before = line.ConfState
	}
	c.catchUp(without(before.members(), p.down))
}

// make calls what a step's change is until the leader has the configuration, and compares it with that of the line. A call
// names the last change that this cluster was asked for, if it was acknowledged: then it is refused after any other.
func (c *cluster) make(line line, before configuration, down []uint64, seen *counts) {
	change := line.ConfChange.Changes[0]
	c.until(fmt.Sprint("the step ", change), func() bool {
		leader := c.leading()
		now := configurationOf(leader).text()
		switch {
		case now == line.ConfState.text():
			return leader.Barrier(limit).Error() == nil
		case now != before.text():
			c.t.Fatalf("%v led from %s to %s instead of %s", change, before.text(), now, line.ConfState.text())
		case !holds(line.ConfState.Voters, leader.id):
			if c.moveLeader(leader, without(line.ConfState.Voters, down), before) {
				seen.add("leadership moved")
			}
			return false
		}
		call, future := c.call(leader, change.Type, change.ID, before)
		switch err := future.Error(); err {
		case nil:
			seen.add(call)
			c.lastChange = future.Index()
		case raft.ErrNotLeader, raft.ErrLeadershipLost, raft.ErrLeadershipTransferInProgress:
			c.lastChange = 0
		default:
			c.t.Fatalf("%s of %d from %s is refused: %v", call, change.ID, before.text(), err)
		}
		return false
	})
}

// call makes the call that a change is, at the leader. A server votes only once it has what was acknowledged.
func (c *cluster) call(leader *server, kind string, id uint64, before configuration) (string, raft.IndexFuture) {
	switch {
	case kind == "ConfChangeRemoveNode":
		return "RemoveServer", leader.RemoveServer(name(id), c.lastChange, limit)
	case kind == "ConfChangeAddNode":
		c.catchUp([]uint64{id})
		return "AddVoter", leader.AddVoter(name(id), address(id), c.lastChange, limit)
	case holds(before.Voters, id):
		return "DemoteVoter", leader.DemoteVoter(name(id), c.lastChange, limit)
	default:
		return "AddNonvoter", leader.AddNonvoter(name(id), address(id), c.lastChange, limit)
	}
}

// moveLeader moves leadership to a voter that stays one, and says whether that was accepted.
func (c *cluster) moveLeader(leader *server, staying []uint64, before configuration) bool {
	for _, id := range staying {
		if holds(before.Voters, id) {
			return leader.LeadershipTransferToServer(name(id), address(id)).Error() == nil
		}
	}
	c.t.Fatalf("none of %v could lead after %s", staying, before.text())
	return false
}
