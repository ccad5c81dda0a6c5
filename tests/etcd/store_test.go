package etcd

import (
	"fmt"
	"os"
	"strconv"
	"testing"

	library "confscript"
)

// kindsOfStores are what has to occur, each at least five times. A leader asks, so row 3 never applies; no target has
// auto-leave, and no plan that is begun ends in a stage without a quorum or with an id that was stopped.
var kindsOfStores = []string{
	"row 2", "row 4", "row 5", "row 6", "row 9", "row 10", "row 12", "row 13", "row 14", "row 15", "row 16", "row 17", "row 18", "row 19",
	"a change is applied", "a crash before it saves", "a crash before it sends", "a crash before it applies", "a crash before it advances", "a commit index is lost",
	"a death", "all crash", "two parts", "one is cut off", "one is not heard", "a snapshot", "a log is cut", "a log is cut while joint", "a read", "no view",
}

// TestStore leads stores to 12 targets each, 300 in all or as many as the environment variable PLANS says, as the library
// says. Every plan arrives, but for what ETCD names.
func TestStore(t *testing.T) {
	count := 300
	if given, err := strconv.Atoi(os.Getenv("PLANS")); err == nil {
		count = given
	}
	seen, ends := map[string]int{}, map[string]int{}
	for seed := int64(0); int(seed)*12 < count; seed++ {
		t.Run(fmt.Sprint("seed ", seed), func(t *testing.T) { leadStore(t, seed, 12, seen, ends) })
	}
	t.Log(seen)
	t.Log(ends)
	t.Run("each kind occurs", func(t *testing.T) { compareSeen(t, seen, kindsOfStores) })
	t.Run("none hangs", func(t *testing.T) {
		if ends[hung] > 0 {
			t.Errorf("%d plans hang", ends[hung])
		}
	})
}

// leadStore leads a store to some targets, one after another, that can be reached with the servers that live.
func leadStore(t *testing.T, seed int64, targets int, seen, ends map[string]int) {
	d := newStore(t, seed)
	for targets > 0 {
		task := storeTask{[]library.Strategy{library.LearnersFirst, library.OneAtATime}[d.chance.Intn(2)], d.target()}
		if len(task.target.VotersOutgoing) > 0 {
			task.strategy = library.LearnersFirst
		}
		if _, stalls, err := pathOf(task.strategy, d.state, task.target, d.dead()); err != nil || stalls {
			continue
		}
		targets--
		how := d.carryOut(task)
		ends[how]++
		if how != ended && how != wayOut {
			t.Logf("%s: PreVote %v, CheckQuorum %v", how, d.preVote, d.checkQuorum)
			break
		}
	}
	for kind, times := range d.seen {
		seen[kind] += times
	}
}
