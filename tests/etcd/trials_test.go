package etcd

import (
	"fmt"
	"os"
	"strconv"
	"testing"
)

// kindsOfTrials are what has to occur in trials, each at least five times.
var kindsOfTrials = []string{
	"a leader", "an append", "an entry is applied", "a change is applied", "a joint configuration",
	"a snapshot from the leader", "a restart before changes", "a restart beyond the snapshot", "a hard state is lost",
	"a leader is killed after it has sent", "a member is killed after it has applied",
}

// kindsOfRules are what the rules have to keep off, each at least five times.
var kindsOfRules = []string{"a campaign is kept off", "MsgTimeoutNow is kept off", "MsgSnap is kept off"}

// TestRulesKept runs 2,000 trials that keep the rules, or as many as the environment variable TRIALS says. No member may
// contradict another, or an invariant.
func TestRulesKept(t *testing.T) {
	count := 2000
	if given, err := strconv.Atoi(os.Getenv("TRIALS")); err == nil {
		count = given
	}
	seen := runTrials(t, count, func(seed int64) *trial { return newTrial(seed) })
	t.Run("each kind occurs", func(t *testing.T) { compareSeen(t, seen, append(kindsOfTrials, kindsOfRules...)) })
}

// TestWait leaves out six rules. Instead a change waits until each member has applied the one before, and a member
// stores a snapshot with each change. So no member is behind by more than one change, and nothing goes wrong.
func TestWait(t *testing.T) {
	seen := runTrials(t, 500, func(seed int64) *trial {
		trial := newTrial(seed, campaignRule, transferRule, snapshotRule, advanceRule, hardStateRule, syncRule)
		trial.waits = true
		return trial
	})
	t.Run("each kind occurs", func(t *testing.T) { compareSeen(t, seen, kindsOfTrials) })
}

// TestLook leaves out four rules. Instead a member campaigns only when it has applied all changes of its log but one. So nothing
// goes wrong, although members do not know what is committed of their logs.
func TestLook(t *testing.T) {
	seen := runTrials(t, 500, func(seed int64) *trial {
		trial := newTrial(seed, campaignRule, transferRule, hardStateRule, syncRule)
		trial.looks, trial.observer.anyCommit = true, true
		return trial
	})
	kinds := append([]string{"a campaign is kept off", "MsgTimeoutNow is kept off", "a campaign before changes"}, kindsOfTrials...)
	t.Run("each kind occurs", func(t *testing.T) { compareSeen(t, seen, kinds) })
}

// runTrials runs `count` trials, one a seed, and returns how often each kind of thing happened. None may end with a
// contradiction.
func runTrials(t *testing.T, count int, begin func(seed int64) *trial) map[string]int {
	seen := map[string]int{}
	for first := 0; first < count; first += 100 {
		t.Run(fmt.Sprint("seeds from ", first), func(t *testing.T) {
			for seed := first; seed < first+100 && seed < count; seed++ {
				trial := begin(int64(seed))
				if ended := trial.run(); ended != "" {
					t.Errorf("seed %d, round %d: %s", seed, trial.round, ended)
				}
				for kind, times := range trial.observer.seen {
					seen[kind] += times
				}
			}
		})
	}
	t.Log(seen)
	return seen
}

// TestRuleLeftOut leaves out one rule after another. Then one of the first 1,000 trials ends with a contradiction, but where
// raft keeps the rule by itself.
func TestRuleLeftOut(t *testing.T) {
	for _, leftOut := range []rule{campaignRule, transferRule, snapshotRule, advanceRule, hardStateRule, syncRule, applyRule, sendRule, appliedRule, cancelRule, diskRule} {
		if isKept(leftOut) {
			t.Run(string(leftOut), func(t *testing.T) {
				runTrials(t, 1000, func(seed int64) *trial { return newTrial(seed, leftOut) })
			})
			continue
		}
		t.Run(string(leftOut), func(t *testing.T) {
			for seed := int64(0); seed < 1000; seed++ {
				trial := newTrial(seed, leftOut)
				if ended := trial.run(); ended != "" {
					t.Logf("seed %d, round %d: %s", seed, trial.round, ended)
					return
				}
			}
			t.Error("no trial ends with a contradiction")
		})
	}
}
