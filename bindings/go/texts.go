//go:build cgo

package confscript

import (
	"fmt"
	"sort"
	"strings"
)

// The names of the program, by number.
var (
	strategyNames = []string{"shortest", "learners-first", "one-at-a-time"}
	outputNames   = []string{"steps", "table", "json"}
	voteNames     = []string{"VotePending", "VoteLost", "VoteWon"}
	ballotNames   = []string{"VotedNo", "VotedYes", "NotVoted"}
)

// String returns the name that the program has for the strategy, or the number of another one.
func (strategy Strategy) String() string { return nameIn(strategyNames, int32(strategy)) }

// String returns the name that the program has for the output, or the number of another one.
func (output Output) String() string { return nameIn(outputNames, int32(output)) }

// String returns the name of the result, as etcd's package quorum has it, or the number of another one.
func (result VoteResult) String() string { return nameIn(voteNames, int32(result)) }

// String returns the name of the ballot, or the number of another one.
func (ballot Ballot) String() string { return nameIn(ballotNames, int32(ballot)) }

// String returns the configuration as the program prints it and Plan reads it, such as
// "voters=(1 2)&&(1 2 3) learners=(4) learners_next=(3) autoleave", with its ids in ascending order.
func (state ConfState) String() string {
	var text strings.Builder
	fmt.Fprintf(&text, "voters=%s", set(state.Voters))
	names := []string{"&&", " learners=", " learners_next="}
	for i, ids := range [][]uint64{state.VotersOutgoing, state.Learners, state.LearnersNext} {
		if len(ids) > 0 {
			text.WriteString(names[i] + set(ids))
		}
	}
	if state.AutoLeave {
		text.WriteString(" autoleave")
	}
	return text.String()
}

// Equal returns whether two configurations are the same, in whatever order their lists have the ids.
func (state ConfState) Equal(other ConfState) bool { return state.String() == other.String() }

// set returns the ids in ascending order, in parentheses.
func set(ids []uint64) string {
	ids = append([]uint64(nil), ids...)
	sort.Slice(ids, func(i, j int) bool { return ids[i] < ids[j] })
	return "(" + strings.Trim(fmt.Sprint(ids), "[]") + ")"
}

// String returns the proposal, where it leads, and what the other fields say there.
func (stage Stage) String() string {
	return fmt.Sprintf("%v -> %v catch up %s, may be down %s, until then %s, besides %s", stage.ConfChange, stage.ConfState, set(stage.CatchingUp),
		countText(stage.MayBeDown), countText(stage.UntilThen), countText(stage.MayBeDownBesides))
}

// countText returns how many ids may be down, or "-" if there is no such number.
func countText(count *uint64) string {
	if count == nil {
		return "-"
	}
	return fmt.Sprint(*count)
}
