//go:build cgo

package confscript

import (
	"math"
	"testing"
)

func TestCommittedIndex(t *testing.T) {
	many := make([]uint64, 1001)
	for i := range many {
		many[i] = uint64(len(many) - i)
	}
	for _, row := range []struct {
		incoming, outgoing []uint64
		index              uint64
	}{
		{nil, nil, math.MaxUint64},
		{[]uint64{7}, nil, 7},
		{[]uint64{9, 0, 7}, nil, 7},
		{[]uint64{9, 9, 7, 7}, nil, 7},
		{[]uint64{9, 0, 7}, []uint64{5}, 5},
		{[]uint64{4}, []uint64{9, 8, math.MaxUint64}, 4},
		{nil, []uint64{3}, 3},
		{many, nil, 501},
		{many[:17], many[:16], 993},
		{many[:8], many[8:16], 989},
		{many[:9], nil, 997},
	} {
		incoming := append([]uint64(nil), row.incoming...)
		if index := CommittedIndex(row.incoming, row.outgoing); index != row.index {
			t.Errorf("CommittedIndex of %v and %v: %d, and not %d", row.incoming, row.outgoing, index, row.index)
		}
		for i := range incoming {
			if row.incoming[i] != incoming[i] {
				t.Fatalf("CommittedIndex changed its argument: %v", row.incoming)
			}
		}
	}
}

func TestTallyVotes(t *testing.T) {
	many := make([]Ballot, 1001)
	for i := range many {
		many[i] = VotedYes
	}
	for _, row := range []struct {
		incoming, outgoing []Ballot
		result             VoteResult
	}{
		{nil, nil, VoteWon},
		{[]Ballot{VotedYes, VotedYes, NotVoted}, nil, VoteWon},
		{[]Ballot{VotedYes, VotedNo, NotVoted}, nil, VotePending},
		{[]Ballot{VotedNo, VotedNo, NotVoted}, nil, VoteLost},
		{[]Ballot{VotedYes, VotedYes, VotedNo, VotedNo}, nil, VoteLost},
		{[]Ballot{VotedYes}, []Ballot{NotVoted}, VotePending},
		{[]Ballot{VotedYes}, []Ballot{VotedNo}, VoteLost},
		{[]Ballot{VotedYes, VotedYes, 3}, []Ballot{VotedYes}, VoteWon},
		{[]Ballot{VotedYes, 3, 3}, nil, VotePending},
		{many, many[:17], VoteWon},
		{many, []Ballot{VotedNo}, VoteLost},
	} {
		if result := TallyVotes(row.incoming, row.outgoing); result != row.result {
			t.Errorf("TallyVotes of %d and %d ballots: %d, and not %d", len(row.incoming), len(row.outgoing), result, row.result)
		}
	}
}

func TestCommittedOfFew(t *testing.T) {
	values := [FewVoters]uint64{9, 0, 7, 5, 8, 6, 4, 1}
	for incoming := 0; incoming <= FewVoters; incoming++ {
		for outgoing := 0; incoming+outgoing <= FewVoters; outgoing++ {
			few := values
			index := CommittedOfFew(&few, incoming, outgoing)
			if want := CommittedIndex(values[:incoming], values[incoming:incoming+outgoing]); index != want || few != values {
				t.Errorf("CommittedOfFew of %d and %d: %d, and not %d; %v", incoming, outgoing, index, want, few)
			}
		}
	}
	for _, counts := range [][2]int{{FewVoters, 1}, {-1, 2}, {2, -1}, {1 << 62, 1 << 62}} {
		func() {
			defer func() {
				if recover() == nil {
					t.Errorf("%v voters are no panic", counts)
				}
			}()
			CommittedOfFew(&values, counts[0], counts[1])
		}()
	}
}

// TestVotersNamedTwice counts each voter once, however often a list names it.
func TestVotersNamedTwice(t *testing.T) {
	acknowledged := map[uint64]uint64{1: 9, 2: 7, 3: 5, 4: 3}
	for _, row := range []struct {
		incoming, outgoing []uint64
		index              uint64
	}{
		{ids(1, 1, 1, 2, 3), nil, 7},
		{ids(1, 2), ids(1, 1, 1, 3, 4, 4), 5},
	} {
		if index := Committed(row.incoming, row.outgoing, acknowledged); index != row.index {
			t.Errorf("Committed of %v and %v: %d, and not %d", row.incoming, row.outgoing, index, row.index)
		}
	}
	if result := Vote(ids(1, 1, 1, 2, 2, 3), nil, map[uint64]bool{1: true}); result != VotePending {
		t.Errorf("Vote: %d", result)
	}
	if result := Vote(ids(1, 1, 1, 2, 2), ids(3), map[uint64]bool{1: true, 2: true, 3: true}); result != VoteWon {
		t.Errorf("Vote: %d", result)
	}
	if count, err := MayBeDown(ids(1, 1, 1, 2, 3), nil, ids(1, 1)); err != nil || count != 0 {
		t.Errorf("MayBeDown: %d, %v", count, err)
	}
	if count, err := MayBeDown(ids(1, 1, 2, 2, 3, 3), nil, nil); err != nil || count != 1 {
		t.Errorf("MayBeDown: %d, %v", count, err)
	}
}

func TestFewValuesTakeNoMemory(t *testing.T) {
	indexes, ballots := []uint64{1, 2, 3, 4, 5}, []Ballot{VotedYes, NotVoted, VotedNo}
	if count := testing.AllocsPerRun(100, func() {
		CommittedIndex(indexes, indexes)
		TallyVotes(ballots, ballots)
	}); count != 0 {
		t.Errorf("%v allocations", count)
	}
}

func BenchmarkCommittedIndex(b *testing.B) {
	indexes := []uint64{5, 3, 4, 1, 2}
	for i := 0; i < b.N; i++ {
		CommittedIndex(indexes, nil)
	}
}
