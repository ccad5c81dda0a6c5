//go:build cgo

package confscript

// #include "confscript.h"
import "C"

// VoteResult is the result of a vote.
type VoteResult uint64

// The results of a vote.
const (
	VotePending VoteResult = C.CONFSCRIPT_VOTE_PENDING
	VoteLost    VoteResult = C.CONFSCRIPT_VOTE_LOST
	VoteWon     VoteResult = C.CONFSCRIPT_VOTE_WON
)

// Ballot is the vote of a voter.
type Ballot uint8

// The ballots.
const (
	VotedNo  Ballot = C.CONFSCRIPT_BALLOT_NO
	VotedYes Ballot = C.CONFSCRIPT_BALLOT_YES
	NotVoted Ballot = C.CONFSCRIPT_BALLOT_NOT_CAST
)

// FewVoters is how many voters CommittedOfFew takes, those of both sets together.
const FewVoters = len(fewIndexes{})

// CommittedOfFew is CommittedIndex for a few voters, in the least time: the array has the indexes of the incoming voters and
// then those of the outgoing ones, as many as the numbers say.
func CommittedOfFew(indexes *[FewVoters]uint64, incoming, outgoing int) uint64 {
	// There are as many, or else this panics.
	_ = indexes[incoming:][:outgoing]
	return committedOfFew(indexes, incoming, outgoing)
}

// CommittedIndex returns the committed index of a voter set, or of a joint pair, from the index that each voter has
// acknowledged, 0 if none is known. It is 2^64-1 if there are no voters. Each index counts as that of another voter.
func CommittedIndex(incoming, outgoing []uint64) uint64 {
	count := len(incoming) + len(outgoing)
	if count <= FewVoters {
		var few [FewVoters]uint64
		copy(few[copy(few[:], incoming):], outgoing)
		return CommittedOfFew(&few, len(incoming), len(outgoing))
	}
	var more moreIndexes
	if count <= len(more) {
		copy(more[copy(more[:], incoming):], outgoing)
		return committedOfMore(&more, len(incoming), len(outgoing))
	}
	// The arguments themselves are not passed to C, which would move those of every caller to the heap.
	all := append(append(make([]uint64, 0, count), incoming...), outgoing...)
	return committedOf(all[:len(incoming)], all[len(incoming):])
}

// TallyVotes returns the result of a vote by a voter set, or by a joint pair, from the ballot of each voter. It is VoteWon
// if there are no voters. Each ballot counts as that of another voter. A value that is not a ballot counts as NotVoted.
func TallyVotes(incoming, outgoing []Ballot) VoteResult {
	var few fewBallots
	if len(incoming)+len(outgoing) <= len(few) {
		for i, ballot := range incoming {
			few[i] = cast(ballot)
		}
		for i, ballot := range outgoing {
			few[len(incoming)+i] = cast(ballot)
		}
		return voteOfFew(&few, len(incoming), len(outgoing))
	}
	return voteOf(castAll(incoming), castAll(outgoing))
}

func cast(ballot Ballot) Ballot {
	if ballot > NotVoted {
		return NotVoted
	}
	return ballot
}

func castAll(ballots []Ballot) []byte {
	all := make([]byte, len(ballots))
	for i, ballot := range ballots {
		all[i] = byte(cast(ballot))
	}
	return all
}

// Committed returns the committed index of a voter set, or of a joint pair. The map has the index that each id has
// acknowledged; it is 0 for any other id. The committed index is 2^64-1 if there are no voters. A voter that a list
// names twice counts once.
func Committed(incoming, outgoing []uint64, acknowledged map[uint64]uint64) uint64 {
	index := func(id uint64) uint64 { return acknowledged[id] }
	return CommittedIndex(ofEach(incoming, index), ofEach(outgoing, index))
}

// Vote returns the result of a vote by a voter set, or by a joint pair. The map has the vote of each id that has voted. The
// vote is won if there are no voters. A voter that a list names twice counts once.
func Vote(incoming, outgoing []uint64, votes map[uint64]bool) VoteResult {
	ballot := func(id uint64) Ballot { return BallotOf(votes, id) }
	return TallyVotes(ofEach(incoming, ballot), ofEach(outgoing, ballot))
}

// ofEach returns the value of each voter, once if it is named twice.
func ofEach[T any](voters []uint64, value func(id uint64) T) []T {
	counted := make(map[uint64]bool, len(voters))
	values := make([]T, 0, len(voters))
	for _, id := range voters {
		if !counted[id] {
			counted[id] = true
			values = append(values, value(id))
		}
	}
	return values
}

// BallotOf returns the ballot of an id, of a map that has the vote of each id that has voted.
func BallotOf(votes map[uint64]bool, id uint64) Ballot {
	yes, voted := votes[id]
	switch {
	case !voted:
		return NotVoted
	case yes:
		return VotedYes
	default:
		return VotedNo
	}
}

// MayBeDown returns how many ids may be down, whichever they are, while the other voters are a quorum, for which those
// in down do not count. A voter that a list names twice counts once. If the voters that count are not a quorum even
// when all are up, as if there are none, the error wraps ErrNoQuorum.
func MayBeDown(incoming, outgoing, down []uint64) (uint64, error) {
	return number(callMayBeDown(incoming, outgoing, down))
}
