//go:build ignore

// The decisions of etcd's package quorum. They collect what each voter has acknowledged or voted; confscript decides.
package quorum

import "confscript"

// fewVoters is how many voters of both sets are collected without an allocation.
const fewVoters = 16

// CommittedIndex returns the index that a majority of the set has acknowledged.
func (c MajorityConfig) CommittedIndex(l AckedIndexer) Index {
	return committedByConfscript(c, nil, l)
}

// CommittedIndex returns the index that majorities of both sets have acknowledged.
func (c JointConfig) CommittedIndex(l AckedIndexer) Index {
	return committedByConfscript(c[0], c[1], l)
}

func committedByConfscript(incoming, outgoing MajorityConfig, l AckedIndexer) Index {
	first, count := len(incoming), len(incoming)+len(outgoing)
	if count <= confscript.FewVoters {
		var few [confscript.FewVoters]uint64
		incoming.collect(few[:first], l)
		outgoing.collect(few[first:count], l)
		return Index(confscript.CommittedOfFew(&few, first, count-first))
	}
	acked := make([]uint64, fewVoters)
	if count > fewVoters {
		acked = make([]uint64, count)
	}
	incoming.collect(acked[:first], l)
	outgoing.collect(acked[first:count], l)
	return Index(confscript.CommittedIndex(acked[:first], acked[first:count]))
}

// collect sets the elements of a list, which are 0, to the index that each voter has acknowledged, as far as one is known.
func (c MajorityConfig) collect(acked []uint64, l AckedIndexer) {
	if len(acked) == 0 {
		return
	}
	i := 0
	for id := range c {
		if index, found := l.AckedIndex(id); found {
			acked[i] = uint64(index)
		}
		i++
	}
}

// VoteResult returns the result of a vote by the set.
func (c MajorityConfig) VoteResult(votes map[uint64]bool) VoteResult {
	return JointConfig{c}.VoteResult(votes)
}

// VoteResult returns the result of a vote by both sets.
func (c JointConfig) VoteResult(votes map[uint64]bool) VoteResult {
	var few [fewVoters]confscript.Ballot
	ballots := appendBallots(few[:0], c[0], votes)
	ballots = appendBallots(ballots, c[1], votes)
	switch confscript.TallyVotes(ballots[:len(c[0])], ballots[len(c[0]):]) {
	case confscript.VoteWon:
		return VoteWon
	case confscript.VoteLost:
		return VoteLost
	default:
		return VotePending
	}
}

// appendBallots appends the ballot of each voter.
func appendBallots(ballots []confscript.Ballot, voters MajorityConfig, votes map[uint64]bool) []confscript.Ballot {
	for id := range voters {
		yes, voted := votes[id]
		ballots = append(ballots, ballot(yes, voted))
	}
	return ballots
}

func ballot(yes, voted bool) confscript.Ballot {
	switch {
	case !voted:
		return confscript.NotVoted
	case yes:
		return confscript.VotedYes
	default:
		return confscript.VotedNo
	}
}
