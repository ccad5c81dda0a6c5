package etcd

import (
	"testing"

	"github.com/cockroachdb/datadriven"
	"go.etcd.io/etcd/raft/quorum"
)

// A quorum that the arguments of committed or vote name, and what they give to its ids: an index, or 1 for no and 2
// for yes. What is not known is not in the map.
type quorumGiven struct {
	voters   quorum.JointConfig
	given    map[uint64]quorum.Index
	mismatch bool // there are more or fewer values than ids
}

var votes = map[string]quorum.Index{"_": 0, "n": 1, "y": 2}

// readQuorum reads the arguments as etcd's test of quorum does.
func readQuorum(t *testing.T, d *datadriven.TestData) quorumGiven {
	var ids [2][]uint64
	var values []quorum.Index
	for _, argument := range d.CmdArgs {
		for i, value := range argument.Vals {
			var number uint64
			switch {
			case argument.Key == "votes":
				values = append(values, votes[value])
				continue
			case value == "zero":
				continue
			case value != "_":
				argument.Scan(t, i, &number)
			}
			switch argument.Key {
			case "cfg":
				ids[0] = append(ids[0], number)
			case "cfgj":
				ids[1] = append(ids[1], number)
			case "idx":
				values = append(values, quorum.Index(number))
			}
		}
	}
	read := quorumGiven{given: map[uint64]quorum.Index{}}
	given := 0
	seen := map[uint64]bool{}
	for half, list := range ids {
		read.voters[half] = quorum.MajorityConfig{}
		for _, id := range list {
			read.voters[half][id] = struct{}{}
			if seen[id] {
				continue
			}
			seen[id] = true
			if given < len(values) && values[given] != 0 {
				read.given[id] = values[given]
			}
			given++
		}
	}
	read.mismatch = given != len(values)
	return read
}

// AckedIndex makes the values that are given those that were acknowledged.
func (q quorumGiven) AckedIndex(id uint64) (quorum.Index, bool) {
	index, ok := q.given[id]
	return index, ok
}

func (q quorumGiven) committed() string {
	if q.mismatch {
		return "wrong number of values"
	}
	return q.voters.Describe(q) + q.voters.CommittedIndex(q).String()
}

func (q quorumGiven) vote() string {
	if q.mismatch {
		return "wrong number of values"
	}
	cast := map[uint64]bool{}
	for id, value := range q.given {
		cast[id] = value == votes["y"]
	}
	return q.voters.VoteResult(cast).String()
}
