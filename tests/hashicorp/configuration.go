package hashicorp

import (
	"fmt"
	"sort"
	"strconv"
	"strings"

	"github.com/hashicorp/raft"
)

// A configuration has voters and learners, as JSON of confscript has them. hashicorp/raft has no joint ones, and calls a
// learner a nonvoter.
type configuration struct {
	Voters         []uint64 `json:"voters"`
	Learners       []uint64 `json:"learners"`
	VotersOutgoing []uint64 `json:"voters_outgoing"`
	LearnersNext   []uint64 `json:"learners_next"`
	AutoLeave      bool     `json:"auto_leave"`
}

func (c configuration) members() []uint64 {
	return append(append([]uint64(nil), c.Voters...), c.Learners...)
}

// text returns the line that confscript reads and prints, with ascending ids.
func (c configuration) text() string {
	text := "voters=(" + list(c.Voters) + ")"
	if len(c.Learners) > 0 {
		text += " learners=(" + list(c.Learners) + ")"
	}
	return text
}

func list(ids []uint64) string {
	ids = append([]uint64(nil), ids...)
	sort.Slice(ids, func(i, j int) bool { return ids[i] < ids[j] })
	return strings.Trim(fmt.Sprint(ids), "[]")
}

func (c configuration) servers() raft.Configuration {
	var found raft.Configuration
	for _, id := range c.members() {
		suffrage := raft.Nonvoter
		if holds(c.Voters, id) {
			suffrage = raft.Voter
		}
		found.Servers = append(found.Servers, raft.Server{Suffrage: suffrage, ID: name(id), Address: address(id)})
	}
	return found
}

// configurationOf returns the last configuration that a server has.
func configurationOf(s *server) (found configuration) {
	for _, each := range s.GetConfiguration().Configuration().Servers {
		id, err := strconv.ParseUint(string(each.ID), 10, 64)
		switch {
		case err != nil || each.Address != address(id):
			panic(fmt.Sprint("a server ", each))
		case each.Suffrage == raft.Voter:
			found.Voters = append(found.Voters, id)
		default:
			found.Learners = append(found.Learners, id)
		}
	}
	return found
}

func holds(ids []uint64, id uint64) bool {
	for _, other := range ids {
		if other == id {
			return true
		}
	}
	return false
}

// without returns the ids that are not in a list.
func without(ids, list []uint64) (left []uint64) {
	for _, id := range ids {
		if !holds(list, id) {
			left = append(left, id)
		}
	}
	return left
}
