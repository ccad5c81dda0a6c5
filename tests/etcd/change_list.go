package etcd

import (
	"fmt"
	"strconv"
	"strings"

	pb "go.etcd.io/etcd/raft/raftpb"
)

var kinds = map[byte]pb.ConfChangeType{
	'v': pb.ConfChangeAddNode,
	'l': pb.ConfChangeAddLearnerNode,
	'r': pb.ConfChangeRemoveNode,
	'u': pb.ConfChangeUpdateNode,
}

// readChanges reads a list of changes, as etcd's test of confchange does. Two things are translated: etcd's test
// takes a single space for a separator, confscript any white space; and etcd's text for a bad number is Go's.
func readChanges(text string) ([]pb.ConfChangeSingle, error) {
	var changes []pb.ConfChangeSingle
	for _, token := range strings.Fields(text) {
		if len(token) < 2 {
			return nil, fmt.Errorf("unknown token %s", token)
		}
		kind, ok := kinds[token[0]]
		if !ok {
			return nil, fmt.Errorf("unknown input: %s", token)
		}
		id, err := strconv.ParseUint(token[1:], 10, 64)
		if err != nil {
			return nil, fmt.Errorf("bad number: %s", token)
		}
		changes = append(changes, pb.ConfChangeSingle{Type: kind, NodeID: id})
	}
	return changes, nil
}
