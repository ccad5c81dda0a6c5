package etcd

import (
	"math/rand"

	pb "go.etcd.io/etcd/raft/raftpb"
)

// A network drops some of the messages that it is given, and delivers each of the others after some rounds. So they
// overtake each other.
type network struct {
	chance   *rand.Rand
	loss     float64 // the share of the messages that it drops
	doubling float64 // the share of the others that it delivers twice
	delay    int     // how many rounds a message takes at most
	slow     uint64  // messages to and from this one take longer
	cut      map[link]int
	carried  []carried
}

// A link is between two members, in one direction. It may be cut until a round.
type link struct{ from, to uint64 }

// A carried message is delivered in a round.
type carried struct {
	message pb.Message
	round   int
}

// send takes a message in a round, or drops it. What it carries shares no memory with the sender's log.
func (n *network) send(message pb.Message, round int) (isDropped bool) {
	if n.chance.Float64() < n.loss {
		return true
	}
	message.Entries = append([]pb.Entry(nil), message.Entries...)
	n.carried = append(n.carried, carried{message, round + n.takes(message)})
	if n.doubling > 0 && n.chance.Float64() < n.doubling {
		n.carried = append(n.carried, carried{message, round + n.takes(message)})
	}
	return false
}

// takes returns how many rounds a message takes.
func (n *network) takes(message pb.Message) int {
	rounds := 1 + n.chance.Intn(n.delay)
	if n.slow != 0 && (message.From == n.slow || message.To == n.slow) {
		rounds += 2 + n.chance.Intn(10)
	}
	return rounds
}

// receive returns the messages that are delivered in a round, in any order. Those on a link that is cut are lost.
func (n *network) receive(round int) []pb.Message {
	var received []pb.Message
	kept := n.carried[:0]
	for _, next := range n.carried {
		if next.round <= round {
			if round < n.cut[link{next.message.From, next.message.To}] {
				continue
			}
			received = append(received, next.message)
		} else {
			kept = append(kept, next)
		}
	}
	n.carried = kept
	n.chance.Shuffle(len(received), func(i, j int) { received[i], received[j] = received[j], received[i] })
	return received
}

// carries says whether a message of this type is on its way.
func (n *network) carries(kind pb.MessageType) bool {
	for _, next := range n.carried {
		if next.message.Type == kind {
			return true
		}
	}
	return false
}
