package etcd

import (
	"fmt"
	"math"
	"math/rand"
	"strings"

	"go.etcd.io/etcd/raft"
	pb "go.etcd.io/etcd/raft/raftpb"
)

// A scriptMaker makes directives of every command over a pool of ids. What README.md names as left out is not
// made.
type scriptMaker struct {
	chance *rand.Rand
	ids    []uint64
	script strings.Builder
}

// script returns a script with this number of directives, the same in each run.
func script(seed int64, directives int) string {
	chance := rand.New(rand.NewSource(seed))
	count := []int{3, 5, 7, 12, 20}[chance.Intn(5)]
	if seed%12 == 0 {
		count = 150
	}
	maker := &scriptMaker{chance: chance, ids: pool(chance, count, seed%3 == 1)}
	for i := 0; i < directives; i++ {
		maker.between()
		maker.directive()
	}
	return maker.script.String()
}

// one is true with a chance of one in count.
func (m *scriptMaker) one(count int) bool {
	return m.chance.Intn(count) == 0
}

func (m *scriptMaker) line(format string, values ...interface{}) {
	fmt.Fprintf(&m.script, format+"\n", values...)
}

// between writes a comment or a blank line now and then.
func (m *scriptMaker) between() {
	if m.one(20) {
		m.line("# comment %d", m.chance.Intn(100))
	}
	if m.one(20) {
		m.line("")
	}
}

func (m *scriptMaker) directive() {
	switch roll := m.chance.Intn(100); {
	case roll < 20:
		m.line("simple")
		m.changes()
	case roll < 33:
		m.line("enter-joint%s", m.argument("autoleave=true", "autoleave=false", "autoleave=(true)"))
		m.changes()
	case roll < 48:
		m.line("leave-joint")
		if m.one(10) {
			m.changes()
		}
	case roll < 60:
		m.line("conf-change%s", m.argument("transition=auto", "transition=implicit", "transition=explicit"))
		if !m.one(3) {
			m.changes()
		}
	case roll < 65:
		m.line("conf-state")
	case roll < 69:
		m.line("restore")
		m.line("%s", raft.DescribeConfState(m.saved()))
	case roll < 73:
		m.line("undo%s", m.argument("steps=1", "steps=2", "steps=3", "steps=7", "steps=100"))
	case roll < 83:
		m.line("ack id=%d index=%d", oneOf(m.chance, m.ids), m.index()-1)
	case roll < 87:
		m.line("commit-index")
	case roll < 93:
		m.quorum("committed", "idx", func() string { return fmt.Sprint(m.index()) })
	case roll < 99:
		m.quorum("vote", "votes", func() string { return []string{"y", "n"}[m.chance.Intn(2)] })
	default:
		m.line("frob")
		m.changes()
	}
	m.line("----\n")
}

// argument writes one of the arguments, now and then on a line of its own, or none.
func (m *scriptMaker) argument(choices ...string) string {
	if m.one(3) {
		return ""
	}
	return []string{" ", " ", " \\\n  "}[m.chance.Intn(3)] + choices[m.chance.Intn(len(choices))]
}

// noChanges are tokens that are no change.
var noChanges = []string{"v", "7", "x1", "1v", "lx", "r-1", "u+2", "v1,l2", "é1", "vé", "v18446744073709551616"}

// changes writes a line or two of changes. Most are few; some name the id 0, and some are no changes.
func (m *scriptMaker) changes() {
	count := m.chance.Intn(5)
	if m.one(4) {
		count = 1
	} else if m.one(10) {
		count = m.chance.Intn(2 * len(m.ids))
	}
	var tokens []string
	for _, change := range changeList(m.chance, m.ids, count) {
		token := pb.ConfChangesToString([]pb.ConfChangeSingle{change})
		switch {
		case m.one(40):
			token = token[:1] + "0"
		case m.one(40):
			token = token[:1] + "00" + token[1:]
		case m.one(200):
			token = noChanges[m.chance.Intn(len(noChanges))]
		}
		tokens = append(tokens, token)
	}
	if len(tokens) > 0 {
		m.line("%s", strings.Join(tokens, []string{" ", " ", "  ", "\n"}[m.chance.Intn(4)]))
	}
}

// saved returns a ConfState; one in four is broken in some way.
func (m *scriptMaker) saved() pb.ConfState {
	state := configuration(m.chance, m.ids)
	if !m.one(4) {
		return state
	}
	lists := []*[]uint64{&state.Voters, &state.VotersOutgoing, &state.Learners, &state.LearnersNext}
	list := lists[m.chance.Intn(4)]
	switch m.chance.Intn(6) {
	case 0:
		*list = append(*list, 0)
	case 1:
		*list = append(*list, oneOf(m.chance, m.ids))
	case 2:
		*list = append(*list, *list...)
	case 3:
		*list = nil
	case 4:
		state.AutoLeave = !state.AutoLeave
	default:
		return pb.ConfState{}
	}
	return state
}

// index returns an index from 1, often a small one, and now and then the greatest.
func (m *scriptMaker) index() uint64 {
	switch {
	case m.one(30):
		return math.MaxUint64
	case m.one(10):
		return 1 + m.chance.Uint64()>>uint(1+m.chance.Intn(63))
	default:
		return 1 + uint64(m.chance.Intn(9))
	}
}

// quorum writes a directive with a quorum of its own and a value for each of its ids, which may be missing. Now and
// then there is a value too many or too few.
func (m *scriptMaker) quorum(command, key string, value func() string) {
	var ids []uint64
	line := command
	for _, half := range []string{"cfg", "cfgj"} {
		chosen := some(m.chance, m.ids, len(m.ids))
		switch {
		case half == "cfgj" && m.one(2):
			continue
		case len(chosen) > 0:
			if m.one(10) {
				chosen = append(chosen, chosen[0])
			}
			var words []string
			for _, id := range chosen {
				words = append(words, fmt.Sprint(id))
			}
			line += " " + half + m.list(words)
		case half == "cfgj":
			line += " cfgj=zero"
		}
		ids = append(ids, chosen...)
	}
	var values []string
	for i, id := range ids {
		if !holds(ids[:i], id) {
			values = append(values, value())
			if m.one(4) {
				values[len(values)-1] = "_"
			}
		}
	}
	if m.one(50) {
		values = append(values, "_")
	} else if m.one(50) && len(values) > 0 {
		values = values[1:]
	}
	if len(values) > 0 {
		line += " " + key + m.list(values)
	}
	m.line("%s", line)
}

// list writes the values of an argument in one of the ways that datadriven reads.
func (m *scriptMaker) list(words []string) string {
	if len(words) == 1 && m.one(2) {
		return "=" + words[0]
	}
	return "=(" + strings.Join(words, []string{",", ", "}[m.chance.Intn(2)]) + ")"
}
