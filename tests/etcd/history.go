package etcd

import pb "go.etcd.io/etcd/raft/raftpb"

// A history is what the members of a cluster have shown so far. A member that contradicts it ends the test: a second
// leader of a term, another entry at an index, another configuration after an entry.
type history struct {
	t            reporter
	leaders      map[uint64]uint64       // by term
	entries      map[uint64]applied      // by index
	states       map[uint64]pb.ConfState // after each change, by index
	changed      []pb.ConfState          // the same, since the last call of taken
	acknowledged []string                // the entries that some member has applied, but for changes and empty entries
}

// An applied entry, without its index.
type applied struct {
	term uint64
	data string
}

func newHistory(t reporter) *history {
	return &history{t: t, leaders: map[uint64]uint64{}, entries: map[uint64]applied{}, states: map[uint64]pb.ConfState{}}
}

// leads sees that a member leads in a term.
func (h *history) leads(term, id uint64) {
	if other, ok := h.leaders[term]; ok && other != id {
		h.t.Fatalf("%d and %d both lead term %d", other, id, term)
	}
	h.leaders[term] = id
}

// applies sees that a member applies an entry.
func (h *history) applies(id uint64, entry pb.Entry) {
	next := applied{entry.Term, string(entry.Data)}
	first, ok := h.entries[entry.Index]
	if ok && first != next {
		h.t.Fatalf("%d applies %v at %d, where another applied %v", id, next, entry.Index, first)
	}
	if !ok {
		h.entries[entry.Index] = next
		if entry.Type == pb.EntryNormal && next.data != "" {
			h.acknowledged = append(h.acknowledged, next.data)
		}
	}
}

// becomes sees the configuration of a member after a change.
func (h *history) becomes(id, index uint64, state pb.ConfState) {
	first, ok := h.states[index]
	if ok && !isSame(first, state) {
		h.t.Fatalf("%d has after the change at %d\n%s\nwhere another had\n%s", id, index, describe(state), describe(first))
	}
	if !ok {
		h.states[index] = state
		h.changed = append(h.changed, state)
	}
}

// taken returns the configurations after the changes since the last call.
func (h *history) taken() []pb.ConfState {
	changed := h.changed
	h.changed = nil
	return changed
}
