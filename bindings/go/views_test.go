//go:build cgo

package confscript

import (
	"errors"
	"fmt"
	"strings"
	"testing"
)

// A fakeNode has what Views asks of a RawNode and of its Storage. Its log begins at index 1; true is a change.
type fakeNode struct {
	term, commit, applied uint64
	cut                   uint64 // up to here the log was dropped
	leads                 bool
	progress              map[uint64]uint64
	log                   []bool
	proposed              int
	err                   error
}

type fakeStatus struct{ text string }

func (status fakeStatus) MarshalJSON() ([]byte, error) { return []byte(status.text), nil }

// Status has the layout of raft's, with ids as hexadecimal digits. The server is 10.
func (node *fakeNode) Status() fakeStatus {
	state, members := "StateFollower", []string{}
	if node.leads {
		state = "StateLeader"
	}
	for id, match := range node.progress {
		members = append(members, fmt.Sprintf(`"%x":{"match":%d,"next":%d,"state":"StateReplicate"}`, id, match, match+1))
	}
	return fakeStatus{fmt.Sprintf(`{"id":"a","term":%d,"vote":"a","commit":%d,"lead":"a","raftState":%q,"applied":%d,"progress":{%s},"leadtransferee":"0"}`,
		node.term, node.commit, state, node.applied, strings.Join(members, ","))}
}

func (node *fakeNode) Propose(data []byte) error {
	node.proposed++
	return nil
}

func (node *fakeNode) LastIndex() (uint64, error) { return uint64(len(node.log)), node.err }

func (node *fakeNode) FirstIndex() (uint64, error) { return node.cut + 1, node.err }

func (node *fakeNode) Entries(from, to, maxSize uint64) (entries []fakeEntry, err error) {
	if from <= node.cut {
		return nil, fmt.Errorf("entry %d was dropped", from)
	}
	for index := from; index < to; index++ {
		entries = append(entries, fakeEntry{node.log[index-1]})
	}
	return entries, nil
}

// A fakeEntry is marshaled as a raftpb.Entry, whose first field is its type.
type fakeEntry struct{ isChange bool }

func (entry *fakeEntry) Marshal() ([]byte, error) {
	kind := byte(0)
	if entry.isChange {
		kind = 2
	}
	return []byte{1 << 3, kind, 2 << 3, 1, 4<<3 | 2, 1, 'x'}, nil
}

// leading returns a node that leads (10 17) in term 2, all of whose log of 5 entries is applied, and its views.
func leading() (*fakeNode, *Views) {
	node := &fakeNode{term: 2, commit: 5, applied: 5, leads: true, progress: map[uint64]uint64{17: 4}, log: make([]bool, 3)}
	views := NewViews[fakeStatus, fakeEntry](node, node, 10)
	views.Applied(3, ConfState{Voters: ids(10, 17)})
	node.saved(views, false, false)
	return node, views
}

// viewOf returns a view that there has to be.
func viewOf(t *testing.T, views *Views) View {
	t.Helper()
	view, err := views.View()
	if err != nil {
		t.Fatal(err)
	}
	return view
}

// saved adds entries to the log of a node, all of them saved.
func (node *fakeNode) saved(views *Views, entries ...bool) {
	node.log = append(node.log, entries...)
	node.progress[10] = uint64(len(node.log))
	views.Saved()
}

func TestViewOfFollower(t *testing.T) {
	node, views := leading()
	node.leads, node.progress = false, nil
	if view := viewOf(t, views); view.Lead != 0 || len(view.Progress) > 0 || view.Commit != 5 || !view.ConfState.Equal(ConfState{Voters: ids(10, 17)}) {
		t.Errorf("%+v", view)
	}
}

// TestViewIsHeardFrom has a member that was heard from, and is silent for more ticks than an election takes.
func TestViewIsHeardFrom(t *testing.T) {
	_, views := leading()
	expect := func(when string, want bool) {
		view := viewOf(t, views)
		if view.Lead != 10 || view.Progress[10] != (Progress{5, true}) || view.Progress[17] != (Progress{4, want}) {
			t.Errorf("%s: %+v", when, view)
		}
	}
	expect("at first", false)
	views.Heard(17)
	expect("at once", true)
	for i := 0; i < 10; i++ {
		views.Ticked()
	}
	expect("after 10 ticks", true)
	views.Ticked()
	expect("after 11 ticks", false)
	views.Heard(17)
	expect("after another message", true)
}

// TestViewIsOfSaved has entries that the leader counts for itself before they are on disk.
func TestViewIsOfSaved(t *testing.T) {
	node, views := leading()
	node.progress[10] = 6 // as raft does once it is proposed
	if view, err := views.View(); err != ErrUnsaved {
		t.Errorf("proposed: %+v, %v", view, err)
	}
	node.log = append(node.log, false) // before Saved is called
	if view, err := views.View(); err != ErrUnsaved {
		t.Errorf("not reported: %+v, %v", view, err)
	}
	views.Saved()
	if view := viewOf(t, views); view.Progress[10].Match != 6 {
		t.Errorf("saved: %+v", view)
	}
	// A removed leader has no progress of its own.
	views.Applied(6, ConfState{Voters: ids(17)})
	delete(node.progress, 10)
	if view := viewOf(t, views); view.Lead != 10 || len(view.Progress) != 1 || view.ConfIndex != 7 {
		t.Errorf("removed: %+v", view)
	}
}

// TestViewConfIndex has who knows the configuration: at the beginning of a term who has its last entry, after a change who
// has an entry that follows. If none does, one is proposed.
func TestViewConfIndex(t *testing.T) {
	node, views := leading()
	expect := func(when string, index uint64, proposed int) {
		t.Helper()
		if view := viewOf(t, views); view.ConfIndex != index || node.proposed != proposed {
			t.Errorf("%s: %+v, %d proposed", when, view, node.proposed)
		}
	}
	expect("elected", 5, 0)
	node.saved(views, true, false)
	expect("later", 5, 0)
	node.applied = 6
	views.Applied(6, ConfState{Voters: ids(10)})
	expect("changed", 8, 1)
	expect("changed, and raft dropped the entry", 8, 2)
	node.saved(views, false, false)
	expect("followed", 8, 2)
	node.term = 3
	node.saved(views, false)
	expect("elected once more", 10, 2)
	// The log of a follower may have had more entries when it applied a change than when it begins to lead.
	node.saved(views, false, false)
	views.Applied(7, ConfState{Voters: ids(10)})
	node.log = node.log[:10]
	node.term = 4
	node.saved(views)
	expect("elected with a shorter log", 11, 3)
}

// TestViewPending has a change in the log from before the term, then one of the term. It is pending until it is applied.
func TestViewPending(t *testing.T) {
	node, views := leading()
	expect := func(when string, index uint64) {
		t.Helper()
		if view := viewOf(t, views); view.PendingConfIndex != index {
			t.Errorf("%s: %+v", when, view)
		}
	}
	node.applied = 3
	node.saved(views, true, false)
	expect("at first", 6)
	node.saved(views, false)
	expect("with more entries", 6)
	views.Applied(6, ConfState{Voters: ids(10)})
	expect("applied, and Advance was not called", 0)
	node.applied, node.cut = 8, 8
	node.saved(views, false, true)
	expect("another change, and the log was cut", 10)
	node.term, node.log = 3, append(node.log[:9], false)
	node.saved(views)
	expect("replaced by a new leader", 0)
}

// TestViewsFail reports a log that cannot be read, and a ConfState that is none.
func TestViewsFail(t *testing.T) {
	node, views := leading()
	node.err = errors.New("torn")
	views.Saved()
	node.err = nil
	if view, err := views.View(); err == nil || err.Error() != "torn" {
		t.Errorf("%+v, %v", view, err)
	}
	_, views = leading()
	views.Applied(4, &notAMessage{})
	if view, err := views.View(); err == nil {
		t.Errorf("%+v", view)
	}
}

type notAMessage struct{}

func (*notAMessage) Marshal() ([]byte, error) { return []byte{7}, nil }
