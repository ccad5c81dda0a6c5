//go:build cgo

package confscript

import (
	"encoding/json"
	"errors"
	"math"
	"strconv"
)

// ErrUnsaved is the error of a View that is asked for between raft's Ready and its saving: the leader counts entries there
// that a crash takes back.
var ErrUnsaved = errors.New("confscript: no view, since a Ready is not saved")

// Node is what Views needs of a raft.RawNode; S is its raft.Status.
type Node[S json.Marshaler] interface {
	Status() S
	Propose(data []byte) error
}

// Log is what Views needs of a raft.Storage; E is its raftpb.Entry.
type Log[E any] interface {
	FirstIndex() (uint64, error)
	LastIndex() (uint64, error)
	Entries(from, to, maxSize uint64) ([]E, error)
}

// Views makes the View of a server out of its RawNode, of any version of etcd's raft. The goroutine that owns the node
// reports what it does, each time once that is done:
//
//	views.Saved()                        // what a Ready holds is on disk, and in the Storage
//	views.Applied(entry.Index, confState) // ApplyConfChange returned this, or a snapshot with it was restored
//	views.Heard(message.From)            // after Step
//	views.Ticked()                       // after Tick
//
// Who is heard from is known by these ticks, with CheckQuorum and without.
type Views struct {
	status     func() ([]byte, error)
	propose    func(data []byte) error
	firstIndex func() (uint64, error)
	lastIndex  func() (uint64, error)
	lastChange func(from, to uint64) (uint64, error)
	window     uint64
	clock      uint64
	heard      map[uint64]uint64 // when a message came from an id last
	saved      uint64            // the last index that is on disk
	state      ConfState         // the configuration that is applied
	changed    uint64            // the index that it was applied at
	known      uint64            // who has this index knows it
	term       uint64            // in which the server led when it was asked last
	seen       uint64            // up to here it has looked for a change that is not applied
	pending    uint64            // the last one that it saw
	err        error             // of a report; no view is made any more
}

// NewViews returns the views of a server that starts with what its storage has. Its members count as heard from for as
// many ticks as an election takes (raft.Config.ElectionTick). Report the snapshot that the server starts with as applied.
//
//	views := confscript.NewViews[raft.Status, raftpb.Entry](node, storage, 10)
func NewViews[S json.Marshaler, E any, P interface {
	*E
	Message
}](node Node[S], log Log[E], electionTick int) *Views {
	views := &Views{
		status:     func() ([]byte, error) { return node.Status().MarshalJSON() },
		propose:    node.Propose,
		firstIndex: log.FirstIndex,
		lastIndex:  log.LastIndex,
		lastChange: func(from, to uint64) (uint64, error) { return lastChange[E, P](log, from, to) },
		window:     uint64(electionTick),
		heard:      map[uint64]uint64{},
	}
	views.Saved()
	return views
}

// Saved reports that what a Ready holds is on disk, and in the storage.
func (views *Views) Saved() {
	views.saved = views.last()
}

// Applied reports the configuration that is in force from an index on: a *raftpb.ConfState.
func (views *Views) Applied(index uint64, state Message) {
	var err error
	if views.state, err = ConfStateOf(state); err != nil {
		views.fail(err)
	}
	// An append says what is committed, so who acknowledges an entry that comes after this knows of the change.
	views.changed, views.known = index, views.last()+1
}

// Heard reports that a message came from an id.
func (views *Views) Heard(from uint64) {
	views.heard[from] = views.clock
}

// Ticked reports a tick of the node.
func (views *Views) Ticked() {
	views.clock++
}

// View returns what the server knows now. If it does not lead, no leader is known. Started and Retired are left to the
// caller. If no entry follows the change that was applied last, an empty one is proposed, by which the others get to know
// of it. Ask on the goroutine that owns the node.
func (views *Views) View() (View, error) {
	var status status
	text, err := views.status()
	if err == nil {
		err = json.Unmarshal(text, &status)
	}
	if views.fail(err); views.err != nil {
		return View{}, views.err
	}
	view := View{ConfState: views.state, Commit: status.Commit, Progress: map[uint64]Progress{}}
	if status.RaftState != "StateLeader" {
		return view, nil
	}
	if own, isMember := status.Progress[status.ID]; isMember && own.Match > views.saved {
		return View{}, ErrUnsaved
	}
	return views.ofLeader(view, status)
}

// ofLeader adds what only a leader knows.
func (views *Views) ofLeader(view View, status status) (View, error) {
	last := views.last()
	if status.Term != views.term {
		views.lead(status, last)
	}
	if err := views.look(last); err != nil {
		return View{}, err
	}
	view.Lead, view.ConfIndex = uint64(status.ID), views.known
	if views.pending > views.changed {
		view.PendingConfIndex = views.pending
	}
	for id, progress := range status.Progress {
		view.Progress[uint64(id)] = Progress{progress.Match, id == status.ID || views.isHeard(uint64(id))}
	}
	if last < views.known {
		views.propose(nil) // if raft drops it, the next view proposes it again
	}
	return view, nil
}

// lead begins to lead a term. Who has its last entry, which is of this term, knows the configuration, unless a change was
// applied after that entry was sent: then who has the next one does.
func (views *Views) lead(status status, last uint64) {
	if views.known <= last {
		views.known = last
	} else {
		views.known = last + 1
	}
	views.term, views.seen, views.pending = status.Term, status.Applied, 0
}

// look looks for a change in the entries that the server did not see before. What is dropped from the log is applied.
func (views *Views) look(last uint64) error {
	first, err := views.firstIndex()
	if err != nil {
		return err
	}
	for _, index := range []uint64{views.changed, first - 1} {
		if views.seen < index {
			views.seen = index
		}
	}
	if views.seen >= last {
		return nil
	}
	index, err := views.lastChange(views.seen+1, last+1)
	if err != nil {
		return err
	}
	if index != 0 {
		views.pending = index
	}
	views.seen = last
	return nil
}

func (views *Views) isHeard(id uint64) bool {
	at, ok := views.heard[id]
	return ok && views.clock-at <= views.window
}

func (views *Views) last() uint64 {
	last, err := views.lastIndex()
	views.fail(err)
	return last
}

// fail keeps the first error.
func (views *Views) fail(err error) {
	if views.err == nil {
		views.err = err
	}
}

// lastChange returns the index of the last change of the configuration among some entries, or 0.
func lastChange[E any, P interface {
	*E
	Message
}](log Log[E], from, to uint64) (last uint64, err error) {
	entries, err := log.Entries(from, to, math.MaxUint64)
	for i := range entries {
		if err == nil {
			err = eachField(P(&entries[i]), func(field, value uint64, _ []byte) error {
				if field == 1 && value != 0 { // Type, and not EntryNormal
					last = from + uint64(i)
				}
				return nil
			})
		}
	}
	return last, err
}

// A status is what Views reads of the JSON of a raft.Status.
type status struct {
	ID        hexID
	Term      uint64
	Commit    uint64
	RaftState string
	Applied   uint64
	Progress  map[hexID]struct{ Match uint64 }
}

// A hexID is an id as raft's texts have it.
type hexID uint64

// UnmarshalText reads an id.
func (id *hexID) UnmarshalText(text []byte) error {
	value, err := strconv.ParseUint(string(text), 16, 64)
	*id = hexID(value)
	return err
}
