package main

import (
	"errors"
	"fmt"
	"time"

	"confscript"

	pb "go.etcd.io/etcd/raft/raftpb"
)

// lead leads the cluster to the target: what confscript.Next says is done, and it is asked again. It decides all of it: who
// starts before which stage, whom to wait for, when leadership moves and who stops. Nothing is kept of a plan, so a program
// that was stopped anywhere carries on by the same call.
func (c *cluster) lead(target confscript.ConfState) error {
	var proposed confscript.Stage
	var successor uint64
	for stage, acted := 1, time.Now(); ; time.Sleep(poll) {
		id, now, action, err := c.next(target)
		if err != nil {
			return err
		}
		if proposed.ConfState.Voters != nil && now.Equal(proposed.ConfState) {
			fmt.Printf("stage %d: %v, now %v\n", stage, proposed.ConfChange, describe(now))
			c.after(stage)
			stage, proposed = stage+1, confscript.Stage{}
		}
		switch action := action.(type) {
		case confscript.Start:
			err = c.startNew(action.IDs)
		case confscript.Stop:
			err = c.retire(action.IDs)
		case confscript.Transfer:
			if action.To != successor {
				fmt.Printf("leadership moves from %d to %d\n", id, action.To)
			}
			successor = action.To
		case confscript.Propose:
			proposed = action.Stage
		case confscript.Wait:
			if time.Since(acted) > patience {
				return fmt.Errorf("after %v: %v", patience, action)
			}
			continue
		case confscript.Stuck:
			return errors.New(action.String())
		case confscript.Done:
			return nil
		}
		if err != nil {
			return err
		}
		acted = time.Now()
	}
}

// next returns a server, its configuration, and what to do next by what it knows. That is asked on the goroutine that owns its
// RawNode, which proposes at once, so that no change comes between the view and the proposal. A proposal may be dropped, lost,
// or replaced by an empty entry: then the next view is as if it had not been made.
func (c *cluster) next(target confscript.ConfState) (id uint64, now confscript.ConfState, action confscript.Action, err error) {
	s, started := c.foremost(), c.ids()
	if s == nil {
		return 0, now, nil, errors.New("no server runs")
	}
	s.do(func() {
		var view confscript.View
		if view, err = s.views.View(); err != nil {
			return
		}
		view.Started, view.Retired, now = started, c.retired, view.ConfState
		options := confscript.DriveOptions{Strategy: confscript.LearnersFirst, Down: c.down, MaxLag: maxLag}
		if action, err = confscript.Next(options, target, view); err != nil {
			return
		}
		switch action := action.(type) {
		case confscript.Transfer:
			s.node.TransferLeader(action.To)
		case confscript.Propose:
			var change pb.ConfChangeV2
			if change, err = confscript.As[pb.ConfChangeV2](action.Stage.ConfChange); err == nil {
				s.node.ProposeConfChange(change)
			}
		}
	})
	return s.id, now, action, err
}

// foremost returns the server that leads, or that has applied most if none does. It is nil if none runs.
func (c *cluster) foremost() *server {
	foremost := c.leader()
	if foremost != nil {
		return foremost
	}
	var most uint64
	for _, s := range c.running() {
		s.do(func() {
			if s.applied > most {
				foremost, most = s, s.applied
			}
		})
	}
	return foremost
}

func describe(state confscript.ConfState) string {
	text := fmt.Sprint("voters ", state.Voters)
	if len(state.VotersOutgoing) > 0 {
		text += fmt.Sprint(" outgoing ", state.VotersOutgoing)
	}
	if len(state.Learners) > 0 {
		text += fmt.Sprint(" learners ", state.Learners)
	}
	return text
}
