//go:build cgo

package confscript

import (
	"encoding/binary"
	"fmt"
)

// A Message is one of raftpb, which each version of etcd's raft has with another import path.
type Message interface {
	Marshal() ([]byte, error)
}

// As returns a ConfState or a ConfChangeV2 as the message of raftpb that has its name, in any version:
// As[raftpb.ConfChangeV2](stage.ConfChange) is what to propose.
func As[M any, P interface {
	*M
	Unmarshal(data []byte) error
}](value Message) (message M, err error) {
	data, err := value.Marshal()
	if err == nil {
		err = P(&message).Unmarshal(data)
	}
	return message, err
}

// Marshal returns the bytes of the configuration as a raftpb.ConfState.
func (state ConfState) Marshal() ([]byte, error) {
	var data []byte
	for i, list := range [][]uint64{state.Voters, state.Learners, state.VotersOutgoing, state.LearnersNext} {
		for _, id := range list {
			data = appendField(data, uint64(i+1), id)
		}
	}
	if state.AutoLeave {
		data = appendField(data, 5, 1)
	}
	return data, nil
}

// Marshal returns the bytes of the proposal as a raftpb.ConfChangeV2 without a context, the data of an entry with it.
func (change ConfChangeV2) Marshal() ([]byte, error) {
	data := appendField(nil, 1, uint64(change.Transition))
	for _, single := range change.Changes {
		inner := appendField(appendField(nil, 1, uint64(single.Type)), 2, single.NodeID)
		data = append(append(data, 2<<3|2, byte(len(inner))), inner...)
	}
	return data, nil
}

// appendField appends a field that is a number, in the encoding of Protocol Buffers.
func appendField(data []byte, field, value uint64) []byte {
	var encoded [2 * binary.MaxVarintLen64]byte
	size := binary.PutUvarint(encoded[:], field<<3)
	size += binary.PutUvarint(encoded[size:], value)
	return append(data, encoded[:size]...)
}

// ConfStateOf returns the configuration of a *raftpb.ConfState.
func ConfStateOf(message Message) (state ConfState, err error) {
	err = eachField(message, func(field, value uint64, _ []byte) error {
		switch field {
		case 1:
			state.Voters = append(state.Voters, value)
		case 2:
			state.Learners = append(state.Learners, value)
		case 3:
			state.VotersOutgoing = append(state.VotersOutgoing, value)
		case 4:
			state.LearnersNext = append(state.LearnersNext, value)
		case 5:
			state.AutoLeave = value != 0
		}
		return nil
	})
	return state, err
}

// ConfChangeV2Of returns the proposal of a *raftpb.ConfChangeV2, without its context.
func ConfChangeV2Of(message Message) (change ConfChangeV2, err error) {
	err = eachField(message, func(field, value uint64, inner []byte) error {
		switch field {
		case 1:
			change.Transition = ConfChangeTransition(value)
		case 2:
			change.Changes = append(change.Changes, ConfChangeSingle{})
			return change.Changes[len(change.Changes)-1].read(inner)
		}
		return nil
	})
	return change, err
}

func (change *ConfChangeSingle) read(data []byte) error {
	return each(data, func(field, value uint64, _ []byte) error {
		switch field {
		case 1:
			change.Type = ConfChangeType(value)
		case 2:
			change.NodeID = value
		}
		return nil
	})
}

func eachField(message Message, visit func(field, value uint64, inner []byte) error) error {
	data, err := message.Marshal()
	if err != nil {
		return err
	}
	return each(data, visit)
}

// each visits the fields of a message in the encoding of Protocol Buffers: a number, or the bytes of an inner message. The
// messages of raftpb have no other fields.
func each(data []byte, visit func(field, value uint64, inner []byte) error) error {
	for len(data) > 0 {
		key, size := binary.Uvarint(data)
		if size <= 0 || key&7 != 0 && key&7 != 2 {
			return fmt.Errorf("confscript: not a message of raftpb")
		}
		data = data[size:]
		value, size := binary.Uvarint(data)
		if size <= 0 || key&7 == 2 && value > uint64(len(data)-size) {
			return fmt.Errorf("confscript: not a message of raftpb")
		}
		data = data[size:]
		var inner []byte
		if key&7 == 2 {
			inner, data = data[:value], data[value:]
		}
		if err := visit(key>>3, value, inner); err != nil {
			return err
		}
	}
	return nil
}
