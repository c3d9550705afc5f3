package raftlog

import (
	"encoding/json"
	"errors"
	"fmt"
	"sync/atomic"

	"go.etcd.io/etcd/raft/raftpb"

	"lrcman/service/internal/engine"
)

// mostTerms is how far the term of a message may be ahead. Terms rise by one with each election; a term near the last number
// would be the end of the group.
const mostTerms = 1 << 20

// checkMessage tells why a message is not one that a member sends to this one. Some would end the process: raft and the loop rely
// on each other.
func (n *Node) checkMessage(m *raftpb.Message) error {
	isMember := n.isMember(m.From)
	switch {
	case m.To != n.cfg.Self.ID:
		return fmt.Errorf("it is for member %d", m.To)
	case !isMember && !n.knowsNobody() && !n.isVouched(m.From):
		return fmt.Errorf("there is no member %d", m.From)
	case isMember && m.Term > atomic.LoadUint64(&n.term)+mostTerms:
		return fmt.Errorf("its term %d is far ahead", m.Term)
	case m.Term > mostIndex || m.Index > mostIndex || m.Commit > mostIndex:
		return errors.New("it has a number that nobody reaches")
	}
	switch m.Type {
	case raftpb.MsgProp:
		if !isMember {
			return errors.New("members alone propose")
		}
		return n.checkProposal(m.Entries)
	case raftpb.MsgReadIndex, raftpb.MsgReadIndexResp:
		if len(m.Entries) != 1 || len(m.Entries[0].Data) != 8 {
			return errors.New("it has no number of a question")
		}
	case raftpb.MsgSnap:
		return checkSnapshot(m.Snapshot.Metadata)
	}
	return nil
}

func checkSnapshot(m raftpb.SnapshotMetadata) error {
	if m.Index == 0 || m.Index > mostIndex || m.Term == 0 || m.Term > mostIndex {
		return fmt.Errorf("there is no snapshot of entry %d and term %d", m.Index, m.Term)
	}
	return nil
}

// checkProposal refuses what members could not apply: what is in the log once ends each of them, at each start.
func (n *Node) checkProposal(entries []raftpb.Entry) error {
	if len(entries) == 0 {
		return errors.New("it proposes nothing")
	}
	for i := range entries {
		if err := n.checkEntry(&entries[i]); err != nil {
			return err
		}
	}
	return nil
}

func (n *Node) checkEntry(entry *raftpb.Entry) error {
	switch {
	case entry.Type == raftpb.EntryConfChange:
		_, _, err := changeOf(entry.Data)
		return err
	case entry.Type != raftpb.EntryNormal:
		return fmt.Errorf("an entry is of kind %v", entry.Type)
	case len(entry.Data) <= 8:
		return errors.New("an entry has nothing in it")
	}
	return n.machine.Check(entry.Data[8:])
}

// changeOf reads a change of members.
func changeOf(data []byte) (change raftpb.ConfChange, wish wish, err error) {
	if err := change.Unmarshal(data); err != nil {
		return change, wish, err
	}
	if err := json.Unmarshal(change.Context, &wish); err != nil {
		return change, wish, err
	}
	_, isKind := raftpb.ConfChangeType_name[int32(change.Type)]
	if !isKind || wish.ID != change.NodeID || wish.ID == 0 || wish.ID > engine.MostID {
		return change, wish, fmt.Errorf("there is no change %d of member %d", change.Type, change.NodeID)
	}
	return change, wish, nil
}

func (n *Node) isMember(id uint64) bool {
	n.mu.Lock()
	defer n.mu.Unlock()
	_, isThere := n.members[id]
	return isThere
}

func (n *Node) isVouched(id uint64) bool {
	n.mu.Lock()
	defer n.mu.Unlock()
	_, isThere := n.vouched[id]
	return isThere
}

// knowsNobody tells whether this member was added, and has heard nothing yet of who the others are.
func (n *Node) knowsNobody() bool {
	n.mu.Lock()
	defer n.mu.Unlock()
	return len(n.members) == 0
}
