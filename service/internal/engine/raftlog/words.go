package raftlog

import (
	"time"

	"go.etcd.io/etcd/pkg/types"
	"go.etcd.io/etcd/raft"
	"go.etcd.io/etcd/raft/raftpb"

	"lrcman/service/internal/engine"
)

// sayRole says who leads now, and that this member begins an election.
func (n *Node) sayRole(before uint64, now *raft.SoftState, term uint64) {
	switch {
	case now.Lead == before:
	case now.Lead == raft.None:
		n.cfg.Log.Warnf("there is no leader any more in term %d; it was member %d", term, before)
	case now.Lead == n.cfg.Self.ID:
		n.cfg.Log.Infof("this member leads in term %d", term)
	default:
		n.cfg.Log.Infof("member %d leads in term %d", now.Lead, term)
	}
	switch now.RaftState {
	case raft.StatePreCandidate: // (again and again, where nobody agrees)
		n.cfg.Log.Infof("this member has heard of no leader, and asks whether it may begin an election; the term is %d", term)
	case raft.StateCandidate:
		n.cfg.Log.Infof("this member begins an election in term %d", term)
	}
}

// contactTime is how many elections nothing is said of a member again.
const contactTime = 10

// A contact is what was said last of another member.
type contact struct {
	isLost bool
	saidAt time.Time
}

// sayContacts says which other members are not reached any more, and which are again.
func (n *Node) sayContacts(now time.Time) {
	for _, member := range n.sorted() {
		id := types.ID(member.ID)
		if n.peers.Get(id) == nil {
			continue
		}
		isLost, last := n.peers.ActiveSince(id).IsZero(), n.contacts[member.ID]
		if last.saidAt.IsZero() {
			n.contacts[member.ID] = contact{saidAt: now} // (it has some time to come)
		} else if isLost != last.isLost && now.Sub(last.saidAt) >= contactTime*n.cfg.Election {
			n.contacts[member.ID] = contact{isLost, now}
			n.sayContact(member, isLost)
		}
	}
}

func (n *Node) sayContact(member engine.Member, isLost bool) {
	if isLost {
		n.cfg.Log.Warnf("member %d is not reached at %s", member.ID, member.Peer)
	} else {
		n.cfg.Log.Infof("member %d is reached", member.ID)
	}
}

// sayChange says how the members changed. What was so when this member started is not said again.
func (n *Node) sayChange(index uint64, kind raftpb.ConfChangeType, id uint64, member engine.Member) {
	if index <= n.known {
		return
	}
	switch kind {
	case raftpb.ConfChangeAddNode:
		n.cfg.Log.Infof("member %d votes from entry %d on, at %s", id, index, member.Peer)
	case raftpb.ConfChangeAddLearnerNode:
		n.cfg.Log.Infof("member %d learns from entry %d on, at %s", id, index, member.Peer)
	case raftpb.ConfChangeRemoveNode:
		n.cfg.Log.Infof("member %d was removed by entry %d", id, index)
	case raftpb.ConfChangeUpdateNode:
		n.cfg.Log.Infof("member %d is at %s from entry %d on", id, member.Peer, index)
	}
}
