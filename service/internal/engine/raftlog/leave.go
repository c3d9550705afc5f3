package raftlog

import (
	"context"
	"net/http"
	"sync/atomic"
	"time"

	"go.etcd.io/etcd/raft"

	"lrcman/service/internal/engine"
)

// LeadAway gives the leadership, if this member has it, to another voter; to one with room on its disk, if that is needed. One that
// does not take it within an election is passed over for the next one.
func (n *Node) LeadAway(ctx context.Context, needsRoom bool) error {
	check := time.NewTicker(leadTime)
	defer check.Stop()
	tried := map[uint64]bool{}
	for asked := (time.Time{}); ; {
		leader, self := atomic.LoadUint64(&n.lead), n.cfg.Self.ID
		if leader != self && (leader != raft.None || len(tried) == 0) {
			return nil
		}
		if leader == self && time.Since(asked) > n.cfg.Election {
			heir := n.heir(tried)
			for ; needsRoom && heir != raft.None && !n.hasRoom(heir); heir = n.heir(tried) {
				tried[heir] = true
			}
			if heir == raft.None {
				return engine.ErrNotMoved
			}
			tried[heir], asked = true, time.Now()
			n.raft.TransferLeadership(ctx, self, heir)
		}
		select {
		case <-check.C:
		case <-ctx.Done():
			return engine.ErrNotMoved
		case <-n.done:
			return engine.ErrEnded
		}
	}
}

// heir is the other voter that was heard of lately and has most of the log, but for those that were tried; None if there is none.
func (n *Node) heir(tried map[uint64]bool) (heir uint64) {
	most := uint64(0)
	for id, progress := range n.raft.Status().Progress {
		if id == n.cfg.Self.ID || progress.IsLearner || tried[id] || !n.isHeard(id) {
			continue
		}
		if heir == raft.None || progress.Match > most {
			heir, most = id, progress.Match
		}
	}
	return heir
}

// roomPath is where members ask each other whether they have room on their disks.
const roomPath = "/lrcmand/room"

// A roomAnswer is what a member answers there.
type roomAnswer struct {
	HasRoom bool `json:"room"`
}

// room answers another member.
func (p *port) room(w http.ResponseWriter, r *http.Request) *refusal {
	if why := p.checkGroup(r); why != nil {
		return why
	}
	isFull := p.node.cfg.IsFull
	answer(w, roomAnswer{isFull == nil || !isFull()})
	return nil
}

// hasRoom asks another member.
func (n *Node) hasRoom(id uint64) bool {
	n.mu.Lock()
	member := n.members[id]
	n.mu.Unlock()
	var told roomAnswer
	return n.ask(member.Peer, roomPath, "", n.identity.Group, &told) == nil && told.HasRoom
}
