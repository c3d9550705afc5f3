package raftlog

import (
	"context"
	"fmt"
	"sync"
	"sync/atomic"
	"time"

	"go.etcd.io/etcd/raft"
	"go.etcd.io/etcd/raft/raftpb"
	"go.etcd.io/etcd/raft/tracker"

	"lrcman/service/internal/engine"
)

// mostLag is how many entries a member may lack when it comes to vote: so few that it has them soon, and more than are under way
// at any time.
const mostLag = 1000

// heard is when each member was last heard of.
type heard struct {
	mu sync.Mutex
	at map[uint64]time.Time
}

func (h *heard) note(id uint64) {
	if id > engine.MostID {
		return // (so that strangers don't fill it)
	}
	h.mu.Lock()
	defer h.mu.Unlock()
	h.at[id] = time.Now()
}

func (h *heard) isSince(id uint64, since time.Time) bool {
	h.mu.Lock()
	defer h.mu.Unlock()
	return h.at[id].After(since)
}

// isHeard tells whether another member was heard of within an election.
func (n *Node) isHeard(id uint64) bool {
	return n.heard.isSince(id, time.Now().Add(-n.cfg.Election))
}

// A roster is the members at one moment, and how many changes made them so.
type roster struct {
	members map[uint64]engine.Member
	changes uint64
}

func (n *Node) roster() roster {
	n.mu.Lock()
	defer n.mu.Unlock()
	now := roster{map[uint64]engine.Member{}, n.changes}
	for id, member := range n.members {
		now.members[id] = member
	}
	return now
}

// leads is the error where this member is not the leader, who alone knows what others lack, and hears of them all the time.
func (n *Node) leads(now roster) error {
	switch leader := atomic.LoadUint64(&n.lead); leader {
	case n.cfg.Self.ID:
		return nil
	case raft.None:
		return engine.ErrNoLeader
	default:
		return &engine.NotLeader{Leader: now.members[leader]}
	}
}

// A step is a change of members that is to be proposed.
type step struct {
	kind   raftpb.ConfChangeType
	member engine.Member
}

// change makes a change of members at the leader: the step that is right for the members of now. If others change them
// meanwhile, it is made for these.
func (n *Node) change(ctx context.Context, next func(roster) (step, error)) (isAgain bool, err error) {
	for {
		now := n.roster()
		if err := n.leads(now); err != nil {
			return false, err
		}
		step, err := next(now)
		if err != nil {
			return false, err
		}
		isAgain, err = n.reconfigure(ctx, step.kind, wish{step.member, now.changes})
		if err != errOvertaken {
			return isAgain, err
		}
	}
}

// Add adds a member as one that learns, or makes one vote that does.
func (n *Node) Add(ctx context.Context, member engine.Member, isForced bool) (isAgain bool, err error) {
	return n.change(ctx, func(now roster) (step, error) {
		known, isThere := now.members[member.ID]
		if isThere && known.Learner && known.IsAt(member) && !member.Learner && (isForced || !known.Promote) {
			return n.promotion(ctx, now, known, isForced)
		}
		learns := member
		learns.Learner, learns.Promote, learns.Folder = true, !member.Learner, 0 // (it tells that itself)
		return step{raftpb.ConfChangeAddLearnerNode, learns}, nil
	})
}

// Remove removes a member.
func (n *Node) Remove(ctx context.Context, id uint64, isForced bool) (isAgain bool, err error) {
	return n.change(ctx, func(now roster) (step, error) {
		known, isThere := now.members[id]
		if isThere && !known.Learner && !isForced {
			delete(now.members, id)
			if err := n.checkMajority(ctx, now); err != nil {
				return step{}, err
			}
		}
		return step{raftpb.ConfChangeRemoveNode, engine.Member{ID: id}}, nil
	})
}

// promotion is the step that makes a learner vote, if it has about what the leader has.
func (n *Node) promotion(ctx context.Context, now roster, member engine.Member, isForced bool) (step, error) {
	member.Learner, member.Promote = false, false
	if !isForced {
		if err := n.checkReady(member.ID); err != nil {
			return step{}, err
		}
		now.members[member.ID] = member
		if err := n.checkMajority(ctx, now); err != nil {
			return step{}, err
		}
	}
	return step{raftpb.ConfChangeAddNode, member}, nil
}

// checkReady refuses to let a member vote that lacks entries, or that is not there.
func (n *Node) checkReady(id uint64) error {
	status := n.raft.Status()
	progress, isThere := status.Progress[id]
	if !isThere { // (it leads no more)
		return engine.ErrNoLeader
	}
	lacks := uint64(0)
	if progress.Match < status.Commit {
		lacks = status.Commit - progress.Match
	}
	switch {
	case !n.isHeard(id):
		return engine.Refused(fmt.Sprintf("member %d lacks %d entries, and was not heard of for %v", id, lacks, n.cfg.Election))
	case lacks > mostLag:
		return engine.Refused(fmt.Sprintf("member %d lacks %d entries, and may vote once it lacks no more than %d", id, lacks, mostLag))
	case progress.Match == 0 || progress.State == tracker.StateSnapshot: // (few entries may be in a large snapshot)
		return engine.Refused(fmt.Sprintf("member %d lacks %d entries, and a snapshot or the first of them", id, lacks))
	}
	return nil
}

// checkMajority refuses members of whom no majority is heard of. It listens from now on, for the time of an election: so one that
// has just ended does not count.
func (n *Node) checkMajority(ctx context.Context, after roster) error {
	since := time.Now()
	for {
		voters, found := 0, 0
		for id, member := range after.members {
			if member.Learner {
				continue
			}
			voters++
			if id == n.cfg.Self.ID || n.heard.isSince(id, since) {
				found++
			}
		}
		if found > voters/2 || voters == 0 { // (without voters it is refused where it is applied)
			return nil
		}
		if ctx.Err() != nil || time.Since(since) > n.cfg.Election {
			return engine.Refused(fmt.Sprintf("of the members that would vote then, %d, only %d were heard of within %v: the group would "+
				"stand still", voters, found, n.cfg.Election))
		}
		time.Sleep(n.cfg.Election / ticks / 2)
	}
}

// promoteLoop makes learners vote that are to, while this member leads. The wish stands in the log, so another leader goes on.
func (n *Node) promoteLoop() {
	tick := time.NewTicker(n.cfg.Election / 2)
	defer tick.Stop()
	for {
		select {
		case <-tick.C:
		case <-n.stop:
			return
		}
		now := n.roster()
		if n.leads(now) != nil {
			continue
		}
		for id, member := range now.members {
			if member.Learner && member.Promote && n.checkReady(id) == nil {
				n.promote(id)
				break // (the members are others now)
			}
		}
	}
}

// promote makes a learner vote that is to, if it still is.
func (n *Node) promote(id uint64) {
	ctx, cancel := context.WithTimeout(context.Background(), 5*n.cfg.Election)
	defer cancel()
	_, err := n.change(ctx, func(now roster) (step, error) {
		member := now.members[id]
		if !member.Learner || !member.Promote {
			return step{}, errOvertaken
		}
		return n.promotion(ctx, now, member, false)
	})
	if err == nil {
		n.cfg.Log.Infof("member %d has what the leader has, and votes from now on", id)
	}
}
