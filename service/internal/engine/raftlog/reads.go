package raftlog

import (
	"context"
	"encoding/binary"
	"sync/atomic"
	"time"

	"go.etcd.io/etcd/raft"

	"lrcman/service/internal/engine"
)

// again is when a question for the read index that was not answered is asked anew.
const again = 200 * time.Millisecond

// A round is one read index, for all who came before it was asked for. It is asked for as long as one of them waits.
type round struct {
	over    chan struct{}
	err     error
	waiting int // readers
	ctx     context.Context
	cancel  func()
}

func newRound() *round {
	ctx, cancel := context.WithCancel(context.Background())
	return &round{over: make(chan struct{}), ctx: ctx, cancel: cancel}
}

func (n *Node) joinRound() *round {
	n.mu.Lock()
	defer n.mu.Unlock()
	n.round.waiting++
	return n.round
}

func (n *Node) leaveRound(it *round) {
	n.mu.Lock()
	defer n.mu.Unlock()
	if it.waiting--; it.waiting == 0 && it != n.round { // (others may still come to one that was not asked for)
		it.cancel()
	}
}

// An applyWaiter is a reader who waits until an index is applied.
type applyWaiter struct {
	index   uint64
	reached chan struct{}
}

// Barrier returns when this member has applied all that any member told before Barrier was called.
func (n *Node) Barrier(ctx context.Context) error {
	mine := n.joinRound()
	defer n.leaveRound(mine)
	select {
	case n.readers <- struct{}{}:
	default: // (somebody has woken the loop already)
	}
	select {
	case <-mine.over:
		return mine.err
	case <-ctx.Done():
		return engine.ErrNoLeader
	case <-n.done:
		return engine.ErrEnded
	}
}

func (n *Node) readLoop() {
	for {
		select {
		case <-n.readers:
		case <-n.done:
			return
		}
		n.mu.Lock()
		now := n.round
		n.round = newRound()
		isAwaited := now.waiting > 0
		n.mu.Unlock()
		if isAwaited {
			now.err = n.askMajority(now.ctx)
		}
		close(now.over)
		now.cancel()
	}
}

func (n *Node) askMajority(ctx context.Context) error {
	if n.cfg.Knobs.AskMajority != nil {
		return n.cfg.Knobs.AskMajority()
	}
	return n.readIndex(ctx)
}

// readIndex asks the leader, who asks a majority whether it still is. Raft drops the question without a word where there is
// no leader, or a new one that has committed nothing yet, or where a message is lost. So it is asked again, with another
// number: an answer to an old question is an old answer.
func (n *Node) readIndex(ctx context.Context) error {
	for ctx.Err() == nil {
		id, answer := n.numbers.next(), make(chan uint64, 1)
		n.mu.Lock()
		n.reads[id] = answer
		n.mu.Unlock()
		var text [8]byte
		binary.LittleEndian.PutUint64(text[:], id)
		if err := n.raft.ReadIndex(ctx, text[:]); err != nil {
			return engine.ErrNoLeader
		}
		timer := time.NewTimer(again)
		select {
		case index := <-answer:
			timer.Stop()
			return n.waitApplied(ctx, index)
		case <-timer.C:
		case <-ctx.Done():
			timer.Stop()
		case <-n.done:
			timer.Stop()
			return engine.ErrEnded
		}
		n.mu.Lock()
		delete(n.reads, id)
		n.mu.Unlock()
	}
	return engine.ErrNoLeader
}

// giveReads answers those who asked for a read index.
func (n *Node) giveReads(states []raft.ReadState) {
	n.mu.Lock()
	defer n.mu.Unlock()
	for _, state := range states {
		id := binary.LittleEndian.Uint64(state.RequestCtx)
		if answer := n.reads[id]; answer != nil {
			answer <- state.Index // (it has room for one)
			delete(n.reads, id)
		}
	}
}

func (n *Node) waitApplied(ctx context.Context, index uint64) error {
	n.mu.Lock()
	if atomic.LoadUint64(&n.applied) >= index {
		n.mu.Unlock()
		return nil
	}
	it := applyWaiter{index, make(chan struct{})}
	n.behind = append(n.behind, it)
	n.mu.Unlock()
	select {
	case <-it.reached:
		return nil
	case <-ctx.Done():
		return engine.ErrNoLeader
	case <-n.done:
		return engine.ErrEnded
	}
}

// setApplied notes the last entry that is applied, and wakes those who waited for it.
func (n *Node) setApplied(index uint64) {
	n.mu.Lock()
	defer n.mu.Unlock()
	atomic.StoreUint64(&n.applied, index)
	waiting := n.behind[:0]
	for _, it := range n.behind {
		if it.index <= index {
			close(it.reached)
		} else {
			waiting = append(waiting, it)
		}
	}
	n.behind = waiting
}
