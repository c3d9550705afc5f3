package replica

import (
	"context"
	"sync/atomic"
	"time"

	"lrcman/service/internal/engine"
	"lrcman/service/internal/state"
)

const (
	underWay  = 4                      // entries that are proposed at once, at most
	holdTime  = 100 * time.Millisecond // in which an entry is told, or the next one is proposed beside it
	ofEntry   = 1024                   // items of an entry, at most: their places have 10 bits
	bytesOf   = 512 << 10              // texts of an entry beyond which no item is added
	retryTime = 10 * time.Millisecond
)

// gather makes an entry of all items that came while the one before was under way: one sync serves them all, and a slow disk
// makes greater entries, not more of them. An entry that is lost on the way to the leader does not hold up the next ones.
func (r *Replica) gather(ctx context.Context) {
	slots, before := make(chan struct{}, underWay), make(chan struct{})
	close(before)
	for {
		select {
		case <-r.queue.some:
		case <-ctx.Done():
			return
		}
		if !r.hasLeader() {
			r.waitForLeader(ctx)
			continue
		}
		r.wait(ctx, nil, time.Duration(atomic.LoadInt64(&r.pause))-time.Since(r.begun))
		r.wait(ctx, before, holdTime)
		select {
		case slots <- struct{}{}:
		case <-ctx.Done():
			return
		}
		told := make(chan struct{})
		if e := r.queue.take(); e != nil {
			before = told
			go r.propose(e, told)
		} else {
			close(told)
		}
		go func() { // an entry that is not told for so long is perhaps lost: others need not wait for it
			r.wait(ctx, told, r.cfg.Election)
			<-slots
		}()
	}
}

// wait returns when something has happened, but after some time at the latest.
func (r *Replica) wait(ctx context.Context, happened <-chan struct{}, most time.Duration) {
	if most <= 0 {
		return
	}
	timer := time.NewTimer(most)
	defer timer.Stop()
	select {
	case <-happened:
	case <-timer.C:
	case <-ctx.Done():
	}
}

// waitForLeader lets items wait as long as an election may take. Then their callers are told, who may ask another member.
func (r *Replica) waitForLeader(ctx context.Context) {
	if r.isLeaderless() {
		r.queue.refuse(engine.ErrNoLeader)
	}
	r.wait(ctx, nil, retryTime)
	r.queue.wake()
}

// propose proposes an entry once, and tells what becomes of it.
func (r *Replica) propose(e *entry, isTold chan<- struct{}) {
	defer close(isTold)
	defer e.cancel()
	items := make([]*state.Item, len(e.items))
	for i, p := range e.items {
		items[i] = p.item
	}
	told, err := r.cfg.Engine.Propose(e.ctx, r.cfg.State.Encode(items))
	if err == nil {
		r.queue.answer(e, told.([]state.Answer))
		r.queue.wake()
		return
	}
	atomic.StoreInt64(&r.pause, int64(time.Since(r.begun)+retryTime))
	r.queue.fail(e, err)
	r.queue.wake()
}
