// Package replica is what a member does beside answering: it brings items into the log of its group, gathered into entries; it
// ticks books while it leads, and has the members compare them; it knows how new its own books are; and it asks for the snapshot
// that other rules begin in.
package replica

import (
	"context"
	"sync/atomic"
	"time"

	"lrcman/service/internal/engine"
	"lrcman/service/internal/logging"
	"lrcman/service/internal/state"
)

const (
	mayWait   = 1000        // items that are in no entry
	freshTime = time.Second // between two questions whether this member is up to date
)

// A Config says what a replica works on, and how.
type Config struct {
	Engine   engine.Engine
	State    *state.State  // which the engine drives
	Timeout  time.Duration // of an item of this member's own, and of a question whether this member is up to date
	Election time.Duration // what waits for a leader longer than this is refused; 0: one second
	Tick     time.Duration // between two ticks by the leader; 0: never
	Compare  time.Duration // between two books that the leader has compared; 0: none is
	Log      *logging.Logger
	// MayChange tells why this member takes no such item now; nil: it takes all.
	MayChange func(*state.Item) error
	Knobs     Knobs
}

// Knobs are what tests, and a program that is built with the tag faulty, do otherwise. Those that are nil change nothing.
type Knobs struct {
	TellEarly func(*state.State, *state.Item) (state.Answer, bool) // may answer before anything is in the log
	Age       func(int64) int64                                    // is the age that is told, of the one that it is
}

// A Replica is one member's books behind the log of its group.
type Replica struct {
	cfg   Config
	queue *queue
	begun time.Time
	fresh int64 // atomic: nanoseconds from begun until a moment up to which all that was told is applied; 0: unknown
	led   int64 // atomic: the same until this member last knew of a leader
	pause int64 // atomic: the same until the next entry may be proposed, after one that was not
}

// New makes a replica. It answers once it runs.
func New(cfg Config) *Replica {
	if cfg.Election == 0 {
		cfg.Election = time.Second
	}
	return &Replica{cfg: cfg, queue: newQueue(mayWait), begun: time.Now()}
}

// Run brings items into the log, ticks, compares and asks how new the books are, until the context ends.
func (r *Replica) Run(ctx context.Context) {
	go r.refresh(ctx)
	go r.watch(ctx)
	if r.cfg.Tick > 0 {
		go r.tick(ctx, r.cfg.Tick)
	}
	if r.cfg.Compare > 0 {
		go r.compare(ctx)
		go r.report(ctx)
	}
	r.gather(ctx)
}

// Waiting is the number of items that wait to be taken into an entry.
func (r *Replica) Waiting() int { return r.queue.count() }

// Do brings an item into the log and returns its answer. An item with a key is then first asked for now: it gets its Since. The
// error is an *Unknown if the outcome is unknown. After any other one, that of MayChange too, nothing was made.
func (r *Replica) Do(ctx context.Context, item *state.Item) (state.Answer, error) {
	if item.Key != "" {
		item.Since = r.cfg.Engine.AppliedIndex()
	}
	return r.do(ctx, newPending(item, item.Key != ""))
}

// DoSince does the same of an item whose client tells since when it asks.
func (r *Replica) DoSince(ctx context.Context, item *state.Item) (state.Answer, error) {
	return r.do(ctx, newPending(item, false))
}

func (r *Replica) do(ctx context.Context, p *pending) (state.Answer, error) {
	if r.isLeaderless() {
		return state.Answer{}, engine.ErrNoLeader
	}
	if r.cfg.MayChange != nil {
		if err := r.cfg.MayChange(p.item); err != nil {
			return state.Answer{}, err
		}
	}
	if !r.queue.add(p) {
		return state.Answer{}, ErrFull
	}
	if r.cfg.Knobs.TellEarly != nil {
		if answer, ok := r.cfg.Knobs.TellEarly(r.cfg.State, p.item); ok {
			return answer, nil
		}
	}
	select {
	case it := <-p.told:
		return it.answer, it.err
	case <-ctx.Done():
		answer, err := r.queue.leave(p)
		if err == ErrLate && !r.hasLeader() {
			err = engine.ErrNoLeader
		}
		return answer, err
	case <-r.cfg.Engine.Done():
		answer, err := r.queue.leave(p)
		if err == ErrLate {
			err = engine.ErrEnded
		}
		return answer, err
	}
}

func (r *Replica) hasLeader() bool { return r.cfg.Engine.LeaderID() != 0 }

// isLeaderless tells whether this member knows of no leader, and has not for longer than an election.
func (r *Replica) isLeaderless() bool {
	return time.Since(r.begun)-time.Duration(atomic.LoadInt64(&r.led)) > r.cfg.Election && !r.hasLeader()
}

// watch notes when this member knew of a leader.
func (r *Replica) watch(ctx context.Context) {
	check := time.NewTicker(r.cfg.Election / 8)
	defer check.Stop()
	for {
		if r.hasLeader() {
			atomic.StoreInt64(&r.led, int64(time.Since(r.begun)))
		}
		select {
		case <-check.C:
		case <-ctx.Done():
			return
		}
	}
}
