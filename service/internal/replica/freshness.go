package replica

import (
	"context"
	"math"
	"sync/atomic"
	"time"

	"lrcman/service/internal/engine"
)

// refresh asks now and then whether this member is up to date, so that looks can tell how old they may be.
func (r *Replica) refresh(ctx context.Context) {
	for {
		asked, cancel := context.WithTimeout(context.Background(), r.cfg.Timeout)
		r.Barrier(asked) // (if nobody answers, what looks tell grows older)
		cancel()
		r.SaveChange(ctx)
		select {
		case <-time.After(freshTime):
		case <-ctx.Done():
			return
		}
	}
}

// Barrier waits until all that was told before is applied here, and notes from when that is. Where there has been no leader for
// longer than an election it does not wait: another member may have one.
func (r *Replica) Barrier(ctx context.Context) error {
	if r.isLeaderless() {
		return engine.ErrNoLeader
	}
	asked := int64(time.Since(r.begun))
	if err := r.cfg.Engine.Barrier(ctx); err != nil {
		return err
	}
	for {
		before := atomic.LoadInt64(&r.fresh)
		if before >= asked || atomic.CompareAndSwapInt64(&r.fresh, before, asked) {
			return nil
		}
	}
}

// A Freshness is how new a look is that begins when it is asked for.
type Freshness struct {
	Index uint64 // the last entry of the log that this member has applied
	upTo  int64  // nanoseconds from begun until a moment up to which all that was told is applied; 0: unknown
}

// Freshness is how new a look is that begins now.
func (r *Replica) Freshness() Freshness {
	return Freshness{r.cfg.Engine.AppliedIndex(), atomic.LoadInt64(&r.fresh)}
}

// Age is the number of milliseconds since all was applied that was told, rounded up; -1 if this member has heard of nothing yet.
func (r *Replica) Age(f Freshness) int64 {
	age := int64(-1)
	if f.upTo != 0 {
		age = int64(math.Ceil(float64(int64(time.Since(r.begun))-f.upTo) / 1e6))
	}
	if r.cfg.Knobs.Age != nil {
		return r.cfg.Knobs.Age(age)
	}
	return age
}

// KeepsUp tells whether this member knows of a leader, and was up to date a short while ago.
func (r *Replica) KeepsUp() bool {
	leader, age := r.cfg.Engine.LeaderID(), r.Age(r.Freshness())
	return leader != 0 && age >= 0 && age <= 5*freshTime.Milliseconds()
}

// SaveChange begins to write a snapshot once the group is to go to other rules: a program with these begins in it.
func (r *Replica) SaveChange(ctx context.Context) {
	if change := r.cfg.State.Change(); change.Asked > r.cfg.Engine.Status().Snapshot {
		r.cfg.Engine.Snapshot(ctx) // (if one is being written already, the next call makes another)
	}
}
