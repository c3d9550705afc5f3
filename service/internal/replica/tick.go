package replica

import (
	"context"
	"time"

	"lrcman/service/book"
	"lrcman/service/internal/engine"
	"lrcman/service/internal/state"
)

// tick makes each book that has a live lease tick, in turn, while this member leads.
func (r *Replica) tick(ctx context.Context, every time.Duration) {
	isLeader, since := false, time.Now()
	check := time.NewTicker(every / 16)
	defer check.Stop()
	for {
		select {
		case <-check.C:
		case <-ctx.Done():
			return
		}
		if leads := r.leads(); !leads || !isLeader {
			isLeader, since = leads, time.Now() // a new leader waits for a whole interval: a lease lasts longer, never shorter
		} else if time.Since(since) >= every {
			since = time.Now() // (ticks are not made up for: a member that was stopped would end young leases)
			r.tickAll()
		}
	}
}

func (r *Replica) leads() bool {
	status := r.cfg.Engine.Status()
	return status.Leader == status.ID
}

// tickAll makes each book with a live lease tick, as long as this member leads.
func (r *Replica) tickAll() {
	for _, name := range r.cfg.State.Names() {
		if !r.leads() {
			return // (what is proposed now would come within the interval of the next one)
		}
		hasLease := false
		err := r.cfg.State.Look(name, func(view *state.View) error {
			hasLease = view.HasLease()
			return nil
		})
		if err != nil || !hasLease {
			continue
		}
		ctx, cancel := context.WithTimeout(context.Background(), r.cfg.Timeout)
		item := &state.Item{Action: state.Call, Book: name, Session: 1, Command: book.Command{Kind: book.Tick}}
		_, err = r.Do(ctx, item)
		cancel()
		if err == engine.ErrNoLeader {
			return // (the next leader ticks, after a whole interval)
		} else if err != nil {
			r.cfg.Log.Warnf("book %s did not tick: %v", name, err)
		}
	}
}
