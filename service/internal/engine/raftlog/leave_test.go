package raftlog

import (
	"context"
	"sync"
	"testing"
	"time"

	"lrcman/service/internal/engine"
)

// A leader that goes gives its lead to a voter that lives, and not to a learner. Alone it keeps it.
func TestALeaderGivesItsLeadAway(t *testing.T) {
	ctx, cancel := context.WithTimeout(context.Background(), long)
	defer cancel()
	folder := t.TempDir()
	cfg, _ := configOf(t, folder, engine.Member{ID: 1}, engine.Member{ID: 1})
	one, _ := begin(t, cfg)
	propose(t, one, "alone")
	if err := one.LeadAway(ctx, false); err != engine.ErrNotMoved {
		t.Error(err)
	}
	g := groupOf(t, 3)
	before := g.leader()
	propose(t, g.nodes[before], "entry")
	if err := g.nodes[g.other(before)].LeadAway(ctx, false); err != nil { // (one that does not lead has nothing to give)
		t.Error(err)
	}
	g.nodes[g.other(before)].Close()
	begun := time.Now()
	if err := g.nodes[before].LeadAway(ctx, false); err != nil {
		t.Error(err)
	}
	after := g.leader()
	if after == before {
		t.Errorf("%d still leads", before)
	}
	t.Logf("given away in %v", time.Since(begun))
	propose(t, g.nodes[after], "entry behind it")
}

func TestALoopThatTurnsIsSeen(t *testing.T) {
	t.Parallel()
	cfg, _ := configOf(t, t.TempDir(), engine.Member{ID: 1}, engine.Member{ID: 1})
	n, _ := begin(t, cfg)
	begun := n.Status().Turned
	if time.Since(begun) > long {
		t.Error(begun)
	}
	eventually(t, "it turns", func() bool { return n.Status().Turned.After(begun) })
}

// A leader without room gives its lead to a voter that has some, and keeps it where none has.
func TestALeaderGivesItsLeadToOneWithRoom(t *testing.T) {
	t.Parallel()
	ctx, cancel := context.WithTimeout(context.Background(), long)
	defer cancel()
	var mu sync.Mutex
	full := map[uint64]bool{1: true, 2: true, 3: true}
	g := groupOf(t, 3, func(cfg *Config) {
		id := cfg.Self.ID
		cfg.IsFull = func() bool {
			mu.Lock()
			defer mu.Unlock()
			return full[id]
		}
	})
	before := g.leader()
	if err := g.nodes[before].LeadAway(ctx, true); err != engine.ErrNotMoved || g.leader() != before {
		t.Errorf("%v, and %d leads", err, g.leader())
	}
	heir := g.other(before)
	mu.Lock()
	full[heir] = false
	mu.Unlock()
	eventually(t, "it leads", func() bool {
		return g.nodes[before].LeadAway(ctx, true) == nil && g.nodes[heir].Status().Leader == heir
	})
}
