package raftlog

import (
	"encoding/binary"
	"errors"
	"fmt"
	"sync"
	"sync/atomic"
	"time"

	"go.etcd.io/etcd/raft/raftpb"

	"lrcman/service/internal/engine"
)

// An applier drives the machine beside the loop, in the order in which the loop hands work over. So ticks, heartbeats and syncs
// wait for no book, however long an entry or a restore takes.
type applier struct {
	mu     sync.Mutex
	awake  *sync.Cond
	queue  []func()
	isOver bool // no more is handed over
	done   chan struct{}
}

func newApplier() *applier {
	a := &applier{done: make(chan struct{})}
	a.awake = sync.NewCond(&a.mu)
	return a
}

// add hands work over, and does not wait.
func (a *applier) add(work func()) {
	a.mu.Lock()
	defer a.mu.Unlock()
	a.queue = append(a.queue, work)
	a.awake.Signal()
}

// run does what is handed over, until the end.
func (a *applier) run() {
	defer close(a.done)
	for work := a.next(); work != nil; work = a.next() {
		work()
	}
}

func (a *applier) next() func() {
	a.mu.Lock()
	defer a.mu.Unlock()
	for len(a.queue) == 0 && !a.isOver {
		a.awake.Wait()
	}
	if len(a.queue) == 0 {
		return nil
	}
	work := a.queue[0]
	a.queue[0] = nil // (else what it holds is held until all of the queue is done)
	a.queue = a.queue[1:]
	return work
}

// drain returns when all is done that was handed over. Nothing may be handed over from now on.
func (a *applier) drain() {
	a.mu.Lock()
	a.isOver = true
	a.awake.Signal()
	a.mu.Unlock()
	<-a.done
}

// mostBehind is how many committed entries may wait for the machine before proposals are refused.
const mostBehind = 5000

// isBehind tells whether so much waits for the machine that no more is proposed here.
func (n *Node) isBehind() bool {
	return atomic.LoadUint64(&n.commit) > atomic.LoadUint64(&n.applied)+mostBehind
}

// handOver gives the applier entries that are committed and saved. Changes of members are made here and now: they are none of the
// machine's, and raft counts votes by them. It returns false once this member is none of the group.
func (n *Node) handOver(entries []raftpb.Entry) bool {
	if len(entries) == 0 {
		return true
	}
	isMember := true
	for i := range entries {
		entry := &entries[i]
		switch entry.Type {
		case raftpb.EntryNormal:
		case raftpb.EntryConfChange:
			isMember = n.applyChange(entry) && isMember
		default:
			n.must("the log", fmt.Errorf("entry %d is of kind %v", entry.Index, entry.Type))
		}
		n.handed = entry.Index
		n.unsnapped += uint64(len(entry.Data))
	}
	n.applier.add(func() { n.apply(entries) })
	return isMember
}

// apply is called by the applier, as all that drives the machine.
func (n *Node) apply(entries []raftpb.Entry) {
	if n.isLeftOut {
		return // the machine lacks what stands before them: the next start applies them
	}
	for i := range entries {
		entry := &entries[i]
		if entry.Index <= atomic.LoadUint64(&n.received) {
			continue // a snapshot has it, which is restored soon or was
		}
		if entry.Type == raftpb.EntryNormal && len(entry.Data) > 8 { // (an empty one is that of a new leader)
			told, err := n.machine.Apply(entry.Index, entry.Data[8:])
			n.must("this member ends", err)
			n.tell(binary.LittleEndian.Uint64(entry.Data), told, nil)
		}
		n.setApplied(entry.Index)
	}
}

// restoreReceived begins in a snapshot of the leader that is saved.
func (n *Node) restoreReceived(m raftpb.SnapshotMetadata) {
	if m.Index < atomic.LoadUint64(&n.received) {
		return // a later one waits behind it
	} else if n.isEnding() {
		n.isLeftOut = true // the next start begins in it
		return
	}
	begun := time.Now()
	_, err := n.restore(m)
	if errors.Is(err, engine.ErrDamaged) {
		n.setAside(m) // (it was whole when it came)
	}
	n.must("the snapshot of the leader can't be read", err)
	n.cfg.Log.Infof("the snapshot at %d was restored in %v", m.Index, since(begun))
}

func (n *Node) isEnding() bool {
	select {
	case <-n.stop:
		return true
	default:
		return false
	}
}

// freeze begins to write a snapshot of what is applied when the applier comes to it. The members are those of the same entry,
// since all entries before are handed over already.
func (n *Node) freeze(index uint64, conf raftpb.ConfState, head head) {
	if atomic.LoadUint64(&n.applied) != index {
		n.written <- errReplaced
		return
	}
	write := n.machine.Freeze()
	go func() { n.written <- n.write(index, conf, head, write) }()
}

var errReplaced = errors.New("a snapshot of the leader came meanwhile")

// failLost tells all who wait that the outcome is unknown: what was passed on to a leader that is gone may be lost without a word.
// What is handed over already is told before.
func (n *Node) failLost() {
	n.mu.Lock()
	ids := make([]uint64, 0, len(n.waiting))
	for id := range n.waiting {
		ids = append(ids, id)
	}
	n.mu.Unlock()
	n.applier.add(func() {
		for _, id := range ids {
			n.tell(id, nil, engine.ErrOutcomeUnknown)
		}
	})
}

func since(begun time.Time) time.Duration { return time.Since(begun).Round(time.Millisecond) }
