package raftlog

import (
	"context"
	"encoding/binary"
	"fmt"
	"io"
	"sort"
	"sync/atomic"
	"time"

	"go.etcd.io/etcd/raft"
	"go.etcd.io/etcd/raft/raftpb"
)

func withID(id uint64, payload []byte) []byte {
	data := make([]byte, 8, 8+len(payload))
	binary.LittleEndian.PutUint64(data, id)
	return append(data, payload...)
}

// loop is the only one that takes what raft has ready.
func (n *Node) loop() {
	defer close(n.done)
	tick := time.NewTicker(n.cfg.Election / ticks)
	defer tick.Stop()
	for isAlive := true; isAlive; {
		select {
		case <-tick.C:
			n.tick()
		case ready := <-n.raft.Ready():
			isAlive = n.serve(ready)
		case err := <-n.written:
			n.hasWritten(err)
		case answer := <-n.snapshots:
			answer <- n.trySnapshot()
		case m := <-n.spoilt:
			n.replaceSpoilt(m)
		case id := <-n.leaving:
			n.disconnect(id)
		case it := <-n.hearings:
			n.takeHearing(it)
		case <-n.stop:
			isAlive = false
		}
	}
	n.stopOnce.Do(func() { close(n.stop) })
	n.applier.drain() // what is committed is told
	if n.isSaving {
		<-n.written
	}
	n.failAll()
	if n.hasUnsavedStarts() {
		n.saveStarts()
	}
	n.release()
}

func (n *Node) tick() {
	atomic.StoreInt64(&n.turned, time.Now().UnixNano())
	n.raft.Tick()
	if len(n.conf.Voters) == 1 && n.conf.Voters[0] == n.cfg.Self.ID && atomic.LoadUint64(&n.lead) == raft.None {
		n.raft.Campaign(context.Background()) // alone: there is no one to wait for
	}
	n.sayContacts(time.Now())
}

// must ends the process: after a failed write nobody knows what is on the disk, and a member that goes on may break what it
// promised.
func (n *Node) must(what string, err error) {
	if err != nil {
		n.cfg.Fatal(fmt.Errorf("%s: %w", what, err))
	}
}

// serve does what raft has ready. Each step has its place, and none waits for the machine. It returns false once this member is
// none of the group.
func (n *Node) serve(ready raft.Ready) bool {
	n.note(ready)
	// 1. A leader may send before it saves: its followers save beside it. It hears of no commit before it has saved,
	// since the next Ready comes only after Advance. Everybody else saves first: a vote or an acknowledgement is a promise.
	// So does a leader who alone votes: its messages tell learners of commits that rest on its own log.
	isMember, committed := true, ready.CommittedEntries
	sendsFirst := n.isLeader && len(n.conf.Voters) > 1
	if sendsFirst {
		n.send(ready.Messages)
	}
	if n.isLeader {
		// What was saved before is applied and told now, so it does not wait for the sync of what came behind it.
		var saved []raftpb.Entry
		saved, committed = split(committed, ready.Entries)
		isMember = n.handOver(saved)
	}
	// 2. What is applied and told from here on is on disk.
	n.save(ready)
	// 3. Whoever counts votes must know the members of the entries that are committed: so these are handed over first.
	isMember = n.handOver(committed) && isMember
	if !sendsFirst {
		n.send(ready.Messages)
	}
	n.giveReads(ready.ReadStates)
	n.must("the mark can't be written", n.writeMark(mark{n.handed, atomic.LoadUint64(&n.term)}))
	if !raft.IsEmptySnap(ready.Snapshot) {
		n.step("answer to a snapshot")
	}
	// 4. Raft counts what is handed over as applied: it gives nothing twice. Readers wait for the applier.
	n.raft.Advance()
	n.tellChanges()
	if isMember && n.isDue() {
		n.trySnapshot()
	}
	return isMember
}

// save writes the log. A snapshot comes before the hard state that counts on it: else a crash leaves a log that no start can
// read.
func (n *Node) save(ready raft.Ready) {
	if !raft.IsEmptySnap(ready.Snapshot) {
		n.saveReceived(ready.Snapshot)
		n.step("hard state behind a snapshot")
	}
	// This syncs if there are entries, or a new term or vote.
	n.must("the log can't be written", n.wal.Save(ready.HardState, ready.Entries))
	if !raft.IsEmptySnap(ready.Snapshot) {
		n.takeReceived(ready.Snapshot)
	}
	n.must("the log can't be kept", n.storage.Append(ready.Entries))
}

// isDue tells whether it is time for a snapshot.
func (n *Node) isDue() bool {
	isLong := n.handed-atomic.LoadUint64(&n.saved) >= n.cfg.SnapshotEvery || n.unsnapped >= n.cfg.SnapshotBytes
	return isLong && !n.isSaving && time.Now().After(n.retryAt)
}

func (n *Node) note(ready raft.Ready) {
	if !raft.IsEmptyHardState(ready.HardState) {
		atomic.StoreUint64(&n.term, ready.HardState.Term)
		atomic.StoreUint64(&n.commit, ready.HardState.Commit)
	}
	if ready.SoftState != nil {
		before := atomic.SwapUint64(&n.lead, ready.SoftState.Lead)
		if before != ready.SoftState.Lead && before != raft.None {
			n.failLost() // whoever waits asks again
		}
		n.isLeader = ready.SoftState.RaftState == raft.StateLeader
		n.sayRole(before, ready.SoftState, atomic.LoadUint64(&n.term))
	}
}

// split gives the committed entries that were saved before, and those that are among the new ones.
func split(committed, unsaved []raftpb.Entry) (before, among []raftpb.Entry) {
	if len(unsaved) == 0 {
		return committed, nil
	}
	count := sort.Search(len(committed), func(i int) bool { return committed[i].Index >= unsaved[0].Index })
	return committed[:count], committed[count:]
}

// saveReceived notes a snapshot of the leader, whose file was received and found whole.
func (n *Node) saveReceived(received raftpb.Snapshot) {
	m := received.Metadata
	head, err := n.readSnapshot(m.Index, func(io.Reader) error { return nil })
	n.must("the snapshot of the leader can't be read", err)
	n.failAll() // what waits may be in it, and is not applied here any more
	n.record(received)
	n.beginAt(m, head)
}

// takeReceived goes on behind a snapshot of the leader that is saved, and from now on acknowledged. It is restored beside the
// loop.
func (n *Node) takeReceived(received raftpb.Snapshot) {
	m := received.Metadata
	n.step("sync behind a snapshot")
	n.must("the log can't be synced", n.wal.Sync()) // a hard state alone was perhaps not synced
	n.must("the log can't be kept", n.storage.ApplySnapshot(received))
	n.renewPeers()
	atomic.StoreUint64(&n.received, m.Index)
	n.applier.add(func() { n.restoreReceived(m) })
	n.step("end of a snapshot that was received")
	n.must("old files can't be removed", n.purge())
}
