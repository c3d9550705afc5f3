package raftlog

import (
	"context"
	"encoding/binary"
	"errors"
	"testing"
	"time"

	"go.etcd.io/etcd/raft"
	"go.etcd.io/etcd/raft/tracker"

	"lrcman/service/internal/engine"
)

// fakeRaft is a raft that tests answer for.
type fakeRaft struct {
	raft.Node
	reads    chan uint64 // the numbers of questions for a read index
	proposed chan context.Context
	refuses  error // what Propose returns; nil: it takes as long as its context
	status   raft.Status
}

func (f *fakeRaft) ReadIndex(_ context.Context, text []byte) error {
	f.reads <- binary.LittleEndian.Uint64(text)
	return nil
}

func (f *fakeRaft) Propose(ctx context.Context, _ []byte) error {
	f.proposed <- ctx
	if f.refuses != nil {
		return f.refuses
	}
	<-ctx.Done()
	return ctx.Err()
}

func (f *fakeRaft) Status() raft.Status { return f.status }

// newFaked is a member whose raft tests answer for. Nothing but readers is served.
func newFaked(t *testing.T) (*Node, *fakeRaft) {
	t.Helper()
	numbers, err := newNumbers(1)
	if err != nil {
		t.Fatal(err)
	}
	f := &fakeRaft{reads: make(chan uint64, 1000), proposed: make(chan context.Context, 10)}
	n := &Node{cfg: Config{Self: alone}, machine: &list{}, raft: f, numbers: numbers,
		waiting: map[uint64]chan outcome{}, reads: map[uint64]chan uint64{},
		round: newRound(), readers: make(chan struct{}, 1), snapshots: make(chan chan error), done: make(chan struct{})}
	go n.readLoop()
	t.Cleanup(func() { close(n.done) })
	return n, f
}

func (n *Node) answerRead(number uint64) {
	text := make([]byte, 8)
	binary.LittleEndian.PutUint64(text, number)
	n.giveReads([]raft.ReadState{{RequestCtx: text}})
}

// answerUntil answers all questions until a reader is told.
func (n *Node) answerUntil(f *fakeRaft, told <-chan error) error {
	for {
		select {
		case number := <-f.reads:
			n.answerRead(number)
		case err := <-told:
			return err
		case <-time.After(long):
			return errors.New("nothing comes")
		}
	}
}

// reader asks, and the channel has what it is told.
func reader(ctx context.Context, n *Node) <-chan error {
	told := make(chan error, 1)
	go func() { told <- n.Barrier(ctx) }()
	return told
}

func (n *Node) readersWaiting() int {
	n.mu.Lock()
	defer n.mu.Unlock()
	return n.round.waiting
}

func TestAnAnswerToAnOldQuestionIsAnOldAnswer(t *testing.T) {
	t.Parallel()
	n, f := newFaked(t)
	told := reader(context.Background(), n)
	first, second := <-f.reads, <-f.reads
	if first == second {
		t.Fatal("it is asked again with its old number")
	}
	n.answerRead(first)
	select {
	case err := <-told:
		t.Error("it takes the answer to its first question", err)
	case third := <-f.reads:
		n.answerRead(third)
		if err := <-told; err != nil {
			t.Error(err)
		}
	}
}

// Whoever comes while a majority is being asked is not in that question: what was told meanwhile would be missing.
func TestAReaderIsAskedForAfterItCame(t *testing.T) {
	t.Parallel()
	n, f := newFaked(t)
	one := reader(context.Background(), n)
	first, before := <-f.reads, n.readersWaiting()
	other := reader(context.Background(), n)
	eventually(t, "the other one comes", func() bool { return n.readersWaiting() > before })
	n.answerRead(first)
	if err := <-one; err != nil {
		t.Error(err)
	}
	select {
	case err := <-other:
		t.Error("it takes the answer to a question of before it came", err)
	case second := <-f.reads:
		n.answerRead(second)
		if err := <-other; err != nil {
			t.Error(err)
		}
	}
}

func TestAReaderWaitsAsLongAsItLikes(t *testing.T) {
	t.Parallel()
	n, f := newFaked(t)
	told := reader(context.Background(), n)
	for i := 0; i < int(6*time.Second/again); i++ {
		select {
		case <-f.reads:
		case err := <-told:
			t.Fatalf("after %d questions: %v", i, err)
		}
	}
	if err := n.answerUntil(f, told); err != nil {
		t.Error(err)
	}
}

// A majority is asked as long as somebody waits for it, and no longer: the next reader would wait behind it.
func TestNobodyAsksForReadersWhoLeft(t *testing.T) {
	t.Parallel()
	n, f := newFaked(t)
	ctx, leave := context.WithCancel(context.Background())
	one, other := reader(ctx, n), reader(ctx, n)
	<-f.reads
	leave()
	for _, told := range []<-chan error{one, other} {
		if err := <-told; err != engine.ErrNoLeader {
			t.Error(err)
		}
	}
	told := reader(context.Background(), n)
	if err := n.answerUntil(f, told); err != nil {
		t.Error(err)
	}
}

func TestAProposalThatRaftDoesNotTakeIsToldWhy(t *testing.T) {
	t.Parallel()
	n, f := newFaked(t)
	if _, err := n.Propose(context.Background(), []byte("x")); err != engine.ErrNoLeader || len(f.proposed) > 0 {
		t.Errorf("without a leader: %v, and raft was asked %d times", err, len(f.proposed))
	}
	n.lead = 1
	leads := raft.Status{Progress: map[uint64]tracker.Progress{1: {}}}
	leads.RaftState = raft.StateLeader
	moves, removed := leads, leads
	moves.LeadTransferee, removed.Progress = 2, nil
	for name, it := range map[string]struct {
		status  raft.Status
		refuses error
		want    error
	}{
		"too much waits to be committed": {leads, raft.ErrProposalDropped, engine.ErrBusy},
		"the leader is being moved":      {moves, raft.ErrProposalDropped, engine.ErrNoLeader},
		"the leader was removed":         {removed, raft.ErrProposalDropped, engine.ErrNoLeader},
		"it is no leader any more":       {raft.Status{}, raft.ErrProposalDropped, engine.ErrNoLeader},
		"raft has ended":                 {leads, raft.ErrStopped, engine.ErrOutcomeUnknown},
	} {
		f.status, f.refuses = it.status, it.refuses
		if _, err := n.Propose(context.Background(), []byte("x")); err != it.want {
			t.Errorf("%s: %v, and not %v", name, err, it.want)
		}
	}
	if len(n.waiting) > 0 {
		t.Errorf("%d wait", len(n.waiting))
	}
}

// Where the leader is lost while raft has not taken a proposal yet, raft would wait for the next one.
func TestAProposalEndsWithItsLeader(t *testing.T) {
	t.Parallel()
	n, f := newFaked(t)
	n.lead = 1
	told := make(chan error, 1)
	go func() {
		_, err := n.Propose(context.Background(), []byte("x"))
		told <- err
	}()
	ctx := <-f.proposed
	n.failAll()
	if err := <-told; err != engine.ErrOutcomeUnknown {
		t.Error(err)
	}
	<-ctx.Done()
}

// The loop may wait for a slow disk, and a request for a snapshot does not wait for ever with it.
func TestASnapshotIsNotWaitedForWithoutLimit(t *testing.T) {
	t.Parallel()
	n, _ := newFaked(t)
	ctx, cancel := context.WithTimeout(context.Background(), 50*time.Millisecond)
	defer cancel()
	if err := n.Snapshot(ctx); err != engine.ErrBusy {
		t.Error(err)
	}
	ctx, cancel = context.WithTimeout(context.Background(), 50*time.Millisecond)
	defer cancel()
	go func() { <-n.snapshots }() // (taken, and not answered)
	if err := n.Snapshot(ctx); err != engine.ErrBusy {
		t.Error(err)
	}
}
