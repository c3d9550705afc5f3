package raftlog

import (
	"bytes"
	"context"
	"fmt"
	"path/filepath"
	"strings"
	"sync"
	"testing"
	"time"

	"go.etcd.io/etcd/raft/raftpb"

	"lrcman/service/internal/engine"
	"lrcman/service/internal/testports"
)

// hold makes a machine wait before it applies a payload, until the function is called that hold returns. begun is closed once it
// waits.
func hold(machine *list, payload string) (begun chan struct{}, goOn func()) {
	begun, released := make(chan struct{}), make(chan struct{})
	var first, last sync.Once
	machine.waitBefore(func(text string) {
		if text == payload {
			first.Do(func() { close(begun) })
			<-released
		}
	})
	return begun, func() { last.Do(func() { close(released) }) }
}

// stays watches for so long that a leader leads, in one term, as all members see it.
func (g *group) stays(leader uint64, howLong time.Duration) {
	g.t.Helper()
	term := g.nodes[leader].Status().Term
	for end := time.Now().Add(howLong); time.Now().Before(end); time.Sleep(10 * time.Millisecond) {
		for id, n := range g.nodes {
			if status := n.Status(); status.Leader != leader || status.Term != term {
				g.t.Fatalf("member %d knows %d as leader in term %d, and not %d in %d", id, status.Leader, status.Term, leader, term)
			}
		}
	}
}

// patient makes elections so long that a busy machine makes none.
func patient(cfg *Config) { cfg.Election = time.Second }

func TestALeaderWhoseMachineIsSlowStaysTheLeader(t *testing.T) {
	t.Parallel()
	g := groupOf(t, 3, patient)
	propose(t, g.nodes[1], "entry 1")
	leader := g.leader()
	begun, goOn := hold(g.machines[leader], "entry 2")
	defer goOn() // (before the members are closed)
	told := make(chan interface{}, 1)
	go func() { told <- propose(t, g.nodes[leader], "entry 2") }()
	<-begun
	g.stays(leader, 3*g.configs[1].Election)
	other := g.nodes[g.other(leader)]
	if told := propose(t, other, "entry 3"); told != 3 { // (its own machine has applied it)
		t.Errorf("told %v", told)
	}
	ctx, cancel := context.WithTimeout(context.Background(), 200*time.Millisecond)
	defer cancel()
	if err := g.nodes[leader].Barrier(ctx); err == nil {
		t.Error("a reader does not wait until it is applied")
	}
	goOn()
	if told := <-told; told != 2 {
		t.Errorf("told %v", told)
	}
	g.alike(texts(1, 3))
}

// cutBehind takes a member away until the log of the others is cut behind it.
func (g *group) cutBehind(away uint64, from, to int) {
	g.t.Helper()
	g.nodes[away].Close()
	delete(g.nodes, away)
	proposeAll(g.t, g.nodes[g.leader()], texts(from, to))
	for _, n := range g.nodes {
		barrier(g.t, n)
		if err := n.Snapshot(context.Background()); err != nil {
			g.t.Fatal(err)
		}
	}
	eventually(g.t, "the log is cut", func() bool {
		for _, n := range g.nodes {
			if status := n.Status(); status.First < uint64(to-10) || status.Snapshot < uint64(to) {
				return false
			}
		}
		return true
	})
}

func TestARestoreDoesNotHoldUpTheGroup(t *testing.T) {
	t.Parallel()
	g := groupOf(t, 3, patient, func(cfg *Config) { cfg.Trailing = 5 })
	propose(t, g.nodes[1], "entry 1")
	leader := g.leader()
	away := g.other(leader)
	begun, released := make(chan struct{}), make(chan struct{})
	var once sync.Once
	goOn := func() { once.Do(func() { close(released) }) }
	defer goOn() // (before the members are closed)
	g.cutBehind(away, 2, 60)
	g.startWith(away, &list{beforeRestore: func() {
		close(begun)
		<-released
	}})
	<-begun
	for id := range g.nodes { // the third one goes: what is restoring is needed for a majority
		if id != leader && id != away {
			g.nodes[id].Close()
			delete(g.nodes, id)
		}
	}
	since := time.Now()
	for i := 61; i <= 70 || time.Since(since) < 3*g.configs[1].Election; i++ {
		if propose(t, g.nodes[leader], fmt.Sprintf("note %d", i)); len(g.machines[away].all()) > 1 {
			t.Fatal("it has restored")
		}
		g.stays(leader, 20*time.Millisecond)
	}
	want := g.machines[leader].all()
	goOn()
	g.alike(want)
	g.nodes[away].Close() // and it starts again from there
	g.start(away)
	g.alike(want)
}

func TestNothingIsProposedWhereTooMuchWaits(t *testing.T) {
	t.Parallel()
	cfg, _ := configOf(t, t.TempDir(), alone, alone)
	n, machine := begin(t, cfg)
	propose(t, n, "first")
	begun, goOn := hold(machine, "held")
	defer goOn() // (before the members are closed)
	ctx, cancel := context.WithTimeout(context.Background(), long)
	defer cancel()
	var all sync.WaitGroup
	ask := func(text string) {
		defer all.Done()
		if _, err := n.Propose(ctx, []byte(text)); err != nil && err != engine.ErrBusy {
			t.Errorf("%s: %v", text, err)
		}
	}
	all.Add(1)
	go ask("held")
	<-begun
	for i := 0; i < mostBehind+100; i++ {
		all.Add(1)
		go ask(fmt.Sprintf("note %d", i))
	}
	eventually(t, "a proposal is refused", func() bool {
		soon, cancel := context.WithTimeout(ctx, time.Millisecond)
		defer cancel()
		_, err := n.Propose(soon, []byte("one more"))
		return err == engine.ErrBusy
	})
	if behind := n.Status().Commit - n.Status().Applied; behind <= mostBehind || behind > mostBehind+1000 {
		t.Errorf("%d wait", behind)
	}
	goOn()
	all.Wait() // each was told, or refused
	propose(t, n, "last")
}

func TestWhatIsCommittedIsToldBeforeTheEnd(t *testing.T) {
	t.Parallel()
	cfg, _ := configOf(t, t.TempDir(), alone, alone)
	n, machine := begin(t, cfg)
	propose(t, n, "first")
	before := n.Status().Commit
	begun, goOn := hold(machine, "note 0")
	var all sync.WaitGroup
	for i := 0; i < 20; i++ {
		all.Add(1)
		go func(i int) {
			defer all.Done()
			if _, err := n.Propose(context.Background(), []byte(fmt.Sprintf("note %d", i))); err != nil {
				t.Errorf("note %d: %v", i, err)
			}
		}(i)
	}
	<-begun
	eventually(t, "all are committed", func() bool { return n.Status().Commit == before+20 })
	ended := make(chan struct{})
	go func() {
		n.Close()
		close(ended)
	}()
	select {
	case <-ended:
		t.Error("it does not wait for its machine")
	case <-time.After(100 * time.Millisecond):
	}
	goOn()
	<-ended
	all.Wait()
}

// The index of a snapshot, the members that raft counts with and those in its file are of one moment, though changes of members
// are made before the machine has applied what stands before them.
func TestASnapshotIsOfOneMoment(t *testing.T) {
	t.Parallel()
	self := engine.Member{ID: 1, Peer: testports.Free(t), Client: "127.0.0.1:1"}
	cfg, _ := configOf(t, t.TempDir(), self, self)
	n, machine := begin(t, cfg)
	propose(t, n, "first")
	begun, goOn := hold(machine, "held")
	defer goOn() // (before the members are closed)
	go n.Propose(context.Background(), []byte("held"))
	<-begun
	at := n.Status().Commit
	if err := n.Snapshot(context.Background()); err != nil {
		t.Fatal(err)
	}
	ctx, cancel := context.WithTimeout(context.Background(), long)
	defer cancel()
	learner := engine.Member{ID: 2, Peer: testports.Free(t), Client: "127.0.0.1:2", Learner: true}
	if _, err := n.Add(ctx, learner, false); err != nil { // (it waits for no book)
		t.Fatal(err)
	}
	if n.Status().Applied >= at {
		t.Fatal("it does not wait")
	}
	goOn()
	expectSnapshot(t, n, cfg, at, 1)
	barrier(t, n)
	after := n.Status().Commit
	eventually(t, "the next one is begun", func() bool { return n.Snapshot(context.Background()) == nil })
	expectSnapshot(t, n, cfg, after, 2)
}

// expectSnapshot waits for the snapshot at an index, and expects so many members in it.
func expectSnapshot(t *testing.T, n *Node, cfg Config, index uint64, members int) {
	t.Helper()
	eventually(t, "a snapshot is made", func() bool { return n.Status().Snapshot >= index })
	made, err := n.storage.Snapshot()
	if err != nil || made.Metadata.Index != index {
		t.Fatalf("%v: it is at %d and not at %d", err, made.Metadata.Index, index)
	}
	if err := n.check(made.Metadata); err != nil {
		t.Error(err)
	}
	if conf := made.Metadata.ConfState; len(conf.Voters)+len(conf.Learners) != members {
		t.Errorf("raft counts with %v, and not with %d members", conf, members)
	}
}

func TestTooManyBytesMakeASnapshot(t *testing.T) {
	t.Parallel()
	cfg, _ := configOf(t, t.TempDir(), alone, alone)
	cfg.SnapshotBytes = 1 << 20
	n, _ := begin(t, cfg)
	text := strings.Repeat("x", 100<<10)
	for i := 0; i < 25; i++ {
		propose(t, n, fmt.Sprint("note ", i, text))
	}
	eventually(t, "a snapshot is made", func() bool { return n.Status().Snapshot >= 22 })
	proposeAll(t, n, texts(1, 200)) // few bytes
	if at := n.Status().Snapshot; at > 30 {
		t.Errorf("the last one is at %d", at)
	}
	n.Close()
	n, _ = begin(t, cfg) // the bytes of the log count too
	defer n.Close()
	before := n.Status().Snapshot
	for i := 0; i < 11; i++ {
		propose(t, n, fmt.Sprint("more ", i, text))
	}
	eventually(t, "another one is made", func() bool { return n.Status().Snapshot > before })
}

func TestFewBytesStayBehindASnapshot(t *testing.T) {
	entry := func(size int) raftpb.Entry { return raftpb.Entry{Data: bytes.Repeat([]byte{'x'}, size)} }
	for _, it := range []struct {
		entries []raftpb.Entry
		gone    uint64
	}{
		{nil, 0},
		{[]raftpb.Entry{entry(100), entry(100)}, 0},
		{[]raftpb.Entry{entry(100), entry(mostTrailing)}, 1},
		{[]raftpb.Entry{entry(100), entry(mostTrailing - 100), entry(1), entry(99)}, 1},
		{[]raftpb.Entry{entry(100), entry(mostTrailing + 1)}, 2},
	} {
		if got := leastLeft(it.entries); got != it.gone {
			t.Errorf("%d entries: %d go and not %d", len(it.entries), got, it.gone)
		}
	}
}

func TestAFewMebibytesOfTheLogStayInMemory(t *testing.T) {
	t.Parallel()
	cfg, _ := configOf(t, t.TempDir(), alone, alone)
	cfg.SnapshotBytes = 20 << 20
	n, machine := begin(t, cfg)
	machine.forget()
	text := strings.Repeat("x", 1<<20)
	for i := 0; i < 45; i++ {
		propose(t, n, fmt.Sprint("note ", i, text))
	}
	eventually(t, "the log is cut", func() bool { return n.Status().First > 45-20-16 })
	if found, _ := filepath.Glob(filepath.Join(cfg.Dir, "snap", "*.snap")); len(found) == 0 {
		t.Error("there is no snapshot")
	}
}

// A member that ends does not restore what it has got. Then it may not go on from its old books, nor write them as a snapshot.
func TestNothingIsAppliedBehindASnapshotThatIsNotRestored(t *testing.T) {
	t.Parallel()
	cfg, _ := configOf(t, t.TempDir(), alone, alone)
	machine := &list{}
	n := newNode(cfg, machine)
	var err error
	if n.numbers, err = newNumbers(1); err != nil {
		t.Fatal(err)
	}
	close(n.stop)
	n.received = 100
	id, told := n.wait()
	n.restoreReceived(raftpb.SnapshotMetadata{Index: 100, Term: 1})
	n.apply([]raftpb.Entry{{Index: 101, Term: 1, Type: raftpb.EntryNormal, Data: withID(id, []byte("entry 1"))}})
	expect(t, machine, nil)
	if n.Status().Applied != 0 || len(told) != 0 {
		t.Errorf("%d is applied, and %d are told", n.Status().Applied, len(told))
	}
	n.freeze(101, raftpb.ConfState{}, head{})
	if err := <-n.written; err != errReplaced {
		t.Errorf("a snapshot is written: %v", err)
	}
}
