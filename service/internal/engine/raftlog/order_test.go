package raftlog

import (
	"context"
	"errors"
	"fmt"
	"net/http"
	"os"
	"path/filepath"
	"runtime"
	"strings"
	"sync"
	"sync/atomic"
	"testing"
	"time"

	"go.etcd.io/etcd/raft"
	"go.etcd.io/etcd/raft/raftpb"
	"go.etcd.io/etcd/wal"

	"lrcman/service/internal/engine"
)

// events are the steps of snapshots, and the folders whose names were made safe, in their order.
type events struct {
	mu  sync.Mutex
	all []string
}

func (e *events) add(what string) {
	e.mu.Lock()
	defer e.mu.Unlock()
	e.all = append(e.all, what)
}

func (e *events) of(cfg *Config) {
	cfg.Knobs.Step = e.add
	cfg.Knobs.SyncFolder = func(path string) error {
		e.add("names in " + filepath.Base(path))
		return syncFolder(path)
	}
}

// follow tells how often one event was there, and whether the next one but for some others was each time the second.
func (e *events) follow(first, second string, others ...string) (count int, isAlways bool) {
	e.mu.Lock()
	defer e.mu.Unlock()
	isAlways = true
	for i := range e.all {
		if e.all[i] != first {
			continue
		}
		next := i + 1
		for next < len(e.all) && strings.Contains(strings.Join(others, ","), e.all[next]) {
			next++
		}
		if next < len(e.all) {
			count, isAlways = count+1, isAlways && e.all[next] == second
		}
	}
	return count, isAlways
}

// A power cut may take names back that were not made safe: then a snapshot that the log tells of is gone, or a file of the log is
// back whose next one is not.
func TestNamesAreSafeBeforeTheNextStep(t *testing.T) {
	t.Parallel()
	cfg, _ := configOf(t, t.TempDir(), alone, alone)
	cfg.SnapshotEvery, cfg.Trailing = 4, 0
	found := &events{}
	found.of(&cfg)
	n, _ := begin(t, cfg)
	big := strings.Repeat("x", 8<<10) // (a file of the log has 64 KiB here)
	var snapshots, removals int
	var areSafe, areRemoved bool
	eventually(t, "old files of the log go", func() bool {
		propose(t, n, big)
		other := "names in " + filepath.Base(cfg.Dir)
		snapshots, areSafe = found.follow("names of a snapshot", "names in snap", other)
		removals, areRemoved = found.follow("sync of a removal", "names in wal", other)
		return snapshots > 3 && removals > 3
	})
	if !areSafe || !areRemoved {
		t.Errorf("names of snapshots: %v, names of removed files of the log: %v", areSafe, areRemoved)
	}
}

// What says that a member has a snapshot of the leader is on its disk before the leader hears of it.
func TestASnapshotThatCameIsSynced(t *testing.T) {
	t.Parallel()
	g := groupOf(t, 3, func(cfg *Config) { cfg.Trailing = 5 })
	propose(t, g.nodes[1], "entry 1")
	away := g.other(g.leader())
	g.cutBehind(away, 2, 60)
	cfg := g.configs[away]
	var log *wal.WAL
	fatal := make(chan error, 10)
	cfg.Knobs.Opened = func(opened *wal.WAL) { log = opened }
	cfg.Knobs.Step = func(what string) {
		switch what {
		case "sync behind a snapshot":
			log.Close() // from now on nothing can be synced
		case "end of a snapshot that was received":
			fatal <- errors.New("it goes on")
		}
	}
	cfg.Fatal = func(err error) {
		fatal <- err
		runtime.Goexit()
	}
	n, err := Start(cfg, &list{})
	if err != nil {
		t.Fatal(err)
	}
	t.Cleanup(func() {
		n.stopOnce.Do(func() { close(n.stop) })
		<-n.done
		n.applier.drain()
		n.release()
	})
	select {
	case err := <-fatal:
		if !strings.Contains(err.Error(), "the log can't be synced") {
			t.Error(err)
		}
	case <-time.After(long):
		t.Fatal("no snapshot comes")
	}
}

// still is a member alone that has begun, and whose loop is the test.
func still(t *testing.T) *Node {
	t.Helper()
	self := memberAt(t, 1)
	cfg, _ := configOf(t, t.TempDir(), self, self)
	n := newNode(cfg, &list{})
	t.Cleanup(n.release)
	if err := n.begin(); err != nil {
		t.Fatal(err)
	}
	for !n.isLeader {
		select {
		case ready := <-n.raft.Ready():
			n.serve(ready)
		case <-time.After(10 * time.Millisecond):
			n.raft.Campaign(context.Background())
		}
	}
	return n
}

// Whoever is spoken to is known by then: votes and acknowledgements are counted by the members of what is committed.
func TestMembersAreChangedBeforeAnythingIsSent(t *testing.T) {
	t.Parallel()
	n, added := still(t), memberAt(t, 2)
	var heard int64
	server := &http.Server{Addr: added.Peer, Handler: http.HandlerFunc(func(_ http.ResponseWriter, r *http.Request) {
		if r.Method == http.MethodPost {
			atomic.AddInt64(&heard, 1)
		}
	})}
	go server.ListenAndServe()
	t.Cleanup(func() { server.Close() })
	ctx, cancel := context.WithCancel(context.Background())
	t.Cleanup(cancel)
	go n.reconfigure(ctx, raftpb.ConfChangeAddLearnerNode, wish{learner(added), n.roster().changes})
	hello := raftpb.Message{Type: raftpb.MsgHeartbeat, From: 1, To: 2, Term: atomic.LoadUint64(&n.term)}
	for isChange := false; !isChange; {
		ready := <-n.raft.Ready()
		for _, entry := range ready.CommittedEntries {
			isChange = isChange || entry.Type == raftpb.EntryConfChange
		}
		if isChange { // of one who alone votes it is committed as it is proposed
			ready.Messages = []raftpb.Message{hello}
		}
		n.serve(ready)
	}
	eventually(t, "the new member hears what was sent with its entry", func() bool { return atomic.LoadInt64(&heard) > 0 })
}

// A proposal may be in the snapshot that comes, and is not applied here any more: its caller is told at once that nobody knows.
func TestWhoeverWaitsIsToldWhenASnapshotComes(t *testing.T) {
	t.Parallel()
	n := still(t)
	_, told := n.wait()
	m := raftpb.SnapshotMetadata{Index: n.handed + 9, Term: atomic.LoadUint64(&n.term), ConfState: n.conf}
	if err := n.writeFile(n.fileOf(m.Index), n.head(), n.machine.Freeze()); err != nil {
		t.Fatal(err)
	}
	n.saveReceived(raftpb.Snapshot{Metadata: m})
	select {
	case it := <-told:
		if it.err != engine.ErrOutcomeUnknown {
			t.Errorf("%v, %v", it.told, it.err)
		}
	default:
		t.Error("it waits on")
	}
}

// What was passed on to a leader that is gone may stand in the log all the same.
func TestWhoeverWaitsIsToldWhenTheLeaderIsLost(t *testing.T) {
	t.Parallel()
	n := still(t)
	_, told := n.wait()
	n.note(raft.Ready{SoftState: &raft.SoftState{Lead: raft.None, RaftState: raft.StateFollower}})
	go n.applier.run()
	n.applier.drain()
	select {
	case it := <-told:
		if it.err != engine.ErrOutcomeUnknown {
			t.Errorf("%v, %v", it.told, it.err)
		}
	default:
		t.Error("it waits on")
	}
}

// Entries between two snapshots that came would be applied to a state of before the first, which is not restored for the second.
func TestWhatASnapshotHasIsNotApplied(t *testing.T) {
	t.Parallel()
	n := still(t)
	for i, text := range texts(1, 3) {
		n.handOver([]raftpb.Entry{{Index: n.handed + 1, Term: 1, Data: withID(uint64(i+1), []byte(text))}})
	}
	atomic.StoreUint64(&n.received, n.handed-1)
	go n.applier.run()
	n.applier.drain()
	expect(t, n.machine.(*list), texts(3, 3))
}

func TestSomeEntriesStayBehindASnapshot(t *testing.T) {
	t.Parallel()
	cfg, _ := configOf(t, t.TempDir(), alone, alone)
	cfg.Trailing = 5
	n, _ := begin(t, cfg)
	proposeAll(t, n, texts(1, 20))
	if err := n.Snapshot(context.Background()); err != nil {
		t.Fatal(err)
	}
	eventually(t, "the log is cut", func() bool { return n.Status().First > 1 })
	if status := n.Status(); status.First != status.Snapshot-cfg.Trailing+1 {
		t.Errorf("%d entries stay, and not %d", status.Snapshot-status.First+1, cfg.Trailing)
	}
}

func TestALeaderThatHearsNobodyLeadsNoMore(t *testing.T) {
	t.Parallel()
	g := groupOf(t, 3)
	propose(t, g.nodes[1], "entry 1")
	leader := g.leader()
	for id := range g.nodes {
		if id != leader {
			g.close(id)
		}
	}
	eventually(t, "it leads no more", func() bool { return g.nodes[leader].Status().Leader == raft.None })
}

// One that was cut off deposes nobody when it is back: its term is that of before.
func TestAMemberThatHearsNobodyStaysInItsTerm(t *testing.T) {
	t.Parallel()
	g := groupOf(t, 3, patient)
	propose(t, g.nodes[1], "entry 1")
	away := g.nodes[g.other(g.leader())]
	barrier(t, away)
	term := away.Status().Term
	end := time.Now().Add(4 * g.configs[1].Election)
	eventually(t, "it knows no leader for a while", func() bool {
		away.setDoubted(true) // (it hears nobody, and nobody hears it)
		return away.Status().Leader == raft.None && time.Now().After(end)
	})
	if now := away.Status().Term; now > term {
		t.Errorf("its term is %d, and was %d", now, term)
	}
}

// keepNow copies what a kill would leave now of the log and of snapshots.
func keepNow(from, to string) error {
	for _, pattern := range []string{markName, identityName, "snap/*.snap", "snap/*.snap.db", "wal/*.wal"} {
		found, err := filepath.Glob(filepath.Join(from, pattern))
		if err != nil {
			return err
		}
		for _, path := range found {
			place := filepath.Join(to, strings.TrimPrefix(path, from))
			if err := os.MkdirAll(filepath.Dir(place), 0o700); err != nil {
				return err
			}
			text, err := os.ReadFile(path)
			if err == nil {
				err = os.WriteFile(place, text, 0o600)
			}
			if err != nil {
				return err
			}
		}
	}
	return nil
}

// canStart tells why a folder is none that a member can start from.
func canStart(cfg Config, folder string) error {
	cfg.Dir, cfg.Knobs = folder, Knobs{}
	n := newNode(cfg, &list{})
	defer n.release()
	for _, step := range []func() error{n.takeFolder, n.openMark, n.openIdentity} {
		if err := step(); err != nil {
			return err
		}
	}
	if isOld, err := n.openLog(); err != nil || !isOld {
		return fmt.Errorf("it begins anew, or %w", err)
	}
	last, err := n.storage.LastIndex()
	if err == nil && atomic.LoadUint64(&n.commit) > last {
		err = errors.New("its log tells of more commits than it has entries")
	}
	return err
}

func TestAMemberThatEndsAtAStepOfASnapshotThatComesCanStart(t *testing.T) {
	t.Parallel()
	g := groupOf(t, 3, func(cfg *Config) { cfg.Trailing = 5 })
	propose(t, g.nodes[1], "entry 1")
	away := g.other(g.leader())
	g.cutBehind(away, 2, 60)
	cfg, room := g.configs[away], t.TempDir()
	var steps []string
	over := make(chan struct{})
	cfg.Knobs.Step = func(what string) { // (called by the loop, which writes nothing meanwhile)
		if len(steps) > 0 && steps[len(steps)-1] == "answer to a snapshot" {
			return
		}
		if err := keepNow(cfg.Dir, filepath.Join(room, fmt.Sprint(len(steps)))); err != nil {
			t.Error(err)
		}
		if steps = append(steps, what); what == "answer to a snapshot" {
			close(over)
		}
	}
	begin(t, cfg)
	select {
	case <-over:
	case <-time.After(long):
		t.Fatal("no snapshot comes")
	}
	if len(steps) < 6 {
		t.Errorf("steps: %v", steps)
	}
	for i, step := range steps {
		if err := canStart(cfg, filepath.Join(room, fmt.Sprint(i))); err != nil {
			t.Errorf("before step %q: %v", step, err)
		}
	}
}

// Where the newest snapshot can't be read, a start begins in the one before: so the log reaches back to that at any time.
func TestTheLogReachesBackToTheSnapshotBefore(t *testing.T) {
	t.Parallel()
	cfg, _ := configOf(t, t.TempDir(), alone, alone)
	cfg.Trailing = 0
	room, copies := t.TempDir(), 0
	var quiet sync.Mutex // while the log is copied nothing is written
	cfg.Knobs.Step = func(what string) {
		if what != "sync of a removal" {
			return
		}
		quiet.Lock()
		defer quiet.Unlock()
		copies++
		if err := keepNow(cfg.Dir, filepath.Join(room, fmt.Sprint(copies))); err != nil {
			t.Error(err)
		}
	}
	n, _ := begin(t, cfg)
	big := strings.Repeat("x", 8<<10) // (a file of the log has 64 KiB here)
	for i := 0; i < 60; i++ {
		quiet.Lock()
		propose(t, n, big)
		quiet.Unlock()
		if i%3 == 2 {
			before := n.Status().Snapshot
			eventually(t, "a snapshot is made", func() bool {
				n.Snapshot(context.Background())
				return n.Status().Snapshot > before
			})
		}
	}
	n.Close()
	if copies < 4 {
		t.Errorf("%d files of the log were removed", copies)
	}
	for i := 1; i <= copies; i++ {
		folder := filepath.Join(room, fmt.Sprint(i))
		newest := files(t, Config{Dir: folder}, "*.snap.db")
		change(t, newest[len(newest)-1], -1)
		if err := canStart(cfg, folder); err != nil {
			t.Errorf("after removal %d: %v", i, err)
		}
	}
}

func TestAFolderIsOfItsUserAlone(t *testing.T) {
	t.Parallel()
	folder := filepath.Join(t.TempDir(), "new")
	cfg, _ := configOf(t, folder, alone, alone)
	n, _ := begin(t, cfg)
	propose(t, n, "entry 1")
	n.Close()
	for _, path := range []string{folder, n.snapFolder(), n.logFolder(), filepath.Join(folder, markName),
		filepath.Join(folder, identityName)} {
		if info, err := os.Stat(path); err != nil || info.Mode().Perm()&0o077 != 0 {
			t.Errorf("%s: %v %v", path, info.Mode(), err)
		}
	}
}
