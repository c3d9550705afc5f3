// Package raftlog is an engine over etcd's own parts: raft, wal, snap and rafthttp of go.etcd.io/etcd 3.4.
//
// One goroutine, the loop, saves and sends what raft asks for, and hands what is committed to another, the applier. Its order is what
// makes an answer durable: see serve.
package raftlog

import (
	"context"
	"errors"
	"net/http"
	"os"
	"path/filepath"
	"sync"
	"sync/atomic"
	"time"

	"go.etcd.io/etcd/etcdserver/api/rafthttp"
	"go.etcd.io/etcd/etcdserver/api/snap"
	"go.etcd.io/etcd/pkg/fileutil"
	"go.etcd.io/etcd/pkg/transport"
	"go.etcd.io/etcd/raft"
	"go.etcd.io/etcd/raft/raftpb"
	"go.etcd.io/etcd/wal"
	"go.uber.org/zap"

	"lrcman/service/internal/engine"
	"lrcman/service/internal/logging"
)

// A Config says what a member is.
type Config struct {
	Dir           string // its folder
	Name          string // of the group: a folder of another one is refused
	New           bool   // the first members begin a new group; a folder that has begun goes on
	Self          engine.Member
	Members       []engine.Member // the first members, alike on all of them, this one included; empty where this one joins
	Listen        string          // HOST:PORT for the other members; "" for one alone
	TLS           transport.TLSInfo
	PeerNames     []string      // a certificate of a member has one of them; empty: any of its authority is one
	Patience      time.Duration // how long one that has not begun waits for the others
	Election      time.Duration // a leader that is silent so long is given up
	SnapshotEvery uint64        // entries between snapshots, at most
	SnapshotBytes uint64        // bytes of entries between snapshots, at most
	Trailing      uint64        // entries that stay behind a snapshot, for members that are a little late
	Log           *logging.Logger
	Fatal         func(error) // ends the process: after a failed write nobody knows what is on disk
	IsFull        func() bool // tells other members that the disk of this one has no room; nil: it always has
	Knobs         Knobs
}

// Knobs are what tests, and a program that is built with the tag faulty, do otherwise. Those that are nil change nothing.
type Knobs struct {
	Opened      func(*wal.WAL)          // is called with each log that is to be written
	SyncFolder  func(path string) error // makes the names in a folder safe from a power cut
	Step        func(what string)       // is called before each step of a snapshot that a crash may come before
	AskMajority func() error            // returns when all is applied that was told before, as a majority knows
}

// ticks is the number of raft's ticks in an election timeout.
const ticks = 10

// A Node is a member that runs. It is an engine.Engine.
type Node struct {
	cfg     Config
	machine engine.Machine
	lock    *fileutil.LockedFile
	raft    raft.Node
	storage *raft.MemoryStorage
	wal     *wal.WAL
	snaps   *snap.Snapshotter
	peers   *rafthttp.Transport
	port    *port
	asker   *http.Client
	numbers *numbers
	zap     *zap.Logger
	applier *applier

	turned                      int64  // atomic: when the loop turned last, in nanoseconds since 1970
	lead, term, commit, applied uint64 // atomic
	saved, received             uint64 // atomic: the index of the last snapshot, and of the last one of a leader since the start

	mu      sync.Mutex
	waiting map[uint64]chan outcome  // proposals of this member, by their numbers
	reads   map[uint64]chan uint64   // read indexes that were asked for
	behind  []applyWaiter            // readers who wait until an index is applied
	members map[uint64]engine.Member // part of the replicated state
	removed map[uint64]bool          // the same: no number is used again
	changes uint64                   // the same: how many changes of members were made
	round   *round                   // of the readers who come now
	err     error

	heard heard // when each member was last

	starts           map[uint64]heardStart // of the other members, by their numbers, as far as this one has heard of them
	vouched          map[uint64]start      // of those that others know, and this one does not
	vouchedAt        time.Time             // when others were asked last about a stranger
	areStartsUnsaved bool
	isDoubted        bool       // this member takes no part: another one knows another folder or start of it, or was not asked yet
	keeping          sync.Mutex // of files beside the log, and of the lock of the folder
	identity         identity
	number           uint64 // of this start
	began            reach  // of this start

	isLeftOut bool // of the applier: this member ends, and a snapshot was not restored

	// What follows is of the loop.
	conf      raftpb.ConfState
	isLeader  bool
	changed   []changeOutcome    // changes of members that nobody was told of yet
	known     uint64             // the last entry whose changes of members were known at the start
	contacts  map[uint64]contact // what was said of other members
	handed    uint64             // the last entry that the applier has got
	unsnapped uint64             // bytes of entries that are in no snapshot yet
	isSaving  bool               // a snapshot is being written
	frozen    uint64             // bytes of entries that are in that one and in none before
	retryAt   time.Time          // no snapshot before
	marked    mark
	markFile  *os.File

	readers    chan struct{}
	snapshots  chan chan error
	written    chan error
	spoilt     chan raftpb.SnapshotMetadata // snapshots that could not be sent
	leaving    chan uint64
	hearings   chan hearing
	stop, done chan struct{}
	stopOnce   sync.Once
}

type outcome struct {
	told interface{}
	err  error
}

// Start begins a member, or goes on with the one that the folder has.
func Start(cfg Config, machine engine.Machine) (*Node, error) {
	n := newNode(cfg, machine)
	if err := n.begin(); err != nil {
		n.release()
		return nil, err
	}
	go n.applier.run()
	atomic.StoreInt64(&n.turned, time.Now().UnixNano())
	go n.loop()
	go n.readLoop()
	go n.announce()
	go n.watch()
	go n.promoteLoop()
	return n, nil
}

func newNode(cfg Config, machine engine.Machine) *Node {
	return &Node{cfg: cfg, zap: cfg.Log.Zap(), machine: machine, storage: raft.NewMemoryStorage(), applier: newApplier(), contacts: map[uint64]contact{},
		spoilt: make(chan raftpb.SnapshotMetadata), waiting: map[uint64]chan outcome{},
		reads: map[uint64]chan uint64{}, members: map[uint64]engine.Member{}, removed: map[uint64]bool{},
		heard: heard{at: map[uint64]time.Time{}}, starts: map[uint64]heardStart{}, vouched: map[uint64]start{},
		hearings: make(chan hearing), round: newRound(), readers: make(chan struct{}, 1), snapshots: make(chan chan error),
		written: make(chan error, 1), leaving: make(chan uint64), stop: make(chan struct{}), done: make(chan struct{})}
}

func (n *Node) begin() (err error) {
	if n.numbers, err = newNumbers(n.cfg.Self.ID); err != nil {
		return err
	}
	for _, step := range []func() error{n.takeFolder, n.openMark, n.openIdentity, n.openStarts, n.newAsker, n.openPort,
		n.beginGroup} {
		if err := step(); err != nil {
			return err
		}
	}
	isOld, err := n.openLog()
	if err != nil {
		return err
	}
	n.known = atomic.LoadUint64(&n.commit)
	if !isOld {
		n.known = uint64(len(n.cfg.Members))
	}
	n.isDoubted = isOld // until the others were asked
	n.startRaft(isOld)  // before the peers, whose messages go to it
	if err := n.startPeers(); err != nil {
		return err
	}
	n.port.open(n.peers.Handler())
	return nil
}

// release gives back what a start that failed, or a member that ends, has taken.
func (n *Node) release() {
	if n.port != nil {
		n.port.close()
	}
	if n.raft != nil {
		n.raft.Stop()
	}
	if n.peers != nil {
		n.peers.Stop()
	}
	if n.wal != nil {
		n.wal.Close()
	}
	if n.markFile != nil {
		n.markFile.Close()
	}
	n.keeping.Lock()
	defer n.keeping.Unlock()
	if n.lock != nil {
		n.lock.Close()
		n.lock = nil
	}
}

func (n *Node) startRaft(isOld bool) {
	cfg := &raft.Config{ID: n.cfg.Self.ID, ElectionTick: ticks, HeartbeatTick: 1, Storage: n.storage, Applied: n.applied, Logger: n.cfg.Log.Raft(),
		MaxSizePerMsg: 1 << 20, MaxInflightMsgs: 512, MaxUncommittedEntriesSize: 64 << 20, ReadOnlyOption: raft.ReadOnlySafe,
		// Without CheckQuorum a leader that is cut off goes on; without PreVote a member that comes back deposes a leader.
		CheckQuorum: true, PreVote: true}
	if isOld || len(n.identity.First) == 0 {
		// (StartNode without peers panics. A member that joins hears of the others from the leader)
		n.raft = raft.RestartNode(cfg)
		return
	}
	n.raft = raft.StartNode(cfg, peersOf(n.identity.First))
}

func (n *Node) logFolder() string  { return filepath.Join(n.cfg.Dir, "wal") }
func (n *Node) snapFolder() string { return filepath.Join(n.cfg.Dir, "snap") }

// Propose may be called on any member: raft passes it on to the leader. Where there is none, raft itself would wait for the next
// one, however long that takes, and whoever asked could not be told that nothing was made.
func (n *Node) Propose(ctx context.Context, payload []byte) (interface{}, error) {
	if atomic.LoadUint64(&n.lead) == raft.None {
		return nil, engine.ErrNoLeader
	}
	if n.isBehind() {
		return nil, engine.ErrBusy
	}
	if err := n.machine.Check(payload); err != nil {
		return nil, err
	}
	ctx, cancel := context.WithCancel(ctx)
	defer cancel()
	id, told := n.wait()
	taken := make(chan error, 1)
	go func() { taken <- n.raft.Propose(ctx, withID(id, payload)) }()
	select {
	case err := <-taken:
		if err != nil {
			n.forgetWaiting(id)
			return nil, n.notTaken(err)
		}
		return n.outcome(ctx, id, told)
	case outcome := <-told: // (it may be that the leader was lost before raft took it)
		return outcome.told, outcome.err
	}
}

// notTaken tells why raft did not take a proposal, or that this is unknown.
func (n *Node) notTaken(err error) error {
	if err != raft.ErrProposalDropped {
		return engine.ErrOutcomeUnknown
	}
	status := n.raft.Status()
	_, isMember := status.Progress[n.cfg.Self.ID]
	if status.RaftState == raft.StateLeader && status.LeadTransferee == raft.None && isMember {
		return engine.ErrBusy
	}
	return engine.ErrNoLeader
}

func (n *Node) wait() (uint64, chan outcome) {
	id, told := n.numbers.next(), make(chan outcome, 1)
	n.mu.Lock()
	defer n.mu.Unlock()
	n.waiting[id] = told
	return id, told
}

func (n *Node) forgetWaiting(id uint64) {
	n.mu.Lock()
	defer n.mu.Unlock()
	delete(n.waiting, id)
}

func (n *Node) outcome(ctx context.Context, id uint64, told chan outcome) (interface{}, error) {
	select {
	case outcome := <-told:
		return outcome.told, outcome.err
	case <-ctx.Done():
	case <-n.done:
	}
	n.forgetWaiting(id)
	return nil, engine.ErrOutcomeUnknown
}

// tell gives a proposal of this member what Apply returned.
func (n *Node) tell(id uint64, told interface{}, err error) {
	n.mu.Lock()
	defer n.mu.Unlock()
	if c := n.waiting[id]; c != nil {
		c <- outcome{told, err} // (it has room for one)
		delete(n.waiting, id)
	}
}

// failAll tells all who wait that the outcome is unknown. What was passed on to a leader that is gone may be lost without a word.
func (n *Node) failAll() {
	n.mu.Lock()
	defer n.mu.Unlock()
	for id, c := range n.waiting {
		c <- outcome{nil, engine.ErrOutcomeUnknown}
		delete(n.waiting, id)
	}
}

// Status is how this member sees the group now.
func (n *Node) Status() engine.Status {
	first, _ := n.storage.FirstIndex() // (in memory: never an error)
	last, _ := n.storage.LastIndex()
	lastTerm, _ := n.storage.Term(last) // (0 where a snapshot came meanwhile)
	return engine.Status{ID: n.cfg.Self.ID, Leader: atomic.LoadUint64(&n.lead), Term: atomic.LoadUint64(&n.term),
		Commit: atomic.LoadUint64(&n.commit), Applied: atomic.LoadUint64(&n.applied), Snapshot: atomic.LoadUint64(&n.saved),
		First: first, Last: last, LastTerm: lastTerm, Members: n.sorted(), Turned: time.Unix(0, atomic.LoadInt64(&n.turned))}
}

// LeaderID is the number of the leader, as far as this member knows; 0 for none.
func (n *Node) LeaderID() uint64 { return atomic.LoadUint64(&n.lead) }

// AppliedIndex is the last entry that this member has applied.
func (n *Node) AppliedIndex() uint64 { return atomic.LoadUint64(&n.applied) }

// Snapshot begins to write one now. The loop may wait for the disk meanwhile.
func (n *Node) Snapshot(ctx context.Context) error {
	answer := make(chan error, 1)
	select {
	case n.snapshots <- answer:
	case <-ctx.Done():
		return engine.ErrBusy
	case <-n.done:
		return engine.ErrEnded
	}
	select {
	case err := <-answer:
		return err
	case <-ctx.Done():
		return engine.ErrBusy
	case <-n.done:
		return engine.ErrEnded
	}
}

// Done is closed when this member has ended.
func (n *Node) Done() <-chan struct{} { return n.done }

// Err says why it ended.
func (n *Node) Err() error {
	n.mu.Lock()
	defer n.mu.Unlock()
	return n.err
}

// Close ends this member.
func (n *Node) Close() {
	n.stopOnce.Do(func() { close(n.stop) })
	<-n.done
}

func (n *Node) end(err error) {
	n.mu.Lock()
	if n.err == nil {
		n.err = err
	}
	n.mu.Unlock()
	n.stopOnce.Do(func() { close(n.stop) })
}

var errNotMember = errors.New("the folder is that of another member, or of another group")
