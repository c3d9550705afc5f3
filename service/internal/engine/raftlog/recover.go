package raftlog

import (
	"errors"
	"fmt"
	"io"
	"os"
	"path/filepath"
	"strings"
	"sync/atomic"
	"time"

	"go.etcd.io/etcd/etcdserver/api/snap"
	"go.etcd.io/etcd/pkg/fileutil"
	"go.etcd.io/etcd/raft/raftpb"
	"go.etcd.io/etcd/wal"
	"go.etcd.io/etcd/wal/walpb"

	"lrcman/service/internal/engine"
)

// gap is how many indexes a new group leaves out behind those of the old one: what was told there, and is lost, had some of
// these. So no client takes a place of the new log for one of the old.
const gap = 1 << 32

// A Recovered says what a group of one was made of.
type Recovered struct {
	Self   engine.Member
	Last   uint64          // the last entry that is in it
	Commit uint64          // the last one that its folder knew as committed
	Others []engine.Member // who are none of it
	Beside string          // how the names end of what was replaced; "" if there was nothing
	// All else is empty: what was cut off before is finished.
	IsResumed bool
}

// Restore makes a new folder of a backup: that of a group of one. Nothing is made if the backup is not whole.
func Restore(cfg Config, machine engine.Machine, from io.Reader) (made Recovered, err error) {
	r, head, err := openBackup(from)
	if err != nil {
		return made, err
	}
	if err := os.MkdirAll(cfg.Dir, 0o700); err != nil {
		return made, err
	}
	n := newNode(cfg, machine)
	defer n.release()
	if n.lock, err = lockFolder(cfg.Dir); err != nil {
		return made, err
	}
	if whole := filepath.Join(cfg.Dir, finished+besideRestore); exists(whole) {
		return Recovered{IsResumed: true}, n.finish(whole)
	}
	if err := n.checkEmpty(); err != nil {
		return made, err
	}
	state, err := readHead(r)
	if err != nil {
		return made, err
	}
	if err := machine.Restore(r); err != nil {
		return made, err
	}
	if _, err := io.Copy(io.Discard, r); err != nil { // (the machine may leave its end unread)
		return made, err
	}
	n.takeMembers(state)
	if err := r.entries(head, n.applyAgain); err != nil {
		return made, err
	}
	made = Recovered{Self: cfg.Self, Last: head.Index, Commit: head.Index, Others: n.sorted()}
	begins := beginning{self: cfg.Self, index: head.Index + gap, term: head.Term + 1, changes: n.changes + 1, name: head.Name}
	return made, n.beginAgain(begins, besideRestore)
}

// checkEmpty refuses a folder that has something in it.
func (n *Node) checkEmpty() error {
	found, err := os.ReadDir(n.cfg.Dir)
	if err != nil {
		return err
	}
	for _, it := range found {
		if it.Name() != lockName && it.Name() != unfinished {
			return fmt.Errorf("the folder %s has something in it, %s: name one that is empty", n.cfg.Dir, it.Name())
		}
	}
	return nil
}

// Recover makes a group of one of the folder of a member whose group has lost its majority. All entries of its log are kept, also
// those that it does not know as committed, since they may have been told. What was in the folder stays beside.
func Recover(cfg Config, machine engine.Machine) (made Recovered, err error) {
	n := newNode(cfg, machine)
	defer n.release()
	if n.lock, err = lockFolder(cfg.Dir); err != nil {
		return made, err
	}
	if whole, err := n.findFinished(); err != nil || whole != "" {
		if err == nil {
			err = n.finish(whole)
		}
		return Recovered{IsResumed: true}, err
	}
	it, err := n.takeLog()
	if err != nil {
		return made, err
	}
	if made, err = n.applyAll(); err != nil {
		return made, err
	}
	self, isMember := n.members[it.Member]
	if !isMember {
		return made, fmt.Errorf("member %d is none of its group: the folder of another one is to be recovered", it.Member)
	}
	self.Learner, self.Promote = false, false
	made.Self, made.Others = self, n.others()
	if made.Beside, err = n.besideNow(); err != nil {
		return made, err
	}
	begins := beginning{self: self, removed: n.head().Removed, index: made.Last + gap, term: atomic.LoadUint64(&n.term) + 1,
		changes: n.changes + 1, name: it.Name}
	for _, other := range made.Others { // their folders are of the old group
		begins.removed = append(begins.removed, other.ID)
	}
	n.wal.Close() // (it is renamed)
	n.wal = nil
	return made, n.beginAgain(begins, made.Beside)
}

// besideNow is how the names of what is replaced now are to end. None ends so yet: one recovery may follow another at once.
func (n *Node) besideNow() (string, error) {
	for at := time.Now().UTC(); ; at = at.Add(time.Second) {
		beside := before + "recover-" + at.Format("20060102T150405Z")
		if found, err := filepath.Glob(filepath.Join(n.cfg.Dir, "*"+beside)); err != nil || len(found) == 0 {
			return beside, err
		}
	}
}

// applyAll applies all entries that the log has behind its snapshot.
func (n *Node) applyAll() (made Recovered, err error) {
	first, err := n.storage.FirstIndex()
	if err != nil {
		return made, err
	}
	last, err := n.storage.LastIndex()
	if err != nil {
		return made, err
	}
	made = Recovered{Last: last, Commit: atomic.LoadUint64(&n.commit)}
	if last >= first {
		entries, err := n.storage.Entries(first, last+1, 1<<62)
		if err != nil {
			return made, err
		}
		for i := range entries {
			if err := n.applyAgain(&entries[i]); err != nil {
				return made, fmt.Errorf("entry %d: %w", entries[i].Index, err)
			}
		}
	}
	return made, nil
}

// takeLog reads the folder of a member that does not run, and says whose it is.
func (n *Node) takeLog() (it identity, err error) {
	if !wal.Exist(n.logFolder()) {
		return it, fmt.Errorf("the folder %s has no log", n.cfg.Dir)
	}
	if err := n.openFolder(); err != nil {
		return it, err
	}
	if it, err = readIdentity(n.cfg.Dir); err != nil {
		return it, fmt.Errorf("the file %s of the folder can't be read: %w. A start of the member writes it anew", identityName, err)
	}
	n.cfg.Self.ID, n.identity = it.Member, it
	if err := n.openMark(); err != nil {
		return it, err
	}
	_, err = n.load()
	return it, err
}

// applyAgain applies an entry without a group: a change of members changes who is known, and nothing else.
func (n *Node) applyAgain(entry *raftpb.Entry) error {
	switch {
	case entry.Type == raftpb.EntryConfChange:
		if change, wish, err := changeOf(entry.Data); err == nil {
			n.judge(&change, wish) // (one that is refused changes nothing)
		}
	case len(entry.Data) > 8:
		_, err := n.machine.Apply(entry.Index, entry.Data[8:])
		return err
	}
	return nil
}

// A beginning is where the log of a group of one begins.
type beginning struct {
	self                 engine.Member
	removed              []uint64
	index, term, changes uint64
	name                 string // of the group
}

const (
	// In a folder of this name and more is what is to stand in that of the member, all of it.
	finished = "finished"
	// The same while it is written.
	unfinished = "unfinished"
	// So the names begin that what is replaced gets.
	before = ".before-"
	// A restore replaces nothing.
	besideRestore = before + "restore"
)

// checkFinished refuses a folder in which something is to be put in place yet.
func (n *Node) checkFinished() error {
	whole, err := n.findFinished()
	if err != nil {
		return err
	}
	if _, err := os.Stat(filepath.Join(n.cfg.Dir, unfinished)); err == nil || whole != "" {
		return fmt.Errorf("lrcmand restore, or recover, was cut off in the folder %s: call it again before", n.cfg.Dir)
	}
	return nil
}

// findFinished is what is to be put in place yet, or "".
func (n *Node) findFinished() (string, error) {
	found, err := filepath.Glob(filepath.Join(n.cfg.Dir, finished+before+"*"))
	if err != nil || len(found) == 0 {
		return "", err
	}
	return found[0], nil
}

// beginAgain writes the folder of a group of one, in the state of the machine, and puts it in the place of what was there.
func (n *Node) beginAgain(begins beginning, beside string) error {
	built, whole := filepath.Join(n.cfg.Dir, unfinished), filepath.Join(n.cfg.Dir, finished+beside)
	if err := os.RemoveAll(built); err != nil {
		return err
	}
	if err := n.build(built, begins); err != nil {
		os.RemoveAll(built) // (the folder is as it was)
		return err
	}
	if err := os.Rename(built, whole); err != nil {
		return err
	}
	if err := n.syncFolder(n.cfg.Dir); err != nil {
		return err
	}
	return n.finish(whole)
}

// finish puts what was built in place, for good.
func (n *Node) finish(whole string) error {
	if err := n.putInPlace(whole); err != nil {
		return err
	}
	err := n.syncFolder(filepath.Dir(n.cfg.Dir))
	if errors.Is(err, os.ErrPermission) {
		return nil // (so this process did not make the folder)
	}
	return err
}

// build writes a snapshot of the machine, and the head of a log that goes on from it, into a folder that is not there.
func (n *Node) build(folder string, begins beginning) error {
	it, err := newGroup(begins.self.ID, begins.name)
	if err != nil {
		return err
	}
	begins.self.Folder = it.Folder
	n.machine.BeginAgain(begins.index)
	to := &Node{cfg: n.cfg, zap: n.zap}
	to.cfg.Dir = folder
	if err := os.MkdirAll(to.snapFolder(), 0o700); err != nil {
		return err
	}
	if err := to.writeFirst(begins, it, n.machine.Freeze()); err != nil {
		return err
	}
	if err := to.writeFirstMark(mark{begins.index, begins.term}); err != nil {
		return err
	}
	if err := it.write(folder, n.syncFolder); err != nil {
		return err
	}
	for _, name := range []string{to.logFolder(), to.snapFolder(), folder} {
		if err := n.syncFolder(name); err != nil {
			return err
		}
	}
	return nil
}

// writeFirst writes the snapshot and the head of the log.
func (n *Node) writeFirst(begins beginning, it identity, write func(io.Writer) error) error {
	conf := raftpb.ConfState{Voters: []uint64{begins.self.ID}}
	made := raftpb.Snapshot{Metadata: raftpb.SnapshotMetadata{Index: begins.index, Term: begins.term, ConfState: conf}}
	members := head{Members: []engine.Member{begins.self}, Removed: begins.removed, Changes: begins.changes}
	if err := n.writeFile(n.fileOf(begins.index), members, write); err != nil {
		return err
	}
	if err := snap.New(n.zap, n.snapFolder()).SaveSnap(made); err != nil {
		return err
	}
	log, err := wal.Create(n.zap, n.logFolder(), it.head())
	if err != nil {
		return err
	}
	defer log.Close()
	if err := log.SaveSnapshot(walpb.Snapshot{Index: begins.index, Term: begins.term}); err != nil {
		return err
	}
	return log.Save(raftpb.HardState{Term: begins.term, Commit: begins.index}, nil)
}

func (n *Node) writeFirstMark(first mark) error {
	if err := n.openMark(); err != nil {
		return err
	}
	defer n.markFile.Close()
	if err := n.writeMark(first); err != nil {
		return err
	}
	return fileutil.Fsync(n.markFile)
}

// putInPlace puts what was built into the folder. What stands there gets other names first, and nothing is removed. It can be
// cut off at any place, and goes on when it is called again.
func (n *Node) putInPlace(whole string) error {
	beside := strings.TrimPrefix(filepath.Base(whole), finished)
	found, err := os.ReadDir(n.cfg.Dir)
	if err != nil {
		return err
	}
	for _, it := range found {
		isNew := isBuilt[it.Name()] && !exists(filepath.Join(whole, it.Name()))
		if isNew || it.Name() == lockName || it.Name() == filepath.Base(whole) || strings.Contains(it.Name(), before) {
			continue
		}
		path := filepath.Join(n.cfg.Dir, it.Name())
		if err := os.Rename(path, path+beside); err != nil {
			return err
		}
	}
	if err := n.syncFolder(n.cfg.Dir); err != nil {
		return err
	}
	for name := range isBuilt {
		if path := filepath.Join(whole, name); exists(path) {
			if err := os.Rename(path, filepath.Join(n.cfg.Dir, name)); err != nil {
				return err
			}
		}
	}
	if err := n.syncFolder(n.cfg.Dir); err != nil {
		return err
	}
	if err := os.Remove(whole); err != nil {
		return err
	}
	return n.syncFolder(n.cfg.Dir)
}

// isBuilt are the names of what build makes.
var isBuilt = map[string]bool{"snap": true, "wal": true, markName: true, identityName: true}

func exists(path string) bool {
	_, err := os.Lstat(path)
	return err == nil
}
