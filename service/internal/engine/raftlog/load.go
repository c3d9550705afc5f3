package raftlog

import (
	"errors"
	"fmt"
	"io"
	"log"
	"os"
	"path/filepath"
	"strings"
	"sync/atomic"

	"go.etcd.io/etcd/etcdserver/api/snap"
	"go.etcd.io/etcd/pkg/fileutil"
	"go.etcd.io/etcd/raft"
	"go.etcd.io/etcd/raft/raftpb"
	"go.etcd.io/etcd/wal"
	"go.etcd.io/etcd/wal/walpb"

	"lrcman/service/internal/engine"
)

func init() {
	wal.SegmentSizeBytes = 16 << 20 // (two are allocated in advance)
	raft.SetLogger(quiet{&raft.DefaultLogger{Logger: log.New(io.Discard, "", 0)}})
}

// quiet is the logger of what raft has beside its nodes. (A node has its own)
type quiet struct{ *raft.DefaultLogger }

func (quiet) Panic(v ...interface{})               { log.Panic(v...) }
func (quiet) Panicf(form string, v ...interface{}) { log.Panicf(form, v...) }
func (quiet) Fatal(v ...interface{})               { log.Fatal(v...) }
func (quiet) Fatalf(form string, v ...interface{}) { log.Fatalf(form, v...) }

// takeFolder makes the folder, and keeps every other process out of it.
func (n *Node) takeFolder() (err error) {
	if err := os.MkdirAll(n.cfg.Dir, 0o700); err != nil {
		return err
	}
	if n.lock, err = lockFolder(n.cfg.Dir); err != nil {
		return err
	}
	if err := n.checkFinished(); err != nil {
		return err
	}
	return n.openFolder()
}

// openFolder takes what the folder has, once no other process can.
func (n *Node) openFolder() error {
	if err := os.MkdirAll(n.snapFolder(), 0o700); err != nil {
		return err
	}
	n.snaps = snap.New(n.zap, n.snapFolder())
	return n.removeLeft()
}

const lockName = "lock"

func lockFolder(folder string) (*fileutil.LockedFile, error) {
	lock, err := fileutil.TryLockFile(filepath.Join(folder, lockName), os.O_WRONLY|os.O_CREATE, 0o600)
	if err == fileutil.ErrLocked {
		return nil, fmt.Errorf("another process has the folder %s", folder)
	}
	return lock, err
}

// removeLeft removes what was not finished when the process ended: snapshots, and files of the log that were made in advance. In
// one of these a head may stand already, and the rest of it would follow a shorter one.
func (n *Node) removeLeft() error {
	for _, pattern := range []string{filepath.Join(n.snapFolder(), "tmp*"), filepath.Join(n.logFolder(), "*.tmp")} {
		left, err := filepath.Glob(pattern)
		if err != nil {
			return err
		}
		for _, file := range left {
			if err := os.Remove(file); err != nil {
				return err
			}
		}
	}
	return nil
}

// openLog goes on with the folder's log, or makes one. It tells whether there was one with something in it.
func (n *Node) openLog() (isOld bool, err error) {
	defer func() { n.cfg.Self.Folder = n.identity.Folder }()
	if wal.Exist(n.logFolder()) {
		if isOld, err = n.load(); err != nil {
			return isOld, err
		} else if isOld {
			n.opened()
			return isOld, nil
		}
		// Killed in its first moments: it has promised nothing, and without its first entries it would wait for ever.
		n.wal.Close()
		n.wal = nil
		n.storage = raft.NewMemoryStorage()
		if err := os.RemoveAll(n.logFolder()); err != nil {
			return false, err
		}
	}
	if err := n.checkMark(mark{}); err != nil {
		return false, err
	}
	if n.wal, err = wal.Create(n.zap, n.logFolder(), n.identity.head()); err != nil {
		return false, err
	}
	n.opened()
	return false, n.syncNames()
}

// syncNames makes the names of a new log safe from a power cut. Create has synced the name of the log's folder, but neither
// that of the file in it nor that of this member's folder.
func (n *Node) syncNames() error {
	if err := n.syncFolder(n.logFolder()); err != nil {
		return err
	}
	err := n.syncFolder(filepath.Dir(n.cfg.Dir))
	if errors.Is(err, os.ErrPermission) {
		return nil // (so this member did not make its folder)
	}
	return err
}

func (n *Node) opened() {
	if n.cfg.Knobs.Opened != nil {
		n.cfg.Knobs.Opened(n.wal)
	}
}

// load begins in the newest snapshot that is whole, and reads the log behind it. It returns false if the log has no hard
// state: then no vote was given, and nothing acknowledged.
func (n *Node) load() (isOld bool, err error) {
	defer func() {
		if why := recover(); why != nil { // (etcd's reader panics where a record is of another kind than it says)
			err = n.unreadable(0, fmt.Errorf("%v", why))
		}
	}()
	newest, err := n.loadSnapshot()
	if err != nil {
		return false, err
	}
	hard, entries, err := n.readLog(newest)
	if err != nil {
		return false, err
	}
	last := mark{term: hard.Term}
	if newest != nil {
		last.index = newest.Metadata.Index
	}
	if len(entries) > 0 {
		last.index = entries[len(entries)-1].Index
	}
	if err := n.checkMark(last); err != nil {
		return false, err
	}
	n.mu.Lock() // (others may ask already who this is)
	n.began = reach{hard.Term, last.index}
	n.mu.Unlock()
	if err := n.storage.SetHardState(hard); err != nil {
		return false, err
	}
	atomic.StoreUint64(&n.term, hard.Term)
	atomic.StoreUint64(&n.commit, hard.Commit)
	return newest != nil || !raft.IsEmptyHardState(hard), n.storage.Append(entries)
}

// loadSnapshot begins in the newest snapshot that the log knows of and that is whole; nil if there is none. A snapshot's file
// may be there before its record is.
func (n *Node) loadSnapshot() (*raftpb.Snapshot, error) {
	known, err := wal.ValidSnapshotEntries(n.zap, n.logFolder())
	if err != nil {
		return nil, fmt.Errorf("the log is damaged: %w. Remove this member, and add one with an empty folder", err)
	}
	newest := uint64(0)
	for _, record := range known {
		if record.Index > newest { // (one that came while another was written may stand before it)
			newest = record.Index
		}
	}
	for {
		found, err := n.snaps.LoadNewestAvailable(known) // (it renames what is damaged)
		if err == snap.ErrNoSnapshot {
			n.sayOlder(0, newest)
			return nil, nil
		} else if err != nil {
			return nil, err
		}
		head, err := n.restore(found.Metadata)
		if err == nil {
			n.beginAt(found.Metadata, head)
			n.sayOlder(found.Metadata.Index, newest)
			return found, n.storage.ApplySnapshot(*found)
		} else if !errors.Is(err, engine.ErrDamaged) && !errors.Is(err, os.ErrNotExist) {
			return nil, err
		}
		n.cfg.Log.Errorf("snapshot at %d: %v; its name ends with .broken now", found.Metadata.Index, err)
		if err := n.setAside(found.Metadata); err != nil {
			return nil, err
		}
	}
}

func (n *Node) sayOlder(found, newest uint64) {
	if found != newest {
		n.cfg.Log.Warnf("the snapshot at %d can't be read: this member begins in the one at %d; 0 is the empty one", newest, found)
	}
}

// setAside renames the files of a snapshot that is damaged.
func (n *Node) setAside(m raftpb.SnapshotMetadata) error {
	for _, name := range []string{fmt.Sprintf("%016x-%016x.snap", m.Term, m.Index), fmt.Sprintf("%016x.snap.db", m.Index)} {
		path := filepath.Join(n.snapFolder(), name)
		if err := os.Rename(path, path+".broken"); err != nil && !errors.Is(err, os.ErrNotExist) {
			return err
		}
	}
	if err := n.purgeBroken(); err != nil {
		return err
	}
	return n.syncFolder(n.snapFolder())
}

// readLog reads the log behind a snapshot. A torn record at its end was never told of, and is cut off, once.
func (n *Node) readLog(newest *raftpb.Snapshot) (raftpb.HardState, []raftpb.Entry, error) {
	at := walpb.Snapshot{}
	if newest != nil {
		at.Index, at.Term = newest.Metadata.Index, newest.Metadata.Term
	}
	for isRepaired := false; ; isRepaired = true {
		var err error
		if n.wal, err = wal.Open(n.zap, n.logFolder(), at); err != nil {
			return raftpb.HardState{}, nil, n.unreadable(at.Index, err)
		}
		metadata, hard, entries, err := n.wal.ReadAll()
		if err == nil && metadata == nil {
			return hard, nil, n.unreadable(at.Index, errors.New("its head is gone"))
		} else if err == nil {
			return hard, entries, n.takeHead(metadata)
		}
		n.wal.Close()
		n.wal = nil
		if err != io.ErrUnexpectedEOF || isRepaired || !wal.Repair(n.zap, n.logFolder()) {
			return hard, nil, n.unreadable(at.Index, err)
		}
		n.cfg.Log.Warnf("the log ended in a torn record, which was cut off")
	}
}

// takeHead refuses the log of another member. Where the file of the identity can't be read, the head of the log has it.
func (n *Node) takeHead(head []byte) error {
	if err := n.identity.checkHead(head); err != nil || n.identity.Folder != 0 {
		return err
	}
	n.mu.Lock()
	n.identity.takeHead(head)
	n.mu.Unlock()
	return n.identity.write(n.cfg.Dir, n.syncFolder)
}

func (n *Node) unreadable(from uint64, err error) error {
	if err == wal.ErrFileNotFound || err == wal.ErrSliceOutOfRange {
		err = fmt.Errorf("it does not reach back to entry %d", from)
	}
	return fmt.Errorf("the log can't be read: %w. Remove this member, and add one with an empty folder", err)
}

// A head stands in a snapshot's file before the state: the log no longer has the entries that added the members.
type head struct {
	Members []engine.Member `json:"members"`
	Removed []uint64        `json:"removed"`
	Changes uint64          `json:"changes"`
}

// readSnapshot reads the head of a snapshot's file, and lets a function read the rest.
func (n *Node) readSnapshot(index uint64, read func(io.Reader) error) (head, error) {
	file, err := os.Open(n.fileOf(index))
	if err != nil {
		return head{}, err
	}
	defer file.Close()
	head, err := readHead(file)
	if err != nil {
		return head, err
	}
	return head, read(file)
}

// restore makes the machine begin in a snapshot.
func (n *Node) restore(m raftpb.SnapshotMetadata) (head, error) {
	head, err := n.readSnapshot(m.Index, n.machine.Restore)
	if err == nil {
		n.setApplied(m.Index)
	}
	return head, err
}

// beginAt takes the members of a snapshot; entries come behind it.
func (n *Node) beginAt(m raftpb.SnapshotMetadata, head head) {
	n.takeMembers(head)
	n.conf, n.handed, n.unsnapped, n.frozen = m.ConfState, m.Index, 0, 0
	atomic.StoreUint64(&n.saved, m.Index)
}

// takeMembers takes those that stand in a snapshot.
func (n *Node) takeMembers(head head) {
	n.mu.Lock()
	defer n.mu.Unlock()
	n.members, n.removed = map[uint64]engine.Member{}, map[uint64]bool{}
	for _, member := range head.Members {
		n.members[member.ID] = member
	}
	for _, id := range head.Removed {
		n.removed[id] = true
	}
	n.changes = head.Changes
}

func (n *Node) fileOf(index uint64) string {
	return filepath.Join(n.snapFolder(), fmt.Sprintf("%016x.snap.db", index))
}

func (n *Node) syncFolder(path string) error {
	if n.cfg.Knobs.SyncFolder != nil {
		return n.cfg.Knobs.SyncFolder(path)
	}
	return syncFolder(path)
}

// syncFolder makes the names in a folder safe from a power cut.
func syncFolder(path string) error {
	folder, err := os.Open(path)
	if err != nil {
		return err
	}
	defer folder.Close()
	return fileutil.Fsync(folder)
}

// indexesOf are the snapshots whose metadata stand in the folder, the oldest first.
func (n *Node) indexesOf() ([]uint64, error) {
	entries, err := os.ReadDir(n.snapFolder())
	if err != nil {
		return nil, err
	}
	var found []uint64
	for _, entry := range entries { // (by name: by term, and so by index)
		var term, index uint64
		if name := entry.Name(); strings.HasSuffix(name, ".snap") {
			if _, err := fmt.Sscanf(name, "%016x-%016x.snap", &term, &index); err == nil {
				found = append(found, index)
			}
		}
	}
	return found, nil
}
