package raftlog

import (
	"encoding/binary"
	"encoding/json"
	"errors"
	"fmt"
	"hash/crc32"
	"io"
	"math"
	"os"
	"path/filepath"
	"sort"
	"strings"
	"sync/atomic"
	"time"

	"go.etcd.io/etcd/etcdserver/api/snap"
	"go.etcd.io/etcd/pkg/fileutil"
	"go.etcd.io/etcd/pkg/types"
	"go.etcd.io/etcd/raft"
	"go.etcd.io/etcd/raft/raftpb"
	"go.etcd.io/etcd/wal/walpb"

	"lrcman/service/internal/engine"
)

const (
	headMark = "lrcmand snapshot 1\n"
	mostHead = 1 << 20
	// After a snapshot that could not be written the next one waits so long.
	pause = 30 * time.Second
	// mostTrailing is how many bytes of entries stay behind a snapshot.
	mostTrailing = 16 << 20
)

var table = crc32.MakeTable(crc32.Castagnoli)

func writeHead(w io.Writer, head head) error {
	text, err := json.Marshal(head)
	if err != nil {
		return err
	}
	b := append([]byte(headMark), make([]byte, 8)...)
	binary.LittleEndian.PutUint32(b[len(headMark):], uint32(len(text)))
	binary.LittleEndian.PutUint32(b[len(headMark)+4:], crc32.Checksum(text, table))
	_, err = w.Write(append(b, text...))
	return err
}

func readHead(r io.Reader) (head, error) {
	var head head
	b := make([]byte, len(headMark)+8)
	if _, err := io.ReadFull(r, b); err != nil {
		return head, fmt.Errorf("%w: %v", engine.ErrDamaged, err)
	}
	if string(b[:len(headMark)]) != headMark {
		return head, fmt.Errorf("%w: it begins with %q and not with %q", engine.ErrDamaged, b[:len(headMark)], headMark)
	}
	length, sum := binary.LittleEndian.Uint32(b[len(headMark):]), binary.LittleEndian.Uint32(b[len(headMark)+4:])
	if length > mostHead {
		return head, fmt.Errorf("%w: its head is too long", engine.ErrDamaged)
	}
	text := make([]byte, length)
	if _, err := io.ReadFull(r, text); err != nil {
		return head, fmt.Errorf("%w: %v", engine.ErrDamaged, err)
	}
	if crc32.Checksum(text, table) != sum {
		return head, fmt.Errorf("%w: its head", engine.ErrDamaged)
	}
	return head, json.Unmarshal(text, &head)
}

// trySnapshot begins to write a snapshot of what was handed over until now, beside the loop.
func (n *Node) trySnapshot() error {
	if n.isSaving {
		return engine.ErrBusy
	}
	n.isSaving = true
	n.frozen, n.unsnapped = n.unsnapped, 0
	index, conf, head := n.handed, n.conf, n.head()
	n.cfg.Log.Infof("a snapshot at %d is begun, %d entries and %d bytes behind the last", index, index-atomic.LoadUint64(&n.saved), n.frozen)
	n.applier.add(func() { n.freeze(index, conf, head) })
	return nil
}

// hasWritten goes on after a snapshot was written, or not.
func (n *Node) hasWritten(err error) {
	n.isSaving = false
	if err != nil {
		n.cfg.Log.Errorf("a snapshot was not made: %v", err) // the log stays: the next one will do
		n.unsnapped += n.frozen
		n.retryAt = time.Now().Add(pause)
	}
}

func (n *Node) write(index uint64, conf raftpb.ConfState, head head, write func(io.Writer) error) error {
	begun := time.Now()
	if err := n.writeFile(n.fileOf(index), head, write); err != nil {
		return err
	}
	made, err := n.storage.CreateSnapshot(index, &conf, nil) // raft's own snapshot is only its metadata
	if err == raft.ErrSnapOutOfDate {
		if made, err = n.storage.Snapshot(); made.Metadata.Index != index {
			return err // one of the leader came meanwhile
		} // else it is the last one, which was perhaps set aside
	}
	if err != nil {
		return err
	}
	n.record(made)
	atomic.StoreUint64(&n.saved, index)
	n.cfg.Log.Infof("the snapshot at %d was written in %v, %d bytes", index, since(begun), n.sizeOf(index))
	if err := n.compact(index); err != nil {
		return err
	}
	return n.purge()
}

// sizeOf is the number of bytes of a snapshot's file; 0 if there is none.
func (n *Node) sizeOf(index uint64) int64 {
	info, err := os.Stat(n.fileOf(index))
	if err != nil {
		return 0
	}
	return info.Size()
}

// compact forgets the entries that are in a snapshot, but for some that members who are a little late still need: at most so many,
// and so many bytes.
func (n *Node) compact(index uint64) error {
	first, err := n.storage.FirstIndex()
	if err != nil {
		return err
	}
	if index > n.cfg.Trailing && index-n.cfg.Trailing >= first {
		first = index - n.cfg.Trailing + 1
	}
	if first <= index {
		entries, err := n.storage.Entries(first, index+1, math.MaxUint64)
		if err == raft.ErrCompacted {
			return nil // one of the leader came meanwhile
		} else if err != nil {
			return err
		}
		first += leastLeft(entries)
	}
	if err := n.storage.Compact(first - 1); err != raft.ErrCompacted {
		return err
	}
	return nil
}

// leastLeft is how many of the entries have to go, so that those behind them have no more bytes than may stay.
func leastLeft(entries []raftpb.Entry) uint64 {
	bytes := 0
	for i := len(entries) - 1; i >= 0; i-- {
		if bytes += len(entries[i].Data); bytes > mostTrailing {
			return uint64(i + 1)
		}
	}
	return 0
}

// record saves the metadata of a snapshot whose file is there, and then notes it in the log: a record without a file could not
// be started from. So the names have to be on disk before it, too.
func (n *Node) record(made raftpb.Snapshot) {
	m := made.Metadata
	n.step("metadata of a snapshot")
	n.must("a snapshot can't be written", n.snaps.SaveSnap(made))
	n.step("names of a snapshot")
	n.must("the folder of snapshots can't be synced", n.syncFolder(n.snapFolder()))
	n.step("record of a snapshot")
	n.must("the log can't be written", n.wal.SaveSnapshot(walpb.Snapshot{Index: m.Index, Term: m.Term}))
}

// step lets a test end the process at a place of its choice.
func (n *Node) step(what string) {
	if n.cfg.Knobs.Step != nil {
		n.cfg.Knobs.Step(what)
	}
}

func (n *Node) writeFile(path string, head head, write func(io.Writer) error) error {
	file, err := os.CreateTemp(n.snapFolder(), "tmp")
	if err != nil {
		return err
	}
	defer os.Remove(file.Name()) // (it is gone if it was renamed)
	defer file.Close()
	if err := writeHead(file, head); err != nil {
		return err
	}
	if err := write(file); err != nil {
		return err
	}
	n.step("sync of a snapshot")
	if err := fileutil.Fsync(file); err != nil {
		return err
	}
	n.step("rename of a snapshot")
	return os.Rename(file.Name(), path) // (record syncs the name)
}

// purge keeps two snapshots, and the log behind the older one: so that a start has one to fall back to. A file that is being
// sent stays readable.
func (n *Node) purge() error {
	indexes, err := n.indexesOf()
	if err != nil || len(indexes) < 2 {
		return err
	}
	oldest := indexes[len(indexes)-2]
	kept := map[uint64]bool{oldest: true, indexes[len(indexes)-1]: true}
	if err := n.purgeSnapshots(kept, indexes[len(indexes)-1]); err != nil {
		return err
	}
	if err := n.wal.ReleaseLockTo(oldest); err != nil {
		return err
	}
	return n.purgeLog(oldest)
}

// purgeSnapshots removes all snapshots but those that are kept. A file newer than the last was just received.
func (n *Node) purgeSnapshots(kept map[uint64]bool, last uint64) error {
	entries, err := os.ReadDir(n.snapFolder())
	if err != nil {
		return err
	}
	for _, entry := range entries {
		var term, index uint64
		name := entry.Name()
		isState := strings.HasSuffix(name, ".snap.db")
		if isState {
			_, err = fmt.Sscanf(name, "%016x.snap.db", &index)
		} else if strings.HasSuffix(name, ".snap") {
			_, err = fmt.Sscanf(name, "%016x-%016x.snap", &term, &index)
		} else {
			continue
		}
		if err != nil || kept[index] || isState && index > last {
			continue
		}
		n.step("removal of a snapshot")
		if err := os.Remove(filepath.Join(n.snapFolder(), name)); err != nil && !errors.Is(err, os.ErrNotExist) {
			return err
		}
	}
	return nil
}

// purgeBroken keeps the last two of the snapshots that were set aside.
func (n *Node) purgeBroken() error {
	for _, pattern := range []string{"*.snap.broken", "*.snap.db.broken"} {
		found, err := filepath.Glob(filepath.Join(n.snapFolder(), pattern))
		if err != nil {
			return err
		}
		sort.Slice(found, func(i, j int) bool { return changedAt(found[i]).After(changedAt(found[j])) })
		for i := 2; i < len(found); i++ {
			if err := os.Remove(found[i]); err != nil && !errors.Is(err, os.ErrNotExist) {
				return err
			}
		}
	}
	return nil
}

// changedAt is when a file was written last.
func changedAt(path string) time.Time {
	info, err := os.Stat(path)
	if err != nil {
		return time.Time{}
	}
	return info.ModTime()
}

// purgeLog removes the files of the log that have only entries up to an index. Each removal is synced: a power cut that left an
// older file without a later one would leave a log that no start can read.
func (n *Node) purgeLog(upTo uint64) error {
	names, err := filepath.Glob(filepath.Join(n.logFolder(), "*.wal")) // (sorted: the oldest first)
	if err != nil {
		return err
	}
	for i := 0; i+1 < len(names); i++ {
		var number, first uint64
		if _, err := fmt.Sscanf(filepath.Base(names[i+1]), "%016x-%016x.wal", &number, &first); err != nil {
			return fmt.Errorf("%s: %w", names[i+1], err)
		}
		if first > upTo {
			return nil
		}
		n.step("removal of a file of the log")
		if err := os.Remove(names[i]); err != nil && !errors.Is(err, os.ErrNotExist) {
			return err // (it is gone where a snapshot of the leader came while one was written)
		}
		n.step("sync of a removal")
		if err := n.syncFolder(n.logFolder()); err != nil {
			return err
		}
	}
	return nil
}

// sendSnapshot sends the file of the last snapshot beside the message. Raft has to hear how it went, on every path, and not
// from the loop: else it waits for the member for ever, or the loop for itself.
func (n *Node) sendSnapshot(message raftpb.Message) {
	m := message.Snapshot.Metadata
	file, size, err := n.toSend(message)
	if err != nil {
		n.cfg.Log.Warnf("snapshot at %d for member %d: %v", m.Index, message.To, err)
		go n.raft.ReportSnapshot(message.To, raft.SnapshotFailure)
		return
	}
	n.cfg.Log.Infof("the snapshot at %d is being sent to member %d, %d bytes", m.Index, message.To, size)
	sent, begun := snap.NewMessage(message, n.verified(file, m), size), time.Now()
	go func() {
		if <-sent.CloseNotify() {
			n.cfg.Log.Infof("the snapshot at %d was sent to member %d in %v", m.Index, message.To, since(begun))
		} else {
			n.cfg.Log.Warnf("the snapshot at %d was not taken by member %d", m.Index, message.To)
		}
	}()
	n.peers.SendSnapshot(*sent)
}

// verified is a file that is checked while it is sent.
func (n *Node) verified(file *os.File, m raftpb.SnapshotMetadata) io.ReadCloser {
	return newVerified(file, n.machine.Verify, func(why error) {
		n.cfg.Log.Errorf("the snapshot at %d on this disk can't be sent: %v", m.Index, why)
		select {
		case n.spoilt <- m:
		case <-n.done:
		}
	})
}

// replaceSpoilt sets a snapshot aside that could not be sent, and makes another.
func (n *Node) replaceSpoilt(m raftpb.SnapshotMetadata) {
	n.must("a damaged snapshot can't be renamed", n.setAside(m))
	n.trySnapshot() // (one that is being written already will do)
}

func (n *Node) toSend(message raftpb.Message) (*os.File, int64, error) {
	m := &message.Snapshot.Metadata
	if n.peers.Get(types.ID(message.To)) == nil {
		return nil, 0, errors.New("it is not spoken to any more")
	}
	if !has(m.ConfState.Voters, message.To) && !has(m.ConfState.Learners, message.To) {
		// Raft offers the last one, which is from before this member was added. The member would ignore it, for ever if the
		// group needs it for a quorum. So make one of now: raft asks again after a failure.
		n.trySnapshot()
		return nil, 0, errors.New("the last one is older than the member; one is made now")
	}
	file, err := os.Open(n.fileOf(m.Index))
	if err != nil {
		n.trySnapshot() // it was set aside
		return nil, 0, fmt.Errorf("%w; one is made now", err)
	}
	info, err := file.Stat()
	if err != nil {
		file.Close()
		return nil, 0, err
	}
	return file, info.Size(), nil
}

// hasWhole tells whether a message of another member may go to raft: that with a snapshot only if its file is here and is whole. One
// that is not is set aside, so that the next one is not taken for it.
func (n *Node) hasWhole(message *raftpb.Message) bool {
	if message.Type != raftpb.MsgSnap {
		return true
	}
	m, begun := message.Snapshot.Metadata, time.Now()
	err := n.check(m)
	if err == nil {
		n.cfg.Log.Infof("the snapshot at %d came from member %d, %d bytes, and was checked in %v", m.Index, message.From, n.sizeOf(m.Index),
			since(begun))
		return true
	}
	n.cfg.Log.Warnf("a snapshot at %d from member %d is refused: %v", m.Index, message.From, err)
	if errors.Is(err, engine.ErrDamaged) {
		n.must("a damaged snapshot can't be renamed", n.setAside(m))
	}
	return false
}

func has(ids []uint64, id uint64) bool {
	for _, it := range ids {
		if it == id {
			return true
		}
	}
	return false
}
