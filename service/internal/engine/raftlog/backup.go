package raftlog

import (
	"bufio"
	"context"
	"encoding/binary"
	"encoding/json"
	"errors"
	"fmt"
	"hash/crc32"
	"io"
	"os"
	"sync/atomic"
	"time"

	"go.etcd.io/etcd/raft"
	"go.etcd.io/etcd/raft/raftpb"

	"lrcman/service/internal/engine"
)

// A backup is a mark and then records: a head, the parts of a snapshot, the entries of the log behind it, and an end. Each record
// has its kind, its length and a checksum of both and of itself. The books in a snapshot may each be newer than its index, and
// none is newer than the last of the entries: so with these all are of one place of the log.
const (
	backupMark = "lrcmand backup 1\n"
	partSize   = 256 << 10
	mostOfOne  = 1 << 28 // bytes of a record: far more than an entry takes
)

// The kinds of records, in their order.
const (
	headRecord byte = iota + 1
	partRecord
	entryRecord
	endRecord
)

// A backupHead is the head of a backup.
type backupHead struct {
	Group    uint64          `json:"group"`
	Name     string          `json:"name"`   // of the group
	Member   uint64          `json:"member"` // which wrote it
	Members  []engine.Member `json:"members"`
	Snapshot uint64          `json:"snapshot"` // the index of its snapshot
	Index    uint64          `json:"index"`    // of its last entry, or of its snapshot
	Term     uint64          `json:"term"`
}

// Backup takes what this member has applied. It holds up nothing: the file of the last snapshot stays readable while it is open,
// and the entries behind that stay in memory, however slowly they are written.
func (n *Node) Backup(ctx context.Context) (*engine.Backup, error) {
	for {
		file, entries, head, err := n.takeBackup(ctx)
		if err == nil {
			return &engine.Backup{Index: head.Index, Close: func() { file.Close() },
				Write: func(w io.Writer) error { return writeBackup(w, head, file, entries) }}, nil
		}
		if err := n.awaitSnapshot(ctx, err); err != nil {
			return nil, err
		}
	}
}

// takeBackup takes the last snapshot and the entries behind it. An error says that there is no snapshot, or that it is gone.
func (n *Node) takeBackup(ctx context.Context) (file *os.File, entries []raftpb.Entry, head backupHead, err error) {
	saved := atomic.LoadUint64(&n.saved)
	if saved == 0 {
		return nil, nil, head, errors.New("there is no snapshot yet")
	}
	if file, err = n.openWhole(saved); err != nil {
		return nil, nil, head, err
	}
	// The books in the file have come no further than to what is committed by now, and may be in the middle of that.
	err = n.waitApplied(ctx, atomic.LoadUint64(&n.commit))
	applied := atomic.LoadUint64(&n.applied)
	if err == nil && applied > saved {
		entries, err = n.storage.Entries(saved+1, applied+1, 1<<62)
	}
	if err == nil && uint64(len(entries)) != applied-saved {
		err = raft.ErrUnavailable
	}
	if err != nil { // (a newer snapshot was made meanwhile)
		file.Close()
		return nil, nil, head, err
	}
	head = backupHead{Group: n.identity.Group, Name: n.identity.Name, Member: n.cfg.Self.ID, Members: n.sorted(), Snapshot: saved,
		Index: applied, Term: atomic.LoadUint64(&n.term)}
	return file, entries, head, nil
}

// openWhole opens the file of a snapshot that is as it was written.
func (n *Node) openWhole(index uint64) (*os.File, error) {
	file, err := os.Open(n.fileOf(index))
	if err != nil {
		return nil, err
	}
	if _, err = readHead(file); err == nil {
		err = n.machine.Verify(file)
	}
	if err == nil {
		_, err = file.Seek(0, io.SeekStart)
	}
	if err != nil {
		file.Close()
		return nil, err
	}
	return file, nil
}

// awaitSnapshot asks for another snapshot than the last one, and waits a little. It returns why there is none when the context ends.
func (n *Node) awaitSnapshot(ctx context.Context, why error) error {
	n.Snapshot(ctx) // (if one is being written already, that one will do)
	select {
	case <-time.After(awaitTime):
		return nil
	case <-ctx.Done():
		return fmt.Errorf("no backup can be made: %w", why)
	case <-n.done:
		return engine.ErrEnded
	}
}

// awaitTime is the time between two looks for a snapshot.
const awaitTime = 20 * time.Millisecond

func writeBackup(to io.Writer, head backupHead, snapshot io.Reader, entries []raftpb.Entry) error {
	w := &backupWriter{to: bufio.NewWriterSize(to, partSize)}
	if _, err := w.to.WriteString(backupMark); err != nil {
		return err
	}
	text, err := json.Marshal(head)
	if err != nil {
		return err
	}
	if err := w.record(headRecord, text); err != nil {
		return err
	}
	if err := w.snapshot(snapshot); err != nil {
		return err
	}
	for i := range entries {
		text, err := entries[i].Marshal()
		if err != nil {
			return err
		}
		if err := w.record(entryRecord, text); err != nil {
			return err
		}
	}
	if err := w.record(endRecord, binary.LittleEndian.AppendUint64(nil, w.count)); err != nil {
		return err
	}
	return w.to.Flush()
}

// A backupWriter writes records, and counts them.
type backupWriter struct {
	to    *bufio.Writer
	count uint64
}

func (w *backupWriter) record(kind byte, text []byte) error {
	w.count++
	head := make([]byte, 9)
	head[0] = kind
	binary.LittleEndian.PutUint32(head[1:], uint32(len(text)))
	binary.LittleEndian.PutUint32(head[5:], crc32.Update(crc32.Checksum(head[:5], table), table, text))
	if _, err := w.to.Write(head); err != nil {
		return err
	}
	_, err := w.to.Write(text)
	return err
}

func (w *backupWriter) snapshot(from io.Reader) error {
	part := make([]byte, partSize)
	for {
		count, err := io.ReadFull(from, part)
		if count > 0 {
			if err := w.record(partRecord, part[:count]); err != nil {
				return err
			}
		}
		if err == io.EOF || err == io.ErrUnexpectedEOF {
			return nil
		} else if err != nil {
			return err
		}
	}
}

// errBackup says that a backup is not as it was written, or not all of it is there.
var errBackup = errors.New("the backup is damaged")

// A backupReader reads records, each as it was written, up to the end.
type backupReader struct {
	from  *bufio.Reader
	count uint64
	kind  byte   // of the record that comes next
	text  []byte // of that record; a part is read bit by bit
}

// openBackup reads the head of a backup.
func openBackup(from io.Reader) (*backupReader, backupHead, error) {
	r, head := &backupReader{from: bufio.NewReaderSize(from, partSize)}, backupHead{}
	mark := make([]byte, len(backupMark))
	if _, err := io.ReadFull(r.from, mark); err != nil || string(mark) != backupMark {
		return nil, head, fmt.Errorf("%w: it begins with %q and not with %q", errBackup, mark, backupMark)
	}
	if err := r.next(); err != nil {
		return nil, head, err
	}
	if r.kind != headRecord {
		return nil, head, fmt.Errorf("%w: it has no head", errBackup)
	}
	if err := json.Unmarshal(r.text, &head); err != nil {
		return nil, head, err
	}
	return r, head, r.next()
}

// next reads the next record.
func (r *backupReader) next() error {
	before := r.kind
	head := make([]byte, 9)
	if _, err := io.ReadFull(r.from, head); err != nil {
		return fmt.Errorf("%w: it ends behind record %d: %v", errBackup, r.count, err)
	}
	r.kind = head[0]
	length := binary.LittleEndian.Uint32(head[1:])
	if length > mostOfOne || r.kind < before || r.kind > endRecord {
		return fmt.Errorf("%w: record %d", errBackup, r.count+1)
	}
	r.text = make([]byte, length)
	if _, err := io.ReadFull(r.from, r.text); err != nil {
		return fmt.Errorf("%w: it ends in record %d: %v", errBackup, r.count+1, err)
	}
	if crc32.Update(crc32.Checksum(head[:5], table), table, r.text) != binary.LittleEndian.Uint32(head[5:]) {
		return fmt.Errorf("%w: record %d", errBackup, r.count+1)
	}
	r.count++
	return nil
}

// Read reads the snapshot, which is over where a record of another kind comes.
func (r *backupReader) Read(to []byte) (int, error) {
	for r.kind == partRecord && len(r.text) == 0 {
		if err := r.next(); err != nil {
			return 0, err
		}
	}
	if r.kind != partRecord {
		return 0, io.EOF
	}
	count := copy(to, r.text)
	r.text = r.text[count:]
	return count, nil
}

// entries calls a function with each entry behind the snapshot, and reads the end.
func (r *backupReader) entries(head backupHead, take func(*raftpb.Entry) error) error {
	index := head.Snapshot
	for ; r.kind == entryRecord; index++ {
		var entry raftpb.Entry
		if err := entry.Unmarshal(r.text); err != nil {
			return err
		}
		if entry.Index != index+1 {
			return fmt.Errorf("%w: entry %d comes behind %d", errBackup, entry.Index, index)
		}
		if err := take(&entry); err != nil {
			return err
		}
		if err := r.next(); err != nil {
			return err
		}
	}
	if r.kind != endRecord || len(r.text) != 8 || binary.LittleEndian.Uint64(r.text) != r.count-1 || index != head.Index {
		return fmt.Errorf("%w: its end", errBackup)
	}
	return nil
}
