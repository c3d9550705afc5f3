package raftlog

import (
	"encoding/binary"
	"errors"
	"fmt"
	"hash/crc32"
	"io"
	"os"
	"path/filepath"
)

// A mark says how far a log reached. A changed byte in the log can look like the torn end that a power cut leaves, or like its
// end. What is marked was synced before, so a log that ends before it is damaged.
type mark struct{ index, term uint64 }

const (
	markName = "mark"
	markSize = 20 // index, term and a checksum
)

// openMark reads the mark of the folder; nothing is marked where it is new or can't be read.
func (n *Node) openMark() error {
	file, err := os.OpenFile(filepath.Join(n.cfg.Dir, markName), os.O_RDWR|os.O_CREATE, 0o600)
	if err != nil {
		return err
	}
	n.markFile = file
	b := make([]byte, markSize)
	if _, err := file.ReadAt(b, 0); err == io.EOF {
		return nil
	} else if err != nil {
		return err
	}
	if crc32.Checksum(b[:16], table) != binary.LittleEndian.Uint32(b[16:]) {
		n.cfg.Log.Warnf("the file %s can't be read, so nobody looks whether the log reaches as far as it says", markName)
		return nil
	}
	n.marked = mark{binary.LittleEndian.Uint64(b), binary.LittleEndian.Uint64(b[8:])}
	return nil
}

// writeMark writes what the log has for certain. It is not synced: an older mark is true, too.
func (n *Node) writeMark(now mark) error {
	if now == n.marked {
		return nil
	}
	n.marked = now
	b := make([]byte, markSize)
	binary.LittleEndian.PutUint64(b, now.index)
	binary.LittleEndian.PutUint64(b[8:], now.term)
	binary.LittleEndian.PutUint32(b[16:], crc32.Checksum(b[:16], table))
	_, err := n.markFile.WriteAt(b, 0)
	return err
}

// checkMark refuses a log that does not reach as far as it did.
func (n *Node) checkMark(found mark) error {
	if found.index >= n.marked.index && found.term >= n.marked.term {
		return nil
	}
	text := fmt.Sprintf("the log is damaged: it ends at entry %d and term %d, and had entry %d and term %d. "+
		"Remove this member, and add one with an empty folder", found.index, found.term, n.marked.index, n.marked.term)
	return errors.New(text)
}
