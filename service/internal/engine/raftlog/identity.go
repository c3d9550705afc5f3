package raftlog

import (
	"crypto/rand"
	"encoding/binary"
	"encoding/json"
	"errors"
	"fmt"
	"hash/crc32"
	"os"
	"path/filepath"
	"strings"

	"go.etcd.io/etcd/pkg/fileutil"

	"lrcman/service/internal/engine"
)

// An identity tells whose folder this is. Member, group and folder stand at the head of the log, too.
type identity struct {
	Member uint64 `json:"member"`
	Name   string `json:"name"`   // of the group, as its first members were told
	Group  uint64 `json:"group"`  // no other group has this number; 0 as long as this member has not begun
	Folder uint64 `json:"folder"` // no other folder has this number: so one that was emptied is known
	Starts uint64 `json:"starts"` // how often this member was started: so an older copy of the folder is known
	// The first members with the numbers of their folders; none where this one joined.
	First []engine.Member `json:"first,omitempty"`
	// Why the group does not take this folder: it is not started again.
	Refused string `json:"refused,omitempty"`
}

const (
	identityName = "identity"
	headSize     = 24 // member, group and folder
	oldHeadSize  = 16 // without the folder
)

var errNoIdentity = errors.New("there is no identity")

// newIdentity is that of an empty folder, of a member that has not begun.
func newIdentity(member uint64, name string) (it identity, err error) {
	it = identity{Member: member, Name: name}
	it.Folder, err = randomNumber()
	return it, err
}

// newGroup is the identity of a member that begins a new group in a new folder, by itself.
func newGroup(member uint64, name string) (it identity, err error) {
	if it, err = newIdentity(member, name); err != nil {
		return it, err
	}
	it.Group, err = randomNumber()
	return it, err
}

// randomNumber is never 0.
func randomNumber() (uint64, error) {
	b := make([]byte, 8)
	for {
		if _, err := rand.Read(b); err != nil {
			return 0, err
		}
		if number := binary.LittleEndian.Uint64(b); number != 0 {
			return number, nil
		}
	}
}

// head is what stands at the head of the log.
func (it *identity) head() []byte {
	b := make([]byte, headSize)
	binary.LittleEndian.PutUint64(b, it.Member)
	binary.LittleEndian.PutUint64(b[8:], it.Group)
	binary.LittleEndian.PutUint64(b[16:], it.Folder)
	return b
}

// takeHead takes what stands at the head of the log, where the file beside it can't be read.
func (it *identity) takeHead(head []byte) {
	it.Group, it.Folder = binary.LittleEndian.Uint64(head[8:]), binary.LittleEndian.Uint64(head[16:])
}

// checkHead tells why a log is not that of this identity.
func (it *identity) checkHead(head []byte) error {
	switch {
	case len(head) == oldHeadSize:
		return errors.New("the folder is of an older form: its log has no number of the folder. This program can't read it")
	case len(head) != headSize:
		return fmt.Errorf("the head of the log has %d bytes, and not %d", len(head), headSize)
	case it.Folder == 0 && binary.LittleEndian.Uint64(head) == it.Member:
		return nil // (the file of the identity is gone)
	case string(head) != string(it.head()):
		return errNotMember
	}
	return nil
}

// readIdentity reads that of a folder; errNoIdentity if there is none.
func readIdentity(folder string) (it identity, err error) {
	err = readChecked(filepath.Join(folder, identityName), &it)
	if errors.Is(err, os.ErrNotExist) {
		err = errNoIdentity
	}
	return it, err
}

// write makes it the identity of a folder, safe from a power cut.
func (it *identity) write(folder string, syncFolder func(string) error) error {
	return writeChecked(filepath.Join(folder, identityName), it, syncFolder)
}

var errChanged = errors.New("it is not as it was written")

// readChecked reads what writeChecked wrote.
func readChecked(path string, value interface{}) error {
	text, err := os.ReadFile(path)
	if err != nil {
		return err
	}
	line, sum, _ := strings.Cut(string(text), "\n")
	if sum != sumOf(line) {
		return errChanged
	}
	return json.Unmarshal([]byte(line), value)
}

// writeChecked writes a value as a line of JSON and a line with its checksum: wholly, or not at all.
func writeChecked(path string, value interface{}, syncFolder func(string) error) error {
	line, err := json.Marshal(value)
	if err != nil {
		return err
	}
	file, err := os.OpenFile(path+".tmp", os.O_WRONLY|os.O_CREATE|os.O_TRUNC, 0o600)
	if err != nil {
		return err
	}
	defer file.Close()
	if _, err := file.WriteString(string(line) + "\n" + sumOf(string(line))); err != nil {
		return err
	}
	if err := fileutil.Fsync(file); err != nil {
		return err
	}
	if err := os.Rename(path+".tmp", path); err != nil {
		return err
	}
	return syncFolder(filepath.Dir(path))
}

func sumOf(line string) string { return fmt.Sprintf("%08x\n", crc32.Checksum([]byte(line), table)) }
