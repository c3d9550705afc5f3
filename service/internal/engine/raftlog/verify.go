package raftlog

import (
	"errors"
	"fmt"
	"io"
	"net/http"
	"os"
	"sort"
	"sync"

	"go.etcd.io/etcd/raft/raftpb"

	"lrcman/service/internal/engine"
)

// check tells whether the file of a snapshot is whole, and that of the message which came with it. It is asked before raft hears of
// the message: what raft has taken can't be refused any more.
func (n *Node) check(m raftpb.SnapshotMetadata) error {
	head, err := n.readSnapshot(m.Index, n.machine.Verify)
	if err == nil && !isOf(head.Members, m.ConfState) {
		err = fmt.Errorf("%w: its members are not those of its message", engine.ErrDamaged)
	}
	return err
}

// errRefused is what the member that sent a snapshot is told.
var errRefused = refusedSnapshot{errors.New("the snapshot is refused")}

type refusedSnapshot struct{ error }

// WriteTo is called by rafthttp, which would break off the connection by a panic otherwise.
func (r refusedSnapshot) WriteTo(w http.ResponseWriter) {
	http.Error(w, r.Error(), http.StatusUnprocessableEntity)
}

// isOf tells whether these are the members that raft counts with.
func isOf(members []engine.Member, conf raftpb.ConfState) bool {
	var voters, learners []uint64
	for _, member := range members {
		if member.Learner {
			learners = append(learners, member.ID)
		} else {
			voters = append(voters, member.ID)
		}
	}
	isJoint := len(conf.VotersOutgoing)+len(conf.LearnersNext) > 0
	return !isJoint && len(voters) > 0 && areAlike(voters, conf.Voters) && areAlike(learners, conf.Learners)
}

func areAlike(one, other []uint64) bool {
	one, other = append([]uint64(nil), one...), append([]uint64(nil), other...)
	sort.Slice(one, func(i, j int) bool { return one[i] < one[j] })
	sort.Slice(other, func(i, j int) bool { return other[i] < other[j] })
	return fmt.Sprint(one) == fmt.Sprint(other)
}

// A verified is the file of a snapshot that is checked while it is read. Whoever reads it hears of its end only if it is whole.
type verified struct {
	file    *os.File
	checker *io.PipeWriter
	verdict chan error // has room for one
	spoilt  func(error)
	closed  sync.Once
}

// newVerified calls spoilt once if the file is not whole or can't be read.
func newVerified(file *os.File, verify func(io.Reader) error, spoilt func(error)) *verified {
	reader, writer := io.Pipe()
	v := &verified{file: file, checker: writer, verdict: make(chan error, 1), spoilt: spoilt}
	go func() {
		_, err := readHead(reader)
		if err == nil {
			err = verify(reader)
		}
		v.verdict <- err
		io.Copy(io.Discard, reader)
	}()
	return v
}

// Read reads the file.
func (v *verified) Read(b []byte) (int, error) {
	count, err := v.file.Read(b)
	v.checker.Write(b[:count])
	switch {
	case err == io.EOF:
		v.checker.Close()
		if bad := <-v.verdict; bad != nil {
			v.spoilt(bad)
			return 0, bad
		}
	case err != nil:
		v.spoilt(err)
	}
	return count, err
}

// Close ends it, also before all was read. It may be called again.
func (v *verified) Close() (err error) {
	v.closed.Do(func() {
		v.checker.CloseWithError(errClosed)
		err = v.file.Close()
	})
	return err
}

var errClosed = errors.New("nobody reads it any more")
