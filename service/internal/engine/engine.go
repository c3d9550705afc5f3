// Package engine says what the service wants of a log that the members of a group keep alike.
package engine

import (
	"context"
	"errors"
	"fmt"
	"io"
	"time"
)

// A Machine is what a log drives. Apply, Freeze and Restore are called by one goroutine, one after the other, in the order of the
// log. Check, Verify, and the function that Freeze returns, may run
// beside them.
type Machine interface {
	// Apply makes the changes of an entry, and returns what the proposer of this member is told. Indexes rise. After an
	// error the engine ends: this member is not what the others are.
	Apply(index uint64, payload []byte) (interface{}, error)
	// Check tells why a payload is no entry that this program can read. It is asked before one is proposed, whoever brings it.
	Check(payload []byte) error
	// Freeze returns a function that writes the state, or a later one.
	Freeze() func(io.Writer) error
	// Restore begins in what such a function wrote. After an error the machine is as it was. The error wraps ErrDamaged if
	// the bytes are not those that were written.
	Restore(io.Reader) error
	// Verify reads what such a function wrote to its end, and changes nothing. The error wraps ErrDamaged if the bytes are not
	// those that were written.
	Verify(io.Reader) error
	// BeginAgain is called where a new group goes on with what is here, before its log begins behind an index that no entry has
	// had. What the old group told behind this may be lost: no place of the new group may be taken for one of that.
	BeginAgain(index uint64)
}

// MostID is the greatest number of a member. (Numbers of proposals have 16 bits for it)
const MostID = 1<<16 - 1

// A Member of a group.
type Member struct {
	ID     uint64 `json:"id"`
	Peer   string `json:"peer"`   // HOST:PORT for the other members
	Client string `json:"client"` // HOST:PORT for clients
	// It keeps the log and answers as the others, and neither votes nor leads.
	Learner bool `json:"learner,omitempty"`
	// The number of its folder: the others hear no other one under its ID. 0 until it has told them.
	Folder uint64 `json:"folder,omitempty,string"` // (a text: not every reader of JSON has numbers of 64 bits)
	// The leader makes this learner vote once it has what the leader has.
	Promote bool `json:"promote,omitempty"`
}

// IsAt tells whether a member is where another one is.
func (m Member) IsAt(other Member) bool { return m.Peer == other.Peer && m.Client == other.Client }

// A Status is how one member sees the group.
type Status struct {
	ID       uint64   `json:"id"`
	Leader   uint64   `json:"leader"` // 0: none
	Term     uint64   `json:"term"`
	Commit   uint64   `json:"commit"`
	Applied  uint64   `json:"applied"`
	Snapshot uint64   `json:"snapshot"` // the index of the last one
	First    uint64   `json:"first"`    // the first entry that this member still sends to others
	Last     uint64   `json:"last"`     // the last entry of its log, which may not be committed
	LastTerm uint64   `json:"last_term"`
	Members  []Member `json:"members"`
	// When the loop of the log last turned; zero: unknown.
	Turned time.Time `json:"-"`
}

var (
	// ErrOutcomeUnknown says that an entry may or may not come to stand in the log.
	ErrOutcomeUnknown = errors.New("the outcome is unknown")
	// ErrNoLeader says that nothing was proposed, or asked.
	ErrNoLeader = errors.New("there is no leader")
	// ErrNotMoved says that the leadership was not moved in time.
	ErrNotMoved = errors.New("the member does not lead yet")
	// ErrEnded says that this member has ended, or is ending.
	ErrEnded = errors.New("this member has ended")
	// ErrRemoved says that a member ended since it is no longer one of the group.
	ErrRemoved = errors.New("this member was removed from its group")
	// ErrLost says that the group knows another folder of this member, or a later start of it.
	ErrLost = errors.New("the group does not take the folder of this member")
	// ErrDamaged says that a snapshot is not as it was written.
	ErrDamaged = errors.New("the snapshot is damaged")
	// ErrBusy says that nothing was begun: a snapshot is being written already, or too much waits to be committed or applied.
	ErrBusy = errors.New("this member is busy: a snapshot is being written, or too many entries wait")
)

// A Refused says why a change of members is not made.
type Refused string

// Error is the reason.
func (r Refused) Error() string { return string(r) }

// A NotLeader says that nothing was proposed, since the leader alone is asked for this.
type NotLeader struct{ Leader Member }

// Error names the leader.
func (e *NotLeader) Error() string {
	return fmt.Sprintf("member %d leads, and is to be asked for this: %s", e.Leader.ID, e.Leader.Client)
}

// A Backup is all that a member has applied, of one place of the log.
type Backup struct {
	Index uint64                // the last entry in it
	Write func(io.Writer) error // once
	Close func()                // gives back what it holds
}

// An Engine is a log, kept alike by the members of a group, that drives a machine.
type Engine interface {
	// Propose brings a payload into the log, and returns what Apply told on this member. The error is ErrNoLeader or ErrBusy if
	// nothing was proposed, at once; ErrOutcomeUnknown if the leader was lost or the context ended meanwhile.
	Propose(ctx context.Context, payload []byte) (interface{}, error)
	// Barrier returns when this member has applied all that any member told before Barrier was called.
	Barrier(ctx context.Context) error
	// Status is how this member sees the group now.
	Status() Status
	// LeaderID and AppliedIndex are the Leader and Applied of it, for whoever asks at each request.
	LeaderID() uint64
	AppliedIndex() uint64
	// Add adds a member as one that learns. The leader makes it vote once it has what the leader has, unless it is a Learner.
	// To add one that only learns, as one that does not, makes it vote if it has as much. Remove removes a member. isAgain says
	// that it was so before. The error is a Refused if the change is not lawful, or if the members after it would have no
	// majority that was heard of, or if the one that is to vote lacks entries: isForced makes it in both cases. It is a
	// NotLeader at any member but the leader.
	Add(ctx context.Context, member Member, isForced bool) (isAgain bool, err error)
	Remove(ctx context.Context, id uint64, isForced bool) (isAgain bool, err error)
	// Lead makes a member the leader, and returns once it is, as far as this one knows. It may take long if that member is
	// behind, and it fails if the context ends before. The error is a Refused if there is no such member.
	Lead(ctx context.Context, id uint64) error
	// LeadAway makes another voter the leader, if this member leads; one with room on its disk, if that is needed. It fails if there
	// is none that can be reached, or if the context ends before.
	LeadAway(ctx context.Context, needsRoom bool) error
	// Snapshot begins to write one now.
	Snapshot(ctx context.Context) error
	// Backup takes what this member has applied. It fails if the context ends before there is a snapshot.
	Backup(ctx context.Context) (*Backup, error)
	// Done is closed when the engine has ended, by Close or by itself, and Err says why; nil after Close.
	Done() <-chan struct{}
	Err() error
	Close()
}
