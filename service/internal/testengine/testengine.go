// Package testengine has an engine of one member without a disk, for tests of what stands above the log.
package testengine

import (
	"context"
	"fmt"
	"io"
	"sync"
	"time"

	"lrcman/service/internal/engine"
)

// A Local is an engine of one member. Before each proposal it asks what goes wrong.
type Local struct {
	Wrong   func(payload []byte) (isMade bool, err error) // nil: nothing goes wrong
	Members []engine.Member
	Silent  error // what Barrier returns
	Leader  uint64
	Saved   int // snapshots that were asked for
	Turned  time.Time

	mu      sync.Mutex
	machine engine.Machine
	index   uint64
	done    chan struct{}
}

// New is an engine that drives a machine, and leads.
func New(machine engine.Machine) *Local {
	return &Local{machine: machine, Leader: 1, done: make(chan struct{})}
}

// Change changes it between two calls of others.
func (l *Local) Change(change func(*Local)) {
	l.mu.Lock()
	defer l.mu.Unlock()
	change(l)
}

// Propose applies a payload at once.
func (l *Local) Propose(_ context.Context, payload []byte) (interface{}, error) {
	l.mu.Lock()
	defer l.mu.Unlock()
	isMade, wrong := true, error(nil)
	if l.Wrong != nil {
		isMade, wrong = l.Wrong(payload)
	}
	if !isMade {
		return nil, wrong
	}
	if err := l.machine.Check(payload); err != nil {
		return nil, err
	}
	l.index++
	told, err := l.machine.Apply(l.index, payload)
	if wrong != nil {
		return nil, wrong
	}
	return told, err
}

// Barrier returns at once.
func (l *Local) Barrier(context.Context) error {
	l.mu.Lock()
	defer l.mu.Unlock()
	return l.Silent
}

// Status is that of member 1.
func (l *Local) Status() engine.Status {
	l.mu.Lock()
	defer l.mu.Unlock()
	return engine.Status{ID: 1, Leader: l.Leader, Applied: l.index, Members: append([]engine.Member{}, l.Members...), Turned: l.Turned}
}

// LeaderID is the leader of its Status.
func (l *Local) LeaderID() uint64 { return l.Status().Leader }

// AppliedIndex is the last entry of its Status.
func (l *Local) AppliedIndex() uint64 { return l.Status().Applied }

// Add takes any member but 9, as long as this one leads, and 8 only by force.
func (l *Local) Add(_ context.Context, member engine.Member, isForced bool) (isAgain bool, err error) {
	l.mu.Lock()
	defer l.mu.Unlock()
	for _, other := range l.Members {
		if other.ID == l.Leader && l.Leader != 1 {
			return false, &engine.NotLeader{Leader: other}
		}
		isAgain = isAgain || other.ID == member.ID
	}
	if member.ID == 9 || member.ID == 8 && !isForced {
		return false, engine.Refused(fmt.Sprintf("there is a member %d already", member.ID))
	}
	if !isAgain {
		l.Members = append(l.Members, member)
	}
	return isAgain, nil
}

// Lead moves nothing.
func (l *Local) Lead(_ context.Context, id uint64) error {
	if id != 1 {
		return engine.ErrNotMoved
	}
	return nil
}

// LeadAway finds nobody to lead.
func (l *Local) LeadAway(context.Context, bool) error { return engine.ErrNotMoved }

// Remove does not tell what became of it, but of 7, which was removed before, and of 8, which is removed only by force.
func (l *Local) Remove(_ context.Context, id uint64, isForced bool) (isAgain bool, err error) {
	switch {
	case id == 7 || id == 8 && isForced:
		return true, nil
	case id == 8:
		return false, engine.Refused("the group would stand still")
	}
	return false, engine.ErrOutcomeUnknown
}

// Snapshot is busy.
func (l *Local) Snapshot(context.Context) error {
	l.mu.Lock()
	defer l.mu.Unlock()
	l.Saved++
	return engine.ErrBusy
}

// Backup has one word, and can't be written whole where Silent is set.
func (l *Local) Backup(context.Context) (*engine.Backup, error) {
	l.mu.Lock()
	defer l.mu.Unlock()
	wrong := l.Silent
	return &engine.Backup{Index: l.index, Close: func() {}, Write: func(w io.Writer) error {
		if _, err := io.WriteString(w, "books"); err != nil {
			return err
		}
		return wrong
	}}, nil
}

// Done is never closed.
func (l *Local) Done() <-chan struct{} { return l.done }

// Err is nil.
func (l *Local) Err() error { return nil }

// Close does nothing.
func (l *Local) Close() {}
