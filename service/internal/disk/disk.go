// Package disk watches the room that is left for a member's folder, and refuses changes before there is none: a member whose disk is
// full can't write its log, and ends.
package disk

import (
	"context"
	"errors"
	"sync/atomic"
	"syscall"
	"time"

	"lrcman/service/internal/state"
)

// ErrFull says that a change was not taken, since the disk has less room than its reserve.
var ErrFull = errors.New("the disk of this member has less room than its reserve, so it takes no changes")

// each is the time between two measurements.
const each = time.Second

// A Config says what is watched.
type Config struct {
	Folder  string
	Reserve uint64                       // bytes; 0: nothing is refused
	Changed func(isLow bool, free int64) // is told when changes begin or end to be refused; nil: nobody is
	Free    func(folder string) int64    // measures the room; nil: Free
}

// A Watch knows the room of a folder as of the last second.
type Watch struct {
	cfg   Config
	free  int64 // atomic: bytes; -1: unknown
	isLow int32 // atomic
}

// New makes a watch, which knows nothing before it runs.
func New(cfg Config) *Watch {
	if cfg.Free == nil {
		cfg.Free = Free
	}
	if cfg.Changed == nil {
		cfg.Changed = func(bool, int64) {}
	}
	return &Watch{cfg: cfg, free: -1}
}

// Run measures each second, until the context ends.
func (w *Watch) Run(ctx context.Context) {
	w.measure()
	tick := time.NewTicker(each)
	defer tick.Stop()
	for {
		select {
		case <-tick.C:
			w.measure()
		case <-ctx.Done():
			return
		}
	}
}

// measure notes the room. Changes are taken again only a little above the reserve: so they don't come and go with each file.
func (w *Watch) measure() {
	free, reserve := w.cfg.Free(w.cfg.Folder), int64(w.cfg.Reserve)
	atomic.StoreInt64(&w.free, free)
	switch isLow := w.IsLow(); {
	case free < 0: // (nothing is known)
	case !isLow && free < reserve:
		atomic.StoreInt32(&w.isLow, 1)
		w.cfg.Changed(true, free)
	case isLow && free >= reserve+reserve/16:
		atomic.StoreInt32(&w.isLow, 0)
		w.cfg.Changed(false, free)
	}
}

// Free is the number of bytes that may be written beside a folder; -1 if its file system does not tell.
func Free(folder string) int64 {
	var stat syscall.Statfs_t
	if err := syscall.Statfs(folder, &stat); err != nil || stat.Blocks == 0 {
		return -1
	}
	return int64(stat.Bavail) * stat.Bsize
}

// IsShort tells whether a folder has less room than a reserve now.
func IsShort(folder string, reserve uint64) bool {
	free := Free(folder)
	return free >= 0 && free < int64(reserve)
}

// IsLow tells whether changes are refused.
func (w *Watch) IsLow() bool { return atomic.LoadInt32(&w.isLow) == 1 }

// Free is the number of bytes that were free a second ago; -1 if that is not known.
func (w *Watch) Free() int64 { return atomic.LoadInt64(&w.free) }

// Reserve is the number of bytes below which changes are refused.
func (w *Watch) Reserve() uint64 { return w.cfg.Reserve }

// MayChange is ErrFull if an item is to be refused. What makes room is taken, and so is what members tell each other.
func (w *Watch) MayChange(item *state.Item) error {
	if !w.IsLow() {
		return nil
	}
	switch item.Action {
	case state.Create, state.Reopen, state.Call, state.ChangeRules:
		return ErrFull
	}
	return nil
}
