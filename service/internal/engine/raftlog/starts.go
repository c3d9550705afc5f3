package raftlog

import (
	"context"
	"errors"
	"fmt"
	"net/url"
	"os"
	"path/filepath"
	"strconv"

	"go.etcd.io/etcd/pkg/types"
	"go.etcd.io/etcd/raft/raftpb"

	"lrcman/service/internal/engine"
)

// A start of a member, as it tells it in each request to another one.
type start struct {
	Member uint64 `json:"member"`
	Folder uint64 `json:"folder"`
	Starts uint64 `json:"starts"` // how often the folder was started
	Number uint64 `json:"number"` // of this start, by chance: two copies of a folder may count alike
	reach
}

// A reach says how far a member's log went: to an entry, in a term. It never falls: within a term a member takes entries of one
// leader alone, and that one takes none back.
type reach struct {
	Term uint64 `json:"term"`
	Last uint64 `json:"last"`
}

func (r reach) isBefore(other reach) bool {
	return r.Term < other.Term || r.Term == other.Term && r.Last < other.Last
}

// A heardStart is the last start that a member has heard of another one.
type heardStart struct {
	start
	Acknowledged reach `json:"acknowledged"` // by this start, or by those before; as a leader, told to be committed
}

// A verdict is what a member knows of a start of another one.
type verdict string

const (
	isKnown   verdict = "known"
	isStrange verdict = "strange" // no member, as far as this one knows
	isRemoved verdict = "removed"
	isLost    verdict = "lost" // the group knows another folder under this number
	isOld     verdict = "old"  // it was started later, or has acknowledged what this folder does not have
)

const (
	startsName = "starts"
	lostWords  = "this member's folder is lost: the group knows another one under its number. " +
		"Remove the number and add another"
	oldWords = "this folder is an older copy: this member was started later, or has acknowledged entries that are not in it. " +
		"Remove the number and add another"
)

// query is what stands in the addresses of other members: rafthttp sends it with each request. to is the start of the member
// that is spoken to, as far as this one has heard of it.
func (s start) query(to uint64) string {
	return fmt.Sprintf("member=%d&folder=%016x&starts=%d&number=%016x&term=%d&last=%d&to=%016x&probe=", s.Member, s.Folder, s.Starts,
		s.Number, s.Term, s.Last, to) // (rafthttp's probes have their path behind the rest)
}

// startOf reads what query wrote.
func startOf(words url.Values) (s start, to uint64, err error) {
	for _, it := range []struct {
		name string
		base int
		into *uint64
	}{{"member", 10, &s.Member}, {"folder", 16, &s.Folder}, {"starts", 10, &s.Starts}, {"number", 16, &s.Number},
		{"term", 10, &s.Term}, {"last", 10, &s.Last}, {"to", 16, &to}} {
		if *it.into, err = strconv.ParseUint(words.Get(it.name), it.base, 64); err != nil {
			return s, 0, fmt.Errorf("%s: %w", it.name, err)
		}
	}
	return s, to, nil
}

// judgeStart says what this member knows of a start.
func (n *Node) judgeStart(s start) verdict {
	n.mu.Lock()
	defer n.mu.Unlock()
	member, isMember := n.members[s.Member]
	heard := n.starts[s.Member]
	if member.Folder == 0 {
		member.Folder = heard.Folder // (it has not announced itself yet)
	}
	switch {
	case n.removed[s.Member]:
		return isRemoved
	case !isMember:
		return isStrange
	case member.Folder != 0 && member.Folder != s.Folder:
		return isLost
	case s.isSame(heard.start):
		return isKnown
	case s.Folder == heard.Folder && (s.Starts <= heard.Starts || s.reach.isBefore(heard.Acknowledged)):
		return isOld
	}
	return isKnown
}

func (s start) isSame(other start) bool {
	return s.Member == other.Member && s.Folder == other.Folder && s.Starts == other.Starts && s.Number == other.Number
}

// hear takes note of a start, if it is a new one, before anything of it is believed. What was heard of the start before is no
// longer believed from then on: the loop cuts its connections.
func (n *Node) hear(ctx context.Context, s start) (verdict, error) {
	if found := n.judgeStart(s); found != isKnown || n.hasHeard(s) {
		return found, nil
	}
	it := hearing{s, make(chan verdict, 1)}
	select {
	case n.hearings <- it:
	case <-ctx.Done():
		return isStrange, ctx.Err()
	case <-n.done:
		return isStrange, engine.ErrEnded
	}
	select {
	case found := <-it.found:
		return found, n.saveStarts()
	case <-n.done:
		return isStrange, engine.ErrEnded
	}
}

// noteStart remembers a start before this member can judge it: so that the first that it says to that one is heard.
func (n *Node) noteStart(s start) {
	n.mu.Lock()
	defer n.mu.Unlock()
	if _, isThere := n.starts[s.Member]; !isThere {
		n.starts[s.Member] = heardStart{start: s}
		n.areStartsUnsaved = true
	}
}

// A hearing is a start that the loop is to take note of.
type hearing struct {
	start start
	found chan verdict
}

func (n *Node) hasHeard(s start) bool {
	n.mu.Lock()
	defer n.mu.Unlock()
	return s.isSame(n.starts[s.Member].start)
}

// takeHearing is of the loop. It judges again once the old connections are cut: until then an acknowledgement may have come.
func (n *Node) takeHearing(it hearing) {
	id := types.ID(it.start.Member)
	isPeer := n.peers.Get(id) != nil
	if isPeer {
		n.peers.RemovePeer(id)
	}
	found := n.judgeStart(it.start)
	n.mu.Lock()
	if found == isKnown {
		before := n.starts[it.start.Member]
		n.starts[it.start.Member] = heardStart{start: it.start, Acknowledged: before.Acknowledged}
	}
	member, isMember := n.members[it.start.Member]
	n.mu.Unlock()
	if isPeer && isMember {
		n.addPeer(member)
	}
	it.found <- found
}

// reachOf is how far the log of a sender goes for certain. A leader has saved what it tells to be committed: that was sent, and
// acknowledged, in a Ready before this one.
func reachOf(m *raftpb.Message) reach {
	switch {
	case m.Type == raftpb.MsgAppResp && !m.Reject:
		return reach{m.Term, m.Index}
	case m.Type == raftpb.MsgApp, m.Type == raftpb.MsgHeartbeat:
		return reach{m.Term, m.Commit}
	}
	return reach{}
}

// noteAcknowledged remembers how far the log of another member goes for certain.
func (n *Node) noteAcknowledged(m *raftpb.Message) {
	now := reachOf(m)
	n.mu.Lock()
	defer n.mu.Unlock()
	if heard, isThere := n.starts[m.From]; isThere && heard.Acknowledged.isBefore(now) {
		heard.Acknowledged = now
		n.starts[m.From] = heard
		n.areStartsUnsaved = true
	}
}

// openStarts reads what was heard of the other members. Where it can't be read, nothing was heard.
func (n *Node) openStarts() error {
	var all []heardStart
	err := readChecked(filepath.Join(n.cfg.Dir, startsName), &all)
	if errors.Is(err, errChanged) {
		n.cfg.Log.Warnf("the file %s can't be read: this member has to hear of the others anew", startsName)
	} else if err != nil && !errors.Is(err, os.ErrNotExist) {
		return err
	}
	for _, it := range all {
		n.starts[it.Member] = it
	}
	return nil
}

func (n *Node) heardStarts() []heardStart {
	n.mu.Lock()
	defer n.mu.Unlock()
	all := make([]heardStart, 0, len(n.starts))
	for id, it := range n.starts {
		if !n.removed[id] {
			all = append(all, it)
		}
	}
	return all
}

// takeStarts takes what another member has heard: acknowledgements come to the leader alone.
func (n *Node) takeStarts(all []heardStart) {
	n.mu.Lock()
	defer n.mu.Unlock()
	for _, it := range all {
		member, isMember := n.members[it.Member]
		known, isThere := n.starts[it.Member]
		if !isMember || it.Member == n.cfg.Self.ID || member.Folder != 0 && member.Folder != it.Folder {
			continue
		}
		now := known.beside(it, isThere)
		if now == known {
			continue
		}
		n.starts[it.Member] = now
		n.areStartsUnsaved = true
		if !now.isSame(known.start) {
			go n.cut(now.start)
		}
	}
}

// cut lets the loop cut the connections of starts before this one.
func (n *Node) cut(now start) {
	select {
	case n.hearings <- hearing{now, make(chan verdict, 1)}:
	case <-n.done:
	}
}

// beside is what is known of a member once another one has told what it heard.
func (h heardStart) beside(it heardStart, isThere bool) heardStart {
	switch {
	case !isThere:
		return it
	case h.Folder != it.Folder, it.Starts > h.Starts: // (a later start will be heard of that one itself)
		return h
	case !h.isSame(it.start) && h.reach.isBefore(it.Acknowledged):
		return it // (what was heard here was an older copy)
	case h.Acknowledged.isBefore(it.Acknowledged):
		h.Acknowledged = it.Acknowledged
	}
	return h
}

// saveStarts keeps it for the next start.
func (n *Node) saveStarts() error {
	return n.keep(func() error {
		n.mu.Lock()
		n.areStartsUnsaved = false
		n.mu.Unlock()
		all := n.heardStarts()
		err := writeChecked(filepath.Join(n.cfg.Dir, startsName), all, n.syncFolder)
		if err != nil {
			n.cfg.Log.Errorf("the file %s can't be written: %v", startsName, err)
		}
		return err
	})
}

// keep writes a file of the folder, unless this member has given the folder back: it may be that of another process by now.
func (n *Node) keep(write func() error) error {
	n.keeping.Lock()
	defer n.keeping.Unlock()
	if n.lock == nil {
		return engine.ErrEnded
	}
	return write()
}
