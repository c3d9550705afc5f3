package raftlog

import (
	"context"
	"encoding/json"
	"errors"
	"fmt"
	"sort"
	"strconv"
	"sync/atomic"
	"time"

	"go.etcd.io/etcd/etcdserver/api/rafthttp"
	stats "go.etcd.io/etcd/etcdserver/api/v2stats"
	"go.etcd.io/etcd/pkg/types"
	"go.etcd.io/etcd/raft"
	"go.etcd.io/etcd/raft/raftpb"

	"lrcman/service/internal/engine"
)

// peersOf are the first members as raft takes them. They become the first entries of the log, alike on all members.
func peersOf(members []engine.Member) []raft.Peer {
	peers := make([]raft.Peer, len(members))
	for i, member := range members {
		text, _ := json.Marshal(member) // (numbers and texts alone: never an error)
		peers[i] = raft.Peer{ID: member.ID, Context: text}
	}
	sort.Slice(peers, func(i, j int) bool { return peers[i].ID < peers[j].ID })
	return peers
}

func (n *Node) scheme() string {
	if n.cfg.TLS.Empty() {
		return "http"
	}
	return "https"
}

func (n *Node) url(member engine.Member) string { return n.scheme() + "://" + member.Peer }

func (n *Node) startPeers() error {
	id := strconv.FormatUint(n.cfg.Self.ID, 10)
	n.peers = &rafthttp.Transport{Logger: n.zap, TLSInfo: n.cfg.TLS, DialTimeout: 2 * time.Second, ID: types.ID(n.cfg.Self.ID),
		ClusterID: types.ID(n.identity.Group), Raft: n, Snapshotter: n.snaps, ServerStats: stats.NewServerStats(id, id),
		LeaderStats: stats.NewLeaderStats(id), ErrorC: make(chan error, 1)}
	if n.cfg.Self.Peer != "" { // a member that does not know this one yet answers there
		urls, err := types.NewURLs([]string{n.url(n.cfg.Self)})
		if err != nil {
			return err
		}
		n.peers.URLs = urls
	}
	if err := n.peers.Start(); err != nil {
		n.peers = nil // (it can't be stopped)
		return err
	}
	for _, member := range n.sorted() { // from the snapshot; those of later entries come when these are applied
		n.addPeer(member)
	}
	return nil
}

func (n *Node) addPeer(member engine.Member) {
	if member.ID != n.cfg.Self.ID && member.Peer != "" {
		n.peers.AddPeer(types.ID(member.ID), n.urlsOf(member))
	}
}

// urlsOf are where rafthttp speaks to a member, with what it is to tell of this one in each request.
func (n *Node) urlsOf(member engine.Member) []string {
	n.mu.Lock()
	to := n.starts[member.ID].Number
	n.mu.Unlock()
	return []string{n.url(member) + "?" + n.ownStart().query(to)}
}

// renewPeers takes the members of a snapshot in place of those before.
func (n *Node) renewPeers() {
	n.peers.RemoveAllPeers()
	for _, member := range n.sorted() {
		n.addPeer(member)
	}
}

// sorted are the members by their numbers.
func (n *Node) sorted() []engine.Member {
	n.mu.Lock()
	defer n.mu.Unlock()
	members := make([]engine.Member, 0, len(n.members))
	for _, member := range n.members {
		members = append(members, member)
	}
	sort.Slice(members, func(i, j int) bool { return members[i].ID < members[j].ID })
	return members
}

func (n *Node) head() head {
	head := head{Members: n.sorted()}
	n.mu.Lock()
	defer n.mu.Unlock()
	head.Changes = n.changes
	for id := range n.removed {
		head.Removed = append(head.Removed, id)
	}
	sort.Slice(head.Removed, func(i, j int) bool { return head.Removed[i] < head.Removed[j] })
	return head
}

// A wish is what the entry of a change of members says of the member.
type wish struct {
	engine.Member
	// The change is made only if so many were made before it: none is made twice, and each is made to the members that it was
	// judged by. 0 for those of the first members, which follow one another.
	After uint64 `json:"after,omitempty"`
}

// errOvertaken says that a change was not made, as another one came before.
var errOvertaken = errors.New("the members were changed meanwhile")

// judge makes a change of members, or says why it is not made; isAgain if it was so before. It is asked where a change is
// applied, and not where it is proposed: so all members judge alike.
func (n *Node) judge(change *raftpb.ConfChange, wish wish) (isAgain bool, err error) {
	n.mu.Lock()
	defer n.mu.Unlock()
	id, member := change.NodeID, wish.Member
	known, isThere := n.members[id]
	if wish.After != 0 && wish.After != n.changes {
		return false, errOvertaken
	}
	if n.isMade(change.Type, id, member) {
		return true, nil
	}
	if why := n.refusal(change.Type, id, member); why != "" {
		return false, engine.Refused(why)
	}
	n.changes++
	switch {
	case change.Type == raftpb.ConfChangeRemoveNode:
		delete(n.members, id)
		n.removed[id] = true
		return false, nil
	case change.Type == raftpb.ConfChangeUpdateNode:
		known.Peer, known.Client, known.Folder = member.Peer, member.Client, member.Folder
	case isThere: // it is to vote, or is to vote later, or no more
		known.Learner, known.Promote = member.Learner, member.Promote
	default:
		known = member
		delete(n.vouched, id)
	}
	n.members[id] = known
	return false, nil
}

// isMade tells whether a change would change nothing.
func (n *Node) isMade(kind raftpb.ConfChangeType, id uint64, member engine.Member) bool {
	known, isThere := n.members[id]
	switch {
	case kind == raftpb.ConfChangeRemoveNode:
		return n.removed[id]
	case !isThere || !known.IsAt(member):
		return false
	case kind == raftpb.ConfChangeUpdateNode:
		return member.Folder == known.Folder
	case known.Learner:
		return member.Learner && member.Promote == known.Promote
	}
	return !member.Learner || member.Promote
}

// refusal says why a change of members is not lawful, or "".
func (n *Node) refusal(kind raftpb.ConfChangeType, id uint64, member engine.Member) string {
	known, isThere := n.members[id]
	if kind == raftpb.ConfChangeRemoveNode {
		switch {
		case !isThere:
			return fmt.Sprintf("there is no member %d", id)
		case !known.Learner && n.voters() == 1:
			return fmt.Sprintf("%d is the only member that votes", id)
		}
		return ""
	}
	isAdded := kind == raftpb.ConfChangeAddNode || kind == raftpb.ConfChangeAddLearnerNode
	switch {
	case isAdded && n.removed[id]:
		return fmt.Sprintf("the number %d was removed, and is not used again", id)
	case isAdded && isThere && !known.IsAt(member):
		return fmt.Sprintf("there is a member %d already, at other addresses", id)
	case isAdded && isThere && !known.Learner:
		return fmt.Sprintf("member %d votes already, and can't go back to learning", id)
	case isAdded && !isThere && len(n.members) > 0 && n.lacksAddress(member):
		return "a member has no address for the others: start it with --peer"
	case !isAdded && !isThere:
		return fmt.Sprintf("there is no member %d", id)
	case !isAdded && len(n.members) > 1 && member.Peer == "":
		return "it has no address for the others"
	case !isAdded && known.Folder != 0 && member.Folder != known.Folder:
		return fmt.Sprintf("member %d has another folder", id)
	case member.Peer != "" && !n.isAddress(member):
		return fmt.Sprintf("this is no address: %q", member.Peer) // (all members would end by it)
	}
	return n.taken(id, member)
}

// taken names the member that has one of the addresses of another, or is "".
func (n *Node) taken(id uint64, member engine.Member) string {
	for _, other := range n.members {
		for _, address := range []string{member.Peer, member.Client} {
			if other.ID != id && address != "" && (address == other.Peer || address == other.Client) {
				return fmt.Sprintf("member %d has the address %s", other.ID, address)
			}
		}
	}
	return ""
}

// voters is the number of members that do not only learn.
func (n *Node) voters() (count int) {
	for _, member := range n.members {
		if !member.Learner {
			count++
		}
	}
	return count
}

func (n *Node) isAddress(member engine.Member) bool {
	_, err := types.NewURLs([]string{n.url(member)})
	return err == nil
}

func (n *Node) lacksAddress(added engine.Member) bool {
	for _, member := range n.members {
		if member.Peer == "" {
			return true
		}
	}
	return added.Peer == ""
}

// applyChange makes a change of members, and returns false once this one is none.
func (n *Node) applyChange(entry *raftpb.Entry) bool {
	change, wish, err := changeOf(entry.Data)
	id, isAgain, refused := change.NodeID, false, error(engine.Refused("this change of members can't be read"))
	if err == nil {
		isAgain, refused = n.judge(&change, wish)
	}
	isMade := !isAgain && refused == nil
	if !isMade {
		change.NodeID = raft.None // raft must hear that the change is over, or it takes no other
	}
	n.conf = *n.raft.ApplyConfChange(change)
	n.changed = append(n.changed, changeOutcome{change.ID, isAgain, refused})
	if !isMade {
		return true
	}
	n.sayChange(entry.Index, change.Type, id, wish.Member)
	n.connect(change.Type, id, wish.Member)
	if change.Type == raftpb.ConfChangeRemoveNode && id == n.cfg.Self.ID {
		n.end(engine.ErrRemoved)
		return false
	}
	return true
}

// A changeOutcome is the outcome of a change of members, by the number of its proposal.
type changeOutcome struct {
	id      uint64
	isAgain bool
	err     error
}

// tellChanges tells of the changes that were applied. Only now raft counts them as over: whoever hears of one may ask for the
// next one at once.
func (n *Node) tellChanges() {
	for _, it := range n.changed {
		n.tell(it.id, it.isAgain, it.err)
	}
	n.changed = nil
}

func (n *Node) connect(kind raftpb.ConfChangeType, id uint64, member engine.Member) {
	switch {
	case id == n.cfg.Self.ID:
	case kind == raftpb.ConfChangeAddNode && n.peers.Get(types.ID(id)) != nil: // (it learned before)
		n.peers.UpdatePeer(types.ID(id), n.urlsOf(member))
	case kind == raftpb.ConfChangeAddNode, kind == raftpb.ConfChangeAddLearnerNode:
		n.addPeer(member)
	case kind == raftpb.ConfChangeUpdateNode && n.peers.Get(types.ID(id)) != nil:
		n.peers.UpdatePeer(types.ID(id), n.urlsOf(member))
	case kind == raftpb.ConfChangeUpdateNode:
		n.addPeer(member)
	default:
		time.AfterFunc(farewell, func() {
			select {
			case n.leaving <- id:
			case <-n.done:
			}
		})
	}
}

// farewell is how long a removed member is still spoken to: it has to hear of the commit that removes it.
const farewell = time.Second

// disconnect speaks to a member no more, if it is still one of the peers.
func (n *Node) disconnect(id uint64) {
	if n.peers.Get(types.ID(id)) != nil {
		n.peers.RemovePeer(types.ID(id))
	}
}

// reconfigure proposes a change of members until it is told. Where the leader has not applied the one before yet, it makes an
// empty entry of it, without a word.
func (n *Node) reconfigure(ctx context.Context, kind raftpb.ConfChangeType, wish wish) (isAgain bool, err error) {
	text, err := json.Marshal(wish)
	if err != nil {
		return false, err
	}
	id, told := n.wait()
	defer n.forgetWaiting(id)
	change := raftpb.ConfChange{ID: id, Type: kind, NodeID: wish.ID, Context: text}
	for isFirst := true; ; isFirst = false {
		if err := n.raft.ProposeConfChange(ctx, change); err != nil && isFirst {
			return false, engine.ErrNoLeader
		}
		select {
		case outcome := <-told:
			isAgain, _ := outcome.told.(bool)
			return isAgain, outcome.err
		case <-time.After(n.cfg.Election):
		case <-ctx.Done():
			return false, engine.ErrOutcomeUnknown
		case <-n.done:
			return false, engine.ErrOutcomeUnknown
		}
	}
}

// Lead makes a member the leader. A leader gives an attempt up after one election timeout, so it is asked again.
func (n *Node) Lead(ctx context.Context, id uint64) error {
	check := time.NewTicker(leadTime)
	defer check.Stop()
	for asked := (time.Time{}); ; {
		n.mu.Lock()
		member, isThere := n.members[id]
		n.mu.Unlock()
		leader := atomic.LoadUint64(&n.lead)
		if !isThere {
			return engine.Refused(fmt.Sprintf("there is no member %d", id))
		} else if member.Learner {
			return engine.Refused(fmt.Sprintf("member %d only learns", id))
		} else if leader == id {
			return nil
		}
		if leader != raft.None && time.Since(asked) > 2*n.cfg.Election {
			asked = time.Now()
			n.raft.TransferLeadership(ctx, leader, id)
		}
		select {
		case <-check.C:
		case <-ctx.Done():
			return engine.ErrNotMoved
		case <-n.done:
			return engine.ErrEnded
		}
	}
}

// leadTime is the time between two looks at who leads.
const leadTime = 10 * time.Millisecond

// announce tells the group where this member is, if it was started at other addresses than the group knows.
func (n *Node) announce() {
	for {
		select {
		case <-time.After(n.cfg.Election):
		case <-n.stop:
			return
		}
		now := n.roster()
		known, isMember := now.members[n.cfg.Self.ID]
		if !isMember || atomic.LoadUint64(&n.lead) == raft.None {
			continue
		}
		if known.IsAt(n.cfg.Self) && known.Folder == n.cfg.Self.Folder {
			return
		}
		ctx, cancel := context.WithTimeout(context.Background(), 5*n.cfg.Election)
		_, err := n.reconfigure(ctx, raftpb.ConfChangeUpdateNode, wish{n.cfg.Self, now.changes})
		cancel()
		var refused engine.Refused
		if errors.As(err, &refused) {
			n.cfg.Log.Warnf("the group does not take the address of this member: %v", err)
			return
		}
	}
}

func (n *Node) send(messages []raftpb.Message) {
	if !n.takesPart() {
		n.drop(messages)
		return
	}
	for i := range messages {
		if messages[i].Type == raftpb.MsgSnap {
			n.sendSnapshot(messages[i])
			messages[i].To = raft.None // (Send leaves it out)
		}
	}
	n.peers.Send(messages)
}

// drop tells raft that snapshots did not arrive: it waits for a word on each.
func (n *Node) drop(messages []raftpb.Message) {
	for i := range messages {
		if messages[i].Type == raftpb.MsgSnap {
			go n.raft.ReportSnapshot(messages[i].To, raft.SnapshotFailure)
		}
	}
}

// Process takes a message of another member. This and what follows is for rafthttp.
func (n *Node) Process(ctx context.Context, message raftpb.Message) error {
	if n.IsIDRemoved(message.From) || n.isAlone() || !n.takesPart() || n.checkMessage(&message) != nil {
		return nil
	} else if !n.hasWhole(&message) {
		return errRefused
	}
	n.heard.note(message.From)
	n.noteAcknowledged(&message)
	return n.raft.Step(ctx, message)
}

// isAlone tells whether this is the only member of its group. Then nobody else speaks for the group: a folder that was begun
// alone and is added to another group by mistake does not mix two logs. (One that was just added knows of no member at all)
func (n *Node) isAlone() bool {
	n.mu.Lock()
	defer n.mu.Unlock()
	_, isMember := n.members[n.cfg.Self.ID]
	return isMember && len(n.members) == 1
}

// IsIDRemoved tells whether a member was removed.
func (n *Node) IsIDRemoved(id uint64) bool {
	n.mu.Lock()
	defer n.mu.Unlock()
	return n.removed[id]
}

// ReportUnreachable tells raft that a message did not arrive.
func (n *Node) ReportUnreachable(id uint64) { n.raft.ReportUnreachable(id) }

// ReportSnapshot tells raft how a snapshot for a member went.
func (n *Node) ReportSnapshot(id uint64, status raft.SnapshotStatus) {
	n.raft.ReportSnapshot(id, status)
}
