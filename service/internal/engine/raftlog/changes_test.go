package raftlog

import (
	"context"
	"errors"
	"fmt"
	"os"
	"testing"
	"time"

	"go.etcd.io/etcd/raft/raftpb"
	"go.etcd.io/etcd/wal"

	"lrcman/service/internal/engine"
)

func addingByForce(member engine.Member) asked {
	return func(ctx context.Context, n *Node) (bool, error) { return n.Add(ctx, member, true) }
}

func removingByForce(id uint64) asked {
	return func(ctx context.Context, n *Node) (bool, error) { return n.Remove(ctx, id, true) }
}

func TestALearnerKeepsTheLogAndDoesNotVote(t *testing.T) {
	t.Parallel()
	g := groupOf(t, 2)
	proposeAll(t, g.nodes[1], texts(1, 3))
	member := learner(memberAt(t, 3))
	g.must(adding(member))
	g.join(member)
	g.alike(texts(1, 3))
	propose(t, g.nodes[3], "entry 4") // it passes calls on
	time.Sleep(2 * g.configs[1].Election)
	g.expectLearner(3, true) // (it has told its address now, and it has all)
	g.refused(func(ctx context.Context, n *Node) (bool, error) { return false, n.Lead(ctx, 3) }, "member 3 only learns")
	if !g.must(adding(member)) {
		t.Error("a learner that is there is added again")
	}
	g.expectNoMajority(2) // of two that vote: the learner is no majority with the other

	g.nodes[3].Close() // after a restart it still learns
	g.start(3)
	g.expectLearner(3, true)
	votes := member
	votes.Learner = false
	g.mustSoon(adding(votes))
	g.expectLearner(3, false)
	away := g.otherThan(g.leader(), 3)
	g.nodes[away].Close() // now it is a majority with the other
	delete(g.nodes, away)
	propose(t, g.nodes[3], "entry 5")
}

// expectNoMajority closes a member, and expects that nothing is told without it.
func (g *group) expectNoMajority(id uint64) {
	g.t.Helper()
	g.nodes[id].Close()
	ctx, cancel := context.WithTimeout(context.Background(), 3*g.configs[id].Election)
	defer cancel()
	if told, err := g.nodes[g.other(id)].Propose(ctx, []byte("nobody counts this")); err == nil {
		g.t.Errorf("told %v without member %d", told, id)
	}
	g.start(id)
	eventually(g.t, "the group goes on", func() bool { return g.nodes[id].Status().Leader != 0 })
}

func (g *group) otherThan(ids ...uint64) uint64 {
	for id := range g.nodes {
		isOther := true
		for _, it := range ids {
			isOther = isOther && it != id
		}
		if isOther {
			return id
		}
	}
	return 0
}

// mustSoon asks for a change until it is not refused any more.
func (g *group) mustSoon(change asked) {
	g.t.Helper()
	var err error
	for end := time.Now().Add(long); time.Now().Before(end); time.Sleep(10 * time.Millisecond) {
		if _, err = g.heard(change); err == nil {
			return
		}
	}
	g.t.Fatal(err)
}

func TestALearnerFollowsOneWhoAloneVotes(t *testing.T) {
	t.Parallel()
	g := groupOf(t, 1)
	proposeAll(t, g.nodes[1], texts(1, 3))
	member := learner(memberAt(t, 2))
	g.must(adding(member))
	g.join(member)
	g.alike(texts(1, 3))
	propose(t, g.nodes[2], "entry 4")
	proposeAll(t, g.nodes[1], texts(5, 7))
	g.nodes[1].Close()
	g.start(1)
	proposeAll(t, g.nodes[1], texts(8, 9))
	g.alike(texts(1, 9))
	g.refused(removing(1), "1 is the only member that votes") // (raft would end all of them)
	g.refused(removingByForce(1), "1 is the only member that votes")
	propose(t, g.nodes[2], "entry 10")
}

// One who alone votes commits by its own log: what it tells learners of is on its disk.
func TestOneWhoAloneVotesSavesBeforeItSends(t *testing.T) {
	t.Parallel()
	self := memberAt(t, 1)
	folder, err := os.MkdirTemp("", "saves")
	if err != nil {
		t.Fatal(err)
	}
	cfg, _ := configOf(t, folder, self, self)
	opened, fatal := make(chan *wal.WAL, 1), make(chan error, 1)
	cfg.Knobs.Opened = func(log *wal.WAL) { opened <- log }
	cfg.Fatal = func(err error) {
		fatal <- err
		select {}
	}
	n, err := Start(cfg, &list{}) // (it is left to itself: its loop never ends)
	if err != nil {
		t.Fatal(err)
	}
	t.Cleanup(func() {
		n.stopOnce.Do(func() { close(n.stop) })
		for end := time.Now().Add(long); os.RemoveAll(folder) != nil && time.Now().Before(end); { // (a file may still be written)
			time.Sleep(10 * time.Millisecond)
		}
	})
	g := &group{t: t, configs: map[uint64]Config{1: cfg}, nodes: map[uint64]*Node{1: n}, machines: map[uint64]*list{}}
	propose(t, n, "entry 1")
	member := learner(memberAt(t, 2))
	g.must(adding(member))
	g.join(member)
	eventually(t, "it has told its folder", func() bool { return n.Status().Members[1].Folder != 0 })
	eventually(t, "the learner has all", func() bool { return g.nodes[2].Status().Applied == n.Status().Applied })
	(<-opened).Close() // from now on nothing can be saved
	go n.Propose(context.Background(), []byte("entry 2"))
	select {
	case <-fatal:
	case <-time.After(long):
		t.Fatal("it goes on")
	}
	time.Sleep(2 * cfg.Election)
	expect(t, g.machines[2], texts(1, 1))
}

// A mistyped address costs nothing: the member alone goes on, and the learner that nobody hears can be removed.
func TestAMemberAloneIsNotStrandedByAMistypedAddress(t *testing.T) {
	t.Parallel()
	g := groupOf(t, 1)
	propose(t, g.nodes[1], "entry 1")
	wrong := memberAt(t, 2)
	g.must(adding(wrong))
	proposeAll(t, g.nodes[1], texts(2, 4))
	for end := time.Now().Add(3 * g.configs[1].Election); time.Now().Before(end); time.Sleep(10 * time.Millisecond) {
		g.nodes[1].heard.note(2) // (as if it spoke: it lacks few entries, but has none)
	}
	g.expectLearner(2, true)
	if members := g.nodes[1].Status().Members; !members[1].Promote {
		t.Errorf("%+v", members)
	}
	if !g.must(adding(wrong)) {
		t.Error("it is added again")
	}
	g.nodes[1].Close()
	g.start(1)
	barrier(t, g.nodes[1])
	g.must(removing(2))
	g.add(3)
	propose(t, g.nodes[3], "entry 5")
	g.alike(texts(1, 5))
}

// Three more at addresses where nobody listens don't take the majority away.
func TestAddressesWhereNobodyListensDoNotStrandAGroup(t *testing.T) {
	t.Parallel()
	g := groupOf(t, 3)
	propose(t, g.nodes[1], "entry 1")
	for id := uint64(5); id <= 7; id++ {
		member := memberAt(t, id)
		member.Learner = id == 7
		g.must(adding(member))
		propose(t, g.nodes[1], fmt.Sprintf("entry %d", id-3))
	}
	proposeAll(t, g.nodes[1], texts(5, mostLag+20))
	all := g.nodes[g.leader()].Status().Members[5]
	all.Learner = false
	g.nodes[g.leader()].heard.note(7) // (as if it spoke, and had nothing)
	g.refused(adding(all), "and may vote once it lacks no more than 1000")
	for id := uint64(5); id <= 7; id++ {
		g.expectLearner(id, true)
		g.must(removing(id))
	}
	g.alike(texts(1, mostLag+20))
}

// One that has all, and is not there now, would be no help to a majority.
func TestALearnerThatIsAwayDoesNotComeToVote(t *testing.T) {
	t.Parallel()
	g := groupOf(t, 1)
	propose(t, g.nodes[1], "entry 1")
	member := learner(memberAt(t, 2))
	g.must(adding(member))
	g.join(member)
	g.alike(texts(1, 1))
	g.nodes[2].Close()
	delete(g.nodes, 2)
	eventually(t, "it is not heard of any more", func() bool { return !g.nodes[1].isHeard(2) })
	member.Learner = false
	g.refused(adding(member), "was not heard of for")
	g.expectLearner(2, true)
	propose(t, g.nodes[1], "entry 2")
}

// The wish that a member votes stands in the log: the leader that is there when it has all makes it vote.
func TestANewLeaderGoesOnWithAPromotion(t *testing.T) {
	t.Parallel()
	g := groupOf(t, 3, func(cfg *Config) { cfg.Trailing = 0 })
	propose(t, g.nodes[1], "entry 1")
	member := memberAt(t, 4)
	g.must(adding(member))
	first := g.leader()
	for _, n := range g.nodes { // the wish is in snapshots too
		if err := n.Snapshot(context.Background()); err != nil {
			t.Fatal(err)
		}
	}
	eventually(t, "snapshots are made", func() bool {
		return g.nodes[1].Status().Snapshot > 0 && g.nodes[2].Status().Snapshot > 0 && g.nodes[3].Status().Snapshot > 0
	})
	for id := uint64(1); id <= 3; id++ { // and all start in them
		g.nodes[id].Close()
	}
	delete(g.nodes, first)
	for id := range g.nodes {
		g.start(id)
	}
	if g.leader() == first {
		t.Fatal("the first leader is away")
	}
	g.join(member)
	g.expectLearner(4, false)
	if members := g.nodes[4].Status().Members; members[3].Promote {
		t.Errorf("it votes, and is to: %+v", members)
	}
	g.start(first)
	propose(t, g.nodes[4], "entry 2")
	g.alike(texts(1, 2))
}

func TestARemovalThatTakesTheMajorityIsRefused(t *testing.T) {
	t.Parallel()
	g := groupOf(t, 3)
	propose(t, g.nodes[1], "entry 1")
	leader := g.leader()
	away := g.other(leader)
	g.close(away)
	for _, n := range g.nodes {
		n := n
		eventually(t, "what it has sent has come", func() bool { return !n.isHeard(away) })
	}
	other := g.other(leader)
	g.refused(removing(other), "of the members that would vote then, 2, only 1 were heard of")
	propose(t, g.nodes[leader], "entry 2") // (nothing was changed)
	g.must(removing(away))
	g.alike(texts(1, 2))
	propose(t, g.nodes[other], "entry 3")
	g.must(removing(other)) // (the leader alone is a majority of one)
	propose(t, g.nodes[leader], "entry 4")
	expect(t, g.machines[leader], texts(1, 4))
}

// A member that is to vote at all events is made to, and may strand the group: the word for it is force.
func TestAForcedChangeIsMadeAllTheSame(t *testing.T) {
	t.Parallel()
	g := groupOf(t, 2)
	propose(t, g.nodes[1], "entry 1")
	member := memberAt(t, 3)
	g.must(addingByForce(member))
	g.expectLearner(3, true) // (at first, whatever is asked)
	g.must(addingByForce(member))
	g.expectLearner(3, false)
	other := g.other(g.leader())
	g.refused(removing(other), "only 1 were heard of")
	propose(t, g.nodes[1], "entry 2")
	g.must(removing(3)) // (it leaves two that are heard of)
	g.alike(texts(1, 2))
}

func TestMembersAreChangedAtTheLeader(t *testing.T) {
	t.Parallel()
	g := groupOf(t, 3)
	propose(t, g.nodes[1], "entry 1")
	leader := g.leader()
	other := g.nodes[g.other(leader)]
	eventually(t, "it knows the leader", func() bool { return other.Status().Leader == leader })
	_, err := other.Add(context.Background(), memberAt(t, 4), false)
	var notLeader *engine.NotLeader
	if !errors.As(err, &notLeader) || !notLeader.Leader.IsAt(g.configs[leader].Self) {
		t.Errorf("%v", err)
	}
	if _, err := other.Remove(context.Background(), leader, true); !errors.As(err, &notLeader) {
		t.Errorf("%v", err)
	}
	if members := g.nodes[leader].Status().Members; len(members) != 3 {
		t.Errorf("%+v", members)
	}
}

// A change that was judged by other members than those that it comes upon is not made.
func TestAChangeIsMadeOnlyToTheMembersThatItWasJudgedBy(t *testing.T) {
	t.Parallel()
	g := groupOf(t, 1)
	propose(t, g.nodes[1], "entry 1")
	n, before := g.nodes[1], g.nodes[1].roster().changes
	g.must(adding(learner(memberAt(t, 2))))
	late := wish{learner(memberAt(t, 3)), before}
	if _, err := n.reconfigure(context.Background(), raftpb.ConfChangeAddLearnerNode, late); err != errOvertaken {
		t.Errorf("%v", err)
	}
	n.Close() // the number of changes is kept, in the log and in snapshots
	g.start(1)
	barrier(t, g.nodes[1])
	if now := g.nodes[1].roster().changes; now != before+1 {
		t.Errorf("%d changes, and not %d", now, before+1)
	}
	if err := g.nodes[1].Snapshot(context.Background()); err != nil {
		t.Fatal(err)
	}
	eventually(t, "a snapshot is made", func() bool { return g.nodes[1].Status().Snapshot > 0 })
	g.nodes[1].Close()
	g.start(1)
	barrier(t, g.nodes[1])
	if now := g.nodes[1].roster().changes; now != before+1 {
		t.Errorf("%d changes, and not %d, in a snapshot", now, before+1)
	}
}
