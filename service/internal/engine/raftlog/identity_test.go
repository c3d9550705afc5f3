package raftlog

import (
	"context"
	"errors"
	"fmt"
	"io"
	"net"
	"os"
	"path/filepath"
	"strings"
	"testing"
	"time"

	"go.etcd.io/etcd/raft/raftpb"
	"go.etcd.io/etcd/wal"
	"go.uber.org/zap"

	"lrcman/service/internal/engine"
)

func TestALoneMemberSaysThatItBeginsANewGroup(t *testing.T) {
	t.Parallel()
	cfg, words := configOf(t, t.TempDir(), alone, alone)
	cfg.New = false
	n, _ := begin(t, cfg)
	first, _, _ := strings.Cut(words.String(), "\n")
	if !strings.HasSuffix(first, " info this member begins a new group, alone, in the folder "+cfg.Dir) {
		t.Errorf("said: %q", words)
	}
	propose(t, n, "entry 1")
	n.Close()
	n, _ = begin(t, cfg)
	barrier(t, n)
	if strings.Count(words.String(), "begins a new group") != 1 {
		t.Errorf("and then: %q", words)
	}
	if members := n.Status().Members; len(members) != 1 || members[0].Folder != n.identity.Folder || members[0].Folder == 0 {
		t.Errorf("%+v", members)
	}
}

func TestNoTwoFoldersAndNoTwoGroupsAreAlike(t *testing.T) {
	t.Parallel()
	folders, groups := map[uint64]bool{}, map[uint64]bool{}
	for i := 0; i < 4; i++ {
		cfg, _ := configOf(t, t.TempDir(), alone, alone)
		n, _ := begin(t, cfg)
		folders[n.identity.Folder], groups[n.identity.Group] = true, true
	}
	if len(folders) != 4 || len(groups) != 4 {
		t.Errorf("folders %v, groups %v", folders, groups)
	}
}

func TestAFolderOfAnOlderFormIsRefusedByName(t *testing.T) {
	t.Parallel()
	cfg, _ := configOf(t, t.TempDir(), alone, alone)
	if err := os.MkdirAll(cfg.Dir, 0o700); err != nil {
		t.Fatal(err)
	}
	log, err := wal.Create(zap.NewNop(), filepath.Join(cfg.Dir, "wal"), make([]byte, oldHeadSize))
	if err != nil {
		t.Fatal(err)
	}
	if err := log.Save(raftpb.HardState{Term: 1, Vote: 1}, nil); err != nil {
		t.Fatal(err)
	}
	log.Close()
	if _, err := Start(cfg, &list{}); err == nil || !strings.Contains(err.Error(), "the folder is of an older form") {
		t.Fatal(err)
	}
}

// What the file beside the log says stands at the head of the log, too.
func TestAnIdentityThatIsDamagedIsTakenFromTheLog(t *testing.T) {
	t.Parallel()
	for name, damage := range map[string]func(string) error{
		"changed": func(path string) error {
			text, err := os.ReadFile(path)
			if err != nil {
				return err
			}
			text[len(text)/2] ^= 1
			return os.WriteFile(path, text, 0o600)
		},
		"gone": os.Remove,
	} {
		damage := damage
		t.Run(name, func(t *testing.T) {
			t.Parallel()
			cfg, words := configOf(t, t.TempDir(), alone, alone)
			n, _ := begin(t, cfg)
			before := n.identity
			proposeAll(t, n, texts(1, 3))
			n.Close()
			if err := damage(filepath.Join(cfg.Dir, identityName)); err != nil {
				t.Fatal(err)
			}
			other := cfg
			other.Self.ID, other.Members = 2, []engine.Member{{ID: 2}}
			if _, err := Start(other, &list{}); err == nil {
				t.Error("it is taken for the folder of another member")
			}
			for start := 0; start < 2; start++ {
				n, machine := begin(t, cfg)
				barrier(t, n)
				expect(t, machine, texts(1, 3))
				if n.identity.Group != before.Group || n.identity.Folder != before.Folder {
					t.Errorf("%+v, and before %+v", n.identity, before)
				}
				n.Close()
			}
			if count := strings.Count(words.String(), "what the head of the log says is taken"); count != 2 { // (once for the other)
				t.Errorf("said: %q", words)
			}
		})
	}
}

func TestAnIdentityWithoutALogIsRefusedIfItIsDamaged(t *testing.T) {
	t.Parallel()
	cfg, _ := configOf(t, t.TempDir(), alone, alone)
	if err := os.WriteFile(filepath.Join(cfg.Dir, identityName), []byte("{}\n00000000\n"), 0o600); err != nil {
		t.Fatal(err)
	}
	if _, err := Start(cfg, &list{}); err == nil || !strings.Contains(err.Error(), "there is no log") {
		t.Fatal(err)
	}
}

// firstOf are the configurations of so many first members that have not begun.
func firstOf(t *testing.T, size int) (*group, map[uint64]*said) {
	t.Helper()
	g := &group{t: t, configs: map[uint64]Config{}, nodes: map[uint64]*Node{}, machines: map[uint64]*list{}}
	for id := uint64(1); id <= uint64(size); id++ {
		g.members = append(g.members, memberAt(t, id))
	}
	words := map[uint64]*said{}
	for _, member := range g.members {
		g.configs[member.ID], words[member.ID] = configOf(t, t.TempDir(), member, g.members...)
	}
	return g, words
}

func TestFirstMembersAreAskedForByAWord(t *testing.T) {
	t.Parallel()
	g, _ := firstOf(t, 3)
	cfg := g.configs[1]
	cfg.New = false
	for start := 0; start < 2; start++ {
		if _, err := Start(cfg, &list{}); err == nil || !strings.Contains(err.Error(), "With --new this member begins a new group") {
			t.Fatal(err)
		}
	}
	g.startAll() // (it was left as it is)
	propose(t, g.nodes[2], "entry 1")
	g.alike(texts(1, 1))
	members := g.nodes[3].Status().Members
	for i, id := range []uint64{1, 2, 3} {
		if members[i].Folder != g.nodes[id].identity.Folder || g.nodes[id].identity.Group != g.nodes[1].identity.Group {
			t.Errorf("member %d: %+v, %+v", id, members[i], g.nodes[id].identity)
		}
	}
	for id := range g.nodes {
		g.nodes[id].Close()
	}
	for id, cfg := range g.configs { // later starts may have the word, and may leave it out
		cfg.New = id == 1
		g.configs[id] = cfg
	}
	g.startAll()
	g.alike(texts(1, 1))
}

func TestFirstMembersWaitForOneAnother(t *testing.T) {
	t.Parallel()
	g, words := firstOf(t, 3)
	errs := make(chan error, 2)
	for _, id := range []uint64{1, 2} {
		cfg := g.configs[id]
		cfg.Patience = 4 * time.Second
		go func() {
			_, err := Start(cfg, &list{})
			errs <- err
		}()
	}
	for range []int{1, 2} {
		if err := <-errs; err == nil || !strings.Contains(err.Error(), "3 ("+g.configs[3].Self.Peer) {
			t.Fatal(err)
		}
	}
	for _, id := range []uint64{1, 2} {
		if !strings.Contains(words[id].String(), "waiting for the other first members: 3 ("+g.configs[3].Self.Peer) {
			t.Errorf("member %d said %q", id, words[id])
		}
	}
	g.startAll()
	propose(t, g.nodes[3], "entry 1")
	g.alike(texts(1, 1))
}

func TestFirstMembersOfAnotherListOrGroupAreRefused(t *testing.T) {
	t.Parallel()
	for name, change := range map[string]func(*Config){
		"list": func(c *Config) {
			c.Members = append(c.Members[:2:2], engine.Member{ID: 3, Peer: c.Members[2].Peer, Client: "h:9"})
		},
		"group": func(c *Config) { c.Name = "eight" },
		"another": func(c *Config) {
			c.Self.ID = 3
			c.Members = append(c.Members[:1:1], engine.Member{ID: 2, Peer: "127.0.0.1:9"}, c.Self)
		},
	} {
		name, change := name, change
		t.Run(name, func(t *testing.T) {
			t.Parallel()
			g, _ := firstOf(t, 3)
			other := g.configs[2]
			change(&other)
			errs := make(chan error, 2)
			for _, cfg := range []Config{g.configs[1], other} {
				cfg.Patience = 3 * time.Second
				go func(cfg Config) {
					_, err := Start(cfg, &list{})
					errs <- err
				}(cfg)
			}
			isNamed := false
			for range []int{1, 2} { // (one of them may be gone before the other one asks)
				err := <-errs
				if err == nil {
					t.Error("it begins")
					continue
				}
				isNamed = isNamed || strings.Contains(err.Error(), "than this one") ||
					strings.Contains(err.Error(), "answers member 3, and not 2")
			}
			if !isNamed {
				t.Error("nobody says why")
			}
		})
	}
}

// A member that was killed after it knew its group, and before it had a log, begins with the same folder.
func TestAMemberThatIsKilledInItsFirstMomentsComesUp(t *testing.T) {
	t.Parallel()
	g, _ := firstOf(t, 3)
	whole, why := g.configs[3], errors.New("it is killed")
	killed := whole
	killed.Knobs.SyncFolder = func(path string) error {
		if filepath.Base(path) == "wal" {
			return why
		}
		return syncFolder(path)
	}
	g.startBy(func(cfg Config, machine engine.Machine) (*Node, error) {
		if cfg.Self.ID == 3 { // (the others may not have heard of it by then, and wait until it is back)
			if _, err := Start(killed, &list{}); err != why {
				t.Error(err)
			}
		}
		return Start(cfg, machine)
	})
	propose(t, g.nodes[1], "entry 1")
	propose(t, g.nodes[3], "entry 2")
	g.alike(texts(1, 2))
}

// withDown is a group of which one member is down, and the others have told entries.
func withDown(t *testing.T) (g *group, down, lost uint64, all []string) {
	t.Helper()
	g = groupOf(t, 3)
	propose(t, g.nodes[1], "entry 1")
	down = g.other(g.leader())
	g.close(down)
	all = texts(1, 30)
	proposeAll(t, g.nodes[g.leader()], all)
	lost = g.other(0)
	return g, down, lost, all
}

func (g *group) close(ids ...uint64) {
	g.t.Helper()
	for _, id := range ids {
		g.nodes[id].Close()
		delete(g.nodes, id)
	}
}

func (g *group) up() (ids []uint64) {
	for id := range g.nodes {
		ids = append(ids, id)
	}
	return ids
}

func empty(t *testing.T, folder string) {
	t.Helper()
	found, err := os.ReadDir(folder)
	for _, it := range found {
		if err == nil {
			err = os.RemoveAll(filepath.Join(folder, it.Name()))
		}
	}
	if err != nil {
		t.Fatal(err)
	}
}

// Two of three told entries, and one of these lost its folder: with the third it must not be a majority that knows of none.
func TestAnEmptiedFolderIsRefusedAndNothingToldIsLost(t *testing.T) {
	t.Parallel()
	for name, change := range map[string]func(*Config){
		"as it was begun": func(*Config) {},
		"by its later line": func(c *Config) {
			c.New = false
		},
		"as one that joins": func(c *Config) {
			c.New, c.Members = false, nil
		},
	} {
		name, change := name, change
		t.Run(name, func(t *testing.T) {
			t.Parallel()
			g, down, lost, all := withDown(t)
			rest := g.up()
			g.close(rest...)
			empty(t, g.configs[lost].Dir)
			cfg := g.configs[lost]
			change(&cfg)
			g.start(down)
			machine := &list{}
			if n, err := Start(cfg, machine); err == nil {
				n.Close()
				t.Error("it begins")
			} else if !strings.Contains(err.Error(), "remove the number and add another") &&
				!strings.Contains(err.Error(), "Remove the number and add another") {
				t.Errorf("%v", err)
			}
			for _, id := range rest {
				if id != lost {
					g.start(id)
				}
			}
			g.alike(all)
		})
	}
}

// copied copies a folder as it is now.
func copied(t *testing.T, from string) string {
	t.Helper()
	to := t.TempDir()
	err := filepath.Walk(from, func(path string, info os.FileInfo, err error) error {
		if err != nil {
			return err
		}
		place := filepath.Join(to, strings.TrimPrefix(path, from))
		if info.IsDir() {
			return os.MkdirAll(place, 0o700)
		}
		in, err := os.Open(path)
		if err != nil {
			return err
		}
		defer in.Close()
		out, err := os.Create(place)
		if err == nil {
			_, err = io.Copy(out, in)
			out.Close()
		}
		return err
	})
	if err != nil {
		t.Fatal(err)
	}
	return to
}

// endsRefused starts a member that has to end with words, and to be refused at its next start.
func endsRefused(t *testing.T, cfg Config, words string) {
	t.Helper()
	n, err := Start(cfg, &list{})
	if err != nil {
		t.Fatal(err)
	}
	defer n.Close()
	select {
	case <-n.Done():
	case <-time.After(long):
		t.Fatal("it goes on")
	}
	if err := n.Err(); !errors.Is(err, engine.ErrLost) || !strings.Contains(err.Error(), words) {
		t.Errorf("%v", err)
	}
	again := "is not started again: " + words
	if _, err := Start(cfg, &list{}); !errors.Is(err, engine.ErrLost) || !strings.Contains(err.Error(), again) {
		t.Errorf("the next start: %v", err)
	}
}

// An older copy has forgotten what it promised, whether or not the member was started since.
func TestAnOlderCopyOfAFolderIsRefused(t *testing.T) {
	t.Parallel()
	for name, it := range map[string]struct{ isStartedSince, leads bool }{
		"started since":      {true, false},
		"acknowledged since": {false, false},
		"led since":          {false, true},
	} {
		it := it
		t.Run(name, func(t *testing.T) {
			t.Parallel()
			g := groupOf(t, 3)
			propose(t, g.nodes[1], "entry 1")
			g.alike(texts(1, 1))
			old := g.leader()
			if !it.leads {
				old = g.other(old)
			}
			copy := g.configs[old]
			if it.isStartedSince {
				g.close(old)
				copy.Dir = copied(t, copy.Dir)
				g.start(old)
			} else {
				g.hears(old)
				copy.Dir = copied(t, copy.Dir)
			}
			all := texts(1, 20)
			proposeAll(t, g.nodes[old], all[1:])
			g.alike(all)
			if it.leads {
				g.hearsCommit(old)
			}
			g.close(old)
			endsRefused(t, copy, "this folder is an older copy")
			g.start(old) // and that which it was copied from goes on
			g.alike(all)
		})
	}
}

// hears waits until all others know the start of a member.
func (g *group) hears(id uint64) {
	g.t.Helper()
	for _, other := range g.up() {
		if other != id {
			n := g.nodes[other]
			eventually(g.t, "the others hear of it", func() bool { return n.hasHeard(g.nodes[id].ownStart()) })
		}
	}
}

// hearsCommit waits until all others heard of a leader what it has told.
func (g *group) hearsCommit(leader uint64) {
	g.t.Helper()
	told := g.nodes[leader].Status().Applied
	for _, other := range g.up() {
		if n := g.nodes[other]; other != leader {
			eventually(g.t, "the others hear of it", func() bool {
				n.mu.Lock()
				defer n.mu.Unlock()
				return n.starts[leader].Acknowledged.Last >= told
			})
		}
	}
}

// One that asked the others as it ended may hear of the next start of its folder: it leaves that alone.
func TestAMemberThatHasEndedMarksNothing(t *testing.T) {
	t.Parallel()
	cfg, _ := configOf(t, t.TempDir(), alone, alone)
	n, _ := begin(t, cfg)
	propose(t, n, "entry 1")
	n.Close()
	n.endRefused(isOld)
	if err := n.Err(); err != nil {
		t.Error(err)
	}
	n, machine := begin(t, cfg)
	barrier(t, n)
	expect(t, machine, texts(1, 1))
}

// A member that starts again asks the others first: a vote or an acknowledgement of an older copy would count at once.
func TestAMemberTakesNoPartBeforeItHasAsked(t *testing.T) {
	t.Parallel()
	g := groupOf(t, 3)
	propose(t, g.nodes[1], "entry 1")
	g.alike(texts(1, 1))
	g.close(1, 2, 3)
	silent, err := net.Listen("tcp", g.configs[2].Self.Peer) // (it takes connections, and answers nothing)
	if err != nil {
		t.Fatal(err)
	}
	n, err := Start(g.configs[1], &list{})
	if err != nil {
		t.Fatal(err)
	}
	defer n.Close()
	if n.takesPart() {
		t.Error("it takes part at once")
	}
	eventually(t, "it takes part once it has asked", n.takesPart)
	silent.Close()
	g.start(2)
	propose(t, g.nodes[2], "entry 2")
}

// What members have acknowledged is known after restarts of the others, too.
func TestWhatWasHeardOfOthersIsKept(t *testing.T) {
	t.Parallel()
	g := groupOf(t, 3)
	propose(t, g.nodes[1], "entry 1")
	g.alike(texts(1, 1))
	old := g.other(g.leader())
	cfg := g.configs[old]
	cfg.Dir = copied(t, cfg.Dir)
	all := texts(1, 20)
	proposeAll(t, g.nodes[g.leader()], all[1:])
	g.alike(all)
	g.close(1, 2, 3)
	for id := range g.configs {
		if id != old {
			g.start(id)
		}
	}
	if leader := g.leader(); leader == old {
		t.Fatal("it is not up")
	}
	endsRefused(t, cfg, "this folder is an older copy")
	g.start(old)
	g.alike(all)
}

// Of two processes with copies of one folder one goes on, and the other one ends.
func TestOfTwoCopiesOfAFolderOneGoesOn(t *testing.T) {
	t.Parallel()
	g := groupOf(t, 3)
	propose(t, g.nodes[1], "entry 1")
	g.alike(texts(1, 1))
	twin := g.other(g.leader())
	g.close(twin)
	cfg := g.configs[twin]
	cfg.Dir = copied(t, cfg.Dir)
	cfg.Listen = memberAt(t, 9).Peer
	g.start(twin)
	g.alike(texts(1, 1))
	endsRefused(t, cfg, "this folder is an older copy")
	propose(t, g.nodes[twin], "entry 2")
	g.alike(texts(1, 2))
}

// The number of a folder is told by the member itself, once.
func TestAMemberThatJoinsTellsItsFolder(t *testing.T) {
	t.Parallel()
	g := groupOf(t, 3)
	propose(t, g.nodes[1], "entry 1")
	g.add(4)
	has := func(folder uint64) func() bool {
		return func() bool {
			for _, n := range g.nodes {
				if members := n.Status().Members; len(members) != 4 || members[3].Folder != folder {
					return false
				}
			}
			return true
		}
	}
	eventually(t, "all know its folder", has(g.nodes[4].identity.Folder))
	g.close(4)
	cfg := g.configs[4]
	empty(t, cfg.Dir)
	if _, err := Start(cfg, &list{}); err == nil || !strings.Contains(err.Error(), "folder is lost") {
		t.Errorf("%v", err)
	}
	n := g.nodes[g.leader()]
	other := n.roster().members[4]
	other.Folder = 77
	ctx, cancel := context.WithTimeout(context.Background(), long)
	defer cancel()
	_, err := n.reconfigure(ctx, raftpb.ConfChangeUpdateNode, wish{other, 0})
	if want := engine.Refused("member 4 has another folder"); err != want {
		t.Errorf("%v", err)
	}
}

func TestAMemberThatWasNotAddedWaits(t *testing.T) {
	t.Parallel()
	cfg, _ := configOf(t, t.TempDir(), memberAt(t, 4))
	cfg.Patience = time.Second
	if _, err := Start(cfg, &list{}); err == nil || !strings.Contains(err.Error(), "nobody of the group has spoken to it") {
		t.Fatal(err)
	}
}

func TestOneThatJoinsUnderAnotherNameOfTheGroupIsRefused(t *testing.T) {
	t.Parallel()
	g := groupOf(t, 3)
	propose(t, g.nodes[1], "entry 1")
	member := memberAt(t, 4)
	g.must(adding(member))
	cfg, _ := configOf(t, t.TempDir(), member)
	cfg.Name, cfg.Patience = "eight", 3*time.Second
	if _, err := Start(cfg, &list{}); err == nil || !strings.Contains(err.Error(), `is of the group "seven"`) {
		t.Fatal(err)
	}
}

// Removed numbers stand in snapshots: the log may have lost the entries that removed them.
func TestRemovedNumbersAreKnownAfterARestartFromASnapshot(t *testing.T) {
	t.Parallel()
	g := groupOf(t, 3)
	propose(t, g.nodes[1], "entry 1")
	gone := g.other(g.leader())
	g.must(removing(gone))
	<-g.nodes[gone].Done()
	delete(g.nodes, gone)
	proposeAll(t, g.nodes[g.leader()], texts(2, 200))
	for _, id := range g.up() {
		n := g.nodes[id]
		if err := n.Snapshot(context.Background()); err != nil {
			t.Fatal(err)
		}
		eventually(t, "the log is cut", func() bool { return n.Status().First > 50 })
		g.close(id)
	}
	for id := range g.configs {
		if id != gone {
			g.start(id)
		}
	}
	g.alike(texts(1, 200))
	for id, n := range g.nodes {
		if !n.IsIDRemoved(gone) {
			t.Errorf("member %d has forgotten that %d was removed", id, gone)
		}
	}
	g.refused(adding(memberAt(t, gone)), fmt.Sprintf("the number %d was removed, and is not used again", gone))
}
