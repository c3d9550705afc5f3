package raftlog

import (
	"bytes"
	"context"
	"encoding/binary"
	"errors"
	"fmt"
	"os"
	"path/filepath"
	"reflect"
	"sort"
	"strings"
	"testing"
	"time"

	"lrcman/service/internal/engine"
)

func backupOf(t *testing.T, n *Node) []byte {
	t.Helper()
	barrier(t, n)
	ctx, cancel := context.WithTimeout(context.Background(), long)
	defer cancel()
	backup, err := n.Backup(ctx)
	if err != nil {
		t.Fatal(err)
	}
	defer backup.Close()
	var text bytes.Buffer
	if err := backup.Write(&text); err != nil {
		t.Fatal(err)
	}
	return text.Bytes()
}

// restored is a member that was started in the folder of a backup.
func restored(t *testing.T, text []byte, self engine.Member) (*Node, *list, Recovered) {
	t.Helper()
	cfg, _ := configOf(t, filepath.Join(t.TempDir(), "new"), self, self)
	made, err := Restore(cfg, &list{}, bytes.NewReader(text))
	if err != nil {
		t.Fatal(err)
	}
	n, machine := begin(t, cfg)
	return n, machine, made
}

func TestABackupHasASnapshotAndTheEntriesBehindIt(t *testing.T) {
	t.Parallel()
	for name, snapshot := range map[string]int{"none yet": 0, "old": 20, "new": 30} {
		cfg, _ := configOf(t, t.TempDir(), alone, alone)
		n, _ := begin(t, cfg)
		for i, text := range texts(1, 30) {
			propose(t, n, text)
			if i+1 == snapshot {
				if err := n.Snapshot(context.Background()); err != nil {
					t.Fatal(err)
				}
				eventually(t, "a snapshot is made", func() bool { return n.Status().Snapshot > 0 })
			}
		}
		text := backupOf(t, n)
		applied := n.Status().Applied
		propose(t, n, "later")
		other, machine, made := restored(t, text, alone)
		barrier(t, other)
		if !reflect.DeepEqual(machine.all(), texts(1, 30)) {
			t.Errorf("%s: %q", name, machine.all())
		}
		before, now := n.Status(), other.Status()
		if made.Last != applied || made.Commit != applied || now.Applied <= applied+gap || now.Term <= before.Term {
			t.Errorf("%s: %+v, %+v behind %+v", name, made, now, before)
		}
		propose(t, other, "entry 31")
		other.Close()
		again, machine := begin(t, other.cfg)
		barrier(t, again)
		expect(t, machine, texts(1, 31))
	}
}

// A snapshot that is damaged on the disk is in no backup: another one is made.
func TestABackupOfADamagedSnapshotHasANewOne(t *testing.T) {
	t.Parallel()
	for name, more := range map[string]int{"and nothing behind it": 0, "and more behind it": 3} {
		cfg, _, all := withSnapshots(t)
		n, _ := begin(t, cfg)
		barrier(t, n)
		for i := 0; i < more; i++ {
			all = append(all, fmt.Sprintf("more %d", i))
			propose(t, n, all[len(all)-1])
		}
		change(t, files(t, cfg, "*.snap.db")[1], -1)
		other, machine, _ := restored(t, backupOf(t, n), alone)
		barrier(t, other)
		if !reflect.DeepEqual(machine.all(), all) {
			t.Errorf("%s: %q", name, machine.all())
		}
	}
}

// A member that has lost its majority still gives what it has applied.
func TestABackupIsMadeWithoutAMajority(t *testing.T) {
	t.Parallel()
	g := groupOf(t, 3)
	proposeAll(t, g.nodes[1], texts(1, 5))
	g.alike(texts(1, 5))
	for id := range g.nodes {
		g.nodes[id].Close()
	}
	g.start(2)
	ctx, cancel := context.WithTimeout(context.Background(), long)
	defer cancel()
	backup, err := g.nodes[2].Backup(ctx)
	if err != nil {
		t.Fatal(err)
	}
	defer backup.Close()
	var text bytes.Buffer
	if err := backup.Write(&text); err != nil {
		t.Fatal(err)
	}
	_, machine, _ := restored(t, text.Bytes(), alone)
	if have := machine.all(); len(have) == 0 || !reflect.DeepEqual(have, texts(1, len(have))) {
		t.Errorf("%q", have)
	}
}

// slow takes a part of what it is written only when it may.
type slow struct {
	bytes.Buffer
	may chan struct{}
}

func (s *slow) Write(text []byte) (int, error) {
	<-s.may
	return s.Buffer.Write(text)
}

// A client that is slow neither holds up snapshots, nor loses the entries behind its own.
func TestASlowBackupHoldsUpNothing(t *testing.T) {
	t.Parallel()
	cfg, _ := configOf(t, t.TempDir(), alone, alone)
	cfg.SnapshotEvery, cfg.Trailing = 20, 0
	n, _ := begin(t, cfg)
	proposeAll(t, n, texts(1, 30))
	eventually(t, "a snapshot is made", func() bool { return n.Status().Snapshot > 0 })
	ctx, cancel := context.WithTimeout(context.Background(), long)
	defer cancel()
	backup, err := n.Backup(ctx)
	if err != nil {
		t.Fatal(err)
	}
	defer backup.Close()
	to, written := &slow{may: make(chan struct{})}, make(chan error, 1)
	go func() { written <- backup.Write(to) }()
	proposeAll(t, n, texts(31, 100))
	eventually(t, "the log is cut", func() bool { return n.Status().First > 60 })
	eventually(t, "old snapshots are removed", func() bool { return len(files(t, cfg, "*.snap.db")) == 2 })
	close(to.may)
	if err := <-written; err != nil {
		t.Fatal(err)
	}
	other, machine, _ := restored(t, to.Bytes(), alone)
	barrier(t, other)
	if have := machine.all(); len(have) < 30 || !reflect.DeepEqual(have, texts(1, len(have))) {
		t.Errorf("%q", have)
	}
}

func TestABackupThatIsNotWholeIsRefused(t *testing.T) {
	t.Parallel()
	cfg, _ := configOf(t, t.TempDir(), alone, alone)
	n, _ := begin(t, cfg)
	proposeAll(t, n, texts(1, 5))
	text := backupOf(t, n)
	propose(t, n, "entry 6")
	text6 := backupOf(t, n)
	x := []byte("x")
	damaged := map[string][]byte{"empty": nil, "another mark": append(x, text[1:]...), "more": append(x, text...)}
	for place := 0; place < len(text); place += 7 {
		damaged[fmt.Sprintf("cut at %d", place)] = text[:place]
		changed := append([]byte(nil), text...)
		changed[place] ^= 1
		damaged[fmt.Sprintf("changed at %d", place)] = changed
	}
	last := bytes.LastIndex(text6, []byte("entry 6")) // a whole record less
	record := bytes.LastIndexByte(text6[:last-20], entryRecord)
	end := bytes.LastIndexByte(text6, endRecord)
	for from := last - 60; from < last; from++ {
		if text6[from] == entryRecord && from+9+int(binary.LittleEndian.Uint32(text6[from+1:])) == len(text6)-17 {
			record, end = from, len(text6)-17
		}
	}
	damaged["an entry less"] = append(append([]byte(nil), text6[:record]...), text6[end:]...)
	for name, text := range damaged {
		to, _ := configOf(t, filepath.Join(t.TempDir(), "new"), alone, alone)
		if _, err := Restore(to, &list{}, bytes.NewReader(text)); err == nil {
			t.Errorf("%s: it is taken", name)
		}
		if left, _ := filepath.Glob(filepath.Join(to.Dir, "*")); len(left) > 1 || len(left) == 1 && filepath.Base(left[0]) != lockName {
			t.Errorf("%s: left %v", name, left)
		}
	}
}

// The mark of a restored folder says that its log is not to be empty.
func TestARestoredFolderWithoutItsLogIsRefused(t *testing.T) {
	t.Parallel()
	cfg, _ := configOf(t, t.TempDir(), alone, alone)
	n, _ := begin(t, cfg)
	propose(t, n, "entry 1")
	to, _ := configOf(t, filepath.Join(t.TempDir(), "new"), alone, alone)
	if _, err := Restore(to, &list{}, bytes.NewReader(backupOf(t, n))); err != nil {
		t.Fatal(err)
	}
	for _, name := range []string{"wal", "snap", identityName} {
		if err := os.RemoveAll(filepath.Join(to.Dir, name)); err != nil {
			t.Fatal(err)
		}
	}
	if _, err := Start(to, &list{}); err == nil || !strings.Contains(err.Error(), "the log is damaged: it ends at entry 0") {
		t.Error(err)
	}
}

func TestABackupIsRestoredIntoAnEmptyFolderAlone(t *testing.T) {
	t.Parallel()
	cfg, _ := configOf(t, t.TempDir(), alone, alone)
	n, _ := begin(t, cfg)
	propose(t, n, "entry 1")
	text := backupOf(t, n)
	_, err := Restore(cfg, &list{}, bytes.NewReader(text))
	if err == nil || !strings.Contains(err.Error(), "another process has the folder") {
		t.Error(err)
	}
	n.Close()
	_, err = Restore(cfg, &list{}, bytes.NewReader(text))
	if err == nil || !strings.Contains(err.Error(), "has something in it") {
		t.Error(err)
	}
	n, machine := begin(t, cfg)
	barrier(t, n)
	expect(t, machine, texts(1, 1))
}

// A member goes on alone with all that its log has, also what it does not know as committed.
func TestAMemberGoesOnAloneAfterItsMajorityIsLost(t *testing.T) {
	t.Parallel()
	g := groupOf(t, 3)
	proposeAll(t, g.nodes[1], texts(1, 10))
	g.alike(texts(1, 10))
	left := g.leader()
	for id := range g.nodes {
		if id != left {
			g.nodes[id].Close()
		}
	}
	ctx, cancel := context.WithTimeout(context.Background(), 100*time.Millisecond)
	defer cancel()
	g.nodes[left].Propose(ctx, []byte("perhaps told")) // (nobody else has it)
	if status := g.nodes[left].Status(); status.Last != status.Commit+1 || status.LastTerm == 0 {
		t.Errorf("%+v", status)
	}
	cfg := g.configs[left]
	if _, err := Recover(recovering(cfg), &list{}); err == nil || !strings.Contains(err.Error(), "another process has the folder") {
		t.Error(err)
	}
	g.nodes[left].Close()
	before := namesIn(t, cfg.Dir)

	made, err := Recover(recovering(cfg), &list{})
	if err != nil {
		t.Fatal(err)
	}
	self := made.Self
	if made.Last != made.Commit+1 || self.ID != left || self.Peer != cfg.Self.Peer || len(made.Others) != 2 {
		t.Errorf("%+v", made)
	}
	for _, name := range before { // nothing is removed
		if name != lockName && !exists(filepath.Join(cfg.Dir, name+made.Beside)) {
			t.Errorf("%s is gone: %v", name, namesIn(t, cfg.Dir))
		}
	}
	n, machine := begin(t, cfg)
	barrier(t, n)
	all := append(texts(1, 10), "perhaps told")
	expect(t, machine, all)
	if status := n.Status(); len(status.Members) != 1 || status.Members[0].ID != left {
		t.Errorf("%+v", status)
	}
	propose(t, n, "alone")
	// The others are of another group: they hear nothing, and their numbers are used no more.
	delete(g.nodes, left)
	for id := range g.nodes {
		g.start(id)
	}
	g.nodes[left], g.machines[left] = n, machine
	for _, other := range made.Others {
		_, err := n.Add(ctx, other, false)
		for err == engine.ErrOutcomeUnknown || err == engine.ErrNoLeader {
			_, err = n.Add(context.Background(), other, false)
		}
		if err == nil || !strings.Contains(err.Error(), "was removed, and is not used again") {
			t.Error(err)
		}
	}
	time.Sleep(3 * cfg.Election)
	expect(t, machine, append(all, "alone"))
}

// One that only learned has all that it learned, and votes alone.
func TestALearnerIsRecovered(t *testing.T) {
	t.Parallel()
	g := groupOf(t, 1)
	proposeAll(t, g.nodes[1], texts(1, 3))
	member := learner(memberAt(t, 2))
	g.must(adding(member))
	g.join(member)
	g.alike(texts(1, 3))
	g.nodes[1].Close()
	g.nodes[2].Close()
	made, err := Recover(recovering(g.configs[2]), &list{})
	if err != nil || made.Self.Learner || made.Self.ID != 2 {
		t.Fatalf("%+v, %v", made, err)
	}
	g.start(2)
	propose(t, g.nodes[2], "entry 4")
	expect(t, g.machines[2], texts(1, 4))
	members := g.nodes[2].Status().Members
	if len(members) != 1 || members[0].Learner || members[0].Folder == 0 || members[0].Folder == made.Self.Folder {
		t.Errorf("%+v", members)
	}
}

// A member that was removed is none of the group: what it has is old.
func TestAMemberThatWasRemovedIsNotRecovered(t *testing.T) {
	t.Parallel()
	g := groupOf(t, 3)
	propose(t, g.nodes[1], "entry 1")
	gone := g.removeLeader()
	_, err := Recover(recovering(g.configs[gone]), &list{})
	if err == nil || !strings.Contains(err.Error(), "is none of its group") {
		t.Error(err)
	}
}

func glob(t *testing.T, folder, pattern string) []string {
	t.Helper()
	found, err := filepath.Glob(filepath.Join(folder, pattern))
	if err != nil {
		t.Fatal(err)
	}
	return found
}

// recovering is what a recovery is told of the folder of a member.
func recovering(cfg Config) Config { return Config{Dir: cfg.Dir, Log: cfg.Log} }

func namesIn(t *testing.T, folder string) (names []string) {
	t.Helper()
	found, err := os.ReadDir(folder)
	if err != nil {
		t.Fatal(err)
	}
	for _, it := range found {
		names = append(names, it.Name())
	}
	sort.Strings(names)
	return names
}

// A folder in which a recovery was cut off is refused, wherever that was, and the next one goes on.
func TestARecoveryThatIsCutOffGoesOn(t *testing.T) {
	t.Parallel()
	resumed := 0
	for syncs := 0; ; syncs++ {
		cfg, _, all := withSnapshots(t)
		count := 0
		cut := recovering(cfg)
		cut.Knobs.SyncFolder = func(path string) error {
			if count++; count > syncs {
				return errors.New("cut off")
			}
			return syncFolder(path)
		}
		if _, err := Recover(cut, &list{}); err == nil {
			break // (it is over before)
		}
		isBuilt := len(glob(t, cfg.Dir, finished+"*")) > 0
		if !isBuilt && len(glob(t, cfg.Dir, "wal"+before+"*")) > 0 {
			break // (all is in place)
		}
		if !isBuilt { // as if the process had ended then
			if err := os.Mkdir(filepath.Join(cfg.Dir, unfinished), 0o700); err != nil {
				t.Fatal(err)
			}
		}
		if _, err := Start(cfg, &list{}); err == nil || !strings.Contains(err.Error(), "was cut off in the folder") {
			t.Fatalf("after %d: %v", syncs, err)
		}
		made, err := Recover(recovering(cfg), &list{})
		if err != nil {
			t.Fatalf("after %d: %v", syncs, err)
		}
		if made.IsResumed {
			resumed++
		}
		n, machine := begin(t, cfg)
		barrier(t, n)
		expect(t, machine, all)
		if n.Status().Term < 2 || n.Status().Applied < gap {
			t.Errorf("after %d: %+v, %+v", syncs, made, n.Status())
		}
		n.Close()
	}
	if resumed < 3 {
		t.Errorf("%d went on with what was there", resumed)
	}
}

// A folder in which a restore was cut off is refused, wherever that was, and the same command goes on.
func TestARestoreThatIsCutOffGoesOn(t *testing.T) {
	t.Parallel()
	source, _ := configOf(t, t.TempDir(), alone, alone)
	n, _ := begin(t, source)
	proposeAll(t, n, texts(1, 5))
	text := backupOf(t, n)
	resumed := 0
	for syncs := 0; syncs < 50; syncs++ {
		cfg, _ := configOf(t, filepath.Join(t.TempDir(), "new"), alone, alone)
		count := 0
		cut := cfg
		cut.Knobs.SyncFolder = func(path string) error {
			if count++; count > syncs {
				return errors.New("cut off")
			}
			return syncFolder(path)
		}
		if _, err := Restore(cut, &list{}, bytes.NewReader(text)); err == nil {
			break // (it is over before)
		}
		if len(glob(t, cfg.Dir, finished+"*")) > 0 {
			if _, err := Start(cfg, &list{}); err == nil || !strings.Contains(err.Error(), "was cut off in the folder") {
				t.Fatalf("after %d: %v", syncs, err)
			}
		} else if exists(filepath.Join(cfg.Dir, "wal")) {
			break // (all is in place)
		}
		made, err := Restore(cfg, &list{}, bytes.NewReader(text))
		if err != nil {
			t.Fatalf("after %d: %v", syncs, err)
		}
		if made.IsResumed {
			resumed++
		}
		n, machine := begin(t, cfg)
		barrier(t, n)
		expect(t, machine, texts(1, 5))
		n.Close()
	}
	if resumed < 3 {
		t.Errorf("%d went on with what was there", resumed)
	}
}

// Each recovery of a folder keeps what was in it under names of its own, however soon it comes behind the one before.
func TestAFolderIsRecoveredAgainAtOnce(t *testing.T) {
	t.Parallel()
	cfg, _, all := withSnapshots(t)
	kept := map[string]bool{}
	for i := 0; i < 4; i++ {
		made, err := Recover(recovering(cfg), &list{})
		if err != nil || kept[made.Beside] {
			t.Fatalf("%d: %+v, %v", i, made, err)
		}
		kept[made.Beside] = true
	}
	for beside := range kept {
		if !exists(filepath.Join(cfg.Dir, "wal"+beside)) {
			t.Errorf("wal%s is gone: %v", beside, namesIn(t, cfg.Dir))
		}
	}
	n, machine := begin(t, cfg)
	barrier(t, n)
	expect(t, machine, all)
}

// The machine hears once from where a new group goes on, and writes its first snapshot behind that.
func TestTheMachineOfANewGroupBeginsAgain(t *testing.T) {
	t.Parallel()
	source, _ := configOf(t, t.TempDir(), alone, alone)
	n, _ := begin(t, source)
	proposeAll(t, n, texts(1, 5))
	text := backupOf(t, n)
	n.Close()
	cfg, _ := configOf(t, filepath.Join(t.TempDir(), "new"), alone, alone)
	for what, again := range map[string]func(*list) (Recovered, error){
		"restore": func(m *list) (Recovered, error) { return Restore(cfg, m, bytes.NewReader(text)) },
		"recover": func(m *list) (Recovered, error) { return Recover(recovering(source), m) },
	} {
		machine := &list{}
		if made, err := again(machine); err != nil || machine.again != 1 || machine.index != made.Last+gap {
			t.Errorf("%s: %d times, at %d, %+v, %v", what, machine.again, machine.index, made, err)
		}
	}
}
