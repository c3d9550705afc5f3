package raftlog

import (
	"bytes"
	"context"
	"encoding/binary"
	"encoding/json"
	"errors"
	"fmt"
	"hash/crc32"
	"io"
	"os"
	"path/filepath"
	"reflect"
	"runtime"
	"strings"
	"sync"
	"testing"
	"time"

	"go.etcd.io/etcd/pkg/transport"
	"go.etcd.io/etcd/raft/raftpb"
	"go.etcd.io/etcd/wal"

	"lrcman/service/internal/engine"
	"lrcman/service/internal/logging"
	"lrcman/service/internal/testcerts"
	"lrcman/service/internal/testports"
)

// TestMain makes the files of the log small: so that they are many, and made quickly.
func TestMain(m *testing.M) {
	wal.SegmentSizeBytes = 64 << 10
	os.Exit(m.Run())
}

// list is a machine that keeps the payloads which it was given.
type list struct {
	mu      sync.Mutex
	entries []string
	index   uint64
	fault   error // what Apply returns
	// What Apply and Restore wait for before they begin, if it is not nil.
	beforeApply   func(payload string)
	beforeRestore func()
	forgets       bool // the entries, so that it stays small
	again         int  // how often it began again
}

// waitBefore makes Apply wait for a function from now on: the machine may be applying entries by now.
func (l *list) waitBefore(wait func(payload string)) {
	l.mu.Lock()
	defer l.mu.Unlock()
	l.beforeApply = wait
}

// forget makes it keep no entries from now on.
func (l *list) forget() {
	l.mu.Lock()
	defer l.mu.Unlock()
	l.forgets = true
}

func (l *list) waits() func(payload string) {
	l.mu.Lock()
	defer l.mu.Unlock()
	return l.beforeApply
}

func (l *list) Apply(index uint64, payload []byte) (interface{}, error) {
	if wait := l.waits(); wait != nil {
		wait(string(payload))
	}
	l.mu.Lock()
	defer l.mu.Unlock()
	if index <= l.index {
		return nil, fmt.Errorf("index %d comes after %d", index, l.index)
	}
	l.index = index
	for i, entry := range l.entries { // a text that begins with `entry` is a key: it is taken once
		if entry == string(payload) && strings.HasPrefix(entry, "entry") {
			return i + 1, l.fault
		}
	}
	if !l.forgets {
		l.entries = append(l.entries, string(payload))
	}
	return len(l.entries), l.fault
}

func (l *list) all() []string {
	l.mu.Lock()
	defer l.mu.Unlock()
	return append([]string(nil), l.entries...)
}

func (l *list) Freeze() func(io.Writer) error {
	l.mu.Lock()
	defer l.mu.Unlock()
	text, err := json.Marshal(content{l.index, l.entries})
	return func(w io.Writer) error {
		if err == nil {
			_, err = fmt.Fprintf(w, "%08x%s", crc32.ChecksumIEEE(text), text)
		}
		return err
	}
}

func (l *list) Check(payload []byte) error {
	if strings.HasPrefix(string(payload), "unreadable") {
		return errors.New("it can't be read")
	}
	return nil
}

// A content is what a snapshot of a list has.
type content struct {
	Index   uint64
	Entries []string
}

func (l *list) Verify(r io.Reader) error {
	_, err := readContent(r)
	return err
}

func (l *list) BeginAgain(index uint64) {
	l.mu.Lock()
	defer l.mu.Unlock()
	l.index, l.again = index, l.again+1
}

func readContent(r io.Reader) (found content, err error) {
	text, err := io.ReadAll(r)
	if err != nil {
		return found, err
	}
	if len(text) < 8 || fmt.Sprintf("%08x", crc32.ChecksumIEEE(text[8:])) != string(text[:8]) {
		return found, fmt.Errorf("%w: its list", engine.ErrDamaged)
	}
	return found, json.Unmarshal(text[8:], &found)
}

func (l *list) Restore(r io.Reader) error {
	if l.beforeRestore != nil {
		l.beforeRestore()
	}
	found, err := readContent(r)
	if err != nil {
		return err
	}
	l.mu.Lock()
	defer l.mu.Unlock()
	l.index, l.entries = found.Index, found.Entries
	return nil
}

// said collects what a member logs.
type said struct {
	mu   sync.Mutex
	text bytes.Buffer
}

func (s *said) Write(text []byte) (int, error) {
	s.mu.Lock()
	defer s.mu.Unlock()
	return s.text.Write(text)
}

func (s *said) String() string {
	s.mu.Lock()
	defer s.mu.Unlock()
	return s.text.String()
}

func configOf(t *testing.T, folder string, self engine.Member, members ...engine.Member) (Config, *said) {
	words := &said{}
	return Config{Dir: folder, Name: "seven", New: true, Patience: long, Self: self, Members: members, Listen: self.Peer,
		Election: 300 * time.Millisecond, SnapshotEvery: 1000, SnapshotBytes: 1 << 30, Trailing: 100,
		Log: logging.New(words, logging.Config{}), Fatal: func(err error) {
			t.Errorf("member %d: %v", self.ID, err)
			runtime.Goexit() // (it never returns)
		}}, words
}

func begin(t *testing.T, cfg Config) (*Node, *list) {
	t.Helper()
	machine := &list{}
	return beginWith(t, cfg, machine), machine
}

func beginWith(t *testing.T, cfg Config, machine *list) *Node {
	t.Helper()
	n, err := Start(cfg, machine)
	if err != nil {
		t.Fatal(err)
	}
	t.Cleanup(n.Close)
	return n
}

// long is how long something may take on a busy machine before it counts as never.
const long = time.Minute

// onTheWay is how long a proposal is waited for that may be lost on its way to the leader, as when members have just begun to speak
// to each other.
const onTheWay = 5 * time.Second

// propose asks until it is told. What is taken once, however often it comes, is asked for anew now and then.
func propose(t *testing.T, n engine.Engine, text string) interface{} {
	t.Helper()
	ctx, cancel := context.WithTimeout(context.Background(), long)
	defer cancel()
	patience := long
	if strings.HasPrefix(text, "entry") {
		patience = onTheWay
	}
	for {
		one, cancel := context.WithTimeout(ctx, patience)
		told, err := n.Propose(one, []byte(text))
		cancel()
		if err == nil {
			return told
		} else if ctx.Err() != nil {
			t.Fatalf("%s: %v", text, err)
		}
		time.Sleep(10 * time.Millisecond)
	}
}

func eventually(t *testing.T, what string, is func() bool) {
	t.Helper()
	for end := time.Now().Add(long); !is(); time.Sleep(10 * time.Millisecond) {
		if time.Now().After(end) {
			t.Fatalf("never: %s", what)
		}
	}
}

func barrier(t *testing.T, n *Node) {
	t.Helper()
	ctx, cancel := context.WithTimeout(context.Background(), long)
	defer cancel()
	err := n.Barrier(ctx)
	for err == engine.ErrNoLeader && ctx.Err() == nil { // (on a busy machine an election may take more than one try)
		err = n.Barrier(ctx)
	}
	if err != nil {
		t.Fatal(err)
	}
}

var alone = engine.Member{ID: 1}

func texts(from, to int) (all []string) {
	for i := from; i <= to; i++ {
		all = append(all, fmt.Sprintf("entry %d", i))
	}
	return all
}

func proposeAll(t *testing.T, n engine.Engine, all []string) {
	t.Helper()
	for _, text := range all {
		propose(t, n, text)
	}
}

func expect(t *testing.T, machine *list, want []string) {
	t.Helper()
	if have := machine.all(); !reflect.DeepEqual(have, want) {
		t.Fatalf("the machine has %d entries %.200q, and not %d", len(have), have, len(want))
	}
}

func TestOneMemberIsReadyAtOnceAndGoesOn(t *testing.T) {
	t.Parallel()
	cfg, _ := configOf(t, t.TempDir(), alone, alone)
	least := time.Hour
	for round := 1; round <= 3; round++ {
		since := time.Now()
		n, machine := begin(t, cfg)
		if told := propose(t, n, fmt.Sprintf("entry %d", round)); told != round {
			t.Fatalf("told %v and not %d", told, round)
		}
		if took := time.Since(since); took < least {
			least = took
		}
		barrier(t, n)
		expect(t, machine, texts(1, round))
		n.Close()
		if err := n.Err(); err != nil {
			t.Fatal(err)
		}
	}
	if least > 5*time.Second {
		t.Errorf("the shortest start took %v", least)
	}
}

func TestAFolderHasOneProcess(t *testing.T) {
	t.Parallel()
	cfg, _ := configOf(t, t.TempDir(), alone, alone)
	begin(t, cfg)
	if _, err := Start(cfg, &list{}); err == nil || !strings.Contains(err.Error(), "another process has the folder") {
		t.Fatal(err)
	}
}

func TestAFolderIsOfOneMemberAndOneGroup(t *testing.T) {
	t.Parallel()
	cfg, _ := configOf(t, t.TempDir(), alone, alone)
	n, _ := begin(t, cfg)
	propose(t, n, "entry 1")
	n.Close()
	for name, change := range map[string]func(*Config){
		"group":  func(c *Config) { c.Name = "eight" },
		"number": func(c *Config) { c.Self.ID = 2; c.Members = []engine.Member{c.Self} },
	} {
		other := cfg
		change(&other)
		if _, err := Start(other, &list{}); !errors.Is(err, errNotMember) {
			t.Errorf("another %s: %v", name, err)
		}
	}
	n, machine := begin(t, cfg) // (it was left as it is)
	barrier(t, n)
	expect(t, machine, texts(1, 1))
}

// withSnapshots leaves a folder with two snapshots and some entries behind each.
func withSnapshots(t *testing.T) (Config, *said, []string) {
	cfg, words := configOf(t, t.TempDir(), alone, alone)
	cfg.Trailing = 5
	n, _ := begin(t, cfg)
	all := texts(1, 40)
	for i, text := range all {
		propose(t, n, text)
		if i%15 == 14 {
			before := n.Status().Snapshot
			eventually(t, "a snapshot is begun", func() bool { return n.Snapshot(context.Background()) == nil })
			eventually(t, "a snapshot is made", func() bool { return n.Status().Snapshot > before })
		}
	}
	n.Close()
	if found := files(t, cfg, "*.snap.db"); len(found) != 2 {
		t.Fatalf("snapshots: %v", found)
	}
	return cfg, words, all
}

func files(t *testing.T, cfg Config, pattern string) []string {
	t.Helper()
	found, err := filepath.Glob(filepath.Join(cfg.Dir, "snap", pattern))
	if err != nil {
		t.Fatal(err)
	}
	return found
}

// change changes one byte of a file: that at a place, counted from the end if it is negative.
func change(t *testing.T, path string, place int) {
	t.Helper()
	text, err := os.ReadFile(path)
	if err == nil {
		text[(place+len(text))%len(text)] ^= 1
		err = os.WriteFile(path, text, 0o600)
	}
	if err != nil {
		t.Fatal(err)
	}
}

func TestADamagedSnapshotIsPassedOver(t *testing.T) {
	t.Parallel()
	for name, damage := range map[string]func(Config){
		"its mark":     func(c Config) { change(t, files(t, c, "*.snap.db")[1], 0) },
		"its head":     func(c Config) { change(t, files(t, c, "*.snap.db")[1], len(headMark)+10) },
		"its state":    func(c Config) { change(t, files(t, c, "*.snap.db")[1], -1) },
		"its metadata": func(c Config) { change(t, files(t, c, "*.snap")[1], -1) },
		"cut off":      func(c Config) { os.Truncate(files(t, c, "*.snap.db")[1], 30) },
		"gone":         func(c Config) { os.Remove(files(t, c, "*.snap.db")[1]) },
		"nothing":      func(c Config) {},
	} {
		name, damage := name, damage
		t.Run(name, func(t *testing.T) {
			t.Parallel()
			cfg, words, all := withSnapshots(t)
			damage(cfg)
			n, machine := begin(t, cfg)
			barrier(t, n)
			expect(t, machine, all)
			isSaid := strings.Contains(words.String(), "can't be read: this member begins in the one at")
			if isSaid == (name == "nothing") {
				t.Errorf("said: %q", words)
			}
			propose(t, n, "more")
		})
	}
}

func TestNoSnapshotIsWhole(t *testing.T) {
	t.Parallel()
	cfg, _, _ := withSnapshots(t)
	for _, file := range files(t, cfg, "*.snap.db") {
		change(t, file, -1)
	}
	// The log reaches back to its first entry, since its first file is not full: so even this is read.
	n, machine := begin(t, cfg)
	barrier(t, n)
	expect(t, machine, texts(1, 40))
}

func TestASnapshotOfOtherRulesIsNotPassedOver(t *testing.T) {
	t.Parallel()
	cfg, _, _ := withSnapshots(t)
	why := errors.New("it is of other rules")
	if _, err := Start(cfg, &refusing{why: why}); err != why {
		t.Fatal(err)
	}
}

type refusing struct {
	list
	why error
}

func (r *refusing) Restore(io.Reader) error { return r.why }

func logFile(t *testing.T, cfg Config) string {
	t.Helper()
	found, err := filepath.Glob(filepath.Join(cfg.Dir, "wal", "*.wal"))
	if err != nil || len(found) == 0 {
		t.Fatal(err, found)
	}
	return found[len(found)-1]
}

func TestATornEndOfTheLogIsCutOff(t *testing.T) {
	t.Parallel()
	cfg, words := configOf(t, t.TempDir(), alone, alone)
	n, _ := begin(t, cfg)
	proposeAll(t, n, texts(1, 20))
	marked, err := os.ReadFile(filepath.Join(cfg.Dir, markName))
	if err != nil {
		t.Fatal(err)
	}
	propose(t, n, strings.Repeat("x", 8000))
	n.Close()
	if err := os.WriteFile(filepath.Join(cfg.Dir, markName), marked, 0o600); err != nil { // (that is written later)
		t.Fatal(err)
	}
	text, err := os.ReadFile(logFile(t, cfg))
	if err != nil {
		t.Fatal(err)
	}
	at := bytes.LastIndex(text, bytes.Repeat([]byte{'x'}, 4000)) + 2000
	for i := at; i < len(text); i++ { // what a power cut leaves of a record that was never synced
		text[i] = 0
	}
	if err := os.WriteFile(logFile(t, cfg), text, 0o600); err != nil {
		t.Fatal(err)
	}
	n, machine := begin(t, cfg)
	barrier(t, n)
	expect(t, machine, texts(1, 20))
	if !strings.Contains(words.String(), "torn record") {
		t.Errorf("said: %q", words)
	}
	propose(t, n, "entry 21")
	expect(t, machine, texts(1, 21))
}

func TestADamagedLogIsRefused(t *testing.T) {
	t.Parallel()
	cfg, _ := configOf(t, t.TempDir(), alone, alone)
	n, _ := begin(t, cfg)
	proposeAll(t, n, texts(1, 20))
	n.Close()
	text, err := os.ReadFile(logFile(t, cfg))
	if err != nil {
		t.Fatal(err)
	}
	change(t, logFile(t, cfg), bytes.Index(text, []byte("entry 7")))
	if _, err := Start(cfg, &list{}); err == nil || !strings.Contains(err.Error(), "the log") {
		t.Fatal(err)
	}
}

// A length that is another one can look like a torn end, or like the end of the log.
func TestALogThatEndsTooEarlyIsRefused(t *testing.T) {
	t.Parallel()
	for name, damage := range map[string]func(text []byte, at int){
		"no length":      func(text []byte, at int) { copy(text[at:], make([]byte, 8)) },
		"a longer one":   func(text []byte, at int) { text[at+1]++ },
		"far longer":     func(text []byte, at int) { text[at+2]++ },
		"nothing behind": func(text []byte, at int) { copy(text[at:], make([]byte, len(text))) },
	} {
		damage := damage
		t.Run(name, func(t *testing.T) {
			t.Parallel()
			cfg, _ := configOf(t, t.TempDir(), alone, alone)
			n, _ := begin(t, cfg)
			proposeAll(t, n, texts(1, 20))
			n.Close()
			text, err := os.ReadFile(logFile(t, cfg))
			if err != nil {
				t.Fatal(err)
			}
			damage(text, lengthBefore(t, text, "entry 7"))
			if err := os.WriteFile(logFile(t, cfg), text, 0o600); err != nil {
				t.Fatal(err)
			}
			for start := 1; start <= 2; start++ {
				if _, err := Start(cfg, &list{}); err == nil || !strings.Contains(err.Error(), "add one with an empty folder") {
					t.Fatalf("start %d: %v", start, err)
				}
			}
		})
	}
}

// lengthBefore is the place of the length of the record with a text: eight bytes, of which the highest tells the padding.
func lengthBefore(t *testing.T, log []byte, text string) int {
	t.Helper()
	found := bytes.Index(log, []byte(text))
	for at := found / 8 * 8; at > found-100; at -= 8 {
		length := int(binary.LittleEndian.Uint32(log[at:]))
		if log[at+7]&0x78 == 0 && length > 0 && length < 100 && at+8+length > found {
			return at
		}
	}
	t.Fatal("the record has no length")
	return 0
}

// A file of the log that was made in advance has nothing of before in it when it is used.
func TestFilesInAdvanceAreMadeAnew(t *testing.T) {
	t.Parallel()
	cfg, _ := configOf(t, t.TempDir(), alone, alone)
	n, _ := begin(t, cfg)
	propose(t, n, "entry 1")
	n.Close()
	for _, name := range []string{"0.tmp", "1.tmp"} {
		if err := os.WriteFile(filepath.Join(cfg.Dir, "wal", name), bytes.Repeat([]byte{'x'}, 64<<10), 0o600); err != nil {
			t.Fatal(err)
		}
	}
	n, _ = begin(t, cfg)
	for i := 0; i < 20; i++ { // (a file of the log has 64 KiB here)
		propose(t, n, strings.Repeat("y", 8<<10))
	}
	n.Close()
	n, machine := begin(t, cfg)
	barrier(t, n)
	if have := len(machine.all()); have != 21 {
		t.Fatalf("%d entries", have)
	}
}

func TestALogThatIsGoneIsRefused(t *testing.T) {
	t.Parallel()
	cfg, words := configOf(t, t.TempDir(), alone, alone)
	n, _ := begin(t, cfg)
	proposeAll(t, n, texts(1, 3))
	n.Close()
	if err := os.RemoveAll(filepath.Join(cfg.Dir, "wal")); err != nil {
		t.Fatal(err)
	}
	if _, err := Start(cfg, &list{}); err == nil || !strings.Contains(err.Error(), "it ends at entry 0") {
		t.Fatal(err)
	}
	change(t, filepath.Join(cfg.Dir, markName), 3) // a mark that is damaged says nothing
	n, _ = begin(t, cfg)
	propose(t, n, "entry 1")
	if !strings.Contains(words.String(), "mark can't be read") {
		t.Errorf("said: %q", words)
	}
}

func TestAMachineThatCannotApplyEndsTheProcess(t *testing.T) {
	t.Parallel()
	cfg, _ := configOf(t, t.TempDir(), alone, alone)
	fatal := make(chan error, 1)
	cfg.Fatal = func(err error) {
		fatal <- err
		select {}
	}
	machine := &list{fault: errors.New("it has no memory")}
	n, err := Start(cfg, machine) // (it is left to itself: it never ends)
	if err != nil {
		t.Fatal(err)
	}
	eventually(t, "it leads", func() bool { return n.Status().Leader == alone.ID })
	go n.Propose(context.Background(), []byte("entry 1"))
	select {
	case err := <-fatal:
		if !errors.Is(err, machine.fault) {
			t.Fatal(err)
		}
	case <-time.After(long):
		t.Fatal("it goes on")
	}
}

// A group of members in one process.
type group struct {
	t        *testing.T
	members  []engine.Member
	configs  map[uint64]Config
	nodes    map[uint64]*Node
	machines map[uint64]*list
}

func groupOf(t *testing.T, size int, changes ...func(*Config)) *group {
	t.Helper()
	g := &group{t: t, configs: map[uint64]Config{}, nodes: map[uint64]*Node{}, machines: map[uint64]*list{}}
	for id := uint64(1); id <= uint64(size); id++ {
		g.members = append(g.members, memberAt(t, id))
	}
	for _, member := range g.members {
		cfg, _ := configOf(t, t.TempDir(), member, g.members...)
		for _, change := range changes {
			change(&cfg)
		}
		g.configs[member.ID] = cfg
	}
	g.startAll()
	return g
}

// startAll starts the members beside each other: first ones wait for one another.
func (g *group) startAll() {
	g.t.Helper()
	g.startBy(Start)
}

// startBy starts the members beside each other, each by a function.
func (g *group) startBy(start func(Config, engine.Machine) (*Node, error)) {
	g.t.Helper()
	type begun struct {
		id      uint64
		node    *Node
		machine *list
		err     error
	}
	all := make(chan begun)
	for id, cfg := range g.configs {
		go func(id uint64, cfg Config) {
			machine := &list{}
			n, err := start(cfg, machine)
			all <- begun{id, n, machine, err}
		}(id, cfg)
	}
	for range g.configs {
		it := <-all
		if it.err != nil {
			g.t.Errorf("member %d: %v", it.id, it.err)
			continue
		}
		g.t.Cleanup(it.node.Close)
		g.nodes[it.id], g.machines[it.id] = it.node, it.machine
	}
	if g.t.Failed() {
		g.t.FailNow()
	}
}

func memberAt(t *testing.T, id uint64) engine.Member {
	return engine.Member{ID: id, Peer: testports.Free(t), Client: fmt.Sprintf("127.0.0.1:%d", 1000+id)}
}

func (g *group) start(id uint64) {
	g.t.Helper()
	g.startWith(id, &list{})
}

func (g *group) startWith(id uint64, machine *list) {
	g.t.Helper()
	g.nodes[id], g.machines[id] = beginWith(g.t, g.configs[id], machine), machine
}

// says collects what the members say that are here.
func (g *group) says() *said {
	words := &said{}
	for _, n := range g.nodes {
		n.cfg.Log.SetOutput(words)
	}
	return words
}

func (g *group) leader() uint64 {
	g.t.Helper()
	var leader uint64
	eventually(g.t, "there is a leader", func() bool {
		for id, n := range g.nodes {
			if status := n.Status(); status.Leader == id {
				leader = id
				return true
			}
		}
		return false
	})
	return leader
}

func (g *group) other(id uint64) uint64 {
	for other := range g.nodes {
		if other != id {
			return other
		}
	}
	return 0
}

func (g *group) alike(want []string) {
	g.t.Helper()
	for id, n := range g.nodes {
		barrier(g.t, n)
		if have := g.machines[id].all(); !reflect.DeepEqual(have, want) {
			g.t.Fatalf("member %d has %d entries %.200q, and not %d", id, len(have), have, len(want))
		}
	}
}

func TestThreeMembersKeepOneLog(t *testing.T) {
	t.Parallel()
	g := groupOf(t, 3)
	want := []string{}
	for i := 0; i < 30; i++ {
		text := fmt.Sprintf("entry %d", i)
		if told := propose(t, g.nodes[uint64(i%3+1)], text); told != i+1 {
			t.Fatalf("told %v and not %d", told, i+1)
		}
		want = append(want, text)
	}
	g.alike(want)
}

func TestALeaderEndsAndComesBack(t *testing.T) {
	t.Parallel()
	g := groupOf(t, 3)
	propose(t, g.nodes[1], "entry 1")
	gone := g.leader()
	g.nodes[gone].Close()
	delete(g.nodes, gone)
	proposeAll(t, g.nodes[g.other(gone)], texts(2, 5))
	g.start(gone)
	propose(t, g.nodes[gone], "entry 6")
	g.alike(texts(1, 6))
}

func TestAMemberThatWasAwayGetsASnapshot(t *testing.T) {
	t.Parallel()
	g := groupOf(t, 3)
	propose(t, g.nodes[1], "entry 1")
	away := g.other(g.leader())
	g.nodes[away].Close()
	delete(g.nodes, away)
	proposeAll(t, g.nodes[g.leader()], texts(2, 300))
	for _, n := range g.nodes {
		if err := n.Snapshot(context.Background()); err != nil {
			t.Fatal(err)
		}
	}
	eventually(t, "the log is cut", func() bool {
		for _, n := range g.nodes {
			if n.Status().First < 100 {
				return false
			}
		}
		return true
	})
	g.start(away)
	g.alike(texts(1, 300))
	if g.nodes[away].Status().Snapshot < 300 {
		t.Error("it has got no snapshot")
	}
	propose(t, g.nodes[away], "entry 301")
	g.alike(texts(1, 301))
	g.nodes[away].Close() // and it starts again from there
	g.start(away)
	g.alike(texts(1, 301))
}

// add adds a member, starts it, and waits until it votes.
func (g *group) add(id uint64) {
	g.t.Helper()
	member := memberAt(g.t, id)
	g.must(adding(member))
	g.join(member)
	g.expectLearner(id, false)
}

// join starts a member that was added.
func (g *group) join(member engine.Member) {
	g.t.Helper()
	member.Learner = false // (it is not told on its command line)
	g.configs[member.ID], _ = configOf(g.t, g.t.TempDir(), member)
	g.start(member.ID)
}

// A change of members, as a node is asked for it.
type asked func(context.Context, *Node) (isAgain bool, err error)

func adding(member engine.Member) asked {
	return func(ctx context.Context, n *Node) (bool, error) { return n.Add(ctx, member, false) }
}

func removing(id uint64) asked {
	return func(ctx context.Context, n *Node) (bool, error) { return n.Remove(ctx, id, false) }
}

// heard asks the leader for a change until an answer comes.
func (g *group) heard(change asked) (isAgain bool, err error) {
	g.t.Helper()
	ctx, cancel := context.WithTimeout(context.Background(), long)
	defer cancel()
	for ctx.Err() == nil {
		isAgain, err = change(ctx, g.nodes[g.leader()])
		var other *engine.NotLeader
		if err != engine.ErrOutcomeUnknown && err != engine.ErrNoLeader && !errors.As(err, &other) {
			return isAgain, err
		}
		time.Sleep(10 * time.Millisecond)
	}
	return isAgain, err
}

// must asks for a change that is lawful. (On a busy machine a member may be heard of late)
func (g *group) must(change asked) (isAgain bool) {
	g.t.Helper()
	isAgain, err := g.heard(change)
	for end := time.Now().Add(long); isUnheard(err) && time.Now().Before(end); {
		isAgain, err = g.heard(change)
	}
	if err != nil {
		g.t.Fatal(err)
	}
	return isAgain
}

func isUnheard(err error) bool {
	return err != nil && strings.Contains(err.Error(), "were heard of within")
}

// refused expects a change that is not lawful, by the words.
func (g *group) refused(change asked, words string) {
	g.t.Helper()
	_, err := g.heard(change)
	if why, isRefused := err.(engine.Refused); !isRefused || !strings.Contains(string(why), words) {
		g.t.Errorf("%v, and not %q", err, words)
	}
}

// expectLearner waits until all members know one as one that learns, or votes.
func (g *group) expectLearner(id uint64, is bool) {
	g.t.Helper()
	for _, n := range g.nodes {
		eventually(g.t, fmt.Sprintf("all hear of member %d", id), func() bool {
			for _, member := range n.Status().Members {
				if member.ID == id {
					return member.Learner == is
				}
			}
			return false
		})
	}
}

func TestMembersComeAndGo(t *testing.T) {
	t.Parallel()
	g := groupOf(t, 3)
	proposeAll(t, g.nodes[1], texts(1, 10))
	g.add(4)
	g.alike(texts(1, 10))
	for name, it := range map[string]struct {
		change asked
		want   string
	}{
		"elsewhere":    {adding(engine.Member{ID: 4, Peer: "127.0.0.1:1"}), "there is a member 4 already, at other addresses"},
		"back":         {adding(learner(g.configs[4].Self)), "member 4 votes already, and can't go back to learning"},
		"unknown":      {removing(9), "there is no member 9"},
		"no address":   {adding(engine.Member{ID: 9}), "a member has no address for the others: start it with --peer"},
		"port":         {adding(engine.Member{ID: 9, Peer: "here"}), "this is no address: \"here\""},
		"one's peer":   {adding(engine.Member{ID: 9, Peer: g.configs[4].Self.Peer}), "member 4 has the address " + g.configs[4].Self.Peer},
		"one's client": {adding(engine.Member{ID: 9, Peer: "127.0.0.1:1", Client: "127.0.0.1:1002"}), "member 2 has the address 127.0.0.1:1002"},
	} {
		if _, err := g.heard(it.change); err != engine.Refused(it.want) {
			t.Errorf("%s: %v", name, err)
		}
	}
	if !g.must(adding(g.configs[4].Self)) {
		t.Error("a member that is there is added again")
	}
	gone := g.removeLeader()
	if !g.must(removing(gone)) {
		t.Error("a member that was removed is removed again")
	}
	proposeAll(t, g.nodes[g.other(gone)], texts(11, 12))
	g.alike(texts(1, 12))
	g.refused(adding(engine.Member{ID: gone, Peer: "127.0.0.1:1"}), fmt.Sprintf("the number %d was removed, and is not used again", gone))
}

func learner(member engine.Member) engine.Member {
	member.Learner = true
	return member
}

// removeLeader removes one member while it leads, and waits until it has ended.
func (g *group) removeLeader() uint64 {
	g.t.Helper()
	gone := g.leader()
	ctx, cancel := context.WithTimeout(context.Background(), long)
	defer cancel()
	for g.nodes[gone].Err() == nil && ctx.Err() == nil { // (the leader may end before it hears)
		_, err := g.nodes[gone].Remove(ctx, gone, false)
		var refused engine.Refused
		if errors.As(err, &refused) && !isUnheard(err) {
			g.t.Fatal(err)
		}
	}
	eventually(g.t, "the removed member ends", func() bool {
		select {
		case <-g.nodes[gone].Done():
			return true
		default:
			return false
		}
	})
	if err := g.nodes[gone].Err(); err != engine.ErrRemoved {
		g.t.Fatal(err)
	}
	delete(g.nodes, gone)
	return gone
}

// A change that is asked for as soon as the last one is told is made, or refused: raft takes only one at a time, and makes an empty
// entry of another one.
func TestChangesOfMembersFollowAtOnce(t *testing.T) {
	t.Parallel()
	g := groupOf(t, 3, func(cfg *Config) { cfg.Election = 3 * time.Second }) // (none is proposed twice within it)
	propose(t, g.nodes[1], "entry 1")
	for _, n := range g.nodes {
		eventually(t, "all have told their folders", func() bool {
			members := n.Status().Members
			return len(members) == 3 && members[0].Folder != 0 && members[1].Folder != 0 && members[2].Folder != 0
		})
	}
	n := g.nodes[g.leader()]
	barrier(t, n)
	before, rounds := n.Status().Applied, uint64(300)
	for round := uint64(0); round < rounds; round++ {
		g.refused(removing(9), "there is no member 9")
	}
	barrier(t, n)
	if made := n.Status().Applied - before; made > rounds+3 {
		t.Errorf("%d changes are %d entries", rounds, made)
	}
}

// One that was begun alone, and not with --join, has a log of its own: it must not be mixed with the group's.
func TestAFolderThatWasBegunAloneIsNotTakenIn(t *testing.T) {
	t.Parallel()
	g := groupOf(t, 3)
	proposeAll(t, g.nodes[1], texts(1, 5))
	member := memberAt(t, 4)
	cfg, _ := configOf(t, t.TempDir(), member, member)
	n, _ := begin(t, cfg)
	propose(t, n, "another entry")
	g.must(adding(member))
	proposeAll(t, g.nodes[g.leader()], texts(6, 9))
	g.alike(texts(1, 9))
	for round := 0; round < 2; round++ {
		time.Sleep(time.Second)
		expect(t, n.machine.(*list), []string{"another entry"})
		n.Close()
		cfg.Members = nil // as with --join
		n, _ = begin(t, cfg)
		barrier(t, n)
	}
}

func TestOneMemberGrowsToThree(t *testing.T) {
	t.Parallel()
	cfg, _ := configOf(t, t.TempDir(), alone, alone)
	n, _ := begin(t, cfg)
	proposeAll(t, n, texts(1, 5))
	ctx, cancel := context.WithTimeout(context.Background(), long)
	defer cancel()
	if _, err := n.Add(ctx, memberAt(t, 2), false); err == nil || !strings.Contains(err.Error(), "--peer") {
		t.Fatal(err)
	}
	if err := n.Snapshot(context.Background()); err != nil { // from before the others are added
		t.Fatal(err)
	}
	eventually(t, "a snapshot is made", func() bool { return n.Status().Snapshot > 0 })
	n.Close()
	self := memberAt(t, 1)
	g := &group{t: t, configs: map[uint64]Config{}, nodes: map[uint64]*Node{}, machines: map[uint64]*list{}}
	cfg.Self, cfg.Members, cfg.Listen = self, []engine.Member{self}, self.Peer
	g.configs[1] = cfg
	g.start(1)
	eventually(t, "the new address is known", func() bool {
		members := g.nodes[1].Status().Members
		return len(members) == 1 && members[0].Peer == self.Peer && members[0].Client == self.Client
	})
	g.add(2)
	g.alike(texts(1, 5))
	g.add(3)
	proposeAll(t, g.nodes[3], texts(6, 8))
	g.alike(texts(1, 8))
}

func TestOldFilesAreRemoved(t *testing.T) {
	t.Parallel()
	cfg, _ := configOf(t, t.TempDir(), alone, alone)
	cfg.SnapshotEvery, cfg.Trailing = 4, 0
	n, _ := begin(t, cfg)
	big := strings.Repeat("x", 8<<10)
	for i := 0; i < 60; i++ { // (a file of the log has 64 KiB here)
		propose(t, n, big)
	}
	logs := func() int {
		found, _ := filepath.Glob(filepath.Join(cfg.Dir, "wal", "*.wal"))
		return len(found)
	}
	eventually(t, "old files of the log go", func() bool { propose(t, n, "more"); return logs() <= 2 })
	eventually(t, "two snapshots stay", func() bool { return len(files(t, cfg, "*.snap")) == 2 && len(files(t, cfg, "*.snap.db")) == 2 })
	if first := n.Status().First; first < 40 {
		t.Errorf("entries from %d on are in memory", first)
	}
	n.Close()
	change(t, files(t, cfg, "*.snap.db")[1], -1) // and the log still reaches back to the one before
	n, machine := begin(t, cfg)
	barrier(t, n)
	if have := machine.all(); len(have) < 60 || have[59] != big {
		t.Fatalf("%d entries", len(have))
	}
}

func TestMembersShowEachOtherCertificates(t *testing.T) {
	t.Parallel()
	ours, others := testcerts.New(t, "ours"), testcerts.New(t, "others")
	with := func(authority *testcerts.Authority) func(*Config) {
		return func(cfg *Config) {
			certificate, key := authority.Sign(fmt.Sprint(cfg.Self.ID))
			cfg.TLS = transport.TLSInfo{CertFile: certificate, KeyFile: key, TrustedCAFile: authority.File, ClientCertAuth: true}
		}
	}
	g := groupOf(t, 3, with(ours))
	proposeAll(t, g.nodes[1], texts(1, 5))
	g.alike(texts(1, 5))
	stranger := g.other(g.leader()) // comes back with a certificate of others, and hears nothing
	g.nodes[stranger].Close()
	delete(g.nodes, stranger)
	proposeAll(t, g.nodes[g.leader()], texts(6, 9))
	cfg := g.configs[stranger]
	with(others)(&cfg)
	n, machine := begin(t, cfg)
	ctx, cancel := context.WithTimeout(context.Background(), time.Second)
	defer cancel()
	if err := n.Barrier(ctx); err == nil {
		t.Error("the others answer a stranger")
	}
	if have := machine.all(); len(have) > 5 {
		t.Errorf("a stranger heard of %q", have[5:])
	}
}

func TestALeaderIsMovedByRequest(t *testing.T) {
	t.Parallel()
	g := groupOf(t, 3)
	propose(t, g.nodes[1], "entry 1")
	for i := 0; i < 4; i++ {
		from := g.leader()
		to := g.other(from)
		asked := g.nodes[uint64(i%3+1)] // any member may be asked
		ctx, cancel := context.WithTimeout(context.Background(), long)
		if err := asked.Lead(ctx, to); err != nil || asked.Status().Leader != to {
			t.Errorf("from %d to %d: %v, and %d leads", from, to, err, asked.Status().Leader)
		}
		cancel()
		propose(t, g.nodes[from], fmt.Sprintf("entry %d", i+2))
	}
	g.alike(texts(1, 5))
	ctx, cancel := context.WithTimeout(context.Background(), 700*time.Millisecond)
	defer cancel()
	var refused engine.Refused
	if err := g.nodes[1].Lead(ctx, 9); !errors.As(err, &refused) {
		t.Errorf("to nobody: %v", err)
	}
	away := g.other(g.leader())
	g.nodes[away].Close()
	delete(g.nodes, away)
	if err := g.nodes[g.leader()].Lead(ctx, away); err != engine.ErrNotMoved {
		t.Errorf("to one that is away: %v", err)
	}
	propose(t, g.nodes[g.leader()], "entry 6") // the group goes on
}

// entries are those of the given indexes.
func entries(indexes ...uint64) (all []raftpb.Entry) {
	for _, index := range indexes {
		all = append(all, raftpb.Entry{Index: index})
	}
	return all
}

func TestOnlyWhatWasSavedIsAppliedBeforeASave(t *testing.T) {
	for _, it := range []struct {
		committed, unsaved []raftpb.Entry
		before             int
	}{
		{entries(), entries(), 0},
		{entries(3, 4), entries(), 2},
		{entries(3, 4), entries(5, 6), 2},
		{entries(3, 4), entries(4, 5), 1},
		{entries(3, 4), entries(3, 4), 0},
		{entries(), entries(3), 0},
	} {
		before, among := split(it.committed, it.unsaved)
		all := append(append([]raftpb.Entry(nil), before...), among...)
		if len(before) != it.before || len(all) != len(it.committed) || len(all) > 0 && !reflect.DeepEqual(all, it.committed) {
			t.Errorf("%v of which %v are not saved: %v and %v", it.committed, it.unsaved, before, among)
		}
	}
}
