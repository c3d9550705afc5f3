package replica

import (
	"bytes"
	"context"
	"strings"
	"sync"
	"testing"
	"time"

	"lrcman/service/internal/engine"
	"lrcman/service/internal/logging"
	"lrcman/service/internal/state"
	"lrcman/service/internal/testengine"
)

// said is what a member logs.
type said struct {
	mu   sync.Mutex
	text bytes.Buffer
}

func (s *said) Write(text []byte) (int, error) {
	s.mu.Lock()
	defer s.mu.Unlock()
	return s.text.Write(text)
}

func (s *said) String() string {
	s.mu.Lock()
	defer s.mu.Unlock()
	return s.text.String()
}

// newCompared is one of three members that compare books all the time.
func newCompared(t *testing.T, leader uint64) (*member, *said) {
	words := &said{}
	m := newMember(t, func(cfg *Config) { cfg.Compare, cfg.Log = 20*time.Millisecond, logging.New(words, logging.Config{}) })
	m.engine.Change(func(e *testengine.Local) {
		e.Members, e.Leader = []engine.Member{{ID: 1}, {ID: 2}, {ID: 3}}, leader
	})
	return m, words
}

// settled is the index of the log once nothing more comes.
func (m *member) settled() uint64 {
	m.Helper()
	last, since := m.engine.Status().Applied, time.Now()
	m.eventually(func() bool {
		if now := m.engine.Status().Applied; now != last {
			last, since = now, time.Now()
		}
		return time.Since(since) > 500*time.Millisecond
	})
	return last
}

// The leader asks for the checksum of a book that has changed, and tells its own. What has not changed is left out.
func TestWhatHasChangedIsCompared(t *testing.T) {
	m, _ := newCompared(t, 1)
	m.propose(&state.Item{Action: state.Create, Book: "p1", Nodes: nodes()})
	asked := m.fated(made)
	m.run()
	m.eventually(func() bool { return len(m.state.Digests()) == 2 })
	before := m.state.Digests()
	m.eventually(func() bool { return m.tells(asked(), before[0]) && m.tells(asked(), before[1]) })
	m.call("tick")
	m.eventually(func() bool { return m.state.Digests()[0] != before[0] })
	m.settled()
	after := m.state.Digests()
	if after[0].Sum == before[0].Sum || after[0].At == before[0].At || after[1] != before[1] || !m.tells(asked(), after[0]) {
		t.Errorf("%+v, and then %+v", before, after)
	}
	if names := m.state.Differs(); len(names) > 0 {
		t.Error(names)
	}
}

// tells tells whether one of the payloads has the report of a checksum.
func (m *member) tells(payloads []string, it state.BookDigest) bool {
	const head = 9 // bytes of a payload before its first item
	report := m.payload(&state.Item{Action: state.Report, Book: it.Book, Digest: it.At, Member: 1, Sum: it.Sum}, 0)[head:]
	for _, payload := range payloads {
		if strings.Contains(payload, report) {
			return true
		}
	}
	return false
}

// A follower asks for none, and tells what it took when the leader asked.
func TestAFollowerTellsItsChecksum(t *testing.T) {
	m, _ := newCompared(t, 2)
	m.run()
	m.call("tick")
	if index := m.settled(); index != 2 {
		t.Errorf("it asks: the log ends at %d", index)
	}
	asked := m.fated(made)
	m.propose(&state.Item{Action: state.Digest, Book: "p0"})
	m.eventually(func() bool { return len(asked()) == 2 })
	m.settled()
	it := m.state.Digests()[0]
	want := m.payload(&state.Item{Action: state.Report, Book: "p0", Digest: it.At, Member: 1, Sum: it.Sum}, 0)
	if all := asked(); len(all) != 2 || all[1] != want {
		t.Errorf("%q, and not %q", all, want)
	}
}

// What nobody heard is told again.
func TestAChecksumIsToldUntilItIsHeard(t *testing.T) {
	m, _ := newCompared(t, 2)
	m.propose(&state.Item{Action: state.Digest, Book: "p0"})
	asked := m.fated(lostEntry, lostEntry, made)
	m.run()
	m.eventually(func() bool { return len(asked()) == 3 })
	m.settled()
	if all := asked(); len(all) != 3 || all[0] != all[2] {
		t.Errorf("%q", all)
	}
}

func TestOneAloneIsNotCompared(t *testing.T) {
	m, _ := newCompared(t, 1)
	m.engine.Change(func(e *testengine.Local) { e.Members = []engine.Member{{ID: 1}} })
	m.run()
	if index := m.settled(); index != 1 {
		t.Errorf("the log ends at %d", index)
	}
}

// A member whose book is not that of two others says so once, and shows it to nobody.
func TestAMemberThatDiffersSaysSo(t *testing.T) {
	m, words := newCompared(t, 2)
	m.run()
	m.propose(&state.Item{Action: state.Digest, Book: "p0"})
	at := m.state.Digests()[0].At
	for id := uint64(2); id <= 3; id++ {
		m.propose(&state.Item{Action: state.Report, Book: "p0", Digest: at, Member: id, Sum: [32]byte{7}})
	}
	m.eventually(func() bool { return words.String() != "" })
	m.settled()
	text := words.String()
	if strings.Count(text, "\n") != 1 || !strings.Contains(text, " error book p0 of this member is not that of the others") {
		t.Errorf("%q", text)
	}
	if err := m.state.Look("p0", func(*state.View) error { return nil }); err != state.ErrDiffers {
		t.Error(err)
	}
	if _, err := m.replica.Do(context.Background(), call("tick", "")); err != nil { // (calls are the group's)
		t.Error(err)
	}
}
