package state

import (
	"bytes"
	"reflect"
	"strings"
	"testing"

	"lrcman/service/book"
)

// everyItem has an item of each action, with and without what may be left out.
func everyItem(t *testing.T) []*Item {
	return []*Item{
		{Action: Remove, Book: "p0", At: &Position{1 << 60, 3}},
		{Action: Remove, Book: "p0", Key: "k", Owner: "o", Since: 1 << 63},
		{Action: Call, Book: "p0", Key: "k", Owner: "o", Since: 7, Worker: "w", Session: 8,
			Command: call(t, "done 4095 15 4294967295").Command, At: &Position{1 << 60, 3}},
		{Action: Call, Book: "p0", Session: 1, Command: call(t, "upgrade 255").Command},
		{Action: Call, Book: "p0", Session: 1, Command: call(t, "join 65535").Command},
		{Action: Create, Book: "p1", Nodes: []byte("n"), Image: []byte("i")},
		{Action: Reopen, Book: "p1", Nodes: []byte("m")},
		{Action: Reopen, Book: "p1", Nodes: []byte("m"), At: &Position{1, 2}},
		{Action: ChangeRules, Rules: 2, Form: 3},
		{Action: Digest, Book: "p1"},
		{Action: Report, Book: "p1", Digest: Stamp{1 << 50, 1023}, Member: 1 << 40, Sum: [32]byte{1, 31: 9}},
	}
}

func TestItemsAreReadAsTheyWereWritten(t *testing.T) {
	items := everyItem(t)
	head, read, err := decode(New().Encode(items))
	if err != nil || head.rules != book.Rules() || head.form != Form || !reflect.DeepEqual(read, items) {
		t.Error(head, err)
	}
}

func TestAnEntryThatIsCutIsNotRead(t *testing.T) {
	whole := New().Encode(everyItem(t))
	for length := range whole {
		if New().Check(whole[:length]) == nil {
			t.Errorf("%d of %d bytes are taken", length, len(whole))
		}
	}
	if New().Check(append(whole, 0)) == nil {
		t.Error("a byte behind the end is taken")
	}
	if err := New().Check(whole); err != nil {
		t.Error(err)
	}
}

// someItems are entries that fuzz tests begin with.
func someItems() [][]*Item {
	tick := &Item{Action: Call, Book: "p0", Key: "k", Since: 1, Session: 1, Command: drawnCommand("tick"), At: &Position{0, opening(1)}}
	return [][]*Item{
		{tick, {Action: Remove, Book: "p0"}},
		{{Action: Create, Book: "p1", Nodes: twenty}, {Action: Reopen, Book: "p0", Nodes: nodesOf(21, 4)}, tick},
		{{Action: ChangeRules, Rules: 7}, {Action: Digest, Book: "p0"}, {Action: Report, Book: "p0", Member: 3}},
	}
}

// Each payload is what encode makes of what is read of it, or it is not read.
func FuzzEntry(f *testing.F) {
	for _, items := range someItems() {
		f.Add(New().Encode(items))
	}
	f.Add([]byte{Form, 1, 0, 0, 0, 200, 200, 200, 200})
	f.Fuzz(func(t *testing.T, payload []byte) {
		head, items, err := decode(payload)
		if err == nil && !bytes.Equal(encode(head, items), payload) {
			t.Errorf("%q is written otherwise than it was", payload)
		}
	})
}

// closeAll frees the books of a state that nobody uses any more.
func (s *State) closeAll() {
	for _, e := range s.books {
		e.book.Close()
	}
}

// No payload makes a member end, but one that makes the group go to what this program lacks.
func FuzzApply(f *testing.F) {
	begins := New().Encode([]*Item{{Action: Create, Book: "p0", Nodes: twenty}})
	for _, items := range someItems() {
		f.Add(New().Encode(items))
	}
	f.Add(withRules(book.Rules()+1, &Item{Action: Digest, Book: "p0"}))
	f.Add(inForm(3, book.Rules(), &Item{Action: Digest, Book: "p0"}))
	f.Fuzz(func(t *testing.T, payload []byte) {
		s := New()
		defer s.closeAll()
		if _, err := s.Apply(1, begins); err != nil {
			t.Fatal(err)
		}
		_, err := s.Apply(2, payload)
		if err != nil && (s.Change().Rules == s.Rules() || !strings.Contains(err.Error(), "nothing of it was taken")) {
			t.Error(err)
		}
		var text bytes.Buffer
		if err := s.Freeze()(&text); err != nil {
			t.Error(err)
		} else if err := s.Verify(&text); err != nil && s.Change().Rules == s.Rules() {
			t.Error(err)
		}
	})
}
