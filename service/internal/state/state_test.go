package state

import (
	"bytes"
	"errors"
	"fmt"
	"reflect"
	"strings"
	"testing"

	"lrcman/service/book"
	"lrcman/service/internal/engine"
)

// nodesOf is a text of nodes: node i is in fault domain i and in upgrade domain i modulo 10, as in the examples of docs/RULES.md.
func nodesOf(count, slots int) []byte {
	var text bytes.Buffer
	for i := 0; i < count; i++ {
		fmt.Fprintf(&text, "[[node]]\nnumber = %d\nfault = %d\nupgrade = %d\nslots = %d\n", i, i, i%10, slots)
	}
	return text.Bytes()
}

var twenty = nodesOf(20, 4)

// opening is the number of an opening by the first item of an entry.
func opening(index uint64) uint64 { return Stamp{Index: index}.Number() }

// A player applies items one by one, as a log does.
type player struct {
	t     *testing.T
	s     *State
	index uint64
}

func newPlayer(t *testing.T) *player {
	p := &player{t: t, s: New()}
	p.item(&Item{Action: Create, Book: "p0", Nodes: twenty})
	return p
}

// newFullPlayer makes as many books as there may be, which are ten.
func newFullPlayer(t *testing.T) *player {
	p := &player{t: t, s: NewWith(Knobs{Books: 10})}
	for i := 0; i < 10; i++ {
		p.item(&Item{Action: Create, Book: fmt.Sprintf("p%d", i), Nodes: twenty})
	}
	return p
}

func (p *player) items(items ...*Item) []Answer {
	p.t.Helper()
	p.index++
	answers, err := p.s.Apply(p.index, New().Encode(items))
	if err != nil {
		p.t.Fatal(err)
	}
	return answers.([]Answer)
}

func (p *player) item(item *Item) Answer {
	p.t.Helper()
	return p.items(item)[0]
}

func call(t *testing.T, line string) *Item {
	t.Helper()
	command, err := book.Parse(line)
	if err != nil {
		t.Fatal(err)
	}
	return &Item{Action: Call, Book: "p0", Session: 1, Command: command}
}

func (p *player) call(line string) Answer {
	p.t.Helper()
	return p.item(call(p.t, line))
}

func (p *player) as(worker, line string) Answer {
	p.t.Helper()
	item := call(p.t, line)
	item.Worker = worker
	return p.item(item)
}

func (p *player) expect(answer Answer, made uint64, reply string) {
	p.t.Helper()
	if answer.Rejected != 0 || answer.Made != made || answer.Reply.String() != reply {
		p.t.Errorf("%d %v (refusal %d %s), and not %d %s", answer.Made, &answer.Reply, answer.Rejected, answer.Words, made, reply)
	}
}

func (p *player) rejected(answer Answer, rejection Rejection, words string) {
	p.t.Helper()
	if answer.Rejected != rejection || !strings.Contains(answer.Words, words) {
		p.t.Errorf("%d %q, and not %d %q", answer.Rejected, answer.Words, rejection, words)
	}
}

// snapshot is the state as a snapshot has it.
func (p *player) snapshot() []byte {
	p.t.Helper()
	var text bytes.Buffer
	if err := p.s.Freeze()(&text); err != nil {
		p.t.Fatal(err)
	}
	return text.Bytes()
}

// restored is a player whose state begins in a snapshot.
func (p *player) restored(snapshot []byte) *player {
	p.t.Helper()
	knobs := p.s.knobs
	knobs.Item = nil
	other := &player{t: p.t, s: NewWith(knobs), index: p.index}
	if err := other.s.Restore(bytes.NewReader(snapshot)); err != nil {
		p.t.Fatal(err)
	}
	return other
}

// one_repair of docs/RULES.md.
func TestCallsAreThoseOfTheRules(t *testing.T) {
	p := newPlayer(t)
	for i, it := range []struct{ line, reply string }{
		{"place 1", "placed 0:0 1:0 2:0 3:0 4:0 5:0 6:0 7:0 8:0 9:0 10:0 11:0 16:0 12:0 13:0 14:0"},
		{"fail 3", "changed"},
		{"lease 1 3", "granted 1 3 17:0 epoch 1 local 0 1 2 4 5 12"},
		{"lease 1 3", "refused 110 1"},
		{"done 1 3 2", "refused 113"},
		{"done 1 3 1", "ended"},
	} {
		p.expect(p.call(it.line), uint64(i+1), it.reply)
	}
}

func TestItemsOfOneEntryAreAnsweredInOrder(t *testing.T) {
	p := newPlayer(t)
	other := call(t, "tick")
	other.Book = "p1"
	answers := p.items(call(t, "tick"), &Item{Action: Create, Book: "p1", Nodes: twenty}, other, call(t, "tick"))
	p.expect(answers[0], 1, "ticked 1 0")
	p.expect(answers[2], 1, "ticked 1 0")
	p.expect(answers[3], 2, "ticked 2 0")
	for i := range answers {
		if want := (Stamp{p.index, uint32(i)}); answers[i].At != want {
			t.Errorf("item %d stands at %v, and not at %v", i, answers[i].At, want)
		}
	}
}

func TestBooksAreMade(t *testing.T) {
	p := newPlayer(t)
	p.call("tick")
	image := "image 1\nbefore 5\nclock 2\nend\n"
	for _, it := range []struct {
		name  string
		item  Item
		want  Answer
		words string
	}{
		{"again", Item{Book: "p0", Nodes: twenty}, Answer{Made: 1, Opens: opening(1), IsAgain: true}, ""},
		{"otherwise", Item{Book: "p0", Nodes: nodesOf(20, 5)}, Answer{Rejected: BookExists}, "with other nodes"},
		{"otherwise, with an image", Item{Book: "p0", Nodes: twenty, Image: []byte(image)}, Answer{Rejected: BookExists}, "with other nodes"},
		{"in an image", Item{Book: "p1", Nodes: twenty, Image: []byte(image)}, Answer{Made: 5, Opens: opening(6)}, ""},
		{"in it again", Item{Book: "p1", Nodes: twenty, Image: []byte(image)}, Answer{Made: 5, Opens: opening(6), IsAgain: true}, ""},
		{"over no nodes", Item{Book: "p2"}, Answer{Rejected: BadText}, "the topology has no nodes: topology 2"},
		{"over a bad node", Item{Book: "p2", Nodes: nodesOf(3, 257)}, Answer{Rejected: BadText}, "out of its range: topology 4 0"},
		{"in no image", Item{Book: "p2", Nodes: twenty, Image: []byte("image 1\nbefore x")}, Answer{Rejected: BadText}, "image 2"},
		{"in another image", Item{Book: "p2", Nodes: twenty, Image: []byte("image 1\nbefore 0\nclock 0\nnode 77 down\nend\n")},
			Answer{Rejected: BadText}, "the topology has no such node: image 4 cause 6"},
	} {
		it.item.Action = Create
		answer := p.item(&it.item)
		words := answer.Words
		if answer.Words = ""; answer.At != (Stamp{Index: p.index}) {
			t.Errorf("%s: %v", it.name, answer.At)
		}
		answer.At = Stamp{}
		if !reflect.DeepEqual(answer, it.want) || !strings.Contains(words, it.words) {
			t.Errorf("%s: %+v %q", it.name, answer, words)
		}
	}
	if names := p.s.Names(); !reflect.DeepEqual(names, []string{"p0", "p1"}) {
		t.Error(names)
	}
}

func TestABookGoesOnOverOtherNodes(t *testing.T) {
	p := newPlayer(t)
	p.call("place 1")
	reopen := func(nodes []byte) Answer { return p.item(&Item{Action: Reopen, Book: "p0", Nodes: nodes}) }
	if answer := reopen(twenty); !answer.IsAgain || answer.Opens != opening(1) || answer.Made != 1 {
		t.Errorf("%+v", answer)
	}
	p.rejected(reopen(nodesOf(3, 4)), BadText, "the topology has no such node: image 4 cause 6") // the first home is on node 3
	if answer := reopen(nodesOf(21, 4)); answer.Made != 1 || answer.Opens != opening(5) || answer.Rejected != 0 {
		t.Errorf("%+v", answer)
	}
	p.expect(p.call("up 20"), 2, "refused 105")
	at := call(t, "tick")
	at.At = &Position{2, opening(1)}
	p.rejected(p.item(at), Moved, "the book stands at 2, and its opening is 5120")
	at.At = &Position{2, opening(5)}
	p.expect(p.item(at), 3, "ticked 1 0")
	view(t, p, func(v *View) {
		var lines []string
		for place := uint64(0); place < v.Position.Made; place = uint64(len(lines)) { // (those from before come first, and alone)
			rows, err := v.Entries(place, 10)
			if err != nil || len(rows) == 0 {
				t.Fatal(rows, err)
			}
			for _, row := range rows {
				lines = append(lines, row.Command.String())
			}
		}
		if !reflect.DeepEqual(lines, []string{"place 1", "up 20", "tick"}) {
			t.Error(lines)
		}
	})
}

func view(t *testing.T, p *player, look func(*View)) {
	t.Helper()
	err := p.s.Look("p0", func(v *View) error {
		look(v)
		return nil
	})
	if err != nil {
		t.Fatal(err)
	}
}

func TestACallIsMadeOnlyWhereItsCallerSawTheBook(t *testing.T) {
	p := newPlayer(t)
	p.call("tick")
	for _, place := range []Position{{0, opening(1)}, {2, opening(1)}, {1, 0}, {1, opening(2)}} {
		item := call(t, "tick")
		item.At = &Position{place.Made, place.Opens}
		p.rejected(p.item(item), Moved, "the book stands at 1, and its opening is 1024")
	}
	item := call(t, "tick")
	item.At = &Position{1, opening(1)}
	p.expect(p.item(item), 2, "ticked 2 0")
}

func (p *player) keyed(key, line string) Answer {
	p.t.Helper()
	item := call(p.t, line)
	item.Key, item.Since = key, p.index
	return p.item(item)
}

func TestAKeyIsAnsweredOnce(t *testing.T) {
	p := newPlayer(t)
	first := p.keyed("a", "place 1")
	p.call("tick")
	for round, q := range []*player{p, p.restored(p.snapshot())} {
		again := q.keyed("a", "place 1")
		if !again.IsAgain || again.Made != 1 || again.Reply != first.Reply || again.Opens != opening(1) {
			t.Errorf("round %d: %+v", round, again)
		}
		q.rejected(q.keyed("a", "place 2"), KeyReused, "another request")
		q.expect(q.keyed("b", "tick"), 3, "ticked 2 0")
	}
	item := call(t, "tick")
	item.Key, item.Session = "b", 2
	p.rejected(p.item(item), KeyReused, "another request")
}

func TestTheOldestKeyIsForgotten(t *testing.T) {
	p := newPlayer(t)
	for i := 1; i <= MostKeys+1; i++ {
		p.keyed(fmt.Sprint(i), "tick")
	}
	for _, q := range []*player{p, p.restored(p.snapshot())} {
		q.expect(q.keyed("2", "tick"), 2, "ticked 2 0")
		q.expect(q.keyed(fmt.Sprint(MostKeys+1), "tick"), MostKeys+1, fmt.Sprintf("ticked %d 0", MostKeys+1))
		q.expect(q.keyed("1", "tick"), MostKeys+2, fmt.Sprintf("ticked %d 0", MostKeys+2)) // it is new, and 2 is forgotten now
		q.expect(q.keyed("2", "tick"), MostKeys+3, fmt.Sprintf("ticked %d 0", MostKeys+3))
	}
}

func TestAWorkerReportsItsOwnLeases(t *testing.T) {
	p := newPlayer(t)
	for _, line := range []string{"place 1", "fail 3", "fail 7"} {
		p.call(line)
	}
	p.expect(p.as("w1", "lease 1 3"), 4, "granted 1 3 17:0 epoch 1 local 0 1 2 4 5 12")
	p.expect(p.call("lease 1 7"), 5, "granted 1 7 15:0 epoch 1 local 6 8 9 10 11 13")
	for _, q := range []*player{p, p.restored(p.snapshot())} {
		for _, it := range []struct{ worker, line, holder string }{
			{"w2", "done 1 3 1", "w1"}, {"", "done 1 3 1", "w1"}, {"w2", "abandon 1 3 1", "w1"}, {"w1", "done 1 7 1", ""},
		} {
			answer := q.as(it.worker, it.line)
			q.expect(answer, 0, "refused 114 1")
			if answer.Holder != it.holder {
				t.Errorf("%s of %q: the holder is %q", it.line, it.worker, answer.Holder)
			}
		}
		view(t, q, func(v *View) {
			holders, err := v.Holders()
			if want := []Holder{{1, 3, 1, "w1"}}; err != nil || !reflect.DeepEqual(holders, want) || v.Position.Made != 5 {
				t.Error(holders, err, v.Position)
			}
		})
		q.expect(q.as("w2", "done 1 3 2"), 6, "refused 113") // of no live lease: so the rules refuse it
		q.expect(q.as("w2", "done 9 3 1"), 7, "refused 101")
		q.expect(q.as("w1", "done 1 3 1"), 8, "ended")
		q.expect(q.as("w1", "done 1 3 1"), 9, "refused 113")
		q.expect(q.call("done 1 7 1"), 10, "ended")
	}
}

// Whatever ends a lease ends its holding, and the next lease is of whoever asked for it.
func TestAHoldingEndsWithItsLease(t *testing.T) {
	for name, lines := range map[string][]string{
		"revoke": {"revoke 1 3"}, "ticks": {"tick", "tick", "tick"}, "fail": {"fail 17", "join 17"}, "drop": {"drop 1", "place 1", "fail 2"},
	} {
		p := newPlayer(t)
		for _, line := range []string{"place 1", "fail 3"} {
			p.call(line)
		}
		p.as("w1", "lease 1 3")
		for _, line := range lines {
			p.call(line)
		}
		if holders := p.s.books["p0"].holders; len(holders) != 0 {
			t.Errorf("%s: %v", name, holders)
		}
	}
}

func TestNoBookIsRefused(t *testing.T) {
	p := newPlayer(t)
	item := call(t, "tick")
	item.Book = "p9"
	p.rejected(p.item(item), NoBook, "there is no book p9")
	if err := p.s.Look("p9", func(*View) error { return nil }); err != ErrNoBook {
		t.Error(err)
	}
}

func TestANumberOutOfRangeIsRefused(t *testing.T) {
	p := newPlayer(t)
	item := call(t, "tick")
	item.Session = 9
	p.rejected(p.item(item), OutOfRange, "out of range")
	p.expect(p.call("tick"), 1, "ticked 1 0")
}

// withRules is an entry of a member whose library has other rules.
func withRules(rules uint32, items ...*Item) []byte {
	return NewWith(Knobs{Rules: rules}).Encode(items)
}

func TestOtherRulesAreRefusedByName(t *testing.T) {
	others := book.Rules() + 1
	p := newPlayer(t)
	answers, err := p.s.Apply(2, withRules(others, call(t, "tick"))) // the group's are ours: whoever sent this is wrong here
	if err != nil {
		t.Fatal(err)
	}
	words := fmt.Sprintf("the member has rules %d, and the group has rules %d", others, book.Rules())
	p.rejected(answers.([]Answer)[0], OtherRules, words)
	p.index = 2
	p.expect(p.call("tick"), 1, "ticked 1 0")
	none := withRules(1, call(t, "tick"))
	none[1] = 0
	for _, q := range []*State{p.s, New()} {
		answers, err := q.Apply(3, none) // (which no library has)
		if err != nil {
			t.Fatal(err)
		}
		p.rejected(answers.([]Answer)[0], OtherRules, "there are no rules 0")
	}
	fresh := New() // the group's are not ours: this member is wrong here
	want := fmt.Sprintf("is of rules %d, and this library has rules %d", others, book.Rules())
	_, err = fresh.Apply(1, withRules(others, &Item{Action: Create, Book: "p0", Nodes: twenty}))
	if err == nil || !strings.Contains(err.Error(), want) {
		t.Error(err)
	}
	if len(fresh.Names()) != 0 {
		t.Error("something of it was applied")
	}
}

func TestASnapshotOfOtherRulesIsRefusedByName(t *testing.T) {
	other := NewWith(Knobs{Rules: book.Rules() + 1})
	err := other.Restore(bytes.NewReader(newPlayer(t).snapshot()))
	want := fmt.Sprintf("is of rules %d, and this library has rules %d", book.Rules(), book.Rules()+1)
	if err == nil || errors.Is(err, engine.ErrDamaged) || !strings.Contains(err.Error(), want) {
		t.Error(err)
	}
}

// other is a player with the state of a snapshot, and with a library of other rules.
func (p *player) other(rules uint32, snapshot []byte) *player {
	p.t.Helper()
	o := &player{t: p.t, s: NewWith(Knobs{Rules: rules}), index: p.index}
	if err := o.s.Restore(bytes.NewReader(snapshot)); err != nil {
		p.t.Fatal(err)
	}
	return o
}

func TestAGroupGoesToOtherRules(t *testing.T) {
	ours, next := book.Rules(), book.Rules()+1
	p := newPlayer(t)
	p.call("place 1")
	if answer := p.item(&Item{Action: ChangeRules, Rules: ours}); !answer.IsAgain || answer.Rejected != 0 {
		t.Errorf("to its own rules: %+v", answer)
	}
	p.item(&Item{Action: ChangeRules, Rules: next})
	if have := p.s.Change(); have != (Change{ours, Form, next, Form, 4}) {
		t.Errorf("%+v", have)
	}
	words := fmt.Sprintf("the group goes from rules %d to rules %d, and this member has rules %d", ours, next, ours)
	p.rejected(p.call("tick"), OtherRules, words)
	o := p.other(next, p.snapshot())
	o.rejected(o.call("tick"), OtherRules, words) // (an entry of a member with the rules of before)
	p.rejected(p.call("tick"), OtherRules, words)
	entry := withRules(next, call(t, "tick"))
	answers, err := o.s.Apply(o.index+1, entry)
	if err != nil {
		t.Fatal(err)
	}
	o.expect(answers.([]Answer)[0], 2, "ticked 1 0")
	if have := o.s.Change(); have != (Change{Rules: next, Form: Form}) {
		t.Errorf("%+v", have)
	}
	want := fmt.Sprintf("is of rules %d, and this library has rules %d", next, ours)
	if _, err := p.s.Apply(p.index+1, entry); err == nil || !strings.Contains(err.Error(), want) {
		t.Errorf("a member that was not restarted: %v", err)
	}
	o.index++
	o.rejected(o.call("tick"), OtherRules, fmt.Sprintf("the member has rules %d, and the group has rules %d", ours, next))
}

func TestAChangeOfRulesIsTakenBack(t *testing.T) {
	ours := book.Rules()
	p := newPlayer(t)
	p.item(&Item{Action: ChangeRules, Rules: ours + 1})
	p.item(&Item{Action: ChangeRules, Rules: ours + 2})
	if have := p.s.Change(); have != (Change{ours, Form, ours + 2, Form, 3}) {
		t.Errorf("%+v", have)
	}
	p.item(&Item{Action: ChangeRules, Rules: ours})
	p.expect(p.call("tick"), 1, "ticked 1 0")
	none := &player{t: t, s: New()}
	none.rejected(none.item(&Item{Action: ChangeRules, Rules: ours + 1}), NotChanged, "before its first book")
}

func TestASnapshotIsTheWholeState(t *testing.T) {
	p := newPlayer(t)
	for _, line := range []string{"place 1", "place6 2", "fail 3", "down 5", "drain 0"} {
		p.call(line)
	}
	p.as("w1", "lease 1 3")
	p.keyed("k", "next")
	p.item(&Item{Action: Create, Book: "p1", Nodes: nodesOf(30, 2)})
	snapshot := p.snapshot()
	q := p.restored(snapshot)
	if !bytes.Equal(q.snapshot(), snapshot) {
		t.Error("a state that begins in a snapshot has another one")
	}
	for _, line := range []string{"next", "tick", "tick", "tick", "next"} {
		one, other := p.call(line), q.call(line)
		if !reflect.DeepEqual(one, other) {
			t.Errorf("%s: %+v and %+v", line, one, other)
		}
	}
	if !bytes.Equal(q.snapshot(), p.snapshot()) {
		t.Error("later snapshots differ")
	}
}

// A snapshot may be written while entries come. Then it is replayed from the index at which it was begun.
func TestEntriesThatASnapshotHasAreNotMadeTwice(t *testing.T) {
	p := newPlayer(t)
	p.call("tick")
	write, begun := p.s.Freeze(), p.index
	var payloads [][]byte
	for i := 0; i < 5; i++ { // (entries that come while it is written)
		payloads = append(payloads, New().Encode([]*Item{call(t, "tick"), {Action: Create, Book: fmt.Sprint("late", i), Nodes: twenty}}))
		p.index++
		if _, err := p.s.Apply(p.index, payloads[i]); err != nil {
			t.Fatal(err)
		}
	}
	var text bytes.Buffer
	if err := write(&text); err != nil {
		t.Fatal(err)
	}
	q := p.restored(text.Bytes())
	for i, payload := range payloads {
		if _, err := q.s.Apply(begun+uint64(i)+1, payload); err != nil {
			t.Fatal(err)
		}
	}
	q.expect(q.call("tick"), 7, "ticked 7 0")
	if len(q.s.Names()) != 6 {
		t.Error(q.s.Names())
	}
}

func TestABookIsRemoved(t *testing.T) {
	p := newPlayer(t)
	p.keyed("k", "tick")
	p.as("w1", "next")
	var grown <-chan struct{}
	view(t, p, func(v *View) { grown = v.Grown() })
	remove := func(made, opens uint64) Answer {
		return p.item(&Item{Action: Remove, Book: "p0", At: &Position{made, opens}})
	}
	p.rejected(remove(1, opening(1)), Moved, "the book stands at 2, and its opening is 1024")
	p.rejected(remove(2, opening(2)), Moved, "the book stands at 2, and its opening is 1024")
	if answer := remove(2, opening(1)); answer.Rejected != 0 || answer.Made != 2 || answer.Opens != opening(1) {
		t.Errorf("%+v", answer)
	}
	<-grown // whoever waits for an entry hears of it
	if err := p.s.Look("p0", func(*View) error { return nil }); err != ErrNoBook || len(p.s.Names()) != 0 {
		t.Errorf("%v, %v", err, p.s.Names())
	}
	p.rejected(remove(2, opening(1)), NoBook, "there is no book p0")
	p.rejected(p.call("tick"), NoBook, "there is no book p0")
	if names := p.restored(p.snapshot()).s.Names(); len(names) != 0 {
		t.Errorf("after a restart: %v", names)
	}
	p.item(&Item{Action: Create, Book: "p0", Nodes: nodesOf(30, 2)}) // (other nodes)
	p.expect(p.keyed("k", "tick"), 1, "ticked 1 0")                  // (the key is forgotten)
}

// A book is removed while a snapshot is written, before its image is taken. A member that begins in that snapshot has to pass
// over what was done to the book meanwhile, and to apply what came later.
func TestASnapshotKnowsWhatWasRemovedMeanwhile(t *testing.T) {
	at := func(book string, made, opened uint64) *Item {
		return &Item{Action: Remove, Book: book, At: &Position{made, opening(opened)}}
	}
	again, tick := &Item{Action: Create, Book: "p0", Nodes: twenty}, call(t, "tick")
	for name, it := range map[string]struct {
		before, after []*Item // while the snapshot is written: before and after its images are taken
		made          map[string]uint64
	}{
		"removed":                  {[]*Item{tick, again, tick, at("p0", 3, 1)}, nil, map[string]uint64{"p1": 0}},
		"removed later":            {[]*Item{tick}, []*Item{tick, at("p0", 3, 1)}, map[string]uint64{"p1": 0}},
		"removed and made":         {[]*Item{at("p0", 1, 1), again, tick}, []*Item{tick}, map[string]uint64{"p0": 2, "p1": 0}},
		"removed, made, removed":   {[]*Item{at("p0", 1, 1), again, at("p0", 0, 5)}, nil, map[string]uint64{"p1": 0}},
		"removed, then made later": {[]*Item{tick, at("p0", 2, 1)}, []*Item{again}, map[string]uint64{"p0": 0, "p1": 0}},
		"others":                   {[]*Item{at("p1", 0, 2)}, []*Item{tick}, map[string]uint64{"p0": 2}},
	} {
		p := newPlayer(t)
		p.item(&Item{Action: Create, Book: "p1", Nodes: twenty})
		p.call("tick")
		write, begun := p.s.Freeze(), p.index
		for _, item := range it.before {
			p.item(item)
		}
		var text bytes.Buffer
		if err := write(&text); err != nil {
			t.Fatal(err)
		}
		for _, item := range it.after {
			p.item(item)
		}
		q := p.restored(text.Bytes())
		q.index = begun
		for i, item := range append(append([]*Item(nil), it.before...), it.after...) {
			if i == 1 { // a snapshot in the middle of this has to know as much
				q = q.restored(q.snapshot())
			}
			q.item(item)
		}
		for who, player := range map[string]*player{"the one that went on": p, "the one that began in the snapshot": q} {
			if made := player.made(); !reflect.DeepEqual(made, it.made) {
				t.Errorf("%s: %s has %v, and not %v", name, who, made, it.made)
			}
		}
	}
}

func TestABookThatIsRemovedLaterStillTakesRoom(t *testing.T) {
	p := newFullPlayer(t)
	write, begun := p.s.Freeze(), p.index
	later := func(q *player) []Rejection {
		return []Rejection{q.item(&Item{Action: Create, Book: "q", Nodes: twenty}).Rejected,
			q.item(&Item{Action: Remove, Book: "p0", At: &Position{0, opening(1)}}).Rejected,
			q.item(&Item{Action: Create, Book: "r", Nodes: twenty}).Rejected}
	}
	if found := later(p); !reflect.DeepEqual(found, []Rejection{TooManyBooks, 0, 0}) {
		t.Fatal(found)
	}
	var text bytes.Buffer
	if err := write(&text); err != nil {
		t.Fatal(err)
	}
	q := p.restored(text.Bytes())
	q.index = begun
	if later(q); !reflect.DeepEqual(q.s.Names(), p.s.Names()) {
		t.Errorf("the one that began in the snapshot has other books: %d and %d", len(q.s.Names()), len(p.s.Names()))
	}
}

func TestThereAreSoManyBooks(t *testing.T) {
	p := &player{t: t, s: New()}
	for i := 0; i < MostBooks; i++ {
		if answer := p.item(&Item{Action: Create, Book: fmt.Sprintf("p%d", i), Nodes: nodesOf(1, 1)}); answer.Rejected != 0 {
			t.Fatal(i, answer)
		}
	}
	p.rejected(p.item(&Item{Action: Create, Book: "q", Nodes: twenty}), TooManyBooks, "there are 1024 books already")
}

// made are the numbers of entries of all books.
func (p *player) made() map[string]uint64 {
	made := map[string]uint64{}
	for _, name := range p.s.Names() {
		if err := p.s.Look(name, func(v *View) error { made[name] = v.Position.Made; return nil }); err != nil {
			p.t.Error(err)
		}
	}
	return made
}

func TestADamagedSnapshotIsRefused(t *testing.T) {
	p := newPlayer(t)
	p.call("place 1")
	whole := p.snapshot()
	other := newPlayer(t)
	other.call("tick")
	for place := 0; place < len(whole); place += 7 {
		text := append([]byte(nil), whole...)
		text[place] ^= 128
		if err := other.s.Restore(bytes.NewReader(text)); !errors.Is(err, engine.ErrDamaged) {
			t.Errorf("byte %d: %v", place, err)
		}
		if err := other.s.Restore(bytes.NewReader(whole[:place])); !errors.Is(err, engine.ErrDamaged) {
			t.Errorf("%d bytes: %v", place, err)
		}
	}
	other.expect(other.call("tick"), 2, "ticked 2 0") // its state is as it was
}

func TestEntriesAreForgottenInTime(t *testing.T) {
	p := newPlayer(t)
	item := call(t, "tick")
	for i := 0; i < ForgetAt+10; i++ {
		p.item(item)
	}
	view(t, p, func(v *View) {
		if v.Before() != ForgetAt || v.Position.Made != ForgetAt+10 {
			t.Error(v.Before(), v.Position)
		}
		for _, place := range []uint64{ForgetAt - TailOfBook, ForgetAt - 1, ForgetAt, ForgetAt + 9} {
			rows, err := v.Entries(place, 1)
			if err != nil || len(rows) != 1 || uint64(rows[0].Reply.Clock) != place+1 {
				t.Error(place, rows, err)
			}
		}
		var forgotten *Forgotten
		if _, err := v.Entries(ForgetAt-TailOfBook-1, 1); !errors.As(err, &forgotten) || forgotten.First != ForgetAt-TailOfBook {
			t.Error(err)
		}
		if rows, err := v.Entries(ForgetAt+10, 1); err != nil || len(rows) != 0 {
			t.Error(rows, err)
		}
	})
}

func TestALookWaitsForTheNextEntry(t *testing.T) {
	p := newPlayer(t)
	var grown <-chan struct{}
	view(t, p, func(v *View) { grown = v.Grown() })
	select {
	case <-grown:
		t.Fatal("nothing has come")
	default:
	}
	p.call("tick")
	<-grown
	view(t, p, func(v *View) { grown = v.Grown() })
	if err := p.s.Restore(bytes.NewReader(p.snapshot())); err != nil {
		t.Fatal(err)
	}
	<-grown // a snapshot has taken the place of the book
}
