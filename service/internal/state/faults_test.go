package state

import (
	"bytes"
	"errors"
	"fmt"
	"reflect"
	"strings"
	"testing"

	"lrcman/service/book"
	"lrcman/service/internal/engine"
)

var errNoMemory = errors.New("out of memory")

// What fails in the middle of an entry is made whole by a restart, also if a snapshot was under way.
func TestAnEntryThatFailsInItsMiddleHarmsNoRestart(t *testing.T) {
	p := newPlayer(t)
	p.item(&Item{Action: Create, Book: "p1", Nodes: twenty})
	write := p.s.Freeze()
	p.s.knobs.Item = func(at Stamp) error {
		if at == (Stamp{3, 1}) {
			return errNoMemory
		}
		return nil
	}
	other := call(t, "tick")
	other.Book = "p1"
	entry := New().Encode([]*Item{call(t, "place 1"), other, call(t, "place 2")})
	if _, err := p.s.Apply(3, entry); !errors.Is(err, errNoMemory) || !strings.Contains(err.Error(), "item 1, book p1") {
		t.Fatal(err)
	}
	var text bytes.Buffer
	if err := write(&text); err != nil { // (before the process ends)
		t.Fatal(err)
	}
	q := p.restored(text.Bytes())
	if _, err := q.s.Apply(3, entry); err != nil {
		t.Fatal(err)
	}
	if made, want := q.made(), map[string]uint64{"p0": 2, "p1": 1}; !reflect.DeepEqual(made, want) {
		t.Errorf("%v and not %v", made, want)
	}
}

// A book that was perhaps changed by what failed stands in no snapshot.
func TestABookThatIsNotWholeIsNotWritten(t *testing.T) {
	p := newPlayer(t)
	write := p.s.Freeze()
	fails := func(*bookEntry, Stamp, *Item) (Answer, error) { return Answer{}, errNoMemory }
	if _, err := p.s.inBook(Stamp{2, 0}, call(t, "tick"), false, fails); err != errNoMemory {
		t.Fatal(err)
	}
	p.s.release()
	if err := write(&bytes.Buffer{}); err == nil || !strings.Contains(err.Error(), "book p0: it is not whole") {
		t.Error(err)
	}
}

// Nothing depends on a removal being the last item of its entry.
func TestWhatComesBehindARemovalInItsEntryIsMade(t *testing.T) {
	p := newFullPlayer(t)
	write, begun := p.s.Freeze(), p.index
	entries := [][]*Item{
		{{Action: Remove, Book: "p0", At: &Position{0, opening(1)}}, {Action: Create, Book: "p0", Nodes: twenty}, call(t, "tick")},
		{{Action: Create, Book: "q", Nodes: twenty}, {Action: Remove, Book: "p5"}, {Action: Create, Book: "q", Nodes: twenty}},
	}
	var told [][]Answer
	for _, entry := range entries {
		told = append(told, p.items(entry...))
	}
	if told[0][2].Made != 1 || told[1][0].Rejected != TooManyBooks || told[1][2].Rejected != 0 {
		t.Fatalf("%+v", told)
	}
	var text bytes.Buffer
	if err := write(&text); err != nil {
		t.Fatal(err)
	}
	q := p.restored(text.Bytes())
	q.index = begun
	for i, entry := range entries {
		if answers := q.items(entry...); !reflect.DeepEqual(answers, told[i]) {
			t.Errorf("entry %d: %+v, and live %+v", i, answers, told[i])
		}
	}
	if !bytes.Equal(q.snapshot(), p.snapshot()) {
		t.Error("the one that began in the snapshot has other books")
	}
}

// A place names one opening: it holds in no book that is made under the same name later.
func TestAPlaceIsOfOneOpening(t *testing.T) {
	p := newPlayer(t)
	create := &Item{Action: Create, Book: "p0", Nodes: twenty}
	late := call(t, "tick")
	late.At = &Position{0, opening(1)}
	remove := &Item{Action: Remove, Book: "p0", At: &Position{0, opening(1)}}
	answers := p.items(remove, create, late, remove)
	if answers[0].Rejected != 0 || answers[1].Opens != (Stamp{2, 1}).Number() {
		t.Errorf("%+v", answers)
	}
	p.rejected(answers[2], Moved, "the book stands at 0, and its opening is 2049")
	p.rejected(answers[3], Moved, "the book stands at 0, and its opening is 2049")
	reopen := &Item{Action: Reopen, Book: "p0", Nodes: nodesOf(21, 4), At: &Position{0, opening(1)}}
	p.rejected(p.item(reopen), Moved, "the book stands at 0")
	reopen.At.Opens = 2049
	if answer := p.item(reopen); answer.Rejected != 0 || answer.Opens != opening(4) {
		t.Errorf("%+v", answer)
	}
	p.rejected(p.item(reopen), Moved, "its opening is 4096")
}

// A copy of a request that comes late makes nothing, whatever it asks for.
func TestACopyOfARequestMakesNothing(t *testing.T) {
	p := newPlayer(t)
	tick := call(t, "tick")
	tick.Key, tick.Since = "k", 1
	p.expect(p.item(tick), 1, "ticked 1 0")
	p.items(&Item{Action: Remove, Book: "p0"}, &Item{Action: Create, Book: "p0", Nodes: twenty})
	p.rejected(p.item(tick), KeyForgotten, "the key may be forgotten")

	to := &Item{Action: ChangeRules, Rules: 2, Key: "k", Since: 3}
	p.item(to)
	p.item(&Item{Action: ChangeRules, Rules: 1})
	if answer := p.item(to); !answer.IsAgain || p.s.Change().Next != 0 {
		t.Errorf("the group goes to other rules after all: %+v", answer)
	}
}

// The same of requests that make, open and remove books: the group keeps their keys.
func TestACopyOfAChangeOfABookMakesNothing(t *testing.T) {
	p := newPlayer(t)
	p.call("tick")
	p.call("tick")
	create := &Item{Action: Create, Book: "p1", Nodes: twenty, Key: "c", Since: 3}
	remove := &Item{Action: Remove, Book: "p1", Key: "r", Since: 3}
	reopen := &Item{Action: Reopen, Book: "p0", Nodes: nodesOf(21, 4), Key: "o", Since: 3}
	made := p.item(create)
	gone := p.item(remove)
	opened := p.item(reopen)
	p.item(&Item{Action: Reopen, Book: "p0", Nodes: twenty})
	for _, q := range []*player{p, p.restored(p.snapshot())} {
		for _, it := range []struct {
			item *Item
			want Answer
		}{{create, made}, {remove, gone}, {reopen, opened}} {
			answer := q.item(it.item)
			it.want.IsAgain, it.want.At = true, Stamp{Index: q.index}
			if answer != it.want {
				t.Errorf("%+v and not %+v", answer, it.want)
			}
		}
		if names := q.s.Names(); len(names) != 1 {
			t.Error("the book is back", names)
		}
		again := *create
		again.Nodes = nodesOf(19, 4)
		q.rejected(q.item(&again), KeyReused, "another request")
		again = *create
		again.Owner = "somebody"
		if answer := q.item(&again); answer.IsAgain || answer.Rejected != 0 {
			t.Errorf("the key of another owner: %+v", answer)
		}
	}
}

// nearTheEnd is a player with a book that begins in an image.
func nearTheEnd(t *testing.T, image string) *player {
	t.Helper()
	p := &player{t: t, s: New()}
	answer := p.item(&Item{Action: Create, Book: "p0", Nodes: twenty, Image: []byte(image)})
	if answer.Rejected != 0 {
		t.Fatalf("%+v", answer)
	}
	return p
}

const ofOneStripe = "image 1\nbefore %d\nclock %d\nnode 3 gone\n" +
	"stripe 1 0:0 1:0 2:0 - 4:0 5:0 6:0 7:0 8:0 9:0 10:0 11:0 16:0 12:0 13:0 14:0\ngranted 1 0 0 0 %d 0 0 0 0 0 0 0 0 0 0 0 0\nend\n"

// A book whose numbers are at their end is refused by name, and can still be looked at, opened again and written.
func TestASpentBookIsRefusedByName(t *testing.T) {
	for name, it := range map[string]struct {
		image   string
		before  []string // what can still be done
		refused []string
		after   []string
	}{
		"ticks": {fmt.Sprintf(ofOneStripe, 7, uint64(book.MostTicks)-1, 5), []string{"tick"}, []string{"tick", "tick"},
			[]string{"next", "place 2"}},
		"leases": {fmt.Sprintf(ofOneStripe, 7, 4, uint64(book.MostGrants)-1), []string{"lease 1 3", "abandon 1 3 4293967294"},
			[]string{"lease 1 3", "next", "next"}, []string{"tick", "place 2"}},
		"entries": {fmt.Sprintf(ofOneStripe, uint64(book.MostEntries)-1, 4, 5), []string{"tick"},
			[]string{"tick", "place 1", "next", "done 1 3 9"}, nil},
	} {
		p := nearTheEnd(t, it.image)
		for _, line := range it.before {
			if answer := p.call(line); answer.Rejected != 0 || answer.Reply.Kind == book.Refused {
				t.Errorf("%s: %s: %+v", name, line, answer)
			}
		}
		for _, q := range []*player{p, p.restored(p.snapshot())} {
			q.isSpent(it.refused)
			for _, line := range it.after {
				if answer := q.call(line); answer.Rejected != 0 {
					t.Errorf("%s: %s: %+v", name, line, answer)
				}
			}
			if answer := q.item(&Item{Action: Reopen, Book: "p0", Nodes: nodesOf(21, 4)}); answer.Rejected != 0 {
				t.Errorf("%s: %+v", name, answer)
			}
			q.restored(q.snapshot())
		}
	}
}

// isSpent says that calls are refused, make no entry, and are not kept by their keys; and that the book can still forget its entries.
func (p *player) isSpent(lines []string) {
	p.t.Helper()
	stood := p.made()["p0"]
	for _, line := range lines {
		p.rejected(p.keyed(line, line), Spent, "")
	}
	if made := p.made()["p0"]; made != stood {
		p.t.Error("an entry was made")
	}
	view(p.t, p, func(v *View) {
		if err := v.Forget(); err != nil {
			p.t.Error(err)
		}
	})
}

// A key is of one whole request: of each part of it.
func TestAKeyIsOfAWholeRequest(t *testing.T) {
	p := newPlayer(t)
	p.item(&Item{Action: Create, Book: "p1", Nodes: twenty})
	first := &Item{Action: Call, Book: "p0", Key: "k", Since: 2, Worker: "w", Session: 1, At: &Position{0, opening(1)},
		Command: book.Command{Kind: book.Done, Fragment: 1, Domain: 1, Epoch: 1, Stripe: 1, Node: 1}}
	p.item(first)
	for _, q := range []*player{p, p.restored(p.snapshot())} {
		for what, change := range map[string]func(*Item){
			"worker": func(i *Item) { i.Worker = "v" }, "session": func(i *Item) { i.Session = 2 },
			"no place": func(i *Item) { i.At = nil }, "n": func(i *Item) { i.At = &Position{1, opening(1)} },
			"opening": func(i *Item) { i.At = &Position{0, opening(2)} },
			"kind":    func(i *Item) { i.Command.Kind = book.Abandon }, "fragment": func(i *Item) { i.Command.Fragment = 2 },
			"domain": func(i *Item) { i.Command.Domain = 2 }, "epoch": func(i *Item) { i.Command.Epoch = 2 },
			"stripe": func(i *Item) { i.Command.Stripe = 2 }, "node": func(i *Item) { i.Command.Node = 2 },
		} {
			other := *first
			change(&other)
			if answer := q.item(&other); answer.Rejected != KeyReused {
				t.Errorf("another %s: %+v", what, answer)
			}
		}
		late := *first
		late.Since = 1 // (where it is proposed from is no part of it)
		if answer := q.item(&late); !answer.IsAgain {
			t.Errorf("%+v", answer)
		}
	}
}

// A number out of its range, and a text that is too long, is refused, and so is an entry that can't be taken apart.
func TestWhatCantBeReadIsRefused(t *testing.T) {
	p := newPlayer(t)
	long, tick := strings.Repeat("x", 300), book.Command{Kind: book.Tick}
	for _, it := range []struct {
		item  Item
		want  Rejection
		words string
	}{
		{Item{Action: Create, Book: long, Nodes: twenty}, Unreadable, "the name of the book has 300 bytes, and may have 64"},
		{Item{Action: Create, Nodes: twenty}, Unreadable, "the book has no name"},
		{Item{Action: Create, Book: "p1", Nodes: twenty, Key: long}, Unreadable, "the key has 300 bytes"},
		{Item{Action: Create, Book: "p1", Nodes: twenty, Owner: long}, Unreadable, "the owner of the key has 300 bytes"},
		{Item{Action: Create, Book: "p1", Nodes: make([]byte, mostNodes+1)}, Unreadable, "the text of nodes has 1048577 bytes"},
		{Item{Action: Create, Book: "p1", Nodes: twenty, Image: make([]byte, mostImage+1)}, Unreadable, "the image has 8388609 bytes"},
		{Item{Action: Call, Book: "p0", Worker: long, Session: 1, Command: tick}, Unreadable, "the name of the worker"},
		{Item{Action: Call, Book: "p0", Session: 9, Command: tick}, OutOfRange, "out of range"},
		{Item{Action: Call, Book: "p0", Session: 1, Command: book.Command{Kind: 77}}, OutOfRange, "out of range"},
		{Item{Action: Call, Book: "p0", Session: 1, Command: book.Command{Kind: book.Done, Stripe: 4096}}, OutOfRange, "out of range"},
		{Item{Action: Call, Book: "p0", Session: 1, Command: book.Command{Kind: book.Done, Fragment: 16}}, OutOfRange, "out of range"},
		{Item{Action: Call, Book: "p0", Key: "k", Since: 1 << 40, Session: 1, Command: tick}, OutOfRange, "since entry"},
		{Item{Action: ChangeRules, Rules: 1, Form: 256}, OutOfRange, "there is no form 256"},
	} {
		p.rejected(p.item(&it.item), it.want, it.words)
	}
	p.expect(p.call("tick"), 1, "ticked 1 0")
	if names := p.s.Names(); len(names) != 1 {
		t.Error(names)
	}
}

func TestAnEntryThatCantBeTakenApartIsRefused(t *testing.T) {
	p := newPlayer(t)
	marked := call(t, "tick")
	marked.At = &Position{0, opening(1)}
	payload := New().Encode([]*Item{marked, call(t, "tick")})
	wrongMark := New().Encode([]*Item{call(t, "tick")})
	wrongMark[len(wrongMark)-1] = 2 // (neither a place where the book has to stand, nor none)
	for _, it := range []struct {
		payload []byte
		count   int
	}{
		{nil, 0}, {[]byte{7, 'x'}, 0}, {[]byte{Form}, 0}, {payload[:len(payload)-1], 2}, {append(append([]byte{}, payload...), 0), 2},
		{New().Encode(times(call(t, "tick"), MostItems+1)), MostItems}, {[]byte{Form, 1, 0, 0, 0, 255, 255, 255, 255}, MostItems},
		{wrongMark, 1},
	} {
		p.index++
		told, err := p.s.Apply(p.index, it.payload)
		if err != nil || len(told.([]Answer)) != it.count || p.s.Check(it.payload) == nil {
			t.Errorf("%.40q: %v, %v", it.payload, told, err)
			continue
		}
		for _, answer := range told.([]Answer) {
			if answer.Rejected != Unreadable || answer.At.Index != p.index {
				t.Errorf("%.40q: %+v", it.payload, answer)
			}
		}
	}
	if made := p.made(); made["p0"] != 0 {
		t.Error(made)
	}
}

// times is an item many times.
func times(item *Item, count int) (items []*Item) {
	for i := 0; i < count; i++ {
		items = append(items, item)
	}
	return items
}

func TestAReplyIsWrittenFieldByField(t *testing.T) {
	reply := book.Reply{}
	next := uint64(0)
	fill(reflect.ValueOf(&reply).Elem(), &next)
	text := appendReply(nil, &reply)
	r := &reader{rest: text}
	if read := r.reply(); read != reply || r.end() != nil {
		t.Errorf("%+v and not %+v", read, reply)
	}
	if err := writeRecord(&bytes.Buffer{}, make([]byte, mostRecord+1)); err == nil {
		t.Error("a record that nobody reads is written")
	}
}

// fill gives each field another number.
func fill(value reflect.Value, next *uint64) {
	switch value.Kind() {
	case reflect.Struct:
		for i := 0; i < value.NumField(); i++ {
			if value.Type().Field(i).Name != "_" {
				fill(value.Field(i), next)
			}
		}
	case reflect.Array:
		for i := 0; i < value.Len(); i++ {
			fill(value.Index(i), next)
		}
	default:
		*next++
		value.SetUint(*next)
	}
}

// inForm is an entry in another form.
func inForm(form byte, rules uint32, items ...*Item) []byte {
	payload := withRules(rules, items...)
	payload[0] = form
	return payload
}

func TestAnotherFormIsRefusedUnlessTheGroupGoesToIt(t *testing.T) {
	ours := book.Rules()
	p := newPlayer(t)
	fresh := &player{t: t, s: New()}
	for q, words := range map[*player]string{p: "and the group has rules 1", fresh: "and the group has rules 0"} {
		q.index++
		told, err := q.s.Apply(q.index, inForm(3, ours, call(t, "tick"), call(t, "tick")))
		if err != nil || len(told.([]Answer)) != 2 {
			t.Fatal(told, err)
		}
		q.rejected(told.([]Answer)[1], OtherRules, "the member has rules 1 in form 3, "+words)
	}
	p.expect(p.call("tick"), 1, "ticked 1 0")
	p.item(&Item{Action: ChangeRules, Form: 3})
	if have := p.s.Change(); have != (Change{ours, Form, ours, 3, 4}) {
		t.Errorf("%+v", have)
	}
	p.rejected(p.call("tick"), OtherRules, "the group goes from rules 1 to rules 1 in form 3, and this member has rules 1")
	p.rejected(p.item(&Item{Action: ChangeRules, Rules: 99, Form: 300}), OutOfRange, "")
	q := p.restored(p.snapshot()) // (a member with the form of before)
	for _, it := range []*player{p, q} {
		_, err := it.s.Apply(10, inForm(3, ours, call(t, "tick")))
		if err == nil || !strings.Contains(err.Error(), "is of form 3, and this program reads form 2") {
			t.Error(err)
		}
	}
	p.item(&Item{Action: ChangeRules, Form: Form})
	p.expect(p.call("tick"), 2, "ticked 2 0")
}

// A snapshot whose books are of other rules already is refused, though its head would be taken.
func TestABookOfOtherRulesIsRefused(t *testing.T) {
	ours, next := book.Rules(), book.Rules()+1
	p := newPlayer(t)
	p.item(&Item{Action: ChangeRules, Rules: next})
	o := p.other(next, p.snapshot())
	write := o.s.Freeze()
	o.index++
	if _, err := o.s.Apply(o.index, withRules(next, call(t, "tick"))); err != nil {
		t.Fatal(err)
	}
	var text bytes.Buffer
	if err := write(&text); err != nil {
		t.Fatal(err)
	}
	want := fmt.Sprintf("book p0 is of rules %d, and this library has rules %d", next, ours)
	err := New().Restore(bytes.NewReader(text.Bytes()))
	if err == nil || errors.Is(err, engine.ErrDamaged) || !strings.Contains(err.Error(), want) {
		t.Error(err)
	}
	p.other(next, text.Bytes())
}
