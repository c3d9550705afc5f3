package state

import (
	"fmt"
	"math/rand"
	"testing"
)

// A request of a drawn history. It is proposed again and again.
type request struct {
	item  Item
	ring  string // whose keys have it: those of a book, or "" for those of the group
	first Answer // its answer when it was made; At is zero before
}

// A ringModel is the keys that are kept for certain: the last ones of a ring, the oldest first.
type ringModel map[string][]keyName

func (m ringModel) keep(ring string, name keyName, most int) {
	m[ring] = append(m[ring], name)
	if len(m[ring]) > most {
		m[ring] = m[ring][1:]
	}
}

func (m ringModel) has(ring string, name keyName) bool {
	for _, it := range m[ring] {
		if it == name {
			return true
		}
	}
	return false
}

const drawnKeys = 8

// drawnRequest is a new request, which some member proposes that has applied all or most of the log.
func drawnRequest(r *rand.Rand, number int, index uint64) *request {
	books := []string{"a", "b", "c"}
	q := &request{item: Item{Book: books[r.Intn(3)], Key: fmt.Sprint(number / 2), Owner: []string{"x", "y"}[number%2]}}
	lag := uint64(r.Intn(4))
	if q.item.Since = index - 1; q.item.Since > lag {
		q.item.Since -= lag
	}
	switch r.Intn(12) {
	case 0:
		q.item.Action, q.item.Nodes = Create, [][]byte{twenty, nodesOf(21, 4)}[r.Intn(2)]
	case 1:
		q.item.Action = Remove
	case 2:
		q.item.Action, q.item.Nodes = Reopen, [][]byte{twenty, nodesOf(21, 4), nodesOf(22, 4)}[r.Intn(3)]
	case 3:
		q.item.Action, q.item.Rules, q.item.Book = ChangeRules, 1, ""
	default:
		lines := []string{"tick", "place 1", "fail 3", "next", "join 3", "drop 1"}
		q.item.Action, q.item.Session = Call, 1
		q.item.Command = drawnCommand(lines[r.Intn(len(lines))])
		q.ring = q.item.Book
	}
	return q
}

// Each request is made once at most, wherever and however often it comes again. It is answered as the first time as long as its
// key is kept, and a request that comes for the first time is made if no key is forgotten that is younger.
func TestNoRequestIsMadeTwice(t *testing.T) {
	steps := 20000
	if testing.Short() {
		steps = 2000
	}
	r := rand.New(rand.NewSource(71))
	p := &player{t: t, s: NewWith(Knobs{Keys: drawnKeys})}
	p.item(&Item{Action: Create, Book: "a", Nodes: twenty})
	var asked []*request
	kept, told := ringModel{}, map[Rejection]int{}
	for step := 0; step < steps && !t.Failed(); step++ {
		var items []*Item
		var requests []*request
		for count := 1 + r.Intn(3); count > 0; count-- {
			q := drawnRequest(r, len(asked), p.index+1)
			if len(asked) > 0 && r.Intn(2) == 0 { // mostly one of the last ones
				q = asked[len(asked)-1-r.Intn(minimum(len(asked), 1+r.Intn(60)))]
			} else {
				asked = append(asked, q)
			}
			requests, items = append(requests, q), append(items, &q.item)
		}
		for i, answer := range p.items(items...) {
			told[answer.Rejected]++
			checkKey(t, requests[i], answer, kept)
		}
		if r.Intn(500) == 0 {
			p = p.restored(p.snapshot())
		}
	}
	for _, rejection := range []Rejection{0, NoBook, BookExists, KeyForgotten} {
		if told[rejection] < steps/100 {
			t.Errorf("the histories are too tame: %v", told)
		}
	}
}

// checkKey compares the answer to a request with what is known of it.
func checkKey(t *testing.T, q *request, answer Answer, kept ringModel) {
	name := nameOf(q.item.Owner, q.item.Key)
	wasMade, isKept := q.first.At != Stamp{}, kept.has(q.ring, name)
	if isKept {
		again := q.first
		again.At, again.IsAgain = answer.At, true
		if answer != again {
			t.Errorf("%+v: it is kept, and answered %+v and not %+v", q.item, answer, again)
		}
		return
	}
	if answer.Rejected != 0 {
		if answer.Rejected == KeyForgotten && !wasMade && len(kept[q.ring]) < drawnKeys && q.ring == "" {
			t.Errorf("%+v: nothing is forgotten yet", q.item)
		}
		return
	}
	if wasMade {
		t.Errorf("%+v: it is made again, %+v and %+v", q.item, q.first, answer)
	}
	q.first = answer
	kept.keep(q.ring, name, drawnKeys)
	if q.item.Action == Remove {
		delete(kept, q.item.Book)
	}
}

func minimum(a, b int) int {
	if a < b {
		return a
	}
	return b
}

// A request that comes for the first time, and is from after the newest key that is forgotten, is made.
func TestAFreshKeyIsNeverRefused(t *testing.T) {
	p := &player{t: t, s: NewWith(Knobs{Keys: drawnKeys})}
	p.item(&Item{Action: Create, Book: "p0", Nodes: twenty})
	item := func(key string, since uint64) *Item {
		it := call(t, "tick")
		it.Key, it.Since = key, since
		return it
	}
	for i := 0; i < 3*drawnKeys; i++ {
		p.expect(p.item(item(fmt.Sprint(i), p.index)), uint64(i+1), fmt.Sprintf("ticked %d 0", i+1))
	}
	forgot := p.index - drawnKeys // the keys of the entries up to here are forgotten
	for _, q := range []*player{p, p.restored(p.snapshot())} {
		if q.s.books["p0"].keys.forgot != (Stamp{Index: forgot}) {
			t.Error(q.s.books["p0"].keys.forgot, forgot)
		}
		q.rejected(q.item(item("late", forgot-1)), KeyForgotten, fmt.Sprintf("keys up to entry %d are forgotten", forgot))
		q.rejected(q.item(item("0", 1)), KeyForgotten, "may be forgotten")
		q.expect(q.item(item("fresh", forgot)), 3*drawnKeys+1, fmt.Sprintf("ticked %d 0", 3*drawnKeys+1))
	}
}

// The group keeps keys of books that are made and removed, and forgets the oldest, too.
func TestTheGroupForgetsKeysByCount(t *testing.T) {
	p := &player{t: t, s: NewWith(Knobs{Keys: drawnKeys})}
	var items []*Item
	for i := 0; i < drawnKeys; i++ {
		items = append(items, &Item{Action: []Action{Create, Remove}[i%2], Book: "p0", Key: fmt.Sprint(i), Since: p.index})
		if i%2 == 0 {
			items[i].Nodes = twenty
		}
		p.item(items[i])
	}
	for i, item := range items {
		if answer := p.item(item); !answer.IsAgain {
			t.Errorf("%d: %+v", i, answer)
		}
	}
	p.item(&Item{Action: Create, Book: "p1", Nodes: twenty, Key: "new", Since: p.index})
	for _, q := range []*player{p, p.restored(p.snapshot())} {
		q.rejected(q.item(items[0]), KeyForgotten, "may be forgotten")
		if answer := q.item(items[1]); !answer.IsAgain || len(q.s.Names()) != 1 {
			t.Errorf("%+v", answer)
		}
	}
}
