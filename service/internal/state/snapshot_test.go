package state

import (
	"bytes"
	"errors"
	"fmt"
	"reflect"
	"strings"
	"testing"

	"lrcman/service/book"
	"lrcman/service/internal/engine"
)

// full is a player whose snapshot has something of everything.
func full(t *testing.T) *player {
	p := newPlayer(t)
	for _, line := range []string{"place 1", "place6 2", "fail 3", "down 5", "drain 0"} {
		p.call(line)
	}
	p.as("w1", "lease 1 3")
	p.as("w2", "done 1 3 1")
	item := call(t, "done 1 3 1")
	item.Key, item.Owner, item.Worker, item.Since = "held", "o", "w2", p.index
	p.item(item) // (its answer has a holder)
	p.keyed("k", "next")
	p.item(&Item{Action: Create, Book: "p1", Nodes: nodesOf(2, 1), Key: "c", Since: p.index})
	p.item(&Item{Action: ChangeRules, Rules: book.Rules() + 1, Form: 3, Key: "r", Owner: "o", Since: p.index})
	return p
}

// Each byte of a snapshot counts: changed, cut off or added, it is found, and nothing is taken.
func TestADamagedSnapshotIsFound(t *testing.T) {
	whole := full(t).snapshot()
	other := newPlayer(t)
	other.call("tick")
	before := other.snapshot()
	count := 0
	is := func(what string, text []byte, isDamaged bool) {
		t.Helper()
		count++
		if err := other.s.Verify(bytes.NewReader(text)); err == nil || errors.Is(err, engine.ErrDamaged) != isDamaged {
			t.Errorf("%s: it is verified: %v", what, err)
		}
		if count%5 != 0 { // (a restore opens the books that come before the fault)
			return
		}
		if err := other.s.Restore(bytes.NewReader(text)); err == nil || errors.Is(err, engine.ErrDamaged) != isDamaged {
			t.Errorf("%s: it is restored: %v", what, err)
		}
	}
	for place := range whole {
		for _, bit := range []byte{1, 4, 128} {
			text := append([]byte(nil), whole...)
			text[place] ^= bit
			isForm := place == len(magicMark) && bit != 128 // (then it is of another form)
			is(fmt.Sprintf("bit %d of byte %d", bit, place), text, !isForm)
		}
		is(fmt.Sprintf("the first %d bytes", place), whole[:place], true)
	}
	is("a byte more", append(append([]byte(nil), whole...), 0), true)
	is("twice", append(append([]byte(nil), whole...), whole...), true)
	if !bytes.Equal(other.snapshot(), before) {
		t.Error("something was taken")
	}
	if err := other.s.Verify(bytes.NewReader(whole)); err != nil {
		t.Error(err)
	}
}

// A writer that is at fault makes records with right checksums. Those that say nothing, or something else, are found, too.
func TestASnapshotWithWrongRecordsIsFound(t *testing.T) {
	p := full(t)
	write := func(records ...[]byte) []byte {
		b := bytes.NewBufferString(magic)
		for _, record := range records {
			if err := writeRecord(b, record); err != nil {
				t.Fatal(err)
			}
		}
		return b.Bytes()
	}
	head, zero, one := p.s.recordOfHead(), p.record("p0"), p.record("p1")
	end := func(count byte) []byte { return []byte{endRecord, count, 0, 0, 0} }
	for what, text := range map[string][]byte{
		"a short head":      append(write([]byte{headRecord, 0}), "more"...),
		"no books":          write(head, end(0)),
		"one book less":     write(head, zero, end(1)),
		"another count":     write(head, zero, one, end(1)),
		"another order":     write(head, one, zero, end(2)),
		"a book twice":      write(head, one, one, end(2)),
		"no end":            write(head, zero, one),
		"an end with more":  write(head, zero, one, append(end(2), 0)),
		"a head with more":  write(append(head[:len(head):len(head)], 0), zero, one, end(2)),
		"a book with more":  write(head, append(zero[:len(zero):len(zero)], 0), one, end(2)),
		"a book with less":  write(head, zero[:len(zero)-1], one, end(2)),
		"a head for a book": write(head, head, one, end(2)),
		"nothing":           {},
	} {
		if err := New().Restore(bytes.NewReader(text)); !errors.Is(err, engine.ErrDamaged) {
			t.Errorf("%s: %v", what, err)
		}
	}
	if err := New().Restore(bytes.NewReader(write(head, zero, one, end(2)))); err != nil {
		t.Error(err)
	}
}

func (p *player) record(book string) []byte {
	p.t.Helper()
	record, err := p.s.books[book].record()
	if err != nil {
		p.t.Fatal(err)
	}
	return record
}

// A snapshot of a program from before, or of a later one, is not taken for a damaged one: else it would be set aside.
func TestASnapshotOfAnotherFormIsRefusedByName(t *testing.T) {
	for _, form := range []string{"1", "3"} {
		err := New().Restore(strings.NewReader("lrcmand books " + form + "\nrest"))
		want := "the snapshot has form " + form + ", and this program reads form 2"
		if err == nil || errors.Is(err, engine.ErrDamaged) || !strings.Contains(err.Error(), want) {
			t.Error(err)
		}
	}
}

// At most so many snapshots are written at once: the one that was begun first, and is perhaps written by nobody, is given up.
func TestSnapshotsThatNobodyWritesTakeNoRoom(t *testing.T) {
	p := newPlayer(t)
	oldest := p.s.Freeze()
	var writes []func() error
	for i := 0; i < mostFreezes; i++ {
		write := p.s.Freeze()
		writes = append(writes, func() error { return write(&bytes.Buffer{}) })
	}
	if err := oldest(&bytes.Buffer{}); !errors.Is(err, errReplaced) {
		t.Error(err)
	}
	for _, write := range writes {
		if err := write(); err != nil {
			t.Error(err)
		}
	}
	if len(p.s.freezes) != 0 {
		t.Error("they are kept")
	}
}

// Holders are written in their order, and not in that of a map.
func TestHoldersAreWrittenInOrder(t *testing.T) {
	p := newPlayer(t)
	for _, line := range []string{"place 1", "place 2", "place 3", "fail 3", "fail 7", "fail 11"} {
		p.call(line)
	}
	for i := 0; i < 9; i++ {
		p.as(fmt.Sprint("w", i), "next")
	}
	snapshot := p.snapshot()
	if count := len(p.restored(snapshot).s.books["p0"].holders); count < 3 {
		t.Errorf("%d holders", count)
	}
	for i := 0; i < 5; i++ {
		if !bytes.Equal(p.restored(snapshot).snapshot(), snapshot) {
			t.Fatal("they are written otherwise")
		}
	}
}

// A snapshot that is being written when a member begins in another one does not mix the two.
func TestASnapshotIsGivenUpWhereAnotherTakesItsPlace(t *testing.T) {
	p := full(t)
	write, snapshot := p.s.Freeze(), p.snapshot()
	if err := p.s.Restore(bytes.NewReader(snapshot)); err != nil {
		t.Fatal(err)
	}
	if err := write(&bytes.Buffer{}); !errors.Is(err, errReplaced) {
		t.Error(err)
	}
}

// What is read of a record is written as the same record, or it is not read.
// A new group that goes on with the books of one that is lost may lack entries that this one told. Where a client saw a book then,
// no book of the new group stands.
func TestPlacesOfANewGroupAreNoneOfThoseBefore(t *testing.T) {
	p := newPlayer(t)
	p.item(&Item{Action: Create, Book: "p1", Nodes: twenty})
	p.keyed("k", "tick")
	lost := p.restored(p.snapshot())
	lost.call("place 3")
	seen := Position{2, opening(1)}
	q := p.restored(p.snapshot())
	q.index = 1 << 33
	q.s.BeginAgain(q.index)
	q = q.restored(q.snapshot())
	if answer := q.keyed("k", "tick"); !answer.IsAgain || answer.Made != 1 {
		t.Errorf("%+v", answer)
	}
	q.expect(q.call("tick"), 2, "ticked 2 0")
	item := call(t, "tick")
	item.At = &seen
	q.rejected(q.item(item), Moved, "the book stands at 2")
	opens := map[uint64]bool{}
	for _, name := range q.s.Names() {
		err := q.s.Look(name, func(view *View) error {
			opens[view.Position.Opens] = true
			return nil
		})
		if err != nil {
			t.Error(err)
		}
	}
	if len(opens) != 2 || !opens[opening(1<<33)] {
		t.Errorf("the openings are %v", opens)
	}
	item.At = &Position{2, opening(1 << 33)}
	q.expect(q.item(item), 3, "ticked 3 0")
}

func FuzzRecord(f *testing.F) {
	p := &player{s: New(), t: &testing.T{}}
	p.item(&Item{Action: Create, Book: "p0", Nodes: nodesOf(2, 1), Key: "c"})
	for _, key := range []string{"a", "b"} {
		p.item(&Item{Action: Call, Book: "p0", Key: key, Owner: "o", Worker: "w", Since: 1, Session: 1, Command: drawnCommand("tick")})
	}
	p.s.books["p0"].holders[book.FragmentID{Stripe: 1, Number: 2}] = holding{"w", 3}
	p.s.books["p0"].holders[book.FragmentID{Stripe: 1, Number: 3}] = holding{"v", 3}
	record, err := p.s.books["p0"].record()
	if err != nil {
		f.Fatal(err)
	}
	f.Add(record)
	f.Add(p.s.recordOfHead())
	f.Fuzz(func(t *testing.T, record []byte) {
		if len(record) == 0 {
			return
		}
		r := &reader{rest: record[1:]}
		switch record[0] {
		case bookRecord:
			e, image := r.book(MostKeys)
			if r.end() == nil && !bytes.Equal(e.recordWith(image), record) {
				t.Errorf("%q is written otherwise", record)
			}
		case headRecord:
			s := New()
			var read content
			count := s.takeHead(r, &read)
			s.index, s.group, s.keys = read.index, read.group, read.keys
			if r.end() == nil && !bytes.Equal(s.recordOfHeadWith(count), record) {
				t.Errorf("%q is written otherwise", record)
			}
		}
	})
}

// A key that is kept has the same answer after a restart, also one that names the holder of a lease.
func TestAnswersOfKeysAreWritten(t *testing.T) {
	p := full(t)
	q := p.restored(p.snapshot())
	for key, want := range p.s.books["p0"].keys.places {
		one, other := p.s.books["p0"].keys.rows[want], q.s.books["p0"].keys.rows[q.s.books["p0"].keys.places[key]]
		if !reflect.DeepEqual(one, other) {
			t.Errorf("%+v and %+v", one, other)
		}
	}
	if held := q.s.books["p0"].keys.rows[0].told; held.holder != "w1" || held.made != 0 || held.reply.Refusal != book.NotHolder {
		t.Errorf("%+v", held)
	}
}
