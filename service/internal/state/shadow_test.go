package state

import (
	"fmt"
	"sync"
	"sync/atomic"
	"testing"
	"time"

	"lrcman/service/book"
)

// tableOf is a table as a long look finds it, which has to be that of the book itself.
func (p *player) tableOf(view string) string {
	p.t.Helper()
	var direct *book.Table
	err := p.s.Look("p0", func(v *View) (err error) {
		direct, err = v.Table(view)
		return err
	})
	if err != nil {
		p.t.Fatal(err)
	}
	found, at, err := p.s.Table("p0", view)
	if err != nil || string(found.CSV()) != string(direct.CSV()) {
		p.t.Errorf("%s: %s, and not %s; %v", view, found.CSV(), direct.CSV(), err)
	}
	p.s.Look("p0", func(v *View) error {
		if v.Position != at {
			p.t.Errorf("%s is of %v, and the book stands at %v", view, at, v.Position)
		}
		return nil
	})
	return string(found.CSV())
}

func (p *player) ticks(count int) {
	items := make([]*Item, count)
	for i := range items {
		items[i] = call(p.t, "tick")
	}
	p.items(items...)
}

func (p *player) shadow() *shadow { return &p.s.find("p0").shadow }

// A copy follows its book, entry by entry; where there are too many, or the book was opened again, it begins again.
func TestALongLookSeesTheBookAsItIs(t *testing.T) {
	p := newPlayer(t)
	for _, line := range []string{"place 1", "fail 3", "next", "place6 2", "drain 5", "tick", "down 7", "done 1 3 1"} {
		p.call(line)
		for _, view := range book.Views {
			p.tableOf(view)
		}
	}
	first := p.shadow().book
	for i := 0; i < 8*mostBehind; i += mostBehind {
		p.ticks(mostBehind)
		p.tableOf("stripes")
	}
	if p.shadow().book != first || first.Made() != 8+8*mostBehind || first.Before() != first.Made() {
		t.Errorf("the copy did not follow: %d entries, of which it forgot %d", first.Made(), first.Before())
	}
	p.ticks(mostBehind + 1)
	p.tableOf("fragments")
	if p.shadow().book == first {
		t.Error("the copy made more entries than it may")
	}
	p.item(&Item{Action: Reopen, Book: "p0", Nodes: nodesOf(24, 5)})
	p.tableOf("fragments")
	p.call("place 9")
	p.tableOf("stripes")
	q := p.restored(p.snapshot())
	q.tableOf("stripes")
}

func TestACopyBeginsAgainWhereEntriesAreForgotten(t *testing.T) {
	p := newPlayer(t)
	p.call("place 1")
	p.tableOf("stripes")
	p.call("fail 3")
	if err := p.s.find("p0").book.Forget(); err != nil {
		t.Fatal(err)
	}
	p.tableOf("stripes")
}

// A book that is removed is not looked at any more, also where another one has its name.
func TestALongLookSeesNoBookThatIsGone(t *testing.T) {
	p := newPlayer(t)
	p.call("place 1")
	p.tableOf("stripes")
	gone := p.s.find("p0")
	p.item(&Item{Action: Remove, Book: "p0", At: &Position{1, opening(1)}})
	if _, _, err := p.s.Table("p0", "stripes"); err != ErrNoBook {
		t.Error(err)
	}
	p.item(&Item{Action: Create, Book: "p0", Nodes: twenty})
	p.tableOf("stripes")
	if gone.shadow.book != nil {
		t.Error("the copy of a book that is gone is kept")
	}
}

// Calls of the book go on while it is looked at.
func TestCallsGoOnBesideALongLook(t *testing.T) {
	p := newPlayer(t)
	err := p.s.LookLong("p0", func(b *book.Book, at Position) error {
		p.expect(p.call("place 1"), 1, "placed 0:0 1:0 2:0 3:0 4:0 5:0 6:0 7:0 8:0 9:0 10:0 11:0 16:0 12:0 13:0 14:0")
		if at.Made != 0 || b.Made() != 0 {
			t.Errorf("what is seen has %d and %d entries", at.Made, b.Made())
		}
		return nil
	})
	if err != nil {
		t.Error(err)
	}
	p.tableOf("stripes")
}

// Those that may take very long have a copy of their own: no look waits for another one.
func TestSlowTablesAndLongLooksDoNotWaitForEachOther(t *testing.T) {
	p := newPlayer(t)
	p.call("place 1")
	for _, view := range []string{"domains-fault", "health", "capacity"} {
		err := p.s.LookLong("p0", func(*book.Book, Position) error {
			done := make(chan error, 1)
			go func() {
				_, _, err := p.s.Table("p0", view)
				done <- err
			}()
			select {
			case err := <-done:
				return err
			case <-time.After(time.Minute):
				return fmt.Errorf("%s waits", view)
			}
		})
		if err != nil {
			t.Error(err)
		}
	}
}

// One that is not what its book was refuses an entry, and can't be used any more: the next look begins with another one.
func TestACopyThatCantFollowIsDropped(t *testing.T) {
	p := newPlayer(t)
	p.call("place 1")
	p.tableOf("stripes")
	if _, err := p.shadow().book.Call(1, book.Command{Kind: book.Place, Stripe: 7}); err != nil {
		t.Fatal(err)
	}
	p.call("tick")
	p.call("place 7")
	if _, _, err := p.s.Table("p0", "stripes"); err == nil || p.shadow().book != nil {
		t.Errorf("it is kept, or made no fault: %v", err)
	}
	p.tableOf("stripes")
}

// A copy is one book, which two looks may not use at once.
func TestLongLooksAtABookAreTakenInTurn(t *testing.T) {
	p := newPlayer(t)
	var now, most int32
	var all sync.WaitGroup
	for i := 0; i < 8; i++ {
		all.Add(1)
		go func() {
			defer all.Done()
			for turn := 0; turn < 5; turn++ {
				err := p.s.LookLong("p0", func(*book.Book, Position) error {
					if count := atomic.AddInt32(&now, 1); count > 1 {
						atomic.StoreInt32(&most, count)
					}
					time.Sleep(time.Millisecond)
					atomic.AddInt32(&now, -1)
					return nil
				})
				if err != nil {
					t.Error(err)
				}
			}
		}()
	}
	all.Wait()
	if most > 0 {
		t.Errorf("%d looks at once", most)
	}
}

func TestFewBooksHaveACopy(t *testing.T) {
	p := newFullPlayer(t)
	for turn := 0; turn < 2; turn++ {
		for i := 0; i < 10; i++ {
			if _, _, err := p.s.Table(fmt.Sprintf("p%d", i), "stripes"); err != nil {
				t.Fatal(err)
			}
		}
	}
	count := 0
	for i := 0; i < 10; i++ {
		if has := p.s.find(fmt.Sprintf("p%d", i)).shadow.book != nil; has {
			count++
		} else if i > 10-mostShadows {
			t.Errorf("book %d was looked at last, and has no copy", i)
		}
	}
	if count != mostShadows || len(p.s.shadows.all) != mostShadows {
		t.Errorf("%d books have a copy, and %d are known", count, len(p.s.shadows.all))
	}
}
