package state

import (
	"sync"

	"lrcman/service/book"
)

// A shadow is a copy of a book, for looks that take long. It makes the entries that the book made since the look before: so the book is
// held while these are read, and not while its image is made.
type shadow struct {
	mu    sync.Mutex // held while it is looked at
	book  *book.Book // nil: there is none
	opens uint64
}

// mostBehind is how many entries a shadow makes to catch up. Where there are more, it begins again in an image.
const mostBehind = 512

// mostShadows is how many books have one: those that were looked at last.
const mostShadows = 4

// shadows are the books that have a shadow, the one that was looked at last at the end.
type shadows struct {
	mu  sync.Mutex
	all []*bookEntry
}

// LookLong calls a function with a copy of a book, as it stands now. The function may take its time: calls go on, and only other looks
// of this kind at the book wait. It may not change the copy.
func (s *State) LookLong(name string, look func(*book.Book, Position) error) error {
	for {
		e, err := s.toLook(name)
		if err != nil {
			return err
		}
		err, isDone := e.lookAtShadow(look)
		s.shadows.keep(e, func(e *bookEntry) bool { return s.find(e.name) == e })
		if isDone {
			return err
		}
	}
}

func (e *bookEntry) lookAtShadow(look func(*book.Book, Position) error) (err error, isDone bool) {
	e.shadow.mu.Lock()
	defer e.shadow.mu.Unlock()
	var at Position
	var follow func() error
	err, isDone = e.look(func(v *View) (err error) {
		at = v.Position
		follow, err = e.shadow.behind(v)
		return err
	})
	if err == nil && isDone {
		err = follow()
	}
	if err != nil || !isDone {
		e.shadow.drop()
		return err, isDone
	}
	return look(e.shadow.book, at), true
}

// behind takes from a book what its shadow lacks, and returns what brings the shadow up to date.
func (d *shadow) behind(v *View) (func() error, error) {
	if d.book != nil && d.opens == v.Position.Opens && v.Position.Made-d.book.Made() <= mostBehind {
		entries := make([]book.Entry, v.Position.Made-d.book.Made())
		if len(entries) == 0 {
			return func() error { return nil }, nil
		}
		if _, err := v.Book.Entries(d.book.Made(), entries); err == nil {
			return func() error { return d.follow(entries) }, nil
		} else if !book.IsForgotten(err) {
			return nil, err
		}
	}
	copied, err := v.Copied(v.Nodes)
	return func() (err error) {
		d.drop()
		d.opens = v.Position.Opens
		d.book, err = copied()
		return err
	}, err
}

// follow makes entries, and forgets them: the tables have no use for a history.
func (d *shadow) follow(entries []book.Entry) error {
	if err := d.book.Replay(entries); err != nil {
		return err
	}
	if d.book.Made()-d.book.Before() < 8*mostBehind {
		return nil
	}
	return d.book.Forget()
}

// drop frees it. Its lock is held.
func (d *shadow) drop() {
	if d.book != nil {
		d.book.Close()
		d.book = nil
	}
}

// keep notes that a book was looked at, and frees the shadows of books that are gone, and of the one that was not looked at for longest.
// One that is being looked at stays until the next time.
func (s *shadows) keep(e *bookEntry, isThere func(*bookEntry) bool) {
	s.mu.Lock()
	defer s.mu.Unlock()
	kept := []*bookEntry{}
	for _, other := range s.all {
		if other != e {
			kept = append(kept, other)
		}
	}
	s.all = append(kept, e)
	kept = nil
	for i, other := range s.all {
		isOld := i < len(s.all)-mostShadows
		if (isOld || !isThere(other)) && other.shadow.mu.TryLock() {
			other.shadow.drop()
			other.shadow.mu.Unlock()
			continue
		}
		kept = append(kept, other)
	}
	s.all = kept
}

// Table is a table of a book, and where the book stands. Calls wait no longer for it than for an image of the book.
func (s *State) Table(name, view string) (table *book.Table, at Position, err error) {
	if book.TakesLong(view) {
		err = s.LookLong(name, func(b *book.Book, now Position) (err error) {
			at = now
			table, err = b.Table(view)
			return err
		})
		return table, at, err
	}
	var snapshot book.TableSnapshot
	err = s.Look(name, func(v *View) (err error) {
		at = v.Position
		snapshot, err = v.Show(view)
		return err
	})
	if err == nil {
		table, err = snapshot()
	}
	return table, at, err
}
