package state

import (
	"errors"
	"fmt"
	"sort"

	"lrcman/service/book"
)

var (
	// ErrNoBook says that a look names no book.
	ErrNoBook = errors.New("there is no such book")
	// ErrDiffers says that the book of this member is not that of the others.
	ErrDiffers = errors.New("the book of this member is not that of the others")
)

// A Forgotten says that entries are no longer in memory: First is the first place from which they are.
type Forgotten struct{ First uint64 }

// Error names the first place.
func (f *Forgotten) Error() string {
	return fmt.Sprintf("the entries up to number %d are forgotten", f.First)
}

// A View is what a look sees: the book, which nobody else uses meanwhile, and where it stands.
type View struct {
	*book.Book
	Position  Position
	Nodes     []byte
	bookEntry *bookEntry
}

// Show takes what a table of the book is made of.
func (v *View) Show(name string) (book.TableSnapshot, error) { return v.Book.Show(name, v.Nodes) }

// Health takes what the table of health is made of, as rows; the copy of the book in which it is looked up is opened later, beside
// calls.
func (v *View) Health() (func() ([]book.Reason, error), error) {
	copied, err := v.Copied(v.Nodes)
	return func() ([]book.Reason, error) {
		c, err := copied()
		if err != nil {
			return nil, err
		}
		defer c.Close()
		return c.Health()
	}, err
}

// Entries returns entries behind a place, at most so many, and fewer at the seam of those that the book has; none only if there
// are none. The error is a Forgotten if the first of them is not in memory.
func (v *View) Entries(place uint64, most int) ([]book.Entry, error) {
	before, tail := v.Before(), v.bookEntry.tail
	first := before - uint64(len(tail))
	if place < first {
		return nil, &Forgotten{first}
	}
	if place < before {
		rows := tail[place-first:]
		if len(rows) > most {
			rows = rows[:most]
		}
		return append([]book.Entry(nil), rows...), nil
	}
	rows := make([]book.Entry, most)
	count, err := v.Book.Entries(place, rows)
	return rows[:count], err
}

// Grown is closed at the next entry of the book, or when a snapshot takes its place.
func (v *View) Grown() <-chan struct{} { return v.bookEntry.grown }

// Removed is closed when the book is removed. One that is made under its name later is another one.
func (v *View) Removed() <-chan struct{} { return v.bookEntry.removed }

// A Holder is a worker who was granted a lease by name.
type Holder struct {
	Stripe   uint16 `json:"stripe"`
	Fragment uint8  `json:"fragment"`
	Epoch    uint32 `json:"epoch"`
	Worker   string `json:"worker"`
}

// Holders are the workers who hold live leases, by stripe and fragment.
func (v *View) Holders() ([]Holder, error) {
	rows, err := v.LeaseRows()
	holders := []Holder{}
	for _, row := range rows {
		if held := v.bookEntry.holders[book.FragmentID{Stripe: row.Stripe, Number: row.Fragment}]; held.epoch == row.Epoch {
			holders = append(holders, Holder{row.Stripe, row.Fragment, row.Epoch, held.worker})
		}
	}
	return holders, err
}

// Look calls a function with a book. The function may not look at another one: an entry may wait for both.
func (s *State) Look(name string, look func(*View) error) error {
	for {
		e, err := s.toLook(name)
		if err != nil {
			return err
		}
		if err, isDone := e.look(look); isDone {
			return err
		}
		// (it was removed, or a restore has put another in its place meanwhile)
	}
}

func (s *State) toLook(name string) (*bookEntry, error) {
	s.mu.RLock()
	defer s.mu.RUnlock()
	e := s.books[name]
	if e == nil {
		return nil, ErrNoBook
	} else if s.digests[name].differs() {
		return nil, ErrDiffers
	}
	return e, nil
}

func (e *bookEntry) look(look func(*View) error) (err error, isDone bool) {
	e.gate.Lock()
	defer e.gate.Unlock()
	e.turn <- struct{}{}
	defer func() { <-e.turn }()
	e.mu.Lock()
	defer e.mu.Unlock()
	if e.book == nil {
		return nil, false
	}
	return look(&View{e.book, e.position(), e.nodes, e}), true
}

// Names are the books, in order.
func (s *State) Names() []string {
	s.mu.RLock()
	defer s.mu.RUnlock()
	names := make([]string, 0, len(s.books))
	for name := range s.books {
		names = append(names, name)
	}
	sort.Strings(names)
	return names
}
