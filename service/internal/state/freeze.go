package state

import (
	"bufio"
	"errors"
	"fmt"
	"io"
	"sort"
	"sync"
)

// A freeze is a snapshot that is being written: the state without books as it was when the snapshot was begun, and each book as
// it is later, when its image is taken, but before it is opened again or removed.
type freeze struct {
	head  []byte
	books []*bookEntry // by name

	mu    sync.Mutex
	left  map[*bookEntry]bool // those of which no record was taken yet
	early map[*bookEntry]early
}

// An early is a record that was taken before a change of its book.
type early struct {
	record []byte
	err    error
}

// mostFreezes are written at once. One more ends the oldest: it may be one that nobody writes any more.
const mostFreezes = 4

// Freeze returns a function that writes the books of now, beside later calls. It holds up a book only while it takes the image
// of that one. So a book may be newer than the index of its snapshot: it has a stamp of its own, and Apply passes over the items
// that it has.
func (s *State) Freeze() func(io.Writer) error {
	s.mu.Lock()
	defer s.mu.Unlock()
	f := &freeze{left: map[*bookEntry]bool{}, early: map[*bookEntry]early{}}
	for _, e := range s.books {
		f.books = append(f.books, e)
		f.left[e] = true
	}
	sort.Slice(f.books, func(i, j int) bool { return f.books[i].name < f.books[j].name })
	f.head = s.recordOfHead()
	if len(s.freezes) == mostFreezes {
		s.freezes[0].giveUp()
		s.freezes = s.freezes[1:]
	}
	s.freezes = append(s.freezes[:len(s.freezes):len(s.freezes)], f)
	return func(to io.Writer) error {
		defer s.thaw(f)
		return f.write(to)
	}
}

func (s *State) thaw(f *freeze) {
	s.mu.Lock()
	defer s.mu.Unlock()
	var others []*freeze
	for _, it := range s.freezes {
		if it != f {
			others = append(others, it)
		}
	}
	s.freezes = others
}

// recordFirst takes the records of a book that is about to be changed. The lock of the book is held.
func (s *State) recordFirst(e *bookEntry) {
	s.mu.RLock()
	freezes := s.freezes
	s.mu.RUnlock()
	for _, f := range freezes {
		f.recordFirst(e)
	}
}

func (f *freeze) recordFirst(e *bookEntry) {
	f.mu.Lock()
	defer f.mu.Unlock()
	if f.left[e] {
		delete(f.left, e)
		record, err := e.record()
		f.early[e] = early{record, err}
	}
}

var errReplaced = errors.New("another snapshot took its place")

// giveUp ends a snapshot that is still to be written.
func (f *freeze) giveUp() {
	f.mu.Lock()
	defer f.mu.Unlock()
	for e := range f.left {
		f.early[e] = early{nil, errReplaced}
	}
	f.left = map[*bookEntry]bool{}
}

// record is the record of a book, of now or from before it was changed.
func (f *freeze) record(e *bookEntry) ([]byte, error) {
	e.mu.Lock()
	defer e.mu.Unlock()
	f.mu.Lock()
	defer f.mu.Unlock()
	if it, isThere := f.early[e]; isThere {
		delete(f.early, e)
		return it.record, it.err
	}
	delete(f.left, e)
	return e.record()
}

func (f *freeze) write(to io.Writer) error {
	w := bufio.NewWriterSize(to, 1<<18)
	if _, err := w.WriteString(magic); err != nil {
		return err
	}
	if err := writeRecord(w, f.head); err != nil {
		return err
	}
	for _, e := range f.books {
		record, err := f.record(e)
		if err != nil {
			return fmt.Errorf("book %s: %w", e.name, err)
		}
		if err := writeRecord(w, record); err != nil {
			return fmt.Errorf("book %s: %w", e.name, err)
		}
	}
	if err := writeRecord(w, little.AppendUint32([]byte{endRecord}, uint32(len(f.books)))); err != nil {
		return err
	}
	return w.Flush()
}
