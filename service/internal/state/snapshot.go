package state

import (
	"bufio"
	"errors"
	"fmt"
	"io"
	"strings"
)

// A content is what a snapshot has.
type content struct {
	index uint64
	group group
	keys  keys[askedChange]
	books map[string]*bookEntry
}

// Restore begins in a snapshot. The state is as it was if it fails.
func (s *State) Restore(from io.Reader) error {
	read, err := s.read(from, (*bookEntry).open)
	if err != nil {
		for _, e := range read.books {
			e.book.Close()
		}
		return err
	}
	s.mu.Lock()
	old := s.books
	s.index, s.group, s.keys, s.books, s.digests = read.index, read.group, read.keys, read.books, map[string]*digest{}
	s.mu.Unlock()
	for _, e := range old { // a look may still be under way in one of them
		e.mu.Lock()
		e.close()
		e.mu.Unlock()
	}
	return nil
}

// BeginAgain opens each book again, at an index that no item has had: what a client saw in the old group, and is lost, is then
// never where a book stands. It is called between two entries.
func (s *State) BeginAgain(index uint64) {
	s.begin(index)
	for i, name := range s.Names() { // (no more than an entry may have items)
		e, at := s.find(name), Stamp{index, uint32(i)}
		e.mu.Lock()
		e.opens, e.seen = at.Number(), at
		e.mu.Unlock()
	}
}

// Verify reads a snapshot to its end, and changes nothing. The error wraps engine.ErrDamaged if it is not as it was written.
func (s *State) Verify(from io.Reader) error {
	_, err := s.read(from, func(*bookEntry, []byte) error { return nil })
	return err
}

// read reads a snapshot, and opens its books with a function. After an error the content has the books that were opened.
func (s *State) read(from io.Reader, open func(e *bookEntry, image []byte) error) (content, error) {
	r, read := bufio.NewReaderSize(from, 1<<18), content{books: map[string]*bookEntry{}}
	count, err := s.readHead(r, &read)
	if err != nil {
		return read, err
	}
	for i, before := uint32(0), ""; i < count; i++ {
		record, err := readRecord(r, bookRecord)
		if err != nil {
			return read, err
		}
		e, image := record.book(s.knobs.Keys)
		if record.end() != nil || e.name <= before {
			return read, damaged(errUnreadable)
		}
		if err := s.takeBook(&read, e, image, open); err != nil {
			return read, err
		}
		before = e.name
	}
	return read, readEnd(r, count)
}

func (s *State) takeBook(read *content, e *bookEntry, image []byte, open func(*bookEntry, []byte) error) error {
	if e.rules != read.group.now.rules && e.rules != s.ours.rules {
		return otherRules("book "+e.name, version{e.rules, s.ours.form}, s.ours)
	}
	if err := open(e, image); err != nil {
		return fmt.Errorf("book %s: %w", e.name, err)
	}
	read.books[e.name] = e
	return nil
}

// readHead reads what stands before the books, and returns their number.
func (s *State) readHead(r *bufio.Reader, read *content) (uint32, error) {
	mark := make([]byte, len(magic))
	if _, err := io.ReadFull(r, mark); err != nil {
		return 0, damaged(err)
	}
	if err := checkMagic(string(mark)); err != nil {
		return 0, err
	}
	h, err := readRecord(r, headRecord)
	if err != nil {
		return 0, err
	}
	count := s.takeHead(h, read)
	if h.end() != nil || count > uint32(s.knobs.Books) {
		return 0, damaged(errUnreadable)
	}
	return count, read.group.begins(s.ours)
}

func (s *State) takeHead(h *reader, read *content) (count uint32) {
	read.index = h.u64()
	read.group = group{now: h.version(), next: h.version(), asked: h.u64()}
	count = h.u32()
	read.keys = readKeys(h, s.knobs.Keys, (*reader).askedChange)
	return count
}

// checkMagic tells a snapshot of another form from one that is damaged.
func checkMagic(mark string) error {
	form := strings.TrimPrefix(mark, magicMark)
	switch {
	case mark == magic:
		return nil
	case len(form) == 2 && form[0] >= '1' && form[0] <= '9' && form[1] == '\n':
		return fmt.Errorf("the snapshot has form %c, and this program reads form 2: nothing of it was taken", form[0])
	}
	return damaged(fmt.Errorf("it begins with %q and not with %q", mark, magic))
}

// readEnd reads what stands behind the books.
func readEnd(r *bufio.Reader, count uint32) error {
	last, err := readRecord(r, endRecord)
	if err != nil {
		return err
	}
	if last.u32() != count || last.end() != nil {
		return damaged(errUnreadable)
	}
	if _, err := r.ReadByte(); err != io.EOF {
		return damaged(errors.New("it goes on behind its end"))
	}
	return nil
}
