package state

import (
	"crypto/sha256"
	"errors"
	"fmt"
	"hash/crc32"
	"io"
	"sort"

	"lrcman/service/book"
	"lrcman/service/internal/engine"
)

// A snapshot is this line and then records: a head, the books by name, and an end. Each record is its length, its checksum and
// its fields, of which the first is its kind.
const (
	magicMark = "lrcmand books "
	magic     = magicMark + "2\n"
)

const (
	headRecord = 1
	bookRecord = 2
	endRecord  = 3
)

// A book's record has its nodes, its image and its keys; this is far more than they take.
const mostRecord = 1 << 28

var table = crc32.MakeTable(crc32.Castagnoli)

func checksum(texts ...[]byte) (sum [32]byte) {
	hash := sha256.New()
	for _, text := range texts {
		hash.Write(little.AppendUint32(nil, uint32(len(text))))
		hash.Write(text)
	}
	copy(sum[:], hash.Sum(nil))
	return sum
}

func clone(text []byte) []byte { return append([]byte(nil), text...) }

func writeRecord(w io.Writer, record []byte) error {
	if len(record) > mostRecord {
		return fmt.Errorf("a record has %d bytes, and may have %d", len(record), mostRecord)
	}
	start := little.AppendUint32(nil, uint32(len(record)))
	if _, err := w.Write(little.AppendUint32(start, crc32.Checksum(record, table))); err != nil {
		return err
	}
	_, err := w.Write(record)
	return err
}

func damaged(why error) error { return fmt.Errorf("%w: %v", engine.ErrDamaged, why) }

// readRecord reads a record of a kind.
func readRecord(from io.Reader, kind uint8) (*reader, error) {
	var start [8]byte
	if _, err := io.ReadFull(from, start[:]); err != nil {
		return nil, damaged(err)
	}
	length := little.Uint32(start[:4])
	if length > mostRecord {
		return nil, damaged(errors.New("a record is too long"))
	}
	record, err := io.ReadAll(io.LimitReader(from, int64(length))) // (which takes memory for what is there)
	if err != nil {
		return nil, damaged(err)
	}
	r := &reader{rest: record}
	if uint32(len(record)) != length || crc32.Checksum(record, table) != little.Uint32(start[4:]) || r.u8() != kind {
		return nil, damaged(errors.New("a record is not as it was written"))
	}
	return r, nil
}

// recordOfHead is the state without its books.
func (s *State) recordOfHead() []byte { return s.recordOfHeadWith(uint32(len(s.books))) }

func (s *State) recordOfHeadWith(count uint32) []byte {
	b := little.AppendUint64([]byte{headRecord}, s.index)
	b = appendVersion(appendVersion(b, s.group.now), s.group.next)
	b = little.AppendUint64(b, s.group.asked)
	b = little.AppendUint32(b, count)
	return appendKeys(b, &s.keys, appendAskedChange)
}

// record is a book as a snapshot has it. Its lock is held.
func (e *bookEntry) record() ([]byte, error) {
	if e.book == nil {
		return nil, errReplaced
	} else if e.isBroken {
		return nil, errors.New("it is not whole, since this member ends")
	}
	image, err := e.book.Image()
	if err != nil {
		return nil, err
	}
	return e.recordWith(image), nil
}

func (e *bookEntry) recordWith(image []byte) []byte {
	b := appendText([]byte{bookRecord}, e.name)
	b = appendText(b, e.nodes)
	b = append(b, e.origin[:]...)
	b = appendStamp(little.AppendUint64(b, e.opens), e.seen)
	b = appendText(little.AppendUint32(b, e.rules), image)
	b = appendKeys(b, &e.keys, appendAskedCall)
	return e.appendHolders(b)
}

func isBefore(a, b book.FragmentID) bool {
	return a.Stripe < b.Stripe || a.Stripe == b.Stripe && a.Number < b.Number
}

func (e *bookEntry) appendHolders(b []byte) []byte {
	all := make([]book.FragmentID, 0, len(e.holders))
	for key := range e.holders {
		all = append(all, key)
	}
	sort.Slice(all, func(i, j int) bool { return isBefore(all[i], all[j]) })
	b = little.AppendUint32(b, uint32(len(all)))
	for _, key := range all {
		b = append(little.AppendUint16(b, key.Stripe), key.Number)
		b = appendText(little.AppendUint32(b, e.holders[key].epoch), e.holders[key].worker)
	}
	return b
}

func (r *reader) holders() map[book.FragmentID]holding {
	all := map[book.FragmentID]holding{}
	var before book.FragmentID
	for i, count := uint32(0), r.u32(); i < count && !r.isBad; i++ {
		key := book.FragmentID{Stripe: r.u16(), Number: r.u8()}
		all[key] = holding{epoch: r.u32(), worker: r.text()}
		r.isBad = r.isBad || i > 0 && !isBefore(before, key)
		before = key
	}
	return all
}

// book takes a book that is not open yet, and its image.
func (r *reader) book(mostKeys int) (*bookEntry, []byte) {
	e := newBookEntry(r.text(), nil)
	e.nodes = clone(r.bytes()) // (not with the image and the keys behind it)
	e.origin = r.sum()
	e.opens, e.seen, e.rules = r.u64(), r.stamp(), r.u32()
	image := r.bytes()
	e.keys = readKeys(r, mostKeys, (*reader).askedCall)
	e.holders = r.holders()
	return e, image
}

func (e *bookEntry) open(image []byte) (err error) {
	e.book, err = book.OpenImage(e.nodes, image)
	return err
}
