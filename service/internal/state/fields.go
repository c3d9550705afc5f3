package state

import (
	"encoding/binary"
	"errors"

	"lrcman/service/book"
)

// Entries and snapshots are made of fields: numbers of fixed width, little endian, and texts behind their length. So each value
// has one form, and a reader takes no other.

var little = binary.LittleEndian

// errUnreadable says that bytes are not made of the fields that should stand there.
var errUnreadable = errors.New("it can't be taken apart")

func appendText[T string | []byte](b []byte, text T) []byte {
	return append(little.AppendUint32(b, uint32(len(text))), text...)
}

func appendStamp(b []byte, at Stamp) []byte {
	return little.AppendUint32(little.AppendUint64(b, at.Index), at.Position)
}

func appendBool(b []byte, is bool) []byte {
	if is {
		return append(b, 1)
	}
	return append(b, 0)
}

// appendPosition appends where a book has to stand, if anywhere.
func appendPosition(b []byte, at *Position) []byte {
	if at == nil {
		return append(b, 0)
	}
	return little.AppendUint64(little.AppendUint64(append(b, 1), at.Made), at.Opens)
}

func appendVersion(b []byte, v version) []byte {
	return little.AppendUint32(little.AppendUint32(b, v.rules), v.form)
}

func appendCommand(b []byte, c book.Command) []byte {
	b = append(b, byte(c.Kind), c.Fragment, c.Domain)
	b = little.AppendUint32(b, c.Epoch)
	b = little.AppendUint16(b, c.Stripe)
	return little.AppendUint16(b, c.Node)
}

func appendSeat(b []byte, seat book.Seat) []byte {
	return little.AppendUint16(little.AppendUint16(b, seat.Node), seat.Slot)
}

func appendReply(b []byte, r *book.Reply) []byte {
	b = append(b, byte(r.Kind), r.Refusal, byte(r.Repair))
	b = append(b, r.Sources[:]...)
	for _, number := range []uint32{r.Detail, r.Clock, r.Ended} {
		b = little.AppendUint32(b, number)
	}
	b = little.AppendUint16(b, r.Lease.Stripe)
	b = append(b, r.Lease.Fragment, r.Lease.Holder)
	b = appendSeat(b, r.Lease.Target)
	b = little.AppendUint32(little.AppendUint32(b, r.Lease.Epoch), r.Lease.Expiry)
	for _, seat := range r.Seats {
		b = appendSeat(b, seat)
	}
	return b
}

// A reader takes fields from the beginning of bytes. After the first fault all that it returns is empty.
type reader struct {
	rest  []byte
	isBad bool
}

var zeros [8]byte

func (r *reader) take(n uint64) []byte {
	if r.isBad || n > uint64(len(r.rest)) {
		r.isBad = true
		return nil
	}
	taken := r.rest[:n:n]
	r.rest = r.rest[n:]
	return taken
}

// number takes the bytes of a number, which are zeros after a fault.
func (r *reader) number(width uint64) []byte {
	if taken := r.take(width); taken != nil {
		return taken
	}
	return zeros[:width]
}

func (r *reader) u8() uint8     { return r.number(1)[0] }
func (r *reader) u16() uint16   { return little.Uint16(r.number(2)) }
func (r *reader) u32() uint32   { return little.Uint32(r.number(4)) }
func (r *reader) u64() uint64   { return little.Uint64(r.number(8)) }
func (r *reader) bytes() []byte { return r.take(uint64(r.u32())) }
func (r *reader) text() string  { return string(r.bytes()) }

// bool takes a byte that is 0 or 1.
func (r *reader) bool() bool {
	mark := r.u8()
	r.isBad = r.isBad || mark > 1
	return mark == 1
}

func (r *reader) sum() (sum [32]byte) {
	copy(sum[:], r.take(32))
	return sum
}

func (r *reader) stamp() Stamp { return Stamp{r.u64(), r.u32()} }

func (r *reader) position() *Position {
	if !r.bool() {
		return nil
	}
	return &Position{r.u64(), r.u64()}
}

func (r *reader) version() version { return version{r.u32(), r.u32()} }

func (r *reader) command() book.Command {
	return book.Command{Kind: book.Kind(r.u8()), Fragment: r.u8(), Domain: r.u8(), Epoch: r.u32(), Stripe: r.u16(), Node: r.u16()}
}

func (r *reader) seat() book.Seat { return book.Seat{Node: r.u16(), Slot: r.u16()} }

func (r *reader) lease() book.LeaseRow {
	return book.LeaseRow{Stripe: r.u16(), Fragment: r.u8(), Holder: r.u8(), Target: r.seat(), Epoch: r.u32(), Expiry: r.u32()}
}

func (r *reader) reply() book.Reply {
	reply := book.Reply{Kind: book.ReplyKind(r.u8()), Refusal: r.u8(), Repair: book.Repair(r.u8())}
	copy(reply.Sources[:], r.take(uint64(len(reply.Sources))))
	reply.Detail, reply.Clock, reply.Ended = r.u32(), r.u32(), r.u32()
	reply.Lease = r.lease()
	for i := range reply.Seats {
		reply.Seats[i] = r.seat()
	}
	return reply
}

// end is nil if all was taken and nothing is left.
func (r *reader) end() error {
	if r.isBad || len(r.rest) > 0 {
		return errUnreadable
	}
	return nil
}
