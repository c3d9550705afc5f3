package state

// A Stamp is where an item stands in the log: the index of its entry, and its position among the items of that, from 0. Stamps
// rise from item to item, and no two items of a group have the same.
type Stamp struct {
	Index    uint64
	Position uint32
}

// positionBits have room for the positions of an entry.
const positionBits = 10

// Number is the stamp as one number, which rises as stamps do.
func (s Stamp) Number() uint64 { return s.Index<<positionBits | uint64(s.Position) }

// stampOf is the stamp that has a number.
func stampOf(number uint64) Stamp { return Stamp{number >> positionBits, uint32(number % MostItems)} }

func (s Stamp) isAbove(other Stamp) bool {
	return s.Index > other.Index || s.Index == other.Index && s.Position > other.Position
}
