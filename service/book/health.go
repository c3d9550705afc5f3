package book

import (
	"strconv"
	"strings"
)

// A Reason is a row of the table of health: why not all is well, how much of it there is, and the numbers of the first of it. Where
// all is well there is one row, whose reason is "ok".
type Reason struct {
	Reason string  `json:"reason"`
	Count  int     `json:"count"`
	First  []int32 `json:"first"`
}

// Health is the table of health as rows.
func (b *Looks) Health() ([]Reason, error) {
	text, err := b.table(views["health"])
	if err != nil {
		return nil, err
	}
	var rows []Reason
	for _, cells := range (&Table{text}).rows() {
		row := Reason{Reason: cells[0], First: []int32{}}
		row.Count, _ = strconv.Atoi(cells[1]) // (the library writes numbers there)
		for _, word := range strings.Fields(cells[2]) {
			number, _ := strconv.ParseInt(word, 10, 32)
			row.First = append(row.First, int32(number))
		}
		rows = append(rows, row)
	}
	return rows, nil
}

// RankForPeople orders stripes by what people look for: lost, unavailable, at risk by margin, whole.
func (l Level) RankForPeople() int {
	switch l.Kind {
	case Lost:
		return 0
	case Unavailable:
		return 1
	case AtRisk:
		return 2 + int(l.Margin)
	}
	return 5
}

// LeaseTicks is the number of ticks that a lease lives.
const LeaseTicks = 3

// A FragmentID names a fragment of a stripe, and has the layout of lrc_fragment.
type FragmentID struct {
	Stripe uint16
	Number uint8
	_      uint8
}
