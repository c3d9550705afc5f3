package book

/*
#include "lrc_embed.h"
*/
import "C"

import (
	"fmt"
	"math/bits"
	"strconv"
	"strings"
	"unsafe"
)

// A Table is what `lrcman show`, `may-stop` or `may-lose` prints: lines of CSV without quotes, of which the first names the columns.
type Table struct{ text []byte }

// TableOf is the table that such a text has.
func TableOf(csv []byte) *Table { return &Table{csv} }

// CSV is the table as the program prints it.
func (t *Table) CSV() []byte { return t.text }

// Columns are the names of the columns.
func (t *Table) Columns() []string {
	head, _, _ := strings.Cut(string(t.text), "\n")
	return strings.Split(head, ",")
}

// rows are the fields of each row.
func (t *Table) rows() [][]string {
	var rows [][]string
	for _, line := range strings.Split(string(t.text), "\n")[1:] {
		if line != "" { // (behind the last end)
			rows = append(rows, strings.Split(line, ","))
		}
	}
	return rows
}

// A TableSnapshot is what a table is made of. It is taken while nobody else uses the book, which is short; the table is made
// of it later, beside other calls.
type TableSnapshot func() (*Table, error)

func ready(text []byte) TableSnapshot {
	return func() (*Table, error) { return &Table{text}, nil }
}

// A view is a table of a book.
type view struct {
	number C.uint8_t
	isLong bool // it may take longer than an image of the book
	isSlow bool // it takes so long for some books that no other look is to wait for it
	room   int  // for its text, in most books
}

// Views are the tables of a book: those that `lrcman show` prints, with their words joined.
var Views = []string{"status", "stripes", "nodes", "leases", "work", "fragments", "domains-fault", "domains-upgrade", "health",
	"capacity"}

var views = map[string]view{
	"status": {C.LRC_SHOW_STATUS, false, false, 1 << 12}, "stripes": {C.LRC_SHOW_STRIPES, true, false, 1 << 20},
	"nodes": {C.LRC_SHOW_NODES, true, false, 1 << 16}, "leases": {C.LRC_SHOW_LEASES, false, false, 1 << 18},
	"work": {C.LRC_SHOW_WORK, false, false, 1 << 18}, "fragments": {C.LRC_SHOW_FRAGMENTS, true, false, 1 << 22},
	"domains-fault": {C.LRC_SHOW_DOMAINS_FAULT, true, true, 1 << 16}, "health": {C.LRC_SHOW_HEALTH, true, true, 1 << 12},
	"domains-upgrade": {C.LRC_SHOW_DOMAINS_UPGRADE, true, false, 1 << 16}, "capacity": {C.LRC_SHOW_CAPACITY, true, true, 1 << 12},
}

// TakesLong tells whether a table is to be made of a copy of the book, one for many of these.
func TakesLong(name string) bool { return views[name].isLong && !views[name].isSlow }

// Table is a table of the book as it is.
func (b *Looks) Table(name string) (*Table, error) {
	of, isThere := views[name]
	if !isThere {
		return nil, noTable(name)
	}
	text, err := b.table(of)
	return &Table{text}, err
}

func noTable(name string) error { return fmt.Errorf("there is no table %q", name) }

// Show takes what a table is made of. One that would take long is made of a copy of the book, over the nodes of its text.
func (b *Looks) Show(name string, nodes []byte) (TableSnapshot, error) {
	view, isThere := views[name]
	if !isThere {
		return nil, noTable(name)
	}
	if !view.isLong {
		text, err := b.table(view)
		return ready(text), err
	}
	copied, err := b.Copied(nodes)
	if err != nil {
		return nil, err
	}
	return func() (*Table, error) {
		c, err := copied()
		if err != nil {
			return nil, err
		}
		defer c.Close()
		text, err := c.table(view)
		return &Table{text}, err
	}, nil
}

// Copied takes the image of a book over the nodes of its text. A copy begins in it later, beside calls of the book: but for the
// history all looks at the copy are those at the book.
func (b *Looks) Copied(nodes []byte) (func() (*Book, error), error) {
	image, err := b.Image()
	return func() (*Book, error) { return OpenImage(nodes, image) }, err
}

// table is the text of a table.
func (b *Looks) table(of view) ([]byte, error) {
	return textOf(of.room, func(text *C.uint8_t, room C.size_t, length *C.size_t) C.uint32_t {
		return C.lrc_embed_show(b.handle, of.number, text, room, length)
	})
}

// textOf asks for a text with so much room, and with as much as it needs if that is too little.
func textOf(room int, ask func(text *C.uint8_t, room C.size_t, length *C.size_t) C.uint32_t) ([]byte, error) {
	for {
		text, length := make([]byte, room), C.size_t(0)
		switch status := ask(firstByte(text), C.size_t(room), &length); status {
		case C.LRC_DONE:
			return text[:length], nil
		case C.LRC_SHORT:
			room = int(length)
		default:
			return nil, faultOf(status)
		}
	}
}

// ShowForecast is the table of an outage of all these nodes at once, and tells whether no stripe is harmed.
func (b *Looks) ShowForecast(outage Outage, selected Selection) (*Table, bool, error) {
	nodes, err := b.nodesOf(selected)
	if err != nil {
		return nil, false, err
	}
	first, isSafe := (*C.uint16_t)(nil), C.uint8_t(0)
	if len(nodes) > 0 {
		first = (*C.uint16_t)(unsafe.Pointer(&nodes[0]))
	}
	text, err := textOf(1<<18, func(text *C.uint8_t, room C.size_t, length *C.size_t) C.uint32_t {
		return C.lrc_embed_forecast_table(b.handle, C.uint8_t(outage), first, C.size_t(len(nodes)), text, room, length, &isSafe)
	})
	return &Table{text}, isSafe == 1, err
}

// ShowStripe is the row of one stripe in the table of stripes. The library writes the whole table alone, so the row is made here.
func (b *Looks) ShowStripe(stripe uint16) (*Table, error) {
	row, err := b.Stripe(stripe)
	if err != nil {
		return nil, err
	}
	homes, err := b.Homes(stripe)
	if err != nil {
		return nil, err
	}
	margin := "-"
	switch row.Level.Kind {
	case Whole:
		margin = "3"
	case AtRisk:
		margin = strconv.Itoa(int(row.Level.Margin))
	}
	columns, seats, homeless := []string{}, []string{}, uint16(0)
	for f, home := range homes {
		columns = append(columns, fmt.Sprintf("home_%d", f))
		switch {
		case f >= row.Code.Fragments():
			seats = append(seats, "")
		case home.IsThere == 0:
			seats, homeless = append(seats, "-"), homeless|1<<f
		default:
			seats = append(seats, home.Seat.String())
		}
	}
	return &Table{[]byte(fmt.Sprintf("stripe,code,level,margin,missing,missing_fragments,homeless,homeless_fragments,%s\n"+
		"%d,%v,%v,%s,0x%04x,%s,0x%04x,%s,%s\n", strings.Join(columns, ","), stripe, row.Code, row.Level.Kind, margin, row.Missing,
		listOf(row.Missing), homeless, listOf(homeless), strings.Join(seats, ",")))}, nil
}

// membersOf lists the fragments of a set.
func membersOf(set uint16) Numbers {
	list := make(Numbers, 0, bits.OnesCount16(set))
	for f := uint8(0); f < Fragments; f++ {
		if set>>f&1 == 1 {
			list = append(list, f)
		}
	}
	return list
}

// listOf is that list as tables have it.
func listOf(set uint16) string { return strings.Trim(fmt.Sprint([]uint8(membersOf(set))), "[]") }

// A notFound is an ErrNotFound of a node or a domain of an outage; of a stripe, a fragment or its lease.
type notFound struct {
	what   string
	number uint64
}

// Error has the words of docs/FORMATS.md, where it has some.
func (f *notFound) Error() string {
	switch f.what {
	case "node":
		return fmt.Sprintf("there is no such node: node %d", f.number)
	case "stripe":
		return fmt.Sprintf("there is no stripe %d", f.number)
	case "fragment":
		return fmt.Sprintf("the stripe has no fragment %d", f.number)
	case "lease":
		return fmt.Sprintf("there is no live lease of fragment %d: name what is missing", f.number)
	}
	return fmt.Sprintf("no node is in this %s domain: %s %d", f.what, f.what, f.number)
}

// Is tells that it is one.
func (f *notFound) Is(target error) bool { return target == ErrNotFound }

// A Selection is the nodes that an outage is about: some by number, and all of some domains.
type Selection struct {
	Nodes    []uint16
	Faults   []uint8
	Upgrades []uint8
}

func (b *Looks) nodesOf(selected Selection) ([]uint16, error) {
	rows, err := b.NodeRows()
	if err != nil {
		return nil, err
	}
	byNumber, byFault, byUpgrade := map[uint16]bool{}, map[uint8][]uint16{}, map[uint8][]uint16{}
	for _, row := range rows {
		byNumber[row.Number] = true
		byFault[row.Fault] = append(byFault[row.Fault], row.Number)
		byUpgrade[row.Upgrade] = append(byUpgrade[row.Upgrade], row.Number)
	}
	var nodes []uint16
	for _, node := range selected.Nodes {
		if !byNumber[node] {
			return nil, &notFound{"node", uint64(node)}
		}
		nodes = append(nodes, node)
	}
	for _, domain := range selected.Faults {
		if byFault[domain] == nil {
			return nil, &notFound{"fault", uint64(domain)}
		}
		nodes = append(nodes, byFault[domain]...)
	}
	for _, domain := range selected.Upgrades {
		if byUpgrade[domain] == nil {
			return nil, &notFound{"upgrade", uint64(domain)}
		}
		nodes = append(nodes, byUpgrade[domain]...)
	}
	return nodes, nil
}
