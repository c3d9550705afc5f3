package state

import (
	"fmt"

	"lrcman/service/book"
)

// An Action is what an item does.
type Action uint8

// The actions.
const (
	Call   Action = 1 // one command in a book
	Create Action = 2 // a book over nodes, perhaps begun in an image
	Reopen Action = 3 // a book goes on over other nodes
	Remove Action = 4 // a book ends, with its keys and its log
	// ChangeRules makes the group go to other rules or another form of entries. Programs of all rules take it.
	ChangeRules Action = 5
	Digest      Action = 6 // each member takes the checksum of a book
	Report      Action = 7 // a member tells which checksum it took
)

// An Item is one request that changes books. The log carries items.
type Item struct {
	Action  Action
	Book    string
	Key     string // "" or the text by which it is made once
	Owner   string // whose key it is: the name of the token or certificate that asked, "" without one
	Since   uint64 // with a key: an index of the log below which the request was not proposed, that of its first proposer then
	Worker  string // of Call: "" or the name of the worker who asks
	Session uint8
	Command book.Command
	At      *Position // of Call, Reopen and Remove: where the book has to stand, or nil
	Nodes   []byte    // of Create and Reopen
	Image   []byte    // of Create: nil, or the image to begin in
	Rules   uint32    // of ChangeRules: 0 as now
	Form    uint32    // of ChangeRules: 0 as now
	Digest  Stamp     // of Report: where the Digest stands
	Member  uint64    // of Report: who tells
	Sum     [32]byte  // of Report: what it found
}

// A Position is where a book stands: the number of its entries, and the number of the stamp at which it was opened last, by a
// Create or a Reopen. No two openings of a group have the same.
type Position struct{ Made, Opens uint64 }

// The longest texts of an item. A longer one makes an item that is rejected.
const (
	mostName  = 64
	mostOwner = 256
	mostNodes = 1 << 20
	mostImage = 8 << 20
)

// check is a rejection for an item that can't be meant so, whatever the state is.
func (item *Item) check(at Stamp) Answer {
	for _, it := range []struct {
		what         string
		length, most int
	}{
		{"name of the book", len(item.Book), mostName}, {"key", len(item.Key), mostName},
		{"owner of the key", len(item.Owner), mostOwner}, {"name of the worker", len(item.Worker), mostName},
		{"text of nodes", len(item.Nodes), mostNodes}, {"image", len(item.Image), mostImage},
	} {
		if it.length > it.most {
			return reject(Unreadable, fmt.Sprintf("the %s has %d bytes, and may have %d", it.what, it.length, it.most))
		}
	}
	switch {
	case item.Book == "" && item.Action != ChangeRules:
		return reject(Unreadable, "the book has no name")
	case item.Key != "" && item.Since >= at.Index:
		words := "nothing was proposed since entry %d of the log yet: this one is %d"
		return reject(OutOfRange, fmt.Sprintf(words, item.Since, at.Index))
	case item.Form > 255:
		return reject(OutOfRange, fmt.Sprintf("there is no form %d", item.Form))
	}
	return Answer{}
}
