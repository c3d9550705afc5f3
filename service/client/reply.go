package client

import (
	"encoding/json"
	"fmt"
	"strconv"
	"strings"
)

// A Kind is the first word of a reply.
type Kind string

// The kinds of replies.
const (
	Placed  Kind = "placed"
	Dropped Kind = "dropped"
	Granted Kind = "granted"
	Idle    Kind = "idle"
	Ended   Kind = "ended"
	Changed Kind = "changed"
	Refused Kind = "refused"
	Ticked  Kind = "ticked"
)

// A Seat is a slot of a node.
type Seat struct {
	Node uint16 `json:"node"`
	Slot uint16 `json:"slot"`
}

// String writes NODE:SLOT.
func (s Seat) String() string { return fmt.Sprintf("%d:%d", s.Node, s.Slot) }

// UnmarshalJSON reads an object, or the text NODE:SLOT of tables.
func (s *Seat) UnmarshalJSON(text []byte) error {
	if len(text) == 0 || text[0] != '"' {
		type plain Seat
		return json.Unmarshal(text, (*plain)(s))
	}
	var word string
	if err := json.Unmarshal(text, &word); err != nil {
		return err
	}
	node, slot, _ := strings.Cut(word, ":")
	ofNode, err := strconv.ParseUint(node, 10, 16)
	if err != nil {
		return fmt.Errorf("%q is no seat", word)
	}
	ofSlot, err := strconv.ParseUint(slot, 10, 16)
	if err != nil {
		return fmt.Errorf("%q is no seat", word)
	}
	s.Node, s.Slot = uint16(ofNode), uint16(ofSlot)
	return nil
}

// A Grant is a lease that a reply grants.
type Grant struct {
	Stripe   uint16
	Fragment uint8
	Target   Seat
	Epoch    uint32
	Repair   string  // local, global or move
	Sources  []uint8 // of a local repair: what it reads
}

// Done is the command that reports the fragment on its target.
func (g *Grant) Done() Command { return Commandf("done %d %d %d", g.Stripe, g.Fragment, g.Epoch) }

// Abandon is the command that gives the lease back.
func (g *Grant) Abandon() Command {
	return Commandf("abandon %d %d %d", g.Stripe, g.Fragment, g.Epoch)
}

// A Reply is what a command was replied.
type Reply struct {
	N       uint64 // the number of the entry; 0: none, as the service itself refused a report
	Opens   uint64 // which opening of the book it is in
	Line    string // as `lrcman run` prints it
	Kind    Kind
	Seats   []Seat // of a stripe that was placed: the homes of its fragments
	Lease   *Grant // of Granted
	Clock   uint32 // of Ticked, as Ended
	Ended   uint32
	Refusal int    // of Refused: its number in docs/RULES.md, and 0 else
	Name    string // of Refused, in words
	Detail  uint32 // of some refusals
	Holder  string // the worker that has the lease, where the service refused a report
	Again   bool   // the answer to a key that had been answered before
	Raw     []byte // the object as it came
}

// UnmarshalJSON reads the fields of docs/SERVICE.md.
func (r *Reply) UnmarshalJSON(text []byte) error {
	var said struct {
		N        uint64  `json:"n"`
		Opens    uint64  `json:"opens"`
		Line     string  `json:"reply"`
		Kind     Kind    `json:"kind"`
		Seats    []Seat  `json:"seats"`
		Stripe   uint16  `json:"stripe"`
		Fragment uint8   `json:"fragment"`
		Target   Seat    `json:"target"`
		Epoch    uint32  `json:"epoch"`
		Repair   string  `json:"repair"`
		Sources  []uint8 `json:"sources"`
		Clock    uint32  `json:"clock"`
		Ended    uint32  `json:"ended"`
		Refusal  int     `json:"refusal"`
		Name     string  `json:"name"`
		Detail   uint32  `json:"detail"`
		Holder   string  `json:"holder"`
		Again    bool    `json:"again"`
	}
	if err := json.Unmarshal(text, &said); err != nil {
		return err
	}
	if said.Kind == "" {
		return fmt.Errorf("it is no reply: %.80q", text)
	}
	*r = Reply{N: said.N, Opens: said.Opens, Line: said.Line, Kind: said.Kind, Seats: said.Seats, Clock: said.Clock,
		Ended: said.Ended, Refusal: said.Refusal, Name: said.Name, Detail: said.Detail, Holder: said.Holder, Again: said.Again,
		Raw: append([]byte(nil), text...)}
	if said.Kind == Granted {
		r.Lease = &Grant{said.Stripe, said.Fragment, said.Target, said.Epoch, said.Repair, said.Sources}
	}
	return nil
}

// An Entry is an entry of a book: a command of a session, and its reply.
type Entry struct {
	Reply
	Session int
	Command Command
}

// UnmarshalJSON reads a line of a log.
func (e *Entry) UnmarshalJSON(text []byte) error {
	var said struct {
		Session int     `json:"session"`
		Command Command `json:"command"`
	}
	if err := json.Unmarshal(text, &said); err != nil {
		return err
	}
	e.Session, e.Command = said.Session, said.Command
	return e.Reply.UnmarshalJSON(text)
}
