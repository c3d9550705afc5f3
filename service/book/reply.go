package book

/*
#include "lrc_embed.h"
*/
import "C"

import (
	"fmt"
	"strconv"
	"strings"
	"unsafe"
)

// A ReplyKind has the numbers of lrc_reply_kind.
type ReplyKind uint8

// The kinds of replies.
const (
	Placed  ReplyKind = C.LRC_PLACED
	Dropped ReplyKind = C.LRC_DROPPED
	Granted ReplyKind = C.LRC_GRANTED
	Idle    ReplyKind = C.LRC_IDLE
	Ended   ReplyKind = C.LRC_ENDED
	Changed ReplyKind = C.LRC_CHANGED
	Refused ReplyKind = C.LRC_REFUSED
	Ticked  ReplyKind = C.LRC_TICKED
	Placed6 ReplyKind = C.LRC_PLACED6
)

// The refusals that the service itself has to tell apart. docs/RULES.md has all of them.
const (
	NoLawfulNode  = C.LRC_NO_LAWFUL_NODE
	AlreadyLeased = C.LRC_ALREADY_LEASED
	Unrecoverable = C.LRC_UNRECOVERABLE
	NotHolder     = C.LRC_NOT_HOLDER
)

// A Repair has the numbers of lrc_repair.
type Repair uint8

// What a fragment is rebuilt from.
const (
	Local  Repair = C.LRC_LOCAL // the six others of its group, in a wide stripe
	Global Repair = C.LRC_GLOBAL
	Move   Repair = C.LRC_MOVE
	Local3 Repair = C.LRC_LOCAL3 // the three others of its group, in a narrow stripe
)

// String is the word for the repair; a local one has the same word in both codes.
func (r Repair) String() string { return repairWords.of(uint32(r)) }

func (r Repair) sources() int {
	return [...]int{Local: 6, Local3: 3, Global: 0, Move: 0, 0: 0}[r]
}

// A Seat is a slot of a node.
type Seat struct{ Node, Slot uint16 }

// String writes NODE:SLOT.
func (s Seat) String() string {
	text := append(strconv.AppendUint(nil, uint64(s.Node), 10), ':')
	return string(strconv.AppendUint(text, uint64(s.Slot), 10))
}

// A LeaseRow has the layout of lrc_lease.
type LeaseRow struct {
	Stripe   uint16
	Fragment uint8
	Holder   uint8
	Target   Seat
	Epoch    uint32
	Expiry   uint32
}

// A Reply has the layout of lrc_reply. What its kind does not use is 0.
type Reply struct {
	Kind    ReplyKind
	Refusal uint8
	Repair  Repair
	Sources [6]uint8
	_       [3]uint8
	Detail  uint32
	Clock   uint32
	Ended   uint32
	_       uint32
	Lease   LeaseRow
	Seats   [Fragments]Seat
}

// An Entry has the layout of lrc_entry: a command of a session, and its reply.
type Entry struct {
	Session uint8
	_       [3]uint8
	Command Command
	Reply   Reply
}

// OfNotHolder is the refusal of docs/RULES.md for a caller who does not hold the lease that a session has.
func OfNotHolder(session uint8) Reply {
	return Reply{Kind: Refused, Refusal: NotHolder, Detail: uint32(session)}
}

// Word is the first word of the reply, which is that of its kind.
func (r *Reply) Word() string { return replyWords.of(uint32(r.Kind)) }

func (r *Reply) seats() []Seat {
	switch r.Kind {
	case Placed:
		return r.Seats[:]
	case Placed6:
		return r.Seats[:NarrowFragments]
	}
	return nil
}

func (r *Reply) sources() []uint8 { return r.Sources[:r.Repair.sources()] }

// mostText is the length of the longest text of a reply.
const mostText = 198

// Text is the reply as `lrcman run` prints it, without the number of its entry. A fault says that it is none of the library's replies,
// or that memory was refused.
func (r *Reply) Text() (string, error) {
	text, length := make([]byte, mostText), C.size_t(0)
	err := faultOf(C.lrc_embed_reply_text((*C.lrc_reply)(unsafe.Pointer(r)), firstByte(text), mostText, &length))
	return string(text[:length]), err
}

// String is the text of the reply, or the number of its kind where there is none.
func (r *Reply) String() string {
	text, err := r.Text()
	if err != nil {
		return fmt.Sprintf("reply %d", r.Kind)
	}
	return text
}

// A ReplyJSON is a reply as JSON has it: its line, and the same in numbers. What the kind lacks is left out.
type ReplyJSON struct {
	Reply    string     `json:"reply"`
	Kind     string     `json:"kind"`
	Seats    []JSONSeat `json:"seats,omitempty"`
	Stripe   *uint16    `json:"stripe,omitempty"`
	Fragment *uint8     `json:"fragment,omitempty"`
	Target   *JSONSeat  `json:"target,omitempty"`
	Epoch    uint32     `json:"epoch,omitempty"`
	Repair   string     `json:"repair,omitempty"`
	Sources  Numbers    `json:"sources,omitempty"`
	Clock    *uint32    `json:"clock,omitempty"`
	Ended    *uint32    `json:"ended,omitempty"`
	Refusal  uint8      `json:"refusal,omitempty"`
	Name     string     `json:"name,omitempty"`
	Detail   *uint32    `json:"detail,omitempty"`
}

// A JSONSeat is a seat as JSON has it.
type JSONSeat struct {
	Node uint16 `json:"node"`
	Slot uint16 `json:"slot"`
}

// Numbers are small numbers, which JSON has as a list and not as the text of bytes.
type Numbers []uint8

// MarshalJSON writes a list of numbers.
func (n Numbers) MarshalJSON() ([]byte, error) {
	text := []byte{'['}
	for i, number := range n {
		if i > 0 {
			text = append(text, ',')
		}
		text = strconv.AppendUint(text, uint64(number), 10)
	}
	return append(text, ']'), nil
}

// JSON is the reply in words and numbers. Its faults are those of Text.
func (r *Reply) JSON() (ReplyJSON, error) {
	text, err := r.Text()
	if err != nil {
		return ReplyJSON{}, err
	}
	said := ReplyJSON{Reply: text, Kind: r.Word()}
	for _, seat := range r.seats() {
		said.Seats = append(said.Seats, JSONSeat(seat))
	}
	switch r.Kind {
	case Granted:
		lease, target := r.Lease, JSONSeat(r.Lease.Target)
		said.Stripe, said.Fragment, said.Target, said.Epoch = &lease.Stripe, &lease.Fragment, &target, lease.Epoch
		said.Repair, said.Sources = r.Repair.String(), r.sources()
	case Ticked:
		clock, ended := r.Clock, r.Ended
		said.Clock, said.Ended = &clock, &ended
	case Refused:
		said.Refusal, said.Name = r.Refusal, RefusalName(r.Refusal)
		if strings.Count(text, " ") == 2 { // (behind the number of the refusal there is the detail)
			detail := r.Detail
			said.Detail = &detail
		}
	}
	return said, nil
}
