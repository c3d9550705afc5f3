// Package book is the proved book of lrc_embed for Go.
//
// Everything that a command does is decided by the library, and its texts are the library's: lines of commands, replies, tables,
// words. This package checks layouts and carries numbers and texts over. It writes what the library prints of a whole book alone: the
// row of one stripe. It takes the standard library alone, and is a module of its own. With the build tag lrc_embed_installed
// pkg-config finds the library; without it CGO_CFLAGS names the folder of lrc_embed.h and CGO_LDFLAGS the library, which service/build
// sets both.
//
// docs/EMBEDDING.md says how a store keeps its lock and its log around a book: the Entry of each Call goes to the log before the
// store acts on its reply, and Replay makes them again after a restart. A Book has Looks; a Published has them too, and Viewers, which
// look on other goroutines without the store's lock.
package book

/*
#include <stdlib.h>
#include "lrc_embed.h"
*/
import "C"

import (
	"errors"
	"fmt"
	"unsafe"
)

// The limits of the library.
const (
	Stripes         = C.LRC_STRIPES
	Fragments       = C.LRC_FRAGMENTS
	NarrowFragments = C.LRC_NARROW_FRAGMENTS
	Sessions        = C.LRC_SESSIONS
)

// The greatest numbers of a book that has an image, and can forget its entries. lrc_embed_forget has them.
const (
	MostEntries = 1 << 63
	MostTicks   = 4293967291
	MostGrants  = 4293967294 // of one fragment
)

// The layouts are those of the header; the library's agree with it, which the C compiler has checked.
const (
	_ = uint(unsafe.Sizeof(Command{}) - C.sizeof_lrc_command)
	_ = uint(C.sizeof_lrc_command - unsafe.Sizeof(Command{}))
	_ = uint(unsafe.Sizeof(Reply{}) - C.sizeof_lrc_reply)
	_ = uint(C.sizeof_lrc_reply - unsafe.Sizeof(Reply{}))
	_ = uint(unsafe.Sizeof(Entry{}) - C.sizeof_lrc_entry)
	_ = uint(C.sizeof_lrc_entry - unsafe.Sizeof(Entry{}))
	_ = uint(unsafe.Sizeof(LeaseRow{}) - C.sizeof_lrc_lease)
	_ = uint(C.sizeof_lrc_lease - unsafe.Sizeof(LeaseRow{}))
	_ = uint(unsafe.Sizeof(StripeRow{}) - C.sizeof_lrc_stripe)
	_ = uint(C.sizeof_lrc_stripe - unsafe.Sizeof(StripeRow{}))
	_ = uint(unsafe.Sizeof(NodeRow{}) - C.sizeof_lrc_node)
	_ = uint(C.sizeof_lrc_node - unsafe.Sizeof(NodeRow{}))
	_ = uint(unsafe.Sizeof(Outlook{}) - C.sizeof_lrc_outlook)
	_ = uint(C.sizeof_lrc_outlook - unsafe.Sizeof(Outlook{}))
	_ = uint(unsafe.Sizeof(Home{}) - C.sizeof_lrc_home)
	_ = uint(C.sizeof_lrc_home - unsafe.Sizeof(Home{}))
	_ = uint(unsafe.Sizeof(Plan{}) - C.sizeof_lrc_repair_plan)
	_ = uint(C.sizeof_lrc_repair_plan - unsafe.Sizeof(Plan{}))
	_ = uint(unsafe.Sizeof(Recipe{}) - C.sizeof_lrc_recipe)
	_ = uint(C.sizeof_lrc_recipe - unsafe.Sizeof(Recipe{}))
	_ = uint(unsafe.Sizeof(RiskRow{}) - C.sizeof_lrc_risk)
	_ = uint(C.sizeof_lrc_risk - unsafe.Sizeof(RiskRow{}))
	_ = uint(unsafe.Sizeof(FragmentID{}) - C.sizeof_lrc_fragment)
	_ = uint(C.sizeof_lrc_fragment - unsafe.Sizeof(FragmentID{}))
	_ = uint(unsafe.Sizeof(Change{}) - C.sizeof_lrc_change)
	_ = uint(C.sizeof_lrc_change - unsafe.Sizeof(Change{}))
)

// Looks read a book and change nothing. A Book, a Published and a Viewer have them, until they are closed.
type Looks struct {
	handle *C.lrc_handle // in C memory: the library keeps a pointer of its own in it
}

// A Book is one book of the library. One goroutine at a time may use it, looks included.
type Book struct{ Looks }

// A Fault is a status of the library other than done.
type Fault struct {
	Status uint32
	Detail int    // with some statuses: the position, the number or the line at fault
	Cause  uint32 // of an image's line
}

// Error is the status in words, with the place at fault.
func (f *Fault) Error() string {
	switch {
	case f.Status == C.LRC_INVALID_IMAGE:
		return fmt.Sprintf("%s: image %d cause %d", causeWords.of(f.Cause), f.Detail, f.Cause)
	case f.Status == C.LRC_BAD_LINE:
		return fmt.Sprintf("this line can't stand here in an image: image %d", f.Detail)
	case nodesWords.of(f.Status) != "":
		return f.topology()
	}
	return statusName(f.Status)
}

func (f *Fault) topology() string {
	number := f.Status - C.LRC_SYNTAX + 1
	text := fmt.Sprintf("%s: topology %d", nodesWords.of(f.Status), number)
	if f.Status == C.LRC_BAD_FIELD || f.Status == C.LRC_NODE_OUT_OF_RANGE || f.Status == C.LRC_DOUBLE_NODE {
		text += fmt.Sprintf(" %d", f.Detail)
	}
	return text
}

// Texts that no book begins in, by the library's judgement, as any member of a group finds it.
func (f *Fault) isOfText() bool { return f.Status >= C.LRC_SYNTAX && f.Status <= C.LRC_INVALID_IMAGE }

// IsOfText tells whether an error says that a text is no list of nodes, or no image over them.
func IsOfText(err error) bool {
	var fault *Fault
	return errors.As(err, &fault) && fault.isOfText()
}

func is(err error, status uint32) bool {
	var fault *Fault
	return errors.As(err, &fault) && fault.Status == status
}

// ErrNotFound says that a look names what there is not.
var ErrNotFound = errors.New("there is no such thing")

// Is tells whether the status says so.
func (f *Fault) Is(target error) bool { return target == ErrNotFound && f.Status == C.LRC_UNKNOWN }

// IsForgotten tells whether an error says that entries are forgotten.
func IsForgotten(err error) bool { return is(err, C.LRC_FORGOTTEN) }

func faultOf(status C.uint32_t) error {
	if status == C.LRC_DONE {
		return nil
	}
	return &Fault{Status: uint32(status)}
}

// Check compares the library with the header that this program was compiled with.
func Check() error {
	if version := uint32(C.lrc_embed_version()); version != C.LRC_EMBED_VERSION {
		return fmt.Errorf("the library has version %d of its interface, and the header is for version %d",
			version, C.LRC_EMBED_VERSION)
	}
	return nil
}

// Interface is the version of the library's interface.
func Interface() uint32 { return uint32(C.lrc_embed_version()) }

// Rules is the version of the rules. Logs and images of another one are not those of this library.
func Rules() uint32 { return uint32(C.lrc_embed_rules_version()) }

func statusName(status uint32) string {
	if found := statusWords.of(status); found != "" {
		return found
	}
	return fmt.Sprintf("status %d", status)
}

func firstByte(text []byte) *C.uint8_t {
	if len(text) == 0 {
		return nil
	}
	return (*C.uint8_t)(unsafe.Pointer(&text[0]))
}

func closed() (*Book, error) {
	handle := (*C.lrc_handle)(C.calloc(1, C.sizeof_lrc_handle))
	if handle == nil {
		return nil, &Fault{Status: C.LRC_OUT_OF_MEMORY}
	}
	return &Book{Looks{handle}}, nil
}

// Open makes a book over the nodes of a text.
func Open(nodes []byte) (*Book, error) {
	b, err := closed()
	if err != nil {
		return nil, err
	}
	detail := C.size_t(0)
	if status := C.lrc_embed_open(b.handle, firstByte(nodes), C.size_t(len(nodes)), &detail); status != C.LRC_DONE {
		b.Close()
		return nil, &Fault{Status: uint32(status), Detail: int(detail)}
	}
	return b, nil
}

// OpenImage makes a book over the nodes of one text that begins in the image of the other.
func OpenImage(nodes, image []byte) (*Book, error) {
	b, err := closed()
	if err != nil {
		return nil, err
	}
	detail, cause := C.size_t(0), C.uint32_t(0)
	status := C.lrc_embed_open_image(b.handle, firstByte(nodes), C.size_t(len(nodes)), firstByte(image), C.size_t(len(image)),
		&detail, &cause)
	if status != C.LRC_DONE {
		b.Close()
		return nil, &Fault{Status: uint32(status), Detail: int(detail), Cause: uint32(cause)}
	}
	return b, nil
}

// Begin makes a book over nodes, which begins in an image if there is one.
func Begin(nodes, image []byte) (*Book, error) {
	if len(image) == 0 {
		return Open(nodes)
	}
	return OpenImage(nodes, image)
}

// Close frees the book. No other method may be called after it.
func (b *Book) Close() {
	C.lrc_embed_close(b.handle)
	C.free(unsafe.Pointer(b.handle))
	b.handle = nil
}

// Before is the number of entries that were made before those that the book still has.
func (b *Looks) Before() uint64 {
	before := C.uint64_t(0)
	C.lrc_embed_before(b.handle, &before)
	return uint64(before)
}

// Made is the number of entries that were made.
func (b *Looks) Made() uint64 {
	count := C.size_t(0)
	C.lrc_embed_count(b.handle, &count)
	return b.Before() + uint64(count)
}

// Forget empties the history. Nothing else changes.
func (b *Book) Forget() error { return faultOf(C.lrc_embed_forget(b.handle)) }

// Image is the text of the book's state. (To ask with no room would cost as much as the image)
func (b *Looks) Image() ([]byte, error) {
	return textOf(1<<20, func(text *C.uint8_t, room C.size_t, length *C.size_t) C.uint32_t {
		return C.lrc_embed_image(b.handle, text, room, length)
	})
}

// Entries writes the entries behind a place, as many as there is room for, and returns how many.
func (b *Looks) Entries(place uint64, rows []Entry) (int, error) {
	count := C.size_t(0)
	first := (*C.lrc_entry)(unsafe.Pointer(&rows[0]))
	status := C.lrc_embed_entries(b.handle, C.uint64_t(place), first, C.size_t(len(rows)), &count)
	return int(count), faultOf(status)
}

// IsFull tells whether an error says that a number of the book is at its end, or that its history or its feed has no room.
func IsFull(err error) bool { return is(err, C.LRC_FULL) }

// IsOutOfRange tells whether an error says that a number is out of its range.
func IsOutOfRange(err error) bool { return is(err, C.LRC_OUT_OF_RANGE) }
