package book

/*
#include "lrc_embed.h"

// The calls that return a reply alone, with the entry that they added.
static uint32_t last_entry(lrc_handle *handle, lrc_entry *entry) {
    size_t count = 0;
    uint32_t status = lrc_embed_count(handle, &count);
    return status == LRC_DONE ? lrc_embed_entry(handle, count - 1, entry) : status;
}

static uint32_t call_at(lrc_handle *handle, uint64_t place, uint8_t session, const lrc_command *command, lrc_entry *entry) {
    uint32_t status = lrc_embed_call_at(handle, place, session, command, &entry->reply);
    return status == LRC_DONE ? last_entry(handle, entry) : status;
}

static uint32_t call_published(lrc_published *published, uint8_t session, const lrc_command *command, lrc_entry *entry) {
    uint32_t status = lrc_embed_call_published(published, session, command, &entry->reply);
    return status == LRC_DONE ? last_entry(&published->book, entry) : status;
}
*/
import "C"

import "unsafe"

// A Change has the layout of lrc_change: a fragment whose home or live lease a call changed, both before the call and after it. A
// lease that there was not, or is not, is 0.
type Change struct {
	Stripe      uint16
	Fragment    uint8
	WasLeased   uint8
	IsLeased    uint8
	_           [3]uint8
	HomeBefore  Home
	HomeAfter   Home
	LeaseBefore LeaseRow
	LeaseAfter  LeaseRow
}

func (e *Entry) c() *C.lrc_entry { return (*C.lrc_entry)(unsafe.Pointer(e)) }

// firstEntry is nil where there is none.
func firstEntry(entries []Entry) *C.lrc_entry {
	if len(entries) == 0 {
		return nil
	}
	return entries[0].c()
}

// Call makes one command and returns its entry.
func (b *Book) Call(session uint8, command Command) (Entry, error) {
	var entry Entry
	err := faultOf(C.lrc_embed_call_entry(b.handle, C.uint8_t(session), command.c(), entry.c()))
	return entry, err
}

// CallChanges makes one command, and returns its entry, and a row for each fragment whose home or live lease is another
// one after it, by stripe and fragment. Each other fragment has the home and the lease that it had.
func (b *Book) CallChanges(session uint8, command Command) (Entry, []Change, error) {
	var entry Entry
	count := C.size_t(Fragments) // (only to fail a node and to tick can take more)
	for {
		rows := make([]Change, count)
		status := C.lrc_embed_call_changes(b.handle, C.uint8_t(session), command.c(), entry.c(),
			(*C.lrc_change)(unsafe.Pointer(&rows[0])), C.size_t(len(rows)), &count)
		switch status {
		case C.LRC_DONE:
			return entry, rows[:count], nil
		case C.LRC_SHORT: // nothing was made
		default:
			return Entry{}, nil, faultOf(status)
		}
	}
}

// Calls makes the sessions' commands of these entries, one after the other, and writes the whole entry of each in its place. It returns
// how many were made; these stay. A fault is that of the first which can't be made, and the entries from there on are as they were.
func (b *Book) Calls(entries []Entry) (int, error) {
	made := C.size_t(0)
	status := C.lrc_embed_calls(b.handle, firstEntry(entries), C.size_t(len(entries)), &made)
	if status != C.LRC_DONE {
		return int(made), &Fault{Status: uint32(status), Detail: int(made)}
	}
	return int(made), nil
}

// CallAt is Call, if as many entries were made as the caller saw, by Made; else nothing changes, and IsMoved tells so.
func (b *Book) CallAt(made uint64, session uint8, command Command) (Entry, error) {
	var entry Entry
	err := faultOf(C.call_at(b.handle, C.uint64_t(made), C.uint8_t(session), command.c(), entry.c()))
	return entry, err
}

// Call makes one command and returns its entry. Each viewer that follows after it makes the call too. IsFull may also tell that the feed
// has no room: unpublish the book and publish it again.
func (p *Published) Call(session uint8, command Command) (Entry, error) {
	var entry Entry
	err := faultOf(C.call_published(p.pair, C.uint8_t(session), command.c(), entry.c()))
	return entry, err
}

// Peek returns the reply that a call would get now.
func (b *Looks) Peek(session uint8, command Command) (Reply, error) {
	var reply Reply
	status := C.lrc_embed_peek(b.handle, C.uint8_t(session), command.c(), (*C.lrc_reply)(unsafe.Pointer(&reply)))
	return reply, faultOf(status)
}

// PeekEntry returns the entry that a call would add now.
func (b *Looks) PeekEntry(session uint8, command Command) (Entry, error) {
	var entry Entry
	err := faultOf(C.lrc_embed_peek_entry(b.handle, C.uint8_t(session), command.c(), entry.c()))
	return entry, err
}

// Replay makes the commands of saved entries after those that the book has, and compares each reply. A fault's detail is the
// position of the entry where it stopped; the book is closed then, and only Close may follow.
func (b *Book) Replay(entries []Entry) error {
	position := C.size_t(0)
	if status := C.lrc_embed_replay(b.handle, firstEntry(entries), C.size_t(len(entries)), &position); status != C.LRC_DONE {
		return &Fault{Status: uint32(status), Detail: int(position)}
	}
	return nil
}

// IsMoved tells whether an error says that a book has made other calls than it was expected to.
func IsMoved(err error) bool { return is(err, C.LRC_MOVED) }
