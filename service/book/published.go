package book

/*
#include <stdlib.h>
#include "lrc_embed.h"

// Each look writes its viewer, so that one has a cache line of its own.
enum { LINE = 64 };
_Static_assert(sizeof(lrc_viewer) <= LINE, "a viewer has one cache line");

static lrc_viewer *new_viewer(void) {
    lrc_viewer *viewer = aligned_alloc(LINE, LINE);
    if (viewer != NULL) *viewer = LRC_NO_VIEWER;
    return viewer;
}

static void close_published(lrc_published *published) {
    lrc_handle handle = LRC_CLOSED;
    lrc_embed_unpublish(published, &handle);
    lrc_embed_close(&handle);
    free(published);
}
*/
import "C"

import "unsafe"

// FeedLimit is the most calls of a published book, until it is published again.
const FeedLimit = C.LRC_FEED_LIMIT

// A Published is a book with viewers, which look beside its calls and take no lock. One goroutine at a time may use it, looks and View
// included; its viewers may be used meanwhile. They and it are closed in any order. docs/EMBEDDING.md says what a viewer costs.
type Published struct {
	Looks
	pair *C.lrc_published // in C memory, as a handle
}

// A Viewer is a book of its own that follows a published one when it is told to. One goroutine at a time may use it, beside those that
// use the published book and other viewers. It has looks and no calls, so it is never where the published book was not.
type Viewer struct {
	Looks
	pair *C.lrc_viewer
}

// Publish makes a published book of the book, which is closed then: only Close may follow. After a fault it is as it was.
func (b *Book) Publish() (*Published, error) {
	pair := (*C.lrc_published)(C.calloc(1, C.sizeof_lrc_published))
	if pair == nil {
		return nil, &Fault{Status: C.LRC_OUT_OF_MEMORY}
	}
	if status := C.lrc_embed_publish(b.handle, pair); status != C.LRC_DONE {
		C.free(unsafe.Pointer(pair))
		return nil, faultOf(status)
	}
	return &Published{Looks{&pair.book}, pair}, nil
}

// Unpublish takes the book back. The published one is closed then: only Close may follow. Its viewers keep their books, and are told.
func (p *Published) Unpublish() (*Book, error) {
	b, err := closed()
	if err != nil {
		return nil, err
	}
	if status := C.lrc_embed_unpublish(p.pair, b.handle); status != C.LRC_DONE {
		b.Close()
		return nil, faultOf(status)
	}
	return b, nil
}

// Forget empties the history of the book. Its viewers are not concerned, and the feed stays as full as it is.
func (p *Published) Forget() error { return faultOf(C.lrc_embed_forget(p.handle)) }

// Close frees the book. Its viewers keep theirs, and are told. No other method may be called after it.
func (p *Published) Close() {
	C.close_published(p.pair)
	p.pair, p.handle = nil, nil
}

// View makes a viewer of the book as it is, over the text of its nodes; IsDifferent tells that these are others.
func (p *Published) View(nodes []byte) (*Viewer, error) {
	pair := C.new_viewer()
	if pair == nil {
		return nil, &Fault{Status: C.LRC_OUT_OF_MEMORY}
	}
	if status := C.lrc_embed_view(p.pair, firstByte(nodes), C.size_t(len(nodes)), pair); status != C.LRC_DONE {
		C.free(unsafe.Pointer(pair))
		return nil, faultOf(status)
	}
	return &Viewer{Looks{&pair.book}, pair}, nil
}

// Follow makes the calls of the published book that the viewer has not made yet. It returns how many entries its book follows from, and
// whether the other is still published; if not, the viewer has all of its calls. After a fault it has made the calls before, and goes
// on there: IsFull tells that the viewer has to forget first.
func (v *Viewer) Follow() (made uint64, isPublished bool, err error) {
	place, is := C.uint64_t(0), C.uint8_t(0)
	err = faultOf(C.lrc_embed_follow(v.pair, &place, &is))
	return uint64(place), is == 1, err
}

// Forget empties the history of the viewer's book. Nothing else changes.
func (v *Viewer) Forget() error { return faultOf(C.lrc_embed_forget(v.handle)) }

// Close frees the viewer and its book. No other method may be called after it.
func (v *Viewer) Close() {
	C.lrc_embed_close_viewer(v.pair)
	C.free(unsafe.Pointer(v.pair))
	v.pair, v.handle = nil, nil
}

// IsDifferent tells whether an error says that a viewer has other nodes than its book, or that a replay had another reply.
func IsDifferent(err error) bool { return is(err, C.LRC_DIFFERENT) }
