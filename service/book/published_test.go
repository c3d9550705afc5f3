package book

import (
	"fmt"
	"math/rand"
	"sync"
	"testing"
)

// A made is a call that a plain book has made, with what it returned and the image after it.
type made struct {
	session uint8
	entry   Entry
	image   string
}

// played makes drawn calls on a plain book.
func played(t *testing.T, b *Book, count int) []made {
	t.Helper()
	r, calls := rand.New(rand.NewSource(11)), []made{}
	for i := 0; i < count; i++ {
		session := uint8(1 + r.Intn(8))
		entry, err := b.Call(session, drawn(r))
		if err != nil {
			t.Fatal(err)
		}
		calls = append(calls, made{session, entry, image(t, b)})
	}
	return calls
}

func published(t *testing.T, lines ...string) *Published {
	t.Helper()
	p, err := open(t, lines...).Publish()
	if err != nil {
		t.Fatal(err)
	}
	t.Cleanup(p.Close)
	return p
}

func viewer(t *testing.T, p *Published) *Viewer {
	t.Helper()
	v, err := p.View(twenty())
	if err != nil {
		t.Fatal(err)
	}
	t.Cleanup(v.Close)
	return v
}

// follows looks at a viewer until the book is published no more: it is at each time the book that made these calls up to its place, and
// never goes back. It returns at how many places it looked.
func follows(v *Viewer, first string, calls []made, begin uint64) (looks int, err error) {
	last, images := uint64(0), map[uint64]string{begin: first}
	for i, call := range calls {
		images[begin+uint64(i)+1] = call.image
	}
	for {
		place, isPublished, err := v.Follow()
		if err != nil || place < last {
			return looks, fmt.Errorf("it follows from %d entries, and before from %d: %v", place, last, err)
		}
		text, err := v.Image()
		if err != nil || string(text) != images[place] || v.Made() != place {
			return looks, fmt.Errorf("behind %d entries it is %s, and not %s: %v", place, text, images[place], err)
		}
		if place > last {
			looks++
		}
		if last = place; !isPublished {
			break
		}
	}
	if end := begin + uint64(len(calls)); last != end {
		return looks, fmt.Errorf("it ends at %d, and not at %d", last, end)
	}
	return looks, nil
}

// A crowd is a published book with callers that take turns and viewers that look beside them.
type crowd struct {
	t       *testing.T
	p       *Published
	mine    *Viewer // of the callers
	first   string
	calls   []made
	turn    sync.Mutex
	next    int
	viewers sync.WaitGroup
}

// look makes a viewer that follows on a goroutine of its own, and closes there. Who asks has the turn.
func (c *crowd) look() {
	v, err := c.p.View(twenty())
	if err != nil {
		c.t.Error(err)
		return
	}
	c.viewers.Add(1)
	go func() {
		defer c.viewers.Done()
		defer v.Close()
		if looks, err := follows(v, c.first, c.calls, 2); err != nil || looks == 0 {
			c.t.Errorf("%d places: %v", looks, err)
		}
	}()
}

// call makes the next call, unless none is left. Once it returns, it is in the feed.
func (c *crowd) call() bool {
	c.turn.Lock()
	defer c.turn.Unlock()
	if c.next == len(c.calls) {
		return false
	}
	call := c.calls[c.next]
	c.next++
	if entry, err := c.p.Call(call.session, call.entry.Command); err != nil || entry != call.entry {
		c.t.Errorf("%+v, and not %+v: %v", entry, call.entry, err)
	}
	if place, isPublished, err := c.mine.Follow(); err != nil || !isPublished || place != uint64(c.next)+2 || place != c.p.Made() {
		c.t.Errorf("a call returned before it was in the feed: %d of %d, %v", place, c.p.Made(), err)
	}
	if c.next%100 == 0 {
		c.look()
	}
	return true
}

func TestViewersLookBesideCalls(t *testing.T) {
	begin := []string{"place 1", "fail 3"}
	plain, p := open(t, begin...), published(t, begin...)
	c := &crowd{t: t, p: p, mine: viewer(t, p), first: image(t, plain)}
	c.calls = played(t, plain, 250)
	c.look()
	var callers sync.WaitGroup
	for i := 0; i < 3; i++ {
		callers.Add(1)
		go func() {
			defer callers.Done()
			for c.call() {
			}
		}()
	}
	callers.Wait()
	b, err := p.Unpublish()
	if err != nil {
		t.Fatal(err)
	}
	defer b.Close()
	c.viewers.Wait()
	if image(t, b) != image(t, plain) || image(t, c.mine) != image(t, plain) {
		t.Error("the book that comes back, or the viewer, is not the one that made these calls")
	}
	if _, err := b.Call(1, Command{Kind: Tick}); err != nil || b.Made() != plain.Made()+1 {
		t.Error(err)
	}
}

const isClosed = 1 // LRC_IS_CLOSED

func TestABookIsPublishedOnce(t *testing.T) {
	b := open(t, "place 1")
	p, err := b.Publish()
	if err != nil {
		t.Fatal(err)
	}
	defer p.Close()
	if _, err := b.Publish(); !is(err, isClosed) {
		t.Error(err)
	}
	if _, err := b.Call(1, Command{Kind: Tick}); !is(err, isClosed) {
		t.Error(err)
	}
	if _, err := p.View(wide()); !IsDifferent(err) {
		t.Error(err)
	}
	if _, err := p.Call(9, Command{Kind: Tick}); !IsOutOfRange(err) || p.Made() != 1 {
		t.Error(err)
	}
	again, err := p.Unpublish()
	if err != nil {
		t.Fatal(err)
	}
	defer again.Close()
	if _, err := p.Unpublish(); !is(err, isClosed) {
		t.Error(err)
	}
	if _, err := p.Call(1, Command{Kind: Tick}); !is(err, isClosed) {
		t.Error(err)
	}
	if _, err := p.View(twenty()); !is(err, isClosed) {
		t.Error(err)
	}
}

// A viewer lives on after the book, and both forget what they have.
func TestAViewerOutlivesItsBook(t *testing.T) {
	p, err := open(t, "place 1", "fail 3").Publish()
	if err != nil {
		t.Fatal(err)
	}
	v := viewer(t, p)
	for i := 0; i < 3; i++ {
		if _, err := p.Call(1, Command{Kind: Tick}); err != nil {
			t.Fatal(err)
		}
	}
	if v.Made() != 2 || v.Clock() != 0 {
		t.Error("a viewer goes on by itself")
	}
	if err := p.Forget(); err != nil || p.Before() != 5 || p.Made() != 5 {
		t.Error(p.Before(), err)
	}
	whole := image(t, p)
	p.Close()
	if place, isPublished, err := v.Follow(); err != nil || isPublished || place != 5 || image(t, v) != whole {
		t.Error(place, isPublished, err)
	}
	rows := make([]Entry, 9)
	if count, err := v.Entries(2, rows); err != nil || count != 3 || rows[2].Reply.Clock != 3 {
		t.Error(count, err)
	}
	if err := v.Forget(); err != nil || v.Before() != 5 || image(t, v) != whole {
		t.Error(err)
	}
	if _, err := v.Entries(2, rows); !IsForgotten(err) {
		t.Error(err)
	}
}
