package replica

import (
	"context"
	"errors"
	"sync"

	"lrcman/service/internal/engine"
	"lrcman/service/internal/state"
)

var (
	// ErrFull says that an item was not taken, since too many wait.
	ErrFull = errors.New("too many requests wait")
	// ErrLate says that an item was not proposed before its caller left, since too much was under way.
	ErrLate = errors.New("it was not proposed in time")
)

// An Unknown says that the outcome of an item is unknown. One with a key may be asked for again, with the same Since: it is
// then made once, or nobody can tell any more.
type Unknown struct {
	HasKey bool
	Since  uint64
}

// Error is that of the engine.
func (u *Unknown) Error() string { return engine.ErrOutcomeUnknown.Error() }

// Unwrap tells that it is engine.ErrOutcomeUnknown.
func (u *Unknown) Unwrap() error { return engine.ErrOutcomeUnknown }

// An outcome is what the caller of an item is told.
type outcome struct {
	answer state.Answer
	err    error
}

// A pending is an item that waits for its answer. But for told, the lock of the queue guards it.
type pending struct {
	item      *state.Item
	mayRenew  bool   // its Since is this member's own, and nothing was made of it
	entry     *entry // that has it now; nil while it waits
	isGone    bool   // its caller has left
	isUnknown bool   // an entry that had it may come to stand in the log
	why       error  // it was not proposed yet
	told      chan outcome
}

func newPending(item *state.Item, mayRenew bool) *pending {
	return &pending{item: item, mayRenew: mayRenew, why: ErrLate, told: make(chan outcome, 1)}
}

// failure is what a caller is told who gets no answer. What was unknown once stays unknown.
func (p *pending) failure(err error) error {
	if p.isUnknown {
		return &Unknown{p.item.Key != "", p.item.Since}
	}
	return err
}

func (p *pending) tell(answer state.Answer, err error) {
	p.isGone = true // (nobody else tells its caller)
	p.told <- outcome{answer, err}
}

// An entry has items that are proposed together. Its context ends when all their callers have left.
type entry struct {
	items   []*pending
	callers int // who wait
	ctx     context.Context
	cancel  func()
}

// A queue has the items that are in no entry.
type queue struct {
	mu      sync.Mutex
	waiting []*pending
	most    int
	some    chan struct{} // has something if there may be items
}

func newQueue(most int) *queue { return &queue{most: most, some: make(chan struct{}, 1)} }

func (q *queue) wake() {
	select {
	case q.some <- struct{}{}:
	default:
	}
}

// count is the number of items that wait.
func (q *queue) count() int {
	q.mu.Lock()
	defer q.mu.Unlock()
	return len(q.waiting)
}

// add returns false if too many wait.
func (q *queue) add(p *pending) bool {
	q.mu.Lock()
	defer q.mu.Unlock()
	if len(q.waiting) >= q.most {
		return false
	}
	q.waiting = append(q.waiting, p)
	q.wake()
	return true
}

// take makes an entry of what waits, the first come first; nil if nothing does.
func (q *queue) take() *entry {
	q.mu.Lock()
	defer q.mu.Unlock()
	count, size := 0, 0
	for ; count < len(q.waiting) && count < ofEntry && size < bytesOf; count++ {
		size += len(q.waiting[count].item.Nodes) + len(q.waiting[count].item.Image)
	}
	if count == 0 {
		return nil
	}
	e := &entry{items: q.waiting[:count:count], callers: count}
	e.ctx, e.cancel = context.WithCancel(context.Background())
	for _, p := range e.items {
		p.entry = e
	}
	if q.waiting = q.waiting[count:]; len(q.waiting) > 0 {
		q.wake()
	}
	return e
}

// leave is called by a caller who does not wait any more. It returns what that one is told: what has just come, or why nothing
// has.
func (q *queue) leave(p *pending) (state.Answer, error) {
	q.mu.Lock()
	defer q.mu.Unlock()
	select {
	case it := <-p.told:
		return it.answer, it.err
	default:
	}
	p.isGone = true
	if e := p.entry; e != nil {
		p.isUnknown = true
		if e.callers--; e.callers == 0 {
			e.cancel()
		}
	} else {
		q.waiting = without(q.waiting, p)
	}
	return state.Answer{}, p.failure(p.why)
}

// without is a queue without one item. (The array of it may be that of an entry: so it is another one)
func without(all []*pending, p *pending) []*pending {
	kept := make([]*pending, 0, len(all))
	for _, it := range all {
		if it != p {
			kept = append(kept, it)
		}
	}
	return kept
}

// answer tells callers what their items were answered. An item whose key may be forgotten was not made: if it was not proposed
// before, and its client asks for no Since of its own, it gets a newer one, as it would if it came now.
func (q *queue) answer(e *entry, answers []state.Answer) {
	q.mu.Lock()
	defer q.mu.Unlock()
	var again []*pending
	for i, p := range e.items {
		p.entry = nil
		switch {
		case p.isGone:
		case answers[i].Rejected != state.KeyForgotten:
			p.tell(answers[i], nil)
		case p.isUnknown:
			p.tell(state.Answer{}, p.failure(nil))
		case p.mayRenew:
			p.mayRenew, p.item.Since = false, answers[i].At.Index
			again = append(again, p)
		default:
			p.tell(answers[i], nil)
		}
	}
	q.putBack(again)
}

// fail goes on after an entry was not told. What was not proposed waits for another one, and so does an item with a key: it is
// made once, however often it comes. Nothing else is proposed twice.
func (q *queue) fail(e *entry, err error) {
	q.mu.Lock()
	defer q.mu.Unlock()
	var again []*pending
	for _, p := range e.items {
		p.entry = nil
		p.isUnknown = p.isUnknown || err == engine.ErrOutcomeUnknown
		switch {
		case p.isGone:
		case err == engine.ErrNoLeader:
			p.why = err
			again = append(again, p)
		case p.isUnknown && p.item.Key != "":
			again = append(again, p)
		case err == engine.ErrBusy:
			p.tell(state.Answer{}, ErrFull)
		default:
			p.tell(state.Answer{}, p.failure(err))
		}
	}
	q.putBack(again)
}

// putBack lets items wait again, before those that came later. The lock is held.
func (q *queue) putBack(items []*pending) {
	if len(items) > 0 {
		q.waiting = append(items, q.waiting...)
	}
}

// refuse tells all who wait that nothing was made, except where the outcome is unknown.
func (q *queue) refuse(err error) {
	q.mu.Lock()
	defer q.mu.Unlock()
	var left []*pending
	for _, p := range q.waiting {
		if p.isUnknown {
			left = append(left, p)
		} else {
			p.tell(state.Answer{}, err)
		}
	}
	q.waiting = left
}
