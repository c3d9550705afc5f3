package survey

import (
	"context"
	"time"

	"lrcman/service/book"
	"lrcman/service/internal/state"
)

// A Making says after how many entries of a book a table of it was made, which may take long.
type Making struct {
	N uint64 `json:"n"`

	opens uint64
	made  time.Time
	cost  time.Duration
}

// A Health is how a book fares: the table of health of the library. Its word is the first reason.
type Health struct {
	Word string `json:"word"`
	*Making
	Reasons []book.Reason `json:"reasons"`
}

// A Capacity is how much more fits into a book: the table of capacity of the library.
type Capacity struct {
	*Making
	Rows *book.Table `json:"rows"`
}

const (
	rest   = 3           // none is made for so many times as long as the last one took: that of a great book takes seconds
	looked = time.Minute // for so long after somebody asked for the capacity of a book it is made anew
)

// WatchHealth makes the health of each book that has changed, and its capacity where somebody looks at that, one book at a time, until
// the context ends.
func (w *Watcher) WatchHealth(ctx context.Context) {
	for {
		for _, name := range w.Names() {
			if !w.pause(ctx, rest*w.renew(name)) {
				return
			}
		}
		if !w.pause(ctx, fresh) {
			return
		}
	}
}

func (w *Watcher) pause(ctx context.Context, d time.Duration) bool {
	select {
	case <-ctx.Done():
		return false
	case <-time.After(d):
		return true
	}
}

// renew makes these tables of a book if it has changed, and returns how long that took. (A book that is gone has none)
func (w *Watcher) renew(name string) time.Duration {
	w.slow.Lock()
	defer w.slow.Unlock()
	begin := w.now()
	if _, err := w.makeHealth(name); err != nil {
		return 0
	}
	if w.track(name).isLookedAt(begin) {
		if _, err := w.makeCapacity(name); err != nil {
			return 0
		}
	}
	return w.now().Sub(begin)
}

// anew makes a table of a book, unless the one that is known is of now, or took too long to be made again so soon. It looks at the book
// for no longer than its image takes: what `take` returns makes the table of that, beside calls. It returns nil if nothing was made.
func (w *Watcher) anew(name string, known *Making, take func(View) (func() error, error)) (*Making, error) {
	begin, at := w.now(), state.Position{}
	var finish func() error
	err := w.books.Look(name, func(v View) (err error) {
		if at = v.Position(); known == nil || !known.isAt(at) && begin.Sub(known.made) >= share*known.cost {
			finish, err = take(v)
		}
		return err
	})
	if err != nil || finish == nil {
		return nil, err
	}
	if err := finish(); err != nil {
		return nil, err
	}
	now := w.now()
	return &Making{N: at.Made, opens: at.Opens, made: now, cost: now.Sub(begin)}, nil
}

func (m *Making) isAt(at state.Position) bool { return m.N == at.Made && m.opens == at.Opens }

func (w *Watcher) makeHealth(name string) (*Health, error) {
	t, reasons := w.track(name), []book.Reason{}
	health := t.slowly().health
	made, err := w.anew(name, health.making(), func(v View) (func() error, error) {
		rows, err := v.Health()
		return func() (err error) { reasons, err = rows(); return err }, err
	})
	if made == nil {
		return health, err
	}
	health = &Health{reasons[0].Reason, made, reasons}
	t.mu.Lock()
	defer t.mu.Unlock()
	t.slow.health = health
	return health, nil
}

func (w *Watcher) makeCapacity(name string) (*Capacity, error) {
	t := w.track(name)
	capacity, rows := t.slowly().capacity, (*book.Table)(nil)
	made, err := w.anew(name, capacity.making(), func(v View) (func() error, error) {
		table, err := v.Show("capacity")
		return func() (err error) { rows, err = table(); return err }, err
	})
	if made == nil {
		return capacity, err
	}
	capacity = &Capacity{made, rows}
	t.mu.Lock()
	defer t.mu.Unlock()
	t.slow.capacity = capacity
	return capacity, nil
}

func (h *Health) making() *Making {
	if h == nil {
		return nil
	}
	return h.Making
}

func (c *Capacity) making() *Making {
	if c == nil {
		return nil
	}
	return c.Making
}

// slow are the tables of a book that may take long, nil before they were first made, and when somebody asked for the capacity.
type slow struct {
	health   *Health
	capacity *Capacity
	asked    time.Time
}

func (t *track) slowly() slow {
	t.mu.Lock()
	defer t.mu.Unlock()
	return t.slow
}

func (t *track) isLookedAt(now time.Time) bool {
	asked := t.slowly().asked
	return !asked.IsZero() && now.Sub(asked) < looked
}

// Known is the health of a book that was made last; nil before the first.
func (w *Watcher) Known(name string) *Health { return w.track(name).slowly().health }

// Health is the same, but that it is made now if there is none yet.
func (w *Watcher) Health(name string) (*Health, error) {
	if known := w.Known(name); known != nil {
		return known, nil
	}
	w.slow.Lock()
	defer w.slow.Unlock()
	return w.makeHealth(name)
}

// Capacity is the capacity of a book that was made last, or is made now if there is none yet. For a while it is made anew when the
// book changes.
func (w *Watcher) Capacity(name string) (*Capacity, error) {
	t := w.track(name)
	t.mu.Lock()
	known := t.slow.capacity
	t.slow.asked = w.now()
	t.mu.Unlock()
	if known != nil {
		return known, nil
	}
	w.slow.Lock()
	defer w.slow.Unlock()
	return w.makeCapacity(name)
}
