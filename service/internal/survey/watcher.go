package survey

import (
	"context"
	"errors"
	"sync"
	"time"

	"lrcman/service/book"
	"lrcman/service/internal/state"
)

// What a Watcher keeps of each book.
const (
	span      = 10 * time.Second // of one bucket of the rates
	buckets   = 60
	lastLines = 20
	batch     = 512 // entries that are read in one look, which holds up calls
	fresh     = time.Second
	share     = 20 // a survey is not made anew before so many times its own duration
)

// A Watcher follows books: it counts their entries, and remembers when leases were granted. Its counts begin at 0 when it
// begins. It looks at each book once a second, so it misses entries only if a book forgets them within one.
type Watcher struct {
	books Books
	now   func() time.Time
	step  sync.Mutex // held during a step
	mu    sync.Mutex // of the map
	of    map[string]*track
	isOld bool // the first step is over: a book that comes now is new

	slow sync.Mutex // held while a table is made that may take long: one at a time
}

// A Cause is a command with the kind of its reply.
type Cause struct{ Command, Reply string }

// Counts are numbers of entries since the watch began.
type Counts struct {
	Commands map[Cause]uint64
	Refusals map[uint8]uint64
	Missed   uint64 // entries that were forgotten before they were seen
	Expired  uint64 // leases that ended by a tick
}

// A Line is an entry, for people.
type Line struct {
	N       uint64 `json:"n"`
	Session uint8  `json:"session"`
	Command string `json:"command"`
	Reply   string `json:"reply"`
}

// Rates are what was made in a second, over the last minutes.
type Rates struct {
	Seconds  int     `json:"seconds"` // how long they were watched: at most ten minutes
	Commands float64 `json:"commands"`
	Refused  float64 `json:"refused"`
	Granted  float64 `json:"granted"`
	Done     float64 `json:"done"` // fragments rebuilt or moved
	Left     *int64  `json:"left"` // seconds that the work that can be done takes at this rate; nil: nobody knows
}

type bucket struct {
	at                               int64 // the number of its span
	commands, refused, granted, done uint64
}

type grant struct {
	epoch   uint32
	since   time.Time
	atLeast bool
}

// A track is what is kept of one book.
type track struct {
	mu     sync.Mutex
	began  time.Time
	place  uint64
	counts Counts
	ring   [buckets]bucket
	last   []Line
	grants map[book.FragmentID]grant
	report *Report
	made   time.Time // when the report was
	cost   time.Duration
	slow   slow
}

// NewWatcher makes a watcher of books, with a clock.
func NewWatcher(books Books, now func() time.Time) *Watcher {
	return &Watcher{books: books, now: now, of: map[string]*track{}}
}

// Watch steps once a second until the context ends.
func (w *Watcher) Watch(ctx context.Context) {
	ticker := time.NewTicker(time.Second)
	defer ticker.Stop()
	for w.Step(); ; w.Step() {
		select {
		case <-ctx.Done():
			return
		case <-ticker.C:
		}
	}
}

// Step reads what each book has made since the last step.
func (w *Watcher) Step() {
	w.step.Lock()
	defer w.step.Unlock()
	names := w.books.Names()
	w.keepOnly(names)
	for _, name := range names {
		t := w.track(name)
		for hasMore := true; hasMore; {
			err := w.books.Look(name, func(v View) error {
				t.mu.Lock()
				defer t.mu.Unlock()
				var err error
				hasMore, err = t.read(v, w.now(), w.isOld)
				return err
			})
			hasMore = hasMore && err == nil // (a book that can't be read is tried again at the next step)
		}
	}
	w.isOld = true
}

// keepOnly forgets the books that were removed: one that is made again under the name of another begins anew.
func (w *Watcher) keepOnly(names []string) {
	w.mu.Lock()
	defer w.mu.Unlock()
	kept := map[string]*track{}
	for _, name := range names {
		if t := w.of[name]; t != nil {
			kept[name] = t
		}
	}
	w.of = kept
}

// track is what is kept of a book, which begins now if nothing is.
func (w *Watcher) track(name string) *track {
	w.mu.Lock()
	defer w.mu.Unlock()
	t := w.of[name]
	if t == nil {
		t = &track{grants: map[book.FragmentID]grant{}, counts: Counts{Commands: map[Cause]uint64{}, Refusals: map[uint8]uint64{}}}
		w.of[name] = t
	}
	return t
}

// read takes the entries behind the place up to which the book was read, and tells whether there are more.
func (t *track) read(v View, now time.Time, isNew bool) (bool, error) {
	made := v.Position().Made
	if t.began.IsZero() {
		t.began = now
		if err := t.begin(v, made, isNew); err != nil {
			return false, err
		}
	}
	if made <= t.place {
		t.place = made
		return false, nil
	}
	most := made - t.place
	if most > batch {
		most = batch
	}
	entries, err := v.Entries(t.place, int(most))
	var forgotten *state.Forgotten
	if errors.As(err, &forgotten) {
		t.counts.Missed += forgotten.First - t.place
		t.place = forgotten.First
		return t.place < made, nil
	} else if err != nil {
		return false, err
	}
	for i := range entries {
		t.place++
		if t.place+lastLines > made { // (words for those that are shown, and not for thousands a second)
			t.show(lineOf(t.place, &entries[i]))
		}
		t.count(&entries[i], now)
	}
	return t.place < made && len(entries) > 0, nil
}

// begin finds where a book is read from: a new one from its first entry, another from now on, but for the lines to be shown.
func (t *track) begin(v View, made uint64, isNew bool) error {
	t.place = made
	if made == 0 {
		return nil
	}
	from := uint64(0)
	if !isNew && made > lastLines {
		from = made - lastLines
	}
	_, err := v.Entries(from, 1)
	var forgotten *state.Forgotten
	if errors.As(err, &forgotten) {
		from, err = forgotten.First, nil
	}
	if err != nil || from >= made {
		return err
	}
	if isNew {
		t.place = from
		return nil
	}
	entries, err := v.Entries(from, int(made-from))
	for i := range entries {
		t.show(lineOf(from+uint64(i)+1, &entries[i]))
	}
	return err
}

func (t *track) show(line Line) {
	if len(t.last) >= lastLines {
		t.last = t.last[1:]
	}
	t.last = append(t.last, line)
}

func lineOf(n uint64, entry *book.Entry) Line {
	return Line{n, entry.Session, entry.Command.String(), entry.Reply.String()}
}

func (t *track) count(entry *book.Entry, now time.Time) {
	reply := &entry.Reply
	t.counts.Commands[Cause{entry.Command.Word(), reply.Word()}]++
	at := now.UnixNano() / int64(span)
	b := &t.ring[at%buckets]
	if b.at != at {
		*b = bucket{at: at}
	}
	b.commands++
	switch {
	case reply.Kind == book.Refused:
		b.refused++
		t.counts.Refusals[reply.Refusal]++
	case reply.Kind == book.Granted:
		b.granted++
		t.grants[book.FragmentID{Stripe: reply.Lease.Stripe, Number: reply.Lease.Fragment}] = grant{reply.Lease.Epoch, now, false}
	case reply.Kind == book.Ticked:
		t.counts.Expired += uint64(reply.Ended)
	case reply.Kind == book.Ended && entry.Command.Kind == book.Done:
		b.done++
	}
}

// Report is how a book stands. It is made anew only if the book has changed, and not at once after it was made.
func (w *Watcher) Report(name string) (*Report, error) {
	var t *track
	var report *Report
	err := w.books.Look(name, func(v View) error {
		t = w.track(name)
		t.mu.Lock()
		defer t.mu.Unlock()
		var err error
		report, err = t.look(name, v, w.now)
		return err
	})
	return report, err
}

func (t *track) look(name string, v View, now func() time.Time) (*Report, error) {
	begin := now()
	if t.report != nil {
		at := v.Position()
		isSame := at.Made == t.report.N && at.Opens == t.report.Opens
		if age := begin.Sub(t.made); isSame || age < fresh || age < share*t.cost {
			return t.report, nil
		}
	}
	report, err := take(name, v)
	if err != nil {
		return nil, err
	}
	t.age(report.Leases, begin)
	t.report, t.made, t.cost = report, now(), now().Sub(begin)
	return report, nil
}

// age tells since when leases live, and forgets those that have ended.
func (t *track) age(leases []Lease, now time.Time) {
	live := map[book.FragmentID]grant{}
	for i := range leases {
		lease := &leases[i]
		key := book.FragmentID{Stripe: lease.Stripe, Number: lease.Fragment}
		known, ok := t.grants[key]
		if !ok || known.epoch != lease.Epoch {
			known = grant{lease.Epoch, now, true}
		}
		live[key] = known
		lease.Since, lease.AtLeast = known.since, known.atLeast
	}
	t.grants = live
}

// Cost is how long the last survey of a book took.
func (w *Watcher) Cost(name string) time.Duration {
	t := w.track(name)
	t.mu.Lock()
	defer t.mu.Unlock()
	return t.cost
}

// Counts are the numbers of a book's entries since the watch began.
func (w *Watcher) Counts(name string) Counts {
	t := w.track(name)
	t.mu.Lock()
	defer t.mu.Unlock()
	copied := t.counts
	copied.Commands, copied.Refusals = map[Cause]uint64{}, map[uint8]uint64{}
	for cause, count := range t.counts.Commands {
		copied.Commands[cause] = count
	}
	for refusal, count := range t.counts.Refusals {
		copied.Refusals[refusal] = count
	}
	return copied
}

// Last are the last entries of a book, the newest last.
func (w *Watcher) Last(name string) []Line {
	t := w.track(name)
	t.mu.Lock()
	defer t.mu.Unlock()
	return append([]Line{}, t.last...)
}

// Rates are what a book did in a second, over the last ten minutes, and how long so much work takes.
func (w *Watcher) Rates(name string, work Work) Rates {
	t := w.track(name)
	t.mu.Lock()
	defer t.mu.Unlock()
	now := w.now()
	watched := now.Sub(t.began)
	if t.began.IsZero() || watched < span {
		watched = span
	}
	if watched > buckets*span {
		watched = buckets * span
	}
	sum := bucket{}
	for _, b := range t.ring {
		if now.UnixNano()/int64(span)-b.at < buckets {
			sum.commands += b.commands
			sum.refused += b.refused
			sum.granted += b.granted
			sum.done += b.done
		}
	}
	seconds := watched.Truncate(span).Seconds() // so that a book at rest has rates at rest
	rates := Rates{Seconds: int(seconds), Commands: round(sum.commands, seconds), Refused: round(sum.refused, seconds),
		Granted: round(sum.granted, seconds), Done: round(sum.done, seconds)}
	if able := work.Leased + work.Open; able == 0 {
		rates.Left = new(int64)
	} else if sum.done > 0 {
		left := int64(float64(able) * seconds / float64(sum.done))
		rates.Left = &left
	}
	return rates
}

func round(count uint64, seconds float64) float64 {
	return float64(int64(float64(count)/seconds*1000+0.5)) / 1000
}

// Names are the books.
func (w *Watcher) Names() []string { return w.books.Names() }
