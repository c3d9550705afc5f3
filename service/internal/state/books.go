package state

import (
	"fmt"
	"sync"

	"lrcman/service/book"
)

// holding is the lease that a worker was granted.
type holding struct {
	worker string
	epoch  uint32
}

// A bookEntry is a book and what stands beside it.
type bookEntry struct {
	name string
	gate sync.Mutex    // of looks: so that an entry waits for one of them at most
	turn chan struct{} // of the look that is at the gate, or of an entry that names the book; who waits comes next
	mu   sync.Mutex    // of what follows: an image may be taken between two items of an entry

	isHeld   bool       // of Apply: it has the turn
	book     *book.Book // nil once it is removed, or a restore has put another in its place
	isBroken bool       // a change failed in its middle, and this member ends
	nodes    []byte
	origin   [32]byte // the nodes and the image that it was made with, as a checksum
	opens    uint64   // the number of the stamp at which it was opened last
	seen     Stamp    // of the last item that named it: what stands up to here is in it
	rules    uint32   // of that item
	keys     keys[askedCall]
	tail     []book.Entry // the last entries before those that the book has
	holders  map[book.FragmentID]holding
	grown    chan struct{} // closed at the next entry
	shadow   shadow        // for looks that take long; it has a lock of its own
	removed  chan struct{} // closed when it is removed
}

func newBookEntry(name string, b *book.Book) *bookEntry {
	return &bookEntry{name: name, book: b, turn: make(chan struct{}, 1), holders: map[book.FragmentID]holding{},
		grown: make(chan struct{}), removed: make(chan struct{})}
}

// close frees a book that nobody finds any more. Its lock is held.
func (e *bookEntry) close() {
	e.book.Close()
	e.book = nil
	close(e.grown)
}

// grow wakes those who wait for the book's next entry.
func (e *bookEntry) grow() {
	close(e.grown)
	e.grown = make(chan struct{})
}

func (e *bookEntry) position() Position { return Position{e.book.Made(), e.opens} }

// moved is a rejection if a book does not stand where the caller saw it.
func (e *bookEntry) moved(item *Item) Answer {
	at := e.position()
	if item.At == nil || *item.At == at {
		return Answer{}
	}
	return reject(Moved, fmt.Sprintf("the book stands at %d, and its opening is %d", at.Made, at.Opens))
}

// open makes a book of texts. A text that is refused is so on all members; an error is anything else.
func open(nodes, image []byte) (*book.Book, Answer, error) {
	b, err := book.Begin(nodes, image)
	if book.IsOfText(err) {
		return nil, reject(BadText, err.Error()), nil
	}
	return b, Answer{}, err
}

func (e *bookEntry) again() Answer {
	at := e.position()
	return Answer{Made: at.Made, Opens: at.Opens, IsAgain: true}
}

// isOf tells where a book stands that was made with the texts of an item.
func (e *bookEntry) isOf(_ Stamp, item *Item) (Answer, error) {
	if e.origin != checksum(item.Nodes, item.Image) {
		return reject(BookExists, "the book was made with other nodes or another image"), nil
	}
	return e.again(), nil
}

// reopen goes on over other nodes: a book that begins in the image of this one takes its place.
func (e *bookEntry) reopen(at Stamp, item *Item) (Answer, error) {
	if answer := e.moved(item); answer.Rejected != 0 {
		return answer, nil
	}
	if string(e.nodes) == string(item.Nodes) {
		return e.again(), nil
	}
	image, err := e.book.Image()
	if err != nil {
		return ofFull(err)
	}
	b, rejected, err := open(item.Nodes, image)
	if err != nil || rejected.Rejected != 0 {
		return rejected, err
	}
	if err := e.keepTail(); err != nil {
		b.Close()
		return Answer{}, err
	}
	e.book.Close()
	e.book, e.nodes = b, clone(item.Nodes)
	e.opens = at.Number()
	e.grow()
	return Answer{Made: b.Made(), Opens: e.opens}, nil
}

// ofFull is the answer to what the library refuses since a number of the book is at its end; it does so on all members.
func ofFull(err error) (Answer, error) {
	if book.IsFull(err) {
		return reject(Spent, "a number of the book is at its end"), nil
	}
	return Answer{}, err
}

// answer makes a call, unless its key tells what became of it.
func (e *bookEntry) answer(at Stamp, item *Item) (Answer, error) {
	asked := item.askedCall()
	if answer, isTold := e.keys.tell(item, asked); isTold {
		return answer, nil
	}
	answer, err := e.call(item)
	if err == nil {
		e.keys.keep(at, item, asked, answer)
	}
	return answer, err
}

func (e *bookEntry) call(item *Item) (Answer, error) {
	if answer := e.moved(item); answer.Rejected != 0 {
		return answer, nil
	}
	if lease, holder, isOther := e.ofAnother(item); isOther {
		return Answer{Opens: e.opens, Reply: book.OfNotHolder(lease.Holder), Holder: holder}, nil
	}
	if answer := e.spent(item); answer.Rejected != 0 {
		return answer, nil
	}
	entry, err := e.book.Call(item.Session, item.Command)
	if book.IsOutOfRange(err) {
		return reject(OutOfRange, err.Error()), nil // alike on all members
	} else if err != nil {
		return ofFull(err)
	}
	if err := e.note(item, &entry.Reply); err != nil {
		return Answer{}, err
	}
	made := e.book.Made()
	e.grow()
	return Answer{Made: made, Opens: e.opens, Reply: entry.Reply}, e.forget(made)
}

// spent is a rejection for a call after which the book could have no image: then nobody could begin in a snapshot, forget its
// entries or open it again.
func (e *bookEntry) spent(item *Item) Answer {
	kind := item.Command.Kind
	switch {
	case e.book.Made() >= book.MostEntries:
		return reject(Spent, "the book has as many entries as there may be")
	case kind == book.Tick && e.book.Clock() >= book.MostTicks:
		return reject(Spent, "the clock of the book is at its end")
	case kind == book.Lease || kind == book.Next:
		reply, err := e.book.Peek(item.Session, item.Command) // (if that fails, the call tells why)
		if lease := reply.Lease; err == nil && reply.Kind == book.Granted && lease.Epoch > book.MostGrants {
			return reject(Spent, fmt.Sprintf("fragment %d of stripe %d was leased as often as may be", lease.Fragment, lease.Stripe))
		}
	}
	return Answer{}
}

// ofAnother tells whether a report is about the live lease of another worker.
func (e *bookEntry) ofAnother(item *Item) (lease book.LeaseRow, holder string, isOther bool) {
	command := item.Command
	if command.Kind != book.Done && command.Kind != book.Abandon {
		return
	}
	held, isHeld := e.holders[book.FragmentID{Stripe: command.Stripe, Number: command.Fragment}]
	if item.Worker == "" && !isHeld {
		return
	}
	lease, err := e.book.Lease(command.Stripe, command.Fragment)
	if err != nil || lease.Epoch != command.Epoch {
		return // the rules refuse it
	}
	if isHeld && held.epoch == lease.Epoch {
		holder = held.worker
	}
	return lease, holder, holder != item.Worker
}

// note keeps who holds which lease, after a call.
func (e *bookEntry) note(item *Item, reply *book.Reply) error {
	switch reply.Kind {
	case book.Granted:
		key := book.FragmentID{Stripe: reply.Lease.Stripe, Number: reply.Lease.Fragment}
		delete(e.holders, key)
		if item.Worker != "" {
			e.holders[key] = holding{item.Worker, reply.Lease.Epoch}
		}
	case book.Ended:
		delete(e.holders, book.FragmentID{Stripe: item.Command.Stripe, Number: item.Command.Fragment})
	case book.Dropped:
		for f := uint8(0); f < book.Fragments; f++ {
			delete(e.holders, book.FragmentID{Stripe: item.Command.Stripe, Number: f})
		}
	case book.Ticked:
		if reply.Ended > 0 {
			return e.prune()
		}
	case book.Changed:
		if item.Command.Kind == book.Fail {
			return e.prune()
		}
	}
	return nil
}

// prune forgets the holders of leases that have ended.
func (e *bookEntry) prune() error {
	if len(e.holders) == 0 {
		return nil
	}
	rows, err := e.book.LeaseRows()
	if err != nil {
		return err
	}
	live := map[book.FragmentID]holding{}
	for _, row := range rows {
		key := book.FragmentID{Stripe: row.Stripe, Number: row.Fragment}
		if held, ok := e.holders[key]; ok && held.epoch == row.Epoch {
			live[key] = held
		}
	}
	e.holders = live
	return nil
}

// forget keeps the history short. It changes no reply, so members may differ in what they still have.
func (e *bookEntry) forget(made uint64) error {
	if made-e.book.Before() < ForgetAt {
		return nil
	}
	if err := e.keepTail(); err != nil {
		return err
	}
	return e.book.Forget()
}

// keepTail copies the last entries, which the book is about to lose.
func (e *bookEntry) keepTail() error {
	made, before := e.book.Made(), e.book.Before()
	from := before
	if made-before > TailOfBook {
		from = made - TailOfBook
	}
	tail := make([]book.Entry, made-from)
	if len(tail) > 0 {
		if _, err := e.book.Entries(from, tail); err != nil {
			return err
		}
	}
	e.tail = append(e.tail, tail...)
	if len(e.tail) > TailOfBook {
		e.tail = append([]book.Entry(nil), e.tail[len(e.tail)-TailOfBook:]...)
	}
	return nil
}
