// Package state is what the members of a group keep alike: books by name, and beside each book the keys of the calls that it
// answered and the workers who hold its leases.
//
// Apply changes it, entry by entry in the order of the log, and each member gets the same answers: it is one function from an
// entry and a state to answers and a state. Freeze and Restore write and read a snapshot. No look changes anything.
package state

import (
	"fmt"
	"sync"

	"lrcman/service/book"
)

// The limits that are part of the replicated state: all members have to have the same.
const (
	MostBooks  = 1024
	ForgetAt   = 20000 // entries that a book has in memory when it forgets them
	TailOfBook = 10000 // entries that stay beside it then, for those who read its log
)

// A Rejection is a refusal by the service itself, and not by the rules: nothing was changed.
type Rejection uint8

// The rejections.
const (
	NoBook       Rejection = 1 + iota // there is no such book
	BookExists                        // it was made over other nodes, or in another image
	TooManyBooks                      // there are MostBooks
	BadText                           // the nodes or the image are refused; Words has why
	KeyReused                         // the key came with another request
	KeyForgotten                      // the key is not known, and may be one that is forgotten
	Moved                             // the book does not stand where the caller saw it
	OutOfRange                        // a number is out of its range
	OtherRules                        // the member that proposed it has other rules, or the group goes to others
	NotChanged                        // there are no rules yet to go on from
	Spent                             // a number of the book is at its end
	Unreadable                        // the item, or its whole entry, can't be read
)

// An Answer is what an item was answered.
type Answer struct {
	At       Stamp  // where the item stands in the log
	Made     uint64 // the number of the entry in its book; 0: none was made
	Opens    uint64 // of the book: see Position
	Reply    book.Reply
	Holder   string // of a refusal because another worker holds the lease: its name
	IsAgain  bool   // the key had been answered, or there was nothing to change
	Rejected Rejection
	Words    string // of a Rejection
}

func reject(rejection Rejection, words string) Answer {
	return Answer{Rejected: rejection, Words: words}
}

// A State is the books of one member.
type State struct {
	knobs Knobs
	ours  version
	keys  keys[askedChange] // of the requests that make, open and remove books, and change the rules
	held  []*bookEntry      // the books that the entry has named so far: no look comes between its items

	mu      sync.RWMutex // of what follows; each book has a lock of its own
	index   uint64       // of the last entry that was applied, or is being applied
	books   map[string]*bookEntry
	group   group
	freezes []*freeze // the snapshots that are being written
	digests map[string]*digest
	shadows shadows
}

// Knobs are what tests, and a program that is built with the tag faulty, do otherwise. Those that are zero change nothing.
type Knobs struct {
	Rules uint32                  // what the library's rules are taken for
	Keys  int                     // how many keys are kept, in place of MostKeys
	Books int                     // how many books there may be, in place of MostBooks
	Item  func(Stamp) error       // is called before each item; an error ends the entry there, as a library without memory does
	Sum   func([32]byte) [32]byte // is what a Digest finds, of the checksum that it is
}

// New is the state before the first entry.
func New() *State { return NewWith(Knobs{}) }

// NewWith is the state before the first entry of a program with knobs.
func NewWith(knobs Knobs) *State {
	if knobs.Rules == 0 {
		knobs.Rules = book.Rules()
	}
	if knobs.Keys == 0 {
		knobs.Keys = MostKeys
	}
	if knobs.Books == 0 {
		knobs.Books = MostBooks
	}
	return &State{knobs: knobs, ours: version{knobs.Rules, Form}, keys: newKeys[askedChange](knobs.Keys, Stamp{}),
		books: map[string]*bookEntry{}, group: newGroup(), digests: map[string]*digest{}}
}

// Apply makes the changes of one entry of the log, and returns a []Answer with one for each item. Entries come one after the
// other, with rising indexes. What can't be read, or is not of the group's rules, is refused, on all members alike. An error
// means that this member can't go on: its books would not be those of the others.
func (s *State) Apply(index uint64, payload []byte) (interface{}, error) {
	defer s.release()
	s.begin(index)
	answers, err := s.entry(payload)
	if err != nil {
		return nil, fmt.Errorf("entry %d of the log: %w", index, err)
	}
	for i := range answers {
		answers[i].At = Stamp{index, uint32(i)}
	}
	return answers, nil
}

func (s *State) begin(index uint64) {
	s.mu.Lock()
	defer s.mu.Unlock()
	s.index = index
}

func (s *State) entry(payload []byte) ([]Answer, error) {
	h, items, err := decode(payload)
	if h.form != Form {
		return s.otherForm(h)
	} else if err != nil {
		return refused(h, reject(Unreadable, "the entry can't be read: "+err.Error())), nil
	}
	answers := make([]Answer, len(items))
	for i, item := range items {
		if answers[i], err = s.item(Stamp{s.index, uint32(i)}, h.version, item); err != nil {
			return nil, fmt.Errorf("item %d, book %s: %w", i, item.Book, err)
		}
	}
	return answers, nil
}

// otherForm refuses an entry of another form, unless the group goes to that or has it. Then this member can't go on.
func (s *State) otherForm(h head) ([]Answer, error) {
	s.mu.Lock()
	defer s.mu.Unlock()
	if h.version == s.group.now || s.group.isChanging() && h.version == s.group.next {
		return nil, otherRules("it", h.version, s.ours)
	}
	return refused(h, reject(OtherRules, s.group.agree(h.version))), nil
}

// refused are the answers to the items of an entry of which none was read.
func refused(h head, answer Answer) []Answer {
	count := h.count
	if count > MostItems {
		count = MostItems
	}
	answers := make([]Answer, count)
	for i := range answers {
		answers[i] = answer
	}
	return answers
}

func (s *State) item(at Stamp, by version, item *Item) (Answer, error) {
	if s.knobs.Item != nil {
		if err := s.knobs.Item(at); err != nil {
			return Answer{}, err
		}
	}
	if item.Action != ChangeRules { // (programs of all rules take that)
		if why := s.agree(by); why != "" {
			return reject(OtherRules, why), nil
		} else if by != s.ours {
			return Answer{}, otherRules("it", by, s.ours)
		}
	}
	if answer := item.check(at); answer.Rejected != 0 {
		return answer, nil
	}
	switch item.Action {
	case Call:
		return s.inBook(at, item, false, (*bookEntry).answer)
	case Digest:
		return s.inBook(at, item, false, s.digest)
	case Report:
		return s.report(item)
	}
	return s.change(at, item)
}

func (s *State) agree(by version) string {
	s.mu.Lock()
	defer s.mu.Unlock()
	return s.group.agree(by)
}

func (s *State) find(name string) *bookEntry {
	s.mu.RLock()
	defer s.mu.RUnlock()
	return s.books[name]
}

// inBook does in a book what an item asks for, unless the image that the book began in has it.
//
// A snapshot is written beside calls, so its books may be ahead of the rest of it. But what a change of a book is answered is
// kept with the keys of the group. So the book has to stand there as it was before the change.
func (s *State) inBook(at Stamp, item *Item, isChange bool, do func(*bookEntry, Stamp, *Item) (Answer, error)) (Answer, error) {
	e := s.find(item.Book)
	if e == nil {
		return reject(NoBook, "there is no book "+item.Book), nil
	}
	s.hold(e)
	e.mu.Lock()
	defer e.mu.Unlock()
	if !at.isAbove(e.seen) {
		return Answer{}, nil // nobody waits for this: it was told before the snapshot came
	}
	if isChange {
		s.recordFirst(e)
	}
	answer, err := do(e, at, item)
	if err != nil {
		e.isBroken = true
		return Answer{}, err
	}
	e.seen, e.rules = at, s.ours.rules
	return answer, nil
}

// hold keeps looks out of a book until the entry is applied. It waits for the one that is under way.
func (s *State) hold(e *bookEntry) {
	if e.isHeld {
		return
	}
	e.turn <- struct{}{}
	e.isHeld = true
	s.held = append(s.held, e)
}

func (s *State) release() {
	for _, e := range s.held {
		e.isHeld = false
		<-e.turn
	}
	s.held = nil
}
