package state

import "fmt"

// change makes, opens or removes a book, or changes the rules, unless its key tells what became of it.
func (s *State) change(at Stamp, item *Item) (answer Answer, err error) {
	var asked askedChange
	if item.Key != "" {
		asked = item.askedChange()
	}
	if answer, isTold := s.keys.tell(item, asked); isTold {
		return answer, nil
	}
	switch item.Action {
	case Create:
		answer, err = s.create(at, item)
	case Reopen:
		answer, err = s.inBook(at, item, true, (*bookEntry).reopen)
	case Remove:
		answer, err = s.inBook(at, item, true, s.remove)
	case ChangeRules:
		answer = s.changeRules(at, item)
	}
	if err == nil {
		s.keys.keep(at, item, asked, answer)
	}
	return answer, err
}

func (s *State) changeRules(at Stamp, item *Item) Answer {
	s.mu.Lock()
	defer s.mu.Unlock()
	return s.group.change(at.Index, version{item.Rules, item.Form})
}

// create makes a book, or tells where the one stands that is there.
func (s *State) create(at Stamp, item *Item) (Answer, error) {
	if s.find(item.Book) != nil {
		return s.inBook(at, item, true, (*bookEntry).isOf)
	}
	if len(s.books) >= s.knobs.Books {
		return reject(TooManyBooks, fmt.Sprintf("there are %d books already", len(s.books))), nil
	}
	b, rejected, err := open(item.Nodes, item.Image)
	if err != nil || rejected.Rejected != 0 {
		return rejected, err
	}
	e := newBookEntry(item.Book, b)
	e.nodes, e.origin = clone(item.Nodes), checksum(item.Nodes, item.Image)
	e.opens, e.seen, e.rules = at.Number(), at, s.ours.rules
	e.keys = newKeys[askedCall](s.knobs.Keys, at)
	answer := Answer{Made: b.Made(), Opens: e.opens}
	s.mu.Lock()
	s.books[item.Book] = e
	s.mu.Unlock()
	return answer, nil
}

// remove ends a book if it stands where the caller saw it. Whoever looks at it or waits for its entries hears that it is gone.
func (s *State) remove(e *bookEntry, _ Stamp, item *Item) (Answer, error) {
	if answer := e.moved(item); answer.Rejected != 0 {
		return answer, nil
	}
	answer := Answer{Made: e.book.Made(), Opens: e.opens}
	s.mu.Lock()
	delete(s.books, item.Book)
	delete(s.digests, item.Book)
	s.mu.Unlock()
	close(e.removed)
	e.close()
	return answer, nil
}
