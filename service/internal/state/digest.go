package state

import (
	"crypto/sha256"
	"sort"
)

// A BookDigest is the checksum of a book at the stamp of a Digest, as this member found it.
type BookDigest struct {
	Book string
	At   Stamp
	Sum  [32]byte
}

// A digest is the last checksum of a book, and what the members reported of theirs. It is no part of what the members keep alike,
// and stands in no snapshot.
type digest struct {
	at       Stamp
	sum      [32]byte
	reports  map[uint64]bool // by member: whether it found the same
	isBroken bool            // more members found something else at an earlier digest
}

// differs tells whether more members found something else than found the same, now or earlier. This one agrees with itself. It may
// be so for a moment, until those have reported who are alike.
func (d *digest) differs() bool {
	if d == nil {
		return false
	}
	same, other := 0, 0
	for _, it := range d.reports {
		if it {
			same++
		} else {
			other++
		}
	}
	if same == 0 {
		same = 1
	}
	return d.isBroken || other > same
}

// digest takes the checksum of a book: of its image, where it stands, its keys and its holders.
func (s *State) digest(e *bookEntry, at Stamp, _ *Item) (Answer, error) {
	e.seen, e.rules = at, s.ours.rules
	record, err := e.record()
	if err != nil {
		return ofFull(err)
	}
	sum := sha256.Sum256(record)
	if s.knobs.Sum != nil {
		sum = s.knobs.Sum(sum)
	}
	s.mu.Lock()
	defer s.mu.Unlock()
	s.digests[e.name] = &digest{at: at, sum: sum, reports: map[uint64]bool{}, isBroken: s.digests[e.name].differs()}
	position := e.position()
	return Answer{Made: position.Made, Opens: position.Opens}, nil
}

// report compares what a member found with what this one did, if it has the same digest.
func (s *State) report(item *Item) (Answer, error) {
	s.mu.Lock()
	defer s.mu.Unlock()
	if s.books[item.Book] == nil {
		return reject(NoBook, "there is no book "+item.Book), nil
	}
	if d := s.digests[item.Book]; d != nil && d.at == item.Digest {
		d.reports[item.Member] = d.sum == item.Sum
	}
	return Answer{}, nil
}

// Digests are the last checksums of this member's books, by name.
func (s *State) Digests() []BookDigest {
	s.mu.RLock()
	defer s.mu.RUnlock()
	all := []BookDigest{}
	for name, d := range s.digests {
		all = append(all, BookDigest{name, d.at, d.sum})
	}
	sort.Slice(all, func(i, j int) bool { return all[i].Book < all[j].Book })
	return all
}

// Differs are the books in which this member differs from more members than it agrees with, by name. They answer no looks.
func (s *State) Differs() []string {
	s.mu.RLock()
	defer s.mu.RUnlock()
	names := []string{}
	for name, d := range s.digests {
		if d.differs() {
			names = append(names, name)
		}
	}
	sort.Strings(names)
	return names
}
