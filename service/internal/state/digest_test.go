package state

import (
	"reflect"
	"testing"
)

// digested takes a digest of p0 and returns it.
func (p *player) digested() BookDigest {
	p.t.Helper()
	answer := p.item(&Item{Action: Digest, Book: "p0"})
	all := p.s.Digests()
	if answer.Rejected != 0 || len(all) != 1 || all[0].Book != "p0" || all[0].At != answer.At {
		p.t.Fatalf("%+v, %+v", answer, all)
	}
	return all[0]
}

func (p *player) reports(member uint64, d BookDigest) {
	p.t.Helper()
	if answer := p.item(&Item{Action: Report, Book: d.Book, Digest: d.At, Member: member, Sum: d.Sum}); answer.Rejected != 0 {
		p.t.Fatal(answer)
	}
}

func (p *player) differs(is bool) {
	p.t.Helper()
	err := p.s.Look("p0", func(*View) error { return nil })
	if names := p.s.Differs(); (len(names) > 0) != is || (err == ErrDiffers) != is {
		p.t.Errorf("%v, %v", names, err)
	}
}

// Members that are alike have the same digest, whatever snapshots they began in, and whatever they have forgotten of the log.
func TestDigestsOfMembersAreAlike(t *testing.T) {
	p := full(t)
	p.item(&Item{Action: ChangeRules, Rules: 1, Form: Form})
	q := p.restored(p.snapshot())
	view(t, q, func(v *View) {
		if err := v.Forget(); err != nil {
			t.Error(err)
		}
	})
	one, other := p.digested(), q.digested()
	if one != other {
		t.Errorf("%+v and %+v", one, other)
	}
	for what, change := range map[string]func(*bookEntry){
		"another clock": func(e *bookEntry) {
			if _, err := e.book.Call(1, drawnCommand("tick")); err != nil {
				t.Error(err)
			}
		},
		"another key":     func(e *bookEntry) { e.keys.rows[0].name = nameOf("n", "held") },
		"another answer":  func(e *bookEntry) { e.keys.rows[0].told.holder = "w3" },
		"a key forgotten": func(e *bookEntry) { e.keys.forgot.Position++ },
		"another holder":  func(e *bookEntry) { e.holders = nil },
		"another place":   func(e *bookEntry) { e.opens++ },
	} {
		q := p.restored(p.snapshot())
		r := p.restored(p.snapshot())
		change(q.s.books["p0"])
		if q.digested().Sum == r.digested().Sum {
			t.Errorf("%s is not seen", what)
		}
	}
}

// A member that differs from more members than it agrees with says so, and answers no looks of that book.
func TestAMemberThatDiffersSaysSo(t *testing.T) {
	for name, it := range map[string]struct {
		same    []bool // of the reports that come: whether they have what this member found
		differs bool
	}{
		"alone":            {[]bool{true}, false},
		"one of two":       {[]bool{true, false}, false},
		"it is behind":     {[]bool{false}, false},
		"one of three":     {[]bool{true, false, false}, true},
		"another of three": {[]bool{true, true, false}, false},
		"two of five":      {[]bool{true, true, false, false, false}, true},
	} {
		p := newPlayer(t)
		d := p.digested()
		other := d
		other.Sum[7]++
		for member, isSame := range it.same {
			p.differs(false)
			if isSame {
				p.reports(uint64(member), d)
				p.reports(uint64(member), d) // (again: it counts once)
			} else {
				p.reports(uint64(member), other)
			}
		}
		if p.differs(it.differs); t.Failed() {
			t.Fatal(name)
		}
		p.reports(17, BookDigest{"p0", Stamp{1, 0}, [32]byte{}}) // of a digest that it does not have
		p.expect(p.call("tick"), 1, "ticked 1 0")                // calls are made all the same
		p.digested()
		p.differs(it.differs) // until it begins in a snapshot of another member
		p.restored(p.snapshot()).differs(false)
	}
}

// The reports of members that are not what most are may come first.
func TestThoseWhoDifferMayReportFirst(t *testing.T) {
	p := newPlayer(t)
	d := p.digested()
	other := d
	other.Sum[7]++
	for member, it := range []BookDigest{other, other, d, d, d} {
		p.reports(uint64(member), it)
	}
	p.differs(false)
	p.digested()
	p.differs(false)
}

func TestADigestIsOfABookThatIsThere(t *testing.T) {
	p := newPlayer(t)
	p.rejected(p.item(&Item{Action: Digest, Book: "p9"}), NoBook, "there is no book p9")
	p.rejected(p.item(&Item{Action: Report, Book: "p9"}), NoBook, "there is no book p9")
	p.digested()
	p.item(&Item{Action: Remove, Book: "p0"})
	if all := p.s.Digests(); !reflect.DeepEqual(all, []BookDigest{}) {
		t.Error(all)
	}
}
