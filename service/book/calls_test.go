package book

import (
	"errors"
	"fmt"
	"math/rand"
	"reflect"
	"strings"
	"testing"
)

// wide are twenty nodes with room for many stripes.
func wide() []byte { return []byte(strings.ReplaceAll(string(twenty()), "slots = 4", "slots = 256")) }

func begun(t *testing.T, nodes []byte) *Book {
	t.Helper()
	b, err := Open(nodes)
	if err != nil {
		t.Fatal(err)
	}
	t.Cleanup(b.Close)
	return b
}

// image is the image of a book.
func image(t *testing.T, b interface{ Image() ([]byte, error) }) string {
	t.Helper()
	text, err := b.Image()
	if err != nil {
		t.Fatal(err)
	}
	return string(text)
}

// A held is the home and the lease of a fragment, as looks tell them.
type held struct {
	home     Home
	lease    LeaseRow
	isLeased uint8
}

// allHeld looks at each fragment of some stripes.
func allHeld(t *testing.T, b *Book, stripes uint16) map[FragmentID]held {
	t.Helper()
	found := map[FragmentID]held{}
	for stripe := uint16(0); stripe < stripes; stripe++ {
		homes, err := b.Homes(stripe)
		if errors.Is(err, ErrNotFound) {
			continue
		}
		for f, home := range homes {
			at := held{home: home}
			if at.lease, err = b.Lease(stripe, uint8(f)); err == nil {
				at.isLeased = 1
			} else if !errors.Is(err, ErrNotFound) {
				t.Fatal(err)
			}
			if at != (held{}) {
				found[FragmentID{Stripe: stripe, Number: uint8(f)}] = at
			}
		}
	}
	return found
}

// differing are the changes from what was held to what is, by stripe and fragment.
func differing(before, now map[FragmentID]held, stripes uint16) []Change {
	var changes []Change
	for stripe := uint16(0); stripe < stripes; stripe++ {
		for f := uint8(0); f < Fragments; f++ {
			of := FragmentID{Stripe: stripe, Number: f}
			if was, is := before[of], now[of]; was != is {
				changes = append(changes, Change{Stripe: stripe, Fragment: f, WasLeased: was.isLeased, IsLeased: is.isLeased,
					HomeBefore: was.home, HomeAfter: is.home, LeaseBefore: was.lease, LeaseAfter: is.lease})
			}
		}
	}
	return changes
}

// busy is a call at a store of many stripes: these are placed first, and then leases are granted and reported among other calls.
func busy(t *testing.T, r *rand.Rand, b *Book, i int, stripes uint16) (uint8, Command) {
	t.Helper()
	leases, err := b.LeaseRows()
	if err != nil {
		t.Fatal(err)
	}
	command := drawn(r)
	switch command.Stripe = uint16(r.Intn(int(stripes))); {
	case i < 60:
		command.Kind = []Kind{Place, Place6}[i%2]
	case i%3 == 0:
		command.Kind = Next
	case i%9 == 1 && len(leases) > 0:
		lease := leases[r.Intn(len(leases))]
		return lease.Holder, Command{Kind: Done, Stripe: lease.Stripe, Fragment: lease.Fragment, Epoch: lease.Epoch}
	}
	return uint8(1 + r.Intn(3)), command
}

// What a call changed is what looks before and after it tell: each fragment that differs, in order, and no other.
func TestChangesAreWhatDiffers(t *testing.T) {
	const stripes = 40
	most := map[Kind]int{}
	for seed := int64(1); seed <= 2; seed++ {
		r, b, plain := rand.New(rand.NewSource(seed)), begun(t, wide()), begun(t, wide())
		now := allHeld(t, b, stripes)
		for i := 0; i < 400; i++ {
			session, command := busy(t, r, b, i, stripes)
			entry, changes, err := b.CallChanges(session, command)
			if err != nil {
				t.Fatal(err)
			}
			if want, err := plain.Call(session, command); err != nil || entry != want {
				t.Fatalf("%v: the entry is %+v, and not %+v, %v", command, entry, want, err)
			}
			before := now
			now = allHeld(t, b, stripes)
			want := differing(before, now, stripes)
			if len(changes) != len(want) || len(want) > 0 && !reflect.DeepEqual(changes, want) {
				t.Fatalf("%v: %+v, and not %+v", command, changes, want)
			}
			if len(want) > most[command.Kind] {
				most[command.Kind] = len(want)
			}
		}
	}
	if most[Fail] <= Fragments || most[Drop] == 0 || most[Next] != 1 || most[Done] != 1 || most[Tick] == 0 || most[Place6] != NarrowFragments {
		t.Errorf("the most rows of commands are %v", most)
	}
	b := begun(t, twenty())
	if _, changes, err := b.CallChanges(9, Command{Kind: Tick}); !IsOutOfRange(err) || changes != nil || b.Made() != 0 {
		t.Error(changes, err)
	}
}

// A batch adds the entries that calls one by one add, up to the first that can't be made.
func TestABatchIsItsCalls(t *testing.T) {
	r, b, plain := rand.New(rand.NewSource(7)), begun(t, twenty()), begun(t, twenty())
	for size := 0; size < 40; size++ {
		asked, want := make([]Entry, size), make([]Entry, size)
		for i := range asked {
			asked[i] = Entry{Session: uint8(1 + r.Intn(8)), Command: drawn(r)}
			var err error
			if want[i], err = plain.Call(asked[i].Session, asked[i].Command); err != nil {
				t.Fatal(err)
			}
		}
		if made, err := b.Calls(asked); err != nil || made != size || !reflect.DeepEqual(asked, want) {
			t.Fatalf("%d: %+v, and not %+v, %v", made, asked, want, err)
		}
	}
	before := b.Made()
	asked := []Entry{{Session: 1, Command: Command{Kind: Tick}}, {Session: 9, Command: Command{Kind: Tick}}, {Session: 1, Command: Command{Kind: Tick}}}
	left := append([]Entry{}, asked[1:]...)
	made, err := b.Calls(asked)
	if made != 1 || !IsOutOfRange(err) || b.Made() != before+1 || asked[0].Reply.Kind != Ticked || !reflect.DeepEqual(asked[1:], left) {
		t.Errorf("%d were made, %v: %+v", made, err, asked)
	}
}

func TestACallIsMadeAtItsPlaceAlone(t *testing.T) {
	b, plain := open(t, "place 1", "fail 3"), open(t, "place 1", "fail 3")
	if err := b.Forget(); err != nil {
		t.Fatal(err)
	}
	for _, place := range []uint64{0, 1, 3, 1<<64 - 1} {
		if _, err := b.CallAt(place, 1, Command{Kind: Next}); !IsMoved(err) {
			t.Errorf("at %d: %v", place, err)
		}
	}
	if image(t, b) != image(t, plain) {
		t.Error("a call was made")
	}
	for place := uint64(2); place < 4; place++ {
		entry, err := b.CallAt(place, 2, Command{Kind: Next, Node: 9})
		if want, other := plain.Call(2, Command{Kind: Next}); err != nil || other != nil || entry != want {
			t.Errorf("%+v, and not %+v: %v %v", entry, want, err, other)
		}
	}
	if b.Made() != 4 {
		t.Error(b.Made())
	}
	if _, err := b.CallAt(4, 0, Command{Kind: Next}); !IsOutOfRange(err) {
		t.Error(err)
	}
}

func TestAPeekIsTheEntryOfTheCall(t *testing.T) {
	r, b := rand.New(rand.NewSource(3)), open(t, "place 1", "place6 2", "fail 3")
	for i := 0; i < 60; i++ {
		session, command, before := uint8(1+r.Intn(8)), drawn(r), image(t, b)
		peeked, err := b.PeekEntry(session, command)
		if err != nil || image(t, b) != before {
			t.Fatalf("%v: %v", command, err)
		}
		if entry, err := b.Call(session, command); err != nil || entry != peeked {
			t.Fatalf("%+v, and not %+v: %v", peeked, entry, err)
		}
	}
	if _, err := b.PeekEntry(1, Command{Kind: 19}); !IsOutOfRange(err) {
		t.Error(fmt.Sprint(err))
	}
}
