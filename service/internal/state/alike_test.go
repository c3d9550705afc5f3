package state

import (
	"bytes"
	"fmt"
	"io"
	"math/rand"
	"reflect"
	"sync"
	"testing"

	"lrcman/service/book"
)

func drawnCommand(line string) book.Command {
	command, err := book.Parse(line)
	if err != nil {
		panic(err)
	}
	return command
}

// drawnItem is an item of any action, of which most can be made.
func drawnItem(r *rand.Rand, s *State, index uint64) *Item {
	item := &Item{Book: []string{"a", "b", "c", "d"}[r.Intn(4)], Worker: []string{"", "v", "w"}[r.Intn(3)]}
	if r.Intn(2) == 0 {
		item.Key, item.Owner, item.Since = fmt.Sprint(r.Intn(30)), []string{"", "o"}[r.Intn(2)], index-1-uint64(r.Intn(3))%index
	}
	if e := s.books[item.Book]; e != nil && r.Intn(4) == 0 {
		e.mu.Lock()
		at := e.position()
		e.mu.Unlock()
		at.Made -= uint64(r.Intn(2)) % (at.Made + 1)
		item.At = &at
	}
	nodes := [][]byte{twenty, nodesOf(21, 4), nodesOf(22, 4), []byte("none")}[r.Intn(4)]
	switch r.Intn(20) {
	case 0:
		item.Action, item.Nodes, item.At = Create, nodes, nil
	case 1:
		item.Action, item.Nodes, item.At = Create, nodes, nil
		item.Image = []byte(fmt.Sprintf("image 1\nbefore %d\nclock 3\nend\n", r.Intn(3)))
	case 2:
		item.Action, item.Nodes = Reopen, nodes
	case 3:
		item.Action = Remove
	case 4:
		item.Action, item.Book, item.Rules = ChangeRules, "", []uint32{0, book.Rules(), book.Rules() + 8}[r.Intn(3)]
	case 5:
		item.Action = Digest
	case 6:
		item.Action, item.Member = Report, uint64(r.Intn(3))
	default:
		item.Action, item.Session = Call, uint8(r.Intn(10))
		item.Command = drawnCall(r)
	}
	if item.Action != Call {
		item.Worker = ""
	}
	return item
}

func drawnCall(r *rand.Rand) book.Command {
	stripe, fragment, node := r.Intn(3), r.Intn(16), r.Intn(20)
	lines := []string{"tick", "next", "next", fmt.Sprint("place ", stripe), fmt.Sprint("place6 ", stripe),
		fmt.Sprint("drop ", stripe), fmt.Sprint("fail ", node), fmt.Sprint("join ", node), fmt.Sprint("down ", node),
		fmt.Sprint("up ", node), fmt.Sprint("drain ", node),
		fmt.Sprintf("lease %d %d", stripe, fragment), fmt.Sprintf("done %d %d %d", stripe, fragment, 1+r.Intn(2)),
		fmt.Sprintf("abandon %d %d %d", stripe, fragment, 1+r.Intn(2)), fmt.Sprintf("revoke %d %d", stripe, fragment)}
	return drawnCommand(lines[r.Intn(len(lines))])
}

// drawnPayload is an entry, now and then one that is refused as a whole.
func drawnPayload(r *rand.Rand, s *State, index uint64) ([]byte, []*Item) {
	var items []*Item
	for count := r.Intn(7); count > 0; count-- {
		items = append(items, drawnItem(r, s, index))
	}
	payload := s.Encode(items)
	switch kind := r.Intn(30); {
	case kind == 0:
		return payload[:r.Intn(len(payload))], items
	case kind == 1:
		payload[0] = 3 // another form
	case kind == 2 && s.group.now.rules != 0:
		payload[1]++ // other rules
	}
	return payload, items
}

// A late is a snapshot that is being written, and the index at which it was begun.
type late struct {
	freeze *freeze
	write  func() []byte
	begun  uint64
}

// An alike is a member with its log, and the snapshots that are being written.
type alike struct {
	*player
	r        *rand.Rand
	payloads [][]byte
	items    [][]*Item
	told     [][]Answer
	late     []*late
}

// takeSome takes records of some books for the snapshots that are being written. It is called between two items.
func (a *alike) takeSome(Stamp) error {
	for _, it := range a.late {
		for _, e := range it.freeze.books {
			if a.r.Intn(4) == 0 && e.book != nil {
				e.mu.Lock()
				it.freeze.recordFirst(e)
				e.mu.Unlock()
			}
		}
	}
	return nil
}

func (a *alike) freeze() {
	write := a.s.Freeze()
	a.late = append(a.late, &late{a.s.freezes[len(a.s.freezes)-1], func() []byte {
		var text bytes.Buffer
		if err := write(&text); err != nil {
			a.t.Fatal(err)
		}
		return text.Bytes()
	}, a.index})
}

func (a *alike) step() {
	a.index++
	payload, items := drawnPayload(a.r, a.s, a.index)
	told, err := a.s.Apply(a.index, payload)
	if err != nil {
		a.t.Fatal(err)
	}
	a.payloads, a.items, a.told = append(a.payloads, payload), append(a.items, items), append(a.told, told.([]Answer))
}

// replayed is a member that begins in a snapshot and goes on with the log behind it. It tells the same, or passes over calls and
// digests that its books have.
func (a *alike) replayed(snapshot []byte, begun uint64) {
	a.t.Helper()
	q := a.restored(snapshot)
	defer func() { q.s.closeAll() }()
	for index := begun + 1; index <= a.index; index++ {
		if a.r.Intn(15) == 0 { // (it is restarted, and its own snapshot has as much)
			before := q
			q = q.restored(q.snapshot())
			before.s.closeAll()
		}
		told, err := q.s.Apply(index, a.payloads[index-1])
		if err != nil {
			a.t.Fatal(err)
		}
		for i, answer := range told.([]Answer) {
			want := a.told[index-1][i]
			isPassed := answer == Answer{At: want.At} && (a.items[index-1][i].Action == Call || a.items[index-1][i].Action == Digest)
			if answer != want && !isPassed {
				a.t.Fatalf("entry %d, item %d, %+v: %+v, and before %+v", index, i, a.items[index-1][i], answer, want)
			}
		}
	}
	if !bytes.Equal(q.snapshot(), a.snapshot()) {
		a.t.Fatal("a member that began in a snapshot has another one in the end")
	}
}

// Members are alike: one that begins in any snapshot, each book of which was taken between any two items, tells the same and has
// the same state in the end.
func TestMembersAreAlike(t *testing.T) {
	logs := 10
	if testing.Short() {
		logs = 4
	}
	passed := 0
	for seed := 0; seed < logs && !t.Failed(); seed++ {
		r := rand.New(rand.NewSource(int64(seed)))
		a := &alike{player: &player{t: t, s: NewWith(Knobs{Keys: 5, Books: 3})}, r: r}
		a.s.knobs.Item = a.takeSome
		snapshots := map[int][]byte{}
		for step := 0; step < 60; step++ {
			a.step()
			if r.Intn(8) == 0 && len(a.late) < mostFreezes {
				a.freeze()
			}
			if len(a.late) > 0 && r.Intn(10) == 0 {
				snapshots[int(a.late[0].begun)] = a.late[0].write()
				a.late = a.late[1:]
			}
		}
		for _, it := range a.late {
			snapshots[int(it.begun)] = it.write()
		}
		a.late = nil
		for begun, snapshot := range snapshots {
			if err := New().Verify(bytes.NewReader(snapshot)); err != nil {
				t.Error(err)
			}
			a.replayed(snapshot, uint64(begun))
			passed++
		}
		a.replayed(New().empty(t), 0)
	}
	if passed < logs {
		t.Errorf("%d snapshots of %d logs", passed, logs)
	}
}

// Snapshots are written and books are looked at beside entries, by other goroutines.
func TestSnapshotsAreWrittenBesideEntries(t *testing.T) {
	a := &alike{player: &player{t: t, s: NewWith(Knobs{Keys: 5, Books: 3})}, r: rand.New(rand.NewSource(8))}
	var mu sync.Mutex
	snapshots, stop := map[uint64][]byte{}, make(chan struct{})
	var lookers, writers sync.WaitGroup
	for i := 0; i < 3; i++ {
		lookers.Add(1)
		go func() {
			defer lookers.Done()
			a.lookAround(stop)
		}()
	}
	slots := make(chan struct{}, mostFreezes)
	for step := 0; step < 200; step++ {
		a.step()
		if a.r.Intn(8) > 0 {
			continue
		}
		slots <- struct{}{}
		writers.Add(1)
		go func(write func(io.Writer) error, begun uint64) {
			defer writers.Done()
			var text bytes.Buffer
			if err := write(&text); err != nil {
				t.Error(err)
			}
			mu.Lock()
			snapshots[begun] = text.Bytes()
			mu.Unlock()
			<-slots
		}(a.s.Freeze(), a.index)
	}
	writers.Wait()
	close(stop)
	lookers.Wait()
	for begun, snapshot := range snapshots {
		a.replayed(snapshot, begun)
	}
}

// lookAround looks at all that there is until it is told to stop.
func (a *alike) lookAround(stop <-chan struct{}) {
	for {
		for _, name := range a.s.Names() {
			err := a.s.Look(name, func(v *View) error {
				if _, err := v.Holders(); err != nil {
					return err
				}
				_, err := v.Entries(v.Before(), 10)
				return err
			})
			if err != nil && err != ErrNoBook {
				a.t.Error(err)
			}
		}
		if len(a.s.Differs()) > len(a.s.Digests()) || a.s.Change().Form != Form {
			a.t.Error("it has more books that differ than digests")
		}
		select {
		case <-stop:
			return
		default:
		}
	}
}

// empty is the snapshot of a state before the first entry.
func (s *State) empty(t *testing.T) []byte {
	p := &player{t: t, s: s}
	return p.snapshot()
}

// A snapshot tells all of a state: whoever begins in it writes the same.
func TestASnapshotOfADrawnStateIsWrittenAgain(t *testing.T) {
	r := rand.New(rand.NewSource(5))
	a := &alike{player: &player{t: t, s: NewWith(Knobs{Keys: 5})}, r: r}
	for step := 0; step < 200; step++ {
		a.step()
		if step%10 == 0 {
			snapshot := a.snapshot()
			q := a.restored(snapshot)
			if !bytes.Equal(q.snapshot(), snapshot) || !reflect.DeepEqual(q.s.Names(), a.s.Names()) || q.s.Change() != a.s.Change() {
				t.Fatal(step)
			}
		}
	}
}
