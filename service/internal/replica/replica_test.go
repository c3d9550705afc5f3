package replica

import (
	"context"
	"errors"
	"fmt"
	"strings"
	"sync"
	"sync/atomic"
	"testing"
	"time"

	"lrcman/service/book"
	"lrcman/service/internal/engine"
	"lrcman/service/internal/logging"
	"lrcman/service/internal/state"
	"lrcman/service/internal/testengine"
)

func nodes() []byte {
	var text strings.Builder
	for i := 0; i < 20; i++ {
		fmt.Fprintf(&text, "[[node]]\nnumber = %d\nfault = %d\nupgrade = %d\nslots = 4\n", i, i, i%10)
	}
	return []byte(text.String())
}

// A member under test.
type member struct {
	*testing.T
	engine  *testengine.Local
	state   *state.State
	replica *Replica
}

// newMember makes a member with a book p0, which does nothing by itself until it runs.
func newMember(t *testing.T, change func(*Config)) *member {
	t.Helper()
	books := state.New()
	e := testengine.New(books)
	cfg := Config{Engine: e, State: books, Timeout: 2 * time.Second, Log: logging.Nowhere()}
	if change != nil {
		change(&cfg)
	}
	m := &member{t, e, books, New(cfg)}
	m.propose(&state.Item{Action: state.Create, Book: "p0", Nodes: nodes()})
	return m
}

func (m *member) run() *member {
	ctx, stop := context.WithCancel(context.Background())
	m.Cleanup(stop)
	go m.replica.Run(ctx)
	return m
}

func call(line, key string) *state.Item {
	command, err := book.Parse(line)
	if err != nil {
		panic(err)
	}
	return &state.Item{Action: state.Call, Book: "p0", Key: key, Session: 1, Command: command}
}

func (m *member) call(line string) {
	m.Helper()
	if answer, err := m.replica.Do(context.Background(), call(line, "")); err != nil || answer.Rejected != 0 {
		m.Fatal(line, answer, err)
	}
}

// made is the number of entries of the book.
func (m *member) made() (made uint64) {
	m.Helper()
	if err := m.state.Look("p0", func(view *state.View) error { made = view.Position.Made; return nil }); err != nil {
		m.Fatal(err)
	}
	return made
}

// replies are the replies of the book, in order.
func (m *member) replies() (found []string) {
	m.Helper()
	err := m.state.Look("p0", func(view *state.View) error {
		rows, err := view.Entries(0, 1000)
		for i := range rows {
			found = append(found, rows[i].Reply.String())
		}
		return err
	})
	if err != nil {
		m.Fatal(err)
	}
	return found
}

func (m *member) eventually(is func() bool) {
	m.Helper()
	for end := time.Now().Add(20 * time.Second); !is(); time.Sleep(time.Millisecond) {
		if time.Now().After(end) {
			m.Fatal("it does not come")
		}
	}
}

// stuck is an engine in which the first proposal takes until it is released.
type stuck struct {
	engine.Engine
	proposals int32
	released  chan struct{}
}

func (s *stuck) Propose(ctx context.Context, payload []byte) (interface{}, error) {
	if atomic.AddInt32(&s.proposals, 1) == 1 {
		<-s.released
	}
	return s.Engine.Propose(ctx, payload)
}

func TestAnEntryThatIsStuckDoesNotHoldUpOthers(t *testing.T) {
	var e *stuck
	m := newMember(t, func(cfg *Config) {
		e = &stuck{Engine: cfg.Engine, released: make(chan struct{})}
		cfg.Engine, cfg.Timeout = e, time.Minute
	}).run()
	told := make(chan error)
	tick := func() {
		_, err := m.replica.Do(context.Background(), call("tick", ""))
		told <- err
	}
	go tick()
	m.eventually(func() bool { return atomic.LoadInt32(&e.proposals) == 1 })
	go tick() // this one comes through
	if err := <-told; err != nil {
		t.Error(err)
	}
	if replies := m.replies(); len(replies) != 1 || replies[0] != "ticked 1 0" {
		t.Error(replies)
	}
	close(e.released)
	if err := <-told; err != nil {
		t.Error(err)
	}
}

func TestManyCallsAtOnceAreAllAnsweredOnce(t *testing.T) {
	m := newMember(t, nil).run()
	var wait sync.WaitGroup
	seen := make([]uint64, 400)
	for i := range seen {
		wait.Add(1)
		go func(i int) {
			defer wait.Done()
			if answer, err := m.replica.Do(context.Background(), call("tick", "")); err == nil {
				seen[i] = answer.Made
			}
		}(i)
	}
	wait.Wait()
	numbers := map[uint64]bool{}
	for _, made := range seen {
		numbers[made] = true
	}
	if len(numbers) != len(seen) || numbers[0] || !numbers[uint64(len(seen))] {
		t.Errorf("%d of %d", len(numbers), len(seen))
	}
}

// An item whose caller is gone before it was taken into an entry is never proposed and takes no room, and an item beyond the room
// for those that wait is not taken.
func TestWhatNobodyWaitsForIsNotProposed(t *testing.T) {
	m := newMember(t, nil)
	gone, cancel := context.WithCancel(context.Background())
	cancel()
	for i := 0; i < mayWait; i++ {
		if _, err := m.replica.Do(gone, call("tick", "")); err != ErrLate {
			t.Fatal(err)
		}
	}
	waits, leave := context.WithCancel(context.Background())
	for i := 0; i < mayWait; i++ {
		go m.replica.Do(waits, call("tick", ""))
	}
	m.eventually(func() bool { return m.waiting() == mayWait })
	if _, err := m.replica.Do(waits, call("tick", "")); err != ErrFull {
		t.Error(err)
	}
	leave()
	m.eventually(func() bool { return m.waiting() == 0 })
	m.run()
	m.call("place 1")
	if replies := m.replies(); len(replies) != 1 || !strings.HasPrefix(replies[0], "placed ") {
		t.Error(replies)
	}
}

// What may be made twice is not proposed again once its fate is unknown: a book that was made, or removed, under a name meanwhile
// would be another one.
func TestWhatHasNoKeyIsNotProposedAgain(t *testing.T) {
	for _, item := range []*state.Item{call("tick", ""),
		{Action: state.Create, Book: "p1", Nodes: nodes()}, {Action: state.Reopen, Book: "p0", Nodes: nodes()},
		{Action: state.Remove, Book: "p0", At: &state.Position{Made: 0, Opens: 1}}, {Action: state.ChangeRules, Rules: 7}} {
		m := newMember(t, nil).run()
		asked := m.fated(lostWord)
		if _, err := m.replica.Do(context.Background(), item); !errors.Is(err, engine.ErrOutcomeUnknown) || len(asked()) != 1 {
			t.Errorf("%+v: %v, and it was proposed %d times", item, err, len(asked()))
		}
	}
}

func TestTheLeaderTicksBooksWithLeases(t *testing.T) {
	m := newMember(t, func(cfg *Config) { cfg.Tick = 160 * time.Millisecond }).run()
	m.call("place 1")
	time.Sleep(400 * time.Millisecond)
	if replies := m.replies(); len(replies) != 1 {
		t.Errorf("without a lease: %v", replies)
	}
	m.call("fail 1")
	m.call("next")
	m.eventually(func() bool { return len(m.replies()) >= 6 })
	if last := m.replies()[3:6]; strings.Join(last, ", ") != "ticked 1 0, ticked 2 0, ticked 3 1" {
		t.Error(last)
	}
	m.engine.Change(func(e *testengine.Local) { e.Leader = 2 })
	m.call("next")
	time.Sleep(400 * time.Millisecond)
	if replies := m.replies(); len(replies) != 7 {
		t.Errorf("of another leader: %v", replies)
	}
}

// A new leader waits for a whole interval: a lease lasts longer, never shorter. And what was left out is not made up for.
func TestNoTickComesEarly(t *testing.T) {
	const every = 400 * time.Millisecond
	m := newMember(t, func(cfg *Config) { cfg.Tick = every })
	for _, line := range []string{"place 1", "fail 1", "next"} {
		m.propose(call(line, ""))
	}
	m.engine.Change(func(e *testengine.Local) { e.Leader = 2 })
	m.run()
	time.Sleep(2 * every)
	begun := time.Now()
	m.engine.Change(func(e *testengine.Local) { e.Leader = 1 })
	m.eventually(func() bool { return m.made() == 4 })
	if took := time.Since(begun); took < every {
		t.Errorf("a new leader ticks after %v", took)
	}
}

// A leader that gives its lead away in the middle leaves the other books to the next one.
func TestNoBookTicksBehindTheLead(t *testing.T) {
	m := newMember(t, nil)
	m.propose(&state.Item{Action: state.Create, Book: "p1", Nodes: nodes()})
	for _, name := range []string{"p0", "p1"} {
		for _, line := range []string{"place 1", "fail 1", "next"} {
			item := call(line, "")
			item.Book = name
			m.propose(item)
		}
	}
	m.run()
	m.engine.Change(func(e *testengine.Local) {
		e.Wrong = func([]byte) (bool, error) {
			e.Leader = 2
			return true, nil
		}
	})
	m.replica.tickAll()
	for name, want := range map[string]uint64{"p0": 4, "p1": 3} {
		err := m.state.Look(name, func(view *state.View) error {
			if view.Position.Made != want {
				t.Errorf("book %s has %d entries, and not %d", name, view.Position.Made, want)
			}
			return nil
		})
		if err != nil {
			t.Error(err)
		}
	}
}

// slowly is an engine that was stopped for a while at a proposal.
type slowly struct {
	engine.Engine
	once sync.Once
	stop time.Duration
	woke chan time.Time
}

func (s *slowly) Propose(ctx context.Context, payload []byte) (interface{}, error) {
	defer s.once.Do(func() {
		time.Sleep(s.stop)
		s.woke <- time.Now()
	})
	return s.Engine.Propose(ctx, payload)
}

func TestTicksAreNotMadeUpFor(t *testing.T) {
	const every = 300 * time.Millisecond
	var e *slowly
	m := newMember(t, func(cfg *Config) {
		e = &slowly{Engine: cfg.Engine, stop: 6 * every, woke: make(chan time.Time, 1)}
		cfg.Engine, cfg.Tick = e, every
	})
	for _, line := range []string{"place 1", "fail 1", "next"} {
		m.propose(call(line, ""))
	}
	m.run()
	woke := <-e.woke // (a tick was made, and its answer is late)
	m.eventually(func() bool { return m.made() >= 6 })
	if took := time.Since(woke); took < every {
		t.Errorf("two ticks in %v", took)
	}
}

func (m *member) propose(item *state.Item) {
	m.Helper()
	if _, err := m.engine.Propose(context.Background(), m.state.Encode([]*state.Item{item})); err != nil {
		m.Fatal(err)
	}
}

// A look is as old as the question that found it new, and that takes a while.
func TestTheAgeCountsFromBeforeTheQuestion(t *testing.T) {
	m := newMember(t, func(cfg *Config) { cfg.Engine = lateAnswer{cfg.Engine} })
	if err := m.replica.Barrier(context.Background()); err != nil {
		t.Fatal(err)
	}
	if age := m.replica.Age(m.replica.Freshness()); age < 300 {
		t.Errorf("%d ms old", age)
	}
}

type lateAnswer struct{ engine.Engine }

func (l lateAnswer) Barrier(ctx context.Context) error {
	time.Sleep(300 * time.Millisecond)
	return l.Engine.Barrier(ctx)
}

func TestBooksGrowOldWhereNobodyAnswers(t *testing.T) {
	m := newMember(t, func(cfg *Config) { cfg.Engine.(*testengine.Local).Silent = engine.ErrNoLeader })
	r := m.replica
	is := func(least, most int64, keepsUp bool) {
		t.Helper()
		if age := r.Age(r.Freshness()); age < least || age > most || r.KeepsUp() != keepsUp {
			t.Errorf("%d ms old, and not %d to %d; it keeps up: %v", age, least, most, r.KeepsUp())
		}
	}
	is(-1, -1, false)
	if err := r.Barrier(context.Background()); err != engine.ErrNoLeader {
		t.Error(err)
	}
	is(-1, -1, false)
	r.fresh = int64(time.Since(r.begun) - 3*time.Second)
	is(3000, 4900, true)
	before := r.Freshness()
	m.engine.Change(func(e *testengine.Local) { e.Silent = nil })
	if err := r.Barrier(context.Background()); err != nil {
		t.Error(err)
	}
	is(0, 2900, true)
	if age := r.Age(before); age < 3000 || before.Index != 1 {
		t.Errorf("a look that began before is %d ms old, at %d", age, before.Index)
	}
	m.engine.Change(func(e *testengine.Local) { e.Leader = 0 })
	is(0, 2900, false)
	r.fresh -= int64(6 * time.Second)
	m.engine.Change(func(e *testengine.Local) { e.Leader = 1 })
	is(6000, 8900, false)
}

// A program with other rules begins in a snapshot of after the request for them.
func TestASnapshotIsAskedForOnceTheRulesAreToChange(t *testing.T) {
	m := newMember(t, nil)
	m.replica.SaveChange(context.Background())
	if m.engine.Saved != 0 {
		t.Error("without a change")
	}
	item := &state.Item{Action: state.ChangeRules, Rules: m.state.Rules() + 1}
	if _, err := m.engine.Propose(context.Background(), m.state.Encode([]*state.Item{item})); err != nil {
		t.Fatal(err)
	}
	m.run() // (it asks each second)
	m.eventually(func() bool {
		saved := 0
		m.engine.Change(func(e *testengine.Local) { saved = e.Saved })
		return saved > 0
	})
}
