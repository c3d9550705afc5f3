package replica

import (
	"context"
	"errors"
	"fmt"
	"reflect"
	"sync"
	"testing"
	"time"

	"lrcman/service/internal/engine"
	"lrcman/service/internal/state"
	"lrcman/service/internal/testengine"
)

// A fate is what becomes of a proposal.
type fate struct {
	isMade bool
	err    error
}

var (
	lostWord  = fate{true, engine.ErrOutcomeUnknown}  // it was made, and nobody told
	lostEntry = fate{false, engine.ErrOutcomeUnknown} // nobody knows, and it was not made
	noLeader  = fate{false, engine.ErrNoLeader}
	busy      = fate{false, engine.ErrBusy}
	made      = fate{true, nil}
)

// fated gives the next proposals fates, the last one to all that follow. It returns their payloads, once asked.
func (m *member) fated(fates ...fate) (asked func() []string) {
	var payloads []string
	m.engine.Change(func(e *testengine.Local) {
		e.Wrong = func(payload []byte) (bool, error) {
			payloads = append(payloads, string(payload))
			now := fates[0]
			if len(fates) > 1 {
				fates = fates[1:]
			}
			return now.isMade, now.err
		}
	})
	return func() (all []string) {
		m.engine.Change(func(*testengine.Local) { all = append(all, payloads...) })
		return all
	}
}

// payload is that of an entry with one item.
func (m *member) payload(item *state.Item, since uint64) string {
	item.Since = since
	return string(m.state.Encode([]*state.Item{item}))
}

// forgetKeys makes so many keyed calls that those of before are forgotten.
func (m *member) forgetKeys() {
	m.Helper()
	var items []*state.Item
	for i := 0; i < state.MostKeys+1; i++ {
		it := call("tick", fmt.Sprint("more", i))
		it.Since = m.engine.Status().Applied
		if items = append(items, it); len(items) == ofEntry || i == state.MostKeys {
			if _, err := m.engine.Propose(context.Background(), m.state.Encode(items)); err != nil {
				m.Fatal(err)
			}
			items = nil
		}
	}
}

func (m *member) within(timeout time.Duration, item *state.Item) (state.Answer, error) {
	ctx, cancel := context.WithTimeout(context.Background(), timeout)
	defer cancel()
	return m.replica.Do(ctx, item)
}

// The index that the member had applied when an item was first proposed comes with each repeat of it.
func TestAKeyedItemHasOneSinceInAllProposals(t *testing.T) {
	m := newMember(t, nil).run()
	asked := m.fated(noLeader, lostEntry, lostWord, made)
	answer, err := m.replica.Do(context.Background(), call("tick", "a"))
	if err != nil || answer.Rejected != 0 || !answer.IsAgain || answer.Made != 1 {
		t.Errorf("%+v, %v", answer, err)
	}
	if payloads := asked(); len(payloads) != 4 {
		t.Errorf("%d proposals", len(payloads))
	} else {
		for _, it := range payloads {
			if it != m.payload(call("tick", "a"), 1) {
				t.Errorf("%q", it)
			}
		}
	}
}

// A key that was forgotten between two proposals of its item does not make the item twice, and nobody is told that nothing was
// made.
func TestAnItemIsNotMadeTwiceAfterItsKeyIsForgotten(t *testing.T) {
	m := newMember(t, nil)
	hold, asked := make(chan struct{}), 0
	m.engine.Change(func(e *testengine.Local) {
		e.Wrong = func([]byte) (bool, error) {
			if asked++; asked == 1 {
				close(hold)
				return true, engine.ErrOutcomeUnknown
			}
			return true, nil
		}
	})
	e := &forgetful{Engine: m.engine, after: hold, forget: m.forgetKeys}
	m.replica.cfg.Engine = e
	m.run()
	_, err := m.replica.Do(context.Background(), call("place 1", "once"))
	var unknown *Unknown
	if !errors.As(err, &unknown) || !unknown.HasKey || unknown.Since != 1 {
		t.Fatalf("%v", err)
	}
	again := call("place 1", "once")
	again.Since = unknown.Since
	if answer, err := m.replica.DoSince(context.Background(), again); err != nil || answer.Rejected != state.KeyForgotten {
		t.Errorf("%+v, %v", answer, err)
	}
	if made := m.made(); made != state.MostKeys+2 {
		t.Errorf("%d entries", made)
	}
}

// forgetful is an engine in which all keys are forgotten between the first proposal and the second.
type forgetful struct {
	engine.Engine
	once   sync.Once
	after  chan struct{}
	forget func()
}

func (f *forgetful) Propose(ctx context.Context, payload []byte) (interface{}, error) {
	select {
	case <-f.after:
		f.once.Do(f.forget)
	default:
	}
	return f.Engine.Propose(ctx, payload)
}

// A member that is behind gives an item an old Since, which the first answer renews; a client that tells one gets the answer.
func TestASinceIsRenewedOnlyWhereNothingWasMade(t *testing.T) {
	m := newMember(t, nil)
	m.forgetKeys()
	m.replica.cfg.Engine = behind{m.engine}
	m.run()
	asked := m.fated(made)
	answer, err := m.replica.Do(context.Background(), call("tick", "late"))
	if err != nil || answer.Rejected != 0 || answer.IsAgain {
		t.Errorf("%+v, %v", answer, err)
	}
	want := []string{m.payload(call("tick", "late"), 1), m.payload(call("tick", "late"), answer.At.Index-1)}
	if all := asked(); !reflect.DeepEqual(all, want) {
		t.Errorf("%q, %+v", all, answer)
	}
	own := call("tick", "own")
	own.Since = 1
	if answer, err := m.replica.DoSince(context.Background(), own); err != nil || answer.Rejected != state.KeyForgotten {
		t.Errorf("%+v, %v", answer, err)
	}
	asked = m.fated(lostEntry, made)
	if _, err := m.replica.Do(context.Background(), call("tick", "lost")); !errors.Is(err, engine.ErrOutcomeUnknown) {
		t.Error(err)
	}
	if all := asked(); len(all) != 2 || all[1] != m.payload(call("tick", "lost"), 1) {
		t.Errorf("%q", all)
	}
}

// behind is a member that has applied one entry.
type behind struct{ engine.Engine }

func (b behind) AppliedIndex() uint64 { return 1 }

// Items that came in one entry each have their own fate: one without a key is told at once that nobody knows.
func TestNoItemWaitsForTheFateOfOthers(t *testing.T) {
	m := newMember(t, nil)
	asked := m.fated(lostEntry, noLeader)
	told := make(chan error, 2)
	for _, key := range []string{"a", ""} {
		key := key
		go func() {
			_, err := m.within(2*time.Second, call("tick", key))
			if key == "" {
				told <- err
			}
		}()
	}
	m.eventually(func() bool { return m.waiting() == 2 })
	m.run()
	begun := time.Now()
	if err := <-told; !errors.Is(err, engine.ErrOutcomeUnknown) || time.Since(begun) > time.Second {
		t.Errorf("%v after %v", err, time.Since(begun))
	}
	m.eventually(func() bool { return len(asked()) >= 3 })
	for _, it := range asked()[1:] {
		if it != m.payload(call("tick", "a"), 1) {
			t.Errorf("it is proposed again: %q", it)
		}
	}
}

func (m *member) waiting() int {
	m.replica.queue.mu.Lock()
	defer m.replica.queue.mu.Unlock()
	return len(m.replica.queue.waiting)
}

// What was unknown once stays unknown, whatever is found later on, until an answer comes.
func TestWhatWasUnknownStaysUnknown(t *testing.T) {
	for _, later := range []fate{noLeader, busy, lostEntry} {
		m := newMember(t, nil).run()
		m.fated(lostWord, later)
		_, err := m.within(300*time.Millisecond, call("tick", "a"))
		if !errors.Is(err, engine.ErrOutcomeUnknown) {
			t.Errorf("then %v: %v", later.err, err)
		}
	}
	m := newMember(t, nil).run()
	m.fated(lostWord, noLeader, busy, made)
	if answer, err := m.replica.Do(context.Background(), call("tick", "a")); err != nil || !answer.IsAgain {
		t.Errorf("%+v, %v", answer, err)
	}
}

// Where there is no leader, whoever waits is told that nothing was made: but not of an item that was proposed before.
func TestWhatMayHaveBeenMadeIsNotRefused(t *testing.T) {
	q := newQueue(10)
	proposed, fresh := newPending(call("tick", "a"), true), newPending(call("tick", "b"), true)
	q.add(proposed)
	q.fail(q.take(), engine.ErrOutcomeUnknown)
	q.add(fresh)
	q.refuse(engine.ErrNoLeader)
	select {
	case it := <-fresh.told:
		if it.err != engine.ErrNoLeader {
			t.Error(it.err)
		}
	default:
		t.Error("one that was not proposed waits on")
	}
	if len(proposed.told) != 0 || q.count() != 1 {
		t.Errorf("one that may have been made does not wait on: %d wait", q.count())
	}
	var unknown *Unknown
	if _, err := q.leave(proposed); !errors.As(err, &unknown) || !unknown.HasKey {
		t.Error(err)
	}
}

func TestWhatWasNotProposedIsTellable(t *testing.T) {
	m := newMember(t, nil).run()
	m.fated(busy)
	if _, err := m.within(time.Second, call("tick", "")); err != ErrFull {
		t.Errorf("too much to be committed: %v", err)
	}
	m.fated(noLeader)
	m.eventually(func() bool { // (whoever leaves just as it is proposed hears that nobody knows)
		_, err := m.within(100*time.Millisecond, call("tick", ""))
		if err != engine.ErrNoLeader && !errors.Is(err, engine.ErrOutcomeUnknown) {
			t.Fatal(err)
		}
		return err == engine.ErrNoLeader
	})
	m.fated(noLeader, noLeader, made)
	m.call("tick")
	if made := m.made(); made != 1 {
		t.Errorf("%d entries", made)
	}
}

// Where there has been no leader for longer than an election, callers are told at once, and nothing is taken into an entry.
func TestWithoutALeaderNothingIsProposed(t *testing.T) {
	m := newMember(t, func(cfg *Config) { cfg.Election = 300 * time.Millisecond }).run()
	m.call("tick")
	asked := m.fated(made)
	m.engine.Change(func(e *testengine.Local) { e.Leader = 0 })
	begun := time.Now()
	if _, err := m.within(time.Minute, call("tick", "")); err != engine.ErrNoLeader || time.Since(begun) < 200*time.Millisecond {
		t.Errorf("%v after %v", err, time.Since(begun)) // (an election may come)
	}
	if took := time.Since(begun); took > 10*time.Second {
		t.Errorf("it took %v", took)
	}
	for _, key := range []string{"", "k"} {
		begun = time.Now()
		if _, err := m.within(time.Minute, call("tick", key)); err != engine.ErrNoLeader || time.Since(begun) > 200*time.Millisecond {
			t.Errorf("%v after %v", err, time.Since(begun))
		}
	}
	if err := m.replica.Barrier(context.Background()); err != engine.ErrNoLeader {
		t.Error(err)
	}
	m.engine.Change(func(e *testengine.Local) { e.Leader = 2 })
	m.call("tick")
	if all := asked(); len(all) != 1 || m.made() != 2 {
		t.Errorf("%d proposals, %d entries", len(all), m.made())
	}
}

// A call that came while there was a leader waits for the next one, if that comes soon.
func TestACallWaitsForAnElection(t *testing.T) {
	m := newMember(t, func(cfg *Config) { cfg.Election = 10 * time.Second }).run()
	m.engine.Change(func(e *testengine.Local) { e.Leader = 0 })
	time.AfterFunc(100*time.Millisecond, func() { m.engine.Change(func(e *testengine.Local) { e.Leader = 2 }) })
	m.call("tick")
}

// watching is an engine whose proposals take as long as their contexts.
type watching struct {
	engine.Engine
	ended chan time.Time
}

func (w *watching) Propose(ctx context.Context, payload []byte) (interface{}, error) {
	<-ctx.Done()
	w.ended <- time.Now()
	return nil, engine.ErrOutcomeUnknown
}

// An entry ends with the latest of its callers, and is not proposed again then.
func TestAnEntryEndsWithTheLastOfItsCallers(t *testing.T) {
	var e *watching
	m := newMember(t, func(cfg *Config) {
		e = &watching{cfg.Engine, make(chan time.Time, 10)}
		cfg.Engine = e
	})
	var wait sync.WaitGroup
	last := time.Now()
	for _, timeout := range []time.Duration{300 * time.Millisecond, 600 * time.Millisecond} {
		timeout := timeout
		wait.Add(1)
		go func() {
			defer wait.Done()
			if _, err := m.within(timeout, call("tick", fmt.Sprint(timeout))); !errors.Is(err, engine.ErrOutcomeUnknown) {
				t.Error(err)
			}
		}()
	}
	last = last.Add(600 * time.Millisecond)
	m.eventually(func() bool { return m.waiting() == 2 })
	m.run()
	wait.Wait()
	select {
	case at := <-e.ended:
		if at.Before(last) {
			t.Errorf("it ended at %v, and the last caller left at %v", at, last)
		}
	case <-time.After(20 * time.Second):
		t.Fatal("it does not end")
	}
	time.Sleep(5 * retryTime)
	if len(e.ended) > 0 || m.waiting() > 0 {
		t.Error("it is proposed again")
	}
}

// Entries that are lost on the way to the leader do not hold up others for longer than an election.
func TestManyEntriesThatAreStuckDoNotHoldUpOthers(t *testing.T) {
	var e *partly
	m := newMember(t, func(cfg *Config) {
		e = &partly{Engine: cfg.Engine, stuck: 3 * underWay}
		cfg.Engine, cfg.Election = e, 100*time.Millisecond
	}).run()
	for i := 0; i < 3*underWay; i++ {
		i := i
		go m.within(time.Minute, call("tick", fmt.Sprint(i)))
		m.eventually(func() bool { return e.count() > i })
	}
	if answer, err := m.within(20*time.Second, call("tick", "")); err != nil || answer.Made != 1 {
		t.Errorf("%+v, %v", answer, err)
	}
}

// partly is an engine whose first proposals are lost without a word.
type partly struct {
	engine.Engine
	mu              sync.Mutex
	proposed, stuck int
}

func (p *partly) count() int {
	p.mu.Lock()
	defer p.mu.Unlock()
	return p.proposed
}

func (p *partly) Propose(ctx context.Context, payload []byte) (interface{}, error) {
	p.mu.Lock()
	p.proposed++
	isStuck := p.proposed <= p.stuck
	p.mu.Unlock()
	if isStuck {
		<-ctx.Done()
		return nil, engine.ErrOutcomeUnknown
	}
	return p.Engine.Propose(ctx, payload)
}

// An entry has no more items than their places have numbers, and one that ends a book may stand anywhere in it.
func TestAnEntryHasSoManyItems(t *testing.T) {
	q := newQueue(2 * ofEntry)
	for i := 0; i < ofEntry+10; i++ {
		item := call("tick", "")
		if i == 3 {
			item.Action = state.Remove
		}
		q.add(newPending(item, false))
	}
	for _, want := range []int{ofEntry, 10} {
		if e := q.take(); len(e.items) != want || e.callers != want {
			t.Errorf("%d items and not %d", len(e.items), want)
		}
	}
	if q.take() != nil {
		t.Error("an empty entry")
	}
	large := &state.Item{Action: state.Create, Book: "p1", Nodes: make([]byte, bytesOf)}
	for i := 0; i < 2; i++ {
		q.add(newPending(large, false))
	}
	if e := q.take(); len(e.items) != 1 {
		t.Errorf("%d large items", len(e.items))
	}
}
